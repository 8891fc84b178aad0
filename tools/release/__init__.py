"""What is installed and handed on: the tree of files, the manual pages and the packages."""
