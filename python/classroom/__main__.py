"""`python3 -m classroom` is the command `classroom`."""
import sys

from classroom.main import main

sys.exit(main())
