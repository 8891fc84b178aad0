#!/usr/bin/env bash
# Gradescope runs this once, as root, when the autograder is built of the zip file: it installs the package. Beside it
# in the zip file stand the Debian package, run_autograder, and the folder `exercise` with schema.sql, the CSV files,
# exercise.toml if there is one, and TASK/reference.sql for each task.
set -euo pipefail
source=$(cd "$(dirname "$(readlink -f "${BASH_SOURCE[0]}")")" && pwd)
apt-get update
DEBIAN_FRONTEND=noninteractive apt-get install --yes "$source"/ratest_*.deb
