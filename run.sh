#!/bin/sh
# Proves and builds the program, makes a book of the sample fortnight, and prints its SAIDI, SAIFI and CAIDI.
#
#     sh run.sh               # the first time an hour or so on four processors, later a second
#     sh run.sh --quick       # a first figure in some minutes, without any proof
#
# It installs Debian's packages that are missing: as root, or by sudo once it has named them.
program=run.sh part=run
. "$(dirname "$0")/ci/environment.sh"
start ci/first_run.py "$@"
