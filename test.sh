#!/bin/sh
# Runs every proof and every test. If all is well the last line ends with ", 0 failed" and the status is 0.
#
#     sh test.sh              # mutation tests of what changed, and of one crate in eight of the others by turn
#     sh test.sh --all        # all mutation tests
#     sh test.sh --record     # as either, and writes ci/edits.txt by what was seen rejected
#
# It installs Debian's packages that are missing: as root, or by sudo once it has named them.
program=test.sh part=all
. "$(dirname "$0")/ci/environment.sh"
start ci/run.py "$@"
