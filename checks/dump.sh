#!/usr/bin/env bash
# The dump of a node's log has what the node answers: while the node runs, once it was killed, and behind a torn end.
set -u
cd "$(dirname "$0")/.." || exit 1
. checks/program.bash
python3 -B bench/dump.py "$program"
