#!/usr/bin/env bash
# One request for other members takes effect at a cluster that was quiet for 12 seconds: real nodes of three clusters, of
# which one grows, one has a new node in the place of one that still runs, and one in the place of one that was killed.
set -u
cd "$(dirname "$0")/.." || exit 1
. checks/program.bash
python3 -B bench/quiet.py "$program" && echo "quiet: ok"
