#!/usr/bin/env bash
# A real node under strace: one call of the system fails, and nothing that was answered is missing after a restart. The
# same on small file systems that run full or turn read-only.
set -u
cd "$(dirname "$0")/.." || exit 1
. checks/program.bash
python3 -B bench/faults.py "$program" --most 20 && python3 -B bench/disks.py "$program"
