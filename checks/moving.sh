#!/usr/bin/env bash
# A store moves to a new cluster by a dump and a load: its keys live on, and so does a lock with its fence.
set -u
cd "$(dirname "$0")/.." || exit 1
. checks/program.bash
python3 -B -W error bench/moving.py "$program"
