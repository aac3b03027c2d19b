#!/usr/bin/env bash
# Nodes at three sites far apart answer in the time that the ways between them take, and a site that was cut off comes
# back. Where this machine lets nobody make such a network, the line says why, and nothing is tried.
set -u
cd "$(dirname "$0")/.." || exit 1
. checks/program.bash
python3 -B bench/wan.py "$program" --short
status=$?
[ "$status" = 3 ] && exit 0
exit "$status"
