#!/usr/bin/env bash
# Nodes answer on a network that loses packets, and those that are long, while a node stands still, and beside a stranger.
# Six nodes answer once a network is whole again that was slow. No datagram is put together from fragments of two
# processes of a node whose clock was wrong.
set -u
cd "$(dirname "$0")/.." || exit 1
. checks/program.bash
python3 -B bench/network.py "$program" --short &&
  python3 -B bench/jam.py "$program" --short &&
  python3 -B bench/splice.py "$program" --short
