"""Memory that the system refuses: each request of a run in turn, and the program says so and loses nothing.

    python3 bench/memory.py PROGRAM [--most M]

runs the schedules of `examples/` and those of one replica, each anew for the k-th request for memory that is refused, for
k up to the last one of the run: the program ends with status 8 and a prefix of the output, or as if nothing had been
refused. Then a node that is a cluster of its own, asked by a client: it ends with status 8 or goes on, its sheet replays,
and started again on the same log it has each command that was answered. Requests are refused by a library in front of
the system's own, which `cc` builds; M bounds k, for all runs.

Ends with 0 where all holds, with 1 and the reason where it does not, and with 0 and a word where there is no `cc`.
"""

import argparse
import glob
import os
import shutil
import subprocess
import sys
import tempfile
from typing import Dict, Tuple

from faults import Broken, check_kept, check_sheet, node_words, run_node
from nodes import free_addresses, text_of
from shim import Shim, built, has_come

TURNS = 60
NO_MEMORY = 8

# Replicas alone, whose runs are short: requests, a repeat, ticks, a new epoch, and stops.
ALONE = {
    "one replica": "replicas 1\nrequest 0 5 7 1 put 61 62\nrequest 0 5 7 2 get 61\nrequest 0 9 7 2 get 61\ntick 0 20\n",
    "one replica that stops": "replicas 1\nrequest 0 5 7 1 put 61 62\ncrash 0\nstart 0\nrequest 0 6 7 2 get 61\nsuspect 0 9 0\n",
}


def replayed(shim: Shim, schedule: bytes, environment: Dict[str, str]) -> Tuple[int, bytes]:
    """The status and the output of a replay."""
    done = subprocess.run([shim.program, "replay"], input=schedule, capture_output=True, env=environment, check=False)
    return done.returncode, done.stdout


def try_schedule(shim: Shim, name: str, schedule: bytes, most: int, folder: str) -> int:
    """Refuses each request of a replay in turn; answers how many it has."""
    whole = replayed(shim, schedule, dict(os.environ))
    mark = f"{folder}/refused"
    for at in range(1, most + 1):
        status, output = replayed(shim, schedule, shim.environment("malloc", at, mark))
        if not has_come(mark):
            return at - 1
        if (status, output) != whole and not (status == NO_MEMORY and whole[1].startswith(output)):
            raise Broken(f"{name}: request {at} is refused, and the replay ends with {status} and {output[-80:]!r}")
    return most


def try_node(shim: Shim, at: int, is_for_all: bool) -> bool:
    """Refuses a request of a node, or all from there on; answers whether it came to that."""
    folder = tempfile.mkdtemp(prefix="crsm-memory-")
    what = f"a node, request {at} {'and all that follow are' if is_for_all else 'is'} refused"
    try:
        address = text_of(free_addresses(1)[0])
        words = node_words(shim.program, address, TURNS)
        environment = shim.environment("malloc", at, f"{folder}/refused", is_for_all)
        status, answered = run_node(folder, words, shim.program, address, environment)
        if status not in (0, NO_MEMORY):
            raise Broken(f"{what}: it ends with {status}")
        check_sheet(shim.program, folder, what)
        check_kept(shim.program, folder, answered, what)
        return has_come(f"{folder}/refused")
    finally:
        shutil.rmtree(folder)


def try_nodes(shim: Shim, most: int) -> int:
    """Refuses each request of a node in turn, once alone and once with all that follow; answers how many there were."""
    at = 0
    while at < most and try_node(shim, at + 1, False):
        try_node(shim, at + 1, True)
        at += 1
    return at


def main() -> int:
    """All runs."""
    reader = argparse.ArgumentParser(description=__doc__, formatter_class=argparse.RawDescriptionHelpFormatter)
    reader.add_argument("program", type=os.path.abspath)
    reader.add_argument("--most", type=int, default=100_000)
    words = reader.parse_args()
    if shutil.which("cc") is None:
        print("memory: no cc here, so nothing was tried")
        return 0
    schedules = {name: text.encode() for name, text in ALONE.items()}
    for path in sorted(glob.glob(f"{os.path.dirname(__file__)}/../examples/*.schedule")):
        with open(path, "rb") as file:
            schedules[os.path.basename(path)] = file.read()
    folder = tempfile.mkdtemp(prefix="crsm-memory-")
    try:
        shim = Shim(built(folder), words.program)
        tried = [f"{name} {try_schedule(shim, name, it, words.most, folder)}" for name, it in schedules.items()]
        tried.append(f"a node {try_nodes(shim, words.most)}")
    except Broken as broken:
        print(f"memory: {broken}", file=sys.stderr)
        return 1
    finally:
        shutil.rmtree(folder)
    print(f"memory: ok, so many requests refused in turn: {', '.join(tried)}")
    return 0


if __name__ == "__main__":
    sys.exit(main())
