"""Whether one `operate` at a cluster that was quiet takes effect.

    python3 bench/quiet.py PROGRAM

starts three clusters of three nodes, side by side, leaves each alone for 12 seconds, sends one `operate`, and sees that
the members are those that it names: one cluster grows to five nodes, one has a new node in the place of one that still
runs, and one in the place of one that was killed. Ends with 0 where each member answers a command within 20 seconds, and
each node that is no member is refused; with 1 and what was seen where not.
"""

import os
import shutil
import subprocess
import sys
import tempfile
import threading
import time
from typing import List

HERE = os.path.dirname(os.path.abspath(__file__))
sys.path[:0] = [HERE, f"{HERE}/../clients/python"]

from crsm import Client, CrsmError, Refused  # noqa: E402
from nodes import Address, Node, free_addresses, text_of  # noqa: E402

NODES, ADDRESSES = 3, 5
QUIET = 12.0
SETTLED_WITHIN = 20.0
NO_MEMBER = 1


class Trial(threading.Thread):
    """A cluster, and what one `operate` made of it."""

    def __init__(self, program: str, folder: str, addresses: List[Address], members: List[int], killed: List[int]):
        super().__init__()
        self.members, self.killed = members, killed
        self.seen = "it was cut off"
        self._program = program
        self._addresses = addresses
        peers = ",".join(text_of(it) for it in addresses)
        self._nodes = [Node(program, f"{folder}/{at}", at, NODES, peers) for at in range(ADDRESSES)]

    def _answer(self, at: int) -> str:
        """What a node says to a command."""
        with Client([self._addresses[at]], client=900 + at, timeout=1.0) as one:
            try:
                one.get("probe")
                return "ok"
            except Refused as error:
                return f"no {error.code}"
            except CrsmError:
                return "silent"

    def _await(self, members: List[int]) -> bool:
        """Waits until each member answers, and each other node that runs is refused."""
        wanted = {at: "ok" if at in members else f"no {NO_MEMBER}" for at in range(ADDRESSES) if self._nodes[at].is_up()}
        end = time.monotonic() + SETTLED_WITHIN
        while time.monotonic() < end:
            answers = {at: self._answer(at) for at in wanted}
            if answers == wanted:
                return True
            self.seen = ", ".join(f"node {at}: {answer}" for at, answer in answers.items())
            time.sleep(0.2)
        return False

    def run(self) -> None:
        """The whole trial."""
        try:
            self._run()
        finally:
            for it in self._nodes:
                it.kill()

    def _run(self) -> None:
        for at in range(NODES):
            self._nodes[at].start()
        if not self._await(list(range(NODES))):
            return
        for at in self.killed:
            self._nodes[at].kill()
        time.sleep(QUIET)
        for at in self.members:
            if not self._nodes[at].is_up():
                self._nodes[at].start()
        time.sleep(1.0)
        words = [self._program, "operate", text_of(self._addresses[0]), ",".join(map(str, self.members))]
        subprocess.run(words, check=True)
        if self._await(self.members):
            self.seen = ""


def main() -> int:
    """The three trials."""
    program = os.path.abspath(sys.argv[1])
    folder = tempfile.mkdtemp()
    wanted = {"grow": ([0, 1, 2, 3, 4], []), "take out": ([0, 1, 3], []), "replace": ([0, 1, 3], [2])}
    # (all at once: an address that is let go may be given out again)
    free = free_addresses(ADDRESSES * len(wanted))
    trials = {
        name: Trial(program, f"{folder}/{name}", [free.pop() for _ in range(ADDRESSES)], *what)
        for name, what in wanted.items()
    }
    for it in trials.values():
        it.start()
    for it in trials.values():
        it.join()
    shutil.rmtree(folder)
    failed = {name: it for name, it in trials.items() if it.seen}
    for name, it in failed.items():
        print(f"quiet: {name}: {it.members} are not the members: {it.seen}", file=sys.stderr)
    return 1 if failed else 0


if __name__ == "__main__":
    sys.exit(main())
