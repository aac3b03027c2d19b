"""Power that is lost: a loaded node, or three, whose disk keeps what was synced and anything of the rest.

    python3 bench/power.py PROGRAM [--nodes N] [--cuts K] [--seed S] [--fails] [--lies] [--clients C] [--slow MS]

puts a library (`power.c`) in front of the system's calls of each node. The power is lost at a call or a moment that is
drawn from the seed, while C clients, 32 of them if nothing is said, keep a command each under way: then any part of what was not synced reaches the log
file, by sectors of 512 bytes, with any length between the old and the new, and a name whose folder was not synced may
be gone. One in four losses comes while a node starts. With three nodes one, two or all of them lose the power at once.

Then the nodes start again and go on. After each 25 losses all are stopped and judged: each start opened its log, which
began with what the start before had found; each command that was answered stands in the list, with that answer; lists
and answers are those of `chaos.py`, and the audit of all sheets agrees.

With `--fails` a sync of a gate fails before some losses, and the system takes the page that it should have written as
written: the node ends with status 7 and is started again, reads what the disk does not have, and then loses the power.

With `--slow` each sync takes so many milliseconds, so that many turns wait and are flushed as one group. The end says
how many turns the greatest group had; a slow trial whose groups have 32 at most has not tried what it is for, and fails.

With `--lies` no sync keeps anything: the trial is then expected to find a loss, and ends with 0 where it does.

Ends with 0 where all holds, with 1 and the reason where it does not, and with 0 and a word where there is no `cc`.
"""

import argparse
import os
import random
import shutil
import signal
import socket
import subprocess
import sys
import tempfile
import time
from collections import Counter
from dataclasses import dataclass, field
from typing import List

from chaos import whole_lines
from load import CLIENTS, Broken, Load, judge_all
from nodes import Node, free_addresses, text_of

HERE = os.path.dirname(os.path.abspath(__file__))

LOSSES_OF_A_LIFE = 25
ANSWERED_WITHIN = 60.0
# Seconds between two requests for all members, to one node and to three.
OPERATE_EVERY = {1: 0.1, 3: 0.5, 5: 0.5}
# The calls of a start that has a log of some entries, and of the first one, are about so many.
CALLS_OF_A_START = 12
MOST_ANSWERS = 60
MOST_SYNCS = 40
LOG_FAILED = 7
# The most turns of a group.
MOST_TURNS = 256
# How a process ends that loses its power, and one that was told so before the library was there.
LOST = (-signal.SIGKILL, -signal.SIGUSR1)


def built(folder: str) -> str:
    """The path of the library, built in this folder."""
    made = f"{folder}/power.so"
    subprocess.run(["cc", "-O1", "-shared", "-fPIC", "-o", made, f"{HERE}/power.c", "-ldl"], check=True)
    return made


# ---- the nodes


class Life:
    """A cluster from its first start to its judgement."""

    def __init__(self, words: argparse.Namespace, library: str, folder: str, seed: int):
        self.words, self.folder = words, folder
        self.chance = random.Random(seed)
        self.addresses = free_addresses(words.nodes)
        peers = ",".join(text_of(it) for it in self.addresses)
        self.nodes = [Node(words.program, f"{folder}/{at}", at, words.nodes, peers) for at in range(words.nodes)]
        self.load = Load(self.addresses, seed + 1, words.clients)
        self.losses: Counter = Counter()
        self._library = library
        self._operator = socket.socket(socket.AF_INET, socket.SOCK_DGRAM)

    def _start(self, node: Node, loss_at: int, failure_at: int = 0) -> None:
        """Starts a node that loses the power at this call, or when it is told; a sync from this one on fails."""
        node.environment = {
            **os.environ,
            "LD_PRELOAD": self._library,
            "POWER_SEED": str(self.chance.randrange(1 << 30)),
            "POWER_AT": str(loss_at),
            "POWER_FAILS": str(failure_at),
            "POWER_SLOW": str(1000 * self.words.slow),
            "POWER_MARK": f"{self.folder}/mark-{node.number}",
        }
        if self.words.lies:
            node.environment["POWER_LIES"] = "1"
        node.start()

    def _has_lost_power(self, node: Node) -> bool:
        """Whether a node has ended by a loss of power; it may have ended in no other way."""
        status = node.process.poll()
        if status is not None and status not in LOST:
            raise Broken(f"node {node.number}, start {node.boots}, ends with {status}: {node.last_words()}")
        return status is not None

    def _operate(self) -> None:
        """Asks a node that is up for all members: nodes that were started again wait for that."""
        up = [it.number for it in self.nodes if it.process is not None and not self._has_lost_power(it)]
        if up:
            datagram = bytes([6, len(self.nodes), *range(len(self.nodes))])
            self._operator.sendto(datagram, self.addresses[self.chance.choice(up)])

    def _await_answers(self, count: int, ends: List[Node]) -> None:
        """Waits for so many answers, or until one of these nodes has lost the power."""
        wanted, began, asked = self.load.answered + count, time.monotonic(), 0.0
        while self.load.answered < wanted and not any([self._has_lost_power(it) for it in ends]):
            now = time.monotonic()
            if now > began + ANSWERED_WITHIN:
                raise Broken(f"no {count} answers within {ANSWERED_WITHIN} s after {sum(self.losses.values())} losses")
            if now > asked + OPERATE_EVERY[len(self.nodes)]:
                asked = now
                self._operate()
            time.sleep(0.005)

    def _lose(self, victims: List[Node]) -> None:
        """Takes the power from these nodes, of which some may have lost it already."""
        began, told_to = time.monotonic(), 0
        while not all([self._has_lost_power(it) for it in victims]):
            # (the second signal takes it at once, where no call comes)
            if told_to == 0 or (told_to == 1 and time.monotonic() > began + 0.3):
                told_to += 1
                self._operate()
                for it in victims:
                    if not self._has_lost_power(it):
                        it.process.send_signal(signal.SIGUSR1)
            time.sleep(0.002)

    def _one_loss(self) -> None:
        """Waits a little, takes the power, and starts again who lost it."""
        victims = self.chance.sample(self.nodes, self.chance.choice([1, 1, min(2, len(self.nodes)), len(self.nodes)]))
        self._await_answers(self.chance.randint(0, MOST_ANSWERS), victims)
        self._lose(victims)
        self.losses[f"of {len(victims)}"] += 1
        for it in victims:
            self._start(it, 0)

    def _loss_at_start(self) -> None:
        """Takes the power at an early call of a start."""
        node = self.chance.choice(self.nodes)
        if node.process is not None:
            self._lose([node])
            self.losses["before a start"] += 1
        self._start(node, self.chance.randint(1, CALLS_OF_A_START))
        self._await_answers(MOST_ANSWERS, [node]) if len(self.nodes) == 1 else self._await_end(node)
        self._lose([node])
        self.losses["in a start"] += 1
        self._start(node, 0)

    def _first_start(self, node: Node) -> None:
        """Starts a node without a log; half of such starts end early."""
        while self.chance.random() < 0.5:
            self._start(node, self.chance.randint(1, CALLS_OF_A_START))
            self._await_end(node)
            self._lose([node])
            self.losses["in a first start"] += 1
        self._start(node, 0)

    def _failed_sync(self) -> None:
        """Lets a sync of a start fail, and starts the node again on what the system shows it."""
        node = self.chance.choice(self.nodes)
        self._lose([node])
        self.losses["before a failed sync"] += 1
        self._start(node, 0, self.chance.randint(1, MOST_SYNCS))
        began = time.monotonic()
        while node.process.poll() is None:
            if time.monotonic() > began + ANSWERED_WITHIN:
                raise Broken("no sync has failed")
            self._operate()
            time.sleep(0.1)
        if node.process.returncode != LOG_FAILED:
            raise Broken(f"a sync fails, and the node ends with {node.process.returncode}")
        self._start(node, 0)

    def _await_end(self, node: Node) -> None:
        """Waits a little for a node to lose the power."""
        end = time.monotonic() + 1.0
        while time.monotonic() < end and not self._has_lost_power(node):
            time.sleep(0.005)

    def run(self, losses: int) -> None:
        """So many losses, and the judgement."""
        try:
            for it in self.nodes:
                self._first_start(it)
            self.load.start()
            while sum(self.losses.values()) < losses:
                if self.words.fails and self.chance.random() < 0.5:
                    self._failed_sync()
                self._loss_at_start() if self.chance.random() < 0.25 else self._one_loss()
            self._await_answers(1, [])
        finally:
            self.load.is_over = True
            if self.load.is_alive():
                self.load.join()
            for it in self.nodes:
                it.kill()
            self._operator.close()


# ---- all of it


@dataclass
class Total:
    """Sums over lives."""

    lives: int = 0
    answered: int = 0
    losses: Counter = field(default_factory=Counter)
    in_flight: int = 0
    torn: int = 0
    names: int = 0
    group: int = 0


def add_marks(folder: str, total: Total) -> None:
    """Counts what the library has noted of each disk: what was not synced, what of it got there, and the name."""
    for name in sorted(os.listdir(folder)):
        if name.startswith("mark-"):
            with open(f"{folder}/{name}", encoding="utf-8") as lines:
                for line in lines:
                    _, _, kept, all_, _, _, _, is_name_lost = line.split()
                    total.in_flight += int(all_) > 0
                    total.torn += 0 < int(kept) < int(all_)
                    total.names += int(is_name_lost)


def greatest_group(node: Node) -> int:
    """How many turns the greatest group of a node had, by its sheets: a group ends with a turn that took no datagram."""
    greatest = 0
    for boot in range(node.boots):
        turns = 0
        for line in whole_lines(node.sheet(boot)).split(b"\n"):
            turns += line.startswith((b"in ", b"tick ", b"suspect "))
            if not line.startswith(b"in "):
                greatest, turns = max(greatest, turns), 0
    return min(greatest, MOST_TURNS)


def lives(words: argparse.Namespace, library: str, folder: str, total: Total) -> None:
    """Lives until there were so many losses."""
    while sum(total.losses.values()) < words.cuts:
        total.lives += 1
        home = f"{folder}/{total.lives}"
        os.makedirs(home)
        life = Life(words, library, home, words.seed + 1000 * total.lives)
        try:
            life.run(min(LOSSES_OF_A_LIFE, words.cuts - sum(total.losses.values())))
            judge_all(words.program, life.nodes, life.load)
        finally:
            total.losses += life.losses
            total.answered += life.load.answered
        add_marks(home, total)
        total.group = max([total.group, *map(greatest_group, life.nodes)])
        shutil.rmtree(home)


def read_words() -> argparse.Namespace:
    """The words of the command line."""
    reader = argparse.ArgumentParser(description=__doc__, formatter_class=argparse.RawDescriptionHelpFormatter)
    reader.add_argument("program", type=os.path.abspath)
    reader.add_argument("--nodes", type=int, default=1, choices=[1, 3, 5])
    reader.add_argument("--cuts", type=int, default=1000)
    reader.add_argument("--seed", type=int, default=1)
    reader.add_argument("--fails", action="store_true")
    reader.add_argument("--lies", action="store_true")
    reader.add_argument("--clients", type=int, default=CLIENTS)
    reader.add_argument("--slow", type=int, default=0)
    return reader.parse_args()


def main() -> int:
    """One run."""
    words = read_words()
    if shutil.which("cc") is None:
        print("power: no cc here, so nothing was tried")
        return 0
    # (in memory where that is possible: what a sync keeps is the library's matter)
    folder = tempfile.mkdtemp(prefix="crsm-power-", dir="/dev/shm" if os.path.isdir("/dev/shm") else None)
    total, broken = Total(), None
    try:
        lives(words, built(folder), folder, total)
        if words.slow and total.group <= CLIENTS:
            raise Broken(f"no group had more than {total.group} turns")
    except Broken as error:
        broken = error
    count = sum(total.losses.values())
    if (broken is None) == words.lies:
        why = broken or "a disk that keeps nothing was not found out"
        print(f"power: {why} (seed {words.seed}, life {total.lives}, {count} losses; see {folder})", file=sys.stderr)
        return 1
    shutil.rmtree(folder)
    if words.lies:
        print(f"power: a disk that keeps nothing is found out after {count} losses: {broken}")
        return 0
    losses = ", ".join(f"{many} {how}" for how, many in sorted(total.losses.items()))
    print(f"power: ok, seed {words.seed}, nodes {words.nodes}, {total.lives} lives: {count} losses of power ({losses})")
    print(
        f"power: {total.in_flight} disks had a write that was not synced, {total.torn} of them got a part of it; "
        f"{total.names} names gone; {total.answered} commands answered, none lost; groups of up to {total.group} turns"
    )
    return 0


if __name__ == "__main__":
    sys.exit(main())
