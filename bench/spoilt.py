"""A log that is spoilt: what a node says that is started on it, and what an audit beside other nodes' sheets says.

    python3 bench/spoilt.py PROGRAM [--places P] [--seed S]

makes the logs of three nodes under load, with a change of members and a restart in between, and spoils a copy of one
of them at P places that are drawn from the seed: a bit, a bit of a gate or a length, a sector of zeros, ones or chance,
the tail cut off, zeros or chance behind it, a block that stands twice, a block of another node's log, and the middle of
an older copy of the log. A node is started on it for one turn, and its sheet is audited beside those of the others.

Each start either refuses the log and names the entry (status 10), or opens it; what it opened is one of these:

- all: the log reads as before;
- less: the bodies are a prefix of those before;
- other: a body reads otherwise, or stands elsewhere.

Counts each, and whether the audit says so. Ends with 0 where each start ends with status 0 or 10, and names the entry;
with 1 and the reason where not. Of the kinds that `EXACT` names no start may have other bodies.
"""

import argparse
import os
import random
import shutil
import subprocess
import sys
import tempfile
import time
from collections import Counter, defaultdict
from typing import Callable, Dict, List, Tuple

from load import Broken, Load, whole_lines
from nodes import Node, closed_gate, free_addresses, text_of

NODES, VICTIM, OTHER = 3, 2, 1
REFUSED = 10
BLOCK, SECTOR = 4096, 512
SETTLED_WITHIN = 30.0
# What a crash or a cut leaves; all else needs a disk that changes what it has.
EXACT = ("tail cut off", "bytes behind it")


class Logs:
    """The log of a node at its end and at an earlier time, and the log of another node."""

    def __init__(self, now: bytes, before: bytes, other: bytes):
        self.now, self.before, self.other = now, before, other


Spoiling = Callable[[Logs, random.Random], bytes]


def put(log: bytes, at: int, piece: bytes) -> bytes:
    """The log with a piece written over it, no longer than it was."""
    return (log[:at] + piece + log[at + len(piece) :])[: len(log)]


def bit(logs: Logs, chance: random.Random) -> bytes:
    """One bit is turned."""
    at = chance.randrange(len(logs.now))
    return put(logs.now, at, bytes([logs.now[at] ^ 1 << chance.randrange(8)]))


def frame(logs: Logs, chance: random.Random) -> bytes:
    """One bit of an entry's gate or length is turned, or of the closed gate at the end."""
    starts, at = [0], 0
    while logs.now[at] == 1:
        at += 5 + int.from_bytes(logs.now[at + 1 : at + 5], "big")
        starts.append(at)
    at = min(chance.choice(starts) + chance.choice([0, 0, 1, 2, 3, 4]), len(logs.now) - 1)
    return put(logs.now, at, bytes([logs.now[at] ^ 1 << chance.randrange(8)]))


def sector(logs: Logs, chance: random.Random) -> bytes:
    """A sector has zeros, ones or chance."""
    at = chance.randrange(len(logs.now) // SECTOR) * SECTOR
    piece = chance.choice([bytes(SECTOR), b"\1" * SECTOR, b"\xff" * SECTOR, chance.randbytes(SECTOR)])
    return put(logs.now, at, piece)


def tail(logs: Logs, chance: random.Random) -> bytes:
    """The end is missing."""
    return logs.now[: chance.randrange(len(logs.now))]


def behind(logs: Logs, chance: random.Random) -> bytes:
    """Bytes stand behind the end."""
    count = chance.randrange(1, 2 * BLOCK)
    return logs.now + chance.choice([bytes(count), b"\1" * count, chance.randbytes(count)])


def twice(logs: Logs, chance: random.Random) -> bytes:
    """A block stands in the place of another as well."""
    blocks = len(logs.now) // BLOCK
    one, other = (it * BLOCK for it in chance.sample(range(blocks), 2))
    return put(logs.now, one, logs.now[other : other + BLOCK])


def inserted(logs: Logs, chance: random.Random) -> bytes:
    """A block stands twice, one behind the other, and all behind it moves."""
    at = chance.randrange(len(logs.now) // BLOCK) * BLOCK
    return logs.now[: at + BLOCK] + logs.now[at:]


def older(logs: Logs, chance: random.Random) -> bytes:
    """The middle is that of an older copy, in which it ends."""
    at = chance.randrange(len(logs.before) // SECTOR) * SECTOR
    return put(logs.now, at, logs.before[at:] + bytes(chance.randrange(1, BLOCK)))


def foreign(logs: Logs, chance: random.Random) -> bytes:
    """A block is that of another node's log."""
    at = chance.randrange(min(len(logs.now), len(logs.other)) // BLOCK) * BLOCK
    return put(logs.now, at, logs.other[at : at + BLOCK])


SPOILINGS: Dict[str, Spoiling] = {
    "a bit": bit,
    "a bit of a gate or a length": frame,
    "a sector": sector,
    "tail cut off": tail,
    "bytes behind it": behind,
    "a block in another's place": twice,
    "a block twice": inserted,
    "an older copy's middle": older,
    "another node's block": foreign,
}


# ---- the logs


def await_answers(load: Load, count: int, operate: Callable[[], None]) -> None:
    """Waits for so many answers."""
    wanted, end = load.answered + count, time.monotonic() + SETTLED_WITHIN
    while load.answered < wanted:
        if time.monotonic() > end:
            raise Broken(f"no {count} answers")
        operate()
        time.sleep(0.3)


def read(path: str) -> bytes:
    """A log up to its closed gate."""
    with open(path, "rb") as file:
        log = file.read()
    return log[: closed_gate(log) + 1]


def made(program: str, folder: str, seed: int) -> Tuple[Logs, List[Node]]:
    """Logs of three nodes under load, of which one was started again."""
    addresses = free_addresses(NODES)
    peers = ",".join(text_of(it) for it in addresses)
    nodes = [Node(program, f"{folder}/{at}", at, NODES, peers) for at in range(NODES)]
    load = Load(addresses, seed)
    operate = [program, "operate", text_of(addresses[0]), "0,1,2"]
    try:
        for it in nodes:
            it.start()
        load.start()
        await_answers(load, 300, lambda: None)
        nodes[VICTIM].kill()
        before = read(nodes[VICTIM].log)
        nodes[VICTIM].start()
        await_answers(load, 600, lambda: subprocess.run(operate, check=False) and None)
    finally:
        load.is_over = True
        load.join()
        for it in nodes:
            it.kill()
    for it in nodes:
        it.start(1)
        if it.wait(60) != 0:
            raise Broken(f"node {it.number} does not start on its log: {it.last_words()}")
    return Logs(read(nodes[VICTIM].log), before, read(nodes[OTHER].log)), nodes


# ---- what a start makes of one


def bodies(sheet: bytes) -> List[bytes]:
    """The bodies that a start has found."""
    return sheet[: sheet.index(b"open\n")].splitlines()


class Judge:
    """Starts a node on a log, and compares what it has found with what the unspoilt log has."""

    def __init__(self, program: str, folder: str, logs: Logs, nodes: List[Node]):
        self.program, self.folder, self.logs = program, folder, logs
        victim = nodes[VICTIM]
        self.wanted = bodies(whole_lines(victim.sheet(victim.boots - 1)))
        self.beside = b"".join(
            b"node %d\n" % it.number + whole_lines(it.sheet(boot))
            for it in nodes
            if it.number != VICTIM
            for boot in range(it.boots)
        )
        self._peers = victim.peers

    def found(self, log: bytes) -> str:
        """What a start makes of this log."""
        node = Node(self.program, tempfile.mkdtemp(dir=self.folder), VICTIM, NODES, self._peers)
        with open(node.log, "wb") as file:
            file.write(log)
        node.start(1)
        status, words = node.wait(60), node.last_words()
        sheet = whole_lines(node.sheet(0))
        shutil.rmtree(node.folder)
        if status == REFUSED:
            if "log entry " not in words:
                raise Broken(f"a refusal does not name the entry: {words}")
            return "refused"
        if status != 0:
            raise Broken(f"a start ends with {status}: {words}")
        got = bodies(sheet)
        # (the last start has added its own boot, and what follows it, to the log)
        if got[: len(self.wanted)] == self.wanted:
            return "all"
        what = "less" if self.wanted[: len(got)] == got else "other"
        return f"{what}, {self.audited(sheet)}"

    def audited(self, sheet: bytes) -> str:
        """What an audit of this sheet beside the others' says."""
        text = self.beside + b"node %d\n" % VICTIM + sheet
        ran = subprocess.run([self.program, "audit", str(NODES)], input=text, capture_output=True, check=False)
        verdict = (ran.stdout.decode().splitlines() or [""])[-1].split()
        return f"audit: {verdict[0] if verdict else 'refused'}"


def read_words() -> argparse.Namespace:
    """The words of the command line."""
    reader = argparse.ArgumentParser(description=__doc__, formatter_class=argparse.RawDescriptionHelpFormatter)
    reader.add_argument("program", type=os.path.abspath)
    reader.add_argument("--places", type=int, default=300)
    reader.add_argument("--seed", type=int, default=1)
    return reader.parse_args()


def main() -> int:
    """One run."""
    words = read_words()
    folder = tempfile.mkdtemp(prefix="crsm-spoilt-", dir="/dev/shm" if os.path.isdir("/dev/shm") else None)
    chance = random.Random(words.seed)
    counts: Dict[str, Counter] = defaultdict(Counter)
    try:
        logs, nodes = made(words.program, folder, words.seed)
        judge = Judge(words.program, folder, logs, nodes)
        for at in range(words.places):
            kind = list(SPOILINGS)[at % len(SPOILINGS)]
            found = judge.found(SPOILINGS[kind](logs, chance))
            counts[kind][found] += 1
            if kind in EXACT and found.startswith("other"):
                raise Broken(f"{kind}: the log opens with other bodies")
    except Broken as broken:
        print(f"spoilt: {broken} (seed {words.seed}; see {folder})", file=sys.stderr)
        return 1
    for kind, found in counts.items():
        print(f"spoilt: {kind}: {', '.join(f'{what} {count}' for what, count in found.most_common())}")
    print(f"spoilt: ok, seed {words.seed}, {words.places} places of a log of {len(logs.now)} bytes")
    shutil.rmtree(folder)
    return 0


if __name__ == "__main__":
    sys.exit(main())
