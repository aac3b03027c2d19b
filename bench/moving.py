"""A store that moves to a new cluster, as docs/OPERATING.md has it: `dump` of an old node's log, and `load`.

    python3 bench/moving.py PROGRAM [--limited OTHER] [--commands C] [--seed S]

starts three nodes, at which a client does C commands that are drawn from the seed and another client takes a lock. The
writers stop, the log of the node with the longest executed list is dumped, and three new nodes get the keys, in two
loads of which the first has half of them. Then the new nodes have every key that was answered, the dump of a new node
has the lines of the old one, and the lock has its holder and its fence. Last, 5,000 other keys are loaded, twice.

With `--limited` the old nodes run OTHER, a build of the program in which MAX_LOG_BYTES of `crsm_base` is some 100,000:
the client writes until each node has ended with status 11, and the same is looked at. Ends with 0 where all is so, with
1 and the reason where not.
"""

import argparse
import os
import random
import subprocess
import sys
import tempfile
import time
from typing import Dict, List, Optional

HERE = os.path.dirname(os.path.abspath(__file__))
sys.path[:0] = [HERE, f"{HERE}/../clients/python"]

from crsm import Client, CrsmError, LockHeld  # noqa: E402
from dump import Wrong, dumped, executed  # noqa: E402
from nodes import Node, free_addresses, text_of  # noqa: E402

NODES = 3
KEYS = [f"key-{at}".encode() for at in range(60)]
WRITER, HOLDER, OTHER, ASKER = 7, 8, 9, 10
MANY = 5000
LOG_FULL = 11
WITHIN = 60.0


class Cluster:
    """Three nodes in folders of their own."""

    def __init__(self, program: str, folder: str):
        self.addresses = [text_of(address) for address in free_addresses(NODES)]
        peers = ",".join(self.addresses)
        self.nodes = [Node(program, f"{folder}/{at}", at, NODES, peers) for at in range(NODES)]

    def start(self) -> None:
        """Starts all nodes."""
        for node in self.nodes:
            node.start()

    def stop(self) -> None:
        """Ends those that run."""
        for node in self.nodes:
            node.kill()

    def client(self, number: int, nodes: Optional[List[str]] = None) -> Client:
        """A client of the cluster, or of some of its nodes."""
        return Client(nodes or self.addresses, client=number, timeout=WITHIN)


class Writer:
    """A client's commands, and what the keys may be by their answers."""

    def __init__(self, chance: random.Random):
        self.chance = chance
        self.sure: Dict[bytes, Optional[bytes]] = {}
        self.open: Dict[bytes, List[Optional[bytes]]] = {}

    def write(self, store: Client, size: int) -> None:
        """Does a command that is drawn. Without an answer its key may have either value."""
        key, value = self.chance.choice(KEYS), self.chance.randbytes(self.chance.randrange(size))
        had = self.sure.get(key)
        new = None if self.chance.random() < 0.2 else value
        self.open[key] = [had, new]
        if self.chance.random() < 0.3:
            store.cas(key, had, new)
        elif new is None:
            store.delete(key)
        else:
            store.put(key, new)
        del self.open[key]
        self.sure[key] = new

    def compare(self, store: Client) -> None:
        """Says which key is not what it may be."""
        for key, sure in self.sure.items():
            found = store.get(key)
            if found not in self.open.get(key, [sure]):
                raise Wrong(f"the key {key!r} has {found!r} in the new cluster, and {sure!r} was answered in the old one")


def until_full(store: Client, writer: Writer, old: Cluster) -> None:
    """Writes until each node has ended with the status of a full log."""
    until = time.monotonic() + WITHIN
    try:
        while time.monotonic() < until:
            writer.write(store, 512)
    except CrsmError:
        pass
    # (a node whose log has room left may only wait for the others)
    for node in old.nodes:
        try:
            status = node.process.wait(1.0)
        except subprocess.TimeoutExpired:
            node.kill()
            continue
        if status != LOG_FULL:
            raise Wrong(f"node {node.number} ended with {status}: {node.last_words()}")
    if all(node.process is None for node in old.nodes):
        raise Wrong("no node has a full log")


def loaded(new: Cluster, folder: str, lines: List[str]) -> str:
    """What `load` of these lines says."""
    words = [sys.executable, "-B", "-m", "crsm", "load", "--nodes", ",".join(new.addresses), "--state", f"{folder}/state"]
    done = subprocess.run(
        words, cwd=f"{HERE}/../clients/python", input="".join(f"{line}\n" for line in lines), capture_output=True, text=True, check=False
    )
    if done.returncode != 0:
        raise Wrong(f"load: status {done.returncode}, {done.stdout.strip()} {done.stderr.strip()}")
    return done.stdout.strip()


def expect(said: str, wanted: str) -> None:
    """Says where two texts differ."""
    if said != wanted:
        raise Wrong(f"'{said}', where '{wanted}' was expected")


def counted(keys: List[str]) -> List[str]:
    """The lines of these keys, and behind them their number, which is the end of a dump."""
    return [*keys, f"keys {len(keys)}"]


def longest(program: str, old: Cluster) -> Node:
    """The node whose log has executed most."""
    return max(old.nodes, key=lambda node: executed(dumped(program, node, ["state"])))


def move(program: str, folder: str, old: Cluster, writer: Writer, fence: int) -> str:
    """Dumps, loads and compares, and returns how many keys that were."""
    lines = dumped(program, longest(program, old), [])
    keys = [line for line in lines if line.startswith("key ")]
    half = len(keys) // 2
    new = Cluster(program, f"{folder}/new")
    try:
        new.start()
        expect(loaded(new, folder, counted(keys[:half])), f"{half} keys put, 0 there already, 0 with another value")
        rest = len(keys) - half
        expect(loaded(new, folder, lines), f"{rest} keys put, {half} there already, 0 with another value")
        with new.client(ASKER, new.addresses[:1]) as store:
            writer.compare(store)
        if dumped(program, new.nodes[0], ["keys"]) != counted(keys):
            raise Wrong("the keys of the new node's dump are not those of the old one")
        see_lock(new, fence)
        see_many(new, folder)
    finally:
        new.stop()
    return f"{len(keys)} keys"


def see_many(new: Cluster, folder: str) -> None:
    """So many keys are loaded that each client's file is written more than once; loaded again, nothing is missing."""
    lines = counted([f"key {at:08x} 61" for at in range(MANY)])
    expect(loaded(new, folder, lines), f"{MANY} keys put, 0 there already, 0 with another value")
    expect(loaded(new, folder, lines), f"0 keys put, {MANY} there already, 0 with another value")


def see_lock(new: Cluster, fence: int) -> None:
    """The lock is still held, by the grant of the old cluster; its holder gives it back, and the next grant is later."""
    with new.client(OTHER) as other, new.client(HOLDER) as holder:
        try:
            other.lock("guard", wait=0).take()
            raise Wrong("a lock that is held was granted")
        except LockHeld as held:
            expect(f"{held.owner} {held.fence}", f"{HOLDER} {fence}")
        held = holder.lock("guard")
        expect(str(held.take()), str(fence))
        held.give()
        expect(str(other.lock("guard", wait=0).take()), str(fence + 1))


def try_all(program: str, limited: Optional[str], folder: str, commands: int, chance: random.Random) -> str:
    """Does it all in a folder."""
    old = Cluster(limited or program, f"{folder}/old")
    writer = Writer(chance)
    try:
        old.start()
        with old.client(HOLDER) as holder:
            fence = holder.lock("guard").take()
        with Client(old.addresses, client=WRITER, timeout=5.0 if limited else WITHIN) as store:
            for _ in range(commands):
                writer.write(store, 100)
            if limited:
                until_full(store, writer, old)
        if not limited:
            for address in old.addresses:
                with old.client(ASKER, [address]) as store:
                    store.get(KEYS[0])
        return move(program, folder, old, writer, fence)
    finally:
        old.stop()


def main() -> int:
    """Reads the words, and says how it ended."""
    words = argparse.ArgumentParser(description="A store that moves to a new cluster.")
    words.add_argument("program")
    words.add_argument("--limited", metavar="OTHER", type=os.path.abspath)
    words.add_argument("--commands", type=int, default=200)
    words.add_argument("--seed", type=int, default=1)
    given = words.parse_args()
    with tempfile.TemporaryDirectory() as folder:
        try:
            moved = try_all(os.path.abspath(given.program), given.limited, folder, given.commands, random.Random(given.seed))
        except Wrong as wrong:
            print(f"moving: {wrong}")
            return 1
    print(f"moving: {moved} and a lock live on{', from full logs' if given.limited else ''}")
    return 0


if __name__ == "__main__":
    sys.exit(main())
