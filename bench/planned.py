"""What clients wait while an operator changes a cluster on purpose: nodes that are started again, moved, added and taken
away.

    python3 bench/planned.py PROGRAM [--rows NAME,NAME] [--rounds N]

Each row is done by what `docs/OPERATING.md` says, at three nodes of five addresses, or at five of which two come or go,
while three clients in Python put a key without end, each at all nodes in turn. Prints for each row the longest wait of
each client's command in milliseconds, in each round; ends with 1 where a row did not come to its end.
"""

import argparse
import os
import shutil
import sys
import tempfile
import threading
import time
from typing import Callable, Dict, List, Sequence

from load import Broken
from nodes import free_addresses, text_of
from operation import ADDRESSES, NODES, Cluster

from crsm import Client, CrsmError

CLIENTS = 3
QUIET_BEFORE = 1.0
PAUSE = 0.005


class Waits(threading.Thread):
    """A client that puts a key without end, and the longest time from a command to its answer, in seconds."""

    def __init__(self, addresses: Sequence[str], number: int):
        super().__init__(daemon=True)
        turned = list(addresses[number:NODES]) + list(addresses[:number]) + list(addresses[NODES:])
        self.client = Client(turned, timeout=60.0)
        self.longest, self.answered, self.failed = 0.0, 0, ""
        self.is_over = False

    def run(self) -> None:
        """Puts the key, and notes how long that took."""
        try:
            while not self.is_over:
                began = time.monotonic()
                self.client.put(b"planned", b"%d" % self.answered)
                self.longest = max(self.longest, time.monotonic() - began)
                self.answered += 1
                time.sleep(PAUSE)
        except CrsmError as error:
            self.failed = repr(error)


def await_answer(cluster: Cluster, at: int, wanted: str) -> None:
    """Waits until a node answers a command so."""
    until = time.monotonic() + 20.0
    while cluster.answer(at) != wanted:
        if time.monotonic() > until:
            raise Broken(f"node {at} does not answer `{wanted}`")
        time.sleep(0.02)


def ask_for(cluster: Cluster, via: int, members: Sequence[int]) -> None:
    """Asks for members twice, and waits until all of them answer."""
    cluster.operate(via, ",".join(map(str, members)))
    for at in members:
        await_answer(cluster, at, "ok")


def begin(cluster: Cluster, at: int) -> None:
    """Starts a node, and waits until it listens: it takes no part yet."""
    cluster.start([at])
    await_answer(cluster, at, "no 1")


# ---- the rows


def left_and_entered(cluster: Cluster) -> None:
    """One after another: the node leaves by `operate`, is stopped and started, and is taken in by `operate`."""
    for at in range(NODES):
        via = (at + 1) % NODES
        ask_for(cluster, via, [it for it in range(NODES) if it != at])
        cluster.nodes[at].kill()
        begin(cluster, at)
        ask_for(cluster, via, range(NODES))


def stopped_and_started(cluster: Cluster) -> None:
    """One after another: the node is stopped and started at once, and taken in by `operate`."""
    for at in range(NODES):
        cluster.nodes[at].kill()
        cluster.start([at])
        ask_for(cluster, (at + 1) % NODES, range(NODES))


def all_at_once(cluster: Cluster) -> None:
    """All are stopped and started at once, and one is asked for all."""
    for it in cluster.nodes[:NODES]:
        it.kill()
    cluster.start()
    ask_for(cluster, 0, range(NODES))


def other_addresses(cluster: Cluster) -> None:
    """The last address, which no node has, becomes another: all get the new list, one after another as above."""
    cluster.addresses[-1] = text_of(free_addresses(1)[0])
    for it in cluster.nodes:
        it.peers = ",".join(cluster.addresses)
    left_and_entered(cluster)


def moved(cluster: Cluster) -> None:
    """Node 2 moves to another address: it leaves, the others get the new list one after another, and it enters."""
    ask_for(cluster, 0, [0, 1])
    cluster.nodes[2].kill()
    cluster.addresses[2] = text_of(free_addresses(1)[0])
    for it in cluster.nodes:
        it.peers = ",".join(cluster.addresses)
    for at in (0, 1):
        cluster.nodes[at].kill()
        begin(cluster, at)
        ask_for(cluster, 1 - at, [0, 1])
    begin(cluster, 2)
    ask_for(cluster, 0, range(NODES))


def grown(cluster: Cluster) -> None:
    """Nodes 3 and 4 are started in empty folders, and one is asked for all five."""
    cluster.start([3, 4])
    ask_for(cluster, 0, range(ADDRESSES))


def shrunk(cluster: Cluster) -> None:
    """Of five nodes the last two are taken out, and stopped."""
    ask_for(cluster, 0, range(NODES))
    for at in (3, 4):
        cluster.nodes[at].kill()
    time.sleep(1.0)


ROWS: Dict[str, Callable[[Cluster], None]] = {
    "left and entered": left_and_entered,
    "stopped and started": stopped_and_started,
    "all at once": all_at_once,
    "other addresses": other_addresses,
    "moved": moved,
    "grown": grown,
    "shrunk": shrunk,
}


def one_row(program: str, name: str) -> str:
    """One round of a row: the longest wait of each client, and how long the row took."""
    folder = tempfile.mkdtemp(prefix="crsm-planned-")
    cluster = Cluster(program, folder, [text_of(it) for it in free_addresses(ADDRESSES)])
    try:
        cluster.start()
        cluster.await_all("started", range(NODES))
        if name == "shrunk":
            grown(cluster)
        clients = [Waits(cluster.addresses, at) for at in range(CLIENTS)]
        for it in clients:
            it.start()
        time.sleep(QUIET_BEFORE)
        began = time.monotonic()
        ROWS[name](cluster)
        took = time.monotonic() - began
        time.sleep(QUIET_BEFORE)
        for it in clients:
            it.is_over = True
            it.join(60.0)
        failed = [it.failed for it in clients if it.failed]
        if failed:
            raise Broken(f"a client failed: {failed}")
        waits = ", ".join(f"{it.longest * 1000:,.0f}" for it in clients)
        return f"{waits} ms; {took:.1f} s in all; {sum(it.answered for it in clients):,} answers"
    finally:
        cluster.stop()
        shutil.rmtree(folder, ignore_errors=True)


def main() -> int:
    """All rows."""
    reader = argparse.ArgumentParser(description=__doc__, formatter_class=argparse.RawDescriptionHelpFormatter)
    reader.add_argument("program", type=os.path.abspath)
    reader.add_argument("--rows", type=lambda text: text.split(","), default=list(ROWS))
    reader.add_argument("--rounds", type=int, default=3)
    words = reader.parse_args()
    failed: List[str] = []
    for name in words.rows:
        for _ in range(words.rounds):
            try:
                print(f"{name}: {one_row(words.program, name)}", flush=True)
            except Broken as broken:
                failed.append(f"{name}: {broken}")
    for it in failed:
        print(f"planned: {it}", file=sys.stderr)
    print("planned: ok" if not failed else "planned: failed")
    return 1 if failed else 0


if __name__ == "__main__":
    sys.exit(main())
