"""Mistakes of operation, and what nodes say to them: each row of a table, as three real nodes show it.

    python3 bench/operation.py PROGRAM [--rows NAME,NAME]

starts three nodes of five addresses for each row, makes the mistake, and prints what each node answers to a command
(`ok`, `no` and a code, `silent` after a second, or `ended` and the status), with the seconds since; then what brings
the nodes back. Ends with 0 where each row ends as `docs/OPERATING.md` has it, with 1 and the rows that do not.
"""

import argparse
import os
import shutil
import signal
import subprocess
import sys
import tempfile
import threading
import time
from typing import Callable, Dict, List, Optional, Sequence

from load import Broken
from nodes import Node, free_addresses, text_of

NODES, ADDRESSES = 3, 5
SETTLED_WITHIN = 40.0
ASKED_AGAIN = 1.0


class Cluster:
    """Three nodes and two addresses more."""

    def __init__(self, program: str, folder: str, addresses: Sequence[str]):
        self.program, self.folder, self.addresses = program, folder, list(addresses)
        peers = ",".join(self.addresses)
        self.nodes = [Node(program, f"{folder}/{at}", at, NODES, peers) for at in range(len(self.addresses))]
        self.told: List[str] = []
        self._number = 0

    def start(self, members: Sequence[int] = range(NODES)) -> None:
        """Starts nodes."""
        for at in members:
            self.nodes[at].start()

    def operate(self, via: int, members: str) -> None:
        """Asks a node for members, twice."""
        for again in (False, True):
            time.sleep(ASKED_AGAIN if again else 0.0)
            subprocess.run([self.program, "operate", self.addresses[via], members], check=True)

    def answer(self, at: int) -> str:
        """What a node says to a command."""
        node = self.nodes[at]
        if node.process is not None and node.process.poll() is not None:
            return f"ended {node.process.returncode}"
        self._number += 1
        words = [self.program, "client", self.addresses[at], "1000", str(900 + at), str(self._number), "get", "61"]
        said = subprocess.run(words, capture_output=True, text=True, check=False).stdout.split()
        return "silent" if not said else said[0] if said[0] == "ok" else " ".join(said)

    def answers(self) -> Dict[int, str]:
        """What all nodes that were started say, all asked at the same time."""
        found: Dict[int, str] = {}
        started = [it.number for it in self.nodes if it.process is not None]
        threads = [threading.Thread(target=lambda at=at: found.update({at: self.answer(at)})) for at in started]
        for it in threads:
            it.start()
        for it in threads:
            it.join()
        return dict(sorted(found.items()))

    def tell(self, what: str) -> None:
        """Notes what all nodes say."""
        self.told.append(f"{what}: " + ", ".join(f"node {at} {said}" for at, said in self.answers().items()))

    def await_all(self, what: str, members: Sequence[int]) -> None:
        """Waits until these nodes answer, and notes how long it took."""
        began = time.monotonic()
        while True:
            answers = self.answers()
            if all(answers.get(at) == "ok" for at in members):
                break
            if time.monotonic() > began + SETTLED_WITHIN:
                raise Broken(f"{'; '.join(self.told)}; {what}: after {SETTLED_WITHIN:.0f} s {answers}")
        self.told.append(f"{what}: nodes {', '.join(map(str, members))} answer after {time.monotonic() - began:.1f} s")

    def await_end(self, at: int, status: int) -> None:
        """Waits until a node ends with this status, and notes its last words."""
        got = self.nodes[at].wait(SETTLED_WITHIN)
        self.told.append(f"node {at} ends with {got}: '{self.nodes[at].last_words()}'")
        if got != status:
            raise Broken("; ".join(self.told))

    def stop(self) -> None:
        """Ends all nodes."""
        for it in self.nodes:
            if it.is_up():
                it.go_on()
            it.kill()


# ---- the rows


def nobody_started(cluster: Cluster) -> None:
    """Members that nobody has started, with addresses: these are started, and asked for the old ones."""
    cluster.operate(0, "3,4")
    time.sleep(8.0)
    cluster.tell("8 s after operate 3,4")
    cluster.start([3, 4])
    cluster.await_all("3 and 4 are started", [3, 4])
    cluster.operate(3, "0,1,2")
    cluster.await_all("operate 0,1,2 at node 3", [0, 1, 2])


def no_majority(cluster: Cluster) -> None:
    """Members of the replica set that are no majority of it: nothing changes."""
    cluster.operate(0, "1")
    cluster.await_all("operate 1", [0, 1, 2])


def no_address(cluster: Cluster) -> None:
    """A member without an address: all start again with a list that has it, and it is started."""
    cluster.operate(0, "9")
    time.sleep(8.0)
    cluster.tell("8 s after operate 9")
    cluster.stop()
    cluster.addresses += [text_of(it) for it in free_addresses(10 - len(cluster.addresses))]
    peers = ",".join(cluster.addresses)
    for it in cluster.nodes:
        it.peers = peers
    cluster.nodes += [
        Node(cluster.program, f"{cluster.folder}/{at}", at, NODES, peers) for at in range(len(cluster.nodes), 10)
    ]
    cluster.start([0, 1, 2, 9])
    cluster.await_all("all start with ten addresses, and 9", [9])
    cluster.operate(9, "0,1,2")
    cluster.await_all("operate 0,1,2 at node 9", [0, 1, 2])


def terminated(cluster: Cluster) -> None:
    """SIGTERM at one node."""
    cluster.nodes[2].process.send_signal(signal.SIGTERM)
    cluster.await_end(2, -signal.SIGTERM)
    cluster.await_all("SIGTERM at node 2", [0, 1])
    cluster.start([2])
    cluster.operate(0, "0,1,2")
    cluster.await_all("node 2 is started, operate 0,1,2", [0, 1, 2])


def stopped(cluster: Cluster) -> None:
    """SIGSTOP at one node for 30 s."""
    cluster.nodes[2].pause()
    cluster.await_all("SIGSTOP at node 2", [0, 1])
    time.sleep(30.0)
    cluster.nodes[2].go_on()
    cluster.await_all("SIGCONT 30 s later", [0, 1, 2])


def restarted_with(cluster: Cluster, at: int, peers: List[str]) -> None:
    """Starts a node again with another list, asks for all, and looks for a while; then starts it with the right one."""
    cluster.nodes[at].kill()
    right, cluster.nodes[at].peers = cluster.nodes[at].peers, ",".join(peers)
    cluster.start([at])
    cluster.operate(0, "0,1,2")
    for seconds in (3, 10):
        time.sleep(seconds)
        cluster.tell(f"{seconds} s more")
    said = cluster.nodes[at].last_words()
    cluster.told.append(f"node {at} says '{said}'")
    cluster.nodes[at].kill()
    cluster.nodes[at].peers = right
    cluster.start([at])
    cluster.operate(0, "0,1,2")
    cluster.await_all("started with the right list, operate 0,1,2", [0, 1, 2])


def wrong_peer(cluster: Cluster) -> None:
    """A list in which another node has an address at which nobody listens."""
    one, two, _, *more = cluster.addresses
    restarted_with(cluster, 0, [one, two, text_of(free_addresses(1)[0]), *more])


def swapped(cluster: Cluster) -> None:
    """A list in which two other nodes are swapped."""
    one, two, three, *more = cluster.addresses
    restarted_with(cluster, 0, [one, three, two, *more])


def swapped_own(cluster: Cluster) -> None:
    """A list in which a node's own address and another's are swapped, on the machine that has both."""
    one, two, *more = cluster.addresses
    cluster.nodes[0].kill()
    right, cluster.nodes[0].peers = cluster.nodes[0].peers, ",".join([two, one, *more])
    cluster.start([0])
    cluster.await_end(0, 6)
    cluster.nodes[0].peers = right
    cluster.start([0])
    cluster.operate(1, "0,1,2")
    cluster.await_all("started with the right list, operate 0,1,2", [0, 1, 2])


def other_log(cluster: Cluster) -> None:
    """A node on a log that was another number's, by a new name."""
    cluster.nodes[1].kill()
    shutil.copy(cluster.nodes[1].log, f"{cluster.folder}/kept")
    shutil.copy(cluster.nodes[2].log, cluster.nodes[1].log)
    cluster.start([1])
    cluster.await_end(1, 10)
    shutil.copy(f"{cluster.folder}/kept", cluster.nodes[1].log)
    cluster.start([1])
    cluster.operate(0, "0,1,2")
    cluster.await_all("on its own log again, operate 0,1,2", [0, 1, 2])


def other_folder(cluster: Cluster) -> None:
    """A node in the folder of another number: it begins a log of its own there."""
    cluster.nodes[1].kill()
    right, cluster.nodes[1].folder = cluster.nodes[1].folder, cluster.nodes[2].folder
    sheets, cluster.nodes[1].sheets = cluster.nodes[1].sheets, f"{cluster.folder}/other"
    os.makedirs(f"{cluster.folder}/other")
    cluster.start([1])
    time.sleep(1.0)
    cluster.told.append(f"node 1 in node 2's folder says '{cluster.nodes[1].last_words()}'")
    cluster.nodes[1].kill()
    cluster.nodes[1].folder, cluster.nodes[1].sheets = right, sheets
    cluster.start([1])
    cluster.operate(0, "0,1,2")
    cluster.await_all("in its own folder again, operate 0,1,2", [0, 1, 2])


def other_count_log(cluster: Cluster) -> None:
    """Another count of first nodes, on a log."""
    cluster.nodes[2].kill()
    cluster.nodes[2].began_with = 5
    cluster.start([2])
    cluster.await_end(2, 10)
    cluster.nodes[2].began_with = NODES
    cluster.start([2])
    cluster.operate(0, "0,1,2")
    cluster.await_all("with 3 again, operate 0,1,2", [0, 1, 2])


def other_count_new(cluster: Cluster) -> None:
    """Another count of first nodes, at a node that joins as a new one."""
    cluster.nodes[3].began_with = 5
    cluster.start([3])
    time.sleep(1.0)
    cluster.tell("node 3 is started with 5 in place of 3")
    cluster.operate(0, "0,1,2,3")
    for seconds in (3, 10):
        time.sleep(seconds)
        cluster.tell(f"{seconds} s after operate 0,1,2,3")
    cluster.nodes[3].kill()
    cluster.await_all("node 3 is killed", [0, 1, 2])


def port_in_use(cluster: Cluster) -> None:
    """A port that another process has."""
    twin = Node(cluster.program, f"{cluster.folder}/twin", 0, NODES, cluster.nodes[0].peers)
    twin.start()
    cluster.told.append(f"it ends with {twin.wait(SETTLED_WITHIN)}: '{twin.last_words()}'")
    cluster.await_all("the others", [0, 1, 2])


def no_such_number(cluster: Cluster) -> None:
    """A number without an address in the list."""
    six = Node(cluster.program, f"{cluster.folder}/six", 6, NODES, cluster.nodes[0].peers)
    six.start()
    cluster.told.append(f"it ends with {six.wait(SETTLED_WITHIN)}: '{six.last_words()}'")


ROWS: Dict[str, Callable[[Cluster], None]] = {
    "operate, nobody started": nobody_started,
    "operate, no address": no_address,
    "operate, no majority": no_majority,
    "SIGTERM": terminated,
    "SIGSTOP for 30 s": stopped,
    "a peer's address is wrong": wrong_peer,
    "two peers are swapped": swapped,
    "own address and another's are swapped": swapped_own,
    "another number's log": other_log,
    "another number's folder": other_folder,
    "another N, with a log": other_count_log,
    "another N, a new node": other_count_new,
    "a port in use": port_in_use,
    "no such number": no_such_number,
}


def one_row(program: str, name: str, addresses: Sequence[str], failed: List[str]) -> None:
    """One row, and what it has told."""
    folder = tempfile.mkdtemp(prefix="crsm-operation-")
    cluster: Optional[Cluster] = Cluster(program, folder, addresses)
    try:
        cluster.start()
        cluster.await_all("started", range(NODES))
        cluster.told.clear()
        ROWS[name](cluster)
        print(f"{name}: {'; '.join(cluster.told)}", flush=True)
    except Broken as broken:
        failed.append(f"{name}: {broken}")
    finally:
        cluster.stop()
        shutil.rmtree(folder, ignore_errors=True)


def main() -> int:
    """All rows."""
    reader = argparse.ArgumentParser(description=__doc__, formatter_class=argparse.RawDescriptionHelpFormatter)
    reader.add_argument("program", type=os.path.abspath)
    reader.add_argument("--rows", type=lambda text: text.split(","), default=None)
    words = reader.parse_args()
    failed: List[str] = []
    for name in [it for it in ROWS if words.rows is None or any(it.startswith(row) for row in words.rows)]:
        one_row(words.program, name, [text_of(it) for it in free_addresses(ADDRESSES)], failed)
    for it in failed:
        print(f"operation: {it}", file=sys.stderr)
    print("operation: ok" if not failed else "operation: failed")
    return 1 if failed else 0


if __name__ == "__main__":
    sys.exit(main())
