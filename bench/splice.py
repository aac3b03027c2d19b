"""Fragments of a node that was started again while its clock was wrong: no datagram is put together that nobody sent.

    python3 bench/splice.py PROGRAM [--restarts R] [--rows NAME,NAME] [--short]

Three nodes ask each other through `relay.c`, which loses and reorders packets. In each round node 2 falls behind, and
node 1 is killed and started again twice, while its clock is an hour back or stands at the same reading each time. Both
times node 2 asks it for what it lacks, and it answers with a page of as many bytes, which it cuts. Of the first page the
relay hands on nothing but the first fragment, of the second nothing but the others; a question of node 2 that came late
makes the pages begin at two places of the list. Then the clock is right, all packets pass, and all nodes have to answer.

At the end each part that a node took is compared with the one that its sender's sheet has under that name, and all
sheets are audited. Prints a line for each row. Ends with 1 where a part was one that nobody sent, lists differ, or a
node did not answer in time. `--restarts` is of each row, 100 unless it is given. `--short` makes some 10 in all.
"""

import argparse
import os
import shutil
import socket
import struct
import subprocess
import sys
import tempfile
import time
from typing import Callable, Dict, List, NamedTuple, Optional, Sequence, Set, Tuple

from chaos import audit, replayed, whole_lines
from clocks import HOUR, WrongClock, built
from load import Broken, Judged
from network import Relay
from nodes import Node, free_addresses, text_of

NODES, STEADY, RESTARTED, BEHIND = 3, 0, 1, 2
WEATHER = ["loss 100", "reorder 500 10"]
RESTARTS, SHORT_RESTARTS = 100, 6
SETTLED_WITHIN = 15.0
RESEND, PAUSE, OPERATE_AGAIN = 0.2, 0.02, 1.0
# A node says once a second whom it hears, and one that has said three times that it does not hear another is not heard.
HEARING = 1.2
# So many commands stand in a page, which is one part and five fragments, and so many further on the second one begins.
PAGE, FURTHER = 24, 8
VALUE_BYTES = 200
# Why a node refuses a command.
NOT_LIVE = 1
# A part begins with 3, and has its name in 27 bytes: sender, receiver, boot, number, index and count.
PART, NAME_DIGITS = "03", 54


class Row(NamedTuple):
    """How the clock of node 1 is wrong while it starts, by what it was before the round's first restart, in microseconds."""

    name: str
    spoil: Callable[[WrongClock, int], None]


ROWS = {
    "back": Row("an hour back", lambda clock, _: clock.move(-HOUR)),
    "stands": Row("a clock that stands", lambda clock, began: clock.stop(began)),
}


class Clients:
    """Clients that put values of equal length, each with one command under way."""

    def __init__(self) -> None:
        self._socket = socket.socket(socket.AF_INET, socket.SOCK_DGRAM)
        self._number = 0

    def _datagram(self, client: int) -> bytes:
        """The command of a client in this round."""
        value = b"%d." % self._number
        key = b"key-%02d" % client
        put = bytes([2, len(key)]) + key + struct.pack(">H", VALUE_BYTES) + value.ljust(VALUE_BYTES, b".")
        return struct.pack(">BQQ", 4, client, self._number) + put

    def _take(self, waiting: Dict[int, Tuple[str, int]]) -> bool:
        """Takes the replies that come within a moment, and drops from the waiting ones those that are answered; whether
        one was refused."""
        self._socket.settimeout(PAUSE)
        is_refused = False
        try:
            while waiting:
                reply = self._socket.recv(9000)
                client, number = struct.unpack(">QQ", reply[1:17])
                if number == self._number and reply[17] == 0:
                    waiting.pop(client, None)
                is_refused |= number == self._number and reply[17] != 0
        except socket.timeout:
            pass
        return is_refused

    def is_left_out(self, address: Tuple[str, int]) -> bool:
        """Whether a node says within a moment that it is no member that is live."""
        self._number += 1
        self._socket.sendto(self._datagram(1), address)
        self._socket.settimeout(RESEND)
        try:
            while True:
                reply = self._socket.recv(9000)
                if struct.unpack(">QQ", reply[1:17]) == (1, self._number):
                    return reply[17] == NOT_LIVE
        except socket.timeout:
            return False

    def put(self, addresses: Sequence[Tuple[str, int]], late: Callable[[], None] = lambda: None) -> None:
        """Puts a value at each of these addresses and waits for the answers; calls `late` where they take a while."""
        self._number += 1
        began, called = time.monotonic(), OPERATE_AGAIN
        waiting = dict(enumerate(addresses, 1))
        while waiting:
            passed = time.monotonic() - began
            if passed > SETTLED_WITHIN:
                raise Broken(f"{sorted(map(text_of, waiting.values()))} do not answer within {SETTLED_WITHIN:.0f} s")
            if passed >= called:
                late()
                called = passed + OPERATE_AGAIN
            for client, address in waiting.items():
                self._socket.sendto(self._datagram(client), address)
            until = time.monotonic() + RESEND
            while waiting and time.monotonic() < until:
                if self._take(waiting):
                    break


class Cluster:
    """The nodes, the relay between them, and the clock of node 1."""

    def __init__(self, program: str, folder: str, library: str, row: Row):
        self.program, self.row = program, row
        self.addresses = free_addresses(NODES)
        self.relay = Relay(folder, self.addresses)
        self.nodes = [Node(program, f"{folder}/{at}", at, NODES, self.relay.peers_of(at)) for at in range(NODES)]
        self.clock = WrongClock(f"{folder}/clock", library)
        self.nodes[RESTARTED].environment = self.clock.environment
        self.clients = Clients()
        self.began, self.restarts, self.longest = 0, 0, 0.0

    def start(self) -> None:
        """Starts all nodes, and waits until they answer."""
        for it in self.nodes:
            it.start()
        self.clients.put(self.addresses)

    def stop(self) -> None:
        """Ends all."""
        for it in self.nodes:
            it.kill()
        self.relay.stop()

    def tell(self, *commands: str) -> None:
        """Gives the relay commands."""
        for it in commands:
            self.relay.tell(it)

    def put(self, count: int) -> None:
        """Puts so many values at node 0."""
        self.clients.put([self.addresses[STEADY]] * count)

    def await_answers(self, *members: int) -> None:
        """Waits until each of these has answered a put; asks for them as members where that takes a while."""
        began = time.monotonic()
        self.clients.put([self.addresses[at] for at in members], lambda: self.operate(members))
        self.longest = max(self.longest, time.monotonic() - began)

    def operate(self, members: Sequence[int]) -> None:
        """Asks node 0 for these as members."""
        words = [self.program, "operate", text_of(self.addresses[STEADY]), ",".join(map(str, members))]
        subprocess.run(words, check=True)

    def await_out(self) -> None:
        """Asks for the others as members until node 2 refuses a put."""
        for _ in range(int(SETTLED_WITHIN / OPERATE_AGAIN)):
            self.operate([STEADY, RESTARTED])
            end = time.monotonic() + OPERATE_AGAIN
            while time.monotonic() < end:
                if self.clients.is_left_out(self.addresses[BEHIND]):
                    return
                time.sleep(0.01)
        raise Broken(f"node {BEHIND} is not left out within {SETTLED_WITHIN:.0f} s")

    def await_count(self, sender: int, receiver: int, name: str, more: int, seconds: float) -> None:
        """Waits until the relay has handed on so many more packets of a kind, or for some time."""
        first = self.relay.count(sender, receiver)[name]
        end = time.monotonic() + seconds
        while self.relay.count(sender, receiver)[name] < first + more and time.monotonic() < end:
            time.sleep(0.005)

    def restart(self, passes: str, fragments: int) -> None:
        """Kills node 1 and starts it with a wrong clock; node 2 asks it, and gets only such fragments of its answer."""
        node = self.nodes[RESTARTED]
        node.kill()
        self.tell(f"{passes} {RESTARTED} {BEHIND}")
        self.row.spoil(self.clock, self.began)
        node.start()
        self.restarts += 1
        self.await_open(node)
        # Fragments go to whoever sent a bundle lately.
        self.await_count(BEHIND, RESTARTED, "packed", 1, 1.5)
        self.tell(f"release {BEHIND} {RESTARTED}")
        self.await_count(RESTARTED, BEHIND, passes, fragments, 0.5)
        self.tell(f"hold {BEHIND} {RESTARTED}")

    def await_open(self, node: Node) -> None:
        """Waits until a node has read its log."""
        end = time.monotonic() + SETTLED_WITHIN
        while b"open\n" not in whole_lines(node.sheet(node.boots - 1)):
            if time.monotonic() > end:
                raise Broken(f"node {node.number} does not start: {node.last_words()}")
            time.sleep(0.01)

    def fall_behind(self) -> None:
        """Leaves node 2 out; node 0 tells it of a few commands more, and what it asks node 1 is kept."""
        self.await_out()
        self.tell(f"hold {BEHIND} {RESTARTED}", f"heads {RESTARTED} {BEHIND}")
        time.sleep(0.1)
        self.put(FURTHER)
        time.sleep(0.15)
        self.tell(f"cut {STEADY} {BEHIND}", f"cut {BEHIND} {STEADY}")
        self.put(PAGE - FURTHER)
        time.sleep(0.1)

    def executed(self) -> int:
        """How many commands node 1 has executed, by its log."""
        words = [self.program, "dump", str(RESTARTED), str(NODES), "state"]
        with open(self.nodes[RESTARTED].log, "rb") as log:
            told = subprocess.run(words, stdin=log, capture_output=True, text=True, check=True).stdout
        return next(int(line.split()[1]) for line in told.splitlines() if line.startswith("executed "))

    def go_further(self, wanted: int) -> None:
        """Lets node 1 take part again and execute so many commands; node 2 is told of the epoch, and of no command."""
        self.clock.move(0)
        heard = time.monotonic() + HEARING
        self.tell(f"join {STEADY} {BEHIND}")
        for _ in range(2):
            self.operate([STEADY, RESTARTED])
            self.await_answers(STEADY, RESTARTED)
        time.sleep(0.05)
        self.tell(f"cut {STEADY} {BEHIND}")
        self.put(max(0, wanted - self.executed()))
        time.sleep(max(0.1, heard - time.monotonic()))

    def round(self) -> None:
        """One round of two restarts."""
        self.fall_behind()
        before = self.executed()
        self.began = time.time_ns() // 1000
        self.restart("heads", 1)
        self.go_further(before + FURTHER)
        self.restart("tails", 4)
        time.sleep(0.05)
        self.clock.move(0)
        self.tell("mend", *WEATHER)
        for _ in range(2):
            self.operate(range(NODES))
            self.await_answers(*range(NODES))


# ---- what the sheets say


def parts_sent(program: str, node: Node) -> Dict[str, str]:
    """The parts that the sheets of a node say it sent, by their names."""
    found: Dict[str, str] = {}
    for boot in range(node.boots):
        for line in replayed(program, node, boot):
            words = line.split()
            if words[1] == "out" and words[3].startswith(PART):
                found[words[3][:NAME_DIGITS]] = words[3]
    return found


def parts_taken(node: Node) -> Set[str]:
    """The parts that the sheets of a node say it took."""
    found: Set[str] = set()
    for boot in range(node.boots):
        for line in whole_lines(node.sheet(boot)).decode().splitlines():
            if line.startswith("in "):
                datagram = line.split()[3]
                if datagram.startswith(PART):
                    found.add(datagram)
    return found


def wrong_parts(program: str, nodes: List[Node]) -> int:
    """How many parts were taken that differ from the one that was sent under their name."""
    sent: Dict[str, str] = {}
    for it in nodes:
        sent.update(parts_sent(program, it))
    taken = [part for it in nodes for part in parts_taken(it)]
    return sum(sent.get(it[:NAME_DIGITS], it) != it for it in taken)


def verdict(program: str, nodes: List[Node]) -> str:
    """What the audit says of all sheets."""
    for it in nodes:
        it.environment = None
        it.start(1)
        if it.wait(60) != 0:
            raise Broken(f"node {it.number} does not start on its log: {it.last_words()}")
    words = argparse.Namespace(program=program, nodes=NODES)
    try:
        return audit(Judged(words, nodes, []))[-1]
    except Broken as broken:
        return str(broken)


def one_row(program: str, library: str, row: Row, restarts: int) -> bool:
    """Prints the line of a row; whether all holds."""
    folder = tempfile.mkdtemp(prefix="crsm-splice-")
    cluster = Cluster(program, folder, library, row)
    lacks: Optional[str] = None
    try:
        cluster.start()
        cluster.tell(*WEATHER)
        while cluster.restarts < restarts:
            cluster.round()
    except Broken as broken:
        lacks = f"round {cluster.restarts // 2}: {broken}"
    seen = cluster.relay.count(RESTARTED, BEHIND)
    cluster.stop()
    wrong, said = wrong_parts(program, cluster.nodes), verdict(program, cluster.nodes)
    print(
        f"{row.name}: {cluster.restarts} restarts, answers after {cluster.longest:.1f} s at most;"
        f" {seen['heads']} first fragments and {seen['tails']} others; {wrong} parts that nobody sent; audit: {said}"
        + (f"; LACKS {lacks}" if lacks else ""),
        flush=True,
    )
    shutil.rmtree(folder)
    return not lacks and wrong == 0 and said.startswith("agree")


def main() -> int:
    """All rows."""
    reader = argparse.ArgumentParser(description=__doc__, formatter_class=argparse.RawDescriptionHelpFormatter)
    reader.add_argument("program", type=os.path.abspath)
    reader.add_argument("--restarts", type=int, default=RESTARTS)
    reader.add_argument("--rows", type=lambda text: text.split(","), default=list(ROWS))
    reader.add_argument("--short", action="store_true")
    words = reader.parse_args()
    folder = tempfile.mkdtemp(prefix="crsm-splice-")
    try:
        library = built(folder)
        restarts = SHORT_RESTARTS if words.short else words.restarts
        failed = sum(not one_row(words.program, library, ROWS[name], restarts) for name in words.rows)
    finally:
        shutil.rmtree(folder)
    print("splice: ok" if not failed else f"splice: {failed} rows lack something")
    return 1 if failed else 0


if __name__ == "__main__":
    sys.exit(main())
