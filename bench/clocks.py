"""Clocks that are wrong: what they cost the clients of each of three nodes, and what brings the nodes back.

    python3 bench/clocks.py PROGRAM [--rounds R] [--rows NAME,NAME]

puts a library (`clock.c`) in front of the clock of each of three nodes, has one client ask each node for one command
after another, moves the clock of node 2, or all clocks, while the nodes run, and prints a table of Markdown: what the
clients of node 2 and of the others waited, in the middle and at most, before, while and after the clock is wrong. Where
nothing is answered for ten seconds, `operate` is asked twice for all three nodes, and the table says so.

Figures of one run: a machine with other work adds to them. At the end all sheets are judged as by `chaos.py`. Ends with
0 where each row ends with all clients answered and the judgement holds, with 1 and the reason where not, and with 0 and
a word where there is no `cc`.
"""

import argparse
import mmap
import os
import random
import shutil
import socket
import struct
import subprocess
import sys
import tempfile
import threading
import time
from statistics import median
from typing import Dict, List, NamedTuple, Optional, Tuple

from load import Asked, Broken, judge_all, protocol, spelled, told
from nodes import Address, Node, free_addresses, text_of

HERE = os.path.dirname(os.path.abspath(__file__))

NODES, WRONG = 3, 2
RESEND_AFTER, PAUSE_AFTER_NO = 0.2, 0.02
BEFORE, SETTLED_WITHIN, OPERATE_AFTER = 2.0, 60.0, 10.0
MILLISECOND, SECOND, HOUR, DAY = 1_000, 1_000_000, 3_600_000_000, 86_400_000_000


class Row(NamedTuple):
    """How far clocks are moved, in microseconds, for how many seconds, and of which nodes."""

    name: str
    offset: int
    seconds: float
    nodes: Tuple[int, ...] = (WRONG,)


ROWS = {
    "behind": Row("100 ms behind", -100 * MILLISECOND, 5.0),
    "ahead": Row("100 ms ahead", 100 * MILLISECOND, 5.0),
    "second": Row("1 s ahead", SECOND, 8.0),
    "back": Row("an hour back", -HOUR, 40.0),
    "day": Row("a day ahead, and right again", DAY, 10.0),
    "all": Row("all an hour ahead, and right again", HOUR, 10.0, (0, 1, 2)),
}


# ---- clients


class Prober(threading.Thread):
    """A client that asks one node for one command after another, and sends each again until it is answered."""

    def __init__(self, number: int, address: Address):
        super().__init__(daemon=True)
        self.notes: List[Asked] = []
        self.codes: List[Tuple[float, int]] = []
        self.is_over = False
        self._number, self._address = number, address
        self._socket = socket.socket(socket.AF_INET, socket.SOCK_DGRAM)
        self._socket.settimeout(RESEND_AFTER)

    def _outcome(self, number: int) -> Optional[protocol.Answer]:
        """The next answer to this command, if it comes in time."""
        try:
            reply = protocol.reply_of(self._socket.recv(65_536))
        except (socket.timeout, ConnectionError):
            return None
        if reply is None or reply.number != number:
            return None
        outcome = reply.outcome
        if isinstance(outcome, int):
            self.codes.append((time.monotonic(), outcome))
            time.sleep(PAUSE_AFTER_NO)
            return None
        return outcome

    def run(self) -> None:
        """Asks until it is told to end."""
        number = 0
        while not self.is_over:
            number += 1
            note = Asked(self._number, number, ("put", "clock", str(number)), time.monotonic())
            self.notes.append(note)
            datagram = struct.pack(">BQQ", 4, note.client, note.number) + spelled(note.op)
            while note.answer is None and not self.is_over:
                self._socket.sendto(datagram, self._address)
                outcome = self._outcome(number)
                if outcome is not None:
                    note.answer, note.ended = told(outcome), time.monotonic()
        self._socket.close()

    def waits(self, since: float, until: float) -> List[float]:
        """How long each command took, in seconds, that was answered in this time, or still waited at its end."""
        return [
            min(it.ended or until, until) - it.began
            for it in self.notes
            if it.began < until and (it.ended is None or it.ended > since)
        ]

    def has_answered_since(self, since: float) -> bool:
        """Whether a command was answered that was asked since then."""
        return any(it.began > since and it.ended is not None for it in self.notes[-3:])


class Notes(NamedTuple):
    """What `judge_all` reads of a load."""

    notes: List[Asked]


# ---- nodes with clocks that can be moved


def built(folder: str) -> str:
    """The path of the library that `clock.c` becomes, built in this folder."""
    library = f"{folder}/clock.so"
    subprocess.run(["cc", "-O1", "-shared", "-fPIC", "-o", library, f"{HERE}/clock.c", "-ldl"], check=True)
    return library


class WrongClock:
    """The clock of a node that starts in this environment, which can be moved or stopped while the node runs."""

    def __init__(self, path: str, library: str):
        with open(path, "w+b") as file:
            file.write(bytes(16))
            file.flush()
            self._wrong = mmap.mmap(file.fileno(), 16)
        self.environment = {**os.environ, "LD_PRELOAD": library, "CLOCK_OFFSET": path}

    def move(self, offset: int) -> None:
        """Lets it go on, moved by so many microseconds."""
        self._wrong[:] = struct.pack("=qq", offset, 0)

    def stop(self, at: int) -> None:
        """Lets it stand at this many microseconds."""
        self._wrong[:] = struct.pack("=qq", 0, at)


class Cluster:
    """Three nodes and a client of each."""

    def __init__(self, program: str, folder: str, library: str):
        self.program = program
        self.addresses = free_addresses(NODES)
        peers = ",".join(text_of(it) for it in self.addresses)
        self.nodes = [Node(program, f"{folder}/{at}", at, NODES, peers) for at in range(NODES)]
        self.clients = [Prober(1000 + at, address) for at, address in enumerate(self.addresses)]
        self._clocks = [WrongClock(f"{folder}/clock-{at}", library) for at in range(NODES)]
        for it, clock in zip(self.nodes, self._clocks):
            it.environment = clock.environment

    def start(self) -> None:
        """Starts all, and waits until each client is answered."""
        for it in self.nodes:
            it.start()
        for it in self.clients:
            it.start()
        self.await_answers(time.monotonic())

    def move(self, row: Row, offset: int) -> None:
        """Moves the clocks of a row."""
        for at in row.nodes:
            self._clocks[at].move(offset)

    def silent(self, since: float) -> List[int]:
        """The nodes whose clients have no answer to a command that was asked since then."""
        return [at for at, it in enumerate(self.clients) if not it.has_answered_since(since)]

    def await_answers(self, since: float) -> Tuple[float, bool]:
        """Waits until each client is answered; tells how long it took, and whether that needed `operate`."""
        operated: List[float] = []
        while self.silent(since):
            passed = time.monotonic() - since
            if passed > SETTLED_WITHIN:
                raise Broken(f"the clients of nodes {self.silent(since)} have no answer after {passed:.0f} s")
            if passed > OPERATE_AFTER + len(operated) and len(operated) < 2:
                operated.append(passed)
                via = text_of(self.addresses[0])
                subprocess.run([self.program, "operate", via, ",".join(map(str, range(NODES)))], check=True)
            time.sleep(0.02)
        return time.monotonic() - since, bool(operated)

    def stop(self) -> None:
        """Ends all."""
        for it in self.clients:
            it.is_over = True
        for it in self.clients:
            if it.is_alive():
                it.join()
        for it in self.nodes:
            it.kill()


def spoken(waits: List[float]) -> str:
    """Some times, the middle and the longest."""
    if not waits:
        return "none"
    return f"{1000 * median(waits):,.0f} ms ({max(waits):.1f} s)"


def told_of(cluster: Cluster, since: float, until: float) -> Tuple[str, str]:
    """What the clients of node 2 and of the others waited in this time."""
    own = cluster.clients[WRONG].waits(since, until)
    others = [it for at, client in enumerate(cluster.clients) if at != WRONG for it in client.waits(since, until)]
    return spoken(own), spoken(others)


def one_row(program: str, library: str, row: Row) -> str:
    """A row of the table."""
    folder = tempfile.mkdtemp(prefix="crsm-clocks-")
    cluster = Cluster(program, folder, library)
    try:
        cluster.start()
        times = [time.monotonic()]
        time.sleep(BEFORE)
        times.append(time.monotonic())
        cluster.move(row, row.offset)
        time.sleep(row.seconds)
        times.append(time.monotonic())
        cluster.move(row, 0)
        took, was_operated = cluster.await_answers(times[-1])
        times.append(time.monotonic() + BEFORE)
        time.sleep(BEFORE)
        cells = [cell for since, until in zip(times, times[1:]) for cell in told_of(cluster, since, until)]
    finally:
        cluster.stop()
    notes = Notes([it for client in cluster.clients for it in client.notes])
    judge_all(program, cluster.nodes, notes)
    shutil.rmtree(folder)
    back = f"{took:.1f} s{', by `operate`' if was_operated else ''}"
    return f"| {row.name} | {' | '.join(cells)} | {back} |"


def read_words() -> argparse.Namespace:
    """The words of the command line."""
    reader = argparse.ArgumentParser(description=__doc__, formatter_class=argparse.RawDescriptionHelpFormatter)
    reader.add_argument("program", type=os.path.abspath)
    reader.add_argument("--rounds", type=int, default=1)
    reader.add_argument("--rows", type=lambda text: text.split(","), default=list(ROWS))
    return reader.parse_args()


def main() -> int:
    """The table."""
    words = read_words()
    if shutil.which("cc") is None:
        print("clocks: no cc here, so nothing was tried")
        return 0
    folder = tempfile.mkdtemp(prefix="crsm-clocks-")
    library = built(folder)
    print("| clock of node 2 | before: its clients | others | while: its | others | after: its | others | back |")
    print("|---|---|---|---|---|---|---|---|")
    try:
        for _ in range(words.rounds):
            for name in words.rows:
                print(one_row(words.program, library, ROWS[name]), flush=True)
    except Broken as broken:
        print(f"clocks: {broken}", file=sys.stderr)
        return 1
    finally:
        shutil.rmtree(folder)
    print("clocks: ok")
    return 0


if __name__ == "__main__":
    sys.exit(main())
