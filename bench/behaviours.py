"""What clients may see, and what the list then has: a table of behaviours, on real nodes behind a network that loses.

    python3 bench/behaviours.py PROGRAM [--seed K] [--keep FOLDER]

starts three nodes behind a network that loses, repeats and delays packets, has clients do what clients do when things
go wrong, and loses a third of what they send and receive, too. For each behaviour it prints what clients saw. Then the
sheets decide: all lists are prefixes of one, each answer is the one that the list has at the first place of that
command and that a store of its own in Python gives there, answers keep to real time, and the program's audit agrees.
Ends with 0 where all holds, and with 1 and the reason where a client saw what its row does not have, or the list says
something else than it did.
"""

import argparse
import os
import random
import shutil
import signal
import socket
import subprocess
import sys
import tempfile
import threading
import time
from collections import Counter
from collections.abc import Iterator
from contextlib import closing, contextmanager
from dataclasses import dataclass, field

HERE = os.path.dirname(os.path.abspath(__file__))
sys.path[:0] = [HERE, f"{HERE}/../clients/python"]

from chaos import Asked, Broken, Cluster, Entry, Model, audit, check_answers, the_list, told  # noqa: E402
from crsm import Client, CrsmError, KeptNumbers, NoAnswer, Numbers, Refused, Stale  # noqa: E402
from nodes import text_of  # noqa: E402

LOSS = 0.33
RETRIED, DROPPED, KEPT, SHARED, SHARED_NUMBERS = 1001, 1002, 1003, 1004, 1005
PROBES = 1000
ANSWER, STALE, OTHER, SILENCE = "an answer", "stale", "the answer to another command", "killed before an answer"
REPLY, NO_6 = 5, 6


class LossySocket:
    """A client's socket that loses packets in both directions, and counts the refusals that it hears."""

    def __init__(self, chance: random.Random, loss: float):
        self._socket = socket.socket(socket.AF_INET, socket.SOCK_DGRAM)
        self._chance, self._loss = chance, loss
        self.refusals: Counter[int] = Counter()
        self.close, self.settimeout = self._socket.close, self._socket.settimeout

    def sendto(self, datagram: bytes, address: tuple[str, int]) -> None:
        """Sends a packet, or loses it."""
        if self._chance.random() >= self._loss:
            self._socket.sendto(datagram, address)

    def recvfrom(self, size: int) -> tuple[bytes, tuple[str, int]]:
        """Receives a packet. Raises `TimeoutError` where that is lost."""
        data, source = self._socket.recvfrom(size)
        if data[:1] == bytes([REPLY]) and data[17]:
            self.refusals[data[17]] += 1
        elif self._chance.random() < self._loss:
            raise TimeoutError
        return data, source


@dataclass
class Row:
    """A behaviour: what clients may see of it, what they asked and saw, and whether its commands have names of their
    own, which those of clients with one number have not."""

    name: str
    may_see: frozenset[str]
    has_own_names: bool = True
    notes: list[Asked] = field(default_factory=list)
    saw: Counter[str] = field(default_factory=Counter)

    def ask(self, store: Client, op: tuple) -> None:
        """Has a client do an operation, and notes what it is told."""
        note = Asked(store.client, store.numbers.last + 1, op, time.monotonic())
        self.notes.append(note)
        try:
            note.answer = told(store, op)
            note.ended = time.monotonic()
            self.saw[ANSWER] += 1
        except Stale:
            self.saw[STALE] += 1
        except (NoAnswer, Refused) as error:
            self.saw[type(error).__name__] += 1
        except CrsmError:
            self.saw[OTHER] += 1

    def check(self) -> None:
        """Raises `Broken` where a client saw something else than it may see."""
        wrong = set(self.saw) - self.may_see
        if wrong or not self.saw[ANSWER]:
            raise Broken(f"{self.name}: clients saw {dict(self.saw)}")


class Trial:
    """The cluster, and a method for each row."""

    def __init__(self, cluster: Cluster, folder: str):
        self.cluster, self.folder = cluster, folder
        self.nodes = [text_of(address) for address in cluster.addresses]

    @contextmanager
    def lossy(self, client: int | Numbers, loss: float = LOSS, **how: float) -> Iterator[Client]:
        """Makes a client that loses packets."""
        with Client(self.nodes, client=client, **{"timeout": 25.0, "node_timeout": 0.7, "resend": 0.1, **how}) as store:
            store._socket.close()
            store._socket = LossySocket(random.Random(self.cluster.words.seed), loss)
            yield store

    def retry(self) -> Row:
        """The node that a client asks is killed: the next one answers, and the command is done once."""
        row = Row("retry at another node", frozenset([ANSWER]))
        with self.lossy(RETRIED) as store:
            for at in range(6):
                row.ask(store, ("cas", "retried", str(at - 1) if at else None, str(at)))
            self.cluster.nodes[0].kill()
            for at in range(6, 12):
                row.ask(store, ("cas", "retried", str(at - 1), str(at)))
        self.cluster.nodes[0].start()
        self.cluster.await_all(15.0)
        return row

    def dropped(self) -> Row:
        """A node that is cut off has a command, and drops it when it learns that the epoch is over: `no 6`. The client
        asks another one under the same number."""
        row = Row("again after `no 6`", frozenset([ANSWER]))
        with self.lossy(DROPPED, loss=0.0, node_timeout=25.0, resend=1.0) as store:
            row.ask(store, ("put", "dropped", "before"))
            for other in (1, 2):
                self.cluster.network.cut(0, other)
            asker = threading.Thread(target=row.ask, args=(store, ("cas", "dropped", "before", "after")))
            asker.start()
            self._await_epoch_without_0()
            for other in (1, 2):
                self.cluster.network.mend(0, other)
            asker.join()
            row.ask(store, ("get", "dropped"))
            if not store._socket.refusals[NO_6]:
                raise Broken(f"no `no 6` was heard, only {dict(store._socket.refusals)}")
        self.cluster.await_all(15.0)
        return row

    def _await_epoch_without_0(self) -> None:
        until = time.monotonic() + 15.0
        while not (self.cluster.answers(1) and self.cluster.answers(2)):
            if time.monotonic() > until:
                raise Broken("nodes 1 and 2 have not gone on without node 0")

    def restart(self) -> Row:
        """A process with a kept number is killed, and started again on its file: it is the same client, and goes on."""
        row = Row("a restart with a kept number", frozenset([ANSWER, SILENCE]))
        path = f"{self.folder}/client"
        with open(path, "w", encoding="ascii") as file:
            file.write(f"{KEPT:020} {0:020}\n")
        words = [sys.executable, "-B", os.path.abspath(__file__), "--asks", path, *self.nodes]
        for _ in range(3):
            with subprocess.Popen(words, stdout=subprocess.PIPE, text=True) as process:
                lines = [process.stdout.readline() for _ in range(11)]
                process.send_signal(signal.SIGKILL)
                lines += process.stdout.readlines()
            if "" in lines:
                raise Broken("the process with the kept number has ended by itself")
            self._note(row, lines)
        return row

    def _note(self, row: Row, lines: list[str]) -> None:
        """Notes what such a process wrote: a line before each command, and one behind its answer."""
        for line in lines:
            word, number, moment = line.split()
            if word == "asks":
                row.notes.append(Asked(KEPT, int(number), ("put", "kept", number), float(moment)))
            else:
                row.notes[-1].answer, row.notes[-1].ended = ("done",), float(moment)
        said = len([line for line in lines if line.startswith("told")])
        row.saw[ANSWER] += said
        row.saw[SILENCE] += len(lines) - 2 * said

    def shared(self, name: str, client: int, last: int | None) -> Row:
        """Two clients have one number at a time: one puts, and the other reads a key that is missing."""
        row = Row(name, frozenset([ANSWER, STALE, OTHER]), has_own_names=False)

        def ask(op: tuple) -> None:
            with self.lossy(Numbers(client, last)) as store:
                for _ in range(12):
                    row.ask(store, op)

        askers = [threading.Thread(target=ask, args=(op,)) for op in (("put", "shared", "1"), ("get", "never"))]
        for asker in askers:
            asker.start()
        for asker in askers:
            asker.join()
        return row

    def rows(self) -> Iterator[Row]:
        """Yields the rows, each once it was tried."""
        yield self.shared("two processes with one number", SHARED, None)
        yield self.shared("the same, with the commands' numbers too", SHARED_NUMBERS, 0)
        yield self.restart()
        yield self.retry()
        yield self.dropped()


def asks(path: str, nodes: list[str]) -> None:
    """Puts one value after another by a client whose number is kept, until it is killed."""
    with Client(nodes, client=KeptNumbers(path), timeout=25.0, node_timeout=0.7) as store:
        while True:
            number = store.numbers.last + 1
            print("asks", number, time.monotonic(), flush=True)
            store.put("kept", str(number))
            print("told", number, time.monotonic(), flush=True)


# ---- what the list says


def judge(entries: list[Entry], rows: list[Row]) -> dict[str, int]:
    """Returns how many commands of each row the list has. Raises `Broken` where clients were told otherwise."""
    asked: dict[tuple[int, int], list[tuple[Row, Asked]]] = {}
    for row in rows:
        for note in row.notes:
            asked.setdefault((note.client, note.number), []).append((row, note))
    model, first, done = Model(), {}, Counter()
    for place, entry in enumerate(entries):
        name = (entry.client, entry.number)
        choices = [note.op for _, note in asked.get(name, [])] or ([("get", "probe")] if entry.client < PROBES else [])
        if name not in first and name in asked:
            done[asked[name][0][0].name] += 1
        first.setdefault(name, place)
        if not any(model_answers(model, entry, op) for op in choices):
            raise Broken(f"place {place} has {entry}, and {choices} was asked")
    own = [note for row in rows if row.has_own_names for note in row.notes]
    check_answers(entries, own, first)
    check_shared(entries, [note for row in rows if not row.has_own_names for note in row.notes], first)
    return done


def model_answers(model: Model, entry: Entry, op: tuple) -> bool:
    """Does the operation if it is the one that the entry's answer is of: a `put` is done, a `get` is missing or found."""
    name = (entry.client, entry.number)
    is_new = model.clients.get(name[0], (-1, ()))[0] < name[1]
    kinds = {"get": ("missing", "found"), "put": ("done",), "delete": ("done", "missing"), "cas": ("done", "differs")}
    if is_new and entry.answer[0] not in kinds[op[0]]:
        return False
    return model.apply(*name, op) == entry.answer


def check_shared(entries: list[Entry], notes: list[Asked], first: dict[tuple[int, int], int]) -> None:
    """Each answer that a client with a shared number took for its own is the one that the list has under that name."""
    for note in notes:
        name = (note.client, note.number)
        if note.answer is not None and (name not in first or entries[first[name]].answer != note.answer):
            raise Broken(f"command {name} of two was answered {note.answer}, and the list has no such answer")


def run(words: argparse.Namespace, folder: str) -> None:
    """Tries all rows, and prints the table."""
    how = {"program": words.program, "nodes": 3, "seed": words.seed, "faults": ["kill"], "clients": 0, "seconds": 0.0, "other": None}
    cluster = Cluster(argparse.Namespace(**how), folder)
    try:
        with closing(cluster.control):
            cluster.start()
            rows = list(Trial(cluster, folder).rows())
        cluster.stop()
    finally:
        for node in cluster.nodes:
            node.kill()
    audited = audit(cluster)
    entries = the_list(cluster, audited)
    done = judge(entries, rows)
    for row in rows:
        row.check()
    print("| behaviour | commands | in the list | clients saw | they may see |\n|---|---|---|---|---|")
    for row in rows:
        saw = ", ".join(f"{word} {count}" for word, count in sorted(row.saw.items()) if count)
        print(f"| {row.name} | {len(row.notes)} | {done[row.name]} | {saw} | {', '.join(sorted(row.may_see))} |")
    print(f"the list has {len(entries)} entries; audit: {audited[-1]}")


def read_words() -> argparse.Namespace:
    """Reads the command line."""
    reader = argparse.ArgumentParser(description=__doc__, formatter_class=argparse.RawDescriptionHelpFormatter)
    reader.add_argument("program", type=os.path.abspath)
    reader.add_argument("--seed", type=int, default=1)
    reader.add_argument("--keep", help="a folder for the logs and sheets, which is kept")
    return reader.parse_args()


def main() -> int:
    """Runs the table, or the process that one of its rows kills."""
    if sys.argv[1:2] == ["--asks"]:
        asks(sys.argv[2], sys.argv[3:])
        return 0
    words = read_words()
    folder = os.path.abspath(words.keep or tempfile.mkdtemp(prefix="crsm-behaviours-"))
    os.makedirs(folder, exist_ok=True)
    try:
        run(words, folder)
    except Broken as broken:
        print(f"behaviours: {broken} (seed {words.seed}; see {folder})", file=sys.stderr)
        return 1
    if not words.keep:
        shutil.rmtree(folder)
    return 0


if __name__ == "__main__":
    sys.exit(main())
