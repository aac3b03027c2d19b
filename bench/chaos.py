"""Chaos: a cluster of real processes under faults, and whether it kept every promise.

    python3 bench/chaos.py PROGRAM [--nodes N] [--seconds S] [--seed K] [--clients C] [--faults F,F] [--keep FOLDER]
                           [--other PROGRAM]

starts N nodes (3, 5 or 7; each second one with the other program, as where releases are mixed) behind a network that
loses, repeats and delays packets, has clients ask them, and for S seconds kills nodes and starts them again, pauses
them, cuts links, leaves torn bytes behind a log and replaces a node by a new number. What happens is drawn from the
seed; when the system runs what is not. Then it lets the cluster settle and judges what the sheets and the clients say:

- each sheet replays with status 0, and the audit of all of them agrees, where the program has it;
- the lists of all nodes are prefixes of one list, and what a command is answered is what a store of its own in Python
  answers at that place;
- each command that a client was answered stands in that list, with that answer;
- a command that was asked after another had been answered stands later in the list;
- every node answers again within 15 seconds of the last fault.

Ends with 0 where all holds, with 1 and the reason where it does not. The faults: kill, pause, cut, tear, replace.
"""

import argparse
import os
import random
import shutil
import subprocess
import sys
import tempfile
import threading
import time
from collections import Counter
from dataclasses import dataclass
from typing import Dict, List, NamedTuple, Optional, Tuple

sys.path[:0] = [os.path.dirname(os.path.abspath(__file__)), os.path.join(os.path.dirname(os.path.abspath(__file__)), "../clients/python")]

from crsm import Client, CrsmError, NoAnswer  # noqa: E402
from nodes import Network, Node, Weather, free_addresses, text_of  # noqa: E402

FAULTS = ["kill", "pause", "cut", "tear", "replace"]
SETTLED_WITHIN = 15.0
KEYS = [f"k{at}" for at in range(8)]
MOST_AUDITED = 1 << 30
NO_COMMAND = 2


class Broken(Exception):
    """A promise that was not kept."""


# ---- what clients ask, and are told


@dataclass
class Asked:
    """One command: when it was asked and answered, in seconds, and what the client was told, if it was."""

    client: int
    number: int
    op: Tuple
    began: float
    ended: Optional[float] = None
    answer: Optional[Tuple] = None


class Asker(threading.Thread):
    """A client that asks one command after another and notes each."""

    def __init__(self, number: int, addresses: List[str], seed: int):
        super().__init__(daemon=True)
        self.number, self.addresses = number, addresses
        self.notes: List[Asked] = []
        self.is_over = False
        self.failed: Counter = Counter()
        self._chance = random.Random(seed)
        self._value = 0

    def _draw(self) -> Tuple:
        """The next operation."""
        key, kind = self._chance.choice(KEYS), self._chance.randrange(10)
        self._value += 1
        value = f"{self.number}.{self._value}"
        if kind < 3:
            return ("get", key)
        if kind < 7:
            return ("put", key, value)
        if kind < 8:
            return ("delete", key)
        return ("cas", key, self._chance.choice([None, value]), value)

    def run(self) -> None:
        """Asks until it is told to end."""
        with Client(self.addresses, client=self.number, timeout=6.0, node_timeout=0.6, resend=0.2) as store:
            while not self.is_over:
                note = Asked(self.number, store.numbers.last + 1, self._draw(), time.monotonic())
                self.notes.append(note)
                try:
                    note.answer = told(store, note.op)
                    note.ended = time.monotonic()
                except NoAnswer:
                    self.failed["no answer"] += 1
                except CrsmError as error:
                    self.failed[type(error).__name__] += 1
                time.sleep(self._chance.random() * 0.01)


def told(store: Client, op: Tuple) -> Tuple:
    """Asks for an operation, and answers what the store did in the words of a transcript."""
    kind, key = op[0], op[1]
    if kind == "get":
        value = store.get(key)
        return ("missing",) if value is None else ("found", value.hex() or "empty")
    if kind == "put":
        store.put(key, op[2])
        return ("done",)
    if kind == "delete":
        return ("done",) if store.delete(key) else ("missing",)
    done, found = store.cas(key, op[2], op[3])
    return ("done",) if done else ("differs", "none" if found is None else found.hex() or "empty")


class Model:
    """The store, as its users think of it: keys and values, and each client's last command."""

    def __init__(self) -> None:
        self.values: Dict[str, str] = {}
        self.clients: Dict[int, Tuple[int, Tuple]] = {}

    def apply(self, client: int, number: int, op: Tuple) -> Tuple:
        """Does a command, once, and answers it."""
        last, kept = self.clients.get(client, (-1, ()))
        if number == last:
            return kept
        if number < last:
            return ("stale", str(last))
        answer = self._do(op)
        self.clients[client] = (number, answer)
        return answer

    def _do(self, op: Tuple) -> Tuple:
        kind, key = op[0], op[1]
        held = self.values.get(key)
        if kind == "get":
            return ("missing",) if held is None else ("found", held.encode().hex() or "empty")
        if kind == "put":
            self.values[key] = op[2]
            return ("done",)
        if kind == "delete":
            return ("missing",) if self.values.pop(key, None) is None else ("done",)
        if held != op[2]:
            return ("differs", "none" if held is None else held.encode().hex() or "empty")
        self.values[key] = op[3]
        return ("done",)


# ---- what happens to the nodes


class Cluster:
    """The nodes, the network between them and the clients, and what is done to them."""

    def __init__(self, words: argparse.Namespace, folder: str):
        self.words, self.folder = words, folder
        self.chance = random.Random(words.seed)
        self.counts: Counter = Counter()
        self.members = list(range(words.nodes))
        self.gone: List[int] = []
        spare = 2 if "replace" in words.faults else 0
        self.addresses = free_addresses(words.nodes + spare)
        self.network = Network(self.addresses, Weather(0.01, 0.01, 0.05, 0.05), random.Random(words.seed + 1))
        programs = [words.program, words.other or words.program]
        self.nodes = [
            Node(programs[at % 2], f"{folder}/{at}", at, words.nodes, self.network.peers_of(at))
            for at in range(len(self.addresses))
        ]
        texts = [text_of(it) for it in self.addresses]
        self.askers = [Asker(1000 + at, turned(texts[: words.nodes], at), words.seed + 2 + at) for at in range(words.clients)]
        self.control = Client(texts, client=999, timeout=3.0, node_timeout=0.7)

    def start(self) -> None:
        """Starts everything, and waits until the nodes answer."""
        self.network.start()
        for at in self.members:
            self.nodes[at].start()
        self.await_all(SETTLED_WITHIN)
        for it in self.askers:
            it.start()

    def await_all(self, seconds: float) -> float:
        """Waits until every member answers, and tells how long it took."""
        began = time.monotonic()
        waiting, asked = list(self.members), 0.0
        while waiting:
            if time.monotonic() > began + seconds:
                raise Broken(f"nodes {waiting} have not answered within {seconds} seconds")
            if time.monotonic() > asked + 2.0:
                asked = time.monotonic()
                self.ask_for_members()
            if self.answers(waiting[0]):
                waiting.pop(0)
        return time.monotonic() - began

    def ask_for_members(self) -> None:
        """Asks a node that is up for the members that are wanted."""
        for via in self.members:
            if self.nodes[via].is_up():
                self.control.request_members(self.members, via=via, sure=True)

    def answers(self, number: int) -> bool:
        """Whether a node answers a command within a little time."""
        with Client([self.addresses[number]], client=900 + number, timeout=0.8) as one:
            try:
                one.get("probe")
                return True
            except CrsmError:
                return False

    def one_fault(self) -> None:
        """Does something to a node or a link, and undoes it."""
        fault = self.chance.choice(self.words.faults)
        if fault == "replace" and len(self.nodes) == self.words.nodes + len(self.gone):
            fault = "kill"
        getattr(self, f"do_{fault}")()
        self.counts[fault] += 1

    def do_kill(self) -> None:
        """Kills some nodes, fewer than half, and starts them again on their logs."""
        most = (len(self.members) - 1) // 2
        victims = self.chance.sample(self.members, self.chance.randint(1, most))
        for at in victims:
            self.nodes[at].kill()
        time.sleep(self.chance.choice([0.1, 1.0, 6.5]))
        for at in victims:
            self.nodes[at].start()
        time.sleep(0.3)
        self.ask_for_members()

    def do_tear(self) -> None:
        """As a kill, with torn bytes behind the log's last entry."""
        at = self.chance.choice(self.members)
        self.nodes[at].kill()
        self.nodes[at].tear(self.chance)
        time.sleep(0.2)
        self.nodes[at].start()
        time.sleep(0.3)
        self.ask_for_members()

    def do_pause(self) -> None:
        """Stops a process and lets it go on."""
        at = self.chance.choice(self.members)
        self.nodes[at].pause()
        time.sleep(self.chance.choice([0.05, 0.5, 2.0, 7.0]))
        self.nodes[at].go_on()
        time.sleep(0.3)
        self.ask_for_members()

    def do_cut(self) -> None:
        """Cuts a link, or all links of a node, and mends them."""
        one = self.chance.choice(self.members)
        rest = [at for at in self.members if at != one]
        others = rest if self.chance.random() < 0.5 else [self.chance.choice(rest)]
        for other in others:
            self.network.cut(one, other)
        time.sleep(self.chance.choice([0.3, 2.0, 7.0]))
        for other in others:
            self.network.mend(one, other)
        time.sleep(0.3)
        self.ask_for_members()

    def do_replace(self) -> None:
        """Loses a node for good, and takes a new number in its place."""
        old = self.chance.choice(self.members)
        new = self.words.nodes + len(self.gone)
        self.nodes[old].kill()
        self.gone.append(old)
        self.members = sorted(set(self.members) - {old} | {new})
        self.nodes[new].start()
        time.sleep(0.3)
        self.ask_for_members()

    def run(self) -> float:
        """Faults for the given time; answers how long the cluster took to settle afterwards."""
        end = time.monotonic() + self.words.seconds
        while time.monotonic() < end:
            self.one_fault()
            # (most faults meet a cluster that works, some one that has not settled)
            if self.chance.random() < 0.7:
                self.await_all(SETTLED_WITHIN)
            time.sleep(self.chance.random())
        took = self.await_all(SETTLED_WITHIN)
        for it in self.askers:
            it.is_over = True
        for it in self.askers:
            it.join()
        return took

    def stop(self) -> None:
        """Ends all nodes, and boots each once more for a turn, so that its last sheet has all that its log has."""
        for it in self.nodes:
            it.kill()
        self.network.stop()
        for it in self.nodes:
            if it.boots:
                it.start(1)
                if it.wait(60) != 0:
                    raise Broken(f"node {it.number} does not boot on its log")


def turned(all: List[str], by: int) -> List[str]:
    """The list, begun at another place."""
    by %= len(all)
    return all[by:] + all[:by]


# ---- what the sheets say


class Entry(NamedTuple):
    """One place of the list, as an `exec` line tells it."""

    epoch: int
    time: int
    origin: int
    client: int
    number: int
    answer: Tuple


def whole_lines(sheet: str) -> bytes:
    """A sheet up to its last whole line: a node that was killed may have written a part of one."""
    with open(sheet, "rb") as file:
        text = file.read()
    return text[: text.rfind(b"\n") + 1]


def replayed(program: str, node: Node, boot: int) -> List[str]:
    """The lines of what a sheet is replayed to."""
    text = whole_lines(node.sheet(boot))
    if b"open\n" not in text:
        # (it was killed before it had read its log)
        return []
    words = [program, "replay-node", str(node.number), str(node.began_with)]
    ran = subprocess.run(words, input=text, capture_output=True, check=False)
    if ran.returncode != 0:
        raise Broken(f"sheet {boot} of node {node.number} ends with {ran.returncode}: {ran.stderr.decode()}")
    return ran.stdout.decode().splitlines()


def entries_of(lines: List[str]) -> Dict[int, Entry]:
    """Each place that an `exec` line of these names."""
    found = {}
    for line in lines:
        words = line.split()
        if words[1] == "exec":
            numbers = [int(it) for it in words[3:9]]
            found[numbers[0]] = Entry(*numbers[1:], tuple(words[9:]))
    return found


def the_list(cluster: Cluster, audited: List[str]) -> List[Entry]:
    """The one list of which all lists are prefixes; `audited` is what the audit wrote.

    An entry that each of its nodes has executed while it started on its log has no `exec` line and no answer here.
    """
    places: Dict[int, Entry] = {}
    for node in cluster.nodes:
        for boot in range(node.boots):
            for place, entry in entries_of(replayed(cluster.words.program, node, boot)).items():
                if places.setdefault(place, entry) != entry:
                    raise Broken(f"place {place}: {places[place]} and, at node {node.number}, {entry}")
    for words in [line.split() for line in audited if line.startswith("place ")]:
        place, *numbers = [int(it) for it in words[1:]]
        if places.setdefault(place, Entry(*numbers, ()))[:5] != tuple(numbers):
            raise Broken(f"place {place}: {places[place]} and, by the audit, {numbers}")
    if sorted(places) != list(range(len(places))):
        raise Broken("a place of the list is missing")
    return [places[at] for at in range(len(places))]


def judge(cluster: Cluster, audited: List[str]) -> int:
    """Compares what clients were told with the list, and answers its length; `audited` is what the audit wrote."""
    entries = the_list(cluster, audited)
    notes = {(it.client, it.number): it for asker in cluster.askers for it in asker.notes}
    first: Dict[Tuple[int, int], int] = {}
    model = Model()
    for place, entry in enumerate(entries):
        name = (entry.client, entry.number)
        first.setdefault(name, place)
        if name in notes:
            answer = model.apply(*name, notes[name].op)
        elif entry.client < 1000:
            answer = model.apply(*name, ("get", "probe"))
        else:
            raise Broken(f"place {place} has a command that nobody asked for: {entry}")
        if entry.answer not in ((), answer):
            raise Broken(f"place {place} is answered {entry.answer}, and a store answers {answer}")
        entries[place] = entry._replace(answer=answer)
    check_answers(entries, list(notes.values()), first)
    return len(entries)


def check_answers(entries: List[Entry], notes: List[Asked], first: Dict[Tuple[int, int], int]) -> None:
    """Each answer is that of its place, and places keep to real time."""
    answered = [it for it in notes if it.answer is not None]
    for it in answered:
        name = (it.client, it.number)
        if name not in first:
            raise Broken(f"command {name} was answered {it.answer} and is in no list")
        if entries[first[name]].answer != it.answer:
            raise Broken(f"command {name} was answered {it.answer}, and place {first[name]} has {entries[first[name]]}")
    # The latest place of what was answered by the time that a command was asked must lie before that command's.
    answered.sort(key=lambda it: it.ended)
    latest, at = -1, 0
    for it in sorted(notes, key=lambda it: it.began):
        while at < len(answered) and answered[at].ended < it.began:
            latest = max(latest, first[answered[at].client, answered[at].number])
            at += 1
        place = first.get((it.client, it.number))
        if place is not None and place <= latest:
            raise Broken(f"command {(it.client, it.number)} is at {place}, and place {latest} was answered before")


def audited_sheets(cluster: Cluster) -> bytes:
    """The sheets that an audit is given: of each node the last ones, and of all nodes as many as an input may have."""
    sheets = [(node, boot) for node in cluster.nodes for boot in range(node.boots)]
    sheets.sort(key=lambda it: it[0].boots - it[1])
    chosen, size = [], 0
    for node, boot in sheets:
        size += os.path.getsize(node.sheet(boot)) + 8
        if size > MOST_AUDITED:
            break
        chosen.append((node, boot))
    chosen.sort(key=lambda it: (it[0].number, it[1]))
    texts = [(node, whole_lines(node.sheet(boot))) for node, boot in chosen]
    return b"".join(b"node %d\n" % node.number + text for node, text in texts if b"open\n" in text)


def audit(cluster: Cluster) -> List[str]:
    """What the program's own audit writes of the sheets: the list that they agree on, and how long it is."""
    text = audited_sheets(cluster)
    words = [cluster.words.program, "audit", str(cluster.words.nodes)]
    ran = subprocess.run(words, input=text, capture_output=True, check=False)
    if ran.returncode == NO_COMMAND:
        return ["not in this program"]
    verdict = ran.stdout.decode().strip().splitlines()
    if ran.returncode != 0 or not verdict or not verdict[-1].startswith("agree"):
        raise Broken(f"audit ends with {ran.returncode}: {verdict[-3:]} {ran.stderr.decode()}")
    return verdict


def read_words() -> argparse.Namespace:
    """The words of the command line."""
    reader = argparse.ArgumentParser(description=__doc__, formatter_class=argparse.RawDescriptionHelpFormatter)
    reader.add_argument("program", type=os.path.abspath)
    reader.add_argument("--nodes", type=int, default=3, choices=[3, 5, 7])
    reader.add_argument("--other", type=os.path.abspath)
    reader.add_argument("--seconds", type=float, default=30.0)
    reader.add_argument("--seed", type=int, default=1)
    reader.add_argument("--clients", type=int, default=4)
    reader.add_argument("--faults", type=lambda text: text.split(","), default=FAULTS)
    reader.add_argument("--keep", help="a folder for the logs and sheets, which is kept")
    words = reader.parse_args()
    if not set(words.faults) <= set(FAULTS):
        reader.error(f"the faults are {','.join(FAULTS)}")
    return words


def main() -> int:
    """One run."""
    words = read_words()
    folder = words.keep or tempfile.mkdtemp(prefix="crsm-chaos-")
    os.makedirs(folder, exist_ok=True)
    cluster = Cluster(words, os.path.abspath(folder))
    try:
        cluster.start()
        took = cluster.run()
        cluster.stop()
        audited = audit(cluster)
        length = judge(cluster, audited)
    except Broken as broken:
        print(f"chaos: {broken} (seed {words.seed}; see {folder})", file=sys.stderr)
        return 1
    finally:
        for it in cluster.nodes:
            it.kill()
    answered = sum(it.answer is not None for asker in cluster.askers for it in asker.notes)
    asked = sum(len(asker.notes) for asker in cluster.askers)
    passed = cluster.network.passed
    print(f"seed {words.seed}, {words.nodes} nodes: faults {dict(cluster.counts)}; settled after {took:.1f} s")
    print(f"commands: {asked} asked, {answered} answered, {length} in the list; audit: {audited[-1]}")
    print(f"packets: {passed.taken} taken, {passed.lost} lost, {passed.repeated} repeated, {passed.late} late")
    if not words.keep:
        shutil.rmtree(folder)
    return 0


if __name__ == "__main__":
    sys.exit(main())
