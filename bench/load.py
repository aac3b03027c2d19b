"""Clients that load nodes and note what they are told, and the judgement of a cluster that has ended.

What a trial of real nodes shares with `chaos.py`: the notes, and what is judged by them.
"""

import argparse
import os
import random
import socket
import struct
import sys
import threading
import time
from dataclasses import dataclass
from typing import Dict, List, Tuple

HERE = os.path.dirname(os.path.abspath(__file__))
sys.path[:0] = [HERE, f"{HERE}/../clients/python"]

from crsm import protocol  # noqa: E402
from chaos import KEYS, Asked, Broken, audit, judge, whole_lines  # noqa: E402
from nodes import Address, Node  # noqa: E402

CLIENTS = 32
RESEND_AFTER = 0.1
# The clients ask together, so that nodes group what they write.
PAUSE = 0.002


class Load(threading.Thread):
    """Clients that each have one command under way, all over one socket, and note what they are told."""

    def __init__(self, addresses: List[Address], seed: int, clients: int = CLIENTS):
        super().__init__(daemon=True)
        self.notes: List[Asked] = []
        self.answered = 0
        self.is_over = False
        self._addresses = addresses
        self._clients = clients
        self._chance = random.Random(seed)
        self._socket = socket.socket(socket.AF_INET, socket.SOCK_DGRAM)
        self._socket.setblocking(False)
        self._under_way: Dict[int, Asked] = {}
        self._sent: Dict[int, Tuple[float, int]] = {}

    def _draw(self, number: int) -> Tuple:
        """The next operation of a command with this number; values have up to 512 bytes."""
        key, kind = self._chance.choice(KEYS), self._chance.randrange(10)
        value = str(number).ljust(self._chance.choice([1, 200, 512]), ".")
        if kind < 2:
            return ("get", key)
        if kind < 8:
            return ("put", key, value)
        if kind < 9:
            return ("delete", key)
        return ("cas", key, self._chance.choice([None, value]), value)

    def _send(self, note: Asked) -> None:
        """Sends a command to the next node, after one that has not answered it."""
        before = self._sent.get(note.client, (0.0, note.client))[1]
        to = (before + 1) % len(self._addresses)
        self._sent[note.client] = (time.monotonic(), to)
        datagram = struct.pack(">BQQ", 4, note.client, note.number) + spelled(note.op)
        self._socket.sendto(datagram, self._addresses[to])

    def _ask_next(self, client: int, number: int) -> None:
        """Begins a command."""
        note = Asked(client, number, self._draw(number), time.monotonic())
        self.notes.append(note)
        self._under_way[client] = note
        self._send(note)

    def _take(self, datagram: bytes) -> None:
        """Takes a reply, and notes it where it answers a command that is under way."""
        reply = protocol.reply_of(datagram)
        if reply is None:
            return
        client, number, outcome = reply
        note = self._under_way.get(client)
        if note is None or note.number != number or isinstance(outcome, int):
            return
        note.answer, note.ended = told(outcome), time.monotonic()
        self.answered += 1
        del self._under_way[client]

    def _take_all(self) -> None:
        """Takes all replies that are there."""
        try:
            while True:
                self._take(self._socket.recv(65_536))
        except (BlockingIOError, ConnectionError):
            pass

    def run(self) -> None:
        """Asks until it is told to end."""
        numbers = {client: 0 for client in range(1000, 1000 + self._clients)}
        while not self.is_over:
            self._take_all()
            for client in numbers.keys() - self._under_way.keys():
                numbers[client] += 1
                self._ask_next(client, numbers[client])
            time.sleep(PAUSE)
            late = time.monotonic() - RESEND_AFTER
            for note in [it for it in self._under_way.values() if self._sent[it.client][0] < late]:
                self._send(note)
        self._socket.close()


def spelled(op: Tuple) -> bytes:
    """An operation as datagrams have it."""
    makers = {"get": protocol.get_of, "put": protocol.put_of, "delete": protocol.delete_of, "cas": protocol.cas_of}
    return makers[op[0]](*op[1:]).data


def told(answer: protocol.Answer) -> Tuple:
    """An answer in the words of a transcript."""
    kinds = {1: "found", 2: "missing", 3: "done", 4: "differs", 5: "stale", 6: "noroom"}
    kind = kinds[answer.kind]
    if kind == "stale":
        return (kind, str(answer.number))
    if kind in ("found", "differs"):
        return (kind, "none" if answer.value is None else answer.value.hex() or "empty")
    return (kind,)


@dataclass
class Judged:
    """What `chaos.judge` and `chaos.audit` read."""

    words: argparse.Namespace
    nodes: List[Node]
    askers: List[Load]


def check_bodies(node: Node) -> None:
    """Each start of a node found what the start before had found, and maybe more."""
    before: List[bytes] = []
    for boot in range(node.boots):
        lines = whole_lines(node.sheet(boot)).split(b"\n")
        if b"open" not in lines:
            continue
        bodies = lines[: lines.index(b"open")]
        if bodies[: len(before)] != before:
            raise Broken(f"node {node.number}: start {boot} has not found all that one before it had found")
        before = bodies


def judge_all(program: str, nodes: List[Node], load: Load) -> int:
    """Starts each node once more for a turn, so that its last sheet has all of its log, and judges all sheets; answers
    the length of the list."""
    for it in nodes:
        it.environment = None
        it.start(1)
        if it.wait(60) != 0:
            raise Broken(f"node {it.number} does not start on its log: {it.last_words()}")
        check_bodies(it)
    cluster = Judged(argparse.Namespace(program=program, nodes=nodes[0].began_with), nodes, [load])
    audited = audit(cluster)
    return judge(cluster, audited)
