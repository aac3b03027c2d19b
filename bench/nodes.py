"""Nodes of a cluster as processes on this machine, and a network between them that can be made to fail.

A node's PEERS names, for each other node, a socket of the network in that node's place: what it sends there, the network
hands on from the socket that stands for the sender at the receiver. So each node sees one address for each peer, as it
does without a network between them, and every packet passes through here.
"""

import heapq
import os
import random
import selectors
import signal
import socket
import subprocess
import threading
import time
from dataclasses import dataclass, field
from typing import Dict, List, Optional, Set, Tuple

Address = Tuple[str, int]

HOST = "127.0.0.1"
FOR_EVER = 1_000_000_000_000
# Ports of programs of this machine lie below, as far as they have one.
FIRST_PORT, PORTS = 10_000, 65_536
LARGEST_PACKET = 65_536
# An entry's length field that names the cluster, and the length of that entry.
CLUSTER_FIELD, CLUSTER_BYTES = 0x80000008, 8


def text_of(address: Address) -> str:
    """An address as the program reads it."""
    return f"{address[0]}:{address[1]}"


def own_ports() -> List[int]:
    """The ports that no socket gets which asks for any, or all where this machine has none."""
    with open("/proc/sys/net/ipv4/ip_local_port_range", encoding="ascii") as file:
        first, last = map(int, file.read().split())
    return [it for it in range(FIRST_PORT, PORTS) if not first <= it <= last] or list(range(FIRST_PORT, PORTS))


def is_free(address: Address) -> bool:
    """Whether no socket has this address."""
    with socket.socket(socket.AF_INET, socket.SOCK_DGRAM) as trial:
        try:
            trial.bind(address)
        except OSError:
            return False
    return True


def free_addresses(count: int) -> List[Address]:
    """So many addresses of this machine that no socket has. None gets one by asking for any, so a node finds its own
    free when it starts, and when it starts again."""
    ports = own_ports()
    random.shuffle(ports)
    found = []
    for port in ports:
        if len(found) == count:
            break
        if is_free((HOST, port)):
            found.append((HOST, port))
    return found


def closed_gate(log: bytes) -> int:
    """The place of a log's closed gate: what stands behind it, as zeros that are written ahead, is no part of the log."""
    at = 0
    while log[at : at + 1] == b"\1":
        field = int.from_bytes(log[at + 1 : at + 5], "big")
        at += 5 + (CLUSTER_BYTES if field == CLUSTER_FIELD else field)
    return at


@dataclass
class Weather:
    """What the network does to a packet: how likely each is, and how late the late ones are, in seconds at most."""

    loss: float = 0.0
    repeat: float = 0.0
    late: float = 0.0
    delay: float = 0.0


@dataclass
class Passed:
    """How many packets the network has seen, and what became of them."""

    taken: int = 0
    lost: int = 0
    repeated: int = 0
    late: int = 0


class Network(threading.Thread):
    """Hands packets on between nodes, and loses, repeats and delays them; links can be cut."""

    def __init__(self, addresses: List[Address], weather: Weather, chance: random.Random):
        super().__init__(daemon=True)
        self.addresses, self.weather, self.passed = addresses, weather, Passed()
        self._chance = chance
        self._cut: Set[Tuple[int, int]] = set()
        self._due: List[Tuple[float, int, int, int, bytes]] = []
        self._count = 0
        self._over = False
        self._selector = selectors.DefaultSelector()
        self._sockets: Dict[Tuple[int, int], socket.socket] = {}
        for at in range(len(addresses)):
            for of in range(len(addresses)):
                if at != of:
                    self._sockets[at, of] = self._open(at, of)

    def _open(self, at: int, of: int) -> socket.socket:
        """The socket that stands for node `of` at node `at`."""
        made = socket.socket(socket.AF_INET, socket.SOCK_DGRAM)
        made.setsockopt(socket.SOL_SOCKET, socket.SO_RCVBUF, 1 << 22)
        made.bind((HOST, 0))
        made.setblocking(False)
        self._selector.register(made, selectors.EVENT_READ, (at, of))
        return made

    def peers_of(self, me: int) -> str:
        """PEERS for node `me`."""
        return ",".join(
            text_of(address if of == me else self._sockets[me, of].getsockname())
            for of, address in enumerate(self.addresses)
        )

    def cut(self, one: int, other: int) -> None:
        """Lets nothing pass between two nodes."""
        self._cut |= {(one, other), (other, one)}

    def mend(self, one: int, other: int) -> None:
        """Lets packets pass between two nodes again."""
        self._cut -= {(one, other), (other, one)}

    def stop(self) -> None:
        """Ends the network."""
        self._over = True
        self.join()
        for it in self._sockets.values():
            it.close()

    def run(self) -> None:
        """Hands on what comes, each packet at its time."""
        while not self._over:
            wait = min(0.05, max(0.0, self._due[0][0] - time.monotonic())) if self._due else 0.05
            for key, _ in self._selector.select(wait):
                self._take(key.fileobj, *key.data)
            while self._due and self._due[0][0] <= time.monotonic():
                _, _, sender, receiver, packet = heapq.heappop(self._due)
                self._hand_on(sender, receiver, packet)

    def _take(self, from_socket: socket.socket, sender: int, receiver: int) -> None:
        """Takes what waits at a socket."""
        for _ in range(64):
            try:
                packet = from_socket.recv(LARGEST_PACKET)
            except (BlockingIOError, ConnectionError):
                return
            self.passed.taken += 1
            if (sender, receiver) in self._cut or self._chance.random() < self.weather.loss:
                self.passed.lost += 1
                continue
            self._plan(sender, receiver, packet)
            if self._chance.random() < self.weather.repeat:
                self.passed.repeated += 1
                self._plan(sender, receiver, packet)

    def _plan(self, sender: int, receiver: int, packet: bytes) -> None:
        """Hands a packet on at once, or later."""
        if self._chance.random() >= self.weather.late:
            self._hand_on(sender, receiver, packet)
            return
        self.passed.late += 1
        self._count += 1
        due = time.monotonic() + self._chance.random() * self.weather.delay
        heapq.heappush(self._due, (due, self._count, sender, receiver, packet))

    def _hand_on(self, sender: int, receiver: int, packet: bytes) -> None:
        """Sends a packet to its receiver, in the sender's name."""
        try:
            self._sockets[receiver, sender].sendto(packet, self.addresses[receiver])
        except OSError:
            # (nobody listens there, or its buffer is full: the packet is lost)
            self.passed.lost += 1


@dataclass
class Node:
    """One node, in a folder of its own: each boot writes a sheet of its own, in another folder where `sheets` names one."""

    program: str
    folder: str
    number: int
    began_with: int
    peers: str
    boots: int = 0
    environment: Optional[Dict[str, str]] = field(default=None, repr=False)
    sheets: Optional[str] = None
    process: Optional[subprocess.Popen] = field(default=None, repr=False)

    def sheet(self, boot: int) -> str:
        """The file with the sheet of a boot, counted from 0."""
        return f"{self.sheets or self.folder}/sheet-{boot}"

    @property
    def errors(self) -> str:
        """The file with what all boots have written on standard error."""
        return f"{self.sheets or self.folder}/errors"

    def last_words(self) -> str:
        """The last line on standard error."""
        with open(self.errors, encoding="utf-8", errors="replace") as errors:
            return (errors.read().splitlines() or [""])[-1]

    @property
    def log(self) -> str:
        """The node's log file."""
        return f"{self.folder}/crsm-{self.number}.log"

    def start(self, turns: int = FOR_EVER) -> None:
        """Boots the node on its log."""
        os.makedirs(self.folder, exist_ok=True)
        words = [self.program, "node", str(self.number), str(self.began_with), str(turns), self.peers]
        with open(self.sheet(self.boots), "wb") as sheet, open(self.errors, "ab") as errors:
            self.process = subprocess.Popen(
                words, cwd=self.folder, stdin=subprocess.DEVNULL, stdout=sheet, stderr=errors, env=self.environment
            )
        self.boots += 1

    def is_up(self) -> bool:
        """Whether its process runs."""
        return self.process is not None and self.process.poll() is None

    def kill(self) -> None:
        """Ends the process as a crash does."""
        if self.process is not None:
            self.process.kill()
            self.process.wait()
            self.process = None

    def pause(self) -> None:
        """Stops the process without ending it."""
        self.process.send_signal(signal.SIGSTOP)

    def go_on(self) -> None:
        """Lets a process that was stopped go on."""
        self.process.send_signal(signal.SIGCONT)

    def wait(self, seconds: float) -> int:
        """Waits until the process ends by itself, and answers its status."""
        status = self.process.wait(seconds)
        self.process = None
        return status

    def tear(self, chance: random.Random) -> None:
        """Leaves bytes behind the log's closed gate, as a write that was not synced may."""
        with open(self.log, "r+b") as log:
            log.seek(closed_gate(log.read()) + 1)
            log.write(chance.randbytes(chance.randrange(1, 200)))
