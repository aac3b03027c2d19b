"""What three and five real nodes answer on networks that fail: loss, bursts of it, short packets, one-way cuts, strangers.

    python3 bench/network.py PROGRAM [--rows NAME,NAME] [--short]

Each row starts nodes whose packets pass through `relay.c`, and has 16 clients put 100 bytes each, one command after
another, at all nodes in turn. Prints answers a second before and during the fault, and the seconds from its end until
there are eight tenths again of what was answered before. Ends with 1 where a row does not reach what is wanted of it,
which it says. `--short` runs a few rows for a short time, and wants a fifth of it.
"""

import argparse
import ctypes
import multiprocessing
import os
import random
import socket
import struct
import subprocess
import sys
import tempfile
import threading
import time
from typing import Callable, Dict, List, NamedTuple, Sequence

from cluster import BUSY_PAUSE, RESEND, Crsm
from load import Broken
from nodes import HOST, Address, Node, free_addresses, text_of

CLIENTS = 16
SLOT = 0.05
SLOTS = 4_000
# A link carries this much where tunnels and the internet take their part.
SHORT_PACKETS = (1_472, 1_280)
HEALTHY = 0.8
RECOVERED_WITHIN = 1.0
# A disk that has much to write may keep nodes waiting at first.
STARTED_WITHIN = 30.0
# What the relay counts of a link.
COUNTED = ["taken", "lost", "packed", "heads", "tails"]
# How much less is enough where a check asks only whether nodes live.
PATIENCE = 5.0


class Relay:
    """The network between the nodes: `relay.c` as a process."""

    def __init__(self, folder: str, addresses: Sequence[Address]):
        source = os.path.join(os.path.dirname(os.path.abspath(__file__)), "relay.c")
        subprocess.run(["cc", "-O2", "-o", f"{folder}/relay", source], check=True)
        words = [f"{folder}/relay", str(len(addresses)), *(str(port) for _, port in addresses)]
        self.process = subprocess.Popen(words, stdin=subprocess.PIPE, stdout=subprocess.PIPE, text=True, bufsize=1)
        self.addresses, self.ports = list(addresses), {}
        for line in iter(self.process.stdout.readline, "ready\n"):
            at, of, port = map(int, line.split())
            self.ports[at, of] = port

    def peers_of(self, me: int) -> str:
        """PEERS for node `me`."""
        others = ((HOST, self.ports.get((me, of))) for of in range(len(self.addresses)))
        return ",".join(text_of(self.addresses[me] if of == me else it) for of, it in enumerate(others))

    def tell(self, command: str) -> None:
        """Gives it a command."""
        self.process.stdin.write(command + "\n")
        if self.process.stdout.readline() != "ok\n":
            raise Broken(f"the relay does not take `{command}`")

    def count(self, sender: int, receiver: int) -> Dict[str, int]:
        """How many packets of a link there were of each kind."""
        self.process.stdin.write(f"count {sender} {receiver}\n")
        numbers = map(int, self.process.stdout.readline().split())
        if self.process.stdout.readline() != "ok\n":
            raise Broken("the relay does not count")
        return dict(zip(COUNTED, numbers))

    def stop(self) -> None:
        """Ends it."""
        self.process.kill()
        self.process.wait()


def put_without_end(addresses: Sequence[Address], began: float, counts) -> None:
    """Has clients put values, and counts the answers of each node in each slot of time."""
    clients = [Crsm(addresses[at % len(addresses)], at) for at in range(CLIENTS)]
    due = [0.0] * CLIENTS
    for at, it in enumerate(clients):
        it.socket.setblocking(False)
        it.ask()
        due[at] = time.monotonic() + RESEND
    while True:
        now = time.monotonic()
        for at, it in enumerate(clients):
            try:
                answer = it.take()
            except OSError:
                answer = None
            if answer:
                counts[at % len(addresses) * SLOTS + min(int((now - began) / SLOT), SLOTS - 1)] += 1
                it.ask()
                due[at] = now + RESEND
            elif answer is False:
                due[at] = now + BUSY_PAUSE
            elif due[at] <= now:
                it.again()
                due[at] = now + RESEND
        time.sleep(0.0005)


class Trial:
    """Nodes over a relay under load, and what they have answered in each slot of time."""

    def __init__(self, program: str, folder: str, count: int, patience: float):
        self.count, self.program, self.patience = count, program, patience
        self.addresses = free_addresses(count)
        self.relay = Relay(folder, self.addresses)
        self.nodes = [Node(program, f"{folder}/{at}", at, count, self.relay.peers_of(at)) for at in range(count)]
        self.began = time.monotonic()
        self._counts = multiprocessing.Array(ctypes.c_long, count * SLOTS, lock=False)
        self._clients = multiprocessing.Process(
            target=put_without_end, args=(self.addresses, self.began, self._counts), daemon=True
        )

    def start(self) -> None:
        """Starts the first nodes and the clients, and waits until each node answers."""
        for it in self.nodes:
            it.start()
        time.sleep(1.0)
        self._clients.start()
        if self.await_answers(range(self.count), STARTED_WITHIN) >= STARTED_WITHIN:
            raise Broken("at the start: " + "; ".join(it.last_words() for it in self.nodes))
        time.sleep(1.0)

    def stop(self) -> None:
        """Ends all."""
        if self._clients.is_alive():
            self._clients.kill()
            self._clients.join()
        for it in self.nodes:
            if it.is_up():
                it.go_on()
            it.kill()
        self.relay.stop()

    def answered(self, begin: float, end: float, nodes: Sequence[int] = ()) -> int:
        """The answers of these nodes, or of all, between two times."""
        first, last = (int((it - self.began) / SLOT) for it in (begin, end))
        return sum(sum(self._counts[at * SLOTS + first : at * SLOTS + last]) for at in nodes or range(self.count))

    def rate(self, seconds: float) -> float:
        """Answers a second from now on."""
        begin = time.monotonic()
        time.sleep(seconds)
        return self.answered(begin, begin + seconds) / seconds

    def recovery(self, wanted: float, limit: float = 10.0) -> float:
        """The seconds from now until a fifth of a second has eight tenths of this rate; the limit where none has."""
        began = time.monotonic()
        while time.monotonic() < began + limit:
            time.sleep(SLOT)
            end = time.monotonic()
            if end > began + 0.2 and self.answered(end - 0.2 - SLOT, end - SLOT) >= HEALTHY * wanted * 0.2 / self.patience:
                return end - 0.2 - began
        return limit

    def await_answers(self, nodes: Sequence[int], limit: float) -> float:
        """The seconds until each of these nodes has answered in the same half second; the limit where they have not."""
        began = time.monotonic()
        while time.monotonic() < began + limit:
            time.sleep(0.1)
            end = time.monotonic()
            if end > began + 0.5 and all(self.answered(end - 0.5, end, [it]) for it in nodes):
                return end - began
        return limit

    def await_most(self, one: int, other: int) -> float:
        """The seconds until all nodes but one of these two answer."""
        began = time.monotonic()
        while time.monotonic() < began + 30.0:
            time.sleep(0.1)
            end = time.monotonic()
            silent = [at for at in range(self.count) if not self.answered(end - 0.5, end, [at])]
            if end > began + 1.0 and (not silent or silent in ([one], [other])):
                return end - began
        return 30.0


class Result(NamedTuple):
    """What a row says, and what it lacks: nothing where it has all that is wanted."""

    told: str
    lacks: str = ""


def told(trial: Trial, before: float, during: float, after: float, least: float) -> Result:
    """The line of a row: at least so much of the rate before during the fault, and recovered within a second."""
    lacks = []
    if during < least * before / trial.patience:
        lacks.append(f"{during / before:.0%} of what was answered before, {least:.0%} wanted")
    if after > RECOVERED_WITHIN * trial.patience:
        lacks.append(f"recovered after {after:.1f} s, {RECOVERED_WITHIN:.0f} wanted")
    return Result(f"{before:,.0f}/s, then {during:,.0f}/s; recovered after {after:.1f} s", "; ".join(lacks))


# ---- the rows


def fault(trial: Trial, commands: Sequence[str], seconds: float, least: float) -> Result:
    """A fault of the network, and its end."""
    before = trial.rate(2.0)
    for it in commands:
        trial.relay.tell(it)
    time.sleep(0.5)
    during = trial.rate(seconds)
    trial.relay.tell("mend")
    return told(trial, before, during, trial.recovery(before), least)


def pause(trial: Trial, seconds: float) -> Result:
    """A node that is stopped for a second."""
    before = trial.rate(2.0)
    trial.nodes[2].pause()
    during = trial.rate(1.0)
    trial.nodes[2].go_on()
    return told(trial, before, during, trial.recovery(before), 0.0)


def short_packets(trial: Trial, longest: int, seconds: float) -> Result:
    """Links that lose long packets; a node is ended, and comes back over them."""
    before = trial.rate(2.0)
    trial.relay.tell(f"longest {longest}")
    time.sleep(0.5)
    during = trial.rate(seconds)
    trial.nodes[2].kill()
    time.sleep(6.0)
    trial.nodes[2].start()
    came = trial.await_answers(range(3), 30.0)
    lives = came < 15.0 and during > HEALTHY * before / trial.patience
    lacks = "" if lives else "slower, or a node that does not come back"
    return Result(f"{before:,.0f}/s, then {during:,.0f}/s; a node that was ended answers after {came:.1f} s", lacks)


def one_way(trial: Trial, seconds: float) -> Result:
    """Each link is cut one way: all nodes that a majority hears and that hear one answer."""
    found: List[float] = []
    for sender in range(trial.count):
        for receiver in range(trial.count):
            if sender == receiver:
                continue
            trial.relay.tell(f"cut {sender} {receiver}")
            # The rule leaves out one of the two, or none.
            took = min(trial.await_most(sender, receiver), 30.0)
            found.append(took)
            trial.relay.tell("mend")
            for via in range(2):
                time.sleep(1.0)
                words = [trial.program, "operate", text_of(trial.addresses[via]), ",".join(map(str, range(trial.count)))]
                subprocess.run(words, check=True)
            trial.await_answers(range(trial.count), 20.0)
    worst = max(found)
    return Result(
        f"{len(found)} links, all others answer after {sorted(found)[len(found) // 2]:.1f} s, {worst:.1f} s at most",
        "" if worst < 15.0 else "15 s wanted",
    )


def flood(trial: Trial, packet: Callable[[int], bytes], a_second: int, stop: threading.Event, to: int) -> None:
    """Sends datagrams of a stranger to a node."""
    sender = socket.socket(socket.AF_INET, socket.SOCK_DGRAM)
    began, sent = time.monotonic(), 0
    while not stop.wait(0.001):
        for _ in range(min(200, int((time.monotonic() - began) * a_second) - sent)):
            sender.sendto(packet(sent), trial.addresses[to])
            sent += 1


def beside(trial: Trial, packet: Callable[[int], bytes], a_second: int, seconds: float, least: float) -> Result:
    """A stranger beside the clients."""
    before = trial.rate(2.0)
    stop = threading.Event()
    stranger = threading.Thread(target=flood, args=(trial, packet, a_second, stop, 1), daemon=True)
    stranger.start()
    during = trial.rate(seconds)
    stop.set()
    stranger.join()
    return told(trial, before, during, trial.recovery(before), least)


def forged(trial: Trial, seconds: float) -> Result:
    """Six frames far ahead in the name of node 0, from an address of nobody, with some loss."""
    before = trial.rate(2.0)
    trial.relay.tell("loss 400")
    lost = trial.rate(seconds)
    sender = socket.socket(socket.AF_INET, socket.SOCK_DGRAM)
    for number in range(6):
        frame = struct.pack(">BBQQB", 1, 0, 0, 1_000 + number, 3) + struct.pack(">Q", time.time_ns() // 1000)
        sender.sendto(frame, trial.addresses[1])
    during = trial.rate(seconds)
    trial.relay.tell("mend")
    recovered = trial.recovery(before)
    lacks = "" if during > 0.5 * lost / trial.patience else "slower by forged frames"
    return Result(f"{before:,.0f}/s, with loss {lost:,.0f}/s, with forged frames {during:,.0f}/s; {recovered:.1f} s", lacks)


def storm(trial: Trial, seconds: float) -> Result:
    """A stranger sends 20,000 datagrams a second to a node that starts."""
    before = trial.rate(2.0)
    trial.nodes[2].kill()
    time.sleep(6.0)
    stop, chance = threading.Event(), random.Random(1)
    stranger = threading.Thread(
        target=flood, args=(trial, lambda _: chance.randbytes(60), 20_000, stop, 2), daemon=True
    )
    stranger.start()
    trial.nodes[2].start()
    came = trial.await_answers(range(3), 30.0)
    stop.set()
    return Result(f"{before:,.0f}/s; the node answers after {came:.1f} s", "" if came < 15.0 else "15 s wanted")


ROWS: Dict[str, Callable[[Trial, float], Result]] = {
    "nothing": lambda it, s: fault(it, [], s, HEALTHY),
    "loss 1 %": lambda it, s: fault(it, ["loss 100"], s, 0.8),
    "loss 5 %": lambda it, s: fault(it, ["loss 500"], s, 0.5),
    "loss 10 %": lambda it, s: fault(it, ["loss 1000"], s, 0.2),
    "loss 20 %": lambda it, s: fault(it, ["loss 2000"], s, 0.0),
    "loss 30 %": lambda it, s: fault(it, ["loss 3000"], s, 0.0),
    "bursts 5 %": lambda it, s: fault(it, ["bursts 500 200"], s, 0.0),
    "bursts 10 %": lambda it, s: fault(it, ["bursts 1000 200"], s, 0.0),
    "a pause": pause,
    "packets of 1472": lambda it, s: short_packets(it, SHORT_PACKETS[0], s),
    "packets of 1280": lambda it, s: short_packets(it, SHORT_PACKETS[1] - 28, s),
    "one way in three": one_way,
    "one way in five": one_way,
    "forged frames": forged,
    "a stranger's bytes": lambda it, s: beside(it, lambda n: b"\xff" * 60, 5_000, s, 0.5),
    "a storm at a start": storm,
}
SHORT = ["loss 5 %", "a pause", "packets of 1280", "forged frames"]


def one_row(program: str, name: str, is_short: bool) -> Result:
    """One row, at nodes of its own."""
    with tempfile.TemporaryDirectory(prefix="crsm-network-") as folder:
        trial = Trial(program, folder, 5 if name.endswith("five") else 3, PATIENCE if is_short else 1.0)
        try:
            trial.start()
            return ROWS[name](trial, 2.0 if is_short else 5.0)
        except Broken as why:
            return Result("no answers", str(why))
        finally:
            trial.stop()


def main() -> int:
    """All rows."""
    reader = argparse.ArgumentParser(description=__doc__, formatter_class=argparse.RawDescriptionHelpFormatter)
    reader.add_argument("program", type=os.path.abspath)
    reader.add_argument("--rows", type=lambda text: text.split(","), default=None)
    reader.add_argument("--short", action="store_true")
    words = reader.parse_args()
    failed = 0
    for name in words.rows or (SHORT if words.short else ROWS):
        result = one_row(words.program, name, words.short)
        failed += bool(result.lacks)
        print(f"{name}: {result.told}" + (f"; LACKS {result.lacks}" if result.lacks else ""), flush=True)
    print("network: ok" if not failed else f"network: {failed} rows lack something")
    return 1 if failed else 0


if __name__ == "__main__":
    sys.exit(main())
