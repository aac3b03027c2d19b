"""Commands a second of a store, by closed-loop clients: three nodes of crsm beside other stores on the same machine.

    python3 bench/cluster.py PROGRAM [--stores crsm,etcd,zookeeper,redis] [--clients 1,16,64,256] [--seconds S]
                             [--rounds R] [--members N] [--install]

starts each store in a folder of its own, three members (or N) of `crsm`, `etcd` and ZooKeeper and one `redis-server`
that syncs each command, and has clients put 100 bytes each, one command after another, at all members in turn. Prints
the median of the rounds: commands a second and their ratio to crsm, the time to an answer in the middle and of the
slowest hundredth, the servers' processor time for a command, what the member with the fewest answers gave of what the
one with the most did, and how many answers were refusals; and the rates of all rounds. Every store syncs a command
before it answers. A store that is
not installed is left out with a word; as root, `--install` gets them. What it starts, it stops.
"""

import argparse
import multiprocessing
import os
import random
import resource
import selectors
import shutil
import signal
import socket
import statistics
import struct
import subprocess
import sys
import tempfile
import time
from typing import Callable, Dict, List, NamedTuple, Optional, Set, Tuple

from nodes import HOST, free_addresses, text_of

VALUE = b"v" * 100
GENERATORS = 2
WARM_UP = 1.0
RESEND = 0.1
BUSY_PAUSE = 0.001
TICKS = os.sysconf("SC_CLK_TCK")
PACKAGES = ["etcd-server", "redis-server", "zookeeperd"]
ZOOKEEPER = "/usr/share/java/zookeeper.jar"

Address = Tuple[str, int]


def key_of(client: int, number: int) -> bytes:
    """The key of a command: some hundred for each client."""
    return b"key-%d-%d" % (client, number % 100)


# ---- how a client speaks to each store


class Crsm:
    """A client of crsm: a request in a packet of its own, sent again until it is answered."""

    def __init__(self, address: Address, client: int):
        self.socket = socket.socket(socket.AF_INET, socket.SOCK_DGRAM)
        self.socket.connect(address)
        self.client, self.number, self.request = client + 1, time.time_ns() // 1000, b""

    def ask(self, is_get: bool = False) -> None:
        """Sends the next command."""
        self.number += 1
        key = key_of(self.client, self.number)
        named = bytes([1 if is_get else 2, len(key)]) + key
        value = b"" if is_get else struct.pack(">H", len(VALUE)) + VALUE
        self.request = struct.pack(">BQQ", 4, self.client, self.number) + named + value
        self.again()

    def again(self) -> None:
        """Sends it once more."""
        self.socket.send(self.request)

    def take(self) -> Optional[bool]:
        """Whether what came answers the command: None where it does not, false where the node refuses it for now."""
        reply = self.socket.recv(9000)
        if len(reply) < 18 or reply[0] != 5 or struct.unpack(">QQ", reply[1:17]) != (self.client, self.number):
            return None
        return reply[17] == 0


class Stream:
    """A client over a connection, which is not asked twice."""

    def __init__(self, address: Address, client: int):
        self.socket = socket.create_connection(address)
        self.socket.setsockopt(socket.IPPROTO_TCP, socket.TCP_NODELAY, 1)
        self.client, self.number, self.came = client, 0, b""

    def again(self) -> None:
        """Nothing: a connection loses nothing."""

    def receive(self) -> None:
        """Takes what came."""
        more = self.socket.recv(65536)
        if not more:
            raise ConnectionError("the server closed the connection")
        self.came += more


class Redis(Stream):
    """A client of redis."""

    def ask(self) -> None:
        """Sends the next command."""
        self.number += 1
        key = key_of(self.client, self.number)
        self.socket.sendall(b"*3\r\n$3\r\nSET\r\n$%d\r\n%s\r\n$%d\r\n%s\r\n" % (len(key), key, len(VALUE), VALUE))

    def take(self) -> Optional[bool]:
        """Whether the answer came."""
        self.receive()
        if b"\r\n" not in self.came:
            return None
        if self.came != b"+OK\r\n":
            raise ConnectionError(f"redis answers {self.came!r}")
        self.came = b""
        return True


class Etcd(Stream):
    """A client of etcd: calls of gRPC, each a stream of HTTP/2."""

    PUT, RANGE = b"\x14/etcdserverpb.KV/Put", b"\x16/etcdserverpb.KV/Range"
    HEADERS = b"\x83\x86\x04%s\x01\x09127.0.0.1\x0f\x10\x10application/grpc\x00\x02te\x08trailers"

    def __init__(self, address: Address, client: int):
        super().__init__(address, client)
        self.stream, self.has_answer, self.is_get, self.is_refused = -1, False, False, False
        # (the largest windows, so that nothing has to be given back)
        settings = self.frame(4, 0, 0, struct.pack(">HI", 4, 2**31 - 1))
        window = self.frame(8, 0, 0, struct.pack(">I", 2**31 - 1 - 65535))
        self.socket.sendall(b"PRI * HTTP/2.0\r\n\r\nSM\r\n\r\n" + settings + window)

    @staticmethod
    def frame(kind: int, flags: int, stream: int, payload: bytes) -> bytes:
        """A frame of HTTP/2."""
        return struct.pack(">I", len(payload))[1:] + struct.pack(">BBI", kind, flags, stream) + payload

    def ask(self, is_get: bool = False) -> None:
        """Makes the call of the next command; its get is linearizable."""
        self.number += 1
        self.is_get = is_get
        self.call()

    def call(self) -> None:
        """Makes the call of the present command."""
        self.stream += 2
        self.has_answer = self.is_refused = False
        key = key_of(self.client, self.number)
        asked = b"\x0a" + bytes([len(key)]) + key
        if not self.is_get:
            asked += b"\x12" + bytes([len(VALUE)]) + VALUE
        data = b"\0" + struct.pack(">I", len(asked)) + asked
        headers = self.HEADERS % (self.RANGE if self.is_get else self.PUT)
        self.socket.sendall(self.frame(1, 4, self.stream, headers) + self.frame(0, 1, self.stream, data))

    def again(self) -> None:
        """Makes the call once more where it was refused: a connection loses nothing."""
        if self.is_refused:
            self.call()

    def take(self) -> Optional[bool]:
        """Whether the answer came."""
        self.receive()
        is_over = None
        while len(self.came) >= 9:
            size = int.from_bytes(self.came[:3], "big")
            if len(self.came) < 9 + size:
                break
            kind, flags, stream = struct.unpack(">BBI", self.came[3:9])
            payload, self.came = self.came[9 : 9 + size], self.came[9 + size :]
            if kind == 4 and not flags & 1:
                self.socket.sendall(self.frame(4, 1, 0, b""))
            elif kind == 6 and not flags & 1:
                self.socket.sendall(self.frame(6, 1, 0, payload))
            elif kind in (3, 7):
                raise ConnectionError("etcd ends the call")
            elif kind == 0 and stream == self.stream and size > 5:
                self.has_answer = True
            elif kind == 1 and stream == self.stream and flags & 1:
                is_over = self.has_answer
                self.is_refused = not self.has_answer
        return is_over


class ZooKeeper(Stream):
    """A client of ZooKeeper: each command sets the bytes of a node of its tree, which is made where it is missing."""

    SET, CREATE = 5, 1
    NO_NODE = -101

    def __init__(self, address: Address, client: int):
        super().__init__(address, client)
        self.send(struct.pack(">iqiq", 0, 0, 30_000, 0) + self.buffer(bytes(16)))
        while not self.packet():
            self.receive()

    @staticmethod
    def buffer(data: bytes) -> bytes:
        """Bytes behind their length."""
        return struct.pack(">i", len(data)) + data

    def send(self, payload: bytes) -> None:
        """Sends a packet."""
        self.socket.sendall(self.buffer(payload))

    def packet(self) -> bytes:
        """The next packet that came whole, or nothing."""
        if len(self.came) < 4 or len(self.came) < 4 + int.from_bytes(self.came[:4], "big"):
            return b""
        size = int.from_bytes(self.came[:4], "big")
        packet, self.came = self.came[4 : 4 + size], self.came[4 + size :]
        return packet

    def node(self) -> bytes:
        """The name and the bytes of the command's node."""
        return self.buffer(b"/" + key_of(self.client, self.number)) + self.buffer(VALUE)

    def ask(self) -> None:
        """Sends the next command."""
        self.number += 1
        self.send(struct.pack(">ii", self.number, self.SET) + self.node() + struct.pack(">i", -1))

    def create(self) -> None:
        """Makes the node, open to all."""
        rights = struct.pack(">ii", 1, 31) + self.buffer(b"world") + self.buffer(b"anyone") + struct.pack(">i", 0)
        self.send(struct.pack(">ii", self.number, self.CREATE) + self.node() + rights)

    def take(self) -> Optional[bool]:
        """Whether the answer came."""
        self.receive()
        packet = self.packet()
        if not packet:
            return None
        number, _, error = struct.unpack(">iqi", packet[:16])
        if number != self.number:
            return None
        if error == self.NO_NODE:
            self.create()
            return None
        if error != 0:
            raise ConnectionError(f"ZooKeeper answers {error}")
        return True


# ---- the load


class Window(NamedTuple):
    """How clients ask: an answer counts where it comes between two times of the monotonic clock, a command without an
    answer goes again after `resend` seconds, and so many of a hundred commands are gets."""

    begin: float
    end: float
    resend: float = RESEND
    gets: int = 0


class Load(NamedTuple):
    """How long each answered command took, in seconds, and when its answer came, how many commands each member answered,
    how many were refused, and how many were sent again."""

    took: List[float]
    came: List[float]
    answered: List[int]
    refused: int
    resent: int


class Generator:
    """Some clients, of which each has one command under way until it is answered."""

    def __init__(self, kind, addresses: List[Address], numbers: List[int], window: Window):
        self.window = window
        self.clients = [kind(addresses[at % len(addresses)], at) for at in numbers]
        self.member = {it: at % len(addresses) for it, at in zip(self.clients, numbers)}
        self.began: Dict[object, float] = {}
        self.due: Dict[object, float] = {}
        self.pausing: Set[object] = set()
        self.load = Load([], [], [0] * len(addresses), 0, 0)
        self.refused = self.resent = 0
        self.chance = random.Random(numbers[0])

    def ask(self, it, now: float) -> None:
        """Has a client begin its next command."""
        if self.window.gets and self.chance.randrange(100) < self.window.gets:
            it.ask(True)
        else:
            it.ask()
        self.began[it], self.due[it] = now, now + self.window.resend

    def take(self, it) -> None:
        """Takes what came for a client."""
        answer = it.take()
        now = time.monotonic()
        is_counted = self.window.begin <= now < self.window.end
        if answer:
            if is_counted:
                self.load.took.append(now - self.began[it])
                self.load.came.append(now)
                self.load.answered[self.member[it]] += 1
            self.ask(it, now)
        elif answer is False:
            self.due[it] = now + BUSY_PAUSE
            self.pausing.add(it)
            self.refused += is_counted

    def ask_again(self, now: float) -> None:
        """Sends each command again that is due."""
        for it in self.clients:
            if self.due[it] <= now:
                it.again()
                self.due[it] = now + self.window.resend
                self.resent += it not in self.pausing and now >= self.window.begin
                self.pausing.discard(it)

    def run(self) -> Load:
        """Asks to the end of the window."""
        selector = selectors.DefaultSelector()
        for it in self.clients:
            selector.register(it.socket, selectors.EVENT_READ, it)
            self.ask(it, time.monotonic())
        now = looked = time.monotonic()
        while now < self.window.end:
            for ready, _ in selector.select(BUSY_PAUSE):
                self.take(ready.data)
            now = time.monotonic()
            if now > looked + BUSY_PAUSE:
                looked = now
                self.ask_again(now)
        for it in self.clients:
            it.socket.close()
        return self.load._replace(refused=self.refused, resent=self.resent)


def generate(kind, addresses: List[Address], numbers: List[int], window: Window, out) -> None:
    """Runs some clients in this process, and puts out what they saw, or why they ended."""
    try:
        _, most = resource.getrlimit(resource.RLIMIT_NOFILE)
        resource.setrlimit(resource.RLIMIT_NOFILE, (most, most))
        out.put(Generator(kind, addresses, numbers, window).run())
    except OSError as why:
        out.put(why)


def load_members(kind, addresses: List[Address], count: int, seconds: float, warm_up: float = WARM_UP) -> Load:
    """What so many clients saw."""
    out = multiprocessing.Queue()
    begin = time.monotonic() + warm_up
    window = Window(begin, begin + seconds)
    groups = [list(range(at, count, GENERATORS)) for at in range(GENERATORS)]
    processes = [
        multiprocessing.Process(target=generate, args=(kind, addresses, group, window, out)) for group in groups if group
    ]
    for it in processes:
        it.start()
    loads = [out.get(timeout=warm_up + seconds + 60) for _ in processes]
    for it in processes:
        it.join()
    return together(loads)


def together(loads: List[Load]) -> Load:
    """What all of them saw; the first that came to nothing is raised."""
    for it in loads:
        if isinstance(it, OSError):
            raise it
    took, came = ([seconds for it in loads for seconds in getattr(it, name)] for name in ("took", "came"))
    answered = [sum(each) for each in zip(*(it.answered for it in loads))]
    return Load(took, came, answered, sum(it.refused for it in loads), sum(it.resent for it in loads))


def load(kind, addresses: List[Address], count: int, seconds: float) -> List[float]:
    """How long each answered command of so many clients took."""
    return load_members(kind, addresses, count, seconds).took


# ---- the stores


class Store:
    """The servers of a store, which run in folders of their own."""

    def __init__(self, folder: str):
        self.folder, self.processes = folder, []

    def start(self, name: str, words: List[str]) -> None:
        """Starts a server."""
        folder = f"{self.folder}/{name}"
        os.makedirs(folder)
        with open(f"{folder}/log", "wb") as log:
            started = subprocess.Popen(words, cwd=folder, stdin=subprocess.DEVNULL, stdout=subprocess.DEVNULL, stderr=log)
        self.processes.append(started)

    def processor_seconds(self) -> float:
        """What all servers have taken so far."""
        total = 0
        for it in self.processes:
            with open(f"/proc/{it.pid}/stat", encoding="ascii") as file:
                fields = file.read().rpartition(")")[2].split()
            total += int(fields[11]) + int(fields[12])
        return total / TICKS

    def stop(self) -> None:
        """Ends all servers."""
        for it in self.processes:
            it.send_signal(signal.SIGKILL)
            it.wait()


def crsm_words(program: str, at: int, addresses: List[Address]) -> List[str]:
    """What starts node `at` of crsm."""
    peers = ",".join(text_of(it) for it in addresses)
    return [program, "node", str(at), str(len(addresses)), "1000000000000", peers]


def start_crsm(
    program: str, folder: str, members: int = 3, make: Callable[[str], Store] = Store
) -> Tuple[Store, List[Address]]:
    """Nodes of crsm."""
    store, addresses = make(folder), free_addresses(members)
    for at in range(members):
        store.start(f"crsm-{at}", crsm_words(program, at, addresses))
    return store, addresses


def etcd_words(at: int, clients: List[Address], peers: List[Address]) -> List[str]:
    """What starts member `at` of etcd."""
    all_peers = ",".join(f"m{at}=http://{text_of(it)}" for at, it in enumerate(peers))
    peer, client = f"http://{text_of(peers[at])}", f"http://{text_of(clients[at])}"
    words = ["etcd", "--name", f"m{at}", "--data-dir", "data", "--log-level", "error", "--initial-cluster", all_peers]
    words += ["--listen-peer-urls", peer, "--initial-advertise-peer-urls", peer]
    return [*words, "--listen-client-urls", client, "--advertise-client-urls", client]


def start_etcd(
    _: str, folder: str, members: int = 3, make: Callable[[str], Store] = Store
) -> Tuple[Store, List[Address]]:
    """Members of etcd."""
    store, addresses = make(folder), free_addresses(2 * members)
    clients, peers = addresses[:members], addresses[members:]
    for at in range(members):
        store.start(f"etcd-{at}", etcd_words(at, clients, peers))
    return store, clients


def start_redis(_: str, folder: str, __: int = 1) -> Tuple[Store, List[Address]]:
    """One server of redis."""
    store, addresses = Store(folder), free_addresses(1)
    words = ["redis-server", "--port", str(addresses[0][1]), "--bind", HOST, "--save", ""]
    store.start("redis", [*words, "--appendonly", "yes", "--appendfsync", "always"])
    return store, addresses


def start_zookeeper(_: str, folder: str, members: int = 3) -> Tuple[Store, List[Address]]:
    """Members of ZooKeeper, that sync each command as they do by default."""
    store, addresses = Store(folder), free_addresses(3 * members)
    clients, quorum, votes = (addresses[at * members : (at + 1) * members] for at in range(3))
    servers = "".join(f"server.{at}={HOST}:{quorum[at][1]}:{votes[at][1]}\n" for at in range(members))
    for at in range(members):
        data = f"{folder}/data-{at}"
        os.makedirs(data)
        with open(f"{data}/myid", "w", encoding="ascii") as file:
            file.write(str(at))
        with open(f"{data}/zoo.cfg", "w", encoding="ascii") as file:
            file.write(f"tickTime=2000\ninitLimit=10\nsyncLimit=5\ndataDir={data}\nclientPort={clients[at][1]}\n")
            file.write(f"maxClientCnxns=0\nadmin.enableServer=false\n{servers}")
        main = "org.apache.zookeeper.server.quorum.QuorumPeerMain"
        store.start(f"zookeeper-{at}", ["java", "-cp", ZOOKEEPER, main, f"{data}/zoo.cfg"])
    return store, clients


STORES = {
    "crsm": (Crsm, start_crsm, None),
    "etcd": (Etcd, start_etcd, "etcd"),
    "zookeeper": (ZooKeeper, start_zookeeper, ZOOKEEPER),
    "redis": (Redis, start_redis, "redis-server"),
}


class Figure(NamedTuple):
    """What a run gave: commands a second, seconds in the middle and of the slowest hundredth, processor seconds each, what
    the member with the fewest answers gave of what the one with the most did, and the share of refusals."""

    rate: float
    middle: float
    slow: float
    processor: float
    evenness: float
    refused: float


def await_store(kind, addresses: List[Address]) -> None:
    """Waits until every member answers."""
    for address in addresses:
        end = time.monotonic() + 30
        while True:
            try:
                kind(address, 0).socket.close()
                if load(kind, [address], 1, 0.2):
                    break
            except (ConnectionError, OSError):
                time.sleep(0.1)
            if time.monotonic() > end:
                raise SystemExit(f"cluster: {kind.__name__} does not answer at {text_of(address)}")


def figure_of(found: Load, seconds: float, spent: float) -> Figure:
    """The figure of what clients saw in so many seconds, in which the servers took so many of a processor."""
    took = sorted(found.took)
    evenness = min(found.answered) / max(found.answered) if len(took) >= len(found.answered) else 1.0
    each = spent * seconds / (seconds + WARM_UP) / max(1, len(took))
    refused = found.refused / max(1, found.refused + len(took))
    return Figure(len(took) / seconds, part_of(took, 50), part_of(took, 99), each, evenness, refused)


def part_of(sorted_times: List[float], percent: int) -> float:
    """The time that so many of a hundred are below, of times that rise; NaN where there are none."""
    return sorted_times[len(sorted_times) * percent // 100] if sorted_times else float("nan")


def measure(name: str, program: str, folder: str, counts: List[int], seconds: float, members: int) -> List[Figure]:
    """A figure for each number of clients."""
    kind, start, _ = STORES[name]
    store, addresses = start(program, folder, members)
    try:
        time.sleep(2.0)
        await_store(kind, addresses)
        figures = []
        for count in counts:
            before = store.processor_seconds()
            found = load_members(kind, addresses, count, seconds)
            figures.append(figure_of(found, seconds, store.processor_seconds() - before))
        return figures
    finally:
        store.stop()


def median_of(figures: List[Figure]) -> Figure:
    """The median of each number."""
    return Figure(*(statistics.median(it) for it in zip(*figures)))


def print_table(counts: List[int], stores: List[str], found: Dict[Tuple[str, int], List[Figure]]) -> None:
    """Prints the medians, and then the rates of all rounds."""
    columns = ["clients", "store", "commands/s", "crsm's are times", "middle, ms", "slowest 1 %, ms", "processor us each"]
    print("| " + " | ".join([*columns, "least of most", "refused"]) + " |")
    print("|---|---|---|---|---|---|---|---|---|")
    for count in counts:
        for name in stores:
            it = median_of(found[name, count])
            ratio = median_of(found[stores[0], count]).rate / it.rate
            print(
                f"| {count} | {name} | {it.rate:,.0f} | {ratio:.2f} | {it.middle * 1e3:.2f} | {it.slow * 1e3:.1f} "
                f"| {it.processor * 1e6:.0f} | {it.evenness:.2f} | {it.refused:.1%} |"
            )
    for count in counts:
        for name in stores:
            rates = ", ".join(f"{it.rate:,.0f} ({it.slow * 1e3:.1f} ms)" for it in found[name, count])
            print(f"{count} clients, {name}: {rates}")


def main() -> int:
    """All stores in each round, then the table."""
    reader = argparse.ArgumentParser(description=__doc__, formatter_class=argparse.RawDescriptionHelpFormatter)
    reader.add_argument("program", type=os.path.abspath)
    reader.add_argument("--stores", default="crsm,etcd,zookeeper,redis", type=lambda text: text.split(","))
    reader.add_argument("--clients", default=[1, 16, 64, 256], type=lambda text: [int(it) for it in text.split(",")])
    reader.add_argument("--seconds", type=float, default=3.0)
    reader.add_argument("--rounds", type=int, default=3)
    reader.add_argument("--members", type=int, default=3)
    reader.add_argument("--install", action="store_true", help="installs the stores that are missing, as root")
    words = reader.parse_args()
    if words.install and os.geteuid() == 0:
        subprocess.run(["apt-get", "install", "-y", "-q", "--no-install-recommends", *PACKAGES], check=False)
    stores = []
    for name in words.stores:
        if STORES[name][2] and shutil.which(STORES[name][2], os.F_OK) is None:
            print(f"{name} is not installed, and is left out", file=sys.stderr)
        else:
            stores.append(name)
    found: Dict[Tuple[str, int], List[Figure]] = {}
    for _ in range(words.rounds):
        for name in stores:
            folder = tempfile.mkdtemp(prefix=f"crsm-{name}-")
            try:
                figures = measure(name, words.program, folder, words.clients, words.seconds, words.members)
                for count, figure in zip(words.clients, figures):
                    found.setdefault((name, count), []).append(figure)
            finally:
                shutil.rmtree(folder, ignore_errors=True)
    print_table(words.clients, stores, found)
    return 0


if __name__ == "__main__":
    sys.exit(main())
