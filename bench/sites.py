"""Sites far apart, on one machine: a network namespace for each, `router.c` between them, and a node of a store in each.

`with Wan(MAPS["three"]) as wan:` makes the network and takes it away again; `wan.inside(site, words)` are the words of a
program that runs at a site, `wan.tell(command)` gives the router a command, and `wan.counts()` answers what it has seen.
"""

import ctypes
import json
import os
import shutil
import subprocess
import tempfile
import time
from typing import Dict, List, NamedTuple, Sequence, Tuple

from cluster import Crsm, Etcd, Store, crsm_words, etcd_words
from nodes import Address

CLIENT_PORT, PEER_PORT = 7000, 7001
NEW_NETWORK = 0x40000000
# Before what else may run by a real-time policy, so that packets are not late.
PRIORITY = 10
ROUTER_LIMIT = 10.0


class Map(NamedTuple):
    """The names of sites, and the round trip of each two of them in milliseconds; where none is said it takes no time."""

    sites: List[str]
    round_trips: Dict[str, float]

    def round_trip(self, one: int, other: int) -> float:
        """The round trip between two sites."""
        names = self.sites[one], self.sites[other]
        return self.round_trips.get("-".join(names), self.round_trips.get("-".join(reversed(names)), 0.0))

    def farthest(self, site: int) -> float:
        """The longest round trip from a site."""
        return max(self.round_trip(site, other) for other in range(len(self.sites)))

    def longest(self) -> float:
        """The longest round trip of all."""
        return max(self.farthest(site) for site in range(len(self.sites)))

    def majority(self, site: int) -> float:
        """The round trip from a site to the farthest of its nearest majority."""
        others = sorted(self.round_trip(site, other) for other in range(len(self.sites)) if other != site)
        return others[len(self.sites) // 2 - 1]

    def least(self, site: int) -> float:
        """What a command of a site takes at least without a leader: its nearest majority has to answer, and a word has to
        come from the farthest member."""
        return max(self.majority(site), self.farthest(site) / 2)

    def with_leader(self, leader: int, site: int) -> float:
        """What a command of a site takes at least with a leader at another one, or there."""
        return self.round_trip(site, leader) + self.majority(leader)

    def leaders(self) -> Tuple[int, int]:
        """The sites of the leaders with which commands take the least and the most, on average over all sites."""
        places = range(len(self.sites))
        all_sites = [sum(self.with_leader(leader, site) for site in places) for leader in places]
        return all_sites.index(min(all_sites)), all_sites.index(max(all_sites))


FAR = {"CA-VA": 83, "CA-IR": 170, "VA-IR": 101}
FIVE = {**FAR, "CA-JP": 125, "CA-SG": 171, "VA-JP": 215, "VA-SG": 254, "IR-JP": 280, "IR-SG": 216, "JP-SG": 77}
MAPS = {
    # zones of one region, and places of one city
    "zones": Map(["A", "B", "C"], {"A-B": 1, "A-C": 1, "B-C": 1}),
    "metro": Map(["A", "B", "C"], {"A-B": 10, "A-C": 10, "B-C": 10}),
    # California, Virginia, Ireland, Japan and Singapore
    "three": Map(["CA", "VA", "IR"], FAR),
    "five": Map(["CA", "VA", "IR", "JP", "SG"], FIVE),
}


class NoNetwork(Exception):
    """This machine lets nobody make such a network; the text says why."""


class Weather(NamedTuple):
    """What befalls packets: each takes up to so many milliseconds more, in order on its way or by which it may overtake
    others, and so many of a hundred are lost."""

    jitter: float = 0.0
    scatter: float = 0.0
    loss: float = 0.0


class Counts(NamedTuple):
    """What the router has seen since it was told `zero`: how late packets were in milliseconds, on average and at most, how
    many found no room, and packets and bytes of each way from a site to another."""

    late: float
    latest: float
    full: int
    ways: Dict[Tuple[int, int], Tuple[int, int]]

    def total(self) -> Tuple[int, int]:
        """Packets and bytes of all ways."""
        return sum(it[0] for it in self.ways.values()), sum(it[1] for it in self.ways.values())


def enter(space: str) -> None:
    """Takes this process into a network namespace."""
    libc = ctypes.CDLL(None, use_errno=True)
    file = os.open(f"/run/netns/{space}", os.O_RDONLY)
    if libc.setns(file, NEW_NETWORK):
        raise OSError(ctypes.get_errno(), f"cannot enter {space}")
    os.close(file)


def run(*words: str) -> None:
    """Runs a program of the system that makes a part of the network."""
    try:
        done = subprocess.run(words, stdout=subprocess.PIPE, stderr=subprocess.STDOUT, text=True, check=False)
    except FileNotFoundError as why:
        raise NoNetwork(f"{words[0]} is not installed") from why
    if done.returncode:
        raise NoNetwork(f"`{' '.join(words)}`: {done.stdout.strip()}")


class Wan:
    """The network of a map."""

    def __init__(self, where: Map, weather: Weather = Weather()):
        self.map, self.weather = where, weather
        self.sites = range(len(where.sites))
        self.spaces: List[str] = []
        self.router = None

    def __enter__(self) -> "Wan":
        try:
            self._make()
        except BaseException:
            self.close()
            raise
        return self

    def __exit__(self, *_) -> None:
        self.close()

    def _make(self) -> None:
        """Makes namespaces, router and devices."""
        if os.geteuid() != 0:
            raise NoNetwork("only root may make network namespaces")
        for site in self.sites:
            space = f"crsm-wan-{os.getpid()}-{site}"
            run("ip", "netns", "add", space)
            self.spaces.append(space)
        self._start_router()
        for site, space in enumerate(self.spaces):
            run("ip", "-n", space, "link", "set", "lo", "up")
            run("ip", "-n", space, "address", "add", f"{self.host(site)}/24", "dev", "wan")
            run("ip", "-n", space, "link", "set", "wan", "mtu", "1500", "txqueuelen", "20000", "up")
        for one in self.sites:
            for other in self.sites:
                self.tell(f"delay {one} {other} {self.map.round_trip(one, other) * 500:.0f}")
        self.tell(f"jitter * * {self.weather.jitter * 1000:.0f}")
        self.tell(f"scatter * * {self.weather.scatter * 1000:.0f}")
        self.tell(f"loss * * {self.weather.loss * 10_000:.0f}")

    def _start_router(self) -> None:
        """Builds and starts it."""
        source = os.path.join(os.path.dirname(os.path.abspath(__file__)), "router.c")
        with tempfile.TemporaryDirectory(prefix="crsm-router-") as folder:
            subprocess.run(["cc", "-O2", "-o", f"{folder}/router", source], check=True)
            pipes = {"stdin": subprocess.PIPE, "stdout": subprocess.PIPE, "stderr": subprocess.PIPE}
            self.router = subprocess.Popen([f"{folder}/router", *self.spaces], text=True, bufsize=1, **pipes)
            if self.router.stdout.readline() != "ready\n":
                raise NoNetwork(self.router.stderr.read().strip())
        try:
            os.sched_setscheduler(self.router.pid, os.SCHED_FIFO, os.sched_param(PRIORITY))
        except PermissionError:
            pass

    def close(self) -> None:
        """Takes the network away."""
        if self.router:
            self.router.communicate(timeout=ROUTER_LIMIT)
            self.router = None
        for space in self.spaces:
            subprocess.run(["ip", "netns", "delete", space], check=False)
        self.spaces = []

    def host(self, site: int) -> str:
        """The address of a site."""
        return f"10.77.0.{site + 1}"

    def addresses(self, port: int) -> List[Address]:
        """This port at all sites."""
        return [(self.host(site), port) for site in self.sites]

    def inside(self, site: int, words: Sequence[str]) -> List[str]:
        """What runs a program at a site."""
        return ["ip", "netns", "exec", self.spaces[site], *words]

    def say(self, command: str) -> str:
        """Gives the router a command, and answers what it says."""
        self.router.stdin.write(command + "\n")
        return self.router.stdout.readline()

    def tell(self, command: str) -> None:
        """Gives the router a command that changes the network."""
        if self.say(command) != "ok\n":
            raise ValueError(f"the router does not take `{command}`")

    def counts(self) -> Counts:
        """What the router has seen."""
        found = json.loads(self.say("counts"))
        ways = {(it[0], it[1]): (it[2], it[3]) for it in found["ways"]}
        return Counts(found["late"] / 1000, found["latest"] / 1000, found["full"], ways)


# ---- the stores


class AtSites(Store):
    """A store with a server at each site, which clients of `kind` ask at `addresses`."""

    def __init__(self, wan: Wan, folder: str, kind, port: int):
        super().__init__(folder)
        self.wan, self.kind, self.addresses = wan, kind, wan.addresses(port)


def crsm_at(wan: Wan, program: str, folder: str) -> AtSites:
    """A node of crsm at each site."""
    store = AtSites(wan, folder, Crsm, CLIENT_PORT)
    for site in wan.sites:
        store.start(f"crsm-{site}", wan.inside(site, crsm_words(program, site, store.addresses)))
    return store


def etcd_at(wan: Wan, leader: int, folder: str) -> AtSites:
    """A member of etcd at each site, of which that at `leader` leads: its heartbeat is the longest round trip and 100 ms at
    least, an election begins after ten of them."""
    store = AtSites(wan, folder, Etcd, CLIENT_PORT)
    heartbeat = max(100, round(wan.map.longest()))
    times = ["--heartbeat-interval", str(heartbeat), "--election-timeout", str(10 * heartbeat)]
    for site in wan.sites:
        words = etcd_words(site, store.addresses, wan.addresses(PEER_PORT))
        store.start(f"etcd-{site}", wan.inside(site, [*words, *times]))
    move_leader(store, leader)
    return store


def has_etcd() -> bool:
    """Whether the server and its tool are there."""
    return all(shutil.which(it) for it in ("etcd", "etcdctl"))


def etcdctl(store: AtSites, site: int, *words: str) -> str:
    """What etcd's own tool says at a site."""
    host, port = store.addresses[site]
    whole = store.wan.inside(site, ["etcdctl", "--endpoints", f"{host}:{port}", *words])
    environment = {**os.environ, "ETCDCTL_API": "3"}
    return subprocess.run(whole, env=environment, stdout=subprocess.PIPE, stderr=subprocess.DEVNULL, text=True, check=False).stdout


def status(store: AtSites, site: int) -> Tuple[int, int]:
    """The number of the member at a site and that of its leader, 0 where it has none."""
    try:
        found = json.loads(etcdctl(store, site, "endpoint", "status", "-w", "json"))[0]["Status"]
        return found["header"]["member_id"], found["leader"]
    except (ValueError, LookupError):
        return 0, 0


def move_leader(store: AtSites, site: int, limit: float = 60.0) -> None:
    """Makes the member at a site the leader."""
    end = time.monotonic() + limit
    while time.monotonic() < end:
        found = [status(store, it) for it in store.wan.sites]
        members, leaders = [it[0] for it in found], {it[1] for it in found}
        if leaders == {members[site]} and 0 not in members:
            return
        for leader in leaders & set(members):
            etcdctl(store, members.index(leader), "move-leader", f"{members[site]:x}")
        time.sleep(0.3)
    raise TimeoutError(f"etcd has no leader at {store.wan.map.sites[site]}")
