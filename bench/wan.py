"""What nodes at sites far apart answer, beside etcd: latencies by site, throughput, bytes on each link, a site cut off.

    python3 bench/wan.py PROGRAM.. [--maps three,five] [--clients 1,16,85,341] [--etcd best,worst] [--gets 0,100]
                         [--rounds R] [--seconds S] [--jitter MS] [--scatter MS] [--loss PERCENT] [--cuts]
                         [--patience S]
    python3 bench/wan.py PROGRAM --short

makes the network of `sites.py`, which needs root, /dev/net/tun, `ip` and `cc`: round trips of 83, 101 and 170 ms between
three sites, of up to 280 between `five`, of 10 at `metro` and of 1 at `zones`. One node of each PROGRAM, and then one of
etcd with its leader at the site that is best or worst for all, stands at each site, and so many clients a site put 100
bytes each at the node of their own site, one command after another; `--gets` says how many of a hundred commands are
gets, which are linearizable in both. Prints for each site answers a second and the times within which 50, 95 and 99 of
a hundred came; what a link carries of a cluster that nobody asks, and what all carry for a command; what share of the
processors the host of this machine took away, and how late the router handed packets on; at the end the medians of the
rounds, and all rounds. A node has 64 commands of its own under way at most, so 64 in the time of one client's command
is the most that a site can have: a share of that stands beside. `--cuts` cuts each site off for 2 and for 9 seconds.
`--jitter` has each packet take up to so much longer, in order on its way, and `--scatter` lets packets overtake others.
`--patience` waits so long at most until the host takes nothing away. All runs before other work of the machine, by a
real-time policy, where that is allowed.

`--short` takes less than a minute: it ends with 1 where one client at a site waits for more than 15 ms longer than the
ways take, or where a site that was cut off, or the others without it, do not answer within 8 s. Where this machine lets
nobody make such a network, it says so and ends with 3.
"""

import argparse
import multiprocessing
import os
import shutil
import signal
import statistics
import sys
import tempfile
import time
from typing import Callable, Dict, List, NamedTuple, Optional, Sequence, Tuple

from cluster import Load, Window, generate, part_of
from sites import MAPS, AtSites, Map, NoNetwork, Wan, Weather, crsm_at, enter, etcd_at, has_etcd

OWN_COMMANDS = 64
CLIENTS_IN_ALL = (255, 1023)
NO_NETWORK = 3
# Clients of a site have numbers of their own.
NUMBERS = 10_000
STARTED_WITHIN = 60.0
IDLE = 4.0
SHORT_CUT, LONG_CUT, AFTER_CUT = 2.0, 9.0, 9.0
STEADY = 1.0
CALM = 0.04
# Where the host took more away, a load says little of a store.
MOST_STOLEN = 0.1
SHORT_LATER, SHORT_WITHIN = 0.015, 8.0
# Below that of the router.
PRIORITY = 5


# ---- clients at the sites


def ask_at(space: str, kind, address, numbers: List[int], window: Window, out) -> None:
    """Runs the clients of a site, there."""
    try:
        enter(space)
    except OSError as why:
        out.put(why)
        return
    generate(kind, [address], numbers, window, out)


class Clients:
    """Clients that ask the node of their own site, in a process for each site."""

    def __init__(self, store: AtSites, count: int, window: Window):
        self.window, self.outs, self.processes = window, [], []
        for site in store.wan.sites:
            out = multiprocessing.Queue()
            numbers = [site * NUMBERS + at for at in range(count)]
            what = (store.wan.spaces[site], store.kind, store.addresses[site], numbers, window, out)
            self.outs.append(out)
            self.processes.append(multiprocessing.Process(target=ask_at, args=what, daemon=True))
            self.processes[-1].start()

    def loads(self) -> List[Load]:
        """What the clients of each site saw, when their time is over."""
        found = [out.get(timeout=max(0.0, self.window.end - time.monotonic()) + 60.0) for out in self.outs]
        for it in self.processes:
            it.join()
        for it in found:
            if isinstance(it, OSError):
                raise it
        return found


def sleep_until(moment: float) -> None:
    """Waits for a time of the monotonic clock."""
    time.sleep(max(0.0, moment - time.monotonic()))


def window_of(store: AtSites, count: int, seconds: float, gets: int = 0) -> Window:
    """A window for so many clients: behind some time in which they come to their pace, and a command goes again when it
    would have been answered four times."""
    begin = time.monotonic() + 2.0 + count / 500
    return Window(begin, begin + seconds, max(0.2, store.wan.map.longest() * 4 / 1000), gets)


def await_answers(store: AtSites) -> None:
    """Waits until the node of each site answers."""
    end = time.monotonic() + STARTED_WITHIN
    while time.monotonic() < end:
        begin = time.monotonic()
        try:
            window = Window(begin, begin + 1.5, store.wan.map.longest() * 4 / 1000)
            if all(it.took for it in Clients(store, 1, window).loads()):
                return
        except OSError:
            time.sleep(0.2)
    raise TimeoutError("a site does not answer at all")


# ---- what is measured


class Seen(NamedTuple):
    """What clients of a site saw: answers a second, and the times in seconds within which 50, 95 and 99 of a hundred came."""

    rate: float
    middle: float
    late: float
    slow: float


class Figure(NamedTuple):
    """What a load gave: of each site; packets and bytes of a command; commands that were refused, and sent again, for each
    answer; the share of the processors that the host took away; and how late the router was, in ms on average and at most."""

    sites: List[Seen]
    packets: float
    size: float
    refused: float
    resent: float
    stolen: float
    late: float
    latest: float

    def rate(self) -> float:
        """Answers a second of all sites."""
        return sum(it.rate for it in self.sites)


def processors() -> Tuple[int, int]:
    """What the host has taken away from this machine's processors, and all their time."""
    with open("/proc/stat", encoding="ascii") as file:
        fields = [int(it) for it in file.readline().split()[1:9]]
    return fields[7], sum(fields)


def stolen_since(before: Tuple[int, int]) -> float:
    """The share that the host has taken away since."""
    now = processors()
    return (now[0] - before[0]) / max(1, now[1] - before[1])


def await_calm(patience: float) -> None:
    """Waits, but not for ever, until the host leaves this machine alone."""
    end = time.monotonic() + patience
    while time.monotonic() < end:
        before = processors()
        time.sleep(0.7)
        if stolen_since(before) <= CALM:
            return


def seen_of(load: Load, seconds: float) -> Seen:
    """What a site's load gave."""
    took = sorted(load.took)
    return Seen(len(took) / seconds, *(part_of(took, percent) for percent in (50, 95, 99)))


def measure(store: AtSites, count: int, seconds: float, gets: int = 0) -> Figure:
    """The figure of so many clients a site."""
    window = window_of(store, count, seconds, gets)
    clients = Clients(store, count, window)
    sleep_until(window.begin)
    store.wan.tell("zero")
    before = processors()
    sleep_until(window.end)
    counts, stolen = store.wan.counts(), stolen_since(before)
    loads = clients.loads()
    answers = max(1, sum(len(it.took) for it in loads))
    packets, size = (it / answers for it in counts.total())
    refused, resent = sum(it.refused for it in loads) / answers, sum(it.resent for it in loads) / answers
    return Figure([seen_of(it, seconds) for it in loads], packets, size, refused, resent, stolen, counts.late, counts.latest)


Idle = Dict[Tuple[int, int], Tuple[float, float]]


def look_at_idle(store: AtSites) -> Idle:
    """Packets and bytes a second of each way, while nobody asks."""
    time.sleep(1.0)
    store.wan.tell("zero")
    began = time.monotonic()
    time.sleep(IDLE)
    elapsed = time.monotonic() - began
    return {way: (it[0] / elapsed, it[1] / elapsed) for way, it in store.wan.counts().ways.items()}


class Cut(NamedTuple):
    """A site was cut off: after how many seconds the others answered without it, and each site again when the cut ended;
    None where they did not."""

    without: Optional[float]
    again: List[Optional[float]]


def steady_after(came: Sequence[float], begin: float, end: float) -> Optional[float]:
    """The seconds from `begin` until answers came, and went on without a pause of a second until `end`."""
    times = [begin, *(it for it in came if begin <= it < end), end]
    last = max([at for at in range(1, len(times)) if times[at] - times[at - 1] > STEADY], default=1)
    return times[last] - begin if last < len(times) - 1 else None


def cut_off(store: AtSites, site: int, seconds: float) -> Cut:
    """Cuts a site off for some seconds, while four clients ask at each site."""
    window = window_of(store, 4, 1.0 + seconds + AFTER_CUT)
    clients = Clients(store, 4, window)
    sleep_until(window.begin + 1.0)
    store.wan.tell(f"cut {site}")
    begin = time.monotonic()
    time.sleep(seconds)
    store.wan.tell(f"heal {site}")
    end = time.monotonic()
    came = [it.came for it in clients.loads()]
    without = [steady_after(it, begin, end) for at, it in enumerate(came) if at != site]
    again = [steady_after(it, end, window.end) for it in came]
    return Cut(None if None in without else max(without), again)


# ---- what is printed


def ms(seconds: float) -> str:
    """A time in milliseconds."""
    return f"{seconds * 1000:.1f}" if seconds < 1.0 else f"{seconds * 1000:,.0f}"


def text_of_site(it: Seen) -> str:
    """A site's figures."""
    return f"{it.rate:,.0f}/s, {ms(it.middle)}, {ms(it.late)}, {ms(it.slow)}"


def conditions(it: Figure) -> str:
    """What the machine was like."""
    return f"stolen {it.stolen:.0%}, router late by {it.late:.2f} ms, {it.latest:.0f} at most"


def print_figure(where: Map, head: str, it: Figure) -> None:
    """A line for a load, as it ends."""
    sites = "; ".join(f"{name} {text_of_site(seen)}" for name, seen in zip(where.sites, it.sites))
    print(
        f"{head}: {it.rate():,.0f}/s; {sites}; {it.packets:.1f} packets and {it.size:,.0f} bytes a command; refused "
        f"{it.refused:.2f} and sent again {it.resent:.3f} an answer; {conditions(it)}, load {os.getloadavg()[0]:.1f}",
        flush=True,
    )


def print_idle(where: Map, head: str, found: Idle) -> None:
    """A line for a cluster that nobody asks."""
    names = where.sites
    ways = ", ".join(f"{names[way[0]]}-{names[way[1]]} {it[0]:.0f} and {it[1]:,.0f}" for way, it in found.items())
    packets, size = (sum(it[at] for it in found.values()) for at in (0, 1))
    print(f"{head}, idle, packets and bytes a second: {packets:,.0f} and {size:,.0f} in all; {ways}", flush=True)


def seconds_of(it: Optional[float]) -> str:
    """A time, or that there is none."""
    return "never" if it is None else f"{it:.1f} s"


def print_cut(where: Map, head: str, site: int, seconds: float, found: Cut) -> None:
    """A line for a site that was cut off."""
    again = ", ".join(f"{name} {seconds_of(it)}" for name, it in zip(where.sites, found.again))
    print(
        f"{head}, {where.sites[site]} cut off for {seconds:.0f} s: the others answer after {seconds_of(found.without)}; "
        f"behind its end {again}",
        flush=True,
    )


def median_of(figures: List[Figure]) -> Figure:
    """The median of each number."""
    sites = [Seen(*map(statistics.median, zip(*rounds))) for rounds in zip(*(it.sites for it in figures))]
    return Figure(sites, *map(statistics.median, list(zip(*figures))[1:]))


def shares(figure: Figure, waits: List[float]) -> str:
    """What share all sites have of the most there can be where one client waits so long, and the site with the least."""
    most = [OWN_COMMANDS / it for it in waits]
    least = min(it.rate / bound for it, bound in zip(figure.sites, most))
    return f"{figure.rate() / sum(most):.2f} | {least:.2f}"


class Found:
    """What all rounds of a store gave: of so many clients a site and so many gets of a hundred, and while nobody asked."""

    def __init__(self):
        self.loads: Dict[Tuple[int, int], List[Figure]] = {}
        self.idle: List[Idle] = []


def print_row(where: Map, store: str, count: int, gets: int, found: Found) -> None:
    """Prints the medians of a load."""
    it = median_of(found.loads[count, gets])
    waits = [where.least(site) / 1000 for site in range(len(where.sites))]
    if (1, gets) in found.loads:
        waits = [seen.middle for seen in median_of(found.loads[1, gets]).sites]
    has_bound = count >= OWN_COMMANDS and not store.startswith("etcd")
    cells = [str(count), f"{gets} %", store, f"{it.rate():,.0f}", shares(it, waits) if has_bound else "|"]
    cells += [*map(text_of_site, it.sites), f"{it.packets:.1f}, {it.size:,.0f}", f"{it.refused:.2f}, {it.resent:.2f}"]
    print("| " + " | ".join(cells) + " |")


def print_table(name: str, stores: Dict[str, Found]) -> None:
    """The medians of a map, and all rounds."""
    where = MAPS[name]
    columns = ["clients a site", "gets", "store", "answers/s", "of the most", "least site", *where.sites]
    columns += ["packets, bytes a command", "refused, sent again an answer"]
    print(f"\n{name}: medians; for each site answers a second, and 50, 95 and 99 of a hundred within ms\n")
    print("| " + " | ".join(columns) + " |\n" + "|---" * len(columns) + "|")
    rows = sorted({row for found in stores.values() for row in found.loads})
    for count, gets in rows:
        for store, found in stores.items():
            if (count, gets) in found.loads:
                print_row(where, store, count, gets, found)
    print()
    for store, found in stores.items():
        if found.idle:
            ways = {way: tuple(map(statistics.median, zip(*(it[way] for it in found.idle)))) for way in found.idle[0]}
            print_idle(where, f"{name}, {store}, medians", ways)
    for count, gets in rows:
        for store, found in stores.items():
            rounds = "; ".join(f"{it.rate():,.0f} ({conditions(it)})" for it in found.loads.get((count, gets), []))
            print(f"{name}, {count} a site, {gets} % gets, {store}: {rounds}")


def print_map(name: str) -> None:
    """What the ways of a map take."""
    where = MAPS[name]
    leading = sorted(set(where.leaders()))
    for at, site in enumerate(where.sites):
        leaders = ", ".join(f"{where.with_leader(it, at):g} with a leader at {where.sites[it]}" for it in leading)
        print(f"{name}, {site}: a command takes {where.least(at):g} ms at least, and {leaders}", flush=True)


# ---- the runs

Start = Callable[[Wan, str], AtSites]


class Trial:
    """A network with a store on it, which stops with it."""

    def __init__(self, where: Map, start: Start, weather: Weather = Weather()):
        self.wan, self.start = Wan(where, weather), start
        self.folder, self.store = "", None

    def __enter__(self) -> AtSites:
        self.wan.__enter__()
        self.folder = tempfile.mkdtemp(prefix="crsm-wan-")
        try:
            self.store = self.start(self.wan, self.folder)
            await_answers(self.store)
        except BaseException:
            self.__exit__()
            raise
        return self.store

    def __exit__(self, *_) -> None:
        if self.store:
            self.store.stop()
        shutil.rmtree(self.folder, ignore_errors=True)
        self.wan.close()


def measure_all(store: AtSites, head: str, words, found: Found) -> None:
    """A look at the idle store, each load, and cuts."""
    where = store.wan.map
    found.idle.append(look_at_idle(store))
    print_idle(where, head, found.idle[-1])
    for count in words.clients or [1, 16, *(it // len(where.sites) for it in CLIENTS_IN_ALL)]:
        for gets in words.gets:
            await_calm(words.patience)
            it = measure(store, count, words.seconds, gets)
            found.loads.setdefault((count, gets), []).append(it)
            print_figure(where, f"{head}, {count} a site, {gets} % gets", it)
    for seconds in (SHORT_CUT, LONG_CUT) if words.cuts else ():
        for site in store.wan.sites:
            print_cut(where, head, site, seconds, cut_off(store, site, seconds))


def starts_of(words, where: Map) -> Dict[str, Start]:
    """The stores by their names."""
    names = [os.path.basename(it) for it in words.programs]
    labels = names if len(set(names)) == len(names) else words.programs
    starts = {label: (lambda wan, folder, of=it: crsm_at(wan, of, folder)) for label, it in zip(labels, words.programs)}
    best, worst = where.leaders()
    for which in words.etcd:
        leader = {"best": best, "worst": worst}[which]
        name = f"etcd, leader at {where.sites[leader]}"
        starts[name] = lambda wan, folder, of=leader: etcd_at(wan, of, folder)
    return starts


def run_all(words) -> int:
    """All rounds, and then the tables."""
    found: Dict[str, Dict[str, Found]] = {name: {} for name in words.maps}
    weather = Weather(words.jitter, words.scatter, words.loss)
    for name in words.maps:
        print_map(name)
    for number in range(words.rounds):
        for name in words.maps:
            for label, start in starts_of(words, MAPS[name]).items():
                of_store = found[name].setdefault(label, Found())
                try:
                    with Trial(MAPS[name], start, weather) as store:
                        measure_all(store, f"{name}, {label}, round {number + 1}", words, of_store)
                except OSError as why:
                    print(f"{name}, {label}, round {number + 1}: came to nothing: {why}", flush=True)
    for name, stores in found.items():
        print_table(name, stores)
    return 0


def run_short(program: str) -> int:
    """Light load at three sites, and one of them cut off."""
    where, lacks = MAPS["three"], []
    try:
        with Trial(where, lambda wan, folder: crsm_at(wan, program, folder)) as store:
            figure = measure(store, 1, 6.0)
            if figure.stolen > MOST_STOLEN:
                figure = measure(store, 1, 6.0)
            print_figure(where, "three sites, 1 client at each", figure)
            for at, it in enumerate(figure.sites):
                if not it.middle <= where.least(at) / 1000 + SHORT_LATER:
                    lacks.append(f"{where.sites[at]} waits {ms(it.middle)} ms where the ways take {where.least(at):g}")
            cut = cut_off(store, 2, LONG_CUT)
            print_cut(where, "three sites", 2, LONG_CUT, cut)
            if any(it is None or it > SHORT_WITHIN for it in (cut.without, *cut.again)):
                lacks.append(f"{SHORT_WITHIN:.0f} s are wanted")
    except OSError as why:
        lacks.append(str(why))
    print("wan: ok" if not lacks else f"wan: LACKS {'; '.join(lacks)}")
    return 1 if lacks else 0


def run_before_others() -> None:
    """Has all that is started from now on run before other work of this machine, both stores alike: where processors are
    shared, a node and a client that wake up late take longer than the ways."""
    try:
        os.sched_setscheduler(0, os.SCHED_RR, os.sched_param(PRIORITY))
    except PermissionError:
        pass


def numbers(text: str) -> List[int]:
    """Numbers between commas."""
    return [int(it) for it in text.split(",")]


def names(text: str) -> List[str]:
    """Names between commas, or none."""
    return [it for it in text.split(",") if it not in ("", "none")]


def main() -> int:
    """What the words ask for."""
    reader = argparse.ArgumentParser(description=__doc__, formatter_class=argparse.RawDescriptionHelpFormatter)
    reader.add_argument("programs", nargs="+", type=os.path.abspath, metavar="PROGRAM")
    reader.add_argument("--maps", type=names, default=["three", "five"])
    reader.add_argument("--clients", type=numbers, help="of each site; or else 1, 16, and 255 and 1,023 in all")
    reader.add_argument("--etcd", type=names, default=["best", "worst"], help="best, worst, or none")
    reader.add_argument("--gets", type=numbers, default=[0], help="of a hundred commands")
    reader.add_argument("--rounds", type=int, default=3)
    reader.add_argument("--seconds", type=float, default=5.0)
    reader.add_argument("--jitter", type=float, default=0.0, help="ms, of each packet at most")
    reader.add_argument("--scatter", type=float, default=0.0, help="the same, and packets may overtake others")
    reader.add_argument("--loss", type=float, default=0.0, help="of a hundred packets")
    reader.add_argument("--cuts", action="store_true")
    reader.add_argument("--patience", type=float, default=20.0)
    reader.add_argument("--short", action="store_true")
    words = reader.parse_args()
    signal.signal(signal.SIGTERM, lambda *_: sys.exit(1))
    if words.etcd and not words.short and not has_etcd():
        print("etcd or etcdctl is not installed, and is left out", file=sys.stderr)
        words.etcd = []
    run_before_others()
    try:
        return run_short(words.programs[0]) if words.short else run_all(words)
    except NoNetwork as why:
        print(f"wan: this machine makes no network between sites: {why}")
        return NO_NETWORK


if __name__ == "__main__":
    sys.exit(main())
