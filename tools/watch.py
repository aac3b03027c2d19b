#!/usr/bin/env python3
"""A live table of a cluster, by the sheets that its nodes write.

    python3 tools/watch.py FOLDER.. [--program CRSM] [--once] [--every SECONDS]
    python3 tools/watch.py --command '0=ssh 10.0.0.1 tail -c +1 -F /var/lib/crsm/sheet' --command '1=..' ..

A FOLDER is that of a node, with its log `crsm-ME.log` and its sheets `sheet*`, or one that has such folders. A
command writes the sheet of the node whose number stands before it, from its first byte on, as it grows.

Each sheet is replayed by `crsm replay-node` as it grows, so what a row says of epochs, members and executed commands is
what the program computes from what the node took. Of the sheet's own lines are the clocks and who is silent:

    state       live; held: its epoch is ending; out: it takes no part, as after a start; down: no turn for 2
                seconds; up: it takes turns, and the sheet is not replayed
    epoch       the latest epoch that it has entered, or knew when it was started, and its members
    executed    the length of its list; behind it commands a second, over 5 seconds
    clock       how far its clock is ahead of that of the first node with one, in milliseconds: half of what packets seem
                to take longer to it than from it, of the fastest packets of 10 seconds
    log         the size of its log file (of 4 GiB at most), where it is on this machine
    silent      the members that it has not heard for a second

A sheet is replayed up to 1 GiB, which an idle node writes in 2.4 hours. From then on a row has only what its sheet's
own lines and its log file say. Ends with Ctrl-C.
"""

import argparse
import os
import re
import shutil
import signal
import subprocess
import sys
import threading
import time
from collections import Counter, defaultdict
from collections.abc import Iterator
from dataclasses import dataclass, field
from pathlib import Path

PIECE = 1 << 20
MOST_REPLAYED = 1 << 30
TOO_LONG = "its sheet is over 1 GiB, and is not replayed"
POLL, LOOK_EVERY, DOWN_AFTER = 0.2, 1.0, 2.0
SECOND = 1_000_000
SILENT_AFTER, RATE_OVER, CLOCK_OVER = SECOND, 5, 10
# A log entry's length field that names the cluster, and the length of that entry.
CLUSTER_FIELD, CLUSTER_BYTES = 0x80000008, 8

# Lines of a sheet: the reading of a turn, and a packet of a replica with the time that a frame of kind 3 carries.
TURN = re.compile(rb"^(?:in|tick|suspect) (\d+)", re.MULTILINE)
HEARD = re.compile(rb"^in (\d+) \d+ 0[123]([0-9a-f]{2})(?:.{34}03([0-9a-f]{16})$)?", re.MULTILINE)
# Where a sheet begins: these words stand nowhere else in it.
STARTS = b"entry ", b"open\n"
# Lines of what it is replayed to.
DID = re.compile(rb"^\d+ (exec|enter|suspend|decide) \d+ (\d+)(?: (\S+) (\S+))?", re.MULTILINE)
FINAL = re.compile(rb"^final \d+ (\w+) (\d+) (\d+)$", re.MULTILINE)


@dataclass
class View:
    """What a sheet has told so far of one start of a node. Times are readings of the node's clock, in microseconds."""

    state: str = "out"
    epoch: int | None = None
    executed: int | None = None
    members: dict[int, str] = field(default_factory=dict)
    executed_in: Counter[int] = field(default_factory=Counter)
    heard: dict[int, int] = field(default_factory=dict)
    delays: dict[int, dict[int, int]] = field(default_factory=lambda: defaultdict(dict))
    last: int = 0
    lock: threading.Lock = field(default_factory=threading.Lock, repr=False)

    def take_turns(self, text: bytes) -> None:
        """Takes whole lines of the sheet: when there was a turn, and who was heard."""
        with self.lock:
            at = text.rfind(b"\n", 0, -1) + 1
            if turn := TURN.match(text, at):
                self.last = int(turn[1])
            for line in HEARD.finditer(text):
                now, sender = int(line[1]), int(line[2], 16)
                self.heard[sender] = now
                if line[3]:
                    seconds, took = self.delays[sender], now - int(line[3], 16)
                    seconds[now // SECOND] = min(took, seconds.get(now // SECOND, took))
            for seconds in self.delays.values():
                self._forget(seconds, CLOCK_OVER)

    def take_replayed(self, text: bytes) -> None:
        """Takes whole lines of what the sheet is replayed to."""
        with self.lock:
            for line in DID.finditer(text):
                kind, number = line[1], int(line[2])
                if kind == b"exec":
                    self.executed = number + 1
                    self.executed_in[int(line[4]) // SECOND] += 1
                elif kind == b"enter":
                    self.state, self.epoch = "live", number
                elif kind == b"decide":
                    self.members[number] = line[3].decode()
                elif self.state == "live":
                    self.state = "held"
            self._forget(self.executed_in, RATE_OVER)

    def _forget(self, seconds: dict[int, int], kept: int) -> None:
        """Removes what is older than so many seconds, and than one that may not be over."""
        for old in [it for it in seconds if it < self.last // SECOND - kept - 1]:
            del seconds[old]

    def rate(self) -> float:
        """Returns the commands a second of the last whole seconds."""
        now = self.last // SECOND
        with self.lock:
            return sum(self.executed_in[it] for it in range(now - RATE_OVER, now)) / RATE_OVER

    def silent(self, me: int) -> list[str]:
        """Returns the members that were not heard for a second."""
        others = [it for it in self.members.get(self.epoch, "").split(",") if it not in ("", str(me))]
        return [it for it in others if self.last - self.heard.get(int(it), 0) > SILENT_AFTER]

    def delay_from(self, sender: int) -> int | None:
        """Returns what the fastest packet from this node seems to have taken, in microseconds of two clocks."""
        with self.lock:
            return min(self.delays.get(sender, {}).values(), default=None)


class Replay:
    """A `crsm replay-node` that is given a sheet as it grows, and tells a view what it writes."""

    def __init__(self, words: list[str], view: View):
        self._view, self._left = view, MOST_REPLAYED
        self._feeding, self._is_over = threading.Lock(), False
        pipe = subprocess.PIPE
        self._process = subprocess.Popen(words, stdin=pipe, stdout=pipe, stderr=pipe, bufsize=0)
        self._reader = threading.Thread(target=self._read, daemon=True)
        self._reader.start()
        self.problem = ""

    def feed(self, text: bytes) -> None:
        """Hands on the next bytes of the sheet, where it can be replayed so far."""
        with self._feeding:
            if self.problem or self._is_over:
                return
            self._left -= len(text)
            if self._left < 0:
                self.problem = TOO_LONG
                self._process.kill()
                return
            try:
                while text:
                    text = text[self._process.stdin.write(text) :]
            except BrokenPipeError:
                said = self._process.stderr.read().decode(errors="replace").strip()
                self.problem = f"replay-node: {said or self._process.wait()}"

    def end(self) -> None:
        """Ends the input, and waits until all that it leads to was taken."""
        with self._feeding:
            self._is_over = True
            self._process.stdin.close()
        self._reader.join()
        self._process.wait()

    def stop(self) -> None:
        """Ends the replay as it stands."""
        self._process.kill()
        self._reader.join()
        for pipe in (self._process.stdin, self._process.stdout, self._process.stderr):
            pipe.close()
        self._process.wait()

    def _read(self) -> None:
        rest = b""
        while text := self._process.stdout.read(PIECE):
            whole, line_feed, rest = (rest + text).rpartition(b"\n")
            self._view.take_replayed(whole + line_feed)


class Node(threading.Thread):
    """A node that is watched: what it writes is read on a thread of its own."""

    def __init__(self, program: str, number: int, began_with: int):
        super().__init__(daemon=True)
        self.number, self.began_with = number, began_with
        self.view, self.problem = View(), "no sheet yet"
        self.is_read = threading.Event()
        self._program = program
        self._grew = -DOWN_AFTER
        self._head, self._rest = b"", b""
        self._replay: Replay | None = None

    def log_size(self) -> int | None:
        """Returns the size of its log file, where this machine has it."""
        return None

    def pieces(self) -> Iterator[bytes | None]:
        """Yields the bytes of its sheet as they come, and None where there were no more for now."""
        raise NotImplementedError

    def run(self) -> None:
        """Takes the sheet, for as long as the program runs."""
        try:
            for piece in self.pieces():
                if piece is None:
                    self.is_read.set()
                    continue
                # What was there before does not say that the node is up.
                if piece and self.is_read.is_set():
                    self._grew = time.monotonic()
                self._take(piece)
        except OSError as error:
            self.problem = str(error)
            self.is_read.set()

    def is_up(self) -> bool:
        """Returns whether its sheet has grown of late."""
        return time.monotonic() - self._grew < DOWN_AFTER

    def finish(self) -> None:
        """Waits until all that was read of the sheet is replayed."""
        if self._replay is not None:
            self._replay.end()

    def stop(self) -> None:
        """Ends what was started to read the sheet."""

    def begin(self) -> None:
        """Forgets the sheet of an earlier start."""
        if self._replay is not None:
            self._replay.stop()
        self.view, self._replay, self._head, self._rest, self.problem = View(), None, b"", b"", ""

    def _take(self, piece: bytes) -> None:
        """Takes the next bytes of the sheet, or of the next one where this one ends within a line."""
        if self._replay is not None:
            joined = self._rest + piece
            starts = [at for word in STARTS if (at := joined.find(word)) >= 0]
            if starts:
                piece = joined[min(starts) :]
                self.begin()
        if self._replay is None and self.problem != TOO_LONG:
            self._head += piece
            piece = self._open()
        if self._replay is not None:
            self._replay.feed(piece)
            self.problem = self._replay.problem
        self._rest = self._scan(self._rest + piece, len(piece) < PIECE)

    def _open(self) -> bytes:
        """Begins the replay once the sheet has its `open`. Returns what is to be fed, which is nothing before that."""
        end = self._head.find(b"open\n")
        if end < 0 or (end and self._head[end - 1 : end] != b"\n"):
            return b""
        head, fed = self._head[: end + 5], self._head
        self._head = b""
        if head.startswith(b"entry 01"):
            self.began_with = int(head[10:12], 16)
        self.view = View(members={0: ",".join(map(str, range(self.began_with)))})
        words = [self._program, "replay-node", str(self.number), str(self.began_with)]
        if head != b"open\n":
            booted = subprocess.run(words, input=head, capture_output=True, check=False)
            if final := FINAL.search(booted.stdout):
                self.view.state, self.view.epoch, self.view.executed = final[1].decode(), int(final[2]), int(final[3])
        self._replay = Replay(words, self.view)
        return fed

    def _scan(self, text: bytes, is_last: bool) -> bytes:
        """Takes the lines of the sheet itself, of the latest bytes alone. Returns the part of a line at the end."""
        whole, line_feed, rest = text.rpartition(b"\n")
        if is_last and whole:
            self.view.take_turns(whole + line_feed)
        return rest


class LocalNode(Node):
    """A node whose folder is on this machine."""

    def __init__(self, program: str, log: Path):
        number = int(log.stem.removeprefix("crsm-"))
        super().__init__(program, number, _began_with(log))
        self._log, self._gate = log, 0

    def log_size(self) -> int | None:
        """Returns how long its log is, up to the closed gate: the file is longer, since zeros are written ahead."""
        if not self._log.exists():
            return None
        with open(self._log, "rb") as log:
            if self._gate > os.stat(self._log).st_size:
                self._gate = 0
            while True:
                log.seek(self._gate)
                head = log.read(5)
                if len(head) < 5 or head[0] != 1:
                    return self._gate + 1
                length = int.from_bytes(head[1:], "big")
                self._gate += 5 + (CLUSTER_BYTES if length == CLUSTER_FIELD else length)

    def _sheet(self) -> Path | None:
        """Returns the sheet that was written last."""
        sheets = self._log.parent.glob("sheet*")
        return max(sheets, key=lambda it: (it.stat().st_mtime_ns, it.name), default=None)

    def pieces(self) -> Iterator[bytes | None]:
        """Yields the bytes of the latest sheet."""
        while True:
            path = self._sheet()
            if path is not None:
                self.began_with = _began_with(self._log)
                self.begin()
                yield from self._pieces_of(path)
            time.sleep(POLL)
            yield None

    def _pieces_of(self, path: Path) -> Iterator[bytes | None]:
        """Yields the bytes of a sheet, until there is a later one or it is shorter than what was read of it."""
        with open(path, "rb") as sheet:
            if os.stat(path).st_size > MOST_REPLAYED:
                self.problem = TOO_LONG
                sheet.seek(-PIECE, os.SEEK_END)
            looked = time.monotonic()
            while True:
                piece = sheet.read(PIECE)
                yield piece
                if len(piece) < PIECE:
                    yield None
                    time.sleep(POLL)
                if time.monotonic() > looked + LOOK_EVERY:
                    looked = time.monotonic()
                    if self._sheet() != path or os.stat(path).st_size < sheet.tell():
                        return


class FarNode(Node):
    """A node whose sheet a command writes."""

    def __init__(self, program: str, number: int, began_with: int, command: str):
        super().__init__(program, number, began_with)
        self._command = command
        self._process: subprocess.Popen[bytes] | None = None

    def stop(self) -> None:
        """Ends the command, and what it has started."""
        if self._process is not None and self._process.poll() is None:
            os.killpg(self._process.pid, signal.SIGTERM)

    def pieces(self) -> Iterator[bytes | None]:
        """Yields what the command writes."""
        how = {"shell": True, "stdin": subprocess.DEVNULL, "stdout": subprocess.PIPE, "process_group": 0}
        with subprocess.Popen(self._command, **how) as process:
            self._process = process
            timer = threading.Timer(DOWN_AFTER, self.is_read.set)
            timer.daemon = True
            timer.start()
            while text := os.read(process.stdout.fileno(), PIECE):
                yield text
        self.problem = f"its command ended with {process.returncode}"
        yield None


def _began_with(log: Path) -> int:
    """Returns how many nodes the cluster of a log began with, which its first body says, or 3 where it has none."""
    with open(log, "rb") as file:
        head = file.read(32)
    if head[1:5] == b"\x80\0\0\x08":
        head = head[13:]
    return head[7] if len(head) > 7 and head[0] == 1 and head[5] == 1 else 3


# ---- the table


def _size(count: int | None) -> str:
    if count is None:
        return "-"
    size, unit = next((it for it in ((1e9, "GB"), (1e6, "MB")) if count >= it[0]), (1e3, "kB"))
    return f"{count / size:.{2 if unit == 'GB' else 1}f} {unit}"


def _clocks(nodes: list[Node]) -> dict[int, float]:
    """Returns how far the clock of each node is ahead of the first one's, in milliseconds, where packets say it."""
    first, *others = nodes
    found = {}
    for node in others:
        there, back = node.view.delay_from(first.number), first.view.delay_from(node.number)
        if there is not None and back is not None:
            found[node.number] = (there - back) / 2000
            found[first.number] = 0.0
    return found


def _row(node: Node, clocks: dict[int, float]) -> list[str]:
    """Returns the row of a node."""
    view, is_up = node.view, node.is_up()
    if not node.is_read.is_set():
        why = node.problem or "its sheet is being read"
        return [str(node.number), *["?"] * 6, _size(node.log_size()), "?", why]
    state = "down" if not is_up else "up" if node.problem else view.state
    known = [
        "-" if view.epoch is None else str(view.epoch),
        view.members.get(view.epoch, "-") if view.state != "out" else "-",
        "-" if view.executed is None else f"{view.executed:,}",
        f"{view.rate():,.1f}" if is_up else "-",
    ]
    clock = f"{clocks[node.number]:+.1f}".replace("-0.0", "+0.0") if node.number in clocks else "-"
    silent = ",".join(view.silent(node.number)) if is_up else ""
    shown = ["?"] * len(known) if node.problem else known
    return [str(node.number), state, *shown, clock, _size(node.log_size()), silent or "-", node.problem]


HEADS = ["node", "state", "epoch", "members", "executed", "commands/s", "clock, ms", "log", "silent", ""]
TO_THE_LEFT = ["state", "members", "silent", ""]


def table(nodes: list[Node]) -> str:
    """Returns the table of these nodes."""
    up = [node for node in nodes if node.is_up()]
    clocks = _clocks(up) if up else {}
    rows = [HEADS, *(_row(node, clocks) for node in nodes)]
    widths = [max(len(row[at]) for row in rows) for at in range(len(HEADS))]

    def aligned(row: list[str]) -> str:
        cells = zip(HEADS, row, widths)
        return "  ".join(f"{word:{'<' if head in TO_THE_LEFT else '>'}{size}}" for head, word, size in cells).rstrip()

    return "\n".join(aligned(row) for row in rows)


# ---- the command line


def _read_words() -> argparse.Namespace:
    layout = argparse.RawDescriptionHelpFormatter
    reader = argparse.ArgumentParser(description=__doc__, formatter_class=layout)
    reader.add_argument("folders", metavar="FOLDER", nargs="*", type=Path)
    reader.add_argument("--program", default=shutil.which("crsm"), help="the path of crsm, by default that of PATH")
    text = "writes the sheet of node ME"
    reader.add_argument("--command", action="append", default=[], metavar="ME=COMMAND", help=text)
    text = "how many nodes the cluster of the commands began with, where their sheets begin with no entry"
    reader.add_argument("--began-with", type=int, metavar="N", help=text)
    reader.add_argument("--once", action="store_true", help="prints the table once")
    reader.add_argument("--every", type=float, default=1.0, metavar="SECONDS", help="1")
    words = reader.parse_args()
    if words.program is None:
        reader.error("no crsm on PATH: give --program")
    if not words.folders and not words.command:
        reader.error("no FOLDER and no --command")
    if not all(re.match(r"\d+=.", it) for it in words.command):
        reader.error("a command is ME=COMMAND, with the node's number")
    return words


def _nodes(words: argparse.Namespace) -> list[Node]:
    """Returns the nodes of the folders that have a log, and of the commands, by their numbers."""
    logs = [log for folder in words.folders for log in (*folder.glob("crsm-*.log"), *folder.glob("*/crsm-*.log"))]
    nodes: list[Node] = [LocalNode(words.program, log) for log in logs]
    for text in words.command:
        number, _, command = text.partition("=")
        nodes.append(FarNode(words.program, int(number), words.began_with or len(words.command), command))
    return sorted(nodes, key=lambda it: it.number)


def main() -> int:
    """Prints the table, again and again."""
    words = _read_words()
    nodes = _nodes(words)
    if not nodes:
        print("watch: no folder has a log crsm-ME.log", file=sys.stderr)
        return 1
    try:
        for node in nodes:
            node.start()
        if words.once:
            print(_table_once(nodes))
            return 0
        clear = "\x1b[H\x1b[J" if sys.stdout.isatty() else "\n"
        while True:
            time.sleep(words.every)
            print(f"{clear}{time.strftime('%H:%M:%S')}\n{table(nodes)}", flush=True)
    except (KeyboardInterrupt, BrokenPipeError):
        return 0
    finally:
        for node in nodes:
            node.stop()


def _table_once(nodes: list[Node]) -> str:
    """Returns the table once all that the sheets have is replayed."""
    for node in nodes:
        node.is_read.wait()
    # (long enough to see which sheets grow)
    time.sleep(2 * LOOK_EVERY)
    for node in nodes:
        node.finish()
    return table(nodes)


if __name__ == "__main__":
    sys.exit(main())
