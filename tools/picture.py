"""A picture of a run: replicas as lines, time downwards, packets as arrows.

    python3 tools/picture.py SCHEDULE [--brief] < TRANSCRIPT > PICTURE.svg

The transcript says what was sent and done; the schedule says when each packet was taken. Each line of the schedule that
led to something has a row. Bands show the epochs of a replica, a cross where it stops, a dot with a place where it
executes, and beside it what is submitted and answered. A dotted arrow is taken once more, and one that ends in a bar is
lost. With --brief, packets that carry a time or an acknowledgement alone are left out.
"""

import sys
from dataclasses import dataclass, field
from typing import Dict, List, Optional, Set, Tuple
from xml.sax.saxutils import escape

COLUMN, LEFT, TOP = 200, 50, 56
ROW, SIGN = 24, 12  # a row has this height, and so much more for each sign beside it
BANDS = ["#dbeafe", "#dcfce7", "#fef3c7", "#fae8ff", "#ffe4e6", "#e0e7ff"]
COLOURS = {"prepare": "#1d4ed8", "ok": "#0f766e", "time": "#9ca3af", "ack": "#c4c9d1", "part": "#9333ea"}
PAYLOADS = {"01": "prepare", "02": "ok", "03": "time"}
MESSAGES = {
    "01": "suspend",
    "02": "suspended",
    "03": "prepare ballot",
    "04": "promised",
    "05": "refused",
    "06": "accept",
    "07": "accepted",
    "08": "decide",
    "09": "retrieve",
    "0a": "page",
}
MINOR = ("time", "ack")


@dataclass
class Packet:
    """A packet: who sent it to whom, at which line, what it is, and the lines at which it was taken."""

    sender: int
    receiver: int
    sent: int
    kind: str
    label: str
    taken: List[int] = field(default_factory=list)
    lost: Optional[int] = None


@dataclass
class Run:
    """What a schedule and its transcript say together."""

    replicas: int = 0
    packets: List[Packet] = field(default_factory=list)
    marks: List[Tuple[int, int, str, str]] = field(default_factory=list)  # line, replica, kind, text
    epochs: List[Tuple[int, int, Optional[int]]] = field(default_factory=list)  # line, replica, epoch or none


def kind_of(kind: str, text: str) -> Tuple[str, str]:
    """The kind of a packet, and its label."""
    if kind == "ack":
        return "ack", "ack"
    if kind == "frame":
        payload = PAYLOADS.get(text[38:40], "time")
        return payload, payload
    # (a part: sender, receiver, boot, number, index, count, and then the message)
    index = int(text[38:46], 16)
    return "part", MESSAGES.get(text[54:56], "part") if index == 0 else "part"


def read_transcript(run: Run, lines: List[str]) -> None:
    """Takes what was sent and done from a transcript."""
    for text in lines:
        if text.startswith("final "):
            continue
        number, what, *rest = text.split()
        line = int(number)
        if what == "send":
            kind, label = kind_of(rest[3], rest[4])
            run.packets.append(Packet(int(rest[1]), int(rest[2]), line, kind, label))
            continue
        replica = int(rest[0])
        run.replicas = max(run.replicas, replica + 1)
        if what == "enter":
            run.epochs.append((line, replica, int(rest[1])))
        elif what in ("down", "boot"):
            run.epochs.append((line, replica, None))
            run.marks.append((line, replica, what, "" if what == "down" else f"boot {rest[1]}"))
        elif what == "exec":
            run.marks.append((line, replica, "exec", rest[1]))
        elif what == "submit":
            run.marks.append((line, replica, "submit", f"asks {rest[3]}.{rest[4]}"))
        elif what == "reply":
            told = " ".join(rest[5:]) if rest[3] == "ok" else "no " + rest[4]
            run.marks.append((line, replica, "reply", f"{rest[1]}.{rest[2]}: {told}"))
        elif what == "suspend":
            run.marks.append((line, replica, "suspend", "suspends"))
        elif what == "decide":
            run.marks.append((line, replica, "decide", f"epoch {rest[1]} = {{{rest[2]}}}"))


class Network:
    """Which packets are fresh, and who is up, as a schedule goes on."""

    def __init__(self, run: Run):
        self.run = run
        self.used: Set[int] = set()
        self.down: Set[int] = set()

    def take(self, number: int, line: int) -> None:
        """A packet is taken."""
        self.used.add(number)
        self.run.packets[number].taken.append(line)

    def settle(self, line: int) -> None:
        """All packets that were sent before this line, and whose receivers are up, are taken."""
        for number, packet in enumerate(self.run.packets):
            if packet.sent < line and number not in self.used and packet.receiver not in self.down:
                self.take(number, line)

    def event(self, words: List[str], line: int) -> None:
        """What an event takes or loses."""
        if words[0] in ("go", "again"):
            self.take(int(words[1]), line)
        elif words[0] == "batch":
            for number in words[2].split(","):
                self.take(int(number), line)
        elif words[0] == "lose":
            self.used.add(int(words[1]))
            self.run.packets[int(words[1])].lost = line
        elif words[0] == "settle":
            self.settle(line)


def inner(words: List[str]) -> List[str]:
    """The event behind `cut` and what belongs to it."""
    if words[0] != "cut":
        return words
    return inner(words[4:] if words[1] == "at" else words[2:])


def read_schedule(run: Run, lines: List[str]) -> None:
    """Takes from a schedule when each packet was taken."""
    network = Network(run)
    downs: Dict[int, List[Tuple[int, bool]]] = {}
    for line, replica, kind, _ in run.marks:
        if kind in ("down", "boot"):
            downs.setdefault(line, []).append((replica, kind == "down"))
    for line, text in enumerate(lines, 1):
        if line > 1:
            network.event(inner(text.split()), line)
        else:
            run.replicas = max(run.replicas, int(text.split()[1]))
        for replica, is_down in downs.get(line, []):
            (network.down.add if is_down else network.down.discard)(replica)


class Picture:
    """The drawing."""

    def __init__(self, run: Run, schedule: List[str], is_brief: bool):
        self.run, self.schedule, self.is_brief = run, schedule, is_brief
        lines = {1} | {mark[0] for mark in run.marks} | {it[0] for it in run.epochs}
        for it in self.packets():
            lines |= {it.sent, *it.taken} | ({it.lost} if it.lost else set())
        self.beside = self.signs_beside()
        self.rows: Dict[int, int] = {}
        at = TOP
        for line in sorted(lines):
            self.rows[line] = at
            most = max((len(words) for (of, _), words in self.beside.items() if of == line), default=0)
            at += ROW + SIGN * max(most - 1, 0)
        self.width = LEFT + COLUMN * run.replicas + 20
        self.height = at + ROW
        self.parts: List[str] = []

    def signs_beside(self) -> Dict[Tuple[int, int], List[str]]:
        """What is written beside a replica's line, by the line of the schedule and the replica."""
        beside: Dict[Tuple[int, int], List[str]] = {}
        for line, replica, kind, words in self.run.marks:
            if words and not (kind == "boot" and line == 1):
                text = f"[{words}]" if kind == "exec" else f"answers {words}" if kind == "reply" else words
                beside.setdefault((line, replica), []).append(text)
        return beside

    def packets(self) -> List[Packet]:
        """The packets that are shown."""
        return [it for it in self.run.packets if not (self.is_brief and it.kind in MINOR)]

    def x(self, replica: int) -> int:
        """Where a replica's line stands."""
        return LEFT + COLUMN * replica + COLUMN // 3

    def y(self, line: int) -> int:
        """Where the row of a line of the schedule stands."""
        return self.rows[line]

    def text(self, x: float, y: float, words: str, more: str = "") -> None:
        """A text."""
        self.parts.append(f'<text x="{x:g}" y="{y:g}"{more}>{escape(words)}</text>')

    def bands(self) -> None:
        """The epochs of each replica."""
        for replica in range(self.run.replicas):
            steps = [(line, epoch) for line, of, epoch in self.run.epochs if of == replica]
            for at, (line, epoch) in enumerate(steps):
                if epoch is None:
                    continue
                end = self.y(steps[at + 1][0]) if at + 1 < len(steps) else self.height - 12
                top = self.y(line)
                colour = BANDS[epoch % len(BANDS)]
                self.parts.append(
                    f'<rect x="{self.x(replica) - 26}" y="{top - 8}" width="52" height="{max(end - top, 16)}" fill="{colour}" rx="4"/>'
                )
                self.text(self.x(replica) - 23, top + 4, f"e{epoch}", ' class="epoch"')

    def lines(self) -> None:
        """The replicas, and the events of the schedule beside the rows."""
        for replica in range(self.run.replicas):
            x = self.x(replica)
            self.parts.append(f'<line x1="{x}" y1="{TOP - 14}" x2="{x}" y2="{self.height - 14}" stroke="#374151"/>')
            self.text(x, TOP - 24, f"replica {replica}", ' text-anchor="middle" class="head"')
        for line in self.rows:
            self.text(6, self.y(line) + 4, str(line), ' class="line"')

    def arrow(self, packet: Packet, end: int, again: bool) -> None:
        """A packet on its way."""
        x1, y1, x2, y2 = self.x(packet.sender), self.y(packet.sent), self.x(packet.receiver), self.y(end)
        side = 1 if x2 > x1 else -1
        is_lost = packet.lost is not None and not packet.taken
        if is_lost:
            x2 -= side * COLUMN // 3
        colour = COLOURS[packet.kind]
        dashes = ' stroke-dasharray="2 3"' if again else ""
        head = "bar" if is_lost else packet.kind
        self.parts.append(
            f'<line x1="{x1}" y1="{y1}" x2="{x2 - side * 3}" y2="{y2}" stroke="{colour}"{dashes} marker-end="url(#{head})"/>'
        )
        if packet.kind not in MINOR and not again:
            at = 0.62
            self.text(x1 + (x2 - x1) * at, y1 + (y2 - y1) * at - 3, packet.label, f' text-anchor="middle" class="kind" fill="{colour}"')

    def arrows(self) -> None:
        """All packets."""
        for packet in self.packets():
            ends = packet.taken or ([packet.lost] if packet.lost else [])
            for at, end in enumerate(ends):
                self.arrow(packet, end, at > 0)

    def signs(self) -> None:
        """What replicas do."""
        for line, replica, kind, _ in self.run.marks:
            x, y = self.x(replica), self.y(line)
            if kind == "down":
                self.parts.append(f'<path d="M{x - 6} {y - 6}l12 12m0 -12l-12 12" stroke="#dc2626" stroke-width="2.5"/>')
            elif kind == "exec":
                self.parts.append(f'<circle cx="{x}" cy="{y}" r="4.5" fill="#111827"/>')
        for (line, replica), words in self.beside.items():
            for at, word in enumerate(words):
                self.text(self.x(replica) + 9, self.y(line) + SIGN * (at + 1), word, ' class="sign"')

    def whole(self) -> str:
        """The picture."""
        self.bands()
        self.lines()
        self.arrows()
        self.signs()
        heads = "".join(
            f'<marker id="{kind}" viewBox="0 0 8 8" refX="7" refY="4" markerWidth="7" markerHeight="7" orient="auto">'
            f'<path d="M0 1L7 4L0 7z" fill="{colour}"/></marker>'
            for kind, colour in COLOURS.items()
        )
        bar = '<marker id="bar" viewBox="0 0 8 8" refX="4" refY="4" markerWidth="9" markerHeight="9" orient="auto"><path d="M4 0V8" stroke="#dc2626" stroke-width="2"/></marker>'
        style = (
            "text{font:11px sans-serif;fill:#111827}.head{font-weight:bold;font-size:13px}.line{fill:#6b7280}"
            ".epoch{fill:#6b7280;font-size:9px}.kind{font-size:9px}.sign{font-size:10px;paint-order:stroke;stroke:#fff;stroke-width:3px}"
        )
        return "\n".join(
            [
                f'<svg xmlns="http://www.w3.org/2000/svg" width="{self.width}" height="{self.height}" viewBox="0 0 {self.width} {self.height}">',
                f"<style>{style}</style><defs>{heads}{bar}</defs>",
                f'<rect width="{self.width}" height="{self.height}" fill="#fff"/>',
                *self.parts,
                "</svg>",
            ]
        )


def main() -> int:
    """Reads a schedule and a transcript, and writes the picture."""
    words = [it for it in sys.argv[1:] if it != "--brief"]
    if len(words) != 1:
        print(__doc__, file=sys.stderr)
        return 2
    with open(words[0], encoding="ascii") as file:
        schedule = file.read().splitlines()
    run = Run()
    read_transcript(run, sys.stdin.read().splitlines())
    read_schedule(run, schedule)
    print(Picture(run, schedule, "--brief" in sys.argv).whole())
    return 0


if __name__ == "__main__":
    sys.exit(main())
