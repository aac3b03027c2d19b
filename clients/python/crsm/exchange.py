"""One command on its way, without a socket: what is sent when and to whom, and what comes of it.

The blocking and the asyncio client ask an `Exchange` at each turn which node to send to, hand it what they receive, and
wait until it has something new to send.
"""

import math
from collections.abc import Iterable, Sequence
from dataclasses import dataclass, field, replace

from .arguments import seconds
from .errors import REFUSALS, Closed, CrsmError, NoAnswer, Refused, Stale
from .numbers import Numbers
from .protocol import (
    Address,
    Answer,
    Operation,
    addresses_of,
    get_of,
    mark_of,
    members_of,
    reply_of,
    request_of,
)

# A replica takes each copy of a request for an entry of its own, so copies do not follow one another faster.
LEAST_RESEND = 0.1
# What was refused is no entry: it is sent again after this time, as an epoch ends in tens of milliseconds.
AFTER_REFUSAL = 0.03
# A node without room is spared: the pause doubles up to this one with each such refusal, and lasts what that took.
MOST_PAUSE = 1.0
# The refusal of a node that is no member, those of one that will answer soon, as its epoch ends or has ended, and those
# of one without room.
NO_PART, EPOCH_ENDS, NO_ROOM = 1, (2, 6), (3, 4)
# How long a node that was silent, and one that takes no part, is asked only where no other one is left.
SILENT_FOR, NO_PART_FOR = 10.0, 2.0


@dataclass(frozen=True)
class Times:
    """How long, in seconds: `timeout` for a command (0 or None for no end), `node_timeout` at one node, and `resend`
    between two copies of a request."""

    timeout: float | None = 10.0
    node_timeout: float = 1.0
    resend: float = 0.25

    def __post_init__(self) -> None:
        if self.timeout is not None:
            seconds("timeout", self.timeout)
        seconds("node_timeout", self.node_timeout)
        seconds("resend", self.resend, LEAST_RESEND)

    def end(self, now: float) -> float:
        """Returns the time at which a command is given up that begins now."""
        return now + self.timeout if self.timeout else math.inf


@dataclass
class Ring:
    """The nodes in their order, the one that is asked, those that have been heard, and until when each is avoided."""

    nodes: list[Address]
    at: int = 0
    heard: set[Address] = field(default_factory=set)
    avoided: dict[int, float] = field(default_factory=dict)

    def go_on(self, now: float, pause: float) -> None:
        """Avoids the node that was asked for `pause` seconds, and turns to the next one: to one that is not avoided and
        has been heard, where there is one."""
        self.avoided[self.at] = now + pause
        count = len(self.nodes)
        others = [(self.at + step) % count for step in range(1, count + 1)]
        self.at = min(others, key=lambda it: (self.avoided.get(it, now) > now, self.nodes[it] not in self.heard))


class Exchange:
    """The request of a client's command, sent to the nodes in turn until one of them answers.

    Times are those of a clock that never goes back, in seconds. `code` is the last refusal or 0.
    """

    def __init__(self, request: bytes, mark: bytes, name: tuple[int, int], ring: Ring, times: Times, now: float):
        self.datagram = mark + request
        self.code = 0
        self._mark, self._name, self._ring, self._times = mark, name, ring, times
        self._asked: set[Address] = set()
        self._sent, self._refused = 0, 0
        self._asked_at, self._pause = now, AFTER_REFUSAL
        self._due = now
        self._leave = now + times.node_timeout
        self._deadline = times.end(now)

    def is_over(self, now: float) -> bool:
        """Returns whether the time for the command has passed."""
        return now >= self._deadline

    def address_due(self, now: float) -> Address | None:
        """Returns the node that the datagram is to be sent to now, or None before the next copy's time."""
        if now >= self._leave:
            self._go_on(now, SILENT_FOR)
        if now < self._due:
            return None
        resend = self._times.resend
        # The last copy has its time to be answered, too.
        self._due = now + resend if now + 2 * resend <= self._deadline else self._deadline
        address = self._ring.nodes[self._ring.at]
        self._asked.add(address)
        self._asked_at = now
        return address

    def was_sent(self) -> None:
        """Counts a copy that went out. One that the system refuses to send is none."""
        self._sent += 1

    def wakes_at(self) -> float:
        """Returns the time of the next copy, or of the end."""
        return min(self._due, self._deadline)

    def take(self, data: bytes, source: Address, now: float) -> Answer | None:
        """Takes a datagram from an address. Returns the answer to the command where it has one.

        A refusal leads on to the next node, but for one at the end of an epoch: that node is asked again. After one for
        want of room a pause follows, longer each time. What comes from a node that was not asked, or is no reply to
        this command, changes nothing. A late reply to another command has another client or number (`Numbers`), also
        where its client had this socket's port before.
        """
        if source not in self._asked or not data.startswith(self._mark):
            return None
        self._ring.heard.add(source)
        reply = reply_of(data[len(self._mark) :])
        if reply is None or (reply.client, reply.number) != self._name:
            return None
        if isinstance(reply.outcome, Answer):
            return reply.outcome
        self._refused += 1
        self.code = reply.outcome
        if source == self._ring.nodes[self._ring.at]:
            self._due = min(now + self._pause_after(self.code, now), self._deadline)
            if self.code not in EPOCH_ENDS:
                self._go_on(self._due, NO_PART_FOR if self.code == NO_PART else 0.0)
        return None

    def failure(self) -> CrsmError:
        """Returns why a command whose time has passed has no answer."""
        if self._sent and self._refused >= self._sent:
            return Refused(self.code)
        client, number = self._name
        return NoAnswer(f"no answer to command {number} of client {client} in {self._times.timeout} seconds")

    def _pause_after(self, code: int, now: float) -> float:
        """Returns how long nothing is sent after a refusal: a node without room is no help to whom asks at once."""
        if code not in NO_ROOM:
            return AFTER_REFUSAL
        pause = max(self._pause, min(now - self._asked_at, MOST_PAUSE))
        self._pause = min(2 * pause, MOST_PAUSE)
        return pause

    def _go_on(self, now: float, pause: float) -> None:
        """Turns to another node."""
        self._ring.go_on(now, pause)
        self._leave = now + self._times.node_timeout


class Session:
    """What a client knows from one command to the next: the nodes and the one that answered last, its numbers and its
    times."""

    def __init__(self, nodes: Sequence[str | Address], cluster: int, client: int | Numbers | None, times: Times):
        self.nodes = addresses_of(nodes)
        self._ring = Ring(self.nodes)
        self.mark = mark_of(cluster)
        self.times = times
        self.numbers = client if isinstance(client, Numbers) else Numbers(client)
        self.is_closed = False

    def check_open(self) -> None:
        """Raises `Closed` once the client is closed."""
        if self.is_closed:
            raise Closed("the client is closed")

    def begin(self, operation: Operation, now: float) -> Exchange:
        """Returns the exchange of a new command, which goes first to the node that answered last."""
        self.check_open()
        name = (self.numbers.client, self.numbers.next())
        return Exchange(request_of(*name, operation), self.mark, name, self._ring, self.times, now)

    def checked(self, operation: Operation, answer: Answer) -> Answer:
        """Returns the answer to an operation, or raises what `Operation.check` does."""
        try:
            return operation.check(answer)
        except Stale as stale:
            self.numbers.pass_over(stale.number)
            raise

    def probe(self, node: int, until: float, now: float) -> Exchange:
        """Returns the exchange of a `get` that this node alone is asked for, at least once and until this time."""
        self.check_open()
        name = (self.numbers.client, self.numbers.next())
        times = replace(self.times, timeout=max(until - now, self.times.resend))
        return Exchange(request_of(*name, get_of(b"\0")), self.mark, name, Ring([self.nodes[node]]), times, now)

    def members_request(self, members: Iterable[int], via: int | None, sure: bool) -> tuple[bytes, Address]:
        """Returns the datagram that asks for members, and the node that gets it. Raises as `members_of` does."""
        self.check_open()
        to, request = members_of(members, len(self.nodes), via, sure)
        return self.mark + request, self.nodes[to]


# What is said of a node that has sent nothing.
SILENT = "it has not answered"


def why_silent(exchange: Exchange) -> str:
    """Returns why a node has not answered a probe, in words."""
    return REFUSALS[exchange.code] if exchange.code else SILENT


def doubts(members: Iterable[int], seen: dict[int, str | None]) -> list[str]:
    """Returns why these members may not be what is meant, by what was seen of each node (`Client.look`): they stop the
    cluster until they are there, and what it holds is lost if too few of them were there before."""
    chosen = sorted(set(members))
    found = [f"node {number} has no address" for number in chosen if number not in seen]
    found += [f"node {number} has not answered" for number in chosen if seen.get(number) == SILENT]
    today = [number for number, why in seen.items() if why is None]
    stay = [number for number in today if number in chosen]
    if not today:
        found.append("no node takes part in the cluster at the moment")
    elif 2 * len(stay) <= len(today):
        found.append(f"of the nodes {_listed(today)} that take part no majority is among them")
    return found


def _listed(numbers: Iterable[int]) -> str:
    return ",".join(map(str, numbers))
