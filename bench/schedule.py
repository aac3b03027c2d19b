"""Writes a schedule of requests: all four operations over some thousand clients and keys.

    python3 bench/schedule.py COUNT [REPLICAS] [settles|deliveries|boots] > FILE

With more than one replica they come to each in turn, and after each request everything that is on its way is delivered,
and what that makes the replicas send, too. With a third word it is a schedule for `replay-mp`: replica 0 is elected, all
requests come to it, and behind each its messages are delivered, by three settles or one by one. Of boots it is 200 such
requests, and then COUNT stops, each with a boot behind it, of each replica in turn.
"""

import sys

CLIENTS = 3_000
REQUESTS_BEFORE_BOOTS = 200
KEYS = 2_000
MODULUS = 2**64


class Draws:
    """A fixed sequence of numbers that look random, the same at each run."""

    def __init__(self):
        self.state = 1

    def below(self, bound):
        """The next number, from 0 to bound - 1."""
        self.state = (self.state * 6364136223846793005 + 1442695040888963407) % MODULUS
        return (self.state >> 33) % bound


def value(draws):
    """A value of 1 to 32 bytes in hexadecimal."""
    size = 1 + draws.below(32)
    return "".join(f"{draws.below(256):02x}" for _ in range(size))


def optional(draws):
    """A value, or none."""
    return value(draws) if draws.below(2) else "none"


def operation(draws):
    """One of the four operations on one of the keys."""
    key = f"{draws.below(KEYS):04x}"
    kind = draws.below(4)
    if kind == 0:
        return f"get {key}"
    if kind == 1:
        return f"put {key} {value(draws)}"
    if kind == 2:
        return f"del {key}"
    return f"cas {key} {optional(draws)} {optional(draws)}"


def requests(count):
    """So many requests without their replica and reading, each client's numbers rising."""
    draws = Draws()
    numbers = [0] * CLIENTS
    for _ in range(count):
        client = draws.below(CLIENTS)
        numbers[client] += 1
        yield f"{client} {numbers[client]} {operation(draws)}"


def boot_lines(count, replicas):
    """The lines of a schedule for the store with a leader: a few requests, and then so many stops and boots."""
    yield from leader_lines(REQUESTS_BEFORE_BOOTS, replicas, "settles")
    for turn in range(count):
        yield f"crash {turn % replicas}"
        yield f"start {turn % replicas}"


def leader_lines(count, replicas, deliveries):
    """The lines of a schedule for the store with a leader: what a request sends is delivered behind it."""
    yield f"replicas {replicas}"
    yield f"suspect 0 5 {','.join(map(str, range(replicas)))}"
    yield "settle 6"
    yield "settle 7"
    # The election takes a message to each other replica and one back; a request takes one more round.
    others = replicas - 1
    sent = 2 * others
    for turn, request in enumerate(requests(count)):
        reading = 100 * (turn + 2)
        yield f"request 0 {reading} {request}"
        if deliveries == "settles":
            yield from (f"settle {reading + later}" for later in (20, 40, 60))
        else:
            yield from (f"go {index} {reading + 20}" for index in range(sent, sent + 3 * others))
        sent += 3 * others


def lines(count, replicas):
    """The lines of a schedule of so many requests, with rising readings."""
    yield f"replicas {replicas}"
    for turn, request in enumerate(requests(count)):
        if replicas == 1:
            yield f"request 0 {turn} {request}"
            continue
        reading = 100 * (turn + 1)
        yield f"request {turn % replicas} {reading} {request}"
        yield f"settle {reading + 50}"
        yield f"settle {reading + 60}"


def schedule(count, replicas=1, deliveries=None):
    """The whole schedule of so many requests as bytes; for a store with a leader where its deliveries are said."""
    if deliveries == "boots":
        made = boot_lines(count, replicas)
    elif deliveries:
        made = leader_lines(count, replicas, deliveries)
    else:
        made = lines(count, replicas)
    return "".join(f"{line}\n" for line in made).encode()


if __name__ == "__main__":
    words = [int(word) if word.isdigit() else word for word in sys.argv[1:]]
    sys.stdout.buffer.write(schedule(*words))
