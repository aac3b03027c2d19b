"""What a command takes without a leader and with one: messages, log writes, events, and steps of messages one way.

    python3 bench/protocols.py [PROGRAM]

Schedules of the same meaning are replayed by `replay` and by `replay-mp`: bursts of commands, each delivered round by
round, where a round delivers all that was sent in the one before. A few bursts go first, and then some are counted.
"""

import argparse
import subprocess
import sys
from collections import namedtuple

from timing import program

LEADER = 0
BEFORE = 3
COUNTED = 4
PAUSE = 100
BETWEEN = 10
ROUNDS = 20
AT_ONCE = (2, 4, 8)
RECORDS = {"boot", "submit", "log", "exec", "suspend", "promise", "accept", "decide", "enter", "choose"}

Burst = namedtuple("Burst", "origins asks waits", defaults=((), False))
Burst.__doc__ = """Commands at once: the replicas that take them, those that are asked first and refuse, and whether
the clocks stand still until they tick."""

Taken = namedtuple("Taken", "messages acks writes events steps")
Taken.__doc__ = "What a command takes: each number is a mean over commands, and steps are the most, in words."


class Replay:
    """A schedule that grows, and what its replay says of it."""

    def __init__(self, command, replicas):
        self.command = command
        self.lines = [f"replicas {replicas}"]
        self.steps = []
        self.delivered = 0
        self.reading = PAUSE

    def add(self, lines):
        """Replays the schedule with these lines more."""
        self.lines += lines
        given = "".join(f"{line}\n" for line in self.lines).encode()
        done = subprocess.run(self.command, input=given, stdout=subprocess.PIPE, check=False)
        if done.returncode != 0:
            sys.exit(f"{self.command[0]} ended with status {done.returncode}")
        self.steps = [line.split() for line in done.stdout.decode().splitlines() if not line.startswith("final")]

    def deliver(self):
        """One round: delivers all that was sent in the one before. False where nothing was."""
        sent = sum(words[1] == "send" for words in self.steps)
        fresh = range(self.delivered, sent)
        self.delivered = sent
        self.add([f"go {number} {self.reading}" for number in fresh])
        return bool(fresh)

    def answered(self, first):
        """How many commands have been answered by the lines from this one on."""
        return sum(words[1] == "reply" and words[5] == "ok" and int(words[0]) >= first for words in self.steps)

    def requests(self, replicas, number):
        """The lines of requests at these replicas, one client each."""
        return [
            f"request {replica} {self.reading} {client} {number} put 61 62" for client, replica in enumerate(replicas)
        ]


def settle(replay, burst, first):
    """Delivers round by round until nothing is on its way: in which round the last command was answered, or None."""
    answered = None
    for turn in range(1, ROUNDS):
        replay.reading += 0 if burst.waits else BETWEEN
        if not replay.deliver():
            break
        if answered is None and replay.answered(first) == len(burst.origins):
            answered = turn
    return answered


def run_burst(replay, burst, number, replicas):
    """Lets a burst come to its end: after how many steps of messages the last command was answered, in words.

    Where clocks stand still, all is delivered that can be, of which one step counts. They tick if an answer is missing.
    """
    first = len(replay.lines) + 1
    replay.reading += PAUSE
    replay.add(replay.requests(burst.asks, number) + replay.requests(burst.origins, number))
    answered = settle(replay, burst, first)
    if answered:
        return str(answered)
    tick_others(replay, burst, replicas)
    answered = settle(replay, burst, first)
    if not answered:
        sys.exit("a command was not answered")
    return f"{1 + answered} and a wait"


def tick_others(replay, burst, replicas):
    """The clocks go on, and each replica that has taken another's command ticks."""
    replay.reading += BETWEEN
    replay.add([f"tick {k} {replay.reading}" for k in range(replicas) if set(burst.origins) != {k}])


def count(replay, before, commands, answered):
    """What each of some commands took, by the lines of a schedule behind those before."""
    steps = [words for words in replay.steps if int(words[0]) > before]
    sends = [words for words in steps if words[1] == "send"]
    acks = sum(words[5] == "ack" for words in sends)
    writes = len({words[0] for words in steps if words[1] in RECORDS})
    means = [total / commands for total in (len(sends) - acks, acks, writes, len(replay.lines) - before)]
    return Taken(*means, answered)


def begin(command, replicas, burst, first):
    """A replay behind the first lines of a schedule and some bursts."""
    replay = Replay(command, replicas)
    replay.add(list(first))
    while replay.deliver():
        replay.reading += BETWEEN
    for number in range(1, BEFORE + 1):
        run_burst(replay, burst, number, replicas)
    return replay


def measure(command, replicas, burst, first=()):
    """What a command of such a burst takes in the long run, behind the first lines of a schedule."""
    replay = begin(command, replicas, burst, first)
    before = len(replay.lines)
    rounds = [run_burst(replay, burst, number, replicas) for number in range(BEFORE + 1, BEFORE + COUNTED + 1)]
    return count(replay, before, COUNTED * len(burst.origins), max(rounds))


def measure_ticks(command, replicas, first=()):
    """What one tick of each replica takes where nothing is to be done, the last of a few."""
    replay = begin(command, replicas, Burst((LEADER,)), first)
    for _ in range(BEFORE):
        before = len(replay.lines)
        replay.reading += PAUSE
        replay.add([f"tick {k} {replay.reading}" for k in range(replicas)])
        while replay.deliver():
            replay.reading += 1
    return count(replay, before, 1, "-")


def text(value):
    """A mean without needless places."""
    return f"{value:.2f}".rstrip("0").rstrip(".")


def cells(taken, steps=None):
    """The columns of the table: the means, and the steps in words, by themselves or as said here."""
    return [text(value) for value in taken[:4]] + [steps or taken.steps]


def rows(plain, leading, replicas):
    """The rows of so many replicas: what is done, and the columns."""
    lead = [f"suspect {LEADER} {PAUSE} {','.join(map(str, range(replicas)))}"]
    one = Burst((LEADER,))
    alone = measure(plain, replicas, one)
    if any(measure(plain, replicas, Burst((k,))) != alone for k in range(replicas)):
        sys.exit("replicas take a command differently")
    yield "no leader: one at any replica", cells(alone)
    yield "the same, clocks that stand", cells(measure(plain, replicas, one._replace(waits=True)))
    yield "leader: one at the leader", cells(measure(leading, replicas, one, lead))
    elsewhere = measure(leading, replicas, one._replace(asks=(replicas - 1,)), lead)
    yield "leader: one at another replica first", cells(elsewhere, f"{elsewhere.steps} + 2 of the client")
    for commands in AT_ONCE:
        spread = Burst(tuple(k % replicas for k in range(commands)))
        yield f"no leader: {commands} at once at 0, 1, ..", cells(measure(plain, replicas, spread))
        yield "the same, clocks that stand", cells(measure(plain, replicas, spread._replace(waits=True)))
        gathered = Burst((LEADER,) * commands)
        yield f"leader: {commands} at once at the leader", cells(measure(leading, replicas, gathered, lead))
    yield "no leader: a tick of each replica", cells(measure_ticks(plain, replicas))
    yield "leader: a tick of each replica", cells(measure_ticks(leading, replicas, lead))


def both(three, five):
    """A cell for three and for five replicas, once where they are equal."""
    return three if three == five else f"{three}; {five}"


def main():
    """Prints a table of three replicas and of five."""
    parser = argparse.ArgumentParser(description=__doc__)
    parser.add_argument("program", nargs="*", help="in place of that of `crates/crsm`; a second one has the leader")
    asked = parser.parse_args().program or [program("crsm")]
    plain = [asked[0], "replay"]
    leading = [asked[0], "replay-mp"] if len(asked) == 1 else asked[1:]
    print("| what | messages | acknowledgements | log writes | events | steps |")
    print("|---|---|---|---|---|---|")
    for (what, three), (_, five) in zip(rows(plain, leading, 3), rows(plain, leading, 5)):
        print(f"| {what} | " + " | ".join(map(both, three, five)) + " |")


if __name__ == "__main__":
    main()
