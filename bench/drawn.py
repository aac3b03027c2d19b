"""Draws a schedule of a store with a leader: requests, elections, ticks, single deliveries, losses, stops and boots.

    python3 bench/drawn.py COUNT REPLICAS [SEED] > FILE

It asks `crsm replay-mp` which messages a schedule so far has sent, so the program must be built. Every draw of the same
numbers is the same.
"""

import random
import subprocess
import sys

from timing import program

CHUNK = 200
KEYS = ["61", "62", "63"]


class Drawing:
    """The events drawn so far, which replicas are up, and which messages can still be delivered."""

    def __init__(self, replicas, seed):
        self.draws = random.Random(seed)
        self.lines = [f"replicas {replicas}"]
        self.up = [True] * replicas
        self.number = 0
        self.receivers = {}
        self.sent = 0

    def see(self):
        """Learns of the messages that the last events sent."""
        text = "\n".join(self.lines) + "\n"
        done = subprocess.run([program("crsm"), "replay-mp"], input=text, capture_output=True, text=True, check=True)
        sends = [line.split() for line in done.stdout.splitlines() if " send " in line]
        for words in sends[self.sent :]:
            # What was sent before the last settle was delivered by it, but for what went to replicas that are down.
            if int(words[0]) == len(self.lines) or not self.up[int(words[4])]:
                self.receivers[int(words[2])] = int(words[4])
        self.sent = len(sends)

    def deliverable(self):
        """The messages that can be delivered now, ascending."""
        return [index for index, receiver in self.receivers.items() if self.up[receiver]]

    def request(self, replica):
        """A request of one of three clients, which sometimes is an old one."""
        self.number += 1
        number = self.number if self.draws.random() < 0.9 else self.draws.randrange(self.number + 1)
        key = self.draws.choice(KEYS)
        words = [f"put {key} {number % 256:02x}", f"get {key}", f"del {key}", f"cas {key} none 7a"]
        return f"request {replica} 0 {self.draws.randint(1, 3)} {number} {self.draws.choice(words)}"

    def single(self, kind, fresh):
        """An event of one replica that is up, and the replica, or nothing where there is none."""
        ups = [replica for replica, up in enumerate(self.up) if up]
        if not ups:
            return None
        replica = self.draws.choice(ups)
        if kind < 0.3:
            return self.request(replica), replica
        if kind < 0.33:
            return f"suspect {replica} 0 {','.join(str(k) for k in range(len(self.up)))}", replica
        if kind < 0.5:
            return f"tick {replica} 0", replica
        if not fresh:
            return None
        index = fresh[0] if self.draws.random() < 0.5 else self.draws.choice(fresh)
        return f"go {index} 0", self.receivers[index]

    def event(self):
        """One more event, where there is one."""
        kind = self.draws.random()
        if kind < 0.08:
            replica = self.draws.randrange(len(self.up))
            self.lines.append(f"{'crash' if self.up[replica] else 'start'} {replica}")
            self.up[replica] = not self.up[replica]
            return
        fresh = self.deliverable()
        if kind < 0.12 and fresh:
            index = self.draws.choice(fresh)
            del self.receivers[index]
            self.lines.append(f"lose {index}")
            return
        made = self.single(self.draws.random(), fresh)
        if made is None:
            return
        line, replica = made
        if line.startswith("go "):
            del self.receivers[int(line.split()[1])]
        if self.draws.random() < 0.03:
            line = f"cut {self.draws.randrange(3)} {line}"
            self.up[replica] = False
        self.lines.append(line)


def drawn(count, replicas, seed=1):
    """The lines of a schedule of so many events. Each piece of it ends with a settle."""
    drawing = Drawing(replicas, seed)
    while len(drawing.lines) <= count:
        drawing.see()
        for _ in range(CHUNK):
            drawing.event()
        for index in drawing.deliverable():
            del drawing.receivers[index]
        drawing.lines.append("settle 0")
    return drawing.lines[: count + 1]


if __name__ == "__main__":
    print("\n".join(drawn(*(int(word) for word in sys.argv[1:]))))
