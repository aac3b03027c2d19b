"""Disks that are full or refuse to be written: a node ends with status 7, and goes on once the disk takes writes again.

    python3 bench/disks.py PROGRAM

mounts small file systems in a namespace of its own, which needs root and `unshare`, and puts the log of a loaded node
on each:

- `tmpfs` and `ext4` that run full while the node runs; the sheet stands elsewhere, or on the same file system;
- `ext4` that turns read-only after an error of its own, while the node runs;
- a full one, and one that is mounted read-only, at which a node is started, with a log and without;
- one of three nodes, whose disk runs full: the others go on without it.

Each node ends with status 7 (or 5, where its sheet stands on the full one), starts once there is room again, and has
each command that was answered; sheets, answers and audit are judged as by `chaos.py`.

Ends with 0 where all holds, with 1 and the reason where it does not, and with 0 and a word where nothing can be
mounted.
"""

import argparse
import os
import shutil
import socket
import subprocess
import sys
import tempfile
import time
from typing import Callable, Dict, List, Tuple

from load import Broken, Load, judge_all
from nodes import Node, free_addresses, text_of

ENDED_WITHIN = 60.0
ANSWERED_WITHIN = 30.0
OPERATE_EVERY = 0.3
INSIDE = "CRSM_DISKS_INSIDE"
LOG_FAILED, OUTPUT_FAILED = 7, 5
SMALL, LARGE = "192k", "64m"


def call(*words: str) -> None:
    """Runs a program of the system."""
    ran = subprocess.run(words, capture_output=True, text=True, check=False)
    if ran.returncode != 0:
        raise Broken(f"{' '.join(words)}: {ran.stderr.strip()}")


# ---- file systems


class Tmpfs:
    """A file system in memory that has room for little."""

    name = "tmpfs"

    def __init__(self, folder: str):
        self.at = f"{folder}/disk"
        os.makedirs(self.at)
        call("mount", "-t", "tmpfs", "-o", f"size={SMALL}", "tmpfs", self.at)

    def free(self) -> None:
        """Gives it room."""
        call("mount", "-o", f"remount,rw,size={LARGE}", self.at)

    def close(self) -> None:
        """Takes it away."""
        call("umount", self.at)


class Ext4:
    """A file system in a file, which a ballast leaves little room."""

    name = "ext4"

    def __init__(self, folder: str):
        self.at, self._image = f"{folder}/disk", f"{folder}/image"
        os.makedirs(self.at)
        with open(self._image, "wb") as image:
            image.truncate(16 << 20)
        call("mkfs.ext4", "-q", "-F", self._image)
        self._mount()
        self._fill()

    def _mount(self) -> None:
        call("mount", "-o", "loop,errors=remount-ro", self._image, self.at)

    def _fill(self) -> None:
        """Leaves room for some 200 KiB."""
        room = os.statvfs(self.at)
        with open(f"{self.at}/ballast", "wb") as ballast:
            os.posix_fallocate(ballast.fileno(), 0, max(1, room.f_bavail * room.f_frsize - (200 << 10)))

    def free(self) -> None:
        """Gives it room."""
        os.remove(f"{self.at}/ballast")

    def fail(self) -> None:
        """Lets it find an error of its own, at which it turns read-only."""
        source = subprocess.run(["findmnt", "-no", "SOURCE", self.at], capture_output=True, text=True, check=True)
        with open(f"/sys/fs/ext4/{os.path.basename(source.stdout.strip())}/trigger_fs_error", "w") as trigger:
            trigger.write("tried")

    def repair(self) -> None:
        """Checks it and mounts it again."""
        self.close()
        ran = subprocess.run(["e2fsck", "-fp", self._image], capture_output=True, text=True, check=False)
        if ran.returncode > 1:
            raise Broken(f"e2fsck ends with {ran.returncode}: {ran.stdout}")
        self._mount()

    def close(self) -> None:
        """Takes it away."""
        call("umount", self.at)


# ---- nodes on them


class Cluster:
    """Nodes under load, of which the last has its log on the disk that is tried."""

    def __init__(self, program: str, folder: str, disk: str, count: int, is_sheet_there: bool = False):
        self.program = program
        self.addresses = free_addresses(count)
        peers = ",".join(text_of(it) for it in self.addresses)
        self.nodes = [Node(program, f"{folder}/{at}", at, count, peers) for at in range(count)]
        self.tried = self.nodes[-1]
        self.tried.folder = f"{disk}/node"
        if not is_sheet_there:
            self.tried.sheets = f"{folder}/sheets"
            os.makedirs(self.tried.sheets)
        self.load = Load(self.addresses, count)
        self._operator = socket.socket(socket.AF_INET, socket.SOCK_DGRAM)

    def start(self) -> None:
        """Starts all nodes and the load."""
        for it in self.nodes:
            it.start()
        self.load.start()

    def operate(self) -> None:
        """Asks the first node for all members."""
        datagram = bytes([6, len(self.nodes), *range(len(self.nodes))])
        self._operator.sendto(datagram, self.addresses[0])

    def await_end(self) -> int:
        """The status of the tried node, once it has ended."""
        return self.tried.wait(ENDED_WITHIN)

    def await_answers(self, count: int, is_asked: bool = True) -> float:
        """Waits for so many answers, and tells how long it took."""
        began, asked, wanted = time.monotonic(), 0.0, self.load.answered + count
        while self.load.answered < wanted:
            now = time.monotonic()
            if now > began + ANSWERED_WITHIN:
                raise Broken(f"no {count} answers; the last words are {self.tried.last_words()}")
            if is_asked and now > asked + OPERATE_EVERY:
                asked = now
                self.operate()
            time.sleep(0.01)
        return time.monotonic() - began

    def stop(self) -> None:
        """Ends the load and all nodes."""
        self.load.is_over = True
        if self.load.is_alive():
            self.load.join()
        for it in self.nodes:
            it.kill()

    def judge(self) -> int:
        """Judges what is left; answers how many commands were answered."""
        judge_all(self.program, self.nodes, self.load)
        return self.load.answered


def ended(cluster: Cluster, statuses: Tuple[int, ...]) -> str:
    """Waits until the tried node has ended, and answers its status and last words."""
    status = cluster.await_end()
    words = cluster.tried.last_words()
    if status not in statuses:
        raise Broken(f"the node ends with {status}: {words}")
    return f"status {status}, '{words.split('ended: ')[-1]}'"


def full(program: str, folder: str, disk: Tmpfs, is_sheet_there: bool) -> str:
    """A disk that runs full under a node alone."""
    cluster = Cluster(program, folder, disk.at, 1, is_sheet_there)
    statuses = (LOG_FAILED, OUTPUT_FAILED) if is_sheet_there else (LOG_FAILED,)
    try:
        cluster.start()
        told = ended(cluster, statuses)
        before = cluster.load.answered
        # (without room it says the same at each start, or starts and says it at the next write)
        cluster.tried.start()
        again = ended(cluster, statuses)
        disk.free()
        cluster.tried.start()
        cluster.await_answers(50)
    finally:
        cluster.stop()
    return f"{told}, and again {again}; {before} answered, {cluster.judge()} after it was given room"


def turned_read_only(program: str, folder: str, disk: Ext4) -> str:
    """A disk that turns read-only under a node alone."""
    cluster = Cluster(program, folder, disk.at, 1)
    try:
        cluster.start()
        cluster.await_answers(50)
        disk.fail()
        told = ended(cluster, (LOG_FAILED,))
        before = cluster.load.answered
        disk.repair()
        disk.free()
        cluster.tried.start()
        cluster.await_answers(50)
    finally:
        cluster.stop()
    return f"{told}; {before} answered, {cluster.judge()} after it was repaired"


def started_on(program: str, folder: str, disk: Tmpfs, shut: Callable[[], None], has_log: bool) -> str:
    """A node that is started where nothing can be written."""
    cluster = Cluster(program, folder, disk.at, 1)
    os.makedirs(cluster.tried.folder)
    try:
        if has_log:
            cluster.start()
            cluster.await_answers(50)
            cluster.tried.kill()
        shut()
        cluster.tried.start()
        told = ended(cluster, (LOG_FAILED,))
        disk.free()
        cluster.tried.start()
        if not has_log:
            cluster.load.start()
        cluster.await_answers(50)
    finally:
        cluster.stop()
    return f"{told}; {cluster.judge()} answered"


def one_of_three(program: str, folder: str, disk: Tmpfs) -> str:
    """A disk that runs full under one of three nodes."""
    cluster = Cluster(program, folder, disk.at, 3)
    try:
        cluster.start()
        told = ended(cluster, (LOG_FAILED,))
        took = cluster.await_answers(200, False)
        disk.free()
        cluster.tried.start()
        time.sleep(0.3)
        cluster.operate()
        back = await_node(cluster)
    finally:
        cluster.stop()
    times = f"the others answer after {took:.1f} s, it answers {back:.1f} s after its start"
    return f"{told}; {times}; {cluster.judge()} answered"


def await_node(cluster: Cluster) -> float:
    """Waits until the tried node itself answers, and tells how long it took."""
    began, number = time.monotonic(), 0
    while time.monotonic() < began + ANSWERED_WITHIN:
        number += 1
        words = [cluster.program, "client", text_of(cluster.addresses[-1]), "300", "900", str(number), "get", "70"]
        if subprocess.run(words, capture_output=True, check=False).stdout.startswith(b"ok"):
            return time.monotonic() - began
        cluster.operate()
        time.sleep(0.2)
    raise Broken("the node that came back does not answer")


def fill_up(at: str) -> None:
    """Leaves no room."""
    try:
        with open(f"{at}/more", "wb", buffering=0) as more:
            while more.write(bytes(4096)):
                pass
    except OSError:
        pass


def read_only(at: str) -> None:
    """Mounts it read-only."""
    call("mount", "-o", "remount,ro", at)


def trials(program: str) -> Dict[str, Callable[[str], str]]:
    """Each trial by its name; it gets a folder."""

    def on(kind: type, what: Callable) -> Callable[[str], str]:
        def run(folder: str) -> str:
            disk = kind(folder)
            try:
                return what(folder, disk)
            finally:
                disk.close()

        return run

    found = {}
    for kind in (Tmpfs, Ext4):
        found[f"{kind.name} full"] = on(kind, lambda folder, disk: full(program, folder, disk, False))
        found[f"{kind.name} full, sheet there"] = on(kind, lambda folder, disk: full(program, folder, disk, True))
    found["ext4 turns read-only"] = on(Ext4, lambda folder, disk: turned_read_only(program, folder, disk))
    for name, shut in (("full", fill_up), ("read-only", read_only)):
        for has_log in (True, False):
            found[f"a start on {name} tmpfs, {'a' if has_log else 'no'} log"] = on(
                Tmpfs,
                lambda folder, disk, shut=shut, has_log=has_log: started_on(
                    program, folder, disk, lambda: shut(disk.at), has_log
                ),
            )
    found["one of three on full tmpfs"] = on(Tmpfs, lambda folder, disk: one_of_three(program, folder, disk))
    return found


def can_mount() -> bool:
    """Whether a file system can be mounted in a namespace."""
    if shutil.which("unshare") is None:
        return False
    words = ["unshare", "-m", "sh", "-c", "mount -t tmpfs tmpfs /mnt"]
    return subprocess.run(words, capture_output=True, check=False).returncode == 0


def main() -> int:
    """All trials, inside of a namespace."""
    reader = argparse.ArgumentParser(description=__doc__, formatter_class=argparse.RawDescriptionHelpFormatter)
    reader.add_argument("program", type=os.path.abspath)
    words = reader.parse_args()
    if INSIDE not in os.environ:
        if not can_mount():
            print("disks: nothing can be mounted here, so nothing was tried")
            return 0
        inside = ["unshare", "-m", sys.executable, "-B", os.path.abspath(__file__), words.program]
        return subprocess.run(inside, env={**os.environ, INSIDE: "1"}, check=False).returncode
    folder, failed, told = tempfile.mkdtemp(prefix="crsm-disks-"), 0, []
    for at, (name, trial) in enumerate(trials(words.program).items()):
        os.makedirs(f"{folder}/{at}")
        try:
            told.append(f"{name}: {trial(f'{folder}/{at}')}")
        except Broken as broken:
            failed += 1
            print(f"disks: {name}: {broken}", file=sys.stderr)
    print("\n".join(told))
    shutil.rmtree(folder, ignore_errors=True)
    print("disks: ok" if not failed else "disks: failed")
    return 1 if failed else 0


if __name__ == "__main__":
    sys.exit(main())
