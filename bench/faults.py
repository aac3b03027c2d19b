"""Faults of the system: one call of a real node fails, and what it had acknowledged is there after a restart.

    python3 bench/faults.py PROGRAM [--most M]

runs a node that is a cluster of its own under `strace`, which lets the k-th write, sync, send or receive fail, for each
k up to M, while a client asks it for commands; of the writes of zeros ahead only the first and the last. The node ends
with the status that this fault has, or counts a loss and goes on; started again without faults on the same log, it has
each command that was answered. The same with a crowd: 60 clients ask at once, so that a group has more than 32 turns,
and each write and sync of the log fails in its turn.

It also looks at the order of calls of a run without faults: before anything is sent, a new log and the folder that has
its name were synced, and before a reply goes out, a write, a sync, a write and a sync have kept the command.

Ends with 0 where all holds, with 1 and the reason where it does not, and with 0 and a word where there is no `strace`.
Where there is a `cc`, reads and writes are cut to half of their bytes, too, one in each run: the node goes on as if
nothing had been.
"""

import argparse
import os
import re
import shutil
import socket
import struct
import subprocess
import sys
import tempfile
from typing import Callable, Dict, List, Optional, Tuple

HERE = os.path.dirname(os.path.abspath(__file__))
sys.path[:0] = [f"{HERE}/../clients/python"]

from crsm import protocol  # noqa: E402
from nodes import free_addresses, text_of  # noqa: E402
from shim import Shim, built, has_come  # noqa: E402

TURNS = 250
# What one call writes of the zeros ahead of a log. Of these calls the first and the last are tried.
ZEROS = 16_384
COMMANDS = 3

# The calls that fail, with the error, and the statuses that a node may end with. Behind a `+` all later ones fail as
# well, as on a disk that stays full.
FAULTS = [
    ("pwrite64", "EIO", {0, 7}),
    ("pwrite64", "ENOSPC+", {0, 7}),
    ("pwrite64", "EDQUOT+", {0, 7}),
    ("fdatasync", "EIO+", {0, 7}),
    ("fdatasync", "EIO", {0, 7}),
    ("fsync", "EIO", {0, 7}),
    ("pread64", "EIO", {0, 7}),
    ("write", "ENOSPC", {0, 5}),
    ("sendto", "EPERM", {0}),
    ("recvfrom", "EIO", {0, 6}),
]

# The same of a node that a crowd asks, and how many turns a group of such a run has at least.
FAULTS_OF_A_CROWD = [("pwrite64", "EIO", {0, 7}), ("pwrite64", "ENOSPC+", {0, 7}), ("fdatasync", "EIO", {0, 7})]
CROWD = 60
GROUP = 33

# The calls that are cut short.
CUTS = ["pwrite", "pread", "write"]

# Of those that fail, those of the log file do so alone.
DISK_CALLS = ("pwrite64", "fdatasync", "fsync", "pread64")


class Broken(Exception):
    """A promise that was not kept."""


def node_words(program: str, address: str, turns: int) -> List[str]:
    """The words of a node that is a cluster of its own."""
    return [program, "node", "0", "1", str(turns), address]


def ask(program: str, address: str, number: int, op: List[str]) -> str:
    """What a client is told."""
    words = [program, "client", address, "150", "7", str(number), *op]
    return subprocess.run(words, capture_output=True, text=True, check=False).stdout.strip()


def ask_crowd(address: str, is_over: Callable[[], bool]) -> List[int]:
    """Sends the commands of a crowd at once, again each half second; answers the clients that were answered."""
    host, port = address.split(":")
    left, answered = set(range(1, CROWD + 1)), []
    with socket.socket(socket.AF_INET, socket.SOCK_DGRAM) as asker:
        asker.settimeout(0.5)
        while left and not is_over():
            for client in sorted(left):
                datagram = struct.pack(">BQQ", 4, client, 1) + protocol.put_of(b"%d" % client, b"x" * 400).data
                asker.sendto(datagram, (host, int(port)))
            try:
                while left:
                    reply = protocol.reply_of(asker.recv(65_536))
                    if reply is not None and reply[0] in left and not isinstance(reply[2], int):
                        left.remove(reply[0])
                        answered.append(reply[0])
            except OSError:
                pass
    return answered


def run_crowd(folder: str, words: List[str], address: str) -> Tuple[int, List[int]]:
    """Runs a node and asks it for the commands of a crowd; answers its status and the clients that were answered."""
    quiet = subprocess.DEVNULL
    with open(f"{folder}/sheet", "wb") as sheet:
        node = subprocess.Popen(words, cwd=folder, stdin=quiet, stdout=sheet, stderr=quiet)
    answered = ask_crowd(address, lambda: node.poll() is not None)
    return node.wait(60), answered


def greatest_group(folder: str) -> int:
    """How many turns the greatest group of a sheet has: a group ends with a turn that took no datagram."""
    greatest = turns = 0
    with open(f"{folder}/sheet", encoding="ascii") as sheet:
        for line in sheet:
            turns = turns + 1 if line.startswith(("in ", "tick ")) else 0
            greatest = max(greatest, turns)
            turns = turns if line.startswith("in ") else 0
    return greatest


def check_crowd(program: str) -> None:
    """A crowd is answered by a node without faults, which has a group of many turns."""
    folder = tempfile.mkdtemp(prefix="crsm-faults-")
    try:
        address = text_of(free_addresses(1)[0])
        words = ["strace", "-f", "-qq", "-o", "/dev/null", "-e", "trace=fdatasync", *node_words(program, address, TURNS)]
        status, answered = run_crowd(folder, words, address)
        group = greatest_group(folder)
        if status != 0 or len(answered) != CROWD or group < GROUP:
            raise Broken(f"a crowd: the node ends with {status}, answers {len(answered)}, in groups of up to {group}")
        check_kept(program, folder, answered, "a crowd")
    finally:
        shutil.rmtree(folder)


def run_node(
    folder: str, words: List[str], program: str, address: str, environment: Optional[Dict[str, str]] = None
) -> Tuple[int, List[int]]:
    """Runs a node and asks it; answers its status and the numbers of the commands that were answered."""
    quiet = subprocess.DEVNULL
    with open(f"{folder}/sheet", "wb") as sheet:
        node = subprocess.Popen(words, cwd=folder, stdin=quiet, stdout=sheet, stderr=quiet, env=environment)
    answered = []
    for number in range(1, COMMANDS + 1):
        # (asked again: on a busy machine the node may take longer to start than a client waits)
        while node.poll() is None:
            if ask(program, address, number, ["put", f"{number:02x}", "aa"]) == "ok done":
                answered.append(number)
                break
    return node.wait(60), answered


def check_kept(program: str, folder: str, answered: List[int], what: str) -> None:
    """Started again without faults, the node has what it answered."""
    address = text_of(free_addresses(1)[0])
    sheet = subprocess.run(node_words(program, address, 1), cwd=folder, capture_output=True, check=False)
    if sheet.returncode != 0:
        raise Broken(f"{what}: the node does not boot again: {sheet.stderr.decode()}")
    words = [program, "replay-node", "0", "1"]
    final = subprocess.run(words, input=sheet.stdout, capture_output=True, check=False).stdout.decode().splitlines()[-1]
    if int(final.split()[-1]) < len(answered):
        raise Broken(f"{what}: {answered} were answered, and the log has {final}")


def check_sheet(program: str, folder: str, what: str) -> None:
    """The sheet of a node that ended replays, where it has one."""
    with open(f"{folder}/sheet", "rb") as sheet:
        again = subprocess.run([program, "replay-node", "0", "1"], stdin=sheet, capture_output=True, check=False)
    if again.returncode != 0 and os.path.getsize(f"{folder}/sheet") > 0:
        raise Broken(f"{what}: its sheet does not replay: {again.stderr.decode()}")


def one_fault(program: str, call: str, error: str, at: int, statuses: set, is_crowd: bool = False) -> bool:
    """Lets one call fail; answers whether the run had so many calls."""
    folder = tempfile.mkdtemp(prefix="crsm-faults-")
    try:
        address = text_of(free_addresses(1)[0])
        # (strace writes a line for the call alone: whether it came is told by that)
        words = ["strace", "-f", "-qq", "-o", f"{folder}/trace", "-e", f"trace={call}"]
        words += ["-P", f"{folder}/crsm-0.log"] if call in DISK_CALLS else []
        words += ["-P", folder] if call == "fsync" else []
        name, later = error.rstrip("+"), "+" if error.endswith("+") else ""
        words += ["-e", f"inject={call}:error={name}:when={at}{later}", *node_words(program, address, TURNS)]
        if is_crowd:
            status, answered = run_crowd(folder, words, address)
        else:
            status, answered = run_node(folder, words, program, address)
        if status not in statuses:
            raise Broken(f"{call} {at} fails with {error}: the node ends with {status}")
        check_kept(program, folder, answered, f"{call} {at} fails with {error}")
        with open(f"{folder}/trace", encoding="utf-8", errors="replace") as trace:
            return "(INJECTED)" in trace.read()
    finally:
        shutil.rmtree(folder)


def one_cut(shim: Shim, call: str, at: int) -> bool:
    """Cuts one call short, a read where a node begins on a log that has something; answers whether it came to that."""
    folder, what = tempfile.mkdtemp(prefix="crsm-faults-"), f"{call} {at} is cut short"
    try:
        address = text_of(free_addresses(1)[0])
        words = node_words(shim.program, address, TURNS)
        environment = shim.environment(call, at, f"{folder}/mark")
        first = None if call == "pread" else environment
        status, answered = run_node(folder, words, shim.program, address, first)
        if status == 0 and call == "pread":
            status, _ = run_node(folder, words, shim.program, address, environment)
        if status != 0 or len(answered) != COMMANDS:
            raise Broken(f"{what}: the node ends with {status} and has answered {answered}")
        check_sheet(shim.program, folder, what)
        check_kept(shim.program, folder, answered, what)
        return has_come(f"{folder}/mark")
    finally:
        shutil.rmtree(folder)


def cut_all(program: str, most: int, writes: List[int]) -> List[str]:
    """Cuts each call short in turn; says how many there were."""
    if shutil.which("cc") is None:
        return ["no cc here, so none was cut short"]
    folder = tempfile.mkdtemp(prefix="crsm-faults-")
    try:
        shim, tried = Shim(built(folder), program), []
        for call in CUTS:
            count = count_of(lambda at, call=call: one_cut(shim, call, at), writes if call == "pwrite" else None, most)
            tried.append(f"{call} cut short {count}")
        return tried
    finally:
        shutil.rmtree(folder)


def check_name(lines: List[str], log: str, folder: str) -> None:
    """Before anything is sent, a new log and the folder that has its name were synced."""
    first = next(at for at, line in enumerate(lines) if "sendto(" in line)
    for path in (log, folder):
        if not any("fsync(" in line and f"<{path}>)" in line for line in lines[:first]):
            raise Broken(f"{path} was not synced before the first packet went out")


def numbers_of_writes(calls: List[str]) -> List[int]:
    """The numbers, from 1, of the writes, without those of zeros that stand between two others of zeros."""
    sizes = [int(line.rsplit("= ", 1)[1]) for line in calls if line.startswith("pwrite64(")]
    is_inner = [sizes[at - 1 : at + 2] == [ZEROS] * 3 for at in range(1, len(sizes))]
    return [at + 1 for at, inner in enumerate([False, *is_inner]) if not inner]


def check_order(program: str) -> List[int]:
    """Before each reply goes out, the log was written and synced twice since the command came. Answers the numbers of
    the writes that are worth a trial."""
    folder = tempfile.mkdtemp(prefix="crsm-faults-")
    try:
        address = text_of(free_addresses(1)[0])
        words = ["strace", "-f", "-y", "-qq", "-o", f"{folder}/trace"]
        words += ["-e", "trace=pwrite64,fsync,fdatasync,sendto,recvfrom"]
        status, answered = run_node(folder, [*words, *node_words(program, address, TURNS)], program, address)
        if status != 0 or len(answered) != COMMANDS:
            raise Broken(f"a run without faults ends with {status} and has answered {answered}")
        with open(f"{folder}/trace", encoding="utf-8", errors="replace") as trace:
            calls = [line.split(None, 1)[1] for line in trace]
        check_name(calls, f"{folder}/crsm-0.log", folder)
        replies = 0
        for at, line in enumerate(calls):
            if line.startswith("sendto("):
                names = [re.match(r"\w+", it)[0] for it in calls[:at]]
                kept = [it for it in names if it in ("pwrite64", "fdatasync", "sendto")][-4:]
                if kept != ["pwrite64", "fdatasync", "pwrite64", "fdatasync"]:
                    raise Broken(f"a reply went out behind {kept}")
                replies += 1
        if replies < COMMANDS:
            raise Broken(f"{replies} replies went out")
        return numbers_of_writes(calls)
    finally:
        shutil.rmtree(folder)


def count_of(one: Callable[[int], bool], numbers: Optional[List[int]], most: int) -> int:
    """Tries calls of these numbers in turn, up to so many and until there is none; answers how many there were."""
    for count, at in enumerate((numbers or range(1, most + 1))[:most]):
        if not one(at):
            return count
    return min(most, len(numbers)) if numbers else most


def main() -> int:
    """All faults."""
    reader = argparse.ArgumentParser(description=__doc__, formatter_class=argparse.RawDescriptionHelpFormatter)
    reader.add_argument("program", type=os.path.abspath)
    reader.add_argument("--most", type=int, default=30)
    words = reader.parse_args()
    if shutil.which("strace") is None:
        print("faults: no strace here, so nothing was tried")
        return 0
    try:
        writes, tried = check_order(words.program), []
        for call, error, statuses in FAULTS:
            count = count_of(
                lambda at, it=(call, error), statuses=statuses: one_fault(words.program, *it, at, statuses),
                writes if call == "pwrite64" else None,
                words.most,
            )
            tried.append(f"{call} {error} {count}")
        check_crowd(words.program)
        for call, error, statuses in FAULTS_OF_A_CROWD:
            count = count_of(
                lambda at, it=(call, error), statuses=statuses: one_fault(words.program, *it, at, statuses, True),
                writes if call == "pwrite64" else None,
                words.most,
            )
            tried.append(f"{call} {error} in a crowd {count}")
        tried += cut_all(words.program, words.most, writes)
    except Broken as broken:
        print(f"faults: {broken}", file=sys.stderr)
        return 1
    print(f"faults: ok ({', '.join(tried)})")
    return 0


if __name__ == "__main__":
    sys.exit(main())
