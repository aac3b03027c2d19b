"""What a run of the merge gate costs: processor minutes for each crate by kind, and the longest chain of crates.

    python3 bench/gate.py run LOG ..  runs `rt ci ..` at the top of the repository and writes what it says to LOG,
                                      with the processor time of each check behind it, also where it is stopped;
                                      --anew proves all, whatever was kept, and names of crates prove these alone
    python3 bench/gate.py LOG..       prints the table of such logs; of several, as where a run went on from what an
                                      earlier one had proved, the longest time of each kind of check counts

A crate is proved as a library or a program, its tests are proved beside it, and its must-fail edits begin with a
proof of their own. Times are sampled four times a second, so each check counts up to a quarter of a second less.
"""

import os
import signal
import subprocess
import sys
import threading
import time

KINDS = ["library", "tests", "program", "edits"]
MARK = "gate:"
TICKS = os.sysconf("SC_CLK_TCK")


def kind_of(words, folder):
    """Which kind of check a process is, by its words and the folder that it runs in."""
    if "rt-edit" in folder:
        return "edits"
    if "--test" in words:
        return "tests"
    return "program" if "src/main.rt" in words else "library"


def fields_of(pid):
    """What the system says of a process behind its name: its parent is field 1, its times are fields 11 and 12."""
    with open(f"/proc/{pid}/stat", encoding="utf-8", errors="replace") as file:
        return file.read().rpartition(")")[2].split()


def is_below(pid, gate):
    """Whether a process was started by the gate, or by one that the gate started."""
    while pid not in (0, gate):
        pid = int(fields_of(pid)[1])
    return pid == gate


def checks(gate):
    """Each running check of this gate: its process, crate, kind and processor seconds so far."""
    for pid in filter(str.isdigit, os.listdir("/proc")):
        try:
            with open(f"/proc/{pid}/cmdline", "rb") as file:
                words = file.read().decode(errors="replace").split("\0")
            if not words[0].endswith("/rattle") or "--crate-name" not in words or not is_below(int(pid), gate):
                continue
            fields = fields_of(pid)
            crate = words[words.index("--crate-name") + 1]
            seconds = (int(fields[11]) + int(fields[12])) / TICKS
            yield (pid, fields[19]), crate, kind_of(words, os.readlink(f"/proc/{pid}/cwd")), seconds
        except (OSError, ValueError, IndexError):
            continue


def run(log, words):
    """Runs the gate with these words and writes its log."""
    seen = {}
    ended = threading.Event()

    def sample():
        while not ended.wait(0.25):
            for process, crate, kind, seconds in checks(gate.pid):
                seen[process] = (crate, kind, seconds)

    sampler = threading.Thread(target=sample)
    began = time.monotonic()
    with open(log, "w", encoding="utf-8") as file:
        gate = subprocess.Popen(["rt", "ci", *words], stdout=file, stderr=subprocess.STDOUT)
        sampler.start()
        signal.signal(signal.SIGTERM, lambda *_: gate.terminate())
        status = gate.wait()
        ended.set()
        sampler.join()
        file.seek(0, os.SEEK_END)
        for crate, kind, seconds in seen.values():
            file.write(f"{MARK} {crate} {kind} {seconds:.2f}\n")
        file.write(f"{MARK} wall {time.monotonic() - began:.0f}\n")
    return status


def read(log):
    """The seconds of each crate by kind, the wall time of the run, and its closing line."""
    times, wall, last = {}, 0, ""
    with open(log, encoding="utf-8", errors="replace") as file:
        for line in file:
            words = line.split()
            if words[:2] == [MARK, "wall"]:
                wall = float(words[2])
            elif words[:1] == [MARK]:
                of_crate = times.setdefault(words[1], dict.fromkeys(KINDS, 0.0))
                of_crate[words[2]] += float(words[3])
            elif " passed, " in line:
                last = line.strip()
    return times, wall, last


def read_all(logs):
    """The same of several runs: the longest time of each kind, all wall times, and the last closing line."""
    times, wall, last = {}, 0, ""
    for log in logs:
        more, seconds, said = read(log)
        wall, last = wall + seconds, said or last
        for crate, of_crate in more.items():
            before = times.setdefault(crate, dict.fromkeys(KINDS, 0.0))
            for kind in KINDS:
                before[kind] = max(before[kind], of_crate[kind])
    return times, wall, last


def below():
    """The crates of the repository, each with those that it uses."""
    uses = {}
    with open("crates.txt", encoding="utf-8") as file:
        for line in file:
            name, colon, used = line.split("#")[0].partition(":")
            if colon:
                uses[name.split()[0]] = used.split()
    return uses


def longest_chain(times):
    """The chain of crates whose proofs take longest one after another, and its seconds."""
    uses, best = below(), {}

    def chain(crate):
        if crate not in best:
            under = [chain(it) for it in uses[crate] if it in uses]
            seconds, crates = max(under, default=(0.0, []), key=lambda it: it[0])
            own = times.get(crate, dict.fromkeys(KINDS, 0.0))
            best[crate] = (seconds + own["library"] + own["program"], [*crates, crate])
        return best[crate]

    return max((chain(it) for it in uses), key=lambda it: it[0])


def table(logs):
    """Prints what runs cost."""
    times, wall, last = read_all(logs)
    print("| crate | " + " | ".join(KINDS) + " | together |")
    print("|---" * (len(KINDS) + 2) + "|")
    rows = sorted(times.items(), key=lambda it: -sum(it[1].values()))
    for crate, of_crate in rows:
        cells = [f"{of_crate[kind] / 60:.1f}" if of_crate[kind] else "" for kind in KINDS]
        print(f"| {crate} | " + " | ".join(cells) + f" | {sum(of_crate.values()) / 60:.1f} |")
    sums = [sum(of_crate[kind] for _, of_crate in rows) / 60 for kind in KINDS]
    print("| **all** | " + " | ".join(f"{it:.0f}" for it in sums) + f" | {sum(sums):.0f} |")
    seconds, crates = longest_chain(times)
    print(f"\nLongest chain: {seconds / 60:.0f} minutes, {' '.join(crates)}.")
    print(f"Wall time: {wall / 60:.0f} minutes. {last}")


def main():
    os.chdir(os.path.join(os.path.dirname(os.path.abspath(__file__)), ".."))
    words = sys.argv[1:]
    if words[:1] == ["run"] and len(words) > 1:
        return run(words[1], words[2:])
    if words and words[0] != "run":
        table(words)
        return 0
    print(__doc__.strip(), file=sys.stderr)
    return 2


if __name__ == "__main__":
    sys.exit(main())
