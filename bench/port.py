"""A UDP socket as a node receives on it: how soon a datagram is taken, and what waiting costs.

A datagram's way there and back is timed against that of a socket that this script waits on itself, so that the
difference is the program's. Waits are elapsed times, so nothing else should run beside this.
"""

import os
import resource
import socket
import statistics
import subprocess
import threading
import time

from timing import program

ROUNDS = 2_000
RECEIVES = 2_000
ROOM = 8_192


def start(work, receives):
    """Starts the program on this work: the process, and the number of its socket."""
    command = [program("crsm_test_bench"), work, str(ROOM), str(receives)]
    process = subprocess.Popen(command, stdout=subprocess.PIPE, text=True)
    return process, int(process.stdout.readline())


def round_trips(number):
    """The elapsed seconds of datagrams there and back, one after another, each after a pause of a few milliseconds."""
    times = []
    with socket.socket(socket.AF_INET, socket.SOCK_DGRAM) as end:
        end.settimeout(1)
        end.connect(("127.0.0.1", number))
        for count in range(ROUNDS):
            time.sleep(0.002 + 0.0001 * (count % 17))
            began = time.perf_counter()
            end.send(b"there and back")
            end.recv(64)
            times.append(time.perf_counter() - began)
    return times


def echo_here(ready, numbers):
    """Sends datagrams back, as the program does, from a thread of this script."""
    with socket.socket(socket.AF_INET, socket.SOCK_DGRAM) as end:
        end.bind(("127.0.0.1", 0))
        numbers.append(end.getsockname()[1])
        ready.set()
        for _ in range(ROUNDS):
            data, sender = end.recvfrom(64)
            end.sendto(data, sender)


def round_trips_here():
    """The same times where the other end is a thread of this script."""
    ready, numbers = threading.Event(), []
    threading.Thread(target=echo_here, args=(ready, numbers), daemon=True).start()
    ready.wait()
    return round_trips(numbers[0])


def microseconds(times):
    """The middle one of some times, and the one that a hundredth is above."""
    ordered = sorted(times)
    return f"{statistics.median(ordered) * 1e6:.0f} us, one of a hundred above {ordered[len(ordered) * 99 // 100] * 1e6:.0f}"


def waits(work):
    """The elapsed and the processor time of an empty receive, in seconds."""
    before = resource.getrusage(resource.RUSAGE_CHILDREN)
    began = time.perf_counter()
    process, _ = start(work, RECEIVES)
    process.stdout.read()
    elapsed = time.perf_counter() - began
    process.wait()
    after = resource.getrusage(resource.RUSAGE_CHILDREN)
    used = after.ru_utime + after.ru_stime - before.ru_utime - before.ru_stime
    return elapsed / RECEIVES, used / RECEIVES


def main():
    process, number = start("echo", 1_000_000)
    there = round_trips(number)
    process.kill()
    process.wait()
    here = round_trips_here()
    print(f"there and back by the program: {microseconds(there)}; by a thread of this script: {microseconds(here)}")
    for work in ["empty", "hurried"]:
        elapsed, used = waits(work)
        print(f"{work}: {elapsed * 1e6:.1f} us a receive, {used * 1e6:.1f} us of processor")
    print(f"processors: {os.cpu_count()}")


if __name__ == "__main__":
    main()
