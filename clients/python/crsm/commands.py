"""Commands for a shell: `python3 -m crsm COMMAND ..`, or `crsm-client COMMAND ..` where the package is installed."""

import argparse
import contextlib
import os
import signal
import subprocess
import sys
from collections.abc import Callable, Iterator, Sequence
from enum import IntEnum
from pathlib import Path
from types import FrameType
from typing import TYPE_CHECKING, Any

from . import __version__
from .client import Client, Lock
from .errors import CrsmError, InUse, LockLost, NoAnswer, NotMembers, Refused
from .exchange import doubts
from .locks import Terms
from .numbers import KeptNumbers

if TYPE_CHECKING:
    from .aio import AsyncClient

# (as whoever has started it knows it)
PROGRAM = "crsm-client" if os.path.basename(sys.argv[0]) == "crsm-client" else "python3 -m crsm"

EXAMPLES = f"""
  export CRSM_NODES=10.0.0.1:7000,10.0.0.2:7000,10.0.0.3:7000
  {PROGRAM} put colour blue
  {PROGRAM} get colour
  {PROGRAM} cas colour --from blue --to green
  {PROGRAM} delete colour
  {PROGRAM} lock nightly --wait 60 -- ./report.sh

COMMAND --help says more. The options above stand before the command or behind it. The status is 0 where the command was
done, 1 where the store says no (the key is missing, its value differs, the lock is held, the store is full), 2 for
wrong words, 5 for a failed output, 6 where no socket can be opened or a node's name has no address, 7 where the
client's number cannot be kept, and 9 where no node answered or each one refused. `lock` ends with the status of its
command, and with 126 or 127 where that cannot be run.
"""


class Status(IntEnum):
    """What a command ends with: as the program's own statuses, and 1 where the store says no."""

    OK = 0
    NO = 1
    USAGE = 2
    WRITE_FAULT = 5
    PORT_FAULT = 6
    DISK_FAULT = 7
    NO_ANSWER = 9
    CANNOT_RUN = 126
    NO_SUCH_PROGRAM = 127


class Failed(Exception):
    """Why a command ends here, in words, and the status."""

    def __init__(self, status: Status, why: str):
        super().__init__(why)
        self.status = status


# ---- words


def read_words(words: Sequence[str]) -> argparse.Namespace:
    """Reads the words of a command line. What stands behind `--` in `lock` is a command of its own."""
    words, inner = list(words), []
    if _command_of(words) == "lock" and "--" in words:
        at = words.index("--")
        words, inner = words[:at], words[at + 1 :]
    reader = _reader()
    read = reader.parse_args(words)
    if read.run is lock and not inner:
        reader.error("lock: the command to run stands behind --, as in: lock KEY -- COMMAND ARGUMENT")
    if not read.nodes:
        reader.error("no nodes: give --nodes A:PORT,B:PORT,.. or set CRSM_NODES")
    read.inner = inner
    return read


def _command_of(words: Sequence[str]) -> str | None:
    """Returns the first word behind the options that stand before the command."""
    reader = argparse.ArgumentParser(add_help=False, exit_on_error=False)
    _add_common(reader, with_defaults=False)
    reader.add_argument("rest", nargs=argparse.REMAINDER)
    try:
        rest = reader.parse_known_args(words)[0].rest
    except argparse.ArgumentError:
        # (the reader of all words says so)
        return None
    return rest[0] if rest else None


def _reader() -> argparse.ArgumentParser:
    layout = argparse.RawDescriptionHelpFormatter
    reader = argparse.ArgumentParser(PROGRAM, description=__doc__, epilog=EXAMPLES, formatter_class=layout)
    reader.add_argument("--version", action="version", version=f"crsm-client {__version__}")
    _add_common(reader, with_defaults=True)
    commands = reader.add_subparsers(metavar="COMMAND", required=True)

    def add(run: Callable[[argparse.Namespace], int], text: str) -> argparse.ArgumentParser:
        made = commands.add_parser(run.__name__, help=text, description=f"{text[0].upper()}{text[1:]}.")
        made.set_defaults(run=run)
        # (what stands before the command holds where nothing stands behind it)
        _add_common(made, with_defaults=False)
        return made

    add(get, "writes the value of a key").add_argument("key")
    _add_put(add(put, "sets a key to a value"))
    add(delete, "removes a key").add_argument("key")
    _add_cas(add(cas, "sets a key where it has an expected value"))
    _add_lock(add(lock, "holds a lock while a command runs, whose environment has the fence as CRSM_FENCE"))
    _add_load(add(load, "puts the keys of a dump into the cluster, and compares: crsm dump ME N < LOG | .. load"))
    _add_operate(add(operate, "asks for these members, twice, and waits until each of them answers"))
    _add_bench(add(bench, "measures commands a second; it puts keys bench-0, bench-1, .. and deletes them"))
    return reader


def _add_common(to: argparse.ArgumentParser, *, with_defaults: bool) -> None:
    """Adds the options of all commands. Without their defaults, one that is not given is not there."""

    def add(name: str, default: object, text: str, **how: Any) -> None:
        to.add_argument(name, default=default if with_defaults else argparse.SUPPRESS, help=text, **how)

    text = "the nodes, that of replica i at place i (CRSM_NODES)"
    add("--nodes", os.environ.get("CRSM_NODES", ""), text, metavar="A:PORT,..")
    text = "the number of the cluster (CRSM_CLUSTER)"
    add("--cluster", os.environ.get("CRSM_CLUSTER", "0"), text, metavar="C", type=int)
    add("--timeout", 10.0, "seconds for a command, 0 for no end; 10", metavar="S", type=float)
    text = "the folder with the numbers of clients; $XDG_STATE_HOME/crsm, or ~/.local/state/crsm"
    add("--state", _state_folder(), text, metavar="FOLDER", type=Path)
    add("--hex", False, "keys and values are hexadecimal", action="store_true")


def _add_put(to: argparse.ArgumentParser) -> None:
    to.add_argument("key")
    to.add_argument("value", nargs="?", help="by default what standard input has, to its last byte")


def _add_cas(to: argparse.ArgumentParser) -> None:
    to.add_argument("key")
    expected = to.add_mutually_exclusive_group(required=True)
    expected.add_argument("--from", dest="expected", metavar="VALUE", help="where it has this value")
    expected.add_argument("--if-missing", dest="expected", action="store_const", const=None, help="where it is missing")
    new = to.add_mutually_exclusive_group(required=True)
    new.add_argument("--to", dest="new", metavar="VALUE", help="sets it to this value")
    new.add_argument("--remove", dest="new", action="store_const", const=None, help="removes it")


def _add_lock(to: argparse.ArgumentParser) -> None:
    to.usage = f"{PROGRAM} lock [OPTIONS] KEY -- COMMAND [ARGUMENT ..]"
    to.add_argument("key")
    to.add_argument("--wait", metavar="S", type=float, help="seconds to wait while another holds it; no end by default")
    text = "takes it from the holder who has this fence, and is known to be gone"
    to.add_argument("--break", dest="fence", metavar="FENCE", type=int, help=text)


def _add_load(to: argparse.ArgumentParser) -> None:
    to.add_argument("--clients", metavar="N", type=int, default=8, help="clients at a time; 8")
    to.add_argument("--replace", action="store_true", help="keys that have another value get the dump's, too")


def _add_operate(to: argparse.ArgumentParser) -> None:
    to.add_argument("members", help="the numbers of the nodes that are to take part, as 0,1,3")
    text = "the node that is asked; by default the first that takes part"
    to.add_argument("--via", metavar="NODE", type=int, help=text)
    to.add_argument("--sure", action="store_true", help="where some of them do not answer, or no majority stays")


def _add_bench(to: argparse.ArgumentParser) -> None:
    to.add_argument("--clients", metavar="N", type=int, default=16, help="clients at a time; 16")
    to.add_argument("--seconds", metavar="S", type=float, default=5.0, help="5")
    to.add_argument("--size", metavar="BYTES", type=int, default=100, help="of a value; 100")


def _state_folder() -> Path:
    named = os.environ.get("XDG_STATE_HOME", "")
    # (a folder that is not absolute counts as none)
    return (Path(named) if os.path.isabs(named) else Path.home() / ".local/state") / "crsm"


def _data(words: argparse.Namespace, text: str) -> bytes:
    """Returns the bytes of a key or a value of the command line."""
    if not words.hex:
        return os.fsencode(text)
    try:
        return bytes.fromhex(text)
    except ValueError:
        raise Failed(Status.USAGE, f"not hexadecimal: {text}") from None


def _optional(words: argparse.Namespace, text: str | None) -> bytes | None:
    return None if text is None else _data(words, text)


# ---- commands


def get(words: argparse.Namespace) -> int:
    """Writes the value of a key, and a line feed."""
    with _client(words) as store:
        value = store.get(_data(words, words.key))
    if value is None:
        raise Failed(Status.NO, "the key is missing")
    _show(words, value)
    return Status.OK


def put(words: argparse.Namespace) -> int:
    """Sets a key."""
    value = _input(words) if words.value is None else _data(words, words.value)
    with _client(words) as store:
        store.put(_data(words, words.key), value)
    return Status.OK


def delete(words: argparse.Namespace) -> int:
    """Removes a key."""
    with _client(words) as store:
        if not store.delete(_data(words, words.key)):
            raise Failed(Status.NO, "the key is missing")
    return Status.OK


def cas(words: argparse.Namespace) -> int:
    """Compares and sets a key. Where it differs, what was found is written."""
    expected, new = _optional(words, words.expected), _optional(words, words.new)
    with _client(words) as store:
        swap = store.cas(_data(words, words.key), expected, new)
    if swap:
        return Status.OK
    if swap.found is None:
        raise Failed(Status.NO, "the key is missing")
    _show(words, swap.found)
    raise Failed(Status.NO, "the value differs")


def lock(words: argparse.Namespace) -> int:
    """Holds a lock while a command runs, and returns the command's status."""
    is_break = words.fence is not None
    terms = Terms(breaks=is_break, broken_fence=words.fence, wait=0.0 if is_break else words.wait, renews=True)
    for number in (signal.SIGTERM, signal.SIGHUP):
        signal.signal(number, _end)
    with _numbers(words) as numbers, _client(words, numbers) as store:
        held = Lock(store, _data(words, words.key), terms)
        fence = held.take()
        try:
            status = _run(words.inner, fence, numbers.descriptor)
        except BaseException:
            _give(held)
            raise
        given = _give(held)
        return status or given


def load(words: argparse.Namespace) -> int:
    """Puts the keys of a dump that standard input has, compares, and writes what that came to."""
    if words.clients < 1:
        raise Failed(Status.USAGE, "load: one client at least")
    # (not at the head of the file: the other commands start in half the time without asyncio)
    from .load import keys_of, put_all

    keys = keys_of(sys.stdin.buffer)
    with _clients(words, words.clients) as stores:
        loaded = put_all(stores, keys, replaces=words.replace)
    _write(f"{loaded}\n".encode())
    for key in loaded.differing:
        _say(Status.NO, f"another value: {key.hex()}")
    return Status.NO if loaded.differing else Status.OK


def operate(words: argparse.Namespace) -> int:
    """Changes the members, after a look at the nodes."""
    try:
        members = [int(word) for word in words.members.split(",")]
    except ValueError:
        raise Failed(Status.USAGE, f"not numbers: {words.members}") from None
    with _client(words) as store:
        seen = store.look()
        why = doubts(members, seen)
        if why and not words.sure:
            raise Failed(Status.USAGE, f"{'; '.join(why)} (--sure asks all the same)")
        via = next((node for node, reason in seen.items() if reason is None), None) if words.via is None else words.via
        store.reconfigure(members, via=via, sure=True, timeout=2 * words.timeout or 3600.0)
    return Status.OK


def bench(words: argparse.Namespace) -> int:
    """Puts values by several clients at a time, each one command after another, and writes what that took."""
    if words.clients < 1 or words.seconds <= 0:
        raise Failed(Status.USAGE, "bench: one client and some time at least")
    # (not at the head of the file: the other commands start in half the time without asyncio)
    from .bench import measure

    with _clients(words, words.clients) as stores:
        figures = measure(stores, words.seconds, words.size)
    if figures is None:
        raise Failed(Status.NO_ANSWER, f"no answer in {words.seconds:g} seconds")
    _write(f"{figures}\n".encode())
    return Status.OK


# ---- what commands share


@contextlib.contextmanager
def _numbers(words: argparse.Namespace) -> Iterator[KeptNumbers]:
    """Takes the numbers of a client that no other process has."""
    try:
        numbers = KeptNumbers.first_free(words.state)
    except (OSError, InUse) as error:
        raise Failed(Status.DISK_FAULT, f"the client's number cannot be kept: {error}") from None
    try:
        yield numbers
    finally:
        numbers.close()


@contextlib.contextmanager
def _client(words: argparse.Namespace, numbers: KeptNumbers | None = None) -> Iterator[Client]:
    """Makes a client with these numbers, or with those of a file that no other process has."""
    with contextlib.ExitStack() as files:
        kept = numbers or files.enter_context(_numbers(words))
        with _sockets():
            made = Client(words.nodes.split(","), cluster=words.cluster, client=kept, timeout=words.timeout)
        yield files.enter_context(made)


@contextlib.contextmanager
def _clients(words: argparse.Namespace, count: int) -> Iterator[list["AsyncClient"]]:
    """Makes so many clients for asyncio, each with a file that no other process has, and each beginning at another
    node. The files are theirs until the end: a number that is let go between two commands may be another's by then."""
    from .aio import AsyncClient

    nodes = words.nodes.split(",")
    with contextlib.ExitStack() as opened:
        made = []
        for at in range(count):
            kept = opened.enter_context(_numbers(words))
            turned = nodes[at % len(nodes) :] + nodes[: at % len(nodes)]
            with _sockets():
                made.append(AsyncClient(turned, cluster=words.cluster, client=kept, timeout=words.timeout))
            opened.callback(made[-1].close)
        yield made


@contextlib.contextmanager
def _sockets() -> Iterator[None]:
    """Says where a client has no socket, or a node's name no address."""
    try:
        yield
    except OSError as error:
        raise Failed(Status.PORT_FAULT, f"no socket, or no such host: {error}") from None


def _input(words: argparse.Namespace) -> bytes:
    """Reads a value from standard input; a hexadecimal one may end with a line feed."""
    data = sys.stdin.buffer.read()
    return _data(words, os.fsdecode(data).strip()) if words.hex else data


def _show(words: argparse.Namespace, value: bytes) -> None:
    """Writes a value and a line feed."""
    _write((value.hex().encode() if words.hex else value) + b"\n")


def _write(data: bytes) -> None:
    try:
        sys.stdout.buffer.write(data)
        sys.stdout.buffer.flush()
    except OSError as error:
        # (what is left of it is not written at the end either)
        os.dup2(os.open(os.devnull, os.O_WRONLY), sys.stdout.fileno())
        raise Failed(Status.WRITE_FAULT, f"the output failed: {error}") from None


def _run(command: list[str], fence: int, descriptor: int) -> int:
    """Runs a command with the fence in its environment, and returns its status as a shell tells it.

    It inherits the file with the client's number: while it or what it started runs, no other process is this client,
    even if this process is killed.
    """
    environment = {**os.environ, "CRSM_FENCE": str(fence)}
    with _passing_signals() as passing:
        try:
            child = subprocess.Popen(command, env=environment, pass_fds=[descriptor])
        except FileNotFoundError:
            raise Failed(Status.NO_SUCH_PROGRAM, f"no such program: {command[0]}") from None
        except OSError as error:
            raise Failed(Status.CANNOT_RUN, f"{command[0]} cannot be run: {error}") from None
        passing.to(child)
        status = child.wait()
    return 128 - status if status < 0 else status


class _Passing:
    """Hands signals on to a child, those too that come before it is there."""

    def __init__(self) -> None:
        self._child: subprocess.Popen[bytes] | None = None
        self._early: list[int] = []

    def hand_on(self, number: int, _: FrameType | None) -> None:
        if self._child is None:
            self._early.append(number)
        else:
            self._child.send_signal(number)

    def to(self, child: subprocess.Popen[bytes]) -> None:
        self._child = child
        for number in self._early:
            child.send_signal(number)


@contextlib.contextmanager
def _passing_signals() -> Iterator[_Passing]:
    """Hands SIGTERM and SIGHUP on to a child, and outlives those that a terminal sends to both."""
    passing = _Passing()

    def leave_to_child(_number: int, _frame: FrameType | None) -> None:
        pass

    handlers = [(signal.SIGTERM, passing.hand_on), (signal.SIGHUP, passing.hand_on)]
    handlers += [(signal.SIGINT, leave_to_child), (signal.SIGQUIT, leave_to_child)]
    before = {number: signal.signal(number, handler) for number, handler in handlers}
    try:
        yield passing
    finally:
        for number, handler in before.items():
            signal.signal(number, handler)


def _give(held: Lock) -> int:
    """Gives a lock back. Says where that fails, and returns the status of it."""
    try:
        held.give()
    except LockLost as error:
        return _say(Status.NO, f"{error}, while the command ran")
    except CrsmError as error:
        return _say(Status.NO_ANSWER, f"the lock may still be held: {error}")
    return Status.OK


def _end(number: int, _: FrameType | None) -> None:
    """Ends this process as the signal would, but for giving back a lock that it holds."""
    sys.exit(128 + number)


def main(arguments: Sequence[str] | None = None) -> int:
    """Runs a command, by default that of this process's words, and returns its status. What went wrong is said on
    standard error."""
    words = read_words(sys.argv[1:] if arguments is None else arguments)
    try:
        return words.run(words)
    except Failed as failed:
        return _say(failed.status, str(failed))
    except (NoAnswer, NotMembers, Refused) as error:
        return _say(Status.NO_ANSWER, str(error))
    except CrsmError as error:
        return _say(Status.NO, str(error))
    except ValueError as error:
        return _say(Status.USAGE, str(error))
    except OSError as error:
        return _say(Status.DISK_FAULT, f"the client's number cannot be kept: {error}")
    except KeyboardInterrupt:
        return 128 + signal.SIGINT


def _say(status: Status, why: str) -> Status:
    print(f"crsm: {why}", file=sys.stderr)
    return status
