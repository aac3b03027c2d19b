"""The blocking client."""

import socket
import threading
import time
from collections.abc import Generator, Iterable, Sequence
from typing import Self, TypeVar

from .arguments import seconds
from .errors import CrsmError, LockHeld, NoAnswer, NotMembers, Refused
from .exchange import Exchange, Session, Times, why_silent
from .locks import Patience, Terms, given, granted, lock_key
from .numbers import Numbers
from .protocol import (
    DATAGRAM_BYTES,
    Address,
    Answer,
    Bytes,
    Cas,
    Operation,
    cas_of,
    chosen_of,
    delete_of,
    get_of,
    put_of,
)

T = TypeVar("T")

# Members are asked for twice, this many seconds apart.
ASKED_AGAIN = 1.0

# A command that is under way sees within so many seconds that its client was closed.
CLOSE_IS_SEEN = 0.25


class Lock:
    """A lock of the store, as `Client.lock` and `Client.break_lock` make it: held while a `with` statement runs."""

    def __init__(self, client: "Client", key: Bytes, terms: Terms):
        self._client, self._key, self._terms = client, lock_key(key), terms
        self.fence: int | None = None

    def __enter__(self) -> int:
        return self.take()

    def __exit__(self, kind: object, *_: object) -> None:
        try:
            self.give()
        except CrsmError:
            # An error of the statement's own tells more than that the lock could not be given back.
            if kind is None:
                raise

    def take(self) -> int:
        """Takes the lock and returns its fence. Waits while another holds it, and then raises `LockHeld`."""
        if self.fence is not None:
            raise RuntimeError("this lock is taken already")
        patience = Patience(self._terms.wait, time.monotonic())
        while True:
            try:
                self.fence = self._try_to_take()
                return self.fence
            except LockHeld:
                pause = patience.pause(time.monotonic())
                if pause is None:
                    raise
            time.sleep(pause)

    def give(self) -> None:
        """Gives the lock back. Raises `LockLost` if it is no longer held by this grant."""
        if self.fence is None:
            raise RuntimeError("this lock is not taken")
        fence, self.fence = self.fence, None
        try:
            self._client._follow(given(self._key, self._client.client, fence))
        finally:
            self._client._let_go(self._key)

    def _try_to_take(self) -> int:
        """Returns the fence of a grant to this client, which no other thread of it may have."""
        self._client._claim(self._key)
        try:
            fence = self._client._follow(granted(self._key, self._client.client, self._terms))
        except BaseException:
            self._client._let_go(self._key)
            raise
        self._client._claim_by(self._key, fence)
        return fence


class Client:
    """A client of the cluster whose nodes have these addresses, the i-th that of replica i.

    nodes        addresses of IPv4, each as "HOST:PORT" or as (host, port)
    cluster      the cluster's number, if several share the network
    client       the client's number, which must be this client's alone, or `KeptNumbers`; by default a random one
    timeout      how many seconds a command may take, 0 or None for no end
    node_timeout how many seconds a node is asked before the next one is
    resend       after how many seconds a request is sent again, at least 0.1

    A command is sent to one node, again and again, then to the next, with one number: so it is done once at most. One
    command is under way at a time; threads may share a client.
    """

    def __init__(
        self,
        nodes: Sequence[str | Address],
        *,
        cluster: int = 0,
        client: int | Numbers | None = None,
        timeout: float | None = 10.0,
        node_timeout: float = 1.0,
        resend: float = 0.25,
    ):
        self._session = Session(nodes, cluster, client, Times(timeout, node_timeout, resend))
        self._lock = threading.Lock()
        self._claimed: dict[bytes, int] = {}
        self._claims = threading.Condition()
        self._socket = socket.socket(socket.AF_INET, socket.SOCK_DGRAM)

    @property
    def client(self) -> int:
        """The client's number."""
        return self._session.numbers.client

    @property
    def numbers(self) -> Numbers:
        """The client's number and that of its last command."""
        return self._session.numbers

    def close(self) -> None:
        """Closes the client: commands raise `Closed` from now on, and so does one that is under way."""
        self._session.is_closed = True
        if self._lock.acquire(blocking=False):
            self._release()

    def __enter__(self) -> Self:
        return self

    def __exit__(self, *_: object) -> None:
        self.close()

    # ---- commands

    def get(self, key: Bytes) -> bytes | None:
        """Returns the value of the key, or None."""
        return self._ask(get_of(key)).value

    def get_text(self, key: Bytes) -> str | None:
        """Returns the value of the key as text, or None."""
        value = self.get(key)
        return None if value is None else value.decode()

    def put(self, key: Bytes, value: Bytes) -> None:
        """Sets the key to the value."""
        self._ask(put_of(key, value))

    def delete(self, key: Bytes) -> bool:
        """Removes the key, and returns whether it was there."""
        return self._ask(delete_of(key)).is_done

    def cas(self, key: Bytes, expected: Bytes | None, new: Bytes | None) -> Cas:
        """Compares and sets: where the key has the expected value, it gets the new one. None stands for no value."""
        answer = self._ask(cas_of(key, expected, new))
        return Cas(answer.is_done, answer.value)

    def reconfigure(
        self, members: Iterable[int], *, via: int | None = None, sure: bool = False, timeout: float = 20.0
    ) -> None:
        """Changes the cluster's members to these numbers: asks for them by `request_members`, asks again a second
        later, and then gets a key at each of them until it answers.

        Raises `NotMembers` where one of them has not answered within `timeout` seconds. Members without an address here
        are not asked. Takes a second at least, and holds up the commands of other threads.
        """
        chosen = chosen_of(members)
        seconds("timeout", timeout)
        self.request_members(chosen, via=via, sure=sure)
        time.sleep(ASKED_AGAIN)
        self.request_members(chosen, via=via, sure=sure)
        until = time.monotonic() + timeout
        here = [number for number in chosen if number < len(self._session.nodes)]
        told = {number: self._why_silent(number, until) for number in here}
        seen = {number: why for number, why in told.items() if why is not None}
        if seen:
            raise NotMembers(seen)

    def look(self, timeout: float = 1.0) -> dict[int, str | None]:
        """Gets a key at each node alone, for `timeout` seconds at most, and returns why each has not answered, in
        words, or None where it has: that one takes part in the cluster."""
        seconds("timeout", timeout)
        nodes = range(len(self._session.nodes))
        return {number: self._why_silent(number, time.monotonic() + timeout) for number in nodes}

    def request_members(self, members: Iterable[int], *, via: int | None = None, sure: bool = False) -> None:
        """Asks the replica `via`, by default the first of the members that has an address here, to change the cluster's
        members to these numbers. Nothing confirms it: one datagram is sent, which may be lost and has no reply.

        Raises `Unsafe` for members that are no majority of the nodes of this client, unless the caller is `sure`: the
        cluster could lose what it holds.
        """
        datagram, address = self._session.members_request(members, via, sure)
        self._socket.sendto(datagram, address)

    # ---- locks

    def lock(self, key: Bytes, *, wait: float | None = None) -> Lock:
        """Returns the lock at the key, for a `with` statement, whose value is the fence of the grant.

        It is taken when the statement begins, at the latest after `wait` seconds, and else `LockHeld` is raised; by
        default the client waits as long as it takes. It is given back when the statement ends.
        """
        return Lock(self, key, Terms(wait=wait))

    def break_lock(self, key: Bytes, *, fence: int | None = None) -> Lock:
        """Returns the same lock, which is taken from whoever holds it, by a new grant. With `fence` only from the
        holder by that grant. Where nobody holds it, it is taken as by `lock`; where this client does, its grant stays.

        The holder is not asked, and may still act on what the lock guards: that is what fences are for.
        """
        return Lock(self, key, Terms(breaks=True, broken_fence=fence, wait=0.0))

    def _claim(self, key: bytes) -> None:
        """Keeps the lock at the key from other threads of this client: the store knows the client alone."""
        with self._claims:
            # A thread that asks for the lock now has the claim, without a fence.
            while self._claimed.get(key) == 0:
                self._claims.wait()
            if key in self._claimed:
                raise LockHeld(self.client, self._claimed[key])
            self._claimed[key] = 0

    def _claim_by(self, key: bytes, fence: int) -> None:
        """Notes the fence of the claim, once it is granted."""
        with self._claims:
            self._claimed[key] = fence
            self._claims.notify_all()

    def _let_go(self, key: bytes) -> None:
        """Ends the claim."""
        with self._claims:
            self._claimed.pop(key, None)
            self._claims.notify_all()

    # ---- one command

    def _follow(self, steps: Generator[Operation, Answer, T]) -> T:
        """Has the operations done that these steps yield, and returns what they come to."""
        try:
            operation = next(steps)
            while True:
                operation = steps.send(self._ask(operation))
        except StopIteration as end:
            return end.value

    def _ask(self, operation: Operation) -> Answer:
        """Has the operation done, and returns what the store said."""
        self._lock.acquire()
        try:
            exchange = self._session.begin(operation, time.monotonic())
            return self._session.checked(operation, self._run(exchange))
        finally:
            self._release()

    def _why_silent(self, node: int, until: float) -> str | None:
        """Gets a key at this node alone until it answers or this time has come. Returns why it has not, or None."""
        self._lock.acquire()
        try:
            exchange = self._session.probe(node, until, time.monotonic())
            self._run(exchange)
        except (NoAnswer, Refused):
            return why_silent(exchange)
        finally:
            self._release()
        return None

    def _release(self) -> None:
        """Lets the next command go on, or closes what a closed client has."""
        if self._session.is_closed:
            self._socket.close()
            self._session.numbers.close()
        self._lock.release()

    def _run(self, exchange: Exchange) -> Answer:
        """Sends the request until a node answers it."""
        while True:
            self._session.check_open()
            now = time.monotonic()
            if exchange.is_over(now):
                raise exchange.failure()
            address = exchange.address_due(now)
            if address is not None and self._send(exchange.datagram, address):
                exchange.was_sent()
            answer = self._receive(exchange)
            if answer is not None:
                return answer

    def _send(self, datagram: bytes, address: Address) -> bool:
        """Sends a datagram, and returns whether it went out: the system may have no way to the node."""
        try:
            self._socket.sendto(datagram, address)
        except OSError:
            return False
        return True

    def _receive(self, exchange: Exchange) -> Answer | None:
        """Waits for one datagram, at most until the next copy is due. Returns the answer where it has one."""
        left = exchange.wakes_at() - time.monotonic()
        if left <= 0:
            return None
        self._socket.settimeout(min(left, CLOSE_IS_SEEN))
        try:
            data, source = self._socket.recvfrom(DATAGRAM_BYTES + len(self._session.mark))
        except (TimeoutError, ConnectionError):
            return None
        return exchange.take(data, source, time.monotonic())
