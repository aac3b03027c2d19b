"""A client of a crsm cluster: a replicated key-value store that is spoken to in UDP datagrams.

    from crsm import Client

    with Client(["10.0.0.1:7000", "10.0.0.2:7000", "10.0.0.3:7000"]) as store:
        store.put("colour", "blue")
        store.get("colour")                       # b"blue"
        store.cas("colour", "blue", "green")      # true: it was blue, and is green now

        with store.lock("leader") as fence:       # waits while another client holds it
            ...                                   # each request to what it guards carries the fence

Every command is done once at most, however often its request had to be sent. `crsm.aio` has the same for asyncio, and
`python3 -m crsm`, or `crsm-client` where the package is installed, is for shells.
"""

from .client import Client, Lock
from .errors import (
    Closed,
    CrsmError,
    InUse,
    LockHeld,
    LockLost,
    NoAnswer,
    NoRoom,
    NotALock,
    NotMembers,
    Refused,
    Stale,
    Unsafe,
)
from .numbers import KeptNumbers, Numbers
from .protocol import Cas

__version__ = "1.0"

__all__ = [
    "Cas",
    "Client",
    "Closed",
    "CrsmError",
    "InUse",
    "KeptNumbers",
    "Lock",
    "LockHeld",
    "LockLost",
    "NoAnswer",
    "NoRoom",
    "NotALock",
    "NotMembers",
    "Numbers",
    "Refused",
    "Stale",
    "Unsafe",
]
