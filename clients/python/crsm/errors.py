"""Why a command has no answer of the store, or a lock is not held."""

REFUSALS = {
    1: "the node is not part of the current epoch",
    2: "the node has suspended the epoch",
    3: "the node has as many commands under way as it takes",
    4: "a link of the node is congested",
    5: "the node's clock has no later time",
    6: "the command was dropped when the epoch changed",
}


class CrsmError(Exception):
    """Why a command has no answer of the store."""


class NoAnswer(CrsmError):
    """No node answered in time. The command may have been done, or may still be done."""


class Refused(CrsmError):
    """Every request of the command was refused, so it was not done. The last refusal is `code`, 1 to 6."""

    def __init__(self, code: int):
        super().__init__(REFUSALS[code])
        self.code = code


class Stale(CrsmError):
    """The store has done the command `number` of the same client, which is a later one. This one was not done."""

    def __init__(self, number: int):
        super().__init__(f"the store has done command {number} of this client")
        self.number = number


class NoRoom(CrsmError):
    """The store holds as many keys, or knows as many clients, as it can. The command was not done."""


class Closed(CrsmError):
    """The client is closed, or the file with its numbers. A command that was under way at that time may have been done,
    others were not sent."""


class InUse(CrsmError):
    """Another process has the client's number, by its file or by a fork, and may be that client."""


class Unsafe(CrsmError):
    """The new members are no majority of the nodes, and the caller did not say that it is sure."""


class NotMembers(CrsmError):
    """Some nodes that were asked for as members have not answered a command. `seen` says of each why, in words."""

    def __init__(self, seen: dict[int, str]):
        super().__init__("; ".join(f"node {number}: {why}" for number, why in seen.items()))
        self.seen = seen


class LockHeld(CrsmError):
    """The lock is held by the client `owner`, by the grant whose fence is `fence`."""

    def __init__(self, owner: int, fence: int):
        super().__init__(f"client {owner} holds the lock with fence {fence}")
        self.owner = owner
        self.fence = fence


class LockLost(CrsmError):
    """The lock was taken from this client before it was given back: what it did last may have been done too late."""


class NotALock(CrsmError):
    """The key has a value that is no lock's."""
