"""A small node that tests ask: a UDP server on a thread, with a store of its own."""

import socket
import struct
import threading
import time
import unittest

from crsm import Client

FAST = {"timeout": 20.0, "node_timeout": 0.25, "resend": 0.1}


class Store:
    """Keys, and of each client the last command's number and answer, as the replicas of a cluster agree on them."""

    def __init__(self):
        self.rows, self.clients, self.done, self.room = {}, {}, 0, 3

    def apply(self, client, number, op):
        last, answer = self.clients.get(client, (-1, b""))
        if number < last:
            return b"\x05" + struct.pack(">Q", last)
        if number > last:
            answer = self.change(op)
            self.done += 1
            self.clients[client] = (number, answer)
        return answer

    def change(self, op):
        kind, size = op[0], op[1]
        key, rest = op[2 : 2 + size], op[2 + size :]
        had = self.rows.get(key)
        if kind == 1:
            return b"\x02" if had is None else b"\x01" + spelt(had)
        if kind == 3:
            return b"\x02" if self.rows.pop(key, None) is None else b"\x03"
        if kind == 2:
            return self.set(key, rest[2:])
        expected, rest = optional(rest)
        new, _ = optional(rest)
        if had != expected:
            return b"\x04" + (b"\0" if had is None else b"\1" + spelt(had))
        return self.set(key, new)

    def set(self, key, value):
        if value is None:
            self.rows.pop(key, None)
            return b"\x03"
        if key not in self.rows and len(self.rows) == self.room:
            return b"\x06"
        self.rows[key] = value
        return b"\x03"


def spelt(value):
    return struct.pack(">H", len(value)) + value


def optional(data):
    if data[0] == 0:
        return None, data[1:]
    size = int.from_bytes(data[1:3], "big")
    return data[3 : 3 + size], data[3 + size :]


class Node(threading.Thread):
    """A node that loses `deaf` requests, then refuses with these codes, and then keeps `mute` replies to itself."""

    def __init__(self, store, cluster=0, deaf=0, mute=0, refuse=(), before=()):
        super().__init__(daemon=True)
        self.store, self.deaf, self.mute = store, deaf, mute
        self.mark = b"" if cluster == 0 else b"\x10" + struct.pack(">Q", cluster)
        self.refuse, self.before = list(refuse), list(before)
        self.taken, self.times = [], []
        self.socket = socket.socket(socket.AF_INET, socket.SOCK_DGRAM)
        self.socket.bind(("127.0.0.1", 0))
        self.address = self.socket.getsockname()
        self.start()

    def run(self):
        while True:
            data, source = self.socket.recvfrom(9000)
            if data == b"stop":
                self.socket.close()
                return
            self.take(data, source)

    def take(self, data, source):
        self.taken.append(data)
        self.times.append(time.monotonic())
        if not data.startswith(self.mark) or data[len(self.mark)] != 4:
            return
        if self.deaf:
            self.deaf -= 1
            return
        bare = data[len(self.mark) :]
        client, number = struct.unpack(">QQ", bare[1:17])
        head = b"\x05" + bare[1:17]
        if self.refuse:
            self.socket.sendto(self.mark + head + bytes([self.refuse.pop(0)]), source)
            return
        answer = self.store.apply(client, number, bare[17:])
        if self.mute:
            self.mute -= 1
            return
        for wrong in self.before:
            self.socket.sendto(wrong(self.mark, head, answer), source)
        self.socket.sendto(self.mark + head + b"\0" + answer, source)
        self.socket.sendto(self.mark + head + b"\0" + answer, source)

    def stop(self):
        self.socket.sendto(b"stop", self.address)
        self.join()


def lock_value(state, fence, owner):
    return struct.pack(">BQQ", state, fence, owner)


class ClusterTest(unittest.TestCase):
    def setUp(self):
        self.store = Store()

    def node(self, **how):
        node = Node(self.store, **how)
        self.addCleanup(node.stop)
        return node

    def client(self, *nodes, **how):
        addresses = [node.address if isinstance(node, Node) else node.getsockname() for node in nodes]
        client = Client(addresses, **{**FAST, **how})
        self.addCleanup(client.close)
        return client

    def dead(self):
        """The socket of a node that never answers."""
        quiet = socket.socket(socket.AF_INET, socket.SOCK_DGRAM)
        quiet.bind(("127.0.0.1", 0))
        quiet.setblocking(False)
        self.addCleanup(quiet.close)
        return quiet
