"""A bound store that a script plays: what docs/SERVICE.md says of bound data, kept in a file `bound.log` of docs/FORMATS.md.

Each answer is given after the file has it, and where it is asked for after the disk has it. A store that is opened again knows what its
file has, and nothing else.
"""
import os

import wire

BIND, KEEP, DROP = 1, 2, 3


def put(key, value):
    return b"\x01" + bytes([len(key)]) + key + wire.octets(value)


def read_put(data):
    """The key and value of a body that is exactly one put."""
    size = data[1]
    length = data[2 + size] << 8 | data[3 + size]
    if data[0] != 1 or 4 + size + length != len(data):
        raise ValueError(data.hex())
    return data[2:2 + size], data[4 + size:]


class Store:
    def __init__(self, path, forced=False):
        self.path, self.forced = path, forced
        if not os.path.exists(path):
            with open(path, "wb") as new:
                new.write(wire.FRESH_STORE)
        self.kept = set()
        self.open()

    def open(self):
        with open(self.path, "rb") as file:
            log = file.read()
        places, self.gate = wire.gates_of(log)
        self.file = os.open(self.path, os.O_RDWR)
        self.content, self.undecided, self.current = {}, None, None
        self.kept.clear()
        for place in places:
            body = wire.body_at(log, place)
            end = wire.end_of_identifier(body, 1)
            tree, rest = bytes(body[1:end]), body[end:]
            if body[0] == BIND:
                self.undecided = (tree, self.read_writes(rest))
            elif body[0] == KEEP:
                self.keep()
            else:
                self.undecided = None

    def crash(self):
        """What was in memory is gone, and the file is read anew."""
        os.close(self.file)
        self.open()

    @staticmethod
    def read_writes(rest):
        writes, at = [], 2
        while at < len(rest):
            size = rest[at + 1]
            length = rest[at + 2 + size] << 8 | rest[at + 3 + size]
            end = at + 4 + size + length
            writes.append(bytes(rest[at:end]))
            at = end
        return writes

    def append(self, body):
        self.write(wire.frame(body) + b"\x00", self.gate + 1)
        self.write(b"\x01", self.gate)
        self.gate += 3 + len(body)

    def write(self, piece, at):
        os.pwrite(self.file, piece, at)
        if self.forced:
            os.fdatasync(self.file)

    def keep(self):
        tree, writes = self.undecided
        for write in writes:
            key, value = read_put(write)
            self.content[key] = value
        self.kept.add(tree)
        self.undecided = None

    # What the node is told.

    def begin(self, tree):
        if self.undecided is not None:
            self.append(bytes([DROP]) + self.undecided[0])
            self.undecided = None
        self.current = (tree, [])

    def data(self, write):
        if self.current is not None:
            self.current[1].append(write)

    def prepare(self):
        """True where the store votes for commitment."""
        if self.current is None:
            return False
        tree, writes = self.current
        self.append(bytes([BIND]) + tree + wire.short(len(writes)) + b"".join(writes))
        self.undecided, self.current = self.current, None
        return True

    def commit(self):
        if self.undecided is not None:
            self.append(bytes([KEEP]) + self.undecided[0])
            self.keep()

    def rollback(self):
        if self.undecided is not None:
            self.append(bytes([DROP]) + self.undecided[0])
            self.undecided = None
        self.current = None
