"""Frames, bodies and logs, as docs/FORMATS.md gives them: what the trials write and read themselves.

Nothing here comes from the programs that are tried: it is a second hand that wrote the same bytes.
"""
import struct
import typing

FRESH = bytes.fromhex("4f54504c01" "01" "0002" "0702" "00")
FRESH_STORE = bytes.fromhex("4f54504c01" "00")

# Requests and indications that the users of the trials know by name.
BEGIN_DIALOGUE, ACCEPT, REJECT, DATA = 0x01, 0x02, 0x03, 0x05
BEGIN_TRANSACTION, PREPARE, COMMIT, DONE, ROLLBACK, UNCHANGED = 0x0D, 0x10, 0x11, 0x12, 0x13, 0x14

TOLD = {
    0x01: "begin-dialogue", 0x02: "begun-dialogue", 0x03: "rejected", 0x04: "end-dialogue", 0x05: "data",
    0x06: "u-error", 0x07: "u-abort", 0x08: "p-abort", 0x09: "grant-control", 0x0A: "request-control",
    0x0B: "handshake", 0x0C: "handshake-confirm", 0x0D: "handshake-and-grant", 0x0E: "begin-transaction",
    0x0F: "deferred-end", 0x10: "deferred-grant", 0x11: "prepare", 0x12: "ready", 0x13: "commit",
    0x14: "commit-complete", 0x15: "rollback", 0x16: "rollback-complete", 0x17: "heuristic-report", 0x18: "left",
}


def short(n: int) -> bytes:
    return struct.pack(">H", n)


def frame(body: bytes) -> bytes:
    return short(len(body)) + body


def frames_in(stream: typing.Union[bytes, bytearray]) -> typing.Tuple[typing.List[bytes], int]:
    """The bodies of the whole frames of a stream, and how many bytes they take."""
    bodies: typing.List[bytes] = []
    at = 0
    while at + 2 <= len(stream):
        end = at + 2 + (stream[at] << 8 | stream[at + 1])
        if end > len(stream):
            break
        bodies.append(bytes(stream[at + 2:end]))
        at = end
    return bodies, at


def read_frame(file: typing.BinaryIO) -> bytes:
    """The body of the next frame of a file; empty at its end."""
    head = file.read(2)
    return file.read(head[0] << 8 | head[1]) if len(head) == 2 else b""


def text_of_site(name: str) -> bytes:
    return bytes([len(name)]) + name.encode()


def address(name: str, number: int) -> bytes:
    return text_of_site(name) + short(number)


def mark(boot: int, node: int, count: int) -> bytes:
    return struct.pack(">QHQ", boot, node, count)


def declare(number: int, superior: typing.Optional[bytes] = None) -> bytes:
    return b"\x01" + short(number) + (b"\x00" if superior is None else b"\x01" + superior)


def do(number: int, request: int, rest: bytes = b"") -> bytes:
    return b"\x02" + short(number) + bytes([request]) + rest


def arrive(sender: bytes, target: bytes, octets: bytes) -> bytes:
    return b"\x03" + sender + target + short(len(octets)) + octets


def lose(number: int, peer: int) -> bytes:
    return b"\x04" + short(number) + short(peer)


def retry(number: int) -> bytes:
    return b"\x07" + short(number)


def octets(data: bytes) -> bytes:
    return short(len(data)) + data


def read_address(body: bytes, at: int) -> typing.Tuple[bytes, int, int]:
    """The address at this place as its bytes, its node, and the place after it."""
    end = at + 1 + body[at] + 2
    return bytes(body[at:end]), body[end - 2] << 8 | body[end - 1], end


def end_of_identifier(body: bytes, at: int) -> int:
    """The place after an aaid or a branch."""
    return at + 1 + body[at] + 18


def words_of_identifier(text: bytes) -> str:
    name = text[1:1 + text[0]].decode()
    boot, node, count = struct.unpack(">QHQ", text[1 + text[0]:])
    return "%s.%d.%d.%d" % (name, boot, node, count)


def gates_of(log: bytes) -> typing.Tuple[typing.List[int], int]:
    """The places of the open gates of a front text, and the place of the gate that closes it."""
    places: typing.List[int] = []
    at = 5
    while log[at] == 1:
        places.append(at)
        at += 3 + (log[at + 1] << 8 | log[at + 2])
    return places, at


def body_at(log: bytes, gate: int) -> bytes:
    return log[gate + 3:gate + 3 + (log[gate + 1] << 8 | log[gate + 2])]


def block(body: bytes) -> bytes:
    return b"\x01" + frame(body)


def log_of(bodies: typing.Iterable[bytes], wide: bool = True) -> bytes:
    return b"OTPL\x01" + (block(b"\x07\x02") if wide else b"") + b"".join(map(block, bodies)) + b"\x00"


def audit_frames(logs: typing.Iterable[typing.Tuple[str, bytes]]) -> bytes:
    """Frames of audit of (site name, bytes of its log)."""
    out = []
    for name, log in logs:
        out.append(frame(b"\x40" + text_of_site(name)))
        for at in range(0, len(log), 2000):
            piece = log[at:at + 2000]
            out.append(frame(b"\x41" + octets(piece)))
    return b"".join(out)


def place(number: int, name: str, under: typing.Optional[int] = None) -> bytes:
    """A node's place in a recording, under the node of that number where one is given."""
    head = b"\x50" + short(number) if under is None else b"\x51" + short(number) + short(under)
    return frame(head + text_of_site(name))


def starts(name: str) -> bytes:
    """A process of that site starts: the events that it was given come next."""
    return frame(b"\x52" + text_of_site(name))


# Logs, as chapter 6 of docs/FORMATS.md has them, and the lines that `show` writes of them.


class Foreign(Exception):
    """A file is no log, or a record is out of order; the place."""

    def __init__(self, place: int) -> None:
        Exception.__init__(self, "foreign at %d" % place)
        self.place = place


class NoRecord(Exception):
    pass


class Record(typing.NamedTuple):
    """A record, what it has besides where it has it. Its key, superior, and children are their bytes; a Boot has only its number."""

    kind: str
    number: int
    key: bytes = b""
    superior: bytes = b""
    children: typing.Tuple[bytes, ...] = ()
    outcome: str = ""
    report: str = ""

    @property
    def of_root(self) -> bool:
        return self.key[-1:] == b"\0" and end_of_identifier(self.key, 0) == len(self.key) - 1

    def words(self) -> str:
        if self.kind == "boot":
            return "boot %d" % self.number
        middle = end_of_identifier(self.key, 0)
        branch = "-" if self.of_root else words_of_identifier(self.key[middle + 1:])
        words = [self.kind, str(self.number), words_of_identifier(self.key[:middle]), branch, self.outcome, self.report]
        return " ".join(word for word in words if word)


KINDS = {1: "boot", 2: "ready", 3: "heuristic", 4: "commit", 5: "damage", 6: "end"}
OUTCOMES, REPORTS = {1: "commit", 2: "rollback"}, {1: "hazard", 2: "mix"}


class Body:
    """A body that is read from its first byte on."""

    def __init__(self, text: bytes) -> None:
        self.text, self.at = text, 0

    def take(self, size: int) -> bytes:
        piece = self.text[self.at:self.at + size]
        if len(piece) != size:
            raise NoRecord
        self.at += size
        return piece

    def number(self, size: int) -> int:
        return int.from_bytes(self.take(size), "big")

    def among(self, words: typing.Dict[int, str]) -> str:
        code = self.number(1)
        if code not in words:
            raise NoRecord
        return words[code]

    def name(self, more: int) -> bytes:
        """A site and so many bytes more."""
        size = self.number(1)
        name = self.take(size)
        if not 1 <= size <= 16 or any(not (97 <= it <= 122 or 48 <= it <= 57) for it in name):
            raise NoRecord
        return bytes([size]) + name + self.take(more)

    def key(self, may_be_root: bool) -> bytes:
        tree = self.name(18)
        branch = self.number(1)
        if branch > 1 or branch == 0 and not may_be_root:
            raise NoRecord
        return tree + (b"\1" + self.name(18) if branch else b"\0")

    def children(self, wide: bool) -> typing.Tuple[bytes, ...]:
        count = self.number(2 if wide else 1)
        if count > (256 if wide else 32):
            raise NoRecord
        return tuple(self.name(2) + self.name(18) for _ in range(count))


def record_of(text: bytes, wide: bool) -> Record:
    """The record that these bytes are, in a log of version 2 where it is wide."""
    body = Body(text)
    kind = body.among(KINDS)
    if kind == "boot":
        record = Record(kind, body.number(8))
    else:
        number, key = body.number(2), body.key(kind in ("commit", "damage", "end"))
        record = Record(kind, number, key)
        superior = body.name(2) if kind in ("ready", "commit", "damage") and not record.of_root else b""
        outcome = body.among(OUTCOMES) if kind in ("heuristic", "damage", "end") else ""
        report = body.among(REPORTS) if kind == "damage" else ""
        children = body.children(wide) if kind in ("ready", "commit", "damage") else ()
        record = Record(kind, number, key, superior, children, outcome, report)
    if body.at != len(text):
        raise NoRecord
    return record


def text_at(log: bytes, begin: int, end: int) -> typing.Tuple[typing.List[typing.Tuple[int, Record]], int]:
    """The records of the log text in these bytes, each with the place of its gate, and the place after the closing gate."""
    found: typing.List[typing.Tuple[int, Record]] = []
    at, wide = begin, False
    while True:
        if at >= end:
            raise Foreign(at)
        if log[at] != 1:
            return found, at + 1
        size = int.from_bytes(log[at + 1:at + 3], "big")
        body = log[at + 3:at + 3 + size]
        if at + 3 + size > end or size == 0:
            raise Foreign(at)
        if at == begin and body == b"\x07\x02":
            wide = True
        else:
            try:
                found.append((at, record_of(body, wide)))
            except NoRecord:
                raise Foreign(at) from None
        at += 3 + size


def is_part(some: typing.Tuple[bytes, ...], whole: typing.Tuple[bytes, ...]) -> bool:
    """Whether some are among the whole, in their order."""
    rest = iter(whole)
    return all(it in rest for it in some)


class Order:
    """The records that came, per node and key since its last End; and whether the next may follow."""

    def __init__(self) -> None:
        self.boot: typing.Optional[int] = None
        self.since: typing.Dict[typing.Tuple[int, bytes], typing.List[Record]] = {}

    def allows(self, record: Record) -> bool:
        if record.kind == "boot":
            return self.boot is None or record.number > self.boot
        if self.boot is None:
            return False
        since = self.since.get((record.number, record.key), [])
        last = since[-1] if since else None
        if record.kind == "ready" or record.kind == "commit" and record.of_root:
            busy = any(node == record.number and it[-1].kind in ("ready", "heuristic", "commit") for (node, _), it in self.since.items())
            late = record.kind == "commit" and int.from_bytes(record.key[1 + record.key[0]:][:8], "big") > self.boot
            return not busy and last is None and not late
        if last is None:
            return False
        if record.kind == "heuristic":
            return last.kind == "ready"
        if record.kind == "commit":
            return last.kind in ("ready", "heuristic") and (record.superior, record.children) == (since[0].superior, since[0].children)
        if record.kind == "damage":
            return record.superior == since[0].superior and self.allows_damage(record, last)
        if record.outcome == "commit":
            return last.kind == "commit" or (last.kind, last.outcome) == ("damage", "commit")
        return last.kind == "ready" or (last.kind, last.outcome) in (("heuristic", "rollback"), ("damage", "rollback"))

    def allows_damage(self, record: Record, last: Record) -> bool:
        if record.outcome == "commit":
            return (last.kind == "commit" or (last.kind, last.outcome) == ("damage", "commit")) and is_part(record.children, last.children)
        return (last.kind, last.outcome) == ("heuristic", "commit") and record.report == "mix" and record.children == ()

    def add(self, record: Record) -> None:
        if record.kind == "boot":
            self.boot = record.number
        elif record.kind == "end":
            self.since.pop((record.number, record.key))
        else:
            self.since.setdefault((record.number, record.key), []).append(record)


def records_of(log: bytes) -> typing.List[typing.Tuple[int, Record]]:
    """The records of a log, in order, each at the place that it has after a start; Foreign where the file is no log."""
    if len(log) < 5 or log[:4] != b"OTPL":
        raise Foreign(0)
    if log[4] != 2:
        found, _ = text_at(log, 5, len(log))
    else:
        end = len(log) - 8
        begin = int.from_bytes(log[-8:], "big") if end >= 5 else 0
        if not 5 <= begin <= len(log) - 9:
            raise Foreign(4)
        found, after = text_at(log, begin, end)
        if after - begin > begin - 5:
            raise Foreign(4)
        found = [(at - begin + 5, record) for at, record in found]
    order = Order()
    for at, record in found:
        if not order.allows(record):
            raise Foreign(at)
        order.add(record)
    return found


def shown(log: bytes) -> typing.Tuple[int, bytes]:
    """The status of `show` on a log, and what it writes."""
    try:
        return 0, b"".join(b"%d %s\n" % (at, record.words().encode()) for at, record in records_of(log))
    except Foreign:
        return 5, b""


def foreign_at(log: bytes) -> int:
    """The place at which a file is no log."""
    try:
        records_of(log)
    except Foreign as why:
        return why.place
    return -1


def shown_damage(log: bytes) -> typing.List[str]:
    """The last record of each key that has no End, where it is a damage: what `check` writes, without the places."""
    order = Order()
    for _, record in records_of(log):
        order.add(record)
    return [it[-1].words() for it in order.since.values() if it[-1].kind == "damage"]
