"""Frames and bodies of docs/FORMATS.md, chapters 1, 2 and 5, both ways.

An event goes into `tpnode node`, an output comes out of it. Each is a small class with a method `body`; `read_event` and `read_output` give it
back. A body that no table gives is `BadBody`.
"""
from __future__ import annotations

import struct
from dataclasses import dataclass
from enum import IntEnum
from typing import Union

MOST_BODY = 2048
MOST_DATA = 1024  # octets of user data in one request


class BadBody(ValueError):
    """Bytes that are no body, or a length that no frame has."""


# Values.

@dataclass(frozen=True, slots=True)
class Address:
    """A node of a site."""

    site: str
    node: int

    def text(self) -> bytes:
        return text_of_site(self.site) + struct.pack(">H", self.node)

    def __str__(self) -> str:
        return f"{self.site}.{self.node}"


@dataclass(frozen=True, slots=True)
class Identifier:
    """A tree's or a branch's: the site and the mark that it was drawn with."""

    site: str
    boot: int
    node: int
    count: int

    def text(self) -> bytes:
        return text_of_site(self.site) + struct.pack(">QHQ", self.boot, self.node, self.count)

    def __str__(self) -> str:
        return f"{self.site}.{self.boot}.{self.node}.{self.count}"

    @staticmethod
    def of(text: str) -> Identifier:
        parts = text.split(".")
        if len(parts) != 4 or not is_site(parts[0]) or not all(it.isdigit() for it in parts[1:]):
            raise ValueError(f"{text} is no identifier of a tree: SITE.BOOT.NODE.COUNT")
        return Identifier(parts[0], int(parts[1]), int(parts[2]), int(parts[3]))


def is_site(name: str) -> bool:
    """1 to 16 of a to z and 0 to 9."""
    return 1 <= len(name) <= 16 and all(it in "abcdefghijklmnopqrstuvwxyz0123456789" for it in name)


def text_of_site(name: str) -> bytes:
    return bytes([len(name)]) + name.encode("ascii")


def octets(data: bytes) -> bytes:
    return struct.pack(">H", len(data)) + data


class Report(IntEnum):
    NONE = 0
    HAZARD = 1
    MIX = 2


class Outcome(IntEnum):
    COMMIT = 1
    ROLLBACK = 2


class Reader:
    """Values from the front of a body."""

    def __init__(self, body: bytes) -> None:
        self.body, self.at = body, 0

    def take(self, size: int) -> bytes:
        piece = self.body[self.at:self.at + size]
        if len(piece) < size:
            raise BadBody("a body is too short")
        self.at += size
        return piece

    def u8(self) -> int:
        return self.take(1)[0]

    def u16(self) -> int:
        return int.from_bytes(self.take(2), "big")

    def u64(self) -> int:
        return int.from_bytes(self.take(8), "big")

    def site(self) -> str:
        name = self.take(self.u8()).decode("latin-1")
        if not is_site(name):
            raise BadBody("no name of a site")
        return name

    def address(self) -> Address:
        return Address(self.site(), self.u16())

    def identifier(self) -> Identifier:
        return Identifier(self.site(), self.u64(), self.u16(), self.u64())

    def octets(self, most: int) -> bytes:
        size = self.u16()
        if size > most:
            raise BadBody("too many octets")
        return self.take(size)

    def end(self) -> None:
        if self.at != len(self.body):
            raise BadBody("a body is too long")


# Requests and indications.

class Ask(IntEnum):
    """What a user asks its node for."""

    BEGIN_DIALOGUE = 0x01
    ACCEPT = 0x02
    REJECT = 0x03
    END_DIALOGUE = 0x04
    DATA = 0x05
    U_ERROR = 0x06
    U_ABORT = 0x07
    GRANT_CONTROL = 0x08
    REQUEST_CONTROL = 0x09
    HANDSHAKE = 0x0A
    RESPOND = 0x0B
    HANDSHAKE_AND_GRANT = 0x0C
    BEGIN_TRANSACTION = 0x0D
    DEFERRED_END = 0x0E
    DEFERRED_GRANT = 0x0F
    PREPARE = 0x10
    COMMIT = 0x11
    DONE = 0x12
    ROLLBACK = 0x13
    UNCHANGED = 0x14


class Told(IntEnum):
    """What a node tells its user."""

    BEGIN_DIALOGUE = 0x01
    BEGUN_DIALOGUE = 0x02
    REJECTED = 0x03
    END_DIALOGUE = 0x04
    DATA = 0x05
    U_ERROR = 0x06
    U_ABORT = 0x07
    P_ABORT = 0x08
    GRANT_CONTROL = 0x09
    REQUEST_CONTROL = 0x0A
    HANDSHAKE = 0x0B
    HANDSHAKE_CONFIRM = 0x0C
    HANDSHAKE_AND_GRANT = 0x0D
    BEGIN_TRANSACTION = 0x0E
    DEFERRED_END = 0x0F
    DEFERRED_GRANT = 0x10
    PREPARE = 0x11
    READY = 0x12
    COMMIT = 0x13
    COMMIT_COMPLETE = 0x14
    ROLLBACK = 0x15
    ROLLBACK_COMPLETE = 0x16
    HEURISTIC_REPORT = 0x17
    LEFT = 0x18


# The fields of each kind, in their order. A kind that is not named here has none, or a peer alone.
ASK_FIELDS: dict[Ask, tuple[str, ...]] = {
    Ask.BEGIN_DIALOGUE: ("address", "units"), Ask.ACCEPT: ("units",), Ask.REJECT: (), Ask.DATA: ("peer", "octets"),
    Ask.COMMIT: (), Ask.DONE: (), Ask.ROLLBACK: (), Ask.UNCHANGED: (),
}
TOLD_FIELDS: dict[Told, tuple[str, ...]] = {
    Told.BEGIN_DIALOGUE: ("peer", "units"), Told.BEGUN_DIALOGUE: ("peer", "units"), Told.DATA: ("peer", "octets"),
    Told.BEGIN_TRANSACTION: ("peer", "tree"), Told.PREPARE: (), Told.COMMIT: (), Told.COMMIT_COMPLETE: ("report",),
    Told.ROLLBACK: (), Told.ROLLBACK_COMPLETE: ("report",), Told.HEURISTIC_REPORT: ("peer", "report"),
}
UNITS = "sphcku"
COMMIT_UNCHAINED = 0x29  # shared control, commit, unchained


def words_of_units(units: int) -> str:
    return "".join(letter for bit, letter in enumerate(UNITS) if units >> bit & 1)


def words_of_octets(data: bytes) -> str:
    return data.hex() or "-"


def word(kind: IntEnum) -> str:
    return kind.name.lower().replace("_", "-")


@dataclass(frozen=True, slots=True)
class Request:
    kind: Ask
    peer: int = 0
    address: Address | None = None
    units: int = 0
    octets: bytes = b""

    def text(self) -> bytes:
        out = [bytes([self.kind])]
        for field in ASK_FIELDS.get(self.kind, ("peer",)):
            if field == "address":
                assert self.address is not None
                out.append(self.address.text())
            elif field == "units":
                out.append(bytes([self.units]))
            elif field == "octets":
                out.append(octets(self.octets))
            else:
                out.append(struct.pack(">H", self.peer))
        return b"".join(out)

    @staticmethod
    def read(reader: Reader) -> Request:
        try:
            kind = Ask(reader.u8())
        except ValueError as error:
            raise BadBody("no request") from error
        peer, address, units, data = 0, None, 0, b""
        for field in ASK_FIELDS.get(kind, ("peer",)):
            if field == "address":
                address = reader.address()
            elif field == "units":
                units = reader.u8()
            elif field == "octets":
                data = reader.octets(2000)
            else:
                peer = reader.u16()
        return Request(kind, peer, address, units, data)

    def words(self) -> str:
        """As a line of a schedule has it."""
        out = [word(self.kind)]
        for field in ASK_FIELDS.get(self.kind, ("peer",)):
            if field == "address":
                assert self.address is not None
                out.append(str(self.address.node))
            elif field == "units":
                out.append(words_of_units(self.units))
            elif field == "octets":
                out.append(words_of_octets(self.octets))
            else:
                out.append(str(self.peer))
        return " ".join(out)


@dataclass(frozen=True, slots=True)
class Indication:
    kind: Told
    peer: int = 0
    units: int = 0
    octets: bytes = b""
    tree: Identifier | None = None
    report: Report = Report.NONE

    def text(self) -> bytes:
        out = [bytes([self.kind])]
        for field in TOLD_FIELDS.get(self.kind, ("peer",)):
            if field == "units":
                out.append(bytes([self.units]))
            elif field == "octets":
                out.append(octets(self.octets))
            elif field == "tree":
                assert self.tree is not None
                out.append(self.tree.text())
            elif field == "report":
                out.append(bytes([self.report]))
            else:
                out.append(struct.pack(">H", self.peer))
        return b"".join(out)

    @staticmethod
    def read(reader: Reader) -> Indication:
        peer, units, data, tree, report = 0, 0, b"", None, Report.NONE
        try:
            kind = Told(reader.u8())
            for field in TOLD_FIELDS.get(kind, ("peer",)):
                if field == "units":
                    units = reader.u8()
                elif field == "octets":
                    data = reader.octets(MOST_DATA)
                elif field == "tree":
                    tree = reader.identifier()
                elif field == "report":
                    report = Report(reader.u8())
                else:
                    peer = reader.u16()
        except BadBody:
            raise
        except ValueError as error:
            raise BadBody("no indication") from error
        return Indication(kind, peer, units, data, tree, report)

    def words(self) -> str:
        """As a line of a transcript has it."""
        out = [word(self.kind)]
        for field in TOLD_FIELDS.get(self.kind, ("peer",)):
            if field == "units":
                out.append(words_of_units(self.units))
            elif field == "octets":
                out.append(words_of_octets(self.octets))
            elif field == "tree":
                out.append(str(self.tree))
            elif field == "report":
                out.append(word(self.report))
            else:
                out.append(str(self.peer))
        return " ".join(out)


# Events.

@dataclass(frozen=True, slots=True)
class Declare:
    node: int
    superior: Address | None = None

    def body(self) -> bytes:
        return struct.pack(">BH", 0x01, self.node) + (b"\x00" if self.superior is None else b"\x01" + self.superior.text())


@dataclass(frozen=True, slots=True)
class Do:
    node: int
    request: Request

    def body(self) -> bytes:
        return struct.pack(">BH", 0x02, self.node) + self.request.text()


@dataclass(frozen=True, slots=True)
class Arrive:
    sender: Address
    target: Address
    octets: bytes

    @property
    def node(self) -> int:
        return self.target.node

    def body(self) -> bytes:
        return b"\x03" + self.sender.text() + self.target.text() + octets(self.octets)


@dataclass(frozen=True, slots=True)
class Lose:
    node: int
    peer: int

    def body(self) -> bytes:
        return struct.pack(">BHH", 0x04, self.node, self.peer)


@dataclass(frozen=True, slots=True)
class Heur:
    node: int
    outcome: Outcome

    def body(self) -> bytes:
        return struct.pack(">BHB", 0x05, self.node, self.outcome)


@dataclass(frozen=True, slots=True)
class GiveUp:
    node: int
    peer: int

    def body(self) -> bytes:
        return struct.pack(">BHH", 0x06, self.node, self.peer)


@dataclass(frozen=True, slots=True)
class Retry:
    node: int

    def body(self) -> bytes:
        return struct.pack(">BH", 0x07, self.node)


@dataclass(frozen=True, slots=True)
class Purge:
    node: int

    def body(self) -> bytes:
        return struct.pack(">BH", 0x08, self.node)


Event = Union[Declare, Do, Arrive, Lose, Heur, GiveUp, Retry, Purge]


def read_event(body: bytes) -> Event:
    """The event that has this body."""
    reader = Reader(body)
    code = reader.u8()
    event: Event
    if code == 0x01:
        node, under = reader.u16(), reader.u8()
        if under > 1:
            raise BadBody("no declaration")
        event = Declare(node, reader.address() if under else None)
    elif code == 0x02:
        event = Do(reader.u16(), Request.read(reader))
    elif code == 0x03:
        event = Arrive(reader.address(), reader.address(), reader.octets(2000))
    elif code == 0x05:
        node, outcome = reader.u16(), reader.u8()
        if outcome not in (1, 2):
            raise BadBody("no outcome")
        event = Heur(node, Outcome(outcome))
    elif code == 0x04:
        event = Lose(reader.u16(), reader.u16())
    elif code == 0x06:
        event = GiveUp(reader.u16(), reader.u16())
    elif code == 0x07:
        event = Retry(reader.u16())
    elif code == 0x08:
        event = Purge(reader.u16())
    else:
        raise BadBody("no event")
    reader.end()
    return event


# Outputs.

@dataclass(frozen=True, slots=True)
class Tell:
    node: int
    indication: Indication

    def body(self) -> bytes:
        return struct.pack(">BH", 0x10, self.node) + self.indication.text()


@dataclass(frozen=True, slots=True)
class Send:
    sender: Address
    target: Address
    octets: bytes

    def body(self) -> bytes:
        return b"\x11" + self.sender.text() + self.target.text() + octets(self.octets)


@dataclass(frozen=True, slots=True)
class Refused:
    number: int

    def body(self) -> bytes:
        return bytes([0x12, self.number])


@dataclass(frozen=True, slots=True)
class Over:
    def body(self) -> bytes:
        return b"\x13"


Output = Union[Tell, Send, Refused, Over]
OVER = Over()

OUT_OF_PHASE, NO_TRANSACTION, TRANSACTION_OPEN, NOTHING_OWED = 2, 6, 7, 12
REFUSALS = {
    1: "there is no dialogue with the peer", 2: "not in this phase", 3: "the end does not hold control", 4: "a functional unit is missing",
    5: "a handshake is open", 6: "there is no transaction", 7: "there is a transaction", 8: "nobody asked for it", 9: "it was asked already",
    10: "only a node in doubt decides", 11: "the node has decided", 12: "nothing is owed", 13: "too many subordinates or octets",
    14: "no transaction is kept", 15: "something is still owed", 16: "the node is not declared", 17: "no number is left",
    21: "an old association", 22: "out of order", 23: "wrong site, node or sender", 24: "out of phase", 25: "no record",
}


def read_output(body: bytes) -> Output:
    """The output that has this body."""
    if body == b"\x13":
        return OVER
    reader = Reader(body)
    code = reader.u8()
    output: Output
    if code == 0x10:
        output = Tell(reader.u16(), Indication.read(reader))
    elif code == 0x11:
        output = Send(reader.address(), reader.address(), reader.octets(2000))
    elif code == 0x12:
        output = Refused(reader.u8())
    else:
        raise BadBody("no output")
    reader.end()
    return output


# Frames.

def frame(body: bytes) -> bytes:
    return struct.pack(">H", len(body)) + body


class Frames:
    """Cuts a stream into bodies, however it comes in pieces."""

    def __init__(self) -> None:
        self.rest = bytearray()

    def feed(self, piece: bytes) -> list[bytes]:
        rest, bodies, at = self.rest, [], 0
        rest += piece
        while at + 2 <= len(rest):
            size = rest[at] << 8 | rest[at + 1]
            if not 1 <= size <= MOST_BODY:
                raise BadBody("no length of a frame")
            if at + 2 + size > len(rest):
                break
            bodies.append(bytes(rest[at + 2:at + 2 + size]))
            at += 2 + size
        del rest[:at]
        return bodies
