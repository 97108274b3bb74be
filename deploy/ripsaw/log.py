"""What stands in a log `tp.log`, read as docs/FORMATS.md, chapter 6, gives it. Nothing here writes.

A log may be read while its site works on it: a record counts from the moment in which its gate is 1.
"""
from __future__ import annotations

from dataclasses import dataclass, field
from enum import IntEnum
from pathlib import Path

from .wire import Identifier, Outcome, Reader, Report

FRESH = bytes.fromhex("4f54504c01" "01" "0002" "0702" "00")
VERSION = b"\x07\x02"  # the body that a log of this version begins with


class Kind(IntEnum):
    BOOT = 1
    READY = 2
    HEURISTIC = 3
    COMMIT = 4
    DAMAGE = 5
    END = 6


@dataclass(frozen=True, slots=True)
class Entry:
    """A record, as far as a daemon needs it."""

    kind: Kind
    boot: int = 0
    node: int = 0
    tree: Identifier | None = None
    branch: Identifier | None = None
    outcome: Outcome | None = None  # of Heuristic, Damage and End
    report: Report = Report.NONE  # of Damage


def read_entry(body: bytes) -> Entry:
    reader = Reader(body)
    kind = Kind(reader.u8())
    if kind is Kind.BOOT:
        return Entry(kind, boot=reader.u64())
    node, tree = reader.u16(), reader.identifier()
    branch = reader.identifier() if reader.u8() else None
    outcome, report = None, Report.NONE
    if kind in (Kind.HEURISTIC, Kind.END):
        outcome = Outcome(reader.u8())
    elif kind is Kind.DAMAGE:
        if branch is not None:
            reader.address()
        outcome, report = Outcome(reader.u8()), Report(reader.u8())
    return Entry(kind, 0, node, tree, branch, outcome, report)


def places(log: bytes, at: int | None = None) -> tuple[list[int], int]:
    """The places of the open gates from a place on (the front text, or the back text where that counts), and of the gate that closes it."""
    if at is None:
        at = int.from_bytes(log[-8:], "big") if len(log) > 4 and log[4] == 2 else 5
    found = []
    while at + 3 <= len(log) and log[at] == 1:
        end = at + 3 + (log[at + 1] << 8 | log[at + 2])
        if end > len(log):
            break
        found.append(at)
        at = end
    return found, at


def body_at(log: bytes, gate: int) -> bytes:
    return log[gate + 3:gate + 3 + (log[gate + 1] << 8 | log[gate + 2])]


@dataclass
class Standing:
    """What a log says at a start: the last boot, and of each node the transactions that are not at their end."""

    boot: int = 0
    since_boot: list[Entry] = field(default_factory=list)
    last: dict[tuple[int, Identifier], Entry] = field(default_factory=dict)

    def of(self, node: int, tree: Identifier) -> Kind | None:
        found = self.last.get((node, tree))
        return None if found is None else found.kind

    def report(self, node: int, tree: Identifier) -> Report:
        found = self.last.get((node, tree))
        return Report.NONE if found is None else found.report

    def current(self, node: int) -> Identifier | None:
        """The tree that this node is in doubt of, or commits."""
        for (number, tree), last in self.last.items():
            if number == node and last.kind in (Kind.READY, Kind.HEURISTIC, Kind.COMMIT):
                return tree
        return None


def standing(log: bytes) -> Standing:
    """A node has one current transaction, so its tree names a key of it."""
    found = Standing()
    for gate in places(log)[0]:
        body = body_at(log, gate)
        if body == VERSION:
            continue
        entry = read_entry(body)
        if entry.kind is Kind.BOOT:
            found.boot, found.since_boot = entry.boot, []
            continue
        found.since_boot.append(entry)
        assert entry.tree is not None
        key = (entry.node, entry.tree)
        if entry.kind is Kind.END:
            found.last.pop(key, None)
        else:
            found.last[key] = entry
    return found


def committed(log: bytes, site: str) -> list[Identifier]:
    """The trees of this site's roots that have a Commit."""
    found = []
    for gate in places(log)[0]:
        if log[gate + 3] == Kind.COMMIT:
            entry = read_entry(body_at(log, gate))
            if entry.branch is None and entry.tree is not None and entry.tree.site == site:
                found.append(entry.tree)
    return found


class Follower:
    """Follows a log that grows: what is read each time is what is new."""

    def __init__(self, path: Path) -> None:
        self.path, self.at, self.records = path, 5, 0
        self.damaged: set[tuple[int, Identifier]] = set()  # kept, since a commitment or rollback did damage

    def read(self) -> None:
        with open(self.path, "rb") as file:
            file.seek(self.at)
            rest = file.read()
        found, end = places(rest, 0)
        for gate in found:
            body = body_at(rest, gate)
            if body[0] in (Kind.DAMAGE, Kind.END):
                entry = read_entry(body)
                assert entry.tree is not None
                (self.damaged.add if entry.kind is Kind.DAMAGE else self.damaged.discard)((entry.node, entry.tree))
        self.at += end
        self.records += len(found)
