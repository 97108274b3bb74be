"""Peer records in the words of a transcript: docs/FORMATS.md, chapters 3, 4 and 8."""
from __future__ import annotations

from dataclasses import dataclass

from .wire import MOST_DATA, BadBody, Identifier, Reader, Report, word, words_of_octets, words_of_units

PLAIN = {0x01: "end-dialogue", 0x03: "u-error", 0x04: "u-abort", 0x05: "grant", 0x06: "request-control", 0x07: "handshake", 0x08: "handshake-grant",
         0x09: "response", 0x0A: "deferred-end", 0x0B: "deferred-grant", 0x0D: "prepare", 0x0E: "ready", 0x0F: "commit", 0x11: "rollback",
         0x13: "left", 0x14: "left-end"}
REPORTED = {0x10: "done", 0x12: "rolled-back"}
RECOVERY = {0x05: "rec-ready", 0x06: "rec-commit", 0x07: "rec-reply", 0x08: "forget"}
HOLDERS = ("none", "superior", "subordinate")


@dataclass(frozen=True, slots=True)
class PeerRecord:
    """Its words, the word of what it does, and the tree and branch that it names, where it names one."""

    words: str
    what: str
    tree: Identifier | None = None
    branch: Identifier | None = None


def mark(reader: Reader) -> str:
    return f"{reader.u64()}.{reader.u16()}.{reader.u64()}"


def read(data: bytes) -> PeerRecord:
    """The record that has this text."""
    reader = Reader(data)
    code = reader.u8()
    if code == 0x01:
        record = PeerRecord(f"open {mark(reader)} {words_of_units(reader.u8())}", "open")
    elif code == 0x02:
        record = PeerRecord(f"accept {mark(reader)} {mark(reader)} {words_of_units(reader.u8())}", "accept")
    elif code == 0x03:
        record = PeerRecord(f"shut {mark(reader)} {mark(reader) if reader.u8() else '-'}", "shut")
    elif code == 0x04:
        mark(reader), mark(reader)
        record = on_association(reader.u64(), reader)
    elif code in RECOVERY:
        tree, branch = reader.identifier(), reader.identifier()
        state = f" {state_words(reader)}" if code == 0x07 else ""
        record = PeerRecord(f"{RECOVERY[code]} {tree} {branch}{state}", RECOVERY[code] + state, tree, branch)
    else:
        raise BadBody("no record")
    reader.end()
    return record


def state_words(reader: Reader) -> str:
    state = reader.u8()
    if state == 0x02:
        return f"done {word(Report(reader.u8()))}"
    return {0x01: "commit", 0x03: "unknown", 0x04: "retry-later"}[state]


def on_association(sequence: int, reader: Reader) -> PeerRecord:
    code = reader.u8()
    tree = branch = None
    if code == 0x02:
        what = f"user {words_of_octets(reader.octets(MOST_DATA))}"
    elif code == 0x0C:
        tree, branch = reader.identifier(), reader.identifier()
        what = f"begin {tree} {branch} {HOLDERS[reader.u8()]}"
    elif code in REPORTED:
        what = f"{REPORTED[code]} {word(Report(reader.u8()))}"
    else:
        what = PLAIN[code]
    return PeerRecord(f"data {sequence} {what}", what.split(" ", 1)[0], tree, branch)
