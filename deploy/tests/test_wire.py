"""Frames and bodies against the vectors of docs/FORMATS.md, and there and back."""
from __future__ import annotations

import random

import pytest

from ripsaw import log, wire, words
from ripsaw.wire import Address, Arrive, Ask, Declare, Do, GiveUp, Heur, Identifier, Indication, Lose, Outcome, Purge, Refused, Report, Request, Retry, \
    Send, Tell, Told

A1, B2 = Address("a", 1), Address("b", 2)
X, Y = "0000000000000001" "0001" "0000000000000001", "0000000000000001" "0002" "0000000000000001"
T, B = "0161" "0000000000000001" "0001" "0000000000000002", "0161" "0000000000000001" "0001" "0000000000000003"


@pytest.mark.parametrize("event, text", [
    (Declare(1), "0004" "01000100"), (Declare(2, A1), "0008" "0100020101610001"), (Do(1, Request(Ask.COMMIT)), "0004" "02000111"),
    (Do(2, Request(Ask.ACCEPT, units=0x29)), "0005" "0200020229"),
    (Arrive(A1, B2, bytes.fromhex("01" + X + "29")), "001f" "03" "01610001" "01620002" "0014" "01" + X + "29")])
def test_vectors_of_frames(event: wire.Event, text: str) -> None:
    assert wire.frame(event.body()).hex() == text
    assert wire.read_event(bytes.fromhex(text)[2:]) == event


@pytest.mark.parametrize("text, said", [
    ("01" + X + "29", "open 1.1.1 scu"), ("02" + X + Y + "29", "accept 1.1.1 1.2.1 scu"), ("03" + X + "00", "shut 1.1.1 -"),
    ("03" + X + "01" + Y, "shut 1.1.1 1.2.1"), ("04" + X + Y + "0000000000000000" "0c" + T + B + "00", "data 0 begin a.1.1.2 a.1.1.3 none"),
    ("04" + X + Y + "0000000000000001" "0d", "data 1 prepare"), ("04" + X + Y + "0000000000000002" "02" "0001" "41", "data 2 user 41"),
    ("05" + T + B, "rec-ready a.1.1.2 a.1.1.3"), ("07" + T + B + "0202", "rec-reply a.1.1.2 a.1.1.3 done mix"),
    ("07" + T + B + "04", "rec-reply a.1.1.2 a.1.1.3 retry-later"), ("08" + T + B, "forget a.1.1.2 a.1.1.3")])
def test_vectors_of_peer_records(text: str, said: str) -> None:
    assert words.read(bytes.fromhex(text)).words == said


def test_there_and_back() -> None:
    draw = random.Random(1)
    for _ in range(2000):
        ask, told = draw.choice(list(Ask)), draw.choice(list(Told))
        data, tree = draw.randbytes(draw.randrange(30)), Identifier("shop", draw.randrange(2**64), draw.randrange(2**16), draw.randrange(2**64))
        fields, outs = wire.ASK_FIELDS.get(ask, ("peer",)), wire.TOLD_FIELDS.get(told, ("peer",))
        request = Request(ask, 7 if "peer" in fields else 0, A1 if "address" in fields else None, 41 if "units" in fields else 0,
                          data if "octets" in fields else b"")
        indication = Indication(told, 7 if "peer" in outs else 0, 41 if "units" in outs else 0, data if "octets" in outs else b"",
                                tree if "tree" in outs else None, Report.MIX if "report" in outs else Report.NONE)
        events: list[wire.Event] = [Do(3, request), Declare(1, A1), Arrive(A1, B2, data), Lose(1, 2), Heur(1, Outcome.COMMIT), GiveUp(1, 2), Retry(9), Purge(9)]
        outputs: list[wire.Output] = [Tell(3, indication), Send(A1, B2, data), Refused(12), wire.OVER]
        for event in events:
            assert wire.read_event(event.body()) == event
        for output in outputs:
            assert wire.read_output(output.body()) == output
        assert Identifier.of(str(tree)) == tree


def test_bytes_that_are_no_body() -> None:
    draw = random.Random(2)
    bodies: list[bytes] = [Declare(2, A1).body(), Do(2, Request(Ask.DATA, 1, None, 0, b"abc")).body(), Arrive(A1, B2, b"xyz").body()]
    for _ in range(5000):
        body = bytearray(draw.choice(bodies))
        for _ in range(draw.randrange(1, 4)):
            body[draw.randrange(len(body))] = draw.randrange(256)
        body = body[:draw.randrange(len(body) + 1)]
        try:
            event = wire.read_event(bytes(body))
        except wire.BadBody:
            continue
        assert event.body() == bytes(body)


def test_a_stream_in_any_pieces() -> None:
    draw = random.Random(3)
    bodies = [draw.randbytes(draw.randrange(1, 300)) for _ in range(200)]
    stream = b"".join(map(wire.frame, bodies))
    frames, found = wire.Frames(), []
    while stream:
        size = draw.randrange(1, 500)
        found += frames.feed(stream[:size])
        stream = stream[size:]
    assert found == bodies
    for bad in (b"\0\0", b"\x08\x01"):
        with pytest.raises(wire.BadBody):
            wire.Frames().feed(bad)


def test_a_log_of_the_page() -> None:
    ready = "01 0032 020002 0161000000000000000100010000000000000002 01 0161000000000000000100010000000000000003 01610001 0000"
    content = bytes.fromhex("4f54504c01 01 0002 0702 01 0009 010000000000000001" + ready + "00 ffff")
    found = log.standing(content)
    assert found.boot == 1 and found.current(2) == Identifier("a", 1, 1, 2)
    assert found.of(2, Identifier("a", 1, 1, 2)) is log.Kind.READY
    back = bytes.fromhex("4f54504c02" + "ff" * 13 + "01 0009 010000000000000002 00 0000000000000012")
    assert log.standing(back).boot == 2
    assert log.standing(log.FRESH).boot == 0
