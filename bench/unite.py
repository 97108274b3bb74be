#!/usr/bin/env python3
"""The verdict over recordings of three sites: seconds of a processor by the number of events.

bench/unite.py [PROGRAM [EVENTS ..]]

PROGRAM is the command of `tpunite`. The streams are those of three processes `node`, which this script gives transactions over a root
and two branches, and to which it carries what they say; a stream of twice as many events holds twice as many transactions."""
import os
import pathlib
import resource
import subprocess
import sys
import tempfile
import typing

sys.path.insert(0, str(pathlib.Path(__file__).resolve().parent.parent / "trials"))
import wire  # noqa: E402

Row = tuple[str, str]
SITES = ("a", "b", "c")
NODES = {1: "a", 2: "b", 3: "c"}
EVENTS = (25_000, 50_000, 100_000, 200_000, 400_000)


class Sites:
    """Three processes, what each was given, and a carrier that brings what they say at once."""

    def __init__(self, program: list[str], folder: str) -> None:
        self.given: dict[str, list[bytes]] = {name: [] for name in SITES}
        self.processes: dict[str, subprocess.Popen[bytes]] = {}
        for name in SITES:
            where = os.path.join(folder, name)
            os.makedirs(where)
            with open(os.path.join(where, "tp.log"), "wb") as log:
                log.write(wire.FRESH)
            self.processes[name] = subprocess.Popen(program + ["node", "--name", name], cwd=where, stdin=subprocess.PIPE, stdout=subprocess.PIPE)
        self.give("a", wire.declare(1))
        for node in (2, 3):
            self.give(NODES[node], wire.declare(node, wire.address("a", 1)))

    def give(self, name: str, body: bytes) -> None:
        """An event, and all that comes of it."""
        waiting = [(name, body)]
        while waiting:
            name, body = waiting.pop(0)
            self.given[name].append(body)
            process = self.processes[name]
            assert process.stdin is not None and process.stdout is not None
            process.stdin.write(wire.frame(body))
            process.stdin.flush()
            while (said := wire.read_frame(process.stdout)) != b"\x13":
                if said[0] == 0x12:
                    raise SystemExit("an event was refused: %s %s" % (body.hex(), said.hex()))
                if said[0] == 0x11:
                    sender, _, at = wire.read_address(said, 1)
                    target, number, at = wire.read_address(said, at)
                    waiting.append((NODES[number], wire.arrive(sender, target, said[at + 2:])))

    def dialogues(self) -> None:
        for node in (2, 3):
            self.give("a", wire.do(1, wire.BEGIN_DIALOGUE, wire.address(NODES[node], node) + b"\x29"))
            self.give(NODES[node], wire.do(node, wire.ACCEPT, b"\x29"))

    def transaction(self) -> None:
        for node in (2, 3):
            self.give("a", wire.do(1, wire.BEGIN_TRANSACTION, wire.short(node)))
        self.give("a", wire.do(1, wire.COMMIT))
        for node in (2, 3):
            self.give(NODES[node], wire.do(node, wire.COMMIT))
        for node in (2, 3):
            self.give(NODES[node], wire.do(node, wire.DONE))
        self.give("a", wire.do(1, wire.DONE))

    def recording(self) -> bytes:
        places = wire.place(1, "a") + wire.place(2, "b", 1) + wire.place(3, "c", 1)
        return places + b"".join(wire.starts(name) + b"".join(map(wire.frame, self.given[name])) for name in SITES)


def recorded(program: list[str], events: int) -> bytes:
    with tempfile.TemporaryDirectory(dir="/dev/shm" if os.path.isdir("/dev/shm") else None) as folder:
        sites = Sites(program, folder)
        sites.dialogues()
        while sum(map(len, sites.given.values())) < events:
            sites.transaction()
        return sites.recording()


def seconds_of(program: list[str], recording: bytes) -> float:
    before = resource.getrusage(resource.RUSAGE_CHILDREN)
    ran = subprocess.run(program, input=recording, capture_output=True)
    after = resource.getrusage(resource.RUSAGE_CHILDREN)
    if ran.returncode != 0 or not ran.stdout.startswith(b"deployment\n"):
        raise SystemExit("status %d, %s%s" % (ran.returncode, ran.stdout.decode(), ran.stderr.decode()))
    return after.ru_utime + after.ru_stime - before.ru_utime - before.ru_stime


def rows(unite: str, sizes: typing.Sequence[int] = EVENTS) -> typing.Iterator[Row]:
    node = [os.environ.get("TPNODE", str(pathlib.Path(__file__).resolve().parent.parent / "crates" / "tpnode" / "out" / "tpnode"))]
    for events in sizes:
        recording = recorded(node, events)
        least = min(seconds_of([unite], recording) for _ in range(3))
        yield "unite, 3 sites, %d events" % events, "%.2f s" % least


if __name__ == "__main__":
    words = sys.argv[1:]
    for name, value in rows(words[0] if words else os.environ["TPUNITE"], [int(word) for word in words[1:]] or EVENTS):
        print("%s: %s" % (name, value), flush=True)
