"""`record/`: every event and output of a site with its time, in files that rotate. `ripsaw draw` and `ripsaw replay` read them.

Each line is a time in seconds and one of these:

    start NAME BOOT NODE:COUNT ..   a process starts, whose Boot is to be BOOT; after the Boot before it the log has so many records of each node
    in BODY                         an event was given, as hexadecimal digits
    out BODY                        an output of the oldest event that is not over
    over                            that event is over
    end STATUS                      the process has ended
"""
from __future__ import annotations

import errno
import os
import time
from dataclasses import dataclass, field
from functools import cached_property
from pathlib import Path
from typing import BinaryIO, Iterator

from . import wire

MOST_BYTES = 16 * 1024 * 1024
MOST_FILES = 64


class Recorder:
    """Lines are kept until `flush`, which comes before their event is given and before their output is acted upon."""

    def __init__(self, folder: Path, name: str) -> None:
        folder.mkdir(exist_ok=True)
        self.folder, self.name, self.size = folder, name, 0
        self.lines: list[bytes] = []
        numbers = [int(it.stem.rpartition("-")[2]) for it in folder.glob(f"{name}-*.record")]
        self.number = max(numbers, default=0)
        self.file: BinaryIO | None = None

    def add(self, *words: str) -> None:
        self.lines.append(f"{time.time():.6f} {' '.join(words)}\n".encode())

    def given(self, event: wire.Event) -> None:
        self.add("in", event.body().hex())

    def answered(self, outputs: list[wire.Output]) -> None:
        for output in outputs:
            self.add("out", output.body().hex())
        self.add("over")

    def flush(self) -> None:
        if not self.lines:
            return
        if self.file is None or self.size > MOST_BYTES:
            self.rotate()
        assert self.file is not None
        piece = b"".join(self.lines)
        self.lines.clear()
        self.size += len(piece)
        try:
            if self.file.write(piece) != len(piece):
                raise OSError(errno.ENOSPC, os.strerror(errno.ENOSPC))
        except OSError:
            self.size = MOST_BYTES + 1  # (a line may be cut short, and is then the last of its file)
            raise

    def rotate(self) -> None:
        if self.file is not None:
            self.file.close()
        self.number, self.size = self.number + 1, 0
        self.file = open(self.folder / f"{self.name}-{self.number:06}.record", "ab", buffering=0)
        old = self.folder / f"{self.name}-{self.number - MOST_FILES:06}.record"
        old.unlink(missing_ok=True)


# Reading.

@dataclass
class Step:
    """An event with what was answered, which is read where it is asked for: a picture wants a small part of a record."""

    time: float
    event: wire.Event
    bodies: list[str] | None = None

    @property
    def unread(self) -> bool:
        """The process ended before its answer was read."""
        return self.bodies is None

    @cached_property
    def outputs(self) -> list[wire.Output]:
        return [wire.read_output(bytes.fromhex(it)) for it in self.bodies or []]


@dataclass
class Run:
    """One process of a site, from its start to its end."""

    site: str
    time: float
    boot: int
    kept: dict[int, int]  # what the start found: records of each node that the run before forced
    steps: list[Step] = field(default_factory=list)
    ended: float = 0.0


class BadRecord(ValueError):
    """A line that is none of a record."""


def lines_of(files: list[Path]) -> Iterator[tuple[Path, int, list[str]]]:
    for path in files:
        with open(path, encoding="ascii") as file:
            for number, line in enumerate(file, 1):
                if line.endswith("\n"):  # (a stop may cut the last)
                    yield path, number, line.split()


def read(folder: Path) -> list[Run]:
    """The runs of the site whose records are in this folder, oldest first."""
    runs: list[Run] = []
    waiting: list[Step] = []
    bodies: list[str] = []
    files = sorted(folder.glob("*.record"))
    if not files:
        raise BadRecord(f"{folder}: no records are there")
    for path, number, words in lines_of(files):
        try:
            at, what = float(words[0]), words[1]
            if what == "start":
                kept = {int(node): int(count) for node, _, count in (it.partition(":") for it in words[4:])}
                runs.append(Run(words[2], at, int(words[3]), kept))
                waiting, bodies = [], []
            elif not runs:
                continue  # (the file with its start is gone)
            elif what == "in":
                waiting.append(Step(at, wire.read_event(bytes.fromhex(words[2]))))
                runs[-1].steps.append(waiting[-1])
            elif what == "out":
                bodies.append(words[2])
            elif what == "over":
                waiting.pop(0).bodies, bodies = bodies, []
            runs[-1].ended = at
        except (ValueError, IndexError) as error:
            raise BadRecord(f"{path}:{number}: {error}") from error
    return runs
