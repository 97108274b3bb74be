"""One process `tpnode node`: events go in without a wait for answers, and each is answered in its order.

What was given since the loop last came round is written at once, so that the site reads many events at a time and may force their
records together.
"""
from __future__ import annotations

import asyncio
from collections import deque
from pathlib import Path
from typing import Callable, Optional, cast

from . import wire

Then = Optional[Callable[[list[wire.Output]], None]]
Answered = Callable[[wire.Event, list[wire.Output]], None]
MOST_WAITING = 20_000  # events without an answer above which nothing more is read from peers


class Engine(asyncio.SubprocessProtocol):
    def __init__(self, given: Callable[[wire.Event], None], written: Callable[[], bool], answered: Answered) -> None:
        self.given, self.written, self.answered = given, written, answered
        self.waiting: deque[tuple[wire.Event, Then]] = deque()
        self.events = 0
        self.frames = wire.Frames()
        self.outputs: list[wire.Output] = []
        self.unwritten: list[bytes] = []
        self.said = b""
        self.transport: asyncio.SubprocessTransport | None = None
        self.loop = asyncio.get_running_loop()
        self.ended: asyncio.Future[int] = self.loop.create_future()
        self.has_room = asyncio.Event()
        self.has_room.set()
        self.closing = self.killed = False

    @staticmethod
    async def start(program: list[str], name: str, folder: Path, lock: int, given: Callable[[wire.Event], None],
                    written: Callable[[], bool], answered: Answered) -> Engine:
        """Starts the process. It inherits the lock of the folder, so that no other daemon starts beside one that still ends."""
        engine = Engine(given, written, answered)
        await engine.loop.subprocess_exec(lambda: engine, *program, "node", "--name", name, cwd=folder, pass_fds=(lock,))
        return engine

    def give(self, event: wire.Event, then: Then = None) -> None:
        """Puts an event in; `then` is called with its outputs, all but Over. After the process has ended nothing happens."""
        if self.ended.done() or self.closing:
            return
        self.events += 1
        self.given(event)
        self.waiting.append((event, then))
        if len(self.waiting) > MOST_WAITING:
            self.has_room.clear()
        if not self.unwritten:
            self.loop.call_soon(self.write)
        self.unwritten.append(wire.frame(event.body()))

    def write(self) -> None:
        pieces, self.unwritten = self.unwritten, []
        pipe = self.pipe()
        if pieces and pipe is not None and not pipe.is_closing() and self.written():
            pipe.write(b"".join(pieces))

    def pipe(self) -> asyncio.WriteTransport | None:
        if self.transport is None:
            return None
        return cast(Optional[asyncio.WriteTransport], self.transport.get_pipe_transport(0))

    def close(self) -> None:
        """The end of the input: the process answers what it has, and ends."""
        self.write()
        self.closing = True
        pipe = self.pipe()
        if pipe is not None:
            pipe.close()

    async def over(self) -> None:
        await asyncio.shield(self.ended)

    def kill(self) -> None:
        self.killed = True  # (nothing that it still said is acted upon)
        if self.transport is not None and self.transport.get_returncode() is None:
            self.transport.kill()

    # What the loop calls.

    def connection_made(self, transport: asyncio.BaseTransport) -> None:
        self.transport = cast(asyncio.SubprocessTransport, transport)

    def pipe_data_received(self, fd: int, data: bytes) -> None:
        if fd == 2:
            self.said = (self.said + data)[-2000:]
            return
        for body in self.frames.feed(data):
            if self.killed:
                return
            output = wire.read_output(body)
            if output is not wire.OVER:
                self.outputs.append(output)
                continue
            outputs, self.outputs = self.outputs, []
            event, then = self.waiting.popleft()
            self.answered(event, outputs)
            if then is not None:
                then(outputs)
        if len(self.waiting) <= MOST_WAITING // 2:
            self.has_room.set()

    def connection_lost(self, error: Exception | None) -> None:
        """The process has ended and all that it wrote was read."""
        self.waiting.clear()
        self.has_room.set()
        assert self.transport is not None
        code = self.transport.get_returncode()
        if not self.ended.done():
            self.ended.set_result(-1 if code is None else code)


def refused(outputs: list[wire.Output]) -> int | None:
    """The number by which an event was refused, of its outputs."""
    for output in outputs:
        if isinstance(output, wire.Refused):
            return output.number
    return None
