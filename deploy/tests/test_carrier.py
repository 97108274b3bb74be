"""A link to a peer, without a site around it."""
from __future__ import annotations

import asyncio
import contextlib
from collections import Counter
from types import SimpleNamespace
from typing import Any

from ripsaw import carrier


def test_a_link_that_is_ended_ends() -> None:
    """Also where its connection breaks at that moment. A link that lived on would throw out the connections of the one that replaces it."""
    async def part() -> None:
        writers: list[asyncio.StreamWriter] = []

        async def peer(reader: asyncio.StreamReader, writer: asyncio.StreamWriter) -> None:
            writers.append(writer)
            writer.write(b"\x00\x01x")
            with contextlib.suppress(OSError):
                await reader.read()

        server = await asyncio.start_server(peer, "127.0.0.1", 0)
        port = server.sockets[0].getsockname()[1]
        around: Any = SimpleNamespace(lose=lambda site: None, connected=lambda site: None)
        hub: Any = SimpleNamespace(secured=None, counts=Counter(), around=around, links={}, check_certificate=lambda writer, peer: None,
                                   greeting=lambda: b"x", greeted=lambda body: ("peer", 1), refuse=lambda why: None)
        to: Any = SimpleNamespace(name="peer", host="127.0.0.1", port=port)
        for moment in range(60):
            link = hub.links["peer"] = carrier.Link(hub, to)
            task = asyncio.create_task(link.run())
            while not link.up:
                await asyncio.sleep(0.001)
            for it in writers:
                it.transport.abort()
            for _ in range(moment):
                await asyncio.sleep(0)
            task.cancel()
            for _ in range(100):
                await asyncio.sleep(0)
            assert task.done(), moment
        server.close()

    asyncio.run(part())
