"""What strangers do to the ports of a site: refused, told in the metrics, and nothing else changes."""
from __future__ import annotations

import asyncio
import contextlib
import random
import re
import ssl
import struct
from pathlib import Path

from ripsaw import client, wire
from ripsaw.world import World, certify
from tests.worlds import needs_program, play

pytestmark = needs_program
Streams = tuple[asyncio.StreamReader, asyncio.StreamWriter]


async def refusals(world: World) -> dict[str, int]:
    text = await world.places["bank"].page("/metrics")
    return {why: int(count) for why, count in re.findall(r'refused_connections_total\{why="([^"]*)"\} (\d+)', text)}


async def works(world: World) -> None:
    async with client.Site.connect(world.places["bank"].socket) as bank, bank.transaction("shop") as t:
        await t.call("shop", b"add anna 1")


async def events(world: World) -> int:
    found = re.search(r"ripsaw_process_events (\d+)", await world.places["bank"].page("/metrics"))
    assert found is not None
    return int(found[1])


def greeting(name: str, first: int) -> bytes:
    return wire.frame(b"\x50" + wire.text_of_site(name) + struct.pack(">QHH", 2**63, first, first + 999))


async def dial(world: World, folder: Path | None) -> Streams:
    """A connection to bank with the certificate of this folder, or a plain one."""
    context = None
    if folder is not None:
        context = ssl.SSLContext(ssl.PROTOCOL_TLS_CLIENT)
        context.check_hostname = False
        context.verify_mode = ssl.CERT_NONE
        context.load_cert_chain(folder / "certificate.pem", folder / "key.pem")
    return await asyncio.open_connection("127.0.0.1", world.places["bank"].port, ssl=context)


async def refused(streams: Streams, said: bytes) -> None:
    """It says this, and is cut off without an answer."""
    reader, writer = streams
    with contextlib.suppress(OSError):
        writer.write(said)
        assert await asyncio.wait_for(reader.read(), 10) == b""
    writer.transport.abort()


def test_wrong_certificates_and_senders(tmp_path: Path) -> None:
    async def part(world: World) -> None:
        stranger = tmp_path / "stranger"
        stranger.mkdir()
        certify(stranger, "shop")
        shop = world.places["shop"].folder
        before = await events(world)
        with contextlib.suppress(ssl.SSLError):
            await refused(await dial(world, stranger), greeting("shop", 1001))
        await refused(await dial(world, shop), greeting("ware", 2001))
        await refused(await dial(world, shop), greeting("bank", 1))
        await refused(await dial(world, shop), greeting("shop", 1))
        with contextlib.suppress(ssl.SSLError):
            await refused(await dial(world, None), greeting("shop", 1001))
        assert await events(world) == before
        told = await refusals(world)
        assert told["tls"] == 2 and told["certificate"] == 1 and told["name"] == 1 and told["numbers"] == 1

        # One that is who it says sends as another: its connection ends there.
        reader, writer = await dial(world, shop)
        writer.write(greeting("shop", 1001))
        assert (await reader.readexactly(3))[2] == 0x50
        writer.write(wire.frame(b"\x51" + wire.Address("ware", 2001).text() + wire.Address("bank", 1).text() + wire.octets(b"\x05")))
        await asyncio.wait_for(reader.read(), 10)
        assert (await refusals(world))["sender"] == 1
        writer.transport.abort()

    world = play(tmp_path / "world", ["bank", "shop", "ware"], part, certificates=True, clean=False)
    assert world.audit() == (0, "yes\n")


def test_random_bytes_to_each_port(tmp_path: Path) -> None:
    async def part(world: World) -> None:
        draw, before = random.Random(1), await events(world)
        for port in (world.places["bank"].port, world.places["bank"].status):
            for _ in range(20):
                _, writer = await asyncio.open_connection("127.0.0.1", port)
                with contextlib.suppress(OSError):
                    writer.write(draw.randbytes(10_000))
                    await writer.drain()
                writer.close()
        for _ in range(20):
            _, writer = await asyncio.open_unix_connection(world.places["bank"].socket)
            with contextlib.suppress(OSError):
                writer.write(draw.randbytes(10_000) + b"\n{}\n[]\n" + b'{"op": "fly"}\n')
                await writer.drain()
            writer.close()
        await asyncio.sleep(0.5)
        told = await refusals(world)
        assert sum(told.values()) >= 40
        assert await events(world) == before
        await works(world)

    play(tmp_path, ["bank", "shop"], part)


def test_a_thousand_half_open_connections(tmp_path: Path) -> None:
    async def part(world: World) -> None:
        before = await events(world)
        open_ones = []
        for k in range(1000):
            open_ones.append(await asyncio.open_connection("127.0.0.1", world.places["bank"].port if k % 4 else world.places["bank"].status))
        await works(world)
        for _, writer in open_ones:
            writer.transport.abort()
        await asyncio.sleep(1)
        assert (await refusals(world))["crowd"] > 100
        assert await events(world) < before + 100
        await works(world)

    play(tmp_path, ["bank", "shop"], part)
