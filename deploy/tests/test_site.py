"""Sites as processes: transactions, stops at any moment, recycling, records."""
from __future__ import annotations

import asyncio
import json
import os
import signal
import subprocess
import sys
from pathlib import Path

import pytest

from ripsaw import client, draw, history, plain, replay
from ripsaw.world import World
from tests.worlds import DRAW, PROGRAM, SQLITE, UNITE, needs_program, play

pytestmark = needs_program
SLOW = '''
"""A resource whose prepare takes its time, so that a test can stop the site within it."""
import time
from ripsaw.sqlite import SqliteResource

class Slow(SqliteResource):
    def __init__(self, settings, **options):
        super().__init__(settings.folder / "accounts.db", settings.calls, **options)

    def prepare(self, branch):
        vote = super().prepare(branch)
        time.sleep(3)
        return vote
'''


async def balance(world: World, name: str) -> int:
    site = await world.places[name].connect()
    async with site.transaction() as t:
        found = json.loads(await t.execute(b"see anna"))
    await site.close()
    return int(found[0][0])


def test_a_transaction(tmp_path: Path) -> None:
    async def part(world: World) -> None:
        async with client.Site.connect(world.places["bank"].socket) as bank:
            async with bank.transaction("shop", "ware") as t:
                assert await t.call("shop", b"add anna 5") == b"[]"
                assert json.loads(await t.call("ware", b"see anna")) == [[100]]
                await bank.execute(t, "update account set balance = balance - 5")
                assert await bank.outcome(t.tree) == "open"
            assert t.complete and await bank.outcome(t.tree) == "commit"
            with pytest.raises(KeyError):
                async with bank.transaction("shop") as t:
                    await t.call("shop", b"add anna 1000")
                    raise KeyError
            assert await bank.outcome(t.tree) == "rollback"
            with pytest.raises(client.CallFailed, match="no row is changed"):
                async with bank.transaction("shop") as t:
                    await t.execute(b"add anna 7")
                    await t.call("shop", b"add nobody 7")
            with pytest.raises(client.RolledBack):
                async with bank.transaction("shop") as t:
                    await t.execute(b"add anna 7")
                    with pytest.raises(client.CallFailed):
                        await t.call("shop", b"fly")
            with pytest.raises(client.Misuse):
                await bank.outcome("shop.1.1.1")
            with pytest.raises(client.Misuse):
                await bank.decide(1, "commit")
        await asyncio.to_thread(in_a_thread, world)
        assert [await balance(world, name) for name in ("bank", "shop", "ware")] == [90, 110, 100]
        page = json.loads(await world.places["bank"].page("/status"))
        assert page["commits"] >= 3 and page["rollbacks"] >= 3 and page["boot"] == 1

    def in_a_thread(world: World) -> None:
        with plain.Site(world.places["bank"].socket) as bank:
            with bank.transaction("shop") as t:
                t.call("shop", b"add anna 5")
                t.execute(b"add anna -5")
            assert bank.outcome(t.tree) == "commit"

    play(tmp_path, ["bank", "shop", "ware"], part)


def test_a_site_stops_after_commitment_is_asked(tmp_path: Path) -> None:
    """The root's site is killed while its own part is prepared: nothing is logged, so all roll back. The branch is in doubt until then."""
    async def part(world: World) -> None:
        async with client.Site.connect(world.places["bank"].socket) as bank:
            t = await bank.begin("shop")
            await t.call("shop", b"add anna 5")
            await t.execute(b"add anna -5")
            asking = asyncio.create_task(t.commit())
            await in_doubt(world)
            world.places["bank"].kill()
            with pytest.raises(client.InDoubt):
                await asking
        world.places["bank"].start()
        bank = await world.places["bank"].connect()
        assert await bank.outcome(t.tree) == "rollback"
        await bank.close()
        await world.whole(30)
        assert await balance(world, "shop") == 100

    play_slow(tmp_path, part, True)


def play_slow(folder: Path, part, clean: bool) -> World:  # type: ignore[no-untyped-def]
    slow = {"tables": SQLITE["tables"], "create": SQLITE["create"], "kind": "../slow.py:Slow"}
    (folder / "slow.py").write_text(SLOW)
    return play(folder, ["bank", "shop"], part, resources={"bank": slow}, clean=clean)


async def in_doubt(world: World) -> None:
    """Until shop has voted."""
    while not any(it["phase"] == "in doubt" for it in json.loads(await world.places["shop"].page("/status"))["open"]):
        await asyncio.sleep(0.02)
    await asyncio.sleep(0.2)


def test_a_decision_that_does_damage(tmp_path: Path) -> None:
    """The operator decides commit at a branch whose root's site is away, and the tree rolls back: the branch's site keeps that."""
    async def part(world: World) -> None:
        async with client.Site.connect(world.places["bank"].socket) as bank:
            t = await bank.begin("shop")
            await t.call("shop", b"add anna 5")
            await t.execute(b"add anna -5")
            asking = asyncio.create_task(t.commit())
            await in_doubt(world)
            world.places["bank"].kill()
            with pytest.raises(client.InDoubt):
                await asking
        async with client.Site.connect(world.places["shop"].socket) as shop:
            node = json.loads(await world.places["shop"].page("/status"))["open"][0]["node"]
            await shop.decide(node, "commit")
            assert await balance(world, "shop") == 105
            world.places["bank"].start()
            while not json.loads(await world.places["shop"].page("/status"))["kept"]:
                await asyncio.sleep(0.05)
            await shop.ask("purge", node=node)
            await asyncio.sleep(0.5)
        assert await balance(world, "shop") == 105

    world = play_slow(tmp_path, part, False)
    assert "damage" in subprocess.run([PROGRAM, "show"], cwd=world.places["shop"].folder, stdout=subprocess.PIPE).stdout.decode()


def test_tpnode_ends_under_its_daemon(tmp_path: Path) -> None:
    async def part(world: World) -> None:
        async with client.Site.connect(world.places["bank"].socket) as bank:
            for _ in range(3):
                t = await bank.begin("shop")
                await t.call("shop", b"add anna 1")
                number = world.places["shop"].tpnode()
                assert number is not None
                os.kill(number, signal.SIGKILL)
                with pytest.raises(client.RolledBack):
                    await t.commit()
                async with bank.transaction("shop") as t:
                    await t.call("shop", b"add anna 1")
        assert await balance(world, "shop") == 103
        assert json.loads(await world.places["shop"].page("/status"))["starts"] == 4

    play(tmp_path, ["bank", "shop"], part)


def test_recycling_and_compaction(tmp_path: Path) -> None:
    """A process is replaced after so many events, the log is made short, and what committed before is still known."""
    async def part(world: World) -> None:
        async with client.Site.connect(world.places["bank"].socket) as bank:
            trees = []
            for _ in range(40):
                try:
                    async with bank.transaction("shop") as t:
                        await t.call("shop", b"add anna 1")
                    trees.append(t.tree)
                except (client.RolledBack, client.CallFailed):
                    await asyncio.sleep(0.1)
            assert len(trees) > 20
            assert [await bank.outcome(it) for it in trees] == ["commit"] * len(trees)
        assert await balance(world, "shop") == 100 + len(trees)
        for name in ("bank", "shop"):
            page = json.loads(await world.places[name].page("/status"))
            assert page["starts"] >= 2 and page["boot"] == page["starts"] and page["log_bytes"] < 5000

    play(tmp_path, ["bank", "shop"], part, more={"recycle_events": 120, "compact_bytes": 100})


def test_the_record_is_a_run_of_the_program(tmp_path: Path) -> None:
    trees = []

    async def part(world: World) -> None:
        async def some(bank: client.Site) -> None:
            for _ in range(6):
                try:
                    async with bank.transaction("shop", "ware") as t:
                        trees.append(t.tree)
                        await asyncio.gather(t.call("shop", b"add anna 1"), t.call("ware", b"add anna -1"))
                except (client.CommitmentError):
                    await asyncio.sleep(0.1)

        for name in ("shop", "bank"):
            bank = await world.places["bank"].connect()
            working = [asyncio.create_task(some(bank)) for _ in range(3)]
            await asyncio.sleep(0.3)
            world.places[name].kill()
            await asyncio.sleep(0.2)
            world.places[name].start()
            await asyncio.wait(working)
            await bank.close()
        await world.whole(30)

    world = play(tmp_path, ["bank", "shop", "ware"], part, record=True, roots=4)
    folders = [it.folder for it in world.places.values()]
    events, logs, differ = replay.replay(folders, PROGRAM, tmp_path)
    assert not differ and logs == 3 and events > 200
    transcript = draw.transcript(history.Sites.read(folders), trees[0])
    assert f"begin {trees[0]}" in transcript
    if DRAW:
        drawn = subprocess.run([DRAW], input=transcript.encode(), stdout=subprocess.PIPE)
        assert drawn.returncode == 0 and drawn.stdout.endswith(b"</svg>\n")
    given = replay.recording(folders, PROGRAM, tmp_path)
    if UNITE:
        united = subprocess.run([UNITE], input=given, stdout=subprocess.PIPE)
        assert united.returncode == 0 and f"tree {trees[0]} agreed commit" in united.stdout.decode().splitlines()


def test_no_two_daemons_on_one_folder(tmp_path: Path) -> None:
    async def part(world: World) -> None:
        place = world.places["bank"]
        second = await asyncio.create_subprocess_exec(sys.executable, "-m", "ripsaw", "site", str(place.folder), stderr=subprocess.PIPE,
                                                      env={**os.environ, "RIPSAW_LOCK_SECONDS": "0.2"})
        said = (await second.communicate())[1].decode()
        assert second.returncode == 1 and "another process runs" in said
        async with client.Site.connect(place.socket) as bank, bank.transaction("shop") as t:
            await t.call("shop", b"add anna 1")

    play(tmp_path, ["bank", "shop"], part)
