"""Worlds of sites for the tests: made, started, and stopped with a look at what they leave."""
from __future__ import annotations

import asyncio
import os
import shutil
from collections.abc import Callable, Coroutine
from pathlib import Path
from typing import Any

import pytest

from ripsaw.world import World

PROGRAM = os.environ.get("TPNODE") or shutil.which("tpnode") or ""
DRAW = os.environ.get("TPDRAW") or shutil.which("tpdraw") or ""
UNITE = os.environ.get("TPUNITE") or shutil.which("tpunite") or ""
needs_program = pytest.mark.skipif(not PROGRAM, reason="TPNODE does not name the program")

CALLS = {"add": ["update account set balance = balance + cast(?2 as integer) where name = ?1"], "see": ["select balance from account where name = ?1"]}
SQLITE: dict[str, Any] = {
    "kind": "sqlite", "file": "accounts.db", "tables": ["account"],
    "create": ["create table if not exists account (name text primary key, balance integer)", "insert or ignore into account values ('anna', 100)"]}
QUICK = {"patience": 5.0, "retry_least": 0.2, "retry_most": 1.0}


def play(folder: Path, names: list[str], part: Callable[[World], Coroutine[Any, Any, None]], *, roots: int = 2, sqlite: bool = True,
         clean: bool = True, **options: Any) -> World:
    """Runs a part in a world that has come up. At the end the sites come to rest, end with 0, and the audit says yes."""
    world = World(folder, names, roots, PROGRAM)
    resources = {name: SQLITE for name in names} if sqlite else {}
    resources.update(options.pop("resources", {}))
    more = {**QUICK, **options.pop("more", {})}
    world.make(resources, CALLS, more=more, **options)

    async def whole() -> None:
        await world.whole(60)
        await part(world)
        if clean:
            await world.whole(60)

    try:
        world.start()
        asyncio.run(whole())
        statuses = world.stop()
        said = {it.name: (it.folder / "errors").read_text() for it in world.places.values()}
        assert not any(statuses), (statuses, said)
        if clean:
            assert world.audit() == (0, "yes\n")
    finally:
        world.kill()
    return world
