#!/usr/bin/env python3
"""Commitments a second over sites on machines, beside PostgreSQL's PREPARE TRANSACTION with a coordinator's own table.

bench/run deploy [FOLDER [SECONDS]]

Ours: the daemon `ripsaw site` of deploy/ at three sites of one machine, a root at one and a branch at each of the two others, with an empty
resource, with SQLite, and with PostgreSQL. Theirs: one client that updates an account at each of two servers of PostgreSQL, prepares both,
writes its decision to a table of its own, and commits both. So many transactions are under way at once as is said, each with accounts of its
own. All logs and data are in FOLDER (default: the current one), each row is measured for SECONDS (default 8), and ours and theirs take turns.

The program is the one that the variable TPNODE names, or that ./bank would run. PostgreSQL is left out where it is not installed."""
import asyncio
import os
import pathlib
import shutil
import subprocess
import sys
import tempfile
import threading
import time

ROOT = pathlib.Path(__file__).resolve().parent.parent
sys.path[:0] = [str(ROOT / "deploy"), str(ROOT / "bench")]
sys.dont_write_bytecode = True
os.environ.setdefault("PYTHONPYCACHEPREFIX", str(ROOT / "out" / "pycache"))

import table
from ripsaw import client, cluster
from ripsaw.world import World

AT_ONCE = (1, 16, 64)
CALLS = {"add": ["update account set balance = balance + cast(?2 as integer) where name = ?1"]}
CREATE = ["create table if not exists account (name text primary key, balance integer not null)"]


def program():
    """The program that ./bank runs."""
    if "TPNODE" in os.environ:
        return os.path.realpath(os.environ["TPNODE"])
    words = ["sh", "-c", '. "$(dirname "$0")/programs.sh"; find_program "$@"; echo "$program"', str(ROOT / "bench-deploy"), "tpnode", "trial", "--nodes", "16", "--rounds", "3"]
    return subprocess.run(words, check=True, stdout=subprocess.PIPE, text=True).stdout.strip()


def accounts(say):
    for statement in CREATE + [f"insert into account values ('a{k}', 1000) on conflict do nothing" for k in range(max(AT_ONCE))]:
        say(statement)


def resources(kind, servers):
    """Of the two sites that have branches."""
    if kind == "SQLite":
        sqlite = {"kind": "sqlite", "file": "accounts.db", "tables": ["account"], "create": CREATE}
        return {"shop": sqlite, "ware": sqlite}
    if kind == "PostgreSQL":
        return {name: {"kind": "postgres", "connect": server.connect} for name, server in zip(("shop", "ware"), servers)}
    return {}


async def teller(bank, number, end, counts):
    words = f"add a{number} ".encode()
    while time.monotonic() < end:
        try:
            async with bank.transaction("shop", "ware") as t:
                await asyncio.gather(t.call("shop", words + b"1"), t.call("ware", words + b"-1"))
            counts["done"] += 1
        except client.CommitmentError as error:
            counts[str(error)] = counts.get(str(error), 0) + 1


async def measure(world, at_once, seconds):
    await world.whole(120)
    bank = await world.places["bank"].connect()
    counts = {"done": 0}
    begun = time.monotonic()
    await asyncio.gather(*(teller(bank, k, begun + seconds, counts) for k in range(at_once)))
    took = time.monotonic() - begun
    await bank.close()
    if len(counts) > 1:
        sys.exit(f"ours: {counts}")
    return counts["done"] / took


def ours(folder, kind, at_once, seconds, servers):
    room = pathlib.Path(tempfile.mkdtemp(prefix="bench-", dir=folder))
    world = World(room, ["bank", "shop", "ware"], max(AT_ONCE), program())
    try:
        world.make(resources(kind, servers), CALLS)
        if kind == "SQLite":
            import sqlite3
            for name in ("shop", "ware"):
                with sqlite3.connect(world.places[name].folder / "accounts.db") as connection:
                    accounts(connection.execute)
                connection.close()
        world.start()
        rate = asyncio.run(measure(world, at_once, seconds))
        if any(world.stop()) or world.audit() != (0, "yes\n"):
            sys.exit("ours: the sites do not end well")
        return rate
    finally:
        world.kill()
        shutil.rmtree(room, ignore_errors=True)


def theirs(servers, at_once, seconds):
    """What a user would write: a thread for each transaction at a time, a connection to each server and one for the decisions."""
    import psycopg
    done, end = [0] * at_once, time.monotonic() + seconds

    def work(number):
        pair = [psycopg.connect(server.connect, autocommit=True) for server in servers]
        own = psycopg.connect(servers[0].connect, autocommit=True)
        while time.monotonic() < end:
            name = f"t{number}_{done[number]}_{time.time_ns()}"
            for connection, change in zip(pair, (1, -1)):
                connection.execute("begin")
                connection.execute("update account set balance = balance + %s where name = %s", (change, f"a{number}"))
                connection.execute(f"prepare transaction '{name}'")
            own.execute("insert into decision values (%s)", (name,))
            for connection in pair:
                connection.execute(f"commit prepared '{name}'")
            done[number] += 1
        for connection in [*pair, own]:
            connection.close()

    begun = time.monotonic()
    threads = [threading.Thread(target=work, args=(k,)) for k in range(at_once)]
    for thread in threads:
        thread.start()
    for thread in threads:
        thread.join()
    return sum(done) / (time.monotonic() - begun)


def rows(folder, seconds=8.0):
    servers = []
    try:
        if cluster.programs() is not None:
            import psycopg
            room = pathlib.Path(tempfile.mkdtemp(prefix="pg-", dir=folder))
            room.chmod(0o755)
            for name in ("one", "two"):
                servers.append(cluster.Cluster(room / name))
                servers[-1].start()
                with psycopg.connect(servers[-1].connect, autocommit=True) as connection:
                    accounts(connection.execute)
                    connection.execute("create table decision (name text primary key)")
        for at_once in AT_ONCE:
            peer = theirs(servers, at_once, seconds) if servers else None
            for kind in ("nothing", "SQLite", "PostgreSQL") if servers else ("nothing", "SQLite"):
                rate = ours(folder, kind, at_once, seconds, servers)
                yield f"commitments a second of a root and two branches that keep {kind}, {at_once} at once", "1/s", rate, peer, "PREPARE TRANSACTION"
    finally:
        for server in servers:
            server.remove()
        if servers:
            shutil.rmtree(room, ignore_errors=True)


if __name__ == "__main__":
    table.show(rows(os.path.realpath(sys.argv[1] if len(sys.argv) > 1 else "."), float(sys.argv[2]) if len(sys.argv) > 2 else 8.0))
