"""The demonstration: three banks as sites on loopback, money that moves between them, and kills at any moment. `./bank` runs it.

At the end all of this must hold: the sum of all money is what it was; a transfer that was told committed stands at both accounts, once, and one
that was told rolled back at neither; one in doubt has ended alike at both, as `outcome` says; no resource holds anything back; the sites
end cleanly; and `tpnode audit` of the three logs says yes, and that nothing is in doubt. The status is 0 exactly then.
"""
from __future__ import annotations

import argparse
import asyncio
import importlib.util
import itertools
import random
import shutil
import signal
import sqlite3
import subprocess
import sys
import tempfile
import time
from contextlib import suppress
from dataclasses import dataclass
from os import kill as kill_process
from pathlib import Path
from typing import Any

from . import client, draw, history, log
from .world import Place, World

BANKS = ["north", "south", "west"]
ACCOUNTS, BALANCE = 40, 1000
ENOUGH, MOST_LONGER = 8, 300  # records that a wrong site loses, and seconds that it may take longer for them
MOST_TRIED = 12  # transfers of which a picture is looked for
CALLS = {
    "debit": ["update account set balance = balance - cast(?2 as integer) where name = ?1 and balance >= cast(?2 as integer)",
              "insert into transfer values (?3, - cast(?2 as integer))"],
    "credit": ["update account set balance = balance + cast(?2 as integer) where name = ?1",
               "insert into transfer values (?3, cast(?2 as integer))"],
}
TABLES = ["create table if not exists account (name text primary key, balance integer not null)",
          "create table if not exists transfer (id text primary key, amount integer not null)"]


@dataclass
class Transfer:
    """What a teller has asked, and what it was told."""

    name: str
    root: str
    source: str
    target: str
    amount: int
    tree: str = ""
    told: str = ""  # committed, rolled back, in doubt
    why: str = ""
    saw_kill: str = ""

    @property
    def sites(self) -> set[str]:
        return {self.root, self.source, self.target}


class Bank:
    """One run."""

    def __init__(self, options: argparse.Namespace, folder: Path, banks: list[str]) -> None:
        self.options, self.folder, self.banks = options, folder, banks
        self.world = World(folder, banks, max(4, -(-options.clients // 2)), options.program)
        self.draw = random.Random(options.seed)
        self.transfers: list[Transfer] = []
        self.in_flight: dict[int, Transfer] = {}
        self.names = itertools.count()
        self.kills = 0
        self.faults: list[str] = []
        self.clusters: dict[str, Any] = {}
        self.turns = {name: asyncio.Lock() for name in banks}  # nobody is killed while it is
        self.ending = False
        self.taken_back = 0
        self.begun = 0.0
        self.seconds = 0.0

    # The world.

    def make(self) -> None:
        resources: dict[str, Any] = {}
        if self.options.postgres:
            from .cluster import Cluster
            for name in self.banks[:2]:
                self.clusters[name] = Cluster(self.folder / f"postgres-{name}")
                self.clusters[name].start()
                resources[name] = {"kind": "postgres", "connect": self.clusters[name].connect}
        for name in self.banks:
            resources.setdefault(name, {"kind": "sqlite", "file": "accounts.db", "tables": ["account", "transfer"]})
        self.make_sites(resources)
        for name in self.banks:
            accounts = [(f"{name}{k}", BALANCE) for k in range(ACCOUNTS)]
            if name in self.clusters:
                self.ask_server(name, *TABLES, *(f"insert into account values ('{it}', {balance})" for it, balance in accounts))
            else:
                with sqlite3.connect(self.world.places[name].folder / "accounts.db") as connection:
                    for table in TABLES:
                        connection.execute(table)
                    connection.executemany("insert into account values (?, ?)", accounts)
                connection.close()

    def make_sites(self, resources: dict[str, Any]) -> None:
        more = {"patience": 5.0, "retry_least": 0.3, "retry_most": 3.0, "recycle_events": self.options.recycle, "compact_bytes": self.options.compact}
        self.world.make(resources, CALLS, record=True, certificates=self.options.tls, more=more)

    def ask_server(self, name: str, *statements: str) -> list[Any]:
        import psycopg
        with psycopg.connect(self.clusters[name].connect, autocommit=True) as connection:
            for statement in statements:
                cursor = connection.execute(statement)
            return list(cursor.fetchall()) if cursor.description else []

    # The tellers.

    async def teller(self, number: int) -> None:
        """Moves money, one transfer after the other."""
        connections: dict[str, client.Site] = {}
        while not self.ending:
            root, *others = self.draw.sample(self.banks, 3)
            # (at times the root's bank pays itself, at times two others do, and the root only sees to it)
            source, target = (root, others[0]) if self.draw.random() < 0.5 else (others[0], others[1])
            transfer = Transfer(f"t{next(self.names)}", root, source, target, self.draw.randint(1, 50))
            try:
                if root not in connections or connections[root].lost:
                    connections[root] = await client.Site.open(self.world.places[root].socket)
                await self.move(number, connections[root], transfer)
            except client.SiteLost:
                await asyncio.sleep(0.05)
            except client.Busy:
                pass
        for connection in connections.values():
            await connection.close()

    async def move(self, number: int, bank: client.Site, transfer: Transfer) -> None:
        words = {"debit": f"debit {transfer.source}{self.draw.randrange(ACCOUNTS)} {transfer.amount} {transfer.name}".encode(),
                 "credit": f"credit {transfer.target}{self.draw.randrange(ACCOUNTS)} {transfer.amount} {transfer.name}".encode()}
        try:
            async with bank.transaction(*(transfer.sites - {transfer.root})) as t:
                transfer.tree, transfer.told = t.tree, "in doubt"
                self.transfers.append(transfer)
                self.in_flight[number] = transfer
                if transfer.source == transfer.root:
                    await t.execute(words["debit"])
                else:
                    await t.call(transfer.source, words["debit"])
                await t.call(transfer.target, words["credit"])
            transfer.told = "committed"
        except (client.RolledBack, client.CallFailed) as error:
            transfer.told = "rolled back"
            transfer.why = str(error)
            await asyncio.sleep(0.1)  # (somebody is away, or holds the account)
        except client.InDoubt:
            pass
        except client.Mixed as error:
            self.faults.append(str(error))
        finally:
            self.in_flight.pop(number, None)

    # The kills.

    async def killer(self) -> None:
        """So many kills over the run, at moments that nobody chose, each of a site or of a database."""
        span = self.options.seconds
        moments = sorted(self.draw.uniform(0.08 * span, 0.92 * span) for _ in range(self.options.kills))
        restarts = []
        for moment in moments:
            await asyncio.sleep(max(0.0, self.begun + moment - time.monotonic()))
            name = self.banks[0] if self.options.wrong and self.draw.random() < 0.6 else self.draw.choice(self.banks)
            for transfer in self.in_flight.values():
                if name in transfer.sites:
                    transfer.saw_kill = f"{name} was killed"
            restarts.append(asyncio.create_task(self.kill_one(name)))
        for it in restarts:
            await it
        # (fewer may be made good by chance, as votes for what rolls back anyway)
        while self.options.wrong and self.taken_back < ENOUGH and time.monotonic() < self.begun + span + MOST_LONGER:
            await self.kill_one(self.banks[0])

    async def kill_one(self, name: str) -> None:
        """A database, a process tpnode whose daemon starts it anew, or a daemon with its tpnode."""
        async with self.turns[name]:
            place, draw = self.world.places[name], self.draw.random()
            self.kills += 1
            if name in self.clusters and draw < 0.4:
                await asyncio.to_thread(self.clusters[name].stop)
                await asyncio.to_thread(self.clusters[name].start)
                return
            number = None if self.options.wrong or draw > 0.65 else place.tpnode()
            if number is not None:
                with suppress(ProcessLookupError):
                    kill_process(number, signal.SIGKILL)
                return
            wrong = self.options.wrong and name == self.banks[0]
            if wrong:
                await self.moment(place)
            place.kill()
            if wrong:
                self.taken_back += take_back(place)
            await asyncio.sleep(self.draw.choice([0, 0.1, 0.5]))
            place.start()

    async def moment(self, place: Place) -> None:
        """Waits, ten seconds at most, until the last record is a vote or a root's Commit: the loss of another is made good by a retry."""
        end = time.monotonic() + 10
        while time.monotonic() < end:
            last = last_record(place)
            if last is not None and (last.kind is log.Kind.READY or last.kind is log.Kind.COMMIT and last.branch is None):
                return
            await asyncio.sleep(0.02)

    # The run.

    async def run(self) -> None:
        self.say("the banks start ..")
        self.world.start()
        try:
            await self.world.whole(max(60, self.options.rest))
        except TimeoutError as error:
            self.faults.append(str(error))
            return
        self.begun = time.monotonic()
        tellers = [asyncio.create_task(self.teller(k)) for k in range(self.options.clients)]
        killing = asyncio.create_task(self.killer())
        end = self.begun + self.options.seconds
        while (now := time.monotonic()) < end or self.options.wrong and not killing.done():
            done = sum(it.told == "committed" for it in self.transfers)
            self.say(f"{now - self.begun:5.1f} s   {done} transfers   {self.kills} kills")
            await asyncio.sleep(min(0.2, max(0.01, end - now)))
        self.seconds = time.monotonic() - self.begun
        self.ending = True
        await killing
        await asyncio.gather(*tellers)
        self.say("nothing new begins; the sites come to rest ..")
        try:
            await self.world.whole(self.options.rest)
        except TimeoutError as error:
            self.faults.append(str(error))
        await self.ask_outcomes()

    async def ask_outcomes(self) -> None:
        """What the sites themselves say of those that no teller knows the end of."""
        for transfer in self.transfers:
            if transfer.told == "in doubt":
                site = await self.world.places[transfer.root].connect()
                transfer.told = {"commit": "committed", "rollback": "rolled back"}.get(await site.outcome(transfer.tree), "in doubt")
                await site.close()

    def say(self, text: str) -> None:
        if sys.stderr.isatty():
            print(f"\r\x1b[K{text}", end="", file=sys.stderr, flush=True)

    # The judgement.

    def read(self, name: str) -> tuple[int, dict[str, int], int]:
        """Of a bank: the money, the transfers, and how much its resource still holds back."""
        if name in self.clusters:
            money = int(self.ask_server(name, "select sum(balance) from account")[0][0])
            moved = dict(self.ask_server(name, "select id, amount from transfer"))
            return money, moved, len(self.ask_server(name, "select gid from pg_prepared_xacts"))
        connection = sqlite3.connect(self.world.places[name].folder / "accounts.db")
        money = int(connection.execute("select sum(balance) from account").fetchone()[0])
        moved = dict(connection.execute("select id, amount from transfer").fetchall())
        held = int(connection.execute("select count(*) from ripsaw_intent").fetchone()[0])
        connection.close()
        return money, moved, held

    def judge(self) -> int:
        """Looks at what the banks hold; gives the sum of all money."""
        fault = self.faults.append
        held = {name: self.read(name) for name in self.banks}
        total = sum(money for money, _, _ in held.values())
        if total != len(self.banks) * ACCOUNTS * BALANCE:
            fault(f"the sum of all money is {total}, and was {len(self.banks) * ACCOUNTS * BALANCE}")
        for name, (_, _, back) in held.items():
            if back:
                fault(f"{name} holds {back} changes back")
        for transfer in self.transfers:
            there = (held[transfer.source][1].get(transfer.name), held[transfer.target][1].get(transfer.name))
            wanted = {"committed": (-transfer.amount, transfer.amount), "rolled back": (None, None)}.get(transfer.told)
            if there != wanted:
                fault(f"{transfer.name} ({transfer.tree}) was told {transfer.told}, and stands as {there[0]} at {transfer.source} "
                      f"and {there[1]} at {transfer.target}")
        for name in self.banks:
            logged = committed(self.world.places[name])
            told = {it.tree for it in self.transfers if it.root == name and it.told == "committed"}
            if logged != told:
                fault(f"the log of {name} commits {len(logged)} trees, and {len(told)} were told so; they differ in {sorted(logged ^ told)[:3]}")
        return total


def committed(place: Place) -> set[str]:
    """The trees of a site's roots that its log commits, or did before it was compacted."""
    earlier = place.folder / "committed"
    found = {str(it) for it in log.committed((place.folder / "tp.log").read_bytes(), place.name)}
    return found | set(earlier.read_text("ascii").split() if earlier.exists() else [])


def last_record(place: Place) -> log.Entry | None:
    content = (place.folder / "tp.log").read_bytes()
    gates = log.places(content)[0]
    body = log.body_at(content, gates[-1]) if gates else log.VERSION
    return None if body == log.VERSION else log.read_entry(body)


def take_back(place: Place) -> int:
    """The wrong site: its log loses the last record at a kill, as though it had answered before it forced."""
    path = place.folder / "tp.log"
    path.with_name("tp.seal").unlink(missing_ok=True)
    last = last_record(place)
    if last is None or last.kind is log.Kind.BOOT:
        return 0
    with open(path, "r+b") as file:
        file.seek(log.places(path.read_bytes())[0][-1])
        file.write(b"\x00")
    return 1


def picture(bank: Bank) -> str:
    """Draws the last transfer that was under way at a kill and went on after it; the path of it, or why there is none."""
    try:
        sites = history.Sites.read([it.folder for it in bank.world.places.values()])
        for transfer in [it for it in bank.transfers if it.saw_kill][:-MOST_TRIED:-1]:
            try:
                transcript = draw.transcript(sites, transfer.tree)
            except draw.NoSuchTree:
                continue  # (it was stopped before its first branch)
            if "> crash" in transcript:
                place = bank.options.pictures / f"bank-{transfer.tree}.svg"
                with open(place, "wb") as file:
                    subprocess.run([bank.options.draw], input=transcript.encode(), stdout=file, check=True)
                return f"{place} ({transfer.told}; {transfer.saw_kill})"
    except (OSError, ValueError, subprocess.CalledProcessError) as error:
        return f"could not be drawn: {error}"
    return "no transfer was under way at a kill and went on after it"


def tell(bank: Bank, total: int, audit: tuple[int, str]) -> None:
    counts = {word: sum(it.told == word for it in bank.transfers) for word in ("committed", "rolled back", "in doubt")}
    held = "SQLite" if not bank.clusters else "PostgreSQL, PostgreSQL, SQLite"
    print(f"transfers  {counts['committed']} committed, {counts['rolled back']} rolled back, {counts['in doubt']} in doubt; "
          f"{counts['committed'] / max(bank.seconds, 1):.1f} a second")
    print(f"kills      {bank.kills}" + (f", and {bank.taken_back} records taken back from the log of {bank.banks[0]}" if bank.options.wrong else ""))
    print(f"money      {total} of {len(bank.banks) * ACCOUNTS * BALANCE} ({held})")
    print(f"audit      {audit[1].strip().replace(chr(10), '; ')}")
    if bank.options.draw:
        print(f"picture    {picture(bank)}")
    for fault in bank.faults[:8]:
        print(f"FAULT      {fault}")
    if len(bank.faults) > 8:
        print(f"FAULT      and {len(bank.faults) - 8} more")
    print("all holds" if not bank.faults else f"{len(bank.faults)} faults; what was left is in {bank.folder}")


def one_run(options: argparse.Namespace) -> int:
    folder = Path(tempfile.mkdtemp(prefix="bank-", dir=options.folder))
    folder.chmod(0o755)
    bank = Bank(options, folder, BANKS)
    try:
        bank.make()
        asyncio.run(bank.run())
        statuses = bank.world.stop()
        if any(statuses):
            bank.faults.append(f"the sites end with {statuses}")
        total = bank.judge()
        audit = bank.world.audit()
        if audit != (0, "yes\n"):
            bank.faults.append("the audit does not say yes alone")
        bank.say("")
        tell(bank, total, audit)
    finally:
        bank.world.kill()
        for cluster in bank.clusters.values():
            cluster.remove()
        if not bank.faults and not options.keep:
            shutil.rmtree(folder, ignore_errors=True)
    return 1 if bank.faults else 0


def main() -> int:
    parser = argparse.ArgumentParser(prog="bank", description="Moves money between three banks that are killed at any moment, and judges what is left.")
    parser.add_argument("--seconds", type=float, default=10, help="how long money is moved (10)")
    parser.add_argument("--kills", type=int, help="how many sites or databases are killed (5)")
    parser.add_argument("--clients", type=int, default=12, help="how many transfers are under way at once (12)")
    parser.add_argument("--postgres", action="store_true", help="two of the banks keep their accounts in private servers of PostgreSQL")
    parser.add_argument("--tls", action="store_true", help="the banks speak over TLS, each with a certificate of its own")
    parser.add_argument("--wrong", action="store_true", help="a site that is wrong: its log loses the last record at each kill; the status must be 1")
    parser.add_argument("--recycle", type=int, default=900_000, help="events after which a site's tpnode is replaced (900,000)")
    parser.add_argument("--compact", type=int, default=32 * 1024 * 1024, help="bytes of a log above which it is then compacted (33,554,432)")
    parser.add_argument("--seed", type=int, help="of the draws; processes have none, so no two runs are alike")
    parser.add_argument("--folder", type=Path, help="where the sites' folders are made")
    parser.add_argument("--keep", action="store_true", help="leave them there")
    parser.add_argument("--pictures", type=Path, default=Path.cwd(), help="where the picture is written (here)")
    parser.add_argument("--rest", type=float, default=30, help="seconds in which the sites must come to rest (30)")
    parser.add_argument("--program", default="tpnode", help=argparse.SUPPRESS)
    parser.add_argument("--draw", default="", help=argparse.SUPPRESS)
    options = parser.parse_args()
    if options.kills is None:
        options.kills = 20 if options.wrong else 5
    if options.postgres and (importlib.util.find_spec("psycopg") is None or not Path("/usr/lib/postgresql").is_dir()):
        parser.error("--postgres needs the packages postgresql and python3-psycopg")
    try:
        return one_run(options)
    except KeyboardInterrupt:
        return 130


if __name__ == "__main__":
    sys.exit(main())
