"""What an application writes against, in asyncio; `ripsaw.plain` has the same without it.

    async with Site.connect("bank/site.sock") as bank:
        async with bank.transaction("shop") as t:
            await t.call("shop", b"reserve 7")
            await bank.execute(t, b"debit anna 10")

At the end of the block the transaction commits. Where the block raises, it rolls back. `t.tree` is the identifier of its tree, from the
begin on: write it down beside what you do, and `bank.outcome(tree)` answers for it after any crash.
"""
from __future__ import annotations

import asyncio
import base64
import contextlib
import itertools
import json
from pathlib import Path
from types import TracebackType
from typing import Any, AsyncIterator

MOST_LINE = 64 * 1024


class CommitmentError(Exception):
    """A transaction has not ended as its block asked."""


class RolledBack(CommitmentError):
    """Nothing of the transaction is kept, anywhere; it may be tried again."""


class Mixed(CommitmentError):
    """It committed, and a node decided otherwise (`mix`), or was given up and may have (`hazard`)."""

    def __init__(self, tree: str, report: str) -> None:
        super().__init__(f"{tree} has committed with {report}")
        self.tree, self.report = tree, report


class InDoubt(CommitmentError):
    """The site was lost after commitment was asked: `outcome(tree)` says how it ended, once the site is there again."""

    def __init__(self, tree: str) -> None:
        super().__init__(f"{tree} is in doubt: ask outcome({tree!r}) once the site is there again")
        self.tree = tree


class CallFailed(CommitmentError):
    """A branch could not do its work. The transaction can only roll back."""


class Busy(CommitmentError):
    """No root of the site became free in time; nothing was begun."""


class SiteLost(CommitmentError):
    """The site is not there. What had not asked for commitment is rolled back."""


class Misuse(CommitmentError):
    """The site does not know what was asked."""


KINDS: dict[str, type[CommitmentError]] = {"RolledBack": RolledBack, "WorkFailed": CallFailed, "Busy": Busy}


class Transaction:
    """One transaction; `tree` is its identifier, `complete` is False where branches have not all said that they are done."""

    def __init__(self, site: Site, number: int, tree: str) -> None:
        self.site, self.number, self.tree, self.complete = site, number, tree, False

    async def call(self, site: str, data: bytes) -> bytes:
        """Has the branch at a peer do its work, and gives its answer."""
        said = await self.site.ask("call", t=self.number, site=site, data=base64.b64encode(data).decode())
        return base64.b64decode(said["data"])

    async def execute(self, data: bytes) -> bytes:
        """The same for the root's own part."""
        said = await self.site.ask("execute", t=self.number, data=base64.b64encode(data).decode())
        return base64.b64decode(said["data"])

    async def commit(self) -> None:
        """Returns where every branch commits, and raises else."""
        try:
            said = await self.site.ask("commit", t=self.number)
        except SiteLost:
            raise InDoubt(self.tree) from None
        self.complete = said["complete"]
        if said["outcome"] != "commit":
            raise RolledBack(f"{self.tree}: {said['why']}")
        if said["report"] != "none":
            raise Mixed(self.tree, said["report"])

    async def rollback(self) -> None:
        await self.site.ask("rollback", t=self.number)


class Site:
    """The site of this machine, over its Unix socket."""

    def __init__(self, reader: asyncio.StreamReader, writer: asyncio.StreamWriter) -> None:
        self.reader, self.writer = reader, writer
        self.numbers = itertools.count(1)
        self.waiting: dict[int, asyncio.Future[dict[str, Any]]] = {}
        self.lost = False
        self.reading = asyncio.create_task(self.read())

    @staticmethod
    @contextlib.asynccontextmanager
    async def connect(path: str | Path) -> AsyncIterator[Site]:
        site = await Site.open(path)
        try:
            yield site
        finally:
            await site.close()

    @staticmethod
    async def open(path: str | Path) -> Site:
        try:
            return Site(*await asyncio.open_unix_connection(path, limit=MOST_LINE))
        except OSError as error:
            raise SiteLost(str(error)) from error

    async def close(self) -> None:
        self.writer.transport.abort()
        self.reading.cancel()
        with contextlib.suppress(asyncio.CancelledError):
            await self.reading

    async def read(self) -> None:
        try:
            while line := await self.reader.readline():
                said = json.loads(line)
                waiting = self.waiting.pop(said["id"], None)
                if waiting is not None and not waiting.done():
                    waiting.set_result(said)
        except OSError:
            pass
        finally:
            self.lost = True
            for waiting in self.waiting.values():
                if not waiting.done():
                    waiting.set_exception(SiteLost("the site has closed its connection"))
            self.waiting.clear()

    async def ask(self, op: str, **words: Any) -> dict[str, Any]:
        if self.lost:
            raise SiteLost("the site has closed its connection")
        number = next(self.numbers)
        answer: asyncio.Future[dict[str, Any]] = asyncio.get_running_loop().create_future()
        self.waiting[number] = answer
        self.writer.write(json.dumps({"id": number, "op": op, **words}).encode() + b"\n")
        said = await answer
        if "error" in said:
            raise KINDS.get(said["kind"], Misuse)(said["error"])
        return said

    async def begin(self, *sites: str) -> Transaction:
        """At a free root that has a dialogue with each of these sites; one that is not named here may be called, too."""
        said = await self.ask("begin", sites=list(sites))
        return Transaction(self, said["t"], said["tree"])

    def transaction(self, *sites: str) -> Block:
        return Block(self, sites)

    async def execute(self, transaction: Transaction, data: bytes | str) -> bytes:
        return await transaction.execute(data.encode() if isinstance(data, str) else data)

    async def outcome(self, tree: str) -> str:
        """`commit`, `rollback`, or `open` for a transaction that is not decided."""
        said = await self.ask("outcome", tree=tree)
        return str(said["outcome"])

    async def decide(self, node: int, outcome: str) -> None:
        """The operator's decision at a node in doubt."""
        await self.ask("decide", node=node, outcome=outcome)


class Block:
    """A transaction as an `async with`."""

    def __init__(self, site: Site, sites: tuple[str, ...]) -> None:
        self.site, self.sites = site, sites

    async def __aenter__(self) -> Transaction:
        self.transaction = await self.site.begin(*self.sites)
        return self.transaction

    async def __aexit__(self, kind: type[BaseException] | None, error: BaseException | None, trace: TracebackType | None) -> None:
        if kind is None:
            await self.transaction.commit()
            return
        with contextlib.suppress(CommitmentError):
            await self.transaction.rollback()
        if isinstance(error, SiteLost):
            raise RolledBack(f"{self.transaction.tree}: the site was lost before commitment was asked") from error
