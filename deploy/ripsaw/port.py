"""The Unix socket for applications of this site: a request a line and an answer a line, in JSON.

Each request has `id`, which its answer repeats, and `op`; octets are base64 in `data`. What is asked: `begin` (`sites`) gives `t` and `tree`; `call`
(`t`, `site`, `data`) and `execute` (`t`, `data`) give `data`; `commit` and `rollback` (`t`) give `outcome`, `report` and `complete`;
`outcome` (`tree`) gives `outcome`; `decide` (`node`, `outcome`), `give-up` (`node`, `peer`) and `purge` (`node`) are the operator's. An
answer that has `error` says in `kind` which it is. A transaction whose connection ends before it asked for commitment is rolled back.
"""
from __future__ import annotations

import asyncio
import base64
import contextlib
import json
import os
from typing import TYPE_CHECKING, Any

from . import wire
from .engine import refused
from .nodes import Ended, Transaction
from .resource import WorkFailed

if TYPE_CHECKING:
    from .site import Site

MOST_LINE = 64 * 1024
Answer = dict[str, Any]


class Session:
    """One application's connection."""

    def __init__(self, site: Site, reader: asyncio.StreamReader, writer: asyncio.StreamWriter) -> None:
        self.site, self.reader, self.writer = site, reader, writer
        self.mine: dict[int, Transaction] = {}
        self.number, self.gone = 0, False
        self.tasks: set[asyncio.Task[None]] = set()

    async def serve(self) -> None:
        try:
            while line := await self.reader.readline():
                request = json.loads(line)
                if not isinstance(request, dict):
                    raise ValueError("a request is an object")
                task = asyncio.create_task(self.answer(request))
                self.tasks.add(task)
                task.add_done_callback(self.tasks.discard)
        except (ValueError, OSError):
            self.site.counts["bad requests"] += 1
        except asyncio.CancelledError:
            pass  # (the site stops)
        finally:
            self.gone = True
            for transaction in self.mine.values():
                if not transaction.asked:
                    transaction.why = "its application is gone"
                    transaction.root.roll(transaction)
            self.writer.transport.abort()

    async def answer(self, request: Answer) -> None:
        said: Answer
        try:
            said = await self.do(request)
        except Ended as error:
            said = {"error": str(error), "kind": "RolledBack"}
        except WorkFailed as error:
            said = {"error": str(error), "kind": "WorkFailed"}
        except TimeoutError as error:
            said = {"error": str(error), "kind": "Busy"}
        except (KeyError, ValueError, TypeError) as error:
            said = {"error": f"{type(error).__name__}: {error}", "kind": "Misuse"}
        said["id"] = request.get("id")
        with contextlib.suppress(OSError):
            self.writer.write(json.dumps(said).encode() + b"\n")
            await self.writer.drain()

    async def do(self, request: Answer) -> Answer:
        op, site = request["op"], self.site
        if op == "begin":
            transaction = await site.begin(list(request.get("sites", [])))
            if self.gone:
                transaction.root.roll(transaction)
            self.number += 1
            self.mine[self.number] = transaction
            return {"t": self.number, "tree": str(transaction.tree)}
        if op == "outcome":
            return {"outcome": await site.outcome(wire.Identifier.of(request["tree"]))}
        if op in ("decide", "give-up", "purge"):
            return await self.operate(op, request)
        transaction = self.mine[request["t"]]
        if op == "call":
            data = base64.b64decode(request["data"])
            return {"data": text(await transaction.root.call(transaction, request["site"], data, site.settings.patience))}
        if op == "execute":
            return {"data": text(await transaction.root.execute(transaction, base64.b64decode(request["data"])))}
        if op in ("commit", "rollback"):
            return await self.end(request["t"], transaction, op == "commit")
        raise ValueError(f"{op} is no request")

    async def end(self, number: int, transaction: Transaction, commit: bool) -> Answer:
        """Until the commitment is complete, or has been decided so long ago that a branch must be out of reach."""
        root, patience = transaction.root, self.site.settings.patience
        try:
            if commit:
                asking = asyncio.create_task(root.commit(transaction))
                await asyncio.wait({asking}, timeout=patience)
                if asking.done():
                    asking.result()
                await asyncio.wait({transaction.decided}, timeout=patience)
                if not transaction.decided.done():
                    transaction.why = "not all have voted in time"
            if not transaction.decided.done():
                root.roll(transaction)
            await transaction.decided
            await asyncio.wait({transaction.ended}, timeout=patience)
        finally:
            self.mine.pop(number, None)  # (also where it rolled back before)
        committed, report = transaction.ended.result() if transaction.ended.done() else (transaction.decided.result(), wire.Report.NONE)
        self.site.counts["commits" if committed else "rollbacks"] += 1
        return {"outcome": "commit" if committed else "rollback", "complete": transaction.ended.done(), "report": wire.word(report), "why": transaction.why}

    async def operate(self, op: str, request: Answer) -> Answer:
        """A decision for a node in doubt, a branch given up, a kept transaction purged: OPERATING says when, and what it costs."""
        node = self.site.nodes[request["node"]]
        said: asyncio.Future[list[wire.Output]] = asyncio.get_running_loop().create_future()
        if op == "decide":
            node.decide(wire.Outcome[request["outcome"].upper()], said.set_result)
        elif op == "give-up":
            self.site.give(wire.GiveUp(node.number, request["peer"]), said.set_result)
        else:
            self.site.give(wire.Purge(node.number), said.set_result)
        number = refused(await said)
        if number is not None:
            raise ValueError(f"refused {number}: {wire.REFUSALS.get(number, '')}")
        return {}


def text(data: bytes) -> str:
    return base64.b64encode(data).decode()


class Port:
    def __init__(self, site: Site) -> None:
        self.site = site
        self.server: asyncio.Server | None = None

    async def start(self) -> None:
        path = self.site.settings.socket
        with contextlib.suppress(FileNotFoundError):
            path.unlink()
        mask = os.umask(0o177)
        try:
            self.server = await asyncio.start_unix_server(self.serve, path, limit=MOST_LINE)
        finally:
            os.umask(mask)

    async def serve(self, reader: asyncio.StreamReader, writer: asyncio.StreamWriter) -> None:
        await Session(self.site, reader, writer).serve()

    async def stop(self) -> None:
        if self.server is not None:
            self.server.close()
        with contextlib.suppress(FileNotFoundError):
            self.site.settings.socket.unlink()
