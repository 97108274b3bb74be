"""`ripsaw.client` without asyncio: the same names, for one thread at a time.

    with Site("bank/site.sock") as bank:
        with bank.transaction("shop") as t:
            t.call("shop", b"reserve 7")
            t.execute(b"debit anna 10")
"""
from __future__ import annotations

import base64
import contextlib
import itertools
import json
import socket
from pathlib import Path
from types import TracebackType
from typing import Any, Iterator

from .client import KINDS, Busy, CallFailed, CommitmentError, InDoubt, Misuse, Mixed, RolledBack, SiteLost

__all__ = ["Busy", "CallFailed", "CommitmentError", "InDoubt", "Misuse", "Mixed", "RolledBack", "Site", "SiteLost", "Transaction"]


class Site:
    """The site of this machine, over its Unix socket."""

    def __init__(self, path: str | Path) -> None:
        self.socket = socket.socket(socket.AF_UNIX)
        try:
            self.socket.connect(str(path))
        except OSError as error:
            self.socket.close()
            raise SiteLost(str(error)) from error
        self.answers = self.socket.makefile("rb")
        self.numbers = itertools.count(1)

    def __enter__(self) -> Site:
        return self

    def __exit__(self, kind: type[BaseException] | None, error: BaseException | None, trace: TracebackType | None) -> None:
        self.close()

    def close(self) -> None:
        self.answers.close()
        self.socket.close()

    def ask(self, op: str, **words: Any) -> dict[str, Any]:
        number = next(self.numbers)
        try:
            self.socket.sendall(json.dumps({"id": number, "op": op, **words}).encode() + b"\n")
            line = self.answers.readline()
        except OSError as error:
            raise SiteLost(str(error)) from error
        if not line.endswith(b"\n"):
            raise SiteLost("the site has closed its connection")
        said: dict[str, Any] = json.loads(line)
        if "error" in said:
            raise KINDS.get(said["kind"], Misuse)(said["error"])
        return said

    @contextlib.contextmanager
    def transaction(self, *sites: str) -> Iterator[Transaction]:
        """Commits at the end of the block, and rolls back where the block raises."""
        said = self.ask("begin", sites=list(sites))
        transaction = Transaction(self, said["t"], said["tree"])
        try:
            yield transaction
        except BaseException as error:
            with contextlib.suppress(CommitmentError):
                transaction.rollback()
            if isinstance(error, SiteLost):
                raise RolledBack(f"{transaction.tree}: the site was lost before commitment was asked") from error
            raise
        transaction.commit()

    def outcome(self, tree: str) -> str:
        return str(self.ask("outcome", tree=tree)["outcome"])


class Transaction:
    def __init__(self, site: Site, number: int, tree: str) -> None:
        self.site, self.number, self.tree, self.complete = site, number, tree, False

    def call(self, site: str, data: bytes) -> bytes:
        return base64.b64decode(self.site.ask("call", t=self.number, site=site, data=base64.b64encode(data).decode())["data"])

    def execute(self, data: bytes) -> bytes:
        return base64.b64decode(self.site.ask("execute", t=self.number, data=base64.b64encode(data).decode())["data"])

    def commit(self) -> None:
        try:
            said = self.site.ask("commit", t=self.number)
        except SiteLost:
            raise InDoubt(self.tree) from None
        self.complete = said["complete"]
        if said["outcome"] != "commit":
            raise RolledBack(f"{self.tree}: {said['why']}")
        if said["report"] != "none":
            raise Mixed(self.tree, said["report"])

    def rollback(self) -> None:
        self.site.ask("rollback", t=self.number)
