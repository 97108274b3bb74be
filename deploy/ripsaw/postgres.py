"""A resource in PostgreSQL: a branch works in a transaction of its own connection, and votes by PREPARE TRANSACTION.

The server needs `max_prepared_transactions` of at least as many as the site has nodes. A prepared transaction is named after the site, the node
and the tree, so `recover` finds it in `pg_prepared_xacts` after any stop of the site or of the server. Calls are as in `ripsaw.sqlite`.
"""
from __future__ import annotations

import json
import re
import threading
from typing import Any

import psycopg
from psycopg import sql

from .resource import Branch, Vote, WorkFailed
from .sqlite import places_of, statements

Connection = Any  # of psycopg


class PostgresResource:
    def __init__(self, connect: str, site: str, calls: dict[str, list[str]], lock_seconds: float = 2.0, most_rows: int = 100) -> None:
        self.connect, self.prefix, self.calls = connect, f"ripsaw/{site}/", calls
        self.lock_seconds, self.most_rows = lock_seconds, most_rows
        self.turn = threading.Lock()
        self.idle: list[Connection] = []
        self.working: dict[int, Connection] = {}

    # Connections.

    def new(self) -> Connection:
        connection = psycopg.connect(self.connect, autocommit=True)
        connection.execute(sql.SQL("SET lock_timeout = {}").format(sql.Literal(int(self.lock_seconds * 1000))))
        return connection

    def say(self, statement: sql.Composable | str, words: tuple[Any, ...] = ()) -> list[Any]:
        """One statement outside of a transaction. A connection that an earlier stop of the server has broken is replaced."""
        while True:
            with self.turn:
                connection = self.idle.pop() if self.idle else None
            fresh = connection is None
            if connection is None:
                connection = self.new()
            try:
                cursor = connection.execute(statement, words)
                rows = cursor.fetchall() if cursor.description else []
                self.give_back(connection)
                return list(rows)
            except psycopg.OperationalError:
                if fresh or not connection.broken:
                    self.give_back(connection)
                    raise
            except psycopg.Error:
                self.give_back(connection)
                raise

    def give_back(self, connection: Connection) -> None:
        if connection.broken or connection.closed:
            connection.close()
            return
        with self.turn:
            self.idle.append(connection)

    def begun(self, node: int) -> Connection:
        """The connection of this node's transaction, which begins with its first work."""
        with self.turn:
            connection = self.working.get(node) or (self.idle.pop() if self.idle else None)
            if connection is not None and self.working.get(node) is connection:
                return connection
        if connection is not None:
            try:
                connection.execute("BEGIN")
            except psycopg.OperationalError:
                connection.close()
                connection = None
        if connection is None:
            connection = self.new()
            connection.execute("BEGIN")
        with self.turn:
            self.working[node] = connection
        return connection

    # Work.

    def work(self, node: int, data: bytes) -> bytes:
        found, words = statements(self.calls, data)
        return self.do(node, [(named(it), {f"p{k}": words[k - 1] for k in range(1, places_of(it) + 1)}) for it in found if len(words) >= places_of(it)])

    def execute(self, node: int, data: bytes) -> bytes:
        """A call, or else any statement but one that ends the transaction."""
        word = data.split(None, 1)[:1]
        if word and word[0].decode(errors="replace") in self.calls:
            return self.work(node, data)
        if not word or word[0].upper() not in (b"SELECT", b"INSERT", b"UPDATE", b"DELETE", b"WITH", b"MERGE"):
            raise WorkFailed("SELECT, INSERT, UPDATE, DELETE, WITH or MERGE")
        return self.do(node, [(data.decode(), None)])

    def do(self, node: int, asked: list[tuple[str, dict[str, str] | None]]) -> bytes:
        if not asked:
            raise WorkFailed("words are missing")
        try:
            connection = self.begun(node)
            rows: list[Any] = []
            for statement, words in asked:
                cursor = connection.execute(statement, words)
                if cursor.description is None and cursor.rowcount == 0:
                    raise WorkFailed("no row is changed")
                rows = cursor.fetchmany(self.most_rows) if cursor.description else []
            return json.dumps(rows, default=str).encode()
        except psycopg.Error as error:
            raise WorkFailed(str(error).strip().splitlines()[0]) from error

    # The outcome.

    def gid(self, branch: Branch) -> sql.Literal:
        return sql.Literal(f"{self.prefix}{branch}")

    def prepare(self, branch: Branch) -> Vote:
        with self.turn:
            connection = self.working.get(branch.node)
        if connection is None:
            return Vote.UNCHANGED
        if connection.execute("SELECT pg_current_xact_id_if_assigned()").fetchone()[0] is None:
            return Vote.UNCHANGED
        status = connection.execute(sql.SQL("PREPARE TRANSACTION {}").format(self.gid(branch))).statusmessage
        with self.turn:
            del self.working[branch.node]
        self.give_back(connection)
        # (a transaction that had failed is rolled back by it, without an error)
        return Vote.READY if status == "PREPARE TRANSACTION" else Vote.ROLLBACK

    def commit(self, branch: Branch) -> None:
        try:
            self.say(sql.SQL("COMMIT PREPARED {}").format(self.gid(branch)))
        except psycopg.errors.UndefinedObject:
            pass  # (it was done before)
        self.drop_work(branch.node)

    def rollback(self, node: int) -> None:
        self.drop_work(node)
        for branch in self.prepared():
            if branch.node == node:
                try:
                    self.say(sql.SQL("ROLLBACK PREPARED {}").format(self.gid(branch)))
                except psycopg.errors.UndefinedObject:
                    pass

    def drop_work(self, node: int) -> None:
        with self.turn:
            connection = self.working.pop(node, None)
        if connection is None:
            return
        try:
            connection.execute("ROLLBACK")
        except psycopg.Error:
            connection.close()
        self.give_back(connection)

    def prepared(self) -> list[Branch]:
        rows = self.say("SELECT gid FROM pg_prepared_xacts WHERE database = current_database() AND starts_with(gid, %s)", (self.prefix,))
        return [Branch.of(gid[len(self.prefix):]) for (gid,) in rows]

    def recover(self) -> list[Branch]:
        for node in list(self.working):
            self.drop_work(node)
        return self.prepared()

    def close(self) -> None:
        with self.turn:
            for connection in [*self.idle, *self.working.values()]:
                connection.close()
            self.idle, self.working = [], {}


def named(statement: str) -> str:
    """`?1` as psycopg writes it."""
    return re.sub(r"\?(\d+)", r"%(p\1)s", statement.replace("%", "%%"))
