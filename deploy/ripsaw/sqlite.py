"""A resource in one SQLite file: what a branch did is done at once, and kept beside its undoing in a table of intents until its outcome.

Triggers on each table that `tables` names write, for each row that a branch changes, the statement that undoes it into `ripsaw_intent`. A row
that has an intent is locked: another branch that would change it waits, and fails where it waits too long. So a prepared branch can always
commit (its intents are taken away) and always roll back (they are played backwards), whatever stops in between. Reads do not lock, and see
what others have done and not yet committed.

A table needs a primary key and no other unique index, since a key that somebody has freed must stay locked. Nothing but these tables can be
changed by a branch.

A call is a name of `[calls]` in site.toml and its words, which stand for `?1`, `?2` and so on in its statements; a statement that changes must
change at least one row. What is answered is the last statement's rows, in JSON.
"""
from __future__ import annotations

import json
import re
import shlex
import sqlite3
import threading
import time
from collections import deque
from collections.abc import Callable
from dataclasses import dataclass
from pathlib import Path
from typing import Any

from .resource import Branch, Vote, WorkFailed

OWN = """
CREATE TABLE IF NOT EXISTS ripsaw_intent (number INTEGER PRIMARY KEY, node INTEGER NOT NULL, place TEXT NOT NULL, undo TEXT NOT NULL);
CREATE INDEX IF NOT EXISTS ripsaw_intent_node ON ripsaw_intent (node);
CREATE INDEX IF NOT EXISTS ripsaw_intent_place ON ripsaw_intent (place);
CREATE TABLE IF NOT EXISTS ripsaw_prepared (node INTEGER PRIMARY KEY, tree TEXT NOT NULL);
CREATE TABLE IF NOT EXISTS ripsaw_now (node INTEGER NOT NULL);
"""
LOCKED = "locked by another branch"
READING = {sqlite3.SQLITE_SELECT, sqlite3.SQLITE_READ, sqlite3.SQLITE_FUNCTION, sqlite3.SQLITE_RECURSIVE}
CHANGING = {sqlite3.SQLITE_INSERT, sqlite3.SQLITE_UPDATE, sqlite3.SQLITE_DELETE}


@dataclass
class Task:
    """Something to be done durably, with others that wait at the same time."""

    do: Callable[[sqlite3.Connection], Any]
    done: bool = False
    answer: Any = None
    error: Exception | None = None


def statements(calls: dict[str, list[str]], data: bytes) -> tuple[list[str], list[str]]:
    """The statements of the call that these octets name, and its words."""
    try:
        name, *words = shlex.split(data.decode())
    except ValueError as error:
        raise WorkFailed(f"no call: {error}") from error
    if name not in calls:
        raise WorkFailed(f"no call {name}")
    return calls[name], words


class SqliteResource:
    def __init__(self, file: Path, calls: dict[str, list[str]], tables: list[str] | None = None, create: list[str] | None = None,
                 lock_seconds: float = 2.0, most_rows: int = 100) -> None:
        self.calls, self.lock_seconds, self.most_rows = calls, lock_seconds, most_rows
        # (no statement is kept, so that each is asked of `allowed`)
        self.connection = sqlite3.connect(file, isolation_level=None, check_same_thread=False, timeout=10, cached_statements=0)
        self.watched: set[str] = set()
        self.guarded = False
        self.turn = threading.Lock()
        self.freed = threading.Condition()
        self.tasks: deque[Task] = deque()
        say = self.connection.execute
        say("PRAGMA journal_mode = WAL")
        say("PRAGMA synchronous = FULL")
        say("PRAGMA recursive_triggers = ON")  # (so that what REPLACE deletes has its intent)
        self.connection.executescript(OWN)
        for statement in create or []:
            say(statement)
        for table in tables or []:
            self.watch(table)
        self.connection.set_authorizer(self.allowed)

    def allowed(self, action: int, one: str | None, two: str | None, database: str | None, trigger: str | None) -> int:
        """While a branch works: it reads what it likes, and changes watched tables alone."""
        if not self.guarded or (trigger or "").startswith("ripsaw_") or action in READING or action in CHANGING and one in self.watched:
            return sqlite3.SQLITE_OK
        return sqlite3.SQLITE_DENY

    def watch(self, table: str) -> None:
        """Writes the triggers of a table."""
        say = self.connection.execute
        self.watched.add(table)
        columns: list[tuple[str, int]] = [(row[1], row[5]) for row in say(f"PRAGMA table_info({quoted(table)})")]
        keys = [name for name, key in sorted(columns, key=lambda it: it[1]) if key]
        if not keys:
            raise ValueError(f"table {table} is not there, or has no primary key")
        if any(row[2] and row[3] != "pk" for row in say(f"PRAGMA index_list({quoted(table)})")):
            raise ValueError(f"table {table} has a unique index beside its primary key: what frees such a key would not stay locked")
        names = [name for name, _ in columns]

        def place(side: str) -> str:
            return " || ',' || ".join([text(table)] + [f"quote({side}.{quoted(key)})" for key in keys])

        def where(side: str) -> str:
            return " || ' AND ' || ".join(f"{text(quoted(key) + ' IS ')} || quote({side}.{quoted(key)})" for key in keys)

        there = " || ',' || ".join(f"quote(OLD.{quoted(name)})" for name in names)
        back = " || ',' || ".join(f"{text(quoted(name) + ' = ')} || quote(OLD.{quoted(name)})" for name in names)
        undo = {
            "INSERT": (["NEW"], f"{text(f'DELETE FROM {quoted(table)} WHERE ')} || {where('NEW')}"),
            "DELETE": (["OLD"], f"{text(f'INSERT INTO {quoted(table)} VALUES (')} || {there} || ')'"),
            "UPDATE": (["OLD", "NEW"], f"{text(f'UPDATE {quoted(table)} SET ')} || {back} || ' WHERE ' || {where('NEW')}"),
        }
        for verb, (sides, statement) in undo.items():
            locked = "".join(f"SELECT RAISE(ABORT, {text(LOCKED)}) WHERE EXISTS (SELECT 1 FROM ripsaw_intent WHERE place = {place(side)} "
                             "AND node <> (SELECT node FROM ripsaw_now)); " for side in sides)
            kept = f"INSERT INTO ripsaw_intent (node, place, undo) SELECT node, {place(sides[0])}, {statement} FROM ripsaw_now; "
            if len(sides) == 2:  # (a key that changes locks both)
                kept += (f"INSERT INTO ripsaw_intent (node, place, undo) SELECT node, {place('NEW')}, '' FROM ripsaw_now "
                         f"WHERE {place('NEW')} <> {place('OLD')}; ")
            name = quoted(f"ripsaw_{table}_{verb.lower()}")
            say(f"DROP TRIGGER IF EXISTS {name}")
            say(f"CREATE TRIGGER {name} AFTER {verb} ON {quoted(table)} WHEN EXISTS (SELECT 1 FROM ripsaw_now) BEGIN {locked}{kept}END")

    # Work.

    def work(self, node: int, data: bytes) -> bytes:
        found, words = statements(self.calls, data)
        return self.do(node, [(it, words[:places_of(it)]) for it in found])

    def execute(self, node: int, data: bytes) -> bytes:
        """A call, or else any statement: an application of this site may say what it likes."""
        word = data.split(None, 1)[:1]
        if word and word[0].decode(errors="replace") in self.calls:
            return self.work(node, data)
        return self.do(node, [(data.decode(), [])])

    def do(self, node: int, asked: list[tuple[str, list[str]]]) -> bytes:
        """Does statements in one go; where a row is locked it waits for an outcome, and tries again."""
        end = time.monotonic() + self.lock_seconds
        while True:
            with self.freed:
                try:
                    return json.dumps(self.once(node, asked)).encode()
                except sqlite3.IntegrityError as error:
                    if str(error) != LOCKED or time.monotonic() > end:
                        raise WorkFailed(str(error)) from error
                except sqlite3.Error as error:
                    raise WorkFailed(str(error)) from error
                self.freed.wait(max(0.0, end - time.monotonic()))

    def once(self, node: int, asked: list[tuple[str, list[str]]]) -> list[Any]:
        with self.turn:
            say = self.connection.execute
            # (it need not last: what is not prepared is dropped at a start)
            say("PRAGMA synchronous = NORMAL")
            say("BEGIN IMMEDIATE")
            try:
                say("INSERT INTO ripsaw_now VALUES (?)", (node,))
                self.guarded = True
                rows = self.each(asked)
                self.guarded = False
                say("DELETE FROM ripsaw_now")
                say("COMMIT")
                return rows
            except BaseException:
                self.guarded = False
                if self.connection.in_transaction:
                    say("ROLLBACK")
                raise

    def each(self, asked: list[tuple[str, list[str]]]) -> list[Any]:
        rows: list[Any] = []
        for statement, words in asked:
            cursor = self.connection.execute(statement, words)
            rows = cursor.fetchmany(self.most_rows)
            if cursor.description is None and cursor.rowcount == 0:
                raise WorkFailed("no row is changed")
        return rows

    # The outcome.

    def prepare(self, branch: Branch) -> Vote:
        def prepared(connection: sqlite3.Connection) -> Vote:
            if connection.execute("SELECT 1 FROM ripsaw_intent WHERE node = ?", (branch.node,)).fetchone() is None:
                return Vote.UNCHANGED
            connection.execute("INSERT OR REPLACE INTO ripsaw_prepared VALUES (?, ?)", (branch.node, str(branch.tree)))
            return Vote.READY

        vote: Vote = self.durably(prepared)
        return vote

    def commit(self, branch: Branch) -> None:
        def kept(connection: sqlite3.Connection) -> None:
            key = (branch.node, str(branch.tree))
            if connection.execute("DELETE FROM ripsaw_prepared WHERE node = ? AND tree = ?", key).rowcount:
                connection.execute("DELETE FROM ripsaw_intent WHERE node = ?", (branch.node,))

        self.durably(kept)
        with self.freed:
            self.freed.notify_all()

    def rollback(self, node: int) -> None:
        with self.turn:
            if self.connection.execute("SELECT 1 FROM ripsaw_intent WHERE node = ?", (node,)).fetchone() is None:
                return
        self.durably(lambda connection: undo_all(connection, node))
        with self.freed:
            self.freed.notify_all()

    def recover(self) -> list[Branch]:
        def dropped(connection: sqlite3.Connection) -> list[Branch]:
            for (node,) in connection.execute("SELECT DISTINCT node FROM ripsaw_intent WHERE node NOT IN (SELECT node FROM ripsaw_prepared)").fetchall():
                undo_all(connection, node)
            return [Branch.of(f"{node}/{tree}") for node, tree in connection.execute("SELECT node, tree FROM ripsaw_prepared")]

        found: list[Branch] = self.durably(dropped)
        return found

    def durably(self, do: Callable[[sqlite3.Connection], Any]) -> Any:
        """What waits at the same time is done in one transaction of the file, and so with one sync."""
        task = Task(do)
        self.tasks.append(task)
        with self.turn:
            if not task.done:
                self.do_tasks()
        if task.error is not None:
            raise task.error
        return task.answer

    def do_tasks(self) -> None:
        tasks = [self.tasks.popleft() for _ in range(len(self.tasks))]
        say = self.connection.execute
        try:
            say("PRAGMA synchronous = FULL")
            say("BEGIN IMMEDIATE")
            for task in tasks:
                say("SAVEPOINT task")
                try:
                    task.answer = task.do(self.connection)
                except Exception as error:
                    task.error = error
                    say("ROLLBACK TO task")
                say("RELEASE task")
            say("COMMIT")
        except sqlite3.Error as error:
            if self.connection.in_transaction:
                say("ROLLBACK")
            for task in tasks:
                task.error = error
        for task in tasks:
            task.done = True

    def close(self) -> None:
        with self.turn:
            self.connection.close()


def undo_all(connection: sqlite3.Connection, node: int) -> None:
    """Plays the intents of a node backwards, and takes them away. Nothing stands in `ripsaw_now`, so no trigger writes."""
    for (undo,) in connection.execute("SELECT undo FROM ripsaw_intent WHERE node = ? ORDER BY number DESC", (node,)).fetchall():
        if undo:
            connection.execute(undo)
    connection.execute("DELETE FROM ripsaw_intent WHERE node = ?", (node,))
    connection.execute("DELETE FROM ripsaw_prepared WHERE node = ?", (node,))


def places_of(statement: str) -> int:
    """The greatest N of ?N in a statement."""
    return max((int(it) for it in re.findall(r"\?(\d+)", statement)), default=0)


def quoted(name: str) -> str:
    return '"' + name.replace('"', '""') + '"'


def text(value: str) -> str:
    return "'" + value.replace("'", "''") + "'"
