"""SqliteResource: kills at each statement, locks, and what a branch may not do."""
from __future__ import annotations

import sqlite3
from collections.abc import Callable
from pathlib import Path

import pytest

from ripsaw.resource import Branch, Vote, WorkFailed
from ripsaw.sqlite import SqliteResource
from ripsaw.wire import Identifier
from tests import kills

OTHER = Branch(8, Identifier("bank", 1, 2, 2))


def made(file: Path) -> SqliteResource:
    return SqliteResource(file, kills.CALLS, ["account", "moved"], kills.CREATE, lock_seconds=0.2)


def counted(file: Path, statement: Callable[[], None]) -> SqliteResource:
    resource = made(file)
    resource.connection.set_trace_callback(lambda text: statement())
    return resource


def content(file: Path) -> tuple[dict[str, int], dict[str, int], int]:
    connection = sqlite3.connect(file)
    accounts = dict(connection.execute("select name, balance from account").fetchall())
    moved = dict(connection.execute("select id, amount from moved").fetchall())
    held = connection.execute("select (select count(*) from ripsaw_intent) + (select count(*) from ripsaw_prepared)").fetchone()[0]
    connection.close()
    return accounts, moved, held


def at_each_point(tmp_path: Path, outcome: str, kept: bool) -> None:
    """A life is killed in its first statement, its second, and so on, until one comes to its end."""
    votes = 0
    for point in range(1, kills.MOST_POINTS):
        file = tmp_path / f"{point}.db"
        made(file).close()
        was_killed, said = kills.killed(lambda statement: counted(file, statement), outcome, point)
        resource = made(file)
        kills.finish(resource, outcome, said)
        resource.close()
        committed = kept and "voted" in said
        votes += "voted" in said
        assert content(file) == (({"anna": 130, "bert": 70}, {"one": 30, "two": -30}, 0) if committed else ({"anna": 100, "bert": 100}, {}, 0)), point
        if not was_killed:
            break
    else:
        pytest.fail("no life came to its end")
    assert point > 10 and votes > 1


def test_nothing_is_lost_and_nothing_is_done_twice(tmp_path: Path) -> None:
    at_each_point(tmp_path, "commit", True)


def test_a_rollback_leaves_nothing(tmp_path: Path) -> None:
    at_each_point(tmp_path, "rollback", False)


def test_a_row_is_locked_until_the_outcome(tmp_path: Path) -> None:
    resource = made(tmp_path / "x.db")
    resource.work(7, b"add anna 30 one")
    assert resource.prepare(kills.BRANCH) is Vote.READY
    with pytest.raises(WorkFailed, match="locked"):
        resource.work(8, b"add anna 1 three")
    resource.work(8, b"add bert 1 three")
    resource.commit(kills.BRANCH)
    resource.work(8, b"add anna 1 four")
    resource.rollback(8)
    assert content(tmp_path / "x.db")[:2] == ({"anna": 130, "bert": 100}, {"one": 30})


def test_what_is_undone_is_as_it_was(tmp_path: Path) -> None:
    resource = SqliteResource(tmp_path / "x.db", {}, ["thing"], [
        "create table thing (a text, b integer, c real, d blob, primary key (a, b))",
        "insert into thing values ('it''s', 1, 0.1, x'00ff'), ('two', 2, 1e300, null)"])
    before = resource.connection.execute("select * from thing order by a").fetchall()
    for statement in (b"update thing set b = b + 10, c = null", b"delete from thing where a = 'two'", b"insert into thing values ('new', 1, 2, 3)",
                      b"insert or replace into thing values ('it''s', 11, 7, 'seven')", b"update thing set a = a || 'x'", b"delete from thing"):
        resource.execute(7, statement)
    resource.rollback(7)
    assert resource.connection.execute("select * from thing order by a").fetchall() == before


def test_a_freed_key_stays_locked(tmp_path: Path) -> None:
    resource = made(tmp_path / "x.db")
    resource.execute(7, b"delete from account where name = 'anna'")
    with pytest.raises(WorkFailed, match="locked"):
        resource.execute(8, b"insert into account values ('anna', 5)")
    resource.rollback(7)
    assert content(tmp_path / "x.db")[0] == {"anna": 100, "bert": 100}


@pytest.mark.parametrize("statement", [
    b"delete from ripsaw_intent", b"commit", b"pragma synchronous = off", b"create table more (x)", b"attach 'y' as y", b"drop table account",
    b"insert into unwatched values (1)", b"update account set balance = 0; delete from account", b"not sql"])
def test_a_branch_changes_watched_tables_alone(tmp_path: Path, statement: bytes) -> None:
    resource = made(tmp_path / "x.db")
    resource.connection.execute("create table unwatched (x integer primary key)")
    with pytest.raises(WorkFailed):
        resource.execute(7, statement)
    assert resource.prepare(kills.BRANCH) is Vote.UNCHANGED
    assert content(tmp_path / "x.db") == ({"anna": 100, "bert": 100}, {}, 0)


def test_a_second_unique_index_is_refused(tmp_path: Path) -> None:
    with pytest.raises(ValueError, match="unique index"):
        SqliteResource(tmp_path / "x.db", {}, ["thing"], ["create table thing (a integer primary key, b text unique)"])


def test_what_was_not_prepared_is_dropped_at_a_start(tmp_path: Path) -> None:
    resource = made(tmp_path / "x.db")
    resource.work(7, b"add anna 30 one")
    resource.work(8, b"add bert 30 two")
    resource.prepare(OTHER)
    resource.close()
    assert made(tmp_path / "x.db").recover() == [OTHER]
    assert content(tmp_path / "x.db")[0] == {"anna": 100, "bert": 130}
