"""PostgresResource: kills of the site's process at each statement, and of the server at each step."""
from __future__ import annotations

import shutil
import tempfile
from collections.abc import Callable, Iterator
from pathlib import Path
from typing import Any

import pytest

from ripsaw import cluster
from ripsaw.resource import Vote, WorkFailed
from tests import kills

psycopg = pytest.importorskip("psycopg")
from ripsaw.postgres import PostgresResource  # noqa: E402

pytestmark = pytest.mark.skipif(cluster.programs() is None, reason="PostgreSQL is not installed")


@pytest.fixture(scope="module")
def server() -> Iterator[cluster.Cluster]:
    # (of a short path, since a socket's has at most 107 bytes)
    folder = Path(tempfile.mkdtemp(prefix="pg-"))
    folder.chmod(0o755)
    found = cluster.Cluster(folder / "c")
    found.start()
    yield found
    found.remove()
    shutil.rmtree(folder)


def say(server: cluster.Cluster, *statements: str) -> list[Any]:
    with psycopg.connect(server.connect, autocommit=True) as connection:
        for statement in statements:
            cursor = connection.execute(statement)
        return list(cursor.fetchall()) if cursor.description else []


def fresh(server: cluster.Cluster) -> None:
    say(server, "drop table if exists account, moved", *kills.CREATE)


def content(server: cluster.Cluster) -> tuple[dict[str, int], dict[str, int], int]:
    accounts: dict[str, int] = dict(say(server, "select name, balance from account"))
    moved: dict[str, int] = dict(say(server, "select id, amount from moved"))
    return accounts, moved, len(say(server, "select gid from pg_prepared_xacts"))


KEPT: tuple[dict[str, int], dict[str, int], int] = ({"anna": 130, "bert": 70}, {"one": 30, "two": -30}, 0)
NOTHING: tuple[dict[str, int], dict[str, int], int] = ({"anna": 100, "bert": 100}, {}, 0)


class Counted:
    """A connection that counts its statements, before they are sent and after they are done."""

    def __init__(self, connection: Any, statement: Callable[[], None]) -> None:
        self.connection, self.statement = connection, statement

    def execute(self, *words: Any) -> Any:
        self.statement()
        answer = self.connection.execute(*words)
        self.statement()
        return answer

    def __getattr__(self, name: str) -> Any:
        return getattr(self.connection, name)


def resource(server: cluster.Cluster) -> PostgresResource:
    return PostgresResource(server.connect, "bank", kills.CALLS, lock_seconds=0.3)


def counted(server: cluster.Cluster, statement: Callable[[], None]) -> PostgresResource:
    mine = resource(server)
    plain = mine.new
    setattr(mine, "new", lambda: Counted(plain(), statement))
    return mine


def at_each_point(server: cluster.Cluster, outcome: str, kept: bool) -> None:
    votes = 0
    for point in range(1, kills.MOST_POINTS):
        fresh(server)
        was_killed, said = kills.killed(lambda statement: counted(server, statement), outcome, point)
        mine = resource(server)
        kills.finish(mine, outcome, said)
        mine.close()
        votes += "voted" in said
        assert content(server) == (KEPT if kept and "voted" in said else NOTHING), point
        if not was_killed:
            break
    else:
        pytest.fail("no life came to its end")
    assert point > 10 and votes > 1


def test_nothing_is_lost_and_nothing_is_done_twice(server: cluster.Cluster) -> None:
    at_each_point(server, "commit", True)


def test_a_rollback_leaves_nothing(server: cluster.Cluster) -> None:
    at_each_point(server, "rollback", False)


def test_the_server_stops_at_each_step(server: cluster.Cluster) -> None:
    for step in range(4):
        fresh(server)
        mine = resource(server)
        mine.work(7, b"add anna 30 one")
        if step == 0:
            restart(server)
            with pytest.raises(WorkFailed):
                mine.work(7, b"add bert -30 two")
            mine.rollback(7)
            assert content(server) == NOTHING
            continue
        mine.work(7, b"add bert -30 two")
        if step == 1:
            restart(server)
            with pytest.raises(psycopg.Error):
                mine.prepare(kills.BRANCH)
            mine.rollback(7)
            assert content(server) == NOTHING
            continue
        assert mine.prepare(kills.BRANCH) is Vote.READY
        restart(server)
        assert mine.recover() == [kills.BRANCH]
        mine.commit(kills.BRANCH)
        if step == 3:
            restart(server)
            mine.commit(kills.BRANCH)
        assert content(server) == KEPT
        mine.close()


def restart(server: cluster.Cluster) -> None:
    server.stop()
    server.start()


def test_reading_alone_leaves(server: cluster.Cluster) -> None:
    fresh(server)
    mine = resource(server)
    assert mine.execute(7, b"select balance from account where name = 'anna'") == b"[[100]]"
    assert mine.prepare(kills.BRANCH) is Vote.UNCHANGED
    mine.rollback(7)


def test_a_row_is_locked_until_the_outcome(server: cluster.Cluster) -> None:
    fresh(server)
    mine = resource(server)
    mine.work(7, b"add anna 30 one")
    mine.prepare(kills.BRANCH)
    with pytest.raises(WorkFailed, match="lock timeout"):
        mine.work(8, b"add anna 1 three")
    mine.rollback(8)
    mine.commit(kills.BRANCH)
    assert content(server)[0] == {"anna": 130, "bert": 100}
