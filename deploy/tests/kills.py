"""A resource in a child process that is killed in its K-th statement, and what is left in the file or the server afterwards."""
from __future__ import annotations

import os
import signal
from collections.abc import Callable

from ripsaw.resource import Branch, Resource, Vote
from ripsaw.wire import Identifier

CALLS = {"add": ["update account set balance = balance + cast(?2 as integer) where name = ?1",
                 "insert into moved values (?3, cast(?2 as integer))"]}
CREATE = ["create table if not exists account (name text primary key, balance integer not null)",
          "create table if not exists moved (id text primary key, amount integer not null)",
          "insert into account values ('anna', 100) on conflict do nothing", "insert into account values ('bert', 100) on conflict do nothing"]
BRANCH = Branch(7, Identifier("bank", 1, 1, 2))
MOST_POINTS = 80


def life(resource: Resource, outcome: str, said: Callable[[str], object]) -> None:
    """What a branch goes through: work, the vote, the outcome. What a site would log is said before the next step."""
    resource.recover()
    resource.work(BRANCH.node, b"add anna 30 one")
    resource.work(BRANCH.node, b"add bert -30 two")
    assert resource.prepare(BRANCH) is Vote.READY
    said("voted")
    if outcome == "commit":
        resource.commit(BRANCH)
    else:
        resource.rollback(BRANCH.node)
    said("done")


def killed(make: Callable[[Callable[[], None]], Resource], outcome: str, point: int) -> tuple[bool, list[str]]:
    """Runs a life in a child that kills itself before its statement of that number; whether it came to that, and what it had said."""
    reading, writing = os.pipe()
    child = os.fork()
    if child == 0:
        try:
            left = iter(range(point - 1, 0, -1))
            life(make(lambda: None if next(left, 0) else os.kill(os.getpid(), signal.SIGKILL)), outcome, lambda word: os.write(writing, word.encode() + b" "))
        except BaseException as error:
            os.write(2, f"{error!r}\n".encode())
            os._exit(1)
        os._exit(0)
    os.close(writing)
    with open(reading, "rb") as file:
        said = file.read().decode().split()
    status = os.waitstatus_to_exitcode(os.waitpid(child, 0)[1])
    assert status in (0, -signal.SIGKILL), status
    return status != 0, said


def finish(resource: Resource, outcome: str, said: list[str]) -> None:
    """What a site does after a start: a branch that has voted ends as its tree did, told twice; any other is dropped."""
    prepared = resource.recover()
    if "voted" in said:
        assert "done" not in said or prepared == []
        for _ in range(2):
            if outcome == "commit":
                resource.commit(BRANCH)
            else:
                resource.rollback(BRANCH.node)
    else:
        for branch in prepared:
            resource.rollback(branch.node)
    assert resource.recover() == []
