"""The users of a site's nodes: what is answered to each indication.

A root belongs to one application's transaction at a time, and keeps a dialogue with its branch at each peer open between them. A branch does
the work that it is sent by its resource, votes as that can, and ends as it is told. In both, what the resource is asked goes one after the
other, and `done` is given only once the resource has kept or dropped its part.
"""
from __future__ import annotations

import asyncio
import time
from collections import deque
from collections.abc import Awaitable, Callable
from enum import Enum
from typing import Protocol, TypeVar

from . import wire
from .engine import refused
from .log import Kind, Standing
from .resource import Branch, NoResource, Resource, Vote, WorkFailed
from .wire import Ask, Do, Identifier, Indication, Report, Request, Retry, Told

CALL, DONE, FAILED = b"\x01", b"\x02", b"\x03"  # the first octet of what a root and a branch say to one another
LEAST_AGAIN, MOST_AGAIN = 0.05, 5.0
OPEN_PATIENCE = 2.0  # seconds for an answer to begin-dialogue, after which both ends lose it
T = TypeVar("T")


class Phase(Enum):
    IDLE = "idle"
    ACTIVE = "active"
    VOTED = "in doubt"
    COMMITTING = "committing"
    ROLLING = "rolling"


class Hub(Protocol):
    """What a node asks of its site."""

    def give(self, event: wire.Event, then: Callable[[list[wire.Output]], None] | None = None) -> None: ...
    async def thread(self, call: Callable[..., T], *words: object) -> T: ...
    def note(self, what: str) -> None: ...
    def freed(self, node: Node) -> None: ...
    def reaches(self, site: str) -> bool: ...
    def lose_pair(self, node: int, peer: wire.Address) -> None: ...


class Node:
    """What roots and branches share: the transaction's place, the jobs of the resource, the retries."""

    def __init__(self, hub: Hub, number: int, resource: Resource, retry_least: float, retry_most: float) -> None:
        self.hub, self.number, self.resource = hub, number, resource
        self.phase = Phase.IDLE
        self.tree: Identifier | None = None
        self.since = time.time()
        self.jobs: deque[Callable[[], Awaitable[None]]] = deque()
        self.working: asyncio.Task[None] | None = None
        self.turn = asyncio.Lock()
        self.retry_least, self.retry_most = retry_least, retry_most
        self.pause, self.retry_at = retry_least, 0.0
        self.kept = False  # a transaction is kept, and a retry may have something to say of it
        self.life = 0  # counts the starts of the process: what was begun in an earlier one is not gone on with

    def enter(self, phase: Phase, tree: Identifier | None) -> None:
        self.phase, self.tree, self.since = phase, tree, time.time()
        self.pause, self.retry_at = self.retry_least, time.monotonic() + self.retry_least

    def ask(self, kind: Ask, then: Callable[[list[wire.Output]], None] | None = None, *, peer: int = 0, octets: bytes = b"",
            units: int = 0, address: wire.Address | None = None) -> None:
        self.hub.give(Do(self.number, Request(kind, peer, address, units, octets)), then)

    # What the resource is asked: one after the other.

    def job(self, job: Callable[[], Awaitable[None]]) -> None:
        self.jobs.append(job)
        if self.working is None:
            self.working = asyncio.create_task(self.work_off())

    async def work_off(self) -> None:
        while self.jobs:
            await self.jobs.popleft()()
        self.working = None
        self.hub.freed(self)

    async def run(self, call: Callable[..., T], *words: object) -> T:
        """One call of the resource, whose turn it is; it may raise what it likes."""
        if isinstance(self.resource, NoResource):
            return call(*words)
        return await self.hub.thread(call, *words)

    async def surely(self, call: Callable[..., None], *words: object) -> None:
        """Calls until it succeeds, since nothing else is right after a vote, or until the process starts anew."""
        pause, life = LEAST_AGAIN, self.life
        while life == self.life:
            try:
                async with self.turn:
                    return await self.run(call, *words)
            except Exception as error:
                self.hub.note(f"node {self.number}: {call.__name__}: {error}")
            await asyncio.sleep(pause)
            pause = min(2 * pause, MOST_AGAIN)

    # Retries, by the rules of docs/OPERATING.md: the order of nodes there comes by itself, since who is asked too early is asked again.

    def wants_retry(self, now: float) -> bool:
        return (self.phase in (Phase.VOTED, Phase.COMMITTING) or self.kept) and now >= self.retry_at

    def retry(self, now: float) -> None:
        self.retry_at = now + self.pause
        self.pause = min(2 * self.pause, self.retry_most)
        self.hub.give(Retry(self.number), self.retried)

    def retried(self, outputs: list[wire.Output]) -> None:
        if refused(outputs) == wire.NOTHING_OWED:
            self.kept = False

    # The end of a transaction, as it is told.

    def told(self, said: Indication) -> None:
        kind = said.kind
        if kind is Told.COMMIT:
            self.told_commit()
        elif kind is Told.ROLLBACK:
            if self.phase is not Phase.IDLE:
                self.enter(Phase.ROLLING, self.tree)
            self.job(self.roll_back)
        elif kind is Told.COMMIT_COMPLETE or kind is Told.ROLLBACK_COMPLETE:
            self.kept = self.kept or said.report is not Report.NONE
            self.ended(kind is Told.COMMIT_COMPLETE, said.report)

    def told_commit(self) -> None:
        """A retry tells it again: once the resource is at it, nothing more is done."""
        if self.phase is Phase.COMMITTING and self.jobs or self.tree is None:
            return
        branch, life = Branch(self.number, self.tree), self.life
        if self.phase is not Phase.COMMITTING:
            self.enter(Phase.COMMITTING, self.tree)

        async def commit() -> None:
            if self.life != life or self.tree != branch.tree:
                return
            await self.surely(self.resource.commit, branch)
            if self.life == life and self.tree == branch.tree:
                self.ask(Ask.DONE)

        self.job(commit)

    async def roll_back(self) -> None:
        life = self.life
        await self.surely(self.resource.rollback, self.number)
        if self.life == life:
            self.ask(Ask.DONE)

    def ended(self, committed: bool, report: Report) -> None:
        self.enter(Phase.IDLE, None)

    # Starts.

    def restarted(self, standing: Standing) -> None:
        """The process is new: the log alone says what the node has. What it has not, its resource drops."""
        self.life += 1
        self.jobs.clear()
        tree = standing.current(self.number)
        self.kept = any(node == self.number and last.kind is Kind.DAMAGE for (node, _), last in standing.last.items())
        if tree is not None:
            kind = standing.of(self.number, tree)
            self.enter(Phase.COMMITTING if kind is Kind.COMMIT else Phase.VOTED, tree)
            self.retry_at = 0.0
            if kind is Kind.HEURISTIC:
                self.follow(standing.last[self.number, tree].outcome, Branch(self.number, tree))
        else:
            self.enter(Phase.IDLE, None)
            self.job(self.drop)

    async def drop(self) -> None:
        await self.surely(self.resource.rollback, self.number)

    def decide(self, outcome: wire.Outcome, then: Callable[[list[wire.Output]], None]) -> None:
        """A decision of the operator's: the node logs it, and the resource follows."""
        tree = self.tree

        def decided(outputs: list[wire.Output]) -> None:
            if refused(outputs) is None and tree is not None:
                self.follow(outcome, Branch(self.number, tree))
            then(outputs)

        self.hub.give(wire.Heur(self.number, outcome), decided)

    def follow(self, outcome: wire.Outcome | None, branch: Branch) -> None:
        self.job(self.drop if outcome is wire.Outcome.ROLLBACK else lambda: self.surely(self.resource.commit, branch))


class BranchNode(Node):
    """A subordinate of one root of a peer."""

    def __init__(self, hub: Hub, number: int, superior: wire.Address, resource: Resource, retry_least: float, retry_most: float) -> None:
        super().__init__(hub, number, resource, retry_least, retry_most)
        self.superior, self.spoilt = superior, False

    def told(self, said: Indication) -> None:
        kind = said.kind
        if kind is Told.BEGIN_DIALOGUE:
            self.ask(Ask.ACCEPT, self.accepted, units=said.units)
        elif kind is Told.BEGIN_TRANSACTION:
            self.enter(Phase.ACTIVE, said.tree)
            self.spoilt = False
        elif kind is Told.DATA:
            self.job(lambda: self.work(said.octets))
        elif kind is Told.PREPARE:
            self.job(self.prepare)
        else:
            super().told(said)

    def accepted(self, outputs: list[wire.Output]) -> None:
        if refused(outputs) == wire.TRANSACTION_OPEN:
            self.ask(Ask.REJECT)

    async def work(self, said: bytes) -> None:
        tree, life = self.tree, self.life
        if self.phase is not Phase.ACTIVE or said[:1] != CALL:
            return
        try:
            async with self.turn:
                answer = DONE + await self.run(self.resource.work, self.number, said[1:])
            if len(answer) > wire.MOST_DATA:
                raise WorkFailed("the answer is too long")
        except Exception as error:
            self.spoilt = True
            answer = FAILED + str(error).encode()[:wire.MOST_DATA - 1]
        if self.life == life and self.tree == tree and self.phase is Phase.ACTIVE:
            self.ask(Ask.DATA, peer=self.superior.node, octets=answer)

    async def prepare(self) -> None:
        tree, life = self.tree, self.life
        if tree is None or self.phase is not Phase.ACTIVE:
            return
        vote = Vote.ROLLBACK
        if not self.spoilt:
            try:
                async with self.turn:
                    vote = await self.run(self.resource.prepare, Branch(self.number, tree))
            except Exception as error:
                self.hub.note(f"node {self.number}: prepare: {error}")
        if self.life != life or self.phase is not Phase.ACTIVE:
            return
        if vote is Vote.READY:
            self.enter(Phase.VOTED, tree)
            self.ask(Ask.COMMIT)
        elif vote is Vote.UNCHANGED:
            await self.surely(self.resource.rollback, self.number)
            if self.life == life and self.phase is Phase.ACTIVE:
                self.ask(Ask.UNCHANGED, self.left)
        else:
            await self.surely(self.resource.rollback, self.number)
            if self.life == life and self.phase is Phase.ACTIVE:
                self.enter(Phase.ROLLING, tree)
                self.ask(Ask.ROLLBACK)

    def left(self, outputs: list[wire.Output]) -> None:
        if refused(outputs) is None:
            self.enter(Phase.IDLE, None)


class Ended(Exception):
    """A transaction is over in another way than was asked."""


class Transaction:
    """What an application has begun: it belongs to one root until it is complete."""

    def __init__(self, root: Root, tree: Identifier) -> None:
        self.root, self.tree = root, tree
        self.begun: list[str] = []  # the peers that have a branch
        self.drawn = False  # its identifier is, since a branch was begun
        self.own = False  # the root's resource has a part
        self.asked = self.spoilt = False
        self.why = "rolled back"
        self.decided: asyncio.Future[bool] = asyncio.get_running_loop().create_future()
        self.ended: asyncio.Future[tuple[bool, Report]] = asyncio.get_running_loop().create_future()


class Arc:
    """A root's dialogue with its branch at one peer."""

    def __init__(self, peer: wire.Address) -> None:
        self.peer = peer
        self.live = False
        self.opened_at = 0.0  # where an answer is awaited
        self.asked = 0  # requests for the dialogue that the node has not answered yet
        self.not_before, self.pause = 0.0, LEAST_AGAIN
        self.calls: deque[asyncio.Future[bytes]] = deque()

    def close(self, why: str, wait: bool = False) -> None:
        self.live, self.opened_at = False, 0.0
        if wait:
            self.not_before = time.monotonic() + self.pause
            self.pause = min(2 * self.pause, MOST_AGAIN)
        self.give_up_calls(why)

    def give_up_calls(self, why: str) -> None:
        while self.calls:
            call = self.calls.popleft()
            if not call.done():
                call.set_exception(WorkFailed(why))


class Root(Node):
    """A node that begins transactions."""

    def __init__(self, hub: Hub, site: str, number: int, branches: dict[str, wire.Address], resource: Resource,
                 retry_least: float, retry_most: float) -> None:
        super().__init__(hub, number, resource, retry_least, retry_most)
        self.site, self.boot, self.marks = site, 0, 0  # what its identifiers are drawn from
        self.arcs = {name: Arc(peer) for name, peer in branches.items()}
        self.by_number = {arc.peer.node: (name, arc) for name, arc in self.arcs.items()}
        self.current: Transaction | None = None

    # Dialogues.

    def free(self) -> bool:
        return self.phase is Phase.IDLE and self.current is None and self.working is None

    def settled(self) -> bool:
        """It can begin, and no dialogue of its is being opened, so that the next mark is known."""
        return self.free() and not any(arc.opened_at for arc in self.arcs.values())

    def whole(self) -> bool:
        """It has a dialogue with each peer that can be reached."""
        return all(arc.live or not self.hub.reaches(name) for name, arc in self.arcs.items())

    def open_dialogues(self, now: float) -> None:
        """Between transactions, so that the identifier of the next is known from its begin on."""
        if not self.free():
            return
        for name, arc in self.arcs.items():
            if arc.opened_at and now > arc.opened_at + OPEN_PATIENCE:
                arc.close("no answer", wait=True)
                self.hub.lose_pair(self.number, arc.peer)
            if not arc.live and not arc.opened_at and now >= arc.not_before and self.hub.reaches(name):
                arc.opened_at, arc.asked = now, arc.asked + 1
                self.ask(Ask.BEGIN_DIALOGUE, lambda outputs, arc=arc: self.opened(arc, outputs),  # type: ignore[misc]
                         address=arc.peer, units=wire.COMMIT_UNCHAINED)

    def opened(self, arc: Arc, outputs: list[wire.Output]) -> None:
        arc.asked -= 1
        number = refused(outputs)
        if number is None:
            self.marks += 1
            return
        arc.close("refused", wait=True)
        if number == wire.OUT_OF_PHASE:  # (the node has a dialogue with that peer, of which we know nothing)
            self.hub.lose_pair(self.number, arc.peer)

    def lose(self, site: str) -> None:
        if site in self.arcs:
            self.arcs[site].close(f"the connection with {site} is lost")

    def told(self, said: Indication) -> None:
        kind = said.kind
        name, arc = self.by_number.get(said.peer, ("", None))
        if kind is Told.ROLLBACK and self.current is not None:
            outcome_is(self.current, False)
        if arc is None or kind in (Told.READY, Told.LEFT, Told.HEURISTIC_REPORT):
            super().told(said)
        elif kind is Told.BEGUN_DIALOGUE:
            arc.live, arc.opened_at, arc.pause = True, 0.0, LEAST_AGAIN
            self.hub.freed(self)
        elif kind is Told.DATA:
            if arc.calls:
                call = arc.calls.popleft()
                if not call.done():
                    call.set_result(said.octets)
        elif not arc.asked:  # (where one is asked for, this is the end of the dialogue before it)
            if self.current is not None and name in self.current.begun:
                self.current.why = f"the association with {name} is lost"
            arc.close(f"the association with {name} is lost", wait=kind is Told.REJECTED)

    # A transaction.

    def begin(self) -> Transaction:
        """The tree is drawn with the first branch: the next mark but none will be its identifier."""
        self.current = Transaction(self, Identifier(self.site, self.boot, self.number, self.marks + 1))
        self.enter(Phase.ACTIVE, self.current.tree)
        return self.current

    async def call(self, mine: Transaction, site: str, data: bytes, patience: float) -> bytes:
        """Sends a branch its work, and begins the branch where it has none; gives its answer."""
        self.active(mine)
        arc = self.arcs.get(site)
        if arc is None:
            raise WorkFailed(f"there is no branch at {site}")
        if len(data) >= wire.MOST_DATA:
            raise WorkFailed(f"a call has at most {wire.MOST_DATA - 1} octets")
        if not arc.live:
            mine.spoilt = True
            raise WorkFailed(f"{site} is not reached")
        answer: asyncio.Future[bytes] = asyncio.get_running_loop().create_future()
        arc.calls.append(answer)
        if site not in mine.begun:
            mine.begun.append(site)
            self.ask(Ask.BEGIN_TRANSACTION, lambda outputs: self.branched(mine, outputs, answer), peer=arc.peer.node)
        self.ask(Ask.DATA, peer=arc.peer.node, octets=CALL + data)
        try:
            async with asyncio.timeout(patience):
                said = await answer
        except TimeoutError as error:
            mine.spoilt = True
            raise WorkFailed(f"{site} has not answered") from error
        except WorkFailed:
            mine.spoilt = True
            raise
        if said[:1] != DONE:
            mine.spoilt = True
            raise WorkFailed(f"{site}: {said[1:].decode(errors='replace')}")
        return said[1:]

    def branched(self, mine: Transaction, outputs: list[wire.Output], answer: asyncio.Future[bytes]) -> None:
        """The Begin that goes out has the tree's identifier, which must be the one that the application was given."""
        for output in outputs:
            if isinstance(output, wire.Refused) and not answer.done():
                answer.set_exception(WorkFailed(f"no branch is begun: {wire.REFUSALS.get(output.number, output.number)}"))
            elif isinstance(output, wire.Send) and output.octets[45:46] == b"\x0c":
                self.marks += 1 if mine.drawn else 2
                mine.drawn = True
                reader = wire.Reader(output.octets)
                reader.take(46)
                if reader.identifier() != mine.tree:
                    mine.spoilt = True
                    self.hub.note(f"node {self.number}: the tree is not {mine.tree}")

    async def execute(self, mine: Transaction, data: bytes) -> bytes:
        """The root's own part."""
        async with self.turn:
            self.active(mine)
            mine.own = True
            try:
                return await self.run(self.resource.execute, self.number, data)
            except Exception as error:
                mine.spoilt = True
                raise WorkFailed(str(error)) from error

    def active(self, mine: Transaction) -> None:
        if self.current is not mine or mine.asked or mine.decided.done() or self.phase is not Phase.ACTIVE:
            raise Ended(mine.why)

    async def commit(self, mine: Transaction) -> None:
        """Asks for commitment, once the root's own part is prepared; how it ends is told by the two futures."""
        self.active(mine)
        if mine.spoilt:
            return self.roll(mine)
        mine.asked, life = True, self.life
        for site in mine.begun:
            self.ask(Ask.PREPARE, peer=self.arcs[site].peer.node)
        if mine.own and not await self.own_part(mine):
            return self.roll(mine)
        if self.life != life or self.phase is not Phase.ACTIVE:
            return
        if mine.begun:
            self.ask(Ask.COMMIT)
        else:
            await self.surely(self.resource.commit, Branch(self.number, mine.tree))
            if self.life == life:
                self.ended(True, Report.NONE)

    async def own_part(self, mine: Transaction) -> bool:
        """The root's own part is prepared."""
        try:
            async with self.turn:
                return await self.run(self.resource.prepare, Branch(self.number, mine.tree)) is not Vote.ROLLBACK
        except Exception as error:
            mine.why = str(error)
            return False

    def roll(self, mine: Transaction) -> None:
        """The application, or the root's own part, is against it. The resource drops its part once the node has taken the rollback:
        until then the tree may still commit."""
        if self.current is not mine or self.phase is not Phase.ACTIVE:
            return
        if mine.begun:
            self.ask(Ask.ROLLBACK, lambda outputs: self.rolled(mine, outputs))
        else:
            self.rolled(mine, [wire.Refused(wire.NO_TRANSACTION)])

    def rolled(self, mine: Transaction, outputs: list[wire.Output]) -> None:
        number = refused(outputs)
        if number not in (None, wire.NO_TRANSACTION):
            return  # (it rolls back already, or it commits: either is told)
        self.job(self.drop)
        if self.current is mine:
            if number is None:
                self.enter(Phase.ROLLING, mine.tree)
                outcome_is(mine, False)
            else:
                self.ended(False, Report.NONE)

    def told_commit(self) -> None:
        if self.current is not None:
            outcome_is(self.current, True)
        super().told_commit()

    def ended(self, committed: bool, report: Report) -> None:
        mine, self.current = self.current, None
        super().ended(committed, report)
        if mine is not None:
            settle(mine, committed, report)
            for site in mine.begun:
                self.arcs[site].give_up_calls(mine.why)  # (no answer comes after a branch's last word)
        self.hub.freed(self)

    def restarted(self, standing: Standing) -> None:
        self.boot, self.marks = standing.boot + 1, 0
        for arc in self.arcs.values():
            arc.close("the site has started anew")
            arc.not_before, arc.pause, arc.asked = 0.0, LEAST_AGAIN, 0
        mine, self.current = self.current, None
        super().restarted(standing)
        if mine is None:
            return
        if self.phase is Phase.COMMITTING and self.tree == mine.tree:
            self.current = mine
        else:
            # (what was told to commit and is no longer open was done: its last record was forced, and nobody read that)
            mine.why = "the site has started anew"
            settle(mine, mine.decided.done() and mine.decided.result(), standing.report(self.number, mine.tree))


def outcome_is(mine: Transaction, committed: bool) -> None:
    if not mine.decided.done():
        mine.decided.set_result(committed)


def settle(mine: Transaction, committed: bool, report: Report) -> None:
    outcome_is(mine, committed)
    if not mine.ended.done():
        mine.ended.set_result((committed, report))
