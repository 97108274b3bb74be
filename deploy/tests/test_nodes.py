"""Roots and branches without a process: what they ask and how they end where a stop comes at an awkward moment."""
from __future__ import annotations

import asyncio
from collections.abc import Callable
from typing import TypeVar

import pytest

from ripsaw import log, wire
from ripsaw.nodes import BranchNode, Node, Phase, Root
from ripsaw.resource import NoResource, Vote
from ripsaw.wire import Address, Ask, Identifier, Indication, Report, Told

T = TypeVar("T")


class Hub:
    """A site that keeps what it is given."""

    def __init__(self) -> None:
        self.given: list[wire.Event] = []

    def give(self, event: wire.Event, then: Callable[[list[wire.Output]], None] | None = None) -> None:
        self.given.append(event)

    async def thread(self, call: Callable[..., T], *words: object) -> T:
        return call(*words)

    def note(self, what: str) -> None:
        raise AssertionError(what)

    def freed(self, node: Node) -> None:
        pass

    def reaches(self, site: str) -> bool:
        return True

    def lose_pair(self, node: int, peer: Address) -> None:
        pass

    def asked(self) -> list[Ask]:
        return [it.request.kind for it in self.given if isinstance(it, wire.Do)]


def standing(*entries: log.Entry) -> log.Standing:
    found = log.Standing(boot=1)
    for entry in entries:
        assert entry.tree is not None
        found.last[entry.node, entry.tree] = entry
    return found


def entry(kind: log.Kind, tree: Identifier, report: Report = Report.NONE) -> log.Entry:
    return log.Entry(kind, 0, 1, tree, None, wire.Outcome.COMMIT, report)


@pytest.mark.parametrize("told, kind, report, how", [
    (False, None, Report.NONE, (False, Report.NONE)),  # nothing was decided
    (True, None, Report.NONE, (True, Report.NONE)),  # the end was logged, and nobody read it
    (True, log.Kind.DAMAGE, Report.MIX, (True, Report.MIX)),  # the same, with damage
    (False, log.Kind.COMMIT, Report.NONE, None),  # it was logged, and goes on
    (True, log.Kind.COMMIT, Report.NONE, None)])
def test_a_root_whose_process_ends_after_commitment_is_asked(told: bool, kind: log.Kind | None, report: Report, how: tuple[bool, Report] | None) -> None:
    async def part() -> None:
        hub = Hub()
        root = Root(hub, "bank", 1, {"shop": Address("shop", 101)}, NoResource(), 1, 2)
        mine = root.begin()
        mine.begun.append("shop")
        await root.commit(mine)
        if told:
            root.told(Indication(Told.COMMIT))
            await asyncio.sleep(0)
        root.restarted(standing(*([entry(kind, mine.tree, report)] if kind else [])))
        await asyncio.sleep(0)
        assert (mine.ended.result() if mine.ended.done() else None) == how
        if how is None:
            root.told(Indication(Told.COMMIT))
            await asyncio.sleep(0)
            root.told(Indication(Told.COMMIT_COMPLETE))
            assert mine.ended.result() == (True, Report.NONE) and root.free()

    asyncio.run(part())


def test_done_is_given_once_the_resource_has_committed() -> None:
    class Stubborn(NoResource):
        tries = 0

        def prepare(self, branch: object) -> Vote:
            return Vote.READY

        def commit(self, branch: object) -> None:
            self.tries += 1
            if self.tries < 3:
                raise OSError("away")

    class Loud(Hub):
        def note(self, what: str) -> None:
            assert "away" in what

    async def part() -> None:
        hub, resource = Loud(), Stubborn()
        branch = BranchNode(hub, 7, Address("bank", 1), resource, 1, 2)
        branch.told(Indication(Told.BEGIN_TRANSACTION, 1, tree=Identifier("bank", 1, 1, 2)))
        branch.told(Indication(Told.PREPARE))
        await asyncio.sleep(0.01)
        assert hub.asked() == [Ask.COMMIT] and branch.phase is Phase.VOTED
        branch.told(Indication(Told.COMMIT))
        await asyncio.sleep(0.02)
        branch.told(Indication(Told.COMMIT))
        assert hub.asked() == [Ask.COMMIT]
        await asyncio.sleep(0.4)
        assert hub.asked()[:2] == [Ask.COMMIT, Ask.DONE] and resource.tries >= 3
        branch.told(Indication(Told.COMMIT_COMPLETE))
        assert branch.tree is None

    asyncio.run(part())


def test_an_answer_never_goes_to_the_next_transaction() -> None:
    """A call that nobody answered is given up with its transaction."""
    async def part() -> None:
        hub = Hub()
        root = Root(hub, "bank", 1, {"shop": Address("shop", 101)}, NoResource(), 1, 2)
        arc = root.arcs["shop"]
        arc.live = True
        first = root.begin()
        calling = asyncio.create_task(root.call(first, "shop", b"one", 5))
        await asyncio.sleep(0)
        root.told(Indication(Told.ROLLBACK))
        await asyncio.sleep(0)
        root.told(Indication(Told.ROLLBACK_COMPLETE))
        with pytest.raises(Exception, match="rolled back"):
            await calling
        await asyncio.sleep(0)
        second = root.begin()
        calling = asyncio.create_task(root.call(second, "shop", b"two", 5))
        await asyncio.sleep(0)
        root.told(Indication(Told.DATA, 101, octets=b"\x02answer"))
        assert await calling == b"answer"

    asyncio.run(part())


def test_the_end_of_a_dialogue_is_not_that_of_the_next() -> None:
    """The node tells the end of the first dialogue after the second was asked for."""
    hub = Hub()
    root = Root(hub, "bank", 1, {"shop": Address("shop", 101)}, NoResource(), 1, 2)
    arc = root.arcs["shop"]
    root.open_dialogues(10.0)
    root.opened(arc, [])
    root.lose("shop")
    root.open_dialogues(10.1)
    root.told(Indication(Told.P_ABORT, 101))
    root.opened(arc, [])
    root.open_dialogues(10.2)
    assert hub.asked() == [Ask.BEGIN_DIALOGUE] * 2 and arc.opened_at
    root.told(Indication(Told.BEGUN_DIALOGUE, 101))
    assert root.whole()


def test_a_dialogue_of_which_nothing_is_known_is_lost() -> None:
    class Losing(Hub):
        lost: list[Address] = []

        def lose_pair(self, node: int, peer: Address) -> None:
            self.lost.append(peer)

    async def part() -> None:
        hub = Losing()
        root = Root(hub, "bank", 1, {"shop": Address("shop", 101)}, NoResource(), 1, 2)
        arc = root.arcs["shop"]
        root.open_dialogues(10.0)
        root.opened(arc, [wire.Refused(wire.OUT_OF_PHASE)])
        assert hub.lost == [arc.peer] and not arc.opened_at

    asyncio.run(part())
