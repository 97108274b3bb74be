"""The records of several sites as one history: an order in which each frame is sent before it is taken.

A step is one event of one site with its outputs. Steps of a site stay in their order; an arrival comes after the step that sent it. Among
those that may come next the oldest does, so that the order is that of time as far as the clocks of the machines agree.
"""
from __future__ import annotations

from collections import defaultdict
from collections.abc import Iterator
from dataclasses import dataclass
from pathlib import Path
from typing import Union

from . import record, wire
from .record import BadRecord, Run, Step


LATELY = 0.5  # seconds


@dataclass
class Happening:
    """A step in its place. The frames that it sent have the numbers in `sent`, and the one that an arrival takes has `taken`."""

    site: str
    step: Step
    taken: int = 0
    sent: tuple[int, ...] = ()


@dataclass
class Start:
    """A process of a site starts: the first of the site, or after a stop."""

    site: str
    run: Run


Past = Union[Happening, Start]
Frame = tuple[wire.Address, wire.Address, bytes]


@dataclass
class Sites:
    """The runs of each site, and the superior of each node with its site."""

    runs: dict[str, list[Run]]
    superiors: dict[int, int]
    places: dict[int, str]

    @staticmethod
    def read(folders: list[Path]) -> Sites:
        runs: dict[str, list[Run]] = {}
        for folder in folders:
            inner = folder / "record"
            found = record.read(inner if inner.is_dir() else folder)
            if found:
                runs[found[0].site] = found
        superiors, places = {}, {}
        for site, mine in runs.items():
            for run in mine:
                for step in run.steps:
                    if isinstance(step.event, wire.Declare):
                        places[step.event.node] = site
                        if step.event.superior is not None:
                            superiors[step.event.node] = step.event.superior.node
        return Sites(runs, superiors, places)

    def group(self, node: int) -> set[int]:
        """The nodes that are tied to this one by superiors: no others have to do with it."""
        root = node
        while root in self.superiors:
            root = self.superiors[root]
        found, more = set(), {root}
        while more:
            found |= more
            more = {it for it, above in self.superiors.items() if above in more}
        return found


class Queue:
    """What is still to come of one site."""

    def __init__(self, site: str, runs: list[Run], nodes: set[int] | None, unanswered: bool) -> None:
        self.site = site
        self.coming: list[tuple[float, Run | Step]] = []
        for run in runs:
            self.coming.append((run.time, run))
            for step in run.steps:
                if (nodes is None or step.event.node in nodes) and (unanswered or not step.unread):
                    self.coming.append((step.time, step))
        self.coming.reverse()


def order(sites: Sites, nodes: set[int] | None = None, unanswered: bool = False) -> Iterator[Past]:
    """The history of these nodes, or of all."""
    queues = [Queue(site, runs, nodes, unanswered) for site, runs in sorted(sites.runs.items())]
    sent: dict[Frame, list[tuple[int, float]]] = defaultdict(list)
    taken: set[int] = set()
    count = 0

    def may_come(what: Run | Step) -> bool:
        return isinstance(what, Run) or not isinstance(what.event, wire.Arrive) or key(what.event) in sent

    while any(queue.coming for queue in queues):
        ready = [it for it in queues if it.coming and may_come(it.coming[-1][1])]
        if not ready:
            raise BadRecord(f"a frame arrives that no record sends: {[it.coming[-1][1] for it in queues if it.coming][0]}")
        queue = min(ready, key=lambda it: it.coming[-1][0])
        what = queue.coming.pop()[1]
        if isinstance(what, Run):
            yield Start(queue.site, what)
            continue
        happening = Happening(queue.site, what)
        if isinstance(what.event, wire.Arrive):
            happening.taken = which(sent[key(what.event)], what.time, taken)
            taken.add(happening.taken)
        numbers = []
        for output in what.outputs:
            if isinstance(output, wire.Send):
                count += 1
                numbers.append(count)
                sent[key(output)].append((count, what.time))
        happening.sent = tuple(numbers)
        yield happening


def which(sent: list[tuple[int, float]], time: float, taken: set[int]) -> int:
    """Of frames that are alike any may be meant: the oldest that is not taken and was sent lately, since others were dropped, or else the newest."""
    lately = [number for number, at in sent if number not in taken and time - at < LATELY]
    return lately[0] if lately else sent[-1][0]


def key(frame: wire.Arrive | wire.Send) -> Frame:
    return frame.sender, frame.target, frame.octets
