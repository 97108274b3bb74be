"""`ripsaw draw`: a transcript of what sites did, for `tpdraw` to draw.

A record has what went into `tpnode node` and came out, and not what it forced; so the lines `log` are put where the rules of the service put them
(docs/SERVICE.md, "What is logged when"). `ripsaw replay` checks a whole record against the program instead.
"""
from __future__ import annotations

from collections import Counter, defaultdict
from dataclasses import dataclass

from . import wire, words
from .history import Happening, Past, Sites, Start, order
from .wire import Ask, Identifier, Report, Told


class NoSuchTree(ValueError):
    """The records do not have this tree: it was never drawn, or its files are gone."""


@dataclass
class Now:
    """A node as far as its records tell: its transaction, and whether Ready or Commit is logged."""

    tree: Identifier | None = None
    branch: Identifier | None = None
    ready: bool = False
    committed: bool = False

    def key(self) -> str:
        return f"{self.tree} {self.branch or '-'}"


class Scribe:
    """Writes each happening in the lines of a transcript."""

    def __init__(self) -> None:
        self.now: dict[int, Now] = {}

    def of(self, node: int) -> Now:
        return self.now.setdefault(node, Now())

    def lines(self, it: Happening) -> list[str]:
        event, outputs, node = it.step.event, it.step.outputs, it.step.event.node
        out = [f"> {echo(event)}"]
        if isinstance(event, wire.Arrive):
            out.append(f"take {it.taken}")
        self.begins(event, outputs, node)
        forced = self.forced(event, outputs, node)
        if forced is not None:
            out.append(f"log {it.site} {forced}")
        numbers = iter(it.sent)
        for output in outputs:
            if isinstance(output, wire.Refused):
                out.append(f"{'dropped' if output.number in (21, 22) else 'refused'} {output.number}")
            elif isinstance(output, wire.Send):
                out.append(f"send {next(numbers)} {output.sender.node} {output.target.node} {words.read(output.octets).words}")
            elif isinstance(output, wire.Tell):
                out.append(f"tell {output.node} {output.indication.words()}")
        return out

    def begins(self, event: wire.Event, outputs: list[wire.Output], node: int) -> None:
        """A transaction begins at this node: by a Begin that it takes, or, at a root, by the first that it sends."""
        told = {it.indication.kind for it in outputs if isinstance(it, wire.Tell)}
        if isinstance(event, wire.Arrive) and Told.BEGIN_TRANSACTION in told:
            record = words.read(event.octets)
            self.now[node] = Now(record.tree, record.branch)
        elif isinstance(event, wire.Do) and event.request.kind is Ask.BEGIN_TRANSACTION:
            for sent in (words.read(it.octets) for it in outputs if isinstance(it, wire.Send)):
                if sent.what == "begin" and sent.tree != self.of(node).tree:
                    self.now[node] = Now(sent.tree)

    def forced(self, event: wire.Event, outputs: list[wire.Output], node: int) -> str | None:
        """The record that this step forces."""
        now = self.of(node)
        told = {it.indication.kind: it.indication for it in outputs if isinstance(it, wire.Tell)}
        says_ready = any(isinstance(it, wire.Send) and it.octets[:1] == b"\x04" and words.read(it.octets).what == "ready" for it in outputs)
        if now.tree is None or any(isinstance(it, wire.Refused) for it in outputs):
            return None
        if isinstance(event, wire.Heur):
            return f"heuristic {node} {now.key()} {wire.word(event.outcome)}"
        if says_ready or isinstance(event, wire.Do) and event.request.kind is Ask.COMMIT and now.branch is not None and not outputs:
            now.ready = True
            return f"ready {node} {now.key()}"
        if Told.COMMIT in told and not isinstance(event, wire.Retry) and not now.committed:
            now.committed = True
            return f"commit {node} {now.key()}"
        if Told.COMMIT_COMPLETE in told:
            report = told[Told.COMMIT_COMPLETE].report
            return f"end {node} {now.key()} commit" if report is Report.NONE else f"damage {node} {now.key()} commit {wire.word(report)}"
        if Told.ROLLBACK in told and now.ready and not now.committed:
            return f"end {node} {now.key()} rollback"
        return None

    def unread(self, it: Happening) -> list[str]:
        """The lines of an event that forced a record in which its process was stopped; none where it forces none."""
        event, node = it.step.event, it.step.event.node
        now = self.of(node)
        ask = event.request.kind if isinstance(event, wire.Do) else None
        what = words.read(event.octets).what if isinstance(event, wire.Arrive) else ""
        forced = ""
        if ask is Ask.COMMIT and now.branch is not None:
            now.ready, forced = True, f"ready {node} {now.key()}"
        elif now.committed and (ask is Ask.DONE or what.startswith(("done", "rec-reply done"))):
            forced = f"end {node} {now.key()} commit"
        elif not now.committed and (now.branch is None and (what in ("ready", "left") or ask is Ask.COMMIT) or
                                    now.ready and what in ("commit", "rec-commit", "rec-reply commit")):
            now.committed, forced = True, f"commit {node} {now.key()}"
        elif now.ready and what in ("rollback", "rec-reply unknown"):
            forced = f"end {node} {now.key()} rollback"
        if now.tree is None or not forced:
            return []
        took = [f"take {it.taken}"] if isinstance(event, wire.Arrive) else []
        return [f"> {echo(event)}", *took, f"log {it.site} {forced}", f"stopped {it.site} kept"]


def echo(event: wire.Event) -> str:
    """An event as a line of a schedule."""
    if isinstance(event, wire.Declare):
        return f"node {event.node}"
    if isinstance(event, wire.Do):
        return f"do {event.node} {event.request.words()}"
    if isinstance(event, wire.Arrive):
        return f"pass {event.sender.node} {event.target.node}"
    if isinstance(event, (wire.Lose, wire.GiveUp)):
        return f"{'lose' if isinstance(event, wire.Lose) else 'giveup'} {event.node} {event.peer}"
    if isinstance(event, wire.Heur):
        return f"heur {event.node} {wire.word(event.outcome)}"
    return f"{'retry' if isinstance(event, wire.Retry) else 'purge'} {event.node}"


def shown(lines: list[str]) -> bool:
    """A picture leaves out what only opens dialogues, what was refused, and what changed nothing that can be seen."""
    said = [it.split() for it in lines[1:] if not it.startswith("take")]
    if not said:
        return len(lines) > 1 or bool(lines) and lines[0].startswith(("> do", "log"))
    return not all(it[0] in ("refused", "dropped") or it[0] == "send" and it[4] in ("open", "accept", "shut") or
                   it[0] == "tell" and it[2] in ("begin-dialogue", "begun-dialogue", "rejected") for it in said)


@dataclass
class Block:
    """A happening, its lines, and the tree that its node then has."""

    past: Past
    lines: list[str]
    tree: str = ""

    @property
    def node(self) -> int:
        return 0 if isinstance(self.past, Start) else self.past.step.event.node


def blocks(sites: Sites, nodes: set[int]) -> list[Block]:
    """All of it. An event whose answer nobody read is there where the next start found the record that it forced."""
    scribe = Scribe()
    out: list[Block] = []
    unread: dict[str, list[Block]] = defaultdict(list)
    forced: dict[str, Counter[int]] = defaultdict(Counter)
    for it in order(sites, nodes, unanswered=True):
        if isinstance(it, Start):
            for block in unread.pop(it.site, []):
                if it.run.kept.get(block.node, 0) > forced[it.site][block.node] and isinstance(block.past, Happening):
                    block.lines = scribe.unread(block.past)
                    block.tree = str(scribe.of(block.node).tree)
                    forced[it.site][block.node] += bool(block.lines)
            forced[it.site].clear()
            out.append(Block(it, ([f"> crash {it.site}"] if it.run.boot > 1 else []) + [f"log {it.site} boot {it.run.boot}"]))
        elif isinstance(it.step.event, wire.Declare):
            continue
        elif it.step.unread:
            out.append(Block(it, []))
            unread[it.site].append(out[-1])
        else:
            lines = scribe.lines(it)
            forced[it.site][it.step.event.node] += any(line.startswith("log ") for line in lines)
            out.append(Block(it, lines, str(scribe.of(it.step.event.node).tree)))
    return out


def transcript(sites: Sites, tree: str | None = None) -> str:
    """Of everything that the records have, or of one tree: from its begin to the next of its root."""
    took, kept = set(sites.places), []
    if tree is None:
        kept = blocks(sites, took)
    else:
        root = Identifier.of(tree).node
        if root not in sites.places:
            raise NoSuchTree(f"no record has the root of {tree}")
        every = blocks(sites, sites.group(root))
        took = {it.node for it in every if it.tree == tree}
        begun = next((k for k, it in enumerate(every) if it.node == root and it.tree == tree), None)
        if begun is None:
            raise NoSuchTree(f"no record has {tree}")
        over = next((k for k, it in enumerate(every) if k > begun and it.node == root and it.lines and it.tree != tree), len(every))
        there = {sites.places[it] for it in took}
        kept = [it for it in every[begun:over] if (it.past.site in there if isinstance(it.past, Start) else it.node in took) and shown(it.lines)]
        while kept and (isinstance(kept[-1].past, Start) or kept[-1].lines[0].startswith("> lose")):
            kept.pop()  # (what came after its end)
    return "\n".join(declared(sites, took) + [line for it in kept if shown(it.lines) for line in it.lines]) + "\n"


def declared(sites: Sites, nodes: set[int]) -> list[str]:
    """Lines that tell the picture whose lanes there are, roots before their branches."""
    above = sites.superiors
    return [f"> node {it} {sites.places[it]}" + (f" under {above[it]}" if above.get(it) in nodes else "")
            for it in sorted(nodes, key=lambda it: (it in above, it))]
