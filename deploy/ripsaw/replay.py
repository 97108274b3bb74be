"""`ripsaw replay`: the schedule whose world the records were, played by `tpnode replay`, and compared.

The schedule declares the nodes of all sites, and then has a line for each event in the order of `history`. An arrival is `again K`, where K is
the frame's number in the order of sending. A start after the first is `crash SITE`. Of the events whose answer nobody read before a stop as
many are played as the log must have had: a start writes down how many records of each node it found.

Compared are the outputs of each event, in the words of a transcript, and at the end the log of each site to the byte, where it has not been
compacted. The records must begin with fresh logs. A world has at most 16 sites, 256 nodes, 65,535 frames and a schedule of a megabyte; of a
larger one `--root N` takes the nodes of one root, whose events no others have to do with.

`ripsaw recording` writes what `tpunite` reads (docs/FORMATS.md, 10): the places of the nodes, and what each process was given and played.
"""
from __future__ import annotations

import struct
import subprocess
from collections import Counter, defaultdict
from collections.abc import Iterator
from dataclasses import dataclass, field
from pathlib import Path

from . import log, wire, words
from .draw import echo
from .history import Happening, Sites, Start, order
from .record import BadRecord


@dataclass
class Line:
    """A line of the schedule, what it stands for, and what the transcript has of it."""

    text: str
    site: str
    past: Happening | None = None
    boot: int = 0  # of a start
    forced: list[int] = field(default_factory=list)  # the nodes whose records were forced
    said: list[str] = field(default_factory=list)  # its outputs, without the numbers of frames


def said_words(outputs: list[wire.Output]) -> list[str]:
    """What the transcript must have of these outputs."""
    out = []
    for output in outputs:
        if isinstance(output, wire.Refused):
            out.append(f"{'dropped' if output.number in (21, 22) else 'refused'} {output.number}")
        elif isinstance(output, wire.Send):
            out.append(f"send {output.sender.node} {output.target.node} {words.read(output.octets).words}")
        elif isinstance(output, wire.Tell):
            out.append(f"tell {output.node} {output.indication.words()}")
    return out


class Replay:
    """A world of these nodes; of the events that nobody read the answer of, those that are played, each with how many frames it sends."""

    def __init__(self, sites: Sites, nodes: set[int], program: str, room: Path) -> None:
        self.sites, self.nodes, self.program, self.room = sites, nodes, program, room
        self.past = list(order(sites, nodes, unanswered=True))
        self.played: dict[int, int] = {}
        for site, runs in sites.runs.items():
            if runs[0].boot != 1:
                raise BadRecord(f"the record of {site} begins at boot {runs[0].boot}, and not with a fresh log")

    def schedule(self) -> list[Line]:
        above, places = self.sites.superiors, self.sites.places
        lines = [Line(f"node {it} {places[it]}" + (f" under {above[it]}" if it in above else ""), places[it])
                 for it in sorted(self.nodes, key=lambda it: (it in above, it))]
        boots: Counter[str] = Counter({site: 1 for site in places.values()})
        numbers: dict[int, int] = {}  # of the frames of the records, in the schedule: unread events send, too
        count = 0
        for it in self.past:
            if isinstance(it, Start):
                while boots[it.site] < it.run.boot:
                    boots[it.site] += 1
                    lines.append(Line(f"crash {it.site}", it.site, boot=boots[it.site]))
            elif not isinstance(it.step.event, wire.Declare) and (not it.step.unread or id(it) in self.played):
                text = f"again {numbers[it.taken]}" if isinstance(it.step.event, wire.Arrive) else echo(it.step.event)
                lines.append(Line(text, it.site, it))
                for number in it.sent:
                    count += 1
                    numbers[number] = count
                count += self.played.get(id(it), 0)
        return lines

    def play(self, lines: list[Line]) -> tuple[int, dict[str, bytes], str]:
        """Runs the schedule, so that each line has what the transcript says. Gives how many lines were played, the logs, and why not all were."""
        images = [f"image {it}" for it in sorted({self.sites.places[it] for it in self.nodes})]
        text = "".join(f"{it}\n" for it in [line.text for line in lines] + images)
        ran = subprocess.run([self.program, "replay"], input=text.encode(), stdout=subprocess.PIPE, stderr=subprocess.PIPE, cwd=self.room)
        at, logs = -1, {}
        for got in ran.stdout.decode().splitlines():
            first, *rest = got.split(" ")
            if first == ">":
                at += 1
            elif first == "image":
                logs[rest[0]] = bytes.fromhex(rest[1])
            elif first == "log" and rest[1] != "boot":
                lines[at].forced.append(int(rest[2]))
            elif first in ("tell", "refused", "dropped"):
                lines[at].said.append(got)
            elif first == "send":
                lines[at].said.append(" ".join(["send", *rest[1:]]))
        why = f"tpnode replay ends with {ran.returncode}: {ran.stderr.decode().strip()}" if ran.returncode else ""
        return min(at + 1, len(lines)), logs, why

    def missing(self, lines: list[Line]) -> tuple[str, int] | None:
        """The first run, by site and boot, that forces less than the start after it found."""
        kept = {(site, run.boot): run.kept for site, runs in self.sites.runs.items() for run in runs}
        forced: dict[str, Counter[int]] = defaultdict(Counter)
        for line in lines:
            if line.boot:
                found = kept.get((line.site, line.boot), {})
                if any(count > forced[line.site][node] for node, count in found.items() if node in self.nodes):
                    return line.site, line.boot - 1
                forced[line.site].clear()
            forced[line.site].update(line.forced)
        return None

    def play_one_more(self, site: str, boot: int) -> None:
        """Of this run the next event that nobody read the answer of is played, too; how many frames it sends is seen from that."""
        current = 0
        for it in self.past:
            if isinstance(it, Start):
                current = it.run.boot if it.site == site else current
            elif it.site == site and current == boot and it.step.unread and id(it) not in self.played and not isinstance(it.step.event, wire.Declare):
                self.played[id(it)] = 0
                lines = self.schedule()
                self.play(lines)
                self.played[id(it)] = sum(said.startswith("send ") for line in lines if line.past is it for said in line.said)
                return
        raise BadRecord(f"after boot {boot} the log of {site} has a record that no event of the records forces")

    def settle(self) -> tuple[list[Line], dict[str, bytes]]:
        """The schedule whose world has forced what each start found."""
        while True:
            lines = self.schedule()
            played, logs, why = self.play(lines)
            found = self.missing(lines[:played])
            if found is not None:
                self.play_one_more(*found)
            elif why:
                raise BadRecord(why)
            else:
                return lines, logs

    def depth(self, node: int) -> int:
        above = self.sites.superiors.get(node)
        return 0 if above is None else 1 + self.depth(above)

    def recording(self) -> Iterator[bytes]:
        """The places of the nodes, a superior before its subordinates, and then the processes, site by site."""
        for it in sorted(self.nodes, key=lambda it: (self.depth(it), it)):
            above = self.sites.superiors.get(it)
            head = struct.pack(">BH", 0x50, it) if above is None else struct.pack(">BHH", 0x51, it, above)
            yield head + wire.text_of_site(self.sites.places[it])
        boots: Counter[str] = Counter()
        streams: dict[str, list[bytes]] = defaultdict(list)
        for past in self.past:
            if isinstance(past, Start):
                streams[past.site] += [b"\x52" + wire.text_of_site(past.site)] * (past.run.boot - boots[past.site])
                boots[past.site] = past.run.boot
            elif not past.step.unread or id(past) in self.played:
                streams[past.site].append(past.step.event.body())
        for stream in streams.values():
            yield from stream


def of_records(folders: list[Path], program: str, room: Path, root: int | None) -> Replay:
    """Of all nodes, or of those of one root."""
    sites = Sites.read(folders)
    return Replay(sites, set(sites.places) if root is None else sites.group(root), program, room)


def recording(folders: list[Path], program: str, room: Path, root: int | None = None) -> bytes:
    """What `tpunite` reads."""
    past = of_records(folders, program, room, root)
    past.settle()
    return b"".join(map(wire.frame, past.recording()))


def replay(folders: list[Path], program: str, room: Path, root: int | None = None) -> tuple[int, int, list[str]]:
    """How many events and logs are alike, and what differs."""
    lines, logs = of_records(folders, program, room, root).settle()
    same, differ = 0, []
    for number, line in enumerate(lines, 1):
        if line.past is not None and not line.past.step.unread:
            said = said_words(line.past.step.outputs)
            same += said == line.said
            if said != line.said:
                differ.append(f"line {number}, {line.text}: the site said {said}, and the replay {line.said}")
    if root is not None:
        return same, 0, differ
    alike, others = compare_logs(folders, logs)
    return same, alike, differ + others


def compare_logs(folders: list[Path], logs: dict[str, bytes]) -> tuple[int, list[str]]:
    """The logs in these folders up to their closing gates, but for those that were compacted."""
    alike, differ = 0, []
    for folder in folders:
        path, name = folder / "tp.log", next((it.stem.rpartition("-")[0] for it in (folder / "record").glob("*.record")), "")
        if not path.is_file() or (folder / "committed").exists() or name not in logs:
            continue
        theirs, ours = path.read_bytes(), logs[name]
        if theirs[:log.places(theirs)[1]] == ours[:log.places(ours)[1]]:
            alike += 1
        else:
            differ.append(f"the log of {name} differs from the replay's")
    return alike, differ
