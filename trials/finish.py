"""Every schedule can be ended: a random one goes on with stops or cuts, and then with recovery alone, until nothing is left to do.

trials/run finish [--program CMD] [--short] [--schedules N] [--seed N]

A schedule has two to six nodes, rounds of transactions, and at random places decisions, branches that are given up, lost associations and
frames, frames that come again, stops of sites, and stops in a call that changes a log. Then each site stops once, or, in every second
schedule, each association is lost and users end what is active. From there on `next_line` says what comes next, by the
states that a transcript shows and nothing else; what it sends is delivered, with the answers. The schedule is played anew with each line. It
has no fault where no node has a transaction any more, no tree is open, the lines are no more than is promised for as many branches as
there are nodes, and the closing lines are those of the trees that were begun, and say of each what its logged records do.
"""
import argparse
import random
import subprocess
import sys
import tempfile
import typing

import tools
import wire

UNITS = ["scu", "pcu", "sck", "pck", "shcu", "phcu"]


class View(typing.NamedTuple):
    """What a transcript shows: each node's phase and how many transactions it keeps, in the order of declaration; frames that are new."""

    states: typing.Dict[int, typing.Tuple[str, int]]
    new: typing.List[int]


def next_line(states: typing.Dict[int, typing.Tuple[str, int]], waiting: typing.Set[int]) -> typing.Optional[typing.Tuple[int, str]]:
    """The next line of recovery for a world without associations, and its node; None where all is over.

    Those in doubt ask first, the ones above before those below. Then those that commit finish and ask their branches, from below. Then what is
    kept is asked for and reported, and what waits for nobody is purged. At a node that is waiting the line before came to nothing.
    """
    nodes = list(states)
    for node in nodes:
        if states[node][0] == "ready":
            return node, "retry %d" % node
    for node in reversed(nodes):
        if states[node][0] in ("committing", "rolling"):
            return node, "retry %d" % node if node in waiting else "do %d done" % node
    for node in nodes:
        if states[node][1] > 0:
            return node, "purge %d" % node if node in waiting else "retry %d" % node
    return None


def closing_faults(shown: typing.List[str]) -> typing.List[str]:
    """Closing lines of a transcript that are not what its other lines say."""
    trees: typing.Dict[str, typing.Dict[int, str]] = {}  # what each node that logged a decision or a commitment is told
    decided: typing.Dict[str, typing.Set[int]] = {}
    for line in shown:
        words = line.split(" ")
        if words[0] == "send" and words[4:5] == ["data"] and words[6:7] == ["begin"]:
            trees.setdefault(words[7], {})
        elif words[0] == "log" and words[2] == "commit":
            trees.setdefault(words[4], {}).setdefault(int(words[3]), "commit")
        elif words[0] == "log" and words[2] == "heuristic":
            trees.setdefault(words[4], {})[int(words[3])] = words[6]
            decided.setdefault(words[4], set()).add(int(words[3]))
    closing = {words[1]: " ".join(words[2:]) for words in (line.split(" ") for line in shown) if words[0] == "tree"}
    faults = ["tree %s has no closing line" % tree for tree in trees if tree not in closing]
    if [it for it in closing if it in trees] != [it for it in trees if it in closing]:
        faults.append("the closing lines are out of order")
    for tree, said in closing.items():
        told = set(trees.get(tree, {}).values())
        mixed = "mixed by " + ",".join(map(str, sorted(decided.get(tree, []))))
        if said.startswith("mixed") and said != mixed or len(told) == 2 and said != mixed or said.startswith("agreed") and told - {said.split(" ")[1]}:
            faults.append("tree %s %s, where %s" % (tree, said, trees.get(tree)))
    return faults


class Schedule:
    """A schedule that goes on, and is played from its first line each time."""

    def __init__(self, command: typing.List[str], folder: str, lines: typing.List[str], above: typing.Dict[int, int]) -> None:
        self.command, self.folder, self.lines, self.above = command, folder, lines, above
        self.sent, self.plays = 0, 0
        self.shown: typing.List[str] = []

    def play(self) -> typing.Tuple[View, typing.List[str]]:
        """What is shown, with the closing lines."""
        text = "".join(line + "\n" for line in self.lines + ["show %d" % node for node in self.above])
        run = subprocess.run(self.command + ["replay"], cwd=self.folder, input=text.encode(), stdout=subprocess.PIPE, stderr=subprocess.PIPE)
        self.plays += 1
        if run.returncode != 0:
            raise RuntimeError("status %d: %s" % (run.returncode, run.stderr.decode(errors="replace").strip()))
        self.shown = shown = run.stdout.decode().splitlines()
        states, sent = {}, 0
        for line in shown:
            words = line.split(" ")
            if words[0] == "state":
                states[int(words[1])] = (words[2], int(words[4]))
            elif words[0] == "send":
                sent = int(words[1])
        new = list(range(self.sent + 1, sent + 1))
        self.sent = sent
        return View(states, new), [line for line in shown if line.startswith("tree ")]

    def images(self, sites: typing.Dict[int, str]) -> typing.Dict[str, bytes]:
        """The log of each site at the end."""
        text = "".join(line + "\n" for line in self.lines + ["image " + site for site in sorted(set(sites.values()))])
        run = subprocess.run(self.command + ["replay"], cwd=self.folder, input=text.encode(), stdout=subprocess.PIPE, check=True)
        words = [line.split(" ") for line in run.stdout.decode().splitlines() if line.startswith("image ")]
        return {site: bytes.fromhex(log) for _, site, log in words}

    def add(self, lines: typing.List[str]) -> View:
        self.lines += lines
        return self.play()[0]

    def deliver(self, new: typing.List[int]) -> None:
        """Frames that were sent since, and what is sent for them."""
        while new:
            new = self.add(["again %d" % frame for frame in new]).new


def honest(draw: random.Random, above: typing.Dict[int, int]) -> typing.List[str]:
    """Dialogues, and rounds of transactions."""
    below = [node for node in above if above[node]]
    lines = ["do %d begin-dialogue %d %s" % (above[node], node, draw.choice(UNITS)) for node in below] + ["drain"]
    lines += ["do %d accept %s" % (node, line.split(" ")[4]) for node, line in zip(below, lines)] + ["drain"]
    for _ in range(draw.randint(1, 3)):
        for node in below:
            lines += ["do %d begin-transaction %d" % (above[node], node), "drain"]
        for node in above:
            asks = draw.choice(["commit"] * 20 + ["rollback", "unchanged"])
            lines += ["do %d %s" % (node, asks), draw.choice(["drain"] * 5 + ["retry %d" % node])]
        lines += ["do %d done" % node for node in draw.sample(list(above), len(above)) if draw.random() < 0.8] + ["drain"]
    return lines


def wild(draw: random.Random, above: typing.Dict[int, int], sites: typing.Dict[int, str]) -> str:
    node = draw.choice(list(above))
    peer = draw.choice([other for other in above if above[other] == node or above[node] == other] or [node])
    site = sites[node]
    inside = "crash %s at %d fill %s in do %d %s" % (site, draw.randint(1, 6), draw.choice(["00", "01", "ff"]), node, draw.choice(["commit", "done"]))
    return draw.choice([
        "crash %s" % site, inside,
        "lose %d %d" % (node, peer), "skip %d %d" % (peer, node), "skip %d %d" % (node, peer), "giveup %d %d" % (node, peer), "giveup %d %d" % (node, peer),
        "heur %d rollback" % node, "heur %d rollback" % node, "heur %d commit" % node, "retry %d" % node, "purge %d" % node, "do %d done" % node,
        "do %d begin-dialogue %d scu" % (node, peer), "do %d accept scu" % peer,
    ])


def made(draw: random.Random) -> typing.Tuple[typing.List[str], typing.Dict[int, int], typing.Dict[int, str]]:
    count = draw.randint(2, 6)
    nodes = list(range(1, count + 1)) if draw.random() < 0.5 else draw.sample(range(1, 65536), count)
    above = {node: draw.choice(nodes[:k]) if k else 0 for k, node in enumerate(nodes)}
    sites = {node: draw.choice("abcd") for node in above}
    lines = honest(draw, above)
    lines = lines[:draw.randint(len(lines) // 2, len(lines))]
    for _ in range(draw.randint(0, 12)):
        lines.insert(draw.randrange(len(lines) // 2, len(lines) + 1), wild(draw, above, sites))
    return ["node %d %s%s" % (node, sites[node], " under %d" % above[node] if above[node] else "") for node in above] + lines, above, sites


def quieten(schedule: Schedule, sites: typing.Dict[int, str], cut: bool) -> View:
    """Each site stops; or each association is lost, and users end what is active."""
    if not cut:
        return schedule.add(["crash %s" % site for site in sorted(set(sites.values()))])
    above = schedule.above
    pairs = [(node, above[node]) for node in above if above[node]]
    view = schedule.add(["lose %d %d" % pair for pair in pairs] + ["lose %d %d" % (peer, node) for node, peer in pairs])
    for word in ("rollback", "done"):
        view = schedule.add(["do %d %s" % (node, word) for node in above if view.states[node][0] in ("active", "asked", "rolling")])
    return view


def finish(schedule: Schedule, view: View, sites: typing.Dict[int, str]) -> typing.Tuple[typing.List[str], int]:
    """Recovery to its end: what is wrong, and how many lines it took."""
    first = len(schedule.lines)
    faults = ["node %d is %s without associations" % (node, phase) for node, (phase, _) in view.states.items() if phase in ("active", "asked", "rolling")]
    most = sum((7 + 3 * len(view.states) if phase != "nil" else 0) + kept * (3 + 3 * len(view.states)) for phase, kept in view.states.values())
    waiting: typing.Set[int] = set()
    while not faults and (then := next_line(view.states, waiting)) is not None:
        node, line = then
        before = view.states
        schedule.deliver(schedule.add([line]).new)
        view = schedule.play()[0]
        if view.states != before:
            waiting = set()
        elif node in waiting:
            faults.append("nothing comes of %s" % line)
        else:
            waiting.add(node)
    logs = schedule.images(sites)
    for site, log in logs.items():
        last = {(record.number, record.key): record.kind for _, record in wire.records_of(log) if record.kind != "boot"}
        faults += ["site %s has a key whose last record is %s" % (site, kind) for kind in last.values() if kind != "end"]
    view, closing = schedule.play()
    faults += ["node %d is %s and keeps %d" % (node, *state) for node, state in view.states.items() if state != ("nil", 0)]
    faults += [line for line in closing if line.endswith(" open")] + closing_faults(schedule.shown)
    took = len(schedule.lines) - first
    if took > most:
        faults.append("%d lines where %d are promised" % (took, most))
    return faults, took


def main() -> int:
    parser = argparse.ArgumentParser(usage=__doc__)
    tools.add_program(parser)
    parser.add_argument("--short", action="store_true")
    parser.add_argument("--schedules", type=int)
    parser.add_argument("--seed", type=int, default=1)
    options = parser.parse_args()
    tools.set_program(options)
    count = options.schedules or (60 if options.short else 1000)
    counts, failed = dict.fromkeys(["schedules", "stopped", "cut", "lines of recovery", "trees", "mixed", "plays"], 0), 0
    with tempfile.TemporaryDirectory() as folder:
        for seed in range(options.seed, options.seed + count):
            lines, above, sites = made(random.Random(seed))
            schedule = Schedule(tools.command_of(options, []), folder, lines, above)
            schedule.play()
            faults, took = finish(schedule, quieten(schedule, sites, seed % 2 == 0), sites)
            closing = schedule.play()[1]
            counts["schedules"] += 1
            counts["cut" if seed % 2 == 0 else "stopped"] += 1
            counts["lines of recovery"] += took
            counts["trees"] += len(closing)
            counts["mixed"] += sum(" mixed " in line for line in closing)
            counts["plays"] += schedule.plays
            failed += bool(faults)
            for fault in faults:
                print("  seed %d: %s" % (seed, fault), flush=True)
    print("finish: %s, %d with a fault" % (tools.counted(counts), failed))
    return 1 if failed else 0


if __name__ == "__main__":
    sys.exit(main())
