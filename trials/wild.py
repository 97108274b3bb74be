"""Users who ask anything, for the runs `--wild` of `cluster`.

The nodes have any numbers, 0 and 65535 among them, and the dialogues all twelve sets of functional units. Users answer mostly as they
should, and ask anything else at any time. Besides what the relays do to records, all records from one site to another are lost for a while.
Processes are killed while they start, and logs are compacted and migrated before starts, by processes that are killed too.

A run ends by recovery alone. What is under way then is lost. Associations are lost at both ends and users give up what is active, or each
site is killed once; then `finish.next_line` says what comes next, by what the logs hold, and nothing else is given but the records that are
said then. It has no fault where no key is open in any log at the end, the lines are no more than is promised, and each node refuses to retry,
to purge and to be done.
"""
import random
import typing

import finish
import wire

SETS = [control | handshake | commit for control in (1, 2) for handshake in (0, 4) for commit in (0, 0x18, 0x28)]
PEERS = {  # the requests that name a peer, and how often they are asked
    0x04: 1, 0x06: 2, 0x07: 1, 0x08: 6, 0x09: 4, 0x0A: 5, 0x0B: 3, 0x0C: 4, 0x0D: 20, 0x0E: 5, 0x0F: 5, 0x10: 8,
}
ALONE = {0x02: 1, 0x03: 1, 0x11: 24, 0x12: 10, 0x13: 1, 0x14: 2}
DATA, BEGIN_DIALOGUE, UNCHANGED = 0x05, 0x01, 0x14
REQUESTS = {**PEERS, **ALONE, DATA: 20, BEGIN_DIALOGUE: 4}
NOTHING_OWED, NOT_KEPT, NO_TRANSACTION = 12, 14, 6


class Tree:
    """A root with up to seven nodes below it, each below any that came before."""

    def __init__(self, index: int, cluster: typing.Any, node: typing.Any) -> None:
        self.index, self.current, self.leaves = index, None, []  # type: ignore[var-annotated]
        draw, sites = cluster.draw, cluster.sites
        self.nodes: typing.List[typing.Any] = []
        for k in range(draw.randint(3, 8)):
            above = draw.choice(self.nodes[-3:]) if k else None
            self.nodes.append(node(cluster.new_number(), draw.choice(sites), above, self, "leaf" if k else "root"))
        self.root = self.nodes[0]


def answer_of(draw: random.Random, offer: int) -> int:
    """Units that may answer this offer."""
    return draw.choice([units for units in SETS if units & ~offer == 0])


def is_root(node: typing.Any, tree: bytes) -> bool:
    """Whether a tree is one that this node began."""
    return tree[:-18] == node.address[:-2] and tree[-10:-8] == node.address[-2:]


class Users:
    """What `Cluster` does with its users, when they are wild. It has these itself:"""

    draw: random.Random
    counts: typing.Dict[str, int]
    nodes: typing.Dict[int, typing.Any]
    addresses: typing.Dict[bytes, typing.Any]
    sites: typing.List[typing.Any]
    trees: typing.List[Tree]
    heap: typing.List[typing.Any]
    complete: typing.List[typing.Any]
    quiet: bool
    fault: typing.Callable[[str], None]
    note_down: typing.Callable[..., None]
    ask: typing.Callable[..., None]
    later: typing.Callable[..., None]
    lose_both: typing.Callable[[typing.Any, typing.Any], None]

    def __init__(self, options: typing.Any, sites: int, goal: int, seed: int, folder: str, wrong: bool) -> None:
        self.numbers = [0, 65535]
        self.current: typing.Dict[int, bytes] = {}  # the tree of each node, as its user knows
        self.began: typing.Dict[bytes, typing.Set[int]] = {}  # who was told of the begin of a tree
        self.leaving: typing.Dict[int, typing.List[bytes]] = {}  # the trees that a node asked to leave, and was not answered
        self.left: typing.Set[typing.Tuple[int, bytes]] = set()  # who left, or may have left
        self.ends: typing.Dict[bytes, typing.Tuple[str, int]] = {}  # what a root was told at the end of its tree, and the report
        self.given_up: typing.Dict[typing.Tuple[int, int], bytes] = {}  # who gave whom up, and in which tree
        self.peers: typing.Dict[int, typing.Set[int]] = {}  # whom a node asked for a dialogue
        self.said: typing.Dict[typing.Tuple[int, int], int] = {}  # how much data one node gave for another
        self.heard: typing.Dict[typing.Tuple[int, int], int] = {}  # the last that came
        self.cut: typing.Dict[typing.Tuple[str, str], typing.Set[typing.Tuple[typing.Any, typing.Any]]] = {}
        self.records: typing.Dict[bytes, typing.Dict[typing.Tuple[int, bytes], typing.Set[str]]] = {}
        self.states: typing.Dict[str, typing.Tuple[bytes, typing.Dict[int, typing.Tuple[str, int]]]] = {}
        self.healing: typing.Optional[typing.Iterator[None]] = None
        self.answered: typing.Optional[int] = None
        self.healed = self.deaf = False  # deaf: what is under way, and what is said, is lost
        self.rolling: typing.Set[int] = set()  # who was told to roll back, and has not ended
        super().__init__(options, sites, goal, seed, folder, wrong)  # type: ignore[call-arg]
        words = ["dialogues", "chained", "polarized", "handshakes", "deferrals", "data", "left", "decisions", "given up", "partitions", "cut off",
                 "kills in a start", "with a report", "lines of recovery"]
        self.counts.update(dict.fromkeys(words, 0))
        for node in self.nodes.values():
            self.peers[node.number] = {it.number for it in node.children + ([node.superior] if node.superior else [])}

    def new_number(self) -> int:
        number = self.numbers.pop() if len(self.numbers) in (1, 2) and self.draw.random() < 0.5 else self.draw.randrange(1, 65535)
        return self.new_number() if number in (it.number for site in self.sites for it in site.nodes) else number

    # The relays.

    def send(self, sender: bytes, target: bytes, number: int, record: bytes, node: typing.Any, what: typing.Any) -> None:
        here, there = self.addresses[sender], self.addresses[target]
        if record[0] == 4 and record[45] == 0x0C:
            tree = bytes(record[46:wire.end_of_identifier(record, 46)])
            if is_root(here, tree):
                self.current[here.number] = tree
        if self.deaf:
            return
        cut = self.cut.get((here.site.name, there.site.name))
        if cut is not None:
            self.counts["cut off"] += 1
            if record[0] <= 4:
                cut.add((here, there))
            return
        super().send(sender, target, number, record, node, what)  # type: ignore[misc]

    def act(self, what: typing.Any) -> None:
        if what[0] == "arrive" and self.deaf:
            return
        if what[0] == "mend":
            for one, other in self.cut.pop(what[1], ()):
                self.lose_both(one, other)
        elif what[0] == "give up":
            body = b"\x06" + wire.short(what[1].number) + wire.short(what[2].number)
            what[1].site.give(body, what[1], ("give up", what[2].number))
        elif what[0] == "kill in start":
            if what[1].up and not what[1].ready and not self.quiet:
                self.counts["kills in a start"] += 1
                what[1].kill()
                self.later(self.draw.uniform(0, 0.02), "start", what[1])
        elif what[0] == "start":
            self.collect(what[1])
            if self.draw.random() < 0.3:
                what[1].compact()
            for node in what[1].nodes:
                self.current.pop(node.number, None)
                self.given_up = {pair: tree for pair, tree in self.given_up.items() if pair[0] != node.number}
                self.left |= {(node.number, tree) for tree in self.leaving.pop(node.number, [])}
                self.rolling.discard(node.number)
            what[1].start()
            if not self.quiet and self.draw.random() < 0.3:
                self.later(self.draw.uniform(0, 0.01), "kill in start", what[1])
        else:
            super().act(what)  # type: ignore[misc]

    # The users.

    def request(self, node: typing.Any, code: int, peer: typing.Any = None) -> None:
        """The user of a node asks; with a peer that is drawn where one is wanted and none is given."""
        draw, rest, what = self.draw, b"", "ask"
        near = node.children + ([node.superior] if node.superior else [])
        if peer is None:
            peer = draw.choice(near) if near and draw.random() < 0.97 else draw.choice(list(self.nodes.values()))
        if code == BEGIN_DIALOGUE:
            if node.children and draw.random() < 0.97:
                peer = draw.choice(node.children)
            self.peers[node.number].add(peer.number)
            rest = peer.address + bytes([draw.choice(SETS) if draw.random() < 0.98 else draw.randrange(256)])
        elif code == DATA:
            count = self.said[node.number, peer.number] = self.said.get((node.number, peer.number), 0) + 1
            rest = wire.short(peer.number) + wire.octets(count.to_bytes(4, "big") + bytes(draw.choice([0, 0, 0, 7, 1020, 1021])))
        elif code in PEERS:
            rest = wire.short(peer.number)
        elif code == wire.ACCEPT:
            rest = bytes([draw.choice(SETS)])
        elif code == UNCHANGED and node.number in self.current:
            self.leaving.setdefault(node.number, []).append(self.current[node.number])
            what = "leave"
        self.ask(node, code, rest, (what, code))

    def over(self, node: typing.Any, what: typing.Any, refused: typing.Optional[int]) -> None:
        word, subject = what
        if word == "heal":
            self.answered = refused or 0
        elif word == "leave":
            tree = self.leaving[node.number].pop(0)
            if refused is None:
                self.counts["left"] += 1
                self.left |= {(node.number, tree), (node.number, self.current.get(node.number, tree))}
        elif word == "give up" and refused is None:
            self.counts["given up"] += 1
            tree = self.current.get(node.number, b"")
            if tree and self.given_up.get((node.number, subject)) == tree:
                self.fault("node %d gives %d up twice" % (node.number, subject))
            self.given_up[node.number, subject] = tree
        elif word == "ask" and refused is None and subject in (0x0E, 0x0F):
            self.counts["deferrals"] += 1
        elif word == "count" and refused is None:
            self.counts[subject] += 1

    def told(self, node: typing.Any, code: int, rest: bytes) -> None:
        draw, word = self.draw, wire.TOLD[code]
        self.note_down(node.number, word, rest.hex())
        answers: typing.List[int] = []
        if word == "begin-dialogue" and (node.superior is None or rest[:2] != wire.short(node.superior.number)):
            self.fault("node %d is offered a dialogue by a stranger" % node.number)
        if word == "rollback":
            self.rolling.add(node.number)
        if word in ("commit-complete", "rollback-complete"):
            self.rolling.discard(node.number)
            self.complete_at(node, word[:-9], rest[0])
        if self.quiet:
            return
        if word == "begin-dialogue":
            if draw.random() < 0.9:
                self.ask(node, wire.ACCEPT, bytes([answer_of(draw, rest[2])]), ("ask", wire.ACCEPT))
            else:
                answers = [wire.REJECT]
        elif word == "begun-dialogue":
            self.counts["dialogues"] += 1
            self.counts["chained"] += bool(rest[2] & 0x10)
            self.counts["polarized"] += bool(rest[2] & 2)
        elif word in ("handshake", "handshake-and-grant"):
            self.counts["handshakes"] += 1
            self.ask(node, 0x0B, rest[:2], ("ask", 0x0B))
        elif word == "data":
            self.take_data(node, self.nodes[rest[0] << 8 | rest[1]], rest[4:])
        elif word == "begin-transaction":
            self.current[node.number] = bytes(rest[2:])
            self.began.setdefault(bytes(rest[2:]), set()).add(node.number)
            for child in node.children:
                if draw.random() < 0.7:
                    self.request(node, wire.BEGIN_TRANSACTION, child)
            answers = [draw.choice([DATA, 0x0E, 0x0F, 0x10, 0x0A])] if draw.random() < 0.3 else []
        elif word == "prepare":
            answers = [draw.choice([wire.COMMIT] * 16 + [wire.ROLLBACK] + [UNCHANGED] * 3)]
            if draw.random() < 0.2:
                self.later(draw.uniform(0, 0.01), "meddle", node, b"\x05" + wire.short(node.number) + bytes([draw.choice([1, 2])]), "decisions")
        elif word in ("commit", "rollback"):
            answers = [wire.DONE]
            if word == "commit" and node.children and draw.random() < 0.2:
                branch = draw.choice(node.children)
                answers = draw.choice([answers, []])  # where it is not done, a retry tells it again
                for delay in draw.choice([(0.0,), (0.0, 0.001), (0.01,), (0.001, 0.02)]):
                    self.later(delay, "give up", node, branch)
        if draw.random() < 0.95:
            for answer in answers:
                self.request(node, answer)

    def take_data(self, node: typing.Any, peer: typing.Any, data: bytes) -> None:
        """What one end gave for the other comes in its order, and nothing twice."""
        self.counts["data"] += 1
        count, pair = int.from_bytes(data[:4], "big"), (peer.number, node.number)
        if not self.heard.get(pair, 0) < count <= self.said.get(pair, 0):
            self.fault("data %d of %d for %d after %d" % (count, *pair, self.heard.get(pair, 0)))
        self.heard[pair] = count

    def complete_at(self, node: typing.Any, outcome: str, report: int) -> None:
        tree = self.current.pop(node.number, None)
        self.counts["with a report"] += report != 0
        if tree is not None and is_root(node, tree):
            self.ends[tree] = outcome, report
            self.counts["complete" if outcome == "commit" else "rolled back"] += 1
            if outcome == "commit":
                self.complete.append(tree)

    # The run.

    def tend(self) -> None:
        draw = self.draw
        if self.quiet:
            if self.healing is None:
                self.healing = self.heal()
            self.healed = self.healed or next(self.healing, self) is self
            return
        for _ in range(max(1, len(self.nodes) // 8)):
            node = draw.choice(list(self.nodes.values()))
            if node.site.ready and len(node.site.waiting) < 60:
                self.request(node, draw.choices(list(REQUESTS), list(REQUESTS.values()))[0])
        for node in self.nodes.values():
            if node.superior and not node.live and node.site.ready and node.superior.site.ready and draw.random() < 0.02:
                node.live = draw.random() < 0.9
                self.request(node.superior, BEGIN_DIALOGUE, node)
        if draw.random() < 0.012:
            self.later(0, "kill")
        if draw.random() < 0.01 and len(self.sites) > 1:
            one, other = draw.sample([site.name for site in self.sites], 2)
            if (one, other) not in self.cut:
                self.cut[one, other] = set()
                self.counts["partitions"] += 1
                self.later(draw.uniform(0.02, 0.4), "mend", (one, other))
        if draw.random() < 0.05:
            node = draw.choice(list(self.nodes.values()))
            if node.superior:
                self.lose_both(node, node.superior)
                node.live = False

    def retry_all(self) -> None:
        for node in self.nodes.values():
            if not self.quiet and node.site.up and self.draw.random() < 0.5:
                node.site.give(wire.retry(node.number), node, ("retry", None))
                if self.draw.random() < 0.1:
                    node.site.give(b"\x08" + wire.short(node.number), node, ("retry", None))

    def is_calm(self) -> bool:
        return all(site.up and not site.waiting for site in self.sites) and not self.heap

    def idle(self) -> bool:
        return self.healed

    # The end: recovery alone.

    def heal(self) -> typing.Iterator[None]:
        """Goes on each time that something may have changed, and ends when nothing is left to do."""
        self.deaf = True
        while not self.is_calm():
            yield
        self.cut.clear()
        yield from self.quieten()
        self.deaf = False
        for tree in self.trees:
            yield from self.finish(tree)
        for node in self.nodes.values():
            for body, due in ((wire.retry(node.number), NOTHING_OWED), (b"\x08" + wire.short(node.number), NOT_KEPT),
                              (wire.do(node.number, wire.DONE), NO_TRANSACTION)):
                yield from self.line(node, body)
                if self.answered != due:
                    self.fault("node %d answers %s by %s at the end" % (node.number, body.hex(), self.answered))

    def quieten(self) -> typing.Iterator[None]:
        if self.draw.random() < 0.5:
            for site in self.sites:
                site.kill()
                self.later(0, "start", site)
            yield
            while not self.is_calm():
                yield
            return
        for number, peers in self.peers.items():
            for peer in peers:
                for one, other in ((number, peer), (peer, number)):
                    self.nodes[one].site.give(wire.lose(one, other), self.nodes[one], ("retry", None))
        while not self.is_calm():
            yield
        for word in (wire.ROLLBACK, wire.DONE):
            for node in self.nodes.values():
                node.site.give(wire.do(node.number, word), node, ("retry", None))
            yield
            while not self.is_calm():
                yield

    def line(self, node: typing.Any, body: bytes) -> typing.Iterator[None]:
        """One line of recovery, and the delivery of all that is said then."""
        self.answered = None
        node.site.give(body, node, ("heal", None))
        while not self.is_calm() or self.answered is None:
            yield

    def state(self, node: typing.Any) -> typing.Tuple[str, int]:
        """The phase of a node and how many transactions it keeps, by its site's log."""
        log = node.site.log()
        if self.states.get(node.site.name, (None, None))[0] != log:
            last: typing.Dict[typing.Tuple[int, bytes], str] = {}
            for _, record in wire.records_of(log):
                last[record.number, record.key] = record.kind
            found: typing.Dict[int, typing.Tuple[str, int]] = {}
            for (number, _), kind in last.items():
                phase, kept = found.get(number, ("nil", 0))
                phase = {"ready": "ready", "heuristic": "ready", "commit": "committing"}.get(kind, phase)
                found[number] = phase, kept + (kind == "damage")
            self.states[node.site.name] = log, found
        phase, kept = self.states[node.site.name][1].get(node.number, ("nil", 0))
        return "rolling" if phase == "nil" and node.number in self.rolling else phase, kept

    def finish(self, tree: Tree) -> typing.Iterator[None]:
        states = {node.number: self.state(node) for node in tree.nodes}
        most = sum((7 + 3 * len(states) if phase != "nil" else 0) + kept * (3 + 3 * len(states)) for phase, kept in states.values())
        took, waiting = 0, set()  # type: ignore[var-annotated]
        while (then := finish.next_line(states, waiting)) is not None:
            number, text = then
            node = self.nodes[number]
            body = {"retry": wire.retry(number), "purge": b"\x08" + wire.short(number)}.get(text.split()[0], wire.do(number, wire.DONE))
            yield from self.line(node, body)
            took += 1
            before, states = states, {node.number: self.state(node) for node in tree.nodes}
            if states != before:
                waiting = set()
            elif number in waiting:
                self.fault("nothing comes of %s" % text)
                return
            else:
                waiting.add(number)
        self.counts["lines of recovery"] += took
        if took > most:
            self.fault("%d lines where %d are promised" % (took, most))

    # The judgement.

    def collect(self, site: typing.Any) -> None:
        """The records of a log, which a compaction may take away."""
        try:
            found = wire.records_of(site.log())
        except wire.Foreign as why:
            self.fault("the log of %s: %s" % (site.name, why))
            return
        for _, record in found:
            if record.kind != "boot":
                tree = record.key[:wire.end_of_identifier(record.key, 0)]
                word = record.kind if record.kind in ("commit", "heuristic") else record.outcome
                if record.kind in ("heuristic", "commit") or record.outcome == "rollback":
                    self.records.setdefault(tree, {}).setdefault((record.number, record.key), set()).add(word)

    def judge_stores(self) -> None:
        """No stores, but trees: no two outcomes without a decision, and what a root was told of its tree is so."""
        for site in self.sites:
            self.collect(site)
        for tree, pairs in self.records.items():
            plain = [words for words in pairs.values() if "heuristic" not in words]
            if any("commit" in words for words in plain) and any("rollback" in words for words in plain):
                self.fault("two outcomes in %s" % wire.words_of_identifier(tree))
        for tree, (outcome, report) in self.ends.items():
            committed = {number for (number, _), words in self.records.get(tree, {}).items() if "commit" in words}
            staying = {number for number in self.began.get(tree, set()) if (number, tree) not in self.left}
            if outcome == "rollback" and committed:
                self.fault("%s is rolled back, and %s have it committed" % (wire.words_of_identifier(tree), committed))
            if outcome == "commit" and not report and not staying <= committed:
                self.fault("%s is complete without %s" % (wire.words_of_identifier(tree), staying - committed))

    def outcomes_told(self) -> typing.List[typing.Tuple[str, str]]:
        return [(wire.words_of_identifier(tree), outcome) for tree, (outcome, _) in self.ends.items()]

    def planted(self, bodies: typing.List[bytes]) -> typing.List[typing.Tuple[str, typing.List[bytes], int, bytes]]:
        """Not every record of these runs is taken, so one that is changed need not be found."""
        return []
