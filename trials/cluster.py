"""Money is moved between stores by transactions over real processes that are killed.

trials/run cluster [--program CMD] [--short] [--transfers N] [--sites N] [--seed N] [--wild | --wrong | --right] [--compact] [--tx] ..

Each site is a process `node` with a folder and a `tp.log` of its own. The sites speak through relays in this script, which
delay, repeat, reorder and drop what they carry, and lose associations, by a seed. Several trees stand over the sites, each
with a root, nodes between, stores at its leaves, and a witness that leaves each transaction. The users are scripts. About
every tenth transfer a site is killed by SIGKILL, at any moment, its stores forget what they held in memory, and it is started
again on its files. A run ends when no node has anything to do. Then the logs and the stores are judged.

Before that come runs with users who ask anything, as wild.py says, over dialogues of all units, each of which is ended by recovery alone (--wild
does this alone, with a wrong site where --wrong is given, too). After it the same with one wrong site: each kill of it takes the last record off
its log, as though it had answered before it forced. Such a run must end with faults, or the trial shows nothing (--wrong does this alone,
--right leaves both out).

With --compact a log is compacted before every third start, at times by a process that is killed too. With --heuristic ready nodes
decide by themselves at times, committing ones give branches up, and kept transactions are purged: then a commitment may be complete
with a report, and all else is judged as before. With --tx the first site is a process `tx`: the user of its node 1 calls the face.
"""
import argparse
import heapq
import os
import random
import selectors
import shutil
import signal
import subprocess
import sys
import tempfile
import time

import bank
import tools
import wild
import wire

UNITS = [0x29, 0x29, 0x2A, 0x2D, 0x2E]  # commit and unchained: shared or polarized, with handshakes or without
START = 1000  # what each account has at first
NONE = b"\x00"
RETRY = 0.15  # seconds from one retry to the next
CALLS = {wire.BEGIN_TRANSACTION: 0x20, wire.COMMIT: 0x21, wire.ROLLBACK: 0x22, wire.DONE: 0x23}
CODES = {(outcome, report): 1 + 3 * k + report for k, outcome in enumerate(("commit", "rollback")) for report in range(3)}
PROTOCOL = 0x100  # a call at the wrong stand, beside the numbers of refusal


class Node:
    def __init__(self, number, site, superior, tree, kind):
        self.number, self.site, self.superior, self.tree, self.kind = number, site, superior, tree, kind
        self.face = site.face and number == 1
        self.children = []
        self.address = wire.address(site.name, number)
        self.store = None
        self.forget()
        site.nodes.append(self)
        if superior is not None:
            superior.children.append(self)

    def closes(self, delay=0.0):
        """The dialogue with the superior is over, or was not opened: the next comes after this delay."""
        self.live, self.opened, self.not_before = False, None, time.monotonic() + delay

    def forget(self):
        """What the node's user knows right after its site has stopped."""
        self.live = False  # at the superior's end: the dialogue with this node is live
        self.opened = None  # when the superior asked for it, where it has
        self.not_before = 0.0  # when the superior asks for it again at the earliest
        self.transfer = None  # the transfer that is current at this node, where its user knows
        self.busy = False
        self.retrying, self.says, self.patience = False, False, 0
        self.started = False  # a start has not shown yet whether the node is idle


class Transfer:
    def __init__(self, number, source, target, amount, witness):
        self.number, self.source, self.target, self.amount = number, source, target, amount
        self.leaves = [source, target]
        self.path = set()
        for leaf in self.leaves + ([witness] if witness else []):
            at = leaf
            while at is not None:
                self.path.add(at)
                at = at.superior
        self.key = b"t%d" % number
        self.identifier = None  # the identifier, once it is drawn
        self.begun = set()  # the stores that take part
        self.awaited = len({node for node in self.path if node.superior is source.tree.root})
        self.asked = self.spoilt = False
        self.since = time.monotonic()


class Tree:
    """A root with its nodes, and the transfers that its user makes one after the other."""

    def __init__(self, index, cluster):
        self.index, self.cluster, self.current = index, cluster, None
        sites, draw = cluster.sites, cluster.draw

        def take(k):
            return sites[(index + k) % len(sites)]

        def number():
            return cluster.new_number()
        self.root = Node(number(), take(0), None, self, "root")
        between = [Node(number(), take(1), self.root, self, "between")]
        # A face begins on one branch.
        tops = [between[0]] if self.root.face else [self.root]
        if draw.random() < 0.5:
            between.append(Node(number(), take(2), draw.choice(tops + [between[0]]), self, "between"))
        self.leaves = []
        for k in range(draw.randint(2, 4)):
            above = draw.choice(tops) if k == 0 and draw.random() < 0.5 else draw.choice(between)
            leaf = Node(number(), take(2 + k), above, self, "leaf")
            os.makedirs(os.path.join(leaf.site.folder, "store-%d" % leaf.number))
            leaf.store = bank.Store(os.path.join(leaf.site.folder, "store-%d" % leaf.number, "bound.log"))
            self.leaves.append(leaf)
        self.witness = Node(number(), take(1), draw.choice(between), self, "witness")
        self.nodes = [self.root] + between + self.leaves + [self.witness]


class Site:
    def __init__(self, name, cluster, folder):
        self.name, self.cluster, self.folder = name, cluster, folder
        self.face = cluster.with_face and not cluster.sites
        self.ready = False  # it has answered since its start
        self.nodes, self.process, self.up, self.starts, self.refused = [], None, False, 0, None
        self.streams = []  # what each process was given that happened
        os.makedirs(folder)
        with open(os.path.join(folder, "tp.log"), "wb") as log:
            log.write(wire.FRESH)

    def start(self):
        self.found = self.log()
        self.errors = open(os.path.join(self.folder, "errors"), "ab")
        self.process = subprocess.Popen(
            self.cluster.program + ["tx" if self.face else "node", "--name", self.name], cwd=self.folder, bufsize=0,
            stdin=subprocess.PIPE, stdout=subprocess.PIPE, stderr=self.errors)
        os.set_blocking(self.process.stdin.fileno(), False)
        os.set_blocking(self.process.stdout.fileno(), False)
        self.cluster.selector.register(self.process.stdout, selectors.EVENT_READ, self)
        self.ready = False
        self.up, self.waiting, self.outgoing, self.incoming, self.refused, self.ended = True, [], bytearray(), bytearray(), None, None
        self.starts += 1
        self.taken, self.over = bytearray(), 0
        if self.cluster.record:
            path = os.path.join(self.cluster.record, "%s-%s-%d" % (os.path.basename(self.cluster.folder), self.name, self.starts))
            with open(path + ".log", "wb") as log:
                log.write(self.found)
            self.given = open(path + ".frames", "wb")
        for node in self.nodes:
            self.give(wire.declare(node.number, node.superior.address if node.superior else None))
        for node in self.nodes:
            node.busy = node.started = node.retrying = True
            self.give(wire.retry(node.number), node, ("retry", None))

    def give(self, body, node=None, what=None):
        if self.up:
            self.cluster.counts["events"] += 1
            self.waiting.append((node, what))
            self.outgoing += wire.frame(body)
            self.write()

    def write(self):
        if not self.outgoing:
            return
        try:
            size = os.write(self.process.stdin.fileno(), self.outgoing)
        except BlockingIOError:
            return
        except BrokenPipeError:
            self.cluster.unexpected(self)
            return
        if self.cluster.record:
            self.given.write(self.outgoing[:size])
        self.taken += self.outgoing[:size]
        del self.outgoing[:size]

    def read(self):
        """Takes what the process wrote; False where it wrote its last."""
        while True:
            try:
                piece = os.read(self.process.stdout.fileno(), 1 << 16)
            except BlockingIOError:
                return True
            if not piece:
                return False
            self.incoming += piece
            bodies, size = wire.frames_in(self.incoming)
            del self.incoming[:size]
            for body in bodies:
                self.take(body)

    def take(self, body):
        cluster, code = self.cluster, body[0]
        if not self.ready:
            cluster.note_down(self.name, "answers")
        self.ready = True
        if not self.waiting:
            cluster.fault("a frame that no event asked for: %s" % body.hex())
            return
        node, what = self.waiting[0]
        if code == (0x30 if self.face else 0x13) and len(body) == (3 if self.face else 1):
            self.waiting.pop(0)
            self.over += 1
            self.judge_face(body)
            if self.refused:
                cluster.note_down(self.name, "refused", self.refused, what and what[0], node and node.number)
            if what is not None:
                cluster.over(node, what, self.refused)
            self.refused = None
        elif code == 0x12:
            self.refused = body[1]
            cluster.counts["refused"] += 1
        elif code == 0x31 and self.face:
            self.refused = PROTOCOL + body[1]
            cluster.counts["wrong stand"] += 1
        elif code == 0x11:
            sender, _, at = wire.read_address(body, 1)
            target, number, at = wire.read_address(body, at)
            cluster.send(sender, target, number, body[at + 2:], node, what)
        elif code == 0x10:
            cluster.told(cluster.nodes[body[1] << 8 | body[2]], body[3], body[4:])
        else:
            cluster.fault("an output of an unknown kind: %s" % body.hex())

    def judge_face(self, body):
        """The code of a face is that of the last completion that its user was told."""
        if self.face and self.ended is not None:
            if body[2] != self.ended:
                self.cluster.fault("the code of a face is %d, and its user was told of the completion %d" % (body[2], self.ended))
            self.cluster.counts["codes"] += 1
            self.ended = None

    def kill(self):
        cluster, draw = self.cluster, self.cluster.draw
        cluster.note_down(self.name, "killed")
        self.process.send_signal(signal.SIGKILL)
        self.up = False
        cluster.selector.unregister(self.process.stdout)
        self.process.wait()
        # What had been written is on its way: at times it is lost with the machine.
        if draw.random() < 0.8:
            self.read()
        self.ready = False
        self.close()
        cluster.counts["kills"] += 1
        self.note_stream(True)
        if cluster.wrong and self is cluster.sites[0]:
            self.cut_back()
        self.scramble()
        for node in self.nodes:
            if node.store is not None:
                node.store.crash()
            if node.superior is not None:
                cluster.later(draw.uniform(0, 0.02), "lose", node.superior, node)
            for child in node.children:
                child.closes()
                cluster.later(draw.uniform(0, 0.02), "lose", child, node)
            node.busy = node.retrying = node.started = False

    def note_stream(self, killed):
        """What the process was given that happened: of a killed one all that was answered, and on while the log has the records."""
        if self.cluster.unite is None:
            return
        bodies, _ = wire.frames_in(self.taken)
        if killed:
            bodies = self.happened(bodies)
        if bodies is not None:
            self.streams.append(b"".join(map(wire.frame, bodies)))

    def happened(self, bodies):
        """Those of the events that happened; None where the process had not started. They are given to another process on the same log."""
        records = self.records(self.log()) - self.records(self.found)
        if records == 0:
            return None
        with tempfile.TemporaryDirectory(dir=self.cluster.folder) as folder:
            path = os.path.join(folder, "tp.log")
            with open(path, "wb") as log:
                log.write(self.found)
            process = subprocess.Popen(self.cluster.program + ["node", "--name", self.name], cwd=folder, stdin=subprocess.PIPE, stdout=subprocess.PIPE)
            for count, body in enumerate(bodies):
                process.stdin.write(wire.frame(body))
                process.stdin.flush()
                while wire.read_frame(process.stdout) != b"\x13":
                    pass
                if count >= self.over:
                    with open(path, "rb") as log:
                        if self.records(log.read()) - self.records(self.found) > records:
                            bodies = bodies[:count]
                            break
            process.stdin.close()
            process.wait()
            process.stdout.close()
        return bodies

    def records(self, log):
        return len(wire.records_of(log))

    def close(self):
        if self.cluster.record:
            self.given.close()
        self.process.stdin.close()
        self.process.stdout.close()
        self.errors.close()

    def log(self):
        with open(os.path.join(self.folder, "tp.log"), "rb") as file:
            return file.read()

    def cut_back(self):
        log = self.log()
        if log[4] == 2:
            return
        places, _ = wire.gates_of(log)
        if places and wire.body_at(log, places[-1])[0] != 1:
            with open(os.path.join(self.folder, "tp.log"), "r+b") as file:
                file.seek(places[-1])
                file.write(NONE)
            self.cluster.counts["records taken back"] += 1

    def scramble(self):
        """What stands after the closing gate is no part of the log: it may be anything."""
        log, draw = self.log(), self.cluster.draw
        if log[4] == 2 or draw.random() < 0.5:
            return
        _, gate = wire.gates_of(log)
        rest = draw.choice([bytes(80), b"\x01" * 80, b"\xff" * 80, draw.randbytes(80)])
        with open(os.path.join(self.folder, "tp.log"), "r+b") as file:
            file.seek(gate + 1)
            file.write(rest[: max(len(log) - gate - 1, draw.choice([0, 80]))])

    def compact(self):
        """The log is made short while the site is down; at times that process is killed, too."""
        words = self.cluster.program + [self.cluster.draw.choice(["compact", "migrate"])]
        process = subprocess.Popen(words, cwd=self.folder, stderr=subprocess.PIPE)
        if self.cluster.draw.random() < 0.5:
            time.sleep(self.cluster.draw.uniform(0, 0.01))
            process.kill()
            self.cluster.counts["compactions killed"] += process.wait() != 0
        said = process.communicate()[1]
        if process.returncode not in (0, -9):
            self.cluster.fault("%s: status %d, %s" % (words[-1], process.returncode, said))
        self.cluster.counts["compactions"] += process.returncode == 0


class Cluster:
    wild = False

    def __init__(self, options, sites, transfers, seed, folder, wrong):
        self.program, self.wrong, self.record, self.unite = options.program, wrong, options.record, None if options.tx else options.unite
        self.compacting, self.heuristic, self.with_face = options.compact, options.heuristic, options.tx
        self.draw = random.Random(seed)
        self.folder, self.goal, self.kill_rate, self.slow = folder, transfers, options.kill_rate, options.slow
        self.patience = round(4 * self.slow / RETRY)
        self.selector, self.heap, self.order = selectors.DefaultSelector(), [], 0
        self.counts = dict.fromkeys(
            ["begun", "complete", "rolled back", "unheard", "kills", "events", "refused", "carried", "dropped", "repeated",
             "overtaken", "lost associations", "left"], 0)
        if wrong:
            self.counts["records taken back"] = 0
        if self.with_face:
            self.counts.update({"completions of a face": 0, "wrong stand": 0, "codes": 0})
        if self.compacting:
            self.counts.update({"compactions": 0, "compactions killed": 0})
        if self.heuristic:
            self.counts.update({"decisions": 0, "given up": 0, "purged": 0, "complete with a report": 0})
        self.faults, self.nodes, self.addresses = [], {}, {}
        self.arrived_last, self.past = {}, []
        self.quiet = False
        self.transfers, self.by_identifier, self.complete = [], {}, []
        self.asked = {}  # what each store was asked: node and tree to words
        self.endings = {}  # what the user of each root was told: tree to outcome
        self.named = set()  # the faults that were planted into its recording, and named
        self.sites = []
        for k in range(sites):
            self.sites.append(Site("s%d" % k, self, os.path.join(folder, "s%d" % k)))
        self.trees = [self.make_tree(k) for k in range(options.trees * sites)]
        for site in self.sites:
            for node in site.nodes:
                node.patience = self.patience
                self.nodes[node.number] = node
                self.addresses[node.address] = node

    def make_tree(self, index):
        return Tree(index, self)

    def new_number(self):
        self.order += 1
        return self.order

    def fault(self, text):
        self.faults.append(text)

    def note_down(self, *words):
        if self.trace:
            print("%.4f" % time.monotonic(), *words, file=self.trace)

    def later(self, delay, *what):
        self.order += 1
        heapq.heappush(self.heap, (time.monotonic() + delay, self.order, what))

    # The relays.

    def send(self, sender, target, number, record, node, what):
        draw, kind = self.draw, record[0]
        if kind == 4 and what is not None and what[0] == "begin":
            self.learn(record, what[1])
        here, there = self.addresses[sender], self.addresses[target]
        body = wire.arrive(sender, target, record)
        self.counts["carried"] += 1
        now, pair = time.monotonic(), (sender, target)
        delay = draw.uniform(0, 0.002) if draw.random() < 0.97 else draw.uniform(0, 0.03)
        on_association = kind <= 4
        if not self.quiet:
            x = draw.random()
            if x < 0.004:
                self.counts["dropped"] += 1
                if on_association:
                    self.lose_both(here, there)
                return
            if x < 0.014:
                self.counts["repeated"] += 1
                self.later(draw.uniform(0, 0.05), "arrive", there, body)
            elif x < 0.017:
                # It comes late, and others of its pair overtake it.
                self.counts["overtaken"] += 1
                self.later(delay + 0.005, "arrive", there, body)
                if on_association:
                    self.lose_both(here, there)
                return
            elif x < 0.018:
                self.lose_both(here, there)
            if draw.random() < 0.003 and self.past:
                # One that was carried long ago comes again.
                self.later(delay, "arrive", *draw.choice(self.past))
            if len(self.past) < 4000:
                self.past.append((there, body))
            else:
                self.past[draw.randrange(4000)] = (there, body)
        at = now + delay
        if on_association:
            at = max(at, self.arrived_last.get(pair, 0))
            self.arrived_last[pair] = at
        self.order += 1
        heapq.heappush(self.heap, (at, self.order, ("arrive", there, body)))

    def learn(self, record, transfer):
        """The identifier of a transfer's tree, from the first Begin that its root sends (it stands after two marks and a number)."""
        if record[45] == 0x0C and transfer.identifier is None:
            transfer.identifier = bytes(record[46:wire.end_of_identifier(record, 46)])
            self.by_identifier[transfer.identifier] = transfer

    def lose_both(self, one, other):
        self.counts["lost associations"] += 1
        self.later(self.draw.uniform(0, 0.02), "lose", one, other)
        self.later(self.draw.uniform(0, 0.02), "lose", other, one)

    # The users.

    def ask(self, node, request, rest=b"", what=None):
        self.note_down(node.kind, node.number, "asks", "%02x" % request, rest.hex())
        body = bytes([CALLS[request]]) + rest if node.face and request in CALLS else wire.do(node.number, request, rest)
        node.site.give(body, node, what)

    def over(self, node, what, refused):
        """An event that somebody waits for is over."""
        word, subject = what
        if word == "retry":
            self.over_retry(node, refused)
        elif word == "open" and refused is not None:
            # The superior has a transaction still, or it waits for an answer that does not come.
            if self.draw.random() < 0.2:
                self.lose_both(node, subject)
            subject.closes(self.draw.uniform(0.02, 0.1))
        elif word == "accept" and refused == 7:
            self.ask(node, wire.REJECT)
        elif word == "leave" and refused is None:
            node.busy = False
            self.counts["left"] += 1
        elif word == "count" and refused is None:
            self.counts[subject] += 1
        elif word == "begin":
            self.over_begin(node, subject, refused)

    def over_retry(self, node, refused):
        node.retrying = False
        node.says = refused != 12
        if refused is None:
            # What it says may be of a transaction that is kept: then it has no other for all that is known.
            node.started = node.started and self.heuristic
        elif refused == 12 and node.started:
            # After a start there is nothing that the node has to say: it has no transaction.
            node.busy = node.started = False
            node.transfer = None
            if node.kind == "root" and node.tree.current is not None:
                # It rolled back with the stop, or its completion went unheard.
                self.counts["unheard"] += 1
                node.tree.current = None

    def over_begin(self, node, transfer, refused):
        if refused is None:
            node.busy, node.started = True, False
        else:
            transfer.spoilt = True
        if node.kind == "root":
            transfer.awaited -= 1
            if transfer.awaited == 0 and transfer.spoilt and node.tree.current is transfer:
                if node.busy:
                    self.ask(node, wire.ROLLBACK)
                else:
                    node.tree.current = node.transfer = None
        elif refused is not None and node.transfer is transfer:
            self.ask(node, wire.ROLLBACK)

    def told(self, node, code, rest):
        word = wire.TOLD[code]
        self.note_down(node.kind, node.number, word, rest.hex())
        getattr(self, "told_" + word.replace("-", "_"), self.told_nothing)(node, rest)

    def told_nothing(self, node, rest):
        pass

    def told_begin_dialogue(self, node, rest):
        self.ask(node, wire.ACCEPT, rest[2:], ("accept", None))

    def told_begun_dialogue(self, node, rest):
        child = self.nodes[rest[0] << 8 | rest[1]]
        child.live, child.opened = True, None

    def told_rejected(self, node, rest):
        self.nodes[rest[0] << 8 | rest[1]].closes(self.draw.uniform(0.02, 0.1))

    def told_p_abort(self, node, rest):
        peer = self.nodes[rest[0] << 8 | rest[1]]
        if peer.superior is node:
            peer.closes(self.draw.uniform(0, 0.05))

    told_end_dialogue = told_u_abort = told_p_abort

    def told_begin_transaction(self, node, rest):
        tree = bytes(rest[2:])
        transfer = self.by_identifier.get(tree)
        if transfer is None:
            return self.fault("node %d was told of a tree that no root began" % node.number)
        node.transfer, node.busy, node.started = transfer, True, False
        if node.kind == "leaf":
            self.note(node, tree, "begin")
            node.store.begin(tree)
            transfer.begun.add(node)
            self.move(transfer)
        elif node.kind == "between":
            self.begin_on(node, transfer)

    def begin_on(self, node, transfer):
        for child in node.children:
            if child in transfer.path:
                self.ask(node, wire.BEGIN_TRANSACTION, wire.short(child.number), ("begin", transfer))

    def move(self, transfer):
        """Once both stores take part, the root's user says what each account is to have, and asks for commitment."""
        root = transfer.source.tree.root
        if transfer.asked or not transfer.begun >= set(transfer.leaves) or root.tree.current is not transfer:
            return
        transfer.asked = True
        for leaf, change in ((transfer.source, -transfer.amount), (transfer.target, transfer.amount)):
            left = int(leaf.store.content.get(b"account", b"%d" % START)) + change
            for write in (bank.put(b"account", b"%d" % left), bank.put(transfer.key, b"%d" % change)):
                self.say(root, leaf, write)
        self.ask(root, wire.ROLLBACK if self.draw.random() < 0.04 else wire.COMMIT)

    def say(self, node, leaf, write):
        """Hands a write down: to the store itself, or to the node on the way, with the store's number before it."""
        step = leaf
        while step.superior is not node:
            step = step.superior
        data = write if step is leaf else wire.short(leaf.number) + write
        self.ask(node, wire.DATA, wire.short(step.number) + wire.octets(data))

    def told_data(self, node, rest):
        data = rest[4:]
        if node.kind == "leaf":
            node.store.data(data)
        elif node.kind == "between":
            self.say(node, self.nodes[data[0] << 8 | data[1]], data[2:])

    def told_prepare(self, node, rest):
        votes = self.draw.random() > 0.02
        if node.kind == "leaf":
            self.note(node, node.transfer.identifier if node.transfer else b"", "prepare")
            votes = votes and node.store.prepare()
        elif node.kind == "witness" and votes:
            return self.ask(node, wire.UNCHANGED, b"", ("leave", None))
        self.ask(node, wire.COMMIT if votes else wire.ROLLBACK)
        self.meddle(node, 0x05, "decisions", bytes([self.draw.choice([1, 2])]))

    def told_commit(self, node, rest):
        node.busy, node.started = True, False
        if node.children:
            self.meddle(node, 0x06, "given up", wire.short(self.draw.choice(node.children).number))
        self.meddle(node, 0x08, "purged")
        if node.kind == "leaf":
            store = node.store
            tree = node.transfer.identifier if node.transfer else b""
            self.note(node, tree, "commit")
            if store.undecided is not None and store.undecided[0] != tree:
                self.fault("store %d is told to commit in another tree than its own" % node.number)
            if store.undecided is None and tree not in store.kept:
                self.fault("store %d is told to commit what it was not asked to prepare" % node.number)
            store.commit()
        self.ask(node, wire.DONE)

    def told_rollback(self, node, rest):
        node.busy, node.started = True, False
        if node.kind == "leaf":
            tree = node.transfer.identifier if node.transfer else b""
            self.note(node, tree, "rollback")
            if tree in node.store.kept:
                self.fault("store %d is told to roll back what it keeps" % node.number)
            node.store.rollback()
        self.ask(node, wire.DONE)

    def note(self, node, tree, word):
        """What a store is asked: nothing twice, but for an order to commit that a retry tells again until it is done."""
        asked = self.asked.setdefault((node.number, tree), set())
        again = node.site.waiting[0][1]
        if word in asked and not (word == "commit" and again is not None and again[0] == "retry"):
            self.fault("store %d is told %s twice" % (node.number, word))
        asked.add(word)

    def ended(self, node, outcome, report=NONE):
        node.busy, node.started = False, False
        transfer, tree = node.transfer, node.tree
        if node.face:
            node.site.ended = CODES[outcome, report[0]]
            self.counts["completions of a face"] += 1
        if node.kind == "root" and tree.current is not None:
            tree.current = None
            self.counts["complete" if outcome == "commit" else "rolled back"] += 1
            if transfer.identifier is not None:
                self.endings[wire.words_of_identifier(transfer.identifier)] = outcome
            if outcome == "commit":
                self.complete.append(transfer)
                if not self.quiet and self.draw.random() < self.kill_rate:
                    self.later(self.draw.uniform(0, 0.03), "kill")
        if node.kind != "leaf":
            node.transfer = None

    def told_commit_complete(self, node, rest):
        if rest != NONE and not self.heuristic:
            self.fault("node %d completes with a report" % node.number)
        if rest != NONE and node.kind == "root":
            # Nothing is promised of its stores: it counts neither as complete nor as rolled back.
            self.counts["complete with a report"] += 1
            node.tree.current = None
        self.ended(node, "commit", rest)

    def told_rollback_complete(self, node, rest):
        if rest != NONE and not self.heuristic:
            self.fault("node %d rolls back with a report" % node.number)
        self.ended(node, "rollback", rest)

    # The run.

    def unexpected(self, site):
        status = site.process.wait()
        site.up = False
        self.selector.unregister(site.process.stdout)
        site.close()
        with open(os.path.join(site.folder, "errors"), "rb") as file:
            self.fault("site %s ended by itself, status %d, %r" % (site.name, status, file.read()[-200:]))
        self.stopped = True

    def act(self, what):
        if what[0] == "arrive":
            if what[1].site.ready:
                what[1].site.give(what[2])
        elif what[0] == "lose":
            self.note_down("lose", what[1].number, what[2].number)
            what[1].site.give(wire.lose(what[1].number, what[2].number))
        elif what[0] == "meddle":
            what[1].site.give(what[2], what[1], ("count", what[3]))
        elif what[0] == "kill":
            up = [site for site in self.sites if site.up]
            if up and not self.quiet:
                site = self.draw.choice(up)
                if self.wrong and self.sites[0].up and self.draw.random() < 0.5:
                    site = self.sites[0]
                site.kill()
                self.later(self.draw.choice([0, 0, self.draw.uniform(0, 0.05), self.draw.uniform(0, 0.3)]), "start", site)
        elif what[0] == "start":
            if self.compacting and what[1].starts % 3 == 0:
                what[1].compact()
            what[1].start()

    def tend(self):
        """What users do from time to time: open dialogues, begin transfers, ask for a retry, give up waiting."""
        now = time.monotonic()
        for tree in self.trees:
            for node in tree.nodes[1:]:
                above = node.superior
                if node.live or now < node.not_before or not (above.site.ready and node.site.ready):
                    continue
                if node.opened is None:
                    node.opened = now
                    self.ask(above, wire.BEGIN_DIALOGUE, node.address + bytes([self.draw.choice(UNITS)]), ("open", node))
                elif now > node.opened + self.slow:
                    self.lose_both(above, node)
                    node.closes(0.1)
            if tree.current is None and not self.quiet and tree.root.site.ready and not tree.root.busy:
                self.begin(tree)
            elif tree.current is not None and now > tree.current.since + 4 * self.slow:
                tree.current.since = now
                self.ask(tree.root, wire.ROLLBACK)

    def begin(self, tree):
        if self.counts["begun"] >= 4 * self.goal:
            return
        source, target = self.draw.sample(tree.leaves, 2)
        transfer = Transfer(len(self.transfers), source, target, self.draw.randint(1, 50),
                            tree.witness if self.draw.random() < 0.2 else None)
        if not all(node.live for node in transfer.path if node.superior is not None):
            return
        self.transfers.append(transfer)
        self.counts["begun"] += 1
        tree.current = tree.root.transfer = transfer
        self.begin_on(tree.root, transfer)

    def retry_all(self):
        for node in self.nodes.values():
            if not (node.busy or node.started):
                node.patience = self.patience
            if node.retrying or not node.site.up or not (node.busy or node.started or self.heuristic):
                continue
            node.retrying = True
            node.site.give(wire.retry(node.number), node, ("retry", None))
            if node.busy or node.started:
                node.patience -= 1
            if node.patience == 0:
                # One end may have lost what the other still has: every connection of the node is made anew.
                node.patience = self.patience
                for peer in node.children + ([node.superior] if node.superior else []):
                    self.lose_both(node, peer)

    def meddle(self, node, code, name, rest=b"", rate=0.03):
        """A decision of a node's own, a branch given up, a purge: each is refused where it does not apply."""
        if self.heuristic and not self.quiet and self.draw.random() < rate:
            body = bytes([code]) + wire.short(node.number) + rest
            self.later(self.draw.uniform(0, 0.02), "meddle", node, body, name)

    def idle(self):
        return all(site.up and not site.waiting for site in self.sites) and not self.heap and not any(
            node.busy or node.started or (node.says and self.heuristic) for node in self.nodes.values()) and not any(tree.current for tree in self.trees)

    def run(self, patience):
        for tree in self.trees:
            self.note_down([(n.kind, n.number, n.site.name, n.superior and n.superior.number) for n in tree.nodes])
        self.stopped = False
        for site in self.sites:
            site.start()
        next_tend = next_retry = 0.0
        rest_by = None
        begun = self.begun_at = time.monotonic()
        while not self.stopped:
            now = time.monotonic()
            while self.heap and self.heap[0][0] <= now:
                self.act(heapq.heappop(self.heap)[2])
            if now >= next_tend:
                self.tend()
                next_tend = now + 0.003
            if now >= next_retry:
                self.retry_all()
                next_retry = now + RETRY
            if not self.quiet and (len(self.complete) >= self.goal or self.counts["begun"] >= 4 * self.goal):
                self.quiet, rest_by = True, now + patience
            if self.quiet and self.idle():
                break
            if self.quiet and now > rest_by:
                self.fault("not at rest: " + ", ".join("%s %d" % (n.kind, n.number) for n in self.nodes.values() if n.busy or n.started))
                break
            if not self.quiet and now > begun + patience + self.goal:
                self.fault("too slow: %d complete" % len(self.complete))
                break
            wait = min([next_tend, next_retry] + [entry[0] for entry in self.heap[:1]]) - now
            for key, _ in self.selector.select(max(0, wait)):
                site = key.data
                if site.up and not site.read():
                    self.unexpected(site)
            for site in self.sites:
                if site.up:
                    site.write()
        self.counts["seconds"] = round(time.monotonic() - begun)

    def stop(self):
        """Every site reads its input to the end, and ends well."""
        for site in self.sites:
            if not site.up:
                continue
            os.set_blocking(site.process.stdout.fileno(), True)
            site.process.stdin.close()
            if self.record:
                site.given.close()
            rest = site.process.stdout.read()
            status = site.process.wait()
            site.note_stream(False)
            if status != 0 or (rest and self.quiet and not self.faults):
                self.fault("site %s ends with status %d and %d more bytes" % (site.name, status, len(rest)))
            site.process.stdout.close()
            site.errors.close()

    # The judgement.

    def command(self, words, folder, given=b""):
        return subprocess.run(self.program + words, cwd=folder, input=given, capture_output=True)

    def judge(self):
        logs = [(site.name, site.log()) for site in self.sites]
        audit = self.command(["audit"], self.folder, wire.audit_frames(logs))
        if (audit.returncode, audit.stdout) != (0, b"yes\n"):
            self.fault("audit: status %d, %s" % (audit.returncode, audit.stdout[:200].decode()))
        self.counts["records"] = self.counts["bytes"] = 0
        for site in self.sites:
            shown, checked = (self.command([word], site.folder) for word in ("show", "check"))
            if (shown.returncode, shown.stdout) != wire.shown(site.log()):
                self.fault("show of %s writes other records than wire.py reads" % site.name)
            if shown.returncode or checked.returncode != (1 if checked.stdout else 0) or (checked.stdout and not self.heuristic):
                self.fault("show and check of %s: %d, %d" % (site.name, shown.returncode, checked.returncode))
            last = {}
            for line in shown.stdout.decode().splitlines():
                words = line.split()
                self.counts["records"] += 1
                if words[1] != "boot":
                    last[tuple(words[2:5])] = words[1]
            open_keys = [key for key, word in last.items() if word != "end" and not (word == "damage" and self.heuristic and not self.wild)]
            if open_keys:
                self.fault("%d keys of %s have no end, as %s" % (len(open_keys), site.name, open_keys[0]))
            self.counts["bytes"] += len(site.log())
        self.judge_stores()
        if self.unite is not None:
            self.judge_streams()

    def recording(self):
        places = [wire.place(node.number, node.site.name, node.superior and node.superior.number) for tree in self.trees for node in tree.nodes]
        streams = [wire.starts(site.name) + stream for site in self.sites for stream in site.streams]
        return b"".join(places + streams)

    def judge_streams(self):
        """The processes were one deployment."""
        given = self.recording()
        if self.record:
            with open(os.path.join(self.record, os.path.basename(self.folder) + ".recording"), "wb") as file:
                file.write(given)
        united = subprocess.run(self.unite, input=given, capture_output=True)
        if united.returncode != 0 or not united.stdout.startswith(b"deployment\n"):
            self.fault("unite: status %d, %s %s" % (united.returncode, united.stdout[:200].decode(), united.stderr[:200].decode()))
        else:
            self.judge_closing([line.split() for line in united.stdout.decode().splitlines()[1:]])
        for name, bodies, status, said in self.planted(wire.frames_in(given)[0]):
            united = subprocess.run(self.unite, input=b"".join(map(wire.frame, bodies)), capture_output=True)
            self.counts["planted"] = self.counts.get("planted", 0) + 1
            self.named.add(name)
            if united.returncode != status or not (united.stdout + united.stderr).startswith(said):
                self.fault("unite: %s has status %d, %s %s" % (name, united.returncode, united.stdout[:200].decode(), united.stderr[:200].decode()))

    def judge_closing(self, lines):
        """The closing lines are the outcomes that the users were told, and of each tree there is one."""
        ended = {words[1]: words[2:] for words in lines}
        self.counts["closing lines"] = len(lines)
        self.counts["outcomes told"] = 0
        if len(ended) != len(lines):
            self.fault("unite: a tree is closed twice")
        for tree, outcome in self.outcomes_told():
            self.counts["outcomes told"] += 1
            words = ended.get(tree)
            if words != ["agreed", outcome] and not (self.heuristic and words and words[0] == "mixed"):
                self.fault("unite: a user of %s was told %s, and its closing line says %s" % (tree, outcome, words))
        for tree, words in ended.items():
            if words == ["open"]:
                self.fault("unite: %s is open" % tree)

    def outcomes_told(self):
        """What the users of the roots and the stores were told, by the words of the tree."""
        yield from self.endings.items()
        for (_, tree), asked in self.asked.items():
            for outcome in sorted(asked & {"commit", "rollback"}):
                yield wire.words_of_identifier(tree), outcome

    def planted(self, bodies):
        """The recording with one fault in it, the status with which it must be named, and how what is said then begins."""
        first = next(k for k, body in enumerate(bodies) if body[0] == 0x03)
        changed = bytearray(bodies[first])
        changed[-2] ^= 1  # in the mark of the first association
        yield "a record that was changed", bodies[:first] + [bytes(changed)] + bodies[first + 1:], 1, b"not-carried %d\n" % (first + 1)
        starts = [k for k, body in enumerate(bodies) if body[0] == 0x52] + [len(bodies)]
        for one, other, end in zip(starts, starts[1:], starts[2:]):
            if bodies[one] == bodies[other]:
                yield "a log that was put back", bodies[:(one + other) // 2] + bodies[other:], 1, b"not-carried"
                yield "two processes on one log", bodies[:one] + bodies[other:end] + bodies[one:other] + bodies[end:], 1, b"not-carried"
                break
        under = next(k for k, body in enumerate(bodies) if body[0] == 0x01 and body[3] == 1)
        declared = bytearray(bodies[under])
        declared[-1] ^= 1
        yield "a superior that was changed", bodies[:under] + [bytes(declared)] + bodies[under + 1:], 1, b"not-placed %d\n" % (under + 1)
        yield "a number that is used twice", bodies[:1] + bodies, 3, b"tpunite: bad input at 2: name\n"

    def judge_stores(self):
        total = wanted = 0
        for tree in self.trees:
            for leaf in tree.leaves:
                leaf.store.crash()
                shown = self.command(["keys"], os.path.dirname(leaf.store.path))
                lines = dict(line.split() for line in shown.stdout.decode().splitlines())
                if shown.returncode or lines != {k.hex(): v.hex() for k, v in leaf.store.content.items()}:
                    self.fault("keys of store %d, status %d" % (leaf.number, shown.returncode))
                if leaf.store.undecided is not None and leaf.store.undecided[0] in [t.identifier for t in self.complete]:
                    self.fault("store %d has not decided what is complete" % leaf.number)
                entries = sum(int(v) for k, v in leaf.store.content.items() if k != b"account")
                account = int(leaf.store.content.get(b"account", b"%d" % START))
                if account != START + entries:
                    self.fault("the account of store %d is not what was moved" % leaf.number)
                total, wanted = total + account, wanted + START
        if total != wanted:
            self.fault("there were %d in all stores, and there are %d" % (wanted, total))
        complete = set(self.complete)
        self.counts["unheard and kept"] = 0
        for transfer in self.transfers:
            stands = [leaf.store.content.get(transfer.key) for leaf in transfer.leaves]
            both = [b"%d" % -transfer.amount, b"%d" % transfer.amount]
            if transfer in complete and stands != both:
                self.fault("transfer %d is complete and does not stand at both stores" % transfer.number)
            elif stands != both and stands != [None, None]:
                self.fault("transfer %d stands at one store" % transfer.number)
            elif transfer not in complete and stands == both:
                self.counts["unheard and kept"] += 1


class WildCluster(wild.Users, Cluster):
    """Nodes with any numbers, dialogues with any units, users who ask anything."""

    wild = True

    def __init__(self, options, sites, transfers, seed, folder, wrong):
        super().__init__(options, sites, transfers, seed, folder, wrong)
        for site in self.sites[::2]:
            open(os.path.join(site.folder, "tp.seal"), "wb").close()

    def make_tree(self, index):
        return wild.Tree(index, self, Node)


def one_run(options, sites, transfers, seed, wrong):
    folder = tempfile.mkdtemp(prefix="cluster-", dir=options.folder)
    cluster = (WildCluster if options.wild else Cluster)(options, sites, transfers, seed, folder, wrong)
    cluster.trace = open(options.trace, "w", buffering=1) if options.trace else None
    try:
        cluster.run(options.patience)
        cluster.stop()
        cluster.judge()
    finally:
        for site in cluster.sites:
            if site.process is not None and site.process.poll() is None:
                site.process.kill()
        if options.keep or (cluster.faults and not wrong):
            print("kept: %s" % folder)
        else:
            shutil.rmtree(folder)
    return cluster


def campaign(options, sizes, transfers, wrong):
    """Runs of so many sites each; their sums, their faults, and how many of them had one."""
    totals, faults, caught, named = {}, [], 0, set()
    for k, sites in enumerate(sizes):
        cluster = one_run(options, sites, -(-transfers // len(sizes)), options.seed + k, wrong)
        for word, count in cluster.counts.items():
            totals[word] = totals.get(word, 0) + count
        print("%d sites, seed %d%s: %s" % (sites, options.seed + k, ", one wrong" if wrong else "", tools.counted(cluster.counts)), flush=True)
        for fault in cluster.faults[:3 if wrong else 20]:
            print("  %s" % fault, flush=True)
        faults += cluster.faults
        caught += bool(cluster.faults)
        named |= cluster.named
    if named:
        totals["kinds of planted"] = len(named)
    return totals, faults, caught


def main():
    parser = argparse.ArgumentParser(prog="trials/run cluster")
    tools.add_program(parser)
    tools.add_unite(parser)
    parser.add_argument("--transfers", type=int, default=10000, help="transfers that a root is told complete, over all runs")
    parser.add_argument("--sites", type=int, help="sites of each run; 3 to 9 in turn where it is not given")
    parser.add_argument("--trees", type=int, default=2, help="trees for each site, each with a transfer at a time")
    parser.add_argument("--seed", type=int, default=1)
    parser.add_argument("--kill-rate", type=float, default=0.115, help="kills for each complete transfer")
    parser.add_argument("--folder", help="where the sites' folders are made")
    parser.add_argument("--patience", type=float, default=120, help="seconds in which a run must come to rest")
    parser.add_argument("--slow", type=float, default=0.5, help="seconds after which a user no longer waits for a dialogue")
    parser.add_argument("--keep", action="store_true", help="leave the folders of the sites where they are")
    parser.add_argument("--wrong", action="store_true", help="the runs with a wrong site alone")
    parser.add_argument("--right", action="store_true", help="the runs without a wrong site alone")
    parser.add_argument("--compact", action="store_true")
    parser.add_argument("--heuristic", action="store_true")
    parser.add_argument("--tx", action="store_true", help="the first site is a process tx")
    parser.add_argument("--wild", action="store_true", help="the runs with users who ask anything alone, a tenth of the transfers")
    parser.add_argument("--trace", help="a file for what the users ask and are told")
    parser.add_argument("--record", help="a folder for what each process found as its log, and for the frames that it was given")
    parser.add_argument("--short", action="store_true")
    options = parser.parse_args()
    tools.set_program(options)
    tools.set_unite(options)
    sizes = [options.sites] if options.sites else [3, 6, 9] if options.short else list(range(3, 10))
    transfers = 150 if options.short else options.transfers
    status = 0
    if options.wild or not (options.wrong or options.right):
        wilder = argparse.Namespace(**{**vars(options), "wild": True, "compact": True, "heuristic": True, "tx": False, "patience": 200})
        wild_sizes = sizes[:2] if options.short else sizes
        totals, faults, caught = campaign(wilder, wild_sizes, 100 if options.short else max(150, transfers // 10), options.wrong)
        status |= caught == 0 if options.wrong else bool(faults)
        print("cluster: with users who ask anything%s %d of %d runs with a fault, %s" % (
            " and a wrong site" if options.wrong else "", caught, len(wild_sizes), tools.counted(totals)), flush=True)
    if options.wild:
        sys.exit(status)
    if not options.wrong:
        totals, faults, _ = campaign(options, sizes, transfers, False)
        status |= bool(faults)
        print("cluster: %d faults, %s" % (len(faults), tools.counted(totals)))
    if not options.right:
        options.kill_rate, options.patience = 0.4, 10
        totals, _, caught = campaign(options, sizes, max(150, transfers // 10), True)
        status |= caught == 0
        print("cluster: with a site that answers before it forces %d of %d runs were caught, %d records taken back, %d kills" % (
            caught, len(sizes), totals["records taken back"], totals["kills"]))
    sys.exit(status)


if __name__ == "__main__":
    main()
