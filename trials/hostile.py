"""Streams, logs and frames that no honest peer gives: cut short, cut in two, changed in each byte, of each code, at random, at
each limit; and schedules in which frames overtake one another.

trials/run hostile [--program CMD] [--drive CMD] [--beside CMD] [--short] [--frames N] [--only PART] [--seed N]

Always: the exit status is one of the command's, standard error has the line of that status, nothing crashes or hangs, what comes
before the first change is answered as it was, and a log that was taken opens again.

--beside names a second machine that follows the same rules. It is started once, reads a line for each case (the words, the input
and the disk, as pairs of digits, parted by tabs, `-` for nothing) and answers with a line (status, its text, the output, the disk).
Then every byte of output, every byte of the disk, the status and its text must be the same. A case that differs is left in a folder.
The disk is `tp.log`, for `keys` and `replay` `bound.log`.
"""
import argparse
import os
import random
import re
import shlex
import shutil
import subprocess
import sys
import tempfile
import threading

import bound
import passing
import preload
import stops
import streams
import tools
import wire

TEXTS = {
    0: r"$", 1: r"findings [1-9]\d*$", 2: r"usage", 3: r"bad input at [1-9]\d*: (long|word|number|name|short|length|body)$",
    4: r"limit (schedule|sites|nodes|frames|answers|events|log|boots) at \d+$", 5: r"foreign log at \d+$", 6: r"read fault$",
    7: r"write fault$", 8: r"disk fault$", 9: r"no memory$",
}
# An audit that finds nothing may name logs that do not belong together.
APART = r"(tpnode: the logs of [a-z0-9]+ and [a-z0-9]+ do not belong together: .*\n)+$"
ALLOWED = {
    "replay": {0, 3, 4, 5}, "node": {0, 3, 4, 5}, "tx": {0, 3, 4, 5}, "show": {0, 5}, "check": {0, 1, 5}, "keys": {0, 5}, "make": {0},
    "compact": {0, 5}, "migrate": {0, 4, 5}, "audit": {0, 1, 3, 4, 5}, "format": {0}, "drive": {0, 3, 4, 5}, "trial": {0, 4},
}
DIALOGUE = [0x01, 0x03, 0x04, 0x05, 0x06, 0x07, 0x08, 0x09, 0x0A, 0x0B, 0x0D, 0x0E, 0x0F, 0x11, 0x13, 0x14]
LIMIT = 268435456


def disk_of(words):
    return "bound.log" if words[0] in ("keys", "replay") else "tp.log"


def fresh_for(words):
    return wire.FRESH_STORE if disk_of(words) == "bound.log" else wire.FRESH


def said(run):
    """The line of a status on standard error, without the program's name; after it usage may stand."""
    return run.err.decode(errors="replace").split("\n")[0].split(": ", 1)[-1]


def is_due(words, run):
    """Whether a run ends with a status of its command, and says so."""
    apart = words[0] == "audit" and run.status == 0 and re.match(APART, run.err.decode(errors="replace")) is not None
    return run.status in ALLOWED[words[0]] and (apart or re.match(TEXTS[run.status], said(run)) is not None)


class Hostile:
    def __init__(self, options, folder):
        self.options, self.folder = options, folder
        self.library = preload.Library(folder)
        self.draw = random.Random(options.seed)
        self.counts = dict.fromkeys(["cases", "frames", "compared", "well", "bad input", "limit", "foreign", "findings", "differ"], 0)
        self.refused = {}
        self.faults, self.kept = [], tempfile.mkdtemp(prefix="hostile-kept-")
        self.beside = None
        if options.beside:
            self.beside = subprocess.Popen(shlex.split(options.beside), stdin=subprocess.PIPE, stdout=subprocess.PIPE, text=True)

    def run(self, words, given=b"", log=None, compare=True):
        return self.run_all(words, [(given, fresh_for(words) if log is None else log)], compare)[0]

    def run_all(self, words, cases, compare=True):
        """Status, its text, output and disk for each (input, disk); judged by what holds of every run, and beside the second machine."""
        beside = compare and self.beside is not None
        if beside:
            telling = threading.Thread(target=self.tell_beside, args=(words, cases))
            telling.start()
        runs = self.library.run_all(tools.command_of(self.options, words), [(given, log, {}) for given, log in cases], disk_of(words))
        all_ours = []
        for (given, log), run in zip(cases, runs):
            ours = run.status, said(run), run.out, run.disk
            all_ours.append(ours)
            self.judge(words, given, log, run)
            if beside:
                self.compare(words, given, log, ours)
        if beside:
            telling.join()
        return all_ours

    def judge(self, words, given, log, run):
        self.counts["cases"] += 1
        word = {0: "well", 1: "findings", 3: "bad input", 4: "limit", 5: "foreign"}.get(run.status)
        if word:
            self.counts[word] += 1
        if run.status is None:
            self.fault(words, given, log, "does not end")
        elif not is_due(words, run):
            self.fault(words, given, log, "status %d, %r" % (run.status, run.err[-200:]))
        if words[0] == "show" and (run.status, run.out) != wire.shown(log):
            self.fault(words, given, log, "show writes other records than wire.py reads")
        elif words[0] == "show" and run.status == 5 and said(run) != "foreign log at %d" % wire.foreign_at(log):
            self.fault(words, given, log, "show finds the file foreign at another place than wire.py: %s" % said(run))
        if run.status == 5 and run.out or words[0] == "drive" and run.status and (run.out or run.status == 3 and run.disk != log):
            self.fault(words, given, log, "status %d, and %d bytes of output" % (run.status, len(run.out)))

    def tell_beside(self, words, cases):
        for given, log in cases:
            self.beside.stdin.write("%s\t%s\t%s\n" % (" ".join(words), given.hex() or "-", log.hex() or "-"))
        self.beside.stdin.flush()

    def compare(self, words, given, log, ours):
        status, text, out, after = self.beside.stdout.readline().rstrip("\n").split("\t")
        theirs = int(status), text, bytes.fromhex(out.replace("-", "")), bytes.fromhex(after.replace("-", ""))
        self.counts["compared"] += 1
        if ours != theirs:
            self.counts["differ"] += 1
            same = [a == b for a, b in zip(ours, theirs)]
            self.fault(words, given, log, "differs from the machine beside it: %s and %s, output %s, disk %s" % (ours[:2], theirs[:2], same[2], same[3]))

    def fault(self, words, given, log, text):
        at = os.path.join(self.kept, "%d" % len(self.faults))
        self.faults.append(text)
        if len(self.faults) <= 50:
            for suffix, content in ((".in", given), (".log", log)):
                with open(at + suffix, "wb") as file:
                    file.write(content)
            print("  %s: %s (%s)" % (" ".join(words), text, at), flush=True)

    # Worked streams.

    def answers(self, words, bodies, log):
        """What each frame of a stream is answered with."""
        out = self.run(words, streams.stream(bodies), log)[2]
        pieces, last = [], 0x30 if words[0] == "tx" else 0x13
        for body in wire.frames_in(out)[0]:
            if not pieces or pieces[-1][1]:
                pieces.append([b"", False])
            pieces[-1][0] += wire.frame(body)
            pieces[-1][1] = body[0] == last
        return [piece for piece, _ in pieces]

    def prefixes(self, words, bodies, step):
        answers = self.answers(words, bodies, wire.FRESH)
        stream = streams.stream(bodies)
        ends = [len(streams.stream(bodies[:k])) for k in range(len(bodies) + 1)]
        sizes = range(0, len(stream), step)
        for size, (status, text, out, _) in zip(sizes, self.run_all(words, [(stream[:size], wire.FRESH) for size in sizes])):
            whole = max(k for k, end in enumerate(ends) if end <= size)
            want = (0, "") if size in ends else (3, "bad input at %d: short" % (whole + 1))
            if (status, text, out) != (*want, b"".join(answers[:whole])):
                self.fault(words, stream[:size], wire.FRESH, "a prefix of %d bytes: %d, %s, %d bytes" % (size, status, text, len(out)))

    def cuts(self, words, given, log, step):
        whole = self.run(words, given, log)
        sizes = range(1, len(given), step)
        runs = self.library.run_all(tools.command_of(self.options, words), [(given, log, {"cut": size}) for size in sizes], disk_of(words))
        for size, run in zip(sizes, runs):
            self.counts["cases"] += 1
            if (run.status, run.out, run.disk) != (whole[0], whole[2], whole[3]):
                self.fault(words, given, log, "cut in two at %d: %s" % (size, run.status))

    def changed(self, words, stream, log, step, answers=None, ends=None):
        """Each byte changed in four ways; what comes before is answered as it was, where that is told."""
        changes = [(at, new) for at in range(0, len(stream), step) for new in sorted({0, 255, stream[at] ^ 1, stream[at] ^ 255} - {stream[at]})]
        cases = [(stream[:at] + bytes([new]) + stream[at + 1:], log) for at, new in changes]
        for (at, _), case, (_, _, out, _) in zip(changes, cases, self.run_all(words, cases)):
            if answers is not None:
                whole = max(k for k, end in enumerate(ends) if end <= at)
                before = b"".join(answers[:whole])
                if out[: len(before)] != before:
                    self.fault(words, *case, "byte %d changed, and what comes before is answered otherwise" % at)

    def changed_log(self, log, words, step):
        places = range(0, len(log), step)
        self.run_all(words, [(b"", log[:at] + bytes([new]) + log[at + 1:]) for at in places for new in sorted({0, 1, 255, log[at] ^ 1} - {log[at]})])
        self.run_all(words, [(b"", log[:size]) for size in places])

    def worked(self):
        short = self.options.short
        step = 7 if short else 1
        shows = {
            "a subordinate": (["node", "--name", "b"], streams.subordinate(2)),
            "a decision": (["node", "--name", "b"], streams.subordinate(1, True)),
            "a root": (["node", "--name", "a"], streams.root(2)),
            "tx": (["tx", "--name", "a"], streams.root(1, asked=False)),
        }
        logs = []
        for name, (words, bodies) in shows.items():
            stream = streams.stream(bodies)
            ends = [len(streams.stream(bodies[:k])) for k in range(len(bodies) + 1)]
            self.prefixes(words, bodies, step)
            self.cuts(words, stream, wire.FRESH, step)
            self.changed(words, stream, wire.FRESH, step, self.answers(words, bodies, wire.FRESH), ends)
            logs.append(self.run(words, stream, wire.FRESH)[3])
            self.say(name)
        if self.options.drive:
            for workers in ("1", "3"):
                words, stream = ["drive", "--name", "b", "--workers", workers], streams.stream(streams.subordinate(1, True))
                self.cuts(words, stream, wire.FRESH, step)
                self.changed(words, stream, wire.FRESH, step)
                self.run_all(words, [(stream[:size], wire.FRESH) for size in range(0, len(stream), step)])
            self.say("workers")
        frames = wire.audit_frames([("a", logs[2]), ("b", logs[0])])
        self.cuts(["audit"], frames, wire.FRESH, step)
        self.changed(["audit"], frames, wire.FRESH, step)
        self.run_all(["audit"], [(frames[:size], wire.FRESH) for size in range(0, len(frames), step)])
        store = bound.log()
        for schedule in ((tools.ROOT / "examples" / "plain-commit.schedule").read_bytes(), bound.schedule((True, False))):
            self.changed(["replay"], schedule, store, step)
            self.cuts(["replay"], schedule, store, step)
            self.run_all(["replay"], [(schedule[:size], store) for size in range(0, len(schedule), step)])
        self.say("audit and replay")
        for log, commands in ((logs[1], ["show", "check", "compact", "migrate", "node"]), (store, ["keys", "replay"])):
            for word in commands:
                self.changed_log(log, [word], step)
        self.say("logs")

    def codes(self):
        """Each code with no, one and two octets, as a body, a record, a dialogue record, a log record, a block of a store."""
        tails = [b""] + [bytes([a]) for a in (0, 1, 2, 255)] + [bytes([a, b]) for a in (0, 1, 255) for b in (0, 1, 2, 255)]
        codes = range(256)
        if self.options.short:
            codes, tails = [*range(0x46), 0x7F, 0x80, 0xFF], [b"", b"\x01", b"\x00\x01"]
        begun = streams.subordinate(1)[:4]
        association = streams.Association(streams.ROOT, streams.LEAF, wire.mark(1, 1, 1), wire.mark(1, 2, 1))
        association.count = 1
        node = streams.stream(begun)
        retry = wire.frame(wire.retry(2))
        cases = {}
        for code in codes:
            for tail in tails:
                text = bytes([code]) + tail
                association.count = 1
                told = [wire.frame(text) + retry, wire.frame(wire.arrive(streams.ROOT, streams.LEAF, text)),
                        wire.frame(association.says(text)) + retry, wire.frame(wire.do(2, code, tail))]
                cases.setdefault("node --name b", []).extend((node + it, wire.FRESH) for it in told)
                cases.setdefault("audit", []).append((wire.frame(b"\x40\x01a") + wire.frame(text), wire.FRESH))
                cases.setdefault("tx", []).append((wire.frame(text) + wire.frame(b"\x24"), wire.FRESH))
                cases.setdefault("show", []).append((b"", wire.log_of([stops.BOOT_1, text])))
                cases.setdefault("keys", []).append((b"", wire.log_of([text], wide=False)))
                if self.options.drive:
                    cases.setdefault("drive --workers 2", []).append((wire.frame(text) + wire.frame(wire.retry(1)), wire.FRESH))
        for words, some in cases.items():
            self.run_all(words.split(), some)
        self.say("codes")

    def schedules(self):
        """Frames that overtake one another, are lost and come again: each line takes the one that is due."""
        lines = [passing.schedule(self.draw) for _ in range(300 if self.options.short else 20000)]
        cases = [(bound.text_of(it), wire.FRESH_STORE) for it in lines]
        for (given, log), (_, _, out, _) in zip(cases, self.run_all(["replay"], cases)):
            for it in passing.faults(out.decode())[:3]:
                self.fault(["replay"], given, log, it)
        self.counts["schedules"] = len(cases)
        self.say("schedules")

    # Random frames.

    def recordings(self):
        """What the sites of small clusters were given, as (words, bodies, log): long streams, short ones of sites that were killed, calls of tx."""
        found = []
        for kind in (["--kill-rate", "0.3"], ["--kill-rate", "0.02"], ["--kill-rate", "0.2", "--tx"]):
            folder = tempfile.mkdtemp(prefix="recordings-", dir=self.folder)
            words = [sys.executable, "-B", str(tools.ROOT / "trials" / "cluster.py"), "--right", "--sites", "3", "--transfers",
                     "40" if self.options.short else "400", "--seed", str(self.options.seed), "--record", folder,
                     "--program", shlex.join(self.options.program)]
            run = subprocess.run(words + kind, capture_output=True, text=True)
            if run.returncode != 0:
                sys.exit("no recordings: %s" % run.stdout)
            for name in sorted(it for it in os.listdir(folder) if it.endswith(".frames")):
                site, path = name.split("-")[-2], os.path.join(folder, name[:-7])
                command = "tx" if "--tx" in kind and site == "s0" else "node"
                found.append(([command, "--name", site], wire.frames_in(preload.got(path + ".frames"))[0], without_zeros(preload.got(path + ".log"))))
        print("%d recordings of %d frames" % (len(found), sum(len(bodies) for _, bodies, _ in found)), flush=True)
        return found

    def random(self):
        goal = self.options.frames or (20000 if self.options.short else 1000000)
        found = self.recordings()
        streams = next_word = 0
        while self.counts["frames"] < goal:
            words, bodies, log = self.draw.choice(found)
            at = 0 if self.draw.random() < 0.7 else self.draw.randrange(max(1, len(bodies)))
            bodies = bodies[: at + self.draw.choice([400, 400, 4000])]
            given = b"".join(map(wire.frame, Mutant(self.draw, words, bodies, self.draw.choice([0, 0.01, 0.05, 0.2, 0.5])).bodies))
            if self.draw.random() < 0.1:
                given = self.spoilt(given)
            status, text, out, after = self.run(words, given, log)
            streams += 1
            answered = wire.frames_in(out)[0]
            self.counts["frames"] += sum(body[0] == (0x30 if words[0] == "tx" else 0x13) for body in answered)
            for body in answered:
                if body[0] == 0x12:
                    self.refused[body[1]] = self.refused.get(body[1], 0) + 1
            if self.run([self.draw.choice(["show", "show", "check", "compact", "migrate"])], b"", after)[0] not in (0, 1):
                self.fault(words, given, log, "it leaves what is no log")
            if self.options.drive and words[0] == "node" and streams % 10 == 0:
                self.workers(words[2], given, log, (status, text, out, after))
            if self.counts["frames"] >= next_word:
                next_word = self.counts["frames"] + 50000
                self.say("%d random streams" % streams)
        self.say("random frames in %d streams, refusals: %s" % (streams, ", ".join("%d: %d" % it for it in sorted(self.refused.items()))))

    def workers(self, site, given, log, alone):
        """Workers answer as one does, and their log has each node's records in their order."""
        words = ["drive", "--name", site, "--workers", str(self.draw.choice([1, 2, 3, 8, 16]))]
        status, text, out, after = self.run(words, given, log, compare=False)
        self.counts["streams of workers"] = self.counts.get("streams of workers", 0) + 1
        wants = alone[:2], alone[2] if alone[0] == 0 else b"", self.by_node(alone[3]) if alone[0] == 0 else self.by_node(log)
        if ((status, text), out, self.by_node(after)) != wants:
            self.fault(words, given, log, "workers end with %d, %s, and do not as one" % (status, text))

    def by_node(self, log):
        """The records that show writes, each node's in their order."""
        nodes = {}
        for line in self.run(["show"], b"", log, compare=False)[2].decode().splitlines():
            words = line.split()[1:]
            nodes.setdefault("" if words[0] == "boot" else words[1], []).append(words)
        return nodes

    def spoilt(self, given):
        draw = self.draw
        if not given:
            return given
        at = draw.randrange(len(given))
        return draw.choice([
            given[:at], given[:at] + bytes([draw.randrange(256)]) + given[at + 1:], given + b"\x00\x00", given + b"\x08\x01",
            given + wire.frame(draw.randbytes(draw.randint(1, 40))), given[:at] + draw.randbytes(draw.randint(1, 8)) + given[at:]])

    # Limits.

    def limit(self, words, given, want, log=None):
        status, text, out, _ = self.run(words, given, log, compare=False)
        self.counts["limits"] = self.counts.get("limits", 0) + 1
        if (status, text) != want:
            self.fault(words, given[:1000], (log or b"")[:1000], "at a limit: %d, %s where %s is due" % (status, text, want))
        return out

    def limits(self):
        """Each limit at its exact place: the last that is well, and the first that is not."""
        one, called = wire.frame(wire.retry(1)), wire.frame(b"\x24")
        for words, given, most in ((["node"], one, 1000000), (["tx"], called, 1000000), (["drive", "--workers", "4"], one, 100000)):
            if words[0] == "drive" and not self.options.drive:
                continue
            out = self.limit(words, given * most, (0, ""))
            more = self.limit(words, given * (most + 1), (4, "limit events at %d" % (most + 1)))
            if more != (b"" if words[0] == "drive" else out):
                self.fault(words, b"", b"", "the frame at the limit of events is answered")
        self.say("events")
        declared = b"".join(wire.frame(wire.declare(k)) for k in range(1, 257))
        for words in (["node"], ["tx"], ["drive"]):
            if words[0] == "drive" and not self.options.drive:
                continue
            self.limit(words, declared, (0, ""))
            self.limit(words, declared + wire.frame(wire.declare(1)), (4, "limit nodes at 257"))
            self.limit(words, wire.frame(wire.declare(1)) * 256 + one, (0, ""))
            self.limit(words, wire.frame(wire.declare(1)) * 257, (4, "limit nodes at 257"))
        self.limit(["node"], wire.frame(b"\x03" + wire.address("z" * 16, 1) * 2 + wire.octets(bytes(2000))), (0, ""))
        self.limit(["node"], wire.short(2049) + bytes(2049), (3, "bad input at 1: length"))
        self.limit(["node"], b"\x00\x00", (3, "bad input at 1: length"))

        def line(k, site):
            return b"node %d %s\n" % (k, site)
        nodes = b"".join(line(k, b"a") for k in range(1, 257))
        self.limit(["replay"], nodes, (0, ""))
        self.limit(["replay"], nodes + line(257, b"a"), (4, "limit nodes at 257"))
        sites = b"".join(line(k, b"s%d" % k) for k in range(1, 17))
        self.limit(["replay"], sites, (0, ""))
        self.limit(["replay"], sites + line(17, b"s17"), (4, "limit sites at 17"))
        self.limit(["replay"], sites + line(17, b"s1"), (0, ""))
        logs = [("s%d" % k, wire.FRESH) for k in range(17)]
        self.limit(["audit"], wire.audit_frames(logs[:16]), (0, ""))
        self.limit(["audit"], wire.audit_frames(logs), (4, "limit sites at 33"))
        self.limit(["replay"], b"#" + b" " * 8191 + b"\n", (0, ""))
        self.limit(["replay"], b"#" + b" " * 8192 + b"\n", (3, "bad input at 1: long"))
        full = (b"#" + b" " * 1022 + b"\n") * 1024
        self.limit(["replay"], full, (0, ""))
        self.limit(["replay"], full + b"\n", (4, "limit schedule at 1025"))
        start = b"node 1 a\nnode 2 b under 1\ndo 1 begin-dialogue 2 scu\npass 1 2\ndo 2 accept scu\npass 2 1\n"
        sends = b"do 1 data 2 -\n"
        self.limit(["replay"], start + sends * 65533, (0, ""))
        self.limit(["replay"], start + sends * 65534, (4, "limit frames at %d" % (6 + 65534)))
        self.say("nodes, sites, lines, schedules, frames")
        self.boots()
        self.rooms()
        self.answers_in_a_line()
        self.bound_data()
        self.say("boots, room, answers, bound data")
        if self.options.short:
            return
        self.big_log()
        self.big_store()

    def rooms(self):
        """32 subordinates on a log of version 1, 256 on one of version 2; 1,024 octets of data."""
        for log, most in ((wire.FRESH[:5] + b"\x00", 32), (wire.FRESH, 256)):
            begun = [wire.do(1, wire.BEGIN_DIALOGUE, wire.address("b", k) + streams.UNITS) for k in range(2, most + 3)]
            out = self.limit(["node"], streams.stream([wire.declare(1)] + begun), (0, ""), log)
            refused = [body for body in wire.frames_in(out)[0] if body[0] == 0x12]
            last = wire.frames_in(out)[0][-2:]
            if refused != [b"\x12\x0d"] or last != [b"\x12\x0d", b"\x13"]:
                self.fault(["node"], b"", log, "the %d-th subordinate: %s" % (most + 1, refused[:3]))
        root = streams.root(1)[:4]
        for size, refusals in ((1024, []), (1025, [b"\x12\x0d"])):
            out = self.limit(["node"], streams.stream(root + [wire.do(1, wire.DATA, wire.short(2) + wire.octets(bytes(size)))]), (0, ""))
            if [body for body in wire.frames_in(out)[0] if body[0] == 0x12] != refusals:
                self.fault(["node"], b"", b"", "data of %d octets" % size)

    def answers_in_a_line(self):
        """As many answers of members in one line as we know how to bring about: three of each of 255 subordinates. The limit is 4,096."""
        out = ["node 1 a"] + ["node %d %s under 1" % (k, "abcdefghijklmnop"[k % 16]) for k in range(2, 257)]
        out += ["auto %d 1" % k for k in range(2, 257)]
        arcs = range(2, 257)
        out += ["do 1 begin-dialogue %d shcu" % k for k in arcs] + ["drain", "drain"]
        out += ["do 1 handshake %d" % k for k in arcs] + ["do 1 begin-transaction %d" % k for k in arcs]
        out += ["do 1 prepare %d" % k for k in arcs] + ["do 1 rollback", "drain"]
        said = self.limit(["replay"], bound.text_of(out), (0, "")).decode()
        self.counts["answers in a line"] = said[said.rindex("> drain"):].count("> do ")
        if self.counts["answers in a line"] != 3 * 255:
            self.fault(["replay"], bound.text_of(out), b"", "%d answers in a line" % self.counts["answers in a line"])

    def bound_data(self):
        """A key has 1 to 64 bytes, a value 0 to 900, the writes of a transaction 60,000 bytes: else the store votes for rollback."""
        def put(key, value):
            return b"\x01" + bytes([key]) + bytes(key) + wire.short(value) + bytes(value)
        full = [put(64, 900)] * 61
        for writes, keeps in (([put(1, 0)], True), ([put(64, 900)], True), ([put(65, 0)], False), ([put(0, 0)], False), ([put(1, 901)], False),
                              (full + [put(64, 884)], True), (full + [put(64, 885)], False)):
            lines = bound.OPENING + ["do 1 begin-transaction 2"] + ["do 1 data 2 " + it.hex() for it in writes] + ["do 1 commit", "drain"]
            said = self.limit(["replay"], bound.text_of(lines), (0, ""))
            if (b"> do 2 commit" in said, b"> do 2 rollback" in said) != (keeps, not keeps):
                self.fault(["replay"], bound.text_of(lines), b"", "%d writes, the last of %d bytes" % (len(writes), len(writes[-1])))

    def boots(self):
        def spent(boot):
            return wire.log_of([b"\x01" + boot.to_bytes(8, "big")])
        self.limit(["node"], one_frame(), (0, ""), spent(2**64 - 2))
        self.limit(["node"], one_frame(), (4, "limit boots at 0"), spent(2**64 - 1))
        self.limit(["tx"], b"", (4, "limit boots at 0"), spent(2**64 - 1))
        if self.options.drive:
            self.limit(["drive"], one_frame(), (0, ""), spent(2**64 - 2))
            self.limit(["drive"], one_frame(), (4, "limit boots at 0"), spent(2**64 - 1))

    def big_log(self):
        """A log whose closing gate stands where the record Boot of a start has just room, and one byte behind."""
        name = "n" * 16
        children = b"".join(wire.address(name, k) + wire.text_of_site(name) + wire.mark(1, 1, 10 + k) for k in range(1, 257))
        bodies, size, k = [b"\x07\x02", stops.BOOT_1], 5 + 5 + 12, 1
        goal = LIMIT - 13  # the closing gate's place before Boot
        self.across_full()

        def pair(k, some):
            head = b"\x00\x01\x01a" + wire.mark(1, 1, 1000 + k) + b"\x00"
            return b"\x04" + head + wire.short(some) + children[:54 * some], b"\x06" + head + b"\x01"

        def cost(two):
            return sum(3 + len(body) for body in two)
        while size + cost(pair(k, 256)) <= goal - 20000:
            two = pair(k, 256)
            bodies += two
            size += cost(two)
            k += 1
        # The rest to the byte: pairs with fewer children, and a longer name of the tree.
        for exact in (goal, goal + 1):
            rest, here, j = [], size, k
            while here < exact:
                left = exact - here
                fits = [(some, long) for some in range(256, -1, -1) for long in range(1, 17)
                        if pair_cost(some, long) == left or pair_cost(some, long) <= left - 120]
                exactly = [it for it in fits if pair_cost(*it) == left]
                some, long = exactly[0] if exactly else fits[self.draw.randrange(len(fits))]
                tree = wire.text_of_site("t" * long) + wire.mark(1, 1, 1000000 + j)
                two = (b"\x04\x00\x01" + tree + b"\x00" + wire.short(some) + children[: 54 * some], b"\x06\x00\x01" + tree + b"\x00\x01")
                rest += two
                here += cost(two)
                j += 1
            log = b"OTPL\x01" + b"".join(map(wire.block, bodies + rest)) + b"\x00"
            assert len(log) == exact + 1, (len(log), exact)
            if exact == goal:
                if self.options.drive:
                    self.limit(["drive", "--name", "b"], b"", (0, ""), log)
                ready = streams.stream(streams.subordinate(1)[:7]).replace(wire.mark(1, 2, 1), wire.mark(2, 2, 1))
                self.limit(["node", "--name", "b"], ready, (4, "limit log at 7"), log)
            else:
                self.limit(["node", "--name", "b"], b"", (4, "limit log at 0"), log)
                if self.options.drive:
                    self.limit(["drive", "--name", "b"], b"", (4, "limit log at 0"), log)
            self.limit(["compact"], b"", (0, ""), log)
        self.say("a log of %d bytes" % LIMIT)
        frames = wire.frame(b"\x40\x01a") + wire.frame(b"\x41" + wire.octets(wire.FRESH))
        pieces, rest = divmod(LIMIT - len(wire.FRESH), 2000)
        frames += wire.frame(b"\x41" + wire.octets(bytes(2000))) * pieces

        def last(size):
            return wire.frame(b"\x41" + wire.octets(bytes(size)))
        self.limit(["audit"], frames + last(rest), (0, ""))
        self.limit(["audit"], frames + last(rest + 1), (4, "limit log at %d" % (3 + pieces)))
        self.say("audit of %d bytes" % LIMIT)

    def across_full(self):
        """A batch of which two records have room: five purges that come together. The two are forced and answered, and no byte of a third is there."""
        kept = streams.kept(1, 5, False)
        end = b"\x06\x00\x01" + b"\x01a" + wire.mark(1, 1, 2) + b"\x00\x01"
        size, pair = 10 + sum(3 + len(body) for body in [stops.BOOT_1] + kept), pair_cost(256, 16)
        # The last byte of the limit is that of the closing gate behind Boot and two records.
        goal = LIMIT - 13 - 2 * (3 + len(end))
        rest = goal - size
        bodies = [stops.BOOT_1] + kept

        def tree(k, long):
            return wire.text_of_site("t" * long) + wire.mark(1, 1, 1000 + k)
        children = b"".join(wire.address("n" * 16, k) + wire.text_of_site("n" * 16) + wire.mark(1, 1, 10 + k) for k in range(1, 257))

        def two(k, some, long):
            head = tree(k, long) + b"\x00"
            return [b"\x04\x00\x02" + head + wire.short(some) + children[:54 * some], b"\x06\x00\x02" + head + b"\x01"]

        whole, k = rest // pair - 1, 0
        for k in range(whole):
            bodies += two(k, 256, 16)
        left = rest - whole * pair
        sizes = {pair_cost(some, long): (some, long) for some in range(257) for long in range(1, 17)}
        first = next(it for it in sizes if left - it in sizes)
        for extra in (first, left - first):
            k += 1
            bodies += two(k, *sizes[extra])
        log = wire.log_of(bodies)
        assert len(log) == goal + 1, (len(log), goal)
        status, text, out, after = self.run(["node", "--name", "a"], streams.stream(streams.purges(1, 5)), log, compare=False)
        self.counts["limits"] = self.counts.get("limits", 0) + 1
        if (status, text, out) != (4, "limit log at 3", 2 * wire.frame(b"\x13")):
            self.fault(["node"], b"", b"", "a batch that passes the limit of the log: %d, %s, %s" % (status, text, out.hex()))
        if len(after) != LIMIT or after[len(log) - 1 + 12:] != wire.block(end) + wire.block(end.replace(wire.mark(1, 1, 2), wire.mark(1, 1, 4))) + b"\x00":
            self.fault(["node"], b"", b"", "a batch that passes the limit of the log leaves %d bytes" % len(after))
        self.say("a batch across the limit of the log")

    def big_store(self):
        """A store in whose file a Bind has just room, with 256 bytes to spare, and one byte less."""
        drop = bytes([bound.bank.DROP]) + bound.tree(1)
        new = bound.bind(1)
        goal = LIMIT - 1 - 256 - len(new) - 3  # the closing gate's place before the Bind

        def key(size):
            return bound.bank.put(bytes([size]) * 8, bytes(size))

        def pair(sizes):
            return [bytes([bound.bank.BIND]) + bound.tree(1) + wire.short(len(sizes)) + b"".join(key(it) for it in sizes), drop]

        def cost(two):
            return sum(3 + len(body) for body in two)
        whole = pair([200] * 280)
        bodies, size = [], 5
        while size + cost(whole) <= goal - 2000:
            bodies += whole
            size += cost(whole)
        for exact, word in ((goal, b"> do 2 commit"), (goal + 1, b"> do 2 rollback")):
            rest, left = [], exact - size
            while left:
                empty = cost(pair([0]))
                now = left if left <= empty + 200 else empty + 200 if left > 2 * (empty + 200) else left // 2
                rest += pair([now - empty])
                left -= now
            log = b"OTPL\x01" + b"".join(map(wire.block, bodies + rest)) + b"\x00"
            assert len(log) == exact + 1, (len(log), exact)
            if word not in self.limit(["replay"], bound.ONE_MORE, (0, ""), log):
                self.fault(["replay"], bound.ONE_MORE, b"", "a store of %d bytes votes otherwise" % len(log))
        self.say("a store of %d bytes" % LIMIT)

    def say(self, what):
        print("%s: %s" % (what, tools.counted(self.counts)), flush=True)


def without_zeros(log):
    """A log without what a killed batch wrote ahead of it: the second machine writes nothing there, so it does not cut it off either."""
    return log if log[4:5] == b"\2" else log[: wire.text_at(log, 5, len(log))[1]]


def one_frame():
    return wire.frame(wire.retry(1))


def pair_cost(some, long):
    """What a Commit of a root with so many children and its End take, where the tree's site has a name of that length."""
    key = 1 + long + 18 + 1
    return 3 + 1 + 2 + key + 2 + 54 * some + 3 + 1 + 2 + key + 1


class Mutant:
    """An honest stream with frames left out, said twice, changed, and put in, the counts of its associations kept in step."""

    def __init__(self, draw, words, bodies, rate):
        self.draw, self.site, self.with_calls, self.bodies = draw, words[2], words[0] == "tx", []
        self.bends = draw.random() < 0.25  # bytes are changed, too: most such streams end early, as bad input
        self.shift, self.sent = {}, {}
        self.names, self.numbers, self.marks, self.keys, self.senders = set(), set(), [], [], []
        for body in bodies:
            self.learn(body)
        for body in bodies:
            if draw.random() >= rate:
                self.add(body)
                continue
            self.change(body)

    def learn(self, body):
        if body[0] in (1, 2):
            self.numbers.add(body[1] << 8 | body[2])
        if body[0] == 3:
            sender, _, at = wire.read_address(body, 1)
            target, _, at = wire.read_address(body, at)
            record = body[at + 2:]
            self.senders.append((sender, target))
            if record[0] == 4:
                self.marks.append((sender, target, bytes(record[1:37])))
                if record[45] == 0x0C:
                    self.learn_key(record, 46)
            elif record[0] >= 5:
                self.learn_key(record, 1)

    def learn_key(self, record, at):
        middle = wire.end_of_identifier(record, at)
        self.keys.append(bytes(record[at:wire.end_of_identifier(record, middle)]))

    def add(self, body):
        """The frame, with the count of its association in step with what was left out and put in."""
        place = self.place_of_count(body)
        if place is not None:
            pair = body[place - 36:place]
            count = int.from_bytes(body[place:place + 8], "big") + self.shift.get(pair, 0)
            self.sent[pair] = count + 1
            if 0 <= count < 2**64:
                body = body[:place] + count.to_bytes(8, "big") + body[place + 8:]
        self.bodies.append(body)

    @staticmethod
    def place_of_count(body):
        if body[0] != 3:
            return None
        _, _, at = wire.read_address(body, 1)
        _, _, at = wire.read_address(body, at)
        return at + 2 + 37 if len(body) > at + 2 + 45 and body[at + 2] == 4 else None

    def change(self, body):
        draw = self.draw
        x = draw.random()
        if x < 0.15:
            place = self.place_of_count(body)
            if place is not None:
                pair = body[place - 36:place]
                self.shift[pair] = self.shift.get(pair, 0) - 1
            return
        if x < 0.25:
            self.bodies += [body, body]
            return
        if x < 0.33 and self.bends:
            at = draw.randrange(len(body))
            self.bodies.append(body[:at] + bytes([draw.choice([0, 1, 255, body[at] ^ 1, draw.randrange(256)])]) + body[at + 1:])
            return
        if x < 0.60 and self.marks:
            self.say_on(*draw.choice(self.marks[-8:] if draw.random() < 0.5 else self.marks))
        elif x < 0.75 and self.keys and self.senders:
            self.recover()
        elif x < 0.90 and self.with_calls:
            self.bodies.append(draw.choice([b"\x20" + wire.short(self.number()), b"\x21", b"\x22", b"\x23", b"\x24"]))
        elif x < 0.90:
            self.ask()
        else:
            self.happen()
        self.add(body)

    def say_on(self, sender, target, pair):
        """A record on an association that is known, mostly with the next count."""
        draw = self.draw
        count = self.sent.get(pair, 0) if draw.random() < 0.95 else draw.choice([0, 1, 7, 2**64 - 1])
        code = draw.choice(DIALOGUE + [0x02, 0x0C, 0x10, 0x12])
        rest = b""
        if code == 0x02:
            rest = wire.octets(bytes(draw.choice([0, 1, 1024])))
        elif code == 0x0C and self.keys:
            rest = draw.choice(self.keys) + bytes([draw.randrange(3)])
        elif code in (0x10, 0x12):
            rest = bytes([draw.choice([0, 0, 1, 2])])
        text = b"\x04" + pair + (count % 2**64).to_bytes(8, "big") + bytes([code]) + rest
        if draw.random() < 0.03:
            text = b"\x03" + pair[:18] + draw.choice([b"\x00", b"\x01" + pair[18:]])
        else:
            self.shift[pair] = self.shift.get(pair, 0) + 1
            self.sent[pair] = count + 1
        self.bodies.append(wire.arrive(sender, target, text))

    def recover(self):
        draw = self.draw
        sender, target = draw.choice(self.senders)
        code = draw.choice([5, 6, 7, 7, 8])
        rest = draw.choice([b"\x01", b"\x02\x00", b"\x02\x01", b"\x02\x02", b"\x03", b"\x04"]) if code == 7 else b""
        self.bodies.append(wire.arrive(sender, target, bytes([code]) + draw.choice(self.keys[-6:]) + rest))

    def number(self):
        return self.draw.choice(sorted(self.numbers)) if self.numbers and self.draw.random() < 0.97 else self.draw.randrange(65536)

    def ask(self):
        draw = self.draw
        code = draw.randint(1, 0x14)
        rest = b""
        if code == 1:
            rest = wire.address(draw.choice([self.site, "s0", "s1", "zz"]), self.number()) + bytes([draw.choice([0x29, 0x2D, 0x2A, 0x1A, 1, 2, 5, 64])])
        elif code == 2:
            rest = bytes([draw.choice([0x29, 0x29, 1, 0, 255])])
        elif code == 5:
            rest = wire.short(self.number()) + wire.octets(bytes(draw.choice([0, 1, 1024, 1025, 2000])))
        elif code == 4 or 6 <= code <= 0x10:
            rest = wire.short(self.number())
        self.bodies.append(wire.do(self.number(), code, rest))

    def happen(self):
        draw, node = self.draw, wire.short(self.number())
        code = draw.choice([1, 4, 5, 6, 7, 8])
        rest = {1: b"\x00", 4: wire.short(self.number()), 5: bytes([draw.choice([1, 2])]), 6: wire.short(self.number())}.get(code, b"")
        self.bodies.append(bytes([code]) + node + rest)


def main():
    parser = argparse.ArgumentParser(prog="trials/run hostile")
    tools.add_program(parser, workers=True)
    parser.add_argument("--beside", help="a second machine")
    parser.add_argument("--short", action="store_true")
    parser.add_argument("--frames", type=int, help="random frames")
    parser.add_argument("--only", choices=["worked", "codes", "schedules", "random", "limits"])
    parser.add_argument("--seed", type=int, default=1)
    options = parser.parse_args()
    tools.set_program(options, workers=True)
    folder = tempfile.mkdtemp(prefix="hostile-")
    trial = Hostile(options, folder)
    for part in [options.only] if options.only else ["worked", "codes", "schedules", "random", "limits"]:
        getattr(trial, part)()
    trial.library.end()
    shutil.rmtree(folder)
    if not trial.faults:
        shutil.rmtree(trial.kept)
    print("hostile: %d faults, %s" % (len(trial.faults), tools.counted(trial.counts)))
    sys.exit(1 if trial.faults else 0)


if __name__ == "__main__":
    main()
