"""A program is stopped in each call that changes its disk, and what the disk holds then is opened.

trials/run stops [--program CMD] [--drive CMD] [--short] [--full] [--only WORD]

For each command that has a disk, and each of its changing calls: the process stops in that call, and every byte that was not
synced is 00, 01 or ff, or as it was, or as it was to be, or some of each, or anything. Then: what had been written to standard
output is exactly what was written before that call in a run without a stop; the file opens to the list of records before or
after, which of the two as docs/FORMATS.md says, with the record of each event of whose answer a byte was written; `show` writes what wire.py
reads; and a site, or a store, that starts on it goes on. The number of changing calls of
each run is a constant of this file. --full tries all 256 values of the byte.
"""
import argparse
import shutil
import sys
import tempfile

import bound
import preload
import streams
import tools
import wire

FILLS = ["00", "01", "ff", "old", "new", "mix 1", "mix 2", "mix 3", "any 1", "any 2"]
BOOT_1 = b"\x01" + (1).to_bytes(8, "big")


class Case:
    """A run of a command: its words, its input, what its disk holds at first, and how many calls of it change the disk."""

    def __init__(self, name, words, start, calls, given=b"", disk="tp.log", settings=None):
        self.name, self.words, self.start, self.calls, self.given, self.disk = name, words, start, calls, given, disk
        self.settings = settings or {}
        self.store = disk == "bound.log"
        # While a log is made anew the file may be none.
        self.makes = words[0] == "format"
        # What a store in it is to do with each transaction: keep it, or drop it.
        self.transactions = (True, False, True)
        # Workers force records of different nodes in any order.
        self.order_open = words[0] == "drive" and "--workers" in words


class Stops:
    def __init__(self, options, folder):
        self.options = options
        self.library = preload.Library(folder)
        self.fills = FILLS[1:4] if options.short else FILLS
        if options.full:
            self.fills = ["%02x" % k for k in range(256)] + FILLS[3:]
        self.counts = dict.fromkeys(["runs", "calls", "stops", "lists before", "lists after", "no log", "files", "starts", "answered"], 0)
        self.looked, self.started = {}, set()
        self.faults = []

    def fault(self, case, text):
        self.faults.append("%s: %s" % (case.name, text))
        if len(self.faults) < 100:
            print("  " + self.faults[-1], flush=True)

    def run_all(self, words, runs, disk="tp.log"):
        return self.library.run_all(tools.command_of(self.options, words), runs, disk)

    def runs(self, case, settings):
        """Runs of a case, with each of these settings."""
        return self.run_all(case.words, [(case.given, case.start, {**case.settings, **it}) for it in settings], case.disk)

    def look(self, case, contents):
        """What those files open to: the lines of show, or of keys with the bodies of a store; None where it is no log."""
        new = [it for it in dict.fromkeys(contents) if (case.store, it) not in self.looked]
        shown = self.run_all(["keys" if case.store else "show"], [(b"", it, {}) for it in new], case.disk)
        self.counts["files"] += len(new)
        for content, run in zip(new, shown):
            found = None
            if not case.store and (run.status, run.out) != wire.shown(content):
                self.fault(case, "show and wire.py read different records in a file that it leaves: status %s" % run.status)
            if run.status not in (0, 5):
                self.fault(case, "what it leaves cannot be shown: status %s" % run.status)
            if run.status == 0:
                found = words_of(run.out)
                if case.store:
                    found = (bound.bodies(content), found)
            self.looked[case.store, content] = found
        return [self.looked[case.store, it] for it in contents]

    def try_case(self, case):
        whole = self.runs(case, [{"trace": "trace"}])[0]
        if whole.status != 0:
            self.fault(case, "ends with %s: %s" % (whole.status, whole.err))
        self.counts["runs"] += 1
        changes, out = [], 0
        for name, one, _ in whole.calls:
            if name in preload.CHANGES:
                changes.append((name, out))
            elif name == "write":
                out += one
        if len(changes) != case.calls:
            self.fault(case, "has %d changing calls, where it had %d" % (len(changes), case.calls))
        self.counts["calls"] += len(changes)
        # What the file holds at each sync: a stop in it, with all that was written.
        syncs = [k for k, (name, _) in enumerate(changes, 1) if name == "fsync"]
        lists = self.look(case, [case.start] + [it.disk for it in self.runs(case, [{"stop": "%d new" % k} for k in syncs])])
        due = self.due(case, lists)
        if case.words[0] in ("compact", "migrate") and standing(case.start) != standing(whole.disk):
            self.fault(case, "leaves %s, where %s stood" % (standing(whole.disk), standing(case.start)))
        whole_list = self.look(case, [whole.disk])[0]
        for k, (_, out) in enumerate(changes, 1):
            done = sum(it < k for it in syncs)
            runs = self.runs(case, [{"stop": "%d %s" % (k, fill)} for fill in self.fills])
            found = self.look(case, [run.disk for run in runs])
            view = (lambda it: without_order(it, whole_list)) if case.order_open else (lambda it: it)
            for fill, run, it in zip(self.fills, runs, found):
                self.judge(case, "call %d, fill %s: " % (k, fill), fill, run, view(it), whole.out[:out], view(lists[done]), view(lists[done + 1]))
                answered = answers_in(case, run.out)
                self.counts["answered"] += answered
                if due and answered and (it is None or len(it) < due[answered]):
                    self.fault(case, "call %d, fill %s: %d events are answered, and their records are not there" % (k, fill, answered))
            self.start_all(case, [(run.disk, it) for run, it in zip(runs, found)], "call %d: " % k)
        self.looked.clear()
        self.started.clear()
        return changes

    def due(self, case, lists):
        """How many records there are once each event is answered: in a run in which each event is forced before the next is read."""
        if case.words[0] not in ("node", "tx"):
            return []
        alone = self.runs(case, [{"trace": "trace", "frames": 1}])[0]
        first = len(lists[0]) if lists[0] is not None else 0
        due, out, syncs = [first], 0, 0
        for name, one, _ in alone.calls:
            if name == "fsync":
                syncs += 1
            if name == "write":
                # The first sync is the start's, and each record has two.
                out += one
                due += [first + (syncs - 1) // 2] * (answers_in(case, alone.out[:out]) + 1 - len(due))
        return due

    def judge(self, case, where, fill, run, found, written, before, after):
        self.counts["stops"] += 1
        if run.status != preload.STOPPED or run.out != written:
            self.fault(case, where + "status %s, %d bytes of output and not %d" % (run.status, len(run.out), len(written)))
        if found == before:
            self.counts["lists before"] += 1
        elif found == after:
            self.counts["lists after"] += 1
        elif found is None and case.makes:
            self.counts["no log"] += 1
        else:
            self.fault(case, where + "the list is neither that before nor that after: %s" % (found,))
            return
        if before not in (None, after) and found in (before, after) and case.words[0] in ("node", "tx", "drive", "replay"):
            # The gate decides: the record is kept exactly where that byte is 01.
            kept = found == after
            if fill in ("01", "new") and not kept or (fill == "old" or is_byte(fill) and fill != "01") and kept:
                self.fault(case, where + "the record is %s" % ("kept" if kept else "lost"))

    def start_all(self, case, files, where):
        """A site, or a store, starts on each of these files, of which is said what they open to, and goes on."""
        name = case.words[2] if len(case.words) > 2 else "a"
        new = {content: found for content, found in files if found is not None and content not in self.started}
        self.started.update(new)
        self.counts["starts"] += len(new)
        words, given = (["replay"], bound.ONE_MORE) if case.store else (["node", "--name", name], b"")
        runs = self.run_all(words, [(given, content, {}) for content in new], case.disk)
        for found, run, now in zip(new.values(), runs, self.look(case, [run.disk for run in runs])):
            if case.store:
                well = now == bound.after_one_more(found[0])
            else:
                well = run.out == b"" and now is not None and now[:-1] == found and now[-1][0] == "boot"
            if run.status != 0 or not well:
                self.fault(case, where + "a start on %s: status %s, and then %s" % (found, run.status, now))


def without_order(found, whole):
    """How many records there are, where each node has its first ones of the whole list; else the list itself."""
    def of_node(records):
        return lambda node: [it for it in records if (it[1] if it[0] != "boot" else None) == node]
    for node in {it[1] if it[0] != "boot" else None for it in found or []}:
        mine = of_node(found)(node)
        if mine != of_node(whole)(node)[: len(mine)]:
            return found
    return len(found) if found is not None else None


def answers_in(case, out):
    """How many events are answered, whole or in part."""
    bodies, size = wire.frames_in(out)
    whole = sum(body[0] == (0x30 if case.words[0] == "tx" else 0x13) for body in bodies)
    return whole + (size < len(out) or bool(bodies) and bodies[-1][0] != (0x30 if case.words[0] == "tx" else 0x13))


def is_byte(fill):
    return len(fill) == 2


def words_of(shown):
    """The lines without the places, which a compaction moves."""
    return [tuple(line.split()[1:]) if line.split()[0].isdigit() and len(line.split()) > 2 else tuple(line.split())
            for line in shown.decode().splitlines()]


def node_log(stops, words, start, bodies):
    run = stops.run_all(words, [(streams.stream(bodies), start, {})])[0]
    if run.status != 0:
        sys.exit("a log cannot be made: %s" % run.err)
    return run.disk


def standing(log):
    """The greatest boot number, and of each key without End the last record of each kind, as wire.py reads them."""
    order, boots = wire.Order(), [0]
    for _, record in wire.records_of(log):
        order.add(record)
        boots += [record.number] if record.kind == "boot" else []
    return max(boots), sorted(sorted({it.kind: it.words() for it in records}.values()) for records in order.since.values() if records[-1].kind != "end")


def cut_compactions(stops, words, start, steps):
    """The files that a compaction leaves where it stops after the selector was written."""
    return [it.disk for it in stops.runs(Case("cut", words, start, 0), [{"stop": "%d new" % k} for k in steps])]


def cases(stops):
    """Each command with the constant number of its changing calls: a start has 1 sync, a record or a batch of records 4 calls, a
    compaction 12. What `node` and `tx` are given stands whole in their input, so it is one batch; or it comes frame by frame."""
    old = wire.FRESH[:5] + b"\x00"
    sub, damage, root = (streams.stream(it) for it in (streams.subordinate(2), streams.subordinate(1, True), streams.root(2)))
    face = streams.stream(streams.root(2, asked=False))
    ended = node_log(stops, ["node", "--name", "b"], wire.FRESH, streams.subordinate(3))
    doubt = node_log(stops, ["node", "--name", "b"], old, streams.subordinate(3, True)[:-3])
    yield Case("format", ["format"], ended, 3)
    yield Case("format of nothing", ["format"], b"", 3)
    yield Case("node: start", ["node", "--name", "b"], wire.FRESH, 5)
    three = streams.stream(streams.subordinate(1))
    yield Case("node: three records in a batch", ["node", "--name", "b"], wire.FRESH, 9, three)
    for way, settings in (("in a batch", {}), ("frame by frame", {"frames": 1})):
        def calls(records):
            return 5 + 4 * (records if settings else 1)
        yield Case("node: two transactions of a subordinate " + way, ["node", "--name", "b"], wire.FRESH, calls(6), sub, settings=settings)
        yield Case("node: the same on a log of version 1 " + way, ["node", "--name", "b"], old, calls(6), sub, settings=settings)
        yield Case("node: a decision and its damage " + way, ["node", "--name", "b"], wire.FRESH, calls(5), damage, settings=settings)
        yield Case("node: two transactions of a root " + way, ["node", "--name", "a"], wire.FRESH, calls(4), root, settings=settings)
        yield Case("tx: two transactions " + way, ["tx", "--name", "a"], wire.FRESH, calls(4), face, settings=settings)
    for records in (1, 2, 200) if stops.options.short else (1, 2, 3, 10, 50, 100, 200):
        log = wire.log_of([BOOT_1] + streams.kept(1, records, False))
        # (more than 4 KiB of records have zeros written after the log first, which are cut off at the end: four calls)
        yield Case("node: a batch of %d records" % records, ["node", "--name", "a"], log, 9 if records < 147 else 13,
                   streams.stream(streams.purges(1, records)))
    # The first batch ends where more than 64 KiB of answers wait.
    much = wire.log_of([BOOT_1] + streams.kept(1, 300, True) + streams.kept(5, 20, False))
    bodies = (streams.purges(5, 2) + [wire.retry(1)] * 2) * 8
    yield Case("node: batches of 64 KiB of answers", ["node", "--name", "a"], much, 17, streams.stream(bodies))
    yield Case("show", ["show"], ended, 1)
    yield Case("check", ["check"], ended, 1)
    for name, log in (("a log at its end", ended), ("a log in doubt", doubt)):
        yield Case("compact of " + name, ["compact"], log, 13)
        yield Case("migrate of " + name, ["migrate"], log, 13)
    for word, log in (("compact", ended), ("migrate", doubt)):
        # The sixth changing call writes the selector, and what comes after that is made again at each start.
        for k, image in enumerate(cut_compactions(stops, [word], log, (6, 8))):
            yield Case("show of a cut %s, %d" % (word, k + 1), ["show"], image, 7)
            yield Case("node on a cut %s, %d" % (word, k + 1), ["node", "--name", "b"], image, 11)
    store, in_doubt = bound.log(), bound.log(decided=False)
    transactions = bound.schedule((True, False, True))
    yield Case("keys", ["keys"], store, 1, disk="bound.log")
    yield Case("keys of a store in doubt", ["keys"], in_doubt, 1, disk="bound.log")
    yield Case("replay: a store that is made", ["replay"], b"", 28, transactions, "bound.log")
    yield Case("replay: a store binds, keeps, drops", ["replay"], store, 25, transactions, "bound.log")
    yield Case("replay: a store in doubt", ["replay"], in_doubt, 29, transactions, "bound.log")
    if stops.options.drive:
        yield Case("drive: two transactions of a subordinate", ["drive", "--name", "b"], wire.FRESH, 9, sub)
        yield Case("drive: two transactions of a root", ["drive", "--name", "a"], wire.FRESH, 9, root)
        workers = streams.stream(streams.subordinates((2, 3, 4), 2))
        yield Case("drive: three nodes on three workers", ["drive", "--name", "b", "--workers", "3"], wire.FRESH, 9, workers)


class Lying(Stops):
    """The same over a disk whose syncs make nothing durable, as though the program did not sync: a trial that is worth something finds it."""

    def runs(self, case, settings):
        return Stops.runs(self, case, [{**it, "lies": 1} for it in settings])

    def fault(self, case, text):
        self.faults.append(case.name)


def try_lies(stops, folder, chosen):
    """How many of the cases that force a record are caught."""
    lying = Lying(stops.options, folder)
    lying.library, lying.fills = stops.library, FILLS[:4]
    tried = [case for case in chosen if case.words[0] in ("node", "tx", "drive", "replay") and case.calls > 5]
    for case in tried:
        lying.try_case(case)
    return len(tried), len(set(lying.faults))


def main():
    parser = argparse.ArgumentParser(prog="trials/run stops")
    tools.add_program(parser, workers=True)
    parser.add_argument("--short", action="store_true")
    parser.add_argument("--full", action="store_true")
    parser.add_argument("--only", default="", help="the cases whose names have this")
    options = parser.parse_args()
    tools.set_program(options, workers=True)
    folder = tempfile.mkdtemp(prefix="stops-")
    stops = Stops(options, folder)
    chosen = [case for case in cases(stops) if options.only in case.name]
    for case in chosen:
        changes = stops.try_case(case)
        print("%s: %d changing calls" % (case.name, len(changes)), flush=True)
    tried, caught = try_lies(stops, folder, chosen)
    if caught < tried:
        stops.faults.append("over a disk whose syncs make nothing durable no fault is found")
    stops.library.end()
    shutil.rmtree(folder)
    print("stops: over a disk whose syncs make nothing durable %d of %d cases are caught" % (caught, tried))
    print("stops: %d faults, %s" % (len(stops.faults), tools.counted(stops.counts)))
    sys.exit(1 if stops.faults else 0)


if __name__ == "__main__":
    main()
