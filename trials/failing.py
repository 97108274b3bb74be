"""Each call to the outside fails in turn, and each wish for memory.

trials/run failing [--program CMD] [--drive CMD] [--short] [--only WORD]

For each command and each of its calls (open, length, read, write, cut and sync of the disk, reads of standard input, writes to
standard output, memory): that call alone fails, a write with nothing, half or all of it done. Then the exit status is the one
that docs/SERVICE.md gives that command for that fault, standard error has its line, standard output is exactly what had been
written before (of the failing write as much as it made), no call of the disk comes after, but that a write which failed gives back
what the file grew by, and the disk opens to a list that some moment of the run without a fault had. After a read that failed the
outputs of what was read are written. What a site or its workers had noted before memory failed is forced at the end. A store whose file fails
in a replay is no fault of the run: its transcript is that of a store that no longer votes for commitment. Where reads and writes
are only short, and those of the disk interrupted, nothing changes. The program is started with its standard streams closed, too,
and with words that are none.
"""
import argparse
import os
import shutil
import subprocess
import sys
import tempfile

import bound
import preload
import stops
import streams
import tools
import wire

STATUS = {"read": (6, b"read fault"), "write": (7, b"write fault"), "malloc": (9, b"no memory")}
DISK = (8, b"disk fault")
CHANGING = ("format", "node", "tx", "drive", "show", "check", "compact", "migrate")  # the commands that have a log
KINDS = ["open", "statx", "pread", "pwrite", "ftruncate", "fsync", "read", "write", "malloc"]


# Four calls force a batch of records, and two cut off what was written ahead of the log.
SETTLE, CUT = ["pwrite", "fsync", "pwrite", "fsync"], ["ftruncate", "fsync"]


def is_front(found, whole, workers):
    """The boots are the same, and of each worker the records are the first of those that it has in `whole`."""
    if found is None or whole is None:
        return False

    def of(records, key):
        return [it for it in records if (it[0] if it[0] == "boot" else int(it[1]) % workers) == key]
    return of(found, "boot") == of(whole, "boot") and all(of(whole, key)[: len(of(found, key))] == of(found, key) for key in range(workers))


class Failing(stops.Stops):
    def __init__(self, options, folder):
        stops.Stops.__init__(self, options, folder)
        self.folder = folder
        self.counts = dict.fromkeys(["runs", "failing calls", "failing wishes for memory", "wishes that nobody misses",
                                     "stores that fail", "short runs", "files", "starts", "closed streams", "words"], 0)
        self.most = 12 if options.short else 100000
        self.said = {}  # transcripts of stores that take so many bodies and no more

    def try_case(self, case):
        whole = self.runs(case, [{"trace": "trace"}])[0]
        self.counts["runs"] += 1
        if whole.status != 0:
            self.fault(case, "ends with %s" % whole.status)
        changes = sum(name in preload.CHANGES for name, _, _ in whole.calls)
        stopped = self.runs(case, [{"stop": "%d new" % k} for k in range(1, changes + 1)])
        lists = self.look(case, [case.start] + [it.disk for it in stopped] + [whole.disk])
        tried = []
        for kind in KINDS:
            count = self.wishes(case) if kind == "malloc" else sum(name == kind for name, _, _ in whole.calls)
            for k in range(1, count + 1, max(1, count // self.most)):
                hows = ("none", "half", "all") if kind in ("pwrite", "write") else ("none", "all") if kind == "ftruncate" else ("none",)
                tried += [(kind, k, how) for how in hows]
        for at in range(0, len(tried), 256):
            some = tried[at:at + 256]
            runs = self.runs(case, [{"trace": "trace", "fail": "%s %d %s" % it} for it in some])
            found = self.look(case, [run.disk for run in runs])
            for (kind, k, how), run, it in zip(some, runs, found):
                self.judge(case, kind, k, how, run, whole, it, lists)
            self.start_all(case, [(run.disk, it) for run, it in zip(runs, found) if case.store or case.words[0] in CHANGING], "a call fails: ")
        self.shorten(case, whole)
        self.looked.clear()
        self.started.clear()
        return len(tried)

    def wishes(self, case):
        """How many wishes for memory a run has: the first that fails nothing is one too many."""
        low, high = 0, 1
        while self.wish_fails(case, high):
            low, high = high, 2 * high
        while high - low > 1:
            middle = (low + high) // 2
            low, high = (middle, high) if self.wish_fails(case, middle) else (low, middle)
        return low

    def wish_fails(self, case, k):
        run = self.runs(case, [{"trace": "trace", "fail": "malloc %d none" % k}])[0]
        return any(name == "malloc" for name, _, _ in run.calls)

    def judge(self, case, kind, k, how, run, whole, found, lists):
        where = "%s %d fails, %s done: " % (kind, k, how)
        self.counts["failing wishes for memory" if kind == "malloc" else "failing calls"] += 1
        due = STATUS.get(kind, DISK)
        if kind == "malloc" and (run.status, run.out) == (0, whole.out):
            # What wished for that memory does without it.
            self.counts["wishes that nobody misses"] += 1
            return
        if case.store and kind in preload.CHANGES and run.status == 0:
            self.judge_store(case, kind, k, where, run, whole)
            due, whole = (0, b""), run
        said = run.err.split(b"\n")[0].rsplit(b": ", 1)[-1]
        if (run.status, said) != due:
            self.fault(case, where + "status %s, %r" % (run.status, run.err))
        # What was written before, and of a failing write what it made.
        out, last = 0, 0
        for name, one, two in run.calls:
            if name == "write":
                last = two
                out += max(one, 0)
        if kind == "write":
            out += {"none": 0, "half": last // 2, "all": last}[how]
        if run.out != whole.out[:out] or len(run.out) != out:
            self.fault(case, where + "%d bytes of output" % len(run.out))
        # Nothing after the call that failed, but that a write gives back what the file grew by. Where a store, memory or the
        # input failed outputs may be written still.
        at = [i for i, call in enumerate(run.calls) if call[0] == kind][0 if kind == "malloc" else k - 1]
        after = [name for name, _, _ in run.calls[at + 1:]
                 if name in preload.CHANGES or (kind != "malloc" and run.status and (kind, name) != ("read", "write"))]
        if kind == "pwrite" and after[:1] == ["ftruncate"]:
            after = after[1:]
        # A site or workers that find no memory have noted records, and these are forced at the end.
        is_batch = kind == "malloc" and case.words[0] in ("node", "tx", "drive")
        workers = int(case.words[case.words.index("--workers") + 1]) if "--workers" in case.words else 1
        # What a batch wrote ahead of the log is cut off at the end, whatever brought that.
        if kind in ("read", "write", "malloc") and case.words[0] in ("node", "tx", "drive") and after[-2:] == CUT:
            after = after[:-2]
        if is_batch and after == SETTLE:
            after = []
        if after:
            self.fault(case, where + "then %s" % after[:3])
        if found not in lists and not (found is None and case.makes) and not (is_batch and any(is_front(found, it, workers) for it in lists)):
            self.fault(case, where + "the disk opens to %s" % (found,))

    def judge_store(self, case, kind, k, where, run, whole):
        """A store that can no longer write goes on without a vote for commitment: the transcript that a script says, too."""
        self.counts["stores that fail"] += 1
        changes = [name for name, _, _ in whole.calls if name in preload.CHANGES]
        at = [i for i, name in enumerate(changes) if name == kind][k - 1]
        # The start of a store syncs once, and what is not there is made by three calls before; each body takes four.
        room = (at - (1 if case.start else 4)) // 4
        key = case.name, room
        if key not in self.said:
            def replay(text):
                return self.run_all(["replay"], [(text, wire.FRESH_STORE, {})], case.disk)[0].out
            in_doubt = bound.is_in_doubt(bound.bodies(case.start) or ())
            self.said[key] = bound.transcript(replay, case.transactions, bound.Script(room, in_doubt))
        if run.out != self.said[key]:
            self.fault(case, where + "the transcript is not that of a store that no longer writes")

    def closed(self, case):
        """The program is started with some of its three standard streams closed: the log is not taken for one of them."""
        for streams_closed in ([0], [1], [2], [0, 1], [1, 2], [0, 1, 2]):
            for given in (case.given, case.given + b"\x00\x00"):
                path = os.path.join(self.folder, case.disk)
                preload.put(path, case.start)

                def close():
                    return [os.close(number) for number in streams_closed]
                run = subprocess.run(tools.command_of(self.options, case.words), cwd=self.folder, input=given, stdout=subprocess.DEVNULL,
                                     stderr=subprocess.DEVNULL, preexec_fn=close)
                self.counts["closed streams"] += 1
                image = preload.got(path)
                if self.look(case, [image]) == [None]:
                    self.fault(case, "with %s closed the log is overwritten (status %d): %s" % (
                        streams_closed, run.returncode, image[:16]))

    def words(self):
        """Words that are none, and what they end with."""
        for words, status in (([], 2), (["play"], 2), (["node", "--name"], 2), (["node", "--name", "A"], 2), (["node", "--name", "a" * 17], 2),
                              (["make", "--nodes", "1"], 2), (["make", "--rounds", "31"], 2), (["make", "--number", str(2**64)], 2),
                              (["format", "more"], 2), (["--help"], 0), (["node", "-h"], 0), (["-V"], 0), (["--helpp"], 2),
                              ([b"\xff"], 2), (["node", "--name", b"\xff"], 2),
                              (["drive", "--workers", "0"], 2), (["drive", "--workers", "17"], 2), (["drive", "--workers"], 2),
                              (["drive", "node"], 2), (["drive", "--name", b"\xff"], 2)):
            if words[:1] == ["drive"] and not self.options.drive:
                continue
            run = subprocess.run(tools.command_of(self.options, words), cwd=self.folder, stdin=subprocess.DEVNULL, capture_output=True)
            self.counts["words"] += 1
            if run.returncode != status:
                self.fault(stops.Case("words", words, b"", 0), "%s end with %d" % (words, run.returncode))

    def shorten(self, case, whole):
        runs = self.runs(case, [{"short": seed} for seed in range(3 if self.most == 12 else 20)])
        for seed, run in enumerate(runs):
            self.counts["short runs"] += 1
            if (run.status, run.out, run.disk) != (0, whole.out, whole.disk):
                self.fault(case, "short reads and writes, seed %d: status %s, %s" % (seed, run.status, run.err))


SHORT = ["format", "show", "node: a batch of 2 records", "node: two transactions of a subordinate in a batch",
         "node: two transactions of a root frame by frame", "tx: two transactions in a batch", "compact of a log in doubt",
         "node on a cut migrate, 2", "keys", "audit", "replay: a store binds, keeps, drops", "drive: two transactions of a subordinate"]


def cases(trial):
    yield from stops.cases(trial)
    schedule = (tools.ROOT / "examples" / "plain-commit.schedule").read_bytes()
    logs = wire.audit_frames([("a", stops.node_log(trial, ["node", "--name", "a"], wire.FRESH, streams.root(2))),
                              ("b", stops.node_log(trial, ["node", "--name", "b"], wire.FRESH, streams.subordinate(2)))])
    yield stops.Case("replay", ["replay"], wire.FRESH, 0, schedule)
    yield stops.Case("make", ["make", "--nodes", "4"], wire.FRESH, 0)
    yield stops.Case("trial", ["trial", "--nodes", "4"], wire.FRESH, 0)
    yield stops.Case("audit", ["audit"], wire.FRESH, 0, logs)


def main():
    parser = argparse.ArgumentParser(prog="trials/run failing")
    tools.add_program(parser, workers=True)
    parser.add_argument("--short", action="store_true")
    parser.add_argument("--only", default="", help="the cases whose names have this")
    options = parser.parse_args()
    options.full = False
    tools.set_program(options, workers=True)
    folder = tempfile.mkdtemp(prefix="failing-")
    trial = Failing(options, folder)
    for case in cases(trial):
        if options.short and case.name not in SHORT or options.only not in case.name or case.order_open:
            continue
        print("%s: %d failing calls" % (case.name, trial.try_case(case)), flush=True)
        if case.name in ("node: two transactions of a subordinate in a batch", "tx: two transactions in a batch", "show"):
            trial.closed(case)
    trial.words()
    trial.library.end()
    shutil.rmtree(folder)
    print("failing: %d faults, %s" % (len(trial.faults), tools.counted(trial.counts)))
    sys.exit(1 if trial.faults else 0)


if __name__ == "__main__":
    main()
