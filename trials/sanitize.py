"""The commands under valgrind, and their inputs mutated without end.

trials/run sanitize [--program CMD] [--drive CMD] [--short] [--seconds N] [--only PART] [--seed N]

First each command runs under valgrind (memcheck) on worked inputs: no read or write out of place, no use of what was never written,
nothing lost, and the same output and log as without it. Then a mutator takes worked inputs and logs, changes them (bits, bytes,
numbers, pieces taken out, said twice, put in, crossed with another input), and runs the command, for so many seconds. It keeps an input
that ends in a way that was not seen yet, and goes on from it. No run may end by a signal, take more than its time, or end with a status
that is not one of the command's.
"""
import argparse
import os
import random
import re
import shutil
import subprocess
import sys
import tempfile
import time

import bound
import hostile
import preload
import streams
import tools
import wire

VALGRIND = ["valgrind", "-q", "--error-exitcode=99", "--leak-check=full", "--show-leak-kinds=all", "--errors-for-leak-kinds=definite,indirect"]
WEIGHTS = {"node": 4, "replay": 3, "audit": 3, "keys": 2, "tx": 2, "drive": 2}
NUMBERS = [0, 1, 2, 0x1F, 0x20, 0x21, 0x7F, 0x80, 0xFE, 0xFF]


class Input:
    """A run of a command: its words, its input, and its disk."""

    def __init__(self, words, given=b"", log=None):
        self.words, self.given, self.log = words, given, hostile.fresh_for(words) if log is None else log


class Sanitize:
    def __init__(self, options, folder):
        self.options, self.folder = options, folder
        self.library = preload.Library(folder)
        self.draw = random.Random(options.seed)
        self.faults, self.kept = [], tempfile.mkdtemp(prefix="sanitize-kept-")
        self.counts = dict.fromkeys(["under valgrind", "mutants", "kept inputs", "seconds"], 0)
        self.ways = set()

    def run_all(self, words, cases):
        """Runs of inputs that have the same words."""
        runs = [(case.given, case.log, {}) for case in cases]
        return self.library.run_all(tools.command_of(self.options, words), runs, hostile.disk_of(words), 60)

    def run(self, case):
        return self.run_all(case.words, [case])[0]

    def run_under(self, before, case):
        """The run under another program, as its status, output, errors and disk."""
        path = os.path.join(self.folder, hostile.disk_of(case.words))
        preload.put(path, case.log)
        run = subprocess.run([*before, *tools.command_of(self.options, case.words)], cwd=self.folder, input=case.given, capture_output=True)
        return preload.Result(run.returncode, run.stdout, run.stderr, preload.got(path), [])

    def fault(self, case, text):
        at = os.path.join(self.kept, "%d" % len(self.faults))
        self.faults.append(text)
        for suffix, content in ((".in", case.given), (".log", case.log)):
            with open(at + suffix, "wb") as file:
                file.write(content)
        print("  %s: %s (%s)" % (" ".join(case.words), text, at), flush=True)

    def worked(self):
        def node(words, bodies, log=wire.FRESH):
            return Input(words, streams.stream(bodies), log)
        cases = [
            node(["node", "--name", "b"], streams.subordinate(3)), node(["node", "--name", "b"], streams.subordinate(2, True)),
            node(["node", "--name", "b"], streams.subordinate(2), wire.FRESH[:5] + b"\x00"),
            node(["node", "--name", "a"], streams.root(3)), node(["tx", "--name", "a"], streams.root(2, asked=False)),
            Input(["make", "--nodes", "5", "--rounds", "2"]), Input(["trial", "--nodes", "5", "--rounds", "2"]), Input(["format"]),
            Input(["keys"], b"", bound.log()), Input(["keys"], b"", bound.log(decided=False)),
            Input(["replay"], bound.schedule((True, False, True))), Input(["replay"], bound.schedule((True, False)), bound.log(decided=False)),
        ]
        if self.options.drive:
            cases += [node(["drive", "--name", "b", "--workers", "2"], streams.subordinate(3)),
                      node(["drive", "--name", "a"], streams.root(2))]
        logs = [self.run(case).disk for case in cases[:4]]
        for log in logs:
            cases += [Input([word], b"", log) for word in ("show", "check", "compact", "migrate")]
        cases.append(Input(["audit"], wire.audit_frames([("a", logs[3]), ("b", logs[0])])))
        for name in ("all-logs.hex", "an-older-log.hex", "one-log-missing.hex"):
            cases.append(Input(["audit"], bytes.fromhex((tools.ROOT / "examples" / name).read_text())))
        for path in sorted((tools.ROOT / "examples").glob("*.schedule")):
            cases.append(Input(["replay"], path.read_bytes()))
        return cases

    def valgrind(self, cases):
        if shutil.which("valgrind") is None:
            print("valgrind is not installed: left out", flush=True)
            return
        for case in cases:
            plain, run = self.run(case), self.run_under(VALGRIND, case)
            self.counts["under valgrind"] += 1
            said = [line for line in run.err.splitlines() if line.startswith(b"==")]
            if said or (run.status, run.out, run.disk) != (plain.status, plain.out, plain.disk):
                self.fault(case, "under valgrind: status %d, %s" % (run.status, b" ".join(said[:4]).decode()))
        print("valgrind: %s" % tools.counted(self.counts), flush=True)

    def mutate(self, cases):
        cases = [case for case in cases if case.words[0] not in ("make", "trial", "format")]
        begun = next_word = time.monotonic()
        until = begun + (self.options.seconds or (20 if self.options.short else 3600))
        inputs, self.ends = {}, {}
        for case in cases:
            inputs.setdefault(tuple(case.words), []).append(case)
        names = list(inputs)
        weights = [WEIGHTS.get(words[0], 1) / sum(it[0] == words[0] for it in names) for words in names]
        while time.monotonic() < until:
            words = self.draw.choices(names, weights)[0]
            mutants = [self.mutant(self.draw.choice(inputs[words]), inputs[words]) for _ in range(50)]
            for case, run in zip(mutants, self.run_all(list(words), mutants)):
                self.judge(case, run, inputs[words])
            self.counts["seconds"] = round(time.monotonic() - begun)
            if time.monotonic() > next_word:
                next_word += 300
                print("mutants: %s" % tools.counted(self.counts), flush=True)
        print("mutants by command and status: " + ", ".join("%s %s: %d" % (*it, count) for it, count in sorted(self.ends.items())), flush=True)

    def judge(self, case, run, inputs):
        self.counts["mutants"] += 1
        if run.status is None:
            return self.fault(case, "does not end")
        end = (case.words[0], run.status)
        self.ends[end] = self.ends.get(end, 0) + 1
        if not hostile.is_due(case.words, run):
            self.fault(case, "status %d, %r" % (run.status, run.err[-200:]))
        way = (*end, re.sub(r"\d+", "N", hostile.said(run)), len(run.out).bit_length(), len(run.disk).bit_length())
        if way not in self.ways:
            self.ways.add(way)
            inputs.append(case)
            self.counts["kept inputs"] += 1

    def mutant(self, case, others):
        given, log = bytearray(case.given), bytearray(case.log)
        disk = case.words[0] in ("show", "check", "keys", "compact", "migrate") or (
            case.words[0] in ("node", "tx", "drive", "replay") and self.draw.random() < 0.2)
        other = self.draw.choice(others)
        for _ in range(self.draw.choice([1, 1, 2, 4, 16])):
            self.change(log if disk else given, other.log if disk else other.given)
        return Input(case.words, bytes(given), bytes(log))

    def change(self, text, other):
        draw = self.draw
        at = draw.randrange(len(text)) if text else 0
        x = draw.randrange(8)
        if x == 0 and text:
            text[at] ^= 1 << draw.randrange(8)
        elif x == 1 and text:
            text[at] = draw.choice(NUMBERS)
        elif x == 2 and text:
            text[at] = draw.randrange(256)
        elif x == 3:
            del text[at:at + draw.choice([1, 2, 4, 20, len(text)])]
        elif x == 4:
            text[at:at] = draw.randbytes(draw.choice([1, 2, 8, 40]))
        elif x == 5:
            text[at:at] = text[at:at + draw.choice([1, 8, 64, 300])]
        elif x == 6 and other:
            start = draw.randrange(len(other))
            text[at:] = other[start:]
        elif x == 7 and text:
            size = draw.choice([2, 8])
            text[at:at + size] = draw.choice([0, 1, 255, 256, 2047, 2048, 2**63, 2**64 - 1, len(text)]).to_bytes(8, "big")[-size:]


def main():
    parser = argparse.ArgumentParser(prog="trials/run sanitize")
    tools.add_program(parser, workers=True)
    parser.add_argument("--short", action="store_true")
    parser.add_argument("--seconds", type=float, help="how long the mutator runs")
    parser.add_argument("--only", choices=["valgrind", "mutants"])
    parser.add_argument("--seed", type=int, default=1)
    options = parser.parse_args()
    tools.set_program(options, workers=True)
    folder = tempfile.mkdtemp(prefix="sanitize-")
    trial = Sanitize(options, folder)
    cases = trial.worked()
    if options.only != "mutants":
        trial.valgrind(cases[::4] if options.short else cases)
    if options.only != "valgrind":
        trial.mutate(cases)
    trial.library.end()
    shutil.rmtree(folder)
    if not trial.faults:
        shutil.rmtree(trial.kept)
    print("sanitize: %d faults, %s" % (len(trial.faults), tools.counted(trial.counts)))
    sys.exit(1 if trial.faults else 0)


if __name__ == "__main__":
    main()
