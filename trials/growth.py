"""How memory and time of each command grow with what it is given.

trials/run growth [--program CMD] [--drive CMD] [--draw CMD] [--unite CMD] [--short] [--only WORD] [--most EXPONENT] [--scale N]

Each command runs on inputs of one kind in four sizes, each twice as large as the one before: logs, transcripts, schedules, frames, nodes, kept
transactions, transactions in doubt. Of each run its processor time and its peak of memory are taken, the least of three. The table has, for
each command and kind, the largest size, what it took, and the exponent: by how many doublings time and memory grow when the size doubles, over
the last two doublings, without what the smallest input takes. An exponent is left out where less than 100 ms, or 2 MB, were added.
A row is a fault where an exponent is above 1.3 (--most) each time that it is measured, since processor time of a busy machine is not exact.
--scale multiplies all sizes but those of nodes and rounds.
"""
import argparse
import math
import os
import pathlib
import shutil
import subprocess
import sys
import tempfile
import typing

import bank
import bound
import streams
import tools
import wire

LAUNCHER = r"""
#include <stdio.h>
#include <stdlib.h>
#include <sys/resource.h>
#include <sys/wait.h>
#include <unistd.h>
/* Runs a command, and writes its status, its processor time in microseconds, and its peak of memory in KB, to the stream of the first word. */
int main(int count, char **words) {
    struct rusage used;
    int status;
    pid_t child = fork();
    if (child == 0) { execv(words[2], words + 2); _exit(127); }
    if (wait4(child, &status, 0, &used) != child) return 1;
    long time = (used.ru_utime.tv_sec + used.ru_stime.tv_sec) * 1000000 + used.ru_utime.tv_usec + used.ru_stime.tv_usec;
    dprintf(atoi(words[1]), "%d %ld %ld\n", status, time, used.ru_maxrss);
    return count < 3;
}
"""
BOOT_1 = b"\x01" + (1).to_bytes(8, "big")
FEWEST_SECONDS, FEWEST_MB = 0.1, 2.0
MOST_ATTEMPTS = 4  # how often a row is measured that seems to grow too fast
LEAF = wire.address("b", 7)


class Input(typing.NamedTuple):
    """What a run is given: standard input, and the files of its folder."""

    given: bytes
    files: typing.Dict[str, bytes]


class Case(typing.NamedTuple):
    """A command, what is made larger, the smallest of the four sizes, and the input of a size; and what its status must be."""

    words: typing.List[str]
    over: str
    size: int
    make: typing.Callable[[int], Input]
    status: int = 0


# The logs of a site.


def ended(count: int) -> bytes:
    """The log of a root whose transactions are over."""
    records = [BOOT_1]
    for k in range(count // 2):
        tree = b"\x01a" + wire.mark(1, 1, 2 * k + 2)
        records.append(b"\x04\x00\x01" + tree + b"\x00\x00\x01" + LEAF + b"\x01a" + wire.mark(1, 1, 2 * k + 3))
        records.append(b"\x06\x00\x01" + tree + b"\x00\x01")
    return wire.log_of(records)


def kept(count: int, owed: bool = False) -> bytes:
    return wire.log_of([BOOT_1] + streams.kept(1, count, owed))


def in_doubt(count: int) -> bytes:
    """The log of site b, so many nodes of which are ready."""
    records = [BOOT_1]
    for k in range(count):
        tree = b"\x01a" + wire.mark(1, 1, 2 * k + 2)
        records.append(b"\x02" + wire.short(k) + tree + b"\x01\x01a" + wire.mark(1, 1, 2 * k + 3) + wire.address("a", 1) + b"\x00\x00")
    return wire.log_of(records)


def log_of(make: typing.Callable[[int], bytes], given: bytes = b"") -> typing.Callable[[int], Input]:
    return lambda count: Input(given, {"tp.log": make(count)})


def store(count: int) -> Input:
    """A bound store of so many bodies, each transaction with a key of its own."""
    bodies = []
    for k in range(count // 2):
        tree = bound.tree(k + 1)
        bodies += [bytes([bank.BIND]) + tree + b"\x00\x01" + bank.put(b"k%d" % k, b"value"), bytes([bank.KEEP]) + tree]
    return Input(b"", {"bound.log": wire.log_of(bodies, wide=False)})


# Frames.


def frames(bodies: typing.List[bytes], log: bytes = wire.FRESH) -> Input:
    return Input(streams.stream(bodies), {"tp.log": log})


def subordinate(count: int) -> Input:
    return frames(streams.subordinate(count // 6))


def root(count: int) -> Input:
    return frames(streams.root(count // 6))


def calls(count: int) -> Input:
    return frames(streams.root(count // 6, asked=False))


def of_workers(count: int) -> Input:
    return frames(streams.subordinates(range(2, 10), count // 48))


def recording(count: int) -> Input:
    """Two sites, and what the process of each was given."""
    sites = [wire.starts("a") + streams.stream(streams.root(count // 12)), wire.starts("b") + streams.stream(streams.subordinate(count // 12))]
    return Input(wire.place(1, "a") + wire.place(2, "b", 1) + b"".join(sites), {})


def audited(make: typing.Callable[[int], bytes], name: str) -> typing.Callable[[int], Input]:
    return lambda count: Input(wire.audit_frames([(name, make(count))]), {})


# Schedules and transcripts.


def rounds(nodes: int, count: int, transactions: str) -> bytes:
    """A schedule of so many lines: rounds of a root with so many branches, each ended, or kept by a decision against it."""
    lines = ["node 1 a"] + ["node %d s%d under 1" % (k, k % 15) for k in range(2, nodes + 1)]
    below = range(2, nodes + 1)
    lines += ["do 1 begin-dialogue %d scu" % k for k in below] + ["drain"] + ["do %d accept scu" % k for k in below] + ["drain"]
    each = ["do 1 begin-transaction %d" % k for k in below] + ["drain", "do 1 commit", "drain"] + ["do %d commit" % k for k in below]
    if transactions == "kept":
        each.append("heur 2 rollback")
    each += ["drain"] + ["do %d done" % k for k in range(1, nodes + 1)] + ["drain"]
    while len(lines) < count:
        lines += each
    return bound.text_of(lines)


def schedule(transactions: str) -> typing.Callable[[int], Input]:
    return lambda count: Input(rounds(2, count, transactions), {})


def wide(nodes: int) -> Input:
    return Input(rounds(nodes, 40 * nodes, "ended"), {})


def declared(nodes: int) -> Input:
    """Nodes that are declared, each with a dialogue that is offered, and then asked to retry again and again."""
    bodies = [wire.declare(k) for k in range(1, nodes + 1)]
    return frames(bodies + [wire.retry(k) for k in range(1, nodes + 1)] * 400)


def cases(transcript: typing.Callable[[int], bytes]) -> typing.Iterator[Case]:
    for word in ("show", "check", "compact", "migrate"):
        yield Case([word], "records that ended", 25000, log_of(ended))
        yield Case([word], "kept", 10000, log_of(kept), 1 if word == "check" else 0)
        yield Case([word], "in doubt", 7500, log_of(in_doubt))
    for words in (["node"], ["tx"], ["drive"]):
        yield Case(words, "records that ended", 25000, log_of(ended))
        yield Case(words, "kept", 10000, log_of(kept))
        yield Case(words, "in doubt", 7500, log_of(in_doubt))
    yield Case(["keys"], "bodies of a store", 10000, store)
    yield Case(["audit"], "records that ended", 25000, audited(ended, "a"))
    yield Case(["audit"], "kept", 10000, audited(kept, "a"))
    yield Case(["audit"], "in doubt", 7500, audited(in_doubt, "b"))
    yield Case(["node", "--name", "b"], "frames of a subordinate", 15000, subordinate)
    yield Case(["node", "--name", "a"], "frames of a root", 15000, root)
    yield Case(["tx", "--name", "a"], "frames", 15000, calls)
    yield Case(["drive", "--name", "b"], "frames", 12000, subordinate)
    yield Case(["drive", "--name", "b", "--workers", "4"], "frames", 12000, of_workers)
    yield Case(["unite"], "frames", 15000, recording)
    yield Case(["node"], "declared nodes", 32, declared)
    yield Case(["node"], "kept, and a retry of all", 5000, log_of(lambda count: kept(count, True), streams.stream([wire.retry(1)])))
    yield Case(["node"], "kept, and purged", 2500, lambda count: frames(streams.purges(1, count), kept(count)))
    for how in ("ended", "kept"):
        yield Case(["replay"], "lines of transactions that %s" % ("end" if how == "ended" else "are kept"), 2000, schedule(how))
    yield Case(["replay"], "nodes", 32, wide)
    for option, over, size in (("--nodes", "nodes", 32), ("--rounds", "rounds", 3)):
        for word in ("make", "trial"):
            more = ["--rounds", "10"] if option == "--nodes" else ["--nodes", "200"]
            yield Case([word, *more, option, "%d"], over, size, lambda count: Input(b"", {}))
    for option in ("", "--mermaid", "--html"):
        yield Case(["draw"] + ([option] if option else []), "lines of a transcript", 8000, lambda count: Input(transcript(count), {}))


class Growth:
    def __init__(self, options: argparse.Namespace, folder: str) -> None:
        self.options, self.folder = options, pathlib.Path(folder)
        source = self.folder / "launcher.c"
        source.write_text(LAUNCHER)
        self.launcher = str(source.with_suffix(""))
        subprocess.run(["cc", "-O1", "-D_GNU_SOURCE", "-o", self.launcher, source], check=True)
        self.faults: typing.List[str] = []
        self.rows = self.runs = 0

    def command(self, words: typing.List[str]) -> typing.List[str]:
        if words[0] == "unite":
            return list(self.options.unite) + words[1:]
        return list(tools.command_of(self.options, words))

    def is_there(self, words: typing.List[str]) -> bool:
        return {"drive": self.options.drive, "draw": self.options.draw, "unite": self.options.unite}.get(words[0], True) is not None

    def transcript(self, count: int) -> bytes:
        """The first lines of a transcript."""
        place = self.place(Input(b"", {}))
        run = subprocess.run(self.command(["replay"]), cwd=place, input=rounds(2, count // 3 + 60, "ended"), stdout=subprocess.PIPE, check=True)
        shutil.rmtree(place)
        return b"".join(run.stdout.splitlines(keepends=True)[:count])

    def place(self, given: Input) -> pathlib.Path:
        place = pathlib.Path(tempfile.mkdtemp(dir=self.folder))
        for name, content in given.files.items():
            (place / name).write_bytes(content)
        return place

    def run(self, case: Case, size: int, given: Input) -> typing.Tuple[float, float]:
        """Seconds of the processor, and MB."""
        place = self.place(given)
        (place / "in").write_bytes(given.given)
        words = [word.replace("%d", str(size)) for word in self.command(case.words)]
        reader, writer = os.pipe()
        with open(place / "in", "rb") as source, open(place / "out", "wb") as sink:
            command = [self.launcher, str(writer), shutil.which(words[0]) or words[0], *words[1:]]
            subprocess.run(command, cwd=place, stdin=source, stdout=sink, stderr=subprocess.DEVNULL, pass_fds=[writer], check=True)
        os.close(writer)
        with open(reader, "rb") as said:
            status, microseconds, kilobytes = map(int, said.read().split())
        shutil.rmtree(place)
        self.runs += 1
        if os.waitstatus_to_exitcode(status) != case.status:
            self.fault("%s over %d %s ends with %d" % (" ".join(case.words), size, case.over, os.waitstatus_to_exitcode(status)))
        return microseconds / 1e6, kilobytes / 1024

    def fault(self, text: str) -> None:
        self.faults.append(text)
        print("  " + text, flush=True)

    def exponent(self, values: typing.List[float], fewest: float) -> typing.Optional[float]:
        """Of the values at the sizes 0, n, 2n, 4n, 8n."""
        grown = [value - values[0] for value in values]
        return math.log2(grown[4] / grown[2]) / 2 if grown[2] > 0 and grown[4] >= fewest else None

    def row(self, case: Case) -> None:
        sizes = [max(2, case.size // 100)] + [case.size << k for k in range(4)]
        if "nodes" in case.over or "rounds" in case.over:
            sizes = [2 if "nodes" in case.over else 1] + [min(size, 256 if "nodes" in case.over else 30) for size in sizes[1:]]
        inputs = [(size, case.make(size)) for size in sizes]
        runs: typing.List[typing.List[typing.Tuple[float, float]]] = [[] for _ in sizes]
        most = self.options.most
        for attempt in range(MOST_ATTEMPTS):
            for (size, given), found in zip(inputs, runs):
                found += [self.run(case, size, given) for _ in range(self.options.times)]
            seconds, megabytes = ([min(it[k] for it in found) for found in runs] for k in (0, 1))
            exponents = self.exponent(seconds, FEWEST_SECONDS), self.exponent(megabytes, FEWEST_MB)
            if all(it is None or it <= most for it in exponents):
                break
        said = ["" if it is None else "%.2f" % it for it in exponents]
        words = " ".join(case.words).replace("drive", "tpdrive").replace("draw", "tpdraw").replace("unite", "tpunite")
        print("| `%s` | %s | %d | %.2f | %s | %.0f | %s |" % (words.replace(" %d", ""), case.over, sizes[-1], seconds[-1], said[0], megabytes[-1], said[1]),
              flush=True)
        self.rows += 1
        for what, it in zip(("time", "memory"), exponents):
            if it is not None and it > most:
                self.fault("%s: %s over %s grows by %.2f" % (words, what, case.over, it))


def main() -> None:
    parser = argparse.ArgumentParser(prog="trials/run growth")
    tools.add_program(parser, workers=True)
    tools.add_draw(parser)
    tools.add_unite(parser)
    parser.add_argument("--short", action="store_true")
    parser.add_argument("--only", default="", help="the rows that have this")
    parser.add_argument("--most", type=float, default=1.3, help="the greatest exponent that is no fault")
    parser.add_argument("--scale", type=float, help="by what the sizes are multiplied")
    options = parser.parse_args()
    tools.set_program(options, workers=True)
    tools.set_draw(options)
    tools.set_unite(options)
    options.times = 1 if options.short else 3
    scale = options.scale or (0.1 if options.short else 1)
    folder = tempfile.mkdtemp(prefix="growth-")
    trial = Growth(options, folder)
    print("| Command | Over | Size | Seconds | Exponent | MB | Exponent |\n|---|---|---|---|---|---|---|")
    for case in cases(trial.transcript):
        if options.only in " ".join(case.words) + " " + case.over and trial.is_there(case.words):
            fixed = "nodes" in case.over or "rounds" in case.over
            trial.row(case if fixed else case._replace(size=max(2, int(case.size * scale))))
    shutil.rmtree(folder)
    print("growth: %d faults, %d rows, %d runs" % (len(trial.faults), trial.rows, trial.runs))
    sys.exit(1 if trial.faults else 0)


if __name__ == "__main__":
    main()
