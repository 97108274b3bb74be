#!/usr/bin/env python3
"""Measures `tpnode replay` on schedules of several shapes, and `tpnode trial`, beside a plain Rust program of the same meaning:
instructions, processor time and peak memory.

bench/replay.py                           measures the table below
bench/replay.py SHAPE NODES ROUNDS        measures one schedule
bench/replay.py --write SHAPE NODES ROUNDS    writes the schedule to standard output

It runs the proved program where it stands, crates/tpnode/out/tpnode (`rt run` or `rt ci` leaves it there), or the one that the
variable TPNODE names. The plain Rust program is bench/peer, which `rustc` builds anew, or the one that the variable PEER names; where
there is no rustc it is left out. Both must write the same bytes. Instructions are counted by `valgrind --tool=callgrind` over the whole process: the same binary, input and
environment give the same count, whatever else the machine does. Time and memory are the least of five runs.

Shapes: pair (transactions of two nodes; NODES is not read), tree (binary), chain, star, burst (a tree, all requests before the
deliveries), starburst, onesite (a tree on one site), idle (two of NODES nodes work), kept (transactions that each leave a kept
one), refused (five refused requests a round), passstuck (a frame that stays beside one that is passed), data and stardata. The shape trial
is `tpnode trial` itself, which makes its schedule of so many nodes and rounds."""
import atexit, functools, os, shutil, subprocess, sys, tempfile

sys.path.insert(0, os.path.dirname(os.path.abspath(__file__)))
import table

TABLE = [("pair", 2, 5000), ("chain", 256, 10), ("star", 256, 10), ("kept", 2, 2000), ("passstuck", 3, 10000), ("trial", 256, 10)]
UNITS = {"data": "s", "stardata": "s", "passstuck": "s"}
STARS = ("star", "starburst", "stardata", "passstuck")


def superior(shape, node):
    return 1 if shape in STARS else node - 1 if shape == "chain" else node // 2


def opening(shape, nodes, active):
    """Declares the nodes and opens the dialogues of those that work."""
    for node in range(1, nodes + 1):
        site = 1 if shape == "onesite" else 1 + (node - 1) % 16
        under = f" under {superior(shape, node)}" if node > 1 and not (shape == "idle" and node > 2) else ""
        yield f"node {node} s{site}{under}"
    units = UNITS.get(shape, "scu")
    yield from (f"do {superior(shape, node)} begin-dialogue {node} {units}" for node in range(2, active + 1))
    yield "drain"
    yield from (f"do {node} accept {units}" for node in range(2, active + 1))
    yield "drain"


def commitment(shape, active):
    """One transaction of the whole tree; a burst makes all requests of a step before any delivery."""
    each = [] if shape in ("burst", "starburst") else ["drain"]
    for node in range(2, active + 1):
        yield f"do {superior(shape, node)} begin-transaction {node}"
        yield from each
    yield from ["do 1 commit", "drain"] if each else ["drain", "do 1 commit", "drain"]
    for node in range(2, active + 1):
        yield f"do {node} commit"
        yield from each
    yield from [] if each else ["drain"]
    for node in range(1, active + 1):
        yield f"do {node} done"
        yield from each
    yield from [] if each else ["drain"]


def round_of(shape, number, nodes, active):
    if shape in ("data", "stardata"):
        return [*(f"do {superior(shape, node)} data {node} 00112233" for node in range(2, nodes + 1)), "drain"]
    if shape == "kept":
        asked = ["do 1 begin-transaction 2", "drain", "do 1 commit", "drain", "do 2 commit", "heur 2 rollback", "drain"]
        return [*asked, "do 1 done", "drain", "do 2 done", "drain"]
    if shape == "refused":
        return ["do 1 done"] * 5
    if shape == "passstuck":
        return [*(["do 1 data 2 00"] if number == 0 else []), "do 1 data 3 00", "pass 1 3"]
    return list(commitment(shape, active))


def schedule(shape, nodes, rounds):
    nodes = {"pair": 2, "kept": 2, "passstuck": 3}.get(shape, nodes)
    active = 2 if shape == "idle" else nodes
    lines = [*opening(shape, nodes, active)]
    for number in range(rounds):
        lines += round_of(shape, number, nodes, active)
    return "\n".join(lines) + "\n"


def instructions(command, file):
    with tempfile.TemporaryDirectory() as room, open(file) as given:
        words = ["valgrind", "--tool=callgrind", f"--callgrind-out-file={room}/out", *command]
        ran = subprocess.run(words, stdin=given, stdout=subprocess.DEVNULL, stderr=subprocess.PIPE, text=True)
    found = [line for line in ran.stderr.split("\n") if "Collected" in line]
    return int(found[0].split(":")[1].replace(",", "")) if found else None


# Runs a program, and writes its processor seconds and its peak memory in KB to the file that the first word names. It is small, so
# that the peak is the program's own; one that Python starts is never shown below what Python takes.
LAUNCHER = r"""
#include <stdio.h>
#include <sys/resource.h>
#include <sys/wait.h>
#include <unistd.h>

int main(int count, char **words) {
    struct rusage use;
    int status;
    pid_t child = count > 2 ? fork() : -1;
    if (child == 0) {
        execv(words[2], words + 2);
        _exit(127);
    }
    if (child < 0 || wait4(child, &status, 0, &use) != child) return 1;
    FILE *out = fopen(words[1], "w");
    if (!out) return 1;
    fprintf(out, "%f %ld\n", use.ru_utime.tv_sec + use.ru_stime.tv_sec + (use.ru_utime.tv_usec + use.ru_stime.tv_usec) / 1e6, use.ru_maxrss);
    return fclose(out) != 0;
}
"""


@functools.cache
def launcher():
    room = tempfile.mkdtemp()
    atexit.register(shutil.rmtree, room)
    with open(f"{room}/launcher.c", "w") as file:
        file.write(LAUNCHER)
    subprocess.run(["cc", "-O2", "-o", f"{room}/launcher", f"{room}/launcher.c"], check=True)
    return f"{room}/launcher"


def once(command, file):
    """Processor seconds and peak memory in MB of one run."""
    with tempfile.NamedTemporaryFile("r") as told, open(file) as given:
        subprocess.run([launcher(), told.name, *command], stdin=given, stdout=subprocess.DEVNULL, stderr=subprocess.DEVNULL, check=True)
        seconds, peak = told.read().split()
    return float(seconds), int(peak) / 1024


def built(top, room):
    """The plain Rust program, none where it can't be built here."""
    if "PEER" in os.environ:
        return os.path.realpath(os.environ["PEER"])
    flags = ["--edition", "2021", "-C", "opt-level=3", "-C", "codegen-units=1", "-C", "lto=fat", "-C", "panic=abort"]
    try:
        ran = subprocess.run(["rustc", *flags, "-o", f"{room}/peer", f"{top}/bench/peer/main.rs"], stderr=subprocess.DEVNULL)
    except OSError:
        return None
    return f"{room}/peer" if ran.returncode == 0 else None


def written(command, file):
    with open(file) as given:
        return subprocess.run(command, stdin=given, stdout=subprocess.PIPE).stdout


def named(shape, nodes, rounds):
    names = {
        "pair": f"`replay` of {rounds} transactions of two nodes",
        "kept": f"`replay` of {rounds} transactions that each leave a kept one",
        "passstuck": f"`replay` of {rounds} frames passed beside one that waits",
        "trial": f"`trial` of {nodes} nodes and {rounds} rounds",
    }
    return names.get(shape, f"`replay` of {rounds} rounds of a {shape} of {nodes} nodes")


def measure(program, peer, shape, nodes, rounds):
    """The rows of one schedule."""
    is_trial = shape == "trial"
    ours = [program, *(["trial", "--nodes", str(nodes), "--rounds", str(rounds)] if is_trial else ["replay"])]
    theirs = [peer, *(["trial", "1", str(nodes), str(rounds)] if is_trial else ["replay"])] if peer else None
    with tempfile.NamedTemporaryFile("w", suffix=".schedule") as file:
        file.write("" if is_trial else schedule(shape, nodes, rounds))
        file.flush()
        commands = [it for it in (ours, theirs) if it]
        if theirs and written(ours, file.name) != written(theirs, file.name):
            sys.exit(f"{shape} {nodes} {rounds}: the two programs write different bytes")
        counts = [instructions(it, file.name) for it in commands]
        # (in turns, since other work on the machine disturbs both)
        runs = [[once(it, file.name) for it in commands] for _ in range(5)]
    figures = [[count and count / 1e6, min(run[i][0] for run in runs) * 1e3, min(run[i][1] for run in runs)] for i, count in enumerate(counts)]
    for unit, (mine, *other) in zip(("millions of instructions", "processor ms", "MB"), zip(*figures)):
        yield named(shape, nodes, rounds), unit, mine, *((other[0], "plain Rust") if other else (None, None))


def main(words):
    if words[:1] == ["--write"] and len(words) == 4:
        sys.stdout.write(schedule(words[1], int(words[2]), int(words[3])))
        return
    top = os.path.dirname(os.path.dirname(os.path.abspath(__file__)))
    program = os.environ.get("TPNODE", f"{top}/crates/tpnode/out/tpnode")
    if not os.path.isfile(program):
        sys.exit(f"{program} is not built: `rt run` in crates/tpnode, or name a binary in TPNODE")
    program = os.path.realpath(program)
    asked = [(words[0], int(words[1]), int(words[2]))] if len(words) == 3 else TABLE
    with tempfile.TemporaryDirectory() as room:
        peer = built(top, room)
        table.show(row for it in asked for row in measure(program, peer, *it))


if __name__ == "__main__":
    main(sys.argv[1:])
