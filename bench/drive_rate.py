#!/usr/bin/env python3
"""Events done per second by `tpdrive` with 1, 2 and 4 workers, beside `tpnode node` on the same frames; and how many records a C
loop forces in a second to such a file, 1, 4 and 16 of them with one pair of syncs.

Usage: bench/drive_rate.py [FOLDER [NODES [TRANSACTIONS [ROUNDS]]]]

FOLDER is where the logs are written (default: the current folder), NODES how many nodes site b has (default 16), TRANSACTIONS how
many each of them takes part in (default 20), each of which forces three records, and ROUNDS how many rounds there are
(default 5). The programs take turns, since other work on the machine disturbs all of them. What is printed is the median of
each. The outputs of all runs are compared. No proof and no test depends on it.

The programs are crates/tpnode/out/tpnode and crates/tpdrive/out/tpdrive: `rt run` in those crates builds them. TPNODE and TPDRIVE
in the environment name others.
"""
import os
import pathlib
import statistics
import subprocess
import sys
import tempfile
import time

sys.path.insert(0, os.path.dirname(os.path.abspath(__file__)))
import table

ROOT = pathlib.Path(__file__).resolve().parent.parent
NODE = os.environ.get("TPNODE", str(ROOT / "crates" / "tpnode" / "out" / "tpnode"))
DRIVE = os.environ.get("TPDRIVE", str(ROOT / "crates" / "tpdrive" / "out" / "tpdrive"))

# A fresh log of version 2.
FRESH = b"OTPL\x01\x01\x00\x02\x07\x02\x00"

LOOP = r"""
#include <fcntl.h>
#include <stdint.h>
#include <stdlib.h>
#include <unistd.h>

/* Forces so many records of 50 bytes in a file, so many of them with each pair of syncs: the bodies, and then the gate before them. */
int main(int count, char **words) {
    static uint8_t body[64 * 54];
    if (count != 4) return 1;
    int file = open(words[1], O_RDWR | O_CREAT | O_TRUNC, 0600);
    long records = atol(words[2]), group = atol(words[3]), at = 0;
    for (long done = 0; done < records; done += group) {
        if (pwrite(file, body, 54 * group, at + 1) != 54 * group || fdatasync(file)) return 1;
        if (pwrite(file, "\1", 1, at) != 1 || fdatasync(file)) return 1;
        at += 54 * group;
    }
    return 0;
}
"""


def short(n):
    return n.to_bytes(2, "big")


def frame(body):
    return short(len(body)) + body


def addr(site, node):
    return bytes([len(site)]) + site + short(node)


def mark(boot, node, count):
    return boot.to_bytes(8, "big") + short(node) + count.to_bytes(8, "big")


def frames(node, transactions):
    """What that node of site b is given, whose superior is node 1 of site a."""
    ours, theirs, pair = addr(b"b", node), addr(b"a", 1), mark(1, 1, 1) + mark(1, node, 1)

    def arrive(record):
        return frame(b"\x03" + theirs + ours + short(len(record)) + record)

    def ask(request):
        return frame(b"\x02" + short(node) + request)

    out = [frame(b"\x01" + short(node) + b"\x01" + theirs), arrive(b"\x01" + mark(1, 1, 1) + b"\x2a"), ask(b"\x02\x2a")]
    count = 0

    def say(record):
        nonlocal count
        out.append(arrive(b"\x04" + pair + count.to_bytes(8, "big") + record))
        count += 1

    for k in range(transactions):
        say(b"\x0c\x01a" + mark(1, 1, 2 * k + 2) + b"\x01a" + mark(1, 1, 2 * k + 3) + b"\x01")
        say(b"\x0d")
        out.append(ask(b"\x11"))
        say(b"\x0f")
        out.append(ask(b"\x12"))
    return out


def seconds(words, given, where):
    start = time.monotonic()
    ended = subprocess.run(words, input=given, stdout=subprocess.PIPE, cwd=where, check=True)
    return time.monotonic() - start, ended.stdout


def rows(folder=".", nodes=16, transactions=20, rounds=5, on="a real file"):
    folder, nodes, transactions, rounds = pathlib.Path(folder).resolve(), int(nodes), int(transactions), int(rounds)
    lists = [frames(2 + n, transactions) for n in range(nodes)]
    given = b"".join(b"".join(turn) for turn in zip(*lists))
    events, records = sum(map(len, lists)), 3 * nodes * transactions
    runs = {"node": [NODE, "node", "--name", "b"]}
    for workers in (1, 2, 4):
        runs[f"drive, {workers} workers"] = [DRIVE, "--name", "b", "--workers", str(workers)]
    with tempfile.TemporaryDirectory() as temporary, tempfile.TemporaryDirectory(dir=folder) as where:
        loop = pathlib.Path(temporary) / "loop"
        source = pathlib.Path(temporary) / "loop.c"
        source.write_text(LOOP)
        subprocess.run(["cc", "-O2", "-o", loop, source], check=True)
        for group in (1, 4, 16):
            runs[f"C loop, {group} a sync"] = [loop, "copy.log", str(records), str(group)]
        times, log = {name: [] for name in runs}, pathlib.Path(where) / "tp.log"
        for _ in range(rounds):
            outputs = set()
            for name, words in runs.items():
                log.write_bytes(FRESH)
                took, written = seconds(words, given, where)
                times[name].append(took)
                if not name.startswith("C"):
                    outputs.add(written)
            if len(outputs) != 1:
                sys.exit("the outputs differ")
    took = {name: statistics.median(times[name]) for name in runs}
    for workers in (1, 2, 4):
        many = "s" if workers > 1 else ""
        yield f"`tpdrive` with {workers} worker{many} on {on}", "events a second", events / took[f"drive, {workers} workers"], events / took["node"], "`tpnode node`"
    for group in (4, 16) if on == "a real file" else ():
        yield f"a C loop, {group} records with a pair of syncs", "records a second", records / took[f"C loop, {group} a sync"], records / took["C loop, 1 a sync"], "one record"


if __name__ == "__main__":
    table.show(rows(*sys.argv[1:]))
