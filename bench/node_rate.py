#!/usr/bin/env python3
"""Records forced per second by `tpnode node` on a real file, with 1, 16 and 64 events under way, beside a C loop of as many
pairs of syncs.

Usage: bench/node_rate.py [FOLDER [TRANSACTIONS [ROUNDS]]]

FOLDER is where the logs are written (default: the current folder), TRANSACTIONS how many transactions a round has (default
100), each of which forces three records at one node, and ROUNDS how many rounds there are (default 20). The rounds of the
two take turns, since other work on the machine disturbs both. What is printed is the median of each, and the ratio of the
two. No proof and no test depends on it.

Site b is given the frames of a node that takes part in one transaction after another: it begins, is told to prepare, votes,
is told to commit, and is done. A carrier gives it so many events and goes on as answers come, one new event for each. The loop
forces the very records that the node left, as many with each pair of syncs as the node had in a batch, and the files are compared.
Where the folder is on a device of its own (a file system in a loop device, say) it also counts how often the device was flushed.

The program is crates/tpnode/out/tpnode, which `rt run` in that crate builds, or the one that the variable TPNODE names.
"""
import os
import pathlib
import statistics
import subprocess
import sys
import tempfile
import time

sys.path.insert(0, os.path.dirname(os.path.abspath(__file__)))
import table

ROOT = pathlib.Path(__file__).resolve().parent.parent
PROGRAM = pathlib.Path(os.environ.get("TPNODE", ROOT / "crates" / "tpnode" / "out" / "tpnode"))

# A fresh log of version 2.
FRESH = b"OTPL\x01\x01\x00\x02\x07\x02\x00"

LOOP = r"""
#include <fcntl.h>
#include <stdint.h>
#include <stdio.h>
#include <stdlib.h>
#include <unistd.h>

/* Forces the bodies of the first log after a fresh one in the second, so many with each pair of syncs. */
int main(int count, char **words) {
    static uint8_t log[1 << 26], piece[1 << 24];
    if (count != 4) return 1;
    long most = atol(words[3]);
    FILE *from = fopen(words[1], "rb");
    if (!from) return 1;
    size_t length = fread(log, 1, sizeof log, from);
    int file = open(words[2], O_RDWR | O_CREAT | O_TRUNC, 0666);
    if (file < 0 || pwrite(file, log, 10, 0) != 10 || pwrite(file, "", 1, 10) != 1 || fdatasync(file) != 0) return 1;
    size_t gate = 10;
    while (gate < length && log[gate] == 1) {
        size_t end = gate;
        for (long k = 0; k < most && end < length && log[end] == 1; k++) end += 3 + log[end + 1] * 256 + log[end + 2];
        for (size_t i = gate; i < end; i++) piece[i - gate] = log[i + 1];
        piece[end - gate - 1] = 0;
        const uint8_t open_gate = 1;
        if (pwrite(file, piece, end - gate, gate + 1) != (ssize_t)(end - gate) || fdatasync(file) != 0) return 1;
        if (pwrite(file, &open_gate, 1, gate) != 1 || fdatasync(file) != 0) return 1;
        gate = end;
    }
    return close(file) != 0;
}
"""


def short(n):
    return n.to_bytes(2, "big")


def frame(body):
    return short(len(body)) + body


def addr(site, node):
    return bytes([len(site)]) + site + short(node)


def mark(boot, node, count):
    return boot.to_bytes(8, "big") + short(node) + count.to_bytes(8, "big")


OVER = b"\x13"
OURS, THEIRS = addr(b"b", 2), addr(b"a", 1)
PAIR = mark(1, 1, 1) + mark(1, 2, 1)


def arrive(record):
    return frame(b"\x03" + THEIRS + OURS + short(len(record)) + record)


def ask(request):
    return frame(b"\x02" + short(2) + request)


def frames(transactions):
    """The frames that node 2 of site b is given, whose superior is node 1 of site a."""
    out = [frame(b"\x01" + short(2) + b"\x01" + THEIRS), arrive(b"\x01" + mark(1, 1, 1) + b"\x2a"), ask(b"\x02\x2a")]
    count = 0

    def say(record):
        nonlocal count
        out.append(arrive(b"\x04" + PAIR + count.to_bytes(8, "big") + record))
        count += 1

    for k in range(transactions):
        say(b"\x0c\x01a" + mark(1, 1, 2 * k + 2) + b"\x01a" + mark(1, 1, 2 * k + 3) + b"\x01")
        say(b"\x0d")
        out.append(ask(b"\x11"))
        say(b"\x0f")
        out.append(ask(b"\x12"))
    return out


def overs(held):
    """How many events are answered in what came out, and what is left of it."""
    count = at = 0
    while len(held) - at >= 2 and len(held) - at - 2 >= int.from_bytes(held[at : at + 2], "big"):
        end = at + 2 + int.from_bytes(held[at : at + 2], "big")
        count += held[at + 2 : end] == OVER
        at = end
    return count, held[at:]


def carried(given, most, where):
    """How many seconds a site takes that is given so many events at a time, and how many batches of answers came."""
    start = time.monotonic()
    sent = done = batches = 0
    held = b""
    with subprocess.Popen([PROGRAM, "node", "--name", "b"], stdin=subprocess.PIPE, stdout=subprocess.PIPE, cwd=where) as site:
        assert site.stdin and site.stdout
        while done < len(given):
            more = given[sent : done + most]
            os.write(site.stdin.fileno(), b"".join(more))
            sent += len(more)
            answered, held = overs(held + os.read(site.stdout.fileno(), 1 << 16))
            done += answered
            batches += 1
        site.stdin.close()
    if site.returncode != 0:
        sys.exit("the site ended with %d" % site.returncode)
    return time.monotonic() - start, batches


def seconds(words):
    start = time.monotonic()
    subprocess.run(words, check=True)
    return time.monotonic() - start


def flushes(folder):
    """How often the device of that folder was flushed so far; 0 where the system does not count it."""
    device = os.stat(folder).st_dev
    counts = pathlib.Path("/sys/dev/block/%d:%d/stat" % (os.major(device), os.minor(device)))
    words = counts.read_text().split() if counts.exists() else []
    return int(words[15]) if len(words) > 15 else 0


def rows(folder=".", transactions=100, rounds=20):
    folder, transactions, rounds = pathlib.Path(folder).resolve(), int(transactions), int(rounds)
    given = frames(transactions)
    records = 3 * transactions + 1
    with tempfile.TemporaryDirectory() as temporary, tempfile.TemporaryDirectory(dir=folder) as where:
        loop = pathlib.Path(temporary) / "loop"
        source = pathlib.Path(temporary) / "loop.c"
        source.write_text(LOOP)
        subprocess.run(["cc", "-O2", "-o", loop, source], check=True)
        log, copy = pathlib.Path(where) / "tp.log", pathlib.Path(where) / "copy.log"
        for most in (1, 16, 64):
            by_node, by_loop, flushed, flushed_by_loop = [], [], 0, 0
            for _ in range(rounds):
                log.write_bytes(FRESH)
                os.sync()
                before = flushes(where)
                taken, batches = carried(given, most, where)
                by_node.append(taken)
                flushed += flushes(where) - before
                # A node that is given one event at a time has a record in three of five batches.
                together = 1 if most == 1 else max(1, round(records / batches))
                before = flushes(where)
                by_loop.append(seconds([loop, log, copy, str(together)]))
                flushed_by_loop += flushes(where) - before
                if log.read_bytes() != copy.read_bytes():
                    sys.exit("the two files differ")
            node, beside = (records / statistics.median(times) for times in (by_node, by_loop))
            yield "`node` on a real file", "records forced in a second, events under way: %d" % most, node, beside, "C with as many pairs of syncs"
            if flushed:
                forced = records * rounds
                yield "the same", "flushes of its device for a record", flushed / forced, flushed_by_loop / forced, "the same"


if __name__ == "__main__":
    table.show(rows(*sys.argv[1:]))
