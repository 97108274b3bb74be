#!/usr/bin/env python3
"""How fast records are decoded and encoded, beside `memcpy` of the same bytes.

Builds a static library of `tp_records` and a C program over it in a temporary folder, and runs it. The program goes
through the texts below, one after the other, until it has decoded and encoded again a million bodies (events and
outputs of every kind) and a million peer records. For each sort it prints the records and the bytes in a second, what
`memcpy` copies of the same bytes in a second, text by text and into the same kind of buffer, and the ratio of the two.

What is decoded is dropped after it was encoded, and the buffer is used again: so the time is that of reading, of the
memory that a record with octets takes, and of writing, and none of a file or a connection. It is time of the processor,
so that other programs do not count. What comes out is as long as what went in, or the program says so and fails.

Run it as `bench/records.py [RECORDS]` from anywhere; it wants `rt` and `clang`. Only a proved library is built: where
`rt check` was not run in the crates before, that takes minutes. It is no part of the gate.
"""
import os
import re
import shutil
import subprocess
import sys
import tempfile

sys.path.insert(0, os.path.dirname(os.path.abspath(__file__)))
import table

TOP = os.path.dirname(os.path.dirname(os.path.abspath(__file__)))
BELOW = ["tp_names", "tp_units", "tp_records"]

MARK = "00 00 00 00 00 00 00 01 00 01 00 00 00 00 00 00 00 01"
OPEN = f"01 {MARK} 29"
ACCEPT = f"02 {MARK} {MARK} 29"
NAMES = f"01 61 {MARK} 01 62 {MARK}"
ON = f"04 {MARK} {MARK} 00 00 00 00 00 00 00 07"
SITES = "01 61 00 01 01 62 00 02"

BODIES = [
    "01 00 02 01 01 61 00 01",  # declare node 2 under node 1 of site a
    "02 00 01 01 01 62 00 02 29",  # node 1 begins a dialogue
    f"03 {SITES} 00 14 {OPEN}",  # its offer arrives
    "10 00 02 01 00 01 29",  # node 2 is told
    "02 00 02 02 29",  # and accepts
    f"11 {SITES} 00 26 {ACCEPT}",  # its answer is sent
    "02 00 01 05 00 02 00 05 68 65 6c 6c 6f",  # data of the user
    "10 00 02 05 00 01 00 05 68 65 6c 6c 6f",
    "02 00 01 10 00 02",  # prepare
    "10 00 02 11",
    "02 00 01 11",  # commit
    "10 00 02 13",
    "02 00 02 12",  # done
    "10 00 01 14 00",
    "04 00 02 00 01",  # lose, heuristic commit, give up, retry, purge
    "05 00 02 01",
    "06 00 01 00 02",
    "07 00 02",
    "08 00 02",
    "12 19",  # a refusal, and the end
    "13",
]

PEERS = [
    OPEN,
    ACCEPT,
    f"03 {MARK} 00",
    f"03 {MARK} 01 {MARK}",
    f"{ON} 02 00 05 68 65 6c 6c 6f",
    f"{ON} 0c {NAMES} 00",
    f"{ON} 0d",
    f"{ON} 0e",
    f"{ON} 0f",
    f"{ON} 10 00",
    f"05 {NAMES}",
    f"06 {NAMES}",
    f"07 {NAMES} 02 01",
    f"08 {NAMES}",
]

LIBRARY = """//! The records of a repository, for a program in C.
#![tactic(auto)]

use std::alloc::Global;
use tp_names::Octets;
use tp_records::{decode_body, decode_peer, encode_body, encode_peer};

fn bodies(alloc: Global, bytes: &[u8], records: u64) -> Option<u64> {
    let mut out = Octets::new(alloc);
    let mut written = 0u64;
    let mut at = 0;
    for _ in 0..records {
        if at >= bytes.len() {
            at = 0;
        }
        let (body, len) = decode_body(alloc, &bytes[at..]).ok()?;
        out.truncate(0);
        encode_body(alloc, &body, &mut out).ok()?;
        written = written.saturating_add(out.len() as u64);
        at += len;
    }
    Some(written)
}

fn peers(alloc: Global, bytes: &[u8], records: u64) -> Option<u64> {
    let mut out = Octets::new(alloc);
    let mut written = 0u64;
    let mut at = 0;
    for _ in 0..records {
        if at >= bytes.len() {
            at = 0;
        }
        let (rec, len) = decode_peer(alloc, &bytes[at..]).ok()?;
        out.truncate(0);
        encode_peer(alloc, &rec, &mut out).ok()?;
        written = written.saturating_add(out.len() as u64);
        at += len;
    }
    Some(written)
}

/// The bytes of so many bodies, read of these bytes in a circle and written again; 0 where one is none.
#[unsafe(no_mangle)]
pub extern "C" fn bench_bodies(alloc: Global, bytes: &[u8], records: u64) -> u64 {
    bodies(alloc, bytes, records).unwrap_or(0)
}

/// The same of peer records.
#[unsafe(no_mangle)]
pub extern "C" fn bench_peers(alloc: Global, bytes: &[u8], records: u64) -> u64 {
    peers(alloc, bytes, records).unwrap_or(0)
}
"""

PROGRAM = r"""
#include <stdint.h>
#include <stdio.h>
#include <stdlib.h>
#include <string.h>
#include <time.h>
#include "texts.h"

uint64_t bench_bodies(const uint8_t *bytes, size_t len, uint64_t records);
uint64_t bench_peers(const uint8_t *bytes, size_t len, uint64_t records);

static double now(void) {
    struct timespec t;
    clock_gettime(CLOCK_PROCESS_CPUTIME_ID, &t);
    return t.tv_sec + t.tv_nsec / 1e9;
}

static uint64_t copies(const uint8_t *bytes, const size_t *lens, size_t count, uint64_t records, uint8_t *to) {
    uint64_t written = 0;
    size_t at = 0;
    for (uint64_t i = 0; i < records; i++) {
        size_t len = lens[i % count];
        if (i % count == 0) at = 0;
        memcpy(to, bytes + at, len);
        __asm__ volatile("" : : "r"(to) : "memory");
        at += len;
        written += len;
    }
    return written;
}

static int sort(const char *name, uint64_t (*run)(const uint8_t *, size_t, uint64_t),
                const uint8_t *bytes, size_t all, const size_t *lens, size_t count, uint64_t records) {
    uint8_t *to = malloc(4096);
    double a = now();
    uint64_t coded = run(bytes, all, records);
    double b = now();
    uint64_t copied = copies(bytes, lens, count, records, to);
    double c = now();
    free(to);
    if (coded != copied) {
        printf("%s: %llu bytes came out of %llu\n", name, (unsigned long long)coded, (unsigned long long)copied);
        return 1;
    }
    printf("%.0f %.0f\n", records / (b - a), records / (c - b));
    return 0;
}

int main(int argc, char **argv) {
    uint64_t records = strtoull(argv[1], NULL, 10);
    int wrong = sort("bodies", bench_bodies, BODIES, sizeof BODIES, BODIES_LENS, sizeof BODIES_LENS / sizeof *BODIES_LENS, records);
    return wrong | sort("peer records", bench_peers, PEERS, sizeof PEERS, PEERS_LENS, sizeof PEERS_LENS / sizeof *PEERS_LENS, records);
}
"""


def texts(name, rows):
    texts = [bytes.fromhex(row) for row in rows]
    joined = ", ".join(str(byte) for text in texts for byte in text)
    lens = ", ".join(str(len(text)) for text in texts)
    return f"static const uint8_t {name}[] = {{{joined}}};\nstatic const size_t {name}_LENS[] = {{{lens}}};\n"


def write(path, text):
    os.makedirs(os.path.dirname(path), exist_ok=True)
    with open(path, "w") as file:
        file.write(text)


def heap():
    """The C file of the kit by which a static library takes memory."""
    kit = os.path.dirname(subprocess.run(["rt", "doc"], check=True, capture_output=True, text=True).stdout.strip())
    return f"{kit}/c/liblibc_c.a"


def rows(records="1000000"):
    with open(f"{TOP}/crates.txt") as file:
        lines = [line for line in file if re.match(rf"({'|'.join(BELOW)}):", line)]
    with tempfile.TemporaryDirectory() as folder:
        for name in BELOW:
            shutil.copytree(f"{TOP}/crates/{name}", f"{folder}/crates/{name}")
        write(f"{folder}/crates.txt", "".join(lines) + "records_c staticlib: tp_names tp_records\n")
        write(f"{folder}/crates/records_c/src/lib.rt", LIBRARY)
        made = subprocess.run(["rt", "lib"], cwd=f"{folder}/crates/records_c", capture_output=True, text=True)
        if made.returncode:
            sys.exit(made.stdout + made.stderr)
        write(f"{folder}/texts.h", texts("BODIES", BODIES) + texts("PEERS", PEERS))
        write(f"{folder}/main.c", PROGRAM)
        library = f"{folder}/crates/records_c/out/librecords_c.a"
        subprocess.run(["clang", "-O2", "-o", f"{folder}/main", f"{folder}/main.c", library, heap()], check=True)
        ran = subprocess.run([f"{folder}/main", records], capture_output=True, text=True)
        if ran.returncode:
            sys.exit(ran.stdout)
        for sort, line in zip(("bodies", "peer records"), ran.stdout.splitlines()):
            ours, theirs = map(float, line.split())
            yield f"{sort} decoded and encoded", "a second", ours, theirs, "`memcpy` of their bytes"


if __name__ == "__main__":
    table.show(rows(*sys.argv[1:]))
