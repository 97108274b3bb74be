#!/usr/bin/env python3
"""How long a bound store takes to open, and to find its keys, beside the map that it keeps them in.

Builds a static library of `tp_bound` and a C program over it in a temporary folder, and runs it on logs that are made here:
transactions of 3,500 writes, each a Bind and its Keep, with as many keys as asked. For each it prints the seconds of a
processor in which the log is opened, and in which each key is asked for once, in an order that is no order of the keys: of
the store, and of the library's map with the same keys and values.

The disk is one in memory, so the time is that of reading and of the map, and none of a file. What is found is counted, and
the program fails where a key is missing.

Run it as `bench/store.py [KEYS ..]` from anywhere; it wants `rt` and `clang`. Only a proved library is built: where `rt check`
was not run in the crates before, that takes minutes. It is no part of the gate.
"""
import os
import random
import re
import shutil
import struct
import subprocess
import sys
import tempfile

sys.path.insert(0, os.path.dirname(os.path.abspath(__file__)))
import table

TOP = os.path.dirname(os.path.dirname(os.path.abspath(__file__)))
BELOW = ["tp_names", "tp_outside", "tp_units", "tp_records", "tp_logrec", "tp_journal", "tp_bound"]

LIBRARY = """//! A bound store, for a program in C.
#![tactic(auto)]

use std::alloc::{AllocError, Global};
use std::collections::BTreeMap;
use tp_bound::Bound;
use tp_names::Octets;
use tp_outside::MemDisk;

fn opened(alloc: Global, bytes: &[u8]) -> Option<Bound<MemDisk>> {
    let disk = MemDisk::from(alloc, Octets::from_slice(alloc, bytes).ok()?);
    match Bound::open(alloc, disk, 2) {
        Ok(bound) => Some(bound),
        Err(_) => None,
    }
}

fn found_in_store(alloc: Global, bytes: &[u8], keys: &[u8], rounds: u64) -> Option<u64> {
    let bound = opened(alloc, bytes)?;
    let mut found = 0u64;
    for _ in 0..rounds {
        for key in keys.chunks(10) {
            if bound.get(key).is_some() {
                found = found.saturating_add(1);
            }
        }
    }
    Some(found.saturating_add(bound.len() as u64))
}

fn copied(alloc: Global, bound: &Bound<MemDisk>) -> Result<BTreeMap<Vec<u8>, Vec<u8>>, AllocError> {
    let mut map = BTreeMap::new(alloc);
    for (key, value) in bound.entries() {
        let _old = map.insert(key.clone()?, value.clone()?)?;
    }
    Ok(map)
}

fn found_in_map(alloc: Global, bytes: &[u8], keys: &[u8], rounds: u64) -> Option<u64> {
    let bound = opened(alloc, bytes)?;
    let map = copied(alloc, &bound).ok()?;
    let mut found = 0u64;
    for _ in 0..rounds {
        for key in keys.chunks(10) {
            if map.get(key).is_some() {
                found = found.saturating_add(1);
            }
        }
    }
    Some(found.saturating_add(map.len() as u64))
}

/// How many keys the store of these bytes has, and how often one of these, ten bytes each, is found in so many rounds.
#[unsafe(no_mangle)]
pub extern "C" fn bench_store(alloc: Global, bytes: &[u8], keys: &[u8], rounds: u64) -> u64 {
    found_in_store(alloc, bytes, keys, rounds).unwrap_or(0)
}

/// The same of a map with the keys and values of that store.
#[unsafe(no_mangle)]
pub extern "C" fn bench_map(alloc: Global, bytes: &[u8], keys: &[u8], rounds: u64) -> u64 {
    found_in_map(alloc, bytes, keys, rounds).unwrap_or(0)
}
"""

PROGRAM = r"""
#include <stdint.h>
#include <stdio.h>
#include <stdlib.h>
#include <time.h>

uint64_t bench_store(const uint8_t *bytes, size_t len, const uint8_t *keys, size_t all, uint64_t rounds);
uint64_t bench_map(const uint8_t *bytes, size_t len, const uint8_t *keys, size_t all, uint64_t rounds);

static double now(void) {
    struct timespec t;
    clock_gettime(CLOCK_PROCESS_CPUTIME_ID, &t);
    return t.tv_sec + t.tv_nsec / 1e9;
}

static uint8_t *read_all(const char *path, size_t *len) {
    FILE *file = fopen(path, "rb");
    if (!file) exit(2);
    fseek(file, 0, SEEK_END);
    *len = ftell(file);
    rewind(file);
    uint8_t *bytes = malloc(*len);
    if (fread(bytes, 1, *len, file) != *len) exit(2);
    fclose(file);
    return bytes;
}

static double taken(uint64_t (*run)(const uint8_t *, size_t, const uint8_t *, size_t, uint64_t),
                    const uint8_t *log, size_t len, const uint8_t *keys, size_t all, uint64_t rounds) {
    double a = now();
    uint64_t found = run(log, len, keys, all, rounds);
    double b = now();
    if (found != all / 10 * (rounds + 1)) {
        printf("%llu found in %llu rounds of %zu keys\n", (unsigned long long)found, (unsigned long long)rounds, all / 10);
        exit(1);
    }
    return b - a;
}

int main(int argc, char **argv) {
    size_t len, all;
    uint8_t *log = read_all(argv[1], &len);
    uint8_t *keys = read_all(argv[2], &all);
    double open = taken(bench_store, log, len, keys, all, 0);
    double store = (taken(bench_store, log, len, keys, all, 3) - taken(bench_store, log, len, keys, all, 0)) / 3;
    double map = (taken(bench_map, log, len, keys, all, 3) - taken(bench_map, log, len, keys, all, 0)) / 3;
    printf("%.3f %.3f %.3f\n", open, store, map);
    return 0;
}
"""


def block(body):
    return b"\x01" + struct.pack(">H", len(body)) + body


def log_of(keys):
    out = [b"OTPL\x01"]
    for at in range(0, len(keys), 3500):
        part = keys[at : at + 3500]
        tree = b"\x01a" + struct.pack(">QHQ", 1, 1, at + 1)
        writes = b"".join(b"\x01\x0a" + key + b"\x00\x02" + key[-2:] for key in part)
        out += [block(b"\x01" + tree + struct.pack(">H", len(part)) + writes), block(b"\x02" + tree)]
    return b"".join(out) + b"\x00"


def write(path, text):
    os.makedirs(os.path.dirname(path), exist_ok=True)
    with open(path, "wb") as file:
        file.write(text if isinstance(text, bytes) else text.encode())


def heap():
    """The C file of the kit by which a static library takes memory."""
    kit = os.path.dirname(subprocess.run(["rt", "doc"], check=True, capture_output=True, text=True).stdout.strip())
    return f"{kit}/c/liblibc_c.a"


def rows(*counts):
    counts = [int(word) for word in counts] or [250_000, 500_000, 1_000_000]
    with open(f"{TOP}/crates.txt") as file:
        lines = [line for line in file if re.match(rf"({'|'.join(BELOW)}):", line)]
    with tempfile.TemporaryDirectory() as folder:
        for name in BELOW:
            shutil.copytree(f"{TOP}/crates/{name}", f"{folder}/crates/{name}")
        write(f"{folder}/crates.txt", "".join(lines) + "store_c staticlib: tp_names tp_outside tp_bound\n")
        write(f"{folder}/crates/store_c/src/lib.rt", LIBRARY)
        made = subprocess.run(["rt", "lib"], cwd=f"{folder}/crates/store_c", capture_output=True, text=True)
        if made.returncode:
            sys.exit(made.stdout + made.stderr)
        write(f"{folder}/main.c", PROGRAM)
        library = f"{folder}/crates/store_c/out/libstore_c.a"
        subprocess.run(["clang", "-O2", "-o", f"{folder}/main", f"{folder}/main.c", library, heap()], check=True)
        for count in counts:
            keys = [b"key%07d" % i for i in range(count)]
            random.Random(1).shuffle(keys)
            write(f"{folder}/log", log_of(keys))
            random.Random(2).shuffle(keys)
            write(f"{folder}/keys", b"".join(keys))
            ran = subprocess.run([f"{folder}/main", f"{folder}/log", f"{folder}/keys"], check=True, capture_output=True)
            opened, by_store, by_map = map(float, ran.stdout.split())
            yield f"a bound store of {count:,} keys opened", "processor s", opened, None, None
            yield "each of its keys found once", "processor s", by_store, by_map, "the library's map"


if __name__ == "__main__":
    table.show(rows(*sys.argv[1:]))
