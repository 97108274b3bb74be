#!/usr/bin/env python3
"""Records forced per second on a real file, beside a C loop of the same two writes and two fdatasync.

Usage: bench/force_rate.py [FOLDER [RECORDS [ROUNDS]]]

FOLDER is where the two logs are written (default: the current folder), RECORDS how many records a round forces
(default 200), ROUNDS how many rounds there are (default 20). The rounds of the two take turns, since other work on the
machine disturbs both. What is printed is the median of each, and the ratio of the two. No proof and no test depends on it.

The program that forces the records is written, proved and built in a temporary folder over this repository's crates.
Where they have not been built, the first run takes minutes.
"""
import os
import pathlib
import shutil
import statistics
import subprocess
import sys
import tempfile
import time

sys.path.insert(0, os.path.dirname(os.path.abspath(__file__)))
import table

ROOT = pathlib.Path(__file__).resolve().parent.parent
CRATES = ["tp_names", "tp_outside", "tp_logrec", "tp_journal"]

MAIN = """//! Forces records to a log in the current folder.
#![tactic(auto)]

use std::alloc::Global;
use std::process::ExitCode;
use tp_journal::{Journal, Receipt, ForceFault, format};
use tp_logrec::LogRec;
use tp_outside::{Disk, FileDisk};

fn force_boot<D: Disk>(alloc: Global, journal: &mut Journal<D>, boot: u64) -> Result<Receipt, ForceFault> {
    journal.force(alloc, &LogRec::Boot { boot })
}

fn force_all<D: Disk>(alloc: Global, journal: &mut Journal<D>) -> bool {
    for boot in 1..=RECORDS {
        if force_boot(alloc, journal, boot).is_err() {
            return false;
        }
    }
    true
}

fn main(rt: HostRuntime) -> ExitCode {
    let alloc = rt.alloc();
    let mut disk = FileDisk::new(&rt, "force_rate.journal");
    if format(&mut disk).is_err() {
        return ExitCode::from(1);
    }
    let Ok(mut journal) = Journal::start(alloc, disk) else {
        return ExitCode::from(2);
    };
    if force_all(alloc, &mut journal) {
        ExitCode::SUCCESS
    } else {
        ExitCode::from(3)
    }
}
"""

ANSWERS = """use Rattle.std.proofs.Common.{◌<◌, ◌^◌, rules}
use Rattle.tp_journal.proofs.Boots.{boot_has_text}
use Rattle.force_rate.proofs.force_boot.Goals as goal

pub force-requires : goal.force-requires
force-requires g c =
    let small : c.args.boot < 2 ^ 64 = search rules in
    boot_has_text c.args.journal.now.wide c.args.boot small
"""

LOOP = r"""
#include <fcntl.h>
#include <stdint.h>
#include <string.h>
#include <unistd.h>

int main(void) {
    int file = open("force_rate.loop", O_RDWR | O_CREAT | O_TRUNC, 0666);
    const uint8_t empty[11] = {'O', 'T', 'P', 'L', 1, 1, 0, 2, 7, 2, 0};
    if (file < 0 || pwrite(file, empty, 11, 0) != 11 || fdatasync(file) != 0) return 1;
    off_t gate = 10;
    for (uint64_t boot = 1; boot <= RECORDS; boot++) {
        uint8_t piece[12] = {0, 9, 1};
        for (int i = 0; i < 8; i++) piece[3 + i] = boot >> (56 - 8 * i);
        const uint8_t open_gate = 1;
        if (pwrite(file, piece, 12, gate + 1) != 12 || fdatasync(file) != 0) return 1;
        if (pwrite(file, &open_gate, 1, gate) != 1 || fdatasync(file) != 0) return 1;
        gate += 12;
    }
    return close(file) != 0;
}
"""


def build(folder, records):
    """Builds both programs, and answers their paths."""
    crate = folder / "crates" / "force_rate"
    (crate / "src").mkdir(parents=True)
    (crate / "proofs" / "force_boot").mkdir(parents=True)
    (crate / "src" / "main.rt").write_text(MAIN.replace("RECORDS", str(records)))
    (crate / "proofs" / "force_boot" / "Answers.antt").write_text(ANSWERS)
    for name in CRATES:
        shutil.copytree(ROOT / "crates" / name, folder / "crates" / name, symlinks=True)
    lines = [line for line in (ROOT / "crates.txt").read_text().splitlines() if line.split(":")[0] in CRATES]
    lines.append("force_rate: " + " ".join(CRATES))
    (folder / "crates.txt").write_text("\n".join(lines) + "\n")
    # The program is built by its first run.
    subprocess.run(["rt", "run"], cwd=crate, check=True, stdout=sys.stderr)
    (folder / "loop.c").write_text(LOOP.replace("RECORDS", str(records)))
    subprocess.run(["cc", "-O2", "-o", folder / "loop", folder / "loop.c"], check=True)
    return crate / "out" / "force_rate", folder / "loop"


def seconds(program, where):
    start = time.monotonic()
    subprocess.run([program], cwd=where, check=True)
    return time.monotonic() - start


def rows(folder=".", records=200, rounds=20):
    where, records, rounds = pathlib.Path(folder).resolve(), int(records), int(rounds)
    with tempfile.TemporaryDirectory() as temporary:
        journal, loop = build(pathlib.Path(temporary), records)
        times = {"journal": [], "loop": []}
        for _ in range(rounds):
            times["journal"].append(seconds(journal, where))
            times["loop"].append(seconds(loop, where))
        wanted = (where / "force_rate.loop").read_bytes()
        if (where / "force_rate.journal").read_bytes() != wanted:
            sys.exit("the two files differ")
        os.remove(where / "force_rate.journal")
        os.remove(where / "force_rate.loop")
    journal_rate, loop_rate = (records / statistics.median(times[name]) for name in ("journal", "loop"))
    yield "a journal alone on a real file", "records forced in a second", journal_rate, loop_rate, "C with the same writes and syncs"


if __name__ == "__main__":
    table.show(rows(*sys.argv[1:]))
