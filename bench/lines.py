#!/usr/bin/env python3
"""How fast a schedule is cut into lines and read, beside `wc -l` of the same bytes.

Usage: bench/lines.py [ROUNDS]

A program over `tp_schedule` reads a mebibyte of schedule from standard input (the lines of the worked examples, one
after the other) with `Lines`, and reads each line with `read_line`; `wc -l` counts the lines of the same file. Both are
started anew in each of the rounds (default 40), which take turns; what is printed is the median of each in bytes a
second, with the start of the process in it, and beside them the time of a program that reads nothing. The counts of lines
are compared. It wants `rt`; where `rt check` was not run in the crates before, the first run takes minutes. It is no part
of the gate.
"""
import pathlib
import shutil
import statistics
import subprocess
import sys
import tempfile
import time

sys.path.insert(0, str(pathlib.Path(__file__).resolve().parent))
import table

ROOT = pathlib.Path(__file__).resolve().parent.parent
MOST = 1048576

MAIN = """//! Reads a schedule from standard input, line by line, and prints how many lines it has.
#![tactic(auto)]

use std::alloc::Global;
use std::io;
use std::process::ExitCode;
use tp_outside::{Source, StdSource};
use tp_schedule::{Lines, read_line};

enum Step {
    Read,
    End,
    Fault,
}

fn read_next<S: Source>(alloc: Global, lines: &mut Lines, source: &mut S) -> Step {
    match lines.next(source) {
        Ok(Some(text)) => match read_line(alloc, text) {
            Ok(_) => Step::Read,
            Err(_) => Step::Fault,
        },
        Ok(None) => Step::End,
        Err(_) => Step::Fault,
    }
}

fn count<S: Source>(alloc: Global, source: &mut S) -> Option<u64> {
    let mut lines = Lines::new();
    for n in 0..1048577 {
        match read_next(alloc, &mut lines, source) {
            Step::Read => {}
            Step::End => return Some(n),
            Step::Fault => return None,
        }
    }
    None
}

fn main(rt: HostRuntime) -> io::Result<ExitCode> {
    let mut source = StdSource::new(&rt);
    let Some(n) = count(rt.alloc(), &mut source) else {
        return Ok(ExitCode::from(1));
    };
    println!(rt; "{n}")?;
    Ok(ExitCode::SUCCESS)
}
"""


def crates_below(name):
    """The crates that this one stands on, and itself."""
    below = {}
    for line in (ROOT / "crates.txt").read_text().splitlines():
        if line and not line.startswith("#"):
            first, _, rest = line.partition(":")
            below[first.split()[0]] = rest.split()
    found = []

    def take(crate):
        if crate in below and crate not in found:
            for other in below[crate]:
                take(other)
            found.append(crate)

    take(name)
    return found


def build(folder):
    """Builds the program, and answers its path."""
    crate = folder / "crates" / "lines_rate"
    (crate / "src").mkdir(parents=True)
    (crate / "src" / "main.rt").write_text(MAIN)
    names = crates_below("tp_schedule")
    for name in names:
        shutil.copytree(ROOT / "crates" / name, folder / "crates" / name, symlinks=True)
    lines = [line for line in (ROOT / "crates.txt").read_text().splitlines() if line.split(":")[0].split(" ")[0] in names]
    lines.append("lines_rate: tp_outside tp_schedule")
    (folder / "crates.txt").write_text("\n".join(lines) + "\n")
    # The program is built by its first run, of an empty schedule.
    subprocess.run(["rt", "run"], cwd=crate, check=True, stdin=subprocess.DEVNULL, stdout=sys.stderr)
    return crate / "out" / "lines_rate"


def schedule():
    """Lines of the worked examples, up to a mebibyte."""
    lines = []
    for path in sorted((ROOT / "examples").glob("*.schedule")):
        lines += [line for line in path.read_text().splitlines() if line and line != "fly"]
    text, size, k = [], 0, 0
    while size + len(lines[k % len(lines)]) + 1 <= MOST:
        text.append(lines[k % len(lines)])
        size += len(text[-1]) + 1
        k += 1
    return "\n".join(text) + "\n"


def run(words, path):
    """The seconds that it took, and what it printed first."""
    with open(path, "rb") as file:
        start = time.monotonic()
        done = subprocess.run(words, stdin=file, check=True, capture_output=True)
        return time.monotonic() - start, (done.stdout.split() or [b""])[0]


def rows(rounds=40):
    rounds = int(rounds)
    with tempfile.TemporaryDirectory() as temporary:
        folder = pathlib.Path(temporary)
        program = build(folder)
        path = folder / "schedule"
        path.write_text(schedule())
        size = path.stat().st_size
        times = {"Lines and read_line": [], "wc -l": [], "nothing": []}
        for _ in range(rounds):
            took, lines = run([program], path)
            times["Lines and read_line"].append(took)
            took, counted = run(["wc", "-l"], path)
            times["wc -l"].append(took)
            times["nothing"].append(run(["true"], path)[0])
            if lines != counted:
                sys.exit(f"{lines} lines, and wc counts {counted}")
    ours, theirs = (statistics.median(times[name]) * 1000 for name in ("Lines and read_line", "wc -l"))
    yield f"a schedule of {size:,} bytes cut into {int(counted):,} lines and read", "ms, a process each", ours, theirs, "`wc -l`"


if __name__ == "__main__":
    table.show(rows(*sys.argv[1:]))
