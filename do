#!/usr/bin/env python3
"""What is done every day, each in one word.

./do quick              lays out, checks what changed and the crates that use its contracts, docs/check and the examples, in five minutes
./do above CRATE        the crates above CRATE, lowest first
./do replay SCHEDULE    plays a schedule; ./do draw TRANSCRIPT draws one
./do bench [..]         bench/run; ./do trials NAME [..] is trials/run
./do gate               rt ci, with the processor seconds of each crate, and a fault above the budget
"""
import collections
import os
import pathlib
import re
import resource
import signal
import subprocess
import sys
import threading
import time

TOP = pathlib.Path(__file__).resolve().parent
MINUTES = 5
BUDGET = 11_000
TICKS = os.sysconf("SC_CLK_TCK")
# Lines that callers read: a change of one has the crates above checked too.
CONTRACT = re.compile(r"\b(pub|ensures|requires|ghost|struct|enum|trait|impl)\b")


def crates() -> dict[str, list[str]]:
    """Each crate, lowest first, and those below it that it uses."""
    lines = [it for it in (TOP / "crates.txt").read_text().splitlines() if it and not it.startswith("#")]
    named = {it.split(":")[0].split()[0]: it.split(":")[1].split() for it in lines}
    lowest: dict[str, list[str]] = {}

    def put(name: str) -> None:
        if name in named and name not in lowest:
            for below in named[name]:
                put(below)
            lowest[name] = [it for it in named[name] if it in named]

    for name in named:
        put(name)
    return lowest


def above(crate: str) -> list[str]:
    """The crates above one, lowest first."""
    found = {crate}
    for name, below in crates().items():
        if found & set(below):
            found.add(name)
    return [it for it in crates() if it in found - {crate}]


def git(*words: str) -> str:
    return subprocess.run(["git", *words], cwd=TOP, stdout=subprocess.PIPE, text=True, check=True).stdout


def changed() -> tuple[set[str], set[str]]:
    """The crates that differ from the main branch, and those of them whose contracts or definitions do."""
    base = git("merge-base", "HEAD", "origin/main").strip() if "origin/main" in git("branch", "-a") else "HEAD"
    all_of_them, contracts = set(), set()
    crate, is_spec = "", False
    new = [f"+++ b/{it}" for it in git("ls-files", "-o", "--exclude-standard", "crates").split()]
    for line in git("diff", "--unified=0", base, "--", "crates").splitlines() + new:
        file = re.match(r"\+\+\+ (?:b/)?crates/(\w+)/(\w+)/", line)
        if file:
            crate, is_spec = file[1], file[2] == "specs"
            all_of_them.add(crate)
        if crate and line[:1] in "+-" and (is_spec or (not line.startswith(("+++", "---")) and CONTRACT.search(line))):
            contracts.add(crate)
    return all_of_them, contracts


def checked(folder: pathlib.Path, seconds: float) -> tuple[str, str]:
    """What became of the check of a crate in that time, and what it said."""
    with subprocess.Popen(["rt", "check"], cwd=folder, stdout=subprocess.PIPE, stderr=subprocess.STDOUT, text=True, start_new_session=True) as ran:
        try:
            said = ran.communicate(timeout=seconds)[0]
        except (subprocess.TimeoutExpired, KeyboardInterrupt) as stop:
            os.killpg(ran.pid, signal.SIGTERM)
            ran.communicate()
            if isinstance(stop, KeyboardInterrupt):
                raise
            return "was not checked to its end: five minutes are over", ""
    return ("is proved", "") if ran.returncode == 0 else ("is NOT proved", said[-4000:])


def quick() -> int:
    until = time.monotonic() + 60 * MINUTES
    touched, contracts = changed()
    wanted = touched | {it for name in contracts for it in crates() if name in crates()[it]}
    failed: list[str] = []
    for crate in [it for it in crates() if it in wanted]:
        folder = TOP / "crates" / crate
        if crate in touched:
            subprocess.run(["rt", "fmt"], cwd=folder, check=False)
        outcome, said = checked(folder, max(until - time.monotonic(), 1))
        print(f"do: {crate} {outcome}", flush=True)
        if outcome != "is proved":
            failed.append(crate)
            print(said, end="")
    if subprocess.run([TOP / "docs" / "check"]).returncode:
        failed.append("docs/check")
    failed += examples()
    print("do: nothing found" if not failed else f"do: {', '.join(failed)}")
    return 1 if failed else 0


def examples() -> list[str]:
    """The examples whose transcript is not the one beside them."""
    failed = []
    for schedule in sorted((TOP / "examples").glob("*.schedule")):
        ran = subprocess.run([TOP / "replay", schedule], stdout=subprocess.PIPE, stderr=subprocess.PIPE)
        if ran.stdout != schedule.with_suffix(".transcript").read_bytes():
            failed.append(schedule.name)
    return failed


def state_of(process: str) -> tuple[str, float]:
    """The parent of a process, and the processor seconds of it and of those below it that have ended."""
    with open(f"/proc/{process}/stat", encoding="ascii", errors="replace") as it:
        words = it.read().rpartition(")")[2].split()
    return words[1], sum(int(word) for word in words[11:15]) / TICKS


def is_below(process: str, top: str) -> bool:
    while process not in ("0", "1", top):
        process = state_of(process)[0]
    return process == top


def watch(top: str, over: threading.Event, spent: dict[tuple[str, str], float]) -> None:
    """Notes what each run of the checker below that process has used, by its number and its crate, until the gate is over."""
    while not over.wait(0.5):
        for process in filter(str.isdigit, os.listdir("/proc")):
            try:
                words = pathlib.Path(f"/proc/{process}/cmdline").read_bytes().split(b"\0")
                if words[0].endswith(b"/rattle") and b"--crate-name" in words and is_below(process, top):
                    crate = words[words.index(b"--crate-name") + 1].decode()
                    spent[process, crate] = max(spent[process, crate], state_of(process)[1])
            except (OSError, ValueError, IndexError):
                pass


def not_proved_here(said: list[str]) -> set[str]:
    """The crates that this run of the gate took from an earlier one, or from another on this machine, by what it says."""
    found = (re.match(r"rt: (\w+)(?: is kept: |: another run on this machine is proving the same)", line) for line in said)
    return {it[1] for it in found if it}


def gate() -> int:
    before = resource.getrusage(resource.RUSAGE_CHILDREN)
    over, spent = threading.Event(), collections.defaultdict[tuple[str, str], float](float)
    said = []
    with subprocess.Popen(["rt", "ci"], cwd=TOP, stdout=subprocess.PIPE, stderr=subprocess.STDOUT, text=True, errors="replace") as ran:
        watcher = threading.Thread(target=watch, args=(str(ran.pid), over, spent))
        watcher.start()
        for line in ran.stdout or []:
            print(line, end="", flush=True)
            said.append(line)
    over.set()
    watcher.join()
    after = resource.getrusage(resource.RUSAGE_CHILDREN)
    total = round(after.ru_utime + after.ru_stime - before.ru_utime - before.ru_stime)
    return ran.returncode or int(told(said, spent, total))


def told(said: list[str], spent: dict[tuple[str, str], float], total: int) -> bool:
    """Prints what each crate cost, and whether that is above the budget, which is that of a run from nothing."""
    by_crate: collections.Counter[str] = collections.Counter()
    for (_, crate), seconds in spent.items():
        by_crate[crate] += round(seconds)
    taken = not_proved_here(said)
    for crate in [*by_crate, *sorted(taken - by_crate.keys())]:
        print(f"{crate:22}{by_crate[crate]:7}{'  kept, or proved by another run' if crate in taken else ''}")
    print(f"{'the rest':22}{max(total - by_crate.total(), 0):7}")
    print(f"{'all':22}{total:7} processor seconds of {BUDGET}{f'; {len(taken)} crates were not proved here' if taken else ''}")
    return total > BUDGET


def main(words: list[str]) -> int:
    tools = {"replay": TOP / "replay", "draw": TOP / "draw", "bench": TOP / "bench" / "run", "trials": TOP / "trials" / "run"}
    if words == ["quick"]:
        return quick()
    if words == ["gate"]:
        return gate()
    if len(words) == 2 and words[0] == "above" and words[1] in crates():
        print("\n".join(above(words[1])))
        return 0
    if words and words[0] in tools:
        return subprocess.run([tools[words[0]], *words[1:]]).returncode
    print(__doc__, end="", file=sys.stderr)
    return 2


if __name__ == "__main__":
    sys.exit(main(sys.argv[1:]))
