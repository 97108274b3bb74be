#!/usr/bin/env python3
"""Processor time and peak memory of each command that begins with a whole log:
bench/starts.py [RECORDS ..] [--kept TRANSACTIONS ..]

By the number of records: `show`, `check`, `compact`, `migrate`, the start of `node`, and `audit`, on a log of one root whose transactions
each have a Commit and an End; and `node` again where a seal is kept. Beside `show` stand a plain Rust program of the same meaning
(bench/peer), and `wc -c`, which reads the file. By the number of kept transactions: the same on a log of one root whose transactions
each have a Commit and a Damage, which all stand; and an audit in which as many nodes are in doubt, below that root.

The program is crates/tpnode/out/tpnode, or the one that TPNODE names; PEER names the plain Rust program. Each figure is the least of
three runs, or of as many as RUNS in the environment says, and of one where a run takes more than ten seconds. A run of more than 300 seconds of
a processor is stopped."""
import argparse
import os
import pathlib
import resource
import struct
import sys
import tempfile
import typing

sys.path.insert(0, os.path.dirname(os.path.abspath(__file__)))
import audit
import replay
import table

MOST_SECONDS = 300
RUNS = int(os.environ.get("RUNS", "3"))
SITE_A, SITE_B = b"\x01a", b"\x01b"
COMMANDS = (["show"], ["check"], ["compact"], ["migrate"], ["node", "--name", "a"])
Row = typing.Tuple[str, str, typing.Optional[float], typing.Optional[float], typing.Optional[str]]
Figures = typing.Optional[typing.Tuple[float, float]]


def mark(node: int, count: int) -> bytes:
    return struct.pack(">QHQ", 1, node, count)


def whole(bodies: typing.Iterable[bytes]) -> bytes:
    bodies = [b"\x07\x02", b"\x01" + struct.pack(">Q", 1), *bodies]
    return b"OTPL\x01" + b"".join(b"\x01" + audit.frame(it) for it in bodies) + b"\x00"


def tree(i: int) -> bytes:
    return SITE_A + mark(1, 2 * i)


def child(i: int) -> bytes:
    return SITE_B + struct.pack(">H", 7) + SITE_A + mark(1, 2 * i + 1)


def ended_log(records: int) -> bytes:
    """Of a root: a Commit and an End for each transaction."""
    each = ((b"\x04\x00\x01" + tree(i) + b"\x00\x00\x01" + child(i), b"\x06\x00\x01" + tree(i) + b"\x00\x01") for i in range(1, records // 2 + 1))
    return whole(it for pair in each for it in pair)


def kept_log(transactions: int) -> bytes:
    """Of a root: a Commit and a Damage for each transaction, of which a branch is still owed."""
    each = ((b"\x04\x00\x01" + tree(i) + b"\x00\x00\x01" + child(i), b"\x05\x00\x01" + tree(i) + b"\x00\x01\x02\x00\x01" + child(i))
            for i in range(1, transactions + 1))
    return whole(it for pair in each for it in pair)


def doubt_log(trees: typing.Iterable[int]) -> bytes:
    """Of a node of its own in each of these trees of that root: a Ready."""
    key = ((tree(i) + b"\x01" + SITE_A + mark(1, 2 * i + 1), struct.pack(">H", i % 65536)) for i in trees)
    return whole(b"\x02" + node + text + SITE_A + b"\x00\x01\x00\x00" for text, node in key)


def frames_of(name: bytes, log: bytes) -> bytes:
    pieces = [log[at:at + 2000] for at in range(0, len(log), 2000)]
    return audit.frame(b"\x40" + name) + b"".join(audit.frame(b"\x41" + audit.frame(it)) for it in pieces)


def doubts(nodes: int) -> bytes:
    """So many nodes in doubt, at as many sites as that takes, with 65,536 nodes at each."""
    firsts = range(1, nodes + 1, 65536)
    return b"".join(frames_of(b"\x01%c" % (98 + i), doubt_log(range(at, min(at + 65536, nodes + 1)))) for i, at in enumerate(firsts))


def once(command: typing.List[str], given: bytes) -> Figures:
    """Seconds of a processor, and MB; none where it took too long."""
    pathlib.Path("given").write_bytes(given)
    process = os.fork()
    if process == 0:
        try:
            for number, name, how in ((0, "given", os.O_RDONLY), (1, os.devnull, os.O_WRONLY), (2, os.devnull, os.O_WRONLY)):
                os.dup2(os.open(name, how), number)
            resource.setrlimit(resource.RLIMIT_CPU, (MOST_SECONDS, MOST_SECONDS + 1))
            os.execvp(command[0], command)
        finally:
            os._exit(127)
    _, status, used = os.wait4(process, 0)
    if os.waitstatus_to_exitcode(status) not in (0, 1):
        return None
    return used.ru_utime + used.ru_stime, used.ru_maxrss / 1024


def least(command: typing.List[str], log: typing.Optional[bytes], given: bytes = b"", sealed: bool = False) -> Figures:
    """Of some runs, each on the same log."""
    runs = []
    for _ in range(RUNS):
        for name in ("tp.log", "tp.seal"):
            pathlib.Path(name).unlink(missing_ok=True)
        if log is not None:
            pathlib.Path("tp.log").write_bytes(log)
        if sealed:
            pathlib.Path("tp.seal").touch()
        found = once(command, given)
        if found is None:
            return None
        runs.append(found)
        if found[0] > 10:
            break
    return min(it[0] for it in runs), min(it[1] for it in runs)


def measured(what: str, found: Figures, beside: Figures = None, peer: typing.Optional[str] = None) -> typing.Iterator[Row]:
    if found is None:
        print(f"{what}: it did not end well in {MOST_SECONDS} s of a processor", file=sys.stderr)
        return
    for i, unit in enumerate(("processor s", "MB")):
        yield (what, unit, found[i], beside[i], peer) if beside else (what, unit, found[i], None, None)


def commands(program: str, log: bytes, of: str, peer: typing.Optional[str]) -> typing.Iterator[Row]:
    for words in COMMANDS:
        found = least([program, *words], log)
        if words == ["show"] and peer:
            yield from measured(f"`show` {of}", found, least([peer, "show"], log), "plain Rust")
            yield from measured(f"`show` {of}", found, least(["wc", "-c"], log, log), "`wc -c`")
        else:
            yield from measured(f"`{words[0]}` {of}", found)
    yield from measured(f"`node`, sealed, {of}", least([program, *COMMANDS[-1]], log, sealed=True))
    yield from measured(f"`audit` {of}", least([program, "audit"], None, frames_of(SITE_A, log)))


def rows(program: str, peer: typing.Optional[str], records: typing.Sequence[int], kept: typing.Sequence[int]) -> typing.Iterator[Row]:
    there = os.getcwd()
    with tempfile.TemporaryDirectory(dir="/dev/shm" if os.path.isdir("/dev/shm") else None) as room:
        os.chdir(room)
        for count in records:
            yield from commands(program, ended_log(count), f"of {count:,} records", peer)
        for count in kept:
            log = kept_log(count)
            yield from commands(program, log, f"of {count:,} kept", peer)
            given = doubts(count) + frames_of(SITE_A, log)
            yield from measured(f"`audit` of {count:,} in doubt", least([program, "audit"], None, given))
        os.chdir(there)


def main() -> None:
    parser = argparse.ArgumentParser(usage=__doc__)
    parser.add_argument("records", nargs="*", type=int)
    parser.add_argument("--kept", nargs="*", type=int)
    options = parser.parse_args()
    top = os.path.dirname(os.path.dirname(os.path.abspath(__file__)))
    program = os.path.realpath(os.environ.get("TPNODE", f"{top}/crates/tpnode/out/tpnode"))
    records, kept = options.records, options.kept
    if not records and kept is None:
        records, kept = [100_000, 1_000_000, 5_000_000], [10_000, 20_000, 40_000, 80_000]
    with tempfile.TemporaryDirectory() as room:
        table.show(rows(program, replay.built(top, room), records, kept or []))


if __name__ == "__main__":
    main()
