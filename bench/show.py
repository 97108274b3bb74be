#!/usr/bin/env python3
"""How long `tpnode show` takes for a log with so many records, beside a plain Rust program of the same meaning (bench/peer):
bench/show.py [RECORDS ..]

The log is of version 2; each transaction at one node is a Ready and an End with rollback. Both must write the same bytes. The
program is crates/tpnode/out/tpnode, or the one that the variable TPNODE names; the plain Rust program is built by `rustc`, or is
the one that PEER names. Processor time and memory are the least of five runs in turns."""
import os
import sys
import tempfile

sys.path.insert(0, os.path.dirname(os.path.abspath(__file__)))
import audit
import replay
import table


def rows(program, peer, counts):
    there = os.getcwd()
    with tempfile.TemporaryDirectory() as room:
        os.chdir(room)
        for records in counts or [500_000, 1_000_000]:
            with open("tp.log", "wb") as file:
                file.write(audit.log_of(records))
            commands = [[it, "show"] for it in (program, peer) if it]
            if peer and replay.written(commands[0], os.devnull) != replay.written(commands[1], os.devnull):
                sys.exit(f"{records}: the two programs write different bytes")
            runs = [[replay.once(it, os.devnull) for it in commands] for _ in range(5)]
            figures = [(min(run[i][0] for run in runs), min(run[i][1] for run in runs)) for i in range(len(commands))]
            for unit, (mine, *other) in zip(("processor s", "MB"), zip(*figures)):
                yield f"`show` of {records:,} records", unit, mine, *((other[0], "plain Rust") if other else (None, None))
        os.chdir(there)


def main(words):
    top = os.path.dirname(os.path.dirname(os.path.abspath(__file__)))
    program = os.path.realpath(os.environ.get("TPNODE", f"{top}/crates/tpnode/out/tpnode"))
    with tempfile.TemporaryDirectory() as room:
        table.show(rows(program, replay.built(top, room), [int(word) for word in words]))


if __name__ == "__main__":
    main(sys.argv[1:])
