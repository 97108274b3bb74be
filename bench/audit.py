#!/usr/bin/env python3
"""How long `tpnode audit` takes for the log of one site with so many records, each transaction a Ready and an End with rollback:
bench/audit.py TPNODE [RECORDS ..]"""
import os
import resource
import struct
import subprocess
import sys

sys.path.insert(0, os.path.dirname(os.path.abspath(__file__)))
import table

NAME_A, NAME_B = b"\x01a", b"\x01b"


def frame(body):
    return struct.pack(">H", len(body)) + body


def key(i):
    tree = NAME_A + struct.pack(">QHQ", 1, 1, 2 * i)
    return tree + b"\x01" + NAME_A + struct.pack(">QHQ", 1, 1, 2 * i + 1)


def log_of(records):
    bodies = [b"\x07\x02", b"\x01" + struct.pack(">Q", 1)]
    for i in range(1, records // 2 + 1):
        bodies.append(b"\x02\x00\x02" + key(i) + NAME_A + b"\x00\x01\x00\x00")
        bodies.append(b"\x06\x00\x02" + key(i) + b"\x02")
    return b"OTPL\x01" + b"".join(b"\x01" + frame(it) for it in bodies) + b"\x00"


def frames_of(log):
    pieces = [log[at : at + 2000] for at in range(0, len(log), 2000)]
    return frame(b"\x40" + NAME_B) + b"".join(frame(b"\x41" + frame(it)) for it in pieces)


def rows(program, counts):
    for records in map(int, counts or ["250000", "500000", "1000000"]):
        before = resource.getrusage(resource.RUSAGE_CHILDREN).ru_utime
        ran = subprocess.run([program, "audit"], input=frames_of(log_of(records)), capture_output=True, check=True)
        used = resource.getrusage(resource.RUSAGE_CHILDREN)
        if ran.stdout.split()[0] != b"yes":
            sys.exit(f"{records}: the audit says {ran.stdout.decode()}")
        yield f"`audit` of a log of {records:,} records", "processor s", used.ru_utime - before, None, None


if __name__ == "__main__":
    table.show(rows(sys.argv[1], sys.argv[2:]))
