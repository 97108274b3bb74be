"""What a daemon frees goes back to the system; ports are given once."""
from __future__ import annotations

import subprocess
import sys

from ripsaw import world

# As connections that break: each has a large buffer, and something small is taken after it that stays.
BREAKING = """
import sys
from ripsaw import heap
if sys.argv[1] == "given back":
    heap.give_back()
first = bytearray(1 << 18)
del first
large, small = [], []
for _ in range(64):
    large.append(bytearray(1 << 18))
    small.append(bytes(1000))
large.clear()
print(int(open("/proc/self/statm").read().split()[1]) * 4096)
"""


def resident(word: str) -> int:
    return int(subprocess.run([sys.executable, "-c", BREAKING, word], stdout=subprocess.PIPE, check=True).stdout)


def test_what_is_freed_goes_back() -> None:
    assert resident("kept") - resident("given back") > 8 << 20


def test_no_port_is_given_twice() -> None:
    ports = [port for _ in range(20) for port in world.free_ports(100)]
    assert len(set(ports)) == len(ports)
