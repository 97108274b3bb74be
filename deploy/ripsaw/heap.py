"""How the memory that a daemon frees goes back to the system.

Each connection over TLS has a buffer of 256 KiB. Once one of them was freed, glibc takes the next from its heap, where what is freed is used
again and not given back: a daemon whose connections break would grow by several megabytes in its first hour.
"""
from __future__ import annotations

import contextlib
import ctypes

TRIM_THRESHOLD, MMAP_THRESHOLD, ARENA_MAX = -1, -3, -8  # what mallopt(3) calls them
LARGE = 64 * 1024  # bytes from which on a buffer is the system's own
HEAPS = 2  # that the threads share


def give_back() -> None:
    """From now on large buffers go back once they are freed. Where the C library is not glibc, nothing is changed."""
    with contextlib.suppress(OSError, AttributeError):
        set_option = ctypes.CDLL(None).mallopt
        for option, value in ((MMAP_THRESHOLD, LARGE), (TRIM_THRESHOLD, LARGE), (ARENA_MAX, HEAPS)):
            set_option(option, value)
