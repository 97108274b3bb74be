"""A library that stands between a program and the C library: it stops the program in a call, lets calls fail, and tells which
calls came. It is compiled from the text below into a temporary folder, and is no part of any program.

What it does is said by the environment:

TRIAL_DISK    the name of the file that is the disk
TRIAL_TRACE   a file to which each call is added as a line: its name and its numbers
TRIAL_STOP    K FILL: the program stops in the K-th call that changes the disk (pwrite, ftruncate, fsync). Every byte that was
              written since the last sync, and in that call, is then what FILL says: two digits (that byte everywhere), `new`,
              `old` (the file is as the last sync left it), `mix SEED` (each byte old or new), `any SEED` (any bytes)
TRIAL_FAIL    NAME K HOW: the K-th call of that name fails: read (of standard input), write (to standard output), open, statx,
              pread, pwrite, ftruncate, fsync, malloc. HOW is `none`, `half` or `all`: how much of a write is made all the same
TRIAL_CUT     N: the first read of standard input gives at most so many bytes
TRIAL_FRAMES  1: a read of standard input gives one frame, as to a carrier that waits for each answer
TRIAL_SHORT   SEED: reads and writes do less than they are asked to, and those of the disk are interrupted
TRIAL_LIES    1: a sync is answered well, and makes nothing durable
TRIAL_SERVER  NUMBER: the program is loaded and does not begin. For each message over the socket of that number, a count N, it makes N
              copies of itself, one after the other, each in one of the folders 0 to N - 1. A copy has what is said above from the
              lines of the file `set`, reads `in`, writes `out` and `err`, and begins; the statuses are answered together. A run
              costs then what the program does, and not what loading it does
"""
import os
import pathlib
import shutil
import signal
import socket
import subprocess
import tempfile
import typing

STOPPED, SPOILT = 77, 78
CHANGES = ("pwrite", "ftruncate", "fsync")  # the calls that change the disk
MOST_LOADED, MOST_AT_ONCE = 60, 256

SOURCE = r"""
#define _GNU_SOURCE
#include <errno.h>
#include <fcntl.h>
#include <signal.h>
#include <stdarg.h>
#include <stdint.h>
#include <stdio.h>
#include <stdlib.h>
#include <string.h>
#include <sys/stat.h>
#include <sys/syscall.h>
#include <sys/wait.h>
#include <unistd.h>

extern void *__libc_malloc(size_t);
extern void *__libc_realloc(void *, size_t);

enum { MOST = 1 << 22 };
static int disk = -1, trace = -1, changes, stop_at, fail_at, fail_count;
static char fill[32], fail_name[16], fail_how[16];
static uint64_t seed, short_seed;
static uint8_t base[MOST], now[MOST], loose[MOST];
static long base_size, loose_size;
static size_t cut;
static int awake, lies, frames;

static void wake(void) {
    if (awake) return;
    awake = 1;
    const char *it = getenv("TRIAL_TRACE");
    if (it) trace = syscall(SYS_openat, AT_FDCWD, it, O_WRONLY | O_CREAT | O_APPEND, 0666);
    if ((it = getenv("TRIAL_STOP"))) sscanf(it, "%d %31s %lu", &stop_at, fill, &seed);
    if ((it = getenv("TRIAL_FAIL"))) sscanf(it, "%15s %d %15s", fail_name, &fail_at, fail_how);
    lies = getenv("TRIAL_LIES") != 0;
    if ((it = getenv("TRIAL_CUT"))) cut = strtoul(it, 0, 10);
    frames = getenv("TRIAL_FRAMES") != 0;
    if ((it = getenv("TRIAL_SHORT"))) short_seed = strtoull(it, 0, 10) * 2 + 1;
}

static void stands_for(int number, const char *path, int flags) {
    int fd = syscall(SYS_openat, AT_FDCWD, path, flags, 0666);
    if (fd < 0) _exit(SPOILT_STATUS);
    syscall(SYS_dup3, fd, number, 0);
    syscall(SYS_close, fd);
}

/* A copy that has not begun: the file `set` of its folder has the seconds that it may take, and lines NAME=VALUE. */
static void become(int number) {
    static char text[512], name[12];
    snprintf(name, sizeof name, "%d", number);
    if (chdir(name)) _exit(SPOILT_STATUS);
    int fd = syscall(SYS_openat, AT_FDCWD, "set", O_RDONLY);
    if (fd < 0 || syscall(SYS_read, fd, text, sizeof text - 1) < 0) _exit(SPOILT_STATUS);
    syscall(SYS_close, fd);
    char *next = text;
    alarm(strtoul(strsep(&next, "\n"), 0, 10));
    for (char *line; (line = strsep(&next, "\n"));) {
        char *value = strchr(line, '=');
        if (!value) continue;
        *value = 0;
        setenv(line, value + 1, 1);
    }
    stands_for(0, "in", O_RDONLY);
    stands_for(1, "out", O_WRONLY | O_CREAT | O_TRUNC);
    stands_for(2, "err", O_WRONLY | O_CREAT | O_TRUNC);
    awake = 0;
}

__attribute__((constructor)) static void serve(void) {
    static int statuses[MOST_AT_ONCE];
    const char *it = getenv("TRIAL_SERVER");
    if (!it) return;
    awake = 1;
    int line = atoi(it), count;
    while (syscall(SYS_read, line, &count, sizeof count) == sizeof count && count <= MOST_AT_ONCE) {
        for (int i = 0; i < count; i++) {
            pid_t child = fork();
            if (child == 0) {
                syscall(SYS_close, line);
                become(i);
                return;
            }
            if (child < 0 || waitpid(child, &statuses[i], 0) != child) _exit(SPOILT_STATUS);
        }
        if (syscall(SYS_write, line, statuses, count * sizeof(int)) < 0) _exit(SPOILT_STATUS);
    }
    _exit(0);
}

static void tell(const char *name, long a, long b) {
    char line[64];
    if (trace < 0) return;
    int n = snprintf(line, sizeof line, "%s %ld %ld\n", name, a, b);
    syscall(SYS_write, trace, line, n);
}

static uint32_t draw(uint64_t *s) {
    *s = *s * 6364136223846793005u + 1442695040888963407u;
    return *s >> 33;
}

static long size_of_disk(void) {
    struct stat found;
    return fstat(disk, &found) ? -1 : found.st_size;
}

static void settle(void) {
    base_size = size_of_disk();
    if (base_size > MOST) base_size = MOST;
    syscall(SYS_pread64, disk, base, base_size, 0);
    memset(loose, 0, MOST > loose_size ? loose_size : MOST);
    loose_size = 0;
}

static void loosen(long at, long size) {
    for (long i = at; i < at + size && i < MOST; i++) loose[i] = 1;
    if (at + size > loose_size) loose_size = at + size < MOST ? at + size : MOST;
}

static void stop(void) {
    long size = size_of_disk();
    syscall(SYS_pread64, disk, now, size, 0);
    if (!strcmp(fill, "old")) {
        memcpy(now, base, base_size);
        size = base_size;
    } else if (strcmp(fill, "new")) {
        uint64_t s = seed * 2 + 1;
        for (long i = 0; i < size; i++) {
            uint8_t was = i < base_size ? base[i] : 0;
            if (!loose[i]) continue;
            if (!strcmp(fill, "mix")) now[i] = draw(&s) & 1 ? was : now[i];
            else now[i] = !strcmp(fill, "any") ? draw(&s) : strtoul(fill, 0, 16);
        }
    }
    syscall(SYS_ftruncate, disk, size);
    syscall(SYS_pwrite64, disk, now, size, 0);
    tell("stopped", changes, size);
    _exit(STOPPED_STATUS);
}

static int fails(const char *name) {
    return fail_at && !strcmp(name, fail_name) && ++fail_count == fail_at;
}

/* How much of a write is made although it fails. */
static size_t made(size_t size) { return !strcmp(fail_how, "all") ? size : !strcmp(fail_how, "half") ? size / 2 : 0; }

static int stops(int fd) { return fd == disk && ++changes == stop_at; }

/* Less than what is asked, at times; 0 for an interruption. */
static size_t shortened(size_t size) {
    if (!short_seed || size == 0) return size;
    uint32_t x = draw(&short_seed);
    if (x % 4 == 0) return 0;
    return x % 4 == 1 ? size : 1 + x / 4 % size;
}

int open(const char *path, int flags, ...) {
    va_list more;
    va_start(more, flags);
    int mode = flags & O_CREAT ? va_arg(more, int) : 0;
    va_end(more);
    wake();
    const char *name = getenv("TRIAL_DISK");
    int ours = name && !strcmp(path, name);
    if (ours) {
        tell("open", 0, 0);
        if (fails("open")) { errno = EIO; return -1; }
    }
    int fd = syscall(SYS_openat, AT_FDCWD, path, flags, mode);
    if (ours && fd >= 0) { disk = fd; settle(); }
    return fd;
}

/* The two bytes of a length, and then the body: the next frame, or what there is of it. */
static ssize_t read_frame(uint8_t *to, size_t size) {
    ssize_t got = syscall(SYS_read, 0, to, size < 2 ? size : 2);
    if (got < 2) return got;
    size_t more = to[0] << 8 | to[1];
    ssize_t rest = syscall(SYS_read, 0, to + 2, more < size - 2 ? more : size - 2);
    return rest < 0 ? got : got + rest;
}

ssize_t read(int fd, void *to, size_t size) {
    wake();
    if (fd == 0) {
        if (fails("read")) { tell("read", -1, size); errno = EIO; return -1; }
        /* An interrupted read would be a read fault: no signal has a handler, so none is interrupted. */
        size_t less = shortened(size);
        if (less == 0) less = size;
        if (cut && cut < less) less = cut;
        cut = 0;
        ssize_t got = frames ? read_frame(to, less) : syscall(SYS_read, fd, to, less);
        tell("read", got, size);
        return got;
    }
    return syscall(SYS_read, fd, to, size);
}

ssize_t write(int fd, const void *from, size_t size) {
    wake();
    if (fd == 1) {
        if (fails("write")) {
            if (made(size)) syscall(SYS_write, fd, from, made(size));
            tell("write", -1, size);
            errno = EIO;
            return -1;
        }
        size_t less = shortened(size);
        if (less == 0) less = size;
        ssize_t done = syscall(SYS_write, fd, from, less);
        tell("write", done, size);
        return done;
    }
    return syscall(SYS_write, fd, from, size);
}

int statx(int at, const char *path, int flags, unsigned mask, struct statx *to) {
    wake();
    if (at == disk && disk >= 0) {
        tell("statx", 0, 0);
        if (fails("statx")) { errno = EIO; return -1; }
    }
    return syscall(SYS_statx, at, path, flags, mask, to);
}

ssize_t pread(int fd, void *to, size_t size, off_t at) {
    wake();
    if (fd == disk) {
        tell("pread", at, size);
        if (fails("pread")) { errno = EIO; return -1; }
        size_t less = shortened(size);
        if (less == 0 && size) { errno = EINTR; return -1; }
        size = less;
    }
    return syscall(SYS_pread64, fd, to, size, at);
}

ssize_t pwrite(int fd, const void *from, size_t size, off_t at) {
    wake();
    if (fd == disk) {
        tell("pwrite", at, size);
        int failed = fails("pwrite");
        if (failed) size = made(size);
        size_t less = failed ? size : shortened(size);
        if (less == 0 && size) { errno = EINTR; return -1; }
        int stopped = stops(fd);
        ssize_t done = less ? syscall(SYS_pwrite64, fd, from, less, at) : 0;
        loosen(at < base_size ? at : base_size, at < base_size ? less : at - base_size + less);
        if (stopped) stop();
        if (failed) { errno = TRIAL_ERRNO; return -1; }
        return done;
    }
    return syscall(SYS_pwrite64, fd, from, size, at);
}

int ftruncate(int fd, off_t size) {
    wake();
    if (fd == disk) {
        tell("ftruncate", size, 0);
        int failed = fails("ftruncate"), stopped = stops(fd);
        long old = size_of_disk();
        int done = failed && !made(2) ? 0 : syscall(SYS_ftruncate, fd, size);
        if (size > old) loosen(old, size - old);
        if (stopped) stop();
        if (failed) { errno = EIO; return -1; }
        return done;
    }
    return syscall(SYS_ftruncate, fd, size);
}

static int synced(int fd, const char *name, long number) {
    wake();
    if (fd != disk) return syscall(number, fd);
    tell(name, 0, 0);
    int failed = fails("fsync");
    if (stops(fd)) stop();
    if (failed) { errno = EIO; return -1; }
    if (!lies) settle();
    return 0;
}

int fsync(int fd) { return synced(fd, "fsync", SYS_fsync); }
int fdatasync(int fd) { return synced(fd, "fsync", SYS_fdatasync); }

void *malloc(size_t size) {
    wake();
    if (fails("malloc")) { tell("malloc", size, 0); return 0; }
    return __libc_malloc(size);
}

void *realloc(void *was, size_t size) {
    wake();
    if (size && fails("malloc")) { tell("malloc", size, 0); return 0; }
    return __libc_realloc(was, size);
}
"""


class Result(typing.NamedTuple):
    """What came of a run: its status (below 0 a signal; none where it took too long), what it wrote, its disk, and its calls."""

    status: typing.Optional[int]
    out: bytes
    err: bytes
    disk: bytes
    calls: list


class Library:
    """The library, compiled into a folder, and the programs that are loaded with it."""

    def __init__(self, folder):
        self.folder = pathlib.Path(folder)
        source = self.folder / "preload.c"
        text = SOURCE
        for word, number in (("STOPPED_STATUS", STOPPED), ("SPOILT_STATUS", SPOILT), ("MOST_AT_ONCE", MOST_AT_ONCE), ("TRIAL_ERRNO", "ENOSPC")):
            text = text.replace(word, str(number))
        source.write_text(text)
        self.path = str(source.with_suffix(".so"))
        subprocess.run(["cc", "-O1", "-fno-builtin", "-shared", "-fPIC", "-o", self.path, source], check=True)
        self.loaded = {}

    def run_all(self, command, runs, disk="tp.log", seconds=300):
        """Runs the command once for each of (input, disk, settings). The settings are those above, by their last word."""
        loaded = self.loaded.get(tuple(command))
        if loaded is None:
            if len(self.loaded) >= MOST_LOADED:
                self.loaded.pop(next(iter(self.loaded))).end()
            loaded = self.loaded[tuple(command)] = Loaded(self.path, command, self.folder)
        results = []
        for at in range(0, len(runs), MOST_AT_ONCE):
            results += loaded.run_all(runs[at:at + MOST_AT_ONCE], disk, seconds)
        return results

    def end(self):
        for loaded in self.loaded.values():
            loaded.end()
        self.loaded.clear()

    def run(self, command, given=b"", content=b"", disk="tp.log", seconds=300, **settings):
        return self.run_all(command, [(given, content, settings)], disk, seconds)[0]


class Loaded:
    """A program with its words, loaded once in a folder of its own, and run from there again and again."""

    def __init__(self, library, command, folder):
        self.command, self.folder = command, tempfile.mkdtemp(dir=folder)
        self.socket, theirs = socket.socketpair(socket.AF_UNIX, socket.SOCK_SEQPACKET)
        extra = {"LD_PRELOAD": library, "TRIAL_SERVER": str(theirs.fileno())}
        self.process = subprocess.Popen(command, cwd=self.folder, pass_fds=[theirs.fileno()], env={**os.environ, **extra},
                                        stdin=subprocess.DEVNULL, stdout=subprocess.DEVNULL, stderr=subprocess.DEVNULL)
        theirs.close()
        self.places = []

    def run_all(self, runs, disk, seconds):
        while len(self.places) < len(runs):
            place = os.path.join(self.folder, str(len(self.places)))
            os.mkdir(place)
            self.places.append(place)
        for place, (given, content, settings) in zip(self.places, runs):
            lines = ["%d" % seconds, "TRIAL_DISK=" + disk]
            lines += ["TRIAL_%s=%s" % (name.upper(), value) for name, value in settings.items() if value is not None]
            put(place + "/set", "\n".join(lines).encode())
            put(place + "/in", given)
            put(place + "/" + disk, content)
            if "trace" in settings:
                put(place + "/" + settings["trace"], b"")
        self.socket.send(len(runs).to_bytes(4, "little"))
        answer = self.socket.recv(4 * len(runs))
        if len(answer) != 4 * len(runs):
            raise RuntimeError("%s can be run no more" % self.command)
        statuses = [int.from_bytes(answer[at:at + 4], "little") for at in range(0, len(answer), 4)]
        return [self.result(place, disk, status, run[2]) for place, status, run in zip(self.places, statuses, runs)]

    @staticmethod
    def result(place, disk, status, settings):
        status = os.waitstatus_to_exitcode(status)
        calls = calls_of(place + "/" + settings["trace"]) if "trace" in settings else []
        return Result(None if status == -signal.SIGALRM else status, got(place + "/out"), got(place + "/err"), got(place + "/" + disk), calls)

    def end(self):
        self.socket.close()
        self.process.wait()
        shutil.rmtree(self.folder)


def put(path, content):
    with open(path, "wb", buffering=0) as file:
        file.write(content)


def got(path):
    with open(path, "rb", buffering=0) as file:
        return file.read()


def calls_of(trace):
    """The calls of a trace as (name, number, number)."""
    with open(trace) as lines:
        return [(name, int(a), int(b)) for name, a, b in map(str.split, lines)]
