"""An hour of the sites of deploy/, while the memory of each process is sampled.

trials/run soak [--program CMD] [--short | --minutes N] [--only sites | postgres] [--seed N] [--samples FILE]

Two runs side by side, each of which judges itself at its end as `./bank` does:

- `sites`: money moves between nine banks over TLS, on a disk that is full to 95 %. Connections are cut, or say nothing in one direction for a
  while; the clock of a site is turned, by days; the disk is full for some seconds; sites and their `tpnode` are killed. Each `tpnode` is
  replaced after some thousand events, once its nodes are idle, and its log is compacted then.
- `postgres`: `./bank --postgres`, compacted in the same way.

The resident memory of each process, and of those that replaced it, is sampled; FILE gets each sample. No sample after the second sixth of the time may be more than a
tenth, or a megabyte, above the most of that second sixth; the first is a start. A run of less than twenty minutes tells this, and does not judge it.
The disk is a file of two gigabytes that is mounted, so root is needed; without it the disk is left out.
"""
from __future__ import annotations

import argparse
import asyncio
import contextlib
import os
import pathlib
import shutil
import struct
import subprocess
import sys
import tempfile
import time
import typing

import tools

DEPLOY = tools.ROOT / "deploy"
sys.path.insert(0, str(DEPLOY))
from ripsaw import bank, world  # noqa: E402

BANKS = ["ash", "beech", "cedar", "elm", "fir", "larch", "oak", "pine", "yew"]
RECYCLE, COMPACT = 1500, 40_000  # events of a tpnode, bytes of a log; where no time is lost between transfers
BUSY_RECYCLE, BUSY_COMPACT = 2000, 40_000
SAMPLES = 120  # of a run
JUDGED = 20 * 60  # seconds of a run from which on its memory is judged
DAY = 86_400
MEBI = 1 << 20
CLOCK = r"""
#define _GNU_SOURCE
#include <fcntl.h>
#include <stdlib.h>
#include <sys/mman.h>
#include <sys/syscall.h>
#include <sys/time.h>
#include <time.h>
#include <unistd.h>

static volatile const long *turned;

__attribute__((constructor)) static void begin(void) {
    static const long none;
    const char *name = getenv("TRIAL_CLOCK");
    int fd = name ? open(name, O_RDONLY) : -1;
    void *page = fd < 0 ? MAP_FAILED : mmap(0, sizeof *turned, PROT_READ, MAP_SHARED, fd, 0);
    turned = page == MAP_FAILED ? &none : page;
    if (fd >= 0) close(fd);
}

int clock_gettime(clockid_t id, struct timespec *now) {
    int status = syscall(SYS_clock_gettime, id, now);
    if (status == 0 && id == CLOCK_REALTIME && turned) now->tv_sec += *turned;
    return status;
}

time_t time(time_t *to) {
    struct timespec now;
    clock_gettime(CLOCK_REALTIME, &now);
    if (to) *to = now.tv_sec;
    return now.tv_sec;
}

int gettimeofday(struct timeval *now, void *zone) {
    struct timespec it;
    clock_gettime(CLOCK_REALTIME, &it);
    now->tv_sec = it.tv_sec;
    now->tv_usec = it.tv_nsec / 1000;
    return 0;
}
"""


class Relay:
    """What a site opens to a peer goes through here: it can be cut, and fall silent in one direction."""

    def __init__(self, port: int) -> None:
        self.port, self.away = port, 0.0
        self.silent = [0.0, 0.0]
        self.writers: set[asyncio.StreamWriter] = set()

    async def serve(self, reader: asyncio.StreamReader, writer: asyncio.StreamWriter) -> None:
        far: asyncio.StreamWriter | None = None
        try:
            if time.monotonic() >= self.away:
                far_reader, far = await asyncio.open_connection("127.0.0.1", self.port)
                self.writers |= {writer, far}
                ways = [asyncio.create_task(self.carry(*it)) for it in ((reader, far, 0), (far_reader, writer, 1))]
                await asyncio.wait(ways, return_when=asyncio.FIRST_COMPLETED)
                for way in ways:
                    way.cancel()
                await asyncio.gather(*ways, return_exceptions=True)
        except (OSError, asyncio.CancelledError):
            pass  # (it is cut, or the run has ended)
        finally:
            for end in (writer, far):
                if end is not None:
                    self.writers.discard(end)
                    end.transport.abort()

    async def carry(self, reader: asyncio.StreamReader, writer: asyncio.StreamWriter, way: int) -> None:
        while piece := await reader.read(65536):
            while time.monotonic() < self.silent[way]:
                await asyncio.sleep(0.1)
            writer.write(piece)
            await writer.drain()

    def cut(self, seconds: float) -> None:
        self.away = time.monotonic() + seconds
        for it in self.writers:
            it.transport.abort()


class Clocked(world.Place):
    """A site whose clock can be turned."""

    library: pathlib.Path

    def turn(self, seconds: int) -> None:
        file = os.open(self.folder.with_suffix(".clock"), os.O_WRONLY | os.O_CREAT)
        os.pwrite(file, struct.pack("q", seconds), 0)
        os.close(file)

    def start(self) -> None:
        more = {"TRIAL_CLOCK": str(self.folder.with_suffix(".clock")), "LD_PRELOAD": str(self.library)}
        os.environ.update(more)
        super().start()
        for it in more:
            del os.environ[it]


class Soak(bank.Bank):
    """The nine banks."""

    def make_sites(self, resources: dict[str, typing.Any]) -> None:
        self.attacks = {"cuts": 0, "silences": 0, "clocks turned": 0, "full disks": 0}
        self.ended_alone = 0
        library = compiled(self.folder)
        for name, it in self.world.places.items():
            place = Clocked(self.folder, name, it.port, it.status)
            place.library = library
            place.turn(0)
            self.world.places[name] = place
        more = {"patience": 5.0, "retry_least": 0.3, "retry_most": 3.0, "recycle_events": RECYCLE, "recycle_wait": 5.0, "compact_bytes": COMPACT}
        self.world.make(resources, bank.CALLS, certificates=True, more=more)
        self.relays: dict[int, Relay] = {}
        ports = iter(world.free_ports(len(self.banks) * (len(self.banks) - 1)))
        for site in self.world.places.values():
            settings = site.folder / "site.toml"
            text = settings.read_text()
            for peer in self.world.places.values():
                if peer is not site:
                    port = next(ports)
                    self.relays[port] = Relay(peer.port)
                    text = text.replace('address = "127.0.0.1:%d"' % peer.port, 'address = "127.0.0.1:%d"' % port)
            settings.write_text(text)

    async def run(self) -> None:
        servers = [await asyncio.start_server(it.serve, "127.0.0.1", port) for port, it in self.relays.items()]
        await super().run()
        for it in servers:
            it.close()

    async def move(self, number: int, site: typing.Any, transfer: bank.Transfer) -> None:
        await asyncio.sleep(self.draw.expovariate(1.0))
        await super().move(number, site, transfer)

    async def killer(self) -> None:
        restarts = []
        end = self.begun + 0.95 * self.options.seconds
        while time.monotonic() + 1 < end:
            await asyncio.sleep(min(self.draw.expovariate(1 / self.options.every), end - time.monotonic()))
            self.restart()
            name = self.draw.choice(self.banks)
            relays = self.draw.sample(list(self.relays.values()), self.draw.choice([1, 1, 5, 20]))
            what = self.draw.choice([*self.attacks, "kill"])
            if what == "kill":
                restarts.append(asyncio.create_task(self.kill_one(name)))
                continue
            self.attacks[what] += 1
            if what == "clocks turned":  # (never before the certificates)
                place = self.world.places[name]
                assert isinstance(place, Clocked)
                place.turn(self.draw.choice([0, 1, 3600, self.draw.randrange(1000 * DAY)]))
            if what == "full disks":
                restarts.append(asyncio.create_task(self.fill(self.draw.choice([1, 5]))))
            for relay in relays if what in ("cuts", "silences") else []:
                if what == "cuts":
                    relay.cut(self.draw.choice([0, 1, 10]))
                else:
                    relay.silent[self.draw.randrange(2)] = time.monotonic() + self.draw.choice([1, 10, 30])
        for it in restarts:
            await it
        self.restart()

    def restart(self) -> None:
        """A daemon that could not start, as where the disk was full, is started again, as a supervisor of services does."""
        for name, it in self.world.places.items():
            if not self.turns[name].locked() and it.process is not None and it.process.poll() is not None:
                self.ended_alone += 1
                it.start()

    async def fill(self, seconds: float) -> None:
        """Takes all that is left of the disk, for so long."""
        filler = self.folder.parent / "filler"
        if filler.exists():
            size = filler.stat().st_size
            with open(filler, "r+b") as file, contextlib.suppress(OSError):
                file.seek(0, os.SEEK_END)
                while True:
                    file.write(bytes(MEBI))
                    file.flush()
            await asyncio.sleep(seconds)
            os.truncate(filler, size)

    def compactions(self) -> int:
        return sum((it.folder / "committed").exists() for it in self.world.places.values())


def compiled(folder: pathlib.Path) -> pathlib.Path:
    source, library = folder / "clock.c", folder / "clock.so"
    source.write_text(CLOCK)
    subprocess.run([os.environ.get("CC", "cc"), "-shared", "-fPIC", "-O1", "-w", "-o", library, source], check=True)
    return library


# The memory.

class Memory:
    """What each process has resident, by what it is."""

    def __init__(self, file: typing.Optional[str]) -> None:
        self.begun = time.monotonic()
        self.samples: dict[str, list[tuple[float, int]]] = {}
        self.file = open(file, "w", encoding="ascii") if file else None

    def take(self) -> None:
        now = time.monotonic() - self.begun
        for role, size in sizes(os.getpid()):
            self.samples.setdefault(role, []).append((now, size))
            if self.file is not None:
                print("%d s\t%s\t%d" % (now, role, size), file=self.file, flush=True)

    async def watch(self, seconds: float) -> None:
        while True:
            await asyncio.sleep(seconds / SAMPLES)
            self.take()

    def judge(self, seconds: float) -> tuple[list[str], list[str]]:
        """A line for each role, and those that grew."""
        lines, grew = [], []
        for role, samples in sorted(self.samples.items()):
            first = [size for at, size in samples if seconds / 6 <= at < seconds / 3]
            later = [size for at, size in samples if seconds / 3 <= at < seconds]
            if first and later:
                most, last = max(first), max(later)
                line = "%s: %.1f MB, then %.1f MB at most" % (role, most / MEBI, last / MEBI)
                lines.append(line)
                if last > max(1.1 * most, most + MEBI):
                    grew.append(line)
        return lines, grew


def sizes(top: int) -> typing.Iterator[tuple[str, int]]:
    """The daemons and the processes tpnode below a process, with their resident bytes."""
    parents: dict[int, int] = {}
    for it in pathlib.Path("/proc").glob("[0-9]*"):
        try:
            parents[int(it.name)] = int((it / "stat").read_text(errors="replace").rpartition(")")[2].split()[1])
        except OSError:
            pass
    for number in parents:
        above = number
        while above in parents and above != top:
            above = parents[above]
        if above == top and number != top:
            try:
                words = pathlib.Path("/proc/%d/cmdline" % number).read_text(errors="replace").split("\0")
                size = int(pathlib.Path("/proc/%d/statm" % number).read_text().split()[1]) * os.sysconf("SC_PAGE_SIZE")
            except OSError:
                continue
            if words[2:4] == ["ripsaw", "site"]:
                yield "daemon of " + pathlib.Path(words[4]).name, size
            elif words[1:3] == ["node", "--name"]:
                yield "tpnode of " + words[3], size


# The two runs.

def filled(folder: pathlib.Path) -> bool:
    """Mounts a disk there, and fills it to 95 %."""
    if os.geteuid() or not shutil.which("mkfs.ext4"):
        return False
    image = folder.with_suffix(".image")
    with open(image, "wb") as file:
        file.truncate(2 << 30)
    subprocess.run(["mkfs.ext4", "-q", "-m", "0", image], check=True)
    if subprocess.run(["mount", "-o", "loop", image, folder], stderr=subprocess.DEVNULL).returncode:
        image.unlink()
        return False
    image.unlink()  # (it is there until it is unmounted)
    room = shutil.disk_usage(folder)
    with open(folder / "filler", "wb") as file:
        os.posix_fallocate(file.fileno(), 0, int(0.95 * room.total) - room.used)
    return True


async def run_sites(soak: Soak) -> list[int]:
    await soak.run()
    return soak.world.stop()


def judge_sites(soak: Soak, statuses: list[int]) -> None:
    if any(statuses):
        soak.faults.append("the sites end with %s" % statuses)
    total = soak.judge()
    audit = soak.world.audit()
    if audit != (0, "yes\n"):
        soak.faults.append("the audit does not say yes alone")
    bank.tell(soak, total, audit)
    sizes_now = [(it.folder / "tp.log").stat().st_size for it in soak.world.places.values()]
    print("attacks    %s, daemons started again %d" % (tools.counted(soak.attacks), soak.ended_alone))
    print("logs       of %d sites compacted, the longest has %d bytes now" % (soak.compactions(), max(sizes_now)))


def left_out(options: argparse.Namespace) -> list[str]:
    """What is not there for either run, and the Python that `./bank --postgres` wants."""
    pythons = [it for it in (sys.executable, "/usr/bin/python3") if subprocess.run([it, "-c", "import psycopg"], stderr=subprocess.DEVNULL).returncode == 0]
    options.python = (pythons or [""])[0]
    missing = []
    if options.only != "postgres" and not shutil.which("openssl"):
        missing.append("sites")
    if options.only != "sites" and not (options.python and pathlib.Path("/usr/lib/postgresql").is_dir()):
        missing.append("postgres")
    return missing


async def both(options: argparse.Namespace, soak: Soak | None, memory: Memory) -> tuple[list[int], int, str]:
    watching = asyncio.create_task(memory.watch(options.seconds))
    told, status, statuses = "", 0, []
    process = None
    if options.only != "sites":
        words = ["-m", "ripsaw.bank", "--postgres", "--seconds", str(options.seconds), "--kills", str(int(options.seconds / 40)), "--clients", "3",
                 "--recycle", str(BUSY_RECYCLE), "--compact", str(BUSY_COMPACT), "--rest", str(options.rest), "--program", options.program[0],
                 "--folder", str(options.folder)]
        process = await asyncio.create_subprocess_exec(options.python, *words, stdout=subprocess.PIPE, env={**os.environ, "PYTHONPATH": str(DEPLOY)})
    if soak is not None:
        statuses = await run_sites(soak)
    if process is not None:
        told = (await process.communicate())[0].decode()
        status = process.returncode or 0
    watching.cancel()
    return statuses, status, told


def main() -> None:
    parser = argparse.ArgumentParser(description=__doc__, formatter_class=argparse.RawDescriptionHelpFormatter)
    tools.add_program(parser)
    parser.add_argument("--minutes", type=float, default=60, help="how long (60)")
    parser.add_argument("--short", action="store_true", help="half a minute")
    parser.add_argument("--only", choices=["sites", "postgres"], help="one of the two runs")
    parser.add_argument("--every", type=float, help="seconds from one attack to the next, in the mean (10; with --short 2)")
    parser.add_argument("--seed", type=int, help="of the draws; processes have none, so no two runs are alike")
    parser.add_argument("--samples", metavar="FILE", help="a file for the samples of memory: the second, the process, its bytes")
    options = parser.parse_args()
    tools.set_program(options)
    options.seconds = 30.0 if options.short else 60 * options.minutes
    options.every = options.every or (2.0 if options.short else 10.0)
    missing = left_out(options)
    for it in missing:
        print("soak: %s is left out, since openssl, or PostgreSQL with psycopg, is not there" % it)
    if missing:
        if options.only or len(missing) == 2:
            return
        options.only = "postgres" if missing == ["sites"] else "sites"
    options.clients, options.postgres, options.wrong, options.rest, options.draw = 6, False, False, 600, ""
    sys.exit(tried(options))


def tried(options: argparse.Namespace) -> int:
    options.folder = pathlib.Path(tempfile.mkdtemp(prefix="soak-"))
    options.folder.chmod(0o755)
    disk = options.folder / "disk"
    disk.mkdir()
    memory, faults = Memory(options.samples), 0
    soak: Soak | None = None
    full = options.only != "postgres" and filled(disk)
    try:
        if options.only != "postgres":
            soak = Soak(argparse.Namespace(**{**vars(options), "program": options.program[0]}), disk / "banks", BANKS)
            soak.folder.mkdir()
            soak.make()
        statuses, status, told = asyncio.run(both(options, soak, memory))
        if soak is not None:
            print("nine sites over TLS%s" % (", on a disk of which %d MB of %d were left in the end" % (
                shutil.disk_usage(disk).free // MEBI, shutil.disk_usage(disk).total // MEBI) if full else ""))
            judge_sites(soak, statuses)
            faults += len(soak.faults)
        if options.only != "sites":
            print("./bank --postgres\n%s" % told, end="")
            faults += status
    finally:
        if soak is not None:
            soak.world.kill()
        if full and not faults:
            subprocess.run(["umount", disk], check=True)
    lines, grew = memory.judge(options.seconds)
    print("\n".join(lines))
    if options.seconds >= JUDGED:
        faults += len(grew)
        for it in grew:
            print("FAULT      grew: %s" % it)
    if not faults:
        shutil.rmtree(options.folder)
    print("soak: %s" % tools.counted({"minutes": round(options.seconds / 60), "processes": len(lines), "samples": sum(map(len, memory.samples.values())),
                                      "faults": faults}))
    return 1 if faults else 0


if __name__ == "__main__":
    main()
