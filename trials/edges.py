"""What stands around a program: other processes on its file, files that may not be written, streams that fail, a full disk.

trials/run edges [--program CMD] [--drive CMD] [--draw CMD] [--short]

- While a site works on its log, each command that would change the log ends with 8, says why, and changes no byte; `show` and `check`
  read the log as it is and leave it alone. The site goes on, and each record that it answered stands.
- Where there is no log or no store no command makes one, but `format`, and `replay` where the store is member 3.
- A log that may not be written is read as well: as a file, in a folder, under a mount that is read-only; also one whose compaction was
  cut, which is left as it is.
- A run ends with its own status where standard error is closed, full, or has no reader. Where the disk, standard input or standard output
  failed, a second line says which call and why.
- Where seals are kept a log that was changed, cut, put back from an older copy, or that is another site's, is refused, and left as it is;
  a log that a site left is not refused, at whatever moment the site, or a compaction, was stopped.
- Of answers that are more than a pipe holds none comes before the records of the events before it are in the log, wherever the reader stops.
- A compaction that finds no room leaves the log as long as it was.
- After a bad line of a schedule a second line says which word is wrong and what is due, or what the line names that is not there.
- What is asked about the program is answered on standard output, and wrong words are named. With TPNODE_SAY=1 a site says what it
  starts with.

What wants to be root, and is not, is named and left out.
"""
import argparse
import os
import pathlib
import shutil
import subprocess
import sys
import tempfile
import time
import typing

import bound
import preload
import streams
import tools
import wire

BOOT_1 = b"\x01" + (1).to_bytes(8, "big")
OVER = b"\x13"
PIPE = 65536
NOBODY = 65534
BUSY = b"tp.log: lock: another process works on it\n"
SITE = ["node", "--name", "b"]
CHANGING = [SITE, ["tx"], ["drive", "--name", "b"], ["compact"], ["migrate"], ["format"]]
READING = [["show"], ["check"]]
TRANSACTIONS = 20


def records_of(shown: bytes) -> typing.List[bytes]:
    """The records that `show` writes, without their places."""
    return [line.split(b" ", 1)[1] for line in shown.splitlines()]


class Site:
    """A running site, whose answers are waited for."""

    def __init__(self, command: typing.List[str], folder: pathlib.Path):
        pipes: typing.Dict[str, typing.Any] = {"stdin": subprocess.PIPE, "stdout": subprocess.PIPE, "stderr": subprocess.PIPE}
        self.process: typing.Any = subprocess.Popen(command, cwd=folder, bufsize=0, **pipes)

    def feed(self, bodies: typing.List[bytes]) -> None:
        self.process.stdin.write(b"".join(wire.frame(body) for body in bodies))
        waiting, said = len(bodies), b""
        while waiting > 0:
            piece = self.process.stdout.read(65536)
            if not piece:
                raise RuntimeError("a site ended: %r" % self.process.stderr.read())
            said += piece
            found, taken = wire.frames_in(said)
            waiting, said = waiting - found.count(OVER), said[taken:]

    def end(self) -> int:
        self.process.stdin.close()
        return self.process.wait()


class Edges:
    def __init__(self, options: argparse.Namespace, folder: str):
        self.options, self.folder = options, pathlib.Path(folder)
        names = ["runs", "beside a site", "without a file", "not to be written", "broken standard errors", "causes", "sealed logs",
                 "spoilt logs", "sealed stops", "slow readers", "full disks", "words"]
        self.counts = dict.fromkeys(names, 0)
        self.faults: typing.List[str] = []
        self.left_out: typing.List[str] = []
        self.places = 0

    def fault(self, text: str) -> None:
        self.faults.append(text)
        if len(self.faults) < 100:
            print("  " + text, flush=True)

    def expect(self, what: str, found: object, due: object) -> None:
        if found != due:
            self.fault("%s: %r, and not %r" % (what, found, due))

    def place(self) -> pathlib.Path:
        """An empty folder."""
        self.places += 1
        path = self.folder / str(self.places)
        path.mkdir()
        return path

    def command(self, words: typing.List[str]) -> typing.List[str]:
        return tools.command_of(self.options, words)

    def run(self, words: typing.List[str], folder: pathlib.Path, given: bytes = b"", log: typing.Optional[bytes] = None,
            **more: typing.Any) -> subprocess.CompletedProcess:
        self.counts["runs"] += 1
        if log is not None:
            (folder / "tp.log").write_bytes(log)
        streams_of: typing.Dict[str, typing.Any] = {"stdout": subprocess.PIPE, "stderr": subprocess.PIPE, **more}
        return subprocess.run(self.command(words), cwd=folder, input=given, **streams_of)

    def changing(self) -> typing.List[typing.List[str]]:
        return [words for words in CHANGING if words[0] != "drive" or self.options.drive]

    # Other processes on the file.

    def beside_a_site(self) -> None:
        for words in self.changing() + READING:
            folder = self.place()
            log = folder / "tp.log"
            log.write_bytes(wire.FRESH)
            events = streams.subordinate(TRANSACTIONS)
            half = len(events) // 2
            site = Site(self.command(SITE), folder)
            site.feed(events[:half])
            before = log.read_bytes()
            run = self.run(words, folder)
            self.counts["beside a site"] += 1
            name = "%s beside a site" % words[0]
            if words in READING:
                self.expect(name, (run.returncode, run.stderr), (0, b""))
            else:
                self.expect(name, (run.returncode, run.stderr.split(b"\n", 1)[1]), (8, BUSY))
            if words == ["show"]:
                copy = self.place()
                (copy / "tp.log").write_bytes(before)
                self.expect(name + ", records", records_of(run.stdout), self.shown(copy))
            self.expect(name + ", the log", log.read_bytes(), before)
            site.feed(events[half:])
            self.expect(name + ", the site", site.end(), 0)
            self.expect(name + ", records at the end", len(self.shown(folder)), 3 * TRANSACTIONS + 1)

    def shown(self, folder: pathlib.Path) -> typing.List[bytes]:
        run = self.run(["show"], folder)
        self.expect("show", (run.returncode, run.stderr), (0, b""))
        return records_of(run.stdout)

    # Files that are not there, or may not be written.

    def without_a_file(self) -> None:
        plain = (tools.ROOT / "examples" / "plain-commit.schedule").read_bytes()
        runs = [(words, 5) for words in self.changing() + READING + [["keys"]] if words != ["format"]]
        runs += [(["audit"], 0), (["make"], 0), (["trial"], 0), (["replay"], 0)]
        for words, status in runs:
            folder = self.place()
            run = self.run(words, folder, plain if words == ["replay"] else b"")
            self.counts["without a file"] += 1
            self.expect("%s without a file" % words[0], (run.returncode, sorted(os.listdir(folder))), (status, []))
        folder = self.place()
        given = bound.schedule((True, False))
        run = self.run(["replay"], folder, given)
        self.expect("replay that names member 3", (run.returncode, os.listdir(folder)), (0, ["bound.log"]))
        self.expect("keys after it", self.run(["keys"], folder).returncode, 0)
        again = self.place()
        (again / "bound.log").write_bytes(wire.FRESH_STORE)
        self.expect("the transcript", self.run(["replay"], again, given).stdout, run.stdout)
        self.expect("the store", (again / "bound.log").read_bytes(), (folder / "bound.log").read_bytes())
        folder = self.place()
        self.expect("format", self.run(["format"], folder).returncode, 0)
        self.expect("what format made", (folder / "tp.log").read_bytes(), wire.FRESH)

    def not_to_be_written(self) -> None:
        whole = wire.log_of([b"\x01" + (1).to_bytes(8, "big")])
        # A compaction that was cut: the list begins at the place that the last eight bytes say.
        cut = whole[:4] + b"\x02" + whole[5:] + whole[5:] + len(whole).to_bytes(8, "big")
        for log in (whole, cut):
            folder = self.place()
            path = folder / "tp.log"
            path.write_bytes(log)
            path.chmod(0o444)
            folder.chmod(0o555)
            self.read_only(folder, log, {"preexec_fn": become_nobody} if os.geteuid() == 0 else {}, "a read-only file")
            folder.chmod(0o755)
            if os.geteuid() == 0 and shutil.which("mount"):
                folder = self.place()
                subprocess.run(["mount", "-t", "tmpfs", "-o", "size=64k", "tmpfs", folder], check=True)
                try:
                    (folder / "tp.log").write_bytes(log)
                    subprocess.run(["mount", "-o", "remount,ro", folder], check=True)
                    self.read_only(folder, log, {}, "a read-only mount")
                finally:
                    subprocess.run(["umount", folder], check=True)
            elif "a read-only mount" not in self.left_out:
                self.left_out.append("a read-only mount")

    def read_only(self, folder: pathlib.Path, log: bytes, more: typing.Dict[str, typing.Any], name: str) -> None:
        for words in READING:
            run = self.run(words, folder, **more)
            self.counts["not to be written"] += 1
            shown = b"10 boot 1\n" if words == ["show"] else b""
            self.expect("%s of %s" % (words[0], name), (run.returncode, run.stdout, run.stderr), (0, shown, b""))
        for words in self.changing():
            run = self.run(words, folder, **more)
            self.counts["not to be written"] += 1
            self.expect("%s of %s" % (words[0], name), (run.returncode, run.stderr.split(b"\n")[1][:14]), (8, b"tp.log: open: "))
        self.expect(name, (folder / "tp.log").read_bytes(), log)

    # Statuses, and what is said of them.

    def broken_standard_error(self) -> None:
        folder = self.place()
        (folder / "tp.log").write_bytes(b"x")
        other = self.place()
        (other / "tp.log").mkdir()
        cases = [(words, b"", folder, 5) for words in CHANGING[:2] + READING + [["compact"]]]
        cases += [(["zzz"], b"", folder, 2), (["audit"], b"\x00\x00", folder, 3), (["node"], b"", other, 8)]
        cases += [(["draw"], b"zzz\n", folder, 3), (["draw", "--zzz"], b"", folder, 2)] if self.options.draw else []
        cases += [(["drive", "--workers", "99"], b"", folder, 2)] if self.options.drive else []
        for words, given, where, status in cases:
            for kind in ("as it is", "full", "closed", "without a reader"):
                run = self.with_error(kind, words, where, given)
                self.counts["broken standard errors"] += 1
                self.expect("%s, standard error %s" % (words, kind), run.returncode, status)

    def with_error(self, kind: str, words: typing.List[str], folder: pathlib.Path, given: bytes) -> subprocess.CompletedProcess:
        if kind == "as it is":
            return self.run(words, folder, given)
        if kind == "closed":
            return self.run(words, folder, given, stderr=None, preexec_fn=lambda: os.close(2))
        if kind == "full":
            with open("/dev/full", "wb") as full:
                return self.run(words, folder, given, stderr=full)
        reader, writer = os.pipe()
        os.close(reader)
        try:
            return self.run(words, folder, given, stderr=writer)
        finally:
            os.close(writer)

    def causes(self) -> None:
        folder = self.place()
        (folder / "tp.log").write_bytes(wire.log_of([BOOT_1]))
        with open("/dev/full", "wb") as full:
            run = self.run(["show"], folder, stdout=full)
        self.said(run, 7, b"write fault", b"standard output: write: No space left on device")
        descriptor = os.open(folder, os.O_RDONLY)
        run = subprocess.run(self.command(["audit"]), stdin=descriptor, capture_output=True)
        os.close(descriptor)
        self.said(run, 6, b"read fault", b"standard input: read: Is a directory")
        other = self.place()
        (other / "tp.log").mkdir()
        self.said(self.run(["node"], other), 8, b"disk fault", b"tp.log: open: Is a directory")
        library = preload.Library(self.folder)
        for kind, call in (("statx", b"length"), ("pread", b"read"), ("pwrite", b"write"), ("fsync", b"sync")):
            failed = library.run(self.command(SITE), b"", wire.FRESH, fail="%s 1 none" % kind)
            self.counts["causes"] += 1
            lines = failed.err.split(b"\n")
            self.expect("a failing " + kind, (failed.status, lines[1].split(b": ")[:2]), (8, [b"tp.log", call]))
        library.end()

    def said(self, run: subprocess.CompletedProcess, status: int, first: bytes, second: bytes) -> None:
        self.counts["causes"] += 1
        lines = run.stderr.split(b"\n")
        found = run.returncode, lines[0].split(b": ", 1)[1], lines[1][: len(second)]
        self.expect("%r" % second, found, (status, first, second))

    # Seals.

    def seals(self) -> None:
        given = {"a": streams.root(4), "b": streams.subordinate(4, damage=True)}
        files = {name: self.sealed_site(name, streams.stream(bodies)) for name, bodies in given.items()}
        older, newer = files["b"]
        drive = [["drive", "--name", "b"]] if self.options.drive else []
        for words in [SITE, ["compact"], ["migrate"], ["format"]] + READING + drive:
            self.sealed(words, (older[0], newer[1]), 8, b"the log is shorter than it was sealed")
        for words in [["tx"], ["node"], ["node", "--name", "c"]] + [["drive", "--name", "c"] for _ in drive]:
            self.sealed(words, newer, 8, b"the log is sealed for a site of another name")
        another = newer[0], files["a"][1][1]
        for words in [["node", "--name", "a"], ["compact"]] + READING:
            self.sealed(words, another, 8, b"the log has other bytes than it was sealed with")
        self.sealed(["format"], newer, 8, b"the log has records: without this file it is made anew")
        self.sealed(SITE, (newer[0], b"x" * 700), 8, b"it is no seal")
        # Either seal may be lost in a write that was cut off.
        for at in (0, 512):
            self.sealed(["show"], (newer[0], newer[1][:at] + bytes(90) + newer[1][at + 90:]), 0, b"")
        for name in "ab":
            self.spoilt(files[name][1])
        self.stopped(newer)

    def sealed_site(self, name: str, given: bytes) -> typing.List[typing.Tuple[bytes, bytes]]:
        """The log and the seals of a site after its first run, and after another."""
        folder = self.place()
        log, seal = folder / "tp.log", folder / "tp.seal"
        log.write_bytes(wire.FRESH)
        seal.write_bytes(b"")
        site = ["node", "--name", name]
        files = []
        for bodies in (given, b""):
            self.expect("a sealed site", self.run(site, folder, bodies).returncode, 0)
            files.append((log.read_bytes(), seal.read_bytes()))
        for words in (["compact"], ["migrate"]):
            self.expect(words[0], [self.run(it, folder).returncode for it in (words, ["show"], site)], [0, 0, 0])
        folder.joinpath("tp.log").write_bytes(wire.FRESH)
        self.expect("format of a sealed log that was lost", self.run(["format"], folder).returncode, 8)
        return files

    def sealed(self, words: typing.List[str], files: typing.Tuple[bytes, bytes], status: int, said: bytes) -> None:
        """A command on a log and its seals: where it is refused, both stay as they are."""
        folder = self.place()
        (folder / "tp.log").write_bytes(files[0])
        (folder / "tp.seal").write_bytes(files[1])
        run = self.run(words, folder)
        self.counts["sealed logs"] += 1
        lines = run.stderr.split(b"\n")
        self.expect("%s: %r" % (words[0], said), (run.returncode, lines[1] if said else b""), (status, b"tp.seal: " + said if said else b""))
        if status == 8:
            self.expect("%s: the files" % words[0], ((folder / "tp.log").read_bytes(), (folder / "tp.seal").read_bytes()), files)
        shutil.rmtree(folder)

    def spoilt(self, files: typing.Tuple[bytes, bytes]) -> None:
        """Every bit of a log is changed, and it is cut at every byte. What stands before the closing gate is sealed; of the gate one
        bit opens it, and the others mean nothing."""
        log, seal = files
        folder = self.place()
        path = folder / "tp.log"
        path.write_bytes(log)
        bare = self.place()
        (folder / "tp.seal").write_bytes(seal)
        whole = self.run(["show"], folder).stdout
        front = len(log) - 1
        step = 37 if self.options.short else 1
        cases = [(at, log[: at // 8] + bytes([log[at // 8] ^ 1 << at % 8]) + log[at // 8 + 1:]) for at in range(0, 8 * len(log), step)]
        cases += [(8 * at, log[:at]) for at in range(0, len(log), step)]
        for at, spoilt in cases:
            path.write_bytes(spoilt)
            run = self.run(["show"], folder)
            self.counts["spoilt logs"] += 1
            what = "bit %d of %d bytes" % (at, len(spoilt))
            unsealed = self.run(["show"], bare, log=spoilt)
            self.expect(what + ", without a seal", (unsealed.returncode, unsealed.stdout), wire.shown(spoilt))
            if at < 8 * front:
                self.expect(what, (run.returncode, run.stdout, run.stderr.split(b"\n")[1][:17]), (8, b"", b"tp.seal: the log "))
                self.expect(what + ", the log", path.read_bytes(), spoilt)
            elif at == 8 * front:
                self.expect(what, (run.returncode, run.stdout), (5, b""))
            else:
                self.expect(what, (run.returncode, run.stdout), (0, whole))
        self.expect("the seal", (folder / "tp.seal").read_bytes(), seal)

    def stopped(self, files: typing.Tuple[bytes, bytes]) -> None:
        """A site and a compaction are stopped in each changing call: what they leave is let in again."""
        library = preload.Library(self.folder)
        given = b"".join(wire.frame(body) for body in streams.subordinate(2))
        for words, sent in ((SITE, given), (["compact"], b""), (["migrate"], b"")):
            for fill in ("old", "new", "mix 1", "any 1"):
                k = 0
                while self.stop(library, words, sent, files, "%d %s" % (k + 1, fill)):
                    k += 1
                self.expect("calls of %s" % words[0], k > 5, True)
        library.end()

    def stop(self, library: preload.Library, words: typing.List[str], given: bytes, files: typing.Tuple[bytes, bytes], where: str) -> bool:
        folder = self.place()
        (folder / "tp.log").write_bytes(files[0])
        (folder / "tp.seal").write_bytes(files[1])
        extra = {"LD_PRELOAD": library.path, "TRIAL_DISK": "tp.log", "TRIAL_STOP": where}
        run = self.run(words, folder, given, env={**os.environ, **extra})
        self.counts["sealed stops"] += 1
        if run.returncode == preload.STOPPED:
            after = [self.run(it, folder).returncode for it in (["show"], SITE, ["compact"], SITE)]
            self.expect("%s stopped in %s" % (words[0], where), after, [0, 0, 0, 0])
        else:
            self.expect("%s with no stop in %s" % (words[0], where), run.returncode, 0)
        shutil.rmtree(folder)
        return run.returncode == preload.STOPPED

    # Readers that stop.

    def readers(self) -> None:
        """In one write: events with records between events whose answers are 20 KB each. A site forces and writes where 64 KiB wait."""
        log = wire.log_of([BOOT_1] + streams.kept(1, 300, True) + streams.kept(5, 6, False))
        bodies = (streams.purges(5, 1) + [wire.retry(1)] * 2) * 6
        folder = self.place()
        site = ["node", "--name", "a"]
        whole = self.run(site, folder, streams.stream(bodies), log=log)
        self.expect("a reader that reads all", (whole.returncode, len(whole.stdout) > 150000), (0, True))
        all_records = self.shown(folder)
        for size in (0, 1, 1000, 65536, 65537, 80000, 140000, len(whole.stdout) - 1):
            for end in ("waits", "goes", "is killed"):
                self.reader(site, log, bodies, whole.stdout, all_records, size, end)

    def reader(self, words: typing.List[str], log: bytes, bodies: typing.List[bytes], whole: bytes, records: typing.List[bytes], size: int, end: str) -> None:
        """A reader takes so many bytes and none for a while. Then it takes the rest, goes away, or the site is killed."""
        folder = self.place()
        (folder / "tp.log").write_bytes(log)
        self.counts["slow readers"] += 1
        process: typing.Any = subprocess.Popen(self.command(words), cwd=folder, bufsize=0, stdin=subprocess.PIPE, stdout=subprocess.PIPE,
                                               stderr=subprocess.PIPE)
        process.stdin.write(streams.stream(bodies))
        process.stdin.close()
        said = b""
        while len(said) < size:
            said += process.stdout.read(size - len(said))
        time.sleep(0.05)
        if end == "is killed":
            process.kill()
        said += process.stdout.read() if end == "waits" else b""
        process.stdout.close()
        status = process.wait()
        process.stderr.close()
        what = "a reader that %s after %d bytes" % (end, size)
        # What a pipe holds is written, though nobody reads it.
        ended = [0] if len(whole) - size <= PIPE else []
        self.expect(what, status in {"waits": [0], "goes": [7] + ended, "is killed": [-9] + ended}[end], True)
        self.expect(what + ", what was said", said == (whole if end == "waits" else whole[:size]), True)
        found = self.shown(folder)
        self.expect(what + ", the records", found, records[:len(found)])
        answered = wire.frames_in(said)[0].count(OVER)
        due = len(records) - 6 + sum(body[0] == 8 for body in bodies[:answered])
        self.expect(what + ", what was answered", len(found) >= (due if said else 0), True)

    # A full disk.

    def full_disks(self) -> None:
        log = wire.log_of([BOOT_1] + streams.kept(1, 300, True))
        if os.geteuid() or not shutil.which("mount"):
            self.left_out.append("a full disk")
            return
        folder = self.place()
        subprocess.run(["mount", "-t", "tmpfs", "-o", "size=160k", "tmpfs", folder], check=True)
        try:
            for words in (["compact"], ["migrate"]):
                for free in range(0, 72, 24 if self.options.short else 4):
                    self.full_disk(words, folder, log, free * 1024)
        finally:
            subprocess.run(["umount", folder], check=True)

    def full_disk(self, words: typing.List[str], folder: pathlib.Path, log: bytes, free: int) -> None:
        path, ballast = folder / "tp.log", folder / "ballast"
        path.write_bytes(log)
        room = os.statvfs(folder).f_bavail * os.statvfs(folder).f_frsize
        ballast.write_bytes(bytes(max(0, room - free)))
        run = self.run(words, folder)
        self.counts["full disks"] += 1
        name = "%s with %d bytes free" % (words[0], free)
        if run.returncode:
            self.expect(name, (run.returncode, run.stderr.split(b"\n")[1][:43]), (8, b"tp.log: write: No space left on device (os "))
            self.expect(name + ", the log", path.read_bytes(), log)
        ballast.unlink()
        self.expect(name + ", records", len(self.shown(folder)), 601)
        path.unlink()

    # What is asked about the program.

    def words(self) -> None:
        folder = self.place()
        for words in (["--help"], ["-h"], ["node", "--help"], ["--version"], ["-V"]):
            run = self.run(words, folder)
            self.counts["words"] += 1
            begins = b"usage: tpnode" if "h" in words[-1] else b"tpnode "
            self.expect("%s" % words, (run.returncode, run.stdout.startswith(begins), run.stderr), (0, True, b""))
        wrong = {b"'nod'": ["nod"], b"'--nmae'": ["node", "--nmae", "x"], b"'1'": ["make", "--nodes", "1"], b"'A'": ["node", "--name", "A"]}
        for named, words in wrong.items():
            run = self.run(words, folder)
            self.counts["words"] += 1
            lines = run.stderr.split(b"\n")
            self.expect("%s" % words, (run.returncode, lines[0], named in lines[1]), (2, b"tpnode: usage", True))

    # Why a line of a schedule is bad.

    def bad_lines(self) -> None:
        two = b"node 1 a\nnode 2 b under 1\n"
        wrong = {
            b"fly": b"word 1, `fly`, is not the first word of a line",
            b"do 70000 fly": b"word 3, `fly`, is not a request",
            b"do 70000 commit": b"word 2, `70000`, is not a number from 1 to 65535",
            b"do 2 data 1 AA": b"word 5, `AA`, is not octets: `-`, up to 2000 pairs of digits of 0 to 9 and a to f, or a pair, `*` and 1 to 2000",
            b"pass 1": b"it ends where a number from 1 to 65535 is due",
            b"drain 1": b"`1` is a word too much",
            b"node 3 b over 1": b"word 4, `over`, is not `under`",
            b"crash a at 100 fill 00 in retry 1": b"word 4, `100`, is not a number from 1 to 99",
            b"crash a at 1 fill 00 in drain": b"word 8, `drain`, is not the first word of an event's line",
            b"show \x07\xc3\xa9": b"word 2, `...`, is not a number from 1 to 65535",
            b"# " + 8191 * b"-": b"it has more than 8192 bytes",
            b"node 2 c": b"there is a node 2 already",
            b"node 3 c under 4": b"there is no node 4",
            b"do 2 commit\ndo 1 prepare 3": b"there is no node 3",
            b"image c": b"there is no site c",
            b"again 7": b"there is no frame 7",
            b"auto 1 4": b"there is no member 4",
            b"crash b at 1 fill 00 in retry 1": b"node 1 is not at site b",
            b"crash b at 1 fill 00 in again 1": b"there is no frame 1 to a node of site b",
        }
        folder = self.place()
        for line, why in wrong.items():
            given = two + line + b"\n" + two
            at = b"%d" % (3 + line.count(b"\n"))
            run = self.run(["replay"], folder, given)
            self.counts["words"] += 1
            said = run.stderr.split(b"\n")
            self.expect("%r" % line[:40], (run.returncode, said[0][:len(b"tpnode: bad input at ")], said[1:]),
                        (3, b"tpnode: bad input at ", [b"line " + at + b": " + why, b""]))

    def greetings(self) -> None:
        events = b"".join(wire.frame(body) for body in streams.subordinate(2))
        ready = b"".join(wire.frame(body) for body in streams.subordinate(3)[:-2])
        drive = [["drive", "--name", "b"]] if self.options.drive else []
        logs = {b"boot 2, 1 records, 0 in doubt": b"", b"boot 2, 7 records, 0 in doubt": events, b"boot 2, 8 records, 1 in doubt": ready}
        for words in [SITE, ["tx", "--name", "b"]] + drive:
            for said, given in logs.items():
                folder = self.place()
                (folder / "tp.log").write_bytes(wire.FRESH)
                self.expect("a site", self.run(SITE, folder, given).returncode, 0)
                run = self.run(words, folder, env={**os.environ, "TPNODE_SAY": "1"})
                self.counts["words"] += 1
                self.expect("%s, watched" % words[0], (run.returncode, run.stderr.split(b": ", 1)[-1]), (0, b"site b, " + said + b"\n"))


def become_nobody() -> None:
    os.setgroups([])
    os.setgid(NOBODY)
    os.setuid(NOBODY)


def main() -> None:
    parser = argparse.ArgumentParser(prog="trials/run edges")
    tools.add_program(parser, workers=True)
    tools.add_draw(parser)
    parser.add_argument("--short", action="store_true")
    options = parser.parse_args()
    tools.set_program(options, workers=True)
    tools.set_draw(options)
    folder = tempfile.mkdtemp(prefix="edges-")
    os.chmod(folder, 0o755)
    trial = Edges(options, folder)
    trial.beside_a_site()
    trial.without_a_file()
    trial.not_to_be_written()
    trial.broken_standard_error()
    trial.causes()
    trial.seals()
    trial.readers()
    trial.full_disks()
    trial.words()
    trial.bad_lines()
    trial.greetings()
    shutil.rmtree(folder)
    for name in trial.left_out:
        print("%s is left out: it wants to be root" % name)
    print("edges: %d faults, %s" % (len(trial.faults), tools.counted(trial.counts)))
    sys.exit(1 if trial.faults else 0)


if __name__ == "__main__":
    main()
