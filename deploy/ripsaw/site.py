"""One site as a daemon: the process `tpnode node`, the nodes' users, the carrier, the port for applications, the status page."""
from __future__ import annotations

import asyncio
import contextlib
import fcntl
import os
import signal
import subprocess
import sys
import time
from collections import Counter
from collections.abc import Callable
from concurrent.futures import ThreadPoolExecutor
from typing import TypeVar

from . import log, wire
from .carrier import Carrier
from .engine import Engine, Then
from .nodes import BranchNode, Node, Phase, Root, Transaction
from .port import Port
from .record import Recorder
from .resource import NoResource, Resource, resource_of
from .settings import Settings
from .status import StatusPage

TICK = 0.05
LOCK_PATIENCE = float(os.environ.get("RIPSAW_LOCK_SECONDS", "30"))
FOREIGN, LIMIT, DISK = 5, 4, 8  # statuses of tpnode
REFUSED = ("\ntp.seal: the log ", "\ntp.seal: it is no seal")  # what it says of a log that is not the one which was sealed
T = TypeVar("T")


class SiteFailed(Exception):
    """The site cannot run; its text says why."""


class Site:
    def __init__(self, settings: Settings) -> None:
        self.settings = settings
        self.log = settings.folder / "tp.log"
        self.counts: Counter[str] = Counter()
        self.began = time.time()
        self.threads = ThreadPoolExecutor(max_workers=256, thread_name_prefix="resource")
        self.resources: dict[str, Resource] = {}
        self.nodes: dict[int, Node] = {}
        self.roots: list[Root] = []
        self.engine: Engine | None = None
        self.standing = log.Standing()
        self.follower = log.Follower(self.log)
        self.recorder: Recorder | None = None
        self.draining, self.stopping = False, asyncio.Event()
        self.waiting: list[asyncio.Future[None]] = []  # for a free root
        self.resting: set[str] = set()  # peers that are about to stop
        self.missing: list[str] = []  # what a node is ready to commit and its resource has not

    # Life.

    async def run(self) -> None:
        """From a start to SIGTERM."""
        lock = await self.take_lock()
        try:
            self.make_nodes()
            self.carrier = Carrier(self.settings, self.next_incarnation(), self)
            self.port, self.page = Port(self), StatusPage(self)
            await self.launch(lock)
            await self.carrier.start()
            await self.port.start()
            await self.page.start()
            loop = asyncio.get_running_loop()
            for sign in (signal.SIGTERM, signal.SIGINT):
                loop.add_signal_handler(sign, self.stopping.set)
            ticking = asyncio.create_task(self.tick())
            try:
                await self.supervise(lock)
            finally:
                ticking.cancel()
                await self.port.stop()
                await self.carrier.stop()
                await self.page.stop()
        finally:
            if self.engine is not None:
                self.engine.kill()
            for resource in self.resources.values():
                resource.close()
            self.threads.shutdown(wait=False, cancel_futures=True)
            os.close(lock)

    async def take_lock(self) -> int:
        """No two daemons run on one folder, and none beside a process that an earlier one has left."""
        lock = os.open(self.settings.folder / "site.lock", os.O_RDWR | os.O_CREAT, 0o600)
        end = time.monotonic() + LOCK_PATIENCE
        while True:
            try:
                fcntl.flock(lock, fcntl.LOCK_EX | fcntl.LOCK_NB)
                return lock
            except BlockingIOError:
                if time.monotonic() > end:
                    raise SiteFailed(f"another process runs on {self.settings.folder}") from None
                await asyncio.sleep(0.02)

    def next_incarnation(self) -> int:
        """Greater than all before it, also where the clock was set back."""
        path = self.settings.folder / "incarnation"
        try:
            last = int(path.read_text())
        except (OSError, ValueError):
            last = 0
        number = max(last + 1, time.time_ns())
        new = path.with_suffix(".new")  # (a stop or a full disk leaves the old one whole)
        new.write_text(f"{number}\n")
        new.replace(path)
        return number

    def make_nodes(self) -> None:
        settings = self.settings
        self.resources = {name: resource_of(settings, name) for name in settings.resources}
        for number in settings.roots or ():
            branches = {peer.name: it for peer in settings.peers.values() if (it := settings.branch_of(number, peer)) is not None}
            root = Root(self, settings.name, number, branches, self.resources[settings.resource], settings.retry_least, settings.retry_most)
            self.roots.append(root)
            self.nodes[number] = root
        for peer in settings.peers.values():
            if peer.serves is not None:
                for number, above in zip(peer.serves.nodes, peer.serves.roots):
                    self.nodes[number] = BranchNode(self, number, wire.Address(peer.name, above), self.resources[peer.serves.resource],
                                                    settings.retry_least, settings.retry_most)

    async def launch(self, lock: int) -> None:
        """Starts the process on the log, declares its nodes, and lets each go on with what the log says that it has."""
        try:
            content = self.log.read_bytes()
        except FileNotFoundError as error:
            raise SiteFailed(f"{self.log} is missing: for a new site `tpnode format` makes it, and else bring the old one") from error
        if content[:4] != b"OTPL":
            raise SiteFailed(f"{self.log} is no log")
        self.standing = log.standing(content)
        self.follower = log.Follower(self.log)
        await self.recover()
        if self.settings.record is not None:
            if self.recorder is None:
                self.recorder = Recorder(self.settings.record, self.settings.name)
            forced = Counter(it.node for it in self.standing.since_boot)
            self.recorder.add("start", self.settings.name, str(self.standing.boot + 1), *(f"{node}:{count}" for node, count in forced.items()))
            self.recorder.flush()
        self.engine = await Engine.start(self.settings.program, self.settings.name, self.settings.folder, lock, self.given, self.written, self.answered)
        self.counts["starts"] += 1
        superiors = self.settings.superiors()
        known = {node for node, _ in self.standing.last} - set(self.nodes)
        for number in self.nodes:
            self.give(wire.Declare(number, superiors.get(number)))
        for node in self.nodes.values():
            node.restarted(self.standing)
            self.give(wire.Retry(node.number), node.retried)
        for number in known:
            self.note(f"node {number} has something open in the log, and site.toml does not name it")
            self.give(wire.Retry(number))

    async def recover(self) -> None:
        self.missing = []
        for name, resource in self.resources.items():
            prepared = set()
            pause = 0.05
            while True:
                try:
                    prepared = {(it.node, it.tree) for it in await self.thread(resource.recover)}
                    break
                except Exception as error:
                    self.note(f"resource {name}: recover: {error}")
                    await asyncio.sleep(pause)
                    pause = min(2 * pause, 5.0)
                    if self.stopping.is_set():
                        raise SiteFailed(f"resource {name} could not recover") from error
            for node, tree in prepared:
                if node not in self.nodes:
                    self.note(f"resource {name} holds back {node}/{tree}, and site.toml does not name that node")
            for (node, tree), last in self.standing.last.items():
                if last.kind is log.Kind.READY and (node, tree) not in prepared and node in self.nodes:
                    if self.nodes[node].resource is resource and not isinstance(resource, NoResource):
                        self.missing.append(f"{node}/{tree}")
                        self.note(f"node {node} is in doubt of {tree}, and its resource has nothing of it")

    async def supervise(self, lock: int) -> None:
        """Starts the process anew where it ended, or where its events are used up, until the site is to stop."""
        pause = 0.1
        while True:
            assert self.engine is not None
            engine = self.engine
            stop = asyncio.create_task(self.stopping.wait())
            full = asyncio.create_task(self.used_up(engine))
            over = asyncio.create_task(engine.over())
            await asyncio.wait({stop, full, over}, return_when=asyncio.FIRST_COMPLETED)
            stop.cancel()
            full.cancel()
            if not engine.ended.done():
                pause = 0.1
                await self.drain(engine)
            status = await engine.ended
            if self.recorder is not None:
                self.recorder.add("end", str(status))
                self.written()
            if self.stopping.is_set():
                return
            await self.between(engine, status)
            if status != 0:
                await asyncio.sleep(pause)
                pause = min(2 * pause, 5.0) if engine.events < 10_000 else 0.1
            self.draining = False
            await self.launch_again(lock)

    async def launch_again(self, lock: int) -> None:
        """Where the disk has no room for what a start writes, it waits until it has."""
        pause = 0.1
        while True:
            try:
                incarnation = self.next_incarnation()
                await self.launch(lock)
                break
            except OSError as error:
                self.note(f"cannot start anew: {error}")
                if self.stopping.is_set():
                    raise
            await asyncio.sleep(pause)
            pause = min(2 * pause, 5.0)
        await self.carrier.begin_again(incarnation)

    async def used_up(self, engine: Engine) -> None:
        while engine.events < self.settings.recycle_events:
            await asyncio.sleep(0.2)

    async def drain(self, engine: Engine) -> None:
        """Nothing new is begun, here or by a peer; the input ends once all nodes are idle, or after so long a wait."""
        self.draining = True
        self.carrier.pause()
        end = time.monotonic() + (min(5.0, self.settings.recycle_wait) if self.stopping.is_set() else self.settings.recycle_wait)
        while time.monotonic() < end and not engine.ended.done() and any(
                node.phase is not Phase.IDLE or node.working is not None for node in self.nodes.values()):
            await asyncio.sleep(0.02)
        engine.close()
        with contextlib.suppress(TimeoutError):
            async with asyncio.timeout(10):
                await asyncio.shield(engine.ended)
        engine.kill()

    async def between(self, engine: Engine, status: int) -> None:
        """The process has ended: why is told, and a long log is made short."""
        said = engine.said.decode(errors="replace").strip()
        if status != 0:
            self.counts["ends"] += 1
            self.note(f"tpnode has ended with {status}: {said}")
        if status == FOREIGN or (status == DISK and any(it in said for it in REFUSED)):
            raise SiteFailed(f"{self.log}: {said}")
        if self.log.stat().st_size > self.settings.compact_bytes or (status == LIMIT and "limit log" in said):
            try:
                await self.compact()
            except OSError as error:
                self.note(f"the log is not compacted: {error}")

    async def compact(self) -> None:
        """Commits that the compaction takes away are written down first: `outcome` looks for them there."""
        with open(self.settings.folder / "committed", "a", encoding="ascii") as file:
            for tree in log.committed(self.log.read_bytes(), self.settings.name):
                file.write(f"{tree}\n")
            file.flush()
            os.fsync(file.fileno())
        ran = await asyncio.create_subprocess_exec(*self.settings.program, "compact", cwd=self.settings.folder, stderr=subprocess.PIPE)
        said = (await ran.communicate())[1].decode(errors="replace").strip()
        self.counts["compactions"] += 1
        if ran.returncode != 0:
            self.note(f"tpnode compact has ended with {ran.returncode}: {said}")

    async def tick(self) -> None:
        """What time brings: retries, dialogues, roots that are free again."""
        while True:
            now = time.monotonic()
            if self.engine is not None and not self.engine.closing:
                for node in self.nodes.values():
                    if node.wants_retry(now):
                        node.retry(now)
                if not self.draining:
                    for root in self.roots:
                        root.open_dialogues(now)
            self.wake()
            await asyncio.sleep(TICK)

    # What the nodes ask.

    def give(self, event: wire.Event, then: Then = None) -> None:
        if self.engine is not None:
            self.engine.give(event, then)

    async def thread(self, call: Callable[..., T], *words: object) -> T:
        return await asyncio.get_running_loop().run_in_executor(self.threads, call, *words)

    def note(self, what: str) -> None:
        self.counts["notes"] += 1
        with contextlib.suppress(OSError):  # (where it goes may be a file on a full disk)
            print(f"{time.strftime('%H:%M:%S')} {self.settings.name}: {what}", file=sys.stderr, flush=True)

    def freed(self, node: Node) -> None:
        if isinstance(node, Root) and self.waiting:
            self.wake()

    def wake(self) -> None:
        for it in self.waiting:
            if not it.done():
                it.set_result(None)
        self.waiting.clear()

    def reaches(self, site: str) -> bool:
        return self.carrier.reaches(site) and site not in self.resting

    def lose_pair(self, node: int, peer: wire.Address) -> None:
        self.give(wire.Lose(node, peer.node))
        self.carrier.reset(peer.site, node, peer.node)

    # What the engine says.

    def given(self, event: wire.Event) -> None:
        if self.recorder is not None:
            self.recorder.given(event)

    def written(self) -> bool:
        """The record has what is now acted upon; where the disk has no room for it, the process is started anew."""
        try:
            if self.recorder is not None:
                self.recorder.flush()
        except OSError as error:
            self.note(f"the record: {error}")
            if self.engine is not None:
                self.engine.kill()
            return False
        return True

    def answered(self, event: wire.Event, outputs: list[wire.Output]) -> None:
        self.counts["events"] += 1
        if self.recorder is not None:
            self.recorder.answered(outputs)
        if not self.written():
            return
        for output in outputs:
            if isinstance(output, wire.Send):
                self.carrier.send(output)
            elif isinstance(output, wire.Tell):
                node = self.nodes.get(output.node)
                if node is not None:
                    node.told(output.indication)
            elif isinstance(output, wire.Refused):
                self.counts[f"refused {output.number}"] += 1

    # What the carrier says.

    def arrived(self, sender: wire.Address, target: wire.Address, octets: bytes) -> None:
        self.give(wire.Arrive(sender, target, octets))

    def reset(self, site: str, theirs: int, ours: int) -> None:
        node = self.nodes.get(ours)
        if isinstance(node, Root):
            node.lose(site)
        if node is not None:
            self.give(wire.Lose(ours, theirs))

    def lose(self, site: str) -> None:
        """A connection with this peer is broken, or the peer has started anew: every association with it is lost."""
        for node in self.nodes.values():
            if isinstance(node, Root) and site in node.arcs:
                node.lose(site)
                self.give(wire.Lose(node.number, node.arcs[site].peer.node))
            elif isinstance(node, BranchNode) and node.superior.site == site:
                self.give(wire.Lose(node.number, node.superior.node))

    def connected(self, site: str) -> None:
        """A peer greets: what waits for it need wait no longer."""
        self.resting = self.resting - {site}
        if not self.carrier.reaches(site):
            return
        for node in self.nodes.values():
            if isinstance(node, BranchNode) and node.superior.site == site or isinstance(node, Root) and site in node.arcs:
                node.retry_at, node.pause = 0.0, node.retry_least

    def paused(self, site: str) -> None:
        self.resting = self.resting | {site}

    async def room(self) -> None:
        if self.engine is not None:
            await self.engine.has_room.wait()

    # What an application asks.

    async def begin(self, sites: list[str]) -> Transaction:
        """A transaction at a free root that has a dialogue with each of these; the settings say how long one is waited for."""
        end = time.monotonic() + self.settings.patience
        for name in sites:
            if not any(name in it.arcs for it in self.roots):
                raise ValueError(f"no root has a branch at {name}")
        while True:
            settled = [] if self.draining else [it for it in self.roots if it.settled() and all(it.arcs[name].live for name in sites)]
            found = next((it for it in settled if it.whole()), None) or (settled[0] if settled else None)
            if found is not None and self.engine is not None and not self.engine.ended.done():
                return found.begin()
            left = end - time.monotonic()
            if left <= 0:
                raise TimeoutError(" ".join(["no root is free", *(["that reaches"] + sites if sites else [])]))
            wait: asyncio.Future[None] = asyncio.get_running_loop().create_future()
            self.waiting.append(wait)
            await asyncio.wait({wait}, timeout=left)

    async def outcome(self, tree: wire.Identifier) -> str:
        """What became of a tree of one of our roots: commit, rollback, or open."""
        if tree.site != self.settings.name:
            raise ValueError(f"the root of {tree} is at {tree.site}, and is asked there")
        root = self.nodes.get(tree.node)
        if isinstance(root, Root) and root.tree == tree and root.phase is not Phase.COMMITTING:
            return "open"
        return await self.thread(self.read_outcome, tree)

    def read_outcome(self, tree: wire.Identifier) -> str:
        if tree in log.committed(self.log.read_bytes(), self.settings.name):
            return "commit"
        with contextlib.suppress(FileNotFoundError), open(self.settings.folder / "committed", encoding="ascii") as file:
            if any(line.strip() == str(tree) for line in file):
                return "commit"
        return "rollback"
