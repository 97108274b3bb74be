"""Frames between sites over TCP.

Each site opens one connection to each peer and sends on it; what comes on it from the other side is its greeting alone. A message is a
frame as those of `tpnode node`: a length of two bytes, and a body.

    50  greeting   name, incarnation u64, first and last node number u16, the first message of either side
    51  record     sender's address, target's address, octets: what a Send has
    52  reset      node of the sender, node of the receiver: give Lose for this pair, as the sender did
    53  alive      now and then, where nothing else is said
    54  pause      the sender is about to stop: begin nothing new with it until it greets again

Where certificates are named both sides show theirs over TLS, and a connection is the peer's whose certificate it has, to the byte.
Without them the greeting is believed, so that this is for loopback alone. A record counts only where its sender's site is that peer.
"""
from __future__ import annotations

import asyncio
import contextlib
import socket
import ssl
import struct
from collections import Counter, deque
from typing import Protocol

from . import wire
from .settings import Peer, Settings

GREETING, RECORD, RESET, ALIVE, PAUSE = 0x50, 0x51, 0x52, 0x53, 0x54
MOST_STRANGERS = 128  # connections that have not said yet whose they are
MOST_QUEUED = 8192  # messages that wait for a peer
PATIENCE = 5.0  # seconds for a greeting
SILENCE = 20.0  # seconds without a message after which a connection is taken for broken
ALIVE_EVERY = 5.0
LEAST_PAUSE, MOST_PAUSE = 0.05, 5.0


class Stranger(Exception):
    """A connection that is not taken; the word is counted in the metrics."""


class Around(Protocol):
    """What the carrier asks of the site."""

    def arrived(self, sender: wire.Address, target: wire.Address, octets: bytes) -> None: ...
    def reset(self, site: str, theirs: int, ours: int) -> None: ...
    def lose(self, site: str) -> None: ...
    def connected(self, site: str) -> None: ...
    def paused(self, site: str) -> None: ...
    async def room(self) -> None: ...


class Messages:
    """Bodies from a stream."""

    def __init__(self, reader: asyncio.StreamReader) -> None:
        self.reader = reader

    async def next(self, seconds: float) -> bytes:
        async with asyncio.timeout(seconds):
            head = await self.reader.readexactly(2)
            size = head[0] << 8 | head[1]
            if not 1 <= size <= wire.MOST_BODY:
                raise Stranger("frame")
            return await self.reader.readexactly(size)


class Link:
    """The way to one peer: a connection that is made again with growing pauses, and a queue of what it is to carry."""

    def __init__(self, carrier: Carrier, peer: Peer) -> None:
        self.carrier, self.peer = carrier, peer
        self.queue: deque[bytes] = deque()
        self.wake = asyncio.Event()
        self.open = self.up = False  # it takes messages; the peer has greeted
        self.incarnation = 0
        self.overflown = False

    def put(self, body: bytes) -> None:
        """Without a connection, or where too much waits, it is dropped: the service bears loss, and Lose follows."""
        counts = self.carrier.counts
        if not self.open or self.overflown:
            counts["dropped"] += 1
            return
        if len(self.queue) >= MOST_QUEUED:
            counts["overflows"] += 1
            self.overflown = True
        self.queue.append(wire.frame(body))
        self.wake.set()

    async def run(self) -> None:
        """As long as it is the carrier's link to this peer: two would throw out each other's connections for ever."""
        pause = LEAST_PAUSE
        while self.carrier.links.get(self.peer.name) is self:
            try:
                await self.connection()
                pause = LEAST_PAUSE
            except Stranger as error:
                self.carrier.refuse(str(error))
            except (OSError, asyncio.IncompleteReadError, TimeoutError):
                pass
            if self.up:
                pause = LEAST_PAUSE
            was_up, self.open, self.up, self.overflown = self.up, False, False, False
            self.queue.clear()
            if was_up:
                self.carrier.counts["broken"] += 1
                self.carrier.around.lose(self.peer.name)
            await asyncio.sleep(pause)
            pause = min(2 * pause, MOST_PAUSE)

    async def connection(self) -> None:
        carrier, peer = self.carrier, self.peer
        async with asyncio.timeout(PATIENCE):
            reader, writer = await asyncio.open_connection(peer.host, peer.port, ssl=carrier.secured, server_hostname="" if carrier.secured else None)
        try:
            never_late(writer)
            carrier.check_certificate(writer, peer)
            self.queue.clear()
            self.queue.append(wire.frame(carrier.greeting()))
            self.open = True
            sending = asyncio.create_task(self.send(writer))
            try:
                messages = Messages(reader)
                name, incarnation = carrier.greeted(await messages.next(PATIENCE))
                if name != peer.name:
                    raise Stranger("name")
                if incarnation < self.incarnation:
                    raise Stranger("old")
                self.incarnation, self.up = incarnation, True
                carrier.around.connected(peer.name)
                # (nothing more is said on this side: what is waited for is the end)
                reading = asyncio.create_task(reader.read(1))
                await asyncio.wait({sending, reading}, return_when=asyncio.FIRST_COMPLETED)
                reading.cancel()
                await asyncio.gather(reading, return_exceptions=True)
            finally:
                sending.cancel()
                await asyncio.gather(sending, return_exceptions=True)  # (what ends the link itself is not held back here)
        finally:
            writer.transport.abort()

    async def send(self, writer: asyncio.StreamWriter) -> None:
        while not self.overflown:
            if not self.queue:
                self.wake.clear()
                with contextlib.suppress(TimeoutError):
                    async with asyncio.timeout(ALIVE_EVERY):
                        await self.wake.wait()
            pieces = list(self.queue) or [wire.frame(bytes([ALIVE]))]
            self.queue.clear()
            writer.write(b"".join(pieces))
            async with asyncio.timeout(SILENCE):
                await writer.drain()


def never_late(writer: asyncio.StreamWriter) -> None:
    """Small messages go at once, and a peer that is gone without a word is noticed."""
    sock = writer.get_extra_info("socket")
    sock.setsockopt(socket.IPPROTO_TCP, socket.TCP_NODELAY, 1)
    sock.setsockopt(socket.IPPROTO_TCP, getattr(socket, "TCP_USER_TIMEOUT"), int(SILENCE * 1000))


class Carrier:
    def __init__(self, settings: Settings, incarnation: int, around: Around) -> None:
        self.settings, self.incarnation, self.around = settings, incarnation, around
        self.counts: Counter[str] = Counter()
        self.refused: Counter[str] = Counter()
        self.links = {name: Link(self, peer) for name, peer in settings.peers.items()}
        self.incoming: dict[str, asyncio.StreamWriter] = {}
        self.known: dict[str, int] = {}  # the incarnation with which each peer greeted last
        self.strangers = 0
        self.tasks: set[asyncio.Task[None]] = set()
        self.server: asyncio.Server | None = None
        self.secured = self.context(ssl.PROTOCOL_TLS_CLIENT)
        self.serving = self.context(ssl.PROTOCOL_TLS_SERVER)
        self.certificates = {name: ssl.PEM_cert_to_DER_cert(peer.certificate.read_text("ascii"))
                             for name, peer in settings.peers.items() if peer.certificate is not None}

    def context(self, side: int) -> ssl.SSLContext | None:
        """TLS 1.3 with our certificate, and none but the peers' own believed."""
        if self.settings.certificate is None or self.settings.key is None:
            return None
        context = ssl.SSLContext(side)
        context.minimum_version = ssl.TLSVersion.TLSv1_3
        context.check_hostname = False
        context.verify_mode = ssl.CERT_REQUIRED
        context.load_cert_chain(self.settings.certificate, self.settings.key)
        for peer in self.settings.peers.values():
            context.load_verify_locations(peer.certificate)
        return context

    async def start(self) -> None:
        self.server = await asyncio.start_server(self.serve, self.settings.host, self.settings.port, backlog=1024)
        for link in self.links.values():
            self.tasks.add(asyncio.create_task(link.run()))

    async def stop(self) -> None:
        if self.server is not None:
            self.server.close()
        for task in self.tasks:
            task.cancel()
        for writer in self.incoming.values():
            writer.transport.abort()

    async def begin_again(self, incarnation: int) -> None:
        """The site has started anew: so does every connection."""
        self.incarnation = incarnation
        for task in self.tasks:
            task.cancel()
        for writer in list(self.incoming.values()):
            writer.transport.abort()
        self.incoming.clear()
        self.links = {name: Link(self, peer) for name, peer in self.settings.peers.items()}
        self.tasks = {asyncio.create_task(link.run()) for link in self.links.values()}

    def refuse(self, why: str) -> None:
        self.refused[why] += 1

    # What goes out.

    def send(self, sent: wire.Send) -> None:
        link = self.links.get(sent.target.site)
        if link is None:
            self.counts["dropped"] += 1
            return
        self.counts["sent"] += 1
        link.put(bytes([RECORD]) + sent.body()[1:])

    def reset(self, site: str, ours: int, theirs: int) -> None:
        self.links[site].put(struct.pack(">BHH", RESET, ours, theirs))

    def pause(self) -> None:
        for link in self.links.values():
            link.put(bytes([PAUSE]))

    def reaches(self, site: str) -> bool:
        """Both ways to this peer are open."""
        return self.links[site].up and site in self.incoming

    def greeting(self) -> bytes:
        span = self.settings.nodes
        return bytes([GREETING]) + wire.text_of_site(self.settings.name) + struct.pack(">QHH", self.incarnation, span.first, span.last)

    # What comes in.

    def greeted(self, body: bytes) -> tuple[str, int]:
        """The name and the incarnation of a greeting; its numbers must be those that are written down for this peer."""
        try:
            reader = wire.Reader(body)
            if reader.u8() != GREETING:
                raise Stranger("greeting")
            name, incarnation, first, last = reader.site(), reader.u64(), reader.u16(), reader.u16()
            reader.end()
        except wire.BadBody as error:
            raise Stranger("greeting") from error
        peer = self.settings.peers.get(name)
        if peer is None:
            raise Stranger("name")
        if (first, last) != (peer.nodes.first, peer.nodes.last):
            raise Stranger("numbers")
        return name, incarnation

    def check_certificate(self, writer: asyncio.StreamWriter, peer: Peer) -> None:
        shown = writer.get_extra_info("ssl_object")
        if self.secured is not None and (shown is None or shown.getpeercert(True) != self.certificates[peer.name]):
            raise Stranger("certificate")

    async def serve(self, reader: asyncio.StreamReader, writer: asyncio.StreamWriter) -> None:
        """One connection that somebody opened to us."""
        peer = None
        try:
            if self.strangers >= MOST_STRANGERS:
                raise Stranger("crowd")
            self.strangers += 1
            try:
                peer, incarnation = await self.welcome(reader, writer)
            finally:
                self.strangers -= 1
            if peer.name in self.incoming:
                self.incoming.pop(peer.name).transport.abort()
                self.around.lose(peer.name)
            elif incarnation != self.known.get(peer.name):
                self.around.lose(peer.name)
            self.known[peer.name], self.incoming[peer.name] = incarnation, writer
            writer.write(wire.frame(self.greeting()))
            self.around.connected(peer.name)
            await self.take(peer, Messages(reader), writer)
        except Stranger as error:
            self.refuse(str(error))
        except ssl.SSLError:
            self.refuse("tls")
        except (OSError, TimeoutError, asyncio.IncompleteReadError):
            if peer is None:
                self.refuse("silent")
        except asyncio.CancelledError:
            pass  # (the site stops)
        finally:
            writer.transport.abort()
            if peer is not None and self.incoming.get(peer.name) is writer:
                del self.incoming[peer.name]
                self.counts["broken"] += 1
                self.around.lose(peer.name)

    async def welcome(self, reader: asyncio.StreamReader, writer: asyncio.StreamWriter) -> tuple[Peer, int]:
        async with asyncio.timeout(PATIENCE):
            if self.serving is not None:
                await writer.start_tls(self.serving, ssl_handshake_timeout=PATIENCE)
            name, incarnation = self.greeted(await Messages(reader).next(PATIENCE))
        peer = self.settings.peers[name]
        self.check_certificate(writer, peer)
        if incarnation < self.known.get(name, 0):
            raise Stranger("old")
        never_late(writer)
        return peer, incarnation

    async def take(self, peer: Peer, messages: Messages, writer: asyncio.StreamWriter) -> None:
        """What a peer says, until its connection ends."""
        while True:
            body = await messages.next(SILENCE)
            if self.incoming.get(peer.name) is not writer:
                return
            try:
                self.take_message(peer, body)
            except wire.BadBody as error:
                raise Stranger("message") from error
            await self.around.room()

    def take_message(self, peer: Peer, body: bytes) -> None:
        reader = wire.Reader(body)
        code = reader.u8()
        if code == RECORD:
            sender, target, octets = reader.address(), reader.address(), reader.octets(2000)
            if sender.site != peer.name or sender.node not in peer.nodes:
                raise Stranger("sender")
            self.counts["taken"] += 1
            self.around.arrived(sender, target, octets)
        elif code == RESET:
            theirs, ours = reader.u16(), reader.u16()
            if theirs not in peer.nodes:
                raise Stranger("sender")
            self.around.reset(peer.name, theirs, ours)
        elif code == PAUSE:
            self.around.paused(peer.name)
        elif code != ALIVE:
            raise Stranger("message")
        reader.end()
