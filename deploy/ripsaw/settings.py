"""`site.toml`: what a site is told of itself and of its peers. docs/DEPLOYING.md explains each line."""
from __future__ import annotations

import ipaddress
import tomllib
from dataclasses import dataclass, field
from pathlib import Path
from typing import Any

from .wire import Address, is_site

MOST_NODES = 256  # declarations that one process `tpnode node` takes


class BadSettings(ValueError):
    """A line of site.toml that is missing or wrong; its text says which."""


@dataclass(frozen=True, slots=True)
class Span:
    """Node numbers from the first to the last, both among them."""

    first: int
    last: int

    @staticmethod
    def of(text: str, what: str) -> Span:
        first, _, last = text.partition("-")
        try:
            span = Span(int(first), int(last or first))
        except ValueError as error:
            raise BadSettings(f"{what}: {text!r} is no range of numbers, as \"1-32\"") from error
        if not 1 <= span.first <= span.last <= 65535:
            raise BadSettings(f"{what}: {text!r} is not within 1-65535")
        return span

    def __contains__(self, number: int) -> bool:
        return self.first <= number <= self.last

    def __iter__(self) -> Any:
        return iter(range(self.first, self.last + 1))

    def __len__(self) -> int:
        return self.last - self.first + 1

    def holds(self, other: Span) -> bool:
        return self.first <= other.first and other.last <= self.last

    def meets(self, other: Span) -> bool:
        return self.first <= other.last and other.first <= self.last

    def __str__(self) -> str:
        return f"{self.first}-{self.last}"


@dataclass(frozen=True, slots=True)
class Serves:
    """Nodes of ours that are branches of a peer's roots, one each, in their order."""

    roots: Span
    nodes: Span
    resource: str


@dataclass(frozen=True, slots=True)
class Peer:
    name: str
    host: str
    port: int
    nodes: Span
    branches: Span | None  # nodes of the peer that are branches of our roots, one each, in their order
    serves: Serves | None
    certificate: Path | None


@dataclass
class Settings:
    folder: Path
    name: str
    nodes: Span
    roots: Span | None
    resource: str  # of the roots
    host: str
    port: int
    status: tuple[str, int] | None
    socket: Path
    certificate: Path | None
    key: Path | None
    record: Path | None
    peers: dict[str, Peer]
    resources: dict[str, dict[str, Any]]
    calls: dict[str, list[str]]
    program: list[str] = field(default_factory=lambda: ["tpnode"])
    recycle_events: int = 900_000  # events of one process after which it is replaced by a new one
    recycle_wait: float = 30.0
    compact_bytes: int = 32 * 1024 * 1024
    patience: float = 10.0  # seconds for a free node, for an answer of a branch, for a commitment to be complete
    retry_least: float = 0.5
    retry_most: float = 30.0

    def branch_of(self, root: int, peer: Peer) -> Address | None:
        if self.roots is None or peer.branches is None or root - self.roots.first >= len(peer.branches):
            return None
        return Address(peer.name, peer.branches.first + root - self.roots.first)

    def superiors(self) -> dict[int, Address]:
        """Each branch of ours with its superior."""
        found = {}
        for peer in self.peers.values():
            if peer.serves is not None:
                for node, root in zip(peer.serves.nodes, peer.serves.roots):
                    found[node] = Address(peer.name, root)
        return found


def is_loopback(host: str) -> bool:
    try:
        return ipaddress.ip_address(host).is_loopback
    except ValueError:
        return host == "localhost"


def host_and_port(text: str, what: str) -> tuple[str, int]:
    host, _, port = text.rpartition(":")
    if not host or not port.isdigit() or not 0 < int(port) < 65536:
        raise BadSettings(f"{what}: {text!r} is no address, as \"10.0.0.1:7101\"")
    return host.strip("[]"), int(port)


class Table:
    """A table of a TOML file whose entries are asked for by name, and that knows which were not."""

    def __init__(self, entries: Any, what: str) -> None:
        if not isinstance(entries, dict):
            raise BadSettings(f"{what} is no table")
        self.entries, self.what, self.left = entries, what, set(entries)

    def get(self, name: str, kind: type, default: Any = None) -> Any:
        self.left.discard(name)
        found = self.entries.get(name, default)
        if found is not None and not isinstance(found, kind) and not (kind is float and isinstance(found, int)):
            raise BadSettings(f"{self.what}.{name} is {found!r}, and not of the type {kind.__name__}")
        return found

    def need(self, name: str, kind: type) -> Any:
        found = self.get(name, kind)
        if found is None:
            raise BadSettings(f"{self.what}.{name} is missing")
        return found

    def done(self) -> None:
        if self.left:
            raise BadSettings(f"{self.what}: nothing is known of {', '.join(sorted(self.left))}")


def read_peer(name: str, entries: Any, folder: Path) -> Peer:
    table = Table(entries, f"peers.{name}")
    if not is_site(name):
        raise BadSettings(f"peers.{name} is no name of a site: 1 to 16 of a-z and 0-9")
    host, port = host_and_port(table.need("address", str), f"peers.{name}.address")
    nodes = Span.of(table.need("nodes", str), f"peers.{name}.nodes")
    branches = table.get("branches", str)
    certificate = table.get("certificate", str)
    serves = None
    if table.get("serves", dict) is not None:
        part = Table(table.get("serves", dict), f"peers.{name}.serves")
        serves = Serves(Span.of(part.need("roots", str), f"{part.what}.roots"), Span.of(part.need("nodes", str), f"{part.what}.nodes"),
                        part.get("resource", str, "main"))
        part.done()
        if len(serves.roots) != len(serves.nodes) or not nodes.holds(serves.roots):
            raise BadSettings(f"{part.what}: roots are as many as nodes, and among peers.{name}.nodes")
    table.done()
    span = None if branches is None else Span.of(branches, f"peers.{name}.branches")
    if span is not None and not nodes.holds(span):
        raise BadSettings(f"peers.{name}.branches is not among peers.{name}.nodes")
    return Peer(name, host, port, nodes, span, serves, None if certificate is None else folder / certificate)


def check(settings: Settings) -> None:
    """What no single line can say."""
    spans = [("nodes", settings.nodes)] + [(f"peers.{it.name}.nodes", it.nodes) for it in settings.peers.values()]
    for k, (what, span) in enumerate(spans):
        for other_what, other in spans[:k]:
            if span.meets(other):
                raise BadSettings(f"{what} {span} meets {other_what} {other}: no two sites share a number")
    ours = [] if settings.roots is None else [settings.roots]
    ours += [it.serves.nodes for it in settings.peers.values() if it.serves is not None]
    for k, span in enumerate(ours):
        if not settings.nodes.holds(span) or any(span.meets(other) for other in ours[:k]):
            raise BadSettings(f"{span}: roots and served nodes are among nodes {settings.nodes}, and no two of them meet")
    if sum(map(len, ours)) > MOST_NODES:
        raise BadSettings(f"a site has at most {MOST_NODES} nodes")
    if settings.name in settings.peers:
        raise BadSettings(f"peers.{settings.name} is the site itself")
    named = [settings.resource] + [it.serves.resource for it in settings.peers.values() if it.serves is not None]
    for name in named:
        if name not in settings.resources:
            raise BadSettings(f"resources.{name} is missing")
    secured = [it.certificate is not None for it in settings.peers.values()]
    if any(secured) or settings.certificate is not None:
        if not all(secured) or settings.certificate is None or settings.key is None:
            raise BadSettings("certificate, key and a certificate of each peer: all of them, or none")
    elif not all(is_loopback(host) for host in [settings.host] + [it.host for it in settings.peers.values()]):
        raise BadSettings("an address that is not loopback wants certificates: certificate, key, and one of each peer")
    if settings.status is not None and not is_loopback(settings.status[0]):
        raise BadSettings("status is an address of loopback: whoever reads it from afar goes through something that asks who they are")


def read(folder: Path) -> Settings:
    """The settings of the site in this folder."""
    try:
        with open(folder / "site.toml", "rb") as file:
            table = Table(tomllib.load(file), "site")
    except OSError as error:
        raise BadSettings(f"{folder / 'site.toml'}: {error.strerror}") from error
    except tomllib.TOMLDecodeError as error:
        raise BadSettings(f"{folder / 'site.toml'}: {error}") from error
    name = table.need("name", str)
    if not is_site(name):
        raise BadSettings(f"name {name!r} is no name of a site: 1 to 16 of a-z and 0-9")
    host, port = host_and_port(table.need("listen", str), "listen")
    roots, status = table.get("roots", str), table.get("status", str)
    certificate, key, record = table.get("certificate", str), table.get("key", str), table.get("record", str)
    calls = table.get("calls", dict, {})
    settings = Settings(
        folder=folder, name=name, nodes=Span.of(table.need("nodes", str), "nodes"),
        roots=None if roots is None else Span.of(roots, "roots"), resource=table.get("resource", str, "main"), host=host, port=port,
        status=None if status is None else host_and_port(status, "status"), socket=folder / table.get("socket", str, "site.sock"),
        certificate=None if certificate is None else folder / certificate, key=None if key is None else folder / key,
        record=None if record is None else folder / record,
        peers={it: read_peer(it, entries, folder) for it, entries in table.get("peers", dict, {}).items()},
        resources=table.get("resources", dict, {"main": {"kind": "none"}}),
        calls={it: [text] if isinstance(text, str) else list(text) for it, text in calls.items()})
    program = table.get("program", str)
    if program is not None:
        settings.program = program.split()
    for option in ("recycle_wait", "patience", "retry_least", "retry_most"):
        setattr(settings, option, float(table.get(option, float, getattr(settings, option))))
    for option in ("recycle_events", "compact_bytes"):
        setattr(settings, option, table.get(option, int, getattr(settings, option)))
    table.done()
    check(settings)
    return settings
