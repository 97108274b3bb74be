"""What a branch changes: a resource does the work of its nodes' transactions, and keeps or drops it as they end.

A node has one transaction at a time, so the number of a node names what its resource does for it. From `prepare` on the tree's identifier
stands beside it, since a stop may come in between.
"""
from __future__ import annotations

import importlib.util
import sys
from dataclasses import dataclass
from enum import Enum
from pathlib import Path
from typing import Any, Protocol

from .settings import BadSettings, Settings
from .wire import Identifier


@dataclass(frozen=True, slots=True)
class Branch:
    """The part of one node in one tree."""

    node: int
    tree: Identifier

    def __str__(self) -> str:
        return f"{self.node}/{self.tree}"

    @staticmethod
    def of(text: str) -> Branch:
        node, _, tree = text.partition("/")
        return Branch(int(node), Identifier.of(tree))


class Vote(Enum):
    READY = "ready"  # it can commit and roll back, whatever stops
    ROLLBACK = "rollback"  # it cannot promise that
    UNCHANGED = "unchanged"  # it changed nothing, and need not be told how the tree ends


class WorkFailed(Exception):
    """The work cannot be done, as its text says; the tree rolls back."""


class Resource(Protocol):
    """Each call is made in a thread, one at a time for a node; those of different nodes may run at once."""

    def work(self, node: int, data: bytes) -> bytes:
        """Does what the octets of a call say, for the transaction that this node has; raises WorkFailed where it cannot."""
        ...

    def execute(self, node: int, data: bytes) -> bytes:
        """The same for an application of this site itself, which may say more than a peer may."""
        ...

    def prepare(self, branch: Branch) -> Vote:
        """After READY both `commit` and `rollback` must succeed, also after a stop of this or of the database."""
        ...

    def commit(self, branch: Branch) -> None:
        """Keeps what was prepared. It may come again: then, and where nothing is prepared, nothing happens."""
        ...

    def rollback(self, node: int) -> None:
        """Drops what this node did, prepared or not. It may come again."""
        ...

    def recover(self) -> list[Branch]:
        """Drops what was not prepared before a stop, and tells what was."""
        ...

    def close(self) -> None: ...


class NoResource:
    """For what keeps nothing: it answers each call with its own octets, and can always commit."""

    def __init__(self) -> None:
        self.worked: set[int] = set()

    def work(self, node: int, data: bytes) -> bytes:
        self.worked.add(node)
        return data

    execute = work

    def prepare(self, branch: Branch) -> Vote:
        return Vote.READY if branch.node in self.worked else Vote.UNCHANGED

    def commit(self, branch: Branch) -> None:
        self.worked.discard(branch.node)

    def rollback(self, node: int) -> None:
        self.worked.discard(node)

    def recover(self) -> list[Branch]:
        return []

    def close(self) -> None:
        pass


def from_file(settings: Settings, kind: str, options: dict[str, Any]) -> Resource:
    """The class CLASS of FILE.py in the site's folder, of the kind "FILE.py:CLASS"."""
    file, _, name = kind.partition(":")
    path = Path(settings.folder, file)
    spec = importlib.util.spec_from_file_location(path.stem, path)
    if spec is None or spec.loader is None or not path.is_file():
        raise BadSettings(f"resources: there is no {path}")
    module = importlib.util.module_from_spec(spec)
    sys.modules[path.stem] = module
    spec.loader.exec_module(module)
    found: Resource = getattr(module, name)(settings, **options)
    return found


def resource_of(settings: Settings, name: str) -> Resource:
    """The resource that site.toml has under this name."""
    options = dict(settings.resources[name])
    kind = options.pop("kind", None)
    try:
        if kind == "none":
            return NoResource(**options)
        if kind == "sqlite":
            from .sqlite import SqliteResource
            return SqliteResource(settings.folder / options.pop("file"), settings.calls, **options)
        if kind == "postgres":
            from .postgres import PostgresResource
            return PostgresResource(options.pop("connect"), settings.name, settings.calls, **options)
        if isinstance(kind, str) and ".py:" in kind:
            return from_file(settings, kind, options)
    except (TypeError, KeyError) as error:
        raise BadSettings(f"resources.{name}: {error}") from error
    raise BadSettings(f"resources.{name}.kind is {kind!r}: \"none\", \"sqlite\", \"postgres\", or \"FILE.py:CLASS\"")
