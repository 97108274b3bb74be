"""site.toml: what is refused, and why."""
from __future__ import annotations

from pathlib import Path

import pytest

from ripsaw import settings
from ripsaw.wire import Address

GOOD = """
name = "bank"
nodes = "1-99"
roots = "1-32"
listen = "127.0.0.1:7101"
[resources.main]
kind = "none"
[peers.shop]
address = "127.0.0.1:7102"
nodes = "101-199"
branches = "133-164"
serves = {roots = "101-132", nodes = "33-64"}
"""


def test_a_good_one(tmp_path: Path) -> None:
    (tmp_path / "site.toml").write_text(GOOD)
    read = settings.read(tmp_path)
    assert read.branch_of(3, read.peers["shop"]) == Address("shop", 135)
    assert read.superiors()[33] == Address("shop", 101)


@pytest.mark.parametrize("old, new, why", [
    ('name = "bank"', 'name = "Bank"', "no name of a site"), ('name = "bank"', "", "name is missing"),
    ('nodes = "101-199"', 'nodes = "90-199"', "no two sites share a number"), ('roots = "1-32"', 'roots = "1-40"', "no two of them meet"),
    ('roots = "1-32"', 'roots = "1-132"', "among nodes"), ('branches = "133-164"', 'branches = "1-3"', "not among"),
    ('nodes = "33-64"', 'nodes = "33-60"', "as many"), ('listen = "127.0.0.1:7101"', 'listen = "10.0.0.1:7101"', "certificate"),
    ('address = "127.0.0.1:7102"', 'address = "shop.example:7102"', "certificate"), ('address = "127.0.0.1:7102"', 'address = "7102"', "no address"),
    ('roots = "1-32"', 'rots = "1-32"', "nothing is known of rots"), ('kind = "none"', "", ""), ('name = "bank"', "name = 7", "type str"),
    ("[peers.shop]", "[peers.bank]", "the site itself"), ('listen = "127.0.0.1:7101"', 'listen = "127.0.0.1:7101"\nstatus = "0.0.0.0:1"', "loopback"),
    ("[peers.shop]", "[peers.shop]\ncertificate = \"x\"", "all of them"), ('nodes = "1-99"', 'nodes = "9-1"', "not within"), ("[peers.shop]", "[peers", "")])
def test_a_bad_one(tmp_path: Path, old: str, new: str, why: str) -> None:
    (tmp_path / "site.toml").write_text(GOOD.replace(old, new, 1))
    if old.startswith("kind"):
        from ripsaw.resource import resource_of
        with pytest.raises(settings.BadSettings, match="kind"):
            resource_of(settings.read(tmp_path), "main")
        return
    with pytest.raises(settings.BadSettings, match=why):
        settings.read(tmp_path)
