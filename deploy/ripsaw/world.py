"""Some sites as processes on loopback, each with a folder: for the demonstration, the tests and the measurements."""
from __future__ import annotations

import asyncio
import json
import os
import random
import shutil
import signal
import socket
import subprocess
import sys
from pathlib import Path
from typing import Any

from . import client
from .wire import frame, octets, text_of_site

PACKAGE = Path(__file__).resolve().parent.parent
PORTS = 12_000, 32_000
given: set[int] = set()  # ports that `free_ports` gave before: who got them may not listen yet


def free_ports(count: int) -> list[int]:
    """Ports of loopback that nobody listens on, below those that the system gives to connections. No two calls give the same."""
    sockets: dict[int, socket.socket] = {}
    while len(sockets) < count:
        port = random.randrange(*PORTS)
        if port in given:
            continue
        it = socket.socket()
        try:
            it.bind(("127.0.0.1", port))
            sockets[port] = it
        except OSError:
            it.close()
    for it in sockets.values():
        it.close()
    given.update(sockets)
    return list(sockets)


def toml(value: Any) -> str:
    """A value of site.toml."""
    if isinstance(value, bool):
        return "true" if value else "false"
    if isinstance(value, (int, float)):
        return str(value)
    if isinstance(value, dict):
        return "{" + ", ".join(f"{key} = {toml(it)}" for key, it in value.items()) + "}"
    if isinstance(value, list):
        return "[" + ", ".join(map(toml, value)) + "]"
    return '"' + str(value).replace("\\", "\\\\").replace('"', '\\"').replace("\n", "\\n") + '"'


class Place:
    """One site of a world."""

    def __init__(self, folder: Path, name: str, port: int, status: int) -> None:
        self.folder, self.name, self.port, self.status = folder / name, name, port, status
        self.socket = self.folder / "site.sock"
        self.process: subprocess.Popen[bytes] | None = None

    def start(self) -> None:
        with open(self.folder / "errors", "ab") as errors:
            self.process = subprocess.Popen([sys.executable, "-m", "ripsaw", "site", str(self.folder)], stdin=subprocess.DEVNULL,
                                            stdout=errors, stderr=errors, env={**os.environ, "PYTHONPATH": str(PACKAGE)}, start_new_session=True)

    def kill(self) -> None:
        """The daemon and its tpnode, at once and in the middle of whatever they do."""
        if self.process is not None:
            os.killpg(self.process.pid, signal.SIGKILL)
            self.process.wait()

    def tpnode(self) -> int | None:
        """The process tpnode of a daemon that runs."""
        assert self.process is not None
        try:
            children = Path(f"/proc/{self.process.pid}/task/{self.process.pid}/children").read_text().split()
        except OSError:
            return None
        return int(children[0]) if children else None

    def wait(self) -> int:
        """The status with which it ends after SIGTERM."""
        assert self.process is not None
        try:
            return self.process.wait(timeout=30)
        except subprocess.TimeoutExpired:
            self.kill()
            return -9

    async def page(self, path: str) -> str:
        reader, writer = await asyncio.open_connection("127.0.0.1", self.status)
        writer.write(f"GET {path} HTTP/1.1\r\n\r\n".encode())
        said = await reader.read()
        writer.close()
        return said.decode().split("\r\n\r\n", 1)[1]

    async def connect(self, patience: float = 15.0) -> client.Site:
        """A connection, once the site is there."""
        loop = asyncio.get_running_loop()
        end = loop.time() + patience
        while True:
            try:
                return await client.Site.open(self.socket)
            except client.SiteLost:
                if loop.time() > end:
                    raise
                await asyncio.sleep(0.05)


class World:
    """So many sites, each of which has roots with a branch at every other."""

    def __init__(self, folder: Path, names: list[str], roots: int, program: str) -> None:
        self.folder, self.roots, self.program = folder, roots, program
        ports = free_ports(2 * len(names))
        self.places = {name: Place(folder, name, ports[2 * k], ports[2 * k + 1]) for k, name in enumerate(names)}
        self.certificates = False

    def make(self, resources: dict[str, Any], calls: dict[str, list[str]], record: bool = False, certificates: bool = False,
             more: dict[str, Any] | None = None) -> None:
        """Writes the folders. Site k has the numbers from 1000 k + 1 on: its roots first, then its branches, a range for each peer."""
        self.certificates = certificates
        names = list(self.places)
        for name in names:
            self.places[name].folder.mkdir(parents=True)
            (self.places[name].folder / "tp.seal").touch()
            subprocess.run([self.program, "format"], cwd=self.places[name].folder, check=True)
        if certificates:
            for name in names:
                certify(self.places[name].folder, name)
        for name in names:
            self.write_settings(name, names, resources.get(name, {"kind": "none"}), calls, record, more or {})

    def span(self, k: int, part: int) -> str:
        """Of site k: part 0 is its roots, the parts after it its branches for the other sites in their order."""
        first = 1000 * k + 1 + part * self.roots
        return f"{first}-{first + self.roots - 1}"

    def write_settings(self, name: str, names: list[str], resource: dict[str, Any], calls: dict[str, list[str]], record: bool,
                       more: dict[str, Any]) -> None:
        k, place = names.index(name), self.places[name]
        lines = {"name": name, "nodes": f"{1000 * k + 1}-{1000 * k + 1000}", "roots": self.span(k, 0), "listen": f"127.0.0.1:{place.port}",
                 "status": f"127.0.0.1:{place.status}", "program": self.program, **more}
        if record:
            lines["record"] = "record"
        if self.certificates:
            lines.update(certificate="certificate.pem", key="key.pem")
        text = [f"{key} = {toml(value)}" for key, value in lines.items()] + ["[resources.main]"]
        text += [f"{key} = {toml(value)}" for key, value in resource.items()] + ["[calls]"]
        text += [f"{key} = {toml(value)}" for key, value in calls.items()]
        for j, peer in enumerate(names):
            if j != k:
                # (a site's branches for its peers are in the order of the names, without itself)
                theirs, ours = 1 + (k if k < j else k - 1), 1 + (j if j < k else j - 1)
                text += [f"[peers.{peer}]", f'address = "127.0.0.1:{self.places[peer].port}"', f'nodes = "{1000 * j + 1}-{1000 * j + 1000}"',
                         f'branches = "{self.span(j, theirs)}"', f'serves = {{roots = "{self.span(j, 0)}", nodes = "{self.span(k, ours)}"}}']
                if self.certificates:
                    text.append(f'certificate = "../{peer}/certificate.pem"')
        (place.folder / "site.toml").write_text("\n".join(text) + "\n")

    def start(self) -> None:
        for place in self.places.values():
            place.start()

    async def whole(self, patience: float = 30.0) -> None:
        """Waits until every site reaches every other, each root has its dialogues, and no node has anything open."""
        loop = asyncio.get_running_loop()
        end = loop.time() + patience
        while True:
            try:
                pages = [json.loads(await it.page("/status")) for it in self.places.values()]
                if all(not page["open"] and not page["kept"] and page["roots_whole"] == page["roots"] and all(it["reached"] for it in page["peers"].values())
                       for page in pages):
                    return
                left = [f"{page['name']}: open {page['open'][:3]}, kept {page['kept'][:3]}, "
                        f"{page['roots_whole']} of {page['roots']} roots whole, {page['peers']}" for page in pages]
            except (OSError, IndexError, ValueError) as error:
                left = [str(error)]
            if loop.time() > end:
                raise TimeoutError(f"the sites do not come to rest: {left}")
            await asyncio.sleep(0.1)

    def stop(self) -> list[int]:
        """All at once, as a cluster is stopped."""
        running = [it for it in self.places.values() if it.process is not None]
        for place in running:
            assert place.process is not None
            place.process.terminate()
        return [place.wait() for place in running]

    def kill(self) -> None:
        for place in self.places.values():
            if place.process is not None and place.process.poll() is None:
                place.kill()

    def audit(self) -> tuple[int, str]:
        """What `tpnode audit` says of all logs: its status and its lines."""
        frames = []
        for place in self.places.values():
            frames.append(frame(b"\x40" + text_of_site(place.name)))
            content = (place.folder / "tp.log").read_bytes()
            frames += [frame(b"\x41" + octets(content[at:at + 2000])) for at in range(0, len(content), 2000)]
        ran = subprocess.run([self.program, "audit"], input=b"".join(frames), stdout=subprocess.PIPE, stderr=subprocess.STDOUT)
        return ran.returncode, ran.stdout.decode(errors="replace")


def certify(folder: Path, name: str) -> None:
    """A key and a certificate that it signs itself, good for ten years: what a site shows to its peers."""
    openssl = shutil.which("openssl")
    if openssl is None:
        raise RuntimeError("there is no openssl here")
    subprocess.run([openssl, "req", "-x509", "-newkey", "ec", "-pkeyopt", "ec_paramgen_curve:prime256v1", "-nodes", "-days", "3650",
                    "-subj", f"/CN={name}", "-keyout", str(folder / "key.pem"), "-out", str(folder / "certificate.pem")],
                   check=True, stderr=subprocess.DEVNULL)
