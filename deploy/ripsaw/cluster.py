"""A private server of the installed PostgreSQL in a folder of its own, reached over a socket there: for the demonstration, tests, measurements."""
from __future__ import annotations

import os
import pwd
import shutil
import subprocess
from pathlib import Path

CONFIGURATION = """
max_prepared_transactions = 300
max_connections = 320
shared_buffers = 32MB
listen_addresses = ''
unix_socket_directories = '{folder}'
"""


def programs() -> Path | None:
    """Where the newest installed PostgreSQL has its programs."""
    try:
        versions = sorted((it for it in Path("/usr/lib/postgresql").iterdir()), key=lambda it: float(it.name))
    except OSError:
        return None
    return versions[-1] / "bin" if versions else None


class Cluster:
    """Everything runs as the user postgres where we are root, since PostgreSQL refuses root."""

    def __init__(self, folder: Path) -> None:
        found = programs()
        if found is None:
            raise RuntimeError("PostgreSQL is not installed")
        self.programs, self.folder = found, folder
        folder.mkdir(parents=True)
        if os.geteuid() == 0:
            user = pwd.getpwnam("postgres")
            os.chown(folder, user.pw_uid, user.pw_gid)
        self.run("initdb", "-D", str(folder / "data"), "-A", "trust", "-U", "postgres", "--no-sync")
        with open(folder / "data" / "postgresql.conf", "a", encoding="ascii") as file:
            file.write(CONFIGURATION.format(folder=folder))

    def run(self, program: str, *words: str) -> None:
        command = [str(self.programs / program), *words]
        if os.geteuid() == 0:
            command = ["setpriv", "--reuid=postgres", "--regid=postgres", "--init-groups", *command]
        subprocess.run(command, check=True, stdout=subprocess.DEVNULL, cwd=self.folder)

    def start(self) -> None:
        self.run("pg_ctl", "-D", str(self.folder / "data"), "-w", "-t", "120", "-l", str(self.folder / "server.log"), "start")

    def stop(self) -> None:
        """At once, as by a loss of power to the processes: what was not synced is not there."""
        self.run("pg_ctl", "-D", str(self.folder / "data"), "-w", "-t", "120", "-m", "immediate", "stop")

    @property
    def connect(self) -> str:
        return f"host={self.folder} user=postgres dbname=postgres"

    def remove(self) -> None:
        try:
            self.stop()
        except subprocess.CalledProcessError:
            pass
        shutil.rmtree(self.folder, ignore_errors=True)
