"""Transfers a second, beside PostgreSQL's prepared transactions on the same disk.

trials/run beside [--program CMD] [--short] [--folder DIR] [--transfers N]

Ours: a root and two subordinates at three sites, each a process `node` with its log, and a store at each subordinate that a script
plays. Theirs: two servers of PostgreSQL with a table of accounts each, and a coordinator that prepares a transaction at both, forces
its decision to a file, and commits both. Each transfer takes money from one account to another. Both are driven by Python, with so
many transfers at a time as is said. Nothing is killed and nothing is lost. The two take turns.
"""
import argparse
import os
import shutil
import socket
import statistics
import struct
import subprocess
import sys
import tempfile
import threading
import time

import bank
import cluster
import tools
import wire

FORCES = """what is forced for one transfer, with n subordinates:
  ours    root Commit and End, at each subordinate Ready, Commit and End: 2 + 3n records, each with two syncs; 16 syncs for two.
          A store that is forced adds a Bind and a Keep at each: 8 syncs for two
  theirs  at each server PREPARE TRANSACTION and COMMIT PREPARED, at the coordinator its decision: 2n + 1 syncs; 5 for two.
          Servers force the records of several transactions in one sync, and so do our sites, where events come together"""


class PlainTree(cluster.Tree):
    """A root at the first site, and a store at each of the two others."""

    def __init__(self, index, calm, forced):
        self.index, self.cluster, self.current, self.witness = index, calm, None, None
        self.root = cluster.Node(calm.new_number(), calm.sites[0], None, self, "root")
        self.leaves = []
        for site in calm.sites[1:]:
            leaf = cluster.Node(calm.new_number(), site, self.root, self, "leaf")
            os.makedirs(os.path.join(site.folder, "store-%d" % leaf.number))
            leaf.store = bank.Store(os.path.join(site.folder, "store-%d" % leaf.number, "bound.log"), forced)
            self.leaves.append(leaf)
        self.nodes = [self.root] + self.leaves


class Certain:
    """Draws that never choose a fault, a refusal or a delay."""

    def random(self):
        return 0.9

    def uniform(self, low, high):
        return low

    def choice(self, of):
        return of[0]

    def sample(self, of, size):
        return of[:size]

    def randint(self, low, high):
        return low


class Calm(cluster.Cluster):
    """The cluster without its faults: each frame is handed over at once."""

    def __init__(self, options, folder, at_once, forced):
        self.forced = forced
        options.trees = 1
        cluster.Cluster.__init__(self, options, 3, options.transfers, 1, folder, False)
        self.draw = Certain()
        self.trees = [self.make_tree(k) for k in range(at_once)]
        for site in self.sites:
            for node in site.nodes:
                self.nodes[node.number], self.addresses[node.address] = node, node

    def make_tree(self, index):
        return PlainTree(index, self, self.forced)

    def send(self, sender, target, number, record, node, what):
        if record[0] == 4 and what is not None and what[0] == "begin":
            self.learn(record, what[1])
        self.counts["carried"] += 1
        self.addresses[target].site.give(wire.arrive(sender, target, record))

    def ended(self, node, outcome, report=cluster.NONE):
        cluster.Cluster.ended(self, node, outcome, report)
        if node.kind == "root" and not self.quiet:
            self.begin(node.tree)


def ours(options, at_once, forced):
    folder = tempfile.mkdtemp(prefix="beside-", dir=options.folder)
    calm = Calm(options, folder, at_once, forced)
    calm.trace = None
    calm.run(60)
    seconds = time.monotonic() - calm.begun_at
    calm.stop()
    calm.judge()
    shutil.rmtree(folder)
    if calm.faults:
        sys.exit("ours: %s" % calm.faults[:3])
    return len(calm.complete) / seconds


class Server:
    """A server of PostgreSQL in a folder of its own, as the user postgres."""

    def __init__(self, folder, name):
        self.folder, self.data = folder, os.path.join(folder, name)
        tools = sorted(os.listdir("/usr/lib/postgresql"))[-1]
        self.programs = os.path.join("/usr/lib/postgresql", tools, "bin")
        self.port = 5400 + len(os.listdir(folder))
        self.run("initdb", "-D", self.data, "-A", "trust", "-U", "postgres", "--no-sync")
        with open(os.path.join(self.data, "postgresql.conf"), "a") as file:
            file.write("max_prepared_transactions = 100\nlisten_addresses = ''\nunix_socket_directories = '%s'\nport = %d\n" % (folder, self.port))
        self.run("pg_ctl", "-D", self.data, "-w", "-l", os.path.join(folder, name + ".log"), "start")

    def run(self, program, *words):
        command = [os.path.join(self.programs, program), *words]
        if os.geteuid() == 0:
            command = ["setpriv", "--reuid=postgres", "--regid=postgres", "--init-groups", *command]
        subprocess.run(command, check=True, stdout=subprocess.DEVNULL, cwd=self.folder)

    def stop(self):
        self.run("pg_ctl", "-D", self.data, "-w", "-m", "immediate", "stop")


class Connection:
    """As much of PostgreSQL's protocol as a text and its completion need."""

    def __init__(self, server):
        self.socket = socket.socket(socket.AF_UNIX)
        self.socket.connect(os.path.join(server.folder, ".s.PGSQL.%d" % server.port))
        words = struct.pack(">I", 196608) + b"user\0postgres\0database\0postgres\0\0"
        self.socket.sendall(struct.pack(">I", len(words) + 4) + words)
        self.incoming = self.socket.makefile("rb")
        self.wait()

    def wait(self):
        while True:
            kind, size = struct.unpack(">cI", self.incoming.read(5))
            rest = self.incoming.read(size - 4)
            if kind == b"E":
                raise RuntimeError(rest)
            if kind == b"Z":
                return

    def say(self, text):
        words = text.encode() + b"\0"
        self.socket.sendall(b"Q" + struct.pack(">I", len(words) + 4) + words)
        self.wait()


def coordinate(servers, decisions, account, transfers, lock):
    """The coordinator: one transfer after the other, from the account at the first server to that at the second."""
    pair = [Connection(server) for server in servers]
    for k in range(transfers):
        name = "t%d_%d" % (account, k)
        for connection, change in zip(pair, (-1, 1)):
            connection.say("BEGIN; UPDATE accounts SET left_there = left_there + %d WHERE number = %d; PREPARE TRANSACTION '%s'" % (change, account, name))
        with lock:
            os.write(decisions, b"commit %s\n" % name.encode())
            os.fdatasync(decisions)
        for connection in pair:
            connection.say("COMMIT PREPARED '%s'" % name)


def theirs(servers, folder, at_once, transfers):
    decisions = os.open(os.path.join(folder, "decisions"), os.O_WRONLY | os.O_CREAT | os.O_APPEND, 0o600)
    lock, each = threading.Lock(), transfers // at_once
    threads = [threading.Thread(target=coordinate, args=(servers, decisions, k, each, lock)) for k in range(at_once)]
    begun = time.monotonic()
    for thread in threads:
        thread.start()
    for thread in threads:
        thread.join()
    os.close(decisions)
    return each * at_once / (time.monotonic() - begun)


def main():
    parser = argparse.ArgumentParser(prog="trials/run beside")
    tools.add_program(parser)
    parser.add_argument("--short", action="store_true")
    parser.add_argument("--folder", help="where logs and data are written, for both")
    parser.add_argument("--transfers", type=int, help="transfers in a round")
    parser.add_argument("--rounds", type=int)
    options = parser.parse_args()
    tools.set_program(options)
    options.transfers = options.transfers or (200 if options.short else 2000)
    rounds = options.rounds or (1 if options.short else 5)
    options.compact, options.heuristic, options.tx, options.record, options.kill_rate, options.slow = False, False, False, None, 0, 5
    options.unite = None
    if not os.path.isdir("/usr/lib/postgresql"):
        print("beside: not run, PostgreSQL is not installed")
        return
    folder = tempfile.mkdtemp(prefix="beside-", dir=options.folder)
    os.chmod(folder, 0o777)
    servers = []
    rates = {}
    try:
        for name in ("one", "two"):
            servers.append(Server(folder, name))
            Connection(servers[-1]).say("CREATE TABLE accounts (number int PRIMARY KEY, left_there int); "
                                        "INSERT INTO accounts SELECT k, 1000 FROM generate_series(0, 99) k")
        for at_once in (1, 4, 16):
            for _ in range(rounds):
                for name, run in (("ours", lambda: ours(options, at_once, False)), ("ours, stores forced", lambda: ours(options, at_once, True)),
                                  ("PostgreSQL", lambda: theirs(servers, folder, at_once, options.transfers))):
                    rates.setdefault((at_once, name), []).append(run())
            print("%d at a time: %s" % (at_once, ", ".join(
                "%s %.0f a second" % (name, statistics.median(it)) for (many, name), it in rates.items() if many == at_once)), flush=True)
    finally:
        for server in servers:
            server.stop()
        shutil.rmtree(folder)
    print(FORCES)
    print("beside: 0 faults, %d rounds of %d transfers each" % (3 * 3 * rounds, options.transfers))


if __name__ == "__main__":
    main()
