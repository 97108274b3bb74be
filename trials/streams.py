"""Streams of frames that a site is given in an honest run: what its users ask, and what comes from other sites.

Each site is new: the marks that it draws are those of boot 1.
"""
import wire
from wire import address, arrive, declare, do, frame, mark, octets, short

UNITS = b"\x29"  # shared, commit, unchained
ROOT, LEAF, OTHER = address("a", 1), address("b", 2), address("c", 3)


class Association:
    """What comes over one association, with its marks and its count."""

    def __init__(self, sender, target, x, y):
        self.sender, self.target, self.pair, self.count = sender, target, x + y, 0

    def says(self, record):
        text = b"\x04" + self.pair + self.count.to_bytes(8, "big") + record
        self.count += 1
        return arrive(self.sender, self.target, text)


def subordinate(transactions, damage=False, node=2):
    """A node of site b under node 1 of site a: Ready, Commit and End of each transaction; with damage a Heuristic, a Damage, too."""
    leaf, x, y = address("b", node), mark(1, 1, 1), mark(1, node, 1)
    out = [declare(node, ROOT), arrive(ROOT, leaf, b"\x01" + x + UNITS), do(node, wire.ACCEPT, UNITS)]
    root = Association(ROOT, leaf, x, y)
    for k in range(transactions):
        tree, branch = b"\x01a" + mark(1, 1, 2 * k + 2), b"\x01a" + mark(1, 1, 2 * k + 3)
        out.append(root.says(b"\x0c" + tree + branch + b"\x00"))
        out.append(root.says(b"\x02" + octets(b"work %d" % k)))
        out.append(root.says(b"\x0d"))
        out.append(do(node, wire.COMMIT))
        if damage:
            out.append(b"\x05" + short(node) + b"\x02")
        out.append(root.says(b"\x0f"))
        out.append(do(node, wire.DONE))
        if damage:
            out.append(arrive(ROOT, leaf, b"\x08" + tree + branch))
    return out


def subordinates(nodes, transactions):
    """Several nodes of site b, as they come to them in turns."""
    return [body for bodies in zip(*(subordinate(transactions, node=node) for node in nodes)) for body in bodies]


def root(transactions, asked=True):
    """Node 1 of site a over node 2 of site b: Commit and End of each transaction. Not asked: frames of tx in place of requests."""
    x, y = mark(1, 1, 1), mark(1, 2, 1)
    out = [declare(1)] if asked else []
    out += [do(1, wire.BEGIN_DIALOGUE, LEAF + UNITS), arrive(LEAF, ROOT, b"\x02" + x + y + UNITS)]
    leaf = Association(LEAF, ROOT, x, y)
    for k in range(transactions):
        out.append(do(1, wire.BEGIN_TRANSACTION, short(2)) if asked else b"\x20" + short(2))
        out.append(do(1, wire.DATA, short(2) + octets(b"work %d" % k)))
        out.append(do(1, wire.COMMIT) if asked else b"\x21")
        out.append(leaf.says(b"\x0e"))
        out.append(do(1, wire.DONE) if asked else b"\x23")
        out.append(leaf.says(b"\x10\x00"))
    return out


def kept(node, count, owed):
    """The records of so many transactions that node of site a keeps as their root, each with a branch that is owed, or with none."""
    out, branch = [], address("b", 7)
    for k in range(count):
        tree = b"\x01a" + mark(1, node, 2 * k + 2)
        child = branch + b"\x01a" + mark(1, node, 2 * k + 3)
        out.append(b"\x04" + short(node) + tree + b"\x00\x00\x01" + child)
        out.append(b"\x05" + short(node) + tree + b"\x00\x01\x02" + (b"\x00\x01" + child if owed else b"\x00\x00"))
    return out


def purges(node, count):
    return [b"\x08" + short(node)] * count


def stream(bodies):
    return b"".join(map(frame, bodies))
