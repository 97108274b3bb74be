"""Schedules in which the bound store is member 3 of a replay, and what its file is to hold then.

Node 1 of site a is the root, node 2 of site b its subordinate, which the store drives.
"""
import bank
import wire

OPENING = ["node 1 a", "node 2 b under 1", "auto 2 3", "do 1 begin-dialogue 2 scu", "drain", "drain"]


def tree(k):
    """The identifier of the k-th tree that node 1 begins, from 1: the first mark is its dialogue's, and each branch draws one, too."""
    return b"\x01a" + wire.mark(1, 1, 2 * k)


def writes_of(k):
    return [bank.put(b"account", b"%d" % (100 * k)), bank.put(b"t%d" % k, b"%d" % k)]


def bind(k):
    writes = writes_of(k)
    return bytes([bank.BIND]) + tree(k) + wire.short(len(writes)) + b"".join(writes)


def log(decided=True):
    """A store with two transactions that are kept and one that is dropped; the last is not decided where that is said."""
    bodies = []
    for k, word in ((1, bank.KEEP), (2, bank.DROP), (3, bank.KEEP)):
        bodies += [bind(k), bytes([word]) + tree(k)]
    return wire.log_of(bodies if decided else bodies[:-1], wide=False)


def bodies(content):
    """The bodies of a store's file; None where it is none."""
    if len(content) < 6 or content[4] != 1:
        return None
    return tuple(wire.body_at(content, place) for place in wire.gates_of(content)[0])


def tree_of(body):
    return body[1:wire.end_of_identifier(body, 1)]


def is_in_doubt(bodies):
    """Whether the last body is a Bind, which nothing has decided."""
    return len(bodies) > 0 and bodies[-1][0] == bank.BIND


def content_words(bodies):
    """What keys says of these bodies, as words."""
    content = {}
    for one, two in zip(bodies, bodies[1:]):
        if one[0] == bank.BIND and two[0] == bank.KEEP:
            for write in bank.Store.read_writes(one[wire.end_of_identifier(one, 1):]):
                key, value = bank.read_put(write)
                content[key] = value
    return [(key.hex(), content[key].hex()) for key in sorted(content)]


def lines(kept):
    """The lines of a schedule with a transaction for each of these words, which is kept or dropped after the store has voted."""
    out = list(OPENING)
    for k, keeps in enumerate(kept, 1):
        out.append("do 1 begin-transaction 2")
        out += ["do 1 data 2 " + write.hex() for write in writes_of(k)]
        out += ["do 1 commit" if keeps else "do 1 prepare 2", "drain", "drain"]
        out += ["do 1 done"] if keeps else ["do 1 rollback"]
        out += ["drain", "drain"]
    return out


def text_of(lines):
    return "".join(line + "\n" for line in lines).encode()


def schedule(kept):
    return text_of(lines(kept))


ONE_MORE = schedule((True,))


def after_one_more(bodies):
    """What the file has after one more transaction, and what keys says: a Bind that nothing decided is dropped before."""
    bodies = list(bodies)
    if is_in_doubt(bodies):
        bodies.append(bytes([bank.DROP]) + tree_of(bodies[-1]))
    bodies += [bind(1), bytes([bank.KEEP]) + tree(1)]
    return tuple(bodies), content_words(bodies)


class Script:
    """A second hand of the store: what it answers, where its file takes so many bodies and no more."""

    def __init__(self, room, in_doubt):
        self.room, self.undecided, self.current = room, in_doubt, False

    def append(self):
        self.room -= 1
        return self.room >= 0

    def answer(self, words):
        """The request after an indication, as words of a line; None where there is none."""
        word = words[0]
        if word == "begin-dialogue":
            return "accept " + words[-1]
        if word == "begin-transaction":
            if self.undecided and not self.append():
                return None
            self.undecided, self.current = False, True
        elif word == "prepare":
            if not self.current or not self.append():
                return "rollback"
            self.undecided, self.current = True, False
            return "commit"
        elif word in ("commit", "rollback"):
            if self.undecided and not self.append():
                return None
            self.undecided = False
            self.current = self.current and word == "commit"
            return "done"
        return None


def transcript(replay, kept, script):
    """The transcript that such a store gives, from replays in which a user says what it would answer."""
    told, said = [], []

    def add(line):
        said.append(line)
        out = [it for it in replay(text_of(said)).decode().splitlines() if not it.startswith("tree ")]
        now = [it.split()[2:] for it in out[add.seen:] if it.startswith("tell 2 ")]
        add.seen = len(out)
        told.extend(now)

    add.seen = 0
    for line in lines(kept):
        if not line.startswith("auto"):
            add(line)
        while told:
            answer = script.answer(told.pop(0))
            if answer is not None:
                add("do 2 " + answer)
    return replay(text_of(said))
