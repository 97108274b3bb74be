"""Schedules in which frames overtake one another, are lost and come again, and a second hand of which frame each line takes."""
import collections
import random
import typing

Pair = typing.Tuple[int, int]


def schedule(draw: random.Random) -> typing.List[str]:
    """Some nodes whose numbers follow one another, or do not; a dialogue of each with one before it; data, handed over at random."""
    count = draw.randint(2, 8)
    first = draw.randint(1, 65000)
    nodes = list(range(first, first + count)) if draw.random() < 0.3 else draw.sample(range(1, 65536), count)
    above = {node: draw.choice(nodes[:k]) for k, node in enumerate(nodes) if k}
    lines = ["node %d %s%s" % (node, draw.choice("abc"), " under %d" % above[node] if node in above else "") for node in nodes]
    lines += ["do %d begin-dialogue %d s" % (above[node], node) for node in above] + ["drain"]
    lines += ["do %d accept s" % node for node in above] + ["drain"]
    pairs = list(above.items()) + [(peer, node) for node, peer in above.items()]
    for _ in range(draw.randint(10, 120)):
        pair = draw.choice(pairs) if draw.random() < 0.9 else (draw.choice(nodes), draw.choice(nodes))
        kind = draw.choices(["data", "pass", "skip", "again", "drain", "lose"], [40, 45, 8, 4, 2, 1])[0]
        numbers = {"again": (draw.randint(1, 2 * len(above)),), "drain": ()}.get(kind, pair)
        words = ["do", str(pair[0]), "data", str(pair[1]), "00"] if kind == "data" else [kind, *map(str, numbers)]
        lines.append(" ".join(words))
    return lines


class Frames:
    """The frames that a transcript sends, and those that are to be handed over."""

    def __init__(self) -> None:
        self.ways: typing.List[Pair] = []
        self.waiting: typing.Dict[Pair, typing.Deque[int]] = collections.defaultdict(collections.deque)

    def send(self, number: int, way: Pair) -> bool:
        self.ways.append(way)
        self.waiting[way].append(number)
        return number == len(self.ways)

    def take(self, way: Pair) -> str:
        """The number of the frame that is handed over, in words."""
        return str(self.waiting[way].popleft()) if self.waiting[way] else ""

    def oldest(self) -> str:
        numbers = [it[0] for it in self.waiting.values() if it]
        return self.take(self.ways[min(numbers) - 1]) if numbers else ""


def faults(transcript: str) -> typing.List[str]:
    """The lines of a transcript that take another frame than is due."""
    frames, due, draining = Frames(), "", False
    found = []
    for line in transcript.splitlines() + ["> end"]:
        words = line.split(" ")
        if words[0] == ">":
            if due or draining and frames.oldest():
                found.append("a frame is left before %s" % line)
            draining, due = words[1] == "drain", ""
            if words[1] in ("pass", "skip"):
                number = frames.take((int(words[2]), int(words[3])))
                due = "%s %s" % ("take" if words[1] == "pass" else "lost", number) if number else "nothing"
            elif words[1] == "again":
                due = "take " + words[2]
        elif words[0] == "send":
            if not frames.send(int(words[1]), (int(words[2]), int(words[3]))):
                found.append("sent out of turn: %s" % line)
        elif words[0] in ("take", "lost", "nothing"):
            wanted = "take " + frames.oldest() if draining else due
            due = ""
            if line != wanted:
                found.append("%s where %s is due" % (line, wanted or "nothing"))
    return found
