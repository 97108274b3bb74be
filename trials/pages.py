"""The pages of `tpdraw --html` in a browser: each example, step by step.

trials/run pages [--draw CMD] [--browser CMD] [--short]

A few lines of script, put at the end of a copy of the page, move the slider to each line and note what the page shows: which line is
marked, how far the veil is down, and the table of nodes. That is compared with what this program makes of the transcript. One page has
markup in its lines, of which no element may come.
"""
import argparse
import html
import json
import pathlib
import re
import shlex
import subprocess
import sys
import tempfile
import typing

import tools

EXAMPLES = pathlib.Path(__file__).resolve().parent.parent / "examples"
FEW = ["crash-when-ready", "decision-that-differs", "transfer-over-three-banks"]
BROWSER = "chromium --headless --no-sandbox --disable-gpu --window-size=1400,900"
STATES = {"ready": "in doubt", "commit": "committed", "end": ""}
MARKUP = "> node 9 <img src=x onerror=document.title='taken'>"
HARNESS = """<script>
const steps = [], at = document.getElementById('at');
for (let line = Number(at.min); line <= Number(at.max); line++) {
  at.value = line;
  at.dispatchEvent(new Event('input'));
  const marked = [...document.querySelectorAll('li')].findIndex(it => it.hasAttribute('aria-current'));
  const cells = [...document.querySelectorAll('#table tr')].map(it => [...it.children].map(cell => cell.childElementCount
    ? [...cell.children].map(part => part.textContent) : cell.textContent));
  steps.push({ marked, veil: document.getElementById('veil').style.top, cells });
}
const noted = document.createElement('pre');
noted.id = 'noted';
noted.textContent = JSON.stringify({ steps, images: document.images.length });
document.body.append(noted);
</script>
</body>"""
Row = typing.List[typing.Union[str, typing.List[str]]]


class Node:
    """A node as the lines so far tell it."""

    def __init__(self) -> None:
        self.site, self.state, self.told, self.down = "", "", "", False
        self.log: typing.List[str] = []

    def row(self, number: str) -> Row:
        return [number, self.site, "down" if self.down else self.state, self.told, self.log or ""]


def named(lines: typing.List[str]) -> typing.Dict[str, str]:
    """The nodes that any line names, with their sites."""
    sites: typing.Dict[str, str] = {}
    for line in lines:
        declared = re.fullmatch(r"> node (\S+) (\S+)( .*)?", line) or re.fullmatch(r"log (?P<site>\S+) (?!boot )\S+ (?P<node>\S+).*", line)
        if declared:
            node, site = (declared["node"], declared["site"]) if "node" in declared.groupdict() else (declared[1], declared[2])
            sites[node] = sites.get(node) or site
        for node in line.split(" ")[2:4] if line.startswith("send ") else line.split(" ")[1:2] if line.startswith(("tell ", "state ")) else []:
            sites.setdefault(node, "")
    return sites


def step(nodes: typing.Dict[str, Node], line: str) -> None:
    verb, *words = line.split(" ")
    stopped = re.fullmatch(r"> crash (\S+)|stopped (\S+) \S+", line)
    for node in nodes.values():
        if stopped and node.site == (stopped[1] or stopped[2]):
            node.down = True
        if verb == "log" and words[1] == "boot" and node.site == words[0]:
            node.down, node.state = False, "" if node.state == "rolls back" else node.state
    if verb == "log" and words[1] != "boot":
        node = nodes[words[2]]
        node.log = node.log + [" ".join(words[1:])]
        node.state = STATES.get(words[1], node.state)
        if words[1] == "damage":
            node.state = "committed" if words[-2] == "commit" else "rolled back"
    if verb == "tell":
        node = nodes[words[0]]
        node.told = " ".join(words[1:])
        if words[1] == "rollback" and not node.state:
            node.state = "rolls back"
        if words[1] == "rollback-complete" and node.state == "rolls back":
            node.state = ""


def wanted(lines: typing.List[str]) -> typing.Iterator[typing.Dict[str, object]]:
    nodes = {number: Node() for number in named(lines)}
    for number, site in named(lines).items():
        nodes[number].site = site
    for at, line in enumerate(lines):
        step(nodes, line)
        rows = [node.row(number) for number, node in nodes.items()]
        yield {"marked": at, "veil": "%dpx" % (80 + 20 * at), "cells": [["node", "site", "state", "told", "log"], *rows]}


def shown(options: argparse.Namespace, folder: pathlib.Path, transcript: bytes) -> typing.Dict[str, typing.Any]:
    drawn = subprocess.run([*options.draw, "--html"], input=transcript, stdout=subprocess.PIPE, check=True).stdout.decode()
    page = folder / "page.html"
    page.write_text(drawn.replace("</body>", HARNESS))
    ran = subprocess.run([*options.browser, "--dump-dom", page.as_uri()], stdout=subprocess.PIPE, stderr=subprocess.DEVNULL, timeout=120, check=True)
    noted = re.search(r'<pre id="noted">(.*?)</pre>', ran.stdout.decode(), re.S)
    if not noted:
        raise RuntimeError("the page notes nothing")
    found: typing.Dict[str, typing.Any] = json.loads(html.unescape(noted[1]))
    return found


def tried(options: argparse.Namespace, name: str, lines: typing.List[str]) -> typing.Tuple[int, int]:
    """How many steps there are, and how many of them the page shows otherwise."""
    with tempfile.TemporaryDirectory() as folder:
        found = shown(options, pathlib.Path(folder), "".join(it + "\n" for it in lines).encode())
    want = list(wanted(lines))[:200]
    faults = [(mine, its) for mine, its in zip(want, found["steps"]) if mine != its]
    if faults:
        print("%s: wanted %s\n%s: found  %s" % (name, faults[0][0], name, faults[0][1]), flush=True)
    if found["images"] or len(found["steps"]) != len(want):
        print("%s: %d images, %d steps of %d" % (name, found["images"], len(found["steps"]), len(want)), flush=True)
        return len(want), len(faults) + 1
    return len(want), len(faults)


def main() -> None:
    parser = argparse.ArgumentParser(description=__doc__, formatter_class=argparse.RawDescriptionHelpFormatter)
    tools.add_draw(parser)
    parser.add_argument("--browser", default=BROWSER, help="the command of a browser that writes its page with --dump-dom")
    parser.add_argument("--short", action="store_true", help="three examples alone")
    parser.add_argument("--program", help=argparse.SUPPRESS)
    options = parser.parse_args()
    tools.set_draw(options)
    options.browser = shlex.split(options.browser)
    if options.draw is None or subprocess.run(["which", options.browser[0]], stdout=subprocess.DEVNULL).returncode:
        print("pages: left out, since tpdraw or the browser is not there")
        return
    counts = {"pages": 0, "steps": 0, "faults": 0}
    for name in FEW if options.short else sorted(it.stem for it in EXAMPLES.glob("*.transcript")):
        lines = (EXAMPLES / (name + ".transcript")).read_text(errors="replace").split("\n")[:-1]
        steps, faults = tried(options, name, lines)
        counts = {"pages": counts["pages"] + 1, "steps": counts["steps"] + steps, "faults": counts["faults"] + faults}
    lines = ["> node 1 a", "log a boot 1", MARKUP]
    steps, faults = tried(options, "markup", lines)
    counts = {"pages": counts["pages"] + 1, "steps": counts["steps"] + steps, "faults": counts["faults"] + faults}
    print("pages: %s" % tools.counted(counts))
    sys.exit(1 if counts["faults"] else 0)


if __name__ == "__main__":
    main()
