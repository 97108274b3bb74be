"""What the trials share: which program is tried, temporary folders, lines of counts."""
import argparse
import os
import pathlib
import shlex
import sys
import typing

ROOT = pathlib.Path(__file__).resolve().parent.parent
PROGRAM = ROOT / "crates" / "tpnode" / "out" / "tpnode"
DRIVE = ROOT / "crates" / "tpdrive" / "out" / "tpdrive"
DRAW = ROOT / "crates" / "tpdraw" / "out" / "tpdraw"
UNITE = ROOT / "crates" / "tpunite" / "out" / "tpunite"


def add_program(parser: argparse.ArgumentParser, workers: bool = False) -> None:
    parser.add_argument("--program", help="the command that is tried, %s where it is not given" % PROGRAM.relative_to(ROOT))
    parser.add_argument("--drive", help="the command of the workers, %s where it is not given" % DRIVE.relative_to(ROOT) if workers else argparse.SUPPRESS)


def set_program(options: argparse.Namespace, workers: bool = False) -> None:
    options.program = shlex.split(options.program) if options.program else [str(PROGRAM)]
    if os.sep in options.program[0] and not os.access(options.program[0], os.X_OK):
        sys.exit("%s is not there: build it by `rt run` in crates/tpnode, or name another by --program" % options.program[0])
    options.drive = shlex.split(options.drive) if options.drive else [str(DRIVE)]
    if workers and os.sep in options.drive[0] and not os.access(options.drive[0], os.X_OK):
        print("%s is not there: the workers are left out" % options.drive[0], flush=True)
        options.drive = None


def add_draw(parser: argparse.ArgumentParser) -> None:
    parser.add_argument("--draw", help="the command that draws, %s where it is not given" % DRAW.relative_to(ROOT))


def set_draw(options: argparse.Namespace) -> None:
    options.draw = shlex.split(options.draw) if options.draw else [str(DRAW)]
    if os.sep in options.draw[0] and not os.access(options.draw[0], os.X_OK):
        print("%s is not there: drawing is left out" % options.draw[0], flush=True)
        options.draw = None


def add_unite(parser: argparse.ArgumentParser) -> None:
    parser.add_argument("--unite", help="the command that unites the streams of sites, %s where it is not given" % UNITE.relative_to(ROOT))


def set_unite(options: argparse.Namespace) -> None:
    options.unite = shlex.split(options.unite) if options.unite else [str(UNITE)]
    if os.sep in options.unite[0] and not os.access(options.unite[0], os.X_OK):
        print("%s is not there: uniting is left out" % options.unite[0], flush=True)
        options.unite = None


def command_of(options: argparse.Namespace, words: typing.List[str]) -> typing.List[str]:
    """The command line of these words. The first of them is a command of tpnode, `drive` for the workers, or `draw`."""
    if words[:1] in (["draw"], ["drive"]):
        command: typing.List[str] = options.draw if words[0] == "draw" else options.drive
        return command + words[1:]
    return [*options.program, *words]


def counted(counts: typing.Mapping[str, typing.Any]) -> str:
    return ", ".join("%s %s" % (word, count) for word, count in counts.items())
