"""ripsaw site | draw | replay | recording: see `ripsaw --help`."""
from __future__ import annotations

import argparse
import asyncio
import subprocess
import sys
import tempfile
from pathlib import Path

from . import draw, heap, history, record, replay, settings, site


def run_site(options: argparse.Namespace) -> int:
    heap.give_back()
    read = settings.read(options.folder.resolve())
    asyncio.run(site.Site(read).run())
    return 0


def run_draw(options: argparse.Namespace) -> int:
    transcript = draw.transcript(history.Sites.read(options.records), options.tree)
    if options.transcript:
        sys.stdout.write(transcript)
        return 0
    words = [options.program, "--mermaid"] if options.mermaid else [options.program]
    return subprocess.run(words, input=transcript.encode()).returncode


def run_replay(options: argparse.Namespace) -> int:
    with tempfile.TemporaryDirectory() as room:
        events, logs, differ = replay.replay(options.records, options.program, Path(room), options.root)
    print(f"{events} events are as the program has them, and {logs} logs to the byte" if not differ else f"{len(differ)} differences")
    for it in differ[:20]:
        print(it)
    return 1 if differ else 0


def run_recording(options: argparse.Namespace) -> int:
    with tempfile.TemporaryDirectory() as room:
        sys.stdout.buffer.write(replay.recording(options.records, options.program, Path(room), options.root))
    return 0


def main() -> int:
    parser = argparse.ArgumentParser(prog="ripsaw", description="Sites on machines: docs/DEPLOYING.md.")
    commands = parser.add_subparsers(dest="command", required=True)
    command = commands.add_parser("site", help="run the site in a folder until SIGTERM")
    command.add_argument("folder", nargs="?", type=Path, default=Path("."))
    command.set_defaults(run=run_site)
    command = commands.add_parser("draw", help="draw what the records of some sites tell")
    command.add_argument("records", nargs="+", type=Path, help="a site's folder, or its record, of each site")
    command.add_argument("--tree", help="this tree alone, as SITE.BOOT.NODE.COUNT")
    command.add_argument("--program", default="tpdraw", help="the program that draws (tpdraw)")
    command.add_argument("--mermaid", action="store_true", help="text for Mermaid in place of SVG")
    command.add_argument("--transcript", action="store_true", help="the transcript itself")
    command.set_defaults(run=run_draw)
    for name, run, does in (("replay", run_replay, "play the records of all sites again, and compare"),
                            ("recording", run_recording, "write what tpunite reads of the records of all sites")):
        command = commands.add_parser(name, help=does)
        command.add_argument("records", nargs="+", type=Path, help="a site's folder, or its record, of each site")
        command.add_argument("--root", type=int, help="the nodes of this root alone")
        command.add_argument("--program", default="tpnode", help="the program that replays (tpnode)")
        command.set_defaults(run=run)
    options = parser.parse_args()
    try:
        status: int = options.run(options)
    except (settings.BadSettings, site.SiteFailed, record.BadRecord, ValueError, OSError) as error:
        print(f"ripsaw: {error}", file=sys.stderr)
        return 1
    return status


if __name__ == "__main__":
    sys.exit(main())
