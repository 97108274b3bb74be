"""The status page, on loopback: `GET /metrics` in Prometheus' text, `GET /status` in JSON."""
from __future__ import annotations

import asyncio
import json
import time
from typing import TYPE_CHECKING, Any

from .nodes import Phase, Root

if TYPE_CHECKING:
    from .site import Site

PATIENCE = 5.0
MOST_HEAD = 8192
MOST_AT_ONCE = 32


class StatusPage:
    def __init__(self, site: Site) -> None:
        self.site, self.at_once = site, 0
        self.server: asyncio.Server | None = None

    async def start(self) -> None:
        if self.site.settings.status is not None:
            host, port = self.site.settings.status
            self.server = await asyncio.start_server(self.serve, host, port, limit=MOST_HEAD, backlog=1024)

    async def stop(self) -> None:
        if self.server is not None:
            self.server.close()

    async def serve(self, reader: asyncio.StreamReader, writer: asyncio.StreamWriter) -> None:
        self.at_once += 1
        try:
            if self.at_once > MOST_AT_ONCE:
                self.site.carrier.refuse("crowd on the status page")
                return
            async with asyncio.timeout(PATIENCE):
                words = (await reader.readuntil(b"\r\n\r\n")).split(b"\r\n", 1)[0].split()
                if len(words) == 3 and words[0] == b"GET" and words[1] in (b"/metrics", b"/status"):
                    status, content = "200 OK", self.metrics() if words[1] == b"/metrics" else json.dumps(self.status(), indent=1) + "\n"
                else:
                    status, content = "404 Not Found", "GET /metrics or GET /status\n"
                body = content.encode()
                kind = "application/json" if words[1:2] == [b"/status"] else "text/plain; version=0.0.4"
                writer.write(f"HTTP/1.1 {status}\r\nContent-Type: {kind}\r\nContent-Length: {len(body)}\r\nConnection: close\r\n\r\n".encode() + body)
                await writer.drain()
                writer.close()
                await writer.wait_closed()
        except (OSError, TimeoutError, asyncio.IncompleteReadError, asyncio.LimitOverrunError):
            self.site.carrier.refuse("no request on the status page")
        except asyncio.CancelledError:
            pass  # (the site stops)
        finally:
            self.at_once -= 1
            writer.transport.abort()

    def status(self) -> dict[str, Any]:
        site, carrier, engine = self.site, self.site.carrier, self.site.engine
        site.follower.read()
        return {
            "name": site.settings.name, "boot": site.standing.boot + 1, "incarnation": carrier.incarnation, "since": site.began,
            "events": 0 if engine is None else engine.events, "records": site.follower.records, "log_bytes": site.log.stat().st_size,
            "starts": site.counts["starts"], "draining": site.draining,
            "commits": site.counts["commits"], "rollbacks": site.counts["rollbacks"],
            "roots": len(site.roots), "roots_free": sum(root.free() for root in site.roots),
            "roots_whole": sum(root.settled() and root.whole() for root in site.roots),
            "open": [{"node": node.number, "phase": node.phase.value, "tree": str(node.tree), "since": node.since,
                      **({} if isinstance(node, Root) else {"superior": str(getattr(node, "superior"))})}
                     for node in site.nodes.values() if node.phase is not Phase.IDLE],
            "kept": [{"node": node, "tree": str(tree)} for node, tree in sorted(site.follower.damaged, key=str)], "missing": site.missing,
            "peers": {name: {"reached": carrier.reaches(name), "out": link.up, "in": name in carrier.incoming, "queue": len(link.queue)}
                      for name, link in carrier.links.items()},
            "refused_connections": dict(carrier.refused), "carried": dict(carrier.counts),
        }

    def metrics(self) -> str:
        site, carrier, now = self.site, self.site.carrier, time.time()
        status = self.status()
        doubt = [now - node.since for node in site.nodes.values() if node.phase is Phase.VOTED]
        lines: list[str] = []

        def put(name: str, kind: str, value: float, **labels: str) -> None:
            head = f"# TYPE ripsaw_{name} {kind}"
            if head not in lines:
                lines.append(head)
            marks = ",".join(f'{key}="{text}"' for key, text in labels.items())
            lines.append(f"ripsaw_{name}{'{' + marks + '}' if marks else ''} {value:g}" if value != int(value) else
                         f"ripsaw_{name}{'{' + marks + '}' if marks else ''} {int(value)}")

        put("boot", "gauge", status["boot"])
        put("events_total", "counter", site.counts["events"])
        put("process_events", "gauge", status["events"])
        put("records", "gauge", status["records"])
        put("log_bytes", "gauge", status["log_bytes"])
        put("starts_total", "counter", site.counts["starts"])
        put("ends_total", "counter", site.counts["ends"])
        put("compactions_total", "counter", site.counts["compactions"])
        put("commits_total", "counter", site.counts["commits"])
        put("rollbacks_total", "counter", site.counts["rollbacks"])
        put("roots_free", "gauge", status["roots_free"])
        put("roots_whole", "gauge", status["roots_whole"])
        for phase in Phase:
            put("nodes", "gauge", sum(node.phase is phase for node in site.nodes.values()), phase=phase.value)
        put("kept", "gauge", len(status["kept"]))
        put("missing", "gauge", len(site.missing))
        put("in_doubt_seconds", "gauge", max(doubt, default=0))
        for number in sorted(it for it in site.counts if it.startswith("refused ")):
            put("refused_events_total", "counter", site.counts[number], number=number.split()[1])
        for name in carrier.links:
            put("peer_up", "gauge", carrier.reaches(name), peer=name)
            put("peer_queue", "gauge", len(carrier.links[name].queue), peer=name)
        for what in ("sent", "taken", "dropped", "overflows", "broken"):
            put(f"carrier_{what}_total", "counter", carrier.counts[what])
        for why, count in sorted(carrier.refused.items()):
            put("refused_connections_total", "counter", count, why=why)
        put("bad_requests_total", "counter", site.counts["bad requests"])
        put("notes_total", "counter", site.counts["notes"])
        return "\n".join(lines) + "\n"
