#!/usr/bin/env python3
"""Stands in for taf_hub while the page of the board is worked on: it serves the page's paths, and takes the records of sessions. And it
writes the page of a finished run.

    board/mock.py open --port PORT --board PORT [--keys FILE] [--records FILE]    until standard input ends
    board/mock.py board [--for RAILWAY] < RECORDS > FILE                          the page of a finished run

It takes each record as one that the hub accepts (board/journeys.py). Nothing of it is proved, and it is for this machine alone.
"""
import argparse
import hashlib
import json
import pathlib
import re
import socketserver
import sys
import threading
import time
from http.server import BaseHTTPRequestHandler, ThreadingHTTPServer

sys.dont_write_bytecode = True
from journeys import Fleet
from page import compact, file_of, parts

RAILWAY = "[A-Z0-9]{4}"
DEFENCE = {
    "x-content-type-options": "nosniff",
    "referrer-policy": "no-referrer",
    "cross-origin-resource-policy": "same-origin",
    "cross-origin-opener-policy": "same-origin",
    "x-frame-options": "DENY",
}


class Hub:
    """The fleet, shared by sessions and the board, and the digests of keys by railway."""

    def __init__(self, keys=None):
        self.fleet, self.lock, self.keys = Fleet(), threading.Lock(), keys
        # A tag of the number of calls alone would be that of another run too.
        self.run = f"{time.time_ns():x}"
        self.texts = {}

    def has_key(self, railway, key):
        return self.keys is None or (key is not None and self.keys.get(railway) == hashlib.sha256(key.encode()).hexdigest())

    def answer(self, call):
        """The reply to a message or a question."""
        with self.lock:
            if call["kind"] == "ask":
                return self.fleet.ask(call["from"], call["wagon"])
            unknown = self.fleet.apply(call)
        refused = {"no": call["no"], "reply": "refused", "wagon": unknown, "why": "unknown_wagon"}
        return refused if unknown else {"no": call["no"], "reply": "accepted"}

    def tag(self):
        return f'"{self.run}-{len(self.fleet.taken)}"'

    def wagons(self, railway):
        """The tag, and the records without events of what a railway may see."""
        return self.text(railway, "wagons", lambda seen: {"records": [it.record(events=False) for it in seen], "reply": "records"})

    def legs(self, railway):
        return self.text(railway, "legs", lambda seen: {"legs": [{"legs": it.legs, "wagon": it.wagon} for it in seen]})

    def text(self, railway, name, value_of):
        with self.lock:
            tag = self.tag()
            if self.texts.get((railway, name), (None,))[0] != tag:
                self.texts[railway, name] = tag, compact(value_of(self.fleet.seen_by(railway))) + "\n"
            return self.texts[railway, name]

    def wagon(self, railway, wagon):
        with self.lock:
            return self.fleet.ask(railway, wagon)

    def legs_of(self, railway, wagon):
        with self.lock:
            reply = self.fleet.ask(railway, wagon)
            return {"legs": self.fleet.journeys[wagon].legs, "wagon": wagon} if "record" in reply else reply


class Session(socketserver.StreamRequestHandler):
    """One railway's connection: a hello, and then its records."""

    def handle(self):
        hub, railway = self.server.hub, None
        for line in self.rfile:
            if not line.strip():
                continue
            call = json.loads(line)
            if railway is None:
                if not hub.has_key(call["from"], call.get("key")):
                    return self.wfile.write(b'{"fault":"wrong_key"}\n')
                railway, reply = call["from"], {"hello": call["from"]}
            else:
                reply = hub.answer(call) if call["from"] == railway else {"fault": "wrong_sender"}
            self.wfile.write(compact(reply).encode() + b"\n")


class Sessions(socketserver.ThreadingTCPServer):
    daemon_threads, allow_reuse_address = True, True


class Board(BaseHTTPRequestHandler):
    """One connection of a browser."""

    protocol_version = "HTTP/1.1"

    def answer(self):
        # As it was sent: http.server takes slashes away.
        hub, path = self.server.hub, self.requestline.split(" ")[1].split("?")[0]
        port = self.server.server_address[1]
        hosts = (f"127.0.0.1:{port}", f"localhost:{port}")
        if self.headers.get("host") not in hosts:
            return self.send(421)
        if self.headers.get("origin") not in (None, *(f"http://{host}" for host in hosts)):
            return self.send(403)
        if self.command not in ("GET", "HEAD"):
            return self.send(405, allow="GET, HEAD")
        if path == "/health":
            return self.send(200, "ok\n", "text/plain; charset=utf-8")
        if path == "/metrics":
            return self.send(200, self.metrics(), "text/plain; version=0.0.4")
        if re.fullmatch(f"/(?:{RAILWAY}/)?", path):
            policy, head, tail = parts()
            return self.send(200, head + tail, "text/html; charset=utf-8", "no-cache", content_security_policy=policy)
        found = re.fullmatch(rf"/({RAILWAY})/(wagons|legs|wagons/(\d{{12}})|wagons/(\d{{12}})/legs)\.json", path)
        if not found:
            return self.send(404)
        railway, name, wagon, wagon_of_legs = found.groups()
        if not self.is_let_in(hub, railway):
            return self.send(401, www_authenticate="Bearer")
        if wagon or wagon_of_legs:
            reply = hub.wagon(railway, wagon) if wagon else hub.legs_of(railway, wagon_of_legs)
            return self.send(404 if "why" in reply else 200, compact(reply) + "\n")
        return self.send_list(*(hub.wagons if name == "wagons" else hub.legs)(railway))

    def is_let_in(self, hub, railway):
        scheme, _, key = (self.headers.get("authorization") or "").partition(" ")
        return hub.has_key(railway, key if scheme.lower() == "bearer" else None)

    def metrics(self):
        with self.server.hub.lock:
            fleet = self.server.hub.fleet
            return f"taf_hub_calls_total {len(fleet.taken)}\ntaf_hub_wagons {len(fleet.journeys)}\n"

    def send_list(self, tag, text):
        is_known = self.headers.get("if-none-match") == tag
        self.send(304 if is_known else 200, "" if is_known else text, etag=tag)

    def send(self, status, text="", kind="application/json", keep="no-store", **more):
        body = text.encode()
        self.send_response(status)
        if body:
            self.send_header("content-type", kind)
        if status != 304:
            self.send_header("content-length", str(len(body)))
        self.send_header("cache-control", keep)
        for name, value in (DEFENCE | more).items():
            self.send_header(name.replace("_", "-"), value)
        self.end_headers()
        if self.command != "HEAD":
            self.wfile.write(body)

    do_GET = do_HEAD = do_POST = do_PUT = do_DELETE = do_OPTIONS = do_PATCH = answer

    def log_message(self, *_):
        pass


def read_keys(path):
    lines = [it.split() for it in path.read_text().splitlines() if it and not it.startswith("#")]
    return dict(lines)


def serve(chosen):
    hub = Hub(read_keys(chosen.keys) if chosen.keys else None)
    if chosen.records:
        for line in chosen.records.open():
            hub.fleet.apply(json.loads(line))
    sessions = Sessions(("127.0.0.1", chosen.port), Session)
    board = ThreadingHTTPServer(("127.0.0.1", chosen.board), Board)
    for server in (sessions, board):
        server.hub, server.daemon_threads = hub, True
        threading.Thread(target=server.serve_forever, daemon=True).start()
    print(f"listening on 127.0.0.1:{chosen.port}", file=sys.stderr, flush=True)
    print(f"board on http://127.0.0.1:{chosen.board}/", file=sys.stderr, flush=True)
    sys.stdin.buffer.read()


def write_file(chosen):
    fleet = Fleet()
    for line in sys.stdin:
        if line.strip():
            fleet.apply(json.loads(line))
    seen = fleet.seen_by(chosen.railway)
    legs = {"legs": [{"legs": it.legs, "wagon": it.wagon} for it in seen]}
    print(file_of(legs, {"records": [it.record() for it in seen], "reply": "records"}, chosen.railway), end="")


def main():
    words = argparse.ArgumentParser()
    commands = words.add_subparsers(required=True)
    service = commands.add_parser("open")
    service.add_argument("--port", type=int, required=True)
    service.add_argument("--board", type=int, required=True)
    service.add_argument("--keys", type=pathlib.Path)
    service.add_argument("--records", type=pathlib.Path)
    service.set_defaults(run=serve)
    board = commands.add_parser("board")
    board.add_argument("--for", dest="railway")
    board.set_defaults(run=write_file)
    chosen = words.parse_args()
    chosen.run(chosen)


if __name__ == "__main__":
    main()
