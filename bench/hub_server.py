"""`taf_hub serve` and `taf_hub open` as processes, and the lines that railways send to it, for the scripts of this folder."""
import json
import os
import pathlib
import re
import socket
import subprocess
import threading

TOP = pathlib.Path(__file__).resolve().parent.parent
PROGRAM = TOP / "crates/taf_hub/out/taf_hub"


class Wrong(Exception):
    """What is not as it has to be."""


def need(holds, what):
    if not holds:
        raise Wrong(what)


def free_port():
    with socket.create_server(("127.0.0.1", 0)) as server:
        return server.getsockname()[1]


def connection_to(port):
    connection = socket.create_connection(("127.0.0.1", port))
    connection.setsockopt(socket.IPPROTO_TCP, socket.TCP_NODELAY, 1)
    return connection


class Server:
    """`taf_hub serve` for so many sessions, at a free port, by so many workers or with a journal."""

    command = "serve"

    def __init__(self, sessions, workers=None, journal=None, options=(), **more):
        self.sessions = sessions
        kind = ["--journal", journal] if journal else ["--workers", str(workers)]
        for _ in range(10):
            self.port = free_port()
            words = [self.command, "--port", str(self.port), "--sessions", str(sessions), *kind, *options]
            self.process = subprocess.Popen([PROGRAM, *words], stdout=subprocess.PIPE, stderr=subprocess.PIPE, **more)
            # What the journal had.
            self.had = self.process.stderr.readline().decode() if journal else ""
            said = self.process.stderr.readline()
            if said.startswith(b"listening on "):
                return
            # Another process has taken the port meanwhile.
            self.process.communicate()
        raise Wrong(f"the server says {said}")

    def connect(self):
        return connection_to(self.port)

    def end(self, limit):
        """How many calls settled, the report, and the peak memory in MiB. A server that takes longer is killed."""
        watch = threading.Timer(limit, self.process.kill)
        watch.start()
        report, errors = self.process.stdout.read(), self.process.stderr.read()
        _, status, used = os.wait4(self.process.pid, 0)
        watch.cancel()
        self.process.returncode = os.waitstatus_to_exitcode(status)
        need(self.process.returncode == 0, f"the server ends with status {self.process.returncode}: {errors}")
        settled = re.match(rb"settled (\d+)\n", report)
        need(settled, "nothing is settled")
        return int(settled[1]), report, used.ru_maxrss // 1024


class Service(Server):
    """`taf_hub open` for so many sessions at a time. Its input ends with it."""

    command = "open"

    def __init__(self, *numbers, **more):
        super().__init__(*numbers, stdin=subprocess.PIPE, **more)

    def end(self, limit):
        self.process.stdin.close()
        return super().end(limit)


# Lines


def line_of(record):
    return json.dumps(record, separators=(",", ":")).encode() + b"\n"


def vehicle_number(eleven):
    """A number of twelve digits, the last of which is the check digit."""
    doubled = [int(digit) * (2 - i % 2) for i, digit in enumerate(eleven)]
    return eleven + str(-sum(it // 10 + it % 10 for it in doubled) % 10)


def hello(railway):
    return {"kind": "hello", "from": railway}


def plan(railway, number, wagon, carrier="R900"):
    """A plan of one wagon with one leg, which another railway runs if none is named."""
    leg = {"ru": carrier, "origin": "DE00001", "target": "AT00002", "minutes": 300}
    head = {"kind": "plan", "from": railway, "no": number, "consignment": f"C-{railway}-{number}", "load": "loaded"}
    return head | {"commit": "2025-03-01T15:30Z", "wagons": [wagon], "legs": [leg]}


def journey(railway, place, number):
    """A wagon that its lead moves itself: seven messages and a question."""
    wagon, no = vehicle_number(f"2181{place:02}{number:05}"), 6 * number
    head = {"from": railway, "wagon": wagon}
    return [
        plan(railway, no + 1, wagon, railway),
        head | {"kind": "release", "no": no + 2, "at": "2025-03-01T05:30Z"},
        head | {"kind": "depart", "no": no + 3, "at": "2025-03-01T06:00Z"},
        head | {"kind": "depart", "no": no + 3, "at": "2025-03-01T06:00Z"},
        head | {"kind": "exception", "no": no + 4, "at": "2025-03-01T07:00Z", "delay": 45},
        {"kind": "ask", "from": railway, "wagon": wagon},
        head | {"kind": "arrival", "no": no + 5, "at": "2025-03-01T12:00Z"},
        head | {"kind": "delivery", "no": no + 6, "at": "2025-03-01T12:30Z"},
    ]
