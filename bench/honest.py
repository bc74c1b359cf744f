"""A railway that asks one thing after the other, and has each answer compared and timed: honest.py PORT RAILWAY WAGON

It goes on until its input ends, and then prints what it found, as JSON. It is a process of its own, since it times a server: threads of
one process of Python wait for each other.
"""
import json
import select
import socket
import subprocess
import sys
import time

from hub_server import Wrong, connection_to, hello, line_of, need, plan

WAGONS = ["218124712173", "338478961232"]

# Of a hundred answers 99 come within so many seconds, and each within as many as HELD. A machine that is busy makes an answer late. A
# server that lets one client hold others makes it later, where that client stays until the railways have ended.
LATE, HELD = 1, 10


class Honest:
    """A process that plays a railway at this server. It has begun once its plan is accepted."""

    def __init__(self, server, railway, wagon):
        words = [sys.executable, "-B", __file__, str(server.port), railway, wagon]
        self.process = subprocess.Popen(words, stdin=subprocess.PIPE, stdout=subprocess.PIPE, text=True)

    def wait_until_begun(self):
        said = self.process.stdout.readline()
        need(said == "begun\n", f"a railway has ended: {said.strip()}")

    def end(self):
        """What it found: how many calls it made, how many answers were late, and how long the slowest took."""
        said, _ = self.process.communicate(timeout=3 * HELD)
        need(said.startswith("{"), f"a railway has ended: {said.strip()}")
        return json.loads(said)


def begin_honest(server):
    """The two railways, once both have begun."""
    honest = [Honest(server, f"R10{i}", wagon) for i, wagon in enumerate(WAGONS)]
    for it in honest:
        it.wait_until_begun()
    return honest


def end_honest(honest):
    """How many calls the railways made, and how long the slowest answer took."""
    found = [it.end() for it in honest]
    calls, late, slowest = sum(it["calls"] for it in found), sum(it["late"] for it in found), max(it["slowest"] for it in found)
    need(late * 100 <= calls, f"{late} of {calls} answers took {LATE} s and more")
    return calls, slowest


# What the process does.


class Railway:
    def __init__(self, port, name, wagon):
        self.connection, self.name, self.wagon = connection_to(port), name, wagon
        self.connection.settimeout(HELD)
        self.answers = self.connection.makefile("rb")
        self.calls, self.late, self.slowest = 0, 0, 0.0

    def said(self, record):
        start = time.monotonic()
        self.connection.sendall(line_of(record))
        answer = self.answers.readline()
        seconds = time.monotonic() - start
        self.slowest, self.late = max(self.slowest, seconds), self.late + (seconds >= LATE)
        return json.loads(answer)

    def begin(self):
        need(self.said(hello(self.name)) == {"hello": self.name}, "another hello")
        need(self.said(plan(self.name, 1, self.wagon)) == {"no": 1, "reply": "accepted"}, "a plan is not accepted")
        self.calls = 1

    def ask(self):
        record = self.said({"kind": "ask", "from": self.name, "wagon": self.wagon})["record"]
        need((record["stage"], record["lead"]) == ("planned", self.name), "another record")
        self.calls += 1

    def end(self):
        self.connection.shutdown(socket.SHUT_WR)
        need(self.answers.readline() == b"", "a line after the end")


def play(railway):
    railway.begin()
    print("begun", flush=True)
    # It asks anew a millisecond after an answer.
    while not select.select([sys.stdin], [], [], 0.001)[0]:
        railway.ask()
    railway.end()
    print(json.dumps({"calls": railway.calls, "late": railway.late, "slowest": railway.slowest}))


def main():
    port, name, wagon = sys.argv[1:]
    try:
        play(Railway(int(port), name, wagon))
    except TimeoutError:
        print(f"{name}: an answer took more than {HELD} seconds")
    except (Wrong, OSError, ValueError, KeyError) as it:
        print(f"{name}: {it!r}")


if __name__ == "__main__":
    main()
