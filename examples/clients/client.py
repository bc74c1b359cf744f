#!/usr/bin/env python3
"""A railway's session with taf_hub, with up to sixteen records on the way: client.py PORT RAILWAY [SECONDS] <RECORDS

Says hello, sends the records of its standard input, and shows the answers in their order. Then it fetches and
acknowledges the items of its outbox until there is none. Where the connection breaks, and where the hub is full, it connects
again, for so many seconds (0), says hello, and sends again each record that has no answer. It needs the standard library alone.
"""
import collections
import contextlib
import json
import socket
import sys
import threading
import time

WINDOW = 16
FULL = {"fault": "full"}


class FullError(ConnectionError):
    """The hub serves as many sessions as it can, and ended the connection."""


class Session:
    """A session with the hub, over one connection after another. Each record that is sent takes one of sixteen places
    until its answer has come. A thread shows the answers as they come."""

    def __init__(self, port, railway, seconds):
        self.port, self.seconds = port, seconds
        self.hello = json.dumps({"kind": "hello", "from": railway})
        self.places = threading.Semaphore(WINDOW)
        # The records that have no answer, in order. The lock is held while one is sent, and while all are sent again.
        self.open, self.lock = collections.deque(), threading.Lock()
        self.last = None
        print(self.connect_while_full(), end="", flush=True)
        self.reader = threading.Thread(target=self.read, daemon=True)
        self.reader.start()

    def connect(self):
        """Connects, says hello, and sends the records that have no answer. Gives the answer to the hello."""
        self.connection = socket.create_connection(("127.0.0.1", self.port))
        self.connection.setsockopt(socket.IPPROTO_TCP, socket.TCP_NODELAY, 1)
        self.answers = self.connection.makefile("r", encoding="utf-8", newline="\n")
        for record in (self.hello, *self.open):
            self.write(record)
        answer = self.answers.readline()
        if not answer.endswith("\n"):
            raise ConnectionError("the hub has ended the session")
        if json.loads(answer) == FULL:
            raise FullError("the hub is full")
        return answer

    def connect_while_full(self):
        """Connects. Where the hub is full it tries again, within the seconds."""
        end = time.monotonic() + self.seconds
        while True:
            try:
                return self.connect()
            except FullError:
                if time.monotonic() >= end:
                    raise
            time.sleep(0.5)

    def write(self, record):
        self.connection.sendall(record.encode("utf-8") + b"\n")

    def connect_again(self):
        """Whether there is a connection again, within the seconds."""
        end = time.monotonic() + self.seconds
        while time.monotonic() < end:
            with contextlib.suppress(OSError):
                self.connect()
                return True
            time.sleep(0.05)
        return False

    def read(self):
        """Shows the answers, of one connection after another."""
        while True:
            with contextlib.suppress(ConnectionError):
                for answer in self.answers:
                    # A line that is cut off is no answer.
                    if answer.endswith("\n"):
                        self.show(answer)
            with self.lock:
                if not self.connect_again():
                    return

    def show(self, answer):
        self.open.popleft()
        print(answer, end="", flush=True)
        self.last = answer
        self.places.release()

    def send(self, record):
        """Sends a record once one of the sixteen places is free. Where the connection is broken, the next one has it."""
        while not self.places.acquire(timeout=0.1):
            self.check()
        with self.lock:
            self.open.append(record)
            with contextlib.suppress(ConnectionError):
                self.write(record)

    def wait(self):
        """Waits until all answers have come, and gives the last."""
        for _ in range(WINDOW):
            while not self.places.acquire(timeout=0.1):
                self.check()
        self.places.release(WINDOW)
        return json.loads(self.last)

    def check(self):
        if not self.reader.is_alive():
            sys.exit("client: the hub has ended the session")


def empty_outbox(session, railway):
    """Fetches and acknowledges items until there is none."""
    while True:
        session.send(json.dumps({"kind": "fetch", "from": railway, "limit": 50}))
        items = session.wait().get("items")
        if items is None:
            sys.exit("client: no items")
        if not items:
            return
        session.send(json.dumps({"kind": "ack", "from": railway, "item": items[-1]["item"]}))
        session.wait()


def main():
    if len(sys.argv) not in (3, 4):
        sys.exit(__doc__)
    port, railway = int(sys.argv[1]), sys.argv[2]
    seconds = float(sys.argv[3]) if len(sys.argv) == 4 else 0
    try:
        session = Session(port, railway, seconds)
    except OSError as it:
        sys.exit(f"client: {it}")
    for record in sys.stdin:
        # A blank line is no record, and has no answer.
        if record.strip():
            session.send(record.rstrip("\n"))
    empty_outbox(session, railway)


if __name__ == "__main__":
    main()
