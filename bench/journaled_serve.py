"""`taf_hub serve --journal` that is killed under load, and whose journal cannot be written, with railways that connect again."""
import json
import os
import pathlib
import random
import resource
import signal
import socket
import subprocess
import tempfile
import threading
import time

from hub_server import PROGRAM, Server, Wrong, free_port, hello, journey, line_of, need
from journal import Ended, check, records_of, without_repeats

# No shift takes as many seconds.
LIMIT = 60

# How many lines of a railway are on the way.
WINDOW = 16


class Railway:
    """A client that keeps each line until it has the answer, and sends over the next connection what has none."""

    def __init__(self, place):
        self.code, self.place = f"R{place:03}", place
        self.journeys, self.lines, self.answers = 0, [], []
        # How many lines it has to send, where they have an end.
        self.most = None

    def next_records(self):
        """The messages of a journey. One that is sent again gets the reply of the first. A question need not."""
        return [it for it in journey(self.code, self.place, self.journeys) if it["kind"] != "ask"]

    def next_lines(self, start, end):
        """The lines of records from one place up to another."""
        end = end if self.most is None else min(end, self.most)
        while len(self.lines) < end:
            self.lines += map(line_of, self.next_records())
            self.journeys += 1
        return self.lines[start:end]

    def serve(self, port):
        """One session: until each line has its answer, or the connection breaks."""
        try:
            with socket.create_connection(("127.0.0.1", port), timeout=LIMIT) as connection, connection.makefile("rb") as answers:
                self.exchange(connection, answers)
        except ConnectionError:
            pass

    def exchange(self, connection, answers):
        connection.setsockopt(socket.IPPROTO_TCP, socket.TCP_NODELAY, 1)
        connection.sendall(line_of(hello(self.code)))
        if not answers.readline().endswith(b"\n"):
            return
        sent = len(self.answers)
        while len(self.answers) != self.most:
            lines = self.next_lines(sent, len(self.answers) + WINDOW)
            connection.sendall(b"".join(lines))
            sent += len(lines)
            answer = answers.readline()
            # A line that is cut off is no answer.
            if not answer.endswith(b"\n"):
                return
            self.answers.append(answer)
        connection.shutdown(socket.SHUT_WR)
        answers.read()

    def half_as_many_more(self):
        """From now on its lines have an end."""
        self.most = len(self.answers) * 3 // 2 + 100
        self.next_lines(0, self.most)


def connect_all(railways, port):
    """Each railway in a thread of its own."""
    threads = [threading.Thread(target=it.serve, args=(port,), daemon=True) for it in railways]
    for it in threads:
        it.start()
    return threads


def join_all(threads):
    for it in threads:
        it.join(LIMIT)
        need(not it.is_alive(), "a session hangs")


def killed_at_once(draw, journal, count):
    """A server that is killed while it begins."""
    words = ["serve", "--port", str(free_port()), "--sessions", str(count), "--journal", journal]
    server = subprocess.Popen([PROGRAM, *words], stdout=subprocess.DEVNULL, stderr=subprocess.DEVNULL)
    time.sleep(0.001 * 4 ** draw.uniform(-1, 2))
    server.kill()
    server.wait(LIMIT)


def killed(draw, journal, railways):
    """A shift that is killed, mostly while its railways send."""
    if draw.random() < 0.1:
        return killed_at_once(draw, journal, len(railways))
    server = Server(len(railways), journal=journal)
    threads = connect_all(railways, server.port)
    # A batch and its sync take some milliseconds.
    time.sleep(0.001 * 4 ** draw.uniform(0, 4))
    server.process.kill()
    report, errors = server.process.communicate(timeout=LIMIT)
    need(server.process.returncode == -signal.SIGKILL, f"status {server.process.returncode} before it was killed: {errors}")
    need(not report, f"a shift that was killed prints {report}")
    join_all(threads)


def whole_shift(journal, railways):
    """A shift in which each line of each railway comes to its answer. How many calls settled, and the report."""
    for it in railways:
        it.half_as_many_more()
    server = Server(len(railways), journal=journal)
    threads = connect_all(railways, server.port)
    settled, printed, _ = server.end(LIMIT)
    join_all(threads)
    for it in railways:
        need(len(it.answers) == it.most, f"{it.code} has {len(it.answers)} answers to {it.most} lines")
    return settled, printed.partition(b"\n")[2]


def plain(record):
    """A record as the journal writes it."""
    return json.dumps(json.loads(record), sort_keys=True, separators=(",", ":")).encode()


def agrees(journal, railways, report):
    """The journal has the lines of each railway, in its order, and by it each line has the answer that the railway got. The journal as
    records gives the same report. How many calls it has."""
    bytes = pathlib.Path(journal).read_bytes()
    records, replayed = records_of(bytes), Ended(["replay"], bytes)
    need(replayed.status == 0 and len(replayed.answers) == len(records), f"status {replayed.status}: {replayed.errors}")
    need(b"".join(replayed.report) == report, "another report")
    replies = {}
    for record, answer in zip(records, replayed.answers):
        need(replies.setdefault(record, answer) == answer, f"a message that was sent again got another reply: {record}")
    once, sent = without_repeats(records), 0
    for it in railways:
        own, lines = [record for record in once if json.loads(record)["from"] == it.code], [plain(line) for line in it.lines[: it.most]]
        need(own == without_repeats(lines), f"the journal has other messages of {it.code}")
        need([replies[line] for line in lines] == it.answers, f"{it.code} got another reply")
        sent += len(lines)
    check(journal, len(records), 0)
    return len(records), sent


def calls_of(journal):
    """How many calls the journal has, without a torn end."""
    ended = Ended(["check", journal])
    need(ended.status == 0, f"check ends with status {ended.status}: {ended.errors}")
    return int(ended.report[0].split()[1])


def kills(folder, draw, count):
    """Kills so many shifts, one after another on one journal."""
    journal = f"{folder}/shifts"
    railways = [Railway(place) for place in range(draw.randint(2, 8))]
    for _ in range(count):
        killed(draw, journal, railways)
    before = calls_of(journal)
    settled, report = whole_shift(journal, railways)
    calls, sent = agrees(journal, railways, report)
    need(settled == calls - before, f"{settled} calls settled, and {calls - before} were made")
    print(f"journaled_serve: {count} shifts of {len(railways)} railways killed: {sent} lines, each with its reply, {calls - sent} done before they were sent again", flush=True)


def too_large(folder):
    """The file may not grow beyond so many bytes: from then on no answer is given, and what was answered is kept."""
    for size in (1, 1000, 65536, 250_001):
        journal = f"{folder}/too_large_{size}"
        railways = [Railway(place) for place in range(3)]
        limit = lambda: resource.setrlimit(resource.RLIMIT_FSIZE, (size, size))
        server = Server(len(railways), journal=journal, preexec_fn=limit, restore_signals=False)
        threads = connect_all(railways, server.port)
        printed, errors = server.process.communicate(timeout=LIMIT)
        join_all(threads)
        said = f"{journal}: a call of the journal's file failed\nfault: journal file\n"
        need(server.process.returncode == 7 and errors.decode() == said and not printed, f"status {server.process.returncode}: {errors}")
        need(os.path.getsize(journal) <= size, "the file is larger than it may be")
        _, report = whole_shift(journal, railways)
        agrees(journal, railways, report)
    print("journaled_serve: files that may not grow, each told", flush=True)


def journaled_serve():
    seed, count = int(os.environ.get("SEED", time.time())), int(os.environ.get("SHIFT_KILLS", 100))
    draw = random.Random(seed)
    try:
        with tempfile.TemporaryDirectory() as folder:
            kills(folder, draw, count)
            too_large(folder)
    except (Wrong, OSError) as it:
        raise Wrong(f"journaled_serve: seed {seed}: {it!r}") from it
