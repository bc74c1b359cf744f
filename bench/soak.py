"""Real shifts with lines, pieces and orders drawn from seeds: none hangs, each line has its answer, each count settles."""
import os
import random
import time

from hub_server import Server, Wrong, hello, line_of, need, plan, vehicle_number

# No shift takes as many seconds.
LIMIT = 30


def a_plan(railway, place, number):
    return line_of(plan(railway, number, vehicle_number(f"2181{place:02}{number:05}"))), b'{"no":%d,"reply":"accepted"}\n' % number, 1


def a_question(railway, place, number):
    wagon = vehicle_number(f"2180{place:02}{number:05}")
    answer = {"reply": "refused", "wagon": wagon, "why": "unknown_wagon"}
    return line_of({"kind": "ask", "from": railway, "wagon": wagon}), line_of(answer), 1


def a_repeat(railway, place, number):
    """A plan twice: the second is answered as the first, and is a call too."""
    line, answer, _ = a_plan(railway, place, number)
    return line * 2, answer * 2, 2


def no_record(*_):
    return b"nothing\n", b'{"fault":"bad_json"}\n', 0


def of_another(*_):
    return line_of({"kind": "ask", "from": "X999", "wagon": "218124712173"}), b'{"fault":"wrong_sender"}\n', 0


def a_blank(*_):
    return b" \t\r\n", b"", 0


KINDS = [a_plan, a_question, a_repeat, no_record, of_another, a_blank]


class Session:
    """A railway's lines, in pieces of random size, what is answered, and how many calls they are."""

    def __init__(self, draw, server, place):
        railway = f"S{place:03}"
        self.connection = server.connect()
        self.connection.settimeout(LIMIT)
        said = [draw.choice(KINDS)(railway, place, number) for number in range(1, draw.randint(1, 40))]
        lines = line_of(hello(railway)) + b"".join(line for line, _, _ in said)
        self.expected = b'{"hello":"%s"}\n' % railway.encode() + b"".join(answer for _, answer, _ in said)
        self.calls = sum(calls for _, _, calls in said)
        most = draw.choice([3, 40, 700, 20000])
        self.pieces = []
        while lines:
            size = draw.randint(1, most)
            self.pieces.append(lines[:size])
            lines = lines[size:]

    def end(self):
        """Compares all that is answered."""
        with self.connection.makefile("rb") as answers:
            said = answers.read()
        self.connection.close()
        need(said == self.expected, f"a session is answered {said}, and not {self.expected}")


def shift(seed):
    """One shift. How many calls it made."""
    draw = random.Random(seed)
    server = Server(draw.choice([1, 2, 3, 8, draw.randint(1, 64)]), draw.randint(1, 8))
    try:
        sessions = [Session(draw, server, place) for place in range(server.sessions)]
        turns = [it for it in sessions for _ in it.pieces]
        draw.shuffle(turns)
        for it in turns:
            it.connection.sendall(it.pieces.pop(0))
            if not it.pieces:
                it.connection.shutdown(1)
        for it in sessions:
            it.end()
        settled, _, _ = server.end(LIMIT)
    finally:
        server.process.kill()
    calls = sum(it.calls for it in sessions)
    need(settled == calls, f"{settled} calls settled, and {calls} were made")
    return calls


def soak():
    seed, seconds = int(os.environ.get("SEED", time.time())), float(os.environ.get("SOAK", 60))
    first, calls, end = seed, 0, time.monotonic() + seconds
    while time.monotonic() < end:
        try:
            calls += shift(seed)
        except (Wrong, OSError) as it:
            raise Wrong(f"soak: seed {seed}: {it!r}") from it
        seed += 1
    print(f"soak: {seed - first} shifts with {calls} calls, from seed {first} on: each line answered, each count settled")
