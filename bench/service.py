"""Two of `taf_hub open` with clients that no service should have, each beside two railways whose answers are compared and timed."""
import os
import pathlib
import socket
import threading
import time

from honest import begin_honest, end_honest
from hub_server import Service, Wrong, free_port, hello, line_of, need, plan, vehicle_number
from numbers_of import compare_numbers

# The two railways, and three places for others.
SESSIONS = 5
TIMES = ["--hello-seconds", "1", "--silence-seconds", "2", "--write-seconds", "2", "--grace-seconds", "1"]
# Of a service that cuts no client off before it ends: an answer that a client held would take until then.
PATIENT = ["--hello-seconds", "600", "--silence-seconds", "600", "--write-seconds", "600", "--grace-seconds", "1"]
FULL = b'{"fault":"full"}\n'

# How many connections come at once, and how many of them find neither a place nor room to wait.
FLOOD, BEYOND = 200, 200 - 3 - 64

# Whatever is to end does so within so many seconds.
LIMIT = 120


class Client(threading.Thread):
    """One that plays something, and ends with what is wrong."""

    def __init__(self, play, connection):
        super().__init__(daemon=True, name=play.__name__)
        self.play, self.connection, self.wrong = play, connection, "it does not end"
        connection.settimeout(LIMIT)

    def run(self):
        try:
            self.play(self.connection)
            self.wrong = None
        except (Wrong, OSError) as it:
            self.wrong = f"{self.name}: {it!r}"
        finally:
            self.connection.close()


def start(plays, service):
    clients = [Client(play, service.connect()) for play in plays]
    for it in clients:
        it.start()
    return clients


def join(clients):
    for it in clients:
        it.join(2 * LIMIT)
    wrong = [it.wrong for it in clients if it.wrong]
    need(not wrong, "; ".join(wrong))


def said_to_the_end(connection):
    """All that is said until the hub closes the connection, or resets it."""
    said = b""
    try:
        while piece := connection.recv(4096):
            said += piece
    except ConnectionError:
        pass
    return said


# What clients do.


def never_read(connection):
    """Asks for a record without reading: it is cut off once nothing that is written to it was taken for long enough."""
    connection.setsockopt(socket.SOL_SOCKET, socket.SO_RCVBUF, 4096)
    wagon = vehicle_number("33807000001")
    ask = line_of({"kind": "ask", "from": "R305", "wagon": wagon})
    try:
        connection.sendall(line_of(hello("R305")) + line_of(plan("R305", 1, wagon)))
        while True:
            connection.sendall(ask * 100)
    except ConnectionError:
        pass


def vanish(connection):
    """Says hello, and nothing from then on, as one does whose machine is gone: it is cut off."""
    connection.sendall(line_of(hello("R306")))
    need(said_to_the_end(connection) == b'{"hello":"R306"}\n', "a client that is gone is told something else")


def say_nothing(connection):
    """Says half a hello: it is cut off, and told nothing."""
    connection.sendall(line_of(hello("R307"))[:9])
    need(said_to_the_end(connection) == b"", "a client that says nothing is told something")


PLAYS = [never_read, vanish, say_nothing]


def come_in_a_flood(connection):
    """It is told that the hub is full, or cut off since it says nothing."""
    connection.said = said_to_the_end(connection)
    need(connection.said in (FULL, b""), f"a connection of many is told {connection.said}")


def come_and_go(service, count):
    """So many connections, one after another, each of which says hello and ends."""
    for number in range(count):
        with service.connect() as connection:
            connection.settimeout(LIMIT)
            connection.sendall(line_of(hello("R308")))
            connection.shutdown(socket.SHUT_WR)
            need(said_to_the_end(connection) == b'{"hello":"R308"}\n', f"connection {number} is not answered")


class Stream(socket.socket):
    """A connection that keeps what it was told."""

    said = None


def flood(service):
    """How many of many connections that come at once are told that the hub is full."""
    clients = []
    for _ in range(FLOOD):
        connection = Stream()
        connection.connect(("127.0.0.1", service.port))
        clients.append(Client(come_in_a_flood, connection))
    for it in clients:
        it.start()
    join(clients)
    return sum(it.connection.said == FULL for it in clients)


def kept_of(service):
    """How many files and how many threads the service has."""
    process = pathlib.Path(f"/proc/{service.process.pid}")
    return len(list((process / "fd").iterdir())), len(list((process / "task").iterdir()))


def keeps_again(service, wanted):
    """Whether it soon has so many again: a connection is closed a moment after its client has read the end."""
    end = time.monotonic() + LIMIT
    while kept_of(service) != wanted and time.monotonic() < end:
        time.sleep(0.01)
    return kept_of(service) == wanted


def come_all(service, count):
    """Has all clients come to a service that cuts them off, and gives how many of a flood are told that it is full."""
    before = kept_of(service)
    join(start(PLAYS, service))
    full = flood(service)
    need(full >= BEYOND, f"{full} of {FLOOD} connections were told that the hub is full")
    come_and_go(service, count)
    need(keeps_again(service, before), f"files and threads before all clients and after them: {before}, {kept_of(service)}")
    return full


def end_beside(clients, service):
    """Ends a service beside clients that are still there. How many calls settled, the peak memory, and how many seconds it took."""
    need(all(it.is_alive() for it in clients), "a client is cut off before its time")
    begun = time.monotonic()
    settled, _, peak = service.end(LIMIT)
    seconds = time.monotonic() - begun
    join(clients)
    need(seconds < 20, f"the service took {seconds:.1f} seconds to end")
    return settled, peak, seconds


def service():
    count, board = int(os.environ.get("CONNECTIONS", 10_000)), free_port()
    hub, patient = Service(SESSIONS, 2, options=TIMES), Service(SESSIONS, 2, options=[*PATIENT, "--board", str(board)])
    try:
        honest, others = begin_honest(hub), begin_honest(patient)
        staying = start(PLAYS, patient)
        compare_numbers(patient, board, SESSIONS)
        full = come_all(hub, count)
        found = [end_honest(honest), end_honest(others)]
        ended = [hub.end(LIMIT), end_beside(staying, patient)]
    finally:
        hub.process.kill()
        patient.process.kill()
    for (calls, _), (settled, *_) in zip(found, ended):
        need(settled >= calls, f"{settled} calls settled, and {calls} were answered")
    calls, slowest = sum(it for it, _ in found), max(it for _, it in found)
    settled, peak, seconds = sum(it for it, *_ in ended), max(ended[0][2], ended[1][1]), ended[1][2]
    print(f"service: 3 clients cut off, 3 that stay, {full} of {FLOOD} told full, {count} one after another, beside 2 railways each with {calls} calls,", end=" ")
    print(f"the slowest answer within {slowest * 1000:.1f} ms; ended in {seconds:.1f} s; settled {settled}, {peak} MiB")
