"""Connections that do what no railway should, beside two railways whose answers are compared and timed."""
import random
import socket
import struct
import threading
import time

from honest import WAGONS, begin_honest, end_honest
from hub_server import Server, Wrong, hello, line_of, need, plan, vehicle_number

# The wagons that a connection plans which is reset with unread answers.
UNREAD = [vehicle_number(f"33806{number:06}") for number in range(5000)]


# Each of these plays one connection, and gives how many calls the hub has made of it, or None where only the hub knows.


def hello_and_ask(railway):
    return line_of(hello(railway)), line_of({"kind": "ask", "from": railway, "wagon": WAGONS[0]})


def reset(connection):
    connection.setsockopt(socket.SOL_SOCKET, socket.SO_LINGER, struct.pack("ii", 1, 0))
    connection.close()


def close_at_once(connection):
    connection.close()
    return 0


def reset_in_a_line(connection):
    """The answers are waited for, so that both calls are made before the connection breaks."""
    first, ask = hello_and_ask("R301")
    connection.sendall(first + ask + ask + ask[:20])
    with connection.makefile("rb") as answers:
        need([answers.readline().count(b"\n") for _ in range(3)] == [1, 1, 1], "an answer is missing")
    reset(connection)
    return 2


def reset_unread(connection):
    """Plans many wagons, reads two answers, and resets. The report shows which plans were taken."""
    plans = (plan("R306", number, wagon) for number, wagon in enumerate(UNREAD, 1))
    lines = b"".join(map(line_of, [hello("R306"), *plans]))
    sender = threading.Thread(target=send_what_goes, args=(connection, lines), daemon=True)
    sender.start()
    said = connection.recv(4096)
    need(said.startswith(b'{"hello":"R306"}\n'), f"another hello: {said}")
    reset(connection)
    sender.join(10)
    return None


def send_what_goes(connection, lines):
    try:
        connection.sendall(lines)
    except OSError:
        pass


def answered(connection, asks):
    """Sends no more: the hello and so many asks are answered. How many asks."""
    connection.shutdown(socket.SHUT_WR)
    with connection.makefile("rb") as answers:
        need(sum(1 for _ in answers) == 1 + asks, "another number of answers")
    connection.close()
    return asks


def half_close(connection):
    """The whole lines are answered, the piece of one is dropped."""
    first, ask = hello_and_ask("R302")
    connection.sendall(first + ask * 100 + ask[:20])
    return answered(connection, 100)


def send_slowly(connection):
    first, ask = hello_and_ask("R303")
    for byte in first + ask * 10:
        connection.sendall(bytes([byte]))
        time.sleep(0.001)
    return answered(connection, 10)


def send_no_newline(connection):
    """A line of 64 MiB is answered once, and the line behind it as it is to be."""
    first, ask = hello_and_ask("R304")
    connection.sendall(first)
    for _ in range(64):
        connection.sendall(b"x" * (1 << 20))
    connection.sendall(b"\n" + ask)
    connection.shutdown(socket.SHUT_WR)
    with connection.makefile("rb") as answers:
        said = answers.readlines()
    need(said[1] == b'{"fault":"line_too_long"}\n' and len(said) == 3, "a long line is answered otherwise")
    connection.close()
    return 1


def send_noise(connection):
    """Each line that is not blank is answered by a fault."""
    noise = random.Random(7).randbytes(1 << 20)
    sender = threading.Thread(target=lambda: (connection.sendall(noise), connection.shutdown(socket.SHUT_WR)))
    sender.start()
    with connection.makefile("rb") as answers:
        said = answers.readlines()
    sender.join()
    lines = [it for it in noise.split(b"\n")[:-1] if it.strip(b" \t\r")]
    need(len(said) == len(lines) and all(b'"fault"' in it for it in said), "noise is answered otherwise")
    connection.close()
    return 0


def request_of(railway, port):
    """What a browser sends for a page that asks it to give a hub a plan."""
    body = line_of(hello(railway)) + line_of(plan(railway, 1, WAGONS[0]))
    head = [
        "POST / HTTP/1.1",
        f"Host: 127.0.0.1:{port}",
        f"Content-Length: {len(body)}",
        "Origin: http://example.com",
        "Content-Type: text/plain;charset=UTF-8",
    ]
    return "\r\n".join([*head, "", ""]).encode() + body


def is_closed_unanswered(connection):
    """The server closes the connection, or resets it since bytes were left, and has said nothing."""
    connection.settimeout(10)
    try:
        return connection.recv(4096) == b""
    except ConnectionError:
        return True


def post_at_once(connection):
    """A request of HTTP is not answered, and the plan in it is not taken."""
    send_what_goes(connection, request_of("R307", connection.getpeername()[1]))
    need(is_closed_unanswered(connection), "a request of HTTP is answered")
    connection.close()
    return 0


def post_slowly(connection):
    """The same, a byte at a time."""
    for byte in request_of("R308", connection.getpeername()[1]):
        send_what_goes(connection, bytes([byte]))
        time.sleep(0.001)
    need(is_closed_unanswered(connection), "a request of HTTP is answered")
    connection.close()
    return 0


def never_read(connection):
    """Sends until nothing more is taken, never reads, and stays. What is made of its calls is known from what settles."""
    connection.setsockopt(socket.SOL_SOCKET, socket.SO_RCVBUF, 4096)
    first, ask = hello_and_ask("R305")
    connection.sendall(first)
    connection.settimeout(2)
    try:
        while True:
            connection.sendall(ask * 100)
    except TimeoutError:
        pass
    return None


BROKEN = [close_at_once, reset_in_a_line, reset_unread, half_close]
ODD = [send_slowly, send_no_newline, send_noise, post_at_once, post_slowly, never_read]
HOSTILE = BROKEN + ODD


class Hostile(threading.Thread):
    def __init__(self, connection, play):
        super().__init__(daemon=True, name=play.__name__)
        self.connection, self.play = connection, play
        self.calls, self.wrong = None, "it does not end"

    def run(self):
        try:
            self.calls, self.wrong = self.play(self.connection), None
        except (Wrong, OSError) as it:
            self.wrong = repr(it)
            self.connection.close()


def check_report(report):
    """The hub has the first plans of the connection that was reset, up to some plan, and none of those in requests of HTTP. How many
    it has of the first."""
    wagons = [line.split()[0].decode() for line in report.splitlines() if line.split()[1:2] == [b"R306"]]
    need(wagons == UNREAD[: len(wagons)], "what was taken of a connection that is reset is not the first part of it")
    need(b" R307 " not in report and b" R308 " not in report, "a plan in a request of HTTP is taken")
    return len(wagons)


def connections():
    server = Server(len(HOSTILE) + 3, 2)
    honest = begin_honest(server)
    silent = server.connect()
    hostile = [Hostile(server.connect(), play) for play in HOSTILE]
    for it in hostile:
        it.start()
    for it in hostile:
        it.join(60)
    calls, slowest = end_honest(honest)
    time.sleep(0.2)
    need(server.process.poll() is None, "the shift ended before the silent session")
    for it in [silent, *(it.connection for it in hostile)]:
        it.close()
    settled, report, peak = server.end(30)
    wrong = [f"{it.name}: {it.wrong}" for it in hostile if it.wrong]
    need(not wrong, "; ".join(wrong))
    unread = check_report(report)
    least = calls + unread + sum(it.calls for it in hostile if it.calls is not None)
    need(settled >= least, f"{settled} calls settled, and {least} were answered")
    need(peak < 64, f"the server took {peak} MiB")
    print(f"connections: {len(HOSTILE) + 1} hostile, beside 2 railways with {calls} calls, the slowest answer within", end=" ")
    print(f"{slowest * 1000:.1f} ms; {unread} of {len(UNREAD)} plans taken before a reset; settled {settled}, {peak} MiB")
