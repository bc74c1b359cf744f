"""The numbers that a service shows to Prometheus, beside those that its clients and the system tell."""
import pathlib
import time
import urllib.request

from hub_server import need

# It shows them within so many seconds.
LIMIT = 60


def numbers_at(port):
    """Each number by its name."""
    with urllib.request.urlopen(f"http://127.0.0.1:{port}/metrics", timeout=LIMIT) as answer:
        lines = answer.read().decode().splitlines()
    return {name: int(number) for name, number in (it.split(" ") for it in lines if not it.startswith("#"))}


def shows(port, **wanted):
    """Whether the service soon shows these numbers: a connection is taken a moment after it is there."""
    end = time.monotonic() + LIMIT
    while time.monotonic() < end:
        found = numbers_at(port)
        if all(found[name] == number for name, number in wanted.items()):
            return True
        time.sleep(0.01)
    return False


def resident(process):
    """How many bytes of the process's memory are resident."""
    status = pathlib.Path(f"/proc/{process.pid}/status").read_text()
    return 1024 * int(status.partition("VmRSS:")[2].split()[0])


def compare_numbers(service, port, sessions):
    """Compares the numbers of a service whose places are all taken, without and with a connection more, and its memory."""
    need(shows(port, taf_hub_sessions=sessions, taf_hub_connections_waiting=0), f"no {sessions} sessions are shown")
    with service.connect():
        need(shows(port, taf_hub_sessions=sessions, taf_hub_connections_waiting=1), "no connection is shown that waits")
    memory, shown = resident(service.process), numbers_at(port)["process_resident_memory_bytes"]
    need(memory / 2 < shown < memory * 2, f"{shown} bytes of memory are shown, and the system tells {memory}")
