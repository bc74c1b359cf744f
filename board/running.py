"""A running hub with its board, and the sessions of its railways, for the scripts of this folder."""
import json
import os
import pathlib
import shutil
import socket
import subprocess
import sys
import tempfile
import time
import urllib.error
import urllib.request

HERE = pathlib.Path(__file__).resolve().parent
PATIENCE = 300  # seconds until the program serves


class Wrong(Exception):
    """What is not as it has to be, so that nothing more can be tried."""


def free_port():
    with socket.create_server(("127.0.0.1", 0)) as server:
        return server.getsockname()[1]


def program(words):
    """The command line of the program, or of its stand-in with --mock; and what is left of the words."""
    if "--mock" in words:
        return [str(HERE / "mock.py")], [it for it in words if it != "--mock"]
    named = os.environ.get("TAF") or str(HERE.parent / "taf")
    if not shutil.which(named):
        sys.exit(f"board: there is no program {named}")
    return [str(pathlib.Path(shutil.which(named)).resolve())], words


def find_chromium():
    named = os.environ.get("CHROMIUM") or shutil.which("chromium") or shutil.which("chromium-browser") or shutil.which("google-chrome")
    if not named:
        sys.exit("board: there is no Chromium: install Debian's package chromium, or name a program in CHROMIUM")
    return named


class Service:
    """`open` with a board, at free ports. Its input ends with it."""

    def __init__(self, words, keys_file=None, keys=None, options=()):
        self.port, self.board, self.keys, self.sessions = free_port(), free_port(), keys or {}, {}
        options = [*options, *(["--keys", str(keys_file)] if keys_file else [])]
        self.errors = tempfile.TemporaryFile()
        self.process = subprocess.Popen(
            [*words, "open", "--port", str(self.port), "--board", str(self.board), *options],
            stdin=subprocess.PIPE, stdout=subprocess.DEVNULL, stderr=self.errors,
        )
        for port in (self.port, self.board):
            self.wait_for(port)

    @property
    def url(self):
        return f"http://127.0.0.1:{self.board}"

    def wait_for(self, port):
        end = time.monotonic() + PATIENCE
        while True:
            try:
                return socket.create_connection(("127.0.0.1", port)).close()
            except OSError:
                if self.process.poll() is not None or time.monotonic() > end:
                    self.errors.seek(0)
                    said = self.errors.read().decode(errors="replace").strip()
                    self.end()
                    raise Wrong(f"the program does not serve with --board: {said[-300:]}") from None
                time.sleep(0.05)

    def session(self, railway):
        if railway not in self.sessions:
            connection = socket.create_connection(("127.0.0.1", self.port))
            connection.setsockopt(socket.IPPROTO_TCP, socket.TCP_NODELAY, 1)
            connection.settimeout(PATIENCE)
            self.sessions[railway] = connection, connection.makefile("rb")
            hello = {"kind": "hello", "from": railway} | ({"key": self.keys[railway]} if railway in self.keys else {})
            if self.say(railway, hello) != b'{"hello":"' + railway.encode() + b'"}\n':
                raise Wrong(f"the hello of {railway} is refused")
        return self.sessions[railway]

    def say(self, railway, record):
        """The line that answers a record."""
        connection, answers = self.session(railway)
        connection.sendall(json.dumps(record, separators=(",", ":")).encode() + b"\n")
        return answers.readline()

    def report(self, record):
        answer = json.loads(self.say(record["from"], record))
        if answer.get("reply") != "accepted":
            raise Wrong(f"{record} is answered {answer}")

    def get(self, path, method="GET", **headers):
        """Status, headers and body. The path goes out as it is."""
        request = urllib.request.Request(self.url, method=method, headers={name.replace("_", "-"): it for name, it in headers.items()})
        request.full_url = self.url + path
        request.selector = path
        try:
            with urllib.request.urlopen(request, timeout=PATIENCE) as answer:
                return answer.status, answer.headers, answer.read()
        except urllib.error.HTTPError as error:
            with error:
                return error.code, error.headers, error.read()

    def end(self):
        """Closes the sessions and the input. Once it has ended nothing more is done."""
        if self.process.returncode is not None:
            return
        for connection, answers in self.sessions.values():
            answers.close()
            connection.close()
        self.process.stdin.close()
        try:
            self.process.wait(PATIENCE)
        except subprocess.TimeoutExpired:
            self.process.kill()
            self.process.wait()
        self.errors.close()
