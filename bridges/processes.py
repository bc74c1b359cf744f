"""The bridges and publishers of a set of hubs as processes, which are begun again whenever they end."""
import asyncio
import dataclasses
import os
import pathlib
import shlex
import signal
import subprocess

COMMANDS = pathlib.Path(__file__).resolve().parent / "rabbitmq"
TICKS = os.sysconf("SC_CLK_TCK")


def seconds_of(pid):
    """The processor time of a process so far."""
    try:
        fields = pathlib.Path(f"/proc/{pid}/stat").read_text().rpartition(")")[2].split()
    except FileNotFoundError:
        return 0
    return (int(fields[11]) + int(fields[12])) / TICKS


@dataclasses.dataclass
class Part:
    """A process: what it is, how it is called, and how often it was begun."""

    kind: str
    words: list
    folder: pathlib.Path
    process: subprocess.Popen | None = None
    begun: int = 0

    def begin(self):
        self.begun += 1
        self.output = self.folder / f"output.{self.begun}"
        with self.output.open("wb") as output, (self.folder / "errors").open("ab") as errors:
            self.process = subprocess.Popen(self.words, stdin=subprocess.DEVNULL, stdout=output, stderr=errors)

    def hub(self):
        """The process of the hub's program behind a bridge, if it is there."""
        try:
            children = pathlib.Path(f"/proc/{self.process.pid}/task/{self.process.pid}/children").read_text()
        except FileNotFoundError:
            return None
        return int(children.split()[0]) if children else None

    def kill(self):
        self.process.kill()

    def kill_hub(self):
        pid = self.hub()
        if pid:
            os.kill(pid, signal.SIGKILL)
        return pid is not None


class Parts:
    """The parts of a set of hubs, over the nodes at these addresses."""

    def __init__(self, folder, addresses, name, hubs, program):
        self.folder, self.all, self.task = folder, [], None
        self.common = ["--nodes", addresses, "--name", name]
        self.hubs, self.program = hubs, shlex.join(map(str, program))

    def add(self, kind, command, *words):
        folder = self.folder / f"{kind}{sum(it.kind == kind for it in self.all) + 1}"
        folder.mkdir(parents=True)
        part = Part(kind, [str(COMMANDS / command), *self.common, *map(str, words)], folder)
        self.all.append(part)
        part.begin()

    def add_bridge(self, kind, hub, *words):
        self.add(kind, "run", "--hub", hub, "--program", self.program, *words)

    def add_bridges(self, kind):
        """A bridge for each hub."""
        for hub in range(1, self.hubs + 1):
            self.add_bridge(kind, hub)

    def add_publisher(self, port):
        self.add("publisher", "publish", "--hubs", self.hubs, "--port", port)

    def of(self, kind):
        return [it for it in self.all if it.kind == kind]

    async def keep(self):
        """Begins again what has ended, as a unit of systemd would."""
        while True:
            await asyncio.sleep(0.2)
            for it in self.all:
                if it.process.poll() is not None:
                    it.begin()

    def seconds(self):
        """The processor time of the parts of each kind, that of the hubs' program apart."""
        spent = {it.kind: 0 for it in self.all} | {"hub": 0}
        for it in self.all:
            spent[it.kind] += seconds_of(it.process.pid)
            spent["hub"] += seconds_of(it.hub()) if it.hub() else 0
        return spent

    def end(self, limit):
        """Ends all in order. Gives the outputs of the bridges, by their kind."""
        for it in self.all:
            it.process.terminate()
        for it in self.all:
            it.process.wait(limit)
        return {kind: [it.output.read_bytes() for it in self.of(kind)] for kind in ("run", "standby")}

    def kill_all(self):
        for it in self.all:
            it.process.kill()
            it.process.wait()
