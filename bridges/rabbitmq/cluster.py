"""Three RabbitMQ nodes on this machine, joined to one cluster, with all their files in one folder.

They listen on 127.0.0.1, each at a port of its own, and use a port mapper (epmd) of their own, so that nodes that the system
runs are left alone. Each has one scheduler that does not spin. Streams replicate to ports 6000 to 6500 of this machine.
"""
import dataclasses
import json
import os
import pathlib
import secrets
import shutil
import socket
import subprocess
import time

# Debian's wrapper in /usr/sbin changes the user and the folder: this is the program behind it.
SERVER = pathlib.Path("/usr/lib/rabbitmq/bin/rabbitmq-server")
NODES = 3
# No node takes as many seconds to come up.
LIMIT = 120
LOCAL = "-kernel inet_dist_use_interface {127,0,0,1}"
QUIET = f"+sbwt none +sbwtdcpu none +sbwtdio none +S 1:1 +A 2 {LOCAL}"
SETTINGS = """
listeners.tcp.1 = 127.0.0.1:{port}
loopback_users.guest = true
vm_memory_high_watermark.absolute = 2GB
disk_free_limit.absolute = 100MB
log.file.level = warning
cluster_formation.peer_discovery_backend = classic_config
cluster_formation.target_cluster_size_hint = 3
"""


class NodeError(Exception):
    """A node that does not come up."""


def free_ports(count):
    """Ports that nobody listens on, all different."""
    servers = [socket.create_server(("127.0.0.1", 0)) for _ in range(count)]
    ports = [it.getsockname()[1] for it in servers]
    for it in servers:
        it.close()
    return ports


@dataclasses.dataclass
class Node:
    name: str
    folder: pathlib.Path
    port: int
    process: subprocess.Popen | None = None

    @property
    def address(self):
        return f"127.0.0.1:{self.port}"


class Cluster:
    """The nodes, which start together. A node that was killed starts again with its own files."""

    def __init__(self, folder, ports=None):
        self.folder = pathlib.Path(folder).resolve()
        self.folder.mkdir(parents=True, exist_ok=True)
        mapper, *free = free_ports(1 + 2 * NODES)
        self.distribution, ports = free[NODES:], ports or free[:NODES]
        self.nodes = [Node(f"taf{nth + 1}@localhost", self.folder / f"node{nth + 1}", ports[nth]) for nth in range(NODES)]
        self.environment = os.environ | {"ERL_EPMD_PORT": str(mapper), "ERL_EPMD_ADDRESS": "127.0.0.1", "HOME": str(self.folder)}
        self.environment["RABBITMQ_CTL_ERL_ARGS"] = LOCAL
        cookie = self.folder / ".erlang.cookie"
        if not cookie.exists():
            cookie.write_text(secrets.token_hex(16))
            cookie.chmod(0o400)
        words = {"env": self.environment, "stdout": subprocess.DEVNULL, "stderr": subprocess.DEVNULL, "start_new_session": True}
        self.mapper = subprocess.Popen(["epmd"], **words)

    @property
    def addresses(self):
        return ",".join(it.address for it in self.nodes)

    def settings(self, node):
        lines = SETTINGS.format(port=node.port)
        for nth, it in enumerate(self.nodes, 1):
            lines += f"cluster_formation.classic_config.nodes.{nth} = {it.name}\n"
        return lines

    def launch(self, node):
        """Has the node start. It may not be up yet."""
        node.folder.mkdir(exist_ok=True)
        (node.folder / "enabled_plugins").write_text("[].\n")
        (node.folder / "rabbitmq.conf").write_text(self.settings(node))
        environment = self.environment | {
            "RABBITMQ_NODENAME": node.name,
            "RABBITMQ_NODE_PORT": str(node.port),
            "RABBITMQ_DIST_PORT": str(self.distribution[self.nodes.index(node)]),
            "RABBITMQ_MNESIA_BASE": str(node.folder / "data"),
            "RABBITMQ_LOG_BASE": str(node.folder / "log"),
            "RABBITMQ_ENABLED_PLUGINS_FILE": str(node.folder / "enabled_plugins"),
            "RABBITMQ_CONFIG_FILE": str(node.folder / "rabbitmq.conf"),
            "RABBITMQ_CONF_ENV_FILE": os.devnull,
            "RABBITMQ_ALLOW_INPUT": "1",
            "RABBITMQ_SERVER_ADDITIONAL_ERL_ARGS": QUIET + " -noinput",
        }
        with (node.folder / "output").open("ab") as output:
            words = {"env": environment, "stdin": subprocess.DEVNULL, "stdout": output, "stderr": output, "start_new_session": True}
            node.process = subprocess.Popen([SERVER], cwd=node.folder, **words)

    def is_up(self, node):
        with socket.socket() as it:
            return it.connect_ex(("127.0.0.1", node.port)) == 0

    def wait(self, node):
        end = time.monotonic() + LIMIT
        while not self.is_up(node):
            if node.process.poll() is not None or time.monotonic() > end:
                raise NodeError(f"{node.name} does not come up: see {node.folder}")
            time.sleep(0.1)

    def start(self):
        """Starts all nodes. New ones join the first; those that were there before wait for each other."""
        first, *others = self.nodes
        is_new = not first.folder.exists()
        self.launch(first)
        if is_new:
            self.wait(first)
        for it in others:
            self.launch(it)
        for it in self.nodes:
            self.wait(it)
        words = [SERVER.parent / "rabbitmqctl", "-q", "-n", first.name, "cluster_status", "--formatter", "json"]
        told = subprocess.run(words, env=self.environment, capture_output=True, check=True).stdout
        running = json.loads(told)["running_nodes"]
        if len(running) != NODES:
            raise NodeError(f"the nodes have not joined: {running}")

    def kill(self, node):
        """Kills the node as a power cut would end it: it gets no signal that it can catch."""
        node.process.kill()
        node.process.wait()

    def processes(self):
        return [self.mapper, *(it.process for it in self.nodes if it.process)]

    def stop(self):
        for it in self.processes():
            it.kill()
            it.wait()


def missing():
    """What is not there of what the nodes need, or None."""
    if not SERVER.exists():
        return "rabbitmq-server is not there: apt-get install rabbitmq-server"
    return None if shutil.which("epmd") else "epmd is not there: apt-get install erlang-base"
