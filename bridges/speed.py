"""How many calls a second hubs behind streams answer, beside one hub alone on the same machine."""
import asyncio
import collections
import os
import subprocess
import time

import cluster
from drawn_records import RAILWAYS, Records
from processes import Parts, seconds_of
from railways import Exchange

HUBS = [1, 2, 4]
PUBLISHERS = 2
# What the arithmetic takes for a machine of its own.
PROCESSORS = 4


def rate(count, seconds):
    return f"{count / seconds:,.0f} calls a second"


async def replay_alone(records, program):
    """The lines of a file, by one hub: no network and no disk."""
    text = b"".join(line + b"\n" for line in records.lines)
    begun = time.monotonic()
    await asyncio.to_thread(subprocess.run, [*program, "replay"], input=text, stdout=subprocess.DEVNULL, check=True)
    return time.monotonic() - begun


async def serve_alone(records, program):
    """The same railways at one hub: no disk."""
    [port] = cluster.free_ports(1)
    words = [*program, "serve", "--port", str(port), "--sessions", str(len(RAILWAYS))]
    hub = subprocess.Popen(words, stdin=subprocess.DEVNULL, stdout=subprocess.DEVNULL, stderr=subprocess.DEVNULL)
    try:
        return await Exchange(records, dict.fromkeys(RAILWAYS, port)).run()
    finally:
        hub.kill()
        hub.wait()


class Clock:
    """The processor time of all parts since it was made."""

    def __init__(self, nodes, parts):
        self.nodes, self.parts, self.begun = nodes, parts, {}
        self.begun = self.seconds()

    def seconds(self):
        spent = {"nodes": sum(seconds_of(it.process.pid) for it in self.nodes.nodes), "railways": sum(os.times()[:2])}
        return {kind: spent - self.begun.get(kind, 0) for kind, spent in (spent | self.parts.seconds()).items()}


class Questions:
    """A question of each railway, in a group of its own."""

    lines = [b'{"kind":"ask","from":"%s","wagon":"318000000006"}' % it.encode() for it in RAILWAYS]
    senders, groups = RAILWAYS, [[nth] for nth in range(len(RAILWAYS))]


async def behind_streams(records, hubs, nodes, folder, program):
    """The same railways at so many hubs behind streams. Gives how many seconds it took, and the processor time of the parts."""
    parts = Parts(folder / f"speed{hubs}", nodes.addresses, f"speed{hubs}", hubs, program)
    ports = cluster.free_ports(PUBLISHERS)
    try:
        parts.add_bridges("run")
        for port in ports:
            parts.add_publisher(port)
        port_of = {code: ports[nth % PUBLISHERS] for nth, code in enumerate(RAILWAYS)}
        # A question of each railway before, so that all have come up.
        await Exchange(Questions(), port_of).run()
        clock = Clock(nodes, parts)
        exchange = Exchange(records, port_of)
        seconds = await exchange.run()
        return seconds, clock.seconds()
    finally:
        parts.kill_all()


def tell_arithmetic(spent, count):
    """What the same processor time would come to on machines of their own."""
    each = {kind: 1e6 * seconds / count for kind, seconds in spent.items()}
    nodes = cluster.NODES * PROCESSORS * 1e6 / each["nodes"]
    print(f"speed: by arithmetic, were each part on a machine of its own with {PROCESSORS} processors: a publisher is full at", end=" ")
    print(f"{1e6 / each['publisher']:,.0f} calls a second, a bridge with its hub at {1e6 / max(each['run'], each['hub']):,.0f},", end=" ")
    print(f"the three nodes together at {nodes:,.0f}", flush=True)


async def measure(seed, count, nodes, folder, program):
    records = Records(seed, count, 1)
    print(f"speed: {count} records of {len(RAILWAYS)} railways with sixteen on the way each, all on this machine", flush=True)
    print(f"speed: one hub alone, replay of a file: {rate(count, await replay_alone(records, program))}", flush=True)
    print(f"speed: one hub alone, serve: {rate(count, await serve_alone(records, program))}", flush=True)
    for hubs in HUBS:
        records = Records(seed, count, hubs)
        seconds, spent = await behind_streams(records, hubs, nodes, folder, program)
        each = collections.Counter({kind: 1e6 * it / count for kind, it in spent.items()})
        shares = ", ".join(f"{kind} {each[kind]:.0f} us" for kind in ("railways", "publisher", "nodes", "run", "hub"))
        print(f"speed: {hubs} hubs behind streams: {rate(count, seconds)}; processor time of a call: {shares}", flush=True)
    tell_arithmetic(spent, count)
