"""Railways that send records to ports, each in a session of its own with up to sixteen records on the way.

A record is sent once all earlier ones of its group have their replies, so that the replies do not depend on the order of records
that are apart. Where a connection breaks, the railway connects again and sends again what has no reply.
"""
import asyncio
import collections
import json
import random
import time

WINDOW = 16
# So many groups are under way at a time.
GROUPS = 400
# Where so many seconds nothing comes, nothing will.
LIMIT = 180


class SilenceError(Exception):
    """A reply that does not come."""


class Railway:
    """A railway: what it has to send, and what it has sent without a reply so far."""

    def __init__(self, code, port, take):
        self.code, self.port, self.take = code, port, take
        self.waiting, self.open = collections.deque(), collections.deque()
        self.writer, self.sessions, self.is_due = None, 0, False

    def send(self, place, line):
        self.waiting.append((place, line))
        if not self.is_due:
            self.is_due = True
            asyncio.get_running_loop().call_soon(self.write)

    def write(self):
        """Sends what there is room for."""
        self.is_due, lines = False, []
        is_open = self.writer and not self.writer.is_closing()
        while is_open and self.waiting and len(self.open) < WINDOW:
            self.open.append(self.waiting.popleft())
            lines.append(self.open[-1][1] + b"\n")
        if lines:
            self.writer.write(b"".join(lines))

    async def live(self):
        """One session after another."""
        while True:
            try:
                reader, writer = await asyncio.open_connection("127.0.0.1", self.port, limit=1 << 30)
                try:
                    await self.exchange(reader, writer)
                finally:
                    self.writer = None
                    writer.close()
            except OSError:
                pass
            await asyncio.sleep(random.uniform(0.05, 0.3))

    async def exchange(self, reader, writer):
        writer.write(json.dumps({"kind": "hello", "from": self.code}).encode() + b"\n")
        said = await reader.readline()
        if said != b'{"hello":"%s"}\n' % self.code.encode():
            return
        self.sessions += 1
        writer.write(b"".join(line + b"\n" for _, line in self.open))
        self.writer = writer
        self.write()
        while (reply := await reader.readline()).endswith(b"\n"):
            place, _ = self.open.popleft()
            self.take(place, reply[:-1])
            self.write()


class Exchange:
    """All records of groups, from the first to the last reply."""

    def __init__(self, records, ports):
        self.records, self.replies = records, [None] * len(records.lines)
        self.railways = {code: Railway(code, port, self.take) for code, port in ports.items()}
        self.next_of, self.first = {}, collections.deque()
        for group in records.groups:
            self.first.append(group[0])
            self.next_of |= dict(zip(group, group[1:]))
        self.left, self.last, self.is_wrong = len(records.lines), time.monotonic(), None

    @property
    def done(self):
        return len(self.replies) - self.left

    def send(self, place):
        self.railways[self.records.senders[place]].send(place, self.records.lines[place])

    def take(self, place, reply):
        if self.replies[place] is not None:
            self.is_wrong = f"line {place} has two replies"
        self.replies[place], self.last = reply, time.monotonic()
        self.left -= 1
        if place in self.next_of:
            self.send(self.next_of[place])
        elif self.first:
            self.send(self.first.popleft())

    async def run(self):
        """Sends all. Gives how many seconds it took."""
        tasks = [asyncio.ensure_future(it.live()) for it in self.railways.values()]
        begun = self.last = time.monotonic()
        for _ in range(min(GROUPS, len(self.first))):
            self.send(self.first.popleft())
        try:
            while self.left and not self.is_wrong:
                await asyncio.sleep(0.05)
                if time.monotonic() - self.last > LIMIT:
                    raise SilenceError(f"{self.left} records have no reply, and none comes")
        finally:
            for it in tasks:
                it.cancel()
            await asyncio.gather(*tasks, return_exceptions=True)
        return self.last - begun


async def empty_outbox(code, port):
    """Fetches and acknowledges the items of a railway until there is none. Gives them all."""
    items, answers = [], asyncio.Queue()
    railway = Railway(code, port, lambda _, reply: answers.put_nowait(json.loads(reply)))
    task = asyncio.ensure_future(railway.live())

    async def ask(record):
        railway.send(None, json.dumps({"from": code} | record).encode())
        return await asyncio.wait_for(answers.get(), LIMIT)

    try:
        while shown := (await ask({"kind": "fetch", "limit": 50}))["items"]:
            items += shown
            await ask({"kind": "ack", "item": shown[-1]["item"]})
    finally:
        task.cancel()
        await asyncio.gather(task, return_exceptions=True)
    return items
