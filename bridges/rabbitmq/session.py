"""A railway's session at a publisher: its lines go to the streams of the hubs, and their replies come back in the order of the lines.

A session begins with an entry for each hub, which each hub's bridge answers. Then the railway's reply stream has the replies to all that
counts before it, and nothing that sessions before have under way counts any more: so a message that was answered is known by its
number, and is not appended again.
"""
import asyncio
import hashlib
import re
import uuid

from items import BAD_ITEM, Outbox
from names import is_number, is_railway, split

QUESTIONS = {"ask", "ask_unit", "deviation", "fetch", "ack"}
TOO_LONG, BAD_JSON = b'{"fault":"line_too_long"}', b'{"fault":"bad_json"}'
WRONG_SENDER, SEVERAL_HUBS = b'{"fault":"wrong_sender"}', b'{"fault":"several_hubs"}'
# So many seconds after the replies to an entry the next one goes: what a railway sends upon them goes into it.
GATHER = 0.002
EMPTY = re.compile(rb"\s*\{\s*\}\s*")


class EndedError(ConnectionError):
    """Another session of the railway has begun."""


def done(reply):
    """A future that has this reply."""
    it = asyncio.get_running_loop().create_future()
    it.set_result(reply)
    return it


def digest_of(line):
    return hashlib.blake2b(line, digest_size=8).hexdigest().encode()


class Session:
    """The lines of a railway, each given to `answer` once the one before it was."""

    def __init__(self, streams, stream_names, table, replies, railway):
        self.streams, self.names, self.table, self.replies, self.railway = streams, stream_names, table, replies, railway
        self.name, self.outbox = uuid.uuid4().hex, Outbox(stream_names.hubs)
        self.hubs = range(1, stream_names.hubs + 1)
        self.number = dict.fromkeys(self.hubs, 0)
        # The lines that go into the next entry for each hub, the hubs that will get one, and the messages that have no reply yet.
        self.gathered, self.is_due, self.under_way = {hub: [] for hub in self.hubs}, set(), {}
        self.ended, self.is_over = replies.join(self.name), False

    async def begin(self):
        """Waits until each hub knows of the session."""
        expected = [self.replies.expect(self.name, hub, 0) for hub in self.hubs]
        for hub in self.hubs:
            self.append(hub, [])
        await asyncio.gather(*expected)

    def append(self, hub, lines):
        head = {"railway": self.railway, "session": self.name, "number": self.number[hub]}
        self.streams.append(self.names.hub(hub), head, b"\n".join(lines))
        self.number[hub] += 1

    def end(self):
        """Nothing more is appended, and no reply is waited for."""
        self.is_over = True
        self.replies.leave(self.name)

    # Lines

    async def answer(self, line):
        """Puts a line on its way. Gives a future of its reply."""
        record = split.record_of(line)
        if len(line) > split.MAX_LINE:
            return done(TOO_LONG)
        if not record and not EMPTY.fullmatch(line):
            return done(BAD_JSON)
        if is_railway(record.get("from")) and record["from"] != self.railway:
            return done(WRONG_SENDER)
        if record.get("kind") in ("fetch", "ack") and len(self.hubs) > 1:
            return self.answer_on_outbox(line, record)
        if is_number(record.get("no")) and record.get("kind") not in QUESTIONS:
            return await self.answer_message(line, record)
        return self.answer_at(await self.table.find(record), line)

    async def answer_message(self, line, record):
        """A message that was answered gets its reply again. Any other that has its number goes where the first one went."""
        number, digest = record["no"], digest_of(line)
        if number in self.under_way:
            earlier, reply = self.under_way[number]
            if earlier == digest:
                return reply
            # Only its reply says whether it has used the number.
            await asyncio.wait([reply])
        message = self.replies.messages.get(number)
        if message and message.digest == digest:
            return done(message.reply)
        reply = self.answer_at(message.hub if message else await self.table.find(record), line)
        self.under_way[number] = digest, reply
        reply.add_done_callback(lambda _: self.under_way.pop(number, None))
        return reply

    def answer_at(self, hub, line):
        """Gathers a line for a hub. What comes while an entry for the hub has no replies yet goes into the next one."""
        if hub is None:
            return done(SEVERAL_HUBS)
        loop = asyncio.get_running_loop()
        self.gathered[hub].append((line, loop.create_future()))
        if hub not in self.is_due:
            self.is_due.add(hub)
            loop.call_soon(self.send, hub)
        return self.gathered[hub][-1][1]

    def send(self, hub):
        """Appends the lines that were gathered for a hub, as one entry."""
        gathered, self.gathered[hub] = self.gathered[hub], []
        if not gathered or self.is_over:
            self.is_due.discard(hub)
            return
        expected = self.replies.expect(self.name, hub, self.number[hub])
        expected.add_done_callback(lambda it: it.cancelled() or self.give(hub, [reply for _, reply in gathered], it.result()))
        self.append(hub, [line for line, _ in gathered])

    def give(self, hub, waiting, replies):
        for it, reply in zip(waiting, replies):
            it.done() or it.set_result(reply)
        asyncio.get_running_loop().call_later(GATHER, self.send, hub)

    def answer_on_outbox(self, line, record):
        """A fetch goes to all hubs, and an ack to those of which it acknowledges items."""
        is_fetch = record["kind"] == "fetch"
        parts = [(hub, line) for hub in self.hubs] if is_fetch else self.outbox.acks(record)
        if parts is None:
            return done(BAD_ITEM)
        replies = [self.answer_at(hub, part) for hub, part in parts]
        return asyncio.ensure_future(self.join(record, [hub for hub, _ in parts], replies))

    async def join(self, record, hubs, replies):
        replies = await asyncio.gather(*replies)
        if record["kind"] == "fetch":
            return self.outbox.merged(record.get("limit"), replies)
        return self.outbox.acknowledged(record.get("item"), hubs, replies)
