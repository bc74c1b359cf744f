"""The replies to one railway: a stream into which the bridges of all hubs put them, and which its publisher reads."""
import asyncio
import collections
import contextlib
import dataclasses
import re
import time
import uuid

import rules
from options import begin

# The reply to a message that is no fault: only such a message has used its number.
NUMBERED = re.compile(rb'\{"no":(\d+),')


@dataclasses.dataclass(frozen=True)
class Message:
    """A message that was answered: by which hub, the digest of its line, and the reply."""

    hub: int
    digest: bytes
    reply: bytes


def pairs_of(body):
    """The digest of each line of an entry, and the reply to it."""
    return [tuple(it.split(b" ", 1)) for it in body.split(b"\n")] if body else []


async def counting(streams, stream, mark=None):
    """The entries of a reply stream that count; up to a mark, if one is given, and then None."""
    rule = rules.Replies()
    async with contextlib.aclosing(streams.read(stream)) as entries:
        async for entry in entries:
            if mark and entry.head.get("mark") == mark:
                yield None
            elif rule.counts(entry.head):
                yield entry


async def put_mark(streams, stream):
    """Makes the stream where it is not there, and puts a mark behind what it has: whoever reads the mark has read all that."""
    mark = uuid.uuid4().hex
    await streams.declare(stream)
    streams.append(stream, {"mark": mark})
    return mark


class ReplyReader:
    """What the hubs have replied to a railway so far: the first reply to each of its messages. Who waits for the replies to an entry
    gets them, and a session learns that a newer one has begun."""

    def __init__(self, streams, stream):
        self.streams, self.stream = streams, stream
        self.messages, self.waiting = {}, {}
        # The newest session at each hub, and who wants to know that it is so no longer.
        self.newest, self.ended = {}, {}
        begin(self.follow())

    async def follow(self):
        await self.streams.declare(self.stream)
        async for entry in counting(self.streams, self.stream):
            self.take(entry.head, pairs_of(entry.body))

    def take(self, head, pairs):
        hub, session, number = head["hub"], head["session"], head["number"]
        for digest, reply in pairs:
            numbered = NUMBERED.match(reply)
            if numbered:
                self.messages.setdefault(int(numbered[1]), Message(hub, digest, reply))
        if number == 0:
            ended = self.ended.get(self.newest.get(hub))
            if ended and not ended.done():
                ended.set_result(None)
            self.newest[hub] = session
        waiting = self.waiting.pop((session, hub, number), None)
        if waiting and not waiting.done():
            waiting.set_result([reply for _, reply in pairs])

    def expect(self, *name):
        """A future of the replies to an entry: the session, the hub and the number of the entry."""
        self.waiting[name] = asyncio.get_running_loop().create_future()
        return self.waiting[name]

    def join(self, session):
        """A future that is done once another session has taken the place of this one."""
        self.ended[session] = asyncio.get_running_loop().create_future()
        return self.ended[session]

    def leave(self, session):
        del self.ended[session]
        for name in [it for it in self.waiting if it[0] == session]:
            del self.waiting[name]


@dataclasses.dataclass(frozen=True)
class Reply:
    """The replies to an entry that are to be put in."""

    offset: int
    head: dict
    body: bytes
    since: float


class ReplyWriter:
    """Puts what a hub replies to a railway into its stream: what is not there, once that is known, and once nobody else has put it in
    for so many seconds."""

    def __init__(self, streams, stream, hub, seconds):
        self.streams, self.stream, self.hub, self.seconds = streams, stream, hub, seconds
        # The offset of the last entry that was replied to here, and of the last one to which the stream has a reply.
        self.last, self.there = rules.NONE, rules.NONE
        self.waiting, self.is_known = collections.deque(), False
        begin(self.follow())

    async def follow(self):
        """Reads what is there. Who puts replies in at once reads no further."""
        mark = await put_mark(self.streams, self.stream)
        async for entry in counting(self.streams, self.stream, mark):
            if entry is None:
                self.is_known = True
                if not self.seconds:
                    break
            elif entry.head["hub"] == self.hub:
                self.there = entry.head["offset"]
            self.send()

    def put(self, offset, head, body):
        """The replies to an entry, one entry after another."""
        head |= {"hub": self.hub, "offset": offset, "after": self.last}
        self.last = offset
        self.waiting.append(Reply(offset, head, body, time.monotonic()))
        self.send()

    def send(self):
        while self.waiting and self.waiting[0].offset <= self.there:
            self.waiting.popleft()
        due = time.monotonic() - self.seconds
        while self.is_known and self.waiting and self.waiting[0].since <= due:
            it = self.waiting.popleft()
            self.streams.append(self.stream, it.head, it.body)
