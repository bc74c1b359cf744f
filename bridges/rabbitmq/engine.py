"""Streams of RabbitMQ: entries that are appended, kept on several nodes, and read in one order from the first on.

This is all that the bridge knows of RabbitMQ. By the word of RabbitMQ it promises:

  declare  from then on there is a stream of this name, with its entries on three nodes where the cluster has as many
  append   the entry goes into the stream. Where a connection breaks, what is not confirmed is appended again, in its order: so an
           entry may be there more than once, and meanwhile one may be missing before others
  flush    what was appended is confirmed: it is in the stream, on most of its nodes
  read     each entry that is confirmed, in the order of the stream, once, with its offset. Every reader sees the same order

Where a connection breaks the next address is tried, without end. Which of the entries count is said by rules.py.
"""
import asyncio
import collections
import dataclasses
import itertools
import logging
import os
import random
import sys
import time

import pika
from pika.adapters.asyncio_connection import AsyncioConnection

# How many entries a reader is given ahead.
AHEAD = 256
# So many seconds without an answer, or with an entry that is not confirmed, and the next node is tried.
PATIENCE = 10
# A reader to whom nothing comes for so many seconds asks again from its offset.
IDLE = 10
# A node that refuses to read a stream so often in a row has nothing of it.
REFUSALS = 20
PAUSE, TICK = 0.2, 0.01
GONE = (312, 404)
STREAM = {"x-queue-type": "stream"}

logging.getLogger("pika").setLevel(logging.CRITICAL)


class LostError(Exception):
    """The connection is lost."""


def end_without(stream, why):
    """Ends the program at once where its stream is not there any more: nothing can be done about it here."""
    if getattr(why, "reply_code", None) in GONE:
        print(f"the stream {stream} is not there any more", file=sys.stderr, flush=True)
        os._exit(1)


@dataclasses.dataclass(frozen=True)
class Entry:
    """An entry of a stream: its offset, and what was appended."""

    offset: int
    head: dict
    body: bytes


class Writer:
    """What goes into a stream, over a channel of its own: what was sent and is not confirmed, by its tag, and what waits for the next
    channel. One channel for several streams would not do: with RabbitMQ 3.10.8 confirmed entries of such a channel were missing
    after the leader of a stream had died."""

    def __init__(self, streams, stream):
        self.streams, self.stream, self.channel, self.is_there = streams, stream, None, asyncio.Event()
        self.sent, self.waiting, self.tag = {}, collections.deque(), 0

    async def open(self):
        """Opens the channel, and sends what waits for it."""
        answer, lose, sent = self.streams.answer, self.streams.lose, self.sent
        channel = await answer(lambda done: self.streams.connection.channel(on_open_callback=done))
        channel.add_on_close_callback(lambda _, why: end_without(self.stream, why) or lose())
        channel.add_on_return_callback(lambda _, why, *more: end_without(self.stream, why))
        await answer(lambda done: channel.confirm_delivery(lambda frame: self.confirm(sent, lose, frame.method), done))
        words = {"passive": self.is_there.is_set(), "durable": True, "arguments": STREAM}
        await answer(lambda done: channel.queue_declare(self.stream, callback=done, **words))
        self.channel = channel
        self.is_there.set()
        self.send()

    def append(self, head, body):
        self.waiting.append((head, body))
        self.send()

    def send(self):
        """Sends what waits. What fails is among what was sent, and goes over the next channel."""
        try:
            while self.waiting and self.channel:
                self.tag += 1
                head, body = self.waiting.popleft()
                self.sent[self.tag] = head, body, time.monotonic()
                self.channel.basic_publish("", self.stream, body, pika.BasicProperties(headers=head), mandatory=True)
        except pika.exceptions.AMQPError:
            self.channel = None

    @staticmethod
    def confirm(sent, lose, method):
        """RabbitMQ has the entry of a tag, or all up to it; or it could not take it."""
        if isinstance(method, pika.spec.Basic.Nack):
            lose()
            return
        for tag in [it for it in sent if it <= method.delivery_tag] if method.multiple else [method.delivery_tag]:
            sent.pop(tag, None)

    def leave(self):
        """What is not confirmed goes over the next channel, in its order. Confirmations of the old one mean nothing any more."""
        self.waiting.extendleft((head, body) for head, body, _ in reversed(self.sent.values()))
        self.channel, self.sent, self.tag = None, {}, 0


class Reader:
    """What comes of a stream, over a channel of its own: from which offset on nothing has come yet, and what was not taken."""

    def __init__(self, streams, stream):
        self.streams, self.stream, self.next, self.since = streams, stream, 0, 0
        self.come, self.channel, self.refused, self.is_over = asyncio.Queue(), None, 0, False

    def open(self):
        """Asks for the entries from the offset on; and again where the channel is closed."""
        connection, self.since = self.streams.connection, time.monotonic()
        if self.is_over or not connection.is_open:
            return

        def opened(channel):
            self.channel = channel
            channel.add_on_close_callback(closed)
            channel.add_on_cancel_callback(lambda _: channel.close())
            channel.basic_qos(prefetch_count=AHEAD)
            channel.basic_consume(self.stream, self.take, arguments={"x-stream-offset": self.next})

        def closed(_, why):
            end_without(self.stream, why)
            self.refused += isinstance(why, pika.exceptions.ChannelClosedByBroker)
            if self.refused > REFUSALS:
                self.streams.lose()
            self.streams.loop.call_later(PAUSE, lambda: connection is self.streams.connection and self.open())

        connection.channel(on_open_callback=opened)

    def take(self, channel, method, properties, body):
        offset = int(properties.headers.pop("x-stream-offset"))
        self.since, self.refused = time.monotonic(), 0
        if channel is not self.channel:
            return
        # A node that has not all entries yet may begin before the offset.
        if offset >= self.next:
            self.next = offset + 1
            self.come.put_nowait((channel, method.delivery_tag, Entry(offset, properties.headers, body)))
        else:
            channel.basic_ack(method.delivery_tag)

    def close(self):
        if self.channel and self.channel.is_open:
            self.channel.close()

    async def entries(self):
        while True:
            channel, tag, entry = await self.come.get()
            if channel is self.channel and channel.is_open:
                channel.basic_ack(tag)
            yield entry


class Streams:
    """The streams of a cluster, over one connection at a time. The addresses are HOST:PORT,HOST:PORT.."""

    def __init__(self, addresses, user, password):
        self.loop = asyncio.get_running_loop()
        # In an order of its own, so that not all are at one node.
        addresses = addresses.split(",")
        self.addresses, self.silent = itertools.cycle(random.sample(addresses, len(addresses))), -2 * len(addresses)
        self.credentials = pika.PlainCredentials(user, password)
        self.writers, self.readers = {}, []
        self.connection, self.lost, self.is_open = None, None, False
        self.task = self.loop.create_task(self.keep_connected())

    async def keep_connected(self):
        """One connection after another."""
        while True:
            address = next(self.addresses)
            try:
                await self.connect(address)
            except (pika.exceptions.AMQPError, OSError, LostError) as it:
                self.silent += 1
                if self.silent == 0:
                    print(f"no node answers; the last one is {address}: {it!r}. They are tried again", file=sys.stderr, flush=True)
            self.is_open = False
            for it in self.writers.values():
                it.leave()
            await asyncio.sleep(PAUSE)

    async def connect(self, address):
        """Serves over one connection, until it is lost."""
        host, _, port = address.rpartition(":")
        words = {"credentials": self.credentials, "heartbeat": PATIENCE, "socket_timeout": 5, "blocked_connection_timeout": 60}
        lost = self.lost = self.loop.create_future()
        self.lose = lambda *_: lost.done() or lost.set_result(None)
        self.connection = AsyncioConnection(pika.ConnectionParameters(host, int(port), **words), None, self.lose, self.lose, self.loop)
        try:
            await self.answer(self.connection.add_on_open_callback)
            while closed := [it for it in self.writers.values() if not it.channel]:
                await closed[0].open()
            self.is_open = True
            for it in self.readers:
                it.open()
            while not lost.done() and not self.is_stuck():
                await asyncio.wait([lost], timeout=1)
                # A node may have forgotten a reader where another node died.
                for it in self.readers:
                    if it.come.empty() and time.monotonic() - it.since > IDLE:
                        it.close()
        finally:
            lost.done() or lost.set_result(None)
            if self.connection.is_open:
                self.connection.close()

    async def answer(self, begin):
        """What a call is answered, unless the connection is lost before."""
        answered = self.loop.create_future()
        begin(lambda it: answered.done() or answered.set_result(it))
        await asyncio.wait([answered, self.lost], timeout=PATIENCE, return_when=asyncio.FIRST_COMPLETED)
        if not answered.done():
            raise LostError("no answer")
        return answered.result()

    def is_stuck(self):
        """Whether an entry waits for its confirmation for too long."""
        oldest = [next(iter(it.sent.values()))[-1] for it in self.writers.values() if it.sent]
        return min(oldest, default=time.monotonic()) < time.monotonic() - PATIENCE

    async def declare(self, stream):
        if stream not in self.writers:
            self.writers[stream] = Writer(self, stream)
            if self.is_open:
                try:
                    await self.writers[stream].open()
                except (pika.exceptions.AMQPError, LostError):
                    self.lose()
        await self.writers[stream].is_there.wait()

    def append(self, stream, head, body=b""):
        self.writers[stream].append(head, body)

    async def flush(self, most=0):
        """Waits until no more entries than this are not confirmed."""
        while sum(len(it.sent) + len(it.waiting) for it in self.writers.values()) > most:
            await asyncio.sleep(TICK)

    async def read(self, stream):
        reader = Reader(self, stream)
        self.readers.append(reader)
        if self.is_open:
            reader.open()
        try:
            async for entry in reader.entries():
                yield entry
        finally:
            reader.is_over = True
            self.readers.remove(reader)
            reader.close()


async def use(addresses, work, user, password):
    """Does work with the streams at these addresses, and gives what it gives."""
    streams = Streams(addresses, user, password)
    done = asyncio.ensure_future(work(streams))
    await asyncio.wait([done, streams.task], return_when=asyncio.FIRST_COMPLETED)
    return (done if done.done() else streams.task).result()
