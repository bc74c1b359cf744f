"""Which hub has a wagon, a unit, a consignment or an offer: a table that all publishers make from one stream.

An entry claims names for a hub. It counts where no name of it has another hub already; then all its names have this one, for
good. So whoever has read an entry knows what the table was when it came, and every publisher finds the same.
"""
import asyncio
import json
import uuid
import zlib

from names import is_number, makes, names_in
from options import begin


class Table:
    """The table as far as the stream was read."""

    def __init__(self, streams, names):
        self.streams, self.names = streams, names
        self.hub_of, self.hubs, self.number = {}, None, 0
        # What this publisher claims with its next entry, and who waits for it; and who waits for those that are on their way.
        self.writer, self.gathered, self.waiting, self.is_due = uuid.uuid4().hex, [], {}, False

    async def begin(self):
        """Reads what is there, and says how many hubs there are."""
        await self.streams.declare(self.names.table)
        begin(self.follow())
        await self.claim({"hubs": self.names.hubs})
        if self.hubs != self.names.hubs:
            raise ValueError(f"the streams of {self.names.name} are those of {self.hubs} hubs, and not of {self.names.hubs}")

    async def follow(self):
        async for entry in self.streams.read(self.names.table):
            for claim in json.loads(entry.body):
                self.take(claim)
            if entry.head["writer"] == self.writer and entry.head["number"] in self.waiting:
                for it in self.waiting.pop(entry.head["number"]):
                    it.done() or it.set_result(None)
                self.append()

    def take(self, claim):
        names, hub = [tuple(it) for it in claim.get("names", ())], claim.get("hub")
        if self.hubs is None:
            self.hubs = claim.get("hubs")
        if all(self.hub_of.get(it, hub) == hub for it in names):
            self.hub_of |= dict.fromkeys(names, hub)

    async def claim(self, claim):
        """Puts a claim into the stream, and waits until it is read. Then the table has all that was there before it."""
        read = asyncio.get_running_loop().create_future()
        self.gathered.append((claim, read))
        if not self.is_due:
            self.is_due = True
            asyncio.get_running_loop().call_soon(self.append)
        await read

    def append(self):
        """Appends what was gathered, as one entry; what comes until it is read goes into the next one."""
        gathered, self.gathered = self.gathered, []
        self.is_due = bool(gathered)
        if gathered:
            self.number += 1
            self.waiting[self.number] = [read for _, read in gathered]
            body = json.dumps([claim for claim, _ in gathered], separators=(",", ":")).encode()
            self.streams.append(self.names.table, {"writer": self.writer, "number": self.number}, body)

    def chosen(self, record):
        """The hub of a consignment that is new: the one that its lead names, else one by its name."""
        named = record.get("_hub")
        if is_number(named) and 1 <= named <= self.names.hubs:
            return named
        return self.some_hub(record.get("consignment"))

    def some_hub(self, thing):
        return zlib.crc32(repr(thing).encode()) % self.names.hubs + 1

    async def find(self, record):
        """The hub of a record, or None where it names what different hubs have."""
        if self.names.hubs == 1:
            return 1
        names, made, is_current = list(names_in(record)), makes(record), False
        while True:
            hubs = {self.hub_of[it] for it in names if it in self.hub_of}
            if len(hubs) > 1:
                return None
            hub = next(iter(hubs), None)
            unknown = [it for it in names if it not in self.hub_of]
            claimed = [it for it in unknown if it in made]
            if claimed and (hub or record["kind"] == "plan"):
                claim = {"names": claimed, "hub": hub or self.chosen(record)}
            elif unknown and not is_current:
                # Another publisher may have put them into the table meanwhile.
                claim = {}
            else:
                return hub or self.some_hub(names)
            await self.claim(claim)
            is_current = True
