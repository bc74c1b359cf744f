"""One outbox of the outboxes that a railway has in several hubs.

An item is shown under its number in its hub, with the two digits of the hub behind it: item 512 of hub 3 is 51203. So a number
stays the same whoever fetches it. An ack of a number that was shown by the last fetch counts for all that it showed up to there,
of whatever hub; any other number counts for its own hub alone.
"""
import json

from names import MAX_HUBS, is_number

BASE = MAX_HUBS + 1
BAD_ITEM = b'{"fault":"bad_field","field":"item"}'


def text(answer):
    return json.dumps(answer, sort_keys=True, separators=(",", ":")).encode()


class Outbox:
    """What the last fetch showed: for each number, up to which item it acknowledges each hub."""

    def __init__(self, hubs):
        self.hubs, self.shown = range(1, hubs + 1), {}

    def merged(self, limit, replies):
        """The reply to a fetch, of those of all hubs. A reply that is none to a fetch is that of all."""
        self.shown, items, up_to = {}, [], {}
        for hub, reply in zip(self.hubs, replies):
            answer = json.loads(reply)
            if "items" not in answer:
                return reply
            for item in answer["items"][: limit - len(items)]:
                up_to = up_to | {hub: item["item"]}
                item["item"] = item["item"] * BASE + hub
                self.shown[item["item"]] = up_to
                items.append(item)
        return text({"items": items, "reply": "items"})

    def acks(self, record):
        """The acks that an ack is to the hubs: each behind its hub. None where its item is of no hub."""
        item = record.get("item")
        if not is_number(item):
            return [(1, text(record))]
        up_to = self.shown.get(item, {item % BASE: item // BASE})
        if not up_to.keys() <= set(self.hubs):
            return None
        return [(hub, text(record | {"item": last})) for hub, last in up_to.items()]

    def acknowledged(self, item, hubs, replies):
        """The reply to an ack, of those to its parts."""
        for hub, reply in zip(hubs, replies):
            answer = json.loads(reply)
            if "last" in answer:
                return text(answer | {"last": answer["last"] * BASE + hub})
            if "acknowledged" not in answer:
                return reply
        return text({"acknowledged": item, "reply": "acknowledged"})
