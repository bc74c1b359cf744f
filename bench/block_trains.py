"""Traffic of block trains, drawn from a seed: fixed sets of wagons that make trip after trip, each message with whether it is accepted.

A train is unknown to a hub that left its last trip behind. Then its next message is the plan of a new trip, and nothing else names it
before.
"""
import collections
import itertools
import json
import random

from hub_server import vehicle_number
from mixes import moment, unit_number

PLACES = [f"{country}{nth:05}" for nth in range(1, 9) for country in ("DE", "AT", "IT", "CH")]
MANAGERS = ["I300", "I301"]
# A railway that has no part in any trip.
OUTSIDER = "X900"
BEGINNING = 29_000_000
LAST_MOMENT = "2199-12-31T23:59Z"
# A number that no offer has.
NO_OFFER = 900_000_000_000

# A message or a question, its text as journals have it, and whether it has to be accepted, or refused. A repeat and a question may be both.
Line = collections.namedtuple("Line", ["record", "text", "wanted"])

# An offer: the railway that made it and its number, the railway that is asked, and the numbers of the wagons.
Offer = collections.namedtuple("Offer", ["by", "number", "to", "wagons"])

encoded = json.JSONEncoder(separators=(",", ":"), sort_keys=True).encode


def line_of(record, wanted=None):
    return Line(record, encoded(record).encode(), wanted)


class Wagon:
    """A wagon: who is responsible for it, its legs and the current one, and whether it has a journey without delivery."""

    def __init__(self, number):
        self.number = number
        self.by, self.legs, self.leg, self.is_busy = None, [], 0, False

    def is_on_last_leg(self):
        return self.leg + 1 == len(self.legs)

    def next_carrier(self):
        return self.legs[self.leg + 1]["ru"]

    def target(self):
        return self.legs[self.leg]["target"]


class Train:
    """Wagons that one lead plans together, trip after trip."""

    def __init__(self, traffic, place):
        self.traffic, self.draw = traffic, traffic.draw
        count, first = self.draw.randint(1, 6), 10 * place
        self.place, self.lead = place, self.draw.choice(traffic.railways)
        self.wagons = [Wagon(vehicle_number(f"{31_800_000_000 + first + nth}")) for nth in range(count)]
        self.units = [unit_number(first + nth) for nth in range(self.draw.randint(0, 3))]
        # The messages that are left of its trip, and the units that are loaded.
        self.trip, self.loaded = None, []
        # Of the trips that are not left behind: their consignments, and their offers that are closed.
        self.consignments, self.offers = [], []

    @property
    def is_known(self):
        return bool(self.consignments)

    def is_busy(self):
        return any(it.is_busy for it in self.wagons)

    def forget(self):
        """All its trips are left behind."""
        self.consignments, self.offers, self.loaded = [], [], []

    def next_line(self):
        """The next message, of a new trip if there is none. None once the trip is over."""
        if self.trip is None:
            self.trip = self.messages()
        line = next(self.trip, None)
        if line is None:
            self.trip = None
        return line

    def say(self, kind, by, wanted="accepted", **said):
        return self.traffic.message(kind, by, wanted, **said)

    def tell(self, kind, wagon, by=None, **said):
        """A message on one wagon, with its moment, of the railway that is responsible if no other is named."""
        return self.say(kind, by or wagon.by, wagon=wagon.number, at=self.traffic.later(), **said)

    # A trip

    def messages(self):
        yield self.plan()
        if self.draw.random() < 0.1:
            yield from self.reroute_all()
        for wagon in self.wagons:
            yield self.tell("release", wagon, self.lead)
        for wagon in self.wagons:
            wagon.by = wagon.legs[0]["ru"]
            yield self.tell("depart", wagon)
        while not self.wagons[0].is_on_last_leg():
            yield from self.on_leg()
            yield from self.interchange()
        yield from self.on_leg()
        for wagon in self.wagons:
            yield self.tell("arrival", wagon)
        for wagon in self.wagons:
            line = self.tell("delivery", wagon)
            wagon.by, wagon.is_busy = None, False
            yield line

    def plan(self):
        traffic, legs = self.traffic, self.route(self.draw.choice(PLACES), {self.lead}, self.draw.choice([1, 2, 2, 3]))
        for it in self.wagons:
            it.by, it.legs, it.leg, it.is_busy = None, legs, 0, True
        numbers = [it.number for it in self.wagons]
        self.loaded = [it for it in self.units if self.draw.random() < 0.7]
        units = [{"unit": it, "wagon": self.draw.choice(numbers)} for it in self.loaded]
        commit = moment(traffic.clock + sum(it["minutes"] for it in legs) + self.draw.randint(0, 400))
        self.consignments.append(traffic.new_consignment())
        more = {"units": units} if units else {}
        load = self.draw.choice(["loaded", "empty"])
        return self.say("plan", self.lead, consignment=self.consignments[-1], load=load, commit=commit, wagons=numbers, legs=legs, **more)

    def route(self, origin, before, count):
        """So many legs from a place on, the first of which none of these railways runs."""
        legs, places = [], [origin, *self.draw.sample([it for it in PLACES if it != origin], count)]
        for start, end in itertools.pairwise(places):
            carrier = self.draw.choice([it for it in self.traffic.railways if it not in before])
            legs.append({"ru": carrier, "origin": start, "target": end, "minutes": self.draw.randint(60, 600)})
            before = {carrier}
        return legs

    def reroute_all(self):
        """The lead gives all wagons other legs after the current one."""
        current = {it.legs[it.leg]["ru"] for it in self.wagons}
        legs = self.route(self.wagons[0].target(), current, self.draw.randint(1, 2))
        for wagon in self.wagons:
            wagon.legs = wagon.legs[: wagon.leg + 1] + legs
            yield self.say("reroute", self.lead, wagon=wagon.number, legs=legs)

    def on_leg(self):
        """What happens to the wagons on the way."""
        for wagon in self.wagons:
            yield from self.events(wagon)
        if not self.wagons[0].is_on_last_leg() and self.wagons[0].leg < 4 and self.draw.random() < 0.05:
            yield from self.reroute_all()

    def events(self, wagon):
        draw = self.draw
        if draw.random() < 0.3:
            place = draw.choice(PLACES)
            yield self.tell("yard_in", wagon, place=place)
            yield self.tell("yard_out", wagon, place=place)
        if draw.random() < 0.4:
            yield self.tell("exception", wagon, delay=draw.randint(0, 240))
        if draw.random() < 0.1:
            yield self.say("eti_ask", self.lead, wagon=wagon.number)
        if draw.random() < 0.25:
            yield self.say("eti", wagon.by, wagon=wagon.number, at=moment(self.traffic.clock + draw.randint(10, 600)))
        if not wagon.is_on_last_leg() and draw.random() < 0.1:
            leg = draw.randrange(wagon.leg + 1, len(wagon.legs))
            minutes = draw.randint(60, 600)
            yield self.say("leg_time", wagon.legs[leg]["ru"], wagon=wagon.number, leg=leg, minutes=minutes)

    # Interchange

    def interchange(self):
        """All wagons are handed over at the end of their leg, some of them only after they were refused or offered again."""
        place = self.wagons[0].target()
        for wagon in self.wagons:
            yield self.tell("yard_in", wagon, place=place)
        waiting = list(self.wagons)
        while waiting:
            for part in self.parts(waiting):
                yield from self.hand_over(part, place)
            waiting = [it for it in waiting if it.legs[it.leg]["target"] == place]
        for wagon in self.wagons:
            yield self.tell("yard_out", wagon, place=place)

    def parts(self, waiting):
        """The wagons by the railways that give them and are asked, at times in two parts."""
        parts = collections.defaultdict(list)
        is_divided = self.draw.random() < 0.2
        for nth, wagon in enumerate(waiting):
            parts[wagon.by, wagon.next_carrier(), is_divided and nth % 2].append(wagon)
        return list(parts.values())

    def hand_over(self, wagons, place):
        offered, offer = self.offer(wagons, place)
        yield offered
        if self.draw.random() < 0.1:
            self.offers.append(offer)
            yield self.say("withdraw", offer.by, at=self.traffic.later(), offer=offer.number)
            return
        if self.draw.random() < 0.05:
            yield self.answer(offer, [], [], "refused")
        kept = [it for it in wagons if self.draw.random() < 0.08]
        taken = [it for it in wagons if it not in kept]
        for it in taken:
            it.leg, it.by = it.leg + 1, offer.to
        self.offers.append(offer)
        yield self.answer(offer, [it.number for it in taken], [it.number for it in kept])
        for it in kept:
            if self.draw.random() < 0.5:
                yield self.reroute_one(it)

    def offer(self, wagons, place):
        """The line of an offer to the next railway, and the offer."""
        by, to, numbers = wagons[0].by, wagons[0].next_carrier(), [it.number for it in wagons]
        train = f"T-{self.draw.randint(1, 999)}"
        line = self.say("offer", by, at=self.traffic.later(), train=train, place=place, to=to, wagons=numbers)
        return line, Offer(by, line.record["no"], to, numbers)

    def answer(self, offer, taken, kept, wanted="accepted"):
        more = {"manager": self.draw.choice(MANAGERS)} if self.draw.random() < 0.3 else {}
        said = {"at": self.traffic.later(), "offerer": offer.by, "offer": offer.number, "received": taken, "refused": kept}
        return self.say("answer", offer.to, wanted, **said, **more)

    def reroute_one(self, wagon):
        """The lead has another railway run the next leg of a wagon."""
        after = wagon.legs[wagon.leg + 1 :]
        taken = {wagon.by, *(it["ru"] for it in after[:2])}
        carrier = self.draw.choice([it for it in self.traffic.railways if it not in taken])
        legs = [after[0] | {"ru": carrier}, *after[1:]]
        wagon.legs = wagon.legs[: wagon.leg + 1] + legs
        return self.say("reroute", self.lead, wagon=wagon.number, legs=legs)


class Traffic:
    """The trains, and the messages of which a hub that was carried over has all."""

    def __init__(self, seed, trains):
        self.draw = random.Random(seed)
        self.railways = [f"R{100 + nth}" for nth in range(max(6, min(trains, 60)))]
        self.numbers = collections.Counter()
        self.clock, self.consignments, self.strangers = BEGINNING, 0, 0
        self.trains = [Train(self, place) for place in range(trains)]
        # The messages that no carrying has left behind, in their order.
        self.kept = []
        # While nothing is to be closed no message names a wagon that nobody planned. Once all trips are to end none begins.
        self.is_quiet, self.is_ending = True, False

    def all_railways(self):
        return [*self.railways, *MANAGERS]

    def later(self):
        self.clock += self.draw.randint(0, 3)
        return moment(self.clock)

    def new_consignment(self):
        self.consignments += 1
        return f"C-{self.consignments}"

    def message(self, kind, by, wanted, **said):
        self.numbers[by] += 1
        return line_of({"kind": kind, "from": by, "no": self.numbers[by], **said}, wanted)

    def leave_behind(self, kept):
        """Only these messages are kept."""
        self.kept = kept
        wagons = {it for line in kept for it in line.record.get("wagons", ())}
        for it in self.trains:
            if it.wagons[0].number not in wagons:
                it.forget()

    # Lines

    def lines(self, count):
        """The next lines, at least so many; fewer once all trips have ended if they are to end."""
        lines = []
        while len(lines) < count and not (self.is_ending and not self.running()):
            lines += self.train_lines() if self.draw.random() < 0.8 or not self.known() else self.other_lines()
        return lines

    def running(self):
        return [it for it in self.trains if it.trip]

    def known(self):
        return [it for it in self.trains if it.is_known]

    def train_lines(self):
        """Some messages of a train. Of those that are at rest few begin a trip at a time."""
        train = self.draw.choice(self.trains)
        if train.trip is None and (self.is_ending or self.draw.random() < 0.75):
            return []
        lines = list(itertools.islice(iter(train.next_line, None), self.draw.randint(1, 4) if train.trip else 1))
        self.kept += lines
        return lines

    def other_lines(self):
        drawn, train = self.draw.random(), self.draw.choice(self.known())
        if drawn < 0.35:
            return [self.question(train)]
        line = self.repeat() if drawn < 0.7 else self.refused(train)
        if line:
            self.kept.append(line)
        return [line] if line else []

    def repeat(self):
        """A message again, or another one under its number."""
        kept = self.kept[-self.draw.choice([20, len(self.kept)]) :]
        if not kept:
            return None
        old = self.draw.choice(kept).record
        if self.draw.random() < 0.8 or "wagon" not in old:
            return line_of(old)
        other = {"kind": "eti_ask", "from": old["from"], "no": old["no"], "wagon": old["wagon"]}
        return line_of(other, "refused" if other != old else None)

    # Questions

    def question(self, train):
        wagon, by = self.draw.choice(train.wagons), self.draw.choice([train.lead, *(it["ru"] for it in train.wagons[0].legs), OUTSIDER])
        drawn = self.draw.random()
        if drawn < 0.6:
            return line_of({"kind": "ask", "from": by, "wagon": wagon.number})
        if drawn < 0.75 and train.units:
            return line_of({"kind": "ask_unit", "from": by, "unit": self.draw.choice(train.units)})
        return line_of({"kind": "deviation", "from": train.lead, "consignment": self.draw.choice([*train.consignments, "NONE"])})

    # Messages that are refused

    def refused(self, train):
        ways = [self.of_outsider, self.of_outsider, self.on_closed_offer, self.planned_again, self.past_calendar]
        ways += [] if self.is_quiet else [self.of_stranger, self.joins_busy, self.joins_unit, self.joins_number]
        return self.draw.choice(ways)(train)

    def of_outsider(self, train):
        kind = self.draw.choice(["depart", "yard_in", "exception", "eti", "arrival", "delivery", "release"])
        said = {"yard_in": {"place": PLACES[0]}, "exception": {"delay": 5}}.get(kind, {})
        return self.message(kind, OUTSIDER, "refused", wagon=self.draw.choice(train.wagons).number, at=self.later(), **said)

    def on_closed_offer(self, train):
        if not train.offers:
            return None
        offer = self.draw.choice(train.offers)
        if self.draw.random() < 0.5:
            return self.message("withdraw", offer.by, "refused", at=self.later(), offer=offer.number)
        return train.answer(offer, offer.wagons, [], "refused")

    def planned_again(self, train):
        legs, numbers = train.wagons[0].legs, [it.number for it in train.wagons]
        head = {"consignment": self.draw.choice(train.consignments), "load": "empty", "commit": self.later()}
        return self.message("plan", train.lead, "refused", **head, wagons=numbers, legs=legs)

    def past_calendar(self, train):
        ways = [it for it in train.wagons if it.by and not it.is_on_last_leg()]
        if not ways:
            return None
        wagon = self.draw.choice(ways)
        return self.message("eti", wagon.by, "refused", wagon=wagon.number, at=LAST_MOMENT)

    def of_stranger(self, _):
        """A wagon that nobody planned."""
        self.strangers += 1
        number = vehicle_number(f"{32_800_000_000 + self.strangers}")
        return self.message("release", self.draw.choice(self.railways), "refused", wagon=number, at=self.later())

    # Messages that join the trips of two trains, and are refused

    def neighbour(self, train):
        """Another train that is on its way. Only trains side by side are joined, so that not all become one."""
        near = [it for it in self.known() if it is not train and it.place // 3 == train.place // 3 and it.is_busy()]
        return self.draw.choice(near) if near else None

    def joins_busy(self, train):
        """A plan of a wagon that is on its way, with a wagon of another train."""
        busy, other = [it for it in train.wagons if it.is_busy], self.neighbour(train)
        if not (busy and other):
            return None
        wagons = [busy[0].number, self.draw.choice(other.wagons).number]
        head = {"consignment": self.new_consignment(), "load": "empty", "commit": self.later()}
        return self.message("plan", train.lead, "refused", **head, wagons=wagons, legs=train.wagons[0].legs)

    def joins_unit(self, train):
        """A plan of a train at rest with a unit that is on a wagon of another one that is on its way."""
        other = self.neighbour(train)
        if train.is_busy() or not other or not other.loaded or not all(it.is_busy for it in other.wagons):
            return None
        wagon, head = train.wagons[0].number, {"consignment": self.new_consignment(), "load": "loaded", "commit": self.later()}
        units = [{"unit": self.draw.choice(other.loaded), "wagon": wagon}]
        return self.message("plan", train.lead, "refused", **head, wagons=[wagon], legs=train.wagons[0].legs, units=units)

    def joins_number(self, train):
        """An answer to an offer that is none, with wagons of two trains."""
        other = self.neighbour(train)
        if not other:
            return None
        number, wagons = NO_OFFER + self.numbers[OUTSIDER], [it.wagons[0].number for it in (train, other)]
        said = {"at": self.later(), "offerer": train.lead, "offer": number, "received": wagons[:1], "refused": wagons[1:]}
        return self.message("answer", OUTSIDER, "refused", **said)
