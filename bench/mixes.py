#!/usr/bin/env python3
"""Lines of records for measurements, made from a seed: bench/mixes.py MIX [LINES [SEED [WAGONS]]]

  journeys   whole journeys of WAGONS wagons between each other, a wagon for each twenty lines if not given. Of a hundred lines 85
             are messages that are accepted, 6 ask for records, 7 fetch items or acknowledge them, and 2 are repeats, used numbers,
             messages of strangers and lines that are no records
  questions  a fifth of such lines, and then questions alone: asks of wagons, units and consignments, fetches and acknowledgements
  plans      plans of 1 to 9 new wagons each. Behind each one of its wagons is released; behind one in two a record is asked for, and
             behind one in two items are fetched and acknowledged: so of a hundred lines 28 or 29 are plans

LINES is 200,000 and SEED 1 if not given. The same words give the same lines. It needs the standard library of Python alone."""
import collections
import datetime
import functools
import itertools
import json
import random
import signal
import sys

encoded = json.JSONEncoder(separators=(",", ":")).encode
PLACES = [f"{country}{nth:05}" for nth in range(500) for country in ("DE", "AT", "IT", "CH", "FR", "PL")]
MANAGERS = [f"I{nth:03}" for nth in range(20)]
# The first moment of a clock, in minutes since 1970.
BEGINNING = 29_000_000
# What a doubled digit adds to the sum of a vehicle number.
DOUBLED = str.maketrans("0123456789", "0246813579")


@functools.cache
def day(nth):
    return datetime.date.fromordinal(datetime.date(1970, 1, 1).toordinal() + nth).isoformat()


def moment(minute):
    return f"{day(minute // 1440)}T{minute // 60 % 24:02}:{minute % 60:02}Z"


def vehicle_number(nth):
    """The nth of the wagons: eleven digits, and the check digit."""
    digits = f"{21_800_000_000 + nth}"
    return f"{digits}{-sum(map(int, digits[::2].translate(DOUBLED) + digits[1::2])) % 10}"


def unit_number(nth):
    """The nth of the intermodal units: four letters, six digits, and the check digit."""
    digits = f"{nth:06}"
    # A counts 10, and no letter counts 11, 22 or 33: T counts 31, F 16 and U 32.
    counts = [31, 10, 16, 32, *map(int, digits)]
    return f"TAFU{digits}{sum(count << at for at, count in enumerate(counts)) % 11 % 10}"


class Wagon:
    """A wagon, and what the hub knows of its journey: the current leg, the estimates of the legs from this one on, whether it is late."""

    def __init__(self, nth):
        self.number = vehicle_number(nth)

    def plan(self, carriers, minutes, commit):
        self.carriers, self.minutes, self.commit = carriers, minutes, commit
        self.leg, self.estimates, self.is_late, self.responsible = 0, {}, False, None


class Network:
    """The railways: how many messages each has sent, how many items are in its outbox, how many of these it has acknowledged."""

    def __init__(self, seed, wagons):
        self.random = random.Random(seed)
        self.leads = [f"L{nth:03}" for nth in range(min(max(wagons // 200, 4), 60))]
        self.carriers = [f"R{nth:03}" for nth in range(min(max(wagons // 100, 8), 120))]
        self.railways = self.leads + self.carriers
        self.sent, self.items, self.acknowledged = collections.Counter(), collections.Counter(), collections.Counter()
        self.wagons = self.units = self.consignments = 0
        self.recent = collections.deque(maxlen=500)

    def happens(self, share):
        return self.random.random() < share

    def below(self, limit):
        return int(self.random.random() * limit)

    def put(self, by, receivers):
        """An item for each of these railways but the sender."""
        for it in {*receivers} - {by, None}:
            self.items[it] += 1

    def message(self, kind, by, told, **said):
        """A message under a new number, of which these railways get a notice."""
        self.sent[by] += 1
        self.put(by, told)
        record = {"kind": kind, "from": by, "no": self.sent[by], **said}
        self.recent.append(record)
        return record

    def expect(self, lead, wagon, by, end):
        """The items of estimates and alerts, where a wagon is expected at the end of its leg at this moment."""
        legs = range(wagon.leg, len(wagon.minutes))
        estimates = dict(zip(legs, itertools.accumulate([end, *wagon.minutes[wagon.leg + 1 :]])))
        receivers = [*wagon.carriers[1:], lead]
        for leg, at in estimates.items():
            if wagon.estimates.get(leg) != at:
                self.put(by, [receivers[leg]])
        is_late = estimates[legs[-1]] > wagon.commit
        if is_late != wagon.is_late:
            self.put(by, [lead, wagon.responsible])
        wagon.estimates, wagon.is_late = estimates, is_late

    def route(self):
        """One to five legs, each run by another railway than the one before it."""
        places = self.random.sample(PLACES, 1 + self.random.choice([1, 2, 2, 3, 3, 4, 5]))
        at, legs = self.below(len(self.carriers)), []
        for origin, target in itertools.pairwise(places):
            at = (at + 1 + self.below(len(self.carriers) - 1)) % len(self.carriers)
            legs.append({"ru": self.carriers[at], "origin": origin, "target": target, "minutes": 60 + self.below(840)})
        return legs


class Group:
    """Wagons that one lead plans together, one trip after another."""

    def __init__(self, network, count):
        self.network, self.lead = network, network.random.choice(network.leads)
        self.wagons = [Wagon(network.wagons + nth) for nth in range(count)]
        network.wagons += count
        self.clock = BEGINNING + network.below(10_000)
        self.consignment, self.legs, self.units = "C-0", [], []

    def later(self):
        self.clock += self.network.below(20)
        return self.clock

    def plan(self):
        network = self.network
        network.consignments += 1
        self.consignment, self.legs = f"C-{network.consignments}", network.route()
        carriers, minutes = [it["ru"] for it in self.legs], [it["minutes"] for it in self.legs]
        commit = self.clock + sum(minutes) + 100 + network.below(1100)
        for it in self.wagons:
            it.plan(carriers, minutes, commit)
        loaded = [it.number for it in self.wagons if network.happens(0.5)] if network.happens(0.2) else []
        self.units = [{"unit": unit_number(network.units + nth), "wagon": it} for nth, it in enumerate(loaded)]
        network.units += len(loaded)
        head = {"consignment": self.consignment, "load": "loaded" if network.happens(0.7) else "empty", "commit": moment(commit)}
        more = {"units": self.units} if self.units else {}
        return network.message("plan", self.lead, carriers, **head, wagons=[it.number for it in self.wagons], legs=self.legs, **more)

    def trips(self):
        """The messages of one trip after another, without end."""
        while True:
            yield from self.trip()

    def trip(self):
        """The messages of a trip in their order."""
        yield self.plan()
        for wagon in self.wagons:
            yield self.starts("release", self.lead, wagon, wagon.carriers[0])
        for wagon in self.wagons:
            wagon.responsible = wagon.carriers[0]
            yield self.starts("depart", wagon.responsible, wagon, self.lead)
        for leg in self.legs[:-1]:
            for wagon in self.wagons:
                yield from self.on_leg(wagon)
            for wagon in self.wagons:
                yield self.tell("yard_in", wagon, place=leg["target"])
            yield from self.interchange(leg["target"])
            for wagon in self.wagons:
                yield self.tell("yard_out", wagon, place=leg["target"])
        for wagon in self.wagons:
            yield from self.on_leg(wagon)
        for kind in ("arrival", "delivery"):
            for wagon in self.wagons:
                self.network.expect(self.lead, wagon, wagon.responsible, self.later())
                yield self.network.message(kind, wagon.responsible, [self.lead], wagon=wagon.number, at=moment(self.clock))

    def starts(self, kind, by, wagon, told):
        """A release or a departure: the estimates are counted from its moment on."""
        self.network.expect(self.lead, wagon, by, self.later() + wagon.minutes[0])
        return self.network.message(kind, by, [told], wagon=wagon.number, at=moment(self.clock))

    def tell(self, kind, wagon, **said):
        """A message of the responsible railway, of which the lead gets a notice."""
        return self.network.message(kind, wagon.responsible, [self.lead], wagon=wagon.number, at=moment(self.later()), **said)

    def on_leg(self, wagon):
        """What happens to a wagon on the way: a yard, a delay, an estimate, another time of a later leg."""
        network, by = self.network, wagon.responsible
        if network.happens(0.3):
            place = network.random.choice(PLACES)
            yield self.tell("yard_in", wagon, place=place)
            yield self.tell("yard_out", wagon, place=place)
        if network.happens(0.4):
            delay = 5 + network.below(235)
            network.expect(self.lead, wagon, by, wagon.estimates[wagon.leg] + delay)
            yield self.tell("exception", wagon, delay=delay)
        if network.happens(0.06):
            yield network.message("eti_ask", self.lead, [by], wagon=wagon.number)
        if network.happens(0.25):
            end = self.later() + 10 + network.below(590)
            network.expect(self.lead, wagon, by, end)
            yield network.message("eti", by, [], wagon=wagon.number, at=moment(end))
        if wagon.leg + 1 < len(wagon.minutes) and network.happens(0.05):
            leg, minutes = wagon.leg + 1, 60 + network.below(840)
            wagon.minutes = [*wagon.minutes[:leg], minutes, *wagon.minutes[leg + 1 :]]
            network.expect(self.lead, wagon, wagon.carriers[leg], wagon.estimates[wagon.leg])
            yield network.message("leg_time", wagon.carriers[leg], [], wagon=wagon.number, leg=leg, minutes=minutes)

    def interchange(self, place):
        """The wagons are offered to the next railway, and again after a withdrawal; so are those that it refuses."""
        network, waiting, leg = self.network, self.wagons, self.wagons[0].leg
        by, to = self.legs[leg]["ru"], self.legs[leg + 1]["ru"]
        while waiting:
            said = {"at": moment(self.later()), "train": f"T-{network.consignments % 9999}", "place": place, "to": to}
            offer = network.message("offer", by, [to], **said, wagons=[it.number for it in waiting])
            yield offer
            if network.happens(0.05):
                yield network.message("withdraw", by, [to], at=moment(self.later()), offer=offer["no"])
                continue
            kept = [it for it in waiting if network.happens(0.04)]
            taken = [it for it in waiting if it not in kept]
            yield self.answer(offer, taken, kept)
            waiting = kept

    def answer(self, offer, taken, kept):
        network, by = self.network, offer["to"]
        self.later()
        manager = network.random.choice(MANAGERS) if network.happens(0.5) else None
        for wagon in taken:
            wagon.leg, wagon.responsible = wagon.leg + 1, by
            network.expect(self.lead, wagon, by, self.clock + wagon.minutes[wagon.leg])
        lists = {"received": [it.number for it in taken], "refused": [it.number for it in kept]}
        said = {"at": moment(self.clock), "offerer": offer["from"], "offer": offer["no"], **lists}
        if manager:
            network.put(by, [manager] if taken else [])
            said["manager"] = manager
        return network.message("answer", by, [offer["from"], self.lead], **said)


# Questions


def ask(network, group):
    """An ask for the record of a wagon by its lead or a railway of its legs, seldom by another one."""
    draw, by = network.below(40), group.lead
    if draw == 0:
        by = network.random.choice(network.railways)
    elif draw < 20 and group.legs:
        by = network.random.choice(group.legs)["ru"]
    return {"kind": "ask", "from": by, "wagon": network.random.choice(group.wagons).number}


def ask_unit(network, group):
    if not group.units:
        return ask(network, group)
    return {"kind": "ask_unit", "from": group.lead, "unit": network.random.choice(group.units)["unit"]}


def deviation(network, group):
    return {"kind": "deviation", "from": group.lead, "consignment": group.consignment}


def fetch(network, by):
    return {"kind": "fetch", "from": by, "limit": 20 + network.below(31)}


def ack(network, by, count):
    """An acknowledgement of so many items more, as far as they are there; seldom of one that is not there yet."""
    network.acknowledged[by] = min(network.acknowledged[by] + count, network.items[by])
    return {"kind": "ack", "from": by, "item": network.acknowledged[by] + (1_000_000 if network.happens(0.01) else 0)}


# Mixes


def aside(network, group):
    """A line that changes nothing: a message again, another one under its number, one of a railway that may not send it, no record."""
    draw, old, asked = network.random.random(), network.random.choice(network.recent), ask(network, group)
    if draw < 0.6:
        return encoded(old)
    if draw < 0.7:
        return encoded({"kind": "eti_ask", "from": old["from"], "no": old["no"], "wagon": asked["wagon"]})
    if draw < 0.94:
        # No lead runs a leg.
        kind = network.random.choice(["depart", "arrival", "delivery", "eti"])
        return encoded(network.message(kind, group.lead, [], wagon=asked["wagon"], at=moment(group.clock)))
    wrong = [encoded(asked)[:-4], encoded(asked | {"kind": "asks"}), encoded(asked | {"wagon": asked["wagon"][::-1]})]
    return network.random.choice([*wrong, encoded({"kind": "ask", "from": asked["from"]})])


def groups_of(network, wagons):
    groups = []
    while network.wagons < wagons:
        groups.append(Group(network, min(1 + network.below(24), wagons - network.wagons)))
    return groups


def journeys(network, groups):
    """Lines of journeys without end: 34 draws of 45.5 give 2.5 lines each, in the middle, 3.5 two, and the others one."""
    messages = {it: it.trips() for it in groups}
    while True:
        group, draw = network.random.choice(groups), network.random.random() * 45.5
        if draw < 34 or not network.recent:
            yield from map(encoded, itertools.islice(messages[group], 1 + network.below(4)))
        elif draw < 39.2:
            yield encoded(ask(network, group))
        elif draw < 40:
            yield encoded(network.random.choice([deviation, deviation, ask_unit])(network, group))
        elif draw < 43.5:
            by = network.random.choice(network.railways)
            fetched = fetch(network, by)
            yield encoded(fetched)
            yield encoded(ack(network, by, fetched["limit"]))
        else:
            yield aside(network, group)


def questions(network, groups):
    """Questions without end. A railway acknowledges one item more at most, so that most fetches find some."""
    loaded = [it for it in groups if it.units] or groups
    while True:
        draw, choice = network.random.random(), network.random.choice
        if draw < 0.6:
            yield encoded(ask(network, choice(groups)))
        elif draw < 0.68:
            yield encoded(ask_unit(network, choice(loaded)))
        elif draw < 0.73:
            yield encoded(deviation(network, choice(groups)))
        elif draw < 0.85:
            yield encoded(fetch(network, choice(network.railways)))
        else:
            yield encoded(ack(network, choice(network.railways), network.below(2)))


def plans(network):
    """Plans of new wagons without end, each with 2.5 lines behind it in the middle."""
    while True:
        group = Group(network, 1 + network.below(9))
        yield encoded(group.plan())
        wagon = network.random.choice(group.wagons)
        yield encoded(group.starts("release", group.lead, wagon, wagon.carriers[0]))
        if network.happens(0.5):
            yield encoded(ask(network, group))
        if network.happens(0.5):
            fetched = fetch(network, network.random.choice(network.railways))
            yield encoded(fetched)
            yield encoded(ack(network, fetched["from"], fetched["limit"]))


def lines_of(mix, count, seed, wagons):
    """So many lines of a mix."""
    share = count // 5 if mix == "questions" else count
    wagons = wagons or max(share // 20, 1)
    network = Network(seed, wagons)
    if mix == "plans":
        return itertools.islice(plans(network), count)
    groups = groups_of(network, wagons)
    first = itertools.islice(journeys(network, groups), share)
    return itertools.chain(first, itertools.islice(questions(network, groups), count - share))


def main():
    # A reader that has enough may go.
    signal.signal(signal.SIGPIPE, signal.SIG_DFL)
    mix, count, seed, wagons = (*sys.argv[1:], *("journeys", 200_000, 1, 0)[len(sys.argv) - 1 :])[:4]
    if mix not in ("journeys", "questions", "plans"):
        sys.exit(__doc__)
    sys.stdout.writelines(line + "\n" for line in lines_of(mix, int(count), int(seed), int(wagons)))


if __name__ == "__main__":
    main()
