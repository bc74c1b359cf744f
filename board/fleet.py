#!/usr/bin/env python3
"""A made-up day of a fleet, as records for the hub: every stage of a wagon, late ones, open offers, a refusal with a reroute.

    board/fleet.py [--wagons N] [--begin MOMENT] [--keys FOLDER]

prints one record a line, each of which the hub accepts: 48 wagons, or N. The day begins at MOMENT (2025-03-03T04:00Z).
With --keys it prints the keys of these railways instead, and writes the file that `open --keys` reads into FOLDER.
"""
import argparse
import hashlib
import json
import pathlib
from dataclasses import dataclass
from datetime import datetime, timedelta

MOMENT = "%Y-%m-%dT%H:%MZ"
LEADS = ["R100", "R101", "R200"]
RAILWAYS = ["R100", "R101", "R102", "R104", "R105", "R106", "R107", "R109", "R200"]
# Each leg: the railway that runs it, origin, target, minutes.
ROUTES = [
    [("R101", "DE00080", "AT00002", 300), ("R102", "AT00002", "IT00003", 240)],
    [("R101", "DE00080", "CH00220", 260), ("R105", "CH00220", "IT00320", 290), ("R102", "IT00320", "IT00330", 110)],
    [("R104", "NL00010", "DE00300", 170), ("R101", "DE00300", "PL00045", 410)],
    [("R101", "DE00080", "CZ00090", 220), ("R106", "CZ00090", "HU00012", 380), ("R107", "HU00012", "RO00031", 450)],
]


@dataclass
class Train:
    """Wagons of one consignment, and how far they come: to this goal on this leg."""

    route: int
    wagons: int
    goal: str
    leg: int = 0
    delay: int = 0
    units: int = 0


# 48 wagons.
TRAINS = [
    Train(0, 4, "running", 0, 95, 2),
    Train(0, 3, "offered", 0),
    Train(1, 5, "running", 1, 0, 3),
    Train(2, 4, "offered", 0, 40),
    Train(3, 3, "yard", 0, 150),
    Train(1, 3, "planned"),
    Train(0, 4, "released", 0, 0, 2),
    Train(2, 3, "running", 1, 20),
    Train(0, 4, "delivered"),
    Train(1, 2, "arrived", 0, 75, 1),
    Train(3, 4, "running", 0),
    Train(2, 2, "delivered", 0, 260),
    Train(1, 3, "yard", 1, 30),
    Train(0, 2, "refused", 0),
    Train(3, 2, "running", 2),
]


def vehicle_number(index):
    digits = f"{[21, 31, 33, 37][index % 4]}80{4000 + index // 1000:04}{index % 1000:03}"
    doubled = [int(digit) * (2 - i % 2) for i, digit in enumerate(digits)]
    return digits + str(-sum(it // 10 + it % 10 for it in doubled) % 10)


def unit_number(index):
    text = f"CSQU{300000 + index:06}"
    # ISO 6346: A counts 10, and the letters leave out what 11 divides.
    values = [it for it in range(10, 39) if it % 11]
    counted = [int(it) if it.isdigit() else values[ord(it) - ord("A")] for it in text]
    return text + str(sum(value << i for i, value in enumerate(counted)) % 11 % 10)


class Day:
    """The records so far, and the next number of each railway, wagon and unit."""

    def __init__(self, begin):
        self.begin = datetime.strptime(begin, MOMENT)
        self.numbers, self.wagons, self.units, self.records = {}, 0, 0, []

    def moment(self, minutes):
        return (self.begin + timedelta(minutes=minutes)).strftime(MOMENT)

    def report(self, railway, kind, **fields):
        """Appends a message of the railway, and gives its number."""
        number = self.numbers[railway] = self.numbers.get(railway, 0) + 1
        self.records.append({"kind": kind, "from": railway, "no": number, **fields})
        return number

    def report_each(self, railway, kind, wagons, minutes, **fields):
        for wagon in wagons:
            self.report(railway, kind, wagon=wagon, at=self.moment(minutes), **fields)


def plan(day, index, train, wagons, start):
    legs, lead = ROUTES[train.route], LEADS[index % len(LEADS)]
    promised = start + sum(minutes for _, _, _, minutes in legs) + 45 + 30 * (index % 3)
    fields = {
        "consignment": f"{legs[0][1][:2]}-{legs[-1][2][:2]}-{303 + index:04}",
        "load": "loaded" if index % 5 else "empty",
        "commit": day.moment(promised),
        "wagons": wagons,
        "legs": [{"ru": ru, "origin": origin, "target": target, "minutes": minutes} for ru, origin, target, minutes in legs],
    }
    if train.units:
        fields["units"] = [{"unit": unit_number(day.units + i), "wagon": wagons[i % len(wagons)]} for i in range(train.units)]
        day.units += train.units
    day.report(lead, "plan", **fields)
    return lead


def run_on(day, train, wagons, leg, at):
    """The train is under way on its last leg of today; its first wagons are delayed."""
    ru, _, _, minutes = ROUTES[train.route][leg]
    if train.delay:
        for i, wagon in enumerate(wagons[:2]):
            day.report(ru, "exception", wagon=wagon, at=day.moment(at + minutes // 3), delay=train.delay + 25 * i)
    if leg == 1 and train.route == 1:
        day.report(ru, "eti", wagon=wagons[0], at=day.moment(at + minutes + 130))


def run_leg(day, train, wagons, leg, at):
    """The whole leg, with a yard on the way. Gives the minutes at which it ends."""
    ru, _, target, minutes = ROUTES[train.route][leg]
    delay = train.delay if leg == 0 else 0
    if delay:
        day.report_each(ru, "exception", wagons[:2], at + minutes // 2, delay=delay)
    yard = target[:2] + "00777"
    day.report_each(ru, "yard_in", wagons, at + minutes // 2, place=yard)
    day.report_each(ru, "yard_out", wagons, at + minutes // 2 + 25, place=yard)
    return at + minutes + delay - 6


def hand_over(day, train, lead, wagons, leg, end):
    """The interchange after a leg. Gives the minutes at which the next leg begins, or none where the train stays."""
    (ru, _, place, _), (receiver, _, _, _) = ROUTES[train.route][leg : leg + 2]
    is_goal = leg == train.leg
    day.report_each(ru, "yard_in", wagons, end, place=place)
    if is_goal and train.goal == "yard":
        return None
    name = f"TEC-{43000 + day.numbers[ru] % 7000}"
    offer = day.report(ru, "offer", at=day.moment(end + 15), train=name, place=place, to=receiver, wagons=wagons)
    if is_goal and train.goal == "offered":
        return None
    answer = {"at": day.moment(end + 40), "offerer": ru, "offer": offer}
    if is_goal and train.goal == "refused":
        day.report(receiver, "answer", **answer, received=wagons[1:], refused=wagons[:1])
        other = {"ru": "R109", "origin": place, "target": ROUTES[train.route][-1][2], "minutes": 310}
        day.report(lead, "reroute", wagon=wagons[0], legs=[other])
        day.report_each(receiver, "yard_out", wagons[1:], end + 60, place=place)
        return None
    day.report(receiver, "answer", **answer, received=wagons, refused=[], manager="I300")
    day.report_each(receiver, "yard_out", wagons, end + 62, place=place)
    return end + 40


def play(day, index, train):
    wagons = [vehicle_number(day.wagons + i) for i in range(train.wagons)]
    day.wagons += train.wagons
    legs, start = ROUTES[train.route], 37 * index % 160
    lead = plan(day, index, train, wagons, start)
    if train.goal == "planned":
        return
    day.report_each(lead, "release", wagons, start)
    if train.goal == "released":
        return
    at = start + 35
    day.report_each(legs[0][0], "depart", wagons, at)
    for leg in range(len(legs)):
        if train.goal == "running" and leg == train.leg:
            return run_on(day, train, wagons, leg, at)
        end = run_leg(day, train, wagons, leg, at)
        if leg + 1 < len(legs):
            at = hand_over(day, train, lead, wagons, leg, end)
            if at is None:
                return
    day.report_each(legs[-1][0], "arrival", wagons, end)
    if train.goal == "delivered":
        day.report_each(legs[-1][0], "delivery", wagons, end + 40)


def records_of_a_day(wagons=48, begin="2025-03-03T04:00Z"):
    """The records of at least so many wagons, in an order in which the hub accepts each."""
    day, index = Day(begin), 0
    while day.wagons < wagons:
        play(day, index, TRAINS[index % len(TRAINS)])
        yield from day.records
        day.records.clear()
        index += 1


def keys_of_railways():
    """A key for each railway, and the text of the file that has their digests."""
    keys = {railway: hashlib.sha256(f"board {railway}".encode()).hexdigest()[:32] for railway in RAILWAYS}
    lines = [f"{railway} {hashlib.sha256(key.encode()).hexdigest()}\n" for railway, key in keys.items()]
    return keys, "".join(lines)


def main():
    words = argparse.ArgumentParser()
    words.add_argument("--wagons", type=int, default=48)
    words.add_argument("--begin", default="2025-03-03T04:00Z")
    words.add_argument("--keys", type=pathlib.Path)
    chosen = words.parse_args()
    if chosen.keys:
        keys, text = keys_of_railways()
        (chosen.keys / "keys").write_text(text)
        print("\n".join(f"{railway} {key}" for railway, key in keys.items()))
        return
    for record in records_of_a_day(chosen.wagons, chosen.begin):
        print(json.dumps(record, separators=(",", ":")))


if __name__ == "__main__":
    main()
