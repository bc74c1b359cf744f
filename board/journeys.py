"""The records of wagons after some messages, as docs/MODEL.md defines them: for the stand-in server alone. It takes each message as
one that the hub accepts, and checks nothing but whether a wagon is known."""
from datetime import datetime, timedelta
from functools import lru_cache

EPOCH, MOMENT = datetime(1970, 1, 1), "%Y-%m-%dT%H:%MZ"
WITHOUT_MOMENT = ("plan", "eti_ask", "leg_time", "reroute")
STAGES = {
    "release": "released", "depart": "running", "yard_in": "in_yard", "yard_out": "running", "offer": "offered", "answer": "in_yard",
    "withdraw": "in_yard", "arrival": "arrived", "delivery": "delivered",
}
STATUSES = {"loaded": ("loading", "loaded_on_journey", "unloading"), "empty": ("fleet_control", "empty_on_journey", "fleet_control")}


@lru_cache(100000)
def minutes_of(moment):
    return (datetime.strptime(moment, MOMENT) - EPOCH) // timedelta(minutes=1)


@lru_cache(100000)
def moment_of(minutes):
    return (EPOCH + timedelta(minutes=minutes)).strftime(MOMENT)


class Journey:
    """What happened to a wagon since its last plan."""

    def __init__(self, wagon, plan):
        self.wagon, self.plan = wagon, plan
        self.legs = [dict(leg) for leg in plan["legs"]]
        self.units = [it["unit"] for it in plan.get("units") or [] if it["wagon"] == wagon]
        self.events = [{"by": plan["from"], "kind": "plan", "no": plan["no"]}]
        self.stage, self.yard, self.leg, self.responsible = "planned", None, 0, None
        # What estimates are counted from: a moment, whether the current leg's minutes come on top of it, the delays since.
        self.anchor, self.adds_leg, self.delay = None, False, 0

    def apply(self, message, place=None, received=None):
        """An event of this wagon. An answer has its offer's place, and whether it received this wagon."""
        kind = message["kind"]
        self.append_event(message, received)
        self.stage = STAGES.get(kind, self.stage)
        self.yard = message.get("place", place) or self.yard
        if kind == "depart" or received:
            self.responsible = message["from"]
        if kind == "delivery":
            self.responsible = None
        if received:
            self.leg += 1
        if kind == "exception":
            self.delay += message["delay"]
        elif kind in ("release", "depart", "eti", "arrival", "delivery") or received:
            self.anchor, self.delay = minutes_of(message["at"]), 0
            self.adds_leg = kind in ("release", "depart", "answer")
        elif kind == "leg_time":
            self.legs[message["leg"]]["minutes"] = message["minutes"]
        elif kind == "reroute":
            self.legs[self.leg + 1 :] = [dict(leg) for leg in message["legs"]]

    def append_event(self, message, received):
        kind = message["kind"]
        event = {"by": message["from"], "kind": kind, "no": message["no"]}
        if kind not in WITHOUT_MOMENT:
            event["at"] = message["at"]
        if kind in ("yard_in", "yard_out", "offer"):
            event["place"] = message["place"]
        if kind == "exception":
            event["delay"] = message["delay"]
        if kind == "leg_time":
            event |= {"leg": message["leg"], "minutes": message["minutes"]}
        if kind == "reroute":
            event["leg"] = self.leg + 1
        if kind == "answer":
            event["received"] = received
        self.events.append(event)

    def estimates(self):
        if self.anchor is None:
            return []
        at = self.anchor + self.delay + (self.legs[self.leg]["minutes"] if self.adds_leg else 0)
        found = [{"at": moment_of(at), "leg": self.leg}]
        for leg in range(self.leg + 1, len(self.legs)):
            at += self.legs[leg]["minutes"]
            found.append({"at": moment_of(at), "leg": leg})
        return found

    def place(self):
        if self.stage in ("planned", "released"):
            return self.legs[0]["origin"]
        if self.stage in ("in_yard", "offered"):
            return self.yard
        return self.legs[-1]["target"] if self.stage in ("arrived", "delivered") else None

    def record(self, events=True):
        plan, estimates = self.plan, self.estimates()
        eta = estimates[-1]["at"] if estimates else None
        status = 0 if self.stage in ("planned", "released") else 2 if self.stage == "delivered" else 1
        return {
            "commit": plan["commit"], "consignment": plan["consignment"], "estimates": estimates, "eta": eta,
            "events": self.events if events else [], "late": eta is not None and eta > plan["commit"], "lead": plan["from"],
            "leg": self.leg, "load": plan["load"], "place": self.place(), "responsible": self.responsible, "stage": self.stage,
            "status": STATUSES[plan["load"]][status], **({"units": self.units} if self.units else {}), "wagon": self.wagon,
        }

    def may_be_seen_by(self, railway):
        return railway == self.plan["from"] or any(leg["ru"] == railway for leg in self.legs)


class Fleet:
    """The journeys of all wagons, in the order of their first plans, and the offers by sender and number."""

    def __init__(self):
        self.journeys, self.offers, self.taken = {}, {}, set()

    def apply(self, message):
        """The first wagon of the message that no plan names, else None: then the message has been applied."""
        if (message["from"], message["no"]) in self.taken:
            return None
        kind, wagons = message["kind"], self.wagons_of(message)
        if kind == "plan":
            for wagon in wagons:
                self.journeys[wagon] = Journey(wagon, message)
        else:
            unknown = [wagon for wagon in wagons if wagon not in self.journeys]
            if unknown:
                return unknown[0]
            if kind == "offer":
                self.offers[message["from"], message["no"]] = message
            place = self.offer_of(message)["place"] if kind in ("answer", "withdraw") else None
            for wagon in wagons:
                received = wagon in message["received"] if kind == "answer" else None
                self.journeys[wagon].apply(message, place, received)
        self.taken.add((message["from"], message["no"]))
        return None

    def offer_of(self, message):
        return self.offers[message.get("offerer", message["from"]), message["offer"]]

    def wagons_of(self, message):
        if message["kind"] in ("plan", "offer"):
            return message["wagons"]
        if message["kind"] == "answer":
            return message["received"] + message["refused"]
        return self.offer_of(message)["wagons"] if message["kind"] == "withdraw" else [message["wagon"]]

    def ask(self, railway, wagon):
        """The reply to a railway's question for a wagon."""
        journey = self.journeys.get(wagon)
        if journey and journey.may_be_seen_by(railway):
            return {"record": journey.record(), "reply": "record"}
        return {"reply": "refused", "wagon": wagon, "why": "not_yours" if journey else "unknown_wagon"}

    def seen_by(self, railway):
        """The journeys that a railway may see, or all."""
        return [journey for journey in self.journeys.values() if railway is None or journey.may_be_seen_by(railway)]
