"""Wagons that no day has: moments out of order and far away, eight legs or none, words that are not known yet, markup."""
from page import file_of

LEGS = [{"ru": f"R10{i}", "origin": f"DE0000{i}", "target": f"DE0000{i + 1}", "minutes": 1 if i % 2 else 100000} for i in range(8)]
EVENTS = [
    {"kind": "plan"},
    {"kind": "release", "at": "2025-03-01T05:30Z"},
    {"kind": "depart", "at": "2025-02-28T06:00Z"},
    {"kind": "yard_in", "at": "2025-03-01T04:00Z", "place": "DE00001"},
    {"kind": "offer", "at": "1970-01-01T00:00Z", "place": "DE00001"},
    {"kind": "answer", "at": "2025-02-01T00:00Z", "received": True},
    {"kind": "answer", "at": "2025-02-01T00:00Z", "received": False},
    {"kind": "exception", "at": "2025-03-01T04:00Z", "delay": 0},
    {"kind": "exception", "at": "2025-03-01T04:01Z", "delay": 100000},
    {"kind": "eti", "at": "2199-12-31T23:59Z"},
    {"kind": "leg_time", "leg": 7, "minutes": 1},
    {"kind": "reroute", "leg": 2},
    {"kind": "new_kind"},
]
RECORD = {
    "commit": "2025-03-01T15:30Z",
    "consignment": "<img src=x onerror=alert(1)></script><img src=x>",
    "estimates": [{"at": "2199-12-31T23:59Z", "leg": leg} for leg in range(1, 8)],
    "eta": "2199-12-31T23:59Z",
    "events": [{"by": "R100", "no": 999999999999} | it for it in EVENTS],
    "late": True,
    "lead": "R100",
    "leg": 1,
    "load": "loaded",
    "place": None,
    "responsible": "R101",
    "stage": "running",
    "status": "new_status",
    "units": ["CSQU3054383"] * 120,
    "wagon": "218124712173",
}
WITHOUT_ESTIMATE = {"estimates": [], "eta": None, "events": RECORD["events"][:1], "late": False, "stage": "planned", "place": "DE00000"}


def odd_file():
    """The numbers of the wagons, and the page that has them inside. One alone has legs."""
    records = [RECORD, RECORD | WITHOUT_ESTIMATE | {"wagon": "338478961232"}, RECORD | {"stage": "new_stage", "wagon": "318066552148"}]
    texts = {"records": records, "reply": "records"}
    return [it["wagon"] for it in records], file_of({"legs": [{"legs": LEGS, "wagon": RECORD["wagon"]}]}, texts)
