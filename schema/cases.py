"""The table of lines for schema/check: what a reader of JSON with the schemas says to each line, and what the program says."""
import json
from typing import NamedTuple


class Case(NamedTuple):
    line: bytes
    # What the schemas say: `good`, `refused`, or `no JSON` where they are not asked.
    verdict: str
    # The fault line of the program, or None where the line is a call.
    fault: dict | None


class Values(NamedTuple):
    """Values of one kind as texts of JSON: those that are good, and those that are refused."""

    good: list
    # By the schemas, and by the program.
    refused: list
    # By the program alone, for a reason that stands in README.md.
    program_alone: dict = {}
    # The codes of those that break a rule of a plan or a reroute.
    codes: dict = {}


WAGON, OTHER, WRONG = "218124712173", "338478961232", "218124712174"
UNIT = "CSQU3054383"


# Lists, and texts of JSON


def wagon(number):
    """A wagon with its check digit."""
    digits = f"3380{number:07}"
    total = sum(sum(divmod(int(digit) * (2 - place % 2), 10)) for place, digit in enumerate(digits))
    return f"{digits}{-total % 10}"


def wagons(count):
    return [WAGON, *(wagon(number) for number in range(1, count))]


def unit(number):
    """A unit with its check digit. With A as 10 the letters AAAU count 10 + 20 + 40 + 8 * 32."""
    digits = sum(int(digit) * 2**place for place, digit in enumerate(f"{number:06}", 4))
    return f"AAAU{number:06}{(10 + 20 + 40 + 8 * 32 + digits) % 11 % 10}"


def loads(count):
    """So many units on one wagon."""
    return [{"unit": unit(number), "wagon": WAGON} for number in range(count)]


def legs(count):
    """So many legs from AT00002 on, each by a railway of its own."""
    return [
        {"ru": f"R2{number:02}", "origin": f"AT{number + 2:05}", "target": f"AT{number + 3:05}", "minutes": 60}
        for number in range(count)
    ]


def text_of(value):
    return json.dumps(value, separators=(",", ":"))


def with_value(record, key, text):
    """The JSON of a record whose key has the value of this text."""
    members = [f"{text_of(it)}:{text if it == key else text_of(value)}" for it, value in record.items()]
    return "{" + ",".join(members) + "}"


def without(record, keys):
    return {key: value for key, value in record.items() if key not in keys}


# Values


NO_TEXT = ["null", "true", "100", '["R100"]', "{}", '""']
NO_NUMBER = ["null", "true", '"1"', "[1]", "{}", "-1", "1.5", "18446744073709551616"]
NO_LIST = ["null", "true", "1", f'"{WAGON}"', "{}", "[null]", "[1]", "[[]]"]
NO_ZERO = {"number_form": ["0.0", "0e0", "-0"]}
LONGEST_NAME = "CONSIGNMENT-20250301"

VALUES = {
    "railway": Values(
        ['"R100"', '"0000"', '"ZZZZ"'],
        [*NO_TEXT, '"R10"', '"R1000"', '"r100"', '"R-10"', '"R10 "', '"R100\\n"', '"R10\\u00c4"'],
    ),
    "place": Values(
        ['"AT00002"', '"ZZ99999"'],
        [*NO_TEXT, '"AT0002"', '"AT000002"', '"at00002"', '"A100002"', '"AT0000O"', '"AT00002\\n"'],
    ),
    "name": Values(
        ['"C-1"', '"-"', f'"{LONGEST_NAME}"'],
        [*NO_TEXT, f'"{LONGEST_NAME}1"', '"c-1"', '"C 1"', '"C_1"', '"C-1\\n"', '"C\\u0660"'],
    ),
    "wagon": Values(
        [f'"{WAGON}"', f'"{OTHER}"'],
        [*NO_TEXT, '"21812471217"', f'"{WAGON}3"', '"21 81 2471 217-3"', '"21812471217X"', f'"{WAGON}\\n"', WAGON],
        {"check_digit": [f'"{WRONG}"', '"218124712137"']},
    ),
    "unit": Values(
        [f'"{UNIT}"', '"AAAU0000060"'],
        [*NO_TEXT, '"CSQU305438"', '"CSQU30543833"', '"csqu3054383"', '"CSQ03054383"', '"CSQU 305438"'],
        {"check_digit": ['"CSQU3054384"']},
    ),
    "moment": Values(
        ['"1970-01-01T00:00Z"', '"2199-12-31T23:59Z"', '"2024-02-29T12:30Z"', '"2000-02-29T00:00Z"'],
        [
            *NO_TEXT, '"1969-12-31T23:59Z"', '"2200-01-01T00:00Z"', '"2025-00-01T05:30Z"', '"2025-13-01T05:30Z"',
            '"2025-03-00T05:30Z"', '"2025-03-32T05:30Z"', '"2025-03-01T24:00Z"', '"2025-03-01T05:60Z"', '"2025-03-01 05:30Z"',
            '"2025-03-01T05:30"', '"2025-03-01T05:30z"', '"2025-03-01T06:30+01:00"', '"2025-03-01T05:30:00Z"',
        ],
        {"calendar": ['"2025-02-29T05:30Z"', '"2025-04-31T05:30Z"', '"2100-02-29T05:30Z"']},
    ),
    "load": Values(['"loaded"', '"empty"'], [*NO_TEXT, '"Loaded"', '"full"']),
    "manager": Values(["null", '"I300"'], [*NO_TEXT[1:], '"i300"']),
    "message_number": Values(
        ["1", "999999999999"], [*NO_NUMBER, "0", "1000000000000"], {"number_form": ["1.0", "1e0", "10e-1"]}
    ),
    "item_number": Values(["0", "999999999999"], [*NO_NUMBER, "1000000000000"], NO_ZERO),
    "leg_index": Values(["0", "7"], [*NO_NUMBER, "8"], NO_ZERO),
    "leg_minutes": Values(["1", "100000"], [*NO_NUMBER, "0", "100001"], {"number_form": ["1.0", "1e0"]}),
    "delay": Values(["0", "100000"], [*NO_NUMBER, "100001"], NO_ZERO),
    "fetch_limit": Values(["1", "50"], [*NO_NUMBER, "0", "51"], {"number_form": ["50.0", "5e1"]}),
}

LEG = {"ru": "railway", "origin": "place", "target": "place", "minutes": "leg_minutes"}
LOAD = {"unit": "unit", "wagon": "wagon"}


def lists_lacking(member):
    """Lists of one member that lacks a key."""
    return [text_of([without(member, [key])]) for key in member]


def lists_refused(member, kinds):
    """Lists of one member with a value that is refused."""
    return [f"[{with_value(member, key, text)}]" for key, kind in kinds.items() for text in VALUES[kind].refused]


def lists_refused_by_program(member, kinds):
    """Of each reason, lists of one member with a value that the program alone refuses."""
    found = {}
    for key, kind in kinds.items():
        for reason, texts in VALUES[kind].program_alone.items():
            found.setdefault(reason, []).extend(f"[{with_value(member, key, text)}]" for text in texts)
    return found


def wagon_lists():
    none, many, twice = "[]", text_of(wagons(61)), text_of([WAGON, OTHER, WAGON])
    return Values(
        [text_of([WAGON]), text_of(wagons(60))],
        [*NO_LIST, none, many, twice],
        {"check_digit": [text_of([WAGON, WRONG])]},
        {none: 4, many: 4, twice: 5},
    )


def leg_lists(most):
    """Lists of legs, so many of them at most."""
    first, second = legs(2)
    none, many = "[]", text_of(legs(most + 1))
    short, long = (text_of([first | {"minutes": minutes}]) for minutes in (0, 100001))
    apart = text_of([first, second | {"origin": "AT00009"}])
    one_railway = text_of([first, second | {"ru": first["ru"]}])
    return Values(
        [text_of(legs(1)), text_of(legs(most)), text_of([first | {"unknown": None}])],
        [*NO_LIST, *lists_lacking(first), *lists_refused(first, LEG), none, many, text_of([first | {"minutes": 2**32}])],
        lists_refused_by_program(first, LEG) | {"legs_apart": [apart], "railway_twice": [one_railway]},
        {none: 1, many: 1, apart: 2, one_railway: 3, short: 6, long: 6},
    )


def load_lists():
    load = {"unit": UNIT, "wagon": WAGON}
    twice, elsewhere = text_of([load, load | {"wagon": OTHER}]), text_of([load | {"wagon": wagon(1)}])
    return Values(
        ["null", "[]", text_of([load]), text_of(loads(120)), text_of([load | {"unknown": None}])],
        [*NO_LIST[1:], *lists_lacking(load), *lists_refused(load, LOAD), text_of(loads(121))],
        lists_refused_by_program(load, LOAD) | {"unit_twice": [twice], "unit_elsewhere": [elsewhere]},
        {twice: 7, elsewhere: 8},
    )


VALUES |= {
    "train_wagons": wagon_lists(),
    "answered_wagons": Values(
        ["[]", text_of(wagons(60)), text_of([WAGON, WAGON])],
        [*NO_LIST, text_of(wagons(61))],
        {"check_digit": [text_of([WAGON, WRONG])]},
    ),
    "plan_legs": leg_lists(8),
    "new_legs": leg_lists(7),
    "unit_loads": load_lists(),
}


# Lines of each kind


def fault_of(record, key, text, values):
    """The fault line of a record with this value."""
    if record["kind"] in ("plan", "reroute") and text in values.codes:
        return {"code": values.codes[text], "fault": "bad_plan"}
    return {"fault": "bad_field", "field": key}


def with_each_value(record, key, values):
    """The record with each value of one of its keys."""
    for text in values.good:
        yield Case(with_value(record, key, text).encode(), "good", None)
    for text in values.refused:
        yield Case(with_value(record, key, text).encode(), "refused", fault_of(record, key, text, values))
    for texts in values.program_alone.values():
        for text in texts:
            yield Case(with_value(record, key, text).encode(), "good", fault_of(record, key, text, values))


def of_kind(record, schema):
    """Lines of the record's kind: with fields that are missing, with each value of each field, and with unknown fields."""
    fields = schema["required"][1:]
    for place, field in enumerate(fields):
        yield Case(text_of(without(record, fields[place:])).encode(), "refused", {"fault": "missing_field", "field": field})
    for key in without(schema["properties"], fields + ["kind"]):
        yield Case(text_of(without(record, [key])).encode(), "good", None)
    for key, value in without(schema["properties"], ["kind"]).items():
        yield from with_each_value(record, key, VALUES[value["$ref"].rpartition("/")[2]])
    yield Case(text_of({"unknown": [{}, None]} | dict(reversed(record.items()))).encode(), "good", None)


# Whole lines


def fetch(unknown):
    """A fetch with an unknown field."""
    return b'{"kind":"fetch","from":"R100","limit":5,"unknown":' + unknown + b"}"


def nested(depth):
    """A fetch that nests so deep."""
    return fetch(b"[" * (depth - 1) + b"]" * (depth - 1))


def filled(length):
    """A fetch with so many bytes."""
    return fetch(b"0") + b" " * (length - len(fetch(b"0")))


BAD_JSON, BAD_KIND = {"fault": "bad_json"}, {"fault": "bad_kind"}

NO_JSON = [
    b'{"kind":', b"{'kind':'fetch'}", b'{"kind":"fetch",}', b"fetch", b"\xef\xbb\xbf" + fetch(b"0"), fetch(b'"\xff"'), fetch(b"01"),
    fetch(b"+1"), fetch(b".5"), fetch(b"NaN"), fetch(b"-Infinity"), fetch(b'"\\x"'), fetch(b'"\t"'), fetch(b"0") + fetch(b"0"),
]

OTHER_KINDS = [
    b"{}", b'{"kind":null}', b'{"kind":7}', b'{"kind":["fetch"]}', b'{"kind":"Fetch","from":"R100","limit":5}', b'{"kind":""}',
    b'{"kind":"hello","from":"R100"}', b'{"Kind":"fetch","from":"R100","limit":5}',
]

GOOD_LINES = [
    b'{"kind":"fetch","from":"R100","limit":0,"limit":5}', b' { "kind" : "fetch" ,\t"from":"R100","limit":5 } \r',
    b'{"k\\u0069nd":"f\\u0065tch","from":"R\\u0031\\u00300","limit":5}', nested(127), filled(65_536), fetch(b"-1.5e-7"),
    fetch(b"1e308"), fetch(b'"\\ud83d\\ude82"'), fetch("\"\u00e4\"".encode()),
]

# Lines that the program alone refuses, with the reason and the fault line.
PROGRAM_ALONE = [
    ("half_character", fetch(b'"\\ud83d"'), BAD_JSON),
    ("nesting", nested(128), BAD_JSON),
    ("number_range", fetch(b"1e309"), BAD_JSON),
    ("line_length", filled(65_537), {"fault": "line_too_long"}),
]


def whole_lines():
    yield from (Case(line, "no JSON", BAD_JSON) for line in NO_JSON)
    yield from (Case(line, "refused", BAD_JSON) for line in [b"[]", b'"fetch"', b"null", b"7", b"[" + fetch(b"0") + b"]"])
    yield from (Case(line, "refused", BAD_KIND) for line in OTHER_KINDS)
    yield from (Case(line, "good", None) for line in GOOD_LINES)
    yield from (Case(line, "good", fault) for _, line, fault in PROGRAM_ALONE)


def long_plan(number):
    """A plan of 60 wagons, with two units on each, and of eight legs."""
    numbers = [wagon(60 * number + place) for place in range(60)]
    units = [{"unit": unit(120 * number + place), "wagon": numbers[place // 2]} for place in range(120)]
    plan = {"kind": "plan", "from": "R100", "no": number + 1, "consignment": f"CONSIGNMENT-{number:08}", "load": "loaded"}
    slow_legs = [leg | {"minutes": 100000} for leg in legs(8)]
    return text_of(plan | {"commit": "2025-03-01T15:30Z", "wagons": numbers, "legs": slow_legs, "units": units}).encode()


def long_fetch():
    """Fifty long plans, and a fetch of their notices."""
    return [*(long_plan(number) for number in range(50)), b'{"kind":"fetch","from":"R207","limit":50}']


# Texts of the board

RELEASED = {
    "commit": "2025-03-01T15:30Z", "consignment": "C-1",
    "estimates": [{"at": "2025-03-01T10:30Z", "leg": 0}, {"at": "2025-03-01T14:30Z", "leg": 1}],
    "eta": "2025-03-01T14:30Z", "events": [], "late": False, "lead": "R100", "leg": 0, "load": "loaded", "place": "DE00001",
    "responsible": None, "stage": "released", "status": "loading", "units": [UNIT], "wagon": WAGON,
}
PLANNED = without(RELEASED, ["units"]) | {"estimates": [], "eta": None, "stage": "planned", "wagon": OTHER}
FIRST_LEG = {"minutes": 300, "origin": "DE00001", "ru": "R101", "target": "AT00002"}
NEXT_LEG = {"minutes": 280, "origin": "AT00002", "ru": "R102", "target": "IT00003"}


def with_change(value, **changes):
    """The value with these changes. A key that is changed to `...` is left out."""
    return {key: it for key, it in (value | changes).items() if it is not ...}


def fleet_records(*records):
    return {"records": list(records), "reply": "records"}


def wagon_legs(*legs):
    return {"legs": list(legs), "wagon": WAGON}


def good_records():
    more_than_deviations = [RELEASED | {"wagon": number} for number in wagons(61)]
    return [fleet_records(), fleet_records(PLANNED, RELEASED), fleet_records(*more_than_deviations)]


def refused_records():
    """Lists with a record that has an event, lacks a key or has another value, and values of another form."""
    event = {"by": "R100", "kind": "plan", "no": 1}
    changes = [
        {"events": [event]}, {"events": None}, {"events": ...}, {"place": ...}, {"units": []}, {"stage": "lost"}, {"wagon": int(WAGON)},
    ]
    records = [fleet_records(with_change(RELEASED, **it)) for it in changes]
    changes = [{"records": ...}, {"records": None}, {"records": [WAGON]}, {"reply": ...}, {"reply": "record"}]
    return [*records, *(with_change(fleet_records(), **it) for it in changes), [], {"record": RELEASED, "reply": "record"}]


def good_legs():
    slow_leg = FIRST_LEG | {"minutes": 100000}
    return [wagon_legs(FIRST_LEG), wagon_legs(FIRST_LEG, NEXT_LEG), wagon_legs(*legs(8)), wagon_legs(slow_leg)]


def refused_legs():
    changes = [*({key: ...} for key in FIRST_LEG), {"minutes": 0}, {"minutes": 100001}, {"ru": "r101"}, {"target": None}]
    one_leg = [wagon_legs(with_change(FIRST_LEG, **it)) for it in changes]
    changes = [{"wagon": ...}, {"wagon": int(WAGON)}, {"legs": ...}, {"legs": None}]
    return [*one_leg, *(with_change(wagon_legs(FIRST_LEG), **it) for it in changes), wagon_legs(), wagon_legs(*legs(9))]


def good_fleet_legs():
    return [{"legs": []}, {"legs": good_legs()}]


def refused_fleet_legs():
    return [[], {}, {"legs": None}, {"legs": [WAGON]}, wagon_legs(FIRST_LEG), *({"legs": [it]} for it in refused_legs())]


# Of each definition values that the rules allow, and values that they do not.
BOARD = {
    "fleet_records": (good_records(), refused_records()),
    "fleet_legs": (good_fleet_legs(), refused_fleet_legs()),
    "wagon_legs": (good_legs(), refused_legs()),
}

REASONS = {reason for values in VALUES.values() for reason in values.program_alone} | {reason for reason, _, _ in PROGRAM_ALONE}

# The lines of a session: what the schema of a hello says to each, and its answer.
SESSION = [
    (b'{"kind":"fetch","from":"R100","limit":5}', "refused", {"fault": "no_hello"}),
    (b"hello", "no JSON", {"fault": "no_hello"}),
    (b'{"kind":"hello"}', "refused", {"fault": "missing_field", "field": "from"}),
    (b'{"kind":"hello","from":"r100"}', "refused", {"fault": "bad_field", "field": "from"}),
    (b'{"kind":"hello","from":"R100","key":"green-signal-100","unknown":1}', "good", {"hello": "R100"}),
    (b'{"kind":"hello","from":"R100"}', "good", BAD_KIND),
    (b'{"kind":"fetch","from":"R101","limit":5}', "refused", {"fault": "wrong_sender"}),
    (b'{"kind":"fetch","from":"R100","limit":5}', "refused", {"items": [], "reply": "items"}),
    (b"[]", "refused", BAD_JSON),
]
