"""Checks the schemas: schema/check

- Names and limits are those of the sources.
- The program and the schemas judge a table of lines as it says: what the schemas refuse the program refuses too, and what
  the program alone refuses has a reason that stands in README.md.
- What the schemas refuse of the examples the program refuses too.
- Whatever the program answers fits its schema, without a key that the schema does not name.
- Answers that the page of records shows in its text fit their schema, and the length of a long one is the one that it gives.
- Texts of the board that were written from the rules are judged as the table says, and those that its page shows fit their schema.

Prints nothing where all is so. Else it prints the first difference, and ends with status 1.
"""
import functools
import json
import pathlib
import re
import socket
import subprocess
import sys
import threading

from jsonschema import Draft202012Validator

import cases

HERE = pathlib.Path(__file__).resolve().parent
TOP = HERE.parent
CRATES = TOP / "crates"
# After so many seconds a session is ended.
SECONDS = 60


def need(holds, what):
    if not holds:
        sys.exit(f"schema: {what}")


# The schemas


def load(name):
    """A schema, with the definitions of the others named as its own."""
    schema = json.loads(re.sub(r"(records|answers)\.json#", "#", (HERE / name).read_text()))
    Draft202012Validator.check_schema(schema)
    return schema


def close(schema):
    """The schema of objects that have no other keys than it names."""
    if isinstance(schema, list):
        return [close(it) for it in schema]
    if not isinstance(schema, dict):
        return schema
    closed = {key: close(value) for key, value in schema.items()}
    if schema.get("type") == "object":
        closed["additionalProperties"] = False
    return closed


RECORDS, ANSWERS, BOARD = load("records.json"), load("answers.json"), load("board.json")
DEFINITIONS = RECORDS["$defs"] | ANSWERS["$defs"] | BOARD["$defs"]
KINDS = RECORDS["properties"]["kind"]["enum"]
RECORD = Draft202012Validator(RECORDS)
HELLO = Draft202012Validator(DEFINITIONS["hello"] | {"$defs": DEFINITIONS})
ANSWER = Draft202012Validator(close(ANSWERS | {"$defs": DEFINITIONS}))
BOARD_TEXT = Draft202012Validator(close(BOARD | {"$defs": DEFINITIONS}))


def not_a_number(text):
    raise ValueError(text)


def judge(line, schema=RECORD):
    """What a reader of JSON with the schema says to a line."""
    try:
        record = json.loads(line.decode("utf-8"), parse_constant=not_a_number)
    except ValueError:
        return "no JSON"
    return "good" if schema.is_valid(record) else "refused"


@functools.cache
def fits(answer):
    """Whether an answer fits its schema. Most answers come many times."""
    return ANSWER.is_valid(json.loads(answer))


def check_answer(line, answer):
    """The answer, which has to fit its schema."""
    need(fits(answer), f"the answer to {line} is refused: {answer}")
    return json.loads(answer)


# Names and limits


def agree(what, schemas, sources):
    need(schemas == sources, f"{what}: the schemas have {schemas}, the sources {sources}")


def sources(path):
    return "".join(it.read_text() for it in sorted(CRATES.glob(path)))


def named(path):
    """The names that a match of the source gives."""
    return set(re.findall(r'=> "(\w+)"', sources(f"taf_messages/src/{path}")))


def values_of(key, schema=ANSWERS):
    """All values that the schemas allow for the key."""
    if isinstance(schema, list):
        return set().union(*(values_of(key, it) for it in schema))
    if not isinstance(schema, dict):
        return set()
    found = schema.get("properties", {}).get(key, {})
    own = {found["const"]} if "const" in found else set(found.get("enum", []))
    return own.union(*(values_of(key, it) for it in schema.values()))


def texts_of(key):
    """All texts that the sources write under the key."""
    crates = ["reply_writer", "session_lines", "accept_queue", "railway_keys"]
    text = "".join(sources(f"{crate}/src/*.rt") for crate in crates)
    return set(re.findall(rf'\\?"{key}\\?"[,:] ?\\?"(\w+)\\?"', text))


def limits():
    """The limits of each type of number, under the type's name in small letters."""
    found = re.findall(r"pub type (\w+) = Within(?:32)?<(\w+), (\w+)>", sources("taf_messages/src/number.rt"))
    return {re.sub(r"(?<!^)([A-Z])", r"_\1", name).lower(): (int(low), int(high)) for name, low, high in found}


def limits_of(schema):
    """The limits of a number."""
    return schema["minimum"], schema["maximum"]


def check_names():
    objects = [DEFINITIONS[it] for it in [*KINDS, "leg", "unit_load"]]
    agree("kinds", set(KINDS), named("kind.rt"))
    agree("fields", {key for it in objects for key in it["properties"]} - {"kind"}, named("field.rt"))
    agree("stages and statuses", {*DEFINITIONS["stage"]["enum"], *DEFINITIONS["status"]["enum"]}, named("record.rt"))
    agree("refusals", values_of("why"), named("reply.rt"))
    for key in ["fault", "reply", "type"]:
        agree(key, values_of(key), texts_of(key))
    agree("limits", {name: limits_of(it) for name, it in RECORDS["$defs"].items() if it.get("type") == "integer"}, limits())
    reasons = set(re.findall(r"^\| `(\w+)` \|", (HERE / "README.md").read_text(), re.MULTILINE))
    agree("reasons", reasons, cases.REASONS)


# The program


def replay(lines):
    """The program's answers to lines."""
    text = b"".join(line + b"\n" for line in lines)
    printed = subprocess.run([TOP / "taf", "replay"], input=text, stdout=subprocess.PIPE, check=True).stdout
    return printed.decode().splitlines()[: len(lines)]


def sent_lines(command):
    return subprocess.run(command, stdout=subprocess.PIPE, check=True).stdout.splitlines()


def check_examples():
    """The examples, and gives the first record of each kind of those on the page of records."""
    page = sent_lines([TOP / "docs/play_records", "--sent"])
    for lines in [page, *(it.read_bytes().splitlines() for it in sorted(TOP.glob("examples/**/*.jsonl")))]:
        for line, answer in zip(lines, replay(lines)):
            is_fault = "fault" in check_answer(line, answer)
            need(is_fault or judge(line) == "good", f"the schema refuses {line}, and the program does not")
    records = [json.loads(line) for line in page if judge(line) == "good"]
    return {kind: next(it for it in records if it["kind"] == kind) for kind in KINDS}


def check_shown_answers():
    """The answers that stand in the text of the page of records."""
    for answer in re.findall(r'`(\{"[^`]+)`', (TOP / "docs/RECORDS.md").read_text()):
        need(fits(answer), f"docs/RECORDS.md shows an answer that is refused: {answer}")


def check_table(examples):
    """The lines of the table."""
    table = [*cases.whole_lines(), *(it for kind in KINDS for it in cases.of_kind(examples[kind], DEFINITIONS[kind]))]
    for case, answer in zip(table, replay([it.line for it in table])):
        parsed = check_answer(case.line, answer)
        fault = parsed if "fault" in parsed else None
        need(judge(case.line) == case.verdict, f"the schema says {judge(case.line)} to {case.line}, and not {case.verdict}")
        need(fault == case.fault, f"the program says {answer} to {case.line}, and not {case.fault}")


def check_longest():
    """The length of a long answer is the one that the page of records gives."""
    lines = cases.long_fetch()
    answer = replay(lines)[-1]
    need(len(check_answer(lines[-1], answer)["items"]) == 50, "the long plans are not accepted")
    need(f"{len(answer):,} bytes" in (TOP / "docs/RECORDS.md").read_text(), f"a long answer has {len(answer):,} bytes")


# The board


def of_definition(name):
    """A reader of JSON with the schema of one definition."""
    return Draft202012Validator({"$ref": f"#/$defs/{name}", "$defs": DEFINITIONS})


def check_without_events():
    """A record without events has the keys of a record, with the same values."""
    record, other = DEFINITIONS["wagon_record"], DEFINITIONS["record_without_events"]
    need(record["required"] == other["required"], "a record without events needs other keys than a record")
    values = [cases.without(it["properties"], ["events"]) for it in (record, other)]
    need(values[0] == values[1], "a record without events has other values than a record")


def check_board():
    """Values that were written from the rules, and the texts that the page of the board shows. No program wrote them."""
    for name, (good, refused) in cases.BOARD.items():
        one = of_definition(name)
        for value in good:
            need(BOARD_TEXT.is_valid(value) and one.is_valid(value | {"unknown": None}), f"the schema of {name} refuses {value}")
        for value in refused:
            need(not one.is_valid(value), f"the schema of {name} does not refuse {value}")
    shown = re.findall(r'^ +({".*})$', (TOP / "board/README.md").read_text(), re.MULTILINE)
    need(len(shown) == 2 and all(BOARD_TEXT.is_valid(json.loads(it)) for it in shown), "board/README.md shows other texts")


# A session


def free_port():
    with socket.create_server(("127.0.0.1", 0)) as server:
        return server.getsockname()[1]


def start_server():
    """The program, which serves a session, and the port: the first of ten free ones that nobody else takes meanwhile."""
    for _ in range(10):
        port = free_port()
        arguments = [TOP / "taf", "serve", "--port", str(port), "--sessions", "1"]
        server = subprocess.Popen(arguments, stdout=subprocess.DEVNULL, stderr=subprocess.PIPE)
        said = server.stderr.readline()
        if said.startswith(b"listening"):
            return server, port
        server.communicate()
    sys.exit(f"schema: the program does not listen: {said}")


def serve(lines):
    """The program's answers to the lines of a session."""
    server, port = start_server()
    with server:
        limit = threading.Timer(SECONDS, server.kill)
        limit.start()
        with socket.create_connection(("127.0.0.1", port)) as session:
            session.sendall(b"".join(line + b"\n" for line in lines))
            session.shutdown(socket.SHUT_WR)
            answers = session.makefile().read().splitlines()
        limit.cancel()
        return answers


def check_session():
    lines = [line for line, _, _ in cases.SESSION]
    answers = serve(lines)
    need(len(answers) == len(lines), f"a session of {len(lines)} lines has {len(answers)} answers")
    for (line, verdict, expected), answer in zip(cases.SESSION, answers):
        need(judge(line, HELLO) == verdict, f"the schema of a hello says {judge(line, HELLO)} to {line}")
        need(check_answer(line, answer) == expected, f"a session answers {answer} to {line}")


def main():
    check_names()
    check_without_events()
    check_board()
    check_shown_answers()
    check_table(check_examples())
    check_longest()
    check_session()


if __name__ == "__main__":
    main()
