"""Records of eight railways that are drawn from a seed, as `bench/split --check` draws them, with what one hub makes of them."""
import json
import pathlib
import random
import subprocess
import sys

sys.path.insert(0, str(pathlib.Path(__file__).resolve().parent / "rabbitmq"))
from names import is_railway, split

RAILWAYS = [f"R{nth:03}" for nth in range(1, 9)]
# At least so many lines come of the copy of an example.
LINES_OF_COPY = 20
# What is sent again is one of the last so many records.
RECENT = 5000


def roles_of(examples):
    """A number for each railway of the examples; those of one example have different ones."""
    role = {}
    for example in examples:
        named = [it for line in example for sort, it in split.named_in(split.record_of(line)) if sort == "railway"]
        for it in dict.fromkeys(named):
            taken = {role.get(other) for other in named}
            role.setdefault(it, next(number for number in range(len(RAILWAYS)) if number not in taken))
    return role


class Draw(split.Stream):
    """A stream of eight railways. Fetches and acks are left out: what they show depends on the order of records that are apart."""

    def __init__(self, seed, examples, copies):
        self.role = roles_of(examples)
        super().__init__(seed, examples, copies)

    def railway(self, corridor, old):
        code = RAILWAYS[(self.role[old] + corridor) % len(RAILWAYS)]
        return self.railways.setdefault((corridor, old), code)

    def put(self, record):
        if not split.is_on_outbox(record):
            super().put(record)
        if len(self.sent) > 2 * RECENT:
            del self.sent[:RECENT]


class Records:
    """So many lines, who sends each, in which groups they are, and what one hub replies to each and reports."""

    def __init__(self, seed, count, hubs):
        draw = random.Random(seed)
        drawn = Draw(seed, split.worked_examples(), count // LINES_OF_COPY + 8).lines
        lines, self.senders = [], []
        for line in drawn:
            sender = split.record_of(line).get("from")
            if split.is_answered(line) and (sender in RAILWAYS or not is_railway(sender)) and len(lines) < count:
                lines.append(line)
                self.senders.append(sender if sender in RAILWAYS else draw.choice(RAILWAYS))
        self.groups = split.groups_of(lines)
        self.hub_of = [it + 1 for it in split.deal(self.groups, hubs)]
        self.lines = [with_hub(*it) for it in zip(lines, self.hub_of)]

    def expect(self, program):
        """What one hub prints, in one run."""
        text = b"".join(line + b"\n" for line in self.lines)
        printed = subprocess.run([*program, "replay"], input=text, stdout=subprocess.PIPE, check=True).stdout.splitlines()
        self.replies, self.report = printed[: len(self.lines)], printed[len(self.lines) + 1 :]

    def items(self):
        """The items of each railway in one hub, whatever their numbers: how often it has each."""
        return split.items([self.lines], [it.encode() for it in RAILWAYS])


def with_hub(line, hub):
    """A plan with the hub that its lead chooses; any other line as it is."""
    is_plan = split.record_of(line).get("kind") == "plan"
    return line.rstrip()[:-1] + b',"_hub":%d}' % hub if is_plan else line


def item_of(answered):
    """An item of a reply as `items` has it, without its number."""
    return json.dumps({key: value for key, value in answered.items() if key != "item"})
