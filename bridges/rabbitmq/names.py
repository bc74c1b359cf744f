"""The names of streams, and the names in records by which a record finds its hub."""
import dataclasses
import importlib.machinery
import pathlib
import re
import types

TOP = pathlib.Path(__file__).resolve().parent.parent.parent
# How many hubs divide the work at most: the number of an item ends with that of its hub, in two digits.
MAX_HUBS = 99
# A text of another form names nothing that a plan can have.
FORMS = {"wagon": "[0-9]{12}", "unit": "[A-Z]{4}[0-9]{7}", "consignment": "[A-Z0-9-]{1,20}"}
RAILWAY = re.compile("[A-Z0-9]{4}")


def script(path):
    """A script of this repository as a module."""
    loader = importlib.machinery.SourceFileLoader(path.name, str(path))
    module = types.ModuleType(path.name)
    module.__file__ = str(path)
    loader.exec_module(module)
    return module


# What a line says and what its record names is known to bench/split.
split = script(TOP / "bench/split")


@dataclasses.dataclass(frozen=True)
class StreamNames:
    """The streams of a set of hubs."""

    name: str
    hubs: int

    def hub(self, hub):
        return f"{self.name}.hub.{hub}"

    def replies(self, railway):
        return f"{self.name}.replies.{railway}"

    @property
    def table(self):
        return f"{self.name}.table"


def is_railway(text):
    return isinstance(text, str) and RAILWAY.fullmatch(text) is not None


def is_number(value):
    return isinstance(value, int) and not isinstance(value, bool)


def names_in(record):
    """The wagons, units, consignments and offers that a record names."""
    owner = record.get("offerer", record.get("from"))
    for key in split.keys(record, ()):
        sort, name = key[:2]
        if sort in FORMS and re.fullmatch(FORMS[sort], name) or sort == "offer" and name == owner:
            yield key


def makes(record):
    """The names that a record may bring into a hub: all that a plan names, and an offer itself."""
    kind = record.get("kind")
    return [it for it in names_in(record) if kind == "plan" or kind == "offer" and it[0] == "offer"]
