"""What the table of the interface, calls.py, is made of. A row that says something twice, or leaves out what it needs, ends `emit`."""
from __future__ import annotations

import dataclasses
import re
from typing import Protocol, TypeVar

Name = TypeVar("Name", str, int)

# A number is told in the header as its text tells it.
SAME = "the same as the text"


class Wrong(Exception):
    """Why the table cannot be what it is for."""


@dataclasses.dataclass(frozen=True)
class Number:
    """What a function returns: its name, its text for a log, what the header says of it, and the errors of the proved code that it tells."""

    name: str
    value: int
    text: str
    note: str = ""
    of: tuple[str, ...] = ()

    def told(self) -> str:
        return self.text if self.note == SAME else self.note


@dataclasses.dataclass(frozen=True)
class Numbers:
    enum: str
    about: str
    members: list[Number]


@dataclasses.dataclass(frozen=True)
class Member:
    name: str
    value: int
    note: str = ""


@dataclasses.dataclass(frozen=True)
class Enum:
    name: str
    about: str
    members: list[Member]


@dataclasses.dataclass(frozen=True)
class Field:
    declared: str
    note: str = ""


@dataclasses.dataclass(frozen=True)
class Struct:
    name: str
    about: str
    members: list[Field]


@dataclasses.dataclass(frozen=True)
class Codes:
    """The numbers that stand for the variants of an enum of the proved code. All others are refused by U16550_BAD_CODE."""

    of: str
    kind: str
    numbers: dict[str, int]


@dataclasses.dataclass(frozen=True)
class Shared:
    """An enum of the header whose numbers the proved code has for its variants, and whether a program gives them."""

    of: str
    enum: str
    numbers: dict[str, str]
    is_given: bool = False


@dataclasses.dataclass(frozen=True)
class Value:
    """What a parameter of a function may be: the local that it is read into, the test, and what the proved function gets. The test is a call that
    returns a number, or a condition that refuses it, with the number."""

    parameter: str
    test: str | tuple[str, str]
    passed: str
    local: str = ""
    is_last: bool = False


@dataclasses.dataclass(frozen=True)
class Call:
    """A function of the header that makes one call of the proved code: over a driver, or over a configuration alone if it takes that first.
    `gives` is the parameter that what it returns is written to."""

    name: str
    takes: str
    gives: str = ""
    # How the result is an error: a type of errors; or the number that tells of false, or of none.
    error: str = ""
    false: str = ""
    none: str = ""
    # How many were done, which is written after a stall too.
    stalls: str = ""
    # The struct of C with two bytes that is returned or written.
    pair: str = ""
    # By which function the result becomes what the header has; what the proved function gets, if that is not what the values say; and what
    # is done in place of one call.
    encode: str = ""
    arguments: str = ""
    does: str = ""

    def parameters(self) -> list[str]:
        return [one.strip() for one in self.takes.split(",")]


@dataclasses.dataclass(frozen=True)
class ByHand:
    """A function of the header that is in the layer as it is. `gives` and `stalls` are as for a `Call`."""

    name: str
    takes: str
    returns: str = "int"
    # The errors that it returns: an enum, or some numbers, between spaces.
    errors: str = ""
    gives: str = ""
    stalls: str = ""

    def parameters(self) -> list[str]:
        return [one.strip() for one in self.takes.split(",")]


@dataclasses.dataclass(frozen=True)
class Group:
    about: str
    calls: list[Call | ByHand]


@dataclasses.dataclass(frozen=True)
class Section:
    title: str
    about: str
    groups: list[Group]
    # Lines of the header in front of the first function.
    lines: str = ""


class Table(Protocol):
    """What has the rows."""

    NUMBERS: list[Numbers]
    SECTIONS: list[Section]


def twice(names: list[Name]) -> list[Name]:
    """The names that are there more than once."""
    return sorted({one for one in names if names.count(one) > 1})


def check(table: Table) -> None:
    """Refuses a table in which two rows have one name or one number, or a call gives what it does not take."""
    numbers = [one for group in table.NUMBERS for one in group.members]
    calls = [one for section in table.SECTIONS for group in section.groups for one in group.calls]
    wrong = twice([one.name for one in numbers]) + [*map(str, twice([one.value for one in numbers]))] + twice([one.text for one in numbers])
    wrong += twice([one.name for one in calls]) + twice([path for one in numbers for path in one.of])
    if wrong:
        raise Wrong(f"calls.py has these twice: {', '.join(wrong)}")
    for call in calls:
        for name in (call.gives, call.stalls):
            if name and not any(re.search(rf"\*{name}$", one) for one in call.parameters()):
                raise Wrong(f"calls.py: {call.name} takes no pointer {name}")
