#!/usr/bin/env python3
"""Prints what several censuses saw as one table: examples/census/table.py NAME=FILE.. where a FILE has rows and recording.

With --same FILE OTHER it prints nothing but the rows in which two files differ. What a row says of time may differ. The status is 1 if
some do.
"""
import pathlib
import re
import sys
from typing import NamedTuple

RULE = re.compile(r'^RULE\(\w+, "([^"]+)", "([^"]+)", (\w+), (\w+)\)', re.M)
ROW = re.compile(r"^# (\S+) (holds|differs|not-seen)(?: (\S+))?", re.M)
END = re.compile(r"^# end (.*)$", re.M)
# Is added to a count of characters that are not those that were sent, as census.h says.
OTHERS = 1000
# Units of values that no two runs have alike.
OF_TIME = ("HERTZ", "PERCENT", "TENTHS")


class Rule(NamedTuple):
    """A line of rules.h."""

    name: str
    text: str
    unit: str
    listed: str


class Row(NamedTuple):
    """What was seen of a rule: `holds`, `differs` or `not-seen`, and a value."""

    seen: str
    value: str


def rules() -> list[Rule]:
    """Returns the rules, in the order of the table."""
    return [Rule(*found) for found in RULE.findall((pathlib.Path(__file__).parent / "rules.h").read_text(encoding="ascii"))]


def rows_of(path: pathlib.Path) -> dict[str, Row]:
    """Returns the rows of a file, by the names of the rules. Raises a ValueError that names the file and what it lacks."""
    # A file that DOS wrote has other ends of lines.
    text = path.read_text(encoding="ascii", errors="replace").replace("\r\n", "\n")
    rows = {name: Row(seen, value) for name, seen, value in ROW.findall(text)}
    lacking = [rule.name for rule in rules() if rule.name not in rows]
    end = END.search(text)
    if lacking:
        raise ValueError(f"{path}: there is no row for {lacking[0]}")
    if not end or end[1] != "done":
        raise ValueError(f"{path}: the census did not end with 'done'")
    return rows


def cell(rule: Rule, row: Row) -> str:
    """Returns what the table says of a row: a value alone where it differs."""
    if row.seen == "not-seen":
        return "-"
    if row.seen == "holds":
        return "yes"
    if rule.unit == "COUNT" and int(row.value) >= OTHERS:
        return f"**{int(row.value) - OTHERS}, others**"
    return f"**{row.value}**"


def table(columns: dict[str, dict[str, Row]], is_of_differences: bool = False) -> str:
    """Returns the table of these columns, and below it how many rules each of them keeps. That of differences leaves out each rule in which
    none differs."""
    lines = ["| rule | " + " | ".join(columns) + " | listed |", "|---" * (len(columns) + 2) + "|"]
    differing = [rule for rule in rules() if any(rows[rule.name].seen == "differs" for rows in columns.values())]
    for rule in differing if is_of_differences else rules():
        cells = " | ".join(cell(rule, rows[rule.name]) for rows in columns.values())
        lines.append(f"| `{rule.name}` | {cells} | {rule.listed.lower().replace('_', ' ')} |")
    for seen, text in (("holds", "hold"), ("differs", "differ"), ("not-seen", "not seen")):
        counts = (sum(row.seen == seen for row in rows.values()) for rows in columns.values())
        lines.append(f"| {text} | " + " | ".join(map(str, counts)) + " | |")
    return "\n".join(lines) + "\n"


def differences(wanted: dict[str, Row], found: dict[str, Row]) -> list[str]:
    """Returns a line for each row that two censuses do not have alike."""
    lines = []
    for rule in rules():
        one, other = wanted[rule.name], found[rule.name]
        if one.seen != other.seen or rule.unit not in OF_TIME and one.value != other.value:
            lines.append(f"{rule.name}: {other.seen} {other.value}, and in the other file {one.seen} {one.value}")
    return lines


def main(words: list[str]) -> int:
    """Does what the words ask for, and returns the status."""
    try:
        if len(words) == 3 and words[0] == "--same":
            lines = differences(rows_of(pathlib.Path(words[1])), rows_of(pathlib.Path(words[2])))
            print("".join(f"{line}\n" for line in lines), end="")
            return len(lines) > 0
        if not words or not all("=" in word for word in words):
            print("usage: table.py NAME=FILE.. | --same FILE OTHER", file=sys.stderr)
            return 2
        pairs = (word.split("=", 1) for word in words)
        print(table({name: rows_of(pathlib.Path(path)) for name, path in pairs}), end="")
        return 0
    except (OSError, ValueError) as error:
        print(f"table.py: {error}", file=sys.stderr)
        return 2


if __name__ == "__main__":
    sys.exit(main(sys.argv[1:]))
