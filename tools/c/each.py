"""A file of C that makes each call which is a row of the table of the interface, for tests that make all of them."""
import calls
from interface import of_config, of_rings
from table import Call, Wrong

TOP = """/*
 * Each call over a driver, and each over a configuration alone, with what it takes: those that are no more than a row of the table of the
 * interface. What is in the layer by hand is missing.
 *
 * A test says what each word in capitals stands for, and what is done with a call of the driver, with one of its rings, and with one of a
 * configuration.
 *
 * Made by tools/c/emit. Do not edit.
 */
"""
DRIVER = "struct u16550 *uart"
CALLER = ("uint8_t (*keep_waiting)(void *context)", "void *context")
# What is read from there, though the pointer says no more than that it can be written to.
FILLED = ("buffer",)
WIDTH = 110


def word(declared: str, before: list[str]) -> str:
    """What stands for a parameter: where a value is written to, by its type; else the value, by its name. `before` are the words before it."""
    kind, _, name = declared.rpartition(" ")
    if declared == DRIVER:
        return "DRIVER"
    if declared in CALLER:
        return ("KEEP_WAITING", "CONTEXT")[CALLER.index(declared)]
    name = name.lstrip("*")
    if "*" in declared and not kind.startswith("const ") and name not in FILLED:
        written = {"uint8_t": "BYTE_AT", "uint16_t": "SHORT_AT", "size_t": "SIZE_AT", "uint64_t": "NUMBER_AT"}.get(
            kind
        ) or f"{kind.removeprefix('struct u16550_').upper()}_AT"
        return f"OTHER_{written}" if written in before else written
    return "SPIN_LIMIT" if declared == "uint64_t limit" else name.upper()


def line(call: Call) -> str:
    words = list[str]()
    for declared in call.parameters():
        words.append(word(declared, words))
    if words[0] != ("CONFIG" if of_config(call) else "DRIVER") or len(set(words)) != len(words):
        raise Wrong(f"{call.name}: a test cannot tell its parameters apart: {' '.join(words)}")
    return f"    {'OF_CONFIG' if of_config(call) else 'RING' if of_rings(call) else 'PLAIN'}(u16550_{call.name}, {', '.join(words)})"


def macro(head: str, rows: list[Call]) -> str:
    *lines, last = [f"#define {head}", *map(line, rows)]
    return "".join(f"{one.ljust(WIDTH)} \\\n" for one in lines) + last + "\n"


def text() -> str:
    rows = [one for section in calls.SECTIONS for group in section.groups for one in group.calls if isinstance(one, Call)]
    over_driver, over_config = ([one for one in rows if of_config(one) == wanted] for wanted in (False, True))
    return TOP + macro("EACH_CALL(PLAIN, RING)", over_driver) + "\n" + macro("EACH_OF_CONFIG(OF_CONFIG)", over_config)
