"""The functions of the header, as a layer around what is translated: it refuses what Rust's types and the guards of the eraser refuse, and
gives each error its number. All of it is made of the table, calls.py; what is in no row is in layer_bottom.c."""
from __future__ import annotations

import re
from collections.abc import Mapping, Sequence
from typing import TypeAlias

import calls
import syntax as c
from names import snake
from representation import INT, Representation, Told
from results import Form
from table import ByHand, Call, Enum, Value, Wrong

PLACES = {"DRIVER": "&uart->ring.uart", "RING": "&uart->ring"}
# How the alignment of what a pointer leads to is called in layer_bottom.c. A byte, and a struct of bytes, may be anywhere.
ALIGNMENTS = {
    "size_t": "size",
    "uint64_t": "u64",
    "struct u16550_config": "config",
    "struct u16550_state": "state",
    "struct u16550_handled": "handled",
}


# What has numbers: the variants of an error; of one that has an error in it, those of that.
Branches: TypeAlias = "dict[str, str | dict[str, str]]"


def number(name: str) -> str:
    return f"U16550_{name}"


# Numbers of data, and errors as numbers.


def told() -> tuple[dict[str, Told], dict[str, str]]:
    """The enums of the proved code that a program knows, with their numbers; and the numbers of errors of one kind."""
    found, failures = dict[str, Branches](), dict[str, str]()
    for one in (one for group in calls.NUMBERS for one in group.members):
        for path in one.of:
            root, *rest = path.split(".")
            if rest:
                put(found.setdefault(root, {}), rest, number(one.name))
            else:
                failures[root] = number(one.name)
    errors = {name: Told(INT, branches, name in calls.KEPT, calls.DETAILS.get(name)) for name, branches in found.items()}
    shared = {row.of: Told(c.Code(f"enum u16550_{row.enum}"), {one: number(name) for one, name in row.numbers.items()}) for row in calls.SHARED}
    return errors | shared, failures


def put(branches: Branches, steps: list[str], value: str) -> None:
    """Puts a number where some steps lead to."""
    step, *rest = steps
    if not rest:
        branches[step] = value
        return
    inside = branches.setdefault(step, {})
    if isinstance(inside, str):
        raise Wrong(f"calls.py: {step} is an error, and has one in it")
    inside[rest[0]] = value


def complete(types: Representation) -> None:
    """Refuses a table in which a variant of the proved code has no number, or a number is that of no variant."""
    for name, told_of in types.told.items():
        variants = next((variants for (_, its), variants in types.source.variants.items() if its == name), None)
        if variants is None or {one for one, _ in variants} != set(told_of.numbers):
            raise Wrong(
                f"calls.py: {name} has the numbers of {sorted(told_of.numbers)}, and its variants are {sorted(one for one, _ in variants or ())}"
            )


def switch(on: str, cases: Sequence[tuple[str, list[str]]], otherwise: str | None) -> list[str]:
    """A switch that returns a value for each case. The last case is that of all other numbers, if `otherwise` is none."""
    lines = [f"    switch ({on}) {{"]
    for at, (label, does) in enumerate(cases):
        lines += (
            [f"    case {label}:"] + (["    default:"] if otherwise is None and at == len(cases) - 1 else []) + [f"        {one}" for one in does]
        )
    if otherwise is not None:
        lines += ["    default:", f"        {otherwise}"]
    return [*lines, "    }"]


def codes(types: Representation) -> str:
    """The functions that read and write numbers of data, and those that refuse what is none."""
    out = []
    for row in calls.CODES:
        of = next(of for of in types.kinds if isinstance(of, tuple) and of[0] == "Named" and of[1].endswith(f"::{row.of}"))
        name, members = snake(row.of), [types.constant(of, tag) for tag, _ in enumerate(types.variants(of))]
        if {one for one, _, _ in types.variants(of)} != set(row.numbers):
            raise Wrong(f"calls.py: {row.of} has the numbers of {sorted(row.numbers)}")
        numbers = [str(row.numbers[one]) for one, _, _ in types.variants(of)]
        cases = [(one, [f"*to = {member};", "return U16550_OK;"]) for one, member in zip(numbers, members)]
        out.append(
            "\n".join(
                [f"static int uart_decode_{name}({row.kind} from, uint8_t *to)", "{", *switch("from", cases, "return U16550_BAD_CODE;"), "}", ""]
            )
        )
        cases = [(member, [f"return {one};"]) for one, member in zip(numbers, members)]
        out.append("\n".join([f"static {row.kind} uart_encode_{name}(uint8_t from)", "{", *switch("from", cases, None), "}", ""]))
    for shared in (row for row in calls.SHARED if row.is_given):
        values = {member.name: member.value for one in calls.TYPES if isinstance(one, Enum) and one.name == shared.enum for member in one.members}
        if sorted(values.values()) != list(range(len(values))) or set(values) != set(shared.numbers.values()):
            raise Wrong(f"calls.py: the numbers of {shared.enum} are not those from 0 on")
        last = number(max(values, key=lambda one: values[one]))
        out.append(
            f"static int uart_check_{shared.enum}(uint8_t {shared.enum})\n{{\n    if ({shared.enum} > {last})\n        return U16550_BAD_CODE;\n"
            "    return U16550_OK;\n}\n"
        )
    return "\n".join(out)


def texts() -> str:
    """The function that has the texts of the numbers."""
    members = [one for group in calls.NUMBERS for one in group.members]
    cases = [(number(one.name), [f'return "{one.text}";']) for one in members]
    return "\n".join(["const char *u16550_text(int status)", "{", *switch("status", cases, 'return "no known status";'), "}", ""])


# The functions.

Forms: TypeAlias = Mapping[str, Form]


def layer(forms: Forms) -> str:
    """The text of all functions that are rows of the table. `forms` says of the proved functions how they return what they do."""
    return "\n".join(function(one, forms) for section in calls.SECTIONS for group in section.groups for one in group.calls if isinstance(one, Call))


def rows() -> str:
    """What the rows call of the proved code."""
    names = {f"uart_config_{one.name}" if of_config(one) else f"uart_{one.name}" for one in all_calls()}
    return " ".join(f"{name}()" for name in sorted(names)) + " ".join(one.does for one in all_calls())


def all_calls() -> list[Call]:
    return [one for section in calls.SECTIONS for group in section.groups for one in group.calls if isinstance(one, Call)]


def type_of(call: Call | ByHand, name: str) -> str:
    """The type of what a parameter points to."""
    found = next(one for one in call.parameters() if one.endswith(f"*{name}"))
    return found.removeprefix("const ").removesuffix(f"*{name}").strip()


def usable(call: Call, name: str) -> str:
    """The test of a pointer to what is written."""
    alignment = ALIGNMENTS.get(type_of(call, name))
    if name == call.stalls:
        return f"UART_ALIGNED({name}, {alignment})"
    return f"UART_USABLE({name}, {alignment})"


def values(call: Call) -> tuple[list[Value], list[str]]:
    """What of the table of values a function takes: those that count, in the order of their tests, and what the proved function gets."""
    taken, passed = [], []
    of_driver = 0 if of_config(call) else 1
    for order, parameter in enumerate(call.parameters()[of_driver:], of_driver):
        both = ", ".join(call.parameters()[order : order + 2])
        rule = next((one for one in calls.VALUES if one.parameter in (parameter, both) or parameter == one.parameter), None)
        name = re.sub(r".*[ *]", "", parameter)
        if rule and not (rule.parameter == "uint64_t limit" and call.name != "set_spin_limit"):
            taken.append(rule)
            passed.append(rule.passed)
        elif "*" not in parameter and not (passed and passed[-1].endswith(f", {name}")):
            passed.append(name)
    return sorted(taken, key=calls.VALUES.index), passed


def proved_name(call: Call) -> str:
    """The name of the proved function of a call."""
    return f"uart_config_{call.name}" if of_config(call) else f"uart_{call.name}"


def outs_of(call: Call, forms: Forms) -> list[tuple[str, str]]:
    """The types and names of the variables that the proved function writes through pointers."""
    form = forms.get(proved_name(call))
    return [
        (one.of.text(), f"found_{one.name}" if one.name in call.takes.replace("*", " ").split() else one.name) for one in (form.outs if form else ())
    ]


def locals_of(call: Call, taken: list[Value], forms: Forms) -> list[str]:
    """The variables of a function, before that of its status."""
    out = [one.local for one in taken if one.local]
    # An old gcc does not see that what is read was written.
    begins = {"struct uart_maybe_u64": " = { false, 0 }", "uint64_t": " = 0"} if of_config(call) else {}
    outs = [f"{of} {name}{begins.get(of, '')}" for of, name in outs_of(call, forms)]
    if call.encode == "urgent":
        return [*out, "struct u16550_urgent found = { 0, 0 }"]
    if outs:
        return [*out, *outs]
    if call.pair:
        return [*out, f"{call.pair} found"]
    if call.gives:
        return [*out, f"{type_of(call, call.gives)} found"]
    return out


def body(call: Call, passed: list[str], forms: Forms) -> tuple[list[str], str | None, list[tuple[str, str]]]:
    """What is done once nothing is refused; what is returned; what is written where."""
    outs = [name for _, name in outs_of(call, forms)]
    arguments = [PLACES["RING" if of_rings(call) else "DRIVER"], *([call.arguments] if call.arguments else passed)]
    if call.encode == "urgent":
        made = f"{proved_name(call)}({', '.join([*arguments, '&found.byte'])})"
        return [f"found.waits = {made};", "if (!found.waits)", "    found.byte = 0;"], None, [(call.gives, "found")]
    made = f"{proved_name(call)}({', '.join([*arguments, *(f'&{one}' for one in outs)])})"
    if call.does:
        does = call.does
        for name, place in PLACES.items():
            does = does.replace(name, place)
        return [f"{does};"], "status" if does.startswith("status = ") else None, [(call.gives, "found")] if call.gives else []
    if call.pair:
        place = outs[0] if outs else "found"
        return [f"{'status' if outs else place} = {made};"], "status" if outs else None, [("dll", f"{place}.dll"), ("dlm", f"{place}.dlm")]
    if call.stalls:
        return [f"status = {made};"], "status", [(call.stalls, f"status == U16550_OK ? len : {outs[0]}")]
    if call.none and not call.error:
        return [f"if (!{made})", f"    status = {number(call.none)};"], "status", [(call.gives, outs[0])]
    form = forms.get(proved_name(call))
    if call.error or outs or form and form.status is INT:
        value = f"uart_encode_{call.encode}({outs[0]})" if call.encode else outs[0] if outs else ""
        return [f"status = {made};"], "status", [(call.gives, value)] if call.gives else []
    if call.gives:
        return [f"found = uart_encode_{call.encode}({made});" if call.encode else f"found = {made};"], None, [(call.gives, "found")]
    if call.false:
        return [f"if (!{made})", f"    status = {number(call.false)};"], "status", []
    return [f"{made};"], None, []


def of_rings(call: Call) -> bool:
    return call.name.startswith("ring_")


def of_config(call: Call) -> bool:
    """Whether a call is over a configuration alone, and over no driver."""
    return call.parameters()[0] == "const struct u16550_config *config"


def in_turn(tests: Sequence[str | tuple[str, str]]) -> list[str]:
    """The lines that set the status, which is that of no error, by each test that follows on none that failed."""
    out = list[str]()
    for order, one in enumerate(tests):
        condition, status = one if isinstance(one, tuple) else ("", one)
        asked = " && ".join([*(["status == U16550_OK"] if order else []), *([condition] if condition else [])])
        out += [f"    if ({asked})", f"        status = {status};"] if asked else [f"    status = {status};"]
    return out


def entered(call: Call, written: list[tuple[str, str]]) -> list[str]:
    """The tests of the pointers that are written to, and the entry."""
    enter = "uart_enter_rings(uart)" if of_rings(call) else "uart_enter(uart)"
    names = [name for name, _ in written]
    if len(names) == 2:
        first = f"{names[0]} == NULL || {names[1]} == NULL ? U16550_NULL_POINTER : {enter}"
        lines = [f"    int status = {first};"]
    elif names and not ALIGNMENTS.get(type_of(call, names[0])):
        lines = [f"    int status = {names[0]} == NULL ? U16550_NULL_POINTER : {enter};"]
    elif names:
        lines = [f"    int status = {usable(call, names[0])};", "    if (status == U16550_OK)", f"        status = {enter};"]
    else:
        lines = [f"    int status = {enter};"]
    return [*lines, "    if (status != U16550_OK)", "        return status;"]


def function(call: Call, forms: Forms) -> str:
    taken, passed = values(call)
    if of_config(call):
        return written_out(call, lines_of_config(call, taken, passed, forms))
    does, returned, written = body(call, passed, forms)
    lines = [f"    {one};" for one in locals_of(call, taken, forms)] + entered(call, written)
    if taken:
        lines += [*in_turn([rule.test for rule in taken]), "    if (status != U16550_OK)", "        return uart_leave(uart, status);"]
    return written_out(call, lines + [f"    {one}" for one in does] + ended(call, returned, written))


def written_out(call: Call, lines: list[str]) -> str:
    return "\n".join([*c.wrapped(f"int u16550_{call.name}({call.takes})"), "{", *lines, "}", ""])


def lines_of_config(call: Call, taken: list[Value], passed: list[str], forms: Forms) -> list[str]:
    """What a function over a configuration does. There is nothing to enter and to leave."""
    ((_, value),) = outs_of(call, forms)
    made = f"uart_config_{call.name}(&{', '.join([*passed, f'&{value}'])})"
    tests: list[str | tuple[str, str]] = [made if call.error else (f"!{made}", number(call.none))]
    if call.error and call.none:
        tests, value = [*tests, (f"!{value}.is_some", number(call.none))], f"{value}.value"
    first, *others = in_turn([usable(call, call.gives), *(rule.test for rule in taken)])
    lines = [f"    {one};" for one in locals_of(call, taken, forms)] + [f"    int {first.lstrip()}", *others]
    lines += ["    if (status != U16550_OK)", "        return status;", *in_turn(tests)]
    return [*lines, "    if (status == U16550_OK)", f"        *{call.gives} = {value};", "    return status;"]


def ended(call: Call, returned: str | None, written: list[tuple[str, str]]) -> list[str]:
    """The end of a function: what it writes, and what it returns."""
    if not written:
        return [f"    return uart_leave(uart, {returned or 'U16550_OK'});"]
    if call.stalls:
        ((to, value),) = written
        return [f"    status = uart_leave(uart, {returned});", f"    if ({to} != NULL)", f"        *{to} = {value};", "    return status;"]
    if returned is None and len(written) == 1:
        ((to, value),) = written
        return ["    uart_leave(uart, U16550_OK);", f"    *{to} = {value};", "    return U16550_OK;"]
    sets = [f"        *{to} = {value};" for to, value in written]
    brace, end = (" {", ["    }"]) if len(sets) > 1 else ("", [])
    return [f"    status = uart_leave(uart, {returned or 'U16550_OK'});", f"    if (status == U16550_OK){brace}", *sets, *end, "    return status;"]
