"""Structs that are large, or that have an array, are made where they are returned. Each argument of a function that makes a struct is a copy,
which a compiler keeps on the stack beside the others: rings in a result would be there four times."""
import re
from collections.abc import Callable

import passes
import syntax as c


def large(declarations: list[tuple[str, str]], holds: set[str]) -> set[str]:
    """The names of the structs that have one of these in them, at any depth."""
    found = set(holds)
    for _ in declarations:
        more = {name for name, text in declarations if found & set(re.findall(r"\bstruct (\w+) \w+;", text))}
        if more <= found:
            return found
        found |= more
    return found


def set_parts(place: c.Expression, maker: c.CallOf) -> list[c.Statement]:
    """What sets the parts of a struct that a maker makes. Parts that nobody reads then are not set."""
    out = list[c.Statement]()
    for name, value in maker.members().items():
        part = c.Field(place, name, value.of)
        out += set_parts(part, value) if isinstance(value, c.CallOf) and value.fields else [c.Set(part, value)]
    return out


def run(statements: list[c.Statement], is_large: Callable[[c.Type], bool]) -> list[c.Statement]:
    """The statements of a function all of whose returns make such a struct; others as they are."""
    values = [one.value for one in c.all_statements(statements) if isinstance(one, c.Return)]
    makers = [one for one in values if isinstance(one, c.CallOf) and one.fields and is_large(one.of)]
    if not makers or len(makers) < len(values):
        return statements
    # It is called as its struct is.
    made = c.Variable(makers[0].of, hint=re.sub(r"^struct (uart_|u16550_core_)?", "", makers[0].of.text()))
    replaced = dict[c.Variable, c.Expression]()
    for maker in makers:
        for name, value in maker.members().items():
            if isinstance(value, c.Var) and not value.variable.is_parameter and is_large(value.of):
                replaced[value.variable] = c.Field(c.Var(made), name, value.of)
    statements = expanded(statements, made)
    passes.on_expressions(statements, lambda one: replaced.get(one.variable, one) if isinstance(one, c.Var) else one)
    return without_itself(statements)


def expanded(statements: list[c.Statement], made: c.Variable) -> list[c.Statement]:
    out = list[c.Statement]()
    for one in statements:
        if isinstance(one, c.Return) and isinstance(one.value, c.CallOf):
            out += [*set_parts(c.Var(made), one.value), c.Return(c.Var(made))]
            continue
        for body in c.lists(one):
            body[:] = expanded(body, made)
        out.append(one)
    return out


def are_same(one: c.Expression, other: c.Expression) -> bool:
    """Whether two expressions are one part of one variable."""
    if isinstance(one, c.Field) and isinstance(other, c.Field):
        return one.name == other.name and are_same(one.base, other.base)
    return isinstance(one, c.Var) and passes.is_of(other, one.variable)


def without_itself(statements: list[c.Statement]) -> list[c.Statement]:
    """Without the assignments of a place to itself."""
    out = list[c.Statement]()
    for one in statements:
        if isinstance(one, c.Set) and are_same(one.to, one.value):
            continue
        for body in c.lists(one):
            body[:] = without_itself(body)
        out.append(one)
    return out
