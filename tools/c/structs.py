"""Structs where they are made: as what a variable has first, or member by member. So no function is there only to make one."""
from __future__ import annotations

import dataclasses
from collections.abc import Callable

import passes
import syntax as c
from translate import Unknown

Statements = list[c.Statement]
# The members of a struct in order, each with what it has where nobody gives it a value.
Members = Callable[[c.CallOf], list[tuple[str, c.Expression]]]


def is_maker(one: c.Expression | None) -> bool:
    return isinstance(one, c.CallOf) and one.is_pure and one.fields is not None


def hoisted(statements: Statements, name_of: Callable[[c.CallOf], str]) -> Statements:
    """The same, where a struct that is made within a statement is a variable before it."""
    out = Statements()
    for one in statements:
        for body in c.lists(one):
            body[:] = hoisted(body, name_of)
        before = Statements()
        for name in c.EXPRESSIONS.get(type(one), ()):
            value = getattr(one, name)
            if value is not None:
                is_whole = isinstance(one, c.Set) and name == "value"
                setattr(one, name, without_makers(value, name_of, before, is_whole))
        if before and isinstance(one, (c.While, c.For)):
            raise Unknown("a struct that is made for the condition of a loop")
        out += [*before, one]
    return out


def without_makers(one: c.Expression, name_of: Callable[[c.CallOf], str], before: Statements, is_whole: bool) -> c.Expression:
    """An expression with variables in the place of the structs that are made in it: not of one that it is as a whole, and of what is in that."""
    inner = {name: getattr(one, name) for name in c.CHILDREN.get(type(one), ())}
    of_maker = isinstance(one, c.CallOf) and is_maker(one)
    changed = {
        name: [without_makers(each, name_of, before, of_maker) for each in value]
        if isinstance(value, list)
        else without_makers(value, name_of, before, of_maker)
        for name, value in inner.items()
    }
    if any(changed[name] != value for name, value in inner.items()):
        one = dataclasses.replace(one, **changed)
    if not isinstance(one, c.CallOf) or not of_maker or is_whole:
        return one
    made = c.Variable(one.of, hint=name_of(one))
    before.append(c.Set(c.Var(made), one))
    return c.Var(made)


def placed(statements: Statements, members: Members) -> None:
    """Puts what makers make into the place of their struct: all at once where it is declared, else member by member. To be called once variables
    are declared."""
    for body in passes.every_list(statements):
        out = Statements()
        for one in body:
            if isinstance(one, c.Set) and isinstance(one.value, c.CallOf) and is_maker(one.value):
                out += [dataclasses.replace(one, value=initial(one.value, members))] if one.declares else parts(one.to, one.value, members)
            else:
                out.append(one)
        body[:] = out


def initial(maker: c.CallOf, members: Members) -> c.Initial:
    given = maker.members()
    return c.Initial([fitting(given.get(name, zero), zero.of, members) for name, zero in members(maker)], maker.of, maker)


def fitting(one: c.Expression, of: c.Type, members: Members) -> c.Expression:
    """A value of a struct where it is declared. C++ refuses one that is computed in `int` for a member that is less."""
    if isinstance(one, c.CallOf) and is_maker(one):
        return initial(one, members)
    is_computed = isinstance(one, (c.Binary, c.Unary, c.Choice)) and isinstance(of, c.Number) and of.bits < 32
    return c.Cast(of, one) if is_computed else one


def parts(to: c.Expression, maker: c.CallOf, members: Members) -> Statements:
    """What sets the members of a struct that are given. What nobody gives nobody reads, but as a part of a whole variable it is copied, and so it has
    a number."""
    given, out, is_copied = maker.members(), Statements(), passes.root(to) is not None
    for name, zero in members(maker):
        is_number = isinstance(zero.of, c.Number) or zero.of is c.BOOL
        value, place = given.get(name, zero if is_copied and is_number else None), c.Field(to, name, zero.of)
        if value is not None:
            out += parts(place, value, members) if isinstance(value, c.CallOf) and is_maker(value) else [c.Set(place, value)]
    return out
