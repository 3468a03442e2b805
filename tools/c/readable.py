"""Shapes that a maintainer of C would write. Each step leaves what a function does, and is done behind those of passes.py."""
from __future__ import annotations

import dataclasses
from collections.abc import Callable, Iterator, Mapping

import passes
import syntax as c

Statements = list[c.Statement]
# The names of the members of a struct of C, in order, or none if it is not known.
MembersOf = Callable[[c.Type], list[str]]
# How the functions are called that return a register with another field.
STEPS = ("uart_lcr_with_", "uart_fcr_with_", "uart_mcr_with_")
# Of these members on a struct is copied as a whole, with what differs behind that.
MANY = 4


def same(one: object, other: object) -> bool:
    """Whether two expressions are the same, or two lists of statements."""
    if isinstance(one, (list, tuple)) and isinstance(other, (list, tuple)):
        return len(one) == len(other) and all(map(same, one, other))
    if isinstance(one, c.Variable):
        return one is other
    if isinstance(one, (c.Number, c.Named, c.Pointer)):
        return isinstance(other, (c.Number, c.Named, c.Pointer)) and one.text() == other.text()
    if dataclasses.is_dataclass(one) and type(one) is type(other):
        return all(same(getattr(one, field.name), getattr(other, field.name)) for field in dataclasses.fields(one))
    return one == other


def on_lists(statements: Statements, change: Callable[[Statements], Statements]) -> Statements:
    """The statements as `change` makes each list of them, from the inside out."""
    for one in statements:
        for body in c.lists(one):
            body[:] = on_lists(body, change)
    return change(statements)


# Variables that only tell which branch was taken.


def with_joined_tests(statements: Statements) -> Statements:
    """One test in the place of two, where both have the same behind `else`."""

    def change(body: Statements) -> Statements:
        return [joined_test(one) if isinstance(one, c.If) else one for one in body]

    return on_lists(statements, change)


def joined_test(one: c.If) -> c.If:
    inner = one.yes[0] if len(one.yes) == 1 else None
    if isinstance(inner, c.If) and one.no and same(inner.no, one.no):
        return c.If(c.Binary("&&", one.condition, inner.condition, c.BOOL), inner.yes, inner.no)
    return one


def without_flags(statements: Statements) -> Statements:
    """What a variable chooses that each branch of the choice before it sets, in these branches."""

    def change(body: Statements) -> Statements:
        for order, (first, second) in enumerate(zip(body, body[1:])):
            if not isinstance(first, c.If) or not isinstance(second, c.If):
                continue
            is_opposite = isinstance(second.condition, c.Unary) and second.condition.operator == "!"
            flag = second.condition.operand if isinstance(second.condition, c.Unary) and is_opposite else second.condition
            if not isinstance(flag, c.Var) or flag.variable.is_parameter:
                continue
            ends = [*ends_with(first, flag.variable)]
            if None in ends or passes.mentioned(statements, flag.variable) != len(ends) + 1:
                continue
            yes, no = (second.no, second.yes) if is_opposite else (second.yes, second.no)
            if all(ends.count(which) <= 1 or is_little(does) for which, does in ((True, yes), (False, no))):
                return change([*body[:order], ended(first, flag.variable, yes, no), *body[order + 2 :]])
        return body

    return on_lists(statements, change)


def ends_with(one: c.If, flag: c.Variable) -> Iterator[bool | None]:
    """What each branch sets a variable to at its end, or None where one does not."""
    for body in (one.yes, one.no):
        last = body[-1] if body else None
        if isinstance(last, c.Set) and passes.assigns(last, flag) and isinstance(last.value, c.Word):
            yield last.value.name == "true"
        elif isinstance(last, c.If) and not passes.mentions(body[:-1], flag):
            yield from ends_with(last, flag)
        elif not c.leaves(body) or passes.mentions(body, flag):
            yield None


def without_result_flags(statements: Statements) -> Statements:
    """A return in the place of a variable that is false unless two tests hold, of which the second has statements in front of it."""
    if len(statements) < 3:
        return statements
    first, test, last = statements[-3:]
    if not isinstance(first, c.Set) or not isinstance(first.to, c.Var) or not isinstance(test, c.If) or not isinstance(last, c.Return):
        return statements
    flag = first.to.variable
    inner = test.yes[-1] if test.yes else None
    is_so = passes.is_of(test.condition, flag) and last.value is not None and passes.is_of(last.value, flag)
    if not is_so or test.no or not isinstance(inner, c.Set) or not passes.assigns(inner, flag) or passes.mentioned(statements, flag) != 4:
        return statements
    no = c.Return(c.Word("false", c.BOOL))
    return [*statements[:-3], c.If(opposite(first.value), [no], []), *test.yes[:-1], c.Return(inner.value)]


def last_lists(one: c.If) -> list[Statements]:
    """The lists of statements that a choice may end with, one of each branch; none, if it may do nothing."""
    out = list[Statements]()
    for body in (one.yes, one.no):
        last = body[-1] if body else None
        inner = last_lists(last) if isinstance(last, c.If) else [body] if body else []
        if not inner:
            return []
        out += inner
    return out


def made_option(body: Statements, option: c.Variable) -> c.CallOf | None:
    """What makes an option that the last of some statements sets."""
    last = body[-1]
    value = last.value if isinstance(last, c.Set) and passes.is_of(last.to, option) else None
    return value if isinstance(value, c.CallOf) and isinstance(value.members().get("is_some"), c.Word) else None


def without_tested_options(statements: Statements) -> Statements:
    """A number in the place of an option that each branch sets, and that the test behind them asks for: a branch without one leaves as the test
    does."""

    def change(body: Statements) -> Statements:
        for order, (choice, test) in enumerate(zip(body, body[1:])):
            flag = c.negated(test.condition) if isinstance(test, c.If) and not test.no and c.leaves(test.yes) else None
            if not isinstance(choice, c.If) or not isinstance(test, c.If) or not isinstance(flag, c.Field) or not isinstance(flag.base, c.Var):
                continue
            option, ends = flag.base.variable, last_lists(choice)
            made = [made_option(end, option) for end in ends]
            parts = c.all_parts(statements)
            uses = sum(isinstance(one, c.Field) and one.name == "value" and passes.is_of(one.base, option) for one in parts)
            if flag.name != "is_some" or not all(made) or passes.mentioned(statements, option) != len(ends) + 1 + uses:
                continue
            number = c.Variable(next(one.members()["value"].of for one in made if one), hint="found")
            for end, one in zip(ends, made):
                value = one.members() if one else {}
                end[-1:] = [c.Set(c.Var(number), value["value"])] if c.text(value["is_some"]) == "true" else test.yes
            passes.on_expressions(
                statements, lambda one: c.Var(number) if isinstance(one, c.Field) and passes.is_of(one.base, option) and one.name == "value" else one
            )
            return [*body[: order + 1], *body[order + 2 :]]
        return body

    return on_lists(statements, change)


def opposite(one: c.Expression) -> c.Expression:
    """The opposite of a condition, that of each part if it has some."""
    if isinstance(one, c.Binary) and one.operator in c.LOGICAL:
        return c.Binary("||" if one.operator == "&&" else "&&", opposite(one.left), opposite(one.right), c.BOOL)
    return passes.simpler(c.negated(one))


def bits_of_results(statements: Statements) -> int | None:
    """The bits that are in some result of a function, if it returns nothing but constants."""
    bits = 0
    for one in c.all_statements(statements):
        if isinstance(one, c.Return):
            if not isinstance(one.value, c.Literal):
                return None
            bits |= one.value.value
    return bits


def without_idle_masks(statements: Statements, bits_of: Mapping[str, int]) -> None:
    """Without masks that clear no bit of what a function returned: `bits_of` has the bits that are in some result of it."""
    facts = passes.Facts(statements)
    known = dict[c.Variable, int]()

    def bits(one: c.Expression) -> int | None:
        if isinstance(one, c.Literal):
            return one.value
        if isinstance(one, c.Binary) and one.operator == "|":
            left, right = bits(one.left), bits(one.right)
            return None if left is None or right is None else left | right
        return known.get(one.variable) if isinstance(one, c.Var) else bits_of.get(one.name) if isinstance(one, c.CallOf) else None

    for one in c.all_statements(statements):
        if isinstance(one, c.Set) and isinstance(one.to, c.Var) and facts.definitions.get(one.to.variable) == 1:
            if (found := bits(one.value)) is not None:
                known[one.to.variable] = found

    def change(one: c.Expression) -> c.Expression:
        if isinstance(one, c.Binary) and one.operator == "&" and isinstance(one.right, c.Literal):
            left = bits(one.left)
            return one.left if left is not None and left & one.right.value == left else one
        return one

    passes.on_expressions(statements, change)


def is_little(body: Statements) -> bool:
    """Whether statements may as well stand twice."""
    return not body or len(body) == 1 and isinstance(body[0], (c.Set, c.Return, c.Break, c.Continue))


def ended(one: c.If, flag: c.Variable, yes: Statements, no: Statements) -> c.If:
    bodies = list[Statements]()
    for body in (one.yes, one.no):
        last = body[-1] if body else None
        if isinstance(last, c.Set) and passes.assigns(last, flag) and isinstance(last.value, c.Word):
            bodies.append([*body[:-1], *copied(yes if last.value.name == "true" else no)])
        elif isinstance(last, c.If):
            bodies.append([*body[:-1], ended(last, flag, yes, no)])
        else:
            bodies.append(body)
    return c.If(one.condition, *bodies)


def copied(body: Statements) -> Statements:
    """The same statements once more: steps change them in place."""
    return [dataclasses.replace(one) for one in body] if is_little(body) else body


# Variables that are one.


def with_one_variable(statements: Statements) -> Statements:
    """One variable in the place of a copy, if what it was copied from is read no more."""

    def change(body: Statements) -> Statements:
        for order, one in enumerate(body):
            found = copy_of(statements, body, order)
            if found:
                to, origin = found
                kept, gone = (origin, to) if origin.is_parameter or origin.is_named and not to.is_named else (to, origin)
                del body[order]
                replace(statements, gone, kept)
                return change(body)
        return body

    return on_lists(statements, change)


def with_one_register(statements: Statements) -> Statements:
    """One variable for what a register is to have, in the place of another one for each step of it."""

    def change(body: Statements) -> Statements:
        for order, one in enumerate(body):
            call = one.value if isinstance(one, c.Set) and isinstance(one.to, c.Var) else None
            if not isinstance(one, c.Set) or not isinstance(one.to, c.Var) or not isinstance(call, c.CallOf) or not call.arguments:
                continue
            to, first = one.to.variable, call.arguments[0]
            is_step = call.name.startswith(STEPS) and isinstance(first, c.Var) and not first.variable.is_parameter and first.variable is not to
            if not is_step or not isinstance(first, c.Var) or to.is_parameter or to.of.text() != first.of.text():
                continue
            kept = first.variable
            if passes.mentioned(statements, kept) != 2 or passes.mentioned(body[: order + 1], kept) != 2 or passes.mentions(body[:order], to):
                continue
            replace(statements, to, kept)
            return change(body)
        return body

    return on_lists(statements, change)


def without_copies(statements: Statements) -> Statements:
    """What a parameter leads to, in the place of a variable that is made for it and copied there at last."""

    def change(body: Statements) -> Statements:
        for order, one in enumerate(body):
            if not isinstance(one, c.Set) or not isinstance(one.to, c.Deref) or not isinstance(one.value, c.Var):
                continue
            pointer, made = one.to.pointer, one.value.variable
            if not isinstance(pointer, c.Var) or not pointer.variable.is_parameter or made.is_parameter or not made.of.text().startswith("struct "):
                continue
            before = body[:order]
            first = next((at for at, each in enumerate(before) if passes.mentions([each], made)), order)
            between, place = before[first:], one.to
            if passes.mentioned(between, made) + 1 != passes.mentioned(statements, made) or passes.mentions(between, pointer.variable):
                continue
            if any(isinstance(each, (c.Return, c.Break, c.Continue)) for each in c.all_statements(between)):
                continue
            if any(isinstance(part, c.CallOf) and not part.is_pure for part in c.all_parts(between)):
                continue
            del body[order]
            passes.on_expressions(statements, lambda part: place if passes.is_of(part, made) else part)
            return change(body)
        return body

    return on_lists(statements, change)


def copy_of(statements: Statements, body: Statements, order: int) -> tuple[c.Variable, c.Variable] | None:
    """The variable that is set here, and the one that it is a copy of, if they may be one."""
    one = body[order]
    if not isinstance(one, c.Set) or not isinstance(one.to, c.Var) or not isinstance(one.value, c.Var):
        return None
    to, origin = one.to.variable, one.value.variable
    if to.is_parameter or to is origin or to.of.text() != origin.of.text():
        return None
    before, behind = body[:order], body[order + 1 :]
    if origin.is_parameter:
        # A struct that is given as a whole is the function's own.
        is_last = passes.mentioned(before, origin) + 1 == passes.mentioned(statements, origin) and body is statements
        return (to, origin) if is_last and not passes.mentions(before, to) and to.of.text().startswith("struct ") else None
    # All that is done with the origin is before this, in the same list.
    if passes.mentioned(before, origin) + 1 != passes.mentioned(statements, origin) or passes.mentions(behind, origin):
        return None
    first = next((at for at, each in enumerate(before) if passes.mentions([each], origin)), order)
    between = before[first:]
    jumps = any(isinstance(each, (c.Break, c.Continue, c.Exit)) for each in c.all_statements(between))
    return None if jumps or passes.mentions(between, to) else (to, origin)


# Structs.


def is_cell(one: c.Expression, variable: c.Variable) -> bool:
    """Whether this is the start of the cells of an array that is a variable."""
    return passes.is_start_of_array(one) and isinstance(one, c.Field) and passes.is_of(one.base, variable)


def without_single_cells(statements: Statements) -> Statements:
    """A variable in the place of an array of one cell, or what the cell has, if it is only read."""
    arrays = {part.variable for part in c.all_parts(statements) if isinstance(part, c.Var) and part.variable.of.text() == "struct uart_bytes1"}
    for array in arrays:
        all_sets = [one for one in c.all_statements(statements) if isinstance(one, c.Set)]
        sets = [one for one in all_sets if isinstance(one.to, c.Index) and is_cell(one.to.pointer, array)]
        count = sum(is_cell(part, array) for part in c.all_parts(statements))
        if array.is_parameter or len(sets) != 1 or count != passes.mentioned(statements, array):
            continue
        byte = c.Variable(c.BYTE, hint="byte")
        value = sets[0].value
        is_given = isinstance(value, c.Var) and is_only_lent(statements, array) and passes.Facts(statements).is_fixed(value.variable)
        place: c.Expression = value if is_given else c.Var(byte)
        cell = c.AddressOf(place, c.Pointer(c.BYTE))
        if is_given:
            for body in passes.every_list(statements):
                body[:] = [one for one in body if one is not sets[0]]
        else:
            sets[0].to = place
        passes.on_expressions(statements, lambda part: cell if is_cell(part, array) else part)
    return statements


def is_only_lent(statements: Statements, array: c.Variable) -> bool:
    """Whether the cells of an array are given to functions alone, which only read them."""
    for part in c.all_parts(statements):
        if isinstance(part, c.CallOf):
            for argument, of in zip(part.arguments, part.expects):
                if is_cell(argument, array) and not (isinstance(of, c.Pointer) and of.is_const):
                    return False
            if not part.expects and any(is_cell(argument, array) for argument in part.arguments):
                return False
    return True


def with_whole_structs(statements: Statements, members_of: MembersOf) -> Statements:
    """A struct that is assigned as a whole, in the place of its members one by one."""

    def change(body: Statements) -> Statements:
        order = 0
        while order < len(body):
            made = whole_at(body, order, members_of)
            if made:
                count, statement = made
                body[order : order + count] = statement
            order += 1
        return body

    return on_lists(statements, change)


def whole_at(body: Statements, order: int, members_of: MembersOf) -> tuple[int, Statements] | None:
    """How many statements from here on set each member of a struct in turn, mostly to those of another one; and what says the same."""
    first = body[order]
    if not isinstance(first, c.Set) or not isinstance(first.to, c.Field):
        return None
    to = first.to.base
    members = members_of(to.of)
    sets = [one for one in body[order : order + len(members)] if isinstance(one, c.Set)]
    if len(members) < 2 or len(sets) != len(members):
        return None
    sources, others = list[c.Expression](), Statements()
    for one, name in zip(sets, members):
        if not isinstance(one.to, c.Field) or one.to.name != name or not same(one.to.base, to):
            return None
        value = one.value
        if isinstance(value, c.Field) and value.name == name and value.base.of.text() == to.of.text():
            sources.append(value.base)
        else:
            others.append(one)
    if not sources or not all(same(sources[0], one) for one in sources) or others and len(sources) < MANY:
        return None
    target = passes.root(to)
    is_free = target is not None and not any(passes.uses(c.Do(one.value), target) for one in sets)
    if not is_free and (others or not isinstance(to, c.Deref)):
        return None
    return len(members), [c.Set(to, sources[0]), *others]


def whole(one: c.Expression, members_of: MembersOf) -> c.Expression:
    """A struct itself, in the place of one that is made of its members."""
    if not isinstance(one, c.CallOf) or not one.is_pure or not one.fields:
        return one
    members, names = one.members(), members_of(one.of)
    bases = [value.base for name, value in members.items() if isinstance(value, c.Field) and value.name == name]
    is_whole = len(bases) == len(names) == len(members) > 1 and all(base.of.text() == one.of.text() and same(base, bases[0]) for base in bases)
    return bases[0] if is_whole else one


def without_overwritten(statements: Statements) -> Statements:
    """Without constants in members of a struct that get another value before somebody reads them."""

    def change(body: Statements) -> Statements:
        return [one for order, one in enumerate(body) if not is_overwritten(one, body[order + 1 :])]

    return on_lists(statements, change)


def is_overwritten(one: c.Statement, behind: Statements) -> bool:
    if not isinstance(one, c.Set) or not isinstance(one.to, c.Field) or not isinstance(one.value, (c.Literal, c.Word)):
        return False
    variable = passes.root(one.to)
    if variable is None or variable.is_parameter or not isinstance(one.to.base, c.Var):
        return False
    for each in behind:
        if not isinstance(each, (c.Set, c.Do)) or isinstance(each, c.Do) and passes.uses(each, variable):
            return False
        if isinstance(each, c.Set):
            if passes.uses(c.Do(each.value), variable):
                return False
            if same(each.to, one.to):
                return True
            if passes.root(each.to) is variable and not isinstance(each.to, c.Field):
                return False
            if passes.root(each.to) is None and passes.uses(each, variable):
                return False
    return False


def with_constant_arrays(
    statements: Statements, array_of: Callable[[tuple[int, ...]], c.Expression | None], copy: Callable[..., c.Expression]
) -> Statements:
    """A copy of a constant array, in the place of its bytes one by one. What is then given on at once is copied where it is given to."""

    def change(body: Statements) -> Statements:
        for order, one in enumerate(body):
            if not (isinstance(one, c.Set) and isinstance(one.to, c.Index) and isinstance(one.to.pointer, c.Field)):
                continue
            array = one.to.pointer.base
            if not isinstance(array, c.Var) or not is_cell(one.to.pointer, array.variable):
                continue
            values = [*bytes_of(body[order:], array.variable)]
            constant = array_of(tuple(values)) if len(values) > MANY else None
            if constant is None:
                continue
            behind = body[order + len(values) :]
            target, last = one.to.pointer, behind[0] if behind else None
            count = passes.mentioned(statements, array.variable)
            if isinstance(last, c.Set) and passes.is_of(last.value, array.variable) and count == len(values) + 1:
                target, behind = c.Field(last.to, "bytes", one.to.pointer.of), behind[1:]
            made = copy(target, constant, c.Literal(len(values), c.Number(64, c.SIZE)))
            return change([*body[:order], c.Do(made), *behind])
        return body

    return on_lists(statements, change)


def bytes_of(statements: Statements, array: c.Variable) -> Iterator[int]:
    """The bytes that the first statements put into an array, from its first one on."""
    for order, one in enumerate(statements):
        if not (isinstance(one, c.Set) and isinstance(one.to, c.Index) and is_cell(one.to.pointer, array) and isinstance(one.value, c.Literal)):
            return
        if not isinstance(one.to.index, c.Literal) or one.to.index.value != order:
            return
        yield one.value.value


def with_tables(statements: Statements, table_of: Callable[[tuple[int, ...]], c.Expression | None]) -> Statements:
    """A pointer to one of some constant arrays, in the place of an array that gets the numbers of one of them, one by one."""
    arrays = {part.variable for part in c.all_parts(statements) if isinstance(part, c.Var) and part.of.text().startswith("struct uart_")}
    for array in arrays:
        places = [part for part in c.all_parts(statements) if isinstance(part, c.Index) and is_cell(part.pointer, array)]
        groups = [found for body in passes.every_list(statements) if (found := group_of(body, array))]
        values = [tuple(number for _, number in group) for group in groups]
        tables = [table_of(one) for one in values]
        is_all = len(places) == passes.mentioned(statements, array) and len({*map(len, values)}) == 1
        is_read = len(places) > sum(map(len, groups))
        sets = [one for one in c.all_statements(statements) if isinstance(one, c.Set) and isinstance(one.to, c.Index) and one.to in places]
        if array.is_parameter or len(groups) < 2 or None in tables or not is_all or not is_read or len(sets) != sum(map(len, groups)):
            continue
        item = places[0].of
        array.of = c.Pointer(c.BYTE, True)
        for group, table in zip(groups, tables):
            body = next(body for body in passes.every_list(statements) if group[0][0] in body)
            first = body.index(group[0][0])
            body[first : first + len(group)] = [c.Set(c.Var(array), table)] if table else []
        passes.on_expressions(
            statements, lambda part: read_of(part, array, item) if isinstance(part, c.Index) and is_cell(part.pointer, array) else part
        )
        passes.on_expressions(statements, passes.simpler)
    return statements


def read_of(one: c.Index, array: c.Variable, item: c.Type) -> c.Expression:
    """A number of a table, as the number that it would be of an array."""
    return c.Cast(item, c.Index(c.Var(array), one.index))


def group_of(body: Statements, array: c.Variable) -> list[tuple[c.Set, int]]:
    """The statements of a list that set the numbers of an array from its first one on, with these numbers."""
    out = list[tuple[c.Set, int]]()
    for one in body:
        place = one.to if isinstance(one, c.Set) and isinstance(one.to, c.Index) and is_cell(one.to.pointer, array) else None
        if isinstance(one, c.Set) and place and isinstance(place.index, c.Literal) and isinstance(one.value, c.Literal):
            if place.index.value == len(out) and (not out or body[body.index(one) - 1] is out[-1][0]):
                out.append((one, one.value.value))
    return out


def with_one_idle(statements: Statements) -> Statements:
    """One variable in the place of two of one type that calls only write, and nobody reads."""
    lent = [part.place.variable for part in c.all_parts(statements) if isinstance(part, c.AddressOf) and isinstance(part.place, c.Var)]
    idle = [one for one in dict.fromkeys(lent) if not one.is_parameter and lent.count(one) == passes.mentioned(statements, one)]
    kept = dict[tuple[str, str | None], c.Variable]()
    for one in idle:
        first = kept.setdefault((one.of.text(), one.hint), one)
        body = next(body for body in passes.every_list(statements) if passes.mentioned(body, first) == lent.count(first))
        if first is not one and passes.mentioned(body, one) == lent.count(one):
            replace(statements, one, first)
    return statements


def replace(statements: Statements, gone: c.Variable, kept: c.Variable) -> None:
    passes.on_expressions(statements, lambda part: c.Var(kept) if passes.is_of(part, gone) else part)


# Expressions.


def without_nulls(statements: Statements) -> Statements:
    """A test, in the place of a pointer that is null unless it holds."""

    def change(body: Statements) -> Statements:
        for order, (one, behind) in enumerate(zip(body, body[1:])):
            if not (isinstance(one, c.Set) and isinstance(one.to, c.Var) and isinstance(one.value, c.Choice) and isinstance(behind, c.If)):
                continue
            pointer, choice = one.to.variable, one.value
            is_null = isinstance(choice.no, c.Word) and choice.no.name == "NULL" and isinstance(choice.yes, c.Var)
            used = passes.mentioned([c.If(behind.condition, behind.yes, [])], pointer)
            if not is_null or pointer.is_parameter or used + 1 != passes.mentioned(statements, pointer):
                continue
            tests = [part for part in c.every(behind.condition) if is_test_of(part, pointer)]
            if len(tests) != 1 or not passes.Facts(statements).is_stable(choice.yes) or not is_surely(behind.condition, tests[0]):
                continue
            behind.condition = c.rebuilt(behind.condition, lambda part: choice.condition if part is tests[0] else part)
            passes.on_expressions([behind], lambda part: choice.yes if passes.is_of(part, pointer) else part)
            del body[order]
            return change(body)
        return body

    return on_lists(statements, change)


def is_test_of(one: c.Expression, pointer: c.Variable) -> bool:
    """Whether this is true exactly if a pointer is not null."""
    return isinstance(one, c.Binary) and one.operator == "!=" and passes.is_of(one.left, pointer) and isinstance(one.right, c.Word)


def is_surely(condition: c.Expression, test: c.Expression) -> bool:
    """Whether a condition holds only where a test does that is a part of it."""
    if condition is test:
        return True
    return isinstance(condition, c.Binary) and condition.operator == "&&" and (is_surely(condition.left, test) or is_surely(condition.right, test))


def without_nested_choices(statements: Statements, name_of: Callable[[c.Choice], str]) -> Statements:
    """A variable in the place of one value or another in the middle of a computation."""

    def change(body: Statements) -> Statements:
        out = Statements()
        for one in body:
            if isinstance(one, (c.Set, c.Return, c.Do)):
                for name in c.EXPRESSIONS[type(one)]:
                    value = getattr(one, name)
                    if value is not None and not (name == "to"):
                        setattr(one, name, taken_out(value, name_of, out, True))
            out.append(one)
        return out

    return on_lists(statements, change)


def without_choices_of_choices(statements: Statements) -> Statements:
    """A choice between statements, where a variable would get one of more than two values."""

    def change(body: Statements) -> Statements:
        return [one for each in body for one in divided(each)]

    return on_lists(statements, change)


def divided(one: c.Statement) -> Statements:
    choice = one.value if isinstance(one, c.Set) and isinstance(one.to, c.Var) else None
    if not isinstance(one, c.Set) or not isinstance(choice, c.Choice) or not any(isinstance(each, c.Choice) for each in (choice.yes, choice.no)):
        return [one]
    return [c.If(choice.condition, divided(c.Set(one.to, choice.yes)), divided(c.Set(one.to, choice.no)))]


def taken_out(one: c.Expression, name_of: Callable[[c.Choice], str], before: Statements, is_whole: bool) -> c.Expression:
    """An expression with variables in the place of the choices within sums and products of it."""
    if isinstance(one, c.Choice):
        if is_whole or not is_named_choice(one) or not all(map(is_quiet, (one.condition, one.yes, one.no))):
            return one
        made = c.Variable(one.of, hint=name_of(one))
        before.append(c.Set(c.Var(made), one))
        return c.Var(made)
    if isinstance(one, c.Binary) and one.operator not in c.LOGICAL and may_be_first(one):
        return dataclasses.replace(one, left=taken_out(one.left, name_of, before, False), right=taken_out(one.right, name_of, before, False))
    if isinstance(one, c.Cast):
        return dataclasses.replace(one, operand=taken_out(one.operand, name_of, before, is_whole))
    if isinstance(one, c.CallOf) and may_be_first(one):
        return dataclasses.replace(one, arguments=[taken_out(each, name_of, before, isinstance(each, c.Choice)) for each in one.arguments])
    return one


def is_named_choice(one: c.Choice) -> bool:
    """Whether a choice is what an option has, or else a number, or one of two constants."""
    has_value = isinstance(one.condition, c.Field) and one.condition.name == "is_some"
    return has_value or all(isinstance(each, c.Word) or isinstance(each, c.Literal) and bool(each.names) for each in (one.yes, one.no))


def may_be_first(one: c.Expression) -> bool:
    """Whether the choices within an expression may be made before all that it is made of: if that changes nothing, or they read no memory."""
    return all(map(is_quiet, c.parts(one))) or not any(isinstance(part, (c.Deref, c.Index)) for part in of_choices(one))


def of_choices(one: c.Expression) -> list[c.Expression]:
    """All that the choices within an expression are made of."""
    return [part for choice in c.every(one) if isinstance(choice, c.Choice) for part in c.every(choice)]


def with_constant_last(one: c.Expression) -> c.Expression:
    """A comparison whose constant is on its right side."""
    if isinstance(one, c.Binary) and one.operator in c.COMPARISONS and isinstance(one.left, c.Literal) and not isinstance(one.right, c.Literal):
        return c.Binary(c.SWAPPED[one.operator], one.right, one.left, one.of)
    return one


def with_one_number(one: c.Expression) -> c.Expression:
    """A sum in the place of one that is added to and taken from: what is left of `a + b - a`, and one number in the place of two."""
    if not isinstance(one, c.Binary) or not isinstance(one.left, c.Binary) or one.left.operator != "+" or not is_wide(one.of):
        return one
    first, second = one.left.left, one.left.right
    if one.operator == "-" and is_quiet(one.right) and (same(first, one.right) or same(second, one.right)):
        return second if same(first, one.right) else first
    if one.operator == "+" and isinstance(second, c.Literal) and isinstance(one.right, c.Literal) and not second.names and not one.right.names:
        return c.Binary("+", first, c.Literal(second.value + one.right.value, one.right.of), one.of)
    return one


def is_wide(of: c.Type) -> bool:
    """Whether numbers of a type are computed as they are, and not as an `int`: what is too large for them is left out at each step alike."""
    return isinstance(of, c.Number) and of.bits >= 32


def with_one_test(one: c.Expression) -> c.Expression:
    """What an option has, or else 0, in the place of two tests: that it has nothing, or no more than so much."""
    if not isinstance(one, c.Binary) or one.operator != "||" or not isinstance(one.left, c.Unary) or not isinstance(one.right, c.Binary):
        return one
    flag, value = one.left.operand, one.right.left
    is_flag = one.left.operator == "!" and isinstance(flag, c.Field) and flag.name == "is_some"
    is_value = isinstance(value, c.Field) and value.name == "value" and one.right.operator == "<=" and isinstance(one.right.right, c.Literal)
    if not isinstance(flag, c.Field) or not isinstance(value, c.Field) or not is_flag or not is_value or not same(flag.base, value.base):
        return one
    return dataclasses.replace(one.right, left=c.Choice(flag, value, c.Literal(0, value.of)))


def is_quiet(one: c.Expression) -> bool:
    """Whether an expression does nothing, and what it reads nothing beside it changes."""
    return not any(isinstance(part, c.CallOf) and not part.is_pure for part in c.every(one))


def with_bytes(one: c.Expression) -> c.Expression:
    """The bytes of a number of 16 bits, and one that is put together of two, as bits."""
    if isinstance(one, c.Binary) and isinstance(one.right, c.Literal) and one.right.value == 256 and is_of_bits(one.left, 16):
        if one.operator == "%":
            return c.Binary("&", one.left, c.Literal(0xFF, one.right.of, is_bits=True), one.of)
        if one.operator == "/":
            return c.Binary(">>", one.left, c.Literal(8, one.right.of), one.of)
    if isinstance(one, c.Cast) and is_of_bits(one, 16) and isinstance(one.operand, c.Binary) and one.operand.operator == "+":
        high, low = without_cast(one.operand.left), without_cast(one.operand.right)
        is_high = isinstance(high, c.Binary) and high.operator == "*" and isinstance(high.left, c.Literal) and high.left.value == 256
        if is_high and isinstance(high, c.Binary) and is_of_bits(low, 8) and is_of_bits(without_cast(high.right), 8):
            shifted = c.Binary("<<", c.Cast(one.of, without_cast(high.right)), c.Literal(8, one.of), one.of)
            return c.Cast(one.of, c.Binary("|", shifted, low, one.of))
    return one


def with_low_byte(one: c.Expression) -> c.Expression:
    """The low byte of a number, without the bits that a cast leaves out in any case."""
    masked = one.operand if isinstance(one, c.Cast) and one.of.text() == "uint8_t" else None
    is_masked = isinstance(masked, c.Binary) and masked.operator == "&" and isinstance(masked.right, c.Literal) and masked.right.value == 0xFF
    return dataclasses.replace(one, operand=masked.left) if isinstance(one, c.Cast) and isinstance(masked, c.Binary) and is_masked else one


def with_byte(statements: Statements, parameter: c.Variable) -> None:
    """A parameter as a byte, if that is all that a function takes of it."""

    def is_byte(one: c.Expression) -> bool:
        return isinstance(one, c.Cast) and one.of.text() == "uint8_t" and passes.is_of(one.operand, parameter)

    if passes.mentioned(statements, parameter) == sum(map(is_byte, c.all_parts(statements))):
        parameter.of = c.BYTE
        passes.on_expressions(statements, lambda one: one.operand if isinstance(one, c.Cast) and is_byte(one) else one)


def is_of_bits(one: c.Expression, bits: int) -> bool:
    return isinstance(one.of, c.Number) and one.of.bits == bits


def without_cast(one: c.Expression) -> c.Expression:
    while isinstance(one, c.Cast):
        one = one.operand
    return one


def without_idle_casts(statements: Statements, result: c.Type) -> None:
    """Without the casts of numbers to a wider type which C makes by itself: of an argument, of what is assigned, and of what is returned."""

    def fitting(one: c.Expression, to: c.Type) -> c.Expression:
        if not isinstance(one, c.Cast) or not isinstance(one.operand, (c.Var, c.Field, c.Deref, c.Index, c.CallOf)):
            return one
        inner = one.operand.of
        if not isinstance(inner, c.Number) or not isinstance(to, c.Number) or not isinstance(one.of, c.Number) or one.of.text() != to.text():
            return one
        # A size of memory has 16 bits or more.
        is_wider = inner.bits <= 16 if to.text() == "size_t" else inner.bits < to.bits and inner.text() != "size_t"
        return one.operand if is_wider and inner.bits < to.bits else one

    def change(one: c.Expression) -> c.Expression:
        if isinstance(one, c.Binary) and one.operator in c.COMPARISONS and isinstance(one.right, c.Literal) and isinstance(one.left, c.Cast):
            narrow = fitting(one.left, one.left.of)
            if narrow is not one.left and one.right.value < 1 << c.bits(narrow.of):
                return c.Binary(one.operator, narrow, dataclasses.replace(one.right, of=narrow.of), one.of)
        if isinstance(one, c.CallOf) and one.expects and one.fields is None:
            return dataclasses.replace(one, arguments=[*map(fitting, one.arguments, one.expects), *one.arguments[len(one.expects) :]])
        return one

    passes.on_expressions(statements, change)
    for one in c.all_statements(statements):
        if isinstance(one, c.Set):
            one.value = fitting(one.value, one.to.of)
        elif isinstance(one, c.Return) and one.value is not None:
            one.value = fitting(one.value, result)


# Returns.


def is_failure(one: c.Expression | None) -> bool:
    """Whether a value says that a function has not done what it is for."""
    return isinstance(one, c.Word) and (one.name == "false" or one.of.text() == "int" and not one.name.endswith("OK"))


def with_guards(statements: Statements) -> Statements:
    """Failures first: what is done without one is in no branch of it."""

    def change(body: Statements) -> Statements:
        if len(body) < 2:
            return body
        test, last = body[-2:]
        if not isinstance(test, c.If) or test.no or not isinstance(last, c.Return) or not is_failure(last.value):
            return body
        only = test.yes[0] if len(test.yes) == 1 else None
        is_choice = only is None or isinstance(only, (c.If, c.Switch)) or isinstance(only, c.Return) and isinstance(only.value, c.Word)
        if not c.leaves(test.yes) or not is_choice or is_compound(test.condition):
            return body
        if isinstance(test.yes[-1], c.Return) and is_failure(test.yes[-1].value) and len(test.yes) <= 2 and not isinstance(test.yes[0], c.If):
            return body
        return [*body[:-2], c.If(passes.simpler(c.negated(test.condition)), [last], []), *change(test.yes)]

    return on_lists(statements, change)


def is_compound(one: c.Expression) -> bool:
    return isinstance(one, c.Binary) and one.operator in c.LOGICAL


def with_truths(statements: Statements) -> Statements:
    """A condition that is returned, in the place of a choice between true and false by it. To be called once variables have names."""

    def change(body: Statements) -> Statements:
        if body and isinstance(body[-1], c.Return) and isinstance(body[-1].value, c.Choice):
            return with_long_choice(body[:-1], body[-1].value)
        if len(body) < 2:
            return body
        test, last = body[-2:]
        only = test.yes[0] if isinstance(test, c.If) and not test.no and len(test.yes) == 1 else None
        if not isinstance(test, c.If) or not isinstance(only, c.Return) or not isinstance(last, c.Return):
            return body
        first, second = only.value, last.value
        if not isinstance(first, c.Word) or first.name not in ("true", "false") or second is None or second.of is not c.BOOL:
            return body
        holds = test.condition if first.name == "true" else passes.simpler(c.negated(test.condition))
        if isinstance(second, c.Word):
            return [*body[:-2], c.Return(holds)] if second.name != first.name else body
        joined = c.Binary("||" if first.name == "true" else "&&", holds, second, c.BOOL)
        is_guarded = len(body) > 2 and isinstance(body[-3], (c.If, c.For, c.While, c.Switch))
        is_short = len(c.text(joined)) <= passes.SHORT and not is_compound(holds) and not is_compound(second)
        return [*body[:-2], c.Return(joined)] if is_short and not is_guarded else body

    return on_lists(statements, change)


def with_long_choice(body: Statements, choice: c.Choice) -> Statements:
    """Two returns in the place of one whose value is chosen by more than one test."""
    if not is_compound(choice.condition):
        return [*body, c.Return(choice)]
    return [*body, c.If(choice.condition, [c.Return(choice.yes)], []), c.Return(choice.no)]


# The divisor latch.


def with_latch(statements: Statements, is_open: Callable[[c.Expression], bool], named: Callable[[c.CallOf], c.CallOf]) -> Statements:
    """The names that the first two registers have while DLAB is set: behind a call that sets it, up to the next one of the same function that
    does not. `is_open` says whether a value has DLAB, and `named` gives a call the names."""

    def change(body: Statements) -> Statements:
        opener: c.CallOf | None = None
        for one in body:
            calls = [part for each in c.expressions(one) for part in c.every(each) if isinstance(part, c.CallOf)] if not c.lists(one) else []
            setting = next((call for call in calls if any(map(is_open, call.arguments))), None)
            if setting:
                opener = setting
                continue
            if opener and any(is_again(call, opener) for call in calls):
                opener = None
            if opener:
                passes.on_expressions([one], lambda part: named(part) if isinstance(part, c.CallOf) else part)
        return body

    return on_lists(statements, change)


def is_again(call: c.CallOf, opener: c.CallOf) -> bool:
    """Whether a call is one of the same function, at the same register if that is told."""
    if call.name != opener.name:
        return False
    one, other = (each.arguments[1] if len(each.arguments) > 2 else None for each in (call, opener))
    return not isinstance(one, c.Literal) or not isinstance(other, c.Literal) or one.value == other.value
