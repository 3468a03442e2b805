"""What makes the C of a function readable, step by step. Each step leaves what the function does."""
from __future__ import annotations

import collections
import dataclasses
import functools
from collections.abc import Callable, Container, Iterator, Sequence
from typing import TypeAlias

import syntax as c
from translate import Type as Meaning
from translate import Unknown

Statements: TypeAlias = list[c.Statement]
Labels: TypeAlias = frozenset[int]
NONE: Labels = frozenset()
# Whether an expression has a call, whether it reads memory, and the variables that it uses.
Depends: TypeAlias = tuple[bool, bool, set[c.Variable]]
# Gives a number of a type of the MIR the names of its bits.
WithNames: TypeAlias = Callable[[c.Literal, Meaning], c.Expression]

# A condition with two short values is written in one line up to this length.
SHORT = 76
# So many operators and calls are at most in an expression which has a name in the source, and goes where it is used all the same.
HEAVY = 3


# Blocks and their exits as `if`, `break` and `continue`.


def structured(statements: Statements, follow: Labels = NONE, leave: Labels = NONE, again: Labels = NONE) -> Statements:
    """`follow` are the labels behind which it goes on anyway, and `leave` and `again` those that `break` and `continue` lead to."""
    out = Statements()
    for order, one in enumerate(statements):
        rest = statements[order + 1 :]
        after = frozenset() if rest else follow
        if isinstance(one, c.Exit):
            if one.label in follow:
                return out
            if one.label in leave:
                return [*out, c.Break()]
            if one.label in again:
                return [*out, c.Continue()]
            raise Unknown("an exit that needs a jump")
        if isinstance(one, (c.If, c.Switch)):
            moved = with_rest(one, rest, follow) if rest else None
            if moved:
                return out + structured(moved, follow, leave, again)
            out.append(structured_choice(one, after, leave, again))
        elif isinstance(one, c.Block) and (made := if_else(one)):
            out += structured(made, after, leave, again)
        elif isinstance(one, c.Block):
            mine = frozenset([one.label])
            out += structured(
                one.body, after | mine, leave | (mine if after & leave else frozenset()), again | (mine if after & again else frozenset())
            )
        elif isinstance(one, c.Loop):
            around = frozenset([-one.label])
            body = structured(one.body, around, frozenset([one.label]) | after, around)
            out.append(c.While(c.Word("true", c.BOOL), body))
        else:
            out.append(one)
        if c.leaves(out) and not isinstance(out[-1], c.While):
            return out
    return out


def branches(one: c.If | c.Switch) -> list[Statements]:
    """The branches of a choice, which can be set."""
    return [one.yes, one.no] if isinstance(one, c.If) else [body for _, body in one.cases]


def with_branches(one: c.If | c.Switch, bodies: list[Statements]) -> c.If | c.Switch:
    if isinstance(one, c.If):
        return c.If(one.condition, *bodies)
    return c.Switch(one.on, [(labels, body) for (labels, _), body in zip(one.cases, bodies)])


def exits_to(body: Statements, labels: Container[int]) -> bool:
    return bool(body) and isinstance(body[-1], c.Exit) and body[-1].label in labels


def with_rest(one: c.If | c.Switch, rest: Statements, follow: Labels) -> Statements | None:
    """A choice some of whose branches skip what comes behind it: that goes into the only other branch, or behind a variable that says
    whether none of them was taken. None if there are no such."""
    found = [each.label for each in c.all_statements([one]) if isinstance(each, c.Exit) and each.label in follow]
    if not found:
        return None
    bodies = branches(one)
    skipping = [exits_to(body, follow) for body in bodies]
    going = [order for order, body in enumerate(bodies) if not skipping[order] and not c.leaves(body)]
    if len(going) <= 1 and sum(skipping) == len(found):
        return [
            with_branches(
                one, [body[:-1] if skips else [*body, *rest] if order in going else body for order, (body, skips) in enumerate(zip(bodies, skipping))]
            )
        ]
    if len(set(found)) > 1:
        raise Unknown("a choice that needs a jump")
    is_reached = c.Variable(c.BOOL, hint="is_so")
    return [*flagged([one], found[0], is_reached), c.If(c.Var(is_reached), rest, [])]


def has_exit(one: c.Statement, label: int) -> bool:
    return any(isinstance(each, c.Exit) and each.label == label for each in c.all_statements([one]))


def flagged(statements: Statements, label: int, flag: c.Variable) -> Statements:
    """The same statements, which note in a variable whether their end is reached, in place of leaving a block."""
    if not statements:
        return [c.Set(c.Var(flag), c.Word("true", c.BOOL))]
    one, rest = statements[0], statements[1:]
    if isinstance(one, c.Exit) and one.label == label:
        return [c.Set(c.Var(flag), c.Word("false", c.BOOL))]
    if not has_exit(one, label):
        return [one] if c.leaves([one]) else [one, *flagged(rest, label, flag)]
    if not isinstance(one, c.If):
        raise Unknown("a choice that needs a jump")
    if not rest or exits_to(one.yes, {label}) or exits_to(one.no, {label}):
        return [c.If(one.condition, *(flagged(body if exits_to(body, {label}) else [*body, *rest], label, flag) for body in (one.yes, one.no)))]
    inner = c.Variable(c.BOOL, hint="is_so")
    return [*flagged([one], label, inner), c.If(c.Var(inner), flagged(rest, label, flag), [c.Set(c.Var(flag), c.Word("false", c.BOOL))])]


def with_last_test(body: Statements, label: int) -> Statements:
    """The same statements, where the last choice between going on and leaving the block by this label only leaves it."""
    if len(body) > 1 and isinstance(body[-1], c.Exit) and body[-1].label == label and isinstance(body[-2], c.If):
        test = body[-2]
        if c.leaves(test.yes) and not test.no:
            return [*body[:-2], c.If(test.condition, [], [body[-1]]), *test.yes]
        if c.leaves(test.no) and not test.yes:
            return [*body[:-2], c.If(test.condition, [body[-1]], []), *test.no]
    last = body[-1]
    if isinstance(last, c.If) and len(last.no) == 1 and exits_to(last.no, {label}):
        return [*body[:-1], c.If(last.condition, [], last.no), *last.yes]
    if isinstance(last, c.If) and len(last.yes) == 1 and exits_to(last.yes, {label}):
        return [*body[:-1], c.If(last.condition, last.yes, []), *last.no]
    return body


def if_else(block: c.Block) -> Statements | None:
    """A block in which another one computes a condition, and that leaves the outer one where it holds: an `if` with its `else`."""
    inner = block.body[0] if block.body else None
    if not isinstance(inner, c.Block) or not inner.body or not any(has_exit(one, inner.label) for one in inner.body):
        return None
    body = with_last_test(inner.body, inner.label)
    if has_exit(body[-1], inner.label):
        # A pattern with a condition of its own.
        body = with_last_test(body, inner.label)
    last = max(order for order, one in enumerate(body) if has_exit(one, inner.label))
    condition, then = body[: last + 1], body[last + 1 :]
    ends = bool(then) and isinstance(then[-1], c.Exit) and then[-1].label == block.label
    if not (ends or c.leaves(then)):
        return None
    if any(has_exit(one, block.label) for one in condition):
        return None
    holds = c.Variable(c.BOOL, hint="is_so")
    try:
        first = flagged(condition, inner.label, holds)
    except Unknown:
        return None
    return [*first, c.Block(block.label, [c.If(c.Var(holds), then[:-1] if ends else then, block.body[1:])])]


# Where a block has another one in front, and little behind it: as of `matches!` with several patterns.


def with_short_rests(statements: Statements) -> Statements:
    """The same, where what is behind an inner block is done at each of its exits."""
    out = Statements()
    for one in statements:
        if isinstance(one, c.Block):
            body = with_short_rests(one.body)
            sets = [each for each in body[1:] if isinstance(each, c.Set)]
            if 0 < len(sets) <= 2 and len(sets) == len(body) - 1 and isinstance(body[0], c.Block):
                body = ended(body[0].body, body[0].label, sets, one.label)
            out.append(c.Block(one.label, body))
        elif isinstance(one, c.Loop):
            out.append(c.Loop(one.label, with_short_rests(one.body)))
        elif isinstance(one, (c.If, c.Switch)):
            out.append(with_branches(one, list(map(with_short_rests, branches(one)))))
        else:
            out.append(one)
    return out


def ended(statements: Statements, label: int, rest: list[c.Set], outer: int, is_end: bool = True) -> Statements:
    """Statements of an inner block that do the rest where they leave it, and then leave the outer one."""
    out = Statements()
    for one in statements:
        if isinstance(one, c.Exit) and one.label == label:
            return [*out, *(c.Set(each.to, each.value) for each in rest), c.Exit(outer)]
        if isinstance(one, (c.If, c.Switch)):
            out.append(with_branches(one, [ended(body, label, rest, outer, False) for body in branches(one)]))
        elif isinstance(one, (c.Block, c.Loop)):
            out.append(type(one)(one.label, ended(one.body, label, rest, outer, False)))
        else:
            out.append(one)
    if is_end and not c.leaves(out):
        out += [*(c.Set(each.to, each.value) for each in rest), c.Exit(outer)]
    return out


def with_returns(statements: Statements) -> Statements:
    """The same, where each exit of the last block returns, if a variable that is returned is all that is behind it: as of a `match` with several
    conditions."""
    order = max((order for order, one in enumerate(statements) if isinstance(one, c.Block)), default=len(statements))
    rest = statements[order + 1 :]
    sets, last, block = [one for one in rest[:-1] if isinstance(one, c.Set)], rest[-1] if rest else None, statements[order] if rest else None
    if not isinstance(block, c.Block) or not isinstance(last, c.Return) or len(rest) > 2 or len(sets) < len(rest) - 1:
        return statements
    label, value = block.label, last.value

    def returning(body: Statements) -> Statements:
        out = Statements()
        for one in body:
            if isinstance(one, c.Exit) and one.label == label:
                return [*out, *(c.Set(each.to, each.value) for each in sets), c.Return(value)]
            if isinstance(one, (c.If, c.Switch)):
                one = with_branches(one, list(map(returning, branches(one))))
            elif isinstance(one, (c.Block, c.Loop)):
                one = type(one)(one.label, returning(one.body))
            out.append(one)
        return out

    return [*statements[:order], *returning(block.body), *rest]


def with_joined_cases(one: c.Statement) -> c.Statement:
    """The same, with one case for those that only set a variable to the same constant."""
    if isinstance(one, c.If):
        return c.If(one.condition, [with_joined_cases(each) for each in one.yes], [with_joined_cases(each) for each in one.no])
    if not isinstance(one, c.Switch):
        return one
    cases, found = list[c.Case](), dict[tuple[c.Variable, str], int]()
    for labels, body in one.cases:
        body = [with_joined_cases(each) for each in body]
        only = body[0] if len(body) == 1 else None
        if isinstance(only, c.Set) and isinstance(only.to, c.Var) and isinstance(only.value, c.Word):
            at = found.setdefault((only.to.variable, only.value.name), len(cases))
            earlier = cases[at][0] if at < len(cases) else None
            if earlier is not None and labels is not None:
                cases[at] = ([*earlier, *labels], cases[at][1])
                continue
        cases.append((labels, body))
    return c.Switch(one.on, cases)


def structured_choice(one: c.If | c.Switch, follow: Labels, leave: Labels, again: Labels) -> c.If | c.Switch:
    if isinstance(one, c.If):
        return c.If(one.condition, structured(one.yes, follow, leave, again), structured(one.no, follow, leave, again))
    try:
        # In a `switch`, `break` would not leave the loop.
        return c.Switch(one.on, [(labels, structured(body, follow, frozenset(), again)) for labels, body in one.cases])
    except Unknown:
        return structured_choice(as_ifs(one), follow, leave, again)


def as_ifs(one: c.Switch) -> c.If:
    """A `switch` as one `if` behind another."""
    if len(one.cases) < 2 or any(isinstance(part, (c.CallOf, c.Deref)) for part in c.every(one.on)):
        raise Unknown("a switch in a loop that it leaves")
    labels, body = one.cases[0]
    others = c.Switch(one.on, one.cases[1:])
    tests = [c.Binary("==", one.on, label, c.BOOL) for label in labels or []]
    condition = functools.reduce(lambda first, second: c.Binary("||", first, second, c.BOOL), tests)
    return c.If(condition, body, one.cases[1][1] if len(one.cases) == 2 else [as_ifs(others)])


# What is the same and shorter.


def simpler(one: c.Expression) -> c.Expression:
    if isinstance(one, c.Deref) and isinstance(one.pointer, c.AddressOf):
        return one.pointer.place
    if isinstance(one, c.AddressOf) and isinstance(one.place, c.Deref):
        return one.place.pointer
    if isinstance(one, c.Field) and isinstance(one.base, c.CallOf) and one.name in (members := one.base.members()):
        return members[one.name]
    if isinstance(one, c.Unary) and one.operator == "!" and one.operand.of is c.BOOL:
        opposite, inner = c.negated(one.operand), one.operand
        if not is_negation(opposite):
            return opposite
        if isinstance(inner, c.Binary) and inner.operator == "||" and not is_negation(first := c.negated(inner.left)):
            return c.Binary("&&", first, c.negated(inner.right), c.BOOL)
    if isinstance(one, c.Binary):
        return simpler_binary(one)
    if isinstance(one, c.Cast) and isinstance(one.of, c.Number) and one.operand.of.text() == one.of.text() and isinstance(one.operand, c.Var):
        return one.operand
    if isinstance(one, c.Cast) and isinstance(one.operand, c.Cast) and isinstance(one.of, c.Number) and isinstance(one.operand.of, c.Number):
        # What a number has beyond the narrower type goes in any case.
        return simpler(c.Cast(one.of, one.operand.operand)) if one.of.bits <= one.operand.of.bits else one
    if isinstance(one, c.Cast) and isinstance(one.operand, c.Literal) and isinstance(one.of, c.Number) and one.operand.value < 1 << one.of.bits:
        return c.Literal(one.operand.value, one.of, one.operand.names)
    return one


def is_negation(one: c.Expression) -> bool:
    return isinstance(one, c.Unary) and one.operator == "!"


def is_power_of_two(one: c.Expression) -> bool:
    """Whether an operand is a number by which a compiler multiplies and divides with shifts."""
    return isinstance(one, c.Literal) and one.value & (one.value - 1) == 0 and one.value > 0


def simpler_binary(one: c.Binary) -> c.Expression:
    left, right = one.left, one.right
    if one.operator in ("==", "!="):
        if isinstance(left, c.Word) and isinstance(right, c.Word):
            same = left.name == right.name
            return c.Word("true" if same == (one.operator == "==") else "false", c.BOOL)
        if isinstance(right, c.Word) and right.name in ("true", "false"):
            return left if (right.name == "true") == (one.operator == "==") else simpler(c.Unary("!", left, c.BOOL))
        if isinstance(right, c.Literal) and is_power_of_two(right) and isinstance(left, c.Binary) and left.operator == "&":
            if isinstance(left.right, c.Literal) and left.right.value == right.value:
                return c.Binary("!=" if one.operator == "==" else "==", left, c.Literal(0, right.of), c.BOOL)
        if isinstance(left, c.Literal) and isinstance(right, c.Literal):
            return c.Word("true" if (left.value == right.value) == (one.operator == "==") else "false", c.BOOL)
    if one.operator in ("<", "<=") and isinstance(left, c.Literal) and isinstance(right, c.Literal):
        return c.Word("true" if left.value < right.value or one.operator == "<=" and left.value == right.value else "false", c.BOOL)
    if one.operator in ("+", "|", "<<") and isinstance(right, c.Literal) and right.value == 0:
        return left
    if one.operator == "<<" and isinstance(left, c.Literal) and left.value == 0:
        return left
    if one.operator == "|" and isinstance(left, c.Literal) and left.value == 0:
        return right
    if one.operator == "&" and isinstance(left, c.Literal) and isinstance(right, c.Literal):
        return c.Literal(left.value & right.value, one.of, left.names if left.value & right.value == left.value else ())
    if one.operator == "&&" and isinstance(right, c.Word) and right.name == "true":
        return left
    # The right side is not computed if the left one decides.
    if one.operator in ("&&", "||") and isinstance(left, c.Word) and left.of is c.BOOL:
        return right if (left.name == "true") == (one.operator == "&&") else left
    if one.operator == "&" and isinstance(right, c.Literal) and right.value == (1 << c.bits(right.of)) - 1:
        return left
    return one


def on_expressions(statements: Statements, change: c.Change) -> None:
    """Changes each expression of statements, in place."""
    for one in c.all_statements(statements):
        for name in c.EXPRESSIONS.get(type(one), ()):
            value = getattr(one, name)
            if value is not None:
                setattr(one, name, c.rebuilt(value, change))


def simplify(statements: Statements) -> None:
    on_expressions(statements, simpler)
    for one in c.all_statements(statements):
        if isinstance(one, c.Switch):
            narrow(one)


def narrow(switch: c.Switch) -> None:
    """A choice over a number as it is, and not over a wider one."""
    on = switch.on
    if not isinstance(on, c.Cast) or not isinstance(on.of, c.Number) or not isinstance(on.operand.of, c.Number):
        return
    of, labels = on.operand.of, [label for numbers, _ in switch.cases for label in numbers or []]
    literals = [label for label in labels if isinstance(label, c.Literal) and label.value < 1 << of.bits]
    narrowed: dict[c.Expression, c.Expression] = {label: c.Literal(label.value, of, label.names) for label in literals}
    if of.bits < on.of.bits and all(one in narrowed for one in labels):
        switch.on = on.operand
        switch.cases = [(numbers and [narrowed[one] for one in numbers], body) for numbers, body in switch.cases]


# What an expression depends on, and what a statement does.


def is_of(one: c.Expression, variable: c.Variable) -> bool:
    """Whether an expression is this variable."""
    return isinstance(one, c.Var) and one.variable is variable


def assigns(one: c.Statement, variable: c.Variable) -> bool:
    """Whether a statement sets this variable as a whole."""
    return isinstance(one, c.Set) and is_of(one.to, variable)


def root(one: c.Expression) -> c.Variable | None:
    """The variable of which a place is a part, or None."""
    while isinstance(one, c.Field):
        one = one.base
    return one.variable if isinstance(one, c.Var) else None


def is_start_of_array(one: c.Expression) -> bool:
    return isinstance(one, c.Field) and one.name == "bytes" and isinstance(one.of, c.Pointer)


class Facts:
    """Of a function: which variables are defined once, how often each is read, and which of them have an address."""

    def __init__(self, statements: Statements) -> None:
        self.definitions, self.reads = dict[c.Variable, int](), dict[c.Variable, int]()
        self.taken, self.in_parts = set[c.Variable](), set[c.Variable]()
        for one in c.all_statements(statements):
            if isinstance(one, c.Set):
                self.note_set(one)
            for expression in c.expressions(one):
                is_target = isinstance(one, c.Set) and expression is one.to
                self.note(expression, is_target)

    def note_set(self, one: c.Set) -> None:
        if isinstance(one.to, c.Var):
            self.definitions[one.to.variable] = self.definitions.get(one.to.variable, 0) + 1
        elif variable := root(one.to):
            self.in_parts.add(variable)

    def note(self, expression: c.Expression, is_target: bool) -> None:
        for part in c.every(expression):
            if isinstance(part, c.Var) and not (is_target and (part is expression or root(expression) is part.variable)):
                self.reads[part.variable] = self.reads.get(part.variable, 0) + 1
            at = part.place if isinstance(part, c.AddressOf) else part if is_start_of_array(part) else None
            if at and (variable := root(at)):
                self.taken.add(variable)

    def is_fixed(self, variable: c.Variable) -> bool:
        """Whether a variable has one value for ever, which no pointer can change."""
        if variable in self.taken or variable in self.in_parts:
            return False
        return self.definitions.get(variable, 0) == (0 if variable.is_parameter else 1)

    def is_address(self, one: c.Expression) -> bool:
        """Whether an expression is an address that never changes."""
        if isinstance(one, c.AddressOf):
            return self.is_fixed_place(one.place)
        return isinstance(one, c.Field) and is_start_of_array(one) and self.is_fixed_place(one.base)

    def is_fixed_place(self, one: c.Expression) -> bool:
        if isinstance(one, c.Var):
            return True
        if isinstance(one, c.Field):
            return self.is_fixed_place(one.base)
        if isinstance(one, c.Deref):
            return self.is_stable(one.pointer)
        return isinstance(one, c.Index) and self.is_stable(one.pointer) and self.is_stable(one.index)

    def is_stable(self, one: c.Expression) -> bool:
        """Whether an expression may be computed again at any time behind, with the same result."""
        if isinstance(one, (c.Literal, c.Word)):
            return True
        if isinstance(one, c.Var):
            return self.is_fixed(one.variable)
        if self.is_address(one):
            return True
        if isinstance(one, c.Cast) and isinstance(one.operand, c.Var) and isinstance(one.of, c.Number) and isinstance(one.operand.of, c.Number):
            return one.operand.variable.is_parameter and one.operand.variable.is_named and self.is_stable(one.operand)
        variable = root(one)
        return isinstance(one, c.Field) and variable is not None and self.is_fixed(variable)

    def depends(self, expression: c.Expression) -> Depends:
        """What an expression calls, reads and uses: whether it has a call, whether it reads memory, and which variables."""
        calls = memory = False
        variables = set[c.Variable]()
        for part in c.every(expression):
            if isinstance(part, c.CallOf) and not part.is_pure:
                calls = True
            if isinstance(part, (c.Deref, c.Index)):
                memory = True
            if isinstance(part, c.Var):
                variables.add(part.variable)
                memory = memory or part.variable in self.taken
        return calls, memory, variables


def depends_of_target(facts: Facts, to: c.Expression) -> Depends:
    """As `depends`, of a place that is written: only what is computed to find it."""
    calls = memory = False
    variables = set[c.Variable]()
    while isinstance(to, (c.Field, c.Deref, c.Index)):
        if isinstance(to, c.Field):
            to = to.base
            continue
        for part in c.parts(to):
            found = facts.depends(part)
            calls, memory, variables = calls or found[0], memory or found[1], variables | found[2]
        return calls, memory, variables
    return calls, memory, variables


# Values that never change, where they are used.


def propagate(statements: Statements, with_names: WithNames) -> bool:
    """Puts stable values in place of variables. Returns whether there was one."""
    facts = Facts(statements)
    values = {}
    for one in c.all_statements(statements):
        if isinstance(one, c.Set) and isinstance(one.to, c.Var) and facts.is_fixed(one.to.variable) and not one.to.variable.is_parameter:
            variable, value = one.to.variable, one.value
            if facts.is_stable(value) or is_stable_struct(facts, value, variable, statements):
                values[variable] = value
    if not values:
        return False

    def change(one: c.Expression) -> c.Expression:
        if isinstance(one, c.Var) and one.variable in values:
            value = values[one.variable]
            for inner in c.every(value):
                if isinstance(inner, c.Var) and inner.variable in values:
                    return one
            return with_names(value, one.variable.meaning) if isinstance(value, c.Literal) else value
        return simpler(one)

    before = {variable: facts.reads.get(variable, 0) for variable in values}
    for one in c.all_statements(statements):
        for name in c.EXPRESSIONS.get(type(one), ()):
            value = getattr(one, name)
            if value is None or isinstance(one, c.Set) and name == "to" and isinstance(value, c.Var):
                continue
            setattr(one, name, c.rebuilt(value, change))
    after = Facts(statements).reads
    return any(after.get(variable, 0) != count for variable, count in before.items())


def is_stable_struct(facts: Facts, value: c.Expression, variable: c.Variable, statements: Statements) -> bool:
    """Whether a struct that is made of stable parts is only looked into."""
    if not (isinstance(value, c.CallOf) and value.is_pure and value.fields):
        return False
    if not all(facts.is_stable(part) for part in value.arguments):
        return False
    for one in c.all_statements(statements):
        for expression in c.expressions(one):
            inside = {id(part.base) for part in c.every(expression) if isinstance(part, c.Field) and part.name in value.fields}
            for part in c.every(expression):
                if is_of(part, variable) and id(part) not in inside and not (isinstance(one, c.Set) and part is one.to):
                    return False
    return True


def remove_dead(statements: Statements) -> bool:
    """Removes assignments that nothing reads. Returns whether there was one."""
    facts, changed = Facts(statements), False

    def go(body: Statements) -> Statements:
        nonlocal changed
        out = Statements()
        for one in body:
            for inner in c.lists(one):
                inner[:] = go(inner)
            if isinstance(one, c.Set):
                variable = root(one.to)
                is_dead = variable and not facts.reads.get(variable) and variable not in facts.taken and not variable.is_parameter
                if isinstance(one.to, c.Var) and isinstance(one.value, c.Var) and one.to.variable is one.value.variable:
                    changed = True
                    continue
                if is_dead:
                    changed = True
                    if facts.depends(one.value)[0]:
                        out.append(c.Do(one.value))
                    continue
            if isinstance(one, c.If) and isinstance(one.condition, c.Word):
                changed = True
                out += one.yes if one.condition.name == "true" else one.no
                if c.leaves(out):
                    return out
                continue
            if isinstance(one, c.Switch) and isinstance(one.on, c.Word):
                changed = True
                out += case_of(one, one.on.name)
                if c.leaves(out):
                    return out
                continue
            if isinstance(one, c.If) and not one.yes and not one.no:
                changed = True
                if facts.depends(one.condition)[0]:
                    out.append(c.Do(one.condition))
                continue
            out.append(one)
        return out

    statements[:] = go(statements)
    return changed


def case_of(switch: c.Switch, name: str) -> Statements:
    """What a choice over a constant does. Without a case for all others its last one is that."""
    for labels, body in switch.cases:
        if labels is None or any(isinstance(label, c.Word) and label.name == name for label in labels):
            return body
    return switch.cases[-1][1]


def only_value(statements: Statements, parameters: Sequence[c.Variable]) -> c.Expression | None:
    """The value that a function returns if it does nothing else, and that is a constant with a name, or a number or a call with each of its
    parameters once; or None."""
    value = statements[0].value if len(statements) == 1 and isinstance(statements[0], c.Return) else None
    if value is None or isinstance(value, c.Word):
        return value
    inner = value.arguments if isinstance(value, c.CallOf) else [value]
    if not all(isinstance(one, (c.Literal, c.Word, c.Var)) for one in inner):
        return None
    read = [one.variable for one in inner if isinstance(one, c.Var)]
    return value if len(read) == len(parameters) and all(one in read for one in parameters) else None


def inner_value(statements: Statements) -> c.Expression | None:
    """The value that a function returns if it does nothing else and calls nothing, or None."""
    value = statements[0].value if len(statements) == 1 and isinstance(statements[0], c.Return) else None
    is_computed = value is not None and not any(isinstance(part, (c.CallOf, c.Index)) for part in c.every(value))
    return value if is_computed else None


def without_idle_arrays(statements: Statements) -> None:
    """Without what is written to the cells of arrays that nobody reads, and without copies of arrays that are only read, from structs that
    are only read too."""
    facts = Facts(statements)
    written = dict[c.Variable, Statements]()
    for one in c.all_statements(statements):
        start = one.to.pointer if isinstance(one, c.Set) and isinstance(one.to, c.Index) and not facts.depends(one.value)[0] else None
        if isinstance(start, c.Field) and is_start_of_array(start) and isinstance(start.base, c.Var):
            written.setdefault(start.base.variable, []).append(one)
    mentioned = collections.Counter(part.variable for part in c.all_parts(statements) if isinstance(part, c.Var))
    idle = {id(one) for variable, sets in written.items() if mentioned[variable] == len(sets) and not variable.is_parameter for one in sets}
    copied = dict[c.Variable, c.Expression]()
    for one in c.all_statements(statements):
        if isinstance(one, c.Set) and isinstance(one.to, c.Var) and isinstance(one.value, c.Field) and isinstance(one.value.base, c.Var):
            to, of = one.to.variable, one.value.base.variable
            if is_only_read(statements, to) and is_only_read(statements, of) and facts.definitions.get(to) == facts.definitions.get(of) == 1:
                copied[to] = one.value
                idle.add(id(one))
    for body in every_list(statements):
        body[:] = [one for one in body if id(one) not in idle]
    on_expressions(statements, lambda one: copied.get(one.variable, one) if isinstance(one, c.Var) else one)


def is_only_read(statements: Statements, variable: c.Variable) -> bool:
    """Whether a struct is set as a whole, and otherwise read, or given to functions that only read it."""
    if variable.is_parameter or not variable.of.text().startswith("struct "):
        return False
    for one in c.all_statements(statements):
        if isinstance(one, c.Set) and not isinstance(one.to, c.Var) and any(is_of(part, variable) for part in c.every(one.to)):
            return False
    for part in c.all_parts(statements):
        if isinstance(part, c.AddressOf) and root(part.place) is variable:
            return False
        written = part.arguments if isinstance(part, c.CallOf) and part.name != "uart_same_bytes" else []
        if any(is_start_of_array(each) and root(each) is variable for each in written):
            return False
    return True


def outer_calls(one: c.Expression) -> list[c.CallOf]:
    """The calls of an expression that do something, each with those that are in its arguments."""
    if isinstance(one, c.CallOf) and not one.is_pure:
        return [one]
    return [call for part in c.parts(one) for call in outer_calls(part)]


def passed_on(statements: Statements, parameters: Sequence[c.Variable]) -> c.Literal | c.CallOf | None:
    """The only thing that a function does: a call that gets each parameter once, in its order, or a number that it returns; or None."""
    one = statements[0] if len(statements) == 1 else None
    value = one.value if isinstance(one, c.Return) else one.call if isinstance(one, c.Do) else None
    if isinstance(value, c.Literal):
        return value if not parameters else None
    if not isinstance(value, c.CallOf):
        return None
    read = [part.variable for part in c.every(value) if isinstance(part, c.Var)]
    has_call = any(isinstance(part, c.CallOf) for each in value.arguments for part in c.every(each))
    return value if read == list(parameters) and not has_call else None


# Values that are used once, where they are used.


def forward(statements: Statements, with_names: WithNames) -> bool:
    """Puts a value into the statement that is the only one to use it. Returns whether there was one."""
    facts = Facts(statements)
    for body in every_list(statements):
        for order, one in enumerate(body):
            if (
                isinstance(one, c.Set)
                and isinstance(one.to, c.Var)
                and can_go(facts, one.to.variable)
                and not (one.to.variable.is_named and is_heavy(one.value))
                and moves(facts, one.to.variable, one.value, body[order + 1 :], with_names)
            ):
                del body[order]
                return True
    return False


def every_list(statements: Statements) -> Iterator[Statements]:
    yield statements
    for one in statements:
        for body in c.lists(one):
            yield from every_list(body)


def is_heavy(one: c.Expression) -> bool:
    """Whether an expression computes so much that the name which the source has for it tells more than its place."""
    return sum(isinstance(part, (c.Binary, c.Choice, c.CallOf)) for part in c.every(one)) > HEAVY


def can_go(facts: Facts, variable: c.Variable) -> bool:
    return facts.is_fixed(variable) and not variable.is_parameter and facts.reads.get(variable) == 1


def moves(facts: Facts, variable: c.Variable, value: c.Expression, behind: Statements, with_names: WithNames) -> bool:
    """Moves the value of a variable past the statements that do not interfere into the one that uses it, if there is such a one."""
    calls, memory, variables = facts.depends(value)
    for one in behind:
        if uses(one, variable):
            return goes_into(facts, one, variable, value, with_names)
        if not isinstance(one, (c.Set, c.Do)) or any(uses(inner, variable) for inner in c.all_statements([one])):
            return False
        if isinstance(one, c.Set) and root(one.to) in variables:
            return False
        its_calls, its_memory, _ = joined_depends(facts, one)
        writes = isinstance(one, c.Set) and (root(one.to) is None or root(one.to) in facts.taken)
        if calls and (its_calls or its_memory or writes) or memory and (its_calls or writes):
            return False
    return False


def joined_depends(facts: Facts, one: c.Statement) -> Depends:
    calls = memory = False
    variables = set[c.Variable]()
    for expression in c.expressions(one):
        found = depends_of_target(facts, expression) if isinstance(one, c.Set) and expression is one.to else facts.depends(expression)
        calls, memory, variables = calls or found[0], memory or found[1], variables | found[2]
    return calls, memory, variables


def uses(one: c.Statement, variable: c.Variable) -> bool:
    return any(is_of(part, variable) for expression in c.expressions(one) for part in c.every(expression))


def goes_into(facts: Facts, one: c.Statement, variable: c.Variable, value: c.Expression, with_names: WithNames) -> bool:
    if isinstance(one, (c.While, c.For)):
        return False
    calls, memory, _ = facts.depends(value)
    path = path_to(c.expressions(one), variable)
    if path and is_complement(value) and len(path) > 1 and isinstance(path[-2], c.Binary) and path[-2].operator in c.COMPARISONS:
        return False
    if path is None or isinstance(one, c.Set) and path[0] is one.to and is_of(path[0], variable):
        return False
    if calls or memory:
        for part, child in zip(path, path[1:]):
            is_later = isinstance(part, c.Binary) and part.operator in c.LOGICAL and child is part.right
            if is_later or isinstance(part, c.Choice) and child is not part.condition:
                return False
        if not may_join(facts, one, path, calls):
            return False
    value = with_names(value, variable.meaning) if isinstance(value, c.Literal) else value

    for name in c.EXPRESSIONS[type(one)]:
        if getattr(one, name) is not None:
            setattr(one, name, c.rebuilt(getattr(one, name), lambda part: value if is_of(part, variable) else simpler(part)))
    return True


def is_complement(one: c.Expression) -> bool:
    """Whether a small number is all ones less something. gcc takes that for a mistake in a comparison, so it stays a variable."""
    inner = one.operand if isinstance(one, c.Cast) else None
    return (
        isinstance(inner, c.Binary)
        and inner.operator == "-"
        and isinstance(inner.left, c.Literal)
        and inner.left.value == (1 << c.bits(inner.left.of)) - 1
    )


def path_to(expressions: list[c.Expression], variable: c.Variable) -> list[c.Expression] | None:
    """The expressions from the outermost one to the use of a variable."""
    for expression in expressions:
        if is_of(expression, variable):
            return [expression]
        inner = path_to(c.parts(expression), variable)
        if inner:
            return [expression, *inner]
    return None


def may_join(facts: Facts, one: c.Statement, path: list[c.Expression], has_call: bool) -> bool:
    """Whether a value that calls or reads memory may be computed in the middle of a statement: C says nothing of the order there."""
    on_path = {id(part) for part in path}
    for expression in c.expressions(one):
        is_target = isinstance(one, c.Set) and expression is one.to
        if is_target and id(expression) not in on_path:
            calls, memory, _ = depends_of_target(facts, expression)
            if calls or has_call and memory:
                return False
            continue
        if not beside(facts, expression, on_path, has_call, is_target):
            return False
    return True


def beside(facts: Facts, expression: c.Expression, on_path: set[int], has_call: bool, is_target: bool) -> bool:
    """Whether what is beside the path neither calls nor, if the value calls, reads memory."""
    if id(expression) not in on_path:
        calls, memory, _ = facts.depends(expression)
        return not calls and not (has_call and memory)
    if has_call and isinstance(expression, c.Index) and not is_target:
        return False
    return all(beside(facts, part, on_path, has_call, False) for part in c.parts(expression))


def forward_addresses(statements: Statements) -> bool:
    """Puts the address of an item in place of a pointer, if its index stays as it is up to the last use."""
    facts = Facts(statements)
    for body in every_list(statements):
        for order, one in enumerate(body):
            if not (isinstance(one, c.Set) and isinstance(one.to, c.Var) and isinstance(one.value, c.AddressOf)):
                continue
            variable = one.to.variable
            if variable.is_parameter or not facts.is_fixed(variable) or not isinstance(one.value.place, c.Index):
                continue
            if keeps(facts, body[order + 1 :], variable, one.value.place):
                value = one.value
                del body[order]

                on_expressions(statements, lambda part: value if is_of(part, variable) else simpler(part))
                return True
    return False


def keeps(facts: Facts, behind: Statements, variable: c.Variable, place: c.Index) -> bool:
    """Whether all uses of a variable are behind here in the same list, before the place whose address it has changes."""
    calls, memory, variables = facts.depends(place.pointer)
    more = facts.depends(place.index)
    if calls or memory or more[0] or more[1]:
        return False
    variables |= more[2]
    count = 0
    for one in behind:
        used = sum(is_of(part, variable) for part in c.all_parts([one]))
        count += used
        if any(isinstance(each, c.Set) and root(each.to) in variables for each in c.all_statements([one])):
            return count == facts.reads.get(variable) and not used
    return count == facts.reads.get(variable)


def forward_copies(statements: Statements) -> bool:
    """Puts a variable in the place of a copy of it that only the next statement uses. Returns whether there was one."""
    facts = Facts(statements)
    for body in every_list(statements):
        for order, (one, behind) in enumerate(zip(body, body[1:])):
            if not (isinstance(one, c.Set) and isinstance(one.to, c.Var) and isinstance(one.value, c.Var) and isinstance(behind, (c.Set, c.Return))):
                continue
            copy, origin = one.to.variable, one.value
            is_only = sum(is_of(part, copy) for part in c.all_parts([behind])) == facts.reads.get(copy)
            is_target = isinstance(behind, c.Set) and root(behind.to) is copy
            has_call = any(isinstance(part, c.CallOf) and not part.is_pure for part in c.all_parts([behind]))
            if copy.is_parameter or not facts.is_fixed(copy) or not is_only or is_target or has_call and origin.variable in facts.taken:
                continue
            on_expressions([behind], lambda part: origin if is_of(part, copy) else part)
            del body[order]
            return True
    return False


# Values that memory has, where they are used.


def into_branches(statements: Statements, quiet: set[str]) -> bool:
    """Reads a value in the branches that use it, if those are some of the choice behind it and not all. Returns whether there was one. `quiet`
    are the functions that only compute."""
    facts = Facts(statements)
    for body in every_list(statements):
        for order, (one, choice) in enumerate(zip(body, body[1:])):
            if not (isinstance(one, c.Set) and isinstance(one.to, c.Var) and isinstance(choice, (c.If, c.Switch))):
                continue
            variable, used = one.to.variable, [each for each in c.lists(choice) if mentions(each, one.to.variable)]
            stays = variable.is_parameter or not facts.is_fixed(variable) or not any(facts.depends(one.value)[:2])
            is_read_elsewhere = uses(choice, variable) or mentions(body[order + 2 :], variable)
            if stays or is_read_elsewhere or not 0 < len(used) < len(c.lists(choice)):
                continue
            if not is_quiet(one, quiet) or not all(calls_quietly(each, quiet) for each in c.expressions(choice)):
                continue
            for each in used:
                own = dataclasses.replace(variable)
                on_expressions(each, lambda part: c.Var(own) if is_of(part, variable) else part)
                each.insert(0, c.Set(c.Var(own), one.value))
            del body[order]
            return True
    return False


def where_it_is(statements: Statements) -> None:
    """Computes a number that is written behind a parameter of what is there, and not of a variable that has it: what may be changed by a parameter
    is changed by no other. A compiler then adds in memory, and keeps no register for it."""
    facts = Facts(statements)
    for body in every_list(statements):
        for order, one in enumerate(body):
            if not isinstance(one, c.Set) or not isinstance(one.to, c.Deref):
                continue
            pointer = one.to.pointer
            if not isinstance(pointer, c.Var) or not is_written_once(statements, pointer.variable):
                continue
            copies = {
                each.to.variable: each.value
                for each in body[:order]
                if isinstance(each, c.Set)
                and isinstance(each.to, c.Var)
                and facts.is_fixed(each.to.variable)
                and is_copy(each.value, pointer.variable)
            }

            one.value = c.rebuilt(one.value, lambda part: as_it_was(copies.get(part.variable, part) if isinstance(part, c.Var) else part))


def is_written_once(statements: Statements, variable: c.Variable) -> bool:
    """Whether a parameter is the address of a number that may be changed, goes nowhere else, and is written through once."""
    of = variable.meaning
    if not (variable.is_parameter and isinstance(of, tuple) and of[0] == "Ref" and of[2] and isinstance(of[1], tuple) and of[1][0] == "Int"):
        return False
    parts, sets = [*c.all_parts(statements)], [one for one in c.all_statements(statements) if isinstance(one, c.Set)]
    behind = sum(isinstance(part, c.Deref) and is_of(part.pointer, variable) for part in parts)
    written = sum(isinstance(one.to, c.Deref) and is_of(one.to.pointer, variable) for one in sets)
    return written == 1 and behind == sum(is_of(part, variable) for part in parts)


def is_copy(value: c.Expression, pointer: c.Variable) -> bool:
    """Whether a value is the number behind a pointer, as wide or wider."""
    while isinstance(value, c.Cast) and c.bits(value.of) >= c.bits(value.operand.of):
        value = value.operand
    return isinstance(value, c.Deref) and is_of(value.pointer, pointer)


def as_it_was(one: c.Expression) -> c.Expression:
    """A number that was made wider and narrow again, as it was."""
    if not isinstance(one, c.Cast) or not isinstance(one.operand, c.Cast):
        return one
    inner = one.operand.operand
    return inner if inner.of.text() == one.of.text() and c.bits(one.operand.of) >= c.bits(one.of) else one


# Returns, conditions and loops.


def pretty(statements: Statements) -> Statements:
    """The same statements, as one would write them."""
    out = Statements()
    for one in statements:
        out += pretty_one(one)
    out = counted(returned(sunk(in_conditions(out))))
    for order, one in enumerate(out):
        # What is behind a branch that leaves needs no `else`.
        if isinstance(one, c.If) and one.no and c.leaves(one.yes):
            return [*out[:order], c.If(one.condition, one.yes, []), *pretty([*one.no, *out[order + 1 :]])]
    return out


def pretty_one(one: c.Statement) -> Statements:
    if isinstance(one, c.If):
        return pretty_if(c.If(one.condition, pretty(one.yes), pretty(one.no)))
    if isinstance(one, c.Switch):
        return [c.Switch(one.on, [(labels, pretty(body)) for labels, body in one.cases])]
    if isinstance(one, c.While):
        body = pretty(one.body)
        while body and isinstance(body[-1], c.Continue):
            body = body[:-1]
        first = body[0] if body else None
        is_endless = isinstance(one.condition, c.Word)
        if is_endless and isinstance(first, c.If) and len(first.yes) == 1 and isinstance(first.yes[0], c.Break) and not first.no:
            return [c.While(simpler(c.negated(first.condition)), body[1:])]
        return [c.While(one.condition, body)]
    if isinstance(one, c.For):
        return [c.For(one.first, one.condition, one.step, pretty(one.body))]
    return [one]


def pretty_if(one: c.If) -> Statements:
    yes, no, condition = one.yes, one.no, one.condition
    both = as_value(one)
    if both:
        return [both]
    if not yes or no and c.leaves(no) and not c.leaves(yes) or no and c.leaves(no) and len(no) < len(yes) and c.leaves(yes) and len(no) == 1:
        yes, no, condition = no, yes, simpler(c.negated(condition))
    if not no and len(yes) == 1 and isinstance(yes[0], c.If) and not yes[0].no:
        return [c.If(c.Binary("&&", condition, yes[0].condition, c.BOOL), yes[0].yes, [])]
    return [c.If(condition, yes, no)]


def as_value(one: c.If) -> c.Set | None:
    """Two branches that set the same place, as one assignment."""
    if not len(one.yes) == len(one.no) == 1:
        return None
    yes, no = one.yes[0], one.no[0]
    if not isinstance(yes, c.Set) or not isinstance(no, c.Set) or not isinstance(yes.to, c.Var) or not is_of(no.to, yes.to.variable):
        return None
    value = chosen(one.condition, yes.value, no.value)
    return c.Set(yes.to, value) if value is not None else None


def chosen(condition: c.Expression, yes: c.Expression, no: c.Expression) -> c.Expression | None:
    """One value or another, by a condition, if that is short."""
    for word, other, operator in (("true", no, "||"), ("false", yes, "&&")):
        fixed = yes if word == "true" else no
        if isinstance(fixed, c.Word) and fixed.name == word:
            if isinstance(other, c.Word) and other.name in ("true", "false"):
                return condition
            return c.Binary(operator, condition, other, c.BOOL)
    if isinstance(yes, c.Word) and yes.name == "false":
        return c.Binary("&&", simpler(c.negated(condition)), no, c.BOOL)
    if isinstance(no, c.Word) and no.name == "true":
        return c.Binary("||", simpler(c.negated(condition)), yes, c.BOOL)
    for part in (yes, no):
        if any(isinstance(inner, c.CallOf) for inner in c.every(part)):
            return None
    made = c.Choice(condition, yes, no)
    return made


def sunk(statements: Statements) -> Statements:
    """`return` in each branch, instead of a variable that each branch sets."""
    if len(statements) < 2 or not isinstance(statements[-1], c.Return) or not isinstance(statements[-1].value, c.Var):
        return statements
    variable, choice = statements[-1].value.variable, statements[-2]
    if variable.is_parameter or not isinstance(choice, (c.If, c.Switch)):
        return statements
    bodies = branches(choice)
    if not all(c.leaves(body) or body and (assigns(body[-1], variable) or isinstance(body[-1], (c.If, c.Switch))) for body in bodies):
        return statements
    if isinstance(choice, c.If) and not choice.no:
        return statements

    def with_return(body: Statements) -> Statements:
        if c.leaves(body):
            return body
        if isinstance(body[-1], c.Set) and assigns(body[-1], variable):
            return [*body[:-1], c.Return(body[-1].value)]
        return sunk([*body, c.Return(c.Var(variable))])

    return [*statements[:-2], with_branches(choice, [with_return(body) for body in bodies])]


def in_conditions(statements: Statements) -> Statements:
    """`a && b` or `a || b`, where a variable is set to the first and then, if that leaves it open, to the second."""
    out = Statements()
    for one in statements:
        first = out[-1] if out else None
        if isinstance(one, c.If) and not one.no and len(one.yes) == 1 and isinstance(one.yes[0], c.Set) and isinstance(first, c.Set):
            operator, variable = ("||", c.negated(one.condition)) if isinstance(one.condition, c.Unary) else ("&&", one.condition)
            second, flag = one.yes[0], variable.variable if isinstance(variable, c.Var) else None
            if flag and assigns(first, flag) and assigns(second, flag) and not uses(c.Do(second.value), flag):
                out[-1] = c.Set(first.to, c.Binary(operator, first.value, second.value, c.BOOL))
                continue
        out.append(one)
    return out


def returned(statements: Statements) -> Statements:
    """`return` of a value, instead of a variable that is only set for it."""
    if len(statements) < 2 or not isinstance(statements[-1], c.Return) or not isinstance(statements[-1].value, c.Var):
        return statements
    last = statements[-2]
    variable = statements[-1].value.variable
    if isinstance(last, c.Set) and assigns(last, variable) and not variable.is_parameter:
        return [*statements[:-2], c.Return(last.value)]
    return statements


def counted(statements: Statements) -> Statements:
    """A loop that counts, as a `for`."""
    out = Statements()
    for order, one in enumerate(statements):
        made = as_for(out, one, statements[order + 1 :]) if isinstance(one, c.While) else None
        if made:
            first, loop = made
            out.remove(first)
            one = loop
        out.append(one)
    return out


def as_for(before: Statements, loop: c.While, behind: Statements) -> tuple[c.Set, c.For] | None:
    step = loop.body[-1] if loop.body else None
    if not (isinstance(step, c.Set) and isinstance(step.to, c.Var) and isinstance(step.value, c.Binary) and step.value.operator == "+"):
        return None
    variable = step.to.variable
    if not is_of(step.value.left, variable) or variable.is_parameter:
        return None
    if continues(loop.body) or mentions(behind, variable) or not uses(loop, variable):
        return None
    if not isinstance(step.value.right, c.Literal):
        return None
    # The start may be some assignments before.
    for at in range(len(before) - 1, max(-1, len(before) - 4), -1):
        one = before[at]
        if not isinstance(one, c.Set):
            return None
        if assigns(one, variable):
            if mentions(before[at + 1 :], variable) or mentions(before[:at], variable):
                return None
            return one, c.For(one, loop.condition, step, loop.body[:-1])
    return None


def narrow_counters(statements: Statements) -> None:
    """Counts up to a constant of 32 bits in 32 bits, if what is counted is only compared with it."""
    for one in c.all_statements(statements):
        if not (isinstance(one, c.For) and isinstance(one.condition, c.Binary) and one.condition.operator == "<" and isinstance(one.first.to, c.Var)):
            continue
        variable, limit = one.first.to.variable, one.condition.right
        is_small = isinstance(limit, c.Word) or isinstance(limit, c.Literal) and limit.value < 1 << 32
        if is_small and isinstance(variable.of, c.Number) and variable.of.text() == "uint64_t" and not mentions(one.body, variable):
            variable.of = c.Number(32)


def mentions(statements: Statements, variable: c.Variable) -> bool:
    return any(is_of(part, variable) for part in c.all_parts(statements))


def mentioned(statements: Statements, variable: c.Variable) -> int:
    """How often a variable is named."""
    return sum(is_of(part, variable) for part in c.all_parts(statements))


def continues(statements: Statements) -> bool:
    for one in statements:
        if isinstance(one, c.Continue):
            return True
        if isinstance(one, (c.If, c.Switch)) and any(continues(body) for body in c.lists(one)):
            return True
    return False


# Types and declarations.


def settle(statements: Statements, result: c.Type) -> None:
    """Puts a cast where a number that any type may be a part of is used as a size of memory."""

    def fit(value: c.Expression, to: c.Type) -> c.Expression:
        if not (isinstance(value.of, c.Number) and isinstance(to, c.Number)) or isinstance(value, c.Literal):
            return value
        mine, wanted = value.of.text(), to.text()
        return c.Cast(to, value) if mine != wanted and {mine, wanted} == {"size_t", "uint64_t"} and wanted == "size_t" else value

    def change(one: c.Expression) -> c.Expression:
        if isinstance(one, c.Binary) and one.operator not in c.LOGICAL | {"<<", ">>"}:
            sized = next((side.of for side in (one.left, one.right) if isinstance(side.of, c.Number) and side.of.text() == "size_t"), None)
            if sized:
                return compared_widely(c.Binary(one.operator, fit(one.left, sized), fit(one.right, sized), one.of))
        if isinstance(one, c.CallOf) and one.expects:
            fitted = [fit(argument, to) for argument, to in zip(one.arguments, one.expects)]
            return dataclasses.replace(one, arguments=fitted)
        if isinstance(one, c.Index):
            return c.Index(one.pointer, fit(one.index, c.Number(64, c.SIZE)))
        return one

    on_expressions(statements, change)
    for one in c.all_statements(statements):
        if isinstance(one, c.Set):
            one.value = fit(one.value, one.to.of)
        if isinstance(one, c.Return) and one.value is not None:
            one.value = fit(one.value, result)


def is_quiet(one: c.Statement, quiet: set[str]) -> bool:
    """Whether a statement or an expression only computes: it writes nothing but variables, and calls what does the same."""
    for each in c.all_statements([one]):
        if isinstance(each, c.Set) and root(each.to) is None or isinstance(each, c.Do) and not calls_quietly(each.call, quiet):
            return False
        if not all(calls_quietly(expression, quiet) for expression in c.expressions(each)):
            return False
    return True


def calls_quietly(expression: c.Expression, quiet: set[str]) -> bool:
    return all(part.is_pure or part.name in quiet for part in c.every(expression) if isinstance(part, c.CallOf))


def without_quiet(statements: Statements, quiet: set[str]) -> Statements:
    """The same without calls that only compute what nobody reads."""
    out = Statements()
    for one in statements:
        for body in c.lists(one):
            body[:] = without_quiet(body, quiet)
        is_empty = isinstance(one, c.Do) or isinstance(one, c.If) and not one.yes and not one.no
        if not (is_empty and is_quiet(one, quiet)):
            out.append(one)
    return out


def compared_widely(one: c.Binary) -> c.Expression:
    """A comparison of a size of memory with a number that has more than 16 bits, as one of numbers that have them on each processor."""
    if one.operator in c.COMPARISONS and isinstance(one.right, c.Literal) and 0xFFFF < one.right.value < 1 << 32:
        wide = c.Number(64, c.Width(False))
        return c.Binary(one.operator, c.Cast(wide, one.left), c.Literal(one.right.value, wide), one.of)
    return one


def unread(statements: Statements, parameters: Sequence[c.Variable]) -> Statements:
    """Statements that name the parameters which nothing reads, so that no compiler warns."""
    read = {part.variable for part in c.all_parts(statements) if isinstance(part, c.Var)}
    return [c.Do(c.Cast(c.VOID, c.Var(one))) for one in parameters if one not in read]


def declare(statements: Statements) -> None:
    """Declares each variable where it is first set, or before the first statement that has it."""
    found = [part.variable for part in c.all_parts(statements) if isinstance(part, c.Var) and not part.variable.is_parameter]
    for variable in dict.fromkeys(found):
        declare_one(statements, variable)


def declare_one(statements: Statements, variable: c.Variable) -> None:
    has = [one for one in statements if mentions([one], variable)]
    if len(has) == 1:
        one = has[0]
        if isinstance(one, c.For) and uses(one.first, variable):
            one.first.declares = True
            return
        inner = [body for body in c.lists(one) if mentions(body, variable)]
        if len(inner) == 1 and not uses(one, variable):
            declare_one(inner[0], variable)
            return
    first = has[0]
    if isinstance(first, c.Set) and assigns(first, variable) and not uses(c.Do(first.value), variable):
        first.declares = True
        return
    statements.insert(statements.index(first), c.Declare(variable))


def run(statements: Statements, result: c.Type, with_names: WithNames) -> Statements:
    """All steps."""
    try:
        statements = structured(statements)
    except Unknown:
        statements = [with_joined_cases(one) for one in structured_otherwise(statements)]
    statements = refined(statements, with_names)
    settle(statements, result)
    return statements


def structured_otherwise(statements: Statements) -> Statements:
    """Blocks and their exits, where they do not become branches as they are."""
    try:
        return structured(with_short_rests(statements))
    except Unknown:
        return structured(with_returns(statements))


def refined(statements: Statements, with_names: WithNames) -> Statements:
    """The same statements, after each step until none changes anything."""
    for _ in range(200):
        simplify(statements)
        changed = propagate(statements, with_names)
        changed = remove_dead(statements) or changed
        changed = forward_addresses(statements) or changed
        changed = forward_copies(statements) or changed
        while forward(statements, with_names):
            changed = True
        made = pretty(statements)
        if not changed and shape(made) == shape(statements):
            statements = made
            break
        statements = made
    else:
        raise Unknown("steps without an end")
    while statements and isinstance(statements[-1], c.Return) and statements[-1].value is None:
        statements = statements[:-1]
    return statements


def shape(statements: Statements) -> list[tuple[object, ...]]:
    """What tells whether a step has changed something."""
    return [(type(one).__name__, *(shape(body) for body in c.lists(one)), len(c.expressions(one))) for one in statements]
