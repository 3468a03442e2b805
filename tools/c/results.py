"""Functions that return more than one thing, as C has it: a status, or whether there is something, and what there is through pointers. Before,
a function returns a struct of these, and its callers look into it."""
from __future__ import annotations

import dataclasses
import re
from collections.abc import Callable, Mapping
from typing import Any, TypeAlias

import passes
import syntax as c
from representation import INT, Representation, safe
from translate import Type, Unknown

Statements: TypeAlias = list[c.Statement]
Path: TypeAlias = tuple[str, ...]
# What a value is called that goes through a pointer, by how the name of its function ends.
NAMES = (
    (r"byte|receive_one\w*|echo", "byte"),
    (r"divisor", "divisor"),
    (r"\w*clocks\w*|handler_budget", "clocks"),
    (r"nanoseconds\w*", "nanoseconds"),
    (r"enable_64_byte_fifos", "enabled"),
    (r"characters_in", "characters"),
    (r"find_\w*size|find_and_reset|size_up_to", "size"),
    (r"quotient|divide_clock", "quotient"),
    (r"\w*_prescaler", "prescaler"),
    (r"\w*baud_rate", "baud_rate"),
    (r"spin_limit_for", "limit"),
    (r"multiply_divide", "result"),
    (r"nearest", "nearest"),
    (r"echo_\w+", "actual"),
    (r"queue_urgent|urgent|adjust_xoff|obey_xoff|last_told|tell", "byte"),
    (r"may_send", "may"),
    (r"cells_in_memory", "cells"),
    (r"\w*interrupt_type\w*", "interrupt"),
    (r"take_errors", "errors"),
    (r"stuck_reason|look_once_more|count_\w+", "why"),
    (r"dll_dlm|attach", "latch"),
    (r"\w*fault", "fault"),
    (r"serve_up_to|handle\w*", "handled"),
    (r"send_some|receive_some|read|write|send_bytes|copy_\w+|send_expansion", "count"),
    (r"\w*_ready", "ready"),
)

# Functions whose callers pass on what they return, whether there is something or not: it stays one value.
PASSED_ON = ("level_of",)


@dataclasses.dataclass(frozen=True)
class Out:
    """What goes through a pointer: where it is in the struct that would be returned, its name, and its type in C and in the source. The parts of an
    error are members of that struct themselves: `members` has their names."""

    path: Path
    name: str
    of: c.Type
    meaning: Type
    members: frozenset[str] = frozenset()

    def place(self, whole: c.Expression, rest: Path, of: c.Type) -> c.Expression:
        """What is there of the struct, in this whole."""
        if self.members and not self.is_struct():
            rest = rest[1:]
        for order, name in enumerate(rest, 1):
            whole = c.Field(whole, name, of if order == len(rest) else c.VOID)
        return whole

    def is_struct(self) -> bool:
        return isinstance(self.of, c.Named) and self.of.name.startswith("struct ")


@dataclasses.dataclass(frozen=True)
class Form:
    """How a function returns a result: what it returns, what it writes through pointers, and where the first is in a struct of the result."""

    struct: str
    status: c.Type
    flag: Path
    outs: tuple[Out, ...]
    # The numbers of no error, and of an error if the struct tells only that there is one; and where it tells that beside the number.
    ok: str
    number: str = ""
    sign: Path = ()
    # What would go through a pointer, and is one and the same number whenever there is something: that number.
    constants: tuple[tuple[Out, int], ...] = ()

    def of_ok(self) -> c.Word:
        return c.Word(self.ok, INT)

    def reading(self, path: Path, status: c.Expression) -> c.Expression:
        """What the struct has in its flag, by what is returned."""
        return c.Binary("!=", status, self.of_ok(), c.BOOL) if self.number or path == self.sign else status

    def of_flag(self, flag: c.Expression) -> c.Expression:
        """What is returned, by what the struct would have in its flag."""
        if not self.number:
            return flag
        failed = c.Word(self.number, INT)
        if isinstance(flag, c.Word):
            return failed if flag.name == "true" else self.of_ok()
        return c.Choice(flag, failed, self.of_ok())

    def constant(self, path: Path) -> int | None:
        """The number that is in any case where a path leads to."""
        return next((number for one, number in self.constants if one.path == path), None)

    def out_of(self, path: Path) -> Out | None:
        """What goes through a pointer that a path leads to or into."""
        for one in self.outs:
            rest = path[len(one.path) :]
            if path[: len(one.path)] == one.path and (not one.members or rest[:1] and rest[0] in one.members):
                return one
        return None


def form_of(types: Representation, of: Type, function: str, is_size: bool) -> Form | None:
    """How a function that returns this does it, or None if it is one value in C. `is_size` says whether its numbers of 64 bits are sizes."""
    kind = types.kind(of) if of != "Unit" else None
    if kind is None or kind.kind not in ("option", "outcome", "either", "status") or function.endswith(PASSED_ON):
        return None

    def out(path: Path, inner: Type, name: str) -> list[Out]:
        if types.is_unit(inner):
            return []
        made = types.c(inner, is_size)
        if isinstance(made, c.Number) and types.kind(inner).kind == "number" and made.bits == 64:
            made = c.Number(64, c.Width(is_size))
        return [Out(path, safe(name), made, inner)]

    whole, ok = types.c(of).text(), types.ok
    value = out(("value",), kind.value, name_of(types, kind.value, function)) if kind.kind != "status" else []
    if kind.kind == "option" and kind.flag == "is_error":
        if types.gives_back(kind.value):
            (first, given), (second, _) = types.fields(kind.value)
            done = c.Number(64, c.Width(types.is_size(kind.value, 0)))
            out_of_error = Out(("error", first), name_of_error(kind.value), done, given)
            return Form(whole, INT, ("error", second), (out_of_error,), ok, "", ("is_error",))
        return Form(whole, INT, ("is_error",), tuple(out(("error",), kind.value, name_of_error(kind.value))), ok, types.failure(kind.value))
    if kind.kind == "option":
        return Form(whole, c.BOOL, ("is_some",), tuple(value), ok) if value else None
    if kind.kind == "either":
        if types.gives_back(kind.error):
            (first, given), (second, error) = types.fields(kind.error)
            back = (*value, *out(("error", first), given, name_of(types, given, "")))
            if types.is_unit(error):
                return Form(whole, INT, ("is_error",), back, ok, types.failure(error))
            return Form(whole, INT, ("error", second), back, ok, "", ("is_error",))
        said = [] if types.is_silent(kind.error) else out(("error",), kind.error, name_of_error(kind.error))
        return Form(whole, INT, ("is_error",), (*value, *said), ok, types.failure(kind.error))
    path: Path = ("error",) if kind.kind == "outcome" else ()
    told, is_tagged = types.told_of(kind.error), types.kind(kind.error).kind == "tagged"
    if kind.kind == "status" and not is_tagged or told is None:
        return None
    if told.details:
        text, name, members = told.details
        number: c.Type = c.Number(64, c.SIZE) if text == "size_t" else c.Named(text)
        value.append(Out(path, name, number, kind.error, frozenset(members.values())))
    elif told.is_kept:
        value += out(path, kind.error, "error")
    return Form(whole, INT, (*path, "kind") if is_tagged else path, tuple(value), ok)


def name_of(types: Representation, of: Type, function: str) -> str:
    """What the value of a function is called."""
    found = next(
        (name for ends, name in NAMES if re.search(rf"(^|_)(?:{ends})$", function.replace("interrupt_type_from_bits", "interrupt_type"))), None
    )
    made = types.c(of).text()
    return found or (re.sub(r"^struct (u16550_core_|u16550_|uart_)(maybe_)?", "", made) if made.startswith("struct ") else "value")


def name_of_error(of: Type) -> str:
    """What an error of one kind says."""
    return {"StalledError": "stalled_at", "WaitError": "stalled_at", "UnnotedError": "unnoted"}.get(of[1].split("::")[-1], "error")


def is_maker(one: c.Expression | None) -> bool:
    return isinstance(one, c.CallOf) and one.is_pure and one.fields is not None


def chain(one: c.Expression) -> tuple[c.Expression, Path]:
    """The expression that a member of a member is of, and the names that lead there."""
    names = list[str]()
    while isinstance(one, c.Field):
        names.insert(0, one.name)
        one = one.base
    return one, tuple(names)


class Conversion:
    """The statements of a function, in which calls of others and its own returns have their forms. `own` is its own form, with the parameters that
    are the pointers; `forms` are those of the functions that it calls, by their names."""

    def __init__(self, forms: Mapping[str, Form], own: Form | None, pointers: list[c.Variable]) -> None:
        self.forms, self.own, self.pointers = forms, own, pointers
        # The variables in the place of a struct: of its status, and of each that goes through a pointer.
        self.split = dict[c.Variable, tuple[Form, c.Variable, list[c.Expression]]]()
        self.before = list[c.Statement]()

    def run(self, statements: Statements) -> Statements:
        self.find(statements)
        return self.list_of(statements)

    # Which variables are no structs any more.

    def find(self, statements: Statements) -> None:
        """Finds the variables whose struct a call returns, and that are only looked into or returned."""
        made = dict[c.Variable, Form]()
        for one in c.all_statements(statements):
            form = self.form(one.value) if isinstance(one, c.Set) and isinstance(one.to, c.Var) else None
            if form and isinstance(one, c.Set) and isinstance(one.to, c.Var) and not one.to.variable.is_parameter:
                made[one.to.variable] = form
        for one in c.all_statements(statements):
            if isinstance(one, c.Set) and isinstance(one.to, c.Var):
                if one.to.variable in made and not (self.form(one.value) or is_maker(one.value)):
                    made.pop(one.to.variable)
            elif isinstance(one, c.Set) and (variable := passes.root(one.to)) in made:
                made.pop(variable)
            whole = [one.value] if isinstance(one, c.Return) and isinstance(one.value, c.Var) and self.own else []
            for expression in c.expressions(one):
                looked = {id(part.base) for part in c.every(expression) if isinstance(part, c.Field)}
                for part in c.every(expression):
                    is_set = isinstance(one, c.Set) and part is one.to
                    if isinstance(part, c.Var) and part.variable in made and id(part) not in looked and part not in whole and not is_set:
                        made.pop(part.variable)
        if self.own:
            made |= dict.fromkeys(self.built(statements, self.own), self.own)
        for variable, form in made.items():
            status = c.Variable(form.status, hint="status" if form.status is INT else variable.hint, local=-1)
            if form.status is not INT:
                status = dataclasses.replace(variable, of=form.status, meaning="Bool", hint=variable.hint or "found")
            is_passed_on = self.own and form.outs == self.own.outs and self.is_alone(statements, variable, set(made))
            places = self.passed() if is_passed_on else self.idle(form)
            self.split[variable] = form, status, places

    @staticmethod
    def built(statements: Statements, own: Form) -> set[c.Variable]:
        """The variables of the struct that a function returns which are only set member by member."""
        found = {
            root
            for one in c.all_statements(statements)
            if isinstance(one, c.Set) and isinstance(one.to, c.Field) and (root := passes.root(one.to)) and root.of.text() == own.struct
        }
        for one in c.all_statements(statements):
            for expression in c.expressions(one):
                looked = {id(part.base) for part in c.every(expression) if isinstance(part, c.Field)}
                whole = isinstance(one, c.Return) and isinstance(expression, c.Var)
                found -= {part.variable for part in c.every(expression) if isinstance(part, c.Var) and id(part) not in looked and not whole}
        return {one for one in found if not one.is_parameter}

    def is_alone(self, statements: Statements, variable: c.Variable, others: set[c.Variable]) -> bool:
        """Whether a variable is returned, and no other one of these is set between that and where it is set."""
        for body in passes.every_list(statements):
            for order, one in enumerate(body):
                if not (isinstance(one, c.Set) and passes.is_of(one.to, variable)):
                    continue
                last = max((at for at, each in enumerate(body) if at > order and passes.mentions([each], variable)), default=order)
                for each in c.all_statements(body[order + 1 : last + 1]):
                    if isinstance(each, c.Set) and isinstance(each.to, c.Var) and each.to.variable in others:
                        return False
        return any(isinstance(one, c.Return) and one.value is not None and passes.is_of(one.value, variable) for one in c.all_statements(statements))

    def form(self, one: c.Expression | None) -> Form | None:
        return self.forms.get(one.name) if isinstance(one, c.CallOf) else None

    # Statements.

    def list_of(self, statements: Statements) -> Statements:
        out = Statements()
        for one in statements:
            for body in c.lists(one):
                body[:] = self.list_of(body)
            held, self.before = self.before, []
            made = self.statement(one)
            out += [*self.before, *made]
            self.before = held
        return out

    def statement(self, one: c.Statement) -> Statements:
        if isinstance(one, c.Return) and self.own and one.value is not None:
            return self.returned(self.own, one.value)
        if isinstance(one, c.Set):
            return self.assigned(one)
        if isinstance(one, c.Do) and (form := self.form(one.call)) and isinstance(one.call, c.CallOf):
            return [c.Do(self.call(form, one.call, self.idle(form)))]
        for name in c.EXPRESSIONS.get(type(one), ()):
            if getattr(one, name) is not None:
                count = len(self.before)
                setattr(one, name, self.expression(getattr(one, name)))
                if len(self.before) > count and isinstance(one, (c.While, c.For)):
                    raise Unknown("a loop over a result of which more than the status is read")
        return [one]

    def assigned(self, one: c.Set) -> Statements:
        split = self.split.get(one.to.variable) if isinstance(one.to, c.Var) else None
        if split:
            form, status, places = split
            if isinstance(one.value, c.CallOf) and self.form(one.value):
                return [c.Set(c.Var(status), self.call(form, one.value, places))]
            return self.written(form, self.expression(one.value), places, lambda value: c.Set(c.Var(status), value))
        base, path = chain(one.to)
        if isinstance(base, c.Var) and base.variable in self.split and path:
            form, status, places = self.split[base.variable]
            if path == form.sign:
                # Where there is an error, its number is set too.
                return [] if isinstance(one.value, c.Word) and one.value.name == "true" else [c.Set(c.Var(status), form.of_ok())]
            if path == form.flag:
                return [c.Set(c.Var(status), form.of_flag(self.expression(one.value)))]
        to, mine = self.expression(one.to), self.form(one.value)
        if mine and isinstance(one.value, c.CallOf):
            return self.filled(mine, to, one.value)
        return [c.Set(to, self.expression(one.value))]

    def filled(self, form: Form, to: c.Expression, call: c.CallOf) -> Statements:
        """A struct whose members a call writes, and returns."""
        places = [of_path(to, one.path, one.of) for one in form.outs]
        flag = of_path(to, form.flag, c.BOOL if form.number else form.status)
        return [c.Set(flag, form.reading(form.flag, self.call(form, call, places)))]

    def returned(self, form: Form, value: c.Expression) -> Statements:
        places = self.passed()
        if isinstance(value, c.Var) and (split := self.split.get(value.variable)):
            _, status, kept = split
            sets = [c.Set(to, place) for to, place in zip(places, kept) if not isinstance(place, c.Deref)]
            return [*self.constants(form, split[0], places), *sets, c.Return(c.Var(status))]
        inner = self.form(value)
        if inner and isinstance(value, c.CallOf):
            constants = self.constants(form, inner, places)
            left = [place for one, place in zip(form.outs, places) if inner.constant(one.path) is None]
            types = [one.of.text() for one in form.outs if inner.constant(one.path) is None]
            if inner.outs != form.outs and [one.of.text() for one in inner.outs] != types:
                raise Unknown("a result that is returned in another form")
            return [*constants, c.Return(self.call(inner, value, left))]
        if isinstance(value, c.Choice):
            return [c.If(self.expression(value.condition), self.returned(form, value.yes), []), *self.returned(form, value.no)]
        return self.written(form, self.expression(value), places, c.Return)

    @staticmethod
    def constants(form: Form, inner: Form, places: list[c.Expression]) -> Statements:
        """What a function writes that returns the result of another one, which has no pointer for it."""
        numbers = [(place, inner.constant(one.path)) for one, place in zip(form.outs, places)]
        return [c.Set(place, c.Literal(number, place.of)) for place, number in numbers if number is not None]

    def written(self, form: Form, value: c.Expression, places: list[c.Expression], end: Callable[[c.Expression], c.Statement]) -> Statements:
        """What a struct has that a maker makes, or that is somewhere, in the places of it; and its status, as `end` has it."""
        out, flag = Statements(), list[c.Expression]()
        if not is_maker(value):
            for one, place in zip(form.outs, places):
                if one.members:
                    raise Unknown("an error with parts that is somewhere")
                out.append(c.Set(place, of_path(value, one.path, one.of)))
            flag = [of_path(value, form.flag, c.BOOL if form.number else form.status)]
        else:
            for path, part in leaves(value, form):
                if path == form.sign:
                    continue
                if path == form.flag:
                    flag = [part]
                elif (to := form.out_of(path)) is not None:
                    place = places[form.outs.index(to)]
                    out.append(c.Set(to.place(place, path[len(to.path) :], part.of), part))
                    if path == to.path and form.flag[: len(path)] == path and len(form.flag) > len(path):
                        # An error that is stored has its number in it.
                        flag = [of_path(part, form.flag[len(path) :], form.status)]
                elif path != ("error",) or not form.number:
                    # An error that is silent is a number alone.
                    raise Unknown(f"a part {path} of a result")
        return [*out, end(form.of_flag(flag[0]) if flag else form.of_ok())]

    # Expressions.

    def expression(self, one: c.Expression, is_certain: bool = True) -> c.Expression:
        """An expression, whose calls have their form. `is_certain` says whether it is computed in any case."""
        if isinstance(one, c.Field):
            base, path = chain(one)
            if isinstance(base, c.Var) and base.variable in self.split:
                form, status, places = self.split[base.variable]
                return self.part(form, c.Var(status), places, path, one.of)
            if isinstance(base, c.CallOf) and (found := self.form(base)):
                places = self.idle(found)
                call = self.call(found, base, places)
                if path in (found.flag, found.sign):
                    return passes.simpler(found.reading(path, call))
                if not is_certain:
                    raise Unknown("a part of a result that is perhaps not asked for")
                self.before.append(c.Do(call))
                return self.part(found, call, places, path, one.of)
        if isinstance(one, c.CallOf) and (whole := self.form(one)):
            if not is_certain:
                raise Unknown("a result that is perhaps not asked for")
            made = c.Var(c.Variable(one.of, hint=whole.outs[0].name))
            self.before += self.filled(whole, made, one)
            return made
        changed = dict[str, Any]()
        for name in c.CHILDREN.get(type(one), ()):
            value = getattr(one, name)
            is_later = (
                isinstance(one, c.Choice) and name != "condition" or isinstance(one, c.Binary) and one.operator in c.LOGICAL and name == "right"
            )
            certain = is_certain and not is_later
            changed[name] = [self.expression(each, certain) for each in value] if isinstance(value, list) else self.expression(value, certain)
        if any(changed[name] is not getattr(one, name) for name in changed):
            one = dataclasses.replace(one, **changed)
        return one

    @staticmethod
    def part(form: Form, status: c.Expression, places: list[c.Expression], path: Path, of: c.Type) -> c.Expression:
        """A member of the struct that would be."""
        if path in (form.flag, form.sign):
            return form.reading(path, status)
        to, number = form.out_of(path), form.constant(path)
        if number is not None:
            return c.Literal(number, of)
        if to is None and form.number and path[:1] == ("error",):
            # What nobody reads of an error: it goes with the struct that it would be a part of.
            return c.Word("uart_silent", of)
        if to is None:
            raise Unknown(f"a part {path} of a result")
        return to.place(places[form.outs.index(to)], path[len(to.path) :], of)

    def passed(self) -> list[c.Expression]:
        """What the pointers lead to that the function itself is given."""
        return [c.Deref(c.Var(one)) for one in self.pointers]

    def idle(self, form: Form) -> list[c.Expression]:
        """Variables for what a call writes."""
        return [c.Var(c.Variable(one.of, None, False, -1, one.meaning, one.name)) for one in form.outs]

    def call(self, form: Form, one: c.CallOf, places: list[c.Expression]) -> c.CallOf:
        """A call that writes into these places."""
        given = [self.expression(each) for each in one.arguments]
        pointers = [passes.simpler(c.AddressOf(place, c.Pointer(place.of))) for place in places]
        expects = (*one.expects, *(each.of for each in pointers)) if one.expects else ()
        return c.CallOf(one.name, [*given, *pointers], form.status, False, expects)


def without_constants(statements: Statements, form: Form, pointers: list[c.Variable]) -> tuple[Form, list[c.Variable]]:
    """A function without the pointers of an error to which it writes one and the same number, if anything: its form, and the pointers that
    are left."""
    outs, left, constants = list[Out](), list[c.Variable](), list[tuple[Out, int]]()
    for one, pointer in zip(form.outs, pointers):
        sets = [each for each in c.all_statements(statements) if isinstance(each, c.Set) and is_behind(each.to, pointer)]
        numbers = {each.value.value if isinstance(each.value, c.Literal) else None for each in sets} or {0}
        number = numbers.pop()
        if one.path[:1] != ("error",) or one.members or numbers or number is None or passes.mentioned(statements, pointer) != len(sets):
            outs.append(one)
            left.append(pointer)
            continue
        constants.append((one, number))
        for body in passes.every_list(statements):
            body[:] = [each for each in body if each not in sets]
    return dataclasses.replace(form, outs=tuple(outs), constants=tuple(constants)), left


def is_behind(one: c.Expression, pointer: c.Variable) -> bool:
    """Whether this is what a pointer leads to."""
    return isinstance(one, c.Deref) and passes.is_of(one.pointer, pointer)


def of_path(whole: c.Expression, path: Path, of: c.Type) -> c.Expression:
    """The part of a struct that some names lead to."""
    if is_maker(whole) and path and isinstance(whole, c.CallOf) and path[0] in whole.members():
        return of_path(whole.members()[path[0]], path[1:], of)
    for order, name in enumerate(path, 1):
        whole = c.Field(whole, name, of if order == len(path) else c.VOID)
    return whole


def leaves(one: c.Expression, form: Form, path: Path = ()) -> list[tuple[Path, c.Expression]]:
    """The parts that makers make, each with the names that lead to it, as deep as a form has them."""
    wanted = [form.flag, form.sign, *(to.path for to in form.outs if not to.members), *((*to.path, name) for to in form.outs for name in to.members)]
    is_whole = any(to.path == path and not to.members for to in form.outs)
    is_deeper = any(to[: len(path)] == path and len(to) > len(path) for to in wanted)
    if isinstance(one, c.CallOf) and is_maker(one) and is_deeper and not is_whole:
        return [leaf for name, part in one.members().items() for leaf in leaves(part, form, (*path, name))]
    return [(path, one)]


# The numbers that functions return, by their names.
Numbers: TypeAlias = Mapping[str, frozenset[str]]


def numbers_of(statements: Statements, known: Numbers) -> frozenset[str] | None:
    """The names of all numbers that a function returns, or None if it is not seen."""
    found = list[c.Expression]()
    for one in c.all_statements(statements):
        if isinstance(one, c.Return) and one.value is not None and isinstance(one.value, c.Var):
            found += values_of(statements, one.value.variable) or [one.value]
        elif isinstance(one, c.Return) and one.value is not None:
            found.append(one.value)
    return numbers_in(found, known)


def values_of(statements: Statements, variable: c.Variable) -> list[c.Expression]:
    """All values that a variable gets."""
    return [one.value for one in c.all_statements(statements) if isinstance(one, c.Set) and passes.assigns(one, variable)]


def numbers_in(values: list[c.Expression], known: Numbers) -> frozenset[str] | None:
    """The names of the numbers that some values may be."""
    out = set[str]()
    for one in values:
        if isinstance(one, c.Word) and one.of is INT:
            out.add(one.name)
        elif isinstance(one, c.CallOf) and one.name in known:
            out |= known[one.name]
        else:
            return None
    return frozenset(out) if out else None


def without_idle_numbers(statements: Statements, known: Numbers, others: Mapping[str, Mapping[str, str]], ok: str) -> None:
    """A number in the place of a call that gives an error its number in another enum, where only one error can come. `others` has these
    numbers, by the function that gives them."""

    def change(one: c.Expression) -> c.Expression:
        error = one.arguments[0] if isinstance(one, c.CallOf) and one.name in others else None
        if not isinstance(one, c.CallOf) or not isinstance(error, c.Var):
            return one
        errors = (numbers_in(values_of(statements, error.variable), known) or frozenset()) - {ok}
        numbers = {others[one.name][name] for name in errors}
        return c.Word(numbers.pop(), INT) if len(numbers) == 1 else one

    passes.on_expressions(statements, change)


def with_passed_numbers(statements: Statements, known: Numbers, ok: str) -> Statements:
    """The number that another function returns, in the place of a choice between no error and the only one that it has."""
    if len(statements) < 2:
        return statements
    test, last = statements[-2:]
    if not isinstance(test, c.If) or test.no or len(test.yes) != 1 or not isinstance(test.yes[0], c.Return) or not isinstance(last, c.Return):
        return statements
    error, none, condition = test.yes[0].value, last.value, test.condition
    if not isinstance(error, c.Word) or not isinstance(none, c.Word) or not isinstance(condition, c.Binary) or condition.operator != "!=":
        return statements
    call, compared = condition.left, condition.right
    is_of_ok = none.name == ok and isinstance(compared, c.Word) and compared.name == ok
    if not is_of_ok or not isinstance(call, c.CallOf) or known.get(call.name) != frozenset((ok, error.name)):
        return statements
    return [*statements[:-2], c.Return(call)]


def join_statuses(statements: Statements) -> None:
    """Gives a status the variable of one before it that nobody reads any more."""
    for body in passes.every_list(statements):
        last: c.Variable | None = None
        for order, one in enumerate(body):
            if not (isinstance(one, c.Set) and isinstance(one.to, c.Var) and one.to.of is INT) or one.to.variable.is_parameter:
                continue
            mine = one.to.variable
            is_here = passes.mentioned(statements, mine) == passes.mentioned(body[order:], mine)
            if last is not None and last is not mine and is_here and not passes.mentions(body[order:], last):
                joined = last
                passes.on_expressions(body[order:], lambda part: c.Var(joined) if passes.is_of(part, mine) else part)
            elif is_here and passes.mentioned(statements, mine) == passes.mentioned(body, mine):
                last = mine


def pass_on_pointers(statements: Statements) -> None:
    """Gives a call the pointer of a parameter, where what it writes is only copied there if it does."""
    for body in passes.every_list(statements):
        for one in body:
            first = one.yes[0] if isinstance(one, c.If) and one.yes else None
            if not (
                isinstance(first, c.Set) and isinstance(first.to, c.Deref) and isinstance(first.to.pointer, c.Var) and isinstance(first.value, c.Var)
            ):
                continue
            to, local = first.to.pointer, first.value.variable
            given = [part for part in c.all_parts(statements) if isinstance(part, c.AddressOf) and passes.is_of(part.place, local)]
            count = sum(passes.is_of(part, local) for part in c.all_parts(statements))
            is_same = to.variable.is_parameter and not local.is_parameter and first.to.of.text() == local.of.text()
            if is_same and len(given) == 1 and count == 2 and isinstance(one, c.If) and given[0] in [*c.every(one.condition)]:
                one.condition = c.rebuilt(one.condition, lambda part: to if part is given[0] else part)
                del one.yes[0]
