"""The bodies of the MIR as trees over concrete types: what is small and of a library is put in place of its call, branches that are never
reached are left out, and each local is split into variables of one purpose."""
from __future__ import annotations

import dataclasses
from collections.abc import Callable, Iterator, Sequence
from typing import TypeAlias

from translate import Dictionaries, Node, Program, Translation, Type, Types, Unknown, head

# A function over concrete types: its name, the types, and the dictionaries.
Key: TypeAlias = tuple[str, Types, Dictionaries]

# A function of a library that has no loop is put in place of its call up to so many statements.
SMALL = 14
# One of ours only if it is no more than this, and calls nothing.
TINY = 3
# What C has in the place of a parameter: the device of a driver, and the ports of a line.
DEVICE = ("Named", "Device", ())
PATIENCE = ("Named", "Patience", ())
PORTS = ("Named", "Ports", ())
# Where the cells of the rings come from: memory of the caller.
MEMORY = ("Named", "std_heap::Global", ())
# How the name of a method of theirs begins.
OF_CALLER = "of the caller: "
# What goes over a slice item by item. Its functions are put in place of their calls, so that C has a loop.
ITEMS = "core::iter::slices::Iter"
NEXT = "core::iter::slices::IterIterator::next"
OVER_ITEMS = ("core::iter::base::Iterator::all", "core::iter::base::Iterator::any")
# Put in place of their calls though they are not small: most of what they do depends on arguments that are numbers.
IN_PLACE = (NEXT, "std::slices::slice+T::copy_within", "std_alloc::shifts::shift")


# Operands and values.


# ("Field", number), ("Variant", number) or ("Deref", type).
Step: TypeAlias = tuple[str, Type]


@dataclasses.dataclass(frozen=True)
class Place:
    """A local, or what steps lead to from there."""

    local: int
    steps: tuple[Step, ...] = ()


@dataclasses.dataclass(frozen=True)
class Int:
    value: int
    bits: int


@dataclasses.dataclass(frozen=True)
class Truth:
    value: bool


@dataclasses.dataclass(frozen=True)
class Nothing:
    """The value of the type that has only one."""


@dataclasses.dataclass(frozen=True)
class SizeOf:
    of: Type


@dataclasses.dataclass(frozen=True)
class Address:
    place: Place


@dataclasses.dataclass(frozen=True)
class Repeat:
    item: Operand
    count: int


@dataclasses.dataclass(frozen=True)
class Aggregate:
    parts: tuple[Operand | Repeat, ...]


@dataclasses.dataclass(frozen=True)
class One:
    operation: str
    how: Node
    operand: Operand


@dataclasses.dataclass(frozen=True)
class Two:
    operation: str
    sign: Node
    first: Operand
    second: Operand


@dataclasses.dataclass(frozen=True)
class Static:
    of: Type
    node: Node = dataclasses.field(hash=False)


Operand: TypeAlias = Place | Int | Truth | Nothing | SizeOf
Value: TypeAlias = Operand | Address | Repeat | Aggregate | One | Two | Static
ChangePlace: TypeAlias = Callable[[Place], Place]


# Statements. Each is itself alone, so that two that look the same stay two.


@dataclasses.dataclass(eq=False)
class Assign:
    place: Place
    value: Value


@dataclasses.dataclass(eq=False)
class Call:
    place: Place
    function: Key
    arguments: list[Operand]


@dataclasses.dataclass(eq=False)
class Switch:
    on: Operand
    cases: list[Case]  # numbers or None for all others, and statements


@dataclasses.dataclass(eq=False)
class Block:
    body: list[Statement]


@dataclasses.dataclass(eq=False)
class Loop:
    body: list[Statement]


@dataclasses.dataclass(eq=False)
class Exit:
    """Leaves so many blocks and loops around it, and one more."""

    depth: int


@dataclasses.dataclass(eq=False)
class Return:
    pass


@dataclasses.dataclass(eq=False)
class Never:
    """What is proved never to be reached."""


Statement: TypeAlias = Assign | Call | Switch | Block | Loop | Exit | Return | Never
Case: TypeAlias = tuple[list[int] | None, list[Statement]]


def bodies(statement: Statement) -> list[list[Statement]]:
    """The lists of statements in a statement."""
    if isinstance(statement, (Block, Loop)):
        return [statement.body]
    if isinstance(statement, Switch):
        return [body for _, body in statement.cases]
    return []


def walk(statements: list[Statement]) -> Iterator[Statement]:
    for one in statements:
        yield one
        for body in bodies(one):
            yield from walk(body)


def places_of(value: Value) -> list[Place]:
    """The places that a value or an operand reads."""
    if isinstance(value, Place):
        return [value]
    if isinstance(value, Address):
        return [value.place]
    if isinstance(value, Repeat):
        return places_of(value.item)
    if isinstance(value, Aggregate):
        return [place for one in value.parts for place in places_of(one)]
    if isinstance(value, One):
        return places_of(value.operand)
    if isinstance(value, Two):
        return places_of(value.first) + places_of(value.second)
    return []


def places_read(statement: Statement) -> list[Place]:
    """The places that a statement itself reads, not those of the statements in it."""
    if isinstance(statement, Assign):
        return places_of(statement.value)
    values = statement.arguments if isinstance(statement, Call) else [statement.on] if isinstance(statement, Switch) else []
    return [place for value in values for place in places_of(value)]


def with_place(one: Operand, change: ChangePlace) -> Operand:
    """The same operand, its place as `change` says."""
    return change(one) if isinstance(one, Place) else one


def with_places(value: Value, change: ChangePlace) -> Value:
    """The same value, each place that it reads as `change` says."""
    if isinstance(value, Place):
        return change(value)
    if isinstance(value, Address):
        return Address(change(value.place))
    if isinstance(value, Repeat):
        return repeated(value, change)
    if isinstance(value, Aggregate):
        return Aggregate(tuple(repeated(one, change) if isinstance(one, Repeat) else with_place(one, change) for one in value.parts))
    if isinstance(value, One):
        return One(value.operation, value.how, with_place(value.operand, change))
    if isinstance(value, Two):
        return Two(value.operation, value.sign, with_place(value.first, change), with_place(value.second, change))
    return value


def repeated(value: Repeat, change: ChangePlace) -> Repeat:
    return Repeat(with_place(value.item, change), value.count)


def renamed(statements: list[Statement], number: Callable[[int], int]) -> list[Statement]:
    """A copy of statements with other numbers of locals."""

    def place(one: Place) -> Place:
        return Place(number(one.local), one.steps)

    out = list[Statement]()
    for one in statements:
        if isinstance(one, Assign):
            out.append(Assign(place(one.place), with_places(one.value, place)))
        elif isinstance(one, Call):
            out.append(Call(place(one.place), one.function, [with_place(argument, place) for argument in one.arguments]))
        elif isinstance(one, Switch):
            out.append(Switch(with_place(one.on, place), [(numbers, renamed(body, number)) for numbers, body in one.cases]))
        elif isinstance(one, (Block, Loop)):
            out.append(type(one)(renamed(one.body, number)))
        elif isinstance(one, Exit):
            out.append(Exit(one.depth))
        else:
            out.append(type(one)())
    return out


class Tree:
    """A function over concrete types."""

    def __init__(self, forest: Forest, key: Key) -> None:
        self.forest, self.key = forest, key
        name, self.types, self.dictionaries = key
        function = forest.program.functions[name]
        self.nodes, self.at = function["body"], 0
        self.params = function["params"]
        self.own = len(function["locals"])
        self.locals = [forest.type(one["ty"], self.types) for one in function["locals"]]
        # Which local of the function a variable was made from, for its name.
        self.origin: list[int | None] = [*range(self.own)]
        self.body = self.statement()
        if self.at != len(self.nodes):
            raise Unknown("a body with more than one tree")
        self.body = self.with_loops(self.body)
        if any(is_items(of) for of in self.locals):
            self.body = with_known_variants(self.body)
            forward_items(self)
        forward_repetitions(self)

    def statement(self) -> list[Statement]:
        """The next statement of the body, as a list of statements."""
        kind, value = head(self.nodes[self.at])
        self.at += 1
        if kind == "Seq":
            first = self.statement()
            second = self.statement()
            return first if first and isinstance(first[-1], Never) else first + second
        if kind == "Skip":
            return []
        if kind in ("Block", "Loop"):
            return [Block(self.statement()) if kind == "Block" else Loop(self.statement())]
        if kind == "Return":
            return [Return()]
        if kind == "Exit":
            return [Exit(value)]
        if kind == "Unreachable":
            return [Never()]
        if kind == "If":
            return self.choice(self.operand(value), [([1], self.statement()), ([0], self.statement())])
        if kind == "Switch":
            cases: list[Case] = [(numbers, self.statement()) for numbers in value[1]]
            if value[2]:
                cases.append((None, self.statement()))
            return self.choice(self.operand(value[0]), cases)
        if kind == "Assign":
            return [Assign(self.place(value[0]), self.value(value[1]))]
        if kind == "LendStatic":
            return self.lent(self.place(value[0]), self.forest.type(value[1], self.types), value[2])
        if kind == "Call":
            return self.call(*value)
        raise Unknown(f"a statement {kind}")

    def lent(self, place: Place, of: Type, node: Node) -> list[Statement]:
        """The address of a constant: of a struct of numbers, as that of a variable."""
        shape, parts = head(node)
        if of[0] != "Named" or shape != "Parts" or any(head(one)[0] != "Int" for one in parts):
            return [Assign(place, Static(of, node))]
        self.locals.append(of)
        self.origin.append(None)
        made = Place(len(self.locals) - 1)
        return [Assign(made, Aggregate(tuple(map(self.operand, parts)))), Assign(place, Address(made))]

    @staticmethod
    def choice(on: Operand, cases: list[Case]) -> list[Statement]:
        """A choice without what is never reached: that it is not is proved."""
        reached = [(numbers, body) for numbers, body in cases if not (body and isinstance(body[-1], Never))]
        if len(reached) == 1 and len(cases) > 1:
            return reached[0][1]
        return [Switch(on, reached)]

    def place(self, node: Node) -> Place:
        return Place(
            node["local"],
            tuple((kind, self.forest.type(value, self.types) if kind == "Deref" else value) for kind, value in map(head, node["steps"])),
        )

    def operand(self, node: Node) -> Operand:
        kind, value = head(node)
        if kind in ("Copy", "Move"):
            return self.place(value)
        if kind == "Int":
            return Int(value["value"] % (1 << value["width"]), value["width"])
        if kind == "Unit":
            return Nothing()
        if kind in ("True", "False"):
            return Truth(kind == "True")
        if kind == "NumOf":
            return Int(self.forest.number(value[1], self.types), value[0])
        if kind == "SizeOf":
            return SizeOf(self.forest.type(value, self.types))
        raise Unknown(f"an operand {kind}")

    def value(self, node: Node) -> Value:
        kind, value = head(node)
        if kind == "Opd":
            return self.operand(value)
        if kind == "AddrOf":
            return Address(self.place(value))
        if kind == "Repeat":
            return Repeat(self.operand(value[0]), self.forest.number(value[1], self.types))
        if kind == "Aggregate":
            return Aggregate(tuple(map(self.operand, value)))
        if kind == "Op1":
            return One(*head(value[0]), self.operand(value[1]))
        if kind == "Op2":
            return Two(*head(value[0]), self.operand(value[1]), self.operand(value[2]))
        raise Unknown(f"a value {kind}")

    def call(self, called: Node, arguments: Node, result: Node) -> list[Statement]:
        key = self.forest.called(called, self.types, self.dictionaries)
        if key is None:
            return []
        if key[0] in NEVER_RETURN:
            return [Never()]
        if key[0] == FREES:
            return []
        place, arguments = self.place(result), list(map(self.operand, arguments))
        callee = self.forest.callee(key)
        if callee is None:
            return [Call(place, key, arguments)]
        return self.in_place(callee, arguments, place)

    def in_place(self, callee: Tree, arguments: list[Operand], place: Place) -> list[Statement]:
        """The body of a function in place of its call."""
        given, body, result = self.taken_over(callee, arguments)
        return [*given, *without_returns(body), Assign(place, Place(result))]

    def taken_over(self, callee: Tree, arguments: list[Operand]) -> tuple[list[Statement], list[Statement], int]:
        """The assignments of the arguments, the body of a function with locals of this one, and the local of its result."""
        shift = len(self.locals)
        self.locals += callee.locals
        self.origin += [None] * len(callee.locals)
        given: list[Statement] = [Assign(Place(shift + order), one) for order, one in enumerate(arguments, 1)]
        return given, renamed(callee.body, lambda number: number + shift), shift

    def with_loops(self, statements: list[Statement]) -> list[Statement]:
        """The same, with what goes over a slice in place of its call where that is the last that is done."""
        out = list[Statement]()
        for order, one in enumerate(statements):
            for body in bodies(one):
                body[:] = self.with_loops(body)
            is_last = order + 1 < len(statements) and isinstance(statements[order + 1], Return)
            if isinstance(one, Call) and one.function[0] in OVER_ITEMS and one.place == Place(0) and is_last:
                given, body, result = self.taken_over(self.forest.tree(one.function), one.arguments)
                return [*out, *given, *renamed(body, lambda number: 0 if number == result else number)]
            out.append(one)
        return out


def forward_repetitions(tree: Tree) -> None:
    """Puts an array of one item many times into the one struct that it is made for."""
    made, used = dict[int, list[Assign | Call]](), dict[int, list[tuple[Statement, Place]]]()
    for one in walk(tree.body):
        if isinstance(one, (Assign, Call)) and not one.place.steps:
            made.setdefault(one.place.local, []).append(one)
        for place in places_read(one):
            used.setdefault(place.local, []).append((one, place))
        if isinstance(one, (Assign, Call)) and one.place.steps:
            used.setdefault(one.place.local, []).append((one, one.place))
    for local, statements in made.items():
        first, uses = statements[0], used.get(local, [])
        if not (isinstance(first, Assign) and isinstance(first.value, Repeat) and len(statements) == len(uses) == 1):
            continue
        [(into, place)], repeat = uses, first.value
        if not isinstance(into, Assign) or not isinstance(into.value, Aggregate) or place.steps:
            continue
        if any(len(made.get(place.local, [])) != 1 for place in places_of(repeat)):
            continue
        into.value = Aggregate(tuple(repeat if one == Place(local) else one for one in into.value.parts))
        remove(tree.body, first)


def remove(statements: list[Statement], which: Statement) -> None:
    statements[:] = [one for one in statements if one is not which]
    for one in statements:
        for body in bodies(one):
            remove(body, which)


# The cells of a queue are memory of the caller, which nobody frees.
FREES = "std_alloc::vec::Vec::drop"
NEVER_RETURN = {"core::assertions::unreachable"}


def returns(body: list[Statement]) -> bool:
    return bool(body) and isinstance(body[-1], Return)


def without_returns(statements: list[Statement]) -> list[Statement]:
    """A body without its returns: what is behind a branch that returns goes into the other one."""
    out = list[Statement]()
    for order, one in enumerate(statements):
        if isinstance(one, Return):
            return out
        if any(isinstance(inner, Return) for inner in walk([one])):
            if not isinstance(one, Switch) or sum(not returns(body) for _, body in one.cases) > 1:
                raise Unknown("a return in the middle of a function of a library")
            rest = statements[order + 1 :]
            return [*out, Switch(one.on, [(numbers, without_returns(body if returns(body) else [*body, *rest])) for numbers, body in one.cases])]
        out.append(one)
    return out


def is_items(of: Type) -> bool:
    return isinstance(of, tuple) and of[:2] == ("Named", ITEMS)


def with_known_variants(statements: list[Statement]) -> list[Statement]:
    """The same, where a choice between variants comes behind another one that has made them: the branches of the second go into those of the
    first."""
    out, rest = [], list(statements)
    while rest:
        one = rest.pop(0)
        joined = joined_choices(one, rest) if isinstance(one, Switch) else None
        if joined:
            one, count = joined
            del rest[:count]
        for body in bodies(one):
            body[:] = with_known_variants(body)
        out.append(one)
    return out


def joined_choices(first: Switch, rest: list[Statement]) -> tuple[Switch, int] | None:
    """The choice that the first and one behind it are, and how many statements of the rest are in it; or None."""
    made = [found for _, body in first.cases if (found := made_variant(body))]
    names, tags, count = {place for place, _ in made}, [tag for _, tag in made], 0
    if len(made) < len(first.cases) or len(names) != 1 or any(place.steps for place in names):
        return None
    for one in rest:
        if not isinstance(one, Assign) or one.value not in names or one.place.steps:
            break
        names.add(one.place)
        count += 1
    second = rest[count] if count < len(rest) else None
    if not isinstance(second, Switch) or not isinstance(second.on, Place) or Place(second.on.local) not in names:
        return None
    if [word for word, _ in second.on.steps] != ["Variant", "Field"] or second.on.steps[1][1] != 0:
        return None
    behind = [next((body for numbers, body in second.cases if numbers is None or tag in numbers), None) for tag in tags]
    chosen = [body for body in behind if body is not None]
    if len(set(tags)) < len(tags) or len({id(body) for body in chosen}) < len(tags):
        return None
    cases = [(numbers, [*body, *renamed(rest[:count], lambda number: number), *its]) for (numbers, body), its in zip(first.cases, chosen)]
    return Switch(first.on, cases), count + 1


def made_variant(body: list[Statement]) -> tuple[Place, int] | None:
    """Where a body ends with making a variant of an enum, and the number of the variant."""
    last = body[-1] if body else None
    if isinstance(last, Assign) and isinstance(last.value, Aggregate) and last.value.parts and isinstance(last.value.parts[0], Int):
        return last.place, last.value.parts[0].value
    return None


def forward_items(tree: Tree) -> None:
    """Names what goes over a slice itself where it is reached by its address, which is one place for ever."""
    made = dict[int, list[Value | None]]()
    for one in walk(tree.body):
        if isinstance(one, (Assign, Call)) and not one.place.steps:
            made.setdefault(one.place.local, []).append(one.value if isinstance(one, Assign) else None)

    def target(local: int) -> int | None:
        """The local whose address this one has."""
        values = made.get(local, [])
        if len(values) != 1 or 0 < local <= tree.params:
            return None
        value = values[0]
        if isinstance(value, Place) and not value.steps:
            return target(value.local)
        if isinstance(value, Address) and not value.place.steps:
            return value.place.local if is_items(tree.locals[value.place.local]) else None
        if isinstance(value, Address) and [word for word, _ in value.place.steps] == ["Deref"]:
            return target(value.place.local)
        return None

    targets = {local: target(local) for local in made}

    def direct(place: Place) -> Place:
        to = targets.get(place.local)
        return Place(to, place.steps[1:]) if to is not None and place.steps and place.steps[0][0] == "Deref" else place

    def go(statements: list[Statement]) -> list[Statement]:
        out = []
        for one in statements:
            if isinstance(one, Assign) and not one.place.steps and targets.get(one.place.local) is not None:
                continue
            if isinstance(one, (Assign, Call)):
                one.place = direct(one.place)
            if isinstance(one, Assign):
                one.value = with_places(one.value, direct)
            elif isinstance(one, Call):
                one.arguments = [with_place(argument, direct) for argument in one.arguments]
            elif isinstance(one, Switch):
                one.on = with_place(one.on, direct)
            for body in bodies(one):
                body[:] = go(body)
            out.append(one)
        return out

    tree.body = go(tree.body)


class Forest(Translation):
    """All trees that are asked for. `natives` are the functions that C has in another way, and `own` the crates whose functions stay
    functions in C."""

    def __init__(self, program: Program, natives: Callable[[str], bool], own: Sequence[str]) -> None:
        super().__init__(program, {}, own)
        self.trees, self.is_native = dict[Key, Tree](), natives
        for _, name, _ in (DEVICE, PATIENCE, PORTS):
            program.types[name] = {"name": name, "shape": {"Fields": []}}

    def type(self, node: Node, types: Types) -> Type:
        """As in the translation to Rust, but a reference says whether it may change what it is to."""
        kind, value = head(node)
        if kind == "Ref":
            return ("Ref", self.type(value[2], types), value[1] == "Mut")
        return super().type(node, types)

    def called(self, called: Node, types: Types, dictionaries: Dictionaries) -> Key | None:
        """The function of a call: its name, its types and its dictionaries. None if it does nothing."""
        kind, what = head(called)
        given = what[1] if kind == "Fn" else what[2]
        types_given = tuple(self.type(one, types) for one in given["types"])
        dictionaries_given = tuple(self.dictionary(one, types, dictionaries) for one in given["dicts"])
        if kind == "Fn":
            return (what[0], types_given, dictionaries_given)
        dictionary = self.dictionary(what[0], types, dictionaries)
        if dictionary[0].startswith(OF_CALLER):
            return (f"{dictionary[0]} {what[1]}", (), ())
        name = self.program.methods.get((dictionary[0], what[1]))
        if name is None:
            listed = self.program.implementations.get(dictionary[0], {"methods": []})["methods"]
            name = listed[what[1]] if what[1] < len(listed) else None
        if name is None and what[1] == 0 and "Destruct" in dictionary[0]:
            return None
        if name is None:
            raise Unknown(f"the method {what[1]} of {dictionary[0]}")
        return (name, dictionary[1] + types_given, dictionary[2] + dictionaries_given)

    def tree(self, key: Key) -> Tree:
        if key not in self.trees:
            self.trees[key] = Tree(self, key)
        return self.trees[key]

    def callee(self, key: Key) -> Tree | None:
        """The tree of a function whose body takes the place of its call, else None."""
        if self.is_native(key[0]) or key[0] not in self.program.functions:
            return None
        tree = self.tree(key)
        if key[0] in IN_PLACE:
            return tree
        found = list(walk(tree.body))
        if sum(isinstance(one, Return) for one in found) > 1 or any(isinstance(one, Loop) for one in found):
            return None
        is_flat = not any(isinstance(one, (Switch, Exit)) for one in found)
        size = sum(isinstance(one, (Assign, Call, Switch)) for one in found)
        calls = [one for one in found if isinstance(one, Call)]
        if key[0].split("::")[0] not in self.own:
            return tree if is_flat or size <= SMALL else None
        touches_device = any(one.function[0].startswith(OF_CALLER) for one in calls)
        if is_flat and not touches_device and key[0].endswith(("PartialEq::eq", "Default::default", "FnOnce::call_once", "FnMut::call_mut")):
            return tree
        return tree if is_flat and not calls and size <= TINY else None


# Each group of definitions that reach a common use becomes a variable of its own.


# The definitions that reach a place, by the local.
Reaching: TypeAlias = dict[int, frozenset[int]]


class Webs:
    def __init__(self, tree: Tree) -> None:
        self.tree = tree
        self.parents, self.local_of = list[int](), list[int]()
        self.made, self.used = dict[tuple[str | int, int], int](), dict[tuple[int, int], int]()
        self.start = {order: self.definition("start", order) for order in range(tree.params + 1)}

    def definition(self, statement: Statement | str, local: int) -> int:
        key: tuple[str | int, int] = (statement if isinstance(statement, str) else id(statement), local)
        if key not in self.made:
            self.made[key] = len(self.parents)
            self.parents.append(len(self.parents))
            self.local_of.append(local)
        return self.made[key]

    def root(self, number: int) -> int:
        while self.parents[number] != number:
            number = self.parents[number]
        return number

    def use(self, statement: Statement, local: int, reaching: Reaching) -> None:
        """Notes a use of a local, and joins the definitions that reach it."""
        found = reaching.get(local) or frozenset([self.definition("none", local)])
        first, *others = sorted(found)
        for one in others:
            self.parents[self.root(one)] = self.root(first)
        self.used[id(statement), local] = first

    @staticmethod
    def joined(one: Reaching | None, other: Reaching | None) -> Reaching | None:
        """What reaches a place that two ways lead to; None is a way that nobody goes."""
        if one is None or other is None:
            return other if one is None else one
        return {local: one.get(local, frozenset()) | other.get(local, frozenset()) for local in one.keys() | other.keys()}

    def flow(self, statements: list[Statement], reaching: Reaching | None, exits: list[list[Reaching | None]]) -> Reaching | None:
        for one in statements:
            if reaching is None:
                return None
            reaching = self.flow_of_one(one, reaching, exits)
        return reaching

    def flow_of_one(self, one: Statement, reaching: Reaching, exits: list[list[Reaching | None]]) -> Reaching | None:
        if isinstance(one, (Assign, Call)):
            for place in [*places_read(one), *([one.place] if one.place.steps else [])]:
                self.use(one, place.local, reaching)
            if one.place.steps:
                return reaching
            return {**reaching, one.place.local: frozenset([self.definition(one, one.place.local)])}
        if isinstance(one, Switch):
            for place in places_read(one):
                self.use(one, place.local, reaching)
            ends = [self.flow(body, reaching, exits) for _, body in one.cases]
            out = None
            for end in ends:
                out = self.joined(out, end)
            return out
        if isinstance(one, Block):
            left = list[Reaching | None]([None])
            return self.joined(self.flow(one.body, reaching, [left, *exits]), left[0])
        if isinstance(one, Loop):
            while True:
                left = list[Reaching | None]([None])
                around = self.joined(reaching, self.flow(one.body, reaching, [left, *exits]))
                if around is None or around == reaching:
                    return left[0]
                reaching = around
        if isinstance(one, Exit):
            exits[one.depth][0] = self.joined(exits[one.depth][0], reaching)
        elif isinstance(one, Return):
            self.use(one, 0, reaching)
        return None

    def run(self) -> None:
        """Gives each web a local of its own: a parameter keeps its number."""
        tree = self.tree
        self.flow(tree.body, {local: frozenset([one]) for local, one in self.start.items()}, [])
        numbers = {self.root(one): local for local, one in self.start.items()}
        taken = set(self.start)

        def number(one: int) -> int:
            root = self.root(one)
            if root not in numbers:
                local = self.local_of[root]
                if local == 0 or local not in taken:
                    numbers[root] = local
                    taken.add(local)
                else:
                    numbers[root] = len(tree.locals)
                    tree.locals.append(tree.locals[local])
                    tree.origin.append(tree.origin[local])
            return numbers[root]

        for one in walk(tree.body):

            def read(place: Place, one: Statement = one) -> Place:
                used = self.used.get((id(one), place.local))
                return place if used is None else Place(number(used), place.steps)

            if isinstance(one, Assign):
                one.value = with_places(one.value, read)
            elif isinstance(one, Call):
                one.arguments = [with_place(argument, read) for argument in one.arguments]
            elif isinstance(one, Switch):
                one.on = with_place(one.on, read)
            if isinstance(one, (Assign, Call)):
                if one.place.steps:
                    one.place = read(one.place)
                elif one.place.local:
                    one.place = Place(number(self.definition(one, one.place.local)))
