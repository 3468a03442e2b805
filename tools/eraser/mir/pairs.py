"""Pairs each emitted function with its MIR, and writes what compares the two: Rust text, behind the file of the function."""
import dataclasses
import json
import pathlib
import re
from collections.abc import Callable, Collection, Iterable, Mapping, Sequence

import listed
import natives
import witness
from emitted import Emitted, Function, begin
from emitted import Type as EmittedType
from translate import Node, Translation, Type, Unknown
from values import BY_HAND, without_lifetimes

DEVICE = "crate::run::Device"
# A parameter of which nothing is asked, as what wakes a task, is a byte on both sides.
UNASKED = re.compile(r"[<,]\s*([A-Z])\s*(?=[,>])")
OF_UNASKED = ("Int", 8)
# A parameter that is a number.
NUMBER = re.compile(r"\bconst ([A-Z]\w*): usize\b")
# The methods of derived traits, and how many values of the type they take.
DERIVED = {"PartialEq": ("eq", 2), "Ord": ("cmp", 2), "PartialOrd": ("partial_cmp", 2), "Default": ("default", 0), "Clone": ("clone", 1)}
PRINTED = {"Debug": ["{:?}", "{:#?}"], "Display": ["{}"]}
WORDS = "::std::vec::Vec::new()"
# What is checked of an offset: a sequence has only offsets of registers.
OF_OFFSET = "a1 >= 8"
DECLARATION = "a declaration"


@dataclasses.dataclass
class Argument:
    """An argument on both sides: the statements that make it, how it is passed, and what is shown of it behind the call."""

    rust: str
    mir: str
    rust_passed: str
    mir_passed: str
    is_changed: bool = False


class Names:
    """Which function of the MIR an emitted function is."""

    def __init__(self, functions: Mapping[str, Node], crates: Collection[str]) -> None:
        self.functions, self.by_end = functions, dict[str, list[str]]()
        for name in functions:
            if name.split("::")[0] in crates:
                self.by_end.setdefault(name.split("::")[-1], []).append(name)

    def paired(self, declared: list[Function], crates: Collection[str]) -> tuple[dict[str, Function], list[str]]:
        """The emitted functions of crates by the names of their MIR, and those that have none."""
        pairs, unpaired = {}, []
        for function in declared:
            if function.module.split("::")[0] not in crates:
                continue
            name = self.name_in_mir(function)
            if name is None or name in pairs:
                unpaired.append(title(function))
            else:
                pairs[name] = function
        return pairs, unpaired

    def name_in_mir(self, function: Function) -> str | None:
        """The name of the MIR of an emitted function, or None."""
        if not function.owner:
            name = "::".join(one for one in (function.module, function.trait, function.name) if one)
            return next((one for one in (name, f"{name}+decl") if one in self.functions), None)
        whole = begin(r"[\w:]+", re.sub(r"^&(mut )?", "", function.owner))[0]
        owner = whole.split("::")[-1]
        crate = function.module.split("::")[0] + "::"
        found = [one for one in self.by_end.get(function.name, []) if one.startswith(crate)]
        if function.trait:
            # Two modules may have a type of one name: that of the function's own comes first.
            found.sort(key=lambda one: not one.startswith(f"{function.module}::"))
            path = begin(r"(?:::)?[\w:]+", function.trait)[0].split("::")[-1]
            given = function.trait[function.trait.find("<") :] if "<" in function.trait else ""
            # A parameter of a parameter may be left out. Of a path each part begins with a large letter.
            listings = re.findall(r"\w+", given), [in_one_word(one) for one in re.findall(r"[\w:]+", given)]
            arguments = {"", *("".join(one[:most]) for one in listings for most in (1, len(one)))}
            ends = {f"{name}{path}{one}" for name in (owner, in_one_word(whole)) for one in arguments}
            return next((one for one in found if one.split("::")[-2] in ends), None)
        found = [one for one in found if one.split("::")[-2] == owner or one.split("::")[-2].startswith(f"{owner}+")]
        inner = re.search(r"<(.*)>", function.owner)
        if len(found) > 1 and inner:
            is_nested = "<" in inner[1]
            head = begin(r"\w+", inner[1])[0]
            found = [one for one in found if ("+" in one.split("::")[-2]) == is_nested and (not is_nested or head in one)]
        if len(found) > 1:
            found = [one for one in found if one.startswith(function.module + "::")] or found
        return found[0] if len(found) == 1 else None


def in_one_word(path: str) -> str:
    """A path as the name of an implementation in the MIR has it. A crate below begins such a path there; here it is a module."""
    return "".join(part[:1].upper() + part[1:] for part in path.removeprefix("crate::proved::").split("::"))


def title(function: Function) -> str:
    owner = f"{function.trait} for {function.owner}" if function.trait and function.owner else function.trait or function.owner
    return "::".join(one for one in (function.module, re.sub(r"\s+", " ", owner), function.name) if one)


class Pairs:
    """The emitted functions with their MIR. `texts` has what is put behind each file, `calls` what runs it. `is_wanted` tells of a title
    whether it is compared: what is not, is not compiled."""

    def __init__(
        self,
        declared: Emitted,
        translation: Translation,
        crates: Collection[str],
        constants: Iterable[tuple[str, str, str, str]],
        is_wanted: Callable[[str], bool] = lambda title: True,
    ) -> None:
        self.declared, self.translation, self.crates = declared, translation, crates
        self.types = [one for one in declared.types if one.module.split("::")[0] in crates]
        self.texts, self.calls = dict[pathlib.Path, list[str]](), list[str]()
        self.compared, self.skipped, self.paths = dict[str, str](), dict[str, str](), set[str]()
        self.methods: dict[str, list[tuple[str, Function, list[str], str]]] = {}
        self.is_wanted = is_wanted
        # The rings take the memory that they are given, and others that of the program.
        self.is_of_rings = "uart_ring" in crates
        self.pairs, self.unpaired = Names(translation.program.functions, crates).paired(declared.functions, crates)
        self.functions()
        self.derived()
        self.printed()
        self.sequences()
        for name, _, path, inside in constants:
            self.constant(name, path, inside)

    # Arguments.

    def put(self, file: pathlib.Path, text: str) -> None:
        self.texts.setdefault(file, []).append(text)

    def over_device(self, function: Function, text: str, number: int | None) -> str:
        """A type of a signature, with the device for each parameter that is a way to reach one, a byte for one of which nothing is asked, and
        a number for one that is a number."""
        text = without_lifetimes(text)
        for name in NUMBER.findall(function.generics):
            text = re.sub(rf"\b{name}\b", str(number), text)
        for name, value in listed.CONSTANTS.items():
            text = text.replace(f"<{name}>", f"<{value}>")
        of_device = "|".join(trait.split("::")[-1] for trait in natives.TRAITS if trait.startswith("uart_"))
        for name in re.findall(rf"(\w+)\s*:\s*[\w:]*(?:{of_device})\b", function.generics):
            text = re.sub(rf"\b{name}\b", DEVICE, text)
        for name in UNASKED.findall(function.generics):
            text = re.sub(rf"\b{name}\b", f"u{OF_UNASKED[1]}", text)
        return text

    def argument(self, order: int, text: str, of: Type, least: int, given: str | None = None) -> Argument:
        """One argument, of this type in the signature, and of this type in the MIR. `given` is the text that makes it, if it is of INPUTS."""
        rust = self.translation.rust
        name, slot = f"a{order}", f"let mut a{order}"
        if given and of[0] == "Int":
            return Argument(f"{slot}: {text} = ({given}) as {text};", f"{slot}: {rust(of)} = ({given}) as {rust(of)};", name, name)
        slice_of = re.fullmatch(r"&(mut )?(?:\[(.*)\]|str)", text)
        if slice_of:
            if of[0] != "Struct" or of[1] not in ("&[]", "&str"):
                raise Unknown(f"{text} is {of} in the MIR")
            rest = self.translation.rest(of)
            pass_to = f"crate::mir::{rust(of)} {{ f0: {name}.as_mut_ptr() as *mut u8, f1: {name}.len() as u64{rest} }}"
            is_changed = bool(slice_of[1])
            if text == "&str":
                make = f"{slot} = choices.text();"
                return Argument(make, make, f"core::str::from_utf8(&{name}).unwrap()", pass_to)
            if slice_of[2] == "u8":
                make = f"{slot} = {given or f'choices.bytes({least})'};"
                return Argument(make, make, f"&{'mut ' if is_changed else ''}{name}[..]", pass_to, is_changed)
            item = self.translation.rust_outside(of[2][0][1])
            mine, theirs = (f"{slot}: ::std::vec::Vec<{one}> = choices.list({least});" for one in (slice_of[2], item))
            return Argument(mine, theirs, f"&{'mut ' if is_changed else ''}{name}[..]", pass_to, is_changed)
        if text.startswith("Global") and not self.is_of_rings:
            zeroed = f"{slot}: {self.translation.rust_outside(of)} = core::mem::zeroed();"
            return Argument(f"{slot} = crate::kit::alloc::Global::heap();", zeroed, name, name)
        if text.startswith("Global"):
            lent = "let memory = crate::kit_of_rings::alloc::Memory::new(crate::run::lent(crate::run::memory_of(choices)));"
            zeroed = f"crate::run::memory_of(choices); {slot}: {self.translation.rust_outside(of)} = core::mem::zeroed();"
            return Argument(lent, zeroed, "memory.global()", name)
        reference = re.fullmatch(r"&(mut )?(.*)", text, re.DOTALL)
        if reference:
            if of[0] != "Ref":
                raise Unknown(f"{text} is {of} in the MIR")
            text, of = reference[2], of[1]
        mine, theirs = f"{slot}: {text} = Value::make(choices);", f"{slot}: {self.translation.rust_outside(of)} = Value::make(choices);"
        if not reference:
            return Argument(mine, theirs, name, name)
        return Argument(mine, theirs, f"&{reference[1] or ''}{name}", f"&raw mut {name} as *mut u8", bool(reference[1]))

    def arguments(self, name: str, texts: list[str], types: list[Type]) -> list[Argument]:
        least = 1 if name.split("::")[-1] in listed.NOT_EMPTY else 0
        listing = [made for pattern, made in listed.INPUTS.items() if re.search(pattern, name)][:1]
        given = [one for made in listing for one in made]
        given += [None] * (len(types) - len(given))
        return [self.argument(order, text, of, least, made) for order, (text, of, made) in enumerate(zip(texts, types, given))]

    def instance(self, name: str, number: int | None = None) -> tuple[str, list[Type], Type]:
        """The translated function over a device, or over a number, the types of its parameters, and that of its result."""
        function = self.translation.program.functions[name]
        asked = {one["Param"] for bound in function["generics"]["bounds"] for one in bound["types"] if "Param" in one}
        given = function["generics"]["types"]
        types = tuple(("Num", number) if one["const_bits"] else natives.DEVICE if order in asked else OF_UNASKED for order, one in enumerate(given))
        dictionaries = []
        for bound in function["generics"]["bounds"]:
            dictionaries.append(natives.dictionary(bound["of"], tuple(self.translation.type(one, types) for one in bound["types"])))
        locals_ = [self.translation.type(one["ty"], types) for one in function["locals"][: function["params"] + 1]]
        return self.translation.instance(name, types, tuple(dictionaries)), locals_[1:], locals_[0]

    def shown(self, of: Type, name: str) -> str:
        """The statement that shows a result of the MIR."""
        if name.endswith("Clone::clone"):
            return 'match result.v0.f0 { 0 => Value::show(&{ result.v0.f1 }, &mut out), _ => panic!("no memory") }'
        if of[0] == "Ref":
            return f"Value::show(&*(result as *const {self.translation.rust_outside(of[1])}), &mut out);"
        return "Value::show(&result, &mut out);"

    # Comparisons.

    def compare(
        self, title: str, name: str, file: pathlib.Path, texts: list[str], call: Callable[[list[str]], str], path: str = "", number: int | None = None
    ) -> None:
        """Writes a comparison. `texts` has the types of the arguments as the signature has them, `call` gives the call of such arguments."""
        if not self.is_wanted(title):
            return
        function, types, result = self.instance(name, number)
        if len(types) != len(texts):
            raise Unknown(f"{len(types)} arguments in the MIR, {len(texts)} emitted")
        listing = self.arguments(name, texts, types)
        breaks = listed.CONTRACTS.get(path)
        self.paths.add(path)
        mine, theirs = (" ".join(getattr(one, side) for one in listing) for side in ("rust", "mir"))
        changed = " ".join(f"Value::show(&a{order}, &mut out);" for order, one in enumerate(listing) if one.is_changed)
        called = call([one.rust_passed for one in listing])
        most = next((text for pattern, (text, _) in listed.MOST.items() if re.search(pattern, name)), None)
        of_case = f"|choices| {{ {mine} crate::run::Of::new({listed.OUTSIDE.get(path, 'false')}, {breaks or 'false'}, {most or '0'}) }}"
        passed = ", ".join(one.mir_passed for one in listing)
        order, own = len(self.compared), self.own_numbers(self.pairs[name].body if name in self.pairs else "")
        self.put(
            file,
            f"#[allow(warnings)] pub fn compare_{order}(run: &mut crate::run::Run) {{ use crate::run::Value; "
            f"run.compare({json.dumps(title)}, crate::run::With::{'Device' if DEVICE in ' '.join(texts) else 'Nothing'}, &{own}, {of_case}, "
            f"|choices| {{ {mine} let result = {called}; let mut out = {WORDS}; Value::show(&result, &mut out); {changed} out }}, "
            f"|choices| unsafe {{ {theirs} let result = crate::mir::{function}({passed}); let mut out = {WORDS}; "
            f"{self.shown(result, name)} {changed} out }}); }}",
        )
        self.compared[title] = name
        self.calls.append(f"crate::proved::{self.declared.modules[file]}::compare_{order}(run);")

    def own_numbers(self, body: str) -> list[int]:
        """The numbers in a body and those beside them, in order; a constant is in it by its name."""
        named = [value for name in re.findall(r"\b[A-Z][A-Z0-9_]+\b", body) for value in self.declared.values.get(name, ())]
        found = {*self.declared.numbers_in(body), *named}
        return sorted({at for one in found for at in (one - 1, one, one + 1) if 0 <= at < 1 << 64})

    def skip(self, title: str, why: object) -> None:
        self.skipped[title] = str(why)

    def functions(self) -> None:
        for name, function in self.pairs.items():
            for number in numbers(function):
                try:
                    self.one(name, function, number)
                except (Unknown, KeyError) as cause:
                    # The cause is the same for each number.
                    self.skip(name, cause)

    def one(self, name: str, function: Function, number: int | None) -> None:
        if name.endswith("+decl"):
            raise Unknown(DECLARATION)
        if re.search(r"impl |Formatter|dyn ", " ".join([*function.parameters, function.result])):
            raise Unknown("printed or generic")
        owner = self.over_device(function, function.owner, number)
        texts = []
        for parameter in function.parameters:
            receiver = re.fullmatch(r"(&(?:'\w+ )?(?:mut )?)?(?:mut )?self", parameter)
            text = f"{receiver[1] or ''}Self" if receiver else parameter.split(":", 1)[1].strip()
            texts.append(self.over_device(function, text.replace("Self", owner), number))
        if any(re.search(r"\b[A-Z]\b", text) for text in [owner, *texts]):
            raise Unknown("generic")
        trait = self.over_device(function, function.trait, number)
        path = f"<{owner} as {trait}>::" if trait else f"<{owner}>::" if owner else ""
        called = f"{path}{function.name}"
        self.compare(with_number(name, number), name, function.file, texts, calling(called), function.path(), number)
        is_method = texts and owner and texts[0] in (f"&{owner}", f"&mut {owner}")
        if is_method and function.is_public and listed.CONTRACTS.get(function.path(), OF_OFFSET) == OF_OFFSET:
            self.methods.setdefault(owner, []).append((name, function, texts, path))

    def derived(self) -> None:
        for one in self.types:
            for trait in one.derives:
                method, count = DERIVED.get(trait, (None, 0))
                name = f"{one.module}::{one.name}{trait}::{method}"
                if method is None:
                    continue
                if trait == "Clone" and "Copy" in one.derives:
                    # rustc derives a copy
                    continue
                if name not in self.translation.program.functions:
                    self.skip(name, "derived, and not in the MIR")
                    continue
                path = {"Clone": "Clone", "Default": "::core::default::Default"}.get(trait, f"::core::cmp::{trait}")
                of = one.over(DEVICE)
                try:
                    self.compare(name, name, one.file, [f"&{of}"] * count, calling(f"<{of} as {path}>::{method}"))
                except (Unknown, KeyError) as cause:
                    self.skip(name, cause)

    def printed(self) -> None:
        for one in self.types:
            for trait, form in ((trait, form) for trait, forms in PRINTED.items() for form in forms):
                name = f"{one.module}::{one.name}{trait}::fmt"
                title = f"{name} {form}"
                is_here = trait in one.derives or name in self.pairs
                try:
                    if name in self.translation.program.functions:
                        self.print_one(one, name, title, form)
                    elif is_here:
                        raise Unknown("derived, and not in the MIR")
                except (Unknown, KeyError) as cause:
                    self.skip(title, cause)

    def print_one(self, one: EmittedType, name: str, title: str, form: str) -> None:
        if not self.is_wanted(title):
            return
        # A value of a type that only borrows can be made if that is done by hand.
        is_made = one.name in BY_HAND and all(parameter.startswith("'") for parameter in one.parameters)
        if one.parameters and not is_made:
            raise Unknown("printed and generic")
        function, types, _ = self.instance(name)
        new = "core::fmt::formatter::Formatter::new"
        bounds = self.translation.program.functions[new]["generics"]["bounds"]
        given = tuple(natives.dictionary(bound["of"], (natives.DEVICE,)) for bound in bounds)
        formatter = self.translation.instance(new, (natives.DEVICE,), given)
        alternate = "formatter.f1.f3 = true;" if "#" in form else ""
        order = len(self.compared)
        self.put(
            one.file,
            f"#[allow(warnings)] pub fn compare_{order}(run: &mut crate::run::Run) {{ use crate::run::Value; "
            f"run.compare({json.dumps(title)}, crate::run::With::Writer, &[], "
            f"|choices| {{ let value: {one.name} = Value::make(choices); crate::run::Of::Contract }}, "
            f"|choices| {{ let value: {one.name} = Value::make(choices); let mut writer = crate::run::Writer::make(choices); "
            f'let is_whole = ::core::fmt::Write::write_fmt(&mut writer, format_args!("{form}", value)).is_ok(); '
            f"let mut out = {WORDS}; is_whole.show(&mut out); writer.written().show(&mut out); out }}, "
            f"|choices| unsafe {{ let mut value: {self.translation.rust_outside(types[0][1])} = Value::make(choices); "
            f"let writer = crate::run::Writer::make(choices); "
            f"let mut formatter = crate::mir::{formatter}(Value::make(choices)); {alternate} "
            f"let result = crate::mir::{function}(&raw mut value as *mut u8, &raw mut formatter as *mut u8); "
            f"let mut out = {WORDS}; (result.v0.f0 == 0).show(&mut out); writer.written().show(&mut out); out }}); }}",
        )
        self.compared[title] = name
        self.calls.append(f"crate::proved::{self.declared.modules[one.file]}::compare_{order}(run);")

    def constant(self, name: str, path: str, inside: str) -> None:
        """Writes a comparison of a constant with the function of the witness that returns it."""
        title = f"the constant {inside}"
        if not self.is_wanted(title):
            return
        function, _, _ = self.instance(f"{witness.NAME}::{name}")
        self.calls.append(
            f"run.compare({json.dumps(title)}, crate::run::With::Nothing, &[], |_| crate::run::Of::Contract, "
            f"|_| {{ let mut out = {WORDS}; crate::run::Value::show(&crate::proved::{path}, &mut out); out }}, "
            f"|_| {{ let mut out = {WORDS}; crate::run::Value::show(&unsafe {{ crate::mir::{function}() }}, &mut out); out }});"
        )
        self.compared[title] = title

    # Sequences.

    def sequences(self) -> None:
        """Writes a comparison of sequences of calls for each type that has a constructor in the list."""
        for constructor in listed.SEQUENCES:
            for number in numbers(self.pairs[constructor]) if constructor in self.pairs else []:
                if self.is_wanted(title_of_sequences(constructor, number)):
                    self.sequence(constructor, number)

    def sequence(self, constructor: str, number: int | None) -> None:
        function = self.pairs[constructor]
        owner = self.over_device(function, function.owner, number)
        texts = [self.over_device(function, one.split(":", 1)[1].strip().replace("Self", owner), number) for one in function.parameters]
        new, types, made = self.instance(constructor, number)
        listing = self.arguments(constructor, texts, types)
        is_result = made[0] == "Named" and made[1] == "core::result::Result"
        state = made[2][0] if is_result else made
        rust_steps, mir_steps = [], []
        for order, (name, method, step_texts, path) in enumerate(self.methods[owner]):
            rust_steps.append(f"{order} => {{ {self.step(name, method, step_texts, path, owner, number, True)} }}")
            mir_steps.append(f"{order} => {{ {self.step(name, method, step_texts, path, owner, number, False)} }}")
        # The steps are those of the first number.
        for mine, theirs in listed.SEQUENCES[constructor] if number in (None, listed.NUMBERS[0]) else []:
            rust_steps.append(f"{len(rust_steps)} => {{ {mine} }}")
            theirs = re.sub(r"\{([\w:+]+)\}", lambda found: f"crate::mir::{self.instance(found[1], listed.NUMBERS[0])[0]}", theirs)
            mir_steps.append(f"{len(mir_steps)} => {{ {theirs} }}")
        count, title = len(rust_steps), title_of_sequences(constructor, number)
        mine, theirs = (" ".join(getattr(one, side) for one in listing) for side in ("rust", "mir"))
        call = f"<{owner}>::{function.name}({', '.join(one.rust_passed for one in listing)})"
        passed = ", ".join(one.mir_passed for one in listing)
        opened, failed = f"let made = {call};", f"let made = crate::mir::{new}({passed});"
        if is_result:
            opened = f"let made = match {call} {{ Ok(made) => made, Err(error) => {{ Value::show(&error, &mut out); return out; }} }};"
            error = self.translation.rust_outside(made)
            failed = (
                f"let made: {error} = crate::mir::{new}({passed}); if made.v0.f0 != 0 {{ Value::show(&{{ made.v1.f1 }}, &mut out); "
                "return out; } let made = made.v0.f1;"
            )
        turns = f"for _ in 0..{listed.STEPS} {{ match choices.pick({count}) {{"
        order = len(self.compared)
        self.put(
            function.file,
            f"#[allow(warnings)] pub fn compare_{order}(run: &mut crate::run::Run) {{ use crate::run::Value; "
            f"run.sequences({json.dumps(title)}, "
            f"|choices| {{ let mut out = {WORDS}; {mine} {opened} let mut state = made; "
            f"{turns} {' '.join(rust_steps)} _ => panic!() }} }} Value::show(&state, &mut out); out }}, "
            f"|choices| unsafe {{ let mut out = {WORDS}; {theirs} {failed} "
            f"let mut state: {self.translation.rust_outside(state)} = made; "
            f"{turns} {' '.join(mir_steps)} _ => panic!() }} }} Value::show(&state, &mut out); out }}); }}",
        )
        self.compared[title] = constructor
        self.calls.append(f"crate::proved::{self.declared.modules[function.file]}::compare_{order}(run);")

    def step(self, name: str, method: Function, texts: list[str], path: str, owner: str, number: int | None, is_rust: bool) -> str:
        """One call of a sequence on one side: a helper in the file of the method, and the call of it."""
        order = f"{'rust' if is_rust else 'mir'}_step_{len(self.compared)}_{name.replace('::', '_').replace('+', '_')}"
        function, types, result = self.instance(name, number or listed.NUMBERS[0])
        listing = self.arguments(name, texts, types)[1:]
        side = "rust" if is_rust else "mir"
        made = " ".join(getattr(one, side) for one in listing)
        for at, parameter in enumerate(method.parameters[1:], 1):
            if re.match(r"(register_)?offset\s*:", parameter):
                made = made.replace(f"let mut a{at}: ", f"let mut a{at} = choices.offset() as ", 1).replace(" = Value::make(choices)", "", 1)
        changed = " ".join(f"Value::show(&a{at}, out);" for at, one in enumerate(listing, 1) if one.is_changed)
        words = "::std::vec::Vec<u64>"
        if is_rust:
            kind = texts[0][: -len(owner)]
            passed = ", ".join(["state", *(one.rust_passed for one in listing)])
            body = f"let result = {path}{method.name}({passed}); Value::show(&result, out);"
            head = f"pub fn {order}(state: {kind}{owner}, choices: &mut crate::run::Choices, out: &mut {words})"
        else:
            passed = ", ".join(["state", *(one.mir_passed for one in listing)])
            shown = self.shown(result, name).replace("&mut out", "out")
            body = f"let result = crate::mir::{function}({passed}); {shown}"
            head = f"pub unsafe fn {order}(state: *mut u8, choices: &mut crate::run::Choices, out: &mut {words})"
        self.put(method.file, f"#[allow(warnings)] {head} {{ use crate::run::Value; unsafe {{ {made} {body} {changed} }} }}")
        state = f"{texts[0][: -len(owner)]}state" if is_rust else "&raw mut state as *mut u8"
        return f"crate::proved::{self.declared.modules[method.file]}::{order}({state}, choices, &mut out);"


def calling(called: str) -> Callable[[list[str]], str]:
    return lambda passed: f"{called}({', '.join(passed)})"


def numbers(function: Function) -> Sequence[int | None]:
    """What is given for the parameter of a function that is a number: nothing, if it has none."""
    return [*listed.NUMBERS] if NUMBER.search(function.generics) else [None]


def with_number(title: str, number: int | None) -> str:
    """A title of what is compared with a number for a parameter. The first one is the usual one."""
    return title if number in (None, listed.NUMBERS[0]) else f"{title} of {number}"


def title_of_sequences(constructor: str, number: int | None) -> str:
    return with_number(f"sequences of {constructor.rsplit('::', 1)[0]}", number)
