"""What emitted code is compiled with: the kit, that of the rings, and the modules by hand in the emitted crates. It is by hand, so it could
change what emitted code means without a change of that code: by a macro of the same name as one of Rust's, by a method that Rust finds
before the one of a trait, by a file that is somewhere else. So it keeps to rules like those of the code that is emitted."""
import re
from collections.abc import Iterator

import foreign
import table
from tokens import Refused, tokens

KIT, KIT_OF_RINGS = "rust/kit", "rust/kit_of_rings"
KITS = [KIT, KIT_OF_RINGS]

# The macros that a kit exports, by its file. A package imports these by name, and no others (`packages.root`).
EXPORTED = {
    "rust/kit/src/lib.rs": ["format_fields"],
    "rust/kit/src/text.rs": ["format"],
    "rust/kit/src/list.rs": ["vec"],
    "rust/kit_of_rings/src/memory.rs": ["vec"],
    "rust/proved/uart_16550/src/by_hand/io.rs": ["as_embedded_io"],
}
# The macros that code below may call, beside its own; and those whose name no macro may have.
CALLED = ["format_args", "stringify", "assert", "compile_error"]
OF_RUST = [*CALLED, *table.MACROS, "panic", "assert_eq", "assert_ne", "debug_assert", "todo", "unimplemented", "print", "println", "cfg", "env"]

# Words that it has not: what is unsafe, what is kept between calls, what reads something else, and what depends on how it is compiled.
WORDS = """
unsafe static async asm include include_str include_bytes env option_env cfg_attr UnsafeCell transmute thread_local global_asm naked
no_mangle link_section link_name export_name macro_use no_implicit_prelude
""".split()
ATOMIC = re.compile(r"Atomic\w*")
# What it names by a path of core, of the real std, of the real alloc or of `embedded_io`, by the module, the type or the trait in front.
# Beside these are its own names and those of the emitted code, and nothing else: so nothing that tells where code runs, or on what.
PATHS = {
    "core": "cell cmp convert error fmt format_args marker mem num ops slice str time".split(),
    "std": "io path".split(),
    "heap": "collections string vec".split(),
    "alloc": "AllocError AllocFailed Global boxed vec".split(),
    "bitflags": "Flags Iter IterNames Names".split(),
    "geesetrunk_kit": "alloc cmp convert error fmt format_fields mem num".split(),
    "cell": ["Cell"],
    "marker": ["PhantomData"],
    "ops": "BitAnd BitAndAssign BitOr BitOrAssign BitXor BitXorAssign Deref DerefMut Not Sub SubAssign".split(),
    "slice": ["Iter"],
    "str": ["from_utf8"],
    # A length of time is a number. What the time is now is none of core, and no clock is named here.
    "time": ["Duration"],
    "Duration": ["from_nanos"],
    "error": ["Error"],
    "fmt": "Arguments Binary Debug Display Error Formatter LowerHex Octal Result UpperHex Write write".split(),
    "io": "Error ErrorKind Read Result Write".split(),
    "path": ["Path"],
    "collections": "TryReserveError VecDeque vec_deque".split(),
    "vec_deque": ["Iter"],
    "string": ["String"],
    "vec": ["Vec"],
    "boxed": ["Box"],
    "embedded_io": "Error ErrorKind ErrorType Read ReadReady Write WriteReady".split(),
    # What a constructor refuses becomes an error of the crate.
    "uart_ring": ["Refused", "RingError"],
    "u8": ["MAX"],
    **{name: ["new"] for name in ("Cell", "VecDeque", "String")},
    "Vec": "from new with_capacity".split(),
    "ErrorKind": "OutOfMemory Other TimedOut".split(),
    **{name: ["fmt"] for name in ("Debug", "Display")},
    **{name: [call] for name, call in (("Read", "read"), ("ReadReady", "read_ready"), ("WriteReady", "write_ready"))},
    "Write": "flush write".split(),
}
# What only one file names: which order of bytes the target has, which is what its constant is; and whether a number of 128 bits fits into
# 64, which it does or not on each target.
OF_ONE_FILE = {
    "rust/proved/uart_spec/src/by_hand/duration.rs": ["u64 :: try_from"],
    "rust/proved/uart_spec/src/by_hand/layout.rs": ["u16 :: from_ne_bytes"],
}
# The methods of core that it calls beside those of emitted code.
METHODS = """
as_nanos debug_tuple encode_utf8 expect fill flatten get_mut into_boxed_slice saturating_sub split_at_mut to_str unwrap_or_default
""".split()
# Those of the emitted code.
OF_EMITTED = """
clocks_covering clocks_within data fifo_size held_len is_interrupting level nanoseconds_covering nanoseconds_within output send_bytes_exact
waiting_len wire
""".split()
# What stands in front of a path of our own, or of one that begins with `::` and so with the name of a library.
OF_PATHS = ["crate", "self", "super", "Self", ">", "{", ",", "("]
# Types of the language, whose functions are the target's. None is a name of its own.
PRIMITIVES = "bool char f32 f64 i8 i16 i32 i64 i128 isize str u8 u16 u32 u64 u128 usize".split()
# Attributes, but for derives and conditions.
# The last ones are what a macro is given, where it stands in the text and is looked at.
ATTRIBUTES = ["must_use", "inline", "inline ( always )", "macro_export", "doc ( hidden )", "$ says : meta", "$ says"]
# What clippy is told to leave, with the reason: it changes what is said of the text, and nothing of what the text does. A lint of rustc's,
# as that of unsafe code, is not among them.
LEFT = re.compile(r'allow \( (?:clippy :: \w+ , )+reason = "[^"]*" \)')
INNER = ["no_std", "forbid ( unsafe_code )", "deny ( missing_docs )"]
ALLOC, STD, WIDTHS = 'feature = "alloc"', 'feature = "std"', 'not ( any ( target_pointer_width = "32" , target_pointer_width = "64" ) )'
CONDITIONS = {
    KIT: [ALLOC, f"not ( {ALLOC} )", STD, f"any ( {STD} , test )", WIDTHS],
    KIT_OF_RINGS: [ALLOC, "test"],
    table.OUTPUT: ['feature = "embedded-io"'],
}
# What the roots of the kits are made of, and what they take from elsewhere.
ROOTS = {
    "rust/kit/src/lib.rs": [
        "extern crate alloc as heap",
        "extern crate std",
        "mod absent",
        "pub mod alloc",
        "mod allocator",
        "mod array",
        "mod bits",
        "pub mod io",
        "mod list",
        "pub mod path",
        "mod queue",
        "mod text",
        "pub use array :: { ArrayString , ArrayVec , CapacityError }",
        "pub use bits :: { Bits , Flag , Flags , Iter , IterNames , Names }",
        "pub use core :: { cmp , convert , error , fmt , mem , num }",
        "pub use list :: { CollectWith , ToVecWith , Vec , filled , of_array }",
        "pub use queue :: HeapCircularBuffer",
        "pub use text :: { String , ToStringWith , formatted }",
    ],
    "rust/kit_of_rings/src/lib.rs": [
        "mod memory",
        "pub use geesetrunk_kit :: { cmp , convert , error , fmt , format_fields , mem , num }",
        "pub use memory :: { Vec , filled }",
        "pub use crate :: memory :: { Global , Memory }",
        "pub use geesetrunk_kit :: alloc :: AllocError",
    ],
}
# Other crates are named in the roots alone, but for the allocator of the rings.
EXTERN = {"rust/kit_of_rings/src/memory.rs": ["extern crate alloc"]}
# What the traits of the kit have. Emitted code has them in scope, so Rust could take a method of theirs for one of a type.
FLAGS = """
flags bits from_bits_retain empty all from_bits from_bits_truncate from_name contains_unknown_bits is_empty is_all intersects contains insert
remove toggle set clear truncate intersection union difference symmetric_difference complement iter iter_names
""".split()
TRAITS: dict[str, list[str]] = {
    "Bits": [],
    "Flags": FLAGS,
    "CollectWith": ["collect_with"],
    "ToVecWith": ["to_vec_with"],
    "ToStringWith": ["to_string_with"],
}
# The traits that a type of an emitted crate has by hand: none of them is dropped, followed to another type, or compared with one. `From` is
# that of an error of what a constructor refused: no emitted code makes that by `?`, so no other is taken.
IMPLEMENTED = """
Backend BitAnd BitAndAssign BitOr BitOrAssign BitXor BitXorAssign Clone Copy Eq Error Extend FromIterator IntoIterator Not PartialEq Sub
SubAssign Binary Debug Display From LowerHex Octal UpperHex ErrorType Read Write ReadReady WriteReady BufRead Patience
""".split()
# Methods of the traits of `core` that code calls by name or by a sign. Rust takes a function of the type before them.
OF_CORE = """
eq ne cmp partial_cmp lt le gt ge max min clamp clone clone_from fmt hash default from into try_from try_into as_ref as_mut borrow
borrow_mut to_owned to_string drop deref deref_mut index index_mut add sub mul div rem neg shl shr not bitand bitor bitxor add_assign
sub_assign mul_assign bitand_assign bitor_assign bitxor_assign next into_iter from_iter extend sum product source type_id
""".split()


def causes(files: dict[str, str]) -> list[str]:
    """What is wrong with these files, by name, of the kits and of the modules by hand."""
    found, declared = [], set()
    for name, text in files.items():
        if name.endswith(".rs") and is_below(name):
            declared |= {*re.findall(r"\b(?:struct|enum|trait|type|mod|fn|const) (\w+)", text)}
    for name, text in files.items():
        if name.endswith(".rs") and is_below(name):
            try:
                found += [f"{name}: {cause}" for cause in File(name, text).causes(declared)]
            except Refused as cause:
                line = "" if cause.at is None else f":{text.count(chr(10), 0, cause.at) + 1}"
                found.append(f"{name}{line}: {cause.cause}")
    return found


def is_below(name: str) -> bool:
    """Whether emitted code is compiled with a file of this name."""
    return any(name.startswith(f"{folder}/src/") for folder in KITS) or name.startswith(f"{table.OUTPUT}/")


def is_of_others(head: str, declared: set[str]) -> bool:
    """Whether a path with this head may lead out of these files and of the emitted code: a library, a module or a type of it."""
    return head in PRIMITIVES or head in PATHS or not (head in declared or head in OF_PATHS)


class File:
    """The tokens of a file."""

    def __init__(self, name: str, text: str) -> None:
        self.name, self.code = name, tokens(text, False)[0]
        self.words = [token.text for token in self.code]
        self.folder = next(folder for folder in CONDITIONS if name.startswith(f"{folder}/"))
        self.is_test = name.endswith("/tests.rs")

    def word(self, at: int) -> str:
        return self.words[at] if 0 <= at < len(self.words) else ""

    def kind(self, at: int) -> str:
        return self.code[at].kind if 0 <= at < len(self.code) else ""

    def text(self, start: int, end: int) -> str:
        return " ".join(self.words[start:end])

    def closing(self, at: int) -> int:
        """The index of the bracket that closes the one at this index."""
        depth = 0
        for here in range(at, len(self.words)):
            depth += {"(": 1, "[": 1, "{": 1, ")": -1, "]": -1, "}": -1}.get(self.words[here], 0) if self.code[here].kind == "sign" else 0
            if depth == 0:
                return here
        raise Refused("a bracket that is not closed", self.code[at].start)

    def behind(self, at: int, sign: str) -> int:
        """The index of the next sign of this kind."""
        return next((here for here in range(at, len(self.words)) if self.words[here] == sign), len(self.words))

    def causes(self, declared: set[str]) -> list[str]:
        """What is wrong, where these names are declared. A module of tests is compiled for tests alone, so it is free."""
        if self.is_test:
            return []
        found = [*self.of_words(), *self.of_names(declared), *self.of_macros(), *self.of_attributes()]
        return [*found, *self.of_root(), *self.of_traits(), *self.of_types()]

    def of_words(self) -> Iterator[str]:
        for at, token in enumerate(self.code):
            if token.kind == "word" and (token.text in WORDS or ATOMIC.fullmatch(token.text)):
                yield f"the word `{token.text}`"
            if token.text == "*" and self.word(at - 1) == "::":
                yield "all names of a module"

    def of_names(self, declared: set[str]) -> Iterator[str]:
        """Names of core and of libraries that are not listed, called, imported or given as a value."""
        declared, at = declared | self.of_ours(), 0
        while at < len(self.words):
            word, before = self.words[at], self.word(at - 1)
            if word == "#" and self.word(at + 1) in ("[", "!"):
                at = self.closing(at + 1 + (self.word(at + 1) == "!"))
            elif word == "use" and self.kind(at) == "word":
                end = self.behind(at, ";")
                of_others = [one for one in foreign.imports(self, at + 1, end) if is_of_others(one.behind, declared)]
                yield from (f"`{one.behind}::{one.word}`" for one in of_others if one.word not in PATHS.get(one.behind, []))
                at = end
            elif self.kind(at) == "word" and before == "::" and self.is_of_others(at - 2, declared):
                is_listed = word in PATHS.get(self.word(at - 2), []) or self.text(at - 2, at + 1) in OF_ONE_FILE.get(self.name, [])
                yield from [] if is_listed else [f"`{self.word(at - 2)}::{word}`"]
            elif self.kind(at) == "word" and before == "." and self.word(at + 1) in ("(", "::"):
                known = word in declared or word in foreign.METHODS or word in METHODS or word in OF_EMITTED
                yield from [] if known else [f"the method `{word}`"]
            elif word in foreign.PRELUDE and word != "drop":
                yield f"`{word}`, which depends on the target"
            at += 1

    def of_ours(self) -> set[str]:
        """The names of the emitted code that this file imports, and its parameters that are types."""
        found = {word for word in self.words if re.fullmatch("[A-Z]", word)}
        for at in range(len(self.words)):
            if self.words[at] == "use" and self.word(at + 1) in ("crate", "super"):
                found |= {word for word in self.words[at : self.behind(at, ";")] if re.match(r"\w", word)}
        return found

    def is_of_others(self, at: int, declared: set[str]) -> bool:
        """Whether the path whose head is at this index may lead out. What macros are given for types is looked at where they are."""
        return self.word(at - 1) != "$" and is_of_others(self.word(at), declared)

    def of_macros(self) -> Iterator[str]:
        own = [self.word(at + 2) for at in range(len(self.words)) if self.word(at) == "macro_rules"]
        for name in own:
            if name in OF_RUST and name not in EXPORTED.get(self.name, []):
                yield f"a macro `{name}`, as Rust has one"
        exported = [at for at in range(len(self.words)) if self.text(at, at + 4) == "# [ macro_export ]"]
        found = [self.word(at + 6) for at in exported]
        if found != EXPORTED.get(self.name, []):
            yield f"exports other macros than it may: {', '.join(found)}"
        for at, token in enumerate(self.code):
            is_call = token.kind == "word" and self.word(at + 1) == "!" and self.word(at + 2) in ("(", "[", "{")
            if is_call and token.text not in CALLED + own:
                yield f"the macro `{token.text}`"

    def of_attributes(self) -> Iterator[str]:
        inner = []
        for at in range(len(self.words)):
            if self.words[at] != "#" or self.word(at + 1) not in ("[", "!"):
                continue
            start = at + 1 + (self.word(at + 1) == "!")
            text = self.text(start + 1, self.closing(start))
            if self.word(at + 1) == "!":
                inner.append(text)
            elif text.startswith("derive ("):
                yield from (f"the derive `{one}`" for one in re.findall(r"\w+", text)[1:] if one not in table.DERIVES)
            elif text.startswith("cfg ("):
                condition = text[len("cfg ( ") : -len(" )")]
                yield from [] if condition in CONDITIONS[self.folder] else [f"the condition `{condition}`"]
            elif text not in ATTRIBUTES and not LEFT.fullmatch(text):
                yield f"the attribute `{text}`"
        if inner != (INNER if self.name in ROOTS else []):
            yield f"other attributes of the file than it may have: {', '.join(inner)}"

    def of_root(self) -> Iterator[str]:
        """What is wrong with the modules and the libraries that a file names."""
        found = []
        for at in range(len(self.words)):
            if self.text(at, at + 3) == "mod tests ;" and self.text(at - 7, at) != "# [ cfg ( test ) ]":
                yield "tests that are compiled for users"
            if self.word(at) in ("extern", "mod", "use") and self.code[at].kind == "word":
                end = min(self.behind(at, ";"), self.behind(at, "{") if self.word(at) == "mod" else len(self.words))
                visibility = "pub " if self.word(at - 1) == "pub" else ""
                if self.words[at] == "extern" or self.name in ROOTS and (visibility or self.word(at) == "mod" and self.word(end) == ";"):
                    found.append(visibility + self.text(at, end))
        wanted = ROOTS.get(self.name, EXTERN.get(self.name, []))
        if self.name in ROOTS:
            # a module with a body is part of the root
            found = [one for one in found if one != "pub mod alloc" or one in wanted]
        yield from (f"`{one}`, which it does not have" for one in found if one not in wanted)
        yield from (f"`{one}`: missing" for one in wanted if one not in found)

    def of_traits(self) -> Iterator[str]:
        for at in range(len(self.words)):
            if self.words[at] != "trait" or self.code[at].kind != "word":
                continue
            name, start = self.word(at + 1), self.behind(at, "{")
            inside = [self.word(here + 1) for here in range(start, self.closing(start)) if self.words[here] == "fn"]
            if name not in TRAITS or self.folder != KIT:
                yield f"a trait `{name}`"
            else:
                yield from (f"`{one}` of the trait `{name}`" for one in inside if one not in TRAITS[name])

    def of_types(self) -> Iterator[str]:
        for at in range(len(self.words)):
            if self.words[at] != "impl" or self.word(at - 1) not in ("", "}", ";", "{", "]", "("):
                continue
            start = self.behind(at, "{")
            if "for" not in self.words[at:start]:
                inside = [self.word(here + 1) for here in range(start, self.closing(start)) if self.words[here] == "fn"]
                yield from (f"`{one}` of a type, which Rust takes for the one of a trait" for one in inside if one in OF_CORE)
            elif self.folder == table.OUTPUT:
                if re.search(r"\bPartial(Eq|Ord) <", self.text(at, start)):
                    yield "a comparison of a type with another one"
                traits = self.traits_of(at, start)
                yield from (f"the trait `{trait}` for a type" for trait in traits if trait not in IMPLEMENTED)

    def traits_of(self, at: int, start: int) -> list[str]:
        """The trait of an implementation, or if a parameter of a macro stands for it, all that the macro is given for types and traits."""
        trait = self.trait_of(at, start)
        if self.word(self.words.index(trait, at) - 1) != "$":
            return [trait]
        name = self.word(max(here for here in range(at) if self.word(here) == "macro_rules") + 2)
        calls = [here + 2 for here in range(len(self.words)) if self.text(here, here + 2) == f"{name} !"]
        given = [here for call in calls for here in range(call, self.closing(call)) if self.word(here - 1) != "$"]
        return [self.word(here) for here in given if self.word(here)[0].isupper()]

    def trait_of(self, at: int, start: int) -> str:
        """The name of the trait of an implementation, without its path and parameters."""
        head = self.words[at + 1 : start]
        head = head[: head.index("for")]
        if head[0] == "<":
            depth = 0
            for here, word in enumerate(head):
                depth += {"<": 1, ">": -1}.get(word, 0)
                if depth == 0:
                    head = head[here + 1 :]
                    break
        if "<" in head:
            head = head[: head.index("<")]
        return head[-1]
