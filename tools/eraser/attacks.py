"""Attacks on the way from a proof to a program that are known, by plain names, with what finds each. `erase tables attacks` prints them.

`FORMS` stands behind the code of uart_spec/src/backend.rt, with the cause for which the eraser refuses it. `AROUND` are edits of files by
hand around what is emitted, with what `erase check` says. `erase test` tries both. What is planted in emitted text is in `mir/planted.py`:
`erase test` has the second reader find each, and `compare --planted` says in which ways the comparison does.
"""
import pathlib
import sys

sys.path.append(str(pathlib.Path(__file__).resolve().parent / "mir"))

import packages  # noqa: E402
import planted  # noqa: E402

OF_ERASER, OF_CHECK, OF_READER = "the eraser, which refuses the source", "`erase check`", "the second reader"

FORMS = [
    (
        "the largest `NonZeroUsize`",
        "use std::num::NonZeroUsize;\nfn f() -> u64 {\n    NonZeroUsize::MAX.get() as u64\n}",
        "`MAX`, which is neither ours nor listed",
    ),
    ("`usize::try_from`", "fn f(x: u64) -> bool {\n    usize::try_from(x).is_ok()\n}", "`try_from`, which is neither ours nor listed"),
    ("`try_into` a `usize`", "fn f(x: u64) -> Option<usize> {\n    x.try_into().ok()\n}", "`try_into`, which is neither ours nor listed"),
    ("`count_zeros` of a `usize`", "fn f(x: usize) -> u32 {\n    x.count_zeros()\n}", "`count_zeros`, which is neither ours nor listed"),
    (
        "the zeros in front of a `usize`, counted",
        "fn f(x: usize) -> u32 {\n    x.leading_zeros()\n}",
        "`leading_zeros`, which is neither ours nor listed",
    ),
    (
        "the zeros at the end of a `usize`, counted",
        "fn f(x: usize) -> u32 {\n    x.trailing_zeros()\n}",
        "`trailing_zeros`, which is neither ours nor listed",
    ),
    (
        "the bytes of a `usize` the other way round",
        "fn f(x: usize) -> usize {\n    x.swap_bytes()\n}",
        "`swap_bytes`, which is neither ours nor listed",
    ),
    ("`to_le_bytes` of a `usize`", "fn f(x: usize) -> u8 {\n    x.to_le_bytes()[7]\n}", "`to_le_bytes`, which is neither ours nor listed"),
    ("`parse::<usize>`", "fn f(x: &str) -> bool {\n    x.parse::<usize>().is_ok()\n}", "`parse`, which is neither ours nor listed"),
    ("`.sum()` of `usize`", "fn f(x: &[usize]) -> usize {\n    x.iter().sum()\n}", "`sum`, which is neither ours nor listed"),
    (
        "a call of a `usize` as a value",
        "fn f(x: Option<usize>) -> Option<u32> {\n    x.map(usize::count_zeros)\n}",
        "`count_zeros`, which is neither ours nor listed",
    ),
    (
        "`usize::from_str_radix`",
        "fn f(x: &str) -> bool {\n    usize::from_str_radix(x, 16).is_ok()\n}",
        "`from_str_radix`, which is neither ours nor listed",
    ),
    (
        "`usize::wrapping_mul` as a value",
        "fn f(x: &[usize]) -> usize {\n    x.iter().copied().fold(1, usize::wrapping_mul)\n}",
        "`wrapping_mul`, which is neither ours nor listed",
    ),
    ("`size_of_val`", "fn f(x: Option<&usize>) -> Option<usize> {\n    x.map(size_of_val)\n}", "`size_of_val`, which depends on the target"),
    ("`!` of a local", "fn f(x: u8) -> usize {\n    let y = usize::from(x);\n    !y\n}", "`!` of what may be a `usize`"),
    ("`not` of a `usize`", "fn f(x: usize) -> usize {\n    x.not()\n}", "`not`, which is neither ours nor listed"),
    ("`!` of a value of any type", "fn f<T: Not>(x: T) -> T {\n    !x\n}", "`!` of what may be a `usize`"),
    ("`>>` of a `usize`", "fn f(x: usize) -> usize {\n    x >> 33\n}", "`x >> 33` is not listed with its type"),
    *(
        (
            f"`{call}`, which is what the order of bytes is",
            f"fn f(x: {taken}) -> {given} {{\n    {call}(x)\n}}",
            f"`{call.partition('::')[2]}`, which is neither ours nor listed",
        )
        for call, taken, given in (
            ("u32::from_ne_bytes", "[u8; 4]", "u32"),
            ("u16::to_ne_bytes", "u16", "[u8; 2]"),
            ("u16::to_be", "u16", "u16"),
            ("u16::from_be", "u16", "u16"),
            ("u16::to_le", "u16", "u16"),
            ("u16::from_le", "u16", "u16"),
        )
    ),
    (
        "`from_ne_bytes` behind another name of a number",
        "type W = u32;\nfn f(x: [u8; 4]) -> W {\n    W::from_ne_bytes(x)\n}",
        "`from_ne_bytes`, which is neither ours nor listed",
    ),
    ("an address in a text", 'fn f(x: &u8) -> u8 {\n    format_args!("{:p}", x);\n    3\n}', "an address in a text"),
    (
        "`as Self` in an `impl` for `usize`",
        "trait T {\n    fn f(x: u64) -> Self;\n}\nimpl T for usize {\n    fn f(x: u64) -> Self {\n        x as Self\n    }\n}",
        "`as Self`, which may be `usize`",
    ),
    (
        "`ilog10`, the name of a method of core, on a trait of ours",
        "pub trait T {\n    fn ilog10(self) -> u32;\n}\nimpl T for u32 {\n    fn ilog10(self) -> u32 {\n        9\n    }\n}",
        "a trait of ours for a type of Rust's",
    ),
    (
        "`BITS`, the name of a constant of core, on a trait of ours",
        "pub trait T {\n    const BITS: u32;\n}\nimpl T for u8 {\n    const BITS: u32 = 9;\n}",
        "a trait of ours for a type of Rust's",
    ),
    (
        "a name of core that Rust has and Rattle has not, on a trait of ours (unbounded_shl)",
        "pub trait T {\n    fn unbounded_shl(self, by: u32) -> u32;\n}\n"
        "impl T for u32 {\n    fn unbounded_shl(self, by: u32) -> u32 {\n        9\n    }\n}",
        "a trait of ours for a type of Rust's",
    ),
]

KIT_ROOT, ARRAY = "rust/kit/src/lib.rs", "rust/kit/src/array.rs"
USERS = "rust/uart_16550/src/lib.rs"
REGISTERS = "rust/proved/uart_spec/src/registers/by_hand.rs"
AROUND = [
    (
        "a macro `assert` in the kit, which switches each guard off",
        KIT_ROOT,
        "/// `format_args!`, as",
        "/// A.\n#[macro_export]\nmacro_rules! assert {\n    ($($t:tt)*) => {};\n}\n\n/// `format_args!`, as",
        "a macro `assert`",
    ),
    (
        "a macro `matches` in the kit",
        KIT_ROOT,
        '#[cfg(not(feature = "alloc"))]\nmod absent;',
        "macro_rules! matches { ($($t:tt)*) => { true }; }\nmod absent;",
        "a macro `matches`",
    ),
    (
        "a macro more in the kit",
        KIT_ROOT,
        "/// `format_args!`, as",
        "/// A.\n#[macro_export]\nmacro_rules! other {\n    () => {};\n}\n\n/// `format_args!`, as",
        "exports other macros",
    ),
    (
        "a module of the kit in place of one of core",
        KIT_ROOT,
        "pub use core::{cmp, convert, error, fmt, mem, num};",
        "mod fmt;\npub use core::{cmp, convert, error, mem, num};",
        "`mod fmt`, which it does not have",
    ),
    (
        "another crate under the name of `alloc` in the kit",
        KIT_ROOT,
        "extern crate alloc as heap;",
        "extern crate other as heap;",
        "`extern crate other as heap`, which it does not have",
    ),
    ("`#[path]` in the kit", KIT_ROOT, "mod bits;", '#[path = "other.rs"]\nmod bits;', "the attribute `path"),
    ("`include!` in the kit", KIT_ROOT, "mod bits;", 'include!("other.rs");\nmod bits;', "the word `include`"),
    ("`include!` beside the registers", REGISTERS, "MSR PSD }", 'MSR PSD }\ninclude!("more.rs");', "the word `include`"),
    (
        "`cfg!` in the kit",
        "rust/kit/src/bits.rs",
        "self.bits() == Self::Bits::EMPTY",
        "cfg!(unix) || self.bits() == Self::Bits::EMPTY",
        "the macro `cfg`",
    ),
    ("`cfg!` beside the registers", REGISTERS, "self.0 & other.0 == other.0", "cfg!(unix) || self.0 & other.0 == other.0", "the macro `cfg`"),
    *(
        (f"{what} in the kit", ARRAY, "        self.len += 1;", f"        {code}\n        self.len += 1;", cause)
        for what, code, cause in (
            ("`usize::BITS`", "if usize::BITS == 32 { return; }", "`usize::BITS`"),
            ("`usize::MAX`", "if usize::MAX == 0xffff_ffff { return; }", "`usize::MAX`"),
            ("`size_of`", "if size_of::<usize>() == 4 { return; }", "`size_of`, which depends on the target"),
            ("`mem::size_of`", "if core::mem::size_of::<usize>() == 4 { return; }", "`mem::size_of`"),
            ("a call of a `usize`", "if self.len.count_zeros() == 3 { return; }", "the method `count_zeros`"),
            ("the order of bytes", "if u16::from_ne_bytes([0, 1]) == 1 { return; }", "`u16::from_ne_bytes`"),
            ("the name of a type", 'if core::any::type_name::<T>() == "u8" { return; }', "`core::any`"),
            ("the place of a call", "if core::panic::Location::caller().line() == 4 { return; }", "`core::panic`"),
            ("a clock", "let _ = std::time::Instant::now();", "`std::time`"),
            ("the end of the program", "std::process::exit(3);", "`std::process`"),
            ("whether a thread panics", "if std::thread::panicking() { return; }", "`std::thread`"),
        )
    ),
    ("a cell in the kit that is filled once", ARRAY, "use core::ops::Deref;", "use core::cell::OnceCell;\nuse core::ops::Deref;", "`cell::OnceCell`"),
    (
        "a number in the kit under the name of another one",
        ARRAY,
        "use core::ops::Deref;",
        "use core::{ops::Deref, primitive::u16 as u8};",
        "`core::primitive`",
    ),
    (
        "a register that is compared with a number",
        REGISTERS,
        "MSR PSD }",
        "MSR PSD }\nimpl PartialEq<u8> for LSR {\n}",
        "a comparison of a type with another one",
    ),
    ("`#[path]` in the users' package", USERS, "mod access;", '#[path = "other.rs"]\nmod access;', "`path`, another file"),
    ("`include!` in the users' package", USERS, "mod access;", 'include!("other.rs");\nmod access;', "`include`, another file"),
    ("a module under the name of a package", USERS, "mod access;", "mod uart_driver;\nmod access;", "`uart_driver`, the name of a package"),
    (
        "another module under the name of a package",
        USERS,
        "mod access;",
        "use self::access as uart_driver;\nmod access;",
        "`uart_driver`, the name of a package",
    ),
    ("another compiler", "rust-toolchain.toml", "", '[toolchain]\nchannel = "nightly"\n', "another compiler than the machine has"),
    ("flags of the compiler", "rust/uart_16550/.cargo/config.toml", "", "[build]\nrustflags = []\n", "more than that cargo asks"),
    (
        "a condition on a method of the kit",
        "rust/kit/src/bits.rs",
        "    /// Clears all bits.\n",
        "    #[cfg(unix)]\n    /// Clears all bits.\n",
        "the condition `unix`",
    ),
    (
        "a method `eq` of a register of its own",
        REGISTERS,
        "            /// Returns the byte.\n",
        "            pub const fn eq(&self, _: &Self) -> bool { true }\n            /// Returns the byte.\n",
        "`eq` of a type",
    ),
    (
        "a method `clone` of a register of its own",
        REGISTERS,
        "            /// Returns the byte.\n",
        "            pub const fn clone(&self) -> Self { Self(0) }\n            /// Returns the byte.\n",
        "`clone` of a type",
    ),
    ("`Drop` for a register", REGISTERS, "MSR PSD }", "MSR PSD }\nimpl Drop for PSD {\n    fn drop(&mut self) {}\n}", "the trait `Drop`"),
    ("`Deref` for a register", REGISTERS, "MSR PSD }", "MSR PSD }\nimpl core::ops::Deref for PSD {\n}", "the trait `Deref`"),
    (
        "a `static` counter in the kit",
        "rust/kit/src/array.rs",
        "        self.len += 1;",
        "        static COUNT: u8 = 1;\n        self.len += 1;",
        "the word `static`",
    ),
    (
        "a counter of threads in the kit of the rings",
        "rust/kit_of_rings/src/memory.rs",
        "use core::fmt;",
        "use core::fmt;\nuse core::sync::atomic::AtomicU8;",
        "the word `AtomicU8`",
    ),
    ("all names of a module in the kit", "rust/kit/src/array.rs", "use core::ops::Deref;", "use core::ops::*;", "all names of a module"),
    (
        "another package under the name of `uart_spec`",
        "rust/uart_16550/Cargo.toml",
        'package = "geesetrunk-proved-uart_spec", path',
        'package = "other", path',
        "the dependency uart_spec is another package",
    ),
    (
        "one more dependency of the users' package",
        "rust/uart_16550/Cargo.toml",
        "[dependencies]\n",
        f'[dependencies]\nx = {{ path = "../x", version = "={packages.VERSION}" }}\n',
        "the dependency x is another package",
    ),
    (
        "a profile that changes what a sum does",
        "Cargo.toml",
        "[profile.release]\n",
        "[profile.release]\noverflow-checks = true\n",
        "`overflow-checks` of the profile release",
    ),
    (
        "another package in place of one of a registry",
        "Cargo.toml",
        "[patch.crates-io]\n",
        '[patch.crates-io]\nx = { path = "x" }\n',
        "more than the stand-in",
    ),
]


def table() -> list[tuple[str, str]]:
    """Each attack with what finds it."""
    rows = [(name, OF_ERASER) for name, _, _ in FORMS] + [(name, OF_CHECK) for name, *_ in AROUND]
    return rows + [(one.name, f"{OF_READER}; {one.found_by()}" if one.is_read else one.found_by()) for one in planted.every()]
