"""What the MIR calls and what is not in it: the device, what is printed, and memory. Each entry is by the implementation of a trait and the
index of its method, or by the name of a function: the types of the arguments, the type of the result, and the body."""
from translate import Dictionary, Made, Native, Translation, Type, Types, Unknown

DEVICE = ("Named", "Device", ())
ERROR = ("Named", "core::fmt::Error", ())
NO_MEMORY = ("Named", "core::alloc::AllocError", ())


def ok(translation: Translation, value: Type, error: Type, text: str) -> tuple[str, str]:
    """The text of `Ok`."""
    of = ("Named", "core::result::Result", (value, error))
    result = translation.rust(of)
    return result, f"{result} {{ v0: {result}v0 {{ f0: 0, f1: {text}{translation.rest(of, 0)} }} }}"


def failed(translation: Translation, value: Type, error: Type) -> str:
    """The text of `Err` with an error that has no fields."""
    of = ("Named", "core::result::Result", (value, error))
    result = translation.rust(of)
    return f"{result} {{ v1: {result}v1 {{ f0: 1, f1: {translation.rust(error)} {{ }}{translation.rest(of, 1)} }} }}"


def access(bits: int, kind: str) -> list[Native]:
    """The two methods of a trait by which a driver reads and writes."""

    def read(translation: Translation, types: Types) -> Made:
        return ["P", f"u{bits}"], "u8", f"crate::run::read(a2 as u64, crate::run::{kind})"

    def write(translation: Translation, types: Types) -> Made:
        return ["P", f"u{bits}", "u8"], "()", f"crate::run::write(a2 as u64, a3, crate::run::{kind})"

    return [read, write]


def keep_waiting(translation: Translation, types: Types) -> Made:
    return ["P"], "bool", "crate::run::keep_waiting()"


def write_str(translation: Translation, types: Types) -> Made:
    text = translation.rust(("Struct", "&[]", (("Ref", ("Int", 8)), ("Int", 64))))
    result, done = ok(translation, "Unit", ERROR, "()")
    refused = failed(translation, "Unit", ERROR)
    return ["P", text], result, f"if crate::run::print_at(a2.f0, a2.f1) {{ {done} }} else {{ {refused} }}"


def allocate(translation: Translation, types: Types) -> Made:
    result, done = ok(translation, "Ptr", NO_MEMORY, "memory")
    refused = failed(translation, "Ptr", NO_MEMORY)
    body = f"let memory = crate::run::allocate(a2); if memory.is_null() {{ {refused} }} else {{ {done} }}"
    return ["P", "u64", "u64"], result, body


def free(translation: Translation, types: Types) -> Made:
    return ["P", "P", "u64", "u64"], "()", ""


def grow(translation: Translation, types: Types) -> Made:
    """Other memory with the same items at its start."""
    result, done = ok(translation, "Ptr", NO_MEMORY, "memory")
    size, _ = translation.layout(types[0])
    body = f"let memory = crate::run::memory(a5 * {size}); core::ptr::copy_nonoverlapping(a2, memory, (a3 * {size}) as usize); {done}"
    return ["P", "P", "u64", "u64", "u64"], result, body


def read_usr(translation: Translation, types: Types) -> Made:
    """A read of the register of a DesignWare's that is beyond the eight."""
    return ["P"], "u8", "crate::run::read(crate::run::USR, crate::run::REGISTERS)"


def clone(translation: Translation, types: Types) -> Made:
    device = translation.rust(DEVICE)
    result, done = ok(translation, DEVICE, NO_MEMORY, f"{device} {{ }}")
    return ["P"], result, done


def equal(translation: Translation, types: Types) -> Made:
    return ["P", "P"], "bool", "true"


def partial_cmp(translation: Translation, types: Types) -> Made:
    ordering = ("Named", "core::cmp::Ordering", ())
    of = ("Named", "core::option::Option", (ordering,))
    result, inner, rest = translation.rust(of), translation.rust(ordering), translation.rest(of, 1)
    return ["P", "P"], result, f"{result} {{ v1: {result}v1 {{ f0: 1, f1: {inner} {{ v1: {inner}v1 {{ f0: 1 }} }}{rest} }} }}"


# The traits that a device has, as a parameter of the driver: the trait, and the name of its implementation here.
TRAITS: dict[str, list[Native]] = {
    "uart_spec::backend::Backend": access(8, "REGISTERS"),
    "uart_design_ware::registers::DesignWareRegisters": [read_usr],
    "uart_16550::backend::PortAccess": access(16, "PORTS"),
    "uart_16550::backend::ByteAccess": access(64, "MEMORY"),
    "uart_16550::patience::Patience": [keep_waiting],
    "core::fmt::Write": [write_str],
    "core::clone::Clone": [clone],
    "core::cmp::PartialEq": [equal],
    "core::cmp::PartialOrd": [partial_cmp],
}
NATIVES: dict[tuple[str, int], Native] = {
    ("std_heap::GlobalAllocator", 0): allocate,
    ("std_heap::GlobalAllocator", 1): free,
    ("std_heap::GlobalAllocator", 2): grow,
    **{(f"of a device: {trait}", order): one for trait, methods in TRAITS.items() for order, one in enumerate(methods)},
}


def dictionary(trait: str, types: Types) -> Dictionary:
    """The implementation of a trait for the device, or for what a function owns."""
    if trait in TRAITS:
        return (f"of a device: {trait}", (), ())
    if trait.endswith("marker::Destruct"):
        return ("Destruct of nothing", types, ())
    raise Unknown(f"the bound {trait}")
