"""The text of `Value` for each type: of the emitted crate, and of the translated MIR. Both make a value of the same choices, field by field
in the order of the source, and show it as the same words."""
import re
from collections.abc import Mapping

from emitted import Type as EmittedType
from translate import Translation, Type

VALUE, CHOICES, WORDS = "crate::run::Value", "crate::run::Choices", "::std::vec::Vec<u64>"
HEAD = f"fn show(&self, out: &mut {WORDS})"
MAKE = f"fn make(choices: &mut {CHOICES}) -> Self"
ONE = f"{VALUE}::make(choices)"

# Types whose values are made by hand, in run/behind and below: not each combination of their fields is a value.
BY_HAND = {"ArrayVec", "ByteQueue", "Characters", "FixedFifo", "FixedWire", "KeptCharacters", "Path", "Tree"}


def of_emitted(one: EmittedType) -> str:
    """The text for a type of the emitted crate."""
    parameters, arguments = [], []
    for parameter in one.parameters:
        name, _, bound = parameter.partition(":")
        arguments.append(name.removeprefix("const ").strip())
        if name.startswith("'"):
            parameters.append(name)
            continue
        if name.startswith("const "):
            parameters.append(parameter)
            continue
        parameters.append(f"{name.strip()}: {' + '.join([VALUE, *([bound.strip()] if bound.strip() else [])])}")
    generics = f"<{', '.join(parameters)}>" if parameters else ""
    target = f"{one.name}<{', '.join(arguments)}>" if arguments else one.name
    shows, makes = [], []
    for order, (variant, fields) in enumerate(one.variants):
        path = f"{one.name}::{variant}" if one.is_enum else one.name
        pattern = ", ".join(f"{name}: x{place}" for place, (name, _) in enumerate(fields))
        shown = " ".join(f"{VALUE}::show(x{place}, out);" for place in range(len(fields)))
        made = ", ".join(f"{name}: {ONE}" for name, _ in fields)
        tag = f"out.push({order}); " if one.is_enum else ""
        shows.append(f"{path} {{ {pattern} }} => {{ {tag}{shown} }}")
        makes.append(f"{path} {{ {made} }}")
    if one.is_enum:
        cases = " ".join(f"{order} => {text}," for order, text in enumerate(makes))
        make = f"match choices.pick({len(makes)}) {{ {cases} _ => panic!() }}"
    else:
        make = makes[0]
    return f"impl{generics} {VALUE} for {target} {{ {HEAD} {{ match self {{ {' '.join(shows)} }} }} {MAKE} {{ {make} }} }}"


# The types by hand of the MIR: how a value is shown, and how it is made. `{rest}` has the bytes between its fields, and `{number}` is what
# its last parameter is given, if that is a number.
OF_MIR = {
    "uart_ring::queue::ByteQueue": (
        "let cells = self.f0.f2; out.extend([cells, self.f2]); unsafe { for at in 0..self.f2 { "
        "out.push(*self.f0.f0.add(((self.f1 + at) % cells) as usize) as u64); } }",
        "let (capacity, front, bytes) = crate::run::queue(choices); unsafe { let mut made: Self = zeroed(); "
        "made.f0.f0 = crate::run::memory(capacity as u64); made.f0.f1 = capacity as u64; made.f0.f2 = capacity as u64; "
        "made.f1 = front as u64; made.f2 = bytes.len() as u64; "
        "for (at, byte) in bytes.iter().enumerate() { *made.f0.f0.add((front + at) % capacity) = *byte; } made }",
    ),
    "uart_design_ware::kept::KeptCharacters": (
        "out.push(self.f1); unsafe { for at in 0..self.f1 as usize { self.f0[at].show(out); } }",
        "let f0 = Value::make(choices); Self { f0, f1: choices.pick(65){rest} }",
    ),
    "uart_discovery::tree::blob::Tree": (
        "self.f0.show(out); self.f1.show(out);",
        "let (structure, strings) = crate::run::tree(choices); let (one, other) = (crate::run::kept(&structure), crate::run::kept(&strings)); "
        "unsafe { let mut made: Self = zeroed(); made.f0.f0 = one.as_ptr() as *mut u8; made.f0.f1 = one.len() as u64; "
        "made.f1.f0 = other.as_ptr() as *mut u8; made.f1.f1 = other.len() as u64; made }",
    ),
    "uart_discovery::tree::path::Path": ("self.f0.show(out); out.push(self.f1);", "let (f0, f1) = crate::run::nodes(choices); Self { f0, f1{rest} }"),
    "arrayvec::array_vec::ArrayVec": (
        "self.f0.f0[..self.f1 as usize].show(out);",
        "unsafe { let mut made: Self = zeroed(); made.f1 = choices.pick(made.f0.f0.len() as u64 + 1); "
        "for at in 0..made.f1 as usize { made.f0.f0[at] = Value::make(choices); } made }",
    ),
    "arrayvec::array_string::ArrayString": (
        "self.f0.f0[..self.f1 as usize].show(out);",
        "unsafe { let mut made: Self = zeroed(); let text = crate::run::text_for(choices, made.f0.f0.len()); made.f1 = text.len() as u64; "
        "made.f0.f0[..text.len()].copy_from_slice(&text); made }",
    ),
    # A sum of errors is no more than a queue has characters: what is above is left to no `usize` of 32 bits.
    "uart_chip::characters::Characters": ("self.f0.show(out); out.push(self.f1);", "Self { f0: Value::make(choices), f1: choices.number(16){rest} }"),
    "uart_live::fixed::FixedFifo": (
        "out.extend([self.f1, self.f2]); self.f0.show(out);",
        "let (f1, f2) = (choices.pick({number}), choices.pick({number} + 1)); Self { f0: Value::make(choices), f1, f2{rest} }",
    ),
    "uart_live::fixed::FixedWire": (
        "self.f0.show(out); out.extend([self.f1, self.f2, self.f3]);",
        "let (f0, f1, f2, f3) = crate::run::wire(choices); Self { f0, f1, f2, f3{rest} }",
    ),
}


# How a value is shown and how it is made; None is as any other.
ByHand = Mapping[str, tuple[str, str | None]]


def of_mir(translation: Translation, by_hand: ByHand | None = None) -> str:
    """The text for all types of the translated MIR. What a reference points to is shown, and never made. `by_hand` has more types as OF_MIR has
    them."""
    names, out = set[str](), list[str]()
    while names != set(translation.shapes):
        for name in [one for one in translation.shapes if one not in names]:
            names.add(name)
            out.append(of_shape(translation, name, OF_MIR | (by_hand or {})))
    return "\n".join(out) + "\n"


# A list: where it is, how many items it has, how many it has room for.
LIST = (
    "unsafe {{ core::slice::from_raw_parts(self.f0 as *const {item}, self.f1 as usize).show(out) }}",
    "unsafe {{ let items: Vec<{item}> = choices.list(0); let mut made: Self = zeroed(); let count = items.len() as u64; "
    "made.f0 = crate::run::memory(count * {size}); made.f1 = count; made.f2 = count; "
    "core::ptr::copy_nonoverlapping(items.as_ptr(), made.f0 as *mut {item}, items.len()); made }}",
)


def of_shape(translation: Translation, name: str, by_hand: ByHand) -> str:
    of, (kind, parts) = translation.shapes[name]
    mine = by_hand.get(of[1]) if of[0] == "Named" else None
    if mine and mine[1] is not None:
        show, make = mine[0], mine[1].replace("{rest}", translation.rest(of))
        if of[2] and of[2][-1][0] == "Num":
            make = make.replace("{number}", str(of[2][-1][1]))
    elif of[0] == "Named" and of[1] == "std_alloc::vec::Vec":
        show, make = (text.format(item=translation.rust(of[2][0]), size=translation.layout(of[2][0])[0]) for text in LIST)
    elif of[0] == "Struct" and of[1] in ("&[]", "&str"):
        item = translation.rust(of[2][0][1])
        show, make = f"unsafe {{ core::slice::from_raw_parts(self.f0 as *const {item}, self.f1 as usize).show(out) }}", "panic!()"
    elif kind == "fields":
        show = " ".join(field(translation, f"self.f{order}", one) for order, (one, _) in enumerate(parts[0]))
        rest = translation.rest(of)
        make = f"Self {{ {', '.join(f'f{order}: Value::make(choices)' for order in range(len(parts[0])))}{rest} }}"
        if of[0] == "Named" and "nonzero::NonZero" in of[1]:
            make = f"Self {{ f0: core::cmp::max(1, Value::make(choices)){rest} }}"
    elif not parts:
        show, make = 'panic!("a value of no type")', 'panic!("a value of no type")'
    else:
        shows, makes = [], []
        for tag, part in enumerate(parts):
            shown = " ".join(field(translation, f"self.v{tag}.f{order}", one) for order, (one, _) in enumerate(part, 1))
            fields = "".join(f", f{order}: Value::make(choices)" for order in range(1, len(part) + 1))
            shows.append(f"{tag} => {{ {shown} }}")
            makes.append(f"{tag} => {name} {{ v{tag}: {name}v{tag} {{ f0: {tag}{fields}{translation.rest(of, tag)} }} }},")
        show = f"out.push(self.v0.f0 as u64); match self.v0.f0 {{ {' '.join(shows)} _ => panic!(\"no variant\") }}"
        make = f"match choices.pick({len(makes)}) {{ {' '.join(makes)} _ => panic!() }}"
    show = mine[0] if mine else show
    return (
        f"impl Value for {name} {{ fn show(&self, out: &mut Vec<u64>) {{ unsafe {{ {show} }} }} "
        f"fn make(choices: &mut Choices) -> Self {{ {make} }} }}"
    )


def field(translation: Translation, text: str, of: Type) -> str:
    """The text that shows a field, or what it points to."""
    if of == "Ptr" or of != "Unit" and of[0] == "Ref" and of[1] in ("Ptr", "Unit"):
        return ""
    if of[0] == "Ref":
        return f"(*({text} as *const {translation.rust(of[1])})).show(out);"
    return f"{{ let field = {text}; field.show(out); }}"


def without_lifetimes(text: str) -> str:
    """A type without the names of lifetimes."""
    return re.sub(r"<'\w+>", "<'_>", re.sub(r"&'\w+ ", "&", text))
