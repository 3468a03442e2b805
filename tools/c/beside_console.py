"""The functions of the console beside their own MIR, which has to have the values that a console has for ever: those members of the driver
and of its configuration are no choices, and neither are arguments that are one constant. What the C has not is not shown on either side."""
from __future__ import annotations

import re
from collections.abc import Sequence

import console
import syntax as c
from beside import Argument, Beside, of_mir
from library import Library
from translate import Type, Unknown
from tree import DEVICE

# The spin limit: a wait ends within the answers that a device gives.
POLLS = 5
BEFORE = f"""
#define U16550_CONSOLE_READ(offset) beside_read(NULL, offset)
#define U16550_CONSOLE_WRITE(offset, value) beside_write(NULL, offset, value)
#define U16550_CONSOLE_POLLS {POLLS}
"""
CONFIG = ("Named", "uart_spec::config::Config", ())
DRIVER, TERMINAL = (("Named", name, (DEVICE,)) for name in (console.OF_DRIVER.removesuffix("::"), "uart_16550::tty::Uart16550Tty"))


class BesideConsole(Beside):
    by_hand, before, called_by_it, header = "/* ---- the functions of the header, by hand", BEFORE, "", "u16550_console.h"

    def __init__(self, library: Library, source: str) -> None:
        self.source = source
        super().__init__(library)

    def called(self) -> set[str]:
        # What writes a struct through a pointer is compared by the calls that come to it.
        return set(re.findall(r"\b(uart_\w+)\([^;{}]*\)\n\{", self.source)) - console.BY_POINTER.keys()

    # What the C has less of.

    def fields(self, of: Type) -> list[tuple[str, Type]]:
        return [(name, inner) for name, inner in super().fields(of) if of != DRIVER or name not in console.GONE]

    @staticmethod
    def own(of: Type) -> Type:
        """A terminal is the driver under it."""
        return DRIVER if of == TERMINAL else of

    def made_at(self, of: Type, at: str) -> str:
        return super().made_at(self.own(of), at)

    def shown_at(self, of: Type, at: str) -> str:
        return super().shown_at(self.own(of), at)

    def of_c(self, source: str) -> str:
        texts = super().of_c(source)
        return re.sub(rf"{console.DRIVER}|struct uart_tty\b", console.CONSOLE, texts)

    def argument(self, order: int, of: Type, least: int) -> Argument:
        inner = of[1] if of[0] == "Ref" else of
        if inner in (DEVICE, CONFIG):
            passed = f"&raw mut a{order} as *mut u8" if of[0] == "Ref" else f"a{order}"
            made = f"let mut a{order}: {self.translation.rust_outside(of_mir(inner))} = Value::make(choices);"
            return Argument("", [None], "", made, passed, "")
        return super().argument(order, of, least)

    def known_argument(self, order: int, of: Type, value: c.Expression) -> Argument:
        known = self.known(of, value, ())
        made = f"let mut a{order}: {self.translation.rust_outside(of_mir(of))} = {known};"
        return Argument("", [None], "", made, f"a{order}", "")

    # What the MIR has in its place.

    def otherwise(self, found: list[int]) -> dict[str, tuple[str, str | None]]:
        return super().otherwise(found) | {of[1]: self.struct(of, found) for of in (DRIVER, CONFIG)}

    def struct(self, of: Type, found: Sequence[int]) -> tuple[str, str]:
        """How a struct is shown, and how it is made, whose members are choices if a console has them, and have their own value otherwise."""
        members = self.types.fields(of)
        kept = [] if of == CONFIG else [name for name, _ in self.fields(of)]
        shown = " ".join(f"{{ let field = self.f{order}; field.show(out); }}" for order, (name, _) in enumerate(members) if name in kept)
        made = ", ".join(
            f"f{order}: " + ("Value::make(choices)" if name in kept else self.known(inner, self.value(of, name, inner), found))
            for order, (name, inner) in enumerate(members)
        )
        return shown, f"Self {{ {made}{{rest}} }}"

    def value(self, of: Type, name: str, inner: Type) -> c.Expression | None:
        """The value that a member has for ever, or None if nobody reads it."""
        made = self.library.fixed.get((self.types.c(of).text(), name))
        return made(c.Word(name, self.types.c(inner))) if made else None

    def known(self, of: Type, value: c.Expression | None, found: Sequence[int]) -> str:
        """The text of Rust that makes a value which is known, of the only choices that lead to it."""
        return f"Value::make(&mut crate::run::Choices::known(&{self.path(of, value, found)}))"

    def path(self, of: Type, value: c.Expression | None, found: Sequence[int]) -> list[int]:
        """The choices of a value, or of any if it is None."""
        kind = self.types.kind(of)
        if kind.kind in ("unit", "device"):
            return []
        if kind.kind == "wrapper":
            return self.path(kind.value, value, found)
        if kind.kind == "struct":
            return [one for name, inner in self.types.fields(of) for one in self.path(inner, self.value(of, name, inner), found)]
        if kind.kind == "bool":
            return [int(value is not None and c.text(value) == "true")]
        if kind.kind == "number":
            number = 0 if value is None else value.value if isinstance(value, c.Literal) else POLLS
            return [number if of[1] <= 16 else found.index(number)]
        if kind.kind in ("enum", "tagged"):
            names = [self.types.constant(of, tag) for tag in range(len(self.types.variants(of)))]
            return [0 if value is None else names.index(c.text(value))]
        if kind.kind == "option" and value is None:
            return [1 - kind.full]
        if kind.kind == "option" and isinstance(value, c.CallOf):
            return [kind.full, *self.path(kind.value, value.members()["value"], found)]
        raise Unknown(f"a known value of a type that is {kind.kind}")


__all__ = ["BesideConsole"]
