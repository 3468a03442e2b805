"""What the files of C have for compilers that call functions of their own libraries, which firmware is linked without, and for headers
that lack limits of types."""
import pathlib
import re

FOLDER = pathlib.Path(__file__).resolve().parent
# In front of all functions.
NO_TABLE = """/* For a switch of many cases: gcc for Cortex-M0 would make a table of it where code is to be small, and call its library for that. */
#if defined(__GNUC__) && !defined(__clang__) && defined(__OPTIMIZE_SIZE__) && defined(__thumb__) && !defined(__thumb2__)
#define UART_NO_TABLE __attribute__((__optimize__("no-jump-tables")))
#else
#define UART_NO_TABLE
#endif

"""

# What stdint.h has, and headers of kernels and of firmware often not: for a text that has these names.
LIMITS = {
    "UINT16_MAX": "UINT16_MAX 0xffff",
    "UINT32_C": "UINT32_C(number) ((uint32_t)number##UL)",
    "SIZE_MAX": "SIZE_MAX ((size_t)-1)",
    "UINTPTR_MAX": "UINTPTR_MAX ((uintptr_t)-1)",
}


def with_limits(text: str) -> str:
    """A text that has, behind the header that it includes first, those limits that it needs."""
    needed = [f"#ifndef {name}\n#define {value}\n#endif\n" for name, value in LIMITS.items() if re.search(rf"\b{name}\b", text)]
    first = re.search(r'(?m)^#include "\w+\.h"\n', text)
    assert first
    said = "\n/* What a header in the place of stdint.h may lack. */\n"
    return text[: first.end()] + said + "".join(needed) + text[first.end() :]


def functions(*names: str) -> str:
    """The text behind all other functions: what compilers call to return, and those that are named."""
    return "".join(f"\n{(FOLDER / f'layer_{one}.c').read_text(encoding='ascii')}" for one in (*names, "returns"))
