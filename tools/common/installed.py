"""Tools whose packages are installed where they are missing: for scripts that skip by name what cannot be had.

A script imports this by `sys.path.insert(0, ".../tools/common"); import installed`.
"""
import functools
import pathlib
import shutil
import subprocess

TOP = pathlib.Path(__file__).resolve().parent.parent.parent
# The packages of Debian whose names are not those of their tools.
PACKAGES = {
    "aarch64-linux-gnu-gcc": "gcc-aarch64-linux-gnu",
    "arm-none-eabi-gcc": "gcc-arm-none-eabi",
    "avr-gcc": "gcc-avr",
    "frama-c": "frama-c-base",
    "ld.lld": "lld",
    "mips-linux-gnu-gcc": "gcc-mips-linux-gnu",
    "powerpc-linux-gnu-gcc": "gcc-powerpc-linux-gnu",
    "riscv64-unknown-elf-gcc": "gcc-riscv64-unknown-elf",
    "s390x-linux-gnu-ld": "binutils-s390x-linux-gnu",
    **dict.fromkeys(("qemu-aarch64", "qemu-arm", "qemu-ppc", "qemu-riscv32", "qemu-s390x", "qemu-x86_64"), "qemu-user"),
}


def package(tool: str) -> str:
    """The package that has a tool."""
    return PACKAGES.get(tool, tool)


def need(*words: str) -> bool:
    """Whether a function of integration/apt finds or installs what it is asked for."""
    command = ["bash", "-c", '. integration/apt; "$@"', "need", *words]
    return subprocess.run(command, cwd=TOP, stdout=subprocess.DEVNULL, stderr=subprocess.DEVNULL, check=False).returncode == 0


@functools.cache
def has(tool: str) -> bool:
    """Whether there is a tool, or its package can be installed."""
    return bool(shutil.which(tool)) or need("need", tool, package(tool))


def why_not(tools: list[str]) -> str:
    """Which of these cannot be had, or nothing if all can."""
    return " and ".join(f"there is no {one}, and its package {package(one)} cannot be installed" for one in tools if not has(one))
