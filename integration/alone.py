"""How commands are run as on a machine where nothing is but a checkout and cargo: with an empty home, and cut off from the network."""
import os
import pathlib
import shutil
import subprocess

TOP = pathlib.Path(__file__).resolve().parent.parent


def path_of_tools() -> str:
    """Where programs are found. A cargo of rustup's looks for its compiler in the home, so its folder is named."""
    folders = ["/usr/local/bin", "/usr/bin", "/bin", "/usr/sbin", "/sbin"]
    cargo = shutil.which("cargo")
    if cargo and shutil.which("rustup"):
        found = subprocess.run(["rustup", "which", "cargo"], capture_output=True, text=True, check=False, cwd=TOP)
        cargo = found.stdout.strip() or cargo
    return os.pathsep.join([os.path.dirname(cargo or "/usr/bin/cargo"), *folders])


def cut_off() -> list[str]:
    """What cuts a command off from the network, or nothing if that is not possible here."""
    for words in (["unshare", "-n"], ["unshare", "-rn"]):
        if shutil.which("unshare") and subprocess.run([*words, "true"], capture_output=True, check=False).returncode == 0:
            return words
    return []


PATH = path_of_tools()
# Where an unpacked cargo finds its libraries.
LIBRARIES = [f"{name}={os.environ[name]}" for name in ("LD_LIBRARY_PATH",) if name in os.environ]


def environment(home: pathlib.Path) -> list[str]:
    """What gives a command this home, and nothing else."""
    return ["env", "-i", f"PATH={PATH}", f"HOME={home}", *LIBRARIES]
