"""The gate, at the top of a clean checkout: .ci/run [WORD ..]

What documents say and quote, and how long lines are; whether what ships stands alone; whether pictures and the Rust packages are what the
repository makes; then every proof, every test and program of the proved crates, and beside them the tests of the eraser and of the Rust
packages, their documentation, the page in a browser, and the commands of the READMEs, which need no proof; and then side by side what needs
what was proved: what laws ask for, uart_port on an emulated PC, the programs, the emitted Rust compared with the proved MIR,
the C made of it, kernels and U-Boot over that, the wrong bodies of the gate, the example monitors, the tty driver in Linux, Linux on the
device for monitors.

Every command is run, whatever passed before. Of `rt ci` the kit decides what it keeps, and of wrong bodies verdicts are kept. With CI=true, as
the machine has it that lands changes, or CI=full nothing is taken that an earlier run kept but proofs, which the kit checks. A checkout that
is changed meanwhile fails. With WORDs only the commands whose name has one of them are run, which is not the gate.

What cannot be installed is skipped by name. How many each command counts at least is in .ci/counts: one that counts less has failed, and so
has one that is not run or not there. Each minute a line says what is running. At the end are tables of seconds, of the commands and of the
proofs, and of sizes, the lines of .ci/counts that this run would write otherwise, with the whole file for who means it, and what failed by
name; the last line is 'N passed, M failed' over all commands, with ', K skipped' behind it if something was skipped, and the status is 0 if
nothing failed. What takes hours is in .ci/nightly.
"""
import concurrent.futures
import pathlib
import re
import shutil
import subprocess
import sys
import tempfile
import threading
import time

sys.dont_write_bytecode = True
import gate
from gate import Command

CI = "rt ci"
SETTLED = re.compile(r"rt: (\w+) (?:proved|is kept: .*)$")
# The fast ones, one after the other. Who forgot to renew something hears of it within half a minute, before anything is proved.
FIRST = [
    Command(".ci/lint"),
    Command(".ci/tests"),
    Command(".ci/documents"),
    Command(".ci/theorems"),
    Command(".ci/terms"),
    Command(".ci/houses"),
    Command(".ci/constants"),
    Command(".ci/parts"),
    Command(".ci/catch-alls"),
    Command(".ci/pictures --check"),
    Command(".ci/chips"),
    Command(".ci/bill --check"),
    Command(".ci/sizes --check"),
    Command(".ci/cases"),
    Command("tools/c/cases"),
    Command("tools/eraser/erase check"),
]


def beside(words: str) -> Command:
    """A command that needs no proof: it gives way to the proofs, on which all else waits."""
    return Command(words, nice=19)


def over(words: str, nice: int = 0) -> Command:
    """A command over what `rt ci` builds."""
    return Command(words, [CI], nice)


COMMANDS = [
    *FIRST,
    Command(CI),
    beside("tools/eraser/erase test"),
    beside("tools/eraser/erase corpus"),
    beside("integration/readme"),
    beside("integration/packages"),
    beside("rust/tests/interface"),
    beside("integration/rust"),
    beside("integration/original"),
    beside("bench/measure-size --check"),
    beside("integration/doc"),
    over("integration/port"),
    over("integration/programs"),
    beside("integration/web"),
    over("tools/eraser/mir/compare"),
    over("tools/c/emit --check driver"),
    over("tools/c/emit --check console"),
    over("tools/c/emit --check port"),
    over("tools/c/compare driver", nice=19),
    over("tools/c/compare console", nice=19),
    over("tools/c/compare port", nice=19),
    over(".ci/premises", nice=19),
    # Nothing waits for these, and they take all cores.
    over(".ci/wrong-bodies --after-ci --in-the-gate", nice=19),
    beside("integration/c-kernels"),
    beside("integration/census"),
    beside("integration/boot-loaders u-boot"),
    beside("integration/c"),
    # These wait for other machines as a person would. Each takes less than a core, so they run side by side, and nothing else beside them.
    over("integration/monitor"),
    over("integration/linux"),
    # These wait for nothing, and take a core.
    beside("integration/c-monitor"),
    over("integration/guest"),
]
ALONE = 4
for alone in COMMANDS[-ALONE:]:
    alone.after = [one.words for one in COMMANDS[:-ALONE]]

PRINTING = threading.Lock()
# What `rt ci` has settled so far, as the names that others wait for.
DONE: set[str] = set()


def say(*lines: str) -> None:
    with PRINTING:
        print(*lines, sep="\n", flush=True)


def told_by_ci(line: str) -> None:
    """Says at once what `rt ci` says: a crate that is not proved is to be seen before the others are."""
    settled = SETTLED.match(line)
    if settled:
        DONE.add(f"{CI}: {settled[1]}")
    say(f"{time.monotonic() - gate.BEGAN:6.0f} s: {line}" if line.startswith("rt: ") else line)


def clear_libraries() -> None:
    """Removes the libraries that earlier runs left in this checkout: `rt ci` would put them back in place of its own, and what runs behind
    it would be linked with what was proved some time ago. A clean checkout has none."""
    for path in gate.TOP.glob("crates/*/out/rlib"):
        shutil.rmtree(path)


def hand_over() -> None:
    """Has .ci/change know what `rt ci` proved here, so that it begins with that."""
    ended = subprocess.run(
        [gate.TOP / ".ci" / "change", "--keep-proofs"],
        stdin=subprocess.DEVNULL,
        stdout=subprocess.PIPE,
        stderr=subprocess.STDOUT,
        text=True,
        check=False,
    )
    if ended.returncode:
        say("note: .ci/change will not know of this run:", ended.stdout.rstrip("\n"))


def run(command: Command, found: dict[str, str], logs: pathlib.Path) -> None:
    """Runs a command, and prints what it says."""
    is_ci = command.words == CI
    if is_ci:
        clear_libraries()
    say(f"runs: {command.words}")
    command.run(told_by_ci if is_ci else None, counts=True)
    (logs / re.sub(r"\W+", "-", command.words)).write_text("\n".join(command.lines) + "\n", encoding="utf-8")
    say(f"ran: {command.words}: {command.wall:.0f} s, {command.cpu:.0f} cpu s", *([] if is_ci else command.lines))
    # What was changed meanwhile may have been read before or after.
    if is_ci and not command.failed and gate.files() == found:
        hand_over()


def is_ready(command: Command, waited: set[str]) -> bool:
    """Returns whether all that a command waits for has ended: a command, or a crate of `rt ci`, which ends with it at the latest."""
    return all(one not in waited and (one in DONE or not (one.startswith(f"{CI}: ") and CI in waited)) for one in command.after)


def run_all(left: list[Command], found: dict[str, str], logs: pathlib.Path) -> None:
    """Runs commands side by side, each once those that it waits for have ended."""
    left, failed = [*left], set[str]()
    running: dict[concurrent.futures.Future[None], Command] = {}
    with concurrent.futures.ThreadPoolExecutor(len(COMMANDS)) as pool:
        while left or running:
            waited = {one.words for one in [*left, *running.values()]}
            for one in [one for one in left if is_ready(one, waited)]:
                left.remove(one)
                lacking = sorted(failed.intersection(one.after))
                if lacking:
                    one.status = f"not run, since {lacking[0]} failed"
                    say(f"{one.words}: {one.status}")
                else:
                    running[pool.submit(run, one, found, logs)] = one
            for ended in concurrent.futures.wait(running, timeout=1, return_when=concurrent.futures.FIRST_COMPLETED).done:
                ended.result()
                one = running.pop(ended)
                # The others say more on their own. Without these there is nothing to look at, or it is of some time ago.
                failed |= {one.words} if one.failed and one.words == CI else set()


def sizes() -> list[str]:
    """What there is of each kind, and what this change added: who reads a green line is to see what it cost."""
    told = subprocess.run([gate.TOP / ".ci" / "sizes"], stdin=subprocess.DEVNULL, stdout=subprocess.PIPE, text=True, check=False)
    return told.stdout.splitlines()


def fail_what_no_line_fits(chosen: list[Command], told: dict[str, gate.Least], is_whole: bool) -> None:
    """Fails each command that the counts do not name, and adds as failed those that they name and the gate does not have."""
    for one in chosen:
        if one.words not in told:
            one.fail("it has no line in .ci/counts")
    for words in told.keys() - {one.words for one in chosen} if is_whole else ():
        chosen.append(Command(words))
        chosen[-1].fail("it has a line in .ci/counts, and the gate does not run it")


def counts(told: dict[str, gate.Least], commands: list[Command]) -> dict[str, gate.Least]:
    """Returns the lines as commands count now, in their order. One that skipped, failed otherwise or was not run keeps its line."""
    now = {}
    for one in commands:
        least = told.get(one.words, gate.Least())
        now[one.words] = least._replace(whole=one.passed) if one.has_counted and not one.skipped else least
    return now


def write_counts(told: dict[str, gate.Least], path: pathlib.Path) -> list[str]:
    """Writes the counts as they are now into a file, and returns their lines that are others."""
    now = counts(told, COMMANDS)
    head = [line for line in gate.COUNTS.read_text(encoding="utf-8").splitlines() if line.startswith("#")]
    path.write_text("\n".join([*head, *(least.line(words) for words, least in now.items())]) + "\n", encoding="utf-8")
    others = [least.line(words) for words, least in now.items() if told.get(words) != least]
    return [f"Lines of .ci/counts as this run counts them; with them all of it is {path}:", *others] if others else []


def is_green(commands: list[Command], is_same: bool) -> bool:
    """Returns whether all passed. The checkout has to be the same as before: a command that changes it could make another one test something
    else than what lands."""
    if not is_same:
        say("The checkout was changed while the commands ran, so they say nothing of it.")
        commands[-1].failed += 1
    return not any(one.failed for one in commands)


def main() -> bool:
    words = sys.argv[1:]
    chosen = [one for one in COMMANDS if not words or any(word in one.words for word in words)]
    if not chosen:
        sys.exit(f"run: no command has one of these words: {' '.join(words)}")
    logs = pathlib.Path(tempfile.mkdtemp(prefix="ci-"))
    found = gate.files()
    with gate.Clock(say, lambda: [one.words for one in chosen if one.is_running]) as clock:
        for one in chosen:
            if one in FIRST:
                run(one, found, logs)
        run_all([one for one in chosen if one not in FIRST], found, logs)
    say(*clock.table(), *gate.table(chosen), f"All took {time.monotonic() - gate.BEGAN:.0f} s. What each command printed is in {logs}.")
    say(*sizes())
    told = gate.leasts()
    say(*write_counts(told, logs / "counts"))
    fail_what_no_line_fits(chosen, told, not words)
    has_passed = is_green(chosen, gate.files() == found)
    for line in gate.what_failed(chosen):
        say(line)
    if words:
        print("This is not the gate: it was asked for some commands alone.")
    print(gate.last_line(chosen))
    return not has_passed


if __name__ == "__main__":
    gate.main_of(main)
