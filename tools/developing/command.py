"""The command line of ./dev: each subcommand, what it needs, and the tool behind it."""

from __future__ import annotations

from collections.abc import Callable, Sequence
from dataclasses import dataclass

from . import smoke
from .runner import NOT_FOUND, PROGRAMS, ROOT, Missing, python, require, run, say

ABOUT = """usage: ./dev COMMAND [ARGUMENT]..

Work on this tree. './vacation' and './judge' prove, build and run the programs, './test' runs the gate; the rest is here.
"""
FOOT = """
'./dev COMMAND --help' tells the arguments of most commands.
"""


@dataclass(frozen=True)
class Command:
    """A subcommand: its arguments and meaning for the help, its action, and the programs it needs."""

    arguments: str
    summary: str
    act: Callable[[Sequence[str]], int]
    needs: tuple[str, ...] = ()


def script(path: str) -> Callable[[Sequence[str]], int]:
    """An action that hands its arguments to a Python script of the tree."""
    return lambda words: python(path, words)


def try_program(words: Sequence[str]) -> int:
    """Runs a program as it stands, with nothing proved. `rt try` compiles it with checks that stop it where a
    proof would have failed; the output comes when the program has ended, one MiB at most, within ten minutes."""
    if not words or words[0] in ("-h", "--help"):
        say("usage: ./dev try [vacation|judge] WORD..: the words of a command line of vacation, or of judge, as in"
            " ./dev try run < script, or ./dev try judge history < log")
        return 0 if words else 2
    program, words = (words[0], words[1:]) if words[0] in PROGRAMS else (PROGRAMS[0], words)
    say(f"nothing is proved; {program} is compiled first, which takes a minute")
    return run(["rt", "try", "--seconds", "600", "--", *words], ROOT / "crates" / program)


def prove(words: Sequence[str]) -> int:
    """Proves one crate over the builds that ./vacation leaves of the libraries below it."""
    if not words or not (ROOT / "crates" / words[0] / "src").is_dir():
        say("usage: ./dev prove CRATE [--only FUNCTION] [--allow-holes] ..: CRATE is a folder of crates/")
        return 2
    return python("tools/check_crate.py", words)


def mutate(words: Sequence[str]) -> int:
    """Tries the mutants of tests/plants; --check only compares their texts, which needs no toolchain."""
    if "--check" not in words and not {"-h", "--help"} & set(words):
        require("rt")
    return python("tools/plant.py", words)


def package(words: Sequence[str]) -> int:
    """Packs the programs for those without the toolchain, after a build if no program is named."""
    if len(words) not in (0, 3) or {"-h", "--help"} & set(words):
        say("usage: ./dev package [VACATION JUDGE FOLDER]")
        return 2
    if not words:
        for program in PROGRAMS:
            if status := run([ROOT / program, "--version"]):
                return status
        words = [*(str(ROOT / f"crates/{program}/out/{program}") for program in PROGRAMS), str(ROOT / "out/release")]
    return python("tools/package.py", words)


COMMANDS = {
    "try": Command("WORD..", "run a program with nothing proved: './dev try run < script'", try_program, ("rt",)),
    "prove": Command("CRATE [FLAG]..", "prove one crate; the flags are those of 'rt check'", prove, ("rt",)),
    "smoke": Command("", "build the programs unproved and run the quick tests on it, within ten minutes",
                     smoke.main, ("rt",)),
    "mutate": Command("[CRATE|MUTANT]..", "try mutants of tests/plants: those named, --gate or --all; --check compares texts",
                      mutate),
    "unproved": Command("FILE [PROGRAM]", "build vacation, or another program, with nothing proved, as this file",
                        script("tools/unproved.py"), ("rt",)),
    "bench": Command("[OPTION]..", "measure the program beside its peers", script("benchmark/measure.py")),
    "time": Command("[OPTION]..", "compare times with one peer by pairs of runs", script("benchmark/pairs.py")),
    "profile": Command("[OPTION]..", "print the hottest functions and instructions", script("benchmark/samples.py")),
    "package": Command("[VACATION JUDGE FOLDER]", "pack a tarball and a Debian package", package, ("git",)),
    "new-law": Command("NAME", "write a crate with a transactional object of its own", script("tools/new_law")),
    "new-object": Command("NAME", "write a crate with a sequential object, and a judge of its histories",
                          script("tools/new_object")),
    "sizes": Command("[FOLDER]", "count lines, clauses, crates and chains of the tree", script("tools/sizes.py")),
    "contracts": Command("[OPTION]..", "print, keep or compare all clauses; how much a promise asks to be read; pages of crates",
                         script("tools/contracts.py")),
}


def help_text() -> str:
    """The help: a line for each subcommand."""
    names = {name: f"{name} {command.arguments}".rstrip() for name, command in COMMANDS.items()}
    width = max(map(len, names.values()))
    lines = [f"  {names[name]:{width}}  {command.summary}" for name, command in COMMANDS.items()]
    return "\n".join([ABOUT, *lines, FOOT])


def main(words: Sequence[str]) -> int:
    """Runs a subcommand, and returns the exit status."""
    if not words or words[0] in ("-h", "--help", "help"):
        print(help_text(), end="")
        return 0 if words else 2
    name, *arguments = words
    if name not in COMMANDS:
        say(f"there is no command '{name}'; './dev --help' lists them")
        return 2
    command = COMMANDS[name]
    try:
        require(*command.needs)
        return command.act(arguments)
    except Missing as missing:
        say(str(missing))
        return NOT_FOUND
