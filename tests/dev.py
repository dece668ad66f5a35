#!/usr/bin/env python3
"""Holds ./dev against its help and its tools: each command answers, refusals have a text and a status, and a toolchain
whose parts are other than those known here is used through `rt` alone. Checks on examples how a refusal of a mutant is
judged, and which changes of a text its result outlives. Lints the scripts of the tree if linters are installed. Needs no
built program."""

import os
import shutil
import subprocess
import sys
import tempfile
from pathlib import Path

ROOT = Path(__file__).resolve().parent.parent
PATIENCE = 120
# The commands whose tools have a help of their own.
WITH_HELP = ("bench", "time", "profile", "mutate", "sizes", "contracts")
faults = []


def dev(*words, path=None):
    """Runs ./dev, with another PATH if one is given. Returns status, standard output and standard error."""
    environment = {**os.environ, "PATH": path} if path else dict(os.environ)
    ended = subprocess.run([sys.executable, "-B", ROOT / "dev", *words], capture_output=True, text=True, check=False,
                           stdin=subprocess.DEVNULL, timeout=PATIENCE, env=environment)
    return ended.returncode, ended.stdout, ended.stderr


def want(is_right, text):
    if not is_right:
        faults.append(text)


def holds_help():
    """The help names each command of the package, and nothing else."""
    sys.path.insert(0, str(ROOT / "tools"))
    from developing.command import COMMANDS

    status, text, _ = dev("--help")
    listed = [line.split()[0] for line in text.splitlines() if line.startswith("  ")]
    want(status == 0 and listed == list(COMMANDS), f"the help lists {listed}")
    want(dev()[0] == 2 and dev("fly")[0] == 2, "no command and an unknown command end with status 2")
    want("no command 'fly'" in dev("fly")[2], "an unknown command is named")
    for name in WITH_HELP:
        status, text, _ = dev(name, "--help")
        want(status == 0 and text.startswith("usage:"), f"the help of {name}")
    want(dev("prove", "no-such-crate")[0] == 2, "a crate that is not there")
    want(dev("package", "one-word")[0] == 2, "a package without a folder")


def holds_toolchains(folder):
    """Without a toolchain ./dev says so. With one whose module is unknown, a crate is proved by `rt check`."""
    for name in ("python3", "bash", "env"):
        os.symlink(shutil.which(name), folder / name)
    status, _, text = dev("prove", "tx_memory", path=str(folder))
    want(status == 127 and "toolchain is missing" in text, f"no toolchain: status {status}, {text!r}")
    stub = folder / "rt"
    stub.write_text('#!/usr/bin/env bash\necho "rt $*"\n', encoding="utf-8")
    stub.chmod(0o755)
    status, text, _ = dev("prove", "tx_memory", "--only", "nothing", path=str(folder))
    want(status == 0 and "\nrt check --only nothing" in text, f"an unknown toolchain: status {status}, {text!r}")
    status, _, text = dev("unproved", str(folder / "program"), path=str(folder))
    want(status == 1 and "not as this script knows them" in text, f"an unproved build: status {status}, {text!r}")


# A crate, and a line of a mutant of it that names nothing.
STALE_LABELS = [
    ("stm_core", "clause of the version's new"),
    ("stm_core", "clause of Version::free"),
    ("stm_core", "clause `free` of Version::new"),
    ("ex_bank", "clause `told` of Move::run: its trait has no such clause"),
    ("load_record", "clause `heard` of Observed: it has no such ghost field"),
    ("cli_main", "row test_cli: writes_that_fail"),
    ("cli_main", "row test_cli: flushes_that_fail: two tests have this name"),
    ("cli_main", "row test_cli: work::flushes_that_fail: it stands in two other modules"),
    ("cli_main", "row test_stm: a_cleared_write_log_keeps_its_memory: its crate does not stand on this one"),
    ("cli_main", "script tests/kinds"),
]

# A library, and changes of it: a result of a mutant above it outlives the first ones, and not the others.
LIBRARY = """//! A counter.
use crate::inner::{Step, step};

/// A count.
pub struct Count {
    number: u64,
}

const MOST: u64 = 9;

impl Count {
    /// Returns the number.
    pub fn get(&self) -> u64
        ensures { result ≡ self.now.number }
    {
        self.number
    }
}

fn hidden(number: u64) -> u64
    ensures { result ≡ number }
{
    step(number)
}
"""
OUTLIVED = [("        self.number\n", "        self.number + 0\n"), ("/// A count.", "/// A number."), ("≡ number }", "≡ 0 }"),
            ("{Step, step}", "{Step, other}"), ("fn hidden", "fn other")]
NOT_OUTLIVED = [("≡ self.now.number", "≡ 0"), ("number: u64,", "number: u32,"), ("MOST: u64 = 9", "MOST: u64 = 8"),
                ("pub fn get", "pub fn find")]
# What a check may say of a mutant, and what that comes to.
SAID = [
    (0, "logic=proved functions=1", "PROVED"),
    (1, "fn a::b::c: not proved: `search` did not prove `ok`\nonly=1 proved=0", "SHOWN"),
    (1, "./proofs/b/c/Answers.antt:4:5: error: `ok`: it differs\nfn a::b::c: not proved\nonly=1 proved=0", "HAND"),
    (1, "fn a::b::c: no proof: expected a measure\nlogic=not-proved", "HAND"),
    (1, "src/b.rt:3:1: error: no such name\nonly=1 proved=0", "BAD"),
    (3, "antt ran out of stack", "LIMIT"),
    (2, "error: killed", "UNSURE"),
]


def holds_mutants(folder):
    """A result outlives changes of the bodies below, and no change of a contract, type or constant; and each outcome of
    a check is told from the others."""
    sys.path.insert(0, str(ROOT / "tools"))
    import plant
    import shown

    def known(number, text):
        file = folder / f"crates/library{number}/src/lib.rt"
        file.parent.mkdir(parents=True)
        file.write_text(text, encoding="utf-8")
        return shown.contract_text(file)

    changes = [(pair, True) for pair in OUTLIVED] + [(pair, False) for pair in NOT_OUTLIVED]
    first = known(0, LIBRARY)
    for number, ((old, new), is_outlived) in enumerate(changes, 1):
        same = known(number, LIBRARY.replace(old, new)) == first
        want(LIBRARY.count(old) == 1 and same == is_outlived, f"a result {'ends' if is_outlived else 'goes on'} at {new!r}")
    for status, said, kind in SAID:
        came_to = plant.judged(status, said)[0]
        want(came_to == getattr(plant, kind), f"a check that says {said!r} comes to {came_to}, and not to {kind}")


def holds_labels():
    """The look-up of what is to refuse a mutant knows what is not there."""
    import mutants

    for crate, by in STALE_LABELS:
        want(mutants.stale(crate, by) is not None, f"this names nothing, and is taken for good: {crate}: {by}")


def tracked():
    """The files of the tree, without those of folders that are made."""
    git = ["git", "-c", f"safe.directory={ROOT}", "ls-files", "--cached", "--others", "--exclude-standard"]
    ended = subprocess.run(git, cwd=ROOT, capture_output=True, text=True, check=True)
    return [ROOT / name for name in ended.stdout.splitlines() if (ROOT / name).is_file()]


def is_script(file, word):
    """Returns whether the first line of a file names this interpreter."""
    with file.open("rb") as bytes_:
        first = bytes_.readline(200)
    return first.startswith(b"#!") and word in first


def lint(name, command, files):
    """Runs a linter on the files, or says that it is not installed."""
    ended = subprocess.run([*command, *files], capture_output=True, text=True, check=False, timeout=PATIENCE)
    if ended.returncode == 127 or "No module named" in ended.stderr:
        print(f"dev: skipped: {name} is not installed")
    else:
        want(ended.returncode == 0, f"{name}: {ended.stdout[:2000]}{ended.stderr[:500]}")


def holds_linters():
    """Shell scripts pass shellcheck, Python scripts ruff or pyflakes."""
    files = tracked()
    shell = [file for file in files if file.suffix == ".sh" or is_script(file, b"bash")]
    python = [file for file in files if file.suffix == ".py" or is_script(file, b"python")]
    if shutil.which("shellcheck"):
        lint("shellcheck", ["shellcheck", "--severity=warning"], shell)
    else:
        print("dev: skipped: shellcheck is not installed")
    if shutil.which("ruff"):
        lint("ruff", ["ruff", "check", "--quiet"], python)
    else:
        lint("pyflakes", ["/usr/bin/python3", "-m", "pyflakes"], python)


def main():
    holds_help()
    with tempfile.TemporaryDirectory() as folder:
        holds_toolchains(Path(folder))
        holds_mutants(Path(folder))
    holds_labels()
    holds_linters()
    for text in faults:
        print(f"dev: {text}", file=sys.stderr)
    print("dev: commands, refusals and linters are as they should be" if not faults else f"dev: {len(faults)} faults")
    sys.exit(bool(faults))


main()
