#!/usr/bin/env python3
"""Builds each template of share/vacation/templates by the command at its head, and runs the commands that
stand there with it: its calls are legal and whole, and its attempts opaque where it logs them. The mistake
that each can be built or run with is found within twenty runs. A crash and a standstill leave a log that is
judged, and are told. What has no compiler here is skipped, with a word. Its argument is the program, a file
that is built already; with none it is the one that the repository's last build left."""

import os
import re
import shutil
import subprocess
import sys
import tempfile
from pathlib import Path

import built

ROOT = Path(__file__).resolve().parent.parent
TEMPLATES = ROOT / "share/vacation/templates"
PATIENCE = 400
MOST_RUNS = 20
# In one crash of seven others have seen the effect of a call that was cut short.
CRASHES = 30
COMPILERS = ("cc", "rustc", "go", "ghc")
failed, skipped = [], []

# Each template: what must be there, and how its mistake is made: what stands in the command that builds or
# runs it, and what takes its place.
# The template that tests/maps.py tries.
TRIED_BY_MAPS = "java/Maps.java"
TABLE = {
    "c/tl2.c": (["cc"], ("cc -O2", "cc -O2 -DMISTAKE=1")),
    "c/stamp.c": (["cc"], ("cc -O2", "cc -O2 -DMISTAKE=1")),
    "rust/norec.rs": (["rustc"], ("rustc", "rustc --cfg mistake")),
    "go/norec.go": (["go"], ("built/peer ", "MISTAKE=1 built/peer ")),
    "haskell/Stm.hs": (["ghc"], ("./stm", "./stm --mistake --patience 5")),
    "python/tl2.py": (["python3"], ("< work", "--mistake --patience 5 < work")),
}
# Harnesses of their own, with the options that make them crash or stand still.
HARNESSES = {"haskell/Stm.hs", "python/tl2.py"}

# A memory with one lock that crashes or stands still after a while.
FAULTY = r"""
#include "vacation_tm.h"
#include <pthread.h>
#include <stdlib.h>
#include <unistd.h>
static pthread_mutex_t lock = PTHREAD_MUTEX_INITIALIZER;
static uint64_t *words, commits;
void *tm_open(uint64_t *first, size_t count) { (void)count; return words = first; }
void *tm_client(void *shared, unsigned number) { (void)number; return shared; }
void tm_begin(void *c, sigjmp_buf *out) { (void)c, (void)out; pthread_mutex_lock(&lock); }
int tm_read(void *c, uint32_t a, uint64_t *v) { (void)c; *v = words[a]; return 0; }
int tm_write(void *c, uint32_t a, uint64_t v) { (void)c; words[a] = v; return 0; }
int tm_commit(void *c)
{
    (void)c;
    if (++commits == 500)
        getenv("CRASH") != NULL ? abort() : (void)sleep(3600);
    pthread_mutex_unlock(&lock);
    return 0;
}
uint64_t tm_place(void *c) { (void)c; return 0; }
"""


def want(holds, text):
    if not holds:
        failed.append(text)
        print(f"templates: {text}", file=sys.stderr)


def skip(text):
    skipped.append(text)
    print(f"templates: skipped: {text}")


def head_commands(template):
    """The commands that are indented in the comment at the head of a template, on one line each: a line
    that ends by `\\` or `&&` goes on in the next one. That which builds what the folder has is left out."""
    commands, held = [], ""
    for line in (TEMPLATES / template).read_text(encoding="utf-8").splitlines()[:24]:
        found = re.match(r"(?: \*|//|--|)(?:     ?|\t)(\s*\S.*)$", line)
        if not found:
            continue
        held += found.group(1).strip()
        if held.endswith("\\"):
            held = held[:-1]
            continue
        if held.endswith("&&"):
            held += " "
            continue
        if held.split()[0] in (*COMPILERS, "./vacation", "./judge", "built/peer", "python3", "./stamp", "./stm"):
            commands.append(held)
        held = ""
    return commands


class Folder:
    """A folder like that of the unpacked tarball, in which the commands are run."""

    def __init__(self, path, program):
        self.path = Path(path)
        for name in ("include", "share"):
            (self.path / name).symlink_to(ROOT / name)
        (self.path / "vacation").symlink_to(program)
        (self.path / "judge").symlink_to(os.path.abspath(built.judge(program)))
        self.environment = {**os.environ, "PWD": str(path), "PYTHONDONTWRITEBYTECODE": "1",
                            "GOCACHE": str(self.path / "go-cache")}

    def run(self, command):
        """What a command of the shell writes, and its status."""
        return subprocess.run(["bash", "-c", f"ulimit -c 0; {command}"], cwd=self.path, env=self.environment,
                              capture_output=True, text=True, timeout=PATIENCE, check=False)


def is_build(command):
    return command.split()[0] in COMPILERS


def try_commands(folder, template, commands):
    """All commands of the head, as they stand."""
    for command in commands:
        done = folder.run(command)
        last = command.rsplit("&&", 1)[-1].split()
        good = "opaque attempts=" if "attempts" in last[:2] else "legal calls=4032 clients=5\n" if "./judge" in last else ""
        wants_words = good and not done.stdout.startswith(good)
        if wants_words or not good and (done.returncode != 0 or "warning" in done.stderr):
            want(False, f"{template}: {command}: status {done.returncode}: {done.stdout[:200]}{done.stderr[-400:]}")
            return False
    return True


def try_mistake(folder, template, commands, mistake):
    """The same with the mistake, until the judge finds it. A run that hung or crashed is judged, too."""
    old, new = mistake
    wrong = [command.replace(old, new, 1) if command.startswith(old) or not is_build(command) else command
             for command in commands if "judge attempts" not in command]
    for command in filter(is_build, wrong):
        folder.run(command)
    runs = [command.replace(" && ", "; ") for command in wrong
            if not is_build(command) and "vacation tasks" not in command]
    for number in range(1, MOST_RUNS + 1):
        for command in runs:
            done = folder.run(command.replace("--jitter 1", f"--jitter {number}"))
        if done.stdout.startswith("illegal"):
            print(f"templates: {template}: the mistake is found in run {number}: {done.stdout.splitlines()[0]}")
            return
    want(False, f"{template}: the mistake is not found in {MOST_RUNS} runs")


def try_faults(folder, template, commands):
    """A crash and a standstill of a harness: both are told by the status, and the log is judged."""
    command = next(command.split(" && ")[0] for command in commands if "> log && " in command)
    for options, is_fault in (("--crash-at 50", lambda status: status not in (0, 3)),
                              ("--hang-at 50 --patience 2", lambda status: status == 3)):
        done = folder.run(command.replace("< work", f"{options} < work"))
        judged = folder.run("./judge < log").stdout
        calls = int((re.findall(r"^legal calls=(\d+) ", judged) or ["0"])[0])
        want(is_fault(done.returncode) and calls >= 82,
             f"{template} {options}: status {done.returncode}, the judge says {judged!r}")


def try_faulty_object(folder):
    """The same of an object, which the program `peer` looks after. The calls that were cut short are pending."""
    (folder.path / "faulty.c").write_text(FAULTY, encoding="ascii")
    folder.run("cc -fPIC -shared -I include faulty.c -o faulty.so")
    for environment, status, runs in (("CRASH=1", 1, CRASHES), ("", 3, 1)):
        for _ in range(runs):
            done = folder.run(f"{environment} built/peer ./faulty.so --history --patience 2 < work > log")
            is_cut_short = (folder.path / "log").read_bytes().endswith(b" -> ?\n")
            judged = folder.run("./judge < log").stdout
            want(done.returncode == status and is_cut_short and judged.startswith("legal calls="),
                 f"a faulty object {environment}: status {done.returncode}, the judge says {judged!r}")


def try_template(folder, template, needed, mistake):
    missing = [name for name in needed if not shutil.which(name)]
    if missing:
        return skip(f"{template}: there is no {missing[0]}")
    commands = head_commands(template)
    if not try_commands(folder, template, commands):
        return None
    if template in HARNESSES:
        try_faults(folder, template, commands)
    return try_mistake(folder, template, commands, mistake)


def try_tinystm(folder):
    """The shim is built where there is a TinySTM, whose place TINYSTM names."""
    if "TINYSTM" not in os.environ:
        return skip("c/tinystm.c: TINYSTM names no folder of TinySTM")
    return try_commands(folder, "c/tinystm.c", head_commands("c/tinystm.c"))


def main():
    program = Path(sys.argv[1] if len(sys.argv) > 1 else ROOT / "crates/vacation/out/vacation").resolve()
    if not os.access(program, os.X_OK):
        sys.exit(f"templates: there is no program at {program}: './vacation' builds it")
    if not any(map(shutil.which, ("g++", "c++"))):
        return skip("there is no C++ compiler")
    found = {str(path.relative_to(TEMPLATES)) for path in TEMPLATES.glob("*/*") if path.is_file()}
    tried = {*TABLE, "c/tinystm.c", TRIED_BY_MAPS}
    want(found <= tried, f"templates that nothing tries: {found - tried}")
    with tempfile.TemporaryDirectory(prefix="vacation-templates-") as name:
        folder = Folder(name, program)
        built = subprocess.run([ROOT / "benchmark/build", folder.path / "built", "--interface"], check=False,
                               env={**os.environ, "CXXFLAGS": os.environ.get("CXXFLAGS", "-O1")})
        if built.returncode != 0:
            sys.exit("templates: the program that runs objects could not be built")
        folder.run("./vacation tasks --tasks 1000 --items 8 > work")
        for template, (needed, mistake) in TABLE.items():
            if template in found:
                try_template(folder, template, needed, mistake)
        try_tinystm(folder)
        try_faulty_object(folder)
    print(f"templates: {len(found)} templates, {len(skipped)} skipped, {len(failed)} failed")
    return None


if __name__ == "__main__":
    main()
    sys.exit(1 if failed else 0)
