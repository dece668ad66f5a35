#!/usr/bin/env python3
"""Packs the program, twice, and tries what was packed as someone would who has no toolchain: the tarball in
an empty root with the C library alone, each subcommand, the judge of keys and values, the history of a peer compiled from the shipped
headers, a template over the shipped interface, a mutant, a database by the shipped harness, the links of the
pages, the manual pages, the completions, and Debian's package. What this machine has no means for is
skipped, with a word. Its argument is the program, a file that is built already; with none it is the one that
the repository's last build left. Nothing is built but a peer, the interface and a template."""

import gzip
import hashlib
import os
import re
import shutil
import subprocess
import sys
import tarfile
import tempfile
from pathlib import Path

import built

ROOT = Path(__file__).resolve().parent.parent
PATIENCE = 400
# The first words of lines, and the verdicts, that the page on histories must tell.
WORDS = ("add del free price newcust dropcust reserve cancel bill trip leave update audit"
         " bad-call illegal client time reply EXPECTED full sold-out long-line bad-number").split()
BILL = "add car 7 100 50\nnewcust 3\nreserve 3 car 7 2\nbill 3\n"
LEGAL = "0 0 1 add car 7 10 50 -> true\n1 2 6 newcust 3 -> true\n2 4 9 reserve 3 car 7 -> true\n1 7 9 bill 3 -> 50\n"


def want(is_right, text):
    assert is_right, text


def skipped(text):
    print(f"package: skipped: {text}")


def run(*words, given="", status=0, **others):
    """What a command writes to standard output; it must end with the status, if one is given."""
    ended = subprocess.run(words, input=given, capture_output=True, text=True, timeout=PATIENCE, check=False,
                           **others)
    want(status in (None, ended.returncode), f"{' '.join(map(str, words))}: status {ended.returncode}\n{ended.stderr}")
    return ended.stdout


def contents(folder):
    return {file.name: file.read_bytes() for file in folder.iterdir()}


def pack(program, folder):
    """Packs twice, with other umasks, zones and folders. Returns the folder of the first."""
    first, second = folder / "first", folder / "a second one"
    run("bash", "-c", 'umask 022; exec "$0" "$@"', ROOT / "dev", "package", program, built.judge(program), first)
    run("bash", "-c", 'umask 077; exec "$0" "$@"', ROOT / "dev", "package", program, built.judge(program), second, cwd="/",
        env={**os.environ, "TZ": "Asia/Tokyo", "LC_ALL": "C"})
    want(contents(first) == contents(second), "two runs did not give the same bytes")
    sums = dict(reversed(line.split("  ")) for line in (first / "SHA256SUMS").read_text().splitlines())
    found = {name: hashlib.sha256(data).hexdigest() for name, data in contents(first).items()}
    want({**sums, "SHA256SUMS": found["SHA256SUMS"]} == found, "the sums are not those of the files")
    return first


def holds_tarball(tarball):
    """All entries have root as their owner, and the commit's time."""
    seconds = int(run("git", "-c", f"safe.directory={ROOT}", "log", "-1", "--format=%ct", cwd=ROOT))
    with tarfile.open(tarball) as tar:
        for entry in tar:
            name = entry.name.partition("/")[2]
            is_program = entry.isdir() or name in ("vacation", "judge", "explain", "convert", "benchmark/build", "benchmark/run",
                                                   "benchmark/checkers/run", "benchmark/databases/run")
            modes = (0o755,) if is_program else (0o755, 0o644) if name.endswith(".py") else (0o644,)
            want((entry.uid, entry.gid, entry.uname, entry.gname) == (0, 0, "root", "root"), f"owner of {entry.name}")
            want(entry.mtime == seconds and entry.mode in modes, f"time or mode of {entry.name}")


def empty_root(folder, program):
    """A root with what the program is linked with, and nothing else; nothing where that cannot be told."""
    if not shutil.which("ldd"):
        return None
    root = folder / "root"
    for library in re.findall(r"(/\S+) \(0x", run("ldd", program)):
        place = root / library[1:]
        place.parent.mkdir(parents=True, exist_ok=True)
        shutil.copy(library, place)
    return root


def entered(folder, program, tarball):
    """The words that run the unpacked program, and its folder: in an empty root, where that is allowed."""
    root = empty_root(folder, program) or folder / "root"
    root.mkdir(exist_ok=True)
    run("tar", "xzf", tarball, "-C", root)
    (unpacked,) = root.glob("vacation-*")
    inside = f"/{unpacked.name}/vacation"
    for words in (["chroot", root, inside], ["unshare", "-r", "chroot", root, inside]):
        try:
            run(*words, "--version")
            return words, unpacked
        except (AssertionError, OSError):
            pass
    skipped("an empty root is not allowed here (chroot, unshare): the program runs where it was unpacked")
    return [unpacked / "vacation"], unpacked


def judge_of(ours):
    """The words that run the unpacked judge, which stands beside the program."""
    *before, program = ours
    return [*before, re.sub(r"vacation$", "judge", str(program))]


def holds_subcommands(ours):
    """Each subcommand, with what the rules say of it."""
    want(run(*ours, "run", given=BILL) == "true\ntrue\ntrue\n100\n", "run")
    words = run(*ours, "dump", "--blocks", "1", given="add car 7 100 50\n")
    want(len(words.splitlines()) == 24, "dump")
    want(run(*ours, "check", given=words) == "cars=1 flights=0 rooms=0 customers=0 bookings=0 used=0 free=100"
         " total=100 billed=0\n", "check")
    judge = judge_of(ours)
    want(run(*judge, given=LEGAL).startswith("legal calls=4 clients=3\n"), "judge")
    want(run(*judge, "history", "--given-order", given=LEGAL.replace("bill 3 -> 50", "bill 3 -> 0"), status=1)
         == "illegal reply 4 50\n", "judge history")
    answered, report = run(*ours, "load", "--clients", "2", "--tasks", "50").splitlines()
    want(sum(map(int, answered.split()[1::2])) == 100, "load")
    told = dict(part.split("=") for part in report.split())
    want(int(told["used"]) + int(told["free"]) == int(told["total"]), "load")
    drawn = run(*ours, "tasks", "--clients", "2", "--tasks", "5", "--items", "4")
    want(len(drawn.splitlines()) == 4 * 4 + 2 * 5, "tasks")
    want("Usage: " in run(*ours, "help"), "help")


def holds_proved(ours, unpacked):
    """PROVED has the commit, the toolchain as the program tells it, and the first page's words."""
    text = (unpacked / "PROVED").read_text(encoding="utf-8")
    head = text.splitlines()
    title, kit = run(*ours, "--version").splitlines()
    commit = run("git", "-c", f"safe.directory={ROOT}", "rev-parse", "HEAD", cwd=ROOT).strip()
    want(head[0] == title and head[1].startswith(f"commit {commit}") and head[2] == kit, "the head of PROVED")
    changes = run("git", "-c", f"safe.directory={ROOT}", "status", "--porcelain", cwd=ROOT)
    want(("not committed" in head[1]) == bool(changes), "PROVED on changes that are not committed")
    for line, name in zip(head[3:], ("vacation", "judge")):
        sum = hashlib.sha256((unpacked / name).read_bytes()).hexdigest()
        want(line in (f"sha256 {sum}", f"sha256 {sum} {name}"), f"the sum of {name}")
    said = " ".join(text.split())
    for heading in ("What is proved", "What is trusted"):
        part = (ROOT / "README.md").read_text(encoding="utf-8").split(f"## {heading}\n")[1].split("\n## ")[0]
        lines = [line.removeprefix("| ").split(" | ")[0] for line in part.splitlines() if line.startswith("| ")]
        want(len(lines) > 5, f"the first page on {heading}")
        want(all(line in said for line in lines[1:]), f"PROVED on {heading}")


def holds_readme(unpacked):
    """The first page names files and folders that are there, and neither the packer's machine nor other programs."""
    text = (unpacked / "README.md").read_text(encoding="utf-8")
    here = text.split("**Source.**")[0]
    for name in re.findall(r"`([\w/]+)`", here):
        want((unpacked / name).exists(), f"README.md names {name}, which is not packed")
    want("docs/CHECK-STM.md" in text and len(text.splitlines()) <= 25, "the packed README.md")
    for page in sorted(unpacked.glob("**/*.md")):
        want(str(ROOT) not in page.read_text(encoding="utf-8"), f"{page.name} names a folder of this machine")


def holds_peer(ours, unpacked, folder):
    """A peer of the shipped headers alone, whose history is legal."""
    compiler = next(filter(None, map(shutil.which, ("g++", "c++", "clang++"))), None)
    if compiler is None:
        skipped("there is no C++ compiler")
        return
    run(compiler, "-std=c++17", "-O1", "-pthread", unpacked / "benchmark/peers/tl2.cpp", "-o", folder / "tl2")
    drawn = run(*ours, "tasks", "--clients", "3", "--tasks", "100", "--items", "8")
    options = ("--history", "--jitter", "1", "--patience", "30", "--tries", "1000000")
    history = run(folder / "tl2", *options, given=drawn)
    want(run(*judge_of(ours), "history", "--given-order", given=history).startswith("legal calls=332 clients=4\n"), "the peer's history")
    holds_interface(ours, unpacked, folder, drawn, options)
    said = run(sys.executable, "-B", unpacked / "benchmark/mutants/try.py", "--check")
    want(re.fullmatch(r"mutants: [1-9]\d* edits can be made\n", said), "the mutants")
    want("usage: benchmark/run " in run("bash", unpacked / "benchmark/run", "--help"), "the benchmark")


def holds_interface(ours, unpacked, folder, drawn, options):
    """A shared object of the shipped template in C, by the command at its head, whose history is legal."""
    if not shutil.which("cc"):
        skipped("there is no C compiler")
        return
    made = folder / "built"
    run("bash", unpacked / "benchmark/build", made, "--interface", env={**os.environ, "CXXFLAGS": "-O1"})
    template = Path("share/vacation/templates/c/tl2.c")
    text = (unpacked / template).read_text(encoding="utf-8")
    (command,) = re.findall(r"^ \*     (cc .*)$", text, flags=re.M)
    run("bash", "-c", command, cwd=unpacked)
    history = run(made / "peer", unpacked / "tl2.so", *options, given=drawn)
    want(run(*judge_of(ours), "history", "--given-order", given=history).startswith("legal calls=332 clients=4\n"), "the template's history")


def slug(heading):
    """The anchor of a heading."""
    return re.sub(r"[^\w\- ]", "", heading.replace("`", "")).strip().lower().replace(" ", "-")


def holds_links(unpacked):
    """Each link of the packed pages leads to a packed file, and to a heading that is there."""
    for page in sorted(unpacked.glob("**/*.md")):
        for target in re.findall(r"\]\(([^)\s]+)\)", page.read_text(encoding="utf-8")):
            path, _, anchor = target.partition("#")
            file = page.parent / path if path else page
            want(target.startswith("http") or file.is_file(), f"{page.name} has a dead link to {target}")
            if anchor and file.is_file():
                headings = re.findall(r"^#+ (.+)$", file.read_text(encoding="utf-8"), flags=re.M)
                want(anchor in map(slug, headings), f"{page.name} has a link to no heading: {target}")


def holds_database(unpacked):
    """A short run of SQLite by the shipped harness, and the verdict on it."""
    if sys.version_info < (3, 10):
        skipped("Python is older than 3.10: no database")
        return
    said = run(unpacked / "benchmark/databases/run", "sqlite:wal-full", "--fault", "kill", "--seconds", "2")
    want(" verdict=legal" in said.splitlines()[0], f"SQLite: {said}")


def holds_explanation(ours, unpacked):
    """The shipped script explains the shipped log by the program beside it, as the page says."""
    if sys.version_info < (3, 11):
        skipped("Python is older than 3.11: no explanation")
        return
    log = unpacked / "docs/anomaly/smallest.log"
    text = run(sys.executable, "-B", unpacked / "explain", log, status=1)
    want("write skew (G2, by a phantom)" in text and "proved illegal: the log of 4 calls" in text, text)
    want(run(*judge_of(ours), "history", given=log.read_text(encoding="ascii"), status=1).startswith("illegal"),
         "the smallest run is legal")


def holds_conversion(unpacked):
    """The shipped script turns a shipped history into lines, as the page says."""
    if sys.version_info < (3, 11):
        skipped("Python is older than 3.11: no conversion")
        return
    words = (sys.executable, "-B", unpacked / "convert", "porcupine", unpacked / "docs/histories/events.json")
    text = run(*words)
    want(text in (unpacked / "docs/CHECK-DATA.md").read_text(encoding="utf-8") and text.count("\n") == 3, text)
    verdict = run(unpacked / "judge", "keys", given=text, status=None)
    want(verdict.startswith(("legal ", "illegal ")), verdict)
    judged = run(*words, "--judge", status=None, env={name: text for name, text in os.environ.items() if name != "JUDGE"})
    want(verdict.split()[0] in judged, judged)


def shown(page):
    """What a manual page shows, on lines that are not broken; the formatter has nothing to say of it."""
    environment = {**os.environ, "LC_ALL": "C.UTF-8", "MANWIDTH": "80", "MANROFFSEQ": ""}
    ended = subprocess.run(["man", "--warnings", "-E", "UTF-8", "-l", page], capture_output=True, text=True,
                           env=environment, stdin=subprocess.DEVNULL, timeout=PATIENCE, check=False)
    want(ended.returncode == 0 and not ended.stderr, f"{page.name}: {ended.stderr}")
    return " ".join(re.sub(".\b", "", ended.stdout).split())


def options_of(ours):
    """The options that each subcommand's help names."""
    commands = re.findall(r"^  (\w+) ", run(*ours, "--help").split("Options:")[0], flags=re.M)
    return {command: re.findall(r"(--[\w-]+)", run(*ours, command, "--help").split("Options:")[1])
            for command in commands if command != "help"}


def holds_manual(ours, share):
    if not shutil.which("man") or not run("man", "--version").startswith("man "):
        skipped("there is no man")
        return
    history = shown(share / "man/man5/vacation-history.5")
    for name, words in (("vacation", ours), ("judge", judge_of(ours))):
        program = shown(share / f"man/man1/{name}.1")
        for command, options in options_of(words).items():
            want(f"{name} {command}" in program, f"{name}(1) has no {command}")
            want(all(option in program for option in options), f"{name}(1) on {command}")
        usages = program.split("SYNOPSIS ")[1].split(" DESCRIPTION")[0]
        want(len(re.findall(rf"(?:^| ){name} ", usages)) == len(options_of(words)), f"SYNOPSIS of {name}(1): {usages}")
        want("./" + name not in program + history, "a manual page names the script")
    want(all(word in history.split() for word in WORDS), "vacation-history(5)")
    want('CLIENT BEGIN END OPERATION "->" REPLY LF' in history, "vacation-history(5)")
    want(all(word in history for word in ('("commit" | "abort") { ("r" | "w")', "put-if-absent", "illegal places")),
         "vacation-history(5) on attempts and keys")


def holds_completions(ours, share):
    def completed(name, *words):
        script = f'. "$0"; COMP_WORDS=("$@"); COMP_CWORD=$(($# - 1)); _{name}; echo "${{COMPREPLY[@]}}"'
        return run("bash", "-c", script, share / f"bash-completion/completions/{name}", name, *words).split()

    want(completed("vacation", "du") == ["dump"] and completed("judge", "history", "--b") == ["--blocks"], "completions")
    want(completed("vacation", "load", "--clients", "") == [], "completions of a number")
    for name, words in (("vacation", ours), ("judge", judge_of(ours))):
        for command, options in options_of(words).items():
            want(set(options) <= set(completed(name, command, "--")), f"completions of {name} {command}")


def holds_debian(packed, unpacked, folder):
    found = list(packed.glob("*.deb"))
    if not shutil.which("dpkg-deb"):
        want(not found, "a package for Debian without dpkg-deb")
        skipped("there is no dpkg-deb")
        return
    installed = folder / "installed"
    run("dpkg-deb", "-x", *found, installed)
    same = {"usr/bin/vacation": "vacation", "usr/bin/judge": "judge", "usr/share/bash-completion/completions/vacation":
            "share/bash-completion/completions/vacation", "usr/share/doc/pighvelo/PROVED": "PROVED",
            "usr/include/vacation/vacation_tm.h": "include/vacation_tm.h",
            "usr/share/vacation/templates/c/tl2.c": "share/vacation/templates/c/tl2.c"}
    for name, beside in same.items():
        want((installed / name).read_bytes() == (unpacked / beside).read_bytes(), f"Debian's {name}")
    page = gzip.decompress((installed / "usr/share/man/man1/vacation.1.gz").read_bytes())
    want(page == (unpacked / "share/man/man1/vacation.1").read_bytes(), "Debian's vacation(1)")
    want(run(installed / "usr/bin/vacation", "run", given=BILL) == "true\ntrue\ntrue\n100\n", "Debian's program")
    listed = run("dpkg-deb", "--contents", *found).splitlines()
    want(all(line.split()[1] == "root/root" for line in listed), "owners in Debian's package")


def holds_citation(ours):
    version = run(*ours, "--version").split()[1]
    want(f"\nversion: {version}\n" in (ROOT / "CITATION.cff").read_text(), "CITATION.cff has another version")


def main():
    program = Path(sys.argv[1] if len(sys.argv) > 1 else ROOT / "crates/vacation/out/vacation").resolve()
    if not os.access(program, os.X_OK):
        sys.exit(f"package: there is no program at {program}: './vacation' builds it")
    if not shutil.which("git") or not (ROOT / ".git").exists():
        skipped("nothing tells the commit here")
        return
    with tempfile.TemporaryDirectory(prefix="vacation-package-") as name:
        folder = Path(name)
        try:
            packed = pack(program, folder)
            (tarball,) = packed.glob("*.tar.gz")
            holds_tarball(tarball)
            ours, unpacked = entered(folder, program, tarball)
            want((unpacked / "vacation").read_bytes() == program.read_bytes(), "another program was packed")
            holds_subcommands(ours)
            holds_proved(ours, unpacked)
            holds_links(unpacked)
            holds_readme(unpacked)
            holds_peer(ours, unpacked, folder)
            holds_database(unpacked)
            holds_explanation(ours, unpacked)
            holds_conversion(unpacked)
            holds_manual(ours, unpacked / "share")
            holds_completions(ours, unpacked / "share")
            holds_debian(packed, unpacked, folder)
            holds_citation(ours)
        except AssertionError as wrong:
            sys.exit(f"package: {wrong}")
    print("package: what is packed is as it should be")


if __name__ == "__main__":
    main()
