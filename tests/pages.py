#!/usr/bin/env python3
"""Holds the pages against the tree: the snapshot of clauses, files that the pages name and pieces of them, crates in their
order, the index, modules, the walks of a call, the number of rows, the sizes of the statements, what was measured, lines
beyond column 100 (of proofs, 120), and the toolchain's name. Checks that each link leads to a file and a heading, and that
no sentence, paragraph or page is longer than its limit. Holds the mutants against the tree too: their texts, and what they
name. Needs no built program."""

import re
import subprocess
import sys
from pathlib import Path

ROOT = Path(__file__).resolve().parent.parent
sys.path[:0] = [str(ROOT / "tools"), str(ROOT / "benchmark")]

import crate_pages
import first_page
import rattle
import sizes

PAGES = sorted([*ROOT.glob("*.md"), *(ROOT / "docs").glob("*.md"), *(ROOT / "benchmark").glob("**/README.md")])
CRATES = ROOT / "crates"
WIDEST = 100
WIDEST_PROOF = 120
LONGEST = 40
# The most words of a paragraph, but for the list of changes and what is measured, and of some pages.
LONGEST_PARAGRAPH = 90
LONG_PARAGRAPHS = {"CHANGELOG.md", "MEASURED.md"}
MOST_WORDS = {"README.md": 1200, "THEOREM.md": 2200, "PROMISES.md": 2600, "GLOSSARY.md": 800, "LIBRARY.md": 2900,
              "LIBRARY-REFERENCE.md": 1500, "START.md": 900, "USING.md": 3800, "RULES.md": 3000, "EVENTS.md": 1400,
              "CONTRIBUTING.md": 1300, "GATE.md": 900, "ARCHITECTURE.md": 950, "DECISIONS.md": 2700,
              "CHECK-STM.md": 1700, "CHECK-DATA.md": 2000, "EXPLAIN.md": 700, "LOGS.md": 2600}
LONG_STILL = set()
# The labels of limits of a promise, which docs/PROMISES.md explains. `Held` .. are the conflicts of promise 15.
LIMITS = ("Not proved", "Not claimed", "Tested", "Read in the code", "Limit", "Held", "Newer")
faults = []


def fault(page, text):
    faults.append(f"{page.relative_to(ROOT)}: {text}")


def holds_crates(crates):
    """A crate stands below those that it stands on."""
    file, seen = ROOT / "crates.txt", set()
    for name, below in crates.items():
        for library in below:
            if library in crates and library not in seen:
                fault(file, f"{name} stands above {library}, on which it stands")
        seen.add(name)
        if not (CRATES / name / "src").is_dir():
            fault(file, f"{name} has no folder")


def file_is_there(name, folder):
    """The file that a page may mean: from the top, from a crate, in the folder named before, or, of a
    name without its crate, in some crate."""
    places = [ROOT / name, CRATES / name, ROOT / "docs" / name]
    if folder is not None:
        places += [folder / name, folder.parent / name]
    places += sorted(CRATES.glob(f"*/{name}")) + sorted(CRATES.glob(f"*/*/{name}"))
    return next((place for place in places if place.exists()), None)


def holds_files(page):
    """Each file of specs, src, proofs, docs or tests that a page names in a line is there."""
    named = re.compile(r"`([\w./-]+\.(?:antt|rt|md|edit)|(?:tests|docs|crates)/[\w./-]+)`")
    crate = None
    for number, line in enumerate(page.read_text().splitlines(), 1):
        heading = re.match(r"## (\w+)", line)
        if heading:
            crate = CRATES / heading.group(1)
        row = re.match(r"\| (\w+) \|", line)
        if row and (CRATES / row.group(1)).is_dir():
            crate = CRATES / row.group(1)
        folder = crate
        for name in named.findall(line):
            place = file_is_there(name, folder)
            if place is None:
                fault(page, f"line {number}: no file {name}")
            elif "/" in name:
                folder = place.parent


def holds_pieces(page):
    """A piece that names its file after its language stands in that file, line by line. (Those of the pages on
    crates of one's own, of which some stand in a crate that a tool makes, are held by tests/library_page.py.)"""
    if page.name in ("LIBRARY.md", "CHECK-DATA.md"):
        return
    for name, piece in re.findall(r"^```\w+ (\S+)\n(.*?)^```$", page.read_text(), flags=re.M | re.S):
        place = ROOT / name
        if not place.is_file() or "\n" + piece not in "\n" + place.read_text():
            fault(page, f"no piece of {name}: {piece.splitlines()[0]}")


def holds_clauses():
    """The snapshot of clauses, the index, and the sizes of the promises are those of the tree."""
    script = ROOT / "tools" / "contracts.py"
    told = subprocess.run([sys.executable, str(script), "--check"], capture_output=True, text=True)
    if told.returncode != 0:
        fault(ROOT / "docs" / "clauses.txt", told.stderr.strip() or "its script did not come to its end")


def holds_plants():
    """Each mutant fits the tree, and what must refuse it is there."""
    script = ROOT / "tools" / "plant.py"
    told = subprocess.run([sys.executable, str(script), "--check"], capture_output=True, text=True)
    if told.returncode != 0:
        for line in told.stdout.splitlines() or ["it did not come to its end"]:
            fault(script, line)


def holds_promises():
    """Each promise has a contract and a definition, its limits have the labels that the page explains, and each
    definition that it names stands in some specs/."""
    page = ROOT / "docs" / "PROMISES.md"
    named = r"(?m)^ *(?:abbrev|pub record|pub data)(?: pub)? (\w+)"
    there = {name for file in CRATES.glob("*/specs/*.antt") for name in re.findall(named, file.read_text())}
    for section in re.split(r"(?m)^(?=## \d+\. )", page.read_text())[1:]:
        number, limits = re.match(r"## (\d+)", section).group(1), section.split("\n## ")[0]
        labels = re.findall(r"(?m)^- ([A-Z][a-z ]+): ", limits)
        for label in {"Contract", "Definition"} - set(labels):
            fault(page, f"promise {number} has no line {label}")
        for label in set(labels) - {"Contract", "Definition", *LIMITS}:
            fault(page, f"promise {number}: the page does not explain the label {label}")
        for line in re.findall(r"(?m)^- Definition: (.*)$", limits):
            for name in set(re.findall(r"`(\w+)`", line)) - there:
                fault(page, f"promise {number}: no definition {name}")


def words(text):
    """How many words a text has: what has a letter or a digit."""
    return sum(re.search(r"[^\W_]", word) is not None for word in text.split())


def without_code(page):
    """The text of a page without its fenced blocks: other scripts run these, or hold them."""
    return re.sub(r"^```.*?^```$", "", page.read_text(), flags=re.M | re.S)


def anchors(page):
    """The names under which the headings of a page can be linked, as forges make them."""
    heads = re.findall(r"^#+ (.*)$", without_code(page), flags=re.M)
    return {re.sub(r"[^\w\- ]", "", head.strip().lower()).replace(" ", "-") for head in heads}


def holds_links(page):
    """Each link of a page leads to a file that is there, and to a heading of it if it names one."""
    for target in re.findall(r"\]\(([^)\s]+)\)", without_code(page)):
        if re.match(r"[a-z]+:", target):
            continue
        name, _, heading = target.partition("#")
        place = (page.parent / name).resolve() if name else page
        if not place.exists():
            fault(page, f"a link leads nowhere: {target}")
        elif heading and heading not in anchors(place):
            fault(page, f"a link leads to no heading: {target}")


def holds_lines_of_libraries():
    """The lines of the libraries that README.md gives are those that are counted, within a twentieth."""
    page = ROOT / "README.md"
    told = re.search(r"have ([\d,]+) lines of bodies, ([\d,]+) of contracts, ([\d,]+) of definitions and ([\d,]+) of "
                     r"proofs\.", page.read_text())
    found = [int(number.replace(",", "")) for number in told.groups()] if told else []
    counted = sizes.program_sizes(ROOT)
    want = [counted.bodies, counted.contracts, counted.specs, counted.proofs]
    if not found or any(20 * abs(one - other) > other for one, other in zip(found, want)):
        fault(page, f"lines of bodies, contracts, definitions and proofs of the libraries: {want}, not {found}")


def sentences(text):
    """The sentences of a text, of which none goes over the end of a line; tables have none."""
    for line in text.splitlines():
        if not line.startswith("|"):
            line = re.sub(r"^ *(?:#+|-|\d+\.) +", "", line)
            line = re.sub(r"^(?:Contract|Definition|Limits): ", "", line)
            yield from re.split(r"(?<=[.?!])\**\)?\s+", line)


def holds_sentences():
    """No sentence of a page by hand, or on what is not said, is longer than the limit."""
    found = [(page, text) for page in PAGES if page.name not in LONG_STILL
             for text in sentences(without_code(page))]
    for name, made in crate_pages.pages().items():
        for line in re.findall(r"^ *- Not said(?: by [^:]*)?: (.*)$", made, flags=re.M):
            found += [(crate_pages.PAGES / name, text) for text in sentences(line)]
    for page, text in found:
        if words(text) > LONGEST:
            fault(page, f"a sentence of {words(text)} words: {text[:60]} ..")


def holds_lengths():
    """Pages and their paragraphs have no more words than their limits. Lists of contracts and definitions are no
    paragraphs."""
    for page in PAGES:
        count = words(page.read_text())
        if count > MOST_WORDS.get(page.name, count):
            fault(page, f"{count} words, more than {MOST_WORDS[page.name]}")
        for line in without_code(page).splitlines() if page.name not in LONG_PARAGRAPHS else ():
            if words(line) > LONGEST_PARAGRAPH and not re.match(r"\||- (?:Contract|Definition)\b", line):
                fault(page, f"a paragraph of {words(line)} words: {line[:60]} ..")


def holds_measured():
    """The table of speeds of the first page is that of the raw numbers."""
    if not first_page.is_current():
        fault(ROOT / "README.md", "the table of speeds is not that of docs/measured.csv: benchmark/first_page.py")


def holds_modules():
    """The table of modules of a running transaction lists just those of stm_attempt."""
    page = ROOT / "docs" / "ARCHITECTURE.md"
    table = page.read_text().split("| Module of `stm_attempt` | What it has |\n")[1].split("\n\n")[0]
    named = re.findall(r"`(\w+)`", table)
    there = {f.stem for f in (CRATES / "stm_attempt" / "src").glob("*.rt")} - {"lib"}
    if set(named) != there or len(named) != len(there):
        fault(page, f"modules of stm_attempt: {sorted(there.symmetric_difference(named))}")


def holds_walks():
    """Checks that in the three walks of the page on architecture each function calls the next one."""
    for text in sizes.walk_faults(ROOT):
        fault(ROOT / "docs" / "ARCHITECTURE.md", text)
    if len(sizes.walks(ROOT)) != 3:
        fault(ROOT / "docs" / "ARCHITECTURE.md", "the three walks are not there")


def holds_rows():
    """The page that tells how many worked examples of the program there are tells the number of their folders, and of
    the cases in files."""
    data = ROOT / "tests" / "row_data"
    rows = sum(folder.is_dir() for folder in data.iterdir())
    rows += sum(len(re.findall(r"^[$&] ", cases.read_text(), flags=re.M)) for cases in data.glob("*.cases"))
    page = ROOT / "docs" / "GATE.md"
    if re.findall(r"\| (\d+) worked examples \|", page.read_text()) != [str(rows)]:
        fault(page, f"tests/row_data has {rows} worked examples")


def holds_lines(crates):
    """No line of code, clauses or definitions ends beyond the column, but for imports; none of a proof
    beyond its own."""
    for name in crates:
        for file in [*(CRATES / name / "src").rglob("*.rt"), *(CRATES / name / "specs").rglob("*.antt")]:
            for number, line in enumerate(file.read_text().splitlines(), 1):
                imports = re.match(r"\s*(pub )?(ghost )?use ", line)
                if len(line) > WIDEST and not imports:
                    fault(file, f"line {number} has {len(line)} columns")
        for file in (CRATES / name / "proofs").rglob("*.antt"):
            for number, line in enumerate(file.read_text().splitlines(), 1):
                if len(line) > WIDEST_PROOF and not re.fullmatch(r"use [^, ]*", line):
                    fault(file, f"line {number} has {len(line)} columns; tools/fold_proofs.py folds it")


def holds_kit():
    """The program and the pages name one toolchain. Where another one is installed, that is told: whoever
    lands next with it names it."""
    line = r"rattle-kit-\S+ logic [0-9a-f]+"
    program = CRATES / "cli_options/src/options.rt"
    kit = re.search(line, program.read_text()).group()
    for page in (ROOT / "README.md", ROOT / "docs/USING.md", CRATES / "cli_main/specs/Program.antt"):
        if set(re.findall(line, page.read_text())) != {kit}:
            fault(page, f"the toolchain that the program names is {kit}")
    try:
        told = subprocess.run(["rt", "version"], capture_output=True, text=True, check=True).stdout
    except (OSError, subprocess.CalledProcessError):
        return
    if told.splitlines()[0] != kit:
        print(f"pages: the toolchain installed is {told.splitlines()[0]}, and the program names {kit}")


def main():
    crates = rattle.listed_crates()
    holds_crates(crates)
    for page in PAGES:
        holds_files(page)
        holds_pieces(page)
        holds_links(page)
    holds_clauses()
    holds_promises()
    holds_lines_of_libraries()
    holds_plants()
    holds_sentences()
    holds_lengths()
    holds_measured()
    holds_modules()
    holds_walks()
    holds_rows()
    holds_lines(crates)
    holds_kit()
    for text in faults:
        print(f"pages: {text}")
    print(f"pages: {len(PAGES)} pages, {len(crates)} crates, {len(faults)} faults")
    sys.exit(1 if faults else 0)


if __name__ == "__main__":
    main()
