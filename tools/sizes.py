#!/usr/bin/env python3
"""Counts the tree: lines of code, contracts, definitions and proofs of each library; what each program stands on; and what
a reader stumbles over, such as functions that only tests call. Prints the counts as a page, of this tree or of another
one with the same layout, so that two states can be compared."""

import argparse
import re
from dataclasses import dataclass
from pathlib import Path

import rattle

WIDE = 120
MOST_PARAMETERS = 6
PROGRAMS = ("vacation", "judge")
HOP = re.compile(r"^\d+\. (a closure in )?`([\w:]+)` \(`(\w+/src/\w+\.rt)`\)", re.M)
TESTS = re.compile(r"^test_|_day$|^vacation$|^judge$")
TRAIT = re.compile(r"^\s*(?:pub(?:\(crate\))? )?trait (\w+)", re.M)


@dataclass
class Sizes:
    source: int = 0
    contracts: int = 0
    bodies: int = 0
    functions: int = 0
    clauses: int = 0
    most: int = 0
    specs: int = 0
    proofs: int = 0
    wide: int = 0

    def add(self, other):
        for name in vars(self):
            if name != "most":
                setattr(self, name, getattr(self, name) + getattr(other, name))
        self.most = max(self.most, other.most)


def lines_of(paths):
    return [line for path in paths for line in path.read_text().splitlines() if line.strip()]


def lines_between(text, start, end):
    """How many lines with something on them stand between two places of a text."""
    return sum(bool(line.strip()) for line in text[start:end].splitlines())


def sizes_of(folder):
    """The sizes of one crate."""
    sources = sorted((folder / "src").rglob("*.rt"))
    found = Sizes(source=len(lines_of(sources)), specs=len(lines_of((folder / "specs").rglob("*.antt"))))
    proofs = lines_of((folder / "proofs").rglob("*.antt"))
    found.proofs, found.wide = len(proofs), sum(len(line) > WIDE for line in proofs)
    for path in sources:
        text = path.read_text()
        for function in rattle.functions(path):
            if function.test or not function.clauses and function.end <= function.body + 1:
                continue
            head = text[function.start:function.body]
            first = re.search(r"\b(?:requires|ensures)\b", head)
            if first:
                found.contracts += lines_between(head, first.start(), len(head))
            found.bodies += max(0, lines_between(text, function.body + 1, function.end - 1))
            found.functions += 1
            found.clauses += len(function.clauses)
            found.most = max(found.most, len(function.clauses))
    return found


def libraries(root):
    """The folders of the libraries, in the order of crates.txt."""
    names = [line.split(":")[0].split()[0] for line in (root / "crates.txt").read_text().splitlines()
             if line.strip() and not line.startswith("#")]
    return [root / "crates" / name for name in names if not TESTS.search(name)]


def program_sizes(root):
    """Returns the sizes of the libraries on which the programs stand, taken together."""
    total, names = Sizes(), set().union(*map(rattle.below, PROGRAMS))
    for folder in libraries(root):
        if folder.name in names:
            total.add(sizes_of(folder))
    return total


def page(root):
    """Returns the counts of the tree, as a page."""
    out = ["# Sizes", "",
           "Of each library: lines that are not empty, of code (with its contracts), of contracts and of bodies, of "
           "definitions and of proofs by hand; clauses of its functions, and the most that one has; proof lines beyond "
           f"column {WIDE}. `./dev sizes` prints this page.", "",
           "| Crate | Source | Contracts | Bodies | Definitions | Proofs | Functions | Clauses | Most | Wide |",
           "|---|--:|--:|--:|--:|--:|--:|--:|--:|--:|"]
    total = Sizes()
    for folder in libraries(root):
        sizes = sizes_of(folder)
        total.add(sizes)
        out.append(row(folder.name, sizes))
    out += [row("all", total), row("below the programs", program_sizes(root)), "",
            f"Clauses a function: {total.clauses / max(1, total.functions):.2f}. Contract lines a body line: "
            f"{total.contracts / max(1, total.bodies):.2f}.", ""]
    return "\n".join(out + shape(root)) + "\n"


def row(name, sizes):
    return (f"| {name} | {sizes.source} | {sizes.contracts} | {sizes.bodies} | {sizes.specs} | {sizes.proofs} "
            f"| {sizes.functions} | {sizes.clauses} | {sizes.most} | {sizes.wide} |")


def longest_chain(names):
    """Returns the crates on the longest chain among these, from the lowest one up."""
    crates, chains = rattle.listed_crates(), {}
    for name in (name for name in crates if name in names):
        chains[name] = max((chains[use] for use in crates[name] if use in chains), key=len, default=[]) + [name]
    return max(chains.values(), key=len, default=[])


def shape(root):
    """Returns the lines on what each program stands on, and on what a reader stumbles over."""
    out = ["| Program | Crates | On the longest chain |", "|---|--:|---|"]
    for program in PROGRAMS:
        below = rattle.below(program)
        chain = longest_chain(below)
        out.append(f"| {program} | {len(below)} | {len(chain)}: {' '.join(chain)} |")
    counts = [("Functions that only tests call", test_only_calls(root)), ("Traits with one type", lone_traits(root)),
              (f"Functions with more than {MOST_PARAMETERS} parameters", long_functions(root))]
    for title, names in counts:
        out += ["", f"{title}: {', '.join(f'`{name}`' for name in names) or 'none'}."]
    return out


def sources(root, tests):
    """Returns the sources of libraries and programs, or those of tests."""
    folders = sorted(path for path in (root / "crates").iterdir() if path.is_dir())
    return [path for folder in folders if folder.name.startswith("test_") == tests
            for path in sorted(folder.glob("src/**/*.rt"))]


def lone_traits(root):
    """Returns the traits that at most one type outside tests implements."""
    texts = [rattle.masked(path) for path in sources(root, False)]
    names = sorted({name for text in texts for name in TRAIT.findall(text)})
    return [name for name in names
            if sum(len(re.findall(rf"^impl\b[^\n{{]*\b{name}\b(?:<[^\n]*>)? for ", text, re.M)) for text in texts) < 2]


def test_only_calls(root):
    """Returns the public functions of libraries that only tests name. A law is named by nobody, and no function of the
    tree's examples counts: strangers call those."""
    outside = [rattle.masked(path) for path in sources(root, False)]
    inside = "\n".join(rattle.masked(path) for path in sources(root, True))
    found = []
    for path in sources(root, False):
        crate = path.relative_to(root / "crates").parts[0]
        if crate.startswith("ex_"):
            continue
        text = rattle.masked(path)
        for function in rattle.functions(path):
            is_law = function.end <= function.body + 1 or not text[function.body + 1:function.end - 1].strip()
            if not text[function.start:].startswith("pub fn") or is_law or function.test:
                continue
            use = re.compile(rf"(?<!fn )\b{function.name}\b(?:::<[^(]*>)?\(")
            if not any(use.search(other) for other in outside) and use.search(inside):
                found.append(f"{crate}: {function.title()}")
    return found


def parameters(text):
    """Returns the names of the parameters of a function from its text without comments."""
    at = text.index("(", after_name(text))
    inner, depth, found = text[at + 1:], 0, [""]
    for char in inner:
        if char in ")]" and depth == 0:
            break
        depth += (char in "([<") - (char in ")]>")
        if char == "," and depth == 0:
            found.append("")
        else:
            found[-1] += char
    return [one.split(":")[0].strip() for one in found if one.strip()]


def after_name(text):
    """Returns the position behind the name of a function and its type parameters."""
    at = re.search(r"\bfn \w+", text).end()
    if not text[at:].startswith("<"):
        return at
    depth = 0
    for place in range(at, len(text)):
        depth += (text[place] == "<") - (text[place] == ">" and text[place - 1] != "-")
        if depth == 0:
            return place
    return at


def long_functions(root):
    """Returns the functions with too many parameters."""
    return [f"{path.relative_to(root / 'crates')}: {function.title()}"
            for path in sorted(root.glob("crates/*/src/**/*.rt")) for function in rattle.functions(path)
            if len(parameters(rattle.masked(path)[function.start:])) > MOST_PARAMETERS]


def walks(root):
    """Returns the walks of the page on architecture by title. A walk is a list of hops: the name of a function, its
    file, and whether the hop is a closure in this function."""
    text, found = (root / "docs" / "ARCHITECTURE.md").read_text(), {}
    for title, part in re.findall(r"^### (From .*?)\n(.*?)(?=^##)", text, re.M | re.S):
        hops = HOP.findall(part)
        if hops:
            found[title] = [(name, file, bool(closure)) for closure, name, file in hops]
    return found


def walk_faults(root):
    """Returns the faults of the walks: a function that is not in its file, or does not call the next one."""
    faults = []
    for title, hops in walks(root).items():
        for (name, file, _), (then, _, is_closure) in zip(hops, hops[1:] + [("", "", True)]):
            path = root / "crates" / file
            here = [f for f in rattle.functions(path) if named(f) == name] if path.is_file() else []
            if len(here) != 1:
                faults.append(f"{title}: {file} has {len(here)} functions {name}")
            elif not is_closure and not calls(here[0], rattle.masked(path), then):
                faults.append(f"{title}: {name} does not call {then}")
    return faults


def named(function):
    """Returns the name of a function behind that of its type."""
    return f"{function.owner}::{function.name}" if function.owner else function.name


def calls(function, text, name):
    """Returns whether a function, in the text of its file, calls a function of this name: on itself, if both are of
    one type."""
    owner, _, method = name.rpartition("::")
    body = text[function.body:function.end]
    if owner and owner == function.owner:
        return re.search(rf"\b(?:self\.|Self::){method}\(", body) is not None
    return re.search(rf"(?<!\bself\.)\b{method}\(", body) is not None


def main():
    options = argparse.ArgumentParser(prog="./dev sizes", description=__doc__)
    options.add_argument("folder", nargs="?", type=Path, default=rattle.ROOT, help="another tree (default: this one)")
    root = options.parse_args().folder.resolve()
    if not (root / "crates.txt").is_file():
        options.error(f"{root} has no file crates.txt")
    rattle.read_tree(root)
    print(page(root), end="")


if __name__ == "__main__":
    main()
