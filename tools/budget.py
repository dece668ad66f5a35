"""Counts what a reader has to read to understand each promise of docs/PROMISES.md.

The statement of a promise is the contract of the functions that its line `Contract:` names. The closure of that contract
is every definition of `specs/` that a clause cites, that such a definition cites, and so on. Counted are the definitions
of each closure and their lines. The kit's own definitions, the types that Rattle
makes of Rust types (`specs.declared`), comments and blank lines do not count."""

import re
import sys
from dataclasses import dataclass, field

import rattle

PROMISES = rattle.ROOT / "docs" / "PROMISES.md"
HEAD = "| Promise | Definitions | Lines |\n|---|--:|--:|\n"
PROMISE = re.compile(r"^## (\d+)\. ", re.M)
CONTRACT = re.compile(r"^- Contract: (.*)$", re.M)
COMMENT = re.compile(r"--.*")
NAMED = re.compile(r"`([\w:]+)`|\bof (vac_\w+|stm_\w+|tx_\w+|judge_\w+|load_\w+|cli_\w+)")


@dataclass
class Promise:
    number: int
    contracts: list = field(default_factory=list)   # pairs of a crate and a function


@dataclass
class Closure:
    definitions: list

    def lines(self):
        return sum(code_lines(definition) for definition in self.definitions)

    def files(self):
        return {definition.file for definition in self.definitions}

    def crates(self):
        return {definition.crate for definition in self.definitions}


def code_lines(definition):
    """Number of lines of a definition that are neither blank nor comments."""
    lines = (line.strip() for line in definition.body.splitlines())
    return sum(bool(line) and not line.startswith("--") for line in lines)


def contracts_in(text):
    """The functions that a line `Contract:` names, each with the crate that is named after it."""
    found, waiting = [], []
    for name, crate in NAMED.findall(text):
        if name:
            waiting.append(name)
        else:
            found += [(crate, function) for function in waiting]
            waiting = []
    return found


def promises():
    """The promises of the page, each with its contracts. `the same` repeats those of the promise before."""
    text = rattle.read(PROMISES)
    heads = list(PROMISE.finditer(text))
    found = []
    for head, after in zip(heads, [*heads[1:], None]):
        section = text[head.end():after.start() if after else len(text)]
        promise = Promise(int(head.group(1)))
        for line in CONTRACT.findall(section):
            if line.startswith("the same") and found:
                promise.contracts += found[-1].contracts
            promise.contracts += contracts_in(line)
        found.append(promise)
    return found


def function_named(crate, name):
    """The functions of a crate with this name, or with this type and name."""
    owner, _, last = name.rpartition("::")
    here = [function for file in rattle.sources(crate) for function in rattle.functions(file)
            if function.name == last and owner in ("", function.owner) and function.clauses]
    if not here:
        sys.exit(f"contracts: {crate} has no function {name} with a contract")
    return here


def cites(file, text):
    """The definitions that a text of this file names outside of comments, each once."""
    names = rattle.imported(file)
    text = COMMENT.sub("", text)
    return list({word: names[word] for word in rattle.WORD.findall(text) if word in names}.values())


def closure_of(functions):
    """Every definition that the contracts of these functions rest on, in the order of
    reading: crates in the order of crates.txt, files by name, definitions as they stand."""
    pending = [definition for function in functions for clause in function.clauses
               for definition in cites(function.file, clause.text)]
    found = {}
    while pending:
        definition = pending.pop()
        key = definition.file, definition.name
        if key not in found:
            found[key] = definition
            pending += cites(definition.file, definition.body)
    order = {crate: place for place, crate in enumerate(rattle.listed_crates())}
    places = {key: place for path in {key[0] for key in found}
              for place, key in enumerate((path, name) for name in rattle.definitions(path))}
    return Closure([found[key] for key in sorted(
        found, key=lambda key: (order[found[key].crate], str(key[0]), places[key]))])


def closure_of_contracts(contracts):
    """The closure of the contracts of these functions, each named by its crate and its name."""
    return closure_of([function for contract in contracts for function in function_named(*contract)])


def table():
    rows = []
    for promise in promises():
        closure = closure_of_contracts(promise.contracts)
        rows.append(f"| {promise.number} | {len(closure.definitions)} | {closure.lines()} |\n")
    return HEAD + "".join(rows)


def table_of_page(text):
    """The table as the page has it, or nothing."""
    start = text.find(HEAD)
    return "" if start < 0 else text[start:].split("\n\n")[0].rstrip("\n") + "\n"


def table_differs():
    """Whether the table in docs/PROMISES.md is another than that of the tree."""
    return table_of_page(rattle.read(PROMISES)) != table()


def write_table():
    """Writes the table into docs/PROMISES.md."""
    text = PROMISES.read_text()
    PROMISES.write_text(text.replace(table_of_page(text), table()))


def closure_named(words):
    """The closure of a promise, named by its number, or of the contract of a function, named by crate and name."""
    match words:
        case [number]:
            chosen = [promise.contracts for promise in promises() if str(promise.number) == number]
            return closure_of_contracts(chosen[0]) if chosen else sys.exit(f"contracts: there is no promise {number}")
        case [crate, name]:
            return closure_of_contracts([(crate, name)])
        case _:
            return sys.exit("contracts: --budget takes the number of a promise, or a crate and a function")


def print_closure(closure):
    for definition in closure.definitions:
        file = definition.file.relative_to(rattle.CRATES)
        print(f"{file}: {definition.name} ({code_lines(definition)})")
    print(f"{len(closure.definitions)} definitions, {closure.lines()} lines, {len(closure.files())} files, "
          f"{len(closure.crates())} crates")
