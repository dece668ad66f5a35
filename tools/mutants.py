#!/usr/bin/env python3
"""Reads the mutants of tests/plants, and tells what in their lists is wrong.

A file tests/plants/CRATE.plants is a list of mutants, blocks of lines with an empty line between them:

    plant: name-in-plain-words
    by: clause `ok` of Version::new             what must refuse it: 'clause of FUNCTION' or of TYPE::FUNCTION,
                                                'clause `NAME` of ..', or of a struct that has it, 'row CRATE:
                                                TEST' or MODULE::TEST, or 'script tests/NAME', each alone or with
                                                plain words behind ': '; or why it is 'harmless: ..'
    gate: promise 4                             only if ./test tries it: it stands for a promise of
                                                docs/PROMISES.md, or 'gate: clause' for its clause alone
    file: src/version.rt                        then as in a must-fail edit: a text that stands once in the
    old: TEXT                                   file, and what stands there in its place; more pairs, and other
    new: TEXT                                   files, may follow
    old+: TEXT                                  a further line of the text before it

A line that begins with '#' is a comment. An edit of must-fail names its promise in such a line: '# promise 2'."""

import re
from dataclasses import dataclass, field
from functools import cached_property

import rattle
from rattle import CRATES, ROOT, below, closing, functions_of, masked, sources

LISTS = ROOT / "tests" / "plants"
MOST_AT_ONCE = 8
FN = re.compile(r"^( *)(?:pub(?:\([^)]*\))? )?(?:const )?(?:unsafe )?fn (\w+)", re.M)


LABEL = re.compile(r"(?:clause (?:`(?P<clause>\w+)` )?of (?P<owner>\w+::)?(?P<function>\w+)"
                   r"|row (?P<rows>\w+): (?P<module>\w+::)?(?P<test>\w+)"
                   r"|script tests/(?P<script>[\w.]+)"
                   r"|harmless)(?:: .*)?")


@dataclass
class Mutant:
    """A wrong body: its crate, its name, what must refuse it, and its edits (file, old text, new text)."""

    crate: str
    name: str
    by: str = ""
    gate: str = ""
    edits: list = field(default_factory=list)

    def __str__(self):
        return f"{self.crate}/{self.name}"

    def text_of(self, file):
        """A file of the crate as it stands."""
        return (CRATES / self.crate / file).read_text()

    def texts(self):
        """The texts of the files that it changes, by their path in the crate."""
        texts = {}
        for file, old, new in self.edits:
            text = texts.get(file) or self.text_of(file)
            if text.count(old) != 1:
                raise ValueError(f"its old text stands in {file} {text.count(old)} times: {old[:60]!r}")
            texts[file] = text.replace(old, new)
        return texts

    def places(self):
        """Where its old texts stand: each with its file, and the function around it, or none."""
        for file, old, _ in self.edits:
            path = CRATES / self.crate / file
            at = self.text_of(file).find(old)
            around = [f for f in rattle.functions(path) if f.start <= at < f.end] if path.suffix == ".rt" else []
            yield path, at, at + len(old), max(around, key=lambda f: f.start, default=None)

    @cached_property
    def functions(self):
        """The functions that it turns, by their paths below the crate. If it turns none, the function whose clause is to
        refuse it, if that is of this crate."""
        found = [path_of(path, end) for path, _, end, function in self.places() if function]
        if found:
            return list(dict.fromkeys(found))
        label = LABEL.fullmatch(self.by)
        owner = label and (label["owner"] or "").rstrip(":")
        named = functions_of(self.crate).get(label["function"], []) if label and label["function"] else []
        return [path_of(f.file, f.body) for f in named if owner in ("", f.owner, f.trait)][:1]

    @cached_property
    def is_in_bodies(self):
        """Whether it turns bodies alone, and no contract, type or constant."""
        return all(function and function.body < at and end <= function.end
                   for _, at, end, function in self.places())

    def fault(self):
        """Why it can't be planted, or none."""
        try:
            if not self.edits or not re.match(r"(clause |row \w+: |script tests/|harmless: )", self.by):
                return "it has no pair of texts, or no word on what must refuse it"
            if not re.fullmatch(r"|clause|promise [1-9]\d*", self.gate):
                return f"its line 'gate:' names neither a promise nor 'clause': {self.gate}"
            same = all(self.text_of(file) == text for file, text in self.texts().items())
            return "it changes nothing" if same else None
        except (OSError, ValueError) as error:
            return str(error)

    def fits_with(self, other):
        """Whether both can stand in one copy: they turn different bodies, and no other function or text."""
        if set(self.functions) & set(other.functions) or not (self.is_in_bodies and other.is_in_bodies):
            return False
        return not any(old in new for one, two in ((self, other), (other, self))
                       for _, old, _ in one.edits for _, _, new in two.edits)


def path_of(path, end):
    """The function whose head is the last one before a place of a file, by its path below the crate, as `rt check
    --only` takes it."""
    head = path.read_text()[:end]
    found = list(FN.finditer(head))[-1]
    module = "" if path.stem in ("lib", "main") else f"{path.stem}::"
    owners = list(re.finditer(r"^(impl|trait)\b(.*)", head[:found.start()], re.M))
    if not found[1] or not owners:
        return module + found[2]
    owner = re.sub(r"^<.*?> (?=\w)|\{.*", "", owners[-1][2].strip())
    owner = re.sub(r"^(\w+)<([A-Z]\w+)> for ", r"\1\2 for ", owner)
    while re.search(r"<[^<>]*>", owner):
        owner = re.sub(r"<[^<>]*>", "", owner)
    trait, _, of = owner.strip().partition(" for ")
    return f"{module}{of}{trait}::{found[2]}".replace(" ", "")


def read_list(path):
    """The mutants of one file, and what in it can't be read."""
    mutants, faults, file = [], [], ""
    for number, line in enumerate(path.read_text().splitlines(), 1):
        word, _, text = line.partition(": ") if ": " in line else (line.rstrip(":"), "", "")
        if not line or line.startswith("#"):
            continue
        if word == "plant":
            mutants.append(Mutant(path.stem, text))
        elif not mutants:
            faults.append(f"{path.name}:{number}: no mutant stands above this line")
        elif word in ("by", "gate"):
            setattr(mutants[-1], word, text)
        elif word == "file":
            file = text
        elif word == "old":
            mutants[-1].edits.append([file, text, ""])
        elif not mutants[-1].edits:
            faults.append(f"{path.name}:{number}: no 'old:' line stands above this line")
        elif word == "new":
            mutants[-1].edits[-1][2] = text
        elif word in ("old+", "new+"):
            mutants[-1].edits[-1][1 if word == "old+" else 2] += "\n" + text
        else:
            faults.append(f"{path.name}:{number}: not read: {line[:60]}")
    return mutants, faults


def read_lists():
    """All mutants, and what is wrong with their lists."""
    mutants, faults, names, edits = [], [], set(), {}
    for path in sorted(LISTS.glob("*.plants")):
        more, wrong = read_list(path)
        mutants += more
        faults += wrong
        if not (CRATES / path.stem / "src").is_dir():
            faults.append(f"{path.name}: there is no crate {path.stem}")
    for mutant in mutants:
        same = edits.setdefault(repr((mutant.crate, mutant.edits)), mutant)
        why = mutant.fault() or ("two mutants have this name" if str(mutant) in names else None)
        why = why or (f"it is {same}" if same is not mutant else None)
        if why:
            faults.append(f"{mutant}: {why}")
        names.add(str(mutant))
    return mutants, faults


def has_clause(crate, function, clause):
    """Whether a function's contract, with what its trait gives it, has a clause of this name; or any, where none is
    named. (A trait that stands in no crate of this repository may give it each.)"""
    methods = [function]
    if function.trait:
        given = [f for other in below(crate) for f in functions_of(other).get(function.name, [])
                 if f.owner == function.trait and not f.trait]
        if not given:
            return True
        methods += given
    names = {told.name for method in methods for told in method.clauses}
    return clause in names if clause else bool(names)


def has_ghost(crate, name, clause):
    """Whether a struct of a crate has a clause of this name: a ghost field."""
    for path in sources(crate):
        found = re.search(rf"\bstruct {name}\b[^;{{]*\{{", masked(path))
        if found:
            inner = masked(path)[found.end():closing(masked(path), found.end() - 1)]
            return re.search(rf"\bghost {clause}:", inner) is not None
    return False


def clause_is_there(crate, label):
    """Whether a function of the crate has the clause, or, where it has none of the name, one of a crate below it; or a
    struct of the crate."""
    owner = (label["owner"] or "").rstrip(":")
    found = [f for other in below(crate) for f in functions_of(other).get(label["function"], [])
             if not owner or owner in (f.owner, f.trait)]
    found = [f for f in found if f.crate == crate] or found
    return (any(has_clause(crate, function, label["clause"]) for function in found)
            or bool(label["clause"]) and has_ghost(crate, label["function"], label["clause"]))


def tests_named(label):
    """The tests of a crate of tests that have the name, in the module where one is named."""
    module = (label["module"] or "").rstrip(":")
    return [f for f in functions_of(label["rows"]).get(label["test"], [])
            if f.test and (not module or f.file.stem == module)]


def stale(crate, by):
    """Why the line of a plant of this crate names nothing that stands here; none, where it does."""
    label = LABEL.fullmatch(by)
    if not label:
        return f"this names nothing that could refuse it: {by[:60]}"
    if label["function"] and not clause_is_there(crate, label):
        return f"there is no {by.split(': ')[0]}"
    if label["script"] and not (ROOT / "tests" / label["script"]).is_file():
        return f"there is no script tests/{label['script']}"
    if label["rows"]:
        if not label["rows"].startswith("test_") or crate not in below(label["rows"]):
            return f"there is no crate of tests {label['rows']} that stands on {crate}"
        found = tests_named(label)
        if len(found) != 1:
            return f"{label['rows']} has {len(found)} tests of the name {label['test']}"
    return None


def stale_labels(mutants):
    """What is wrong with the lines 'by:', and which promises have no mutant that the gate tries."""
    faults = [f"{mutant}: {why}" for mutant in mutants for why in [stale(mutant.crate, mutant.by)] if why]
    promises = set(re.findall(r"(?m)^## (\d+)\. ", (ROOT / "docs" / "PROMISES.md").read_text()))
    tried = {mutant.gate.removeprefix("promise ") for mutant in mutants if mutant.gate}
    for edit in CRATES.glob("*/must-fail/*.edit"):
        tried.update(re.findall(r"(?m)^# promise (\d+)$", edit.read_text()))
    faults += [f"the gate tries no mutant of promise {number}" for number in sorted(promises - tried, key=int)]
    faults += [f"there is no promise {number}, which a mutant names" for number in sorted(tried - promises - {"clause"})]
    return faults


def batches(mutants, jobs=1):
    """The mutants of a crate in batches that are tried at once, at least one for each job."""
    most, found = min(MOST_AT_ONCE, max(1, -(-len(mutants) // jobs))), []
    for mutant in mutants:
        fits = (batch for batch in found if len(batch) < most and all(map(mutant.fits_with, batch)))
        batch = next(fits, None) if mutant.functions else None
        if batch is None:
            found.append([mutant])
        else:
            batch.append(mutant)
    return found


def planted(mutants):
    """The texts of the files that these mutants of one crate change, by their path in it, with all in place."""
    texts = {}
    for mutant in mutants:
        for file, old, new in mutant.edits:
            texts[file] = (texts.get(file) or mutant.text_of(file)).replace(old, new)
    return texts
