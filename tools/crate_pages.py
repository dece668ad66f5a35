"""The pages of a release on what each crate promises, as its own files say it: './dev contracts --pages' writes them, and
a release has them as docs/contracts.

The page of a crate has its public calls with the first sentence of their `///`, their clauses with the definitions that
these cite and the first sentence of each definition's comment, the mutants in their code that the gate tries, and what
is not said. That last stands right at the statement: lines `/// Not said: ..` of a call, lines `-- Not said: ..` above a
definition."""

import re
from dataclasses import dataclass
from functools import lru_cache

import rattle
import sizes
from rattle import cited, definitions, functions, in_one_line, is_public, meant, read, root_of, sources, statements

PAGES = rattle.ROOT / "out" / "contracts"
MOST_CLAUSE = 72


def first_sentence(text):
    found = re.search(r"(?<!e\.g)(?<!i\.e)[.](?=\s|$)", text)
    return (text[:found.start()] if found else text).strip().rstrip(".")


def sentence(text):
    """The first sentence, with a capital and a full stop."""
    text = first_sentence(text)
    if not text:
        return ""
    if text[0].islower() and re.match(r"[a-z]+[ ,:]", text):
        text = text[0].upper() + text[1:]
    return text + ("" if text[-1] in ":?!" else ".")


def cell(text):
    return text.replace("|", "\\|")


@lru_cache(maxsize=None)
def crate_words(crate):
    lines = []
    for line in read(root_of(crate)).splitlines():
        if not line.startswith("//!"):
            break
        lines.append(line[3:].strip())
    return " ".join(lines)


def gate_mutants(crate):
    """The mutants that the gate tries: each with its name and its edits, as a file and its old text."""
    lists = rattle.ROOT / "tests" / "plants" / f"{crate}.plants"
    blocks = [(file.stem, read(file)) for file in sorted((rattle.CRATES / crate / "must-fail").glob("*.edit"))]
    for block in read(lists).split("\n\n") if lists.is_file() else []:
        name = re.search(r"^plant: (.*)", block, re.M)
        if name and re.search(r"^gate: ", block, re.M):
            blocks.append((name[1], block))
    for name, block in blocks:
        path, places = None, []
        for line in block.splitlines():
            key, _, value = line.partition(": ")
            if key == "file":
                path = rattle.CRATES / crate / value.strip()
            elif key == "old" and path is not None and path.is_file():
                places.append((path, value))
        yield name, places


def edits_of(crate):
    """Each mutant of the gate with the functions in whose text its `old:` stands."""
    placed, elsewhere = {}, []
    for name, places in gate_mutants(crate):
        where = []
        for path, value in places:
            at = read(path).find(value)
            inside = [f for f in functions(path) if at >= 0 and f.start <= at < f.end]
            if inside:
                where.append(max(inside, key=lambda f: f.start))
        if not where:
            elsewhere.append(name)
        for function in where:
            listed = placed.setdefault((function.file, function.start), [])
            if name not in listed:
                listed.append(name)
    return placed, elsewhere


def link(definition):
    return f"[{definition.name}](../../{definition.file.relative_to(rattle.ROOT)})"


def links(found):
    return ", ".join(link(definition) for definition in found)


def as_code(text):
    text = in_one_line(text)
    return f"`{cell(text if len(text) <= MOST_CLAUSE else text[:MOST_CLAUSE - 2] + '..')}`"


def clause_rows(function):
    rows = []
    for clause in function.clauses:
        name = f"`{clause.name}`" if clause.name else ""
        if clause.kind == "requires":
            name = f"asks {name}".strip()
        name = name or "ensures"
        if not clause.cites:
            rows.append(f"| {name} | | {as_code(clause.text)} |")
            continue
        if len(clause.text) <= MOST_CLAUSE and clause.cites[0].name[0].islower():
            rows.append(f"| {name} | {links(clause.cites)} | {as_code(clause.text)} |")
            continue
        for number, definition in enumerate(clause.cites):
            rows.append(f"| {name if number == 0 else ''} | {link(definition)} "
                        f"| {cell(sentence(definition.words))} |")
    return rows


def edits_line(function):
    """The mutants, and whether the function has a proof by hand, which a mutant may merely fail to fit."""
    told = ", ".join(function.edits)
    return told + (" (proof by hand)" if has_hand_proof(function) else "")


def has_hand_proof(function):
    """A function's proof stands under its file, that of a method under the file of its type."""
    folder = rattle.CRATES / function.crate / "proofs"
    if function.owner:
        return any(folder.glob(f"*/{function.owner + function.trait}/{function.name}"))
    return (folder / function.file.stem / function.name).is_dir()


def call_section(function, told):
    out = [f"### `{function.title()}`", "", sentence(function.words), "", f"`{function.head}`", ""]
    rows = clause_rows(function)
    if rows:
        out += ["| Clause | Definition | In words |", "|---|---|---|", *rows, ""]
    marks = []
    if function.edits:
        marks.append(f"- Mutants: {edits_line(function)}")
    marks += [f"- Not said: {text}" for text in function.unsaid]
    for definition in cited_by(function):
        key = (definition.file, definition.name)
        if definition.unsaid and key in told:
            marks.append(f"- Not said by {link(definition)}: as above.")
        else:
            marks += [f"- Not said by {link(definition)}: {text}" for text in definition.unsaid]
        told.add(key)
    return out + marks + ([""] if marks else [])


def cited_by(function):
    """The definitions that a function's clauses cite, with those that they are other names of."""
    found = {}
    for clause in function.clauses:
        for definition in clause.cites:
            for inner in meant(definition.file, definition.name):
                found[(inner.file, inner.name)] = inner
    return list(found.values())


def record_section(crate, calls):
    """The fields of the crate's records that its calls come to, and what its other definitions do not
    say."""
    at_calls, shown = set(), {}
    pending = [definition for function in calls for definition in cited_by(function)]
    at_calls = {(d.file, d.name) for d in pending}
    while pending:
        definition = pending.pop(0)
        if definition.crate != crate or (definition.file, definition.name) in shown:
            continue
        shown[(definition.file, definition.name)] = definition
        for _, text, _ in definition.fields:
            for inner in cited(definition.file, text):
                pending += meant(inner.file, inner.name)
    out, unsaid = [], []
    for key, definition in shown.items():
        rows = [field_row(definition, *about) for about in definition.fields]
        if not rows:
            continue
        out += [f"### {definition.name}", "", sentence(definition.words), "",
                "| Field | Definition | In words |", "|---|---|---|", *rows, ""]
        if definition.unsaid and key not in at_calls:
            at_calls.add(key)
            out += [*[f"- Not said: {text}" for text in definition.unsaid], ""]
    for path in sorted((rattle.CRATES / crate / "specs").rglob("*.antt")):
        for definition in definitions(path).values():
            if (path, definition.name) not in at_calls:
                unsaid += [f"- {link(definition)}: {text}" for text in definition.unsaid]
    return out, unsaid


def field_row(definition, name, text, own):
    cites = [d for d in cited(definition.file, text) if d.name != definition.name]
    said = cites and (cites[-1].name[0].isupper() or len(text) > MOST_CLAUSE)
    words = cell(sentence(own or cites[-1].words)) if own or said else as_code(text)
    return f"| `{name}` | {links(cites)} | {words} |"


def private_section(crate, calls):
    """Private functions in whose code mutants stand, or that say what is not said."""
    public = {(f.file, f.start) for f in calls}
    out = []
    for path in sources(crate):
        for function in functions(path):
            if (path, function.start) in public or not (function.edits or function.unsaid):
                continue
            where = f"[{path.name}](../../{path.relative_to(rattle.ROOT)})"
            out.append(f"- `{function.title()}` ({where}): {sentence(function.words)}")
            if function.edits:
                out.append(f"  - Mutants: {edits_line(function)}")
            out += [f"  - Not said: {text}" for text in function.unsaid]
    return out


def stated_section(crate):
    """What the implementations of traits state, a line each."""
    if crate.startswith("test_"):
        return []
    return [f"- `{stated.head}`, `{stated.name}`: {as_code(stated.text)}"
            for path in sources(crate) for stated in statements(path)]


def tests_section(crate):
    out = []
    for path in sources(crate):
        tests = [f for f in functions(path) if f.test]
        if tests:
            out += [f"## {path.stem}", ""]
            out += [f"- {f.name}" + (f": {sentence(f.words)}" if f.words else "") for f in tests]
            out.append("")
    return out


@dataclass
class Counts:
    calls: int = 0
    clauses: int = 0
    edits: int = 0
    tests: int = 0
    unsaid: int = 0


def page_of(crate):
    placed, elsewhere = edits_of(crate)
    every = [f for path in sources(crate) for f in functions(path)]
    for function in every:
        function.edits = placed.get((function.file, function.start), [])
    calls = [f for f in every if is_public(f)] if not crate.startswith("test_") else []
    edits = list(gate_mutants(crate))
    unsaid = sum(len(f.unsaid) for f in every)
    for path in (rattle.CRATES / crate / "specs").rglob("*.antt"):
        unsaid += sum(len(d.unsaid) for d in definitions(path).values())
    counts = Counts(len(calls), sum(len(f.clauses) for f in calls), len(edits),
                    sum(f.test for f in every), unsaid)
    out = [f"# {crate}", "", sentence(crate_words(crate)), ""]
    if calls:
        out += ["## Calls", ""]
        told = set()
        for function in calls:
            out += call_section(function, told)
    records, more = record_section(crate, calls)
    if records:
        out += ["## Records that these clauses cite", ""] + records
    if more:
        out += ["## What other definitions do not say", "", *more, ""]
    stated = stated_section(crate)
    if stated:
        out += ["## What implementations of traits state", "", *stated, ""]
    private = private_section(crate, calls)
    if private:
        out += ["## Private functions", "", *private, ""]
    if elsewhere:
        out += [f"Mutants outside functions: {', '.join(elsewhere)}", ""]
    out += tests_section(crate)
    return "\n".join(out).rstrip() + "\n", counts


def index_of(crates, counts):
    out = ["# Contracts of each crate", "",
           "This page is for whoever looks for a promise of one crate. `./dev contracts --pages` makes it of the crates' "
           "own files. A promise is a clause of a public call, in the words of the definition that the clause cites. What "
           "is not said stands where the statement stands. The promises of the first page are in "
           "[PROMISES.md](../../docs/PROMISES.md); how large each crate is, in [SIZES.md](SIZES.md).", "",
           "A mutant is a wrong body that the gate shows to be refused; it is listed at the function in whose text it "
           "stands. If goals of that function are proved by hand, a refusal may only say that this proof does not fit "
           "the other body. A clause that begins with `asks` is what the caller must show. A law is a public function "
           "with an empty body, whose contract is the promise.", "",
           "| Crate | What it is | Calls | Clauses | Mutants | Tests | Not said |",
           "|---|---|---|---|---|---|---|"]
    total = Counts()
    for crate in crates:
        c = counts[crate]
        out.append(f"| [{crate}]({crate}.md) | {cell(sentence(crate_words(crate)))} | {c.calls} "
                   f"| {c.clauses} | {c.edits} | {c.tests} | {c.unsaid} |")
        for name in vars(total):
            setattr(total, name, getattr(total, name) + getattr(c, name))
    out.append(f"| all | | {total.calls} | {total.clauses} | {total.edits} | {total.tests} "
               f"| {total.unsaid} |")
    return "\n".join(out) + "\n"


def pages():
    """Each page by its name."""
    written, counts = {}, {}
    crates = rattle.listed_crates()
    for crate in crates:
        written[f"{crate}.md"], counts[crate] = page_of(crate)
    written["README.md"] = index_of(crates, counts)
    written["SIZES.md"] = sizes.page(rattle.ROOT)
    return written


def write_pages():
    """Writes the pages into out/contracts, and removes those of crates that went."""
    written = pages()
    PAGES.mkdir(parents=True, exist_ok=True)
    for file in PAGES.glob("*.md"):
        if file.name not in written:
            file.unlink()
    for name, text in written.items():
        (PAGES / name).write_text(text)
    print(f"contracts: {len(written)} pages in {PAGES.relative_to(rattle.ROOT)}")
