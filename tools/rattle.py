"""Reads the crates of this tree: functions with their contracts, definitions of specs/, what a crate hands out, and what
it stands on. Rattle's own tools print no such lists, so the texts are read by regular expressions."""

import re
from dataclasses import dataclass, field
from functools import lru_cache
from pathlib import Path

ROOT = Path(__file__).resolve().parent.parent
CRATES = ROOT / "crates"


# Text: comments and strings out of the way, and brackets that belong together.

IMPL = re.compile(r"^(?:unsafe )?impl\b", re.M)
STATED = re.compile(r"^ *ghost (\w+) = (?=\{)", re.M)
MASKED = re.compile(
    r"//[^\n]*"                                # a comment to the end of its line
    r"|/\*.*?\*/"                              # a comment in the line
    r'|b?r(#+)".*?"\1|b?r"[^"]*"'              # raw text
    r'|b?"(?:\\.|[^"\\])*"'                    # text
    r"|(?<![\w'])b?'(?:\\[^']+|[^'\\\n])'",    # a character; a name's prime follows a letter
    re.S)


BRACKET = re.compile(r"[()\[\]{}]")


@lru_cache(maxsize=None)
def read(path):
    return path.read_text()


@lru_cache(maxsize=None)
def masked(path):
    """The text of a file, with spaces where it has comments, strings and characters."""
    return MASKED.sub(lambda m: re.sub(r"[^\n]", " ", m.group()), read(path))


def closing(text, at):
    """The place right after the bracket that closes the one at this place."""
    depth = 0
    for bracket in BRACKET.finditer(text, at):
        depth += 1 if bracket.group() in "([{" else -1
        if depth == 0:
            return bracket.end()
    return len(text)


def after_generics(text, at):
    """The place after `<..>`, where there is one; the arrow of a function type closes nothing."""
    while at < len(text) and text[at].isspace():
        at += 1
    if at >= len(text) or text[at] != "<":
        return at
    depth = 0
    for place in range(at, len(text)):
        if text[place] == "<":
            depth += 1
        elif text[place] == ">" and text[place - 1] != "-":
            depth -= 1
            if depth == 0:
                return place + 1
    return len(text)


def in_one_line(text):
    text = re.sub(r"\s+", " ", text).strip()
    return text.replace("( ", "(").replace(", )", ")").replace(",)", ")")


def comment(lines):
    """The words of a comment, and what it says is not said."""
    said, unsaid = [], []
    for line in lines:
        if line.startswith("Not said:"):
            unsaid.append([line[len("Not said:"):].strip()])
        elif unsaid and line:
            unsaid[-1].append(line)
        elif not unsaid:
            said.append(line)
    return " ".join(said).strip(), [" ".join(part) for part in unsaid]


# Definitions in specs/*.antt.

@dataclass
class Definition:
    crate: str
    file: Path
    name: str
    words: str
    unsaid: list
    body: str
    fields: list = field(default_factory=list)


# A definition stands at the margin, or indented in a `module _ .. where`.
DEFINED = re.compile(r"( *)(?:pub )?(?:abbrev|record(?! \S+ \{(?: \w+ =|$))|data|inductive) (?:pub )?(\S+)|()pub (\S+) :")


@lru_cache(maxsize=None)
def definitions(path):
    """The definitions of a file, by name, in their order."""
    found, lines = {}, read(path).splitlines()
    for number, line in enumerate(lines):
        start = DEFINED.match(line)
        if not start:
            continue
        indent, name = start.group(1) or "", start.group(2) or start.group(4)
        above = number
        while above > 0 and lines[above - 1].startswith(indent + "--"):
            above -= 1
        words, unsaid = comment([text.strip()[2:].strip() for text in lines[above:number]])
        end = number + 1
        while end < len(lines) and lines[end].strip() and not lines[end].startswith(indent + "--"):
            end += 1
        entry = Definition(path.parts[-3], path, name, words, unsaid, "\n".join(lines[number:end]))
        if re.match(r" *(pub )?record ", line):
            entry.fields = fields_of(lines, number, indent + "  pub ")
        found[name] = entry
    return found


def fields_of(lines, number, indent):
    """The fields of a record: their names, what each says, and the comment above it, if there is one."""
    fields, above, inner = [], [], indent[:-4]
    for line in lines[number + 1:]:
        start = re.match(re.escape(indent) + r"(\S+) : ?(.*)", line)
        if start:
            fields.append([start.group(1), start.group(2), comment(above)[0]])
            above = []
        elif line.strip().startswith("--") and line.startswith(inner):
            above.append(line.strip()[2:].strip())
        elif not line.strip() or not line.startswith(inner):
            if fields or not line.strip():
                break
        elif fields:
            fields[-1][1] += " " + line.strip()
    return fields


IMPORT = re.compile(r"^\s*(?:ghost )?use Rattle\.(\w+)\.specs\.([\w.]+)\.\{([^}]*)\}", re.M)


@lru_cache(maxsize=None)
def imported(path):
    """The definitions of this repository that a file may name, by the name that it gives them."""
    names = {}
    for crate, module, listed in IMPORT.findall(read(path)):
        file = CRATES / crate / "specs" / (module.replace(".", "/") + ".antt")
        if not file.is_file():
            continue
        there = definitions(file)
        for name in listed.split(","):
            name, _, other = name.strip().partition(" as ")
            if name in there:
                names[other.strip() or name] = there[name]
    if path.suffix == ".antt":
        names.update(definitions(path))
    return names


GENERAL = {"In", "At"}
DATA = {}
WORD = re.compile(r"(?<![\w.'\-])[A-Za-z_][\w'\-?]*")


def cited(path, text):
    """The definitions that a clause or a field names, each once, in the order of the text: those that
    say something, or, where there are none, what it computes with."""
    names = imported(path)
    found = list({word: names[word] for word in WORD.findall(text) if word in names}.values())
    found = [d for d in found if d.name not in GENERAL and not is_data(d)]
    return [d for d in found if d.name[0].isupper()] or found


def is_data(definition):
    """Whether it is a type of values and no statement: a list of cases, or made of such types alone."""
    key = (definition.file, definition.name)
    if key not in DATA:
        DATA[key] = False
        name = re.escape(definition.name)
        if re.match(r" *(pub )?data ", definition.body):
            DATA[key] = True
        elif re.match(rf" *(pub )?(record|abbrev) (pub )?{name} : Type \d+( where)?\n", definition.body):
            parts = [text for _, text, _ in definition.fields] or definition.body.splitlines()[1:]
            names = imported(definition.file)
            DATA[key] = not any(
                re.search(r"[≡≢→≤<↔¬⊎]", text)
                or any(names[word].name != definition.name and not is_data(names[word])
                       for word in WORD.findall(text) if word in names)
                for text in parts)
    return DATA[key]


@lru_cache(maxsize=None)
def meant(path, name):
    """A definition with those that it is another name of."""
    found, pending = {}, [definitions(path)[name]]
    while pending:
        definition = pending.pop(0)
        key = (definition.file, definition.name)
        if key not in found:
            found[key] = definition
            if not definition.fields:
                pending += [d for d in cited(definition.file, definition.body) if d.name[0].isupper()]
    return list(found.values())


# Functions in src/*.rt.

@dataclass
class Clause:
    kind: str
    name: str
    text: str
    cites: list


@dataclass
class Function:
    crate: str
    file: Path
    name: str
    owner: str          # the type or the trait whose it is, or nothing
    trait: str          # the trait that an impl is of, or nothing
    public: bool
    head: str
    words: str
    unsaid: list
    clauses: list
    start: int
    body: int
    end: int
    test: bool
    edits: list = field(default_factory=list)

    def title(self):
        if self.trait:
            return f"{self.owner} as {self.trait}: {self.name}"
        return f"{self.owner}::{self.name}" if self.owner else self.name


BLOCK = re.compile(r"^[ \t]*(?:pub(?:\([\w ]+\))? )?(?:unsafe )?(impl|trait)\b", re.M)
FN = re.compile(r"(?:pub(\([\w ]+\))? )?(?:const |unsafe )*\bfn (\w+)")


@lru_cache(maxsize=None)
def blocks(path):
    """The impl blocks and traits of a file: where each begins and ends, its type and its trait."""
    text, found = masked(path), []
    for start in BLOCK.finditer(text):
        at = after_generics(text, start.end())
        opening = text.index("{", at)
        head = in_one_line(text[at:opening]).split(" where ")[0]
        trait = ""
        if start.group(1) == "trait":
            owner = re.match(r"\w+", head).group()
            public = "pub " in start.group()
        else:
            public = False
            if " for " in head:
                trait, head = head.split(" for ", 1)
                trait = re.match(r"[\w:]+", trait).group().split("::")[-1]
            owner = re.search(r"\w+", re.sub(r"^&(?:'\w+ )?(?:mut )?", "", head))
            owner = owner.group() if owner else head
        found.append((opening, closing(text, opening), owner, trait, start.group(1), public))
    return found


def doc_above(path, at):
    """The lines of `///` above an item, with its attributes passed over, and whether it is a test."""
    lines = read(path)[:at].split("\n")[:-1]
    said, test = [], False
    while lines:
        line = lines[-1].strip()
        if line.startswith("///"):
            said.insert(0, line[3:].strip())
        elif line.startswith("#["):
            test = test or line == "#[test]"
        else:
            break
        lines.pop()
    return said, test


def clauses_from(path, at):
    """The clauses behind a function's arguments, and the places where its body begins and ends."""
    text, found = masked(path), []
    while at < len(text):
        char = text[at]
        if char in "([":
            at = closing(text, at)
            continue
        if char in ";{":
            return found, at, at + 1 if char == ";" else closing(text, at)
        word = re.match(r"(requires|ensures)\b\s*\*?\s*(\w*)\s*\*?\s*\{", text[at:])
        if word and not (text[at - 1].isalnum() or text[at - 1] == "_"):
            opening = at + word.end() - 1
            end = closing(text, opening)
            inner = in_one_line(read(path)[opening + 1:end - 1])
            found.append(Clause(word.group(1), word.group(2), inner, cited(path, inner)))
            at = end
            continue
        at += 1
    return found, at, at


@lru_cache(maxsize=None)
def functions(path):
    text, found = masked(path), []
    for start in FN.finditer(text):
        open_args = text.find("(", after_generics(text, start.end()))
        if open_args < 0:
            continue
        end_args = closing(text, open_args)
        clauses, body, end = clauses_from(path, end_args)
        around = [b for b in blocks(path) if b[0] < start.start() < b[1]]
        owner = trait = kind = ""
        public = start.group().startswith("pub ") and not start.group(1)
        if around:
            _, _, owner, trait, kind, open_trait = max(around)
            public = public or (kind == "trait" and open_trait) or bool(trait)
        lines, test = doc_above(path, start.start())
        words, unsaid = comment(lines)
        head = text[start.start():body]
        cut = re.search(r"\b(?:requires|ensures)\b", head)
        head = read(path)[start.start():start.start() + (cut.start() if cut else len(head))]
        found.append(Function(path.parts[-3], path, start.group(2), owner, trait, public,
                              in_one_line(head).replace("< ", "<").replace(", >", ">"), words, unsaid, clauses, start.start(), body, end, test))
    return found


def sources(crate):
    return sorted((CRATES / crate / "src").rglob("*.rt"))


@dataclass(frozen=True)
class Stated:
    """A member that an implementation of a trait states: the trait and the type, its name and its text."""

    head: str
    name: str
    text: str


def statements(path):
    """Yields what the implementations of traits in a file state by `ghost NAME = {..}`."""
    text, hidden = read(path), masked(path)
    for impl in IMPL.finditer(hidden):
        body = hidden.index("{", impl.end())
        head = " ".join(hidden[after_generics(hidden, impl.end()):body].split(" where ")[0].split())
        if " for " not in head:
            continue
        for member in STATED.finditer(hidden, body, closing(hidden, body)):
            value = text[member.end() + 1:closing(hidden, member.end()) - 1]
            yield Stated(head, member.group(1), " ".join(value.split()))


def root_of(crate):
    library = CRATES / crate / "src" / "lib.rt"
    return library if library.is_file() else CRATES / crate / "src" / "main.rt"


@lru_cache(maxsize=None)
def exported(crate):
    """The names that a crate hands out, and its modules that stand open."""
    text, names, open_modules = masked(root_of(crate)), set(), set()
    pending = [text]
    while pending:
        text = pending.pop()
        for listed in re.findall(r"\bpub use ([^;]+);", text):
            names |= set(re.findall(r"(\w+)\s*(?=[,}]|$)", listed.strip()))
        for module in re.findall(r"\bpub mod (\w+);", text):
            if module not in open_modules:
                open_modules.add(module)
                pending.append(masked(CRATES / crate / "src" / f"{module}.rt"))
    return names, open_modules


def is_public(function):
    """Whether it can be called from outside its crate, or is the program's main."""
    if function.file.name == "main.rt":
        return function.name == "main"
    names, modules = exported(function.crate)
    outside = function.file.stem in modules or function.file.name == "lib.rt"
    if not function.public or function.test:
        return False
    if function.trait:
        return bool(function.clauses) and (function.owner in names or outside)
    return (function.owner or function.name) in names or outside


# Crates.

def listed_crates():
    """Each crate of crates.txt with what it stands on, in the order of the file."""
    crates = {}
    for line in (ROOT / "crates.txt").read_text().splitlines():
        line = line.split("#")[0].strip()
        if line:
            name, _, below = line.partition(":")
            crates[name.split()[0]] = below.split()
    return crates


def standing_on(crates, name):
    """All crates of the file that a crate stands on, and the crate itself."""
    found, pending = set(), [name]
    while pending:
        crate = pending.pop()
        if crate in crates and crate not in found:
            found.add(crate)
            pending += crates[crate]
    return found


def read_tree(root):
    """Reads the tree in this folder from now on, and forgets what was read of another one."""
    global ROOT, CRATES
    ROOT, CRATES = root, root / "crates"
    for remembered in list(globals().values()):
        if hasattr(remembered, "cache_clear"):
            remembered.cache_clear()
    DATA.clear()


@lru_cache(maxsize=None)
def functions_of(crate):
    """The functions of a crate by their names."""
    found = {}
    for path in sources(crate):
        for function in functions(path):
            found.setdefault(function.name, []).append(function)
    return found


@lru_cache(maxsize=None)
def below(crate):
    """The crates that a crate stands on, and itself."""
    return standing_on(listed_crates(), crate)
