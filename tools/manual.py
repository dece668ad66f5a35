"""Manual pages, completions and plain text, made from what the program says of itself (`--help`) and from
the project's pages in Markdown, so that they cannot differ from these."""

import re
import textwrap
from dataclasses import dataclass

WIDTH = 79
COLUMN_GAP = 2


# What clap's help says.

@dataclass
class Help:
    """The help of a command: what it does, its usage, its commands and options with their texts, and the
    lines of its example."""
    about: str
    usage: str
    commands: list
    options: list
    example: list


def read_help(text):
    """The help that a program prints, one line for each entry; an example stands at its end."""
    about, _, rest = text.partition("\n\nUsage: ")
    usage, *parts = rest.split("\n\n")
    found, example = {"Commands:": [], "Options:": []}, []
    for part in parts:
        heading, *lines = part.strip("\n").split("\n")
        if heading == "Example:":
            example = [line.removeprefix("  ") for line in lines]
            continue
        for line in lines:
            entry = re.fullmatch(rf" +(\S.*?) {{{COLUMN_GAP},}}(\S.*)", line)
            if heading not in found or entry is None:
                raise ValueError(f"the help has a line that is no entry: {line}")
            found[heading].append(entry.groups())
    if not about or not usage:
        raise ValueError("the help has no usage")
    return Help(about, usage, found["Commands:"], found["Options:"], example)


# What a page says.

def section(page, heading):
    """The text of a page below a heading, up to the next one of its level or above."""
    level = heading.partition(" ")[0]
    _, found, rest = f"\n{page}".partition(f"\n{heading}\n")
    if not found:
        raise ValueError(f"no heading '{heading}'")
    return re.split(rf"^#{{1,{len(level)}}} ", rest, maxsplit=1, flags=re.M)[0]


def blocks(text):
    """The blocks of a section: ('code', lines), ('table', rows with the head), ('item', text) or
    ('text', text). Headings are left out."""
    lines = iter(text.split("\n"))
    for line in lines:
        if line.startswith("```"):
            code = []
            for inside in lines:
                if inside.startswith("```"):
                    break
                code.append(inside)
            yield "code", code
        elif line.startswith("|"):
            rows = [line]
            for inside in lines:
                if not inside.startswith("|"):
                    break
                rows.append(inside)
            yield "table", [[cell.strip() for cell in row.strip("|").split("|")] for row in rows[:1] + rows[2:]]
        elif line.startswith("- "):
            yield "item", line[len("- "):]
        elif line.strip() and not line.startswith("#"):
            yield "text", line


def first(kind, text, having=""):
    """The first block of a kind that has a text."""
    for found, block in blocks(text):
        if found == kind and having in str(block):
            return block
    raise ValueError(f"no {kind} with '{having}' where one was looked for")


# Plain text.

def plain(markdown):
    """A line of Markdown without its marks."""
    return re.sub(r"\[([^]]*)\]\([^)]*\)", r"\1", markdown).replace("**", "")


def wrapped(markdown, mark=""):
    """A line of Markdown as lines of plain text, with a mark before the first."""
    return textwrap.fill(plain(markdown), WIDTH, initial_indent=mark, subsequent_indent=" " * len(mark),
                         break_long_words=False, break_on_hyphens=False)


# Manual pages.

ESCAPES = {"\\": "\\e", "-": "\\-", "^": "\\(ha", "~": "\\(ti", "`": "\\(ga", "'": "\\(aq"}
MARKS = re.compile(r"`([^`]+)`|\*\*([^*]+)\*\*|\*([^*]+)\*|\[([^]]*)\]\([^)]*\)|([^`*\[]+|.)")


def literal(text):
    """A text as it stands, for the formatter."""
    return "".join(ESCAPES.get(letter, letter) for letter in text)


def bold(text):
    return f"\\fB{literal(text)}\\fR"


def marked(markdown):
    """A line of Markdown for the formatter: code in bold, and what stands out in italics."""
    line = ""
    for code, strong, stressed, link, rest in MARKS.findall(markdown):
        if code:
            line += bold(code)
        elif strong or stressed:
            line += f"\\fI{literal(strong or stressed)}\\fR"
        else:
            text = re.sub(r"[\\^~']", lambda found: ESCAPES[found.group()], link or rest)
            line += text.replace(" - ", " \\- ")
    return f"\\&{line}" if line[:1] in (".", "'") else line


def tagged(tag, text):
    return f".TP\n{tag}\n{text}"


def table_of(table):
    """A table: what each row is about, and below it the rest, a third cell with the word at its head."""
    (*_, last), *rows = table
    lines = []
    for tag, text, *more in rows:
        texts = [marked(text), *[f"{last}: {marked(cell)}" for cell in more]]
        lines.append(tagged(marked(tag), "\n.br\n".join(filter(None, texts))))
    return "\n".join(lines)


def code_of(lines):
    """Lines as they stand, of a program that is installed."""
    installed = re.sub(r"\./(vacation|judge)\b", r"\1", "\n".join(lines)).replace(" | ", " |\n      ")
    shown = [literal(line) for line in installed.split("\n")]
    shown = [f"\\&{line}" if line[:1] in (".", "\\") else line for line in shown]
    return "\n".join([".PP", ".in +4n", ".nf", *shown, ".fi", ".in"])


def grammar_of(lines):
    """The lines of a grammar as they stand."""
    return "\n".join([".PP", ".nf", *(f"\\&{literal(line)}" for line in lines), ".fi"])


def roff(text, code=code_of):
    """A section of a page for the formatter, and how its lines of code are shown."""
    made = {"code": code, "text": lambda line: f".PP\n{marked(line)}",
            "item": lambda line: f".IP \\(bu 2\n{marked(line)}",
            "table": lambda table: table_of(table) + "\n.PP"}
    return "\n".join(made[kind](block) for kind, block in blocks(text))


def option_of(flags, text):
    """An option, in bold, with what it takes, in italics."""
    tag = re.sub(r"[^\s,<>]+", lambda word: bold(word.group()), re.sub(r" <\w+>", "", flags))
    takes = re.search(r"<(\w+)>", flags)
    return tagged(f"{tag} \\fI{takes.group(1)}\\fR" if takes else tag, marked(text))


def usage_of(program, usage):
    """A usage: the words of the command in bold, and what it takes as clap writes it. The file of the program
    whose help was read may have another name."""
    words = [program, *usage.split(" ")[1:]]
    fixed = [word for word in words if word[0] not in "<["]
    return " ".join([bold(" ".join(fixed)), *[f"\\fI{literal(word)}\\fR" for word in words[len(fixed):]]])


def of_the_program(table, program):
    """The rows on what ends a program, of a table with a column for each: without what the script of the repository
    adds to it."""
    head, *rows = table
    column = head.index(f"Of `{program}`")
    yield [head[0], "Meaning"]
    for row in rows:
        text = "; ".join(part for part in row[column].split("; ") if "`./" not in part)
        if text:
            yield [row[0], text]


def head(name, number, version, day, title):
    return f'.TH {name} {number} {day} "{version}" "{title}"\n.nh\n.ad l'


def program_page(program, whole, commands, using, version, day, examples):
    """The manual page of a program, from its help, the help of each subcommand by its name, and the page
    on how to use it, with the headings of its examples there."""
    wrong = section(using, "## When something goes wrong")
    ends, faults = [block for kind, block in blocks(wrong) if kind == "table"]
    about = whole.about[:1].lower() + whole.about[1:]
    lines = [head(program.upper(), 1, version, day, "User Commands"),
             ".SH NAME", f"{program} \\- {marked(about)}", ".SH SYNOPSIS"]
    usages = [usage_of(program, command.usage) for command in commands.values()]
    lines += ["\n.br\n".join(usages), ".SH DESCRIPTION", marked(". ".join(first("text", using).split(". ")[:2]) + ".")]
    lines += [".SH COMMANDS"]
    for name, text in whole.commands:
        lines += [f".SS {literal(name)}", marked(text) + "."]
        if name in commands:
            lines += [option_of(*option) for option in commands[name].options]
            lines += [code_of(commands[name].example)] if commands[name].example else []
    lines += [".SH OPTIONS", *[option_of(*option) for option in whole.options]]
    lines += [".SH EXIT STATUS", table_of(of_the_program(ends, program))]
    lines += [".SH DIAGNOSTICS", "The last line names the fault:", table_of(faults)]
    lines += [".SH EXAMPLES", *(code_of(first("code", section(using, heading))) for heading in examples)]
    others = [other for other in ("judge", "vacation") if other != program]
    lines += [".SH SEE ALSO", ", ".join([f"{bold('vacation-history')}(5)", *(f"{bold(other)}(1)" for other in others)])]
    return "\n".join(lines) + "\n"


def history_page(rules, using, logs, version, day):
    """The manual page on the format of histories, from the pages on the rules, on the lines, and on logs."""
    run = section(using, "## `run`: commands and their replies")
    words = first("text", run, "KIND is")
    lines = [head("VACATION-HISTORY", 5, version, day, "File Formats"),
             ".SH NAME",
             "vacation-history \\- calls and attempts, as judge reads them",
             ".SH DESCRIPTION", roff(section(rules, "### Histories")),
             ".SH GRAMMAR", roff(section(logs, "## Grammar"), grammar_of),
             ".SH CALLS WITHOUT AN END", roff(section(logs, "## Calls without an end")),
             ".SH VERDICTS AND STATUSES", roff(section(logs, "## Verdicts and statuses")),
             ".SH LINES AND REPLIES", marked(words)]
    for heading in ("Items", "Customers and bookings", "Whole tasks"):
        lines += [f".SS {heading}", table_of(first("table", section(using, f"### {heading}")))]
    refused = section(using, "### Why a command is refused")
    lines += [".SH REFUSALS", marked(first("text", refused)), table_of(first("table", refused))]
    lines += [".SH FAULTS OF A LINE", "The first of these that applies is the fault of a LINE that is no task:",
              table_of(first("table", section(using, "### Lines that are no command")))]
    lines += [".SH TEXTS OF ATTEMPTS", roff(section(rules, "### Texts of attempts"))]
    lines += [".SH HISTORIES OF A KEY-VALUE STORE", roff(section(rules, "### Histories of a key-value store"))]
    lines += [".SH EXAMPLES", code_of(first("code", section(using, "## `judge history`: whether a history is legal"))),
              ".SH SEE ALSO", f"{bold('judge')}(1), {bold('vacation')}(1)"]
    return "\n".join(lines) + "\n"


# Completions.

def flags_of(options):
    """The words of options, those that take something, and those that do not."""
    takes, plain_ones = [], []
    for flags, _ in options:
        words = re.findall(r"--?[\w-]+", flags)
        (takes if "<" in flags else plain_ones).extend(words)
    return takes, plain_ones


def completions(program, whole, commands):
    """Completions for bash: subcommands of a program, and the options of each."""
    names = [name for name, _ in whole.commands]
    takes = sorted({word for command in commands.values() for word in flags_of(command.options)[0]})
    cases = [("", [*names, *sum(flags_of(whole.options), [])])]
    cases += [(name, sum(flags_of(command.options), [])) for name, command in commands.items()]
    cases += [("help", [name for name in names if name != "help"])]
    lines = [f"# Completions of {program}(1) for bash, made from its help.", f"_{program}() {{",
             '    local words="" command=""',
             '    [ "$COMP_CWORD" = 1 ] || command="${COMP_WORDS[1]}"', "    COMPREPLY=()",
             '    case "${COMP_WORDS[COMP_CWORD - 1]}" in', f"        {' | '.join(takes)}) return ;;", "    esac",
             '    case "$command" in']
    for name, words in cases:
        pattern = name or '""'
        lines.append(f'        {pattern}) words="{" ".join(words)}" ;;')
    lines += ["    esac",
              '    mapfile -t COMPREPLY < <(compgen -W "$words" -- "${COMP_WORDS[COMP_CWORD]}")', "}",
              f"complete -F _{program} {program}"]
    return "\n".join(lines) + "\n"
