"""Puts what was measured into the project's pages, in the place of what stands there between two marks."""

BEGIN, END = "<!-- measured by benchmark/run --pages -->", "<!-- end -->"


def put(path, lines):
    """The lines take the place of those between the marks, once in the page."""
    before, begin, rest = path.read_text(encoding="utf-8").partition(BEGIN)
    _, end, behind = rest.partition(END)
    if not begin or not end:
        raise ValueError(f"{path.name} has no marks for what was measured")
    text = "\n".join(lines).strip("\n")
    path.write_text(f"{before}{BEGIN}\n\n{text}\n\n{END}{behind}", encoding="utf-8")


def below(lines):
    """The lines of a page of its own as those of a section: without its title, headings one level deeper."""
    return [f"#{line}" if line.startswith("#") else line for line in lines[1:]]
