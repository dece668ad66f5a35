#!/usr/bin/env python3
"""Packs the programs, which are built already, with their pages, their manual, the benchmark with its peers, the
interface and the templates, as a tarball and as a package for Debian, with their sums. Its arguments are the
programs vacation and judge, and the folder that gets them. The same commit and the same programs give the same bytes:
owners, modes, times and orders are fixed."""

import gzip
import hashlib
import io
import os
import re
import subprocess
import sys
import tarfile
import tempfile
import time
from pathlib import Path
from shutil import which

import crate_pages
import manual

ROOT = Path(__file__).resolve().parent.parent
PAGES = ("CHECK-STM.md", "CHECK-DATA.md", "EXPLAIN.md", "LOGS.md", "EVENTS.md", "DATABASES.md", "USING.md", "RULES.md",
         "PROMISES.md", "THEOREM.md", "GLOSSARY.md", "MEASURED.md")
# Pages beside what they are about.
OTHER_PAGES = ("benchmark/README.md", "benchmark/databases/README.md")
LICENSES = ("LICENSE-MIT", "LICENSE-APACHE")
# What is packed as it stands in the tree, beside pages and licenses: folders, files and pictures.
AS_IT_STANDS = ("benchmark", "explain", "tools/explaining", "convert", "tools/converting", "include", "share",
                "docs/*.svg", "docs/anomaly", "docs/histories", "docs/measured.csv", "docs/clauses.txt")
# The headings of the page on how to use the programs whose examples the manual pages show.
EXAMPLES = {"vacation": ["## `run`: commands and their replies"],
            "judge": ["## `judge history`: whether a history is legal"]}
# Stands behind the words of a link to a page that is not packed.
ELSEWHERE = " [in the source tree]"
# Debian has a package named vacation already, which answers letters.
DEBIAN_NAME = "pighvelo"
PROGRAM_MODE, TEXT_MODE = 0o755, 0o644


def said(*words):
    """What a command writes to standard output."""
    return subprocess.run(words, cwd=ROOT, stdin=subprocess.DEVNULL, stdout=subprocess.PIPE, text=True,
                          check=True).stdout


def page(name):
    return (ROOT / name).read_text(encoding="utf-8")


class Release:
    """What is packed: the programs by their names, what they say of themselves, and the commit."""

    def __init__(self, program, judge):
        self.program = Path(program).resolve()
        files = {"vacation": self.program, "judge": Path(judge).resolve()}
        self.programs = {name: file.read_bytes() for name, file in files.items()}
        first, *kit = said(self.program, "--version").splitlines()
        self.title, self.version, self.kit = first, first.split()[-1], " ".join(kit)
        git = ("git", "-c", f"safe.directory={ROOT}")
        self.commit, seconds = said(*git, "log", "-1", "--format=%H %ct").split()
        self.seconds = int(seconds)
        self.is_changed = said(*git, "status", "--porcelain") != ""
        self.wholes = {name: manual.read_help(said(file, "--help")) for name, file in files.items()}
        self.commands = {name: {command: manual.read_help(said(files[name], command, "--help"))
                                for command, _ in whole.commands if command != "help"}
                         for name, whole in self.wholes.items()}

    def library(self):
        """The version of the C library that the programs ask for."""
        asked = [found for data in self.programs.values() for found in re.findall(rb"\0GLIBC_(\d+)\.(\d+)", data)]
        return "{}.{}".format(*max((int(major), int(minor)) for major, minor in asked))


def rows_as_text(table):
    """Each row of a table as an item: its first cell, and the others behind the names of their columns."""
    (_, *names), *rows = table
    items = ([f"{first}.", *(f"{name}: {cell}." for name, cell in zip(names, cells))] for first, *cells in rows)
    return "".join(manual.wrapped(" ".join(words), "- ") + "\n" for words in items)


def proved(release):
    """What the program was made of, what is promised of it, and on what that rests."""
    changed = ", with changes that are not committed" if release.is_changed else ""
    sums = [f"sha256 {hashlib.sha256(data).hexdigest()}" + ("" if name == "vacation" else f" {name}")
            for name, data in release.programs.items()]
    text = "\n".join([release.title, f"commit {release.commit}{changed}", release.kit, *sums, ""])
    text += "\n" + manual.wrapped(
        "The program tells its version, and that of the prover and its logic, itself (`vacation --version`). That"
        " it was built in the tree of this commit is the word of whoever packed it. Promises and assumptions are"
        " those of the first page of the source tree, its `README.md`; pages named here that are not beside this"
        " file stand there.") + "\n"
    for heading in ("## What is proved", "## What is trusted"):
        title = heading.removeprefix("## ")
        text += f"\n\n{title}\n{'=' * len(title)}\n"
        before = None
        for kind, block in manual.blocks(manual.section(page("README.md"), heading)):
            text += "\n" if kind != "item" or before != "item" else ""
            before = kind
            if kind == "item":
                text += manual.wrapped(block, "- ") + "\n"
            elif kind == "text":
                text += manual.wrapped(block) + "\n"
            elif kind == "table":
                text += rows_as_text(block)
    return text


README = """# {title}

A travel reservation system on a software transactional memory (`vacation`), and a judge of histories and attempts of other runtimes (`judge`). The programs are proved. Type the commands of the pages in this folder.

| You are .. | Begin with .. |
|---|---|
| the author of a transactional memory or a runtime | [Check your transactional memory](docs/CHECK-STM.md), [Logs](docs/LOGS.md) |
| a database engineer | [Databases under faults](docs/DATABASES.md), [Why a log is illegal](docs/EXPLAIN.md) |
| somebody with logs of a key-value store or a map | [Check your store, queue or map](docs/CHECK-DATA.md) |
| a reader of the theorem | [Theorem](docs/THEOREM.md), [Promises](docs/PROMISES.md), [every clause](docs/clauses.txt), `docs/contracts` |
| a user of the programs | [Using the programs](docs/USING.md), [Rules](docs/RULES.md), `man -l share/man/man1/judge.1` |
| somebody who doubts the numbers | [Measured](docs/MEASURED.md), [The benchmark](benchmark/README.md) |

**What is proved** is said in [PROVED](PROVED), with the commit, the toolchain and the assumptions. It is said of {programs} alone. Not proved: the scripts `explain` and `convert`, and all of `benchmark`, `include` and `share`; they are tested.

**Source.** Specifications, proofs and tests are in the source tree, in the language Rattle. The source tree and Rattle have no public address yet: ask whoever gave you this folder. The pages are those of the source tree. Only there is what they name below `crates/`, `tests/` and `tools/` (except `tools/explaining` and `tools/converting`), and `./dev`, `./test`, and pages that `docs` here does not have. The judge of a queue and `tools/new_object` are there too; `rt` is Rattle's.
"""


def readme(release):
    """The first page of what is packed: who begins where, what is proved, and what is not here."""
    return README.format(title=release.title, programs=" and ".join(f"`{name}`" for name in release.programs))


def files_as_they_stand():
    """The files of the tree that are packed without a change, each with its mode."""
    git = ("git", "-c", f"safe.directory={ROOT}", "ls-files", "--cached", "--others", "--exclude-standard")
    names = [name for name in said(*git, *AS_IT_STANDS).splitlines() if not name.endswith(".md")]
    return {name: PROGRAM_MODE if os.access(ROOT / name, os.X_OK) else TEXT_MODE for name in names}


def without_dead_links(name, text, packed):
    """The text of a page, in which links to what is not packed are plain words. A page by hand says where the
    target is; the pages of the crates have thousands of such links."""
    elsewhere = "" if name.startswith("docs/contracts/") else ELSEWHERE

    def kept(link):
        mark, words, target = link.groups()
        path = os.path.normpath(os.path.join(os.path.dirname(name), target.partition("#")[0] or os.path.basename(name)))
        if re.match(r"https?:", target) or path in packed:
            return link.group(0)
        return "" if mark else words + elsewhere

    return re.sub(r"(!?)\[([^\]]*)\]\(([^)\s]+)\)", kept, text)


def pages():
    """The pages that are packed, and those of the crates, which are made here."""
    found = {name: page(name) for name in (*OTHER_PAGES, *(f"docs/{name}" for name in PAGES))}
    found |= {f"docs/contracts/{name}": text for name, text in crate_pages.pages().items()}
    packed = {*found, *files_as_they_stand()}
    return {name: without_dead_links(name, text, packed) for name, text in found.items()}


def texts(release):
    """What goes beside the program, by its place in the tarball: bytes and mode."""
    day = time.strftime("%Y-%m-%d", time.gmtime(release.seconds))
    using, rules = page("docs/USING.md"), page("docs/RULES.md")
    history = manual.history_page(rules, using, page("docs/LOGS.md"), release.title, day)
    share = {"man/man5/vacation-history.5": history}
    for name, whole in release.wholes.items():
        share[f"man/man1/{name}.1"] = manual.program_page(
            name, whole, release.commands[name], using, release.title, day, EXAMPLES[name])
        share[f"bash-completion/completions/{name}"] = manual.completions(name, whole, release.commands[name])
    made = {f"share/{name}": text.encode() for name, text in share.items()}
    made["PROVED"] = proved(release).encode()
    made["README.md"] = readme(release).encode()
    files = {name: (data, TEXT_MODE) for name, data in made.items()}
    for name in LICENSES:
        files[name] = ((ROOT / name).read_bytes(), TEXT_MODE)
    for name, text in pages().items():
        files[name] = (text.encode(), TEXT_MODE)
    for name, mode in files_as_they_stand().items():
        files[name] = ((ROOT / name).read_bytes(), mode)
    return files


def folders_of(names):
    """All folders above the files, each above those in it."""
    return sorted({str(folder) for name in names for folder in Path(name).parents if str(folder) != "."})


def zipped(data, seconds):
    """Compressed, without the name of a file."""
    out = io.BytesIO()
    with gzip.GzipFile(filename="", mode="wb", compresslevel=9, fileobj=out, mtime=seconds) as file:
        file.write(data)
    return out.getvalue()


def tarball(files, seconds):
    """A tarball of files by name, with their bytes and modes."""
    out = io.BytesIO()
    with tarfile.open(fileobj=out, mode="w", format=tarfile.USTAR_FORMAT) as tar:
        for name in sorted([*files, *folders_of(files)]):
            entry = tarfile.TarInfo(name)
            entry.uname = entry.gname = "root"
            entry.mtime = seconds
            if name in files:
                data, entry.mode = files[name]
                entry.size = len(data)
                tar.addfile(entry, io.BytesIO(data))
            else:
                entry.type, entry.mode = tarfile.DIRTYPE, PROGRAM_MODE
                tar.addfile(entry)
    return zipped(out.getvalue(), seconds)


COPYRIGHT = """Format: https://www.debian.org/doc/packaging-manuals/copyright-format/1.0/

Files: *
Copyright: {holder}
License: MIT or Apache-2.0
 As the user likes: LICENSE-MIT and LICENSE-APACHE stand beside this file.
"""

CONTROL = """Package: {name}
Version: {version}
Architecture: amd64
Maintainer: the Pighvelo authors <pighvelo@localhost>
Installed-Size: {size}
Depends: libc6 (>= {library})
Conflicts: vacation
Section: devel
Priority: optional
Description: {about}, and a proved judge of histories
 A program that is proved from the atomic step up to the bytes of a reply. The
 program judge says whether the calls that another runtime or database has
 logged are right: whether they have a linearization.
"""


def debian_files(release, files):
    """Where Debian has each file of the tarball."""
    documents = f"usr/share/doc/{DEBIAN_NAME}"
    holder = re.search(r"^Copyright \(c\) (.+)$", page("LICENSE-MIT"), flags=re.M).group(1)
    found = {f"usr/bin/{name}": (data, PROGRAM_MODE) for name, data in release.programs.items()}
    found[f"{documents}/copyright"] = (COPYRIGHT.format(holder=holder).encode(), TEXT_MODE)
    for name, (data, mode) in files.items():
        if name.startswith("share/man/"):
            found[f"usr/{name}.gz"] = (zipped(data, release.seconds), mode)
        else:
            found[f"usr/{name}" if name.startswith("share/") else f"{documents}/{name}"] = (data, mode)
        if name.startswith("include/"):
            found[f"usr/include/vacation/{Path(name).name}"] = (data, mode)
    return found


def debian(release, files, place):
    """Has Debian's own program make the package."""
    size = sum(-(-len(data) // 1024) for data, _ in files.values())
    sums = "".join(f"{hashlib.md5(data).hexdigest()}  {name}\n" for name, (data, _) in sorted(files.items()))
    control = CONTROL.format(name=DEBIAN_NAME, version=release.version, size=size, library=release.library(),
                             about=release.wholes["vacation"].about)
    files = {**files, "DEBIAN/control": (control.encode(), TEXT_MODE), "DEBIAN/md5sums": (sums.encode(), TEXT_MODE)}
    with tempfile.TemporaryDirectory() as temporary:
        tree = Path(temporary) / "tree"
        for name, (data, mode) in files.items():
            (tree / name).parent.mkdir(parents=True, exist_ok=True)
            (tree / name).write_bytes(data)
            (tree / name).chmod(mode)
        for name in [*files, *reversed(folders_of(files)), "."]:
            if (tree / name).is_dir():
                (tree / name).chmod(PROGRAM_MODE)
            os.utime(tree / name, (release.seconds, release.seconds))
        subprocess.run(["dpkg-deb", "--root-owner-group", "-Zgzip", "--build", tree, place],
                       stdout=subprocess.DEVNULL, check=True,
                       env={**os.environ, "SOURCE_DATE_EPOCH": str(release.seconds)})


def main():
    program, judge, folder = sys.argv[1:]
    folder, release = Path(folder), Release(program, judge)
    files = texts(release)
    name = f"vacation-{release.version}-x86_64-linux"
    folder.mkdir(parents=True, exist_ok=True)
    programs = {name: (data, PROGRAM_MODE) for name, data in release.programs.items()}
    made = {f"{name}.tar.gz": tarball(
        {f"{name}/{file}": entry for file, entry in {**files, **programs}.items()}, release.seconds)}
    package = f"vacation_{release.version}_amd64.deb"
    (folder / package).unlink(missing_ok=True)
    if which("dpkg-deb"):
        debian(release, debian_files(release, files), folder / package)
        made[package] = (folder / package).read_bytes()
    else:
        print("package: dpkg-deb is missing: there is no package for Debian", file=sys.stderr)
    (folder / f"{name}.tar.gz").write_bytes(made[f"{name}.tar.gz"])
    sums = "".join(f"{hashlib.sha256(data).hexdigest()}  {file}\n" for file, data in sorted(made.items()))
    (folder / "SHA256SUMS").write_text(sums, encoding="ascii")
    print(sums, end="")


if __name__ == "__main__":
    try:
        main()
    except (OSError, ValueError, AttributeError, subprocess.CalledProcessError) as fault:
        sys.exit(f"package: {fault}")
