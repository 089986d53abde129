"""What a revision has, by list: its items with their contracts, definitions, laws, theorems, edits, tests and rows. Each entry is a name with
the lines that stand for it, in which neither comments nor spaces count."""

import io
import json
import re
import subprocess
import tarfile
from pathlib import Path

from quoting.quote import signature
from quoting.source import impl_of, parts_of

TOP = Path(__file__).resolve().parent.parent.parent
LISTS = "items definitions laws theorems edits tests rows".split()
OF_ITEMS = "fn struct enum trait type const use".split()
FOLDERS = "must-fail more-edits must-not-compile".split()
# The crates of theorems alone.
OF_THEOREMS = ("blocking_world_law_tests", "blocking_headline")
# The sections of docs/LAWS.md whose tables name laws.
TABLES = ("The headline", "Index")
DEFINED = re.compile(r"(?:abbrev (?:pub )?|pub \w+ |data |record )(\S+)|infix")


def files_at(revision):
    """The text of each file under `crates`, and of docs/LAWS.md, at a revision."""
    command = ["git", "-C", str(TOP), "archive", revision, "crates", "docs/LAWS.md"]
    packed = subprocess.run(command, stdout=subprocess.PIPE, check=True).stdout
    with tarfile.open(fileobj=io.BytesIO(packed)) as archive:
        members = [member for member in archive if member.isfile()]
        return {member.name: archive.extractfile(member).read().decode("utf-8", "replace") for member in members}


def plain(lines):
    """The lines without comments, and with one space between two words."""
    words = (" ".join(line.split()) for line in lines)
    return tuple(line for line in words if line and not line.startswith(("//", "-- ")))


def used(text):
    """The paths that a `use` brings, each by itself."""
    found = re.fullmatch(r"(.*?)\{(.*)\}", text)
    if not found:
        return [text]
    inner, depth = [""], 0
    for sign in found[2]:
        depth += {"{": 1, "}": -1}.get(sign, 0)
        inner = [*inner, ""] if sign == "," and depth == 0 else [*inner[:-1], inner[-1] + sign]
    return [path for name in inner if name.strip() for path in used(found[1] + name.strip())]


def attributes(part):
    """The attributes of what is declared."""
    return tuple(line for line in part.above if line.startswith("#["))


def contract(part):
    """What is declared, without the bodies of functions."""
    if part.kind == "fn":
        return attributes(part) + tuple(signature(part))
    if part.kind in ("trait", "impl") and part.lines[-1] == "}":
        opened = next(number for number, line in enumerate(part.lines) if line.endswith("{"))
        inner = [line for inner in part.inner() for line in contract(inner)]
        return attributes(part) + part.lines[: opened + 1] + tuple(inner)
    return attributes(part) + part.lines


def items_of(module, parts):
    """The public items among these parts, and what impls of traits promise."""
    for part in parts:
        if part.kind == "use" and part.is_public:
            text = "".join(line.strip() for line in part.lines)
            for path in used(text.removeprefix("pub use ").removesuffix(";")):
                yield f"{module}: use {path.split('::')[-1]}", [path.split("::")[-1]]
        elif part.kind in OF_ITEMS and part.is_public:
            yield f"{module}::{part.name}", contract(part)
        elif part.kind == "impl":
            of = impl_of(" ".join(part.lines))
            if of.trait:
                yield f"{module}: impl {of.trait} for {of.of}", contract(part)
            elif part.lines[-1] == "}" and part.lines[-1] != part.lines[0]:
                yield from items_of(f"{module}::{of.name()}", part.inner())


def tests_of(module, parts):
    """The tests among these parts, and the rows that they play."""
    for part in parts:
        if part.kind == "const" or part.kind == "fn" and "#[test]" in part.above:
            yield f"{module}::{part.name}", part.lines


def module_of(path):
    """The module that a source is."""
    _, crate, _, *inner = path.removesuffix(".rt").split("/")
    return "::".join([crate, *(name for name in inner if name not in ("lib", "main"))])


def sources(files):
    """What the sources declare: the list, and each entry with its lines."""
    for path, text in files.items():
        if re.match(r"crates/\w+/src/.*\.rt$", path):
            module, parts = module_of(path), list(parts_of(text.splitlines()))
            crate = module.split("::")[0]
            if crate.endswith("_tests") and crate not in OF_THEOREMS:
                yield from (("tests", *test) for test in tests_of(module, parts))
            else:
                of = "theorems" if crate in OF_THEOREMS else "items"
                yield from ((of, *item) for item in items_of(module, parts))


def definitions_of(text):
    """The definitions of a file of specs: each with all lines up to the next."""
    name, lines = None, []
    for line in text.splitlines():
        if line.startswith("pub use "):
            yield from ((f"use {path}", [path]) for path in used(line.removeprefix("pub use ")))
            continue
        found = DEFINED.match(line)
        if found or line.startswith("use "):
            if name:
                yield name, lines
            name, lines = (found[1] or line if found else None), []
        lines.append(line)
    if name:
        yield name, lines


def unbroken(lines):
    """The lines as one, as the layout has what stands on one line: no space inside brackets, and no sign behind their last part."""
    text = re.sub(r"([(\[{]) ", r"\1", " ".join(plain(lines)))
    return [re.sub(r"[,;]? ?([)\]}])", r"\1", text)]


def specs(files):
    """The definitions of each crate's specs. Those of blocking_world_laws are laws."""
    for path, text in files.items():
        found = re.match(r"crates/(\w+)/specs/(.*)\.antt$", path)
        if found:
            of = "laws" if found[1] == "blocking_world_laws" else "definitions"
            yield from ((of, f"{found[1]} {found[2]}.{name}", unbroken(lines)) for name, lines in definitions_of(text))


def laws(files):
    """The laws as docs/LAWS.md names them: its headings, and the rows of its tables of laws."""
    section = ""
    for line in files.get("docs/LAWS.md", "").splitlines():
        if line.startswith("## "):
            section = line.removeprefix("## ")
            name, _, says = section.partition(": ")
            yield "laws", f"LAWS.md {name}", [says]
        elif line.startswith("| ") and section.startswith(TABLES):
            cells = re.split(r"(?<!\\)\|", line)[1:-1]
            at = 2 if section.startswith("Index") else 1
            yield "laws", f"LAWS.md, {section.split(':')[0].split(',')[0]}:{'→'.join(cells[:at])}".rstrip(), cells[at:]


def edits(files):
    """The edits, by their names."""
    for path, text in files.items():
        found = re.match(rf"crates/(\w+)/({'|'.join(FOLDERS)})/(.*)\.edit$", path)
        if found:
            yield "edits", " ".join(found.groups()), text.splitlines()


def rows(files):
    """The rows of crates/NAME/stored, and what each program writes for its words."""
    for path, text in files.items():
        if re.match(r"crates/\w+/stored/.*\.json$", path):
            yield from (("rows", f"{path}: {row['name']}", [json.dumps(row)]) for row in json.loads(text))
        elif re.match(r"crates/\w+/stored/", path):
            for row in re.split(r"^==== ", text, flags=re.M)[1:]:
                name, *lines = row.splitlines()
                yield "rows", f"{path}: {name}", lines
        elif re.match(r"crates/\w+/(args|stdin|stdout)$", path):
            yield "rows", path, text.splitlines()


def lists_at(revision):
    """Each list of a revision: the lines of an entry by its name. What has the same name twice is one entry."""
    files, lists = files_at(revision), {name: {} for name in LISTS}
    for kind in (sources, specs, laws, edits, rows):
        for of, name, lines in kind(files):
            lists[of][name] = lists[of].get(name, ()) + plain(lines)
    return lists
