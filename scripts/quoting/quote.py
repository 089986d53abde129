"""How an item is quoted: the first sentence of its comment, and what its source says of it but for bodies and what is private."""

import re
import textwrap

from .source import CRATES, Unknown, declared, impl_of

WIDE = 110
LINK = re.compile(r"\[(`[^`]*`)\](?:\([^)]*\))?")
SENTENCE = re.compile(r".*?[.?!](?=\s|$)")


def first_sentence(part):
    """The first sentence of a comment, as lines of a comment."""
    said = []
    for line in part.above:
        if line == "///":
            break
        if line.startswith("///"):
            said.append(line.removeprefix("///").strip())
    text = LINK.sub(r"\1", " ".join(said))
    found = SENTENCE.match(text)
    sentence = found.group() if found else text
    return textwrap.wrap(sentence, WIDE, initial_indent="/// ", subsequent_indent="/// ", break_long_words=False, break_on_hyphens=False)


def derives(part):
    """The traits that are derived, as they stand in the source."""
    return [line for line in part.above if line.startswith("#[derive")]


def indented(lines):
    """The lines, one step further right."""
    return [f"    {line}" if line else "" for line in lines]


def enclosed(head, inner):
    """What stands in braces, behind its head."""
    return [*head, *indented(inner), "}"] if inner else [*head[:-1], f"{head[-1]} .. }}"]


def spaced(blocks):
    """The lines of all blocks, with an empty one between two blocks if one of them has several lines."""
    lines, before = [], []
    for block in blocks:
        if lines and (len(block) > 1 or len(before) > 1):
            lines.append("")
        lines += block
        before = block
    return lines


def signature(part):
    """A function without its body, and with its contract."""
    lines = []
    for line in part.head():
        if not line.startswith(" ") and line.endswith((" {", " {}")):
            return [*lines, line[: line.rindex(" {")]]
        lines.append(line)
    return lines


def function(part):
    return first_sentence(part) + signature(part)


def has_contract(part):
    """Whether a function states something of its own."""
    return any(line.startswith(("    requires", "    ensures")) for line in signature(part))


def type_head(part):
    """The lines of a type, a trait or an impl to its opening brace."""
    for number, line in enumerate(part.lines):
        if line.endswith("{"):
            return list(part.lines[: number + 1])
    return list(part.lines)


def struct(part):
    """A struct with the fields that users name."""
    above, head = first_sentence(part) + derives(part), type_head(part)
    if not head[-1].endswith("{"):
        # (fields without names are private here)
        return above + [re.sub(r"\(.+\);$", "(..);", line) for line in head]
    fields = [line.strip() for line in part.lines[len(head) : -1] if line.startswith("    pub ")]
    return above + enclosed(head, fields)


def enum(part):
    """An enum with its variants."""
    above, head = first_sentence(part) + derives(part), type_head(part)
    if not head[-1].endswith("{"):
        return above + head
    variants = [line.removeprefix("    ") for line in part.lines[len(head) : -1]]
    return above + enclosed(head, [line for line in variants if line and not line.lstrip().startswith("//")])


def member(part):
    """A member of a trait."""
    return function(part) if part.kind == "fn" else first_sentence(part) + list(part.lines)


def members(part):
    """The members of a trait, with their names."""
    if type_head(part)[-1].endswith("{"):
        yield from ((inner.name, member(inner)) for inner in part.inner() if inner.kind != "ghost use")


def own_members(part):
    """What an impl that is of no trait gives to users, with the names."""
    return [(inner.name, function(inner)) for inner in part.inner() if inner.kind == "fn" and inner.is_public]


def members_of_trait(part, name):
    """What an impl of this trait says that the trait doesn't: its types, its rules, and the contracts that are its own."""
    for inner in part.inner() if type_head(part)[-1].endswith("{") else ():
        if name == "Model":
            if inner.name == "Value":
                yield inner.name, list(inner.lines)
        elif name.startswith("Carries"):
            return
        elif inner.kind in ("ghost", "type"):
            yield inner.name, list(inner.lines)
        elif inner.kind == "fn" and has_contract(inner):
            yield inner.name, signature(inner)


def is_of(part, item):
    """Whether a part is an impl of a type."""
    return part.kind == "impl" and part.name == item.part.name


def files_of(item):
    """The sources in which impls of a type are looked for: its own, and those of its crate, if none of them has its name too."""
    folder = next(folder for folder in item.file.parents if folder.name == "src")
    files = sorted(folder.rglob("*.rt"))
    same = [file for file in files if any(part.name == item.part.name and part.kind in ("struct", "enum") for part in declared(file))]
    return [item.file] if len(same) > 1 else files


def impls(item):
    """The impls of a type, each with its trait, its head, and what it says, with the names."""
    for file in files_of(item):
        for part in declared(file):
            if is_of(part, item):
                name = impl_of(" ".join(part.lines)).trait
                yield name, type_head(part), list(members_of_trait(part, name)) if name else own_members(part)


def in_impl(head, inner):
    """An impl or a trait with these members."""
    return enclosed(head, spaced(lines for _, lines in inner))


def quoted_type(item):
    """A type with all that is had of it."""
    of_type = struct(item.part) if item.part.kind == "struct" else enum(item.part)
    found = list(impls(item))
    bare = [name for name, _, inner in found if name and not inner]
    lines = spaced([of_type, *(in_impl(head, inner) for _, head, inner in found if inner)])
    return [*lines, f"// Besides: {', '.join(bare)}"] if bare else lines


def quoted_trait(part):
    """A trait with its members."""
    head = type_head(part)
    return first_sentence(part) + (in_impl(head, members(part)) if head[-1].endswith("{") else head)


def with_members(item):
    """The trait, or each impl of the type: its head, and its members with their names."""
    part = item.part
    return [(type_head(part), list(members(part)))] if part.kind == "trait" else [(head, inner) for _, head, inner in impls(item)]


def quoted_members(item, names):
    """These members alone of a type or a trait, each under the head of what it stands in."""
    kept = [(head, [(name, lines) for name, lines in inner if name in names]) for head, inner in with_members(item)]
    return spaced(in_impl(head, inner) for head, inner in kept if inner)


def member_lines(item, wanted):
    """The lines of a member, as they stand in such a quote."""
    found = (indented(lines) for _, inner in with_members(item) for name, lines in inner if name == wanted)
    lines = next(found, None)
    if lines is None:
        raise Unknown(f"{item.part.name} has no member {wanted}")
    return lines


def quoted(item, names=()):
    """The lines of an item, or of these of its members alone."""
    part = item.part
    if names:
        return quoted_members(item, names)
    if part.kind in ("struct", "enum"):
        return quoted_type(item)
    if part.kind == "trait":
        return quoted_trait(part)
    return function(part) if part.kind == "fn" else first_sentence(part) + list(part.lines)


def by_file(quotes):
    """Quotes, each given with its source and its name, that stand in a row in one source: the source, and the lines by the names."""
    runs = []
    for file, name, lines in quotes:
        path = file.relative_to(CRATES)
        if not runs or runs[-1][0] != path:
            runs.append((path, {}))
        runs[-1][1][name] = lines
    return runs


def joined(blocks):
    """Blocks of lines, with an empty one between two of them."""
    lines = []
    for inner in blocks:
        lines += [""] * bool(lines) + list(inner)
    return lines


def block(lines):
    """Lines of code, in a page."""
    return ["```rust", *lines, "```"]


def whole_part(part):
    """A part as it stands in its source."""
    return [*part.above, *part.lines]


def is_used_by_caller(part, names):
    """Whether a part is one of these; `use` stands for all lines that say what is used."""
    return "use" in names if part.kind.endswith("use") else part.name in names and part.kind in ("fn", "struct", "enum", "impl")


def caller(path, names):
    """What has these names in a source, as it stands there."""
    parts = [part for part in declared(CRATES / path) if is_used_by_caller(part, names)]
    missing = set(names) - {part.name for part in parts} - {"use"}
    if missing:
        raise Unknown(f"{path} has no {', '.join(sorted(missing))}")
    return block(spaced(whole_part(part) for part in parts))
