"""The committed pages for callers: what stands between their marks, and whether it is what the sources say."""

import re
from dataclasses import dataclass

from .public import public
from .quote import block, by_file, caller, joined, member_lines, quoted
from .source import CRATES, Unknown

MARK = re.compile(r"<!-- quoted: (?P<what>[^\n]+?) -->\n(?P<text>(?:(?!<!-- quoted).)*?)<!-- end -->", re.S)
# What stands between marks alone.
MARKED = re.compile(r"^(?:```rust|<!-- quoted|<!-- end)", re.M)


class Unfit(Exception):
    """What is wrong with a page's marks."""


@dataclass
class Quote:
    """What is to stand between two marks: all of it, and the lines of each item or member."""

    lines: list
    parts: dict

    def text(self):
        return "\n".join(["", *self.lines, "", ""])


def page_of(crate):
    """The page of a crate."""
    return CRATES / crate / "CALLING.md"


def linked(file):
    """The line that names a source, as a link from a page in a crate's folder."""
    return f"[`{file}`](../{file}):"


def looked_up(crate, word):
    """The item that a word of a mark names, and the members that it names of it, if any."""
    name, _, members = word.partition(".")
    items = public(crate)
    if name not in items:
        raise Unknown(f"{crate}: a mark of its page names {name}, which isn't public there")
    return items[name], members.split(",") if members else []


def parts_of(word, item, members):
    """The lines of an item that a word names, or of each member that it names."""
    name = word.partition(".")[0]
    return {f"{name}.{member}": member_lines(item, member) for member in members} if members else {name: quoted(item)}


def quote_of(crate, what):
    """What is quoted by a mark: parts of a program that calls, or items."""
    if what.startswith("caller "):
        path, *names = what.split()[1:]
        lines = caller(path, names)
        return Quote(joined([[linked(path)], lines]), {f"the caller of {path}": lines})
    found = [(word, *looked_up(crate, word)) for word in what.split()]
    blocks = []
    for file, quotes in by_file((item.file, word, quoted(item, members)) for word, item, members in found):
        blocks += [[linked(file)], block(joined(quotes.values()))]
    return Quote(joined(blocks), {name: lines for triple in found for name, lines in parts_of(*triple).items()})


def rewritten(crate):
    """A committed page with all that it quotes as it stands in the sources now, and the quotes with what stands there."""
    text = page_of(crate).read_text(encoding="utf-8")
    stray = MARKED.search(MARK.sub("", text))
    if stray:
        raise Unfit(f"crates/{crate}/CALLING.md: '{stray.group()}' stands outside of a pair of marks")
    made = [(quote_of(crate, found["what"]), found["what"], found["text"]) for found in MARK.finditer(text)]
    quotes = iter(made)
    return MARK.sub(lambda found: f"<!-- quoted: {found['what']} -->\n{next(quotes)[0].text()}<!-- end -->", text), made


def differing(crate):
    """What a committed page quotes otherwise than it stands in the sources, and how many quotes it has."""
    _, made = rewritten(crate)
    wrong = []
    for quote, what, stands in made:
        if stands != quote.text():
            parts = [part for part, lines in quote.parts.items() if "\n".join(lines) not in stands]
            wrong += parts or [f"what stands round '{what}'"]
    return wrong, sum(len(quote.parts) for quote, _, _ in made)
