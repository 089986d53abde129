"""The full pages, which are written on request: each public item of a crate, in its group."""

from collections import Counter

from .groups import CALLERS, LEFT, grouped, left_to_other
from .public import public
from .quote import block, by_file, caller, joined, quoted

BEGIN = """# Contracts of `{crate}`

`scripts/quote-contracts` wrote this page from the sources. `crates/blocking/CALLING.md` says how to read a contract."""


def named(file):
    """The line that names a source."""
    return f"`crates/{file}`:"


def of_group(crate, names):
    """What a full page has of a group."""
    items, left = public(crate), left_to_other(crate)
    here = {name: items[name] for name in names if items[name] not in left}
    blocks = []
    for file, quotes in by_file((items[name].file, name, quoted(item)) for name, item in here.items()):
        blocks += [[named(file)], block(joined(quotes.values()))]
    there = [f"`{left[items[name]]}`" for name in names if items[name] in left]
    if there:
        other = LEFT[crate][0]
        blocks.append([f"In [{other}.md]({other}.md): {', '.join(there)}."])
    return blocks


def full_page(crate):
    """The text of a crate's full page, how many items are in one of its groups, and what is wrong with these."""
    groups, wrong = grouped(crate)
    blocks = [BEGIN.format(crate=crate).split("\n"), ["## Callers"]]
    for words in CALLERS[crate]:
        path, *names = words.split()
        blocks += [[named(path)], caller(path, names)]
    for group, names in groups.items():
        blocks += [[f"## {group.capitalize()}"], *of_group(crate, names)]
    counts = Counter(name for names in groups.values() for name in names)
    return "\n".join([*joined(blocks), ""]), list(counts.values()).count(1), wrong
