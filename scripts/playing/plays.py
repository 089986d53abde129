"""The stored scripts of blk_play. `scripts/stored-plays` says their form."""

import re
import sys
from pathlib import Path

STORED = Path(__file__).resolve().parents[2] / "crates" / "blk_play" / "stored"
ARROW = " => "
# The first words of lines that count on a time by the clock.
CLOCKS = {"clock", "within", "passed", "tries", "sleeps", "pause"}
# A handle of ten million bytes and more.
LONG = re.compile(r"\b(count|cycle) \d{8,}")


class Play:
    """A stored script: its name, its text, what it must show, and its status."""

    def __init__(self, stored):
        name, *lines = stored.splitlines()
        found = re.fullmatch(r"(.*?)(?: \[(\d)\])?", name)
        self.name, self.status = found[1], int(found[2] or 0)
        pairs = [line.partition(ARROW) for line in lines]
        self.text = "".join(f"{words}\n" for words, _, _ in pairs)
        self.shown = [shown for _, _, shown in pairs if shown]

    def is_clocked(self):
        """Whether a line of it counts on a time by the clock."""
        lines = [line.split(" ") for line in self.text.splitlines()]
        return any(words[0] in CLOCKS or words[0] == "repeat" and "late" in words for words in lines)

    def is_long(self):
        """Whether so many bytes move that a build without proofs takes minutes."""
        return LONG.search(self.text) is not None

    def difference(self, status, shown):
        """What isn't as it must be where a run shows these lines; an empty text where all is."""
        if (status, shown) == (self.status, self.shown):
            return ""
        pairs = enumerate(zip(shown + ["(nothing)"], self.shown + ["(nothing)"]), 1)
        place, (found, wanted) = next(((at, pair) for at, pair in pairs if pair[0] != pair[1]), (0, ("", "")))
        return f"status {status}, line {place} of what is shown: {found!r}, not {wanted!r}\n  {shown[-2:]}"


def stored_plays(files="*.plays"):
    """The scripts of these files, by file and place."""
    plays = []
    for file in sorted(STORED.glob(files)):
        plays += [Play(stored) for stored in file.read_text("utf-8").split("==== ")[1:]]
    names = [play.name for play in plays]
    if len(set(names)) < len(names):
        sys.exit(f"two stored scripts have one name: {max(names, key=names.count)}")
    return plays
