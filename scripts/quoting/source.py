"""The sources of a crate, cut into what is declared in them. They are in the layout of `rt fmt`, on which this relies."""

import re
from dataclasses import dataclass
from functools import cache
from pathlib import Path

CRATES = Path(__file__).resolve().parent.parent.parent / "crates"
KIND = re.compile(r"(?P<pub>pub )?(?:pub\([a-z]+\) )?(?:final )?(?P<kind>fn|struct|enum|trait|type|const|mod|use|impl|ghost use|ghost)\b")
NAME = re.compile(r"\W*(\w+)")


class Unknown(Exception):
    """A name that isn't there."""


@dataclass(frozen=True)
class Part:
    """What is declared at one place: its kind and name, the lines above it that belong to it, and its own, none of them indented."""

    kind: str
    name: str
    is_public: bool
    above: tuple
    lines: tuple

    def head(self):
        """The lines above the brace by itself that begins a body, or all."""
        return self.lines[: body_at(self.lines)]

    def inner(self):
        """What is declared in it."""
        opened = next(number for number, line in enumerate(self.lines) if line.endswith("{"))
        return parts_of([line.removeprefix("    ") for line in self.lines[opened + 1 : -1]])


@dataclass(frozen=True)
class Impl:
    """What an impl is of: the trait, if it is of one, and the type."""

    trait: str
    of: str

    def name(self):
        return NAME.match(self.of).group(1)


def body_at(lines):
    """How many lines stand above the line of a brace by itself, if there is such a line."""
    return next((number for number, line in enumerate(lines) if line in ("{", "{}")), len(lines))


def is_end(lines):
    """Whether a declaration is whole with the last of these lines."""
    last = lines[-1]
    if last.startswith(" "):
        # (a clause, or a type that has several lines; a body is open once a line at the left ended with a brace)
        is_open = any(line.endswith("{") and not line.startswith(" ") for line in lines)
        depth = sum(line.count("{") - line.count("}") for line in lines)
        return not is_open and depth == 0 and last.endswith(";")
    return last.endswith((";", "}"))


def named(kind, line, rest):
    """The name of what is declared: that of the type for an impl."""
    return impl_of(line).name() if kind == "impl" else NAME.match(rest).group(1)


def parts_of(lines):
    """What these lines declare at the left, in their order."""
    above, own = [], []
    for line in lines:
        if not own:
            if not KIND.match(line):
                above = above + [line] if line.startswith(("//", "#[")) and not line.startswith("//!") else []
                continue
        own.append(line)
        if is_end(own):
            found = KIND.match(own[0])
            kind = found["kind"]
            name = named(kind, " ".join(own), " ".join(own)[found.end() :])
            yield Part(kind, name, bool(found["pub"]), tuple(above), tuple(own))
            above, own = [], []


def without_brackets(text):
    """The text after the angle brackets with which it begins."""
    depth = 0
    for place, sign in enumerate(text.replace("->", "  ")):
        depth += {"<": 1, ">": -1}.get(sign, 0)
        if depth == 0:
            return text[place + 1 :] if sign == ">" else text
    return text


def outside(text, word):
    """Where the word stands in a text outside of all angle brackets, or -1."""
    depth = 0
    for place, sign in enumerate(text.replace("->", "  ")):
        depth += {"<": 1, ">": -1}.get(sign, 0)
        if depth == 0 and text.startswith(word, place):
            return place
    return -1


def impl_of(line):
    """What an impl is of, by its head in one line."""
    text = without_brackets(line.removeprefix("impl")).strip()
    text = text[: outside(text, "{")]
    text = text if outside(text, " where ") < 0 else text[: outside(text, " where ")]
    at = outside(text, " for ")
    trait, of = ("", text) if at < 0 else (text[:at], text[at + 5 :])
    return Impl(" ".join(trait.split()), " ".join(of.split()))


@cache
def declared(file):
    """What a source declares."""
    return tuple(parts_of(file.read_text(encoding="utf-8").splitlines()))
