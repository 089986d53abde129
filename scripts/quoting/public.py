"""What a crate gives its users: each name that they may write, and where it is declared."""

import re
from dataclasses import dataclass
from pathlib import Path

from .source import CRATES, Part, Unknown, declared

USED = re.compile(r"use ([\w:]+?)(?:::\{(.*)\})?;", re.S)


@dataclass(frozen=True)
class Module:
    """A module, by its source."""

    file: Path

    def inner(self, name):
        """A module that stands in this one."""
        folder = self.file.parent if self.file.name == "lib.rt" else self.file.with_suffix("")
        return Module(folder / f"{name}.rt")


@dataclass(frozen=True)
class Item:
    """What is declared in a source."""

    file: Path
    part: Part


def root(crate):
    """The module of a crate in which all others stand."""
    return Module(CRATES / crate / "src" / "lib.rt")


def root_of(module):
    """The module in which all of this module's crate stand."""
    folder = next(folder for folder in module.file.parents if folder.name == "src")
    return Module(folder / "lib.rt")


def used(part):
    """The paths that a line of `use` names."""
    found = USED.search(" ".join(part.lines))
    path, names = found.group(1).split("::"), found.group(2)
    if names is None:
        return [path]
    return [path + name.strip().split("::") for name in names.split(",") if name.strip()]


def follow(module, path):
    """What a path leads to, as it is written in this module."""
    for place, name in enumerate(path):
        if name == "crate":
            module = root_of(module)
        elif place == 0 and (CRATES / name).is_dir():
            module = root(name)
        elif name != "self":
            module = look_up(module, name)
    return module


def look_up(module, name):
    """What a module gives by this name."""
    for part in declared(module.file):
        if part.kind == "mod" and part.name == name:
            return module.inner(name)
        if part.kind == "use" and part.is_public:
            for path in used(part):
                if path[-1] == name:
                    return follow(module, path)
        elif part.name == name and part.is_public and part.kind not in ("impl", "mod"):
            return Item(module.file, part)
    raise Unknown(f"{module.file.relative_to(CRATES)}: nothing is public there by the name {name}")


def given(module, before=""):
    """Each name that a module gives, with what it leads to. A name of two modules comes twice."""
    for part in declared(module.file):
        if not part.is_public:
            continue
        if part.kind == "use":
            names = [(path[-1], follow(module, path)) for path in used(part)]
        elif part.kind == "mod":
            names = [(part.name, module.inner(part.name))]
        else:
            names = [(part.name, Item(module.file, part))]
        for name, thing in names:
            if isinstance(thing, Module):
                yield from given(thing, f"{before}{name}::")
            else:
                yield f"{before}{name}", thing


def public(crate):
    """Each item that users of a crate may name, by the shortest of its names."""
    names = {}
    for name, item in given(root(crate)):
        at = (item.file, item.part.name)
        if at not in names or len(name) < len(names[at][0]):
            names[at] = (name, item)
    return dict(names.values())
