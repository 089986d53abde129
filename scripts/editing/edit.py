"""Edits: the lines that each changes, and the functions in which these stand."""

from pathlib import Path

from editing.source import functions_of, homes_of

PLACES = ("src/", "specs/", "proofs/")


class BadEdit(Exception):
    """Why an edit can't be applied or read."""


def pairs_of(text):
    """The pairs of an edit's text, each with the file that it changes."""
    path, old = "", ""
    for line in text.split("\n"):
        if line.startswith("file: "):
            path = line.removeprefix("file: ").strip()
            if ".." in path or not path.startswith(PLACES):
                raise BadEdit(f"it names no file below {', '.join(PLACES)}: {path}")
        elif line.startswith("old: "):
            old = line.removeprefix("old: ")
        elif line.startswith("new:"):
            if not path or not old:
                raise BadEdit("a 'new:' line stands before any 'file:' or 'old:' line")
            yield path, old, line.removeprefix("new:").removeprefix(" ")
            old = ""


def lines_of(file, sources):
    """The lines that an edit makes anew, by their file and their number."""
    texts, lines = {}, {}
    for path, old, new in pairs_of(file.read_text(encoding="utf-8")):
        text = texts.get(path) or sources.text(path)
        if text.count(old) != 1:
            raise BadEdit(f"an 'old:' text stands {text.count(old)} times in {path}, and not once")
        texts[path] = text.replace(old, new)
    for path, text in texts.items():
        for at, (was, now) in enumerate(zip(sources.text(path).split("\n"), text.split("\n"))):
            if was != now:
                lines[path, at] = now
    if not lines:
        raise BadEdit("it changes nothing")
    return lines


class Sources:
    """The texts of a crate, and the functions of its files."""

    def __init__(self, crate):
        self.crate, self.texts, self.found = Path(crate), {}, {}
        self.homes = homes_of({str(it.relative_to(crate)): it.read_text("utf-8") for it in self.crate.glob("src/**/*.rt")})

    def text(self, path):
        """The text of a file of the crate."""
        if path not in self.texts:
            try:
                self.texts[path] = (self.crate / path).read_text(encoding="utf-8")
            except OSError as error:
                raise BadEdit(f"{path} can't be read: {error.strerror}") from error
        return self.texts[path]

    def functions(self):
        """All functions of the crate."""
        files = [str(it.relative_to(self.crate)) for it in sorted(self.crate.glob("src/**/*.rt"))]
        return [it for path in files for it in self.functions_of(path)]

    def functions_of(self, path):
        """The functions of a file."""
        if path not in self.found:
            is_source = path.startswith("src/") and path.endswith(".rt")
            self.found[path] = functions_of(path, self.text(path), self.homes) if is_source else []
        return self.found[path]

    def is_cited(self, function):
        """Whether a proof of another function, or a lemma, names a function's theorem."""
        name, own = function.path.replace("::", ".") + ".", self.crate / "proofs" / function.path.replace("::", "/")
        files = (file for file in self.crate.glob("proofs/**/*.antt") if not file.is_relative_to(own))
        return any(name in file.read_text(encoding="utf-8") for file in files)

    def function_at(self, path, line):
        """The innermost function that has a line, counted from 0; None where none has."""
        return next((it for it in reversed(self.functions_of(path)) if it.has(path, line)), None)


class Edit:
    """An edit: its file, the lines that it changes, by their file and their number, and the functions that have them. `is_apart` says that it
    changes nothing else, so that goals of these functions tell of it beside other edits too."""

    def __init__(self, file, sources):
        self.file, self.name = file, f"{file.parent.parent.name}/{file.stem}"
        self.lines = lines_of(file, sources)
        found = [sources.function_at(*place) for place in self.lines]
        self.functions = list({it.key: it for it in found if it}.values())
        self.is_of_specs = any(path.startswith("specs/") for path, _ in self.lines)
        # (a changed contract can break what calls or cites its function)
        heads = [it for (path, at), it in zip(self.lines, found) if it and at < it.body]
        self.is_apart = None not in found and not any(it.body < it.last or sources.is_cited(it) for it in heads)


def changed(sources, edits):
    """The texts that edits of different lines make together, by their paths."""
    lines = {}
    for edit in edits:
        for (path, at), line in edit.lines.items():
            lines.setdefault(path, sources.text(path).split("\n"))[at] = line
    return {path: "\n".join(its) for path, its in lines.items()}


def batch_of(edits):
    """As many of the edits, from the first one on, as stand in functions of their own."""
    taken, together = set(), []
    for edit in edits:
        keys = {it.key for it in edit.functions}
        if not keys & taken:
            taken |= keys
            together.append(edit)
    return together
