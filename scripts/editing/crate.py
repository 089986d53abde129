"""Checks of copies of a crate."""

import os
import shutil
import subprocess
import tempfile
from functools import cache
from pathlib import Path

from editing.said import Said

PARTS = ("src", "specs", "proofs")


@cache
def kit():
    """The folder of the kit."""
    said = subprocess.run(["rt", "doc"], stdout=subprocess.PIPE, text=True, check=True)
    return Path(said.stdout.strip()).parent


def listed(top):
    """The crates of crates.txt, lowest first as there, each with what it depends on."""
    found = {}
    for line in (top / "crates.txt").read_text(encoding="utf-8").splitlines():
        name, colon, words = line.partition("#")[0].partition(":")
        if colon:
            found[name.split()[0]] = words.split()
    return found


class Crate:
    """A crate of the repository at `top`, by its name."""

    def __init__(self, top, name):
        self.top, self.name, self.folder, self.listed = top, name, top / "crates" / name, listed(top)

    def below(self, name=None):
        """The repository's libraries on which a crate stands."""
        found = []
        for it in self.listed[name or self.name]:
            if it in self.listed:
                found += [one for one in (*self.below(it), it) if one not in found]
        return found

    def rlib(self, name):
        """Where a library stands as it was built: one of the repository, or of the kit."""
        folder = self.top / "crates" / name / "out" / "rlib" if name in self.listed else kit() / "rlibs"
        return folder / f"{name}.rlib"

    def words(self, source=None):
        """The words of a check of a copy, in the copy's folder. `source`: a crate below it whose sources are read, in a folder beside."""
        root = "src/main.rt" if (self.folder / "src" / "main.rt").is_file() else "src/lib.rt"
        words = [kit() / "bin" / "rattle", "check", "--crate-name", self.name, root, "--links", f"{self.name}="]
        uses = {"core": None, "std": None, **dict.fromkeys(self.listed[self.name])}
        folders = {kit() / "rlibs": None, **{self.rlib(name).parent: None for name in self.below()}}
        if source:
            del uses[source.name], folders[source.rlib(source.name).parent]
            its = ",".join(["core", "std", *source.listed[source.name]])
            words += ["--lib", f"{source.name}:{its}=../{source.name}/src/lib.rt"]
        for name in uses:
            words += ["--extern", f"{name}={self.rlib(name)}"]
        for folder in folders:
            words += ["-L", f"dependency={folder}"]
        return [*words, "--antt-project", kit() / "rattle/logic/antt-project.json", "--logic-built", kit() / "logic_built", "--short-goals"]


def linked(folder, to):
    """Copies what checks kept, by links where these can be made: a check puts another file in the place of one, and changes none."""

    def copy(one, other):
        try:
            return os.link(one, other)
        except OSError:
            return shutil.copy2(one, other)

    shutil.copytree(folder, to, copy_function=copy)


class Bench:
    """Where copies of a crate are checked, over what an earlier check kept, or else over what these checks keep as they go. `source`: a
    crate below it, whose texts are changed in its place."""

    def __init__(self, crate, jobs, source=None):
        self.crate, self.jobs, self.source = crate, jobs, source
        kept = crate.folder / "out" / "incremental"
        self.kept = kept if kept.is_dir() and not source else None
        self.room = tempfile.TemporaryDirectory(prefix="edits-")

    def copied(self, room, texts):
        """Copies what a check reads, with these texts in the place of its own, by their paths."""
        for crate in filter(None, (self.crate, self.source)):
            for part in PARTS:
                if (crate.folder / part).is_dir():
                    shutil.copytree(crate.folder / part, room / crate.name / part)
        for path, text in texts.items():
            (room / (self.source or self.crate).name / path).write_text(text, encoding="utf-8")

    def check(self, texts, flags):
        """What a check says of the crate with these texts in the place of its own."""
        with tempfile.TemporaryDirectory(dir=self.room.name) as room:
            self.copied(Path(room), texts)
            kept = Path(room if self.kept else self.room.name) / "kept"
            if self.kept:
                linked(self.kept, kept)
            kept.mkdir(exist_ok=True)
            words = [*self.crate.words(self.source), "--jobs", str(self.jobs), "--incremental", kept, *flags]
            how = {"stdin": subprocess.DEVNULL, "stdout": subprocess.PIPE, "stderr": subprocess.STDOUT, "text": True, "errors": "replace"}
            done = subprocess.run(words, cwd=Path(room) / self.crate.name, **how)
        return Said(done.returncode, done.stdout)
