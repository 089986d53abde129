"""Tries edits of a crate: those that stand in functions of their own at once, and the others alone."""

import subprocess
import time

from editing.crate import Bench, Crate
from editing.edit import Sources, batch_of, changed

# The crates whose theorems are about another's definitions, by that one.
THEOREMS = {"blocking_world_laws": "blocking_world_law_tests"}
REFUSED, MISSED, BAD, UNSURE = "refused", "NOT REFUSED", "BAD EDIT", "NOT TRIED"


def prove(crate, tell):
    """Proves a crate and the libraries below it, as `rt check` does and keeps it; whether it could."""
    how = {"stdin": subprocess.DEVNULL, "stdout": subprocess.PIPE, "stderr": subprocess.STDOUT, "text": True}
    start, done = time.monotonic(), subprocess.run(["rt", "check"], cwd=crate.folder, **how)
    tell(f"{crate.name}: proved as it is, {time.monotonic() - start:.0f} s" if not done.returncode else done.stdout)
    return not done.returncode


def only(functions):
    """The flags that ask for functions alone."""
    return [word for it in functions for word in ("--only", it.path)]


class Trial:
    """The edits of a crate that are tried over a bench."""

    def __init__(self, crate, sources, jobs, tell):
        self.sources, self.tell, self.bench = sources, tell, Bench(crate, jobs)
        self.theorems = [(self.bench, [it for it in sources.functions() if it.is_empty])]
        above = THEOREMS.get(crate.name)
        if above:
            bench = Bench(Crate(crate.top, above), jobs, crate)
            self.theorems.append((bench, Sources(bench.crate.folder).functions()))

    def check(self, edits, flags, bench=None):
        """What a check says of the crate with edits."""
        start, bench = time.monotonic(), bench or self.bench
        said = bench.check(changed(self.sources, edits), flags)
        what = f"{len(edits)} at once" if len(edits) > 1 else edits[0].name
        self.tell(f"{bench.crate.name}, {what}: {time.monotonic() - start:.0f} s")
        return said

    def together(self, edits):
        """Tries edits at once, and answers the goals at which they are seen to be refused, by the edits."""
        if not edits:
            return {}
        said = self.check(edits, only(it for edit in edits for it in edit.functions))
        unread = said.unread_places()
        guilty = [edit for edit in edits if any(it.has(*place) for it in edit.functions for place in unread)]
        innocent = [edit for edit in edits if edit not in guilty]
        if said.is_judged:
            goals = {edit: next(filter(None, map(said.goal_of, edit.functions)), "") for edit in innocent}
            return {edit: goal for edit, goal in goals.items() if goal}
        if guilty:
            return self.together(innocent)
        half = len(edits) // 2
        return {**self.together(edits[:half]), **self.together(edits[half:])} if half else {}

    def at_theorems(self, edit):
        """Tries a wrong reading of a definition at theorems alone, and answers the goal at which it is refused; an empty text where none does."""
        for bench, functions in self.theorems:
            said = self.check([edit], only(functions), bench) if functions else None
            if said and said.is_judged and not said.unread(edit):
                goal = next(filter(None, map(said.goal_of, functions)), "")
                if goal:
                    return f"{bench.crate.name}: {goal}"
        return ""

    def alone(self, edit):
        """Tries an edit alone, at the functions that it changes or at theorems and then at all goals of the crate, and answers what it comes
        to, and why."""
        goal = self.at_theorems(edit) if edit.is_of_specs else ""
        if goal:
            return REFUSED, goal
        if edit.functions:
            kind, why = self.judged(edit, self.check([edit], only(edit.functions)))
            if kind in (REFUSED, BAD):
                return kind, why
        return self.judged(edit, self.check([edit], []))

    def judged(self, edit, said):
        """What an edit comes to that was tried alone, and why."""
        unread, goal = said.unread(edit), said.goal()
        if said.is_proved:
            return MISSED, "the crate is still proved"
        if said.status == 1 and unread:
            return BAD, f"the prover can't read it: {unread}"
        if said.limit():
            return REFUSED, f"by a limit of the prover alone: {said.limit()}"
        if said.is_judged and said.status == 1:
            return (REFUSED, goal) if goal else (MISSED, "only proof files no longer fit")
        return UNSURE, f"the check ended with status {said.status}: {said.lines[-1]}"

    def all(self, edits):
        """Tries edits, and gives each with what it comes to, and why."""
        waiting, alone, again = [it for it in edits if it.is_apart], [it for it in edits if not it.is_apart], set()
        while waiting:
            edits = batch_of(waiting)
            goals = self.together(edits) if len(edits) > 1 else {}
            waiting = [it for it in waiting if it not in edits]
            for edit in edits:
                if edit in goals:
                    yield edit, REFUSED, goals[edit]
                elif edit in again or len(edits) == 1:
                    alone.append(edit)
                else:
                    again.add(edit)
                    waiting.append(edit)
        for edit in alone:
            yield edit, *self.alone(edit)
