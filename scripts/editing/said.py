"""What a check said, and of which function's goals."""

import re

# A proof file that names what an edit took away, and what rests on that, tells nothing of a contract.
GONE = re.compile(r"has no field|has no `|is not in scope|not admitted|was rejected|cannot be named")
ERROR = re.compile(r"(?:\./)?(\S+?):(\d+):\d+: error(\[[\w-]+\])?: (.*)")
OPEN = re.compile(r"note: (?:\./)?(src/\S+?):(\d+):\d+: (it is not proved that .*)")
VERDICT = re.compile(r"fn [^\s:]+::(\S+): (.*)")
# antt's words for a limit of its own, which it meets wherever it checks the same.
LIMIT = re.compile(r"antt ran out of|outgrew the memory limit|stopped at the step limit")
# What antt says of a text that it can't read, where one that is only false reads well.
UNREAD = re.compile(r"is not in scope|has no field|is no name|operand is missing|expected the end|cannot continue")


class Said:
    """What a check said: its status, its lines, and whether it came to the proofs."""

    def __init__(self, status, text):
        self.status, self.lines = status, text.rstrip("\n").split("\n")
        self.is_proved = status == 0
        self.is_judged = self.lines[-1].startswith(("only=", "logic="))
        self.errors = [found for found in map(ERROR.match, self.lines) if found]
        self.open = [found for found in map(OPEN.match, self.lines) if found]
        self.verdicts = {found[1]: found[2] for found in map(VERDICT.match, self.lines) if found}

    def limit(self):
        """The line that tells of a limit of the prover; an empty text where none does."""
        return next((line for line in self.lines if LIMIT.search(line)), "")

    def goal_of(self, function):
        """The first goal of a function that isn't proved; an empty text where there is none, or where the proof files alone don't fit."""
        for found in self.open:
            if function.has(found[1], int(found[2]) - 1):
                return f"{found[1]}:{found[2]}: {found[3]}"
        folder = f"proofs/{function.path.replace('::', '/')}/"
        for found in self.errors:
            if found[1].startswith(folder) and is_of_a_goal(found[4]):
                return found[0]
        return ""

    def goal(self):
        """The first goal of any function that isn't proved."""
        notes = [f"{it[1]}:{it[2]}: {it[3]}" for it in self.open]
        errors = [it[0] for it in self.errors if it[1].startswith("proofs/") and is_of_a_goal(it[4])]
        return next(iter([*errors, *notes]), "")

    def unread_errors(self, edit=None):
        """The errors that say that a text can't be compiled or read: one of src/ or specs/, or one that an edit changed."""
        changed = [path for path, _ in edit.lines] if edit else []
        for found in self.errors:
            goal, _, rest = found[4].rpartition("`: ") if found[4].startswith("`") else ("", "", found[4])
            is_ours = found[1].startswith(("src/", "specs/")) or found[1] in changed
            if found[3] or is_ours and (not goal or UNREAD.search(re.sub(r"`[^`]*`", "", rest))):
                yield found

    def unread(self, edit):
        """The first error that says that an edit's text can't be compiled or read; an empty text where none does."""
        return next((found[0] for found in self.unread_errors(edit)), "")

    def unread_places(self):
        """Where there are such errors in src/, by file and line (counted from 0)."""
        return [(found[1], int(found[2]) - 1) for found in self.unread_errors()]


def is_of_a_goal(message):
    """Whether an error's message is of a goal, and not of a name that is gone."""
    return not GONE.search(message)
