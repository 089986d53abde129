"""The functions of a crate's sources, as rt fmt lays them out."""

import re

# The head of a function, and that of an impl or a trait, in which methods stand.
HEAD = re.compile(r"( *)[\w() ]*\bfn (\w+)")
HOLDER = re.compile(r"(?:impl|(?:pub(?:\(\w+\))? )?trait)\b(.*)")
PARAMETERS = re.compile(r"<[^<>]*>")
TYPE = re.compile(r"^(?:pub(?:\(\w+\))? )?(?:struct|enum) (\w+)", re.MULTILINE)


class Function:
    """A function: its file, its lines (the first, the one that opens its body, and the last), and its path as a check prints it, without
    the crate."""

    def __init__(self, file, lines, path):
        self.file, (self.first, self.body, self.last), self.path = file, lines, path
        self.key = file, self.first
        # (a theorem, which does nothing)
        self.is_empty = self.first < self.body == self.last

    def has(self, file, line):
        """Whether a line of a file is one of its own (both are counted from 0)."""
        return file == self.file and self.first <= line <= self.last


def module_of(file):
    """The path of the module that a file of src/ has, as a list of names."""
    names = file.removeprefix("src/").removesuffix(".rt").split("/")
    return names[:-1] if names[-1] in ("lib", "main", "mod") else names


def without_parameters(text):
    """A type or a trait without what stands between angle brackets."""
    while PARAMETERS.search(text):
        text = PARAMETERS.sub("", text)
    return text


def generic_and_rest(head):
    """What an impl's head has between its first angle brackets, if it begins with them, and what follows."""
    if not head.startswith("<"):
        return "", head
    depth = 0
    for at, letter in enumerate(head):
        depth += (letter == "<") - (letter == ">" and head[at - 1] != "-")
        if depth == 0:
            return head[: at + 1], head[at + 1 :]
    return head, ""


def joined(words):
    """Words as one name, each begun by a large letter."""
    return "".join(word[0].upper() + word[1:] for word in words)


def homes_of(texts):
    """The modules of the types that the texts of a crate's files declare, by the types."""
    return {name: module_of(file) for file, text in texts.items() for name in TYPE.findall(text)}


def holder_of(head, module, homes):
    """The path of an impl or a trait, in which its methods are: the type, in the module that declares it, or, of a trait's impl, the type
    and the trait and the trait's arguments, of which parameters of the impl are left out."""
    generic, rest = generic_and_rest(HOLDER.match(head)[1].strip())
    trait, _, kind = re.split(r"[{]| where ", rest)[0].rpartition(" for ")
    kind = without_parameters(kind).strip()
    if not trait:
        # (of a trait's own head what it asks of types stands behind a colon)
        name = re.match(r"\w*", kind)[0]
        return [*homes.get(name, module), name]
    own = set(re.findall(r"[<,]\s*(?:const )?(\w+)", generic))
    words = re.findall(r"\w+", re.sub(r"^(\w+::)+", "", trait.strip()))
    return [*module, joined(re.findall(r"\w+", kind)) + joined(word for word in words if word not in own)]


def end_of(lines, first, margin):
    """The last line of the function whose head is the line `first`."""
    if lines[first].endswith(("}", ";")):
        return first
    for at in range(first + 1, len(lines)):
        if lines[at] in (margin + "}", margin + "{}"):
            return at
        within = lines[at].startswith((margin + " ", margin + ")", margin + "where", margin + "{")) or not lines[at]
        if not within:
            # (a method without a body)
            return at - 1
    return len(lines) - 1


def body_of(lines, first, last, margin):
    """The line that opens the body of a function: one of its own behind clauses, else the end of its head."""
    alone = (at for at in range(first, last + 1) if lines[at] in (margin + "{", margin + "{}"))
    behind = (at for at in range(first, last + 1) if lines[at].endswith(("{", "}")))
    return next(alone, next(behind, last))


def functions_of(file, text, homes):
    """The functions of a file, inner ones behind those in which they stand. `homes` has the modules of the crate's types."""
    module, lines = module_of(file), text.split("\n")
    found, holder = [], module
    for at, line in enumerate(lines):
        if HOLDER.match(line):
            ends = (end for end in range(at, len(lines)) if lines[end].endswith(("{", "}")))
            holder = holder_of(" ".join(lines[at : next(ends, at) + 1]), module, homes)
        head = HEAD.match(line)
        if head:
            last = end_of(lines, at, head[1])
            path = "::".join([*(holder if head[1] else module), head[2]])
            found.append(Function(file, (at, body_of(lines, at, last, head[1]), last), path))
    return found
