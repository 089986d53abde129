"""Traces that the headline's page refuses, as theorems of blocking_headline name them: their steps, and what a wrong machine prints."""

import re
from collections import defaultdict
from dataclasses import dataclass, replace
from functools import cache
from pathlib import Path

from drawing.story import Owner, Player, Step, Unfit

CRATES = Path(__file__).resolve().parent.parent.parent / "crates"
THEOREMS = CRATES / "blocking_headline" / "src" / "traces.rt"

WORD = re.compile(r"[()▸∷]|\[\]|\w+")
DEFINED = re.compile(r"^(\w+)((?: \w+)*) =(.*\n(?: +.*\n)*)", re.M)
USED = re.compile(r"use Rattle\.(\w+)\.specs\.(\w*Traces)\.\{(.*?)\}")
REFUSES = r"(?:Refuses \(AtThis (\d+)\)|OnlyCopiesRefuses (\d+))"

# How variants are told, of steps and of acts.
CALLS = {"Read": "read {}", "Write": "write {}", "Flush": "flush", "Poll": "poll"}
STEPS = CALLS | {
    "New": "new {}",
    "Ask": "ask {} {}",
    "Own": "own {}",
    "Spawn": "spawn",
    "OfTask": "task {} {}",
    "Arrive": "arrive",
    "Take": "take {}",
    "Job": "job {}",
    "Io": "io {} {}",
    "Number": "n {}",
    "Gave": "b {}",
    "End": "end {}",
    "Link": "link {} {} {}",
    "Copy": "copy {}",
}
ACTS = CALLS | {
    "Made": "made {}",
    "Asked": "asked",
    "Accepted": "accepted {}",
    "Got": "got {}{}",
    "GotEnd": "got end",
    "Filled": "put {}{}",
    "Back": "back",
    "Waits": "waits",
    "Replied": "replied {}",
    "Okay": "ok",
    "Count": "ok {}",
    "Arrived": "arrived {}",
    "Took": "took {}",
    "Answered": "answered {}",
    "Number": "{}",
    "Gave": "{}",
    "RoomFree": "room {}",
    "Put": "put {}{}",
    "TakenOut": "taken {}{}",
    "JobParked": "parked",
    "JobClosed": "closed{}",
    "Finished": "finished{}",
    "HolderWoken": "delivered owner",
    "Ended": "ended {} {}",
    "Parked": "parked",
    "Done": "done",
    "None": "",
    "Some": " wake {}",
    "Absent": "",
    "Taken": " wake owner",
    "Linked": "linked {}",
    "Copied": "copied {}",
}


@dataclass(frozen=True)
class Moment:
    """A step with its event."""

    step: tuple
    party: tuple
    job: tuple
    act: tuple
    first: int
    started: int = 0

    @property
    def event(self):
        """How its event is printed."""
        starts = (f" +{self.first + place}" for place in range(self.started))
        return told(self.act, ACTS) + "".join(starts)


# What names stand for that are records, or that count.
BUILT = {
    "moment": Moment,
    "starting": lambda count, now: replace(now, started=count),
    "of_owner": lambda owner, now: now,
    "length": len,
}


def told(value, forms):
    """A number, a list of bytes, or a variant with what it carries."""
    if isinstance(value, int):
        return str(value)
    if not value or isinstance(value[0], int):
        return bytes(value).hex() or "-"
    name, *carried = value
    if name == "Peeked":
        return f"peeked {len(carried[0])}"
    return forms[name].format(*(told(each, forms) for each in carried))


class Terms:
    """What the names of a file stand for: its own definitions, and those that it takes from files of traces."""

    def __init__(self, path):
        text = path.read_text(encoding="utf-8")
        self.own = {name: (given.split(), body) for name, given, body in DEFINED.findall(text)}
        self.taken = {name: (crate, file) for crate, file, names in USED.findall(text) for name in names.split(", ")}

    def values(self, text):
        """What terms mean that stand one behind the other: a list is a tuple, and a variant one that begins with its name."""
        words, values = WORD.findall(text), []
        while words:
            values.append(self.atom(words, {}))
        return values

    def joined(self, words, given):
        """A term up to its closing bracket or the end: moments one after the other, a list, or one by itself."""
        value = self.applied(words, given)
        while words and words[0] != ")":
            sign = words.pop(0)
            if sign == "∷":
                return (value, *self.joined(words, given))
            value = (*value, self.applied(words, given))
        return value

    def applied(self, words, given):
        """A name with what it is given, or what stands by itself."""
        if not words[0][0].isalpha():
            return self.atom(words, given)
        name, arguments = words.pop(0), []
        while words and words[0] not in (")", "▸", "∷"):
            arguments.append(self.atom(words, given))
        return self.named(name, arguments, given)

    def atom(self, words, given):
        """A term in brackets, a number, an empty list, or a name alone."""
        word = words.pop(0)
        if word == "(":
            value = self.joined(words, given)
            words.pop(0)
            return value
        if word == "[]":
            return ()
        return int(word) if word.isdigit() else self.named(word, [], given)

    def named(self, name, arguments, given):
        """What a name stands for. One that is defined nowhere is a variant."""
        if name in given:
            return given[name]
        if name in BUILT:
            return BUILT[name](*arguments)
        if name in self.taken:
            crate, file = self.taken[name]
            return terms_of(CRATES / crate / "specs" / f"{file}.antt").named(name, arguments, {})
        if name in self.own:
            names, body = self.own[name]
            return self.joined(WORD.findall(body), dict(zip(names, arguments)))
        return name, *arguments


@cache
def terms_of(path):
    """What the names of a file stand for."""
    return Terms(path)


class Wrong(Player):
    """Tells the story of a trace that may begin in the middle, and whose last moment is refused."""

    def __init__(self, name, setting, moments):
        steps = [Step(place, told(now.step, STEPS)) for place, now in enumerate(moments, 1)]
        super().__init__([f"setting {setting}"], steps, [now.event for now in moments])
        self.name, self.moments = name, moments
        self.owners = defaultdict(lambda: Owner(0))

    def one_of(self, step):
        """Who acts in a job that nobody was seen to take has taken it before."""
        now = self.moments[self.place + 1]
        if now.party[0] == "Worker" and now.job[0] == "Some":
            self.hands.setdefault(now.party[1], now.job[1])
        return super().one_of(step)

    def party(self, words, act):
        """Whom a copier asks is told by the moment."""
        if words[0] == "copy" and act == "asked":
            return "owner", self.moments[self.place].party[1]
        return super().party(words, act)

    def see_copy(self, words, act):
        """So is what it asks."""
        now = self.moments[self.place]
        if act[0] == "asked":
            self.see_ask(["ask", str(now.party[1]), *told(now.act[1], STEPS).split(" ")], act)

    def see_last(self):
        """The last moment is the one that is refused."""
        self.story.last = f"in red: the moment that the theorem {self.name} refuses"
        self.story.is_refused = True


def refused_story(name):
    """The story of the trace that this theorem refuses."""
    said = re.search(rf"ensures {name} \{{ {REFUSES}\s(.*?) \}}$", THEOREMS.read_text(encoding="utf-8"), re.M | re.S)
    if not said:
        raise Unfit(f"no theorem of a trace that the page refuses is named '{name}'")
    try:
        past, now = terms_of(THEOREMS).values(said[3])
        return Wrong(name, said[1] or said[2], [*past, now]).play()
    except (LookupError, TypeError, ValueError) as error:
        raise Unfit(f"what {name} refuses can't be told: {error}") from None
