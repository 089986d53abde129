"""What a script of `blk steps` and the events that it printed say together: who acted when, how each party stood meanwhile, which
wakes there were, and what was inside each pipe. Columns are the events, counted from 0."""

import re
from dataclasses import dataclass, field

# The kind of session that each call of an owner begins, and those whose sessions have a pipe.
KIND_BEGUN = {"read": "reading", "write": "writing", "next": "streaming", "seek": "seeking", "op": "operating"}
PIPED = {"reading", "writing", "streaming"}
# What a pipe holds by default.
DEFAULT_CAPACITY = {"reading": 8_388_608, "writing": 8_388_608, "streaming": 8192}
POOL = ("pool", 0)

# The form of each kind of line that is a step, and what may be seen of it.
HEX = r"(-|([0-9a-f]{2})+)"
WHY = "(memory|worker|numbers)"
WAKE, WAKE_OWNER = r"( wake \d+)?", "( wake owner)?"
CALL = rf"(read \d+|write {HEX}|flush|close|seek [sce]-?\d+|next|mut|op\+?|inner)"
REPLY = rf"(ok( \d+)?|item \d+|end|handle|fault (io \d+|write-zero|refused {WHY})|refused {WHY})"
TAKEN = rf"got ({HEX}|item \d+){WAKE}|got end|put \d+{WAKE}|put shut"
OF_POLL = rf"accepted \d+|refused {WHY}|closed{WAKE}|delivered \d+ \w+|{TAKEN}|back|result \d+|waits|replied {REPLY}"
OF_JOB = r"room \d+|parked|shut|peeked \d+|drained|lost \d+|(put \d+|taken \d+|closed|result|finished|gave up)"
FORMS = {
    "new": (r"new \d+( for \d+)?", r"made \d+"),
    "ask": (rf"ask \d+ {CALL}", "asked"),
    "own": (r"own \d+( \*)?", OF_POLL),
    "drop": (r"drop \d+", "dropped"),
    "spawn": (r"spawn( for \d+)?", rf"accepted \d+|refused {WHY}"),
    "task": (r"task \d+ (poll|cancel|detach|drop)", r"got (\d+|none)|waits|cancelled|detached|dropped"),
    "arrive": ("arrive", r"arrived \d+"),
    "take": (r"take \d+", r"took \d+( dropped)?|idle"),
    "job": (r"job \d+( \*)?", rf"{OF_JOB}{WAKE_OWNER}|delivered owner"),
    "io": (rf"io \d+ (b {HEX}|n \d+|ok|item \d+|none|fault \d+)", rf"answered ({HEX}|\d+|ok|item \d+|none|fault \d+)"),
    "end": (r"end \d+", r"ended \d+ (done|parked|queued|dropped)|drop \d+"),
    "wait": (r"wait \d+", r"(stays|stopped) \d+"),
    "late": (r"late \d+", r"(stays|stopped) \d+"),
    "limit": (r"limit \d+", r"limit \d+"),
    "clients": (r"clients (\d+|none)", r"clients (\d+|none)"),
    "sweep": ("sweep", r"swept \d+"),
    "stray": (r"stray \d+", r"delivered \d+ \w+"),
    "strike": (r"strike \d+", r"cancelled \d+ \w+"),
    "link": (r"link \d+ \d+ \d+", r"linked \d+"),
    "copy": (r"copy \d+", r"asked|copied \d+|copy failed (reading|writing)"),
}
# Whose step is which; the others are the pool's.
STEPS_OF = {
    "owner": ("new", "ask", "own", "drop"),
    "task": ("task",),
    "worker": ("arrive", "take", "job", "io", "end", "wait", "late"),
}
STARTS = re.compile(r"((?: \+\d+)*)((?: -\d+)?)$")
LAST = re.compile(r"end workers \d+ idle \d+ queued \d+ limit (\d+|none)")


class Unfit(Exception):
    """A script that is none, or events that aren't of this script; it says why in one line."""


@dataclass
class Step:
    """A line of a script that is a step, or all steps of an actor."""

    number: int
    text: str

    @property
    def words(self):
        return self.text.split(" ")


@dataclass
class Mark:
    """An event: in which column and lane, how it is told, which step it is of, and of which tone it is."""

    column: int
    lane: tuple
    text: str
    step: Step
    tone: str = "plain"


@dataclass
class Bar:
    """How something stood, from one column to another; `end` is None while it stands so."""

    lane: tuple
    track: str
    tone: str
    text: str
    start: int
    end: int | None = None


@dataclass
class Wake:
    """A wake: where it was taken out of a seat, if it was; where it was delivered, by whom and to whom."""

    taken: int | None
    told: int
    by: tuple
    to: tuple


@dataclass
class Pipe:
    """What was inside a pipe: how much from which column on; and whether its session was over at its end."""

    lane: tuple
    capacity: int
    start: int
    levels: list
    end: int | None = None
    is_over: bool = False


@dataclass
class Owner:
    """An owner: its client where one is named, the call of its poll that is under way, its last session, and the wake that it took and hasn't
    delivered."""

    capacity: int
    client: str = ""
    call: list | None = None
    is_closed: bool = False
    session: int | None = None
    pipe: Pipe | None = None
    taken: int | None = None


@dataclass
class Copier:
    """A copier: whom it reads and writes, how much it reads at once, and what it asks next, of whom; None once it ended."""

    reader: int
    writer: int
    piece: int
    call: list | None = None
    rest: int = 0

    def __post_init__(self):
        self.call = ["read", str(self.piece)]

    @property
    def asked(self):
        """The owner that it asks next."""
        return self.reader if self.call[0] == "read" else self.writer

    def hear(self, words):
        """Its owner replied so: a rest is written, and after it more is read; at the end, and after a write of nothing, it flushes."""
        if words[0] != "ok" or self.call[0] == "flush":
            self.call = None
            return
        count = int(words[1])
        self.rest = count if self.call[0] == "read" else self.rest - count
        if count == 0:
            self.call = ["flush"]
        elif self.rest:
            self.call = ["write", f"{self.rest} bytes"]
        else:
            self.call = ["read", str(self.piece)]


def client_of(words):
    """Whose jobs a line is about, where it names a client."""
    return f" for {words[-1]}" if "for" in words else ""


@dataclass
class Job:
    """A job: who holds it, what it does, how it stands, and what it has in mind for the owner's waker."""

    holder: tuple
    kind: str
    standing: str = "queued"
    is_marked: bool = False
    goes_on: bool = False
    goes_on_after_wake: bool = False
    taken: int | None = None


@dataclass
class Story:
    """All that there is to be drawn of a run; `is_refused` says that its last event must not come."""

    heading: list
    steps: list
    last: str = ""
    is_refused: bool = False
    marks: list = field(default_factory=list)
    bars: list = field(default_factory=list)
    wakes: list = field(default_factory=list)
    pipes: list = field(default_factory=list)
    kinds: dict = field(default_factory=dict)

    @property
    def columns(self):
        return len(self.marks)


def read_script(text):
    """The lines before the first step of a script, and its steps."""
    heading, steps = [], []
    for place, line in enumerate(text.split("\n"), 1):
        if line == "" or line.startswith("#"):
            continue
        word = line.split(" ")[0]
        if word in ("setting", "starts") and not steps:
            heading.append(line)
        elif word in FORMS and re.fullmatch(FORMS[word][0], line):
            steps.append(Step(place, line))
        else:
            raise Unfit(f"line {place}: not a step")
    if not steps:
        raise Unfit("there is no step")
    return heading, steps


def poured_by(act):
    """How much more there is inside a pipe by an act of its owner, or less; an item counts one."""
    if act[1] in ("end", "shut"):
        return 0
    if act[0] == "put":
        return int(act[1])
    return -1 if act[1] == "item" else -(len(act[1].strip("-")) // 2)


def tone_of(act, has_refusal):
    """Of which tone an event is, by its act and by whether it has a refused start."""
    if act == "nothing":
        return "nothing"
    if has_refusal or "refused" in act or "fault" in act:
        return "refused"
    if " wake " in act:
        return "wake"
    return "answer" if act.startswith("answered") else "plain"


class Player:
    """Goes through steps and events side by side, and tells the story of them."""

    def __init__(self, heading, steps, events):
        self.story = Story(heading, steps)
        self.events, self.place = events, -1
        self.owners, self.tasks, self.jobs, self.hands = {}, {}, {}, {}
        self.copiers = []
        self.started = self.arrived = self.stopped = 0
        self.open = {}

    # ---- what is told

    def stand(self, lane, track, tone=None, text=""):
        """From here on a lane's track stands so; with no tone there is nothing more to be told of it."""
        before = self.open.pop((lane, track), None)
        if before:
            before.end = self.place
        if tone:
            bar = Bar(lane, track, tone, text, self.place)
            self.open[lane, track] = bar
            self.story.bars.append(bar)

    def standing(self, serial, standing, text=None):
        """From here on a job stands so."""
        self.jobs[serial].standing = standing
        self.stand(("job", serial), "standing", standing, text or standing)

    def wake(self, taken, by, to):
        """A wake is delivered here."""
        self.story.wakes.append(Wake(taken, self.place, by, to))

    def pour(self, owner, change):
        """So much more is inside the pipe of an owner, or less."""
        if owner.pipe and change:
            level = owner.pipe.levels[-1][1] + change
            owner.pipe.levels.append((self.place, level))

    # ---- how steps and events belong together

    def play(self):
        """The story; refuses events that aren't of this script."""
        for step in self.story.steps:
            act = self.one_of(step)
            while step.words[-1] == "*" and act != "nothing" and self.goes_on(step.words):
                act = self.one_of(step)
        self.place += 1
        self.see_last()
        self.story.kinds = {serial: job.kind for serial, job in self.jobs.items()}
        for bar in self.open.values():
            bar.end = self.place
        for pipe in self.story.pipes:
            pipe.end = self.place if pipe.end is None else pipe.end
        return self.story

    def goes_on(self, words):
        """Whether an actor that has just acted has a next action of its own."""
        if words[0] == "own":
            owner = self.owners.get(int(words[1]))
            return owner is not None and owner.call is not None
        job = self.jobs.get(self.hands.get(int(words[1])))
        return job is not None and job.goes_on

    def one_of(self, step):
        """The next event is of this step; answers its act."""
        self.place += 1
        if self.place >= len(self.events):
            raise Unfit(f"the events end before line {step.number} of the script, '{step.text}'")
        event = self.events[self.place]
        starts = STARTS.search(event)
        act, words = event[: starts.start()], step.words
        if not re.fullmatch(FORMS[words[0]][1] + "|nothing", act):
            raise Unfit(f"event {self.place + 1}, '{event}', is none of line {step.number} of the script, '{step.text}'")
        try:
            self.mark(step, event, act, starts)
            if act != "nothing":
                getattr(self, "see_" + words[0])(words, act.split(" "))
        except (LookupError, TypeError, ValueError):
            why = f"event {self.place + 1}, '{event}', can't come here, at line {step.number} of the script, '{step.text}'"
            raise Unfit(why) from None
        return act

    def mark(self, step, event, act, starts):
        """Marks an event in the lane of who acts, and tells of the workers that were started for it."""
        lane = self.party(step.words, act)
        self.story.marks.append(Mark(self.place, lane, event, step, tone_of(act, bool(starts.group(2)))))
        for _ in starts.group(1).split():
            self.started += 1
            self.stand(("worker", self.started), "hand", "started", "started")

    def party(self, words, act):
        """Who takes a step."""
        if words[0] == "copy" and act == "asked":
            return "owner", self.copiers[int(words[1])].asked
        kind = next((kind for kind, names in STEPS_OF.items() if words[0] in names), None)
        if kind is None or act == "nothing" and words[0] == "arrive":
            return POOL
        # (who is made or arrives has a number that the event alone tells)
        return kind, int(act.split(" ")[1] if words[0] in ("new", "arrive") else words[1])

    def see_last(self):
        """The last line says how many workers and jobs there are, as the story does."""
        self.story.last = self.events[self.place] if self.place < len(self.events) else ""
        if not LAST.fullmatch(self.story.last) or self.place + 1 < len(self.events):
            raise Unfit(f"event {self.place + 1}, '{self.story.last}', isn't the last line, 'end workers ..'")
        workers = self.started - self.stopped
        running = sum(job.standing in ("running", "dropping") for job in self.jobs.values())
        queued = sum(job.standing == "queued" for job in self.jobs.values())
        found = f"workers {workers} idle {workers - running} queued {queued}"
        if not self.story.last.startswith(f"end {found} limit "):
            raise Unfit(f"the last line is '{self.story.last}', but after these events there are {found}")

    # ---- owners

    def see_new(self, words, act):
        """An owner was made."""
        number = int(act[1])
        self.owners[number] = Owner(int(words[1]), client=client_of(words))
        self.stand(("owner", number), "handle", "idle", "idle")

    def see_ask(self, words, act):
        """A poll of an owner begins."""
        owner = self.owners[int(words[1])]
        owner.call = words[2:]
        self.stand(("owner", int(words[1])), "poll", "poll", " ".join(words[2:]))

    def see_drop(self, words, act):
        """An owner was dropped; a job that it has lent its handle to bears a mark."""
        lane = "owner", int(words[1])
        self.owners[lane[1]].call = None
        for serial, job in self.jobs.items():
            job.is_marked |= job.holder == lane and serial == self.owners[lane[1]].session
        self.stand(lane, "poll")
        self.stand(lane, "handle")

    def see_own(self, words, act):
        """The poll of an owner acted."""
        lane = "owner", int(words[1])
        owner = self.owners[lane[1]]
        if "wake" in act:
            owner.taken = self.place
        if act[0] == "accepted":
            self.begin(lane, owner, int(act[1]))
        elif act[0] == "closed":
            self.stand(lane, "handle", "stopping", f"end shut, job {owner.session}")
        elif act[0] == "delivered":
            self.wake(owner.taken, lane, ("job", int(act[1])))
            self.enter(int(act[1]), act[2])
        elif act[0] in ("got", "put"):
            self.pour(owner, poured_by(act))
        elif act[0] == "back":
            self.give_back(lane, owner)
        elif act[0] == "waits":
            owner.call = None
            self.stand(lane, "poll", "pending", "pending")
        elif act[0] == "replied":
            self.reply(lane, owner, " ".join(act[1:]))

    def begin(self, lane, owner, serial):
        """A session of an owner begins."""
        kind = KIND_BEGUN[owner.call[0].rstrip("+")]
        self.jobs[serial] = Job(lane, kind)
        self.standing(serial, "queued", "queued" + owner.client)
        owner.session = serial
        self.stand(lane, "handle", "lent", f"{kind}, job {serial}")
        if kind in PIPED:
            owner.pipe = Pipe(lane, owner.capacity or DEFAULT_CAPACITY[kind], self.place, [(self.place, 0)])
            self.story.pipes.append(owner.pipe)

    def give_back(self, lane, owner):
        """The handle is with its owner again."""
        self.stand(lane, "handle", "idle", "idle")
        self.end_pipe(owner)
        owner.session = None

    def end_pipe(self, owner):
        """A session's pipe is gone."""
        if owner.pipe:
            owner.pipe.end, owner.pipe.is_over = self.place, True
            owner.pipe = None

    def reply(self, lane, owner, said):
        """A poll is over."""
        call, owner.call = owner.call[0], None
        self.stand(lane, "poll")
        for copier in self.copiers:
            if copier.call and lane[1] == copier.asked and lane[1] in (copier.reader, copier.writer):
                copier.hear(said.split(" "))
        if call == "close" and said == "ok" and not owner.is_closed:
            owner.is_closed = True
            self.stand(lane, "handle", "closed", "closed")
        if call == "inner" and said == "handle":
            self.stand(lane, "handle")

    # ---- copiers

    def see_link(self, words, act):
        """A copier was made."""
        self.copiers.append(Copier(*map(int, words[1:])))

    def see_copy(self, words, act):
        """A copier asks one of its owners, or tells its end."""
        if act[0] == "asked":
            copier = self.copiers[int(words[1])]
            self.see_ask(["ask", str(copier.asked), *copier.call], act)

    # ---- tasks

    def see_spawn(self, words, act):
        """A call was accepted, with a task, or refused."""
        if act[0] == "accepted":
            lane, serial = ("task", len(self.tasks)), int(act[1])
            self.tasks[lane[1]] = serial
            self.jobs[serial] = Job(lane, "call")
            self.standing(serial, "queued", "queued" + client_of(words))
            self.stand(lane, "task", "there", f"job {serial}")

    def see_task(self, words, act):
        """The holder of a task acted."""
        lane = "task", int(words[1])
        if act[0] in ("cancelled", "dropped"):
            self.jobs[self.tasks[lane[1]]].is_marked = True
        if act[0] == "waits":
            self.stand(lane, "task", "pending", "pending")
        elif act[0] == "cancelled":
            self.stand(lane, "task", "cancelled", "cancelled")
        else:
            self.stand(lane, "task")

    # ---- workers and their jobs

    def see_arrive(self, words, act):
        """A started worker arrived."""
        self.arrived += 1
        if int(act[1]) != self.arrived:
            raise ValueError
        self.hold(int(act[1]), None)

    def hold(self, worker, serial, tone="running", text=None):
        """A worker has this job in hand from here on, or none."""
        self.hands[worker] = serial
        if serial is None:
            self.stand(("worker", worker), "hand", "idle", "idle")
        else:
            self.stand(("worker", worker), "hand", tone, text or f"job {serial}")

    def see_take(self, words, act):
        """A worker took the first job that was ready, or found none."""
        if act[-1] == "dropped":
            self.hand_out(int(words[1]), int(act[1]))
        elif act[0] == "took":
            self.standing(int(act[1]), "running")
            self.hold(int(words[1]), int(act[1]))

    def hand_out(self, worker, serial):
        """A job is handed out to be dropped."""
        self.standing(serial, "dropping")
        self.hold(worker, serial, "dropping", f"drops job {serial}")

    def see_job(self, words, act):
        """A worker's job acted by itself."""
        lane = "worker", int(words[1])
        serial = self.hands[lane[1]]
        job = self.jobs[serial]
        if act == ["delivered", "owner"]:
            self.wake(job.taken, lane, job.holder)
            job.goes_on = job.goes_on_after_wake
            return
        # (what a reader's job does next after a put is its own to do, after one of an iterator's job the iterator is asked)
        goes_on = act[0] in ("shut", "lost", "closed", "taken", "result") or act[0] == "put" and job.kind == "reading"
        job.goes_on, job.goes_on_after_wake = goes_on, goes_on
        if act[-1] == "owner":
            job.goes_on, job.taken = True, self.place
        if job.holder[0] == "owner":
            self.at_pipe(self.owners[job.holder[1]], serial, act)

    def at_pipe(self, owner, serial, act):
        """What an act of a job does to the pipe of its session."""
        if owner.session == serial and act[0] in ("put", "taken"):
            self.pour(owner, int(act[1]) if act[0] == "put" else -int(act[1]))
        if owner.session == serial and self.jobs[serial].is_marked and act[0] in ("finished", "gave"):
            # (nobody is there who gets the handle back)
            self.end_pipe(owner)

    def see_io(self, words, act):
        """The handle of a job answered, or its call: nobody stands otherwise after it."""

    def see_end(self, words, act):
        """A turn ended, or its job has to be dropped first."""
        worker, serial = int(words[1]), int(act[1])
        if act[0] == "drop":
            self.hand_out(worker, serial)
        else:
            self.standing(serial, act[2])
            self.hold(worker, None)

    def see_wait(self, words, act):
        """A worker stays, or stopped."""
        if act[0] == "stopped":
            self.stopped += 1
            del self.hands[int(words[1])]
            self.stand(("worker", int(words[1])), "hand")

    def see_late(self, words, act):
        """A worker whose wait timed out stays, or stopped."""
        # (a wait that timed out sweeps first)
        self.see_sweep(words, act)
        self.see_wait(words, act)

    # ---- the pool

    def enter(self, serial, came):
        """A wake or a cancel queues a parked job again; any other stands as before."""
        if came == "entered":
            self.standing(serial, "queued")

    def see_limit(self, words, act):
        """The limit is another: nobody stands otherwise after it."""

    def see_clients(self, words, act):
        """The client limit is another: nobody stands otherwise after it."""

    def see_sweep(self, words, act):
        """The parked jobs that bear a mark are queued again."""
        for serial, job in self.jobs.items():
            if job.standing == "parked" and job.is_marked:
                self.standing(serial, "queued")

    def see_stray(self, words, act):
        """A wake by nobody in particular."""
        if act[2] != "nothing":
            self.wake(None, POOL, ("job", int(act[1])))
        self.enter(int(act[1]), act[2])

    def see_strike(self, words, act):
        """A cancel."""
        self.enter(int(act[1]), act[2])


def story_of(script, printed):
    """The story of a script, and of what was printed of it."""
    heading, steps = read_script(script)
    return Player(heading, steps, printed.rstrip("\n").split("\n")).play()
