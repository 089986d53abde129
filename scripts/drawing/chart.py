"""The chart of a story: lanes of owners, tasks, jobs and workers over the events, one column each."""

from drawing.svg import Svg, arrow_head, hatching, width_of

# A column is so wide that all of them are WIDE together, but no narrower and no wider than these.
NARROWEST, WIDEST, WIDE = 24, 46, 880
SIDE = 118
MARGIN = 16
# Texts at marks are turned by so many degrees; of their length so much goes up or down, and as much goes right.
SLANT = 45
PART = 0.7071
CODE_SIZE = 10.5
LONGEST = 30
BAR_SIZE = 10
BAR = 17
GAP = 4
GAUGE = 30
LANE_GAP = 14
WAKE_COLOUR = "#c62828"
# What is inside a pipe, and up to where.
INSIDE, SURFACE = "#7fc8b8", "#2a8a78"

# How each bar is filled, the colour of its text, and what it means.
TONES = {
    "poll": ("#2f5d8a", "#fff", "a poll under way"),
    "pending": ("url(#pending)", "#222", "a poll that waits to be woken"),
    "idle": ("#e3e8ec", "#222", "idle"),
    "lent": ("#9cc4e4", "#222", "the handle is lent"),
    "stopping": ("url(#stopping)", "#222", "lent, and the owner's end shut"),
    "closed": ("#616161", "#fff", "closed"),
    "there": ("#9cc4e4", "#222", "a task"),
    "cancelled": ("#e8c9c2", "#222", "a task that was cancelled"),
    "queued": ("#f5c656", "#222", "queued"),
    "running": ("#6ab187", "#222", "running"),
    "parked": ("#b9a7dd", "#222", "parked"),
    "dropping": ("#e59a8c", "#222", "to be dropped"),
    "done": ("#d9d9d9", "#444", "done"),
    "dropped": ("#d9d9d9", "#444", "dropped"),
    "started": ("url(#started)", "#222", "started, not arrived"),
}
SHAPES = {
    "plain": "an event",
    "answer": "the handle or the call answers",
    "refused": "a refusal or a fault",
    "nothing": "no action",
}
TRACKS = {"owner": ("poll", "handle"), "task": ("task",), "pool": (), "job": ("standing",), "worker": ("hand",)}
# The track of who is woken.
WOKEN = {"job": "standing", "owner": "poll", "task": "task"}
ORDER = ("owner", "task", "pool", "job", "worker")


class Lane:
    """Where one party or job stands in the chart: from `top` on, with its tracks, its marks, and their texts above or below."""

    def __init__(self, key, story):
        self.key = key
        self.marks = [mark for mark in story.marks if mark.lane == key]
        self.pipes = [pipe for pipe in story.pipes if pipe.lane == key]
        self.tracks = TRACKS[key[0]]
        self.is_hanging = key[0] == "worker"
        self.texts = max((slanted(mark.text) for mark in self.marks), default=0)
        self.at = {}

    @property
    def name(self):
        return "pool" if self.key[0] == "pool" else f"{self.key[0]} {self.key[1]}"

    def lay(self, top):
        """Takes its place from there on, and answers where the next lane may begin."""
        self.top = here = top
        if self.marks and not self.is_hanging:
            self.mark = here + self.texts + 10
            here = self.mark + 9
        for track in self.tracks:
            self.at[track] = here
            here += BAR + GAP
        if self.pipes:
            here += 6
            self.at["pipe"] = here
            here += GAUGE + GAP
        if self.marks and self.is_hanging:
            self.mark = here + 5
            here = self.mark + self.texts + 10
        self.bottom = here
        return here + LANE_GAP


def short(text):
    """A text as it stands at a mark: the whole of it, or its beginning."""
    return text if len(text) <= LONGEST else text[: LONGEST - 1] + "…"


def slanted(text):
    """How far a turned text goes up, down or right."""
    return width_of(short(text), CODE_SIZE, is_code=True) * PART + CODE_SIZE * PART


def level_text(base, high):
    """The height of a text that tells a level: below it, or above where there is no room."""
    return base - high + (10 if high > 12 else -3)


def lanes_of(story):
    """The lanes of a story, from the top."""
    keys = {mark.lane for mark in story.marks} | {bar.lane for bar in story.bars}
    return [Lane(key, story) for key in sorted(keys, key=lambda key: (ORDER.index(key[0]), key[1]))]


class Chart:
    """Draws a story."""

    def __init__(self, story, title):
        self.story = story
        what = "A trace that is refused" if story.is_refused else "A run of blk steps"
        self.svg = Svg(title, f"{what}: {len(story.steps)} lines of its script, {story.columns} events.")
        self.title = title
        self.lanes = {lane.key: lane for lane in lanes_of(story)}
        self.groups = self.grouped()
        self.column = min(max(WIDE / story.columns, NARROWEST), WIDEST)
        for name, ground, colour in (
            ("pending", "#fff", "#c3d3e4"),
            ("stopping", "#dcebf6", "#9cc4e4"),
            ("started", "#fff", "#d5dbe0"),
        ):
            self.svg.define(hatching(name, ground, colour))
        self.svg.define(arrow_head("wake", WAKE_COLOUR))

    def grouped(self):
        """The lines of the script with the columns of their events: step, first column, number of columns."""
        groups = []
        for mark in self.story.marks:
            if groups and groups[-1][0] is mark.step:
                groups[-1][2] += 1
            else:
                groups.append([mark.step, mark.column, 1])
        return groups

    def x(self, column):
        """The middle of a column."""
        return MARGIN + SIDE + self.column * (column + 0.5)

    def draw(self):
        """The lines of the picture."""
        self.top = 62 if self.story.heading else 46
        here = self.top
        for lane in self.lanes.values():
            here = lane.lay(here)
        self.bottom = here - LANE_GAP + 10
        self.right = MARGIN + SIDE + self.column * self.story.columns
        # (a title is wider, since it is bold)
        self.width = max(self.right + self.overhang() + MARGIN, width_of(self.title, 17) + 2 * MARGIN, 600)
        self.draw_bands()
        self.draw_sides()
        self.draw_bars()
        for pipe in self.story.pipes:
            self.draw_pipe(pipe)
        for wake in self.story.wakes:
            self.draw_wake(wake)
        for mark in self.story.marks:
            self.draw_mark(mark)
        height = self.draw_legend(self.draw_script())
        self.draw_title()
        return self.svg.whole(self.width, height)

    def overhang(self):
        """How far turned texts go beyond the last column."""
        ends = [self.x(mark.column) + slanted(mark.text) for mark in self.story.marks]
        ends += [self.x(column + (count - 1) / 2) + slanted(step.text) + 8 for step, column, count in self.groups]
        return max(0, max(ends) - self.right)

    # ---- ground

    def draw_title(self):
        """What the picture shows, and what stood before the first step of its script."""
        self.svg.text(MARGIN, 26, self.title, size=15, font_weight="bold")
        if self.story.heading:
            self.svg.text(MARGIN, 46, "   ".join(self.story.heading), size=CODE_SIZE + 0.5, is_code=True, fill="#555")

    def draw_bands(self):
        """A band for each line of the script, every other one tinted, so that its events are seen together."""
        for place, (step, column, count) in enumerate(self.groups):
            left = self.x(column) - self.column / 2
            fill = "#f4f6f8" if place % 2 == 0 else "#fff"
            hint = f"line {step.number}: {step.text}"
            size = {"width": self.column * count, "height": self.bottom - self.top + 8}
            self.svg.add("rect", None, hint, x=left, y=self.top - 8, fill=fill, **size)
        if self.story.is_refused:
            outline = {"fill": "#fbe0dc", "stroke": "#b00020", "stroke_width": 1.2}
            self.svg.add("rect", x=left + 1, y=self.top - 8, width=self.column - 2, height=size["height"], **outline)

    def draw_sides(self):
        """The names of lanes and tracks, and lines between lanes."""
        for place, lane in enumerate(self.lanes.values()):
            if place > 0:
                y = lane.top - LANE_GAP / 2
                self.svg.line((MARGIN, y), (self.right, y), stroke="#c9d1d8", stroke_width=1)
            first = min(lane.at.values(), default=lane.top)
            y = lane.mark + 4 if lane.marks and not lane.is_hanging else first + 13
            self.svg.text(MARGIN, y, lane.name, size=12.5, font_weight="bold")
            for caption, y in self.captions(lane):
                self.svg.text(MARGIN + SIDE - 10, y, caption, size=9.5, fill="#666", text_anchor="end")

    def captions(self, lane):
        """What stands beside the tracks of a lane, and at which height."""
        if lane.tracks and not any(bar.lane == lane.key for bar in self.story.bars):
            yield "isn't there", lane.mark + (4 if lane.is_hanging else 18)
            return
        if lane.key[0] == "owner":
            yield from ((track, lane.at[track] + 12.5) for track in lane.tracks)
        if lane.key[0] == "job":
            yield self.story.kinds[lane.key[1]], lane.at["standing"] + 12.5
        if lane.pipes:
            yield f"pipe of {lane.pipes[0].capacity:,}", lane.at["pipe"] + GAUGE / 2 + 4

    # ---- what stood how

    def draw_bars(self):
        """How each party and each job stood."""
        for bar in self.story.bars:
            fill, ink, _ = TONES[bar.tone]
            left, right = self.x(bar.start), self.end_of(bar.end)
            top = self.lanes[bar.lane].at[bar.track]
            hint = f"{self.lanes[bar.lane].name}: {bar.text}"
            stroke = "#2f5d8a" if bar.tone == "pending" else "#5b6770"
            dashes = "3 2" if bar.tone in ("pending", "started") else None
            outline = {"stroke": stroke, "stroke_width": 0.8, "stroke_dasharray": dashes}
            self.svg.add("rect", None, hint, x=left, y=top, width=right - left, height=BAR, rx=3, fill=fill, **outline)
            self.draw_bar_text(bar.text, left, right, top, ink)

    def draw_bar_text(self, text, left, right, top, ink):
        """The text of a bar, or its first words that there is room for, between the wakes that cross it."""
        crossed = sorted(x for x, above, below in map(self.crossing, self.story.wakes) if left < x < right and above <= top < below)
        gaps = list(zip([left, *(x + 3 for x in crossed)], [*(x - 3 for x in crossed), right]))
        words = text.split(" ")
        while words:
            wide = width_of(" ".join(words), BAR_SIZE)
            for start, end in gaps:
                if wide <= end - start - 6:
                    self.svg.text(start + 5, top + 12.5, " ".join(words), size=BAR_SIZE, fill=ink)
                    return
            words.pop()

    def crossing(self, wake):
        """Where the arrow of a wake goes up or down: its place, and from where to where."""
        by, to = self.lanes[wake.by], self.lanes[wake.to]
        top = to.at[WOKEN[wake.to[0]]]
        return (self.x(wake.told), by.mark, top) if to.top > by.top else (self.x(wake.told), top + BAR, by.mark)

    def end_of(self, column):
        """Where a bar ends that ends in this column, or with the last."""
        return self.right if column >= self.story.columns else self.x(column)

    def draw_pipe(self, pipe):
        """How much is inside a pipe, over its columns."""
        base = self.lanes[pipe.lane].at["pipe"] + GAUGE
        most = max(level for _, level in pipe.levels)
        # (what never comes near the capacity would not be seen)
        whole = pipe.capacity if most * 8 >= pipe.capacity else max(most, 1) * 1.25
        left, right = self.x(pipe.start), self.end_of(pipe.end)
        frame = {"fill": "#fff", "stroke": "#8fb8b0", "stroke_dasharray": "2 2"}
        self.svg.add("rect", x=left, y=base - GAUGE, width=right - left, height=GAUGE, **frame)
        ends = [self.x(column) for column, _ in pipe.levels[1:]] + [right]
        for (column, level), end in zip(pipe.levels, ends):
            self.draw_level(self.x(column), end, base, GAUGE * level / whole, f"{level}")
        level = pipe.levels[-1][1]
        if level and pipe.is_over:
            y = level_text(base, GAUGE * level / whole)
            self.svg.text(right - 4, y, f"{level} lost", size=9.5, fill="#b00020", text_anchor="end")

    def draw_level(self, left, right, base, high, text):
        """So much inside a pipe, from one column to another."""
        if high:
            self.svg.add("rect", x=left, y=base - high, width=right - left, height=high, fill=INSIDE)
        self.svg.line((left, base - high), (right, base - high), stroke=SURFACE, stroke_width=1.6)
        self.svg.text(left + 4, level_text(base, high), text, size=9.5, fill="#1d5f53")

    # ---- who did what

    def draw_wake(self, wake):
        """An arrow: from where the wake was taken along to where it was delivered, and from there to who was woken."""
        start = self.lanes[wake.by].mark
        x, above, below = self.crossing(wake)
        points = [(x, start), (x, below if above == start else above)]
        if wake.taken is not None:
            points.insert(0, (self.x(wake.taken), start))
        self.svg.line(*points, stroke="#fff", stroke_width=4.5, stroke_opacity=0.85)
        self.svg.line(*points, stroke=WAKE_COLOUR, stroke_width=1.8, marker_end="url(#wake)")

    def draw_mark(self, mark):
        """An event, in the lane of who acted."""
        lane = self.lanes[mark.lane]
        x, y = self.x(mark.column), lane.mark
        self.draw_shape(mark.tone, x, y, f"event {mark.column + 1}: {mark.text} (line {mark.step.number}: {mark.step.text})")
        ink = {"wake": "#9b1c1c", "refused": "#b00020", "nothing": "#777"}.get(mark.tone, "#222")
        # (where a text is turned down it has to keep clear of its mark with its upper edge)
        place, turned = ((x + 3, y + 9), SLANT) if lane.is_hanging else ((x + 5, y - 6), -SLANT)
        self.svg.text(*place, short(mark.text), size=CODE_SIZE, is_code=True, turned=turned, fill=ink)

    def draw_shape(self, tone, x, y, hint=None):
        """The mark of an event."""
        if tone == "answer":
            self.svg.add("rect", None, hint, x=x - 4, y=y - 4, width=8, height=8, fill="#ef8e19", stroke="#8a4f00", stroke_width=0.8)
        elif tone == "refused":
            cross = f"M{x - 4:g} {y - 4:g} l8 8 M{x - 4:g} {y + 4:g} l8 -8"
            self.svg.add("path", None, hint, d=cross, stroke="#b00020", stroke_width=2.6, stroke_linecap="round")
        else:
            fill = {"wake": WAKE_COLOUR, "nothing": "#fff"}.get(tone, "#37474f")
            self.svg.add("circle", None, hint, cx=x, cy=y, r=4, fill=fill, stroke="#37474f", stroke_width=1)

    # ---- below

    def draw_script(self):
        """The lines of the script below their columns; answers where they end."""
        y = self.bottom + 6
        self.svg.text(MARGIN, y + 12, "script", size=12.5, font_weight="bold")
        for step, column, count in self.groups:
            left, right = self.x(column) - self.column / 2 + 2, self.x(column + count - 1) + self.column / 2 - 2
            self.svg.line((left, y - 4), (left, y), (right, y), (right, y - 4), stroke="#5b6770", stroke_width=1)
            self.svg.text((left + right) / 2 - 2, y + 11, short(step.text), size=CODE_SIZE, is_code=True, turned=SLANT)
        end = y + 14 + max(slanted(step.text) for step, _, _ in self.groups)
        ink = "#b00020" if self.story.is_refused else "#555"
        self.svg.text(MARGIN, end + 10, self.story.last, size=CODE_SIZE, is_code=True, fill=ink)
        return end + 30

    def draw_legend(self, y):
        """What the shapes and colours of this picture mean; answers the picture's height."""
        used = {bar.tone for bar in self.story.bars}
        x = MARGIN
        entries = [(tone, meaning) for tone, (_, _, meaning) in TONES.items() if tone in used]
        tones = {mark.tone for mark in self.story.marks}
        entries += [(tone, meaning) for tone, meaning in SHAPES.items() if tone in tones]
        entries += [("wake", "a wake: taken out of a seat, and delivered")] if self.story.wakes else []
        entries += [("pipe", "how much is inside the pipe")] if self.story.pipes else []
        for name, meaning in entries:
            wide = 34 + width_of(meaning, 10)
            if x + wide > self.width - MARGIN:
                x, y = MARGIN, y + 20
            self.draw_key(name, x, y)
            self.svg.text(x + 26, y + 4, meaning, size=10, fill="#444")
            x += wide + 6
        return y + 20

    def draw_key(self, name, x, y):
        """The sample of a legend's entry."""
        if name in TONES:
            outline = {"stroke": "#5b6770", "stroke_width": 0.8}
            self.svg.add("rect", x=x, y=y - 6, width=20, height=12, rx=3, fill=TONES[name][0], **outline)
        elif name in SHAPES:
            self.draw_shape(name, x + 10, y)
        elif name == "wake":
            self.draw_shape("wake", x + 3, y)
            self.svg.line((x + 3, y), (x + 20, y), stroke=WAKE_COLOUR, stroke_width=1.8, marker_end="url(#wake)")
        else:
            self.svg.add("rect", x=x, y=y - 3, width=20, height=9, fill=INSIDE)
            self.svg.line((x, y - 3), (x + 20, y - 3), stroke=SURFACE, stroke_width=1.6)
