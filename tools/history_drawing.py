"""Draws the columns of a history as SVG: where everything stands, and how it looks on light and dark pages.

Columns stand beside each other in strips of a page's width, as words stand in lines. Words are in a monospaced font, so
their width is known. In a client's lane they stand above its line and in an index's lane below its band. An arrow leaves
a publication upwards, runs above the band, and goes up in the column of the answer, where no other lane has anything but
bands and bars that pass.
"""
from __future__ import annotations

import json
import math
import re
import unicodedata
from collections.abc import Iterator
from html import escape
from typing import NamedTuple

from history_columns import JOIN_FROM, Column, Lane, Mark, columns_of, counted, single
from history_report import Command, Event, History, Life

CELL, LINE = 6.8, 13  # a character's width and a line's height
GAP = 14  # between the words of neighbouring columns
NARROWEST = 30  # the least width of a column
MARGIN = 16
NAME_CELLS = 24  # the longest line of a lane's name
STRIP = 1500  # the width at which a picture goes on in a strip below
TITLE_ROOM = 500_000  # about how many characters all titles have together
TITLE_LEAST, TITLE_MOST = 80, 20_000
NEW_LINE = "\n"
SHOWING = ("answer", "pick", "not_yet")  # the events that show a publication's vector

# Roles, the property that they set, and the colours on a light and on a dark page. That of refusals is a middle grey on a
# grey page, between the dark marks and the light bars, and their forms are their own.
COLOURS = [
    ("page", "fill", "#ffffff", "#0d1117"),
    ("ink", "fill", "#1f2328", "#e6edf3"),
    ("soft", "fill", "#59636e", "#9aa4ae"),
    ("rule", "stroke", "#d1d9e0", "#30363d"),
    ("edge", "stroke", "#1f2328", "#e6edf3"),
    ("arrow", "stroke", "#59636e", "#9aa4ae"),
    ("online", "fill", "#b9d7f5", "#1f4b78"),
    ("stripe", "stroke", "#6f9fd0", "#4f83b8"),
    ("request", "fill", "#b4dfbc", "#245c37"),
    ("fetched", "stroke", "#3f8f55", "#57ab6f"),
    ("work", "fill", "#ece8f7", "#352d52"),
    ("bad", "fill", "#c8400a", "#ff8f66"),
    ("on-bad", "stroke", "#ffffff", "#0d1117"),
]
STYLE = """\
text{font:11px ui-monospace,Menlo,Consolas,"DejaVu Sans Mono",monospace;text-anchor:middle;white-space:pre}
.l{text-anchor:start}.r{text-anchor:end}.b{font-weight:bold}
.rule,.edge,.arrow,.stripe,.fetched,.on-bad{fill:none}
.work{stroke:#8d7fc0}.on-bad{stroke-width:2}
.building{fill:url(#stripes)}.deferred{fill:none;stroke-dasharray:3 3}.deferred,.fetched{pointer-events:all}
.fetched{stroke-width:1.5;stroke-dasharray:5 2}.dotted{stroke-dasharray:1 3}.short{stroke-dasharray:5 3}
"""
DEFINITIONS = """\
<defs><pattern id="stripes" width="6" height="6" patternUnits="userSpaceOnUse" patternTransform="rotate(45)">\
<path class="stripe" d="M0 0V6" stroke-width="3"/></pattern>\
<marker id="head" viewBox="0 0 8 8" refX="7" refY="4" markerWidth="7" markerHeight="7" orient="auto">\
<path class="soft" d="M0 0L8 4L0 8z"/></marker></defs>"""
# Each kind of mark at (0, 0).
FORMS = {
    "mutation": '<path class="ink" d="M-1.5-9h3V9h-3z"/>',
    "mutations": '<path class="ink" d="M-9-9h3V9h-3zM-4-9h3V9h-3zM1-9h3V9h-3zM6-9h3V9h-3z"/>',
    "point": '<circle class="ink" r="4"/>',
    "refusal": '<path class="bad" d="M-8-8H8V8H-8z"/><path class="on-bad" d="M-4-4L4 4M4-4L-4 4"/>',
    "not_yet": '<path class="bad" d="M-9-8H9L0 9z"/>',
    "publication": '<path class="ink" d="M0-8L7 0L0 8L-7 0z"/>',
    "publications": '<path class="ink" d="M-5-8L2 0L-5 8L-12 0zM5-8L12 0L5 8L2 4.6L6 0L2-4.6z"/>',
    "birth": '<path class="page edge" d="M0-8L7 0L0 8L-7 0z"/>',
    "state": '<path class="ink" d="M-1-8h2V8h-2z"/>',
    "dropped": '<path class="edge" d="M-6-6L6 6M6-6L-6 6" stroke-width="2.5"/>',
}
BANDS = {"deferred": "deferred edge", "building": "building edge", "online": "online"}
LEGEND = [
    ("mutation", "mutation: command, vBucket:number"),
    ("mutations", "×n: equal neighbours together"),
    ("request", "request, from start to answer"),
    ("fetched", "pick to fetch: not covered"),
    ("work", "definition or build"),
    ("refusal", "refusal: code and name"),
    ("not_yet", "not yet: the vBucket has n of m"),
    ("deferred", "index deferred"),
    ("building", "building"),
    ("online", "online"),
    ("publication", "publication and its vector v"),
    ("birth", "definition: the zero vector"),
    ("dropped", "dropped"),
    ("arrow", "from the publication that a request shows"),
]


def cells(text: str) -> int:
    """How many cells of the font a text takes at most."""
    return sum(2 if unicodedata.east_asian_width(letter) in "WF" else 1 for letter in text)


def width_of(lines: list[str]) -> float:
    return max(map(cells, lines), default=0) * CELL


def visible(name: str) -> str:
    """A name with what can't be seen written as JSON escapes it."""
    return "".join(letter if letter.isprintable() else json.dumps(letter)[1:-1] for letter in name)


def xml(text: str) -> str:
    """A text for XML, which has no place for some characters."""
    return escape(re.sub("[^\t\n\r -\ud7ff\ue000-\ufffd\U00010000-\U0010ffff]", "\ufffd", text), quote=False)


def plain(value: float) -> str:
    return f"{value:.1f}".removesuffix(".0")


def words_at(x: float, y: float, lines: list[str], classes: str) -> Iterator[str]:
    """Lines of words, the first one's base at y."""
    for place, line in enumerate(lines):
        yield f'<text class="{classes}" x="{plain(x)}" y="{plain(y + place * LINE)}">{xml(line)}</text>'


class Order:
    """Where events stand among the columns."""

    def __init__(self, columns: list[Column]) -> None:
        self.count = len(columns)
        self.first = columns[0].events[0].number if columns else 1
        self.places = {event.number: place for place, column in enumerate(columns) for event in column.events}

    def place(self, number: int | None) -> float:
        """The place of an event's column; what isn't drawn stands before or behind all columns."""
        if number is None:
            return math.inf
        return self.places.get(number, -1 if number < self.first else math.inf)


class Arrow(NamedTuple):
    """From a publication to the event of a request that shows its vector, with its tip."""

    source: Event
    shows: Event
    x: float
    y: float


class Strip:
    """Columns beside each other, with the lanes that have something there."""

    def __init__(self, history: History, order: Order, begin: int, columns: list[Column], left: float, top: float) -> None:
        self.history, self.order, self.columns, self.left, self.top = history, order, columns, left, top
        self.begin, self.end = begin, begin + len(columns) - 1  # the places of the first and the last column
        self.title_room = min(TITLE_MOST, TITLE_ROOM // (order.count + 1))
        self.commands = [command for command in history.commands if self.meets(command)]
        self.used: set[str] = set()
        self.centres: list[float] = []
        self.right = left
        for column in columns:
            width = width_of_column(column)
            self.centres.append(self.right + width / 2)
            self.right += width
        self.names = self.lane_names()
        self.base: dict[Lane, float] = {}  # where a lane's line is
        self.bottom = top + LINE
        for lane in self.names:
            self.place_lane(lane)

    # Where it stands

    def has(self, number: int) -> bool:
        return self.begin <= self.order.place(number) <= self.end

    def meets(self, command: Command) -> bool:
        first, last = command.events[0].number, command.events[-1].number
        return self.order.place(first) <= self.end and self.order.place(last) >= self.begin

    def at(self, number: int | None) -> float:
        """The x of an event, or the edge behind which it lies."""
        place = self.order.place(number)
        if place < self.begin:
            return self.left
        return self.centres[int(place) - self.begin] if place <= self.end else self.right

    def lane_names(self) -> dict[Lane, list[str]]:
        """The lanes from top to bottom, each with the lines of its name."""
        lanes = {lane for column in self.columns for lane in column.marks}
        lanes |= {Lane("client", command.client) for command in self.commands}
        lanes |= {Lane("index", life.number) for life in self.history.lives.values() if any(self.spans(life))}
        return {lane: name_of(self.history, lane) for lane in sorted(lanes)}

    def place_lane(self, lane: Lane) -> None:
        """Gives a lane the next place below, as high as its words need."""
        lines = max([len(column.marks[lane].words) for column in self.columns if lane in column.marks], default=0)
        if lane.kind == "client":
            self.base[lane] = self.bottom + 12 + LINE * lines + 12
            self.bottom = self.base[lane] + 14
        else:
            self.base[lane] = self.bottom + 30
            self.bottom = self.base[lane] + 12 + LINE * max(lines, len(self.names[lane]) - 1)

    def words(self, x: float, lane: Lane, mark: Mark) -> Iterator[str]:
        """A mark's words: above the line of a client, below that of an index."""
        base, lines = self.base[lane], mark.words
        first = base - 14 - LINE * (len(lines) - 1) if lane.kind == "client" else base + 24
        return words_at(x, first, lines, "bad b" if mark.form in ("refusal", "not_yet") else "ink")

    def spans(self, life: Life) -> Iterator[tuple[str, Event, int | None]]:
        """The states of an index here, each with the event that began it and the number of the one that ended it."""
        ends = [event.number for event, _ in life.changes[1:]] + [None]
        for (event, state), end in zip(life.changes, ends):
            begins = self.order.place(event.number)
            if state in BANDS and begins <= self.end and self.order.place(end) >= self.begin:
                yield state, event, end

    # How it is written

    def svg(self) -> Iterator[str]:
        yield from self.draw_lanes()
        yield from self.draw_bands()
        yield from self.draw_bars()
        yield from self.draw_links()
        yield from self.draw_arrows()
        yield from self.draw_columns()

    def title(self, events: list[Event]) -> str:
        """A title that shows these events' lines, as many as there is room for."""
        shown = events if len(events) <= 6 else [*events[:4], *events[-2:]]
        room = max(TITLE_LEAST, self.title_room // len(shown))
        lines = [shortened(event.line, room) for event in shown]
        if len(shown) < len(events):
            lines.insert(4, f"… {len(events) - len(shown):,} more lines …")
        return f"<title>{xml(NEW_LINE.join(lines))}</title>"

    def draw_lanes(self) -> Iterator[str]:
        """The lanes' lines and names."""
        for lane, lines in self.names.items():
            base = self.base[lane]
            yield f'<path class="rule" d="M{plain(self.left)} {plain(base)}H{plain(self.right)}"/>'
            yield from words_at(MARGIN, base + 4, lines, "ink l")

    def draw_bands(self) -> Iterator[str]:
        for life in self.history.lives.values():
            for state, event, end in self.spans(life):
                base = self.base[Lane("index", life.number)]
                yield self.bar(state, BANDS[state], self.at(event.number), self.at(end), base, [event])

    def draw_bars(self) -> Iterator[str]:
        """The bars of commands of more than one event."""
        for command in self.commands:
            base = self.base[Lane("client", command.client)]
            for before, event in zip(command.events, command.events[1:]):
                left, right = self.at(before.number), self.at(event.number)
                if left < right:
                    form = "fetched" if before.kind == "pick" else "request" if command.is_request else "work"
                    yield self.bar(form, form, left, right, base, [before, event])

    def bar(self, form: str, classes: str, left: float, right: float, base: float, events: list[Event]) -> str:
        self.used.add(form)
        return (
            f'<rect class="{classes}" x="{plain(left)}" y="{plain(base - 6)}"'
            f' width="{plain(right - left)}" height="12">{self.title(events)}</rect>'
        )

    def draw_links(self) -> Iterator[str]:
        """Dotted lines from a client's mark to the bands that it changes."""
        for x, column in zip(self.centres, self.columns):
            bases = [self.base[lane] for lane in column.marks]
            if len(bases) > 1 and column.events[0].kind != "end":
                yield f'<path class="arrow dotted" d="M{plain(x)} {plain(min(bases))}V{plain(max(bases))}"/>'

    def arrows(self) -> Iterator[Arrow]:
        """The arrows whose tips are here, one for each column."""
        tips: set[float] = set()
        for command in self.commands:
            shows = next((event for event in command.events if event.kind in SHOWING), None)
            if command.shown is None or shows is None or not self.has(shows.number):
                continue
            tip = self.at(shows.number)
            if tip not in tips:
                tips.add(tip)
                yield Arrow(command.shown, shows, tip, self.base[Lane("client", command.client)] + 10)

    def draw_arrows(self) -> Iterator[str]:
        """From each publication up, along its band, and up to each request that shows its vector."""
        sources: dict[int, list[Arrow]] = {}
        for arrow in self.arrows():
            sources.setdefault(arrow.source.number, []).append(arrow)
        for arrows in sources.values():
            self.used.add("arrow")
            source = arrows[0].source
            height = self.base[Lane("index", source.data["i"])] - 16
            yield from self.draw_trunk(source, height, max(arrow.x for arrow in arrows))
            for arrow in arrows:
                classes = "arrow short" if arrow.shows.kind == "not_yet" else "arrow"
                yield (
                    f'<path class="{classes}" d="M{plain(arrow.x)} {plain(height)}V{plain(arrow.y)}"'
                    f' marker-end="url(#head)">{self.title([source, arrow.shows])}</path>'
                )

    def draw_trunk(self, source: Event, height: float, right: float) -> Iterator[str]:
        """What the arrows from one publication have together; where it stands further left, its number."""
        left = self.at(source.number)
        if self.has(source.number):
            start = f"M{plain(left)} {plain(height + 8)}V{plain(height)}"
        else:
            start = f"M{plain(left)} {plain(height)}"
            yield from words_at(left - 3, height + 4, [str(source.number)], "soft r")
        yield f'<path class="arrow" d="{start}H{plain(right)}">{self.title([source])}</path>'

    def draw_columns(self) -> Iterator[str]:
        for x, column in zip(self.centres, self.columns):
            title = self.title(column.events)
            yield f"<g>{title}"
            yield from words_at(x, self.top + 6, [column.numbers], "soft")
            for lane, mark in column.marks.items():
                yield from self.draw_mark(x, lane, mark)
            yield "</g>"

    def draw_mark(self, x: float, lane: Lane, mark: Mark) -> Iterator[str]:
        self.used.add(mark.form)
        base = self.base[lane]
        if mark.bar:
            self.used.add("request")
            yield f'<path class="request" d="M{plain(x - 24)} {plain(base - 6)}h48v12h-48z"/>'
        if mark.form in FORMS:
            yield f'<g transform="translate({plain(x)} {plain(base)})">{FORMS[mark.form]}</g>'
        yield from self.words(x, lane, mark)


class Picture:
    """The events of a history from `first` to `last`: words, strips below each other, and what the marks mean."""

    def __init__(self, history: History, first: int, last: int) -> None:
        self.history, self.first, self.last = history, first, last
        events = history.events[first - 1:last]
        columns = columns_of(history, events)
        self.together, self.mixed = len(columns) < len(events), are_mixed(columns)
        if last == len(history.events) and history.end is not None:
            columns.append(single(history.end))
        order = Order(columns)
        left = MARGIN + GAP + max((width_of(name_of(history, lane)) for lane in lanes_of(history)), default=0)
        self.head = self.head_lines()
        self.bottom = MARGIN + LINE * (len(self.head) + 1.0)
        self.strips: list[Strip] = []
        begin = 0
        for some in cut(columns, STRIP - left):
            self.strips.append(Strip(history, order, begin, some, left, self.bottom))
            self.bottom = self.strips[-1].bottom + 2 * LINE
            begin += len(some)
        self.width = MARGIN + max(640, left + width_of(self.head), *(strip.right for strip in self.strips))

    def head_lines(self) -> list[str]:
        """The lines of words above the picture."""
        history = self.history
        clients = len({event.data["c"] for event in history.events if "c" in event.data})
        counts = [(len(history.events), "event"), (clients, "client"), (len(history.lives), "index")]
        lines = [", ".join(counted(*count) for count in counts)]
        if (self.first, self.last) != (1, len(history.events)):
            lines.append(f"events {self.first:,} to {self.last:,} are drawn")
        if self.together:
            lines.append("equal neighbours are drawn together (×n)")
        if self.mixed:
            lines.append("columns whose numbers overlap are of one time: their events lie among each other")
        if self.together:
            lines.append(f"--from A --to B draws a part; up to {JOIN_FROM} events stand one by one")
        return lines

    def svg(self) -> str:
        strips = [line for strip in self.strips for line in strip.svg()]
        legend, bottom = self.legend()
        width, height = plain(self.width), plain(bottom)
        return "\n".join([
            f'<svg xmlns="http://www.w3.org/2000/svg" width="{width}" height="{height}"'
            f' viewBox="0 0 {width} {height}">',
            f"<style>\n{STYLE}{colours()}</style>", DEFINITIONS,
            f'<path class="page" d="M0 0H{width}V{height}H0z"/>',
            *words_at(MARGIN, MARGIN + LINE - 3, self.head[:1], "ink l b"),
            *words_at(MARGIN, MARGIN + 2 * LINE - 3, self.head[1:], "soft l"),
            *strips, *legend, "</svg>", "",
        ])

    def legend(self) -> tuple[list[str], float]:
        """What the marks of this picture mean, and the picture's height."""
        used = {form for strip in self.strips for form in strip.used}
        parts: list[str] = []
        x, y = float(MARGIN), self.bottom
        for form, meaning in LEGEND:
            if form not in used:
                continue
            need = 48 + width_of([meaning])
            if x > MARGIN and x + need > self.width:
                x, y = float(MARGIN), y + 22
            parts += [sample(form, x, y), *words_at(x + 32, y + 4, [meaning], "soft l")]
            x += need
        return parts, y + 2 * LINE


def are_mixed(columns: list[Column]) -> bool:
    """Whether there are columns with events that lie among each other."""
    return any(before.events[-1].number > column.events[0].number for before, column in zip(columns, columns[1:]))


def lanes_of(history: History) -> set[Lane]:
    return {Lane("client", event.data["c"]) for event in history.events if "c" in event.data} | {
        Lane("index", number) for number in history.lives
    }


def name_of(history: History, lane: Lane) -> list[str]:
    """The lines of a lane's name: its number, and an index's name where the end tells it."""
    name = visible(history.lives[lane.number].name) if lane.kind == "index" else ""
    return [f"{lane.kind} {lane.number}", *(name[at:at + NAME_CELLS] for at in range(0, len(name), NAME_CELLS))]


def width_of_column(column: Column) -> float:
    words = [column.numbers, *(line for mark in column.marks.values() for line in mark.words)]
    return max(NARROWEST, width_of(words) + GAP)


def cut(columns: list[Column], room: float) -> Iterator[list[Column]]:
    """Cuts columns into strips, where they have no room beside each other."""
    strip: list[Column] = []
    left = room
    for column in columns:
        width = width_of_column(column)
        if strip and width > left:
            yield strip
            strip, left = [], room
        strip.append(column)
        left -= width
    yield strip


def sample(form: str, x: float, y: float) -> str:
    """A mark for the legend."""
    if form in FORMS:
        return f'<g transform="translate({plain(x + 12)} {plain(y)})">{FORMS[form]}</g>'
    if form == "arrow":
        return f'<path class="arrow" d="M{plain(x)} {plain(y)}h24" marker-end="url(#head)"/>'
    return f'<rect class="{BANDS.get(form, form)}" x="{plain(x)}" y="{plain(y - 6)}" width="24" height="12"/>'


def shortened(line: str, most: int) -> str:
    """A line, or its two ends with its length between them where it is longer than there is room for."""
    if len(line) <= most:
        return line
    return f"{line[:most * 2 // 3]} … ({len(line):,} characters in all) … {line[-(most // 3):]}"


def colours() -> str:
    """The rules of style for light pages, and for dark ones."""
    light, dark = (
        "\n".join(f".{role}{{{kind}:{pair[place]}}}" for role, kind, *pair in COLOURS) for place in (0, 1)
    )
    return f"{light}\n@media (prefers-color-scheme: dark) {{\n{dark}\n}}\n"


def draw(history: History, first: int, last: int) -> str:
    """The picture of the events from `first` to `last`, as SVG."""
    return Picture(history, first, last).svg()
