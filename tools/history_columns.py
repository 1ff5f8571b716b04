"""What is drawn of a history: columns from left to right, each with at most one mark in a lane, and the marks' words.

A column is one event. In a long history it may be several equal neighbours: mutations, publications or refusals that
stand together, or requests that began and ended together with one demand, one vector and one outcome. In a very long one
what is equal in a lane is drawn together for some time, also where other lanes' events lie between. Since a column is as
wide as its words, and has one mark in a lane, marks and words can't lie on each other.
"""
from __future__ import annotations

from collections.abc import Iterator
from dataclasses import dataclass
from typing import Any, NamedTuple

from history_report import Command, Event, History, Vector

JOIN_FROM = 300  # more events than these are drawn with equal neighbours together
MOST_COLUMNS = 1500  # where there would be more columns than these, what is equal in a lane is drawn together for some time
LINE_CELLS = 16  # the longest line of a vector's words
VECTOR_LINES = 3  # a vector of more lines is told by its counts
INSTANTS = ("mutate", "publish", "refuse")


class Lane(NamedTuple):
    kind: str  # client or index, which is also their order from the top
    number: int


@dataclass
class Mark:
    """What stands in one lane of a column: the mark's form, its lines of words, and whether it has a bar of its own."""

    form: str
    words: list[str]
    bar: bool = False


@dataclass
class Column:
    """One event, or equal neighbours, and its marks."""

    events: list[Event]
    marks: dict[Lane, Mark]

    @property
    def numbers(self) -> str:
        """The places of its events in the history."""
        first, last = self.events[0], self.events[-1]
        if first.kind == "end":
            return "end"
        return str(first.number) if first is last else f"{first.number}–{last.number}"


Look = tuple[Any, ...]  # what equal events have in common


def columns_of(history: History, events: list[Event]) -> list[Column]:
    """The columns of these events, which are some that stand together, in the order of their first events."""
    if len(events) <= JOIN_FROM:
        return [single(event) for event in events]
    parts = list(parts_of(history, events))
    columns = [column for part in parts for column in joined(history, part)]
    if len(columns) <= MOST_COLUMNS:
        return columns
    return [column for window in windows_of(history, parts) for column in mixed(history, window)]


# Equal neighbours


def is_instant(history: History, event: Event) -> bool:
    """Whether it is a mutation, a publication, or a command that is refused at once."""
    return event.kind in INSTANTS and event.number not in history.command_of


def look_of(history: History, event: Event) -> Look | None:
    """What makes events equal; None where an event is drawn alone."""
    data = event.data
    if is_instant(history, event):
        return event.kind, data.get("i"), data.get("code"), data.get("reason")
    command = history.command_of.get(event.number)
    if command is None or not command.is_request:
        return None
    start, close = command.events[0].data, command.events[-1]
    vectors = str([start["d"], close.data.get("v"), close.data.get("f")])
    return "request", start["i"], vectors, close.kind, close.data.get("code")


def lane_of(event: Event) -> Lane:
    return Lane("index", event.data["i"]) if event.kind == "publish" else Lane("client", event.data["c"])


def parts_of(history: History, events: list[Event]) -> Iterator[list[Event]]:
    """Cuts events into parts of one look."""
    looks = [look_of(history, event) for event in events]
    at = 0
    while at < len(events):
        end = at + 1
        while looks[at] is not None and end < len(events) and looks[end] == looks[at]:
            end += 1
        end = closed_end(history, events, at, end)
        yield events[at:end]
        at = end


def closed_end(history: History, events: list[Event], at: int, most: int) -> int:
    """The last place up to `most` such that no request leads into the part from `at` or out of it; at least the next."""
    end, last = at + 1, 0
    for place in range(at, most):
        event = events[place]
        command = history.command_of.get(event.number)
        if command is not None and command.events[0].number < events[at].number:
            break
        last = max(last, event.number if command is None else command.events[-1].number)
        if last == event.number:
            end = place + 1
    return end


def joined(history: History, part: list[Event]) -> list[Column]:
    """A part's columns: one for each of its lanes, or for each event where no lane has equal neighbours."""
    lanes: dict[Lane, list[Event]] = {}
    for event in part:
        lanes.setdefault(lane_of(event), []).append(event)
    if not any(is_several(events) for events in lanes.values()):
        return [single(event) for event in part]
    return [column(history, events) for events in lanes.values()]


def windows_of(history: History, parts: list[list[Event]]) -> Iterator[list[list[Event]]]:
    """Parts that are drawn as of one time: so many that there aren't too many columns."""
    instants = [event for part in parts if is_instant(history, part[0]) for event in part]
    kinds = {(lane_of(event), look_of(history, event)) for event in instants}
    size = len(instants) * len(kinds) // MOST_COLUMNS
    window: list[list[Event]] = []
    count = 0
    for part in parts:
        window.append(part)
        count += len(part)
        if count > size:
            yield window
            window, count = [], 0
    if window:
        yield window


def mixed(history: History, window: list[list[Event]]) -> list[Column]:
    """A window's columns: one for all that is equal in a lane, and those of the requests and changes among it."""
    columns: list[Column] = []
    equals: dict[tuple[Lane, Look | None], list[Event]] = {}
    for part in window:
        if is_instant(history, part[0]):
            for event in part:
                equals.setdefault((lane_of(event), look_of(history, event)), []).append(event)
        else:
            columns += joined(history, part)
    columns += [column(history, events) for events in equals.values()]
    return sorted(columns, key=lambda column: column.events[0].number)


def column(history: History, events: list[Event]) -> Column:
    """The column of an event, or of equal events of one lane."""
    return Column(events, {lane_of(events[0]): several(history, events)}) if len(events) > 1 else single(events[0])


def is_several(events: list[Event]) -> bool:
    """Whether these events of one lane are more than one mutation, publication, refusal or request."""
    return events[0].data.get("k") != events[-1].data.get("k") or events[0].kind == "publish" and len(events) > 1


def several(history: History, events: list[Event]) -> Mark:
    """The mark of equal neighbours."""
    last = events[-1]
    command = history.command_of.get(last.number)
    if command is not None:
        return several_requests(command, sum(event.kind == "start" for event in events))
    count = f"×{len(events):,}"
    if last.kind == "publish":
        return Mark("publications", [count, "the last:", *vector_words("v", last.data["v"])])
    if last.kind == "refuse":
        return Mark("refusal", [count, *refusal_words(last)])
    return Mark("mutations", [count, f"k{events[0].data['k']}–k{last.data['k']}"])


def several_requests(command: Command, count: int) -> Mark:
    start, close = command.events[0], command.events[-1]
    mark = closing_mark(close, with_rows=False)
    head = f"start ×{count:,}" if count > 1 else f"start k{start.data['k']}"
    words = [head, f"index {start.data['i']}", *vector_words("d", start.data["d"])]
    return Mark(mark.form, words + mark.words, bar=True)


# One event


def single(event: Event) -> Column:
    """The column of one event, or of the end."""
    if event.kind == "end":
        return Column([event], {Lane("index", end["i"]): end_mark(end) for end in event.data["indexes"]})
    marks: dict[Lane, Mark] = {}
    if event.kind != "publish":
        marks[lane_of(event)] = client_mark(event)
    for number in indexes_of(event):
        marks[Lane("index", number)] = index_mark(event)
    return Column([event], marks)


def indexes_of(event: Event) -> list[int]:
    """The indexes in whose lanes an event has a mark."""
    if event.kind in ("define", "publish", "drop"):
        return [event.data["i"]]
    return list(event.data["indexes"]) if event.kind in ("build", "online") else []


def index_mark(event: Event) -> Mark:
    if event.kind == "publish":
        return Mark("publication", vector_words("v", event.data["v"]))
    if event.kind == "define":
        return Mark("birth", [event.data["state"]])
    if event.kind == "drop":
        return Mark("dropped", ["dropped"])
    return Mark("state", ["building" if event.kind == "build" else "online"])


def client_mark(event: Event) -> Mark:
    data, head = event.data, f"{event.kind} k{event.data['k']}"
    if event.kind == "mutate":
        return Mark("mutation", [f"k{data['k']}", f"{data['vb']}:{data['seq']}"])
    if event.kind == "start":
        return Mark("point", [head, f"index {data['i']}", *vector_words("d", data["d"])])
    if event.kind in ("define", "drop"):
        return Mark("point", [head, f"index {data['i']}"])
    if event.kind in ("build", "online"):
        return Mark("point", [head, *wrapped("index ", [str(number) for number in data["indexes"]])])
    if event.kind == "refuse":
        return Mark("refusal", [f"refuse k{data['k']}", *refusal_words(event)])
    return closing_mark(event)


def end_mark(end: dict[str, Any]) -> Mark:
    """An index at the end of the history."""
    return Mark("end", [end["state"], counted(end["rows"], "row"), *vector_words("v", end["v"])])


def refusal_words(event: Event) -> list[str]:
    """A refusal's code and name, and the place or the reason of it."""
    data = event.data
    more = [f"at {data['at']}"] if "at" in data else [data["reason"]] if "reason" in data else []
    return [f"{data['code']} {data['what']}", *more]


def closing_mark(event: Event, with_rows: bool = True) -> Mark:
    """The mark of answer, pick, fetch, not_yet, or of a refuse that closes a request."""
    if event.kind == "refuse":
        return Mark("refusal", refusal_words(event))
    data = event.data
    if event.kind == "not_yet":
        short = f"vb {data['vb']}: {data['have']} of {data['want']}"
        return Mark("not_yet", [f"{data['code']} not_yet", short, *vector_words("v", data["v"])])
    if event.kind == "pick":
        return Mark("point", ["pick", "not covered", *vector_words("v", data["v"])])
    words = ["answer", "covered"] if event.kind == "answer" else ["fetch"]
    vector = vector_words("v", data["v"]) if event.kind == "answer" else vector_words("f", data["f"])
    if "rows" not in data:
        return Mark("refusal", [*words, f"{data['code']} {data['what']}", *vector])
    rows = [counted(len(data["rows"]), "row")] if with_rows else [] if event.kind == "answer" else ["not covered"]
    return Mark("point", [*words, *rows, *vector])


def counted(count: int, thing: str) -> str:
    """`1 row`, `2 rows`, `2 indexes`."""
    many = f"{thing}es" if thing.endswith("x") else f"{thing}s"
    return f"{count:,} {thing if count == 1 else many}"


def vector_words(name: str, vector: Vector) -> list[str]:
    """A vector as the report has it, without quotes; a long one by its counts."""
    if len(vector) <= LINE_CELLS:
        entries = sorted(vector.items(), key=lambda entry: int(entry[0]))
        lines = wrapped(f"{name} {{", [f"{vb}:{number}" for vb, number in entries], "}")
        if len(lines) <= VECTOR_LINES:
            return lines
    return [f"{name} of {counted(len(vector), 'vBucket')}", counted(sum(vector.values()), "mutation")]


def wrapped(head: str, parts: list[str], tail: str = "") -> list[str]:
    """The parts with commas, on as many lines as their width needs."""
    lines = [head]
    for place, part in enumerate(parts):
        piece = part + ("," if place + 1 < len(parts) else "")
        if place and len(lines[-1]) + len(piece) > LINE_CELLS:
            lines.append("")
        lines[-1] += piece
    lines[-1] += tail
    return lines
