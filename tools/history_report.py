"""Reads a report of `gsi replay` (docs/report.md): its lines, and the history that they tell.

Nothing here knows how a history is drawn. A line that isn't a report's line, or that can't stand where it stands, is
a `Fault` with its number.
"""
from __future__ import annotations

import json
from collections.abc import Callable, Iterable
from dataclasses import dataclass, field
from typing import Any

REFUSALS = {
    1: "parse", 2: "keyspace", 3: "bad_definition", 4: "exists", 5: "unknown_index", 6: "not_deferred",
    7: "too_many_indexes", 8: "not_online", 9: "no_index", 10: "dropped", 13: "unbuilt",
}
NOT_YET = (11, "not_yet")
TOO_LARGE = (12, "answer_too_large")

Check = Callable[[Any], bool]
Vector = dict[str, int]


class Fault(Exception):
    """A line that isn't a report's line: its number, from 1, and what is wrong with it."""

    def __init__(self, number: int, why: str) -> None:
        super().__init__(f"line {number}: {why}")
        self.number = number


@dataclass(frozen=True)
class Event:
    """A line of a report: its number, which is its event's place from 1, its text, and what it says."""

    number: int
    line: str
    data: dict[str, Any]

    @property
    def kind(self) -> str:
        return str(self.data["e"])


def is_count(value: Any) -> bool:
    return type(value) is int and value >= 0


def is_list(value: Any) -> bool:
    return isinstance(value, list)


def are_counts(value: Any) -> bool:
    return is_list(value) and all(map(is_count, value))


def is_vector(value: Any) -> bool:
    return isinstance(value, dict) and all(
        name.isascii() and name.isdigit() and is_count(number) for name, number in value.items()
    )


def is_text(value: Any) -> bool:
    return isinstance(value, str)


def one_of(*values: Any) -> Check:
    return lambda value: any(type(value) is type(other) and value == other for other in values)


def has_shape(value: Any, shape: dict[str, Check]) -> bool:
    return isinstance(value, dict) and value.keys() == shape.keys() and all(
        check(value[name]) for name, check in shape.items()
    )


def are_ends(value: Any) -> bool:
    return is_list(value) and all(has_shape(end, END_OF_INDEX) for end in value)


END_OF_INDEX = {
    "i": is_count, "name": is_text, "rows": is_count, "v": is_vector,
    "state": one_of("deferred", "building", "online"),
}
COMMAND = {"c": is_count, "k": is_count}


def refused(code: int, what: str) -> dict[str, Check]:
    return {"code": one_of(code), "what": one_of(what)}


def refusal(code: int, what: str) -> dict[str, Check]:
    """The members of a refuse line with this code."""
    more: dict[str, dict[str, Check]] = {"parse": {"at": is_count}, "bad_definition": {"reason": is_text}}
    return {**COMMAND, **refused(code, what), **more.get(what, {})}


def answered(**more: Check) -> list[dict[str, Check]]:
    """The members of a line with rows, and of one whose rows are too large."""
    results: list[dict[str, Check]] = [{"rows": is_list}, refused(*TOO_LARGE)]
    return [{**COMMAND, "v": is_vector, **more, **result} for result in results]


# For each kind of line the forms of its members, beside "e".
SHAPES: dict[str, list[dict[str, Check]]] = {
    "mutate": [{**COMMAND, "seq": is_count, "vb": is_count}],
    "define": [{**COMMAND, "i": is_count, "state": one_of("deferred", "building")}],
    "build": [{**COMMAND, "indexes": are_counts}],
    "online": [{**COMMAND, "indexes": are_counts}],
    "publish": [{"i": is_count, "v": is_vector}],
    "drop": [{**COMMAND, "i": is_count}],
    "start": [{**COMMAND, "i": is_count, "d": is_vector}],
    "answer": answered(),
    "pick": [{**COMMAND, "v": is_vector}],
    "fetch": answered(f=is_vector),
    "not_yet": [{
        **COMMAND, "code": one_of(NOT_YET[0]), "v": is_vector, "vb": is_count, "want": is_count, "have": is_count,
    }],
    "refuse": [refusal(code, what) for code, what in REFUSALS.items()],
    "end": [{"events": is_count, "high": is_vector, "indexes": are_ends}],
}


def no_number(text: str) -> Any:
    raise ValueError(f"{text} is no whole number")


def read_line(number: int, raw: bytes) -> Event:
    """The event of one line, alone."""
    try:
        line = raw.decode("utf-8").removesuffix("\n")
        data = json.loads(line, parse_float=no_number, parse_constant=no_number)
    except (ValueError, RecursionError):
        raise Fault(number, "not a line of JSON") from None
    kind = data.get("e") if isinstance(data, dict) else None
    if not isinstance(kind, str) or kind not in SHAPES:
        raise Fault(number, "no event of a report")
    members = {name: value for name, value in data.items() if name != "e"}
    if not any(has_shape(members, shape) for shape in SHAPES[kind]):
        raise Fault(number, f"not the members of a line {kind}")
    return Event(number, line, data)


@dataclass
class Command:
    """A command that is open for more than one event."""

    client: int
    events: list[Event]
    indexes: list[int]
    shown: Event | None = None  # the publication whose vector it shows; the definition where there was none

    @property
    def is_request(self) -> bool:
        return self.events[0].kind == "start"


@dataclass
class Life:
    """An index: its name where the end tells it, and its states with the events that began them."""

    number: int
    changes: list[tuple[Event, str]]
    newest: Event  # its newest publication, the definition before there is one
    name: str = ""

    @property
    def state(self) -> str:
        return self.changes[-1][1]

    @property
    def vector(self) -> Vector:
        return self.newest.data.get("v", {})


@dataclass
class History:
    """What a report tells. `command_of` has the command of each event that belongs to one of several events."""

    events: list[Event] = field(default_factory=list)
    commands: list[Command] = field(default_factory=list)
    command_of: dict[int, Command] = field(default_factory=dict)
    lives: dict[int, Life] = field(default_factory=dict)
    end: Event | None = None


class Reader:
    """Reads events one after another into a history, with each client's open command beside it."""

    # What each kind of event may follow in its command; a refuse may also be alone.
    FOLLOWS = {
        "online": ("define", "build"), "refuse": ("define", "build", "start"),
        "answer": ("start",), "pick": ("start",), "not_yet": ("start",), "fetch": ("pick",),
    }

    def __init__(self) -> None:
        self.history = History()
        self.open: dict[int, Command] = {}

    def read(self, event: Event) -> None:
        if self.history.end is not None:
            raise Fault(event.number, "behind the end")
        if event.kind == "end":
            self.finish(event)
            return
        self.history.events.append(event)
        if event.kind == "publish":
            self.live(event, event.data["i"], "building", "online").newest = event
        elif event.data["c"] in self.open:
            self.go_on(event, self.open[event.data["c"]])
        elif event.kind in self.FOLLOWS and event.kind != "refuse":
            raise Fault(event.number, f"{event.kind}, but its client has no open command")
        else:
            self.begin(event)

    def live(self, event: Event, index: int, *states: str) -> Life:
        """The index with this number, which has to be in one of these states."""
        life = self.history.lives.get(index)
        if life is None or life.state not in states:
            raise Fault(event.number, f"{event.kind} of index {index}, which isn't {' or '.join(states)}")
        return life

    def begin(self, event: Event) -> None:
        """The first event of a command."""
        data = event.data
        if event.kind == "define":
            if data["i"] in self.history.lives:
                raise Fault(event.number, f"define of index {data['i']} again")
            self.history.lives[data["i"]] = Life(data["i"], [(event, data["state"])], event)
            if data["state"] == "building":
                self.begin_open(event, [data["i"]])
        elif event.kind == "build":
            for index in data["indexes"]:
                self.live(event, index, "deferred").changes.append((event, "building"))
            self.begin_open(event, data["indexes"])
        elif event.kind == "start":
            self.live(event, data["i"], "online")
            self.begin_open(event, [data["i"]])
        elif event.kind == "drop":
            self.live(event, data["i"], "deferred", "building", "online").changes.append((event, "dropped"))

    def begin_open(self, event: Event, indexes: list[int]) -> None:
        command = Command(event.data["c"], [event], indexes)
        self.history.commands.append(command)
        self.history.command_of[event.number] = command
        self.open[command.client] = command

    def go_on(self, event: Event, command: Command) -> None:
        """A further event of an open command."""
        last = command.events[-1]
        if last.kind not in self.FOLLOWS.get(event.kind, ()) or event.data["k"] != last.data["k"]:
            raise Fault(event.number, f"{event.kind}, but its client's open command is that of line {last.number}")
        if event.kind == "online":
            for index in event.data["indexes"]:
                self.live(event, index, "building").changes.append((event, "online"))
        elif event.kind in ("answer", "pick", "not_yet"):
            life = self.live(event, command.indexes[0], "online")
            if life.vector != event.data["v"]:
                raise Fault(event.number, f"not the vector that index {life.number} has published last")
            command.shown = life.newest
        command.events.append(event)
        self.history.command_of[event.number] = command
        if event.kind != "pick":
            del self.open[command.client]

    def finish(self, event: Event) -> None:
        if event.data["events"] != len(self.history.events):
            raise Fault(event.number, f"the end tells {event.data['events']} events of {len(self.history.events)}")
        for end in event.data["indexes"]:
            self.live(event, end["i"], end["state"]).name = end["name"]
        self.history.end = event


def read_report(lines: Iterable[bytes]) -> History:
    """The history that the lines of a report tell."""
    reader, number = Reader(), 0
    for number, raw in enumerate(lines, 1):
        reader.read(read_line(number, raw))
    if reader.history.end is None:
        raise Fault(number + 1, "the report's last line, its end, is missing")
    return reader.history
