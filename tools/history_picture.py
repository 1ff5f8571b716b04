#!/usr/bin/env python3
"""Draws a report of `gsi replay` as a picture, so that what clients saw can be compared with what the service did.

usage: history_picture.py [--from A] [--to B] < report > history.svg

Each client and each index has a lane, and events stand in them from left to right in their order. The picture is made
from the report's lines alone; each mark has a title that shows its line. Beyond some hundreds of events equal neighbours
are drawn together, and --from and --to draw a part, by the numbers of the report's lines. The status is 1 where a line
isn't a report's line, which is then named on standard error.
"""
from __future__ import annotations

import argparse
import sys

from history_drawing import draw
from history_report import Fault, read_report


def main(words: list[str]) -> int:
    parser = argparse.ArgumentParser(description="Draws a report of `gsi replay`, from standard input, as SVG.")
    parser.add_argument("--from", dest="first", type=int, default=1, metavar="A", help="the first event to draw")
    parser.add_argument("--to", dest="last", type=int, metavar="B", help="the last event to draw")
    given = parser.parse_args(words)
    try:
        history = read_report(sys.stdin.buffer)
    except Fault as fault:
        print(fault, file=sys.stderr)
        return 1
    count = len(history.events)
    last = count if given.last is None else min(given.last, count)
    if not 1 <= given.first <= max(last, 1):
        parser.error(f"there is no part from {given.first} to {last} of {count} events")
    sys.stdout.buffer.write(draw(history, given.first, last).encode("utf-8"))
    return 0


if __name__ == "__main__":
    sys.exit(main(sys.argv[1:]))
