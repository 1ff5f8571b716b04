#!/usr/bin/env python3
"""Compares docs/definitions.md with the definitions that the headline rests on.

The headline is the contract of `gsi_replay`. What it rests on is found by walking the `use` lines: from the file of the
call and of its two traits to the files in specs/, and from those on. The first table of docs/definitions.md has to
list exactly these files, the second exactly the other files of definitions; copies of code (specs/inner/) are in
neither. Each name that a row gives has to be defined in one of the row's files.

Without arguments: prints what differs; the status is 1 where something does. With --list: prints both lists.
"""
import pathlib
import re
import sys

TOP = pathlib.Path(__file__).resolve().parent.parent
CRATES = TOP / "crates"
ROOTS = ["gsi_main/src/replay.rt", "gsi_main/src/source.rt", "gsi_main/src/sink.rt"]
TABLES = ["What the headline rests on", "What other calls rest on"]
USE = re.compile(r"^\s*(?:ghost\s+)?use\s+Rattle\.([a-z0-9_]+)\.specs\.([^\s{;]+)", re.M)


def name_of(path):
    """`crate Module` of a file in specs/."""
    crate, _, module = path.relative_to(CRATES).with_suffix("").as_posix().partition("/specs/")
    return f"{crate} {module.replace('/', '.')}"


def used_files(path):
    """The files in specs/ that a file's `use` lines name, without types and contracts, which stand in src/."""
    for crate, dotted in USE.findall(path.read_text()):
        parts = [part for part in dotted.strip(".").split(".") if part]
        if not parts or parts[0] in ("declared", "contracts"):
            continue
        for size in range(len(parts), 0, -1):
            file = CRATES / crate / "specs" / ("/".join(parts[:size]) + ".antt")
            if file.exists():
                yield file
                break


def reached():
    seen, todo = set(), [CRATES / root for root in ROOTS]
    while todo:
        for file in used_files(todo.pop()):
            if file not in seen:
                seen.add(file)
                todo.append(file)
    return seen


def all_files():
    return {
        file
        for file in CRATES.glob("*/specs/**/*.antt")
        if file.stem not in ("Lib", "inner") and "inner" not in file.relative_to(CRATES).parts
    }


def rows_of(text, title):
    """The rows of the table under a heading: the names in the first column, and the files in the last."""
    part = text.split(f"## {title}", 1)
    if len(part) < 2:
        sys.exit(f"docs/definitions.md has no heading '{title}'")
    for line in part[1].split("\n## ", 1)[0].splitlines():
        cells = [cell.strip() for cell in line.strip().strip("|").split("|")]
        if len(cells) < 3 or cells[0] == "Definition" or set(cells[0]) <= set("-: "):
            continue
        crate, _, modules = cells[-1].partition(" ")
        files = [CRATES / crate / "specs" / (module.strip().replace(".", "/") + ".antt") for module in modules.split(",")]
        yield re.findall(r"`([^`]+)`", cells[0]), files


def main():
    headline = reached()
    others = all_files() - headline
    if "--list" in sys.argv:
        for title, files in zip(TABLES, (headline, others)):
            print(title, *sorted(map(name_of, files)), sep="\n  ")
        return 0
    faults = [f"{name_of(file)}: a copy of code, but the headline rests on it" for file in headline if "inner" in file.parts]
    text = (TOP / "docs" / "definitions.md").read_text()
    for title, wanted in zip(TABLES, (headline, others)):
        listed = set()
        for names, files in rows_of(text, title):
            listed.update(files)
            defined = "\n".join(file.read_text() for file in files if file.exists())
            for name in names:
                if not re.search(rf"^\s*(?:[a-z]+ )*{re.escape(name)}(?: |$)", defined, re.M):
                    faults.append(f"{name}: not defined in {', '.join(map(name_of, files))}")
        faults += [f"{name_of(file)}: missing under '{title}'" for file in sorted(wanted - listed)]
        faults += [f"{name_of(file)}: doesn't belong under '{title}'" for file in sorted(listed - wanted)]
    for fault in faults:
        print(fault)
    print(f"definitions: {len(headline)} files below the headline, {len(others)} others, {len(faults)} differences")
    return 1 if faults else 0


if __name__ == "__main__":
    sys.exit(main())
