#!/usr/bin/env python3
"""Writes each wrong program of an edit that has several as an edit of its own.

    tools/split_edits.py [--check]

In an edit with several wrong programs each has a line `# NAME (FUNCTION, ..): what it does` above its changes, and all of them are in
at once. The prover tries no function whose callee isn't proved, so one of them can hide another. That's why each also stands alone,
with the same line and the same changes, in NAME.edit beside it (NAME_alone.edit where NAME.edit is another edit). What is missing or
differs is written, and told. With --check nothing is written, and the status is 1 if there is any.
"""
import re
import sys
from pathlib import Path

ROOT = Path(__file__).resolve().parent.parent
HEAD = re.compile(r"# (\w+) \([\w/, ]+\): ")


def programs_in(text):
    """The wrong programs that have a head line: the name, and the text of an edit with that program alone."""
    programs, file = [], None
    for line in text.splitlines():
        head = HEAD.match(line)
        if head:
            programs.append((head[1], [line]))
        elif programs and line:
            own = programs[-1][1]
            if len(own) == 1 and not line.startswith("file: "):
                own.append(file)
            own.append(line)
        if line.startswith("file: "):
            file = line
    return [(name, "\n".join(lines) + "\n") for name, lines in programs]


def place_of(edit, name):
    """Where a program of this edit stands alone."""
    place = edit.with_name(f"{name}.edit")
    if place.exists() and not place.read_text().startswith(f"# {name} ("):
        place = edit.with_name(f"{name}_alone.edit")
    return place


def alone():
    """The text that each program of an edit with several must have alone, by its place, and how many wrong programs there are."""
    edits = {edit: programs_in(edit.read_text()) for edit in sorted(ROOT.glob("crates/*/must-fail/*.edit"))}
    texts = [(place_of(edit, name), text) for edit, programs in edits.items() if len(programs) > 1 for name, text in programs]
    twice = {place for place, _ in texts if [other for other, _ in texts].count(place) > 1}
    if twice:
        sys.exit(f"two wrong programs of one name: {', '.join(sorted(map(told, twice)))}")
    wanted = dict(texts)
    return wanted, sum(max(1, len(programs)) for edit, programs in edits.items() if edit not in wanted)


def differing(wanted):
    return [place for place, text in wanted.items() if not place.exists() or place.read_text() != text]


def told(place):
    return str(place.relative_to(ROOT))


def main():
    check = sys.argv[1:] == ["--check"]
    wanted, _ = alone()
    places = differing(wanted)
    for place in places:
        print(f"{told(place)}: {'differs' if place.exists() else 'missing'}{'' if check else ', written'}")
        if not check:
            place.write_text(wanted[place])
    print(f"{len(wanted)} edits with one wrong program of several, {len(places)} {'to write' if check else 'written'}")
    sys.exit(check and bool(places))


if __name__ == "__main__":
    main()
