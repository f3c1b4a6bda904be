#!/usr/bin/env python3
"""Checks the rooms of crates.txt: each crate stands in one, and on no crate of a later room; within a room lowest first.

    python3 tools/rooms.py         # a line for each that doesn't, else one that counts; status 1 where there is one
    python3 tools/rooms.py ls      # the rooms, each with its crates in reading order

A room is a comment `# Room NAME: what it is` and the lines behind it. The toolchain takes no folders within crates/, so rooms are headings.
"""
import os
import re
import sys

TOP = os.path.dirname(os.path.dirname(os.path.abspath(__file__)))


def read_rooms():
    """The rooms in order, each with its name, what it is, and its crates, each with what it stands on."""
    rooms = [(None, None, {})]
    with open(f"{TOP}/crates.txt", encoding="utf-8") as file:
        for line in file:
            heading = re.match(r"# Room (\w+): (.*)$", line)
            if heading:
                rooms.append((heading[1], heading[2], {}))
            name, colon, deps = line.partition("#")[0].partition(":")
            if colon:
                rooms[-1][2][name.split()[0]] = deps.split()
    return rooms


def findings(rooms):
    """What isn't as it should be, a line each."""
    room_of = {crate: at for at, (_, _, crates) in enumerate(rooms) for crate in crates}
    for crate in rooms[0][2]:
        yield f"{crate} stands in no room"
    for at, (name, _, crates) in enumerate(rooms):
        before = set()
        for crate, deps in crates.items():
            before.add(crate)
            for dep in deps:
                if room_of.get(dep, 0) > at > 0:
                    yield f"{crate} of {name} stands on {dep} of {rooms[room_of[dep]][0]}, a later room"
                elif room_of.get(dep) == at and dep not in before:
                    yield f"{crate} comes before {dep}, on which it stands"


def main(words):
    rooms = read_rooms()
    if words == ["ls"]:
        for name, what, crates in rooms[1:]:
            print(f"{name}: {what}\n    {' '.join(crates)}")
        return 0
    if words:
        print(__doc__.strip(), file=sys.stderr)
        return 2
    found = list(findings(rooms))
    for line in found:
        print(f"crates.txt: {line}")
    if not found:
        print(f"crates.txt: {sum(len(crates) for _, _, crates in rooms)} crates in {len(rooms) - 1} rooms")
    return 1 if found else 0


if __name__ == "__main__":
    sys.exit(main(sys.argv[1:]))
