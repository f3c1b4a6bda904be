#!/usr/bin/env python3
"""Looks at the types of must-fail edits, and proves nothing: `tools/more-edits.sh --types [CRATE..]`.

An edit whose new text isn't well typed is refused by the compiler, which shows nothing of a contract. All edits of a crate that stand in
different functions are put in at once, in a copy of the repository, and `rt try --test` reads that; where it finds an error they are halved, until it is
known which edit has it. Without names those of all crates are looked at. A line for each edit that can't be read, and one for each crate;
the exit status is 0 only where all can. An edit of a definition or a proof isn't looked at: those are read by the prover alone. One that has a line which nobody reads, or that
changes nothing, is told too: its texts are one line each.
"""
import glob
import os
import re
import shutil
import subprocess
import sys
import tempfile

TOP = os.path.dirname(os.path.dirname(os.path.abspath(__file__)))
FUNCTION = re.compile(r"^\s*(pub(\([^)]*\))? )?(const |unsafe )*fn \w+")
TEST = "\n#[test]\nfn types_are_looked_at(_rt: HostRuntime) {}\n"


class Edit:
    """An edit: its name, and the texts that it exchanges in each file."""

    def __init__(self, path):
        self.path, self.changes, self.fault = path, [], None
        file = old = None
        with open(path, encoding="utf-8") as lines:
            for line in lines.read().split("\n"):
                if line.startswith("file: "):
                    file = line[len("file: "):]
                elif line.startswith("old: "):
                    old = line[len("old: "):]
                elif line.startswith("new:"):
                    self.changes.append((file, old, line[len("new: "):]))
                elif line and not line.startswith("check: "):
                    self.fault = "a line of it is read by nobody: each text is one line"
        if any(old == new for _, old, new in self.changes):
            self.fault = self.fault or "its new text is its old one"

    def places(self, crate):
        """The functions that it changes, or lines where it changes none; None where an old text doesn't stand once."""
        found = set()
        for file, old, _ in self.changes:
            with open(f"{crate}/{file}", encoding="utf-8") as source:
                text = source.read()
            if text.count(old) != 1:
                # (a later pair of an edit may exchange what an earlier one made)
                if found:
                    continue
                return None
            before = text[:text.index(old) + len(old)].split("\n")
            at = next((number for number in range(len(before) - 1, -1, -1) if FUNCTION.match(before[number])), len(before) - 1)
            found.add((file, at))
        return found

    def put_in(self, crate):
        """Exchanges its texts."""
        for file, old, new in self.changes:
            with open(f"{crate}/{file}", encoding="utf-8") as source:
                text = source.read()
            with open(f"{crate}/{file}", "w", encoding="utf-8") as source:
                source.write(text.replace(old, new))


class Crate:
    """A crate in a copy of the repository, whose sources are put back after each look."""

    def __init__(self, copy, name):
        self.folder = f"{copy}/crates/{name}"
        self.kept = f"{copy}/kept"
        shutil.copytree(f"{self.folder}/src", self.kept)

    def error(self, edits):
        """The first error with these edits put in, or None."""
        shutil.rmtree(f"{self.folder}/src")
        shutil.copytree(self.kept, f"{self.folder}/src")
        for edit in edits:
            edit.put_in(self.folder)
        root = next(it for it in ("lib", "main") if os.path.exists(f"{self.folder}/src/{it}.rt"))
        with open(f"{self.folder}/src/{root}.rt", "a", encoding="utf-8") as file:
            file.write(TEST)
        said = subprocess.run(["rt", "try", "--test", "--seconds", "900"], cwd=self.folder, stdin=subprocess.DEVNULL, capture_output=True, text=True)
        lines = (said.stdout + said.stderr).split("\n")
        return next((line for line in lines if "error[" in line or line.startswith("rattle: error")), None)

    def bad(self, edits):
        """The edits that can't be read, each with its error."""
        error = self.error(edits)
        if error is None:
            return []
        if len(edits) == 1:
            return [(edits[0], error)]
        half = len(edits) // 2
        return self.bad(edits[:half]) + self.bad(edits[half:])


def look_at(copy, name):
    """Looks at the edits of a crate. How many can't be read."""
    edits, skipped, bad = [], 0, []
    paths = sorted(glob.glob(f"{copy}/crates/{name}/m*-*/*.edit"))
    for path in paths:
        edit = Edit(path)
        if edit.fault:
            bad.append((edit, edit.fault))
            continue
        if any(not file.endswith(".rt") for file, _, _ in edit.changes):
            skipped += 1
            continue
        places = edit.places(f"{copy}/crates/{name}")
        if places is None:
            bad.append((edit, "its old text doesn't stand once"))
        else:
            edits.append((edit, places))
    groups = []
    for edit, places in edits:
        group = next((it for it in groups if not it[1] & places), None)
        if group is None:
            group = ([], set())
            groups.append(group)
        group[0].append(edit)
        group[1].update(places)
    crate = Crate(copy, name)
    for group, _ in groups:
        bad += crate.bad(group)
    shutil.rmtree(crate.kept)
    for edit, error in bad:
        print(f"can't be read: {os.path.relpath(edit.path, copy + '/crates')}: {error}", flush=True)
    print(f"{name}: {len(paths)} edits, of which {skipped} aren't looked at, in {len(groups)} looks; {len(bad)} can't be read", flush=True)
    return len(bad)


def main(names):
    names = names or sorted({path.split("/")[-3] for path in glob.glob(f"{TOP}/crates/*/m*-*/*.edit")})
    with tempfile.TemporaryDirectory() as copy:
        for it in ("crates.txt", "HANDLES"):
            shutil.copy(f"{TOP}/{it}", copy)
        shutil.copytree(f"{TOP}/crates", f"{copy}/crates", ignore=shutil.ignore_patterns("out"))
        bad = sum(look_at(copy, name) for name in names if glob.glob(f"{copy}/crates/{name}/m*-*/*.edit"))
    return 1 if bad else 0


if __name__ == "__main__":
    sys.exit(main(sys.argv[1:]))
