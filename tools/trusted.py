#!/usr/bin/env python3
"""Writes docs/TRUSTED.md: which files of definitions README's points 5 to 9 rest on (the headline, the lock's fact, what a printer's worker tells, what is kept, what
an audit reads), in reading order.

    python3 tools/trusted.py            # writes the page
    python3 tools/trusted.py --check    # status 1, and a line that names what differs, where the page is stale

The files are found from the `use` lines: of the definitions, and of the code whose clauses cite them. A file stands after all that
it uses. Its lines are counted without comments and blank ones, and its sentence is the first of its first comment.
"""

import os
import re
import sys
import textwrap

TOP = os.path.dirname(os.path.dirname(os.path.abspath(__file__)))
PAGE = "docs/TRUSTED.md"

# Each part of the page, with where the search for its files begins. A file stands in the first part that needs it.
PARTS = [
    (
        "The headline",
        "What `Headline` (the last file of this part) says of a trace: which steps a spool was told, which replies are right, and "
        "what holds of every trace of right replies.",
        ["crates/spool_trace/specs/Headline.antt"],
    ),
    (
        "That the code meets it",
        "What the clauses of `World::run` (`crates/spool_world/src/run.rt`) name beyond that: what is seen of a world and of its "
        "core, and which traces lead to it.",
        ["crates/spool_core/specs/Inside.antt", "crates/spool_world/specs/Inside.antt", "crates/spool_world/src/run.rt"],
    ),
    (
        "What the lock keeps",
        "What `IsHeld` names beyond that: the invariant of `Locked` (`crates/locked_spool/src/locked.rt`), so it holds whenever the "
        "lock is free; and what `finish` and `rotate` of a spool that threads share say of each segment of its account "
        "(`IsLegalSegment`, `HasHeadline`).",
        ["crates/locked_spool/specs/Held.antt", "crates/locked_spool/specs/Segments.antt"],
    ),
    (
        "What a printer's worker tells",
        "What the clauses of `work` (`crates/printer_worker/src/worker.rt`) name beyond that, and of the sinks that a printer on the network and a "
        "folder have (`SocketSink`, `FolderSink` and the three laws of `crates/printer_sinks`).",
        ["crates/printer_worker/src/worker.rt", "crates/printer_sinks/src/socket.rt", "crates/printer_sinks/src/folder.rt", "crates/printer_sinks/src/laws.rt"],
    ),
    (
        "What is kept",
        "What the clauses of `keep`, `serve_kept`, `streams_are_read`, `recover` and `feed_one` name beyond that, and of the traits of a folder, `Folder` "
        "(`crates/kept_jobs/src/folder.rt`) and `Store` (`crates/job_store/src/store.rt`), which say what a disk has to do.",
        ["crates/kept_jobs/src/folder.rt", "crates/kept_jobs/src/keeping.rt", "crates/kept_requests/src/serving.rt", "crates/job_streams/src/laws.rt",
         "crates/job_store/src/store.rt", "crates/job_store/src/recovering.rt", "crates/kept_recovery/src/feeding.rt"],
    ),
    (
        "What an audit reads",
        "What the clauses of `SegmentAudit::read` (`crates/segment_audit/src/audit.rt`), of `page_matches`, `PrinterTrail::take` and `judge_job` "
        "(`crates/printed_pages`) name beyond that.",
        ["crates/segment_audit/src/audit.rt", "crates/printed_pages/src/page.rt", "crates/printed_pages/src/trail.rt", "crates/printed_pages/src/folder.rt"],
    ),
]

HEAD = """\
# What must be believed

<!-- Made by tools/trusted.py from the `use` lines; write it anew by `python3 tools/trusted.py`. -->

A proof says that code meets a definition. So whoever relies on the headline, on what the lock keeps (`docs/PROVED.md` has
both in words), or on README's points 7 to 9, has to believe four things besides, and can read the second one on this page:

1. **The toolchain**: its logic and its prover, its compilers, the crates of its kit that `docs/PROVED.md` names, and the libraries
   that the definitions name: {libraries}.
2. **The definitions listed here**: that they say what a spooler should do. They are {files} files with {lines} lines. Nothing
   else of the repository has to be read for that: no proof, no law, and of the code only the clauses that cite these files, and
   the types of the last list, which definitions name as they stand in code.
3. **What the contracts of the standard library say of files, sockets, threads and the clock.** They don't say which octets come
   or go. That a job's octets are those that its host sent, and that a page which was written is on paper, is no part of any
   statement here.
4. **A disk and a clock**, of which no contract of the standard library says anything. Each is asked in one place:
   - *The disk*, in `job_disk` alone, whose files are the trait's: octets that were written and synced (`sync`) are in the file after a crash, as
     written; a file that was renamed (`publish`) has its old name or its new one after a crash, and the new one once the folder was synced
     (`sync_names`); what was removed may be there again, and no other file changes by any of that; a file that is read has the octets that it was
     left with. The last one is looked at: a kept job ends in a digest, and one that doesn't match isn't fed. A sync that fails may have lost what it was for.
   - *The clock* that counts from the machine's start doesn't go back, and is read or told as unreadable: pauses, patience and silence are counted by
     it, and no statement here is about time. The time of day is told in the account and the log, and may jump: a segment's end is never told as before its
     beginning.

A line counts where it is neither blank nor a comment. Paths are below `crates/`, and each file stands after all that it uses.
"""

TYPES = """\
## Types of the code

Definitions name these structs, enums and constants as the code declares them. Where one has a `ghost view`, that says which value a
definition sees of it.

| File | Names |
|---|---|
"""


def read(path):
    with open(os.path.join(TOP, path), encoding="utf-8") as file:
        return file.read()


def stop(fault):
    print(fault)
    sys.exit(1)


def used_by(path):
    """The modules that a file uses, in order."""
    found = []
    for line in read(path).splitlines():
        match = re.match(r"\s*(?:pub |ghost )*use (Rattle\.[^\s{]+)", line)
        if match:
            found.append(match.group(1).rstrip("."))
    return found


def definitions_of(module):
    """The file of definitions that a module of this repository stands in."""
    crate, names = module.split(".")[1], module.split(".")[3:]
    for count in range(len(names), 0, -1):
        path = f"crates/{crate}/specs/{'/'.join(names[:count])}.antt"
        if os.path.exists(os.path.join(TOP, path)):
            return path
    return None


def code_of(module):
    """The file of code that declares a type, and the type's name: `Rattle.CRATE.specs.declared.FILE.TYPE..`,
    or without FILE where that is lib.rt."""
    crate, names = module.split(".")[1], module.split(".")[4:]
    if names[0][0].isupper():
        # (it stands in the crate's own file)
        names.insert(0, "lib")
    path = f"crates/{crate}/src/{names[0]}.rt"
    name = "the constants" if names[1] == "TheConstants" else f"`{names[1]}`"
    return path, name


class Closure:
    """All that some files rest on: other files of definitions before them, types of the code, modules of libraries."""

    def __init__(self):
        self.order, self.seen, self.types, self.libraries = [], set(), {}, set()

    def add(self, path):
        if path in self.seen:
            return
        self.seen.add(path)
        for module in used_by(path):
            self.add_module(path, module)
        if path.endswith(".antt"):
            self.order.append(path)

    def add_module(self, path, module):
        crate = module.split(".")[1]
        if not os.path.isdir(os.path.join(TOP, "crates", crate)):
            self.libraries.add(crate)
        elif ".specs.declared." in module:
            file, name = code_of(module)
            if not os.path.exists(os.path.join(TOP, file)):
                stop(f"{path} uses {module}, and there is no {file}")
            self.types.setdefault(file, set()).add(name)
        else:
            other = definitions_of(module)
            if other is None:
                stop(f"{path} uses {module}, which stands in no file of definitions")
            self.add(other)


def lines_of(path):
    lines = (line.strip() for line in read(path).splitlines())
    return sum(1 for line in lines if line and not line.startswith("--"))


def sentence_of(path):
    """The first sentence of the comment with which a file begins."""
    words = []
    for line in read(path).splitlines():
        if not line.startswith("--"):
            break
        words.append(line.lstrip("-").strip())
    text = " ".join(words)
    if not text:
        stop(f"{path} doesn't begin with a comment that says what it holds")
    return re.split(r"(?<=\.) ", text)[0].replace("|", "\\|")


def page():
    closure = Closure()
    parts = []
    for title, says, roots in PARTS:
        before = len(closure.order)
        for root in roots:
            closure.add(root)
        parts.append((title, says, closure.order[before:]))
    total = sum(lines_of(path) for path in closure.order)
    libraries = ["std"] + sorted(closure.libraries - {"std"})
    names = ", ".join(f"`{name}`" for name in libraries)
    text = [HEAD.format(libraries=names, files=len(closure.order), lines=f"{total:,}")]
    number = 0
    for title, says, files in parts:
        count = sum(lines_of(path) for path in files)
        says = textwrap.fill(f"{says} {len(files)} files, {count:,} lines.", 128, break_on_hyphens=False)
        text.append(f"\n## {title}\n\n{says}\n\n")
        text.append("| | File | Lines | Holds |\n|---|---|---|---|\n")
        for path in files:
            number += 1
            short = path.removeprefix("crates/")
            text.append(f"| {number} | `{short}` | {lines_of(path)} | {sentence_of(path)} |\n")
    text.append("\n" + TYPES)
    for path in sorted(closure.types):
        text.append(f"| `{path.removeprefix('crates/')}` | {', '.join(sorted(closure.types[path]))} |\n")
    return "".join(text)


def rows_of(text):
    """The lines of its tables, without the numbers of files."""
    return [re.sub(r"^\| \d+ \|", "|", line) for line in text.splitlines() if line.startswith("|")]


def difference(old, new):
    """What differs, in a few words: a row of a table, if any does, or else a line. None where all is alike."""
    had, wanted = rows_of(old), rows_of(new)
    for row in wanted:
        if row not in had:
            return f"there should be: {row}"
    for row in had:
        if row not in wanted:
            return f"there should not be: {row}"
    old, new = old.splitlines(), new.splitlines()
    for number, (was, line) in enumerate(zip(old, new), 1):
        if was != line:
            return f"line {number} should be: {line}"
    if len(old) != len(new):
        return f"it has {len(old)} lines, and should have {len(new)}"
    return None


def main(words):
    if words not in ([], ["--check"]):
        stop("python3 tools/trusted.py [--check]")
    wanted = page()
    path = os.path.join(TOP, PAGE)
    if not words:
        with open(path, "w", encoding="utf-8") as file:
            file.write(wanted)
        return
    if not os.path.exists(path):
        stop(f"{PAGE} isn't there")
    found = difference(read(PAGE), wanted)
    if found:
        stop(f"{PAGE} is stale: {found}")


main(sys.argv[1:])
