#!/usr/bin/env python3
"""Ways to tamper with an account and with what was printed: tampering.py PROGRAM [SCENE..], where PROGRAM is the built lpd_server.

Two servers run one after the other over a folder, with rotations: their segments, the file that one printer printed to and the folder that another one did
are kept. Each way changes a copy of these, and an audit has to tell it, or it stands among those that docs/ACCOUNT.md names as what no audit can see. A line says how many
were told; the last line is 'N passed, M failed'."""
import glob
import os
import re
import shutil
import sys

from auditing import Books, digests, rewrite
from client import send
from scene import check, main


class Evidence:
    """A copy of what two servers left: segments, the file of printer 1, the folder of printer 2."""

    def __init__(self, kept, at):
        self.at = at
        shutil.copytree(kept, at)
        self.pages, self.jobs = f"{at}/printer-1", f"{at}/jobs"

    def segments(self):
        return sorted(glob.glob(f"{self.at}/account/segment-" + "[0-9]" * 10))

    def middle(self):
        """A segment that has a job of each kind of entry, and one before and behind it."""
        segments = self.segments()
        for path in segments[1:-1]:
            text = open(path).read()
            if "\nprinted done " in text and "\nput " in text:
                return path
        return segments[len(segments) // 2]

    def last(self):
        return self.segments()[-1]

    def files(self):
        """The files of the folder, but for hidden ones."""
        return sorted(glob.glob(f"{self.jobs}/*"))


def lines_of(path):
    with open(path) as file:
        return file.read().splitlines()


def write(path, lines):
    with open(path, "w") as file:
        file.write("".join(f"{line}\n" for line in lines))


def first(lines, begins):
    return next(at for at, line in enumerate(lines) if line.startswith(begins))


def word(line, at, new):
    """A line with another word at a place."""
    words = line.split(" ")
    words[at] = new(words[at]) if callable(new) else new
    return " ".join(words)


def more(number):
    return str(int(number) + 1)


def other(digest):
    return digest[:-1] + ("0" if digest[-1] != "0" else "1")


def edit(where, begins, change, anew=True):
    """A way that changes the first line of a segment that begins so; the digests of the segment are made anew, or not."""
    def way(it):
        path = getattr(it, where)()
        lines = lines_of(path)
        at = first(lines, begins)
        made = change(lines[at])
        lines[at:at + 1] = made if isinstance(made, list) else [made]
        rewrite(path, lines) if anew else write(path, lines)
    return way


def pair(it, apply):
    """The lines of a page that was handed and of its return, in the middle segment."""
    path = it.middle()
    lines = lines_of(path)
    handed = first(lines, "handed ")
    place = lines[handed].split(" ")[1:]
    printed = next(at for at, line in enumerate(lines) if line.startswith("printed ") and line.split(" ")[2:] == place)
    rewrite(path, apply(lines, handed, printed))


def swapped(it):
    def apply(lines, handed, printed):
        lines[handed], lines[printed] = lines[printed], lines[handed]
        return lines
    pair(it, apply)


def failed(it):
    def apply(lines, _, printed):
        lines[printed] = "failed " + " ".join(lines[printed].split(" ")[2:])
        return lines
    pair(it, apply)


def forged(it):
    """A page of the last segment has another digest wherever it stands: the segment is legal by itself."""
    path = it.last()
    lines = lines_of(path)
    digest = lines[first(lines, "put ")].split(" ")[-1]
    rewrite(path, [line.replace(digest, other(digest)) for line in lines])


def emptied(it):
    """The last segment has no entries any more."""
    lines = lines_of(it.last())
    base = first(lines, "base ")
    rewrite(it.last(), lines[:base + 1] + [word(lines[-1], 1, "0")])


def exchanged(it):
    one, two = it.segments()[1:3]
    os.rename(one, f"{one}.x")
    os.rename(two, one)
    os.rename(f"{one}.x", two)


def joined(it):
    one, two = it.segments()[:2]
    text = open(two, "rb").read()
    with open(one, "ab") as file:
        file.write(text)
    os.remove(two)


def append(path, octets):
    with open(path, "ab") as file:
        file.write(octets)


def cut(path, count=None):
    size = os.path.getsize(path)
    os.truncate(path, size // 2 if count is None else size - count)


def flip(path, at):
    with open(path, "r+b") as file:
        file.seek(at)
        octet = file.read(1)
        file.seek(at)
        file.write(bytes([octet[0] ^ 1]))


def exchange_files(it):
    one, two = next((a, b) for a in it.files() for b in it.files() if os.path.getsize(a) != os.path.getsize(b))
    os.rename(one, f"{one}.x")
    os.rename(two, one)
    os.rename(f"{one}.x", two)


def take_file(it):
    os.remove(it.files()[1])


def add_file(it):
    """One more file behind the last, by the next number."""
    last = it.files()[-1]
    shutil.copy(last, f"{last[:-10]}{int(last[-10:]) + 1:010}")


# Each way: what is done, and which fault tells it, or which line where that is a pair; None where no audit can see it.
LINE, ENTRY, FOLLOW, PRINTED = r"fault 80 Line ", r"fault 81 Entry ", r"fault 82 Follow ", r"fault 83 Printed "
ANY = r"fault 8[0123] "
WAYS = {
    "a digit of a digest": (edit("middle", "put ", lambda line: word(line, 5, other), anew=False), ANY),
    "a digit of a digest, anew": (edit("middle", "put ", lambda line: word(line, 5, other)), ANY),
    "a line less": (edit("middle", "granted ", lambda _: [], anew=False), ANY),
    "a line less, anew": (edit("middle", "granted ", lambda _: []), ANY),
    "a line twice": (edit("middle", "put ", lambda line: [line, line]), ENTRY),
    "two lines exchanged": (swapped, ENTRY),
    "a job's number": (edit("middle", "opened ", lambda line: word(line, 1, more)), ENTRY),
    "a job's sender": (edit("middle", "opened ", lambda line: word(line, 2, more)), ANY),
    "a job's queue": (edit("middle", "opened ", lambda line: word(line, 3, lambda n: "2" if n == "1" else "1")), ANY),
    "a user's name": (edit("middle", "controlled ", lambda line: line.replace(" ann ", " eve ")), FOLLOW),
    "a user's name in the last": (edit("last", "controlled ", lambda line: line.replace(" ann ", " eve ")), FOLLOW),
    "a page's length": (edit("middle", "put ", lambda line: word(line, 4, more)), ANY),
    "a page's digest wherever it stands in the last": (forged, ANY),
    "a page that failed": (failed, ENTRY),
    "a job that is done goes on": (edit("middle", "printed done ", lambda line: line.replace("done", "going", 1)), ENTRY),
    "a removal that was none": (edit("middle", "handed ", lambda line: [f"removed 1 {line.split(' ')[2]}", line]), ENTRY),
    "no close": (edit("last", "closed", lambda _: []), ANY),
    "no entries": (emptied, FOLLOW),
    "the number of the run": (edit("middle", "account ", lambda line: word(line, 2, more)), FOLLOW),
    "the number of the segment": (edit("middle", "account ", lambda line: word(line, 3, more)), FOLLOW),
    "a time": (edit("middle", "account ", lambda line: word(line, 4, lambda time: "2001" + time[4:])), FOLLOW),
    "a day that there isn't": (edit("middle", "account ", lambda line: word(line, 4, lambda time: time[:5] + "02-30" + time[10:])), LINE),
    "it ends before it begins": (edit("middle", "account ", lambda line: word(line, 5, lambda time: "2001" + time[4:])), LINE),
    "another version": (edit("middle", "account ", lambda line: word(line, 1, "9")), LINE),
    "version 1": (edit("middle", "account ", lambda line: word(line, 1, "1")), FOLLOW),
    "it is the first": (edit("middle", "account ", lambda line: line[:line.index(" after ")] + " first"), FOLLOW),
    "it comes after another": (edit("middle", "account ", lambda line: word(line, 7, other)), FOLLOW),
    "the pages of the pool": (edit("middle", "config ", lambda line: word(line, 1, more)), FOLLOW),
    "a printer's place": (edit("middle", "printer ", lambda line: word(line, 1, lambda place: place + "x")), FOLLOW),
    "the length of a printer's file": (edit("middle", "printer ", lambda line: word(line, 2, more)), FOLLOW),
    "the entries before": (edit("middle", "base ", lambda line: word(line, 1, more)), FOLLOW),
    "the last number before": (edit("middle", "base ", lambda line: word(line, 4, more)), FOLLOW),
    "it was closed before": (edit("middle", "base ", lambda line: line.replace(" open", " closed")), FOLLOW),
    "a printer was stopped before": (edit("middle", "base ", lambda line: line.replace(" running", " stopped", 1)), FOLLOW),
    "a segment left out": (lambda it: os.remove(it.middle()), FOLLOW),
    "the last left out": (lambda it: os.remove(it.last()), FOLLOW),
    "two segments exchanged": (exchanged, FOLLOW),
    "two segments in one file": (joined, LINE),
    "a segment cut off": (lambda it: cut(it.last()), LINE),
    "no last line feed": (lambda it: cut(it.middle(), 1), LINE),
    "an empty file": (lambda it: open(it.middle(), "w").close(), ANY),
    "octets behind the last line": (lambda it: append(it.middle(), b"x\n"), ANY),
    "an octet of a printer's file": (lambda it: flip(it.pages, 5000), PRINTED),
    "a printer's file cut off": (lambda it: cut(it.pages), PRINTED),
    "an octet of a job's file": (lambda it: flip(it.files()[0], 0), PRINTED),
    "a job's file cut off": (lambda it: cut(it.files()[-1], 1), PRINTED),
    "two files of jobs exchanged": (exchange_files, PRINTED),
    "a job's file taken away": (take_file, PRINTED),
    "a file added": (add_file, ("line", r"not judged 2: file job-\d+, which no job has\n")),
}
# What may be done to segments that begin amid held jobs.
PARTS = {
    "the entries since the last base": (edit("middle", "part ", lambda line: word(line, 4, more)), FOLLOW),
    "more is given back": (edit("middle", "part ", lambda line: word(line, 5, more)), FOLLOW),
    "less is given back": (edit("middle", "part ", lambda line: word(line, 5, lambda n: str(int(n) - 1))), FOLLOW),
    "the entries before": (edit("middle", "part ", lambda line: word(line, 1, more)), FOLLOW),
    "a part is a base": (edit("middle", "part ", lambda line: " ".join(["base", *line.split(" ")[1:4], "1 0 open running running"])), FOLLOW),
    "a part of version 1": (edit("middle", "account ", lambda line: word(line, 1, "1")), FOLLOW),
    "a part is the first": (edit("middle", "account ", lambda line: line[:line.index(" after ")] + " first"), FOLLOW),
    "a part left out": (lambda it: os.remove(it.middle()), FOLLOW),
    "a job is done that is held": (edit("middle", "opened ", lambda line: [f"aborted {int(line.split(' ')[1]) - 1}", line]), ENTRY),
    "what came before isn't there": (lambda it: os.remove(it.segments()[0]), FOLLOW),
}


def each_way_is_told():
    with Books("--rotate", "40") as room:
        jobs = f"{room.folder}/jobs"
        os.mkdir(jobs)
        room.words = ("--rotate", "40", "--printer", f"2=folder:{jobs}")
        for _ in range(2):
            room.start()
            room.load()
            room.stop()
        kept = f"{room.folder}/kept"
        os.mkdir(kept)
        shutil.copytree(room.account, f"{kept}/account")
        shutil.copy(f"{room.folder}/printer-1", kept)
        shutil.copytree(jobs, f"{kept}/jobs")

        def audit(it, end):
            return room.audit("--ends", end, "--printed", f"1={it.pages}", "--printed", f"2={it.jobs}", files=it.segments())

        it = Evidence(kept, f"{room.folder}/0")
        end = digests(room.audit(files=it.segments())[1])[-1]
        status, told, why = audit(it, end)
        check(status == 0, f"nothing is changed: {status} {told}{why}")
        return tried(WAYS, kept, room.folder, lambda it: audit(it, end))


def tried(ways, kept, folder, audit):
    """Tries each way on a copy of its own, and says how many were told."""
    wrong = []
    for number, (label, (change, fault)) in enumerate(ways.items(), 1):
        it = Evidence(kept, f"{folder}/{number}")
        change(it)
        status, told, why = audit(it)
        if isinstance(fault, tuple):
            is_told = status == 0 and re.search(fault[1], told)
        else:
            is_told = status == 0 if fault is None else status == 6 and re.match(fault, why)
        if not is_told:
            wrong.append(f"{label}: {status} {why.strip() or told.strip().splitlines()[-1]}")
        shutil.rmtree(it.at)
    check(not wrong, "; ".join(wrong))
    unseen = [label for label, (_, fault) in ways.items() if fault is None]
    return f"{len(ways)} ways, of which {len(ways) - len(unseen)} were told{', and not: ' if unseen else ''}{', '.join(unseen)}"


def each_way_with_parts_is_told():
    with Books("--keep-room", "--printer", "2=socket://127.0.0.97:9") as room:
        room.start()
        check(send(room.port, 1, b"held", queue="plotter") == 0, "a job isn't taken")
        for number in range(100):
            check(send(room.port, number, b"a page" * 9) == 0, "a job isn't taken")
        room.await_segments(4)
        room.tell("stop", "1")
        room.server.wait(60)
        kept = f"{room.folder}/kept"
        os.mkdir(kept)
        shutil.copytree(room.account, f"{kept}/account")
        check(sum("\npart " in open(path).read() for path in room.segments()) >= 3, "no parts")
        end = digests(room.audit()[1])[-1]
        check(room.audit("--ends", end)[0] == 0, "nothing is changed")
        return tried(PARTS, kept, room.folder, lambda it: room.audit("--ends", end, files=it.segments()))


SCENES = [each_way_is_told, each_way_with_parts_is_told]

if __name__ == "__main__":
    sys.exit(main(SCENES, __doc__))
