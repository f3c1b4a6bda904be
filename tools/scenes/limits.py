#!/usr/bin/env python3
"""Scenes of the limits of what a job may have: limits.py PROGRAM [SCENE..], where PROGRAM is the built lpd_server.

Each limit is tried at its bound and once beyond it, by a server that keeps its jobs and by one that doesn't: both answer alike, and what is taken
is printed whole. A line says what was seen; the last line is 'N passed, M failed'."""
import contextlib
import sys
import time

from client import answer, connect
from keeping import Room
from scene import check, main

CONFIG = """pages = 256
page_size = 4096
max_jobs = 64
account = 4000000
[[queue]]
name = "lp"
limit = 64
printers = 1
"""


class Limited(Room):
    """A server that keeps its jobs or doesn't."""

    def __init__(self, keeps):
        super().__init__(config=CONFIG)
        self.keeps = keeps

    def line(self):
        line = super().line()
        if not self.keeps:
            at = line.index("--spool")
            del line[at:at + 2]
        return line

    def send(self, files, text, name=b"cfA001h1"):
        """Sends data files, by name and octets, and a control file. Answers the first octet that isn't 00, or 0 where all are; None where
        the server ends without one."""
        parts = [b"\x02lp\n"]
        for file, octets in files:
            parts += [b"\x03%d %s\n" % (len(octets), file), octets + b"\0"]
        parts += [b"\x02%d %s\n" % (len(text), name), text + b"\0"]
        with contextlib.closing(connect(self.port, limit=10)) as peer:
            for part in parts:
                peer.sendall(part)
                octet = answer(peer)
                if octet != 0:
                    return octet
        return 0


def both(tried, taken):
    """What both servers answer to each job, which is to be taken or not; and that of those that are taken all is printed, in order."""
    told = []
    for keeps in (False, True):
        with Limited(keeps) as room:
            room.start()
            octets = [room.send(files, text) for _, files, text in tried]
            wanted = [0 if is_taken else 2 for is_taken in taken]
            for (what, _, _), octet, due in zip(tried, octets, wanted):
                check((octet == 0) == (due == 0) and octet is not None, f"{what}, {'kept' if keeps else 'not kept'}: {octet}")
            printed = b"".join(octets for (_, files, _), is_taken in zip(tried, taken) if is_taken for _, octets in files)
            for _ in range(100):
                if len(room.printed()) >= len(printed):
                    break
                time.sleep(0.05)
            check(room.printed() == printed, (len(room.printed()), len(printed)))
            if keeps:
                room.await_files(0)
            told.append(octets)
    check(told[0] == told[1], told)
    return "; ".join(f"{what}: {'taken' if octet == 0 else f'{octet:02x}'}" for (what, _, _), octet in zip(tried, told[0]))


def text_of(length, has_feed, names):
    """The text of a control file of just so many octets, which prints each of these files, with an LF at its end or without."""
    lines = [b"f" + name for name in names]
    while True:
        rest = length - len(b"\n".join(lines)) - (1 if has_feed else 0) - 4
        if rest <= 2 * 255:
            break
        lines.append(lines[len(lines) % len(names)])
    host = rest // 2
    text = b"H" + b"h" * host + b"\nP" + b"u" * (rest - host) + b"\n" + b"\n".join(lines) + (b"\n" if has_feed else b"")
    check(len(text) == length, len(text))
    return text


def the_text_of_a_control_file():
    """A control file of 8,192 octets is taken, with an LF at its end and without, and one of 8,193 isn't."""
    names = [b"df%c001%03d" % (65 + at % 26, at) + b"n" * 117 for at in range(40)]
    check(all(len(name) == 126 for name in names), names[0])
    files = [(name, b"%d\n" % at) for at, name in enumerate(names)]
    # Each name is printed again by the lines behind the first 40: what is printed then stands twice.
    tried, taken = [], []
    for length in (8_191, 8_192, 8_193):
        for has_feed in (True, False):
            text = text_of(length, has_feed, names)
            printed = [line[1:] for line in text.split(b"\n") if line.startswith(b"f")]
            tried.append((f"{length} {'with' if has_feed else 'without'} its LF", files, text))
            taken.append([dict(files)[name] for name in printed] if length <= 8_192 else None)
    told = []
    for keeps in (False, True):
        with Limited(keeps) as room:
            room.start()
            octets = [room.send(files, text) for _, files, text in tried]
            for (what, _, _), octet, due in zip(tried, octets, taken):
                check((octet == 0) == (due is not None) and octet is not None, f"{what}, {'kept' if keeps else 'not kept'}: {octet}")
            told.append(octets)
            if keeps:
                room.await_files(0)
            room.tell("stop")
            room.server.wait(10)
            due = b"".join(b"".join(it) for it in taken if it is not None)
            check(room.printed() == due, (len(room.printed()), len(due)))
    check(told[0] == told[1], told)
    return "; ".join(f"{what}: {'taken' if octet == 0 else f'{octet:02x}'}" for (what, _, _), octet in zip(tried, told[0]))


def a_kept_text_is_read_back():
    """Such a job that waits in the folder is printed by the next server too, and its state tells its files."""
    names = [b"df%c001%03d" % (65 + at % 26, at) + b"n" * 117 for at in range(40)]
    files = [(name, b"%d\n" % at) for at, name in enumerate(names)]
    with Limited(True) as room:
        room.start()
        room.tell("hold", "lp")
        check(room.send(files, text_of(8_192, False, names)) == 0, "it isn't taken")
        room.await_files(1)
        room.kill()
        room.start()
        check("kept waiting 1 failed 0" in room.tell("status"), room.tell("status"))
        room.tell("release", "lp")
        room.await_files(0)
        check(room.printed().startswith(b"".join(octets for _, octets in files)), room.printed()[:60])
        check("isn't" not in room.log(), room.log())
        return f"{len(room.printed())} octets are printed by the next server"


def the_name_of_a_file():
    """A name of 126 octets is taken, one of 127 or 131 isn't."""
    tried = []
    for length in (126, 127, 131):
        name = b"dfA001" + b"n" * (length - 6)
        tried.append((f"a name of {length}", [(name, b"%d\n" % length)], b"Hh1\nPann\nf" + name + b"\n"))
    return both(tried, [True, False, False])


def the_number_of_files():
    """A job of 52 data files is taken, one of 53 isn't."""
    tried = []
    for count in (52, 53):
        names = [b"df%c001h%d" % (65 + at % 26, at) for at in range(count)]
        text = b"Hh1\nPann\n" + b"".join(b"f" + name + b"\n" for name in names)
        tried.append((f"{count} files", [(name, b"%d\n" % at) for at, name in enumerate(names)], text))
    return both(tried, [True, False])


SCENES = [the_text_of_a_control_file, a_kept_text_is_read_back, the_name_of_a_file, the_number_of_files]


if __name__ == "__main__":
    sys.exit(main(SCENES, __doc__))
