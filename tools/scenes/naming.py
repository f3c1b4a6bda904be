#!/usr/bin/env python3
"""Scenes of printers by name: naming.py PROGRAM [SCENE..], where PROGRAM is the built lpd_server. What `check` says of words and of a configuration is what
`serve` does with them. A line says what was seen; the last line is 'N passed, M failed'."""
import contextlib
import os
import signal
import subprocess
import sys
import tempfile
import time

from client import connect, free_port, send
from scene import PROGRAM, check, main


def spool(*queues):
    """The text of a configuration: each queue with its name, how many printers it has, and what stands at its `places`."""
    text = "pages = 16\npage_size = 4096\nmax_jobs = 8\naccount = 100000\n"
    for name, printers, places in queues:
        text += f'[[queue]]\nname = "{name}"\nlimit = 4\nprinters = {printers}\n' + (f"places = {places}\n" if places else "")
    return text


PLAIN = (("lp", 1, None), ("plotter", 2, None))
POINTS = (("a", 2, None), ("a.2", 1, None), ("7", 1, None))
# The words behind a configuration, and the fault with the exit status of both commands.
REFUSED = [
    (PLAIN, ["--printer", "9=file:x"], "printer 9 isn't there: 9=file:x", 1),
    (PLAIN, ["--printer", "lp2=file:x"], "printer lp2 isn't there: lp2=file:x", 1),
    (PLAIN, ["--printer", "lp.2=file:x"], "printer lp.2 isn't there: lp.2=file:x", 1),
    (PLAIN, ["--printer", "plotter.0=file:x"], "printer plotter.0 isn't there: plotter.0=file:x", 1),
    (PLAIN, ["--printer", "plotter.02=file:x"], "printer plotter.02 isn't there: plotter.02=file:x", 1),
    (PLAIN, ["--printer", "lp=file:x", "--printer", "1=file:y"], "'1=file:y' is a second PLACE for its printer", 1),
    (PLAIN, ["--printer", "lp.1=file:x", "--printer", "lp=file:y"], "'lp=file:y' is a second PLACE for its printer", 1),
    (POINTS, ["--printer", "a.2=file:x"], "printer a.2 may be one of two: a.2=file:x", 1),
    (POINTS, ["--printer", "7=file:x"], "printer 7 isn't there: 7=file:x", 1),
    ((("lp", 1, '["file:x"]'),), ["--printer", "lp=file:y"], "'lp=file:y' is a second PLACE for its printer", 1),
    ((("lp", 1, '["file:x"]'),), ["--printer", "1=file:y"], "'1=file:y' is a second PLACE for its printer", 1),
    ((("lp", 1, '"file:x"'),), [], "fault 52 WrongType queue.places", 2),
    ((("lp", 1, "[1]"),), [], "fault 52 WrongType queue.places", 2),
    ((("lp", 1, '["lpr:x"]'),), [], "fault 53 OutOfRange queue.places", 2),
    ((("lp", 1, '["file:x", "file:y"]'),), [], "fault 53 OutOfRange queue.places", 2),
]


@contextlib.contextmanager
def a_room(queues):
    with tempfile.TemporaryDirectory() as room:
        os.mkdir(f"{room}/etc")
        with open(f"{room}/etc/spool.toml", "w") as file:
            file.write(spool(*queues))
        yield room


def ends(room, words):
    """The exit status of the program, and the lines of its standard output and error."""
    ended = subprocess.run([PROGRAM, *words], cwd=room, capture_output=True, text=True, timeout=30, stdin=subprocess.DEVNULL)
    return ended.returncode, ended.stdout.splitlines(), ended.stderr.splitlines()


def names_that_are_refused():
    """Words and texts that name no printer, may name two, or name one twice: `check` and `serve` say the same."""
    for queues, words, fault, status in REFUSED:
        with a_room(queues) as room:
            for command in (["check", "etc/spool.toml"], ["serve", "etc/spool.toml", "--port", str(free_port())]):
                ended, printed, told = ends(room, [*command, *words])
                check((ended, told[-1:]) == (status, [fault]) and not printed, f"{command} {words}: {ended} {printed} {told}")
    return f"{len(REFUSED)} of each"


def names_that_are_taken():
    """Each printer prints to its place, by whichever name, from where the server runs; `check` and the start tell the same lines."""
    queues = (("lp", 1, None), ("plotter", 2, '["file:first"]'), ("a.2", 1, None))
    words = ["--printer", "plotter.2=file:second", "--printer", "a.2=file:third", "--out", "."]
    lines = ["printer 1 lp ./printer-1", "printer 2 plotter file:first", "printer 3 plotter file:second", "printer 4 a.2 file:third"]
    with a_room(queues) as room:
        ended, printed, told = ends(room, ["check", "etc/spool.toml", *words])
        check((ended, printed[1:-1]) == (0, lines), f"check: {ended} {printed} {told}")
        port = free_port()
        with open(f"{room}/told", "wb") as log:
            server = subprocess.Popen([PROGRAM, "serve", "etc/spool.toml", "--port", str(port), *words], cwd=room, stdin=subprocess.DEVNULL,
                                      stdout=subprocess.DEVNULL, stderr=log)
        try:
            for _ in range(200):
                with contextlib.suppress(OSError):
                    connect(port).close()
                    break
                time.sleep(0.05)
            for _ in range(40):
                said = [line.split("] ", 1)[-1] for line in open(f"{room}/told").read().splitlines()]
                placed = [line for line in said if line.startswith("printer ")]
                if len(placed) > len(lines):
                    break
                time.sleep(0.05)
            check(placed == [*lines, "printer 1 of lp has no place, where others have one: it prints to ./printer-1"], f"the start: {said}")
            for number, queue in enumerate(("lp", "plotter", "a.2"), 1):
                check(send(port, number, f"to {queue}".encode(), queue=queue) == 0, f"{queue} takes no job")
            for file, octets in (("printer-1", "to lp"), ("third", "to a.2")):
                for _ in range(100):
                    if os.path.isfile(f"{room}/{file}") and open(f"{room}/{file}").read() == octets:
                        break
                    time.sleep(0.05)
                else:
                    raise AssertionError(f"{file} hasn't {octets!r}")
            both = open(f"{room}/first").read() + open(f"{room}/second").read()
            check(both == "to plotter", f"the plotters have {both!r}")
        finally:
            server.send_signal(signal.SIGKILL)
            server.wait()
        return "four printers"


def nothing_is_told_without_places():
    """Without a place nothing is told at the start, and a script passes the key over."""
    with a_room(PLAIN) as room:
        ended, printed, told = ends(room, ["serve", "etc/spool.toml", "--port", str(free_port()), "--out", "nosuch"])
        check(ended == 4 and not any(line.split("] ", 1)[-1].startswith("printer ") for line in told), f"{ended} {told}")
    with a_room((("lp", 1, "7"),)) as room:
        with open(f"{room}/script", "w") as file:
            file.write("free\n")
        ended, printed, told = ends(room, ["replay", "etc/spool.toml", "script"])
        check((ended, printed) == (0, ["free 16"]), f"replay: {ended} {printed} {told}")
        return "and replay reads on"


SCENES = [names_that_are_refused, names_that_are_taken, nothing_is_told_without_places]


if __name__ == "__main__":
    sys.exit(main(SCENES, __doc__))
