#!/usr/bin/env python3
"""Scenes of jobs that wait in a folder, and of who else wants that: lasting.py PROGRAM [SCENE..], where PROGRAM is the built lpd_server.

Each scene is bounded in time and runs on loopback alone. A line says what was seen; the last line is 'N passed, M failed'."""
import contextlib
import fcntl
import os
import subprocess
import sys
import time

from client import answer, ask, connect, free_port, send
from keeping import CONFIG, Room
from scene import PROGRAM, check, main

# A spool that has room for one job at a time.
NARROW = """pages = 64
page_size = 512
max_jobs = 1
account = 400000
""" + "".join(f"""
[[queue]]
name = "{name}"
limit = 32
printers = 1
""" for name in ("lp", "plotter"))


def a_second_server_at_an_account():
    """A second server whose account would be another one's folder is refused, and says whose it is; a folder of kept jobs is told otherwise."""
    with Room() as room:
        plain = room.line()
        room.line = lambda: [*plain, "--account", f"{room.folder}/account"]
        room.start()
        seen = []
        for words, told in ((("--account", f"{room.folder}/account"), "another server writes its account there"), (("--spool", room.kept), "another server keeps its jobs there")):
            line = [PROGRAM, "serve", f"{room.folder}/spool.toml", "--port", str(free_port()), "--out", f"{room.folder}/elsewhere", *words]
            os.makedirs(f"{room.folder}/elsewhere", exist_ok=True)
            ran = subprocess.run(line, capture_output=True, text=True, timeout=10)
            lines = ran.stderr.splitlines()
            check(ran.returncode == 4 and lines[-1] == f"fault 73 WriteFile {words[1]}" and any(told in line for line in lines), f"{ran}")
            seen.append(lines[-2])
        return "; ".join(line[-60:] for line in seen)


def taken_at(pipe, count, seconds=20):
    """The octets that come through a pipe, until they are so many or none comes any more."""
    octets, end = b"", time.monotonic() + seconds
    while len(octets) < count and time.monotonic() < end:
        with contextlib.suppress(BlockingIOError):
            octets += os.read(pipe, 65536)
        time.sleep(0.01)
    return octets


def a_stop_has_nothing_more_printed():
    """A server that is asked to stop prints what the spool has, and ends then: the jobs that wait in the folder for room wait for the next start."""
    with Room(config=NARROW) as room:
        os.mkfifo(f"{room.folder}/printer-1")
        pipe = os.open(f"{room.folder}/printer-1", os.O_RDWR | os.O_NONBLOCK)
        fcntl.fcntl(pipe, 1031, 4096)
        room.start()
        for number in range(1, 5):
            check(send(room.port, number, b"%d" % number * 8_000) == 0, f"job {number} isn't taken")
        check("kept waiting 3 " in (told := room.tell("status")), told)
        stop = subprocess.Popen([PROGRAM, "control", f"{room.folder}/control", "stop", "30"], stdout=subprocess.PIPE, text=True)
        while "spool stops" not in room.tell("status"):
            time.sleep(0.05)
        octets = taken_at(pipe, 8_000)
        begun = time.monotonic()
        check(room.server.wait(20) == 0, "it ends otherwise")
        took = time.monotonic() - begun
        octets += taken_at(pipe, 1, 0.5)
        check(octets == b"1" * 8_000, f"{len(octets)} octets, {octets[-3:]}")
        check(took < 3, f"it ended {took:.1f} s later")
        check(len(room.files("job")) == 3 and not room.files("failed"), room.files("*"))
        told = stop.communicate(timeout=10)[0]
        check("3 jobs wait in the folder for the next start" in told, told)
        room.start()
        octets = taken_at(pipe, 24_000)
        check(octets == b"2" * 8_000 + b"3" * 8_000 + b"4" * 8_000, len(octets))
        room.await_files(0)
        os.close(pipe)
        return f"one, {took:.1f} s before the end"


def a_server_of_so_many_connections_prints_what_waits():
    """A server that ends after so many connections ends once all that waits in its folder is printed, but for the jobs of a queue that is held."""
    with Room(config=NARROW) as room:
        os.mkfifo(f"{room.folder}/printer-1")
        pipe = os.open(f"{room.folder}/printer-1", os.O_RDWR | os.O_NONBLOCK)
        fcntl.fcntl(pipe, 1031, 4096)
        plain = room.line()
        # (the first connection looks whether it listens)
        room.line = lambda: [*plain, "--connections", "6"]
        room.start()
        room.tell("hold", "plotter")
        check(send(room.port, 1, b"p" * 700, "plotter") == 0, "a job isn't taken")
        for number in range(2, 6):
            check(send(room.port, number, b"%d" % number * 8_000) == 0, f"job {number} isn't taken")
        time.sleep(1)
        check(room.server.poll() is None, f"it ended before: {room.log()[-300:]}")
        octets = taken_at(pipe, 32_000)
        begun = time.monotonic()
        check(room.server.wait(20) == 0, "it ends otherwise")
        took = time.monotonic() - begun
        check(octets == b"".join(b"%d" % number * 8_000 for number in range(2, 6)), f"{len(octets)} octets")
        check(room.files("job") == ["1.job"] and not room.files("failed") and took < 3, f"{room.files('*')}, {took:.1f} s")
        os.close(pipe)
        return f"four, {took:.1f} s before the end"


def a_trial_that_was_left():
    """A file by which a server that was killed has tried a printer's folder is no obstacle to the next start, and is gone behind it."""
    with Room() as room:
        box = f"{room.folder}/box"
        os.mkdir(box)
        with open(f"{box}/.hurgwaye-trial", "w") as file:
            file.write("left")
        plain = room.line()
        room.line = lambda: [*plain, "--printer", f"1=folder:{box}"]
        room.start()
        check(send(room.port, 1, b"a page") == 0, "a job isn't taken")
        room.await_files(0)
        check(os.listdir(box) == ["job-0000000001"], os.listdir(box))
        return "gone"


def a_job_of_many_files_waits():
    """A kept job of as many data files as there may be is known as any while it waits, by the server that took it and by the next one, and is printed."""
    with Room() as room:
        room.start()
        room.tell("hold", "lp")
        names = [f"df{letter}001h1" for letter in (*map(chr, range(65, 91)), *map(chr, range(97, 123)))]
        text = "".join(["Hh1\n", "Pann\n", *(f"f{name}\n" for name in names)]).encode()
        lines = [b"\x02lp\n"]
        for at, name in enumerate(names):
            lines += [f"\x03{at + 1} {name}\n".encode(), b"%c" % (65 + at % 26) * (at + 1) + b"\0"]
        lines += [f"\x02{len(text)} cfA001h1\n".encode(), text + b"\0"]
        with contextlib.closing(connect(room.port)) as peer:
            for line in lines:
                peer.sendall(line)
                check(answer(peer) == 0, f"{line[:20]} isn't taken")
        for _ in range(2):
            listed = ask(room.port, b"\x04lp\n")[0].decode()
            check(" 001 ann h1 " in listed and all(f"  {name} {at + 1}\n" in listed for at, name in enumerate(names)), listed)
            check(room.tell("remove", "lp", "bob").startswith("nothing removed"), "another's is removed")
            room.kill()
            room.start()
            until = time.monotonic() + 10
            while " 001 ann h1 " not in ask(room.port, b"\x04lp\n")[0].decode():
                check(time.monotonic() < until, f"{room.tell('status')}: {room.log()[-300:]}")
                time.sleep(0.05)
        check("it isn't known whose" not in room.log(), room.log()[-300:])
        room.tell("release", "lp")
        room.await_files(0)
        check(room.printed() == b"".join(b"%c" % (65 + at % 26) * (at + 1) for at in range(52)), len(room.printed()))
        return "52 files"


def what_is_removed_has_not_failed():
    """A kept job that is removed, while it waits or while it is printed, isn't counted among those that have failed."""
    with Room() as room:
        os.mkfifo(f"{room.folder}/printer-1")
        room.start()
        check(send(room.port, 1, b"x" * 300_000) == 0, "a job isn't taken")
        while " prints " not in room.tell("status"):
            time.sleep(0.05)
        room.tell("hold", "plotter")
        check(send(room.port, 2, b"y" * 3_000, "plotter") == 0, "a job isn't taken")
        for words in (("remove", "plotter", "ann"), ("remove", "lp", "ann"), ("cancel", "job", "1")):
            room.tell(*words)
        pipe = os.open(f"{room.folder}/printer-1", os.O_RDONLY | os.O_NONBLOCK)
        until = time.monotonic() + 15
        while room.files("job"):
            check(time.monotonic() < until, room.files("*"))
            with contextlib.suppress(BlockingIOError):
                os.read(pipe, 65536)
            time.sleep(0.01)
        told = room.tell("status")
        check("\nkept waiting 0 failed 0\n" in told and not room.files("failed"), told)
        os.close(pipe)
        return "none"


def a_file_of_no_queue_is_not_cancelled():
    """A kept job of a queue that isn't configured any more is in no line: that it is to be cancelled is refused, and its file stays."""
    with Room() as room:
        room.start()
        for queue in ("plotter", "lp"):
            room.tell("hold", queue)
            check(send(room.port, 1, b"of a queue", queue) == 0, "a job isn't taken")
        room.tell("stop")
        check(room.server.wait(20) == 0, room.log()[-300:])
        with open(f"{room.folder}/spool.toml", "w") as file:
            file.write(CONFIG.replace('"plotter"', '"other"'))
        room.start()
        room.await_log("1.job")
        told = room.tell("cancel", "file", "1")
        check(told.startswith("fault 60 Refused file 1 (001) ann@h1 of plotter neither waits nor has failed"), told)
        check(room.files("job") == ["1.job", "2.job"] and not room.files("failed"), room.files("*"))
        told = room.tell("cancel", "file", "2")
        check(told.startswith("removed file 2 (001) ann@h1 of lp"), told)
        room.await_files(1)
        check(room.files("job") == ["1.job"], room.files("*"))
        return told.strip()


SCENES = [a_second_server_at_an_account, a_stop_has_nothing_more_printed, a_server_of_so_many_connections_prints_what_waits, a_trial_that_was_left,
          a_job_of_many_files_waits, what_is_removed_has_not_failed, a_file_of_no_queue_is_not_cancelled]

if __name__ == "__main__":
    sys.exit(main(SCENES, __doc__))
