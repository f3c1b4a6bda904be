#!/usr/bin/env python3
"""Scenes of what seldom comes together: corners.py PROGRAM [SCENE..], where PROGRAM is the built lpd_server.

Several printers of a queue that stand still, a queue that starts again after a quarter of an hour, a stop whose output is lost while jobs wait, files that are gone amid a removal, clients
that never let go. Some set the clock by hand, which wants a C compiler. A line says what was seen; the last line is 'N passed, M failed'."""
import contextlib
import os
import re
import socket
import subprocess
import sys
import tempfile
import threading
import time

from auditing import Books
from client import Pipe, Server, answer, ask, begin, connect, finish, free_port, send, spool
from days import queue
from parking import Room, config
from scene import PROGRAM, check, main
from scraping import Clock, command, open_to, rest, shown, until

POOL = "pages = 64\npage_size = 1024\nmax_jobs = 16\naccount = 400000\n"


def two_printers_are_started():
    """A queue both of whose printers stand still is started by one command, which tells both."""
    with Room(POOL + queue("lp", 8, 2), keeps=False) as room:
        for number in (1, 2):
            os.symlink("/dev/full", room.path(number))
        room.start()
        for number in (1, 2):
            check(send(room.port, number, b"x" * 100) == 0, "a job isn't taken")
            until(lambda: room.tell("status").count("stopped") == number, lambda: room.tell("status"))
        told = room.tell("start", "lp")
        check(told == "started 1\nstarted 2\n", told)
    return "both are told"


def a_stop_is_refused_behind_lines():
    """A server whose last line can't be written, and that leaves jobs in its folder, tells who asked it to stop which these are, and its fault: so `control` ends with 5."""
    with Room(POOL + queue("lp", 8)) as room:
        reader, writer = os.pipe()
        line = [PROGRAM, "serve", f"{room.folder}/spool.toml", "--port", str(room.port), "--out", room.folder, "--spool", room.kept, "--keep-room", "--control", room.control]
        room.server = subprocess.Popen(line, stdin=subprocess.DEVNULL, stdout=writer, stderr=open(f"{room.folder}/log", "ab"))
        os.close(writer)
        check(os.read(reader, 100).startswith(b"listening "), "it doesn't listen")
        room.tell("hold", "lp")
        check(send(room.port, 1, b"waits") == 0, "a job isn't taken")
        os.close(reader)
        told = subprocess.run([PROGRAM, "control", room.control, "stop"], capture_output=True, text=True, timeout=30)
        ended = room.server.wait(20)
        check(told.returncode == 5 and "fault 73 WriteFile" in told.stderr and ended == 4, f"{told} {ended}: {room.log()[-300:]}")
    return f"{told.stdout.strip()!r}, and the fault"


def what_is_lost_is_told_once():
    """Each job that a `stop now` loses is told once, also of hundreds, and where nothing was left to do at that moment, so that the end would have come by itself."""
    count, text = 600, "pages = 1024\npage_size = 64\nmax_jobs = 700\naccount = 4000000\n" + queue("lp", 4)
    with Room(text, keeps=False) as room:
        room.start()
        room.tell("hold", "lp")
        for number in range(count):
            check(send(room.port, number, b"x" * 10) == 0, "a job isn't taken")
        room.tell("stop", "now")
        room.server.wait(20)
        told = sorted(map(int, re.findall(r"job (\d+) lp ann@h1 10 octets is lost", room.log())))
        check(told == list(range(1, count + 1)), f"{len(told)} lines, of {len(set(told))} jobs")
    return f"{count} of {count}"


def a_queue_that_starts_again_late():
    """With `--restart 900` a printer that failed is started again a quarter of an hour later, and not before."""
    with Clock() as clock, tempfile.TemporaryDirectory() as folder:
        with Server(PROGRAM, spool(), "--restart", "900", "--control", f"{folder}/control", device="/dev/full", env=clock.environment) as it:
            clock.set(100)
            check(send(it.port, 1, b"x" * 100) == 0, "a job isn't taken")
            until(lambda: "No space left" in it.log(), it.log)
            for seconds in (700, 701, 702, 999):
                clock.set(seconds)
                time.sleep(1.2)
                check("started again" not in it.log() and "starts again" not in it.log(), f"at {seconds} s: {it.log()}")
            clock.set(1_001)
            until(lambda: re.search(r"queue lp (is started|starts) again", it.log()), it.log)
    return "after 900 s"


def a_later_queue_starts_again_soon():
    """A queue whose printer's number isn't its own, and that failed twice, starts again as soon as at first once a page of it was written."""
    with Clock() as clock, tempfile.TemporaryDirectory() as folder:
        box, text = f"{folder}/box", POOL + queue("lp", 8, 3) + queue("box", 8)
        os.mkdir(box)
        with Server(PROGRAM, text, "--restart", "20", "--printer", f"box=folder:{box}", "--control", f"{folder}/control", printers=3, env=clock.environment) as it:

            def is_stopped():
                return "printer 4 box stopped" in command(f"{folder}/control", "status")

            def fails(number, seconds, pause):
                """The printer's folder is gone, a job fails, and its queue starts again so much later."""
                clock.set(seconds)
                os.rename(box, f"{folder}/gone")
                check(send(it.port, number, b"x", "box") == 0, "a job isn't taken")
                until(is_stopped, "it doesn't fail")
                clock.set(seconds + pause - 1)
                time.sleep(1)
                check(is_stopped(), f"job {number}: it starts before {pause} s")
                return seconds + pause

            for number, seconds, pause in ((1, 100, 20), (2, 200, 40), (4, 400, 20)):
                clock.set(fails(number, seconds, pause))
                until(lambda: not is_stopped(), f"job {number}: it doesn't start after {pause} s")
                os.rename(f"{folder}/gone", box)
                if number == 2:
                    check(send(it.port, 3, b"y", "box") == 0, "a job isn't taken")
                    until(lambda: len(os.listdir(box)) == 1, "it isn't printed")
    return "after 20, 40 and, once one was printed, 20 s"


def a_full_pool_names_its_queue():
    """Where the pool is full of the jobs of a queue that is held, the page names that queue, also behind one with several printers."""
    text = "pages = 16\npage_size = 1024\nmax_jobs = 8\naccount = 400000\n" + queue("lp", 8, 3) + queue("plotter", 16) + queue("last", 4)
    port = free_port()
    with Room(text, "--status", str(port), keeps=False) as it:
        it.start()
        it.tell("hold", "plotter")
        check(send(it.port, 1, b"x" * 16_384, "plotter") == 0, "a job isn't taken")

        def chip():
            return re.findall(r"full of jobs for (?:<[^>]*>)*(\w+)", rest(open_to(port, b"GET / HTTP/1.1\r\nHost: localhost\r\n\r\n")).decode())

        with contextlib.closing(begin(it.port, 3, 8_000, b"x" * 8_000, "plotter", "127.0.0.3")):
            until(lambda: chip() == ["plotter"], lambda: f"{chip()}")
    return "plotter"


def removals_pass_over_a_file_that_is_gone():
    """A user's jobs that wait are removed, by `lprm` and by `remove`, also where the file of the first one was taken away, or can't be read."""
    seen = []
    for asks in (lambda room: room.tell("remove", "lp", "ann"), lambda room: ask(room.port, b"\x05lp ann 1 2 3 4\n")[0].decode()):
        with Room(POOL + queue("lp", 8)) as room:
            room.start()
            room.tell("hold", "lp")
            for number in range(1, 5):
                check(send(room.port, number, b"x" * number) == 0, "a job isn't taken")
            os.remove(f"{room.kept}/1.job")
            with open(f"{room.kept}/3.job", "r+b") as file:
                file.truncate(3)
            told = asks(room)
            seen.append(sorted(re.findall(r"removed (\d+)", told)))
            check("002" in seen[-1] and "004" in seen[-1] and not os.path.exists(f"{room.kept}/4.job"), told)
    return f"{seen}"


def a_session_is_woken_beside_a_printer():
    """Where a job gets whole, its printer begins, and at the same moment a session that waited for the pages that were kept for that job goes on, though the printer takes nothing."""
    with Room("pages = 16\npage_size = 1024\nmax_jobs = 8\naccount = 400000\n" + queue("lp", 16), keeps=False) as room:
        pipe = Pipe(room.path(1))
        os.write(pipe.end, b"z" * 4096)
        room.start()
        with contextlib.closing(begin(room.port, 1, 8_192, b"x" * 3_072)) as first:
            until(lambda: "3 of 8 pages came" in room.tell("status"), lambda: room.tell("status"))
            with contextlib.closing(begin(room.port, 2, 12_288, b"y" * 4_000, host="127.0.0.2")):
                until(lambda: "those free are kept for job 1" in room.tell("status"), lambda: room.tell("status"))
                check(finish(first, 1, b"x" * 5_120) == 0, "the first job isn't taken")
                until(lambda: "3 of 12 pages came" in room.tell("status") or "4 of 12 pages came" in room.tell("status"), lambda: room.tell("status"), 8)
        del pipe
    return "it goes on"


def queues_are_fed_in_turn():
    """What a start finds in its folder is fed one of each queue in turn, also where a queue's printer takes nothing."""
    with Room(config(queues=3), "--log-jobs") as room:
        pipes = [Pipe(room.path(number)) for number in (1, 2, 3)]
        room.start()
        for name in ("q1", "q2", "q3"):
            room.tell("hold", name)
        for name in ("q1", "q2", "q3"):
            for number in range(3):
                check(send(room.port, number, b"x" * 20_000, name, host=f"127.0.0.{2 + number}") == 0, "a job isn't taken")
        room.kill()
        with open(f"{room.kept}/held", "w"):
            pass
        room.start()
        until(lambda: room.log().count(" received in ") >= 6, room.log)
        fed = re.findall(r" job \d+ (q\d) .* received in ", room.log())[:6]
        check(fed == ["q1", "q2", "q3", "q1", "q2", "q3"], fed)
        del pipes
    return ", ".join(fed)


def a_queue_without_room_holds_up_no_other():
    """Where the account has no room for the first waiting job of a queue, and isn't rotated, the jobs that wait for another queue are printed all the same."""
    text = "pages = 64\npage_size = 1024\nmax_jobs = 16\naccount = 13000\n" + queue("big", 60) + queue("small", 3)
    with tempfile.TemporaryDirectory() as folder, Server(PROGRAM, text, "--spool", f"{folder}/kept", "--control", f"{folder}/control", printers=0) as it:

        def tell(*words):
            return command(f"{folder}/control", *words)

        def printed():
            with contextlib.suppress(FileNotFoundError):
                return open(it.path(2), "rb").read()

        for number in (1, 2):
            check(send(it.port, number, b"a", "small") == 0, "a job isn't taken")
            until(lambda: printed() == b"a" * number, it.log)
        for name in ("big", "small"):
            tell("hold", name)
        for name, octets in (("big", b"b" * 2_000), ("small", b"c"), ("small", b"d")):
            check(send(it.port, 3, octets, name) == 0, "a job isn't taken")
        for name in ("big", "small"):
            tell("release", name)
        until(lambda: printed() == b"aacd", lambda: f"{printed()}: {tell('status')}", 10)
        check("parked big 1" in tell("status"), tell("status"))
    return "the other two"


def a_file_where_a_pipe_was():
    """A regular file in the place of what was a printer's pipe can't be compared with the account: it is told that it isn't judged."""
    with Books("--keep-room") as room:
        os.mkfifo(f"{room.folder}/one")
        end = os.open(f"{room.folder}/one", os.O_RDWR | os.O_NONBLOCK)
        room.words = ("--keep-room", "--printer", f"1=file:{room.folder}/one")
        room.start()
        check(send(room.port, 1, b"a page") == 0, "a job isn't taken")
        seen = b""

        def has_come():
            nonlocal seen
            with contextlib.suppress(BlockingIOError):
                seen += os.read(end, 100)
            return seen == b"a page"

        until(has_come, lambda: room.tell("status"))
        room.stop()
        os.close(end)
        os.remove(f"{room.folder}/one")
        with open(f"{room.folder}/one", "wb") as file:
            file.write(b"a page")
        status, out, why = room.audit("--printed", f"1={room.folder}/one")
        check("not judged 1: it can't be read again\n" in out and "octets" not in out, f"{status} {out}{why}")
    return "not judged"


def a_job_s_file_that_is_not_synced():
    """A job whose file in a printer's folder can't be synced has spent its number: the next one's file has the next, as the account says."""
    with Clock() as clock, Books("--keep-room") as room:
        os.mkdir(f"{room.folder}/jobs")
        room.words = ("--keep-room", "--printer", f"1=folder:{room.folder}/jobs")
        plain = dict(os.environ)
        os.environ.update({**clock.environment, "UNSYNCED": "/.job-1"})
        try:
            room.start()
        finally:
            os.environ.clear()
            os.environ.update(plain)
        clock.set(0)
        check(send(room.port, 1, b"lost") == 0, "a job isn't taken")
        until(lambda: "is not in its folder" in room.log(), room.log)
        check(send(room.port, 2, b"a page") == 0, "a job isn't taken")
        until(lambda: [it for it in os.listdir(f"{room.folder}/jobs") if not it.startswith(".")], lambda: room.tell("status") + room.log())
        names = sorted(it for it in os.listdir(f"{room.folder}/jobs") if not it.startswith("."))
        check(names == ["job-0000000002"], names)
    return names[0]


def clients_that_drip_hold_up_nothing():
    """While clients of the control socket come and go, and send an octet now and then, a printer that failed is started again in time, and a `stop 3` ends the server after three
    seconds, though a pipe takes nothing."""
    with Room(POOL + queue("lp", 8) + queue("plotter", 16), "--restart", "2", keeps=False) as room:
        os.symlink("/dev/full", room.path(1))
        pipe = Pipe(room.path(2))
        room.start()
        going = True

        def drips():
            while going:
                with contextlib.suppress(OSError), socket.socket(socket.AF_UNIX) as peer:
                    peer.connect(room.control)
                    for _ in range(8):
                        peer.sendall(b"s")
                        time.sleep(0.1)

        threads = [threading.Thread(target=drips, daemon=True) for _ in range(3)]
        for thread in threads:
            thread.start()
        check(send(room.port, 1, b"x" * 100) == 0 and send(room.port, 2, b"x" * 9_000, "plotter") == 0, "a job isn't taken")
        begun = time.monotonic()
        until(lambda: re.search(r"queue lp (is started|starts) again", room.log()), room.log, 8)
        restarted, begun = time.monotonic() - begun, time.monotonic()
        asked = subprocess.Popen([PROGRAM, "control", room.control, "stop", "3"], stdout=subprocess.DEVNULL, stderr=subprocess.DEVNULL)
        try:
            room.server.wait(12)
        except subprocess.TimeoutExpired as error:
            raise AssertionError("it doesn't stop") from error
        finally:
            asked.kill()
            asked.wait()
        stopped, going = time.monotonic() - begun, False
        for thread in threads:
            thread.join()
        check(restarted < 5 and stopped < 6.5, f"after {restarted:.1f} and {stopped:.1f} s")
        del pipe
    return f"after {restarted:.1f} and {stopped:.1f} s"


def a_warning_that_comes_each_half_minute():
    """With --log a warning that comes each half minute is told with how often it came a minute after it was told, and begins anew then."""
    with Clock() as clock, Server(PROGRAM, spool(), "--keep-room", "--log", "time", env=clock.environment) as it:
        for seconds in (10, 40, 69, 72, 100, 128, 134):
            clock.set(seconds)
            time.sleep(1.2)
            with contextlib.closing(connect(it.port)) as peer:
                peer.sendall(b"\x02nosuch\n")
                check(answer(peer) == 1, "it isn't refused")
            time.sleep(0.3)
        lines = [line.split("queue nosuch", 1)[1] for line in it.log().splitlines() if "UnknownQueue" in line]
        check(len([line for line in lines if "more times" in line]) >= 1, lines)
    return f"{lines}"


def what_stands_behind_a_command():
    """Octets behind a command's line, up to some tens of thousands, are passed over: it reads the whole answer, and the end."""
    with Room(POOL + queue("lp", 8), keeps=False) as room:
        room.start()
        for count in (1, 500, 5_000, 20_000):
            with socket.socket(socket.AF_UNIX) as peer:
                peer.settimeout(20)
                peer.connect(room.control)
                peer.sendall(b"status\n" + b"x" * count)
                text = b""
                while piece := peer.recv(100):
                    text += piece
                check(text.startswith(b"uptime ") and text.endswith(b"\nend done\n"), f"{count}: {text}")
    return "up to 20,000"


def a_foreign_file_beside_segments():
    """Files of the account's folder that have eight other octets before ten digits are no segments: the numbers go on as they were."""
    with Books("--keep-room") as room:
        room.start()
        check(send(room.port, 1, b"a page") == 0, "a job isn't taken")
        room.stop()
        for name in ("whatever0000000099", "segment_0000000050", "Segment-0000000051"):
            with open(f"{room.account}/{name}", "w") as file:
                file.write("x")
        room.start()
        check(send(room.port, 1, b"a page") == 0, "a job isn't taken")
        room.stop()
        names = sorted(name for name in os.listdir(room.account) if name.startswith("segment-"))
        check(names[-1] == f"segment-{len(names):010}", names)
        ran = subprocess.run([PROGRAM, "check", f"{room.folder}/spool.toml", "--account", room.account], capture_output=True, text=True, timeout=30)
        check(f"segments {len(names)}\n" in ran.stdout, ran)
    return f"{len(names)} segments"


def the_last_printer_is_not_reached():
    """Of a queue of four printers the last one alone isn't reached: that is told of it, in the log, in the status and on the page."""
    with Room(POOL + queue("lp", 8, 4), "--printer", "lp.4=socket://127.0.0.1:9", keeps=False) as room:
        pipes = [Pipe(room.path(number)) for number in (1, 2, 3)]
        room.start()
        for number in range(4):
            check(send(room.port, number, b"x" * 6_000, host=f"127.0.0.{2 + number}") == 0, "a job isn't taken")
        until(lambda: "printer 4 lp unreached" in room.tell("status"), lambda: room.tell("status"))
        del pipes
    return "told"


def who_goes_on_gives_no_way():
    """Where 128 heads are halted and one more comes, the one that has just sent a piece of its own stays, and the next oldest gives way."""
    with shown() as (_, port):
        peers = [open_to(port, b"GET / HTTP/1.1\r\nHost: lo") for _ in range(128)]
        time.sleep(0.3)
        peers[0].sendall(b"cal")
        time.sleep(0.2)
        late = open_to(port, b"GET / HTTP/1.1\r\nHost: lo")
        time.sleep(0.2)
        peers[0].sendall(b"host\r\n\r\n")
        told = [rest(peer)[9:12] for peer in (peers[0], peers[1], peers[2], late)]
        check(told[0] == b"200" and told[1] == b"" and told[2] == b"408", told)
    return "the second one"


def a_page_has_the_age_of_each_job():
    """The page has each job's age, also where the first one has no page yet, and HEAD is answered with the length that GET has at the same moment."""
    with Clock() as clock, tempfile.TemporaryDirectory() as folder, shown(spool(queues=("lp", "plotter")), "--control", f"{folder}/control", printers=2, env=clock.environment) as (it, port):
        command(f"{folder}/control", "hold", "lp")
        with contextlib.closing(begin(it.port, 1, 5_000, b"", "plotter")):
            clock.set(50)
            for number in (2, 3):
                check(send(it.port, number, b"x" * 100) == 0, "a job isn't taken")
            for seconds, due in ((150, ("2 min", "1 min", "1 min")), (4_000, ("1 h 6 min", "1 h 5 min", "1 h 5 min")), (100_000, ("1 d 3 h",) * 3)):
                clock.set(seconds)
                time.sleep(0.8)
                heads = [rest(open_to(port, f"{method} / HTTP/1.1\r\nHost: localhost\r\n\r\n".encode())).partition(b"\r\n\r\n") for method in ("GET", "HEAD")]
                lengths = [int(re.search(rb"Content-Length: (\d+)", head)[1]) for head, _, _ in heads]
                check(lengths[0] == lengths[1] == len(heads[0][2]) and not heads[1][2], f"at {seconds} s: {lengths}")
                ages = re.findall(r"job (\d+)\b.*?<td[^>]*>((?:\d+ (?:s|min|h|d) ?)+)</td>", heads[0][2].decode(), re.S)
                check(ages == [(str(number + 1), age) for number, age in enumerate(due)], f"at {seconds} s: {ages}")
    return f"{lengths[0]} octets at last, and each job's age"


SCENES = [
    a_page_has_the_age_of_each_job,
    two_printers_are_started,
    a_stop_is_refused_behind_lines,
    what_is_lost_is_told_once,
    a_queue_that_starts_again_late,
    a_later_queue_starts_again_soon,
    removals_pass_over_a_file_that_is_gone,
    a_full_pool_names_its_queue,
    a_session_is_woken_beside_a_printer,
    queues_are_fed_in_turn,
    a_queue_without_room_holds_up_no_other,
    a_file_where_a_pipe_was,
    a_job_s_file_that_is_not_synced,
    clients_that_drip_hold_up_nothing,
    a_warning_that_comes_each_half_minute,
    what_stands_behind_a_command,
    a_foreign_file_beside_segments,
    the_last_printer_is_not_reached,
    who_goes_on_gives_no_way,
]

if __name__ == "__main__":
    sys.exit(main(SCENES, __doc__))
