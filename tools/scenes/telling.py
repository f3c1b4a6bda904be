#!/usr/bin/env python3
"""Scenes of the log's lines: telling.py PROGRAM [SCENE..], where PROGRAM is the built lpd_server. Each kind of line is brought about, and is compared with
its text, octet for octet, but for ports, numbers of seconds and folders. Each scene is bounded in time, and runs on loopback alone. A line says what was seen; the last
line is 'N passed, M failed'."""
import contextlib
import os
import re
import signal
import socket
import subprocess
import tempfile
import time

from client import Server, ask, connect, answer, free_port, send, spool
from scene import PROGRAM, SHORT, check, main


def shown(line):
    """A line with what changes from run to run as letters: a peer's port, folders."""
    line = re.sub(r"(127\.0\.0\.\d+):\d+", r"\1:PORT", line)
    return re.sub(r"/tmp/\w+", "DIR", line)


def has_line(it, wanted, seconds=10):
    """Waits until the log has just this line."""
    until = time.monotonic() + seconds
    while wanted not in (lines := [shown(line) for line in it.log().splitlines()]):
        check(time.monotonic() < until, f"{wanted!r} isn't among {lines}")
        time.sleep(0.05)


def talk(port, *lines, host="127.0.0.1"):
    """Sends lines, and answers what was answered to each, until one isn't taken."""
    said = []
    with contextlib.closing(connect(port, host)) as peer:
        for line in lines:
            peer.sendall(line)
            said.append(answer(peer))
            if said[-1] != 0:
                break
    return said


def refusals_name_their_job():
    """What a session is refused for, and the job that it asked for last: its queue, its octets as far as they were announced, of how many its queue takes,
    and its user, where that has come."""
    with Server(PROGRAM, spool(pages=64, size=1024, jobs=4, limit=4, queues=("lp", "front")), "--keep-room") as it:
        control = b"Hh1\nPann\nfdfA001h1\n"
        about = (b"\x02%d cfA001h1\n" % len(control), control + b"\0")
        cases = [
            ((b"\x02nosuch\n",), 1, "1 UnknownQueue: queue nosuch"),
            ((b"\x02lp\n", b"\x035000 dfA001h1\n"), 1, "5 OverClaim: queue lp, 5000 octets of 4096"),
            ((b"\x02lp\n", *about, b"\x035000 dfA001h1\n"), 1, "5 OverClaim: queue lp, 5000 octets of 4096, user ann"),
            ((b"\x02front\n", b"\x0311 dfA001h1\n", b"hello world\0", b"\x035000 dfB001h1\n"), 1, "5 OverClaim: queue front, 5011 octets of 4096"),
            ((b"\x02a%b\n",), 1, "1 UnknownQueue: queue a%25b"),
        ]
        for lines, octet, wanted in cases:
            said = talk(it.port, *lines)
            check(said[-1] == octet, f"{lines}: {said}")
            has_line(it, f"[WARN  lpd_daemon::answering] 127.0.0.1:PORT: {wanted}")
        check(ask(it.port, b"\x03nosuch\n")[0] == b"\x01", "a state of no queue")
        has_line(it, "[WARN  lpd_daemon::answering] 127.0.0.1:PORT: 1 UnknownQueue")
    return f"{len(cases) + 1} refusals"


def connections_are_told():
    """A connection whose address isn't let in, the next ones of that minute; one that ends amid a job; one that is silent."""
    with Server(PROGRAM, spool(), "--keep-room", "--allow", "127.0.0.1/32", "--silence", "1") as it:
        with connect(it.port, "127.0.0.2"):
            pass
        has_line(it, "[WARN  server_edge::throttle] 127.0.0.2:PORT: its address isn't let in")
        with contextlib.closing(connect(it.port)) as peer:
            peer.sendall(b"\x02lp\n\x0311 dfA001h1\nhell")
            check((answer(peer), answer(peer)) == (0, 0), "the file isn't taken")
            peer.shutdown(socket.SHUT_WR)
            has_line(it, "[WARN  lpd_daemon::answering] 127.0.0.1:PORT: the connection ended in the middle")
        with contextlib.closing(connect(it.port)) as peer:
            peer.sendall(b"\x02lp\n\x0311 dfA001h1\nhell")
            answer(peer)
            has_line(it, "[WARN  lpd_daemon::answering] 127.0.0.1:PORT: reading failed, or the peer was silent")
        if SHORT:
            return "three lines"
        for _ in range(3):
            with connect(it.port, "127.0.0.2"):
                pass
        has_line(it, "[WARN  server_edge::throttle] 127.0.0.2: 3 more connections weren't let in", 150)
    return "four lines"


def who_sends_on_and_on_is_left():
    """A peer that is refused and sends on is left once a megabyte has come behind the end, long before the time that it has to leave is over."""
    with Server(PROGRAM, spool(), device="/dev/null") as it, contextlib.closing(connect(it.port)) as peer:
        peer.sendall(b"\x02nothing\n")
        check(answer(peer) == 1, "it isn't refused")
        begun, count = time.monotonic(), 0
        with contextlib.suppress(OSError):
            while time.monotonic() < begun + 10:
                count += peer.send(b"x" * 65_536)
        took = time.monotonic() - begun
        check(took < 3 and count < 32 << 20, f"{count} octets in {took:.1f} s")
        return f"{count / (1 << 20):.1f} MiB in {took:.2f} s"


def a_warning_that_comes_again():
    """With --log a warning that one address causes again is counted, and told with how often it came; another one of that address is told at once, and one that
    came once isn't told again."""
    with tempfile.TemporaryDirectory() as room:
        with Server(PROGRAM, spool(), "--keep-room", "--log", "time", "--control", f"{room}/control") as it:
            for queue in (b"nosuch", b"other", b"nosuch", b"nosuch"):
                talk(it.port, b"\x02" + queue + b"\n")
            subprocess.run([PROGRAM, "control", f"{room}/control", "stop"], check=True, timeout=30, stdout=subprocess.DEVNULL)
            it.process.wait(20)
            lines = [shown(line).split(" ", 1)[1] for line in it.log().splitlines() if "UnknownQueue" in line]
    lines = [re.sub(r"in \d+ s$", "in N s", line) for line in lines]
    wanted = ["[WARN  lpd_daemon::answering] 127.0.0.1:PORT: 1 UnknownQueue: queue nosuch", "[WARN  lpd_daemon::answering] 127.0.0.1:PORT: 1 UnknownQueue: queue other"]
    check(lines[:2] == wanted and len(lines) == 3, lines)
    check(lines[2].endswith("127.0.0.1: 1 UnknownQueue: queue nosuch: 2 more times in N s"), lines[2])
    return "three lines of four warnings"


def an_end_waits_for_lines_alone():
    """With --log a server ends as soon as its lines are written, also those that were counted."""
    with tempfile.TemporaryDirectory() as room:
        with Server(PROGRAM, spool(), "--keep-room", "--log", "time", "--control", f"{room}/control") as it:
            for _ in range(3):
                talk(it.port, b"\x02nosuch\n")
            begun = time.monotonic()
            subprocess.run([PROGRAM, "control", f"{room}/control", "stop"], check=True, timeout=30, stdout=subprocess.DEVNULL)
            it.process.wait(20)
            took = time.monotonic() - begun
            check(": 2 more times in " in it.log(), it.log())
    check(took < 0.8, f"it ended after {took:.2f} s")
    return f"after {took:.2f} s"


def no_descriptor_is_left():
    """A connection that can't be accepted, since the system has no more descriptors for the server."""
    with Server(PROGRAM, spool(), "--keep-room") as it:
        time.sleep(1)
        # (as many as it has, and so none for one more)
        open_now = len(os.listdir(f"/proc/{it.process.pid}/fd"))
        subprocess.run(["prlimit", f"--pid={it.process.pid}", f"--nofile={open_now}:{open_now}"], check=True)
        with socket.socket() as peer:
            peer.connect(("127.0.0.1", it.port))
            has_line(it, "[WARN  server_edge::lobby] a connection wasn't accepted: Too many open files (os error 24)")
    return "one line"


def printers_are_told():
    """A page that isn't written, a printer that isn't reached, one that is reached again, one that ended none of three connections, one that still stands after a minute."""
    with tempfile.TemporaryDirectory() as room, socket.socket() as off, socket.socket() as keeps:
        off.bind(("127.0.0.1", free_port()))
        keeps.bind(("127.0.0.1", free_port()))
        keeps.listen(16)
        places = ["--printer", "full=file:/dev/full", "--printer", "off=socket://127.0.0.1:%d" % off.getsockname()[1],
                  "--printer", "keeps=socket://127.0.0.1:%d" % keeps.getsockname()[1], "--control", f"{room}/control"]
        with Server(PROGRAM, spool(queues=("full", "off", "keeps")), "--keep-room", *places, printers=3, device=None) as it:
            for queue in ("full", "off", "keeps", "keeps", "keeps"):
                check(send(it.port, 1, b"hello world", queue) == 0, f"a job for {queue} isn't taken")
            # (jobs are numbered by acceptance)
            has_line(it, "[WARN  lpd_daemon::printing] printer 1: job 1, place 0: No space left on device (os error 28)")
            check(send(it.port, 2, b"hello world", "full") == 0, "a job that waits isn't taken")
            has_line(it, "[WARN  sink_devices::tcp_dial] printer 2: job 2: 127.0.0.1:PORT: Connection refused (os error 111)")
            if SHORT:
                return "two lines"
            for job in (3, 4, 5):
                has_line(it, f"[WARN  sink_devices::tcp_dial] printer 3: job {job}: 127.0.0.1:PORT: the printer didn't end the connection: its last octets may not have come", 40)
            has_line(it, "[WARN  sink_devices::tcp_dial] printer 3: 127.0.0.1:PORT: it ended none of three connections: from now on that isn't waited for")
            lines = [shown(line) for line in it.log().splitlines()]
            wanted = r"printer 2 hasn't been reached for \d+ s: job 2 waits for it, and the account has room for \d+ more jobs of off"
            until = time.monotonic() + 90
            while not any(re.search(wanted, line) for line in lines):
                check(time.monotonic() < until, lines)
                time.sleep(0.5)
                lines = [shown(line) for line in it.log().splitlines()]
            has_line(it, "[WARN  server_care::stewarding] printer 1 of full has stood still for 1 min, with 1 jobs: No space left on device (os error 28)", 90)
    return "eight lines"


def folders_are_told():
    """Of the folder of a printer: hidden files that were left there, and a job that was printed and isn't in it. Of that of kept jobs: that the account is never
    rotated, a job that can't be kept, one whose file can't be taken away."""
    with tempfile.TemporaryDirectory() as room:
        os.mkdir(f"{room}/pages")
        for name in (".job-7", ".job-8-1"):
            open(f"{room}/pages/{name}", "w").close()
        config = spool(account=100_000, limit=4, queues=("lp",))
        with Server(PROGRAM, config, "--printer", f"lp=folder:{room}/pages", "--spool", f"{room}/kept", "--account", f"{room}/account") as it:
            has_line(it, "[WARN  printer_devices::places] DIR/pages: 2 hidden files of jobs were left there, which were not printed to their ends")
            has_line(it, "[WARN  lpd_daemon::serving] DIR/kept: jobs are kept, but the account is never rotated: without --keep-room or --rotate no job is taken once it is full")
            lines = [shown(line) for line in it.log().splitlines()]
            check(any(re.search(r"DIR/account: the account is kept, but never rotated: ", line) for line in lines), lines)
            os.rename(f"{room}/pages", f"{room}/away")
            check(send(it.port, 1, b"hello world") == 0, "the job isn't taken")
            lines = []
            until = time.monotonic() + 10
            while not any("printer 1: job 1, place 0: No such file or directory" in line or "a job that was printed is not in its folder" in line for line in lines):
                check(time.monotonic() < until, lines)
                lines = [shown(line) for line in it.log().splitlines()]
                time.sleep(0.05)
    return "five lines"


def a_folder_of_many_files():
    """The folder of a printer with a thousand files of jobs and three hundred hidden ones: all of these are told, and the next job is the next behind the greatest."""
    with tempfile.TemporaryDirectory() as room:
        os.mkdir(f"{room}/pages")
        for number in range(1, 1_001):
            open(f"{room}/pages/job-{number:010}", "w").close()
        for number in range(300):
            open(f"{room}/pages/.job-{number}-1", "w").close()
        with Server(PROGRAM, spool(account=100_000, limit=4), "--printer", f"lp=folder:{room}/pages", "--keep-room") as it:
            has_line(it, "[WARN  printer_devices::places] DIR/pages: 300 hidden files of jobs were left there, which were not printed to their ends")
            check(send(it.port, 1, b"hello world") == 0, "the job isn't taken")
            until = time.monotonic() + 10
            while not os.path.exists(f"{room}/pages/job-0000001001"):
                check(time.monotonic() < until, sorted(name for name in os.listdir(f"{room}/pages") if name.startswith("job"))[-2:])
                time.sleep(0.05)
    return "all, and the next"


def the_account_has_no_room():
    """With --keep-room, a held job that needs all of the account."""
    with socket.socket() as off:
        off.bind(("127.0.0.1", free_port()))
        place = "lp=socket://127.0.0.1:%d" % off.getsockname()[1]
        with Server(PROGRAM, spool(account=3_000, limit=4, jobs=8), "--keep-room", "--printer", place, device=None) as it:
            for number in range(4):
                send(it.port, number, b"hello world")
            until = time.monotonic() + 120
            while "the account has had no room for " not in it.log():
                check(time.monotonic() < until, it.log())
                send(it.port, 9, b"hello world")
                time.sleep(2)
            found = re.search(r"the account has had no room for \d+ s(: .*)", it.log())[1]
            check(found == ": jobs are refused until held ones have gone", found)
    return "one line"


SCENES = [refusals_name_their_job, connections_are_told, who_sends_on_and_on_is_left, a_warning_that_comes_again, an_end_waits_for_lines_alone, no_descriptor_is_left, printers_are_told, folders_are_told,
          a_folder_of_many_files]

# Told after a minute.
LONG = [the_account_has_no_room]


if __name__ == "__main__":
    signal.signal(signal.SIGPIPE, signal.SIG_IGN)
    raise SystemExit(main([*SCENES, *LONG], __doc__, LONG))
