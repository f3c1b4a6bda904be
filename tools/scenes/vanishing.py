#!/usr/bin/env python3
"""Scenes of a printer on the network that is gone without a word, or with one that is easily missed: vanishing.py PROGRAM [SCENE..], where PROGRAM is the built lpd_server.

One that is gone lives in a network namespace of its own, whose link is taken down: nothing refuses, resets or ends a connection then. So it wants
root, and `ip` of iproute2; a clock that is set by hand wants a C compiler. Each scene is bounded in time. A line says what was seen; the last line is 'N passed, M failed'."""
import contextlib
import os
import re
import signal
import socket
import struct
import subprocess
import sys
import tempfile
import time

from client import Server, ask, send, spool, state
from scene import PROGRAM, check, main
from scraping import Clock, command

NAME = "hurgwaye-vanishing"
OURS, PRINTERS = "10.213.77.1", "10.213.77.2"

# Takes connections one after another, reads each at a hundred thousand octets a second, and says how many octets came of each.
PRINTER = """
import socket, time
there = socket.socket()
there.setsockopt(socket.SOL_SOCKET, socket.SO_REUSEADDR, 1)
there.setsockopt(socket.SOL_SOCKET, socket.SO_RCVBUF, 4096)
there.bind(("0.0.0.0", 9100))
there.listen(4)
print("listens", flush=True)
while True:
    peer, _ = there.accept()
    count = 0
    while piece := peer.recv(10_000):
        count += len(piece)
        time.sleep(len(piece) / 100_000)
    peer.close()
    print("took", count, flush=True)
"""


def ip(*words):
    subprocess.run(["ip", *words], check=True)


def link(state):
    ip("-n", NAME, "link", "set", "hvs1", state)


@contextlib.contextmanager
def printer():
    """A printer behind a link of its own."""
    subprocess.run(["ip", "netns", "del", NAME], stderr=subprocess.DEVNULL)
    ip("netns", "add", NAME)
    there = None
    try:
        ip("link", "add", "hvs0", "type", "veth", "peer", "name", "hvs1", "netns", NAME)
        ip("addr", "add", OURS + "/30", "dev", "hvs0")
        ip("link", "set", "hvs0", "up")
        ip("-n", NAME, "addr", "add", PRINTERS + "/30", "dev", "hvs1")
        link("up")
        there = subprocess.Popen(["ip", "netns", "exec", NAME, sys.executable, "-c", PRINTER], stdout=subprocess.PIPE, text=True)
        check(there.stdout.readline() == "listens\n", "the printer doesn't listen")
        yield there
    finally:
        if there:
            there.kill()
            there.wait()
        # The namespace itself goes a moment later.
        ip("link", "del", "hvs0")
        ip("netns", "del", NAME)


@contextlib.contextmanager
def server(*words):
    """A server whose queue `lp` prints to that printer, and whose queue `file` to a file; each holds a job of a megabyte."""
    config = spool(pages=2048, limit=512, account=1_000_000, queues=("lp", "file"))
    with Server(PROGRAM, config, "--keep-room", "--printer", f"1=socket://{PRINTERS}", *words, printers=2, device=None) as it:
        yield it


def until(limit, holds, seen=lambda: ""):
    """Waits until it holds, and answers after how many seconds it did."""
    start = time.monotonic()
    while not holds():
        check(time.monotonic() - start < limit, f"it doesn't hold after {limit} s: {seen()}")
        time.sleep(0.05)
    return time.monotonic() - start


def stopped(it):
    return int(re.search(rb"stopped (\d)", state(it.port)[0])[1])


def a_printer_is_gone_amid_a_job():
    """The link goes down in the middle of a megabyte: after the seconds of --printer-silence the job is failed, in one line of the log. The
    other printer goes on meanwhile. Once the link is up and the queue is started the next job comes whole."""
    with printer() as there, server("--printer-silence", "3") as it:
        check(send(it.port, 1, b"n" * 1_000_000) == 0, "the job isn't taken")
        time.sleep(1)
        link("down")
        start = time.monotonic()
        check(send(it.port, 2, b"f" * 100_000, queue="file") == 0, "the other queue's job isn't taken")
        until(2, lambda: os.path.exists(it.path(2)) and os.path.getsize(it.path(2)) == 100_000)
        until(8, lambda: stopped(it) == 1)
        took = time.monotonic() - start
        check(took > 2, f"failed {took:.1f} s after the link went down")
        log = it.log()
        check(log.count("printer 1: job 1") == 1, log)
        link("up")
        ask(it.port, b"\x01lp\n")
        check(send(it.port, 3, b"n" * 50_000) == 0, "the next job isn't taken")
        lines = [there.stdout.readline().split()]
        if lines[0][1] != "50000":
            lines.append(there.stdout.readline().split())
        check(lines[-1] == ["took", "50000"], lines)
        return f"failed {took:.1f} s after the link went down, and the next job came whole"


def a_printer_that_is_gone_holds_up_no_stop():
    """Without --printer-silence such a job waits; `stop now` ends the server within three seconds, and names the job."""
    with tempfile.TemporaryDirectory() as room, printer(), server("--control", f"{room}/control") as it:
        check(send(it.port, 1, b"n" * 1_000_000) == 0, "the job isn't taken")
        time.sleep(1)
        link("down")
        time.sleep(4)
        check(stopped(it) == 0, "the printer stands still")
        start = time.monotonic()
        subprocess.run([PROGRAM, "control", f"{room}/control", "stop", "now"], check=True, timeout=10, stdout=subprocess.DEVNULL)
        check(it.process.wait(5) == 0, "its status isn't 0")
        took = time.monotonic() - start
        check(took < 3, took)
        check("is lost" in it.log(), it.log())
        return f"ended in {took:.1f} s"


def a_printer_is_gone_before_a_job():
    """While the link is down a job is held, and nothing of it is sent; once it is up the job comes whole."""
    with printer() as there, server() as it:
        link("down")
        check(send(it.port, 1, b"n" * 50_000) == 0, "the job isn't taken")
        time.sleep(5)
        check(b"jobs 1" in state(it.port)[0], state(it.port))
        link("up")
        start = time.monotonic()
        check(there.stdout.readline() == "took 50000\n", "it didn't come whole")
        return f"came whole {time.monotonic() - start:.1f} s after the link was up; the log says: {it.log().splitlines()[0]}"


@contextlib.contextmanager
def listening(room):
    """A printer on loopback whose connections have so much room, and that reads where it is asked to."""
    with socket.socket() as there:
        there.setsockopt(socket.SOL_SOCKET, socket.SO_RCVBUF, room)
        there.bind(("127.0.0.1", 0))
        there.listen(4)
        there.settimeout(20)
        yield there, there.getsockname()[1]


def states_at(port):
    """The system's states of the connections that lead to a port, as /proc tells them."""
    with open("/proc/net/tcp") as file:
        rows = [line.split() for line in file.readlines()[1:]]
    return [int(row[3], 16) for row in rows if row[2].endswith(f":{port:04X}")]


def read(peer, count):
    """So many octets, as far as they come."""
    octets = 0
    while octets < count and (piece := peer.recv(min(65536, count - octets))):
        octets += len(piece)
    return octets


def a_printer_halts_and_goes_on():
    """A printer takes nothing of a job for a while and then something: from then on it doesn't count as halted, however short that was, and one that halts again counts from
    then on alone. It is told once it has halted for a minute, and no more once the job has gone."""
    with tempfile.TemporaryDirectory() as room, Clock() as clock, listening(65536) as (there, port):
        words = ("--printer", f"1=socket://127.0.0.1:{port}", "--control", f"{room}/control")
        with Server(PROGRAM, spool(pages=2048, limit=512, account=1_000_000), *words, device=None, env=clock.environment) as it:
            def trouble():
                """Since when `status` says that it takes nothing."""
                return [int(seconds) for seconds in re.findall(r"(?m)^printer 1 lp unreached (\d+) it takes nothing$", command(f"{room}/control", "status"))]

            check(send(it.port, 1, b"n" * 1_900_000) == 0, "the job isn't taken")
            peer, _ = there.accept()
            peer.settimeout(20)
            begun = 0
            # (it has halted for more than one look at it, and then for fewer than two, of a second each)
            for looks in (2.5, 1.4, 1.4):
                clock.set(begun)
                time.sleep(looks)
                clock.set(begun + 59)
                check(trouble() == [], f"told after 59 s: {trouble()}")
                begun += 60
                clock.set(begun)
                check(read(peer, 400_000) == 400_000, "it doesn't go on")
                until(10, lambda: trouble() == [], lambda: f"it went on after a halt of {looks} s, and is told: {trouble()}")
            before = it.log().count("has taken nothing")
            # (the system may pass on some octets a little later, and then it halts from then on)
            seen = []
            for _ in range(4):
                time.sleep(2.5)
                for seconds in (59, 60):
                    clock.set(begun + seconds)
                    seen += trouble()
                begun += 60
                if seen:
                    break
            check(seen and seen[0] == 60, f"it is told first after: {seen}")
            until(10, lambda: it.log().count("has taken nothing") > before, it.log)
            told = [line.partition("] ")[2] for line in it.log().splitlines() if "has taken nothing" in line][before:]
            check(told == ["printer 1 of lp has taken nothing for 1 min, amid a job"], f"{told}")
            check(read(peer, 1_900_000) == 700_000, "the rest doesn't come")
            peer.close()
            until(10, lambda: command(f"{room}/control", "status").endswith("printer 1 lp idle\n"))
            check(it.log().count("has taken nothing") == before + 1, it.log())
    return "halted three times"


def a_reset_behind_the_last_octet():
    """A printer that ends its connection and resets it at once, before all octets of the job have gone, hasn't ended it as printers do: the log says in one line that the
    last octets may not have come. Of one that has read all and ends it says nothing."""
    with tempfile.TemporaryDirectory() as room, listening(2048) as (there, port):
        words = ("--printer", f"1=socket://127.0.0.1:{port}", "--control", f"{room}/control", "--log-jobs")
        with Server(PROGRAM, spool(), *words, device=None) as it:
            doubt = f"printer 1: job 1: 127.0.0.1:{port}: "
            check(send(it.port, 1, b"n" * 30_000) == 0, "the job isn't taken")
            peer, _ = there.accept()
            # (the server has said its end, which waits behind octets that the printer has no room for)
            until(10, lambda: 4 in states_at(port), lambda: f"{states_at(port)}: {it.log()}")
            it.process.send_signal(signal.SIGSTOP)
            until(10, lambda: open(f"/proc/{it.process.pid}/stat").read().rsplit(")", 1)[1].split()[0] == "T")
            peer.shutdown(socket.SHUT_WR)
            peer.setsockopt(socket.SOL_SOCKET, socket.SO_LINGER, struct.pack("ii", 1, 0))
            peer.close()
            it.process.send_signal(signal.SIGCONT)
            until(10, lambda: " done in " in it.log())
            told = [line for line in it.log().splitlines() if doubt in line]
            check(len(told) == 1 and told[0].endswith(": its last octets may not have come"), f"{told}: {it.log()}")
            check(send(it.port, 2, b"n" * 30_000) == 0, "the next job isn't taken")
            peer, _ = there.accept()
            check(read(peer, 40_000) == 30_000, "the next job doesn't come whole")
            peer.close()
            until(10, lambda: it.log().count(" done in ") == 2)
            check(it.log().count("may not have come") == 1, it.log())
            return told[0].partition("job 1: ")[2]


def a_file_that_is_not_on_the_disk():
    """Where jobs are kept and the disk fails to take what a printer's file has, the job isn't done: the log says why in one line, and the job's file stays as one that failed.
    Another printer's jobs are done."""
    with tempfile.TemporaryDirectory() as room, Clock() as clock:
        words = ("--spool", f"{room}/kept", "--keep-room", "--control", f"{room}/control", "--log-jobs")
        environment = {**clock.environment, "UNSYNCED": "/printer-1"}
        with Server(PROGRAM, spool(queues=("lp", "other")), *words, printers=2, device=None, env=environment) as it:
            check(send(it.port, 1, b"n" * 5_000) == 0, "the job isn't taken")
            check(send(it.port, 2, b"n" * 5_000, queue="other") == 0, "the other queue's job isn't taken")
            until(10, lambda: " failed in " in it.log() and " done in " in it.log(), it.log)
            told = [line.partition("] ")[2] for line in it.log().splitlines() if "[WARN " in line]
            check(told == ["printer 1: a job that was printed is not in its folder: Input/output error (os error 5)"], it.log())
            # (a job that ended before its session went on has no file in its line)
            jobs = [re.sub(r"[\d.]+ s( file \d+)?$", "S s", line.partition("] ")[2]) for line in it.log().splitlines() if " failed in " in line or " done in " in line]
            check(sorted(jobs) == ["job 1 lp 001 ann@h1 2 pages 5000 octets failed in S s", "job 2 other 002 ann@h1 2 pages 5000 octets done in S s"], f"{jobs}")
            until(10, lambda: sorted(name for name in os.listdir(f"{room}/kept") if name[0].isdigit()) == ["1.failed"], lambda: os.listdir(f"{room}/kept"))
            status = command(f"{room}/control", "status")
            check("\nkept waiting 0 failed 1\n" in status and "\nprinter 1 lp idle\n" in status, status)
            return told[0]


SCENES = [a_printer_is_gone_amid_a_job, a_printer_that_is_gone_holds_up_no_stop, a_printer_is_gone_before_a_job, a_printer_halts_and_goes_on, a_reset_behind_the_last_octet,
          a_file_that_is_not_on_the_disk]


if __name__ == "__main__":
    sys.exit(main(SCENES, __doc__))
