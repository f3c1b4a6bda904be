#!/usr/bin/env python3
"""Scenes of printers on the network: network_printers.py PROGRAM [SCENE..], where PROGRAM is the built lpd_server. They end their connections in ways
of their own, or are off while a job is removed. Each scene is bounded in time, and runs on loopback alone. A line says what was seen; the last line is
'N passed, M failed'."""
import contextlib
import glob
import os
import re
import socket
import struct
import subprocess
import sys
import tempfile
import threading
import time
import urllib.request

from client import Server, ask, free_port, send, spool, state
from scene import PROGRAM, SHORT, check, main

OCTETS = b"hello world"


class Printer:
    """A printer that takes one connection after another, reads each to its end, and then ends it in its own way."""

    def __init__(self, end, is_on=True):
        self.socket = socket.socket()
        self.socket.bind(("127.0.0.1", 0))
        self.place = "socket://127.0.0.1:%d" % self.socket.getsockname()[1]
        self.end, self.left = end, []
        # Of each connection, in the order in which they came, its octets once it was read to its end.
        self.came = []
        if is_on:
            self.turn_on()

    def turn_on(self):
        self.socket.listen(16)
        threading.Thread(target=self.run, daemon=True).start()

    def run(self):
        with contextlib.suppress(OSError):
            while True:
                peer, _ = self.socket.accept()
                self.came.append(None)
                threading.Thread(target=self.serve, args=(peer, len(self.came) - 1), daemon=True).start()

    @property
    def jobs(self):
        """The jobs that were read to their ends, in the order in which their connections came."""
        return [octets for octets in self.came if octets is not None]

    def serve(self, peer, place):
        octets = b""
        with contextlib.suppress(OSError):
            while piece := peer.recv(65536):
                octets += piece
            self.came[place] = octets
            self.end(self, peer)


def never(printer, peer):
    """Keeps the connection."""
    printer.left.append(peer)


def late(_, peer):
    """Ends it 14 seconds later."""
    time.sleep(14)
    peer.close()


def resets(_, peer):
    """Resets it, with all octets taken."""
    peer.setsockopt(socket.SOL_SOCKET, socket.SO_LINGER, struct.pack("ii", 1, 0))
    peer.close()


def in_a_second(_, peer):
    """Ends it a second later."""
    time.sleep(1)
    peer.close()


def at_once(_, peer):
    """Ends it as printers do."""
    peer.close()


ENDS = [never, late, resets, at_once]


def until(limit, holds):
    """Waits until it holds, and answers after how many seconds it did."""
    start = time.monotonic()
    while not holds():
        check(time.monotonic() - start < limit, f"it doesn't hold after {limit} s")
        time.sleep(0.1)
    return time.monotonic() - start


def a_printed_job_is_done():
    """However a printer ends its connections, of each job that it has read to its end the log, the metrics, the account and the folder of `--spool`
    say that it is done, the page has the doubt at the printer, and no file stays; a printer that ended none of three connections isn't waited for any more, and its jobs are done too."""
    count = 4 if SHORT else 6
    names = [end.__name__ for end in ENDS]
    printers = [Printer(end) for end in ENDS]
    with tempfile.TemporaryDirectory() as room:
        status = free_port()
        words = ["--spool", f"{room}/kept", "--account", f"{room}/account", "--keep-room", "--log-jobs", "--status", str(status), "--control", f"{room}/control"]
        for number, printer in enumerate(printers, 1):
            words += ["--printer", f"{number}={printer.place}"]
        with Server(PROGRAM, spool(queues=names), *words, printers=len(names)) as it:
            for number in range(1, count + 1):
                for name in names:
                    check(send(it.port, number, OCTETS, queue=name) == 0, f"{name}: job {number} isn't taken")
            took = until(60 + 11 * count, lambda: it.log().count(" done in ") + it.log().count(" failed in ") == count * len(names))
            log = it.log()
            check(" failed in " not in log, next((line for line in log.splitlines() if " failed in " in line), ""))
            # (what a printer has read it notes a moment later)
            until(10, lambda: all(len(printer.jobs) == count for printer in printers))
            for printer, name in zip(printers, names):
                check(printer.jobs == [OCTETS] * count, f"{name}: {printer.jobs}")
            page = urllib.request.urlopen(f"http://127.0.0.1:{status}/metrics", timeout=10).read().decode()
            done, failed = (int(re.search(rf"^hurgwaye_jobs_{how}_total (\d+)$", page, re.M)[1]) for how in ("done", "failed"))
            check((done, failed) == (count * len(names), 0), f"metrics: done {done}, failed {failed}")
            # (a printer that ends its connections as printers do leaves no doubt, and one that did later has none any more)
            page = urllib.request.urlopen(f"http://127.0.0.1:{status}/", timeout=10).read().decode()
            cards = {name: page[page.index(f"<bdi>{name}</bdi>", page.index('id="queues"')):] for name in names}
            for name in names:
                card = cards[name][:cards[name].index("</section>")]
                has_doubt = "was printed, but its last octets may not have come" in card
                check(has_doubt == (name != "at_once"), f"{name}: {card}")
            subprocess.run([PROGRAM, "control", f"{room}/control", "stop"], check=True, timeout=60, stdout=subprocess.DEVNULL)
            it.process.wait(30)
        left = sorted(os.path.basename(path) for path in glob.glob(f"{room}/kept/*") if path.endswith((".job", ".failed", ".tmp")))
        check(left == [], f"the folder has {left}")
        audit = subprocess.run([PROGRAM, "audit", *sorted(glob.glob(f"{room}/account/segment-*"))], capture_output=True, text=True, timeout=60)
        check(audit.returncode == 0 and f"done {count * len(names)} " in audit.stdout, audit.stdout + audit.stderr)
        late = log.count("the printer didn't end the connection")
        check(late == 6, f"{late} of two printers weren't ended in time, of which three each are waited for")
        doubts = log.count("its last octets may not have come")
        check(doubts >= 3, log)
        return f"{count * len(names)} jobs done at {len(names)} printers in {took:.0f} s, {doubts} doubts in the log"


def resets_are_ends():
    """A printer that reset three connections has ended them: the end of the next one is waited for, and the job behind it has its connection after that."""
    ends = [resets, resets, resets, in_a_second, at_once]
    came = []

    def end(printer, peer):
        number = len(printer.jobs)
        ends[number - 1](printer, peer)
        came.append((number, time.monotonic()))

    printer = Printer(end)
    with Server(PROGRAM, spool(), "--keep-room", "--printer", f"1={printer.place}", "--log-jobs") as it:
        for number in range(1, 4):
            check(send(it.port, number, OCTETS) == 0, f"job {number} isn't taken")
            until(10, lambda: len(came) == number)
        for number in (4, 5):
            check(send(it.port, number, b"%d" % number * 1_000) == 0, f"job {number} isn't taken")
        until(15, lambda: len(came) == 5)
    check([number for number, _ in came] == [1, 2, 3, 4, 5], f"in another order: {came}")
    check(printer.jobs[3:] == [b"4" * 1_000, b"5" * 1_000], "other octets")
    return f"the next job's connection ended {came[4][1] - came[3][1]:.2f} s later"


class Halting(Printer):
    """A printer that takes each connection and reads nothing of it, so that a large job halts amid its octets."""

    def __init__(self):
        super().__init__(at_once, is_on=False)
        self.socket.setsockopt(socket.SOL_SOCKET, socket.SO_RCVBUF, 4096)
        self.turn_on()

    def serve(self, peer, place):
        self.left.append(peer)


def silence_is_not_patience():
    """Of printers that take nothing amid a job one fails it after the seconds of `--printer-silence`, and no sooner; and where that isn't said the minutes of `--patience`
    fail none, nor are they seconds."""
    much, config = b"x" * 6_000_000, spool(pages=2048, limit=2000, account=4_000_000)
    for words, fails in ((["--printer-silence", "3", "--patience", "1"], True), (["--patience", "1"], False), (["--printer-silence", "60", "--patience", "1"], False)):
        printer = Halting()
        with Server(PROGRAM, config, "--printer", f"1={printer.place}", "--log-jobs", *words) as it:
            start = time.monotonic()
            check(send(it.port, 1, much, limit=60) == 0, "the job isn't taken")
            until(20, lambda: printer.left)
            if fails:
                until(60, lambda: " failed in " in it.log())
                took = time.monotonic() - start
                check(took > 2.5, f"it failed after {took:.1f} s")
                continue
            time.sleep(5)
            check(" failed in " not in it.log() and b"jobs 1 printers 1 stopped 0" in state(it.port)[0], f"{words}: {it.log()}")
    return f"one job failed after {took:.1f} s, and two didn't"


def a_removed_job_stops_no_queue():
    """Of a printer that is off a user removes the job that waits for it: the queue goes on by itself, so the next job of another user is printed once
    the printer is on, and nobody has to start it. A printer that stands still for a cause of its own isn't started: its disk is full."""
    printer = Printer(at_once, is_on=False)
    words = ["--printer", f"1={printer.place}", "--printer", "2=file:/dev/full", "--log-jobs"]
    with Server(PROGRAM, spool(queues=("off", "full")), *words, printers=2) as it:
        check(send(it.port, 1, OCTETS, queue="off") == 0, "the job isn't taken")
        check(send(it.port, 2, OCTETS + b"!", queue="off", host="127.0.0.2") == 0, "the next job isn't taken")
        check(send(it.port, 3, OCTETS, queue="full") == 0, "the full printer's job isn't taken")
        check(send(it.port, 4, OCTETS, queue="full") == 0, "the full printer's next job isn't taken")
        until(10, lambda: "Connection refused" in it.log() and b"stopped 1" in state(it.port, "full")[0])
        check(ask(it.port, b"\x05off ann 1\n")[0] == b"removed 001 ann\n", "the job isn't removed")
        check(ask(it.port, b"\x05full ann 4\n")[0] == b"removed 004 ann\n", "the full printer's next job isn't removed")
        until(10, lambda: " removed in " in it.log() and b"jobs 1 printers 1 stopped 0" in state(it.port, "off")[0])
        printer.turn_on()
        took = until(20, lambda: printer.jobs)
        check(printer.jobs == [OCTETS + b"!"], printer.jobs)
        check(b"stopped 1" in state(it.port, "full")[0], "a printer that stands still for a cause of its own was started")
        return f"the next job was printed {took:.1f} s after its printer was on"


if __name__ == "__main__":
    sys.exit(main([a_printed_job_is_done, resets_are_ends, silence_is_not_patience, a_removed_job_stops_no_queue], __doc__))
