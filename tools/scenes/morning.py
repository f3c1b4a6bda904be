#!/usr/bin/env python3
"""A morning at a site of twenty printers: morning.py PROGRAM [SCENE..], where PROGRAM is the built lpd_server.

Two printers are off, one ends its connections late, one resets them, a pipe's reader dies, a folder's disk is full; eight hosts send JOBS jobs, 2,000 where nothing
is said, and an operator does just what `status` and the log say. At the end each job was printed once, and nothing was told as failed but what did fail. It is
bounded in time, and runs on loopback alone. A line says what was seen; the last line is 'N passed, M failed'."""
import contextlib
import glob
import os
import re
import threading
import time

from client import free_port
from keeping import small_disk
from network_printers import Printer, at_once, late, resets
from off import Printer as Site
from parking import QUEUES, Flood, Room, check_order, config, jobs_in
from scene import SHORT, check, main, size

JOBS = size("JOBS", 2_000, 240)
CLIENTS = 8
# What is special, by queue; the others print to files.
ENDS, LATE, RESETS, REFUSES, SILENT, PIPE, FOLDER, FULL = (f"q{number}" for number in range(13, 21))


class Reader(threading.Thread):
    """Reads a pipe into a file, until it dies: then nobody reads, until the next one is started."""

    def __init__(self, pipe, to):
        super().__init__(daemon=True)
        self.pipe, self.to, self.dies = pipe, to, threading.Event()
        self.start()

    def run(self):
        source = os.open(self.pipe, os.O_RDONLY | os.O_NONBLOCK)
        with open(self.to, "ab") as to:
            while not self.dies.is_set():
                try:
                    octets = os.read(source, 65536)
                except BlockingIOError:
                    octets = b""
                to.write(octets)
                to.flush()
                if not octets:
                    time.sleep(0.02)
        os.close(source)


class Operator(threading.Thread):
    """Looks at `status` and does what it says: turns on what isn't reached, starts a reader for a pipe that takes nothing, makes room on a full disk, and then starts
    the queue and sends its failed jobs again."""

    def __init__(self, room, site):
        super().__init__(daemon=True)
        self.room, self.site, self.done, self.over = room, site, [], threading.Event()
        self.start()

    def act(self, text, *words):
        """Notes what is done, and does it by the control socket where that is a word of it."""
        self.done.append(text)
        if words:
            told = self.room.tell(*words)
            check("fault" not in told or words[0] == "resend", f"{words}: {told}")

    def mend(self, queue, trouble, seconds, cause):
        if trouble in ("unreached", "putoff") and queue in self.site.off and int(seconds) >= 3:
            self.site.off.pop(queue).turn_on()
            self.act(f"turned on {queue}")
        elif trouble in ("unreached", "putoff") and queue == PIPE and self.site.reader.dies.is_set():
            self.site.read_on()
            self.act(f"started the reader of {queue}")
        elif trouble == "stopped" and "No space left" in cause:
            with contextlib.suppress(FileNotFoundError):
                os.unlink(self.site.filler)
                self.act(f"made room for {queue}")
            self.act(f"started {queue}", "start", queue)
            self.act(f"sent the failed ones of {queue} again", "resend", "all", queue)

    def run(self):
        while not self.over.is_set():
            for number, queue, trouble, seconds, cause in re.findall(r"^printer (\d+) (\S+) (unreached|putoff|stopped) (\d+) (.*)$", self.room.tell("status"), re.M):
                self.mend(queue, trouble, seconds, cause)
            time.sleep(0.5)


class Twenty:
    """The printers of the site."""

    def __init__(self, room, disk):
        self.room, self.filler = room, f"{disk}/filler"
        self.network = {ENDS: Printer(at_once), LATE: Printer(late), RESETS: Printer(resets)}
        self.off = {REFUSES: Site(), SILENT: Site(silent=True)}
        self.sites = dict(self.off)
        self.pipe, self.read, self.folders = f"{room}/pipe", f"{room}/read", {FOLDER: f"{room}/folder", FULL: f"{disk}/folder"}
        os.mkfifo(self.pipe)
        for path in self.folders.values():
            os.mkdir(path)
        with open(self.filler, "wb") as file, contextlib.suppress(OSError):
            file.write(b"x" * (1 << 20))
        self.reader = Reader(self.pipe, self.read)

    def read_on(self):
        self.reader = Reader(self.pipe, self.read)

    def words(self):
        words = [f"--printer={queue}={printer.place}" for queue, printer in self.network.items()]
        words += [f"--printer={queue}=socket://127.0.0.1:{printer.port}" for queue, printer in self.sites.items()]
        words += [f"--printer={queue}=folder:{path}" for queue, path in self.folders.items()]
        return [*words, f"--printer={PIPE}=file:{self.pipe}"]

    def printed(self, room, queue):
        """All that came out of a queue's printer, in order."""
        if queue in self.network:
            return b"".join(self.network[queue].jobs)
        if queue in self.sites:
            return b"".join(self.sites[queue].jobs)
        if queue in self.folders:
            return b"".join(open(path, "rb").read() for path in sorted(glob.glob(f"{self.folders[queue]}/job-*")))
        if queue == PIPE:
            return open(self.read, "rb").read()
        return room.printed(int(queue[1:]))


def plan_of(jobs):
    """The jobs: most of them short, and one in twenty some 200 kB, also for the pipe."""
    return [(f"q{at % QUEUES + 1}", 9_000 if at % 40 in (21, 37) else (6, 20, 60, 300)[at % 4]) for at in range(jobs)]


def a_morning():
    """Twenty printers, eight hosts, an operator."""
    with Room(config(), "--log-jobs", "--silence", "60") as room:
        disk = f"{room.folder}/disk"
        with small_disk(disk, 1):
            site = Twenty(room.folder, disk)
            room.words = (*room.words, *site.words())
            room.start()
            operator = Operator(room, site)
            flood = Flood(room, plan_of(JOBS), CLIENTS)
            # (that nothing goes amid a job is told after a minute: the short form has none)
            dying = threading.Timer(10, lambda: SHORT or site.reader.dies.set())
            dying.start()
            flood.go()
            check(not flood.refused, f"refused: {flood.refused}; {room.log()[-600:]}")
            dying.join()
            until = time.monotonic() + (240 if SHORT else 900)
            while room.files() or room.files("failed"):
                check(time.monotonic() < until, f"{len(room.files())} wait, {len(room.files('failed'))} failed: {operator.done} {room.tell('status')[:3000]} {room.log()[-1500:]}")
                time.sleep(0.5)
            operator.over.set()
            operator.join(60)
            time.sleep(1)
            log = room.log()
            for number in range(1, QUEUES + 1):
                queue = f"q{number}"
                seen = jobs_in(site.printed(room, queue), queue)
                check(set(seen) == flood.want(queue) and len(seen) == len(set(seen)), f"{queue}: {len(seen)} printed of {len(flood.want(queue))}")
                if queue != FULL:
                    check_order(seen)
            told = [line for line in log.splitlines() if " failed in " in line]
            check(all(f" {FULL} " in line for line in told), f"told as failed: {told[:3]}")
            check(" is lost" not in log and "isn't printed" not in log, log[-1500:])
            check("kept waiting 0 failed 0" in room.tell("status"), room.tell("status")[:600])
            for wanted in (f"turned on {REFUSES}", f"turned on {SILENT}", f"started {FULL}"):
                check(wanted in operator.done, f"the operator wasn't told of it: {operator.done}")
            room.tell("stop")
            room.server.wait(30)
    return f"{len(flood.taken)} jobs of {CLIENTS} hosts, each printed once, {len(told)} of them after they had failed for want of room; the operator did {len(operator.done)} things"


if __name__ == "__main__":
    raise SystemExit(main([a_morning], __doc__))
