#!/usr/bin/env python3
"""Scenes of a server whose account is trimmed while a job is held: trimming.py PROGRAM [SCENE..], where PROGRAM is the built lpd_server.

A job of limit 64 has 12,912 entries counted for it, so an account of 1,200,000 entries has room for 92. One job waits for a printer that is off,
and so is held as long as that is. JOBS says how many others are sent, 200,000 from 32 hosts with `--account` where nothing is said. Each scene is
bounded in time and runs on loopback alone. A line says what was seen; the last line is 'N passed, M failed'."""
import contextlib
import glob
import os
import re
import signal
import socket
import subprocess
import sys
import tempfile
import threading
import time

from client import Server, send, spool, state
from keeping import small_disk
from scene import PROGRAM, SHORT, check, main, size

JOBS = size("JOBS", 200_000, 2_000)
# How many of them without files of the account.
FEWER = min(JOBS, 20_000)
CLIENTS = 8
HOSTS = 32
OCTETS = b"hello world"
# How many seconds the jobs may take.
LIMIT = 1800
# How many jobs an account of 1,200,000 entries has room for, and how many entries a segment has at most: a job of one page has 8.
ROOM = 92
MOST = 8 * ROOM
# How much more memory of the server may be resident at most until the end than until a quarter of the jobs were sent, in KiB, beside a fifth of that.
MORE = 8192


def until(limit, holds):
    """Waits until it holds, and answers after how many seconds it did."""
    start = time.monotonic()
    while not holds():
        check(time.monotonic() - start < limit, f"it doesn't hold after {limit} s")
        time.sleep(0.05)
    return time.monotonic() - start


def resident(server):
    """The most memory of the server that was resident so far, in KiB."""
    return int(re.search(r"VmHWM:\s+(\d+) kB", open(f"/proc/{server.process.pid}/status").read())[1])


class Printer:
    """A printer on the network that is off until it is turned on. Then it takes one connection."""

    def __init__(self):
        self.socket = socket.socket()
        self.socket.bind(("127.0.0.97", 0))
        self.place = "socket://127.0.0.97:%d" % self.socket.getsockname()[1]
        self.taken = b""

    def turn_on(self):
        self.socket.listen(4)
        self.socket.settimeout(60)
        peer, _ = self.socket.accept()
        peer.settimeout(10)
        while piece := peer.recv(4096):
            self.taken += piece
        peer.close()

    def __enter__(self):
        return self

    def __exit__(self, *_):
        self.socket.close()


@contextlib.contextmanager
def server(printer, *words, **how):
    """A server whose queue `lp` prints to a file and whose queue `off` to that printer, for which it holds a job."""
    config = spool(pages=1024, size=1024, jobs=64, limit=64, account=1_200_000, queues=("lp", "off"))
    with Server(PROGRAM, config, "--sessions", "8", "--printer", f"2={printer.place}", *words, printers=2, device=None, **how) as it:
        check(send(it.port, 1, b"held for good", queue="off") == 0, "the job for the printer that is off isn't taken")
        until(5, lambda: "printer 2: job 1: " in it.log())
        yield it


def is_held(it):
    return state(it.port, "off")[0].startswith(b"queue off jobs 1 printers 1 stopped 0\n")


class Load:
    """Clients that send jobs, each to `lp` from one host after another: what they saw."""

    def __init__(self, it, jobs):
        self.it, self.jobs = it, jobs
        self.done, self.refused, self.quarter, self.longest = [0] * CLIENTS, [], [], 0

    def client(self, number):
        for job in range(number, self.jobs, CLIENTS):
            start = time.monotonic()
            octet = send(self.it.port, job % 1000, OCTETS, host=f"127.0.8.{job % HOSTS + 1}")
            self.longest = max(self.longest, time.monotonic() - start)
            if octet != 0:
                self.refused.append((job, octet))
            self.done[number] += 1
            if sum(self.done) >= self.jobs // 4 and not self.quarter:
                self.quarter.append(resident(self.it))

    def run(self, may_refuse=False):
        """Answers how many seconds it took. Where the disk may be slow jobs may be refused."""
        start = time.monotonic()
        threads = [threading.Thread(target=self.client, args=(number,), daemon=True) for number in range(CLIENTS)]
        for thread in threads:
            thread.start()
        for thread in threads:
            thread.join(max(0, start + LIMIT - time.monotonic()))
        took = time.monotonic() - start
        check(sum(self.done) == self.jobs, f"{sum(self.done)} of {self.jobs} jobs were sent in {took:.0f} s")
        if not may_refuse:
            check(not self.refused, f"{len(self.refused)} jobs are refused, first {self.refused[:3]}")
            check(SHORT or self.longest < 1, f"a client waited {self.longest:.1f} s")
        return took

    def taken(self):
        """How many jobs were taken."""
        return self.jobs - len(self.refused)


def printed(it, jobs):
    """Waits until these are printed, and looks at what the server says then."""
    until(30, lambda: os.path.getsize(it.path(1)) == jobs * len(OCTETS))
    check(is_held(it), state(it.port, "off"))
    check(state(it.port)[0].startswith(b"queue lp jobs 0 "), state(it.port))
    segments = [(int(number), int(entries)) for number, entries in re.findall(r"rotated (\d+) entries (\d+)\n", it.said())]
    check([number for number, _ in segments] == list(range(1, len(segments) + 1)), segments[:9])
    largest = max(entries for _, entries in segments)
    check(largest <= MOST, f"a segment has {largest} entries")
    return segments, largest


def is_flat(load):
    end = resident(load.it)
    check(SHORT or end <= 1.2 * load.quarter[0] + MORE, f"at most {load.quarter[0]} KiB in a quarter of the jobs, {end} in all")
    return f"at most {load.quarter[0]} KiB resident in a quarter of them, {end} in all"


def a_printer_that_is_off():
    """With --keep-room 20,000 jobs go past the one that is held: none is refused, all are printed, no segment of the account is large, and
    the server's memory doesn't grow. The one that is held is still held then, and is printed once its printer is turned on. (Before accounts were
    trimmed a server refused each job once 91 were printed, or 1,238 with an account of 16,000,000 entries, until no job was held.)"""
    with Printer() as printer, server(printer, "--keep-room") as it:
        load = Load(it, FEWER)
        took = load.run()
        segments, largest = printed(it, FEWER)
        flat = is_flat(load)
        printer.turn_on()
        check(printer.taken == b"held for good", printer.taken)
        until(5, lambda: state(it.port, "off")[0].startswith(b"queue off jobs 0 "))
        return f"{FEWER} jobs printed past one that is held, in {took:.0f} s; {len(segments)} segments of {largest} entries at most; {flat}"


def told(*words):
    """What the program tells, which has to end well."""
    ran = subprocess.run([PROGRAM, *words], capture_output=True, text=True, timeout=LIMIT)
    check(ran.returncode == 0, f"{words[0]}: status {ran.returncode}: {ran.stdout[-400:]}{ran.stderr[-400:]}")
    return ran.stdout


def files(account):
    return sorted(glob.glob(f"{account}/segment-" + "[0-9]" * 10))


def stop(it, room):
    """Stops a server, whose held job is left."""
    subprocess.run([PROGRAM, "control", f"{room}/control", "stop", "1"], capture_output=True, timeout=60)
    check(it.process.wait(60) == 0, it.log()[-400:])


def an_account_in_files():
    """The same with --account, 200,000 jobs from 32 hosts: each segment is a file, an audit finds all of them legal and what was printed as it says,
    and who used how much is told rightly."""
    with Printer() as printer, tempfile.TemporaryDirectory() as room:
        account = f"{room}/account"
        with server(printer, "--keep-room", "--account", account, "--control", f"{room}/control") as it:
            load = Load(it, JOBS)
            took = load.run()
            segments, largest = printed(it, JOBS)
            flat = is_flat(load)
            stop(it, room)
            paths = files(account)
            check(len(paths) == len(segments) + 1, f"{len(paths)} files of {len(segments)} segments")
            parts = sum("\npart " in open(path).read(4096) for path in paths)
            check(parts >= len(paths) - 2, f"{parts} of {len(paths)} segments begin amid jobs")
            said = told("audit", *paths, "--printed", f"1={it.path(1)}")
            check(f" jobs {JOBS + 1} done {JOBS} removed 0 " in said, said)
            check(f"printed 1 octets {JOBS * len(OCTETS)}\n" in said, said)
            used = told("usage", *paths)
            check(used == f"ann jobs {JOBS + 1} sent {JOBS * len(OCTETS) + 13} printed {JOBS * len(OCTETS)}\n", used)
            lone = told("usage", *paths[len(paths) // 2:], "--by", "queue")
            check("lp jobs " in lone, lone)
            without = subprocess.run([PROGRAM, "audit", *paths[1:]], capture_output=True, text=True)
            check(without.returncode == 6 and without.stderr.startswith(f"fault 82 Follow {paths[1]}:"), without.stderr)
            left = subprocess.run([PROGRAM, "audit", *paths[:2], *paths[3:]], capture_output=True, text=True)
            check(left.returncode == 6 and left.stderr.startswith(f"fault 82 Follow {paths[3]}:"), left.stderr)
        return f"{JOBS} jobs printed past one that is held, in {took:.0f} s; {len(paths)} files, {parts} of them parts, of {largest} entries at most; {flat}; no client waited {load.longest:.2f} s"


def a_kill_amid_it():
    """A server that is killed leaves all segments but the last one, and the next run goes on behind them: only what came since the last segment is gone."""
    with Printer() as printer, tempfile.TemporaryDirectory() as room:
        account = f"{room}/account"
        with server(printer, "--keep-room", "--account", account) as it:
            load = Load(it, min(JOBS, 2_000))
            load.run(may_refuse=True)
            segments, _ = printed(it, load.taken())
            until(30, lambda: len(files(account)) == len(segments))
            it.process.kill()
            it.process.wait()
        before = files(account)
        said = told("audit", *before)
        jobs = int(re.search(r" jobs (\d+) ", said)[1])
        check(load.taken() - jobs < ROOM, said)
        with server(printer, "--keep-room", "--account", account, "--control", f"{room}/control") as it:
            more = Load(it, 200)
            more.run(may_refuse=True)
            stop(it, room)
        said = told("audit", *files(account))
        check(f" jobs {jobs + 1 + more.taken()} " in said, said)
        return f"{jobs} of {load.taken() + 1} jobs told after a kill, {len(before)} segments; {jobs + 1 + more.taken()} after the next run"


def a_full_disk_amid_it():
    """Where the disk of the account is full jobs go on until two segments wait and the account is full; then they are refused for now, and once there is
    room they are taken again, and nothing of the account is missing."""
    with Printer() as printer, tempfile.TemporaryDirectory() as room, small_disk(f"{room}/disk", 1):
        account = f"{room}/disk/account"
        with server(printer, "--keep-room", "--account", account, "--control", f"{room}/control") as it:
            first = Load(it, 100)
            first.run(may_refuse=True)
            with open(f"{room}/disk/filler", "wb") as file, contextlib.suppress(OSError):
                file.write(b"x" * (1 << 21))
            answers = [send(it.port, job % 1000, OCTETS) for job in range(8 * ROOM)]
            check(0 in answers and answers[-1] == 2, answers[-9:])
            check("the segment is kept, and is tried again" in it.log(), it.log()[-400:])
            os.remove(f"{room}/disk/filler")
            until(90, lambda: send(it.port, 7, OCTETS) == 0)
            more = Load(it, 100)
            more.run(may_refuse=True)
            stop(it, room)
            jobs = 1 + first.taken() + answers.count(0) + 1 + more.taken()
            said = told("audit", *files(account), "--printed", f"1={it.path(1)}")
            check(f" jobs {jobs} done {jobs - 1} " in said, f"{said} of {jobs}")
        return f"{answers.count(0)} jobs taken beside a full disk and {answers.count(2)} refused, all of {jobs} told"


def an_account_that_is_never_trimmed():
    """Without --keep-room the account is full after 91 jobs more, and each one behind them is refused for now."""
    with Printer() as printer, server(printer) as it:
        answers = [send(it.port, job % 1000, OCTETS) for job in range(2 * ROOM)]
        check(answers == [0] * (ROOM - 1) + [2] * (ROOM + 1), answers)
        check(is_held(it), state(it.port, "off"))
        return f"{answers.count(0)} jobs taken, and {answers.count(2)} refused"


SCENES = [a_printer_that_is_off, an_account_that_is_never_trimmed, an_account_in_files, a_kill_amid_it, a_full_disk_amid_it]


if __name__ == "__main__":
    signal.signal(signal.SIGPIPE, signal.SIG_IGN)
    sys.exit(main(SCENES, __doc__, measured=[a_printer_that_is_off, an_account_in_files]))
