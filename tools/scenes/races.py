#!/usr/bin/env python3
"""Scenes of steps that one lock holds together, where a kept job changes hands: races.py PROGRAM [SCENE..], where PROGRAM is the built lpd_server.

Who opens a job, feeds it, has it leave the spool or removes it takes the lock of the folder's lines, and who offers a job that of the offers. Each scene was
seen to fail with a program that took that lock later, or let it go earlier, and waited some tenths of a second in between; what was planted stands at the
scene. A line says what was seen; the last line is 'N passed, M failed'."""
import contextlib
import os
import re
import socket
import struct
import subprocess
import threading
import time

from client import answer, ask, connect, free_port
from off import await_status
from parking import Room, check_order, config, jobs_in, job, send
from scene import check, main

ROUNDS = 4


def settings(page, queues=1, **more):
    """A spool with pages of this size, in which some jobs of 8,000 lines have room."""
    return config(**{"queues": queues, "pages": 1024, "page": page, "jobs": 16, "account": 1_200_000, "limit": 200, **more})


class SlowPrinter(threading.Thread):
    """A printer on the network that takes 3 kB and pauses, again and again, and keeps what it was sent over each connection. It is off until it is turned on; it
    may reset the first connection amid its job."""

    def __init__(self, pause=0.05, resets_first=False):
        super().__init__(daemon=True)
        self.port, self.sent, self.resets_next, self.listener = free_port(), [], resets_first, socket.socket()
        self.pause = pause
        # (so that the system takes little beside it)
        self.listener.setsockopt(socket.IPPROTO_TCP, socket.TCP_MAXSEG, 536)
        self.listener.setsockopt(socket.SOL_SOCKET, socket.SO_RCVBUF, 4096)
        self.listener.setsockopt(socket.SOL_SOCKET, socket.SO_REUSEADDR, 1)

    def turn_on(self):
        self.listener.bind(("127.0.0.1", self.port))
        self.listener.listen(16)
        self.start()

    def run(self):
        while True:
            peer, _ = self.listener.accept()
            resets, self.resets_next = self.resets_next, False
            octets = b""
            with peer, contextlib.suppress(OSError):
                peer.settimeout(60)
                while piece := peer.recv(3_000):
                    octets += piece
                    if resets and len(octets) > 9_000:
                        peer.setsockopt(socket.SOL_SOCKET, socket.SO_LINGER, struct.pack("ii", 1, 0))
                        break
                    time.sleep(self.pause)
            if octets and not resets:
                self.sent.append(octets)

    def has_each_once(self, queue, wanted):
        """Each connection had one whole job, and these jobs came, each sender's in order."""
        seen = [it for octets in self.sent for it in jobs_in(octets, queue)]
        check(len(seen) == len(self.sent) and sorted(seen) == sorted(wanted), f"{queue}: {seen}, and not {wanted}")
        check_order(seen)


class Opened:
    """A job that is opened by a thread over a connection of its own, by the line of its data file, and ended later."""

    def __init__(self, room, queue, number):
        self.queue, self.number, self.at, self.peer = queue, number, None, connect(room.port, "127.0.0.9")
        self.octets = job(queue, 0, number)
        self.thread = threading.Thread(target=self.open, daemon=True)
        self.thread.start()

    def tell(self, line):
        self.peer.sendall(line)
        check(answer(self.peer) == 0, f"job {self.number} isn't taken at {line[:20]!r}")

    def open(self):
        self.tell(b"\x02%s\n" % self.queue.encode())
        self.tell(b"\x03%d dfA%03dh1\n" % (len(self.octets), self.number))
        self.at = time.monotonic()

    def end(self):
        text = b"Hh1\nPann\nfdfA%03dh1\n" % self.number
        for line in (self.octets + b"\0", b"\x02%d cfA%03dh1\n" % (len(text), self.number), text + b"\0"):
            self.tell(line)
        self.peer.close()


def leave_in_order(room, queue, jobs):
    """These jobs, which are open, come whole while their queue is held, and leave in the order in which their opening was answered."""
    for it in jobs:
        it.thread.join(20)
        check(it.at, f"job {it.number} isn't opened")
    room.tell("hold", queue)
    for it in reversed(jobs):
        it.end()
    await_status(room, f"parked {queue} {len(jobs)}\n")
    room.tell("release", queue)
    until = time.monotonic() + 30
    want = [(0, it.number) for it in sorted(jobs, key=lambda it: it.at)]
    while len(seen := jobs_in(room.printed(int(queue[1:])), queue)) < len(want):
        check(time.monotonic() < until, f"{seen} are printed, and not {want}")
        time.sleep(0.05)
    check(seen == want, f"{seen} are printed, which were opened as {want}")


def no_job_overtakes_one_that_is_fed():
    """A job is opened while another one of its sender is being fed: it leaves behind that. Planted: the fed job is noted as the spool's before it was fed."""
    with Room(settings(1001)) as room:
        room.start()
        for at in range(ROUNDS):
            room.tell("hold", "q1")
            check(send(room.port, 3 * at, job("q1", 0, 3 * at), "q1", "127.0.0.9") == 0, "a job isn't taken")
            room.tell("release", "q1")
            for number in (3 * at + 1, 3 * at + 2):
                time.sleep(0.03 * at)
                check(send(room.port, number, job("q1", 0, number), "q1", "127.0.0.9") == 0, "a job isn't taken")
            room.await_files(0, 30)
        seen = jobs_in(room.printed(1), "q1")
        check(seen == [(0, number) for number in range(3 * ROUNDS)], f"{seen}")
    return f"{3 * ROUNDS} jobs in order"


def opened_in_one_step():
    """Two jobs of one sender are opened at once: their files' numbers are in the order of acceptance, by which they leave once their queue was held. Planted: the
    lock is let go between the number's choice and the spool's answer."""
    with Room(settings(1002)) as room:
        room.start()
        first = Opened(room, "q1", 1)
        time.sleep(0.1)
        leave_in_order(room, "q1", [first, Opened(room, "q1", 2)])
    return "in order"


def turned_aside_in_one_step():
    """A job is opened while the spool's table is full, and another one of its sender once it isn't: the first one, which goes beside the spool, isn't overtaken.
    Planted: it is turned aside under a lock that was taken anew."""
    with Room(settings(1003, queues=3, jobs=4, pages=4096)) as room:
        for printer in (1, 2):
            os.mkfifo(room.path(printer))
        room.start()
        for number, queue in enumerate(("q1", "q1", "q2", "q2")):
            check(send(room.port, number, job(queue, 0, number, 8_000), queue, f"127.0.1.{number + 1}") == 0, f"job {number} isn't taken")
        until = time.monotonic() + 20
        while (told := room.tell("status")).count("\njob ") < 4:
            check(time.monotonic() < until, f"the table isn't full: {told}")
            time.sleep(0.05)
        first = Opened(room, "q3", 1)
        time.sleep(0.3)
        reading = subprocess.Popen(["timeout", "60", "cat", room.path(2)], stdout=subprocess.DEVNULL)
        time.sleep(0.3)
        leave_in_order(room, "q3", [first, Opened(room, "q3", 2)])
        reading.kill()
        reading.wait()
    return "in order"


def removed_or_fed():
    """A job that waits is removed by its user while its queue is released: what is told as removed isn't printed. Planted: the file is removed behind the look at
    its line, and not under the lock of that."""
    with Room(settings(1005)) as room:
        # (nobody reads, so that a job which is fed stays)
        os.mkfifo(room.path(1))
        room.start()
        room.tell("hold", "q1")
        check(send(room.port, 0, job("q1", 0, 0, 8_000), "q1", "127.0.0.9") == 0, "a job isn't taken")
        told = []
        removing = threading.Thread(target=lambda: told.append(ask(room.port, b"\x05q1 ann 0\n")[0]), daemon=True)
        removing.start()
        time.sleep(0.1)
        room.tell("release", "q1")
        removing.join(30)
        check(told and b"removed 000 ann" in told[0], told)
        seen = subprocess.run(["timeout", "2", "cat", room.path(1)], capture_output=True).stdout
        check(not seen and not room.files(), f"printed: {seen[:80]}; {room.files()}")
    return "removed, and not printed"


def taken_out_or_begun():
    """Printers that are off come back at ten moments about when their jobs leave the spool: each job is sent whole, once. Planted: the offers are let go before
    the jobs are taken out."""
    printers = [SlowPrinter() for _ in range(10)]
    words = [f"--printer={at + 1}=socket://127.0.0.1:{it.port}" for at, it in enumerate(printers)]
    with Room(settings(1006, queues=10, pages=4096), *words) as room:
        room.start()
        for at in range(len(printers)):
            check(send(room.port, at, job(f"q{at + 1}", 0, at, 8_000), f"q{at + 1}", f"127.0.1.{at + 1}") == 0, "a job isn't taken")
        time.sleep(1.5)
        for printer in printers:
            time.sleep(0.2)
            printer.turn_on()
        room.await_files(0, 120)
        time.sleep(0.5)
        for at, printer in enumerate(printers):
            printer.has_each_once(f"q{at + 1}", [(0, at)])
    return "10 jobs, each sent once"


def begun_by_none_amid_it():
    """One printer of a queue is off, and its jobs leave the spool while another one prints: each is sent once, in order. Planted: the queue isn't held
    meanwhile, and the lines are locked for the look alone, and anew behind it."""
    off, on = SlowPrinter(), SlowPrinter(0.005)
    words = [f"--printer={number}=socket://127.0.0.1:{it.port}" for number, it in ((1, off), (2, on))]
    with Room(settings(1008, pages=4096).replace("printers = 1", "printers = 2", 1), *words) as room:
        on.turn_on()
        room.start()
        jobs = [(number % 4, number) for number in range(24)]
        for sender, number in jobs:
            check(send(room.port, number, job("q1", sender, number, 8_000), "q1", f"127.0.1.{sender + 1}") == 0, f"job {number} isn't taken")
        room.await_files(0, 120)
        time.sleep(0.5)
        on.has_each_once("q1", jobs)
    return f"{len(jobs)} jobs, each sent once"


def started_amid_it():
    """A printer fails, the jobs behind leave the spool, and it is started meanwhile: each is sent once, in order. Planted: the queue isn't held meanwhile."""
    printer = SlowPrinter(resets_first=True)
    with Room(settings(1007), f"--printer=1=socket://127.0.0.1:{printer.port}") as room:
        printer.turn_on()
        room.start()
        room.tell("hold", "q1")
        for number in range(10):
            lines = 1_500 if number else 8_000
            check(send(room.port, number, job("q1", 0, number, lines), "q1", "127.0.0.9") == 0, f"job {number} isn't taken")
        room.tell("release", "q1")
        await_status(room, "printer 1 q1 stopped")
        # (the next look, within 250 ms, has the jobs leave)
        time.sleep(0.35)
        room.tell("start", "q1")
        room.await_files(0, 90)
        time.sleep(0.5)
        lost = [int(number) for number in re.findall(r"/(\d+)\.failed", " ".join(room.files("failed")))]
        check(lost == [1], f"{lost} failed")
        printer.has_each_once("q1", [(0, number) for number in range(1, 10)])
    return "9 of 10 jobs, each sent once; the first one failed"


SCENES = [no_job_overtakes_one_that_is_fed, opened_in_one_step, turned_aside_in_one_step, removed_or_fed, taken_out_or_begun, begun_by_none_amid_it, started_amid_it]


if __name__ == "__main__":
    raise SystemExit(main(SCENES, __doc__))
