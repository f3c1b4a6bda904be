#!/usr/bin/env python3
"""Scenes of a site some of whose printers are off: off.py PROGRAM [SCENE..], where PROGRAM is the built lpd_server.

One printer refuses connections, one answers nothing, one has no paper amid a job, one queue is held: the others print as if these weren't there, and once the
printers are back they print what was sent to them. A printer that isn't reached gives its jobs back, so that the spool has none of them, and a stop waits for none.
JOBS says how many jobs the site's clients send, 6,000 where nothing is said, KILLS how often a server is killed. Each scene is bounded in time and runs on loopback
alone. A line says what was seen; the last line is 'N passed, M failed'."""
import contextlib
import os
import re
import socket
import struct
import subprocess
import threading
import time

from client import answer, begin, connect, finish, free_port
from parking import QUEUES, Flood, Room, check_order, config, jobs_in, lines_of, send, job
from scene import CHECKED, SHORT, check, main, size
from trimming import files, told

JOBS = size("JOBS", 6_000, 400)
KILLS = size("KILLS", 20, 3)
REFUSES, SILENT, HELD, PAPERLESS = "q5", "q6", "q7", "q8"
OFF = (REFUSES, SILENT, HELD, PAPERLESS)
# How many octets a printer takes of the job at which its paper ends.
PAPER = 20_000


class Printer(threading.Thread):
    """A printer on the network that keeps each job that it is sent, in order; it is off until it is turned on. One that is silent listens before, and takes no
    connection. One that has little paper takes so much of the first job that has more, and then nothing until it gets paper: what the system takes beside it
    is less than such a job."""

    def __init__(self, silent=False, has_little_paper=False):
        super().__init__(daemon=True)
        self.jobs, self.cut, self.plugs, self.listener = [], [], [], socket.socket()
        self.port, self.paper, self.is_out = free_port(), threading.Event(), threading.Event()
        if has_little_paper:
            self.listener.setsockopt(socket.IPPROTO_TCP, socket.TCP_MAXSEG, 536)
            self.listener.setsockopt(socket.SOL_SOCKET, socket.SO_RCVBUF, 4096)
        else:
            self.paper.set()
        if silent:
            self.listener.bind(("127.0.0.1", self.port))
            self.listener.listen(0)
            # What fills its queue of connections: the system drops each further one's packets.
            for _ in range(2):
                plug = socket.socket()
                plug.setblocking(False)
                with contextlib.suppress(BlockingIOError):
                    plug.connect(("127.0.0.1", self.port))
                self.plugs.append(plug)

    def turn_on(self):
        if not self.plugs:
            self.listener.setsockopt(socket.SOL_SOCKET, socket.SO_REUSEADDR, 1)
            self.listener.bind(("127.0.0.1", self.port))
        self.listener.listen(16)
        for plug in self.plugs:
            plug.close()
        self.start()

    def run(self):
        while True:
            try:
                peer, _ = self.listener.accept()
            except OSError:
                return
            octets, is_cut = b"", False
            with peer, contextlib.suppress(OSError):
                peer.settimeout(30)
                while piece := peer.recv(65536):
                    octets += piece
                    if len(octets) > PAPER and not self.paper.is_set():
                        is_cut = True
                        self.is_out.set()
                        self.paper.wait()
                        break
            if octets:
                (self.cut if is_cut else self.jobs).append(octets)


def plan_of(jobs, with_off):
    others = [f"q{number}" for number in range(1, QUEUES + 1) if f"q{number}" not in OFF]
    plan = []
    for at in range(jobs):
        plan.append((others[at % len(others)], lines_of(at)))
        if with_off and at % 8 == 0:
            plan.append((OFF[at // 8 % len(OFF)], lines_of(at // 8)))
    return plan, others


def audit(room):
    """Stops the server, and audits its account with the files that were printed to: what printers on the network print can't be read again."""
    end_of_stop(room, "stop")
    words = [word for number in range(1, QUEUES + 1) if os.path.exists(room.path(number)) for word in ("--printed", f"{number}={room.path(number)}")]
    return told("audit", *files(f"{room.folder}/account"), *words)


def run_site(with_off):
    """Answers the flood, how many jobs of the others were printed a second, and what an audit says once all printers were on."""
    refuses, silent, paperless = Printer(), Printer(silent=True), Printer(has_little_paper=True)
    printers = ((REFUSES, refuses), (SILENT, silent), (PAPERLESS, paperless))
    words = [f"--printer={name[1:]}=socket://127.0.0.1:{it.port}" for name, it in printers]
    with Room(config(), *words, "--printer-silence", "3") as room:
        room.words = (*room.words, "--account", f"{room.folder}/account")
        paperless.turn_on()
        room.start()
        room.tell("hold", HELD)
        plan, others = plan_of(JOBS, with_off)
        flood = Flood(room, plan)
        begun = time.monotonic()
        flood.go()
        check(not flood.refused, f"refused: {flood.refused}; {room.log()[-600:]}")
        off = sum(name in OFF for name, _, _ in flood.taken)
        until = time.monotonic() + 300
        while len(room.files()) + len(room.files("failed")) + len(paperless.jobs) > off and time.monotonic() < until:
            time.sleep(0.02)
        rate = (len(flood.taken) - off) / (time.monotonic() - begun)
        for queue in others:
            seen = jobs_in(room.printed(int(queue[1:])), queue)
            check_order(seen)
            check(set(seen) == flood.want(queue) and len(seen) == len(set(seen)), f"{queue}: {len(seen)} printed of {len(flood.want(queue))}")
        said = turn_on_again(room, flood, dict(printers)) if with_off else ""
        return flood, rate, off, said


def turn_on_again(room, flood, printers):
    """All printers are on again: each prints what was sent to it in order, the one that had no paper its job anew. Answers what an audit says then."""
    paperless = printers[PAPERLESS]
    check(paperless.is_out.is_set(), "no printer is out of paper")
    await_files_failed(room, 1)
    check("putoff" not in printer_line(room, PAPERLESS), "one that has no paper isn't told as put off")
    paperless.paper.set()
    printers[REFUSES].turn_on()
    printers[SILENT].turn_on()
    room.tell("release", HELD)
    check("resent file " in (said := room.tell("resend", "all", PAPERLESS)), said)
    room.tell("start", PAPERLESS)
    room.await_files(0, 300)
    time.sleep(0.5)
    sent = {queue: b"".join(it.jobs) for queue, it in printers.items()}
    for queue, octets in (*sent.items(), (HELD, room.printed(int(HELD[1:])))):
        seen = jobs_in(octets, queue)
        check_order(seen)
        check(set(seen) == flood.want(queue) and len(seen) == len(set(seen)), f"{queue}: {len(seen)} printed of {len(flood.want(queue))}")
    check(len(paperless.cut) == 1, f"{len(paperless.cut)} jobs were cut")
    said = audit(room)
    check(said.startswith("legal ") and f" done {len(flood.taken)} " in said, said)
    return said


def await_files_failed(room, count, seconds=30):
    until = time.monotonic() + seconds
    while len(room.files("failed")) != count:
        check(time.monotonic() < until, f"{len(room.files('failed'))} have failed, and not {count}: {room.log()[-800:]}")
        time.sleep(0.1)


def printer_line(room, queue):
    """What `status` says of the printer of a queue."""
    return re.search(rf"^printer {queue[1:]} .*$", room.tell("status"), re.MULTILINE)[0]


def printers_that_are_off():
    """Two printers are off for the whole run, one has no paper amid a job, and a queue is held: nobody is refused, none waits long, the others print no slower
    than without those jobs; the printers come back and print theirs in order, and the account says what was printed."""
    alone_flood, alone, _, _ = run_site(False)
    flood, beside, off, said = run_site(True)
    if not CHECKED and not SHORT:
        check(beside >= 0.9 * alone, f"{beside:.0f} a second, {alone:.0f} without the jobs of those that are off")
        check(flood.longest < alone_flood.longest + 5, f"the slowest answer after {flood.longest:.1f} s, {alone_flood.longest:.1f} s without them")
    return (f"{len(flood.taken)} jobs taken, {off} of them for printers that are off; {beside:.0f} a second of the others printed, {alone:.0f} without those; the slowest "
            f"answer after {flood.longest:.2f} s, {alone_flood.longest:.2f} s without those; {said.splitlines()[0]}")


class Senders:
    """Clients at addresses of their own that send jobs, one after another, until they are stopped. What was taken is noted."""

    def __init__(self, room, queues, count=6):
        self.room, self.queues, self.taken, self.lock, self.ends = room, queues, [], threading.Lock(), threading.Event()
        self.threads = [threading.Thread(target=self.run, args=(number,), daemon=True) for number in range(count)]
        for thread in self.threads:
            thread.start()

    def run(self, sender):
        at = 0
        while not self.ends.is_set():
            at += 1
            queue = self.queues[at % len(self.queues)]
            with contextlib.suppress(OSError):
                # (each fifth is larger than what a printer that has no paper takes)
                if send(self.room.port, at, job(queue, sender, at, 4_000 if at % 5 == 1 else 20), queue, f"127.0.1.{sender + 1}", f"u{sender}") == 0:
                    with self.lock:
                        self.taken.append((queue, sender, at))
                    continue
            time.sleep(0.01)

    def stop(self):
        self.ends.set()
        for thread in self.threads:
            thread.join(30)


def killed_beside_printers_that_are_off():
    """The server is killed again and again beside a printer that refuses, one that answers nothing and one that has no paper amid a job, the first of which
    comes back on the way: each job that was acknowledged is printed, each sender's in order, and the account is legal."""
    printers = {"q1": Printer(), "q2": Printer(silent=True), "q3": Printer(has_little_paper=True)}
    words = [f"--printer={name[1:]}=socket://127.0.0.1:{it.port}" for name, it in printers.items()]
    with Room(config(queues=5, jobs=16), *words, "--printer-silence", "1") as room:
        room.words = (*room.words, "--account", f"{room.folder}/account")
        printers["q3"].turn_on()
        room.start()
        senders = Senders(room, ("q1", "q4", "q2", "q5", "q3", "q4", "q5"))
        for kill in range(KILLS):
            time.sleep(0.7 + 0.05 * (kill % 7) + 1.5 * (kill % 4 == 3))
            room.kill()
            room.start()
            if kill == KILLS // 2:
                printers["q1"].turn_on()
        senders.stop()
        check(printers["q3"].is_out.is_set(), "no printer is out of paper")
        printers["q3"].paper.set()
        printers["q2"].turn_on()
        room.tell("resend", "all", "q3")
        room.tell("start", "q3")
        room.await_files(0, 240)
        time.sleep(0.5)
        told = []
        for number in range(1, 6):
            queue = f"q{number}"
            octets = b"".join(printers[queue].jobs) if queue in printers else room.printed(number)
            want = {(sender, at) for name, sender, at in senders.taken if name == queue}
            whole = [(int(a), int(b)) for a, b in re.findall(rf"<{queue}\.(\d+)\.(\d+)\.(?:19/20|3999/4000)>", octets.decode())]
            first = list(dict.fromkeys(whole))
            check(not want - set(first), f"{queue}: lost {sorted(want - set(first))[:5]} of {len(want)}: {room.files('failed')}")
            check_order(first)
            told.append(f"{queue} {len(want)} of which {len(whole) - len(first)} twice")
        legal = re.search("^legal .*", said := audit(room), re.MULTILINE)
        check(legal, said)
    return f"{KILLS} kills: " + ", ".join(told) + f"; {legal[0]}"


def a_pool_that_one_printer_could_fill():
    """Six jobs for a printer that is off, which together are larger than the pool, and then two for another queue: each is acknowledged, those of the other
    queue are printed, and the rest once the printer is on."""
    printer = Printer()
    with Room(config(queues=2, pages=64, jobs=16, account=100_000, limit=20), f"--printer=1=socket://127.0.0.1:{printer.port}") as room:
        room.start()
        for number in range(6):
            check(send(room.port, number, job("q1", 0, number, 4_000), "q1", "127.0.0.9") == 0, f"job {number} isn't taken")
        for number in range(2):
            check(send(room.port, number, job("q2", 0, number), "q2") == 0, f"job {number} of the other queue isn't taken")
        room.await_files(6, 20)
        check(jobs_in(room.printed(2), "q2") == [(0, 0), (0, 1)], "the other queue's")
        printer.turn_on()
        room.await_files(0, 120)
        time.sleep(0.5)
        check(jobs_in(b"".join(printer.jobs), "q1") == [(0, number) for number in range(6)], "the first queue's")
    return "all taken, the other queue's printed at once, the rest in order once the printer was on"


def await_status(room, words, seconds=20):
    until = time.monotonic() + seconds
    while words not in (told := room.tell("status")):
        check(time.monotonic() < until, f"{words!r} isn't told: {told}\n{room.log()[-800:]}")
        time.sleep(0.1)
    return told


def a_printer_that_gives_its_jobs_back():
    """Four jobs for a printer that is off: after some seconds none of them is in the spool, and all its pages are free; once the printer is on they are
    printed in order, each once."""
    printer = Printer()
    with Room(config(queues=2, pages=64, jobs=16, account=100_000, limit=20), f"--printer=1=socket://127.0.0.1:{printer.port}", "--log-jobs") as room:
        room.start()
        for number in range(4):
            check(send(room.port, number, job("q1", 0, number, 400), "q1", "127.0.0.9") == 0, f"job {number} isn't taken")
        await_status(room, "kept waiting 4 failed 0")
        told = await_status(room, "printer 1 q1 putoff ")
        check("pages free 64 " in told and "\njob " not in told, f"a job is in the spool: {told}")
        check(re.search(r"^printer 1 q1 putoff \d+ .*refused", told, re.MULTILINE), f"the printer isn't told as put off: {told}")
        check("parked q1 4\n" in told, f"what waits for q1 isn't told: {told}")
        check("of queue q1 wait in the folder again: printer 1 takes nothing" in room.log(), f"the log doesn't tell it: {room.log()[-800:]}")
        check(" put back in " in room.log(), f"the log of jobs doesn't tell it: {room.log()[-800:]}")
        printer.turn_on()
        room.await_files(0, 120)
        time.sleep(0.5)
        check(jobs_in(b"".join(printer.jobs), "q1") == [(0, number) for number in range(4)], "not in order, or not once")
        check("putoff" not in room.tell("status"), "the printer is put off still")
    return "none in the spool after some seconds, all printed in order once the printer was on"


def a_queue_of_two_printers():
    """A queue of two printers, one of them off: one sender's jobs are all printed by the other one, in order."""
    printer = Printer()
    text = config(queues=2, pages=256, jobs=16, account=100_000, limit=20).replace("printers = 1", "printers = 2", 1)
    with Room(text, f"--printer=1=socket://127.0.0.1:{printer.port}") as room:
        room.start()
        for number in range(20):
            check(send(room.port, number, job("q1", 0, number), "q1", "127.0.0.9") == 0, f"job {number} isn't taken")
        room.await_files(0, 120)
        check(jobs_in(room.printed(2), "q1") == [(0, number) for number in range(20)], f"not all, or not in order: {room.log()[-800:]}")
    return "20 of 20 by the printer that is on, in order"


def end_of_stop(room, *words):
    """Stops the server, and answers after how many seconds it had ended."""
    begun = time.monotonic()
    told = room.tell(*words)
    room.server.wait(30)
    check("refused" not in told, told)
    return time.monotonic() - begun


def stops_beside_a_printer_that_is_off():
    """A stop where no printer is amid a job: it ends within two seconds, and what it leaves is printed by the next server."""
    longest = 0
    for silent in (False, True):
        printer = Printer(silent)
        with Room(config(queues=2, pages=64, jobs=16, account=100_000, limit=20), f"--printer=1=socket://127.0.0.1:{printer.port}") as room:
            for at, words in enumerate((("stop",), ("stop", "now"), ("stop",))):
                room.start()
                check(send(room.port, at, job("q1", 0, at), "q1", "127.0.0.9") == 0, "a job isn't taken")
                time.sleep((0.3, 0.3, 6)[at])
                longest = max(longest, end_of_stop(room, *words))
                check(len(room.files()) == at + 1, f"{room.files()}: {room.log()[-800:]}")
            printer.turn_on()
            room.start()
            room.await_files(0, 120)
            time.sleep(0.5)
            check(jobs_in(b"".join(printer.jobs), "q1") == [(0, 0), (0, 1), (0, 2)], "not in order, or not once")
    if not CHECKED:
        check(longest < 2, f"a stop took {longest:.2f} s")
    return f"six stops, of which the longest took {longest:.2f} s; all printed by the next server"


def a_queue_that_is_held_amid_a_job():
    """A queue is held while a job of it is at its printer and others are behind it: the one goes on, the others leave the spool; released, all are printed in
    order. So is a job that was coming as its queue was held: it isn't printed before."""
    with Room(config(queues=2, pages=256, jobs=16, account=100_000, limit=80)) as room:
        os.mkfifo(room.path(1))
        room.start()
        for number, lines in enumerate((8_000, 20, 20, 20)):
            check(send(room.port, number, job("q1", 0, number, lines), "q1", "127.0.0.9") == 0, f"job {number} isn't taken")
        await_status(room, "prints 1 place ")
        coming = begin(room.port, 9, 5_000, b"x" * 3_000, "q2", "127.0.0.8")
        await_status(room, "\njob 5 q2 ")
        room.tell("hold", "q1")
        room.tell("hold", "q2")
        told = await_status(room, "kept waiting 3 failed 0")
        check(told.count("\njob ") == 2, f"not the job at the printer and that which comes are in the spool: {told}")
        time.sleep(1.5)
        check(re.findall(r"^queue .*$", told := room.tell("status"), re.MULTILINE) == ["queue q1 held", "queue q2 held"], f"not both are held: {told}")
        check(finish(coming, 9, b"y" * 2_000) == 0, "the job that comes isn't taken")
        coming.close()
        await_status(room, "kept waiting 4 failed 0")
        time.sleep(1)
        check(not room.printed(2), f"{len(room.printed(2))} octets of a held queue are printed")
        room.tell("release", "q2")
        room.await_files(4, 20)
        check(room.printed(2) == b"x" * 3_000 + b"y" * 2_000, f"{len(room.printed(2))} octets are printed")
        seen = []
        reading = threading.Thread(target=lambda: seen.append(subprocess.run(["timeout", "60", "cat", room.path(1)], capture_output=True).stdout), daemon=True)
        reading.start()
        room.await_files(3, 60)
        room.tell("release", "q1")
        room.await_files(0, 60)
        end_of_stop(room, "stop")
        reading.join(70)
        check(jobs_in(seen[0], "q1") == [(0, number) for number in range(4)], "not in order, or not once")
    return "the job at the printer alone stayed in the spool; all were printed in order"


def a_full_pipe():
    """A pipe that nobody reads and that is full: a job of which nothing goes gives way, and comes back once the pipe is read."""
    with Room(config(queues=2, pages=256, jobs=16, account=100_000, limit=80)) as room:
        os.mkfifo(room.path(1))
        room.start()
        check(send(room.port, 0, b"x" * 65_536, "q1") == 0, "the job that fills it isn't taken")
        room.await_files(0, 20)
        check(send(room.port, 1, job("q1", 0, 1), "q1") == 0, "the job behind it isn't taken")
        await_status(room, "kept waiting 1 failed 0")
        told = await_status(room, "printer 1 q1 putoff ")
        check("\njob " not in told, f"it is in the spool: {told}")
        seen = []
        reading = threading.Thread(target=lambda: seen.append(subprocess.run(["timeout", "60", "cat", room.path(1)], capture_output=True).stdout), daemon=True)
        reading.start()
        room.await_files(0, 60)
        end_of_stop(room, "stop")
        reading.join(70)
        check(jobs_in(seen[0][65_536:], "q1") == [(0, 1)], "not once")
    return "it gave way, and was printed once the pipe was read"


def a_job_that_was_given_back_keeps_its_file():
    """Jobs that were given back and are fed again have other numbers of acceptance than their files, and each keeps its file until it is printed or removed by
    that."""
    printer = Printer()
    with Room(config(queues=2, pages=64, jobs=16, account=100_000, limit=20), f"--printer=1=socket://127.0.0.1:{printer.port}") as room:
        room.start()
        room.tell("hold", "q2")
        for number in range(3):
            check(send(room.port, number, job("q2", 0, number), "q2", "127.0.0.9") == 0, f"job {number} isn't taken")
        for number in range(4):
            check(send(room.port, number, job("q1", 0, number), "q1", "127.0.0.9") == 0, f"job {number} isn't taken")
        await_status(room, "kept waiting 7 failed 0")
        # (it is tried again with one)
        await_status(room, " number 000 file 4 waits: printer 1 isn't reached")
        check(len(room.files()) == 7, f"{sorted(room.files())}")
        check("removed file 4 " in (said := room.tell("cancel", "file", "4")), said)
        check(len(room.files()) == 6, f"{sorted(room.files())}")
        printer.turn_on()
        room.tell("release", "q2")
        room.await_files(0, 120)
        time.sleep(0.5)
        check(jobs_in(b"".join(printer.jobs), "q1") == [(0, 1), (0, 2), (0, 3)], "the first queue's")
        check(jobs_in(room.printed(2), "q2") == [(0, 0), (0, 1), (0, 2)], "the second queue's")
    return "7 files beside a job that is tried again, one of them removed by its file"


def one_of_two_printers_keeps_its_job():
    """A queue of two printers that are off: the job at one of them leaves, that at the other stays, since a job of its sender still comes, and no job goes to
    and fro meanwhile; once that has come and both are on all three are printed, each once."""
    printers = [Printer(), Printer()]
    words = [f"--printer={number}=socket://127.0.0.1:{it.port}" for number, it in enumerate(printers, 1)]
    text = config(queues=2, pages=64, jobs=16, account=100_000, limit=20).replace("printers = 1", "printers = 2", 1)
    with Room(text, *words, "--log-jobs") as room:
        room.start()
        for number in range(2):
            check(send(room.port, number, job("q1", number, number), "q1", f"127.0.1.{number + 1}") == 0, f"job {number} isn't taken")
        octets, text = job("q1", 1, 2), b"Hh1\nPann\nfdfA002h1\n"
        with contextlib.closing(connect(room.port, "127.0.1.2")) as peer:
            for line in (b"\x02q1\n", b"\x03%d dfA002h1\n" % len(octets)):
                peer.sendall(line)
                check(answer(peer) == 0, f"{line} isn't taken")
            until = time.monotonic() + 20
            while " put back in " not in room.log():
                check(time.monotonic() < until, room.log()[-600:])
                time.sleep(0.1)
            time.sleep(3)
            check(room.log().count(" put back in ") == 1, f"{room.log().count(' put back in ')} times within 3 s")
            for line in (octets + b"\0", b"\x02%d cfA002h1\n" % len(text), text + b"\0"):
                peer.sendall(line)
                check(answer(peer) == 0, f"{line[:20]} isn't taken")
        for printer in printers:
            printer.turn_on()
        room.await_files(0, 60)
        time.sleep(0.5)
        seen = [it for printer in printers for octets in printer.jobs for it in jobs_in(octets, "q1")]
        check(sorted(seen) == [(0, 0), (1, 1), (1, 2)], f"{seen}: {room.log()[-600:]}")
    return "all three once"


def a_printer_that_failed_before():
    """A printer fails amid a job, is started again, and is off then: it gives its jobs back, and is tried again by itself until it is on."""
    printer, first = Printer(), socket.socket()
    first.setsockopt(socket.SOL_SOCKET, socket.SO_REUSEADDR, 1)
    first.setsockopt(socket.IPPROTO_TCP, socket.TCP_MAXSEG, 536)
    first.setsockopt(socket.SOL_SOCKET, socket.SO_RCVBUF, 4096)
    first.bind(("127.0.0.1", printer.port))
    first.listen(1)
    with Room(config(queues=2), f"--printer=1=socket://127.0.0.1:{printer.port}") as room:
        room.start()
        check(send(room.port, 0, job("q1", 0, 0, 8_000), "q1", "127.0.0.9") == 0, "a job isn't taken")
        peer, _ = first.accept()
        peer.recv(4096)
        peer.setsockopt(socket.SOL_SOCKET, socket.SO_LINGER, struct.pack("ii", 1, 0))
        first.close()
        peer.close()
        await_status(room, "printer 1 q1 stopped")
        room.tell("start", "q1")
        check(send(room.port, 1, job("q1", 0, 1), "q1", "127.0.0.9") == 0, "a job isn't taken")
        told = await_status(room, "printer 1 q1 putoff ")
        check("printer 1 q1 stopped" not in told, f"it is told as stopped: {told}")
        printer.turn_on()
        room.await_files(0, 40)
        time.sleep(0.5)
        check(jobs_in(b"".join(printer.jobs), "q1") == [(0, 1)], f"{printer.jobs}")
    return "it was tried again by itself"


def a_printer_that_goes_off():
    """A printer prints a job and is switched off then: that it isn't reached with the next one is told at once, in the log and in `status`."""
    printer = Printer()
    with Room(config(queues=2), f"--printer=1=socket://127.0.0.1:{printer.port}") as room:
        printer.turn_on()
        room.start()
        check(send(room.port, 0, job("q1", 0, 0), "q1", "127.0.0.9") == 0, "a job isn't taken")
        room.await_files(0, 20)
        # (who waits for a connection is woken by this)
        printer.listener.shutdown(socket.SHUT_RDWR)
        printer.listener.close()
        check(send(room.port, 1, job("q1", 0, 1), "q1", "127.0.0.9") == 0, "a job isn't taken")
        await_status(room, "printer 1 q1 unreached ", 2)
        check("printer 1: job 2: 127.0.0.1" in room.log() and "refused" in room.log(), room.log()[-600:])
    return "told at once"


def a_pipe_that_is_read_in_part():
    """A pipe whose reader halts amid a job for longer than a printer is waited for: the job isn't given back, and is printed once."""
    with Room(config(queues=2, pages=256, jobs=16, account=100_000, limit=80)) as room:
        os.mkfifo(room.path(1))
        reader = os.open(room.path(1), os.O_RDONLY | os.O_NONBLOCK)
        room.start()
        octets = job("q1", 0, 0, 12_000)
        check(send(room.port, 0, octets, "q1", "127.0.0.9") == 0, "a job isn't taken")
        seen, until = b"", time.monotonic() + 20
        while len(seen) < 30_000:
            with contextlib.suppress(BlockingIOError):
                seen += os.read(reader, 10_000)
            check(time.monotonic() < until, f"{len(seen)} octets came")
        until = time.monotonic() + 6
        while time.monotonic() < until:
            check("kept waiting 0 failed 0" in (told := room.tell("status")) and "putoff" not in told, told)
            time.sleep(0.2)
        until = time.monotonic() + 20
        while room.files() or time.monotonic() < until - 19:
            with contextlib.suppress(BlockingIOError):
                seen += os.read(reader, 65_536)
            check(time.monotonic() < until, f"{room.files()} is left")
        with contextlib.suppress(BlockingIOError):
            while piece := os.read(reader, 65_536):
                seen += piece
        os.close(reader)
        check(seen == octets, f"{len(seen)} octets came of {len(octets)}")
    return "it stayed, and was printed once"


def a_printer_is_tried_by_one_job():
    """A printer that isn't reached has given four jobs back: at its next tries the spool has one of them at a time, whichever it is, and its pauses grow."""
    printer = Printer()
    with Room(config(queues=2, pages=64, jobs=16, account=100_000, limit=20), f"--printer=1=socket://127.0.0.1:{printer.port}") as room:
        room.start()
        for number in range(4):
            check(send(room.port, number, job("q1", 0, number), "q1", f"127.0.0.{9 + number}") == 0, f"job {number} isn't taken")
        while "\njob " in await_status(room, "parked q1 4"):
            time.sleep(0.05)
        begun, most, tries, was = time.monotonic(), 0, [], 0
        while time.monotonic() < begun + 22 and len(tries) < 2:
            held = sum(line.startswith("job ") for line in room.tell("status").splitlines())
            if held and not was:
                tries.append(time.monotonic() - begun)
            most, was = max(most, held), held
            time.sleep(0.03)
        check(most == 1, f"{most} jobs at once")
        check(len(tries) == 2 and tries[1] - tries[0] > 9, f"tries after {tries}")
        printer.turn_on()
        room.await_files(0, 60)
    return f"tries after {tries[0]:.0f} and {tries[1]:.0f} s"


def patience_across_tries():
    """A job that isn't reached for `--patience` minutes in all fails, though it is tried again and again, and the one behind it has its own time."""
    printer = Printer()
    with Room(config(queues=2, pages=64, jobs=16, account=100_000, limit=20), f"--printer=1=socket://127.0.0.1:{printer.port}", "--patience", "1") as room:
        room.start()
        for number in range(2):
            check(send(room.port, number, job("q1", 0, number), "q1", "127.0.0.9") == 0, f"job {number} isn't taken")
        begun = time.monotonic()
        while not room.files("failed"):
            check(time.monotonic() < begun + 150, f"none has failed: {room.log()[-800:]}")
            time.sleep(0.2)
        took = time.monotonic() - begun
        check(55 < took < 130, f"failed after {took:.0f} s")
        check([os.path.basename(it) for it in room.files("failed")] == ["1.failed"] and len(room.files()) == 1, f"{room.files()} {room.files('failed')}")
        # The next one's time begins with its own first try.
        room.tell("start", "q1")
        time.sleep(30)
        check(len(room.files()) == 1, f"{room.files()} {room.files('failed')}")
        printer.turn_on()
        room.await_files(0, 120)
        check(len(room.files("failed")) == 1, f"{room.files('failed')}")
    return f"it failed after {took:.0f} s, and the one behind it was printed"


SCENES = [a_pool_that_one_printer_could_fill, a_printer_that_gives_its_jobs_back, a_queue_of_two_printers, stops_beside_a_printer_that_is_off,
          a_queue_that_is_held_amid_a_job, a_full_pipe, a_job_that_was_given_back_keeps_its_file, one_of_two_printers_keeps_its_job, a_printer_that_failed_before,
          a_printer_that_goes_off, a_pipe_that_is_read_in_part, a_printer_is_tried_by_one_job, printers_that_are_off, killed_beside_printers_that_are_off]


if __name__ == "__main__":
    raise SystemExit(main(SCENES if SHORT else [*SCENES, patience_across_tries], __doc__))
