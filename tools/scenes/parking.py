#!/usr/bin/env python3
"""Scenes of a server whose jobs wait in its folder where they can't be printed now: parking.py PROGRAM [SCENE..], where PROGRAM is the built lpd_server.

Queues are held, printers have failed or are off, servers are killed. JOBS says how many jobs the site's clients send, 20,000 where nothing is said, MANY
how many wait in one queue. Each scene is bounded in time and runs on loopback alone. A line says what was seen; the last line is 'N passed, M failed'."""
import contextlib
import fcntl
import glob
import os
import re
import signal
import socket
import subprocess
import tempfile
import threading
import time

from client import answer, ask, connect, free_port, together
from scene import CHECKED, PROGRAM, SHORT, check, main, size

JOBS = size("JOBS", 20_000, 600)
MANY = size("MANY", 50_000, 600)
KILLS = size("KILLS", 20, 3)
# How many jobs a start finds: reading whose they are takes some tenths of a second.
FOUND = 6_000
QUEUES = 20
CLIENTS = 24
HELD = ("q5", "q6")
FAILED = "q7"


def config(queues=QUEUES, pages=4096, page=4096, jobs=64, account=1_200_000, limit=64):
    text = f"pages = {pages}\npage_size = {page}\nmax_jobs = {jobs}\naccount = {account}\n"
    for number in range(1, queues + 1):
        text += f'[[queue]]\nname = "q{number}"\nlimit = {limit}\nprinters = 1\n'
    return text


class Room:
    """A folder with a configuration, printers' files and kept jobs, over which one server after another runs; or one that keeps no jobs."""

    def __init__(self, text, *words, keeps=True):
        self.room = tempfile.TemporaryDirectory()
        self.folder, self.words, self.server, self.keeps = self.room.name, words, None, keeps
        self.kept, self.control, self.port = f"{self.folder}/kept", f"{self.folder}/control", free_port()
        with open(f"{self.folder}/spool.toml", "w") as file:
            file.write(text)

    def start(self):
        """Starts a server, and answers after how many seconds it listened."""
        begun = time.monotonic()
        line = [PROGRAM, "serve", f"{self.folder}/spool.toml", "--port", str(self.port), "--out", self.folder, *(["--spool", self.kept] if self.keeps else []),
                "--keep-room", "--sessions", "32", "--control", self.control, *self.words]
        self.server = subprocess.Popen(line, stdin=subprocess.DEVNULL, stdout=open(f"{self.folder}/said", "ab"),
                                       stderr=open(f"{self.folder}/log", "ab"))
        for _ in range(4000):
            with contextlib.suppress(OSError):
                connect(self.port).close()
                return time.monotonic() - begun
            check(self.server.poll() is None, f"the server ended: {self.log()[-400:]}")
            time.sleep(0.005)
        raise AssertionError("nothing listens")

    def kill(self):
        self.server.send_signal(signal.SIGKILL)
        self.server.wait()

    def tell(self, *words, limit=120):
        told = subprocess.run([PROGRAM, "control", self.control, *words], capture_output=True, text=True, timeout=limit)
        return told.stdout + told.stderr

    def log(self):
        return open(f"{self.folder}/log", "rb").read().decode(errors="replace")

    def path(self, printer):
        return f"{self.folder}/printer-{printer}"

    def printed(self, printer):
        with contextlib.suppress(FileNotFoundError):
            return open(self.path(printer), "rb").read()
        return b""

    def files(self, end="job"):
        return glob.glob(f"{self.kept}/*.{end}")

    def memory(self):
        """The memory that is resident, in octets."""
        with open(f"/proc/{self.server.pid}/status") as file:
            return int(re.search(r"VmRSS:\s+(\d+)", file.read())[1]) * 1024

    def await_files(self, count, seconds=120):
        until = time.monotonic() + seconds
        while len(self.files()) > count:
            check(time.monotonic() < until, f"{len(self.files())} files are left, and not {count}: {self.log()[-800:]}")
            time.sleep(0.1)

    def __enter__(self):
        return self

    def __exit__(self, *_):
        if self.server and self.server.poll() is None:
            self.server.kill()
            self.server.wait()
        self.room.cleanup()


def send(port, number, octets, queue, host="127.0.0.1", user="ann"):
    """Sends a job. Answers the first octet that isn't 00, or 0."""
    with contextlib.closing(connect(port, host)) as peer:
        text = f"Hh1\nP{user}\nfdfA{number % 1000:03}h1\n".encode()
        for line in (b"\x02" + queue.encode() + b"\n",
                     f"\x03{len(octets)} dfA{number % 1000:03}h1\n".encode(), octets + b"\0",
                     f"\x02{len(text)} cfA{number % 1000:03}h1\n".encode(), text + b"\0"):
            peer.sendall(line)
            octet = answer(peer)
            if octet != 0:
                return octet
    return 0


def job(queue, sender, number, lines=20):
    """A job's text, by which it is known whose it is and whether it is whole."""
    return "".join(f"<{queue}.{sender}.{number}.{line}/{lines}>\n" for line in range(lines)).encode()


def jobs_in(octets, queue):
    """Which jobs stand in what was printed, as (sender, number), each whole."""
    seen, lines, at = [], octets.decode().splitlines(), 0
    while at < len(lines):
        found = re.fullmatch(r"<(\w+)\.(\d+)\.(\d+)\.0/(\d+)>", lines[at])
        check(found and found[1] == queue, f"no job of {queue} begins at line {at}: {lines[at]!r}")
        count = int(found[4])
        for line in range(count):
            want = f"<{queue}.{found[2]}.{found[3]}.{line}/{count}>"
            check(lines[at + line] == want, f"{lines[at + line]!r} and not {want!r}")
        seen.append((int(found[2]), int(found[3])))
        at += count
    return seen


def check_order(seen):
    last = {}
    for sender, number in seen:
        check(last.get(sender, -1) < number, f"job {number} of {sender} behind {last.get(sender)}")
        last[sender] = number


class Flood:
    """Clients at addresses of their own that send what is planned, each one its part in order. What was answered is counted."""

    def __init__(self, room, plan, clients=CLIENTS):
        self.room, self.plan, self.clients = room, plan, clients
        self.taken, self.refused, self.longest, self.lock = [], {}, 0.0, threading.Lock()

    def run(self, client):
        for at in range(client, len(self.plan), self.clients):
            queue, lines = self.plan[at]
            begun = time.monotonic()
            try:
                octet = send(self.room.port, at, job(queue, client, at, lines), queue, f"127.0.1.{client + 1}", f"u{client}")
            except OSError as error:
                octet = type(error).__name__
            with self.lock:
                self.longest = max(self.longest, time.monotonic() - begun)
                if octet == 0:
                    self.taken.append((queue, client, at))
                else:
                    self.refused[queue, octet] = self.refused.get((queue, octet), 0) + 1

    def go(self):
        begun = time.monotonic()
        together(self.clients, self.run)
        return time.monotonic() - begun

    def want(self, queue):
        return {(client, at) for name, client, at in self.taken if name == queue}


def lines_of(number):
    """How many lines a job has: mostly few, one in fifty some 200 kB."""
    return 9_000 if number % 50 == 7 else (6, 20, 60, 300)[number % 4]


def site_plan(jobs, with_held):
    others = [f"q{number}" for number in range(1, QUEUES + 1) if f"q{number}" not in (*HELD, FAILED)]
    plan = []
    for at in range(jobs):
        plan.append((others[at % len(others)], lines_of(at)))
        if with_held and at % 27 == 0:
            plan.append(((*HELD, FAILED)[at // 27 % 3], lines_of(at // 27)))
    return plan, others


def run_site(room, jobs, with_held):
    """The site's jobs; those of queues that can't print stay. Answers the flood and how many of the others were printed a second."""
    if with_held:
        os.symlink("/dev/full", room.path(int(FAILED[1:])))
    room.start()
    for queue in HELD:
        room.tell("hold", queue)
    if with_held:
        # Its printer fails at its first job, and stands then.
        send(room.port, 999, job(FAILED, 99, 0), FAILED, "127.0.1.99")
        until = time.monotonic() + 20
        while "stopped" not in room.tell("status").replace("stopped 0", ""):
            check(time.monotonic() < until, "the printer doesn't fail")
            time.sleep(0.1)
    plan, others = site_plan(jobs, with_held)
    flood = Flood(room, plan)
    seconds = flood.go()
    check(not flood.refused, f"refused: {flood.refused}; {room.log()[-600:]}")
    kept = sum(name in (*HELD, FAILED) for name, _, _ in flood.taken)
    until = time.monotonic() + 300
    while len(room.files()) > kept and time.monotonic() < until:
        time.sleep(0.05)
    for queue in others:
        seen = jobs_in(room.printed(int(queue[1:])), queue)
        check_order(seen)
        check(set(seen) == flood.want(queue) and len(seen) == len(set(seen)), f"{queue}: {len(seen)} printed of {len(flood.want(queue))}")
    return flood, (len(flood.taken) - kept) / seconds


def a_site():
    """Two queues are held, and one printer has failed: nobody is refused, the others print all that they are sent, and no slower than without the jobs of
    those; released and started, these print theirs in order."""
    with Room(config()) as room:
        _, alone = run_site(room, JOBS, False)
    with Room(config()) as room:
        flood, beside = run_site(room, JOBS, True)
        held = [line for line in room.tell("status").splitlines() if line.startswith("kept")]
        os.unlink(room.path(int(FAILED[1:])))
        for queue in HELD:
            room.tell("release", queue)
        room.tell("stop", "3")
        room.server.wait(60)
        room.start()
        room.await_files(0, 300)
        for queue in (*HELD, FAILED):
            seen = jobs_in(room.printed(int(queue[1:])), queue)
            check_order([it for it in seen if it[0] != 99])
            first = [it for it in dict.fromkeys(seen) if it[0] != 99]
            check(set(first) == flood.want(queue), f"{queue}: {len(first)} printed of {len(flood.want(queue))}")
    if not CHECKED and not SHORT:
        check(beside >= 0.9 * alone, f"{beside:.0f} a second beside the queues that stand, {alone:.0f} without their jobs")
    return (f"{len(flood.taken)} of {len(flood.plan)} jobs taken, {held[0]}; the others' {beside:.0f} a second, {alone:.0f} without the others' jobs, "
            f"the slowest answer after {flood.longest:.2f} s")


def a_queue_is_held():
    """Jobs that come while their queue is held wait in the folder: no job of it is in the spool, a stop keeps them and says so, a start listens at once, and
    once it is released they leave in order, with those that came since."""
    with Room(config(queues=2)) as room:
        room.start()
        room.tell("hold", "q1")
        for number in range(30):
            check(send(room.port, number, job("q1", 0, number), "q1") == 0, f"job {number} is refused")
        status = room.tell("status")
        check(not [line for line in status.splitlines() if line.startswith("job ")], f"held: {status}")
        check("kept waiting 30 failed 0" in status, status)
        text, _ = ask(room.port, b"\x03q1\n")
        lines = text.decode().splitlines()
        check(lines[0] == "queue q1 jobs 0 printers 1 stopped 0" and lines[1] == "30 jobs wait in the folder", lines[:3])
        check(lines[2] == "waiting 000 ann h1 pages 1" and len(lines) == 32, lines[2:])
        told = room.tell("stop", limit=60)
        room.server.wait(30)
        check("30 jobs wait in the folder for the next start" in told, told)
        check(len(room.files()) == 30 and not room.printed(1), f"{len(room.files())} files, {len(room.printed(1))} octets")
        room.start()
        check("queue q1 held" in room.tell("status"), "the hold didn't outlive the server")
        for number in range(30, 60):
            check(send(room.port, number, job("q1", 0, number), "q1") == 0, f"job {number} is refused")
        room.tell("release", "q1")
        room.await_files(0, 30)
        seen = jobs_in(room.printed(1), "q1")
        check(seen == [(0, number) for number in range(60)], f"{seen}")
    return "30 jobs of a held queue in the folder alone, told by lpq and status, over a stop and a start, all 60 printed in order"


def holds_outlive_a_restart():
    """A queue that is held is held after a stop, after a kill, and by a configuration that has lost another one; a file of holds that can't be read holds all."""
    with Room(config(queues=3)) as room:
        room.start()
        room.tell("hold", "q1")
        room.tell("hold", "q3")
        room.tell("release", "q3")
        room.tell("hold", "q2")
        room.kill()
        with open(f"{room.folder}/spool.toml", "w") as file:
            file.write(config(queues=1))
        room.start()
        check("queue q1 held" in room.tell("status"), "the hold is gone after a kill")
        check("isn't in the configuration any more" in room.log(), room.log()[-400:])
        room.tell("stop")
        room.server.wait(30)
        room.start()
        check("queue q1 held" in room.tell("status"), "the hold is gone after a stop")
        check(room.tell("release", "q1") == "", "it isn't released")
        room.kill()
        room.start()
        check("queue q1 runs" in room.tell("status"), "the release is gone after a kill")
        room.kill()
        os.unlink(f"{room.kept}/held")
        os.mkdir(f"{room.kept}/held")
        room.start()
        check("queue q1 held" in room.tell("status") and "all queues are held" in room.log(), room.log()[-400:])
        check("the next server won't know it" in room.tell("release", "q1"), "that it can't be written isn't told")
    return "after a stop, a kill and a changed configuration; all are held where that isn't known"


def removed_while_they_wait():
    """`lprm`, `control remove` and `cancel file` find jobs that wait in the folder."""
    with Room(config(queues=1)) as room:
        room.start()
        room.tell("hold", "q1")
        for number in range(40):
            check(send(room.port, number, job("q1", 0, number), "q1", user=f"u{number % 4}") == 0, f"job {number} is refused")
        text, _ = ask(room.port, b"\x05q1 u1 1 2 5\n")
        check(text.decode().splitlines()[-2:] == ["removed 001 u1 h1", "removed 005 u1 h1"] or b"001" in text and b"005" in text, text)
        check(len(room.files()) == 38, f"{len(room.files())} files")
        told = room.tell("remove", "q1", "u3")
        check(told.count("u3") == 10 and "nothing removed" not in told, told)
        told = room.tell("cancel", "file", "1")
        check("removed file 1 (000) u0@h1 of q1" in told, told)
        check(len(room.files()) == 27, f"{len(room.files())} files")
        room.tell("release", "q1")
        room.await_files(0, 30)
        seen = [number for _, number in jobs_in(room.printed(1), "q1")]
        check(seen == [it for it in range(1, 40) if it % 4 != 3 and it not in (1, 5)], f"{seen}")
    return "two by lprm, ten by remove, one by cancel file: the other 27 printed in order"


def refused_as_any_other():
    """What a job that goes beside the spool is refused for is what any job is: a name twice, two control files, more pages than its queue allows, a session that
    breaks off leaves nothing."""
    with Room(config(queues=2, limit=4)) as room:
        room.start()
        room.tell("hold", "q1")

        def talk(queue, *lines):
            with contextlib.closing(connect(room.port)) as peer:
                said = []
                for line in (b"\x02%s\n" % queue, *lines):
                    peer.sendall(line)
                    said.append(answer(peer))
                    if said[-1] != 0:
                        break
                return said

        text = b"Hh1\nPann\nfdfA001h1\n"
        data, about = (b"\x035 dfA001h1\n", b"hello\0"), (b"\x02%d cfA001h1\n" % len(text), text + b"\0")
        cases = (("a name twice", (*data, *data)), ("two control files", (*about, *about)), ("too many pages", (b"\x0316385 dfA001h1\n",)),
                 ("too many pages in two files", (b"\x0316384 dfA001h1\n", b"x" * 16384 + b"\0", b"\x031 dfB001h1\n")))
        for name, lines in cases:
            beside, through = talk(b"q1", *lines), talk(b"q2", *lines)
            check(beside == through and beside[-1] != 0, f"{name}: {beside} beside the spool, {through} through it")
        check(talk(b"q9")[-1] != 0, "an unknown queue")
        with contextlib.closing(connect(room.port)) as peer:
            peer.sendall(b"\x02q1\n" + data[0] + b"he")
            time.sleep(0.3)
        until = time.monotonic() + 5
        while room.files("tmp") and time.monotonic() < until:
            time.sleep(0.05)
        check(not room.files("tmp") and not room.files(), f"{room.files('tmp')} {room.files()} are left")
        with contextlib.closing(connect(room.port)) as peer:
            for number, octets in ((2, b"x" * 5000), (3, b"y" * 5000)):
                said = b"Hh1\nPann\nfdfA%03dh1\n" % number
                lines = [b"\x03%d dfA%03dh1\n" % (len(octets), number), octets + b"\0", b"\x02%d cfA%03dh1\n" % (len(said), number), said + b"\0"]
                for line in ([b"\x02q1\n"] if number == 2 else []) + lines:
                    peer.sendall(line)
                    got = answer(peer)
                    check(got == 0, f"{line[:20]!r}: {got}")
        room.tell("release", "q1")
        room.await_files(0, 30)
        check(room.printed(1) == b"x" * 5000 + b"y" * 5000, f"{len(room.printed(1))} octets printed")
    return f"{len(cases)} refusals alike beside the spool and through it; two jobs over one connection"


def killed_amid_it():
    """The server is killed again and again while jobs wait, are fed and printed: each that was acknowledged is printed, each sender's in order."""
    with Room(config(queues=3, jobs=16)) as room:
        room.start()
        stop, taken, lock = threading.Event(), [], threading.Lock()

        def client(number):
            at = 0
            while not stop.is_set():
                at += 1
                queue = ("q1", "q1", "q2", "q3")[at % 4]
                with contextlib.suppress(OSError):
                    if send(room.port, at, job(queue, number, at), queue, f"127.0.1.{number + 1}", f"u{number}") == 0:
                        with lock:
                            taken.append((queue, number, at))
                        continue
                time.sleep(0.01)

        threads = [threading.Thread(target=client, args=(number,), daemon=True) for number in range(6)]
        for thread in threads:
            thread.start()
        for kill in range(KILLS):
            room.tell("hold", "q1")
            time.sleep(0.7)
            if kill % 2:
                room.tell("release", "q1")
                time.sleep(0.05 * (kill % 7))
            room.kill()
            room.start()
        stop.set()
        for thread in threads:
            thread.join(30)
        room.tell("release", "q1")
        room.await_files(0, 240)
        time.sleep(0.5)
        told = []
        for number in (1, 2, 3):
            queue = f"q{number}"
            want = {(sender, at) for name, sender, at in taken if name == queue}
            whole = [(int(a), int(b)) for a, b in re.findall(rf"<{queue}\.(\d+)\.(\d+)\.19/20>", room.printed(number).decode())]
            first = list(dict.fromkeys(whole))
            check(not want - set(first), f"{queue}: lost {sorted(want - set(first))[:5]} of {len(want)}")
            check_order(first)
            told.append(f"{queue} {len(want)} of which {len(whole) - len(first)} twice")
    return f"{KILLS} kills: " + ", ".join(told)


def many_wait():
    """Many jobs wait in one queue: at few octets of memory each; a start with them listens within a second."""
    with Room(config(queues=2)) as room:
        room.start()
        room.tell("hold", "q1")
        Flood(room, [("q1", 3)] * 200, 8).go()
        before = room.memory()
        flood = Flood(room, [("q1", 3)] * MANY, 8)
        seconds = flood.go()
        check(not flood.refused, flood.refused)
        each = (room.memory() - before) / MANY
        text, took = ask(room.port, b"\x03q1\n", 60)
        lines = text.decode().splitlines()
        check(lines[1] == f"{MANY + 200} jobs wait in the folder", lines[1])
        check(MANY < 1_000 or lines[-1] == f".. and {MANY + 200 - 1_000} more", lines[-1])
        room.kill()
        listened = room.start()
        check(CHECKED or listened < 1, f"it listened after {listened:.2f} s")
        check(CHECKED or SHORT or each <= 64, f"{each:.0f} octets a job")
        room.tell("hold", "q1")
    return f"{MANY} jobs wait, {MANY / seconds:.0f} a second, at {each:.0f} octets each; lpq in {took:.2f} s; a start listens after {listened:.2f} s"


def a_job_that_comes_before_all_are_read():
    """A start finds thousands of whole jobs, and last of all one of a sender that sends another one for the same queue at once: that is printed behind it."""
    with Room(config(queues=2)) as room:
        os.mkdir(room.kept)
        os.mkfifo(room.path(2))
        for number in range(FOUND):
            queue = "q2" if number + 1 < FOUND else "q1"
            octets, text = job(queue, 0, number, 1), b"Hh1\nPann\nfdfA%03dh1\n" % (number % 1000)
            with open(f"{room.kept}/{number + 1}.job", "wb") as file:
                file.write(b"hurgwaye 1 7f000009\n\x02%s\n\x03%d dfA%03dh1\n" % (queue.encode(), len(octets), number % 1000) + octets
                           + b"\0\x02%d cfA%03d\n" % (len(text), number % 1000) + text + b"\0")
        room.start()
        check(send(room.port, 999, job("q1", 0, FOUND, 1), "q1", "127.0.0.9") == 0, "a job isn't taken")
        until = time.monotonic() + 30
        while len(seen := jobs_in(room.printed(1), "q1")) < 2:
            check(time.monotonic() < until, f"{seen} are printed")
            time.sleep(0.05)
        check(seen == [(0, FOUND - 1), (0, FOUND)], f"{seen}")
    return f"behind the last one of {FOUND} jobs"


def removals_amid_feeding():
    """Jobs are removed by their files while they are fed, one after another: each is removed or printed, and none is told to ask again."""
    count = size("REMOVED", 2_000, 200)
    with Room(config(queues=1, pages=64, jobs=8, limit=20)) as room:
        room.start()
        room.tell("hold", "q1")
        Flood(room, [("q1", 60)] * count, 8).go()
        room.tell("release", "q1")
        told = {}
        for number in range(count, 0, -3):
            said = room.tell("cancel", "file", str(number)).splitlines()[0]
            kind = next((it for it in ("removed file", "has ended", "No such file", "ask again") if it in said), said)
            told[kind] = told.get(kind, 0) + 1
        room.await_files(0, 120)
        time.sleep(0.5)
        seen = jobs_in(room.printed(1), "q1")
        check(len(seen) == len(set(seen)), "a job was printed twice")
        check(len(seen) >= count - told.get("removed file", 0), f"{len(seen)} printed, {told}")
        check(set(told) <= {"removed file", "has ended", "No such file", "ask again"} and told.get("ask again", 0) <= 2, f"{told}")
    return f"{count} jobs, {len(seen)} printed; what was told: {told}"


class Fed(Room):
    """A server that has begun to feed a large job, which waited in the folder as file 1."""

    def __init__(self):
        super().__init__(config(queues=1, pages=16_384, page=512, account=8_000_000, limit=16_384), "--log-jobs")
        self.octets = job("q1", 0, 1, 400_000)[:12_000 * 512]

    def feed(self):
        self.start()
        self.tell("hold", "q1")
        check(send(self.port, 1, self.octets, "q1") == 0, "the job isn't taken")
        self.tell("release", "q1")
        until = time.monotonic() + 30
        while not re.search(r"^job 1 q1 \S+ - - receiving .* of 12000 pages came$", told := self.answered("status"), re.MULTILINE):
            check(time.monotonic() < until, f"it isn't seen while it is fed: {told}\n{self.log()[-400:]}")

    def answered(self, line):
        """What is answered at the control socket, as soon as can be."""
        with socket.socket(socket.AF_UNIX) as peer:
            peer.settimeout(30)
            peer.connect(self.control)
            peer.sendall(f"{line}\n".encode())
            told = b""
            while piece := peer.recv(65536):
                told += piece
        return told.decode()


def removed_while_it_is_fed():
    """A job is removed by its file while it is fed: it is told as removed and not as failed, its file goes, and it can't be sent again. The next one is printed."""
    with Fed() as room:
        # (its printer is a pipe that nobody reads: so it isn't done before it is removed)
        os.mkfifo(room.path(1))
        pipe = os.open(room.path(1), os.O_RDWR | os.O_NONBLOCK)
        room.feed()
        said = room.answered("cancel file 1")
        check(said.startswith("removed file 1 (001) ann@h1 of q1\n"), said)
        until = time.monotonic() + 30
        while not (ends := re.findall(r" job 1 q1 .* (\w+) in [\d.]+ s file 1$", room.log().replace(" received in ", " "), re.MULTILINE)):
            check(time.monotonic() < until, f"its end isn't told: {room.log()[-400:]}")
            time.sleep(0.05)
        check(ends == ["removed"], ends)
        until = time.monotonic() + 30
        while os.path.exists(f"{room.kept}/1.job"):
            check(time.monotonic() < until, "its file stays")
            time.sleep(0.05)
        check(send(room.port, 2, job("q1", 0, 2), "q1") == 0, "the next job isn't taken")
        printed, until = b"", time.monotonic() + 30
        while room.files():
            check(time.monotonic() < until, f"{room.files()}: {room.log()[-400:]}")
            with contextlib.suppress(BlockingIOError):
                printed += os.read(pipe, 1 << 20)
            time.sleep(0.02)
        with contextlib.suppress(BlockingIOError):
            printed += os.read(pipe, 1 << 20)
        os.close(pipe)
        check(not room.files("failed"), f"{room.files('failed')}")
        told = room.tell("status")
        check("kept waiting 0 failed 0\n" in told and "\njob " not in told, told)
        check("resent" not in (said := room.tell("resend", "1")), said)
        check(printed.endswith(job("q1", 0, 2)) and room.octets.startswith(printed[:-len(job("q1", 0, 2))]), f"{len(printed)} octets are printed")
    return "told as removed, and no file is left"


def stopped_while_it_is_fed():
    """A server is stopped at once while a job is fed: nothing is said of that job but that it waits, its file stays, and the next server prints it."""
    with Fed() as room:
        room.feed()
        told = room.answered("stop now")
        room.server.wait(30)
        check([os.path.basename(path) for path in room.files()] == ["1.job"] and not room.files("failed"), f"{room.files()} {room.files('failed')}")
        check("isn't printed" not in room.log() and " is lost" not in room.log(), room.log()[-600:])
        check(" received in " in room.log() or not room.printed(1), f"{len(room.printed(1))} octets are printed")
        os.truncate(room.path(1), 0)
        room.start()
        room.await_files(0, 60)
        check(room.printed(1) == room.octets, f"{len(room.printed(1))} octets are printed of {len(room.octets)}")
        check("isn't printed" not in room.log(), room.log()[-600:])
    return f"{told.strip()!r} is answered, and the next server printed it"


def parts_without_a_folder():
    """With `--parts` and no folder: jobs of two held queues and of one whose printer has failed are refused for now beyond their parts; each other one is taken,
    though it has to wait for room in its queue's part, and printed, and so are those of the three that were taken, once these print."""
    with Room(config(), "--parts", keeps=False) as room:
        os.symlink("/dev/full", room.path(int(FAILED[1:])))
        room.start()
        for queue in HELD:
            room.tell("hold", queue)
        send(room.port, 999, job(FAILED, 99, 0), FAILED, "127.0.1.99")
        until = time.monotonic() + 20
        while "stopped" not in room.tell("status").replace("stopped 0", ""):
            check(time.monotonic() < until, "the printer doesn't fail")
            time.sleep(0.1)
        plan, others = site_plan(JOBS, True)
        taken, refused, lock = [], {}, threading.Lock()

        def client(number):
            for at in range(number, len(plan), CLIENTS):
                queue, lines = plan[at]
                octet = send(room.port, at, job(queue, number, at, lines), queue, f"127.0.1.{number + 1}", f"u{number}")
                with lock:
                    if octet == 0:
                        taken.append((queue, number, at))
                    else:
                        refused[queue, octet] = refused.get((queue, octet), 0) + 1

        together(CLIENTS, client)
        check({queue for queue, _ in refused} == {*HELD, FAILED} and {octet for _, octet in refused} == {2}, f"refused: {refused}")
        for queue in others:
            want = {(number, at) for name, number, at in taken if name == queue}
            check(len(want) == sum(name == queue for name, _ in plan), f"{queue}: {len(want)} taken")
        os.unlink(room.path(int(FAILED[1:])))
        for queue in HELD:
            room.tell("release", queue)
        told = room.tell("stop", "30")
        room.server.wait(60)
        for queue in (*others, *HELD):
            seen = jobs_in(room.printed(int(queue[1:])), queue)
            check_order(seen)
            want = {(number, at) for name, number, at in taken if name == queue}
            check(set(seen) == want and len(seen) == len(want), f"{queue}: {len(seen)} printed of {len(want)} {told}")
    return f"{len(taken)} of {len(plan)} taken, {sum(refused.values())} of the three queues refused for now, none of the others"


def pages_by_file():
    """A job of many small files isn't fed before there are pages for all of them, so that a start lets everybody in, also where the printer that has the pages
    takes nothing."""
    text = ('pages = 60\npage_size = 64\nmax_jobs = 8\naccount = 1000000\n[[queue]]\nname = "a"\nlimit = 52\nprinters = 1\n'
            '[[queue]]\nname = "b"\nlimit = 52\nprinters = 1\n')
    with Room(text) as room:
        readers = []
        for number, room_left in ((1, 29 * 64), (2, 0)):
            os.mkfifo(room.path(number))
            readers.append(os.open(room.path(number), os.O_RDWR | os.O_NONBLOCK))
            fcntl.fcntl(readers[-1], 1031, 4096)
            os.write(readers[-1], b"x" * (4096 - room_left))
        room.start()

        def files(queue, number, files, host):
            names = [b"df%c%03dh" % ((65 + at) if at < 26 else (97 + at - 26), number) for at in range(len(files))]
            text = b"Hh\nPann\n" + b"".join(b"f" + name + b"\n" for name in names)
            lines = [b"\x02%s\n" % queue]
            for name, octets in zip(names, files):
                lines += [b"\x03%d %s\n" % (len(octets), name), octets + b"\0"]
            lines += [b"\x02%d cfA%03dh\n" % (len(text), number), text + b"\0"]
            with contextlib.closing(connect(room.port, host, 10)) as peer:
                for line in lines:
                    peer.sendall(line)
                    got = answer(peer)
                    check(got == 0, f"{line[:20]!r}: {got}")

        files(b"a", 1, [b"A" * 64 * 30], "127.0.0.2")
        # All but one page of it is printed, so that the next one has room.
        time.sleep(1)
        files(b"b", 2, [b"B"] * 52, "127.0.0.3")
        room.kill()
        room.start()
        time.sleep(1)
        text, took = ask(room.port, b"\x03b\n", 10)
        check(took < 2 and text, f"no answer after {took:.1f} s")
        for reader in readers:
            os.close(reader)
    return f"a question is answered in {took:.2f} s while a job of 52 files waits for pages"


def a_file_that_is_gone():
    """A file that somebody took away holds up nobody: its sender's later jobs are printed, and the log says what isn't."""
    with Room(config(queues=1)) as room:
        room.start()
        room.tell("hold", "q1")
        for number in range(3):
            check(send(room.port, number, job("q1", 0, number), "q1") == 0, f"job {number} is refused")
        os.unlink(f"{room.kept}/1.job")
        room.tell("release", "q1")
        room.await_files(0, 20)
        seen = jobs_in(room.printed(1), "q1")
        check(seen == [(0, 1), (0, 2)], f"{seen}")
        check("the job in file 1.job isn't printed" in room.log(), room.log()[-400:])
    return "two later jobs of its sender are printed, and the log names the file"


def no_session_waits():
    """A job that would have to wait for pages that another queue's jobs hold, whose printer takes nothing, goes beside the spool: it is acknowledged at once."""
    with Room(config(queues=2, pages=64, jobs=16, limit=40)) as room:
        os.mkfifo(room.path(1))
        reader = os.open(room.path(1), os.O_RDWR | os.O_NONBLOCK)
        with contextlib.suppress(BlockingIOError):
            while os.write(reader, b"x" * 4096):
                pass
        room.start()
        check(send(room.port, 1, job("q1", 0, 1, 7_000), "q1") == 0, "the first job")
        begun = time.monotonic()
        check(send(room.port, 2, job("q2", 0, 2, 7_000), "q2") == 0, "the second job")
        took = time.monotonic() - begun
        check(took < 10, f"acknowledged after {took:.1f} s")
        os.close(reader)
    return f"acknowledged after {took:.2f} s, while a printer that takes nothing has the pages"


def one_queue_holds_up_no_other():
    """A job that finds no page waits again, and the jobs of other queues are fed before it."""
    with Room(config(queues=3, pages=64, jobs=16, limit=40)) as room:
        os.mkfifo(room.path(1))
        reader = os.open(room.path(1), os.O_RDWR | os.O_NONBLOCK)
        with contextlib.suppress(BlockingIOError):
            while os.write(reader, b"x" * 4096):
                pass
        room.start()
        room.tell("hold", "q2")
        room.tell("hold", "q3")
        check(send(room.port, 1, job("q1", 0, 1, 7_000), "q1") == 0, "the first job")
        check(send(room.port, 2, job("q2", 0, 2, 7_000), "q2") == 0, "a large job that waits")
        check(send(room.port, 3, job("q3", 0, 3), "q3") == 0, "a small job that waits")
        room.tell("release", "q2")
        room.tell("release", "q3")
        until = time.monotonic() + 10
        while not room.printed(3):
            check(time.monotonic() < until, f"the small job isn't printed: {room.tell('status')}")
            time.sleep(0.05)
        os.close(reader)
    return "a small job of another queue is printed while a large one waits for pages"


if __name__ == "__main__":
    raise SystemExit(main((a_queue_is_held, holds_outlive_a_restart, removed_while_they_wait, a_job_that_comes_before_all_are_read, removals_amid_feeding,
                           removed_while_it_is_fed, stopped_while_it_is_fed, refused_as_any_other, pages_by_file, a_file_that_is_gone, no_session_waits,
                           one_queue_holds_up_no_other, killed_amid_it, many_wait, parts_without_a_folder, a_site), __doc__))
