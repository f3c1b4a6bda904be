#!/usr/bin/env python3
"""Scenes of a server that keeps its jobs: keeping.py PROGRAM [SCENE..], where PROGRAM is the built lpd_server.

Servers are killed, their disks are full, read-only or gone. Each scene is bounded in time and runs on loopback alone. The scenes of disks mount
small file systems, and so are left out where that isn't allowed. A line says what was seen; the last line is 'N passed, M failed'."""
import contextlib
import glob
import os
import random
import re
import signal
import socket
import struct
import subprocess
import sys
import tempfile
import threading
import time

from client import control, free_port, connect, answer, send
from scene import PROGRAM, check, main, size

# What is said of a kept job's file that isn't as it was kept.
CHANGED = "it isn't as it was kept: its octets changed, it lacks some, or it has more"
KILLS = size("KILLS", 200, 20)
# How many jobs each client sends to a queue whose printer fails at each: its queue is started again for one of them each.
FAILING = 60
PAUSE = float(os.environ.get("PAUSE", "0.5"))
CLIENTS = 8
CONFIG = """pages = 256
page_size = 4096
max_jobs = 64
account = 16000000
""" + "".join(f"""
[[queue]]
name = "{name}"
limit = 128
printers = 1
""" for name in ("lp", "plotter", "bad"))


class Room:
    """A folder with a configuration, printers' files and kept jobs, over which one server after another runs."""

    def __init__(self, *words, config=CONFIG):
        self.room = tempfile.TemporaryDirectory()
        self.folder = self.room.name
        self.words = words
        self.kept = f"{self.folder}/kept"
        self.port = free_port()
        self.server = None
        with open(f"{self.folder}/spool.toml", "w") as file:
            file.write(config)

    def line(self):
        control_socket = f"{self.folder}/control"
        return [PROGRAM, "serve", f"{self.folder}/spool.toml", "--port", str(self.port), "--out", self.folder, "--spool", self.kept,
                "--keep-room", "--sessions", "16", "--control", control_socket, *self.words]

    def start(self):
        self.server = subprocess.Popen(self.line(), stdin=subprocess.DEVNULL, stdout=open(f"{self.folder}/said", "ab"),
                                       stderr=open(f"{self.folder}/log", "ab"))
        for _ in range(400):
            with contextlib.suppress(OSError):
                connect(self.port).close()
                return
            check(self.server.poll() is None, f"the server ended: {self.log()[-400:]}")
            time.sleep(0.01)
        raise AssertionError("nothing listens")

    def kill(self):
        self.server.send_signal(signal.SIGKILL)
        self.server.wait()

    def tell(self, *words):
        """What a command to the server's control socket answers."""
        line = [PROGRAM, "control", f"{self.folder}/control", *words]
        told = subprocess.run(line, capture_output=True, text=True, timeout=120)
        return told.stdout + told.stderr

    def log(self):
        return open(f"{self.folder}/log", "rb").read().decode(errors="replace")

    def await_log(self, text):
        for _ in range(100):
            if text in self.log():
                return
            time.sleep(0.05)
        raise AssertionError(f"the log doesn't say {text!r}: {self.log()[-600:]}")

    def printed(self, printer=1):
        with contextlib.suppress(FileNotFoundError):
            return open(f"{self.folder}/printer-{printer}", "rb").read()
        return b""

    def files(self, end):
        return sorted(os.path.basename(path) for path in glob.glob(f"{self.kept}/*.{end}"))

    def await_files(self, count, end="job", seconds=60):
        """Waits until so many files have this end."""
        for _ in range(seconds * 20):
            if len(self.files(end)) == count:
                return
            time.sleep(0.05)
        raise AssertionError(f"{len(self.files(end))} files end in .{end}, and not {count}: {self.log()[-600:]}")

    def __enter__(self):
        return self

    def __exit__(self, *_):
        if self.server:
            self.server.kill()
            self.server.wait()
        self.room.cleanup()


class Sender:
    """A client at an address of its own that sends one job after another, and remembers how far each came."""

    def __init__(self, room, number, seed):
        self.room, self.number, self.host = room, number, f"127.0.1.{number + 1}"
        self.random = random.Random(seed)
        self.whole, self.taken, self.removed = [], [], set()
        self.failing, self.stops = 0, False

    def text(self, job, queue):
        lines = self.random.choice((1, 3, 40, 1500))
        return "".join(f"<{self.number}.{job}.{queue}.{line}/{lines}>\n" for line in range(lines)).encode()

    def one(self, job):
        queue = self.random.choice(("lp", "lp", "plotter", "plotter", *(("bad",) if self.failing < FAILING else ())))
        octets, said = self.text(job, queue), control(job % 1000, f"u{self.number}")
        with contextlib.closing(connect(self.room.port, self.host, 10)) as peer:
            peer.sendall(b"\x02" + queue.encode() + b"\n")
            if answer(peer) != 0:
                return time.sleep(0.002)
            peer.sendall(f"\x03{len(octets)} dfA{job % 1000:03}h1\n".encode())
            if answer(peer) != 0:
                return None
            cut = self.random.randrange(len(octets))
            peer.sendall(octets[:cut])
            peer.sendall(octets[cut:] + b"\0")
            if answer(peer) != 0:
                return None
            peer.sendall(f"\x02{len(said)} cfA{job % 1000:03}h1\n".encode())
            if answer(peer) != 0:
                return None
            # From here on the job may be taken, whatever comes back.
            self.whole.append((job, queue, octets))
            self.failing += queue == "bad"
            peer.sendall(said + b"\0")
            if answer(peer) == 0:
                self.taken.append((job, queue, octets))
        return None

    def remove_all(self):
        """Removes this user's jobs of a queue: of those that were taken by now nothing is known any more."""
        self.removed.update(job for job, queue, _ in self.whole if queue == "lp")
        with contextlib.closing(connect(self.room.port, self.host, 10)) as peer:
            peer.sendall(f"\x05lp u{self.number} u{self.number}\n".encode())
            while peer.recv(65536):
                pass

    def run(self):
        job = 0
        while not self.stops:
            job += 1
            try:
                self.one(job)
                if self.number == 0 and self.random.random() < 0.02:
                    self.remove_all()
            except OSError:
                time.sleep(0.002)


def is_printed_whole(senders, queue, printed):
    """Each job of the queue that was acknowledged, and not removed, stands whole in what was printed, each sender's in order; and all that
    stands there is the beginning of a job that came whole. Answers how many jobs stand there twice."""
    whole = {(s.number, job): octets for s in senders for job, at, octets in s.whole if at == queue}
    seen, twice, at = {}, 0, 0
    order = {s.number: 0 for s in senders}
    while at < len(printed):
        found = re.compile(rb"<(\d+)\.(\d+)\.").match(printed, at)
        check(found, f"no job begins at {at} of {queue}: {printed[at:at + 60]!r}")
        key = (int(found[1]), int(found[2]))
        check(key in whole, f"{key} of {queue} wasn't sent whole")
        octets, length = whole[key], 0
        while length < len(octets) and printed[at + length:at + length + 1] == octets[length:length + 1]:
            step = 4096 if printed[at + length:at + length + 4096] == octets[length:length + 4096] else 1
            length += min(step, len(octets) - length)
        check(length > 0, f"nothing of {key} at {at}")
        if length == len(octets):
            twice += key in seen
            if key not in seen:
                check(order[key[0]] < key[1], f"{key} of {queue} behind job {order[key[0]]}")
                order[key[0]] = key[1]
            seen[key] = True
        at += length
    for sender in senders:
        for job, at_queue, _ in sender.taken:
            if at_queue == queue and job not in sender.removed:
                check((sender.number, job) in seen, f"job {job} of sender {sender.number} in {queue} was acknowledged, and isn't printed")
    return len(seen), twice


def killed_at_random():
    """Servers are killed at random moments under load of eight clients; each job that was acknowledged is printed, in its sender's order."""
    with Room("--restart", "1") as room:
        os.symlink("/dev/full", f"{room.folder}/printer-3")
        seed = int(os.environ.get("SEED", str(random.randrange(1 << 30))))
        chance = random.Random(seed)
        senders = [Sender(room, number, seed + number) for number in range(CLIENTS)]
        room.start()
        threads = [threading.Thread(target=sender.run, daemon=True) for sender in senders]
        for thread in threads:
            thread.start()
        for _ in range(KILLS):
            time.sleep(chance.random() * PAUSE)
            room.kill()
            room.start()
        for sender in senders:
            sender.stops = True
        for thread in threads:
            thread.join(30)
        # The queue of the full device is started again ever later by itself, for one job each time: hundreds wait for it in the folder.
        until = time.monotonic() + 300
        while room.files("job") and time.monotonic() < until:
            room.tell("start", "bad")
            time.sleep(0.05)
        check(not room.files("job"), f"seed {seed}: {room.files('job')[:5]} stay: {room.log()[-900:]}")
        told = room.tell("stop", "20")
        check("end done" in told or told == "", told)
        lp = is_printed_whole(senders, "lp", room.printed(1))
        plotter = is_printed_whole(senders, "plotter", room.printed(2))
        bad = sum(1 for s in senders for _, queue, _ in s.taken if queue == "bad")
        check(len(room.files("failed")) >= bad, f"{len(room.files('failed'))} failed files for {bad} jobs that were acknowledged")
        taken = sum(len(s.taken) for s in senders)
        return f"seed {seed}: {taken} acknowledged, {lp[0]} and {plotter[0]} printed, {lp[1] + plotter[1]} of them twice, {bad} failed"


def killed_once():
    """A printer is a pipe that nobody reads; the server is killed, and the next one prints what was acknowledged."""
    with Room() as room:
        os.mkfifo(f"{room.folder}/printer-1")
        room.start()
        for job in range(1, 6):
            check(send(room.port, job, b"%d" % job * 90_000) == 0, f"job {job}")
        room.kill()
        check(len(room.files("job")) == 5, room.files("job"))
        os.remove(f"{room.folder}/printer-1")
        room.start()
        room.await_files(0)
        check(room.printed() == b"".join(b"%d" % job * 90_000 for job in range(1, 6)), "other octets")
        return "5 jobs were printed after the next start"


def a_second_server():
    """A second server at one folder is refused."""
    with Room() as room:
        room.start()
        line = room.line()
        line[line.index("--port") + 1] = str(free_port())
        line[line.index("--control") + 1] = f"{room.folder}/other"
        told = subprocess.run(line, capture_output=True, text=True, timeout=10)
        check(told.returncode == 4 and told.stderr.splitlines()[-1] == f"fault 73 WriteFile {room.kept}", told)
        return told.stderr.splitlines()[-1]


def a_failed_job_is_sent_again():
    """A job that fails stays in the folder, is told, and is printed once it is sent again."""
    with Room() as room:
        os.symlink("/dev/full", f"{room.folder}/printer-1")
        room.start()
        check(send(room.port, 1, b"again") == 0, "it is taken")
        room.await_files(1, "failed")
        name = room.files("failed")[0]
        check("kept waiting 0 failed 1" in room.tell("status"), room.tell("status"))
        room.kill()
        os.remove(f"{room.folder}/printer-1")
        room.start()
        number = name.split(".")[0]
        check("end" not in room.tell("resend", number).replace("end done", ""), room.tell("status"))
        room.await_files(0, "failed")
        room.await_files(0)
        check(room.printed() == b"again", room.printed())
        told = room.tell("resend", "999")
        check("999.failed" in told, told)
        return f"{name} was printed"


def a_job_is_removed():
    """A removed job's file is taken away, and no later server prints it."""
    with Room() as room:
        os.mkfifo(f"{room.folder}/printer-1")
        room.start()
        for job in (1, 2, 3):
            check(send(room.port, job, b"%d" % job * 70_000) == 0, f"job {job}")
        # One that is being fed to the spool just then isn't found.
        for _ in range(100):
            if "kept waiting 0" in room.tell("status"):
                break
            time.sleep(0.05)
        with contextlib.closing(connect(room.port)) as peer:
            peer.sendall(b"\x05lp root 3\n")
            while peer.recv(65536):
                pass
        room.await_files(2)
        # What has ended is called so for a moment, until it is removed.
        room.await_files(0, "tmp")
        check(not room.files("failed") and len(room.files("*")) == 2, f"it stays: {room.files('*')}")
        room.kill()
        os.remove(f"{room.folder}/printer-1")
        room.start()
        room.await_files(0)
        check(room.printed() == b"1" * 70_000 + b"2" * 70_000, "other octets")
        room.await_files(0, "tmp")
        check(not room.files("*"), f"files stay: {room.files('*')}")
        return "the other two were printed"


def files_that_are_no_jobs():
    """A file of another version, one that was cut short, and one of a queue that is gone stay, are told of, and the rest goes on."""
    with Room() as room:
        os.mkfifo(f"{room.folder}/printer-1")
        room.start()
        # More than a pipe takes.
        good = b"good" * 30_000
        check(send(room.port, 1, good) == 0, "it is taken")
        room.kill()
        (name,) = room.files("job")
        octets = open(f"{room.kept}/{name}", "rb").read()
        os.remove(f"{room.folder}/printer-1")
        for number, other in ((50, octets.replace(b"hurgwaye 2", b"hurgwaye 3")), (51, octets[:-30]), (52, octets.replace(b"\x02lp", b"\x02gone")),
                              (53, b"nothing"), (54, b"")):
            with open(f"{room.kept}/{number}.job", "wb") as file:
                file.write(other)
        room.start()
        room.await_files(5)
        check(room.printed() == good, room.printed()[:60])
        for number in (50, 53, 54):
            room.await_log(f"it isn't known whose the job in file {number} is")
        room.await_log(f"{room.kept}/51.job: {CHANGED}: the job isn't printed")
        room.await_log("52.job isn't printed, and stays where it is: no queue has the name that it was sent to")
        check(send(room.port, 2, b"more") == 0, "it goes on")
        room.await_files(5)
        check(room.printed() == good + b"more", room.printed()[-60:])
        return "five are told, two are printed"


def changed_files_are_not_printed():
    """Kept jobs of which an octet changed while no server ran, that lack some or have more, or whose own lines were made otherwise, stay and are told of; one as a
    server of before kept it, with no digest, is printed, and so is one that nobody touched."""
    with Room() as room:
        os.mkfifo(f"{room.folder}/printer-1")
        room.start()
        good = bytes(range(256)) * 300
        check(send(room.port, 1, good) == 0, "it is taken")
        room.kill()
        (name,) = room.files("job")
        octets = open(f"{room.kept}/{name}", "rb").read()
        os.remove(f"{room.folder}/printer-1")
        at = octets.index(bytes(range(256)))

        def changed(place, new):
            return octets[:place] + new + octets[place + len(new):]

        job = octets[20:-72]
        others = {60: changed(at, b"\1"), 61: changed(at + len(good) - 1, b"\0"), 62: octets + b"x", 63: octets[:-72] + b"x" + octets[-72:],
                  64: changed(octets.index(b"Pann"), b"Pbob"), 65: changed(11, b"00002000"), 66: changed(len(octets) - 2, b"0" if octets[-2:-1] != b"0" else b"1"),
                  67: octets[:-72], 68: octets[:at + 100] + octets[-72:]}
        for number, other in others.items():
            check(other != octets, f"{number} is as it was")
            with open(f"{room.kept}/{number}.job", "wb") as file:
                file.write(other)
        with open(f"{room.kept}/70.job", "wb") as file:
            file.write(job)
        room.start()
        room.await_files(len(others))
        check(room.printed() == good * 2, f"{len(room.printed())} octets are printed")
        # (whose the last one is isn't known, since its control file is gone)
        for number in list(others)[:-1]:
            room.await_log(f"{number}.job")
        room.await_log("it isn't known whose the job in file 68 is")
        # Those that don't end in their last line are told when they are read first, and never wait.
        for number in (62, 67):
            check(re.search(rf"/{number}\.job: .*: the job isn't printed", room.log()), f"{number} waits: {room.log()[-2000:]}")
        check(room.log().count(CHANGED) == len(others) - 1, room.log()[-3000:])
        check(send(room.port, 2, b"more") == 0, "it goes on")
        room.await_files(len(others))
        return f"{len(others)} changed files are told, and stay"


def files_that_change_while_they_wait():
    """A job's file that comes to be something else while the job waits isn't printed when its queue is released: the log tells of each why."""
    with Room() as room:
        room.start()
        room.tell("hold", "lp")
        for number in range(1, 6):
            check(send(room.port, number, b"%d" % number, host=f"127.0.0.{number + 1}") == 0, f"job {number} isn't taken")
        octets = open(f"{room.kept}/3.job", "rb").read()
        for number, text in ((1, b"x\n" * 100), (3, octets.replace(b"sealed", b"SEALED"))):
            with open(f"{room.kept}/{number}.job", "wb") as file:
                file.write(text)
        os.unlink(f"{room.kept}/2.job")
        os.mkdir(f"{room.kept}/2.job")
        os.unlink(f"{room.kept}/4.job")
        os.symlink("nowhere", f"{room.kept}/4.job")
        room.tell("release", "lp")
        for _ in range(200):
            if room.printed() == b"5":
                break
            time.sleep(0.05)
        check(room.printed() == b"5", room.printed())
        lines = re.findall(r"\] (.*isn't printed.*)", room.log())
        stays = "isn't printed, and stays where it is"
        check(lines == [f"the job in file 1.job {stays}: its file isn't that of a kept job", f"the job in file 2.job {stays}: it is no file",
                        f"the job in file 3.job {stays}: {CHANGED}", "the job in file 4.job isn't printed: its file is gone"], lines)
    return f"{len(lines)} lines"


class Resetting(threading.Thread):
    """A printer on the network that takes little of a job, and resets its connection when it is told to."""

    def __init__(self):
        super().__init__(daemon=True)
        self.there, self.resets = socket.socket(), threading.Event()
        # (what the system takes beside it is less than a job)
        self.there.setsockopt(socket.IPPROTO_TCP, socket.TCP_MAXSEG, 536)
        self.there.setsockopt(socket.SOL_SOCKET, socket.SO_RCVBUF, 4096)
        self.there.bind(("127.0.0.1", 0))
        self.there.listen(4)
        self.place = "socket://127.0.0.1:%d" % self.there.getsockname()[1]
        self.start()

    def run(self):
        while True:
            peer, _ = self.there.accept()
            peer.recv(1000)
            self.resets.wait()
            peer.setsockopt(socket.SOL_SOCKET, socket.SO_LINGER, struct.pack("ii", 1, 0))
            peer.close()


def a_stopped_queue_has_none_in_the_spool():
    """Once a queue's only printer has failed at a job, those behind it that the spool had taken already wait in the folder again, which is told, and none stays in the
    spool."""
    printer = Resetting()
    with Room("--printer", f"1={printer.place}") as room:
        room.start()
        for number, octets in ((1, b"x" * 400_000), (2, b"y" * 100)):
            check(send(room.port, number, octets, host=f"127.0.0.{number + 1}") == 0, f"job {number} isn't taken")
        until = time.monotonic() + 3
        while "\njob 2 lp " not in (told := room.tell("status")):
            check(time.monotonic() < until, told)
            time.sleep(0.02)
        printer.resets.set()
        room.await_files(1, "failed")
        room.await_log("1 jobs of queue lp wait in the folder again: all its printers are stopped\n")
        until = time.monotonic() + 5
        while "\njob " in (told := room.tell("status")) or "parked lp 1\n" not in told:
            check(time.monotonic() < until, told)
            time.sleep(0.05)
    return "told, and gone"


def whole_files_of_any_length():
    """Kept jobs whose files have any length about a page of the spool, and about what is read of a file at a time, are printed by the next start: none is told as changed."""
    for page in (4096, 65_536):
        lengths = sorted({max(1, base + more) for base in (0, 4096, 16_384, 32_768, 65_536, 131_072) for more in (-1, 0, 1, 2)})
        with Room(config=CONFIG.replace("page_size = 4096", f"page_size = {page}")) as room:
            room.start()
            room.tell("hold", "lp")
            jobs = [bytes([65 + at]) * length for at, length in enumerate(lengths)]
            for number, octets in enumerate(jobs, 1):
                check(send(room.port, number, octets) == 0, f"a job of {len(octets)} octets isn't taken")
            room.kill()
            check(len(room.files("job")) == len(jobs), room.files("job"))
            room.start()
            room.tell("release", "lp")
            room.await_files(0)
            check(room.printed() == b"".join(jobs), f"pages of {page}: {len(room.printed())} octets are printed, and not {sum(lengths)}")
            check(CHANGED not in room.log() and not room.files("failed"), room.log())
    return f"{len(lengths)} lengths, with two sizes of a page"


def a_hold_s_file_is_made_anew():
    """Whatever a crash left of the file that is to say which queues are held, it says just that once the hold is answered, and so does the next start."""
    left = b"plotter\nbad\nlp\n" * 9
    with Room() as room:
        os.makedirs(room.kept)
        said, temporary = f"{room.kept}/held", f"{room.kept}/held.tmp"
        for words, held in ((("hold", "lp"), b"lp\n"), (("hold", "bad"), b"lp\nbad\n"), (("release", "lp"), b"bad\n"), (("release", "bad"), b"")):
            with open(temporary, "wb") as file:
                file.write(left)
            room.start()
            told = room.tell(*words)
            check(told == "", f"{words}: {told}")
            check(open(said, "rb").read() == held and not os.path.exists(temporary), f"{words}: {open(said, 'rb').read()}")
            room.kill()
            room.start()
            told = room.tell("status")
            names = "".join(f"{name}\n" for name in re.findall(r"(?m)^queue (\S+) held$", told)).encode()
            check(names == held, f"{words}, and a start: {told}")
            room.kill()
        check("isn't in the configuration" not in room.log(), room.log())
    return "as it was told last"


def many_kept_jobs():
    """A start with 1,000 kept jobs of 64 KiB that have room: how long it takes until it listens and answers."""
    config = CONFIG.replace("pages = 256", "pages = 20000").replace("max_jobs = 64", "max_jobs = 1024").replace("limit = 128", "limit = 64")
    with Room(config=config) as room:
        os.mkfifo(f"{room.folder}/printer-1")
        room.start()

        def client(number):
            for job in range(125):
                if send(room.port, job, b"x" * 65_536, host=f"127.0.2.{number + 1}") != 0:
                    raise AssertionError(f"job {job} of {number}: {room.log()[-300:]}")

        threads = [threading.Thread(target=client, args=(number,)) for number in range(8)]
        for thread in threads:
            thread.start()
        for thread in threads:
            thread.join()
        room.kill()
        # The first one may have gone into the pipe.
        check(len(room.files("job")) >= 999, len(room.files("job")))
        start = time.monotonic()
        room.start()
        with contextlib.closing(connect(room.port)) as peer:
            peer.sendall(b"\x03lp\n")
            check(peer.recv(100), "no answer")
        took = time.monotonic() - start
        check(took < 3, f"{took:.2f} s")
        return f"{took:.2f} s"


@contextlib.contextmanager
def small_disk(path, megabytes):
    os.makedirs(path, exist_ok=True)
    subprocess.run(["mount", "-t", "tmpfs", "-o", f"size={megabytes}m", "tmpfs", path], check=True, stderr=subprocess.DEVNULL)
    try:
        yield
    finally:
        subprocess.run(["umount", "-l", path], check=False, stderr=subprocess.DEVNULL)


def a_full_disk():
    """A job that finds no room on the disk is answered by 02; the others are printed, and the server goes on."""
    with Room() as room, small_disk(room.kept, 1):
        room.start()
        check(send(room.port, 1, b"a" * 100_000) == 0, "a small one is taken")
        octet = send(room.port, 2, b"b" * 500_000)
        room.await_files(0)
        with open(f"{room.kept}/filler", "wb") as file:
            with contextlib.suppress(OSError):
                file.write(b"x" * (1 << 20))
        full = send(room.port, 3, b"c" * 300_000)
        check(full == 2, f"answered by {full}")
        os.remove(f"{room.kept}/filler")
        check(send(room.port, 4, b"d") == 0, "it goes on")
        room.await_files(0)
        check(b"c" not in room.printed() and b"d" in room.printed(), "other octets")
        check("isn't kept" in room.log(), room.log())
        # One line tells of it, and none that the job isn't open behind that.
        check("NotOpen" not in room.log(), room.log())
        return f"{octet}, then {full}; the log: {room.log().strip().splitlines()[-1][-90:]}"


def a_read_only_disk():
    """A folder on a disk that is read-only is a fault at the start."""
    with Room() as room, small_disk(room.kept, 4):
        subprocess.run(["mount", "-o", "remount,ro", room.kept], check=True)
        told = subprocess.run(room.line(), capture_output=True, text=True, timeout=10)
        check(told.returncode == 4 and told.stderr.splitlines()[-1] == f"fault 73 WriteFile {room.kept}", told)
        return told.stderr.splitlines()[-1]


def a_folder_that_goes_away():
    with Room() as room:
        room.start()
        check(send(room.port, 1, b"a") == 0, "it is taken")
        room.await_files(0)
        os.rename(room.kept, f"{room.folder}/elsewhere")
        octet = send(room.port, 2, b"b")
        check(octet == 2, f"answered by {octet}")
        os.rename(f"{room.folder}/elsewhere", room.kept)
        check(send(room.port, 3, b"c") == 0, "it goes on")
        room.await_files(0)
        check(room.printed() == b"ac", room.printed())
        return "02 while it is away"


def stopped_now_amid_a_job():
    """`stop now` in the middle of a job at a network printer: the next start prints it."""
    listener = socket.socket()
    listener.bind(("127.0.0.1", 0))
    listener.listen(4)
    place = f"socket://127.0.0.1:{listener.getsockname()[1]}"
    with Room("--printer", f"1={place}") as room:
        room.start()
        check(send(room.port, 1, b"n" * 400_000) == 0, "it is taken")
        peer, _ = listener.accept()
        check(peer.recv(10), "it begins")
        told = room.tell("stop", "now")
        check("1 jobs wait in the folder for the next start" in told, told)
        room.server.wait(10)
        peer.close()
        check(len(room.files("job")) == 1 and not room.files("failed"), room.files("*"))
        check("is lost" not in room.log(), room.log())
        room.start()
        peer, _ = listener.accept()
        octets = b""
        while piece := peer.recv(65536):
            octets += piece
        peer.close()
        check(octets == b"n" * 400_000, len(octets))
        room.await_files(0)
        return "it was printed after the next start"


def stopped_now_amid_a_pipe():
    """`stop now` in the middle of a job at a pipe that nobody reads: the log tells that its page wasn't taken in time, nothing has failed, and the next start prints it."""
    with Room() as room:
        os.mkfifo(f"{room.folder}/printer-1")
        room.start()
        check(send(room.port, 1, b"n" * 200_000) == 0, "it is taken")
        for _ in range(100):
            if " is at printer 1\n" in room.tell("status"):
                break
            time.sleep(0.05)
        time.sleep(0.5)
        told = room.tell("stop", "now")
        check("1 jobs wait in the folder for the next start" in told, told)
        room.server.wait(10)
        lines = re.findall(r"\[WARN  lpd_daemon::printing\] printer 1: (.*)", room.log())
        check(len(lines) == 1 and re.fullmatch(r"job 1, place \d+: timed out", lines[0]), lines)
        check(len(room.files("job")) == 1 and not room.files("failed"), room.files("*"))
        room.start()
        octets = b""
        with open(f"{room.folder}/printer-1", "rb") as pipe:
            while len(octets) < 200_000:
                octets += pipe.read1(65536)
        check(octets == b"n" * 200_000, len(octets))
        room.await_files(0)
        return "it was printed after the next start"


SCENES = [killed_once, a_second_server, a_failed_job_is_sent_again, a_job_is_removed, files_that_are_no_jobs, changed_files_are_not_printed,
          whole_files_of_any_length, a_stopped_queue_has_none_in_the_spool, files_that_change_while_they_wait, a_hold_s_file_is_made_anew, a_full_disk,
          a_read_only_disk, a_folder_that_goes_away, stopped_now_amid_a_job, stopped_now_amid_a_pipe, many_kept_jobs, killed_at_random]


if __name__ == "__main__":
    sys.exit(main(SCENES, __doc__, measured=[many_kept_jobs]))
