#!/usr/bin/env python3
"""Whole days of a server, of which each text is known: days.py PROGRAM [SCENE..], where PROGRAM is the built lpd_server.

A day is a server in a folder of its own that clients, printers and somebody at its control socket do one thing after another to. Whatever it tells at each step (answers,
lines of the log, `status`, the page, /metrics, what was printed) has to be the text that stands in `days/DAY.txt`, but for times and ports. With WRITE=1 in the environment
these texts are written anew: then read the difference. A line says what was seen; the last line is 'N passed, M failed'."""
import contextlib
import difflib
import html
import itertools
import os
import re
import socket
import subprocess
import sys
import tempfile
import time
import urllib.request

from client import Collector, Pipe, answer, ask, begin, connect, control, finish, free_port, send
from keeping import small_disk
from scene import PROGRAM, check, main
from scraping import Clock

TEXTS = os.path.join(os.path.dirname(os.path.abspath(__file__)), "days")
WRITES = bool(os.environ.get("WRITE"))
# How long a text may take to come to what it has to be, in seconds.
PATIENCE = float(os.environ.get("PATIENCE", "15"))
CONFIG = """pages = 64
page_size = 1024
max_jobs = 16
account = 400000
"""


def queue(name, limit, printers=1):
    return f'[[queue]]\nname = "{name}"\nlimit = {limit}\nprinters = {printers}\n'


class Day:
    """A server, what is asked of it, and the texts that it has to tell."""

    def __init__(self, name, config, *words):
        self.name, self.words = name, words
        self.room = tempfile.TemporaryDirectory()
        self.folder = self.room.name
        self.port, self.board = free_port(), free_port()
        self.known = [(str(self.port), "PORT"), (str(self.board), "BOARD"), (self.folder, "DIR")]
        self.seen, self.told, self.read, self.was = [], {}, 0, {}
        self.server = None
        # A clock that is set by hand: then times are told as they are.
        self.clock = None
        if not WRITES:
            with open(f"{TEXTS}/{name}.txt") as file:
                for part in file.read().split("\n## ")[1:]:
                    title, _, text = part.partition("\n")
                    self.told[title] = text.strip("\n")
        with open(f"{self.folder}/spool.toml", "w") as file:
            file.write(config)

    def start(self, *words):
        line = [PROGRAM, "serve", f"{self.folder}/spool.toml", "--port", str(self.port), "--out", self.folder, "--control", f"{self.folder}/control",
                "--status", str(self.board), "--log-jobs", *self.words, *words]
        self.server = subprocess.Popen(line, stdin=subprocess.DEVNULL, stdout=open(f"{self.folder}/said", "ab"), stderr=open(f"{self.folder}/log", "ab"),
                                       env=self.clock.environment if self.clock else None)
        for _ in range(600):
            with contextlib.suppress(OSError):
                connect(self.board).close()
                return
            check(self.server.poll() is None, f"the server ended: {self.text_of('log')[-600:]}")
            time.sleep(0.02)
        raise AssertionError("nothing listens")

    def text_of(self, name):
        return open(f"{self.folder}/{name}", "rb").read().decode(errors="replace")

    def plain(self, text):
        """A text without what differs from day to day: ports, the folder, times, digests."""
        for word, name in self.known:
            text = text.replace(word, name)
        text = re.sub(r"(127\.0\.\d+\.\d+):\d{4,5}\b", r"\1:N", text)
        text = re.sub(r"\b[0-9a-f]{64}\b", "DIGEST", text)
        if not self.clock:
            text = re.sub(r"(?m)^(uptime|session \S+ silent|printer \d+ \S+ (?:stopped|unreached|putoff)) \d+", r"\1 S", text)
        # (a job that ended before its session went on has no file in the line that tells that it came)
        text = re.sub(r"\b(in [\d.]+ s)\b( file \d+$)?", r"\1" if self.clock else "in S s", text, flags=re.M)
        return text.strip("\n")

    def tell(self, title, text):
        """What was told just now has to be this step's text."""
        text = self.plain(text)
        self.seen.append((title, text))
        if not WRITES:
            self.compare(title, text)

    def compare(self, title, text):
        check(title in self.told, f"{self.name}.txt has no {title!r}")
        if text != (due := self.told[title]):
            lines = difflib.unified_diff(due.split("\n"), text.split("\n"), "due", "seen", "", "", 0, "")
            raise AssertionError(f"{title}: " + " | ".join(list(lines)[2:14]))

    def await_text(self, title, read):
        """What this reads comes to be this step's text."""
        if WRITES:
            time.sleep(1.5)
            return self.tell(title, read())
        end = time.monotonic() + PATIENCE
        while self.plain(text := read()) != self.told.get(title) and time.monotonic() < end:
            time.sleep(0.1)
        return self.tell(title, text)

    # What there is to be read.

    def log(self, title):
        """The lines of the log since the last step that looked at it. Those of several threads have no order."""
        def lines():
            return "\n".join(sorted(self.plain(self.text_of("log")[self.read:]).splitlines()))
        self.await_text(f"log: {title}", lines)
        self.read = len(self.text_of("log"))

    def status(self, title):
        self.await_text(f"status: {title}", lambda: self.ran("control", f"{self.folder}/control", "status"))

    def lpq(self, title, line):
        self.await_text(f"lpq: {title}", lambda: ask(self.port, line)[0].decode(errors="replace"))

    def page(self, title):
        """The page, and its tags, each on a line: what is other than when it was looked at last."""
        self.await_changes("page", title, lambda: words_of(self.fetched("/"), self.clock))

    def metrics(self, title):
        """What is other at /metrics than when it was looked at last."""
        self.await_changes("metrics", title, lambda: self.fetched("/metrics") if self.clock else measured(self.fetched("/metrics")))

    def await_changes(self, what, title, read):
        """What this reads comes to be as it was when it was read last but for this step's text."""
        was = self.was.get(what, "").split("\n")

        def changes():
            self.last = self.plain(read())
            lines = difflib.unified_diff(was, self.last.split("\n"), "", "", "", "", 0, "")
            return "\n".join(line for line in list(lines)[2:] if not line.startswith("@@"))
        self.await_text(f"{what}: {title}", changes)
        self.was[what] = self.last

    def seen_all(self, title):
        """How all stands, as it is told everywhere."""
        self.status(title)
        self.page(title)
        self.metrics(title)

    def await_status(self, title, words):
        """The status has these words."""
        end = time.monotonic() + PATIENCE
        while words not in self.ran("control", f"{self.folder}/control", "status"):
            check(time.monotonic() < end, f"{title}: the status hasn't {words!r}")
            time.sleep(0.05)

    def await_log(self, words, seconds=40):
        """The log has these words."""
        end = time.monotonic() + seconds
        while words not in self.text_of("log")[self.read:]:
            check(time.monotonic() < end, f"the log hasn't {words!r}: {self.text_of('log')[self.read:][-600:]}")
            time.sleep(0.05)

    def said_all(self, title):
        self.await_text(f"output: {title}", lambda: self.text_of("said"))

    def fetched(self, path):
        request = urllib.request.Request(f"http://127.0.0.1:{self.board}{path}", headers={"Host": f"127.0.0.1:{self.board}"})
        with urllib.request.urlopen(request, timeout=30) as told:
            return told.read().decode()

    def ran(self, *words):
        ran = subprocess.run([PROGRAM, *words], stdin=subprocess.DEVNULL, stdout=subprocess.PIPE, stderr=subprocess.STDOUT, text=True, timeout=60)
        return ran.stdout + f"(status {ran.returncode})"

    def control(self, *words):
        """A command at the control socket, and its answer."""
        self.tell("control: " + self.plain(" ".join(words)) + self.again(" ".join(words)), self.ran("control", f"{self.folder}/control", *words))

    def again(self, words):
        """A mark for a command that was given before."""
        count = sum(title.startswith(f"control: {words}") for title, _ in self.seen)
        return f" ({count + 1})" if count else ""

    def send(self, number, octets, *where, due=0, **how):
        check((taken := send(self.port, number, octets, *where, **how)) == due, f"job {number} is answered by {taken}")

    def runs(self, title, *words):
        """The program with these words, and all that it tells."""
        self.tell(f"run: {title}", self.ran(*words))

    def said(self, title, line):
        """What a peer is answered to a line, as octets."""
        with contextlib.closing(connect(self.port)) as peer:
            peer.sendall(line)
            peer.shutdown(socket.SHUT_WR)
            octets = b""
            while piece := peer.recv(65536):
                octets += piece
        self.tell(f"answer: {title}", repr(octets))

    def files(self, title, folder):
        self.await_text(f"files: {title}", lambda: "\n".join(sorted(os.listdir(f"{self.folder}/{folder}"))))

    def printed(self, title, name):
        def read():
            with contextlib.suppress(FileNotFoundError):
                return self.text_of(name)
            return "nothing"
        self.await_text(f"printed: {title}", read)

    def ends(self, title, *words):
        """It stops at this command: the command's status, its own, and what it said all day."""
        told = self.ran("control", f"{self.folder}/control", *words)
        status = self.server.wait(30)
        self.tell(f"end: {title}", f"{told}\n{status}\n{self.text_of('said')}")

    def __enter__(self):
        return self

    def __exit__(self, fault, *_):
        if self.server and self.server.poll() is None:
            self.server.kill()
            self.server.wait()
        self.room.cleanup()
        if WRITES:
            os.makedirs(TEXTS, exist_ok=True)
            with open(f"{TEXTS}/{self.name}.txt", "w") as file:
                file.write(f"What the day `{self.name}` of {os.path.basename(sys.argv[0])} has to tell, step by step.\n")
                file.writelines(f"\n## {title}\n{text}\n" for title, text in self.seen)


def words_of(page, has_times):
    """A page as lines: its tags with what stands in them, and each text, without times where it isn't to have them."""
    page = re.sub(r"<style>.*?</style>", "", page, flags=re.S)
    # (curves of the last hour are there once a minute has passed, and what they were drawn of is looked at beside all else)
    page = re.sub(r"<section[^>]*>(?:(?!</section>).)*Jobs printed a minute.*?</section>", "", page, flags=re.S)
    page = re.sub(r"<h3>Pages in use, the last hour</h3>(?:(?!</section>).)*", "", page, flags=re.S)
    page = re.sub(r"</[^>]*>", "\n", page)
    page = re.sub(r"<([^>]*)>", r"\n<\1>\n", page)
    if not has_times:
        page = re.sub(r"\b\d+ (s|min|h)\b( \d+ min\b)?", "T", page)
    lines = [line.strip() for line in html.unescape(page).split("\n")]
    return "\n".join(line for line in lines if line)


def measured(text):
    """What /metrics tells, without times: how many there were of each, and not how long."""
    lines = [line for line in text.split("\n") if "_seconds_bucket" not in line or "+Inf" in line]
    return re.sub(r"(?m)^(\w+_seconds(_sum)?(\{.*\})?) [\d.]+$", r"\1 T", "\n".join(lines))


def job(port, number, user, files, queue="lp", host="127.0.0.1", name=None):
    """Sends a job of a user with these files, the control file last. Answers the first octet that isn't 00, or 0 where all are."""
    lines = [f"Hh{number}", f"P{user}"] + ([f"J{name}"] if name else [])
    lines += [f"fdf{chr(65 + at)}{number:03}h{number}" for at in range(len(files))]
    text = "".join(f"{line}\n" for line in lines).encode()
    pieces = [b"\x02" + queue.encode() + b"\n"]
    for at, octets in enumerate(files):
        pieces += [f"\x03{len(octets)} df{chr(65 + at)}{number:03}h{number}\n".encode(), octets + b"\0"]
    pieces += [f"\x02{len(text)} cfA{number:03}h{number}\n".encode(), text + b"\0"]
    with contextlib.closing(connect(port, host)) as peer:
        for piece in pieces:
            peer.sendall(piece)
            if (octet := answer(peer)) != 0:
                return octet
    return 0


def in_memory():
    """A day of a server that keeps its jobs in memory: five queues, jobs that are held, asked for, removed and printed, printers that fail, halt and aren't reached, peers
    that are refused, and a stop that loses jobs."""
    net = free_port()
    config = CONFIG + queue("lp", 8) + queue("plotter", 16) + queue("net", 8) + queue("bad", 4) + queue("box", 8) + queue("two", 4, 2)
    words = ("--printer", f"3=socket://127.0.0.1:{net}", "--printer", "5=folder:BOX", "--sessions", "4")
    with Day("memory", config, *words) as it:
        it.words = tuple(word.replace("BOX", f"{it.folder}/box") for word in words)
        it.known.append((str(net), "NET"))
        os.mkdir(f"{it.folder}/box")
        os.symlink("/dev/full", f"{it.folder}/printer-4")
        pipe = Pipe(f"{it.folder}/printer-2")
        it.start()
        it.log("the start")
        it.seen_all("the start")

        # what is printed at once
        check(job(it.port, 1, "ann", [b"first\n" * 100], host="127.0.0.2") == 0, "job 1")
        it.log("a job is printed")
        it.printed("a job", "printer-1")
        check(job(it.port, 2, "bob", [b"a" * 1500, b"b" * 1024], "box", host="127.0.0.3") == 0, "job 2")
        it.log("a job of two files is printed into a folder")
        it.files("the folder", "box")
        it.seen_all("two are printed")

        # a queue that is held
        it.control("hold", "lp")
        it.control("hold", "lp")
        for number, user, host, octets in ((3, "ann", 2, [b"x" * 10]), (4, "bob", 3, [b"y" * 3000, b"z" * 5]), (5, "ann", 2, [b"w" * 2048]), (6, "cy", 4, [b"v"])):
            check(job(it.port, number, user, octets, host=f"127.0.0.{host}", name="letter") == 0, f"job {number}")
        it.log("four come to a held queue")
        it.seen_all("a queue is held")
        for title, line in (("short", b"\x03lp\n"), ("long", b"\x04lp\n"), ("of a user", b"\x03lp ann\n"), ("of a number", b"\x04lp 4\n"), ("of none", b"\x03lp 77\n"),
                            ("no queue", b"\x03nowhere\n")):
            it.lpq(title, line)
        it.said("lprm of another's", b"\x05lp ann 4\n")
        it.said("lprm of one's own", b"\x05lp bob 4\n")
        it.control("remove", "lp", "ann")
        it.control("remove", "lp", "8")
        it.control("remove", "lp", "6")
        it.control("remove", "nowhere", "6")
        for words in (("cancel", "job", "77"), ("cancel", "file", "1"), ("resend", "1"), ("resend", "all"), ("start", "lp"), ("start", "nowhere"), ("hold", "nowhere"),
                      ("release", "nowhere")):
            it.control(*words)
        check(job(it.port, 7, "dan", [b"u" * 3000]) == 0, "job 7")
        it.control("rotate")
        it.control("cancel", "job", "7")
        it.control("release", "lp")
        it.control("release", "lp")
        it.log("removals")
        it.seen_all("all are removed")
        it.control("rotate")
        it.log("a rotation")
        it.said_all("a rotation")

        # a printer that fails
        check(job(it.port, 8, "eve", [b"t" * 2000], "bad") == 0, "job 8")
        it.log("a printer fails")
        check(job(it.port, 9, "eve", [b"s" * 2000], "bad") == 0, "job 9")
        it.lpq("behind a printer that failed", b"\x04bad\n")
        it.seen_all("a printer has failed")
        it.control("release", "bad")
        it.control("start", "bad")
        it.log("it fails again")
        it.said("a start by the protocol", b"\x01bad\n")
        it.seen_all("it has failed again")

        # a pipe that nobody reads, and one that comes
        check(job(it.port, 10, "fay", [b"p" * 8192], "plotter", host="127.0.0.5") == 0, "job 10")
        it.await_status("the pipe is full", " prints ")
        for number, user, host in ((11, "fay", 5), (12, "gus", 6)):
            check(job(it.port, number, user, [b"q" * 1024], "plotter", host=f"127.0.0.{host}") == 0, f"job {number}")
        with contextlib.closing(begin(it.port, 13, 5000, b"r" * 2500, "plotter", "127.0.0.7")) as peer:
            it.seen_all("a pipe is full, and a job comes")
            it.lpq("a pipe is full", b"\x04plotter\n")
            check(finish(peer, 13, b"r" * 2500) == 0, "job 13")
        it.control("cancel", "job", "12")
        it.control("remove", "plotter", "fay")
        pipe.read()
        it.log("the pipe is read")
        it.tell("octets of the pipe", " ".join(f"{len(list(run))}{letter}" for letter, run in itertools.groupby(pipe.octets.decode())))
        it.seen_all("the pipe is read")

        # a pool that is full
        it.control("hold", "plotter")
        for number in (14, 15, 16):
            check(job(it.port, number, "hal", [b"m" * 16384], "plotter", host="127.0.0.8") == 0, f"job {number}")
        with contextlib.closing(begin(it.port, 17, 4000, b"o" * 3000, "lp", "127.0.0.9")):
            it.await_status("a job comes", " 3 of 4 pages came")
            with contextlib.closing(begin(it.port, 18, 16384, b"n" * 16000, "plotter", "127.0.0.10")):
                it.seen_all("the pool is full")
        it.log("the pool was full")
        it.control("remove", "plotter", "hal")
        it.control("release", "plotter")

        # a printer that isn't reached
        check(job(it.port, 19, "ida", [b"k" * 1500], "net", host="127.0.0.11") == 0, "job 19")
        it.log("a printer isn't reached")
        it.seen_all("a printer isn't reached")
        printer = Collector(net)
        it.log("it is reached")
        check([len(octets) for octets in printer.jobs] == [1500], f"{len(printer.jobs)} jobs came")
        it.seen_all("it is reached")

        # what peers get wrong
        for title, octets in PEERS:
            it.said(title, octets)
        it.log("what peers got wrong")
        it.seen_all("what peers got wrong")
        check(job(it.port, 20, "jo", [b"h" * 4000], "two") == 0, "job 20")
        it.await_text("the last page goes", lambda: it.ran("state", str(it.port), "two"))

        it.control("hold", "lp")
        check(job(it.port, 21, "kim", [b"g" * 5000]) == 0, "job 21")
        it.ends("jobs are lost", "stop")
        it.log("the end")
    return "as it has to be"


def kept():
    """Two days of a server that keeps its jobs in a folder, and its account in another: jobs that wait there, are removed, fail and are sent again, a printer that isn't reached,
    a start over files that are broken, a kill; and what is read of the folders when no server runs."""
    net = free_port()
    config = CONFIG + queue("lp", 8) + queue("plotter", 16) + queue("net", 8) + queue("bad", 4)
    with Day("kept", config) as it:
        spool, account = f"{it.folder}/spool", f"{it.folder}/account"
        it.words = ("--spool", spool, "--account", account, "--keep-room", "--sessions", "4", "--printer", f"1=file:{it.folder}/one", "--printer", f"2=file:{it.folder}/two",
                    "--printer", f"3=socket://127.0.0.1:{net}", "--printer", f"4=file:{it.folder}/full")
        it.known.append((str(net), "NET"))
        os.symlink("/dev/full", f"{it.folder}/full")
        checks = ("check", f"{it.folder}/spool.toml", "--spool", spool, "--account", account, "--control", f"{it.folder}/control", "--out", it.folder)
        it.runs("check before", *checks)
        it.start()
        it.log("the start")
        it.files("the folder", "spool")
        it.seen_all("the start")
        it.runs("check amid", *checks)
        check(job(it.port, 1, "ann", [b"first\n"], host="127.0.0.2") == 0, "job 1")
        it.log("a job is printed")
        it.files("a job is printed", "spool")

        # a queue that is held: its jobs wait in the folder
        it.control("hold", "lp")
        it.tell("the file of holds", it.text_of("spool/held"))
        for number, user, host, octets in ((2, "ann", 2, [b"x" * 10]), (3, "bob", 3, [b"y" * 3000, b"z" * 5]), (4, "ann", 2, [b"w" * 2048]), (5, "cy", 4, [b"v"]),
                                           (6, "dan", 5, [b"u" * 1024]), (7, "eve", 6, [b"t" * 1025]), (8, "ann", 2, [b"s" * 7])):
            check(job(it.port, number, user, octets, host=f"127.0.0.{host}", name="letter") == 0, f"job {number}")
        it.log("seven come to a held queue")
        it.files("seven wait", "spool")
        it.seen_all("seven wait")
        for title, line in (("short", b"\x03lp\n"), ("long", b"\x04lp\n"), ("of a user", b"\x03lp ann\n"), ("of a number", b"\x04lp 3\n")):
            it.lpq(title, line)
        it.said("lprm of another's", b"\x05lp ann 3\n")
        it.said("lprm of one's own", b"\x05lp bob 3\n")
        it.control("remove", "lp", "dan")
        it.control("remove", "lp", "7")
        it.control("cancel", "file", "5")
        it.control("cancel", "file", "5")
        it.control("cancel", "file", "77")
        it.control("resend", "2")
        it.control("resend", "77")
        it.control("resend", "all")
        it.log("removals")
        it.files("three wait", "spool")
        it.seen_all("three wait")

        # a printer that fails
        check(job(it.port, 9, "fay", [b"r" * 2000], "bad", host="127.0.0.7") == 0, "job 9")
        it.log("a printer fails")
        check(job(it.port, 10, "fay", [b"r" * 2000], "bad", host="127.0.0.7") == 0, "job 10")
        it.files("one has failed", "spool")
        it.seen_all("one has failed")
        it.control("start", "bad")
        it.log("it fails again")
        it.files("two have failed", "spool")
        it.control("resend", "9")
        it.control("resend", "all", "lp")
        it.control("resend", "all", "bad")
        it.control("resend", "all", "nowhere")
        it.lpq("two wait at a stopped printer", b"\x03bad\n")
        it.seen_all("two are sent again")
        it.log("two are sent again")

        # a printer that isn't reached
        check(job(it.port, 12, "gus", [b"q" * 1500], "net", host="127.0.0.8") == 0, "job 12")
        it.log("a printer isn't reached")
        check(job(it.port, 13, "hal", [b"q" * 1500], "net", host="127.0.0.9") == 0, "job 13")
        it.seen_all("a printer isn't reached")
        it.lpq("a printer isn't reached", b"\x04net\n")
        printer = Collector(net)
        it.await_text("jobs over the network", lambda: " ".join(str(len(octets)) for octets in printer.jobs))
        it.log("it is reached")
        it.seen_all("it is reached")
        it.control("cancel", "file", "10")
        it.control("rotate")
        it.log("a rotation")
        it.files("a segment", "account")
        it.ends("the first day", "stop")
        it.log("the first day's end")
        it.files("the first day's end", "spool")
        it.runs("check between", *checks)

        # what is wrong in the folder between two days
        octets = open(f"{spool}/4.job", "rb").read()
        for name, text in (("4.job", octets.replace(b"w", b"W", 1)), ("20.job", octets[:-9]), ("21.tmp", octets), ("22.job", b""), ("held", b"lp\nnowhere\n"), ("notes", b"x"),
                           ("99999999999999999999.job", b"x"), ("18446744073709551615.job", b"x"), ("23.failed", octets.replace(b"lp", b"xx")),
                           ("24.job", octets.replace(b"hurgwaye 1", b"hurgwaye 2", 1)), ("25.failed", octets.replace(b"hurgwaye 1", b"hurgwaye 2", 1))):
            with open(f"{spool}/{name}", "wb") as file:
                file.write(text)
        it.runs("check of a folder that is broken", *checks)
        it.start()
        it.log("the second start")
        it.files("the second start", "spool")
        it.seen_all("the second start")
        check(job(it.port, 14, "ida", [b"p" * 30], host="127.0.0.10") == 0, "job 14")
        os.unlink(f"{spool}/8.job")
        it.seen_all("a file was taken away")
        it.log("a file was taken away")
        it.control("release", "lp")
        it.log("the queue is released")
        it.printed("the queue is released", "one")
        it.files("the queue is released", "spool")
        it.seen_all("the queue is released")
        it.ends("the second day", "stop", "now")
        it.log("the second day's end")

        segments = sorted(f"{account}/{name}" for name in os.listdir(account) if name.startswith("segment-"))
        it.files("segments", "account")
        it.runs("audit", "audit", *segments)
        it.runs("audit of what was printed", "audit", *segments, "--printed", f"1={it.folder}/one", "--printed", f"2={it.folder}/two")
        for grouping in ("user", "host", "queue"):
            it.runs(f"usage by {grouping}", "usage", *segments, "--by", grouping)
        it.runs("usage as a table", "usage", *segments, "--csv")
    return "as they have to be"


def by_the_clock():
    """A day of which the clock is set by hand, so that each time is told as it is: of jobs that wait, of printers that fail and are started again, aren't reached or take nothing,
    of peers that are silent or slow, of the last hour, and of a stop that waits for a while."""
    net = free_port()
    config = CONFIG + queue("lp", 8) + queue("plotter", 16) + queue("net", 8) + queue("bad", 4)
    words = ("--printer", f"3=socket://127.0.0.1:{net}", "--restart", "20", "--patience", "30", "--slowest", "100", "--sessions", "4")
    with Clock() as clock, Day("clock", config, *words) as it:
        it.clock = clock
        it.known.append((str(net), "NET"))
        os.symlink("/dev/full", f"{it.folder}/printer-4")
        pipe = Pipe(f"{it.folder}/printer-2")

        def at(seconds, title):
            """The clock is set, and all that looks at it has looked."""
            clock.set(seconds)
            time.sleep(0.8)
            it.seen_all(f"{title}, at {seconds} s")

        it.start()
        it.log("the start")
        at(0, "the start")
        at(3, "a moment later")
        check(job(it.port, 1, "ann", [b"first\n" * 100], host="127.0.0.2") == 0, "job 1")
        it.log("a job is printed")
        it.control("hold", "lp")
        clock.set(10)
        check(job(it.port, 2, "ann", [b"x" * 3000], host="127.0.0.2") == 0, "job 2")
        at(69, "a job waits")
        at(70, "a job waits for a minute")
        it.lpq("a job waits", b"\x04lp\n")
        it.log("a job waits")

        # a queue that is started again, each time later
        clock.set(100)
        check(job(it.port, 3, "bob", [b"y" * 2000], "bad", host="127.0.0.3") == 0, "job 3")
        it.log("a printer fails")
        check(job(it.port, 4, "bob", [b"y" * 1000], "bad", host="127.0.0.3") == 0, "job 4")
        at(119, "before it is started again")
        it.log("before it is started again")
        at(120, "it is started again")
        it.log("it is started again")
        check(job(it.port, 5, "bob", [b"y" * 10], "bad", host="127.0.0.3") == 0, "job 5")
        at(159, "before the second time")
        it.log("before the second time")
        at(160, "the second time")
        it.log("the second time")
        at(161, "behind the second time")

        # a printer that isn't reached
        clock.set(200)
        check(job(it.port, 6, "cy", [b"z" * 1500], "net", host="127.0.0.4") == 0, "job 6")
        it.log("a printer isn't reached")
        at(221, "another has stood still for a minute")
        it.log("another has stood still for a minute")
        at(240, "that one's queue is started again")
        it.log("that one's queue is started again")
        clock.set(290)
        # (the pauses between two tries pass by another clock)
        it.await_log("hasn't been reached for 90 s")
        it.log("it isn't reached for more than a minute")
        at(291, "it isn't reached")
        it.lpq("it isn't reached", b"\x04net\n")
        clock.set(320)
        printer = Collector(net)
        it.await_log(" done in 120.00 s")
        it.log("it is reached")
        check([len(octets) for octets in printer.jobs] == [1500], f"{len(printer.jobs)} jobs came")
        at(325, "it is reached")

        # a pipe that nobody reads
        clock.set(500)
        check(job(it.port, 7, "dan", [b"p" * 8192], "plotter", host="127.0.0.5") == 0, "job 7")
        it.await_status("the pipe is full", " prints ")
        check(job(it.port, 8, "dan", [b"q" * 1024], "plotter", host="127.0.0.5") == 0, "job 8")
        at(559, "a pipe is full")
        it.log("a pipe is full, for less than a minute")
        at(560, "a pipe is full")
        it.log("a pipe is full, for a minute")
        at(1_099, "a pipe is full")
        it.log("a pipe is full, for less than ten minutes")
        at(1_100, "a pipe is full")
        it.log("a pipe is full, for ten minutes")
        pipe.read()
        it.log("the pipe is read")
        at(1_110, "the pipe is read")

        # peers that are silent, and slow
        with contextlib.closing(begin(it.port, 9, 9000, b"r" * 4000, "plotter", "127.0.0.6")) as slow, contextlib.closing(connect(it.port, "127.0.0.7")) as silent:
            it.await_status("one has come", "session 127.0.0.6:")
            clock.set(1_112)
            silent.sendall(b"\x02lp\n")
            check(answer(silent) == 0, "a queue isn't taken")
            at(1_149, "two peers are silent")
            clock.set(1_150)
            slow.sendall(b"r" * 10)
            time.sleep(0.5)
            at(1_150, "one says something")
            it.log("peers, before a minute")
            clock.set(1_171)
            slow.sendall(b"r" * 3_000)
            time.sleep(0.5)
            at(1_172, "one has sent enough")
            it.log("one has sent enough")
            clock.set(1_232)
            slow.sendall(b"r" * 10)
            time.sleep(0.5)
            at(1_233, "one was too slow")
            it.log("one was too slow")
        at(1_240, "both have gone")
        it.log("both have gone")
        at(4_000, "an hour later")
        it.control("rotate")
        it.control("release", "lp")
        it.log("the queue is released")
        it.control("rotate")
        at(90_100, "a day later")
        it.log("a day later")

        # a stop that waits for a while
        check(job(it.port, 10, "dan", [b"p" * 8192], "plotter", host="127.0.0.5") == 0, "job 10")
        it.await_status("the pipe is full", " prints ")
        it.log("a last job")
        with contextlib.closing(connect(it.port, "127.0.0.7")) as peer:
            peer.sendall(b"\x02lp\n")
            check(answer(peer) == 0, "a queue isn't taken")
            asked = subprocess.Popen([PROGRAM, "control", f"{it.folder}/control", "stop", "40"], stdout=subprocess.PIPE, text=True)
            it.await_status("a stop is asked for", "spool stops")
            at(90_139, "a stop waits")
            check(asked.poll() is None and it.server.poll() is None, "it doesn't wait")
            it.log("a stop waits")
            # (its end has times of its own)
            for second in range(90_140, 90_159):
                clock.set(second)
                with contextlib.suppress(subprocess.TimeoutExpired):
                    it.server.wait(0.3)
                    break
            check(it.server.poll() == 0, f"it doesn't end: {it.server.poll()}")
            told = asked.communicate(timeout=30)[0]
        it.tell("the stop", told)
        it.said_all("all day")
        it.log("the end")
    return "as it has to be"


def on_a_disk_that_is_read_only():
    """A day of a server whose folders lie on a disk that becomes read-only for a while: jobs that wait are removed, cancelled, sent again, printed, and come, queues are held and
    released, the account is rotated; and then all that once more, when the disk takes what is written."""
    config = CONFIG + queue("lp", 8) + queue("plotter", 16) + queue("bad", 4) + queue("box", 4)
    with Day("read_only", config) as it, small_disk(f"{it.folder}/disk", 4), contextlib.ExitStack() as over:
        spool, account = f"{it.folder}/disk/spool", f"{it.folder}/disk/account"
        it.words = ("--spool", spool, "--account", account, "--keep-room", "--sessions", "4", "--printer", f"1=file:{it.folder}/one", "--printer", f"2=file:{it.folder}/two",
                    "--printer", f"3=file:{it.folder}/full", "--printer", f"4=folder:{it.folder}/disk/box")
        os.makedirs(f"{it.folder}/disk/box")
        os.symlink("/dev/full", f"{it.folder}/full")

        def mounted(how):
            """The disk takes what is written, or nothing more: then the same lies over it, which is read-only, since files of it are open."""
            disk = f"{it.folder}/disk"
            if how == "rw":
                return over.close()
            subprocess.run(["mount", "--bind", disk, disk], check=True)
            over.callback(lambda: subprocess.run(["umount", "-l", disk], check=True))
            subprocess.run(["mount", "-o", "remount,ro,bind", disk], check=True)

        def commands(label):
            """What is asked for whether the disk takes it or not."""
            for words in (("remove", "lp", "ann"), ("remove", "lp", "2"), ("cancel", "file", "3"), ("cancel", "file", "99"), ("cancel", "job", "99"), ("hold", "plotter"),
                          ("release", "plotter"), ("release", "box"), ("resend", "7")):
                it.control(*words)
            it.said(f"lprm, {label}", b"\x05lp bob 4\n")
            it.log(f"commands, {label}")
            for words in (("start", "bad"), ("resend", "all"), ("rotate",)):
                it.control(*words)
            it.log(f"more commands, {label}")
            it.files(f"commands, {label}", "disk/spool")

        it.start()
        it.log("the start")
        it.control("hold", "lp")
        for number, user in ((1, "ann"), (2, "bob"), (3, "cy"), (4, "bob"), (5, "dan"), (6, "eve")):
            check(job(it.port, number, user, [b"%d" % number * 1000], host=f"127.0.0.{number + 1}") == 0, f"job {number}")
        check(job(it.port, 7, "fay", [b"7" * 1000], "bad", host="127.0.0.8") == 0, "job 7")
        it.log("six wait, and one fails")
        it.files("six wait, and one has failed", "disk/spool")
        mounted("ro")
        commands("read-only")
        it.seen_all("read-only")
        check((due := job(it.port, 8, "gus", [b"8" * 1000], "plotter", host="127.0.0.9")) == 2, f"job 8 is answered by {due}")
        it.log("one comes, read-only")
        it.control("release", "lp")
        it.log("the queue is released, read-only")
        it.files("the queue is released, read-only", "disk/spool")
        it.printed("read-only", "one")
        it.seen_all("the queue is released, read-only")
        mounted("rw")
        it.await_log("segment-0000000001 run 1 segment 1 ")
        check(job(it.port, 9, "hal", [b"9" * 1000], "box", host="127.0.0.10") == 0, "job 9")
        it.log("the disk takes it")
        it.files("the disk takes it", "disk/spool")
        it.control("hold", "lp")
        for number, user in ((10, "ann"), (11, "bob"), (12, "cy")):
            check(job(it.port, number, user, [b"x" * 1000], host=f"127.0.0.{number + 1}") == 0, f"job {number}")
        commands("once it takes it")
        it.seen_all("once it takes it")
        mounted("ro")
        check((due := job(it.port, 13, "ida", [b"y" * 1000], "box", host="127.0.0.14")) == 2, f"job 13 is answered by {due}")
        it.log("one comes to a folder, read-only")
        it.ends("read-only", "stop")
        it.log("the end, read-only")
        mounted("rw")
        it.start()
        it.log("the next start")
        it.files("the next start", "disk/spool")
        it.seen_all("the next start")
        it.control("release", "lp")
        it.log("the queue is released")
        it.ends("the next day", "stop")
        it.log("the next day's end")
        it.files("the next day's end", "disk/spool")
        it.files("segments", "disk/account")
    return "as it has to be"


# What peers send that is refused, or asks for little.
PEERS = (
    ("an unknown queue", b"\x02nowhere\n"),
    ("no queue", b"\x02\n"),
    ("an unknown command", b"\x09lp\n"),
    ("nothing", b"\n"),
    ("a start of no queue", b"\x01nowhere\n"),
    ("a queue alone", b"\x02lp\n"),
    ("a bad length", b"\x02lp\n\x03x dfA001h\n"),
    ("a file that is too large", b"\x02lp\n\x03999999 dfA001h\n"),
    ("a file of nothing", b"\x02lp\n\x030 dfA001h\n"),
    ("a bad length of a control file", b"\x02lp\n\x02x cfA001h\n"),
    ("a control file that is too large", b"\x02lp\n\x02999999 cfA001h\n"),
    ("a control file of nothing", b"\x02lp\n\x020 cfA001h\n"),
    ("a name of no control file", b"\x02lp\n\x0210 dfA001h\n"),
    ("a long line", b"\x02" + b"l" * 3_000 + b"\n"),
    ("many words", b"\x03lp" + b" 1" * 300 + b"\n"),
    ("no octets behind a command", b"\x05\n"),
    ("a second queue", b"\x02lp\n\x02lp\n"),
    ("an unknown command of a job", b"\x02lp\n\x07x\n"),
    ("an unknown command behind a control file", b"\x02lp\n\x0221 cfA001h\nHh\nPann\nfdfA001h\nJlp\n\0\x07x\n"),
    ("a name that is none", b"\x02lp\n\x0310 xyz\n"),
    ("an abort", b"\x02lp\n\x01\n"),
    ("a file twice", b"\x02lp\n\x031 dfA001h\na\0\x031 dfA001h\na\0"),
    ("a file that lacks its end", b"\x02lp\n\x031 dfA001h\nab"),
    ("a control file of nobody", b"\x02lp\n\x025 cfA001h\nHh\nP\n\0"),
    ("a control file without a host", b"\x02lp\n\x025 cfA001h\nPann\n\0"),
    ("a control file of a file that didn't come", b"\x02lp\n\x0217 cfA001h\nHh\nPann\nfdfA001h\n\0"),
    ("an agent alone", b"\x05lp\n"),
    ("lprm by root of nothing", b"\x05lp root\n"),
)


if __name__ == "__main__":
    sys.exit(main([in_memory, kept, by_the_clock, on_a_disk_that_is_read_only], __doc__))
