#!/usr/bin/env python3
"""Days of a server that nobody thought of: drawn.py PROGRAM [SCENE..], where PROGRAM is the built lpd_server.

Each step of such a day is drawn by a number: who sends, asks, leaves, holds, removes, looks after the folders, stops and starts again, in the middle of what. The clock is set by
hand, which wants a C compiler. All that is told behind a step (answers, lines of the log, what is other in `status`, on the page, at /metrics, in the folders and on paper) has
to be the text that stands in `days/drawn-DAY.txt`. With WRITE=1 in the environment these texts are written anew: then read the difference. A line says what was seen; the last
line is 'N passed, M failed'."""
import contextlib
import difflib
import itertools
import os
import random
import re
import shutil
import socket
import subprocess
import sys
import time

from client import Collector, Pipe, connect, free_port
from days import CONFIG, PEERS, WRITES, Day, queue, words_of
from scene import PROGRAM, check, main
from scraping import Clock

# How long a text may take to come to what it has to be, and how long nothing has to change before it is written, in seconds.
PATIENCE = float(os.environ.get("PATIENCE", "8"))
STILL = 0.9
# How long an answer is waited for before it is said that there is none, in seconds.
ANSWER = 1.0
USERS = ("ann", "bob", "cy", "root")
# What somebody asks the status for, that isn't the page.
REQUESTS = ("GET /nowhere HTTP/1.1\r\nHost: localhost\r\n\r\n", "POST / HTTP/1.1\r\nHost: localhost\r\n\r\n", "HEAD / HTTP/1.1\r\nHost: localhost\r\n\r\n",
            "GET / HTTP/1.1\r\nHost: elsewhere\r\n\r\n", "GET /metrics HTTP/1.0\r\n\r\n", "GET  / HTTP/1.1\r\n\r\n", "hello\r\n\r\n")


def runs_of(octets):
    """Octets as how many of each come one after another."""
    return " ".join(f"{len(list(run))}{chr(octet) if 32 < octet < 127 else f'%{octet:02x}'}" for octet, run in itertools.groupby(octets))


def difference(was, now):
    """What is other, a line for each that went or came."""
    lines = difflib.unified_diff(was.split("\n"), now.split("\n"), "", "", "", "", 0, "")
    return [line for line in list(lines)[2:] if not line.startswith("@@")]


def measured(text):
    """What /metrics tells, each distribution in a line."""
    lines, counts = [], []
    for line in text.split("\n"):
        if seen := re.fullmatch(r'(\w+)_bucket\{(.*?),?le="(.*)"\} (\d+)', line):
            counts.append(seen[4])
            if seen[3] == "+Inf":
                lines.append(f"{seen[1]} {seen[2]} {' '.join(counts)}")
                counts = []
        elif not line.startswith(("#", "hurgwaye_uptime_seconds")):
            lines.append(line)
    return "\n".join(lines)


class Peer:
    """One who sends a job, piece by piece, each of which is answered."""

    def __init__(self, name, pieces, peer):
        self.name, self.pieces, self.peer = name, pieces, peer

    def sends(self, count):
        """It sends so many octets of the piece that comes next, and reads the answer where that is whole."""
        piece = self.pieces.pop(0)
        if count < len(piece):
            self.pieces.insert(0, piece[count:])
        try:
            self.peer.sendall(piece[:count])
            return "sent" if count < len(piece) else self.answer()
        except OSError as error:
            self.pieces = []
            return f"broken: {error.strerror}"

    def answer(self):
        self.peer.settimeout(ANSWER)
        try:
            octets = self.peer.recv(1)
        except TimeoutError:
            return "no answer"
        if octets != b"\0":
            self.pieces = []
        return runs_of(octets) or "the end"


class DrawnDay(Day):
    """A day whose steps are drawn."""

    def __init__(self, name, seed, config, words, clock, queues, keeps):
        super().__init__(f"drawn-{name}", config)
        self.draws, self.clock, self.now = random.Random(seed), clock, 0
        self.words, self.queues, self.keeps = tuple(word.replace("DIR", self.folder) for word in words), queues, keeps
        self.peers, self.count, self.was, self.pipe = [], 0, {}, None
        self.known = [(f":{self.port}", ":PORT"), (f"listening {self.port}", "listening PORT"), (f":{self.board}", ":BOARD"), (self.folder, "DIR")]

    # What is drawn.

    def below(self, count):
        return int(self.draws.random() * count)

    def one_of(self, these):
        return these[self.below(len(these))]

    def often(self, share):
        return self.draws.random() < share

    def a_queue(self):
        return "nowhere" if self.often(0.03) else self.one_of(self.queues)

    def a_job(self):
        """A job: who it is of, the queue, and its pieces."""
        self.count += 1
        number, user, place = self.one_of((self.count, self.count, self.below(1000))), self.one_of(USERS), 2 + self.below(5)
        letter, name = chr(97 + self.count % 26), self.a_queue()
        sizes = [self.one_of((1, 10, 700, 1023, 1024, 1025, 2048, 3000, 5000, 8192 if self.often(0.3) else 20)) for _ in range(self.one_of((1, 1, 1, 2, 3)))]
        lines = [f"Hhost{place}", f"P{user}"] + [f"J{letter} letter"] * self.often(0.5) + [f"C{letter}"] * self.often(0.1) + [f"L{user}"] * self.often(0.1)
        files = [f"df{chr(65 + at)}{number:03}host{place}" for at in range(len(sizes))]
        for file in files:
            lines += [f"{self.one_of(('f', 'l', 'o', 'f'))}{file}"] * self.one_of((1, 1, 1, 2)) + [f"U{file}"] * self.often(0.5) + [f"N{letter}.txt"] * self.often(0.5)
        text = "".join(f"{line}\n" for line in lines).encode()
        control = [f"\x02{len(text)} cfA{number:03}host{place}\n".encode(), text + b"\0"]
        data = [piece for file, count in zip(files, sizes) for piece in (f"\x03{count} {file}\n".encode(), letter.encode() * count + b"\0")]
        pieces = [b"\x02" + name.encode() + b"\n"] + (control + data if self.often(0.25) else data + control)
        return Peer(f"job {number} of {user} at 127.0.0.{place} for {name}, {'+'.join(map(str, sizes))} octets", pieces, connect(self.port, f"127.0.0.{place}"))

    def a_number(self):
        """The number of a job that stands in the status, or stood there, or never does."""
        seen = [int(number) for number in re.findall(r"(?m)^(?:job|kept|file|.*\bjob) (\d+)\b", self.was.get("status", ""))]
        return self.one_of(seen) if seen and self.often(0.7) else self.below(self.count + 3)

    def a_list(self):
        return self.one_of(USERS) if self.often(0.4) else str(self.below(self.count + 2))

    # What is done. Each answers what it is called, and what came of it.

    def sends_a_job(self):
        it = self.a_job()
        answers = []
        while it.pieces:
            answers.append(it.sends(len(it.pieces[0])))
            if answers[-1] == "no answer":
                self.peers.append(it)
                return it.name, [*answers, "stays"]
        it.peer.close()
        return it.name, answers

    def begins_a_job(self):
        it = self.a_job()
        answers = [it.sends(len(it.pieces[0])) for _ in range(1 + self.below(3)) if it.pieces]
        if it.pieces:
            answers.append(it.sends(max(1, len(it.pieces[0]) // 2)))
        self.peers.append(it)
        return f"begins: {it.name}", answers

    def goes_on(self):
        it = self.one_of(self.peers)
        if not it.pieces:
            return self.leaves(it)
        answers = [it.sends(len(it.pieces[0])) for _ in range(self.one_of((1, 2, 9))) if it.pieces]
        return f"goes on: {it.name}", answers

    def leaves(self, it=None):
        it = it or self.one_of(self.peers)
        self.peers.remove(it)
        how = self.one_of(("closes", "resets", "ends its sending"))
        if how == "resets":
            it.peer.setsockopt(socket.SOL_SOCKET, socket.SO_LINGER, b"\1\0\0\0\0\0\0\0")
        answers = []
        if how == "ends its sending":
            with contextlib.suppress(OSError):
                it.peer.shutdown(socket.SHUT_WR)
            answers.append(it.answer())
        it.peer.close()
        return f"{how}: {it.name}", answers

    def gives_up(self):
        it = self.one_of(self.peers)
        it.pieces = [b"\x01\n"]
        return f"gives up: {it.name}", [it.sends(2)]

    def asks(self):
        line = bytes([self.one_of((3, 4))]) + self.a_queue().encode() + "".join(f" {self.a_list()}" for _ in range(self.one_of((0, 0, 1, 2)))).encode() + b"\n"
        return f"asks {line}", self.says(line)

    def removes(self):
        line = b"\x05" + f"{self.a_queue()} {self.one_of(USERS)}".encode() + "".join(f" {self.a_list()}" for _ in range(self.one_of((0, 1, 1, 2)))).encode() + b"\n"
        return f"asks {line}", self.says(line)

    def starts_by_line(self):
        line = b"\x01" + self.a_queue().encode() + b"\n"
        return f"asks {line}", self.says(line)

    def gets_it_wrong(self):
        title, octets = self.one_of(PEERS)
        return f"says {title}", self.says(octets)

    def says(self, octets):
        with contextlib.closing(connect(self.port, f"127.0.0.{2 + self.below(5)}")) as peer:
            said = b""
            peer.settimeout(ANSWER)
            try:
                peer.sendall(octets)
                peer.shutdown(socket.SHUT_WR)
                while piece := peer.recv(65536):
                    said += piece
            except TimeoutError:
                return ["no answer"]
            except OSError as error:
                return [f"broken: {error.strerror}"]
        return [runs_of(said)] if said[:1] < b" " else said.decode(errors="replace").split("\n")

    def commands(self):
        draw = self.below(100)
        if draw < 25:
            words = ("hold", self.a_queue())
        elif draw < 50:
            words = ("release", self.a_queue())
        elif draw < 60:
            words = ("start", self.a_queue())
        elif draw < 70:
            words = ("remove", self.a_queue(), self.a_list())
        elif draw < 79:
            words = ("cancel", "job", str(self.a_number()))
        elif draw < 86:
            words = ("cancel", "file", str(self.a_number()))
        elif draw < 92:
            words = ("resend", str(self.a_number()))
        elif draw < 95:
            words = ("resend", "all") + (self.a_queue(),) * self.often(0.5)
        else:
            words = ("rotate",)
        return "control " + " ".join(words), self.ran("control", f"{self.folder}/control", *words).split("\n")

    def asks_for_a_page(self):
        request = self.one_of(REQUESTS)
        peer = socket.create_connection(("127.0.0.1", self.board), timeout=10)
        with contextlib.closing(peer), contextlib.suppress(OSError):
            peer.sendall(request.encode())
            text = b""
            while piece := peer.recv(65536):
                text += piece
        head = text.split(b"\r\n\r\n")[0].decode(errors="replace").split("\r\n")
        return f"asks for {request.split(chr(13))[0]!r}", [line for line in head if not line.startswith("Content-Length")]

    def reads_the_pipe(self):
        before = len(self.pipe.octets)
        self.pipe.read(0.5)
        return "the pipe is read", [runs_of(self.pipe.octets[before:])]

    def meddles(self):
        """Somebody looks after the folder of kept jobs by hand."""
        spool = f"{self.folder}/spool"
        files = sorted(name for name in os.listdir(spool) if re.fullmatch(r"\d+\.(job|failed)", name))
        if not files:
            return "nothing lies in the folder", []
        name = self.one_of(files)
        draw = self.below(4)
        if draw == 0:
            shutil.copy(f"{spool}/{name}", f"{spool}/{self.one_of((60, 70, 80)) + self.below(9)}.{self.one_of(('job', 'failed'))}")
            return f"{name} is copied", []
        if draw == 1:
            with open(f"{spool}/{name}", "r+b") as file:
                file.seek(-80, os.SEEK_END)
                file.write(b"#")
            return f"{name} is changed", []
        os.remove(f"{spool}/{name}")
        return f"{name} is removed", []

    def folder_moves(self):
        """The printer's folder goes, or comes again."""
        with contextlib.suppress(FileNotFoundError):
            os.rename(f"{self.folder}/box", f"{self.folder}/gone")
            return "the printer's folder goes", []
        os.rename(f"{self.folder}/gone", f"{self.folder}/box")
        return "the printer's folder comes again", []

    def starts_again(self):
        """The server is stopped, or killed, and starts again."""
        how = self.one_of(("stop", "stop now", "kill"))
        told = []
        with contextlib.suppress(FileNotFoundError):
            os.rename(f"{self.folder}/gone", f"{self.folder}/box")
        for it in self.peers:
            it.peer.close()
        self.peers = []
        if self.pipe:
            self.pipe.read(0.5)
        time.sleep(0.5)
        if how == "kill":
            self.server.kill()
            self.server.wait()
        else:
            told += self.stops(*how.split())
        self.now += 60
        self.clock.set(self.now)
        self.start()
        return f"{how}, and a start", told

    def stops(self, *words):
        """It ends at this word, while time passes."""
        asked = subprocess.Popen([PROGRAM, "control", f"{self.folder}/control", *words], stdout=subprocess.PIPE, stderr=subprocess.STDOUT, text=True)
        for second in range(1, 60):
            with contextlib.suppress(subprocess.TimeoutExpired):
                self.server.wait(0.25)
                break
            self.clock.set(self.now + second)
        check(self.server.poll() is not None, "the server doesn't end")
        return asked.communicate(timeout=30)[0].split("\n") + [f"ended with {self.server.returncode}"]

    def steps(self):
        """What may be done now, with how often."""
        yield 30, self.sends_a_job
        yield 8, self.begins_a_job
        yield 7, self.asks
        yield 5, self.removes
        yield 2, self.starts_by_line
        yield 3, self.gets_it_wrong
        yield 30, self.commands
        yield 2, self.asks_for_a_page
        yield 2, self.folder_moves
        if self.peers:
            yield 12, self.goes_on
            yield 4, self.leaves
            yield 2, self.gives_up
        if self.pipe:
            yield 8, self.reads_the_pipe
        if self.keeps:
            yield 5, self.meddles
            yield 3, self.starts_again

    def step(self):
        steps = list(self.steps())
        draw = self.draws.random() * sum(share for share, _ in steps)
        for share, does in steps:
            if (draw := draw - share) < 0:
                return does()
        return steps[0][1]()

    # What is told.

    def look(self):
        """All that can be looked at."""
        folders = [name for name in ("spool", "account", "box") if os.path.isdir(f"{self.folder}/{name}")]
        files = [f"{folder}/{name} {os.path.getsize(f'{self.folder}/{folder}/{name}') if folder != 'account' else ''}" for folder in folders
                 for name in sorted(os.listdir(f"{self.folder}/{folder}")) if not name.endswith(".tmp")]
        papers = [f"{name} {runs_of(open(f'{self.folder}/{name}', 'rb').read())}" for name in sorted(os.listdir(self.folder)) if re.fullmatch(r"paper-\d", name)]
        told = {"status": self.ran("control", f"{self.folder}/control", "status"), "page": words_of(self.fetched("/"), True), "metrics": measured(self.fetched("/metrics")),
                "files": "\n".join(files), "papers": "\n".join(papers)}
        told["status"] = re.sub(r"(?m)^uptime \d+\n", "", told["status"])
        told["page"] = re.sub(r"(?m)^up \d.*\n", "", told["page"])
        return {name: self.plain(text) for name, text in told.items()}

    def changes(self, head):
        """What is other than behind the last step, and what is to be compared with behind the next."""
        try:
            seen = self.look()
        except OSError as error:
            return f"not looked at: {error}", self.was
        lines = list(head)
        for line in sorted(self.plain(self.text_of("log")[self.read:]).splitlines()):
            lines.append(f"log: {line}")
        for name, text in seen.items():
            lines += [f"{name}{line}" for line in difference(self.was.get(name, ""), text)]
        return "\n".join(lines), seen

    def told_of(self, title, head):
        """What is told behind this step is what it has to be."""
        head, due = [self.plain(line) for line in head], self.told.get(title)
        end, since = time.monotonic() + (15 if WRITES else PATIENCE), time.monotonic()
        text, seen = self.changes(head)
        while time.monotonic() < end and (time.monotonic() - since < STILL if WRITES or due is None else text.strip("\n") != due):
            time.sleep(0.05)
            was = text
            text, seen = self.changes(head)
            if was != text:
                since = time.monotonic()
        if title != "the start":
            self.seen.append((title, text.strip("\n")))
            if not WRITES:
                self.compare(title, text.strip("\n"))
        self.was, self.read = seen, len(self.text_of("log"))


def drawn(name, seed, count, queues, config, *words, pipe=False, keeps=False, pauses=(2, 2, 2, 3, 7, 25, 61, 650)):
    """A day of so many steps, between which so many seconds pass."""
    net = free_port()
    with Clock() as clock, DrawnDay(name, seed, config, words, clock, queues, keeps) as it:
        it.known.append((f":{net}", ":NET"))
        it.words = tuple(word.replace("NET", str(net)) for word in it.words)
        os.mkdir(f"{it.folder}/box")
        os.symlink("/dev/full", f"{it.folder}/full")
        printer = Collector(net)
        if pipe:
            it.pipe = Pipe(f"{it.folder}/pipe")
        it.start()
        it.told_of("the start", [])
        for at in range(1, count + 1):
            before = it.now
            it.now += it.one_of(pauses)
            clock.set(it.now)
            if it.now - before > 3:
                # (who looks at the clock now and then has looked)
                time.sleep(0.6)
            title, head = it.step()
            it.told_of(f"{at}. {it.plain(title)}, at {it.now} s", head)
        for peer in it.peers:
            peer.peer.close()
        time.sleep(0.6)
        it.told_of("all peers leave", [])
        if it.pipe:
            it.pipe.read(0.5)
        it.tell("octets over the network", " ".join(str(len(octets)) for octets in printer.jobs))
        it.tell("the end", "\n".join(it.stops("stop", "now")) + "\n" + it.text_of("said"))
        it.tell("log: the end", "\n".join(sorted(it.plain(it.text_of("log")[it.read:]).splitlines())))
        segments = sorted(f"{it.folder}/account/{file}" for file in os.listdir(f"{it.folder}/account")) if os.path.isdir(f"{it.folder}/account") else []
        if segments:
            it.runs("audit", "audit", *segments, "--printed", f"3={it.folder}/paper-1", "--printed", f"4={it.folder}/box")
            it.runs("usage", "usage", *segments)
    return f"{count} steps"


# Where the printers of most days are.
PLACES = ("--printer", "lp=file:DIR/paper-1", "--printer", "box=folder:DIR/box", "--printer", "net=socket://127.0.0.1:NET", "--printer", "slow=file:DIR/pipe",
          "--printer", "bad=file:DIR/full")
NAMES = ("lp", "lp", "box", "net", "slow", "bad")
# (the first queue gets no jobs: so no printer's number is its queue's)
FIVE = queue("spare", 4, 2) + queue("lp", 8) + queue("box", 8) + queue("net", 8) + queue("slow", 16) + queue("bad", 4)
SMALL = """pages = 20
page_size = 1024
max_jobs = 6
account = 400000
"""
KEPT = ("--spool", "DIR/spool", "--account", "DIR/account")


def jobs_in_memory():
    """A file, a folder, a printer on the network, a pipe that is read now and then, and a printer that fails."""
    return drawn("memory", 1, 70, NAMES, CONFIG + FIVE, *PLACES, "--sessions", "6", pipe=True)


def little_room():
    """Few pages and rows."""
    return drawn("little", 2, 70, NAMES, SMALL + FIVE, *PLACES, "--sessions", "6", pipe=True)


def printers_that_start_again():
    """Queues are started again."""
    return drawn("restarts", 3, 70, ("lp", "box", "bad", "bad", "slow"), CONFIG + FIVE, *PLACES, "--restart", "20", pipe=True,
                 pauses=(2, 2, 3, 7, 15))


def jobs_in_a_folder():
    """Jobs and the account are kept."""
    return drawn("kept", 4, 70, NAMES, CONFIG + FIVE, *PLACES, *KEPT, "--keep-room", "--sessions", "6", pipe=True, keeps=True)


def a_folder_and_little_room():
    """Jobs are kept, with few pages and rows."""
    return drawn("parked", 5, 70, NAMES, SMALL + FIVE, *PLACES, *KEPT, "--keep-room", "--sessions", "6", pipe=True, keeps=True)


def a_folder_that_is_meddled_with():
    """Jobs of few queues are kept, and their printers fail or are started again."""
    return drawn("meddled", 6, 70, ("lp", "bad", "box"), CONFIG + FIVE, *PLACES, *KEPT, "--keep-room", "--restart", "40", keeps=True, pauses=(2, 2, 3, 7))


def another_folder():
    """As with a folder and little room, without a pipe."""
    return drawn("another", 7, 70, ("lp", "box", "bad", "net"), SMALL + FIVE, *PLACES, *KEPT, "--keep-room", "--sessions", "6", keeps=True)


DAYS = (jobs_in_memory, little_room, printers_that_start_again, jobs_in_a_folder, a_folder_and_little_room, a_folder_that_is_meddled_with, another_folder)

if __name__ == "__main__":
    sys.exit(main(DAYS, __doc__, long=(little_room, jobs_in_a_folder, a_folder_that_is_meddled_with, another_folder)))
