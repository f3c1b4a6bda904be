#!/usr/bin/env python3
"""Scenes of what a server is told to do, by signals and at its control socket: commanding.py PROGRAM [SCENE..], where PROGRAM is the built lpd_server.

Each scene is bounded in time, and runs on loopback alone. A line says what was seen; the last line is 'N passed, M failed'."""
import contextlib
import glob
import os
import re
import resource
import signal
import socket
import struct
import subprocess
import sys
import threading
import time

from client import answer, connect, control, free_port, send, together
from keeping import CONFIG, Room, small_disk
from scene import CHECKED, PROGRAM, check, main


def command(room, *words):
    """A command to the server's control socket that isn't waited for."""
    return subprocess.Popen([PROGRAM, "control", f"{room.folder}/control", *words], stdin=subprocess.DEVNULL, stdout=subprocess.DEVNULL,
                            stderr=subprocess.DEVNULL)


def talk(room, octets, ends, limit=15):
    """What is answered at the control socket to these octets, and how long that took; whether the client ends its sending behind them."""
    start = time.monotonic()
    with socket.socket(socket.AF_UNIX) as peer:
        peer.settimeout(limit)
        peer.connect(f"{room.folder}/control")
        peer.sendall(octets)
        if ends:
            peer.shutdown(socket.SHUT_WR)
        told = b""
        while piece := peer.recv(65536):
            told += piece
    return told, time.monotonic() - start


def signals_that_stop():
    """A server that was started with SIGTERM blocked ends by it with status 0, once its jobs are printed; and so by SIGINT."""
    for name in ("TERM", "INT"):
        with Room() as room:
            plain = room.line()
            room.line = lambda: ["env", f"--block-signal={name}", *plain]
            room.start()
            check(send(room.port, 1, b"x" * 100_000) == 0, "a job is taken")
            room.server.send_signal(getattr(signal, f"SIG{name}"))
            check(room.server.wait(20) == 0, f"SIG{name}: {room.server.returncode}: {room.log()[-300:]}")
            check(room.printed() == b"x" * 100_000, "the job isn't printed")
    return "both"


def the_earlier_stop_holds():
    """Of two stops the earlier end holds, in whichever order they come: behind `stop 40` a `stop 3` ends a server amid a job after three seconds, and so the other
    way round."""
    seen = []
    for first, second in ((40, 3), (3, 40)):
        with Room() as room:
            os.mkfifo(f"{room.folder}/printer-1")
            room.start()
            check(send(room.port, 1, b"x" * 200_000) == 0, "a job is taken")
            start = time.monotonic()
            asked = [command(room, "stop", str(first))]
            time.sleep(0.5)
            asked.append(command(room, "stop", str(second)))
            try:
                room.server.wait(25)
            except subprocess.TimeoutExpired as error:
                raise AssertionError(f"stop {first}, then {second}: not in 25 s") from error
            finally:
                for one in asked:
                    one.kill()
                    one.wait()
            took = time.monotonic() - start
            check(2.5 < took < 12, f"stop {first}, then {second}: {took:.1f} s")
            seen.append(took)
    return f"after {seen[0]:.1f} and {seen[1]:.1f} s"


def end_of(room, limit=20):
    """The server has ended: what it said behind its first line, and its log."""
    check(room.server.wait(limit) == 0, f"{room.server.returncode}: {room.log()[-300:]}")
    return open(f"{room.folder}/said").read().split("\n", 1)[1], room.log()


@contextlib.contextmanager
def waiting(room, *words):
    """A command to the server's control socket, which isn't waited for: it may last until it is gone."""
    asked = command(room, *words)
    try:
        yield asked
    finally:
        asked.kill()
        asked.wait()


class Unread:
    """A printer at a port that takes connections, and reads nothing of them before it is told to. It keeps what it reads."""

    def __init__(self):
        self.there = socket.socket()
        self.there.setsockopt(socket.SOL_SOCKET, socket.SO_RCVBUF, 4096)
        self.there.bind(("127.0.0.1", 0))
        self.there.listen(4)
        self.place = f"socket://127.0.0.1:{self.there.getsockname()[1]}"
        self.reads, self.octets = threading.Event(), b""
        threading.Thread(target=self.serve, daemon=True).start()

    def serve(self):
        with contextlib.suppress(OSError):
            while True:
                peer, _ = self.there.accept()
                self.reads.wait()
                while piece := peer.recv(1 << 16):
                    self.octets += piece
                peer.close()


def stops_wait_for_what_is_printed():
    """A stop waits for a job that is amid a printer on the network, where no pipe is full; and for what is in a pipe, where no job is held any more. Nothing is lost, and a
    rotation that is done meanwhile is printed before the close."""
    printer, octets = Unread(), b"x" * 6_000_000
    config = CONFIG.replace("pages = 256", "pages = 4096").replace("limit = 128", "limit = 2000")
    with Room("--printer", f"1={printer.place}", config=config) as room:
        # (without --spool, where a job stays for the next server)
        plain = [word for word in room.line() if word not in ("--spool", room.kept)]
        room.line = lambda: plain
        room.start()
        check(send(room.port, 1, octets, limit=60) == 0, "a job is taken")
        with waiting(room, "stop") as asked:
            time.sleep(1.5)
            check(asked.poll() is None and room.server.poll() is None, f"it has ended amid a job: {room.log()[-300:]}")
            check("\njob 1 " in room.tell("status"), "the job is held no more")
            printer.reads.set()
            said, log = end_of(room, 60)
        check(printer.octets == octets, f"{len(printer.octets)} octets came")
        check(re.fullmatch(r"closed entries \d+\n", said) and "lost" not in log, f"{said}: {log[-300:]}")
    with Room() as room:
        os.mkfifo(f"{room.folder}/printer-1")
        room.start()
        check(send(room.port, 1, b"y" * 1000) == 0, "a job is taken")
        room.await_files(0)
        with waiting(room, "stop") as asked:
            time.sleep(1.5)
            check(asked.poll() is None and room.server.poll() is None, "it has ended while a pipe has octets")
            told = room.tell("status")
            check("\njob " not in told, told)
            check(room.tell("rotate").startswith("rotated"), "it isn't rotated")
            with open(f"{room.folder}/printer-1", "rb") as pipe:
                printed = pipe.read()
            said, log = end_of(room)
        check(printed == b"y" * 1000, f"{len(printed)} octets of the pipe")
        check(re.fullmatch(r"rotated 1 entries \d+\nclosed entries \d+\n", said), said)
    return "for a job and for a pipe; a rotation is printed before the close"


def rotations_after_so_many_connections():
    """With --rotate 3 the account is rotated before the fourth connection, the seventh, and so on, and not before."""
    with Room() as room:
        plain = [word for word in room.line() if word != "--keep-room"]
        room.line = lambda: [*plain, "--rotate", "3"]
        room.server = subprocess.Popen(room.line(), stdin=subprocess.DEVNULL, stdout=open(f"{room.folder}/said", "ab"), stderr=open(f"{room.folder}/log", "ab"))
        while not os.path.exists(f"{room.folder}/said") or "listening" not in open(f"{room.folder}/said").read():
            time.sleep(0.02)
        seen = []
        for _ in range(8):
            with contextlib.closing(connect(room.port)) as peer:
                peer.sendall(b"\x03lp\n")
                while peer.recv(100):
                    pass
            seen.append(open(f"{room.folder}/said").read().count("rotated"))
        check(seen == [0, 0, 0, 1, 1, 1, 2, 2], seen)
    return "as told"


def a_stop_whose_last_line_is_lost():
    """A server whose last line can't be written any more answers who asked it to stop all the same, by what it ends with."""
    with Room() as room:
        reader, writer = os.pipe()
        room.server = subprocess.Popen(room.line(), stdin=subprocess.DEVNULL, stdout=writer, stderr=open(f"{room.folder}/log", "ab"))
        os.close(writer)
        check(os.read(reader, 100).startswith(b"listening "), "it doesn't listen")
        os.close(reader)
        told, _ = talk(room, b"stop\n", ends=False)
        ended = room.server.wait(20)
        check((told, ended) == (b"end refused fault 73 WriteFile\n", 4), f"{told} {ended}: {room.log()[-300:]}")
    return "refused, with the fault"


def rotations_that_are_refused():
    """A rotation that is refused, since a job is held, gives its place back: after many of them, with an account in files, the next that may be done is."""
    with Room() as room:
        # (with --spool a job of a held queue waits in the folder, and no rotation is refused)
        plain = [word for word in room.line() if word not in ("--keep-room", "--spool", room.kept)] + ["--account", f"{room.folder}/account"]
        room.line = lambda: plain
        room.start()
        room.tell("hold", "lp")
        check(send(room.port, 1, b"x" * 1000) == 0, "a job is taken")
        for number in range(6):
            told = room.tell("rotate")
            check("rotated" not in told and "segments of the account wait" not in told, f"the {number + 1}th: {told}")
        room.tell("release", "lp")
        for number in range(6):
            for _ in range(50):
                told = room.tell("rotate")
                if "rotated" in told:
                    break
                time.sleep(0.1)
            check("rotated" in told, f"once nothing is held: {told}")
    return "six of each"


def rotations_after_connections_that_are_refused():
    """With --rotate 1 and an account in files each connection is followed by a rotation, which is refused while a printer that has failed holds a job: once that is
    removed, the next one is done."""
    with Room() as room:
        plain = [word for word in room.line() if word not in ("--keep-room", "--spool", room.kept)]
        room.line = lambda: [*plain, "--account", f"{room.folder}/account", "--rotate", "1"]
        os.symlink("/dev/full", f"{room.folder}/printer-1")
        room.start()
        for turn in range(1, 4):
            with contextlib.closing(connect(room.port)) as peer:
                for number in (1, 2):
                    text = control(number)
                    for line in ([b"\x02lp\n"] if number == 1 else []) + [b"\x031 dfA%03dh1\n" % number, b"x\0", b"\x02%d cfA%03dh1\n" % (len(text), number), text + b"\0"]:
                        peer.sendall(line)
                        check(answer(peer) == 0, f"{line} isn't taken")
            with contextlib.closing(connect(room.port)) as peer:
                peer.sendall(b"\x03lp\n")
                check(peer.recv(100), "no answer")
            check("removed" in (told := room.tell("remove", "lp", "2")), told)
            room.tell("start", "lp")
            until = time.monotonic() + 20
            while f"\nrotated {turn} entries " not in open(f"{room.folder}/said").read():
                check(time.monotonic() < until, f"{open(f'{room.folder}/said').read()}: {room.log()[-600:]}")
                with contextlib.closing(connect(room.port)):
                    time.sleep(0.2)
        check("JobsHeld" in room.log(), room.log()[-400:])
    return "three times, each once none was held"


def a_rotation_is_printed_at_once():
    """A rotation that is asked for while nobody connects: its line is printed at once."""
    with Room() as room:
        room.start()
        check(send(room.port, 1, b"x") == 0, "a job is taken")
        until = time.monotonic() + 10
        while "rotated" not in (told := room.tell("rotate")):
            check(time.monotonic() < until, told)
            time.sleep(0.1)
        begun = time.monotonic()
        while "\nrotated 1 entries " not in open(f"{room.folder}/said").read():
            check(time.monotonic() < begun + 2, open(f"{room.folder}/said").read())
            time.sleep(0.02)
    return f"after {time.monotonic() - begun:.2f} s"


def segments_that_wait():
    """While the disk of the account is full two segments wait for it beside the one in hand, and no more rotation is done; where room is kept, jobs go on until the account is full
    too. A stop ends all the same, soon, and so does one that is asked for at once."""
    ended = []
    for keeps in (False, True):
        with Room() as room, small_disk(f"{room.folder}/disk", 1):
            plain = [word for word in room.line() if word not in ("--spool", room.kept)] + ["--account", f"{room.folder}/disk/account"]
            room.line = lambda: [word for word in plain if keeps or word != "--keep-room"]
            room.start()
            with open(f"{room.folder}/disk/filler", "wb") as file, contextlib.suppress(OSError):
                file.write(b"x" * (1 << 21))
            answers = []
            for number in range(40):
                answers.append(send(room.port, number, b"x" * 100))
                told = room.tell("rotate")
                for _ in range(20):
                    if "JobsHeld" not in told:
                        break
                    time.sleep(0.05)
                    told = room.tell("rotate")
                if "rotated" not in told:
                    break
                # (who writes them takes one)
                time.sleep(0.3)
            check(number <= 3 and "segments of the account wait" in told, f"{number} segments wait: {told}")
            # (it is tried again after one second, and after two: that is told once a minute)
            time.sleep(0 if keeps else 3.5)
            warned = room.log().count("No space left on device")
            check(warned == 1, f"it is told {warned} times: {room.log()[-900:]}")
            if keeps:
                # (who keeps room waits for a place once the account has none)
                number = 0
                while send(room.port, number % 1000, b"x" * 100) == 0:
                    number += 1
                    check(number < 4_000, "each job is taken")
            begun = time.monotonic()
            room.tell("stop", *(("now",) if keeps else ()))
            room.server.wait(30)
            ended.append(time.monotonic() - begun)
            check(ended[-1] < 15, f"a stop took {ended[-1]:.1f} s")
    return f"as many as may; stops took {ended[0]:.1f} and {ended[1]:.1f} s"


def room_comes_by_itself():
    """Where room is kept and the account's disk was full until the account was too, jobs are taken again once the disk has room: nobody asks for a rotation, and more segments
    become files than had waited."""
    config = 'pages = 64\npage_size = 512\nmax_jobs = 8\naccount = 3000\n[[queue]]\nname = "lp"\nlimit = 3\nprinters = 1\n'
    with Room(config=config) as room, small_disk(f"{room.folder}/disk", 1):
        plain = [word for word in room.line() if word not in ("--spool", room.kept)] + ["--account", f"{room.folder}/disk/account"]
        room.line = lambda: plain
        room.start()
        with open(f"{room.folder}/disk/filler", "wb") as file, contextlib.suppress(OSError):
            file.write(b"x" * (1 << 21))
        taken = 0
        while send(room.port, taken % 1000, b"x" * 100) == 0:
            taken += 1
            check(taken < 2_000, "each job is taken")
        check(send(room.port, 999, b"x" * 100) == 2, "a job finds room")
        os.remove(f"{room.folder}/disk/filler")
        begun, more = time.monotonic(), 0
        while more < 2 * taken:
            more += send(room.port, more % 1000, b"x" * 100) == 0
            check(time.monotonic() < begun + 40, f"{taken} jobs were taken, and {more} since: {room.log()[-300:]}")
        segments = len(glob.glob(f"{room.folder}/disk/account/*"))
        check(segments > 4, f"{segments} files")
        return f"{taken} jobs before and {more} after, {segments} segments"


def who_asked_and_went_gives_place():
    """More clients than there are places ask for a stop that waits for a job, and go before it is answered: others are heard all the same."""
    with Room() as room:
        os.mkfifo(f"{room.folder}/printer-1")
        room.start()
        check(send(room.port, 1, b"x" * 300_000) == 0, "a job is taken")
        for number in range(80):
            with socket.socket(socket.AF_UNIX) as peer:
                peer.settimeout(10)
                peer.connect(f"{room.folder}/control")
                peer.sendall(b"stop 60\n")
                # (the line is heard before the end)
                time.sleep(0.02)
        told, took = talk(room, b"status\n", False)
        check(told.endswith(b"end done\n"), told[-80:])
        return f"answered after {took:.2f} s"


def clients_that_end_no_line():
    """Who connects to the control socket and ends no line is left after two seconds, with no word; where 64 do, the oldest gives way to the next at once, and the others have
    their time. Who sends a line that is too long is left at once."""
    with Room() as room, contextlib.ExitStack() as peers:
        room.start()

        def come(octets):
            peer = peers.enter_context(socket.socket(socket.AF_UNIX))
            peer.settimeout(10)
            peer.connect(f"{room.folder}/control")
            peer.sendall(octets)
            return peer

        def ends(peer):
            """After how many seconds it is left, with no word."""
            begun = time.monotonic()
            with contextlib.suppress(ConnectionResetError):
                check(peer.recv(10) == b"", "it is answered")
            return time.monotonic() - begun

        took = ends(come(b"status"))
        check(1.7 < took < 5, f"left after {took:.1f} s")
        check((long := ends(come(b"x" * 70_000))) < 1.5, f"a long line is left after {long:.1f} s")
        begun = time.monotonic()
        crowd = [come(b"x") for _ in range(64)]
        time.sleep(0.3)
        told, _ = talk(room, b"status\n", False)
        answered = time.monotonic() - begun
        check(told.endswith(b"end done\n") and answered < 1.5, f"after {answered:.1f} s: {told[-80:]}")
        check(ends(crowd[0]) < 0.3, "the oldest stays")
        for peer in crowd[1:]:
            peer.setblocking(False)
            with contextlib.suppress(BlockingIOError):
                raise AssertionError(f"one more is left: {peer.recv(10)}")
        for peer in crowd[1:]:
            peer.settimeout(10)
            ends(peer)
        check(1.7 < time.monotonic() - begun < 6, f"all are left after {time.monotonic() - begun:.1f} s")
        return f"after {took:.1f} s, a long line after {long:.2f} s"


def clients_that_end_their_sending():
    """A client of the control socket that ends its sending behind its line is answered all the same, also of a stop, and so is one that sends on behind its line while its
    answer is written."""
    with Room() as room:
        os.mkfifo(f"{room.folder}/printer-1")
        room.start()
        told, _ = talk(room, b"status\n", True)
        check(told.endswith(b"end done\n"), told[-80:])
        # (what stands behind a line is passed over while the answer is written: else the end is a reset, and the answer may be lost)
        told, _ = talk(room, b"status\n" + b"x" * 3_000, False)
        check(told.endswith(b"end done\n"), told[-80:])
        # (whoever ends it while a command waits for a job is answered too)
        check(send(room.port, 1, b"x" * 300_000) == 0, "a job isn't taken")
        while " prints " not in room.tell("status"):
            time.sleep(0.05)
        with socket.socket(socket.AF_UNIX) as peer:
            peer.settimeout(15)
            peer.connect(f"{room.folder}/control")
            peer.sendall(b"stop 30\n")
            while "spool stops" not in room.tell("status"):
                time.sleep(0.05)
            peer.shutdown(socket.SHUT_WR)
            time.sleep(0.3)
            begun = time.monotonic()
            with open(f"{room.folder}/printer-1", "rb") as pipe:
                check(len(pipe.read(300_000)) == 300_000, "the job isn't printed")
            told = b""
            while piece := peer.recv(4_096):
                told += piece
        check(told.endswith(b"end done\n"), told)
        check(room.server.wait(10) == 0, room.server.returncode)
        took = time.monotonic() - begun
        return f"a stop after {took:.2f} s"


def commands_that_wait():
    """Of 100 clients who ask for a stop and wait for it 64 are taken in, and the others wait outside: they take no descriptor of the server. Each is answered at its end."""
    with Room() as room:
        os.mkfifo(f"{room.folder}/printer-1")
        room.start()
        check(send(room.port, 1, b"x" * 200_000) == 0, "a job is taken")
        time.sleep(0.5)
        count = lambda: len(os.listdir(f"/proc/{room.server.pid}/fd"))
        before = count()
        peers = [socket.socket(socket.AF_UNIX) for _ in range(100)]
        for peer in peers:
            peer.settimeout(20)
            peer.connect(f"{room.folder}/control")
            peer.sendall(b"stop\n")
        time.sleep(1.5)
        taken = count() - before
        check(50 <= taken <= 66, f"{taken} are taken in")
        with open(f"{room.folder}/printer-1", "rb") as pipe:
            while pipe.read(65536):
                pass
        told = [peer.recv(100) for peer in peers[:64]]
        check(all(it == b"end done\n" for it in told), told)
        for peer in peers:
            peer.close()
        return f"{taken} were taken in"


def descriptors_that_come_again():
    """Clients that come while a server has no descriptor left are told by a line, and served once it has some again, though nobody else comes: at its port, its control socket, and
    where its status is shown."""
    status = free_port()
    with Room("--status", str(status)) as room:
        room.start()
        time.sleep(1)
        count = len(os.listdir(f"/proc/{room.server.pid}/fd"))
        _, most = resource.prlimit(room.server.pid, resource.RLIMIT_NOFILE)
        resource.prlimit(room.server.pid, resource.RLIMIT_NOFILE, (count, most))
        with socket.socket(socket.AF_UNIX) as asked, connect(status) as looked, connect(room.port) as sent:
            asked.settimeout(15)
            asked.connect(f"{room.folder}/control")
            asked.sendall(b"status\n")
            looked.sendall(b"GET / HTTP/1.1\r\nHost: localhost\r\n\r\n")
            sent.sendall(b"\x03lp\n")
            for words in ("control socket: a connection wasn't accepted", "a connection wasn't accepted: Too many open files"):
                room.await_log(words)
            time.sleep(1)
            resource.prlimit(room.server.pid, resource.RLIMIT_NOFILE, (most, most))
            start = time.monotonic()
            for peer, wanted in ((asked, b"end done\n"), (looked, b"</html>"), (sent, b"queue lp jobs 0")):
                told = b""
                while piece := peer.recv(65536):
                    told += piece
                check(wanted in told, f"{wanted}: {told[-200:]}")
            took = time.monotonic() - start
        check(took < 5, f"answered after {took:.1f} s")
        return f"all three within {took:.1f} s"


def no_octet_behind_a_stop_now():
    """Of jobs that come while the server is stopped at once, in memory alone: each that was acknowledged is printed, or a line of the log says that it is lost."""
    lost = printed = 0
    for turn in range(6 if CHECKED else 20):
        with Room() as room:
            plain = room.line()
            at = plain.index("--spool")
            room.line = lambda: plain[:at] + plain[at + 2:]
            room.start()
            taken, gate = [], threading.Event()

            def client(number):
                gate.wait()
                for job in range(50):
                    name = f"u{number}x{job}"
                    octets, text = f"<{name}>".encode(), control(job, name)
                    with contextlib.suppress(OSError), contextlib.closing(connect(room.port, f"127.0.4.{number + 1}", 5)) as peer:
                        for part in (b"\x02lp\n", f"\x03{len(octets)} dfA{job:03}h1\n".encode(), octets + b"\0", f"\x02{len(text)} cfA{job:03}h1\n".encode()):
                            peer.sendall(part)
                            if answer(peer) != 0:
                                return
                        peer.sendall(text + b"\0")
                        if answer(peer) == 0:
                            taken.append(name)
                            continue
                    return

            threads = [threading.Thread(target=client, args=(number,), daemon=True) for number in range(8)]
            for thread in threads:
                thread.start()
            gate.set()
            time.sleep(0.02 + 0.02 * turn)
            room.tell("stop", "now")
            room.server.wait(20)
            for thread in threads:
                thread.join(20)
            out, log = room.printed().decode(), room.log()
            for name in taken:
                if f"<{name}>" in out:
                    printed += 1
                else:
                    check(re.search(rf" {name}@h1 \d+ octets is lost", log), f"{name} was acknowledged, isn't printed, and isn't told: {log[-300:]}")
                    lost += 1
    return f"{printed} printed, {lost} told as lost"


class Moody:
    """A printer at a port that resets each connection amid its job, or reads each to its end where it is well."""

    def __init__(self):
        self.there = socket.socket()
        self.there.bind(("127.0.0.1", 0))
        self.there.listen(4)
        self.place = f"socket://127.0.0.1:{self.there.getsockname()[1]}"
        self.is_well, self.printed = False, 0
        threading.Thread(target=self.serve, daemon=True).start()

    def serve(self):
        while True:
            peer, _ = self.there.accept()
            peer.recv(1000)
            if self.is_well:
                while peer.recv(1 << 16):
                    pass
                self.printed += 1
            else:
                time.sleep(0.05)
                peer.setsockopt(socket.SOL_SOCKET, socket.SO_LINGER, struct.pack("ii", 1, 0))
            peer.close()


def pauses_begin_anew_behind_a_page():
    """With --restart a queue is started again as soon as at first where pages were written before the failure, however many jobs have failed so."""
    printer = Moody()
    # (more than the printer's socket and the server's hold, or than it writes until the connection is reset)
    octets = b"x" * (300_000 if CHECKED else 6_000_000)
    config = CONFIG.replace("pages = 256", "pages = 4096").replace("limit = 128", "limit = 2000")
    with Room("--restart", "1", "--printer", f"1={printer.place}", config=config) as room:
        room.start()

        def fail(count):
            """Sends a job that fails, and answers how long after the failure before it that is: once the queue was started again."""
            start = time.monotonic()
            check(send(room.port, count, octets) == 0, "a job is taken")
            room.await_files(count, "failed", 20)
            return time.monotonic() - start

        fail(1)
        pauses = [fail(number) for number in (2, 3)]
        printer.is_well = True
        check(send(room.port, 9, octets) == 0, "a job is taken")
        for _ in range(300):
            if printer.printed:
                break
            time.sleep(0.05)
        check(printer.printed == 1, "nothing is printed")
        printer.is_well = False
        fail(4)
        anew = fail(5)
        pauses.append(anew)
        check(max(pauses) < 4, f"pauses of {pauses} s")
        return f"pauses of at most {max(pauses):.1f} s"


def many_syncs_wake_each():
    """While each sync of the folder takes 0.2 s eight clients with six jobs each are all answered within some seconds: one sync serves all that wait, and wakes each."""
    with Room() as room:
        room.start()
        watcher = subprocess.Popen(["strace", "-ff", "-qq", "-o", "/dev/null", "-e", "trace=fsync", "-e", "inject=fsync:delay_enter=200000", "-p",
                                    str(room.server.pid)], stdin=subprocess.DEVNULL, stderr=subprocess.DEVNULL)
        time.sleep(2)
        if watcher.poll() is not None:
            raise subprocess.CalledProcessError(1, ["strace"])
        try:
            start = time.monotonic()
            answers = together(8, lambda number: [send(room.port, job, b"x" * 100, host=f"127.0.3.{number + 1}") for job in range(6)])
            took = time.monotonic() - start
        finally:
            watcher.terminate()
            watcher.wait(10)
        check(answers == [[0] * 6] * 8, answers)
        check(took < 15, f"{took:.1f} s")
        return f"{took:.1f} s"


SCENES = (signals_that_stop, the_earlier_stop_holds, stops_wait_for_what_is_printed, rotations_after_so_many_connections, a_stop_whose_last_line_is_lost, rotations_that_are_refused,
          rotations_after_connections_that_are_refused,
          a_rotation_is_printed_at_once, segments_that_wait, room_comes_by_itself, who_asked_and_went_gives_place, clients_that_end_no_line, clients_that_end_their_sending, commands_that_wait, descriptors_that_come_again,
          no_octet_behind_a_stop_now, pauses_begin_anew_behind_a_page, many_syncs_wake_each)

if __name__ == "__main__":
    sys.exit(main(SCENES, __doc__))
