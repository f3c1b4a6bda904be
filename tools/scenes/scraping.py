#!/usr/bin/env python3
"""Scenes of who asks for the status beside peers that halt: scraping.py PROGRAM [SCENE..], where PROGRAM is the built lpd_server.

What is told of times is looked at with a clock that is set by hand, which wants a C compiler. A line says what was seen; the last line is 'N passed, M failed'."""
import contextlib
import os
import re
import selectors
import socket
import struct
import subprocess
import sys
import tempfile
import threading
import time

from client import Server, answer, connect, free_port, send, spool
from scene import CHECKED, PROGRAM, check, main, size

# How long a request may take beside others, in seconds; how many peers read nothing, and how many seconds pass until one of them comes again: a program
# that checks itself takes long to draw a page.
SOON, DEAF, AGAIN = (30, 10, 1) if CHECKED else (1, 100, 0.05)
PAGE = b"GET / HTTP/1.1\r\nHost: localhost\r\n\r\n"


@contextlib.contextmanager
def shown(config=None, *words, **how):
    """A server that shows its status, and the port of that."""
    port = free_port()
    with Server(PROGRAM, config or spool(), "--status", str(port), *words, **how) as it:
        yield it, port


class Clock:
    """A clock that stands still but where it is set: a library in front of the system's, which the program is started with. It wants a compiler."""

    # (beside it the sync of a file whose path has the end UNSYNCED fails)
    LIBRARY = r"""
#define _GNU_SOURCE
#include <errno.h>
#include <fcntl.h>
#include <stdio.h>
#include <stdlib.h>
#include <string.h>
#include <sys/mman.h>
#include <sys/syscall.h>
#include <time.h>
#include <unistd.h>
static volatile long *now;
__attribute__((constructor)) static void begin(void) {
    int file = open(getenv("CLOCK"), O_RDONLY);
    void *seen = mmap(0, sizeof *now, PROT_READ, MAP_SHARED, file, 0);
    if (seen != MAP_FAILED) now = seen;
    close(file);
}
int clock_gettime(clockid_t clock, struct timespec *told) {
    long left = syscall(SYS_clock_gettime, clock, told);
    if (left == 0 && clock == CLOCK_MONOTONIC && now && *now) {
        told->tv_sec = *now;
        told->tv_nsec = 0;
    }
    return left;
}
int fdatasync(int file) {
    char link[32], path[4096];
    const char *end = getenv("UNSYNCED");
    snprintf(link, sizeof link, "/proc/self/fd/%d", file);
    long count = end ? readlink(link, path, sizeof path) : 0;
    if (end && count >= (long)strlen(end) && memcmp(path + count - strlen(end), end, strlen(end)) == 0) {
        errno = EIO;
        return -1;
    }
    return syscall(SYS_fdatasync, file);
}
"""
    # When a server starts by it, in seconds.
    START = 1_000_000

    def __init__(self):
        self.room = tempfile.TemporaryDirectory()
        self.path, library = f"{self.room.name}/now", f"{self.room.name}/clock.so"
        self.set(0)
        try:
            subprocess.run(["gcc", "-shared", "-fPIC", "-o", library, "-x", "c", "-"], input=self.LIBRARY, text=True, check=True, capture_output=True)
        except OSError as error:
            raise subprocess.CalledProcessError(1, ["gcc"]) from error
        self.environment = {**os.environ, "LD_PRELOAD": library, "CLOCK": self.path}

    def set(self, seconds):
        """It stands so many seconds behind the start of a server."""
        with open(self.path, "r+b" if os.path.exists(self.path) else "wb") as file:
            file.write(struct.pack("q", self.START + seconds))

    def __enter__(self):
        return self

    def __exit__(self, *_):
        self.room.cleanup()


def open_to(port, octets=b"", room=None):
    """A connection to the status that has sent so much, with so much room for what comes."""
    peer = socket.socket()
    if room:
        peer.setsockopt(socket.SOL_SOCKET, socket.SO_RCVBUF, room)
    peer.settimeout(30)
    peer.connect(("127.0.0.1", port))
    peer.setsockopt(socket.IPPROTO_TCP, socket.TCP_NODELAY, 1)
    peer.sendall(octets)
    return peer


def rest(peer):
    """What comes until the end, or until the connection breaks."""
    octets = b""
    with contextlib.closing(peer), contextlib.suppress(ConnectionError):
        while piece := peer.recv(65536):
            octets += piece
    return octets


def ask(port, octets):
    return rest(open_to(port, octets))


def code(answer):
    """The status of an answer; None where there is none."""
    seen = re.match(rb"HTTP/1\.1 (\d{3}) ", answer)
    return int(seen[1]) if seen else None


class Crowd(threading.Thread):
    """Peers that halt in the middle of a head, and come again as soon as they are answered or closed; and others that ask for the page and read
    nothing of it, of which one comes again each `AGAIN` seconds."""

    def __init__(self, port, halting, deaf):
        super().__init__(daemon=True)
        self.port, self.going, self.came = port, True, 0
        self.halted = selectors.DefaultSelector()
        for _ in range(halting):
            self.halt()
        self.deaf = [open_to(port, PAGE, 2048) for _ in range(deaf)]
        self.start()

    def halt(self):
        with contextlib.suppress(OSError):
            self.halted.register(open_to(self.port, b"GET / HTTP/1.1\r\n"), selectors.EVENT_READ)
            self.came += 1

    def run(self):
        turned = time.monotonic()
        while self.going:
            for key, _ in self.halted.select(0.05):
                self.halted.unregister(key.fileobj)
                key.fileobj.close()
                self.halt()
            if self.deaf and time.monotonic() - turned > AGAIN:
                turned = time.monotonic()
                self.deaf.pop(0).close()
                with contextlib.suppress(OSError):
                    self.deaf.append(open_to(self.port, PAGE, 2048))

    def __enter__(self):
        return self

    def __exit__(self, *_):
        self.going = False
        self.join()
        for peer in [*self.deaf, *(key.fileobj for key in list(self.halted.get_map().values()))]:
            peer.close()


def timed(work):
    start = time.monotonic()
    return work(), time.monotonic() - start


def peers_that_halt_hold_up_nobody():
    """Beside 200 halted heads and 100 peers that read nothing, again and again, each scrape is answered soon, and jobs are taken as before."""
    with shown() as (it, port):
        _, alone = timed(lambda: send(it.port, 1, b"x" * 5000))
        with Crowd(port, 200, DEAF) as crowd:
            slowest = jobs = 0
            for turn in range(size("SCRAPES", 100, 30)):
                seen, took = timed(lambda: ask(port, b"GET /metrics HTTP/1.1\r\nHost: localhost\r\n\r\n"))
                check(code(seen) == 200 and b"hurgwaye_connections_total" in seen, f"scrape {turn}: {seen[:60]!r} after {took:.2f} s")
                check(took < SOON, f"scrape {turn} took {took:.2f} s")
                sent, lasted = timed(lambda: send(it.port, 2 + turn, b"x" * 5000))
                check(sent == 0 and lasted < alone + SOON, f"job {turn}: {sent} after {lasted:.2f} s, alone {alone:.2f} s")
                slowest, jobs = max(slowest, took), max(jobs, lasted)
                time.sleep(0.2)
            check(crowd.came > 400, f"those that halt came {crowd.came} times")
            return f"the slowest scrape {slowest:.2f} s, the slowest job {jobs:.2f} s, {alone:.2f} s alone; heads halted {crowd.came} times"


def who_ends_no_line_is_told():
    """Who says nothing, begins a line, ends its lines with CR alone, or comes as to https://, is answered 408 after 2 s. (They waited for ever.)"""
    with shown() as (_, port):
        peers = [open_to(port, octets) for octets in (b"", b"G", b"GET / HTTP/1.1", b"GET / HTTP/1.1\rHost: localhost\r\r", b"\x16\x03\x01\x02\0\x01\0\x01\xfc")]
        start = time.monotonic()
        told = [code(rest(peer)) for peer in peers]
        took = time.monotonic() - start
        check(all(it in (400, 408) for it in told), told)
        check(took < 10, f"{took:.1f} s")
        # (who ends its sending amid its head is told at once)
        peer = open_to(port, b"GET / HTTP/1.1\r\nHost: lo")
        peer.shutdown(socket.SHUT_WR)
        start = time.monotonic()
        halved = code(rest(peer))
        check(halved == 408 and time.monotonic() - start < 1, f"{halved} after {time.monotonic() - start:.1f} s")
        return f"{told}, after {took:.1f} s"


def who_has_halted_longest_gives_way():
    """Of 132 halted heads the first are closed for the last, with no answer; the others are told after 2 s that it took too long."""
    with shown() as (_, port):
        peers = [open_to(port, b"GET / HTTP/1.1\r\nHost: lo") for _ in range(132)]
        told = [code(rest(peer)) for peer in peers]
        check(told == [None] * 4 + [408] * 128, f"{told}")
        return "4 closed, 128 answered 408"


TAKEN = ["localhost", "LocalHost:1", "127.0.0.1", "192.0.2.255:65535", f"0.0.0.0:{'0' * 5}"]
REFUSED = ["", ":1", "...", "1", "1.2.3", "256.0.0.1", "127.0.0.1:", "127.0.0.1:80x", "127.0.0.1:65536", "127.0.0.1:000080", "localhost:9@evil.example",
           "evil.example", "localhost.evil.example", "[::1]"]


def a_host_is_an_address_or_localhost():
    """What `Host` and an absolute target may name, and nothing else."""
    with shown() as (_, port):
        for value, wanted in [*((it, 200) for it in TAKEN), *((it, 400) for it in REFUSED)]:
            seen = code(ask(port, f"GET /metrics HTTP/1.1\r\nHost: {value}\r\n\r\n".encode()))
            check(seen == wanted, f"Host: {value!r}: {seen}")
            seen = code(ask(port, f"GET http://{value}/metrics HTTP/1.1\r\nHost: localhost\r\n\r\n".encode()))
            check(seen == wanted, f"http://{value}/metrics: {seen}")
        for target, fields, wanted in (("HTTP://localhost", "Host: localhost\r\n", 200), ("http://localhost/", "", 400),
                                       ("http://localhost/", "Host: a\r\nHost: a\r\n", 400), ("https://localhost/", "Host: localhost\r\n", 404)):
            seen = code(ask(port, f"GET {target} HTTP/1.1\r\n{fields}\r\n".encode()))
            check(seen == wanted, f"{target} with {fields!r}: {seen}")
        return f"{len(TAKEN)} taken, {len(REFUSED)} refused, each as a field and in a target"


def a_request_in_single_octets():
    """A request that comes octet by octet, within its time, is answered; one that goes on for too long is not."""
    with shown() as (_, port):
        peer = open_to(port)
        for octet in PAGE:
            peer.sendall(bytes([octet]))
            time.sleep(0.01)
        seen = rest(peer)
        check(code(seen) == 200 and seen.endswith(b"</html>"), f"{seen[:60]!r} .. {seen[-20:]!r}")
        peer = open_to(port, b"GET / HTTP/1.1\r\n")
        with contextlib.suppress(OSError):
            for _ in range(60):
                peer.sendall(b"X")
                time.sleep(0.05)
        check(code(rest(peer)) in (408, None), "a head that comes for 3 s is taken")
        return "200 after its last octet; 408 after 2 s"


def a_slow_reader_has_a_whole_page():
    """A page of many jobs that is read in small pieces comes whole within its time, beside peers that read nothing."""
    jobs = 40 if CHECKED else 200
    with tempfile.TemporaryDirectory() as room, shown(spool(pages=4096), "--control", f"{room}/control") as (it, port):
        subprocess.run([PROGRAM, "control", f"{room}/control", "hold", "lp"], check=True, capture_output=True, timeout=30)
        for number in range(jobs):
            check(send(it.port, number, b"x") == 0, f"job {number} isn't taken")
        with Crowd(port, 0, DEAF), contextlib.closing(open_to(port, PAGE, 2048)) as peer:
            octets, start = b"", 0
            while piece := peer.recv(2048):
                start = start or time.monotonic()
                octets += piece
                time.sleep(0.02)
            took = time.monotonic() - start
        count = int(re.search(rb"Content-Length: (\d+)", octets)[1])
        body = octets.split(b"\r\n\r\n", 1)[1]
        check(code(octets) == 200 and len(body) == count, f"{len(body)} of {count} octets after {took:.1f} s")
        check(count > 300 * jobs, f"{count} octets for {jobs} jobs")
        return f"{count} octets in {took:.1f} s"


def until(holds, text, limit=10):
    """Waits until it holds."""
    end = time.monotonic() + limit
    while not holds():
        check(time.monotonic() < end, text() if callable(text) else text)
        time.sleep(0.05)


def command(path, *words):
    """What is answered to a command at a control socket."""
    ran = subprocess.run([PROGRAM, "control", path, *words], capture_output=True, text=True, timeout=30)
    check(ran.returncode == 0, f"{words}: {ran}")
    return ran.stdout


def page_of(port):
    return ask(port, PAGE).decode().partition("\r\n\r\n")[2]


def total(port, name):
    """A counter of /metrics."""
    return int(re.search(rb"(?m)^%s (\d+)$" % name.encode(), ask(port, b"GET /metrics HTTP/1.1\r\nHost: localhost\r\n\r\n"))[1])


# A time in seconds, and how the page tells it.
SPANS = [(0, "0 s"), (1, "1 s"), (59, "59 s"), (60, "1 min"), (61, "1 min"), (119, "1 min"), (120, "2 min"), (3_599, "59 min"), (3_600, "1 h 0 min"), (3_601, "1 h 0 min"),
         (3_659, "1 h 0 min"), (3_660, "1 h 1 min"), (7_199, "1 h 59 min"), (7_200, "2 h 0 min"), (86_399, "23 h 59 min"), (86_400, "1 d 0 h"), (89_999, "1 d 0 h"),
         (90_000, "1 d 1 h"), (172_799, "1 d 23 h"), (172_800, "2 d 0 h"), (8_640_000, "100 d 0 h")]


def times_on_the_page():
    """At each moment the page tells for how long the server runs, and of each held job for how long that is held, to the second; /metrics and `status` tell the same of the
    server."""
    with Clock() as clock, tempfile.TemporaryDirectory() as room, shown(None, "--control", f"{room}/control", env=clock.environment) as (it, port):
        command(f"{room}/control", "hold", "lp")
        # (each job is held since another moment, and the first of them for the longest time)
        came = [0, 1, 60, 3_600]
        for seconds, told in SPANS:
            clock.set(seconds)
            if seconds in came:
                check(send(it.port, seconds % 1000, b"x", host=f"127.0.0.{came.index(seconds) + 2}") == 0, f"the job at {seconds} s isn't taken")
            page = page_of(port)
            check(f'<p class="meta">up {told}</p>' in page, f"at {seconds} s: {re.findall('class=.meta.>([^<]*)', page)}")
            rows = re.search(r'<table class="jobs">.*?</table>', page, re.S)
            ages = re.findall(r'<td class="n">([^<]*)</td><td class="st', rows[0]) if rows else []
            spans = dict(SPANS)
            due = [seconds - since for since in came if since <= seconds]
            check(len(ages) == len(due) and all(age == spans[span] for age, span in zip(ages, due) if span in spans), f"at {seconds} s, {due}: {ages}")
            check(total(port, "hurgwaye_uptime_seconds") == seconds, f"/metrics at {seconds} s")
            check(command(f"{room}/control", "status").startswith(f"uptime {seconds}\n"), f"status at {seconds} s")
    return f"{len(SPANS)} moments"


def curves_of_the_last_hour():
    """The bars of jobs and octets stand where they were printed, each minute's as high as it has to be; before the second look there are none, and what is older than an hour
    has no width."""
    minutes = [[1_000], [500] * 4, [2_000] * 2, []]

    def drawn(port, clock, seconds):
        clock.set(seconds)
        page = page_of(port)
        return re.findall(r'<path class="rate" d="([^"]*)"', page), re.findall(r"<span>([^<]*)</span>", page.partition('id="rates"')[2].partition("</section>")[0])

    # (what comes to a printer that fails isn't printed)
    with Clock() as clock, shown(spool(queues=("lp", "bad")), "--printer", "2=file:/dev/full", printers=2, env=clock.environment) as (it, port):
        check(drawn(port, clock, 0) == ([], []), "bars at the start")
        count = 0
        for minute, jobs in enumerate(minutes):
            for octets in jobs:
                count += 1
                check(send(it.port, count, b"x" * octets) == 0, f"job {count} isn't taken")
            until(lambda: total(port, "hurgwaye_jobs_done_total") == count, f"{count} jobs aren't printed")
            check(minute or drawn(port, clock, 59) == ([], []), "bars at 59 s")
            if not jobs:
                check(send(it.port, 999, b"x" * 3_000, "bad") == 0, "a job of a printer that fails isn't taken")
                until(lambda: total(port, "hurgwaye_jobs_failed_total") == 1, "it doesn't fail")
            curves, ticks = drawn(port, clock, 60 * (minute + 1))
        due = ["M3360 1000V750H3420V1000ZM3420 1000V0H3480V1000ZM3480 1000V500H3540V1000ZM3540 1000V1000H3600V1000Z",
               "M3360 1000V750H3420V1000ZM3420 1000V500H3480V1000ZM3480 1000V0H3540V1000ZM3540 1000V1000H3600V1000Z"]
        scale = ["−60 min", "−45", "−30", "−15", "now"]
        check(curves == due, f"{curves}")
        check(ticks == ["4", "2", "0", *scale, "3.9 KiB", "1.9 KiB", "0 B", *scale], f"{ticks}")
        # (a look that is late stands where it was taken, and a rate is that of a minute)
        for number in range(6):
            check(send(it.port, number, b"x" * 1_000) == 0, "a job isn't taken")
        until(lambda: total(port, "hurgwaye_jobs_done_total") == count + 6, "they aren't printed")
        curves, ticks = drawn(port, clock, 240 + 180)
        check(curves[0] == "M3180 1000V750H3240V1000ZM3240 1000V0H3300V1000ZM3300 1000V500H3360V1000ZM3360 1000V1000H3420V1000ZM3420 1000V500H3600V1000Z", f"{curves[0]}")
        curves, ticks = drawn(port, clock, 3_700)
        due = "M0 1000V750H0V1000ZM0 1000V0H20V1000ZM20 1000V500H80V1000ZM80 1000V1000H140V1000ZM140 1000V500H320V1000ZM320 1000V1000H3600V1000Z"
        check(curves[0] == due and ticks[:3] == ["4", "2", "0"], f"{curves[0]}, {ticks}")
        return f"{len(minutes)} minutes"


def silences_are_those_of_who_is_there():
    """`status` tells of each session how long its own peer has been silent: who comes to a session that another has left isn't as silent as that one was."""
    with Clock() as clock, tempfile.TemporaryDirectory() as room:
        with Server(PROGRAM, spool(), "--control", f"{room}/control", "--sessions", "2", env=clock.environment) as it:
            def silences():
                return dict(re.findall(r"(?m)^session (\S+) silent (\d+)$", command(f"{room}/control", "status")))

            def come(host, seconds):
                """Comes at a second, and says so much that a session has it."""
                clock.set(seconds)
                peer = connect(it.port, host)
                peer.sendall(b"\x02lp\n")
                check(answer(peer) == 0, f"{host} isn't answered")
                return peer, "%s:%d" % peer.getsockname()

            def stands(due):
                until(lambda: silences() == due, lambda: f"due {due}, seen {silences()}")

            first, first_name = come("127.0.0.2", 0)
            stands({first_name: "0"})
            second, second_name = come("127.0.0.3", 40)
            clock.set(100)
            stands({first_name: "100", second_name: "60"})
            for peer, gone, left, host, seconds in ((first, first_name, {second_name: "60"}, "127.0.0.4", 100), (second, second_name, None, "127.0.0.5", 250)):
                peer.close()
                if left:
                    stands(left)
                    third, third_name = come(host, seconds)
                    stands({**left, third_name: "0"})
                    clock.set(130)
                    stands({second_name: "90", third_name: "30"})
                else:
                    stands({third_name: "30"})
                    fourth, fourth_name = come(host, seconds)
                    stands({third_name: "150", fourth_name: "0"})
            third.sendall(b"\x03")
            stands({third_name: "0", fourth_name: "0"})
            for peer in (third, fourth):
                peer.close()
            stands({})
    return "four peers at two sessions"


def a_printer_that_ends_no_connection():
    """That a printer ends no connection is told once three have stayed open for ten seconds each behind their jobs, and not before; from then on it isn't waited for."""
    with Clock() as clock, socket.socket() as there, contextlib.ExitStack() as opened:
        there.bind(("127.0.0.1", 0))
        there.listen(8)
        there.settimeout(20)
        place = f"1=socket://127.0.0.1:{there.getsockname()[1]}"
        told = "it ended none of three connections: from now on that isn't waited for"
        with Server(PROGRAM, spool(), "--printer", place, "--log-jobs", env=clock.environment) as it:
            def has_ended(count):
                return len(re.findall(r" done in ", it.log())) == count

            for number in range(1, 5):
                check(send(it.port, number, b"%d" % number * 1_000) == 0, f"job {number} isn't taken")
                peer = opened.enter_context(there.accept()[0])
                octets = b""
                while piece := peer.recv(4_096):
                    octets += piece
                check(octets == b"%d" % number * 1_000, f"job {number}: {len(octets)} octets")
                if number < 4:
                    # (its end is waited for)
                    clock.set(20 * number - 11)
                    time.sleep(0.7)
                    check(not has_ended(number), f"job {number} is done before its printer had ten seconds")
                    clock.set(20 * number)
                until(lambda: has_ended(number), lambda: f"job {number}: {it.log()[-300:]}")
                check(it.log().count(told) == (number >= 3), f"behind job {number}: {it.log()[-300:]}")
    return "after the third"


def who_has_gone_leaves_nothing():
    """A peer whose place in the lobby another had before, who is served or has gone, is waited for as any: its half line is no line when that one ends, and takes no session."""
    with tempfile.TemporaryDirectory() as room, Server(PROGRAM, spool(), "--control", f"{room}/control", "--sessions", "1") as it:
        def stands():
            return dict(re.findall(r"(?m)^(lobby|session \S+) (?:silent )?(\d+)$", command(f"{room}/control", "status")))

        def come(octets, due):
            peer = connect(it.port)
            peer.sendall(octets)
            until(lambda: due(stands()), lambda: f"{octets}: {stands()}")
            return peer

        def asked(title):
            """Whoever asks is answered, since the half line has no session."""
            for _ in range(3):
                with contextlib.closing(connect(it.port, limit=5)) as peer:
                    peer.sendall(b"\x03lp\n")
                    check(peer.recv(100).startswith(b"queue lp "), f"{title}: who asks isn't answered")
                until(lambda: list(stands()) == ["lobby"], lambda: f"{title}: {stands()}")
                check(stands() == {"lobby": "1"}, f"{title}: {stands()}")

        # (each comes to the place that was left last)
        for title, octets, is_served in (("one that was served", b"\x02lp\n", True), ("one that left amid a line", b"\x03l", False), ("one that said nothing", b"", False)):
            for _ in range(3):
                first = come(octets, lambda seen: len(seen) == 2 if is_served else seen == {"lobby": "1"})
                half = None
                if is_served:
                    half = come(b"\x03l", lambda seen: seen.get("lobby") == "1" and len(seen) == 2)
                first.close()
                if not is_served:
                    until(lambda: stands() == {"lobby": "0"}, lambda: f"{title}: {stands()}")
                    half = come(b"\x03l", lambda seen: seen == {"lobby": "1"})
                until(lambda: stands() == {"lobby": "1"}, lambda: f"{title} has gone: {stands()}")
                asked(title)
                with contextlib.closing(half):
                    half.sendall(b"p\n")
                    check(half.recv(100).startswith(b"queue lp "), f"{title}: the rest of the line isn't answered")
                until(lambda: stands() == {"lobby": "0"}, lambda: f"{title}, at the end: {stands()}")
    return "three that had gone"


SCENES = [
    times_on_the_page,
    curves_of_the_last_hour,
    silences_are_those_of_who_is_there,
    a_printer_that_ends_no_connection,
    who_has_gone_leaves_nothing,
    peers_that_halt_hold_up_nobody,
    who_ends_no_line_is_told,
    who_has_halted_longest_gives_way,
    a_host_is_an_address_or_localhost,
    a_request_in_single_octets,
    a_slow_reader_has_a_whole_page,
]


if __name__ == "__main__":
    sys.exit(main(SCENES, __doc__))
