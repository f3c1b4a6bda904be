#!/usr/bin/env python3
"""Scenes of how printers and jobs stand: standing.py PROGRAM [SCENE..], where PROGRAM is the built lpd_server.

Each state is brought about at a server, and then read at the control socket (`status`), on the page, at /metrics and in the log, which have to
tell the same. A line says what was seen; the last line is 'N passed, M failed'."""
import contextlib
import html
import os
import re
import socket
import subprocess
import sys
import tempfile
import threading
import time
import urllib.request

from client import Server, answer, begin, connect, control, finish, free_port, send, spool
from scene import CHECKED, PROGRAM, check, main

# What a printer is given at once that takes nothing: more than its socket and the server's hold.
MUCH = 6_000_000


@contextlib.contextmanager
def served(config, *words, device=None):
    """A server with a printer, a control socket and a status page."""
    with tempfile.TemporaryDirectory() as room:
        port = free_port()
        with Server(PROGRAM, config, "--control", f"{room}/control", "--status", str(port), "--log-jobs", *words, device=device) as it:
            it.control, it.board = f"{room}/control", port
            yield it


def ask(it, *words):
    ran = subprocess.run([PROGRAM, "control", it.control, *words], stdout=subprocess.PIPE, stderr=subprocess.STDOUT, text=True, timeout=30)
    return ran.stdout


def fetched(it, path):
    request = urllib.request.Request(f"http://127.0.0.1:{it.board}{path}", headers={"Host": f"127.0.0.1:{it.board}"})
    with urllib.request.urlopen(request, timeout=30) as answer:
        return answer.read().decode()


def page(it):
    """The words of the page, each text on a line."""
    text = re.sub(r"<style>.*?</style>", "", fetched(it, "/"), flags=re.S)
    return html.unescape(re.sub(r"<[^>]*>", "\n", text))


def metric(it, name):
    """The value of a metric, with its labels as they stand."""
    found = re.search(rf"^{re.escape(name)} (\d+)$", fetched(it, "/metrics"), re.M)
    check(found, f"no metric {name}")
    return int(found[1])


def until(limit, what, holds):
    """Waits until it holds, and answers what it was."""
    end = time.monotonic() + limit
    while not (seen := holds()):
        check(time.monotonic() < end, f"{what}: not within {limit} s")
        time.sleep(0.1)
    return seen


def line_of(it, beginning, *parts):
    """The line of `status` that begins so, once it has these parts."""
    def found():
        lines = [line for line in ask(it, "status").splitlines() if line.startswith(beginning)]
        return [line for line in lines if all(part in line for part in parts)]
    return until(20, f"{beginning} {parts}", found)[0]


def has(text, *words):
    for word in words:
        check(word in text, f"{word!r} isn't in {text!r}")


def lacks(text, *words):
    for word in words:
        check(word not in text, f"{word!r} is in {text!r}")


class Halting:
    """A printer at a port that takes connections and reads nothing until it is told to. Where it doesn't end them it keeps each once it was read."""

    def __init__(self, port=0, ends=True):
        self.there = socket.socket()
        self.there.setsockopt(socket.SOL_SOCKET, socket.SO_REUSEADDR, 1)
        self.there.setsockopt(socket.SOL_SOCKET, socket.SO_RCVBUF, 4096)
        self.there.bind(("127.0.0.1", port))
        self.there.listen(4)
        self.port = self.there.getsockname()[1]
        self.reads = threading.Event()
        self.count, self.ends, self.kept = 0, ends, []
        threading.Thread(target=self.serve, daemon=True).start()

    def serve(self):
        while True:
            peer, _ = self.there.accept()
            self.reads.wait()
            while piece := peer.recv(1 << 16):
                self.count += len(piece)
            if self.ends:
                peer.close()
            else:
                self.kept.append(peer)


def as_many_sessions_as_are_asked_for():
    """With `--sessions 2` just two connections that bring jobs are served at a time, and the others wait; who asks is answered beside them."""
    with served(spool(), "--sessions", "2") as it:
        with contextlib.ExitStack() as peers:
            for number in range(1, 6):
                peer = peers.enter_context(contextlib.closing(connect(it.port, f"127.0.0.{number}")))
                peer.sendall(b"\x02lp\n")
            until(20, "three wait", lambda: "\nlobby 3\n" in ask(it, "status"))
            time.sleep(0.3)
            told = ask(it, "status")
            check("\nlobby 3\n" in told and told.count("\nsession ") == 2, told)
            with contextlib.closing(connect(it.port, "127.0.0.9")) as peer:
                peer.sendall(b"\x03lp\n")
                check(peer.recv(100).startswith(b"queue lp jobs "), "who asks isn't answered")
    return "two, and three wait"


def idle_and_held():
    """Nothing waits for a person: the page is green. Held, the queue's job waits and the page says so; `status` keeps the printer's word."""
    with served(spool()) as it:
        has(line_of(it, "printer 1 "), "printer 1 lp idle")
        has(page(it), "every printer runs")
        lacks(page(it), "account rotated")
        ask(it, "rotate")
        has(page(it), "account rotated once")
        ask(it, "hold", "lp")
        check(send(it.port, 2, b"x" * 100) == 0, "the job isn't taken")
        line = line_of(it, "job 1 ", "number 002")
        check(line.endswith("received pages 1 octets 100 holds 1 needs 0 number 002 waits: its queue is held"), line)
        has(line_of(it, "printer 1 "), "printer 1 lp idle")
        seen = page(it)
        has(seen, "1 of 1 queues is held", "waits: its queue is held", "job 1 (002)", "idle, its queue is held")
        lacks(seen, "every printer runs")
        check(metric(it, 'hurgwaye_queue_held{queue="lp"}') == 1, "the metric")
        check(send(it.port, 3, b"y" * 100) == 0, "the second job isn't taken")
        line_of(it, "job 2 ", "waits behind job 1 of its sender")
        ask(it, "release", "lp")
        until(20, "the jobs are printed", lambda: "job " not in ask(it, "status"))
        until(10, "the log", lambda: it.log().count(" done in ") == 2)
        return "green; held, with a job that waits and one behind it; and both are printed"


def a_printer_that_is_not_reached():
    """Nobody listens at the printer: told at once, with the job at it; others wait for it. Once somebody listens it is printed."""
    port = free_port()
    with served(spool(), "--printer", f"1=socket://127.0.0.1:{port}") as it:
        check(send(it.port, 5, b"x" * 100) == 0, "the job isn't taken")
        line = line_of(it, "printer 1 lp unreached ")
        check(re.fullmatch(r"printer 1 lp unreached \d+ Connection refused.*", line), line)
        has(line_of(it, "printer 1 lp prints"), "printer 1 lp prints 1 place 0")
        line_of(it, "job 1 ", "waits: printer 1 isn't reached")
        check(send(it.port, 6, b"x" * 100, host="127.0.0.2") == 0, "the second job isn't taken")
        line_of(it, "job 2 ", "waits: printer 1 isn't reached")
        seen = page(it)
        has(seen, "1 of 1 printers isn't reached", "not reached", "Connection refused", "job 1 waits there", "Printers that need somebody")
        lacks(seen, "every printer runs")
        check(metric(it, 'hurgwaye_printer_unreached{queue="lp",printer="1"}') == 1, "the metric")
        has(it.log(), "printer 1: job 1: 127.0.0.1:", "Connection refused")
        printer = Halting(port)
        printer.reads.set()
        until(60, "both jobs come", lambda: printer.count == 200)
        until(30, "nothing is held", lambda: "job " not in ask(it, "status"))
        lacks(ask(it, "status"), "unreached")
        has(page(it), "every printer runs")
        check(metric(it, 'hurgwaye_printer_unreached{queue="lp",printer="1"}') == 0, "the metric afterwards")
        return "not reached, with its cause, at each of the four; and printed once it was there"


def a_printer_that_takes_nothing():
    """A printer takes nothing amid a job: for a minute it prints, and then it says since when nothing goes; once it takes more that is over."""
    printer = Halting()
    config = spool(pages=2048, limit=2000, account=4_000_000)
    with served(config, "--printer", f"1=socket://127.0.0.1:{printer.port}") as it:
        check(send(it.port, 7, b"x" * MUCH, limit=300) == 0, "the job isn't taken")
        line_of(it, "printer 1 lp prints 1 ")
        time.sleep(5)
        lacks(ask(it, "status"), "unreached")
        has(page(it), "every printer runs")
        until(90, "it is told", lambda: "printer 1 lp unreached " in ask(it, "status"))
        has(line_of(it, "printer 1 lp unreached "), "it takes nothing")
        has(page(it), "1 of 1 printers isn't reached", "it takes nothing")
        check(metric(it, 'hurgwaye_printer_unreached{queue="lp",printer="1"}') == 1, "the metric")
        until(20, "the log", lambda: "has taken nothing for 1 min" in it.log())
        printer.reads.set()
        until(60, "the job comes", lambda: printer.count == MUCH)
        until(30, "nothing is held", lambda: "job " not in ask(it, "status"))
        lacks(ask(it, "status"), "unreached")
        return "told after a minute, in the log too, and over once it took more"


def a_printer_that_is_stopped():
    """A page fails: the printer is stopped, with since when and why, and the jobs of its queue wait for somebody."""
    with served(spool(), "--printer", "1=file:/dev/full") as it:
        check(send(it.port, 8, b"x" * 100) == 0, "the job isn't taken")
        line = line_of(it, "printer 1 lp stopped ")
        has(line, "No space left on device")
        check(send(it.port, 9, b"x" * 100) == 0, "the second job isn't taken")
        line_of(it, "job 2 ", "number 009", "waits: the printers of its queue are stopped")
        seen = page(it)
        has(seen, "1 of 1 printers is stopped", "No space left on device", "waits: the printers of its queue are stopped", "job 2 (009)", "Printers that need somebody")
        check(metric(it, 'hurgwaye_printer_stopped{queue="lp",printer="1"}') == 1, "the metric")
        has(it.log(), "failed in ", "No space left on device")
        return "stopped, with its cause, and a job that waits for somebody"


def times_of_a_job():
    """A job arrives from its acceptance until it is whole, and is printed from then on: of one that halts for two seconds amid its octets the first time has these, and the
    second one hasn't."""
    with served(spool()) as it:
        peer = begin(it.port, 1, 11, b"hello ")
        time.sleep(2)
        check(finish(peer, 1, b"world") == 0, "the job isn't taken")
        until(20, "the job is printed", lambda: " done in " in it.log())
        seen = fetched(it, "/metrics")
        arriving, printing = (float(re.search(rf"^hurgwaye_job_{name}_seconds_sum ([0-9.]+)$", seen, re.M)[1]) for name in ("arriving", "printing"))
        check(2 <= arriving < 4 and printing < 1, f"arriving {arriving}, printing {printing}")
        return f"arriving {arriving} s, printing {printing} s"


def jobs_that_arrive():
    """Jobs that come: one whose control file is there and no octet else, and one with pages of those that are told. Their peers go away, and they are
    given up."""
    with served(spool(pages=64)) as it:
        with contextlib.closing(connect(it.port)) as first, contextlib.closing(begin(it.port, 2, 4096 * 8, b"x" * 4096 * 3, host="127.0.0.2")):
            text = control(1)
            for line in (b"\x02lp\n", f"\x02{len(text)} cfA001h1\n".encode(), text + b"\0"):
                first.sendall(line)
                check(answer(first) == 0, f"{line} isn't taken")
            line_of(it, "job ", " ann h1 receiving pages 0 octets 0 ", " number 001 nothing of it came yet")
            line_of(it, "job ", "receiving pages 3 ", " number 002 3 of 8 pages came")
            has(page(it), "arriving", "nothing of it came yet", "3 of 8 pages came", "every printer runs")
            check(metric(it, 'hurgwaye_jobs{queue="lp",phase="arriving"}') == 2, "the metric")
        until(20, "both are given up", lambda: "job " not in ask(it, "status"))
        until(10, "the log", lambda: it.log().count(" aborted in ") == 2)
        return "arriving, with nothing and with pages, and given up"


def pages_kept_for_another_job():
    """Pages are free, and a job waits for one all the same: they are kept for the job that can finish with them. Once that has them none is free, and
    the job waits on. The queue's hold ends, what is held is printed, and the job gets its pages."""
    with served(spool(pages=16, limit=16)) as it:
        ask(it, "hold", "lp")
        check(send(it.port, 1, b"x" * 4096 * 8) == 0, "the first job isn't taken")
        with contextlib.closing(begin(it.port, 2, 4096 * 8, b"x" * 4096 * 3)) as second:
            line_of(it, "job 2 ", "receiving", "number 002", "3 of 8 pages came")
            with contextlib.closing(begin(it.port, 3, 4096 * 12, b"x" * 4096, host="127.0.0.2")) as third:
                line = line_of(it, "job 3 ", "waits for a page: ")
                check(line.endswith(" holds 0 needs 16 number 003 waits for a page: those free are kept for job 2"), line)
                has(page(it), "3 of 8 pages came", "waits for a page: those free are kept for job 2", "jobs wait: the pool is full of jobs for lp, 11 of 16 pages")
                check(metric(it, "hurgwaye_pool_full") == 1 and metric(it, "hurgwaye_jobs_put_off") == 1, "the metrics")
                check(metric(it, 'hurgwaye_pages{place="free"}') == 5, "no page is free")
                check(finish(second, 2, b"x" * 4096 * 5) == 0, "the second job isn't taken")
                line_of(it, "job 3 ", "waits for a page: none is free")
                has(page(it), "waits for a page: none is free", "jobs wait: the pool is full of jobs for lp, 16 of 16 pages")
                check(metric(it, 'hurgwaye_pages{place="free"}') == 0 and metric(it, "hurgwaye_jobs_put_off") == 1, "the metrics of a full pool")
                ask(it, "release", "lp")
                check(finish(third, 3, b"x" * 4096 * 11) == 0, "the third job isn't taken")
        until(30, "all are printed", lambda: "job " not in ask(it, "status"))
        until(10, "the log", lambda: it.log().count(" done in ") == 3)
        check(metric(it, "hurgwaye_pool_full") == 0, "the pool is full")
        return "kept for another job, and none free, told at each; and printed once there was room"


def a_next_page_that_is_due():
    """Between two pages of a job none is at its printer, and the next one is due: for so short that jobs of many small pages are sent, and each that tells
    how a job stands is asked until it has told that."""
    config = spool(pages=8192, size=16, limit=2000, account=4_000_000)
    with served(config) as it:
        ended = threading.Event()

        def send_all():
            number = 0
            while not ended.is_set() and send(it.port, number % 1000, b"x" * 16 * 2000) == 0:
                number += 1

        sender = threading.Thread(target=send_all, daemon=True)
        sender.start()
        until(60, "status", lambda: " its next page is due" in ask(it, "status"))
        until(60, "the page", lambda: "its next page is due" in page(it))
        printing, busy = 'hurgwaye_jobs{queue="lp",phase="printing"} 1\n', 'hurgwaye_printer_busy{queue="lp",printer="1"} 0\n'
        until(60, "the metrics", lambda: all(part in told for told in [fetched(it, "/metrics")] for part in (printing, busy)))
        ended.set()
        sender.join(60)
        until(60, "all are printed", lambda: "job " not in ask(it, "status"))
        until(10, "the log", lambda: it.log().count(" done in ") > 0)
        lacks(it.log(), " failed in ")
        return f"told at each, amid {it.log().count(' done in ')} jobs"


def a_removed_job_that_ends():
    """A job is removed while a page of it is at its printer, a pipe that nobody reads: it is ending until that page is back, and the next one waits. Once
    somebody reads, it is gone, and the next one is printed."""
    with served(spool(pages=256, limit=64), device="fifo") as it:
        check(send(it.port, 2, b"x" * 4096 * 40) == 0, "the job isn't taken")
        line = line_of(it, "job 1 ", " is at printer 1")
        check(re.search(r" received pages 40 octets 163840 .* number 002 page \d+ is at printer 1$", line), line)
        has(page(it), "printing", " is at printer 1", "every printer runs")
        check(send(it.port, 3, b"y" * 100, host="127.0.0.2") == 0, "the second job isn't taken")
        line_of(it, "job 2 ", "number 003 waits for a printer")
        check(ask(it, "cancel", "job", "1") == "removed job 1 (002) ann@h1 of lp\n", "the job isn't removed")
        line = line_of(it, "job 1 ", " ended ")
        check(line.endswith(" number - a page of it is still at a printer"), line)
        has(line_of(it, "printer 1 "), "printer 1 lp prints 1 place ")
        has(page(it), "ended", "a page of it is still at a printer", "waits for a printer")
        check(metric(it, 'hurgwaye_jobs{queue="lp",phase="ended"}') == 1, "the metric")
        check(" job 1 lp 002 ann@h1 " in it.log() and " removed in " in it.log(), it.log())
        pipe = os.open(it.path(), os.O_RDONLY | os.O_NONBLOCK)

        def gone():
            with contextlib.suppress(BlockingIOError):
                os.read(pipe, 1 << 20)
            return "job " not in ask(it, "status")

        until(30, "both jobs go", gone)
        os.close(pipe)
        check(metric(it, 'hurgwaye_jobs{queue="lp",phase="ended"}') == 0, "the metric afterwards")
        until(10, "the log", lambda: re.search(r"job 2 lp 003 .* done in ", it.log()))
        return "printing, ending and waiting for a printer, told at each; and over once the pipe was read"


def sessions_stand_oldest_first():
    """Sessions are told in the order in which they came, whichever seats they have, each with since when nothing came from it: the first of three goes, and a fourth one gets
    its seat."""
    with served(spool()) as it:
        peers, heard = [], time.monotonic()
        for _ in range(3):
            peers.append(connect(it.port))
            peers[-1].sendall(b"\x02lp\n")
            check(peers[-1].recv(1) == b"\0", "it isn't served")
        peers.pop(0).close()
        silences = lambda: re.findall(r"^session 127\.0\.0\.1:(\d+) silent (\d+)$", ask(it, "status"), re.M)
        seen = lambda: [port for port, _ in silences()]
        until(10, "two are left", lambda: len(seen()) == 2)
        time.sleep(3)
        begun = time.monotonic()
        peers.append(connect(it.port))
        peers[-1].sendall(b"\x02lp\n")
        check(peers[-1].recv(1) == b"\0", "it isn't served")
        ports = [str(peer.getsockname()[1]) for peer in peers]
        check(seen() == ports, f"{seen()} and not {ports}")
        silent = [int(seconds) for _, seconds in silences()]
        now = time.monotonic()
        check(all(2 <= seconds <= now - heard for seconds in silent[:2]) and silent[2] <= now - begun, f"silent for {silent} s")
        # (one that says more is silent from then on)
        peers[0].sendall(b"\x0311 dfA001h1\n")
        check(peers[0].recv(1) == b"\0", "it isn't served")
        until(10, "it is silent no more", lambda: int(silences()[0][1]) < int(silences()[1][1]) - 1)
        text = page(it)
        check(text.index(ports[0]) < text.index(ports[1]) < text.index(ports[2]), "the page has another order")
        for peer in peers:
            peer.close()
    return "three, in their order"


def a_printer_that_keeps_its_connection():
    """A printer on the network has taken a whole job, and doesn't end the connection: the job is held no more, nothing is said of the printer, and the next
    job waits for it. Once that isn't waited for any more, the log has the job's end and the doubt."""
    printer = Halting(ends=False)
    printer.reads.set()
    with served(spool(), "--printer", f"1=socket://127.0.0.1:{printer.port}") as it:
        check(send(it.port, 1, b"x" * 100) == 0, "the job isn't taken")
        until(10, "the printer has it", lambda: printer.count == 100)
        until(5, "it is held no more", lambda: "job " not in ask(it, "status"))
        has(line_of(it, "printer 1 "), "printer 1 lp idle")
        has(page(it), "every printer runs", "No job is held.")
        lacks(it.log(), " done in ")
        check(send(it.port, 2, b"y" * 100, host="127.0.0.2") == 0, "the next job isn't taken")
        line_of(it, "job 2 ", "number 002 waits for a printer")
        has(page(it), "waits for a printer", "idle")
        until(30, "the log", lambda: re.search(r"job 1 lp 001 .* done in ", it.log()))
        has(it.log(), "printer 1: job 1: ", "the printer didn't end the connection: its last octets may not have come")
        until(10, "the next job comes", lambda: printer.count == 200)
        return "idle, and the next job waits; told in the log once it was over"


def jobs_that_are_refused():
    """The account has no room for another job: it is refused, and that is told first."""
    with served(spool(account=7_000, limit=16)) as it:
        ask(it, "hold", "lp")
        check(send(it.port, 1, b"x" * 100) == 0, "the first job isn't taken")
        check(send(it.port, 2, b"x" * 100) == 0, "the second job isn't taken")
        check(send(it.port, 3, b"x" * 100) != 0, "the third job is taken")
        seen = page(it)
        has(seen, "refuses jobs: the account is full")
        check(seen.index("refuses jobs") < seen.index("1 of 1 queues is held"), "the worst isn't first")
        check(metric(it, 'hurgwaye_queue_refusing{queue="lp"}') == 1, "the metric")
        return "the account is full, told first"


def kept_jobs_are_called_by_their_files():
    """With --spool a job is called by its file, which lasts over a restart, and by its sender's number; one that waits in the folder has no other number."""
    with tempfile.TemporaryDirectory() as kept:
        words = ("--spool", f"{kept}/jobs", "--keep-room", "--printer", "1=file:/dev/full")
        with served(spool(), *words) as it:
            check(send(it.port, 2, b"x" * 100) == 0, "the job isn't taken")
            line_of(it, "printer 1 lp stopped ")
            check(send(it.port, 4, b"x" * 100) == 0, "the second job isn't taken")
            line_of(it, "kept waiting 1 failed 1")
            has(page(it), "1 kept job has failed")
            check(metric(it, 'hurgwaye_kept_jobs{state="failed"}') == 1, "the metric")
            check(metric(it, 'hurgwaye_kept_jobs{state="waiting"}') == 1, "the metric of those that wait")
        with served(spool(), *words[:3]) as it:
            until(20, "it is printed", lambda: os.path.exists(it.path()) and os.path.getsize(it.path()) == 100)
            until(10, "the log", lambda: re.search(r"job 1 lp 004 ann@h1 .* done in [\d.]+ s file 2$", it.log(), re.M))
            seen = page(it)
            has(seen, "1 kept job has failed", " + 1 failed")
            lacks(seen, "every printer runs")
        with served(spool(limit=64), *words[:3], device="fifo") as it:
            check(send(it.port, 6, b"x" * 100_000) == 0, "the third job isn't taken")
            line_of(it, "job 1 ", "number 006 file 2 ")
            check(re.search(r"file 2 \(006\)\s+job 1\n", page(it)), page(it))
            until(10, "the log", lambda: re.search(r"job 1 lp 006 ann@h1 .* received in [\d.]+ s file 2$", it.log(), re.M))
        return "file 2 (006), in `status`, on the page and in the log; another file 2 before and after a restart"


SCENES = [
    as_many_sessions_as_are_asked_for,
    idle_and_held,
    a_printer_that_is_not_reached,
    a_printer_that_is_stopped,
    jobs_that_arrive,
    times_of_a_job,
    pages_kept_for_another_job,
    # (of a program that doesn't check itself the moment is too short to be met)
    *([a_next_page_that_is_due] if CHECKED else []),
    a_removed_job_that_ends,
    jobs_that_are_refused,
    kept_jobs_are_called_by_their_files,
    sessions_stand_oldest_first,
    a_printer_that_keeps_its_connection,
    a_printer_that_takes_nothing,
]


if __name__ == "__main__":
    sys.exit(main(SCENES, __doc__, long=(a_printer_that_takes_nothing,)))
