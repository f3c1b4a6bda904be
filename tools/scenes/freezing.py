#!/usr/bin/env python3
"""Scenes in which a server that freezes would: freezing.py PROGRAM [SCENE..], where PROGRAM is the built lpd_server.

Each scene is bounded in time and runs on loopback alone. A line says what was seen; the last line is 'N passed, M failed'."""
import contextlib
import fcntl
import os
import signal
import socket
import struct
import subprocess
import sys
import tempfile
import threading
import time

from client import Server, answer, ask, begin, connect, control, send, spool, state, together
from scene import PROGRAM, check, main


def a_printer_that_takes_no_page():
    """2,000 jobs: each is answered within 2 s, by 00 or by 02, and a state in between within a second."""
    with Server(PROGRAM, spool(limit=4, account=400_000), "--keep-room", "--sessions", "16", device="fifo") as server:
        slowest, answers, states = [0.0], {}, []

        def client(number):
            for job in range(number, 2000, 8):
                start = time.monotonic()
                octet = send(server.port, job % 1000, b"x" * 1000)
                slowest[0] = max(slowest[0], time.monotonic() - start)
                answers[octet] = answers.get(octet, 0) + 1
                if number == 0 and job % 40 == 0:
                    states.append(state(server.port)[1])

        done = together(8, client)
        check(not any(done), done)
        check(set(answers) <= {0, 2} and sum(answers.values()) == 2000, answers)
        check(slowest[0] < 2, slowest)
        check(max(states) < 1, states)
        return f"answers {answers}, the slowest {slowest[0]:.2f} s, states {max(states):.3f} s"


def a_reader_that_leaves():
    """Eight sessions, few pages, twenty jobs at once; the printer's reader leaves after three jobs and comes back."""
    words = ("--sessions", "8", "--silence", "5", "--keep-room")
    with Server(PROGRAM, spool(pages=32, limit=16, size=4096), *words, device="fifo") as server:
        taken = [0]

        def read(octets):
            descriptor = os.open(server.path(), os.O_RDONLY)
            while octets > 0:
                octets -= len(os.read(descriptor, min(octets, 4096)))
                taken[0] += 1
            os.close(descriptor)

        def reader():
            read(3 * 60_000)
            time.sleep(4)
            read(17 * 60_000)

        thread = threading.Thread(target=reader, daemon=True)
        thread.start()
        asked = []

        def client(number):
            if number == 20:
                for _ in range(10):
                    time.sleep(0.5)
                    asked.append(state(server.port)[1])
                return 0
            return send(server.port, number + 1, b"y" * 60_000)

        answers = together(21, client)
        check(max(asked) < 1, asked)
        check(all(octet in (0, 2, None) for octet in answers if not isinstance(octet, Exception)), answers)
        good = sum(octet == 0 for octet in answers[:20])
        return f"{good} of 20 printed, states {max(asked):.3f} s while its reader was away"


def sessions_that_all_wait():
    """64 sessions wait for pages: a state, a start and a removal within a second; a peer that is gone gives its pages back."""
    config = spool(pages=64, size=512, jobs=512, limit=64, queues=("lp", "other"), account=10_000_000)
    with Server(PROGRAM, config, "--sessions", "64", printers=2, device="fifo") as server:
        first = begin(server.port, 1, 64 * 512, b"z" * 512, host="127.0.1.1")
        # (its page has to be lent before another job asks for one: each of them may need all)
        time.sleep(0.3)
        waiting = [begin(server.port, number, 64 * 512, b"z" * 2048, host=f"127.0.2.{number}") for number in range(2, 65)]
        time.sleep(1.5)
        took = {}
        for name, line in (("state", b"\x03lp\n"), ("start", b"\x01lp\n"), ("removal", b"\x05lp root 1\n")):
            took[name] = ask(server.port, line, 10)[1]
        check(max(took.values()) < 1, took)
        for peer in waiting[1:]:
            peer.close()
        first.sendall(b"z" * (63 * 512) + b"\0")
        check(answer(first) == 0, "the first job isn't stored")
        first.close()
        start = time.monotonic()
        for _ in range(40):
            text, _ = state(server.port)
            if server.log().count("its peer is gone") + server.log().count("ended in the middle") >= 62:
                break
            time.sleep(0.1)
        gone = time.monotonic() - start
        check(gone < 3.5, f"peers that are gone are seen after {gone:.1f} s")
        waiting[0].close()
        return f"{ {name: round(seconds, 3) for name, seconds in took.items()} }, 62 gone peers seen within {gone:.1f} s"


def a_peer_that_leaves_in_a_small_file():
    """A peer that leaves in the middle of a file of 8 KB while it waits gives its pages back within 2 s; one that half-closed after
    its whole job is printed."""
    config = spool(pages=16, size=1024, limit=16, queues=("lp", "other"), account=10_000_000)
    with Server(PROGRAM, config, printers=2, device=None) as server:
        holder = begin(server.port, 1, 16 * 1024, b"h" * 1024, queue="other", host="127.0.1.1")
        time.sleep(0.2)
        leaver = begin(server.port, 2, 8192, b"l" * 4000, host="127.0.1.2")
        half = connect(server.port, "127.0.1.3")
        text = control(3)
        half.sendall(b"\x02lp\n\x033000 dfA003h1\n" + b"w" * 3000 + b"\0" + f"\x02{len(text)} cfA003h1\n".encode() + text + b"\0")
        half.shutdown(socket.SHUT_WR)
        time.sleep(0.5)
        start = time.monotonic()
        leaver.close()
        while "its peer is gone" not in server.log() and time.monotonic() - start < 5:
            time.sleep(0.05)
        gone = time.monotonic() - start
        check(gone < 2.2, f"it is seen after {gone:.1f} s")
        time.sleep(1.5)
        check(server.log().count("its peer is gone") == 1, server.log())
        holder.close()
        for _ in range(60):
            if os.path.getsize(server.path(1)) == 3000:
                break
            time.sleep(0.1)
        check(os.path.getsize(server.path(1)) == 3000, "the whole job isn't printed")
        return f"its pages are back after {gone:.1f} s, and the half-closed one's job is printed"


# How many servers a scene that repeats runs, and how many of them at once.
TRIALS, AT_ONCE = 200, 20


def fill(path):
    """Fills a printer's pipe, so that it takes no page. Answers its descriptor, and how many octets are in it."""
    pipe = os.open(path, os.O_RDWR | os.O_NONBLOCK)
    fcntl.fcntl(pipe, fcntl.F_SETPIPE_SZ, 4096)
    filled = 0
    with contextlib.suppress(BlockingIOError):
        while True:
            filled += os.write(pipe, b"." * 64)
    return pipe, filled


def a_whole_job_beside_a_peer_that_leaves(_number):
    """Four pages of 8 octets, two of which a job holds whose printer takes none. The second job has the other two when its peer
    breaks; the third one came whole, with 4 octets in hand and 21 unread, and its peer has half-closed. Answers after how many
    seconds the second one was ended, and whether the third one was refused before the printer went on."""
    with Server(PROGRAM, spool(pages=4, size=8, limit=3, jobs=8, account=100_000), "--sessions", "8", device="fifo") as server:
        pipe, filled = fill(server.path())
        check(send(server.port, 1, b"hello world") == 0, "the first job isn't stored")
        leaver = begin(server.port, 2, 24, b"c" * 20)
        time.sleep(0.3)
        text = control(3)
        half = connect(server.port)
        half.sendall(b"\x02lp\n" + f"\x02{len(text)} cfA003h1\n".encode() + text + b"\0\x0324 dfA003h1\nwwww")
        check([answer(half) for _ in range(4)] == [0] * 4, "the third job isn't begun")
        time.sleep(0.2)
        half.sendall(b"w" * 20 + b"\0")
        half.shutdown(socket.SHUT_WR)
        leaver.setsockopt(socket.SOL_SOCKET, socket.SO_LINGER, struct.pack("ii", 1, 0))
        start = time.monotonic()
        leaver.close()
        while "job 2, which waits for a page, is ended" not in server.log():
            check(time.monotonic() - start < 10, "the second job isn't ended")
            time.sleep(0.02)
        gone = time.monotonic() - start
        # In this time the watcher looks once more.
        half.settimeout(1.2)
        with contextlib.suppress(TimeoutError):
            check(answer(half) == 2, "the third job is stored while no page is free")
            return gone, True
        half.settimeout(10)
        while filled > 0:
            filled -= len(os.read(pipe, filled))
        check(answer(half) == 0, "the third job isn't stored")
        printed = b""
        for _ in range(100):
            with contextlib.suppress(BlockingIOError):
                printed += os.read(pipe, 64)
            if len(printed) == 35:
                break
            time.sleep(0.05)
        check(printed == b"hello world" + b"w" * 24, printed)
        os.close(pipe)
        return gone, False


def whole_jobs_beside_peers_that_leave():
    """Of 200 times no job that came whole is ended because another one's pages came back while the watcher looked, and a job whose
    peer broke is ended within 2 s."""
    gone, refused = [], 0
    for _ in range(0, TRIALS, AT_ONCE):
        for one in together(AT_ONCE, a_whole_job_beside_a_peer_that_leaves):
            check(isinstance(one, tuple), one)
            gone.append(one[0])
            refused += one[1]
    check(refused == 0, f"{refused} of {len(gone)} whole jobs are refused")
    check(max(gone) < 2, f"a job whose peer broke is ended after {max(gone):.2f} s")
    return f"{len(gone)} times, a job whose peer broke is ended after {max(gone):.2f} s at most"


def idle_connections():
    """2,000 connections without a word, and 64 that send one octet: good jobs beside them, and no processor time."""
    import resource
    resource.setrlimit(resource.RLIMIT_NOFILE, (8192, resource.getrlimit(resource.RLIMIT_NOFILE)[1]))
    told = []
    for silent in (200, 2000):
        with Server(PROGRAM, spool(), "--sessions", "8", "--keep-room") as server:
            peers = [connect(server.port) for _ in range(silent)]
            for _ in range(64):
                peer = connect(server.port)
                peer.sendall(b"\x02")
                peers.append(peer)
            took = []
            for number in range(200):
                start = time.monotonic()
                check(send(server.port, number, b"j" * 1000) == 0, "a good job is refused")
                took.append(time.monotonic() - start)
            before = server.processor()
            time.sleep(5)
            used = server.processor() - before
            check(max(took) < 1 and used < 0.15, (max(took), used))
            told.append(f"beside {silent + 64}: the slowest of 200 jobs {max(took) * 1000:.1f} ms, processor in 5 s {used:.2f} s")
            for peer in peers:
                peer.close()
    return "; ".join(told)


def one_address_that_takes_all():
    """64 peers of one address halt in a job; a job of another address is printed at once."""
    config = spool(pages=4096, limit=4, jobs=256)
    with Server(PROGRAM, config, "--sessions", "8", "--per-host", "4", "--keep-room") as server:
        halting = []
        for number in range(64):
            peer = connect(server.port, "127.0.3.1")
            peer.sendall(b"\x02lp\n")
            halting.append(peer)
        time.sleep(0.5)
        start = time.monotonic()
        check(send(server.port, 9, b"g" * 1000, host="127.0.3.2") == 0, "it is refused")
        took = time.monotonic() - start
        check(took < 1, took)
        return f"printed after {took * 1000:.0f} ms"


def a_refused_peer_that_drips():
    """A refused peer that sends an octet now and then keeps its session for some five seconds at most."""
    with Server(PROGRAM, spool(), "--sessions", "1") as server:
        peer = connect(server.port)
        peer.sendall(b"\x02nothing\n")
        check(answer(peer) == 1, "an unknown queue is refused")
        ended = [False]

        def drip():
            with contextlib.suppress(OSError):
                while not ended[0]:
                    peer.sendall(b"d")
                    time.sleep(0.5)

        thread = threading.Thread(target=drip, daemon=True)
        thread.start()
        start = time.monotonic()
        check(send(server.port, 1, b"g" * 100) == 0, "it is refused")
        took = time.monotonic() - start
        ended[0] = True
        check(took < 8, took)
        return f"the next job is taken after {took:.1f} s"


def a_peer_that_drips():
    """With --slowest a peer that sends an octet now and then loses its session after a minute."""
    with Server(PROGRAM, spool(), "--sessions", "1", "--slowest", "100") as server:
        peer = begin(server.port, 1, 4000, b"")
        start = time.monotonic()
        with contextlib.suppress(OSError):
            while time.monotonic() - start < 90:
                peer.sendall(b"d")
                time.sleep(1)
                if "reading failed" in server.log():
                    break
        took = time.monotonic() - start
        check(took < 75, took)
        check(send(server.port, 2, b"g" * 100) == 0, "the next job is refused")
        return f"it is left after {took:.0f} s"


def peers_that_drip_beside_honest_ones():
    """With the words that a site has (those of the package's options), eight peers that drip, of one address and of eight, keep nobody away: neither another
    address nor their own, with --spool and without."""
    with open(f"{os.path.dirname(os.path.abspath(__file__))}/../../packaging/options") as file:
        site = next(line for line in file if line.startswith("OPTIONS=")).split("=", 1)[1].split()
    words = [word for word in site if "printer-" not in word and not word.startswith(("1=", "--printer", "--log"))]
    took = []
    for spooled in (False, True):
        for hosts in (["127.0.4.1"] * 8, [f"127.0.4.{number + 1}" for number in range(8)]):
            with tempfile.TemporaryDirectory() as kept:
                more = ["--spool", f"{kept}/jobs"] if spooled else []
                with Server(PROGRAM, spool(), *words, *more) as server:
                    drips = [begin(server.port, number + 1, 4000, b"", host=host) for number, host in enumerate(hosts)]
                    ended = threading.Event()

                    def drip(peer):
                        with contextlib.suppress(OSError):
                            while not ended.wait(1):
                                peer.sendall(b"d")

                    for peer in drips:
                        threading.Thread(target=drip, args=(peer,), daemon=True).start()
                    time.sleep(2)
                    for number, host in ((21, "127.0.5.1"), (22, "127.0.4.1")):
                        start = time.monotonic()
                        check(send(server.port, number, b"g" * 1000, host=host) == 0, f"job {number} is refused")
                        took.append(time.monotonic() - start)
                    ended.set()
    check(max(took) < 30, took)
    return f"acknowledged after {max(took):.2f} s at most"


def a_log_that_nobody_reads():
    """Standard error is a full pipe: jobs go on; at its end it waits 2 s at most."""
    reader, writer = os.pipe()
    fcntl.fcntl(writer, fcntl.F_SETPIPE_SZ, 4096)
    with Server(PROGRAM, spool(), "--connections", "602", stderr=writer) as server:
        for _ in range(600):
            with contextlib.closing(connect(server.port)) as peer:
                peer.sendall(b"\x7Fgarbage\n")
                answer(peer)
        start = time.monotonic()
        check(send(server.port, 1, b"g" * 100) == 0, "it is refused")
        took = time.monotonic() - start
        check(took < 1, took)
        server.process.wait(15)
        ended = time.monotonic() - start
        check(server.process.returncode == 0, server.process.returncode)
        os.close(reader)
        os.close(writer)
        return f"a job beside it took {took * 1000:.0f} ms, the end {ended:.1f} s"


def an_output_that_is_gone():
    """Standard output's reader is gone: the server goes on, says so at once, and ends with status 4."""
    reader, writer = os.pipe()
    with Server(PROGRAM, spool(), "--connections", "4", "--rotate", "1", stdout=writer) as server:
        os.close(writer)
        # A server that can't print its first line ends.
        check(os.read(reader, 64).startswith(b"listening "), "it doesn't say that it listens")
        os.close(reader)
        for number in (1, 2, 3):
            check(send(server.port, number, b"g" * 100) == 0, "it is refused")
        told = "fault 73 WriteFile" in server.log()
        server.process.wait(15)
        check(told, "it isn't told at once")
        check(server.process.returncode == 4, server.process.returncode)
        return "told at once, three jobs taken, status 4"


def closed_descriptors():
    """Started with each standard descriptor closed, nothing of the log or the output comes into a file: a printer's, a kept job's, a lock or a segment."""
    for closed in ((0,), (1,), (2,), (0, 1, 2)):
        def close(closed=closed):
            for descriptor in closed:
                os.close(descriptor)
        with tempfile.TemporaryDirectory() as room:
            words = ("--connections", "3", "--spool", f"{room}/kept", "--account", f"{room}/account")
            with Server(PROGRAM, spool(), *words, device=None, preexec_fn=close) as server:
                with contextlib.closing(connect(server.port)) as peer:
                    peer.sendall(b"\x7Fgarbage\n")
                    answer(peer)
                check(send(server.port, 1, b"good") == 0, "it is refused")
                server.process.wait(15)
                printed = open(server.path(), "rb").read()
                check(printed == b"good", (closed, printed))
            for folder, _, names in os.walk(room):
                for name in names:
                    octets = open(f"{folder}/{name}", "rb").read()
                    check(b"WARN" not in octets and b"listening" not in octets and b"closed entries" not in octets, f"{closed}: {folder}/{name} has {octets[:200]}")
    return "no file has anything else"


def a_filter_that_is_restarted():
    """A filter reads the printer's pipe, ends and is started again, under load: no job is refused, and the printer isn't stopped."""
    with Server(PROGRAM, spool(account=10_000_000), "--keep-room", device="fifo") as server:
        ended, taken = [False], [0]

        def filters():
            while not ended[0]:
                descriptor = os.open(server.path(), os.O_RDONLY)
                for _ in range(20):
                    taken[0] += len(os.read(descriptor, 4096))
                os.close(descriptor)
                time.sleep(0.02)

        thread = threading.Thread(target=filters, daemon=True)
        thread.start()
        answers = together(8, lambda number: [send(server.port, job, b"f" * 1000) for job in range(number * 100, number * 100 + 50)])
        for _ in range(100):
            if taken[0] >= 400_000:
                break
            time.sleep(0.1)
        ended[0] = True
        text, _ = state(server.port)
        check(all(not isinstance(one, Exception) and set(one) == {0} for one in answers), answers)
        check(text.split(b"\n")[0].endswith(b"stopped 0"), text)
        check(taken[0] >= 400_000, taken)
        return f"400 jobs, {taken[0]} octets read by filters that came and went"


def few_pages_and_a_printer_that_fails():
    """64 clients for 60 s on 256 pages, a printer that fails each page and is started once a second: some client is answered at
    least every 5 s; at the end all pages are free, since four jobs of 64 pages are taken side by side."""
    config = spool(pages=256, limit=64, size=4096, jobs=256, account=16_000_000)
    with Server(PROGRAM, config, "--sessions", "64", "--keep-room", device="/dev/full") as server:
        end = time.monotonic() + 60
        last, longest, ended, clients = [time.monotonic()], [0.0], [0], [0]

        def one(number):
            octet = send(server.port, number, b"f" * 200_000, host=f"127.0.6.{number + 1}", limit=150)
            now = time.monotonic()
            longest[0] = max(longest[0], now - last[0])
            last[0] = now
            ended[0] += 1
            return octet

        def client(number):
            if number == 64:
                while time.monotonic() < end + 120:
                    ask(server.port, b"\x01lp\n")
                    time.sleep(1 if time.monotonic() < end else 0.1)
                    if time.monotonic() > end and b"jobs 0" in state(server.port)[0] and clients[0] == 64:
                        return 0
                return 1
            while time.monotonic() < end:
                one(number)
            clients[0] += 1
            return 0

        done = together(65, client)
        check(not any(done), done)
        check(longest[0] < 5, longest)
        held = together(4, lambda number: send(server.port, number, b"f" * (64 * 4096), host=f"127.0.7.{number + 1}"))
        check(held == [0, 0, 0, 0], held)
        return f"{ended[0]} jobs, at most {longest[0]:.1f} s between two, and all pages free at the end"


def sessions_that_wait_where_nothing_happens():
    """Where nothing at all happens for as long as a peer may be silent, each job that waits for a page is ended, and told; before that none is, and none where anything goes on."""
    with tempfile.TemporaryDirectory() as room:
        words = ("--silence", "3", "--sessions", "8", "--control", f"{room}/control")
        with Server(PROGRAM, spool(pages=8, limit=8, size=512), *words) as server, contextlib.ExitStack() as peers:
            def tell(*told):
                return subprocess.run([PROGRAM, "control", f"{room}/control", *told], capture_output=True, text=True, timeout=20).stdout

            tell("hold", "lp")
            check(send(server.port, 1, b"x" * 4_000) == 0, "a job isn't taken")
            waiting = [peers.enter_context(begin(server.port, 2 + at, 1_000, b"y" * 1_000, host=f"127.0.0.{2 + at}")) for at in range(2)]
            begun = time.monotonic()
            why = "nothing has happened for as long as a peer may be silent"
            # (something goes on meanwhile)
            time.sleep(2)
            check(tell("status").count(" waits for a page") == 2, tell("status"))
            third = peers.enter_context(begin(server.port, 4, 1_000, b"y" * 1_000, host="127.0.0.4"))
            for peer in (*waiting, third):
                peer.settimeout(20)
                peer.sendall(b"\0")
                check(answer(peer) in (1, 2, None), "it is answered by 00")
            took = time.monotonic() - begun
            lines = [line for line in server.log().splitlines() if line.endswith(why)]
            check(len(lines) == 3, f"{lines}: {server.log()[-400:]}")
            check(4.5 < took < 12, f"after {took:.1f} s")
            check(" receiving " not in tell("status"), tell("status"))
        return f"three, after {took:.1f} s"


def room_under_load():
    """16 clients for 10 s as fast as they can, an account with room for 256 jobs and --keep-room: no refusal; beside it the rate with
    an account that is never full."""
    rates, refused = [], []
    limit = 1
    for account in (256 * (200 * limit + 112) + 1, 16_000_000):
        with Server(PROGRAM, spool(limit=limit, account=account, jobs=1024), "--keep-room", "--sessions", "16") as server:
            end = time.monotonic() + 10
            counts = [0] * 16

            def client(number):
                bad = 0
                while time.monotonic() < end:
                    bad += send(server.port, counts[number] % 1000, b"k" * 1000, host=f"127.0.4.{number + 1}") != 0
                    counts[number] += 1
                return bad

            refused.append(together(16, client))
            rates.append(sum(counts) / 10)
    check(not any(refused[0]), refused[0])
    check(rates[0] >= 0.9 * rates[1], rates)
    return f"{rates[0]:.0f} jobs a second, {rates[0] / rates[1]:.2f} of the rate with an account that is never full"


SCENES = [value for value in list(globals().values()) if callable(value) and getattr(value, "__module__", "") == "__main__" and value not in (fill, a_whole_job_beside_a_peer_that_leaves)]
# Those that the short form leaves out.
LONG = [whole_jobs_beside_peers_that_leave, idle_connections, a_peer_that_drips, few_pages_and_a_printer_that_fails, room_under_load]


if __name__ == "__main__":
    signal.signal(signal.SIGPIPE, signal.SIG_IGN)
    sys.exit(main(SCENES, __doc__, LONG))
