#!/usr/bin/env python3
"""Scenes of a server behind a proxy (`serve --proxied`): proxying.py PROGRAM [SCENE..], where PROGRAM is the built lpd_server.

The proxy's headers (the PROXY protocol, versions 1 and 2) come whole, cut, late, bad or not at all, from 127.0.0.2. Each scene is
bounded in time and runs on loopback alone. A line says what was seen; the last line is 'N passed, M failed'."""
import contextlib
import re
import resource
import socket
import sys
import threading
import time

from client import Server, answer, connect, spool, together
from scene import PROGRAM, check, main

PROXY = "127.0.0.2"
WORDS = ("--proxied", PROXY, "--allow", "10.0.0.0/8", "--per-host", "2", "--keep-room", "--log", "time")
SIGNATURE = b"\r\n\r\n\0\r\nQUIT\n"
LOCAL = SIGNATURE + b"\x20\0\0\0"


def line_header(host, port=5):
    """A header of version 1."""
    return f"PROXY TCP4 {host} 127.0.0.1 {port} 515\r\n".encode()


def block_header(host, port=5, behind=b""):
    """A header of version 2, with these octets behind the addresses."""
    body = socket.inet_aton(host) + socket.inet_aton("127.0.0.1") + port.to_bytes(2, "big") + (515).to_bytes(2, "big") + behind
    return SIGNATURE + b"\x21\x11" + len(body).to_bytes(2, "big") + body


def job(number, octets):
    """All that a client sends of a job."""
    name = f"A{number % 1000:03}h".encode()
    text = b"Hh\nPann\nldf" + name + b"\n"
    return (b"\x02lp\n" + b"\x03%d df" % len(octets) + name + b"\n" + octets + b"\0"
            + b"\x02%d cf" % len(text) + name + b"\n" + text + b"\0")


def server():
    return Server(PROGRAM, spool(pages=64, jobs=64, limit=4, account=4_000_000), *WORDS, device=None)


def visit(one, host=PROXY):
    return connect(one.port, host)


def taken(peer, count=5):
    """Whether so many octets 00 are answered."""
    return [answer(peer) for _ in range(count)] == [0] * count


def end(peer):
    """What comes before the connection ends. One that is closed with octets unread ends in a reset."""
    try:
        return peer.recv(16)
    except ConnectionResetError:
        return b""


def cut_anywhere():
    """Headers of both versions cut in two at each of their first 60 octets, and octet by octet; behind each a job."""
    with server() as one:
        count = 0
        for header in (line_header("10.1.2.3"), block_header("10.1.2.3"), block_header("10.1.2.4", 7, b"x" * 300)):
            for cut in range(min(len(header), 60)):
                count += 1
                with contextlib.closing(visit(one)) as peer:
                    peer.sendall(header[:cut])
                    time.sleep(0.01)
                    peer.sendall(header[cut:] + job(count, b"job%d." % count))
                    check(taken(peer), f"cut at {cut} of {header!r}")
            count += 1
            with contextlib.closing(visit(one)) as peer:
                for at in range(len(header)):
                    peer.sendall(header[at:at + 1])
                peer.sendall(job(count, b"job%d." % count))
                check(taken(peer), f"octet by octet: {header!r}")
        time.sleep(1)
        printed = open(one.path(), "rb").read()
        check(all(printed.count(b"job%d." % number) == 1 for number in range(1, count + 1)), "not each is printed once")
        return f"{count} jobs acknowledged and printed"


def the_proxy_itself():
    """The proxy's own checks are answered, though its address isn't let in."""
    with server() as one:
        for header in (LOCAL, b"PROXY UNKNOWN\r\n"):
            with contextlib.closing(visit(one)) as peer:
                peer.sendall(header + b"\x03lp\n")
                check(peer.recv(100).startswith(b"queue lp jobs 0"), header)
        return "LOCAL and UNKNOWN are answered"


def headers_that_dont_count():
    """What is no header, is too long, names no IPv4 address or one that isn't let in, is closed at once, and told once."""
    cases = {
        "no header": b"\x02lp\n",
        "a length of 65,535": SIGNATURE + b"\x21\x11\xff\xff",
        "a length of 2,049": SIGNATURE + b"\x21\x11\x08\x01",
        "IPv6, version 1": b"PROXY TCP6 ::1 ::1 1 2\r\n\x02lp\n",
        "IPv6, version 2": SIGNATURE + b"\x21\x21\0\x24" + bytes(36),
        "an address that isn't let in": line_header("11.0.0.1", 7),
        "a line that is too long": b"PROXY TCP4 " + b"1" * 200,
        "a line that ends in LF alone": b"PROXY TCP4 10.1.2.3 127.0.0.1 5 515\n",
    }
    with server() as one:
        slowest = 0.0
        for name, octets in cases.items():
            with contextlib.closing(visit(one)) as peer:
                begun = time.monotonic()
                peer.sendall(octets)
                check(end(peer) == b"", f"{name}: it is answered")
                slowest = max(slowest, time.monotonic() - begun)
        check(slowest < 1, f"the slowest end came after {slowest:.2f} s")
        # A second header is a first line that no request has.
        with contextlib.closing(visit(one)) as peer:
            peer.sendall(line_header("10.9.9.9", 9) + block_header("10.8.8.8") + b"\x02lp\n")
            check(end(peer) == b"\x01", "a second header isn't refused")
        for octets in (b"PROXY TCP4 10.1", b""):
            with contextlib.closing(visit(one)) as peer:
                peer.sendall(octets)
                peer.shutdown(socket.SHUT_WR)
                check(end(peer) == b"", "one that is cut is answered")
        # (a session tells its end once it has left its peer)
        for _ in range(200):
            if "BadCode" in one.log():
                break
            time.sleep(0.1)
        log = one.log()
        for text in ("its PROXY header: it is bad", "its PROXY header: it names no IPv4 address", "its PROXY header: the connection ended in the middle",
                     "11.0.0.1:7: its address isn't let in", "10.9.9.9:9: 30 BadCode"):
            check(len(re.findall(re.escape(text), log)) == 1, f"'{text}' is told {log.count(text)} times: {log}")
        return f"{len(cases) + 3} end, the slowest after {slowest:.3f} s; each kind is told once"


def from_elsewhere():
    """From an address that is no proxy's, octets are read as ever: a header is a line that no request has."""
    words = ("--proxied", PROXY, "--keep-room")
    with Server(PROGRAM, spool(), *words, device=None) as one:
        for header in (line_header("10.1.2.3"), block_header("10.1.2.3")):
            with contextlib.closing(visit(one, "127.0.0.3")) as peer:
                peer.sendall(header + job(1, b"believed"))
                check(end(peer)[:1] == b"\x01", f"{header!r} is believed")
        with contextlib.closing(visit(one, "127.0.0.3")) as peer:
            peer.sendall(job(2, b"as ever"))
            check(taken(peer), "a job without a header isn't taken")
        return "a header is refused there, and a job is taken as ever"


def late_ones():
    """A header that isn't whole after 3 s ends the connection."""
    with server() as one:
        peers, begun, after = [], time.monotonic(), []
        for octets in (b"", b"P", SIGNATURE, block_header("10.1.2.3")[:27]):
            peers.append(visit(one))
            peers[-1].sendall(octets)
        for peer in peers:
            check(end(peer) == b"", "a late one is answered")
            after.append(time.monotonic() - begun)
            peer.close()
        check(2.9 < min(after) and max(after) < 5, after)
        check(one.log().count("it hasn't come within 3 s") >= 1, one.log())
        return "closed after " + ", ".join(f"{seconds:.2f}" for seconds in after) + " s"


def hosts_behind_one_proxy():
    """Two sessions of one host are held, its third connection waits; 40 others send five jobs each, and a question is answered."""
    with server() as one:
        held = []
        for _ in range(2):
            held.append(visit(one))
            held[-1].sendall(block_header("10.0.0.1") + b"\x02lp\n")
            check(answer(held[-1]) == 0, "a session isn't given")
        third = visit(one)
        third.sendall(block_header("10.0.0.1") + b"\x02lp\n")
        third.settimeout(0.5)
        with contextlib.suppress(TimeoutError):
            raise AssertionError(f"the third is answered {third.recv(1)}")

        def sender(number):
            for k in range(5):
                with contextlib.closing(visit(one)) as peer:
                    peer.sendall(block_header(f"10.0.1.{number}") + job(k, b"<%d-%d>" % (number, k)))
                    check(taken(peer), f"job {k} of {number}")

        asked = []

        def ask():
            begun = time.monotonic()
            with contextlib.closing(visit(one)) as peer:
                peer.sendall(block_header("10.0.2.2") + b"\x03lp\n")
                check(peer.recv(100).startswith(b"queue lp"), "the question isn't answered")
            asked.append(time.monotonic() - begun)

        questions = threading.Thread(target=lambda: [ask() for _ in range(10)])
        questions.start()
        wrong = [it for it in together(40, sender) if it]
        questions.join()
        check(not wrong and len(asked) == 10, wrong)
        for peer in held:
            peer.close()
        third.settimeout(20)
        check(answer(third) == 0, "the third isn't served")
        third.close()
        time.sleep(1)
        printed = open(one.path(), "rb").read()
        check(all(printed.count(b"<%d-%d>" % (n, k)) == 1 for n in range(40) for k in range(5)), "not each is printed once")
        return f"200 jobs, and questions within {max(asked):.3f} s"


def three_thousand_silent():
    """Beside 3,000 silent connections of the proxy nobody waits longer than 1 s, and the server takes no more memory than for others."""
    resource.setrlimit(resource.RLIMIT_NOFILE, (9000, 9000))
    # (a job reserves 312 entries of the account, some 50 KB)
    with Server(PROGRAM, spool(pages=64, jobs=64, limit=1, account=4_000_000), *WORDS, device=None) as one:
        def memory():
            return int(re.search(r"VmHWM:\s+(\d+)", open(f"/proc/{one.process.pid}/status").read())[1]) // 1024

        before, used = memory(), one.processor()
        flood = [visit(one) for _ in range(3000)]
        worst = 0.0
        for number in range(100):
            begun = time.monotonic()
            with contextlib.closing(visit(one)) as peer:
                peer.sendall(block_header("10.0.3.3") + job(number, b"beside."))
                check(taken(peer), f"job {number} beside them")
            worst = max(worst, time.monotonic() - begun)
        check(worst < 1, f"the slowest of 100 jobs took {worst:.2f} s")
        for peer in flood:
            peer.settimeout(12)
            check(end(peer) == b"", "a silent one is answered")
            peer.close()
        after, used = memory(), one.processor() - used
        time.sleep(0.5)
        idle = one.processor()
        time.sleep(3)
        idle = one.processor() - idle
        check(after - before < 32, f"{before} MB before, {after} behind")
        check(idle < 0.2, f"{idle:.2f} s of a processor in 3 s with nobody there")
        return f"the slowest of 100 jobs {worst:.3f} s; {before} MB before, {after} at the peak; {used:.2f} s of a processor for all, {idle:.2f} in 3 s behind"


SCENES = [cut_anywhere, the_proxy_itself, headers_that_dont_count, from_elsewhere, late_ones, hosts_behind_one_proxy, three_thousand_silent]


if __name__ == "__main__":
    sys.exit(main(SCENES, __doc__, measured=[late_ones, three_thousand_silent]))
