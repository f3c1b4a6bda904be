#!/usr/bin/env python3
"""Scenes of a system that gives a server too little, or changes under it: shaking.py PROGRAM [SCENE..], where PROGRAM is the built lpd_server.

Too few descriptors, little memory, a clock that jumps, a disk that becomes read-only, handshakes that are left half open, and more connections than
there are places. Each scene is bounded in time, and runs on loopback alone. A scene whose tools aren't there, or aren't allowed, is left out. A line
says what was seen; the last line is 'N passed, M failed'."""
import contextlib
import ctypes
import glob
import os
import re
import resource
import shutil
import socket
import struct
import subprocess
import sys
import tempfile
import threading
import time

from client import LIMIT, Server, connect, free_port, send, spool, state
from keeping import Room
from scene import PROGRAM, SHORT, check, main, size


def needs(*tools):
    """A scene is left out where one of these isn't there."""
    for tool in tools:
        if not shutil.which(tool):
            raise subprocess.CalledProcessError(127, [tool])


def bounded(what, most):
    """Has a process that is to be begun take no more of this than so much."""
    return lambda: resource.setrlimit(what, (most, most))


class Bounded:
    """A server with all that takes descriptors, which may take no more of something than so much."""

    def __init__(self, what, most):
        self.room = tempfile.TemporaryDirectory()
        folder = self.folder = self.room.name
        self.port, self.shown = free_port(), free_port()
        with open(f"{folder}/spool.toml", "w") as file:
            file.write(spool(account=100_000))
        line = [PROGRAM, "serve", f"{folder}/spool.toml", "--port", str(self.port), "--out", folder, "--spool", f"{folder}/kept", "--account",
                f"{folder}/account", "--control", f"{folder}/control", "--status", str(self.shown), "--keep-room", "--sessions", "4"]
        self.process = subprocess.Popen(line, stdin=subprocess.DEVNULL, stdout=open(f"{folder}/said", "wb"), stderr=open(f"{folder}/log", "wb"),
                                        preexec_fn=bounded(what, most))

    def text(self, name):
        return open(f"{self.folder}/{name}", "rb").read().decode(errors="replace")

    def listens(self):
        """Whether it says that it listens; False once it has ended."""
        for _ in range(600):
            if "listening" in self.text("said"):
                return True
            if self.process.poll() is not None:
                return False
            time.sleep(0.05)
        raise AssertionError(f"neither in 30 s: {self.text('log')[-300:]}")

    def serves(self):
        """A job, a question, a command and a look at the page are each answered."""
        check(send(self.port, 1, b"octets", limit=10) == 0, "a job is taken")
        check(state(self.port, limit=10)[0], "a question is answered")
        told = subprocess.run([PROGRAM, "control", f"{self.folder}/control", "status"], capture_output=True, text=True, timeout=15)
        check(told.returncode == 0, told)
        with contextlib.closing(connect(self.shown, limit=10)) as peer:
            peer.sendall(b"GET /metrics HTTP/1.0\r\n\r\n")
            check(peer.recv(20).startswith(b"HTTP/1.1 200"), "a look is answered")

    def __enter__(self):
        return self

    def __exit__(self, *_):
        self.process.kill()
        self.process.wait()
        self.room.cleanup()


def faults_of(server, fault):
    """The last two lines of one that didn't start: why, and the fault."""
    check(server.process.wait() == 4, server.process.returncode)
    lines = server.text("log").splitlines()
    check(len(lines) > 1 and re.match(fault, lines[-1]), lines)
    return lines[-2:]


def too_few_descriptors():
    """With any number of descriptors a server either says at its start that they are too few, and how many it takes, or serves all who ask. (A server
    said that it listens, and left all who asked without an answer.)"""
    least, told = None, None
    for number in range(8, 34):
        with Bounded(resource.RLIMIT_NOFILE, number) as server:
            if server.listens():
                try:
                    server.serves()
                except (OSError, AssertionError) as error:
                    raise AssertionError(f"{number} descriptors: {error}: {server.text('log')[-300:]}") from error
                least = least or number
                continue
            check(least is None, f"{number} are too few, and {least} weren't")
            lines = faults_of(server, r"fault 7[123] ")
            if seen := re.search(r"(\d+) descriptors are too few: it takes (\d+)$", lines[0]):
                check(int(seen[1]) == number and lines[1].startswith("fault 72 Network 127.0.0.1:") or lines[1] == "fault 72 Network", lines)
                told = int(seen[2])
    check(told is not None and told == least, f"it says that it takes {told}, and serves with {least}")
    return f"{least} at least, as it says with fewer"


def little_memory():
    """With any amount of memory a server either says at its start that it is refused, or takes jobs or refuses them; it never ends by itself then."""
    seen = []
    for megabytes in (10, 20, 30, 60, 100, 150, 200, 300, 400, 600, 1_000):
        with Bounded(resource.RLIMIT_AS, megabytes << 20) as server:
            # (its threads are begun behind the line that says where it listens)
            if not server.listens() or time.sleep(1) or server.process.poll() is not None:
                status, last = server.process.wait(), server.text("log").splitlines()[-1]
                check(status == 4 and last == "fault 12 Memory", f"{megabytes} MB: {status}: {last}")
                seen.append(f"{megabytes}: {last}")
                continue
            answers = set()
            for number in range(20):
                with contextlib.suppress(OSError):
                    answers.add(send(server.port, number, os.urandom(60_000), limit=20))
            check(server.process.poll() is None, f"{megabytes} MB: it ended: {server.text('log')[-300:]}")
            check(answers <= {0, 1, 2, None}, answers)
            with contextlib.suppress(OSError):
                state(server.port, limit=10)
            check(server.process.poll() is None, f"{megabytes} MB: it ended: {server.text('log')[-300:]}")
            seen.append(f"{megabytes}: {sorted(map(str, answers))}")
    return "; ".join(seen)


SHIFTED = r"""
#define _GNU_SOURCE
#include <stdlib.h>
#include <sys/syscall.h>
#include <sys/time.h>
#include <time.h>
#include <unistd.h>
/* The clock that people read is behind or ahead by so many seconds as the link named by CLOCK_SHIFT says; with ALL_CLOCKS so is each other one. */
static long shift(void) {
    char text[32];
    const char *path = getenv("CLOCK_SHIFT");
    long n = path ? readlink(path, text, sizeof text - 1) : -1;
    if (n < 0) return 0;
    text[n] = 0;
    return atol(text);
}
int clock_gettime(clockid_t id, struct timespec *now) {
    int answer = syscall(SYS_clock_gettime, id, now);
    if (answer == 0 && (id == CLOCK_REALTIME || getenv("ALL_CLOCKS"))) now->tv_sec += shift();
    return answer;
}
int gettimeofday(struct timeval *now, void *zone) {
    int answer = syscall(SYS_gettimeofday, now, zone);
    if (answer == 0 && now) now->tv_sec += shift();
    return answer;
}
"""


@contextlib.contextmanager
def a_clock(**more):
    """The environment of a process, with more of it, whose clock can be shifted, and what shifts it by so many seconds."""
    needs("cc")
    with tempfile.TemporaryDirectory() as folder:
        with open(f"{folder}/shifted.c", "w") as file:
            file.write(SHIFTED)
        subprocess.run(["cc", "-shared", "-fPIC", "-O1", "-o", f"{folder}/shifted.so", f"{folder}/shifted.c"], check=True, stderr=subprocess.DEVNULL)

        def shift(seconds):
            os.symlink(str(seconds), f"{folder}/new")
            os.replace(f"{folder}/new", f"{folder}/shift")

        shift(0)
        yield {**os.environ, "LD_PRELOAD": f"{folder}/shifted.so", "CLOCK_SHIFT": f"{folder}/shift", **more}, shift


def a_clock_that_jumps():
    """The clock goes on by ten years, and back by eleven, amid jobs: each is taken within 5 s and printed once, in order; the lines of the log tell the clock's
    time; the page counts the seconds that passed; and the account is legal, with no segment that ends before it begins."""
    port = free_port()
    words = ("--status", str(port), "--log", "time", "--log-jobs", "--keep-room", "--restart", "1", "--silence", "20")
    with a_clock() as (environment, shift), tempfile.TemporaryDirectory() as folder:
        account = f"{folder}/account"
        with Server(PROGRAM, spool(account=20_000, limit=4), *words, "--account", account, "--spool", f"{folder}/kept", "--control", f"{folder}/control", device=None,
                    env=environment) as server:
            slowest, number, began = 0.0, 0, time.monotonic()
            for years in (0, 10, -1, 0, 3):
                shift(years * 365 * 86_400)
                for _ in range(20):
                    start = time.monotonic()
                    check(send(server.port, number % 1_000, f"<{number}>".encode()) == 0, f"job {number} is taken")
                    slowest = max(slowest, time.monotonic() - start)
                    number += 1
                subprocess.run([PROGRAM, "control", f"{folder}/control", "rotate"], capture_output=True, timeout=20)
            told = subprocess.run([PROGRAM, "control", f"{folder}/control", "status"], capture_output=True, text=True, timeout=20).stdout
            up, passed = int(re.search(r"^uptime (\d+)", told, re.M)[1]), time.monotonic() - began
            check(up <= passed + 5, f"up {up} s, and {passed:.0f} passed")
            subprocess.run([PROGRAM, "control", f"{folder}/control", "stop"], capture_output=True, timeout=60)
            check(server.process.wait(timeout=60) == 0, server.log()[-300:])
            printed = open(server.path(), "rb").read()
            log = server.log()
        check(printed == b"".join(f"<{k}>".encode() for k in range(number)), printed[-200:])
        segments = sorted(glob.glob(f"{account}/segment-*"))
        told = subprocess.run([PROGRAM, "audit", *segments], capture_output=True, text=True, timeout=60)
        check(told.returncode == 0 and "legal" in told.stdout, told)
    check(slowest < 5, f"{slowest:.1f} s")
    years = {line[:4] for line in log.splitlines() if re.match(r"\d{4}-\d\d-\d\dT", line)}
    check(len(years) >= 3, f"the log's years: {years}")
    return f"{number} jobs, the slowest took {slowest:.2f} s; {len(segments)} segments; the log's years: {' '.join(sorted(years))}"


@contextlib.contextmanager
def a_printer_that_is_off():
    """The place of a printer on the network that refuses connections."""
    with socket.socket() as off:
        off.bind(("127.0.0.1", free_port()))
        yield "socket://127.0.0.1:%d" % off.getsockname()[1]


def a_full_account_is_told_once_a_minute():
    """While an account has no room, and jobs ask for some, the log tells it once a minute, each time for how long that is."""
    with a_clock(ALL_CLOCKS="1") as (environment, shift), a_printer_that_is_off() as place:
        with Server(PROGRAM, spool(account=3_000, limit=4, jobs=8), "--keep-room", "--printer", f"1={place}", device=None, env=environment) as server:
            answers = [send(server.port, number, b"a page") for number in range(5)]
            check(answers[0] == 0 and answers[-1] == 2, answers)
            told = []
            for seconds in range(15, 256, 15):
                shift(seconds)
                # (a job that comes all at once is let in without a look)
                for _ in range(4):
                    check(send(server.port, 9, b"a page") == 2, "a job is taken")
                told = [int(it) for it in re.findall(r"the account has had no room for (\d+) s: jobs are refused until held ones have gone\n", server.log())]
                check(max(0, seconds - 30) // 60 <= len(told) <= (seconds + 10) // 60, f"after {seconds} s: {told}")
            check(all(60 * minute <= at < 60 * minute + 30 for minute, at in enumerate(told, 1)), told)
    return f"after {', '.join(map(str, told))} s"


@contextlib.contextmanager
def a_real_disk(path, megabytes):
    """A file system of its own that becomes read-only at its first fault: what makes one, and what mounts it anew."""
    needs("mkfs.ext4", "mount", "losetup")
    image = f"{path}.image"
    with open(image, "wb") as file:
        file.truncate(megabytes << 20)
    subprocess.run(["mkfs.ext4", "-q", "-O", "^has_journal", image], check=True, stderr=subprocess.DEVNULL)
    os.makedirs(path, exist_ok=True)

    def mount():
        subprocess.run(["mount", "-o", "loop,errors=remount-ro", image, path], check=True, stderr=subprocess.DEVNULL)

    def mount_anew():
        subprocess.run(["umount", path], check=True)
        subprocess.run(["e2fsck", "-fy", image], check=False, stdout=subprocess.DEVNULL, stderr=subprocess.DEVNULL)
        mount()

    mount()
    try:
        device = subprocess.run(["losetup", "-j", image], capture_output=True, text=True, check=True).stdout.split(":")[0]
        fault = f"/sys/fs/ext4/{os.path.basename(device)}/trigger_fs_error"
        if not os.path.exists(fault):
            raise subprocess.CalledProcessError(1, ["trigger_fs_error"])

        def break_it():
            with open(fault, "w") as file:
                file.write("1")

        yield break_it, mount_anew
    finally:
        subprocess.run(["umount", "-l", path], check=False, stderr=subprocess.DEVNULL)


def a_disk_that_becomes_read_only():
    """The disk of the kept jobs fails, and is read-only from then on: a job is answered by 02 and a line of the log says why; what waited is printed all the same;
    and after the disk is mounted anew a start prints what it has, so that no acknowledged job is lost."""
    with Room() as room, a_real_disk(room.kept, 32) as (break_it, mount_anew):
        room.start()
        check(send(room.port, 1, b"<1>") == 0, "a job is taken")
        room.await_files(0)
        room.tell("hold", "lp")
        taken = [send(room.port, number, f"<{number}>".encode()) for number in range(2, 6)]
        check(taken == [0] * 4, taken)
        room.await_files(4)
        break_it()
        refused = send(room.port, 6, b"<6>")
        check(refused == 2, f"answered by {refused}")
        room.await_log("Read-only file system")
        told = room.tell("release", "lp")
        for _ in range(200):
            if room.printed().endswith(b"<5>"):
                break
            time.sleep(0.05)
        printed = room.printed()
        check(printed == b"<1><2><3><4><5>", f"{printed}: {room.log()[-400:]}")
        check(state(room.port)[0] is not None, "a question is answered")
        check(room.server.poll() is None, "it goes on")
        room.kill()
        mount_anew()
        room.start()
        # (the folder that was read-only still says that it is held)
        room.tell("release", "lp")
        room.await_files(0)
        again = room.printed()[len(printed):]
        check(send(room.port, 7, b"<7>") == 0, "a job is taken again")
        room.await_files(0)
        check(room.printed().endswith(b"<7>"), room.printed())
        return f"02 while it was; after the next start printed again: {again.decode()}; release said {told.strip().splitlines()[0]!r}"


def flood(target, port, count):
    """Begins so many handshakes at an address from others, and ends none."""
    raw = socket.socket(socket.AF_INET, socket.SOCK_RAW, socket.IPPROTO_RAW)
    there = socket.inet_aton(target)

    def total(octets):
        summed = sum(struct.unpack(f"!{len(octets) // 2}H", octets))
        while summed >> 16:
            summed = (summed & 0xFFFF) + (summed >> 16)
        return ~summed & 0xFFFF

    for number in range(count):
        here = socket.inet_aton(f"192.0.2.{2 + number % 250}")
        head = struct.pack("!BBHHHBBH4s4s", 0x45, 0, 40, number & 0xFFFF, 0, 64, 6, 0, here, there)
        body = struct.pack("!HHIIBBHHH", 1_024 + number // 250 % 60_000, port, number, 0, 5 << 4, 2, 64_240, 0, 0)
        summed = total(here + there + struct.pack("!BBH", 0, 6, len(body)) + body)
        body = struct.pack("!HHIIBBHHH", 1_024 + number // 250 % 60_000, port, number, 0, 5 << 4, 2, 64_240, summed, 0)
        raw.sendto(head + body, (target, 0))
    raw.close()


def beside_half_open_handshakes(told):
    """What the scene below does, in a network of its own."""
    libc = ctypes.CDLL(None, use_errno=True)
    if libc.unshare(0x40000000) != 0:
        told.append(("left", "unshare"))
        return
    # (what is answered goes to the far end of a cable, where nobody is)
    for line in ("ip link set lo up", "ip link add near type veth peer name far", "ip addr add 192.0.2.1/24 dev near", "ip link set near arp off up",
                 "ip link set far up"):
        if subprocess.run(line.split(), stderr=subprocess.DEVNULL).returncode != 0:
            told.append(("left", "ip"))
            return
    with Server(PROGRAM, spool(), "--bind", "0.0.0.0", "--sessions", "8") as server:
        most, half = 0.0, 0
        for _ in range(5):
            flood("192.0.2.1", server.port, size("HANDSHAKES", 4_000, 1_000))
            with open("/proc/thread-self/net/tcp") as file:
                half = max(half, sum(line.split()[3] == "03" for line in file.readlines()[1:]))
            for number in range(4):
                start = time.monotonic()
                check(send(server.port, number, b"octets", limit=30) == 0, "a job is taken")
                check(state(server.port)[0] is not None, "a question is answered")
                most = max(most, time.monotonic() - start)
        told.append((half, most))


def handshakes_left_half_open():
    """Beside thousands of handshakes that nobody ends a job is taken, and a question answered, within 5 s."""
    needs("ip")
    told = []

    def work():
        try:
            beside_half_open_handshakes(told)
        except Exception as error:
            told.append(("failed", f"{type(error).__name__} {error}"))

    # (a network of its own is a thread's)
    thread = threading.Thread(target=work)
    thread.start()
    thread.join()
    check(told, "nothing was seen")
    kind, seen = told[-1]
    if kind == "left":
        raise subprocess.CalledProcessError(1, [seen])
    check(kind != "failed", seen)
    check(kind > 0, "no handshake was half open")
    check(seen < 5, f"{seen:.1f} s")
    return f"{kind} half open at once; the slowest job and question took {seen:.2f} s"


def a_full_lobby():
    """Once all 4,096 places are taken a connection more costs the server no more than one of the first: within twice the time of a processor, with what it takes
    to close the oldest one. (It cost 29 times as much, since all places were looked through.)"""
    need = 10_000
    soft, hard = resource.getrlimit(resource.RLIMIT_NOFILE)
    if hard < need:
        raise subprocess.CalledProcessError(1, ["setrlimit"])
    resource.setrlimit(resource.RLIMIT_NOFILE, (need, hard))
    peers = []
    try:
        with Server(PROGRAM, spool(), "--sessions", "4", "--per-host", "4", preexec_fn=bounded(resource.RLIMIT_NOFILE, need)) as server:
            def cost(count):
                began, start = len(peers), server.processor()
                for number in range(count):
                    peers.append(connect(server.port, f"127.3.{number % 200}.{1 + number // 200}"))
                was = -1.0
                while was != server.processor():
                    was = server.processor()
                    time.sleep(0.3)
                return (server.processor() - start) * 1_000 / (len(peers) - began)
            first = cost(1_500)
            cost(2_700)
            full = cost(1_500)
            start = time.monotonic()
            check(state(server.port)[0] is not None, "a question is answered")
            took = time.monotonic() - start
            check(full <= 2 * first + 0.05, f"{first:.3f} ms each, and {full:.3f} ms once it is full")
            check(took < 2, f"a question took {took:.1f} s")
            return f"{first:.3f} ms each at first, {full:.3f} ms once it is full; a question took {took:.2f} s"
    finally:
        for peer in peers:
            peer.close()
        resource.setrlimit(resource.RLIMIT_NOFILE, (soft, hard))


SCENES = (too_few_descriptors, little_memory, a_clock_that_jumps, a_full_account_is_told_once_a_minute, a_disk_that_becomes_read_only, handshakes_left_half_open, a_full_lobby)

if __name__ == "__main__":
    sys.exit(main(SCENES, __doc__, measured=(little_memory,)))
