#!/usr/bin/env python3
"""This server beside LPRng, BSD lpd and cups-lpd, in turns: peers.py PROGRAM PACKAGES [--turns N] [--peers NAME,..] [--rows NAME,..]

PROGRAM is the built lpd_server, PACKAGES a folder with Debian's packages of the others. It runs as root on Linux, and needs `unshare`,
`mount` and `dpkg`, the libraries that the packages name, and cupsd itself, since that is large:

    apt-get install --no-install-recommends cups-daemon
    mkdir packages && cd packages && apt-get download lprng lpr cups openbsd-inetd

Nothing is installed of them, and nothing of the machine is changed: the script runs itself in namespaces of its own for mounts, processes
and the network, so every server has its own port 515, /etc and /var/spool, on loopback alone, and all of them end with the script. Each step is
bounded in time, and each run of a server begins with an empty spool folder. The printer is a pipe that the script reads. What each row does
stands at its function; `ROOM` names the folder in whose disk the spools are (or else /var/tmp)."""
import argparse
import contextlib
import fcntl
import glob
import os
import re
import shutil
import signal
import socket
import statistics
import struct
import subprocess
import sys
import tempfile
import threading
import time

LIMIT = 30.0  # seconds that a client waits for one answer
KIB, MIB = 1024, 1024 * 1024
HOSTS = 32
SET_PIPE_SIZE = 1031


# What is there

class Sink:
    """The reader of the pipe that is the printer: keeps what came, and when."""

    def __init__(self, path):
        self.path = path
        os.mkfifo(path, 0o666)
        os.chmod(path, 0o666)
        self.file = os.open(path, os.O_RDWR)
        self.data, self.last, self.goes, self.ends = bytearray(), 0.0, threading.Event(), False
        fcntl.fcntl(self.file, SET_PIPE_SIZE, MIB)
        self.goes.set()
        self.thread = threading.Thread(target=self.read, daemon=True)
        self.thread.start()

    def read(self):
        while True:
            self.goes.wait()
            piece = os.read(self.file, MIB)
            if self.ends:
                return
            if self.goes.is_set() or piece != b"\0":
                self.data += piece
                self.last = time.monotonic()

    def halt(self):
        """Reads nothing from now on, and has a pipe of one page: whoever prints waits."""
        self.goes.clear()
        os.write(self.file, b"\0")  # (the read that is under way)
        time.sleep(0.05)
        self.empty()
        fcntl.fcntl(self.file, SET_PIPE_SIZE, 4096)

    def empty(self):
        """Takes what is in the pipe."""
        fcntl.fcntl(self.file, fcntl.F_SETFL, os.O_RDWR | os.O_NONBLOCK)
        with contextlib.suppress(BlockingIOError):
            while os.read(self.file, MIB):
                pass
        fcntl.fcntl(self.file, fcntl.F_SETFL, os.O_RDWR)

    def wait(self, holds, limit, quiet=None):
        """Waits until it holds of the data, for so many seconds at most, or until nothing came for so many."""
        end = time.monotonic() + limit
        while time.monotonic() < end and not holds(self.data):
            if quiet and time.monotonic() - max(self.last, end - limit) > quiet:
                break
            time.sleep(0.002)
        return holds(self.data)

    def close(self):
        self.ends = True
        os.write(self.file, b"\0")
        self.goes.set()
        self.thread.join(5)
        os.close(self.file)


def others():
    """The processes of these namespaces but this one: the server's, where no client is left."""
    return [int(name) for name in os.listdir("/proc") if name.isdigit() and int(name) != os.getpid()]


def reap():
    with contextlib.suppress(ChildProcessError):
        while os.waitpid(-1, os.WNOHANG)[0]:
            pass


def write(path, text, mode=0o644):
    os.makedirs(os.path.dirname(path), exist_ok=True)
    with open(path, "w") as file:
        file.write(text)
    os.chmod(path, mode)


class Peer:
    """A server: `begin` starts it in folders that are there, `main` finds its process."""
    name, package, runs = "", "", 0

    def __init__(self, unpacked, room):
        self.unpacked, self.room, self.folder, self.sink = unpacked, room, "", None

    def version(self, packages):
        found = glob.glob(f"{packages}/{self.package}_*.deb")
        said = subprocess.run(["dpkg-deb", "-f", found[0], "Version"], capture_output=True, text=True, timeout=20)
        return said.stdout.strip()

    def start(self, megabytes=0, sizes="small"):
        """Starts it with an empty spool folder, which lies in a file system of so many megabytes where that isn't 0."""
        Peer.runs += 1
        self.sizes, self.folder = sizes, f"{self.room}/{Peer.runs}"
        os.makedirs(f"{self.folder}/spool")
        os.chmod(self.folder, 0o755)
        if megabytes:
            mount("-t", "tmpfs", "-o", f"size={megabytes * 1000000}", "none", f"{self.folder}/spool")
        mount("--bind", f"{self.folder}/spool", "/var/spool")
        mount("-t", "tmpfs", "none", "/run")
        names = "".join(f"{self.host(k)} h{k}\n" for k in range(HOSTS))
        write("/etc/hosts", f"127.0.0.1 localhost {socket.gethostname()}\n" + names)
        write("/etc/nsswitch.conf", "passwd: files\ngroup: files\nhosts: files\nservices: files\n")
        write("/etc/hosts.lpd", "localhost\n" + "".join(f"h{k}\n" for k in range(HOSTS)))
        self.sink = Sink(f"{self.folder}/printer")
        self.make()
        self.again()

    def again(self):
        """Starts it over the folders that are there."""
        self.begin()
        for _ in range(400):
            with contextlib.suppress(OSError):
                connect("127.0.0.1").close()
                return
            time.sleep(0.05)
        raise OSError(f"{self.name}: nothing listens")

    def host(self, k):
        """An address of loopback for each client, which no run has had."""
        return f"127.0.{Peer.runs % 250}.{k + 2}"

    def run(self, *line, **how):
        log = open(f"{self.folder}/log", "ab")
        return subprocess.Popen(line, stdin=subprocess.DEVNULL, stdout=log, stderr=log, **how)

    def kill(self):
        """Kills all that runs of it."""
        for _ in range(40):
            for process in others():
                with contextlib.suppress(ProcessLookupError):
                    os.kill(process, signal.SIGKILL)
            reap()
            if not others():
                return
            time.sleep(0.05)

    def stop(self):
        self.kill()
        if self.sink:
            self.sink.close()
        for place in ("/var/spool", "/run", f"{self.folder}/spool"):
            subprocess.run(["umount", "-l", place], stderr=subprocess.DEVNULL, timeout=20)
        self.sink = None
        shutil.rmtree(f"{self.folder}/spool", ignore_errors=True)

    def peak(self):
        """The most memory that a process of its program has had so far, in octets, of those that are there."""
        most = 0
        for process in others():
            with contextlib.suppress(OSError):
                words = open(f"/proc/{process}/cmdline").read().replace("\0", " ")
                if self.main in words and "peers.py" not in words:
                    found = re.search(r"VmHWM:\s*(\d+)", open(f"/proc/{process}/status").read())
                    most = max(most, int(found[1]) * KIB if found else 0)
        return most

    def queues(self):
        """The names of its queues: in the row `off` the second one's printer is on the network, and off at first."""
        return ("lp", "off") if self.sizes == "off" else ("lp",)

    def make(self):
        pass


SIZES = {
    # name: pages, octets of a page, pages of a job, entries of the account
    "small": (2048, 4096, 1, 1_000_000),
    "whole": (4096, 4096, 40, 4_000_000),
    "large": (1200, 65536, 1100, 16_000_000),
    "half": (610, 65536, 130, 4_000_000),
    "off": (2048, 4096, 1, 1_000_000),
}

# The port of the printer that is off, of a second queue in the row `off`.
OFF_PORT = 9100


class Ours(Peer):
    name, main, words = "this server", " serve ", ()

    def version(self, packages):
        said = subprocess.run([PROGRAM, "--version"], capture_output=True, text=True, timeout=20)
        return said.stdout.strip()

    def make(self):
        pages, size, limit, account = SIZES[self.sizes]
        queues = "".join(f'[[queue]]\nname = "{name}"\nlimit = {limit}\nprinters = 1\n' for name in self.queues())
        write(f"{self.folder}/spool.toml", f"pages = {pages}\npage_size = {size}\nmax_jobs = 1024\naccount = {account}\n{queues}")

    def begin(self):
        off = ["--printer", f"2=socket://127.0.0.1:{OFF_PORT}"] if self.sizes == "off" else []
        self.run(PROGRAM, "serve", f"{self.folder}/spool.toml", "--port", "515", "--out", self.folder, "--sessions", str(SESSIONS), "--keep-room",
                 "--printer", f"1=file:{self.sink.path}", *off, *self.words)


class Kept(Ours):
    name, words = "this server with --spool", ("--spool", "/var/spool/kept")


class Lprng(Peer):
    name, package, main = "LPRng", "lprng", "lpd"

    def make(self):
        shutil.copytree(f"{self.unpacked}/lprng/etc/lprng", "/etc/lprng", dirs_exist_ok=True)
        write("/etc/lprng/lpd.conf", "lpd_listen_port=515\n")
        write("/etc/lprng/lpd.perms", "DEFAULT ACCEPT\n")  # (Debian's lets in this machine's own address alone)
        write("/etc/printcap", f"lp:lp={self.sink.path}:sd=/var/spool/lpd/lp:mx=0:sh\n" + (
              f"off:lp=127.0.0.1%{OFF_PORT}:sd=/var/spool/lpd/off:mx=0:sh\n" if self.sizes == "off" else ""))
        for name in self.queues():
            os.makedirs(f"/var/spool/lpd/{name}")
        write("/var/log/lprng/lpd.log", "")
        os.makedirs("/run/lprng")
        subprocess.run([f"{self.unpacked}/lprng/usr/sbin/checkpc", "-f"], stdout=subprocess.DEVNULL, stderr=subprocess.DEVNULL, timeout=30)

    def begin(self):
        self.run(f"{self.unpacked}/lprng/usr/sbin/lpd", "-F")


class Bsd(Peer):
    name, package, main = "BSD lpd", "lpr", "lpr/usr/sbin/lpd"

    def make(self):
        write("/etc/printcap", f"lp:lp={self.sink.path}:sd=/var/spool/lpd/lp:mx#0:sh:sf:\n" + (
              f"off:lp={OFF_PORT}@127.0.0.1:sd=/var/spool/lpd/off:mx#0:sh:sf:\n" if self.sizes == "off" else ""))
        for name in self.queues():
            os.makedirs(f"/var/spool/lpd/{name}")
            shutil.chown(f"/var/spool/lpd/{name}", "lp", "lp")
            os.chmod(f"/var/spool/lpd/{name}", 0o2775)
        shutil.chown("/var/spool/lpd", "root", "lp")

    def begin(self):
        self.run(f"{self.unpacked}/lpr/usr/sbin/lpd")


class Cups(Peer):
    name, package, main = "cups-lpd", "cups", "/usr/sbin/cupsd"

    def make(self):
        programs = f"{self.room}/cups-programs"
        if not os.path.isdir(programs):
            shutil.copytree("/usr/lib/cups", programs)
            shutil.copytree(f"{self.unpacked}/cups/usr/lib/cups", programs, dirs_exist_ok=True)
            # (cupsd sends a raw job to no `file:` device)
            write(f"{programs}/backend/pipe", '#!/bin/sh\nexec cat "$6" > "${DEVICE_URI#pipe://}"\n', 0o755)
            write(f"{programs}/backend/port", f'#!/bin/bash\nexec 3<> /dev/tcp/127.0.0.1/{OFF_PORT} || exit 1\ncat "$6" >&3\n', 0o755)
        os.makedirs("/var/spool/cups/tmp")
        os.chmod("/var/spool/cups", 0o710)
        os.chmod("/var/spool/cups/tmp", 0o1777)
        shutil.chown("/var/spool/cups", "root", "lp")
        folder = f"{self.folder}/cups"
        for part in ("cache", "log", "state"):
            os.makedirs(f"{folder}/{part}")
            shutil.chown(f"{folder}/{part}", "root", "lp")
        write(f"{folder}/cups-files.conf", f"FileDevice Yes\nServerBin {programs}\nServerRoot {folder}\nRequestRoot /var/spool/cups\n"
              f"TempDir /var/spool/cups/tmp\nCacheDir {folder}/cache\nStateDir {folder}/state\nErrorLog {folder}/log/error\n"
              f"AccessLog {folder}/log/access\nPageLog {folder}/log/page\nSystemGroup root\n")
        write(f"{folder}/cupsd.conf", "LogLevel warn\nMaxLogSize 0\nMaxJobs 0\nListen 127.0.0.1:631\nListen /run/cups/cups.sock\nBrowsing Off\n"
              "DefaultAuthType None\nMaxClients 500\n<Location />\nOrder allow,deny\nAllow all\n</Location>\n"
              "<Policy default>\n<Limit All>\nOrder allow,deny\nAllow all\n</Limit>\n</Policy>\n")
        how = "State Idle\nAccepting Yes\nShared Yes\nJobSheets none none\nErrorPolicy retry-job\nOpPolicy default\n"
        off = f"<Printer off>\nDeviceURI port://127.0.0.1\n{how}</Printer>\n" if self.sizes == "off" else ""
        write(f"{folder}/printers.conf", f"<DefaultPrinter lp>\nDeviceURI pipe://{self.sink.path}\n{how}</DefaultPrinter>\n{off}", 0o600)
        write(f"{folder}/inetd.conf", f"printer stream tcp nowait.60000 root {programs}/daemon/cups-lpd cups-lpd -n\n")
        write("/etc/services", "printer 515/tcp\n")

    def begin(self):
        os.makedirs("/run/cups", exist_ok=True)
        folder = f"{self.folder}/cups"
        self.run("/usr/sbin/cupsd", "-f", "-c", f"{folder}/cupsd.conf", "-s", f"{folder}/cups-files.conf")
        for _ in range(200):
            if os.path.exists("/run/cups/cups.sock"):
                break
            time.sleep(0.05)
        self.run(f"{self.unpacked}/openbsd-inetd/usr/sbin/inetd", "-i", "-R", "60000", f"{folder}/inetd.conf",
                 env={**os.environ, "TMPDIR": "/var/spool/cups/tmp", "CUPS_SERVER": "/run/cups/cups.sock"})


# What clients send

PORTS = {}


def connect(host, limit=LIMIT):
    """Connects from an address, and from a port below 1024, which BSD lpd wants."""
    for _ in range(500):
        PORTS[host] = port = PORTS.get(host, 1023) - 1 if PORTS.get(host, 0) > 513 else 1023
        peer = socket.socket()
        peer.settimeout(limit)
        peer.setsockopt(socket.SOL_SOCKET, socket.SO_REUSEADDR, 1)
        try:
            peer.bind((host, port))
            peer.connect(("127.0.0.1", 515))
        except OSError as error:
            peer.close()
            if error.errno in (98, 99):
                continue
            raise
        peer.setsockopt(socket.IPPROTO_TCP, socket.TCP_NODELAY, 1)
        return peer
    raise OSError("no port is free")


class Refused(Exception):
    pass


def tell(peer, octets):
    """Sends octets that are answered, and wants octet 00."""
    peer.sendall(octets)
    if peer.recv(1) != b"\0":
        raise Refused


def control(number, host="h1", files="A"):
    return (f"H{host}\nPann\n" + "".join(f"fdf{it}{number:03}{host}\nUdf{it}{number:03}{host}\n" for it in files)).encode()


def data_line(number, count, host="h1", letter="A"):
    return f"\x03{count} df{letter}{number:03}{host}\n".encode()


def control_line(number, text, host="h1"):
    return f"\x02{len(text)} cfA{number:03}{host}\n".encode()


def send(address, number, octets, limit=LIMIT, pause=None, queue=b"lp"):
    """Sends a job, and pauses in the middle of its data where that is wanted. False where it isn't acknowledged."""
    try:
        with contextlib.closing(connect(address, limit)) as peer:
            tell(peer, b"\x02%s\n" % queue)
            tell(peer, data_line(number, len(octets)))
            half = len(octets) // 2 if pause else 0
            if pause:
                peer.sendall(octets[:half])
                pause()
            peer.sendall(octets[half:])
            tell(peer, b"\0")
            text = control(number)
            tell(peer, control_line(number, text))
            tell(peer, text + b"\0")
            return True
    except (OSError, Refused):
        return False


def together(count, work):
    """Has so many threads do it, each with its number, and answers what each returned."""
    results = [None] * count

    def one(number):
        results[number] = work(number)

    threads = [threading.Thread(target=one, args=(number,), daemon=True) for number in range(count)]
    for thread in threads:
        thread.start()
    for thread in threads:
        thread.join(120)
    return results


# The rows

JOBS, CLIENTS, SESSIONS = 500, 8, 16


def small_job(client, number):
    return f"<{client:02}-{number:03}>".encode().ljust(KIB - 1, b".") + b"\n"


def start_clients(peer, clients):
    """A process for each client, all of which begin at once. Answers them, and when that was."""
    ready, start = os.pipe(), os.pipe()
    children = []
    for client in range(clients):
        child = os.fork()
        if child == 0:
            os.close(start[1])
            os.write(ready[1], b".")
            os.read(start[0], 1)
            for number in range(client, JOBS, clients):
                send(peer.host(client), number, small_job(client, number))
            os._exit(0)
        children.append(child)
    came = 0
    while came < clients:
        came += len(os.read(ready[0], 64))
    os.close(start[1])
    begun = time.monotonic()
    for file in (ready[0], ready[1], start[0]):
        os.close(file)
    return children, begun


def small(peer, clients=CLIENTS):
    """500 jobs of 1 KiB from 8 clients (`small-32`: 32), each a process with an address of its own that sends its jobs one after another over a connection
    each. Answers how many were printed, how many a second from the start of the first to the last octet at the printer, and how many came
    out behind a job that the same client sent later."""
    children, begun = start_clients(peer, clients)
    peer.sink.wait(lambda data: len(data) >= JOBS * KIB, 100, quiet=15)
    for child in children:
        while os.waitpid(child, os.WNOHANG)[0] == 0:
            if time.monotonic() > begun + 100:
                os.kill(child, signal.SIGKILL)
            time.sleep(0.01)
    found = [(int(a), int(b)) for a, b in re.findall(rb"<(\d\d)-(\d\d\d)>\.{1015}\n", bytes(peer.sink.data))]
    latest, behind = {}, 0
    for client, number in found:
        behind += number < latest.get(client, -1)
        latest[client] = max(number, latest.get(client, -1))
    return {"printed": len(set(found)), "rate": len(set(found)) / max(peer.sink.last - begun, 1e-9), "behind": behind}


class NetworkPrinter(threading.Thread):
    """A printer on the network, which keeps what each connection sends."""

    def __init__(self):
        super().__init__(daemon=True)
        self.listener, self.data = socket.socket(), bytearray()
        self.listener.setsockopt(socket.SOL_SOCKET, socket.SO_REUSEADDR, 1)
        self.listener.bind(("127.0.0.1", OFF_PORT))
        self.listener.listen(64)
        self.start()

    def run(self):
        with contextlib.suppress(OSError):
            while True:
                peer, _ = self.listener.accept()
                with peer:
                    peer.settimeout(20)
                    while piece := peer.recv(65536):
                        self.data += piece

    def end(self):
        with contextlib.suppress(OSError):
            self.listener.shutdown(socket.SHUT_RDWR)
        self.listener.close()


OFF_JOBS = 50


def off(peer):
    """50 jobs for a second queue whose printer refuses connections, three seconds, and then what `small` does; then that printer is on for a minute. Answers
    also how many of the 50 were acknowledged, and how many were printed then."""
    taken = sum(send(peer.host(20), number, small_job(20, number), queue=b"off") for number in range(OFF_JOBS))
    time.sleep(3)
    told = small(peer)
    printer = NetworkPrinter()
    until = time.monotonic() + 60
    count = lambda: len(set(re.findall(rb"<20-(\d\d\d)>", bytes(printer.data))))
    while count() < taken and time.monotonic() < until:
        time.sleep(0.1)
    told.update({"acknowledged for the one off": taken, "printed once it is on": count()})
    printer.end()
    return told


def large(peer):
    """One job of 64 MiB. Answers the megabytes a second until it is acknowledged, and until its last octet is at the printer."""
    octets = os.urandom(MIB) * 64
    begun = time.monotonic()
    taken = send(peer.host(0), 1, octets)
    acknowledged = time.monotonic()
    whole = peer.sink.wait(lambda data: len(data) >= len(octets), 60) and octets in peer.sink.data
    if not taken or not whole:
        return {"acknowledged": 0.0, "printed": 0.0}
    return {"acknowledged": len(octets) / 1e6 / (acknowledged - begun), "printed": len(octets) / 1e6 / (peer.sink.last - begun)}


def half(peer):
    """16 jobs of 8 MiB come at once from as many addresses, in room for 40 MB, on disk too (`half-200`: 200 MB there): each stops in its middle for four seconds, or for as long as
    the server takes nothing of it, and then goes on. Nobody sends again what was refused. Answers how many were printed whole."""
    jobs = [f"<{number:02}>".encode() * (2 * MIB) for number in range(16)]
    sent = together(16, lambda number: send(peer.host(number), number, jobs[number], LIMIT, lambda: time.sleep(4)))
    peer.sink.wait(lambda data: len(data) >= 8 * MIB * sum(map(bool, sent)), 30, quiet=8)
    return {"acknowledged": sum(map(bool, sent)), "whole": sum(job in peer.sink.data for job in jobs)}


# How a job is broken: the parts that are sent of it. L, M are the lines of its data files A and B, C that of its control file, D and T
# these files with an octet 00 behind them, B and U with an octet 01, by which their sender calls them bad, e and x with none, d and t
# a part of them; A gives the job up, W is a whole job before it, 2 has the control file name two files, and ! resets the connection.
# Small letters aren't answered.
WAYS = {
    "the data ends": "Ld", "the data is reset": "Ld!", "the control file ends": "LDCt", "the control file is reset": "LDCt!",
    "all data, no octet behind it": "Le", "all of the control file, no octet behind it": "LDCx", "data that is called bad": "LBCT",
    "a control file that is called bad": "LDCU", "given up": "LDA", "a whole job, the next one's data ends": "WLd",
    "control first, the data ends": "CTLd", "control first, the data is reset": "CTLd!", "control first, all data, no octet behind it": "CTLe",
    "control first, data that is called bad": "CTLB", "control first, the second of two files ends": "2CTLDMd",
    "control first, it ends behind one of two files": "2CTLD", "one file, control for it and another, it ends": "2LDCT",
    "control first, given up behind one of two files": "2CTLDA",
}


def parts_of(way, number, size, cut):
    """The octets of each letter. Each octet of the data tells of which way it is."""
    data, text = bytes([0xC0 + list(WAYS).index(way)]) * size, control(number, files="AB" if "2" in WAYS[way] else "A")
    one = control(number, "h0")
    return {"L": data_line(number, size), "M": data_line(number, size, letter="B"), "C": control_line(number, text), "A": b"\x01\n",
            "D": data + b"\0", "B": data + b"\x01", "e": data, "d": data[:max(1, size * cut // 5)] if size > 1 else b"",
            "T": text + b"\0", "U": text + b"\x01", "x": text, "t": text[:len(text) * cut // 5],
            "W": (data_line(number, 1, "h0"), b"+\0", control_line(number, one, "h0"), one + b"\0")}


def hostile(address, number, way, size, cut):
    """One connection that sends a job in part."""
    parts = parts_of(way, number, size, cut)
    with contextlib.closing(connect(address, 1.5)) as peer:
        if "!" in WAYS[way]:
            peer.setsockopt(socket.SOL_SOCKET, socket.SO_LINGER, struct.pack("ii", 1, 0))
        tell(peer, b"\x02lp\n")
        for letter in WAYS[way].strip("2!"):
            for part in parts[letter] if letter == "W" else [parts[letter]]:
                peer.sendall(part) if letter.islower() else tell(peer, part)
        if "!" in WAYS[way]:
            time.sleep(0.02)  # (so that the server reads what came before)


def broken(peer):
    """576 connections that end in the middle of a job, each in one of 18 ways, with one of 8 sizes, cut at one of 4 places; from 16 addresses
    at once. Then a good job. Answers how many octets of the broken jobs were printed, of how many ways, and whether the good job was."""
    tries = [(way, size, cut) for way in WAYS for size in (1, 100, 1000, 1024, 4096, 5000, 30000, 65536) for cut in range(1, 5)]

    def one(index):
        for number in range(index, len(tries), 16):
            with contextlib.suppress(OSError, Refused):
                hostile(peer.host(index), number, *tries[number])

    together(16, one)
    peer.sink.wait(lambda data: False, 20, quiet=3)
    good = b"+" * KIB
    taken = send(peer.host(0), 999, good)
    came = peer.sink.wait(lambda data: good in data, 15)
    printed = [peer.sink.data.count(0xC0 + way) for way in range(len(WAYS))]
    if any(printed):
        print(f"{peer.name}: " + "; ".join(f"{way}: {count}" for way, count in zip(WAYS, printed) if count), flush=True)
    return {"octets": sum(printed), "ways": sum(map(bool, printed)), "good acknowledged": taken, "good printed": came}


def killed(peer, seconds=1):
    """4 jobs of 64 KiB are acknowledged while the printer takes nothing; so many seconds later every process of the server is killed, and it is
    started again. Answers how many were acknowledged, and how many the printer then gets whole."""
    jobs = [f"<{number}>".encode().ljust(8, b".") * (8 * KIB) for number in range(4)]
    peer.sink.halt()
    taken = [send(peer.host(number), number, jobs[number]) for number in range(4)]
    time.sleep(seconds)
    peer.kill()
    peer.sink.empty()
    fcntl.fcntl(peer.sink.file, SET_PIPE_SIZE, MIB)
    peer.sink.goes.set()
    peer.again()
    peer.sink.wait(lambda data: all(job in data for job in jobs), 60, quiet=45 if peer.name != Ours.name else 5)
    return {"acknowledged": sum(taken), "printed": sum(job in peer.sink.data for job in jobs)}


def memory(peer, row):
    """The most that its main process had of memory, and the most that all its processes had together (each shared page once, looked at each
    20 ms), in megabytes, in a row of its own."""
    most, main, ends = [0], [0], threading.Event()
    mine = {os.getpid()}

    def look():
        while not ends.wait(0.02):
            total = 0
            main[0] = max(main[0], peer.peak())
            for process in set(others()) - mine:
                with contextlib.suppress(OSError):
                    if "peers.py" in open(f"/proc/{process}/cmdline").read():
                        mine.add(process)  # (a client)
                    elif found := re.search(r"\nPss:\s*(\d+)", open(f"/proc/{process}/smaps_rollup").read()):
                        total += int(found[1])
            most[0] = max(most[0], total)

    thread = threading.Thread(target=look, daemon=True)
    thread.start()
    row(peer)
    ends.set()
    thread.join(5)
    return {"main": main[0] / 1e6, "all": most[0] * KIB / 1e6}


ROWS = {
    "small": (small, {}),
    "large": (large, {"sizes": "large"}),
    "small-32": (lambda peer: small(peer, 32), {}),
    "off": (off, {"sizes": "off"}),
    "half": (half, {"megabytes": 40, "sizes": "half"}),
    "half-200": (half, {"megabytes": 200, "sizes": "half"}),
    "broken": (broken, {"sizes": "whole"}),
    "killed": (killed, {"sizes": "whole"}),
    "killed-late": (lambda peer: killed(peer, 40), {"sizes": "whole"}),
    "memory": (lambda peer: memory(peer, small), {}),
    "memory-large": (lambda peer: memory(peer, large), {"sizes": "large"}),
}
REPEATED = ("small", "small-32", "large", "off")
LATE = ("cups-lpd",)  # whose jobs are on the disk half a minute after they were acknowledged


# The turns

def mount(*words):
    subprocess.run(["mount", *words], check=True, timeout=20)


def prepare(options, room):
    """Unpacks the packages, and hides what servers write into behind folders of this script's own. Answers where the packages are."""
    subprocess.run(["ip", "link", "set", "lo", "up"], check=True, timeout=20)
    with open("/proc/sys/net/ipv4/tcp_max_tw_buckets", "w") as file:
        file.write("0")  # (an ended connection keeps no port: BSD lpd wouldn't start again for a minute)
    os.chmod(room, 0o755)
    unpacked = f"{room}/packages"
    os.mkdir(unpacked)
    for name in ("lprng", "lpr", "cups", "openbsd-inetd"):
        for file in glob.glob(f"{options.packages}/{name}_*.deb"):
            subprocess.run(["dpkg", "-x", file, f"{unpacked}/{name}"], check=True, timeout=60)
    shutil.copytree("/etc", f"{room}/etc", symlinks=True)
    mount("--bind", f"{room}/etc", "/etc")
    mount("-t", "tmpfs", "none", "/var/log")
    return unpacked


def sync_ms(room):
    """How many milliseconds the disk's own sync takes, of a file of 1 KiB that is appended to: the median of 200."""
    took = []
    with open(f"{room}/synced", "wb", buffering=0) as file:
        for _ in range(200):
            file.write(b"x" * KIB)
            begun = time.monotonic()
            os.fdatasync(file.fileno())
            took.append((time.monotonic() - begun) * 1000)
    os.remove(f"{room}/synced")
    return statistics.median(took)


def take(row, turn, peer, options, figures):
    """Runs a row with a server that is new, and says what came of it."""
    work, how = ROWS[row]
    begun, told, log = time.monotonic(), {}, ""
    try:
        peer.start(**how)
        told = work(peer)
        figures.setdefault((row, peer.name), []).append(told)
    except (OSError, subprocess.SubprocessError, Refused) as error:
        told = {"fault": repr(error)}
    if options.logs:
        log = open(f"{peer.folder}/log", errors="replace").read()[-300:]
    peer.stop()
    said = ", ".join(f"{name} {it if isinstance(it, str) else round(float(it), 1)}" for name, it in told.items())
    print(f"{row}, turn {turn + 1}, {peer.name}: {said} ({time.monotonic() - begun:.1f} s) {log}", flush=True)


def inside(options):
    """All turns, in namespaces of their own."""
    with tempfile.TemporaryDirectory(dir=os.environ.get("ROOM", "/var/tmp")) as room:
        unpacked = prepare(options, room)
        print(f"a sync of the disk takes {sync_ms(room):.2f} ms", flush=True)
        wanted = options.peers.split(",") if options.peers else []
        peers = [kind(unpacked, room) for kind in (Ours, Kept, Lprng, Bsd, Cups) if not wanted or kind.name in wanted]
        for peer in peers:
            print(f"{peer.name}: {peer.version(options.packages)}", flush=True)
        figures = {}
        for row in options.rows.split(",") if options.rows else ROWS:
            for turn in range(options.turns if row in REPEATED else 1):
                for peer in peers if turn % 2 == 0 else reversed(peers):
                    if row != "killed-late" or peer.name in LATE:
                        take(row, turn, peer, options, figures)
        for (row, name), seen in figures.items():
            print(f"{row}, {name}: " + ", ".join(f"{it} {statistics.median(float(one[it]) for one in seen):,.1f}" for it in seen[0]))
        for place in ("/etc", "/var/log"):
            subprocess.run(["umount", "-l", place], timeout=20)


if __name__ == "__main__":
    words = argparse.ArgumentParser()
    words.add_argument("program")
    words.add_argument("packages")
    words.add_argument("--turns", type=int, default=5)
    words.add_argument("--peers", default="")
    words.add_argument("--rows", default="")
    words.add_argument("--logs", action="store_true")
    words.add_argument("--inside", action="store_true", help=argparse.SUPPRESS)
    options = words.parse_args()
    PROGRAM = os.path.abspath(options.program)
    options.packages = os.path.abspath(options.packages)
    if options.inside:
        inside(options)
    else:
        names = ["unshare", "--mount", "--net", "--pid", "--fork", "--mount-proc", "--kill-child"]
        sys.exit(subprocess.run([*names, sys.executable, *sys.argv, "--inside"], timeout=1800).returncode)
