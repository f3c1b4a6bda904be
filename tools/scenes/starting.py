#!/usr/bin/env python3
"""Scenes of starts, and of commands, that fail or are warned of: starting.py PROGRAM [SCENE..], where PROGRAM is the built lpd_server. Its standard error is a file here,
as under systemd and cron: the line before the fault's names what the fault is about, and why. Each scene is bounded in time, and runs on loopback
alone. A line says what was seen; the last line is 'N passed, M failed'."""
import contextlib
import os
import re
import resource
import signal
import socket
import subprocess
import sys
import tempfile
import time

from client import Server, connect, free_port, spool
from scene import PROGRAM, check, main


def run(room, *words, **how):
    """Runs the program in a room, and answers its status and the lines of its standard error, which is no terminal."""
    with open(f"{room}/faults", "w+b") as faults:
        ended = subprocess.run([PROGRAM, *words], cwd=room, stdin=subprocess.DEVNULL, stdout=subprocess.DEVNULL, stderr=faults, timeout=30, **how)
        faults.seek(0)
        return ended.returncode, faults.read().decode().splitlines()


def bound(off):
    """The address of a socket of loopback, bound just now, at which nobody listens."""
    off.bind(("127.0.0.1", 0))
    return "%s:%d" % off.getsockname()


@contextlib.contextmanager
def a_room():
    with tempfile.TemporaryDirectory() as room:
        with open(f"{room}/spool.toml", "w") as file:
            file.write(spool(account=100_000, limit=4))
        with open(f"{room}/file", "w") as file:
            file.write("hello world")
        os.mkdir(f"{room}/folder")
        # (who opens a pipe that nobody has open waits)
        for folder, name in (("piped", "lock"), ("chained", "segment-0000000001")):
            os.mkdir(f"{room}/{folder}")
            os.mkfifo(f"{room}/{folder}/{name}")
        os.makedirs(f"{room}/littered/segment-0000000007.tmp")
        yield room


def fails(room, words, status, fault, cause):
    """The program ends with this status; its last line is this fault's, and the line before it tells this cause."""
    ended, lines = run(room, *words)
    said = f"{' '.join(words)}: {ended} {lines}"
    check(ended == status, said)
    check(lines and lines[-1].endswith(fault), said)
    check(len(lines) > 1 and re.search(cause, lines[-2]), said)


def a_start_tells_why_it_failed():
    """A server that doesn't start: its configuration, each of its files and folders, each address, and its control socket."""
    with a_room() as room, socket.socket() as taken:
        taken.bind(("127.0.0.1", 0))
        taken.listen()
        port, other = str(taken.getsockname()[1]), str(free_port())
        serve = ["serve", "spool.toml", "--port", other]
        cases = [
            (["serve", "nosuch.toml", "--port", other], 4, "fault 71 ReadFile", r"nosuch\.toml: No such file"),
            (["serve", "folder", "--port", other], 4, "fault 71 ReadFile", r"folder: Is a directory"),
            (["serve", "spool.toml", "--port", port], 4, "fault 72 Network", rf"127\.0\.0\.1:{port}: Address already in use"),
            ([*serve, "--bind", "192.0.2.1"], 4, "fault 72 Network", rf"192\.0\.2\.1:{other}: Cannot assign"),
            ([*serve, "--status", port], 4, "fault 72 Network", rf"127\.0\.0\.1:{port}: Address already in use"),
            ([*serve, "--out", "nosuch"], 4, "fault 73 WriteFile nosuch/printer-1", r"nosuch/printer-1: No such file"),
            ([*serve, "--out", "file"], 4, "fault 73 WriteFile file/printer-1", r"file/printer-1: Not a directory"),
            ([*serve, "--printer", "1=folder:nosuch"], 4, "fault 73 WriteFile nosuch", r"nosuch: No such file"),
            ([*serve, "--printer", "1=file:folder"], 4, "fault 73 WriteFile folder", r"folder: Is a directory"),
            ([*serve, "--spool", "a/b"], 4, "fault 73 WriteFile a/b", r"a/b: No such file"),
            ([*serve, "--spool", "file"], 4, "fault 73 WriteFile file", r"file: Not a directory"),
            ([*serve, "--account", "a/b"], 4, "fault 73 WriteFile a/b", r"a/b: No such file"),
            ([*serve, "--spool", "piped"], 4, "fault 73 WriteFile piped", r"piped: its lock is no file"),
            ([*serve, "--account", "chained"], 4, "fault 73 WriteFile chained", r"chained: .*segment-0000000001"),
            ([*serve, "--account", "littered"], 4, "fault 73 WriteFile littered", r"littered: segment-0000000007\.tmp: Is a directory"),
            ([*serve, "--control", "nosuch/socket"], 4, "fault 72 Network nosuch/socket", r"nosuch/socket: No such file"),
            ([*serve, "--control", "file"], 4, "fault 72 Network file", r"file: "),
        ]
        for words, status, fault, cause in cases:
            fails(room, words, status, fault, cause)
        with Server(PROGRAM, spool(account=100_000, limit=4), "--spool", f"{room}/kept", "--account", f"{room}/account"):
            for option in ("kept", "account"):
                word = "--spool" if option == "kept" else "--account"
                fails(room, [*serve, word, option], 4, f"fault 73 WriteFile {option}", rf"{option}: .*another server")
        return f"{len(cases) + 2} starts told why"


def a_command_tells_why_it_failed():
    """The other commands: files that can't be read, servers that aren't there."""
    with a_room() as room:
        nobody = str(free_port())
        cases = [
            (["check", "nosuch.toml"], 4, "fault 71 ReadFile", r"nosuch\.toml: No such file"),
            (["check", "spool.toml", "--spool", "file"], 4, "fault 73 WriteFile file", r"file: Not a directory"),
            (["check", "spool.toml", "--out", "nosuch"], 4, "fault 73 WriteFile nosuch", r"nosuch: No such file"),
            (["check", "spool.toml", "--spool", "nosuch/spool"], 4, "fault 73 WriteFile nosuch/spool", r"nosuch/spool: No such file"),
            (["check", "spool.toml", "--account", "nosuch/account"], 4, "fault 73 WriteFile nosuch/account", r"nosuch/account: No such file"),
            (["check", "spool.toml", "--control", "nobody", "--spool", "file"], 4, "fault 73 WriteFile file", r"file: Not a directory"),
            (["check", "spool.toml", "--control", "nobody", "--account", "file"], 4, "fault 73 WriteFile file", r"file: Not a directory"),
            (["send", nobody, "lp", "1", "myhost", "ann", "file"], 4, "fault 72 Network", rf"127\.0\.0\.1:{nobody}: Connection refused"),
            (["send", nobody, "lp", "1", "myhost", "ann", "file", "nosuch"], 4, "fault 71 ReadFile", r"nosuch: No such file"),
            (["send", nobody, "lp", "1", "myhost", "ann", "folder"], 4, "fault 71 ReadFile", r"folder: "),
            (["state", nobody, "lp"], 4, "fault 72 Network", rf"127\.0\.0\.1:{nobody}: Connection refused"),
            (["control", "nosuch.socket", "status"], 4, "fault 72 Network nosuch.socket", r"nosuch\.socket: No such file"),
            (["audit", "nosuch"], 4, "fault 71 ReadFile nosuch", r"nosuch: No such file"),
            (["usage", "nosuch"], 4, "fault 71 ReadFile nosuch", r"nosuch: No such file"),
        ]
        for words, status, fault, cause in cases:
            fails(room, words, status, fault, cause)
        # A script's fault is one line, as it is specified.
        check(run(room, "replay", "spool.toml", "nosuch.script") == (4, ["fault 71 ReadFile"]), "replay tells more")
        return f"{len(cases)} commands told why"


def a_refusal_tells_what_it_may_mean():
    """Of a server that doesn't take a job or a question: by octet 01, by octet 02, and without a word, since it doesn't let the address in."""
    with a_room() as room:
        job = ["1", "myhost", "ann", "file"]
        # (a printer that is off: its socket is bound, and nobody listens)
        with socket.socket() as off, Server(PROGRAM, spool(account=3_000, limit=4, jobs=1), "--printer", f"1=socket://{bound(off)}") as it:
            port = str(it.port)
            fails(room, ["send", port, "nosuch", *job], 5, "fault 60 Refused 1", r"no such queue, or the job is larger than the queue's limit")
            fails(room, ["state", port, "nosuch"], 5, "fault 60 Refused 1", r"no such queue")
            check(run(room, "send", port, "lp", *job)[0] == 0, "the first job isn't taken")
            fails(room, ["send", port, "lp", *job], 5, "fault 60 Refused 2", r"try again later")
        with Server(PROGRAM, spool(account=100_000, limit=4), "--allow", "192.0.2.0/24") as it:
            # (a connection that is closed with octets unread is reset, where these came in time)
            ended, lines = run(room, "send", str(it.port), "lp", *job)
            check(ended == 5 and lines[-1].endswith(("fault 61 Cut", "fault 62 ReadFault")), f"{ended} {lines}")
            check("it may not let this address in" in lines[-2] or "reset by peer" in lines[-2], lines)
    return "5 refusals"


# What a server takes descriptors for beside its printer's and its clients', and how many more of them each takes at least.
TAKERS = {"--spool": 5, "--account": 4, "--control": 4, "--status": 4}


@contextlib.contextmanager
def bounded(takers, most):
    """A server with a printer and these, which may open no more descriptors than so many. It listens, or has ended."""
    with tempfile.TemporaryDirectory() as room:
        with open(f"{room}/spool.toml", "w") as file:
            file.write(spool(account=100_000, limit=4))
        port = free_port()
        words = [word for taker in takers for word in (taker, str(free_port()) if taker == "--status" else f"{room}/{taker[2:]}")]
        with open(f"{room}/said", "wb") as said, open(f"{room}/log", "wb") as log:
            process = subprocess.Popen([PROGRAM, "serve", f"{room}/spool.toml", "--port", str(port), "--out", room, "--keep-room", "--sessions", "4", *words],
                                       stdin=subprocess.DEVNULL, stdout=said, stderr=log, preexec_fn=lambda: resource.setrlimit(resource.RLIMIT_NOFILE, (most, most)))
        try:
            until = time.monotonic() + 30
            while process.poll() is None and "listening" not in open(f"{room}/said").read():
                check(time.monotonic() < until, "it neither listens nor ends")
                time.sleep(0.005)
            yield process, port, open(f"{room}/log").read().splitlines()
        finally:
            process.kill()
            process.wait()


def least_of(takers):
    """How many descriptors a server with these takes at least, as it tells with fewer. With one fewer it tells that too, and with so many it listens."""
    def told(most):
        with bounded(takers, most) as (process, port, lines):
            if process.poll() is None:
                return None
            found = re.search(rf"127\.0\.0\.1:{port}: (\d+) descriptors are too few: it takes (\d+)$", lines[-2])
            check(process.returncode == 4 and (not found or int(found[1]) == most and lines[-1] == "fault 72 Network"), f"{takers}, {most}: {process.returncode} {lines}")
            return int(found[2]) if found else 0

    for most in range(8, 64):
        least = told(most)
        check(least is not None, f"{takers}: it listens with {most}, and told of none")
        if least:
            check(least > most and told(least - 1) == least and told(least) is None, f"{takers}: it tells of {least}")
            return least
    raise AssertionError(f"{takers}: none is told")


def too_few_descriptors_are_told():
    """A server that may open too few descriptors tells at its start how many it may open, and how many it takes: some for each of what it has."""
    plain = least_of([])
    for takers, more in [*(([taker], more) for taker, more in TAKERS.items()), ([*TAKERS], sum(TAKERS.values()))]:
        check((least := least_of(takers)) == plain + more, f"{takers}: {least}, and {plain} without")
    return f"{plain} with a printer alone, and {plain + sum(TAKERS.values())} with all"


def connections_that_wait_leave_descriptors():
    """As many connections wait as the limit of descriptors leaves room for: 64 are kept for the program, one for a printer, two for each of four sessions and of two that take no
    jobs, 81 for a control socket and the printer's pipe, one for each session and eight more for the folder of jobs, 208 for the status. Of one more the oldest is closed."""
    most, waiting = 450, {}
    for takers, kept in (([], 77), (["--status"], 77 + 208), (["--control"], 77 + 81), (["--spool"], 77 + 14), (["--spool", "--control", "--status"], 77 + 14 + 81 + 208)):
        with bounded(takers, most) as (_, port, _), contextlib.ExitStack() as peers:
            opened = [peers.enter_context(connect(port)) for _ in range(most - kept + 20)]
            until = time.monotonic() + 20
            for number, peer in enumerate(opened[:20]):
                peer.settimeout(max(0.1, until - time.monotonic()))
                with contextlib.suppress(TimeoutError):
                    peer.recv(1)
                    continue
                raise AssertionError(f"{takers}: connection {number} of {len(opened)} waits")
            # (whoever is closed wrongly has some time for it)
            time.sleep(0.3)
            for number, peer in enumerate(opened[20:]):
                peer.setblocking(False)
                with contextlib.suppress(BlockingIOError):
                    raise AssertionError(f"{takers}: connection {number + 20} is closed: {peer.recv(1)}")
            waiting[" ".join(takers) or "alone"] = most - kept
    return f"of {most} descriptors: {waiting}"


def a_thread_that_is_not_started():
    """A server for one of whose threads the system has no room, whichever that is, ends by itself, for want of memory. With all it goes on."""
    with a_room() as room:
        with contextlib.suppress(OSError):
            if subprocess.run(["strace", "-qq", "-o", "/dev/null", "true"], stderr=subprocess.DEVNULL, timeout=30).returncode == 0:
                return threads_that_are_not_started(room)
    raise subprocess.CalledProcessError(1, ["strace"])


def threads_that_are_not_started(room):
    control = f"{room}/control"
    words = ["--spool", f"{room}/kept", "--account", f"{room}/account", "--control", control, "--status", str(free_port()), "--keep-room", "--sessions", "2"]
    with Server(PROGRAM, spool(account=100_000, limit=4), *words) as it:
        check(subprocess.run([PROGRAM, "control", control, "status"], stdout=subprocess.DEVNULL, timeout=30).returncode == 0, "it isn't answered")
        threads = len(os.listdir(f"/proc/{it.process.pid}/task")) - 1
    for number in range(1, threads + 1):
        serve = [PROGRAM, "serve", "spool.toml", "--port", str(free_port()), *words]
        fails = f"inject=clone,clone3:error=EAGAIN:when={number}"
        with open(f"{room}/faults", "w+b") as faults, open(f"{room}/said", "w+b") as said:
            process = subprocess.Popen(["strace", "-qq", "-o", "/dev/null", "-e", "trace=clone,clone3", "-e", fails, *serve], cwd=room, stdin=subprocess.DEVNULL,
                                       stdout=said, stderr=faults, start_new_session=True)
            try:
                ended = process.wait(20)
                faults.seek(0)
                said.seek(0)
                told = faults.read().decode().splitlines()[-1:], said.read().decode().splitlines()[-1:]
                check(ended == 4 and told[0] == ["fault 12 Memory"], f"thread {number}: {ended} {told}")
            except subprocess.TimeoutExpired as error:
                raise AssertionError(f"without thread {number} of {threads} it goes on") from error
            finally:
                # (what is traced goes on where its tracer is killed alone)
                with contextlib.suppress(ProcessLookupError):
                    os.killpg(process.pid, signal.SIGKILL)
                process.wait()
    return f"each of {threads}"


def a_start_warns_of_what_bites_later():
    """Without `--keep-room` and `--rotate`, without `--silence` beyond loopback, and where the account has room for fewer than 50 jobs of a queue a
    server says so once at its start; with these words, or where it ends after so many connections, it says nothing."""
    never, stalls = "the account is never rotated", "a peer that stalls amid a job"
    small, large = spool(account=3_000, limit=4), spool(account=100_000, limit=4)
    cases = [
        (large, [], [never]),
        (large, ["--rotate", "5"], []),
        (large, ["--keep-room", "--bind", "0.0.0.0"], [stalls]),
        (large, ["--bind", "0.0.0.0"], [never, stalls]),
        (large, ["--keep-room", "--bind", "0.0.0.0", "--silence", "60"], []),
        (small, ["--keep-room"], ["queue lp: an account of 3000 entries takes 2 of its largest jobs at once"]),
        (small, ["--rotate", "5"], ["queue lp: an account of 3000 entries takes 3 of its largest jobs until it is rotated"]),
        (small, ["--bind", "0.0.0.0", "--connections", "9"], []),
    ]
    for config, words, wanted in cases:
        with Server(PROGRAM, config, *words) as it:
            lines = it.log().splitlines()
            check(len(lines) == len(wanted) and all(part in line for part, line in zip(wanted, lines)), f"{words}: {lines}")
    return f"{len(cases)} starts"


def a_pipe_in_the_place_of_a_job():
    """A pipe and a folder that have the names of kept jobs: the server listens, warns of both, and prints what is sent."""
    with tempfile.TemporaryDirectory() as room:
        os.mkdir(f"{room}/kept")
        os.mkfifo(f"{room}/kept/3.job")
        os.mkdir(f"{room}/kept/5.job")
        with Server(PROGRAM, spool(account=100_000, limit=4), "--spool", f"{room}/kept", "--keep-room") as it:
            until = time.monotonic() + 5
            while it.log().count("it is no file") < 2:
                check(time.monotonic() < until, it.log())
                time.sleep(0.05)
    return "both are told, and nothing waits"

CONFIG = """pages = 64
page_size = 4096
max_jobs = 8
account = 100000

[[queue]]
name = "front"
limit = 16
printers = 1

[[queue]]
name = "back"
limit = 16
printers = 2
"""


def a_configuration_tells_where_its_fault_is():
    """Of each fault of a configuration: the line, the queue, and what is wrong there; and each key that isn't one. By `check` and by `serve`."""
    cases = [
        (("limit = 16", "limt = 16"), "fault 51 Missing queue.limit", r"line 6, queue front: limit isn't there: a whole number, 1 to 65536$"),
        (("printers = 2", ""), "fault 51 Missing queue.printers", r"line 11, queue back: printers isn't there"),
        (("max_jobs = 8", ""), "fault 51 Missing max_jobs", r"max_jobs isn't there: a whole number, 1 to 1024$"),
        (("pages = 64", 'pages = "64"'), "fault 52 WrongType pages", r'line 1: pages is "64", and has to be a whole number, 1 to 65536$'),
        ((CONFIG[CONFIG.index("[[queue]]"):], "[queue]\nname = 3\n"), "fault 52 WrongType queue", r"queue has to be 1 to 64 tables, each of which begins with \[\[queue\]\]"),
        (('"back"', '"back desk"'), "fault 53 OutOfRange queue.name", r'line 12, queue back%20desk: name is "back%20desk", and has to be a text of 1 to 64 octets'),
        (("printers = 2", "printers = 0"), "fault 53 OutOfRange queue.printers", r"line 14, queue back: printers is 0, and has to be a whole number, 1 to 16$"),
        (('"back"', '"front"'), "fault 54 SameName", r"queues number 1 and 2 are both named front$"),
        (("limit = 16\nprinters = 2", "limit = 65\nprinters = 2"), "fault 55 LimitOverPool", r"line 13, queue back: limit is 65, and the pool has 64 pages$"),
        (("page_size = 4096", "page_size = 4K"), "fault 50 NotToml", r"line 2: "),
        (("printers = 2", 'printers = 2\nplaces = "file:x"'), "fault 52 WrongType queue.places", r"line 15, queue back: places has to be an array of texts"),
        (("printers = 2", 'printers = 2\nplaces = ["ipp://x"]'), "fault 53 OutOfRange queue.places", r'line 15, queue back: "ipp://x" is no place'),
        (("printers = 2", 'printers = 2\nplaces = ["file:a", "file:b", "file:c"]'), "fault 53 OutOfRange queue.places", r"places has 3 texts, more than the queue has"),
    ]
    with tempfile.TemporaryDirectory() as room:
        for (old, text), fault, told in cases:
            with open(f"{room}/spool.toml", "w") as file:
                file.write(CONFIG.replace(old, text, 1))
            for words in (["check", "spool.toml"], ["serve", "spool.toml", "--port", str(free_port())]):
                ended, lines = run(room, *words)
                said = f"{words[0]} {text!r}: {ended} {lines}"
                check(ended == 2 and lines[-1].endswith(fault), said)
                check(any(re.search(told, line) for line in lines[:-1]), said)
                if text == "limt = 16":
                    check(any("spool.toml: line 8: limt is no key of a queue, and is passed over" in line for line in lines[:-1]), said)
        # A script's fault stays one line.
        for name, text in (("spool.toml", CONFIG.replace("pages = 64", "pages = 0")), ("script", "")):
            with open(f"{room}/{name}", "w") as file:
                file.write(text)
        ended, lines = run(room, "replay", "spool.toml", "script")
        check((ended, len(lines)) == (2, 1), f"replay: {ended} {lines}")
    return f"{len(cases)} faults, by check and by serve"


def keys_that_are_none_are_told():
    """A key that isn't one is passed over, and told: of 16 at most."""
    with tempfile.TemporaryDirectory() as room:
        with open(f"{room}/spool.toml", "w") as file:
            file.write("restart = 60\n" + CONFIG + "colour = true\n")
        ended, lines = run(room, "check", "spool.toml")
        check(ended == 0 and len(lines) == 2, f"{ended} {lines}")
        check("spool.toml: line 1: restart is no key, and is passed over" in lines[0], lines)
        check("spool.toml: line 16: colour is no key of a queue, and is passed over" in lines[1], lines)
        with open(f"{room}/spool.toml", "w") as file:
            file.write("".join(f"key{number} = 1\n" for number in range(40)) + CONFIG)
        ended, lines = run(room, "check", "spool.toml")
        check(ended == 0 and len(lines) == 16, f"{ended} {len(lines)}")
    return "two by their lines; 16 of 40"


def sizes_of_a_queue_that_takes_no_job():
    """`check --sizes` ends with status 2 where the account has no room for a job of some queue, and tells no fault; without the option all is well."""
    with tempfile.TemporaryDirectory() as room:
        with open(f"{room}/spool.toml", "w") as file:
            file.write(CONFIG.replace("account = 100000", "account = 1000"))
        check(run(room, "check", "spool.toml", "--sizes") == (2, []), run(room, "check", "spool.toml", "--sizes"))
        check(run(room, "check", "spool.toml") == (0, []), "without --sizes")
    return "status 2 and no line"


def printers_are_looked_at():
    """A folder in which no file can be made is found at the start; a file that two servers, or two printers, write to is warned of; and so is a printer
    without a place, where others have one."""
    with tempfile.TemporaryDirectory() as room:
        with open(f"{room}/spool.toml", "w") as file:
            file.write(CONFIG)
        serve = ["serve", "spool.toml", "--port", str(free_port())]
        # (in /proc nobody makes a file)
        fails(room, [*serve, "--printer", "front=folder:/proc"], 4, "fault 73 WriteFile /proc", r"/proc: ")
        with Server(PROGRAM, CONFIG, "--keep-room", "--printer", f"1=file:{room}/one", "--printer", f"3=file:{room}/one", printers=2, device=None) as it:
            # (it listens before it has told all)
            time.sleep(0.3)
            lines = it.log().splitlines()
            shared = [line for line in lines if f"printer 3: {room}/one: another server or printer writes to it too" in line]
            unplaced = [line for line in lines if f"printer 2 of back has no place, where others have one: it prints to {it.folder}/printer-2" in line]
            check(len(shared) == 1 and len(unplaced) == 1, lines)
            with Server(PROGRAM, CONFIG, "--keep-room", "--printer", f"front=file:{room}/one", "--printer", "2=file:/dev/null", "--printer", "3=file:/dev/null") as other:
                time.sleep(0.3)
                lines = other.log().splitlines()
                check(sum("writes to it too" in line for line in lines) == 1 and not any("has no place" in line for line in lines), lines)
    return "a folder, a file of two printers and of two servers, a printer without a place"



if __name__ == "__main__":
    sys.exit(main([a_configuration_tells_where_its_fault_is, keys_that_are_none_are_told, sizes_of_a_queue_that_takes_no_job, printers_are_looked_at,
                   a_pipe_in_the_place_of_a_job, a_start_tells_why_it_failed, a_command_tells_why_it_failed, a_refusal_tells_what_it_may_mean, a_start_warns_of_what_bites_later,
                   too_few_descriptors_are_told, connections_that_wait_leave_descriptors, a_thread_that_is_not_started], __doc__))
