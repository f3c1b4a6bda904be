#!/usr/bin/env python3
"""Scenes of accounts: auditing.py PROGRAM [SCENE..], where PROGRAM is the built lpd_server.

Servers write their accounts under load, one is killed, and the files are changed and audited. Each scene is bounded in time and runs on
loopback alone. A line says what was seen; the last line is 'N passed, M failed'."""
import contextlib
import glob
import hashlib
import os
import random
import re
import resource
import shutil
import signal
import subprocess
import sys
import tempfile
import threading
import time

from client import begin, connect, free_port, send, spool
from keeping import small_disk
from scene import PROGRAM, check, main, size

CLIENTS = 8
JOBS = size("JOBS", 40, 20)


class Books:
    """A folder with printers' files and an account, over which one server after another runs."""

    def __init__(self, *words, config=spool(queues=("lp", "plotter"), account=200_000)):
        self.room = tempfile.TemporaryDirectory()
        self.folder = self.room.name
        self.account = f"{self.folder}/account"
        self.words = words
        self.port = free_port()
        self.server = None
        with open(f"{self.folder}/spool.toml", "w") as file:
            file.write(config)

    def start(self):
        line = [PROGRAM, "serve", f"{self.folder}/spool.toml", "--port", str(self.port), "--out", self.folder, "--account", self.account,
                "--control", f"{self.folder}/control", "--sessions", "16", *self.words]
        self.server = subprocess.Popen(line, stdin=subprocess.DEVNULL, stdout=open(f"{self.folder}/said", "ab"),
                                       stderr=open(f"{self.folder}/log", "ab"))
        for _ in range(400):
            with contextlib.suppress(OSError):
                connect(self.port).close()
                return
            check(self.server.poll() is None, f"the server ended: {self.log()[-400:]}")
            time.sleep(0.01)
        raise AssertionError("nothing listens")

    def tell(self, *words):
        line = [PROGRAM, "control", f"{self.folder}/control", *words]
        told = subprocess.run(line, capture_output=True, text=True, timeout=120)
        return told.stdout + told.stderr

    def stop(self):
        self.tell("stop", "60")
        check(self.server.wait(60) == 0, f"the server ended with {self.server.returncode}: {self.log()[-400:]}")

    def kill(self):
        self.server.send_signal(signal.SIGKILL)
        self.server.wait()

    def log(self):
        return open(f"{self.folder}/log", "rb").read().decode(errors="replace")

    def await_log(self, text):
        for _ in range(200):
            if text in self.log():
                return
            time.sleep(0.05)
        raise AssertionError(f"the log doesn't say {text}: {self.log()[-400:]}")

    def segments(self):
        return sorted(glob.glob(f"{self.account}/segment-" + "[0-9]" * 10))

    def await_segments(self, count):
        for _ in range(400):
            if len(self.segments()) >= count:
                return
            time.sleep(0.05)
        raise AssertionError(f"{len(self.segments())} segments: {self.log()[-400:]}")

    def load(self, jobs=JOBS):
        """Clients send jobs of random sizes, each from an address of its own."""
        def one(number):
            chance = random.Random(number)
            for k in range(jobs):
                octets = chance.randbytes(chance.choice([1, 100, 4096, 4097, 20_000]))
                with contextlib.suppress(OSError):
                    send(self.port, k, octets, queue=chance.choice(["lp", "plotter"]), host=f"127.0.0.{number + 2}")
        threads = [threading.Thread(target=one, args=(number,)) for number in range(CLIENTS)]
        for thread in threads:
            thread.start()
        for thread in threads:
            thread.join(120)

    def audit(self, *words, files=None):
        """The exit status of an audit, and what it tells."""
        line = [PROGRAM, "audit", *(self.segments() if files is None else files), *words]
        told = subprocess.run(line, capture_output=True, text=True, timeout=120)
        return told.returncode, told.stdout, told.stderr

    def __enter__(self):
        return self

    def __exit__(self, *_):
        if self.server:
            self.server.kill()
            self.server.wait()
        self.room.cleanup()


def told_of(out):
    """What an audit tells of printers: each of its lines but for the sums and the digest at the end."""
    return [line for line in out.splitlines() if not line.startswith(("legal ", "ends "))]


def digests(text):
    return re.findall(r"\b[0-9a-f]{64}\b", text)


def two_runs(room):
    """Two runs under load with rotations, of which the first is killed."""
    room.start()
    room.load()
    room.await_segments(2)
    room.kill()
    room.start()
    room.load()
    room.stop()


def written_and_audited():
    with Books("--rotate", "40") as room:
        two_runs(room)
        status, told, why = room.audit("--printed", room.folder)
        check(status == 0, f"status {status}: {told}{why}")
        legal = re.search(r"legal segments (\d+) entries (\d+) jobs (\d+) done (\d+) removed 0 failed 0 aborted \d+\nends ([0-9a-f]{64})\n", told)
        check(legal and int(legal[1]) == len(room.segments()), told)
        check(int(legal[3]) >= int(legal[4]) > JOBS, told)
        check("printed 1 octets" in told and "printed 2 octets" in told, told)
        check(legal[5] in room.log(), "the log doesn't have the last digest")
        check(room.audit("--ends", legal[5])[0] == 0, "its own end isn't taken")
        status, told, why = room.audit("--ends", "0" * 64)
        check(status == 6 and why.startswith("fault 82 Follow"), f"{status} {told}{why}")
        first = digests(open(room.segments()[0]).read().splitlines()[-1])[-1]
        status, told, why = room.audit("--after", first, files=room.segments()[1:])
        check(status == 0 and "begins at" not in told, f"what comes behind the first isn't taken: {status} {told}{why}")
        status, told, why = room.audit(files=room.segments()[1:])
        check(told.startswith("begins at segment 2: what came before isn't here\n") and told.count("begins at") == 1, f"{status} {told}{why}")
        check(room.audit("--after", first)[0] == 6, "the first is taken behind itself")
        mode = [oct(os.stat(path).st_mode & 0o777) for path in (room.account, room.segments()[0])]
        check(mode == ["0o700", "0o600"], mode)
        used = subprocess.run([PROGRAM, "usage", *room.segments(), "--by", "queue"], capture_output=True, text=True, timeout=60)
        jobs = sum(int(n) for n in re.findall(r" jobs (\d+) ", used.stdout))
        check(used.returncode == 0 and jobs == int(legal[3]), f"{used.stdout}{used.stderr} of {legal[3]}")
        return f"{legal[0].splitlines()[0]}; {len(told.splitlines())} lines"


def rewrite(path, lines):
    """Writes a segment anew with all digests right within itself."""
    body = "".join(line + "\n" for line in lines[:-1])
    end = lines[-1].split(" ")
    end[2] = hashlib.sha256(body.encode()).hexdigest()
    with open(path, "w") as file:
        file.write(body + " ".join(end) + "\n")


def changed_files_are_told():
    with Books("--rotate", "40") as room:
        two_runs(room)
        kept = f"{room.folder}/kept"
        shutil.copytree(room.account, kept)
        end = digests(room.audit()[1])[-1]
        middle = room.segments()[len(room.segments()) // 2]
        lines = open(middle).read().splitlines()
        put = next(at for at, line in enumerate(lines) if line.startswith("put "))
        opened = next(at for at, line in enumerate(lines) if line.startswith("opened "))

        def told(label, fault, *words, files=None):
            status, out, why = room.audit(*words, files=files)
            check(status == 6 and re.match(fault, why), f"{label}: {status} {out}{why}")
            shutil.rmtree(room.account)
            shutil.copytree(kept, room.account)

        def write(lines):
            with open(middle, "w") as file:
                file.write("".join(line + "\n" for line in lines))

        # a digit of a digest: the line can be read, and the last line's digest isn't that of the lines
        digit = lines[put][:-1] + ("0" if lines[put][-1] != "0" else "1")
        write(lines[:put] + [digit] + lines[put + 1:])
        told("a digit of a digest", r"fault 8[01] ")
        # the same, and all of the segment's own digest right: the page that is handed out isn't the one that was put, or
        # the next segment names another digest
        rewrite(middle, lines[:put] + [digit] + lines[put + 1:])
        told("a digit, and the segment's end right", r"fault 8[12] ")
        number = lines[opened].split(" ")
        number[1] = str(int(number[1]) + 1)
        rewrite(middle, lines[:opened] + [" ".join(number)] + lines[opened + 1:])
        told("a job's number", r"fault 81 Entry .*:%d\n" % (opened + 1))
        write(lines[:put] + lines[put + 1:])
        told("an entry taken away", r"fault 8[01] ")
        handed = next(at for at, line in enumerate(lines) if line.startswith("handed "))
        place = lines[handed].split(" ")[1:]
        printed = next(at for at, line in enumerate(lines) if line.startswith("printed ") and line.split(" ")[2:] == place)
        swapped = list(lines)
        swapped[handed], swapped[printed] = lines[printed], lines[handed]
        rewrite(middle, swapped)
        told("two swapped", r"fault 81 Entry .*:%d\n" % (handed + 1))
        told("a segment left out", r"fault 82 Follow ", files=[it for it in room.segments() if it != middle])
        last = room.segments()[-1]
        with open(last) as file:
            text = file.read()
        with open(last, "w") as file:
            file.write(text[:len(text) // 2])
        told("a last segment cut off", r"fault 80 Line ")
        os.remove(last)
        told("no last segment", r"fault 82 Follow .* ends in ", "--ends", end)
        tail = text.splitlines()
        user = [line.replace(" ann ", " eve ") if line.startswith("controlled ") else line for line in tail]
        changes = user != tail
        rewrite(last, user if changes else tail[:2] + tail[2:])
        if changes:
            check(room.audit()[0] == 0, "a segment that was written anew isn't legal by itself")
            told("a last segment written anew", r"fault 82 Follow .* ends in ", "--ends", end)
        printer = f"{room.folder}/printer-1"
        with open(printer, "r+b") as file:
            file.seek(5000)
            octet = file.read(1)
            file.seek(5000)
            file.write(bytes([octet[0] ^ 1]))
        told("an octet of printer-1", r"fault 83 Printed .* printer 1 job \d+ place \d+ octet \d+ of ", "--printed", room.folder)
        return "each change is told"


def a_full_disk():
    """Segments that find no room on the disk wait, jobs are printed meanwhile, and once there is room the account is whole."""
    with Books("--rotate", "40") as room, small_disk(room.account, 1):
        room.start()
        with open(f"{room.account}/filler", "wb") as file:
            with contextlib.suppress(OSError):
                file.write(b"x" * (1 << 20))
        room.load(12)
        room.await_log("No space left on device")
        check(not room.segments(), room.segments())
        os.remove(f"{room.account}/filler")
        room.await_segments(1)
        room.stop()
        status, told, why = room.audit("--printed", room.folder)
        check(status == 0 and "jobs 96 done 96 " in told, f"status {status}: {told}{why}")
        return f"{told.splitlines()[0]}; the log: {room.log().strip().splitlines()[0][-110:]}"


def measured(*line):
    """The exit status of a program, what it says on standard error, and its memory at its peak in KB."""
    with tempfile.TemporaryFile() as why:
        process = subprocess.Popen(line, stdin=subprocess.DEVNULL, stdout=subprocess.DEVNULL, stderr=why)
        timer = threading.Timer(120, process.kill)
        timer.start()
        _, status, used = os.wait4(process.pid, 0)
        process.returncode = os.waitstatus_to_exitcode(status)
        timer.cancel()
        why.seek(0)
        return process.returncode, why.read(), used.ru_maxrss


def folders():
    """Each job that was printed in a folder has its file there, by its number: one that is changed, taken away, or added is told, and with --taken
    files may be gone; a name that is taken is a job without a file; a second printer of the folder is refused."""
    with Books("--keep-room") as room:
        jobs = f"{room.folder}/jobs"
        os.mkdir(jobs)
        room.words = ("--keep-room", "--printer", f"1=folder:{jobs}")
        names = lambda: sorted(name for name in os.listdir(jobs) if name.startswith("job-"))
        place = ("--printed", f"1={jobs}")

        def run(*texts):
            room.start()
            for number, text in enumerate(texts):
                check(send(room.port, number, text) == 0, "a job isn't taken")
            room.stop()

        def told(label, status, out, why, *words):
            got = room.audit(*place, *words)
            check(got[0] == status and re.search(out, got[1]) and re.match(why, got[2]), f"{label}: {got}")

        # (a server's own mode, whatever the system would give)
        umask = os.umask(0)
        try:
            run(b"one", b"two" * 2000, b"three")
        finally:
            os.umask(umask)
        check(names() == ["job-0000000001", "job-0000000002", "job-0000000003"], names())
        modes = {oct(os.stat(f"{jobs}/{name}").st_mode & 0o777) for name in names()}
        check(modes == {"0o640"}, f"others may read what was printed: {modes}")
        told("as it is", 0, "printed 1 octets 6008\n$", "$")
        run(b"four", b"five")
        told("two runs", 0, "printed 1 octets 6016\n$", "$")
        # a file changed, exchanged, taken, added
        kept = f"{room.folder}/kept"
        shutil.copytree(jobs, kept)

        def again():
            shutil.rmtree(jobs)
            shutil.copytree(kept, jobs)

        with open(f"{jobs}/job-0000000003", "wb") as file:
            file.write(b"thref")
        told("changed", 6, "", r"fault 83 Printed \S+ printer 1 job 3 place 0 octet 0 of ")
        told("changed, and others are taken", 6, "", r"fault 83 Printed \S+ printer 1 job 3 ", "--taken", "1")
        again()
        os.rename(f"{jobs}/job-0000000001", f"{jobs}/job-0000000009")
        told("renamed", 6, "not judged 1: job 1, which no file has\n(.*\n)*not judged 1: file job-0000000009, which no job has\n",
             r"fault 83 Printed \S+ printer 1 job 1 isn't in \S+/job-0000000001\n")
        told("renamed, and taken", 0, "not judged 1: job 1, which no file has\n", "$", "--taken", "1")
        told("another printer's are taken", 6, "", "fault 83 ", "--taken", "2")
        again()
        shutil.copy(f"{jobs}/job-0000000001", f"{jobs}/job-0000000010")
        told("added", 0, "not judged 1: file job-0000000010, which no job has\n", "$")
        again()
        shutil.copy(f"{jobs}/job-0000000001", f"{jobs}/job-0000000006")
        told("added right behind the last one", 0, "not judged 1: file job-0000000006, which no job has\n", "$")
        again()
        # a name that is taken while a server runs
        room.start()
        with open(f"{jobs}/job-0000000006", "wb") as file:
            file.write(b"somebody's")
        check(send(room.port, 1, b"six") == 0 and send(room.port, 2, b"seven") == 0, "a job isn't taken")
        for _ in range(100):
            if "job-0000000007" in names():
                break
            time.sleep(0.05)
        room.stop()
        check(open(f"{jobs}/job-0000000007", "rb").read() == b"seven", names())
        check(open(f"{jobs}/job-0000000006", "rb").read() == b"somebody's", names())
        told("a name that was taken", 6, "", r"fault 83 Printed \S+ printer 1 job 1 place 0 octet 0 of ")
        # all files are taken away: the next run begins with 1 again, and an audit that is told so goes by its files
        for name in names():
            os.remove(f"{jobs}/{name}")
        run(b"eight", b"nine!")
        check(names() == ["job-0000000001", "job-0000000002"], names())
        # (a file that is gone is told where its job is read; one that a later job has, at the end)
        gone = [f"not judged 1: job {number}, which no file has" for number in (3, 1, 2, 1, 2)]
        due = [*gone, "printed 1 octets 10", *(f"not judged 1: job {number}, which no file has" for number in (1, 2))]
        status, out, why = room.audit(*place, "--taken", "1")
        check(status == 0 and told_of(out) == due and not why, f"taken and begun again: {status} {out}{why}")
        told("nobody said so", 6, "", "fault 83 ")
        # beside files that later jobs have one that none has
        with open(f"{jobs}/job-0000000003", "wb") as file:
            file.write(b"thref")
        told("one that no later job has", 6, "", r"fault 83 Printed \S+ printer 1 job 3 place 0 octet 0 of \S+/job-0000000003\n", "--taken", "1")
        os.remove(f"{jobs}/job-0000000003")
        # a second printer of the folder, by another path
        os.symlink(jobs, f"{room.folder}/link")
        two = ("--printer", f"1=folder:{jobs}", "--printer", f"2=folder:{room.folder}/link")
        for words in (("check", f"{room.folder}/spool.toml"), ("serve", f"{room.folder}/spool.toml", "--port", str(room.port), "--account", room.account)):
            ran = subprocess.run([PROGRAM, *words, *two], capture_output=True, text=True, timeout=30)
            check(ran.returncode == 4 and f"fault 73 WriteFile {room.folder}/link" in ran.stderr, f"{ran.returncode} {ran.stdout}{ran.stderr}")
        return "all told"


def segment(path, head, entries):
    """Writes a segment of these lines, and answers the digest that it ends in."""
    rewrite(path, [*head, *entries, f"end {len(entries)} -"])
    return digests(open(path).read().splitlines()[-1])[-1]


def made_by_hand(folder):
    """Two runs: of the first two segments, over whose end a job goes, and of the second one with two jobs that were aborted."""
    full, rest = (hashlib.sha256(text).hexdigest() for text in (b"hello wo", b"rld"))
    config = ["config 4 8 8 100000 lp 3 1", "printer file:a.out 0"]
    paths = [f"{folder}/{name}" for name in ("one", "two", "three")]
    end = segment(paths[0], ["account 2 1 1 2026-11-26T22:00:00Z 2026-11-26T22:00:09Z first", *config, "base 0 0 0 0 0 open running"], [
        "opened 1 0 1", "began 1 dfA001h1 11", "granted 1", f"put 1 0 0 8 {full}", "granted 1", f"put 1 0 1 3 {rest}", "ended 1 0 part",
        "controlled 1 whole 1 h1 ann%20lee dfA001h1", f"handed 1 1 0 0 0 8 {full}", f"printed going 1 1 0 0 0 8 {full}",
        f"handed 1 1 1 0 1 3 {rest}", f"printed done 1 1 1 0 1 3 {rest}", "opened 2 2 1", "began 2 dfA001h1 3"])
    end = segment(paths[1], [f"account 2 1 2 2026-11-26T22:00:09Z 2026-11-26T23:00:00Z after {end}", *config, "part 14 65 2 14 712"], [
        "granted 2", f"put 2 0 0 3 {rest}", "ended 2 0 part", "controlled 2 whole 1 h2 bob dfA001h1",
        f"handed 1 2 0 0 0 3 {rest}", f"printed done 1 2 0 0 0 3 {rest}"])
    segment(paths[2], [f"account 2 2 1 2026-11-27T22:00:00Z 2026-11-27T22:00:09Z after {end}", *config, "base 0 0 0 0 0 open running"], [
        "opened 1 0 1", "controlled 1 part 1 h3 eve dfA001h1", "began 1 dfA001h1 11", "granted 1", f"put 1 0 0 8 {full}", "aborted 1",
        "opened 2 0 1", "aborted 2"])
    return paths


def folders_of_version_1():
    """Of a folder whose files' numbers the account doesn't tell each run's jobs have files in order, from the first one on that has a job's pages: behind that none is
    passed over, and a job that has no file is told."""
    texts = (b"one", b"second", b"three")
    with tempfile.TemporaryDirectory() as folder:
        jobs, paths, end, number = f"{folder}/jobs", [], None, 0
        os.mkdir(jobs)
        for run, texts_of_run in enumerate((texts, (b"four", b"fifth")), 1):
            lines = []
            for job, text in enumerate(texts_of_run, 1):
                page = f"0 {len(text)} {hashlib.sha256(text).hexdigest()}"
                lines += [f"opened {job} 0 1", f"began {job} dfA001h1 {len(text)}", f"granted {job}", f"put {job} 0 {page}", f"ended {job} 0 part",
                          f"controlled {job} whole 1 h1 ann dfA001h1", f"handed 1 {job} 0 0 {page}", f"printed done 1 {job} 0 0 {page}"]
            paths.append(f"{folder}/{run}")
            end = segment(paths[-1], [f"account 1 {run} 1 2026-11-26T22:00:00Z 2026-11-26T22:00:09Z {f'after {end}' if end else 'first'}", "config 4 8 8 100000 lp 3 1",
                                      f"printer folder:{jobs} -", "base 0 0 0 0 0 open running"], [*lines, "closed"])

        def audit(files, *words):
            for name in os.listdir(jobs):
                os.remove(f"{jobs}/{name}")
            for number, octets in files:
                with open(f"{jobs}/job-{number:010}", "wb") as file:
                    file.write(octets)
            ran = subprocess.run([PROGRAM, "audit", *paths, "--printed", f"1={jobs}", *words], capture_output=True, text=True, timeout=60)
            return ran.returncode, told_of(ran.stdout), ran.stderr

        def differs(label, files, job):
            """The next file has other octets than this job, which is a fault, whoever takes files away."""
            for words in ((), ("--taken", "1")):
                got = audit(files, *words)
                check(got[0] == 6 and not got[1] and re.fullmatch(rf"fault 83 Printed {folder}/\S+ printer 1 job {job} place 0 octet \d+ of {jobs}\n", got[2]), f"{label}: {got}")

        def lacks(label, files, job, octets):
            """This job has no file: that is a fault at the end, or only told where somebody takes files away."""
            lines = [f"not judged 1: job {job}, which no file has", f"printed 1 octets {octets}"]
            got = audit(files, "--taken", "1")
            check(got == (0, lines, ""), f"{label}, taken: {got}")
            got = audit(files)
            check(got[:2] == (6, lines) and re.fullmatch(rf"fault 83 Printed {folder}/\S+ printer 1 job {job} isn't in {jobs}\n", got[2]), f"{label}: {got}")

        files = [(4, b"one"), (5, b"second"), (6, b"three"), (7, b"four"), (8, b"fifth")]
        due = (0, ["printed 1 octets 23"], "")
        for label, more in (("as it is", []), ("files before the first", [(1, b"old"), (2, b"older")]), ("another printer's behind", [(11, b"new")])):
            got = audit([*files, *more])
            check(got == due, f"{label}: {got}")
        got = audit([*files[:3], (7, b"between"), (8, b"four"), (9, b"fifth")])
        check(got == due, f"a file between two runs: {got}")
        differs("a file within a run", [files[0], (5, b"within"), (6, b"second"), (7, b"three"), (8, b"four"), (9, b"fifth")], 2)
        differs("another file within a run", [*files[:2], (6, b"within"), (7, b"three"), (8, b"four"), (9, b"fifth")], 3)
        differs("a file within the last run", [*files[:4], (8, b"within"), (9, b"fifth")], 2)
        differs("a file taken within a run", [files[0], *files[2:]], 2)
        differs("a changed file", [files[0], (5, b"secone"), *files[2:]], 2)
        lacks("no first file", files[1:], 1, 20)
        lacks("no last file", files[:-1], 2, 18)
        return "in order, and none passed over"


def what_was_used():
    """Each column of `usage`, by each grouping, within times, and as a table with commas."""
    with tempfile.TemporaryDirectory() as folder:
        files = made_by_hand(folder)

        def told(words, *lines):
            ran = subprocess.run([PROGRAM, "usage", *files, *words.split()], capture_output=True, text=True, timeout=60)
            check((ran.returncode, ran.stdout) == (0, "".join(f"{line}\n" for line in lines)), f"{words}: {ran.returncode} {ran.stdout}{ran.stderr}")

        ran = subprocess.run([PROGRAM, "audit", *files], capture_output=True, text=True, timeout=60)
        check(ran.returncode == 0 and ran.stdout.startswith("legal segments 3 entries 28 jobs 4 done 2 removed 0 failed 0 aborted 2\n"), ran.stdout + ran.stderr)
        ann, bob, eve, none = ("ann%20lee jobs 1 sent 11 printed 11", "bob jobs 1 sent 3 printed 3", "eve jobs 1 sent 8 printed 0", "- jobs 1 sent 0 printed 0")
        told("", ann, bob, eve, none)
        told("--by user", ann, bob, eve, none)
        told("--by host", "h1 jobs 1 sent 11 printed 11", "h2 jobs 1 sent 3 printed 3", "h3 jobs 1 sent 8 printed 0", none)
        told("--by queue", "lp jobs 4 sent 22 printed 14")
        told("--csv", "user,jobs,sent,printed", "ann lee,1,11,11", "bob,1,3,3", "eve,1,8,0", "'-,1,0,0")
        told("--by host --csv --since 2026-11-27T00:00:00Z", "host,jobs,sent,printed", "h3,1,8,0", "'-,1,0,0")
        # a job that goes over the end of a segment counts where it ends, and its octets where they came
        told("--until 2026-11-26T22:00:05Z", ann)
        told("--since 2026-11-26T22:00:10Z", bob, eve, none)
        told("--since 2026-11-26T22:00:10Z --until 2026-11-26T23:00:00Z", bob)
        told("--since 2026-11-27T22:00:10Z")
        # jobs that haven't ended at the end of what is told count as well, in a table as in lines
        for count in range(1, len(files) + 1):
            lines, table = (subprocess.run([PROGRAM, "usage", *files[:count], *words], capture_output=True, text=True, timeout=60).stdout.splitlines() for words in ((), ("--csv",)))
            lines = [tuple(re.fullmatch(r"(\S+) jobs (\d+) sent (\d+) printed (\d+)", line).groups()[1:]) for line in lines]
            check(lines == [tuple(line.split(",")[1:]) for line in table[1:]], f"{count} files: {lines} {table}")
        return "all columns"


def an_aborted_job_is_over():
    """A job that was given up before it was whole counts in the segment in which that was, also where that isn't the last one of its run."""
    with Books() as room:
        room.start()
        check(send(room.port, 1, b"x" * 10) == 0, "a job is taken")
        with contextlib.closing(begin(room.port, 2, 5_000, b"y" * 4_500, host="127.0.0.2")):
            until = time.monotonic() + 20
            while " 2 of 2 pages came" not in (told := room.tell("status")):
                check(time.monotonic() < until, told)
                time.sleep(0.05)
        # (times of segments are seconds: the second one begins later than the first)
        time.sleep(1.1)
        until = time.monotonic() + 20
        while "rotated" not in (told := room.tell("rotate")):
            check(time.monotonic() < until, told)
            time.sleep(0.1)
        room.await_segments(1)
        begun = open(room.segments()[0]).readline().split()[4]
        check(send(room.port, 3, b"z" * 20) == 0, "a job is taken")
        time.sleep(1.1)
        room.stop()
        ran = subprocess.run([PROGRAM, "usage", *room.segments(), "--until", begun], capture_output=True, text=True, timeout=60)
        check(ran.stdout == "ann jobs 1 sent 10 printed 10\n- jobs 1 sent 4096 printed 0\n", f"{begun}: {ran.stdout}{ran.stderr}")
        ended = open(room.segments()[1]).readline().split()[5]
        ran = subprocess.run([PROGRAM, "usage", *room.segments(), "--since", ended], capture_output=True, text=True, timeout=60)
        check(ran.stdout == "ann jobs 1 sent 20 printed 20\n", f"{ended}: {ran.stdout}{ran.stderr}")
    return "once"


def an_empty_file_is_no_segment():
    """An empty file is refused wherever it stands: alone, first, between two segments, and last."""
    with tempfile.TemporaryDirectory() as folder:
        files, empty = made_by_hand(folder), f"{folder}/empty"
        open(empty, "w").close()
        for at in range(len(files) + 1):
            ran = subprocess.run([PROGRAM, "audit", *files[:at], empty, *files[at:]], capture_output=True, text=True, timeout=60)
            check(ran.returncode == 6 and f"{empty}:1" in ran.stderr, f"at {at}: {ran.returncode} {ran.stdout}{ran.stderr}")
        ran = subprocess.run([PROGRAM, "audit", empty], capture_output=True, text=True, timeout=60)
        check(ran.returncode == 6 and f"{empty}:1" in ran.stderr, ran.stderr)
        return f"{len(files) + 2} places"


def names_are_no_formulas():
    """What strangers call themselves comes into a spreadsheet as text: with a `'` in front where it begins as a formula does."""
    names = {"=1+1": "'=1+1", "+1": "'+1", "-1": "'-1", "@a": "'@a", "%09a": "'\ta", "%0Da": "\"'\ra\"", "a=1": "a=1", "'a": "'a", "%20=1": " =1", "%25": "%"}
    with tempfile.TemporaryDirectory() as folder:
        lines = []
        for number, name in enumerate(names, 1):
            lines += [f"opened {number} 0 1", f"controlled {number} part 1 h1 {name} dfA001h1", f"aborted {number}"]
        segment(f"{folder}/one", ["account 2 1 1 2026-11-26T22:00:00Z 2026-11-26T22:00:09Z first", "config 4 8 8 100000 lp 3 1", "printer file:a.out 0",
                                  "base 0 0 0 0 0 open running"], lines)
        ran = subprocess.run([PROGRAM, "usage", f"{folder}/one", "--csv"], capture_output=True, timeout=60)
        check(ran.returncode == 0, f"{ran}")
        rows = ran.stdout.decode().split("\n")
        check(sorted(rows) == sorted(["user,jobs,sent,printed", "", *(f"{cell},1,0,0" for cell in names.values())]), f"{rows}")
        # lines that are no table have them as they are, by their digits
        ran = subprocess.run([PROGRAM, "usage", f"{folder}/one"], capture_output=True, text=True, timeout=60)
        check("=1+1 jobs 1 sent 0 printed 0\n" in ran.stdout.splitlines(True), f"{ran}")
        return f"{len(names)} names"


def a_printer_that_moves():
    """A printer that prints to another file in the second run and to the first one again in the third: each place has its path, and a run whose place
    isn't told isn't judged."""
    with Books("--keep-room") as room:
        one, two = f"{room.folder}/one", f"{room.folder}/two"
        for number, place in enumerate((one, two, one)):
            room.words = ("--keep-room", "--printer", f"1=file:{place}")
            room.start()
            check(send(room.port, number, b"page %d" % number) == 0, "a job isn't taken")
            room.stop()
        both = ("--printed", f"1@file:{one}={one}", "--printed", f"1@file:{two}={two}")
        first, second = f"not judged 1: run 1 printed to file:{one}", f"not judged 1: run 2 printed to file:{two}"
        # (a directory has the default files of the printers of which nothing is said: the second one's has nothing, and the first one printed to none)
        with open(f"{room.folder}/printer-1", "wb") as file:
            file.write(b"somebody's")
        for label, words, lines in (
                ("both", both[1::2], ["printed 1 octets 12", "printed 1 octets 6"]),
                ("the printer's", (f"1={one}",), [second, "printed 1 octets 12"]),
                ("the second place's", (f"1@file:{two}={two}",), [first, "printed 1 octets 6"]),
                ("no printer's, 0", (f"1={one}", f"0={one}"), [second, "printed 1 octets 12", "not judged 0: the account has no such printer"]),
                ("no printer's, 9", (f"9={one}", f"1={one}"), [second, "printed 1 octets 12", "not judged 9: the account has no such printer"]),
                ("two printers'", (f"1={one}", f"2={room.folder}/printer-2"), [second, "printed 1 octets 12", "printed 2 octets 0"]),
                ("a directory, and the second place's", (room.folder, f"1@file:{two}={two}"), [first, "printed 2 octets 0", "printed 1 octets 6"]),
                ("a directory, and the printer's", (f"1={one}", room.folder), [second, "printed 1 octets 12", "printed 2 octets 0"]),
                ("the other printer's", (f"2={room.folder}/printer-2",), ["printed 2 octets 0"])):
            status, out, why = room.audit(*(it for word in words for it in ("--printed", word)))
            check(status == 0 and told_of(out) == lines and not why, f"{label}: {status} {out}{why}")
        with open(two, "wb") as file:
            file.write(b"page x")
        status, out, why = room.audit(*both)
        check(status == 6 and f"printer 1 job 1 place 0 octet 0 of {two}\n" in why, f"{status} {out}{why}")
        check(room.audit("--printed", f"1={one}")[0] == 0, "what isn't told is judged")
        return "both places"


def pipes_in_the_place_of_files():
    """A pipe in the place of what was a printer's file, or a job's file in a folder, keeps no audit waiting: it is told. (The audit waited for ever.)"""
    with Books("--keep-room") as room:
        jobs = f"{room.folder}/jobs"
        os.mkdir(jobs)
        room.words = ("--keep-room", "--printer", f"1=file:{room.folder}/one", "--printer", f"2=folder:{jobs}")
        room.start()
        for queue in ("lp", "plotter"):
            check(send(room.port, 1, b"a page", queue) == 0, "a job isn't taken")
        room.stop()
        for path in (f"{room.folder}/one", f"{jobs}/job-0000000001"):
            os.remove(path)
            os.mkfifo(path)
        start = time.monotonic()
        status, out, why = room.audit("--printed", f"1={room.folder}/one", "--printed", f"2={jobs}")
        took = time.monotonic() - start
        check("not judged 1: it can't be read again\n" in out, f"{status} {out}{why}")
        check(status == 6 and re.search(r"fault 83 Printed \S+ printer 2 job \d+ isn't in \S+/job-0000000001\n", why), f"{status} {out}{why}")
        check(took < 5, f"{took:.1f} s")
        return f"{took:.2f} s"


def a_last_segment_that_goes_on():
    """A server doesn't go on behind a last segment with octets behind its last line, nor behind one that is cut off or empty: it says which file it is."""
    with Books("--keep-room") as room:
        room.start()
        check(send(room.port, 1, b"a page") == 0, "a job isn't taken")
        room.stop()
        last = room.segments()[-1]
        text = open(last, "rb").read()
        for wrong in (text + b"x", text + b"x\n", text + b"\n", text[:-1], text[:-2], text[:len(text) // 2], b""):
            with open(last, "wb") as file:
                file.write(wrong)
            # (one that goes on is ended)
            ran = subprocess.run(["timeout", "8", PROGRAM, "serve", f"{room.folder}/spool.toml", "--port", str(room.port), "--out", room.folder, "--account",
                                  room.account], capture_output=True, text=True, timeout=30)
            check(ran.returncode == 4 and "segment-0000000001 isn't a whole segment" in ran.stderr, f"{wrong[-9:]}: {ran.returncode} {ran.stderr}")
            check(open(last, "rb").read() == wrong and room.segments() == [last], f"{wrong[-9:]}: it was changed")
        return "seven ways"


def a_start_goes_on_behind_the_last():
    """A start goes on behind the segment of the greatest number, in whichever order the directory lists them: all of them are one account then."""
    with Books("--keep-room") as room:
        os.mkdir(room.account)
        runs, seen, chance = 0, set(), random.Random(7)
        while len(seen) < 2 or runs < 4:
            check(runs < 40, f"the directory lists the greatest one at one end each time: {seen}")
            paths = room.segments()
            # (where the order is that in which the files were made it is another one each time)
            texts = [(path, open(path, "rb").read()) for path in paths]
            chance.shuffle(texts)
            for path, _ in texts:
                os.remove(path)
            for path, text in texts:
                with open(path, "wb") as file:
                    file.write(text)
            listed = [name for name in os.listdir(room.account) if name.startswith("segment-")]
            seen |= {end for end in (0, -1) if listed and listed[end] != os.path.basename(paths[-1])}
            room.start()
            check(send(room.port, runs, b"a page") == 0, "a job isn't taken")
            room.stop()
            runs += 1
            names = [os.path.basename(path) for path in room.segments()]
            check(names == [f"segment-{number:010}" for number in range(1, runs + 1)], names)
            status, told, why = room.audit()
            check(status == 0 and told.startswith(f"legal segments {runs} ") and f" jobs {runs} done {runs} " in told, f"{runs} runs: {status} {told}{why}")
        return f"{runs} runs, listed in several orders"


def hostile_files():
    """Files that are no segments end in a fault line, in bounded memory."""
    with tempfile.TemporaryDirectory() as folder:
        path = f"{folder}/segment"
        head = "account 1 1 1 2026-11-26T22:00:00Z 2026-11-26T22:00:09Z first\nconfig 64 64 16 16000000 a 16 1\nprinter file:a - \n"
        good = head.replace(" - \n", " -\n") + "base 0 0 0 0 0 open running\n"
        files = {
            "a line of 10 MB": b"account 1 " + b"1" * 10_000_000 + b"\n",
            "binary": random.Random(1).randbytes(1_000_000),
            "half a line": good.encode()[:-5],
            "a head alone": good.encode(),
            "nothing": b"",
            "a number past 64 bits": good.encode() + b"opened 18446744073709551616 1 1\n",
            "a million entries": good.encode() + b"started 1\n" * size("ENTRIES", 1_000_000, 50_000),
            "octets 00": b"\0" * 1_000_000,
            "line feeds": b"\n" * 1_000_000,
        }
        least = measured(PROGRAM, "audit", f"{folder}/none")[2]
        for label, octets in files.items():
            with open(path, "wb") as file:
                file.write(octets)
            for word in ("audit", "usage"):
                status, why, most = measured(PROGRAM, word, path)
                check(status == 6 and why.startswith(b"fault 8") and why.count(b"\n") == 1 and len(why) < 4096,
                      f"{label}, {word}: {status} {why[:200]}")
                check(most < least + 100_000, f"{label}, {word}: {most} KB, and {least} for a file that isn't there")
        told = subprocess.run([PROGRAM, "audit", f"{folder}/none"], capture_output=True, timeout=20)
        check(told.returncode == 4 and told.stderr.splitlines()[-1].startswith(b"fault 71 ReadFile"), told)
        return f"{len(files)} files, each refused in one line"


def a_long_account():
    """An account of a million entries, with eight jobs held at a time, over several segments: how long an audit takes."""
    entries = size("ENTRIES", 1_000_000, 50_000)
    with tempfile.TemporaryDirectory() as folder:
        total, digest, run = 0, None, 0
        while entries - total > 1_000:
            run += 1
            total += write_segment(f"{folder}/segment-{run:010}", run, digest, min(200_000, entries - total))
            digest = open(f"{folder}/segment-{run:010}").read().rsplit(" ", 1)[1].strip()
        before = resource.getrusage(resource.RUSAGE_CHILDREN)
        told = subprocess.run([PROGRAM, "audit", *sorted(glob.glob(f"{folder}/segment-*"))], capture_output=True, text=True, timeout=300)
        after = resource.getrusage(resource.RUSAGE_CHILDREN)
        check(told.returncode == 0 and f"entries {total} " in told.stdout, f"{told.stdout}{told.stderr}")
        return f"{total} entries in {run} segments: {after.ru_utime - before.ru_utime + after.ru_stime - before.ru_stime:.1f} s of a processor"


def write_segment(path, run, previous, entries):
    """Writes the only segment of a run: jobs of one page, eight held at a time, and the close."""
    digest = hashlib.sha256(b"x").hexdigest()
    lines = [f"account 1 {run} 1 2026-11-26T22:00:00Z 2026-11-26T23:00:00Z {'after ' + previous if previous else 'first'}",
             "config 64 64 16 16000000 a 2 1", "printer file:a -", "base 0 0 0 0 0 open running"]
    head = len(lines)
    job = 0
    held = []
    while len(lines) - head < entries - 100:
        job += 1
        lines += [f"opened {job} {job % 8} 1", f"began {job} dfA001h1 1", f"granted {job}", f"put {job} 0 0 1 {digest}",
                  f"ended {job} 0 part", f"controlled {job} whole 1 h1 ann dfA001h1"]
        held.append(job)
        if len(held) == 8:
            first = held.pop(0)
            lines += [f"handed 1 {first} 0 0 0 1 {digest}", f"printed done 1 {first} 0 0 0 1 {digest}"]
    for first in held:
        lines += [f"handed 1 {first} 0 0 0 1 {digest}", f"printed done 1 {first} 0 0 0 1 {digest}"]
    lines.append("closed")
    body = "".join(line + "\n" for line in lines)
    count = len(lines) - head
    with open(path, "w") as file:
        file.write(body + f"end {count} {hashlib.sha256(body.encode()).hexdigest()}\n")
    return count


SCENES = [written_and_audited, changed_files_are_told, folders, folders_of_version_1, what_was_used, an_aborted_job_is_over, an_empty_file_is_no_segment,
          names_are_no_formulas, a_printer_that_moves,
          pipes_in_the_place_of_files, a_last_segment_that_goes_on, a_start_goes_on_behind_the_last, a_full_disk, hostile_files, a_long_account]

if __name__ == "__main__":
    sys.exit(main(SCENES, __doc__))
