#!/usr/bin/env python3
"""Scenes of what is told of a folder of kept jobs: counting.py PROGRAM [SCENE..], where PROGRAM is the built lpd_server.

Files are taken away and put there by other hands. Each scene is bounded in time and runs on loopback alone; that of a full disk mounts a small
file system, and so is left out where that isn't allowed. A line says what was seen; the last line is 'N passed, M failed'."""
import contextlib
import os
import re
import shutil
import socket
import subprocess
import sys
import time
import urllib.request

from cancelling import LONG, Desk, send_files
from client import begin, finish, free_port, send
from keeping import Room, small_disk
from scene import PROGRAM, check, main

# The first number that no job's file has.
NUMBERS_END = 1 << 63


class Counted(Desk):
    """A server that keeps its jobs, and whose status is shown too."""

    def __init__(self, pages=256):
        super().__init__(keeps=True, pages=pages)
        self.status = free_port()

    def line(self):
        return super().line() + ["--status", str(self.status)]

    def page(self, path):
        return urllib.request.urlopen(f"http://127.0.0.1:{self.status}{path}", timeout=10).read().decode()

    def second_line(self):
        """The words of another server that is to have the same folders."""
        line = self.line()
        for word, other in (("--port", str(free_port())), ("--status", str(free_port())), ("--control", f"{self.folder}/other")):
            line[line.index(word) + 1] = other
        return line


def until(limit, holds, what):
    """Waits until it holds, and answers after how many seconds it did."""
    start = time.monotonic()
    while not holds():
        check(time.monotonic() - start < limit, f"after {limit} s: {what()}")
        time.sleep(0.2)
    return time.monotonic() - start


def a_failed_file_is_deleted():
    """It is counted no more: at the control socket, on the page and in the metrics."""
    with Counted() as desk:
        desk.start()
        for number in (5, 6):
            desk.send(number, queue="bad")
            desk.await_files(number - 4, "failed")
            desk.says("start bad", "started 2\n")
        desk.await_status("kept waiting 0 failed 2")
        os.remove(f"{desk.kept}/1.failed")
        took = until(5, lambda: "kept waiting 0 failed 1" in desk.tell("status"), lambda: desk.tell("status"))
        check('hurgwaye_kept_jobs{state="failed"} 1\n' in desk.page("/metrics"), desk.page("/metrics"))
        os.remove(f"{desk.kept}/2.failed")
        until(5, lambda: 'hurgwaye_kept_jobs{state="failed"} 0\n' in desk.page("/metrics"), lambda: desk.page("/metrics"))
        check("kept waiting 0 failed 0" in desk.tell("status"), desk.tell("status"))
        return f"within {took:.1f} s"


def a_waiting_file_is_deleted():
    """A whole job that waits is counted no more once its file is gone, which is told; those behind it are printed, and it isn't."""
    with Counted() as desk:
        desk.start()
        desk.says("hold lp", "")
        for number in (1, 2, 3):
            desk.send(number, b"%d" % number)
        desk.await_status("kept waiting 3 failed 0")
        os.remove(f"{desk.kept}/2.job")
        took = until(5, lambda: "kept waiting 2 failed 0" in desk.tell("status"), lambda: desk.tell("status"))
        check("parked lp 2" in desk.tell("status"), desk.tell("status"))
        desk.await_log("the files of 1 jobs that waited are gone")
        with open(f"{desk.folder}/printer-1", "rb", buffering=0) as pipe:
            desk.says("release lp", "")
            check(pipe.read(1) + pipe.read(1) == b"13", "other octets")
        desk.await_files(0)
        desk.await_status("kept waiting 0 failed 0")
        check("stays where it is" not in desk.log() and "after the next start" not in desk.log(), desk.log())
        return f"within {took:.1f} s"


def each_queue_s_waiting_jobs():
    """How many jobs wait in the folder stands at the card of their queue, and in its line and measure."""
    with Counted() as desk:
        desk.start()
        desk.says("hold bad", "")
        for number in (1, 2, 3):
            desk.send(number, queue="bad")
        desk.await_status("parked bad 3")
        page = desk.page("/")
        cards = {name: page[page.index(f"<bdi>{name}</bdi>", page.index('id="queues"')):].split("</section>")[0] for name in ("lp", "bad")}
        check("3 jobs wait in the folder" in cards["bad"] and "wait in the folder" not in cards["lp"], cards)
        check('\nhurgwaye_queue_parked_jobs{queue="bad"} 3\n' in desk.page("/metrics"), desk.page("/metrics"))
    return "at its own card"


def what_a_stop_leaves_is_counted():
    """Files of jobs that wait are deleted just before a stop: it tells how many are left, and that the others are gone."""
    with Counted() as desk:
        desk.start()
        desk.says("hold lp", "")
        for number in (1, 2, 3):
            desk.send(number, b"%d" % number)
        desk.await_status("kept waiting 3 failed 0")
        for number in (1, 3):
            os.remove(f"{desk.kept}/{number}.job")
        told = desk.tell("stop")
        check("1 jobs wait in the folder for the next start" in told, told)
        desk.await_log("the files of 2 jobs that waited are gone")
    return "1 of 3"


def a_job_whose_file_is_gone():
    """A job that the spool has is printed though its file is gone, and nobody is told that it is printed again."""
    with Counted() as desk:
        desk.start()
        desk.send(1, LONG)
        desk.await_files(1)
        os.remove(f"{desk.kept}/1.job")
        with open(f"{desk.folder}/printer-1", "rb") as pipe:
            octets = b""
            while len(octets) < len(LONG):
                octets += pipe.read1(65536)
        desk.await_log("somebody took the job's file away")
        check("after the next start" not in desk.log(), desk.log())
        return desk.log().strip().splitlines()[-1][-80:]


def what_is_put_there_is_not_written_over():
    """A file that somebody puts into the folder under the number that the next job would get stays, and is printed by the next server: that job is refused for now,
    and the one behind it taken. Likewise a failed job's file. (The new job was written over it, without a word.)"""
    with Room() as room:
        os.symlink("/dev/full", f"{room.folder}/printer-3")
        room.start()
        room.tell("hold", "lp")
        check(send(room.port, 1, b"<first>") == 0, "it isn't taken")
        job = open(f"{room.kept}/1.job", "rb").read()
        with open(f"{room.kept}/2.job", "wb") as file:
            file.write(job)
        octet = send(room.port, 2, b"<another>")
        check(octet == 2, f"answered by {octet}")
        room.await_log("2.tmp: ")
        check(open(f"{room.kept}/2.job", "rb").read() == job, "it is written over")
        check(send(room.port, 3, b"<third>") == 0, "the next one isn't taken")
        with open(f"{room.kept}/4.failed", "wb") as file:
            file.write(b"somebody's")
        room.tell("release", "lp")
        check(send(room.port, 4, b"<fourth>", queue="bad") == 0, "one that will fail isn't taken")
        room.await_log("4.job: ")
        check(open(f"{room.kept}/4.failed", "rb").read() == b"somebody's", "a failed one is written over")
        room.kill()
        os.remove(f"{room.kept}/4.failed")
        was = room.printed()
        check(was == b"<first><third>", was)
        room.start()
        room.await_files(1, "failed")
        room.await_files(0)
        check(room.printed() == b"<first><third><first>", room.printed())
        return [line for line in room.log().splitlines() if "2.tmp" in line][0][-100:]


def what_is_no_job_is_not_resent():
    """Nothing is renamed, and no count changes: of a link to another file, of other octets, of another queue's, and beside a whole one."""
    with Counted() as desk:
        desk.start()
        desk.send(5, queue="bad")
        desk.await_files(1, "failed")
        desk.says("start bad", "started 2\n")
        job = open(f"{desk.kept}/1.failed", "rb").read()
        os.symlink("/etc/hostname", f"{desk.kept}/70.failed")
        for number, octets in ((71, b"junk"), (72, job.replace(b"\x02bad", b"\x02gone")), (73, job)):
            with open(f"{desk.kept}/{number}.failed", "wb") as file:
                file.write(octets)
        desk.says("hold bad", "")
        desk.send(6, queue="bad")
        shutil.copy(f"{desk.kept}/2.job", f"{desk.kept}/2.failed")
        desk.await_status("kept waiting 1 failed 6")
        for number, why in ((70, "isn't that of a kept job"), (71, "isn't that of a kept job"), (72, "no queue has the name"), (74, "No such file"),
                            (2, "is there already"), (NUMBERS_END, "")):
            desk.refuses(f"resend {number}", why)
        check(desk.files("failed") == ["1.failed", "2.failed", "70.failed", "71.failed", "72.failed", "73.failed"], desk.files("*"))
        check(desk.files("job") == ["2.job"], desk.files("job"))
        desk.await_status("kept waiting 1 failed 6")
        desk.says("resend 73", "resent file 73 (005) ann@h1 of bad\n")
        desk.await_status("kept waiting 2 failed 5")
        return "six are refused, and one is sent"


def a_lock_that_is_not_opened():
    """Neither a start nor check has a folder whose lock is there and can't be opened: it isn't known whether a server has it. No lock at all is none."""
    with Counted() as desk:
        for word, purpose in (("--spool", "kept"), ("--account", "account")):
            folder = f"{desk.folder}/{purpose}"
            os.makedirs(folder)
            lines = [[PROGRAM, "check", f"{desk.folder}/spool.toml", word, folder],
                     [PROGRAM, "serve", f"{desk.folder}/spool.toml", "--port", str(free_port()), "--out", desk.folder, "--keep-room", word, folder]]
            ran = subprocess.run(lines[0], capture_output=True, text=True, timeout=10)
            check(ran.returncode == 0 and os.listdir(folder) == [], ran)
            # A link to itself leads nowhere.
            os.symlink("lock", f"{folder}/lock")
            for line in lines:
                ran = subprocess.run(["timeout", "8", *line], capture_output=True, text=True, timeout=10)
                why = ran.stderr.splitlines()
                check(ran.returncode == 4 and "Too many levels of symbolic links" in why[-2] and why[-1] == f"fault 73 WriteFile {folder}", f"{word}: {ran}")
            # A lock that is a folder, or a pipe, isn't one.
            for make in (os.mkdir, os.mkfifo):
                os.remove(f"{folder}/lock")
                make(f"{folder}/lock")
                for line in lines:
                    ran = subprocess.run(["timeout", "8", *line], capture_output=True, text=True, timeout=10)
                    why = ran.stderr.splitlines()
                    check(ran.returncode == 4 and "its lock is no file" in why[-2] and why[-1] == f"fault 73 WriteFile {folder}", f"{word}: {ran}")
                if make is os.mkdir:
                    os.rmdir(f"{folder}/lock")
                    os.symlink("lock", f"{folder}/lock")
        return ran.stderr.splitlines()[-2]


def how_long_jobs_took():
    """A job's time to arrive is counted until it was whole, and its time to be printed from then on: neither has the other's. Each is told in the metrics, by its sum
    and by how many there were."""
    with Counted() as desk:
        desk.start()

        def times():
            page = desk.page("/metrics")
            return [float(re.search(rf"(?m)^hurgwaye_job_{what}_seconds_{sum_or_count} ([\d.]+)$", page)[1]) for what in ("arriving", "printing")
                    for sum_or_count in ("sum", "count")]

        check(times() == [0, 0, 0, 0], times())
        with contextlib.closing(begin(desk.port, 1, 8, b"half")) as peer:
            time.sleep(3)
            check(finish(peer, 1, b"half") == 0, "it isn't taken")
        until(20, lambda: times()[3] == 1, times)
        arriving, came, printing, printed = times()
        check(arriving >= 3 and printing < 2 and came == 1, f"arrived in {arriving} s, and printed in {printing} s")
        before, arriving = printing, -arriving
        desk.send(2, LONG)
        time.sleep(3)
        with open(f"{desk.folder}/printer-1", "rb") as pipe:
            octets = b""
            while len(octets) < 8 + len(LONG):
                octets += pipe.read1(65536)
            until(20, lambda: times()[3] == 2, times)
        arriving, printing = arriving + times()[0], times()[2] - before
        check(arriving < 2 and printing >= 3 and times()[1] == 2, f"arrived in {arriving} s, and printed in {printing} s")
        return f"{printing:.1f} s of printing"


def each_queue_has_its_part():
    """As many jobs of a queue whose printer takes nothing come to the spool as have room in its part, by the pages of all their files and by the rows of the table, and the
    others wait in the folder; and so after the next start. (Its part is 128 pages and 4 rows.)"""
    page = 4096
    for files, come in (([64], 2), ([43], 2), ([1] * 43, 2), ([20, 22], 3), ([20], 4)):
        with Counted() as desk:
            desk.start()
            # What the pipe takes is of the first one alone.
            for number in range(1, come + 3):
                send_files(desk.port, number, [b"x" * (pages * page) for pages in files])
                told = desk.await_status(f"kept waiting {max(0, number - come)} failed 0")
            for again in (False, True):
                if again:
                    desk.kill()
                    desk.start()
                until(10, lambda: (told := desk.tell("status")).count("\njob ") == come and "kept waiting 2 failed 0" in told, lambda: f"{files}: {desk.tell('status')}")
                # (nothing comes to the spool later)
                time.sleep(0.3)
                told = desk.tell("status")
                check(told.count("\njob ") == come and "kept waiting 2 failed 0" in told, f"{files}, {'a start' if again else 'as they came'}: {told}")
    return "by pages and by rows"


def a_lock_is_deleted():
    """A second server doesn't get a folder whose lock was deleted, nor does check; once the first one has ended it does."""
    with Counted() as desk:
        desk.start()
        for _ in range(2):
            os.remove(f"{desk.kept}/lock")
            checked = subprocess.run([PROGRAM, "check", f"{desk.folder}/spool.toml", "--spool", desk.kept], capture_output=True, text=True, timeout=10)
            check(checked.returncode == 4 and "another server keeps its jobs there" in checked.stderr, checked)
            told = subprocess.run(desk.second_line(), capture_output=True, text=True, timeout=10)
            check(told.returncode == 4 and told.stderr.splitlines()[-1] == f"fault 73 WriteFile {desk.kept}", told)
        desk.kill()
        desk.start()
        desk.send(1)
        return told.stderr.splitlines()[0]


def an_accounts_lock_is_deleted():
    """The same of the folder of an account."""
    with Counted() as desk:
        account = f"{desk.folder}/account"
        desk.words = ("--account", account)
        desk.start()
        os.remove(f"{account}/lock")
        line = desk.second_line()
        line[line.index("--spool") + 1] = f"{desk.folder}/other-kept"
        told = subprocess.run(line, capture_output=True, text=True, timeout=10)
        check(told.returncode == 4 and told.stderr.splitlines()[-1] == f"fault 73 WriteFile {account}", told)
        return told.stderr.splitlines()[0]


def numbers_that_no_job_has():
    """Files with numbers from 2^63 on are told, stay, and are no jobs; new jobs go on behind the others."""
    with Room() as room:
        os.mkfifo(f"{room.folder}/printer-1")
        room.start()
        check(send(room.port, 1, b"a" * 70_000) == 0, "it is taken")
        room.await_files(1)
        room.kill()
        beyond = [NUMBERS_END, (1 << 64) - 2, (1 << 64) - 1]
        for number in beyond:
            shutil.copy(f"{room.kept}/1.job", f"{room.kept}/{number}.job")
        shutil.copy(f"{room.kept}/1.job", f"{room.kept}/{(1 << 64) - 2}.failed")
        os.remove(f"{room.folder}/printer-1")
        room.start()
        for number in (2, 3, 4, 5):
            check(send(room.port, number, b"b") == 0, f"job {number} isn't taken")
        room.await_files(len(beyond))
        check(room.printed() == b"a" * 70_000 + b"b" * 4, len(room.printed()))
        check("kept waiting 0 failed 0" in room.tell("status"), room.tell("status"))
        for number in beyond:
            told = room.log().count(f"{number}.job is no job, and stays: its number is {NUMBERS_END} or greater")
            check(told == 1, room.log())
        check("no job, and stays" in room.log() and room.log().count("is no job") == 4, room.log())
        for words in (("cancel", "file"), ("resend",)):
            check("fault 60 Refused" in room.tell(*words, str((1 << 64) - 2)), words)
        # The greatest one that a job can have is the last.
        room.kill()
        with open(f"{room.kept}/{NUMBERS_END - 2}.failed", "wb") as file:
            file.write(b"x")
        room.start()
        check([send(room.port, number, b"c") for number in (6, 7)] == [0, 2], "the last number is given twice, or not at all")
        return "four are told, and new jobs are taken"


def a_temporary_that_is_a_folder():
    """The start tells which one, and why it can't be removed."""
    with Room() as room:
        os.makedirs(f"{room.kept}/300.tmp")
        told = subprocess.run(room.line(), capture_output=True, text=True, timeout=10)
        check(told.returncode == 4 and told.stderr.splitlines()[-1] == f"fault 73 WriteFile {room.kept}", told)
        check("300.tmp: Is a directory" in told.stderr, told)
        return told.stderr.splitlines()[0]


def a_job_that_is_not_kept_is_logged_once():
    """On a full disk one line of the log tells of a job that isn't kept."""
    with Room() as room, small_disk(room.kept, 1):
        room.start()
        with open(f"{room.kept}/filler", "wb") as file:
            with contextlib.suppress(OSError):
                file.write(b"x" * (1 << 20))
        before = room.log()
        check(send(room.port, 3, b"c" * 300_000) == 2, "it is taken")
        room.await_log("isn't kept")
        time.sleep(0.5)
        more = room.log()[len(before):].strip().splitlines()
        check(len(more) == 1 and "isn't kept" in more[0], more)
        return more[0][-60:]


def asked(desk, line):
    """A connection to the control socket at which this was asked."""
    peer = socket.socket(socket.AF_UNIX)
    peer.settimeout(15)
    peer.connect(f"{desk.folder}/control")
    peer.sendall(line + b"\n")
    return peer


def what_is_fed_is_not_lost():
    """`stop now` while a kept job is fed to the spool: its file stays, and nobody is told that it is lost. One that was arriving is told."""
    seen = 0
    for pause in (0.02, 0.04, 0.06, 0.1):
        with Desk(keeps=True) as desk:
            desk.start()
            desk.says("hold lp", "")
            desk.send(1, b"x" * 4096 * 60)
            desk.await_files(1)
            with begin(desk.port, 7, 100_000, b"y" * 10_000, queue="bad", host="127.0.0.2"):
                with asked(desk, b"release lp") as peer:
                    check(peer.recv(100) == b"end done\n", "it isn't released")
                time.sleep(pause)
                with asked(desk, b"stop now") as peer:
                    while peer.recv(4096):
                        pass
            check(desk.server.wait(10) == 0, "its status isn't 0")
            lost = [line for line in desk.log().splitlines() if "is lost" in line]
            check(len(lost) == 1 and " bad " in lost[0], desk.log())
            seen += desk.files("job") == ["1.job"]
    check(seen > 0, "it was printed each time")
    return f"it stayed {seen} of 4 times, and the one that was arriving was told"


def a_stop_behind_a_stop():
    """Whoever asks for a stop a moment after `stop now` is answered, or told that no server is there: nobody's connection is reset."""
    seen = []
    for pause in (0, 0.01, 0.03, 0.1, 0.3, 0.6, 0.9):
        with Desk(keeps=True) as desk:
            desk.start()
            # A page at a printer that takes nothing: the end takes a moment.
            desk.send(1, LONG)
            desk.await_status(" is at printer 1")
            first = subprocess.Popen([PROGRAM, "control", f"{desk.folder}/control", "stop", "now"], stdout=subprocess.DEVNULL)
            time.sleep(pause)
            try:
                with asked(desk, b"stop") as peer:
                    told = b""
                    while piece := peer.recv(4096):
                        told += piece
                check(told.endswith(b"end done\n"), told)
                seen.append("answered")
            except (ConnectionRefusedError, FileNotFoundError):
                seen.append("nobody there")
            check(first.wait(10) == 0 and desk.server.wait(10) == 0, "it doesn't end")
    check("answered" in seen, seen)
    return ", ".join(seen)


SCENES = [a_failed_file_is_deleted, a_waiting_file_is_deleted, each_queue_s_waiting_jobs, what_a_stop_leaves_is_counted, a_job_whose_file_is_gone, what_is_put_there_is_not_written_over, what_is_no_job_is_not_resent, a_lock_is_deleted, an_accounts_lock_is_deleted,
          a_lock_that_is_not_opened, how_long_jobs_took, each_queue_has_its_part,
          numbers_that_no_job_has, a_temporary_that_is_a_folder, a_job_that_is_not_kept_is_logged_once, what_is_fed_is_not_lost, a_stop_behind_a_stop]


if __name__ == "__main__":
    sys.exit(main(SCENES, __doc__))
