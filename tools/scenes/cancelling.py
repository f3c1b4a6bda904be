#!/usr/bin/env python3
"""Scenes of single jobs that are removed at a control socket: cancelling.py PROGRAM [SCENE..], where PROGRAM is the built lpd_server.

Each is named by its number of acceptance or by that of its file; jobs of two hosts have one client's number. A line says what was seen; the last
line is 'N passed, M failed'."""
import contextlib
import os
import shutil
import socket
import string
import sys
import time
import urllib.request

from client import answer, ask, begin, connect, finish, free_port, send
from keeping import Room
from scene import check, main

# Longer than what a pipe holds: its printer has begun it, and isn't through with it.
LONG = b"x" * 200_000
# The letters by which a job names its files: as many as it may have.
LETTERS = string.ascii_uppercase + string.ascii_lowercase


def spool(jobs, pages=256):
    """Two queues in a spool for so many jobs, each of up to 64 pages."""
    return f"pages = {pages}\npage_size = 4096\nmax_jobs = {jobs}\naccount = 4000000\n" + "".join(
        f'[[queue]]\nname = "{name}"\nlimit = 64\nprinters = 1\n' for name in ("lp", "bad"))


class Desk(Room):
    """A server at whose control socket jobs are removed. A pipe that nobody reads is its first printer, and its second one has no room."""

    def __init__(self, keeps, pages=256):
        super().__init__(config=spool(16, pages))
        self.keeps = keeps
        os.mkfifo(f"{self.folder}/printer-1")
        os.symlink("/dev/full", f"{self.folder}/printer-2")

    def line(self):
        line = super().line()
        if not self.keeps:
            at = line.index("--spool")
            del line[at:at + 2]
        return line

    def send(self, number, octets=b"y", queue="lp", host="127.0.0.1"):
        check(send(self.port, number, octets, queue=queue, host=host) == 0, f"job {number} isn't taken")

    def says(self, words, said):
        """A command is answered so."""
        told = self.tell(*words.split())
        check(told == said, f"{words}: {told!r}, and not {said!r}")

    def refuses(self, words, why):
        told = self.tell(*words.split())
        check(told.startswith("fault 60 Refused ") and why in told, f"{words}: {told!r} has no {why!r}")

    def await_status(self, part, there=True):
        for _ in range(200):
            told = self.tell("status")
            if (part in told) == there:
                return told
            time.sleep(0.05)
        raise AssertionError(f"status has {'no ' if there else ''}{part!r}: {told}")


def send_files(port, number, files, user="ann", queue="lp", at=None):
    """Sends a job of these data files, and its control file before the one at this place, or behind all."""
    names = [f"df{LETTERS[place]}{number:03}h1" for place in range(len(files))]
    text = f"Hh1\nP{user}\n{''.join(f'f{name}{chr(10)}' for name in names)}".encode()
    pieces = [(f"\x03{len(octets)} {name}\n".encode(), octets + b"\0") for name, octets in zip(names, files)]
    pieces.insert(len(files) if at is None else at, (f"\x02{len(text)} cfA{number:03}h1\n".encode(), text + b"\0"))
    with contextlib.closing(connect(port)) as peer:
        for line in (b"\x02" + queue.encode() + b"\n", *(line for piece in pieces for line in piece)):
            peer.sendall(line)
            octet = answer(peer)
            check(octet == 0, f"job {number} is answered by {octet} at {line[:20]!r}")


def jobs_of_two_hosts():
    """Two hosts have sent a job 002: the one that is named goes, begun or not, and no other."""
    with Desk(keeps=False) as desk:
        desk.start()
        desk.send(2, LONG, host="127.0.0.2")
        desk.await_status("prints 1 place")
        desk.send(2, host="127.0.0.3")
        desk.send(2, host="127.0.0.2")
        desk.says("cancel job 2", "removed job 2 (002) ann@h1 of lp\n")
        told = desk.await_status("job 2 lp", there=False)
        check("job 1 lp 127.0.0.2" in told and "job 3 lp 127.0.0.2" in told, f"another host's job went too: {told}")
        desk.says("cancel job 1", "removed job 1 (002) ann@h1 of lp\n")
        check("job 3 lp 127.0.0.2" in desk.tell("status"), "a job that wasn't named went too")
        desk.refuses("cancel job 2", "no job 2 is held")
        desk.refuses("cancel file 3", "the server has no --spool")
        return "of three with one number the one that was named went"


def an_arriving_job():
    """One that is still arriving stays, and its peer goes on."""
    with Desk(keeps=False) as desk:
        desk.start()
        with contextlib.closing(begin(desk.port, 7, 10, b"half")):
            desk.await_status("job 1 lp")
            desk.refuses("cancel job 1", "is still arriving")
            return "it stays"


def what_would_help():
    """Where nothing was done the answer says so, and what would help."""
    with Desk(keeps=False) as desk:
        desk.start()
        desk.says("release lp", "nothing held\n")
        desk.says("hold lp", "")
        desk.says("hold lp", "held already\n")
        desk.says("start lp", "started none\nlp is held: release lp\n")
        desk.send(9, host="127.0.0.2")
        desk.says("remove lp 1", "nothing removed\nremove takes the number that the client gave: for job 1 (009) ann@h1 of lp say cancel job 1\n")
        desk.says("remove lp 4", "nothing removed\n")
        desk.says("release lp", "")
        desk.send(3, queue="bad")
        desk.await_status("printer 2 bad stopped")
        desk.says("release bad", "nothing held: printer 2 is stopped: start bad\n")
        desk.says("start bad", "started 2\n")
        return "told"


def files_of_jobs():
    """A kept job goes by the number of its file: from its printer, from the folder where it waits to be fed, or where it has failed."""
    with Desk(keeps=True) as desk:
        desk.start()
        desk.send(1, LONG)
        for number in (2, 3, 4):
            desk.send(number, host=f"127.0.0.{number}")
        desk.await_files(4)
        desk.kill()
        # Two of them have room at the next start, and two wait in the folder.
        with open(f"{desk.folder}/spool.toml", "w") as file:
            file.write(spool(2))
        desk.start()
        desk.await_status("kept waiting 2 failed 0")
        desk.says("cancel file 4", "removed file 4 (004) ann@h1 of lp\n")
        desk.await_status("kept waiting 1 failed 0")
        check(desk.files("job") == ["1.job", "2.job", "3.job"], desk.files("job"))
        desk.says("cancel file 1", "removed file 1 (001) ann@h1 of lp\n")
        desk.await_files(2)
        desk.refuses("cancel file 1", "No such file")
        desk.refuses("cancel file 99", "No such file")
        return "from the spool and from the folder"


def files_whose_jobs_have_other_numbers():
    """Behind a start a job has another number of acceptance than its file has: what is cancelled by its file's number is that job, and none of the other's number."""
    with Desk(keeps=True) as desk:
        desk.start()
        desk.send(1)
        desk.await_files(0)
        desk.send(2, LONG)
        desk.send(3)
        desk.kill()
        desk.start()
        desk.await_status("job 2 lp")
        check(desk.files("job") == ["2.job", "3.job"], desk.files("job"))
        desk.says("cancel file 3", "removed file 3 (003) ann@h1 of lp\n")
        desk.await_files(1)
        desk.says("cancel file 2", "removed file 2 (002) ann@h1 of lp\n")
        desk.await_files(0)
        return "both"


def jobs_of_as_many_files_as_may_be():
    """A kept job with all the files that it may have is told as any other, wherever its control file comes: it is listed while it waits, goes by its file, and is sent
    again once it has failed."""
    files = [bytes([at + 1]) * (at + 1) for at in range(len(LETTERS))]
    octets = sum(map(len, files))
    with Desk(keeps=True) as desk:
        desk.start()
        desk.says("hold lp", "")
        places = (len(files), 0, len(files) // 2, len(files) - 1)
        for number, at in enumerate(places, 1):
            send_files(desk.port, number, files, at=at)
        desk.await_status("kept waiting 4 failed 0")
        listed = ask(desk.port, b"\x03lp\n")[0].decode().splitlines()
        due = ["queue lp jobs 0 printers 1 stopped 0", "4 jobs wait in the folder", *(f"waiting {number:03} ann h1 pages 52" for number in range(1, 5))]
        check(listed == due, listed)
        for number in range(1, len(places) + 1):
            desk.says(f"cancel file {number}", f"removed file {number} ({number:03}) ann@h1 of lp\n")
        desk.await_files(0)
        for number, at in enumerate(places, 1):
            send_files(desk.port, number, files, queue="bad", at=at)
            desk.await_files(1, "failed")
            desk.says("start bad", "started 2\n")
            desk.says(f"resend {number + 4}", f"resent file {number + 4} ({number:03}) ann@h1 of bad\n")
            desk.await_files(1, "failed")
            desk.says("start bad", "started 2\n")
            desk.says(f"cancel file {number + 4}", f"removed file {number + 4} ({number:03}) ann@h1 of bad\n")
        return f"{len(files)} files of {octets} octets, with the control file at {len(places)} places"


def one_behind_a_thousand():
    """Of 1,003 jobs that wait in the folder a user's only one, behind a thousand others, is removed by its number, and another one by root, who names its user; a
    question lists the first thousand, and tells how many more there are."""
    with Desk(keeps=True) as desk:
        desk.start()
        desk.says("hold lp", "")
        for number, user in ((1, "ann"), (2, "bob"), (3, "cy")):
            send_files(desk.port, number, [b"y"], user)
        desk.await_status("kept waiting 3 failed 0")
        desk.kill()
        for at, name in ((1_003, 3), (1_002, 2), *((at, 1) for at in range(2, 1_002))):
            shutil.copy(f"{desk.kept}/{name}.job", f"{desk.kept}/{at}.job")
        desk.start()
        desk.await_status("kept waiting 1003 failed 0")
        # A start reads one file after another.
        for _ in range(400):
            told = ask(desk.port, b"\x03lp\n")[0].decode().splitlines()
            if "1003 jobs wait in the folder" in told:
                break
            time.sleep(0.05)
        check(told == ["queue lp jobs 0 printers 1 stopped 0", "1003 jobs wait in the folder", *["waiting 001 ann h1 pages 1"] * 1_000, ".. and 3 more"], told[:3] + told[-3:])
        told = ask(desk.port, b"\x05lp bob 2\n")[0]
        check(told == b"nothing removed\nremoved 002 bob\n", told)
        told = ask(desk.port, b"\x05lp root cy\n")[0]
        check(told == b"nothing removed\nremoved 003 cy\n", told)
        desk.await_status("kept waiting 1001 failed 0")
        names = {f"{at}.job" for at in range(1, 1_002)}
        check(set(desk.files("job")) == names, sorted(names ^ set(desk.files("job"))))
        return "both"


def a_thousand_are_sent_again():
    """Of 1,003 jobs that failed `resend all` names the first thousand, in the order of their files, and tells how many more there are; one that can't be sent again is told
    beside them. All wait then."""
    with Desk(keeps=True) as desk:
        desk.start()
        desk.says("hold lp", "")
        send_files(desk.port, 1, [b"y"], "ann")
        desk.await_status("kept waiting 1 failed 0")
        desk.kill()
        for at in range(2, 1_006):
            shutil.copy(f"{desk.kept}/1.job", f"{desk.kept}/{at}.failed")
        # (there is a job of this number already: nothing is replaced)
        shutil.copy(f"{desk.kept}/1.job", f"{desk.kept}/700.job")
        desk.start()
        desk.await_status("kept waiting 2 failed 1004")
        # (where each takes its sync of the folder that may be longer than `control` waits)
        with socket.socket(socket.AF_UNIX) as peer:
            peer.settimeout(90)
            peer.connect(f"{desk.folder}/control")
            peer.sendall(b"resend all\n")
            told = peer.makefile("rb").read().decode().splitlines()
        check(told.pop() == "end done", told[-1:])
        sent = [at for at in range(2, 1_006) if at != 700]
        # (the one that isn't sent is one of the first thousand)
        check([line for line in told if line.startswith("resent ")] == [f"resent file {at} (001) ann@h1 of lp" for at in sent][:999], told[:2] + told[-4:])
        check(len([line for line in told if line.startswith("file 700 isn't resent: ")]) == 1, [line for line in told if "700" in line])
        check(told[-1] == ".. and 4 more" and len(told) == 1_001, told[-2:])
        desk.await_status("kept waiting 1005 failed 1")
        check(desk.files("failed") == ["700.failed"], desk.files("failed"))
        return "999, one that isn't, and four more"


def removed_by_its_number():
    """`remove` takes a job out of the spool and, where jobs are kept, its file out of the folder; the log of jobs and the metrics have it as removed."""
    with Desk(keeps=True) as desk:
        plain, status = desk.line(), free_port()
        desk.line = lambda: [*plain, "--log-jobs", "--status", str(status)]
        desk.start()
        desk.send(1, LONG)
        desk.send(2, host="127.0.0.2")
        desk.await_files(2)
        desk.await_status("job 2 lp")
        told = desk.tell("remove", "lp", "2")
        check("removed 002 ann" in told, told)
        desk.await_files(1)
        check(desk.files("job") == ["1.job"], desk.files("job"))
        desk.await_log("job 2 lp 002 ann@h1 1 pages 1 octets removed in ")
        seen = urllib.request.urlopen(f"http://127.0.0.1:{status}/metrics", timeout=10).read().decode()
        check("\nhurgwaye_jobs_removed_total 1\n" in seen, seen)
    return "from both, and told"


def a_failed_file():
    """One that has failed is printed again, and removed, by its number; whose it is is told."""
    with Desk(keeps=True) as desk:
        desk.start()
        desk.send(5, queue="bad")
        desk.await_files(1, "failed")
        desk.says("start bad", "started 2\n")
        desk.says("resend 1", "resent file 1 (005) ann@h1 of bad\n")
        desk.await_files(1, "failed")
        desk.says("cancel file 1", "removed file 1 (005) ann@h1 of bad\n")
        check(desk.files("failed") == [] and desk.files("job") == [], "its file is there")
        desk.await_status("kept waiting 0 failed 0")
        desk.refuses("resend 1", "No such file")
        return "sent again, and removed"


def a_job_that_waits_for_pages():
    """A kept job waits in the folder while a job that is arriving may need all pages that are free: it goes by its file, and the other one is printed."""
    with Desk(keeps=True, pages=64) as desk:
        desk.start()
        desk.send(5, b"x" * 4096 * 40, queue="bad")
        desk.await_files(1, "failed")
        desk.says("start bad", "started 2\n")
        with contextlib.closing(begin(desk.port, 7, 4096 * 12, b"y" * 4096 * 10, host="127.0.0.2")) as peer:
            desk.await_status(" receiving pages 10 ")
            desk.says("resend 1", "resent file 1 (005) ann@h1 of bad\n")
            desk.await_status("kept waiting 1 failed 0")
            desk.says("cancel file 1", "removed file 1 (005) ann@h1 of bad\n")
            desk.await_status("kept waiting 0 failed 0")
            check(desk.files("job") == [], desk.files("job"))
            check(finish(peer, 7, b"y" * 4096 * 2) == 0, "the arriving job isn't taken")
        return "it goes while it waits, and the arriving job is taken"


def all_failed_files():
    """All that have failed are printed again, or all of a queue; whose they are is told."""
    with Desk(keeps=True) as desk:
        desk.start()
        for number in (5, 6):
            desk.send(number, queue="bad")
            desk.await_files(number - 4, "failed")
            desk.says("start bad", "started 2\n")
        desk.says("resend all lp", "resent none\n")
        desk.refuses("resend all nobody", "1 UnknownQueue")
        desk.says("resend all bad", "resent file 1 (005) ann@h1 of bad\nresent file 2 (006) ann@h1 of bad\n")
        desk.await_files(1, "failed")
        desk.says("start bad", "started 2\n")
        desk.await_files(2, "failed")
        desk.says("start bad", "started 2\n")
        desk.says("resend all", "resent file 1 (005) ann@h1 of bad\nresent file 2 (006) ann@h1 of bad\n")
        return "all of a queue, and all"


SCENES = [jobs_of_two_hosts, an_arriving_job, what_would_help, files_of_jobs, files_whose_jobs_have_other_numbers, jobs_of_as_many_files_as_may_be, one_behind_a_thousand,
          a_thousand_are_sent_again,
          removed_by_its_number, a_failed_file, all_failed_files, a_job_that_waits_for_pages]


if __name__ == "__main__":
    sys.exit(main(SCENES, __doc__))
