#!/usr/bin/env python3
"""Scenes of a server whose syncs are watched and refused: syncing.py PROGRAM [SCENE..], where PROGRAM is the built lpd_server.

`strace` attaches to the server while it runs, and so has to be there and to be allowed. A line says what was seen; the last line is
'N passed, M failed'."""
import contextlib
import glob
import os
import re
import shutil
import subprocess
import sys
import time

from auditing import Books
from client import send
from keeping import Room
from scene import check, main


CALLS = ("fdatasync", "fsync", "rename", "renameat", "renameat2", "link", "linkat", "unlink", "unlinkat", "write", "sendto")
# What is looked at of a kept job: syncs and renames that went well, and octets 00 that were sent.
KEEPING = ((r"fdatasync\(\d+<\S+\.tmp>\) += 0", "tmp"), (r"rename\w*\(.*\.tmp.*\.job.*\) += 0", "rename"),
           (r"rename\w*\(.*\.failed.*\.job.*\) += 0", "again"), (r"fsync\(\d+<\S+/kept>\) += 0", "folder"),
           (r"(write|sendto)\(\d+<(socket|TCP).*\"\\0\"", "octet"))
# And of one that is printed, to a file and to a folder: until its own file goes.
PRINTING = ((r"fdatasync\(\d+<\S+/printer-1>\) += 0", "printer"), (r"fdatasync\(\d+<\S+/\.job-\d+>\) += 0", "file"),
            (r"link\w*\(.*/job-\d+.*\) += 0", "link"), (r"fsync\(\d+<\S+/jobs>\) += 0", "folder"), (r"rename\w*\(.*\d\.job\", .*\.tmp\"\) += 0", "gone"))


class Watched(Room):
    """A room whose server is watched for a while."""

    def watching(self, *refused):
        words = [it for call in refused for it in ("-e", f"inject={call}" if ":" in call else f"inject={call}:error=EIO")]
        return ["strace", "-ff", "-qq", "-y", "-o", f"{self.folder}/trace", "-e", f"trace={','.join(CALLS)}", *words]

    @contextlib.contextmanager
    def watch(self, *refused):
        """Has each thread's calls noted in a file of its own; those that are named fail with EIO, or what is said behind their name befalls them."""
        line = [*self.watching(*refused), "-p", str(self.server.pid)]
        watcher = subprocess.Popen(line, stdin=subprocess.DEVNULL, stderr=subprocess.DEVNULL)
        for _ in range(200):
            if all(self.is_watched(task) for task in os.listdir(f"/proc/{self.server.pid}/task")):
                break
            check(watcher.poll() is None, "strace isn't allowed")
            time.sleep(0.02)
        try:
            yield
        finally:
            watcher.terminate()
            watcher.wait(10)

    def is_watched(self, task):
        with open(f"/proc/{self.server.pid}/task/{task}/status") as status:
            return "TracerPid:\t0\n" not in status.read()

    def calls(self, end, kinds=KEEPING):
        """The calls of a thread that named a file with this end, in their order, as far as they are of these kinds."""
        for path in glob.glob(f"{self.folder}/trace.*"):
            with open(path) as file:
                lines = file.readlines()
            if any(end in line for line in lines):
                return [kind for line in lines for call, kind in kinds if re.match(call, line)]
        return []


class WatchedBooks(Books):
    """A room with an account whose server is watched for a while."""
    watching, watch, is_watched = Watched.watching, Watched.watch, Watched.is_watched

    def calls(self):
        """The calls that made files of segments, thread by thread in their order: syncs and renames that went well."""
        kinds = ((r"fsync\(\d+<\S+/segment-\d+\.tmp>\) += 0", "tmp"), (r"rename\w*\(.*\.tmp.*\) += 0", "rename"),
                 (r"fsync\(\d+<\S+/account>\) += 0", "folder"))
        lines = [line for path in glob.glob(f"{self.folder}/trace.*") for line in open(path)]
        return [kind for line in lines for call, kind in kinds if re.match(call, line)]


def a_job_is_synced_before_it_is_acknowledged():
    """A job's file is synced, then gets its name, then the folder is synced, and only then the last octet 00 is written."""
    with Watched() as room:
        room.start()
        with room.watch():
            check(send(room.port, 1, b"synced") == 0, "it is taken")
        calls = room.calls(".tmp")
        check(calls == ["octet"] * 4 + ["tmp", "rename", "folder", "octet"], calls)
        room.await_files(0)
        return ", ".join(calls)


def a_start_syncs_the_folder():
    """A start has the folder synced before a session is answered."""
    with Watched() as room:
        plain = room.line()
        room.line = lambda: [*room.watching(), *plain]
        room.start()
        told = room.tell("stop", "now")
        check("end done" in told or told == "", told)
        room.server.wait(20)
        calls = room.calls("/kept>")
        check(calls == ["folder"], calls)
        return "folder"


def a_new_folder_s_own_name_is_synced():
    """A folder that a start makes is there after a crash, so the one above it is synced; before the next start's sessions it isn't."""
    with Watched() as room:
        plain = room.line()
        room.line = lambda: [*room.watching(), *plain]
        seen = []
        for _ in range(2):
            room.start()
            room.tell("stop", "now")
            room.server.wait(20)
            traces = glob.glob(f"{room.folder}/trace.*")
            lines = [line for path in traces for line in open(path)]
            seen.append(sum(re.match(rf"fsync\(\d+<{re.escape(os.path.realpath(room.folder))}>\) += 0", line) is not None for line in lines))
            for path in traces:
                os.remove(path)
        check(seen == [1, 0], seen)
        return f"{seen[0]} sync of the folder above"


def what_is_printed_is_synced_before_the_job_goes():
    """A kept job's file goes once what was printed of it is on the disk: in the printer's file, or in a file of its own, whose name is there too."""
    with Watched() as room:
        jobs = f"{room.folder}/jobs"
        os.mkdir(jobs)
        room.words = ("--printer", f"plotter=folder:{jobs}", "--printer", f"1=file:{room.folder}/printer-1")
        room.start()
        seen = []
        for number, (queue, wanted) in enumerate((("lp", ["printer", "gone"]), ("plotter", ["file", "link", "folder", "gone"])), 1):
            with room.watch():
                check(send(room.port, number, b"printed", queue) == 0, "it is taken")
                room.await_files(0)
                time.sleep(0.3)
            calls = room.calls('.job", ', PRINTING)
            check(calls == wanted, f"{queue}: {calls}")
            seen += calls
            hidden = [name for name in os.listdir(jobs) if name.startswith(".")]
            check(not hidden, f"hidden files stay: {hidden}")
            for path in glob.glob(f"{room.folder}/trace.*"):
                os.remove(path)
        return ", ".join(seen)


def a_printer_waits_for_no_removal():
    """Jobs are printed while it takes 0.2 s to remove the file of one. Of those that wait to be removed a kill leaves none that is printed again, and the next start
    removes them."""
    with Watched() as room:
        room.start()
        jobs = [b"job %02d;" % number for number in range(20)]
        with room.watch("unlink:delay_enter=200000"):
            begun = time.monotonic()
            for number, octets in enumerate(jobs, 1):
                check(send(room.port, number, octets) == 0, f"job {number}")
            while room.printed() != b"".join(jobs) or room.files("job"):
                check(time.monotonic() < begun + 30, room.printed())
                time.sleep(0.02)
            took, left = time.monotonic() - begun, len(room.files("tmp"))
            room.kill()
        check(took < 2.5 and left > 4, f"{took:.2f} s, {left} left")
        room.start()
        room.await_files(0, "tmp")
        time.sleep(0.5)
        check(room.printed() == b"".join(jobs), "printed again")
        return f"20 printed in {took:.2f} s, with {left} to be removed then"


def a_job_that_is_sent_again_is_synced():
    """The name of a failed job that is sent again is on the disk before the command is answered."""
    with Watched() as room:
        os.symlink("/dev/full", f"{room.folder}/printer-1")
        room.start()
        check(send(room.port, 1, b"again") == 0, "it is taken")
        room.await_files(1, "failed")
        with room.watch():
            told = room.tell("resend", room.files("failed")[0].split(".")[0])
            check("end done" in told or told == "" or told.startswith("resent file "), told)
        calls = room.calls('.failed"')
        check(calls[:2] == ["again", "folder"], calls)
        return ", ".join(calls)


def refuses(*calls, at):
    """A job at whose sync, or new name, the disk fails is answered by 02, leaves no file, and isn't printed; one line of the log tells it, with the file that is there
    then, or the folder; the next job is taken."""
    with Watched() as room:
        room.start()
        with room.watch(*calls):
            octet = send(room.port, 1, b"unsynced")
            check(octet == 2, f"answered by {octet}")
        check(not room.files("job") and not room.files("tmp"), room.files("*"))
        room.await_log("Input/output error")
        lines = re.findall(r": (a job isn't kept: .*)", room.log())
        check(lines == [f"a job isn't kept: {room.kept}{at}: Input/output error (os error 5)"], room.log())
        check(send(room.port, 2, b"synced") == 0, "it goes on")
        room.await_files(0)
        check(room.printed() == b"synced", room.printed())
        return room.log().strip().splitlines()[-1][-90:]


def a_file_s_sync_fails():
    return refuses("fdatasync", at="/1.tmp")


def a_file_s_new_name_fails():
    return refuses("rename", "renameat", "renameat2", at="/1.tmp")


def the_folder_s_sync_fails():
    return refuses("fsync", at="")


def a_file_that_is_not_synced_stays():
    """Where a job's file can be neither synced nor removed, the log tells why the job isn't kept, and not why its file stays; the next start removes it."""
    with Watched() as room:
        room.start()
        with room.watch("fdatasync", "unlink:error=EROFS", "unlinkat:error=EROFS"):
            octet = send(room.port, 1, b"unsynced")
            check(octet == 2, f"answered by {octet}")
        room.await_log("a job isn't kept")
        lines = re.findall(r": (a job isn't kept: .*)", room.log())
        check(lines == [f"a job isn't kept: {room.kept}/1.tmp: Input/output error (os error 5)"], room.log())
        check(room.files("tmp") == ["1.tmp"] and not room.files("job"), room.files("*"))
        room.kill()
        room.start()
        check(not room.files("tmp"), room.files("*"))
        check(room.printed() == b"", room.printed())
    return "told, and gone"


def a_segment_is_synced():
    """A segment's file is synced, then gets its name, and then the folder is synced."""
    with WatchedBooks("--rotate", "40") as room:
        room.start()
        with room.watch():
            room.load(8)
            room.await_segments(1)
            room.stop()
        calls = room.calls()
        check(calls == ["tmp", "rename", "folder"] * len(room.segments()), calls)
        return ", ".join(calls)


def a_segment_s_sync_fails():
    """A segment whose sync fails gets no name and waits, jobs are printed meanwhile, and later the account is whole."""
    with WatchedBooks("--rotate", "40") as room:
        room.start()
        with room.watch("fsync"):
            room.load(8)
            room.await_log("Input/output error")
            check(not room.segments(), room.segments())
        room.await_segments(1)
        room.stop()
        status, told, why = room.audit("--printed", room.folder)
        check(status == 0 and "jobs 64 done 64 " in told, f"status {status}: {told}{why}")
        return room.log().strip().splitlines()[0][-110:]


def a_kept_file_that_cannot_be_read():
    """A kept job whose file can't be read by the disk when its turn comes, at whichever of its reads, isn't printed and stays, with why; the others are printed."""
    told = [read_fails_at(number) for number in (1, 2, 5, 20, 40, 50, 55, 60, 65, 70, 80, 100, 150, 1_000)]
    # (it is read twice: whether it is as it was kept, and to be printed)
    check(set(told) == {"Input/output error (os error 5)", "its file can't be read", None} and told[-1] is None, f"{told}")
    return f"{sum(it is not None for it in told)} reads of {len(told)}"


def read_fails_at(number_of_read):
    """Why a job isn't printed where the read of this number, and those behind it, fail; None where there is none."""
    with Watched() as room:
        room.start()
        room.tell("hold", "lp")
        for number in (1, 2, 3):
            check(send(room.port, number, b"%d" % number * 9_000, host=f"127.0.0.{number + 1}") == 0, f"job {number} isn't taken")
        line = ["strace", "-ff", "-qq", "-o", "/dev/null", "-P", f"{room.kept}/2.job", "-e", "trace=read,pread64,readv,preadv", "-e", "inject=read,pread64,readv,preadv:error=EIO:when=%d+" % number_of_read,
                "-p", str(room.server.pid)]
        watcher = subprocess.Popen(line, stdin=subprocess.DEVNULL, stderr=subprocess.DEVNULL)
        for _ in range(200):
            if all(room.is_watched(task) for task in os.listdir(f"/proc/{room.server.pid}/task")):
                break
            check(watcher.poll() is None, "strace isn't allowed")
            time.sleep(0.02)
        room.tell("release", "lp")
        for _ in range(200):
            if len(room.printed()) >= 18_000 and (room.files("job") == [] or "2.job" in room.log()):
                break
            time.sleep(0.05)
        watcher.terminate()
        watcher.wait(10)
        if len(room.printed()) == 27_000:
            room.await_files(0)
            return None
        told = [it for it in room.log().splitlines() if "2.job" in it]
        check(len(told) == 1 and " the job in file 2.job isn't printed, and stays where it is: " in told[0], told)
        check(room.files("job") == ["2.job"] and not room.files("failed"), room.files("*"))
        check(room.printed() == b"1" * 9_000 + b"3" * 9_000, len(room.printed()))
        room.kill()
        room.start()
        room.await_files(0)
        check(room.printed().endswith(b"2" * 9_000), "it isn't printed by the next start")
        return told[0].rpartition(" where it is: ")[2]


if __name__ == "__main__":
    if not shutil.which("strace"):
        raise SystemExit("strace isn't there")
    sys.exit(main([a_job_is_synced_before_it_is_acknowledged, a_start_syncs_the_folder, a_new_folder_s_own_name_is_synced,
                   what_is_printed_is_synced_before_the_job_goes, a_printer_waits_for_no_removal, a_job_that_is_sent_again_is_synced, a_file_s_sync_fails,
                   a_file_s_new_name_fails, a_file_that_is_not_synced_stays, the_folder_s_sync_fails, a_segment_is_synced, a_segment_s_sync_fails,
                   a_kept_file_that_cannot_be_read], __doc__))
