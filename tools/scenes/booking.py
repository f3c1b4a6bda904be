#!/usr/bin/env python3
"""Scenes of what stands in the way of an account or of what it tells: booking.py PROGRAM [SCENE..], where PROGRAM is the built lpd_server.

Each scene is bounded in time and runs on loopback alone. A line says what was seen; the last line is 'N passed, M failed'."""
import contextlib
import os
import subprocess
import sys
import time

from auditing import Books, told_of
from client import send
from keeping import small_disk
from scene import PROGRAM, check, main


def octets_of_no_page():
    """What lies in a printer's file between two runs, behind the last page or behind a page that failed isn't judged, and is told, as is what the file lost; the pages beside it
    are judged."""
    with Books("--keep-room") as room, small_disk(f"{room.folder}/disk", 1):
        one = f"{room.folder}/disk/one"
        room.words = ("--keep-room", "--printer", f"1=file:{one}")

        def runs(*jobs, amid=None):
            room.start()
            for number, octets in enumerate(jobs):
                check(send(room.port, number, octets) == 0, "a job isn't taken")
                if amid and number == 0:
                    amid()
            room.stop()

        def audits(*lines):
            status, out, why = room.audit("--printed", f"1={one}")
            check(status == 0 and told_of(out) == list(lines) and not why, f"{lines}: {status} {out}{why}")

        runs(b"first page", b"second")
        audits("printed 1 octets 16")
        with open(one, "ab") as file:
            file.write(b"1234567")
        audits("printed 1 octets 16", "not judged 1: 7 octets behind the last page")
        runs(b"third")
        audits("not judged 1: 7 octets between two runs", "printed 1 octets 21")
        os.truncate(one, 26)
        runs(b"4th")
        # (what it lost was the third's: its page can't be read)
        status, out, why = room.audit("--printed", f"1={one}")
        check(status == 6 and f"printer 1 job 1 place 0 octet 23 of {one}\n" in why, f"{status} {out}{why}")
        os.remove(one)
        for path in room.segments():
            os.remove(path)

        def fails():
            room.await_log("No space left on device")
            os.remove(f"{room.folder}/disk/filler")
            check("fault" not in (told := room.tell("start", "lp")), told)

        with open(f"{room.folder}/disk/filler", "wb") as file, contextlib.suppress(OSError):
            file.write(b"x" * (1 << 21))
        runs(b"z" * 30_000, b"behind it", b"and more", amid=fails)
        audits("printed 1 octets 0", "not judged 1: 17 octets of pages, of which it isn't known where they begin")
        length = os.stat(one).st_size
        runs(b"a run later")
        audits("printed 1 octets 11", "not judged 1: 17 octets of pages, of which it isn't known where they begin")
        return f"told, and {length} octets beside a failed page"


def the_last_segment_is_tried_thrice():
    """At a stop the last segment is tried three times, a second and two apart: one that finds its place at the third is written, and the server ends well."""
    with Books() as room:
        room.start()
        check(send(room.port, 1, b"a page") == 0, "a job isn't taken")
        place = f"{room.account}/segment-0000000001"
        with open(place, "w") as file:
            file.write("somebody's")
        stop = subprocess.Popen([PROGRAM, "control", f"{room.folder}/control", "stop"], stdout=subprocess.DEVNULL, stderr=subprocess.DEVNULL)
        begun = time.monotonic()
        time.sleep(2)
        check(room.server.poll() is None, f"it ended before the third try: {room.log()[-300:]}")
        os.remove(place)
        check(room.server.wait(20) == 0, room.log()[-300:])
        took = time.monotonic() - begun
        stop.wait(10)
        status, told, why = room.audit()
        check(status == 0 and "legal segments 1 " in told and 2.5 < took < 8, f"{took:.1f} s: {status} {told}{why}")
        return f"after {took:.1f} s"


def a_file_in_a_segment_s_place():
    """A file that somebody has put where the next segment is to come is told and isn't written over: the segment is kept, and comes there once the file is gone."""
    with Books() as room:
        room.start()
        check(send(room.port, 1, b"a page") == 0, "a job isn't taken")
        until = time.monotonic() + 10
        while "rotated" not in (told := room.tell("rotate")):
            check(time.monotonic() < until, told)
            time.sleep(0.1)
        room.await_segments(1)
        place = f"{room.account}/segment-0000000002"
        with open(place, "w") as file:
            file.write("somebody's")
        until = time.monotonic() + 10
        while "rotated" not in (told := room.tell("rotate")):
            check(time.monotonic() < until, told)
            time.sleep(0.1)
        room.await_log("the segment is kept, and is tried again")
        line = [line for line in room.log().splitlines() if "is tried again" in line][-1]
        check("segment-0000000002: entity already exists: " in line and open(place).read() == "somebody's", line)
        os.remove(place)
        room.await_segments(2)
        room.stop()
        status, told, why = room.audit()
        check(status == 0 and "legal segments 3 " in told, f"{status} {told}{why}")
        return line[-110:]


if __name__ == "__main__":
    sys.exit(main([octets_of_no_page, the_last_segment_is_tried_thrice, a_file_in_a_segment_s_place], __doc__))
