"""What the scripts of scenes share: what has to hold, and how their scenes are run.

    python3 tools/scenes/NAME.py PROGRAM [SCENE..]     # all scenes of a script at a built program, or those named
    SHORT=1 python3 tools/scenes/NAME.py PROGRAM       # the short form: fewer jobs, kills and entries, and without the scenes that take long
    CHECKED=1 ..                                       # of a program that checks itself, as tools/program.sh makes it: without scenes of time and memory

A line for each scene says what was seen; the last line is 'N passed, M failed', and the status is 0 only where none failed."""
import os
import subprocess
import sys
import time

# The built program, by its path from anywhere.
PROGRAM = os.path.abspath(sys.argv[1]) if len(sys.argv) > 1 else ""
# Whether the short form is asked for.
SHORT = bool(os.environ.get("SHORT"))
# Whether the program checks itself as it runs: then it is slow, and takes more memory.
CHECKED = bool(os.environ.get("CHECKED"))


def size(name, whole, short):
    """A number that the environment names, or else that of the form that is asked for."""
    return int(os.environ.get(name, str(short if SHORT else whole)))


def check(holds, text):
    if not holds:
        raise AssertionError(text)


def main(scenes, doc, long=(), measured=()):
    """Runs the scenes that are named, or else all: in the short form but for the long ones, of a program that checks itself but for those that measure time or
    memory. One whose tools the machine doesn't allow is left out."""
    if not os.path.isfile(PROGRAM):
        raise SystemExit(doc)
    named = sys.argv[2:]
    chosen = [it for it in scenes if (it.__name__ in named if named else not (SHORT and it in long or CHECKED and it in measured))]
    failed = 0
    for scene in chosen:
        start = time.monotonic()
        try:
            told = scene()
            print(f"{scene.__name__}: {told} ({time.monotonic() - start:.0f} s)", flush=True)
        except subprocess.CalledProcessError as error:
            print(f"{scene.__name__}: left out, since {error.cmd[0]} isn't allowed", flush=True)
        except Exception as error:
            failed += 1
            print(f"{scene.__name__}: FAILED: {type(error).__name__} {error}", flush=True)
    print(f"{len(chosen) - failed} passed, {failed} failed")
    return 1 if failed else 0
