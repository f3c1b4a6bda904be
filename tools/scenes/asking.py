#!/usr/bin/env python3
"""Scenes of words that ask: asking.py PROGRAM [SCENE..], where PROGRAM is the built lpd_server. What strangers sent comes to a terminal by its digits, and
to what is no terminal as it is; nothing waits for ever for a control socket that nobody serves; and a spreadsheet runs no name. Each scene is bounded in
time, and runs on loopback alone. A line says what was seen; the last line is 'N passed, M failed'."""
import contextlib
import os
import pty
import select
import socket
import subprocess
import sys
import tempfile
import threading
import time

from client import Server, spool
from scene import PROGRAM, check, main

# The most seconds for which a step of `control` waits, and some for the program to begin and to end.
PATIENCE = 10
GRACE = 3 if os.environ.get("CHECKED") else 1
# What a stranger may call himself: a window's name, an erased screen, controls of ISO 8859, as they are and as characters, a letter and a sign that
# stay, and an octet that is no UTF-8.
NAME = b"\x1b]0;owned\x07\x1b[2J\x9b31m\xc2\x9b\xc3\xa9\xe2\x82\xac\xff\x7fe\t\rann"
SHOWN = b"%1B]0;owned%07%1B[2J%9B31m%C2%9B\xc3\xa9\xe2\x82\xac%FF%7Fe%09%0Dann"


def at_a_terminal(words, stdin=subprocess.DEVNULL, stderr=subprocess.PIPE, limit=20):
    """Runs the program with its standard output at a terminal of its own. Answers its status and what came there, without the terminal's carriage returns."""
    ours, theirs = pty.openpty()
    process = subprocess.Popen([PROGRAM, *words], stdin=stdin, stdout=theirs, stderr=stderr)
    os.close(theirs)
    got = b""
    end = time.monotonic() + limit
    while time.monotonic() < end and select.select([ours], [], [], end - time.monotonic())[0]:
        try:
            piece = os.read(ours, 65536)
        except OSError:
            break
        if not piece:
            break
        got += piece
    os.close(ours)
    if process.stderr:
        process.stderr.close()
    try:
        return process.wait(limit), got.replace(b"\r\n", b"\n")
    finally:
        process.kill()


def not_at_a_terminal(words):
    ran = subprocess.run([PROGRAM, *words], stdin=subprocess.DEVNULL, capture_output=True, timeout=20)
    return ran.returncode, ran.stdout


@contextlib.contextmanager
def answering(pieces):
    """A server that answers each connection in these pieces, each in a packet of its own."""
    with socket.socket() as listener:
        listener.bind(("127.0.0.1", 0))
        listener.listen()

        def serve():
            while True:
                try:
                    peer = listener.accept()[0]
                except OSError:
                    return
                with peer:
                    peer.setsockopt(socket.IPPROTO_TCP, socket.TCP_NODELAY, 1)
                    peer.recv(4096)
                    for piece in pieces:
                        peer.sendall(piece)
                        time.sleep(0.1)

        threading.Thread(target=serve, daemon=True).start()
        yield str(listener.getsockname()[1])
        listener.shutdown(socket.SHUT_RDWR)


def answers_at_a_terminal():
    """What a server answers to `state` and `remove`, in pieces that end within characters: by digits at a terminal, elsewhere as it is."""
    text = b"lp is ready\n" + NAME + b"\n\xf0\x9f\x96\xa8 \xed\xa0\x80 \xe2\x82\n"
    shown = b"lp is ready\n" + SHOWN + b"\n\xf0\x9f\x96\xa8 %ED%A0%80 %E2%82\n"
    cut = text.index(b"\xe2\x82\xac") + 1
    for pieces in ([text], [text[:cut], text[cut:]], [text[i:i + 7] for i in range(0, len(text), 7)]):
        with answering(pieces) as port:
            for words in (["state", port, "lp"], ["remove", port, "lp", "ann"]):
                check(at_a_terminal(words) == (0, shown), f"{words} of {len(pieces)} pieces: {at_a_terminal(words)}")
                check(not_at_a_terminal(words) == (0, text), f"{words}: {not_at_a_terminal(words)}")
    # (an answer that ends within a character)
    with answering([b"lp \xe2\x82"]) as port:
        check(at_a_terminal(["state", port, "lp"]) == (0, b"lp %E2%82"), str(at_a_terminal(["state", port, "lp"])))
        check(not_at_a_terminal(["state", port, "lp"]) == (0, b"lp \xe2\x82"), "its end")
    return "no control reaches a terminal, and scripts get each octet"


def a_user_at_a_terminal():
    """A user whose name has escapes, as the product's own server tells of him."""
    with tempfile.TemporaryDirectory() as room, Server(PROGRAM, spool(), "--control", f"{room}/socket") as server:
        port, name = str(server.port), NAME.replace(b"\t\r", b"")
        check(not_at_a_terminal(["control", f"{room}/socket", "hold", "lp"])[0] == 0, "hold")
        with socket.create_connection(("127.0.0.1", server.port), 10) as peer:
            text = b"Hh1\nP" + name + b"\nfdfA001h1\n"
            for piece in (b"\x02lp\n", b"\x0311 dfA001h1\n", b"hello world\0", b"\x02%d cfA001h1\n" % len(text), text + b"\0"):
                peer.sendall(piece)
                check(peer.recv(1) == b"\0", f"{piece}")
        for words in (["state", port, "lp"], ["state", port, "lp", "--long"], ["control", f"{room}/socket", "status"]):
            status, got = at_a_terminal(words)
            check(status == 0 and b"ann" in got, f"{words}: {status} {got}")
            check(not any(octet < 0x20 and octet != 0x0A or octet in (0x7F, 0x9B) for octet in got), f"{words}: {got}")
        got = not_at_a_terminal(["state", port, "lp"])
        check(name in got[1], f"to a script: {got}")
    return "no control of his name"


def takes_time(words, inputs=subprocess.DEVNULL):
    """Runs the program. Answers its status, the lines of its standard error, and how many seconds it took; None where it has not ended by itself."""
    start = time.monotonic()
    process = subprocess.Popen([PROGRAM, *words], stdin=inputs, stdout=subprocess.PIPE, stderr=subprocess.PIPE)
    try:
        faults = process.communicate(timeout=PATIENCE + GRACE + 5)[1]
    except subprocess.TimeoutExpired:
        process.kill()
        process.communicate()
        return None, [], time.monotonic() - start
    return process.returncode, faults.decode().splitlines(), time.monotonic() - start


def at_once(cases):
    """Runs the program by each of these words, all side by side, and answers what came of each."""
    ended = [None] * len(cases)

    def one(place):
        ended[place] = takes_time(cases[place])

    threads = [threading.Thread(target=one, args=(place,)) for place in range(len(cases))]
    for thread in threads:
        thread.start()
    for thread in threads:
        thread.join()
    return ended


def a_socket_that_nobody_serves():
    """A process that listens at the path and accepts nobody, as a server that was stopped: its backlog is full, or has a place; one that reads nothing,
    and one that answers nothing. But a server that takes a stop's line, and answers it later than any other command is waited for, is waited for."""
    with contextlib.ExitStack() as opened:
        room = opened.enter_context(tempfile.TemporaryDirectory())
        with open(f"{room}/spool.toml", "w") as file:
            file.write(spool())
        paths = {name: f"{room}/{name}" for name in ("full", "free", "silent", "late")}
        listeners = {name: opened.enter_context(socket.socket(socket.AF_UNIX)) for name in paths}
        for name, listener in listeners.items():
            listener.bind(paths[name])
            listener.listen(0 if name == "full" else 8)
        # (one connection more than the backlog is let in)
        first = opened.enter_context(socket.socket(socket.AF_UNIX))
        first.connect(paths["full"])
        asked = []

        def accept():
            while True:
                try:
                    opened.enter_context(listeners["silent"].accept()[0]).recv(4096)
                except OSError:
                    return

        def end(peer):
            with peer, contextlib.suppress(BrokenPipeError):
                asked.append(peer.recv(4096))
                time.sleep(PATIENCE + 1)
                peer.sendall(b"end done\n")

        def end_late():
            while True:
                try:
                    threading.Thread(target=end, args=(listeners["late"].accept()[0],), daemon=True).start()
                except OSError:
                    return

        threading.Thread(target=accept, daemon=True).start()
        threading.Thread(target=end_late, daemon=True).start()
        control = [["control", paths[name], word] for name in ("full", "free", "silent") for word in ("status", "hold")]
        control = [words + ["lp"] if words[-1] == "hold" else words for words in control] + [["control", paths["full"], "stop"]]
        serve = ["serve", f"{room}/spool.toml", "--port", "1", "--out", room, "--control"]
        looks = [[*words, paths[name]] for name in ("full", "free") for words in (["check", f"{room}/spool.toml", "--control"], serve)]
        stops = [["control", paths["late"], *words] for words in (["stop"], ["stop", "5"], ["stop", "now"])]
        ended = at_once(control + looks + stops)
        for name in ("silent", "late"):
            listeners[name].shutdown(socket.SHUT_RDWR)
        for words, (status, lines, seconds) in zip(control + looks, ended):
            said = f"{' '.join(words)}: {status} {lines} in {seconds:.1f} s"
            path = words[1] if words[0] == "control" else words[-1]
            check(status == 4 and len(lines) > 1 and f"fault 72 Network {path}" in lines[-1], said)
            if words[0] == "control":
                check(lines[-2].endswith(f"{path}: no answer for {PATIENCE} s"), said)
                check(PATIENCE - 0.5 <= seconds <= PATIENCE + GRACE, said)
            else:
                why = "takes no more connections" if path == paths["full"] else "a server answers at the path"
                check(lines[-2].endswith(why) and seconds <= GRACE, said)
        for words, (status, lines, seconds) in zip(stops, ended[-len(stops):]):
            check((status, lines) == (0, []) and seconds >= PATIENCE + 0.5, f"{words}: {status} {lines} in {seconds:.1f} s")
        check(sorted(asked) == [b"stop\n", b"stop 5\n", b"stop now\n"], f"{asked}")
    return f"{len(control + looks)} ended with why, {len(stops)} were waited for"


def ask_at(path, line):
    """A connection to a control socket that has sent so much."""
    peer = socket.socket(socket.AF_UNIX)
    peer.settimeout(20)
    peer.connect(path)
    peer.sendall(line)
    return peer


def who_asks_at_the_end_is_answered():
    """Whoever has sent a whole line to a server that has stopped, and isn't done yet, is answered as who stopped it; half a line isn't answered."""
    ours, theirs = os.pipe()
    with tempfile.TemporaryDirectory() as room, Server(PROGRAM, spool(), "--control", f"{room}/socket", stdout=theirs) as it, contextlib.ExitStack() as opened:
        check(os.read(ours, 100).startswith(b"listening "), "it doesn't say where it listens")
        # (there is no room for what it says at its end, so it stays there)
        filler = os.open(f"/proc/self/fd/{theirs}", os.O_WRONLY | os.O_NONBLOCK)
        with contextlib.suppress(BlockingIOError):
            while os.write(filler, b"x" * 4096):
                pass
        with contextlib.suppress(BlockingIOError):
            while os.write(filler, b"x"):
                pass
        stop = opened.enter_context(ask_at(f"{room}/socket", b"stop now\n"))

        def has_come_to_its_end():
            calls = []
            for task in os.listdir(f"/proc/{it.process.pid}/task"):
                with contextlib.suppress(OSError):
                    calls.append(open(f"/proc/{it.process.pid}/task/{task}/syscall").read().split()[:2])
            # (it writes to its standard output)
            return ["1", "0x1"] in calls

        end = time.monotonic() + 10
        while not has_come_to_its_end():
            check(time.monotonic() < end, "it doesn't come to its end")
            time.sleep(0.05)
        asked = [opened.enter_context(ask_at(f"{room}/socket", line)) for line in (b"status\n", b"hold lp\n", b"stop\n", b"nosuch\n", b"stat", b"", b"sta")]

        def drain():
            while select.select([ours], [], [], 0.5)[0] and os.read(ours, 65536):
                pass

        # (the last one's line is whole a moment after the end has begun, in which lines are awaited)
        drained = threading.Thread(target=drain)
        drained.start()
        while has_come_to_its_end():
            time.sleep(0.002)
        time.sleep(0.03)
        with contextlib.suppress(BrokenPipeError):
            asked[-1].sendall(b"tus\n")
        drained.join()
        told = []
        for peer in (stop, *asked):
            octets = b""
            with contextlib.suppress(ConnectionResetError):
                while piece := peer.recv(4096):
                    octets += piece
            told.append(octets)
        check(told == [b"end done\n"] * 5 + [b""] * 2 + [b"end done\n"], f"{told}")
        check(it.process.wait(10) == 0, "its status isn't 0")
        for end in (ours, theirs, filler):
            os.close(end)
        return f"{len(told)} asked"


def a_person_who_types_no_words():
    """Without words, at a terminal, what is waited for is told at once; where standard input is none, nothing is."""
    told = b"reading a configuration and a script from standard input (--help tells the words)\n"
    ours, theirs = pty.openpty()
    process = subprocess.Popen([PROGRAM], stdin=theirs, stdout=subprocess.PIPE, stderr=subprocess.PIPE)
    os.close(theirs)
    try:
        check(select.select([process.stderr], [], [], 10)[0], "nothing is told")
        got = os.read(process.stderr.fileno(), 4096)
        check(got == told and process.poll() is None, f"{got}")
        # (the end of the input, as it is typed)
        os.write(ours, b"\x04")
        faults = process.communicate(timeout=10)[1]
        check(process.returncode == 2 and faults.startswith(b"fault "), f"{process.returncode} {faults}")
    finally:
        process.kill()
        os.close(ours)
    ran = subprocess.run([PROGRAM], input=b"", capture_output=True, timeout=20)
    check(ran.stderr == faults and ran.returncode == 2, f"{ran}")
    for words in (["check", "nosuch.toml"], ["--version"]):
        ours, theirs = pty.openpty()
        ran = subprocess.run([PROGRAM, *words], stdin=theirs, capture_output=True, timeout=20)
        os.close(theirs)
        os.close(ours)
        check(told not in ran.stderr, f"{words}: {ran}")
    return "told, and then waited for"


def a_file_that_is_not_there():
    """At a terminal a replay says which of its two files can't be read."""
    with tempfile.TemporaryDirectory() as room:
        with open(f"{room}/spool.toml", "w") as file:
            file.write(spool())
        script, config = f"{room}/nosuch.script", f"{room}/nosuch.toml"
        for words, named in (((f"{room}/spool.toml", script), script), ((config, script), config)):
            status, told = at_a_terminal(["replay", *words], stderr=subprocess.STDOUT)
            lines = told.decode().splitlines()
            check(status == 4 and any(f"{named}: No such file" in line for line in lines), f"{words}: {status} {lines}")
    return "each"


SCENES = [a_file_that_is_not_there, answers_at_a_terminal, a_user_at_a_terminal, a_socket_that_nobody_serves, who_asks_at_the_end_is_answered, a_person_who_types_no_words]

if __name__ == "__main__":
    sys.exit(main(SCENES, __doc__))
