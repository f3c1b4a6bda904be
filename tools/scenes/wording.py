#!/usr/bin/env python3
"""Scenes of what each command tells: wording.py PROGRAM [SCENE..], where PROGRAM is the built lpd_server.

The program is run with words, in a folder of files. Its whole standard output, its whole standard error (each line behind a `!`) and its exit status have to be those that
stand in `words/SCENE.txt`, below the words. With WRITE=1 in the environment these texts are written anew: then read the difference. A line says what was seen; the last line is
'N passed, M failed'."""
import contextlib
import os
import re
import shlex
import socket
import subprocess
import sys
import tempfile
import threading
import time

from client import Server, free_port
from scene import PROGRAM, check, main

TEXTS = os.path.join(os.path.dirname(os.path.abspath(__file__)), "words")
WRITES = bool(os.environ.get("WRITE"))
# How many differences are told at most.
MOST = 4
# How long a text may take to come to what it has to be, in seconds.
PATIENCE = 10
HEAD = "pages = 64\npage_size = 1024\nmax_jobs = 8\naccount = 100000\n"


def queue(name='"lp"', limit="8", printers="1", places=None):
    """The table of a queue, with these texts as its values; None leaves a key out."""
    keys = (("name", name), ("limit", limit), ("printers", printers), ("places", places))
    return "[[queue]]\n" + "".join(f"{key} = {value}\n" for key, value in keys if value is not None)


def head(**values):
    """The keys of the document, with other texts as their values; None leaves a key out."""
    keys = {"pages": "64", "page_size": "1024", "max_jobs": "8", "account": "100000", **values}
    return "".join(f"{key} = {value}\n" for key, value in keys.items() if value is not None)


GOOD = HEAD + queue() + queue('"plotter"', "16", "2")
# Configurations by their names.
CONFIGURATIONS = {
    "good": GOOD,
    "remarks": "# a remark\n\n" + HEAD + "\n# lp\n" + queue() + "\n  # another\n" + queue('"plotter"', "16", "2"),
    "empty": "",
    "not-toml": HEAD + "[[queue]\nname = 1\n",
    "not-toml-at-once": "=\n",
    "no-text": b"pages = 64\nname = \"\xff\"\n",
    "a-key-twice": HEAD + "pages = 65\n" + queue(),
    "a-great-number": head(account="9223372036854775808") + queue(),
    "no-end-of-a-text": HEAD + queue('"lp'),
    **{f"no-{key}": head(**{key: None}) + queue() for key in ("pages", "page_size", "max_jobs", "account")},
    **{f"{key}-of-0": head(**{key: "0"}) + queue() for key in ("pages", "page_size", "max_jobs", "account")},
    **{f"{key}-below-0": head(**{key: "-1"}) + queue() for key in ("pages", "page_size", "max_jobs", "account")},
    **{f"{key}-in-quotes": head(**{key: '"8"'}) + queue() for key in ("pages", "page_size", "max_jobs", "account")},
    "pages-over-the-most": head(pages="65537") + queue(),
    "pages-at-the-most": head(pages="65536") + queue(),
    "page_size-over-the-most": head(page_size="65537") + queue(),
    "page_size-at-the-most": head(page_size="65536") + queue(),
    "max_jobs-over-the-most": head(max_jobs="1025") + queue(),
    "max_jobs-at-the-most": head(max_jobs="1024") + queue(),
    "account-over-the-most": head(account="16000001") + queue(),
    "account-at-the-most": head(account="16000000") + queue(),
    "pages-of-a-half": head(pages="1.5") + queue(),
    "pages-of-truth": head(pages="true") + queue(),
    "pages-of-an-array": head(pages="[1]") + queue(),
    "pages-of-a-table": head(pages="{ a = 1 }") + queue(),
    "pages-of-a-day": head(pages="2026-12-01") + queue(),
    "pages-behind-a-queue": head(pages=None) + queue() + "pages = 64\n",
    "no-queue": HEAD,
    "queue-of-a-number": HEAD + "queue = 1\n",
    "queue-of-a-table": HEAD + "[queue]\nname = \"lp\"\n",
    "queue-of-none": HEAD + "queue = []\n",
    "queue-of-numbers": HEAD + "queue = [1, 2]\n",
    "queues-of-64": HEAD + "".join(queue(f'"q{number}"') for number in range(64)),
    "queues-of-65": HEAD + "".join(queue(f'"q{number}"') for number in range(65)),
    # (what is wrong stands in the second queue of three)
    **{f"queue-2-without-{key}": HEAD + queue() + queue(**{"name": '"b"', key: None}) + queue('"c"') for key in ("name", "limit", "printers")},
    **{f"queue-2-with-{key}-of-0": HEAD + queue() + queue(**{"name": '"b"', key: "0"}) + queue('"c"') for key in ("name", "limit", "printers")},
    **{f"queue-2-with-{key}-in-quotes": HEAD + queue() + queue(**{"name": '"b"', key: '"8"'}) + queue('"c"') for key in ("limit", "printers")},
    "queue-2-of-no-name": HEAD + queue() + queue('""') + queue('"c"'),
    "queue-2-of-a-space": HEAD + queue() + queue('"l p"') + queue('"c"'),
    "queue-2-of-an-accent": HEAD + queue() + queue('"é"') + queue('"c"'),
    "queue-2-of-64-octets": HEAD + queue() + queue(f'"{"x" * 64}"') + queue('"c"'),
    "queue-2-of-65-octets": HEAD + queue() + queue(f'"{"x" * 65}"') + queue('"c"'),
    "queue-2-of-16-printers": HEAD + queue() + queue('"b"', printers="16") + queue('"c"'),
    "queue-2-of-17-printers": HEAD + queue() + queue('"b"', printers="17") + queue('"c"'),
    "queue-2-of-65536-pages": head(pages="65536") + queue() + queue('"b"', "65536") + queue('"c"'),
    "queue-2-of-65537-pages": head(pages="65536") + queue() + queue('"b"', "65537") + queue('"c"'),
    # (another key is there, but not in one queue: what is wrong is that of another)
    "a-limit-too-low-and-one-that-lacks": HEAD + queue(limit=None) + queue('"b"', "0"),
    "printers-too-many-and-none": HEAD + queue(printers="17") + queue('"b"', printers=None),
    "a-limit-as-the-pool": HEAD + queue(limit="64"),
    "a-limit-over-the-pool": HEAD + queue(limit="65"),
    "a-limit-as-the-pool-and-one-over-it": HEAD + queue(limit="64") + queue('"b"', "65") + queue('"c"', "66"),
    "one-name-twice": HEAD + queue() + queue('"b"') + queue('"lp"'),
    "one-name-three-times": HEAD + queue('"b"') + queue() + queue() + queue(),
    "two-names-twice": HEAD + queue('"a"') + queue('"b"') + queue('"b"') + queue('"a"'),
    "a-limit-over-the-pool-and-one-name-twice": HEAD + queue(limit="65") + queue(),
    "places": HEAD + queue(places='["file:out/lp"]') + queue('"b"', printers="3", places='["socket://127.0.0.1", "folder:out"]'),
    "places-in-quotes": HEAD + queue() + queue('"b"', places='"file:out/lp"'),
    "places-of-a-number": HEAD + queue() + queue('"b"', places="1"),
    "places-of-numbers": HEAD + queue() + queue('"b"', places='["file:out/lp", 1]', printers="2"),
    "places-too-many": HEAD + queue() + queue('"b"', places='["file:a", "file:b", "file:c"]', printers="2"),
    "a-place-that-is-none": HEAD + queue() + queue('"b"', places='["lpr:x"]'),
    "a-place-of-nothing": HEAD + queue() + queue('"b"', places='[""]'),
    "a-place-at-a-name": HEAD + queue() + queue('"b"', places='["socket://printer"]'),
    "a-place-at-no-port": HEAD + queue() + queue('"b"', places='["socket://127.0.0.1:0"]'),
    "no-keys": "pagse = 1\n" + HEAD + queue() + "Limit = 3\n" + queue('"b"') + '"a b" = 1\n',
    "no-keys-behind-another-table": HEAD + "[other]\nLimit = 1\n" + queue() + "Limit = 3\n[other.more]\nname = 1\n" + queue('"b"') + "Limit = 3\n",
    "a-limit-behind-another-table": HEAD + "[other]\nlimit = 1\n" + queue() + "[other.more]\nlimit = 65\n" + queue('"b"', "0"),
    "no-keys-of-20": "".join(f"key{number} = 1\n" for number in range(20)) + HEAD + queue(),
    "a-small-account": head(account="300") + queue() + queue('"b"', "1"),
}
# Scripts by their names, behind the good configuration.
HELLO = ("026c700a0331312064664130303168310a68656c6c6f20776f726c64000231392063664130303168310a4868310a50616e6e0a6664664130303168310a00")
SCRIPTS = {
    "a-job": f"connect h1\nsend 1 {HELLO}\nnext 1\nprinted 1\nnext 1\nprinted 1\nfree\npages\n",
    "nothing": "",
    "remarks": "# a remark\n\n  \nfree\n# the end",
    "a-printer": f"next 1\nprinted 1\nfailed 1\nconnect h1\nsend 1 {HELLO}\npages\nnext 1\nnext 1\npages\nfailed 1\nnext 1\nprinted 1\npages\n",
    "sessions": f"connect h1\nconnect h2\nconnect h1\nsend 1 026c70\nbreak 1\nsend 1 0a\ngo 2\nsend 2 {HELLO}\nsend 3 026e6f77686572650a\ngo 3\nbreak 2\n",
    "an-end": f"connect h1\nsend 1 {HELLO}\nshutdown\nnext 1\nconnect h2\nsend 2 {HELLO}\nfree\nshutdown\n",
    "in-capitals": "connect h1\nsend 1 026C700A\n",
    **{f"bad-{name}": f"free\n# 2\n\n{line}\nfree\n" for name, line in (
        ("word", "fre"), ("capital", "Free"), ("word-behind", "free 1"), ("connect", "connect"), ("session", "go 1"), ("session-0", "go 0"), ("session-word", "go x"),
        ("session-sign", "go +1"), ("send", "send 1"), ("hexadecimal", "send 1 0"), ("digit", "send 1 0g"), ("printer", "next 4"), ("printer-0", "next 0"),
        ("printed", "printed 4"), ("failed", "failed 9"), ("number", "next 99999999999999999999"), ("break", "break 1"), ("octets", "free\u00e9"))},
    "bad-send-of-a-session": "connect h1\nsend 1 0\n",
    "bad-second-session": "connect h1\nsend 2 00\n",
}
COMMANDS = ("check", "serve", "replay", "send", "state", "remove", "start", "control", "audit", "usage")


class Book:
    """What a scene's words have to be answered, as it stands in its text."""

    def __init__(self, name):
        self.name, self.told, self.seen, self.wrong = name, {}, [], []
        self.room = tempfile.TemporaryDirectory()
        self.folder = self.room.name
        self.known = [(self.folder, "DIR")]
        if not WRITES:
            with open(f"{TEXTS}/{name}.txt") as file:
                for part in file.read().split("\n$ ")[1:]:
                    title, _, text = part.partition("\n")
                    self.told[title] = text.rstrip("\n")
        for name, text in CONFIGURATIONS.items():
            self.write(f"{name}.toml", text)
        for name, text in SCRIPTS.items():
            self.write(f"{name}.script", text)
        self.write("letter", "Dear Ann\n")
        self.write("nothing", "")
        os.mkdir(f"{self.folder}/out")

    def write(self, name, text):
        with open(f"{self.folder}/{name}", "wb") as file:
            file.write(text if isinstance(text, bytes) else text.encode())

    def plain(self, text):
        """A text without what differs from run to run, and with long runs of one character as their length."""
        for word, name in self.known:
            text = text.replace(word, name)
        text = re.sub(r"[^\n -~\u00a0-\uffff]", lambda octet: f"\\x{ord(octet[0]):02x}", text)
        text = re.sub(r"(?m)^uptime \d+$", "uptime S", text)
        return re.sub(r"([A-Za-z])\1{40,}", lambda run: f"{run[1]}*{len(run[0])}", text)

    def ran(self, words, octets=None, out=subprocess.PIPE):
        """What the program with these words told, and how it ended."""
        how = {"stdin": subprocess.DEVNULL} if octets is None else {"input": octets}
        ran = subprocess.run(["lpd_server", *words], executable=PROGRAM, cwd=self.folder, stdout=out, stderr=subprocess.PIPE, timeout=30, **how)
        told, faults = ((octets or b"").decode(errors="backslashreplace") for octets in (ran.stdout, ran.stderr))
        lines = told.removesuffix("\n").split("\n") if told else []
        lines += [f"! {line}" for line in faults.removesuffix("\n").split("\n")] if faults else []
        lines.append(f"(status {ran.returncode})")
        # (who tells a text without its end tells another)
        return "\n".join(lines) + "".join(f"\n(no end: {name})" for name, text in (("output", told), ("error", faults)) if text and not text.endswith("\n"))

    def tell(self, title, read):
        """What this reads has to be what stands below the title, or to come to that soon: a session may end after its client has."""
        title = self.plain(title)
        count = sum(seen == title or seen.startswith(f"{title}  #") for seen, _ in self.seen)
        title += f"  # {count + 1}" if count else ""
        end = time.monotonic() + (PATIENCE if " status" in title else 0)
        if WRITES and " status" in title:
            time.sleep(0.5)
        while (text := self.plain(read())) != self.told.get(title) and not WRITES and time.monotonic() < end:
            time.sleep(0.1)
        self.seen.append((title, text))
        if not WRITES and self.told.get(title) != text:
            self.wrong.append(f"{title}: due {self.told.get(title)!r}, seen {text!r}")

    def asks(self, words, octets=None, behind=""):
        """Words as they are typed, or a list of them; what stands on standard input; and what is said of that."""
        words = shlex.split(words) if isinstance(words, str) else words
        self.tell(f"lpd_server {shlex.join(words)}{behind}".replace("\n", "\\n"), lambda: self.ran(words, octets))

    def __enter__(self):
        return self

    def __exit__(self, fault, *_):
        self.room.cleanup()
        if WRITES:
            os.makedirs(TEXTS, exist_ok=True)
            with open(f"{TEXTS}/{self.name}.txt", "w") as file:
                file.write(f"What the scene `{self.name}` of wording.py has the program tell.\n")
                file.writelines(f"\n$ {title}\n{text}\n" for title, text in self.seen)
        elif fault is None:
            check(not self.wrong, f"{len(self.wrong)} of {len(self.seen)}: " + " | ".join(self.wrong[:MOST]))
            check(len(self.seen) == len(self.told), f"{len(self.told)} texts are there, {len(self.seen)} were told")

    def count(self):
        return f"{len(self.seen)} texts"


def what_help_says():
    """The program's help and that of each command."""
    with Book("what_help_says") as it:
        for words in ("--help", "-h", *(f"{command} {flag}" for command in COMMANDS for flag in ("--help", "-h")), "send 515 --help", "help", "help send"):
            it.asks(words)
        return it.count()


def what_words_are_refused_for():
    """Words that are none, too few, too many, or name what can't be."""
    great, many = "4294967296", " ".join(["letter"] * 53)
    with Book("what_words_are_refused_for") as it:
        rows = ["nosuch", "-x", "--nosuch", "serv", "check", "check good.toml more", "check --nosuch good.toml", "check good.toml --printer", "check good.toml --sizes --sizes",
                "serve", "serve good.toml", "serve --port 515", "replay", "replay good.toml", "replay good.toml a-job.script more",
                "send", "send 515", "send 515 lp", "send 515 lp 1", "send 515 lp 1 h", "send 515 lp 1 h ann", "state", "state 515", "remove", "remove 515", "remove 515 lp",
                "start", "start 515", "start 515 lp more", "control", "control socket", "audit", "usage"]
        # numbers
        for value in ("0", "65536", "-1", "x", "", "+1", "01", "1.0", "99999999999999999999"):
            rows += [["state", "--", value, "lp"], ["check", "good.toml", f"--printer=lp=socket://127.0.0.1:{value}"]]
            if value not in ("+1", "01"):
                rows.append(["serve", "good.toml", f"--port={value}"])
        for value in ("0", great, "x"):
            for option in ("sessions", "connections", "rotate", "silence", "per-host", "slowest", "patience", "printer-silence", "restart"):
                rows.append(f"serve good.toml --port 515 --{option} {value}")
        rows += ["serve good.toml --port 515 --sessions 65", "send 515 lp 1000 h ann letter", "send 515 lp 65536 h ann letter", "send 515 lp x h ann letter"]
        # what names and addresses there may be
        for address in ("x", "1.2.3", "1.2.3.256", "::1", ""):
            rows += [["serve", "good.toml", "--port", "515", f"--bind={address}"], ["send", "515", "lp", "1", "h", "ann", "letter", f"--server={address}"],
                     ["state", "515", "lp", f"--server={address}"], ["remove", "515", "lp", "ann", f"--server={address}"], ["start", "515", "lp", f"--server={address}"]]
        for network in ("x", "10.0.0.1/8", "10.0.0.0/33", "10.0.0.0/", "/8", "10.0.0/8", "10.0.0.0/8x"):
            rows += [f"serve good.toml --port 515 --allow {network}", f"serve good.toml --port 515 --proxied {network}"]
        for word in ("l p", "", "q" * 1022, "q" * 1023, "l\tp", "l\np"):
            rows += [["send", "1", word, "1", "h", "ann", "nosuch"], ["state", "1", word], ["remove", "1", word, "ann"], ["start", "1", word]]
        for host in ("h h", "", "h" * 120, "h" * 121, "h\th"):
            rows.append(["send", "1", "lp", "1", host, "ann", "nosuch"])
        for user in ("", "a" * 255, "a" * 256, "a\nb", "a b"):
            rows += [["send", "1", "lp", "1", "h", user, "nosuch"], ["remove", "1", "lp", user]]
        # (the first that is wrong is told)
        rows += [["send", "1", "l p", "1", "h h", "", "nosuch"], ["send", "1", "l p", "1", "h", "", "nosuch"], ["send", "1", "l p", "1", "h", "ann", "nosuch", "--server=x"],
                 ["send", "1", "l p", "1", "h", "ann", *["nosuch"] * 53], f"send 1 lp 1 h ann {many}"]
        rows += [["state", "1", "lp", "a b"], ["state", "1", "lp", ""], ["state", "1", "lp", *["a"] * 510], ["state", "1", "lp", *["a"] * 511], ["state", "1", "lp", "a" * 1020],
                 ["state", "1", "q" * 1000, "a" * 30], ["remove", "1", "lp", "ann", "a b"], ["remove", "1", "lp", "ann", "a" * 1020]]
        for place in ("lp", "lp=", "=file:x", "lp=file:", "lp=x", "lp=socket://x", "lp=socket://127.0.0.1:0", "lp=socket://127.0.0.1:65536", "0=file:x", "nosuch=file:x",
                      "9=file:x",
                      "plotter.3=file:x", "lp.0=file:x"):
            rows += [["check", "good.toml", "--printer", place], ["serve", "good.toml", "--port", "515", "--printer", place]]
        rows += ["check good.toml --printer lp=file:x --printer 1=file:y", "check places.toml --printer lp=file:x",
                 "serve good.toml --port 515 --log x", "serve good.toml --port 515 --log=", "serve good.toml --port 515 --status x", "serve good.toml --port 515 --status 0",
                 "serve good.toml --port 515 --status 1.2.3.4", "serve good.toml --port 515 --status 1.2.3:80", "serve good.toml --port 515 --status-host x",
                 "serve good.toml --port 515 --status 9150 --status-host 'a b'", ["serve", "good.toml", "--port", "515", "--status", "9150", "--status-host", "a" * 254],
                 ["serve", "good.toml", "--port", "515", "--control", "c" * 107 + "/x"], ["check", "good.toml", "--control", "c" * 108]]
        for words in ("nosuch", "status lp", "start", "hold", "release", "remove", "remove lp", "start l p", "cancel", "cancel job", "cancel 5", "cancel job x", "cancel file x",
                      "resend",
                      "resend x", "resend all lp more", "rotate now", "stop soon", "stop 01", "stop -1", f"stop {great}", "stop now now", "STATUS", "''"):
            rows.append(f"control socket -- {words}")
        rows += [["control", "c" * 108, "status"], ["control", "socket", *["a"] * 53]]
        for words in ("usage x --by nosuch", "usage x --since nosuch", "usage x --until 2026-13-01T00:00:00Z", "usage x --since 2026-12-01", "audit x --after 12",
                      "audit x --ends zz",
                      ["audit", "x", "--after", "0" * 63], "audit x --printed", "audit x --printed 1=", "audit x --taken x", "audit x --taken 0"):
            rows.append(words)
        for words in rows:
            it.asks(words)
        return it.count()


def what_configurations_are_refused_for():
    """What `check` says of configurations, and each other command that reads one of those that it refuses: which key is wrong, in which line, and of which queue."""
    with Book("what_configurations_are_refused_for") as it:
        for name in CONFIGURATIONS:
            it.asks(f"check {name}.toml")
        for name in ("good", "remarks", "places", "a-small-account", "pages-at-the-most", "queue-2-of-65536-pages"):
            it.asks(f"check {name}.toml --sizes")
            it.asks(f"check {name}.toml --sizes --printer 2=file:x --out out")
        for name in ("empty", "not-toml", "no-text", "no-pages", "pages-of-0", "pages-in-quotes", "queue-2-without-limit", "queue-2-with-limit-of-0",
                     "queue-2-with-limit-in-quotes",
                     "a-limit-over-the-pool", "one-name-twice", "places-of-a-number", "places-too-many", "no-keys"):
            if name != "no-keys":
                it.asks(f"serve {name}.toml --port 515")
            it.asks(f"replay {name}.toml a-job.script")
            text = CONFIGURATIONS[name]
            it.asks([], (text if isinstance(text, bytes) else text.encode()) + b"%%\nfree\n", f" < {name}.toml + free")
        return it.count()


def what_files_are_told_as():
    """Files that aren't there, are folders, have nothing or can't be written."""
    port = free_port()
    with Book("what_files_are_told_as") as it:
        it.known.append((str(port), "PORT"))
        open(f"{it.folder}/a-file", "w").close()
        os.symlink("nosuch/below", f"{it.folder}/a-link")
        for words in ("check nosuch.toml", "check out", "check nosuch/spool.toml", "check good.toml/x", "serve nosuch.toml --port 515", "serve out --port 515",
                      "replay nosuch.toml a-job.script", "replay good.toml nosuch.script", "replay nosuch.toml nosuch.script", "replay out a-job.script", "replay good.toml out",
                      f"send {port} lp 1 h ann nosuch", f"send {port} lp 1 h ann letter nosuch", f"send {port} lp 1 h ann out", f"send {port} lp 1 h ann nothing",
                      f"send {port} lp 1 h ann letter nothing letter", f"send {port} lp 1 h ann letter", f"send {port} lp 1 h ann letter --progress",
                      f"state {port} lp", f"state {port} lp --long", f"remove {port} lp ann", f"start {port} lp",
                      "control nosuch status", "control out status", "control a-file status", "control nosuch/below stop", "control nosuch stop now",
                      "check good.toml --out nosuch", "check good.toml --out a-file", "check good.toml --out out", "check good.toml --control socket",
                      "check good.toml --control a-file",
                      "check good.toml --control out", "check good.toml --control nosuch/socket", "check good.toml --spool kept", "check good.toml --spool a-file",
                      "check good.toml --spool nosuch/kept", "check good.toml --spool out", "check good.toml --account books", "check good.toml --account a-file",
                      "check good.toml --account out",
                      "check good.toml --account nosuch/books", "check good.toml --printer lp=folder:nosuch --out out", "check good.toml --printer lp=file:nosuch/x --out out",
                      f"serve good.toml --port {port} --out nosuch", f"serve good.toml --port {port} --out a-file",
                      f"serve good.toml --port {port} --printer lp=file:nosuch/x --out out",
                      f"serve good.toml --port {port} --printer lp=folder:nosuch --out out", f"serve good.toml --port {port} --printer lp=folder:a-file --out out",
                      f"serve good.toml --port {port} --printer lp=file:a-link --out out",
                      f"serve good.toml --port {port} --printer lp=folder:out --printer plotter=folder:out --out out",
                      f"serve good.toml --port {port} --control nosuch/socket --out out", f"serve good.toml --port {port} --control a-file --out out",
                      f"serve good.toml --port {port} --spool a-file --out out", f"serve good.toml --port {port} --spool nosuch/kept --out out",
                      f"serve good.toml --port {port} --account a-file --out out", f"serve good.toml --port {port} --bind 192.0.2.1 --out out",
                      f"serve good.toml --port {port} --status 192.0.2.1:{port} --out out",
                      "audit nosuch", "audit out", "audit nothing", "audit letter", "audit letter --printed out", "usage nosuch", "usage out", "usage nothing", "usage letter"):
            it.asks(words)
        # (nothing can be written to what is full)
        for words in ("check good.toml", "replay good.toml a-job.script", "--help", "check --help", "check empty.toml"):
            with open("/dev/full", "w") as full:
                it.tell(f"lpd_server {words} > /dev/full", lambda: it.ran(shlex.split(words), out=full))
        with contextlib.closing(nobody_accepts()) as taken:
            it.known.append((str(taken.getsockname()[1]), "TAKEN"))
            it.asks(f"serve good.toml --port {taken.getsockname()[1]} --out out")
            it.asks(f"serve good.toml --port {port} --status {taken.getsockname()[1]} --out out")
        return it.count()


def nobody_accepts():
    """A listener that accepts nobody."""
    listener = socket.socket()
    listener.bind(("127.0.0.1", free_port()))
    listener.listen()
    return listener


def what_scripts_tell():
    """What scripts print, by `replay` and from standard input, and which line is told where one can't be run."""
    with Book("what_scripts_tell") as it:
        for name, text in SCRIPTS.items():
            it.asks(f"replay good.toml {name}.script")
        for name in ("a-job", "nothing", "remarks", "bad-word", "bad-session", "bad-printer"):
            it.asks([], (GOOD + "%%\n" + SCRIPTS[name]).encode(), f" < good.toml + {name}.script")
        it.asks([], GOOD.encode(), " < good.toml")
        it.asks([], (GOOD + "%%").encode(), " < good.toml + %%")
        it.asks([], (GOOD + " %%\nfree\n").encode(), " < good.toml + a space before %%")
        return it.count()


@contextlib.contextmanager
def answering(*answers):
    """A server that answers the lines of one connection with these octets, one after another, and then ends it."""
    with socket.socket() as listener:
        listener.bind(("127.0.0.1", free_port()))
        listener.listen()

        def serve():
            with contextlib.suppress(OSError):
                peer = listener.accept()[0]
                with peer:
                    for octets in answers:
                        peer.recv(65536)
                        peer.sendall(octets)
                    peer.shutdown(socket.SHUT_WR)
                    while peer.recv(65536):
                        pass

        threading.Thread(target=serve, daemon=True).start()
        yield listener.getsockname()[1]


def what_answers_are_told_as():
    """What a server answers by octets: each that refuses, an end, and a text."""
    with Book("what_answers_are_told_as") as it:
        for answers in ((b"\x01",), (b"\x02",), (b"\x03",), (b"\x1f",), (b" ",), (b"\xff",), (b"",), (b"\0", b"\x01"), (b"\0", b"\0\x02"), (b"\0", b""), (b"no entries\n",),
                        (b"\0\n",),
                        (b"\x01\x01",), (b"text without an end",)):
            # (a job has several lines, a question has one)
            for words in ("send {} lp 1 h ann letter", "state {} lp", "state {} lp ann --long", "remove {} lp ann 1", "start {} lp")[:1 if len(answers) > 1 else 5]:
                with answering(*answers) as port:
                    it.known[1:] = [(str(port), "PORT")]
                    it.asks(words.format(port), behind=f" : {answers}")
        return it.count()


def what_a_server_is_asked():
    """What a server with held jobs answers to each word that asks."""
    with Book("what_a_server_is_asked") as it:
        with Server(PROGRAM, GOOD, "--control", f"{it.folder}/socket", "--keep-room", printers=3) as server:
            port = server.port
            it.known.append((str(port), "PORT"))
            for words in ("control socket status", "control socket hold lp", "control socket hold lp", "control socket hold nosuch", f"send {port} lp 1 h ann letter",
                          f"send {port} lp 2 h bob letter letter --progress", f"send {port} lp 0 h cy letter", f"send {port} lp 999 h ann letter good.toml",
                          f"send {port} nosuch 1 h ann letter", f"state {port} lp", f"state {port} lp --long", f"state {port} lp ann", f"state {port} lp 2",
                          f"state {port} lp bob ann",
                          f"state {port} lp 77", f"state {port} nosuch", f"state {port} plotter --long", "control socket status", f"remove {port} lp ann 2",
                          f"remove {port} lp bob 2",
                          f"remove {port} lp root cy", f"remove {port} lp ann", f"remove {port} nosuch ann 1", f"start {port} lp", f"start {port} nosuch",
                          "control socket start lp",
                          "control socket start nosuch", "control socket remove lp 77", "control socket remove nosuch 1", "control socket remove lp nobody",
                          "control socket cancel job 77",
                          "control socket cancel job 1", "control socket cancel file 1", "control socket resend 1", "control socket resend all", "control socket resend all lp",
                          "control socket resend all nosuch", "control socket rotate", "control socket release nosuch", f"state {port} lp", "control socket remove lp 999",
                          "control socket release lp", "control socket release lp", "check good.toml --control socket", "control socket stop", "control socket status"):
                it.asks(words)
            server.process.wait(30)
        return it.count()


SCENES = [what_help_says, what_words_are_refused_for, what_configurations_are_refused_for, what_files_are_told_as, what_scripts_tell, what_answers_are_told_as,
        what_a_server_is_asked]


if __name__ == "__main__":
    sys.exit(main(SCENES, __doc__))
