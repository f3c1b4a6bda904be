#!/usr/bin/env python3
"""Runs the gate from nothing, and tells what each part of it took.

    python3 tools/gate-times.py TABLE    # at the top of a clone in which nothing else runs

TABLE becomes a table in Markdown: minutes of a processor by crate, for its proof, that of its tests, and its edits, and the most memory of its proof, which
docs/GATE.md has of the last time. What the gate prints goes on to standard output, and its exit status is this one's.

A quarter of a second is looked at each process that the gate began, so that much of each may be missing; the sum over all is the system's.
"""
import os
import re
import resource
import subprocess
import sys
import threading
import time
from collections import defaultdict

PAUSE = 0.25
TICK = os.sysconf("SC_CLK_TCK")
KINDS = ("proof", "tests", "edits", "runs")


def processes():
    """Each process that there is: its parent, and the seconds that it and the children that it has waited for took."""
    found = {}
    for name in os.listdir("/proc"):
        if name.isdigit():
            try:
                with open(f"/proc/{name}/stat", encoding="ascii", errors="replace") as file:
                    fields = file.read().rpartition(")")[2].split()
            except OSError:
                continue
            found[int(name)] = int(fields[1]), sum(map(int, fields[11:15])) / TICK
    return found


def memory_of(process):
    """The most memory that a process has had at once, in mebioctets."""
    try:
        with open(f"/proc/{process}/status", encoding="ascii", errors="replace") as file:
            for line in file:
                if line.startswith("VmHWM:"):
                    return int(line.split()[1]) / 1024
    except OSError:
        pass
    return 0.0


def part_of(process):
    """Which crate a process of the gate works on, and for what."""
    try:
        with open(f"/proc/{process}/cmdline", encoding="utf-8", errors="replace") as file:
            words = file.read().split("\0")
        folder = os.readlink(f"/proc/{process}/cwd")
    except OSError:
        return None
    if "--crate-name" in words:
        crate = words[words.index("--crate-name") + 1]
        if "/rt-edit" in folder or any("/rt-edit" in it for it in words):
            return crate, "edits"
        return crate, "tests" if "--test" in words else "proof"
    text = " ".join(words)
    if not text.strip():
        # (one that ends has no command line any more, and is what it was)
        return None
    named = re.search(r"/rt-run-\d+-[^/ ]*/bin/(\w+?)(_tests)?(?= |$)", text) or re.search(r"/crates/(\w+)/", text + f" {folder}/")
    if named:
        return named[1], "runs"
    return None


class Watch(threading.Thread):
    """Adds up what the children of a process take, until it has ended."""

    def __init__(self, gate):
        super().__init__(daemon=True)
        self.gate, self.ended = gate, threading.Event()
        self.took, self.parts, self.memory = {}, {}, {}

    def run(self):
        while not self.ended.wait(PAUSE):
            found = processes()
            children = defaultdict(list)
            for process, (parent, _) in found.items():
                children[parent].append(process)
            for child in children[self.gate]:
                seconds, left = 0.0, [child]
                while left:
                    it = left.pop()
                    seconds += found[it][1]
                    self.memory[child] = max(memory_of(it), self.memory.get(child, 0.0))
                    left += children[it]
                self.took[child] = max(seconds, self.took.get(child, 0.0))
                # (a process that has just begun may be another program's still)
                self.parts[child] = part_of(child) or self.parts.get(child)

    def memories(self):
        """The most memory of a proof, by crate."""
        most = defaultdict(float)
        for child, memory in self.memory.items():
            crate, kind = self.parts.get(child) or ("(others)", "runs")
            if kind == "proof":
                most[crate] = max(most[crate], memory)
        return most

    def table(self):
        """Seconds by crate and kind."""
        sums = defaultdict(lambda: dict.fromkeys(KINDS, 0.0))
        for child, seconds in self.took.items():
            crate, kind = self.parts.get(child) or ("(others)", "runs")
            sums[crate][kind] += seconds
        return sums


def lines_of(sums, memories, all_seconds, wall):
    """The table."""
    minutes = lambda seconds: f"{seconds / 60:.1f}" if seconds >= 3 else ""
    whole = {kind: sum(it[kind] for it in sums.values()) for kind in KINDS}
    seen = sum(whole.values())
    yield f"| Crate | {' | '.join(it.capitalize() for it in KINDS)} | Sum | Memory of its proof, in MiB |"
    yield "|---|" + "---|" * (len(KINDS) + 2)
    for crate, it in sorted(sums.items(), key=lambda it: -sum(it[1].values())):
        yield f"| `{crate}` | {' | '.join(minutes(it[kind]) for kind in KINDS)} | {minutes(sum(it.values()))} | {f'{memories[crate]:.0f}' if crate in memories else ''} |"
    yield f"| what no process was seen to take | | | | | {minutes(all_seconds - seen)} | |"
    yield f"| **all** | {' | '.join(f'**{whole[kind] / 60:.1f}**' for kind in KINDS)} | **{all_seconds / 60:.1f}** | |"
    yield ""
    yield f"{wall / 60:.0f} minutes by the clock, {len(os.sched_getaffinity(0))} processors."


def main():
    if len(sys.argv) != 2:
        sys.exit("usage: tools/gate-times.py TABLE")
    os.chdir(os.path.dirname(os.path.dirname(os.path.abspath(__file__))))
    begun = time.time()
    gate = subprocess.Popen(["rt", "ci", "--anew"], stdin=subprocess.DEVNULL)
    watch = Watch(gate.pid)
    watch.start()
    status = gate.wait()
    watch.ended.set()
    watch.join()
    used = resource.getrusage(resource.RUSAGE_CHILDREN)
    with open(sys.argv[1], "w", encoding="utf-8") as file:
        for line in lines_of(watch.table(), watch.memories(), used.ru_utime + used.ru_stime, time.time() - begun):
            print(line, file=file)
    return status


if __name__ == "__main__":
    sys.exit(main())
