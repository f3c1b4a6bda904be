"""Proves and builds the program, lowest crate first: see tools/build.sh.

A crate is begun once those that it stands on are built, and as long as processors and memory are free. What is built stays in the
crates' out/ folders, so a run that was stopped goes on where it was. (A crate whose libraries aren't all built would have `rt` read all
sources below it in one process first.)

`rt lib` keeps other runs out of a crate and of all crates below it, so of one checkout two crates are hardly ever built side by side.
Here each lane has a checkout of its own below ~/.cache/hurgwaye, whose files are those of the repository under a second name: the gate
refuses a repository with another one in it.
"""
import hashlib
import os
import re
import resource
import shutil
import signal
import subprocess
import sys
import threading
import time

PROGRAM = "lpd_server"
TOP = os.path.dirname(os.path.dirname(os.path.abspath(__file__)))
OUT = f"{TOP}/out"
LOGS = f"{OUT}/logs"
LANES = os.path.expanduser(f"~/.cache/hurgwaye/lanes-{hashlib.sha256(TOP.encode()).hexdigest()[:12]}")
# What a proof takes, in MB: at the least, and for each thousand lines of code and of proofs and definitions.
LEAST, OF_CODE, OF_PROOFS = 1000, 900, 200
# Of the memory that is free at the start so much is used.
SHARE = 0.85
# A crate that took fewer seconds of a processor was built before.
BUILT = 8
# How long a crate takes goes by its lines of code, hardly by those of its proofs: its start stands for so many lines, and a line took so many
# seconds of a processor; the pace that is seen counts as much as that once so many lines are done.
START, PACE, FIRST = 40, 0.27, 1000


def read_crates():
    """The repository's crates, each with those of them that it stands on."""
    listed = {}
    with open(f"{TOP}/crates.txt", encoding="utf-8") as file:
        for line in file:
            name, _, deps = line.partition("#")[0].partition(":")
            if name.strip():
                listed[name.split()[0]] = deps.split()
    return {name: [it for it in deps if it in listed] for name, deps in listed.items()}


def below(crates, name):
    """What a crate stands on, directly or not, and itself."""
    found, left = set(), [name]
    while left:
        crate = left.pop()
        if crate not in found:
            found.add(crate)
            left += crates[crate]
    return found


def lines_of(name):
    """The lines of a crate's code, and of its proofs and definitions."""
    code = proofs = 0
    for part in ("src", "specs", "proofs"):
        for folder, _, files in os.walk(f"{TOP}/crates/{name}/{part}"):
            for it in files:
                with open(f"{folder}/{it}", encoding="utf-8", errors="replace") as file:
                    lines = sum(1 for _ in file)
                code, proofs = (code + lines, proofs) if it.endswith(".rt") else (code, proofs + lines)
    return code, proofs


def memory_free():
    """Megabytes."""
    with open("/proc/meminfo", encoding="ascii") as file:
        return int(re.search(r"MemAvailable:\s+(\d+)", file.read())[1]) // 1024


def link(one, other):
    """Gives a file, or each file of a folder, a second name, in the place of what had it."""
    if os.path.isdir(one):
        shutil.rmtree(other, ignore_errors=True)
        shutil.copytree(one, other, copy_function=link_file)
    else:
        if os.path.exists(other):
            os.remove(other)
        link_file(one, other)


def link_file(one, other):
    try:
        os.link(one, other)
    except OSError:
        shutil.copy2(one, other)


class Lane:
    """A checkout in which one crate at a time is built."""

    def __init__(self, number, listed):
        self.top = f"{LANES}/{number}"
        self.has = set()
        os.makedirs(f"{self.top}/crates", exist_ok=True)
        for name in ("crates.txt", "HANDLES"):
            link(f"{TOP}/{name}", f"{self.top}/{name}")
        for crate in listed:
            for part in ("src", "specs", "proofs"):
                if os.path.isdir(f"{TOP}/crates/{crate}/{part}"):
                    link(f"{TOP}/crates/{crate}/{part}", f"{self.top}/crates/{crate}/{part}")

    def has_begun(self, name):
        """Whether a run that was stopped has left work on this crate here."""
        return os.path.isdir(f"{self.top}/crates/{name}/out/incremental")

    def take(self, name):
        """Takes the library of a crate, where it is built."""
        if name not in self.has and os.path.isdir(f"{TOP}/crates/{name}/out/rlib"):
            link(f"{TOP}/crates/{name}/out/rlib", f"{self.top}/crates/{name}/out/rlib")
            self.has.add(name)

    def give(self, name):
        """Gives the repository the library of a crate that was built here."""
        here, there = f"{self.top}/crates/{name}/out", f"{TOP}/crates/{name}/out"
        os.makedirs(there, exist_ok=True)
        link(f"{here}/rlib", f"{there}/rlib")
        if os.path.isdir(f"{here}/incremental"):
            shutil.rmtree(f"{there}/incremental", ignore_errors=True)
            shutil.move(f"{here}/incremental", f"{there}/incremental")
        self.has.add(name)


def told(seconds):
    return f"{seconds:.0f} s" if seconds < 120 else f"{seconds / 60:.0f} minutes"


class Build:
    """What is built, what is being built, and how long the rest is likely to take."""

    def __init__(self, crates, lanes, listed):
        self.crates, self.lanes = crates, lanes
        self.memory = SHARE * memory_free()
        self.weights, self.needs = {}, {}
        for name in crates:
            code, proofs = lines_of(name)
            self.weights[name] = code + START
            self.needs[name] = LEAST + (OF_CODE * code + OF_PROOFS * proofs) / 1000
        self.behind = {}
        for name in crates:
            self.chain(name)
        self.left = set(crates)
        self.idle = [Lane(number, listed) for number in range(lanes)]
        self.running, self.children, self.done = {}, {}, 0
        self.begun, self.worked, self.weight = time.time(), 0.0, 0.0
        self.failed, self.peak = None, 0
        self.changed = threading.Condition()

    def chain(self, name):
        """The weight of the longest chain of crates from this one up."""
        if name not in self.behind:
            above = [it for it, deps in self.crates.items() if name in deps]
            self.behind[name] = self.weights[name] + max((self.chain(it) for it in above), default=0)
        return self.behind[name]

    def next(self):
        """A crate that may be begun, and how many processors it may use. None where there is none now."""
        open_now = [it for it in self.left if it not in self.running and not any(dep in self.left for dep in self.crates[it])]
        open_now.sort(key=lambda it: -self.behind[it])
        idle = self.lanes - sum(jobs for jobs, _ in self.running.values())
        room = self.memory - sum(needs for _, needs in self.running.values())
        for at, name in enumerate(open_now):
            if idle > 0 and (self.needs[name] <= room or not self.running):
                # (of the processors that are idle it gets its share of the work that may be begun)
                share = self.weights[name] / sum(self.weights[it] for it in open_now[at:])
                most = 1 + int(max(0, room / self.needs[name] - 1) / 0.6)
                return name, max(1, min(round(idle * share), most, 4))
        return None

    def remaining(self):
        """Seconds that the rest is likely to take, by what went before."""
        pace = (self.worked + PACE * FIRST) / (self.weight + FIRST)
        still = sum(self.weights[it] for it in self.left)
        return pace * max(still / self.lanes, max((self.behind[it] for it in self.left), default=0) / 2)

    def run_rt(self, name, top, words):
        """Runs rt in a crate, and returns its status and what it used."""
        with open(f"{LOGS}/{name}.log", "wb") as log:
            child = subprocess.Popen(
                ["rt", *words],
                cwd=f"{top}/crates/{name}",
                stdout=log,
                stderr=subprocess.STDOUT,
                stdin=subprocess.DEVNULL,
                start_new_session=True,
            )
            self.children[name] = child.pid
            _, status, used = os.wait4(child.pid, 0)
        del self.children[name]
        return status, used

    def build(self, name, jobs, lane):
        """Builds one crate, and tells that."""
        start = time.time()
        if name == PROGRAM:
            status, used = self.run_rt(name, TOP, ["run", "--jobs", str(jobs), "--", "--version"])
        else:
            for it in below(self.crates, name):
                lane.take(it)
            status, used = self.run_rt(name, lane.top, ["lib", "--jobs", str(jobs)])
            if not status:
                lane.give(name)
        seconds, worked = time.time() - start, used.ru_utime + used.ru_stime
        with self.changed:
            del self.running[name]
            self.idle.append(lane)
            if status:
                self.failed = self.failed or name
                others = f", once these have ended: {' '.join(self.running)}" if self.running else ""
                print(f"{name} failed: out/logs/{name}.log has why. The build ends{others}", flush=True)
            else:
                self.left.discard(name)
                self.done += 1
                self.peak = max(self.peak, used.ru_maxrss // 1024)
                said = f"[{self.done} of {len(self.crates)}] {name}"
                if worked < BUILT:
                    print(f"{said} was built before", flush=True)
                else:
                    self.worked += worked
                    self.weight += self.weights[name]
                    rest = f", {told(self.remaining())} left" if self.left else ""
                    print(f"{said} {seconds:.0f} s{rest}", flush=True)
            self.changed.notify_all()

    def stop(self):
        """Ends what is running."""
        for child in list(self.children.values()):
            try:
                os.killpg(child, signal.SIGTERM)
            except OSError:
                pass

    def run(self):
        """Builds all, until one fails."""
        threads = []
        with self.changed:
            while self.left and not (self.failed and not self.running):
                ready = None if self.failed else self.next()
                if ready:
                    name, jobs = ready
                    self.running[name] = jobs, self.needs[name] * (1 + 0.6 * (jobs - 1))
                    lane = next((it for it in self.idle if it.has_begun(name)), self.idle[0])
                    self.idle.remove(lane)
                    thread = threading.Thread(target=self.build, args=(name, jobs, lane), daemon=True)
                    threads.append(thread)
                    thread.start()
                else:
                    self.changed.wait()
        for it in threads:
            it.join()


def finish(build):
    """Puts the program, and its SHA-256, where they are looked for."""
    shutil.rmtree(LANES, ignore_errors=True)
    made = f"{TOP}/crates/{PROGRAM}/out/{PROGRAM}"
    shutil.copy2(made, f"{OUT}/{PROGRAM}")
    with open(made, "rb") as file:
        digest = hashlib.sha256(file.read()).hexdigest()
    with open(f"{OUT}/{PROGRAM}.sha256", "w", encoding="ascii") as file:
        file.write(f"{digest}  {PROGRAM}\n")
    worked = resource.getrusage(resource.RUSAGE_CHILDREN)
    print(
        f"proved and built in {told(time.time() - build.begun)}, {(worked.ru_utime + worked.ru_stime) / 60:.0f} minutes of a processor; "
        f"the largest process took {build.peak:,} MB"
    )
    print(f"out/{PROGRAM}, SHA-256 {digest}")


def main():
    crates = read_crates()
    wanted = below(crates, PROGRAM)
    os.makedirs(LOGS, exist_ok=True)
    lanes = int(os.environ.get("RT_JOBS", "") or len(os.sched_getaffinity(0)))
    build = Build({it: deps for it, deps in crates.items() if it in wanted}, lanes, crates)
    print(f"{len(wanted)} crates, {lanes} side by side, {build.memory:,.0f} MB for them; stopped and begun again it goes on where it was", flush=True)
    signal.signal(signal.SIGTERM, signal.default_int_handler)
    try:
        build.run()
    except KeyboardInterrupt:
        build.stop()
        print("stopped: begun again it goes on where it was")
        return 130
    if build.failed:
        with open(f"{LOGS}/{build.failed}.log", encoding="utf-8", errors="replace") as log:
            print("".join(log.readlines()[-15:]), end="")
        print(f"{build.failed} isn't built: out/logs/{build.failed}.log has all that was said")
        return 1
    finish(build)
    return 0


if __name__ == "__main__":
    sys.exit(main())
