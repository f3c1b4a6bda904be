#!/usr/bin/env bash
# Refuses each allocation of five scripts in turn, one run of the built program for each, with a line `pages` after each of
# the script's lines. A line for each script says how many allocations it takes, and how the runs ended:
#   fault   `fault 12 Memory`, after a beginning of what is printed where memory is ample
#   same    as where memory is ample
#   02      the first line that is printed otherwise is a session's, which wrote octet 02 and is over
#   other   otherwise: each of these is printed, and the exit status is 1
# In each run the four numbers of each line `pages` have to add up to the pages of the pool. It proves nothing. The program has
# to be built before: bash tools/build.sh.
set -u
cd "$(dirname "${BASH_SOURCE[0]}")/.." || exit 2
[ -x out/lpd_server ] || { echo "build the program first: bash tools/build.sh" >&2; exit 2; }
folder=$(mktemp -d) || exit 2
trap 'rm -rf "$folder"' EXIT
cat > "$folder/refuse.c" <<'C'
#define _GNU_SOURCE
#include <dlfcn.h>
#include <stdio.h>
#include <stdlib.h>
#include <sys/syscall.h>
#include <unistd.h>
static unsigned long taken, refused;
static void *(*real)(size_t);
__attribute__((constructor)) static void begin(void) {
    real = (void *(*)(size_t))dlsym(RTLD_NEXT, "malloc");
    refused = strtoul(getenv("REFUSED"), 0, 10);
    taken = 0;
}
void *malloc(size_t size) {
    if (!real) real = (void *(*)(size_t))dlsym(RTLD_NEXT, "malloc");
    taken += 1;
    return refused && taken == refused ? NULL : real(size);
}
__attribute__((destructor)) static void end(void) {
    unsigned long all = taken;
    FILE *file = fopen(getenv("TAKEN"), "w");
    if (file) {
        fprintf(file, "%lu\n", all);
        fclose(file);
    }
}
/* A program that ends by this runs no destructor. */
void _exit(int status) {
    refused = 0;
    end();
    syscall(SYS_exit_group, status);
    __builtin_unreachable();
}
C
gcc -shared -fPIC -O1 -o "$folder/refuse.so" "$folder/refuse.c" -ldl || exit 2
python3 - "$folder" "$@" <<'PYTHON'
import os, subprocess, sys
folder, titles = sys.argv[1], sys.argv[2:] or [
    "One job whole is printed.",
    "Two jobs on a connection, printed in order.",
    "A job is removed while a page of it is at a printer.",
    "The spool is closed.",
    "The state of a queue, short and long.",
]
PAGES = 4
config = open("crates/lpd_server/stdin", "rb").read().split(b"%%\n")[0] + b"%%\n"
rows = open("crates/test_calls/data/scripts.rows", "rb").read().split(b"====\n")

def script_of(title):
    for row in rows:
        head, rest = row.split(b"\n", 1)
        if head == b"# " + title.encode():
            return b"".join(line + b"\npages\n" for line in rest.split(b"----\n")[0].splitlines())
    sys.exit(f"no row has this title: {title}")

def run(given, refused):
    env = {"LD_PRELOAD": f"{folder}/refuse.so", "REFUSED": str(refused), "TAKEN": f"{folder}/taken"}
    open(f"{folder}/taken", "w").write("0")
    done = subprocess.run(["out/lpd_server"], input=given, capture_output=True, env=env, timeout=60)
    return done.stdout, done.stderr, done.returncode, int(open(f"{folder}/taken").read())

def add_up(printed):
    for line in printed.splitlines():
        words = line.split()
        if words[:1] == [b"pages"] and sum(int(word) for word in words[2::2]) != PAGES:
            return False
    return True

def kind(ample, ended):
    printed, told, status, _ = ended
    if not add_up(printed):
        return "other"
    if (printed, told, status) == ample[:3]:
        return "same"
    if told == b"fault 12 Memory\n" and status == 4 and ample[0].startswith(printed):
        return "fault"
    for now, then in zip(printed.splitlines(), ample[0].splitlines()):
        if now != then:
            octets = now.split(b": ")[-1]
            return "02" if octets.endswith(b"02 ended") else "other"
    return "other"

bad = 0
for title in titles:
    given = config + script_of(title)
    ample = run(given, 0)
    counts = {"fault": 0, "same": 0, "02": 0, "other": 0}
    for refused in range(1, ample[3] + 1):
        ended = run(given, refused)
        what = kind(ample, ended)
        counts[what] += 1
        if what == "other":
            bad += 1
            print(f"allocation {refused}: status {ended[2]}, {ended[1]!r}, {ended[0]!r}")
    print(f"{title} {ample[3]} allocations:", ", ".join(f"{n} {what}" for what, n in counts.items()), flush=True)
sys.exit(1 if bad else 0)
PYTHON
