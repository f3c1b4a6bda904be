#!/usr/bin/env bash
# How fast a printer on the network and a folder are printed to, beside what the system makes of it: in turns, a loop in C that connects
# to a sink, writes 1 KiB, ends sending and waits for the end; a server whose printer is that sink; a loop in C that keeps 1 KiB in a
# folder as the server does (a hidden file, synced, linked, unlinked, the folder synced); and servers whose printer is a folder, and a
# file. A server prints bursts of a thousand jobs that it holds: their queue is held while they come, and released then. A line for each:
# jobs a second. `bash bench/printers.sh 5` takes five turns; SERVER and CLIENT name other programs than those that are built here.
set -eu
top=$(cd "$(dirname "${BASH_SOURCE[0]}")/.." && pwd)
turns=${1:-3}
server=${SERVER:-$top/out/lpd_server}
client=${CLIENT:-$(bash "$top/tools/beside.sh" bench path)/out/bench}
room=$(mktemp -d)
trap '[ "$BASHPID" != $$ ] || { kill $(jobs -p) 2> /dev/null; rm -rf "$room"; }' EXIT

cat > "$room/loops.c" << 'END'
#include <arpa/inet.h>
#include <fcntl.h>
#include <netinet/tcp.h>
#include <signal.h>
#include <stdio.h>
#include <stdlib.h>
#include <string.h>
#include <sys/socket.h>
#include <time.h>
#include <unistd.h>

static double now(void) {
    struct timespec t;
    clock_gettime(CLOCK_MONOTONIC, &t);
    return t.tv_sec + t.tv_nsec / 1e9;
}

static struct sockaddr_in at(int port) {
    struct sockaddr_in a = {.sin_family = AF_INET, .sin_port = htons(port)};
    a.sin_addr.s_addr = htonl(INADDR_LOOPBACK);
    return a;
}

static double first, last;
static long taken;

static void say(int signal) {
    (void)signal;
    printf("%.0f\n", taken / (last - first));
    fflush(stdout);
    _exit(0);
}

/* sink PORT: takes connections, and once it is told to end says how many a second came, from the first to the last. */
static void sink(int port) {
    struct sockaddr_in a = at(port);
    int one = 1, s = socket(AF_INET, SOCK_STREAM, 0);
    char b[65536];
    setsockopt(s, SOL_SOCKET, SO_REUSEADDR, &one, sizeof one);
    if (bind(s, (void *)&a, sizeof a) || listen(s, 64)) exit(1);
    signal(SIGTERM, say);
    for (;; taken++) {
        int c = accept(s, 0, 0);
        if (taken == 0) first = now();
        while (read(c, b, sizeof b) > 0) {}
        close(c);
        last = now();
    }
}

/* loop PORT COUNT: as many connections, one after another, with 1 KiB each. */
static void loop(int port, long count) {
    struct sockaddr_in a = at(port);
    char b[1024] = {0};
    int one = 1;
    for (long n = 0; n < count; n++) {
        int c = socket(AF_INET, SOCK_STREAM, 0);
        setsockopt(c, IPPROTO_TCP, TCP_NODELAY, &one, sizeof one);
        if (connect(c, (void *)&a, sizeof a) || write(c, b, sizeof b) != sizeof b) exit(1);
        shutdown(c, SHUT_WR);
        while (read(c, b, sizeof b) > 0) {}
        close(c);
    }
}

/* keep FOLDER SECONDS: keeps 1 KiB again and again, and says how often a second. */
static void keep(const char *folder, double seconds) {
    char hidden[4096], name[4096], b[1024] = {0};
    double start = now();
    long n = 0;
    for (; now() - start < seconds; n++) {
        snprintf(hidden, sizeof hidden, "%s/.job-%ld", folder, n);
        snprintf(name, sizeof name, "%s/job-%010ld", folder, n);
        int f = open(hidden, O_WRONLY | O_CREAT | O_EXCL, 0640);
        if (write(f, b, sizeof b) != sizeof b || fdatasync(f) || link(hidden, name) || unlink(hidden)) exit(1);
        close(f);
        int d = open(folder, O_RDONLY);
        if (fsync(d)) exit(1);
        close(d);
    }
    printf("%.0f\n", n / (now() - start));
}

int main(int n, char **w) {
    if (n == 3 && !strcmp(w[1], "sink")) sink(atoi(w[2]));
    else if (n == 4 && !strcmp(w[1], "loop")) loop(atoi(w[2]), atol(w[3]));
    else if (n == 4 && !strcmp(w[1], "keep")) keep(w[2], atof(w[3]));
    else return 2;
    return 0;
}
END
cc -O2 -o "$room/loops" "$room/loops.c"
printf 'pages = 16384\npage_size = 4096\nmax_jobs = 1024\naccount = 16000000\n[[queue]]\nname = "lp"\nlimit = 4\nprinters = 1\n' > "$room/spool.toml"

# start WORD..: a server whose printer is told by these words.
start() {
    "$server" serve "$room/spool.toml" --port 5150 --out "$room" --sessions 8 --keep-room --control "$room/control" "$@" > "$room/said" 2>> "$room/log" &
    serving=$!
    for _ in $(seq 100); do [ -s "$room/said" ] && break; sleep 0.05; done
}

say() {
    "$server" control "$room/control" "$@"
}

stop() {
    say stop
    wait "$serving"
}

# Waits until the server holds no job.
await_none() {
    while say status > "$room/status"; do
        grep -q '^job' "$room/status" || return 0
        sleep 0.02
    done
}

# hold: a thousand jobs of 1 KiB come, and none is printed yet.
hold() {
    say hold lp
    "$client" load 5150 8 1000 1024 > "$room/load" || true
}

# timed: jobs a second, from the release of a thousand until none is held.
timed() {
    local before after
    hold
    before=$(date +%s.%N)
    say release lp
    await_none
    after=$(date +%s.%N)
    awk -v before="$before" -v after="$after" 'BEGIN { printf "%.0f\n", 1000 / (after - before) }'
}

for turn in $(seq "$turns"); do
    "$room/loops" sink 5151 > "$room/rate" & sinking=$!
    sleep 0.2
    "$room/loops" loop 5151 30000
    kill "$sinking"; wait "$sinking"
    echo "turn $turn: a loop in C to a sink $(cat "$room/rate")"
    start --printer 1=socket://127.0.0.1:5151
    for burst in 1 2 3; do
        hold
        "$room/loops" sink 5151 > "$room/rate" & sinking=$!
        sleep 0.2
        say release lp
        await_none
        kill "$sinking"; wait "$sinking"
        echo "turn $turn: a server whose printer is that sink $(cat "$room/rate")"
    done
    stop
    mkdir "$room/kept" "$room/jobs"
    echo "turn $turn: a loop in C that keeps $("$room/loops" keep "$room/kept" 3)"
    start --printer "1=folder:$room/jobs"
    echo "turn $turn: a server whose printer is a folder $(timed)"
    stop
    rm -rf "$room/kept" "$room/jobs"
    start --printer 1=file:/dev/null
    echo "turn $turn: a server whose printer is a file $(timed)"
    stop
done
[ ! -s "$room/log" ] || { echo "$(wc -l < "$room/log") warnings, the first:"; head -1 "$room/log"; }
