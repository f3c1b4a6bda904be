#!/usr/bin/env bash
# How fast jobs are acknowledged that are kept in a folder (`--spool`), beside jobs in memory alone, in turns: a server of each sort gets
# jobs of 1 KiB from 8 and from 32 clients, of 4 MiB and of 64 MiB from one. Beside them stands a loop in C that keeps files as the
# server does, in as many threads: it creates each, writes it, syncs it, renames it, and all threads share one sync of the folder.
# A line for each: jobs or files a second. The folder is made in the directory that ROOM names, on whose disk all depends, or else in
# /var/tmp. `bash bench/keeping.sh 5` takes five turns; SERVER and CLIENT name other programs than those that are built here.
set -eu
top=$(cd "$(dirname "${BASH_SOURCE[0]}")/.." && pwd)
turns=${1:-3}
server=${SERVER:-$top/out/lpd_server}
client=${CLIENT:-$(bash "$top/tools/beside.sh" bench path)/out/bench}
room=$(mktemp -d -p "${ROOM:-/var/tmp}")
trap '[ "$BASHPID" != $$ ] || { kill $(jobs -p) 2> /dev/null; rm -rf "$room"; }' EXIT

cat > "$room/keep.c" << 'END'
#include <fcntl.h>
#include <pthread.h>
#include <stdio.h>
#include <stdlib.h>
#include <string.h>
#include <sys/stat.h>
#include <time.h>
#include <unistd.h>

static const char *folder;
static int folder_file, stop, is_leading;
static long octets, begun, ended, syncs, next_number, kept[256];
static double synced[256];
static char page[1 << 20];
static pthread_mutex_t lock = PTHREAD_MUTEX_INITIALIZER;
static pthread_cond_t changed = PTHREAD_COND_INITIALIZER;

static double now(void) {
    struct timespec t;
    clock_gettime(CLOCK_MONOTONIC, &t);
    return t.tv_sec + t.tv_nsec / 1e9;
}

/* One sync of the folder serves all that asked before it began. */
static void sync_names(void) {
    pthread_mutex_lock(&lock);
    long wanted = begun + 1;
    while (ended < wanted) {
        if (is_leading) {
            pthread_cond_wait(&changed, &lock);
            continue;
        }
        long mine = ++begun;
        is_leading = 1;
        pthread_mutex_unlock(&lock);
        if (fsync(folder_file)) exit(1);
        pthread_mutex_lock(&lock);
        is_leading = 0;
        ended = mine;
        syncs++;
        pthread_cond_broadcast(&changed);
    }
    pthread_mutex_unlock(&lock);
}

static void *keep(void *which) {
    long me = (long)which;
    char hidden[4096], name[4096];
    while (!__atomic_load_n(&stop, __ATOMIC_RELAXED)) {
        long number = __sync_fetch_and_add(&next_number, 1), left = octets;
        snprintf(hidden, sizeof hidden, "%s/%ld.partial", folder, number);
        snprintf(name, sizeof name, "%s/%ld.job", folder, number);
        int file = open(hidden, O_WRONLY | O_CREAT | O_EXCL | O_APPEND, 0600);
        while (left > 0) {
            long piece = left < 4096 ? left : 4096;
            if (write(file, page, piece) != piece) exit(1);
            left -= piece;
        }
        double before = now();
        if (fdatasync(file)) exit(1);
        synced[me] += now() - before;
        close(file);
        if (rename(hidden, name)) exit(1);
        sync_names();
        unlink(name);
        kept[me]++;
    }
    return 0;
}

/* keep FOLDER THREADS SECONDS OCTETS */
int main(int n, char **w) {
    if (n != 5) return 2;
    folder = w[1];
    long threads = atol(w[2]), files = 0;
    octets = atol(w[4]);
    if (mkdir(folder, 0700)) return 1;
    folder_file = open(folder, O_RDONLY);
    pthread_t each[256];
    double start = now(), waited = 0;
    for (long i = 0; i < threads; i++) pthread_create(&each[i], 0, keep, (void *)i);
    usleep(atof(w[3]) * 1e6);
    __atomic_store_n(&stop, 1, __ATOMIC_RELAXED);
    for (long i = 0; i < threads; i++) pthread_join(each[i], 0);
    double took = now() - start;
    for (long i = 0; i < threads; i++) files += kept[i], waited += synced[i];
    printf("%.1f files a second, %.2f ms a sync of a file, %.1f files a sync of the folder\n", files / took, waited / files * 1e3, (double)files / syncs);
    return 0;
}
END
cc -O2 -pthread -o "$room/keep" "$room/keep.c"
ln -s /dev/null "$room/printer-1"

# configure NAME PAGES LIMIT
configure() {
    printf 'pages = %s\npage_size = 4096\nmax_jobs = 1024\naccount = 4000000\n[[queue]]\nname = "lp"\nlimit = %s\nprinters = 1\n' "$2" "$3" > "$room/$1.toml"
}
configure small 4096 4
configure middle 16384 1025
configure large 65536 16385

# serve LABEL NAME CONNECTIONS JOBS OCTETS WORD..: what a server with these words acknowledges.
serve() {
    local label=$1 name=$2 connections=$3 jobs=$4 octets=$5
    shift 5
    "$server" serve "$room/$name.toml" --port 5150 --out "$room" --sessions 32 --keep-room "$@" > "$room/said" 2>> "$room/log" &
    local serving=$!
    for _ in $(seq 100); do [ -s "$room/said" ] && break; sleep 0.05; done
    echo "turn $turn, $label: $("$client" load 5150 "$connections" "$jobs" "$octets" || true)"
    # The printer has all jobs before the next server is measured.
    sleep 1
    kill "$serving"
    wait "$serving" 2> /dev/null || true
}

for turn in $(seq "$turns"); do
    for load in "small 8 ${SMALL:-4000} 1024" "small 32 ${SMALL:-4000} 1024" "middle 1 64 4194304" "large 1 8 67108864"; do
        read -r name connections jobs octets <<< "$load"
        serve memory "$name" "$connections" "$jobs" "$octets"
        serve spool "$name" "$connections" "$jobs" "$octets" --spool "$room/kept"
        rm -rf "$room/kept"
        echo "turn $turn, loop in C: $connections threads, $octets octets: $("$room/keep" "$room/kept" "$connections" 3 "$octets")"
        rm -rf "$room/kept"
        sleep "${REST:-5}"
    done
done
[ ! -s "$room/log" ] || { echo "$(wc -l < "$room/log") warnings, the first:"; head -1 "$room/log"; }
