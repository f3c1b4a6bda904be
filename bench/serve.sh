#!/usr/bin/env bash
# Loads the server over loopback: jobs of 1 KiB from 1, 8 and 32 connections at once, of 4 MiB and of 64 MiB; beside it, in
# the same run, a server that takes the same octets and keeps nothing. A line for each: jobs and octets a second, and how
# much processor time the server took a job. The server's printers write to /dev/null, and its account is rotated after so
# many connections that it is never full.
#
# Then two series of rows, each the best of three runs: idle printers, which get no job, and a small pool, in which jobs wait
# for pages. No account is rotated in them: a job reserves 200 times its queue's limit and 112 entries, and each account holds
# all jobs of a run.
set -eu
top=$(cd "$(dirname "${BASH_SOURCE[0]}")/.." && pwd)
bash "$top/tools/build.sh"
bash "$top/tools/beside.sh" bench run -- count
server=$top/out/lpd_server
client=$(bash "$top/tools/beside.sh" bench path)/out/bench

# A server with 1,024 printers has as many files open.
ulimit -n 4096
room=$(mktemp -d)
# (a child that is killed before it becomes the program runs the trap too)
trap '[ "$BASHPID" != $$ ] || { kill $(jobs -p) 2> /dev/null; rm -rf "$room"; }' EXIT
for printer in $(seq 1024); do
    ln -s /dev/null "$room/printer-$printer"
done

# configure PAGES ACCOUNT LIMIT QUEUES PRINTERS: the first queue is `lp`, and each has so many printers.
configure() {
    printf 'pages = %s\npage_size = 4096\nmax_jobs = 1024\naccount = %s\n' "$1" "$2"
    for queue in lp $(seq -f 'q%.0f' 2 "$4"); do
        printf '[[queue]]\nname = "%s"\nlimit = %s\nprinters = %s\n' "$queue" "$3" "$5"
    done
}

# Waits until something listens at a port.
await() {
    for _ in $(seq 100); do
        (exec 3<> "/dev/tcp/127.0.0.1/$1") 2> /dev/null && return
        sleep 0.1
    done
    echo "nothing listens at port $1" >&2
    exit 1
}

# start NAME SESSIONS WORD..: a server of the configuration of this name, with these words.
start() {
    "$server" serve "$room/$1.toml" --port 5150 --out "$room" --sessions "${@:2}" > "$room/said" 2> "$room/log" &
    serving=$!
    await 5150
}

stop() {
    kill "$serving"
    wait "$serving" 2> /dev/null || true
    [ ! -s "$room/log" ] || echo "$(wc -l < "$room/log") warnings, the first: $(head -1 "$room/log")"
}

# The processor time that a process took, in milliseconds.
milliseconds() {
    awk -v tick="$(getconf CLK_TCK)" '{ print ($14 + $15) * 1000 / tick }' "/proc/$1/stat"
}

# measure PID PORT CONNECTIONS JOBS OCTETS: `line` is what the client prints, `used` the milliseconds of processor a job.
measure() {
    local before
    before=$(milliseconds "$1")
    # (it says how many jobs were taken)
    line=$("$client" load "$2" "$3" "$4" "$5") || true
    used=$(awk -v before="$before" -v after="$(milliseconds "$1")" -v jobs="$4" \
        'BEGIN { printf "%.3f", (after - before) / jobs }')
}

configure 4096 4000000 4 1 1 > "$room/small.toml"
configure 16384 4000000 1025 1 1 > "$room/middle.toml"
configure 65536 4000000 16385 1 1 > "$room/large.toml"
"$client" discard 5151 32 &
discarding=$!
await 5151
# The account is rotated after so many connections, before it is full.
for load in "small 1 2000 1024 1000" "small 8 8000 1024 1000" "small 32 8000 1024 1000" "middle 1 64 4194304 16" "large 1 8 67108864 1"; do
    read -r name connections jobs octets every <<< "$load"
    start "$name" 32 --rotate "$every"
    measure "$serving" 5150 "$connections" "$jobs" "$octets"
    printf '%-8s %s, %s ms of processor a job\n' server "$line" "$used"
    stop
    measure "$discarding" 5151 "$connections" "$jobs" "$octets"
    printf '%-8s %s, %s ms of processor a job\n' discards "$line" "$used"
done

# series CONNECTIONS JOBS OCTETS SESSIONS NAME..: a line for each configuration, the best of three runs. They take turns, row
# by row and round after round. The share is that of the first row of the same round. Each connection leaves a socket in
# TIME_WAIT for a minute, and with some 100,000 of them any server falls to some 300 jobs a second: so no more than 40,000 jobs
# are sent in a minute.
series() {
    local connections=$1 jobs=$2 octets=$3 sessions=$4
    shift 4
    : > "$room/runs"
    for round in 1 2 3; do
        for name in "$@"; do
            sleep "$(awk -v jobs="$jobs" 'BEGIN { print jobs * 60 / 40000 }')"
            start "$name" "$sessions"
            measure "$serving" 5150 "$connections" "$jobs" "$octets"
            echo "$round $name $used $line" >> "$room/runs"
            stop
        done
    done
    # (the client's line: JOBS jobs of OCTETS octets, CONNECTIONS at once, TAKEN taken: RATE jobs a second, ..)
    awk '
        !($1 in first) { first[$1] = $14 }
        !($2 in best) { names[++count] = $2; best[$2] = -1 }
        $12 != $4 { lost[$2] += $4 - $12 }
        $14 > best[$2] { best[$2] = $14; used[$2] = $3; share[$2] = $14 / (first[$1] > 0 ? first[$1] : 1) }
        END {
            for (i = 1; i <= count; i++) {
                name = names[i]
                printf "%-14s %d jobs a second, %s ms of processor a job, %.2f of the first", name, best[name], used[name], share[name]
                print (name in lost ? ", " lost[name] " jobs not taken" : "")
            }
        }' "$room/runs"
}

# The sockets of the loads above go.
sleep 60
# Idle printers: all jobs go to the queue `lp`, which prints nearly all of them on its first printers. 8,000 jobs reserve
# 2,496,000 entries.
idle=()
for size in "1 1" "1 16" "16 1" "64 1" "64 4" "64 16"; do
    read -r queues printers <<< "$size"
    configure 16384 4000000 1 "$queues" "$printers" > "$room/${queues}x$printers.toml"
    idle+=("${queues}x$printers")
done
echo "idle printers, queues x printers of each: 8 clients, jobs of 1,000 octets"
series 8 "${JOBS:-8000}" 1000 32 "${idle[@]}"

# A small pool: each job claims 64 pages and needs 49. 640 jobs reserve 8,263,680 entries, and 130 more 1,678,560.
pools=()
for pages in 16384 1024 256; do
    configure "$pages" 16000000 64 1 1 > "$room/$pages-pages.toml"
    pools+=("$pages-pages")
done
echo "a small pool: 64 clients, jobs of 200,000 octets, limit 64 pages"
series 64 "${JOBS:-640}" 200000 64 "${pools[@]}"
