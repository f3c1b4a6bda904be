#!/usr/bin/env bash
# Two programs in turns, on an idle machine: `bash bench/turns.sh OLD NEW [TURNS]`, each a file of the program; ten turns where none is said.
# 8 clients send jobs of 1 KiB, first to a server of one queue whose account is rotated, then to one of 64 queues with 16 printers each, whose
# account has room for all of them. A line for each run, and at last the medians of new / old. CLIENT names what sends (bench/load.c, built),
# JOBS how many jobs a run has.
set -eu
top=$(cd "$(dirname "${BASH_SOURCE[0]}")/.." && pwd)
old=${1:?the older program} new=${2:?the newer program} turns=${3:-10}
room=$(mktemp -d)
trap '[ "$BASHPID" != $$ ] || { kill $(jobs -p) 2> /dev/null; rm -rf "$room"; }' EXIT
client=${CLIENT:-$room/load}
[ -n "${CLIENT:-}" ] || cc -O2 -pthread -o "$client" "$top/bench/load.c"
# (a server with 1,024 printers has as many files open)
ulimit -n 4096
for printer in $(seq 1024); do ln -s /dev/null "$room/printer-$printer"; done

# configure LIMIT QUEUES PRINTERS: the first queue is `lp`, and each has so many printers.
configure() {
    printf 'pages = 16384\npage_size = 4096\nmax_jobs = 1024\naccount = 16000000\n'
    for queue in lp $(seq -f 'q%.0f' 2 "$2"); do printf '[[queue]]\nname = "%s"\nlimit = %s\nprinters = %s\n' "$queue" "$1" "$3"; done
}
configure 4 1 1 > "$room/one.toml"
configure 1 64 16 > "$room/many.toml"

# take LABEL PROGRAM NAME JOBS WORD..: the jobs a second that a server of this program with these words takes.
take() {
    local label=$1 program=$2 name=$3 jobs=$4
    shift 4
    "$program" serve "$room/$name.toml" --port 5150 --out "$room" --sessions 8 "$@" > "$room/said" 2>> "$room/log" &
    local serving=$! line
    for _ in $(seq 200); do [ -s "$room/said" ] && break; sleep 0.05; done
    line=$("$client" load 5150 8 "$jobs" 1024)
    kill "$serving"
    wait "$serving" 2> /dev/null || true
    echo "turn $turn, $name, $label: $line"
    echo "$line" | grep -o '[0-9.,]* jobs a second' | tr -d ', a-z' >> "$room/$name-$label"
    sleep "${REST:-2}"
}

median() { sort -g | awk '{ a[NR] = $1 } END { print (a[int((NR + 1) / 2)] + a[int(NR / 2) + 1]) / 2 }'; }

# Each comes first as often as last.
for turn in $(seq "$turns"); do
    for row in "one ${JOBS:-40000} --rotate 1000" "many ${JOBS:-20000}"; do
        read -r name jobs words <<< "$row"
        # shellcheck disable=SC2086
        if [ $((turn % 2)) = 1 ]; then
            take old "$old" "$name" "$jobs" $words
            take new "$new" "$name" "$jobs" $words
        else
            take new "$new" "$name" "$jobs" $words
            take old "$old" "$name" "$jobs" $words
        fi
    done
done
for name in one many; do
    echo "$name, new / old: $(paste "$room/$name-new" "$room/$name-old" | awk '{ print $1 / $2 }' | median)"
done
[ ! -s "$room/log" ] || { echo "$(wc -l < "$room/log") warnings, the first:"; head -1 "$room/log"; }
