#!/usr/bin/env bash
# What looking costs those who send: jobs of 1 KiB from 8 clients to a server whose page and measures are read each second, beside one that
# has none, and beside that a second one that has none, in turns. `bash bench/watched.sh 10` takes ten. A line for each, and at last the medians
# of the ratios. SERVER and CLIENT name other programs than those that are built here.
set -eu
top=$(cd "$(dirname "${BASH_SOURCE[0]}")/.." && pwd)
turns=${1:-10}
jobs=${JOBS:-20000}
server=${SERVER:-$top/out/lpd_server}
client=${CLIENT:-$(bash "$top/tools/beside.sh" bench path)/out/bench}
room=$(mktemp -d)
trap '[ "$BASHPID" != $$ ] || { kill $(jobs -p) 2> /dev/null; rm -rf "$room"; }' EXIT
ln -s /dev/null "$room/printer-1"
printf 'pages = 4096\npage_size = 4096\nmax_jobs = 1024\naccount = 4000000\n[[queue]]\nname = "lp"\nlimit = 4\nprinters = 1\n' > "$room/spool.toml"

# Reads the page and the measures each second, until it is killed.
watch() {
    while true; do
        for path in / /metrics; do
            exec 3<> /dev/tcp/127.0.0.1/5151
            printf 'GET %s HTTP/1.0\r\n\r\n' "$path" >&3
            cat <&3 > /dev/null
            exec 3>&-
        done
        sleep 1
    done
}

# take LABEL WORD..: the jobs a second that a server with these words takes; it is watched where it has a word.
take() {
    local label=$1 watching=
    shift
    "$server" serve "$room/spool.toml" --port 5150 --out "$room" --sessions 8 --keep-room "$@" > "$room/said" 2>> "$room/log" &
    local serving=$!
    for _ in $(seq 100); do [ -s "$room/said" ] && break; sleep 0.05; done
    if [ $# -gt 0 ]; then watch & watching=$!; fi
    local line
    line=$("$client" load 5150 8 "$jobs" 1024)
    [ -z "$watching" ] || { kill "$watching"; wait "$watching" 2> /dev/null || true; }
    kill "$serving"
    wait "$serving" 2> /dev/null || true
    echo "turn $turn, $label: $line"
    echo "$line" | grep -o '[0-9.,]* jobs a second' | tr -d ', a-z' >> "$room/$label"
}

for turn in $(seq "$turns"); do
    # Each comes first as often as last.
    if [ $((turn % 2)) = 1 ]; then take none; take watched --status 5151; take again; else take again; take watched --status 5151; take none; fi
    sleep "${REST:-2}"
done
median() { sort -g | awk '{ a[NR] = $1 } END { print (a[int((NR + 1) / 2)] + a[int(NR / 2) + 1]) / 2 }'; }
echo "watched / none: $(paste "$room/watched" "$room/none" | awk '{ print $1 / $2 }' | median), none again / none: $(paste "$room/again" "$room/none" | awk '{ print $1 / $2 }' | median)"
[ ! -s "$room/log" ] || { echo "$(wc -l < "$room/log") warnings, the first:"; head -1 "$room/log"; }
