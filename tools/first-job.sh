#!/usr/bin/env bash
# The first job, from a clone: `tools/first-job.sh [TO]`. Makes the program without its proofs, has it run a job from its standard input,
# and then has a server print a file that was sent to it. It ends by itself and leaves nothing behind, but for the program where TO names
# a file for it. PORT says at which port the server listens, 5150 if nothing does.
set -eu
top=$(cd "$(dirname "${BASH_SOURCE[0]}")/.." && pwd)
port=${PORT:-5150}
keep=${1:+$(realpath -m "$1")}

fail() {
    echo "tools/first-job.sh: $*" >&2
    exit 2
}

command -v rt > /dev/null || fail "rt, the command of the Rattle toolchain, isn't on the path: README.md says what it is"
command -v python3 > /dev/null || fail "python3 isn't on the path: install Python 3"
[[ $port =~ ^[0-9]+$ ]] && [ "$port" -ge 1 ] && [ "$port" -le 65535 ] || fail "PORT is '$port', and no port from 1 to 65535"
is_taken() { (exec 3<> "/dev/tcp/127.0.0.1/$port") 2> /dev/null; }
! is_taken || fail "something listens at port $port already: name another, as PORT=5151 bash tools/first-job.sh"

room=$(mktemp -d)
server=
trap '[ -z "$server" ] || kill "$server" 2> /dev/null || true; rm -rf "$room"' EXIT
program=$room/lpd_server

# show WORD..: a command of the program, as one types it, and what it prints.
show() {
    echo "  \$ lpd_server $*"
    "$program" "$@" | sed 's/^/    /'
}

echo "1. The program, compiled and not proved"
bash "$top/tools/program.sh" "$program"

echo
echo "2. A job from a script: eleven octets, into a spool with pages of eight"
echo "  \$ lpd_server < crates/lpd_server/stdin"
"$program" < "$top/crates/lpd_server/stdin" | sed 's/^/    /' > "$room/said"
cat "$room/said"
echo "  1: is what the client is answered: five zero octets, one for each part that was taken."
echo "  printer 1: is what is printed, a page a line, in hexadecimal: $(sed -n 's/.* place [0-9]* //p' "$room/said" |
    python3 -c 'import sys; print(" and ".join("`" + bytes.fromhex(line.strip()).decode() + "`" for line in sys.stdin))')."

echo
echo "3. A server, and a job over the network"
cd "$room"
cp "$top/docs/example.toml" "$top/README.md" .
show check example.toml
echo "  \$ lpd_server serve example.toml --port $port --connections 2 &"
"$program" serve example.toml --port "$port" --connections 2 > "$room/served" 2> "$room/log" &
server=$!
until grep -q '^listening ' "$room/served"; do
    kill -0 "$server" 2> /dev/null || fail "the server ended: $(cat "$room/log")"
    sleep 0.1
done
show send "$port" lp 1 myhost ann README.md
show state "$port" lp
wait "$server"
server=
sed 's/^/    /' "$room/served"
cmp printer-1 README.md || fail "the file printer-1 isn't what was sent"
echo "  The file printer-1 is what was sent, octet for octet: $(stat -c %s printer-1) octets."

if [ -n "$keep" ]; then
    cp "$program" "$keep"
    echo
    echo "The program, unproved, is $keep."
fi
echo
echo "Nothing else is left of it. What to try next:"
echo "  bash tools/first-job.sh ./lpd_server   keeps the program; then ./lpd_server --help"
echo "  bash tools/build.sh                    proves the program and builds it"
echo "  bash .ci/run                           every proof and test"
echo "  docs/OPERATING.md                      from the first queue to a full disk"
