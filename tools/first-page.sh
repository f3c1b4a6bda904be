#!/usr/bin/env bash
# Runs the commands of the first page: `tools/first-page.sh PROGRAM`, where PROGRAM is lpd_server, built in whatever way. Those behind
# "Try it" run as they stand there, in a copy of what they name: one after another, where what stands behind a # has to be what they
# print, up to `, and`; and then pasted as one block into a shell at a terminal, which has a minute for them. Of those behind
# "Install it" the package is made of PROGRAM, and looked at in the place of its installation. The last line is 'N passed, M failed'.
set -u
top=$(cd "$(dirname "${BASH_SOURCE[0]}")/.." && pwd)
: "${1:?the program}"
program=$(realpath "$1")
room=$(mktemp -d) || exit 2
trap 'kill $(jobs -p) 2> /dev/null; rm -rf "$room"' EXIT
mkdir -p "$room/bin"
cp "$program" "$room/bin/lpd_server"
PATH=$room/bin:$PATH
passed=0
failed=0

# block WORD: the indented lines that follow the one which begins with this word.
block() {
    awk -v word="*$1" 'index($0, word) == 1 { on = 1; next } on && /^    / { print substr($0, 5); seen = 1; next } on && seen { exit }' "$top/README.md"
}

good() {
    passed=$((passed + 1))
}

bad() {
    failed=$((failed + 1))
    echo "README.md: $1"
}

# copy FOLDER: what the commands name.
copy() {
    mkdir -p "$1/docs"
    cp "$top/README.md" "$1"
    cp "$top/docs/example.toml" "$1/docs"
    cd "$1" || exit 2
}

# Installing: the build is passed over, and apt looks at the package alone.
sudo() { "$@"; }
apt() { dpkg-deb --field "$2" Package; }
if command -v dpkg-shlibdeps > /dev/null && git clone -q "$top" "$room/clone" 2> /dev/null; then
    mkdir -p "$room/clone/out"
    cp "$program" "$room/clone/out/lpd_server"
    # (what isn't committed yet, too)
    cp -r "$top/tools" "$top/packaging" "$top/docs" "$top/README.md" "$room/clone/"
    cd "$room/clone" || exit 2
    while read -r line; do
        case $line in *tools/build.sh) continue ;; esac
        if [ "$(eval "$line" 2> "$room/why")" = hurgwaye ]; then good; else bad "$line: $(cat "$room/why")"; fi
    done < <(block "Install it")
else
    echo "the package isn't made: that takes dpkg-dev, and a clone"
fi

# Trying it, line by line.
copy "$room/lines"
number=0
while read -r line; do
    number=$((number + 1))
    wanted=
    case $line in *" # "*) wanted=$(echo "${line##* \# }" | sed 's/^ *//; s/,.*//') ;; esac
    said=$room/said-$number
    case $line in
    *"&")
        # What runs on says what it says later.
        eval "${line%&} > $said 2>&1 &"
        serving=$said
        continue
        ;;
    esac
    eval "${line% \# *}" > "$said" 2>&1 || { bad "$line: $(cat "$said")"; continue; }
    case $line in wait*) cat "$serving" >> "$said" ;; esac
    # (E, and numbers like it, are any)
    if [ -z "$wanted" ] || grep -qE "^$(echo "$wanted" | sed 's/\bE\b/[0-9]+/g')" "$said"; then good; else bad "$line: it said $(cat "$said")"; fi
done < <(block "Try it")

# Trying it, pasted.
copy "$room/pasted"
{ block "Try it"; echo exit; } | timeout 60 script -qefc "bash --norc --noprofile -i" /dev/null > "$room/pasted-said" 2>&1
ended=$?
if [ $ended = 0 ] && grep -q "sent 001" "$room/pasted-said" && grep -q "closed entries" "$room/pasted-said" && cmp -s printer-1 README.md; then
    good
else
    bad "pasted as a block it ended with $ended (124 is after a minute), and said $(cat "$room/pasted-said")"
fi
echo "$passed passed, $failed failed"
[ "$failed" -eq 0 ] && [ "$passed" -gt 0 ]
