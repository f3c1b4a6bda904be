#!/usr/bin/env bash
# Tries the edits of crates/NAME/more-edits/, which the gate leaves out, in a copy of the repository: each has to be
# refused by the prover. Without names it tries those of all crates. It prints a line for each edit that was not refused and for
# each crate, and how many were; its exit status is 0 only where all were.
#
# What was refused is kept, by a checksum of all that the check read: the edit, the crate and those below it, and the toolchain.
# It isn't tried again while these stay the same, so a run that was stopped is gone on with by calling it again. The checksums are
# kept in the file EDITS_KEPT names, or in ~/.cache/hurgwaye/more-edits. What the prover said of each is appended to the file
# EDITS_LOG names, where that is set: so it can be seen where each was refused.
#
# The first edit of a crate takes as long as the whole proof of the crate, and each further one 10 to 100 seconds. So all
# 700 would take some eight hours of one processor, as reckoned from those that were tried: name the crates that changed. Several
# runs may stand beside each other, with other names each.
#
# `tools/more-edits.sh --types [NAME..]` looks at their types alone, as tools/edit_types.py says: a crate in a minute or two.
#
# Most edits are refused by the check of their own crate. One with a line `check: OTHER` turns a definition that its own
# crate proves nothing about: it is refused where the check of the crate OTHER fails.
set -u
top=$(cd "$(dirname "${BASH_SOURCE[0]}")/.." && pwd)
if [ "${1:-}" = --types ]; then
    exec python3 "$top/tools/edit_types.py" "${@:2}"
fi
kept=${EDITS_KEPT:-$HOME/.cache/hurgwaye/more-edits}
mkdir -p "$(dirname "$kept")" && touch "$kept" || exit 2
copy=$(mktemp -d)
trap 'rm -rf "$copy"' EXIT
cp -a "$top/." "$copy/" || exit 2
cd "$copy" && mkdir sums || exit 2

names=("$@")
if [ ${#names[@]} -eq 0 ]; then
    for folder in crates/*/more-edits; do
        [ -d "$folder" ] && names+=("$(basename "$(dirname "$folder")")")
    done
fi

# How many edits are handed to the prover at once: what a run that is stopped loses.
AT_ONCE=6

# Prints, for each of a crate's edits, its checksum, its file and the crate whose check has to fail.
list() {
    python3 - "$1" "$(rt version)" <<'PYTHON'
import glob, hashlib, os, sys
name, version = sys.argv[1:]
lists = {}
for line in open("crates.txt", encoding="utf-8"):
    line = line.split("#")[0]
    if ":" in line:
        crate, below = line.split(":", 1)
        lists[crate.split()[0]] = below.split()

def below(crate, seen):
    for other in [crate, *lists.get(crate, [])]:
        if other in lists and other not in seen:
            seen.add(other)
            below(other, seen)
    return seen

def read_by(crate):
    total = hashlib.sha256(version.encode())
    for other in sorted(below(crate, set())):
        total.update(repr((other, lists[other])).encode())
        for part in ("src", "specs", "proofs"):
            for file in sorted(glob.glob(f"crates/{other}/{part}/**", recursive=True)):
                if os.path.isfile(file):
                    total.update(repr((file, open(file, "rb").read())).encode())
    return total

sums = {}
for edit in sorted(glob.glob(f"crates/{name}/more-edits/*.edit")):
    text = open(edit, encoding="utf-8").read()
    other = next((line[len("check: "):].strip() for line in text.split("\n") if line.startswith("check: ")), name)
    if other not in sums:
        sums[other] = read_by(other)
    total = sums[other].copy()
    total.update(read_by(name).digest())
    total.update(text.encode())
    print(total.hexdigest(), edit, other)
PYTHON
}

# Puts an edit's new texts in the place of its old ones.
apply() {
    python3 - "$1" "$2" <<'PYTHON'
import sys
crate, edit = sys.argv[1:]
file, old = None, None
for line in open(edit, encoding="utf-8").read().split("\n"):
    if line.startswith("file: "):
        file = crate + "/" + line[len("file: "):]
    elif line.startswith("old: "):
        old = line[len("old: "):]
    elif line.startswith("new:"):
        text = open(file, encoding="utf-8").read()
        if text.count(old) != 1:
            sys.exit(f"{edit}: an old text stands {text.count(old)} times")
        open(file, "w", encoding="utf-8").write(text.replace(old, line[len("new: "):]))
PYTHON
}

tried=0
refused=0

# Counts an edit as refused, and keeps that.
keep() {
    refused=$((refused + 1))
    echo "$1" >> "$kept"
}

# Tries an edit whose refusal is for another crate's check.
try_other() {
    local sum=$1 crate=$2 edit=$3 other=$4
    mkdir "$copy/kept" && cp -a "$crate/specs" "$crate/src" "$copy/kept/"
    if apply "$crate" "$edit" && ! (cd "crates/$other" && rt check > "$copy/log" 2>&1); then
        keep "$sum"
    else
        echo "not refused: ${edit#crates/}"
    fi
    rm -rf "$crate/specs" "$crate/src"
    mv "$copy/kept"/* "$crate/"
    rmdir "$copy/kept"
}

# Tries the edits that stand in must-fail/ of a crate, and takes them out.
try_own() {
    local name=$1 edit sum
    rt must-fail "$name" > "$copy/log" 2>&1
    [ -z "${EDITS_LOG:-}" ] || cat "$copy/log" >> "$EDITS_LOG"
    for edit in "crates/$name/must-fail"/*.edit; do
        sum=$(cat "$copy/sums/$(basename "$edit")")
        if grep "$(basename "$edit" .edit)\b" "$copy/log" | grep -q 'refused, as it must be'; then
            keep "$sum"
        else
            echo "not refused: $name/$(basename "$edit")"
            grep "$(basename "$edit" .edit)\b" "$copy/log" || tail -n 5 "$copy/log"
        fi
        rm "$edit"
    done
}

for name in "${names[@]}"; do
    crate=crates/$name
    before="$SECONDS $tried $refused"
    rm -rf "$crate/must-fail"
    mkdir "$crate/must-fail"
    own=0
    while read -r sum edit other; do
        tried=$((tried + 1))
        if grep -qxF "$sum" "$kept"; then
            refused=$((refused + 1))
        elif [ "$other" != "$name" ]; then
            try_other "$sum" "$crate" "$edit" "$other"
        else
            cp "$edit" "$crate/must-fail/"
            echo "$sum" > "$copy/sums/$(basename "$edit")"
            own=$((own + 1))
            [ $((own % AT_ONCE)) -eq 0 ] && try_own "$name"
        fi
    done < <(list "$name")
    [ $((own % AT_ONCE)) -ne 0 ] && try_own "$name"
    read -r began others good <<< "$before"
    echo "$name: $((refused - good)) of $((tried - others)) refused, in $((SECONDS - began)) s"
done

echo "$refused of $tried refused"
[ "$refused" -eq "$tried" ]
