#!/usr/bin/env bash
# Runs all rows and tests by `rt try`, and each program on its stored run: what is compiled is run, and nothing is proved. It says
# where `rt version` is none of the kits that the README names, and on standard error which crate has ended; then comes what failed, and
# a line for each crate. The last line is 'N passed, M failed', where a stored run counts as one, and so do docs/TRUSTED.md, which must
# not be stale, the names and options that documents and comments tell of, which must be there, the rooms of crates.txt, the types of the
# edits of crates that changed (as against the commit BASE, or else the last one but one), the commands of the first page, and each scene
# of tools/scenes in its short form, but for those that measure time or memory; the exit status is 0 only where none failed. As many
# crates are tried at a time as there are processors, or as RT_JOBS says; each takes up to 2 GB of memory.
set -u
cd "$(dirname "${BASH_SOURCE[0]}")/.." || exit 2
echo "tests by rt try: nothing is proved here (bash .ci/run proves)"
here=$(rt version)
if ! grep -qF "\`$here" README.md; then
    echo "the kit here is $here, and README.md names others: $(grep -o 'rattle-kit-[^`]*' README.md | paste -sd, | sed 's/,/, /g')"
fi

folder=$(mktemp -d) || exit 2
trap 'rm -rf "$folder"' EXIT
passed=0
failed=0
lanes=${RT_JOBS:-$(nproc)}
running=0
for check in "tools/trusted.py --check" tools/documents.py tools/rooms.py; do
    # shellcheck disable=SC2086
    if python3 $check; then
        passed=$((passed + 1))
    else
        failed=$((failed + 1))
    fi
done

# Edits of crates that differ from the commit BASE, or else from the last one but one, have to be well typed. (Elsewhere than in a git checkout none is looked at.)
changed=$(git diff --name-only "${BASE:-HEAD~1}" -- crates 2> "$folder/git" | cut -d/ -f2 | sort -u)
if [ -n "$changed" ]; then
    echo "the types of the edits of: $changed" | tr '\n' ' ' >&2
    # shellcheck disable=SC2086
    if python3 tools/edit_types.py $changed; then
        passed=$((passed + 1))
    else
        failed=$((failed + 1))
    fi
fi

# Crates beside the gate are tried in a copy of the repository, in which they are crates as others.
copy=$(dirname "$(BESIDE_COPY=$folder/copy bash tools/beside.sh test_surface path)") || exit 2

# start LABEL CRATE WORDS..: tries a crate beside others, on the standard input of its stored run, if it has one.
start() {
    local label=$1 crate=$2 input=/dev/null
    shift 2
    if [ "$running" -ge "$lanes" ]; then
        wait -n
        running=$((running - 1))
    fi
    [ -f "$copy/$crate/stdin" ] && input=stdin
    (
        begun=$SECONDS
        cd "$copy/$crate" && rt try "$@" < "$input" > "$folder/$label.out" 2> "$folder/$label.err"
        echo $? > "$folder/$label.status"
        echo "[$(find "$folder" -maxdepth 1 -name '*.status' | wc -l) of $all] $label, $((SECONDS - begun)) s" >&2
    ) &
    running=$((running + 1))
}

# add LABEL GOOD BAD: adds what a crate came to, and says so. Where its run failed in another way, that is one more that is bad.
add() {
    local label=$1 good=$2 bad=$3
    if [ "$(cat "$folder/$label.status")" -ne 0 ] && [ "$bad" -eq 0 ]; then
        bad=1
        tail -n 5 "$folder/$label.err"
    fi
    echo "$label: $good passed, $bad failed"
    passed=$((passed + good))
    failed=$((failed + bad))
}

with_tests=$(grep -rl '^ *#\[test\]' crates/*/src beside/*/src | cut -d/ -f2 | sort -u)
programs=$(for file in crates/*/stdout beside/*/stdout; do basename "$(dirname "$file")"; done)
all=$(echo $with_tests $programs | wc -w)
echo "$all crates, $lanes at a time, in some five minutes where four processors are idle; then the first page and the scenes, in ten more" >&2
for crate in $with_tests; do
    start "$crate tests" "$crate" --test
done
for crate in $programs; do
    words=()
    for file in "$copy/$crate"/data/*; do
        [ -e "$file" ] && words+=(--data "$(basename "$file")=data/$(basename "$file")")
    done
    [ -f "$copy/$crate/args" ] && words+=(--) && mapfile -t -O ${#words[@]} words < "$copy/$crate/args"
    start "$crate" "$crate" ${words[@]+"${words[@]}"}
done
wait

for crate in $with_tests; do
    label="$crate tests"
    cat "$folder/$label.out" "$folder/$label.err" > "$folder/said"
    grep '^test .* \.\.\. ' "$folder/said" | grep -v ' ok$'
    read -r good bad < <(sed -n 's/^test result: .* \([0-9]*\) passed; \([0-9]*\) failed.*/\1 \2/p' "$folder/said") || true
    add "$label" "${good:-0}" "${bad:-0}"
    unset good bad
done
for crate in $programs; do
    out=$folder/$crate.out
    if [ -d "$copy/$crate/data" ]; then
        # A line for each group says how many rows it has, and one before it names each row that is answered otherwise.
        bad=$(grep -c '^[a-z]*, row [0-9]*: ' "$out")
        good=$(awk '/^[a-z]*: [0-9]* rows$/ { rows += $2 } END { print rows + 0 }' "$out")
        grep -vxFf "$copy/$crate/stdout" "$out"
        add "$crate" $((good - bad)) "$bad"
    elif cmp -s "$copy/$crate/stdout" "$out"; then
        add "$crate" 1 0
    else
        diff "$copy/$crate/stdout" "$out" | head -n 5
        add "$crate" 0 1
    fi
done
# The commands of the first page, by the program, and the scenes in their short form.
if bash tools/program.sh "$folder/lpd_server" && bash tools/first-page.sh "$folder/lpd_server"; then
    passed=$((passed + 1))
    CHECKED=1 bash tools/scenes.sh --short "$folder/lpd_server" > "$folder/scenes"
    grep ': FAILED: ' "$folder/scenes"
    read -r good bad < <(sed -n '$s/^\([0-9]*\) passed, \([0-9]*\) failed$/\1 \2/p' "$folder/scenes") || true
    echo "scenes: ${good:-0} passed, ${bad:-1} failed"
    passed=$((passed + ${good:-0}))
    failed=$((failed + ${bad:-1}))
else
    failed=$((failed + 1))
fi
echo "$passed passed, $failed failed"
[ "$failed" -eq 0 ]
