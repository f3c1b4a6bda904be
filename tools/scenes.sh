#!/usr/bin/env bash
# Runs the scenes of tools/scenes: `tools/scenes.sh [--short] [PROGRAM [NAME..]]`, of the program that is built (out/lpd_server) where none is
# named, and of all scripts or those named, as `keeping`. In the short form each script takes a minute at most: fewer jobs, kills and
# entries, and without the scenes that take longer. What a script prints is printed; the last line is 'N passed, M failed', and the status
# is 0 only where none failed.
set -u
cd "$(dirname "${BASH_SOURCE[0]}")/.." || exit 2
short=
if [ "${1:-}" = --short ]; then
    short=1
    shift
fi
program=${1:-out/lpd_server}
[ -x "$program" ] || { echo "tools/scenes.sh: $program isn't there: bash tools/build.sh builds it, bash tools/program.sh TO makes it with no proof" >&2; exit 2; }
[ $# -eq 0 ] || shift
names=("$@")
if [ ${#names[@]} -eq 0 ]; then
    for file in tools/scenes/*.py; do
        name=$(basename "$file" .py)
        case $name in client | scene) ;; *) names+=("$name") ;; esac
    done
fi
passed=0
failed=0
for name in "${names[@]}"; do
    begun=$SECONDS
    last=
    while IFS= read -r line; do
        echo "$name: $line"
        last=$line
    done < <(SHORT=$short python3 "tools/scenes/$name.py" "$program" 2>&1)
    if [[ $last =~ ^([0-9]+)\ passed,\ ([0-9]+)\ failed$ ]]; then
        passed=$((passed + BASH_REMATCH[1]))
        failed=$((failed + BASH_REMATCH[2]))
    else
        failed=$((failed + 1))
    fi
    echo "$name: $((SECONDS - begun)) s"
done
echo "$passed passed, $failed failed"
[ "$failed" -eq 0 ]
