#!/usr/bin/env bash
# Refuses each allocation of `read` of spool_config in turn, one run for each (`rt try --fail-alloc N`, half a minute a run). Each run
# has to end with Memory (status 12): a line is printed for each that ends otherwise, and the status is 0 only where there is none. It
# stands beside the gate, in a copy of the repository, and proves nothing.
#
#     tools/refuse-reading.sh [FIRST [LAST]]    # these alone, by their numbers
set -eu
top=$(cd "$(dirname "${BASH_SOURCE[0]}")/.." && pwd)
copy=$(mktemp -d)
trap 'rm -rf "$copy"' EXIT
tar -C "$top" --exclude='./crates/*/out' --exclude=./.git -cf - . | tar -C "$copy" -xf -
mkdir -p "$copy/crates/refuse_reading/src"
cp "$top/tools/refuse-reading/main.rattle" "$copy/crates/refuse_reading/src/main.rt"
echo "refuse_reading: spool_config config_values" >> "$copy/crates.txt"
cd "$copy/crates/refuse_reading"

# More than there are: nothing is refused, and the run tells how many there are.
said=$(rt try --fail-alloc 100000 2>&1)
count=$(sed -n 's/^allocations: //p' <<< "$said")
first=${1:-1} last=${2:-$count} failed=0
for ((n = first; n <= last && n <= count; n++)); do
    status=0
    rt try --fail-alloc "$n" > said 2>&1 || status=$?
    if [ "$status" -ne 12 ]; then
        echo "allocation $n: status $status"
        failed=$((failed + 1))
    fi
done
echo "allocations $first to $last of $count: $failed otherwise than Memory"
[ "$failed" -eq 0 ]
