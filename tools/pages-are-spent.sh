#!/usr/bin/env bash
# Shows that a page can't be copied, used twice or let go unspent: small crates that do so are given to the toolchain, which has
# to refuse each. A line for each; status 1 where one is answered otherwise. It proves nothing, and stands beside the gate: code
# that doesn't compile is no edit that a proof refuses. (That a page may be moved to another thread is seen from the tests.)
set -u
cd "$(dirname "${BASH_SOURCE[0]}")/.." || exit 2
folder=$(mktemp -d) || exit 2
trap 'rm -rf "$folder"' EXIT
mkdir -p "$folder/crates" || exit 2
(cd crates && tar cf - --exclude=out .) | tar xf - -C "$folder/crates" || exit 2
cp crates.txt HANDLES "$folder/"
echo "page_use: page_pool spool_calls" >> "$folder/crates.txt"
mkdir -p "$folder/crates/page_use/src"
failed=0

# NAME, the code that the toolchain has to say, and the crate's text
try() {
    printf '//! Uses of a page.\n#![tactic(auto)]\n\n%s\n' "$3" > "$folder/crates/page_use/src/lib.rt"
    told=$(cd "$folder/crates/page_use" && rt check --only "" 2>&1)
    status=$?
    if [ $status -ne 0 ] && grep -q "error\[$2\]" <<< "$told"; then
        echo "$1: refused, $2"
    else
        echo "$1: not refused by $2"; echo "$told" | tail -3; failed=1
    fi
}

for what in "PageTicket page_pool surrender()" "FilledPage page_pool unseal().surrender()" "HandedPage spool_calls surrender()"; do
    read -r type crate spent <<< "$what"
    use="use $crate::$type;"
    try "$type let go" linear-value-let-go "$use

pub fn let_go(page: $type) {
    let _page = page;
}"
    try "$type overwritten" linear-value-let-go "$use

pub fn overwritten(place: &mut $type, page: $type) {
    *place = page;
}"
    try "$type used twice" borrow-e0382 "$use

pub fn twice(page: $type) {
    page.$spent;
    page.$spent;
}"
    try "$type copied" unsupported-method "$use

pub fn copied(page: &$type) -> $type {
    page.clone()
}"
done
exit $failed
