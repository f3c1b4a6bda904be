#!/usr/bin/env bash
# Has sessions and printers send, cut off, print, fail and remove at random for so many seconds (60, or the first word;
# the second is the seed), checks all that they leave, and prints what happened. The status is 1 where something is wrong.
set -eu
bash "$(dirname "${BASH_SOURCE[0]}")/../tools/beside.sh" test_soak run -- "${1:-60}" "${2:-1}"
