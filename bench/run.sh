#!/usr/bin/env bash
# Measures speed: run it on an idle machine. The numbers are printed, and nothing is tested. Each measurement is a run of its
# own, since what one asks of memory would change what the next one finds.
set -eu
tools=$(cd "$(dirname "${BASH_SOURCE[0]}")/../tools" && pwd)
for word in audit banker chains core shared session trims world; do
    bash "$tools/beside.sh" bench run -- "$word"
done
