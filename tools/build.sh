#!/usr/bin/env bash
# Proves the program and builds it: `tools/build.sh`. It goes lowest crate first, as many side by side as processors and memory allow (or
# RT_JOBS), tells each as it is built and about how long the rest takes, and goes on where it was stopped. The program is out/lpd_server
# then, with out/lpd_server.sha256 beside it; what was said of each crate is in out/logs/.
set -eu
top=$(cd "$(dirname "${BASH_SOURCE[0]}")/.." && pwd)
command -v rt > /dev/null || { echo "tools/build.sh: rt, the command of the Rattle toolchain, isn't on the path: see README.md" >&2; exit 2; }
command -v python3 > /dev/null || { echo "tools/build.sh: python3 isn't on the path: install Python 3" >&2; exit 2; }
exec python3 "$top/tools/build.py"
