#!/usr/bin/env bash
# Searches both models of the waiting line whole, and then with each of their faults. Status 1 where one of them isn't as the
# README tells.
set -u
cd "$(dirname "${BASH_SOURCE[0]}")" || exit 2
failed=0
for sizes in "1 3" "2 3" "3 3"; do python3 sessions.py $sizes || failed=1; done
for sizes in "1 3" "2 3" "3 3" "4 4"; do python3 printers.py $sizes || failed=1; done
for model in sessions printers; do
    for fault in $(python3 -c "import $model; print(*$model.FAULTS)"); do python3 "$model.py" 3 3 "$fault" || failed=1; done
done
rm -rf __pycache__
exit $failed
