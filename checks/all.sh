#!/bin/sh
# Runs all checks side by side, and ends with 1 where one fails: usage and what each compares are in checks/all.py and checks/README.md.
top=$(CDPATH='' cd -- "$(dirname -- "$0")/.." && pwd -P) || exit 1
if ! command -v python3 >/dev/null 2>&1 || ! python3 -c 'import sys; sys.exit(sys.version_info < (3, 9))'; then
    echo 'skipped: all checks: Python 3.9 or later is missing'
    exit 0
fi
exec python3 -B "$top/checks/all.py" "$@"
