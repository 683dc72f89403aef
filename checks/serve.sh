#!/bin/sh
# The workbench in a browser, by clients that do not behave, and where something fails on its own side. The pictures that Chromium makes
# are left in the folder that is named first, or in a new one, to be looked at; COUNT is how many requests the clients make.
#
# usage: checks/serve.sh [FOLDER [COUNT]]
top=$(CDPATH='' cd -- "$(dirname -- "$0")/.." && pwd -P) || exit 1
# shellcheck source=checks/common.sh
. "$top/checks/common.sh"
[ $# -le 2 ] || wrong_arguments "unexpected argument $3"
folder=${1-$(mktemp -d)}
mkdir -p "$folder" || exit 1
export PYTHONDONTWRITEBYTECODE=1
failed=0
"$top/checks/serve.py" "$folder" || failed=1
"$top/checks/panels.py" "$folder" || failed=1
"$top/checks/serve_faults.py" || failed=1
"$top/checks/clients.py" "${2-10000}" || failed=1
echo "pictures in $folder"
exit "$failed"
