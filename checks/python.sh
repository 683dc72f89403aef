#!/bin/bash
# The module for Python: what it does where programs refuse, hang or are none (checks/python_module.py); then it is installed by pip
# into a fresh environment, without the network, and tried there against the library for C and the laboratory's program
# (checks/python_uses.py), and the study of examples/embed/study.py.
#
# usage: checks/python.sh [LIBRARY [LAB]]    LIBRARY is a file libzanderanvil.so, LAB the laboratory's program, or ./mx. Without them
# the library is in the folder MX_EMBED, or has to be proved here, and LAB is MX_LAB, or ./mx; where it is not proved, what needs it
# is left out, which is said.
top=$(cd -- "$(dirname -- "$0")/.." && pwd) || exit 1
[ $# -le 2 ] || { echo 'usage: checks/python.sh [LIBRARY [LAB]]' >&2; exit 2; }
folder=$(mktemp -d) || exit 1
trap 'rm -rf "$folder"' EXIT
library=${1-${MX_EMBED:+$MX_EMBED/libzanderanvil.so}}
lab=${2:-${MX_LAB:-$top/mx}}

"$top/checks/python_module.py" | tee "$folder/said"
[ "${PIPESTATUS[0]}" -eq 0 ] || exit 1
compared=$(sed -n 's/^python_module: compared \([0-9]*\) .*/\1/p' "$folder/said")

# a Python that has Debian's distributed, where one has it
python=python3
for it in python3 /usr/bin/python3; do
    if "$it" -c 'import distributed, ensurepip' 2>/dev/null; then
        python=$it
        break
    fi
done
if ! "$python" -c 'import ensurepip, setuptools, wheel' 2>/dev/null; then
    echo 'skipped: pip, setuptools or wheel is missing, so nothing was installed'
    echo "python: compared $compared results"
    exit 0
fi
# pip builds beside what it reads, so it gets a copy
cp -rL "$top/python" "$folder/python" \
    && "$python" -m venv --system-site-packages "$folder/venv" \
    && "$folder/venv/bin/pip" install --quiet --no-index --no-build-isolation "$folder/python" || exit 1
cd "$folder" || exit 1
version=$("$folder/venv/bin/python" -c 'import zanderanvil; print(zanderanvil.__version__)') || exit 1
where=$("$folder/venv/bin/python" -c 'import os, zanderanvil as it; print(os.path.exists(os.path.join(os.path.dirname(it.__file__), "py.typed")))')
if [ "$version" != "$(cat "$top/VERSION")" ] || [ "$where" != True ]; then
    echo "FAILED: the installed module has version $version, and py.typed: $where"
    exit 1
fi
echo "ok: pip installs the module, with its types and version $version"
compared=$((compared + 1))

if [ -z "$library" ] && python3 -E -s -B "$top/build/state.py" proved embed_library; then
    "$top/mx" library "$folder/lib" || exit 1
    library=$folder/lib/libzanderanvil.so
fi
if [ -z "$library" ]; then
    echo 'skipped: the library is not proved here, so nothing was held against it'
    echo "python: compared $compared results"
    exit 0
fi
"$folder/venv/bin/python" "$top/checks/python_uses.py" "$library" "$lab" | tee said
[ "${PIPESTATUS[0]}" -eq 0 ] || exit 1
compared=$((compared + $(grep -c '^ok' said)))

"$folder/venv/bin/python" "$top/examples/embed/study.py" "$lab" "$top/examples/full_slots.s" study.svg >study || exit 1
cat study
if ! grep -q '^own .* 15 ' study || ! grep -q '<svg' study.svg; then
    echo 'FAILED: the study'
    exit 1
fi
echo "ok: the study prints its own scheduler's 15 cycles"
echo "python: compared $((compared + 1)) results"
