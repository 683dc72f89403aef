#!/bin/sh
# Installs the Debian packages that checks need, and prints which. Without them checks are skipped (checks/all.sh).
#
# usage: checks/tools.sh [--print]      --print installs nothing
packages='bash-completion binutils build-essential chromium csmith fish gcc-mips-linux-gnu gtkwave libcsmith-dev mypy pyflakes3
    python3-distributed python3-ipykernel python3-jsonschema python3-nbclient python3-nbformat python3-pip python3-venv python3-yaml
    qemu-user shellcheck valgrind zsh'
case $#,${1-} in
    0,) ;;
    1,--print) ;;
    *)
        echo "tools.sh: unexpected argument $1" >&2
        exit 2
        ;;
esac
# those that are not installed yet
missing=
for it in $packages; do
    case $(dpkg-query -W -f '${db:Status-Status}' "$it" 2>/dev/null) in
        installed) ;;
        *) missing="$missing $it" ;;
    esac
done
if [ -z "$missing" ]; then
    echo 'all packages are installed'
    exit 0
fi
echo "packages:$missing"
[ "${1-}" != --print ] || exit 0
if ! command -v apt-get >/dev/null 2>&1; then
    echo 'tools.sh: apt-get is missing: install these packages, or what they are called here, yourself' >&2
    exit 1
fi
if [ "$(id -u)" -ne 0 ]; then
    echo "tools.sh: run it as root, or type: sudo apt-get install$missing" >&2
    exit 1
fi
# shellcheck disable=SC2086
apt-get update && DEBIAN_FRONTEND=noninteractive apt-get install --yes --no-install-recommends $missing
