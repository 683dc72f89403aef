#!/bin/bash
# C programs: how many statements the translation of each example of examples/c executes at -O2 for each MIPS instruction that
# qemu-mips executes of the same C, and the time and the memory of a translation to nearly 20,000 statements:
#     bench/c.sh [NAME ..]     the examples that are named, else all
# Both counts are of the very assembly that gcc writes for a program and the library of lib: one of its translation, by `meaning`,
# and one as the assembler of MIPS-I takes it, by a plugin of qemu-mips (mips_count.c) which tells no-ops apart. It needs the
# packages gcc-mips-linux-gnu and qemu-user, and the programs that checks/cc.sh takes, by MX_RUN and MX_CC.
top=$(CDPATH='' cd -- "$(dirname -- "$0")/.." && pwd) || exit 1
export MX_RUN=${MX_RUN:-$top/crates/mx_run/out/mx_run}
export MX_CC=${MX_CC:-$top/crates/mx_cc/out/mx_cc}
for program in mips-linux-gnu-gcc qemu-mips cc python3 "$MX_RUN" "${MX_CC%% *}"; do
    if ! command -v "$program" >/dev/null; then
        echo "bench/c.sh: $program is missing" >&2
        exit 1
    fi
done
exec python3 "$top/bench/c.py" "$@"
