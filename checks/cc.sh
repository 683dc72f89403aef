#!/bin/bash
# C programs on the pipeline against the same programs under qemu-mips: the examples of examples/c at five levels of
# optimization, the library's own tests of checks/cc, and random programs. Of each the console and the status
# of `meaning`, of `run`, and of `run` under 200 random interrupts have to be what the native program gives. Where an example
# has a file NAME.out, which the host's gcc gave, the native program has to give that too.
#
#   checks/cc.sh [DRAWN] [NAME ..]     DRAWN random programs (100), the examples that are named (all)
#
# Random programs are those of csmith, or where it or its headers are missing those of checks/random_c.py.
# It needs the Debian packages gcc-mips-linux-gnu and qemu-user, and two programs, which are
# the proved ones that ./mx builds unless the environment names others:
#   MX_RUN   the simulator:   MX_RUN run FILE .., MX_RUN meaning FILE ..
#   MX_CC    the translator:  MX_CC FILE.s .. -o OUT.s
# CC_JOBS says how many programs are tried side by side (2).
top=$(CDPATH='' cd -- "$(dirname -- "$0")/.." && pwd) || exit 1
export MX_RUN=${MX_RUN:-$top/crates/mx_run/out/mx_run}
export MX_CC=${MX_CC:-$top/crates/mx_cc/out/mx_cc}
for program in mips-linux-gnu-gcc qemu-mips python3; do
    if ! command -v "$program" >/dev/null; then
        echo "skipped: $program is missing: apt-get install gcc-mips-linux-gnu qemu-user python3"
        exit 77
    fi
done
for program in "$MX_RUN" "${MX_CC%% *}"; do
    if ! command -v "$program" >/dev/null; then
        echo "skipped: $program is not built: ./mx prove mx_run mx_cc builds it, and MX_RUN and MX_CC may name those of .mx"
        exit 77
    fi
done
exec python3 "$top/checks/cc.py" "$@"
