#!/bin/bash
# The library for C and Python: compiles examples/embed/run.c, calls the library at the edges of its buffers and in threads with the
# stack that the header promises to be enough, and gives every case of crates/test_command_cases to it, which has to answer as the
# case says. A case that names more files than the library holds is left out, and counted.
#
# usage: checks/embed.sh [FOLDER]     FOLDER is what ./mx library left, as the environment's MX_EMBED. Without it the library has to
# be proved here, and is put together; where it is not, this is skipped (status 77).
top=$(cd -- "$(dirname -- "$0")/.." && pwd) || exit 1
[ $# -le 1 ] || { echo 'usage: checks/embed.sh [FOLDER]' >&2; exit 2; }
[ $# -eq 1 ] || set -- "${MX_EMBED-}"
folder=$(mktemp -d) || exit 1
trap 'rm -rf "$folder"' EXIT
failures=0
compared=0

# tell OUTCOME NAME: prints whether a test held, where its outcome is 0
tell() {
    compared=$((compared + 1))
    if [ "$1" -eq 0 ]; then
        echo "ok: $2"
    else
        echo "FAILED: $2"
        failures=$((failures + 1))
    fi
}

command -v cc >/dev/null 2>&1 || { echo 'skipped: a C compiler is missing'; exit 77; }
if [ -n "$1" ]; then
    if [ ! -f "$1/libzanderanvil.so" ] || [ ! -f "$1/zanderanvil.h" ]; then
        echo "$1: no library is there" >&2
        exit 2
    fi
    library=$(cd -- "$1" && pwd) || exit 1
elif python3 -E -s -B "$top/build/state.py" proved embed_library; then
    "$top/mx" library "$folder/lib" || exit 1
    library=$folder/lib
else
    echo 'skipped: the library is not proved here (./mx library DIR proves it)'
    exit 77
fi
cd "$folder" || exit 1
strict=(-std=c11 -Wall -Wextra -Werror "-I$library")

cc "${strict[@]}" -std=c99 "$top/examples/embed/run.c" "$library/libzanderanvil.a" -o run && ./run >out && cmp -s out "$top/crates/mx_run/stdout"
tell $? 'run.c prints the report of hello.s'

cc "${strict[@]}" "$top/examples/embed/run.c" -L"$library" -lzanderanvil -Wl,-rpath,"$library" -o shared && ./shared >out \
    && cmp -s out "$top/crates/mx_run/stdout" && LC_ALL=C readelf -d shared | grep -q 'NEEDED.*\[libzanderanvil.so.1\]'
tell $? 'linked with the shared library, by its soname'

[ "$(nm -D --defined-only "$library/libzanderanvil.so" | awk '{ print $3 }')" = zanderanvil_command ]
tell $? 'the shared library has one name'

for optimized in -O0 -O2; do
    cc "${strict[@]}" "$optimized" "$top/checks/embed_edges.c" "$library/libzanderanvil.a" -o edges && ./edges >out
    tell $? "the edges of both buffers ($optimized): $(tail -n 1 out)"
done
cc "${strict[@]}" -DPLANTED "$top/checks/embed_edges.c" "$library/libzanderanvil.a" -o planted && ! ./planted >out && grep -q '^FAILED' out
tell $? "a store of one byte after a buffer is seen: $(head -n 1 out)"

python3 -c 'import sys; sys.stdout.write("".join(f"L{i}: add r{i % 30 + 1},r{(i + 7) % 30 + 1},r{(i + 11) % 30 + 1}\n" for i in range(20000)) + "L: halt\n")' >long.s
cc "${strict[@]}" -pthread "$top/checks/embed_stack.c" "$library/libzanderanvil.a" -o stack && ./stack "$top"/examples/*.s long.s >out
tell $? "the stack: $(tail -n 1 out)"

printf '#include <zanderanvil.h>\nint main() { return (int)zanderanvil_ask("run").source.length + ZANDERANVIL_VERSION - 1000; }\n' >header.cc
c++ -Wall -Wextra -Werror "-I$library" -c header.cc -o header.o
tell $? 'the header as C++'

python3 "$top/examples/embed/run.py" "$library/libzanderanvil.so" "$top/examples/countdown.s" >out
tell $? "run.py: $(head -n 1 out)"

python3 "$top/checks/embed_cases.py" "$library/libzanderanvil.so" | tee out
[ "${PIPESTATUS[0]}" -eq 0 ]
tell $? 'the cases'
cases=$(awk '/ agree/ { sum += $4 } END { print sum + 0 }' out)

if [ "$failures" -ne 0 ] || [ "$cases" -eq 0 ]; then
    echo "embed: $failures of $compared failed, with $cases cases"
    exit 1
fi
echo "embed: compared $((compared + cases)) results"
