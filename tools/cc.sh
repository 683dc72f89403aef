#!/bin/sh
# C programs, for ./mx:
#   tools/cc.sh TOP cc [options of gcc] FILE.c .. -o OUT.s             compiles, and translates to one source
#   tools/cc.sh TOP c [options] FILE.c .. [-- ARGUMENT ..]             compiles, and runs like the program itself
#   tools/cc.sh TOP library                                            compiles the library, and prints the folder that has it
# TOP is the repository's top folder. Files that end in .s are taken as assembly. ./mx is called for the programs mx_cc
# (as `./mx translate`) and mx_run; MX_FLAGS, if it is set, is put before their command, as --quick is. MX_LIBRARY names another
# folder than .mx for the compiled library. Where it cannot be written, the library is compiled for one use.
top=$1
kept=${MX_LIBRARY:-$top/.mx}     # where the compiled library is kept
gcc=mips-linux-gnu-gcc
use_cc='./mx cc [options of gcc] FILE.c .. -o OUT.s'
use_c='./mx c [options of gcc] FILE.c .. [--checked] [--input FILE] [--budget N] [--interrupts FILE] [--report[=FILE]] [-- ARGUMENT ..]'
# What --checked lets gcc test before each load and each store, with a trap where the test fails.
checks='-fsanitize=null
-fsanitize=alignment
-fsanitize-undefined-trap-on-error'
most_cycles=100000000       # the most that `run` takes
# A run prints its console when it has ended. So a long program runs anew for more and more cycles, and each time the console's new part is
# printed: after about a tenth of a second, a second, and at the end.
first_budgets='2000000
20000000'
most_input=1048576          # bytes
most_statements=20,000

# Whether a program is proved is not said where one is run like any other.
export MX_QUIET=1

# Says what is wrong in the form of all commands, and ends with a status.
fail() {
    echo "zanderanvil: error: $1" >&2
    exit "$2"
}

# A list has an item a line, since a name may have blanks and the signs of patterns.
line_feed='
'
IFS=$line_feed
set -f

# Compiles the file $1 to the assembly $2, with the options after them.
compile() {
    from=$1
    to=$2
    shift 2
    # shellcheck disable=SC2046
    "$gcc" -S $(cat "$top/lib/flags") -nostdinc -isystem "$top/lib/include" "$@" "$from" -o "$to"
}

# The names that the files of assembly define for others, sorted.
names_of() {
    LC_ALL=C awk '
        FNR == 1 { split("", global) }
        $1 == ".globl" || $1 == ".global" || $1 == ".weak" { global[$2] = 1 }
        $1 == ".comm" { split($2, part, ","); print part[1] }
        /^[A-Za-z_.$][A-Za-z0-9_.$]*:/ { name = $0; sub(/:.*/, "", name); if (name in global) print name }
    ' "$@" | LC_ALL=C sort -u
}

# Leaves the assembly of the library, compiled at -O2, in the folder $library. Its name is that of a checksum of all that it is made
# of, and it is renamed into its place when it is whole, so that two of these may work side by side.
compile_library() {
    sum=$({ find "$top/lib" -type f -print | LC_ALL=C sort | tr '\n' '\0' | xargs -0 cat; "$gcc" --version; cat "$0"; } | cksum | tr ' ' '-')
    library=$kept/library-$sum
    [ -d "$library" ] && return
    mkdir -p "$kept" 2>/dev/null
    new=$(mktemp -d "$kept/new-library-XXXXXX" 2>/dev/null) || new=$work/library
    mkdir -p "$new" || exit 10
    set +f
    for file in "$top"/lib/*.c; do
        compile "$file" "$new/$(basename "$file" .c).s" -O2 || exit 1
    done
    cp "$top"/lib/*.s "$new/" && names_of "$new"/*.s >"$new/names" || exit 10
    set -f
    chmod 755 "$new"
    case $new in
        "$work"/*) library=$new ;;
        *)
            # where another one was faster, its library is the same
            mv -T "$new" "$library" 2>/dev/null || rm -rf "$new"
            ;;
    esac
}

# Leaves the library for the names in the file $1, which the program defines itself, in the folder $library: what the library defines
# under such a name gets another one, so that the library goes on to call its own. Only of malloc and its like the program's take
# the place of the library's everywhere, since what one gives the other frees.
rename_library() {
    mkdir "$work/renamed" || exit 10
    set +f
    for file in "$library"/*.s; do
        LC_ALL=C awk -v list="$1" '
            BEGIN {
                while ((getline name <list) > 0) { taken[name] = 1 }
                everywhere = " malloc calloc realloc free aligned_alloc "
            }
            function renamed(text, all,    out, name) {
                out = ""
                while (match(text, /[A-Za-z_.$][A-Za-z0-9_.$]*/)) {
                    name = substr(text, RSTART, RLENGTH)
                    if (name in taken && (all || !index(everywhere, " " name " "))) name = "_library." name
                    out = out substr(text, 1, RSTART - 1) name
                    text = substr(text, RSTART + RLENGTH)
                }
                return out text
            }
            /^[A-Za-z_.$]/ { print renamed($0, 1); next }
            $1 ~ /^\.(ascii|asciz|string|file|loc|ident|section)$/ { print; next }
            $1 ~ /^\.(globl|global|weak|ent|end|type|size|comm|local)$/ { print renamed($0, 1); next }
            match($0, /^[ \t]*[^ \t]+[ \t]+/) { print substr($0, 1, RLENGTH) renamed(substr($0, RLENGTH + 1), 0); next }
            { print }
        ' "$file" >"$work/renamed/$(basename "$file")" || exit 10
    done
    set -f
    library=$work/renamed
}

# The assembly of the arguments that a program finds: their number and their bytes.
put_arguments() {
    printf '\t.data\n\t.globl\t_argument_count\n\t.align\t2\n_argument_count:\n\t.word\t%d\n' $#
    printf '\t.globl\t_arguments\n\t.align\t2\n_arguments:\n'
    number=0
    for word; do
        printf '\t.word\targument.%d\n' $number
        number=$((number + 1))
    done
    printf '\t.word\t0\n'
    number=0
    for word; do
        printf 'argument.%d:\n' $number
        printf '%s' "$word" | od -An -v -tu1 | tr -s ' ' "$line_feed" | sed -n 's/^[0-9][0-9]*$/\t.byte\t&/p'
        printf '\t.byte\t0\n'
        number=$((number + 1))
    done
}

# The place in C that the line $2 of the assembly $1 of a file comes from, or nothing where gcc names none, as of data.
place_in_c() {
    awk -v last="$2" '
        $1 == ".file" && $2 ~ /^[0-9]+$/ { name = $0; sub(/^[^"]*"/, "", name); sub(/"[^"]*$/, "", name); names[$2] = name }
        NR <= last && $1 ~ /^\.(text|s?data|rdata|s?bss|section|previous)$/ { place = "" }
        NR <= last && $1 == ".loc" { place = $2 " " $3 }
        END { if (split(place, it, " ")) print names[it[1]] ":" it[2] }' "$1"
}

# What C has that asks for the symbol which the fault $1 names, or nothing.
feature_of() {
    case $1 in
        *': _flush_cache' | *': __clear_cache') echo ', which a nested function needs whose address is taken: its code would be on the stack' ;;
        *': alloca') echo ', which alloca.h defines' ;;
        *': __sync_'* | *': __atomic_'*) echo ', which operations of several threads need' ;;
        *': __builtin_'*) echo ', which this gcc leaves to a library' ;;
    esac
}

# The fault $1, by the name of what C has that the line $2 of the assembly is part of, where it is known.
named_feature() {
    case $1,$2 in
        *': registers 1 and 22 to 28 are kept;'*,*w*[\$]2[23],*'('[\$][sf]p')') echo ' goto: out of a nested function, or __builtin_setjmp: it needs registers that are kept' ;;
        *) echo "$1" ;;
    esac
}

# Prints what $work/said has of a fault, by the names of the files as they were given, and by lines of C where they are C. In the
# folder of the work a file has its number as its name, and the assembly of a file in C has `.s` after it.
print_fault() {
    IFS=: read -r name line rest <"$work/said"
    number=0
    for file in $files; do
        number=$((number + 1))
        case $name in
            "$number")
                echo "$file:$line:$rest"
                return
                ;;
            "$number.s")
                place=$(place_in_c "$work/$name" "$line")
                rest=$(named_feature "$rest" "$(sed -n "${line}p" "$work/$name")")
                echo "${place:-$file}:$rest$(feature_of "$rest")"
                return
                ;;
        esac
    done
    cat "$work/said"
}

# Ends where the file $1 cannot be read, and says why.
need_file() {
    [ -e "$1" ] || fail "cannot read '$1': no such file" 4
    [ ! -d "$1" ] || fail "cannot read '$1': is a directory" 4
    [ -r "$1" ] || fail "cannot read '$1': permission denied" 4
}

# Compiles the files of the list $files at the level $level with the options of the list $options, and translates them with
# the library to $work/program. What follows are the arguments of the program.
translate() {
    for file in $files; do need_file "$file"; done
    names=
    number=0
    for file in $files; do
        number=$((number + 1))
        name=$number
        case $file in
            *.s) cp -- "$file" "$work/$name" || exit 4 ;;
            *)
                name=$name.s
                # shellcheck disable=SC2086
                compile "$file" "$work/$name" -g1 "$level" $options || exit 1
                ;;
        esac
        names=$names$line_feed$name
    done
    compile_library
    # shellcheck disable=SC2086
    (cd "$work" && names_of $names | LC_ALL=C comm -12 - "$library/names") >"$work/taken"
    [ -s "$work/taken" ] && rename_library "$work/taken"
    put_arguments "$@" >"$work/arguments"
    set +f
    # shellcheck disable=SC2086
    (cd "$work" && "$top/mx" ${MX_FLAGS-} translate $names arguments "$library"/*.s -o program) >"$work/said"
    status=$?
    set -f
    case $status in
        0) ;;
        1) print_fault >&2 ;;
        5) fail 'the folder for temporary files is full' 5 ;;
        *) cat "$work/said" >&2 ;;
    esac
    return $status
}

# Gives the file $1 what $work/program has: all of it, or nothing where it cannot be written.
deliver() {
    if [ -e "$1" ] && [ ! -f "$1" ]; then
        cat "$work/program" >"$1" || fail "cannot write '$1'" 5
        return
    fi
    whole=$(readlink -f -- "$1") || fail "cannot write '$1'" 5
    room=$(mktemp "$(dirname -- "$whole")/.mx-XXXXXX" 2>/dev/null) || fail "cannot write '$1'" 5
    if [ -e "$whole" ]; then
        if [ ! -w "$whole" ]; then
            rm -f "$room"
            fail "cannot write '$1'" 5
        fi
        chmod --reference="$whole" "$room"
    else
        chmod "$(printf %o $((0666 & ~0$(umask))))" "$room"
    fi
    if ! cat "$work/program" >"$room" 2>/dev/null || ! mv -f "$room" "$whole"; then
        rm -f "$room"
        fail "cannot write '$1'" 5
    fi
}

# How large the translation is: its last line says so.
print_size() {
    tail -n 1 "$work/program" | LC_ALL=C awk -v name="$1" -v most="$most_statements" '
        /^; [0-9]+ statements?, [0-9]+ instructions?, [0-9]+ data words?$/ {
            sub(/^; /, "")
            split($0, part, ", ")
            print "mx: " name ": " part[1] " of at most " most ", for " part[2] "; " part[3]
        }' >&2
}

# Reads an option of gcc that has the next word as its value. Answers whether it is one.
has_value() {
    case $1 in
        -I | -D | -U | -include | -imacros | -isystem | -idirafter | -iquote) return 0 ;;
        *) return 1 ;;
    esac
}

# Adds the option $1 of gcc.
add_option() {
    case $1 in
        -O | -O0 | -O1 | -O2 | -O3 | -Os | -Og | -Oz | -Ofast) level=$1 ;;
        -O*) fail "unknown level '$1': expected -O0, -O1, -O2, -O3, -Os, -Og or -Ofast" 2 ;;
        -E) preprocess=-E ;;
        -c | -S | -M | -MM | -MD | -MMD | -MF* | -shared | -static | -r | -save-temps* | -pipe | -o*)
            fail "option '$1' of gcc is not taken: ./mx cc writes a source, and -E preprocesses" 2
            ;;
        -l*) ;;
        *) options=$options$line_feed$1 ;;
    esac
}

# On a terminal, says every five seconds that the program is running, until it is ended.
tell_progress() {
    [ -t 2 ] || return 0
    (
        seconds=0
        while sleep 5; do
            seconds=$((seconds + 5))
            echo "mx: running for $seconds seconds" >&2
        done
    ) &
    progress=$!
}

# Ends what says that the program is running.
end_progress() {
    [ -z "$progress" ] || kill "$progress" 2>/dev/null
    progress=
}

# Runs the toolchain with the arguments that follow, until this shell ends.
toolchain() {
    if command -v setpriv >/dev/null 2>&1; then setpriv --pdeathsig TERM "$mx_run" "$@"; else "$mx_run" "$@"; fi
}

# Finds the console in the file $1: it has $count bytes, from byte $from on.
find_console() {
    at=$(LC_ALL=C grep -a -b -m 1 '^console [0-9][0-9]*$' "$1") || fail "$(head -n 1 "$1")" 10
    from=${at%%:*}
    header=${at#*:}
    count=${header#console }
    from=$((from + ${#header} + 2))
}

# Prints what this console has after its first $printed bytes.
print_console() {
    find_console "$1"
    tail -c "+$((from + printed))" "$1" | head -c "$((count - printed))" || exit 5
    printed=$count
}

# Leaves the report of the run without its console where the option --report says.
put_report() {
    find_console "$work/report"
    case $report in
        '') ;;
        -) { head -c "$((from - 1))" "$work/report"; tail -c "+$((from + count))" "$work/report"; } >&2 ;;
        *) cp "$work/report" "$report" || fail "cannot write '$report'" 5 ;;
    esac
}

# Whether the budget $1 is less than the budget of the program, if that is a plain number.
is_less() {
    case $budget in
        '' | *[!0-9]* | ??????????*) return 1 ;;
        *) [ "$1" -lt "$budget" ] ;;
    esac
}

# Runs $work/program with the input $inputs and the options $runs, and prints its console. The last report is in $work/report.
run_program() {
    printed=0
    tell_progress
    for limit in $first_budgets "$budget"; do
        is_less "$limit" || limit=$budget
        # shellcheck disable=SC2086
        toolchain run "$work/program" --budget "$limit" $inputs $runs >"$work/report"
        case $? in
            0 | 3) ;;
            *)
                # ./mx says what is wrong
                end_progress
                # shellcheck disable=SC2086
                MX_GONE=$work/program "$top/mx" ${MX_FLAGS-} run "$work/program" --budget "$limit" $inputs $runs >&2
                exit $?
                ;;
        esac
        end=$(head -n 1 "$work/report")
        check_program "$limit"
        print_console "$work/report"
        if [ "$end" = halted ] || [ "$limit" = "$budget" ]; then break; fi
    done
    end_progress
}

# Leaves the input of the program, if it reads one, as a file in $inputs: each run takes it anew.
take_input() {
    inputs=
    if ! grep -q -x .input "$work/program" && [ -z "$input" ]; then return; fi
    if [ -n "$input" ] && [ "$input" != - ]; then
        need_file "$input"
    else
        [ ! -t 0 ] || [ ! -t 2 ] || echo 'mx: the program has an input, which Ctrl-D ends' >&2
        input=/dev/stdin
    fi
    if [ ! -f "$input" ] || [ "$input" = /dev/stdin ]; then
        head -c $((most_input + 1)) "$input" >"$work/input" || fail "cannot read '$input'" 4
        [ "$(wc -c <"$work/input")" -le $most_input ] || fail "the input is too large: it has at most 1,048,576 bytes" 4
        input=$work/input
    fi
    inputs=--input$line_feed$input
}

# The line of C of a line of the translated program, and the function: `FILE:LINE: in NAME: `, or what is known of them. Functions of the
# library have no lines of C.
place_of_line() {
    LC_ALL=C awk -v line="$1" '
        NR > line { exit }
        /^; .*:[0-9]+$/ { place = substr($0, 3); is_fresh = 1; next }
        /^_[^.].*:$/ { name = $0; if (!is_fresh) place = "" }
        { is_fresh = 0 }
        END {
            sub(/^_/, "", name)
            sub(/(\.\.[0-9]+)?:$/, "", name)
            gsub(/\.S\./, "$", name)
            sub(/\.(constprop|isra|part|cold)(\.[0-9]+)?$/, "", name)
            if (place != "") printf "%s: ", place
            if (name != "") printf "in %s: ", name
        }' "$work/program"
}

# The place of the call that left the address $1 of the linked program: the call is three words before it, since two follow it in its
# delay slots.
line_called() {
    line=$(toolchain list "$work/program" | LC_ALL=C awk -v address="$(printf %08x $((0x$1 - 3)))" '$1 == address && $3 ~ /^[0-9]+$/ { print $3; exit }')
    [ -z "$line" ] || place_of_line "$line"
}

# What C does not define that makes the sequential semantics of a program stuck, by its reason; nothing where C may define it: a run that
# halts may have moved a return address along with other bytes of the stack.
cause_of() {
    case $1 in
        LoadOutside) echo 'a load from outside the memory: a pointer that was never set or is null, or an index out of bounds' ;;
        StoreOutside) echo 'a store outside the memory: a pointer that was never set or is null, or an index out of bounds' ;;
        JumpNotCode) echo 'a call or a return to what is no function: a pointer that was never set, or a return address that was overwritten' ;;
        *)
            if [ "$end" = halted ] || [ "$limit" != "$budget" ]; then return; fi
            echo 'a return address is used as a number: a variable that was never set, or an index out of bounds'
            ;;
    esac
}

# Where the program uses in its first $1 statements what C does not define, ends like it there, with the line of C and the likely cause. The
# machine itself goes on: a load from outside gives some word. Not each such use is found.
check_program() {
    # shellcheck disable=SC2086
    toolchain meaning "$work/program" --steps "$1" $inputs >"$work/meaning" 2>/dev/null
    said=$(head -n 1 "$work/meaning")
    case $said in
        'stuck line '*) said=${said#stuck line } ;;
        *) return ;;
    esac
    cause=$(cause_of "${said#* }")
    [ -n "$cause" ] || return
    end_progress
    print_console "$work/meaning"
    put_report
    echo "mx: $(place_of_line "${said%% *}")$cause" >&2
    exit 139
}

# Why a program was ended, which has this status in r2.
reason_of() {
    case $1 in
        136) echo 'a division by zero' ;;
        133) echo "$trapped" ;;
        139) echo 'a null pointer is used, or the stack is full' ;;
        *) echo 'a trap' ;;
    esac
}

# Ends as the program did whose report is $work/report: its status is the exit status.
end_like_program() {
    put_report
    [ "$end" = halted ] || fail "the program did not end within $budget cycles: --budget N gives it more, up to 100,000,000" 3
    tail -c "+$((from + count))" "$work/report" >"$work/registers"
    status=$((0x$(sed -n 's/^r2 //p' "$work/registers" | head -n 1)))
    link=$(sed -n 's/^r27 //p' "$work/registers" | head -n 1)
    if [ "$link" != 00000000 ]; then
        echo "mx: $(line_called "$link")$(reason_of $status)" >&2
    fi
    exit $((status & 255))
}

[ $# -ge 2 ] || fail "usage: $use_cc, or $use_c" 2
command -v "$gcc" >/dev/null 2>&1 || fail 'install the Debian package gcc-mips-linux-gnu' 10
work=$(mktemp -d) || exit 10
progress=
trap 'end_progress; rm -rf "$work"' EXIT
trap 'exit 10' HUP INT TERM
command=$2
shift 2
level=-O2
options=
files=
target=
preprocess=
case $command in
    cc)
        while [ $# -gt 0 ]; do
            case $1 in
                -o)
                    [ $# -ge 2 ] || fail "usage: $use_cc" 2
                    target=$2
                    shift
                    ;;
                -?*)
                    if has_value "$1"; then
                        [ $# -ge 2 ] || fail "usage: $use_cc" 2
                        options=$options$line_feed$1
                        shift
                        options=$options$line_feed$1
                    else
                        add_option "$1"
                    fi
                    ;;
                *) files=$files$line_feed$1 ;;
            esac
            shift
        done
        [ -n "$files" ] || fail "usage: $use_cc" 2
        if [ -n "$preprocess" ]; then
            # shellcheck disable=SC2046,SC2086
            "$gcc" -E $(cat "$top/lib/flags") -nostdinc -isystem "$top/lib/include" "$level" $options $files >"$work/program" || exit 1
            if [ -n "$target" ]; then deliver "$target"; else cat "$work/program" || exit 5; fi
            exit 0
        fi
        [ -n "$target" ] || fail "usage: $use_cc" 2
        for file in $files; do
            [ "$(readlink -f -- "$file")" != "$(readlink -f -- "$target")" ] || fail "cannot write '$target': this file is read" 2
        done
        first=${files#"$line_feed"}
        first=${first%%"$line_feed"*}
        first=${first##*/}
        translate "${first%.*}" || exit $?
        deliver "$target"
        print_size "$target"
        ;;
    c)
        runs=
        trapped='a trap, as of __builtin_trap'
        budget=$most_cycles
        report=
        input=
        while [ $# -gt 0 ]; do
            case $1 in
                --)
                    shift
                    break
                    ;;
                --budget | --input | --interrupts)
                    [ $# -ge 2 ] || fail "usage: $use_c" 2
                    case $1 in
                        --budget) budget=$2 ;;
                        --input) input=$2 ;;
                        *) runs=$runs$line_feed$1$line_feed$2 ;;
                    esac
                    shift
                    ;;
                --checked)
                    options=$options$line_feed$checks
                    trapped='a null pointer or a misaligned address is used, or a trap, as of __builtin_trap'
                    ;;
                --report) report=- ;;
                --report=?*) report=${1#--report=} ;;
                -?*)
                    if has_value "$1"; then
                        [ $# -ge 2 ] || fail "usage: $use_c" 2
                        options=$options$line_feed$1
                        shift
                        options=$options$line_feed$1
                    else
                        add_option "$1"
                    fi
                    ;;
                *) files=$files$line_feed$1 ;;
            esac
            shift
        done
        if [ -z "$files" ] || [ -n "$preprocess" ]; then fail "usage: $use_c" 2; fi
        first=${files#"$line_feed"}
        first=${first%%"$line_feed"*}
        translate "$first" "$@" || exit $?
        take_input
        # shellcheck disable=SC2086
        mx_run=$("$top/mx" ${MX_FLAGS-} where mx_run) || exit 10
        run_program
        end_like_program
        ;;
    library)
        compile_library
        echo "$library"
        ;;
    *)
        fail "usage: $use_cc, or $use_c" 2
        ;;
esac
