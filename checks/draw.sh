#!/bin/bash
# The pictures of mx_lab, read by the programs that they are for: Chromium (SVG and the page), vcd2fst of gtkwave (VCD), and a reader
# of Kanata files. Parts whose program is missing are left out. The pictures that Chromium makes are left in the folder that is
# named first, to be looked at.
#
# usage: checks/draw.sh [FOLDER]      the program is the one that MX_LAB names, or the one that ./mx has built
top=$(CDPATH='' cd -- "$(dirname -- "$0")/.." && pwd) || exit 1
# shellcheck source=checks/common.sh
. "$top/checks/common.sh"
[ $# -le 1 ] || wrong_arguments "unexpected argument $2"
need_tools python3
choose_program mx_lab "${MX_LAB-}"
work=$(mktemp -d) || exit 1
trap 'rm -rf "$work"' EXIT
folder=${1-$work}
mkdir -p "$folder" && cd "$folder" && folder=$PWD || exit 1

# part NAME: adds what a script has compared, which it left in the file `said`, to the sum; or says how it failed
part() {
    local status=$? count
    count=$(sed -n '$s/.*compared \([0-9,]*\).*/\1/p' said | tr -d ,)
    if [ "$status" -eq 0 ] && [ "${count:-0}" -gt 0 ]; then compared=$((compared + count)); else tell "status $status: $(tail -n 5 said)" "$1"; fi
}

echo 20 >requests
for form in text svg html kanata vcd; do
    "$program" draw "$top/examples/countdown.s" --cycles 140 --interrupts requests --as "$form" >"countdown.$form" && [ -s "countdown.$form" ]
    tell $? "$form is written"
done

has_chromium=
if ! command -v chromium >/dev/null 2>&1; then
    echo 'skipped: chromium is missing'
elif ! "$top/checks/chromium.py" about:blank blank.png >said 2>&1 && grep -q 'does not start' said; then
    echo 'skipped: Chromium does not start'
else
    has_chromium=yes
    rm -f svg.png html.png page.txt
    "$top/checks/chromium.py" "file://$folder/countdown.svg" svg.png && [ -s svg.png ]
    tell $? 'Chromium shows the SVG: svg.png'
    "$top/checks/chromium.py" "file://$folder/countdown.html#20" html.png page.txt && [ -s html.png ]
    tell $? 'Chromium shows the page at cycle 20: html.png'
    # Cycle 20 of the page, and the stages in its listing as the script wrote them.
    grep -q 'id="told"[^>]*>cycle 20: ' page.txt
    tell $? 'the page shows cycle 20'
    "$top/checks/cells.py" page.txt countdown.text 20 >said 2>&1
    part 'the stages in the listing of the page are those of the text'
fi

# A sort that runs for about 2,000 cycles, with an interrupt on the way.
cat >sort.s <<'END'
        la   word,r1
        ld   0[r1],r2
        st   255[r0],r2     ; the two bytes of a letter beyond ASCII
        ld   1[r1],r2
        st   255[r0],r2
        addi r0,#20,r1      ; how many steps the next pass has
outer:  la   table,r3
        add  r3,r1,r4
inner:  ld   0[r3],r5
        ld   1[r3],r6
        bge  r6,r5,keep
        st   0[r3],r6
        st   1[r3],r5
keep:   addi r3,#1,r3
        bne  r3,r4,inner
        addi r1,#-1,r1
        bne  r1,r0,outer
        halt
        .data
word:   .word 195,169
table:  .word 40,17,48,23,51,45,54,48,42,34,2,54,30,50,16,42,9,3,27,31,5
END
echo 400 >sort.requests
"$program" draw sort.s --cycles 2000 --interrupts sort.requests --as html >sort.html && [ -s sort.html ]
tell $? 'the page of a sort is written'
"$program" draw sort.s --cycles 10000 --as html >whole.html && [ -s whole.html ] && [ "$(wc -c <whole.html)" -lt 3000000 ]
tell $? 'the page of 10,000 cycles has less than 3 MB'
if [ -n "$has_chromium" ]; then
    "$top/checks/page.py" sort.html "$folder" 250 >said 2>&1
    part 'the page of a sort follows at cycle 250: page-*.png'
fi

if command -v vcd2fst >/dev/null 2>&1; then
    rm -f countdown.fst
    vcd2fst countdown.vcd countdown.fst >vcd.log 2>&1 && ! [ -s vcd.log ] && [ -s countdown.fst ]
    tell $? 'vcd2fst reads the VCD without complaint'
else
    echo 'skipped: vcd2fst of gtkwave is missing'
fi
"$top/checks/cells.py" --kanata countdown.kanata countdown.text >said 2>&1
part 'the Kanata file has the stages of the text'
finish drawing 'cells and properties of pictures'
