#!/usr/bin/env python3
"""Drives the page of the workbench in headless Chromium, and compares what it shows with what the commands print.

usage: checks/serve.py [FOLDER [PART ..]]

Pictures of the page, on three widths, light and dark, are left in FOLDER, to be looked at. PART names one of its parts, as try_killed;
without any all are tried. It needs the program chromium, and the programs as ./mx leaves them, or those that MX_SERVE, MX_RUN, MX_LAB and
MX_CC name."""
import contextlib
import json
import os
import re
import shutil
import signal
import socket
import subprocess
import sys
import tempfile
import time
import urllib.request

import common
from cells import rows_of_text
from chromium import CONTRAST, NAMED, STEP_TIME, TOO_FAINT, Page, need_chromium
from common import HAS_TIMES, IS_SAMPLE, PATIENCE, TOP, tell

# How often a text in C is typed where its translation takes too long, and what the page says then.
TRIES, TAKES_LONG = 3, "/takes more than/.test(document.getElementById('found').textContent)"
MOVED, STEPS = 100, 30  # milliseconds from a key to the moved diagram, and of a step
# A sort that runs for about 2,000 cycles; in the mistaken one a register stands where a number has to.
SORT = """        la   word,r1
        ld   0[r1],r2
        st   255[r0],r2     ; the two bytes of a letter beyond ASCII
        ld   1[r1],r2
        st   255[r0],r2
        addi r0,#20,r1      ; how many steps the next pass has
outer:  la   table,r3
        add  r3,r1,r4
inner:  ld   0[r3],r5
        ld   1[r3],r6
        bge  r6,r5,keep
        st   0[r3],r6
        st   1[r3],r5
keep:   addi r3,#1,r3
        bne  r3,r4,inner
        addi r1,#-1,r1
        bne  r1,r0,outer
        halt
        .data
word:   .word 195,169
table:  .word 40,17,48,23,51,45,54,48,42,34,2,54,30,50,16,42,9,3,27,31,5
"""
MISTAKEN = SORT.replace("bge  r6,r5,keep", "bge  r6,r5,kept")
MISTAKE = (11, "kept")
# A loop of 10,000,000 cycles and more.
LONG = "loop:   addi r1,#1,r1\n        b    loop\n"
# What would be markup, were a text taken for it.
MARKUP = "; <img src=x onerror=\"document.title='run'\"> </script><b>\nhalt: halt ; &lt;i&gt;\n"
MARKUP_C = "/* <img src=x> </script> */\nint main(void) { char *it = \"<b>x</b><script>\"; return 0; }\n"
REQUEST = 260
# The data words in which the handler keeps the saved fetches.
SAVED = (3, 4, 5)
# A sum of five numbers.
SUM = """#include <stdio.h>

static const int table[] = {1, 2, 3, 4, 5};

int main(void) {
    int sum = 0;
    for (int at = 0, number; at < 5; at++) { number = ((volatile const int *) table)[at]; sum += number; }
    printf("%d\\n", sum);
    return 0;
}
"""


def need_kernel():
    """Skips the check where the kernel has not what the workbench needs, or lets no server listen."""
    try:
        os.close(os.pidfd_open(os.getpid()))
        os.close(os.memfd_create("it"))
        with socket.create_server(("127.0.0.1", 0)):
            pass
    except (AttributeError, OSError) as error:
        common.skip(f"the workbench cannot run here: {error}")


def environment(**given):
    """Returns the environment in which ./mx starts the workbench, with other programs where they are given."""
    cc = common.program("mx_cc") if shutil.which("mips-linux-gnu-gcc") else ""
    names = {"MX_SERVE_PROGRAM": common.program("mx_serve"), "MX_SERVE_CC": cc, "MX_SERVE_PROVED": "",
             "MX_SERVE_RUN": common.program("mx_run"), **given}
    return {**os.environ, "PYTHONDONTWRITEBYTECODE": "1", **names}


@contextlib.contextmanager
def serving(*words, errors=subprocess.DEVNULL, before=None, **given):
    """Starts the workbench, and yields its process and its address; in the end interrupts it."""
    need_kernel()
    program = [sys.executable, f"{TOP}/tools/serve/serve.py", *words]
    process = subprocess.Popen(program, stdout=subprocess.PIPE, stderr=errors, text=True, env=environment(**given), preexec_fn=before)
    try:
        printed = process.stdout.readline().split()
        if not printed:
            sys.exit(f"FAILED: the workbench does not start: status {process.wait()}")
        yield process, printed[-1]
    finally:
        if process.poll() is None:
            process.send_signal(signal.SIGINT)
            process.wait(10 * PATIENCE)
        process.stdout.close()


def printed(source, *words):
    """Returns what a command prints of a source."""
    with tempfile.TemporaryDirectory() as folder:
        with open(f"{folder}/source.s", "w", encoding="utf-8") as it:
            it.write(source)
        with open(f"{folder}/requests", "w", encoding="utf-8") as it:
            it.write(f"{REQUEST}\n")
        words = [word.replace("REQUESTS", f"{folder}/requests") for word in words]
        program = common.program("mx_run" if words[0] == "run" else "mx_lab")
        ran = subprocess.run([program, words[0], f"{folder}/source.s", *words[1:]], capture_output=True, check=False)
        return ran.stdout


# The milliseconds from a key to the moved diagram, with its layout.
MOVING = """new Promise(done => {
  const began = performance.now(), seen = new MutationObserver(() => {
    seen.disconnect();
    document.body.getBoundingClientRect();
    done(performance.now() - began);
  });
  document.execCommand('insertText', false, ';TYPED\\n');
  setTimeout(() => seen.observe(document.getElementById('rows'), { childList: true }), 0);
})"""


def wait_for(bench, what, seconds=20):
    """Waits until something holds in the page, and tells whether it came to hold."""
    ends = time.monotonic() + seconds * PATIENCE
    while time.monotonic() < ends:
        if bench.ask(what):
            return True
        time.sleep(0.02)
    return False


def type_source(bench, text):
    """Puts a text in place of the source, as a paste does; it runs by itself, however long the last run took."""
    bench.ask("state.slow = Infinity")
    bench.ask("document.getElementById('source').focus(); document.getElementById('source').select()")
    bench.call("Input.insertText", text=text)


class TooSlow(Exception):
    """A text in C takes longer than the server gives it, each time, on a machine where nothing is to fail for that."""


def type_c(bench, text, what):
    """Puts a text in C in place of the source, and waits until something holds in the page. On a machine with other work a translation
    may take longer than the server gives it; then the text is put there again."""
    for _ in range(TRIES):
        # (what was said of the last text stays until there is something else to say)
        bench.ask("document.getElementById('found').textContent = ''")
        type_source(bench, text)
        wait_for(bench, f"({what}) || {TAKES_LONG}", 90)
        if bench.ask(what):
            return True
    if bench.ask(TAKES_LONG) and not HAS_TIMES:
        raise TooSlow
    return False


def put(bench, field, value):
    """Puts a value into a field, as a reader does."""
    bench.ask("state.slow = Infinity")
    bench.ask(f"(it => {{ it.value = '{value}'; it.dispatchEvent(new Event('input')); }})(document.getElementById('{field}'))")


def settled(bench):
    """Waits until the end of the run is known, with all that is asked of it."""
    # (a run that was begun before the last change may end after it)
    return wait_for(bench, "state.isSettled && !state.isStale")


def try_faults(bench):
    """A sort with a mistake is typed, seen at its token, and mended."""
    type_source(bench, MISTAKEN)
    tell("the fault is found", wait_for(bench, "document.querySelector('.wrong') !== null"))
    marked = bench.ask("document.querySelector('.wrong').textContent")
    tell("it is marked at its token", marked == MISTAKE[1], marked)
    listed = bench.ask("[...document.querySelectorAll('#findings button')].map(it => it.textContent)")
    tell("it is told with its line", len(listed) >= 1 and f"line {MISTAKE[0]}," in listed[0], listed)
    bench.ask("document.querySelector('#findings button').click()")
    selected = bench.ask("(it => it.value.slice(it.selectionStart, it.selectionEnd))(document.getElementById('source'))")
    tell("its button selects the token", selected == MISTAKE[1], selected)
    bench.call("Input.insertText", text="keep")
    tell("mended, it runs", wait_for(bench, "document.querySelector('.wrong') === null") and settled(bench))


def cells_shown(bench):
    """Returns the address and the cell of each row that shows something in the cycle."""
    shown = bench.ask("""[...document.querySelectorAll('#rows .row')].flatMap(row => [...row.querySelectorAll('.cell.on:not(.held)')].map(cell =>
      [row.querySelector('.name span').textContent, cell.textContent, cell.className]))""")
    marks = {"squashed": "*", "killed": "!"}
    found = []
    for address, cell, look in shown:
        mark = "".join(sign for name, sign in marks.items() if name in look)
        found.append((address.zfill(8), ".." if cell == "wait" else cell + mark))
    return sorted(found)


def address_of(bench):
    """Returns the address of the page, without the exercise."""
    return bench.ask("location.origin + location.pathname + location.search")


def go(bench, cycle):
    bench.ask(f"(it => {{ it.value = {cycle}; it.dispatchEvent(new Event('change')); }})(document.getElementById('cycle'))")
    wait_for(bench, f"document.getElementById('told').textContent.startsWith('cycle {cycle}:')")
    bench.settle()


def click_at(bench, x, y, count=1):
    """Clicks at a place of the window, with the mouse."""
    for kind in ("mousePressed", "mouseReleased"):
        bench.call("Input.dispatchMouseEvent", type=kind, x=x, y=y, button="left", clickCount=count)
    bench.settle()


def click(bench, selector, count=1):
    """Clicks on the middle of an element, with the mouse, once or twice."""
    bench.ask(f"document.querySelector('{selector}').scrollIntoView({{ block: 'nearest' }})")
    for nth in range(1, count + 1):
        click_at(bench, *middle_of(bench, selector), nth)


def press_enter(bench, selector):
    """Gives an element the focus, and presses Enter."""
    bench.ask(f"document.querySelector('{selector}').focus()")
    for kind in ("keyDown", "keyUp"):
        bench.call("Input.dispatchKeyEvent", type=kind, key="Enter", code="Enter", text="\r", windowsVirtualKeyCode=13)
    bench.settle()


def click_head(bench, cycle):
    """Clicks on a cycle's number, with the mouse."""
    click_at(bench, *bench.ask(f"""(it => {{ const box = it.getBoundingClientRect(); return [box.x + box.width / 2, box.y + 8]; }})(
      [...document.querySelectorAll('#heads .head')].find(it => it.textContent.split('\\n')[0] === '{cycle}'))"""))


def click_column(bench, away):
    """Clicks into the picture, so many columns from that of the shown cycle."""
    click_at(bench, *bench.ask(f"""[document.getElementById('now').getBoundingClientRect().x + {away + 0.5} * COLUMN,
      document.getElementById('view').getBoundingClientRect().y + 100]"""))


def try_cycles(bench):
    """Cycle 250 and back, an interrupt behind it, and what stands there against `draw`."""
    bench.ask("document.getElementById('run').click()")
    settled(bench)
    go(bench, 250)
    bench.ask("document.getElementById('view').focus()")
    bench.key("ArrowLeft")
    tell("a step back", bench.cycle() == 249, bench.cycle())
    bench.key("ArrowRight")
    click_column(bench, -3)
    tell("a click into the picture goes to its cycle", bench.cycle() == 247, bench.cycle())
    go(bench, REQUEST)
    click_head(bench, REQUEST)
    tell("a click on a cycle's number sets an interrupt", bench.ask("document.getElementById('interrupts').value") == str(REQUEST))
    bench.ask("document.getElementById('view').focus()")
    bench.key("i")
    tell("the key i takes it back", bench.ask("document.getElementById('interrupts').value") == "")
    bench.key("i")
    settled(bench)
    for cycle in (250, REQUEST, REQUEST + 3, REQUEST + 12):
        go(bench, cycle)
        text = printed(SORT, "draw", "--cycles", "400", "--interrupts", "REQUESTS").decode()
        with tempfile.NamedTemporaryFile("w", suffix=".text") as it:
            it.write(text)
            it.flush()
            wanted = sorted(rows_of_text(it.name)[cycle])
        shown = cells_shown(bench)
        tell(f"the cells of cycle {cycle} are those of draw", shown == [(a.replace("--------", "0000----"), c) for a, c in wanted], (shown, wanted))


def registers_shown(bench):
    """Returns the registers and md as hexadecimal digits."""
    shown = bench.ask("""['registers', 'registers-high'].flatMap(id => [...document.querySelectorAll(`#${id} tr`)].slice(1)
      .map(row => [...row.children].map(it => it.textContent.trim())))""")
    return {name.lstrip(">"): digits for name, digits, *_ in shown}


def try_end(bench):
    """Registers and console at the end against the report of `run`."""
    bench.ask("document.getElementById('run').click()")
    time.sleep(0.5)
    settled(bench)
    bench.settle()
    report = printed(SORT, "run", "--interrupts", "REQUESTS")
    last = int(re.search(rb"cycles (\d+)", report)[1]) - 1
    tell("run goes to the last cycle", bench.cycle() == last, (bench.cycle(), last))
    wanted = {name.decode(): digits.decode() for name, digits in re.findall(rb"(?m)^(r\d+|md) ([0-9a-f]{8})$", report)}
    shown = registers_shown(bench)
    tell("the registers are those of the report", all(shown[name] == digits for name, digits in wanted.items()) and len(wanted) == 32, (shown, wanted))
    count = int(re.search(rb"console (\d+)\n", report)[1])
    console = report.split(b"console %d\n" % count)[1][:count]
    tell("the console is that of the report", bench.ask("document.getElementById('console').textContent") == console.decode(), console)


# Values of each kind: a negative one, a character of ASCII, and 259, which is none.
VALUES = """        addi r0,#-7,r8
        addi r0,#259,r9
        addi r0,#65,r10
        movtos r9,md
        la   table,r1
        st   0[r1],r9
        st   1[r1],r8
        st   2[r1],r10
        halt
        .data
table:  .word 1,2,3
"""


def values_of(drawn, cycle):
    """Returns the registers with MD, the data words, and the counts that a cycle of a drawing leaves."""
    names = ["marks", "a", "b", "result", "ways", "md", "inputs", "fetches", "misses", "squashes", "interrupts", "byte", "registers", "address", "word"]
    registers, words, last = [0] * 32, {first + k: it for first, *values in drawn["words"] for k, it in enumerate(values)}, {}
    for it in (it for it in drawn["cycles"][:cycle + 1] if isinstance(it, list)):
        last = dict(zip(names, it))
        for number, value in zip(last["registers"][::2], last["registers"][1::2]):
            registers[number] = value
        if last["byte"] < 0 <= last["address"]:
            words[last["address"]] = last["word"]
    return [*registers, last["md"]], words, last


def three_ways(value):
    """Returns a word in hexadecimal, as a signed number, and as a character of ASCII."""
    value &= 0xffffffff
    return [f"{value:08x}", str(value - (value >> 31 << 32)), chr(value) if 32 < value < 127 else ""]


def try_values(bench):
    """Each register, data word and count in its columns, against `draw`: 259 is no character."""
    for source, cycle in ((VALUES, None), (SORT, 250), (SORT, 8)):
        type_source(bench, source)
        settled(bench)
        drawn = json.loads(printed(source, "draw", "--cycles", "400", "--as", "json"))
        cycle = drawn["halts"] if cycle is None else cycle
        go(bench, cycle)
        registers, words, counts = values_of(drawn, cycle)
        shown = bench.ask("""['registers', 'registers-high'].flatMap(id => [...document.querySelectorAll(`#${id} tr`)].slice(1)
          .map(row => [...row.children].map(it => it.textContent.trim())))""")
        shown = {name.lstrip(">"): values for name, *values in shown}
        wanted = {name: three_ways(it) for name, it in zip([*(f"r{n}" for n in range(32)), "md"], registers)}
        tell(f"the registers of cycle {cycle} in their columns", shown == wanted, [(it, shown.get(it), wanted[it]) for it in wanted if shown.get(it) != wanted[it]])
        told = bench.ask("[...document.querySelectorAll('#words .word')].map(it => it.title)")
        shown = [re.fullmatch(r">?([0-9a-f]{4}) ([0-9a-f]{8}) +(-?\d+)(?: (\S)?(?:  ?(\S+))?)?", it) for it in told]
        labels = {address: name for name, address, kind in reversed(drawn["labels"]) if kind == "data"}
        wanted = {f"{it:04x}": [*three_ways(words[it]), labels.get(it, "")] for it in words}
        tell(f"the data words of cycle {cycle} in their columns", {it and it[1]: [it[2], it[3], it[4] or "", it[5] or ""] for it in shown if it} == wanted, (told, wanted))
        shown = dict(bench.ask("[...document.querySelectorAll('#counts tr')].map(row => [...row.cells].map(it => it.textContent))"))
        marks = drawn["cycles"][cycle] if isinstance(drawn["cycles"][cycle], int) else counts["marks"]
        yes = ["yes" if marks >> bit & 1 else "no" for bit in range(4)]
        wanted = [str(cycle + 1), *yes, *(str(counts[it]) for it in ("fetches", "misses", "squashes", "interrupts", "inputs"))]
        tell(f"the counts of cycle {cycle}", list(shown.values()) == wanted, (shown, wanted))


def try_cycles_and_end(bench):
    try_cycles(bench)
    try_end(bench)


def try_search(bench):
    """The first byte to the console and the visits of a line, against the cycles of `draw`."""
    drawn = json.loads(printed(SORT, "draw", "--cycles", "100000", "--as", "json"))
    sent = [k for k, cycle in enumerate(drawn["cycles"]) if isinstance(cycle, list) and cycle[11] >= 0]
    lines = {word[0]: word[4] for word in drawn["listing"]}
    visits = sorted(begins + cells.index("3") for address, begins, cells in drawn["rows"] if lines.get(address) == 12 and "3" in cells)
    for kind, first, wanted in (("byte", 0, sent[:2]), ("line", 1000, [cycle for cycle in visits if cycle > 1000][:3])):
        go(bench, first)
        bench.ask(f"document.getElementById('kind').value = '{kind}'; document.getElementById('line').value = 12")
        found = []
        for _ in wanted:
            click(bench, "#after")
            found.append(bench.cycle())
        tell(f"the next cycles with a {kind} are found", found == wanted, (found, wanted))


MARKED = "[...document.querySelectorAll('#gutter .stage')].filter(it => it.textContent).length"


def try_stale(bench):
    """What a run showed is grey from the first change of the text until the new text has run, and its marks are gone."""
    type_source(bench, SORT)
    tell("the sort runs", settled(bench))
    go(bench, 250)
    marked = bench.ask(MARKED)
    tell("lines are marked with their stages", marked > 0, marked)
    type_source(bench, MISTAKEN)
    wait_for(bench, "document.querySelector('.wrong') !== null")
    seen = bench.ask(f"[document.body.classList.contains('stale'), {MARKED}, Number(getComputedStyle(document.getElementById('verdict')).opacity) < 1]")
    tell("with a fault the old results are grey and no line is marked", seen == [True, 0, True], seen)
    ends = bench.ask("document.getElementById('end').textContent")
    tell("the end of the old run is told, and no fault a second time", ends.startswith("the run halts in cycle"), ends)
    tell("it says what to do", "Correct the faults" in bench.ask("document.getElementById('stale').textContent"))
    type_source(bench, SORT)
    tell("mended, nothing is grey", settled(bench) and not bench.ask("document.body.classList.contains('stale')"))
    bench.ask("state.slow = 0; document.getElementById('source').focus()")
    bench.call("Input.insertText", text="; a comment\n")
    waits = wait_for(bench, "document.getElementById('stale').textContent.includes('press run')")
    tell("a text whose last run took long waits for its reader", waits and bench.ask("document.body.classList.contains('stale')"))
    click(bench, "#run")
    tell("and runs when it is asked to", settled(bench) and not bench.ask("document.body.classList.contains('stale')"))
    tell("the title names what is shown", "(changed)" in bench.ask("document.title"), bench.ask("document.title"))
    type_source(bench, SORT)
    settled(bench)


def visits_in(drawn, line):
    """Returns the cycles in which a word of a line is in MEM."""
    own = {word[0] for word in drawn["listing"] if word[4] == line}
    return sorted(begins + cells.index("3") for address, begins, cells in drawn["rows"] if "3" in cells and address in own)


def try_breakpoint(bench):
    """A click on a line's number sets a breakpoint, which next and previous come to."""
    bench.ask("document.getElementById('source').scrollTop = 0")
    bench.settle()
    click(bench, "#gutter [data-line=\"9\"]")
    go(bench, 300)
    found = []
    for button in ("after", "after", "before"):
        click(bench, f"#{button}")
        found.append(bench.cycle())
    wanted = [it for it in visits_in(json.loads(printed(SORT, "draw", "--cycles", "1000", "--as", "json")), 9) if it > 300][:2]
    tell("next and previous go from breakpoint to breakpoint", found == [*wanted, wanted[0]], (found, wanted))
    bench.ask("document.getElementById('source').scrollTop = 0")
    bench.settle()
    click(bench, "#gutter [data-line=\"9\"]")
    tell("a second click takes it away", bench.ask("state.breakpoints.size") == 0)
    bench.ask("document.getElementById('line').value = 9; document.getElementById('view').focus()")
    bench.key("b")
    tell("the key b sets it too", bench.ask("[...state.breakpoints]") == [9])
    go(bench, 300)
    found = []
    for key, modifiers in (("n", 0), ("n", 0), ("N", 8)):
        bench.key(key, modifiers=modifiers)
        found.append(bench.cycle())
    tell("the key n runs to it, with Shift backwards", found == [*wanted, wanted[0]], (found, wanted))
    bench.key("b")


# The words of the cycle with their stages: in the picture, in the table of the stages, and in the listing.
SHOWN_STAGES = """(() => {
  const stage = it => it === 'wait' ? 'IF' : it;
  return [[...document.querySelectorAll('#rows .row')].flatMap(row => [...row.querySelectorAll('.cell.on')].map(cell =>
      [row.querySelector('.name span').textContent, stage(cell.textContent)].join(' '))),
    [...document.querySelectorAll('#stages tr')].slice(1).filter(row => row.cells[1].textContent).map(row => [row.cells[1].textContent, row.cells[0].textContent].join(' ')),
    [...document.querySelectorAll('#listing .entry.on')].flatMap(it => it.querySelector('.tag').textContent.split(' ').map(tag =>
      [Number(it.dataset.address).toString(16).padStart(4, '0'), tag === 'waits' ? 'IF' : tag.replace(/[*!]/, '')].join(' ')))];
})()"""


def try_stalled(bench):
    """In a stalled cycle each stage says what it holds and why; picture, table and listing show the same words in the same stages."""
    drawn = json.loads(printed(SORT, "draw", "--cycles", "300", "--as", "json"))
    stalled = [k for k, it in enumerate(drawn["cycles"]) if isinstance(it, int) and it & 1]
    told = []
    for cycle in stalled[4:12]:
        go(bench, cycle)
        picture, table, listing = (set(it) for it in bench.ask(SHOWN_STAGES))
        held = {f"{word} {stage}" for word, stage in stages_in(drawn, cycle)}
        tell(f"the picture of the stalled cycle {cycle} has what each stage holds", picture == held, (picture, held))
        tell("its table too, but for the fetch before the one that waits", table < held and {it[-2:] for it in held - table} == {"IF"}, (table, held))
        tell("and its listing", listing == held, (listing, held))
        reasons = bench.ask("[...document.querySelectorAll('#stages tr')].slice(1).map(row => row.lastElementChild.textContent)")
        tell("it says of each stage why it waits", all(reasons), reasons)
        told.append(re.search(r"stalled cycle (\d) of 2", reasons[0]))
    wanted = [2 if it - 1 in stalled else 1 for it in stalled[4:12]]
    tell("it says which of the two cycles of a miss it is", [it and int(it[1]) for it in told] == wanted, (told, wanted))


STAGES = ("IF", "RF", "ALU", "MEM", "WB")


def stages_in(drawn, cycle):
    """Returns the words in the stages in a cycle of a drawing, by their addresses; in a stalled one also those that are held."""
    moved = cycle
    while moved >= 0 and isinstance(drawn["cycles"][moved], int):
        moved -= 1
    found = set()
    for address, begins, cells in drawn["rows"]:
        for at in {moved, cycle}:
            sign = cells[at - begins:at - begins + 1] if begins <= at else ""
            if sign.strip() and (sign not in "ABCDE" or at == cycle):
                found.add((f"{address:04x}", STAGES[0 if sign == "w" else "01234abcdeABCDE".index(sign) % 5]))
    return found


def try_reasons(bench):
    """What is said of a branch in ALU is what the run does; a word that is none of the program is said to be none."""
    drawn = json.loads(printed(SORT, "draw", "--cycles", "400", "--as", "json"))
    kinds, wrong, seen = {word[0]: word[7] for word in drawn["listing"]}, [], set()
    go(bench, 0)
    bench.ask("Promise.resolve(state.loaded).then(() => 0)")
    told = dict(bench.ask("""[...Array(300).keys()].flatMap(k => state.range.rowsAt(k).filter(row => signAt(row, k) === '2')
      .map(row => [row.fetch, whyAt(state.range, row, k)]))"""))
    for number, (address, _, cells) in enumerate(drawn["rows"][:-3]):
        why, goes = told.get(drawn["first"] + number), drawn["rows"][number + 3][0]
        if why is None or "2" not in cells or kinds.get(address, 0) < 3:
            continue
        holds = goes != address + 3
        seen.add(holds)
        if "makes" in why or ("goes to" in why) != holds or holds and f"goes to {goes:04x}" not in why or not holds and "does not hold" not in why:
            wrong.append((address, goes, why))
    tell("of each branch in ALU it says whether it holds, and where it goes", seen == {True, False} and not wrong, (seen, wrong[:3]))
    bench.ask("document.getElementById('run').click()")
    time.sleep(0.3)
    settled(bench)
    bench.settle()
    rows = bench.ask("[...document.querySelectorAll('#stages tr')].slice(1).map(row => [...row.cells].map(it => it.textContent))")
    tell("what is fetched after the last word is no word of the program", [it[4] for it in rows if not it[2]] == 3 * ["no word of the program"], rows)


# A routine far from its call: the editor shows one of them at a time.
FAR = "        addi r0,#3,r1\nloop:   call far,r31\n        addi r1,#-1,r1\n        bne  r1,r0,loop\n        halt\n" + 90 * "; between\n" \
    + "far:    addi r2,#1,r2\n        addi r2,#2,r2\n        addi r2,#3,r2\n        jr   r31\n"


def try_follow(bench):
    """The editor follows the run: in each cycle the line of the newest word is in view, and marked."""
    type_source(bench, FAR)
    settled(bench)
    time.sleep(1)  # (the source stays where it is for a moment while one types)
    drawn = json.loads(printed(FAR, "draw", "--cycles", "100", "--as", "json"))
    lines, lost, seen = {f"{word[0]:04x}": word[4] for word in drawn["listing"]}, [], set()
    go(bench, 0)
    bench.ask("document.getElementById('view').focus()")
    for cycle in range(1, 30):
        if cycle % 10:
            bench.key("ArrowRight")
        else:
            click_column(bench, 1)
        waits = {f"{address:04x}" for address, begins, cells in drawn["rows"] if cells[cycle - begins:cycle - begins + 1] == "w" and begins <= cycle}
        order = sorted(stages_in(drawn, cycle), key=lambda it: (STAGES.index(it[1]), it[0] not in waits))
        newest = [lines[word] for word, _ in order if lines.get(word)]
        if not newest:
            continue
        seen.add(newest[0] > 90)
        if not bench.ask(f"""(it => {{ const box = it && it.getBoundingClientRect(), around = document.getElementById('source').getBoundingClientRect();
          return it && it.classList.contains('on') && box.top >= around.top - 1 && box.bottom <= around.bottom + 1; }})(document.querySelector('#gutter [data-line="{newest[0]}"]'))"""):
            lost.append((cycle, newest))
    tell("the editor follows the run, by keys and by clicks, also in stalled cycles", seen == {True, False} and not lost and bench.cycle() == 29, (seen, lost, bench.cycle()))


def try_costs(bench):
    """The cycles at the margin, and what they were spent on, against `profile`."""
    click(bench, "#costs")
    wait_for(bench, "state.costs.size > 0")
    bench.settle()
    profiled = json.loads(printed(SORT, "profile", "--as", "json"))
    wanted = {}
    for row in profiled["rows"]:
        if row["line"]:
            wanted[row["line"]] = wanted.get(row["line"], 0) + row["cycles"]
    shown = dict(bench.ask("[...document.querySelectorAll('#gutter [data-line]')].map(it => [it.dataset.line, it.querySelector('.cost').textContent])"))
    wanted = {line: str(wanted.get(int(line)) or "") for line in shown}
    tell("the margin has the cycles of profile", len(shown) > 5 and shown == wanted, (shown, wanted))
    text = printed(SORT, "profile").decode().split("cycles by what they were spent on\n")[1].splitlines()
    wanted = [[name, cycles, part] for cycles, part, name in (it.split(maxsplit=2) for it in text[:6])]
    shown = bench.ask("[...document.querySelectorAll('#spent tr')].slice(1).map(row => [...row.cells].map(it => it.textContent))")
    tell("what they were spent on is said in the words of profile", shown == wanted, (shown, wanted))
    click(bench, "#costs")


# What of some panels is not wholly in view: an element of each, or the end of what it holds.
OUT_OF_VIEW = """(ids => ids.filter(id => {
  const it = document.getElementById(id), box = it.getBoundingClientRect(), around = it.closest('section').getBoundingClientRect();
  const isCut = box.bottom > around.bottom + 1 || box.right > around.right + 1 || around.bottom > innerHeight + 1 || around.right > innerWidth + 1;
  const view = it.closest('.view');
  return isCut || view && (view.scrollHeight > view.clientHeight + 1 || view.scrollWidth > view.clientWidth + 1);
}))(['registers', 'registers-high', 'saved', 'counts', 'words', 'console'])"""


def try_in_view(url, _folder):
    """At 1500 x 1000 all registers, MD, the saved fetches, 32 data words, the console and all counts are in view; a bar gives a panel
    another size, which it has again when the page is opened again; with costs the marks of the stages are whole."""
    with opened(url, 1500, 1000) as bench:
        type_source(bench, SORT.replace("table:  .word", "table:  .word 1,2,3,4,5,6,7,8,9,"))
        settled(bench)
        go(bench, 250)
        cut = bench.ask(OUT_OF_VIEW)
        tell("nothing of the registers, data words, console and counts is cut off", cut == [], cut)
        shown = bench.ask("[...document.querySelectorAll('#words .word')].length")
        tell("32 data words are in view", shown == 32, shown)
        names = set(registers_shown(bench))
        tell("all registers and MD are shown", names == {"md", *(f"r{n}" for n in range(32))}, names)
        bench.ask("document.getElementById('costs').click()")
        wait_for(bench, "state.costs.size > 0")
        clipped = bench.ask("[...document.querySelectorAll('#gutter .stage')].filter(it => it.scrollWidth > it.clientWidth).map(it => it.textContent)")
        tell("with costs no mark of a stage is clipped", clipped == [], clipped)
        size = "document.getElementById('panels').getBoundingClientRect().height"
        before = bench.ask(size)
        bench.ask("document.querySelector('[data-size=bottom]').focus()")
        bench.key("ArrowDown")
        bench.key("ArrowDown")
        smaller = bench.ask(size)
        tell("a bar moves by the arrow keys", smaller < before - 20, (before, smaller))
        drag(bench, "[data-size=left]", 60, 0)
        dragged = bench.ask("document.getElementById('left').getBoundingClientRect().width")
        bench.open(url)
        settled(bench)
        kept = bench.ask(f"[{size}, document.getElementById('left').getBoundingClientRect().width]")
        tell("the sizes are kept", abs(kept[0] - smaller) < 2 and abs(kept[1] - dragged) < 2, (kept, smaller, dragged))
        for name in ("bottom", "left"):
            bench.ask(f"document.querySelector('[data-size={name}]').focus()")
            bench.key("Escape")
        tell("Escape at a bar gives the first size", abs(bench.ask(size) - before) < 2, bench.ask(size))
        bench.ask("Storage.prototype.setItem = () => { throw new Error('full'); }; document.querySelector('[data-size=left]').focus()")
        bench.key("ArrowRight")
        tell("a browser that keeps nothing does not disturb", not bench.faults, bench.faults)


def middle_of(bench, selector):
    return bench.ask(f"(box => [box.x + box.width / 2, box.y + box.height / 2])(document.querySelector('{selector}').getBoundingClientRect())")


def drag(bench, selector, right, down):
    """Drags an element with the mouse."""
    x, y = middle_of(bench, selector)
    for kind, at in (("mousePressed", (x, y)), ("mouseMoved", (x + right, y + down)), ("mouseReleased", (x + right, y + down))):
        bench.call("Input.dispatchMouseEvent", type=kind, x=at[0], y=at[1], button="left", buttons=1, clickCount=1)
    bench.settle()


def try_keys(bench):
    """s, v and t run to the next store, visit of the line and interrupt, with Shift to the one before."""
    put(bench, "interrupts", REQUEST)
    settled(bench)
    drawn = json.loads(printed(SORT, "draw", "--cycles", "100000", "--interrupts", "REQUESTS", "--as", "json"))
    cycles = list(enumerate(drawn["cycles"]))
    wanted = {
        "s": [k for k, cycle in cycles if isinstance(cycle, list) and (cycle[11] >= 0 or cycle[13] >= 0)],
        "t": [k for k, cycle in cycles if (cycle if isinstance(cycle, int) else cycle[0]) & 4],
        "v": sorted(begins + cells.index("3") for address, begins, cells in drawn["rows"] if "3" in cells and (address, 12) in {(w[0], w[4]) for w in drawn["listing"]}),
    }
    for key, found in wanted.items():
        begin = 200
        go(bench, begin)
        bench.ask("document.getElementById('line').value = 12; document.getElementById('view').focus()")
        behind = [cycle for cycle in found if cycle > begin][:2]
        seen = []
        for _ in behind:
            bench.key(key)
            seen.append(bench.cycle())
        tell(f"the key {key} runs to the next ones", seen == behind and behind, (key, seen, behind))
        bench.key(key.upper(), modifiers=8)
        before = [cycle for cycle in found if cycle < seen[-1]][-1:] or [seen[-1]]
        tell(f"Shift and {key} to the one before", bench.cycle() == before[0], (key, bench.cycle(), before))
    put(bench, "interrupts", "")
    settled(bench)


CARD = "document.getElementById('card').hidden ? '' : document.getElementById('card').innerText"


def try_card(bench):
    """A card tells of the instruction under the pointer, or in the row that has the focus, what it does, its operands and its fields."""
    type_source(bench, SORT)
    settled(bench)
    drawn = json.loads(printed(SORT, "draw", "--cycles", "300", "--as", "json"))
    listing = {word[0]: word for word in drawn["listing"]}
    cycle = next(k for k, it in enumerate(drawn["cycles"]) if k > 250 and isinstance(it, list) and it[4])
    go(bench, cycle)
    address = next(address for address, begins, cells in drawn["rows"] if begins <= cycle and cells[cycle - begins:cycle - begins + 1] == "2")
    operands = drawn["cycles"][cycle]
    bench.ask("document.querySelector('#stages tr:nth-child(4)').scrollIntoView()")
    # (what is scrolled takes the card away, also where it shows a moment later)
    bench.settle()
    x, y = middle_of(bench, "#stages tr:nth-child(4) td:nth-child(3)")
    bench.call("Input.dispatchMouseEvent", type="mouseMoved", x=x, y=y)
    bench.settle()
    card = bench.ask(CARD)
    word = listing[address]
    tell("the card has the instruction and its word", word[2] in card and f"{word[1]:08x}" in card, card)
    ways = [operands[4] % 4, operands[4] >> 2]
    wanted = [rf"r{word[5 + j]} = {three_ways(operands[1 + j])[0]}\s+{three_ways(operands[1 + j])[1]}, from the {['', 'register file', 'bypass in RF', 'bypass in ALU'][way]}"
              for j, way in enumerate(ways) if way]
    tell("its operands have their values and where they came from", wanted and all(re.search(it, card) for it in wanted), (wanted, card))
    fields = [f"{word[1] >> 30}", f"{word[1] >> 22 & 31}", f"{word[1] >> 17 & 31}"]
    tell("and its fields", all(re.search(rf"(?m)\b{it}\b", card) for it in [*fields, "31-30", "29-27", "26-22", "21-17"]), card)
    bench.call("Input.dispatchMouseEvent", type="mouseMoved", x=2, y=2)
    bench.settle()
    tell("it goes with the pointer", bench.ask(CARD) == "")
    bench.ask("document.getElementById('view').focus()")
    for _ in range(3):
        bench.call("Input.dispatchKeyEvent", type="keyDown", key="Tab", code="Tab", windowsVirtualKeyCode=9)
        bench.call("Input.dispatchKeyEvent", type="keyUp", key="Tab", code="Tab", windowsVirtualKeyCode=9)
        bench.settle()
        if bench.ask("document.activeElement.matches('#stages tr')"):
            break
    focused = bench.ask("document.activeElement.matches('#stages tr') ? document.activeElement.cells[2].textContent : ''")
    card = bench.ask(CARD)
    tell("a row that has the focus shows its card", focused and focused in card, (focused, card))
    bench.key("Escape")
    tell("Escape closes it", bench.ask(CARD) == "")


def try_help(bench):
    """Each panel has a button that says what it shows."""
    lacking = bench.ask("""[...document.querySelectorAll('section')].filter(it => !it.querySelector('.about')).map(it => it.getAttribute('aria-labelledby'))""")
    tell("each panel has its help", lacking == [], lacking)
    told = bench.ask("""[...document.querySelectorAll('.about')].map(it => {
      it.click();
      const found = [document.getElementById('helping').open, document.getElementById('helping').innerText.length];
      document.getElementById('helping').close();
      return found;
    })""")
    tell("it opens", len(told) >= 12 and all(is_open and length > 80 for is_open, length in told), told)
    click(bench, "#counted .about")
    told = bench.ask("document.getElementById('helping').open && document.getElementById('helping').innerText")
    tell("a click opens it", told and "ends the run" in told, told)
    press_enter(bench, "#helping button")
    tell("Enter closes it", not bench.ask("document.getElementById('helping').open"))
    press_enter(bench, "#picture ~ .about")
    told = bench.ask("document.getElementById('helping').open && document.getElementById('helping').innerText")
    tell("Enter opens it, and it explains each mark of the picture", told and all(it in told for it in ("dashed", "dotted", "struck through", "red bar", "req", "int", "arrows")), told)
    bench.ask("document.getElementById('helping').close()")
    head = bench.ask("document.querySelector('header').innerText")
    tell("the header says what its cycles are for", "download the cycles" in head, head)


EXAMPLE = "letters.s + emit.s"


def tabs_shown(bench):
    return bench.ask("[...document.querySelectorAll('#tabs [role=tab]')].map(it => [it.textContent, it.getAttribute('aria-selected')])")


def try_modules(bench):
    """Modules have tabs; they run as what `join` makes of them; what is only told of a module by itself is not told."""
    choose(bench, "examples", EXAMPLE)
    tell("two modules run", settled(bench) and bench.ask("document.getElementById('end').textContent").startswith("the run halts"))
    tabs = tabs_shown(bench)
    tell("each has a tab", [(name.split()[1], chosen) for name, chosen in tabs] == [("letters.s", "true"), ("emit.s", "false")], tabs)
    found = bench.ask("[document.getElementById('found').textContent, document.getElementById('findings').textContent]")
    tell("nothing is told of what another module has or uses", found[0].startswith("no fault") and not re.search("emit'|sent'|import|export", found[1]), found)
    bench.ask("document.getElementById('run').click()")
    time.sleep(0.3)
    settled(bench)
    tell("the console is the program's", bench.ask("document.getElementById('console').textContent") == "Hi")
    bench.ask("document.querySelector('#tab-0').focus()")
    bench.key("ArrowRight")
    shown = bench.ask("[document.getElementById('source').value.includes('emit:'), document.activeElement.id]")
    tell("an arrow key goes to the next tab", shown == [True, "tab-1"], shown)
    click(bench, "#tab-0")
    tell("a click goes to a tab", not bench.ask("document.getElementById('source').value.includes('emit:')"))
    click(bench, "#tab-1")
    go(bench, 0)
    bench.ask("document.getElementById('line').value = 4")
    bench.ask("document.getElementById('view').focus()")
    bench.key("v")
    at = bench.ask("state.range.rowsAt(state.cycle - state.range.from).map(row => (state.range.listing.get(row.address) || {}).origin)")
    tell("a visit of a line of the module is found", "4" in at, at)
    listed = bench.ask("[...state.range.listing.values()].map(it => it.origin)")
    tell("lines of this module and of the other are told apart", {"4", "5", "a4", "a5"} <= {it.lstrip("+") for it in listed}, listed)
    bench.ask("document.getElementById('source').focus(); document.getElementById('source').select()")
    bench.call("Input.insertText", text="        .export emit\nemit:   st   255[r0],r1\n        jr   r32\n")
    wait_for(bench, "document.querySelectorAll('#findings button').length > 1")
    listed = bench.ask("[...document.querySelectorAll('#findings button')].map(it => it.textContent)")
    tell("faults are told with their module", any(it.startswith("emit.s: line 3,") for it in listed), listed)
    choose(bench, "examples", "countdown.s")
    settled(bench)


def try_plans(bench):
    """The shortest plans are computed on demand: then a no-op says whether its block has a shorter plan."""
    for name, wanted in (("full_slots.s", "a shorter plan of its block exists, of 3 words instead of 4"), ("load_delay.s", "no plan of its block is shorter")):
        choose(bench, "examples", name)
        settled(bench)
        address = bench.ask("[...state.range.listing.values()].find(it => it.isNoOp).address")
        said = bench.ask(f"whyNoOp(state.range, {address})")
        tell(f"{name}: who has found no instruction is told, and no more than that", said.endswith("the list scheduler found none"), said)
        bench.ask("document.getElementById('shortest').click()")
        tell("the shortest plans come", wait_for(bench, "state.plans !== null"))
        said = bench.ask(f"whyNoOp(state.range, {address})")
        tell(f"{name}: then it says whether there is a shorter plan", said.endswith(wanted), said)


def try_experiment(bench):
    """Another value of a register, and of a data word, from a cycle on: the run goes on as it would with them, and is marked."""
    type_source(bench, SORT)
    settled(bench)
    go(bench, 250)
    bench.ask("document.getElementById('view').focus()")
    bench.key("x")
    tell("the key x asks for a value", bench.ask("document.getElementById('trying').open && document.activeElement.id === 'value'"))
    bench.ask("document.getElementById('target').value = 'word 0114'")
    bench.call("Input.insertText", text="0x0d")
    before = bench.ask("state.edition")
    bench.key("Enter")
    bench.ask("document.getElementById('trying').open && document.getElementById('attempt').click()")
    wait_for(bench, f"state.edition > {before} && state.experiment !== null && state.isSettled")
    bench.settle()
    told = bench.ask("document.getElementById('experiment').innerText")
    tell("it is marked as an experiment about which nothing is proved", "nothing is proved" in told and "word 0114 = 0000000d" in told, told)
    bench.settle()
    values = registers_shown(bench)
    bench.ask("document.getElementById('run').click()")
    time.sleep(0.3)
    settled(bench)
    bench.settle()
    words = bench.ask("state.range.addresses.filter(it => it >= 258 && it < 279).map(it => state.range.wordAt(it, state.cycle - state.range.from)[1])")
    numbers = [int(it) for it in re.search(r"table:  \.word (.*)", SORT)[1].split(",")]
    tell("the run goes on with the value, which is sorted in", words != sorted(numbers) and 13 in words and words == sorted(words), (words, values))
    tell("it says where it goes on", "from its line" in told and "experiment.here" in told, told)
    click(bench, "#experiment button")
    settled(bench)
    back = bench.ask("[document.getElementById('source').value, document.getElementById('experiment').hidden, state.cycle]")
    tell("one goes back to the program, at its cycle", back == [SORT, True, 250], back[1:])
    for selector, target in (("#words .word:nth-child(2)", "word 0101"), ("#registers tr:nth-child(3) td", "r1")):
        click(bench, selector, 2)
        tell(f"a double click asks for the value of {target}", bench.ask("document.getElementById('trying').open && document.getElementById('target').value") == target)
        if target != "r1":
            click(bench, "#no-attempt")
    bench.ask("document.getElementById('value').value = 'x'; document.getElementById('attempt').click()")
    tell("what is no number is refused", "number of 32 bits" in bench.ask("document.getElementById('attempted').textContent"))
    bench.ask("document.getElementById('no-attempt').click()")


def try_sides(bench):
    """The kept run beside another one, cycle by cycle, with the first cycle in which the stages differ."""
    type_source(bench, SORT)
    settled(bench)
    click(bench, "#keep")
    other = SORT.replace("keep:   addi r3,#1,r3", "keep:   nop\n        addi r3,#1,r3")
    type_source(bench, other)
    settled(bench)
    click(bench, "#side")
    wait_for(bench, "document.querySelector('#side-view table') !== null", 60)
    drawn = [json.loads(printed(it, "draw", "--cycles", "400", "--as", "json")) for it in (SORT, other)]
    wanted = next(k for k in range(400) if held_in(drawn[0], k) != held_in(drawn[1], k))
    told = bench.ask("document.getElementById('diverged').textContent")
    tell("the place where they diverge is that of draw", f"They diverge in cycle {wanted}." in told, (wanted, told))
    row = bench.ask("[...document.querySelectorAll('#side-view tr.first')].map(it => it.cells[0].textContent)")
    tell("it is marked", row == [str(wanted)], row)
    bench.ask("document.getElementById('side-view').focus()")
    bench.key("PageDown")
    wait_for(bench, f"Number(document.getElementById('side-cycle').value) === {wanted + 16}")
    tell("Page Down goes on", bench.ask("Number(document.getElementById('side-cycle').value)") == wanted + 16)
    click(bench, "#side-back")
    wait_for(bench, f"Number(document.getElementById('side-cycle').value) === {wanted}")
    tell("its button goes back", bench.ask("Number(document.getElementById('side-cycle').value)") == wanted)
    click(bench, "#side-close")


def held_in(drawn, k):
    """Returns what the stages hold in a cycle of a drawing: the words by their stages, the held ones too."""
    texts = {word[0]: word[2] for word in drawn["listing"]}
    moved = k
    while moved >= 0 and (drawn["cycles"][moved] if isinstance(drawn["cycles"][moved], int) else drawn["cycles"][moved][0]) & 1:
        moved -= 1
    signs = {}
    for cycle in {moved, k} - {-1}:
        for address, begins, cells in drawn["rows"]:
            sign = cells[cycle - begins:cycle - begins + 1] if begins <= cycle else ""
            if sign.strip():
                stage = 0 if sign == "w" else "01234abcdeABCDE".index(sign) % 5
                signs[stage] = (texts.get(address, "----"), sign if cycle == k else "held")
    return signs


def try_bad_input(bench):
    """A program that never ends, a text of 4 MB, 10,000 faults, a console of megabytes: the page says so, and works then as before."""
    put(bench, "budget", 1_000_000)
    type_source(bench, "loop:   b    loop\n")
    wait_for(bench, "document.getElementById('end').textContent.includes('budget of 1000000 cycles')", 60)
    told = bench.ask("document.getElementById('end').textContent")
    tell("a program that never ends is told", "has not halted after its budget of 1000000 cycles" in told, told)
    bench.ask("""(it => {
      const held = new DataTransfer();
      held.setData('text/plain', 'nop\\n'.repeat(1100000));
      it.dispatchEvent(new ClipboardEvent('paste', { clipboardData: held, cancelable: true }));
    })(document.getElementById('source'))""")
    told = bench.ask("[document.getElementById('found').textContent, document.getElementById('source').value.length]")
    tell("a text of more than 4 MB is refused in words", "at most 4194304 bytes" in told[0] and told[1] < 100, told)
    bench.ask("(it => { it.value = 'frob r1\\n'.repeat(10000); it.dispatchEvent(new Event('input')); })(document.getElementById('source'))")
    told = wait_for(bench, "document.getElementById('found').textContent.startsWith('10000 faults')", 60)
    tell("10,000 faults are counted", told, bench.ask("document.getElementById('found').textContent"))
    listed = bench.ask("document.querySelectorAll('#findings li').length")
    tell("some of them are listed, and that there are more", listed == 201, listed)
    put(bench, "budget", 12_000_000)
    type_source(bench, "        addi r0,#65,r1\n" + "loop:   " + "st   255[r0],r1\n        " * 20 + "b    loop\n")
    wait_for(bench, "state.isSettled", 120)
    go(bench, 11_999_990)
    sent = bench.ask("document.getElementById('console').textContent")
    tell("of a console of 10 MB the end is shown", sent.startswith("(the first ") and 60_000 < len(sent) < 70_000, (len(sent), sent[:60]))
    put(bench, "budget", 1_000_000)
    type_source(bench, SORT)
    tell("then a sort runs as before", settled(bench) and "the run halts" in bench.ask("document.getElementById('end').textContent"))
    tell("the page has no fault", not bench.faults, bench.faults)


def try_lost_server(_url, _folder):
    """Where the server has gone the page says so, keeps the text, and works again when it is back at the same address."""
    with serving(f"{TOP}/examples/countdown.s") as (process, url):
        with opened(url, 1280, 720) as bench:
            settled(bench)
            process.send_signal(signal.SIGINT)
            process.wait(10 * PATIENCE)
            type_source(bench, SORT)
            told = wait_for(bench, "document.body.innerText.includes('the server does not answer')")
            tell("a lost server is told", told and bench.ask("document.getElementById('source').value") == SORT)
            go_on = bench.ask("document.getElementById('back').click(), document.getElementById('cycle').value")
            tell("what is there can still be walked", int(go_on) >= 0 and not bench.faults, (go_on, bench.faults))


def try_download(bench):
    bench.ask("""(() => { URL.createObjectURL = content => { window.taken = content; return '#'; };
      document.getElementById('form').value = 'svg'; document.getElementById('download').click(); })()""")
    wait_for(bench, "window.taken !== undefined")
    taken = bench.ask("window.taken.text()")
    wanted = printed(SORT, "draw", "--as", "svg").decode().replace("source.s", bench.ask("state.name"))
    tell("the SVG is that of draw", taken == wanted, taken[:80])


def try_speed(bench):
    took = []
    for digit in "123456":
        bench.ask("document.getElementById('source').focus(); document.getElementById('source').setSelectionRange(0, 0)")
        took.append(bench.ask(MOVING.replace("TYPED", digit)))
        settled(bench)
    tell(f"from a key to the moved diagram at most {MOVED} ms, at the best of six", min(took) <= MOVED or not HAS_TIMES, took)
    go(bench, 0)
    took = bench.ask(STEP_TIME)
    tell(f"a step takes at most {STEPS} ms", took <= STEPS or not HAS_TIMES, took)
    print(f"    a step takes {took:.1f} ms")


def try_long(bench):
    """A run of 10,000,000 cycles, walked near its end."""
    put(bench, "budget", 10_000_000)
    type_source(bench, LONG)
    tell("the end of the long run is told", wait_for(bench, "/10000000 cycles/.test(document.getElementById('end').textContent)", 60))
    for cycle in (9_000_000, 1_234_567, 9_999_999):
        began = time.monotonic()
        go(bench, cycle)
        print(f"    cycle {cycle} is there after {time.monotonic() - began:.2f} s")
        told = json.loads(printed(LONG, "draw", "--budget", "10000000", "--from", str(cycle), "--cycles", "1", "--as", "json"))
        wanted = dict(zip(told["cycles"][0][12][::2], told["cycles"][0][12][1::2]))
        shown = registers_shown(bench)
        tell(f"r1 in cycle {cycle}", int(shown["r1"], 16) == wanted.get(1, 0), (shown["r1"], wanted))


def try_markup(bench):
    """Texts that would be markup, in the source, in what a run shows of it, and in the faults of gcc."""
    runs, is_refused = "state.isSettled && !state.isStale", "document.querySelector('#findings button') !== null"
    for language, text, what in (("assembly", MARKUP, runs), ("c", MARKUP_C, runs),
                                 ("c", MARKUP_C.replace("return 0", "return '<img>'[<b>x</b>]"), is_refused), ("assembly", MARKUP, runs)):
        if bench.ask("document.getElementById('language').value") != language:
            choose(bench, "language", language)
        tell(f"the text is run, or refused, in {language}", type_c(bench, text, what))
        bench.settle()
        # (the page itself makes a bar of each cost, and the head of a card)
        made = bench.ask("[document.querySelectorAll('img, b:not(#card > b), i:not(.cost i)').length, document.title]")
        tell(f"what a text holds is no markup, in {language}", made[0] == 0 and made[1].endswith(" - Zanderanvil"), made)


def choose(bench, field, value):
    """Chooses an entry of a menu."""
    bench.ask("state.slow = Infinity")
    bench.ask(f"(it => {{ it.value = '{value}'; it.dispatchEvent(new Event('change')); }})(document.getElementById('{field}'))")


def shown_of_cache(bench):
    """Returns the lines of the cache as it is shown: for each set the lines with their valid words, the oldest first."""
    shown = bench.ask("[...document.querySelectorAll('#sets .set')].map(set => [...set.querySelectorAll('.held')].map(it => it.textContent))")
    return [[(int(it.split()[0], 16), {at for at, sign in enumerate(it.split()[1]) if sign != "\u00b7"}) for it in lines if it != "no line"] for lines in shown]


def cache_of(traced, cycle):
    """Returns what the cache holds behind a cycle, by a second reading of docs/MACHINE.md on the fetches of `trace`, and the misses."""
    sets, misses = [[], [], [], []], 0
    for turn in traced:
        if turn["cycle"] > cycle:
            break
        line, at = divmod(turn["fetch"], 16)
        lines = sets[line % 4]
        held = next((it for it in lines if it[0] == line * 16), None)
        if held is None:
            lines.append(held := (line * 16, set()))
            del lines[:-8]
        if at not in held[1]:
            held[1].update((at, at ^ 1))
            misses += 1
    return sets, misses


def chain_of(turns, cycle):
    """Returns the three words that the handler stores first behind a cycle: the fetches that the interrupt in it has saved."""
    stores = {it["store"]["to"]: it["store"]["value"] for it in reversed(turns) if it["cycle"] > cycle and "store" in it}
    return [stores[place] for place in SAVED]


def try_kept(bench):
    """The sets of the cache and the saved fetches in some cycles, against `trace`; and far from the first cycle."""
    type_source(bench, SORT)
    put(bench, "interrupts", REQUEST)
    settled(bench)
    traced = [json.loads(line) for line in printed(SORT, "trace", "--interrupts", "REQUESTS").splitlines()]
    turns = [it for it in traced if "fetch" in it]
    for cycle in (0, 3, 40, REQUEST, REQUEST + 30, 1500):
        go(bench, cycle)
        wanted, misses = cache_of(turns, cycle)
        shown = shown_of_cache(bench)
        tell(f"the cache of cycle {cycle} is that of its fetches", shown == wanted, (shown, wanted))
        counted = bench.ask("[state.replay.at(state.cycle).misses, state.replay.at(state.cycle).differs]")
        tell(f"it has missed as often as the machine, up to cycle {cycle}", counted == [misses, 0], (counted, misses))
    go(bench, REQUEST + 10)
    saved = bench.ask("[...document.querySelectorAll('#saved tr')].map(row => row.children[1].textContent)")
    wanted = chain_of(turns, REQUEST)
    tell("the saved fetches are those that the handler stores", [int(it, 16) for it in saved[:3]] == wanted, (saved, wanted))
    tell("the mode is the system's then", saved[3] == "system", saved)
    put(bench, "interrupts", "")
    settled(bench)


def try_c(bench):
    """A text in C: a mistake at its token, the run, lines of C in the listing and at the margin, against `c` and `cc`."""
    choose(bench, "language", "c")
    text = SUM.replace("sum += number", "sum += numbers")
    tell("gcc's error is found", type_c(bench, text, "document.querySelector('.wrong') !== null"))
    marked = bench.ask("document.querySelector('.wrong').textContent")
    tell("it is marked at its token", marked == "numbers", marked)
    type_c(bench, SUM.replace("return 0;", 'asm("mfc0 $2,$12"); return 0;'), "/mfc0/.test(document.getElementById('findings').textContent)")
    listed = bench.ask("[...document.querySelectorAll('#findings button')].map(it => it.textContent)")
    tell("a refusal of the translator names its line of C", len(listed) == 1 and listed[0].startswith("line 9,"), listed)
    type_c(bench, '#include "/etc/passwd"\n' + SUM, "/headers of the library/.test(document.getElementById('findings').textContent)")
    listed = bench.ask("[...document.querySelectorAll('#findings button')].map(it => it.textContent)")
    tell("a file elsewhere is not included", len(listed) == 1 and listed[0].startswith("line 1,"), listed)
    tell("mended, it runs", type_c(bench, SUM, "!document.getElementById('findings').textContent && state.isSettled && !state.isStale"))
    bench.ask("document.getElementById('run').click()")
    time.sleep(0.5)
    settled(bench)
    sent = bench.ask("document.getElementById('console').textContent")
    tell("its console has the sum", sent == "15\n", sent)
    told = bench.ask("document.getElementById('verdict').textContent")
    tell("the verdict is about its translation", "what its translation means" in told, told)
    bench.ask("document.getElementById('costs').checked || document.getElementById('costs').click()")
    wait_for(bench, "state.costs.size > 0")
    costs = dict(bench.ask("[...state.costs]"))
    tell("the margin has cycles of the loop's lines, and of no line that is none", set(costs) <= set(range(1, 12)) and costs.get(7, 0) > 5, costs)
    listed = bench.ask("state.range.entries.filter(it => it.line === 7).map(it => it.origin)")
    tell("the listing has the line of C beside the words", listed and set(listed) <= {"7", "+7"}, listed)
    go(bench, 0)
    bench.ask("Promise.resolve(state.loaded).then(() => 0)")
    bench.ask("document.getElementById('listing').scrollTop = 20 * state.range.entries.findIndex(it => it.words && it.words.startsWith('8: '))")
    bench.settle()
    listed = bench.ask("[...document.querySelectorAll('#listing .comment')].map(it => it.textContent)")
    tell("the line stands above its words", '8: printf("%d\\n", sum);' in listed, listed)
    bench.ask("document.getElementById('costs').click(); document.getElementById('adopt').click()")
    settled(bench)
    begins = bench.ask("[document.getElementById('language').value, document.getElementById('source').value.slice(0, 40)]")
    tell("its translation can be taken as the text", begins[0] == "assembly" and begins[1].startswith("; translated from assembly"), begins)


# What some examples in C send, with the input that they have.
SENT = {"queens.c": "92 ways", "calc.c": "b=a / 7 = 142.8571429"}


def try_examples(bench):
    """Each program of the menu in assembly language ends as `run` says, and some in C, with the input that they have; no module is a program."""
    names = bench.ask("[...document.querySelectorAll('#examples option')].map(it => it.value).filter(it => it)")
    tell("the menu has examples in both languages", "countdown.s" in names and "queens.c" in names, names)
    tell("modules are there as programs alone", EXAMPLE in names and not {"letters.s", "emit.s"} & set(names), names)
    for name in [*(it for it in names if it.endswith(".s") and "+" not in it), *SENT]:
        bench.ask("document.getElementById('found').textContent = ''")
        choose(bench, "examples", name)
        ran = wait_for(bench, f"state.isSettled && !state.isStale || {TAKES_LONG}", 120)
        if bench.ask(TAKES_LONG) and not HAS_TIMES:
            raise TooSlow
        end = bench.ask("document.getElementById('end').textContent")
        tell(f"{name} is what its answers are named by", bench.ask("[state.name, document.title]") == [name, name + " - Zanderanvil"])
        if name.endswith(".s"):
            with open(f"{TOP}/examples/{name}", encoding="utf-8") as it:
                report = printed(it.read(), "run", *given_to(bench))
            state, cycles = re.match(rb"(halted|out of budget)\ncycles (\d+)", report).groups()
            wanted = f"halts in cycle {int(cycles) - 1}" if state == b"halted" else f"has not halted after its budget of {int(cycles)} cycles"
            tell(f"{name} ends as run says", ran and end == f"the run {wanted}", (end, wanted))
            if name == "numbers.s":
                shown = bench.ask("[...state.range.listing.values()].map(it => it.text)")
                tell("a call of a word with copies names its label", "call print+1,r31" in shown and "jspci" not in "".join(shown), shown)
        else:
            tell(f"{name} runs to its end", ran and end.startswith("the run halts in cycle "), end)
            click(bench, "#run")
            sends = f"document.getElementById('console').textContent.includes('{SENT[name]}')"
            tell(f"{name} sends what it has to", wait_for(bench, sends), bench.ask("document.getElementById('console').textContent"))


def given_to(bench):
    """Returns the arguments for the input that the page has, in a file of the Chromium's folder."""
    text = bench.ask("document.getElementById('input').value")
    if not text:
        return []
    with open(f"{bench.folder.name}/input", "w", encoding="utf-8") as it:
        it.write(text)
    return ["--input", f"{bench.folder.name}/input"]


def try_link(bench):
    """The address has the text, what its run is given, the cycle and the breakpoints."""
    if bench.ask("!isC()"):
        put(bench, "interrupts", "260")
        put(bench, "budget", 900_000)
        put(bench, "input", "abc")
        settled(bench)
        bench.ask("toggleBreakpoint(9)")
    go(bench, 77)
    time.sleep(0.6)
    fields = "[...['source', 'language', 'interrupts', 'budget', 'input', 'cycle'].map(it => document.getElementById(it).value), [...state.breakpoints].join()]"
    kept, url, held = bench.ask("location.hash"), address_of(bench), bench.ask(fields)
    bench.call("Page.navigate", url="about:blank")
    bench.open(url + kept)
    settled(bench)
    tell("the address carries the exercise", held[0] and bench.ask(fields)[0] == held[0], kept[:60])
    tell("and what its run is given, its cycle and its breakpoints", bench.ask(fields)[1:] == held[1:], (bench.ask(fields)[1:], held[1:]))
    if bench.ask("!isC()"):
        bench.ask("toggleBreakpoint(9)")
        put(bench, "input", "")


def try_names(bench):
    nodes = [node for node in bench.call("Accessibility.getFullAXTree")["nodes"] if not node.get("ignored")]
    unnamed = [node["role"]["value"] for node in nodes if node.get("role", {}).get("value") in NAMED and not node.get("name", {}).get("value")]
    count = sum(node.get("role", {}).get("value") in NAMED for node in nodes)
    tell("every control has a name for screen readers", count > 20 and not unnamed, unnamed)


def try_look(bench, width, name):
    """The page at a size: contrast, nothing beside the screen, and a picture of it."""
    type_source(bench, SORT)
    settled(bench)
    go(bench, 250)
    bench.ask("document.getElementById('costs').click(); document.getElementById('compare').click()")
    time.sleep(1.5)
    faint = bench.ask(TOO_FAINT)
    tell(f"contrast is at least {CONTRAST} in {os.path.basename(name)}", not faint, faint[:4])
    wide = bench.ask("document.documentElement.scrollWidth - innerWidth")
    tell("nothing stands beside the screen", wide <= 0, wide)
    if width < 1100:
        whole = bench.ask("document.documentElement.scrollHeight")
        bench.call("Emulation.setDeviceMetricsOverride", width=width, height=min(whole, 3000), deviceScaleFactor=1, mobile=False)
        bench.settle()
    bench.picture(name)


@contextlib.contextmanager
def opened(url, width, height, dark=False):
    """Opens the page in a Chromium of its own, which ends with what is done there."""
    bench = Page(width, height, dark)
    try:
        bench.open(url)
        yield bench
    finally:
        bench.close()


def to_sort(bench):
    """Puts the sort back, with what is beside a source as it was at first, and waits until it has run."""
    if bench.ask("document.getElementById('language').value") != "assembly":
        choose(bench, "language", "assembly")
    for field, value in (("interrupts", ""), ("budget", 1_000_000)):
        if bench.ask(f"document.getElementById('{field}').value") != str(value):
            put(bench, field, value)
    type_source(bench, SORT)
    tell("the sort runs", settled(bench))


def try_parts(bench, parts):
    """Tries parts of the page, each from the same program, and prints how long each takes."""
    for part in parts:
        began = time.monotonic()
        to_sort(bench)
        part(bench)
        print(f"    {part.__name__} takes {time.monotonic() - began:.1f} s", flush=True)


def try_page(bench, names):
    """What a reader does, one thing after the other."""
    tell("FILE is the source", "counts down from 3" in bench.ask("document.getElementById('source').value"))
    try_parts(bench, [it for it in PARTS if it.__name__ in names])
    if bench.ask("given.missing === null"):
        try:
            try_parts(bench, [it for it in PARTS_C if it.__name__ in names])
        except TooSlow:
            print("skipped: the rest of what is in C: this machine has too much other work to translate a text within the server's time")
    else:
        print("    C is not tried: " + bench.ask("given.missing"))
    tell("the page has no fault", not bench.faults, bench.faults)


def keep_library(folder):
    """Compiles the library for C into a folder, where the workbench finds it: its first text in C would have a minute for all of that."""
    os.environ["MX_LIBRARY"] = folder
    if shutil.which("mips-linux-gnu-gcc"):
        ran = subprocess.run([f"{TOP}/tools/cc.sh", TOP, "library"], capture_output=True, text=True, check=False)
        tell("the library for C is compiled", ran.returncode == 0, ran.stderr[-300:])


def try_looks(url, folder):
    """The look on the widths, of which a sample has one."""
    for width, height in ((390, 844),) if IS_SAMPLE else ((1500, 900), (800, 1000), (390, 844)):
        for scheme in ("light", "dark"):
            with opened(url, width, height, scheme == "dark") as bench:
                try_look(bench, width, os.path.join(folder, f"serve-{width}-{scheme}.png"))


def try_all(folder, names):
    """Tries the parts with these names."""
    with serving(f"{TOP}/examples/countdown.s") as (process, url):
        if any(it.__name__ in names for it in (*PARTS, *PARTS_C)):
            with opened(url, 1500, 900) as bench:
                bench.server = process.pid
                try_page(bench, names)
        for part in PARTS_ALONE:
            if part.__name__ in names:
                began = time.monotonic()
                part(url, folder)
                print(f"    {part.__name__} takes {time.monotonic() - began:.1f} s", flush=True)


def try_killed(bench):
    """In the stalled cycles behind an interrupt, the stages whose words it killed are empty, and a squashed word stays squashed."""
    type_source(bench, SORT)
    settled(bench)
    put(bench, "interrupts", REQUEST)
    settled(bench)
    drawn = json.loads(printed(SORT, "draw", "--cycles", "400", "--interrupts", "REQUESTS", "--as", "json"))
    signs = {}
    for _, begins, cells in drawn["rows"]:
        sign = cells[REQUEST - begins:REQUEST - begins + 1] if begins <= REQUEST else ""
        if sign.strip():
            signs["01234abcdeABCDE".index(sign) % 5] = sign
    go(bench, REQUEST + 1)
    rows = bench.ask("[...document.querySelectorAll('#stages tr')].slice(1).map(row => [...row.cells].map(it => it.textContent))")
    told = {stage: (row[2], row[4]) for stage, row in enumerate(rows)}
    killed = [stage for stage, sign in signs.items() if sign in "BCDE"]
    tell("what the interrupt killed is not held", killed and all(told[it][0] == "" and "killed" in told[it][1] for it in killed), (signs, told))
    squashed = [stage for stage, sign in signs.items() if sign in "bcde"]
    tell("a squashed word is held as such", squashed and all("squashed" in told[it][1] for it in squashed), (signs, told))
    put(bench, "interrupts", "")
    settled(bench)


def try_schedulers(bench):
    """The run by padded plans beside that by copies, from the comparison, with the first cycle in which the stages differ."""
    type_source(bench, SORT)
    settled(bench)
    bench.ask("document.getElementById('compare').click()")
    offered = "[...document.querySelectorAll('#compared button')].length"
    tell("three schedulers are offered beside copies", wait_for(bench, f"{offered} === 3", 60), bench.ask(offered))
    press_enter(bench, "#compared button")
    wait_for(bench, "document.querySelector('#side-view table') !== null && document.getElementById('diverged').textContent.includes('last cycle')", 60)
    drawn = [json.loads(printed(SORT, "draw", "--cycles", "400", "--scheduler", it, "--as", "json")) for it in ("padded", "copies")]
    wanted = next(k for k in range(400) if held_in(drawn[0], k) != held_in(drawn[1], k))
    told = bench.ask("document.getElementById('diverged').textContent")
    tell("padded and copies diverge where draw says", f"They diverge in cycle {wanted}." in told, (wanted, told))
    tell("each has the last cycle that draw says", all(f"plans of {it['scheduler']}, the last cycle {it['halts']}" in told for it in drawn), told)
    heads = bench.ask("[...document.querySelectorAll('#side-view th')].slice(1, 11).map(it => it.textContent)")
    tell("the columns name the plans", heads[0] == "padded IF" and heads[5] == "copies IF", heads)
    bench.ask("document.getElementById('side-close').click()")


# What is not wholly in view: rows of the stages, lines of the verdict, counts, and lines of the console, two of which there have to be.
HIDDEN = """(() => {
  const around = document.getElementById('staged').getBoundingClientRect(), verdict = document.getElementById('verdict'), counts = document.getElementById('counts').parentElement;
  return [...[...document.querySelectorAll('#stages tr')].filter(row => row.getBoundingClientRect().bottom > around.bottom + 1).map(row => row.textContent),
    ...(verdict.scrollHeight > verdict.clientHeight ? ['the verdict'] : []), ...(counts.scrollWidth > counts.clientWidth ? ['counts'] : []),
    ...(document.getElementById('console').parentElement.clientHeight < 34 ? ['the console'] : [])];
})()"""


def try_low_screen(url, _folder):
    """On both screens all five stages are in view, whatever their reasons, and so are the verdict, the width of the counts, and lines of the console."""
    with open(f"{TOP}/examples/sort.s", encoding="utf-8") as it:
        example = it.read()
    for width, height in ((1280, 720), (1500, 1000)):
        with opened(url, width, height) as bench:
            for source, requests, what, cycles in ((SORT, "", "of a sort", [0, 1, 4, 8, 100, 250]), (SORT.replace("keep", "a_long_label"), "", "beside a long label", [8, 250]),
                                                   (example, "", "of sort.s", [32, 33, 34, 63, 250, 253]), (example, "250", "of an interrupt", [250, 251])):
                put(bench, "interrupts", requests)
                type_source(bench, source)
                settled(bench)
                go(bench, 0)
                bench.ask("Promise.resolve(state.loaded).then(() => 0)")
                hidden = bench.ask(f"{cycles}.map(k => (go(k), [k, ...{HIDDEN}])).filter(it => it.length > 1)")
                tell(f"at {width} x {height} all stages {what} are in view, and the panels beside them", hidden == [], hidden)
            put(bench, "interrupts", "")
            put(bench, "budget", 10_000_000)
            type_source(bench, LONG)
            wait_for(bench, "/10000000 cycles/.test(document.getElementById('end').textContent)", 60)
            go(bench, 9_999_999)
            hidden = bench.ask("(it => it.scrollWidth - it.clientWidth)(document.getElementById('counts').parentElement)")
            tell(f"at {width} x {height} counts of seven digits are in view", hidden <= 0, hidden)


def try_server_back(_url, _folder):
    """A server that was started anew has another token: the page says so, and at the new address the exercise is there."""
    with socket.create_server(("127.0.0.1", 0)) as it:
        port = str(it.getsockname()[1])
    with serving("--port", port, f"{TOP}/examples/countdown.s") as (process, url):
        with opened(url, 1280, 720) as bench:
            settled(bench)
            process.send_signal(signal.SIGINT)
            process.wait(10 * PATIENCE)
            with serving("--port", port, f"{TOP}/examples/countdown.s") as (_, again):
                type_source(bench, SORT)
                tell("a server that was started anew is told", wait_for(bench, "document.body.innerText.includes('this page is of an earlier server')"))
                time.sleep(0.6)
                kept = bench.ask("location.hash")
                bench.call("Page.navigate", url="about:blank")
                bench.open(again + kept)
                held = settled(bench) and bench.ask("document.getElementById('source').value") == SORT
                tell("and at its address the exercise runs", held and not bench.faults, bench.faults)


def try_many_lines(bench):
    """A text of more lines than the editor draws without standing still is refused in words, and the one before stays and runs."""
    type_source(bench, SORT)
    settled(bench)
    bench.ask("""(it => {
      const held = new DataTransfer();
      held.setData('text/plain', 'nop\\n'.repeat(1000000));
      it.dispatchEvent(new ClipboardEvent('paste', { clipboardData: held, cancelable: true }));
    })(document.getElementById('source'))""")
    told = bench.ask("[document.getElementById('found').textContent, document.getElementById('source').value]")
    tell("a text of 1,000,000 lines is refused in words", "at most 100000 lines" in told[0] and told[1] == SORT, told[0])
    bench.ask("document.getElementById('run').click()")
    tell("and the one before runs", settled(bench) and "the run halts" in bench.ask("document.getElementById('end').textContent"))


# Milliseconds of a step, and of an edit of 200 lines to its new results, by what they take of processors; bytes of the page.
WORKED, EDITED, MOST_PAGE = 16, 300, 500_000
# 200 lines, of which each run executes most; an edit changes how many steps its sort has.
LINES_200 = SORT.replace("        halt\n", "".join(f"        addi r{8 + n % 16},#{n},r{8 + n % 8}\n" for n in range(200 - SORT.count("\n"))) + "        halt\n")
# An edit, and the milliseconds until all its results are there, by the page's clock.
EDITING = """(async () => {
  const source = document.getElementById('source'), at = source.value.indexOf('addi r0,#') + 10;
  source.focus();
  source.setSelectionRange(at, at + 1);
  const began = performance.now();
  document.execCommand('insertText', false, 'DIGIT');
  while (!state.isSettled || state.isStale || state.began !== null) await new Promise(done => setTimeout(done, 4));
  document.body.getBoundingClientRect();
  return performance.now() - began;
})()"""


def taken_by(process):
    """Returns the seconds of processors that a process has taken, and those that it started and that have ended."""
    with open(f"/proc/{process}/stat", encoding="ascii") as it:
        fields = it.read().rsplit(")", 1)[1].split()
    return sum(int(it) for it in fields[11:15]) / os.sysconf("SC_CLK_TCK")


def processor_time(bench):
    """Returns the seconds of processors that the process of the page has taken."""
    found = 0
    for name in os.listdir("/proc"):
        with contextlib.suppress(OSError):
            if name.isdigit():
                with open(f"/proc/{name}/cmdline", "rb") as it:
                    words = it.read()
                if b"--type=renderer" in words and bench.folder.name.encode() in words:
                    found += taken_by(name)
    return found


def try_edit(bench):
    """An edit of 200 lines to its new results, by what page, server and programs take of processors; the page's own clock beside it."""
    type_source(bench, LINES_200)
    settled(bench)
    ends, took, before = set(), [], processor_time(bench) + taken_by(bench.server)
    for digit in 2 * "123456789":
        took.append(bench.ask(EDITING.replace("DIGIT", digit)))
        ends.add(bench.ask("document.getElementById('end').textContent"))
    worked = 1000 * (processor_time(bench) + taken_by(bench.server) - before) / len(took)
    tell("each edit has results of its own", len(ends) == 9 and LINES_200.count("\n") == 200, ends)
    tell(f"an edit of 200 lines to new results takes {EDITED} ms of processors at most", 0 < worked <= EDITED, worked)
    tell(f"by the page's clock at most {EDITED} ms, at the best", min(took) <= EDITED or not HAS_TIMES, took)
    print(f"    an edit takes {worked:.0f} ms of processors; by the page's clock {min(took):.0f} to {max(took):.0f} ms; load {os.getloadavg()[0]:.1f}")


def try_work(bench):
    """A step at 10,000 cycles, by what it takes of a processor; the size of the page."""
    type_source(bench, SORT.replace("addi r0,#20,r1", "addi r0,#20,r7\nagain:  addi r0,#20,r1").replace("        halt", "        addi r7,#-1,r7\n        bne  r7,r0,again\n        halt"))
    settled(bench)
    go(bench, 10_000)
    bench.ask("Promise.resolve(state.loaded).then(() => 0)")
    before = processor_time(bench)
    bench.ask(STEP_TIME)
    took = 1000 * (processor_time(bench) - before) / 200
    tell(f"a step at 10,000 cycles takes {WORKED} ms of a processor at most", bench.cycle() == 10_200 and 0 < took <= WORKED, (bench.cycle(), took))
    print(f"    a step at 10,000 cycles takes {took:.1f} ms of a processor")
    with urllib.request.urlopen(address_of(bench)) as it:
        text = it.read()
    size = len(text)
    other = re.findall(rb"""(?:src|href)=["'](?!data:|#)[^"']*|url\([^)]*\)|@import[^;]*|\bimport\s*[({"'][^;]*""", text.split(b'<script type="application/json"')[0])
    asked = bench.ask("performance.getEntriesByType('resource').map(it => it.name).filter(it => !it.startsWith(location.origin + '/api/'))")
    tell("it takes nothing from elsewhere", not other and not asked, (other, asked))
    tell(f"the page has fewer than {MOST_PAGE} bytes", 0 < size < MOST_PAGE, size)


# What is tried on one page, from assembly language and from C, and what is tried by itself.
PARTS = (try_faults, try_cycles_and_end, try_values, try_search, try_stale, try_killed, try_breakpoint, try_stalled, try_reasons, try_follow, try_costs,
         try_keys, try_card, try_help, try_experiment, try_sides, try_schedulers, try_modules, try_plans, try_download, try_speed, try_work, try_edit,
         try_kept, try_names, try_link, try_long, try_bad_input, try_many_lines)
PARTS_C = (try_c, try_examples, try_markup, try_link)
PARTS_ALONE = (try_in_view, try_lost_server, try_low_screen, try_server_back, try_looks)


def main():
    folder, names = sys.argv[1:2], sys.argv[2:]
    known = [it.__name__ for it in (*PARTS, *PARTS_C, *PARTS_ALONE)]
    for it in names:
        if it not in known:
            common.wrong_arguments(f"unknown part {it}: expected one of {', '.join(known)}")
    if folder and not os.path.isdir(folder[0]):
        common.wrong_arguments(f"{folder[0]}: no such folder")
    need_chromium()
    with tempfile.TemporaryDirectory() as at:
        keep_library(f"{at}/library")
        try_all(folder[0] if folder else at, names or known)
    return common.finish("workbench", "properties of the page")


if __name__ == "__main__":
    sys.exit(main())
