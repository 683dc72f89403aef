#!/usr/bin/env python3
"""Drives the workbench's panels of plans, caches, interrupts and predictions in headless Chromium by the keyboard, and compares what they
show with what the commands print.

usage: checks/panels.py [FOLDER [PART ..]]

Pictures of each panel, wide and narrow, light and dark, are left in FOLDER, to be looked at. PART names one of its parts, as try_plan.
It needs the program chromium, and the programs as ./mx leaves them, or those that MX_SERVE, MX_RUN and MX_LAB name."""
import json
import os
import re
import subprocess
import sys
import tempfile

import common
from chromium import CONTRAST, NAMED, TOO_FAINT, need_chromium
from common import HAS_TIMES, IS_SAMPLE, TOP, tell
from serve import go, opened, press_enter, put, serving, settled, type_source, wait_for

AT_ONCE = 300  # milliseconds from a key to the cycles of the changed plan
SLOTS = f"{TOP}/examples/full_slots.s"
TOLD = "document.getElementById('plan-told').textContent"
ITEMS = "itemsNow().join(' ')"
# A block that the list scheduler fills, and one whose load has another instruction after it.
LOADS = """        addi r0,#3,r1
loop:   ld   258[r0],r2
        addi r2,#1,r3
        addi r1,#-1,r1
        bne  r1,r0,loop
        halt
"""
# A branch that squashes its slots once, a load, a store, and fetches that miss.
BRANCHES = """        addi r0,#2,r1
next:   ld   258[r0],r2
        addi r1,#-1,r1
        st   255[r0],r1
        bne  r1,r0,next
        halt
"""
# A loop that only some of the caches hold.
LONG = "        addi r0,#3,r1\nloop:   addi r1,#-1,r1\n" + "        add  r2,r2,r2\n" * 700 + "        bne  r1,r0,loop\n        halt\n"
STAGES = ("IF", "RF", "ALU", "MEM", "WB")


def read(name):
    with open(name, encoding="utf-8") as it:
        return it.read()


def lab(source, command, *words, plans=None):
    """Returns what a command of the laboratory prints of a source, with a plan file if one is given."""
    with tempfile.TemporaryDirectory() as folder:
        for name, text in (("source.s", source), ("plans", plans)):
            if text is not None:
                with open(f"{folder}/{name}", "w", encoding="utf-8") as it:
                    it.write(text)
        words = [word.replace("PLANS", f"{folder}/plans") for word in words]
        return subprocess.run([common.program("mx_lab"), command, f"{folder}/source.s", *words], capture_output=True, text=True, check=False).stdout


def cycles_of(source, plans):
    """Returns the cycles of a run by a plan file, and the lines of rejected plans."""
    text = lab(source, "plans", "PLANS", plans=plans)
    return int(re.search(r"(?m)^cycles (\d+)$", text)[1]), re.findall(r"(?m)^(?:copies of )?plan \d+ \(line \d+\) rejected by .*$", text)


def keys(bench, *names):
    """Presses keys, one after the other, at what has the focus."""
    known = {" ": ("Space", 32), "Enter": ("Enter", 13), "Tab": ("Tab", 9), "ArrowUp": ("ArrowUp", 38), "ArrowDown": ("ArrowDown", 40), "Home": ("Home", 36),
             "End": ("End", 35), "Delete": ("Delete", 46), "Escape": ("Escape", 27)}
    for name in names:
        code, number = known.get(name, (name, 0))
        text = {"Enter": "\r"}.get(name, name if len(name) == 1 else "")
        bench.call("Input.dispatchKeyEvent", type="keyDown", key=name, code=code, text=text, windowsVirtualKeyCode=number)
        bench.call("Input.dispatchKeyEvent", type="keyUp", key=name, code=code, windowsVirtualKeyCode=number)


def to_view(bench):
    bench.ask("document.getElementById('view').focus()")


def focused(bench):
    return bench.ask("document.activeElement.id || document.activeElement.textContent")


def open_by(bench, key, what):
    """Opens a panel by its key, from the picture, where none is open."""
    bench.ask("closeExtra(); state.predicted && togglePredict()")
    to_view(bench)
    keys(bench, key)
    return wait_for(bench, what, 30)


def plans_shown(bench, source):
    """Tells whether the panel says what `plans` prints of the plan file that it has, and returns its cycles."""
    settled(bench)
    cycles, rejected = cycles_of(source, bench.ask("planText() || ''"))
    before, _ = cycles_of(source, "")
    away = abs(cycles - before)
    less = f", {away} cycle{'s' * (away != 1)} {'fewer' if cycles < before else 'more'}" if away else ", as many"
    wanted = "".join(f"{it[0].upper()}{it[1:]}; its block {'copies nothing' if it[0] == 'c' else 'is padded'}. " for it in rejected) + f"With these plans: {cycles} cycles. With the list scheduler's: {before} cycles{less}."
    # (what it says of the plan before may be the same in part, so this waits for the whole)
    wait_for(bench, f"{TOLD} === {json.dumps(wanted)}")
    told = bench.ask(TOLD)
    tell(f"the panel says what plans prints of '{bench.ask(ITEMS)}'", told == wanted, (told, wanted))
    return cycles


def try_plan(bench):
    """Items are moved by keys: the cycles of the run, or the broken rule, are those of `plans`; the picture is that of the plan."""
    source = read(SLOTS)
    type_source(bench, source)
    settled(bench)
    tell("the key e opens the plans, at the block of the cursor", open_by(bench, "e", "planning.blocks.length > 0 && planning.at === 1") and focused(bench) == "plan-items", focused(bench))
    bench.ask("document.getElementById('plan-number').focus()")
    keys(bench, "ArrowDown")
    printed = lab(source, "plans", "--print").splitlines()
    tell("the block's plan is the list scheduler's", bench.ask(ITEMS) == printed[0], (bench.ask(ITEMS), printed))
    wait_for(bench, f"{TOLD}.startsWith('All plans')")
    told = bench.ask(TOLD)
    tell("so are all", told == f"All plans are those of the list scheduler: {cycles_of(source, '')[0]} cycles.", told)
    bench.ask("document.getElementById('plan-items').focus()")
    keys(bench, "Home", " ", "ArrowDown")
    tell("a held item moves", bench.ask(ITEMS) == "/ 0 1 -", bench.ask(ITEMS))
    plans_shown(bench, source)
    keys(bench, "Escape")
    tell("Escape puts it back", bench.ask(ITEMS) == printed[0] and settled(bench), bench.ask(ITEMS))
    keys(bench, "End", "Delete", "Home", " ", "ArrowDown", "ArrowDown", " ")
    tell("a no-op is removed, an item goes into the second slot", bench.ask(ITEMS) == "/ 1 0", bench.ask(ITEMS))
    cycles = plans_shown(bench, source)
    where = bench.ask("[...document.querySelectorAll('#plan-items li')].map(it => it.children[1].textContent)")
    tell("it says which slots these are", where == ["place 1", "slot 1", "slot 2"], where)
    tell("the run ends where that of the plan does", bench.ask("state.last") == cycles - 1, bench.ask("state.last"))
    drawn = json.loads(lab(source, "draw", "--plans", "PLANS", "--as", "json", plans="/ 1 0\n"))
    words = bench.ask("[...state.range.listing.values()].map(it => it.word)")
    tell("the listing is the plan's", words == [it[1] for it in drawn["listing"]], words)
    tell("the verdict says that it is not", "not by yours" in bench.ask("document.getElementById('verdict').textContent"))
    keys(bench, "-")
    tell("a no-op is added after the item", bench.ask(ITEMS) == "/ 1 0 -", bench.ask(ITEMS))
    plans_shown(bench, source)
    press_enter(bench, "#plan-list")
    tell("one goes back to the list scheduler's", bench.ask(ITEMS) == printed[0] and bench.ask("planText()") is None, bench.ask(ITEMS))
    press_enter(bench, "#plan-best")
    best = json.loads(lab(source, "blocks", "--as", "json"))["blocks"][0]["words"]["best"]
    tell("the shortest plan has as few words as blocks says", wait_for(bench, f"itemsNow().length === {best}"), bench.ask(ITEMS))
    plans_shown(bench, source)


def try_kept_plans(bench):
    """The plan file that is saved is the one that is run; a plan stays where its block stays, and a fault greys it."""
    type_source(bench, LOADS)
    settled(bench)
    open_by(bench, "e", "planning.blocks.length === 3 && planning.source === sourceNow()")
    bench.ask("choosePlan(1), document.getElementById('plan-items').focus()")
    keys(bench, "Home", " ", "ArrowDown", " ")
    cycles = plans_shown(bench, LOADS)
    bench.ask("URL.createObjectURL = content => { window.taken = content; return '#'; }")
    press_enter(bench, "#plan-save")
    saved = bench.ask("window.taken.text()")
    tell("the saved file is that of the run", saved.strip() and cycles_of(LOADS, saved)[0] == cycles and saved.startswith("\n"), saved)
    items = bench.ask(ITEMS)
    type_source(bench, LOADS.replace("addi r0,#3,r1", "addi r0,#4,r1"))
    settled(bench)
    tell("after a change of another block the plan stays", bench.ask("planning.changed.has(1)") and bench.ask("(planning.changed.get(1) || []).join(' ')") == items)
    type_source(bench, LOADS.replace("addi r2,#1,r3", "addi r4,#1,r3"))
    settled(bench)
    tell("after a change of its own it is the list scheduler's", bench.ask("planning.changed.size") == 0)
    type_source(bench, LOADS.replace("bne", "bnx"))
    wait_for(bench, "document.querySelector('.wrong') !== null && document.getElementById('planned').classList.contains('old')")
    told = bench.ask("[document.getElementById('planned').classList.contains('old'), document.getElementById('plan-told').textContent]")
    tell("with a fault the panel is grey and names its line", told[0] and re.search(r"\b5\b", told[1]), told)
    type_source(bench, LOADS)
    tell("mended, it is not", settled(bench) and not bench.ask("document.getElementById('planned').classList.contains('old')"))


def try_copies(bench):
    """Where the program takes plan files that choose copies, the panel offers them, and says what `plans` prints of them."""
    type_source(bench, LOADS)
    settled(bench)
    open_by(bench, "e", "planning.copying !== null && planning.source === sourceNow()")
    known = "rejected" in lab(LOADS, "plans", "PLANS", plans="+0\n") or "halted" in lab(LOADS, "plans", "PLANS", plans="+0\n")
    tell("copies are offered where the program takes them", bench.ask("[planning.copying, !document.getElementById('plan-copying').hidden]") == [known, known])
    for copies in ("+0", "+2") if known else ():
        bench.ask("choosePlan(1)")
        bench.ask(f"(it => {{ it.value = '{copies}'; it.dispatchEvent(new Event('change')); }})(document.getElementById('plan-copies'))")
        tell(f"the line of the block is {copies}", bench.ask("planText()") == f"\n{copies}\n", bench.ask("planText()"))
        plans_shown(bench, LOADS)
    bench.ask("document.getElementById('plan-all').click()")
    settled(bench)


# Milliseconds from a key in the panel to the cycles of the changed plan, by the page's clock.
TELLING = """new Promise(done => {
  const began = performance.now(), seen = new MutationObserver(() => { seen.disconnect(); done(performance.now() - began); });
  seen.observe(document.getElementById('plan-told'), { childList: true, characterData: true, subtree: true });
  document.getElementById('plan-KEY').click();
})"""


def try_plan_speed(bench):
    """From a key to the cycles of the changed plan; an item that is dragged by the mouse."""
    type_source(bench, LOADS)
    settled(bench)
    open_by(bench, "e", "planning.blocks.length === 3 && planning.source === sourceNow()")
    bench.ask("choosePlan(1), stepItem(-Infinity)")
    took = []
    for key in 3 * ("down", "up"):
        took.append(bench.ask(TELLING.replace("KEY", key)))
        settled(bench)
    tell(f"the cycles of a changed plan are there after {AT_ONCE} ms, at the best of six", min(took) <= AT_ONCE or not HAS_TIMES, took)
    print(f"    the cycles of a changed plan are there after {min(took):.0f} to {max(took):.0f} ms")
    items = bench.ask(ITEMS).split()
    boxes = bench.ask("[0, 2].map(k => (box => [box.x + 60, box.y + box.height / 2])(document.querySelectorAll('#plan-items li')[k].getBoundingClientRect()))")
    for kind, (x, y) in zip(("mousePressed", "mouseMoved", "mouseReleased"), (boxes[0], boxes[1], boxes[1])):
        bench.call("Input.dispatchMouseEvent", type=kind, x=x, y=y, button="left", buttons=1, clickCount=1)
    wanted = " ".join([*items[1:3], items[0], *items[3:]])
    tell("an item is dragged to another place", bench.ask(ITEMS) == wanted, (bench.ask(ITEMS), wanted))
    plans_shown(bench, LOADS)


def rows_shown(bench, table):
    return bench.ask(f"[...document.querySelectorAll('#{table} tr')].slice(1).map(row => [...row.cells].map(it => it.textContent))")


def caches_of(source, *words):
    found = json.loads(lab(source, "caches", *words, "--as", "json"))
    return found, [[str(it["words"]), str(it["sets"]), str(it["ways"]), str(it["misses"]), str(it["cycles"])] for it in found["caches"]]


def try_caches(bench):
    """The table and the chart of `caches`, marks by keys, and other costs of a miss."""
    type_source(bench, LONG)
    settled(bench)
    tell("the key c opens the caches", open_by(bench, "c", "measured.found !== null && measured.key === JSON.stringify(measuredBody())"))
    found, wanted = caches_of(LONG)
    shown = rows_shown(bench, "cache-rows")
    tell("the rows are those of caches", [it[:5] for it in shown] == wanted, (shown[:2], wanted[:2]))
    own = [k for k, it in enumerate(found["caches"]) if it["shipped"]]
    starred = [k for k, it in enumerate(shown) if it[6].startswith("*")]
    tell("the machine's own has a star", starred == own and len(own) == 1, (starred, own))
    bench.ask("document.querySelector('#cache-rows button').focus()")
    keys(bench, "Enter", "ArrowDown", "ArrowDown", "Enter")
    marked = bench.ask("[...document.querySelectorAll('#cache-rows button')].map((it, k) => it.getAttribute('aria-pressed') === 'true' ? k : -1).filter(k => k >= 0)")
    tell("Enter marks a size", marked == [0, 2], marked)
    chart = bench.ask("[document.querySelectorAll('#cache-chart circle').length, document.querySelectorAll('#cache-chart .marked').length, document.querySelectorAll('#cache-chart .own').length]")
    tell("the chart has each cache and the marks", chart == [len(wanted), 2, 1], chart)
    told = bench.ask("document.getElementById('measured-told').textContent")
    tell("it says how much the marked ones take", all(f"{found['caches'][k]['misses']} misses, {found['caches'][k]['cycles']} cycles" in told for k in (0, 2, *own)), told)
    heights = bench.ask("[...document.querySelectorAll('#cache-chart circle')].map(it => [it.textContent, Number(it.getAttribute('cy'))])")
    order = sorted(heights, key=lambda it: it[1])
    misses = [int(re.search(r"(\d+) misses", it[0])[1]) for it in order]
    tell("more misses are higher in the chart", misses == sorted(misses, reverse=True) and len(set(misses)) > 1, order[:3])
    bench.ask("document.getElementById('cache-penalty').focus(), document.getElementById('cache-penalty').select()")
    bench.call("Input.insertText", text="10")
    wait_for(bench, "measured.found.caches[0].penalty === 10")
    shown, wanted = rows_shown(bench, "cache-rows"), caches_of(LONG, "--penalty", "10")[1]
    tell("another cost of a miss gives the rows of caches", [it[:5] for it in shown] == wanted, shown[:2])
    type_source(bench, LONG.replace("bne", "bnx"))
    wait_for(bench, "document.querySelector('.wrong') !== null")
    tell("with a fault they are grey", bench.ask("document.querySelector('#measured .sides').classList.contains('old')"))


def try_sweep(bench):
    """The rows and the chart of `interrupts`; Enter on a row, and a click into the chart, show that run in the pipeline."""
    type_source(bench, BRANCHES)
    settled(bench)
    tell("the key r opens the sweep", open_by(bench, "r", "swept.found !== null && swept.key === sweptKey()"))
    found = json.loads(lab(BRANCHES, "interrupts", "--as", "json"))
    wanted = [[str(it["requests"][0]), *(str(it["interrupt"][name]) if it["interrupt"] else "-" for name in ("taken", "wait")), str(it["cost"])] for it in found["rows"]]
    shown = rows_shown(bench, "sweep-rows")
    tell("the rows are those of interrupts", [it[:4] for it in shown] == wanted, (shown[:3], wanted[:3]))
    bars = bench.ask("[...document.querySelectorAll('#sweep-chart .bar')].map(it => Number(it.getAttribute('height')))")
    costs = [it["cost"] for it in found["rows"]]
    tell("the chart has a bar for each cost", len(bars) == len(costs) and all((bars[k] > bars[j]) == (costs[k] > costs[j]) for k in range(len(costs)) for j in range(len(costs)) if costs[k] != costs[j]), bars)
    bench.ask("document.querySelector('#sweep-rows button').focus()")
    keys(bench, "ArrowDown", "ArrowDown", "ArrowDown", "Enter")
    settled(bench)
    row = found["rows"][3]
    at = bench.ask("[state.interrupts, state.cycle, (state.range.marks(state.cycle - state.range.from) & 4) > 0, document.querySelectorAll('#heads .asked').length]")
    tell("Enter shows the run of the row, in the cycle in which it is taken", at == [row["requests"], row["interrupt"]["taken"], True, 1], (at, row))
    tell("its end is that of the row", bench.ask("state.last") == row["cycles"] - 1, bench.ask("state.last"))
    tell("the sweep is not grey for that", not bench.ask("document.querySelector('#swept .sides').classList.contains('old')") and focused(bench) == "3", focused(bench))
    x, y = bench.ask("(box => [box.x + box.width * 10.5 / ROWS, box.y + 20])(document.querySelector('#sweep-chart .hit').getBoundingClientRect())".replace("ROWS", str(len(costs))))
    for kind in ("mousePressed", "mouseReleased"):
        bench.call("Input.dispatchMouseEvent", type=kind, x=x, y=y, button="left", clickCount=1)
    settled(bench)
    tell("a click into the chart shows its run", bench.ask("state.interrupts") == [10], bench.ask("state.interrupts"))
    type_source(bench, BRANCHES.replace("#2,r1", "#1,r1"))
    settled(bench)
    told = bench.ask("[document.querySelector('#swept .sides').classList.contains('old'), document.getElementById('swept-told').textContent]")
    tell("after a change of the program it is grey, and says so", told[0] and "before it was changed" in told[1], told)
    put(bench, "interrupts", "")
    settled(bench)


def sayings_of(drawn, cycle):
    """Returns what is in each stage in a cycle of a drawing, as the page's choices say it, and whether the cycle stalls: a second reading."""
    def row_in(at, stage):
        for address, begins, cells in drawn["rows"]:
            sign = cells[at - begins:at - begins + 1] if begins <= at else ""
            if sign.strip() and (0 if sign == "w" else "01234abcdeABCDE".index(sign) % 5) == stage:
                return address, sign
        return None

    moved = cycle
    while moved >= 0 and (drawn["cycles"][moved] if isinstance(drawn["cycles"][moved], int) else drawn["cycles"][moved][0]) & 1:
        moved -= 1
    found = []
    for stage in range(5):
        row, held = row_in(cycle, stage), row_in(moved, stage) if 0 <= moved < cycle else None
        row = row or held and held[1] not in "ABCDE" and held or None
        found.append("empty" if row is None else str(row[0]) + (" squashed" if row[1] in "abcde" else " killed" if row[1] in "ABCDE" else ""))
    return found, moved < cycle


def say(bench, said, stalls):
    """Predicts: whether it stalls by its button, the stages by their menus, and Enter in a menu shows the cycle."""
    press_enter(bench, "#stalls" if stalls else "#moves")
    lacking = bench.ask(f"{json.dumps(said)}.filter((it, n) => {{ const at = document.getElementById('say-' + n); at.value = it; return at.value !== it; }})")
    bench.ask("document.getElementById('say-0').focus()")
    keys(bench, "Enter")
    return lacking


MARKS = "[...document.querySelectorAll('#predictions tr')].slice(1).map(row => row.className)"


def predict_from(bench, drawn, first, last):
    """Predicts the cycles behind one of a run up to another, some of them wrongly; returns how many answers were right, the cycles that
    were not shown or marked as they are, and what was among them: stalls (s), squashed words (q), killed ones (k)."""
    right, wrong, kinds = 0, [], set()
    for cycle in range(first, last):
        hidden = bench.ask(f"[...document.querySelectorAll('#rows .cell')].filter(it => Math.round((parseFloat(it.style.left) - 1 - labelWidth) / COLUMN) > {cycle} - state.range.from).length")
        truth, stalls = sayings_of(drawn, cycle + 1)
        said = truth if cycle % 5 else ["empty", *truth[1:]]
        lacking = say(bench, said, stalls if cycle % 7 else not stalls)
        marks, shown = bench.ask(MARKS), bench.cycle()
        wanted = ["right" if one == other else "wrong" for one, other in zip(said, truth)]
        right += wanted.count("right") + (cycle % 7 > 0)
        kinds |= {"s"} if stalls else set()
        kinds |= {it[0] for it in ("q", "k") for held in truth if {"q": "squashed", "k": "killed"}[it] in held}
        if hidden or lacking or marks != wanted or shown != cycle + 1:
            wrong.append((cycle, hidden, lacking, marks, wanted, shown))
    return right, wrong, kinds


def try_predict(bench):
    """The next cycle is hidden until it was predicted; what was right is what `draw` has, through stalls, squashes and an interrupt."""
    source, seen = read(f"{TOP}/examples/countdown.s"), set()
    for request, first, last in ((19, 15, 25), (None, 14, 27)):
        type_source(bench, source)
        put(bench, "interrupts", request or "")
        settled(bench)
        with tempfile.NamedTemporaryFile("w", suffix=".requests") as it:
            it.write(f"{request}\n" if request else "")
            it.flush()
            drawn = json.loads(lab(source, "draw", "--cycles", "200", "--interrupts", it.name, "--as", "json"))
        go(bench, first)
        tell("the key q begins", open_by(bench, "q", "state.predicted !== null") and focused(bench) == "moves", focused(bench))
        right, wrong, kinds = predict_from(bench, drawn, first, last)
        seen |= kinds
        tell("each cycle is hidden, then shown, with right and wrong as draw has it", not wrong, wrong[:2])
        told = bench.ask("document.getElementById('scored').textContent")
        tell("what was right is counted", told.endswith(f"{right} of {6 * (last - first)} in {last - first} cycles."), (told, right))
        to_view(bench)
        keys(bench, "End")
        told = bench.ask("document.getElementById('scored').textContent")
        tell("no key goes further", bench.cycle() == last and f"cycle {last + 1} and those after it are hidden" in told, (bench.cycle(), told))
        keys(bench, "ArrowLeft")
        tell("one goes back, and predicts only at the front", bench.cycle() == last - 1 and bench.ask("document.getElementById('reveal').disabled"))
        keys(bench, "q")
        tell("the key q ends it", bench.ask("state.predicted") is None and not bench.ask("document.getElementById('staged').hidden"))
    tell("there were stalls, squashed words and killed ones", seen == set("sqk"), seen)
    put(bench, "interrupts", "")
    settled(bench)


PANELS = (("e", "planned", "planning.blocks.length > 0"), ("c", "measured", "measured.found !== null"), ("r", "swept", "swept.found !== null"), ("q", "predicting", "state.predicted !== null"))


def try_panels_look(url, folder):
    """Each panel on each width, light and dark: contrast, names of controls, nothing beside the screen, and a picture of it."""
    sizes = ((390, 844),) if IS_SAMPLE else ((1500, 900), (1280, 720), (390, 844))
    for width, height in sizes:
        for scheme in ("light", "dark"):
            with opened(url, width, height, scheme == "dark") as bench:
                type_source(bench, LOADS)
                settled(bench)
                go(bench, 20)
                for key, name, what in PANELS:
                    tell(f"{name} opens at {width} in {scheme}", open_by(bench, key, what) and settled(bench) and not bench.ask(f"document.getElementById('{name}').hidden"))
                    if name == "planned":
                        bench.ask("choosePlan(1), document.getElementById('plan-items').focus()")
                        keys(bench, "Home", " ", "ArrowDown")
                        settled(bench)
                    bench.settle()
                    faint = bench.ask(TOO_FAINT)
                    tell(f"contrast is at least {CONTRAST} in {name}, {width} {scheme}", not faint, faint[:4])
                    wide = bench.ask("document.documentElement.scrollWidth - innerWidth")
                    tell(f"nothing of {name} stands beside the screen", wide <= 0, wide)
                    nodes = [node for node in bench.call("Accessibility.getFullAXTree")["nodes"] if not node.get("ignored")]
                    unnamed = [node["role"]["value"] for node in nodes if node.get("role", {}).get("value") in NAMED and not node.get("name", {}).get("value")]
                    tell("every control has a name for screen readers", len(nodes) > 20 and not unnamed, unnamed)
                    bench.ask(f"document.getElementById('{name}').scrollIntoView({{ block: 'start' }})")
                    bench.picture(os.path.join(folder, f"panel-{name}-{width}-{scheme}.png"))
                tell("the page has no fault", not bench.faults, bench.faults)


PARTS = (try_plan, try_kept_plans, try_copies, try_plan_speed, try_caches, try_sweep, try_predict)
PARTS_ALONE = (try_panels_look,)


def main():
    folder, names = sys.argv[1:2], sys.argv[2:]
    known = [it.__name__ for it in (*PARTS, *PARTS_ALONE)]
    for it in names:
        if it not in known:
            common.wrong_arguments(f"unknown part {it}: expected one of {', '.join(known)}")
    if folder and not os.path.isdir(folder[0]):
        common.wrong_arguments(f"{folder[0]}: no such folder")
    need_chromium()
    chosen = names or known
    with tempfile.TemporaryDirectory() as at, serving(f"{TOP}/examples/countdown.s") as (_, url):
        if any(it.__name__ in chosen for it in PARTS):
            with opened(url, 1500, 900) as bench:
                for part in (it for it in PARTS if it.__name__ in chosen):
                    part(bench)
                tell("the page has no fault", not bench.faults, bench.faults)
        for part in (it for it in PARTS_ALONE if it.__name__ in chosen):
            part(url, folder[0] if folder else at)
    return common.finish("panels", "properties of the panels")


if __name__ == "__main__":
    sys.exit(main())
