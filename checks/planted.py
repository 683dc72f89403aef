"""Plants a fault for each check in a copy of the repository, and runs the check: it has to fail, and to report that fault.

It is run by `checks/all.sh --self-test`. A case is a script for bash that begins in the copy. `plant FILE EXPRESSION` changes a file by sed,
`fake NAME EXPRESSION` leaves in $fake a program that prints what mx_run or mx_lab prints, changed by sed.
"""
import concurrent.futures
import os
import re
import shlex
import shutil
import threading
from typing import NamedTuple

import common
from common import TOP

NOT_PLANTED, MINUTES = 99, 20
BEGIN = r"""
plant() {
    cp "$1" "$work/before" || exit 99
    sed -i "$2" "$1" && ! cmp -s "$1" "$work/before" || { echo "nothing was planted in $1"; exit 99; }
}
fake() {
    fake=$work/fake
    printf '%s\n' "$2" >"$fake.sed"
    printf '#!/bin/sh\n"%s" "$@" >"%s.$$"\nstatus=$?\nsed -f "%s.sed" <"%s.$$"\nrm -f "%s.$$"\nexit "$status"\n' "$1" "$fake" "$fake" "$fake" "$fake" >"$fake"
    chmod +x "$fake"
}
"""


class Case(NamedTuple):
    """A planted fault: the check's name in all.py and its file, what is planted, the script, and what the check has to print, each."""
    name: str
    file: str
    what: str
    script: str
    wanted: tuple


# A fault of the workbench's page for each part of serve.py: its name, how sed plants it, and what the part then prints.
PAGE_FAULTS = (
    ("try_faults", "s/(it.line ? `line ${it.line}, /(it.line ? `line ${it.line + 1}, /", "it is told with its line"),
    ("try_cycles", "s/i: () => toggleInterrupt(state.cycle)/i: () => toggleInterrupt(state.cycle + 1)/", "the key i takes it back"),
    ("try_end", "s/goToEnd = () => go(lastCycle())/goToEnd = () => go(lastCycle() - 1)/", "run goes to the last cycle"),
    ("try_values", "s/^const character = n => n >= 32 && n < 127/const character = n => n >= 32 \\&\\& n < 1000/", "the registers of cycle 250"),
    ("try_search", "s/^  byte: (range, k) => .*/  byte: (range, k) => k % 7 === 0,/", "the next cycles with a byte"),
    ("try_stale", "s/^  document.body.classList.add('stale');$//", "with a fault the old results are grey"),
    ("try_killed", "s/return row && !isKilled(row, moved) ? row : null/return row/", "what the interrupt killed is not held"),
    ("try_breakpoint", "s/toggleBreakpoint(Number(entry.dataset.line))/toggleBreakpoint(Number(entry.dataset.line) + 1)/", "next and previous go from breakpoint"),
    ("try_stalled", "s/moved >= 0 && moved < j ?/moved >= 0 \\&\\& moved < j \\&\\& j < row.cells.length ?/", "the picture of the stalled cycle"),
    ("try_reasons", "s/ : 'does not hold';/ : goes(word.address);/", "of each branch in ALU it says"),
    ("try_follow", "s/^  revealLines(Math.min(...nearLines).*//", "the editor follows the run"),
    ("try_costs", "s/|| 0) + row.cycles)/|| 0) + row.caused)/", "the margin has the cycles of profile"),
    ("try_keys", "s/t: 'interrupt' }/t: 'squash' }/", "the key t runs to the next ones"),
    ("try_card", "s/`r${it.register} = ${hex(it.value)}`/`r${it.register} = ${hex(it.value + 1)}`/", "its operands have their values"),
    ("try_help", "/^  sent: \\['The bytes/d", "each panel has its help"),
    ("try_experiment", "s/else words.set(change.number, change.value)/else words.set(change.number, 0)/", "the run goes on with the value"),
    ("try_sides", "s/(at === kept.first ? 'first '/(at === kept.first + 1 ? 'first '/", "it is marked:"),
    ("try_schedulers", "s/^  find('kept-plans').value = plans;/  find('kept-plans').value = COPIES;/", "padded and copies diverge where draw says"),
    ("try_modules", "s/places\\[line\\] = from\\[k\\]/places[line] = from[k + 1]/", "lines of this module and of the other"),
    ("try_plans", "s/plan.best < plan.list ?/plan.best > plan.list ?/", "full_slots.s: then it says"),
    ("try_download", "s/cycles: to - from + 1, as/cycles: to - from, as/", "the SVG is that of draw"),
    ("try_speed", "s/TYPING = 4,/TYPING = 300,/", "from a key to the moved diagram"),
    ("try_work", "s/^const show = () => {/&\\n  for (const ends = performance.now() + 25; performance.now() < ends;);/", "a step at 10,000 cycles"),
    ("try_work", "s/^<link rel=\"icon\"/<link rel=\"preconnect\" href=\"https:\\/\\/example.org\">\\n&/", "it takes nothing from elsewhere"),
    ("try_edit", "s/^  if (answer) tellAnswer('verdict'.*/  for (const ends = performance.now() + 400; performance.now() < ends;);\\n&/", "an edit of 200 lines"),
    ("try_kept", "s/held\\[1\\] |= 3 << (at & ~1)/held[1] |= 1 << at/", "the cache of cycle"),
    ("try_names", "s/ aria-label=\"cycle, as a slider\"//", "every control has a name"),
    ("try_link", "s/language: find('language').value, cycle: state.cycle,/language: find('language').value, cycle: 0,/", "and what its run is given"),
    ("try_long", "s/+ name, hex(value), String/+ name, hex(value \\& 0xfffff), String/", "r1 in cycle 9000000"),
    ("try_bad_input", "s/if (text.length > MOST_TEXT)/if (false)/", "a text of more than 4 MB"),
    ("try_many_lines", "s/> MOST_LINES ?/> 100 * MOST_LINES ?/", "a text of 1,000,000 lines"),
    ("try_c", "s/=== TEXT ? Number(told\\[2\\]) : 0/=== TEXT ? Number(told[2]) + 1 : 0/", "the margin has cycles of the loop's lines"),
    ("try_examples", "s/{ input: example.input, /{ input: '', /", "calc.c sends what it has to"),
    ("try_markup", "s/if (words !== undefined) made.textContent = words/if (words !== undefined) made.innerHTML = words/", "what a text holds is no markup"),
    ("try_in_view", "s/--bottom, min(350px, 35vh)/--bottom, min(250px, 25vh)/", "nothing of the registers, data words"),
    ("try_lost_server", "s/'the server does not answer: [^']*'/'this does not work'/", "a lost server is told"),
    ("try_low_screen", "s/--middle, 30vh/--middle, 18vh/", "at 1280 x 720 all stages of sort.s"),
    ("try_server_back", "s/^    if (response.status === 403) return.*//", "a server that was started anew is told"),
    ("try_looks", "s/--soft: #575757/--soft: #a0a0a0/", "contrast is at least 4.5 in serve-390-light"),
)
PLANTED_PAGE = "\n".join(f"plant tools/serve/page.html {shlex.quote(it)}" for _, it, _ in PAGE_FAULTS)
# The same for panels.py.
PANEL_FAULTS = (
    ("try_plan", "s/rejected by ${why}; its block/is another one, its block/", "the panel says what plans prints of '/ 0 1 -'"),
    ("try_plan", "s/const body = runSettings(), behind = /const body = settings(), behind = /", "the listing is the plan's"),
    ("try_plan", "s/'slot ' + (k - last)/'slot ' + (k - last + 1)/", "it says which slots these are"),
    ("try_kept_plans", "s/if (textsOf(before\\[k\\]) !== textsOf(planning.blocks\\[k\\]))/if (false)/", "after a change of its own it is the list scheduler's"),
    ("try_kept_plans", "s/^  find('planned').classList.add('old');$//", "with a fault the panel is grey and names its line"),
    ("try_plan_speed", "s/^const askPlanned = async signal => {$/&\\n  await new Promise(done => setTimeout(done, 400));/",
     "the cycles of a changed plan are there after"),
    ("try_caches", "s/bottom - (bottom - top) \\* (n - least)/top + (bottom - top) * (n - least)/", "more misses are higher in the chart"),
    ("try_caches", "s/it.shipped ? '\\* the machine/it.words === 256 ? '* the machine/", "the machine's own has a star"),
    ("try_sweep", "s/row.interrupt ? row.interrupt.taken : row.requests/row.interrupt ? row.interrupt.handler : row.requests/", "Enter shows the run of the row"),
    ("try_sweep", "s/^  const isOld = swept.key !== sweptKey();/  const isOld = false;/", "after a change of the program it is grey"),
    ("try_predict", "s/cellsOf(range, row).filter((\\[j\\]) => row.begins + j <= front)/cellsOf(range, row)/", "each cycle is hidden, then shown"),
    ("try_predict", "s/within(cycle, 0, Math.min(last, frontCycle()))/within(cycle, 0, last)/", "no key goes further"),
    ("try_predict", "s/^  predicted.right += right;/  predicted.right += right + 1;/", "what was right is counted"),
    ("try_panels_look", "s/--warning: #855000/--warning: #e0a000/", "contrast is at least 4.5 in predicting, 390 light"),
)
PLANTED_PANELS = "\n".join(f"plant tools/serve/page.html {shlex.quote(it)}" for _, it, _ in PANEL_FAULTS)
CASES = (
    Case("deps", "deps.py", "a library that no file names", "plant crates.txt 's/^mx_code: mx_isa$/& memchr/'; checks/deps.py",
         ("mx_code lists memchr, which no file of it names",)),
    Case("deps", "deps.py", "a crate that is not listed", "plant crates.txt 's/^mx_delay: mx_isa$/mx_delay:/'; checks/deps.py",
         ("mx_delay does not list mx_isa",)),
    Case("edits", "edits.py", "an edit of a text that is not there",
         "plant \"$(ls crates/*/must-fail/*.edit | head -n 1)\" 's/^old: /old: no such text /'; checks/edits.py", ("has its text 0 times",)),
    Case("edits", "edits.py", "no edits", "rm -f crates/*/must-fail/*.edit; checks/edits.py", ("nothing was compared",)),
    Case("refusals", "refusals.py", "a log without edits", "checks/refusals.py /dev/null", ("nothing was compared",)),
    Case("refusals", "refusals.py", "a log that is not there", "checks/refusals.py none", ("none: no such file",)),
    Case("refusals", "refusals.py", "an edit that another goal refuses", """
        name=$(head -n 1 checks/refused.txt | cut -d ' ' -f 1)
        echo "must-fail $name.edit: refused, as it must be: src/x.rt:1:1: it is not proved that it holds (\\`returns-clause-x\\`)" >log
        checks/refusals.py log""", ("refused elsewhere",)),
    Case("refusals", "refusals.py", "an edit that is not refused", """
        name=$(head -n 1 checks/refused.txt | cut -d ' ' -f 1)
        echo "must-fail $name.edit: accepted" >log; checks/refusals.py log""", ("not refused",)),
    Case("refusals", "refusals.py", "edits that no clause refuses, and a log that is cut off", """
        names=$(ls crates/mx_pcchain/must-fail); set -- $names; told="refused, as it must be"
        {
            echo "must-fail mx_pcchain/$1: $told (only by a limit of the prover, which gave no verdict): src/x.rt:1:1: error: a"
            echo "must-fail mx_pcchain/$2: $told: note: proofs/x/Answers.antt:1:1: 1 declaration that depends on \\`a\\`, which was rejected, was not"
            echo "must-fail mx_pcchain/$3: $told (only because a proof file names what the edit took away): proofs/x/Answers.antt:1:1: error: a"
            echo "must-fail mx_pcchain/$4: $told: src/x.rt:1:1: it is not proved that the invariant of the loop holds (\\`loop-init\\`)"
        } >log; checks/refusals.py log""",
         ("refused by a limit of the prover alone", "refused by what depends on another refusal", "refused since a proof misses a name",
          "refused by no clause", "the log lacks it, so it is cut off")),
    Case("tables", "tables.py", "another range of an option", "plant crates/lab_line/src/table.rt 's/most: MOST_DRAWN/most: MOST_BUDGET/'; checks/tables.py",
         ("FAILED: help of draw --cycles",)),
    Case("tables", "tables.py", "a command that ./mx does not call", "plant mx 's/ | gen | soak)$/ | gen)/'; checks/tables.py", ("FAILED: ./mx calls soak",)),
    Case("viewer", "viewer.py", "another letter of the shared part", """
        plant tools/serve/page.html '/==== tools.serve.viewer.js ====/,/==== the end/s/const /Const /'; checks/viewer.py""", ("FAILED",)),
    Case("exercises", "exercises.py", "another point of an exercise", """
        plant exercises/01-name/exercise.json 's/"points": 6/"points": 5/'; checks/exercises.py""", ("FAILED: 01-name: as stored",)),
    Case("exercises", "exercises.py", "a laboratory that fails", "MX_LAB=/bin/false checks/exercises.py", ("FAILED",)),
    Case("language server", "lsp.py", "another range", """
        plant tools/lsp.py 's/found\\["column"\\] - 1/found["column"]/'; checks/lsp.py""", ("FAILED: its range",)),
    Case("CI file", "ci.py", "a step that passes over a fault", """
        plant examples/ci/.github/workflows/assembly.yml 's/|| status=1/|| :/'; checks/ci.py""", ("FAILED: a fault: the step that fails",)),
    Case("schedulers", "evaluate.py", "an interval of a normal distribution", """
        plant python/zanderanvil/evaluation.py 's/12.706/1.960/'; checks/evaluate.py""", ("FAILED: the interval of 2 differences",)),
    Case("study", "study.py", "a claim of a difference whose interval has 0 in it", """
        plant checks/study.py 's/^    if not it.is_shown:$/    if False:/'; checks/study.py --text && checks/study.py --compare""",
         ("FAILED: -?0.72 ± 1.77: a claim",)),
    Case("study", "study.py", "another count", """
        plant docs/study.csv '/^mandel,/s/,572,/,999,/'; checks/study.py --compare mandel""", ("FAILED: the counts of mandel: words: 572, not 999",)),
    Case("notebook", "notebook.py", "another stored number", """
        plant docs/study.ipynb 's/35 programs/36 programs/'; checks/notebook.py""", ("FAILED: cell 2 shows what is stored",)),
    Case("models", "models.py", "a cache that brings one word", """
        plant python/zanderanvil/models.py 's/    brings: int = 2$/    brings: int = 1/'; checks/models.py""", ("FAILED: countdown.s, 0 requests: fetches and misses",)),
    Case("models", "models.py", "loads without their delay", """
        plant python/zanderanvil/models.py 's/before\\[1\\] if before\\[0\\] and it == before\\[0\\] else //'; checks/models.py""",
         ("FAILED: a load directly after the load of its base",)),
    Case("plan cases", "plans.py", "another line", "plant crates/test_plan_cases/data/plans.txt '5s/greedy/greedier/'; checks/plans.py",
         ("FAILED: line 5 of plans.txt",)),
    Case("caches", "caches.py", "another number of misses", """
        plant crates/test_lab_cases/data/sources.txt '/^caches source/s/misses \\([0-9]*\\)$/misses 1\\1/'; checks/caches.py""", ("the stored answer is another one",)),
    Case("rows", "rows.sh", "a program that prints nothing, and no cases", """
        : >crates/test_command_cases/data/runs.txt; MX_RUN=/bin/true checks/rows.sh""", ("no case was found", "runs differ")),
    Case("rows", "rows.sh", "an argument", "checks/rows.sh typo", ("unexpected argument typo",)),
    Case("edges", "edge.sh", "a program that prints nothing, and no image files", """
        : >crates/test_command_cases/data/images.txt; MX_RUN=/bin/true checks/edge.sh""", ("no case was found", "runs differ")),
    Case("arguments", "words.sh", "a program that prints nothing", "MX_LAB=/bin/true checks/words.sh", ("runs differ",)),
    Case("arguments", "words.sh", "a program that is not there", "MX_LAB=/none checks/words.sh", ("/none cannot be run",)),
    Case("plans", "planned.sh", "two programs that print nothing", "MX_LAB=/bin/true MX_RUN=/bin/true checks/planned.sh",
         ("FAILED: the plans of schedule.py for calls.s", "runs differ")),
    Case("plans", "planned.sh", "a program that fails", "MX_LAB=/bin/false checks/planned.sh", ("FAILED: the plans of schedule.py for calls.s",)),
    Case("blocks", "blocks.py", "a program that prints nothing", "MX_LAB=/bin/true checks/blocks.py", ("FAILED: source 1",)),
    Case("blocks", "blocks.py", "a lower bound that is one more", """
        fake "$MX_LAB" 's/"bound": 7,/"bound": 8,/'; MX_SAMPLE=1 MX_LAB=$fake checks/blocks.py""", ("FAILED: source",)),
    Case("mutated files", "mutated.py", "an exercise with a member of another kind", """
        plant tools/grade.py 's/if not isinstance(found, kind) or isinstance(found, bool):/if False:/'; checks/mutated.py""", ("FAILED: 600 mutated exercises",)),
    Case("mutated files", "mutated.py", "a second reading without the rule LastLoad", """
        plant examples/check_certificate.py 's/lambda: items\\[-1\\] is None.*/lambda: True),/'; checks/mutated.py""", ("FAILED: 500 mutated plan files",)),
    Case("blocks", "blocks.py", "a block that ran twice in place of once", """
        fake "$MX_LAB" 's/"ran": 1$/"ran": 2/'; MX_SAMPLE=1 MX_LAB=$fake checks/blocks.py""", ("FAILED: how often the blocks of source",)),
    Case("certificates", "certificates.py", "a checker without the rule Delay", """
        plant examples/check_certificate.py 's/lambda: not any(feeds.*/lambda: True),/'; checks/certificates.py""",
         ("FAILED: a load directly before its reader",)),
    Case("certificates", "certificates.py", "branches to the word after the right one", """
        plant checks/certificates.py 's/(to - link.address - link.place) & 0xFFFF/(to - link.address - link.place + 1) \\& 0xFFFF/'
        checks/certificates.py""", ("FAILED: 120 images by random plans and copies are accepted",)),
    Case("certificates", "certificates.py", "a faulty line that is passed over", """
        plant examples/check_certificate.py 's/need(low <= value_of(token) <= high)/pass/'; checks/certificates.py""", ("FAILED: mutated sources",)),
    Case("profiles", "profiles.py", "no sources", "checks/profiles.py 0", ("expected a number of sources above 0",)),
    Case("profiles", "profiles.py", "false misses, without assertions", """
        fake "$MX_LAB" 's/^misses /misses 9/'; PYTHONOPTIMIZE=1 MX_LAB=$fake checks/profiles.py 3""", ("FAILED: the counts",)),
    Case("profiles", "profiles.py", "a false column, without assertions", """
        fake "$MX_LAB" '2s/ 2 / 3 /'; PYTHONOPTIMIZE=1 MX_LAB=$fake checks/profiles.py 3""", ("FAILED",)),
    Case("JSON", "lab_json.py", "a program that fails", "MX_LAB=/bin/false checks/lab_json.py", ("not so: the examples halt",)),
    Case("JSON", "lab_json.py", "false cycles", """
        fake "$MX_LAB" 's/"cycles": *\\([0-9]\\)/"cycles": 9\\1/'; MX_LAB=$fake checks/lab_json.py examples/countdown.s""", ("not so",)),
    Case("JSON", "lab_json.py", "squashed words that the target causes", """
        fake "$MX_LAB" 's/"caused": *\\([0-9]\\)/"caused": 9\\1/'; MX_LAB=$fake checks/lab_json.py examples/countdown.s""", ("causes",)),
    Case("JSON", "lab_json.py", "a source that is not there", "checks/lab_json.py none.s", ("none.s: no such file",)),
    Case("JSON", "replay.py", "a false turn of a trace", """
        "$MX_LAB" trace examples/countdown.s >trace; plant trace '9s/"fetch": *[0-9]*/"fetch": 4242/'; checks/replay.py trace""", ("is wanted",)),
    Case("JSON", "replay.py", "an empty trace", "checks/replay.py /dev/null", ("the trace is empty",)),
    Case("soak", "soak.py", "false cycles", """fake "$MX_RUN" 's/^cycles /cycles 1/'; MX_RUN=$fake checks/soak.py 7 40""", ("FAILED: soak 7 40",)),
    Case("soak", "soak.py", "a program that fails", "MX_RUN=/bin/false checks/soak.py", ("runs differ",)),
    Case("latches", "latches.py", "a program that prints nothing", "MX_PIPE_CASES=/bin/true checks/latches.py 2000", ("2000 of 2000 runs differ",)),
    Case("latches", "latches.py", "no runs", "checks/latches.py 0", ("expected a number of runs",)),
    Case("memory", "memory.sh", "a command that is none", "checks/memory.sh typo", ("typo",)),
    Case("memory", "memory.sh", "a program that never asks for memory", "MX_RUN=/bin/true checks/memory.sh", ("FAILED: run hello.s: no request was refused",)),
    Case("memory", "memory.sh", "a program that has printed something once memory runs out", """
        printf '#!/bin/sh\n"%s" "$@"\nstatus=$?\n[ "$status" -ne 6 ] || echo partial\nexit "$status"\n' "$MX_RUN" >"$work/fake"
        chmod +x "$work/fake"; MX_RUN=$work/fake checks/memory.sh meaning""", ("FAILED: meaning loop.s: request [0-9]+: status 6",)),
    Case("package", "package.py", "a package that does not say that it is unproved", """
        plant build/package.py 's/are NOT proved: they/are proved: they/'; checks/package.py""", ("FAILED: its description says that it is unproved",)),
    Case("package", "package.py", "an installed program that prints nothing", "MX_RUN=/bin/true checks/package.py", ("FAILED: unpacked: run hello.s",)),
    Case("drawing", "cells.py", "a stage in the wrong place", """
        "$MX_LAB" draw examples/countdown.s --as text >text && "$MX_LAB" draw examples/countdown.s --as kanata >kanata
        plant text 's/ALU/MEM/'; PYTHONOPTIMIZE=1 checks/cells.py --kanata kanata text""", ("FAILED",)),
    Case("drawing", "draw.sh", "a program that prints nothing", "PATH=/usr/bin:/bin MX_LAB=/bin/true checks/draw.sh", ("FAILED: text is written",)),
    Case("clients", "clients.py", "no requests", "checks/clients.py 0", ("expected at least",)),
    Case("clients", "clients.py", "a program that fails", "MX_SERVE=/bin/false checks/clients.py 100", ("FAILED: a good request is answered",)),
    Case("clients", "clients.py", "a run that goes on without its client, and a client that fails by itself", """
        plant tools/serve/programs.py 's/poll.register(client, select.POLLRDHUP)/pass/'
        plant checks/clients.py 's/"a page": (200, lambda client: /&None + /'
        MX_TIMES=yes checks/clients.py 100""", ("TypeError", "FAILED: no run is left")),
    Case("workbench's faults", "serve_faults.py", "a file that hangs, an empty address, options of ./mx, hidden faults", """
        plant tools/serve/serve.py 's/os.O_RDONLY | os.O_NONBLOCK | os.O_CLOEXEC)$/os.O_RDONLY)/'
        plant tools/serve/serve.py 's/if not words.host.strip():/if False:/'
        plant tools/serve/serve.py 's/^    parser.add_argument("file"/    parser.add_argument("--proved", action="store_true")\\n&/'
        plant tools/serve/serve.py 's/^        self.server.slots.serve(self.request)$/        pass/'
        plant tools/serve/serve.py 's/^            if refused.status == 500:$/            if False:/'
        plant tools/serve/slots.py 's/while self.taken + size > self.most:/while False:/'
        plant tools/serve/directives.py 's/for number in (NUMBER, SEPARATED_NUMBER)/for number in (NUMBER,)/'
        plant tools/serve/translate.py 's/^            shutil.rmtree(folder, ignore_errors=True)$/            pass/'
        MX_TIMES=yes checks/serve_faults.py""",
         ("FAILED: fifo as FILE", "FAILED: '--host ' is refused", "FAILED: '--proved' is refused", "FAILED: it is logged",
          "FAILED: a request that was begun before keeps its connection", "FAILED: of 16 runs at most", "FAILED: refused: int a = 1'0")),
    Case("workbench", "serve.py", "another picture than the page's", """
        fake "$MX_LAB" 's/ALU/MEM/g'; MX_LAB=$fake checks/serve.py "$work" try_cycles_and_end""", ("FAILED: the cells of cycle",)),
    Case("panels", "panels.py", "an argument", "checks/panels.py . typo", ("unknown part typo",)),
    Case("panels", "panels.py", "faults of each panel", PLANTED_PANELS + "\n        MX_TIMES=yes checks/panels.py", tuple(f"^FAILED: {re.escape(it)}" for _, _, it in PANEL_FAULTS)),
    Case("workbench", "serve.py", "an argument", "checks/serve.py . typo", ("unknown part typo",)),
    Case("workbench", "serve.py", "a fault of the page for each part", PLANTED_PAGE + """
        head -c 400000 /dev/zero | tr '\\0' ' ' >>tools/serve/page.html
        MX_TIMES=yes checks/serve.py""", (*(f"^FAILED: {it}" for _, _, it in PAGE_FAULTS), "^FAILED: the page has fewer than")),
    Case("shells", "shells.sh", "a command that bash does not offer",
         "plant tools/install.py \"s/quoted(' '.join(COMMANDS) + ' lab/quoted(' '.join(list(COMMANDS)[1:]) + ' lab/\"; checks/shells.sh",
         ("FAILED: bash: the command run",)),
    Case("proved", "proved.py", "a program whose checksum is not compared",
         "plant build/state.py 's/ and record\\[\"output\"\\] == sum_of(output))/)/'; checks/proved.py", ("FAILED",)),
    Case("processes", "processes.py", "a run that outlives ./mx",
         """plant mx 's/^        setpriv --pdeathsig TERM "\$@"$/        "$@"/; s/has setpriv; then setpriv --pdeathsig TERM/has setpriv; then/'
         MX_TIMES=yes checks/processes.py""", ("FAILED",)),
    Case("processes", "processes.py", "a signal that another thread gets and that nobody repeats",
         "plant tools/processes.py 's/signal.pthread_kill(/str(/'; MX_TIMES=yes checks/processes.py",
         ("FAILED: a proof: a signal that another thread gets",)),
    Case("files", "files.py", "a file that is left", "plant tools/launch.py 's/        os.remove(fresh)$/        pass/'; checks/files.py", ("FAILED",)),
    Case("completions", "completions.sh", "texts that are not quoted", """
        plant tools/install.py "s/^    return \\"'\\" + text.replace.*/    return \\"'\\" + text + \\"'\\"/"; checks/completions.sh""", ("FAILED",)),
    Case("Python", "python_module.py", "a refusal that cannot be pickled",
         "plant python/zanderanvil/library.py '/def __reduce__/,/return Refusal/d'; checks/python_module.py", ("FAILED",)),
    Case("messages", "messages.py", "a program that prints nothing", "MX_RUN=/bin/true MX_LAB=/bin/true checks/messages.py", ("FAILED",)),
    Case("lint", "lint.sh", "an import that is not used", "echo 'import os' >tools/unused.py; checks/lint.sh", ("imported but unused",)),
    Case("all", "all.py", "a check that compares nothing", """
        echo 'print("edits: all is well")' >checks/edits.py; checks/all.sh edits deps""", ("WRONG: edits", "it reports nothing that it compared", "WRONG: edits$")),
    Case("all", "all.py", "a check that fails", "plant crates.txt 's/^mx_delay: mx_isa$/mx_delay:/'; checks/all.sh deps", ("1 fail",)),
    Case("all", "all.py", "a tool that is missing and is not reported", """
        mkdir "$work/bin"; for it in bash sh python3 dirname cat mkdir chmod rm env; do ln -s "$(command -v $it)" "$work/bin/"; done
        plant checks/all.py 's/^        print(f"skipped: {it}")$/        pass/'
        PATH=$work/bin checks/all.sh deps memory >"$work/said" 2>&1; cat "$work/said"; grep -q '^skipped: memory: cc is missing' "$work/said" \\
            || { echo 'no list of what is skipped'; exit 1; }""", ("no list of what is skipped",)),
    Case("fresh", "fresh.sh", "another failure than the expected one", """
        eval "$(sed -n '/^tell() {/,/^}/p' checks/fresh.sh)"; folder=$work compared=0 failed=0 status=10
        echo 'another failure' >"$work/out"; tell 'a missing toolchain' 10 'the command rt is missing'; exit "$failed" """,
         ("WRONG: a missing toolchain",)),
    Case("fresh", "fresh.sh", "an argument", "checks/fresh.sh typo", ("unknown argument typo",)),
    Case("all", "all.py", "an unknown name", "checks/all.sh typo", ("unknown check or option: typo",)),
    Case("all", "all.py", "a check that holds at its second try alone", """
        printf '%s\n' 'if [ -e once ]; then echo deps: compared 1 text; else touch once; exit 1; fi' >checks/deps.sh
        plant checks/all.py 's/"deps.py"/"deps.sh"/'; checks/all.sh deps >said; cat said; ! tail -n 2 said | grep -q '^held at the second try: deps'""",
         ("^1 checks hold, 1 of them at the second try",)),
    Case("stored C programs", "cc_cases.py", "another stored console", """
        plant checks/cc/cases/own_malloc.out '1s/^/1/'; checks/cc_cases.py own_malloc""", ("FAILED: own_malloc.c",)),
    Case("stored C programs", "cc_cases.py", "a console that the native program does not have", """
        fake "$MX_RUN" 's/ <one>/ <two>/'; MX_RUN=$fake checks/cc_cases.py arguments""", ("FAILED: arguments.c",)),
    Case("stored C programs", "cc_cases.py", "a case that is none", "checks/cc_cases.py typo", ("no case typo",)),
    Case("C commands", "cc_uses.sh", "an output that is an input", """
        plant tools/cc.sh '/: this file is read" 2$/s/.*/:/'; checks/cc_uses.sh""", ("FAILED: cc good.c -o good.c",)),
    Case("C programs", "cc.sh", "another console", """fake "$MX_RUN" 's/^92 ways/93 ways/'; MX_RUN=$fake checks/cc.sh 0 queens""", ("FAILED: queens",)),
    Case("compiled assembly", "meaning.py", "another console", """
        printf '#!/bin/sh\\n"%s" "$@" | sed "s/^92 ways/93 ways/"\\n' "$MX_CC" >"$work/fake" && chmod +x "$work/fake"
        MX_CC=$work/fake checks/meaning.py 0 queens""", ("FAILED: queens",)),
    Case("compiled assembly", "meaning.py", "a wrong row", """
        plant checks/cc/worked.txt 's/fffffffe$/ffffffff/'; checks/meaning.py 0""", ("FAILED: li",)),
    Case("C programs", "cc.sh", "a run that does not end", """
        fake "$MX_RUN" '1s/^halted$/out of budget/'; MX_RUN=$fake checks/cc.sh 0 queens""", ("FAILED: queens",)),
    Case("library", "embed.sh", "a stack that is too small", """
        [ -n "$MX_EMBED" ] || exit 77
        cp -r "$MX_EMBED" "$work/lib" && plant "$work/lib/zanderanvil.h" 's/ZANDERANVIL_STACK [0-9]*/ZANDERANVIL_STACK 16384/'
        checks/embed.sh "$work/lib" """, ("FAILED: the stack",)),
    Case("library", "embed.sh", "a folder without a library", "checks/embed.sh .", ("no library is there",)),
    Case("C programs", "cc.sh", "an example that is none", "checks/cc.sh 0 typo", ("typo",)),
    # those of the documents
    Case("style", "style.py", "a word that is not to be used", "echo 'This stands here.' >>README.md; checks/style.py", ("README.md",)),
    Case("links", "links.py", "a link to no file", "echo '[x](docs/NOWHERE.md)' >>README.md; checks/links.py", ("NOWHERE",)),
    Case("tutorial", "tutorial.py", "another number", """
        plant docs/tutorial/1-first-program.md 's/^cycles 12$/cycles 13/'; checks/tutorial.py docs/tutorial/1-first-program.md""", ("cycles 1[23]",)),
    Case("editors", "editors.py", "a mnemonic that is none",
         "plant editors/vscode/syntaxes/mipsx.tmLanguage.json 's/|halt|/|hold|/'; checks/editors.py", ("hold|halt",)),
    Case("reading", "reading.py", "a definition that is not listed", "plant docs/READING.md 's/, `reading_of`//'; checks/reading.py", ("READING.md|reading_of",)),
    Case("trusted parts", "trusted.py", "a call that is not listed", """
        plant crates/mx_command/src/system.rt 's/^    command(alloc, words, shelf, out)/    let mut log = mx_io::ByteLog::new();\\n&/'; checks/trusted.py""",
         ("ByteLog|log",)),
    Case("theorem", "theorem.py", "another bound", "plant docs/THEOREM.md 's/^bound n k = 9/bound n k = 8/'; checks/theorem.py", ("bound",)),
    Case("promises", "promises.py", "a name that is none", "plant docs/PROMISES.md 's/`run_is_delay`/`run_was_delay`/'; checks/promises.py", ("run_was_delay",)),
)


def copy(to):
    """Makes a copy of the repository without what is built."""
    ignored = shutil.ignore_patterns("out", ".git", ".mx", "__pycache__")
    shutil.copytree(TOP, to, ignore=ignored, symlinks=True)


def try_case(runner, number, case):
    """Returns what became of a planted fault: `ok`, `WRONG` or `skipped`, and why."""
    if not os.path.exists(f"{TOP}/checks/{case.file}"):
        return "skipped", f"{case.file} is not there"
    at = f"{runner.folder}/planted-{number}"
    os.makedirs(f"{at}/work")
    copy(f"{at}/copy")
    words = ["bash", "-c", BEGIN + case.script]
    status, said, _ = runner.run(words, MINUTES, f"{at}/copy", runner.programs, top=TOP, work=f"{at}/work", MX_SAMPLE="1")
    shutil.rmtree(at, ignore_errors=True)
    if status == common.SKIPPED:
        return "skipped", (said.strip().splitlines() or ["what it needs is not there"])[-1]
    tail = "\n".join(f"    {it[:300]}" for it in said.splitlines()[-15:])
    if status is None:
        return "WRONG", f"it takes too long\n{tail}"
    if status == NOT_PLANTED:
        return "WRONG", f"the fault could not be planted\n{tail}"
    if status == 0:
        return "WRONG", f"the fault is not found\n{tail}"
    missing = [it for it in case.wanted if not re.search(it, said, re.M)]
    if missing:
        return "WRONG", f"status {status}, but it does not print {missing}\n{tail}"
    return "ok", f"status {status}"


def build_needed(runner, checks, names):
    """Builds what the checks with these names need, since a program takes minutes to build; returns what is wrong."""
    chosen = {it.name for it in CASES if not names or it.name in names}
    needed = {it for check in checks.CHECKS if check.name in chosen for it in (*check.programs, *check.wishes)}
    for name in (it for it in (*checks.PROGRAMS, checks.LIBRARY) if it in needed):
        path, wrong = checks.prepare(name, runner)
        if path:
            runner.programs[name] = path
        elif not wrong.startswith("skipped: "):
            return f"{name} cannot be built: {wrong}"
    return ""


def run(runner, names):
    """Tries the planted faults of the checks with these names, of all without; returns the exit status."""
    if shutil.which("bash") is None:
        print("skipped: bash is missing")
        return 0
    import all as checks  # the module that called this one
    known = {it.name: it for it in checks.CHECKS}
    bare = sorted(set(known) - {it.name for it in CASES})
    wrong = f"no fault is planted for {', '.join(bare)}" if bare else build_needed(runner, checks, names)
    if wrong:
        print(f"WRONG: {wrong}")
        return 1
    counts, lock = {"ok": 0, "WRONG": 0, "skipped": 0}, threading.Lock()

    def go(number, case):
        check = known.get(case.name)
        absent = [it for it in check.tools if shutil.which(it) is None] if check else []
        absent += [it for it in check.programs if it not in runner.programs] if check else []
        state, why = ("skipped", f"{', '.join(absent)} is missing") if absent else try_case(runner, number, case)
        with lock:
            counts[state] += 1
            print(f"{state}: {case.name}: {case.what}: {why}", flush=True)

    with concurrent.futures.ThreadPoolExecutor(max(1, (os.cpu_count() or 2) // 2)) as pool:
        for it in [pool.submit(go, number, case) for number, case in enumerate(CASES) if not names or case.name in names]:
            it.result()
    print(f"self-test: compared {counts['ok']} planted faults that were found; {counts['WRONG']} were not, {counts['skipped']} are skipped")
    return 1 if counts["WRONG"] or not counts["ok"] else 0
