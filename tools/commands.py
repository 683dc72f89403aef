#!/usr/bin/env python3
"""The commands of all programs in one table, for `./mx COMMAND --help`, the manual pages and the completions.

usage: tools/commands.py COMMAND
"""
import sys
from typing import NamedTuple


class Option(NamedTuple):
    """An option, what stands behind it, and what it does, with its range and default."""
    name: str
    value: str
    text: str


class Command(NamedTuple):
    """A command, its names, one line of what it does, its options, and what else has to be said."""
    program: str
    names: str
    text: str
    options: tuple = ()
    more: str = ""


PAGES = {"mx": "COMMANDS", "mx_run": "COMMANDS", "mx_lab": "LAB", "mx_cc": "C", "serve": "SERVE"}

BUDGET = Option("--budget", "N", "0 to 100,000,000 cycles (1,000,000)")
# The laboratory runs for a cycle at least.
SCHEDULER = Option("--scheduler", "NAME", "padded, list, copies or best: whose plans run (copies)")
PLANS = Option("--plans", "FILE", "a plan file, whose plans run in place of a scheduler's (none)")
# With this option the laboratory answers a command of the toolchain.
LINKED_PLANS = Option("--plans", "FILE", "a plan file, whose plans are linked in place of the list scheduler's (none)")
LAB_BUDGET = Option("--budget", "N", "1 to 100,000,000 cycles (1,000,000)")
INTERRUPTS = Option("--interrupts", "FILE", "the cycles of requests, one a line, each above the one before (none)")
INPUT = Option("--input", "FILE", "the bytes that a source with .input reads (none)")
OUTPUT = Option("--output", "FILE", "the file that what is printed goes to (standard output)")
RUN = (
    BUDGET,
    INTERRUPTS,
    INPUT,
    Option("--dump", "A", "0 to 65,535: prints data words from this address on (no dump)"),
    Option("--count", "N", "1 to 65,536 words of the dump (1)"),
    Option("--trace", "N", "0 to 10,000 cycles, each with a line of its own (0)"),
    OUTPUT,
)

COMMANDS = {
    "run": Command("mx_run", "SOURCE", "assembles, links and runs a source, and reports", RUN,
                   "Ends with 0 where the run halted, 3 where it is out of budget, 1 where the source is refused."),
    "meaning": Command("mx_run", "SOURCE", "executes a source one statement after the other", (
        Option("--steps", "N", "0 to 100,000,064 statements (1,000,000)"), INPUT, OUTPUT),
        "Ends with 0 at a halt, 3 where it still runs, 9 where it is stuck.\n"
        "--compiled FILE.s .. first executes a compiler's assembly for MIPS-I (docs/C.md)."),
    "list": Command("mx_run", "SOURCE", "lists the linked words, and where each comes from", (OUTPUT,)),
    "build": Command("mx_run", "SOURCE IMAGE", "writes the linked program as a file", (LINKED_PLANS,)),
    "exec": Command("mx_run", "IMAGE", "runs such a file", RUN),
    "debug": Command("mx_run", "SOURCE LABEL", "stops the pipeline each time that it comes to a label", (
        Option("--stops", "N", "1 to 1,000 stops (1)"),
        Option("--watch", "A", "256 to 65,535: the data word that each stop shows (256)"),
        LINKED_PLANS, BUDGET, INTERRUPTS, INPUT, OUTPUT)),
    "best": Command("mx_run", "SOURCE", "compares the scheduler with the shortest plans", (OUTPUT,)),
    "share": Command("mx_run", "FIRST SECOND", "runs two sources on one machine", (BUDGET, INTERRUPTS, OUTPUT)),
    "join": Command("mx_run", "FIRST SECOND ..", "joins 2 to 16 texts to one source", (OUTPUT,)),
    "migrate": Command("mx_run", "IMAGE NEW", "writes an image file in the newest version"),
    "gen": Command("mx_run", "SEED COUNT", "prints a generated source", (OUTPUT,),
                   more="SEED is 0 to 4,294,967,295, COUNT 0 to 4,000."),
    "soak": Command("mx_run", "SEED COUNT", "runs a generated source under a thousand interrupts", (OUTPUT,),
                    more="SEED is 0 to 4,294,967,295, COUNT 0 to 4,000."),
    "draw": Command("mx_lab", "SOURCE", "draws a run by its cycles", (
        Option("--as", "FORM", "text, svg, html, json, kanata or vcd (text)"),
        Option("--from", "N", "0 to 100,000,000: the first cycle that is drawn (0)"),
        Option("--cycles", "N", "1 to 100,000 cycles (64)"),
        SCHEDULER, PLANS, LAB_BUDGET, INTERRUPTS, INPUT, OUTPUT)),
    "check": Command("mx_lab", "SOURCE ..", "shows every faulty line of a source, or of several modules, and what is wrong with it", (
        Option("--all", "", "shows more than the first twenty"),
        Option("--as", "FORM", "text or json (text)"),
        Option("--colour", "WHEN", "always or never: the text in the colours of a terminal (never; ./mx says always on a terminal)"), OUTPUT)),
    "explain": Command("mx_lab", "SOURCE", "compares a run with the sequential semantics", (
        Option("--as", "FORM", "text or json (text)"), LAB_BUDGET, INTERRUPTS, INPUT, OUTPUT)),
    "profile": Command("mx_lab", "SOURCE", "measures what each part of a source costs in a run", (
        Option("--by", "PART", "line, label, function, or c for lines of C (line)"),
        Option("--sort", "COLUMN", "line, count, cycles, caused, cpi, stalls, noops, squashed or killed (line)"),
        Option("--as", "FORM", "text, json or callgrind (text)"), SCHEDULER, PLANS, LAB_BUDGET, INTERRUPTS, INPUT,
        OUTPUT)),
    "compare": Command("mx_lab", "SOURCE ..", "compares what four schedulers make of sources", (
        Option("--as", "FORM", "text, json or csv (text)"),
        Option("--plans", "NAME=FILE", "a plan file of the one source, with a column of its own; may come several times (none)"),
        LAB_BUDGET, INTERRUPTS, INPUT, OUTPUT)),
    "blocks": Command("mx_lab", "SOURCE", "shows blocks, their dependences and the lengths of their plans", (
        Option("--as", "FORM", "text, json or dot (text)"), LAB_BUDGET, INTERRUPTS, INPUT, OUTPUT)),
    "disassemble": Command("mx_lab", "FILE", "lists the words of a source or an image in assembly language", (
        Option("--as", "FORM", "text or json (text)"), OUTPUT)),
    "caches": Command("mx_lab", "SOURCE", "measures a run with other caches", (
        Option("--line", "N", "1 to 64 words of a line (16)"),
        Option("--brings", "N", "1 to 64 words, at most those of a line, that a miss makes valid (2)"),
        Option("--penalty", "N", "0 to 1,000 cycles of a miss (2)"),
        Option("--as", "FORM", "text, json or svg (text)"), PLANS, LAB_BUDGET, INPUT, OUTPUT)),
    "interrupts": Command("mx_lab", "SOURCE", "measures what an interrupt costs in each cycle of a run", (
        Option("--from", "N", "0 to 100,000,000: the first cycle in which a request comes (0)"),
        Option("--to", "N", "0 to 100,000,000: the last one (that of the undisturbed run)"),
        Option("--step", "N", "1 to 100,000,000 cycles between the requests of two runs (1)"),
        Option("--pairs", "", "runs with a request in each two of the cycles"),
        Option("--rows", "", "prints a row for each run as well"),
        Option("--as", "FORM", "text, json or csv (text)"), PLANS, LAB_BUDGET, INPUT, OUTPUT)),
    "trace": Command("mx_lab", "SOURCE", "prints each turn of a run, for programs that replay it", (
        Option("--as", "FORM", "jsonl (jsonl)"), SCHEDULER, PLANS, LAB_BUDGET, INTERRUPTS, INPUT, OUTPUT)),
    "plans": Command("mx_lab", "SOURCE FILE", "runs a source by the plans of a scheduler of one's own", (
        Option("--print", "", "prints the list scheduler's own file, in place of FILE"), LAB_BUDGET, INTERRUPTS, INPUT, OUTPUT)),
    "certify": Command("mx_lab", "SOURCE", "prints what shows that the image of a source means it", (OUTPUT,)),
    "verify": Command("mx_lab", "SOURCE IMAGE CERTIFICATE", "checks by a certificate that an image means a source", (OUTPUT,),
                      "Ends with 0 where the image is verified, 9 where it is rejected."),
    "serve": Command("serve", "[FILE]", "starts a workbench in the browser", (
        Option("--port", "N", "0 to 65,535 (a free one)"),
        Option("--host", "H", "the address to listen at (127.0.0.1)")),
        "It prints the address of its page; Ctrl-C ends it."),
    "cc": Command("mx_cc", "FILE.c .. -o SOURCE", "compiles with gcc, and translates to a source",
                  more="Options before the files are gcc's; without -O0, -O1, -O3 or -Os it is -O2. It needs the Debian package gcc-mips-linux-gnu."),
    "c": Command("mx_cc", "FILE.c", "compiles with gcc at -O2, and runs it", RUN,
                 "The options come after the file. It needs the Debian package gcc-mips-linux-gnu."),
    "translate": Command("mx_cc", "FILE.s ..", "translates a compiler's assembly for MIPS-I", (
        Option("-o", "SOURCE", "the file that is written (standard output)"),)),
}

# The commands of ./mx itself, which no program answers.
OWN = {
    "prove": Command("mx", "[CRATE ..]", "proves and builds the programs, or the crates that are named; goes on where it was stopped"),
    "test": Command("mx", "[CRATE ..]", "runs all tests, stored cases and checks without proofs, or the tests of the crates that are named"),
    "install": Command("mx", "PREFIX", "proves the toolchain and the laboratory, and puts them below a folder"),
    "package": Command("mx", "DIR", "makes a Debian package of the proved toolchain and laboratory in a folder", (
        Option("--unproved", "", "packages the programs that are built without proofs, and says so in the package's version"),)),
    "grade": Command("mx", "EXERCISE SUBMISSION", "grades a submission of an exercise, and says why each point is lost (docs/EXERCISES.md)", (
        Option("--as", "FORM", "text or json (text)"),)),
    "lsp": Command("mx", "", "a language server, which an editor starts (editors/README.md)"),
    "library": Command("mx", "DIR", "leaves a proved library and its C header in a folder (docs/LIBRARY.md)"),
}


def help_of(name):
    """Returns the help of a command: its words, its options with their ranges and defaults."""
    command = COMMANDS.get(name) or OWN[name]
    called = f"{name} {command.names}".strip()
    usage = f"./mx {name} {'[OPTIONS] ' if command.options else ''}{command.names}".strip()
    lines = [f"{called}: {command.text}", "", f"usage: {usage}"]
    if command.options:
        wide = max(len(f"{it.name} {it.value}") for it in command.options)
        lines += ["", "options (and what holds without them):"]
        lines += [f"  {f'{it.name} {it.value}':{wide}}  {it.text}" for it in command.options]
    if command.more:
        lines += ["", command.more]
    page = PAGES[command.program]
    end = "" if command.program in ("mx", "mx_cc", "serve") else "; `--` ends the options"
    return "\n".join([*lines, "", f"docs/{page}.md has the whole of it{end}."])


def main(words):
    if len(words) != 1 or words[0] not in {**COMMANDS, **OWN}:
        print(f"{__doc__.strip()}\n\n{', '.join([*COMMANDS, *OWN])}", file=sys.stderr)
        return 2
    print(help_of(words[0]))
    return 0


if __name__ == "__main__":
    sys.exit(main(sys.argv[1:]))
