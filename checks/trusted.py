#!/usr/bin/env python3
"""The trusted lines: each line of code that touches the system or a log of what the system did.

usage: checks/trusted.py    refuses code that touches the system, or sets a log, in another place than docs/READING.md lists

The page has a table for each of FILES. A row quotes a line of that file and says how often the file has it, if not once; each line that
touches the system has to have a row, so that one more read or write, wherever it is put, is refused. Outside these files no program may
name the runtime, and outside crates/mx_io nothing may name a log.
"""
import re
import sys

from definitions import ROOT

PAGE = ROOT / "docs/READING.md"
UNSAID = "(to be written)"
REAL = "crates/mx_io/src/real.rt"
WORDS = "crates/cmd_answer/src/words.rt"
RUN = "crates/mx_run/src/main.rt"
SERVE = "crates/mx_serve/src/main.rt"
LAB = "crates/mx_lab/src/main.rt"
CC = "crates/mx_cc/src/main.rt"
FILES = (REAL, WORDS, RUN, SERVE, LAB, CC)
# What touches the system: the runtime, its files and arguments, an open file; or notes what the system did.
SYSTEM = r"\brt\b|\bfs::|\benv::|\bfile\b|\bargs\b"
NOTES = r"\bByteLog::|\bTally::|\.note\b|\.note_read\b|\.took\b|\bfaults\b|\bread_faults\b|\bwrite_faults\b|\btaken\b|\.reads\b|ShelfFault::Failed"
EXITS = r"\bExitCode::|\.number\(\)|\bNOT_TEXT\b|\bcommand_words\b|\bReal\w+::new"
TOUCHES = re.compile(f"{SYSTEM}|{NOTES}|{EXITS}")
# Lines to read besides: they decide what is noted.
BESIDES = {
    REAL: ("if count == 0 {", "return Ok(bytes);", "Ok(n) if n > 0 || bytes.is_empty() => {"),
    WORDS: ("match error.kind() {", "Err(error) => return Err(number_without(&error)),", "if words.push(word).is_err() {", "Ok(words)"),
    RUN: ("let status = command_on_system(rt.alloc(), words.as_slice(), &mut shelf, &mut out);",),
}
# The lines of other files that name the runtime: a type's bound alone, and what shows progress on standard error.
NAMES_RUNTIME = {
    "crates/mx_command/src/system.rt": ("pub fn command_on_system<R: Files + Print>(",),
    "crates/lab_watch/src/terminal.rt": ("rt: &'a HostRuntime,", "pub fn new(rt: &'a HostRuntime) -> OnTerminal<'a> {"),
}
RUNTIME = re.compile(r"\bHostRuntime\b|\bstd::rt\b|\bfs::|\benv::|\bstdin\b|\bstdout\b|\bwrite_some\b|\bFiles\b|\bPrint\b")
TEXT = re.compile(r'"(?:[^"\\]|\\.)*"')
RUNTIME_OF_TESTS = ("test_", "bench_")
# Who may name a log, and who may set one by hand.
LOGS = re.compile(r"\b(?:ByteLog|ReadLog|WriteLog|ReadNote|WriteNote)\b")
LOG_FILES = {"crates/mx_io/src/" + name for name in ("byte_log.rt", "read_log.rt", "write_log.rt", "tally.rt", "lib.rt", "real.rt", "memory_shelf.rt")}
LOG_PROOFS = {f"crates/mx_io/proofs/{path}/Proof.antt" for path in
              ("byte_log/ByteLog/new", "byte_log/ByteLog/note", "read_log/ReadLog/new", "read_log/ReadLog/then", "write_log/WriteLog/new", "write_log/WriteLog/then")}
LOG_SPECS = {f"crates/mx_io/specs/{name}.antt" for name in ("ReadNotes", "WriteNotes")}
# A log made by its literal in code: only its own file may do that.
LITERAL = re.compile(r"\b(ByteLog|ReadLog|WriteLog) \{")


def code_lines(path):
    """Returns the lines of a file of code that run, trimmed: no comments, no imports, no clauses."""
    lines = (line.strip() for line in (ROOT / path).read_text().splitlines())
    return [line for line in lines if line and not line.startswith(("//", "use ", "ghost ", "ensures ", "requires ", "#"))]


def touching(path):
    """Returns each line that is to be read, in the order of the file, with how often the file has it."""
    lines = code_lines(path)
    found = {}
    for line in lines:
        if TOUCHES.search(line) or line in BESIDES.get(path, ()):
            found[line] = lines.count(line)
    return found


def rows_of(text):
    """Returns the rows of a table of trusted lines: the line, how often, and what to look for."""
    return [(row[1].replace("\\|", "|"), row[2] or 1, row[3]) for row in re.finditer(r"(?m)^\| `(.*)`(?: \((\d+) times\))? \| (\S.*) \|$", text)]


def table(own, path):
    """Returns the table of a file's trusted lines, with the words that the page has for each."""
    said = {line: words for line, _, words in rows_of(own)}
    text = "| Line | What to look for |\n|---|---|\n"
    for line, times in touching(path).items():
        often = f" ({times} times)" if times > 1 else ""
        text += f"| `{line.replace('|', chr(92) + '|')}`{often} | {said.get(line, UNSAID)} |\n"
    return text


def rows_in(page, path):
    """Returns the rows of the page's table of a file."""
    own = re.search(rf"(?s)<!-- trusted {re.escape(path)} -->\n(.*?)<!-- end -->", page)
    return rows_of(own[1]) if own else []


def compared(page):
    return sum(len(rows_in(page, path)) for path in FILES)


def faults():
    """Says what touches the system or a log where no table is."""
    found = []
    for path, lines in BESIDES.items():
        found += [f"{path} has no line `{line}`" for line in lines if line not in code_lines(path)]
    for file in sorted(ROOT.glob("crates/*/src/**/*.rt")):
        path, crate = str(file.relative_to(ROOT)), file.relative_to(ROOT).parts[1]
        lines = code_lines(path)
        if path not in FILES and not crate.startswith(RUNTIME_OF_TESTS):
            named = [line for line in lines if RUNTIME.search(TEXT.sub("", line)) and line not in NAMES_RUNTIME.get(path, ())]
            found += [f"{path} touches the system: {line}" for line in named]
        if path not in LOG_FILES:
            found += [f"{path} names a log: {line}" for line in lines if LOGS.search(line)]
        for line in lines:
            made = LITERAL.search(line)
            own = made and {"ByteLog": "byte_log.rt", "ReadLog": "read_log.rt", "WriteLog": "write_log.rt"}[made[1]]
            if made and not path.endswith(f"mx_io/src/{own}"):
                found.append(f"{path} makes a log by hand: {line}")
    for file in sorted(list(ROOT.glob("crates/*/proofs/**/*.antt")) + list(ROOT.glob("crates/*/specs/**/*.antt"))):
        path = str(file.relative_to(ROOT))
        if path not in LOG_PROOFS | LOG_SPECS and LOGS.search(re.sub(r"--.*", "", file.read_text())):
            found.append(f"{path} names a log; only the proofs of its own `new`, `then` and `note` may set one")
    found += [f"{path} is gone" for path in sorted(LOG_PROOFS | LOG_SPECS | LOG_FILES) if not (ROOT / path).exists()]
    return found


def main(arguments):
    if arguments:
        print(f"trusted.py: unknown arguments: {' '.join(arguments)}", file=sys.stderr)
        return 2
    page = PAGE.read_text()
    wrong = list(faults())
    number = 0
    for path in FILES:
        rows = rows_in(page, path)
        number += len(rows)
        if [(line, int(times)) for line, times, _ in rows] != list(touching(path).items()):
            wrong.append(f"docs/READING.md: the lines of {path} that touch the system differ from its table (checks/reading.py --write)")
        if not rows:
            wrong.append(f"docs/READING.md has no table of {path}")
    for it in wrong:
        print(it)
    print(f"trusted.py: compared {number} trusted lines of {len(FILES)} files")
    return 1 if wrong or not number else 0


if __name__ == "__main__":
    sys.exit(main(sys.argv[1:]))
