#!/usr/bin/env python3
"""Says on standard error why a command of the toolchain did not end well, and what to do: what its program prints is fixed, and short.
Of a `debug` that ended well it says from which line of C the label is.

usage: tools/hint.py STATUS COMMAND ARGUMENTS ..

A refused source is shown as `check` shows it, by the laboratory where its program is there. Else, and for all other files, the
toolchain repeats the line that it printed, and only about regular files: a pipe cannot be read a second time.
"""
import difflib
import os
import re
import stat
import subprocess
import sys

import commands

DONE, REFUSED, USAGE, OUT_OF_BUDGET, READ_FAULT, WRITE_FAULT, NO_MEMORY, BAD_IMAGE, BAD_REQUESTS, STUCK = range(10)
# The name that the commands are called by.
MX = os.environ.get("MX_NAME", "./mx")
# The commands that it has: C programs and the workbench are in the repository alone.
COMMANDS = {name: it for name, it in commands.COMMANDS.items() if MX == "./mx" or it.program in ("mx_run", "mx_lab")}
STANDARD_INPUT = "/dev/stdin"
# The source that a program in C was translated to, which is gone once it has run.
GONE = os.environ.get("MX_GONE")
# Arguments that name files which are read.
READ = ("SOURCE", "FIRST", "SECOND", "IMAGE", "FILE")
OPTION_FILES = ("--interrupts", "--input")
IMAGE_MAGIC = b"MXIM"
# How long a program may take for a message.
MOST_SECONDS = 10
MOST_LABELS_BYTES = 4_194_304
LIMITS = {"source": "4,194,304", "image": "1,048,576"}

FAULTS = {
    "F1": "invalid character outside a comment",
    "F2": "invalid token",
    "F3": "unknown instruction",
    "F4": "the operands do not match the instruction",
    "F5": "invalid register",
    "F6": "number out of range",
    "F7": "duplicate label",
    "F8": "undefined label",
    "F9": "a label of the other kind",
    "F10": "reserved for the system",
    "F11": "invalid directive, or a statement in the other section",
    "F12": "too many instructions: a source has at most 20,000",
    "F13": "the data section is full: its last word is at address 65,535",
    "F14": "the line is too long: a line has at most 255 bytes",
    "G1": "expected one name after '.import' or '.export', and no label before it",
    "G2": "exported label is not defined in this module",
    "G3": "label is exported twice",
    "G4": "no other module exports this label",
    "G5": "imported label is defined in this module",
}
REQUEST_FAULTS = {
    "BadLine": "expected a cycle: a decimal number",
    "TooMany": "a file has at most 65,536 cycles",
    "NotAscending": "expected a cycle after the one of the line before",
}
IMAGE_FAULTS = {
    "BadMagic": "it does not begin with 'MXIM'",
    "Truncated": "it ends at byte {}",
    "BadRange": "the number at byte {} is out of range",
    "Trailing": "more bytes follow from byte {} on",
}
STUCK_REASONS = {
    "PastEnd": "execution runs past the last instruction; add 'halt'",
    "CodeOperand": "arithmetic on a code address",
    "LoadOutside": "the load is outside the data, 256 to 65,535, and not from the input",
    "StoreOutside": "the store is outside the data, 256 to 65,535, and not to the console",
    "CodeToConsole": "a code address is sent to the console",
    "JumpNotCode": "the jump goes to a number, not to a code address",
}
LABEL = re.compile(rb"[ \t]*([A-Za-z_.$][A-Za-z0-9_.$]*)[ \t]*:")
SHARE_REASONS = {"input": "a shared program has no '.input'", "too many instructions": "a shared program has at most 10,000 instructions"}


def nearest(word, words):
    """Returns "; did you mean 'X'?" for the word that is nearest to this one, or nothing."""
    found = difflib.get_close_matches(word, words, 1)
    return f"; did you mean '{found[0]}'?" if found else ""


def is_regular(file):
    """Returns whether a file can be opened and read at once: no folder, pipe or device."""
    try:
        return stat.S_ISREG(os.stat(file).st_mode)
    except (OSError, ValueError):
        return False


def newest(program):
    """Returns the program with this name: the one that the environment names, or the one that was built last, or None."""
    if named := os.environ.get(program.upper()):
        return named
    top = os.path.dirname(os.path.dirname(os.path.abspath(__file__)))
    places = [f"{top}/crates/{program}/out/{program}", f"{top}/.mx/{program}", f"{os.path.dirname(top)}/libexec/zanderanvil/{program}"]
    there = [it for it in places if is_regular(it) and os.access(it, os.X_OK)]
    return max(there, key=os.path.getmtime, default=None)


def answer(program, *words):
    """Returns what a program prints, as a text; nothing where it is not built or takes too long."""
    path = newest(program)
    if path is None:
        return ""
    try:
        given = None if STANDARD_INPUT in words else subprocess.DEVNULL
        said = subprocess.run([path, *words], stdin=given, stdout=subprocess.PIPE, stderr=subprocess.DEVNULL, timeout=MOST_SECONDS, check=False)
        return said.stdout.decode(errors="replace")
    except (OSError, ValueError, subprocess.TimeoutExpired):
        return ""


def split(words):
    """Returns the names among the arguments, and the options with their values (None where there is none)."""
    names, options, rest = [], [], list(words)
    while rest:
        word = rest.pop(0)
        if word == "--":
            return names + rest, options
        if len(word) > 1 and word.startswith("-"):
            name, sign, value = word.partition("=")
            if not sign:
                is_value = rest and (not rest[0].startswith("--") or rest[0] == "-")
                value = rest.pop(0) if is_value else None
            options.append((name, value))
        else:
            names.append(word)
    return names, options


def expected(option):
    """Returns the values that an option may have."""
    if option.value == "FILE":
        return "a file"
    return re.match(r"[\d,]+ to [\d,]+", option.text).group(0)


def in_range(option, value):
    """Returns whether a value is a number of the range that the text of its option begins with."""
    if option.value == "FILE":
        return True
    least, most = (int(it.replace(",", "")) for it in expected(option).split(" to "))
    return re.fullmatch(r"\+?[0-9]{1,40}", value) is not None and least <= int(value) <= most


def of_options(name, options):
    """Returns what is wrong with the options of a command, or None."""
    known = {it.name: it for it in COMMANDS[name].options}
    seen = set()
    for option, value in options:
        if option not in known:
            return f"unexpected argument '{option}'{nearest(option, known)}"
        if value is None:
            return f"missing value for '{option}': expected {expected(known[option])}"
        if not in_range(known[option], value):
            return f"invalid value '{value}' for '{option}': expected {expected(known[option])}"
        if option in seen:
            return f"repeated option '{option}'"
        seen.add(option)
    return None


def of_numbers(name, names):
    """Returns which number among the arguments of a command is out of its range, or None."""
    ranges = dict(re.findall(r"([A-Z]+) is ([\d,]+ to [\d,]+)", COMMANDS[name].more.replace(", COUNT ", ". COUNT is ")))
    for role, value in zip(COMMANDS[name].names.split(), names):
        if role in ranges and not in_range(commands.Option(role, "N", ranges[role]), value):
            return f"invalid value '{value}' for {role}: expected {ranges[role]}"
    return None


def of_words(name, names, options):
    """Returns what is wrong with the arguments of a command."""
    wanted = COMMANDS[name].names.split()
    wrong = of_options(name, options)
    if wrong:
        return wrong
    if ".." in wanted:
        return "expected 2 to 16 files" if not 2 <= len(names) <= 16 else "invalid arguments"
    if len(names) < len(wanted):
        return f"missing argument {wanted[len(names)]}"
    if len(names) > len(wanted):
        return f"unexpected argument '{names[len(wanted)]}'"
    return of_numbers(name, names) or "invalid arguments"


def labels_of(source):
    """Returns the labels that the lines of a source begin with."""
    labels = []
    with open(source, "rb") as it:
        for line in it.read(MOST_LABELS_BYTES).split(b"\n"):
            at = 0
            while found := LABEL.match(line, at):
                labels.append(found.group(1).decode())
                at = found.end()
    return labels


def shown(name):
    """Returns how a file is called in a message: standard input and the source of a program in C have no name."""
    return "standard input" if name == STANDARD_INPUT else "the translated source" if name == GONE else name


def is_image(file):
    """Returns whether a file is an image file."""
    if not is_regular(file):
        return False
    with open(file, "rb") as it:
        return it.read(len(IMAGE_MAGIC)) == IMAGE_MAGIC


def line_of(file, number):
    """Returns a line of a file without its end."""
    with open(file, "rb") as it:
        lines = it.read(MOST_LABELS_BYTES + 1).split(b"\n", number)
    return lines[number - 1].rstrip(b"\r") if number <= len(lines) else b""


def of_line(file, number, fault):
    """Yields what is said of a faulty line where only its number and its fault are known."""
    code = fault.split()[0]
    line = line_of(file, number)
    at = 0
    while found := LABEL.match(line, at):
        at = found.end()
    word = re.compile(rb"[ \t]*([^ \t,;#\[\]]+)").match(line, at)
    if code == "F3" and word:
        yield f"{file}:{number}:{word.start(1) + 1}: error[{code}]: {FAULTS[code]} '{word.group(1).decode(errors='replace')}'"
    else:
        yield f"{file}:{number}: error[{code}]: {FAULTS.get(code, fault)}"
    yield "    " + line.decode(errors="replace")
    if code == "F3" and word:
        yield "    " + re.sub(rb"[^\t]", b" ", line[:word.start(1)]).decode() + "^" * len(word.group(1))
    yield f"    hint: {MX} check {file} shows every faulty line"


def of_answer(file, said):
    """Yields what is said of a file of which the toolchain prints `line N: FAULT`, or nothing."""
    found = re.search(r"line (\d+): (.*)", said)
    if not found:
        return
    number, fault = int(found.group(1)), found.group(2)
    far = re.match(r"displacement (\S+) from (\d+) to (\d+)", fault)
    if far:
        yield (f"{file}:{number}: error[L1]: the branch at {int(far.group(2)):#x} does not reach its target at {int(far.group(3)):#x}: "
               "branch range is -32768 to 32767 words")
    elif fault in SHARE_REASONS:
        yield f"{file}:{number}: error: {SHARE_REASONS[fault]}"
    else:
        yield from of_line(file, number, fault)


def of_source(file):
    """Yields what is said of a source that is refused."""
    if is_image(file):
        yield f"zanderanvil: error: '{file}' is an image file, not a source"
        yield f"    hint: {MX} exec {file} runs it, {MX} disassemble {file} lists it"
    elif is_regular(file):
        lines = answer("mx_lab", "check", "--", file).splitlines()
        if lines and re.search(r": error\[", "\n".join(lines)):
            yield from lines
        else:
            yield from of_answer(file, answer("mx_run", "list", "--", file))
    else:
        yield f"zanderanvil: error: {shown(file)} is refused as printed above"
        yield f"    hint: store the source in a file; {MX} check FILE then shows every faulty line"


def of_label(source, label):
    """Yields what is said where a source has no such label of the code."""
    labels = labels_of(source) if is_regular(source) else []
    if label in labels:
        yield f"zanderanvil: error: '{label}' is no label of an instruction in {shown(source)}"
    else:
        yield f"zanderanvil: error: undefined label '{label}' in {shown(source)}{nearest(label, labels)}"


def of_line_of_c(source, label):
    """Yields the line of C that the instruction after a label was made from, where the source was translated from C."""
    if not is_regular(source):
        return
    place, found = None, False
    with open(source, encoding="latin-1") as lines:
        for line in lines:
            begins = re.match(r"([\w.]+):", line)
            if begins and not re.match(r"L|_\.|\.", line):
                place = None
            found = found or bool(begins) and begins[1] == label
            comment = re.match(r"; (.+:\d+)$", line)
            if comment:
                place = comment[1]
            elif found and line.strip() and not begins:
                break
    if found and place:
        yield f"zanderanvil: '{label}' is at {place}"


def of_modules(name, names):
    """Yields what is said of sources that are joined, or share the machine."""
    if not all(map(is_regular, names)):
        return
    said = answer("mx_run", name, "--", *names)
    found = re.match(r"(?:module|program) (\d+) ", said)
    if found and int(found.group(1)) <= len(names):
        yield from of_answer(names[int(found.group(1)) - 1], said)


def of_refused(name, names):
    """Yields what is said of a refused source."""
    if name in ("share", "join"):
        yield from of_modules(name, names)
        return
    said = list(of_source(names[0]))
    if name == "debug" and not said:
        said = list(of_label(names[0], names[-1]))
    yield from said


def files_read(name, names, options):
    """Returns the files that a command reads, as its arguments name them, with their kinds."""
    wanted = COMMANDS[name].names.replace(" ..", "").split()
    wanted += [wanted[-1]] * (len(names) - len(wanted))
    roles = zip(names, wanted)
    files = [(file, "image" if role == "IMAGE" else "source") for file, role in roles if role in READ and not (name == "build" and role == "IMAGE")]
    return files + [(value, "file") for option, value in options if value and option in OPTION_FILES]


def why_unread(file, kind):
    """Returns why a file cannot be read, or None where it can."""
    if not os.path.lexists(file):
        return f"cannot read '{file}': no such file"
    if os.path.isdir(file):
        return f"'{file}' is a directory"
    if not os.access(file, os.R_OK):
        return f"cannot read '{file}': permission denied"
    limit = LIMITS.get(kind, "1,048,576")
    if is_regular(file) and os.path.getsize(file) > int(limit.replace(",", "")):
        return f"'{file}' is too large: {'a source' if kind == 'source' else 'such a file'} has at most {limit} bytes"
    return None


def of_unread(name, names, options):
    """Yields what is said of a file that cannot be read."""
    files = files_read(name, names, options)
    why = next((it for it in (why_unread(*file) for file in files) if it), None)
    if name == "debug" and len(names) == 2 and not os.path.exists(names[0]) and is_regular(names[1]):
        why = f"{why}; did you mean '{MX} debug {names[1]} {names[0]}'?"
    yield f"zanderanvil: error: {why or 'a file cannot be read'}"


def of_image(file):
    """Yields what is said of a file that is no image file."""
    found = re.search(r"image: (\w+)(?: at (\d+))?", answer("mx_run", "exec", "--budget", "0", "--", file) if is_regular(file) else "")
    why = f": {IMAGE_FAULTS[found.group(1)].format(found.group(2))}" if found else ""
    yield f"zanderanvil: error: {repr(file) if file != STANDARD_INPUT else shown(file)} is not a valid image file{why}"
    yield f"    hint: {MX} build SOURCE IMAGE writes one"


def of_requests(name, names, options):
    """Yields what is said of a faulty interrupt file."""
    file = dict(options).get("--interrupts") or ""
    said = answer("mx_run", name, "--budget", "0", "--interrupts", file, "--", *names) if all(map(is_regular, [file, *names])) else ""
    found = re.search(r"interrupts line (\d+): (\w+)", said)
    if found:
        yield f"{file}:{found.group(1)}: error[{found.group(2)}]: {REQUEST_FAULTS[found.group(2)]}"
        yield "    " + line_of(file, int(found.group(1))).decode(errors="replace")
    else:
        yield f"zanderanvil: error: '{shown(file)}' is not a valid interrupt file"
    yield "    hint: an interrupt file has a cycle on each line, each after the one before"


def last_line(file):
    """Returns the number of the last line of a source that has a statement, as far as can be seen."""
    with open(file, "rb") as it:
        lines = it.read(MOST_LABELS_BYTES).split(b"\n")
    code = [number for number, line in enumerate(lines, 1) if line.split(b";")[0].strip() and not line.lstrip().startswith(b".")]
    return code[-1] if code else len(lines)


def of_stuck(file, options):
    """Yields why the sequential execution of a source is stuck, or nothing."""
    given = [it for option, value in options if option == "--input" and value for it in (option, value)]
    if not all(map(is_regular, [file, *given[1:]])):
        return
    found = re.search(r"stuck line (\d+) (\w+)", answer("mx_run", "meaning", *given, "--", file))
    if found:
        number, why = int(found.group(1)), found.group(2)
        mark = "" if why == "PastEnd" else f" error[{why}]:"
        yield f"{file}:{number or last_line(file)}:{mark} {STUCK_REASONS.get(why, why)}"


def of_budget(name, names, options):
    """Yields what is said of a run that its budget ends."""
    stuck = list(of_stuck(names[0], options)) if name in ("run", "debug", "meaning") and names else []
    yield from stuck
    if not stuck:
        option, what = ("--steps", "instructions") if name == "meaning" else ("--budget", "cycles")
        yield f"zanderanvil: out of budget: '{option} N' gives more {what}"
    if name in ("run", "debug"):
        source = shown(names[0]) if names else "SOURCE"
        yield f"    hint: {MX} explain {'SOURCE' if source == 'standard input' else source} compares the run with the sequential semantics"


def of_unwritten(name, names):
    """Yields what is said of a file that cannot be written; nothing of a pipe whose reader has what it needs, as head."""
    if name in ("build", "migrate"):
        yield f"zanderanvil: error: cannot write '{names[-1]}'"
    elif not stat.S_ISFIFO(os.fstat(sys.stdout.fileno()).st_mode):
        yield "zanderanvil: error: cannot write to standard output"


def lines_for(status, name, words):
    """Yields the lines that say what is wrong, and what to do."""
    names, options = split(words)
    file = names[0] if names else STANDARD_INPUT
    if status == DONE and len(names) == 2:
        yield from of_line_of_c(*names)
    elif status == REFUSED:
        yield from of_refused(name, names or [file])
    elif status == USAGE:
        yield f"zanderanvil: error: {of_words(name, names, options)}"
        yield f"    hint: {MX} {name} --help lists its arguments"
    elif status == OUT_OF_BUDGET:
        yield from of_budget(name, names, options)
    elif status == READ_FAULT:
        yield from of_unread(name, names, options)
    elif status == WRITE_FAULT:
        yield from of_unwritten(name, names)
    elif status == NO_MEMORY:
        yield "zanderanvil: error: out of memory"
    elif status == BAD_IMAGE:
        yield from of_image(file)
    elif status == BAD_REQUESTS:
        yield from of_requests(name, names, options)
    elif status == STUCK:
        yield from of_stuck(file, options)
        yield f"    hint: {MX} explain {'SOURCE' if file == STANDARD_INPUT else file} says what to do"


def main(words):
    if len(words) < 2:
        print(__doc__.strip(), file=sys.stderr)
        return 2
    status, name, *rest = words
    if name not in COMMANDS:
        runs = f"; '{MX} run {name}' runs a source" if is_regular(name) else ""
        print(f"zanderanvil: error: unknown command '{name}'{runs or nearest(name, COMMANDS)}", file=sys.stderr)
        print(f"    hint: {MX} --help lists the commands", file=sys.stderr)
        return 2
    for line in lines_for(int(status), name, rest):
        line = line.replace(STANDARD_INPUT, "<stdin>")
        print(line.replace(GONE, "SOURCE") if GONE else line, file=sys.stderr)
    return 0


if __name__ == "__main__":
    sys.stderr.reconfigure(errors="replace")
    sys.exit(main(sys.argv[1:]))
