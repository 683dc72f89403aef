#!/usr/bin/env python3
"""What a reader has to read to believe the theorem of the shipped program: every definition that a clause of its call leads to.

usage: checks/reading.py            refuses docs/READING.md where it differs from the code
       checks/reading.py --write    writes the generated tables of that page again
       checks/reading.py --names    prints which definitions of each file belong to which part

It begins at every clause of `command_on_system` (crates/mx_command/src/system.rt) and follows each definition by its names
(definitions.py); part L begins at the calls of the semantics of compiled assembly. It compares: the clauses and the fields that the page quotes; the crates, files, names and lines of each part; the
values of constants; the laws of terms that proofs give; and the trusted lines (trusted.py). Lines are those of the definitions that are
reached and of the comments over them, without imports and empty lines; of a file of code those of the types that are named.
"""
import re
import sys
import textwrap

import promises
import trusted
from definitions import NAME, ROOT, Walk, clauses_of, imports_of

PAGE = ROOT / "docs/READING.md"
TOP = ROOT / "crates/mx_command/src/system.rt"
CALL = "command_on_system"
HEADLINE = ROOT / "crates/mx_command/specs/Headline.antt"
# The calls of the semantics of compiled assembly, which the theorem does not speak of: a machine at its start, a run of it, and where
# memory is not the program's.
COMPILED = ((ROOT / "crates/cc_meaning/src/machine.rt", "new"), (ROOT / "crates/cc_meaning/src/running.rt", "run"),
    (ROOT / "crates/cc_meaning/src/layout.rt", "of"))
# The types of the call itself, besides those that its clauses name.
TYPES = (("mx_io", "real", "RealShelf"), ("mx_io", "real", "RealSink"), ("cmd_answer", "status", "Status"))
# The first stage: what is claimed of `run`, the machine, which words run, and how reports and interrupt files are spelled.
PARTS = {
    "D": ("mx_text", "mx_report", ("mx_board", "RequestFile"), ("cmd_simulate", "Simulated")),
    "A": ("mx_command", "law_end_to_end", "law_link", "mx_source", "mx_isa", "mx_io", "cmd_answer", "cmd_options", "cmd_simulate",
          "cmd_source", "cmd_meaning", ("mx_delay", "Prefixes"), ("cmd_table", "Commands")),
    "B": ("mx_turn", "mx_pcchain", "mx_icache", "mx_board"),
    "C": ("mx_blocks", "mx_depend", "mx_validate", "mx_reorg", "mx_squash", "mx_layout", "mx_link", "law_schedule", "mx_delay", "mx_code"),
    "E": ("mx_lex", "mx_lines", "mx_asm"),
    "F": ("cmd_table", "cmd_line"),
}
# The later stages: the assembler, the command line, two programs, stops, modules, shortest plans, the other commands, and the semantics of
# compiled assembly.
LATER = "EFGHIJKL"
COMMANDS = {"Share": "G", "Debug": "H", "Join": "I", "Best": "J", "Meaning": "K", "Build": "K", "Exec": "K", "Listing": "K", "Gen": "K",
            "Soak": "K", "Migrate": "K"}
FIELDS = {"pair": "G", "stops": "H", "modules": "I", "best": "J"}
# A term that a proof gives: the law that says what it is (its file, its name), and the definition that the law states.
LAWS = {
    ("law_schedule", "Scheduler", "scheduler"):
        ("crates/mx_command/src/laws.rt", "greedy_layout_is", ("mx_command", "specs", "Layouts", "GreedyLayoutIs")),
    ("mx_reorg", "ExistsPlans", "greedy_exists"):
        ("crates/cmd_best/src/laws.rt", "lengths_are_of_plans", ("cmd_best", "specs", "Lengths", "GreedyLengthIs")),
    ("mx_best", "Fewest", "shortest_of"):
        ("crates/cmd_best/src/laws.rt", "lengths_are_of_plans", ("cmd_best", "specs", "Lengths", "ShortestLengthIs")),
}
# What the page writes in the place of longer terms, in this order.
SHORT_CLAUSE = (("(map string_bytes words.now)", "words"), ("(log_of shelf.new)", "reads"), ("(answer_on words reads)", "answer"))
SHORT_FIELD = (("accepted_run", "run"), ("a.limits.budget", "budget"), ("(length a.requests)", "k"), ("accepted_source", "source"),
               ("a.input", "input"), ("a.sites", "sites"))


def by_command(text):
    """The part of a line of a definition that goes over the commands."""
    found = re.search(r"\(Some \((\w+)", text) or re.match(r"  (\w+) : \(", text)
    return COMMANDS.get(found[1]) if found else None


def by_field(text):
    """The part of a field of `Promised`."""
    found = re.match(r"  pub (\w+) :", text)
    return FIELDS.get(found[1]) if found else None


SLICES = {("mx_command", "Protocols", "protocol_of"): by_command, ("cmd_table", "Commands", "Command"): by_command,
          ("mx_command", "Promised", "Promised"): by_field}


def first_part(crate, module):
    """The part of a crate's module in the first stage."""
    return next((part for part, own in PARTS.items() if (crate, module) in own or crate in own), "?")


def aside_part(crate, module):
    return "F" if crate in PARTS["F"] else "E"


def named_in(path, call):
    """Yields what the clauses of a call name and its file imports, as `Walk` begins with it."""
    imports = imports_of(path.read_text().splitlines())
    for _, _, text in clauses_of(path, call):
        for first, _, rest in {word.partition(".") for word in NAME.findall(text)}:
            if first in imports:
                crate, folder, module, name = imports[first]
                yield crate, folder, module, name or rest, call


def walked():
    """Follows all clauses, stage by stage."""
    walk = Walk(SLICES, {term: [(*law[2], law[1])] for term, law in LAWS.items()})
    start = [(crate, "specs", f"declared.{module}.{name}", name, CALL) for crate, module, name in TYPES]
    walk.stage("ABCD", first_part, [*start, *named_in(TOP, CALL)])
    walk.stage("E", aside_part)
    walk.stage("F", lambda crate, module: "F")
    for part in LATER[2:-1]:
        walk.stage(part, lambda crate, module, own=part: own)
    walk.stage(LATER[-1], lambda crate, module: LATER[-1], [it for path, call in COMPILED for it in named_in(path, call)])
    return walk


def in_order(keys, files):
    """Returns the files, each after those that it imports."""
    done = []

    def visit(key):
        if key in done or key not in keys:
            return
        for crate, _, module, _ in files[key].imports.values():
            if (crate, module) != key:
                visit((crate, module))
        done.append(key)

    for key in sorted(keys):
        visit(key)
    return done


def listed(names):
    return ", ".join(f"`{it}`" for it in names)


def named_of(walk, part, key):
    """Returns a file's name, with the definitions of it that belong to the part, or those that do not, if not all do."""
    file, own = walk.files[key], walk.lines[part][key]
    names = [it for it in file.defined if it in own]
    cut = {it: len(own[it]) for it in names if len(own[it]) < len(file.defined[it])}
    others = [it for it in file.defined if it not in own]
    if not cut and not others:
        return f"`{key[1]}`"
    if not cut and len(others) < len(names):
        return f"`{key[1]}` (not {listed(others)})"
    shown = ", ".join(f"{cut[it]} of {len(file.defined[it])} lines of `{it}`" if it in cut else f"`{it}`" for it in names)
    return f"`{key[1]}` ({shown})"


def lines_of(own):
    return sum(line.count for lines in own.values() for line in lines)


def total_of(walk, part):
    return (sum(lines_of(own) for own in walk.lines.get(part, {}).values())
            + sum(sum(own.values()) for own in walk.types.get(part, {}).values()))


def crates_of(walk, part):
    """Returns for each crate of the part, in the order of crates.txt, its files, each after those that it imports, and its types."""
    keys, code = in_order(walk.lines.get(part, {}), walk.files), walk.types.get(part, {})
    for crate in promises.crates():
        own = [it for it in keys if it[0] == crate]
        types = {name: lines for path, names in code.items() if path.parts[-3] == crate for name, lines in names.items()}
        if own or types:
            yield crate, own, types


def part_table(walk, part, own):
    """Returns the table of a part: the crates with their definitions, and what the page says of each."""
    says = {row[1]: row[2] for row in re.finditer(r"(?m)^\| `(\w+)` \| (\S.*?) \|", own)}
    text = f"{total_of(walk, part):,} lines.\n\n| Crate | What it says | Definitions | Lines |\n|---|---|---|---|\n"
    for crate, keys, types in crates_of(walk, part):
        names = [named_of(walk, part, key) for key in keys]
        if types:
            names.append(f"type{'s' if len(types) > 1 else ''} {listed(sorted(types))}")
        number = sum(lines_of(walk.lines[part][key]) for key in keys) + sum(types.values())
        text += f"| `{crate}` | {says.get(crate, trusted.UNSAID)} | {', '.join(names)} | {number} |\n"
    return text


def constants_table(walk):
    text = "| Constant | Value | File |\n|---|---|---|\n"
    for (name, path), (value, _) in sorted(walk.constants.items(), key=lambda it: it[0]):
        text += f"| `{name}` | `{value}` | `{path.relative_to(ROOT)}` |\n"
    return text


def terms_table(walk):
    text = "| Definition | Takes | Law that says what it is |\n|---|---|---|\n"
    for term, by in sorted(walk.terms.items()):
        crate, module, name = term
        law = f"`{LAWS[term][1]}` (`{LAWS[term][0]}`)" if term in LAWS else "none"
        text += f"| `{by.split(': ')[1]}` (`{by.split(': ')[0]}`) | `{name}` of `crates/{crate}/proofs/{module}.antt` | {law} |\n"
    return text


def library_block(walk):
    names = textwrap.fill(" ".join(sorted(walk.library)), 120, break_on_hyphens=False)
    return f"{len(walk.library)} names:\n\n```text\n{names}\n```\n"


def generated(walk, page):
    """Returns the text of each generated part of the page."""
    texts = {part: part_table(walk, part, section(page, part) or "") for part in "ABCD" + LATER}
    both = total_of(walk, "A") + total_of(walk, "B")
    texts["sums"] = (f"Parts A and B have {both:,} lines, parts C and D {total_of(walk, 'C') + total_of(walk, 'D'):,}, "
                     f"and the others {sum(total_of(walk, part) for part in LATER):,}.\n")
    texts["constants"] = constants_table(walk)
    texts["terms"] = terms_table(walk)
    texts["library"] = library_block(walk)
    return texts


def shortened(text, pairs):
    for long, short in pairs:
        text = text.replace(long, short)
    return text


def fields_of_headline():
    """Returns the fields of `Headline`, each with its text."""
    text = HEADLINE.read_text().partition("record Headline ")[2]
    text = re.sub(r"--.*", "", text)
    return [(it[1], " ".join(it[2].split())) for it in re.finditer(r"(?s)    pub (\w+) : (.*?)(?=\n    pub |\Z)", text)]


def quoted():
    """Returns what the page has to quote: for each table its rows, without what they mean."""
    clauses = clauses_of(TOP, CALL)
    return {
        "clauses": [f"{name} {{ {shortened(text, SHORT_CLAUSE)} }}" for kind, name, text in clauses if kind == "ensures"],
        "premises": [f"{name} {{ {shortened(text, SHORT_CLAUSE)} }}" for kind, name, text in clauses if kind == "requires"],
        "fields": [f"{name} : {shortened(text, SHORT_FIELD)}" for name, text in fields_of_headline()],
    }


def section(page, mark):
    """Returns what the page has between the mark and its end."""
    found = re.search(rf"(?s)<!-- {re.escape(mark)} -->\n(.*?)<!-- end -->", page)
    return found[1] if found else None


def comment_of(name):
    """Returns the comment over a clause of the call."""
    found = re.search(rf"((?: *// .*\n)+) *(?:ensures|requires) {name} \{{", TOP.read_text())
    return " ".join(re.sub(r"(?m)^ *// ", "", found[1]).split()) if found else trusted.UNSAID


def quote_table(page, mark, rows):
    """Returns the table of quoted clauses, with the words that the page has for each name; else those of the code."""
    words = {row[2].split(" ")[0]: row[1] for row in re.finditer(r"(?m)^\| (.*) \| `(.*)` \|$", section(page, mark) or "")}
    return ("| In words | In the code |\n|---|---|\n"
            + "".join(f"| {words.get(row.split(' ')[0]) or comment_of(row.split(' ')[0])} | `{row}` |\n" for row in rows))


def wanted_sections(page, walk):
    texts = generated(walk, page)
    for mark, rows in quoted().items():
        texts[mark] = quote_table(page, mark, rows)
    for path in trusted.FILES:
        texts[f"trusted {path}"] = trusted.table(section(page, f"trusted {path}") or "", path)
    return texts


def faults_of_laws(walk):
    """Says which law of a proof's term does not state the definition that takes it."""
    for term in sorted(walk.terms):
        if term not in LAWS:
            continue
        path, name, (crate, _, module, stated) = LAWS[term]
        clauses = clauses_of(ROOT / path, name)
        if not any(stated in text for _, _, text in clauses):
            yield f"{path}: the law {name} does not state {stated}"
        file = walk.files[(crate, module)]
        taker = walk.terms[term].split(": ")[1]
        if not any(taker in line.text for line in file.defined.get(stated, [])):
            yield f"crates/{crate}/specs/{module}.antt: {stated} says nothing of {taker}"


def main(arguments):
    if arguments not in ([], ["--write"], ["--names"]):
        print(f"reading.py: unknown arguments: {' '.join(arguments)}", file=sys.stderr)
        return 2
    walk = walked()
    if arguments == ["--names"]:
        for part in sorted(walk.lines):
            for key in sorted(walk.lines[part]):
                print(f"{part} {key[0]}/specs/{key[1]}.antt: {' '.join(walk.lines[part][key])}")
        return 0
    page = PAGE.read_text()
    wanted = wanted_sections(page, walk)
    if arguments == ["--write"]:
        for mark, text in wanted.items():
            if section(page, mark) is not None:
                page = re.sub(rf"(?s)<!-- {re.escape(mark)} -->\n.*?<!-- end -->", lambda _: f"<!-- {mark} -->\n\n{text}\n<!-- end -->", page)
        PAGE.write_text(page.rstrip() + "\n")
    faults = list(walk.faults) + list(faults_of_laws(walk))
    for mark, text in wanted.items():
        own = section(page, mark)
        if own is None:
            faults.append(f"docs/READING.md has no section <!-- {mark} -->")
        elif own.strip() != text.strip():
            there, here = own.strip().splitlines(), text.strip().splitlines()
            first = next((it for it in here if it not in there), next((it for it in there if it not in here), "the order of its lines"))
            faults.append(f"docs/READING.md: '{mark}' differs from the code (checks/reading.py --write), first: {first}")
        if trusted.UNSAID in (own or ""):
            faults.append(f"docs/READING.md: a row of '{mark}' has no words yet")
    strays = sorted({key for key in walk.lines.get("?", {})} | {it[0] for it in walk.later})
    faults += [f"{it} is reached and belongs to no part" for it in strays]
    faults += trusted.faults()
    names = sum(len(own) for part in walk.lines.values() for own in part.values())
    quotes = sum(len(rows) for rows in quoted().values())
    if not names or not quotes or not walk.constants:
        faults.append("nothing was compared")
    for fault in faults:
        print(fault)
    print(", ".join(f"part {part} {total_of(walk, part):,} lines" for part in "ABCD" + LATER))
    print(f"reading.py: compared {names:,} definitions, {len(walk.constants)} constants, {quotes} quoted clauses and {trusted.compared(page)} trusted lines")
    return 1 if faults else 0


if __name__ == "__main__":
    sys.exit(main(sys.argv[1:]))
