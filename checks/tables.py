#!/usr/bin/env python3
"""Compares each other place that names a command, an option, a range or a default with the tables of the proved programs.

usage: checks/tables.py

The proved tables are `ROWS` and the readers of crates/cmd_table, and those of crates/lab_line/src/table.rt. The other places are tools/commands.py
(help, manual pages and completions), ./mx, what a request of the workbench may hold (crates/lab_request, tools/serve/programs.py, the
page), and the tables of options in the documents.
"""
import re
import sys

import common
from common import TOP, tell

sys.path.insert(0, f"{TOP}/tools")
import commands  # noqa: E402

PAGES = {"draw": "PICTURES", "profile": "MEASUREMENTS", "caches": "MEASUREMENTS", "interrupts": "MEASUREMENTS", "check": "DIAGNOSTICS"}
# The readers of crates/cmd_table that two commands share, and the numbers that are names of a command, not options.
SHARED = {"limits_of": ("run", "exec"), "read_seeded": ("gen", "soak"), "session_limits_of": ("debug",)}
# The commands of mx_run that mx_lab answers where they have this option.
PLANNED, PLANS = ("build", "debug"), "plans"


def text_of(path):
    with open(f"{TOP}/{path}", encoding="utf-8") as file:
        return file.read()


def number(text):
    return int(text.replace("_", "").replace(",", ""))


def grouped(value):
    return f"{value:,}"


def constants(text):
    """Returns the numbers that a file of code names."""
    return {name: number(value) for name, value in re.findall(r"const (\w+): \w+ = ([0-9_]+);", text)}


def toolchain():
    """Returns of each command of mx_run how many names it has and its options, each with default, least and most number; None for a file."""
    text, readers = text_of("crates/cmd_table/src/command.rt"), text_of("crates/cmd_table/src/readers.rt")
    lists = {name: re.findall(r'"(\w+)"', words) for name, words in re.findall(r"const (\w+_OPTIONS): .*? = \[(.*?)\];", text)}
    limits = {name: number(value) for name, value in re.findall(r"const (\w+_MODULES): usize = (\d+);", text)}
    known = {**constants(readers), "u32::MAX": 2**32 - 1}
    found, ranges = {}, {}
    for body in re.split(r"\n(?=(?:pub )?fn )", readers):
        name = re.match(r"(?:pub )?fn (\w+)", body)
        rows = re.findall(r"(number_or|optional|number)\(\*?(\w+), ((?:[\w:]+(?:, )?)+)\)\?", body)
        for how, option, numbers in rows:
            values = [known[it] if it in known else number(it) for it in numbers.split(", ")]
            for command in SHARED.get(name[1], (name[1].removesuffix("_read"),)):
                ranges[command, option] = values if how == "number_or" else [None, *values]
    for word, options, fewest, most in re.findall(r'Row \{ word: "(\w+)", options: &(\[\]|\w+), fewest: (\w+), most: (\w+),', text):
        found[word] = (limits.get(fewest) or int(fewest), limits.get(most) or int(most),
                       {it: ranges.get((word, it)) for it in lists.get(options, [])})
    return found, ranges


def laboratory():
    """Returns of each command of mx_lab the names it takes, what it does, and its options: a range with its default, or words with theirs."""
    text = text_of("crates/lab_line/src/choices.rt") + text_of("crates/lab_line/src/table.rt")
    known = constants(text)
    texts = dict(re.findall(r'const (\w+): &str = "([^"]*)";', text))
    texts_of = {name: re.findall(r'"(\w+)"', said) for name, said in re.findall(r"static (\w+): \[&str; \d+\] = \[(.*?)\];", text, re.S)}
    choices = {name: texts_of[of] for name, of in re.findall(r"Choice::(\w+) => &(\w+),", text)}
    # the rows are in the order of the names
    names = re.findall(r"(\w+),", re.search(r"enum ArgumentName \{(.*?)\n\}", text, re.S)[1])
    rows = re.findall(r"ArgumentRow \{\s+name: ([^,]+),\s+takes: (.*?),\s+default: ([^,]+),\s+help: \"", text, re.S)
    arguments = {name: (texts.get(row[0], row[0].strip('"')), *row[1:]) for name, row in zip(names, rows, strict=True)}

    def meaning(takes, said):
        default = re.search(r'"(\w+)"', said)
        if takes.startswith("Takes::Number"):
            ends = dict(re.findall(r"(least|most): ([^,\n]+)", takes))
            return (number(default[1]) if default else None, *(known.get(ends[it]) or number(ends[it]) for it in ("least", "most")))
        if takes.startswith("Takes::Word"):
            return choices[re.search(r"choice: Choice::(\w+)", takes)[1]], default[1]
        return None

    lists = {name: re.findall(r"ArgumentName::(\w+)", said) for name, said in re.findall(r"static (\w+): \[ArgumentName; \d+\] = \[(.*?)\];", text, re.S)}
    order = re.findall(r"(\w+),", re.search(r"enum CommandName \{(.*?)\n\}", text, re.S)[1])
    about = dict(zip(order, re.findall(r'"([^"]*)"', re.search(r"static ABOUT: .*?\n\];", text, re.S)[0]), strict=True))
    of = dict(re.findall(r"CommandName::(\w+) => &(\w+),", text))
    found = {}
    for word, command in re.findall(r'WordRow \{\s+word: "(\w+)",\s+means: CommandName::(\w+),', text):
        every = [arguments[it] for it in lists[of[command]]]
        named = [name + (" .." if takes == "Takes::Positionals" else "") for name, takes, _ in every if "Positional" in takes]
        options = {name: meaning(takes, said) for name, takes, said in every if "Positional" not in takes and name != "output"}
        found[word] = (" ".join(named), about[command], options)
    return found


def helped(name):
    """Returns the options of a command in tools/commands.py, but for the output's: what follows each, and what help says of it."""
    return {it.name.removeprefix("--"): (it.value, it.text) for it in commands.COMMANDS[name].options if it is not commands.OUTPUT}


def says_range(text, value):
    """Tells whether a text begins with a range, and names the default where it has one."""
    default, least, most = value
    begins = text.startswith(f"{grouped(least)} to {grouped(most)}")
    return begins and (default is None or re.search(rf"\({re.escape(grouped(default))}\)", text) is not None)


def compare_option(command, option, value, said):
    """Compares an option's range or words with what help says."""
    name = f"help of {command} --{option}"
    if said is None:
        tell(name, False, "help does not have it")
    elif isinstance(value, tuple) and isinstance(value[0], list):
        words, default = value
        named = re.findall(r"\w+", said[1].split("(")[0].split(":")[0].replace(" for lines of C", ""))
        tell(name, [it for it in named if it != "or"] == words and f"({default}" in said[1], f"{said[1]!r} is not {words} ({default})")
    elif value is not None:
        tell(name, says_range(said[1], value), f"{said[1]!r} is not {value}")
    else:
        tell(name, said[0] in ("FILE", "NAME=FILE", ""), f"{said[0]!r} is neither a file nor nothing")


def compare_help(rows, ranges, lab):
    """Compares tools/commands.py with both tables."""
    of = {program: [name for name, it in commands.COMMANDS.items() if it.program == program] for program in ("mx_run", "mx_lab")}
    tell("help has the commands of mx_run", sorted(of["mx_run"]) == sorted(rows), f"{of['mx_run']} and {sorted(rows)}")
    own = {name: it for name, it in lab.items() if name not in PLANNED}
    tell("help has the commands of mx_lab", sorted(of["mx_lab"]) == sorted(own), f"{of['mx_lab']} and {sorted(own)}")
    for name, (fewest, most, options) in rows.items():
        names = commands.COMMANDS[name].names.split()
        tell(f"help of {name}: how many names", fewest == len([it for it in names if it != ".."]) and (".." in names) == (most > fewest), str(names))
        compare_options(name, with_plans(name, options))
    for name in PLANNED:
        tell(f"both programs have {name}", name in rows and name in lab)
        names, _, options = lab[name]
        tell(f"{name} --plans: its names", commands.COMMANDS[name].names == names, names)
        compare_both(name, rows[name][2], options)
    for name, (names, _, options) in own.items():
        tell(f"help of {name}: its names", commands.COMMANDS[name].names == names, names)
        compare_options(name, options)
    for name in ("gen", "soak"):
        for option in ("seed", "count"):
            _, least, most = ranges[name, option]
            tell(f"help of {name}: {option}", f"{option.upper()} {'is ' if option == 'seed' else ''}{least} to {grouped(most)}" in commands.COMMANDS[name].more)
    tell("help of join: how many modules", f"{rows['join'][0]} to {rows['join'][1]} texts" in commands.COMMANDS["join"].text)


def with_plans(name, options):
    """Returns the options of a command of mx_run, and those of mx_lab where it answers it too."""
    return {**options, **({PLANS: None} if name in PLANNED else {})}


def compare_both(name, options, of_lab):
    """Compares the options of a command in both programs: their names, and the default and the range of each."""
    options = with_plans(name, options)
    tell(f"{name} --plans: its options", sorted(options) == sorted(of_lab), f"{sorted(of_lab)} is not {sorted(options)}")
    for option, value in options.items():
        same = of_lab.get(option) == (tuple(value) if isinstance(value, list) else value)
        tell(f"{name} --plans: --{option}", same, f"{of_lab.get(option)} is not {value}")


def compare_options(name, options):
    tell(f"help of {name}: its options", sorted(helped(name)) == sorted(options), f"{sorted(helped(name))} is not {sorted(options)}")
    for option, value in options.items():
        compare_option(name, option, tuple(value) if isinstance(value, list) else value, helped(name).get(option))


def compare_mx(rows, lab):
    """Compares ./mx: its list of commands, and the words by which it calls a program."""
    text = text_of("mx")
    listed = set(re.findall(r"^  ((?:\w+, )*\w+) ", text[text.index("cat <<'END'"):text.index("\nEND\n")], re.M))
    listed = {word for it in listed for word in it.split(", ")}
    cases = {word for it in re.findall(r"^    ((?:[a-z]+ \| )*[a-z]+)\)\n", text, re.M) for word in it.split(" | ")}
    planned = re.search(r"^    ([a-z |]+)\)\n        if has_plans", text, re.M)
    tell("./mx calls mx_lab for --plans", planned is not None and planned[1].split(" | ") == list(PLANNED), str(planned))
    for name in [*rows, *lab]:
        tell(f"./mx lists {name}", name in listed)
        tell(f"./mx calls {name}", name in cases)
    for name in rows:
        tell(f"./mx answers {name} --help", f"{name},--help,2" in text)


def compare_requests(rows, lab):
    """Compares what a request of the workbench may hold, its commands, and the page's field for the budget."""
    text, checks = text_of("crates/lab_request/src/command.rt"), text_of("crates/lab_request/src/checks.rt")
    answered = re.findall(r'Command::\w+ => "(\w+)",', text)
    tell("requests: each is a command", bool(answered) and all(it in rows or it in lab for it in answered), str(answered))
    served = re.search(r"^COMMANDS = \((.*?)\)", text_of("tools/serve/programs.py"), re.M)
    tell("requests: the server has the same commands", served is not None and re.findall(r'"(\w+)"', served[1]) == answered, str(answered))
    known = constants(checks)
    ranges = {field.lower(): (number(least), known[most]) for fields, least, most in
              re.findall(r"((?:Field::\w+ \| )*Field::\w+) => number_fault\(value, (\d+), (\w+)\)", checks) for field in re.findall(r"::(\w+)", fields)}
    # the range of a field is that of the option of the command that has it: the first of these
    for field, (least, most) in ranges.items():
        value = next((it[field] for it in (lab["draw"][2], rows["run"][2], lab["caches"][2], lab["interrupts"][2]) if it.get(field)), None)
        tell(f"requests: the range of {field}", value is not None and tuple(value[1:]) == (least, most), f"{least} to {most} is not {value}")
    tell("requests: ranges were found", len(ranges) >= 11, str(sorted(ranges)))
    budget = re.search(r'<input id="budget" type="number" min="(\d+)" max="(\d+)" value="(\d+)"', text_of("tools/serve/page.html"))
    default, least, most = lab["draw"][2]["budget"]
    tell("page: the budget", budget is not None and [int(it) for it in budget.groups()] == [least, most, default], str(budget and budget.groups()))


def table_rows(page):
    """Yields option, the cell of its values and that of its default in a document's tables."""
    for line in text_of(f"docs/{page}.md").splitlines():
        cells = [it.strip() for it in line.strip("|").split("|")] if line.startswith("| `--") else []
        if len(cells) >= 2:
            yield re.match(r"`--(\w+)", cells[0])[1], cells[1], cells[2] if len(cells) > 2 else ""


def compare_documents(rows, ranges, lab):
    """Compares the tables of options in the documents."""
    of_run = {option: value for name in rows for option, value in rows[name][2].items() if value}
    seen = [(option, says, default) for option, says, default in table_rows("COMMANDS")]
    for option, says, default in seen:
        compare_row("COMMANDS", option, of_run.get(option), says, default)
    tell("COMMANDS.md: each number", sorted(it for it, _, _ in seen) == sorted(of_run), f"{[it for it, _, _ in seen]} is not {sorted(of_run)}")
    text = text_of("docs/COMMANDS.md")
    for name, option in (("gen", "seed"), ("gen", "count")):
        _, least, most = ranges[name, option]
        tell(f"COMMANDS.md: {option.upper()}", f"| {option.upper()} | {least} to {grouped(most)} |" in text)
    for command in rows:
        line = re.search(rf"^\| `{command}[ `].*$", text, re.M)
        said = set(re.findall(r"`--(\w+)", line[0])) if line else None
        known = set(with_plans(command, rows[command][2]))
        tell(f"COMMANDS.md: the options of {command}", line is not None and (said == known or "the options of `run`" in line[0]), str(said))
    for command, page in PAGES.items():
        options = lab[command][2]
        found = [it for it in table_rows(page) if it[0] in options]
        for option, says, default in found:
            # two commands of a page have options of one name
            values = [lab[it][2][option] for it, other in PAGES.items() if other == page and option in lab[it][2]]
            holds = any(says_row(value, says, default) for value in values)
            tell(f"{page}.md: {command} --{option}", holds, f"{says!r}, {default!r}: none of {values}")
        left = set(options) - {it[0] for it in found} - {"budget", "interrupts", "input", "as"}
        tell(f"{page}.md: {command} has all options", not left, str(left))


def compare_row(page, option, value, says, default):
    tell(f"{page}.md: --{option}", value is not None and says_row(tuple(value), says, default), f"{says!r}, {default!r} is not {value}")


def says_row(value, says, default):
    """Tells whether a row of a document says a range or words, and their default."""
    if value is None:
        return True
    if isinstance(value[0], list):
        words, usual = value
        return set(words) <= set(re.findall(r"`(\w+)`", says)) and (f"`{usual}`" in f"{default} {says}")
    begin = f"{grouped(value[1])} to {grouped(value[2])}"
    return says.startswith(begin) and (value[0] is None or default.replace("no dump", "") in ("", grouped(value[0])))


def main():
    if len(sys.argv) > 1:
        common.wrong_arguments(f"unexpected argument {sys.argv[1]}")
    rows, ranges = toolchain()
    lab = laboratory()
    tell("both tables were read", len(rows) >= 12 and len(lab) >= 10 and sum(bool(lab[it][2]) for it in lab) >= 10, f"{sorted(rows)} {sorted(lab)}")
    compare_help(rows, ranges, lab)
    compare_mx(rows, lab)
    compare_requests(rows, lab)
    compare_documents(rows, ranges, lab)
    return common.finish("tables.py", "entries")


if __name__ == "__main__":
    sys.exit(main())
