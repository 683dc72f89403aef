#!/usr/bin/env python3
"""Counts what docs/STYLE.md rules out, in documents, help, messages and the page of the workbench.

usage: checks/style.py [--list | --words] [FILE ..]

It reads every Markdown document, the texts of ./mx and of build/*.py and tools/*.py that are printed, the strings of the crates that print
(cmd_, lab_, cc_, mx_run, mx_serve), and tools/serve/page.html. It prints each finding as FILE:LINE: RULE: TEXT. Then it prints
how many sentences it read of each kind. It ends with 1 if there is a finding, or if it read no sentence of some kind.
With --list it prints the sentences that it reads, with --words the words of each document. With FILE it reads only these files."""
import ast
import os
import re
import sys

TOP = os.path.dirname(os.path.dirname(os.path.abspath(__file__)))
LONGEST = 40
# How many words the documents may have, as `wc -w` counts them: without fenced code and output, and without signs such as table bars.
MOST_WORDS = 45_000
COUNTED = r"(README|CONTRIBUTING|CHANGELOG)\.md|docs/(tutorial/)?[^/]*\.md"

# A rule: its name, and what it finds in a sentence whose code spans are replaced by CODE.
RULES = [
    ("stands", r"\b(stands?|stood)\b(?! alone)"),
    ("tells", r"(?<![\w${])(tells?|told)\b(?![=(])"),
    ("behind", r"\bbehind\b"),
    ("wants", r"\b(wants?|wanted)\b"),
    ("nothing of", r"\bnothing of\b"),
    ("it is proved of", r"\b[Ii]t is (proved|promised|said) (of|that)\b|\b(is|are) (promised|said) of\b"),
    ("words (arguments)", r"\bwords (of|on|in) (a|the) (command|command line)\b|\bWORDS\b|\bwrong words\b|\bother words (are|is|end)\b"
                          r"|\bwords and files\b|\bcommand's words\b|\bwords (that|which) (ask|are typed)\b"),
    ("drawn (random)", r"\bdrawn (source|block|interrupt|register|operand|image|format|program|number|value|order|machine|text|field)s?\b"),
    ("is no token", r"\bis no (token|name|number|mnemonic|register|text)\b"),
    ("headline", r"\b[Hh]eadline\b"),
    ("for people who look", r"\bpeople who look\b"),
    ("asked again", r"\basked again\b|\btried by hand\b"),
]

# What may stay: a file, a rule, a piece of the sentence, and the reason.
EXCEPTIONS = [
    ("docs/STYLE.md", None, None, "the page itself names what it rules out"),
    ("crates/lab_costs/src/document.rt", "behind", "behind the code", "the name of a row, as the field `behind` of its JSON"),
    ("crates/lab_costs/src/events.rt", "behind", "behind the code", "the same row for callgrind"),
    ("crates/lab_costs/src/text.rt", "behind", "behind the code", "the same row as text"),
    ("crates/lab_plans/src/verdicts.rt", "stands", None, "the sentences of the seven rules are exact by contract (specs/Verdicts.antt)"),
    ("crates/lab_terms/src/places.rt", "behind", "no-op behind a load", "the text of a place is exact by contract (specs/Places.antt)"),
]

CRATES = ("cmd_", "lab_", "cc_", "mx_run", "mx_serve", "mx_faults", "mx_report", "mx_lab", "mx_cc")


def files_like(pattern):
    """Returns the files of the repository whose names match a pattern, without what is built."""
    found = []
    for folder, inner, names in os.walk(TOP):
        inner[:] = sorted(name for name in inner if name not in (".git", ".mx", "out", "built", "__pycache__"))
        found += [os.path.relpath(f"{folder}/{name}", TOP) for name in names]
    return sorted(name for name in found if re.fullmatch(pattern, name))


def sentences(text):
    """Splits a text into sentences."""
    text = re.sub(r"`[^`]*`", "CODE", text)
    text = re.sub(r"(?<=[.:] )!?\[[^\]]*\]\([^)]*\)", "Link", text)
    text = re.sub(r"!?\[([^\]]*)\]\([^)]*\)", r"\1", text)
    text = re.sub(r"<[^<>]*>", " ", text)
    text = text.replace(" .. ", " ").replace("e.g.", "eg").replace("i.e.", "ie")
    return [part.strip() for part in re.split(r"(?<=[.!?:])[\s*)]+(?=[A-Z0-9`*\[\"]|r\d)", text) if part.strip()]


def length(sentence):
    """Counts the words of a sentence; names and numbers of code are none."""
    return sum(1 for word in re.findall(r"[A-Za-z][\w'-]*", sentence) if word != "CODE")


def of_markdown(path):
    """Yields line and text of each paragraph, list item, heading and table cell that is not code."""
    fenced, indented, lines = False, False, []
    start = 1

    def flush():
        text = " ".join(lines)
        lines.clear()
        return text

    blank = True
    text = open(f"{TOP}/{path}", encoding="utf-8").read()
    has_ends, generated = "<!-- end -->" in text, False
    for number, line in enumerate(text.split("\n"), 1):
        # what a check writes from the code, between two marks, changes with the code and not with the page
        if line.startswith("<!-- "):
            generated = has_ends and line != "<!-- end -->"
        if generated or line.startswith("<!-- "):
            continue
        if line.lstrip().startswith("```"):
            if lines:
                yield start, flush()
            fenced, blank = not fenced, True
            continue
        if fenced:
            continue
        if line.startswith("    ") and (blank or indented):
            indented = True
            continue
        indented = indented and not line.strip()
        if not line.strip() or line.startswith("#"):
            if lines:
                yield start, flush()
            if line.startswith("#"):
                yield number, line.lstrip("# ")
            blank = True
            continue
        if line.startswith("|"):
            if lines:
                yield start, flush()
            for cell in re.split(r"(?<!\\)\|", line):
                if cell.strip(" -:"):
                    yield number, cell.strip()
            blank = True
            continue
        item = re.match(r"\s*([-*]|\d+\.)\s+", line)
        if item and lines:
            yield start, flush()
        if not lines:
            start = number
        lines.append(line[item.end():] if item else line.strip())
        blank = False
    if lines:
        yield start, flush()


def of_python(path):
    """Yields line and text of the docstring of a script that prints it, and of each string with a blank in it."""
    text = open(f"{TOP}/{path}", encoding="utf-8").read()
    tree = ast.parse(text)
    docstrings = {id(node.body[0].value) for node in ast.walk(tree)
                  if isinstance(node, (ast.Module, ast.FunctionDef, ast.ClassDef, ast.AsyncFunctionDef)) and node.body
                  and isinstance(node.body[0], ast.Expr) and isinstance(node.body[0].value, ast.Constant)}
    if "__doc__" in text and ast.get_docstring(tree):
        for part in ast.get_docstring(tree).split("\n\n"):
            yield 1, " ".join(part.split())
    for node in ast.walk(tree):
        if isinstance(node, ast.Constant) and isinstance(node.value, str) and id(node) not in docstrings and " " in node.value.strip():
            for part in node.value.split("\n"):
                yield node.lineno, part


def of_shell(path):
    """Yields line and text of here-documents, and of each quoted string with a blank in it."""
    inside = None
    for number, line in enumerate(open(f"{TOP}/{path}", encoding="utf-8"), 1):
        if inside:
            if line.strip() == inside:
                inside = None
            else:
                yield number, " ".join(line.split())
            continue
        if line.lstrip().startswith("#"):
            continue
        here = re.search(r"<<'?(\w+)'?", line)
        inside = here.group(1) if here else None
        if re.search(r"\b(fail|echo|printf)\b", line):
            for quoted in re.findall(r"'([^']* [^']*)'|\"([^\"]* [^\"]*)\"", line):
                yield number, quoted[0] or quoted[1]


def of_rattle(path):
    """Yields line and text of each string with two words or more."""
    for number, line in enumerate(open(f"{TOP}/{path}", encoding="utf-8"), 1):
        if line.lstrip().startswith("//"):
            continue
        for quoted in re.findall(r'"((?:[^"\\]|\\.)*)"', line):
            if re.search(r"[a-z] [a-z]", quoted) and not re.search(r"\{[^}]*:[^}]*[;}]", quoted):     # a style sheet is no text
                yield number, quoted.replace("`{}`", "CODE")


def of_page(path):
    """Yields line and text of what the page shows: texts between tags, and strings with two words or more."""
    script = style = False
    for number, line in enumerate(open(f"{TOP}/{path}", encoding="utf-8"), 1):
        style = (style or "<style" in line) and "</style" not in line
        script = (script or "<script" in line) and "</script" not in line
        if style or line.lstrip().startswith("//"):
            continue
        if script:
            for quoted in re.findall(r"\"([^\"]*[a-z] [a-z][^\"]*)\"|'([^']*[a-z] [a-z][^']*)'|`([^`]*[a-z] [a-z][^`]*)`", line):
                yield number, re.sub(r"\$\{[^}]*\}", "CODE", "".join(quoted))
        else:
            text = re.sub(r"<[^>]*>?", " ", line)
            if re.search(r"[a-z] [a-z]", text):
                yield number, text.strip()


def words_of(path):
    """Counts the words of a document: what blanks separate and has a letter or a digit, outside fences."""
    count, fenced = 0, False
    with open(f"{TOP}/{path}", encoding="utf-8") as lines:
        for line in lines:
            if line.startswith("```"):
                fenced = not fenced
            elif not fenced:
                count += sum(1 for word in line.split() if re.search(r"\w", word))
    return count


def words_of_documents():
    """Counts the words of the documents."""
    return sum(words_of(path) for path in files_like(COUNTED))


def sources():
    """Returns the kinds of text, each with its files and its reader."""
    rattle = [path for path in files_like(r"crates/\w+/src/.*\.rt") if path.split("/")[1].startswith(CRATES) and "tests" not in path]
    return [
        ("documents", files_like(r".*\.md"), of_markdown),
        ("help", ["mx"], of_shell),
        ("scripts", files_like(r"(build|tools|tools/serve)/\w+\.py"), of_python),
        ("messages", rattle, of_rattle),
        ("page", ["tools/serve/page.html"], of_page),
    ]


def excepted(path, rule, sentence):
    return any(path == file and name in (None, rule) and (piece is None or piece in sentence) for file, name, piece, _ in EXCEPTIONS)


def findings(sentence):
    """Returns what the rules find in a sentence."""
    found = [name for name, pattern in RULES if re.search(pattern, sentence)]
    return found + [f"{length(sentence)} words"] if length(sentence) > LONGEST else found


def main(arguments):
    if "--help" in arguments:
        print(__doc__)
        return 0
    if "--words" in arguments:
        counts = {path: words_of(path) for path in files_like(COUNTED)}
        print("\n".join(f"{count:6,} {path}" for path, count in [*counts.items(), ("together", sum(counts.values()))]))
        return 0
    show, chosen = "--list" in arguments, [os.path.relpath(os.path.abspath(name), TOP) for name in arguments if name != "--list"]
    for name in chosen:
        if not os.path.isfile(f"{TOP}/{name}"):
            print(f"style.py: there is no file {name}", file=sys.stderr)
            return 2
    found, counts = 0, {}
    for kind, paths, reader in sources():
        read = [(path, number, sentence) for path in paths if path in chosen or not chosen
                for number, text in reader(path) for sentence in sentences(text)]
        counts[kind] = len(read)
        for path, number, sentence in read:
            if show:
                print(f"{path}:{number}: {sentence}")
            for rule in findings(sentence):
                if not excepted(path, rule, sentence):
                    found += 1
                    print(f"{path}:{number}: {rule}: {sentence}")
    empty = [kind for kind, count in counts.items() if not count and not chosen]
    for kind in empty:
        print(f"no sentence of {kind} was read")
    words = 0 if chosen else words_of_documents()
    if words > MOST_WORDS:
        found += 1
        print(f"the documents have {words:,} words, and may have {MOST_WORDS:,}")
    print(", ".join(f"{count:,} of {kind}" for kind, count in counts.items()) + f"; {words:,} words in documents; {found} findings")
    print(f"style: compared {sum(counts.values()):,} sentences")
    return 1 if found or empty or not sum(counts.values()) else 0


if __name__ == "__main__":
    sys.exit(main(sys.argv[1:]))
