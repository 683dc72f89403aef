#!/usr/bin/env python3
"""Follows the links between documents: each file and each anchor that a link names is there, and so is each document, folder,
script and source that a document names in backticks. README links every document that it names.

usage: checks/links.py [FILE ..]

It prints each finding as FILE:LINE: WHAT, then how many links, anchors and names it followed, and ends with 1 if one leads
nowhere, or if it followed none of a kind."""
import os
import re
import sys

TOP = os.path.dirname(os.path.dirname(os.path.abspath(__file__)))

# Names of files that a document shows as an example, or that a command makes.
MADE = {"_.s", ".vscode/tasks.json", "ok.s", "a.s", "b.s", "s.s", "block.s", "faulty.s", "x.s", "sorts.s", "second.c", "missing.c", "NAME.c", "OUT.s", "main.rs", "x.md", "f.s", "p.s", "run.sh"}
KINDS = r"\.(?:md|py|sh|s|c|h|json|svg|png|rt|antt|txt|cff|edit|plans|html|mxi)$"
ROOTS = ("docs/", "build/", "checks/", "tools/", "crates/", "examples/", "bench/", "lib/", "include/", "python/", "editors/")


def all_files():
    """Returns the files of the repository, without what is built."""
    found = []
    for folder, inner, names in os.walk(TOP):
        inner[:] = [name for name in inner if name not in (".git", ".mx", "out", "built", "__pycache__")]
        found += [os.path.relpath(f"{folder}/{name}", TOP) for name in names]
    return sorted(found)


FILES = all_files()
FOLDERS = {"/".join(name.split("/")[:depth]) for name in FILES for depth in range(1, name.count("/") + 1)}
KNOWN = set(FILES) | FOLDERS


def prose(path):
    """Yields the number and the text of each line that is not code."""
    fenced, blank, indented = False, True, False
    for number, line in enumerate(open(f"{TOP}/{path}", encoding="utf-8"), 1):
        if line.lstrip().startswith("```"):
            fenced = not fenced
            continue
        indented = line.startswith("    ") and (blank or indented) or indented and not line.strip()
        blank = not line.strip()
        if not fenced and not indented:
            yield number, line.rstrip("\n")


def slug(heading):
    """Returns the anchor of a heading, as GitHub and GitLab make it."""
    text = re.sub(r"!?\[([^\]]*)\]\([^)]*\)", r"\1", heading).replace("`", "").strip().lower()
    return re.sub(r"\s", "-", re.sub(r"[^\w\s-]", "", text))


def anchors(path):
    """Returns the anchors of a document."""
    seen, all_of = {}, set()
    for _, line in prose(path):
        if line.startswith("#"):
            name = slug(line.lstrip("#"))
            count = seen.get(name, 0)
            seen[name] = count + 1
            all_of.add(f"{name}-{count}" if count else name)
        all_of.update(re.findall(r'<a (?:id|name)="([^"]+)"', line))
    return all_of


def is_there(name, folder):
    """Whether a name in backticks is a file or a folder: from the top, beside the document, of a crate, or by its end."""
    name = name.rstrip("/")
    for path in (name, os.path.normpath(os.path.join(folder, name)), f"crates/{name}", f"docs/{name}"):
        if path in KNOWN:
            return True
    return any(path.endswith("/" + name) for path in FILES)


def names_a_file(span):
    """Whether what is in backticks is the name of one file or folder of the repository."""
    if not re.fullmatch(r"[\w./-]+", span) or span.startswith(("-", "/", "..")) or span.rstrip("/") in MADE:
        return False
    if re.search(r"(?:^|/)[A-Z]+(?:\.|/|$)", span) and not span.endswith((".md", ".cff")) or ".." in span:
        return False
    return bool(re.search(KINDS, span) and re.search(r"\w\.\w", span)) or span.startswith(ROOTS)


def main(arguments):
    if "--help" in arguments:
        print(__doc__)
        return 0
    chosen = {os.path.relpath(os.path.abspath(name), TOP) for name in arguments}
    for name in chosen - set(FILES):
        print(f"links.py: there is no file {name}", file=sys.stderr)
        return 2
    found, links, pointed, names = 0, 0, 0, 0

    def say(path, number, what):
        nonlocal found
        found += 1
        print(f"{path}:{number}: {what}")

    for path in (name for name in FILES if name.endswith(".md")):
        if chosen and path not in chosen:
            continue
        folder = os.path.dirname(path)
        for number, line in prose(path):
            for target in re.findall(r"\]\(([^)\s]+)\)", re.sub(r"\[`[^`]*`\]", "[x]", line)):
                if re.match(r"[a-z]+:", target):
                    continue
                links += 1
                file, _, anchor = target.partition("#")
                to = os.path.normpath(os.path.join(folder, file)) if file else path
                if to not in KNOWN:
                    say(path, number, f"the link leads to {target}, which is not there")
                elif anchor:
                    pointed += 1
                    if to.endswith(".md") and anchor not in anchors(to):
                        say(path, number, f"{to} has no anchor {anchor}")
            for span in re.findall(r"`([^`]+)`", line):
                if names_a_file(span):
                    names += 1
                    if not is_there(span, folder):
                        say(path, number, f"`{span}` is not there")
            if path == "README.md":
                unlinked = re.sub(r"\[[^\]]*\]\([^)]*\)", "", line)
                for name in re.findall(r"[\w/.-]+\.md\b", unlinked):
                    say(path, number, f"{name} is named and not linked")
    print(f"{links:,} links, {pointed:,} anchors and {names:,} names; {found} lead nowhere")
    print(f"links: compared {links + names:,} links and names")
    return 1 if found or not chosen and not (links and pointed and names) else 0


if __name__ == "__main__":
    sys.exit(main(sys.argv[1:]))
