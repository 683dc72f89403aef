"""Follows the definitions of crates/*/specs by their names: what a clause of a function leads to, part by part.

A definition is followed by the names in its text: to other definitions, to types of the code and the types of their fields, to
constants of the code, and to terms of proof files. Names of the toolchain's library are noted and not followed. A name that is
imported and leads to none of these is a fault, of which `Walk.faults` has a line.

checks/reading.py reads this module.
"""
import pathlib
import re

ROOT = pathlib.Path(__file__).resolve().parent.parent
IMPORT = re.compile(r"(?:ghost |pub )*use Rattle\.(\w+)\.(specs|proofs)\.([\w.]+?)(?:\.\{(.*)\}| as (\w+))?;?$")
RECORD = re.compile(r"^ *(?:pub )?(?:record|data) (\S+).* where$")
DEFINED = re.compile(r"^(?:  (?=abbrev))?(?:(?:abbrev|unfoldable|pub) )*([^\s:(){}]+) : ")
NAME = re.compile(r"[^\s(){},;\[\]]+")
TYPE_NAME = re.compile(r"\b[A-Z]\w+\b")


def imports_of(lines):
    """Returns for each name that lines import its crate, the folder, the module and the name that it has there (none for a module)."""
    found = {}
    for line in lines:
        use = IMPORT.match(line.strip())
        if not use:
            continue
        crate, folder, module, items, other = use.groups()
        if items is None:
            found[other or module.split(".")[-1]] = (crate, folder, module, None)
            continue
        for item in items.split(", "):
            name, _, renamed = item.partition(" as ")
            found[renamed or name] = (crate, folder, module, name)
    return found


class Line:
    """A line of a definition: its text without a comment, the names in it, and how many lines it counts with the comments over it."""

    def __init__(self, text, comments):
        self.text = text
        self.names = NAME.findall(text)
        self.count = 1 + comments


class File:
    """The definitions of a file of specs by their names, each a list of lines, and where its imports are from."""

    def __init__(self, path):
        lines = path.read_text().splitlines()
        self.path = path
        self.imports = imports_of(lines)
        self.unread = [line for line in lines if line.startswith(("use ", "pub use ")) and not IMPORT.match(line)]
        self.passed_on = imports_of([line for line in lines if line.startswith("pub use ")])
        self.says = next((line[3:] for line in lines if line.startswith("-- ")), "")
        self.defined = {}
        current = None
        comments = 0
        for line in lines:
            if not line or line.startswith(("use ", "pub use ")):
                continue
            text = line.partition("--")[0]
            if not text.strip():
                comments += 1
                continue
            if found := RECORD.match(text) or DEFINED.match(text):
                current = found[1]
            if current:
                self.defined.setdefault(current, []).append(Line(text, comments))
                comments = 0

    def where(self, name):
        """The definition that the name, or the variant of a type, belongs to."""
        if name in self.defined:
            return name
        return next((known for known, lines in self.defined.items() if any(name in line.names for line in lines)), None)


class Code:
    """The public types and the constants of a crate's code."""

    def __init__(self, crate):
        self.crate = crate
        self.types, self.constants, self.uses = {}, {}, {}
        for path in sorted((ROOT / "crates" / crate / "src").rglob("*.rt")):
            text = path.read_text()
            for item in re.finditer(r"(?ms)^pub(?:\(crate\))? (?:struct|enum) (\w+)\b.*?(?:^\}|;)$", text):
                self.types.setdefault(item[1], []).append((path, item[0]))
            for item in re.finditer(r"(?ms)^(?:pub(?:\(crate\))? )?const (\w+): ([^=]+) = (.*?);$", text):
                self.constants.setdefault(item[1], []).append((path, " ".join(item[3].split())))
            for use in re.finditer(r"(?m)^use (\w+)(?:::\w+)*::(?:\{([^}]*)\}|(\w+));$", text):
                for name in re.findall(r"\w+", use[2] or use[3]):
                    self.uses[(path, name)] = use[1]

    def type_named(self, name, module):
        """Returns the path and the text of the type; where two files have one, that of the module."""
        found = self.types.get(name, [])
        near = [it for it in found if it[0].stem in module]
        return (near or found or [(None, None)])[0]

    def constant_named(self, name, module):
        found = self.constants.get(name, [])
        near = [it for it in found if it[0].stem in module]
        return (near or found or [(None, None)])[0]


def clauses_of(path, function):
    """Returns the clauses of a function of the code, in order: whether it is required, its name, and its text."""
    text = path.read_text()
    start = re.search(rf"(?m)^( *)(?:pub )?fn {function}\b", text)
    if start is None:
        return []
    end = re.compile(rf"(?m)^{start[1]}\{{").search(text, start.end())
    # a contract ends with the body's brace, at the function's own depth
    head = re.sub(r"(?m)^\s*//.*\n", "", text[start.start():end.start()])
    found = []
    for clause in re.finditer(r"(?m)^\s*(requires|ensures) ?(\w*) \{", head):
        depth, at = 1, clause.end()
        while depth:
            depth += {"{": 1, "}": -1}.get(head[at], 0)
            at += 1
        found.append((clause[1], clause[2], " ".join(head[clause.end():at - 1].split())))
    return found


class Walk:
    """All that is reached, stage by stage. A stage has a few parts; what belongs to another one is left for it."""

    def __init__(self, slices, pinned):
        self.files = {(path.parts[-3], path.stem): File(path) for path in ROOT.glob("crates/*/specs/*.antt")}
        self.codes = {}
        self.slices = slices      # (crate, module, definition) -> a function from a line's text to the part that it belongs to, or None
        self.pinned = pinned      # (crate, module, term of a proof) -> the definitions of the law that says what it is
        self.faults = []
        self.lines = {}           # part -> {(crate, module): {definition: lines}}
        self.types = {}           # part -> {path: {name: lines}}
        self.constants = {}       # (name, path) -> value, part
        self.library = {}         # names of the toolchain's library -> its module
        self.terms = {}           # terms of proofs -> the definition that takes them
        self.seen = set()
        self.later = []           # what a later stage begins with
        self.parts = ""
        self.part_of = None

    def code_of(self, crate):
        if crate not in self.codes:
            self.codes[crate] = Code(crate)
        return self.codes[crate]

    def stage(self, parts, part_of, start=()):
        """Follows these names and those that were left, where `part_of` of a crate and a module is one of the parts."""
        self.parts, self.part_of = parts, part_of
        left, self.later = list(start) + self.later, []
        while left:
            left += self.step(*left.pop())

    def fault(self, text):
        if text not in self.faults:
            self.faults.append(text)

    def step(self, crate, folder, module, name, by):
        """Notes one name, and returns those that it leads to."""
        if crate == "std":
            self.library.setdefault(name or module, module)
            return []
        if folder == "proofs":
            self.terms[(crate, module, name)] = by
            if (crate, module, name) not in self.pinned:
                self.fault(f"{by} takes a term of a proof, {crate}.{module}.{name}, and no law is named that says what it is")
                return []
            return self.pinned[(crate, module, name)]
        if module.startswith("declared."):
            return self.of_code(crate, module, name, by)
        file = self.files.get((crate, module))
        if file is None:
            self.fault(f"{by} imports {crate}.{module}, which is no file of crates/{crate}/specs")
            return []
        if name in file.passed_on:
            return [(*file.imports[name], by)]
        own = file.where(name)
        if own is None:
            self.fault(f"{by} imports {name} of {crate}.{module}, which does not define it")
            return []
        return self.definition(crate, module, own)

    def of_code(self, crate, module, name, by):
        code = self.code_of(crate)
        if module.endswith("TheConstants"):
            path, value = code.constant_named(name, module)
            if path is None:
                self.fault(f"{by} takes the constant {name} of {crate}, which the code does not have")
            else:
                self.constants.setdefault((name, path), (value, self.parts))
            return []
        own = module.split(".")[-2] if module.endswith("TheVariants") else module.split(".")[-1]
        return self.type_of_code(crate, module, own, by)

    def type_of_code(self, crate, module, own, by):
        path, text = self.code_of(crate).type_named(own, module)
        if path is None:
            self.fault(f"{by} names the type {own} of {crate}, which the code does not have")
            return []
        if (path, own) in self.seen:
            return []
        part = self.part_of(crate, path.stem)
        if part not in self.parts:
            self.later.append((crate, "specs", module if module.endswith(own) else f"declared.{own}", own, by))
            return []
        self.seen.add((path, own))
        self.types.setdefault(part, {}).setdefault(path, {})[own] = text.count("\n") + 1
        found = []
        for name in set(TYPE_NAME.findall(re.sub(r"//.*", "", text))) - {own}:
            from_crate = self.code_of(crate).uses.get((path, name), crate)
            from_crate = crate if from_crate in ("crate", "super") else from_crate
            if (ROOT / "crates" / from_crate).is_dir() and self.code_of(from_crate).types.get(name):
                found.append((from_crate, "specs", f"declared.{name}", name, f"{path.relative_to(ROOT)}: {own}"))
        return found

    def definition(self, crate, module, own):
        """Notes the lines of a definition that belong to the parts of this stage, and returns the names in them."""
        file = self.files[(crate, module)]
        for line in file.unread:
            self.fault(f"crates/{crate}/specs/{module}.antt: this import is not read: {line}")
        pick = self.slices.get((crate, module, own), lambda text: None)
        found = []
        left = False
        for number, line in enumerate(file.defined[own]):
            part = pick(line.text) or self.part_of(crate, module)
            if (crate, module, own, number) in self.seen:
                continue
            if part not in self.parts:
                left = True
                continue
            self.seen.add((crate, module, own, number))
            self.lines.setdefault(part, {}).setdefault((crate, module), {}).setdefault(own, []).append(line)
            found += self.names_in(crate, module, file, own, line)
        if left:
            self.later.append((crate, "specs", module, own, f"crates/{crate}/specs/{module}.antt: {own}"))
        return found

    def names_in(self, crate, module, file, own, line):
        by = f"crates/{crate}/specs/{module}.antt: {own}"
        found = []
        for word in line.names:
            head, _, rest = word.partition(".")
            if head in file.imports and file.imports[head][3] is None:
                from_crate, folder, from_module, _ = file.imports[head]
                found.append((from_crate, folder, from_module, rest.split(".")[0] or None, by))
            for name in {word, head}:
                if name in file.defined and name != own:
                    found.append((crate, "specs", module, name, by))
                elif name in file.imports and file.imports[name][3] is not None:
                    found.append((*file.imports[name], by))
        return found
