"""What a text in C may ask of its preprocessor: the headers of the library, and nothing else that names a file."""
import bisect
import itertools
import re

SPLICE = re.compile(r"\\[ \t\f\v]*\n")
CONTROL = re.compile("[\x00-\x08\x0b\x0e-\x1f\r]")
# What a line of C has before its end, as far as it matters here where a comment begins and where a string ends. A string that
# is not ended ends with its line.
TOKENS = r"""/\*.*?(?:\*/|\Z) | //[^\n]* | (?P<raw>(?:u8|[uUL])?R"[^\n]*) | "(?:\\.|[^"\\\n])*"? | '(?:\\.|[^'\\\n])*'?
    | (?P<name>[A-Za-z_$][A-Za-z0-9_$]*) | \n | ."""
# A number. Since C23 a ' between digits belongs to it, in 1'000; before C23 it begins a character there. Which of both gcc takes
# depends on its version, so a text has to be accepted in both readings.
NUMBER = r"\.?[0-9](?:[eEpP][+-]|[A-Za-z0-9_.$])*"
SEPARATED_NUMBER = r"\.?[0-9](?:[eEpP][+-]|'?[A-Za-z0-9_$]|\.)*"
READINGS = [re.compile(f"{number} | {TOKENS}", re.S | re.X) for number in (NUMBER, SEPARATED_NUMBER)]
DIRECTIVE = re.compile(r"\s*(?:\#|%:)\s*([A-Za-z_]\w*|\d+)?\s*(.*)", re.S)
HEADER = re.compile(r"""<([^>"]*)>\s*|"([^"]*)"\s*""")
PLAIN = {"define", "undef", "if", "ifdef", "ifndef", "elif", "elifdef", "elifndef", "else", "endif", "error", "warning", None}
PRAGMA = re.compile(r"(STDC|pack|push_macro|pop_macro|GCC\s+(optimize|push_options|pop_options|reset_options|unroll|ivdep|diagnostic|poison))\b")
NAMES = {"_Pragma", "__has_include", "__has_include_next", "__has_embed"}


def why_refused(line, headers):
    """Returns why the directive of a line is not taken, or None; a line that is no directive is taken."""
    found = DIRECTIVE.fullmatch(line)
    if not found:
        return None
    name, rest = found.groups()
    if name == "include":
        header = HEADER.fullmatch(rest)
        if header and (header.group(1) or header.group(2)) in headers:
            return None
        return "only the headers of the library can be included: " + ", ".join(f"<{it}>" for it in sorted(headers))
    if name in PLAIN or name == "pragma" and PRAGMA.match(rest):
        return None
    return f"#{name} is not taken here" + (f" with {' '.join(rest.split()[:2])}" if name == "pragma" else "")


class Lines:
    """The lines of a text as the preprocessor has them: lines that are spliced are one, and a comment is a blank."""

    def __init__(self, text):
        # Where each splice stood in the text without splices, so that lines can be told by the text as it was.
        pieces = SPLICE.split(text)
        self.text = "".join(pieces)
        self.splices = []
        at = 0
        for piece in pieces[:-1]:
            at += len(piece)
            self.splices.append(at)

    def number_of(self, place):
        """Returns the number of the line of the text on which a place stands."""
        return self.text.count("\n", 0, place) + bisect.bisect_right(self.splices, place) + 1

    def read(self, tokens):
        """Yields each line with its place, and what else is refused as (place, why), in one reading of the tokens."""
        line, begin = [], 0
        for token in tokens.finditer(self.text):
            word = token.group()
            if token.lastgroup == "raw":
                yield token.start(), None, "a raw string is not taken here"
            elif token.lastgroup == "name" and word in NAMES:
                yield token.start(), None, f"{word} is not taken here"
            if word == "\n":
                yield begin, "".join(line), None
                line, begin = [], token.end()
            else:
                line.append(" " if word.startswith(("/*", "//")) else word)
        yield begin, "".join(line), None


def find_refused(text, headers):
    """Yields what is not taken of a text in C, each with its line: (line, why)."""
    text = text.replace("\r\n", "\n")
    found = CONTROL.search(text)
    if found:
        yield text.count("\n", 0, found.start()) + 1, "a control character"
        return
    lines, refused = Lines(text), {}
    for place, line, why in itertools.chain.from_iterable(map(lines.read, READINGS)):
        if why is None:
            why = why_refused(line, headers)
        if why is not None:
            refused.setdefault(place, why)
    for place in sorted(refused):
        yield lines.number_of(place), refused[place]
