"""What of a request is read here: how long its body may be, the source of a text in C, and the modules of a program. All other bodies go
to the program as they are."""
import json

MOST_BODY = 4_194_304
MOST_MODULES = 16
# An object with some strings: whatever else is nested would only take memory.
MOST_OBJECTS, MOST_LISTS, MOST_QUOTES = 1, 2, 64


class Refused(Exception):
    """A request that is not answered by a command: its status, what is wrong, and the field where it is."""

    def __init__(self, status, wrong, field=None):
        super().__init__(wrong)
        self.status, self.wrong, self.field = status, wrong, field


def wrong(field, what):
    """Returns the refusal of a field."""
    return Refused(400, f"{field}: {what}", field)


def refuse_constant(name):
    raise ValueError(f"{name} is an invalid number of JSON")


def is_flat(body):
    """Tells whether a body has no more objects, lists and strings than one that is answered, without reading it as JSON."""
    bare = body.replace(b"\\\\", b"").replace(b'\\"', b"")
    if bare.count(b'"') > MOST_QUOTES:
        return False
    outside = b"".join(bare.split(b'"')[::2])
    return outside.count(b"{") <= MOST_OBJECTS and outside.count(b"[") <= MOST_LISTS


def read_object(body):
    """Returns the object that a body spells."""
    try:
        if not is_flat(body):
            raise ValueError("more than an object with strings, numbers and two lists")
        found = json.loads(body.decode(), parse_constant=refuse_constant)
    except (ValueError, RecursionError) as error:
        raise Refused(400, f"no JSON: {error}") from None
    if not isinstance(found, dict):
        raise Refused(400, "no JSON object")
    return found


def only_field(body, field, command):
    """Returns the only field that a body of a command may have."""
    given = read_object(body)
    for name in given:
        if name != field:
            raise wrong(name[:80], f"no field of {command}")
    if field not in given:
        raise wrong(field, "left out")
    return given[field]


def bytes_of(text, field):
    """Returns the bytes of a text that a field gives, in UTF-8."""
    if not isinstance(text, str):
        raise wrong(field, "no string")
    try:
        return text.encode()
    except UnicodeEncodeError:
        raise wrong(field, "half of a surrogate pair") from None


def read_text(body, command="translate"):
    """Returns the bytes of the text that a body gives, in UTF-8."""
    return bytes_of(only_field(body, "source", command), "source")


def read_texts(body):
    """Returns the bytes of the modules that a body gives."""
    given = only_field(body, "sources", "join")
    if not isinstance(given, list):
        raise wrong("sources", "no list")
    if not 2 <= len(given) <= MOST_MODULES:
        raise wrong("sources", f"2 to {MOST_MODULES} modules are joined")
    return [bytes_of(it, "sources") for it in given]
