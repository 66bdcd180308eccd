"""Places in texts: the line and column of a byte, and where a class or a member that a rule is about stands."""
import re

# How many letters of a line are shown on each side of a place.
SIDE = 60


def place_of(data, offset):
    """The line and the column of a byte, from 1; a column for each letter, and for each byte that is part of none."""
    start = data.rfind(b"\n", 0, offset) + 1
    return data.count(b"\n", 0, offset) + 1, len(decoded(data[start:offset])) + 1


def decoded(data):
    """Bytes as letters, those that are none each as one letter."""
    return "".join(letter if letter.isprintable() or letter == "\t" else "\ufffd" for letter in data.decode("utf-8", "surrogateescape"))


def shown_at(data, offset):
    """The line of a byte, and a line with a sign below it. A long line is cut on both sides."""
    start, end = data.rfind(b"\n", 0, offset) + 1, data.find(b"\n", offset)
    before, after = decoded(data[start:offset]), decoded(data[offset : end if end >= 0 else len(data)].rstrip(b"\r"))
    before = before if len(before) <= SIDE else f"…{before[-SIDE:]}"
    after = after if len(after) <= SIDE else f"{after[:SIDE]}…"
    yield before + after
    yield re.sub(r"[^\t]", " ", before) + "^"


def without_comments(data):
    """A text in which comments, text literals and directives are blanks, so that each byte stays where it is."""
    pattern = rb'//[^\n]*|/\*.*?\*/|"(?:[^"\\\n]|\\.)*"|^[ \t]*#[^\n]*'
    return re.sub(pattern, lambda found: re.sub(rb"[^\n]", b" ", found[0]), data, flags=re.S | re.M)


def interface_in(text, owner):
    """Where the interface of a class stands in a text: its name's first byte, and the end of the interface; or nothing."""
    found = re.search(rb"\binterface\s+(" + re.escape(owner) + rb")\b(?!\s*;)", text)
    if not found:
        return None
    following = re.search(rb"\binterface\b", text[found.end() :])
    return found.start(1), found.end() + following.start() if following else len(text)


def member_in(files, owner, member):
    """The file and byte at which what a rule is about stands, as near as names tell: the body of a member, its declaration, or the interface of its class."""
    texts = {path: without_comments(data) for path, data in files.items()}
    name, place = member.encode(), None
    for path, text in texts.items():
        body = re.search(rb"\b" + re.escape(owner.encode()) + rb"\s*::\s*(" + re.escape(name) + rb")\b", text) if path.endswith(".bod") else None
        if body:
            return path, body.start(1)
    for path, text in texts.items():
        span = interface_in(text, owner.encode()) if path.endswith(".idl") else None
        if span:
            inner = re.search(rb"(?<!\w)" + re.escape(name.removeprefix(b"_get_").removeprefix(b"_set_")) + rb"(?!\w)", text[span[0] + len(owner) : span[1]])
            place = place or (path, span[0] + len(owner) + inner.start() if inner and member != "-" else span[0])
    return place
