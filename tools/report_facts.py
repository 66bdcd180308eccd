"""The facts of a report, read back out of its page, and compared with the lines that `som` said, which are read here in a way of their own."""
import html.parser
import itertools
import re

import facts

SIGNED = {"new": "+ new", "gone": "− gone", "moved": "↑ moved up", "differs": "~ differs", "breaks": "✗ breaks the rule", "same": "as before"}
VOID = ("meta", "link", "wbr")


class Node:
    """An element of a page: its name, its attributes, and what stands in it."""

    def __init__(self, name, attributes):
        self.name, self.attributes, self.inner = name, attributes, []

    def all(self, name, kind=""):
        """The elements of a name, and of a class where one is said, in this one."""
        for it in self.inner:
            if isinstance(it, Node):
                if it.name == name and (not kind or kind in it.attributes.get("class", "").split()):
                    yield it
                yield from it.all(name, kind)

    def first(self, name, kind=""):
        return next(self.all(name, kind))

    @property
    def text(self):
        return "".join(it.text if isinstance(it, Node) else it for it in self.inner)


class Reader(html.parser.HTMLParser):
    """Reads a page without its pictures as a tree."""

    def __init__(self, text):
        super().__init__()
        self.open = [Node("", {})]
        self.feed(text)
        self.close()
        if len(self.open) != 1:
            raise ValueError(f"{self.open[-1].name} isn't closed")

    def handle_starttag(self, tag, attrs):
        node = Node(tag, {name: value or "" for name, value in attrs})
        self.open[-1].inner.append(node)
        if tag not in VOID:
            self.open.append(node)

    def handle_endtag(self, tag):
        if self.open.pop().name != tag:
            raise ValueError(f"{tag} is closed, but another element is open")

    def handle_data(self, data):
        self.open[-1].inner.append(data)


def read(text):
    """A page as a tree, and its pictures."""
    pictures = re.findall(r"<svg .*?</svg>\n?", text, re.S)
    return Reader(re.sub(r"<svg .*?</svg>\n?", "", text, flags=re.S)).open[0], [it.replace("<svg ", '<svg xmlns="http://www.w3.org/2000/svg" ', 1) for it in pictures]


# ---- what the lines say


class Lines:
    """What som said of two releases: the answers by their words."""

    def __init__(self, answers):
        self.of = {answer.words: answer for answer in answers}
        check = next(it for it in answers if it.words[0] == "check")
        self.check, self.images = check.text.rstrip("\n"), check.words[1:]
        self.shown = [self.of["show", image].text for image in self.images]
        self.told = [facts.told_by(text) for text in self.shown]
        self.broken = self.check.split() if check.status else []

    def becomes(self, name):
        """What becomes of a class."""
        old, new = (told.get(name) for told in self.told)
        if self.broken and self.broken[2] == name:
            return "breaks"
        return "same" if old == new else "differs" if old and new else "new" if new else "gone"

    def slots(self, name):
        """The rows of a class's release orders: the place, both entries, and what becomes of it."""
        entries = [[line.split(" ", 1)[1] for line in told[name].entries] if name in told else [] for told in self.told]
        for place, (old, new) in enumerate(itertools.zip_longest(*entries, fillvalue="")):
            is_moved = " -> " in new and " -> " not in old and re.search(r"(\S+)\(", old) and re.search(r"(\S+)\(", old)[1] == new.split(" -> ")[0]
            becomes = "same" if old == new else "new" if not old else "gone" if not new else "moved" if is_moved else "differs"
            if self.broken and self.broken[1] in ("K4", "K5") and self.broken[2] == name and self.broken[4] == str(place):
                becomes = "breaks"
            yield str(place), old or "–", new or "–", SIGNED[becomes]

    def names(self):
        return [*self.told[1], *[name for name in self.told[0] if name not in self.told[1]]]


# ---- what differs


def rows_of(table):
    """The rows of a table of slots, without what is said beside an entry that was moved."""
    for row in table.first("tbody").all("tr"):
        cells = [next((it.text for it in cell.all("code")), cell.text) for cell in row.inner if isinstance(cell, Node)]
        yield tuple(cells)


def head_differs(page, lines):
    """The verdict."""
    head = page.first("header")
    kind = "refused" if lines.broken else "accepted"
    if head.attributes["class"] != kind or not head.first("h1").text.lower().lstrip("✗✓ ").startswith(kind):
        yield f"the head doesn't say that it is {kind}"
    if head.first("p", "told").first("code").text != lines.check:
        yield "the head doesn't have what check printed"
    if lines.broken:
        said = [lines.broken[1], *[it for it in lines.broken[2:4] if it != "-"]]
        yield from (f"the head doesn't name {it}" for it in said if it not in head.first("p", "meets").text + head.first("p", "promise").text)


def ancestors(name, told, found=None):
    """A class and its ancestors, by its links."""
    found = found if found is not None else []
    found.append(name)
    for parent in [other for kind, other in told[name].links if kind != "metaclass"] if name in told else facts.KERNEL.get(name, []):
        if parent not in found:
            ancestors(parent, told, found)
    return found


def heads_differ(part, name, lines):
    """What is said of a class beside its entries."""
    wanted = {"class": ["there" if name in told else "–" for told in lines.told]}
    wanted["version"] = [told[name].version if name in told else "–" for told in lines.told]
    for what, kinds in (("parents", ("left", "further")), ("metaclass", ("metaclass",))):
        wanted[what] = [", ".join(other for kind, other in told[name].links if kind in kinds) or "–" if name in told else "–" for told in lines.told]
    breaks = {"K1": "class", "K2": "version", "K3": "ancestors", "K6": "metaclass"}.get(lines.broken[1]) if lines.broken and lines.broken[2] == name else ""
    for what, *texts, mark in [row for table in part.all("table", "heads") for row in rows_of(table)]:
        if what == "ancestors":
            wanted[what] = [", ".join(ancestors(name, told)) if name in told else "–" for told in lines.told]
        becomes = "same" if texts[0] == texts[1] else "new" if texts[0] == "–" else "gone" if texts[1] == "–" else "differs"
        if wanted[what] != texts or mark != SIGNED["breaks" if what == breaks else becomes]:
            yield f"{name}: not its {what}"


def orders_differ(page, lines):
    """The release orders."""
    found = {}
    for part in [it for it in page.all("details", "order") if not list(it.all("pre"))]:
        name = part.first("summary").first("b").text
        found[name] = part.first("summary").first("span", "mark").text, [row for table in part.all("table", "slots") for row in rows_of(table)]
        yield from heads_differ(part, name, lines)
    differing = [name for name in lines.names() if lines.becomes(name) != "same"]
    if list(found) != differing:
        yield "the release orders aren't those of the classes that differ"
        return
    for name in differing:
        if found[name] != (SIGNED[lines.becomes(name)], list(lines.slots(name))):
            yield f"{name}: not its release orders"
    same = "".join(it.text for it in page.all("pre", "same"))
    wanted = [block for block in re.split(r"^(?=class )", lines.shown[1], flags=re.M)[1:] if lines.becomes(block.split()[1]) == "same"]
    if same.rstrip("\n") != "".join(wanted).rstrip("\n"):
        yield "the classes as before aren't those of show"


def slot_differs(page, lines):
    """What broke."""
    part = next((it for it in page.all("section") if it.attributes["id"] == "slot"), None)
    if bool(part) != bool(lines.broken):
        yield "a part for what broke, and nothing did, or the other way round"
    if not part:
        return
    rows = [row for table in part.all("table", "slots") for row in rows_of(table)]
    if rows and not set(rows) <= set(lines.slots(lines.broken[2])):
        yield "what broke has other slots than show"
    if lines.broken[1] in ("K4", "K5") and [row[0] for row in rows if row[3] == SIGNED["breaks"]] != [lines.broken[4]]:
        yield "what broke isn't the slot that check told"
    heads = [row for table in part.all("table", "heads") for row in rows_of(table)]
    if lines.broken[1] not in ("K4", "K5") and sum(row[3] == SIGNED["breaks"] for row in heads) != 1:
        yield "what broke isn't marked"
    yield from heads_differ(part, lines.broken[2], lines)


def changes_differ(page, lines):
    """The list of what differs."""
    part = next(it for it in page.all("section") if it.attributes["id"] == "changes")
    listed = [(it.first("span", "mark").text, it.first("code").text) for it in part.all("li")]
    classes = {(mark, text) for mark, text in listed if text.startswith("class ")}
    wanted = {(SIGNED["new" if name in lines.told[1] else "gone"], f"class {name}") for name in lines.names() if len([it for it in lines.told if name in it]) == 1}
    if classes != wanted:
        yield "the classes that are new or gone aren't those of show"
    both = [name for name in lines.names() if all(name in told for told in lines.told)]
    for becomes in ("new", "gone", "moved", "breaks"):
        slots = sum(mark == SIGNED[becomes] and ("place " in text) for mark, text in listed)
        if slots != sum(row[3] == SIGNED[becomes] for name in both for row in lines.slots(name)):
            yield f"the entries that are {becomes} aren't as many as those of show"


def runs_differ(page, lines):
    """What clients and witnesses printed, and the texts of a witness."""
    shown = [(figure.first("pre").attributes["aria-label"], figure) for figure in page.all("figure", "run")]
    wanted = [" ".join(words) for words in lines.of if words[0] == "run"]
    if {words for words, _ in shown} != set(wanted):
        yield "the runs aren't those that som was asked for"
        return
    for words, figure in shown:
        answer = lines.of[tuple(words.split())]
        left = re.search(r"… and (\d+) more", figure.text)
        text = figure.first("pre").text
        if not answer.text.startswith(text.rstrip("\n")) or answer.text.count("\n") != text.count("\n") + (int(left[1]) if left else 0):
            yield f"{words}: not what was printed"
        if f"status {answer.status}" not in figure.first("figcaption").text:
            yield f"{words}: not its status"
    told = "".join(it.text for words, it in lines.of.items() if words[0] == "witness")
    texts = "".join(f"file {it.first('figcaption').text}\n{it.first('pre').text}" for it in page.all("figure", "text"))
    if texts and not told.endswith(texts) or bool(texts) != ("\nfile " in told):
        yield "the texts of the witness aren't those that som told"


def answers_differ(page, lines):
    """The lines at the end."""
    shown = [(it.first("summary").text, it.first("pre").text) for it in page.all("details", "raw")]
    wanted = [(f"som {' '.join(words)}, status {it.status}", it.text) for words, it in lines.of.items()]
    if shown != wanted:
        yield "the lines at the end aren't those that som said"


# ---- pictures


def marks_differ(boxes, kinds, lines, is_new):
    """The marks of boxes, and of the entries in them."""
    hidden = "gone" if is_new else "new"
    for box, texts in zip(boxes, kinds):
        marks = [text for kind, text in texts if kind == "mark"]
        becomes = [lines.becomes(name) for name in box.classes]
        if box.kind == "kernel":
            wanted = []
        elif box.kind == "fold":
            wanted = [SIGNED[it].replace(" ", f" {becomes.count(it)} ", 1) for it in ("breaks", "new", "gone", "differs") if it in becomes and it != hidden]
        else:
            wanted = [SIGNED[becomes[0]]] if becomes[0] not in ("same", hidden) else []
        if marks != wanted:
            yield f"{next(iter(box.classes))}: marked {marks}, and not {wanted}"
        signs = [(sign, text.split(" ")[0]) for (kind, sign), (_, text) in zip(texts, texts[1:]) if kind == "sign" and text[0].isdigit()]
        if box.kind == "library":
            slots = [(row[3].split(" ")[0], row[0]) for row in lines.slots(next(iter(box.classes))) if row[3] not in (SIGNED["same"], SIGNED[hidden])]
            slots = [it for it in slots if int(it[1]) < len(box.entries)]
            if signs != slots:
                yield f"{next(iter(box.classes))}: its entries are marked {signs}, and not {slots}"


def arrows_differ(text, boxes, told):
    """The arrows of entries that were moved."""
    edges = {}
    for number, box in enumerate(boxes):
        x, y, width, height = box.frame
        edges.setdefault(x + width, []).append((y, y + height, number))
    drawn = []
    for group in re.findall(r'<g class="move".*?</g>', text, re.S):
        for path in re.findall(r' d="([^"]*)"', group):
            ends = [next((number for top, low, number in edges.get(x, ()) if top <= y <= low), None) for x, y in facts.ends_of(path)]
            drawn.append(tuple(ends))
    number = {name: place for place, box in enumerate(boxes) for name in box.classes}
    moved = [(name, entry.split(" -> ")[1]) for name, one in told.items() for entry in one.entries if " -> " in entry]
    wanted = [(number[name], number[target]) for name, target in moved if boxes[number[name]].kind != "fold" and target in number]
    if sorted(drawn, key=str) != sorted((it for it in wanted if it[0] != it[1]), key=str):
        yield "the arrows aren't those of the entries that were moved"


def pictures_differ(pictures, lines):
    """Both pictures."""
    if len(pictures) != 2:
        yield f"{len(pictures)} pictures"
        return
    for is_new, (text, shown, told) in enumerate(zip(pictures, lines.shown, lines.told)):
        try:
            boxes, links = facts.read_svg(text)
            kinds = facts.texts_of(text)
        except ValueError as fault:
            yield str(fault)
            continue
        yield from facts.differences(shown, boxes, links, False)
        yield from facts.misplaced(boxes)
        yield from marks_differ(boxes, kinds, lines, is_new)
        yield from arrows_differ(text, boxes, told)


def differences(text, answers):
    """What a page has otherwise than the answers of som."""
    lines = Lines(answers)
    try:
        page, pictures = read(text)
    except ValueError as fault:
        return [str(fault)]
    parts = (head_differs, slot_differs, changes_differ, orders_differ, runs_differ, answers_differ)
    outside = re.findall(r"""(?:src|href)=["'](?!#|data:)[^"']*|url\((?!#)[^)]*|<script""", text)
    return [*[f"{it}: something that isn't in the page" for it in outside], *[it for part in parts for it in part(page, lines)], *pictures_differ(pictures, lines)]
