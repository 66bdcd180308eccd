"""The facts of a picture, read back out of it, and those of the lines of `som show`, which are read here in a way of their own; and where such lines stand."""
import bisect
import collections
import dataclasses
import re
from xml.etree import ElementTree

CLASS = re.compile(r"^class (\S+) (\S+) : (\S+)(?:\n  metaclass (\S+))?((?:\n  \d+ .*)*)", re.M)
ROOMS = ("kernel", "library", "client", "fold")
KINDS = ("left", "further", "metaclass")
# What a box says of a link that it names, with the kind of its line.
NAMED = {"first parent": "left", "parent": "further", "metaclass": "metaclass"}
# What isn't among the lines: the kernel's classes with their parents.
KERNEL = {"SOMObject": [], "SOMClass": ["SOMObject"], "SOMClassMgr": ["SOMObject"], "SOMMBeforeAfter": ["SOMClass"]}


# ---- the lines of show


@dataclasses.dataclass(frozen=True)
class Told:
    """What lines tell of a class: its version, whose it is, its links with their kinds, and its entries."""
    version: str
    room: str
    links: tuple
    entries: tuple


def told_by(text):
    """What lines of show tell of each class."""
    library, _, client = text.partition("\nclient ")
    told = {}
    for room, part in (("library", library), ("client", client)):
        for name, version, parents, metaclass, entries in CLASS.findall(part):
            first, *further = parents.split(",")
            links = [("left", first), *[("further", one) for one in further], *([("metaclass", metaclass)] if metaclass else [])]
            told[name] = Told(version, room, tuple(links), tuple(line[2:] for line in entries.splitlines() if line))
    return told


def shown_in(path):
    """The lines of each show in a page or an example, by the name of the image; the last ones of a name that is shown more than once."""
    return dict(re.findall(r"^\$ som show (\S+)\n((?:(?:library|client|class| ) .*\n)+)", path.read_text(), re.M))


def shown_in_table(path):
    """The lines of each show in a table that ends with 0, those left out that aren't written as they are printed."""
    for number, block in enumerate(re.findall(r"^\$ show \S+\n((?:    .*\n)+)(?!    |= )", path.read_text(), re.M), 1):
        lines = re.sub(r"^    ", "", block, flags=re.M)
        if lines.startswith("library ") and "$" not in lines:
            yield f"{path.stem} {number}", lines


# ---- pictures


@dataclasses.dataclass
class Drawn:
    """A box as it is drawn: its kind, the classes in it with their versions, its entries, how many of these it leaves out, and its frame."""
    kind: str
    classes: dict
    entries: list
    more: int = 0
    frame: tuple = ()
    texts: list = dataclasses.field(default_factory=list)


def whole_name(shown, title):
    """A class as a box shows it, its name and its version, where a name that is cut is taken from the title."""
    name, _, version = shown.partition(" ")
    return (title.split()[1] if name.endswith("…") else name), version


def box_of(kind, lines, title):
    """A box by its lines, each with its style, and its title; and the links that it names."""
    texts = collections.defaultdict(list)
    for style, text in lines:
        texts[style].append(text)
    small = [text for style, text in lines if style in ("small", "moved")]
    more = [int(found[1]) for found in [re.fullmatch(r"… and (\d+) more", small[-1])] if found] if small else []
    if kind == "fold":
        classes = {name: version for name, version, *_ in CLASS.findall(title)}
        if int(texts["name"][0].split()[0]) != len(classes):
            raise ValueError(f"{texts['name'][0]}, but there are {len(classes)}")
    else:
        classes = dict([whole_name(texts["name"][0], title)])
    far = [(NAMED[found[1]], found[2]) for text in texts["far"] for found in [re.fullmatch(r"(first parent|parent|metaclass) (\S+) ↗", text)]]
    return Drawn(kind, classes, small[: len(small) - len(more)], sum(more)), far


def ends_of(path):
    """Where a path of M, V and C begins and ends."""
    points = [0, 0]
    begin = None
    for letter, given in re.findall(r"([MVC])([-\d ]+)", path):
        numbers = [int(number) for number in given.split()]
        points = [points[0], numbers[0]] if letter == "V" else numbers[-2:]
        begin = begin or points
    return begin, points


class Borders:
    """The upper and lower borders of boxes, to find the box that a point is on."""

    def __init__(self, boxes):
        self.of = collections.defaultdict(list)
        for number, box in enumerate(boxes):
            x, y, width, height = box.frame
            for border in (y, y + height):
                self.of[border].append((x, x + width, number))
        for borders in self.of.values():
            borders.sort()

    def at(self, point):
        borders = self.of[point[1]]
        place = bisect.bisect(borders, (point[0], 1 << 60)) - 1
        if place < 0 or borders[place][1] < point[0]:
            raise ValueError(f"a line ends at {point}, where no box is")
        return borders[place][2]


def read_svg(text):
    """The boxes of an SVG, and its lines as the kind and the numbers of the boxes at which they begin and end."""
    space = "{http://www.w3.org/2000/svg}"
    root, boxes, lines = ElementTree.fromstring(text), [], set()
    groups = [group for group in root.iter(f"{space}g") if group.get("class") in ROOMS]
    named = []
    for group in groups:
        shown = [(it.get("class"), it.text) for it in group.iter(f"{space}text")]
        box, far = box_of(group.get("class"), shown, group.find(f"{space}title").text)
        frame = group.find(f"{space}rect")
        box.frame = tuple(int(frame.get(side)) for side in ("x", "y", "width", "height"))
        box.texts = [(int(it.get("x")), int(it.get("y")), float(it.get("font-size", 10)), it.text) for it in group.iter(f"{space}text")]
        boxes.append(box)
        named.append(far)
    borders = Borders(boxes)
    for group in root.iter(f"{space}g"):
        for path in group.findall(f"{space}path") if group.get("class") in KINDS else []:
            target, source = ends_of(path.get("d"))
            lines.add((group.get("class"), borders.at(source), borders.at(target)))
    return boxes, lines | links_named(boxes, named)


def texts_of(text):
    """The texts of each box of an SVG, each with its style."""
    space = "{http://www.w3.org/2000/svg}"
    groups = [group for group in ElementTree.fromstring(text).iter(f"{space}g") if group.get("class") in ROOMS]
    return [[(it.get("class"), it.text) for it in group.iter(f"{space}text")] for group in groups]


def links_named(boxes, named):
    """The links that boxes name, as lines. A fold is named by its first class."""
    number = {name: place for place, box in enumerate(boxes) for name in box.classes}
    return {(kind, place, number[name]) for place, far in enumerate(named) for kind, name in far}


def plain(quoted):
    """A text of DOT without its quoting."""
    return re.sub(r"\\(.)", lambda found: "\n" if found[1] == "l" else found[1], quoted)


def read_dot(text):
    """The boxes and lines of a DOT."""
    string = r'"((?:[^"\\]|\\.)*)"'
    boxes, number, named = [], {}, []
    for name, kind, label, title in re.findall(rf"^  {string} \[class=(\w+) label={string} tooltip={string}", text, re.M):
        shown = plain(label).splitlines()
        first = next(place for place, line in enumerate(shown) if line != "«client»")
        lines = [("name" if place == first else "far" if line.endswith(" ↗") else "small", line) for place, line in enumerate(shown) if place >= first]
        box, far = box_of(kind, lines, plain(title))
        number[name] = len(boxes)
        boxes.append(box)
        named.append(far)
    drawn = re.findall(rf"^  {string} -> {string} \[class=(\w+)", text, re.M)
    return boxes, {(kind, number[source], number[target]) for source, target, kind in drawn} | links_named(boxes, named)


# ---- what differs


def kernel_of(told):
    """The kernel's classes that a picture has: those that are named, and their parents."""
    todo, found = [name for one in told.values() for _, name in one.links if name in KERNEL], set()
    while todo:
        name = todo.pop()
        found.add(name)
        todo += KERNEL[name]
    return found


def wanted_lines(told, boxes):
    """The lines that a picture with these boxes has to have: all but those in a fold, and between two folds of a library's, or of a client's, classes."""
    number = {name: place for place, box in enumerate(boxes) for name in box.classes}
    links = [(kind, name, other) for name, one in told.items() for kind, other in one.links]
    links += [("left", name, other) for name in kernel_of(told) for other in KERNEL[name]]
    found = {(kind, number[name], number[other]) for kind, name, other in links}
    folds = {place: told[next(iter(box.classes))].room for place, box in enumerate(boxes) if box.kind == "fold"}
    return {it for it in found if it[1] != it[2] and not (it[1] in folds and folds[it[1]] == folds.get(it[2]))}


def differences(text, boxes, lines, is_whole):
    """What a picture has otherwise than the lines of show."""
    told = told_by(text)
    versions = {name: one.version for name, one in told.items()} | {name: "" for name in kernel_of(told)}
    drawn = [(name, version) for box in boxes for name, version in box.classes.items()]
    wrong = [f"{' '.join(it)}: in the picture, or in the lines, but not in both, or twice" for it in sorted(set(drawn) ^ set(versions.items()))]
    if wrong or len(drawn) != len(versions):
        return wrong or ["a class stands in two boxes"]
    for box in boxes:
        rooms = {told[name].room if name in told else "kernel" for name in box.classes}
        name = next(iter(box.classes))
        if box.kind == "fold" and is_whole or len(rooms) > 1 or box.kind != "fold" and rooms != {box.kind}:
            wrong.append(f"{name}: drawn as {box.kind}")
        entries = list(told[name].entries) if name in told else []
        fit = [entry == shown or shown[-1] == "…" and entry.startswith(shown[:-1]) and not is_whole for entry, shown in zip(entries, box.entries)]
        if box.kind != "fold" and (not all(fit) or len(fit) != len(box.entries) or len(fit) + box.more != len(entries) or is_whole and box.more):
            wrong.append(f"{name}: not its entries")
    for kind, source, target in sorted(lines ^ wanted_lines(told, boxes)):
        wrong.append(f"{kind} {next(iter(boxes[source].classes))} {next(iter(boxes[target].classes))}: a line that is drawn, or in the lines of show, but not both")
    return wrong


def misplaced(boxes):
    """The boxes that overlap, and texts that leave theirs."""
    rows = collections.defaultdict(list)
    for box in boxes:
        rows[box.frame[1]].append(box)
    wrong, bottom = [], 0
    for y, row in sorted(rows.items()):
        row.sort(key=lambda box: box.frame)
        beside = [next(iter(right.classes)) for left, right in zip(row, row[1:]) if left.frame[0] + left.frame[2] >= right.frame[0]]
        wrong += [f"{name}: overlaps the box at its left" for name in beside] + ([f"the row at {y}: overlaps the one above it"] if y <= bottom else [])
        bottom = max(y + box.frame[3] for box in row)
    for box in boxes:
        x, y, width, height = box.frame
        for left, base, size, text in box.texts:
            if not (x < left and left + len(text) * size * 0.602 < x + width and y < base - size * 0.7 and base < y + height):
                wrong.append(f"{text}: leaves its box")
    return wrong
