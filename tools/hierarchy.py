"""The classes of an image as `som show` lists them, and the boxes of a picture of them, in which what is wide is folded.

A picture has a box for each class, and for each kernel class that is named. Its layer is its height: a class stands one layer below the lowest of its parents.
Classes with the same parents and the same metaclass that no other class names go into one box, where there are more than ALIKE of them. Where a layer would then
have more than WIDE boxes, some classes stay (`staying`); the others, and all classes below them, go into one box for each left parent that stays.
"""
import collections
import dataclasses
import re

# The kernel's classes, which show doesn't list, with their parents.
KERNEL = {"SOMObject": (), "SOMClass": ("SOMObject",), "SOMClassMgr": ("SOMObject",), "SOMMBeforeAfter": ("SOMClass",)}

# What a line of a picture leads to: the first parent, which begins the left path, a further parent, and the declared metaclass.
LEFT, FURTHER, METACLASS = KINDS = ("left", "further", "metaclass")

# More classes than this that are alike fold, and so do layers of more boxes than this; of so many boxes a layer has few.
ALIKE, WIDE, FEW = 8, 24, 8


@dataclasses.dataclass(frozen=True)
class Shown:
    """A class as show lists it, with the lines of its entries; of one of the kernel there are only the name and the parents."""
    name: str
    version: str
    parents: tuple
    room: str
    metaclass: str = ""
    entries: tuple = ()

    def links(self):
        """What its lines lead to, each with the kind of the line."""
        found = [(FURTHER if place else LEFT, parent) for place, parent in enumerate(self.parents)]
        return found + ([(METACLASS, self.metaclass)] if self.metaclass else [])

    def lines(self):
        """What show prints of it."""
        if self.room == "kernel":
            return [f"class {self.name} of the kernel"]
        meta = [f"  metaclass {self.metaclass}"] if self.metaclass else []
        return [f"class {self.name} {self.version} : {','.join(self.parents)}", *meta, *[f"  {entry}" for entry in self.entries]]


@dataclasses.dataclass(eq=False)
class Box:
    """A box of a picture: a class, or classes that are folded; its layer from 0 at the top; and links whose lines would be too long, which it names."""
    classes: list
    layer: int
    is_fold: bool = False
    far: list = dataclasses.field(default_factory=list)

    @property
    def name(self):
        """A name for the box that no other one has: that of its first class, after a number where it is a fold."""
        return f"{len(self.classes)} {self.classes[0].name}" if self.is_fold else self.classes[0].name

    @property
    def room(self):
        return self.classes[0].room


@dataclasses.dataclass(frozen=True)
class Edge:
    """A line of a picture, from the box of a class to that of what it names."""
    kind: str
    source: Box
    target: Box

    def is_hidden(self):
        """Whether it isn't drawn: lines between two folds might go in circles."""
        return self.source.is_fold and self.target.is_fold and self.source.room == self.target.room


class NotShown(Exception):
    """A line that show doesn't print."""


def printable(data):
    """Bytes as a text without letters that can't stand in a picture."""
    text = data.decode("utf-8", "backslashreplace")
    return "".join(letter if letter.isprintable() or letter == "\n" else f"\\x{ord(letter):02x}" for letter in text)


def read(text):
    """The classes of the lines that show prints, in their order. Names with blanks, commas or line feeds, which no text can have, aren't read."""
    found, counts, room, known = [], {}, "", set(KERNEL)
    for number, line in enumerate(text.splitlines(), 1):
        counted = re.fullmatch(r"(library|client) (\d+)", line)
        headed = re.fullmatch(r"class (\S+) (\d+\.\d+) : (\S+)", line)
        meta, entry = re.fullmatch(r"  metaclass (\S+)", line), re.fullmatch(r"  (\d+ \S.*)", line)
        last = found[-1] if found and found[-1].room == room else None
        if counted and counted[1] not in counts and (counts or counted[1] == "library"):
            room, counts[counted[1]] = counted[1], int(counted[2])
        elif headed and room and headed[1] not in known and known.issuperset(headed[3].split(",")):
            found.append(Shown(headed[1], headed[2], tuple(headed[3].split(",")), room))
            known.add(headed[1])
        elif meta and last and meta[1] in known - {last.name} and not last.metaclass:
            found[-1] = dataclasses.replace(last, metaclass=meta[1])
        elif entry and last and int(entry[1].split()[0]) == len(last.entries):
            found[-1] = dataclasses.replace(last, entries=(*last.entries, entry[1]))
        else:
            raise NotShown(f"line {number} is none that show prints: {line}")
    if "library" not in counts or any(counts[name] != sum(it.room == name for it in found) for name in counts):
        raise NotShown("the numbers of classes aren't those of the lines")
    return found


def with_kernel(classes):
    """The kernel's classes that these name, with their parents, and then these."""
    todo, named = [name for one in classes for _, name in one.links() if name in KERNEL], set()
    while todo:
        name = todo.pop()
        if name not in named:
            named.add(name)
            todo += KERNEL[name]
    return [Shown(name, "", KERNEL[name], "kernel") for name in KERNEL if name in named] + classes


def heights(classes):
    """How many classes stand above each at most, on a way over parents."""
    height = {}
    for one in classes:
        height[one.name] = 1 + max((height[parent] for parent in one.parents), default=-1)
    return height


def below_each(classes):
    """How many classes have each on their left path."""
    below = collections.Counter()
    for one in reversed(classes):
        if one.parents:
            below[one.parents[0]] += 1 + below[one.name]
    return below


def alike_in(layer, named):
    """The groups of classes of a layer that are alike, where there are enough of them and nobody names them."""
    groups = collections.defaultdict(list)
    for one in layer:
        if one.name not in named:
            groups[one.parents, one.metaclass, one.room].append(one)
    return {key: group for key, group in groups.items() if len(group) > ALIKE}


def staying(free, below, above):
    """Those of a layer with too many classes that stay: the ones with more below them than the first for which there is no room. Where these are few, and the
    layer above has few too, as many stay as there is room for, those with the most below them."""
    ranked = sorted(free, key=lambda one: -below[one.name])
    more = [one for one in ranked if below[one.name] > below[ranked[WIDE].name]]
    return more if max(len(more), above) > FEW else ranked[:WIDE]


def folds(classes, height):
    """The fold of each class that goes into one. A class below one that is folded is folded."""
    below, named, fold = below_each(classes), {name for one in classes for _, name in one.links()}, {}
    layers = collections.defaultdict(list)
    for one in classes:
        if one.room != "kernel":
            layers[height[one.name]].append(one)
    above = 1
    for _, layer in sorted(layers.items()):
        free = []
        for one in layer:
            if any(parent in fold for parent in one.parents):
                fold[one.name] = fold.get(one.parents[0], one.parents)[0], one.room
            else:
                free.append(one)
        alike = alike_in(free, named)
        if len(free) - sum(len(group) - 1 for group in alike.values()) > WIDE:
            stay = {one.name for one in staying(free, below, above)}
            fold |= {one.name: (one.parents[0], one.room) for one in free if one.name not in stay}
        else:
            fold |= {one.name: key for key, group in alike.items() for one in group}
        above = sum(one.name not in fold for one in free)
    return fold


def box_of(group, stays, layer):
    """The box of some classes, below those of their parents that have layers."""
    if group[0].name in stays:
        return Box(group, layer[group[0].name])
    return Box(group, 1 + max(layer[parent] for one in group for parent in one.parents if parent in layer), True)


def boxes_of(classes, is_whole=False):
    """The boxes of a picture, in the order of the classes that come first in them; where it is to be whole nothing is folded."""
    classes = with_kernel(classes)
    height, groups = heights(classes), collections.defaultdict(list)
    fold = {} if is_whole else folds(classes, height)
    for one in classes:
        groups[fold.get(one.name, one.name)].append(one)
    stays = {group[0].name for group in groups.values() if len(group) == 1 and not any(parent in fold for parent in group[0].parents)}
    boxes, layer = [], {name: height[name] for name in height if name not in fold or name in stays}
    for room in ("kernel", "library", "client"):
        # (above a client's classes those of the library may be folded, and these folds have their layers by then)
        made = [box_of(group, stays, layer) for group in groups.values() if group[0].room == room]
        layer |= {one.name: box.layer for box in made for one in box.classes}
        boxes += made
    return boxes


def edges_of(boxes):
    """The lines between boxes, each once; none between two folds, but from one of a client's classes to one of its library's."""
    has = {one.name: box for box in boxes for one in box.classes}
    edges = [Edge(kind, box, has[name]) for box in boxes for one in box.classes for kind, name in one.links()]
    return list(dict.fromkeys(edge for edge in edges if edge.source is not edge.target and not edge.is_hidden()))
