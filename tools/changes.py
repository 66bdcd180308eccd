"""What differs between two releases, by what `som show` lists of them: classes and entries that are new, gone or moved, and the two release orders of each class.

What breaks a rule is what `som check` tells, and nothing here looks for it: a difference is only called a difference.
"""
import dataclasses
import re

from hierarchy import KERNEL

# What becomes of a class or an entry. A class that differs has entries, parents, a version or a metaclass that do.
NEW, GONE, SAME, MOVED, DIFFERS, BREAKS = "new", "gone", "same", "moved", "differs", "breaks"

# The sign that stands for each of them beside its colour, and what it is called.
SIGNS = {NEW: "+", GONE: "−", SAME: "", MOVED: "↑", DIFFERS: "~", BREAKS: "✗"}
CALLED = {NEW: "new", GONE: "gone", SAME: "as before", MOVED: "moved up", DIFFERS: "differs", BREAKS: "breaks the rule"}


@dataclasses.dataclass(frozen=True)
class Breach:
    """What check tells of a release that it refuses: the rule, the older release's class, a name or -, and its place."""
    rule: str
    owner: str
    name: str
    place: int


@dataclasses.dataclass(frozen=True)
class Entry:
    """An entry of a release order: the name of its method; its result and types, or the class to which it was moved; and whether it is called by its name."""
    name: str
    result: str = ""
    types: tuple = ()
    target: str = ""
    is_named: bool = False

    @property
    def signature(self):
        return self.result, self.types


@dataclasses.dataclass(frozen=True)
class Slot:
    """A place of a release order in both releases, each as show prints it, or empty, and what becomes of it."""
    place: int
    old: str
    new: str
    becomes: str


@dataclasses.dataclass(frozen=True)
class Compared:
    """A class in both releases, one of which may lack it, its slots, and what becomes of it."""
    name: str
    old: object
    new: object
    slots: tuple
    becomes: str


class Release:
    """The classes of a release by their names, in its order."""

    def __init__(self, name, classes):
        self.name = name
        self.classes = {one.name: one for one in classes}

    def ancestors(self, name):
        """A class and then the ancestors of its parents from left to right, each once."""
        found, todo = {}, [name]
        while todo:
            it = todo.pop()
            if it not in found:
                found[it] = True
                todo += reversed(self.classes[it].parents if it in self.classes else KERNEL.get(it, ()))
        return list(found)

    def entry(self, owner, name):
        """The entry of a name in a class's release order, or nothing."""
        found = [entry_of(it) for it in self.classes[owner].entries] if owner in self.classes else []
        return next((it for it in found if it.name == name), None)

    def signature(self, owner, name):
        """The result and types of a method by the class in whose release order it stands, or nothing where show doesn't print them."""
        entry = self.entry(owner, name)
        if entry and entry.target:
            entry = self.entry(entry.target, name)
        return entry.signature if entry and not entry.target else None


def entry_of(line):
    """The entry of a line of show, without the blanks before it."""
    moved = re.fullmatch(r"\d+ (.+) -> (.+)", line)
    if moved:
        return Entry(moved[1], target=moved[2])
    found = re.fullmatch(r"\d+ (\S+) ([^(]+)\((.*)\)( namelookup)?", line)
    return Entry(found[2], found[1], tuple(found[3].split(",")) if found[3] else (), is_named=bool(found[4])) if found else Entry(line)


def slot_becomes(old, new):
    """What becomes of an entry, by its lines in both releases."""
    if not old or not new:
        return NEW if new else GONE
    before, after = entry_of(old), entry_of(new)
    if before == after:
        return SAME
    return MOVED if before.name == after.name and after.target and not before.target else DIFFERS


def is_broken(breach, name, place):
    """Whether the breach is of this slot."""
    return bool(breach) and breach.rule in ("K4", "K5") and (breach.owner, breach.place) == (name, place)


def slots_of(name, old, new, breach):
    """The slots of a class, as many as the longer of its release orders has."""
    before, after = (one.entries if one else () for one in (old, new))
    for place in range(max(len(before), len(after))):
        lines = [entries[place] if place < len(entries) else "" for entries in (before, after)]
        yield Slot(place, *lines, BREAKS if is_broken(breach, name, place) else slot_becomes(*lines))


def compared(old, new, breach):
    """Each class of both releases: those of the new one in its order, and behind them those that are gone."""
    for name in [*new.classes, *[name for name in old.classes if name not in new.classes]]:
        before, after = old.classes.get(name), new.classes.get(name)
        if breach and breach.owner == name:
            becomes = BREAKS
        elif before and after:
            becomes = SAME if before == after else DIFFERS
        else:
            becomes = NEW if after else GONE
        yield Compared(name, before, after, tuple(slots_of(name, before, after, breach)), becomes)


def told(one, breach):
    """What differs in a class, a line each with what becomes of it."""
    if not one.old or not one.new:
        yield one.becomes if one.becomes != BREAKS else (NEW if one.new else GONE), f"class {one.name}"
        return
    for what in ("version", "parents", "metaclass"):
        values = [", ".join(it) if isinstance(it, tuple) else it or "none" for it in (getattr(one.old, what), getattr(one.new, what))]
        if values[0] != values[1]:
            is_breach = breach and breach.owner == one.name and {"K2": "version", "K6": "metaclass"}.get(breach.rule) == what
            yield BREAKS if is_breach else DIFFERS, f"{one.name}: {what} {values[0]} before, {values[1]} now"
    for slot in one.slots:
        before, after = (re.sub(r"^\d+ ", "", it) for it in (slot.old, slot.new))
        if slot.becomes == MOVED:
            yield MOVED, f"{one.name}: {entry_of(slot.old).name} at place {slot.place} moved up to {entry_of(slot.new).target}"
        elif slot.becomes in (NEW, GONE):
            yield slot.becomes, f"{one.name}: {after or before} at place {slot.place}"
        elif slot.becomes != SAME:
            yield slot.becomes, f"{one.name}: place {slot.place} was {before} and is {after}"


# ---- marks of pictures


@dataclasses.dataclass(frozen=True)
class Marks:
    """What a picture of one release says beside what show lists: what becomes of its classes and of their entries, and what folds are told to have."""
    classes: dict
    entries: dict

    def of(self, box):
        """The mark of a box: that of its class, or nothing."""
        return self.classes.get(box.classes[0].name, SAME) if not box.is_fold else SAME

    def lines(self, box):
        """The lines that say what a box's classes become."""
        if not box.is_fold:
            mark = self.of(box)
            return [f"{SIGNS[mark]} {CALLED[mark]}"] if mark != SAME else []
        counts = {mark: sum(self.classes.get(one.name) == mark for one in box.classes) for mark in (BREAKS, NEW, GONE, DIFFERS)}
        return [f"{SIGNS[mark]} {count} {CALLED[mark]}" for mark, count in counts.items() if count]


def marks_of(classes, is_new):
    """The marks of the picture of one release, where what is shown of the other isn't."""
    hidden = GONE if is_new else NEW
    marks = {one.name: one.becomes for one in classes if one.becomes not in (SAME, hidden) and (one.new if is_new else one.old)}
    entries = {(one.name, slot.place): slot.becomes for one in classes for slot in one.slots if slot.becomes not in (SAME, hidden)}
    return Marks(marks, entries)


def moved_in(boxes):
    """The entries of boxes that were moved: the class, the place, and the class to which."""
    for box in boxes:
        for place, line in enumerate(box.classes[0].entries if not box.is_fold else ()):
            target = entry_of(line).target
            if target:
                yield box.classes[0].name, place, target
