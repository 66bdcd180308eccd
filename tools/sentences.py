"""What a report says in plain words: the verdict, what a program that was compiled against the older release would have met, and what each rule asks."""
import re

from changes import BREAKS, CALLED, DIFFERS, GONE, MOVED, NEW, SIGNS, told

RULES = {
    "K1": "each class of the old release is in the new one",
    "K2": "the major version stays, and the minor one doesn't fall",
    "K3": "what a class descends from in the old release, it descends from in the new one",
    "K4": "the old release order begins the new one, name by name",
    "K5": "each old entry has the same signature: the same result and the same types of parameters",
    "K6": "where the old class declares a metaclass, the class's metaclass in the new release descends from it",
}

STATUSES = {
    0: "ran to its end",
    1: "ended by the fault on its last line",
    4: "not run, since the library doesn't keep what the client was compiled against",
    9: "ended since its fuel was spent",
}


def verdict(asked):
    """The sentence at the head of the page."""
    old, new, breach = asked.old.name, asked.new.name, asked.breach
    if not breach:
        return f"Accepted: {new} may take the place of {old}."
    return f"Refused: {new} may not take the place of {old}."


def counted(number, word):
    """A number of things."""
    plural = f"{word}es" if word.endswith("s") else f"{word}s"
    return f"{number or 'no'} {word if number == 1 else plural}"


def one(kind):
    """One value of a type."""
    return f"{'an' if kind[0] in 'AEIOUaeiou' else 'a'} {kind}"


def values(types):
    """What is handed in, by its types."""
    if not types:
        return "nothing"
    return f"one value ({types[0]})" if len(types) == 1 else f"{len(types)} values ({', '.join(types)})"


def answers(result):
    """What a method answers."""
    return "no answer" if result == "void" else f"{one(result)} as the answer"


def signatures_differ(asked):
    """K5: what callers hand in and what the new body would take, or what they wait for and what would come."""
    old, new, breach = asked.old, asked.new, asked.breach
    before, after = (release.signature(breach.owner, breach.name) for release in (old, new))
    called = f"{breach.name} of the class {breach.owner}, at place {breach.place}"
    if not before or not after:
        return f"A program compiled against {old.name} calls {called}, by a signature that {new.name} doesn't have any more."
    if old.entry(breach.owner, breach.name).is_named:
        shown = [f"{result} {breach.name}({','.join(types)})" for result, types in (before, after)]
        return f"A program compiled against {old.name} calls {breach.name} of the class {breach.owner} by its name, as {shown[0]}. In {new.name} it is {shown[1]}, which such a call needn't fit."
    if len(before[1]) < len(after[1]):
        added = after[1][len(before[1]) :]
        extra = one(added[0]) if len(added) == 1 and before[1] == after[1][:-1] else f"{len(added)} of them"
        meets = f"In {new.name} that method takes {values(after[1])}, and would have to work with {extra} that nobody handed in."
        return f"A program compiled against {old.name} calls {called}, and hands in {values(before[1])}. {meets}"
    if len(before[1]) > len(after[1]):
        return f"A program compiled against {old.name} calls {called}, and hands in {values(before[1])}. In {new.name} that method takes {values(after[1])}: the rest would be left over."
    if before[1] != after[1]:
        place = next(place for place, pair in enumerate(zip(before[1], after[1])) if pair[0] != pair[1])
        return (
            f"A program compiled against {old.name} calls {called}, and hands in {one(before[1][place])} as value {place + 1}. "
            f"In {new.name} that method would take it for {one(after[1][place])}."
        )
    return f"A program compiled against {old.name} calls {called}, and waits for {answers(before[0])}. In {new.name} it would get {answers(after[0])}."


def order_differs(asked):
    """K4: which method would have been run in the place of the one that was meant."""
    old, new, breach = asked.old, asked.new, asked.breach
    entries = new.classes[breach.owner].entries if breach.owner in new.classes else ()
    there = re.sub(r"^[0-9]+ ", "", entries[breach.place]) if breach.place < len(entries) else ""
    if old.entry(breach.owner, breach.name).is_named:
        return f"In {old.name} place {breach.place} of the class {breach.owner} is that of {breach.name}, and in {new.name} {f'that of another method, {there}' if there else 'there is none'}."
    start = f"A program compiled against {old.name} that means {breach.name} calls place {breach.place} of the class {breach.owner}."
    return f"{start} In {new.name} {f'another method stands there, {there}, and it would have run that' if there else 'nothing stands there'}."


def version_differs(asked):
    """K2: what the version says."""
    old, new, owner = asked.old, asked.new, asked.breach.owner
    before, after = old.classes[owner].version, new.classes[owner].version
    if before.split(".")[0] != after.split(".")[0]:
        return f"The version of {owner} was {before} and is {after}: with another major version {new.name} itself says that it doesn't take the place of {old.name}."
    return f"The version of {owner} was {before} and is {after}: a program compiled against {old.name} that asks whether it is at least {before} is told that it isn't."


def would_meet(asked):
    """What a program that was compiled against the older release would have met."""
    old, new, breach = asked.old.name, asked.new.name, asked.breach
    owner, name = breach.owner, breach.name
    if breach.rule == "K1":
        return f"The class {owner} is gone. A program compiled against {old} that makes objects of {owner}, or has a class of its own below it, finds none in {new}."
    if breach.rule == "K3":
        return f"{owner} doesn't descend from {name} any more. A program compiled against {old} that uses an object of {owner} as one of {name} would have one in {new} that is none."
    if breach.rule == "K6":
        return f"The class object of {owner} isn't of the metaclass {name} any more. A program compiled against {old} that asks {owner} for what {name} has would ask a class object in {new} that hasn't got it."
    return {"K2": version_differs, "K4": order_differs, "K5": signatures_differ}[breach.rule](asked)


def promise(asked):
    """What follows from the verdict for those who have programs."""
    old, new = asked.old.name, asked.new.name
    if asked.breach:
        return f"The rule that is broken, {asked.breach.rule}: {RULES[asked.breach.rule]}."
    return f"Every program that was compiled against {old} runs on {new} as it is: {new} keeps all that {old} promised, rules K1 to K6."


def changes(classes, breach):
    """What differs between the releases, a line each with what becomes of it, what breaks the rule first."""
    lines = [line for one in classes for line in told(one, breach)]
    ranks = [BREAKS, GONE, DIFFERS, MOVED, NEW]
    return sorted(lines, key=lambda line: ranks.index(line[0]))


def summary(lines):
    """How much differs, by its lines."""
    counts = [(mark, sum(line[0] == mark for line in lines)) for mark in (BREAKS, GONE, DIFFERS, MOVED, NEW)]
    return ", ".join(f"{SIGNS[mark]} {count} {CALLED[mark]}" for mark, count in counts if count) or "Nothing that show prints differs"


def ended(run):
    """How a run ended."""
    return f"{STATUSES.get(run.status, 'ended')}, status {run.status}"
