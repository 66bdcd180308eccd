"""The page of a report: one HTML file with its style and its pictures, and no script, which needs nothing else."""
import difflib
import re
from html import escape

import changes
import drawing
import hierarchy
import picture
import sentences
from changes import BREAKS, CALLED, DIFFERS, GONE, NEW, SAME, SIGNS
from style import STYLE

# How many lines of a client, of a list of changes and of a release order at the head of the page are shown before they fold.
LINES, CHANGES, AROUND = 2000, 40, 5

# How many boxes a picture may have that isn't folded away.
BOXES = 120

# The status of a client that isn't run.
NOT_RUN = 4

# Lines that are compared to tell which differ; more aren't, since that takes too long.
COMPARED = 4000


def code(text):
    """A text in the letters of code, which may be broken behind a bracket or a comma, or a sign where there is none."""
    broken = re.sub(r"([(,])", r"\1<wbr>", escape(text))
    return f"<code>{broken}</code>" if text else '<span class="none">–</span>'


def mark(becomes):
    """What becomes of something, as a sign with its word."""
    return f'<span class="mark {becomes}">{SIGNS[becomes]} {CALLED[becomes]}</span>' if becomes != SAME else f'<span class="mark">{CALLED[SAME]}</span>'


def folded(summary, lines, is_open=False, kind=""):
    """What opens by a click or a key."""
    attributes = (f' class="{kind}"' if kind else "") + (" open" if is_open else "")
    yield f"<details{attributes}><summary>{summary}</summary>"
    yield from lines
    yield "</details>"


def section(name, title, lines):
    """A part of the page with its title."""
    yield f'<section id="{name}"><h2>{escape(title)}</h2>'
    yield from lines
    yield "</section>"


# ---- the head


def head(asked):
    """The verdict, and what it is about."""
    kind, sign = ("refused", "✗") if asked.breach else ("accepted", "✓")
    yield f'<header class="{kind}"><p class="names">{escape(asked.old.name)} → {escape(asked.new.name)}</p>'
    yield f'<h1><span aria-hidden="true">{sign}</span> {escape(sentences.verdict(asked))}</h1>'
    if asked.breach:
        yield f'<p class="meets">{escape(sentences.would_meet(asked))}</p>'
    yield f'<p class="promise">{escape(sentences.promise(asked))}</p>'
    check = next(it for it in asked.answers if it.words[0] == "check")
    yield f'<p class="told">som says: {code(check.text.rstrip())}</p></header>'


def contents(asked):
    """The way to the parts of the page."""
    parts = [("slot", "What broke")] * bool(asked.breach) + [("changes", "What differs")]
    parts += [("witness", "A client that shows it")] * bool(asked.breach) + [("clients", "Clients")] * bool(asked.clients)
    parts += [("pictures", "Hierarchies"), ("orders", "Release orders"), ("said", "What som said")]
    links = "".join(f'<li><a href="#{name}">{title}</a></li>' for name, title in parts)
    yield f'<nav aria-label="Parts of this page"><ul>{links}</ul></nav>'


# ---- release orders


def entry_cell(release, line):
    """An entry without its place; of one that was moved also the signature that it has where it went."""
    entry = changes.entry_of(line) if line else None
    found = release.signature(entry.target, entry.name) if entry and entry.target else None
    shown = f"{found[0]} {entry.name}({','.join(found[1])})" if found else ""
    return code(re.sub(r"^\d+ ", "", line)) + (f'<span class="resolved">there: {code(shown)}</span>' if found else "")


def slots_table(asked, slots):
    """Slots of a class in both releases, side by side."""
    names = f"<th>{escape(asked.old.name)}</th><th>{escape(asked.new.name)}</th>"
    yield f'<table class="slots"><thead><tr><th>Place</th>{names}<th>What becomes of it</th></tr></thead><tbody>'
    for slot in slots:
        old, new = entry_cell(asked.old, slot.old), entry_cell(asked.new, slot.new)
        yield f'<tr class="{slot.becomes}"><th scope="row">{slot.place}</th><td>{old}</td><td>{new}</td><td>{mark(slot.becomes)}</td></tr>'
    yield "</tbody></table>"


def head_rows(asked, one):
    """What show says of a class beside its entries, in both releases: a word, both texts, and what becomes of it."""
    rule = asked.breach.rule if asked.breach and asked.breach.owner == one.name else ""
    texts = {"class": ("there" if one.old else "", "there" if one.new else "")}
    for what in ("version", "parents", "metaclass"):
        texts[what] = tuple(", ".join(it) if isinstance(it, tuple) else it for it in (getattr(found, what, "") for found in (one.old, one.new)))
    if rule == "K3":
        texts["ancestors"] = tuple(", ".join(release.ancestors(one.name)) if found else "" for release, found in ((asked.old, one.old), (asked.new, one.new)))
    breaks = {"K1": "class", "K2": "version", "K3": "ancestors", "K6": "metaclass"}.get(rule)
    for what, (old, new) in texts.items():
        becomes = BREAKS if what == breaks else SAME if old == new else DIFFERS if old and new else NEW if new else GONE
        if old or new:
            yield what, old, new, becomes


def head_table(asked, one):
    """What show says of a class beside its entries."""
    names = f"<th>{escape(asked.old.name)}</th><th>{escape(asked.new.name)}</th>"
    yield f'<table class="heads"><thead><tr><th>Class</th>{names}<th>What becomes of it</th></tr></thead><tbody>'
    for what, old, new, becomes in head_rows(asked, one):
        yield f'<tr class="{becomes}"><th scope="row">{what}</th><td>{code(old)}</td><td>{code(new)}</td><td>{mark(becomes)}</td></tr>'
    yield "</tbody></table>"


def broken(asked, classes):
    """The class that breaks the rule, with the slot or the line that does so."""
    one = next(it for it in classes if it.name == asked.breach.owner)
    if asked.breach.rule not in ("K4", "K5"):
        yield f"<p>What is said of the class {code(one.name)} in both releases:</p>"
        yield from head_table(asked, one)
        return
    near = [slot for slot in one.slots if abs(slot.place - asked.breach.place) <= AROUND]
    yield f"<p>The release order of {code(one.name)} is the list of places by which programs call its methods. Place {asked.breach.place} breaks the rule.</p>"
    yield from slots_table(asked, near)
    left = len(one.slots) - len(near)
    if left:
        yield f'<p class="left">{sentences.counted(left, "further place")} of this class: <a href="#orders">release orders</a>.</p>'


def order(asked, one, is_open):
    """The release orders of a class, with what show says of it beside them."""
    inner = [*head_table(asked, one), *(slots_table(asked, one.slots) if one.slots else ["<p>It has no release order.</p>"])]
    return folded(f"<b>{escape(one.name)}</b> {mark(one.becomes)}, {sentences.counted(len(one.slots), 'place')}", inner, is_open, "order")


def orders(asked, classes):
    """The release orders of each class, side by side where they differ."""
    differing = [one for one in classes if one.becomes != SAME]
    for one in differing[:CHANGES]:
        yield from order(asked, one, len(differing) <= CHANGES or one.becomes == BREAKS)
    if len(differing) > CHANGES:
        rest = [line for one in differing[CHANGES:] for line in order(asked, one, one.becomes == BREAKS)]
        yield from folded(f"{sentences.counted(len(differing) - CHANGES, 'further class')} that differ", rest)
    same = [one for one in classes if one.becomes == SAME]
    if same:
        text = "\n".join(line for one in same for line in one.new.lines())
        summary = f"{sentences.counted(len(same), 'class')} as before, in both releases"
        yield from folded(summary, [f'<pre class="same" tabindex="0">{escape(text)}</pre>'], kind="order")


def differs(asked, classes):
    """What differs, a line each."""
    changed = sentences.changes(classes, asked.breach)
    lines = [f'<li class="{becomes}">{mark(becomes)} {code(text)}</li>' for becomes, text in changed]
    yield f'<p class="summary">{escape(sentences.summary(changed))}.</p>'
    yield f'<ul class="changes">{"".join(lines[:CHANGES])}</ul>'
    if len(lines) > CHANGES:
        yield from folded(f"{len(lines) - CHANGES} more", [f'<ul class="changes">{"".join(lines[CHANGES:])}</ul>'])


# ---- pictures


def drawn(release, classes, is_new):
    """The picture of a release, as SVG for a page, and its number of boxes."""
    boxes = hierarchy.boxes_of(list(release.classes.values()))
    made = picture.picture(release.name, boxes, hierarchy.edges_of(boxes), marks=changes.marks_of(classes, is_new))
    text = drawing.svg(made).replace("to-metaclass", f"to-metaclass-{is_new:d}").replace("moved-to", f"moved-to-{is_new:d}")
    return text.replace(' xmlns="http://www.w3.org/2000/svg"', "", 1), len(boxes)


def figure(release, text, is_new):
    """A picture with its title."""
    yield f'<figure><figcaption>{escape(release.name)}, {"the new" if is_new else "the old"} release</figcaption>'
    yield f'<div class="picture" tabindex="0" role="region" aria-label="{escape(f"The classes of {release.name}")}">{text}</div></figure>'


def pictures(asked, classes):
    """Both hierarchies beside each other, or folded where they are large."""
    (old, count), (new, more) = drawn(asked.old, classes, False), drawn(asked.new, classes, True)
    pair = ['<div class="pair">', *figure(asked.old, old, False), *figure(asked.new, new, True), "</div>"]
    yield "<p>Each class stands below its parents. A sign stands before what differs, so colours aren't needed. A number of classes in one box is a part that was folded.</p>"
    yield from folded(f"Both pictures, of {count} and {more} boxes", pair, kind="large") if max(count, more) > BOXES else pair


# ---- clients and the witness


def line_spans(lines, differing):
    """Lines as they were printed, with a mark at those that differ."""
    return "".join(f'<span class="line{" other" if number in differing else ""}">{escape(line)}</span>\n' for number, line in enumerate(lines))


def cut(text):
    """The lines of a text that are shown, and how many are not."""
    lines = text.splitlines()
    return lines[:LINES], max(0, len(lines) - LINES)


def differing_lines(old, new):
    """The numbers of the lines of both that the other one hasn't in their place."""
    found = set(), set()
    if len(old) + len(new) > COMPARED:
        return found
    for tag, start, end, to_start, to_end in difflib.SequenceMatcher(None, old, new, autojunk=False).get_opcodes():
        if tag != "equal":
            found[0].update(range(start, end))
            found[1].update(range(to_start, to_end))
    return found


def printed(asked, runs):
    """What two runs printed, beside each other."""
    shown = [cut(run.text) for run in runs]
    differing = differing_lines(shown[0][0], shown[1][0]) if NOT_RUN not in [run.status for run in runs] else (set(), set())
    yield '<div class="pair">'
    for release, run, (lines, left), marked in zip((asked.old, asked.new), runs, shown, differing):
        yield f'<figure class="run"><figcaption>on {escape(release.name)}: {escape(sentences.ended(run))}</figcaption>'
        yield f'<pre tabindex="0" aria-label="{escape(" ".join(run.words))}">{line_spans(lines, marked)}</pre>'
        note = f"… and {left} more lines" if left else "It prints nothing." if not run.text else ""
        yield (f'<p class="left">{note}</p>' if note else "") + "</figure>"
    yield "</div>"


def clients(asked):
    """Each client on both releases."""
    for client in asked.clients:
        yield f'<article class="client"><h3>{escape(client.name)}</h3>'
        texts = [(run.text, run.status) for run in client.runs]
        if texts[0] == texts[1]:
            yield "<p>It prints the same on both.</p>"
        yield from printed(asked, client.runs)
        yield from folded("Each call, by run --trace", printed(asked, client.traces), kind="trace")
        yield "</article>"


def witness(asked):
    """The client that shows the breach, and what it would have met."""
    if asked.witness is None:
        yield "<p>This program has no command <code>witness</code>, so no client that shows the breach is made here.</p>"
        return
    if not asked.witness.runs:
        yield "<p>A version that changes breaks no client by itself, so there is none that shows it.</p>"
        return
    if asked.witness.files:
        yield f"<p>som wrote this client, which conforms to {code(asked.old.name)}, and which {code(asked.new.name)} would break.</p>"
        for name, text in asked.witness.files.items():
            yield f'<figure class="text"><figcaption>{escape(name)}</figcaption><pre tabindex="0">{escape(text)}</pre></figure>'
    else:
        yield "<p>som made such a client as an image. No text stands for it.</p>"
    yield f'<p class="meets">What it would have met: {escape(sentences.would_meet(asked))}</p>'
    yield from printed(asked, asked.witness.runs)


# ---- the page


def said(asked):
    """Each command with its lines and its status, as som said them."""
    yield "<p>All of this page is made of these lines.</p>"
    for answer in asked.answers:
        # (a line feed right behind pre would be dropped)
        inner = [f'<pre class="answer" tabindex="0"><code>{escape(answer.text)}</code></pre>']
        yield from folded(f"<code>som {escape(' '.join(answer.words))}</code>, status {answer.status}", inner, kind="raw")


def page(asked):
    """The page."""
    classes = list(changes.compared(asked.old, asked.new, asked.breach))
    title = f"{asked.old.name} → {asked.new.name}: {'refused' if asked.breach else 'accepted'}"
    lines = [
        '<!DOCTYPE html>\n<html lang="en"><head><meta charset="utf-8"><meta name="viewport" content="width=device-width, initial-scale=1">',
        f'<link rel="icon" href="data:,"><title>{escape(title)}</title><style>{STYLE}</style></head><body>',
        *head(asked),
        *contents(asked),
        "<main>",
        *(section("slot", "What broke", broken(asked, classes)) if asked.breach else ()),
        *section("changes", "What differs", differs(asked, classes)),
        *(section("witness", "A client that shows it", witness(asked)) if asked.breach else ()),
        *(section("clients", "What clients print", clients(asked)) if asked.clients else ()),
        *section("pictures", "Hierarchies", pictures(asked, classes)),
        *section("orders", "Release orders", orders(asked, classes)),
        *section("said", "What som said", said(asked)),
        "</main></body></html>",
    ]
    return "\n".join(line for line in lines if line) + "\n"
