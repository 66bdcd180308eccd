"""Where boxes and lines stand in a picture of a hierarchy.

A row of boxes for each layer. Where a line goes through layers it has a node of its own in each, which lines of one kind to one box share. Rows are sorted and
set by the middles of what they are joined to, down and up in turn. All numbers are whole, so the same boxes make the same bytes on any machine.
"""
import collections
import dataclasses

from hierarchy import FURTHER, LEFT, METACLASS, Box

# What a box calls a link that it names, since its line would be too long.
WORDS = {LEFT: "first parent", FURTHER: "parent", METACLASS: "metaclass"}

# Sizes in pixels: letters of a name and of small lines are at most so many hundredths wide; lines, the room around them, between boxes, and between rows, where
# many lines get more.
NAME, SMALL, NAME_LINE, SMALL_LINE, PADDING, BESIDE, BETWEEN, CROWDED, MARGIN = 795, 612, 18, 13, 7, 24, 46, 160, 16

# The room for the signs before the lines of a box that has any.
SIGN = 9

# How often rows are set, and how much more than others a left path weighs there.
PASSES, HEAVY = 10, 3

# In a picture that isn't whole: entries and letters of a line that are shown, layers that a line goes over, and the boxes from which on these are few.
ENTRIES, LETTERS, LAYERS, FEW_LAYERS, MANY_BOXES = 12, 44, 24, 3, 200


@dataclasses.dataclass(eq=False)
class Node:
    """What stands in a row: a box, or where lines go through. x is its middle; signs are what becomes of its lines, by their numbers; above and below are what it is
    joined to."""
    row: int
    width: int
    box: Box | None = None
    lines: list = dataclasses.field(default_factory=list)
    signs: dict = dataclasses.field(default_factory=dict)
    x: int = 0
    y: int = 0
    height: int = 0
    above: list = dataclasses.field(default_factory=list)
    below: list = dataclasses.field(default_factory=list)


# ---- what stands in boxes


def cut(text, is_whole):
    """A line of a box, which may end early."""
    return text if is_whole or len(text) <= LETTERS else text[: LETTERS - 1] + "…"


def kept_entries(box, is_whole):
    """The entries that a box shows."""
    entries = box.classes[0].entries
    return entries if is_whole or len(entries) <= ENTRIES else entries[: ENTRIES - 1]


def head_of(box, marks):
    """The lines above the name of a box, whose it is and what becomes of it."""
    return [("mark", "«client»")] * (box.room == "client") + [("mark", line) for line in (marks.lines(box) if marks else ())]


def lines_in(box, is_whole, marks=None):
    """The lines of a box, each with its style: name, small, or moved for an entry that was moved up."""
    first, mark = box.classes[0], head_of(box, marks)
    if box.is_fold:
        shown = [("small", cut(f"{one.name} {one.version}", is_whole)) for one in box.classes[:4]]
        more = [("small", f"… and {len(box.classes) - 4} more")] if len(box.classes) > 4 else []
        lines = [("name", f"{len(box.classes)} class{'es' * (len(box.classes) > 1)}"), *shown, *more]
    else:
        kept = kept_entries(box, is_whole)
        shown = [("moved" if " -> " in entry else "small", cut(entry, is_whole)) for entry in kept]
        more = [("small", f"… and {len(first.entries) - len(kept)} more")] if len(kept) < len(first.entries) else []
        lines = [("name", f"{cut(first.name, is_whole)} {first.version}".rstrip()), *shown, *more]
    return mark + lines + [("far", f"{WORDS[kind]} {name} ↗") for kind, name in box.far]


def said_of(box):
    """What a box is, as it is read aloud: the lines of show."""
    lines = [line for one in box.classes for line in (one.lines() if not box.is_fold else one.lines()[: 1 + bool(one.metaclass)])]
    return "\n".join(lines)


def signs_in(box, is_whole, marks):
    """What becomes of the entries of a box, by the numbers of their lines; the line for further ones has what becomes of the first of these that has a mark."""
    if not marks or box.is_fold:
        return {}
    name, first, kept = box.classes[0].name, len(head_of(box, marks)) + 1, len(kept_entries(box, is_whole))
    signs = {}
    for place in range(len(box.classes[0].entries)):
        if (name, place) in marks.entries:
            signs.setdefault(first + min(place, kept), marks.entries[name, place])
    return signs


def node_of(box, is_whole, marks=None):
    """The node of a box, as wide and high as its lines want."""
    lines = lines_in(box, is_whole, marks)
    width = max(-(-len(text) * (NAME if style == "name" else SMALL) // 100) for style, text in lines)
    height = sum(NAME_LINE if style == "name" else SMALL_LINE for style, _ in lines)
    signs = signs_in(box, is_whole, marks)
    return Node(box.layer, width + 2 * PADDING + 2 + SIGN * bool(signs), box, lines, signs, height=height + 2 * PADDING)


# ---- where they stand


def keep_near(boxes, edges, is_whole):
    """The lines that are drawn; those that go over too many layers are named in their boxes."""
    reach = LAYERS if len(boxes) <= MANY_BOXES else FEW_LAYERS
    near = []
    for edge in edges:
        if is_whole and len(boxes) <= MANY_BOXES or abs(edge.source.layer - edge.target.layer) <= reach:
            near.append(edge)
        else:
            edge.source.far.append((edge.kind, edge.target.classes[0].name))
    return near


def ways(edges, node_of_box):
    """The nodes that each line goes over, from its source to its target, and all nodes on the way."""
    through, found = {}, {}
    for edge in edges:
        source, target = node_of_box[edge.source], node_of_box[edge.target]
        step = 1 if target.row > source.row else -1
        middle = [through.setdefault((target, edge.kind, row), Node(row, 0)) for row in range(source.row + step, target.row, step)]
        found[edge] = [source, *middle, target]
    return found, list(through.values())


def join(way, weight, joined):
    """Joins what stands in rows below each other, once, and as often as it weighs."""
    for one, other in zip(way, way[1:]):
        upper, lower = (one, other) if one.row < other.row else (other, one)
        if upper.row < lower.row and (upper, lower) not in joined:
            joined.add((upper, lower))
            upper.below += [lower] * weight
            lower.above += [upper] * weight


def preorder(boxes, node_of_box):
    """A number for each box, by which those that are below one another on left paths stand together."""
    children, number = collections.defaultdict(list), {}
    box_of = {one.name: box for box in boxes for one in box.classes}
    for box in boxes:
        parents = box.classes[0].parents
        children[box_of[parents[0]] if parents else None].append(box)
    todo = children[None][::-1]
    while todo:
        box = todo.pop()
        number[node_of_box[box]] = len(number)
        todo += [it for it in reversed(children[box]) if it is not box]
    return number


def set_row(row, wanted):
    """Sets the nodes of a row as near as may be to where they want to be, in their order, and apart: neighbours that are too near are moved as one."""
    left, blocks, last = 0, [], None
    offsets = []
    for node in row:
        left += (last.width + node.width) // 2 + (BESIDE if last.box or node.box else BESIDE // 2) if last else 0
        offsets.append(left)
        last = node
    for node, offset in zip(row, offsets):
        blocks.append([wanted[node] - offset, 1])
        while len(blocks) > 1 and blocks[-2][0] // blocks[-2][1] >= blocks[-1][0] // blocks[-1][1]:
            total, count = blocks.pop()
            blocks[-1] = [blocks[-1][0] + total, blocks[-1][1] + count]
    places = [total // count for total, count in blocks for _ in range(count)]
    for node, offset, place in zip(row, offsets, places):
        node.x = place + offset


def middle_of(node, sides):
    """The middle of what a node is joined to on these sides, or its own."""
    found = [it.x for side in sides for it in side]
    return sum(found) // len(found) if found else node.x


def set_across(rows):
    """Sorts and sets the rows."""
    for row in rows:
        set_row(row, {node: 0 for node in row})
    for number in range(PASSES):
        up, sorts = number % 2 == 0, number < PASSES - 4
        for row in reversed(rows) if up else rows:
            wanted = {node: middle_of(node, [node.below if up else node.above] if sorts else [node.above, node.below]) for node in row}
            if sorts:
                row.sort(key=wanted.get)
            set_row(row, wanted)
    least = min((node.x - node.width // 2 for row in rows for node in row), default=0)
    for row in rows:
        for node in row:
            node.x += MARGIN - least


def set_down(rows):
    """Sets how far down rows stand; returns where the last one ends."""
    y = MARGIN
    for row in rows:
        height = max(node.height for node in row)
        for node in row:
            node.y, node.height = y, node.height or height
        y += height + BETWEEN + min(CROWDED, sum(len(node.below) for node in row) // 3)
    return y


@dataclasses.dataclass
class Picture:
    """Boxes and lines where they stand: the nodes of boxes, the way of each line, all nodes row by row, and how large it is."""
    name: str
    nodes: list
    ways: dict
    rows: list
    width: int
    height: int
    marks: object = None


def picture(name, boxes, edges, is_whole=False, marks=None):
    """The picture of boxes and lines; where it is to be whole no entries are left out and no names cut. Marks are those of a release beside another one."""
    near = keep_near(boxes, edges, is_whole)
    node_of_box = {box: node_of(box, is_whole, marks) for box in boxes}
    found, through = ways(near, node_of_box)
    joined = set()
    for edge, way in found.items():
        join(way, HEAVY if edge.kind == LEFT else 1, joined)
    number = preorder(boxes, node_of_box)
    for way in found.values():
        for node in way[1:-1]:
            number[node] = max(number.get(node, 0), number[way[0]])
    rows = [[] for _ in range(1 + max((box.layer for box in boxes), default=-1))]
    for node in sorted([*node_of_box.values(), *through], key=number.get):
        rows[node.row].append(node)
    set_across(rows)
    bottom = set_down(rows)
    right = max((node.x + node.width // 2 for row in rows for node in row), default=0)
    return Picture(name, list(node_of_box.values()), found, rows, right + MARGIN, bottom, marks)
