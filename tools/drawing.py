"""How a picture is written: as SVG, which needs nothing else and can be read in black and white and aloud, and as DOT."""
import collections
from xml.sax.saxutils import escape

from changes import BREAKS, CALLED, DIFFERS, GONE, MOVED, NEW, SAME, SIGNS, entry_of, moved_in
from hierarchy import FURTHER, KINDS, LEFT, METACLASS
from picture import BETWEEN, MARGIN, NAME_LINE, PADDING, SIGN, SMALL_LINE, said_of

# What stands in the legend of each kind of line and box, and how these are drawn.
LINES = {LEFT: "to the first parent, the left path", FURTHER: "to a further parent", METACLASS: "to the declared metaclass"}
STROKES = {
    LEFT: 'stroke-width="2"',
    FURTHER: 'stroke-width="0.8"',
    METACLASS: 'stroke-width="1.2" stroke-dasharray="5 4" marker-start="url(#to-metaclass)"',
}
BOXES = {"kernel": "a class of the kernel", "client": "a class of the client", "fold": "classes that are alike or further below, as one box"}
SHAPES = {"kernel": 'fill="#d4d4d4"', "library": 'fill="#fff"', "client": 'fill="#fff" rx="9"', "fold": 'fill="#fff"'}
STYLES = {"name": ' font-size="13" font-weight="bold"', "moved": ' font-style="italic"', "far": ' font-style="italic"', "mark": "", "small": ""}

# The frames of boxes by what becomes of their classes, and the colours of entries, each of which has a sign too.
MARKED = {
    NEW: 'fill="#dff3df" stroke="#1b6e1b" stroke-width="1.5"',
    GONE: 'fill="#f2e3e3" stroke="#8a1f1f" stroke-dasharray="2 2"',
    DIFFERS: 'fill="#eef3fb" stroke="#000"',
    BREAKS: 'fill="#ffe9b8" stroke="#a30000" stroke-width="3"',
}
INKS = {NEW: "#1b6e1b", GONE: "#8a1f1f", MOVED: "#0b4f9c", DIFFERS: "#5a3c00", BREAKS: "#a30000"}
# How far to the right an arrow of a moved entry goes.
BULGE = 18

# The arrow, whose tip is where the line begins, at the metaclass; how long a line goes straight there.
TIP = 10
ARROW = (
    '<defs><marker id="to-metaclass" markerWidth="10" markerHeight="10" refX="0" refY="5" orient="auto" markerUnits="userSpaceOnUse">'
    '<path d="M9 1L0 5L9 9" fill="none" stroke="#000"/></marker></defs>'
)

MOVE = (
    '<marker id="moved-to" markerWidth="8" markerHeight="8" refX="7" refY="4" orient="auto" markerUnits="userSpaceOnUse">'
    f'<path d="M0 0L8 4L0 8Z" fill="{INKS[MOVED]}"/></marker>'
)

# Up to so many boxes the description tells each in a sentence.
TOLD = 60


# ---- lines


def leaves_above(way):
    """Whether a line leaves its source at the top: upwards, or to a box beside it."""
    return way[1].row <= way[0].row


def ports(ways):
    """Where lines meet a box: for each line the places at its source and at its target. Those of one kind that come in at one side share theirs."""
    sides = collections.defaultdict(lambda: collections.defaultdict(list))
    for edge, way in ways.items():
        up = leaves_above(way)
        sides[way[0], up][edge].append(way[1].x)
        sides[way[-1], not up or way[0].row == way[-1].row][edge.kind].append(way[-2].x)
    found = {}
    for (node, is_top), ends in sides.items():
        inner = node.width - 2 * PADDING
        for place, end in enumerate(sorted(ends, key=lambda it: sum(ends[it]) // len(ends[it])), 1):
            found[node, is_top, end] = node.x - node.width // 2 + PADDING + inner * place // (len(ends) + 1)
    return found


def bend(x, y, to_x, to_y):
    """A piece of a line between two rows."""
    return f"V{to_y}" if x == to_x else f"C{x} {(y + to_y) // 2} {to_x} {(y + to_y) // 2} {to_x} {to_y}"


def path(edge, way, found, tops, bottoms):
    """A line as a path from its target to its source, so that dashes of lines that share a way fall together."""
    source, target, up = way[0], way[-1], leaves_above(way)
    beside = source.row == target.row
    start, end = found[target, not up or beside, edge.kind], found[source, up, edge]
    if beside:
        return f"M{start} {target.y}C{start} {target.y - BETWEEN} {end} {source.y - BETWEEN} {end} {source.y}"
    leave, reach = (bottoms, tops) if up else (tops, bottoms)
    y = target.y + target.height if up else target.y
    x, from_y = start, leave[target.row] + (TIP if up else -TIP) * (edge.kind == METACLASS)
    pieces = [f"M{start} {y}" + (f"V{from_y}" if y != from_y else "")]
    for node in way[-2::-1]:
        to_x = end if node is source else node.x
        pieces.append(bend(x, from_y, to_x, reach[node.row]))
        last = (source.y if up else source.y + source.height) if node is source else leave[node.row]
        pieces.append(f"V{last}" if last != reach[node.row] else "")
        x, from_y = to_x, leave[node.row]
    return "".join(pieces)


def lines_svg(picture):
    """The lines, kind by kind."""
    found, tops, bottoms = ports(picture.ways), [row[0].y for row in picture.rows], [max(it.y + it.height for it in row) for row in picture.rows]
    for kind in KINDS:
        drawn = [f'<path d="{path(edge, way, found, tops, bottoms)}"/>' for edge, way in picture.ways.items() if edge.kind == kind]
        if drawn:
            yield f'<g class="{kind}" fill="none" stroke="#000" {STROKES[kind]}>'
            yield from drawn
            yield "</g>"


# ---- boxes, legend and words


def kind_of(box):
    """What a box is drawn as."""
    return "fold" if box.is_fold else box.room


def frame(kind, x, y, width, height, mark=SAME):
    """The frame of a box; that of a fold is double."""
    inner = f'<rect x="{x + 3}" y="{y + 3}" width="{width - 6}" height="{height - 6}" fill="none" stroke="#000"/>' if kind == "fold" else ""
    paint = MARKED.get(mark) or f'{SHAPES[kind]} stroke="#000"'
    return f'<rect x="{x}" y="{y}" width="{width}" height="{height}" {paint}/>{inner}'


def box_svg(node, marks=None):
    """A box with its lines, before each of which stands the sign of what becomes of it."""
    left, y = node.x - node.width // 2, node.y + PADDING
    inset = PADDING + SIGN * bool(node.signs)
    mark = marks.of(node.box) if marks else SAME
    drawn = frame(kind_of(node.box), left, node.y, node.width, node.height, mark)
    yield f'<g class="{kind_of(node.box)}"><title>{escape(said_of(node.box))}</title>{drawn}'
    for number, (style, text) in enumerate(node.lines):
        y += NAME_LINE if style == "name" else SMALL_LINE
        sign = node.signs.get(number)
        ink = f' fill="{INKS[sign]}"' if sign else ""
        if sign:
            yield f'<text class="sign" x="{left + 5}" y="{y - 4}" font-weight="bold"{ink}>{SIGNS[sign]}</text>'
        yield f'<text class="{style}" x="{left + inset}" y="{y - 4}"{STYLES[style]}{ink}>{escape(text)}</text>'
    yield "</g>"


def line_of(node, name):
    """The middle of the line of an entry in a box, or of the box's first line."""
    y = node.y + PADDING
    found = y + NAME_LINE // 2
    for style, text in node.lines:
        y += NAME_LINE if style == "name" else SMALL_LINE
        if style in ("small", "moved") and not node.box.is_fold and entry_of(text.removesuffix("…")).name == name:
            found = y - SMALL_LINE // 2
    return found


def moved_svg(picture):
    """An arrow from each entry that was moved to where its method is now."""
    nodes = {one.name: node for node in picture.nodes for one in node.box.classes}
    drawn = []
    for owner, place, target in moved_in([node.box for node in picture.nodes]):
        source, end = nodes[owner], nodes.get(target)
        if end and end is not source:
            name = entry_of(source.box.classes[0].entries[place]).name
            x, y, to_x, to_y = source.x - source.width // 2 + source.width, line_of(source, name), end.x - end.width // 2 + end.width, line_of(end, name)
            far = max(x, to_x) + BULGE
            drawn.append(f'<path d="M{x} {y}C{far} {y} {far} {to_y} {to_x} {to_y}"/>')
    if drawn:
        yield f'<g class="move" fill="none" stroke="{INKS[MOVED]}" stroke-width="1.4" stroke-dasharray="1 2" marker-end="url(#moved-to)">'
        yield from drawn
        yield "</g>"


def legend(picture):
    """The lines of the legend, each with its sample: of what there is."""
    kinds, rooms = {edge.kind for edge in picture.ways}, {kind_of(node.box) for node in picture.nodes}
    samples = [(f'<path d="M32 {{y}}H0" fill="none" stroke="#000" {STROKES[kind]}/>', LINES[kind]) for kind in KINDS if kind in kinds]
    samples += marked_legend(picture)
    return samples + [(f'<g transform="translate(0 {{top}})">{frame(room, 0, 0, 32, 12)}</g>', BOXES[room]) for room in BOXES if room in rooms]


def marked_legend(picture):
    """The lines of the legend for what becomes of classes and entries."""
    if not picture.marks:
        return []
    found = {*picture.marks.classes.values(), *picture.marks.entries.values()}
    said = f'<text x="12" y="{{{{base}}}}" font-weight="bold" fill="{{ink}}">{{sign}}</text>'
    moves = [] if not any(True for _ in moved_in([node.box for node in picture.nodes])) else [
        (f'<path d="M32 {{y}}H2" fill="none" stroke="{INKS[MOVED]}" stroke-width="1.4" stroke-dasharray="1 2" marker-end="url(#moved-to)"/>', "from an entry to where its method is now")
    ]
    return moves + [(said.format(ink=INKS[mark], sign=SIGNS[mark]), CALLED[mark]) for mark in INKS if mark in found]


def legend_svg(samples, y):
    """The legend, from y on downwards."""
    yield f'<g class="legend" transform="translate({MARGIN} {y})">'
    for place, (sample, text) in enumerate(samples):
        yield sample.format(y=place * 18 + 6, top=place * 18, base=place * 18 + 10) + f'<text x="42" y="{place * 18 + 10}">{escape(text)}</text>'
    yield "</g>"


def sentence(box):
    """A box in words."""
    first = box.classes[0]
    if box.is_fold:
        return f"{len(box.classes)} classes in one box, the first of them {first.name} below {first.parents[0]}."
    parents = f", below {' and '.join(first.parents)}" if first.parents else ""
    meta = f", with the metaclass {first.metaclass}" if first.metaclass else ""
    return f"{first.name} {first.version}".rstrip() + {"kernel": " of the kernel", "client": " of the client", "library": ""}[box.room] + parents + meta + "."


def described(picture):
    """What the picture shows, to be read aloud."""
    boxes = [node.box for node in picture.nodes]
    count = sum(len(box.classes) for box in boxes if box.room != "kernel")
    head = f"A hierarchy of {count} {'class' if count == 1 else 'classes'}. Each stands below its parents."
    return " ".join([head, *[sentence(box) for box in boxes]]) if len(boxes) <= TOLD else head


def svg(picture):
    """A picture as SVG."""
    samples = legend(picture)
    wide = max([picture.width, *[MARGIN * 2 + 42 + len(text) * 62 // 10 for _, text in samples]])
    high = picture.height - BETWEEN // 2 + 18 * len(samples) + MARGIN // 2
    lines = [
        f'<svg xmlns="http://www.w3.org/2000/svg" width="{wide}" height="{high}" viewBox="0 0 {wide} {high}" role="graphics-document document" '
        'font-family="\'DejaVu Sans Mono\', Menlo, Consolas, monospace" font-size="10">',
        f"<title>{escape(f'Classes of {picture.name}')}</title>",
        f"<desc>{escape(described(picture))}</desc>",
        ARROW.replace("</defs>", f"{MOVE}</defs>") if picture.marks else ARROW,
        f'<rect class="paper" width="{wide}" height="{high}" fill="#fff"/>',
        f'<g transform="translate({(wide - picture.width) // 2} 0)">',
        *lines_svg(picture),
        *[line for node in picture.nodes for line in box_svg(node, picture.marks)],
        *(moved_svg(picture) if picture.marks else ()),
        "</g>",
        *legend_svg(samples, picture.height - BETWEEN // 2),
        "</svg>",
    ]
    return "\n".join(lines) + "\n"


# ---- DOT

FORMS = {LEFT: "penwidth=2 arrowhead=none", FURTHER: "penwidth=0.8 arrowhead=none", METACLASS: "style=dashed arrowhead=vee constraint=false"}
FRAMES = {"kernel": 'style=filled fillcolor="#d4d4d4"', "library": "", "client": "style=rounded", "fold": "peripheries=2"}


def quoted(text):
    """A text as DOT has it, each of its lines at the left."""
    return '"' + text.replace("\\", "\\\\").replace('"', '\\"').replace("\n", "\\l") + '"'


def dot(picture):
    """A picture as DOT, with the same boxes and lines."""
    lines = [f"digraph {quoted(picture.name)} {{", '  rankdir=BT; node [shape=box fontname="monospace" fontsize=10];']
    for node in picture.nodes:
        text = "".join(f"{line}\n" for _, line in node.lines)
        lines.append(f"  {quoted(node.box.name)} [class={kind_of(node.box)} label={quoted(text)} tooltip={quoted(said_of(node.box))} {FRAMES[kind_of(node.box)]}];")
    lines += [f"  {quoted(edge.source.name)} -> {quoted(edge.target.name)} [class={edge.kind} {FORMS[edge.kind]}];" for edge in picture.ways]
    return "\n".join([*lines, "}"]) + "\n"
