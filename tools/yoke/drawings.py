"""Trees as SVG: spread out from the top where that fits, else as an outline in columns."""

from html import escape
from typing import NamedTuple

from .limits import LEVELS
from .pictures import Picture, children_of, house_parts, parents_of

MOST = 2_400  # pixels; a tree that would be wider or higher becomes an outline

BOX_HEIGHT = 44
TAB_HEIGHT = 17
LEGEND_WIDTH = 470
LEGEND_ROW = 80
ROW_HEIGHT = 108
GAP = 22
MARGIN = 24
LETTER = 7.8  # the width of a letter at 13 pixels, monospaced

STYLE = """\
  text { font: 13px 'DejaVu Sans Mono', 'Liberation Mono', monospace; fill: #1b1b1b; text-anchor: middle; }
  .name { font-weight: bold; }
  .tag { font-size: 10px; }
  .left { text-anchor: start; }
  .note { font-size: 11px; fill: #555555; text-anchor: start; }
  .box { fill: #ffffff; stroke: #1b1b1b; stroke-width: 1.5; }
  .house { fill: url(#hatch); stroke: #1b1b1b; stroke-width: 1.5; }
  .dashed { stroke-dasharray: 6 3; }
  .paper { fill: #ffffff; }
  .edge { stroke: #777777; stroke-width: 1.5; fill: none; }"""

HATCH = """\
  <pattern id="hatch" width="7" height="7" patternUnits="userSpaceOnUse" patternTransform="rotate(45)">
    <rect width="7" height="7" fill="#ffe3b0"/>
    <rect width="2" height="7" fill="#c77700"/>
  </pattern>"""


class Drawing(NamedTuple):
    """Shapes and the space that they take."""

    width: float
    height: float
    shapes: list


# Names, boxes, lines.

LONGEST = 24  # letters of a name


def name_text(node):
    return node.name if len(node.name) <= LONGEST else node.name[:LONGEST - 1] + "…"


def value_text(node):
    return f"{LEVELS[node.content]}: {node.value}" if node.content != node.existence else str(node.value)


def box_width(node):
    return max(76, 20 + LETTER * max(len(name_text(node)), len(value_text(node))))


def has_tab(node):
    """Whether a tab at the box says whose the list is: where that is not said of the node."""
    return node.list != node.existence


def tag(level, what):
    """Whose a node or a list is, in few letters."""
    text = LEVELS[level]
    return f"{text if len(text) <= 6 else text[:5] + '…'} {what}"


def svg_text(x, y, text, kind=""):
    return f'<text x="{x:.1f}" y="{y:.1f}"' + (f' class="{kind}"' if kind else "") + f">{escape(text)}</text>"


def svg_rect(x, y, width, height, kind, radius=0):
    return (f'<rect x="{x:.1f}" y="{y:.1f}" width="{width:.1f}" height="{height:.1f}"'
            + (f' rx="{radius}"' if radius else "") + f' class="{kind}"/>')


def svg_label(x, y, text, kind=""):
    """Text on a strip of paper, so that it can be read over hatching."""
    letter = LETTER * (10 / 13 if kind == "tag" else 1)
    width, height = len(text) * letter + 6, 12 if kind == "tag" else 16
    return [svg_rect(x - width / 2, y - height + 3, width, height, "paper", 3), svg_text(x, y, text, kind)]


def svg_edge(path, node):
    """The line to a node, dashed to a house node."""
    return f'<path d="{path}" class="{"edge dashed" if node.existence else "edge"}"/>'


def svg_group(node, shapes):
    """A node's shapes, with its whole name for whoever points at it."""
    house = house_parts(node)
    title = f"{node.name} = {node.value}" + (f" ({house})" if house else "")
    return [f"<g><title>{escape(title)}</title>", *shapes, "</g>"]


# Spread out: a row for each depth, a parent over the middle of its children.


def svg_node(node, x, y):
    """A box with the name above and the value below; what is house is hatched and says so."""
    width = box_width(node)
    left, half = x - width / 2, BOX_HEIGHT / 2
    shapes = []
    if has_tab(node):
        shapes.append(svg_rect(x - 34, y + BOX_HEIGHT, 68, TAB_HEIGHT, "house dashed"))
        shapes += svg_label(x, y + BOX_HEIGHT + 12, tag(node.list, "list"), "tag")
    if node.existence:
        shapes.append(svg_rect(left, y, width, BOX_HEIGHT, "house dashed", 4))
        shapes += svg_label(x, y - 4, tag(node.existence, "node"), "tag")
    else:
        shapes.append(svg_rect(left, y, width, BOX_HEIGHT, "box", 4))
    if node.content != node.existence:
        shapes.append(svg_rect(left, y + half, width, half, "house dashed"))
    shapes += svg_label(x, y + 16, name_text(node), "name")
    shapes += svg_label(x, y + half + 16, value_text(node))
    return shapes


def layout(nodes):
    """The middle of each box, a parent over the middle of its children, and the width of all."""
    middles = [0.0] * len(nodes)
    below = children_of(nodes)
    # A subtree takes its root's box or its children's subtrees, whichever is wider.
    widths = [box_width(node) + GAP for node in nodes]
    for index in range(len(nodes) - 1, -1, -1):
        widths[index] = max(widths[index], sum(widths[child] for child in below[index]))
    lefts = [0.0] * len(nodes)
    for index in range(len(nodes)):
        total = sum(widths[child] for child in below[index])
        at = lefts[index] + (widths[index] - total) / 2
        for child in below[index]:
            lefts[child] = at
            at += widths[child]
        middles[index] = lefts[index] + widths[index] / 2
    for index in range(len(nodes) - 1, -1, -1):
        if below[index]:
            half = (box_width(nodes[index]) + GAP) / 2
            over = (middles[below[index][0]] + middles[below[index][-1]]) / 2
            middles[index] = min(max(over, lefts[index] + half), lefts[index] + widths[index] - half)
    return middles, widths[0]


def spread(nodes):
    middles, width = layout(nodes)
    tops = [8 + ROW_HEIGHT * node.depth for node in nodes]
    edges, boxes = [], []
    for index, parent in enumerate(parents_of(nodes)):
        node = nodes[index]
        if parent is not None:
            # Down, along one line for all siblings, and down again.
            y = tops[parent] + BOX_HEIGHT + (TAB_HEIGHT if has_tab(nodes[parent]) else 0)
            edges.append(svg_edge(f"M{middles[parent]:.1f} {y:.1f} V{tops[index] - 30:.1f} H{middles[index]:.1f} V{tops[index]:.1f}", node))
        boxes += svg_group(node, svg_node(node, middles[index], tops[index]))
    return Drawing(width, max(tops) + ROW_HEIGHT, edges + boxes)


# Outline: a line for each node, children below and further in, in columns. Where the depth is more than a column can show, or a
# column ends, a note says below which node it goes on.

LINE = 28
BAR = 21  # the height of a node's box
INDENT = 18
DEEPEST = 16  # steps further in
BACK = 8  # so many steps are left on the way back up
COLUMN_GAP = 36


class Bar(NamedTuple):
    """A line of an outline: a node's place in preorder and its indent, or a note."""

    index: int
    indent: int
    note: str = ""


def bar_width(node):
    tag = 76 if node.existence or has_tab(node) else 0
    return 32 + LETTER * (len(name_text(node)) + len(value_text(node))) + tag


def svg_bar(node, x, y):
    """Name and value beside each other in a box; what is house is hatched and says so."""
    name, value = 16 + LETTER * len(name_text(node)), 16 + LETTER * len(value_text(node))
    shapes = [svg_rect(x, y, name + value, BAR, "house dashed" if node.existence else "box", 3)]
    if node.content != node.existence:
        shapes.append(svg_rect(x + name, y, value, BAR, "house dashed"))
    shapes += svg_label(x + name / 2, y + 15, name_text(node), "name")
    shapes += svg_label(x + name + value / 2, y + 15, value_text(node))
    if node.existence or has_tab(node):
        shapes.append(svg_rect(x + name + value, y + 2, 72, BAR - 4, "house dashed"))
        shapes += svg_label(x + name + value + 36, y + 14, tag(node.existence, "node") if node.existence else tag(node.list, "list"), "tag")
    return shapes


def columns(nodes, height):
    """The outline in columns of so many lines."""
    parents = parents_of(nodes)
    found, base = [[]], 0
    for index, node in enumerate(nodes):
        new_base = base
        if node.depth > base + DEEPEST:
            new_base = node.depth
        elif node.depth < base:
            new_base = max(0, node.depth - BACK)
        if len(found[-1]) >= height - (new_base != base):
            found.append([])
        if index and (new_base != base or not found[-1]):
            found[-1].append(Bar(-1, 0, path_text(nodes, parents, index)))
        base = new_base
        found[-1].append(Bar(index, node.depth - base))
    return found


def path_text(nodes, parents, index):
    """Below which node it goes on, with the two above that."""
    names, at = [], parents[index]
    while at is not None and len(names) < 3:
        names.append(name_text(nodes[at]))
        at = parents[at]
    return f"depth {nodes[index].depth}, below " + ("… › " if at is not None else "") + " › ".join(reversed(names))


def column_width(nodes, column):
    return 2 * INDENT + max(INDENT * bar.indent + bar_width(nodes[bar.index]) if not bar.note else 6.8 * len(bar.note) for bar in column)


def svg_column(nodes, parents, column, left):
    edges, boxes = [], []
    standing = {}  # where a line to the children of a node starts, by the node, since the last note
    top = 0.0
    for number, bar in enumerate(column):
        y = number * LINE
        if bar.note:
            boxes.append(svg_text(left, y + 14, bar.note, "note"))
            standing, top = {}, y + 19.0
            continue
        node, x = nodes[bar.index], left + INDENT * (bar.indent + 1)
        parent = parents[bar.index]
        if parent is not None:
            start = standing.get(parent, top)
            edges.append(svg_edge(f"M{x - INDENT + 9:.1f} {start:.1f} V{y + BAR / 2:.1f} H{x:.1f}", node))
        standing[bar.index] = y + BAR
        boxes += svg_group(node, svg_bar(node, x, y))
    return edges + boxes


def outline(nodes):
    """As many columns as make the picture about as wide as high."""
    best = None
    for count in range(1, 25):
        found = columns(nodes, max(8, -(-len(nodes) // count)))
        widths = [column_width(nodes, column) + COLUMN_GAP for column in found]
        size = (sum(widths), LINE * max(len(column) for column in found))
        if best is None or max(size) < max(best[0]):
            best = size, found, widths
    size, found, widths = best
    parents, shapes, left = parents_of(nodes), [], 0.0
    for column, width in zip(found, widths):
        shapes += svg_column(nodes, parents, column, left)
        left += width
    return Drawing(size[0], size[1] + LINE, shapes)


# The whole picture.


def svg_legend(x, y):
    samples = (
        (Picture("public", 0, 0, 0, 1, 0), "everyone may know"),
        (Picture("value", 0, 1, 0, 2, 0), "its value is house"),
        (Picture("node", 1, 1, 1, 4, 0), "all of it is house"),
        (Picture("list", 0, 0, 1, 3, 0), "how many children is house"),
    )
    shapes = []
    for index, (node, words) in enumerate(samples):
        middle, top = x + 40 + index % 2 * LEGEND_WIDTH / 2, y + index // 2 * LEGEND_ROW
        shapes += svg_node(node, middle, top)
        shapes.append(svg_text(middle + 50, top + 27, words, "tag left"))
    return shapes


def svg_picture(nodes, title):
    drawing = spread(nodes)
    if drawing.width > MOST or drawing.height > MOST:
        drawing = outline(nodes)
    full = max(drawing.width, LEGEND_WIDTH) + 2 * MARGIN
    height = drawing.height + LEGEND_ROW + BOX_HEIGHT + TAB_HEIGHT + 2 * MARGIN
    return "\n".join([
        f'<svg xmlns="http://www.w3.org/2000/svg" width="{full:.0f}" height="{height:.0f}" viewBox="0 0 {full:.0f} {height:.0f}">',
        f"<title>{escape(title)}</title>",
        f"<style>\n{STYLE}\n</style>",
        f"<defs>\n{HATCH}\n</defs>",
        f'<rect width="{full:.0f}" height="{height:.0f}" class="paper"/>',
        f'<g transform="translate({(full - drawing.width) / 2:.1f} {MARGIN})">', *drawing.shapes, "</g>",
        *svg_legend(MARGIN, MARGIN + drawing.height), "</svg>", ""])
