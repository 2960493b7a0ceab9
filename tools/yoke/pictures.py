"""Trees in characters."""

from typing import NamedTuple

from .limits import LEVELS
from .listing import preorder


class Picture(NamedTuple):
    """A node as it is drawn, with its depth below the root."""

    name: str
    existence: int
    content: int
    list: int
    value: int
    depth: int


def pictured(source):
    return [Picture(source.names.nodes[index], *source.job.nodes[index][1:], depth) for index, depth in preorder(source.job.nodes)]


def house_parts(node):
    """The parts of a node that are not public, in words."""
    own = node.existence
    parts = [(level, part) for level, part in ((node.content, "value"), (node.list, "list")) if level != own]
    if len(parts) == 2 and node.content == node.list:
        parts = [(node.content, "value and list")]
    said = " and ".join(f"{LEVELS[level]} {part}" for level, part in parts)
    return ", ".join(([LEVELS[own]] if own else []) + ([said] if said else []))


def parents_of(nodes):
    """The place of each node's parent in preorder."""
    above, parents = [], []
    for index, node in enumerate(nodes):
        del above[node.depth:]
        parents.append(above[-1] if above else None)
        above.append(index)
    return parents


def children_of(nodes):
    """The places of each node's children in preorder."""
    below = [[] for _ in nodes]
    for index, parent in enumerate(parents_of(nodes)):
        if parent is not None:
            below[parent].append(index)
    return below


class Row(NamedTuple):
    """A line of a picture: a node, or what stands for nodes that are left out."""

    depth: int
    text: str
    house: str


# Of more siblings than this, or of a longer chain of only children, the first and the last are shown.
LONG = 12
FIRST, LAST = 5, 3
DEEP = 24  # below this depth, as it is shown, nothing is


def text_picture(nodes, whole=False):
    """The tree in characters, house parts in brackets. Long runs are left out, unless the whole is asked for."""
    rows = every_row(nodes) if whole else short_rows(nodes)
    more = [False] * (len(nodes) + 2)  # by depth: is another sibling to come? filled from the last row up
    lines = []
    for row in reversed(rows):
        stems = "".join("│  " if more[depth] else "   " for depth in range(1, row.depth))
        twig = "" if not row.depth else "├─ " if more[row.depth] else "└─ "
        more[row.depth] = True
        more[row.depth + 1] = False
        lines.append((f"{stems}{twig}{row.text}", row.house))
    width = max(len(text) for text, _ in lines)
    return [f"{text:{width}}   [{house}]" if house else text for text, house in reversed(lines)]


def node_row(node, depth):
    return Row(depth, f"{node.name} = {node.value}", house_parts(node))


def every_row(nodes):
    return [node_row(node, node.depth) for node in nodes]


def short_rows(nodes):
    """The rows without the middle of long runs."""
    below = children_of(nodes)
    size = [1] * len(nodes)  # of the subtree
    rest = [0] * len(nodes)  # how many nodes hang below, each the only child of the one above
    for index in range(len(nodes) - 1, -1, -1):
        size[index] += sum(size[child] for child in below[index])
        rest[index] = rest[below[index][0]] + 1 if len(below[index]) == 1 else 0
    rows, waiting = [], [(0, 0, 0)]  # index, or a row that is ready; depth; place in a chain of only children
    while waiting:
        item, depth, place = waiting.pop()
        if isinstance(item, Row):
            rows.append(item)
            continue
        rows.append(node_row(nodes[item], depth))
        children = below[item]
        if children and depth == DEEP:
            rows.append(left_out(nodes, item + 1, item + size[item], depth + 1, "deeper down"))
        elif len(children) > LONG:
            waiting += [(child, depth + 1, 0) for child in reversed(children[-LAST:])]
            waiting.append((left_out(nodes, children[FIRST], children[-LAST], depth + 1, "siblings"), 0, 0))
            waiting += [(child, depth + 1, 0) for child in reversed(children[:FIRST])]
        elif place == FIRST - 1 and rest[item] > LONG - FIRST:
            last = item + rest[item] - LAST + 1  # in preorder a chain's nodes follow each other
            rows.append(left_out(nodes, item + 1, last, depth + 1, "one below the other"))
            waiting.append((last, depth + 2, FIRST))
        else:
            place = place + 1 if len(children) == 1 else 0
            waiting += [(child, depth + 1, place) for child in reversed(children)]
    return rows


def left_out(nodes, start, end, depth, how):
    """A row for the nodes from start up to end: siblings with all below them, a chain, or all below a node."""
    gone = nodes[start:end]
    count = len(gone)
    if how == "siblings":
        run = sum(node.depth == gone[0].depth for node in gone)
        text = f"⋮ {run} more" + (f", with {count - run} below them" if count > run else "")
    else:
        text = f"⋮ {count} more, {how}"
    house = sum(bool(house_parts(node)) for node in gone)
    return Row(depth, text, f"{house} with house parts" if house else "")
