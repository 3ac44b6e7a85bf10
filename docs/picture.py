"""The house as a picture: a row of boxes for each layer, and lines from each crate down to those that it stands on directly. docs/lists writes it.

Lines to one crate join on their way, so that one line reaches it from above whatever stands on it: that keeps lines few. Where a line goes past a
row it has a place among the boxes of that row, which is called a pass here; a pass in which lines join shows the name of the crate that they lead to.
"""
from __future__ import annotations

from bisect import bisect_right, insort
from html import escape
from math import fsum  # the same sum in every version of Python: the picture is compared byte for byte
from typing import Dict, List, NamedTuple, Tuple

from house import Crate


class Node(NamedTuple):
    """The box of a crate, or the pass of the line to that crate through a row above it. Row 0 is the lowest."""

    row: int
    crate: str
    is_box: bool


Rows = List[List[Node]]
Links = Dict[Node, List[Node]]

BOX, MARGIN, LEGEND, LABEL = 26, 24, 76, 30  # heights of a box and of the legend, the margin around everything, room for a layer's number
BOX_GAP, LINE_GAP = 16, 13  # between boxes, and between a line and what stands beside it
SWEEPS, ROUNDS = 12, 80
FILLS = ["#dbe7f5", "#e6def3", "#dff0d8", "#f6dbe0", "#d6efee", "#f5f0c8", "#fbe6cf", "#ececec"]
EDGES = ["#5b83b5", "#8a70b5", "#6aa35c", "#bf6678", "#4c9c98", "#b3a53c", "#cf8f45", "#8c8c8c"]


def draw(house: Dict[str, Crate]) -> str:
    rows, below = make_rows(house)
    above = turned(below)
    rows = order_rows(rows, below, above)
    widths = {node: width(node, len(above[node])) for row in rows for node in row}
    at = place_rows(rows, below, widths)
    return drawing(house, below, at, widths, stack(rows, below))


def width(node: Node, lines: int) -> float:
    if node.is_box:
        return 7.3 * len(node.crate) + 18
    return 5.6 * len(node.crate) + 4 if lines > 1 else 0.0


# ---- which nodes there are, and what leads where


def make_rows(house: Dict[str, Crate]) -> Tuple[Rows, Links]:
    """The rows from the lowest layer up, and for each node the nodes of the row below that its lines go to."""
    rows: Rows = [[] for _ in range(max(c.layer for c in house.values()))]
    below: Links = {}
    for crate in house.values():
        box = Node(crate.layer - 1, crate.name, True)
        rows[box.row].append(box)
        below[box] = [carrier(house[d], box.row - 1) for d in crate.direct]
    for box in list(below):
        for node in below[box]:
            while not node.is_box and node not in below:
                rows[node.row].append(node)
                below[node] = [carrier(house[node.crate], node.row - 1)]
                node = below[node][0]
    return rows, below


def carrier(crate: Crate, row: int) -> Node:
    """Where the line to a crate is in a row: its box, or a pass."""
    return Node(row, crate.name, row == crate.layer - 1)


def turned(links: Links) -> Links:
    back: Links = {node: [] for node in links}
    for node, others in links.items():
        for other in others:
            back[other].append(node)
    return back


# ---- the order in each row: as few crossings as a few sweeps find


def order_rows(rows: Rows, below: Links, above: Links) -> Rows:
    """The best of two starts, since sweeps may end in a poor order: that of crates.txt, and the names'."""
    best, fewest = rows, all_crossings(rows, below)
    for start in (rows, [sorted(row, key=lambda n: n.crate) for row in rows]):
        for sweep in range(SWEEPS):
            upwards = sweep % 2 == 0
            start = sweep_rows(start, below if upwards else above, upwards, sweep % 4 < 2)
            while swap_neighbours(start, below):
                pass
            count = all_crossings(start, below)
            if count < fewest:
                best, fewest = [list(row) for row in start], count
    return best


def sweep_rows(rows: Rows, towards: Links, upwards: bool, ties_turned: bool) -> Rows:
    """Each row in turn by the mean place of what its nodes are linked to in the row before. Of nodes with one mean the order is kept or turned."""
    rows = [list(row) for row in rows]
    for k in range(1, len(rows)) if upwards else range(len(rows) - 2, -1, -1):
        before = {node: i for i, node in enumerate(rows[k - 1 if upwards else k + 1])}
        now = {node: i for i, node in enumerate(rows[k])}

        def key(node: Node) -> Tuple[float, int]:
            places = [before[other] for other in towards[node]] or [now[node] * len(before) / len(now)]
            return sum(places) / len(places), -now[node] if ties_turned else now[node]

        rows[k].sort(key=key)
    return rows


def swap_neighbours(rows: Rows, below: Links) -> bool:
    """Exchanges nodes that stand side by side where that saves crossings; whether any were."""
    swapped = False
    for k, row in enumerate(rows):
        around = rows[max(0, k - 1) : k + 2]
        for i in range(len(row) - 1):
            before = all_crossings(around, below)
            row[i], row[i + 1] = row[i + 1], row[i]
            if all_crossings(around, below) < before:
                swapped = True
            else:
                row[i], row[i + 1] = row[i + 1], row[i]
    return swapped


def all_crossings(rows: Rows, below: Links) -> int:
    return sum(crossings(lower, upper, below) for lower, upper in zip(rows, rows[1:]))


def crossings(lower: List[Node], upper: List[Node], below: Links) -> int:
    at = {node: i for i, node in enumerate(lower)}
    total = 0
    seen: List[int] = []  # where the lines so far end, sorted
    for node in upper:
        ends = [at[other] for other in below[node]]
        total += sum(len(seen) - bisect_right(seen, end) for end in ends)
        for end in ends:
            insort(seen, end)
    return total


# ---- where each node stands in its row


def weight(one: Node, other: Node) -> int:
    """How much a link wants to be straight: a line on its way most."""
    return {2: 1, 1: 3, 0: 8}[one.is_box + other.is_box]


def place_rows(rows: Rows, below: Links, widths: Dict[Node, float]) -> Dict[Node, float]:
    """The middle of each node: near the mean of what it is linked to, in the order of its row and with a gap on both sides."""
    above = turned(below)
    near = {node: [(other, weight(node, other)) for other in below[node] + above[node]] for node in below}
    weights = {node: sum(w for _, w in near[node]) or 1 for node in near}
    at: Dict[Node, float] = {}
    for row in rows:
        at.update(zip(row, spread(row, {node: 0.0 for node in row}, weights, widths)))
    for turn in range(ROUNDS):
        for row in rows if turn % 2 else reversed(rows):
            wanted = {n: fsum(at[o] * w for o, w in near[n]) / weights[n] if near[n] else at[n] for n in row}
            at.update(zip(row, spread(row, wanted, weights, widths)))
    left = min(at[n] - widths[n] / 2 for n in at)
    return {n: at[n] - left + MARGIN + LABEL for n in at}


def spread(row: List[Node], wanted: Dict[Node, float], weights: Dict[Node, int], widths: Dict[Node, float]) -> List[float]:
    """The places nearest to the wanted ones, by least squares, that keep order and gaps: neighbours that would meet move as one."""
    offsets = [0.0]
    for left, right in zip(row, row[1:]):
        gap = BOX_GAP if left.is_box and right.is_box else LINE_GAP
        offsets.append(offsets[-1] + (widths[left] + widths[right]) / 2 + gap)
    groups: List[Tuple[float, int, int]] = []  # the mean of what a group wants, without the offsets; its weight; how many are in it
    for node, offset in zip(row, offsets):
        mean, heavy, many = wanted[node] - offset, weights[node], 1
        while groups and groups[-1][0] > mean:
            other, more, count = groups.pop()
            mean, heavy, many = (mean * heavy + other * more) / (heavy + more), heavy + more, many + count
        groups.append((mean, heavy, many))
    means = [mean for mean, _, many in groups for _ in range(many)]
    return [mean + offset for mean, offset in zip(means, offsets)]


def stack(rows: Rows, below: Links) -> List[float]:
    """The height of each row's middle: the more lines there are between two rows, the further they stand apart."""
    heights, y = [0.0] * len(rows), LEGEND + BOX / 2
    for k in range(len(rows) - 1, -1, -1):
        heights[k] = y
        y += BOX + 36 + 1.4 * sum(len(below[n]) for n in rows[k])
    return heights


# ---- the drawing


def drawing(house: Dict[str, Crate], below: Links, at: Dict[Node, float], widths: Dict[Node, float], heights: List[float]) -> str:
    families = list(dict.fromkeys(c.family for c in house.values()))
    colours = {f: k % len(FILLS) for k, f in enumerate(families)}
    wide = max(max(at[n] + widths[n] / 2 for n in at) + MARGIN, 760)
    high = heights[0] + BOX / 2 + MARGIN
    parts = [
        f'<svg xmlns="http://www.w3.org/2000/svg" width="{wide:.0f}" height="{high:.0f}" viewBox="0 0 {wide:.0f} {high:.0f}"'
        ' font-family="Helvetica, Arial, sans-serif" font-size="12">',
        '<rect width="100%" height="100%" fill="white"/>',
        '<defs><marker id="tip" viewBox="0 0 8 8" refX="7" refY="4" markerWidth="7" markerHeight="7" orient="auto">'
        '<path d="M0 0.5 L8 4 L0 7.5 z" fill="#666"/></marker></defs>',
    ]
    parts += legend(families, colours)
    parts += [f'<text x="{MARGIN}" y="{y + 4:.1f}" fill="#999">{k + 1}</text>' for k, y in enumerate(heights)]
    parts += ['<g fill="none" stroke="#8a8a8a" stroke-width="0.9">']
    parts += [line for node in below for line in lines_from(node, below, at, widths, heights)]
    parts += ["</g>"]
    for node in below:
        if node.is_box:
            parts.append(box(house[node.crate], at[node], heights[node.row], widths[node], colours))
        elif widths[node]:
            parts.append(name_of_a_pass(node.crate, at[node], heights[node.row], widths[node]))
    return "\n".join(parts + ["</svg>", ""])


def lines_from(node: Node, below: Links, at: Dict[Node, float], widths: Dict[Node, float], heights: List[float]) -> List[str]:
    """From the bottom of a box, side by side in the order of their ends, or on from a pass; to the top of a box, with a tip, or to a pass."""
    lines = []
    ends = sorted(below[node], key=lambda other: at[other])
    step = min(11.0, (widths[node] - 14) / max(1, len(ends) - 1))
    for k, other in enumerate(ends):
        x, y = at[node] + (k - (len(ends) - 1) / 2) * step, heights[node.row]
        top, end = y + BOX / 2, heights[other.row] - BOX / 2
        start = f"M{x:.1f} {top:.1f}" if node.is_box else f"M{x:.1f} {y - BOX / 2:.1f} V{top:.1f}"
        bend = (top + end) / 2
        tip = ' marker-end="url(#tip)"' if other.is_box else ""
        lines.append(f'<path d="{start} C{x:.1f} {bend:.1f} {at[other]:.1f} {bend:.1f} {at[other]:.1f} {end:.1f}"{tip}/>')
    return lines


def box(crate: Crate, x: float, y: float, wide: float, colours: Dict[str, int]) -> str:
    name = f'<text x="{x:.1f}" y="{y + 4:.1f}" text-anchor="middle">{escape(crate.name)}</text>'
    return shape(x - wide / 2, y - BOX / 2, wide, colours[crate.family], crate.is_program) + name


def name_of_a_pass(name: str, x: float, y: float, wide: float) -> str:
    return (
        f'<rect x="{x - wide / 2:.1f}" y="{y - 7:.1f}" width="{wide:.1f}" height="14" fill="white"/>'
        f'<text x="{x:.1f}" y="{y + 3.5:.1f}" text-anchor="middle" font-size="10" font-style="italic" fill="#666">{escape(name)}</text>'
    )


def shape(left: float, top: float, wide: float, colour: int, is_program: bool) -> str:
    """Programs have round ends."""
    return (
        f'<rect x="{left:.1f}" y="{top:.1f}" width="{wide:.1f}" height="{BOX}" rx="{BOX // 2 if is_program else 3}"'
        f' fill="{FILLS[colour]}" stroke="{EDGES[colour]}"/>'
    )


def legend(families: List[str], colours: Dict[str, int]) -> List[str]:
    drawn, x = [], float(MARGIN)
    entries = [(f, colours[f], False) for f in families if f] + [("library", 7, False), ("program", 7, True)]
    for text, colour, is_program in entries:
        drawn.append(shape(x, 10, 30, colour, is_program))
        drawn.append(f'<text x="{x + 36:.1f}" y="27">{escape(text)}</text>')
        x += 52 + 7 * len(text)
    said = "Numbers are layers. A line leads from a crate down to one that it stands on; in italics, where lines to one crate join. What follows is left out."
    return drawn + [f'<text x="{MARGIN}" y="56" fill="#555">{said}</text>']
