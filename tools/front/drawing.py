"""A flow graph as a picture: points stand in rows, each below the points that lead to it where that can be, and edges are lines with their instructions."""
import html
import re

EDGE = re.compile(r"(\d+) to (\d+), (\d+:\d+): (.*)")
FUNCTION = re.compile(r"function (\d+): (\d+) to (\d+)")
HEAD = re.compile(r"head (\d+)")
WIDE, HIGH, RADIUS = 260, 84, 15
COLOUR, BACK, HEADS = "#1f3a5f", "#a33b20", "#f3d9a4"


class Shown:
    """What of the lines is drawn."""

    def __init__(self, lines):
        self.edges, self.heads, self.entries, self.exits = [], set(), {}, {}
        for line in lines:
            if found := EDGE.fullmatch(line):
                self.edges.append((int(found[1]), int(found[2]), found[3], found[4]))
            elif found := FUNCTION.match(line):
                self.entries[int(found[2])], self.exits[int(found[3])] = found[1], found[1]
            elif found := HEAD.fullmatch(line):
                self.heads.add(int(found[1]))
        self.points = sorted({end for edge in self.edges for end in edge[:2]} | set(self.entries) | set(self.exits))

    def rows(self):
        """The row of each point: one below the lowest that leads to it, where edges back to a point that is being gone through do not count."""
        behind = {}
        for start, end, _, _ in self.edges:
            behind.setdefault(start, []).append(end)
        order, state = [], {}
        for entry in [*self.entries, *self.points]:
            waiting = [(entry, iter(behind.get(entry, ())))] if entry not in state else []
            state.setdefault(entry, 1)
            while waiting:
                point, ends = waiting[-1]
                end = next(ends, None)
                if end is None:
                    waiting.pop()
                    state[point] = 2
                    order.append(point)
                elif end not in state:
                    state[end] = 1
                    waiting.append((end, iter(behind.get(end, ()))))
        place = {point: number for number, point in enumerate(reversed(order))}
        row = dict.fromkeys(self.points, 0)
        for point in reversed(order):
            for end in behind.get(point, ()):
                if place[end] > place[point]:
                    row[end] = max(row[end], row[point] + 1)
        return row


def placed(shown):
    """Where each point stands, and how large the picture is."""
    rows, taken, at = shown.rows(), {}, {}
    for point in shown.points:
        column = taken.get(rows[point], 0)
        taken[rows[point]] = column + 1
        at[point] = (WIDE // 2 + column * WIDE, HIGH // 2 + rows[point] * HIGH)
    return at, max(taken.values(), default=1) * WIDE + WIDE // 2, (max(rows.values(), default=0) + 1) * HIGH


def line_of(at, edge, beside):
    """One edge: a line with an arrow, bent aside where it leads back or passes others between the same points."""
    (start, end, place, instruction), ((x, y), (u, v)) = edge, (at[edge[0]], at[edge[1]])
    is_back = v <= y
    bend = (WIDE // 2 if is_back else 0) + 40 * beside
    middle, height = (x + u) / 2 + bend, (y + v) / 2
    colour = BACK if is_back else COLOUR
    if (x, y) == (u, v):
        path = f"M {x} {y - RADIUS} C {x + 60} {y - 60}, {x + 60} {y + 60}, {x} {y + RADIUS}"
        middle = x + 50
    else:
        path = f"M {x} {y + (0 if is_back else RADIUS)} Q {middle + bend} {height}, {u} {v + (RADIUS if is_back else -RADIUS)}"
    text = html.escape(instruction)
    return (f'<path d="{path}" fill="none" stroke="{colour}" marker-end="url(#tip)"/>'
            f'<text x="{middle + 6:.0f}" y="{height + 4 + 14 * beside:.0f}" fill="{colour}"><title>{place}</title>{text}</text>')


def point_of(shown, at, point):
    x, y = at[point]
    words = [*(f"function {shown.entries[point]}" for _ in [0] if point in shown.entries), *("exit" for _ in [0] if point in shown.exits)]
    said = f'<text x="{x - RADIUS - 4}" y="{y + 4}" text-anchor="end">{", ".join(words)}</text>' if words else ""
    fill = HEADS if point in shown.heads else "white"
    return (f'<circle cx="{x}" cy="{y}" r="{RADIUS}" fill="{fill}" stroke="{COLOUR}"/>'
            f'<text x="{x}" y="{y + 4}" text-anchor="middle">{point}</text>{said}')


def picture(lines):
    """The picture of a graph, as SVG."""
    shown = Shown(lines)
    at, wide, high = placed(shown)
    seen, drawn = {}, []
    for edge in shown.edges:
        beside = seen.get(edge[:2], 0)
        seen[edge[:2]] = beside + 1
        drawn.append(line_of(at, edge, beside))
    drawn += [point_of(shown, at, point) for point in shown.points]
    return (f'<svg xmlns="http://www.w3.org/2000/svg" width="{wide}" height="{high}" font-family="monospace" font-size="11">\n'
            f'<defs><marker id="tip" markerWidth="8" markerHeight="8" refX="7" refY="3" orient="auto"><path d="M0,0 L7,3 L0,6" fill="{COLOUR}"/></marker></defs>\n'
            f'<rect width="100%" height="100%" fill="white"/>\n' + "\n".join(drawn) + "\n</svg>\n")
