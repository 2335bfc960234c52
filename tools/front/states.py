"""The trail of an analysis as a picture: a card for each entry, below the one that it comes from, with the graph of its states drawn in it.

It is made of the lines that the program of tools/graph writes (states.rt.in, memories.rt.in). In a card the variables and registers stand at the left, with a line to the object that each leads to, and objects as boxes at
the right: what is known of their bytes, and a line from each address to its object. A card of an entry that is not kept is dashed, with a dashed line to the entry that covers it. A loss of precision, and the faults of an entry, are red.
"""
import html
import re

ENTRY = re.compile(r"(?:entry (\d+)|next) at (\d+): (?:(kept|covered(?: by (\d+))?|replaced by \d+); )?(.*)")
CAUSE = re.compile(r"from (\d+) along (\d+)(?:, (\d+:\d+: .*?))?(?:; loss (\d+))?")
MADE = re.compile(r"(?:coarse|fold) of (\d+)")
OBJECT = re.compile(r"o(\d+): (.*)")
ADDRESS = re.compile(r"(.*= )?&o(\d+)\b.*")
NAMED = re.compile(r"v\d+ in o(\d+)")
FAULT = re.compile(r"(\d+:\d+: (?:error|warning): .*); entry (\d+), edge \d+")
LETTER, LINE, GAP, EDGE = 6.7, 16, 48, 10
COLOUR, RED, GREY, LIVE, DEAD = "#1f3a5f", "#a33b20", "#8a8f98", "#eef3f8", "#dddddd"


class Card:
    """An entry: what is said of it, and the lines of its graph."""

    def __init__(self, line):
        number, point, self.state, cover, cause = ENTRY.fullmatch(line).groups()
        step = CAUSE.fullmatch(cause)
        self.number = None if number is None else int(number)
        self.cover = None if cover is None else int(cover)
        made = MADE.fullmatch(cause)
        self.behind = int(step[1]) if step else int(made[1]) if made else None
        self.head = [(f"{'next' if number is None else number} at point {point}" + (f", {self.state}" if self.state else ""), COLOUR)]
        self.head.append((f"from {step[1]} along edge {step[2]}" if step else cause, COLOUR))
        if step and step[3]:
            self.head.append((step[3], COLOUR))
        if step and step[4]:
            self.head.append((f"loss {step[4]}", RED))
        self.names, self.objects, self.rest = [], {}, []

    def take(self, line):
        """One line of its graph."""
        if found := OBJECT.fullmatch(line):
            head, *rows = found[2].split("; ")
            self.objects[int(found[1])] = [f"o{found[1]} {head}", *rows]
        elif line[0] in "vr":
            self.names += line.split(", ")
        else:
            self.rest.append(line)

    def size(self):
        """How wide the names and the objects are, and how large the whole is."""
        left = max((len(name) for name in self.names), default=0) * LETTER
        right = max((len(row) for rows in self.objects.values() for row in rows), default=0) * LETTER + 2 * EDGE
        over = max(len(text) for text in [*(text for text, _ in self.head), *self.rest]) * LETTER
        high = max(len(self.names), sum(len(rows) + 1 for rows in self.objects.values()))
        self.left, self.right = left, right
        self.wide = max(over, left + GAP + right + GAP) + 2 * EDGE
        self.high = (len(self.head) + high + len(self.rest)) * LINE + 3 * EDGE


def cards_of(lines):
    """The cards, and the lines behind them."""
    cards, behind = [], []
    for line in lines:
        if ENTRY.fullmatch(line):
            cards.append(Card(line))
        elif line.startswith("  ") and cards:
            cards[-1].take(line[2:])
        else:
            behind.append(line)
            if fault := FAULT.fullmatch(line):
                cards[int(fault[2])].head.append((fault[1], RED))
    return cards, behind


def placed(cards):
    """Gives each card its place: below the one that it comes from, each leaf in a column of its own. How large all is."""
    after, depth = {at: [] for at in range(len(cards))}, {}
    for at, card in enumerate(cards):
        card.size()
        depth[at] = 0 if card.behind is None else depth[card.behind] + 1
        if card.behind is not None:
            after[card.behind].append(at)
    wide, high = max(card.wide for card in cards) + GAP, {}
    for at, card in enumerate(cards):
        high[depth[at]] = max(high.get(depth[at], 0), card.high)
    top = [EDGE]
    for row in range(len(high)):
        top.append(top[-1] + high[row] + GAP)
    column, waiting = 0, [at for at, card in enumerate(cards) if card.behind is None][::-1]
    while waiting:
        at = waiting.pop()
        waiting += after[at][::-1]
        cards[at].x, cards[at].y = EDGE + column * wide, top[depth[at]]
        column += not after[at]
    return column * wide + EDGE, top[-1]


def text_at(x, y, text, colour=COLOUR):
    return f'<text x="{x:.0f}" y="{y:.0f}" fill="{colour}">{html.escape(text)}</text>'


def curve(x, y, u, v, bend):
    """A line with an arrow from one place to another, which leaves and comes in at the side."""
    return f'<path d="M {x:.0f} {y:.0f} C {x + bend:.0f} {y:.0f}, {u + (bend if bend > GAP / 2 else -bend):.0f} {v:.0f}, {u:.0f} {v:.0f}" fill="none" stroke="{COLOUR}" marker-end="url(#tip)"/>'


def boxes_of(card, x, y):
    """The objects of a card from a place on, and the height of each."""
    drawn, at = [], {}
    for key, rows in card.objects.items():
        at[key] = y + LINE / 2
        fill = DEAD if rows[0].endswith(", dead") else LIVE
        drawn.append(f'<rect x="{x:.0f}" y="{y:.0f}" width="{card.right:.0f}" height="{len(rows) * LINE + 4}" fill="{fill}" stroke="{COLOUR}"/>')
        drawn += [text_at(x + EDGE, y + 12 + LINE * number, row) for number, row in enumerate(rows)]
        y += (len(rows) + 1) * LINE
    return drawn, at


def memories_of(card, y):
    """The graph of a card, from a height on."""
    names, boxes = card.x + EDGE, card.x + EDGE + card.left + GAP
    drawn, at = boxes_of(card, boxes, y)
    for number, name in enumerate(card.names):
        drawn.append(text_at(names, y + 12 + LINE * number, name))
        found = NAMED.fullmatch(name)
        target = found[1] if found else (ADDRESS.fullmatch(name) or [None] * 3)[2]
        if target is not None and int(target) in at:
            drawn.append(curve(names + len(name) * LETTER + 4, y + 8 + LINE * number, boxes, at[int(target)], GAP / 2))
    for key, rows in card.objects.items():
        for number, row in enumerate(rows):
            found = ADDRESS.fullmatch(row) if number else None
            if found and int(found[2]) in at:
                side = boxes + card.right
                drawn.append(curve(side, at[key] + LINE * number, side, at[int(found[2])], GAP - 8))
    return drawn


def drawn_card(card):
    """A card: its frame, what is said of it, its graph and what is known of its values."""
    dash = "" if card.state == "kept" else ' stroke-dasharray="5 3"'
    drawn = [f'<rect x="{card.x:.0f}" y="{card.y:.0f}" width="{card.wide:.0f}" height="{card.high:.0f}" rx="6" fill="white" stroke="{COLOUR if card.state == "kept" else GREY}"{dash}/>']
    y = card.y + EDGE
    for text, colour in card.head:
        drawn.append(text_at(card.x + EDGE, y + 8, text, colour))
        y += LINE
    drawn += memories_of(card, y)
    y = card.y + card.high - EDGE - LINE * len(card.rest)
    drawn += [text_at(card.x + EDGE, y + 8 + LINE * number, text) for number, text in enumerate(card.rest)]
    return drawn


def links_of(card, cards):
    """The line from the entry that a card comes from, and the one to the entry that covers it."""
    if card.behind is not None:
        other = cards[card.behind]
        yield f'<line x1="{other.x + 30:.0f}" y1="{other.y + other.high:.0f}" x2="{card.x + 30:.0f}" y2="{card.y:.0f}" stroke="{COLOUR}" marker-end="url(#tip)"/>'
    if card.cover is not None:
        other = cards[card.cover]
        yield (f'<line x1="{card.x + card.wide:.0f}" y1="{card.y + 16:.0f}" x2="{other.x + other.wide:.0f}" y2="{other.y + 16:.0f}" stroke="{GREY}" stroke-dasharray="5 3" '
               'marker-end="url(#tip)"/>')


def picture(lines):
    """The picture of a trail, as SVG."""
    cards, behind = cards_of(lines)
    wide, high = placed(cards) if cards else (400, EDGE)
    drawn = [text for card in cards for text in links_of(card, cards)]
    drawn += [text for card in cards for text in drawn_card(card)]
    drawn += [text_at(EDGE, high + 8 + LINE * number, text) for number, text in enumerate(behind)]
    high += LINE * (len(behind) + 1)
    wide = max(wide, *(len(text) * LETTER + 2 * EDGE for text in behind)) if behind else wide
    return (f'<svg xmlns="http://www.w3.org/2000/svg" width="{wide:.0f}" height="{high:.0f}" font-family="monospace" font-size="11">\n'
            f'<defs><marker id="tip" markerWidth="8" markerHeight="8" refX="7" refY="3" orient="auto"><path d="M0,0 L7,3 L0,6" fill="{COLOUR}"/></marker></defs>\n'
            '<rect width="100%" height="100%" fill="white"/>\n' + "\n".join(drawn) + "\n</svg>\n")
