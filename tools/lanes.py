"""Draws transactions as boxes in the lanes of their sessions, time downwards, and arrows between their operations, as SVG.

What is drawn is given by boxes and arrows. Where nothing says which of two boxes is the lower one, they stand side by side. Arrows run beside
the lanes and through what is free between boxes, so that none crosses a box."""
import itertools
from dataclasses import dataclass, field
from html import escape
from typing import List, Optional

# Sizes: of a letter of an operation and of a small one, of a box's parts, and between things.
LETTER, SMALL, HEAD, PAD, TRACK, STUB, EDGE = 7.9, 6.9, 26, 10, 16, 26, 9
PILL = 20
# How much room a gutter has for words: for lines alone, for words on one of them, for words on each.
NARROW, USUAL, WIDE = range(3)
# The heights of a row and the room in gutters that are tried, one behind the other.
TRIES = ((20, USUAL), (20, WIDE), (26, USUAL), (26, WIDE), (20, NARROW), (34, WIDE))
# How wide a screen is, and how small a picture may be shown to fit it.
WIDTH, LEAST = 1240, 0.75


@dataclass
class Row:
    """A line of a box: an operation with its line in the log, or words alone. `is_end` is for the ends of a bar."""
    words: str
    line: Optional[int] = None
    key: Optional[str] = None
    wid: Optional[str] = None
    told: bool = False
    note: str = ''
    is_end: bool = False


@dataclass
class Box:
    """`look` is told, near (a neighbour), source (the initial value) or nowhere (what the log does not have). `support` is for what only thin
    arrows need."""
    name: str
    lane: str
    place: int
    heading: str
    label: str
    rows: List[Row]
    badge: str = ''
    look: str = 'told'
    support: bool = False
    begun: Optional[int] = None
    ended: Optional[int] = None

    def width(self):
        head = len(self.heading) * LETTER * 1.05 + len(self.badge) * SMALL + 24
        rows = [len(row.words) * LETTER + (len('line %d' % row.line) * SMALL + 16 if row.line else 0) for row in self.rows]
        return max([110, head] + rows) + 2 * PAD

    def row_at(self, line):
        return next((place for place, row in enumerate(self.rows) if line is not None and row.line == line), None)


@dataclass
class Arrow:
    """From an operation of one box to one of another, each named by its line, or from box to box. `look` is bold, thin or otherwise (what
    would hold, and does not); `words` stand on it, `said` is its name, with the whole reason, `number` the line of the explanation that tells it."""
    first: str
    second: str
    kind: str
    words: str
    said: str
    first_line: Optional[int] = None
    second_line: Optional[int] = None
    look: str = 'bold'
    number: Optional[int] = None
    ordinal: Optional[int] = None
    support: bool = False
    link: str = ''


@dataclass
class Run:
    """The part of a way that goes up or down a gutter, from and to a height; on which side what comes before and behind it lies, as -1 for
    left and 1 for right; and its track, counted from the left."""
    gutter: int
    start: float
    end: float
    before: int
    behind: int
    words: float
    track: int = 0

    @property
    def low(self):
        return min(self.start, self.end)

    @property
    def high(self):
        return max(self.start, self.end)

    def stubs(self):
        """What leads to it and from it: a height and a side."""
        return (self.start, self.before), (self.end, self.behind)


@dataclass
class Route:
    """The way of an arrow: the heights and sides of its ends, the runs between them, and its points."""
    arrow: Arrow
    ends: list
    sides: tuple
    runs: List[Run] = field(default_factory=list)
    points: list = field(default_factory=list)
    pill: Optional[tuple] = None

    def words(self):
        return ('%d  ' % self.arrow.ordinal if self.arrow.ordinal else '') + self.arrow.words


def meet(a, b, by=0):
    """Whether two rectangles, each left, top, right and bottom, come so near to each other."""
    return a[0] < b[2] + by and b[0] < a[2] + by and a[1] < b[3] + by and b[1] < a[3] + by


def order_of_lanes(lanes, pairs):
    """An order of the lanes with short arrows: each pair is two lanes and a weight. The lanes come in the order that decides else."""
    pairs = [(lanes.index(a), lanes.index(b), weight) for a, b, weight in pairs if a != b]

    def cost(order):
        at = {lane: place for place, lane in enumerate(order)}
        return sum(weight * abs(at[a] - at[b]) for a, b, weight in pairs), order

    if len(lanes) <= 6:
        best = min(itertools.permutations(range(len(lanes))), key=cost)
    else:
        best = tuple(range(len(lanes)))
        while True:
            moved = []
            for at in range(len(best)):
                rest = best[:at] + best[at + 1:]
                moved += [rest[:to] + (best[at],) + rest[to:] for to in range(len(best))]
            better = min(moved, key=cost)
            if cost(better)[0] >= cost(best)[0]:
                break
            best = better
    return [lanes[place] for place in best]


class Heights:
    """How far down events stand: each at least so far below those that it has to be below. What would close a circle is left out."""

    def __init__(self):
        self.below = {}

    def reaches(self, a, b):
        seen, open_ = {a}, [a]
        while open_:
            for event, _ in self.below.get(open_.pop(), ()):
                if event not in seen:
                    seen.add(event)
                    open_.append(event)
        return b in seen

    def put(self, a, b, distance):
        if not self.reaches(b, a):
            self.below.setdefault(a, []).append((b, distance))

    def places(self, events):
        above, found = {event: 0 for event in events}, {event: 0 for event in events}
        for its in self.below.values():
            for event, _ in its:
                above[event] += 1
        ready = [event for event in events if not above[event]]
        while ready:
            event = ready.pop()
            for other, distance in self.below.get(event, ()):
                found[other] = max(found[other], found[event] + distance)
                above[other] -= 1
                if not above[other]:
                    ready.append(other)
        return found


class Layout:
    def __init__(self, boxes, arrows, row, room):
        self.boxes, self.row, self.room = {box.name: box for box in boxes}, row, room
        self.arrows = arrows
        self.top, self.bottom = {}, {}
        self.stack()
        self.lay_lanes()
        self.routes = [self.route(arrow) for arrow in sorted(arrows, key=lambda it: (it.look != 'bold', self.span(it)))]
        self.spread()
        self.way()
        self.widen()
        self.label()

    # ---- downwards

    def height(self, box):
        return HEAD + len(box.rows) * self.row + (8 if box.rows else 0)

    def stack(self):
        """Moments first, then the order of each session, then that a reader stands below what it reads from."""
        heights, boxes = Heights(), list(self.boxes.values())
        begin, end = {}, {}
        moments = sorted({moment for box in boxes for moment in (box.begun, box.ended) if moment is not None})
        first = {}
        for box in sorted(boxes, key=lambda box: box.place):
            first.setdefault((box.lane, box.begun), box.name)
        for box in boxes:
            # of several of one session that state one moment only the first began there
            is_first = box.begun is not None and first[box.lane, box.begun] == box.name
            begin[box.name] = ('begun', box.begun) if is_first else ('begin', box.name)
            end[box.name] = ('end', box.name) if box.ended is None else ('ended', box.ended)
            heights.put(begin[box.name], end[box.name], self.height(box))
            if box.begun is not None and not is_first:
                heights.put(('begun', box.begun), begin[box.name], 0)
        for moment, later in zip(moments, moments[1:] + [None]):
            heights.put(('begun', moment), ('ended', moment), 0)
            if later is not None:
                heights.put(('ended', moment), ('begun', later), EDGE)
        lanes = {}
        for box in sorted(boxes, key=lambda box: box.place):
            lanes.setdefault(box.lane, []).append(box)
        arrowed = {(arrow.first, arrow.second) for arrow in self.arrows}
        for its in lanes.values():
            for a, b in zip(its, its[1:]):
                heights.put(end[a.name], begin[b.name], 46 if (a.name, b.name) in arrowed else 34 if b.place > a.place + 1 else 20)
        for arrow in self.arrows:
            if arrow.kind in ('read', 'moments') and arrow.first != arrow.second:
                same = self.boxes[arrow.first].lane == self.boxes[arrow.second].lane
                heights.put(end[arrow.first], begin[arrow.second], 46 if same else 30)
        events = set(begin.values()) | set(end.values()) | set(heights.below) | {it for its in heights.below.values() for it, _ in its}
        found = heights.places(sorted(events, key=str))
        for box in boxes:
            self.top[box.name] = found[begin[box.name]]
            self.bottom[box.name] = max(found[end[box.name]], self.top[box.name] + self.height(box))

    def port(self, name, line):
        """How far down an arrow meets the box: at the row of this line, or at its heading."""
        box = self.boxes[name]
        place = box.row_at(line)
        if place is None:
            return self.top[name] + HEAD / 2
        if place and place == len(box.rows) - 1 and box.rows[place].words.startswith('commit'):
            return self.bottom[name] - 8 - self.row / 2
        return self.top[name] + HEAD + (place + 0.5) * self.row

    # ---- sideways

    def lay_lanes(self):
        """Gives each session its lane, and another one for what would cover its boxes there."""
        self.lane_of, columns = {}, {}
        for box in sorted(self.boxes.values(), key=lambda box: (self.top[box.name], box.place)):
            its = columns.setdefault(box.lane, [])
            column = next((place for place, bottom in enumerate(its) if bottom + 8 <= self.top[box.name]), len(its))
            its[column:column + 1] = [self.bottom[box.name]]
            self.lane_of[box.name] = (box.lane, column)
        numbered = lambda lane: (not lane[0].isdigit(), int(lane[0]) if lane[0].isdigit() else 0, lane)
        weight = lambda arrow: 9 if self.boxes[arrow.first].look == 'source' else 3 if arrow.look == 'bold' else 1
        pairs = [(self.lane_of[arrow.first], self.lane_of[arrow.second], weight(arrow)) for arrow in self.arrows]
        self.lanes = order_of_lanes(sorted(set(self.lane_of.values()), key=numbered), pairs)
        self.place_of = {name: self.lanes.index(lane) for name, lane in self.lane_of.items()}
        self.widths = [max(box.width() for name, box in self.boxes.items() if self.lane_of[name] == lane) for lane in self.lanes]

    def span(self, arrow):
        return abs(self.place_of[arrow.first] - self.place_of[arrow.second])

    def is_next_below(self, a, b):
        """Whether nothing stands between a box and one below it in its lane."""
        between = [name for name in self.boxes if self.lane_of[name] == self.lane_of[a] and self.bottom[a] <= self.top[name] < self.top[b]]
        return self.lane_of[a] == self.lane_of[b] and self.bottom[a] < self.top[b] and not between

    def route(self, arrow):
        a, b, names = self.place_of[arrow.first], self.place_of[arrow.second], (arrow.first, arrow.second)
        if arrow.kind != 'read' and self.is_next_below(*names):
            return Route(arrow, [self.bottom[arrow.first], self.top[arrow.second]], ('below', 'above'))
        ends = [self.port(arrow.first, arrow.first_line), self.port(arrow.second, arrow.second_line)]
        if a == b:
            side = 'left' if a == 0 and len(self.lanes) > 1 else 'right'
            return Route(arrow, ends, (side, side))
        return Route(arrow, ends, ('right', 'left') if a < b else ('left', 'right'))

    def spread(self):
        """Moves ends apart that meet a gutter at one height, from either side."""
        gutters = {}
        for route in self.routes:
            for which, (name, side) in enumerate(zip((route.arrow.first, route.arrow.second), route.sides)):
                if side in ('left', 'right'):
                    gutters.setdefault(self.place_of[name] + (side == 'right'), []).append((route, which))
        for ends in gutters.values():
            ends.sort(key=lambda it: it[0].ends[it[1]])
            while ends:
                lowest = ends[0][0].ends[ends[0][1]]
                near = [it for it in ends if it[0].ends[it[1]] < lowest + 9]
                ends = ends[len(near):]
                # a straight arrow stays so
                near = {id(route): [it for it in near if it[0] is route] for route, _ in sorted(near, key=lambda it: it[0].ends[1 - it[1]])}
                step = min(9, (self.row - 5) / max(len(near) - 1, 1))
                for place, its in enumerate(near.values()):
                    for route, which in its:
                        route.ends[which] += (place - (len(near) - 1) / 2) * step

    def free_height(self, between, ends, taken):
        """Where a way is free through these lanes, as near to both ends as may be."""
        walls = [(self.top[name] - 12, self.bottom[name] + 12) for name, place in self.place_of.items() if place in between]
        tries = list(ends) + [edge + by for wall in walls for edge, sign in zip(wall, (-1, 1)) for by in (sign * 12 * n for n in range(12))]
        free = [y for y in tries if not any(top < y < bottom for top, bottom in walls) and not any(abs(y - other) < 10 for other in taken)]
        return min(free, key=lambda y: (sum(abs(y - end) for end in ends), y))

    def way(self):
        """The runs of each route, and the track of each beside the others."""
        taken = []
        for route in self.routes:
            if route.sides[0] == 'below':
                continue
            a, b = self.place_of[route.arrow.first], self.place_of[route.arrow.second]
            (start, end), words = route.ends, len(route.words()) * SMALL + 16
            before, behind = (-1 if side == 'right' else 1 for side in route.sides)
            out, into = a + (before < 0), b + (behind < 0)
            if out == into:
                route.runs = [Run(out, start, end, before, behind, words)]
                continue
            between, on = range(min(a, b) + 1, max(a, b)), 1 if into > out else -1
            height = self.free_height(between, (start, end), [y for y, lanes in taken if set(lanes) & set(between)])
            taken.append((height, between))
            # its words have room on the way between the gutters
            route.runs = [Run(out, start, height, before, on, 0), Run(into, height, end, -on, behind, 0)]
        self.counts, self.most_words = [], []
        for gutter in range(len(self.lanes) + 1):
            runs = sorted([run for route in self.routes for run in route.runs if run.gutter == gutter], key=lambda run: (run.low, run.high))
            ends = []
            for run in runs:
                run.track = next((place for place, end in enumerate(ends) if end + 12 <= run.low), len(ends))
                ends[run.track:run.track + 1] = [run.high]
            self.counts.append(len(ends))
            # words stand on long runs, or on what leads to short ones
            self.most_words.append(max([run.words for run in runs], default=0))
            if 1 < len(ends) <= 5:
                best = min(itertools.permutations(range(len(ends))), key=lambda order: crossings(runs, order))
                for run in runs:
                    run.track = best[run.track]

    def widen(self):
        """The places of lanes and gutters from the left, and with them those of all points."""
        self.left, self.gutters, x = [], [], 0
        for gutter, count in enumerate(self.counts):
            outer = gutter in (0, len(self.counts) - 1)
            words = 0 if self.room == NARROW else self.most_words[gutter]
            wide = 2 * STUB + words + (count - 1) * self.track_width(gutter) if count else (8 if outer else 28)
            self.gutters.append((x, wide))
            x += wide
            if gutter < len(self.lanes):
                self.left.append(x)
                x += self.widths[gutter]
        self.width = x

        def side(name, which):
            lane = self.place_of[name]
            return self.left[lane] + (self.widths[lane] if which == 'right' else self.widths[lane] / 2 if which in ('above', 'below') else 0)

        for route in self.routes:
            (start, end), names = route.ends, (route.arrow.first, route.arrow.second)
            route.points = [(side(names[0], route.sides[0]), start)]
            for run in route.runs:
                left, wide = self.gutters[run.gutter]
                x = left + wide / 2 + (run.track - (self.counts[run.gutter] - 1) / 2) * self.track_width(run.gutter)
                route.points += [(x, run.start), (x, run.end)]
            route.points.append((side(names[1], route.sides[1]), end))

    def track_width(self, gutter):
        """How far apart tracks are: so that words stand beside each other, or lines."""
        return self.most_words[gutter] + 10 if self.room == WIDE and self.counts[gutter] <= 4 else TRACK

    def box_at(self, name):
        lane = self.place_of[name]
        return self.left[lane], self.top[name], self.left[lane] + self.widths[lane], self.bottom[name]

    # ---- words on arrows

    def label(self):
        """Puts the words of each arrow on it, off boxes, off other words and off the ends of arrows, as near to its middle as may be."""
        walls = [self.box_at(name) for name in self.boxes]
        heads = [(x - 13, y - 6, x + 13, y + 6) for route in self.routes for x, y in (route.points[0], route.points[-1])]
        parts = [(route, (min(a[0], b[0]), min(a[1], b[1]), max(a[0], b[0]), max(a[1], b[1])))
                 for route in self.routes for a, b in zip(route.points, route.points[1:])]
        self.covered, self.hidden, put = 0, 0, []
        for route in self.routes:
            wide = len(route.words()) * SMALL + 14
            long = sum(abs(a[0] - b[0]) + abs(a[1] - b[1]) for a, b in zip(route.points, route.points[1:]))
            tries, gone = [], 0
            for a, b in zip(route.points, route.points[1:]):
                part = abs(a[0] - b[0]) + abs(a[1] - b[1])
                for step in range(int(part // 8) + 1):
                    share = min(step * 8 / part, 1) if part else 0
                    x, y = a[0] + (b[0] - a[0]) * share, a[1] + (b[1] - a[1]) * share
                    # on the line, or beside it
                    for by in (0, wide / 2 + 5) if a[0] == b[0] else (0,):
                        place = (x + by - wide / 2, y - PILL / 2, x + by + wide / 2, y + PILL / 2)
                        worse = abs(gone + part * share - long / 2) + (30 if by else 0)
                        worse += 10000 * sum(meet(place, wall, 3) for wall in walls) + 8000 * sum(meet(place, other, 3) for other in put)
                        worse += 600 * sum(meet(place, head) for head in heads) + 80 * sum(meet(place, bend * 2, 2) for bend in route.points[1:-1])
                        tries.append((worse, place))
                gone += part
            others = [part for other, part in parts if other is not route]
            worse, hidden, place = min((worse + 100 * hides, hides, place) for worse, place in sorted(tries)[:24:2]
                                       for hides in [sum(meet(place, part, 1) for part in others)])
            self.covered += worse >= 8000
            self.hidden += hidden
            route.pill = place
            put.append(place)

    def fault(self):
        """How bad it looks: words that cover boxes, words or lines, lines without room, and what is larger than a screen."""
        return 1000 * self.covered + 60 * self.hidden + 25 * self.cramped() + max(0, self.width - WIDTH) / 2 + max(self.bottom.values()) / 20

    def cramped(self):
        """How many runs are so short that their corners run into each other."""
        return sum(0 < run.high - run.low < 16 for route in self.routes for run in route.runs)


def crossings(runs, order):
    """How often lines cross in a gutter with these tracks; where two lie on each other, that counts for many."""
    worse = 0
    for run, other in itertools.permutations(runs, 2):
        at, its = order[run.track], order[other.track]
        for y, side in run.stubs():
            between = its < at if side < 0 else its > at
            worse += between and other.low - 5 < y < other.high + 5
            worse += 10 * sum(abs(y - height) < 6 and way != side and between for height, way in other.stubs())
    return worse


def laid(boxes, arrows):
    """The layout that looks best, of those with lines and words closer together and further apart."""
    tried = []
    for row, room in TRIES:
        tried.append(Layout(boxes, arrows, row, room))
        if not tried[-1].covered and not tried[-1].hidden and not tried[-1].cramped() and tried[-1].width <= WIDTH:
            break
    return min(tried, key=Layout.fault)


# ---- SVG

def number(value):
    return ('%.1f' % value).rstrip('0').rstrip('.')


def words_of(**attributes):
    """Attributes of an element; those without a value are left out."""
    named = ((name.rstrip('_').replace('_', '-'), value) for name, value in attributes.items() if value not in (None, ''))
    return ''.join(' %s="%s"' % (name, escape(number(value) if isinstance(value, float) else str(value))) for name, value in named)


def element(name, inner='', **attributes):
    return '<%s%s>%s</%s>' % (name, words_of(**attributes), inner, name)


def text(x, y, words, **attributes):
    return element('text', escape(words), x=float(x), y=float(y), **attributes)


def rounded(points):
    """A path through these points, with round corners."""
    its = [point for place, point in enumerate(points) if not place or point != points[place - 1]]
    said = 'M%s %s' % tuple(map(number, its[0]))
    for before, at, after in zip(its, its[1:], its[2:]):
        near = [abs(at[0] - other[0]) + abs(at[1] - other[1]) for other in (before, after)]
        by = min(8, near[0] / 2, near[1] / 2)
        corner = [tuple(at[axis] + (other[axis] - at[axis]) * by / far for axis in (0, 1)) for other, far in zip((before, after), near)]
        said += 'L%s %sQ%s %s %s %s' % tuple(map(number, corner[0] + at + corner[1]))
    return said + 'L%s %s' % tuple(map(number, its[-1]))


def head(points):
    """The three corners of the head of an arrow along these points."""
    (x, y), before = points[-1], next(point for point in reversed(points) if point != points[-1])
    if abs(x - before[0]) >= abs(y - before[1]):
        back = -10 if x > before[0] else 10
        corners = (x, y), (x + back, y - 5), (x + back, y + 5)
    else:
        back = -10 if y > before[1] else 10
        corners = (x, y), (x - 5, y + back), (x + 5, y + back)
    return ' '.join('%s,%s' % tuple(map(number, corner)) for corner in corners)


def drawn_box(layout, name):
    box = layout.boxes[name]
    left, top, right, bottom = layout.box_at(name)
    frame = element('rect', x=left, y=float(top), width=right - left, height=float(bottom - top), rx=6, class_='frame')
    parts = [element('title', escape(box.label)), frame, text(left + PAD, top + 18, box.heading, class_='name')]
    if box.badge:
        parts.append(text(right - PAD, top + 18, box.badge, class_='badge', text_anchor='end'))
    for row in box.rows:
        y = layout.port(name, row.line) if row.line is not None else layout.top[name] + HEAD + (box.rows.index(row) + 0.5) * layout.row
        inner = element('rect', x=left + 4, y=y - min(layout.row, 22) / 2, width=right - left - 8, height=float(min(layout.row, 22)), rx=3)
        inner += text(left + PAD, y + 4.5, row.words, class_='operation')
        inner += text(right - PAD, y + 4.5, 'line %d' % row.line, class_='line', text_anchor='end') if row.line else ''
        inner += element('title', escape(row.note)) if row.note else ''
        parts.append(element('g', inner, class_='row' + ' end' * row.is_end + ' told' * row.told, data_key=row.key, data_wid=row.wid, data_line=row.line))
    looks = ' '.join(['box', box.look] + ['support'] * box.support)
    return element('g', ''.join(parts), class_=looks, role='group', tabindex=0, aria_label=box.label, data_box=name)


def looks_of(arrow, what):
    return ' '.join([what, arrow.look, arrow.kind.replace(' ', '-')] + ['support'] * arrow.support)


def drawn_arrow(route):
    arrow, way = route.arrow, rounded(route.points)
    parts = element('title', escape(arrow.said)) + element('path', d=way, class_='near') + element('path', d=way, class_='stroke')
    parts += element('polygon', points=head(route.points), class_='head')
    return element('g', parts, class_=looks_of(arrow, 'arrow'), role='img', tabindex=0, aria_label=arrow.said, data_edge=arrow.number,
                   data_first=arrow.first, data_second=arrow.second)


def drawn_pill(route):
    arrow, (left, top, right, bottom) = route.arrow, route.pill
    inner = element('title', escape(arrow.said))
    inner += element('rect', x=left, y=float(top), width=right - left, height=float(bottom - top), rx=10)
    ordinal = element('tspan', '%d' % arrow.ordinal, class_='ordinal') + '\u00a0\u00a0' if arrow.ordinal else ''
    inner += element('text', ordinal + escape(arrow.words), x=(left + right) / 2, y=(top + bottom) / 2 + 4, text_anchor='middle')
    inner = element('a', inner, href=arrow.link) if arrow.link else inner
    return element('g', inner, class_=looks_of(arrow, 'pill'), aria_hidden='true', data_edge=arrow.number)


def drawn(boxes, arrows, label, lane_words):
    """The picture, as an element svg: `lane_words` gives what stands above a lane."""
    layout = laid(boxes, arrows)
    spots = [spot for route in layout.routes for spot in route.points + [route.pill[:2], route.pill[2:]]]
    left, right = min([0] + [x - 6 for x, _ in spots]), max([layout.width] + [x + 6 for x, _ in spots])
    highest = min([y for _, y in spots] + list(layout.top.values())) - 14
    lowest = max([y for _, y in spots] + list(layout.bottom.values())) + 14
    top, parts = highest - 26, []
    for place, lane in enumerate(layout.lanes):
        support = all(box.support for name, box in layout.boxes.items() if layout.lane_of[name] == lane)
        x, wide = layout.left[place], layout.widths[place]
        band = element('rect', x=x - 8, y=float(top), width=wide + 16, height=float(lowest - top), rx=8)
        band += text(x + wide / 2, top + 18, lane_words(lane[0]), text_anchor='middle')
        parts.append(element('g', band, class_='lane support' if support else 'lane'))
    parts += [drawn_box(layout, name) for name in layout.boxes]
    backwards = layout.routes[::-1]
    parts += [drawn_arrow(route) for route in backwards] + [drawn_pill(route) for route in backwards]
    view = (left - 10, top - 4, right - left + 20, lowest - top + 8)
    inner = element('title', escape(label)) + ''.join(parts)
    return element('svg', inner, viewBox=' '.join(map(number, view)), width=int(view[2]), height=int(view[3]), role='group', aria_label=label,
                   style='--least:%dpx' % (view[2] * LEAST))
