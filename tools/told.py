#!/usr/bin/env python3
"""told.py LOG < SAID: what `explain` or `audit --explain` said of a log, from standard input, with the labels of LOG.labels behind the names of
transactions, as `3.1268 (transfer, thread 4)`; each once in a line. So it is of a graph too, in the texts of its boxes and arrows.

As a module it reads what they say by its grammar (docs/FORMATS.md, 'What `explain` says' and 'Snapshots and commits'). Nothing is judged here: a
reader of a text gets its parts, each with the number of its line in that text, counted from 1."""
import argparse, os, re, sys
from dataclasses import dataclass, field
from typing import List, Optional, Tuple

NODE, NUMBER, KEY = r'([1-9][0-9]*\.[1-9][0-9]*)', r'([1-9][0-9]*)', r'([A-Za-z0-9_.:/-]+)'
LINE = re.compile(r'\(line %s\)' % NUMBER)
# Of a log of which every cube is refuted: what `check` says, and what `audit` says of a part.
EVERY_CUBE, EVERY_ORDER = 'every cube is refuted', 'every order of its versions closes a cycle'
REFUTED = re.compile('not serializable: (?:(A[1-9]) .+|%s|%s)' % (EVERY_CUBE, EVERY_ORDER))
ROUND = re.compile(r'cycle((?: [0-9]+\.[0-9]+)+)')
EDGE = re.compile('%s before %s: (.+)' % (NODE, NODE))
VERSION = r'([0-9]+), which %s wrote \(line %s\)' % (NODE, NUMBER)
VERSIONS = '%s: %s, comes before %s' % (KEY, VERSION, VERSION)
STEP = re.compile(r'\[%s\] %s:' % (NUMBER, VERSIONS))
# Over what a version was written that is an update of another; and of one that was read, by whom. Whose version was read, where that is the
# one itself.
OVER = r' over (?:an update of )?(?:[0-9]+|the initial value)'
BEHIND = r'(?:, which [1-9][0-9]*\.[1-9][0-9]* wrote \(line [1-9][0-9]*\)%s)' % OVER
OF = r'(?: of [1-9][0-9]*\.[1-9][0-9]*|, the initial value)'
SINCE = re.compile(r'    %s, which comes after %s, reads [0-9]+ \(line %s\)%s?, so [0-9]+ is the later version:' % (NODE, NODE, NUMBER, BEHIND))
CYCLE = re.compile('cycle from %s:' % NODE)
TABLE = re.compile('the reads and writes that matter:')
ROW = re.compile(r'    %s(?:  [rw] [A-Za-z0-9_.:/-]+ [0-9]+ \(line [1-9][0-9]*\))*' % NODE)
FORCED = re.compile('these orders of versions are forced:')
ORDER = re.compile('suppose %s:' % VERSIONS)
KNOWN = re.compile('known as: (.+)')
# What stands above what a weaker level tells: that, and what the level asks for.
TOO, OF_TOO = re.compile('they break .+ too'), 2
SHORT = re.compile('in short: (.+)')
LEAVES = re.compile('proof: whichever of these versions came first, a cycle closes(?:, %s in all; the first 1000 of them)?:' % NUMBER)
CROSSED = re.compile('four transactions read these pairs of versions; in a serial order each key changes once from one version to the other, so it has at most three of them:')
PAIR = re.compile(r'    %s reads %s ([0-9]+) \(line %s\) and %s ([0-9]+) \(line %s\)' % (NODE, KEY, NUMBER, KEY, NUMBER))
# What is said of an edge by an order of versions: what its first transaction has of the key, and what the second one wrote.
KEPT = r'%s (?:reads|wrote) %s ([0-9]+) \(line %s\)(?:%s|%s|%s)?, which %%s before %s' % (NODE, KEY, NUMBER, BEHIND, OVER, OF, VERSION)
# By how many decisions the walk of a step is indented.
WALK = 2
# A transaction of a part, and its lines.
OF_PART = re.compile(r'%s \(lines %s to %s\)' % (NODE, NUMBER, NUMBER))
# Where a line of an anomaly names a transaction.
TELLS = re.compile('(?:^|, which |; )%s (?=reads |then reads |wrote |writes |overwrites )' % NODE)
# What is no name though it may look like one: a key behind what it stands behind; and a name.
NO_NAME = r"(?:\b(?:reads|writes|wrote|wrote to|write|[rw]|version of|update of)|'s) {key}|\band {key}(?= [0-9]+ \(line)|(?:\[[0-9]+\]|\bsuppose) {key}(?=: [0-9]+, which)"
NAMES = re.compile(r'%s|(?<![\w.:/-])%s(?![\w/-]|[.:]\w)' % (NO_NAME.format(key=KEY[1:-1]), NODE))
# Where a graph of --format dot begins, and the text of a box or of an arrow there. What has a meaning in such a text, and
# what besides in a record.
GRAPH, DOT_TEXT = re.compile('(?:strict )?digraph explanation {\n'), re.compile(r'(?<=\blabel=")(?:[^"\\]|\\.)*(?=")')
DOT_MEANT, RECORD_MEANT = '"\\', '{}|<>'
# The kinds of what is said of an edge, by its form; the first that fits.
KINDS = [('session', re.compile('session %s' % NUMBER)), ('first committer', re.compile(r'by \[([0-9]+)\]')),
         ('forced', re.compile(KEPT % r'by \[([0-9]+)\] comes')),
         ('decided', re.compile(KEPT % 'by supposition comes')),
         ('version order', re.compile('.+ reads %s [0-9]+ .+ the initial value, and .+ wrote .+' % KEY)),
         ('read', re.compile('.+ reads .+, which [1-9][0-9.]+ (?:wrote|writes itself only later) .+')),
         ('anti-dependency', re.compile('.+ reads .+, and .+ overwrites it with .+')),
         ('moments', re.compile('.+ ended at ([0-9]+) .+, .+ began at ([0-9]+) .+'))]
# At levels of snapshots: one point before another, two writers of a key, why one of them cannot commit first, and what is forced.
POINT = NODE + "'s (snapshot|commit)"
POINTS = re.compile('%s before %s: (.+)' % (POINT, POINT))
BOTH = r'both write %s \(lines %s and %s\)' % (KEY, NUMBER, NUMBER)
WRITERS = re.compile('%s and %s %s, so one of them commits before the other takes its snapshot' % (NODE, NODE, BOTH))
NOT_FIRST = re.compile('%s cannot commit first:' % NODE)
WOULD = re.compile(r"%s's snapshot comes after %s's commit, but %s reads %s [0-9]+ \(line %s\) of %s, which %s would have overwritten with "
                   r'[0-9]+ \(line %s\):' % (NODE, NODE, NODE, KEY, NUMBER, NODE, NODE, NUMBER))
FORCED_POINTS = re.compile('these orders of snapshots and commits are forced:')
POINT_STEP = re.compile(r"\[%s\] %s's commit before %s:(?: (.+))?" % (NUMBER, NODE, POINT))
STEP_OF_BOTH = re.compile('%s, and %s cannot commit first:' % (BOTH, NODE))
BY_SEARCH, NEITHER_SERIAL = 'no order of their snapshots and commits is left: a search shows it', 'why they have no serial order either:'
# The code of a log of which every cube is refuted: it has none of its own. Those of points, and of a part of which nothing is told that has a form.
TREE, CIRCLE, TWO_WRITERS, PART = 'tree', 'circle', 'two writers', 'part'
# What the headline of `audit` says of each code that its JSON has.
FAULTS = {'A1': 'A1 unknown read', 'A2': 'A2 aborted read', 'A3': 'A3 intermediate read', 'A4': 'A4 own write missed', 'A5': 'A5 future read',
          'A6': 'A6 split read', 'A7': 'A7 lost update', 'A8': 'A8 cycle of known edges', 'A9': 'A9 pruning ends in a cycle',
          None: EVERY_ORDER}


class Unread(Exception):
    """A line that has none of the forms."""


@dataclass
class Edge:
    """`first before second: said`; the parts of what is said are those of its kind's form."""
    line: int
    first: str
    second: str
    said: str
    kind: str
    parts: tuple
    ends: tuple = ()  # at levels of snapshots: which points these are, 'snapshot' or 'commit'

    @property
    def lines(self):
        """The lines of the log that are named."""
        return [int(number) for number in LINE.findall(self.said)]

    @property
    def step(self):
        """The number of the step that keeps it."""
        return int(self.parts[4 if self.kind == 'forced' else 0]) if self.kind in ('forced', 'first committer') else None

    @property
    def key(self):
        """The key of which the order of two versions keeps it."""
        return self.parts[1] if self.kind in ('forced', 'decided') else None


@dataclass
class Cycle:
    line: int
    edges: List[Edge] = field(default_factory=list)


@dataclass
class Step:
    """Of a key, the version of `first` comes before that of `second`: the other way `late`, to which the walk leads from `first`, would stand
    before `first`."""
    line: int
    number: int
    key: str
    first: str
    second: str
    late: str
    said: str
    walk: List[Edge] = field(default_factory=list)


@dataclass
class Side:
    """Why `node` cannot commit before the `end` of `other`, its snapshot or its commit: the walk leads from that to the node's commit. Where `reader` is named,
    it read a version of the node in one line, which the other would have overwritten in another; then the walk leads from the other's commit to
    the reader's snapshot. A step that needs no supposition has its walk alone, from `other` to `node`."""
    line: int
    node: str
    other: str
    walk: List[Edge] = field(default_factory=list)
    key: Optional[str] = None
    reader: Optional[str] = None
    lines: tuple = ()
    end: str = 'snapshot'


@dataclass
class PointStep:
    """The commit of `first` comes before the snapshot, or the commit, of `second`. Where `is_supposed`, since both write a key and `side` says why not the other
    way; else by the walk of `side`."""
    line: int
    number: int
    first: str
    second: str
    said: str
    side: Side
    is_supposed: bool

    @property
    def walk(self):
        return self.side.walk


@dataclass
class Order:
    """A decided order of a tree: of this key the version of `first` comes before that of `second`."""
    line: int
    key: str
    first: str
    second: str


@dataclass
class Pair:
    """A transaction that reads a version of one key and one of another, in these lines of the log."""
    line: int
    name: str
    lines: Tuple[int, int]


@dataclass
class Explanation:
    """The verdict, and what stands behind it. `code` is A1 to A9, TREE, or one of those below, and None where the log is not refuted; `behind` is the number of the
    first line of an anomaly behind that. `short` is a cycle, or a lost update, in a sentence. A tree is told by its leaves: each cycle with the orders that are
    decided above it; `count` says how many there are where not all are told. `pairs` are four reads that rule out every order, where the text
    has them before a cycle or a tree. `is_serial_apart` says that a part has an order without that of sessions. At a level of snapshots the code
    is CIRCLE or TWO_WRITERS, of which `sides` say why neither can commit first."""
    lines: List[str]
    code: Optional[str] = None
    behind: int = 2
    steps: List[Step] = field(default_factory=list)
    cycle: Optional[Cycle] = None
    short: Optional[str] = None
    known_as: Optional[str] = None
    pairs: List[Pair] = field(default_factory=list)
    leaves: List[Tuple[List[Order], Cycle]] = field(default_factory=list)
    count: Optional[int] = None
    is_serial_apart: bool = False
    sides: List[Side] = field(default_factory=list)

    @property
    def verdict(self):
        return self.lines[0] if self.lines else ''

    @property
    def names(self):
        """Each transaction that is told, in the order of the text; keys may look as names do, and are none."""
        cycles, found = [cycle for _, cycle in self.leaves] + [self.cycle] * (self.cycle is not None), []
        if not cycles:
            found += [name for line in self.lines[1:] for name in TELLS.findall(line)]
        found += [pair.name for pair in self.pairs]
        for step in self.steps:
            found += [step.first, step.second, getattr(step, 'late', step.second)]
        for its in self.steps + self.sides:
            found += [name for edge in its.walk for name in (edge.first, edge.second)]
        for cycle in cycles:
            found += [name for edge in cycle.edges for name in (edge.first, edge.second)]
        found += [name for orders, _ in self.leaves for order in orders for name in (order.first, order.second)]
        return list(dict.fromkeys(found))

    @property
    def keys(self):
        """The keys of which an order of versions is told."""
        return {step.key for step in self.steps} | {order.key for orders, _ in self.leaves for order in orders}


class Reader:
    def __init__(self, text):
        self.lines, self.at = text.split('\n'), 0
        if self.lines[-1] == '':
            self.lines.pop()

    def next(self, form, depth=0):
        """The number and the parts of the next line, which is read, if it has this form behind two blanks for each decision above."""
        line = self.lines[self.at] if self.at < len(self.lines) else ''
        found = form.fullmatch(line, 2 * depth) if line.startswith('  ' * depth) else None
        self.at += found is not None
        return found and (self.at, *found.groups())

    def edges(self, depth=0):
        found = []
        while True:
            edge = self.next(EDGE, depth)
            if edge is None:
                return found
            found.append(Edge(*edge, *kind_of(edge[3])))

    def points(self, depth=0):
        """Edges from points to points."""
        found = []
        while True:
            edge = self.next(POINTS, depth)
            if edge is None:
                return found
            line, first, end, second, other_end, said = edge
            found.append(Edge(line, first, second, said, *kind_of(said), (end, other_end)))

    def side(self, line, node, other):
        would = self.next(WOULD, WALK)
        reader = {'reader': would[1], 'key': would[4], 'lines': (int(would[5]), int(would[8]))} if would else {}
        return Side(line, node, other, self.points(WALK), **reader)

    def point_steps(self):
        found = []
        while True:
            step = self.next(POINT_STEP)
            if step is None:
                return found
            line, number, first, second, end, said = step
            both = STEP_OF_BOTH.fullmatch(said or '')
            shown = [Edge(line, first, second, said, *kind_of(said), ('commit', end))] if said and not both else []
            side = Side(line, second, first, shown) if shown else self.side(line, second, first)
            side.key, side.end = both[1] if both else side.key, end
            found.append(PointStep(line, int(number), first, second, self.lines[line - 1], side, both is not None))

    def cycle(self, depth=0):
        start = self.next(CYCLE, depth)
        return start and Cycle(start[0], self.edges(depth))

    def known_as(self):
        known = self.next(KNOWN)
        return known and known[1]

    def short(self):
        short = self.next(SHORT)
        return short and short[1]

    def steps(self):
        found = []
        while True:
            step = self.next(STEP)
            if step is None:
                return found
            line, number, key, _, first, _, _, second, _ = step
            self.next(SINCE)
            said = ' '.join(part.strip(' ') for part in self.lines[line - 1:self.at])
            walk = self.edges(WALK)
            if not walk:
                self.at = line - 1
                return found
            found.append(Step(line, int(number), key, first, second, walk[-1].second, said, walk))

    def pairs(self):
        """The four reads before a cycle or a tree, behind the line that says what they are."""
        pairs = [self.next(PAIR) for _ in range(4)] if self.next(CROSSED) else []
        return [Pair(line, name, (int(first), int(second))) for line, name, _, _, first, _, _, second in filter(None, pairs)]

    def table(self):
        """Passes what the transactions of a tree did: the edges name it too."""
        if self.next(TABLE):
            while self.next(ROW):
                pass

    def leaves(self):
        """The cycles of a tree, each with the orders that are decided above it."""
        found, decided = [], []
        while True:
            line = self.lines[self.at] if self.at < len(self.lines) else ''
            depth = (len(line) - len(line.lstrip(' '))) // 2
            cycle, order = self.cycle(depth), self.next(ORDER, depth)
            if cycle:
                found.append((decided[:depth], cycle))
            if order:
                line, key, _, first, _, _, second, _ = order
                decided = decided[:depth] + [Order(line, key, first, second)]
            if not cycle and not order:
                return found


def code_of(verdict):
    """The code of a line that says 'not serializable', and None of any other."""
    found = REFUTED.fullmatch(verdict)
    return found and (found[1] or TREE)


def kind_of(said):
    for kind, form in KINDS:
        found = form.fullmatch(said)
        if found:
            return kind, found.groups()
    return 'another', ()


def read(text):
    """The parts of this text; Unread where a line has none of the forms."""
    reader = Reader(text)
    it = Explanation(reader.lines)
    it.code = code_of(it.verdict)
    if it.code is None:
        return it
    if it.lines[1:] and TOO.fullmatch(it.lines[1].rstrip(':')):
        return of_weaker(it.verdict, it.lines[1:])
    reader.at = it.behind - 1
    if it.code == 'A8':
        cycle, it.short = reader.next(ROUND), reader.short()  # audit leaves the first out
        it.cycle = Cycle(cycle[0] if cycle else 0, reader.edges())
        it.known_as = reader.known_as()
    elif it.code in ('A9', TREE):
        it.pairs = reader.pairs()
        it.known_as = reader.known_as() if it.pairs else None
        reader.table()
        if it.code == 'A9':
            it.short, it.cycle, it.known_as = reader.short(), reader.cycle(), reader.known_as()
        else:
            several = reader.next(LEAVES)
            it.count, it.leaves = several and several[1] and int(several[1]), reader.leaves()
        it.steps = reader.steps() if reader.next(FORCED) else []
    else:
        it.short = reader.short() if it.code == 'A7' else None
        it.behind = reader.at + 1
        if KNOWN.fullmatch(it.lines[-1]):  # at levels of snapshots
            it.known_as = KNOWN.fullmatch(it.lines.pop())[1]
        reader.at = len(reader.lines)
    if reader.at < len(reader.lines):
        raise Unread('line %d of what explain says has none of the forms: %s' % (reader.at + 1, reader.lines[reader.at]))
    if it.code in ('A8', 'A9') and not (it.cycle and it.cycle.edges) or it.code == TREE and not it.leaves:
        raise Unread('what explain says breaks off: %s' % it.verdict)
    return it


def read_points(lines):
    """The parts of what is said of a part at a level of snapshots, behind its verdict; None where these are no lines of points."""
    reader = Reader('\n'.join(lines))
    it = Explanation(reader.lines, behind=2)
    reader.at = 1
    it.short = reader.short()
    both = reader.next(WRITERS)
    for _ in range(2 * (both is not None)):
        side = reader.next(NOT_FIRST)
        if side is None:
            return None
        line, node = side
        it.sides.append(reader.side(line, node, both[1] if node == both[2] else both[2]))
        it.sides[-1].key = both[3]
    if not both:
        it.cycle = Cycle(reader.at + 1, reader.points())
    it.code = TWO_WRITERS if both else CIRCLE
    it.known_as = reader.known_as()
    it.steps = reader.point_steps() if reader.next(FORCED_POINTS) else []
    told = all(side.walk for side in it.sides + [step.side for step in it.steps]) and (it.sides or it.cycle.edges)
    return it if told and reader.at == len(reader.lines) else None


def of_weaker(verdict, lines):
    """What a weaker level tells, behind the lines that say so."""
    told = [verdict, *lines[OF_TOO:]]
    it = read_points(told) or of_lines(verdict, told[1:])
    it.lines[0] += '; ' + lines[0].rstrip(':')
    return it


def of_part(report):
    """What the JSON of `audit --explain` tells of the part that it tells first. With a level, the verdict is that of the level, and lines
    that have no form are told as they are: the code is PART then."""
    lines, level = report['explanation'], report.get('level')
    verdict = 'not serializable: ' + FAULTS[report['code']]
    if level is None:
        it = read('\n'.join([verdict, *lines]))
        it.known_as = it.known_as or (report['known_as'] if lines and TOO.fullmatch(lines[0].rstrip(':')) else None)
    else:
        found = read_level(verdict, lines)
        it = found or of_lines(verdict, lines)
        it.known_as = it.known_as or report['known_as']
        it.lines[0] = '%s: %s' % (level, report['verdict']) + (': ' + it.known_as if it.known_as else '')
    it.is_serial_apart = report['without_sessions'] is not None
    return it


def of_lines(verdict, lines):
    """Lines of another form, as those of levels below snapshots: what they say in short, and the others as they are."""
    short = SHORT.fullmatch(lines[0]) if lines else None
    return Explanation([verdict, *lines], PART, behind=3 if short else 2, short=short and short[1])


def read_level(verdict, lines):
    """What is told with a level: of points, or as `read` has it; None where it has another form."""
    points = read_points([verdict, *lines])
    if points:
        return points
    if lines[:2] == [BY_SEARCH, NEITHER_SERIAL]:
        lines = lines[2:]
    for title in (verdict, *('not serializable: ' + FAULTS[code] for code in ('A8', 'A9', None))):
        try:
            return read('\n'.join([title, *lines]))
        except Unread:
            pass
    return None


def labelled(line, labels):
    """A told line, in which each transaction that has a label has it behind its name, once."""
    left = dict(labels)

    def of_name(found):
        label = left.pop(found[1], None)
        return found[0] if label is None else '%s (%s)' % (found[0], label)
    return NAMES.sub(of_name, line) if labels else line


def labelled_graph(line, labels):
    """The same for a line of a graph: in the text of a box or of an arrow alone, whose lines end in backslash and n."""
    meant = DOT_MEANT + RECORD_MEANT * ('shape=record' in line)
    quoted = {name: re.sub('[%s]' % re.escape(meant), r'\\\g<0>', label) for name, label in labels.items()}
    return DOT_TEXT.sub(lambda text: r'\n'.join(labelled(it, quoted) for it in text[0].split(r'\n')), line)


def of_another(path, line):
    """The first transaction of a part that does not stand in a log where the part says; None where all do."""
    import scripts
    told = {name: (int(first), int(last)) for name, first, last in OF_PART.findall(line)}
    with open(path, encoding='utf-8', errors='replace') as lines:
        there = {it.name: (it.lines[0][0], it.lines[-1][0]) for it in scripts.transactions_of(lines, set(told))}
    return next((name for name, lines in told.items() if there.get(name) != lines), None)


def main():
    import scripts
    words = argparse.ArgumentParser(description='Puts the labels of a log behind the names of its transactions in what explain said. Unproved.')
    words.add_argument('log', help='the log; its labels stand in LOG.labels')
    log = words.parse_args().log
    labels, is_graph = scripts.labels_of(log, is_needed=True), False
    for line in sys.stdin:
        if line.startswith('{"'):
            raise scripts.Stop('standard input is an object of --format json, and names in it stay as they are: give the text')
        name = of_another(log, line) if re.match('(// )?transactions ', line) and os.path.exists(log) else None
        if name:
            raise scripts.Stop('standard input tells another log: %s does not stand in these lines of %s' % (name, log))
        is_graph = is_graph or GRAPH.fullmatch(line) is not None
        sys.stdout.write((labelled_graph if is_graph else labelled)(line, labels))


if __name__ == '__main__':
    import scripts
    scripts.run(main)
