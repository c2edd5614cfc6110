#!/usr/bin/env python3
"""picture.py LOG [-o FILE.html] [--level LEVEL] [--unit UNIT] [--program PATH | --explained FILE]: a page with a picture of why a log is not
serializable, or does not keep a level.

LOG may have any length. The program's `audit --explain` tells a part of few transactions that has no order, in the names and lines of the
log, and this script writes one page of it that needs nothing else; with --explained it is what FILE has of `explain`. With --level it is
what `audit --level` tells; at levels of snapshots a box is a bar from its snapshot to its commit. The sessions are lanes, time runs downwards, each transaction that takes part is a box with its operations, and each edge of the cycle is an arrow with its
reason. What a step of pruning or a branch of the search rests on is folded. Where the mouse is, the key and the identity are marked.

Nothing of this is proved: the page shows what the program says, and the log's lines."""
import argparse, os, re
from html import escape

import lanes, scripts, told
from lanes import Arrow, Box, Row, element

# A cycle of more edges is drawn in parts, and so many pictures of steps and of circles are drawn; the rest is told in words.
MOST_EDGES, PART, MOST_PICTURES = 16, 12, 40
# Up to so many boxes, the picture of a cycle has what its steps rest on, and neighbours in the sessions.
MOST_SUPPORT, MOST_NEIGHBOURED = 9, 8
# A box shows so many operations of those that are not told, and a neighbour so many.
MOST_ROWS, MOST_NEAR = 10, 3
# So many keys are listed on top; so tall may a picture be that stands before its lines; and a window that is wider needs no switch to fit it.
MOST_KEYS, TALL, NARROW = 24, 800, 750
MEANINGS = {
    'A1': 'A read names a write that the log does not have: the value came from nowhere, or its write was lost.',
    'A2': 'A read saw a write of a transaction that was aborted: the store showed what it took back.',
    'A3': 'A read saw a version that its own transaction wrote over: the store showed a transaction half done.',
    'A4': 'A transaction did not see what it had written itself.',
    'A5': 'A transaction read what it wrote itself only later.',
    'A6': 'A transaction read two versions of one key: it saw the store in the middle of another transaction.',
    'A7': 'Two transactions read the same version of a key, and both wrote over it: whichever came second had not seen the first. '
          'So each has to stand before the other.',
    'A8': 'An arrow leads from a transaction to one that has to stand behind it in each serial order. These arrows run in a circle, so there '
          'is no such order.',
    'A9': 'An arrow leads from a transaction to one that has to stand behind it in each serial order. These arrows run in a circle, so there '
          'is no such order. Why the forced ones have to hold, the steps below say.',
    told.TREE: 'The log does not say which of some versions came first. Whichever order of them is supposed, a circle closes.',
    told.CIRCLE: 'Each box is a bar from the snapshot of a transaction down to its commit. An arrow leads from a point to one that has to come later. '
                 'These arrows, and the bars from their snapshots to their commits, run in a circle, so there is no order of snapshots and commits.',
    told.TWO_WRITERS: 'Each box is a bar from the snapshot of a transaction down to its commit. Of two transactions that write one key, one commits '
                      'before the other takes its snapshot. Here neither can commit first: a circle closes either way.',
    told.PART: 'No order of this level explains these transactions.',
}
KINDS = {
    'session': 'both are of one session, in this order',
    'read': 'the second one read what the first one wrote',
    'anti-dependency': 'the first one read a version that the second one wrote over, and so had not seen that write',
    'version order': "the first one saw the key's initial value, or an update of it; the second one wrote the key and had not read it",
    'moments': 'the first one was committed before the second one began',
    'forced': 'a step of pruning keeps it: the other way is impossible',
    'first committer': 'both write one key, and a step says which of them commits first',
    'decided': 'it holds in this branch: an order of two versions is supposed',
    'otherwise': 'what would hold the other way, and cannot',
}
STEP = ('Suppose that of %s the version of %s came before that of %s. Then %s would have to stand before %s '
        '(dashed). But %s stands before %s, by the bold arrows. So it is the other way round, and this step keeps that.')
FIRST_COMMITTER = ('Both %s and %s write %s. Suppose that %s committed before %s %s (dashed). A circle closes then, by the bold arrows. '
                   'So it is the other way round, and this step keeps that.')
# What a transaction did at each of its points.
DONE = {'snapshot': 'took its snapshot', 'commit': 'committed'}
READING = ('Each column is a session, and time runs downwards, %s. <code>r KEY ID</code> read the write with this identity, <code>w KEY ID</code> '
           'wrote it, as in the log. What is told is bold; pale boxes are neighbours in the session. Point at an operation to see its key '
           '(underlined) and its identity (filled) wherever they stand; click to keep that.')
BY_MOMENTS = 'by the moments that the log states, and else by the place in the session'
# So many letters of a label stand in a box.
MOST_LABEL = 40
# How many nanoseconds a unit of moments has.
UNITS = {'ns': 1, 'us': 10 ** 3, 'ms': 10 ** 6, 's': 10 ** 9}
BY_PLACE = 'by the place in the session; a reader stands below what it read'


def short(key, most=22):
    """A key, without its middle where it is long."""
    return key if len(key) <= most else key[:most // 2] + '…' + key[-(most - most // 2 - 1):]


class History:
    """Transactions of a log, with what pictures ask of them. `unit` is that of the moments, where it is known. `has_points` says that boxes are
    bars from snapshots to commits; `labels` are those of the transactions that have one."""

    def __init__(self, transactions, unit=None, has_points=False, labels=()):
        self.all, self.unit, self.has_points, self.labels = transactions, unit, has_points, dict(labels)
        self.named = {it.name: it for it in self.all}
        self.first_moment = min((moment for it in self.all for moment in it.moments() if moment is not None), default=None)
        self.at, self.wrote, self.owner = {}, {}, {}
        for it in self.all:
            for number, _ in it.lines:
                self.owner[number] = it
            for number, kind, key, wid in it.operations():
                self.at[number] = (kind, key, wid)
                if kind == 'w':
                    self.wrote[key, wid] = (it, number)

    def first(self, name, kind, key):
        """The number and the identity of the first such operation of a transaction."""
        return next(((number, wid) for number, _, its, wid in self.named[name].operations(kind) if its == key), (None, None))

    def point(self, name, end):
        """The line of a transaction's snapshot or commit."""
        return self.named[name].lines[0 if end == 'snapshot' else -1][0]

    def lines_of(self, name, lines):
        """Those of these lines that are this transaction's."""
        return [line for line in lines if self.owner.get(line) is self.named[name]]

    def time(self, moments):
        """So many units of the moments in words, as `1.5 ms`."""
        nanoseconds = moments * UNITS[self.unit]
        name = max((name for name in UNITS if UNITS[name] <= nanoseconds), key=UNITS.get, default=self.unit)
        return '%g %s' % (nanoseconds / UNITS[name], name.replace('u', 'µ'))


class Scene:
    """What one picture shows: transactions that are told, and arrows between them."""

    def __init__(self, history, title):
        self.history, self.title = history, title
        self.arrows, self.supports, self.lines, self.keys, self.extra = [], {}, set(), set(), []

    def tell(self, name, *lines, support=False):
        """Shows this transaction, with these lines marked."""
        self.supports[name] = support and self.supports.get(name, True)
        self.lines |= {line for line in lines if line is not None}
        self.keys |= {self.history.at[line][1] for line in lines if line in self.history.at}

    def add(self, arrow):
        for name, line in ((arrow.first, arrow.first_line), (arrow.second, arrow.second_line)):
            if name in self.history.named:
                self.tell(name, line, support=arrow.support)
        self.arrows.append(arrow)

    def add_edges(self, edges, look='bold', support=False):
        """The arrows of edges, and for those that rest on an order of versions what their first transaction read."""
        for ordinal, edge in enumerate(edges, 1):
            arrow = self.arrow_of(edge)
            arrow.look, arrow.support, arrow.ordinal = look, support, ordinal if look == 'bold' and len(edges) > 1 else None
            self.add(arrow)
            for name in (edge.first, edge.second):
                self.tell(name, *self.history.lines_of(name, edge.lines), support=support)
        for edge in edges if not self.history.has_points else ():
            key = edge.parts[0] if edge.kind == 'version order' else edge.key
            if key and look == 'bold':
                self.add_ground(edge.first, key)

    def arrow_of(self, edge):
        """An edge as an arrow between the operations that are told of it."""
        history, said = self.history, '%s before %s: %s' % (edge.first, edge.second, edge.said)
        ends = [(history.lines_of(name, edge.lines) or [None])[-1] for name in (edge.first, edge.second)]
        seen, new = (history.at.get(line, (None, '', '')) for line in ends)
        words = words_of(edge, seen[1:], new[1:], history)
        if edge.ends:
            said = "%s's %s before %s's %s: %s" % (edge.first, edge.ends[0], edge.second, edge.ends[1], edge.said)
            ends = [history.point(*it) for it in zip((edge.first, edge.second), edge.ends)]
        link = '#step-%d' % edge.step if edge.step else ''
        return Arrow(edge.first, edge.second, edge.kind, words, said, *ends, number=edge.line, link=link)

    def ends_by_key(self, first, second, key):
        """The lines of an edge from a reader of a version, or from its writer, to the first writer of another."""
        seen = self.history.first(first, 'r', key)[0] or self.history.first(first, 'w', key)[0]
        return [seen, self.history.first(second, 'w', key)[0]]

    def add_ground(self, reader, key):
        """A thin arrow from the writer of what a transaction read of a key."""
        line, wid = self.history.first(reader, 'r', key)
        writer, written = self.history.wrote.get((key, wid), (None, None))
        drawn = [(arrow.first, arrow.second, arrow.second_line) for arrow in self.arrows]
        if writer and writer.name != reader and (writer.name, reader, line) not in drawn:
            said = '%s reads %s %s (line %d), which %s wrote (line %d)' % (reader, key, wid, line, writer.name, written)
            words = 'read: %s %s' % (short(key), wid)
            self.add(Arrow(writer.name, reader, 'read', words, said, written, line, look='thin', support=True))

    # ---- boxes

    def row(self, number, words):
        kind, key, wid = self.history.at.get(number, (None, None, None))
        note = '%s %s, line %d' % ({'r': 'read %s of', 'w': 'wrote %s to'}[kind] % wid, key, number) if kind else '%s, line %d' % (words, number)
        if not kind and self.history.unit and ' ' in words:
            word, moment = words.split(' ')
            words = '%s at %s' % (word, self.history.time(int(moment) - self.history.first_moment))
        if not kind and self.history.has_points:
            words = re.sub('^begin', 'snapshot, began', words).replace('snapshot, began', 'snapshot', words == 'begin')
            words = 'commit, outcome unknown' if words == 'unknown' else words
        return Row('%s %s %s' % (kind, short(key), wid) if kind else words, number, key, wid, number in self.lines, note,
                   self.history.has_points and not kind and words.startswith(('snapshot', 'commit')))

    def rows(self, it, near):
        """The lines of a transaction that its box shows, with how many are left out between them."""
        shown = [(number, words) for number, words in it.lines if words not in ('begin', 'commit') or self.history.has_points]
        most = MOST_NEAR if near else MOST_ROWS
        kept = {number for number, words in shown if len(shown) <= most or number in self.lines or not near and number not in self.history.at}
        of_keys = [number for number, _ in shown if number not in kept and self.history.at.get(number, (0, None))[1] in self.keys]
        kept |= set(of_keys[:max(most - len(kept), 0)])
        found, left_out = [], []
        for number, words in shown + [(None, None)]:
            if number is not None and number not in kept:
                left_out.append((number, words))
                continue
            if left_out:
                note = 'lines %d to %d' % (left_out[0][0], left_out[-1][0]) if len(left_out) > 1 else 'line %d' % left_out[0][0]
                note += ''.join('\n' + words for _, words in left_out[:20]) + ('\n…' if len(left_out) > 20 else '')
                found.append(Row('… %d more' % len(left_out), note=note))
                left_out = []
            if number is not None:
                found.append(self.row(number, words))
        return found

    def box(self, name, look):
        it = self.history.named[name]
        rows, last = self.rows(it, look == 'near'), it.lines[-1][1].split(' ')
        outcome = {'commit': 'committed', 'abort': 'aborted', 'unknown': 'outcome unknown'}[last[0]]
        label = 'transaction %s, %s: %s' % (name, outcome, ', '.join(row.note.split('\n')[0] for row in rows) or 'no operations')
        badge = '' if last[0] == 'commit' else outcome
        known = self.history.labels.get(name)
        heading, label = ('%s (%s)' % (name, short(known, MOST_LABEL)), '%s; %s' % (label, known)) if known else (name, label)
        return Box(name, it.session, it.place, heading, label, rows, badge, look, self.supports.get(name, False), *it.moments())

    def neighbours(self):
        """The transactions just before and behind those that bold arrows are about, in their sessions."""
        its = [self.history.named[name] for name, support in self.supports.items() if not support]
        near = {'%s.%d' % (it.session, it.place + by) for it in its for by in (-1, 1)}
        return [it.name for it in self.history.all if it.name in near and it.name not in self.supports]

    def svg(self):
        boxes = [self.box(name, 'told') for name in self.supports] + self.extra
        if len(boxes) <= MOST_NEIGHBOURED:
            boxes += [self.box(name, 'near') for name in self.neighbours()]
        words = {'initial': 'before all', 'nowhere': 'nowhere'}
        return lanes.drawn(boxes, self.arrows, self.title, lambda lane: words.get(lane) or 'session ' + lane)

    @property
    def kinds(self):
        return {'otherwise' if arrow.look == 'otherwise' else arrow.kind for arrow in self.arrows}


def words_of(edge, seen, new, history):
    """What stands on an arrow, with the key and the identity at each of its ends."""
    if edge.kind == 'session':
        return edge.said
    if edge.kind == 'read':
        return 'read: %s %s' % (short(new[0]), new[1])
    if edge.kind == 'first committer':
        return 'step [%d]: commits first' % edge.step
    if edge.kind == 'anti-dependency':
        return words_of_overwriting(*seen, new[1])
    if edge.kind == 'version order':
        return 'version order: %s' % short(edge.parts[0])
    if edge.kind == 'moments':
        said, span = 'moments: %s < %s' % edge.parts, int(edge.parts[1]) - int(edge.parts[0])
        return 'ended %s before' % history.time(span) if history.unit else said if len(said) <= 26 else 'ended %d before' % span
    if edge.kind == 'forced':
        return 'step [%d]: %s %s before %s' % (edge.step, short(edge.key, 14), seen[1], new[1])
    if edge.kind == 'decided':
        return 'supposed: %s %s before %s' % (short(edge.key, 14), seen[1], new[1])
    return short(edge.said, 30)


def words_of_overwriting(key, seen, new):
    return 'overwritten: %s %s by %s' % (short(key, 16), seen, new)


# ---- scenes

def writer_of(scene, key, wid):
    """The name and the line of what wrote this: a transaction, the initial value, or nobody, which then have a box of their own."""
    if (key, wid) in scene.history.wrote:
        it, line = scene.history.wrote[key, wid]
        return it.name, line
    name, heading, words = ('nowhere', 'no transaction', 'no line  w %s %s' % (short(key), wid))
    if wid == '0':
        name, heading, words = ('initial', 'initial value', '%s 0' % short(key))
    if name not in [box.name for box in scene.extra]:
        look = 'source' if wid == '0' else 'nowhere'
        scene.extra.append(Box(name, name, 0, heading, '%s: %s %s' % (heading, key, wid), [Row(words, None, key, wid)], look=look))
    return name, None


def scene_of_read(history, explanation):
    """A1 to A6: the read, the write that it names, and what the log tells of both."""
    scene = Scene(history, 'The read, and what it saw')
    named = [int(number) for said in explanation.lines for number in told.LINE.findall(said)]
    at = len(explanation.lines)
    line = int(told.LINE.search(explanation.lines[-1])[1])
    name, (_, key, wid) = history.owner[line].name, history.at[line]
    scene.tell(name, line)
    for number in named:
        scene.tell(history.owner[number].name, number)
    words = {'A1': 'read, and never written', 'A2': 'read, though aborted', 'A3': 'read, though overwritten', 'A4': 'read, and not its own write',
             'A5': 'read before it is written', 'A6': 'second read'}[explanation.code]
    writer, written = writer_of(scene, key, wid)
    scene.add(Arrow(writer, name, 'read', words, explanation.lines[-1], written, line, number=at))
    if explanation.code == 'A6':
        earlier, _, _, seen = next(it for it in history.named[name].operations('r') if it[2] == key and it[0] < line and it[3] != wid)
        writer, written = writer_of(scene, key, seen)
        scene.add(Arrow(writer, name, 'read', 'first read', explanation.lines[-2], written, earlier, look='thin', number=at - 1))
    return scene


def scene_of_update(history, explanation):
    """A7: both transactions, what they read, and that each overwrites it."""
    scene = Scene(history, 'Both read one version, and both wrote over it')
    lines = [int(told.LINE.search(said)[1]) for said in explanation.lines[explanation.behind - 1:]]
    both, key = [history.owner[line].name for line in lines[::2]], history.at[lines[0]][1]
    for place, name in enumerate(both):
        other, line, over = both[1 - place], lines[2 * place], lines[3 - 2 * place]
        wid, new = history.at[line][2], history.at[over][2]
        writer, written = writer_of(scene, key, wid)
        read_at, over_at = explanation.behind + 2 * place, explanation.behind + 2 * (1 - place) + 1
        words = 'read: %s %s' % (short(key), wid)
        scene.add(Arrow(writer, name, 'read', words, explanation.lines[read_at - 1], written, line, look='thin', number=read_at))
        said = '%s reads %s %s (line %d), and %s overwrites it with %s (line %d)' % (name, key, wid, line, other, new, over)
        scene.add(Arrow(name, other, 'anti-dependency', words_of_overwriting(key, wid, new), said, line, over, number=over_at))
    return scene


def scenes_of_cycle(history, edges, title, support=()):
    """The picture of a cycle, with the walks of these steps where it stays small, or parts of a long one."""
    if len(edges) > MOST_EDGES:
        return [part_of_cycle(history, edges, title, at) for at in range(0, len(edges), PART)]
    scene, with_support = Scene(history, title), Scene(history, title)
    for it in (scene, with_support):
        it.add_edges(edges)
    drawn = {(edge.first, edge.second) for edge in edges}
    for step in support:
        with_support.add_edges([edge for edge in step.walk if (edge.first, edge.second) not in drawn], 'thin', True)
        drawn |= {(edge.first, edge.second) for edge in step.walk}
    return [with_support if len(with_support.supports) <= MOST_SUPPORT else scene]


def part_of_cycle(history, edges, title, at):
    """The picture of some edges, of which the first one has this place."""
    part = edges[at:at + PART]
    scene = Scene(history, '%s, edges %d to %d of %d' % (title, at + 1, at + len(part), len(edges)))
    scene.add_edges(part)
    for ordinal, arrow in enumerate([arrow for arrow in scene.arrows if arrow.look == 'bold'], at + 1):
        arrow.ordinal = ordinal
    return scene


def scenes_of_step(history, step):
    """What a step rests on: the walk, and the edge that the other way would have."""
    found = scenes_of_cycle(history, step.walk, 'Step %d' % step.number)
    scene, said = found[-1], 'otherwise %s would stand before %s: %s' % (step.late, step.first, step.said)
    ends = scene.ends_by_key(step.late, step.first, step.key)
    scene.add(Arrow(step.late, step.first, 'forced', 'otherwise: %s' % short(step.key), said, *ends, look='otherwise', number=step.line))
    scene.tell(step.second, history.first(step.second, 'w', step.key)[0])
    scene.add_ground(step.late, step.key)
    return found


def scene_of_side(history, side, title, is_supposed=True):
    """Why of two writers one cannot commit first: that it does, dashed, and what closes the circle. Of a step that rests on no supposition the
    walk alone."""
    scene, node, other = Scene(history, title), side.node, side.other
    scene.add_edges(side.walk)
    if is_supposed:
        said = "supposed: %s's commit before %s's %s: both write %s" % (node, other, side.end, side.key)
        ends = [history.point(node, 'commit'), history.point(other, side.end)]
        scene.add(Arrow(node, other, 'decided', 'supposed: commits first', said, *ends, look='otherwise', number=side.line))
        for name in (node, other):
            scene.tell(name, history.first(name, 'w', side.key)[0])
    if side.reader:
        seen, new = (history.at[line] for line in side.lines)
        said = "%s's snapshot before %s's commit: %s would have overwritten what %s reads" % (side.reader, other, other, side.reader)
        ends = [history.point(side.reader, 'snapshot'), history.point(other, 'commit')]
        scene.add(Arrow(side.reader, other, 'anti-dependency', words_of_overwriting(*seen[1:], new[2]), said, *ends, look='otherwise', number=side.line + 1))
        scene.tell(side.reader, side.lines[0])
        scene.tell(other, side.lines[1])
    return scene


def scene_of_part(history, names, lines):
    """Transactions of which these lines are told in no form that has edges: what each read of another one."""
    scene, named = Scene(history, 'These transactions'), {int(number) for said in lines for number in told.LINE.findall(said)}
    for name in names:
        scene.tell(name, *history.lines_of(name, named))
    for it in [history.named[name] for name in names]:
        for number, _, key, wid in it.operations('r'):
            writer, written = history.wrote.get((key, wid), (None, None))
            if writer and writer is not it and writer.name in names:
                said = '%s reads %s %s (line %d), which %s wrote (line %d)' % (it.name, key, wid, number, writer.name, written)
                scene.add(Arrow(writer.name, it.name, 'read', 'read: %s %s' % (short(key), wid), said, written, number, look='thin'))
    return scene


# ---- the page

class Page:
    """The page of an explanation; `count` says how many transactions the log has."""

    def __init__(self, history, explanation, name, count):
        self.history, self.explanation, self.name, self.count = history, explanation, name, count
        strange = [name for name in explanation.names if name not in history.named and name != '0.0']
        if strange:
            raise scripts.Stop('the explanation is of another log: it names %s, and the log has no such transaction' % strange[0])
        self.steps = {step.number: step for step in explanation.steps}
        self.pictures, self.kinds, self.keys = 0, set(), {}

    def picture(self, scene):
        """A figure, with a switch for what supports the bold arrows, where there is such."""
        self.pictures += 1
        self.kinds |= scene.kinds
        for key in sorted(scene.keys):
            self.keys.setdefault(key)
        svg, switches = scene.svg(), ''
        if any(arrow.support for arrow in scene.arrows):
            switches += self.switch('support', 'what the bold arrows rest on', ' checked')
        least = int(re.search(' width="([0-9]+)"', svg)[1]) * lanes.LEAST
        if least > NARROW:
            switches += self.switch('fit' if least > lanes.WIDTH else 'fit narrow', 'fit the width of the page')
        return '<figure>%s<div class="picture">%s</div></figure>' % (switches, svg)

    def switch(self, name, words, on=''):
        ident = '%s-%d' % (name.split(' ')[0], self.pictures)
        return '<input type="checkbox"%s class="%s" id="%s"><label for="%s">%s</label>' % (on, name, ident, ident, words)

    def pictures_of(self, scenes):
        """The first picture, and the others folded."""
        first, *rest = scenes
        heading = element('p', escape(first.title), class_='part') if rest else ''
        more = [element('details', element('summary', escape(scene.title)) + self.picture(scene)) for scene in rest]
        return heading + self.picture(first) + ''.join(more)

    def with_lines(self, drawing, lines):
        """A picture and the lines that it shows, which stand first where it is taller than a screen."""
        heights = [int(height) for height in re.findall('<svg [^>]* height="([0-9]+)"', drawing)]
        return lines + drawing if max(heights, default=0) > TALL else drawing + lines

    def line(self, number, ordinal=None, tag='li'):
        """A told line, in which each line of the log is marked, and each step is a link."""
        said = self.explanation.lines[number - 1].strip(' ')

        def of_log(found):
            kind, key, wid = self.history.at.get(int(found[1]), (None, None, None))
            return element('span', found[0], class_='at', data_line=found[1], data_key=key, data_wid=wid)
        inner = told.LINE.sub(of_log, escape(told.labelled(said, self.history.labels)))
        inner = re.sub(r'(, which by )\[([0-9]+)\]', r'\1<a href="#step-\2">[\2]</a>', inner)
        number_of = '<b class="ordinal">%d</b> ' % ordinal if ordinal else ''
        return element(tag, number_of + inner, class_='told-line', data_edge=number)

    def edges(self, edges):
        its = [self.line(edge.line, place if len(edges) > 1 else None) for place, edge in enumerate(edges, 1)]
        return '<ul class="lines">%s</ul>' % ''.join(its)

    def step(self, step, draw):
        drawing, bold = '', lambda *its: tuple(element('b', escape(it)) for it in its)
        if isinstance(step, told.PointStep):
            one, other = step.second, step.first
            words = escape(step.said)
            if step.is_supposed:
                words = FIRST_COMMITTER % (*bold(one, other, step.side.key, one, other), DONE[step.side.end])
            drawing = self.picture(scene_of_side(self.history, step.side, 'Step %d' % step.number, step.is_supposed)) if draw else drawing
        else:
            words = STEP % bold(step.key, step.second, step.first, step.late, step.first, step.first, step.late)
            drawing = self.pictures_of(scenes_of_step(self.history, step)) if draw else drawing
        inner = element('div', element('p', words) + self.with_lines(drawing, self.edges(step.walk)), id='step-%d' % step.number)
        return element('details', element('summary', escape(step.said.rstrip(':')), data_edge=step.line) + inner, class_='step')

    def steps_section(self):
        if not self.steps:
            return ''
        near, count = self.nearest_steps()[:MOST_PICTURES], len(self.steps)
        heading = 'The step that it rests on' if count == 1 else 'The %d steps that it rests on' % count
        note = 'Of %d steps, those %d have a picture that are nearest to the circle.' % (count, len(near)) if len(near) < count else ''
        its = ''.join(self.step(step, step.number in near) for step in self.explanation.steps)
        return element('section', element('h2', heading) + (element('p', note) if note else '') + its)

    def nearest_steps(self):
        """The numbers of the steps, those first that the cycle names, then those that these name, and so on."""
        cycles = [self.explanation.cycle.edges] if self.explanation.cycle else [cycle.edges for _, cycle in self.explanation.leaves]
        cycles += [side.walk for side in self.explanation.sides]
        found = dict.fromkeys(edge.step for edges in cycles for edge in edges if edge.step)
        queue = list(found)
        for number in queue:
            for edge in self.steps[number].walk:
                if edge.step and edge.step not in found:
                    found[edge.step] = None
                    queue.append(edge.step)
        return queue

    def circles(self):
        """The cycles of a tree, each once, with how many branches end in it."""
        found = {}
        for orders, cycle in self.explanation.leaves:
            found.setdefault(tuple(sorted((edge.first, edge.second, edge.said) for edge in cycle.edges)), []).append((orders, cycle))
        return list(found.values())

    def circle(self, place, its, draw):
        """One circle of a tree: its picture and its lines, and what is supposed."""
        cycle = its[0][1]
        named = dict.fromkeys((edge.key, edge.parts[2], edge.parts[4], edge.second) for edge in cycle.edges if edge.kind == 'decided')
        supposed = ', and '.join('%s %s came before %s, which %s wrote' % it for it in named)
        words = 'where %s' % supposed if named else 'whatever is supposed'
        words += '; %d of the branches that are told end in it' % len(its) if len(its) > 1 else ''
        drawing = self.pictures_of(scenes_of_cycle(self.history, cycle.edges, 'Circle %d' % place)) if draw else ''
        return self.with_lines(drawing, self.edges(cycle.edges)), escape(words)

    def tree_section(self):
        circles, parts, leaves = self.circles(), [], self.explanation.leaves
        for place, its in enumerate(circles, 1):
            inner, words = self.circle(place, its, place <= MOST_PICTURES)
            heading = 'Circle %d of %d' % (place, len(circles))
            if place == 1:
                parts.append(element('h2', heading) + element('p', 'It closes %s.' % words) + inner)
            else:
                parts.append(element('details', element('summary', '%s: %s' % (heading, words)) + inner))
        count, lines = self.explanation.count or len(leaves), self.explanation.lines
        branches = 'all of its %d branches' % count if count == len(leaves) else 'the first %d of its %d branches' % (len(leaves), count)
        start = min(it.line for it in leaves[0][0] + [leaves[0][1]])
        tree = element('summary', 'The whole search, with %s' % branches) + element('pre', escape('\n'.join(lines[start - 1:])))
        return element('section', ''.join(parts)) + element('section', element('details', tree))

    def sides_section(self):
        """For each of two writers of a key why it cannot commit first."""
        found = []
        for side in self.explanation.sides:
            title = 'If %s committed first' % side.node
            lines = (self.line(side.line + 1, tag='p') if side.reader else '') + self.edges(side.walk)
            found.append(element('section', element('h2', title) + self.with_lines(self.picture(scene_of_side(self.history, side, title)), lines)))
        return ''.join(found)

    def main_section(self):
        it, history = self.explanation, self.history
        if it.code == told.TREE:
            return self.tree_section()
        if it.code == told.TWO_WRITERS:
            return self.sides_section()
        if it.code == told.PART:
            lines = '<ul class="lines">%s</ul>' % ''.join(map(self.line, range(it.behind, len(it.lines) + 1)))
            return element('section', self.with_lines(self.picture(scene_of_part(history, [it.name for it in history.all][:MOST_EDGES], it.lines)), lines))
        if it.code in ('A8', 'A9', told.CIRCLE):
            scenes = scenes_of_cycle(history, it.cycle.edges, 'The circle', it.steps)
            lines = self.edges(it.cycle.edges)
        else:
            scenes = [scene_of_update(history, it) if it.code == 'A7' else scene_of_read(history, it)]
            lines = '<ul class="lines">%s</ul>' % ''.join(map(self.line, range(it.behind, len(it.lines) + 1)))
        return element('section', self.with_lines(self.pictures_of(scenes), lines))

    def legend(self):
        kinds = []
        for kind in filter(self.kinds.__contains__, KINDS):
            look = kind.replace(' ', '-')
            line = element('path', d='M1 7L34 7', class_=look) + element('polygon', points='43,7 33,2 33,12', class_=look)
            sample = element('svg', line, class_='sample', width=44, height=14, aria_hidden='true')
            kinds.append(element('li', sample + element('span', element('b', kind) + ': ' + KINDS[kind])))
        first = self.history.first_moment
        words = READING % (BY_PLACE if first is None else BY_MOMENTS)
        words += ' Times count from the moment %d.' % first if self.history.unit and first is not None else ''
        return element('section', element('h2', 'How to read this') + element('p', words) + element('ul', ''.join(kinds)), class_='legend')

    def html(self):
        it = self.explanation
        body = self.main_section() + self.steps_section()
        named = len([name for name in it.names if name in self.history.named])
        facts = '%s: %d transaction%s, of which the explanation names %d' % (self.name, self.count, '' if self.count == 1 else 's', named)
        head = element('p', escape(facts), class_='facts') + element('h1', escape(it.verdict)) + element('p', MEANINGS[it.code], class_='meaning')
        if it.short:
            head += element('p', escape(told.labelled('In short: ' + it.short, self.history.labels)), class_='meaning')
        if it.known_as:
            head += element('p', escape('Known as: ' + it.known_as))
        if it.is_serial_apart:
            head += element('p', 'This level keeps the order of each session, and that is what these transactions break. Without the order of sessions they have a serial order (whether the whole log has one is not known).', class_='meaning')
        if it.pairs:
            lines = ''.join(self.line(pair.line) for pair in it.pairs)
            head += element('p', escape(it.lines[it.pairs[0].line - 2])) + element('ul', lines, class_='lines')
        if self.keys:
            its = [element('button', escape(key), type='button', class_='key', data_key=key) for key in list(self.keys)[:MOST_KEYS]]
            head += element('p', 'keys: ' + ''.join(its), class_='keys')
        if '<details' in body:
            its = [element('button', name + ' all', type='button', id=name) for name in ('unfold', 'fold')]
            head += element('p', ''.join(its), class_='switches')
        title = escape('%s: %s' % (self.name, it.verdict))
        return PAGE % (title, beside('picture.css'), head + body + self.legend(), beside('picture.js'))


def beside(name):
    """The text of a file that stands beside this script."""
    with open(os.path.join(os.path.dirname(os.path.realpath(__file__)), name), encoding='utf-8') as file:
        return file.read()


PAGE = '''<!DOCTYPE html>
<html lang="en">
<head>
<meta charset="utf-8">
<meta http-equiv="Content-Security-Policy" content="default-src 'none'; style-src 'unsafe-inline'; script-src 'unsafe-inline'">
<meta name="viewport" content="width=device-width, initial-scale=1">
<title>%s</title>
<style>%s</style>
</head>
<body>
<main>
%s
</main>
<script>%s</script>
</body>
</html>
'''


def page_of(log, said, name, unit=None, labels=()):
    """The page of a log, by its lines and what `explain` says of it."""
    explanation = told.read(said)
    if explanation.verdict == 'not serializable' or explanation.verdict.startswith('{'):
        raise scripts.Stop('this is what audit says: without --explained a picture is drawn of that')
    if explanation.code is None:
        raise scripts.Stop("this explanation does not say 'not serializable': %s" % (explanation.verdict or 'it is empty'))
    transactions = scripts.transactions_of(log)
    return Page(History(transactions, unit, labels=labels), explanation, name, len(transactions))


def page_of_part(log, report, name, unit=None, labels=()):
    """The page of the part of a log, given by its lines, that `audit` tells first, with the neighbours in its sessions."""
    part = [it['transaction'].split('.') for it in report['part']]
    if not report['explanation']:
        raise scripts.Stop('audit tells no reason of a part of %d transactions, so there is nothing to draw: audit --part FILE writes it as a log' % len(part))
    explanation = told.of_part(report)
    near = (-1, 0, 1) if explanation.code != told.PART else (0,)
    shown = {'%s.%d' % (session, int(place) + by) for session, place in part for by in near}
    history = History(scripts.transactions_of(log, shown), unit, explanation.code in (told.CIRCLE, told.TWO_WRITERS), labels)
    return Page(history, explanation, name, sum(report[outcome] for outcome in ('committed', 'aborted', 'unknown')))


def main():
    words = argparse.ArgumentParser(description='Writes a page with a picture of why a log is not serializable, or does not keep a level. Unproved.')
    words.add_argument('log')
    words.add_argument('-o', dest='page', help='the page; LOG with .html in place of its end, where absent')
    words.add_argument('--level', help='draws why the log does not keep this level, as audit --level has it: snapshot, serializable, ..')
    words.add_argument('--unit', choices=UNITS, help='what the moments of the log count: us of the recorder, ns of an imported history of Jepsen')
    words.add_argument('--explained', help='a file with what explain says of the log; the program is asked why, where absent')
    words.add_argument('--program', default=scripts.RUN, help='the program: %(default)s')
    given = words.parse_args()
    if given.level and given.explained:
        words.error('--explained is what explain says without a level')
    name, labels = os.path.basename(given.log), scripts.labels_of(given.log)
    with open(given.log, encoding='ascii', newline='\n') as log:
        try:
            if given.explained:
                with open(given.explained, encoding='ascii') as said:
                    page = page_of(log, said.read(), name, given.unit, labels)
            else:
                page = page_of_part(log, scripts.audited(given.program, given.log, given.level), name, given.unit, labels)
        except told.Unread as fault:
            raise scripts.Stop(str(fault))
    path, html = given.page or os.path.splitext(given.log)[0] + '.html', page.html()
    if os.path.exists(path) and any(os.path.samefile(path, it) for it in (given.log, given.explained) if it):
        raise scripts.Stop('the page would replace %s, of which it is made: name another one by -o' % path)
    with open(path, 'w', encoding='utf-8', newline='\n') as out:
        out.write(html)
    print('%s: %s' % (page.explanation.verdict, path))


if __name__ == '__main__':
    scripts.run(main)
