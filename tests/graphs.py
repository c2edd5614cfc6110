#!/usr/bin/env python3
"""graphs.py PROGRAM [CASES] [--seed N]: the graphs of `explain --format dot --level`, at each of the nine levels.

Each log of examples/, made logs, and logs of more transactions than `check` takes are asked for each level, as a graph and by `audit
--explain --level`. Status, first line and the lines of the part must be the same. Each box must be a transaction of the part with its
operations and their lines, as the part has them. At levels of snapshots the arrows must be the edges that are told, with their ends; at serial
orders they stand where edges are told. Each arrow must be so: of a session, of a read, of two versions of a key, of moments. Where there are
arrows, they close a circle. A graph of a level that is kept, or not decided, has no box, and of a refused log there is none. Graphviz draws them, if it can be had.
Last line: 'graphs: N passed, M failed'."""
import argparse, collections, concurrent.futures, os, re, shutil, subprocess, sys, tempfile

HERE = os.path.dirname(os.path.abspath(__file__))
sys.path.insert(0, HERE)
import generate, level_model, levels
from certificates import SERIAL_APART, call, must

CASES, SEED, SHOWN, DRAWN, LONG = 60, 1, 20, 120, 3000
# The words by which both commands search alike, and with one worker tell the same part.
ALIKE = '--strategy', 'forced', '--budget', '10000', '--workers', '1'
EMPTY = 'strict digraph explanation {\nnode [shape=box];\n}\n'
GRAPH = re.compile(r'((?:// .*\n)+)((?:strict )?digraph) explanation {\nnode \[shape=box\];\n((?:.+\n)*)}\n')
PLAIN, POINTS = re.compile(r'"([0-9]+[.][0-9]+)" \[label="(.*)"\];'), re.compile(r'"([0-9]+[.][0-9]+)" \[shape=record label="{<snapshot> snapshot\|(.*)\|<commit> commit}"\];')
ARROW = re.compile(r'"([0-9.]+)"(?::(snapshot|commit))? -> "([0-9.]+)"(?::(snapshot|commit))? \[label="(.*)" color="(\w+)"\];')
NOTE = re.compile(r'"anomaly" \[label="(.*)"\];')
OPERATION = re.compile(r'([rw]) ([A-Za-z0-9_.:/-]+) ([0-9]+) \(line ([0-9]+)\)')
COLOURS = {'session': 'black', 'read': 'blue', 'anti-dependency': 'red', 'version order': 'darkgreen', 'moments': 'purple'}
MORE = re.compile(r'(forced \[[0-9]+\])|(if ([0-9.]+) commits first)|(.* comes before .*)')
# What is told: an edge of points, as a step too; that one cannot commit first; an edge of a serial order.
EDGE = re.compile(r"^ *(?:\[[0-9]+\] )?([0-9.]+)'s (snapshot|commit) before ([0-9.]+)'s (snapshot|commit): (.+)$", re.M)
NOT_FIRST = re.compile('cannot commit first:$', re.M)
BEFORE = re.compile('^ *([0-9.]+) before ([0-9.]+): ', re.M)
BY_SEARCH = 'a search shows it'


def look_of(reason):
    """The label of an edge of points, by the reason that is told."""
    step = re.search(r'by (\[[0-9]+\])', reason)
    if step:
        return 'forced ' + step[1]
    if re.fullmatch('session [0-9]+', reason):
        return 'session'
    if ' ended at ' in reason:
        return 'moments'
    return 'anti-dependency' if ', which reads it too, ' in reason else 'version order' if ', the initial value, and ' in reason else 'read'


class Lines:
    """The transactions of a log, by name: their operations with lines, and their first and last lines."""

    def __init__(self, text):
        self.operations, self.lines, self.ends, self.moments = collections.defaultdict(list), text.split('\n'), {}, {}
        session, place, name = None, 0, None
        for number, line in enumerate(self.lines, 1):
            words = line.split(' ')
            if words[0] == 'session':
                session, place = int(words[1]), 0
            elif words[0] == 'begin':
                place += 1
                name = '%d.%d' % (session, place)
                self.ends[name], self.moments[name] = [number, number], [int(it) for it in words[1:]] or [None]
            elif words[0] in ('r', 'w'):
                self.operations[name].append((words[0], words[1], int(words[2]), number))
            elif words[0] in ('commit', 'abort', 'unknown'):
                self.ends[name][1] = number
                self.moments[name].append(int(words[1]) if words[1:] else None)

    def of(self, name, kind):
        return [(key, wid) for what, key, wid, _ in self.operations[name] if what == kind]

    def in_part(self, name, names):
        """The operations that a transaction has in a part of these: without reads of what others wrote outside of it."""
        outside = {wid for other in self.operations if other not in names for _, wid in self.of(other, 'w')}
        return [it for it in self.operations[name] if it[0] == 'w' or it[2] not in outside]

    def is_read(self, one, other):
        return any(it in self.of(other, 'r') for it in self.of(one, 'w'))

    def misses(self, one, other):
        written = {key for key, _ in self.of(other, 'w')}
        return any(key in written and (key, wid) not in self.of(other, 'w') for key, wid in self.of(one, 'r'))

    def both_write(self, one, other):
        return bool({key for key, _ in self.of(one, 'w')} & {key for key, _ in self.of(other, 'w')})

    def is_so(self, label, one, other):
        """Whether an arrow of this label can stand between these two."""
        (first, place), (second, behind) = ([int(it) for it in name.split('.')] for name in (one, other))
        if label == 'session':
            return first == second and place < behind
        if label == 'moments':
            return None not in (self.moments[one][1], self.moments[other][0]) and self.moments[one][1] < self.moments[other][0]
        if label == 'read':
            return self.is_read(one, other)
        if label == 'anti-dependency':
            return self.misses(one, other)
        return self.misses(one, other) or self.both_write(one, other)


def closes(arrows):
    """Whether some arrows close a circle; a commit is reached from its own snapshot too."""
    after = collections.defaultdict(set)
    for one, begin, other, end, *_ in arrows:
        after[one, begin].add((other, end))
        for name, point in ((one, begin), (other, end)):
            if point:
                after[name, 'snapshot'].add((name, 'commit'))
    left = set(after)
    while True:
        ends = {it for it in left if not after[it] & left}
        if not ends:
            return bool(left)
        left -= ends


def told_part(said):
    """The lines of the first part that is told, behind its headline and the line of its transactions."""
    lines = [line for line in said.split('\n') if line != SERIAL_APART]
    start = next(place for place, line in enumerate(lines) if line.startswith('shown by '))
    end = next(place for place, line in enumerate(lines) if re.match('sessions [0-9]+$', line))
    return lines[start:start + 2], '\n'.join(lines[start + 2:end])


def check_boxes(rows, log, names):
    """The boxes are of these transactions, each with all its operations where it has ends for points, or with some."""
    boxes = {}
    for name, label in rows:
        first, *operations = label.split('\\n')
        must(first == name and name in log.ends and name not in boxes, 'a box %r' % label)
        aborted = operations[-1:] == ['aborted']
        must(aborted == (log.lines[log.ends[name][1] - 1] == 'abort') or not aborted, '%s ends otherwise' % name)
        told = [OPERATION.fullmatch(it) for it in operations[:len(operations) - aborted]]
        must(all(told), 'an operation %r' % label)
        boxes[name] = [(it[1], it[2], int(it[3]), int(it[4])) for it in told]
        must(set(boxes[name]) <= set(log.operations[name]), '%s has %r, and not %r' % (name, log.operations[name], boxes[name]))
    must(set(boxes) <= names, 'boxes %r of %r' % (sorted(boxes), sorted(names)))
    return boxes


def check_refuted(comments, kind, body, said, log, level):
    """The graph of a part, by what is told of it; which sort it is."""
    (heading, listed), why = told_part(said)
    must(comments[1:3] == [heading, listed], 'comments %r, told %r' % (comments, [heading, listed]))
    names = set(re.findall(r'([0-9]+[.][0-9]+) \(lines', listed))
    note = NOTE.fullmatch(body.rstrip('\n'))
    if note:
        lines = note[1].replace('\\n', '\n')
        must(lines and why.startswith(lines.rstrip('\n')), 'a box with %r, told %r' % (lines, why))
        return 'one box'
    rows = body.rstrip('\n').split('\n')
    plain, points, arrows = ([form.fullmatch(row) for row in rows if form.fullmatch(row)] for form in (PLAIN, POINTS, ARROW))
    must(len(plain) + len(points) + len(arrows) == len(rows) and not (plain and points), 'lines that are neither: %r' % body)
    boxes = check_boxes([it.groups() for it in plain + points], log, names)
    arrows = [it.groups() for it in arrows]
    for one, begin, other, end, label, colour in arrows:
        must(one in boxes and other in boxes, 'an arrow without its box: %s to %s' % (one, other))
        more = MORE.fullmatch(label)
        must(colour == COLOURS.get(label, 'orange' if more and more[1] else 'gray'), '%s is %s' % (label, colour))
        must(more or log.is_so(label, one, other), '%s to %s is no %s' % (one, other, label))
        must(bool(begin) == bool(end) == bool(points), 'ends of an arrow')
    if len(comments) > 3:
        must(comments[3].endswith(BY_SEARCH) and comments[3] in why and not arrows, 'comments %r' % comments)
    whole = points or kind == 'digraph'
    wanted = {name: log.in_part(name, names) for name in names}
    must(not whole or boxes == wanted, 'boxes %r, wanted %r' % (boxes, wanted))
    if len(comments) > 3:
        return 'boxes alone'
    must(arrows and closes(arrows), 'no circle closes: %r' % arrows)
    if points:
        edges = collections.Counter((*it[:4], look_of(it[4])) for it in EDGE.findall(why) if not NOT_FIRST.search(it[4]))
        must(edges == collections.Counter(it[:5] for it in arrows if it[5] != 'gray'), 'arrows %r, told %r' % (arrows, edges))
        supposed = sum(it[5] == 'gray' for it in arrows)
        must(supposed == len(NOT_FIRST.findall(why)), '%d arrows are supposed, told %r' % (supposed, why))
        return 'points'
    if kind == 'strict digraph':
        told = set(BEFORE.findall(why))
        must(told == {(it[0], it[2]) for it in arrows}, 'arrows %r, told %r' % (arrows, told))
        return 'a serial order'
    return 'evidence'


def judged(job):
    """What is wrong with the graphs of a log, what was met, and the graphs."""
    program, name, text = job
    met, graphs = collections.Counter(), []
    try:
        log = Lines(text.decode())
        for level in levels.LEVELS:
            status, said, error = call(program, 'explain', '--format', 'dot', '--level', level, *ALIKE, text=text)
            wanted, told, _ = call(program, 'audit', '--explain', '--only', '--level', level, *ALIKE, text=text)
            must(status == wanted and (status == 2) == bool(error), '%s: status %d, audit has %d: %r' % (level, status, wanted, error))
            if status == 2:
                must(not said, '%s: of a refused log stands %r' % (level, said))
                met['refused'] += 1
                continue
            form = GRAPH.fullmatch(said)
            must(form, '%s: no graph: %r' % (level, said))
            comments = [line[3:] for line in form[1].rstrip('\n').split('\n')]
            must(comments[0] == told.split('\n')[0], '%s: %r' % (level, comments))
            if status != 1:
                must(said[len(form[1]):] == EMPTY, '%s: %r' % (level, said))
                met['kept' if status == 0 else 'unknown'] += 1
                continue
            try:
                met[check_refuted(comments, form[2], form[3], told, log, level)] += 1
            except Exception as wrong:
                raise type(wrong)('%s: %s\n%s%s' % (level, wrong, said, told)) from wrong
            graphs.append(said)
        return None, met, graphs
    except Exception as wrong:
        return '%s: %s: %s' % (name, type(wrong).__name__, wrong), met, graphs


def long_log(more):
    """A log of more transactions than `check` takes, of four sessions, and these behind them."""
    lines, held = [[] for _ in range(4)], {}
    for turn in range(LONG):
        key = 'k%d' % (turn % 7)
        lines[turn % 4] += ['begin', 'r %s %d' % (key, held.get(key, 0)), 'w %s %d' % (key, turn + 1), 'commit']
        held[key] = turn + 1
    made = ''.join('session %d\n%s' % (number, ''.join(line + '\n' for line in its)) for number, its in enumerate(lines, 1))
    return (made + more).encode()


def logs(cases, seed):
    yield from generate.examples((1, 2, 3))
    yield from (('made log of points %d' % number, level_model.points_text(number)) for number in range(seed, seed + cases))
    yield from (('made log %d' % number, level_model.made_text(number)) for number in range(seed, seed + cases))
    skew = ''.join('session %d\nbegin\nr %s 0\nw %s %d\ncommit\n' % (8 + place, *keys, LONG + 1 + place) for place, keys in enumerate((('a', 'b'), ('b', 'a'))))
    lost = ''.join('session %d\nbegin\nr a/x 0\nw a/x %d\ncommit\n' % (8 + place, LONG + 1 + place) for place in range(2))
    torn = 'session 8\nbegin\nw a %d\nw b %d\ncommit\nsession 9\nbegin\nr a %d\nr b 0\ncommit\n' % (LONG + 1, LONG + 2, LONG + 1)
    unwritten = 'session 8\nbegin\nr a %d\ncommit\n' % (LONG + 1)
    yield from (('a long log with ' + what, long_log(more)) for what, more in (('a skew', skew), ('a lost update', lost), ('a torn read', torn), ('a read of nothing', unwritten), ('no fault', '')))


def graphviz():
    """The command `dot`, which is installed where it is not there; None where it cannot be had."""
    quiet = {'stdin': subprocess.DEVNULL, 'stdout': subprocess.DEVNULL, 'stderr': subprocess.DEVNULL, 'env': {**os.environ, 'DEBIAN_FRONTEND': 'noninteractive'}}
    alone = 'flock', '--no-fork', '/var/lib/apt', 'apt-get'
    try:
        if not shutil.which('dot'):
            subprocess.run([*alone, 'update'], timeout=600, **quiet)
            subprocess.run([*alone, '-o', 'DPkg::Lock::Timeout=300', 'install', '-y', '--no-install-recommends', 'graphviz'], timeout=600, **quiet)
    except (OSError, subprocess.TimeoutExpired):
        pass
    return shutil.which('dot')


def main():
    words = argparse.ArgumentParser(description=__doc__, formatter_class=argparse.RawDescriptionHelpFormatter)
    words.add_argument('program', metavar='PROGRAM', help='the program, cobra_poly')
    words.add_argument('cases', metavar='CASES', type=int, nargs='?', default=CASES, help='how many made logs of each sort (%(default)s)')
    words.add_argument('--seed', type=int, default=SEED, help='from which number they are made (%(default)s)')
    words = words.parse_args()
    met, faults, passed, graphs = collections.Counter(), [], 0, []
    with concurrent.futures.ThreadPoolExecutor(min(4, os.cpu_count())) as pool:
        for fault, what, drawn in pool.map(judged, [(os.path.abspath(words.program), *log) for log in logs(words.cases, words.seed)]):
            passed, faults, met = passed + (fault is None), faults + [fault] * (fault is not None), met + what
            graphs += drawn
    missing = {'one box', 'points', 'a serial order', 'evidence', 'boxes alone', 'kept', 'unknown', 'refused'} - set(met)
    faults += ['not met: %s' % ', '.join(sorted(missing))] if missing and words.cases >= CASES else []
    command = graphviz()
    if command:
        some = graphs[::max(1, len(graphs) // DRAWN)]
        ran = subprocess.run([command, '-Tsvg'], input=''.join(some).encode(), stdout=subprocess.PIPE, stderr=subprocess.PIPE)
        drawn = ran.stdout.decode().count('</svg>')
        faults += ['Graphviz draws %d of %d: %r' % (drawn, len(some), ran.stderr[:500])] if ran.returncode or ran.stderr or drawn != len(some) else []
        passed += not faults
    else:
        print('graphs: Graphviz cannot be had here, so nothing is drawn')
    for fault in faults[:SHOWN]:
        print('FAILED', fault)
    print('graphs: %d graphs: %s' % (sum(met.values()), ', '.join('%s %d' % it for it in met.most_common())))
    print('graphs: %d passed, %d failed' % (passed, len(faults)))
    sys.exit(1 if faults else 0)


if __name__ == '__main__':
    main()
