#!/usr/bin/env python3
"""told_points.py PROGRAM [CASES] [--seed N]: what `audit --explain` tells at levels of points, line by line, against the log.

Each log of examples/ and some hundred made ones, as tests/level_model.py has them or of replicas, are asked for each level of points. Of each
refuted one each told line must be so in the log: the transactions, lines, keys, identities and moments that it names, and that it follows from them that
the one point stands before the other. Each step must follow from lines and from earlier steps, and each must be named; first stands a
circle, or two that write a key of which neither can commit first, and behind it the steps. So no order is left. At `prefix` a step says only
which of two commits first, and where evidence against a weaker level is told, tests/levels.py looks at it. Nothing that is told may
name a lock. `explain --level` must say the same. Last line: 'told points: N passed, M failed'."""
import argparse, collections, concurrent.futures, itertools, json, os, random, re, sys

HERE = os.path.dirname(os.path.abspath(__file__))
sys.path.insert(0, HERE)
import generate, level_model, reference
from certificates import RULE, TOO, WORDS, Part, call, must

CASES, SEED, SHOWN = 600, 1, 20
LANES = min(4, os.cpu_count())
LEVELS = ('strict-snapshot', 'snapshot', 'prefix')
FORCED = 'these orders of snapshots and commits are forced:'
LOST = "%s and %s read one version of %s and both overwrote it; neither saw the other's"
# A circle of so many edges is told in a sentence too.
SHORT, FEW, CONCLUSION = 'in short: ', 6, '; no order of snapshots and commits has all of this'
BY_SEARCH = 'no order of their snapshots and commits is left: a search shows it'
NAME, KEY, POINT = r'(\d+\.\d+)', r'([A-Za-z0-9_.:/-]+)', r"(\d+\.\d+)'s (snapshot|commit)"
EDGE = re.compile('%s before %s: (.+)' % (POINT, POINT))
READS = '%s reads %s (\\d+) \\(line (\\d+)\\)' % (NAME, KEY)
BOTH = 'both write %s \\(lines (\\d+) and (\\d+)\\)' % KEY
SHOWN_STEP = re.compile("\\[(\\d+)\\] (%s before %s: .+)" % (POINT, POINT))
WAY_STEP = re.compile("\\[(\\d+)\\] %s's commit before %s's snapshot:" % (NAME, NAME))
FORCED_STEP = re.compile("\\[(\\d+)\\] %s's commit before %s's (snapshot|commit): %s, and %s cannot commit first:" % (NAME, NAME, BOTH, NAME))
NEITHER = re.compile('%s and %s %s, so one of them commits before the other takes its snapshot' % (NAME, NAME, BOTH))
NOT_FIRST = re.compile('%s cannot commit first:' % NAME)
WOULD = re.compile("    %s's snapshot comes after %s's commit, but %s of (\\d+\\.\\d+), which %s would have overwritten with (\\d+) \\(line (\\d+)\\):" % (NAME, NAME, READS, NAME))
# Forms of reasons.
WROTE = re.compile('%s, which %s wrote \\(line (\\d+)\\)' % (READS, NAME))
LATER = re.compile('%s, which %s writes itself only later \\(line (\\d+)\\)' % (READS, NAME))
OVERWRITES = re.compile('%s(?: of %s|, the initial value), and %s, which reads it too, overwrites it with (\\d+) \\(line (\\d+)\\)' % (READS, NAME, NAME))
INITIAL = re.compile('%s, the initial value, and %s wrote %s (\\d+) \\(line (\\d+)\\)' % (READS, NAME, KEY))
BEHIND = re.compile('%s of %s, which by \\[(\\d+)\\] comes before (\\d+), which %s wrote \\(line (\\d+)\\)' % (READS, NAME, NAME))
MOMENTS = re.compile('%s ended at (\\d+) \\(line (\\d+)\\), %s began at (\\d+) \\(line (\\d+)\\)' % (NAME, NAME))
SESSION, STEP = re.compile('session (\\d+)'), re.compile('by \\[(\\d+)\\]')
WANTED = {'lost update (G-single)', 'read skew (G-single)', 'circular information flow (G1c)', 'long fork (G-nonadjacent-item)', 'aborted read (G1a)',
          'intermediate read (G1b)', 'stale read (G-single-realtime)', 'steps', 'neither', 'circle', 'session', 'moments', 'later', 'evidence'}


# Two writers of a key: what the first sentence says begins with one of them and ends at the other.
TWO_WRITERS = '\n'.join('session 1,begin,r z 2,r w 0,w k 10,commit,session 2,begin,r y 0,w k 11,w w 12,commit,session 3,begin,w y 1,w z 2,commit,'.split(',')).encode()
TWO_SAID = "in short: 1.1 and 2.1 both wrote k. If 1.1 came first, 2.1 did not see 3.1's y; 1.1 saw 3.1's z. If 2.1 came first, 1.1 did not see 2.1's w"
# Logs of one fault, as transactions by sessions; the levels at which it has one name, and that name.
ALIKE = [
    # two writers at levels of points, a step and a circle at serializability, and either of two ties
    ('r x 1/r y 2/w x 3; w x 4|w y 2; r z 0/w x 1|r x 4/w w 5', ('serializable', 'snapshot', 'prefix', 'causal'),
     'cycle with one missed write and sessions (G-single-process)'),
    # what a read sees of an update of an update
    ('w x 1; r x 1/w x 2; r x 2/w x 3/w y 4; r y 4/r x 1', ('causal', 'read-atomic'), 'read skew (G-single)'),
    # a lost update, of which one writer misses another write too, and before
    ('r a 0/r b 0/w b 1; r b 0/w a 2/w b 3', ('serializable', 'snapshot'), 'lost update (G-single)'),
]


def replicas_text(seed):
    """A log of a store with some replicas, each of which shows the transactions of the others later, in an order of its own. It mostly keeps
    causal consistency and breaks prefix consistency."""
    r = random.Random(seed)
    keys, stores = 'xyzk'[:r.randint(2, 4)], [{} for _ in range(r.randint(2, 3))]
    late, sessions, wid = [[] for _ in stores], [(number, []) for number in range(1, r.randint(2, 5) + 1)], 0
    for turn in range(r.randint(5, 14)):
        number, transactions = r.choice(sessions)
        place = (number - 1) % len(stores) if r.random() < 0.9 else r.randrange(len(stores))
        while late[place] and r.random() < 0.6:
            stores[place].update(late[place].pop(0 if r.random() < 0.7 else r.randrange(len(late[place]))))
        ops, own = [], {}
        for key in r.choices(keys, k=r.randint(1, 4)):
            if r.random() < 0.55:
                ops.append(('r', key, own.get(key, stores[place].get(key, 0))))
            else:
                wid += 1
                own[key] = wid
                ops.append(('w', key, wid))
        stores[place].update(own)
        for other, waiting in enumerate(late):
            waiting += [own] if own and other != place else []
        transactions.append(reference.Transaction(tuple(ops), 'commit', None, None))
    return generate.text_of([it for it in sessions if it[1]])


class Log:
    """A log by its lines, and the nodes by their names: committed and taken ones."""

    def __init__(self, text):
        self.sessions = reference.read_log(text)
        self.lines = text.decode().split('\n')[:-1]
        taken, line = reference.taken_of(self.sessions), 1 if reference.version_of(text) == 1 else 2
        self.nodes, self.begins, self.reads, self.writes = {}, {}, {}, {}
        for number, its in self.sessions:
            line += 1
            for place, it in enumerate(its, 1):
                name = '%d.%d' % (number, place)
                self.nodes[name] = it if it.outcome == 'commit' or (number, place) in taken else None
                self.begins[name], wrote = line, set()
                for at, (kind, key, wid) in enumerate(it.ops, line + 1):
                    if kind == 'w':
                        wrote.add(key)
                        self.writes[name, key, wid] = at
                    elif key not in wrote:
                        self.reads.setdefault((name, key, wid), at)
                line += len(it.ops) + 2

    def must_read(self, name, key, wid, line):
        must(self.nodes[name] and self.reads.get((name, key, int(wid))) is not None, '%s does not read %s %s from its snapshot' % (name, key, wid))
        must(self.lines[int(line) - 1] == 'r %s %s' % (key, wid) and self.begins[name] < int(line), 'line %s is another one' % line)

    def must_write(self, name, key, wid, line):
        must(self.nodes[name] and self.writes.get((name, key, int(wid))) == int(line), '%s does not write %s %s in line %s' % (name, key, wid, line))

    def must_both(self, one, other, key, line, line_of_other):
        for name, at in ((one, line), (other, line_of_other)):
            must(any(self.nodes[name] and it[:2] == (name, key) and number == int(at) for it, number in self.writes.items()),
                 '%s does not write %s in line %s' % (name, key, at))

    def wrote(self, key, wid):
        """Who wrote this version: one of the nodes."""
        return next((name for name, k, w in self.writes if (k, w) == (key, int(wid)) and self.nodes[name]), None)


class Telling:
    """What is told of a part, read from the first line to the last."""

    def __init__(self, log, names, lines, level):
        self.log, self.names, self.left, self.level = log, names, list(lines), level
        self.steps, self.named, self.met, self.told, self.sides, self.alone = {}, set(), set(), [], [], []
        # The point of the other one before which a step says that one commits.
        self.behind = 'commit' if level == 'prefix' else 'snapshot'
        if FORCED in self.left:  # told last, and read first
            at = self.left.index(FORCED)
            self.left = self.left[at + 1:] + self.left[:at]
            must(self.left[0].startswith('['), 'no step behind %r' % FORCED)
        else:
            must(not any(line.startswith('[') for line in self.left), 'steps that are not told last: %r' % self.left)

    def edge(self, line):
        """The two points of a line, each a name and 'snapshot' or 'commit'; the line must be so."""
        found = EDGE.fullmatch(line)
        must(found, 'no edge: %r' % line)
        one, kind, other, kind_of_other, reason = found.groups()
        must(one in self.names and other in self.names, 'of others: %r' % line)
        self.reason((one, kind), (other, kind_of_other), reason)
        self.told.append((one, other, reason))
        return (one, kind), (other, kind_of_other)

    def reason(self, one, other, reason):
        log, shape = self.log, (one[1], other[1])
        if found := WROTE.fullmatch(reason) or LATER.fullmatch(reason):
            reader, key, wid, line, writer, at = found.groups()
            log.must_read(reader, key, wid, line), log.must_write(writer, key, wid, at)
            is_right = (writer, reader) == (one[0], other[0]) and shape == ('commit', 'snapshot')
            must((reader == writer) == bool(LATER.fullmatch(reason)), reason)
        elif found := OVERWRITES.fullmatch(reason):
            reader, key, wid, line, whose, writer, new, at = found.groups()
            log.must_read(reader, key, wid, line), log.must_write(writer, key, new, at)
            is_right = (reader, writer) == (one[0], other[0]) and shape == ('snapshot', 'commit') and reader != writer
            must(whose == (log.wrote(key, wid) if wid != '0' else None), 'not of %s: %r' % (whose, reason))
            must((writer, key, int(wid)) in log.reads, '%s does not read %s %s: %r' % (writer, key, wid, reason))
        elif found := INITIAL.fullmatch(reason):
            reader, key, wid, line, writer, again, new, at = found.groups()
            log.must_read(reader, key, wid, line), log.must_write(writer, again, new, at)
            is_right = (reader, writer, wid, key) == (one[0], other[0], '0', again) and shape == ('snapshot', 'commit') and reader != writer
        elif found := BEHIND.fullmatch(reason):
            reader, key, wid, line, of, step, new, writer, at = found.groups()
            log.must_read(reader, key, wid, line), log.must_write(writer, key, new, at)
            is_right = (reader, writer) == (one[0], other[0]) and shape == ('snapshot', 'commit') and reader != writer
            must(of == log.wrote(key, wid), 'not of %s: %r' % (of, reason))
            must(self.step(step) == (of, writer), 'step %s says something else: %r' % (step, reason))
        elif found := MOMENTS.fullmatch(reason):
            first, ended, line, second, begun, at = found.groups()
            must(self.level.startswith('strict') and int(ended) < int(begun), reason)
            must(log.nodes[first].ended == int(ended) and log.lines[int(line) - 1] == 'commit ' + ended, reason)
            must(log.nodes[second].begun == int(begun) and int(at) == log.begins[second], reason)
            is_right = (first, second) == (one[0], other[0]) and shape == ('commit', 'snapshot')
            self.met.add('moments')
        elif found := SESSION.fullmatch(reason):
            (number, place), (again, later) = one[0].split('.'), other[0].split('.')
            is_right = number == again == found[1] and int(place) < int(later) and shape == ('commit', 'snapshot')
            self.met.add('session')
        else:
            found = STEP.fullmatch(reason)
            must(found, 'no reason: %r' % reason)
            is_right = self.step(found[1]) == (one[0], other[0]) and shape == ('commit', self.behind)
        must(is_right, 'that does not follow: %s before %s: %s' % (one, other, reason))

    def step(self, number):
        must(number in self.steps, 'step %s is not told before' % number)
        self.named.add(number)
        return self.steps[number]

    def way(self, indent):
        """The first and the last point of the edges that stand next, each of which begins where the one before it ends, or at that node's
        commit where that is its snapshot."""
        first = last = None
        while self.left and self.left[0].startswith(indent) and EDGE.fullmatch(self.left[0][len(indent):]):
            one, other = self.edge(self.left.pop(0)[len(indent):])
            must(last is None or self.leads(last, one), 'no way leads from %s to %s' % (last, one))
            first, last = first or one, other
        must(first, 'no edge at %r' % self.left[:1])
        return first, last

    @staticmethod
    def leads(one, other):
        return one == other or one[0] == other[0] and (one[1], other[1]) == ('snapshot', 'commit')

    def words(self, one, other, reason):
        """An edge in few words: whose these are, whether they say what that one did not see, and what they may be."""
        if SESSION.fullmatch(reason):
            return other, False, ['came after %s in its session' % one]
        if MOMENTS.fullmatch(reason):
            return other, False, ['began after %s ended' % one]
        step = STEP.fullmatch(reason) or BEHIND.fullmatch(reason)
        by = ' (by [%s])' % step[1 if step.re is STEP else 6] if step else ''
        if STEP.fullmatch(reason):
            keys = [{key for name, key, _ in self.log.writes if name == it} for it in (one, other)]
            return other, False, ['wrote %s after %s%s' % (key, one, by) for key in keys[0] & keys[1]]
        key = re.match(READS, reason)[2]
        is_seen = WROTE.fullmatch(reason) or LATER.fullmatch(reason)
        return (other, False, ["saw %s's %s" % (one, key)]) if is_seen else (one, True, ["did not see %s's %s%s" % (other, key, by)])

    @staticmethod
    def sentences(lead, words, is_circle):
        """What may be said of edges in a sentence, where they are few. Of a circle it begins behind the last one that says what a
        transaction did not see, and ends with what follows; a way does not come back to where it begins."""
        if len(words) > FEW:
            return []
        last = max((place for place, (_, misses, _) in enumerate(words, 1) if misses), default=0) if is_circle else 0
        words = words[last:] + words[:last]
        said = [lead + '%s %s' % (words[0][0], it) for it in words[0][2]]
        for (_, missed, _), (whose, misses, more) in zip(words, words[1:]):
            said = [front + (', but ' if misses and not missed else '; %s ' % whose) + it for front in said for it in more]
        return [it + CONCLUSION * (is_circle and len(words) > 2) for it in said]

    def not_first(self, node, other):
        """Why a node cannot commit before that point of another."""
        found, self.told = WOULD.fullmatch(self.left[0]), []
        if not found:
            first, last = self.way('    ')
            self.sides.append([self.words(*edge) for edge in self.told])
            # of each side that is one edge: a read of a version that its reader and the other one overwrite
            self.alone += [OVERWRITES.fullmatch(reason) for _, _, reason in self.told if len(self.told) == 1]
            must(self.leads((other, self.behind), first) and self.leads(last, (node, 'commit')), 'this leads from %s to %s' % (first, last))
            return
        self.left.pop(0)
        reader, writer, again, key, wid, line, of, writer_again, new, at = found.groups()
        self.log.must_read(reader, key, wid, line), self.log.must_write(other, key, new, at)
        must(reader == again and writer == writer_again == other and self.log.wrote(key, wid) == of == node and reader not in (node, other), found[0])
        first, last = self.way('    ')
        self.sides.append([self.words(*edge) for edge in self.told] + [(reader, True, ["did not see %s's %s" % (other, key)])])
        must(self.leads((other, 'commit'), first) and self.leads(last, (reader, 'snapshot')), 'this leads from %s to %s' % (first, last))

    def told_steps(self):
        while self.left and self.left[0].startswith('['):
            line = self.left.pop(0)
            if found := FORCED_STEP.fullmatch(line):
                number, first, second, point, key, at, at_second, again = found.groups()
                self.log.must_both(first, second, key, at, at_second)
                must((again, point) == (second, self.behind), line)
                self.met |= {'later'} if point == 'commit' else set()
                self.not_first(second, first)
            elif found := WAY_STEP.fullmatch(line):
                number, first, second = found.groups()
                one, other = self.way('    ')
                must(self.leads(one, (first, 'commit')) and (first, second) == (one[0], other[0]) and self.leads(other, (second, 'snapshot')), line)
            else:
                found = SHOWN_STEP.fullmatch(line)
                must(found, 'no step: %r' % line)
                number, (one, other) = found[1], self.edge(found[2])
                must((one[1], other[1]) == ('commit', 'snapshot'), line)
                first, second = one[0], other[0]
            must(int(number) == len(self.steps) + 1, 'the number of %r' % line)
            self.steps[number] = first, second
            self.met.add('steps')

    def all(self):
        self.told_steps()
        short, self.sides, self.alone = self.left.pop(0) if self.left[0].startswith(SHORT) else None, [], []
        if found := NEITHER.fullmatch(self.left[0]):
            self.left.pop(0)
            one, other, key, at, at_other = found.groups()
            self.log.must_both(one, other, key, at, at_other)
            for node, against in ((one, other), (other, one)):
                found = NOT_FIRST.fullmatch(self.left.pop(0))
                must(found and found[1] == node, '%s cannot commit first is not said' % node)
                self.not_first(node, against)
            both = [self.sentences('%s came first, ' % node, side, False) for node, side in zip((one, other), self.sides)]
            right = ['%s%s and %s both wrote %s. If %s. If %s' % (SHORT, one, other, key, *it) for it in itertools.product(*both)] or [None]
            if len(self.alone) == 2 and all(self.alone) and len({it.group(2, 3) for it in self.alone}) == 1:
                right = [SHORT + LOST % (one, other, self.alone[0][2])]
            self.met.add('neither')
        else:
            self.told = []
            first, last = self.way('')
            must(self.leads(last, first), 'no circle: from %s to %s' % (first, last))
            right = self.sentences(SHORT, [self.words(*edge) for edge in self.told], True) or [None]
            self.met.add('circle')
        must(short in right, '%r, wanted %r' % (short, right))
        must(self.named == set(self.steps), 'steps that nothing names: %r' % (set(self.steps) - self.named))
        if self.left:
            found = re.fullmatch('known as: (.+)', self.left.pop(0))
            must(found and not self.left, 'lines are left: %r' % self.left)
            self.met.add(found[1])


def told(program, text, level):
    """What is met of what is told of a log; nothing where the level is kept."""
    status, said, error = call(program, 'audit', '--explain', '--only', '--at-least', '0', '--level', level, text=text)
    if status != 1:
        return set()
    must(error == '', error)
    lines = said.split('\n')
    must(RULE.fullmatch(lines.pop(1)), 'no line says what the level asks for: %r' % said)
    names = set(re.findall(NAME + ' \\(lines', lines[2]))
    why = lines[3:next(at for at, line in enumerate(lines) if line.startswith('sessions '))]
    part = Part(*lines[1:3], why)
    log, code, why = Log(text), part.code, part.why
    keys = {key for _, key, _ in list(log.reads) + list(log.writes)}
    must(all('_' + key not in line for line in why for key in keys), 'a lock is told: %r' % why)
    again = call(program, 'explain', '--level', level, text=text)[1]
    must('\n'.join(['', *lines[1:3 + len(why)], '']) in again or not log.nodes, '`explain --level` says something else: %r' % again)
    try:
        if found := TOO.fullmatch(why[0]):
            if WORDS[found[1]] != 'prefix':
                return {'a weaker level'}
            why, level = why[2:], 'prefix'
        if why[0] == BY_SEARCH:
            must(why[1:2] == ['why they have no serial order either:'] and not any('(G2-' in line for line in why), 'told: %r' % why)
            return {'by a search'}
        if code and re.fullmatch('A[1-6]', code):
            for wid, line in re.findall(r'reads %s (\d+) \(line (\d+)\)' % KEY[1:-1], '\n'.join(why)):
                must(log.lines[int(line) - 1].split(' ')[::2] == ['r', wid], 'line %s is another one: %r' % (line, why))
            return {line[len('known as: '):] for line in why if line.startswith('known as: ')} | {code}
        if level == 'prefix' and not any("'s commit" in line or "'s snapshot" in line for line in why):
            return {'evidence'}
        telling = Telling(log, names, why, level)
        telling.all()
        return telling.met
    except Exception as wrong:
        raise type(wrong)('%s: %s in\n%s' % (level, wrong, '\n'.join(why)))


def named_otherwise(program, words, levels, name):
    """What is wrong with the name of a fault at these levels."""
    sessions = ['session %d\n' % number + ''.join('begin\n%s\ncommit\n' % ops.replace('/', '\n') for ops in it.strip().split('|'))
                for number, it in enumerate(words.split(';'), 1)]
    for level in levels:
        said = call(program, 'audit', '--only', '--level', level, '--format', 'json', text=''.join(sessions).encode())[1]
        if json.loads(said)['known_as'] != name:
            yield '%s at %s: %s' % (words, level, said)


def judged(job):
    program, name, text = job
    try:
        return None, set().union(*(told(program, text, level) for level in LEVELS))
    except Exception as wrong:
        return '%s: %s: %s' % (name, type(wrong).__name__, wrong), set()


def main():
    words = argparse.ArgumentParser(description=__doc__, formatter_class=argparse.RawDescriptionHelpFormatter)
    words.add_argument('program', metavar='PROGRAM', help='the program, cobra_poly')
    words.add_argument('cases', metavar='CASES', type=int, nargs='?', default=CASES, help='how many made logs (%(default)s)')
    words.add_argument('--seed', type=int, default=SEED, help='from which number they are made (%(default)s)')
    words = words.parse_args()
    texts = list(generate.examples((1, 2, 3))) + [('two writers', TWO_WRITERS)]
    seeds = range(words.seed, words.seed + words.cases)
    texts += [('made log %d' % seed, level_model.points_text(seed)) for seed in seeds]
    texts += [('log of replicas %d' % seed, replicas_text(seed)) for seed in seeds[::2]]
    program, faults, met = os.path.abspath(words.program), [], collections.Counter()
    with concurrent.futures.ProcessPoolExecutor(LANES) as pool:
        for fault, what in pool.map(judged, [(program, name, text) for name, text in texts], chunksize=10):
            met.update(what)
            faults += [] if fault is None else [fault]
    said = call(program, 'audit', '--explain', '--only', '--level', 'snapshot', text=TWO_WRITERS)[1]
    faults += [] if TWO_SAID in said.split('\n') else ['two writers: %r' % said]
    faults += [fault for words, levels, name in ALIKE for fault in named_otherwise(program, words, levels, name)]
    missing = sorted(WANTED - set(met))
    faults += ['nothing met: %s' % ', '.join(missing)] if missing and words.cases >= CASES else []
    for fault in faults[:SHOWN]:
        print('FAILED', fault)
    print('told points: met in so many logs: %s' % '; '.join('%s %d' % it for it in met.most_common()))
    print('told points: %d passed, %d failed' % (len(texts) - len(faults), len(faults)))
    return 1 if faults else 0


if __name__ == '__main__':
    sys.exit(main())
