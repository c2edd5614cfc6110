#!/usr/bin/env python3
"""explained.py PROGRAM [SEEDS]: what `explain` says of small logs, against the log's own lines.

Each log of examples/, logs made by hand, and of each kind of made logs so many as SEEDS says (250 where it is not said) go through `check`
and `explain`, with 1 and 4 workers and each strategy in turn. The first lines of `explain` must be those of `check`, and its status too.
Behind them, of an anomaly and of a cycle of known edges the text must be the one that a plain reading of the log's lines gives, to the
byte. Where pruning ends in a cycle, or every cube is refuted, the steps and the tree may be others by the schedule; then each line is held
against the log: each edge has the reason that comes first, or is one of an earlier step and names the first such, or of an order that is
decided above, edges follow each other, a walk leads from where it has to to where it has to, a walk and the cycle behind steps take each
shortcut that the log shows, and a walk leads to a near one of those that would stand elsewhere, each cycle closes, each step is needed,
and each choice that is split has both its orders, with all that is below them. Of each explanation of cycles, lines are then spoilt in
many ways, and each has to be seen; so the test is tested too. The graph of one worker must be what the lines of the text tell, to the
byte; where Graphviz is there, it draws those of the examples. Crossed reads are told of a log that takes as many looks as docs/FORMATS.md
allows, and not of one that takes one more. Where SEEDS is not said, each form of line has to be met among the logs. Last line:
'explained: N passed, M failed'."""
import collections, concurrent.futures, itertools, math, os, random, re, shutil, subprocess, sys

HERE = os.path.dirname(os.path.abspath(__file__))
sys.path.insert(0, HERE)
import generate, reference

STRATEGIES = ('first', 'most', 'least', 'forced')
TRY = 'try --strategy forced --workers 1, then a larger --budget, then a SAT solver on what encode writes'
NODE, NUMBER, KEY = r'([1-9][0-9]*\.[1-9][0-9]*)', r'([1-9][0-9]*)', r'([A-Za-z0-9_.:/-]+)'
EDGE = re.compile('%s before %s: (.+)' % (NODE, NODE))
VERSION = r'[1-9][0-9]*, which %s wrote \(line [1-9][0-9]*\)' % NODE
VERSIONS = '%s: %s, comes before %s' % (KEY, VERSION, VERSION)
STEP = re.compile(r'\[%s\] %s:' % (NUMBER, VERSIONS))
# Over what a version was written that is an update of another; and of one that was read, by whom. Whose version was read, where that is the
# one itself.
OVER = r' over (?:an update of )?(?:[1-9][0-9]*|the initial value)'
BEHIND = r'(?:, which [1-9][0-9]*\.[1-9][0-9]* wrote \(line [1-9][0-9]*\)%s)' % OVER
OF = r'(?: of [1-9][0-9]*\.[1-9][0-9]*|, the initial value)'
SINCE = re.compile(r'    %s, which comes after %s, reads [0-9]+ \(line [1-9][0-9]*\)%s?, so [1-9][0-9]* is the later version:' % (NODE, NODE, BEHIND))
FORCED, TABLE = 'these orders of versions are forced:', 'the reads and writes that matter:'
# A cycle of so many edges is told in a sentence too.
SHORT, FEW, CONCLUSION = 'in short: ', 6, '; no serial order has all of this'
CYCLE = re.compile('cycle from %s:' % NODE)
ORDER = re.compile('suppose %s:' % VERSIONS)
LEAVES = re.compile('proof: whichever of these versions came first, a cycle closes(?:, %s in all; the first 1000 of them)?:' % NUMBER)
CROSSED = 'four transactions read these pairs of versions; in a serial order each key changes once from one version to the other, so it has at most three of them:'
PAIR = re.compile(r'    %s reads %s %s \(line %s\) and %s %s \(line %s\)' % (NODE, KEY, NUMBER, NUMBER, KEY, NUMBER, NUMBER))
LONG_FORK = 'known as: long fork (G-nonadjacent-item)'
# Crossed reads are sought where that takes no more looks.
LOOKS = 20000000
# What is said of an edge of a step or of a decided order: whose operation, its key, and what Q wrote, behind this.
KEPT = ('%s (?:reads|wrote) %s [0-9]+ \\(line [1-9][0-9]*\\)(?:%s|%s|%s)?, which %%s before [1-9][0-9]*, '
        'which %s wrote \\(line [1-9][0-9]*\\)' % (NODE, KEY, BEHIND, OVER, OF, NODE))
# By how many decisions the walk of a step is indented.
WALK = 2
BY_STEP, SUPPOSED = re.compile(KEPT % r'by \[([0-9]+)\] comes'), re.compile(KEPT % 'by supposition comes')
GRAPHVIZ = shutil.which('dot')
# An explanation of so many bytes is not spoilt.
SPOILT = 10000
EVERY_CUBE, MOST_LEAVES = 'not serializable: every cube is refuted', 1000
READ = re.compile('not serializable: A[1-6] .+ at %s op %s' % (NODE, NUMBER))
UPDATE = re.compile(r'not serializable: A7 lost update of %s from [0-9.]+ by %s and %s' % (KEY, NODE, NODE))
# The form of what is said of an edge by its kind, and the colour in a graph.
KINDS = [('session', 'session %s' % NUMBER, 'black'), ('version order', '.+ reads .+ the initial value, and .+ wrote .+', 'darkgreen'),
         ('read', '.+ reads .+, which %s wrote .+' % NODE, 'blue'), ('anti-dependency', '.+ reads .+, and .+ overwrites it with .+', 'red'),
         ('moments', '.+ ended at .+, .+ began at .+', 'purple')]
# What has to be met among the logs, so that each form of line is tried.
WANTED = ['A1', 'A2', 'A3', 'A4', 'A5', 'A6', 'A7', 'A8', 'A9', 'serializable', 'tree', 'unknown', 'refused', 'A9 forced',
          'A9 named by a step', 'made by hand', 'on the page', 'looks at the limit']
WANTED += ['%s %s' % (code, kind) for code in ('A8', 'A9') for kind in ('session', 'read', 'anti-dependency', 'version order', 'moments')]
WANTED += ['A8 of 4 edges or more', 'steps 1', 'steps 2', 'steps 3', 'steps 4 or more', 'a walk of 4 edges or more', 'a cycle with 2 steps']
WANTED += ['tree ' + kind for kind in ('session', 'read', 'anti-dependency', 'version order', 'moments', 'forced', 'decided',
                                       'of depth 2', 'of depth 3', 'of depth 4 or more', 'of more than 1000 leaves')]
WANTED += ['a step by a read', 'a step by a read of an update', 'a step by a walk alone', 'forced over an update', 'decided over an update']
WANTED += ['forced reads of an update', 'forced wrote of an update', 'decided reads of an update', 'forced of a writer', 'decided of a writer']
WANTED += ['A9 known as: ' + name for name in
           ('cycle with one missed write (G-single)', 'cycle with one missed write and sessions (G-single-process)',
            'read skew (G-single)',
            'read skew by way of sessions (G-single-process)', 'a session misses its own write (G-single-process)',
            'write skew (G2-item)', 'write skew by way of sessions (G2-item-process)', 'write skew in a ring (G2-item)',
            'long fork by way of sessions (G-nonadjacent-item-process)')]
WANTED += ['%s with%s crossed reads' % (what, out) for what in ('tree', 'A9') for out in ('', 'out')]
WANTED += ['tree with steps', 'a cycle with 2 decided orders', 'a cycle with a step and a decided order', 'an order of 2 decided above', 'graph']

Op = collections.namedtuple('Op', 'kind key wid line')


# ---- the log's lines

class Transaction:
    """A transaction of the log, with the numbers of its lines."""

    def __init__(self, session, place, line, begun):
        self.session, self.place, self.name, self.begin, self.begun = session, place, '%s.%d' % (session, place), line, begun
        self.ops, self.outcome, self.end, self.ended = [], None, None, None

    def writes(self, key):
        return [op for op in self.ops if op.kind == 'w' and op.key == key]

    def reads(self, key):
        """Its reads of the key before any own write of it."""
        own = self.writes(key)[:1]
        return [op for op in self.ops if op.kind == 'r' and op.key == key and not (own and own[0].line < op.line)]


class Log:
    """A well-formed log, line by line."""

    def __init__(self, text):
        self.transactions, self.keys, self.writers = [], [], {}
        for number, line in enumerate(text.decode().split('\n'), 1):
            word, *rest = line.split(' ')
            said = int(rest[0]) if word in ('begin', 'commit') and rest else None
            if word == 'session':
                session, place = rest[0], 0
            elif word == 'begin':
                place += 1
                it = Transaction(session, place, number, said)
                self.transactions.append(it)
            elif word in ('commit', 'abort', 'unknown'):
                it.outcome, it.end, it.ended = word, number, said
            elif word in ('r', 'w'):
                it.ops.append(Op(word, rest[0], int(rest[1]), number))
                self.keys += [rest[0]] if rest[0] not in self.keys else []
                if word == 'w':
                    self.writers[rest[0], int(rest[1])] = it
        self.named, self.first_reasons, self.sides = {it.name: it for it in self.transactions}, {}, {}
        self.nodes = [it for it in self.transactions if it.outcome == 'commit']
        while True:
            seen = {self.writers.get((op.key, op.wid)) for it in self.nodes for op in it.ops if op.kind == 'r'}
            taken = [it for it in self.transactions if it.outcome == 'unknown' and it in seen and it not in self.nodes]
            if not taken:
                break
            self.nodes += taken

    # ---- a read

    def said_of_read(self, it, read, reads='reads'):
        """What the line of a read says: what it names, and who wrote that."""
        return '%s %s %s %d (line %d), %s' % (it.name, reads, read.key, read.wid, read.line, self.said_of_writer(it, read))

    def said_of_writer(self, it, read):
        """Who wrote what a read names."""
        if read.wid == 0:
            return 'the initial value'
        writer = self.writers.get((read.key, read.wid))
        if writer is None:
            others = [(other, op) for other in self.transactions for op in other.ops if (op.kind, op.wid) == ('w', read.wid)][:1]
            elsewhere = [' to %s; %s wrote %s %d (line %d)' % (read.key, other.name, op.key, op.wid, op.line) for other, op in others]
            return ''.join(['which no transaction wrote'] + elsewhere)
        (place, write), = ((place, op) for place, op in enumerate(writer.writes(read.key)) if op.wid == read.wid)
        verb = 'writes itself only later' if writer is it and write.line > read.line else 'wrote'
        said = 'which %s %s (line %d)' % (writer.name, verb, write.line)
        for later in writer.writes(read.key)[place + 1:place + 2]:
            said += ' and overwrote with %d (line %d)' % (later.wid, later.line)
        if writer.outcome == 'abort':
            said += ' and aborted (line %d)' % writer.end
        if writer.outcome == 'unknown':
            said += ', whose outcome is unknown (line %d)' % writer.end
        return said

    def said_before(self, it, read):
        """The line of what the transaction did with the key before the read, where there is one."""
        before = [op for op in it.ops if op.key == read.key and op.line < read.line]
        for write in [op for op in before if op.kind == 'w'][-1:]:
            return ['%s writes %s %d (line %d)' % (it.name, write.key, write.wid, write.line)]
        return [self.said_of_read(it, op) for op in before if op.wid != read.wid][:1]

    def said_of_anomaly(self, first):
        """The lines behind the line of A1 to A7."""
        found = READ.fullmatch(first)
        if found:
            it, read = self.named[found[1]], self.named[found[1]].ops[int(found[2]) - 1]
            before = self.said_before(it, read)
            return before + [self.said_of_read(it, read, 'then reads' if before else 'reads')]
        key, *both = UPDATE.fullmatch(first).groups()
        is_one = both[0].split('.')[0] == both[1].split('.')[0]
        unseen = "%s did not see %s's" % (both[1], both[0]) if is_one else "neither saw the other's"
        lines = [SHORT + '%s and %s read one version of %s and both overwrote it; %s' % (*both, key, unseen)]
        for it in map(self.named.get, both):
            last = it.writes(key)[-1]
            lines += [self.said_of_read(it, it.reads(key)[0]), '%s overwrites it with %d (line %d)' % (it.name, last.wid, last.line)]
        return lines

    def said_behind(self, checked):
        """The lines behind these of `check`, of A1 to A8."""
        first, *cycle = checked.split('\n')[:-1]
        names = self.joined(cycle[0].split(' ')[1:]) if cycle else ()
        edges = ['%s before %s: %s' % (a, b, self.reason(a, b)[1]) for a, b in zip(names, names[1:])]
        return edges + ['known as: ' + self.known_as(names)] if edges else self.said_of_anomaly(first)

    def joined(self, names):
        """These, of which one edge after the other is told, without those between two of their session."""
        return names[:1] + [three[1] for three in zip(names, names[1:], names[2:]) if not self.is_run(*three)] + names[-1:]

    def is_run(self, a, it, b):
        """Whether these stand one behind the other in one session."""
        three = [self.named[name] for name in (a, it, b)]
        return len({one.session for one in three}) == 1 and three[0].place < three[1].place < three[2].place

    def known_as(self, names):
        """What a cycle is called, by the kinds of its edges."""
        return self.named_by([[self.reason(a, b)[0] for a, b in zip(names, names[1:])]])

    def misses(self, kinds):
        """Whether edges of these kinds miss a write, one by one."""
        return [kind in ('anti-dependency', 'version order', 'missed write') for kind in kinds]

    def mildness(self, kinds):
        """How mild a cycle of these edges is: the more of them miss a write, up to two; of equals one without an order of writes."""
        return min(2, sum(self.misses(kinds))), 'order of writes' not in kinds

    def named_by(self, cycles, besides=()):
        """What one of these cycles is called, each of edges of these kinds, whichever it is, where what is told besides takes edges of these:
        all that the mildest ones are, with as many edges as the longest of them."""
        best = max(map(self.mildness, cycles))
        mildest = [kinds for kinds in cycles if self.mildness(kinds) == best]
        misses = [self.misses(kinds) for kinds in mildest]
        missed, are_apart = min(map(sum, misses)), not any(one and two for it in misses for one, two in zip(it, it[1:] + it[:1]))
        longest, kinds = max(map(len, mildest)), set().union(*mildest)
        every = kinds.union(besides, *cycles)
        by_order = lambda none, session, moments: moments if 'moments' in every else session if 'session' in every else none
        if not missed and 'read' in kinds:
            return by_order('circular information flow (G1c)', *('a read from the future (G1c%s)' % end for end in ('-process', '-realtime')))
        if not missed and 'order of writes' in kinds:
            return by_order('write cycle (G0)', 'cycle of writes and sessions (G0-process)', 'cycle of writes and real time (G0-realtime)')
        if not missed:
            return 'session order against real time'
        if missed == 1 and ('order of writes' in kinds or longest > 2):
            return 'cycle with one missed write' + by_order(' (G-single)', ' and sessions (G-single-process)', ' and real time (G-single-realtime)')
        if missed == 1 and 'read' not in kinds:
            return by_order(None, 'a session misses its own write (G-single-process)', 'stale read (G-single-realtime)')
        if missed == 1:
            return 'read skew' + by_order(' (G-single)', ' by way of sessions (G-single-process)', ' by way of real time (G-single-realtime)')
        if longest == 2:
            return 'write skew' + by_order(' (G2-item)', ' by way of sessions (G2-item-process)', ' by way of real time (G2-item-realtime)')
        if missed == longest:
            return 'write skew in a ring' + by_order(' (G2-item)', ' by way of sessions (G2-item-process)', ' by way of real time (G2-item-realtime)')
        if are_apart:
            return 'long fork' + by_order(' (G-nonadjacent-item)', ' by way of sessions (G-nonadjacent-item-process)',
                                          ' by way of real time (G-nonadjacent-item-realtime)')
        return 'cycle of missed writes' + by_order(' (G2-item)', ' and sessions (G2-item-process)', ' and real time (G2-item-realtime)')

    def words(self, a, b, said):
        """An edge in few words: whose these are, whether they say what that one did not see, and the words."""
        kind, kept = self.reason(a, b)[0], BY_STEP.fullmatch(said) or SUPPOSED.fullmatch(said)
        if kind == 'session':
            return b, False, 'came after %s in its session' % a
        if kind == 'moments':
            return b, False, 'began after %s ended' % a
        key = kept[2] if kept else said.split(' ')[2]
        by = ' (by [%s])' % kept[3] if kept and kept.re is BY_STEP else ''
        if kept and not self.named[a].reads(key):
            return b, False, 'wrote %s after %s%s' % (key, a, by)
        return (b, False, "saw %s's %s" % (a, key)) if kind == 'read' else (a, True, "did not see %s's %s%s" % (b, key, by))

    def short(self, edges):
        """The line that tells a cycle in a sentence, where it has few edges: two ends, and what is said of them. It ends with what a
        transaction did not see, if one did not see something."""
        words = [self.words(*edge) for edge in edges]
        if not words or len(words) > FEW:
            return []
        last = max((place for place, (_, misses, _) in enumerate(words, 1) if misses), default=0)
        words = words[last:] + words[:last]
        said = SHORT + '%s %s' % words[0][::2]
        for (_, missed, _), (whose, misses, more) in zip(words, words[1:]):
            said += ', but ' + more if misses and not missed else '; %s %s' % (whose, more)
        return [said + CONCLUSION * (len(words) > 2)]

    # ---- an edge

    def reasons(self, a, b):
        """Each reason why a stands before b, as its kind and what its line says, the one that is to be said first."""
        kinds = (('read', self.by_read), ('session', self.by_session), ('anti-dependency', self.by_anti_dependency),
                 ('version order', self.by_version_order), ('moments', self.by_moments))
        return [(kind, said) for kind, tried in kinds for said in tried(self.named[a], self.named[b]) if a != b]

    def reason(self, a, b):
        if (a, b) not in self.first_reasons:
            self.first_reasons[a, b] = next(iter(self.reasons(a, b)), (None, None))
        return self.first_reasons[a, b]

    def by_session(self, a, b):
        if a.session == b.session and a.place < b.place:
            yield 'session %s' % a.session

    def by_read(self, a, b):
        for read in b.ops:
            for write in a.ops:
                if (read.kind, write.kind) == ('r', 'w') and (read.key, read.wid) == (write.key, write.wid):
                    yield '%s reads %s %d (line %d), which %s wrote (line %d)' % (b.name, read.key, read.wid, read.line, a.name, write.line)

    def by_anti_dependency(self, a, b):
        for key in self.keys:
            for read in a.reads(key):
                for write in b.writes(key) if [it.wid for it in b.reads(key)[:1]] == [read.wid] else ():
                    said = (a.name, key, read.wid, read.line, self.whose(read), b.name, write.wid, write.line)
                    yield '%s reads %s %d (line %d)%s, and %s, which reads it too, overwrites it with %d (line %d)' % said

    def by_version_order(self, a, b):
        for write in b.ops:
            for read in a.reads(write.key)[:1] if write.kind == 'w' and not b.reads(write.key) else ():
                if read.wid in self.initial_chain(write.key):
                    read_it = self.behind(read, 0) or ', the initial value'
                    said = (a.name, read.key, read.wid, read.line, read_it, b.name, write.key, write.wid, write.line)
                    yield '%s reads %s %d (line %d)%s, and %s wrote %s %d (line %d)' % said

    def by_moments(self, a, b):
        if None not in (a.ended, b.begun) and a.ended < b.begun:
            yield '%s ended at %d (line %d), %s began at %d (line %d)' % (a.name, a.ended, a.end, b.name, b.begun, b.begin)

    # ---- chains

    def readers(self, key, wid):
        return [it for it in self.nodes if any(read.wid == wid for read in it.reads(key))]

    def initial_chain(self, key):
        """The identities that the writers of this chain leave, 0 among them."""
        left = [0]
        for wid in left:
            left += [it.writes(key)[-1].wid for it in self.readers(key, wid) if it.writes(key)]
        return left

    def has_crossed(self):
        """Whether all four pairs of two versions of a key and two of another were read."""
        beside = {}
        for it in self.nodes:
            read = {op.key: op.wid for op in it.ops if op.kind == 'r' and it.reads(op.key)[:1] == [op]}
            for key, other in itertools.permutations(read, 2):
                beside.setdefault((key, other), {}).setdefault(read[key], set()).add(read[other])
        return any(len(one & two) > 1 for seen in beside.values() for one, two in itertools.combinations(seen.values(), 2))

    def begins_chain(self, it, key):
        return it in self.nodes and it.writes(key) and not it.reads(key)

    def said_of_order(self, key, first, second):
        """Which of the versions that the first writers of two chains leave comes first."""
        left = [(name, self.named[name].writes(key)[-1]) for name in (first, second)]
        return '%s: %s, comes before %s' % (key, *('%d, which %s wrote (line %d)' % (op.wid, name, op.line) for name, op in left))

    def over(self, it, key, base):
        """Over what a transaction wrote the key, by its first read of it: this version, or an update of it."""
        read = next((op.wid for op in it.ops if (op.kind, op.key) == ('r', key)), None)
        return '' if read is None else ' over %s%s' % ('' if read == base else 'an update of ', base or 'the initial value')

    def behind(self, read, base):
        """Who wrote what a read names, and over what, where that is not this version itself."""
        if read.wid == base:
            return ''
        writer = self.writers[read.key, read.wid]
        return ', which %s wrote (line %d)%s' % (writer.name, writer.writes(read.key)[-1].line, self.over(writer, read.key, base))

    def whose(self, read):
        """Whose version a read names, as the log has it."""
        return ' of ' + self.writers[read.key, read.wid].name if read.wid else ', the initial value'

    def update(self, it, op, key, first):
        """How what an operation names is an update of the version of the first writer of a chain, where it is another."""
        left = self.named[first].writes(key)[-1].wid
        return self.behind(op, left) if op.kind == 'r' else self.over(it, key, left) if op.wid != left else ''

    def said_of_kept(self, edge, key, first, which):
        """What is said of an edge that an order of versions of this key has, in which the chain behind this one is the first, where `which`
        says what the order rests on."""
        a, b = (self.named[name] for name in edge)
        op = (a.writes(key)[-1:] or [op for op in a.ops if (op.kind, op.key) == ('r', key)])[0]
        left, verb = b.writes(key)[-1], 'wrote' if op.kind == 'w' else 'reads'
        held = self.update(a, op, key, first) or (self.whose(op) if op.kind == 'r' else '')
        said = (a.name, verb, key, op.wid, op.line, held, which, left.wid, b.name, left.line)
        return '%s %s %s %d (line %d)%s, which %s before %d, which %s wrote (line %d)' % said

    def said_of_step(self, number, key, first, second, u, v):
        """The lines of a step: the order that it keeps, and by which read of the key the one that ends the walk stands there, where it reads
        the key."""
        lines = ['[%s] %s:' % (number, self.said_of_order(key, first, second))]
        for read in [op for op in self.named[u].ops if (op.kind, op.key) == ('r', key)][:u != second]:
            said = (u, v, read.wid, read.line, self.update(self.named[u], read, key, second), self.named[second].writes(key)[-1].wid)
            lines.append('    %s, which comes after %s, reads %d (line %d)%s, so %d is the later version:' % said)
        return lines

    def side(self, key, first, second):
        """The edges of: the chain that begins with the first before the one that begins with the second."""
        if (key, first) not in self.sides:
            self.sides[key, first] = self.ends(key, first)
        return [(name, second) for name in self.sides[key, first]]

    def last_and_readers(self, key, first):
        """The last writer of a chain, and who reads its version."""
        last = self.named[first]
        while True:
            readers = self.readers(key, last.writes(key)[-1].wid)
            behind = [it for it in readers if it.writes(key)]
            if not behind:
                return last, readers
            last = behind[0]

    def last_of(self, key, first):
        return self.last_and_readers(key, first)[0].name

    def ends(self, key, first):
        """Who stands before each chain behind this one: the readers of its last writer, or where it has none this writer."""
        last, readers = self.last_and_readers(key, first)
        return [it.name for it in readers or [last]]


# ---- what `explain` says

class Wrong(Exception):
    """What is wrong with an explanation."""


def told(holds, what):
    if not holds:
        raise Wrong(what)


class Telling:
    """The lines behind the first one, where pruning ends in a cycle or every cube is refuted, read one by one. Steps are known by the edges
    that they keep, a decided order by its key and the two chains."""

    def __init__(self, log, lines, what):
        self.log, self.lines, self.what, self.at = log, lines, what, 0
        self.steps, self.used, self.leaves, self.left_out, self.met = [], set(), 0, 0, collections.Counter()
        self.taken, self.refuting = set(), []

    def line_at(self, place, form, depth):
        """What the line at this place says, if it has this form, behind two blanks for each decision above."""
        line = self.lines[place] if place < len(self.lines) else ''
        found = form.fullmatch(line, 2 * depth) if line.startswith('  ' * depth) else None
        return found and found.groups()

    def next(self, form, depth=0):
        """The same of the next line, which is read then."""
        found = self.line_at(self.at, form, depth)
        self.at += found is not None
        return found

    def rest(self):
        return self.lines[self.at:self.at + 1]

    def judge(self):
        self.crossed()
        while True:
            step = self.next(STEP)
            if step is None:
                break
            self.judge_step(*step)
        count = len(self.steps)
        if self.what == 'A9':
            self.known_as(self.cycle([]))
            self.met['steps %d' % count if count < 4 else 'steps 4 or more'] += 1
        else:
            self.tree()
            self.met['tree with steps'] += count > 0
        told(not self.rest(), 'more behind the end: %r' % self.rest())
        told(self.used == set(range(1, count + 1)), 'steps that nothing needs')

    def crossed(self):
        """Four transactions that read all four pairs of two versions of a key and two of another, where the log has such."""
        has = self.log.has_crossed()
        self.met['%s with%s crossed reads' % (self.what, '' if has else 'out')] += 1
        told((self.rest() == [CROSSED]) == has, 'crossed reads: %r, wanted %s' % (self.rest(), has))
        if not has:
            return
        self.at += 1
        versions = []
        for place in range(4):
            pair = self.next(PAIR)
            told(pair, 'no pair at %r' % self.rest())
            name, *reads = pair
            told(self.log.named.get(name) in self.log.nodes, 'no committed or taken transaction %s' % name)
            for key, wid, line in (reads[:3], reads[3:]):
                told(self.log.named[name].reads(key)[:1] == [Op('r', key, int(wid), int(line))], '%s does not first read %s so' % (name, key))
            versions.append((tuple(reads[:2]), tuple(reads[3:5])))
        first, second = ([pair[place] for pair in versions] for place in (0, 1))
        told(first[0] == first[1] != first[2] == first[3] and first[0][0] == first[2][0], 'the first key: %r' % first)
        told(second[0] == second[2] != second[1] == second[3] and second[0][0] == second[1][0] != first[0][0], 'the second key: %r' % second)
        told(self.rest() == [LONG_FORK], 'wanted %r' % LONG_FORK)
        self.at += 1

    def judge_step(self, number, key, first, second):
        where, place = 'step %s' % number, self.at - 1
        told(int(number) == len(self.steps) + 1, '%s stands at place %d' % (where, len(self.steps) + 1))
        self.two_chains(where, key, first, second)
        since = self.next(SINCE)
        lines = self.lines[place:self.at]
        walk = self.edges(where, [], WALK)
        u, v = walk[-1][1], walk[0][0]
        right = self.log.said_of_step(number, key, first, second, u, v)
        told(lines == right, '%s: wanted %r' % (where, right))
        follows = self.log.side(key, second, first) + [(self.log.last_of(key, second), first)]
        told((u, v) in follows, '%s: the other side has no such edge' % where)
        self.no_way_around(where, walk)
        kinds = self.kinds(walk)
        self.taken |= {*kinds}
        self.refuting.append(kinds + ['missed write' if since else 'order of writes'])
        for a, _, _ in walk[:-1]:
            for w, _ in self.log.side(key, second, first):
                told(w == u or not self.log.reason(a, w)[0], '%s: %s is nearer, behind %s' % (where, w, a))
        self.steps.append((key, first, self.log.side(key, first, second)))
        self.met['a walk of 4 edges or more'] += len(walk) > 3
        self.met['a step by a walk alone' if since is None else 'a step by a read' + ' of an update' * (' over ' in lines[1])] += 1

    def known_as(self, edges):
        """The name of the cycle that these edges close, which is the last line: that of the mildest among this cycle and what refutes the
        other order of each step."""
        cycle = self.kinds(edges)
        right = 'known as: ' + self.log.named_by([cycle] + self.refuting, self.taken)
        told(self.rest() == [right], 'wanted %r' % right)
        self.at += 1
        self.met['A9 ' + right] += 1
        self.met['A9 named by a step'] += self.log.named_by([cycle], self.taken) != right[len('known as: '):]

    def kinds(self, edges):
        """The kinds of edges, each with the number of the step that it rests on, if there is one."""
        return [self.log.reason(a, b)[0] or self.kind_by_order(a, self.steps[ground - 1][0]) for a, b, ground in edges]

    def kind_by_order(self, name, key):
        """The kind of an edge from this transaction by an order of two versions of the key."""
        return 'missed write' if self.log.named[name].reads(key) else 'order of writes'

    def no_way_around(self, where, edges):
        """Of what these edges lead over, only neighbours are an edge that the log shows, but for edges of moments where none is told."""
        names, passed = [edges[0][0]] + [b for _, b, _ in edges], {None}
        passed |= {'moments'} - {self.log.reason(a, b)[0] for a, b in zip(names, names[1:])}
        for place, a in enumerate(names):
            for b in names[place + 2:]:
                told(self.log.reason(a, b)[0] in passed, '%s: a way around %s before %s' % (where, a, b))

    def two_chains(self, where, key, *both):
        told(both[0] != both[1], '%s has one chain' % where)
        for name in both:
            told(self.log.begins_chain(self.log.named.get(name), key), '%s: no chain of %s begins with %s' % (where, key, name))

    # ---- the tree of a search

    def tree(self):
        said = self.next(LEAVES)
        self.below([])
        leaves = self.leaves + self.left_out
        told((said is not None) == (leaves > 1), '%r, and %d leaves' % (said, leaves))
        count = said and said[0] and int(said[0])
        told(count >= leaves > MOST_LEAVES if count else not self.left_out, '%r, and %d branches are left out' % (said, self.left_out))
        self.met['tree of more than 1000 leaves'] += count is not None

    def below(self, decided):
        """What stands below these orders: a choice with both its orders, or a cycle; and nothing behind the last cycle that is told."""
        depth = len(decided)
        if self.leaves == MOST_LEAVES:
            self.left_out += 1
            return
        first = self.next(ORDER, depth)
        if first is None:
            self.cycle(decided)
            self.leaves += 1
            self.met['tree of depth %d' % depth if depth < 4 else 'tree of depth 4 or more'] += 1
            return
        key, p, q = first
        self.order(depth, key, p, q)
        told(not {(key, p, q), (key, q, p)} & set(decided), 'a choice of %s is split twice' % key)
        self.below(decided + [(key, p, q)])
        told(self.next(ORDER, depth) == (key, q, p), 'the second order of %s is not at %r' % (key, self.rest()))
        self.order(depth, key, q, p)
        self.below(decided + [(key, q, p)])

    def order(self, depth, key, *both):
        """The decided order of the line that was just read."""
        self.two_chains('a choice of %s' % key, key, *both)
        right = '  ' * depth + 'suppose %s:' % self.log.said_of_order(key, *both)
        told(self.lines[self.at - 1] == right, 'wanted %r' % right)

    # ---- edges

    def cycle(self, decided):
        start = self.next(CYCLE, len(decided))
        told(start, 'no cycle at %r' % self.rest())
        edges = self.edges('the cycle', decided)
        told(edges[0][0] == start[0] == edges[-1][1], 'the cycle does not close')
        told(len({edge[0] for edge in edges}) == len(edges), 'the cycle passes a transaction twice')
        if self.what == 'A9':
            self.no_way_around('the cycle', edges)
        grounds = {ground for _, _, ground in edges} - {None}
        steps = grounds - set(decided)
        self.met['a cycle with 2 steps'] += len(steps) > 1
        self.met['a cycle with 2 decided orders'] += len(grounds - steps) > 1
        self.met['a cycle with a step and a decided order'] += steps not in (set(), grounds)
        return edges

    def edges(self, where, decided, depth=None):
        """The edges that stand next, so deep, or as deep as these orders are decided, each with what it rests on. Each has its line, and
        begins where the one before it ends."""
        found = []
        while True:
            edge = self.next(EDGE, len(decided) if depth is None else depth)
            if edge is None:
                break
            a, b, said = edge
            for name in edge[:2]:
                told(self.log.named.get(name) in self.log.nodes, '%s: no committed or taken transaction %s' % (where, name))
            told(not found or found[-1][1] == a, '%s: %s does not follow' % (where, a))
            kind, rights = self.rights((a, b), decided)
            told(rights, '%s: %s before %s: no reason, no step and no order' % (where, a, b))
            told(said in rights, '%s: %s before %s: %s: wanted %s' % (where, a, b, said, ' or '.join(rights)))
            told(not found or not self.log.is_run(found[-1][0], a, b), '%s: %s before %s: a run of one session in two lines' % (where, a, b))
            self.used |= {rights[said]} if kind == 'forced' else set()
            self.met['%s %s' % (self.what if decided or self.what == 'A9' else 'step', kind)] += 1
            self.met['an order of 2 decided above'] += len(rights) > 1
            self.met['%s over an update' % kind] += kind in ('forced', 'decided') and ' over an update of ' in said
            self.met['%s %s of an update' % (kind, said.split(' ')[1])] += kind in ('forced', 'decided') and ' over ' in said
            self.met['%s of a writer' % kind] += kind in ('forced', 'decided') and bool(re.search(r'\(line [0-9]+\) of ', said))
            found.append((a, b, rights[said]))
        told(found, '%s: no edge at %r' % (where, self.rest()))
        return found

    def rights(self, edge, decided):
        """The kind of what an edge has to rest on, and what may be said of it, with the step or the order that it names."""
        kind, said = self.log.reason(*edge)
        if kind:
            return kind, {said: None}
        for number, (key, first, kept) in enumerate(self.steps, 1):
            if edge in kept:
                return 'forced', {self.log.said_of_kept(edge, key, first, 'by [%d] comes' % number): number}
        return 'decided', {self.log.said_of_kept(edge, *order[:2], 'by supposition comes'): order for order in decided if edge in self.log.side(*order)}


def steps_first(lines):
    """These lines with the steps, which are told last, before the cycle or the tree that rests on them."""
    if FORCED not in lines:
        told(not any(STEP.fullmatch(line) for line in lines), 'steps that are not told last')
        return lines
    at = lines.index(FORCED)
    begins = next((n for n, line in enumerate(lines[:at]) if CYCLE.fullmatch(line) or LEAVES.fullmatch(line)), at)
    told(lines[at + 1:] and not any(STEP.fullmatch(line) for line in lines[:at]), 'steps elsewhere than behind their line')
    return lines[:begins] + lines[at + 1:] + lines[begins:at]


def without_short(log, checked, explained):
    """The lines behind those of `check`, without the one that tells the cycle in a sentence, which has to stand before the cycle; that of A7
    stays."""
    lines = explained[len(checked):].split('\n')[:-1]
    if UPDATE.fullmatch(checked.split('\n')[0]):
        return lines
    rest = [line for line in lines if not line.startswith(SHORT)]
    cycles = [n for n, line in enumerate(rest) if CYCLE.fullmatch(line)]
    at = cycles[0] if cycles else 0
    edges = [found.groups() for found in itertools.takewhile(bool, map(EDGE.fullmatch, rest[at + len(cycles):]))]
    is_cycle = edges and checked.split('\n')[0] != EVERY_CUBE
    right = rest[:at] + log.short(edges) + rest[at:] if is_cycle else rest
    told(lines == right, 'in short: wanted %r' % right)
    return rest


def without_table(lines):
    """These lines without the table of what the transactions of a tree did."""
    if lines[:1] != [TABLE]:
        return lines
    return lines[next((n for n, line in enumerate(lines) if n and not line.startswith('    ')), len(lines)):]


def judge(text, checked, explained, log=None):
    """What is met in an explanation, of which the first lines have to be these; else Wrong. Names and lines are those of this log."""
    told(explained[:len(checked)] == checked, 'the first lines are not those of check')
    told(explained.endswith('\n'), 'the last line does not end')
    log = log or Log(text)
    lines = steps_first(without_short(log, checked, explained))
    rest = without_table(lines)
    is_asked = checked.split('\n')[0] == EVERY_CUBE and CROSSED not in rest
    right = [TABLE] + ['    ' + '  '.join(row) for row in named_of(log, rest)] if is_asked else []
    told(lines[:len(lines) - len(rest)] == right, 'the table is %r, wanted %r' % (lines[:len(lines) - len(rest)], right))
    return judge_lines(text, checked, rest, log)


def judge_lines(text, checked, lines, log=None):
    """The same of the lines behind the first ones, in which steps stand before what rests on them."""
    first = checked.split('\n')[0]
    if first.startswith('unknown: '):
        told(lines == [TRY], 'wanted %r' % TRY)
        return collections.Counter(['unknown'])
    if first == 'serializable':
        told(not lines, 'more lines than check')
        return collections.Counter(['serializable'])
    code, log = 'tree' if first == EVERY_CUBE else first.split(' ')[2], log or Log(text)
    met = collections.Counter([code])
    if code in ('tree', 'A9'):
        telling = Telling(log, lines, code)
        telling.judge()
        return met + telling.met
    right = log.said_behind(checked)
    told(lines == right, 'wanted %r' % right)
    if code == 'A8':
        met += collections.Counter('A8 ' + log.reason(*EDGE.fullmatch(line).groups()[:2])[0] for line in lines[:-1])
        met['A8 of 4 edges or more'] += len(lines) > 4
        met[lines[-1]] += 1
    return met


# ---- graphs

def kind_of(said):
    """The kind of an edge by what is said of it, and its colour."""
    step = BY_STEP.fullmatch(said)
    if step:
        return 'forced [%s]' % step[3], 'orange'
    return next((kind, colour) for kind, form, colour in KINDS if re.fullmatch(form, said))


def edges_of(log, lines):
    """Each edge that lines tell: its two ends, what is said of it, and its kind and colour. Of a supposition the kind is the order that has it,
    among those above."""
    above = []
    for line in lines:
        bare = line.lstrip(' ')
        order, edge = ORDER.fullmatch(bare), EDGE.fullmatch(bare)
        if order:
            above[(len(line) - len(bare)) // 2:] = [order.groups()]
        elif edge and SUPPOSED.fullmatch(edge[3]):
            key = SUPPOSED.fullmatch(edge[3])[2]
            order = next(it for it in above if it[0] == key and edge.group(1, 2) in log.side(*it))
            yield (*edge.groups(), log.said_of_order(*order), 'gray')
        elif edge:
            yield (*edge.groups(), *kind_of(edge[3]))


def named_of(log, lines):
    """Of each transaction that these lines tell edges of, its name and those of its operations that the reasons name."""
    edges = list(edges_of(log, lines))
    parts = {name for edge in edges for name in edge[:2]}
    shown = [re.sub(BEHIND, '', said) for _, _, said, *_ in edges]
    named = {int(line) for said in shown for line in re.findall(r'\(line ([0-9]+)\)', said)}
    return [[it.name] + ['%s %s %d (line %d)' % op for op in it.ops if op.line in named] for it in log.transactions if it.name in parts]


def graph_of(text, checked, explained):
    """The graph of what these lines say, and nothing where a log was refused."""
    log = Log(text) if checked else None
    return drawn_of(log, checked, without_table(steps_first(without_short(log, checked, explained))))


def drawn_of(log, checked, lines):
    """The same of the lines behind those of `check`, in which there is no sentence and no table, and steps stand first."""
    first = checked.split('\n')[0]
    if READ.fullmatch(first) or UPDATE.fullmatch(first):
        drawn = ['"anomaly" [label="%s"];' % ''.join(line + '\\n' for line in lines)]
    else:
        edges = list(edges_of(log, lines))
        drawn = ['"%s" [label="%s"];' % (row[0], '\\n'.join(row)) for row in (named_of(log, lines) if log else ())]
        drawn += ['"%s" -> "%s" [label="%s" color="%s"];' % (a, b, kind, colour) for a, b, _, kind, colour in edges]
    comments = ['// ' + line for line in [first] + lines[:first.startswith('unknown: ')]]
    graph = [*comments, 'strict digraph explanation {', 'node [shape=box];', *drawn, '}'] if checked else []
    return ''.join(line + '\n' for line in graph)


# ---- lines that are spoilt

def spoilt(r, text, checked, explained):
    """What was done to an explanation of cycles, and what it then says, which is wrong."""
    log = Log(text)
    lines = without_table(steps_first(without_short(log, checked, explained)))
    bare = [line.lstrip(' ') for line in lines]
    edges, steps, cycles, orders = ([n for n, line in enumerate(bare) if form.fullmatch(line)] for form in (EDGE, STEP, CYCLE, ORDER))
    forced = [n for n in edges if BY_STEP.fullmatch(EDGE.fullmatch(bare[n])[3])]
    numbered = [n for n in edges if '(line ' in lines[n]]

    def without(first, behind=None):
        return lines[:first] + lines[behind or first + 1:]

    def instead(n, *those):
        blanks = lines[n][:len(lines[n]) - len(bare[n])]
        return lines[:n] + [blanks + line for line in those] + lines[n + 1:]

    def renamed(those, add, above=0):
        """The lines with other numbers of steps."""
        other = lambda found: '[%d]' % (int(found[1]) + (add if int(found[1]) > above else 0))
        return [re.sub(r'(?<![^ ])\[([0-9]+)\]', other, line) for line in those]

    n = r.choice(edges)
    a, b, said = EDGE.fullmatch(bare[n]).groups()
    yield 'an edge is left out', without(n)
    yield 'an edge stands twice', instead(n, bare[n], bare[n])
    yield 'an edge is turned round', instead(n, '%s before %s: %s' % (b, a, said))
    yield 'an edge of one transaction', instead(n, bare[n], '%s before %s: session %s' % (b, b, b.split('.')[0]))
    yield 'an edge to nowhere', instead(n, '%s before 65535.99: %s' % (a, said))
    kinds = 'session ' + a.split('.')[0], '%s ended at 1 (line 1), %s began at 2 (line 1)' % (a, b)
    yield 'another kind', instead(n, '%s before %s: %s' % (a, b, kinds[said == kinds[0]]))
    yield 'no reason', instead(n, '%s before %s' % (a, b))
    yield 'a space more', lines[:-1] + [lines[-1] + ' ']
    yield 'a line more', lines + [lines[-1]]
    yield 'a line less', lines[:-1]
    yield 'an empty line', lines + ['']
    if numbered:
        n = r.choice(numbered)
        at = r.choice([found.start(1) for found in re.finditer(r'\(line ([0-9]+)\)', bare[n])])
        end = bare[n].index(')', at)
        for add in (-1, 1):
            yield 'the wrong line number', instead(n, bare[n][:at] + str(int(bare[n][at:end]) + add) + bare[n][end:])
    for n in edges:
        a, b, _ = EDGE.fullmatch(bare[n]).groups()
        for _, also in log.reasons(a, b)[1:]:
            yield 'a reason that holds too, and is not the first', instead(n, '%s before %s: %s' % (a, b, also))
        for it in log.nodes:
            if log.is_run(a, it.name, b):
                yield 'a run in two lines', instead(n, *('%s before %s: %s' % (*two, log.reason(*two)[1]) for two in ((a, it.name), (it.name, b))))
        for it in log.nodes if cycles and (n < cycles[0] or not orders) and log.reason(a, b)[0] else ():
            if log.reason(a, it.name)[0] and log.reason(it.name, b)[0]:
                way = ((a, it.name), (it.name, b))
                yield 'a way around', instead(n, *('%s before %s: %s' % (*two, log.reason(*two)[1]) for two in way))
        for it in log.transactions:
            if it not in log.nodes and log.is_run(a, it.name, b):
                way = ((a, it.name), (it.name, b))
                yield 'a way by an aborted one', instead(n, *('%s before %s: session %s' % (*two, it.session) for two in way))
    if lines[-1].startswith('known as: '):
        yield 'a cycle without its name', lines[:-1]
        yield 'another name of a cycle', lines[:-1] + [re.sub(r'\(G.*\)|real time$', '(G2)', lines[-1])]
    if lines[0] == CROSSED:
        yield from spoilt_crossed(r, lines)
    if not cycles:
        return
    n = r.choice(cycles)
    yield 'a cycle from elsewhere', instead(n, 'cycle from %s:' % EDGE.fullmatch(bare[n + 1])[2])
    yield 'no cycle', lines[:n]
    for n in forced:
        a, b, said = EDGE.fullmatch(bare[n]).groups()
        behind = sum(m < n for m in steps) + (n > cycles[0])
        named = '[%s]' % BY_STEP.fullmatch(said)[3]
        for later in (behind, behind + 1):
            yield 'a step is named that is no earlier one', instead(n, bare[n].replace(named, '[%d]' % later))
        yield 'a step of number 0 is named', instead(n, bare[n].replace(named, '[0]'))
        yield 'a step is called a supposition', instead(n, bare[n].replace('by %s comes' % named, 'by supposition comes'))
        yield from spoilt_update(log, bare, n, instead)
    if orders:
        yield from spoilt_tree(r, log, lines, bare, without, instead)
    if not steps:
        return
    n = r.choice(steps)
    walk = next(m for m in range(n + 1, len(lines)) if m in edges)
    behind = next(m for m in range(walk, len(lines)) if m not in edges)
    number, key, first, second = STEP.fullmatch(lines[n]).groups()
    u, v, both = EDGE.fullmatch(bare[behind - 1])[2], EDGE.fullmatch(bare[walk])[1], lines[n:walk]

    def stepped(*those):
        return lines[:n] + list(those) + lines[walk:]

    yield 'a step is missing', without(n, behind)
    yield 'a step is missing, and the others renamed', renamed(without(n, behind), -1, int(number) - 1)
    yield 'a step stands twice', renamed(lines[:behind], 0) + renamed(lines[n:], 1, int(number) - 1)
    yield 'a step without its walk', without(walk, behind)
    yield 'the versions are exchanged', stepped(*log.said_of_step(number, key, second, first, u, v))
    yield 'another number', stepped(*log.said_of_step(int(number) + 1, key, first, second, u, v))
    yield 'another key', stepped(both[0].replace('] %s: ' % key, '] %s_: ' % key), *both[1:])
    if both[1:]:
        yield 'a step without its second line', without(n + 1)
        yield 'what is refuted is turned round', stepped(*log.said_of_step(number, key, first, second, v, u))
        yield 'what follows is not said', stepped(both[0], both[1].rsplit(', so ', 1)[0] + ':')
    else:
        op = r.choice(log.named[u].ops)
        yield 'a read is told where none is', stepped(both[0], '    %s, which comes after %s, reads %d (line %d), so %d is the later version:' % (u, v, op.wid, op.line, op.wid))
    n = r.randrange(walk, behind)
    for moved in (bare[n], '  ' + bare[n], '   ' + bare[n], '     ' + bare[n], '      ' + bare[n]):
        yield 'a walk is not indented so', lines[:n] + [moved] + lines[n + 1:]
    n = cycles[0] + 1
    if not orders:
        yield 'a cycle behind steps is indented', lines[:n] + ['    ' + lines[n]] + lines[n + 1:]
    n = steps[int(number) - 1]
    for place in range(len(both)):
        for at in [found.start() for found in re.finditer(r'[0-9]+(?=, which|, reads| is |[)]|$| \(line)', both[place])]:
            spoilt_line = both[place][:at] + '9' + both[place][at:]
            yield 'another number in a step', stepped(*(both[:place] + [spoilt_line] + both[place + 1:]))
    yield 'all numbers one higher', renamed(lines, 1)


def spoilt_short(r, log, explained):
    """The same of the sentence of a cycle, by the whole text."""
    lines = explained.split('\n')
    at = next((n for n, line in enumerate(lines) if line.startswith(SHORT)), None)
    if at is None:
        return
    said, others = lines[at], [it.name for it in log.nodes]
    instead = lambda *those: '\n'.join(lines[:at] + list(those) + lines[at + 1:])
    yield 'the sentence is not told', instead()
    yield 'the sentence is told twice', instead(said, said)
    yield 'the sentence stands elsewhere', instead(lines[at + 1], said) if lines[at + 1].startswith('cycle') else '\n'.join(lines[:at] + lines[at + 1:-1] + [said, ''])
    yield 'the sentence ends too early', instead(re.split('; |, but ', said)[0])
    place = r.choice([found.span() for found in re.finditer(NODE, said)])
    other = r.choice(others)
    if other != said[place[0]:place[1]]:
        yield 'another transaction in the sentence', instead(said[:place[0]] + other + said[place[1]:])
    for one, another in ((' saw ', ' did not see '), (' did not see ', ' saw '), ('; ', ', but '), (', but ', '; '), ("'s ", "'s _"), (' after ', ' before ')):
        if one in said:
            yield 'other words in the sentence', instead(said.replace(one, another, 1))


def spoilt_crossed(r, lines):
    """The same of four reads before a tree."""
    yield 'the reads are not told', lines[6:]
    yield 'the reads have no name', lines[:5] + lines[6:]
    yield 'the reads have another name', lines[:5] + ['known as: write skew (G2-item)'] + lines[6:]
    yield 'the reads are told twice', lines[:6] + lines
    n = r.randrange(1, 5)
    yield 'three reads are told', lines[:n] + lines[n + 1:]
    yield 'a read stands twice', lines[:n] + [lines[n - 1 if n > 1 else n + 1]] + lines[n + 1:]
    yield 'two reads are exchanged', lines[:1] + [lines[2], lines[1]] + lines[3:]
    for at in [found.start() for found in re.finditer(r'[0-9]+(?= \(line|\))', lines[n])]:
        yield 'another number in a read', lines[:n] + [lines[n][:at] + '9' + lines[n][at:]] + lines[n + 1:]
    yield 'a read is indented otherwise', lines[:n] + [lines[n][2:]] + lines[n + 1:]


def spoilt_update(log, bare, n, instead):
    """The same of what an edge by an order says of whose version one is, or of which it is an update."""
    head, tail = re.fullmatch(r'(.*?\(line [0-9]+\))(.*)', bare[n]).groups()
    update, whose = (re.match('(?:%s)?' % form, tail)[0] for form in ('%s|%s' % (BEHIND, OVER), OF))
    tail = tail[len(update or whose):]
    if whose:
        yield 'it is not told whose version is read', instead(n, head + tail)
        yield 'the line of a writer is told', instead(n, head + ', which %s wrote (line 1)' % whose[4:] + tail)
    for it in [it for it in log.transactions if whose != ' of ' + it.name][:3]:
        yield 'a version is of another writer', instead(n, head + ' of ' + it.name + tail)
    if whose != ', the initial value':
        yield 'a version is the initial value', instead(n, head + ', the initial value' + tail)
    if update:
        yield 'it is not told over what a version was written', instead(n, head + tail)
        yield 'a version was written over another', instead(n, head + update + '9' + tail)
        of = ' over an update of ' if ' over an update of ' in update else ' over '
        yield 'a version was written over an update, or over none', instead(n, head + update.replace(of, ' over ' * (of != ' over ') or ' over an update of ') + tail)
    if update.startswith(','):
        yield 'it is not told who wrote a version', instead(n, head + ' over ' + update.split(' over ')[1] + tail)
        yield 'another wrote a version', instead(n, head + re.sub(r'[.]([0-9]+) wrote', r'.\1\g<1> wrote', update) + tail)
        yield 'another line wrote a version', instead(n, head + update.replace(' (line ', ' (line 9') + tail)
    if not update:
        yield 'a version was written over itself', instead(n, head + ' over %s' % head.split(' ')[-3] + tail)


def spoilt_tree(r, log, lines, bare, without, instead):
    """The same of what only a tree has."""
    depth = [len(line) - len(said) for line, said in zip(lines, bare)]
    orders = [n for n, line in enumerate(bare) if ORDER.fullmatch(line)]
    behind = lambda n: next((m for m in range(n + 1, len(lines)) if depth[m] <= depth[n]), len(lines))
    pairs = [(n, behind(n), behind(behind(n))) for n in orders if depth[n] in depth[behind(n):behind(n) + 1]]
    n, m, end = r.choice(pairs)
    key = ORDER.fullmatch(bare[n])[1]
    for at, stop, other in ((n, m, m), (m, end, n)):
        first = ORDER.fullmatch(bare[at])[2]
        yield 'an order is missing', without(at)
        yield 'an order is missing, with all below it', without(at, stop)
        yield 'nothing stands below an order', without(at + 1, stop)
        yield 'an order stands twice', instead(at, bare[other])
        yield 'an order of another key', instead(at, bare[at].replace('suppose %s: ' % key, 'suppose %s_: ' % key))
        for it in [it for it in log.transactions if not log.begins_chain(it, key)][:1]:
            yield 'an order of no chain', instead(at, bare[at].replace(', which %s wrote' % first, ', which %s wrote' % it.name))
        for place in [found.start() for found in re.finditer(r'[0-9]+(?=, which|[)])', bare[at])]:
            yield 'another number in an order', instead(at, bare[at][:place] + '9' + bare[at][place:])
    for first, second, _ in pairs:
        needed = ORDER.fullmatch(bare[first]).group(1, 3)
        named = [SUPPOSED.fullmatch(found[3]) for found in map(EDGE.fullmatch, bare[first + 1:second]) if found]
        if needed in [found.group(2, 3) for found in named if found]:
            both = instead(first, bare[second])
            both[second] = lines[first]
            yield 'two orders are exchanged', both
        if CYCLE.fullmatch(bare[first + 1]):
            below = ['  ' + line for line in lines[first + 1:second]]
            once_more = ['  ' + lines[first], *below, '  ' + lines[second], *below]
            yield 'a choice is split twice', lines[:first + 1] + once_more + lines[second:]
    chosen = [(n, *found.groups()) for n, found in ((n, EDGE.fullmatch(line)) for n, line in enumerate(bare)) if found and SUPPOSED.fullmatch(found[3])]
    for n, a, b, said in chosen[:3]:
        found = SUPPOSED.fullmatch(said)
        yield from spoilt_update(log, bare, n, instead)
        yield 'an order of another key is named', instead(n, '%s before %s: %s' % (a, b, said[:found.end(2)] + '_' + said[found.end(2):]))
        yield 'a supposition is called a step', instead(n, '%s before %s: %s' % (a, b, said.replace('by supposition comes', 'by [1] comes')))
        for it in log.nodes:
            if it.name != b and it.writes(found[2]):
                left, held = it.writes(found[2])[-1], said[:said.index(' before ')]
                yield 'another version is named', instead(n, '%s before %s: %s before %d, which %s wrote (line %d)'
                                                          % (a, b, held, left.wid, it.name, left.line))
        for op in [op for op in log.named[a].ops if op.key == found[2]][:1]:
            there = '%s %s %s %d (line %d),' % (a, 'reads' if ' wrote ' + found[2] in said[:found.end(2)] else 'wrote', op.key, op.wid, op.line)
            yield 'a read is called a write', instead(n, '%s before %s: %s' % (a, b, there + said.split(',', 1)[1]))
    n = r.randrange(orders[0], len(lines))
    for moved in [' ' + lines[n], '  ' + lines[n]] + [lines[n][by:] for by in (1, 2) if depth[n]]:
        yield 'a line is moved', lines[:n] + [moved] + lines[n + 1:]
    yield 'no line is indented', bare
    yield 'no line stands before the tree', without(orders[0] - 1)
    for count in (len(pairs) + 1, MOST_LEAVES, MOST_LEAVES + 1):
        said = 'proof: whichever of these versions came first, a cycle closes, %d in all; the first 1000 of them:' % count
        yield 'leaves are counted that are all told', lines[:orders[0] - 1] + [said] + lines[orders[0]:]


# ---- logs

def by_hand(words, *said):
    """A log by its lines, and what is to be said of it behind the line of the verdict."""
    return '\n'.join(words.split(', ') + ['']).encode(), said


BY_HAND = [
    by_hand('session 1, begin, r x 18446744073709551615, w y 18446744073709551615, commit', 'A1 unknown read at 1.1 op 1',
            '1.1 reads x 18446744073709551615 (line 3), which no transaction wrote to x; 1.1 wrote y 18446744073709551615 (line 4)'),
    by_hand('session 1, begin, r x 0, r x 0, r x 5, commit', 'A1 unknown read at 1.1 op 3', '1.1 reads x 0 (line 3), the initial value',
            '1.1 then reads x 5 (line 5), which no transaction wrote'),
    # an identity that was written to another key
    by_hand('session 1, begin, r x 2, commit, session 2, begin, w y 1, w z 2, abort', 'A1 unknown read at 1.1 op 1',
            '1.1 reads x 2 (line 3), which no transaction wrote to x; 2.1 wrote z 2 (line 8)'),
    by_hand('session 1, begin, r x 3, r x 4, w y 4, w z 3, commit', 'A1 unknown read at 1.1 op 1',
            '1.1 reads x 3 (line 3), which no transaction wrote to x; 1.1 wrote z 3 (line 6)'),
    by_hand('session 7, begin, w x 1, abort, session 2, begin, r x 1, commit', 'A2 aborted read at 2.1 op 1',
            '2.1 reads x 1 (line 7), which 7.1 wrote (line 3) and aborted (line 4)'),
    by_hand('log 3, session 1, begin 4, w x 1, w x 2, w x 3, abort, session 2, begin, r x 0, r x 1, commit', 'A2 aborted read at 2.1 op 2',
            '2.1 reads x 0 (line 10), the initial value',
            '2.1 then reads x 1 (line 11), which 1.1 wrote (line 4) and overwrote with 2 (line 5) and aborted (line 7)'),
    by_hand('session 1, begin, w x 1, w y 2, w x 3, commit, session 2, begin, r x 1, commit', 'A3 intermediate read at 2.1 op 1',
            '2.1 reads x 1 (line 9), which 1.1 wrote (line 3) and overwrote with 3 (line 5)'),
    by_hand('log 2, session 1, begin, w x 1, w x 3, unknown, session 2, begin, r x 3, r x 1, commit', 'A3 intermediate read at 2.1 op 2',
            '2.1 reads x 3 (line 9), which 1.1 wrote (line 5), whose outcome is unknown (line 6)',
            '2.1 then reads x 1 (line 10), which 1.1 wrote (line 4) and overwrote with 3 (line 5), whose outcome is unknown (line 6)'),
    by_hand('session 1, begin, w x 1, w x 2, r x 1, commit', 'A4 own write missed at 1.1 op 3',
            '1.1 writes x 2 (line 4)', '1.1 then reads x 1 (line 5), which 1.1 wrote (line 3) and overwrote with 2 (line 4)'),
    by_hand('session 1, begin, r x 0, w x 1, r x 0, commit', 'A4 own write missed at 1.1 op 3', '1.1 writes x 1 (line 4)',
            '1.1 then reads x 0 (line 5), the initial value'),
    by_hand('session 1, begin, w x 1, r x 2, w x 2, w x 3, commit', 'A4 own write missed at 1.1 op 2',
            '1.1 writes x 1 (line 3)', '1.1 then reads x 2 (line 4), which 1.1 writes itself only later (line 5) and overwrote with 3 (line 6)'),
    by_hand('session 1, begin, w x 1, abort, begin, w x 2, r x 9, commit', 'A4 own write missed at 1.2 op 2',
            '1.2 writes x 2 (line 6)', '1.2 then reads x 9 (line 7), which no transaction wrote'),
    by_hand('session 1, begin, r x 1, w x 1, commit', 'A5 future read at 1.1 op 1', '1.1 reads x 1 (line 3), which 1.1 writes itself only later (line 4)'),
    by_hand('log 2, session 1, begin, r x 0, r x 1, w x 1, w x 2, unknown, session 2, begin, r x 2, commit', 'A5 future read at 1.1 op 2',
            '1.1 reads x 0 (line 4), the initial value',
            '1.1 then reads x 1 (line 5), which 1.1 writes itself only later (line 6) and overwrote with 2 (line 7), whose outcome is unknown (line 8)'),
    by_hand('session 1, begin, w x 1, commit, session 2, begin, r x 1, r y 0, r x 0, commit', 'A6 split read at 2.1 op 3',
            '2.1 reads x 1 (line 7), which 1.1 wrote (line 3)', '2.1 then reads x 0 (line 9), the initial value'),
    by_hand('session 1, begin, w x 1, commit, session 2, begin, r x 0, r x 0, r x 1, commit', 'A6 split read at 2.1 op 3',
            '2.1 reads x 0 (line 7), the initial value', '2.1 then reads x 1 (line 9), which 1.1 wrote (line 3)'),
    by_hand('session 1, begin, r x 0, w x 1, w x 2, commit, begin, commit, begin, r x 0, r x 0, w x 3, w x 4, commit',
            'A7 lost update of x from 0.0 by 1.1 and 1.3', "in short: 1.1 and 1.3 read one version of x and both overwrote it; 1.3 did not see 1.1's",
            '1.1 reads x 0 (line 3), the initial value', '1.1 overwrites it with 2 (line 5)',
            '1.3 reads x 0 (line 10), the initial value', '1.3 overwrites it with 4 (line 13)'),
    by_hand('log 2, session 1, begin, w a.b 1, w a.b 5, unknown, session 2, begin, r a.b 5, w a.b 6, commit, '
            'session 3, begin, w y 7, r a.b 5, w a.b 8, commit',
            'A7 lost update of a.b from 1.1 by 2.1 and 3.1', "in short: 2.1 and 3.1 read one version of a.b and both overwrote it; neither saw the other's",
            '2.1 reads a.b 5 (line 9), which 1.1 wrote (line 5), whose outcome is unknown (line 6)',
            '2.1 overwrites it with 6 (line 10)',
            '3.1 reads a.b 5 (line 15), which 1.1 wrote (line 5), whose outcome is unknown (line 6)',
            '3.1 overwrites it with 8 (line 16)'),
    # session, over an aborted one, and read
    by_hand('session 1, begin, r x 1, commit, begin, w x 9, abort, begin, w x 1, commit', 'A8 cycle of known edges', 'cycle 1.1 1.3 1.1',
            "in short: 1.3 came after 1.1 in its session; 1.1 saw 1.3's x", '1.1 before 1.3: session 1', '1.3 before 1.1: 1.1 reads x 1 (line 3), which 1.3 wrote (line 9)',
            'known as: a read from the future (G1c-process)'),
    # anti-dependencies, of the least key, with the first operations
    by_hand('session 1, begin, w b 1, abort, session 2, begin, r a 0, r a 0, r b 0, w a 2, w a 3, w b 4, w b 8, r c 0, r c 0, commit, '
            'session 3, begin, r c 0, w c 5, w c 9, w d 7, r b 0, r b 0, r a 0, commit, session 4, begin, r a 0, w a 6, abort',
            'A8 cycle of known edges', 'cycle 2.1 3.1 2.1',
            "in short: 2.1 did not see 3.1's c; 3.1 did not see 2.1's b",
            '2.1 before 3.1: 2.1 reads c 0 (line 14), the initial value, and 3.1, which reads it too, overwrites it with 5 (line 20)',
            '3.1 before 2.1: 3.1 reads b 0 (line 23), the initial value, and 2.1, which reads it too, overwrites it with 4 (line 12)',
            'known as: write skew (G2-item)'),
    # version order, behind a chain of two writers, with the first operation and not the least key
    by_hand('session 1, begin, r z 0, r x 0, w x 1, commit, session 2, begin, r x 1, w x 2, r y 4, r z 0, commit, '
            'session 3, begin, w x 3, w z 9, w y 4, commit', 'A8 cycle of known edges', 'cycle 2.1 3.1 2.1',
            "in short: 2.1 saw 3.1's y, but did not see 3.1's x",
            '2.1 before 3.1: 2.1 reads x 1 (line 9), which 1.1 wrote (line 5) over the initial value, and 3.1 wrote x 3 (line 16)',
            '3.1 before 2.1: 2.1 reads y 4 (line 11), which 3.1 wrote (line 18)',
            'known as: read skew (G-single)'),
    # version order, behind a chain of two writers that is read to its end
    by_hand('session 1, begin, r x 0, w x 1, commit, session 2, begin, r x 1, w x 5, w x 2, commit, session 3, begin, r x 2, r y 4, commit, '
            'session 4, begin, w x 3, w y 4, commit', 'A8 cycle of known edges', 'cycle 3.1 4.1 3.1',
            "in short: 3.1 saw 4.1's y, but did not see 4.1's x",
            '3.1 before 4.1: 3.1 reads x 2 (line 14), which 2.1 wrote (line 10) over an update of the initial value, and 4.1 wrote x 3 (line 19)',
            '4.1 before 3.1: 3.1 reads y 4 (line 15), which 4.1 wrote (line 20)',
            'known as: read skew (G-single)'),
    # a read, an anti-dependency and moments one way, an anti-dependency and the order of versions the other
    by_hand('log 3, session 1, begin 1, w x 1, r y 0, r u 0, w u 2, w v 3, commit 3, session 2, begin 5, r v 0, r u 0, r y 0, w y 4, r x 1, '
            'r x 1, commit 6', 'A8 cycle of known edges', 'cycle 1.1 2.1 1.1',
            "in short: 2.1 saw 1.1's x, but did not see 1.1's u",
            '1.1 before 2.1: 2.1 reads x 1 (line 16), which 1.1 wrote (line 4)',
            '2.1 before 1.1: 2.1 reads u 0 (line 13), the initial value, and 1.1, which reads it too, overwrites it with 2 (line 7)',
            'known as: read skew (G-single)'),
    # the order of versions, and moments
    by_hand('log 3, session 1, begin 1, r x 0, r y 2, commit 3, session 2, begin 5, w x 1, w y 2, commit 6',
            'A8 cycle of known edges', 'cycle 1.1 2.1 1.1',
            "in short: 1.1 saw 2.1's y, but did not see 2.1's x",
            '1.1 before 2.1: 1.1 reads x 0 (line 4), the initial value, and 2.1 wrote x 1 (line 9)',
            '2.1 before 1.1: 1.1 reads y 2 (line 5), which 2.1 wrote (line 10)',
            'known as: read skew (G-single)'),
    # moments
    by_hand('log 3, session 5, begin 7, r x 1, commit 8, session 6, begin 9, w x 1, commit 10', 'A8 cycle of known edges', 'cycle 5.1 6.1 5.1',
            "in short: 6.1 began after 5.1 ended; 5.1 saw 6.1's x", '5.1 before 6.1: 5.1 ended at 8 (line 5), 6.1 began at 9 (line 7)', '6.1 before 5.1: 5.1 reads x 1 (line 4), which 6.1 wrote (line 8)',
            'known as: a read from the future (G1c-realtime)'),
    # what one of two reads of the other comes before their session
    by_hand('session 1, begin, w x 1, r y 2, commit, begin, r x 1, w y 2, commit', 'A8 cycle of known edges', 'cycle 1.1 1.2 1.1',
            "in short: 1.2 saw 1.1's x; 1.1 saw 1.2's y", '1.1 before 1.2: 1.2 reads x 1 (line 7), which 1.1 wrote (line 3)',
            '1.2 before 1.1: 1.1 reads y 2 (line 4), which 1.2 wrote (line 8)', 'known as: circular information flow (G1c)'),
    # neither order of two versions: an update misses a write
    by_hand('session 1, begin, w x 1, commit, begin, w x 2, w y 4, commit, session 2, begin, r x 1, w x 3, r y 4, commit',
            'A9 pruning ends in a cycle', "in short: 2.1 saw 1.2's y, but did not see 1.2's x (by [1])", 'cycle from 1.2:', '1.2 before 2.1: 2.1 reads y 4 (line 13), which 1.2 wrote (line 7)',
            '2.1 before 1.2: 2.1 wrote x 3 (line 12) over 1, which by [1] comes before 2, which 1.2 wrote (line 6)',
            'known as: read skew by way of sessions (G-single-process)', FORCED,
            '[1] x: 1, which 1.1 wrote (line 3), comes before 2, which 1.2 wrote (line 6):', '    1.1 before 1.2: session 1'),
    # neither order, and what the step refutes is milder than the cycle
    by_hand('session 1, begin, w x 1, r y 5, commit, begin, r z 0, commit, session 2, begin, w x 2, w y 5, commit, '
            'session 3, begin, r x 2, w z 3, commit',
            'A9 pruning ends in a cycle', "in short: 1.1 saw 2.1's y; 2.1 wrote x after 1.1 (by [1])", 'cycle from 2.1:', '2.1 before 1.1: 1.1 reads y 5 (line 4), which 2.1 wrote (line 12)',
            '1.1 before 2.1: 1.1 wrote x 1 (line 3), which by [1] comes before 2, which 2.1 wrote (line 11)',
            'known as: cycle of missed writes and sessions (G2-item-process)', FORCED,
            '[1] x: 1, which 1.1 wrote (line 3), comes before 2, which 2.1 wrote (line 11):',
            '    3.1, which comes after 1.1, reads 2 (line 16), so 2 is the later version:',
            '    1.1 before 1.2: session 1', '    1.2 before 3.1: 1.2 reads z 0 (line 7), the initial value, and 3.1 wrote z 3 (line 17)'),
]


class Making:
    """A log in the making: transactions as lists of operations, by session."""

    def __init__(self, r):
        self.r, self.sessions, self.wids = r, [], iter(r.sample(range(1, 10 ** r.choice((3, 3, 18))), 200))
        self.fresh = r.sample(['x', 'y', 'z', 'cart', '1.1', 'a:b', 'k/2', '_', '-', 'before', 'x:', '7', 'line', 'w'], 14)
        self.fresh += ['key%d' % n for n in range(80)]
        self.stated = {}

    def key(self):
        return self.fresh.pop(0)

    def new(self):
        """A new transaction, in a session of its own."""
        it = []
        self.sessions.insert(self.r.randint(0, len(self.sessions)), [it])
        return it

    def follower(self, a):
        """A new transaction that stands behind a: the next one of its session, or by what they read and write."""
        session = next((session for session in self.sessions if session[-1] is a), None)
        if session and self.r.random() < 0.4:
            session.append([])
            return session[-1]
        b = self.new()
        self.orders(a, b)
        return b

    def write(self, it, key):
        wid = next(self.wids)
        it.append(('w', key, wid))
        return wid

    def orders(self, a, b):
        """Lets a stand before b, by what they read and write of a new key."""
        key, way = self.key(), self.r.randrange(4)
        if way == 0:
            b.append(('r', key, self.write(a, key)))
        elif way == 1:
            a.append(('r', key, 0))
            b.append(('r', key, 0))
            self.write(b, key)
        elif way == 2:
            a.append(('r', key, 0))
            self.write(b, key)
        else:
            a.append(('r', key, 0))
            wid = self.write(a, key)
            self.write(b, key)
            if self.r.random() < 0.5:
                self.new().append(('r', key, wid))

    def leads(self, a, b=None):
        """A walk of some edges from a to b, or to a new transaction."""
        for _ in range(self.r.choice((0, 0, 1, 2, 4))):
            a = self.follower(a)
        if b is None:
            return self.follower(a)
        self.orders(a, b)
        return b

    def forces(self, a, b):
        """Lets a stand before b by a choice of which one side goes against a walk."""
        key, first = self.key(), self.new()
        a.append(('r', key, self.write(first, key)))
        self.write(b, key)
        self.leads(first, b)

    def ends_before(self, a, b):
        """Lets a stand before b by moments."""
        self.stated[id(a)], self.stated[id(b)] = (None, 7), (9, None)

    def continued(self, key, wid):
        """A chain that goes on behind a write, for some writers; what the last one leaves."""
        while self.r.random() < 0.25:
            it = self.new()
            it.append(('r', key, wid))
            wid = self.write(it, key)
        return wid

    def text(self, version, timed=0.5):
        """The log, with some aborted transactions between, some outcomes that are unknown, and some moments."""
        r, made = self.r, []
        for session in self.sessions:
            if r.random() < 0.15:
                session.insert(r.randint(0, len(session)), None)
        count = sum(map(len, self.sessions))
        said = iter(generate.moments(r, count) if version == 3 and r.random() < timed else [(None, None)] * count)
        for number, session in zip(r.sample(range(1, 65536 if r.random() < 0.3 else 70), len(self.sessions)), self.sessions):
            its = []
            for place, ops in enumerate(session):
                outcome = 'abort' if ops is None else 'commit'
                if ops is None:
                    ops = [('w', r.choice(self.fresh + ['x', 'y']), next(self.wids)), ('r', 'x', 0)]
                if version > 1 and place + 1 == len(session) and r.random() < 0.12:
                    outcome = 'unknown'
                its.append(generate.stating(ops, outcome, *self.stated.get(id(session[place]), next(said))))
            made.append((number, its))
        return generate.text_of(made, version)


def forced_log(seed, version):
    """A log as examples/forced_cycle.log, with more steps and longer walks: what one transaction writes is known to stand behind a write
    of another, and so behind who reads that, and so behind what he writes, and so on. In most the last one reads of the first
    transaction. Other choices are forced too, which nobody needs."""
    m = Making(random.Random(seed))
    r = m.r
    first = m.new()
    last = m.leads(first)
    at, walks = first, [(first, last)]
    for _ in range(r.choice((1, 1, 2, 2, 3, 4, 5))):
        key = m.key()
        wid = m.continued(key, m.write(at, key))
        m.write(last, key)
        if r.random() < 0.3:
            m.continued(key, last[-1][2])
        at = m.new()
        at.append(('r', key, wid))
        walks.append((at, last))
        if r.random() < 0.3:
            at = m.leads(at)
    for _ in range(r.randint(0, 3)):
        key, (a, b) = m.key(), r.choice(walks)
        for it in (a, b):
            m.write(it, key)
            if r.random() < 0.4:
                m.new().append(('r', key, it[-1][2]))
    if r.random() < 0.9:
        m.leads(last, at) if r.random() < 0.5 else m.orders(last, at)
    return m.text(version)


def run_log(seed, version):
    """Transactions that ran one after the other over a few keys, in sessions and by moments of which some contradict that. Some reads
    are older than they should be; no read is one of A1 to A6."""
    r = random.Random(seed)
    keys, count = r.sample(('x', 'y', 'z', 'u', 'v'), r.randint(1, 5)), r.randint(3, 14)
    sessions, alone, store, left, wid = [[] for _ in range(r.randint(2, 7))], [], {}, {key: [0] for key in keys}, 0
    said, old, writes = generate.moments(r, count) if version == 3 else [(None, None)] * count, r.choice((0, 0.05, 0.2)), r.choice((0.3, 0.5))
    for pair in said:
        ops, view = [], {}
        for _ in range(r.randint(1, 5)):
            key = r.choice(keys)
            if r.random() < writes:
                wid += 1
                view[key] = wid
                ops.append(('w', key, wid))
            else:
                seen = r.choice(left[key]) if r.random() < old else store.get(key, 0)
                ops.append(('r', key, view.setdefault(key, seen)))
        outcome = r.choices(('commit', 'abort', 'unknown'), (9, 1, version > 1))[0]
        if outcome == 'commit' or outcome == 'unknown' and r.random() < 0.8:
            written = {key: wid for kind, key, wid in ops if kind == 'w'}
            store.update(written)
            for key, last in written.items():
                left[key].append(last)
        it = generate.stating(ops, outcome, *pair)
        if outcome == 'unknown':
            alone.append([it])
        else:
            r.choice(sessions).append(it)
    for session in sessions:
        if r.random() < 0.2:
            r.shuffle(session)
    sessions += alone
    r.shuffle(sessions)
    return generate.text_of(list(zip(r.sample(range(1, 99), len(sessions)), sessions)), version)


def crossed_log(seed, version, keys=('x',)):
    """Writers of these keys and writers of y, each in a session of its own, and readers of pairs of what they wrote: nothing is forced, and
    in many logs no choice is left in the end."""
    r = random.Random(seed)
    some = lambda kind, those, wid: [(kind, keys[at], wid + 4 * at) for at in those]
    places = range(len(keys))
    its = [some('w', places, wid) for wid in (1, 2)] + [[('w', 'y', wid)] for wid in (3, 4)]
    its += [some('r', r.sample(places, r.randint(1, len(keys))), x) + [('r', 'y', y)] for x in (1, 2) for y in (3, 4) if r.random() < 0.85]
    r.shuffle(its)
    return generate.text_of([(number, [reference.Transaction(ops, 'commit')]) for number, ops in enumerate(its, 1)], version)


def doubled_log(seed, version):
    """The same, where who writes x writes z too: an edge to it may be one of an order of each of them."""
    return crossed_log(seed, version, ('x', 'z'))


def searched_log(seed, version):
    """The same, where the chains may be longer, some readers are two transactions of which one is known to stand before the other, and
    the choices of other keys have nothing to do with it."""
    m = Making(random.Random(seed))
    r = m.r
    both = m.key(), m.key()
    left = [[m.continued(key, m.write(m.new(), key)) for _ in range(r.choice((2, 2, 2, 3)))] for key in both]
    for seen in [tuple(zip('rr', both, (x, y))) for x in left[0] for y in left[1]]:
        if r.random() < 0.7:
            m.new().extend(seen)
            continue
        for way in (1, -1):
            a, b = m.new(), m.new()
            a.append(seen[::way][0])
            b.append(seen[::way][1])
            r.choice((m.leads, m.orders, m.forces) + (m.ends_before,) * (version == 3))(a, b)
    for key in [m.key() for _ in range(r.choice((0, 0, 1, 2)))]:
        for _ in range(2):
            m.write(m.new(), key)
    return m.text(version, 0.02)


def large_tree(keys):
    """A log of which the strategy `first` splits the choices of so many keys before it comes to those that are refuted."""
    its = [[('w', 'k%d' % n, 2 * n + side)] for n in range(keys) for side in (10, 11)]
    its += [[('w', key, wid)] for key, wid in (('x', 1), ('x', 2), ('y', 3), ('y', 4))] + [[('r', 'x', x), ('r', 'y', y)] for x in (1, 2) for y in (3, 4)]
    return generate.text_of([(number, [reference.Transaction(ops, 'commit')]) for number, ops in enumerate(its, 1)])


def looked_at(looks):
    """A log with crossed reads, in which a search for them looks so often at a read: 48 times, and each other transaction reads as many keys
    that nobody wrote as one square takes of what is left."""
    its = [[('w', key, wid)] for key, wid in (('x', 1), ('x', 2), ('y', 3), ('y', 4))] + [[('r', 'x', x), ('r', 'y', y)] for x in (1, 2) for y in (3, 4)]
    left = looks - 48
    while left:
        its.append([('r', 'k%d' % n, 0) for n in range(math.isqrt(left))])
        left -= len(its[-1]) ** 2
    return generate.text_of([(number, [reference.Transaction(ops, 'commit')]) for number, ops in enumerate(its, 1)])


def logs(seeds):
    """The name and the text of each log. Of the first one the strategy is `first`."""
    yield 'log of a large tree', large_tree(8)
    yield from generate.examples((1, 2, 3))
    for number, (text, _) in enumerate(BY_HAND):
        yield 'log %d made by hand' % number, text
    for version in (1, 2, 3):
        for made, share in ((generate.small_log, 1), (generate.damaged, 0.1), (run_log, 1), (forced_log, 1), (crossed_log, 0.1),
                            (doubled_log, 0.1), (searched_log, 0.5)):
            for seed in range(max(1, int(seeds * share))):
                yield '%s %d, version %d' % (made.__name__, seed, version), made(seed, version)


# ---- calls

def call(program, text, *words):
    ran = subprocess.run([program, *words], input=text, stdout=subprocess.PIPE, stderr=subprocess.PIPE, timeout=120)
    return ran.returncode, ran.stdout.decode(), ran.stderr.decode()


def is_order(text, said):
    """Whether this says that there is a serial order, and which."""
    history = reference.History(reference.read_log(text))
    first, *lines = said.split('\n')
    names = [tuple(map(int, line.split(' '))) for line in lines[:-1]] if re.fullmatch('serializable\n([0-9]+ [0-9]+\n)*', said) else [None]
    return all(name in history.names for name in names) and history.is_serial([history.names.index(name) for name in names])


def is_refusal_told(said, refusal):
    """Whether this may be said in words of a log on standard input that is refused so: its line and code, where the log has a fault."""
    fault = re.fullmatch('refused: (L[0-9]+)(?: line ([0-9]+)| ([a-z-]+))\n', refusal)
    if not fault:
        return not said
    front, behind = '-:%s: ' % fault[2] if fault[2] else '-: ', ' (%s)\n' % (fault[1] + (' ' + fault[3] if fault[3] else ''))
    return said.startswith(front) and said.endswith(behind) and said.count('\n') == 1


def said_of(program, text, *words):
    """What `check` answers with these words, what `explain` prints, and what is met there; else Wrong."""
    checked, explained = call(program, text, 'check', *words), call(program, text, 'explain', *words)
    told(checked[0] < 4, 'check ends with %d, %r' % checked[::2])
    told((explained[0], explained[2]) == (checked[0], checked[2]), 'ends with %d, %r, and check with %d, %r' % (*explained[::2], *checked[::2]))
    if checked[0] == 2:
        told(is_refusal_told(explained[1], explained[2]), 'refused, and says %r' % explained[1])
        return checked, '', collections.Counter(['refused'])
    if checked[0] == 0 and checked[1] != explained[1] and '4' in words:
        told(is_order(text, explained[1]), 'another order, and not a serial one')
        return explained, explained[1], collections.Counter(['serializable'])
    return checked, explained[1], judge(text, checked[1], explained[1])


def graph_said(program, name, text, checked, explained, words):
    """What is met in the graph that `explain` draws with these words, which must be that of what it said of the log; else Wrong."""
    graph = call(program, text, 'explain', '--format', 'dot', *words)
    right = (checked[0], graph_of(text, checked[1], explained), checked[2])
    told(graph == right, 'the graph is %r, wanted %r' % (graph, right))
    drawn = bool(GRAPHVIZ and name.endswith('.log') and explained)
    if drawn:
        ran = subprocess.run([GRAPHVIZ, '-Tsvg'], input=graph[1].encode(), stdout=subprocess.PIPE, stderr=subprocess.PIPE, timeout=120)
        told((ran.returncode, ran.stderr) == (0, b'') and b'</svg>' in ran.stdout, 'Graphviz ends with %d, %r' % (ran.returncode, ran.stderr))
    return collections.Counter(['graph'] + ['graph that is drawn'] * drawn)


def judged(program, place, name, text):
    """What is met in what is said of a log, and for each thing that was looked at None or its fault."""
    ways = [['--workers', count, '--strategy', STRATEGIES[place % 4]] for count in ('1', '4')]
    if name.startswith('crossed_log'):
        ways.append(['--budget', '1', '--workers', '1'])
    met, found, r = collections.Counter(), [], random.Random(place)
    for words in ways:
        try:
            checked, explained, here = said_of(program, text, *words)
            met += here
            found.append(None)
            if '1' in words:
                met += graph_said(program, name, text, checked, explained, words)
                found.append(None)
        except Wrong as wrong:
            found.append('%s, %s: %s' % (name, ' '.join(words), wrong))
            continue
        for what, lines in spoilt(r, text, checked[1], explained) if (here['A8'] or here['A9'] or here['tree']) and len(explained) < SPOILT else ():
            found.append('%s, %s: not seen that %s: %r' % (name, ' '.join(words), what, lines) if is_right(text, checked[1], lines) else None)
        for what, said in spoilt_short(r, Log(text), explained) if here['A8'] or here['A9'] else ():
            found.append(None if fault(text, checked[1], said) else '%s, %s: not seen that %s: %r' % (name, ' '.join(words), what, said))
    return met, found


def fault(text, checked, explained):
    """What is wrong with an explanation, and None where nothing is."""
    try:
        judge(text, checked, explained)
    except Wrong as wrong:
        return str(wrong)
    return None


def is_right(text, checked, lines):
    try:
        judge_lines(text, checked, lines)
    except Wrong:
        return False
    return True


def wanted(program, what, text, words, right):
    """As `judged`, where the whole text is known."""
    status = {'serializable': 0, 'unknown': 3}.get(right[0].split(':')[0], 1)
    answer, right = call(program, text, 'explain', *words), (status, ''.join(line + '\n' for line in right), '')
    return collections.Counter([what]), [None if answer == right else 'explain %s of %r: %r, wanted %r' % (' '.join(words), text, answer, right)]


def sought(program, looks, right):
    """Whether crossed reads are told of a log that takes so many looks."""
    status, said, error = call(program, looked_at(looks), 'explain', '--workers', '1')
    answer = status, error, CROSSED in said.split('\n'), said.count('cycle from ')
    return collections.Counter(['looks at the limit']), [None if answer == (1, '', right, 4) else '%d looks: %r' % (looks, answer)]


def on_the_page():
    """The words, the log and the text of each call of `explain` in docs/FORMATS.md and examples/EXPLAINED.md."""
    for path in ('docs/FORMATS.md', 'examples/EXPLAINED.md'):
        with open(os.path.join(HERE, '..', path)) as page:
            for words, name, said in re.findall(r'^    \$ \./run explain (.*?)examples/(\S+)\n((?:    .*\n)+)', page.read(), re.M):
                yield dict(generate.examples((1, 2, 3)))[name], words.split(), [line[4:] for line in said.split('\n')[:-1]]


def main():
    if '--help' in sys.argv:
        return print(__doc__)
    program, seeds = os.path.abspath(sys.argv[1]), int(sys.argv[2]) if len(sys.argv) > 2 else 250
    jobs = [(wanted, 'made by hand', text, ['--format', 'text'], ['not serializable: ' + said[0], *said[1:]]) for text, said in BY_HAND]
    jobs += [(sought, LOOKS, True), (sought, LOOKS + 1, False)]
    jobs += [(wanted, 'on the page', *it) for it in on_the_page()] + [(judged, place, *log) for place, log in enumerate(logs(seeds))]
    passed, failed, met = 0, 0, collections.Counter()
    with concurrent.futures.ThreadPoolExecutor() as pool:
        for here, found in pool.map(lambda job: job[0](program, *job[1:]), jobs):
            met += here
            for fault in found:
                if fault:
                    failed += 1
                    print('FAILED', fault)
                else:
                    passed += 1
    if not GRAPHVIZ:
        print('explained: no graph was drawn, since Graphviz (dot) is not here')
    print('explained: met: %s' % ', '.join('%s %d' % (what, met[what]) for what in sorted(met)))
    missing = [what for what in WANTED if not met[what]] if len(sys.argv) < 3 else []
    if missing:
        print('FAILED not met: %s' % ', '.join(missing))
    print('explained: %d passed, %d failed' % (passed, failed + len(missing)))
    sys.exit(1 if failed or missing else 0)


if __name__ == '__main__':
    main()
