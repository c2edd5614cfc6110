#!/usr/bin/env python3
"""levels.py PROGRAM [CASES] [--seed N] [--cases N] [--lanes N]: what `audit` says of logs at each of the nine levels, against brute force of
their definitions (tests/level_model.py).

Each log of examples/ and some hundred made ones are asked for each level: first line and status, what is said of weaker levels where it is
not kept, the file of `--order`, which must be an order of that level, and that of `--part`, which must be of the log and have none, as the
part must below `why LEVEL was not kept:`. With --cases N so many more made logs are asked once, without a level: what is told of the levels
must be so. Larger logs, which brute force does not take, must keep each level that is implied by one that they keep. The table of
examples/README.md must have what is so. A fault of an example, or of a small log that is written out here, has one name at all levels; so
have the same transactions of a made log. Last line: 'levels: N passed, M failed'."""
import argparse, collections, concurrent.futures, json, os, re, sys, tempfile

HERE = os.path.dirname(os.path.abspath(__file__))
sys.path.insert(0, HERE)
import certificates, generate, level_model, reference, snapshots
from certificates import WEAKER, call, must

# What the first line of an answer calls each level of `--level`, strongest first; and those below snapshot isolation, down to the weakest.
LEVELS = {'strict-serializable': 'strict serializability', 'serializable': 'serializability', 'strict-snapshot': 'strict snapshot isolation',
          'snapshot': 'snapshot isolation', 'prefix': 'prefix consistency', 'causal': 'causal consistency', 'read-atomic': 'read atomic',
          'monotonic-atomic-view': 'monotonic atomic view', 'read-committed': 'read committed'}
LADDER = list(LEVELS)[4:]
# How a level is said to be kept; and the status and the end of the first line where it is, where it is not, and where the log says nothing of
# real time that the level could break.
KEPT = {True: 'kept', False: 'not kept'}
ANSWERS = {'yes': (0, KEPT[True]), 'no': (1, KEPT[False]), 'silent': (3, 'unknown: the log states no moments')}
LINE = re.compile('^(%s): (kept|not kept|unknown)(?:, as .+)?$' % '|'.join(WEAKER), re.M)
WITHOUT = re.compile(r'^(?:without real time: (.+)|only real time was broken: the whole log has a serial order, but none in the order of its moments)$', re.M)
CASES, SEED, SHOWN, LARGER, SAMPLE = 600, 1, 20, 40, 100
TABLE = os.path.join(generate.EXAMPLES, 'README.md')
# Small logs of which each level that is not kept has one fault: a read skew of which the two versions stand in the order of a session; an
# update, and a write of another transaction that it missed, of which a third one sees too little; two versions of which neither can be the
# first; a step by a read or by a session; circles of reads within a session; a long fork over an update; updates that miss a write of their
# session, of one transaction that they see, and of one that ended before; lost updates within a session, beside a read skew, and beside one
# of a session; a write skew of two that write one key too, and a circle that takes an order of two writers or two missed writes.
# Reads that see each of two writers before they read from the other one.
ONE_FAULT = [
    'session 2,begin,w k 1,w j 2,commit,session 1,begin,w k 3,commit,begin,r j 2,r k 3,r k 1,commit',
    'session 1,begin,w k 1,commit,begin,w k 2,w j 3,commit,session 2,begin,r j 3,r k 1,commit',
    'session 1,begin,w x 1,commit,begin,r x 2,w x 3,commit,session 2,begin,r x 0,w x 2,commit',
    'session 3,begin,r x 0,w x 3,commit,begin,r x 3,r y 1,commit,session 6,begin,w y 1,w x 2,commit',
    'session 1,begin,w k 8,r j 0,w j 9,commit,session 2,begin,w j 3,w k 4,commit,session 3,begin,r k 4,r j 9,commit',
    'session 1,begin,r k 0,w j 6,commit,begin,r i 4,r j 6,commit,session 2,begin,w k 2,commit,begin,w i 4,w j 5,commit',
    'session 1,begin,w y 1,commit,begin,w x 2,r y 1,commit,session 2,begin,r x 2,r y 0,commit',
    'session 8,begin,r x 4,commit,begin,w x 4,commit',
    'session 3,begin,r x 4,w x 3,commit,begin,r x 3,w x 4,commit',
    'session 1,begin,w k 1,commit,session 2,begin,w j 7,commit,begin,r j 7,r k 1,commit,session 4,begin,r j 0,w j 5,commit,begin,r j 5,r k 8,commit,session 5,begin,r k 1,w k 8,commit',
    'session 1,begin,w x 1,commit,begin,w x 2,commit,begin,r x 1,w x 3,commit',
    'session 1,begin,w x 1,commit,begin,w x 2,w y 4,commit,session 2,begin,r x 1,w x 3,r y 4,commit',
    'log 3,session 1,begin 1,w x 1,commit 2,session 2,begin 3,w x 2,commit 4,session 3,begin 5,r x 1,w x 3,commit 6',
    'session 1,begin,r x 0,w x 1,commit,begin,r x 0,w x 2,commit',
    'session 1,begin,r k 0,w k 6,w j 5,commit,session 2,begin,r k 0,w k 8,r j 5,w j 12,commit',
    'session 3,begin,r k 0,w k 12,w j 20,commit,begin,r j 20,w j 26,r k 0,w k 27,commit',
    'session 1,begin,r x 0,r y 0,w x 1,commit,session 2,begin,r x 0,w y 2,w x 3,commit',
    'session 1,begin,r x 0,w y 1,w z 2,commit,session 2,begin,r y 0,w x 3,w z 4,commit',
    'session 1,begin,w k 7,commit,begin,r j 5,commit,session 2,begin,r k 0,w k 3,commit,begin,w j 5,commit,begin,r j 5,w j 6,r k 3,w k 8,commit']
# Moments alone may show it at one level, where another one needs none.
REAL_TIME = re.compile('real ?time')
SHOWN_BY = re.compile(r'^shown by \d+ transactions?: (?!(?:{0})\n)(.+?)(?:, (?:A\d|{0}))?\n(transactions .+)$'.format('|'.join(map(re.escape, certificates.SHORT.values()))), re.M)
ROW = re.compile(r'\| `(\w+\.log)` \| [^|]+ \|((?: (?:yes|no|-) \|){%d})\n' % len(LEVELS))


def kept_levels(sessions):
    return {level: level_model.kept(sessions, level) for level in LEVELS}


def silent_levels(sessions):
    """The levels that nobody can tell of a log that states no moments and keeps them without."""
    return [] if certificates.states_moments(sessions) else [level for level in LEVELS if level.startswith('strict')]


def implications(kept):
    """The pairs of which the first level is kept, and the second, which it implies, is not."""
    return [(level, low) for level in kept if kept[level] for low in level_model.IMPLIED[level] if kept.get(low) is False]


def is_order(sessions, level, said):
    """Whether this text of `--order` is an order of a level below the serial ones."""
    nodes, lines = snapshots.nodes_of(sessions), said.split('\n')[:-1]
    number = {'%d %d' % (node.session, node.place): n for n, node in enumerate(nodes)}
    if level in level_model.BELOW:
        return set(lines) <= set(number) and level_model.Seen(sessions).is_order(level, [number[line] for line in lines])
    points = [tuple(line.rsplit(' ', 1)) for line in lines]
    holds = all(len(point) == 2 and point[0] in number for point in points)
    nodes = nodes if level.startswith('strict') else snapshots.nodes_of(certificates.without_moments(sessions))
    return holds and snapshots.is_order(nodes, [(kind, number[name]) for name, kind in points], locked=level != 'prefix')


class Log:
    """A log, and what is said of it at each level."""

    def __init__(self, program, at, text):
        self.program, self.at, self.text, self.sessions = program, at, text, reference.read_log(text)
        self.kept, self.silent = kept_levels(self.sessions), silent_levels(self.sessions)
        self.names = collections.defaultdict(list)  # of the transactions of a first part what each level calls its fault

    def audit(self, *words):
        return call(self.program, 'audit', '--at-least', '0', *words, text=self.text)

    def judged(self):
        must(not implications(self.kept), 'kept, and not what it implies: %r' % implications(self.kept))
        for level in LEVELS:
            self.judged_at(level)
        self.judged_below()
        for names in self.names.values():
            timeless = {name for name in names if not REAL_TIME.search(name)}
            must(len(timeless) <= 1, 'of the same transactions levels tell %r' % names)

    def asked(self, level):
        """The weaker levels of which something is said behind one that is not kept."""
        is_strict, is_serial = level.startswith('strict') and not self.silent, 'serializable' in level
        lower = ['strict-snapshot'] * (is_strict and is_serial) + ['snapshot'] * (is_strict or is_serial)
        below = LADDER if 'snapshot' in level or is_serial else LADDER[LADDER.index(level) + 1:]
        first = next((place for place, it in enumerate(below) if self.kept[it]), len(below))
        return lower + ([] if self.kept['snapshot'] else below[:first + 1])

    def judged_below(self):
        """What is told of weaker levels, where no level is named and the log is refused."""
        answer = certificates.Answer(self.audit())
        asked = self.asked('serializable' if self.silent else 'strict-serializable') if answer.verdict == 'not serializable' else []
        wanted = {LEVELS[level]: KEPT[self.kept[level]] for level in asked}
        must(answer.weaker == wanted, 'weaker levels: %r, wanted %r' % (answer.weaker, wanted))
        self.check_shown(answer, 'snapshot', answer.shown)
        self.check_shown(answer, next((level for level in reversed(LADDER) if level in asked and not self.kept[level]), None), answer.weakest)
        certificates.check_object(answer, self.audit('--format', 'json'))
        least = certificates.Answer(self.audit('--budget', '1'))
        if least.verdict == 'unknown':
            right = {LEVELS[level]: ('unknown', KEPT[self.kept[level]]) for level in LEVELS if level not in self.silent}
            told = all(it in right[level] for level, it in least.weaker.items()) and LEVELS['snapshot'] in least.weaker
            must(told, 'weaker levels behind %r: %r, of %r' % (least.first, least.weaker, right))
        bare = certificates.Answer(self.audit('--only'))
        must((bare.first, bare.without, bare.weaker) == (answer.first, None, {}), 'with --only: %r, %r' % (bare.first, bare.weaker))

    def check_shown(self, answer, level, shown):
        """That a part is told that has no order of a level that is told as not kept: this one, or one that stands before."""
        if answer.weaker.get(LEVELS.get(level)) != 'not kept':
            must(shown is None, 'a part shows that %s is not kept' % level)
            return

        def has_order(part):
            told = certificates.check_told(self.sessions, self.text, part)
            return level_model.kept([(number, [it for _, it in its]) for number, its in told], level)
        before = answer.parts + [answer.shown] * (answer.shown is not None)
        must(not all(map(has_order, before if shown is None else [shown])), '%s: no part is told that has no order' % level)

    def judged_at(self, level):
        order, part = self.at + '.order', self.at + '.part'
        answer = 'no' if not self.kept[level] else 'silent' if level in self.silent else 'yes'
        try:
            status, said, error = self.audit('--level', level, '--order', order, '--part', part)
            first, _, rest = said.partition('\n')
            wanted = ANSWERS[answer][0], '%s: %s' % (LEVELS[level], ANSWERS[answer][1]), ''
            must((status, first, error) == wanted, '%s: %r, wanted %r' % (level, (status, first, error), wanted))
            self.check_weaker(level, rest)
            if answer == 'no' and (shown := SHOWN_BY.search(rest)):
                self.names[shown[2]].append(shown[1])
            files = [os.path.exists(path) for path in (order, part)]
            must(files == [answer == 'yes', answer == 'no'], '%s: an order and a part are written: %r' % (level, files))
            if answer == 'yes':
                with open(order) as file:
                    self.check_order(level, file.read())
            elif answer == 'no':
                with open(part, 'rb') as file:
                    self.check_part(level, file.read())
            quiet = self.audit('--level', level, '--quiet')
            must(quiet == (status, first + '\n', ''), '%s with --quiet: %r' % (level, quiet))
            bare = self.audit('--level', level, '--only')[1] if answer == 'no' else first
            must(bare.startswith(first) and not LINE.search(bare, len(first)), '%s with --only: %r' % (level, bare))
        finally:
            for path in (order, part, part + '.map'):
                if os.path.exists(path):
                    os.remove(path)

    def check_weaker(self, level, said):
        """The lines for weaker levels, and what holds without moments."""
        rows, asked = LINE.findall(said), [] if self.kept[level] else self.asked(level)
        wanted = [(LEVELS[it], KEPT[self.kept[it]]) for it in asked]
        must(rows == wanted, '%s: the weaker levels are %r, wanted %r' % (level, rows, wanted))
        must('did nothing wrong' not in said, '%s: it was named, and yet the store is said to promise less: %r' % (level, said))
        without, right = [word or 'serializable' for word in WITHOUT.findall(said)], 'serializable' if self.kept['serializable'] else 'not serializable'
        if without or asked[:1] == ['strict-snapshot']:
            must(without == [right], '%s: without moments %r, and it is %s' % (level, without, right))

    def check_order(self, level, said):
        if 'serializable' in level:
            is_strict = level.startswith('strict')
            certificates.check_order(self.sessions if is_strict else certificates.without_moments(self.sessions), said)
        else:
            must(is_order(self.sessions, level, said), '%s: this is no such order: %r' % (level, said))

    def check_part(self, level, said):
        part = reference.read_log(said)
        whole = dict(self.sessions)
        for number, transactions in part:
            of_session = [set(it.ops) for it in whole.get(number, [])]
            must(all(any(set(it.ops) <= ops for ops in of_session) for it in transactions), '%s: session %d of the part is another' % (level, number))
        must(not level_model.kept(part, level), '%s: the part has an order: %r' % (level, said))


def told_at_once(program, text):
    """What one call without a level tells of each level that it tells of, by itself or by what it implies."""
    sessions = reference.read_log(text)
    it = json.loads(call(program, 'audit', '--at-least', '0', '--format', 'json', '--workers', '1', text=text)[1])
    silent, is_serial = silent_levels(sessions), {'serializable': True, 'not serializable': False}
    model = kept_levels(sessions)
    told = {'serializable' if silent else 'strict-serializable': is_serial[it['verdict']]}
    told.update({'serializable': is_serial[it['without_moments']]} if it['without_moments'] else {})
    told.update({level: {word: kept for kept, word in KEPT.items()}[it[WEAKER[name]]]
                 for level, name in LEVELS.items() if name in WEAKER and it[WEAKER[name]]})
    for level in LEVELS:
        told.update({low: True for low in level_model.IMPLIED[level] if told.get(level) and low not in told})
    for level in reversed(LEVELS):
        told.update({level: False for low in level_model.IMPLIED[level] if told.get(low) is False and level not in told})
    wrong = {level: kept for level, kept in told.items() if model[level] != kept}
    must(not wrong, 'told is %r' % wrong)
    must(set(told) >= set(LEVELS) - set(silent), 'nothing told of levels: %r' % told)
    return len(told)


def larger(seed):
    """A log that brute force does not take."""
    return generate.stale_log(seed, 20 + 7 * seed, 2 + seed % 9, 2 + seed % 5, 1 + seed % 3)


def ladder_of(program, text):
    """That a log keeps each level that is implied by one that it keeps, as the program tells it."""
    statuses = {level: call(program, 'audit', '--quiet', '--only', '--level', level, text=text)[0] for level in LEVELS}
    kept = {level: {0: True, 1: False}.get(status) for level, status in statuses.items()}
    must(not implications(kept), 'kept, and not what it implies: %r' % implications(kept))
    return ', '.join(level for level in LEVELS if kept[level]) or 'none'


def judged(job):
    """What is wrong with what is said of a log, or None; and what was met."""
    program, at, name, text = job
    try:
        if name.startswith('larger'):
            return None, 'larger: ' + ladder_of(program, text)
        if name.startswith('asked once'):
            return None, told_at_once(program, text)
        log = Log(program, at, text)
        log.judged()
        return None, ', '.join(level for level in LEVELS if log.kept[level]) or 'none'
    except reference.Refused:
        return None, 'refused'
    except Exception as wrong:
        return '%s: %s: %s' % (name, type(wrong).__name__, wrong), 'failed'


def wrong_rows():
    """Where the table of examples/README.md has something else than what is so."""
    with open(TABLE, encoding='utf-8') as file:
        rows = ROW.findall(file.read())
    if not rows:
        yield 'examples/README.md has no table of levels'
    texts = dict(generate.examples((1, 2, 3)))
    for name, told in rows:
        if name not in texts:
            yield '%s stands in the table, and not in examples/' % name
            continue
        sessions = reference.read_log(texts[name])
        kept, silent = kept_levels(sessions), silent_levels(sessions)
        right = ['no' if not kept[level] else '-' if level in silent else 'yes' for level in LEVELS]
        if told.split(' | ') != right and told.strip(' |').split(' | ') != right:
            yield '%s: the table has %s, and %s is so' % (name, told, ' | '.join(right))


def wrong_names(program):
    """The logs that have several names, each with the first level that tells it."""
    for name, text in [*generate.examples((1, 2, 3)), *((it, (it + ',').replace(',', '\n').encode()) for it in ONE_FAULT)]:
        found = {}
        for level in LEVELS:
            status, said, _ = call(program, 'audit', '--only', '--level', level, '--format', 'json', text=text)
            if status == 1:
                found.setdefault(json.loads(said)['known_as'], level)
        if len(found) > 1:
            yield '%s has several names: %r' % (name, found)


def logs(cases, seed, once):
    if cases:
        yield from generate.examples((1, 2, 3))
        yield from (('log of one fault: ' + it, (it + ',').replace(',', '\n').encode()) for it in ONE_FAULT)
        yield from (('larger log %d' % number, larger(number)) for number in range(LARGER))
    yield from (('made log %d' % number, level_model.made_text(number)) for number in range(seed, seed + cases))
    for number in range(seed, seed + once):
        name = 'made log %d' if number % SAMPLE == 0 else 'asked once: made log %d'
        yield name % number, level_model.made_text(number)


def main():
    words = argparse.ArgumentParser(description=__doc__, formatter_class=argparse.RawDescriptionHelpFormatter)
    words.add_argument('program', metavar='PROGRAM', help='the program, cobra_poly')
    words.add_argument('number', metavar='CASES', type=int, nargs='?', default=CASES, help='how many made logs, and if not 0 the examples and the larger ones (%(default)s)')
    words.add_argument('--seed', type=int, default=SEED, help='from which number they are made (%(default)s)')
    words.add_argument('--cases', type=int, default=0, help='how many more made logs are asked once (%(default)s)')
    words.add_argument('--lanes', type=int, default=min(4, os.cpu_count()), help='how many logs are judged at a time (%(default)s)')
    words = words.parse_args()
    met, passed, verdicts = collections.Counter(), 0, 0
    faults = [*wrong_rows(), *wrong_names(os.path.abspath(words.program))]
    with tempfile.TemporaryDirectory() as folder, concurrent.futures.ProcessPoolExecutor(words.lanes) as pool:
        program = os.path.abspath(words.program)
        jobs = [(program, os.path.join(folder, str(number)), *log) for number, log in enumerate(logs(words.number, words.seed, words.cases))]
        for fault, what in pool.map(judged, jobs, chunksize=10):
            passed += fault is None
            faults += [] if fault is None else [fault]
            verdicts += what if isinstance(what, int) else 0
            met['asked once' if isinstance(what, int) else what] += 1
    for fault in faults[:SHOWN]:
        print('FAILED', fault)
    print('levels: kept by so many logs: %s' % '; '.join('%s %d' % it for it in met.most_common()))
    if words.cases:
        print('levels: told of those that were asked once: %d verdicts' % verdicts)
    print('levels: %d passed, %d failed' % (passed, len(faults)))
    return 1 if faults else 0


if __name__ == '__main__':
    sys.exit(main())
