#!/usr/bin/env python3
"""long_logs.py PROGRAM [PLACES] [--seed N]: what `audit` says of long logs without any fault, and with one that is put into each place.

A store that runs transactions one behind the other, of which it is known when they took effect, serves 16 clients at once: thousands of
transactions, with moments, with some of them and without, some aborted and some of unknown outcome. Such a log must be `serializable`, with an
order that replays. Then each kind of fault is put into places from the first transactions to the last ones: a read of what nobody wrote, of
an aborted write, of an intermediate one, of another than its own write, of a later own write, two reads that differ, a lost update, a stale
read by moments and by sessions, write skew and a long fork. It must be `not serializable`, by a part of a few transactions, one of which
reads what was planted, that is one of the whole log and has no order; what `--explain` says of it must be so in the whole log. With several
faults and `--faults` each must be told.

Another store keeps snapshots, and serves many clients at once; identities rise as they are given, or have no order. What they saw must be
`kept` at that level. Last line: 'long_logs: N passed, M failed'."""
import argparse, collections, concurrent.futures, os, random, sys, tempfile

HERE = os.path.dirname(os.path.abspath(__file__))
sys.path.insert(0, HERE)
import certificates, generate
from certificates import Answer, call, must
from reference import Transaction

PLACES, SEED, SHOWN, LANES = 5, 1, 20, min(4, os.cpu_count())
# A part that one fault shows has so many transactions at most; one of a long fork alone has five.
CLIENTS, MOST, MOST_OF_FORK = 16, 6, 10
# How many of the moments are stated.
STATED = {'moments': 1, 'some moments': 0.8, 'no moments': 0}

# A transaction that took effect at its place in the list, and of which session it is.
Ran = collections.namedtuple('Ran', 'session ops outcome begun ended')


# ---- logs without any fault

def ops_of(rnd, keys, store, fresh):
    """The operations of a transaction, and what keys hold behind it."""
    ops, view = [], dict()
    for _ in range(rnd.randint(1, 4)):
        key = keys[int(len(keys) * rnd.random() ** 2)]
        if rnd.random() < 0.65:
            ops.append(('r', key, view.get(key, store.get(key, 0))))
        if rnd.random() < 0.1 and ops:
            ops.append(('r', ops[0][1], view.get(ops[0][1], store.get(ops[0][1], 0))))
        if rnd.random() < 0.5:
            view[key] = next(fresh)
            ops.append(('w', key, view[key]))
    return ops, view


def served(rnd, count):
    """So many transactions, in the order in which they took effect."""
    keys, store, ran, ends, fresh, numbers = ['k%d' % n for n in range(rnd.choice((20, 200, 2000)))], {}, [], {}, iter(range(1, 10 ** 9)), iter(range(1, 65535))
    clients = [next(numbers) for _ in range(CLIENTS)]
    longest = rnd.choice((8, 30, 100))
    for turn in range(count):
        at = 10 * turn + 10 * longest
        free = [n for n, number in enumerate(clients) if ends.get(number, -1) < at]
        if not free:
            continue
        client = rnd.choice(free)
        number = clients[client]
        ops, view = ops_of(rnd, keys, store, fresh)
        outcome = rnd.choices(('commit', 'abort', 'unknown'), (94, 5, 1))[0]
        begun = max(ends.get(number, -1) + 1, at - rnd.randint(0, 9 * longest))
        ends[number] = at + rnd.randint(0, 9 * longest)
        if outcome == 'commit' or outcome == 'unknown' and rnd.random() < 0.5:
            store.update(view)
        if outcome == 'unknown':
            clients[client] = next(numbers)
            ends[clients[client]] = ends[number]
        ran.append(Ran(number, ops, outcome, begun, ends[number] if outcome == 'commit' else None))
    return ran


def sessions_of(ran, rnd, stated):
    """The sessions of these transactions, which state this share of their moments; and the name of each of them."""
    sessions, names = {}, []
    said = lambda moment: moment if rnd.random() < stated else None
    for it in ran:
        its = sessions.setdefault(it.session, [])
        its.append(Transaction(it.ops, it.outcome, said(it.begun), said(it.ended)))
        names.append((it.session, len(its)))
    return list(sessions.items()), names


def snapshots_served(rnd, count, clients, keys, rising):
    """The sessions of so many transactions that a store that keeps snapshot isolation committed: of two that write a key while both run the
    second one is aborted, and not in the log. Identities rise, or have no order."""
    committed, versions, running = [[] for _ in range(clients)], {}, {}
    fresh = iter(range(1, 10 ** 9) if rising else rnd.sample(range(1, 10 ** 9), 100 * count))
    for now in range(10 ** 9):
        client = rnd.randrange(clients)
        begun, ops, view = running.setdefault(client, (now, [], {}))
        if len(ops) < 4:
            key = 'k%d' % rnd.randrange(keys)
            kind, wid = rnd.choice((('w', next(fresh)), ('r', view.get(key))))
            if kind == 'w':
                view[key] = wid
            elif wid is None:
                wid = next((wid for since, wid in reversed(versions.get(key, [])) if since < begun), 0)
            ops.append((kind, key, wid))
            continue
        del running[client]
        if all(versions[key][-1][0] < begun for key in view if key in versions):
            for key, wid in view.items():
                versions.setdefault(key, []).append((now, wid))
            committed[client].append(Transaction(ops, 'commit', None, None))
            if sum(map(len, committed)) == count:
                return [(number, txns) for number, txns in enumerate(committed, 1)]


# ---- faults

class Store:
    """What such transactions wrote and read, by their places."""

    def __init__(self, ran):
        self.ran, self.writer = ran, {}
        for place, it in enumerate(ran):
            for op in it.ops:
                if op[0] == 'w':
                    self.writer[op[2]] = place
        self.aborted = {}
        for it in ran:
            if it.outcome == 'abort':
                for op in it.ops:
                    if op[0] == 'w':
                        self.aborted.setdefault(op[1], []).append(op[2])

    def reads(self, place):
        """The operations of a committed transaction that read a key before any write and any other read of it, where no other one does."""
        it = self.ran[place]
        if it.outcome == 'commit':
            for n, (kind, key, wid) in enumerate(it.ops):
                if kind == 'r' and sum(op[:2] == ('r', key) for op in it.ops) == 1 and not any(op[:2] == ('w', key) for op in it.ops[:n]):
                    yield n, key, wid

    def reader(self, place, key):
        return next((wid for _, other, wid in self.reads(place) if other == key), None)

    def overwriter(self, wid):
        """The place of the committed or taken one that wrote this, where it read what it overwrote; and what that was."""
        place = self.writer.get(wid)
        if place is None or self.ran[place].outcome != 'commit':
            return None
        op = next(op for op in self.ran[place].ops if op[2] == wid and op[0] == 'w')
        old = self.reader(place, op[1])
        is_last = [other[2] for other in self.ran[place].ops if other[:2] == ('w', op[1])][-1] == wid
        return (place, old) if old is not None and is_last else None

    # Each of these gives the operation of a transaction that is another one then, or nothing where there is no such fault here.

    def unknown_read(self, place):
        for n, key, _ in self.reads(place):
            yield n, key, 10 ** 9 + place

    def aborted_read(self, place):
        for n, key, _ in self.reads(place):
            for wid in self.aborted.get(key, [])[:1]:
                yield n, key, wid

    def intermediate_read(self, place):
        for n, key, wid in self.reads(place):
            writer = self.writer.get(wid)
            if writer not in (None, place):
                for op in [op for op in self.ran[writer].ops if op[:2] == ('w', key)][:-1]:
                    yield n, key, op[2]

    def own_write_missed(self, place):
        it = self.ran[place]
        for n, (kind, key, wid) in enumerate(it.ops):
            if it.outcome == 'commit' and kind == 'r' and ('w', key, wid) in it.ops[:n]:
                yield n, key, 0

    def future_read(self, place):
        for n, key, _ in self.reads(place):
            for op in [op for op in self.ran[place].ops[n:] if op[:2] == ('w', key)][:1]:
                yield n, key, op[2]

    def split_read(self, place):
        it = self.ran[place]
        for n, (kind, key, wid) in enumerate(it.ops):
            if it.outcome == 'commit' and kind == 'r' and wid and it.ops.index((kind, key, wid)) < n and ('w', key) not in [op[:2] for op in it.ops[:n]]:
                yield n, key, 0

    def lost_update(self, place):
        for n, key, wid in self.reads(place):
            found = self.overwriter(wid)
            if found and found[0] != place and any(op[:2] == ('w', key) for op in self.ran[place].ops):
                yield n, key, found[1]

    def stale(self, place, is_known):
        for n, key, wid in self.reads(place):
            found = self.overwriter(wid)
            if found and is_known(self.ran[found[0]], self.ran[place]) and not any(op[:2] == ('w', key) for op in self.ran[place].ops):
                yield n, key, found[1]

    def stale_by_moments(self, place):
        return self.stale(place, lambda one, other: one.session != other.session and one.ended < other.begun)

    def stale_by_sessions(self, place):
        return self.stale(place, lambda one, other: one.session == other.session)


SKEW = 'write skew', [('w x 1', 'w y 2'), ('r x 1', 'w y 3'), ('r y 2', 'w x 4')]
FORK = 'long fork', [('w x 1', 'w y 2'), ('w x 3',), ('w y 4',), ('r x 3', 'r y 2'), ('r x 1', 'r y 4')]
ONE_READ = {'A1': Store.unknown_read, 'A2': Store.aborted_read, 'A3': Store.intermediate_read, 'A4': Store.own_write_missed, 'A5': Store.future_read,
            'A6': Store.split_read, 'A7': Store.lost_update, 'stale read by moments': Store.stale_by_moments,
            'stale read by sessions': Store.stale_by_sessions}
KINDS = [*ONE_READ, SKEW[0], FORK[0]]


def changed(ran, place, n, op):
    ops = list(ran[place].ops)
    ops[n:n + 1] = [op]
    return ran[:place] + [ran[place]._replace(ops=ops)] + ran[place + 1:]


def planted_read(ran, rnd, kind, near):
    """The transactions with a fault of this kind as near this place as there is one, and the place of the one that reads it."""
    store = Store(ran)
    for place in sorted(range(len(ran)), key=lambda place: abs(place - near)):
        found = list(ONE_READ[kind](store, place))
        if found:
            n, key, wid = rnd.choice(found)
            return changed(ran, place, n, ('r', key, wid)), {place}
    return None


def planted_keys(ran, rnd, those, near):
    """The transactions, some of which near this place also do this with keys of their own, one behind the other; and their places."""
    committed = sorted([place for place, it in enumerate(ran) if it.outcome == 'commit'], key=lambda place: abs(place - near))[:60]
    places = sorted(rnd.sample(committed, len(those)))
    base = 2 * 10 ** 9 + 10 * near
    for place, ops in zip(places, those):
        for op in ops:
            kind, key, wid = op.split(' ')
            ran = changed(ran, place, len(ran[place].ops), (kind, '%s-planted-%d' % (key, near), base + int(wid)))
    return ran, set(places)


def planted(ran, rnd, kind, near):
    if kind in ONE_READ:
        return planted_read(ran, rnd, kind, near)
    return planted_keys(ran, rnd, dict((SKEW, FORK))[kind], near)


# ---- what is said of them

def tell(program, path, text, words=(), faults=1):
    with open(path, 'wb') as log:
        log.write(text)
    files = ['--part', path + '.part', '--order', path + '.order']
    return Answer(call(program, 'audit', *words, *['--faults', str(faults)] * (faults > 1), *files, path), faults)


def check_part(program, path, text, sessions, part, most, has_files=True):
    """That a part is one, of so many transactions at most; gives what is met in its explanation."""
    must(len(part.lines) <= most, 'a part of %d transactions' % len(part.lines))
    law = certificates.check_told(sessions, text, part)
    left = certificates.leaner(sessions, part)
    must(left is None, 'the part %r has no order without %r' % (list(part.lines), left))
    if has_files:
        certificates.check_sessions(law, part)
        said, numbers = certificates.check_files(sessions, text, law, path + '.part')
        return certificates.check_explained(said, numbers, law, certificates.check_code(program, said, part), part.why)
    return {}


class Long:
    """A long log, and what is said of it with faults and without."""

    def __init__(self, program, folder, seed, stated):
        self.program, self.rnd, self.stated = program, random.Random('%s %s' % (seed, stated)), stated
        self.path = os.path.join(folder, '%d %s.log' % (seed, stated))
        self.ran, self.met = served(self.rnd, self.rnd.randint(2000, 5000)), collections.Counter()

    def text_of(self, ran):
        sessions, names = sessions_of(ran, random.Random(self.path), STATED[self.stated])
        return sessions, names, generate.text_of(sessions, 3)

    def without_fault(self):
        sessions, _, text = self.text_of(self.ran)
        for workers in ('1', '4'):
            answer = tell(self.program, self.path, text, ['--workers', workers])
            must(answer.first == 'serializable', 'says %r' % answer.first)
            certificates.check_counts(answer, sessions)
            with open(self.path + '.order') as order:
                certificates.check_order(sessions, order.read())

    def with_fault(self, kind, share):
        found = planted(self.ran, self.rnd, kind, int(share * (len(self.ran) - 1)))
        must(found, 'there is no place for it')
        ran, places = found
        sessions, names, text = self.text_of(ran)
        answer = tell(self.program, self.path, text, ['--explain', '--workers', self.rnd.choice(('1', '3', '4'))])
        must(answer.first == 'not serializable', 'says %r' % answer.first)
        part = answer.parts[0]
        must({names[place] for place in places} & set(part.lines), 'the part %r has none of %r' % (list(part.lines), [names[place] for place in places]))
        must(kind[0] != 'A' or kind == 'A7' or part.code == kind, 'the code is %r' % part.code)
        self.met['%s as %s, %d' % (kind, part.code, len(part.lines))] += 1
        self.met.update(check_part(self.program, self.path, text, sessions, part, MOST_OF_FORK if kind == FORK[0] else MOST))

    def with_faults(self):
        """One fault of each kind that a read shows by itself, each a tenth of the log behind the other."""
        ran, places, kinds = self.ran, set(), []
        for n, kind in enumerate(self.rnd.sample([kind for kind in KINDS if 'moments' not in kind or self.stated == 'moments'], 9)):
            found = planted(ran, self.rnd, kind, int((n + 0.5) / 9 * (len(ran) - 1)))
            if found and not found[1] & places:
                ran, places = found[0], places | found[1]
                kinds.append((kind, found[1]))
        sessions, names, text = self.text_of(ran)
        answer = tell(self.program, self.path, text, ['--explain'], 100)
        must(answer.first == 'not serializable', 'says %r' % answer.first)
        for n, part in enumerate(answer.parts):
            must({names[place] for place in places} & set(part.lines), 'the part %r has nothing that was planted' % list(part.lines))
            check_part(self.program, self.path, text, sessions, part, MOST_OF_FORK, n == 0)
        told = {name for part in answer.parts for name in part.lines}
        left = [(kind, [names[place] for place in these]) for kind, these in kinds if not {names[place] for place in these} & told]
        must(not left, 'planted and not told: %r' % left)


def many_clients(job):
    """What is said of such clients, where that is not right."""
    program, folder, clients, keys, seed, count, rising = job
    path = os.path.join(folder, '%d %d %d %s.log' % (clients, keys, seed, rising))
    with open(path, 'wb') as log:
        log.write(generate.text_of(snapshots_served(random.Random(path[len(folder):]), count, clients, keys, rising), 1))
    said = call(program, 'audit', '--quiet', '--level', 'snapshot', path)
    return [] if said[:2] == (0, 'snapshot isolation: kept\n') else ['%d clients, %d keys: %r' % (clients, keys, said)]


def judged(job):
    program, folder, seed, stated, places = job
    long, faults, passed = Long(program, folder, seed, stated), [], 0
    tries = [('without a fault', long.without_fault, ()), ('with faults', long.with_faults, ())]
    tries += [('%s at %.2f' % (kind, share), long.with_fault, (kind, share)) for kind in KINDS if 'moments' not in kind or stated == 'moments'
              for share in [n / max(1, places - 1) for n in range(places)]]
    for name, test, given in tries:
        try:
            test(*given)
            passed += 1
        except Exception as wrong:
            faults.append('log %d, %s, %s: %s: %s' % (seed, stated, name, type(wrong).__name__, wrong))
    return faults, passed, long.met


def main():
    words = argparse.ArgumentParser(description=__doc__, formatter_class=argparse.RawDescriptionHelpFormatter)
    words.add_argument('program', metavar='PROGRAM', help='the program, cobra_poly')
    words.add_argument('places', metavar='PLACES', type=int, nargs='?', default=PLACES, help='into how many places each fault is put (%(default)s)')
    words.add_argument('--seed', type=int, default=SEED, help='from which number logs are made (%(default)s)')
    words.add_argument('--logs', type=int, default=2, help='how many logs with moments, with some and without (%(default)s)')
    words = words.parse_args()
    program, faults, passed, met = os.path.abspath(words.program), [], 0, collections.Counter()
    with tempfile.TemporaryDirectory() as folder, concurrent.futures.ProcessPoolExecutor(LANES) as pool:
        jobs = [(program, folder, seed, stated, words.places) for seed in range(words.seed, words.seed + words.logs) for stated in STATED]
        for found, count, here in pool.map(judged, jobs):
            faults, passed = faults + found, passed + count
            met.update(here)
        jobs = [(program, folder, clients, keys, words.seed, 6000, True) for clients in (20, 60, 200, 1000) for keys in (100, 2000)]
        jobs += [(program, folder, clients, keys, words.seed, 2000, False) for clients in (20, 100) for keys in (100, 1000)]
        for found in pool.map(many_clients, jobs):
            faults, passed = faults + found, passed + (not found)
    for fault in faults[:SHOWN]:
        print('FAILED', fault)
    print('long_logs: met: %s' % ', '.join('%s %d' % (what, met[what]) for what in sorted(met)))
    print('long_logs: %d passed, %d failed' % (passed, len(faults)))
    return 1 if faults else 0


if __name__ == '__main__':
    sys.exit(main())
