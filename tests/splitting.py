#!/usr/bin/env python3
"""splitting.py PROGRAM [--cases N] [--seed N]: what `split` writes of a log, against a plain splitter made from the words of
docs/DEFINITIONS.md, and what `check` says of it, against snapshot orders by brute force.

Small logs of all versions are made, some with keys that begin with underscores, keys of up to 64 bytes and great identities. The text must
be that of the plain splitter, and `check` must find an order of it exactly where the log has a snapshot order; the search for these is
tried against all lists of points. A log without room is refused in words; one with a fault as `audit` refuses it. Then calls by hand: a
transaction of 200,000 operations; a long log, whose split log goes through `audit`; and the same log with keys of 64 bytes, which `audit`
judges at `snapshot`. Last line: 'splitting: N passed, M failed'."""
import argparse, concurrent.futures, hashlib, os, random, subprocess, sys, time

HERE = os.path.dirname(os.path.abspath(__file__))
sys.path.insert(0, HERE)
import generate, reference, small_logs, snapshots
from reference import Transaction

CASES, SEED, CALLS, SHOWN, LATE, SECONDS = 1500, 1, 4, 20, 120, 20
MOST_BYTES, IDENTITIES = 64, 2 ** 64


def call(program, *words, text=b''):
    """The status, and what is said on both outputs."""
    ran = subprocess.run([program, *words], input=text, stdout=subprocess.PIPE, stderr=subprocess.PIPE, timeout=LATE)
    return ran.returncode, ran.stdout, ran.stderr.decode()


# ---- the plain splitter

class NoRoom(Exception):
    """Why the locks of a log cannot be named."""


def operations(sessions):
    return [op for _, transactions in sessions for it in transactions for op in it.ops]


class Locks:
    """The names of the locks of a log."""

    def __init__(self, sessions):
        keys = [key for _, key, _ in operations(sessions)]
        self.marks = 1 + max((len(key) - len(key.lstrip('_')) for key in keys), default=0)
        self.largest = max((wid for _, _, wid in operations(sessions)), default=0)
        writes = [wid for kind, _, wid in operations(sessions) if kind == 'w']
        self.places = {wid: place for place, wid in enumerate(writes, 1)}
        self.numbers = {}
        for key in keys:
            self.numbers.setdefault(key, len(self.numbers) + 1)
        longest = max(map(len, keys), default=0)
        self.are_long = self.marks + longest > MOST_BYTES
        if self.are_long and self.marks + len(str(len(self.numbers))) > MOST_BYTES:
            raise NoRoom('a key of the log has %d bytes and its lock %d more, and a key has at most 64' % (longest, self.marks))
        if self.largest + len(writes) >= IDENTITIES:
            raise NoRoom('the identities of the log reach %d, and above it are not as many as its %d writes' % (self.largest, len(writes)))

    def of(self, key, wid):
        """The lock of a key, and the identity under which a transaction takes it whose first write of the key has this one."""
        name = str(self.numbers[key]) if self.are_long else key
        return '_' * self.marks + name, self.largest + self.places[wid]


def halves(locks, it):
    reads, rest = snapshots.parted(it.ops)
    first = {}
    for kind, key, wid in it.ops:
        if kind == 'w':
            first.setdefault(key, wid)
    names = [locks.of(key, wid) for key, wid in first.items()]
    return [Transaction(reads + [('w', *name) for name in names], 'commit', it.begun, None),
            Transaction([('r', *name) for name in names] + rest, 'commit', None, it.ended)]


def split_log(sessions):
    """The split log, once outcomes are known."""
    locks, out = Locks(sessions), []
    for number, transactions in small_logs.resolved(sessions):
        out.append((number, []))
        for it in transactions:
            is_split = it.outcome == 'commit' and snapshots.keys_written(it.ops)
            out[-1][1].extend(halves(locks, it) if is_split else [it])
    return out


# ---- made logs

def renamed(r, sessions):
    """The same with other keys, and with other identities."""
    forms = ['%s', '_%s', '__%s', '%s_', '_', 'k_%s', '%s' + 'k' * r.randint(58, 63), '_%s' + 'k' * r.randint(55, 62), '_' * r.randint(60, 63) + '%s']
    names = {}
    for kind, key, wid in operations(sessions):
        form = r.choice(forms if r.random() < 0.3 else forms[:6])
        names.setdefault(key, form % key if '%s' in form else form)
    if len(set(names.values())) < len(names):
        return sessions
    least = r.choice([0, 0, 7, 10 ** 12, IDENTITIES - 60])
    up = lambda wid: wid + least if wid else 0
    change = lambda it: it._replace(ops=[(kind, names[key], up(wid)) for kind, key, wid in it.ops])
    return [(number, [change(it) for it in transactions]) for number, transactions in sessions]


def hashed(sessions):
    """The same with keys of 64 bytes: the SHA-256 of each."""
    name = lambda key: hashlib.sha256(key.encode()).hexdigest()
    return [(number, [it._replace(ops=[(kind, name(key), wid) for kind, key, wid in it.ops]) for it in its]) for number, its in sessions]


def isolated_log(r):
    """Transactions that overlap, in a store with snapshots, which lets a second committer through now and then."""
    keys, sessions = 'xyz'[:r.randint(2, 3)], [(number, []) for number in range(1, r.randint(2, 4))]
    store, opened, wid, clock, states = {}, {}, 0, 0, r.random() < 0.5
    for _ in range(r.randint(4, 9)):
        number, transactions = r.choice(sessions)
        clock += r.randint(0, 2)
        if number in opened:
            begun, seen, own, ops = opened.pop(number)
            is_first = all(store.get(key, 0) == seen.get(key, 0) for key in own)
            outcome = 'commit' if is_first or r.random() < 0.2 else 'abort'
            if outcome == 'commit':
                store.update(own)
            transactions.append(generate.stating(ops, outcome, begun, clock if states and r.random() < 0.7 else None))
            continue
        ops, own = [], {}
        for _ in range(r.randint(2, 3)):
            key = r.choice(keys)
            if r.random() < 0.5:
                ops.append(('r', key, own.get(key, store.get(key, 0))))
            else:
                wid += 1
                own[key] = wid
                ops.append(('w', key, wid))
        opened[number] = (clock if states and r.random() < 0.7 else None, dict(store), own, ops)
    return sessions


def made_log(seed):
    r = random.Random(seed)
    sessions = isolated_log(r) if seed % 2 else reference.read_log(generate.small_log(seed, r.choice((1, 2, 3))))
    chosen = r.random()
    return renamed(r, sessions) if chosen < 0.5 else hashed(sessions) if chosen < 0.6 else sessions


# ---- what is wrong

def wrong_with(program, seed):
    """What is wrong with what is said of a made log, and which kind it was."""
    sessions = made_log(seed)
    text = generate.text_of(sessions)
    status, out, said = call(program, 'split', '--workers', str(1 + seed % 4), text=text)
    try:
        expected = split_log(sessions)
    except NoRoom as why:
        same = (status, out, said) == (2, b'', '-: no room for the locks: %s\n' % why)
        return 'no room', None if same else 'no room: %d %r' % (status, said)
    if (status, said) != (0, '') or out != generate.text_of(expected):
        return 'split', 'another text: %d %r' % (status, said)
    holds = snapshots.has_order(sessions)
    if len(snapshots.nodes_of(sessions)) <= 3 and snapshots.has_order_of_all(sessions) != holds:
        return 'split', 'the search for snapshot orders is wrong'
    status, _, said = call(program, 'check', text=out)
    kind = 'not snapshot isolated' if not holds else 'serializable' if small_logs.has_order(sessions) else 'snapshot isolated alone'
    return kind, None if (status, said) == (0 if holds else 1, '') else 'check: %d %r' % (status, said)


def wrong_fault(program, seed):
    """What is wrong with how a damaged log is refused."""
    text = generate.damaged(seed, 1 + seed % 3)
    asked, given = [call(program, command, text=text) for command in ('audit', 'split')]
    if asked[0] != 2:
        return 'whole', None if given[0] in (0, 2) else '%d %r' % (given[0], given[2])
    return 'refused', None if given == asked else '%r in place of %r' % (given, asked)


def of_each(program, judge, seeds):
    with concurrent.futures.ThreadPoolExecutor(CALLS) as pool:
        for seed, (kind, wrong) in zip(seeds, pool.map(lambda seed: judge(program, seed), seeds)):
            yield seed, kind, wrong


# ---- by hand

def text_by(transactions):
    return generate.text_of([(1, transactions)])


def commit(*ops):
    return Transaction(list(ops), 'commit')


def underscores(many, keys):
    """A log of so many keys, of which one is so many underscores."""
    return [(1, [commit(*[('w', 'k%d' % n, n) for n in range(1, keys)], ('w', '_' * many, keys))])]


def large_transaction():
    """200,000 operations: on each key a read, then a write, or the other way round."""
    ops = []
    for n in range(100000):
        pair = [('r', 'k%d' % n, 0), ('w', 'k%d' % n, n + 1)]
        ops += pair if n % 2 else [pair[1], ('r', 'k%d' % n, n + 1)]
    return [(1, [Transaction(ops, 'commit')])]


def long_log(wrong):
    """5000 transactions of 25 sessions that ran one after the other; in a wrong log the last two lose an update."""
    r, store, sessions, wid = random.Random(3), {}, [(n, []) for n in range(1, 26)], 0
    for turn in range(5000):
        ops, own = [], dict(store)
        for _ in range(4):
            key = 'k%d' % r.randrange(200)
            ops.append(('r', key, own.get(key, 0)))
            if r.random() < 0.5:
                wid += 1
                own[key] = wid
                ops.append(('w', key, wid))
        store = own
        sessions[turn % 25][1].append(Transaction(ops, 'commit', 10 * turn, 10 * turn + 5))
    if wrong:
        for n in (0, 1):
            wid += 1
            sessions[n][1].append(Transaction([('r', 'k0', store['k0']), ('w', 'k0', wid)], 'commit', 50000, 50009))
    return sessions


def by_hand(program):
    """The name of each case by hand, and what is wrong with it."""
    key = 'k' * MOST_BYTES
    cases = [
        ('empty', [], None),
        ('a reader alone', [(1, [commit(('r', key, 0))])], None),
        ('a key of 63 bytes', [(1, [commit(('w', key[1:], 1))])], None),
        ('a key of 64 bytes', [(1, [commit(('r', 'x', 0), ('w', key, 1), ('w', 'x', 2))])], None),
        ('a long key of an aborted transaction', [(1, [Transaction([('w', key, 1)], 'abort'), commit(('w', 'x', 2))])], None),
        ('31 underscores', [(1, [commit(('w', '_' * 31, 1))])], None),
        ('40 underscores', [(1, [commit(('w', '_' * 40, 1), ('w', 'x', 2))])], None),
        ('62 underscores and 9 keys', underscores(62, 9), None),
        ('62 underscores and 10 keys', underscores(62, 10), 'a key of the log has 62 bytes and its lock 63 more, and a key has at most 64'),
        ('63 underscores', underscores(63, 1), 'a key of the log has 63 bytes and its lock 64 more, and a key has at most 64'),
        ('64 underscores', underscores(64, 1), 'a key of the log has 64 bytes and its lock 65 more, and a key has at most 64'),
        ('neither keys nor identities', [(1, [commit(('w', '_' * 64, IDENTITIES - 1))])],
         'a key of the log has 64 bytes and its lock 65 more, and a key has at most 64'),
        ('the last identity', [(1, [commit(('w', 'x', IDENTITIES - 2))])], None),
        ('no identity left', [(1, [commit(('w', 'x', IDENTITIES - 1))])],
         'the identities of the log reach 18446744073709551615, and above it are not as many as its 1 writes'),
        ('the last identity is read', [(1, [commit(('r', 'x', IDENTITIES - 1))])], None),
    ]
    for name, sessions, why in cases:
        status, out, said = call(program, 'split', text=generate.text_of(sessions))
        if why:
            right = (status, out, said) == (2, b'', '-: no room for the locks: %s\n' % why)
        else:
            right = (status, out, said) == (0, generate.text_of(split_log(sessions)), '')
        yield name, None if right else '%d %r' % (status, said)
    for name, is_isolated in (('write_skew', True), ('lost_update', False), ('long_fork', False)):
        log = call(program, 'split', os.path.join(HERE, '..', 'examples', name + '.log'))[1]
        status = call(program, 'check', text=log)[0]
        yield name, None if status == (0 if is_isolated else 1) else 'check: %d' % status
    sessions = large_transaction()
    text, begun = generate.text_of(sessions), time.monotonic()
    status, out, said = call(program, 'split', text=text)
    took = time.monotonic() - begun
    right = (status, said) == (0, '') and out == generate.text_of(split_log(sessions))
    yield 'a large transaction', 'another text' if not right else None if took < SECONDS else '%.1f seconds' % took
    for wrong in (False, True):
        sessions = long_log(wrong)
        status, out, said = call(program, 'split', text=generate.text_of(sessions))
        right = (status, said) == (0, '') and out == generate.text_of(split_log(sessions))
        told = call(program, 'audit', text=out) if right else None
        verdict = b'not serializable' if wrong else b'serializable'
        right = right and told[0] == int(wrong) and told[1].startswith(verdict)
        yield 'a long log', None if right else 'audit: %r' % (told,)
    for wrong in (False, True):
        status, out, said = call(program, 'audit', '--level', 'snapshot', text=generate.text_of(hashed(long_log(wrong))))
        verdict = b'snapshot isolation: not kept' if wrong else b'snapshot isolation: kept'
        yield 'keys of 64 bytes', None if status == int(wrong) and out.startswith(verdict) else '%d %r %r' % (status, out[:200], said)
    status, _, said = call(program, 'split', '/nowhere.log')
    yield 'no file', None if status == 5 and said.startswith('/nowhere.log: ') else '%d %r' % (status, said)


def main():
    words = argparse.ArgumentParser(description=__doc__.split('\n')[0])
    words.add_argument('program')
    words.add_argument('--cases', type=int, default=CASES)
    words.add_argument('--seed', type=int, default=SEED)
    words = words.parse_args()
    passed, failed, kinds = 0, 0, {}
    seeds = range(words.seed, words.seed + words.cases)
    for judge in (wrong_with, wrong_fault):
        for seed, kind, wrong in of_each(words.program, judge, seeds):
            kinds[kind] = kinds.get(kind, 0) + 1
            passed, failed = passed + (not wrong), failed + bool(wrong)
            if wrong and failed <= SHOWN:
                print('splitting: made log %d: %s' % (seed, wrong))
    for name, wrong in by_hand(words.program):
        passed, failed = passed + (not wrong), failed + bool(wrong)
        if wrong:
            print('splitting: %s: %s' % (name, wrong))
    print('splitting: ' + ', '.join('%s %d' % pair for pair in sorted(kinds.items())))
    print('splitting: %d passed, %d failed' % (passed, failed))
    return 1 if failed else 0


if __name__ == '__main__':
    sys.exit(main())
