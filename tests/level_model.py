#!/usr/bin/env python3
"""level_model.py [--logs N] [--seed N]: the nine levels of isolation by brute force of their definitions, without the program.

Serial orders, snapshot orders and prefix orders are gone through point by point, as reference.py and snapshots.py have them. An order of
one of the four levels below is one of nodes: it keeps each session's order and has a writer before each node that reads from it; an own
read finds the last own write before it, and each other read finds the last write of its key among the nodes that it sees. At read
committed a read sees nothing, at monotonic atomic view what the earlier reads of its transaction read from, at read atomic what its
transaction directly follows, and at causal all that it follows in the end. Other tests import judge(text, level), judge_all(text) and made_text(seed).

Written-out logs must keep just the levels that are said here, and made ones must keep each level that is implied by one that they keep.
Last line: 'level_model: N passed, M failed'."""
import argparse, collections, itertools, os, random, sys

HERE = os.path.dirname(os.path.abspath(__file__))
sys.path.insert(0, HERE)
import certificates, generate, reference, snapshots

# Each level, weakest first, with those that it implies at once.
IMPLIED = {'read-committed': [], 'monotonic-atomic-view': ['read-committed'], 'read-atomic': ['monotonic-atomic-view'],
           'causal': ['read-atomic'], 'prefix': ['causal'], 'snapshot': ['prefix'], 'strict-snapshot': ['snapshot'],
           'serializable': ['snapshot'], 'strict-serializable': ['serializable', 'strict-snapshot']}
LEVELS = tuple(IMPLIED)
BELOW = LEVELS[:4]
LOGS, SEED, SHOWN = 3000, 1, 20


# ---- the four levels below

class Seen:
    """The nodes of a log, what each follows, and what reads see."""

    def __init__(self, sessions):
        self.nodes = snapshots.nodes_of(sessions)
        self.all = range(len(self.nodes))
        self.ops = [node.ops for node in self.nodes]
        pairs = list(itertools.permutations(self.all, 2))
        self.direct = {(u, v) for u, v in pairs if self.is_earlier(u, v) or self.is_read(u, self.ops[v])}
        self.past = set(self.direct)
        for w, u, v in itertools.product(self.all, repeat=3):
            if (u, w) in self.past and (w, v) in self.past:
                self.past.add((u, v))

    def is_earlier(self, u, v):
        return self.nodes[u].session == self.nodes[v].session and self.nodes[u].place < self.nodes[v].place

    def is_read(self, u, ops):
        """Whether one of these operations reads what a node writes."""
        return any(kind == 'w' and ('r', key, wid) in ops for kind, key, wid in self.ops[u])

    def last_write(self, ops, key):
        return next((wid for kind, k, wid in reversed(ops) if (kind, k) == ('w', key)), None)

    def sees(self, level, u, v, before):
        """Whether a read of node v behind these of its operations sees node u."""
        if level == 'read-committed':
            return False
        if level == 'monotonic-atomic-view':
            return u != v and self.is_read(u, before)
        return (u, v) in (self.direct if level == 'read-atomic' else self.past)

    def wanted(self, level, v, place):
        """The pairs of nodes that an order must keep so that the operation at this place, if it is a read, finds what it names; None where
        no order lets it."""
        kind, key, wid = self.ops[v][place]
        before = self.ops[v][:place]
        own = self.last_write(before, key)
        if kind == 'w' or own == wid:
            return []
        if own is not None:
            return None
        seen = [u for u in self.all if self.sees(level, u, v, before) and self.last_write(self.ops[u], key) is not None]
        if wid == 0:
            return None if seen else []
        found = next((t for t in self.all if t != v and self.last_write(self.ops[t], key) == wid), None)
        return None if found is None else [(u, found) for u in seen if u != found]

    def has_order(self, level):
        """Whether some order of the nodes is one of the level."""
        pairs = set(self.direct)
        for v in self.all:
            for place in range(len(self.ops[v])):
                wanted = self.wanted(level, v, place)
                if wanted is None:
                    return False
                pairs.update(wanted)
        return self.has_line(pairs)

    def has_line(self, pairs):
        """Whether some order keeps these pairs: all orders, each followed up to the first node that may not come."""
        def goes_on(left):
            return not left or any(all((u, v) not in pairs for u in left) and goes_on(left - {v}) for v in left)
        return goes_on(frozenset(self.all))

    def finds(self, level, v, place, at):
        """Whether the operation at this place, if it is a read, finds what it names, where each node stands at a place of an order: the last
        write of its key among those that it sees and the one that it names."""
        kind, key, wid = self.ops[v][place]
        before = self.ops[v][:place]
        own = self.last_write(before, key)
        if kind == 'w' or own is not None:
            return kind == 'w' or own == wid
        left = {u: self.last_write(self.ops[u], key) for u in self.all if u != v}
        seen = [u for u in left if left[u] is not None and (left[u] == wid or self.sees(level, u, v, before))]
        return wid == (left[max(seen, key=at.get)] if seen else 0)

    def is_order(self, level, order):
        """Whether this list of nodes is an order of the level."""
        at = {v: place for place, v in enumerate(order)}
        if sorted(order) != list(self.all) or any(at[u] > at[v] for u, v in self.direct):
            return False
        return all(self.finds(level, v, place, at) for v in self.all for place in range(len(self.ops[v])))

    def has_order_of_all(self, level):
        """Whether one of all lists is such an order: for a few nodes."""
        return any(self.is_order(level, order) for order in itertools.permutations(self.all))


# ---- all levels

def kept(sessions, level):
    if level in BELOW:
        return Seen(sessions).has_order(level)
    if not level.startswith('strict'):
        sessions = certificates.without_moments(sessions)
    if level.endswith('serializable'):
        return reference.History(sessions).has_serial_order()
    return snapshots.has_order(sessions, locked=level != 'prefix')


def read(text):
    return reference.read_log(text.encode() if isinstance(text, str) else text)


def judge(text, level):
    """Whether a log keeps a level."""
    return kept(read(text), level)


def judge_all(text):
    """The levels that a log keeps."""
    sessions = read(text)
    return {level for level in LEVELS if kept(sessions, level)}


# ---- made logs

def bent_text(seed):
    """A log of up to six transactions whose reads name one write or another of their key, mostly of the last few, or the initial value."""
    r = random.Random(seed)
    made, written, wid = [[] for _ in range(r.randint(1, 4))], collections.defaultdict(lambda: [0]), 0
    keys, newest = 'xyz'[:r.randint(1, 3)], r.choice((1, 2, 2, 3, 9))
    for _ in range(r.randint(2, 6)):
        session, ops, mine = r.choice(made), [], {}
        if session and session[-1].outcome == 'unknown':
            continue
        for _ in range(r.randint(1, 4)):
            key, kind = r.choice(keys), r.choice('rrw')
            if kind == 'w':
                wid += 1
                mine[key] = wid
            is_own = kind == 'w' or key in mine and r.random() < 0.98
            ops.append((kind, key, mine[key] if is_own else r.choice(written[key][-newest:])))
        for key in mine:
            written[key].append(mine[key])
        session.append(reference.Transaction(ops, r.choices(('commit', 'abort', 'unknown'), (20, 1, 1))[0]))
    return generate.text_of([(number, transactions) for number, transactions in enumerate(made, 1)])


def snapshot_log(seed):
    """A log of at most five transactions that ran under snapshot isolation, each from a snapshot that others may have passed meanwhile. In
    many logs the store does wrong now and then: it commits what should be aborted, takes a snapshot older than the session's last
    commit or, where moments are stated, than the transaction's beginning, or lets a read see another write."""
    r = random.Random(seed)
    keys, states, wid = 'xyz'[:r.choice((1, 2, 2, 3))], [{}], 0
    made = [[] for _ in range(r.randint(2, 6))]
    seen, says, does_wrong = [0] * len(made), r.choice((0, 0.8, 1)), r.random() < 0.6
    for _ in range(r.randint(3, 5)):
        session = r.randrange(len(made))
        if made[session] and made[session][-1].outcome == 'unknown':
            continue
        wrong = r.choice(('lost', 'session', 'moment', 'moment', 'read')) if does_wrong and r.random() < 0.7 else 'nothing'
        last = len(states) - 1
        at = min(r.randint(0 if wrong == 'session' else seen[session], last) for _ in range(2))
        ops, mine = [], {}
        for kind in r.choices('rw', (6, 4), k=r.randint(1, 4)) if r.random() < 0.4 else 'r' * len(keys) + r.choice(('', 'w', 'w', 'wr')):
            key = keys[len(ops)] if kind == 'r' and len(ops) < len(keys) else r.choice(keys)
            if kind == 'w':
                wid += 1
                mine[key] = wid
            ops.append((kind, key, mine.get(key, states[at].get(key, 0))))
        reads = [place for place, op in enumerate(ops) if op[0] == 'r']
        if wrong == 'read' and reads:
            place = r.choice(reads)
            ops[place] = 'r', ops[place][1], r.randint(0, wid)
        is_late = any(states[at].get(key, 0) != state.get(key, 0) for state in states[at:] for key in mine)
        outcome = 'abort' if is_late and wrong != 'lost' else r.choices(('commit', 'unknown'), (9, 1))[0]
        if outcome != 'abort':
            states.append({**states[-1], **mine})
            seen[session] = len(states) - 1
        # a state is the last one from its number times two on, and this one was so when the transaction began
        first = last if wrong == 'moment' else r.choice((at, r.randint(0, at)))
        begun, ended = (moment if r.random() < says else None for moment in (2 * first + 1, 2 * last + 2))
        made[session].append(generate.stating(ops, outcome, begun, ended))
    return generate.text_of(list(enumerate(made, 1)))


def points_text(seed):
    return generate.small_log(seed, 1 + seed % 3) if seed % 5 == 0 else snapshot_log(seed)


def made_text(seed):
    return bent_text(seed) if seed % 2 else points_text(seed)


# ---- written-out logs

def log_of(short):
    """The log of a short text: `wx1` and `rx1` are operations, `c`, `a` and `u` end a transaction, and `/` a session."""
    ends, lines = {'c': 'commit', 'a': 'abort', 'u': 'unknown'}, ['log 2']
    for number, session in enumerate(short.split('/'), 1):
        lines.append('session %d' % number)
        for txn in filter(str.strip, session.replace('c', 'c;').replace('a', 'a;').replace('u', 'u;').split(';')):
            *ops, end = txn.split()
            lines += ['begin'] + ['%s %s %s' % (op[0], op[1], op[2:]) for op in ops] + [ends[end]]
    return '\n'.join(lines) + '\n'


# Short logs, each with the strongest of the first seven levels that it keeps, or None, and whether it keeps serializable.
SHORT = [('wx1 c / rx1 c', 'strict-snapshot', True),
         ('rx0 ry0 wx1 c / rx0 ry0 wy2 c', 'strict-snapshot', False),
         ('rx0 wx1 c / rx0 wx2 c', 'prefix', False),
         ('wx1 c / wy2 c / rx1 ry0 c / rx0 ry2 c', 'causal', False),
         ('wx1 c / wx2 c / rx1 c rx2 c / rx2 c rx1 c', 'read-atomic', False),
         ('wx1 c / rx1 wy2 c / ry2 rx0 c', 'read-atomic', False),
         ('wx1 wy2 c / ry0 rx1 c', 'monotonic-atomic-view', False),
         ('wx1 c rx0 c', 'monotonic-atomic-view', False),
         ('wx1 wy2 c / rx1 ry0 c', 'read-committed', False),
         ('wx1 wy2 c wx3 wy4 c / ry4 rx1 c', 'read-committed', False),
         ('rx1 c / wx1 u', 'strict-snapshot', True),
         ('rx0 c / wx1 u', 'strict-snapshot', True),
         ('rx1 c / wx1 a', None, False),
         ('rx1 c / wx1 wx2 c', None, False),
         ('rx1 c / wy2 c', None, False),
         ('wx1 rx0 c', None, False),
         ('rx1 wx1 c', None, False),
         ('wx1 ry2 c / rx1 wy2 c', None, False),
         ('rx1 c wx1 c', None, False)]


def wanted_levels(strongest, is_serial):
    below = LEVELS[:LEVELS.index(strongest) + 1] if strongest else ()
    return set(below) | ({'serializable', 'strict-serializable'} if is_serial else set())


def faults():
    """Each log that was tried, and what is wrong with it or None."""
    for short, *told in SHORT:
        found = judge_all(log_of(short))
        yield None if found == wanted_levels(*told) else '%s keeps %s' % (short, ' '.join(sorted(found, key=LEVELS.index)))


def made_faults(logs, seed, count):
    for number in range(seed, seed + logs):
        sessions = reference.read_log(made_text(number))
        found = {level for level in LEVELS if kept(sessions, level)}
        count.update(found)
        wrong = [(level, low) for level in found for low in IMPLIED[level] if low not in found]
        seen = Seen(sessions)
        wrong += [('all lists', level) for level in BELOW if len(seen.nodes) < 5 and seen.has_order_of_all(level) != (level in found)]
        yield 'made log %d: %r' % (number, wrong) if wrong else None


def main():
    words = argparse.ArgumentParser(description=__doc__, formatter_class=argparse.RawDescriptionHelpFormatter)
    words.add_argument('--logs', type=int, default=LOGS, help='how many made logs (%(default)s)')
    words.add_argument('--seed', type=int, default=SEED, help='from which number they are made (%(default)s)')
    words = words.parse_args()
    count = collections.Counter()
    found = list(faults()) + list(made_faults(words.logs, words.seed, count))
    wrong = [fault for fault in found if fault]
    for fault in wrong[:SHOWN]:
        print('FAILED', fault)
    print('level_model: kept by so many made logs: %s' % ', '.join('%s %d' % (level, count[level]) for level in LEVELS))
    print('level_model: %d passed, %d failed' % (len(found) - len(wrong), len(wrong)))
    return 1 if wrong else 0


if __name__ == '__main__':
    sys.exit(main())
