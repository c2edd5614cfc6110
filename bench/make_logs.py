#!/usr/bin/env python3
"""make_logs.py FOLDER: logs at the limits, for the benchmark."""
import os, sys

if '--help' in sys.argv:
    sys.exit(print(__doc__))
folder = sys.argv[1]
os.makedirs(folder, exist_ok=True)


def write(name, lines):
    with open(os.path.join(folder, name), 'w') as out:
        out.write(''.join(line + '\n' for line in lines))


def bipaths(keys):
    """50 sessions, each with a transaction that writes the keys and one that reads them: 100 transactions, 2450 bipaths a key."""
    for s in range(1, 51):
        yield 'session %d' % s
        yield 'begin'
        for k in range(1, keys + 1):
            yield 'w k%d %d' % (k, s * 1000 + k)
        yield 'commit'
        yield 'begin'
        for k in range(1, keys + 1):
            yield 'r k%d %d' % (k, s * 1000 + k)
        yield 'commit'


def operations(committed, long_keys, version=1):
    """200,000 operations over 10,000 keys in this many committed transactions and 64 sessions, close to 16 MiB with long keys. In version
    2 the last outcome of each session is unknown, and nobody reads these writes."""
    prefix = 'k' * (55 if long_keys else 1)
    each = 200000 // committed
    count = 0
    if version == 2:
        yield 'log 2'
    for t in range(committed):
        if t * 64 // committed != (t - 1) * 64 // committed or t == 0:
            yield 'session %d' % (t * 64 // committed + 1)
        yield 'begin'
        for _ in range(each):
            count += 1
            yield 'w %s%d %d' % (prefix, count * 7919 % 10000, 2 ** 63 + count * 104729 % 2 ** 60)
        yield 'unknown' if version == 2 and t * 64 // committed != (t + 1) * 64 // committed else 'commit'


def unknown_chain():
    """Version 2: a transaction in each of 64 sessions that reads what the session before it wrote. The last one is committed, and so all
    the others are taken, whose outcomes are unknown; each writes 156 keys of its own, 3,124 times."""
    yield 'log 2'
    for s in range(1, 65):
        yield 'session %d' % s
        yield 'begin'
        yield 'r k%d %d' % (156 * s - 153, 10000 * s - 6876 if s > 1 else 0)
        for i in range(3124):
            yield 'w k%d %d' % (156 * s + i % 156, 10000 * s + i + 1)
        yield 'unknown' if s < 64 else 'commit'


def choices():
    """400 transactions in 64 sessions that write x, half of them also y: 99,700 choices between chains, some of them forced."""
    for t in range(400):
        if t == 0 or t * 64 // 400 != (t - 1) * 64 // 400:
            yield 'session %d' % (t * 64 // 400 + 1)
        yield 'begin'
        yield 'w x %d' % (t + 1)
        if t < 200:
            yield 'w y %d' % (t + 1001)
        yield 'commit'


def choices_of_eight_keys():
    """1,000 transactions in 64 sessions that write five keys in turn, and the first ones three others too: 100,000 choices between
    chains, some of them forced."""
    others = ['f'] * 32 + ['g'] * 3 + ['h'] * 2
    for t in range(1000):
        if t == 0 or t * 64 // 1000 != (t - 1) * 64 // 1000:
            yield 'session %d' % (t * 64 // 1000 + 1)
        yield 'begin'
        yield 'w %s %d' % ('abcde'[t % 5], t + 1)
        if t < len(others):
            yield 'w %s %d' % (others[t], t + 1001)
        yield 'commit'


def one_session(count, keys):
    """These transactions write the keys in turn in one session: each choice between two of them is forced."""
    yield 'session 1'
    for t in range(count):
        yield 'begin'
        yield 'w %s %d' % (keys[t % len(keys)], t + 1)
        yield 'commit'


def writers(count, keys):
    """Each of these transactions writes one of the keys in a session of its own, in 60 sessions at the most: all choices between two
    sessions stay open."""
    for t in range(count):
        if t < 60:
            yield 'session %d' % (t + 1)
            for turn, place in enumerate(range(t, count, 60)):
                yield 'begin'
                yield 'w %s %d' % (keys[(t + turn) % len(keys)], place + 1)
                yield 'commit'


def in_time(count, beside, operations):
    """Version 3: these transactions are dealt to 64 sessions. Each states its moments, and is under way at once with so many of those
    begun before it."""
    yield 'log 3'
    for s in range(64):
        yield 'session %d' % (s + 1)
        for t in range(s, count, 64):
            yield 'begin %d' % (2 * t)
            yield from operations(t)
            yield 'commit %d' % (2 * (t + beside) + 1)


def one_write(keys):
    """The operations of a transaction that writes one of the keys."""
    return lambda t: ['w %s %d' % (keys[t % len(keys)], t + 1)]


def many_reads(t):
    """The operations of one of 1,000 transactions: 10 writes of keys of its own, and 190 reads of others, as the transactions before it
    left them."""
    keys = [(t * 10 + 37 * i) % 10000 for i in range(1, 191)]
    reads = ['r k%d %d' % (key, key + 1 if key < 10 * t else 0) for key in keys if key // 10 != t]
    return ['w k%d %d' % (key, key + 1) for key in range(10 * t, 10 * t + 10)] + reads


def forks(count):
    """Two versions each of x and y, and readers of all four pairs of them: no order. Before these stand open choices of other keys,
    one each, so that a search that takes the first open choice decides them first."""
    session = 0
    lines = []
    for k in range(count):
        for w in range(2):
            lines.append(['w k%d %d' % (k, 1000 + 2 * k + w)])
    lines += [['w x 1'], ['w x 2'], ['w y 3'], ['w y 4']]
    lines += [['r x %d' % x, 'r y %d' % y] for x in (1, 2) for y in (3, 4)]
    for ops in lines:
        session += 1
        yield 'session %d' % session
        yield 'begin'
        yield from ops
        yield 'commit'


def crossed(count, readers):
    """Two versions each of x and y, and readers of all four pairs of them: no order. Beside these stand keys with two versions and this
    many readers of each, so that a search that takes the choice with the most edges decides them first, and closes all that is below each."""
    sessions = []
    for k in range(count):
        for w in (1000 + 2 * k, 1001 + 2 * k):
            sessions.append([['w k%d %d' % (k, w)]] + [['r k%d %d' % (k, w)]] * readers)
    sessions += [[['w x 1']], [['w x 2']], [['w y 3']], [['w y 4']]]
    sessions += [[['r x %d' % x, 'r y %d' % y]] for x in (1, 2) for y in (3, 4)]
    for session, transactions in enumerate(sessions, 1):
        yield 'session %d' % session
        for ops in transactions:
            yield 'begin'
            yield from ops
            yield 'commit'


def one_long_write(chain, writes, keys):
    """A chain of so many writers of these keys, and a transaction that writes them so many times, in turn. Either order of the two chains
    goes with no order of p and q, each way by a cycle with an edge from a reader of the last of one chain to the first of the other. Before
    these stand four open choices, so that a search that takes the first open choice comes to these cycles sixteen times."""
    def last(w):
        return [(key, w * len(keys) + i + 1) for i, key in enumerate(keys)]
    session = 0
    linked = [['w %s %d' % at for at in last(0)] + ['w h 500001']]
    linked += [['r %s %d' % at for at in last(t - 1)] + ['w %s %d' % at for at in last(t)] for t in range(1, chain)]
    lines = [[['w k%d %d' % (k, 600000 + 2 * k + w)]] for k in range(4) for w in range(2)]
    lines += [linked]
    lines += [[['w b 500002'] + ['w %s %d' % (keys[i % len(keys)], 100000 + i) for i in range(writes)]]]
    ends = [(keys[i % len(keys)], 100000 + i) for i in range(writes - len(keys), writes)]
    of_chain, of_long = (['r %s %d' % at for at in ats] for ats in (last(chain - 1), ends))
    lines += [[['w z 500003', 'w p 500004']], [['w z 500005', 'w q 500006']]]
    lines += [[['r z 500003', 'r b 500002']], [['r z 500005', 'r b 500002']], [['r z 500003', 'r h 500001']], [['r z 500005', 'r h 500001']]]
    lines += [[of_chain + ['r q 500006']], [of_chain + ['r p 500004']], [of_long + ['r q 500006']], [of_long + ['r p 500004']]]
    for transactions in lines:
        session += 1
        yield 'session %d' % session
        for ops in transactions:
            yield 'begin'
            yield from ops
            yield 'commit'


write('choices_400.log', choices())
write('choices_1000.log', choices_of_eight_keys())
write('one_session_400.log', one_session(400, 'x'))
write('one_session_1000.log', one_session(1000, 'abcde'))
write('writers_25.log', writers(25, 'x'))
write('writers_100.log', writers(100, 'x'))
write('writers_400.log', writers(400, 'x'))
write('writers_1000.log', writers(1000, 'abcde'))
write('in_time_1000.log', in_time(1000, 0, one_write('abcde')))
write('beside_1000.log', in_time(1000, 100, one_write('abcde')))
write('reads_1000.log', in_time(1000, 0, many_reads))
write('forks_0.log', forks(0))
write('forks_5.log', forks(5))
write('forks_20.log', forks(20))
write('crossed_392.log', crossed(12, 15))
write('crossed_992.log', crossed(12, 40))
write('crossed_984.log', crossed(8, 60))
write('one_long_write_1.log', one_long_write(800, 190000, 'x'))
write('one_long_write_2.log', one_long_write(800, 190000, 'xy'))
write('bipaths_40.log', bipaths(40))
write('bipaths_41.log', bipaths(41))
write('operations_100.log', operations(100, True))
write('operations_400.log', operations(400, True))
write('operations_1000.log', operations(1000, True))
write('one_transaction.log', operations(1, True))
write('unknown_100.log', operations(100, True, 2))
write('unknown_chain.log', unknown_chain())
write('begins.log', ['session 1'] + ['begin', 'commit'] * 390 + ['begin', 'abort'] * 1000000)
