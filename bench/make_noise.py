"""Logs in which a few transactions that no order explains hide among others that have one; for bench/refute.py, bench/solve.py,
tests/solving.py and tests/auditing.py."""
import random

# Of those that ran in some order, and of all.
SESSIONS, MOST = 50, 64


def crossed(behind=(0, 0, 0, 0)):
    """Transactions of two keys that have no order: two writers of each, and a reader of each pair of versions. Behind each writer stand some
    more transactions, each of which reads its key from the one before and writes it; what the last one wrote is read."""
    found, versions, wid = [], [], 10000
    for key, more in zip('xxyy', behind):
        for turn in range(more + 1):
            wid += 1
            found.append(['r %s %d' % (key, wid - 1)] * (turn > 0) + ['w %s %d' % (key, wid)])
        versions.append('r %s %d' % (key, wid))
    return found + [[one, two] for one in versions[:2] for two in versions[2:]]


EIGHT, FIFTEEN = crossed(), crossed((2, 2, 2, 1))


def ring(keys, noise, readers):
    """Transactions without an order: of so many keys in a ring, with two versions each, three of the four pairs of versions of neighbours
    are read, so that the order of one key gives those of all others, and the other way round. They stand behind those of so many keys of
    two versions each, which so many transactions read by itself, and which have an order."""
    hidden, before, wid = [], [], 0
    for key in range(noise):
        for _ in range(2):
            wid += 1
            before += [['w n%d %d' % (key, wid)]] + [['r n%d %d' % (key, wid)] for _ in range(readers)]
    hidden += [['w c%d %d' % (version // 2, wid + version + 1)] for version in range(2 * keys)]
    for key in range(keys):
        behind = (key + 1) % keys
        for one, two in ((0, 1), (0, 0), (1, 0)) if behind == 0 else ((0, 0), (0, 1), (1, 1)):
            hidden.append(['r c%d %d' % (key, wid + 2 * key + one + 1), 'r c%d %d' % (behind, wid + 2 * behind + two + 1)])
    return before + hidden


def log_of(transactions):
    """A log of these transactions, each in a session of its own."""
    lines = []
    for number, ops in enumerate(transactions, 1):
        lines += ['session %d' % number, 'begin', *ops, 'commit']
    return ''.join(line + '\n' for line in lines)


def noisy_log(count, keys, seed=1, hidden=EIGHT):
    """A log of so many transactions of a few keys, which ran in some order, and of some more of other keys, which have none."""
    r, store, written, sessions = random.Random(seed), {}, 0, [[] for _ in range(min(SESSIONS, MOST - len(hidden)))]
    for _ in range(count):
        ops = []
        for key in r.sample(range(keys), 2):
            if r.random() < 0.3:
                ops.append('r k%d %d' % (key, store.get(key, 0)))
            else:
                written += 1
                store[key] = written
                ops.append('w k%d %d' % (key, written))
        r.choice(sessions).append(ops)
    sessions += [[ops] for ops in hidden]
    lines = []
    for number, transactions in enumerate(sessions, 1):
        lines += ['session %d' % number] + [line for ops in transactions for line in ('begin', *ops, 'commit')]
    return ''.join(line + '\n' for line in lines)
