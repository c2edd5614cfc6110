"""Small logs of all versions as random numbers have them, their nodes, and whether they have a serial order, by brute force and without the
program. A session is a pair of its number and its transactions, as in reference.py."""
from collections import namedtuple

import reference, taken
from reference import Transaction

# A committed or taken transaction: the number of its session, its place there, its operations and its moments.
Node = namedtuple('Node', 'session place ops begun ended')


def nodes_of(sessions):
    return [Node(number, place, it.ops, it.begun, it.ended)
            for (number, place), it in reference.named(sessions) if it.outcome == 'commit']


def resolved(sessions):
    """The taken transactions committed, and each other unknown one aborted."""
    names = reference.taken_of(sessions)
    outcome = lambda name, it: it.outcome if it.outcome != 'unknown' else 'commit' if name in names else 'abort'
    return [(number, [it._replace(outcome=outcome((number, place), it)) for place, it in enumerate(transactions, 1)])
            for number, transactions in sessions]


def has_order(sessions):
    return taken.has_order([[it for it in transactions if it.outcome == 'commit'] for _, transactions in resolved(sessions)])


def made_log(rnd):
    """A few sessions over a few keys, in bursts with breaks between; moments and outcomes may be missing, reads and clocks may lie."""
    keys = ['x', 'y', 'z'][:rnd.randint(1, 3)]
    sessions = [(number, []) for number in rnd.sample(range(1, 9), rnd.randint(1, 4))]
    honest, stated, liar = rnd.random() < 0.7, rnd.choice([0.5, 0.9, 1.0]), rnd.random() < 0.15
    wid, clock, start, store, written = 0, 10, 0, {}, []
    for _ in range(rnd.randint(1, 8)):
        number, transactions = rnd.choice(sessions)
        if transactions and transactions[-1].outcome == 'unknown':
            continue
        if rnd.random() < 0.4:
            clock += 10
            start = clock
        ops, own = [], {}
        for _ in range(rnd.choice([0, 1, 1, 2, 2, 3])):
            key = rnd.choice(keys)
            if rnd.random() < 0.5:
                wid += 1
                ops.append(('w', key, wid))
                own[key] = wid
                written.append((key, wid))
            else:
                right = own.get(key, store.get(key, 0))
                others = [w for k, w in written if k == key or rnd.random() < 0.1] + [0, wid + rnd.randint(1, 3)]
                ops.append(('r', key, right if honest and rnd.random() < 0.95 else rnd.choice(others + [right] * 3)))
        outcome = rnd.choices(['commit', 'abort', 'unknown'], [8, 1, 2])[0]
        if outcome == 'commit' or (outcome == 'unknown' and rnd.random() < 0.6):
            store.update(own)
        begun = max(start, clock + rnd.randint(-3, 1)) if rnd.random() < stated else None
        ended = max(begun or 0, clock + rnd.randint(0, 3)) if outcome == 'commit' and rnd.random() < stated else None
        if liar and rnd.random() < 0.5:
            begun = rnd.choice([None, rnd.randint(0, 40)])
            ended = rnd.choice([None, rnd.randint(begun or 0, 45)]) if outcome == 'commit' else None
        clock += rnd.randint(0, 2)
        transactions.append(Transaction(ops, outcome, begun, ended))
    return sessions
