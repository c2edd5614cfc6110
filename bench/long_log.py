#!/usr/bin/env python3
"""long_log.py FILE [--transactions N]: writes a log of any length that has a serial order.

So many transactions of four operations by so many sessions, with moments. The transactions of different sessions overlap. Identities follow
the order; with --shuffled they do not. With --fault a read in the middle names an old version."""
import argparse, random


def transactions(words):
    """Yields (session, begun, ended, operations), in an order that explains all of it."""
    r, held, wid, clock = random.Random(words.seed), {}, 0, 1000
    fault = words.transactions // 2 if words.fault else None
    name = (lambda wid: wid * 6364136223846793005 % (2 ** 61 - 1)) if words.shuffled else (lambda wid: wid)
    free = [clock] * words.sessions
    for t in range(words.transactions):
        ops, session = [], r.randrange(words.sessions)
        for _ in range(words.operations):
            key = 'key%d' % r.randrange(words.keys)
            if r.random() < 0.5:
                wid += 1
                ops.append('w %s %d' % (key, name(wid)))
                held[key] = wid
            else:
                seen = held.get(key, 0)
                if fault is not None and t >= fault and seen > 1:
                    seen, fault = seen - 1, None
                ops.append('r %s %d' % (key, name(seen)))
        clock += 3
        begun = max(free[session], clock - r.randrange(10))
        ended = max(begun, clock + r.randrange(10))
        free[session], clock = ended + 1, max(clock, begun)
        yield session, begun, ended, ops


def main():
    words = argparse.ArgumentParser(description=__doc__, formatter_class=argparse.RawDescriptionHelpFormatter)
    words.add_argument('file')
    for name, default, what in (('transactions', 1000000, 'how many in all'), ('sessions', 16, 'clients'), ('operations', 4, 'of each transaction'), ('keys', 2000, 'different keys'), ('seed', 1, 'of the random numbers')):
        words.add_argument('--' + name, type=int, default=default, help='%s (%d)' % (what, default))
    words.add_argument('--fault', action='store_true', help='a log without a serial order')
    words.add_argument('--shuffled', action='store_true', help='identities do not follow the order')
    words = words.parse_args()
    sessions = [[] for _ in range(words.sessions)]
    for session, begun, ended, ops in transactions(words):
        sessions[session].append('begin %d\n%s\ncommit %d\n' % (begun, '\n'.join(ops), ended))
    with open(words.file, 'w') as out:
        out.write('log 3\n')
        for number, txns in enumerate(sessions, 1):
            out.write('session %d\n' % number)
            out.writelines(txns)


if __name__ == '__main__':
    main()
