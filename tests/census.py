#!/usr/bin/env python3
"""census.py PROGRAM: what `census` counts, against a plain count by tests/reference.py: of each code from A1 to A6 the reads, and of A7 the
transactions that update a version of a key which another one updates too; and the ten keys with the most of these.

Logs of examples/, and some hundred made ones with faults of all kinds and unknown outcomes; the first line, each other line, and the status.
Last line: 'census: N passed, M failed'."""
import argparse, collections, os, random, sys

HERE = os.path.dirname(os.path.abspath(__file__))
sys.path.insert(0, HERE)
import generate, level_model, reference
from certificates import call

NAMES = {'A1': 'unknown read', 'A2': 'aborted read', 'A3': 'intermediate read', 'A4': 'own write missed', 'A5': 'future read', 'A6': 'split read',
         'A7': 'lost update'}
NOT_SERIALIZABLE, UNKNOWN, MADE, WORST = 1, 3, 400, 10


def updates(ops):
    """The versions that a transaction updates: of each key that it reads before it writes it, and writes, what it read first."""
    first = {}
    for kind, key, wid in ops:
        first.setdefault(key, wid if kind == 'r' else None)
    return {(key, wid) for key, wid in first.items() if wid is not None and any(op[:2] == ('w', key) for op in ops)}


def counts(sessions):
    """How many faults there are by code, and by key."""
    log = reference.History(sessions)
    reads = [(log.read_anomaly(node, place), op[1]) for node in log.nodes for place, op in enumerate(log.ops[node]) if op[0] == 'r']
    by_version = collections.Counter(version for node in log.nodes for version in updates(log.ops[node]))
    lost = [[key for key, wid in updates(log.ops[node]) if by_version[key, wid] > 1] for node in log.nodes]
    found = collections.Counter(code for code, key in reads)
    found['A7'] = sum(map(bool, lost))
    return found, collections.Counter([key for code, key in reads if code in NAMES] + sum(lost, []))


def text_of(found, by_key):
    total = sum(found[code] for code in NAMES)
    lines = ['census: ' + ('no fault of A1 to A7' if not total else '1 fault' if total == 1 else '%d faults' % total)]
    for code, name in NAMES.items():
        what = 'transaction' if code == 'A7' else 'read'
        lines.append('%s %s: %d %s' % (code, name, found[code], what if found[code] == 1 else what + 's'))
    for key, faults in sorted(by_key.items(), key=lambda line: (-line[1], line[0].encode()))[:WORST]:
        lines.append('key %s: %d %s' % (key, faults, 'fault' if faults == 1 else 'faults'))
    return NOT_SERIALIZABLE if total else UNKNOWN, '\n'.join(lines) + '\n'


def many_keys(seed):
    """A log of forty transactions over some keys, most of which have faults."""
    r = random.Random(seed)
    versions = {'k%d' % number: [0, 999] for number in range(r.randint(11, 20))}
    sessions, written = [], 1000
    for number in range(1, 5):
        transactions = []
        for _ in range(10):
            ops = []
            for key in r.sample(sorted(versions), 3):
                ops.append(('r', key, r.choice(versions[key])))
                if r.random() < 0.6:
                    written += 1
                    ops.append(('w', key, written))
                    versions[key].append(written)
            transactions.append(generate.Transaction(ops, r.choice(['commit'] * 5 + ['abort']), None, None))
        sessions.append((number, transactions))
    return generate.text_of(sessions)


def logs(made):
    yield from generate.examples((1, 2, 3))
    yield from (('log of many keys %d' % number, many_keys(number)) for number in range(1, made // 10 + 1))
    yield from (('made log %d' % number, level_model.made_text(number)) for number in range(1, made + 1))


def main():
    words = argparse.ArgumentParser(description=__doc__, formatter_class=argparse.RawDescriptionHelpFormatter)
    words.add_argument('program', metavar='PROGRAM', help='the program, cobra_poly')
    words.add_argument('--made', type=int, default=MADE, help='how many made logs (%(default)s)')
    words = words.parse_args()
    passed, failed, met = 0, 0, collections.Counter()
    for name, text in logs(words.made):
        try:
            found, by_key = counts(reference.read_log(text))
        except reference.Refused:
            continue
        met.update(code for code in NAMES if found[code])
        met['more than ten keys'] += len(by_key) > WORST
        told = call(words.program, 'census', text=text)
        if tuple(told[:2]) == text_of(found, by_key):
            passed += 1
        else:
            failed += 1
            print('FAILED %s: %r, and it is %r' % (name, told, text_of(found, by_key)))
    print('census: met in so many logs: %s' % ', '.join('%s %d' % it for it in sorted(met.items())))
    print('census: %d passed, %d failed' % (passed, failed))
    return 1 if failed else 0


if __name__ == '__main__':
    sys.exit(main())
