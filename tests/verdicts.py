#!/usr/bin/env python3
"""verdicts.py PROGRAM [--version-1]: what `check` says of small logs, against all orders and against the plain, slow reference beside
this file.

Each log of examples/ and a few thousand made ones, of all versions or with --version-1 of the first alone, go through `check` with each
strategy and with 1 and 4 workers. An anomaly, a cycle and its place must be the reference's, to the byte; `serializable` must come with an
order that explains every read, and only where there is one; where every cube is refuted no order may be serial. Logs of many open choices
that a search has to go through are made besides, and some are searched with too small a budget. Last line: 'verdicts: N passed, M failed'."""
import concurrent.futures, os, random, subprocess, sys

HERE = os.path.dirname(os.path.abspath(__file__))
sys.path.insert(0, HERE)
import generate, reference
from reference import Transaction

MADE, SEARCHED = {1: 1600, 2: 1000, 3: 1400}, {1: 350, 2: 200, 3: 350}
WAYS = [(strategy, workers) for strategy in ('first', 'most', 'least', 'forced') for workers in ('1', '4')] + [('forced', '16')]
# Of these logs `first` leaves each unknown at the budget that is taken where none is said, and `forced` finds an order.
BLIND = {1: (1, 2, 4), 2: (1, 6), 3: (2, 4, 6)}


def outcome_of(r, version):
    return 'unknown' if version == 2 and r.random() < 0.4 else 'commit'


def some_moments(r, count):
    """Moments for some of these transactions, of which each began when the one before it had ended."""
    said = [(None, None)] * count
    for turn, place in enumerate(r.sample(range(count), r.randint(2, 3))):
        said[place] = 2 * turn, 2 * turn + 1
    return said


def searched_log(seed, version):
    """Writers of two keys in sessions of their own, and readers of both: most choices stay open, and many of these have no order. In
    version 2 some outcomes are unknown: of readers, and of writers that are then taken. In version 3 some transactions state moments."""
    r = random.Random(seed)
    writers = [('x', 1), ('x', 2), ('y', 3), ('y', 4)] + [('x', 5)] * r.randint(0, 1)
    pairs = [(x, y) for x in (1, 2) for y in (3, 4)]
    if r.random() < 0.5:
        pairs = r.sample(pairs, r.randint(1, 3)) + [(r.choice([1, 2, 0]), r.choice([3, 4]))]
    transactions = [[('w', key, wid)] for key, wid in writers] + [[('r', 'x', x), ('r', 'y', y)] for x, y in pairs]
    r.shuffle(transactions)
    said = some_moments(r, len(transactions)) if version == 3 else [(None, None)] * len(transactions)
    made = [Transaction(ops, outcome_of(r, version), *pair) for ops, pair in zip(transactions, said)]
    return generate.text_of([(number, [it]) for number, it in enumerate(made, 1)], version)


def blind_log(seed, version):
    """Two dozen blind writers of two keys, and readers of both, each transaction in a session of its own: serializable as it was made. In
    version 2 the outcome of each writer that somebody reads is unknown, and in version 3 none ended before another began, which changes
    nothing in the answer."""
    r = random.Random(seed)
    store, transactions = {'x': 0, 'y': 0}, []
    for wid in range(1, 25):
        key = r.choice('xy')
        store[key] = wid
        transactions.append([('w', key, wid)])
        for _ in range(r.randint(0, 2)):
            transactions.append([('r', key, store[key]) for key in r.sample('xy', 2)])
    r.shuffle(transactions)
    seen = {op[1:] for ops in transactions for op in ops if op[0] == 'r'}
    outcomes = ['unknown' if version == 2 and ops[0][0] == 'w' and ops[0][1:] in seen else 'commit' for ops in transactions]
    made = [Transaction(*it, *((turn, 100 + turn) if version == 3 else ())) for turn, it in enumerate(zip(transactions, outcomes))]
    return generate.text_of([(number, [it]) for number, it in enumerate(made, 1)], version)


def call(program, text, *words):
    ran = subprocess.run([program, 'check', *words], input=text, stdout=subprocess.PIPE, stderr=subprocess.PIPE, timeout=120)
    return ran.returncode, ran.stdout.decode(), ran.stderr.decode()


def fault_in(history, explained, known, answer):
    """What is wrong with an answer of `check`, or None."""
    status, said, error = answer
    if error:
        return 'says on standard error %r' % error
    if known is not None:
        return None if (status, said) == (1, known) and not explained else 'wanted %r, and there is %s order' % (known, 'an' if explained else 'no')
    if not explained:
        return None if (status, said) == (1, 'not serializable: every cube is refuted\n') else 'there is no order'
    return fault_in_order(history, status, said)


def fault_in_order(history, status, said):
    """What is wrong with an answer that is to be a serial order, or None."""
    first, *lines = said.split('\n')
    if status != 0 or first != 'serializable' or lines[-1:] != ['']:
        return 'there is an order'
    names = [tuple(map(int, line.split())) for line in lines[:-1]]
    if any(name not in history.names for name in names):
        return 'no such transaction'
    return None if history.is_serial([history.names.index(name) for name in names]) else 'the order is not serial'


def judged(program, name, text):
    try:
        history = reference.History(reference.read_log(text))
    except reference.Refused as refused:
        answer = call(program, text)
        wanted = (2, '', 'refused: %s\n' % refused)
        return 'refused', [None if answer == wanted else '%s: %r, wanted %r' % (name, answer, wanted)]
    explained, known = history.has_serial_order(), history.known_verdict()
    found = []
    for strategy, workers in WAYS:
        answer = call(program, text, '--strategy', strategy, '--workers', workers)
        fault = fault_in(history, explained, known, answer)
        found.append(fault and '%s, %s, %s workers: %s: %r' % (name, strategy, workers, fault, answer))
    if known is None and len(history.chain_polygraph()[1]) > len(history.pruning()[1]):
        answer = call(program, text, '--budget', '1')
        found.append(None if answer == (3, 'unknown: 1 closed\n', '') else '%s, budget 1: %r' % (name, answer))
    return ('found' if explained else 'refuted') if known is None else known.split()[2], found


def judged_blind(program, seed, version):
    text = blind_log(seed, version)
    history = reference.History(reference.read_log(text))
    left = call(program, text, '--strategy', 'first', '--workers', '1')
    found = [None if left == (3, 'unknown: 10000 closed\n', '') else 'blind log %d, version %d, first: %r' % (seed, version, left)]
    for workers in ('1', '4', '16'):
        status, said, _ = call(program, text, '--strategy', 'forced', '--workers', workers)
        fault = fault_in_order(history, status, said)
        found.append(fault and 'blind log %d, version %d, forced, %s workers: %s' % (seed, version, workers, fault))
    return 'blind', found


def main():
    if '--help' in sys.argv:
        return print(__doc__)
    program, versions = os.path.abspath(sys.argv[1]), generate.versions(sys.argv)
    logs = [(name, text) for name, text in generate.examples(versions) if text.count(b'commit') <= 9]
    for version in versions:
        logs += [('made log %d, version %d' % (seed, version), generate.small_log(seed, version)) for seed in range(MADE[version])]
        logs += [('searched log %d, version %d' % (seed, version), searched_log(seed, version)) for seed in range(SEARCHED[version])]
    passed, failed, kinds = 0, 0, {}
    with concurrent.futures.ThreadPoolExecutor() as pool:
        jobs = [(judged_blind, seed, version) for version in versions for seed in BLIND[version]] + [(judged, *log) for log in logs]
        for kind, found in pool.map(lambda job: job[0](program, *job[1:]), jobs):
            kinds[kind] = kinds.get(kind, 0) + 1
            for fault in found:
                if fault:
                    failed += 1
                    print('FAILED', fault)
                else:
                    passed += 1
    print('verdicts: %s' % ', '.join('%s %d' % kind for kind in sorted(kinds.items())))
    print('verdicts: %d passed, %d failed' % (passed, failed))
    sys.exit(1 if failed or not kinds.get('refuted') or not kinds.get('found') else 0)


main()
