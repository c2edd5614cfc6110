#!/usr/bin/env python3
"""retelling.py PROGRAM [CASES] [--seed N]: what `audit --explain` tells of a part, against the lines of the whole log.

Made logs in bursts have faults of many kinds: reads of versions that were overwritten, that were aborted or that are written later, of the
initial value, of nothing, two reads that differ, updates that are lost, write skew; some keys look like names of transactions; and the
examples stand between what is written before them and read behind them. Each is audited with several parts asked for, with 1, 3 and 4
workers. Each line that is told of a part must be the one that a plain reading of the part gives, or follow from it, in the names and lines of
the whole log, as tests/explained.py has it for `explain`; and what is told must be so in the whole log: each transaction, each line of an
operation, its key and identity. Last line: 'retelling: N passed, M failed'."""
import argparse, collections, concurrent.futures, glob, os, random, re, sys, tempfile

HERE = os.path.dirname(os.path.abspath(__file__))
sys.path.insert(0, HERE)
import certificates
from certificates import Answer, Wrong, call, must

CASES, SEED, SHOWN, LANES = 400, 1, 20, min(4, os.cpu_count())
# So often each example stands between what is written before it and read behind it.
AROUND = 4
TOP = os.path.dirname(HERE)
KEYS = ('x', 'y', '1.1', '2.1:', 'reads', 'which', 'before', 'wrote', 'line', 'a/very-long-key.of_more:than.fourteen-bytes')
OPERATION = re.compile(r'(?<!over)(reads|writes|wrote) ([A-Za-z0-9_.:/-]+) ([0-9]+) \(line ([0-9]+)\)')
MOMENT = re.compile(r'([0-9.]+) (ended|began) at ([0-9]+) \(line ([0-9]+)\)')
# What has to be met.
WANTED = ['A1', 'A2', 'A3', 'A4', 'A5', 'A6', 'A7', 'A8', 'A9', 'tree', 'serializable', 'operations', 'moments', 'an order without sessions']

Txn = collections.namedtuple('Txn', 'ops outcome begun ended')


# ---- logs

def made(rng):
    """The transactions of each session, by its number, of a store that serves bursts, with faults."""
    numbers = sorted(rng.sample(range(1, 40), rng.randint(1, 4)))
    sessions, keys = {number: [] for number in numbers}, rng.sample(KEYS, rng.randint(1, 3))
    holds, past, ids = dict.fromkeys(keys, 0), {key: [0] for key in keys}, 0
    later, aborted = [], {key: [] for key in keys}
    faults = rng.randint(0, 2)
    clock = 0
    for burst in range(rng.randint(2, 6)):
        for slot in range(rng.randint(1, 2)):
            clock += 100
            order, snapshot = rng.sample(numbers, rng.randint(1, len(numbers))), dict(holds)
            skew = rng.random() < 0.15 and len(order) > 1
            for number in order:
                view = dict(snapshot if skew else holds)
                ops, outcome = [], 'abort' if rng.random() < 0.15 else 'commit'
                for _ in range(rng.randint(1, 4)):
                    key = rng.choice(keys)
                    if rng.random() < 0.55:
                        wid = view[key]
                        if rng.random() < 0.12 * faults:
                            wid = strange(rng, key, past, aborted, later, wid, len(ops), number, len(sessions[number]))
                        ops.append(['r', key, wid])
                    else:
                        ids += 1
                        view[key] = ids
                        ops.append(['w', key, ids])
                wrote = {key for kind, key, _ in ops if kind == 'w'}
                for key in wrote:
                    if outcome == 'commit':
                        holds[key] = view[key]
                        past[key].append(view[key])
                    else:
                        aborted[key].append(view[key])
                moments = rng.random() < 0.95
                sessions[number].append(Txn(ops, outcome, clock + rng.randint(0, 9) if moments else None, clock + 50 + rng.randint(0, 9) if moments else None))
        clock += 1000
    for number, place, at, key in later:
        wids = past[key][1:]
        sessions[number][place].ops[at][2] = rng.choice(wids[-2:]) if wids else 0
    return [(number, txns) for number, txns in sessions.items() if txns]


def strange(rng, key, past, aborted, later, wid, at, number, place):
    """An identity that a read of the key should not have named."""
    kind = rng.choice(('older', 'older', 'aborted', 'later', 'later', 'initial', 'nothing', 'elsewhere'))
    if kind == 'older':
        return rng.choice(past[key])
    if kind == 'aborted':
        return rng.choice(aborted[key] or [wid])
    if kind == 'later':
        later.append((number, place, at, key))
        return wid
    if kind == 'elsewhere':
        return rng.choice([wid for other, wids in past.items() if other != key for wid in wids[1:]] or [wid])
    return 0 if kind == 'initial' or rng.random() < 0.7 else 100000


def around(rng, text):
    """The sessions of a log, all at once between two moments, behind one that writes what they take for the initial values; and before one
    that reads what keys hold in the end, by somebody."""
    sessions = []
    for said in text.split('\n'):
        words = said.split(' ')
        if words[0] == 'session':
            sessions.append((int(words[1]), []))
        elif words[0] == 'begin':
            sessions[-1][1].append([])
        elif words[0] in ('r', 'w'):
            sessions[-1][1][-1].append([words[0], words[1], int(words[2])])
        elif words[0] in ('commit', 'abort', 'unknown'):
            sessions[-1][1][-1] = Txn(sessions[-1][1][-1], 'abort' if words[0] == 'abort' else 'commit', 1000, 2000)
    keys = sorted({op[1] for _, txns in sessions for txn in txns for op in txn.ops})
    ids = {key: 10 ** 6 + i for i, key in enumerate(keys)}
    for _, txns in sessions:
        for txn in txns:
            for op in txn.ops:
                if op[0] == 'r' and op[2] == 0:
                    op[2] = ids[op[1]]
    first = [Txn([['w', key, ids[key]] for key in keys], 'commit', 0, 10)]
    number, txns = sessions[0]
    if rng.random() < 0.5:
        sessions[0] = number, first + txns
    else:
        sessions.insert(0, (500, first))
    wrote = {key: [op[2] for _, txns in sessions for txn in txns for op in txn.ops if op[:2] == ['w', key]] for key in keys}
    last = [Txn([['r', key, rng.choice(wrote[key])] for key in keys if rng.random() < 0.7], 'commit', 3000, 3010)]
    if rng.random() < 0.7:
        sessions.append((501, last))
    return [(number, txns) for number, txns in sessions if txns]


def text_of(sessions):
    lines = ['log 3']
    for number, txns in sessions:
        lines.append('session %d' % number)
        for txn in txns:
            lines.append('begin' if txn.begun is None else 'begin %d' % txn.begun)
            lines += ['%s %s %d' % tuple(op) for op in txn.ops]
            lines.append(txn.outcome + (' %d' % txn.ended if txn.outcome == 'commit' and txn.ended is not None else ''))
    return '\n'.join(lines) + '\n'


# ---- what is told

def said_in_whole(text, why):
    """That each operation and moment that these lines tell is the line of the whole log that they name; gives how many were compared."""
    lines, met = text.decode().split('\n'), collections.Counter()
    for told in why:
        for did, key, wid, line in OPERATION.findall(told):
            right = '%s %s %s' % ('r' if did == 'reads' else 'w', key, wid)
            must(lines[int(line) - 1] == right, 'line %s is %r, told is %r' % (line, lines[int(line) - 1], told))
            met['operations'] += 1
        for _, did, moment, line in MOMENT.findall(told):
            right = '%s %s' % ('commit' if did == 'ended' else 'begin', moment)
            must(lines[int(line) - 1] == right, 'line %s is %r, told is %r' % (line, lines[int(line) - 1], told))
            met['moments'] += 1
    return met


def told(program, path, text, words):
    """What is met in what is told of a log."""
    sessions, met = certificates.read_long(text), collections.Counter()
    with open(path, 'wb') as log:
        log.write(text)
    answer = Answer(call(program, 'audit', '--explain', '--part', path + '.part', *words, path), 9 if '--faults' in words else 1)
    must(answer.verdict != 'unknown', 'says %r' % answer.first)
    met[answer.verdict] += 1
    for place, part in enumerate(answer.parts):
        must(part.why, 'no reason is told')
        law = certificates.check_told(sessions, text, part)
        met += said_in_whole(text, part.why)
        met += collections.Counter(certificates.check_sessions(law, part))
        if place == 0:
            said, numbers = certificates.check_files(sessions, text, law, path + '.part')
            met += certificates.check_explained(said, numbers, law, certificates.check_code(program, said, part), part.why)
    return met


def judged(job):
    """What is wrong with what is told of a log, and what was met."""
    program, folder, place, text = job
    met, faults = collections.Counter(), []
    for words in (['--workers', '1'], ['--workers', '4', '--faults', '9'], ['--workers', '3', '--no-moments']):
        try:
            whole = re.sub(rb'(?m)^(begin|commit) [0-9]+$', rb'\1', text) if '--no-moments' in words else text
            met += told(program, os.path.join(folder, '%d.log' % place), whole, [word for word in words if word != '--no-moments'])
        except (Wrong, KeyError, IndexError, ValueError, TypeError) as wrong:
            faults.append('log %d, %s: %s: %s\n%s' % (place, ' '.join(words), type(wrong).__name__, wrong, text.decode()))
    return faults, met


def main():
    reader = argparse.ArgumentParser(description=__doc__, formatter_class=argparse.RawDescriptionHelpFormatter)
    reader.add_argument('program', metavar='PROGRAM', help='the program, cobra_poly')
    reader.add_argument('cases', metavar='CASES', nargs='?', type=int, default=CASES, help='how many made logs (%(default)s)')
    reader.add_argument('--seed', type=int, default=SEED, help='from which number they are made (%(default)s)')
    options = reader.parse_args()
    rng, program, faults, passed, met = random.Random(options.seed), os.path.abspath(options.program), [], 0, collections.Counter()
    examples = [path for path in sorted(glob.glob(os.path.join(TOP, 'examples', '*.log'))) if os.path.getsize(path)]
    texts = [text_of(around(rng, open(path).read())) for path in examples for _ in range(AROUND)]
    texts += [text_of(made(rng)) for _ in range(options.cases)]
    with tempfile.TemporaryDirectory() as folder, concurrent.futures.ProcessPoolExecutor(LANES) as pool:
        for found, here in pool.map(judged, [(program, folder, place, text.encode()) for place, text in enumerate(texts)], chunksize=10):
            faults, passed = faults + found, passed + 3 - len(found)
            met.update(here)
    for fault in faults[:SHOWN]:
        print('FAILED', fault)
    print('retelling: met: %s' % ', '.join('%s %d' % (what, met[what]) for what in sorted(met)))
    missing = [what for what in WANTED if not met[what]] if options.cases >= CASES else []
    if missing:
        print('FAILED not met: %s' % ', '.join(missing))
    print('retelling: %d passed, %d failed' % (passed, len(faults) + len(missing)))
    return 1 if faults or missing else 0


if __name__ == '__main__':
    sys.exit(main())
