"""Small logs made from a seed: most are explained by some order, many are not, and many are damaged. They are of version 1; of
version 2, where sessions may end in a transaction whose outcome is unknown; or of version 3, where transactions may also say when they
began and ended. And the logs of examples/."""
import glob, os, random

import reference
from reference import Transaction

EXAMPLES = os.path.join(os.path.dirname(os.path.abspath(__file__)), '..', 'examples')
# First lines that are no header, or another version's, or one more.
HEADERS = [b'log 2 ', b' log 2', b'log  2', b'log 02', b'log 2\r', b'log\t2', b'log 1', b'log 22', b'log', b'log 2.0', b'Log 2', b'',
           b'log 2\nlog 2', b'\xef\xbb\xbflog 2', b'log 2', b'log 3', b'log 4', b'log 0', b'log 03', b'log 3 ', b'log 3\r', b'log 33',
           b'log 3\nlog 3', b'log 2\nlog 3', b'log 3\nlog 2']
# What stands behind `begin` or `commit` and is no moment.
NO_MOMENTS = [b'', b'00', b'01', b'-1', b'+1', b'1.0', b'1e3', b'x', b' 1', b'1 ', b'1 2', b'1\r', b'\t1', b'18446744073709551616',
              b'018446744073709551615', b'36893488147419103233', b'9' * 30]
LAST = 2 ** 64 - 1
# How clocks show moments below 64: as they are, rarely another one, as late as may be, and far apart.
CLOCKS = [lambda moment: moment, lambda moment: moment // 8, lambda moment: min(LAST - 63 + 2 * moment, LAST), lambda moment: moment << 58]


def versions(words):
    """The versions of which a test makes logs: with --version-1 among its words the first alone."""
    return (1,) if '--version-1' in words else (1, 2, 3)


def examples(versions):
    """The name and the text of each example log of these versions."""
    for path in sorted(glob.glob(os.path.join(EXAMPLES, '*.log'))):
        with open(path, 'rb') as log:
            text = log.read()
        if reference.version_of(text) in versions:
            yield os.path.basename(path), text


def text_of(sessions, version=None):
    """The text of sessions: (number, [Transaction]), in this version, or in the least that has lines for them."""
    version = version or reference.least_version(sessions)
    out = [] if version == 1 else ['log %d' % version]
    for number, transactions in sessions:
        out.append('session %d' % number)
        for ops, outcome, begun, ended in transactions:
            out.append('begin' if begun is None else 'begin %d' % begun)
            out += ['%s %s %d' % op for op in ops]
            out.append(outcome if ended is None else '%s %d' % (outcome, ended))
    return ''.join(line + '\n' for line in out).encode()


def moments(r, count):
    """When each of these transactions, which ran one after the other, says that it began and ended, None where it does not. Some say that
    two of them, or all, ran in another order."""
    turns = list(range(count))
    if count > 1 and r.random() < 0.4:
        at = r.randrange(count - 1)
        turns[at:at + 2] = reversed(turns[at:at + 2])
    elif r.random() < 0.5:
        r.shuffle(turns)
    width, said, clock = r.choice((0, 1, 3, 15)), r.choice((0.7, 0.9, 1)), r.choice(CLOCKS)
    both = [(16 + 5 * turn - r.randint(0, width), 16 + 5 * turn + r.randint(0, width)) for turn in turns]
    return [tuple(clock(moment) if r.random() < said else None for moment in pair) for pair in both]


def stating(ops, outcome, begun, ended):
    """A transaction with these moments, of which the second is left out where it does not commit."""
    return Transaction(ops, outcome, begun, ended if outcome == 'commit' else None)


def small_log(seed, version=1):
    """A log of at most six transactions over a few keys: replayed in a random order, and then often disturbed. In version 2 most
    transactions have a session of their own, most sessions end in an unknown outcome, the store kept most of these transactions, and
    others like to read what they wrote; or the log is a chain. In version 3 half of the logs are so too, and most state moments."""
    r = random.Random(seed)
    unlearnt_too = r.random() < 0.5 if version == 3 else version == 2
    if unlearnt_too and r.random() < 0.3:
        return chained_log(r, version)
    keys = ['x', 'y', 'z'][:r.randint(1, 3)]
    count = r.randint(0, 6)
    sessions = [(number, []) for number in r.sample(range(1, 9), r.randint(1, 3))] if count else []
    owners = sorted(r.randrange(len(sessions)) for _ in range(count))
    if unlearnt_too and r.random() < 0.7:
        sessions, owners = [(number, []) for number in r.sample(range(1, 9), count)], list(range(count))
    turns = list(range(count))
    r.shuffle(turns)
    # in the order of the turns, but each session's transactions in its own order
    turns.sort(key=lambda t: (r.random(), t)) if r.random() < 0.2 else None
    ready = {}
    for t in turns:
        ready.setdefault(owners[t], []).append(t)
    for ts in ready.values():
        ts.sort()
    order = [ready[owners[t]].pop(0) for t in turns]
    store, wid, made, versions, unlearnt = {}, 0, {}, {key: [0] for key in keys}, set()
    said = moments(r, count) if version == 3 else [(None, None)] * count
    for t, pair in zip(order, said):
        kept = r.random() < 0.85
        outcome = 'commit' if kept else 'abort'
        if unlearnt_too and owners[t + 1:t + 2] != [owners[t]] and r.random() < 0.65:
            outcome, kept = 'unknown', r.random() < 0.9
        ops, mine = [], dict(store)
        for _ in range(r.randint(0, 4)):
            near = [key for key in keys if mine.get(key) in unlearnt]
            key = r.choice(near if near and r.random() < 0.7 else keys)
            if r.random() < (0.8 if near else 0.55):
                seen = mine.get(key, 0)
                if r.random() < 0.12:
                    seen = r.choice(versions[key] + [wid + 50])
                ops.append(('r', key, seen))
            else:
                wid += 1
                mine[key] = wid
                versions[key].append(wid)
                ops.append(('w', key, wid))
        if kept:
            store = mine
        if outcome == 'unknown':
            unlearnt |= {op[2] for op in ops if op[0] == 'w'}
        made[t] = stating(ops, outcome, *pair)
    for t in range(count):
        sessions[owners[t]][1].append(made[t])
    if unlearnt_too and r.random() < 0.3:
        name_another(r, sessions)
    return text_of(sessions, version)


def stale_log(seed, count, sessions, keys, version=1):
    """A log of so many transactions, which ran one after the other in so many sessions, of a store that now and then shows a version that
    is one or two writes old."""
    r = random.Random(seed)
    names, made, store, left, wid = ['k%d' % n for n in range(keys)], [[] for _ in range(sessions)], {}, {}, 0
    for turn in range(count):
        ops, view = [], {}
        for _ in range(r.randint(1, 5)):
            key = r.choice(names)
            if r.random() < 0.4:
                wid += 1
                view[key] = wid
                ops.append(('w', key, wid))
            else:
                seen = r.choice(left[key][-3:]) if key in left and r.random() < 3 / count else store.get(key, 0)
                ops.append(('r', key, view.setdefault(key, seen)))
        written = {key: wid for kind, key, wid in ops if kind == 'w'}
        store.update(written)
        for key, last in written.items():
            left.setdefault(key, [0]).append(last)
        said = (10 * turn, 10 * turn + r.randint(1, 40)) if version == 3 else (None, None)
        r.choice(made).append(stating(ops, 'commit', *said))
    return text_of(list(enumerate(made, 1)), version)


def chained_log(r, version):
    """At most six transactions of which each reads what the one before wrote, most of them unknown, in sessions in any order. In some
    the first one reads what the last one wrote, and in some nobody is committed."""
    count = r.randint(1, 5)
    writes = [('w', r.choice('xy'), wid) for wid in range(1, count + 1)]
    seen = [('r', *write[1:]) for write in writes]
    chain, said = [], moments(r, count + 1) if version == 3 else [(None, None)] * (count + 1)
    for place, write in enumerate(writes):
        read = [seen[place - 1]] if place or r.random() < 0.15 else []
        ops = [write] + read if r.random() < 0.2 else read + [write]
        chain.append(stating(ops, r.choices(('unknown', 'commit', 'abort'), (14, 4, 1))[0], *said[place]))
    if r.random() < 0.85:
        chain.append(Transaction([r.choice(seen)] if r.random() < 0.3 else [seen[-1]], 'commit', *said[count]))
    r.shuffle(chain)
    sessions = [(number, [transaction]) for number, transaction in zip(r.sample(range(1, 9), len(chain)), chain)]
    if r.random() < 0.3:
        name_another(r, sessions)
    return text_of(sessions, version)


def name_another(r, sessions):
    """Lets a read name any write of its key in the log, above all one of an unknown transaction."""
    transactions = [transaction for _, ts in sessions for transaction in ts]
    reads = [(it.ops, place) for it in transactions for place, op in enumerate(it.ops) if op[0] == 'r']
    if not reads:
        return
    ops, place = r.choice(reads)
    key = ops[place][1]
    written = [(op[2], it.outcome) for it in transactions for op in it.ops if op[:2] == ('w', key)]
    unknown_alone = r.random() < 0.7
    among = [wid for wid, outcome in written if outcome == 'unknown' or not unknown_alone]
    if among:
        ops[place] = ('r', key, r.choice(among))


def wrong_place(r, text):
    """A log of version 2 or 3 with a fault that version 1 has not: of its header, or of an `unknown`."""
    lines, way = text.split(b'\n'), r.randrange(6)
    at = r.randrange(len(lines))
    if way == 0:
        lines[0] = r.choice(HEADERS)
    elif way == 1:
        lines.insert(at, lines.pop(0))
    elif way == 2:
        lines.insert(at, r.choice([b'unknown', b'unknown', b'unknown', b'unknown ', b'unknown 7', b'Unknown', b'unknow', b'log 2']))
    elif way == 3:
        return text[:r.randrange(8)]
    else:
        ends = [n for n, line in enumerate(lines) if line.startswith((b'commit', b'abort'))]
        ends = [n for n in ends if way == 5 or n + 1 < len(lines) and lines[n + 1].startswith(b'begin')]
        if ends:
            lines[r.choice(ends)] = b'unknown'
    return b'\n'.join(lines)


def wrong_moment(r, text):
    """A log of version 3 with a fault that the others have not: of a moment, or of a header without which there are none."""
    lines, way = text.split(b'\n'), r.randrange(6)
    begins, commits = ([n for n, line in enumerate(lines) if line.startswith(word)] for word in (b'begin', b'commit'))
    if way == 0:
        lines[:1] = r.choice(([], [b'log 2']))
    elif way == 1:
        lines[r.randrange(len(lines))] += r.choice((b' 7', b' 7', b' ', b' 07'))
    elif way == 2 and begins:
        lines[r.choice(begins)] = b'begin ' + r.choice(NO_MOMENTS)
    elif way == 3 and commits:
        lines[r.choice(commits)] = b'commit ' + r.choice(NO_MOMENTS)
    elif commits and begins:
        end_before_begin(r, lines, r.choice(commits))
    return b'\n'.join(lines)


def end_before_begin(r, lines, commit):
    """Lets a `commit` end where its transaction began, or just before."""
    begin = max([n for n in range(commit) if lines[n].startswith(b'begin')], default=commit)
    said = lines[begin][6:]
    moment = int(said) if said.isdigit() and r.random() < 0.7 else r.choice((1, 10, 100, 2 ** 32, 2 ** 63, LAST))
    lines[begin] = b'begin %d' % moment
    lines[commit] = b'commit %d' % (moment - r.randint(0, 2))


def wrong_line(r, text):
    """A log with a fault that version 1 has not."""
    return wrong_moment(r, text) if reference.version_of(text) == 3 and r.random() < 0.6 else wrong_place(r, text)


def damaged(seed, version=1):
    """A small log with one or two of its bytes or lines disturbed. What is made of version 2 or 3 may end as a log of another one."""
    r = random.Random(seed)
    text = small_log(seed, version)
    for _ in range(r.randint(1, 2)):
        if version > 1 and r.random() < 0.4:
            text = wrong_line(r, text)
            continue
        kind = r.randrange(7)
        lines = text.split(b'\n')
        if kind == 0 and text:
            at = r.randrange(len(text))
            text = text[:at] + bytes([r.choice(b'0159 \nrwxsb\r')]) + text[at + 1:]
        elif kind == 1 and text:
            text = text[:r.randrange(len(text))]
        elif kind == 2 and len(lines) > 1:
            at = r.randrange(len(lines) - 1)
            text = b'\n'.join(lines[:at] + lines[at + 1:])
        elif kind == 3 and len(lines) > 1:
            at = r.randrange(len(lines) - 1)
            text = b'\n'.join(lines[:at + 1] + lines[at:])
        elif kind == 4:
            at = r.randrange(len(lines))
            word = r.choice([b'begin', b'commit', b'abort', b'session 1', b'session 0', b'session 70000', b'r x 01', b'w x 0', b'sessionx', b'', b'r  x 1', b'w x', b'r x 18446744073709551616'])
            text = b'\n'.join(lines[:at] + [word] + lines[at:])
        elif kind == 5 and len(lines) > 2:
            a, b = sorted(r.sample(range(len(lines) - 1), 2))
            lines[a], lines[b] = lines[b], lines[a]
            text = b'\n'.join(lines)
        elif kind == 6:
            text = text.replace(b' 2\n', b' 1\n', 1)
    return text
