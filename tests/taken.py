#!/usr/bin/env python3
"""taken.py: which unknown transactions count does not matter to the answer, by brute force and without the program.

On 20,000 small logs of versions 2 and 3 each set of the unknown transactions is tried with all committed ones, in every order that keeps
each session's order and that of the stated moments. Some such set and order replay exactly where the plain, slow reference beside this
file has a serial order of the committed and the taken transactions; each set that does has all the taken ones; and where the reference
names an anomaly or a cycle, none does. Last line: 'taken: N passed, M failed'."""
import concurrent.futures, itertools, os, sys

HERE = os.path.dirname(os.path.abspath(__file__))
sys.path.insert(0, HERE)
import generate, reference

MADE, MOST, SHOWN = {2: 12000, 3: 8000}, 6, 20


def replayed(store, ops):
    """The store after these operations, or None where a read does not see what it names."""
    store = dict(store)
    for kind, key, wid in ops:
        if kind == 'w':
            store[key] = wid
        elif store.get(key, 0) != wid:
            return None
    return store


def is_next(sessions, places, begun):
    """Whether no transaction that is left ended before this moment, where it is one."""
    left = [it for session, place in zip(sessions, places) for it in session[place:]]
    return begun is None or not any(it.ended is not None and it.ended < begun for it in left)


def has_order(sessions):
    """Whether some order of these transactions replays, each session being the list of its own."""
    tried = set()

    def goes_on(store, places):
        if (places, tuple(sorted(store.items()))) in tried:
            return False
        tried.add((places, tuple(sorted(store.items()))))
        ends = [len(session) for session in sessions]
        if list(places) == ends:
            return True
        for s, place in enumerate(places):
            it = sessions[s][place] if place < ends[s] else None
            after = replayed(store, it.ops) if it and is_next(sessions, places, it.begun) else None
            if after is not None and goes_on(after, places[:s] + (place + 1,) + places[s + 1:]):
                return True
        return False

    return goes_on({}, (0,) * len(sessions))


def explaining(sessions):
    """Each set of names of unknown transactions that some order explains together with all committed ones."""
    unknown = [name for name, it in reference.named(sessions) if it.outcome == 'unknown']
    for count in range(len(unknown) + 1):
        for some in map(set, itertools.combinations(unknown, count)):
            if has_order([[it for place, it in enumerate(transactions, 1) if it.outcome == 'commit' or (number, place) in some]
                          for number, transactions in sessions]):
                yield some


def fault_in(log):
    """What is wrong with the reference's answer to a log of this seed and version, or None; and what that answer is."""
    sessions = reference.read_log(generate.small_log(*log))
    history = reference.History(sessions)
    if len(reference.named(sessions)) > MOST:
        return 'has too many transactions', None
    explained, sets = history.has_serial_order(), list(explaining(sessions))
    kind = 'taken %d, %s' % (len(history.taken), 'explained' if explained else 'not explained')
    if explained != bool(sets):
        return 'a serial order of the taken ones: %s; sets of unknown ones that some order explains: %r' % (explained, sets), kind
    if any(not history.taken <= some for some in sets):
        return 'the taken ones are %r, and some order explains one of %r' % (history.taken, sets), kind
    if explained and history.taken not in sets:
        return 'the taken ones are %r, and some order explains each of %r alone' % (history.taken, sets), kind
    if sets and history.known_verdict() is not None:
        return 'the reference says %r, and some order explains %r' % (history.known_verdict(), sets[0]), kind
    return None, kind


def main():
    if '--help' in sys.argv:
        return print(__doc__)
    failed, kinds, logs = 0, {}, [(seed, version) for version in MADE for seed in range(MADE[version])]
    with concurrent.futures.ProcessPoolExecutor() as pool:
        for log, (fault, kind) in zip(logs, pool.map(fault_in, logs, chunksize=200)):
            kinds[kind] = kinds.get(kind, 0) + 1
            if fault:
                failed += 1
                if failed <= SHOWN:
                    print('FAILED made log %d, version %d: %s' % (*log, fault))
    print('taken: %s' % '; '.join('%s: %d' % kind for kind in sorted(kinds.items())))
    print('taken: %d passed, %d failed' % (len(logs) - failed, failed))
    sys.exit(1 if failed else 0)


if __name__ == '__main__':
    main()
