"""Snapshot orders and prefix orders of small logs by brute force, from the words of docs/DEFINITIONS.md and apart from the program. A session is a pair of
its number and its transactions, as in reference.py."""
import itertools

import small_logs


def parted(ops):
    """The reads of a transaction from its snapshot, and its other operations."""
    reads, rest, wrote = [], [], set()
    for op in ops:
        kind, key, _ = op
        (reads if kind == 'r' and key not in wrote else rest).append(op)
        if kind == 'w':
            wrote.add(key)
    return reads, rest


def keys_written(ops):
    return {key for kind, key, _ in ops if kind == 'w'}


def nodes_of(sessions):
    """The nodes of a log: those that committed, and the taken ones."""
    return small_logs.nodes_of(small_logs.resolved(sessions))


def is_behind(later, node):
    """Whether one takes its snapshot behind the commit of another: by their session or by their moments."""
    in_session = node.session == later.session and node.place < later.place
    return in_session or (None not in (node.ended, later.begun) and node.ended < later.begun)


def replayed(store, ops):
    """What keys hold behind the operations, and None where a read names something else."""
    store = dict(store)
    for kind, key, wid in ops:
        if kind == 'w':
            store[key] = wid
        elif store.get(key, 0) != wid:
            return None
    return store


def is_order(nodes, points, locked=True):
    """Whether a list of points, each a pair of 'snapshot' or 'commit' and a node's index, is a snapshot order; if not `locked`, a prefix
    order, in which those that write one key may overlap."""
    numbers = range(len(nodes))
    if sorted(points) != sorted((kind, n) for n in numbers for kind in ('snapshot', 'commit')):
        return False
    at = {point: place for place, point in enumerate(points)}
    stands = lambda a, b: at['commit', a] < at['snapshot', b]
    if any(at['commit', n] < at['snapshot', n] for n in numbers):
        return False
    for a, b in itertools.permutations(numbers, 2):
        if is_behind(nodes[b], nodes[a]) and not stands(a, b):
            return False
        if locked and keys_written(nodes[a].ops) & keys_written(nodes[b].ops) and not stands(a, b) and not stands(b, a):
            return False
    store = {}
    for kind, n in points:
        store = replayed(store, parted(nodes[n].ops)[kind == 'commit'])
        if store is None:
            return False
    return True


def has_order_of_all(sessions, locked=True):
    """Whether one of all lists of points is such an order: for two or three nodes."""
    nodes = nodes_of(sessions)
    points = [(kind, n) for n in range(len(nodes)) for kind in ('snapshot', 'commit')]
    return any(is_order(nodes, order, locked) for order in itertools.permutations(points))


def has_order(sessions, locked=True):
    """The same, point by point: what cannot be the beginning of such an order is not gone on with."""
    nodes, tried = nodes_of(sessions), set()
    parts = [parted(node.ops) for node in nodes]
    wrote = [keys_written(node.ops) for node in nodes]

    def may_begin(n, begun, over):
        if any(is_behind(nodes[n], node) and m not in over for m, node in enumerate(nodes) if m != n):
            return False
        return not locked or not any(wrote[m] & wrote[n] for m in begun - over)

    def goes_on(begun, over, store):
        state = begun, over, tuple(sorted(store.items()))
        if state in tried:
            return False
        tried.add(state)
        if len(over) == len(nodes):
            return True
        for n in range(len(nodes)):
            if n not in begun and may_begin(n, begun, over) and replayed(store, parts[n][0]) is not None:
                if goes_on(begun | {n}, over, store):
                    return True
            if n in begun and n not in over:
                after = replayed(store, parts[n][1])
                if after is not None and goes_on(begun, over | {n}, after):
                    return True
        return False

    return goes_on(frozenset(), frozenset(), {})
