#!/usr/bin/env python3
"""round_model.py [--cases N] [--seed N]: the law of rounds by brute force of its definitions, without the program.

A run in rounds has an order at serializable, snapshot and prefix exactly where each of its rounds has one, and so it is at the two strict
levels where no transaction of a round ended before one of an earlier round began; where one did, a run with an order still has rounds
with orders. Runs of two and of three rounds are made: of sound stores and of such as let transactions read what keys held before, with
reads that are bent, and of rounds in which some fences are missing. Those that are rounds by definition must keep the law. Each condition
of it is needed: where one alone is broken, some run differs from its rounds. A transaction of unknown outcome that a round does not show
is carried into the next. No sound store is refused for it, and run and rounds agree, where closings read the keys that it writes and it
reads the fence of its round; where either is left out, something goes wrong. Some orders are searched by tests/level_model.py, too.

Last line: 'round model: N passed, M failed'."""
import argparse, collections, functools, itertools, os, random, sys

HERE = os.path.dirname(os.path.abspath(__file__))
sys.path.insert(0, HERE)
import level_model, small_logs, snapshots
from reference import Transaction

KEEPER, FENCE = 65535, 'fence/65535'
LEVELS, STRICT = ('serializable', 'snapshot', 'prefix'), ('serializable', 'snapshot')
CASES, SEED, SHOWN = 800, 1, 20
# What must be there to find is looked for in so many runs from this seed on. One in so many made runs is searched by level_model, too.
TRIES, FIXED, ALSO = 20000, 1, 20

# A log is a dictionary from numbers of sessions to lists of transactions, all of them committed. What the rounds of a run are like:
Kind = collections.namedtuple('Kind', 'rounds has_moments is_stale is_loose')
KINDS = [Kind(*it) for it in itertools.product((2, 3), (False, True), (False, True), (False, True))]
# Among the sessions of a plan: here the transaction of unknown outcome takes effect.
LANDS = 0


# ---- what rounds are

def nodes_of(log):
    return small_logs.nodes_of(sorted(log.items()))


def ops_of(log):
    return [op for node in nodes_of(log) for op in node.ops]


def is_fence(key):
    return key.startswith('fence/')


def bare(log):
    """The round, of whose opening the fence is left."""
    opening, *others = log[KEEPER]
    return {**log, KEEPER: [opening._replace(ops=[op for op in opening.ops if op[1] == FENCE])] + others}


def joined(first, second):
    """The round behind the run, session by session."""
    second = bare(second)
    return {number: first.get(number, []) + second.get(number, []) for number in {**first, **second}}


def run_of(rounds):
    return functools.reduce(joined, rounds)


def is_direct(node, other):
    """Whether the one is before the other in their session, or the other reads from its snapshot what the one writes."""
    if node.session == other.session:
        return node.place <= other.place
    reads, _ = snapshots.parted(other.ops)
    return any(kind == 'w' and ('r', key, wid) in reads for kind, key, wid in node.ops)


def chains_of(nodes):
    """The pairs of nodes, by their places, of which the one leads to the other by such steps: so they stand in every order."""
    places = range(len(nodes))
    pairs = {(one, other) for one in places for other in places if is_direct(nodes[one], nodes[other])}
    for middle, one, other in itertools.product(places, repeat=3):
        if (one, middle) in pairs and (middle, other) in pairs:
            pairs.add((one, other))
    return pairs


def keepers(nodes):
    """The places of the keeper's transactions."""
    return [place for place, node in enumerate(nodes) if node.session == KEEPER]


def is_opened(log):
    """Whether the keeper's first transaction only writes and leads to each node, by its fence alone."""
    if any(kind != 'w' for kind, _, _ in log[KEEPER][0].ops):
        return False
    nodes = nodes_of(bare(log))
    leads, opening = chains_of(nodes), keepers(nodes)[0]
    return all((opening, place) in leads for place in range(len(nodes)))


def is_closed(log):
    """Whether each node leads to the keeper's last."""
    nodes = nodes_of(log)
    leads, closing = chains_of(nodes), keepers(nodes)[-1]
    return all((place, closing) in leads for place in range(len(nodes)))


def writers_of(nodes, key):
    return [place for place, node in enumerate(nodes) if key in snapshots.keys_written(node.ops)]


def is_read_last(log, key, wid):
    """Whether a node that does not write the key reads it so, and each that writes it leads to that one."""
    nodes = nodes_of(log)
    leads, writers = chains_of(nodes), writers_of(nodes, key)
    readers = [place for place, node in enumerate(nodes) if place not in writers and ('r', key, wid) in node.ops]
    return any(all((writer, reader) in leads for writer in writers) for reader in readers)


def leaves(log, key, wid):
    """Whether the key holds this behind the round: by such a read, or since nothing writes it."""
    return is_read_last(log, key, wid) or wid == 0 and not writers_of(nodes_of(log), key)


def is_held(rounds, key, wid):
    """Whether the key holds this behind these rounds: the last one leaves it so, or does not write it, and those before it do."""
    *earlier, last = rounds
    if not earlier:
        return leaves(last, key, wid)
    return is_read_last(last, key, wid) or not writers_of(nodes_of(bare(last)), key) and is_held(earlier, key, wid)


def value(log, key):
    """What the opening says that the key held."""
    return next((wid for _, its_key, wid in reversed(log[KEEPER][0].ops) if its_key == key and key != FENCE), 0)


def from_before(log):
    """The keys that the round reads as it did not write them."""
    ops = ops_of(bare(log))
    return {key for kind, key, wid in ops if kind == 'r' and ('w', key, wid) not in ops}


def fits(earlier, log):
    """Whether what the opening says of each key that the round reads from before is what these rounds leave."""
    return all(is_held(earlier, key, value(log, key)) for key in from_before(log))


def is_sound(log):
    """Whether no identity is 0 or written twice, and nothing ends before it begins."""
    wids = [wid for kind, _, wid in ops_of(log) if kind == 'w']
    is_early = any(None not in (it.begun, it.ended) and it.ended < it.begun for it in nodes_of(log))
    return 0 not in wids and len(set(wids)) == len(wids) and not is_early


def are_sound(rounds):
    return all(map(is_sound, rounds)) and is_sound(run_of(rounds))


def are_rounds(rounds):
    """Whether each is a round by itself, and each later one fits behind those before it."""
    each = all(is_opened(log) and is_closed(log) for log in rounds)
    return each and are_sound(rounds) and all(fits(rounds[:place], rounds[place]) for place in range(1, len(rounds)))


def in_time(first, second):
    """Whether no transaction of the second ended before one of the first began."""
    begun = [node.begun for node in nodes_of(first) if node.begun is not None]
    ended = [node.ended for node in nodes_of(second) if node.ended is not None]
    return not begun or not ended or max(begun) <= min(ended)


def are_in_time(rounds):
    return all(in_time(first, second) for first, second in itertools.combinations(rounds, 2))


# ---- orders

def are_apart(level, node, other):
    """Whether one of the two must commit before the other takes its snapshot, whatever was read and when."""
    return level == 'serializable' or level == 'snapshot' and bool(snapshots.keys_written(node.ops) & snapshots.keys_written(other.ops))


def has_order(log, level):
    """Whether the snapshots and the commits of all nodes have an order of the level, point by point: at its snapshot a node reads what it
    did not write before, and at its commit come its other operations. Moments count where they are stated."""
    nodes, tried = nodes_of(log), set()
    places = range(len(nodes))
    parts = [snapshots.parted(node.ops) for node in nodes]
    others = [[place for place in places if place != its] for its in places]
    ahead = [{place for place in others[its] if snapshots.is_behind(nodes[its], nodes[place])} for its in places]
    apart = [{place for place in others[its] if are_apart(level, nodes[its], nodes[place])} for its in places]

    def goes_on(begun, over, store):
        state = begun, over, tuple(sorted(store.items()))
        if state in tried:
            return False
        tried.add(state)
        return len(over) == len(nodes) or any(goes_on_by(place, begun, over, store) for place in places if place not in over)

    def goes_on_by(place, begun, over, store):
        """Whether it goes on with the next point of this node."""
        is_commit = place in begun
        if not is_commit and (ahead[place] - over or apart[place] & (begun - over)):
            return False
        after = snapshots.replayed(store, parts[place][is_commit])
        return after is not None and goes_on(begun | {place}, over | {place} if is_commit else over, after)

    return goes_on(frozenset(), frozenset(), {})


def verdicts(rounds, level):
    """Whether their run has an order, and whether each of them has."""
    return has_order(run_of(rounds), level), [has_order(log, level) for log in rounds]


def conditions(rounds):
    """What makes these logs rounds, and whether they are so: of two what is asked of their seam, of more that each is a round by itself."""
    first, *others = rounds
    if len(others) > 1:
        return {'rounds': are_rounds(rounds), 'time': are_in_time(rounds)}
    return {'sound': are_sound(rounds), 'closed': is_closed(first), 'opened': is_opened(others[0]), 'fits': fits([first], others[0]),
            'time': are_in_time(rounds)}


# ---- made rounds

class Store:
    """A store in memory that runs one transaction after the other, and the rounds of what it runs. What is lost are the writes of a
    transaction of unknown outcome."""

    def __init__(self, dice, kind, keys='xy'):
        self.dice, self.kind, self.keys = dice, kind, keys
        self.last_wid, self.clock, self.values, self.before, self.lost, self.rounds = 0, 0, {}, {}, [], []

    def chance(self, share):
        return self.dice.random() < share

    def new_wid(self):
        self.last_wid += 1
        return self.last_wid

    def moments(self):
        """When a transaction began and ended, as a client says it that is slow, and seldom one whose clock lies."""
        if not self.kind.has_moments:
            return None, None
        begun = max(0, self.clock - self.dice.randint(0, 4))
        self.clock += self.dice.randint(0, 3)
        ended = max(begun, self.clock - (12 if self.chance(0.1) else 0))
        self.clock += self.dice.randint(0, 2)
        return tuple(moment if self.chance(0.7) else None for moment in (begun, ended))

    def stated(self, ops):
        return Transaction(ops, 'commit', *self.moments())

    def plan(self, number):
        """What a transaction of this session does: whatever it is, or, where it may read what was before, it reads a key and writes another one
        or the same."""
        if self.kind.is_stale and self.chance(0.7):
            return ('r', self.keys[number % 2]), ('w', self.keys[number % 2 - self.dice.randint(0, 1)])
        return [(self.dice.choice('rw'), self.dice.choice(self.keys)) for _ in range(self.dice.randint(1, 2))]

    def ran(self, number, fence):
        """The operations of the next transaction of a session, behind its read of a fence if there is one."""
        seen = dict(self.before if self.kind.is_stale and self.chance(0.4) else self.values)
        self.before, ops = dict(self.values), [('r', FENCE, fence)] if fence else []
        for kind, key in self.plan(number):
            if kind == 'w':
                seen[key] = self.values[key] = self.new_wid()
            ops.append((kind, key, seen.get(key, 0)))
        return ops

    def has_fence(self):
        return not self.kind.is_loose or self.chance(0.6)

    def begin_round(self, plan):
        """A round without its closing and without what its opening says of keys: the next transactions of these sessions."""
        fence = self.new_wid()
        log = {KEEPER: [self.stated([('w', FENCE, fence)])]}
        for place, number in enumerate(plan):
            if number == LANDS:
                self.values.update((key, wid) for _, key, wid in self.lost)
                continue
            ops = self.ran(number, fence if number not in log and self.has_fence() else None)
            if number not in plan[place + 1:] and self.has_fence():
                ops.append(('w', 'fence/%d' % number, self.new_wid()))
            log.setdefault(number, []).append(self.stated(ops))
        return log

    def close(self, log, keys):
        """Adds a closing, which reads the fence of each session and these keys."""
        fences = [('r', key, wid) for kind, key, wid in ops_of(log) if kind == 'w' and is_fence(key) and key != FENCE]
        log[KEEPER].append(self.stated(fences + [('r', key, self.values.get(key, 0)) for key in sorted(keys)]))

    def open(self, log, held, is_right=lambda: True):
        """Lets the opening say what the keys held that the round reads from before, and maybe another one."""
        keys = {key for key in from_before(log) if not is_fence(key)}
        if self.chance(0.2):
            keys.add(self.dice.choice(self.keys))
        told = {key: held.get(key, 0) if is_right() else self.dice.choice(wids_of(self.rounds, key)) for key in sorted(keys)}
        opening = log[KEEPER][0].ops
        opening += [('w', key, wid) for key, wid in told.items() if wid]
        if self.chance(0.5):
            opening.reverse()
        self.rounds.append(log)

    def made_round(self):
        """A round of one or two clients, each with one or two transactions. Some of its reads may name something else."""
        held, plan = dict(self.values), [number for number in range(1, self.dice.randint(2, 3)) for _ in range(self.dice.randint(1, 2))]
        self.dice.shuffle(plan)
        log = self.begin_round(plan)
        if self.chance(0.9):
            self.close(log, written(log) | {key for key in self.keys if self.chance(0.2)})
            if self.kind.is_loose and self.chance(0.2) and log[KEEPER][1].ops:
                log[KEEPER][1].ops.pop()
        for _ in range(self.dice.choice((0, 0, 1, 1, 2))):
            misread(self.dice, log, lambda key: [] if is_fence(key) and self.chance(0.9) else wids_of(self.rounds + [log], key))
        self.open(log, held, lambda: self.chance(0.94))
        return log


def written(log):
    """The keys that the round's clients write, but for fences."""
    return {key for kind, key, _ in ops_of(log) if kind == 'w' and not is_fence(key)}


def wids_of(rounds, key):
    """The identities that the key has had."""
    return [0] + [wid for log in rounds for kind, its_key, wid in ops_of(log) if (kind, its_key) == ('w', key)]


def misread(dice, log, choices):
    """Lets a read of some transaction name one of the identities that its key may have, and says whether there is such a read."""
    ops = dice.choice(log[dice.choice(sorted(log))]).ops
    may = [(place, op[1], choices(op[1])) for place, op in enumerate(ops) if op[0] == 'r']
    may = [it for it in may if it[2]]
    if may:
        place, key, wids = dice.choice(may)
        ops[place] = 'r', key, dice.choice(wids)
    return bool(may)


def made(dice, kind):
    """A run of rounds. A read of the first one may name what a later one wrote."""
    store = Store(dice, kind)
    rounds = [store.made_round() for _ in range(kind.rounds)]
    if store.chance(0.3):
        misread(dice, rounds[0], lambda key: wids_of(rounds, key))
    return rounds


def carried(dice, reads_keys, reads_fence):
    """Two rounds of a sound store, and whether a read of the second was bent. A transaction of unknown outcome begins in the first; it takes
    effect there, in the second or never, and is carried into the second. None where the second does not show it, or the first does."""
    store = Store(dice, Kind(2, False, False, False), 'xyz')
    store.lost = [('w', key, store.new_wid()) for key in dice.sample('xyz', dice.randint(1, 2))]
    lands, held, is_bent = dice.choice((1, 1, 2, 2, None)), {}, False
    for number in (1, 2):
        plan = [1, 2, 1, 2]
        dice.shuffle(plan)
        if lands == number:
            plan.insert(dice.randint(0, len(plan)), LANDS)
        log = store.begin_round(plan)
        if number == 2 and store.chance(0.5):
            logs = store.rounds + [log, {3: [Transaction(store.lost, 'commit')]}]
            is_bent = misread(dice, log, lambda key: [] if is_fence(key) else wids_of(logs, key))
        store.close(log, written(log) | {key for _, key, _ in store.lost if reads_keys or number == 2})
        is_shown = any(('r', key, wid) in ops_of(log) for _, key, wid in store.lost)
        if is_shown != (number == 2):
            return None
        if is_shown:
            fence = [('r', FENCE, log[KEEPER][0].ops[0][2])] if reads_fence else []
            log[3] = [Transaction(fence + store.lost, 'commit')]
        store.open(log, held)
        held.update((key, wid) for _, key, wid in log[KEEPER][-1].ops if not is_fence(key))
    return store.rounds, is_bent


# ---- checks: each yields None for what is right, and else what is wrong

def text_of(log):
    """A round in one line, with the moments of each transaction where it states some."""
    def text(it):
        moments = '' if it.begun is None and it.ended is None else ' [%s, %s]' % (it.begun, it.ended)
        return ', '.join('%s %s %d' % op for op in it.ops) + moments
    return ' / '.join('%d: %s' % (number, '; '.join(map(text, its))) for number, its in sorted(log.items()))


def told(what, rounds):
    return '\n    '.join([what] + [text_of(log) for log in rounds])


def differing(what, level, rounds, run, each):
    return told('%s, %s: the run %s, its rounds %s' % (what, level, run, each), rounds)


def name_of(level, kind):
    return 'strict-' + level if kind.has_moments else level


def levels_of(kind):
    return STRICT if kind.has_moments else LEVELS


def law_faults(cases, seed, met):
    """Made runs that meet the conditions keep the law. Out of time a run that has an order has rounds that have one."""
    for kind in KINDS:
        dice = random.Random('%d %s' % (seed, kind))
        for number in range(cases):
            rounds = made(dice, kind)
            holds = conditions(rounds)
            is_timely = holds.pop('time') or not kind.has_moments
            if not all(holds.values()):
                continue
            met['%d rounds' % kind.rounds] += 1
            met['out of time'] += not is_timely
            for level in levels_of(kind):
                name, what = name_of(level, kind), 'run %d of %s' % (number, kind)
                run, each = verdicts(rounds, level)
                met[name + (': kept' if run else ': not kept')] += 1
                is_right = run == all(each) if is_timely else all(each) or not run
                yield None if is_right else differing(what, name, rounds, run, each)
                if number % ALSO == 0:
                    also = level_model.kept(sorted(run_of(rounds).items()), name)
                    yield None if also == run else told('%s, %s: %s, by level_model %s' % (what, name, run, also), [run_of(rounds)])


def is_needed(condition):
    """Whether some run that breaks this condition alone is not as its rounds are."""
    kind = Kind(2, condition == 'time', condition != 'closed', condition in ('closed', 'opened'))
    dice = random.Random(FIXED)
    for _ in range(TRIES):
        rounds = made(dice, kind)
        holds = conditions(rounds)
        if not holds.pop(condition) and all(holds.values()):
            found = (verdicts(rounds, level) for level in levels_of(kind))
            if any(run != all(each) for run, each in found):
                return True
    return False


def txn(*ops):
    return Transaction([(kind, key, int(wid)) for kind, key, wid in map(str.split, ops)], 'commit')


def unclosed():
    """Two logs, of which the first is not closed: it reads what the second writes. The fence that a session reads holds its first transaction
    before the next opening, which writes that fence, and not the ones behind it."""
    first = {KEEPER: [txn('w fence/65535 1'), txn('r fence/1 2')], 1: [txn('r fence/65535 1', 'w fence/1 2')],
             2: [txn('r fence/65535 1'), txn('r x 5')]}
    second = {KEEPER: [txn('w fence/65535 3'), txn('r fence/1 6', 'r x 5')], 1: [txn('r fence/65535 3', 'w x 5', 'w fence/1 6')]}
    return [first, second]


def held_over():
    """Three rounds: the last one reads what the first wrote, and the one between has nothing of it."""
    first = {KEEPER: [txn('w fence/65535 1'), txn('r fence/1 3', 'r x 2')], 1: [txn('r fence/65535 1', 'w x 2', 'w fence/1 3')]}
    second = {KEEPER: [txn('w fence/65535 4'), txn('r fence/1 5')], 1: [txn('r fence/65535 4', 'w fence/1 5')]}
    third = {KEEPER: [txn('w x 2', 'w fence/65535 6'), txn('r fence/1 7')], 1: [txn('r fence/65535 6', 'r x 2', 'w fence/1 7')]}
    return [first, second, third]


def hand_faults():
    """Rounds by hand: which conditions they break, and whether the run and each of them have an order."""
    first, second, third = held_over()
    by_hand = [('unclosed', unclosed(), ['closed'], (True, [False, True])),
               ('held over', [first, second, third], [], (True, [True, True, True])),
               ('held over and not told', [first, second, bare(third)], ['rounds'], (True, [True, True, False]))]
    for name, rounds, broken, wanted in by_hand:
        found = [condition for condition, holds in conditions(rounds).items() if not holds]
        yield None if found == broken else told('%s: it breaks %s' % (name, found), rounds)
        for level in LEVELS:
            run, each = verdicts(rounds, level)
            yield None if (run, each) == wanted else differing(name, level, rounds, run, each)


def needed_faults():
    for condition in ('closed', 'opened', 'fits', 'time'):
        yield None if is_needed(condition) else 'without %s no run differs from its rounds' % condition


def carried_fault(rounds, is_bent, level):
    """What is wrong with a run with a carried transaction, or None."""
    run, each = verdicts(rounds, level)
    if not is_bent and not all(each):
        return differing('carried, a sound store is refused', level, rounds, run, each)
    return differing('carried', level, rounds, run, each) if run != all(each) else None


def carried_faults(cases, seed, met):
    """A carried transaction does no harm, but where closings do not read its keys or it does not read the fence."""
    dice = random.Random('%d carried' % seed)
    for _ in range(4 * cases):
        found = carried(dice, True, True)
        if found:
            rounds, is_bent = found
            met['carried'] += 1
            yield None if all(conditions(rounds).values()) else told('carried, no rounds', rounds)
            for level in LEVELS:
                yield carried_fault(rounds, is_bent, level)
    for reads in ((False, False), (False, True), (True, False)):
        dice = random.Random(FIXED)
        found = filter(None, (carried(dice, *reads) for _ in range(TRIES)))
        is_seen = any(carried_fault(*it, level) for it in found for level in LEVELS)
        yield None if is_seen else 'carried, closings read its keys %s, it reads the fence %s: nothing is wrong' % reads


def strongest_levels(kind):
    """The levels that are the strongest that some run in rounds of this kind keeps, and None where one keeps none."""
    dice, strongest = random.Random(FIXED), set()
    for _ in range(TRIES):
        rounds = made(dice, kind)
        if all(conditions(rounds).values()):
            strongest.add(next((level for level in levels_of(kind) if has_order(run_of(rounds), level)), None))
        if len(strongest) > len(levels_of(kind)):
            break
    return strongest


def met_faults():
    """Made runs in rounds keep each level and not the one above it, and some keep none."""
    for kind in KINDS:
        if kind.is_stale and not kind.is_loose:
            missing = {None, *levels_of(kind)} - strongest_levels(kind)
            yield 'of %s no run keeps at most %s' % (kind, missing) if missing else None


def main():
    words = argparse.ArgumentParser(description=__doc__, formatter_class=argparse.RawDescriptionHelpFormatter)
    words.add_argument('--cases', type=int, default=CASES, help='how many made runs of each kind (%(default)s)')
    words.add_argument('--seed', type=int, default=SEED, help='the number that they are made from (%(default)s)')
    words = words.parse_args()
    met = collections.Counter()
    found = [*hand_faults(), *needed_faults(), *met_faults()]
    found += [*law_faults(words.cases, words.seed, met), *carried_faults(words.cases, words.seed, met)]
    wrong = [fault for fault in found if fault]
    for fault in wrong[:SHOWN]:
        print('FAILED', fault)
    print('round model: met: ' + ', '.join('%s %d' % pair for pair in sorted(met.items())))
    print('round model: %d passed, %d failed' % (len(found) - len(wrong), len(wrong)))
    return 1 if wrong else 0


if __name__ == '__main__':
    sys.exit(main())
