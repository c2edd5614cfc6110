"""A plain, slow reading of the definitions in docs/DEFINITIONS.md, made apart from the program: the faults of a log of each version,
its anomalies, its serial orders by listing all orders, and the texts of its plain and its reduced formula and of their counts. It
shares no code with the program."""
import collections, itertools, re

LIMITS = dict(bytes=16 * 1024 * 1024, sessions=64, operations=200000, committed=1000, keys=10000, choices=100000, plain=100, clauses=20000000)

NUMBER = rb'(?:0|[1-9][0-9]*)'
KEY = rb'[A-Za-z0-9_.:/-]{1,64}'
HEADERS = {b'log 2\n': 2, b'log 3\n': 3}
CLOSINGS = {1: (b'commit', b'abort'), 2: (b'commit', b'abort', b'unknown'), 3: (b'commit', b'abort', b'unknown')}
SESSION = re.compile(rb'session (' + NUMBER + rb')\Z')
READ = re.compile(rb'r (' + KEY + rb') (' + NUMBER + rb')\Z')
WRITE = re.compile(rb'w (' + KEY + rb') (' + NUMBER + rb')\Z')
MOMENT = re.compile(rb'(begin|commit) (' + NUMBER + rb')\Z')

# The operations of a transaction, the word that the log has for its outcome, and the moments of its `begin` and its `commit`.
Transaction = collections.namedtuple('Transaction', 'ops outcome begun ended', defaults=(None, None))


class Refused(Exception):
    """The printed code of a refusal, as 'L4 line 2'."""


def version_of(text):
    """The version of a log: 2 or 3 where its first line is exactly `log 2` or `log 3`, else 1."""
    return HEADERS.get(text[:6], 1)


def least_version(sessions):
    """The least version that has lines for these sessions."""
    transactions = [it for _, transactions in sessions for it in transactions]
    if any(moment is not None for it in transactions for moment in (it.begun, it.ended)):
        return 3
    return 2 if any(it.outcome == 'unknown' for it in transactions) else 1


def lines_of(text):
    """The lines of a text, each with whether it has its line feed."""
    parts = text.split(b'\n')
    return [(part, True) for part in parts[:-1]] + ([(parts[-1], False)] if parts[-1] else [])


def form_of(line, version):
    if line == b'begin' or line in CLOSINGS[version]:
        return (line.decode(), None)
    found = MOMENT.match(line) if version == 3 else None
    if found:
        return (found.group(1).decode(), int(found.group(2))) if int(found.group(2)) < 2 ** 64 else None
    found = SESSION.match(line)
    if found:
        return ('session', int(found.group(1))) if 1 <= int(found.group(1)) <= 65535 else None
    for word, form in ((READ, 'r'), (WRITE, 'w')):
        found = word.match(line)
        if found and int(found.group(2)) < 2 ** 64:
            return (form, found.group(1).decode(), int(found.group(2)))
    return None


def read_log(text):
    """The sessions of a well-formed log: (number, [Transaction]); else Refused with the fault that stands first."""
    if len(text) > LIMITS['bytes']:
        raise Refused('L7 log-bytes')
    version, lines = version_of(text), lines_of(text)
    if sum(line.startswith(b'session') for line, _ in lines) > LIMITS['sessions']:
        raise Refused('L7 sessions')
    sessions, opened, writes, numbers = [], None, [], []
    for n, (line, ended) in list(enumerate(lines, 1))[0 if version == 1 else 1:]:
        if opened and line.startswith(b'session'):
            raise Refused('L4 line %d' % opened[0])
        form = form_of(line, version) if ended else None
        if form is None:
            raise Refused('L1 line %d' % n)
        kind = form[0]
        if (not sessions and kind != 'session') or (not opened and kind not in ('session', 'begin')):
            raise Refused('L3 line %d' % n)
        if opened and kind == 'begin':
            raise Refused('L4 line %d' % opened[0])
        if kind == 'begin' and sessions[-1][1] and sessions[-1][1][-1].outcome == 'unknown':
            raise Refused('L9 line %d' % n)
        if kind == 'w' and form[2] == 0:
            raise Refused('L5 line %d' % n)
        if kind == 'commit' and None not in (form[1], opened[2]) and form[1] < opened[2]:
            raise Refused('L10 line %d' % n)
        if kind == 'session':
            sessions.append((form[1], []))
            numbers.append((form[1], n))
        elif kind == 'begin':
            opened = (n, [], form[1])
        elif kind in ('r', 'w'):
            opened[1].append(form)
            if kind == 'w':
                writes.append((form[2], n))
        else:
            sessions[-1][1].append(Transaction(opened[1], kind, opened[2], form[1]))
            opened = None
    if opened:
        raise Refused('L4 line %d' % opened[0])
    seen = set()
    for number, n in numbers:
        if number in seen:
            raise Refused('L2 line %d' % n)
        seen.add(number)
    transactions = [t for _, ts in sessions for t in ts]
    operations = [o for t in transactions for o in t.ops]
    if len(operations) > LIMITS['operations']:
        raise Refused('L7 operations')
    if sum(t.outcome != 'abort' for t in transactions) > LIMITS['committed']:
        raise Refused('L7 committed')
    if len({o[1] for o in operations}) > LIMITS['keys']:
        raise Refused('L7 keys')
    seen = set()
    for wid, n in writes:
        if wid in seen:
            raise Refused('L6 line %d' % n)
        seen.add(wid)
    return sessions


def named(sessions):
    """Each transaction behind its name: its session's number, and its place."""
    return [((number, place), it) for number, transactions in sessions for place, it in enumerate(transactions, 1)]


def taken_of(sessions):
    """The names of the taken transactions: the least set of unknown ones that has each with a write that a read of a committed or of
    a taken one names, by key and identity."""
    taken = set()
    while True:
        seen = {op[1:] for name, it in named(sessions) if it.outcome == 'commit' or name in taken for op in it.ops if op[0] == 'r'}
        more = {name for name, it in named(sessions) if it.outcome == 'unknown' and any(op[0] == 'w' and op[1:] in seen for op in it.ops)}
        if more == taken:
            return taken
        taken = more


class History:
    """The committed and the taken transactions of sessions as nodes 1 to n. Unknown ones that are not taken count as aborted."""

    def __init__(self, sessions):
        self.sessions, self.taken = sessions, taken_of(sessions)
        self.names, self.ops, self.moments, self.aborted, self.keys = [(0, 0)], [[]], [(None, None)], [], []
        for name, it in named(sessions):
            if it.outcome == 'commit' or name in self.taken:
                self.names.append(name)
                self.ops.append(it.ops)
                self.moments.append((it.begun, it.ended))
            else:
                self.aborted.append(it.ops)
            for op in it.ops:
                if op[1] not in self.keys:
                    self.keys.append(op[1])
        self.n = len(self.ops) - 1
        self.nodes = range(1, self.n + 1)

    def last_write(self, ops, key):
        written = [wid for kind, k, wid in ops if kind == 'w' and k == key]
        return written[-1] if written else None

    def source(self, node, key):
        """The node that a clean history's external read of the key names."""
        for kind, k, wid in self.ops[node]:
            if k == key:
                if kind == 'w':
                    return None
                return next((u for u in self.nodes if self.last_write(self.ops[u], key) == wid), 0)
        return None

    def read_anomaly(self, node, place):
        kind, key, wid = self.ops[node][place]
        if kind != 'r':
            return None
        before, behind = self.ops[node][:place], self.ops[node][place + 1:]
        own = self.last_write(before, key)
        if own is not None:
            return None if own == wid else 'A4'
        here = lambda ops: ('w', key, wid) in ops
        if wid and not any(here(ops) for ops in self.ops + self.aborted):
            return 'A1'
        if any(here(ops) for ops in self.aborted):
            return 'A2'
        if here(behind):
            return 'A5'
        if any(u != node and here(self.ops[u]) and self.last_write(self.ops[u], key) != wid for u in self.nodes):
            return 'A3'
        if any(k == 'r' and x == key and w != wid for k, x, w in before):
            return 'A6'
        return None

    def anomaly(self):
        """(code, node, operation from 1), or ('A7', key number, source, first, second), or None."""
        for node in self.nodes:
            for place in range(len(self.ops[node])):
                code = self.read_anomaly(node, place)
                if code:
                    return code, node, place + 1
        for x, key in enumerate(self.keys):
            for source in range(self.n + 1):
                both = [r for r in self.nodes if self.source(r, key) == source and self.last_write(self.ops[r], key) is not None]
                if len(both) > 1:
                    return 'A7', x, source, both[0], both[1]
        return None

    def ended_before(self, u, v):
        """Whether a node ended before another one began, by the moments that both state."""
        ended, begun = self.moments[u][1], self.moments[v][0]
        return u != v and None not in (ended, begun) and ended < begun

    def comes_before(self, u, v):
        """Whether a node has to stand before another one whatever they read."""
        return u < v and self.names[u][0] == self.names[v][0] or self.ended_before(u, v)

    def arcs(self):
        found = {(0, j) for j in self.nodes}
        found |= {(u, v) for u in self.nodes for v in self.nodes if self.ended_before(u, v)}
        found |= {(a, a + 1) for a in self.nodes if a < self.n and self.names[a][0] == self.names[a + 1][0]}
        found |= {(self.source(r, key), r) for r in self.nodes for key in self.keys if self.source(r, key) is not None}
        return sorted(found)

    def bipaths(self):
        for r in self.nodes:
            for key in self.keys:
                w = self.source(r, key)
                if w is None:
                    continue
                for k in self.nodes:
                    if k not in (w, r) and self.last_write(self.ops[k], key) is not None:
                        yield (k, w), (r, k)

    def plain(self):
        """The variables and clauses of the plain formula."""
        pairs = list(itertools.combinations(range(self.n + 1), 2))
        number = {pair: i for i, pair in enumerate(pairs, 1)}
        literal = lambda u, v: number[u, v] if u < v else -number[v, u]
        clauses = [[literal(*arc)] for arc in self.arcs()]
        clauses += [[literal(*one), literal(*two)] for one, two in self.bipaths()]
        for i, j, k in itertools.combinations(range(self.n + 1), 3):
            clauses.append([-number[i, j], -number[j, k], number[i, k]])
            clauses.append([number[i, j], number[j, k], -number[i, k]])
        return len(pairs), clauses

    # ---- chains and pruning

    def writes(self, node, key):
        return self.last_write(self.ops[node], key) is not None

    def readers(self, node, key):
        return [r for r in self.nodes if self.source(r, key) == node]

    def next_writer(self, node, key):
        return next((v for v in self.readers(node, key) if self.writes(v, key)), None)

    def tail(self, head, key):
        for _ in self.nodes:
            behind = self.next_writer(head, key)
            if behind is None:
                break
            head = behind
        return head

    def chain_first(self, a, b, key):
        last = self.tail(a, key)
        return [(r, b) for r in self.readers(last, key)] or [(last, b)]

    def closes(self, key):
        """Whether a chain of the key closes on itself: a writer that is come to from itself."""
        for writer in self.nodes:
            at = writer
            for _ in self.nodes:
                at = self.next_writer(at, key) if self.writes(writer, key) else None
                if at is None:
                    break
                if at == writer:
                    return True
        return False

    def chain_polygraph(self):
        """The known edges and the choices of the chains."""
        known, choices = set(self.arcs()), []
        for key in self.keys:
            for w in range(self.n + 1):
                behind = self.next_writer(w, key)
                known |= {(r, behind) for r in self.readers(w, key) if behind not in (None, r)}
            heads = [v for v in self.nodes if self.writes(v, key) and self.source(v, key) is None]
            for h in heads:
                known |= set(self.chain_first(0, h, key))
            choices += [(self.chain_first(a, b, key), self.chain_first(b, a, key)) for a, b in itertools.combinations(heads, 2)]
        return known, choices

    def reaches(self, edges):
        """The pairs (u, v) of which u reaches v by at least one of these edges."""
        behind = {u: [] for u in range(self.n + 1)}
        for u, v in edges:
            behind[u].append(v)
        pairs = set()
        for u in range(self.n + 1):
            left = list(behind[u])
            while left:
                v = left.pop()
                if (u, v) not in pairs:
                    pairs.add((u, v))
                    left += behind[v]
        return pairs

    def pruning(self):
        """('dead', None), or ('open', the forced sides): the least set that has the other side of each refuted one."""
        known, choices = self.chain_polygraph()
        forced = set()
        while True:
            edges = set(known)
            for c, s in forced:
                edges |= set(choices[c][s - 1])
            reach = self.reaches(edges)
            found = {(c, 2 if s == 1 else 1) for c in range(len(choices)) for s in (1, 2)
                     if any((v, u) in reach for u, v in choices[c][s - 1])}
            if found <= forced:
                return ('dead', None) if any((v, v) in reach for v in range(self.n + 1)) else ('open', forced)
            forced |= found

    def reduced(self, forced):
        """The variables and clauses of the reduced formula: a variable for each pair of nodes 1 to n of which neither reaches the
        other, and one for each choice without a forced side."""
        known, choices = self.chain_polygraph()
        kept = known | {edge for c, s in forced for edge in choices[c][s - 1]}
        reach = self.reaches(kept)
        left = [choice for c, choice in enumerate(choices) if (c, 1) not in forced and (c, 2) not in forced]
        free = [(i, j) for i, j in itertools.combinations(self.nodes, 2) if (i, j) not in reach and (j, i) not in reach]
        number = {pair: i for i, pair in enumerate(free, 1)}
        literal = lambda u, v: number[u, v] if u < v else -number[v, u]
        clauses = []
        for i, j, k in itertools.combinations(self.nodes, 3):
            for edges in (((j, i), (k, j), (i, k)), ((i, j), (j, k), (k, i))):
                if not any(edge in reach for edge in edges):
                    clauses.append([literal(u, v) for u, v in edges if (v, u) not in reach])
        for c, sides in enumerate(left, len(free) + 1):
            for sign, side in zip((-1, 1), sides):
                clauses += [[sign * c, literal(u, v)] for u, v in side if (u, v) not in reach]
        return len(free) + len(left), clauses

    def answer(self, plain):
        """What a formula is made from, as `stats` has it, with its variables and clauses; else Refused."""
        if plain and self.n > LIMITS['plain']:
            raise Refused('G2')
        found = self.anomaly()
        anomaly = found and found[0]
        if not plain and not anomaly and self.first_cycle(self.arcs()):
            anomaly = 'A8'
        if anomaly:
            return [('anomaly', anomaly)], 1, [[1], [-1]]
        known, choices = (self.arcs(), list(self.bipaths())) if plain else self.chain_polygraph()
        if len(choices) > LIMITS['choices']:
            raise Refused('G1')
        counts = [('choices', len(choices))]
        if plain:
            variables, clauses = self.plain()
        else:
            end, forced = ('cyclic', None) if self.first_cycle(known) else self.pruning()
            if end != 'open':
                return [('anomaly', 'A8' if end == 'cyclic' else 'A9')], 1, [[1], [-1]]
            settled = len({c for c, _ in forced})
            counts += [('forced', settled), ('open', len(choices) - settled)]
            variables, clauses = self.reduced(forced)
        if len(clauses) > LIMITS['clauses']:
            raise Refused('G3')
        return counts, variables, clauses

    # ---- verdicts

    def name(self, node):
        return '%d.%d' % self.names[node]

    def first_cycle(self, edges):
        """The cycle that is printed: from the least node on a cycle, with the fewest edges, the lexicographically least; or None."""
        behind = {u: sorted(v for x, v in edges if x == u) for u in range(self.n + 1)}
        for start in range(self.n + 1):
            ways, seen = [[start]], set()
            while ways:
                longer = []
                for way in ways:
                    for v in behind[way[-1]]:
                        if v == start:
                            return way + [start]
                        if v not in seen:
                            seen.add(v)
                            longer.append(way + [v])
                ways = longer
        return None

    def anomaly_text(self, anomaly):
        if anomaly[0] == 'A7':
            _, key, source, first, second = anomaly
            return 'A7 lost update of %s from %s by %s and %s' % (self.keys[key], self.name(source), self.name(first), self.name(second))
        words = dict(A1='unknown read', A2='aborted read', A3='intermediate read', A4='own write missed', A5='future read', A6='split read')
        return '%s %s at %s op %d' % (anomaly[0], words[anomaly[0]], self.name(anomaly[1]), anomaly[2])

    def known_verdict(self):
        """What `check` says before it searches, or None where it has to."""
        anomaly = self.anomaly()
        if anomaly:
            return 'not serializable: %s\n' % self.anomaly_text(anomaly)
        cycle = self.first_cycle(self.arcs()) or self.first_cycle(self.chain_polygraph()[0])
        if cycle:
            return 'not serializable: A8 cycle of known edges\ncycle %s\n' % ' '.join(map(self.name, cycle))
        if self.pruning()[0] == 'dead':
            return 'not serializable: A9 pruning ends in a cycle\n'
        return None

    def is_serial(self, order):
        if sorted(order) != list(self.nodes):
            return False
        place = {v: p for p, v in enumerate(order)}
        if any(self.comes_before(a, b) and place[a] > place[b] for a in self.nodes for b in self.nodes):
            return False
        store = {}
        for v in order:
            for kind, key, wid in self.ops[v]:
                if kind == 'w':
                    store[key] = wid
                elif store.get(key, 0) != wid:
                    return False
        return True

    def serial_orders(self):
        return [order for order in itertools.permutations(self.nodes) if self.is_serial(list(order))]

    def has_serial_order(self):
        """Whether some order is serial: all orders, each followed up to its first read that is not met."""
        def goes_on(store, left):
            if not left:
                return True
            for v in left:
                if any(self.comes_before(u, v) for u in left):
                    continue
                after = dict(store)
                for kind, key, wid in self.ops[v]:
                    if kind == 'w':
                        after[key] = wid
                    elif after.get(key, 0) != wid:
                        break
                else:
                    if goes_on(after, left - {v}):
                        return True
            return False

        return goes_on({}, frozenset(self.nodes))


def formula_text(text, plain):
    """What `encode` writes for a log, with `--plain` or without it; else Refused."""
    _, variables, clauses = History(read_log(text)).answer(plain)
    lines = ['p cnf %d %d' % (variables, len(clauses))] + [' '.join(map(str, clause + [0])) for clause in clauses]
    return ''.join(line + '\n' for line in lines).encode()


def log_counts(text, history):
    """What `stats` counts in the log itself."""
    transactions = [it for _, it in named(history.sessions)]
    ended = lambda word: sum(it.outcome == word for it in transactions)
    counts = [('sessions', len(history.sessions)), ('committed', ended('commit')), ('aborted', ended('abort'))]
    if version_of(text) > 1:
        counts += [('unknown', ended('unknown')), ('taken', len(history.taken))]
    return counts + [('keys', len(history.keys)), ('operations', sum(len(it.ops) for it in transactions))]


def stats_text(text, plain):
    """What `stats` writes for a log, with `--plain` or without it; else Refused."""
    history = History(read_log(text))
    counts, variables, clauses = history.answer(plain)
    lines = log_counts(text, history) + counts + [('variables', variables), ('clauses', len(clauses))]
    return ''.join('%s %s\n' % line for line in lines).encode()
