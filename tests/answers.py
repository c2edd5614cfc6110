"""A plain, slow reading of docs/FORMATS.md beside tests/reference.py: the formulas that belong to a log, the texts of `encode` and
`stats`, a solver's answer and what `decode` says of it, an order and what `verify` says of it. It shares no code with the program.

Each command here answers (status, standard output, standard error) for texts in memory."""
import itertools, re

import reference
from reference import History, Refused, read_log

ANSWER_BYTES, ORDER_BYTES, CLAUSES = 64 * 1024 * 1024, 1024 * 1024, 20000000
STATUSES = {b'SATISFIABLE': True, b'UNSATISFIABLE': False, b'UNKNOWN': None, b'INDETERMINATE': None}
LITERAL = re.compile(rb'-?[0-9]+\Z')
PLACE = re.compile(rb'(' + reference.NUMBER + rb') (' + reference.NUMBER + rb')\Z')
UNSATISFIABLE = b'unsatisfiable claimed, not checked\n'


def refused(code):
    return 2, b'', ('refused: %s\n' % code).encode()


class Formula:
    """The formula of a log: its variables, its clauses, and how an assignment places the nodes."""

    def __init__(self, history, plain):
        self.history, self.pairs, self.anomaly, self.counts = history, {}, None, []
        if plain:
            self.make_plain()
        else:
            self.make_reduced()

    def contradict(self, anomaly):
        self.anomaly, self.variables, self.clauses = anomaly, 1, [[1], [-1]]

    def make_plain(self):
        history = self.history
        if history.n > reference.LIMITS['plain']:
            raise Refused('G2')
        anomaly = history.anomaly()
        if anomaly:
            return self.contradict(anomaly[0])
        bipaths = sum(1 for _ in history.bipaths())
        if bipaths > reference.LIMITS['choices']:
            raise Refused('G1')
        self.pairs = {pair: number for number, pair in enumerate(itertools.combinations(range(history.n + 1), 2), 1)}
        self.variables, self.clauses = history.plain()
        self.counts, self.known = [('choices', bipaths)], set()

    def make_reduced(self):
        history = self.history
        anomaly = history.anomaly()
        if anomaly:
            return self.contradict(anomaly[0])
        if history.first_cycle(history.arcs()):
            return self.contradict('A8')
        known, choices = history.chain_polygraph()
        if len(choices) > reference.LIMITS['choices']:
            raise Refused('G1')
        if history.first_cycle(known):
            return self.contradict('A8')
        outcome, forced = history.pruning()
        if outcome == 'dead':
            return self.contradict('A9')
        for choice, side in forced:
            known |= set(choices[choice][side - 1])
        self.known = closure(known)
        kept = {choice for choice, _ in forced}
        left = [choice for number, choice in enumerate(choices) if number not in kept]
        free = [pair for pair in itertools.combinations(history.nodes, 2) if pair not in self.known and pair[::-1] not in self.known]
        self.pairs = {pair: number for number, pair in enumerate(free, 1)}
        self.variables = len(free) + len(left)
        self.clauses = []
        for i, j, k in itertools.combinations(history.nodes, 3):
            self.add([], [(j, i), (k, j), (i, k)])
            self.add([], [(i, j), (j, k), (k, i)])
        for number, (one, two) in enumerate(left, len(free) + 1):
            for edge in one:
                self.add([-number], [edge])
            for edge in two:
                self.add([number], [edge])
        self.counts = [('choices', len(choices)), ('forced', len(kept)), ('open', len(left))]

    def add(self, before, edges):
        """A clause of literals and edges, without known edges that are false, and none where one is true."""
        if not any(edge in self.known for edge in edges):
            self.clauses.append(before + [self.literal(*edge) for edge in edges if edge[::-1] not in self.known])

    def literal(self, u, v):
        return self.pairs[u, v] if u < v else -self.pairs[v, u]

    def text(self):
        lines = ['p cnf %d %d' % (self.variables, len(self.clauses))] + [' '.join(map(str, clause + [0])) for clause in self.clauses]
        return ''.join(line + '\n' for line in lines).encode()

    def false_clause(self, values):
        """The first clause, from 1, that is false where the variables of `values` are true and the others are not."""
        for number, clause in enumerate(self.clauses, 1):
            if not any((abs(literal) in values) == (literal > 0) for literal in clause):
                return number
        return None

    def before(self, u, v, values):
        if (u, v) in self.known or (v, u) in self.known:
            return (u, v) in self.known
        literal = self.literal(u, v)
        return (abs(literal) in values) == (literal > 0)

    def order(self, values):
        """The nodes by how many nodes stand before each."""
        nodes = self.history.nodes
        return sorted(nodes, key=lambda v: sum(self.before(u, v, values) for u in nodes if u != v))


def closure(edges):
    """Which node reaches which by a walk."""
    reach = set(edges)
    while True:
        more = {(u, w) for u, v in reach for x, w in edges if x == v} - reach
        if not more:
            return reach
        reach |= more


# ---- a solver's answer

def answer_lines(text):
    """The lines without their ends: LF, or CR LF; the last may lack it."""
    parts = text.split(b'\n')
    lines = [part[:-1] if part.endswith(b'\r') else part for part in parts[:-1]]
    return lines + ([parts[-1]] if parts[-1] else [])


def read_answer(text, variables):
    """The set of true variables, or UNSATISFIABLE as False, or UNKNOWN as None; else Refused with the fault that stands first."""
    if len(text) > ANSWER_BYTES:
        raise Refused('M8')
    statuses, literals, last = [], set(), None
    for n, line in enumerate(answer_lines(text), 1):
        words = [word for word in re.split(rb'[ \t]', line) if word]
        if line[:1] == b'c' or not words:
            continue
        if line[:1] in b' \t' or words[0] not in (b's', b'v'):
            raise Refused('M1 line %d' % n)
        if words[0] == b's':
            if len(words) != 2 or words[1] not in STATUSES:
                raise Refused('M1 line %d' % n)
            if statuses:
                raise Refused('M2 line %d' % n)
            statuses.append(STATUSES[words[1]])
            continue
        for word in words[1:]:
            if not LITERAL.match(word):
                raise Refused('M1 line %d' % n)
            last = int(word)
            if abs(last) > variables:
                raise Refused('M4 line %d' % n)
            if last and -last in literals:
                raise Refused('M5 line %d' % n)
            literals.add(last)
    if not statuses:
        raise Refused('M3')
    if not statuses[0]:
        return statuses[0]
    if variables and last != 0:
        raise Refused('M6')
    return {literal for literal in literals if literal > 0}


# ---- an order

def read_order(text, history):
    """The nodes of an order's lines; else Refused with the fault that stands first."""
    if len(text) > ORDER_BYTES:
        raise Refused('O3')
    nodes = []
    for n, (line, ended) in enumerate(reference.lines_of(text), 1):
        found = PLACE.match(line) if ended else None
        if not found:
            raise Refused('O1 line %d' % n)
        name = int(found.group(1)), int(found.group(2))
        if name not in history.names[1:]:
            raise Refused('O2 line %d' % n)
        nodes.append(history.names.index(name, 1))
    return nodes


def replay(nodes, history):
    """Refused where the nodes are no serial order, with what the replay meets first."""
    if sorted(nodes) != list(history.nodes):
        raise Refused('P1')
    for place, node in enumerate(nodes):
        if any(later < node and history.names[later][0] == history.names[node][0] for later in nodes[place:]):
            raise Refused('P2 %s' % history.name(node))
    for place, node in enumerate(nodes):
        if any(history.ended_before(later, node) for later in nodes[place:]):
            raise Refused('P5 %s' % history.name(node))
    store = {}
    for node in nodes:
        for number, (kind, key, wid) in enumerate(history.ops[node], 1):
            if kind == 'w':
                store[key] = wid
            elif store.get(key, 0) != wid:
                raise Refused('P3 %s op %d' % (history.name(node), number))


def order_text(nodes, history):
    return ''.join('%d %d\n' % history.names[node] for node in nodes).encode()


# ---- the commands

def encode(log, plain):
    try:
        return 0, Formula(History(read_log(log)), plain).text(), b''
    except Refused as code:
        return refused(code)


def stats(log, plain):
    try:
        history = History(read_log(log))
        formula = Formula(history, plain)
    except Refused as code:
        return refused(code)
    lines = reference.log_counts(log, history)
    lines += [('anomaly', formula.anomaly)] if formula.anomaly else formula.counts
    lines += [('variables', formula.variables), ('clauses', len(formula.clauses))]
    return 0, ''.join('%s %s\n' % line for line in lines).encode(), b''


def decode(log, answer, plain):
    try:
        return decode_with(Formula(History(read_log(log)), plain), answer)
    except Refused as code:
        return refused(code)


def decode_with(formula, answer):
    """What `decode` says of an answer for a formula."""
    try:
        values = read_answer(answer, formula.variables)
    except Refused as code:
        return refused(code)
    if values is None:
        return 3, b'unknown\n', b''
    if values is False:
        return 3, UNSATISFIABLE, b''
    clause = formula.false_clause(values)
    if clause:
        return refused('E1 clause %d' % clause)
    return 0, order_text(formula.order(values), formula.history), b''


def verify(log, order):
    try:
        return verify_with(History(read_log(log)), order)
    except Refused as code:
        return refused(code)


def verify_with(history, order):
    """What `verify` says of an order for a history."""
    try:
        replay(read_order(order, history), history)
    except Refused as code:
        return refused(code)
    return 0, b'accepted\n', b''
