"""What `audit` answers, read word for word, and its certificates, each looked at by a plain program that shares nothing with it: the serial
order of `--order`, the part of `--part`, the counts, the explanation, and the object of JSON."""
import itertools, json, os, re, subprocess, sys

HERE = os.path.dirname(os.path.abspath(__file__))
sys.path.insert(0, HERE)
import explained, reference, small_logs

COUNTS = ('sessions', 'committed', 'aborted', 'unknown', 'taken', 'keys', 'operations', 'part')
# The last one stands behind no name.
OVERLOOKED = 'what they read rules it out'
TITLES = {'A1 unknown read', 'A2 aborted read', 'A3 intermediate read', 'A4 own write missed', 'A5 future read', 'A6 split read', 'A7 lost update',
          'A8 cycle of known edges', 'A9 pruning ends in a cycle', 'every order of its versions closes a cycle', 'the formula is refuted',
          OVERLOOKED}
SHORT = {title.split()[0] if title[0] == 'A' else title: title for title in TITLES}
# What the field calls the anomalies.
NAMES = {'A2': 'aborted read (G1a)', 'A3': 'intermediate read (G1b)', 'A4': 'own write missed (internal)', 'A5': 'future read (internal)',
         'A6': 'non-repeatable read (internal)', 'A7': 'lost update (G-single)'}
# What JSON calls the weaker levels; of those behind the second each is told down to the first that is kept.
WEAKER = {'strict snapshot isolation': 'strict_snapshot', 'snapshot isolation': 'snapshot', 'prefix consistency': 'prefix',
          'causal consistency': 'causal', 'read atomic': 'read_atomic', 'monotonic atomic view': 'monotonic_atomic_view',
          'read committed': 'read_committed'}
SNAPSHOT, LADDER = 'snapshot isolation', list(WEAKER)[2:]
# The words of `--level`.
WORDS = {'strict snapshot isolation': 'strict-snapshot', 'snapshot isolation': 'snapshot', 'prefix consistency': 'prefix', 'causal consistency': 'causal', 'read atomic': 'read-atomic',
         'monotonic atomic view': 'monotonic-atomic-view', 'read committed': 'read-committed'}
STATUS = {'serializable': 0, 'not serializable': 1, 'unknown': 3, 'refused': 2}
HEADING = re.compile(r'shown by (\d+) transactions?: (.+)')
TRANSACTION = re.compile(r'(\d+)\.(\d+) \(lines (\d+) to (\d+)\)')
# What is told with --explain alone.
EXPLAINED = 'explanation', 'without_sessions'
OBJECT = ['verdict', 'code', 'known_as', 'part', *EXPLAINED, 'without_moments', 'strict_snapshot', 'snapshot', 'snapshot_fault',
          *(WEAKER[level] for level in LADDER), 'weakest_fault', 'faults', 'reason', *COUNTS[:-1], 'version']
# Of parts of so many nodes all orders are tried.
TRIED = 9
LATE = 600


class Wrong(Exception):
    """What is wrong with an answer."""


def must(holds, words):
    if not holds:
        raise Wrong(words)


def call(program, *words, text=b''):
    """The status, and what is said on both outputs."""
    ran = subprocess.run([program, *words], input=text, stdout=subprocess.PIPE, stderr=subprocess.PIPE, timeout=LATE)
    return ran.returncode, ran.stdout.decode(), ran.stderr.decode()


# ---- a log of any length

def read_long(text):
    """The sessions of a log of any length."""
    kept = dict(reference.LIMITS)
    try:
        reference.LIMITS.update(bytes=2 ** 30, sessions=65535, operations=10 ** 9, committed=10 ** 9, keys=10 ** 9)
        return reference.read_log(text)
    finally:
        reference.LIMITS.update(kept)


def lines_of(sessions, text):
    """The line of each transaction's `begin` and of its end, by its name."""
    line, found = 1 if reference.version_of(text) == 1 else 2, {}
    for number, transactions in sessions:
        line += 1
        for place, it in enumerate(transactions, 1):
            found[number, place] = line, line + len(it.ops) + 1
            line += len(it.ops) + 2
    return found


def without_moments(sessions):
    return [(number, [it._replace(begun=None, ended=None) for it in its]) for number, its in sessions]


def states_moments(sessions):
    """Whether a committed or a taken transaction states when it began, and one when it ended."""
    taken = reference.taken_of(sessions)
    nodes = [it for name, it in reference.named(sessions) if it.outcome == 'commit' or name in taken]
    return any(it.begun is not None for it in nodes) and any(it.ended is not None for it in nodes)


def counted(sessions):
    """A plain count of what a log holds."""
    named = [it for _, it in reference.named(sessions)]
    ops = [op for it in named for op in it.ops]
    of = lambda outcome: sum(it.outcome == outcome for it in named)
    return dict(sessions=len(sessions), committed=of('commit'), aborted=of('abort'), unknown=of('unknown'),
                taken=len(reference.taken_of(sessions)), keys=len({op[1] for op in ops}), operations=len(ops))


# ---- an answer in text

# What stands behind a part where a client or its recorder is more often at fault than a store.
ORDER = 'check first: did the client record its operations in their order?'
HINTS = {'A1': 'check first: does the log have each write of all clients, under its own key?', 'A2': 'check first: is the abort certain?', 'A4': ORDER, 'A5': ORDER}
# What is said of a part that has an order without that of sessions.
SERIAL_APART = 'this level keeps the order of each session, and that is what these transactions break: without it they have a serial order (whether the whole log has one is not known)'
# What is said where a log has an order without its moments, and none with them.
TIME_ALONE = ['only real time was broken: the whole log has a serial order, but none in the order of its moments', 'check first: do the clients share a clock?']
# What is said of a store where no level was named: whether the log has an order without its moments, or keeps a weaker level.
NO_BLAME = {True: 'a store that promises no strict level did nothing wrong: name its level by --level',
            False: 'a store that promises no more than that did nothing wrong: name its level by --level'}
# What is said of it where nothing weaker is known to be kept, and something is not decided.
OPEN_BLAME = 'a store that promises less may have done nothing wrong: name its level by --level'
# What stands before what holds without moments, and before a last part, which breaks a weaker level.
WITHOUT, WHY_NOT = 'without real time: ', 'why %s was not kept:'
# What stands above what is told of a part: what its level asks for.
RULE = re.compile('([a-z ]+) asks (?:for|that) .+')
# What stands above what a weaker level tells, which has another name for it; and the other name of an A7.
TOO = re.compile('they break (%s) too:' % '|'.join(WORDS))
OWN_WRITE = 'a session misses its own write (G-single-process)'


class Part:
    """A part that is told: what was found of it, its transactions with their lines, why it has no order, and whether it has one without that
    of sessions."""

    def __init__(self, heading, listed, why):
        count, found = HEADING.fullmatch(heading).groups()
        name, _, short = found.rpartition(', ')
        if not name and found not in TITLES:
            name, short = found, OVERLOOKED
        self.known_as = name or None
        self.title = SHORT.get(short) if name else found
        must(self.title in TITLES, 'why the part is refuted: %r' % found)
        self.code = self.title.split()[0] if self.title[0] == 'A' else None
        found = [tuple(map(int, each)) for each in TRANSACTION.findall(listed)]
        self.lines = {(number, place): (first, last) for number, place, first, last in found}
        said = ['%d.%d (lines %d to %d)' % each for each in found]
        must(found and listed == 'transactions ' + ', '.join(said), 'the transactions: %r' % listed)
        must(int(count) == len(found) == len(self.lines), 'says %s transactions, tells %d' % (count, len(self.lines)))
        must(('transaction:' in heading) == (len(found) == 1), 'the noun: %r' % heading)
        hint = HINTS.get(self.code)
        must(hint is None or why[-1:] == [hint], 'behind a part of %s stands %r' % (self.code, why[-1:]))
        self.why = why[:-1] if hint else why
        self.is_serial_apart = self.why[:1] == [SERIAL_APART]
        self.why = self.why[1:] if self.is_serial_apart else self.why
        told = [line[len('known as: '):] for line in why if line.startswith('known as: ')]
        must(not told or self.known_as in told, 'known as %r, and told as %r' % (self.known_as, told))
        self.is_renamed = bool(self.why and TOO.fullmatch(self.why[0]))
        right = {None, NAMES.get(self.code), OWN_WRITE if self.code == 'A7' else None}
        # only an explanation says that a weaker level names it
        must(self.is_renamed or not why or self.code not in NAMES or self.known_as in right, 'A %s known as %r' % (self.code, self.known_as))


def rule_above(lines, level):
    """Takes what this level asks for from the front of these, where it stands there; whether it does."""
    rule = RULE.fullmatch(lines[0]) if lines else None
    must(rule is None or rule[1] == level, 'what %s asks: %r' % (level, lines[:1]))
    del lines[:bool(rule)]
    return bool(rule)


class Answer:
    """An answer in text: its first line, what stands between, and the counts."""

    def __init__(self, answer, faults=1):
        self.status, said, error = answer
        must(error == '', 'says on standard error %r' % error)
        must(said.endswith('\n'), 'has no line feed at its end')
        self.first, *rest = said[:-1].split('\n')
        self.verdict = self.first.split(':')[0]
        must(self.status == STATUS.get(self.verdict), 'status %d, says %r' % (self.status, self.first))
        middle, tail = rest[:-len(COUNTS)], [line.split(' ') for line in rest[-len(COUNTS):]]
        must([pair[0] for pair in tail] == list(COUNTS) and all(len(pair) == 2 and pair[1].isdecimal() for pair in tail), 'counts %r' % tail)
        self.counts = {name: int(number) for name, number in tail}
        self.parts, self.codes, self.without, self.weaker, self.shown, self.weakest, self.advice = [], [], None, {}, None, None, []
        if self.verdict == 'not serializable':
            self.refuted(middle, faults)
        elif self.verdict == 'unknown':
            self.below(middle)
            self.advice = middle
        else:
            must(not middle, 'between the first line and the counts %r' % middle)
        must(self.counts['part'] == (len(self.parts[0].lines) if self.parts else 0), 'the count of the part %d' % self.counts['part'])

    def below(self, middle):
        """Takes what holds without moments, the lines of weaker levels, and the part that breaks the weakest one, from the ends of these."""
        if middle[:len(TIME_ALONE)] == TIME_ALONE:
            self.without = 'serializable'
            must(self.verdict == 'not serializable', 'told of %r: %r' % (self.verdict, TIME_ALONE))
            del middle[:len(TIME_ALONE)]
        elif middle and middle[0].startswith(WITHOUT):
            self.without = middle.pop(0)[len(WITHOUT):]
            must(self.without in STATUS and self.without != 'refused', 'without moments %r' % self.without)
            must((self.verdict, self.without) != ('not serializable', 'serializable'), 'not said that real time alone was broken')
        lines = [re.fullmatch('(%s): (kept|not kept|unknown)(, as .+)?' % '|'.join(WEAKER), line) for line in middle]
        lines = list(itertools.takewhile(bool, lines))
        self.weaker = {line[1]: line[2] for line in lines}
        del middle[:len(lines)]
        is_kept = self.without == 'serializable' or 'kept' in self.weaker.values()
        is_open = self.verdict == 'not serializable' and 'unknown' in {self.without, *self.weaker.values()}
        wanted = [NO_BLAME[self.without == 'serializable']] if is_kept else [OPEN_BLAME] if is_open else []
        said = [middle.pop(0)] if middle and middle[0] in {OPEN_BLAME, *NO_BLAME.values()} else []
        must(said == wanted, 'of the store that keeps %r: %r' % (self.weaker, said))
        weakest = next((level for level in reversed(LADDER) if self.weaker.get(level) == 'not kept'), None)
        self.weakest = self.last_part(middle, weakest)
        self.shown = self.last_part(middle, SNAPSHOT)
        shows = ', as %s' % ('shown below' if self.shown is None else 'a part below shows')
        for line in lines:
            must(line[3] == (shows if line.group(1, 2) == (SNAPSHOT, 'not kept') else None), 'what shows it: %r' % line[0])
        told, ladder = list(self.weaker), [level for level in self.weaker if level in LADDER]
        must(told == [level for level in WEAKER if level in told] and (not told or SNAPSHOT in told), 'levels: %r' % self.weaker)
        last = next((place for place, level in enumerate(LADDER) if self.weaker.get(level) == 'kept'), len(LADDER) - 1)
        wanted = LADDER[:last + 1] if self.weaker.get(SNAPSHOT, 'kept') != 'kept' else []
        must(ladder == wanted, 'levels below %s: %r' % (SNAPSHOT, self.weaker))
        must(self.shown is None or self.weaker[SNAPSHOT] == 'not kept', 'a part shows that %s' % self.weaker)

    def last_part(self, middle, level):
        """Takes the part that stands last, below the line that it breaks this level."""
        why = WHY_NOT % level
        if why not in middle:
            return None
        place = middle.index(why)
        told = middle[place + 1:]
        del middle[place:]
        rule = rule_above(told, level)
        part = Part(*told[:2], told[2:])
        must(rule == bool(part.why), 'above the part of %s: %r' % (level, told))
        return part

    def refuted(self, middle, faults):
        self.below(middle)
        rule = rule_above(middle, 'serializability')
        heads = [place for place, line in enumerate(middle) if HEADING.fullmatch(line)]
        must(heads[:1] == [0] and len(heads) <= faults, 'told of the parts: %r' % middle)
        while faults > 1 and re.fullmatch(r'(A[1-9]|no code) [1-9][0-9]*', middle[-1]):
            self.codes.insert(0, middle.pop())
        self.parts = [Part(middle[at], middle[at + 1], middle[at + 2:end]) for at, end in zip(heads, heads[1:] + [len(middle)])]
        must(rule == bool(self.parts[0].why), 'above the first part: %r' % middle)
        told = self.parts + [part for part in (self.shown, self.weakest) if part is not None]
        must(len({(tuple(sorted(part.lines)), part.known_as) for part in told}) == len(told), 'a part is told twice')
        codes = sorted(part.code or 'no code' for part in self.parts)
        wanted = ['%s %d' % (code, codes.count(code)) for code in dict.fromkeys(codes)]
        must(self.codes == (wanted if faults > 1 else []), 'codes %r, wanted %r' % (self.codes, wanted))


def check_counts(answer, sessions):
    plain, got = counted(sessions), answer.counts
    must({name: got[name] for name in plain} == plain, 'counts %r, wanted %r' % (got, plain))


# ---- the serial order

def check_order(sessions, said):
    """That this text of `--order` is a serial order of the committed and the taken transactions, by a replay of it."""
    named, taken = dict(reference.named(sessions)), reference.taken_of(sessions)
    nodes = {name for name, it in named.items() if it.outcome == 'commit' or name in taken}
    must(re.fullmatch('([1-9][0-9]* [1-9][0-9]*\n)*', said), 'the order has other lines')
    order = [tuple(map(int, line.split(' '))) for line in said.split('\n')[:-1]]
    must(len(order) == len(nodes) and set(order) == nodes, 'the order has other transactions')
    last, begun, store = {}, -1, {}
    for number, place in order:
        it = named[number, place]
        must(last.get(number, 0) < place, '%d.%d stands behind a later one of its session' % (number, place))
        must(it.ended is None or it.ended >= begun, '%d.%d ended before one began that stands before it' % (number, place))
        last[number], begun = place, max(begun, -1 if it.begun is None else it.begun)
        for kind, key, wid in it.ops:
            must(kind == 'w' or store.get(key, 0) == wid, '%d.%d reads %s %d, which holds %d' % (number, place, key, wid, store.get(key, 0)))
            if kind == 'w':
                store[key] = wid


# ---- the part

def part_of(sessions, names):
    """The part of these transactions, with their names: of resolved sessions, all writes,
    and each read of 0, of an identity that they write, or of one that nobody in the log writes."""
    written = {op[2] for _, it in reference.named(sessions) for op in it.ops if op[0] == 'w'}
    here = {op[2] for name, it in reference.named(sessions) if name in names for op in it.ops if op[0] == 'w'}
    stays = lambda op: op[0] == 'w' or op[2] == 0 or op[2] in here or op[2] not in written
    kept = [(number, [((number, place), it._replace(ops=[op for op in it.ops if stays(op)]))
                      for place, it in enumerate(its, 1) if (number, place) in names]) for number, its in sessions]
    return [(number, its) for number, its in kept if its]


def orders(part):
    """Whether a part has an order, by all of them; None where it is too large for that."""
    if sum(it.outcome == 'commit' for _, its in part for _, it in its) > TRIED:
        return None
    return small_logs.has_order([(number, [it for _, it in its]) for number, its in part])


def check_told(sessions, text, part):
    """That a part that is told is one, of these transactions in these lines, and has no order; gives the part."""
    lines, resolved = lines_of(sessions, text), small_logs.resolved(sessions)
    for name, both in part.lines.items():
        must(lines.get(name) == both, '%d.%d stands in lines %r, and not in %r' % (*name, lines.get(name), both))
    must(list(part.lines) == [name for name in lines if name in part.lines], 'transactions in another order')
    law = part_of(resolved, part.lines)
    must(not orders(law), 'the part has an order')
    return law


def check_sessions(law, part):
    """That it is told of a part whether it has an order without that of sessions; gives what is met."""
    alone = [(number, [it]) for number, it in enumerate((it for _, its in law for it in its), 1)]
    has = orders(alone)
    must(has is None or part.is_serial_apart == has, 'without the order of sessions: told %r, wanted %r' % (part.is_serial_apart, has))
    return {'an order without sessions': part.is_serial_apart}


def leaner(sessions, part):
    """A transaction without which the part has no order either, or None."""
    resolved = small_logs.resolved(sessions)
    return next((name for name in part.lines if len(part.lines) > 1 and
                 orders(part_of(resolved, set(part.lines) - {name})) is False), None)


def check_files(sessions, text, law, path):
    """That the files of `--part` are the text of this part and the lines that the whole log has for its lines; gives both."""
    with open(path, 'rb') as log, open(path + '.map') as numbers:
        said, numbers = log.read(), [int(line) for line in numbers]
    plain = [(number, [it for _, it in its]) for number, its in law]
    must(read_long(said) == plain, 'the file of the part is %r, wanted %r' % (said, plain))
    must(reference.version_of(said) == reference.least_version(plain), 'the version of the part: %r' % said[:6])
    lines, whole = said.decode().split('\n')[:-1], text.decode().split('\n')
    must(len(lines) == len(numbers) and all(a < b for a, b in zip(numbers, numbers[1:])), 'the map has lines %r' % numbers)
    bounds, place = lines_of(sessions, text), iter([it for _, its in law for it in its])
    name = 0, 0
    for line, number in zip(lines, numbers):
        word, there = line.split(' ')[0], whole[number - 1]
        if word == 'begin':
            name, _ = next(place)
        if word in ('begin', 'commit', 'abort'):
            must(number == bounds[name][word != 'begin'], 'the map has %d for the %s of %d.%d' % (number, word, *name))
            must(there in (line, word) or there.startswith('%s ' % word) or there == 'unknown', 'line %d is %r, the part has %r' % (number, there, line))
        elif word == 'log':
            must(number == 1, 'the map has %d for the header' % number)
        else:
            must(there == line, 'line %d is %r, the part has %r' % (number, there, line))
            must(word == 'session' or bounds[name][0] < number < bounds[name][1], 'line %d is not of %d.%d' % (number, *name))
    return said, numbers


def whole_names(law):
    """The whole log's name of each transaction of the part, by its name there."""
    return {'%d.%d' % (number, place): '%d.%d' % name for number, its in law for place, (name, _) in enumerate(its, 1)}


def renamed(checked, names):
    """What `check` says of a part, with these names."""
    for form in (explained.READ, explained.UPDATE):
        found = form.match(checked)
        if found:
            groups = [n for n in range(1, form.groups + 1) if found[n] in names and (form is explained.READ or n > 1)]
            for n in reversed(groups):
                checked = checked[:found.start(n)] + names[found[n]] + checked[found.end(n):]
    return re.sub(r'(?m)^cycle .*$', lambda line: ' '.join(names.get(word, word) for word in line[0].split(' ')), checked)


def check_code(program, said, part):
    """That `check` says of the part's file what is told of it, unless the part has more sessions than it takes; gives what it says."""
    checked = call(program, 'check', '--strategy', 'forced', '--workers', '1', text=said)
    if len(read_long(said)) > reference.LIMITS['sessions']:
        must(checked == (2, '', 'refused: L7 sessions\n'), '`check` says of a part of many sessions %r' % (checked,))
        return checked[1]
    title = part.title if part.code else 'every cube is refuted'
    must(checked[0] == 1 and checked[1].startswith('not serializable: ' + title), '`check` says of the part %r, told is %r' % (checked, part.title))
    return checked[1]


def check_too(law, why):
    """That a part which is told by a weaker level breaks that level too, by brute force where it is small, and that something is told."""
    import level_model
    level, plain = TOO.fullmatch(why[0])[1], [(number, [it for _, it in its]) for number, its in law]
    must(RULE.fullmatch(why[1])[1] == level and why[2:], 'nothing is told behind %r' % why)
    small = sum(len(its) for _, its in plain) <= TRIED // 2
    must(not small or not level_model.kept(plain, WORDS[level]), 'they keep %s' % level)
    return {'told by a weaker level': 1}


def check_explained(said, numbers, law, checked, why):
    """That the lines behind a part explain it, in the names and lines of the whole log; gives what is met there."""
    log, names = explained.Log(said), whole_names(law)
    if TOO.fullmatch(why[0]):
        return check_too(law, why)
    for it in log.transactions:
        it.name = names[it.name]
        it.place, it.begin, it.end = int(it.name.split('.')[1]), numbers[it.begin - 1], numbers[it.end - 1]
        it.ops = [op._replace(line=numbers[op.line - 1]) for op in it.ops]
    log.named = {it.name: it for it in log.transactions}
    checked = renamed(checked, names)
    try:
        return explained.judge(said, checked, checked + ''.join(line + '\n' for line in why), log)
    except explained.Wrong as wrong:
        raise Wrong('the explanation %r: %s' % (why, wrong))


# ---- the object

def once(pairs):
    must(len({name for name, _ in pairs}) == len(pairs), 'JSON: a key twice: %r' % [name for name, _ in pairs])
    return dict(pairs)


def part_said(part):
    return [{'transaction': '%d.%d' % name, 'lines': list(both)} for name, both in part.lines.items()]


def check_fault(part, said, explain):
    if part is None:
        return must(said is None, 'JSON: a part %r' % said)
    wanted = dict(code=part.code, known_as=part.known_as, part=part_said(part))
    if explain:
        wanted.update(explanation=part.why, without_sessions='serializable' if part.is_serial_apart else None)
    must(said == wanted, 'JSON: fault %r, wanted %r' % (said, wanted))


def check_object(answer, said, explain=False):
    """JSON says what text says."""
    status, line, error = said
    must((status, error) == (answer.status, ''), 'JSON: status %d, standard error %r' % (status, error))
    must(line.endswith('}\n') and line.count('\n') == 1, 'JSON: not one line: %r' % line)
    it = json.loads(line, object_pairs_hook=once)
    told = explain and answer.parts
    must(list(it) == [name for name in OBJECT if name not in EXPLAINED or told], 'JSON: names %r' % list(it))
    must({name: it[name] for name in COUNTS[:-1]} == {name: answer.counts[name] for name in COUNTS[:-1]}, 'JSON: counts %r' % it)
    must((it['verdict'], it['without_moments']) == (answer.verdict, answer.without), 'JSON: %r' % it)
    weaker = {name: answer.weaker.get(level) for level, name in WEAKER.items()}
    must({name: it[name] for name in weaker} == weaker, 'JSON: levels %r' % it)
    check_fault(answer.shown, it['snapshot_fault'], explain)
    check_fault(answer.weakest, it['weakest_fault'], explain)
    must(it['reason'] == (answer.first.split(': ', 1)[1] if answer.verdict == 'unknown' else None), 'JSON: reason %r' % it['reason'])
    must(len(it['faults']) == len(answer.parts), 'JSON: %d faults' % len(it['faults']))
    for part, each in zip(answer.parts, it['faults']):
        check_fault(part, each, explain)
    first = it['faults'][0] if it['faults'] else dict(code=None, known_as=None, part=[])
    must({name: it.get(name) for name in first} == first, 'JSON: the first fault stands otherwise in front')
    return it
