#!/usr/bin/env python3
"""damaged.py PROGRAM [SECONDS [SEED]] [--plain] [--version-1]: logs, answers and orders damaged at random, against the plain, slow
readers beside this file.

For SECONDS (60) each processor makes small logs, answers and orders from the seed that is printed, or takes those of examples/,
damages them (bytes and lines changed, cut, doubled, dropped, moved; other line ends, a byte order mark, NUL bytes, numbers at and
past the limits, signs, leading zeros; headers, outcomes that are unknown, and moments) and gives them to each command. Text and status must be
the reference's, byte for byte; what `check` says must be what the reference allows, `explain` must say the same first, and its reasons must
be those of tests/explained.py. A log must have one formula in each version that has
lines for it. Each prefix of a log and of an answer is run once before. With --plain the plain formula alone is asked for, with --version-1
all logs are of version 1. Last line: 'damaged: N passed, M failed'."""
import multiprocessing, os, random, subprocess, sys, tempfile, time

HERE = os.path.dirname(os.path.abspath(__file__))
sys.path.insert(0, HERE)
import answers, explained, generate, reference, solvers

TAIL = b'session 2\nbegin\nw x 2\ncommit\nsession 3\nbegin\nr x 1\ncommit\n'
# For each version a log, after how many bytes it is well-formed, and after how many a transaction is open, with its line.
PREFIX_LOGS = {
    1: (b'session 1\nbegin\nw x 1\ncommit\n' + TAIL, (0, 10, 29, 39, 58, 68, 87), {16: 2, 22: 2, 45: 6, 51: 6, 74: 10, 80: 10}),
    2: (b'log 2\nsession 1\nbegin\nw x 1\nunknown\n' + TAIL, (0, 6, 16, 36, 46, 65, 75, 94), {22: 3, 28: 3, 52: 7, 58: 7, 81: 11, 87: 11}),
    3: (b'log 3\nsession 1\nbegin 1\nw x 1\ncommit 2\n' + TAIL, (0, 6, 16, 39, 49, 68, 78, 97), {24: 3, 30: 3, 55: 7, 61: 7, 84: 11, 90: 11})}
PREFIX_ANSWER = b's SATISFIABLE\nv 1 -2 3 0\n'
NODES, SHOWN = 7, 20
NUMBERS = [b'0', b'-0', b'00', b'01', b'+1', b'-1', b'1.0', b'', b'65535', b'65536', b'4294967295', b'4294967296', b'9223372036854775808',
           b'18446744073709551614', b'18446744073709551615', b'18446744073709551616', b'18446744073709551617', b'018446744073709551615',
           b'36893488147419103233', b'9' * 30, b'1' + b'0' * 80]
LINES = {
    'log': [b'begin', b'commit', b'abort', b'session 1', b'session 0', b'session 65536', b'session', b'sessions 1', b'r x 01', b'w x 0', b'w  x 1',
            b'w x', b'', b' begin', b'begin ', b'w ' + b'k' * 64 + b' 77', b'w ' + b'k' * 65 + b' 77', b'r x 18446744073709551616', b'w x 18446744073709551615',
            b'r x\xc3\xa4 1', b'r A-Z/a.z:0_9 0', b'Begin', b'log 2', b'unknown', b'unknown', b'unknown 1',
            b'abort 1', b'log 1', b'log 3', b'log 4', b'begin 1', b'begin 0', b'begin 18446744073709551615', b'begin 01', b'begin  1',
            b'begin 18446744073709551616', b'commit 1', b'commit 0', b'commit 18446744073709551615', b'commit 00', b'commit ', b'commit -1'],
    'answer': [b's SATISFIABLE', b's UNSATISFIABLE', b's UNKNOWN', b's INDETERMINATE', b's', b's SAT', b's SATISFIABLE 1', b'v', b'v 0', b'v -0 0', b'v 1 -1',
               b' v 1 0', b'\tv 0', b'c', b'cc v 1 2', b'', b'   ', b'\t \t', b'v\t1\t 0 \t', b'v1 0', b'v --1 0', b'v - 0', b'v 1x 0', b'V 1 0', b'o 3', b'v 001 000'],
    'order': [b'0 0', b'0 1', b'1 0', b'1 1', b'1  1', b'1', b'', b' 1 1', b'1 1 ', b'1\t1', b'1 1 1', b'01 1', b'-1 1', b'+1 1', b'x 1', b'9 9']}


# ---- damage

def digits_in(text):
    """Where the numbers of a text stand."""
    found, start = [], None
    for at, byte in enumerate(text + b' '):
        inside = byte in b'0123456789'
        if inside and start is None:
            start = at
        elif not inside and start is not None:
            found.append((start, at))
            start = None
    return found


def changed_bytes(r, kind, text):
    at = r.randrange(len(text) + 1)
    stop = min(len(text), at + r.choice((1, 1, 1, 2, 5, 20)))
    part, rest, way = text[at:stop], text[:at] + text[stop:], r.randrange(6)
    if way == 0:
        return text[:at] + bytes([r.choice(b'019 \t\n\r\0-+rwsvcxb\xff') if r.random() < 0.7 else r.randrange(256)]) + text[at + 1:]
    if way == 1:
        return text[:at]
    if way == 2:
        return rest
    if way == 3:
        return text[:stop] + part + text[stop:]
    if way == 4:
        to = r.randrange(len(rest) + 1)
        return rest[:to] + part + rest[to:]
    return text[:at] + r.choice((b'\0', b'\0\0', b' ', b'\t', b'\r', b'\n', b'\xef\xbb\xbf', b'-', b'0', b'\x80')) + text[at:]


def changed_lines(r, kind, text):
    lines = text.split(b'\n')
    at, other, way = r.randrange(len(lines)), r.randrange(len(lines)), r.randrange(5)
    if way == 0:
        lines.insert(at, lines[at])
    elif way == 1:
        lines.pop(at)
    elif way == 2:
        lines.insert(other, lines.pop(at))
    elif way == 3:
        lines[at], lines[other] = lines[other], lines[at]
    else:
        lines.insert(at, r.choice(LINES[kind]))
    return b'\n'.join(lines)


def changed_number(r, kind, text):
    places = digits_in(text)
    if not places:
        return text + r.choice(LINES[kind]) + b'\n'
    start, stop = r.choice(places)
    number = r.choice(NUMBERS) if r.random() < 0.8 else r.choice((b'0', b'-', b'+')) + text[start:stop]
    return text[:start] + number + text[stop:]


def changed_ends(r, kind, text):
    way = r.randrange(5)
    if way == 0:
        return text.replace(b'\n', b'\r\n')
    if way == 1:
        lines = text.split(b'\n')
        at = r.randrange(len(lines))
        lines[at] += b'\r'
        return b'\n'.join(lines)
    if way == 2:
        return b'\xef\xbb\xbf' + text
    if way == 3:
        return text[:-1]
    return text + r.choice((b'\n', b'\r', b'\0', b' ', b'\r\n', b'\x1a'))


def changed_place(r, kind, text):
    """Damage that only a log of version 2 or 3 can have; to others as to lines."""
    return generate.wrong_line(r, text) if kind == 'log' and reference.version_of(text) > 1 else changed_lines(r, kind, text)


def damaged(r, kind, text):
    ways = (changed_bytes, changed_bytes, changed_lines, changed_lines, changed_place, changed_number, changed_ends)
    for _ in range(r.choice((1, 1, 1, 2, 3))):
        text = r.choice(ways)(r, kind, text)
    return text


# ---- what is damaged

def values_of(formula):
    """A satisfying assignment of a formula, or None."""
    said = solvers.own_answer(formula.text())
    return [int(word) for word in said.split(b'\n')[1].split()[1:-1]] if b'\nv' in said else None


def answer_of(r, formula):
    """An answer that a solver may give, in one of its many forms."""
    values = values_of(formula) if formula.variables <= 40 and r.random() < 0.7 else None
    if values is None:
        if r.random() < 0.3:
            return r.choice((b's UNSATISFIABLE\n', b's UNKNOWN\nc left\n', b'c left\ns INDETERMINATE\n'))
        values = [r.choice((v, -v)) for v in range(1, formula.variables + 1)]
    words, lines = [b'%d' % v for v in values if v > 0 or r.random() < 0.9], []
    if r.random() < 0.2:
        r.shuffle(words)
    words.append(b'0')
    while words:
        count = r.randint(1, max(1, len(words)))
        lines.append(b'v ' + b' '.join(words[:count]))
        words = words[count:]
    lines.insert(r.choice((0, 0, len(lines))), b's SATISFIABLE')
    if r.random() < 0.2:
        lines.insert(r.randrange(len(lines) + 1), b'c a comment')
    return b''.join(line + b'\n' for line in lines)


def serial_order(history):
    """A serial order, found by following each order up to its first read that is not met, or None."""
    def goes_on(order, store):
        if len(order) == history.n:
            return order
        for v in history.nodes:
            if v in order or any(u not in order and history.comes_before(u, v) for u in history.nodes):
                continue
            after = dict(store)
            for kind, key, wid in history.ops[v]:
                if kind == 'w':
                    after[key] = wid
                elif after.get(key, 0) != wid:
                    break
            else:
                found = goes_on(order + [v], after)
                if found is not None:
                    return found
        return None

    return goes_on([], {})


def order_of(r, history, explained):
    """An order of the nodes, often with two of them exchanged, and now and then of another transaction too."""
    nodes = list(explained or history.nodes)
    if r.random() < (0.2 if explained else 0.7):
        r.shuffle(nodes)
    elif len(nodes) > 1 and r.random() < 0.5:
        at = r.randrange(len(nodes) - 1)
        nodes[at:at + 2] = reversed(nodes[at:at + 2])
    lines = answers.order_text(nodes, history).splitlines(True)
    others = [name for name, _ in reference.named(history.sessions) if name not in history.names]
    if others and r.random() < 0.2:
        lines.insert(r.randrange(len(lines) + 1), b'%d %d\n' % r.choice(others))
    return b''.join(lines)


# ---- one log

class Judge:
    """Runs the program on texts, and counts."""

    def __init__(self, program, folder, plain_alone, versions):
        self.program, self.folder, self.plains, self.versions = program, folder, (True,) if plain_alone else (False, True), versions
        self.passed, self.failed, self.kinds = 0, [], {}

    def call(self, words, log, named=None, data=b''):
        """The program's answer to a log on standard input, with a second text in a file where an option names one."""
        if named:
            path = os.path.join(self.folder, 'text')
            with open(path, 'wb') as out:
                out.write(data)
            words = words + [named, path]
        ran = subprocess.run([self.program, *words], input=log, stdout=subprocess.PIPE, stderr=subprocess.PIPE, timeout=120)
        return ran.returncode, ran.stdout, ran.stderr

    def count(self, what, got, fault, *texts):
        code = got[2].split()[1].decode(errors='replace') if got[2].startswith(b'refused: ') else 'status %d' % got[0]
        self.kinds[what, code] = self.kinds.get((what, code), 0) + 1
        if fault is None:
            self.passed += 1
        else:
            self.failed.append('%s of %s: %r, %s' % (what, ', '.join(map(repr, texts)), got, fault))

    def compare(self, what, got, wanted, *texts):
        self.count(what, got, None if got == wanted else 'wanted %r' % (wanted,), *texts)

    def formulas(self, log):
        for plain in self.plains:
            words = ['--plain'] if plain else []
            self.compare('stats', self.call(['stats'] + words, log), answers.stats(log, plain), words, log)
            self.compare('encode', self.call(['encode'] + words, log), answers.encode(log, plain), words, log)

    def verdict(self, r, log):
        words = ['--strategy', r.choice(explained.STRATEGIES), '--workers', r.choice('124')]
        got = self.call(['check'] + words, log)
        self.explanation(words + ['--format', r.choice(('text', 'text', 'dot'))], log, got)
        try:
            history = reference.History(reference.read_log(log))
        except reference.Refused as code:
            return self.compare('check', got, answers.refused(code), log)
        known = history.known_verdict()
        if known is not None:
            return self.compare('check', got, (1, known.encode(), b''), log)
        if history.n > NODES:
            return None
        if not history.has_serial_order():
            return self.compare('check', got, (1, b'not serializable: every cube is refuted\n', b''), log)
        first, _, order = got[1].partition(b'\n')
        holds = (got[0], first, got[2]) == (0, b'serializable', b'') and answers.verify_with(history, order)[0] == 0
        return self.count('check', got, None if holds else 'there is an order', log)

    def explanation(self, words, log, checked):
        """What is said of a log, of which `check` says this."""
        got = self.call(['explain'] + words, log)
        first = checked[1].split(b'\n')[0]
        if checked[0] == 1 and 'text' in words and got[::2] == checked[::2]:
            fault = explained.fault(log, checked[1].decode(), got[1].decode())
        elif checked[0] == 2 and 'text' in words:
            holds = got[::2] == checked[::2] and explained.is_refusal_told(*(text.decode() for text in got[1:]))
            fault = None if holds else 'wanted %r, and why' % (checked,)
        elif checked[0] > 1:
            fault = None if got == checked else 'wanted %r' % (checked,)
        elif 'dot' in words:
            begin = b'// %s\nstrict digraph explanation {\n' % first
            fault = None if got[::2] == checked[::2] and got[1].startswith(begin) else 'wanted %r first' % begin
        else:
            holds = got[::2] == checked[::2] and explained.is_order(log, got[1].decode())
            fault = None if holds else 'no order, and check has %r' % (checked,)
        self.count('explain', got, fault, words, log)

    def decoded(self, log, answer, formulas):
        for plain, formula in formulas:
            words = ['--plain'] if plain else []
            wanted = answers.decode_with(formula, answer) if formula else answers.decode(log, answer, plain)
            self.compare('decode', self.call(['decode'] + words, log, '--model', answer), wanted, words, log, answer)

    def verified(self, log, order, history):
        wanted = answers.verify_with(history, order) if history else answers.verify(log, order)
        self.compare('verify', self.call(['verify'], log, '--order', order), wanted, log, order)

    def in_another_version(self, text, sessions):
        """A log's own text, and its formula in the least version that has lines for it."""
        self.compare('text', (0, generate.text_of(sessions, reference.version_of(text)), b''), (0, text, b''), text)
        least = generate.text_of(sessions)
        if least != text:
            self.compare('least version', self.call(['encode'], least), self.call(['encode'], text), text)

    def hurt_log(self, r, text):
        """A damaged log of one of the versions."""
        while True:
            hurt = damaged(r, 'log', text)
            if reference.version_of(hurt) in self.versions:
                return hurt

    def log(self, seed, examples):
        """One log with its damaged forms, its damaged answers and its damaged orders."""
        r = random.Random(seed)
        text = r.choice(examples) if r.random() < 0.15 else generate.small_log(seed, r.choice(self.versions))
        for _ in range(3):
            hurt = self.hurt_log(r, text)
            self.formulas(hurt)
            self.verdict(r, hurt)
        sessions = reference.read_log(text)
        self.in_another_version(text, sessions)
        history = reference.History(sessions)
        formulas = [(plain, answers.Formula(history, plain)) for plain in self.plains]
        for formula in formulas:
            for _ in range(2):
                self.decoded(text, damaged(r, 'answer', answer_of(r, formula[1])), [formula])
        explained = serial_order(history) if history.n <= NODES else None
        for _ in range(2):
            self.verified(text, damaged(r, 'order', order_of(r, history, explained)), history)
        self.verified(text, order_of(r, history, explained), history)
        self.decoded(hurt, b's SATISFIABLE\nv 1 0\n', [(plain, None) for plain in self.plains])
        self.verified(hurt, order_of(r, history, explained), None)

    def prefixes(self, version):
        """Each prefix of one log, and of one answer to it."""
        whole, well_formed, opened = PREFIX_LOGS[version]
        for stop in range(len(whole) + 1):
            log = whole[:stop]
            line = log.count(b'\n') + (not log.endswith(b'\n'))
            wanted = None if stop in well_formed else answers.refused('L4 line %d' % opened[stop] if stop in opened else 'L1 line %d' % line)
            for plain in self.plains:
                words = ['--plain'] if plain else []
                got = self.call(['encode'] + words, log)
                self.compare('prefix', got, wanted or answers.encode(log, plain), words, log)
            self.formulas(log)
            self.verdict(random.Random(stop), log)
            self.verified(log, b'1 1\n3 1\n2 1\n', None)
            self.decoded(log, PREFIX_ANSWER, [(plain, None) for plain in self.plains])
        for stop in range(len(PREFIX_ANSWER) + 1):
            code = 'M3' if stop == 0 else 'M1 line 1' if stop <= 12 else 'M1 line 2' if stop == 19 else 'M6' if stop <= 23 else None
            for plain in self.plains:
                words = ['--plain'] if plain else []
                got = self.call(['decode'] + words, whole, '--model', PREFIX_ANSWER[:stop])
                wanted = answers.refused(code) if code else answers.decode(whole, PREFIX_ANSWER, plain)
                self.compare('prefix', got, wanted, words, PREFIX_ANSWER[:stop])


def is_well_formed(text):
    try:
        reference.read_log(text)
    except reference.Refused:
        return False
    return True


def worked(job):
    """The counts of one process, which goes through seeds of its own until the time is up."""
    program, plain_alone, versions, seed, number, stop = job
    examples = [text for _, text in generate.examples(versions) if is_well_formed(text)]
    with tempfile.TemporaryDirectory() as folder:
        judge, logs = Judge(program, folder, plain_alone, versions), 0
        if number < len(versions):
            judge.prefixes(versions[number])
        while time.monotonic() < stop and len(judge.failed) < SHOWN:
            made = '%d %d %d' % (seed, number, logs)
            try:
                judge.log(made, examples)
            except Exception as fault:
                judge.failed.append('log %s: %r' % (made, fault))
            logs += 1
    return judge.passed, judge.failed, judge.kinds, logs


def main():
    if '--help' in sys.argv:
        return print(__doc__)
    words = [word for word in sys.argv[1:] if not word.startswith('--')]
    program = os.path.abspath(words[0])
    seconds = float(words[1]) if len(words) > 1 else 60
    seed = int(words[2]) if len(words) > 2 else random.SystemRandom().randrange(10 ** 9)
    print('damaged: seed %d' % seed, flush=True)
    count, stop = os.cpu_count() or 1, time.monotonic() + seconds
    with multiprocessing.Pool(count) as pool:
        jobs = [(program, '--plain' in sys.argv, generate.versions(sys.argv), seed, number, stop) for number in range(max(count, 3))]
        parts = pool.map(worked, jobs, 1)
    passed, failed, kinds = sum(part[0] for part in parts), [fault for part in parts for fault in part[1]], {}
    for part in parts:
        for kind, n in part[2].items():
            kinds[kind] = kinds.get(kind, 0) + n
    for fault in failed[:SHOWN]:
        print('FAILED', fault)
    print('damaged: %s' % ', '.join('%s %s %d' % (*kind, kinds[kind]) for kind in sorted(kinds)))
    print('damaged: %d logs, %d runs' % (sum(part[3] for part in parts), sum(kinds.values())))
    print('damaged: %d passed, %d failed' % (passed, len(failed)))
    sys.exit(1 if failed or not passed else 0)


if __name__ == '__main__':
    main()
