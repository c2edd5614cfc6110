#!/usr/bin/env python3
"""auditing.py PROGRAM [CASES] [--seed N]: what `audit` says of logs, against all orders of the whole log, and its certificates.

Thousands of small made logs of all versions go through it. The first line and the status must be those that brute force over all orders of
the whole log gives, with 1, 3, 4 and 16 workers, with moments and without them; the counts those of a plain count. The file of `--order`
must be a serial order by a plain replay. What is told of a part must be one of the whole log: its transactions, each write and each read
that it keeps, its names and lines; it must have no order, by all of them and by `check`, and none of its transactions can be left out; what
`--explain` says must be so in the lines of the whole log; JSON must say what text says. Then logs by hand: empty ones, too few
transactions, too many sessions at once, parts at the limits of what is decided, refused ones with their codes, words that are none, files
that cannot be read or written, names that a shell would run, and too little time.
Last line: 'auditing: N passed, M failed'."""
import argparse, bz2, collections, concurrent.futures, gzip, json, lzma, os, random, re, subprocess, sys, tempfile

HERE = os.path.dirname(os.path.abspath(__file__))
sys.path[:0] = [HERE, os.path.join(os.path.dirname(HERE), 'bench')]
import certificates, generate, make_noise, reference, small_logs
from certificates import Answer, call, must

CASES, SEED, SHOWN = 2000, 1, 20
LANES = min(4, os.cpu_count())
# What has to be met among the made logs.
WANTED = ['serializable', 'not serializable', 'A1', 'A2', 'A3', 'A4', 'A5', 'A6', 'A7', 'A8', 'A9', 'parts of 1', 'parts of 2', 'parts of 3',
          'parts of 4']
WORKERS = ('1', '3', '4', '16')


# ---- what is right, by the whole log

def right_answer(sessions, at_least=1):
    """The first line."""
    committed = certificates.counted(sessions)['committed']
    if not small_logs.has_order(sessions):
        return 'not serializable'
    return 'serializable' if committed >= at_least else 'unknown: %d committed, %d asked for' % (committed, at_least)


# ---- made logs

def made_text(seed):
    """The text of a made log."""
    rnd = random.Random(seed)
    if seed % 4 == 3:
        return generate.small_log(seed, rnd.choice((1, 2, 3)))
    sessions = small_logs.made_log(rnd)
    return generate.text_of(sessions, rnd.choice((3, reference.least_version(sessions))))


class Made:
    """A made log, and what is said of it."""

    def __init__(self, program, folder, seed):
        self.program, self.rnd, self.text = program, random.Random(-seed), made_text(seed)
        self.at = os.path.join(folder, str(seed))
        self.path = self.at + '.log' if self.rnd.random() < 0.3 else None
        self.met = collections.Counter()

    def files(self):
        return [path for path in [self.path] + [self.at + end for end in ('.part', '.part.map', '.order')] if path and os.path.exists(path)]

    def audit(self, *words):
        return call(self.program, 'audit', *words, *([self.path] if self.path else []), text=b'' if self.path else self.text)

    def judged(self):
        try:
            sessions = reference.read_log(self.text)
        except reference.Refused as refused:
            small_refused(self.program, None, self.text, refused)
            self.met['refused'] += 1
            return
        if self.path:
            with open(self.path, 'wb') as log:
                log.write(self.text)
        for no_moments in (False, True):
            self.judged_so(certificates.without_moments(sessions) if no_moments else sessions, ['--no-moments'] if no_moments else [])

    def judged_so(self, sessions, words):
        """Asks with these words of a log with these sessions."""
        rnd, wanted = self.rnd, right_answer(sessions)
        words = words + rnd.choice(([], ['--strategy', rnd.choice(('first', 'most', 'least', 'forced'))], ['--budget', '5000']))
        words += ['--workers', rnd.choice(WORKERS)]
        explain, faults = rnd.random() < 0.7, rnd.choice((1, 1, 2, 9, 1000))
        more = ['--explain'] * explain + ['--faults', str(faults)] * (faults > 1)
        files = ['--part', self.at + '.part', '--order', self.at + '.order']
        answer = Answer(self.audit(*words, *more, *files), faults)
        must(answer.first == wanted, '%s says %r, wanted %r' % (words, answer.first, wanted))
        self.met[answer.verdict] += 1
        certificates.check_counts(answer, sessions)
        if answer.verdict == 'serializable':
            with open(self.at + '.order') as order:
                certificates.check_order(sessions, order.read())
        sizes = [len(part.lines) for part in answer.parts]
        must(sizes == sorted(sizes), 'parts of %r transactions' % sizes)
        for place, part in enumerate(answer.parts):
            self.told(sessions, words, answer, place, part, explain)
        self.must_be_without(sessions, answer)
        self.other_ways(answer, words, more, faults, explain)

    def told(self, sessions, words, answer, place, part, explain):
        law = certificates.check_told(sessions, self.text, part)
        left = certificates.leaner(sessions, part)
        must(left is None, 'the part %r has no order without %r' % (list(part.lines), left))
        must(not any(set(part.lines) == set(other.lines) for other in answer.parts[:place]), 'a part is told twice')
        self.met['parts of %d' % len(part.lines) if len(part.lines) < 5 else 'parts of 5 or more'] += 1
        must(bool(part.why) == explain, 'told with --explain or not: %r' % part.why)
        if place == 0:
            said, numbers = certificates.check_files(sessions, self.text, law, self.at + '.part')
            checked = certificates.check_code(self.program, said, part)
            if explain:
                self.met.update(certificates.check_explained(said, numbers, law, checked, part.why))
        if explain:
            self.met.update(certificates.check_sessions(law, part))

    def must_be_without(self, sessions, answer):
        """What holds without moments is told where it is another question."""
        asked = answer.verdict == 'not serializable' and certificates.states_moments(sessions)
        right = right_answer(certificates.without_moments(sessions), 0) if asked else None
        must(answer.without == right, 'without moments %r, wanted %r' % (answer.without, right))

    def other_ways(self, answer, words, more, faults, explain):
        """Other workers say the same first line, JSON the same, and --quiet the first line alone."""
        rnd, other = self.rnd, words[:-1] + [self.rnd.choice(WORKERS)]
        if rnd.random() < 0.35:
            again = Answer(self.audit(*words[:-2], *more, '--workers', '1'), faults)
            certificates.check_object(again, self.audit(*words[:-2], *more, '--workers', '1', '--format', 'json'), explain)
        if rnd.random() < 0.5:
            quiet = self.audit(*other, '--quiet')
            must(quiet == (answer.status, answer.first + '\n', ''), '%s --quiet: %r, wanted %r' % (other, quiet, answer.first))
        if rnd.random() < 0.1:
            quiet = self.audit(*other, '--quiet', '--format', 'json')
            must(quiet[0] == answer.status and json.loads(quiet[1]) == {'verdict': answer.verdict} and not quiet[2], 'with --quiet, JSON %r' % (quiet,))
        if rnd.random() < 0.2:
            few = Answer(self.audit(*other, '--at-least', '9'))
            right = answer.first if answer.verdict == 'not serializable' or answer.counts['committed'] > 8 else \
                'unknown: %d committed, 9 asked for' % answer.counts['committed']
            must(few.first == right and not few.advice, 'with --at-least %r, wanted %r' % (few.first, right))


def small_refused(program, folder, text, refused):
    code, *line = str(refused).split(' line ')
    status, said, error = call(program, 'audit', text=text)
    where = '-:%s: ' % line[0]
    must((status, said) == (2, '') and error.startswith(where) and error.endswith(' (%s)\n' % code), 'refused as %r, wanted %s' % (error, refused))


def judged(job):
    """What is wrong with what is said of a made log, or None; and what was met."""
    program, folder, seed = job
    made = Made(program, folder, seed)
    try:
        made.judged()
        return None, made.met
    except Exception as wrong:
        return 'made log %d: %s: %s\n%s' % (seed, type(wrong).__name__, wrong, made.text.decode()), made.met
    finally:
        for path in made.files():
            os.remove(path)


# ---- by hand

def blind_log(count, sessions=1, keys=1, key='x', outcome='commit', moments=False, ops=1):
    """Writers of some keys, session by session."""
    lines, wid = ['log 3'] if moments else [], 0
    for number in range(1, sessions + 1):
        lines.append('session %d' % number)
        for turn in range(count * (number - 1) // sessions, count * number // sessions):
            lines.append('begin %d' % (2 * turn) if moments else 'begin')
            for _ in range(ops):
                wid += 1
                lines.append('w %s%d %d' % (key, wid % keys, wid))
            lines.append('%s %d' % (outcome, 2 * turn + 1) if moments else outcome)
    return ''.join(line + '\n' for line in lines).encode()


def hot_key(count, moments=False):
    """So many writers of a key and as many readers, each in a session of its own."""
    begin, commit = ('begin 0', 'commit 9') if moments else ('begin', 'commit')
    lines = ['log 3'] if moments else []
    for n in range(1, count + 1):
        for turn, op in enumerate('wr'):
            lines += ['session %d' % (2 * n + turn), begin, '%s x %d' % (op, n), commit]
    return ''.join(line + '\n' for line in lines).encode()


def at_once(count):
    """As many writers of a key, all of them at once."""
    return re.sub(b'begin [0-9]+', b'begin 0', re.sub(b'commit [0-9]+', b'commit 9', blind_log(count, moments=True)))


def late_sessions(count=100, each=12):
    """Sessions one behind the other, each of which begins with a transaction that was aborted."""
    lines, wid = ['log 3'], 0
    for number in range(1, count + 1):
        start = 100 * number
        lines += ['session %d' % number, 'begin %d' % start, 'w k%d %d' % (number, 10 ** 6 + number), 'abort']
        for turn in range(1, each + 1):
            wid += 1
            lines += ['begin %d' % (start + 2 * turn), 'w k%d %d' % (number, wid), 'commit %d' % (start + 2 * turn + 1)]
    return ''.join(line + '\n' for line in lines).encode()


def circle(count, reads=0):
    """As many sessions, each of which reads what the next one wrote; the first one reads more keys, which nobody wrote."""
    lines = []
    for turn in range(count):
        other = (turn + 1) % count
        more = ['r other%d 0' % key for key in range(reads if turn == 0 else 0)]
        lines += ['session %d' % (turn + 1), 'begin', *more, 'r k%d %d' % (other, other + 1), 'w k%d %d' % (turn, turn + 1), 'commit']
    return ''.join(line + '\n' for line in lines).encode()


SMALL = b'log 3\nsession 1\nbegin 1\nw x 1\ncommit 2\nbegin 5\nr x 1\ncommit 6\nsession 2\nbegin 3\nw y 2\nabort\n'
TAKEN = b'log 2\nsession 1\nbegin\nw x 1\nunknown\nsession 2\nbegin\nr x 1\ncommit\n'
LOST = b'session 1\nbegin\nr x 0\nw x 1\ncommit\nsession 2\nbegin\nr x 0\nw x 2\ncommit\n'
OPEN_END = b'log 3\nsession 1\nbegin 0\nw a 1000000\ncommit\n' + blind_log(1200, 1, moments=True)[6:].replace(b'session 1', b'session 2')

UNKNOWN = b'session 2\nbegin\nw y 9999\nunknown\nsession 3\nbegin\nr y 9999\nabort\nsession 4\nbegin\nr y 9999\ncommit\n'
READ_TWICE = b'session 2\nbegin\nr x0 2\nr x0 1\ncommit\n'
# Who writes 900001 comes first by its identity, but is read behind 900002.
WRONG_GUESS = (b'session 5001\nbegin\nw s 900001\ncommit\nsession 5002\nbegin\nw s 900002\ncommit\n'
               b'session 5003\nbegin\nr s 900002\ncommit\nbegin\nr s 900001\ncommit\n')
# A session sees a write, and then an earlier one of its writer's session.
WENT_BACK = (b'session 5001\nbegin\nw s 900001\ncommit\nbegin\nw s 900002\ncommit\n'
             b'session 5003\nbegin\nr s 900002\ncommit\nbegin\nr s 900001\ncommit\n')
NOT_WRITTEN = b'session 3000\nbegin\nr x0 999999\ncommit\n'

# Of a log: words, the first line, and what stands in a line between that and the counts.
ANSWERED = [
    ('a header alone', b'log 3\n', [], 'unknown: 0 committed, 1 asked for', []),
    ('nothing', b'', [], 'unknown: 0 committed, 1 asked for', []),
    ('nothing, and nothing asked for', b'', ['--at-least', '0'], 'serializable', []),
    ('a session without transactions', b'session 1\n', [], 'unknown: 0 committed, 1 asked for', []),
    ('an aborted transaction alone', b'session 1\nbegin\nw x 1\nabort\n', [], 'unknown: 0 committed, 1 asked for', []),
    ('two transactions', SMALL, ['--at-least', '2'], 'serializable', []),
    ('two transactions where three are asked for', SMALL, ['--at-least', '3'], 'unknown: 2 committed, 3 asked for', []),
    ('two transactions where many are asked for', SMALL, ['--at-least', '1000000000'], 'unknown: 2 committed, 1000000000 asked for', []),
    ('taken transactions are not asked for', TAKEN, ['--at-least', '2'], 'unknown: 1 committed, 2 asked for', []),
    ('too few, and refuted', LOST, ['--at-least', '9'], 'not serializable', ['shown by 2 transactions: A7']),
    ('with all options', SMALL, '--workers 16 --strategy least --budget 1000000 --seconds 1000000 --at-least 1 --format text --progress --explain '
     '--faults 1000 --no-moments'.split(), 'serializable', []),
    ('1,001 transactions without moments', blind_log(1001, 64, 1001), [], 'serializable', []),
    ('1,002 transactions, one of them unknown and taken', b'log 2\n' + blind_log(1000, 1, 1000) + UNKNOWN, [], 'serializable', []),
    ('65 sessions', blind_log(130, 65, 130), [], 'serializable', []),
    ('65 sessions of which one has no transactions', blind_log(128, 64, 128) + b'session 999\n', [], 'serializable', []),
    ('100 sessions that begin late, with an aborted transaction', late_sessions(), [], 'serializable', []),
    ('2,000 sessions one behind the other', late_sessions(2000, 2), [], 'serializable', []),
    ('200,001 operations', blind_log(1, 1, 9, ops=200001), [], 'serializable', []),
    ('10,001 keys', blind_log(1, 1, 10001, ops=10001), [], 'serializable', []),
    ('100,128 choices', blind_log(448), [], 'serializable', []),
    ('100,128 choices, and moments', blind_log(448, moments=True), [], 'serializable', []),
    ('all at once', at_once(448), [], 'serializable', []),
    ('all at once, read twice', at_once(448) + READ_TWICE, [], 'not serializable', []),
    ('an early transaction without an end', OPEN_END, [], 'serializable', []),
    ('1,024 sessions at once', blind_log(2048, 1024, 5), [], 'serializable', []),
    ('1,025 sessions at once', blind_log(2050, 1025, 5), [], 'serializable', []),
    ('1,025 sessions at once, and a guess that is wrong', blind_log(2050, 1025, 5) + WRONG_GUESS, [], 'unknown: more than 1024 sessions at once', []),
    ('64 sessions at once, and a guess that is wrong', blind_log(128, 64, 5) + WRONG_GUESS, [], 'serializable', []),
    ('60,000 sessions that write and read a key', hot_key(30000), [], 'serializable', []),
    ('60,000 sessions that write and read a key, all at once', hot_key(30000, moments=True), [], 'serializable', []),
    ('1,025 sessions at once, and a read of nothing', blind_log(2050, 1025, 5) + NOT_WRITTEN, [], 'not serializable',
     ['shown by 1 transactions: A1']),
    ('1,025 sessions at once, and one that goes back', blind_log(2050, 1025, 5) + WENT_BACK, [], 'not serializable',
     ['shown by 4 transactions: A9']),
    ('a circle of 64 sessions', circle(64), [], 'not serializable', ['shown by 64 transactions: A8']),
    ('a circle of 65 sessions', circle(65), [], 'not serializable', ['shown by 65 transactions: A8']),
    ('a circle of 1,001 sessions', circle(1001), [], 'unknown: a part that was found has too many transactions', []),
    ('a session that goes back, and a circle', b'session 9000\nbegin\nw s 900000\ncommit\nbegin\nr s 0\ncommit\n' + circle(3), [], 'not serializable',
     ['shown by 3 transactions: A8']),
    ('a session that goes back, and nothing else', b'session 9000\nbegin\nw s 900000\ncommit\nbegin\nr s 0\ncommit\n', [], 'not serializable',
     ['shown by 2 transactions: A8']),
    ('a circle with 9,998 other keys', circle(2, 9998), [], 'not serializable', ['shown by 2 transactions: A8']),
    ('a circle behind a larger one', circle(5) + LOST.replace(b'session ', b'session 10').replace(b'w x ', b'w x 9'), ['--faults', '2'], 'not serializable',
     ['shown by 2 transactions: A7', 'shown by 5 transactions: A8']),
]

# Of a refused log: its text, the line and the code, and what is wrong.
REFUSED = [
    (b'session 1\r\nbegin\r\n', 1, 'L1', 'CR LF'),
    (b'\xef\xbb\xbfsession 1\n', 1, 'L1', 'byte order mark'),
    (gzip.compress(b'session 1\n'), 1, 'L1', 'compressed by gzip'),
    (bz2.compress(b'session 1\n'), 1, 'L1', 'compressed by bzip2'),
    (lzma.compress(b'session 1\n'), 1, 'L1', 'compressed by xz'),
    (b'\x28\xb5\x2f\xfd\x04\x58\x51\x00\x00session 1\n', 1, 'L1', 'compressed by zstd'),
    (b'PK\x03\x04\x14\x00\x00\x00\x08\x00session 1\n', 1, 'L1', 'compressed by zip: unzip -p FILE | cobra_poly audit - with the same options'),
    (b'session 1\n\n', 2, 'L1', 'empty line'),
    (b'session 1\n# begin\n', 2, 'L1', 'comment'),
    (b'session 1\nbegin\nr\tx 0\n', 3, 'L1', 'tab'),
    (b'session 1\nbegin\nr  x 0\n', 3, 'L1', 'two blanks'),
    (b'session 1\nbegin\ncommit', 3, 'L1', 'line feed'),
    (b'session 1\nbegin\nr x 00\n', 3, 'L1', 'leading zero'),
    (b'session 1\nbegin\nr x=1 0\n', 3, 'L1', 'key'),
    (b'session 1\nbegin\nr a\x01"b\\ 1\n', 3, 'L1', '\\x01'),
    (b'session 1\nbegin\nr \xff\x7f 1\n', 3, 'L1', 'key'),
    (b'session 1\nbegin\n\x1b[31m"\\ x\n', 3, 'L1', '\\x1b[31m'),
    (b'session 1\nbegin\nr x 1\x00\n', 3, 'L1', 'identity'),
    (b'log 4\nsession 1\n', 1, 'L1', 'version'),
    (b'session 1\nsession 2\nsession 1\n', 3, 'L2', ''),
    (b'log 3\nsession 1\ncommit\n', 3, 'L3', ''),
    (b'begin\n', 1, 'L3', ''),
    (b'session 1\nbegin\nbegin\n', 2, 'L4', ''),
    (b'session 1\nbegin\nr x 0\n', 2, 'L4', ''),
    (b'session 1\nbegin\nw x 0\n', 3, 'L5', ''),
    (b'session 1\nbegin\nw x 1\nabort\nsession 2\nbegin\nw y 1\ncommit\n', 7, 'L6', ''),
    (b'log 2\nsession 1\nbegin\nunknown\nbegin\ncommit\n', 5, 'L9', ''),
    (b'log 3\nsession 1\nbegin 5\ncommit 4\n', 4, 'L10', ''),
    # Which of two faults is told.
    (b'session 1\nbegin\nw x 1\nw x 1\ncommit\nsession 1\n', 6, 'L2', ''),
    (b'session 1\nsession 1\nbegin\nw x 0\n', 4, 'L5', ''),
]

USAGE = [['--size', '1'], ['--faults', '0'], ['--faults', '1001'], ['--faults', 'x'], ['--workers', '0'], ['--workers', '17'],
         ['--strategy', 'best'], ['--budget', '0'], ['--budget', '1000001'], ['--seconds', '0'], ['--seconds', '1000001'], ['--at-least', '-1'],
         ['--at-least', 'many'], ['--format', 'xml'], ['--format', 'dot'], ['--plain'], ['--part'], ['--order'], ['--no-moments', '--no-moments'],
         ['--faults', '1', '--faults', '1'], ['--quiet', '--quiet'], ['a.log', 'b.log']]


def answered(program, folder, name, text, words, first, within):
    sessions, at = certificates.read_long(text), os.path.join(folder, name)
    sessions = certificates.without_moments(sessions) if '--no-moments' in words else sessions
    faults = int(words[words.index('--faults') + 1]) if '--faults' in words else 1
    answer = Answer(call(program, 'audit', *words, '--part', at, '--order', at + '.order', text=text)[:2] + ('',), faults)
    must(answer.first == first, 'says %r, wanted %r' % (answer.first, first))
    said = [part.title for part in answer.parts] + ['shown by %d transactions: %s' % (len(part.lines), part.code) for part in answer.parts]
    must(all(title in said for title in within), 'says %r, and nowhere %r' % (said, within))
    certificates.check_counts(answer, sessions)
    if answer.verdict == 'serializable':
        with open(at + '.order') as order:
            certificates.check_order(sessions, order.read())
    laws = [certificates.check_told(sessions, text, part) for part in answer.parts]
    for law, part in list(zip(laws, answer.parts))[:1]:
        certificates.check_code(program, certificates.check_files(sessions, text, law, at)[0], part)
    must(within == [title for title in said if title in within], 'says %r, and not in this order %r' % (said, within))
    if '--format' not in words:
        certificates.check_object(answer, call(program, 'audit', *words, '--format', 'json', text=text))


def refused(program, folder, text, line, code, wrong):
    path = os.path.join(folder, 'refused %d.log' % hash((text, line)))
    with open(path, 'wb') as log:
        log.write(text)
    try:
        for words, given, name in (([path], b'', path), ([], text, '-'), (['-'], text, '-')):
            for more in ([], ['--explain', '--no-moments', '--faults', '9']):
                status, said, error = call(program, 'audit', *more, *words, text=given)
                must((status, said) == (2, ''), 'status %d, says %r' % (status, said))
                must(error.startswith('%s:%d: ' % (name, line)) and error.endswith(' (%s)\n' % code) and error.count('\n') == 1 and wrong in error,
                     'refused as %r, wanted %s:%d, %s, %r' % (error, name, line, code, wrong))
            words_of_it = error[len('%s:%d: ' % (name, line)):-len(' (%s)\n' % code)]
            status, said, _ = call(program, 'audit', '--format', 'json', *words, text=given)
            it = json.loads(said, object_pairs_hook=certificates.once)
            wanted = {'verdict': 'refused', 'code': code, 'line': line, 'words': words_of_it, 'version': it['version']}
            must(status == 2 and said.count('\n') == 1 and it == wanted, 'JSON: status %d, %r, wanted %r' % (status, said, wanted))
            status, said, _ = call(program, 'audit', '--quiet', '--format', 'json', *words, text=given)
            must(status == 2 and json.loads(said) == {'verdict': 'refused'}, 'JSON and --quiet: status %d, %r' % (status, said))
    finally:
        os.remove(path)


def no_usage(program, folder, words):
    status, said, error = call(program, 'audit', *words, text=SMALL)
    must((status, said) == (2, '') and error != '', 'status %d, says %r, on standard error %r' % (status, said, error))
    must('(L' not in error, 'refuses the log: %r' % error)


def unreadable(program, folder, path):
    for words in ([], ['--format', 'json'], ['--explain', '--quiet']):
        status, said, error = call(program, 'audit', *words, path)
        if 'json' in words:
            answer = json.loads(said)
            must(list(answer) == ['verdict', 'reason', 'version'] and (answer['verdict'], answer['reason']) == ('failed', error.rstrip('\n')),
                 'says %r, on standard error %r' % (said, error))
            said = ''
        must((status, said) == (5, '') and path in error and error.count('\n') == 1, 'status %d, says %r, on standard error %r' % (status, said, error))


def no_file(program, folder, option, text, path, told):
    """A file of a part or of an order that cannot be written: the verdict is told all the same, and the file by its name."""
    status, said, error = call(program, 'audit', option, path, text=text)
    must((status, said) == (5, call(program, 'audit', text=text)[1]), 'status %d, says %r' % (status, said))
    must(error.startswith(told + ': ') and error.count('\n') == 1, 'on standard error %r' % error)


def same_files(program, folder):
    """Files of a call that are one: usage, and the log stays."""
    log = os.path.join(folder, 'own.log')
    text = b'session 1\nbegin\nw x 1\ncommit\n'
    for words in (['--part', log, log], ['--order', log, log], ['--part', log[:-4], '--order', log[:-4] + '.map', log],
                  ['--part', os.path.join(folder, 'a'), '--order', os.path.join(folder, 'a'), log]):
        with open(log, 'wb') as out:
            out.write(text)
        status, said, error = call(program, 'audit', *words)
        with open(log, 'rb') as left:
            must((status, said, left.read()) == (2, '', text) and 'twice' in error, '%r: status %d, says %r, on standard error %r' % (words, status, said, error))


def strange_name(program, folder):
    """A log whose name a shell would take apart, and run: it is a name like any other, wherever it is told."""
    at = os.path.join(folder, "it's $(touch ran) \"x\".log")
    for text, said in ((LOST, 'not serializable\n'), (b'no log\n', ''), (None, '')):
        if text is not None:
            with open(at, 'wb') as log:
                log.write(text)
        answer = call(program, 'audit', '--explain', '--part', at + '.part', at)
        must(answer[1].startswith(said) and (said or answer[2].startswith(at + ':') and answer[2].count('\n') == 1), 'says %r' % (answer,))
        must('touch' not in answer[1], 'its text names the log: %r' % answer[1])
        json.loads(call(program, 'audit', '--format', 'json', at)[1], object_pairs_hook=certificates.once)
        if text is not None:
            os.remove(at)
    must(os.path.exists(at + '.part') and os.path.exists(at + '.part.map') and not os.path.exists('ran'), 'files of a part')


def time_is_up(program, folder):
    """With --seconds 1 a log that takes longer is `unknown`, and the text and the object say why. Of a fast machine a longer log is asked for."""
    log = os.path.join(folder, 'endless.log')
    for count in 400000, 4000000:
        maker = os.path.join(os.path.dirname(HERE), 'bench', 'long_log.py')
        subprocess.run([sys.executable, maker, log, '--transactions', str(count)], check=True)
        words = ['audit', '--no-moments', '--workers', '1', '--seconds', '1']
        text, of_json = call(program, *words, log), call(program, *words, '--format', 'json', log)
        if text[0] != 0 and of_json[0] != 0:
            break
    status, said, error = text
    must((status, error) == (3, '') and said.startswith('unknown: the time was up\n') and '\nmore --seconds may help\n' in said,
         'status %d, says %r, on standard error %r' % (status, said[:200], error))
    status, said, error = of_json
    answer = json.loads(said)
    must((status, answer['verdict'], answer['reason']) == (3, 'unknown', 'the time was up'), 'JSON: status %d, says %r' % (status, said[:200]))
    os.remove(log)


def ring_told(program, folder, keys, noise, readers, level):
    """A ring of keys that no order explains is told by few transactions, whatever stands before it. Of a search it would need all of them,
    or be `unknown`."""
    text = make_noise.log_of(make_noise.ring(keys, noise, readers)).encode()
    status, said, error = call(program, 'audit', '--only', '--level', level, text=text)
    parts = [int(line.split()[2]) for line in said.splitlines() if line.startswith('shown by ')]
    must((status, error) == (1, '') and parts and max(parts) <= 25, 'status %d, says %r, on standard error %r' % (status, said[:200], error))


def has_help(program, folder):
    status, said, error = call(program, 'audit', '--help')
    named = [option for option in ('--workers', '--strategy', '--budget', '--at-least', '--seconds', '--format', '--quiet', '--progress',
                                  '--explain', '--faults', '--part', '--order', '--no-moments') if option not in said]
    must((status, error, named) == (0, '', []), 'status %d, without %s' % (status, ', '.join(named)))


def like_check(program, folder, text):
    """An example log: what `check` says of it, also with the least budget."""
    known = call(program, 'check', '--strategy', 'forced', text=text)
    answer = Answer(call(program, 'audit', text=text))
    few = known[0] == 0 and b'commit' not in text
    must(answer.first == ('unknown: 0 committed, 1 asked for' if few else known[1].split('\n')[0].split(':')[0]), 'says %r, and `check` %r' % (answer.first, known))
    certificates.check_object(answer, call(program, 'audit', '--format', 'json', text=text))
    explained = Answer(call(program, 'audit', '--explain', text=text))
    certificates.check_object(explained, call(program, 'audit', '--explain', '--workers', '1', '--format', 'json', text=text), explain=True)
    least = Answer(call(program, 'audit', '--budget', '1', text=text))
    must(least.first == answer.first or least.verdict == 'unknown', 'budget 1: says %r, else %r' % (least.first, answer.first))


def by_hand(folder):
    """The name of each case by hand, what tests it, and what it is given."""
    for name, text, words, first, within in ANSWERED:
        yield name, answered, (name, text, words, first, within)
    for text, line, code, wrong in REFUSED:
        yield 'refused %r' % text, refused, (text, line, code, wrong)
    for words in USAGE:
        yield 'usage %r' % ' '.join(words), no_usage, (words,)
    for path in (os.path.join(folder, 'missing.log'), folder):
        yield 'unreadable %s' % os.path.basename(path), unreadable, (path,)
    directory, part = os.path.join(folder, 'directory'), os.path.join(folder, 'mapped')
    os.mkdir(directory)
    os.mkdir(part + '.map')
    for path in '/dev/full', directory, os.path.join(folder, 'nowhere', 'file'):
        for option, text in ('--part', LOST), ('--order', SMALL):
            yield '%s %s' % (option, os.path.basename(path)), no_file, (option, text, path, path)
    yield 'a map that cannot be written', no_file, ('--part', LOST, part, part + '.map')
    yield 'help', has_help, ()
    yield 'files that are one', same_files, ()
    yield 'the time is up', time_is_up, ()
    for ring in (3, 10, 40), (5, 12, 15), (6, 12, 30):
        for level in 'serializable', 'snapshot', 'prefix':
            yield 'a ring of %d keys, --level %s' % (ring[0], level), ring_told, (*ring, level)
    yield 'a strange name', strange_name, ()
    for name, text in generate.examples((1, 2, 3)):
        try:
            reference.read_log(text)
            yield 'example %s' % name, like_check, (text,)
        except reference.Refused as fault:
            yield 'example %s' % name, small_refused, (text, fault)


def judged_by_hand(job):
    program, folder, name, test, given = job
    try:
        test(program, folder, *given)
        return None
    except Exception as wrong:
        return '%s: %s: %s' % (name, type(wrong).__name__, wrong)


def main():
    words = argparse.ArgumentParser(description=__doc__, formatter_class=argparse.RawDescriptionHelpFormatter)
    words.add_argument('program', metavar='PROGRAM', help='the program, cobra_poly')
    words.add_argument('cases', metavar='CASES', type=int, nargs='?', default=CASES, help='how many made logs (%(default)s)')
    words.add_argument('--seed', type=int, default=SEED, help='from which number they are made (%(default)s)')
    words = words.parse_args()
    program, faults, passed, met = os.path.abspath(words.program), [], 0, collections.Counter()
    with tempfile.TemporaryDirectory() as folder, concurrent.futures.ProcessPoolExecutor(LANES) as pool:
        hand = pool.map(judged_by_hand, [(program, folder, *case) for case in by_hand(folder)])
        made = pool.map(judged, [(program, folder, seed) for seed in range(words.seed, words.seed + words.cases)], chunksize=10)
        for fault, here in [(fault, {}) for fault in hand] + list(made):
            faults, passed = faults + [fault] * (fault is not None), passed + (fault is None)
            met.update(here)
    for fault in faults[:SHOWN]:
        print('FAILED', fault)
    print('auditing: met: %s' % ', '.join('%s %d' % (what, met[what]) for what in sorted(met)))
    missing = [what for what in WANTED if not met[what]] if words.cases >= CASES and words.seed == SEED else []
    if missing:
        print('FAILED not met: %s' % ', '.join(missing))
    print('auditing: %d passed, %d failed' % (passed, len(faults) + len(missing)))
    return 1 if faults or missing else 0


if __name__ == '__main__':
    sys.exit(main())
