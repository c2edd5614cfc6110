#!/usr/bin/env python3
"""operating.py PROGRAM [--plain] [--all] [--version-1]: the program as an operator meets it.

Logs of 16 MiB of bad shapes are answered within 128 MiB, and explained within 192 MiB; pipes are closed, devices full, files directories, missing or
unreadable, standard input is closed, the address space is limited from little to ample, threads are refused. Each run must end
with the answer that it has with ample means or with a named refusal on standard error and its status, never by a signal, and never
with half a text and status 0. With --plain the plain formula alone is asked for; with --all the cases of UNSETTLED run too; with
--version-1 all logs are of version 1. Last line: 'operating: N passed, M failed'."""
import itertools, os, resource, shutil, signal, subprocess, sys, tempfile, threading, time

HERE = os.path.dirname(os.path.abspath(__file__))
sys.path.insert(0, HERE)
import answers, explained, generate

# `explain` keeps the lines of each transaction, of which a log of 16 MiB can have 1.4 million.
BYTES, MEMORY, EXPLAINED, LATE = 16 * 1024 * 1024, 128 * 1024, 192 * 1024, 600
LOG = b'session 1\nbegin\nw x 1\ncommit\nsession 2\nbegin\nw x 2\ncommit\nsession 3\nbegin\nr x 1\ncommit\n'
# Logs with the same formulas and the same orders.
LOGS = {1: LOG, 2: b'log 2\n' + LOG.replace(b'commit', b'unknown', 1),
        3: b'log 3\n' + LOG.replace(b'begin', b'begin 1').replace(b'commit', b'commit 2')}
MODELS = {True: b's SATISFIABLE\nv 1 2 3 4 5 -6 0\n', False: b's SATISFIABLE\nv 1 -2 3 0\n'}
ORDER = b'1 1\n3 1\n2 1\n'
GRAPH = b'// serializable\nstrict digraph explanation {\nnode [shape=box];\n}\n'
BOTH = [(0, b'serializable\n' + order, b'') for order in (b'1 1\n3 1\n2 1\n', b'2 1\n1 1\n3 1\n')]
INPUT, OUTPUT, NO_MEMORY = (5, b'', b'device failed: input\n'), (5, b'', b'device failed: output\n'), (4, b'', b'out of memory\n')
# A user who runs nothing else: a limit of threads counts all that its user runs, and other tests run servers as nobody meanwhile.
ALONE = 40000 + os.getpid() % 20000
LETTERS = 'ABCDEFGHIJKLMNOPQRSTUVWXYZabcdefghijklmnopqrstuvwxyz0123456789_.:/-'
COUNTS = (b'sessions', b'committed', b'aborted', b'unknown', b'taken', b'keys', b'operations')
# The status of the system's loader where it finds no room for the libraries, before the program begins.
UNLOADED = 127
# Cases that the program does not pass today, by the first words of their names; they run with --all.
UNSETTLED = ()


def repeated(before, line):
    """A log of 16 MiB: `before`, and then one line as often as it has room."""
    yield before
    count = (BYTES - len(before)) // len(line)
    for at in range(0, count, 10000):
        yield line * min(10000, count - at)


def many_sessions(line, outcome=b'commit'):
    """64 sessions, each of one transaction with one line repeated, 16 MiB together."""
    count = (BYTES // 64 - 40) // len(line)
    for number in range(1, 65):
        yield b'session %d\nbegin\n' % number + line * count + outcome + b'\n'


def many_keys(form, tails, count, outcome='commit', number=1):
    """One transaction of `count` operations, on keys of 64 bytes that differ at their ends, with the longest identities. Its reads name
    the first write of their key."""
    yield b'session %d\nbegin\n' % number
    tails, first = list(tails), 18446744073709551615
    for at in range(count):
        tail = tails[at % len(tails)]
        yield ('%s %s%s %d\n' % (form, 'k' * (64 - len(tail)), tail, first - (at if form == 'w' else at % len(tails)))).encode()
    yield outcome.encode() + b'\n'


def behind_header(*parts, header=b'log 2\n'):
    yield header
    for part in parts:
        yield from part


def shapes_of_version_2():
    """The same of version 2 as `shapes` below."""
    yield 'headers', repeated(b'', b'log 2\n'), 'L1 line 2'
    yield 'one line behind the header', repeated(b'log 2\n', b'unknown'), 'L1 line 2'
    yield 'line feeds behind the header', repeated(b'log 2\n', b'\n'), 'L1 line 2'
    yield 'unknown lines', repeated(b'log 2\nsession 1\nbegin\n', b'unknown\n'), 'L3 line 5'
    yield 'unknown transactions', repeated(b'log 2\nsession 1\n', b'begin\nunknown\n'), 'L9 line 5'
    yield 'aborted transactions, version 2', repeated(b'log 2\nsession 1\n', b'begin\nabort\n'), [1, 0, (BYTES - 16) // 12, 0, 0, 0, 0]
    yield '64 sessions of one unknown transaction', behind_header(many_sessions(b'w x 1\n', b'unknown')), 'L7 operations'
    tails = [a + b + c for a in LETTERS[:25] for b in LETTERS[:20] for c in LETTERS[:20]]
    yield '10,000 long keys, unknown', behind_header(many_keys('w', tails, 190600, 'unknown')), [1, 0, 0, 1, 0, 10000, 190600]
    unknown, reader = many_keys('w', tails, 10000, 'unknown'), many_keys('r', tails, 180600, number=2)
    yield '10,000 long keys, unknown and read', behind_header(unknown, reader), [2, 1, 0, 1, 1, 10000, 190600]
    yield 'one byte too many, version 2', behind_header([b'a' * (BYTES - 5)]), 'L7 log-bytes'


def shapes_of_version_3():
    """The same of version 3."""
    yield 'headers of version 3', repeated(b'', b'log 3\n'), 'L1 line 2'
    yield 'one moment', repeated(b'log 3\nsession 1\nbegin 1', b'0'), 'L1 line 3'
    yield 'transactions that end before they begin', repeated(b'log 3\nsession 1\n', b'begin 1\ncommit 0\n'), 'L10 line 4'
    yield 'committed transactions with moments', repeated(b'log 3\nsession 1\n', b'begin 1\ncommit 1\n'), 'L7 committed'
    aborted = b'begin 18446744073709551615\nabort\n'
    yield 'aborted transactions with moments', repeated(b'log 3\nsession 1\n', aborted), [1, 0, (BYTES - 16) // len(aborted), 0, 0, 0, 0]
    tails = [a + b + c for a in LETTERS[:25] for b in LETTERS[:20] for c in LETTERS[:20]]
    keys = many_keys('w', tails, 190600, 'commit 18446744073709551615')
    yield '10,000 long keys, with a moment', behind_header(keys, header=b'log 3\n'), [1, 1, 0, 0, 0, 10000, 190600]


def shapes():
    """The name of each log of 16 MiB, its parts, and what is said of it: the refusal, or the lines that `stats` begins with."""
    yield 'one line', repeated(b'', b'a'), 'L1 line 1'
    yield 'one line of NUL bytes', repeated(b'', b'\0'), 'L1 line 1'
    yield 'one line behind session', repeated(b'session 1\nbegin\nr x 0\n', b'session'), 'L4 line 2'
    yield 'one number', repeated(b'session 1\nbegin\nr x 1', b'0'), 'L1 line 3'
    yield 'line feeds', repeated(b'', b'\n'), 'L1 line 1'
    yield 'begin lines alone', repeated(b'', b'begin\n'), 'L3 line 1'
    yield 'begin lines in a session', repeated(b'session 1\n', b'begin\n'), 'L4 line 2'
    yield 'session lines', repeated(b'', b'session 1\n'), 'L7 sessions'
    yield 'aborted transactions', repeated(b'session 1\n', b'begin\nabort\n'), [1, 0, (BYTES - 10) // 12, 0, 0]
    yield 'committed transactions', repeated(b'session 1\n', b'begin\ncommit\n'), 'L7 committed'
    yield '64 sessions of one read', many_sessions(b'r x 0\n'), 'L7 operations'
    yield '64 sessions of one write', many_sessions(b'w x 1\n'), 'L7 operations'
    yield 'transactions of one read', repeated(b'session 1\n', b'begin\nr x 0\ncommit\n'), 'L7 operations'
    yield 'transactions of five reads', repeated(b'session 1\n', b'begin\n' + b'r x 0\n' * 5 + b'commit\n'), 'L7 operations'
    yield 'reads of keys of 15 bytes', repeated(b'session 1\n', b'begin\n' + b'r kkkkkkkkkkkkkkk 0\n' * 5 + b'commit\n'), 'L7 operations'
    yield '64 sessions of one transaction', many_sessions(b'begin\nr x 0\ncommit\n'), 'L4 line 2'
    yield 'too many writes of long keys', many_keys('w', LETTERS, 190600), [1, 1, 0, len(LETTERS), 190600]
    tails = [a + b + c for a in LETTERS[:25] for b in LETTERS[:20] for c in LETTERS[:20]]
    yield '10,000 long keys', many_keys('w', tails, 190600), [1, 1, 0, 10000, 190600]
    yield 'one key too many', many_keys('w', tails + ['end'], 190600), 'L7 keys'
    yield 'one byte too many', [b'a' * BYTES, b'\n'], 'L7 log-bytes'


SHAPES = {1: shapes, 2: shapes_of_version_2, 3: shapes_of_version_3}


class Runs:
    def __init__(self, program, folder, plains, whole, versions):
        self.program, self.folder, self.plains, self.whole, self.versions = program, folder, plains, whole, versions
        self.passed, self.failed, self.left, self.told = 0, 0, 0, 0
        self.paths = {}
        texts = {'log': LOG, 'model True': MODELS[True], 'model False': MODELS[False], 'order': ORDER, 'large': large_log(), 'refuted': explained.large_tree(0), 'tree': explained.large_tree(7)}
        for name, data in [*texts.items(), *LOGS.items()]:
            self.paths[name] = self.file('text %s' % name, [data])

    def file(self, name, parts):
        path = os.path.join(self.folder, name.replace(' ', '_').replace('/', '_'))
        with open(path, 'wb') as out:
            out.writelines(parts)
        os.chmod(path, 0o644)
        return path

    def case(self, name, fault):
        """Counts a case by what is wrong with it, which `fault` finds."""
        if not self.whole and any(name.startswith(words) for words in UNSETTLED):
            self.left += 1
            return
        try:
            wrong = fault()
        except subprocess.TimeoutExpired as late:
            wrong = str(late)
        if wrong is None:
            self.passed += 1
        else:
            self.failed += 1
            print('FAILED %s: %s' % (name, wrong), flush=True)

    def answer(self, words, program=None, **means):
        means.setdefault('stdin', subprocess.DEVNULL)
        means.setdefault('stdout', subprocess.PIPE)
        ran = subprocess.run([program or self.program, *words], stderr=subprocess.PIPE, timeout=LATE, **means)
        return ran.returncode, ran.stdout or b'', ran.stderr

    def expect(self, name, words, *wanted, **means):
        def fault():
            got = self.answer(words, **means)
            self.told += got == NO_MEMORY
            return None if got in wanted else '%r: %s, wanted %s' % (words, shown(got), ' or '.join(map(shown, wanted)))
        self.case(name, fault)

    def calls(self, log, text=LOG):
        """Each command on a log, or on standard input: its words, and what it says of the text."""
        file = [] if log is None else [log]
        for plain in self.plains:
            said = ['--plain'] if plain else []
            yield ['encode', *said, *file], [answers.encode(text, plain)]
            yield ['stats', *said, *file], [answers.stats(text, plain)]
            yield ['decode', *said, '--model', self.paths['model %s' % plain], *file], [answers.decode(text, MODELS[plain], plain)]
        yield ['verify', '--order', self.paths['order'], *file], [answers.verify(text, ORDER)]
        for workers in ('1', '4', '16'):
            yield ['check', '--workers', workers, *file], BOTH
        yield ['explain', '--format', 'dot', *file], [(0, GRAPH, b'')]

    def own_calls(self):
        """Each command on a small log of each version, and an explanation."""
        for version in self.versions:
            yield from self.calls(self.paths[version], LOGS[version])
        words = ['explain', '--workers', '1', self.paths['refuted']]
        yield words, [self.answer(words)]

    # ---- logs of 16 MiB

    def large(self):
        for name, parts, said in itertools.chain(*(SHAPES[version]() for version in self.versions)):
            path = self.file('shape', parts)
            for words, _ in self.calls(path):
                name_of = '16 MiB, %s, %s' % (name, ' '.join(words[:-1]))
                got, used = self.measured(words)
                self.case(name_of, lambda: answer_fault(words, got, said))
                self.case('memory of ' + name_of, lambda: '%d KiB' % used if used > (EXPLAINED if words[0] == 'explain' else MEMORY) else None)
            os.remove(path)

    def measured(self, words):
        """An answer, and the most memory that it took, in KiB."""
        with tempfile.TemporaryFile(dir=self.folder) as out, tempfile.TemporaryFile(dir=self.folder) as error:
            child = subprocess.Popen([self.program, *words], stdin=subprocess.DEVNULL, stdout=out, stderr=error)
            late = threading.Timer(LATE, child.kill)
            late.start()
            _, status, used = os.wait4(child.pid, 0)
            late.cancel()
            child.returncode = -os.WTERMSIG(status) if os.WIFSIGNALED(status) else os.WEXITSTATUS(status)
            out.seek(0), error.seek(0)
            return (child.returncode, out.read(4096), error.read(4096)), used.ru_maxrss

    # ---- devices

    def devices(self):
        ends = (('SIGPIPE as it comes', True), ('SIGPIPE ignored', False))
        calls = [('', words) for words, _ in list(self.own_calls()) + list(self.large_calls())]
        calls += [('unheard help, ', words) for words in (['--help'], ['--version'], ['help', 'check'], ['check', '--help'])]
        for kind, words in calls:
            for name, restored in ends:
                reads, writes = os.pipe()
                os.close(reads)
                self.expect('%sclosed pipe, %s, %s' % (kind, name, ' '.join(words[:2])), words, OUTPUT, stdout=writes, restore_signals=restored)
                os.close(writes)
            with open('/dev/full', 'wb') as full:
                self.expect('%sfull device, %s' % (kind, ' '.join(words[:2])), words, OUTPUT, stdout=full)
        for words, wanted in self.large_calls():
            for name, restored in ends:
                self.case('reader that leaves, %s, %s' % (name, words[0]), lambda: self.leaves_fault(words, restored))
            self.case('file of limited size, %s' % words[0], lambda: self.limited_fault(words, wanted))
        bad = self.file('bad', [b'nothing\n'])
        for words, _ in self.calls(bad):
            with open('/dev/full', 'wb') as full:
                self.expect('full device, refused log, %s' % words[0], words, answers.refused('L1 line 1'), stdout=full)

    def large_calls(self):
        """Commands that write more than a pipe holds, and what they write."""
        for plain in self.plains:
            words = ['encode', *(['--plain'] if plain else []), self.paths['large']]
            yield words, self.answer(words)
        words = ['explain', '--workers', '1', self.paths['tree']]
        yield words, self.answer(words)

    def leaves_fault(self, words, restored):
        child = subprocess.Popen([self.program, *words], stdin=subprocess.DEVNULL, stdout=subprocess.PIPE, stderr=subprocess.PIPE, restore_signals=restored)
        child.stdout.read(10)
        child.stdout.close()
        error = child.stderr.read()
        got = child.wait(timeout=LATE), b'', error
        return None if got == OUTPUT else shown(got)

    def limited_fault(self, words, wanted):
        """Standard output is a file that may have 10,000 bytes, and the signal that tells so is ignored."""
        path = self.file('limited', [])
        with open(path, 'wb') as out:
            limit = lambda: resource.setrlimit(resource.RLIMIT_FSIZE, (10000, 10000))
            got = self.answer(words, stdout=out, restore_signals=False, preexec_fn=limit)
        with open(path, 'rb') as out:
            text = out.read()
        if wanted[0] > 1 or len(wanted[1]) < 100000:
            return 'the text is too small: %s' % shown(wanted)
        return None if got == OUTPUT and text == wanted[1][:10000] else '%s, %d bytes' % (shown(got), len(text))

    # ---- files

    def files(self):
        missing, unreadable = os.path.join(self.folder, 'missing'), self.file('unreadable', [LOG])
        os.chmod(unreadable, 0)
        words = [('a directory', self.folder, {}), ('a missing file', missing, {}), ('no name', '', {}),
                 ('a file below a file', self.paths['log'] + '/log', {}), ('a name too long', 'n' * 5000, {}),
                 ('a file that fails', '/proc/self/mem', {})]
        if os.getuid() == 0:
            words.append(('an unreadable file', unreadable, {'preexec_fn': self.become_another}))
        else:
            words.append(('an unreadable file', unreadable, {}))
        for name, path, means in words:
            for call, _ in self.calls(path):
                self.expect('%s as log of %s' % (name, call[0]), call, INPUT, **means)
            for plain in self.plains:
                call = ['decode', *(['--plain'] if plain else []), '--model', path, self.paths['log']]
                self.expect('%s as model' % name, call, INPUT, **means)
            self.expect('%s as order' % name, ['verify', '--order', path, self.paths['log']], INPUT, **means)
        for call, _ in self.calls('/dev/zero'):
            self.expect('endless log of %s' % call[0], call, answers.refused('L7 log-bytes'))
        status, _, said = answers.refused('L7 log-bytes')
        words = b'/dev/zero: the log has more than 16777216 bytes (L7 log-bytes)\n'
        self.expect('endless log of explain, as text', ['explain', '/dev/zero'], (status, words, said))
        for plain in self.plains:
            call = ['decode', *(['--plain'] if plain else []), '--model', '/dev/zero', self.paths['log']]
            self.expect('endless model', call, answers.refused('M8'))
        self.expect('endless order', ['verify', '--order', '/dev/zero', self.paths['log']], answers.refused('O3'))
        for version in self.versions:
            for call, wanted in self.calls(None, LOGS[version]):
                with open(self.paths[version], 'rb') as log:
                    self.expect('log on standard input of %s' % call[0], call, *wanted, stdin=log)
        for call, _ in self.calls(None):
            descriptor = os.open(self.folder, os.O_RDONLY)
            self.expect('standard input a directory, %s' % call[0], call, INPUT, stdin=descriptor)
            os.close(descriptor)
            descriptor = os.open(self.file('written', [LOG]), os.O_WRONLY)
            self.expect('standard input for writing, %s' % call[0], call, INPUT, stdin=descriptor)
            os.close(descriptor)
            self.expect('standard input closed, %s' % call[0], call, INPUT, preexec_fn=lambda: os.close(0))
        for call, wanted in self.own_calls():
            self.expect('standard input closed, a log that is named, %s' % call[0], call, *wanted, preexec_fn=lambda: os.close(0))
            self.expect('standard error closed, %s' % call[0], call, *wanted, preexec_fn=lambda: os.close(2))
        self.expect('standard error closed, missing log', ['check', missing], (5, b'', b''), preexec_fn=lambda: os.close(2))
        for call, wanted in self.own_calls():
            self.case('standard output closed, %s' % call[0], lambda: self.unheard_fault(call))

    def unheard_fault(self, call):
        """Without standard output the text goes nowhere: this must be told."""
        got = self.answer(call, preexec_fn=lambda: os.close(1))
        return None if got == OUTPUT else '%r: %s, wanted %s' % (call, shown(got), shown(OUTPUT))

    def become_another(self):
        os.setgroups([])
        os.setgid(ALONE)
        os.setuid(ALONE)

    # ---- limits

    def address_space(self):
        """Limits of the address space, in steps from what the system needs to start the program at all up to ample."""
        limit = lambda kibibytes: lambda: resource.setrlimit(resource.RLIMIT_AS, (kibibytes * 1024, kibibytes * 1024))
        unloaded = [size for size in range(1024, 1 << 15, 64) if self.answer(['--version'], preexec_fn=limit(size))[0] == UNLOADED]
        starts = max(unloaded, default=1024) + 64
        print('operating: the system loads the program from an address space of %d KiB on' % starts)
        sizes = [starts + step for step in list(range(0, 4096, 128)) + list(range(4096, 40960, 1024)) + [1 << n for n in range(16, 22)]]
        for words, wanted in self.own_calls():
            for size in sizes:
                self.expect('address space of the start and %d KiB, %s' % (size - starts, ' '.join(words[:3])), words, *wanted, NO_MEMORY, preexec_fn=limit(size))
            self.expect('ample address space, %s' % words[0], words, *wanted, preexec_fn=limit(4 << 20))
        self.case('some limit of the address space is told', lambda: None if self.told else 'none')
        for words, wanted in self.large_calls():
            for size in sizes[::4] if words[0] == 'explain' else sizes:
                self.expect('address space of the start and %d KiB, large log, %s' % (size - starts, ' '.join(words[:2])), words, wanted, NO_MEMORY, preexec_fn=limit(size))

    def threads(self):
        if os.getuid() != 0:
            print('operating: threads refused: cannot be tried, the script has to run as root')
            return

        def limit(count):
            def before():
                resource.setrlimit(resource.RLIMIT_NPROC, (count, count))
                self.become_another()
            return before
        for words, wanted in list(self.own_calls()) + [(words, [wanted]) for words, wanted in self.large_calls() if words[0] != 'explain']:
            for count in list(range(1, 8)) + [17, 18, 1000]:
                self.expect('%d threads, %s' % (count, ' '.join(words[:3])), words, *wanted, NO_MEMORY, preexec_fn=limit(count))


def shown(answer):
    """An answer, with the name of the signal that ended it."""
    status, out, error = answer
    end = signal.Signals(-status).name if status < 0 else 'status %d' % status
    return '%s, %r%s, %r' % (end, out[:80], ' of %d bytes' % len(out) if len(out) > 80 else '', error[:300])


def answer_fault(words, got, said):
    """What is wrong with what a command says of a log of 16 MiB: the refusal, or the counts that `stats` begins with."""
    if isinstance(said, str):
        return None if got == answers.refused(said) else '%s, wanted %s' % (shown(got), said)
    if words[0] == 'stats':
        names = COUNTS if len(said) == len(COUNTS) else [name for name in COUNTS if name not in (b'unknown', b'taken')]
        counts = b''.join(b'%s %d\n' % pair for pair in zip(names, said))
        return None if got[0] == 0 and got[1].startswith(counts) and not got[2] else '%s, wanted %r' % (shown(got), counts)
    if words[0] == 'explain':
        return None if got == (0, GRAPH, b'') else shown(got)
    if words[0] in ('encode', 'check'):
        # each node is its session's first transaction
        nodes = said[1] + (said[4] if len(said) == len(COUNTS) else 0)
        order = b''.join(b'%d 1\n' % number for number in range(1, nodes + 1))
        wanted = b'p cnf 0 0\n' if '--plain' not in words and words[0] == 'encode' else b'serializable\n' + order
        right = got[1] == wanted or (words[0] == 'encode' and '--plain' in words and got[1].startswith(b'p cnf '))
        return None if (got[0], got[2]) == (0, b'') and right else shown(got)
    return None if got[0] in (0, 2) and (got[0] == 2) == bool(got[2]) else shown(got)


def large_log():
    """Sixty blind writers of one key: a formula of more than a megabyte, plain or reduced."""
    return b''.join(b'session %d\nbegin\nw x %d\ncommit\n' % (number, number) for number in range(1, 61))


def main():
    if '--help' in sys.argv:
        return print(__doc__)
    words = [word for word in sys.argv[1:] if not word.startswith('--')]
    plains = (True,) if '--plain' in sys.argv else (False, True)
    with tempfile.TemporaryDirectory() as folder:
        os.chmod(folder, 0o755)
        program = shutil.copy(os.path.abspath(words[0]), os.path.join(folder, 'program'))
        os.chmod(program, 0o755)
        runs = Runs(program, folder, plains, '--all' in sys.argv, generate.versions(sys.argv))
        for part in (runs.files, runs.devices, runs.threads, runs.address_space, runs.large):
            before, began = runs.passed + runs.failed, time.monotonic()
            part()
            print('operating: %s: %d cases in %.1f s' % (part.__name__.replace('_', ' '), runs.passed + runs.failed - before, time.monotonic() - began), flush=True)
    if runs.left:
        print('operating: %d cases are left out, which run with --all' % runs.left)
    print('operating: %d passed, %d failed' % (runs.passed, runs.failed))
    sys.exit(1 if runs.failed or not runs.passed else 0)


if __name__ == '__main__':
    main()
