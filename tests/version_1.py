#!/usr/bin/env python3
"""version_1.py PROGRAM [--write]: what the program says of logs of version 1 keeps its bytes.

tests/version_1.txt has a digest for each command on each log of examples/, on logs that are written below, and on made and damaged ones:
the SHA-256 of status, standard output and standard error of each of the command's calls. They were made by the program of the day before
it knew version 2, and this one's must be the same. (Since more transactions are allowed, the log that has too many is another one; the digests
of what is said of it stayed. Newer logs of examples/ have those of the program of their day.) With --write they are made anew by PROGRAM,
which is right only where its answers are.
Last line: 'version_1: N passed, M failed'."""
import concurrent.futures, hashlib, os, re, subprocess, sys, tempfile

HERE = os.path.dirname(os.path.abspath(__file__))
sys.path.insert(0, HERE)
import generate, solvers

KEPT = os.path.join(HERE, 'version_1.txt')
MADE, DAMAGED, GROUP = 200, 400, 50
# `/` stands for a line feed, and S1[..] for a session with one transaction of these operations, which is committed.
WRITTEN = {
    'no reader': 'S1[w x 1] S2[w x 2]',
    'split read': 'S1[w x 1] S2[r x 0/r x 1]',
    'own write missed': 'S1[w x 1/r x 0]',
    'future read': 'S1[r x 1/w x 1]',
    'wrong key': 'S1[w x 1] S2[r y 1]',
    'aborted alone': 'session 1/begin/w x 1/abort/',
    'sessions alone': 'session 7/session 3/',
    'greatest numbers': 'S65535[w A-Z.a:0_9 18446744073709551615] S1[r A-Z.a:0_9 18446744073709551615]',
    'two keys, crossed': 'S9[r x 2/w y 1] S8[r y 1/w x 2]',
    'open': 'session 1/begin/w x 1/',
    'identity twice': 'S1[w x 1] S2[w x 1]',
    'leading zero': 'S1[w x 01]',
    'write of zero': 'S1[w x 0]',
    'outside': 'session 1/r x 0/',
    'outcome outside': 'session 1/commit/',
    'session twice': 'session 1/session 1/',
    'no line feed': 'session 1/begin/w x 1/commit',
    'number too large': 'S1[r x 18446744073709551616]',
    'session too large': 'session 65536/',
    'begin twice': 'session 1/begin/begin/commit/',
    'session in a transaction': 'session 1/begin/sessions/',
    'unknown': 'session 1/begin/unknown/',
    'unknown behind a commit': 'S1[w x 1] unknown/',
    'header without its line feed': 'log 2',
    'header with a carriage return': 'log 2\r/S1[w x 1]',
    'header with a space': 'log 2 /S1[w x 1]',
    'header behind a session': 'S1[w x 1] log 2/',
    'two sessions of one number, and one identity': 'S1[w x 1] S1[w x 1]',
    'too many transactions': 'session 1/' + 'begin/commit/' * 1001,
    'too many sessions': ''.join('session %d/' % number for number in range(1, 66)),
    'as many sessions as there may be': ' '.join('S%d[w k%d %d]' % (number, number % 5, number) for number in range(1, 65)),
}
MODELS = (b's SATISFIABLE\nv 1 -2 3 0\n', b's UNSATISFIABLE\n', b'c none\ns UNKNOWN\nv 1 0\n', b's SATISFIABLE\nv 1 -1 0\n', b'v 0\n')
ORDERS = (b'1 1\n3 1\n2 1\n', b'1 1\n1 1\n', b'1 01\n', b'9 9\n')
CHECKS = [('--strategy', name) for name in ('first', 'most', 'least', 'forced')] + [('--strategy', 'first', '--budget', '1')]


def written(words):
    """The text that WRITTEN has words for."""
    return re.sub(r'S(\d+)\[(.*?)\] ?', r'session \1/begin/\2/commit/', words).replace('/', '\n').encode()


def places(log):
    """A line of an order for each transaction of a log, also of a damaged one."""
    for session in log.split(b'session ')[1:]:
        for place in range(1, session.count(b'begin') + 1):
            yield b'%s %d\n' % (session.split(b'\n')[0], place)


def groups():
    """The name of each group of logs, and their texts."""
    for name, text in generate.examples((1,)):
        yield name, [text]
    for name, words in WRITTEN.items():
        yield name, [written(words)]
    for first in range(0, MADE, GROUP):
        yield 'made logs from %d' % first, [generate.small_log(seed) for seed in range(first, first + GROUP)]
    for first in range(0, DAMAGED, GROUP):
        yield 'damaged logs from %d' % first, [generate.damaged(seed) for seed in range(first, first + GROUP)]


class Calls:
    """The calls of each command on a log, in a folder that is theirs."""

    def __init__(self, program, folder):
        self.program, self.folder = program, folder

    def call(self, log, *words):
        ran = subprocess.run([self.program, *words], input=log, stdout=subprocess.PIPE, stderr=subprocess.PIPE, timeout=120)
        return ran.returncode, ran.stdout, ran.stderr

    def call_with(self, log, data, *words):
        path = os.path.join(self.folder, 'text')
        with open(path, 'wb') as out:
            out.write(data)
        return self.call(log, *words, path)

    def encode(self, log):
        return [self.call(log, 'encode', *more) for more in ([], ['--plain'])]

    def stats(self, log):
        return [self.call(log, 'stats', *more) for more in ([], ['--plain'])]

    def check(self, log):
        return [self.call(log, 'check', '--workers', '1', *more) for more in CHECKS]

    def decode(self, log):
        """With models that are the same for each log, and with one of its own formula where that is small."""
        said = [self.call_with(log, model, 'decode', '--model') for model in MODELS]
        for more in ([], ['--plain']):
            status, formula, _ = self.call(log, 'encode', *more)
            if status == 0 and len(formula) < 10000:
                said.append(self.call_with(log, solvers.own_answer(formula), 'decode', *more, '--model'))
        return said

    def verify(self, log):
        """With orders that are the same for each log, with all transactions as the log has them, and with the order that `check` finds,
        forwards and backwards."""
        found = self.call(log, 'check', '--workers', '1')[1].splitlines(True)[1:]
        orders = [*ORDERS, b''.join(places(log)), b''.join(found), b''.join(found[::-1])]
        return [self.call_with(log, order, 'verify', '--order') for order in orders]


def digest(answers):
    whole = hashlib.sha256()
    for status, out, error in answers:
        whole.update(b'%d %d %d\n' % (status, len(out), len(error)) + out + error)
    return whole.hexdigest()


def digests(program, group):
    """What each command says of the logs of a group, and the logs themselves."""
    name, logs = group
    with tempfile.TemporaryDirectory() as folder:
        calls = Calls(program, folder)
        found = {'%s: the logs' % name: digest([(0, log, b'') for log in logs])}
        for command in (calls.encode, calls.stats, calls.check, calls.decode, calls.verify):
            found['%s: %s' % (name, command.__name__)] = digest([answer for log in logs for answer in command(log)])
    return found


def main():
    if '--help' in sys.argv:
        return print(__doc__)
    program, found = os.path.abspath(sys.argv[1]), {}
    with concurrent.futures.ThreadPoolExecutor() as pool:
        for some in pool.map(lambda group: digests(program, group), groups()):
            found.update(some)
    if '--write' in sys.argv:
        with open(KEPT, 'w') as out:
            out.writelines('%s  %s\n' % (value, what) for what, value in found.items())
    with open(KEPT) as file:
        kept = dict(reversed(line.rstrip('\n').split('  ', 1)) for line in file)
    failed = [what for what in {**kept, **found} if kept.get(what) != found.get(what)]
    for what in failed:
        why = 'other bytes' if what in kept and what in found else 'is not in tests/version_1.txt' if what in found else 'is not made any more'
        print('FAILED %s: %s' % (what, why))
    print('version_1: %d passed, %d failed' % (len(found) - len(failed), len(failed)))
    sys.exit(1 if failed else 0)


if __name__ == '__main__':
    main()
