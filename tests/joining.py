#!/usr/bin/env python3
"""joining.py PROGRAM: one log of several processes, by collect/recorder.py with share=(K, N), and by collect/join.py.

Processes with several threads each use a small store, which is a file with a lock. Their joined log must be serializable, without moments
and with all of them; where the clock of a process is wrong, the log must be refused as it stands, and be serializable with a --slack of as
much. Shares have no session and no identity in common. What does not fit together must be refused, with its place, and no log be written
or replaced. Last line: 'joining: N passed, M failed'."""
import fcntl, json, multiprocessing, os, random, re, subprocess, sys, tempfile, threading, time

HERE = os.path.dirname(os.path.abspath(__file__))
COLLECT = os.path.join(os.path.dirname(HERE), 'collect')
JOIN = os.path.join(COLLECT, 'join.py')
sys.path[:0] = [COLLECT, HERE]
import reference
from recorder import Recorder, clock_of_machine

PROCESSES, THREADS, TRANSACTIONS = 3, 2, 12
# How wrong a clock is, in microseconds: more than a run takes.
WRONG = 60 * 10 ** 6
DOES_NOT_FIT, AROUND = 65, 70


def transaction(path, session, dice):
    """One transaction of a store that is a file: all others wait meanwhile."""
    with session.transaction() as txn, open(path, 'r+') as file:
        time.sleep(dice.uniform(0, 0.001))
        fcntl.flock(file, fcntl.LOCK_EX)
        values = json.loads(file.read())
        for _ in range(dice.randint(1, 4)):
            key = 'k%d' % dice.randrange(5)
            txn.read(key, values.get(key))
            if dice.random() < 0.5:
                values[key] = '%d red' % txn.write(key)
        file.seek(0)
        file.truncate()
        file.write(json.dumps(values))
        file.flush()


def process(store, path, share, seed, together, words):
    """All that one process does, once all have come."""
    def client(number):
        dice = random.Random('%d %d %d' % (seed, share[0], number))
        with run.session() as session:
            for _ in range(TRANSACTIONS):
                transaction(store, session, dice)

    with Recorder(path, share=share, overwrite=True, **words) as run:
        together.wait()
        threads = [threading.Thread(target=client, args=(number,)) for number in range(THREADS)]
        for thread in threads:
            thread.start()
        for thread in threads:
            thread.join()


class Checks:
    def __init__(self, program, folder):
        self.program, self.folder, self.passed, self.failed = program, folder, 0, 0

    def expect(self, holds, name):
        self.passed, self.failed = self.passed + bool(holds), self.failed + (not holds)
        if not holds:
            print('FAILED', name)

    def path(self, name):
        return os.path.join(self.folder, name)

    def file(self, name, text):
        with open(self.path(name), 'w') as out:
            out.write(text)
        return self.path(name)

    def text(self, name):
        with open(self.path(name), 'rb') as file:
            return file.read()

    def run(self, seed, **words):
        """The logs of a run: for each process one. `clocks` has a clock for each, where that is given."""
        clocks = words.pop('clocks', [None] * PROCESSES)
        store, logs = self.file('store', '{}'), [self.path('part-%d.log' % number) for number in range(PROCESSES)]
        fork = multiprocessing.get_context('fork')
        together = fork.Barrier(PROCESSES)
        started = [fork.Process(target=process, args=(store, log, (number + 1, PROCESSES), seed, together, dict(words, clock=clock)))
                   for number, (log, clock) in enumerate(zip(logs, clocks))]
        for it in started:
            it.start()
        for it in started:
            it.join()
        self.expect(all(it.exitcode == 0 for it in started), 'run %d: a process failed' % seed)
        return logs

    def join(self, *words):
        ran = subprocess.run([sys.executable, '-B', JOIN, *words], stdin=subprocess.DEVNULL, stdout=subprocess.PIPE, stderr=subprocess.PIPE,
                             universal_newlines=True, timeout=120)
        return ran.returncode, ran.stdout, ran.stderr

    def judged(self, logs, *words):
        """The status that `check` has for the joined log."""
        out = self.path('joined.log')
        got = self.join(*logs, '-o', out, '--overwrite', *words)
        self.expect(got == (0, '', ''), 'join.py %s: %s' % (words, got))
        return subprocess.run([self.program, 'check', '--strategy', 'forced', out], stdout=subprocess.DEVNULL).returncode

    def refused(self, what, words, said, status=DOES_NOT_FIT):
        out = self.path('refused.log')
        got = self.join(*words, '-o', out)
        self.expect(got[:2] == (status, '') and re.search(said, got[2]), '%s: %s' % (what, got))
        self.expect(not os.path.exists(out) and not [it for it in os.listdir(self.folder) if it.startswith('tmp')], what + ': a file is left')


def runs(checks):
    """Sound runs are serializable, with true moments and with none; where clocks are wrong, with as much slack."""
    for seed in range(4):
        for words in ({'moments': 'all'}, {'moments': None}, {'moments': 'all', 'clocks': [clock_of_machine] * PROCESSES}):
            logs = checks.run(seed, **words)
            checks.expect(checks.judged(logs) == 0, 'run %d with %s is refused' % (seed, words))
            parts = [reference.read_log(checks.text(log)) for log in logs]
            whole = reference.read_log(checks.text('joined.log'))
            checks.expect(whole == sum(parts, []), 'run %d: the joined log is not its parts' % seed)
            checks.expect(all(number % PROCESSES == (place + 1) % PROCESSES for place, it in enumerate(parts) for number, _ in it),
                          'run %d: a session of another share' % seed)
        apart = [lambda: clock_of_machine() + 2 * WRONG, lambda: clock_of_machine() + WRONG, clock_of_machine]
        logs = checks.run(seed, moments='all', clocks=apart)
        out = checks.path('joined.log')
        got = checks.join(*logs, '-o', out, '--overwrite')
        checks.expect(got[0] == 0 and 'had both one clock?' in got[2], 'run %d: clocks that are far from each other: %s' % (seed, got))
        status = subprocess.run([checks.program, 'check', '--strategy', 'forced', out], stdout=subprocess.DEVNULL).returncode
        checks.expect(status == 1, 'run %d: wrong clocks are not seen: %d' % (seed, status))
        checks.expect(checks.judged(logs, '--slack', str(WRONG)) == 0, 'run %d: --slack does not help' % seed)


def shares(checks):
    """Processes have no session and no identity in common, and one alone has those that it always had."""
    def numbers(name, share):
        run = Recorder(checks.path(name), share=share)
        sessions = [run.session() for _ in range(3)]
        found = set()
        for _ in range(3):
            for session in sessions:
                txn = session.transaction(label=name)
                found.add(txn.write('x'))
                txn.commit()
        run.close()
        return {it.number for it in sessions}, found

    found = [numbers('share-%d.log' % share, (share, 4)) for share in range(1, 5)]
    checks.expect(set.union(*(it for it, _ in found)) == set(range(1, 13)), 'sessions of four: %s' % found)
    checks.expect(len(set.union(*(it for _, it in found))) == 4 * 9, 'identities of four: %s' % found)
    whole = ({1, 2, 3}, {count * 1000 + client for count in (1, 2, 3) for client in (1, 2, 3)})
    checks.expect(numbers('one.log', (1, 1)) == numbers('alone.log', None) == whole, 'one process')
    out, logs = checks.path('labelled.log'), [checks.path('share-%d.log' % share) for share in range(1, 5)]
    got = checks.join(*logs, '-o', out)
    labels = b''.join(checks.text(log + '.labels') for log in logs)
    checks.expect(got[0] == 0 and checks.text(out + '.labels') == labels and labels.count(b'.log\n') == 36, 'labels: %s' % (got,))
    got = checks.join(checks.file('bare.log', 'log 3\nsession 1\nbegin\ncommit\n'), '-o', out, '--overwrite')
    checks.expect(got[0] == 0 and not os.path.exists(out + '.labels'), 'labels of another log: %s' % (got,))


def slack(checks):
    log = checks.file('moments.log', 'log 3\nsession 1\nbegin 5\nr x 0\ncommit 20\nbegin\nunknown\nsession 2\nbegin 30\nw x 1\ncommit 18446744073709551610\n')
    out = checks.path('slack.log')
    got = checks.join(log, '-o', out, '--slack', '10')
    wanted = b'log 3\nsession 1\nbegin 0\nr x 0\ncommit 30\nbegin\nunknown\nsession 2\nbegin 20\nw x 1\ncommit 18446744073709551615\n'
    checks.expect(got == (0, '', '') and checks.text('slack.log') == wanted, 'slack: %s' % checks.text('slack.log'))
    got = checks.join(log, '-o', out)
    checks.expect(got[0] == AROUND and 'is there already' in got[2] and checks.text('slack.log') == wanted, 'a log that is there: %s' % (got,))
    for words in ([log], [log, '-o', out, '--slack', '-1'], [log, '-o', out, '--slack', '0.5'], ['-o', out]):
        checks.expect(checks.join(*words)[0] == 2, 'usage: %s' % words)
    got = checks.join('--help')
    checks.expect(got[0] == 0 and '--slack MICROSECONDS' in got[1] and 'Statuses:' in got[1], '--help: %s' % (got,))


def misfits(checks):
    """What does not fit together, with its place."""
    first = checks.file('first.log', 'log 3\nsession 1\nbegin\nw x 1\ncommit\n')
    for name, text, said in (
        ('same session', 'log 3\nsession 2\nbegin\ncommit\nsession 1\nbegin\ncommit\n', r'second.log:5: the session 1 stands in .*first.log:2 already'),
        ('same identity', 'log 3\nsession 2\nbegin\nw x 2\nw y 1\ncommit\n', r'second.log:5: the identity 1 stands in .*first.log:4 already'),
        ('other version', 'log 2\nsession 2\nbegin\ncommit\n', r'first.log is of log 3, and .*second.log of log 2'),
        ('version 1', 'session 2\nbegin\ncommit\n', r'first.log is of log 3, and .*second.log of version 1'),
        ('no end', 'log 3\nsession 2\nbegin\nw x 2\n', r'second.log: the log is not complete, its last transaction has no end'),
        ('no end of a line', 'log 3\nsession 2\nbegin\ncommi', r'second.log:4: the log is not complete, this line has no end'),
        ('no log', '{:index 1}\n', r'second.log:1: a log begins with'), ('empty', '', r'second.log: it is empty'),
    ):
        checks.refused(name, [first, checks.file('second.log', text)], said)
    checks.refused('named twice', [first, first], r'first.log:2: the session 1 stands in .*first.log:2 already')
    checks.refused('not there', [first, checks.path('nowhere')], 'No such file', AROUND)
    for text, doubt in (('log 3\nsession 2\nbegin\nr x 1\ncommit\n', ''), ('log 3\nsession 2\nbegin\nr x 7\ncommit\n', 'second.log:4 reads identity 7')):
        got = checks.join(first, checks.file('second.log', text), '-o', checks.path('doubts.log'), '--overwrite')
        checks.expect(got[0] == 0 and bool(got[2]) == bool(doubt) and doubt in got[2], 'a doubt: %s' % (got,))


def main():
    if len(sys.argv) != 2 or sys.argv[1].startswith('-'):
        print(__doc__)
        return 0 if '--help' in sys.argv else 2
    with tempfile.TemporaryDirectory() as folder:
        checks = Checks(os.path.abspath(sys.argv[1]), folder)
        for part in (shares, slack, misfits, runs):
            part(checks)
    print('joining: %d passed, %d failed' % (checks.passed, checks.failed))
    return 1 if checks.failed else 0


if __name__ == '__main__':
    sys.exit(main())
