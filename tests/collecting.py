#!/usr/bin/env python3
"""collecting.py PROGRAM: logs that collect/sqlite.py collects from real SQLite databases, as docs/COLLECTING.md says.

Logs of the sound store, without moments and with all of them, must be serializable where `check` can tell, also where the outcome of each
session's last committed transaction is said to be unknown, and `verify` must accept the order; of the logs of the store that is broken on
purpose one at least must be refused. `audit` must say so too, also without moments; and tools/follow.py of runs in rounds. A connection
that was cut is used no more. Where this Python has no sqlite3 nothing is run, and a line says so. Last line: 'collecting: N passed, M failed'."""
import argparse, os, re, subprocess, sys, tempfile

TOP = os.path.dirname(os.path.dirname(os.path.abspath(__file__)))
COLLECTOR, RUNS = os.path.join(TOP, 'collect', 'sqlite.py'), 3
AUDITS = [], ['--no-moments']
SIZE, WEAK = ['--transactions', '320', '--keys', '10', '--pause', '2'], ['--level', 'weak']


def unlearnt(log):
    """The same log, where no client learnt how the last of its transactions that were committed ended, and went on."""
    header, *sessions = log.split(b'session ')
    cut = [re.sub(rb'(.*)commit.*', rb'\1unknown\n', text, flags=re.DOTALL) for text in sessions]
    return header + b''.join(b'session ' + text for text in cut)


class Checks:
    def __init__(self, program, folder):
        self.program, self.order = program, os.path.join(folder, 'order')
        self.passed, self.failed = 0, 0

    def call(self, log, *words):
        ran = subprocess.run([self.program, *words], input=log, stdout=subprocess.PIPE, stderr=subprocess.PIPE, timeout=600)
        return ran.returncode, ran.stdout

    def expect(self, holds, name):
        self.passed, self.failed = self.passed + bool(holds), self.failed + (not holds)
        if not holds:
            print('FAILED', name)

    def audited(self, name, log, right):
        """What `audit` says must be this, or that it cannot tell."""
        for words in AUDITS:
            status, said = self.call(log, 'audit', *words)
            verdict = said.partition(b'\n')[0]
            holds = status == 3 and verdict.startswith(b'unknown: ') or (status, verdict) == right
            self.expect(holds, '%s: %s: %d %r' % (name, ' '.join(['audit', *words]), status, said[:80]))

    def sound(self, name, log):
        self.audited(name, log, (0, b'serializable'))
        status, said = self.call(log, 'check', '--strategy', 'forced')
        if status == 3:
            return  # the budget is spent: nothing is said of the log
        self.expect(status == 0 and said.startswith(b'serializable\n'), '%s: %d %r' % (name, status, said[:80]))
        with open(self.order, 'wb') as out:
            out.write(said.partition(b'\n')[2])
        self.expect(self.call(log, 'verify', '--order', self.order) == (0, b'accepted\n'), '%s: its order' % name)


def misfits(checks, folder):
    """Where a run cannot begin, one line says why, and no log is left."""
    path, text = os.path.join(folder, 'nothing.log'), os.path.join(folder, 'text')
    with open(text, 'w') as out:
        out.write('no database\n' * 99)
    for words, status, told in (
        (['redis.py', os.path.join(folder, 'nowhere'), path], 70, rb'redis\.py: the store cannot be used: .*No such file.*\n'),
        (['etcd.py', '127.0.0.1:x', path], 70, rb'etcd\.py: the store cannot be used: .*port.*\n'),
        (['etcd.py', 'nowhere.invalid:2379', path], 70, rb'etcd\.py: the store cannot be used: .*\n'),
        (['sqlite.py', os.path.join(folder, 'nowhere', 'log')], 2, rb'usage: (.*\n)*sqlite\.py: error: .*there is no such folder\n'),
        (['sqlite.py', '--database', os.path.join(folder, 'nowhere', 'db'), path], 70, rb'sqlite\.py: the store cannot be used: .*unable to open.*\n'),
        (['sqlite.py', '--database', text, path], 70, rb'sqlite\.py: the store cannot be used: .*not a database\n'),
    ):
        ran = subprocess.run([sys.executable, os.path.join(TOP, 'collect', words[0]), *words[1:]], stdout=subprocess.PIPE, stderr=subprocess.PIPE, timeout=600)
        checks.expect(ran.returncode == status and re.fullmatch(told, ran.stderr) and not os.path.exists(path), '%s: %s' % (words, ran))


def in_rounds(checks, folder):
    """Rounds of the sound store are kept, and of the weak one some is not."""
    run = os.path.join(folder, 'run')
    for level, wanted in (('serializable', 0), ('weak', 1)):
        subprocess.run([sys.executable, COLLECTOR, '--overwrite', *SIZE, '--rounds', '80', '--level', level, run], check=True, timeout=600)
        words = [sys.executable, os.path.join(TOP, 'tools', 'follow.py'), run, '--level', 'serializable', '--program', checks.program]
        ran = subprocess.run(words, stdout=subprocess.PIPE, stderr=subprocess.PIPE, timeout=600)
        checks.expect(ran.returncode == wanted and (wanted or ran.stdout.count(b'\n') >= 4), 'rounds of %s: %s' % (level, ran))


def left_when_cut(checks, folder):
    """A connection that was cut is used no more, also where its commit is answered."""
    sys.path.insert(0, os.path.dirname(COLLECTOR))
    import clients, recorder

    class Answering(clients.Store):
        made = 0

        def __init__(self, arguments):
            Answering.made += 1

        def read(self, key):
            return None

        def commit(self):
            return True

        def cut(self, way):
            pass

    arguments = argparse.Namespace(seed=1, pause=0)
    with recorder.Recorder(os.path.join(folder, 'cut')) as run:
        client = clients.Client(run, Answering, arguments, 0)
        with client.session:
            for cut_at, made in ((None, 1), ('commit', 2), (0, 3), (None, 3)):
                client.transaction([('read', 'x')], cut_at=cut_at)
                checks.expect(Answering.made == made, '%d connections behind a cut at %r, wanted %d' % (Answering.made, cut_at, made))


def main():
    if '--help' in sys.argv:
        return print(__doc__)
    try:
        import sqlite3
    except ImportError:
        print('collecting: skipped, this Python has no sqlite3')
        return 0
    with tempfile.TemporaryDirectory() as folder:
        checks, path, refused = Checks(os.path.abspath(sys.argv[1]), folder), os.path.join(folder, 'log'), 0
        for run in range(RUNS):
            for words in ([], ['--moments', 'all'], WEAK):
                subprocess.run([sys.executable, COLLECTOR, '--overwrite', *SIZE, *words, path], check=True, timeout=600)
                with open(path, 'rb') as file:
                    log = file.read()
                if words == WEAK:
                    is_refused = is_refusal(checks.call(log, 'check'))
                    refused += is_refused
                    if is_refused:
                        checks.audited('log %d of the weak store' % run, log, (1, b'not serializable'))
                else:
                    name = ' '.join(['log %d' % run, *words])
                    checks.sound(name, log)
                    checks.sound(name + ' with unknown outcomes', unlearnt(log))
        again = subprocess.run([sys.executable, COLLECTOR, *SIZE, path], stdout=subprocess.PIPE, stderr=subprocess.PIPE, timeout=600)
        with open(path, 'rb') as file:
            checks.expect(again.returncode == 2 and b'--overwrite' in again.stderr and file.read() == log, 'a log that is there is replaced')
        misfits(checks, folder)
        in_rounds(checks, folder)
        left_when_cut(checks, folder)
        checks.expect(refused > 0, 'no log of the weak store was refused')
        print('collecting: SQLite %s, %d of %d logs of the weak store were refused' % (sqlite3.sqlite_version, refused, RUNS))
    print('collecting: %d passed, %d failed' % (checks.passed, checks.failed))
    return 1 if checks.failed else 0


def is_refusal(answer):
    return answer[0] == 1 and answer[1].startswith(b'not serializable')


if __name__ == '__main__':
    sys.exit(main())
