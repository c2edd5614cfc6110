#!/usr/bin/env python3
"""mending.py PROGRAM [--kills N] [--cuts N] [--collector 'NAME WORDS'] [--seed N]: what tools/mend.py and collect/join.py --died make of logs
that are not complete.

Logs by hand, and what is said of them. Logs of a sound store in memory, of which each client's part is cut at a random byte: mended they are
kept at each level, and so are those of several processes of which some died, joined. Then collect/sqlite.py is killed by SIGKILL at random
moments, with rounds and without, with --durable and without: what it left, mended, is serializable, and with --durable nobody read what is
not there; some logs of its broken store are still refused. --collector kills another one, as 'redis.py 127.0.0.1:6379'. Last line:
'mending: N passed, M failed'."""
import argparse, glob, importlib.util, os, random, re, shlex, shutil, signal, subprocess, sys, tempfile, time

HERE = os.path.dirname(os.path.abspath(__file__))
TOP = os.path.dirname(HERE)
COLLECT, MEND, JOIN = os.path.join(TOP, 'collect'), os.path.join(TOP, 'tools', 'mend.py'), os.path.join(TOP, 'collect', 'join.py')
sys.path[:0] = [COLLECT, HERE]
import join

spec = importlib.util.spec_from_file_location('stores_of_recorder', os.path.join(HERE, 'recorder.py'))
stores = importlib.util.module_from_spec(spec)
spec.loader.exec_module(stores)

# Runs a collector of which few lines stand in memory.
SMALL = '''
import os, runpy, sys
sys.argv = sys.argv[1:]
sys.path.insert(0, os.path.dirname(sys.argv[0]))
import recorder
recorder.BUFFER = 40
runpy.run_path(sys.argv[0], run_name='__main__')
'''
# A log that is not complete, the mended one, and what is said.
BY_HAND = [
    ('complete', 'log 3\nsession 1\nbegin\nw x 1\ncommit\n', 'log 3\nsession 1\nbegin\nw x 1\ncommit\n', 'nothing is seen to be missing'),
    ('no end of a transaction', 'log 3\nsession 1\nbegin 5\nw x 1\n', 'log 3\nsession 1\nbegin 5\nw x 1\nunknown\n', 'unknown now: 1: 1.1'),
    ('no end of a line', 'log 3\nsession 1\nbegin\nw x 1\nw y 2', 'log 3\nsession 1\nbegin\nw x 1\nunknown\n', 'left out: 1'),
    ('no end of a commit', 'log 3\nsession 1\nbegin 3\nw x 1\ncommit 4', 'log 3\nsession 1\nbegin 3\nw x 1\nunknown\n', 'unknown now: 1: 1.1'),
    ('version 1', 'session 1\nbegin\nw x 1\n', 'log 2\nsession 1\nbegin\nw x 1\nunknown\n', 'unknown now: 1: 1.1'),
    ('two clients', 'log 3\nsession 2\nbegin\nw x 1\nsession 1\nbegin\nr x 1\ncommit\nbegin\n',
     'log 3\nsession 2\nbegin\nw x 1\nunknown\nsession 1\nbegin\nr x 1\ncommit\nbegin\nunknown\n', 'unknown now: 2: 2.1, 1.2'),
    ('put together', 'log 3\nsession 2\nbegin\nw x 1\ncommsession 1\nbegin\nr x 1\ncommit\n',
     'log 3\nsession 2\nbegin\nw x 1\nunknown\nsession 1\nbegin\nr x 1\ncommit\n', 'left out: 1'),
    ('nobody wrote', 'log 3\nsession 1\nbegin\nr x 7\nr y 9\nr y 9\ncommit\nsession 3\nbegin\nw z 9\ncommit\n',
     'log 3\nsession 1\nbegin\nr x 7\nr y 9\nr y 9\ncommit\nsession 3\nbegin\nw z 9\ncommit\nsession 2\nbegin\nw x 7\nunknown\n', 'given to unknown transactions: 1: x 7'),
    ('rubbish behind the end', 'log 3\nsession 1\nbegin\nw x 1\ncommit\n 2\nbegin\nr x 1\ncommit\n', 'log 3\nsession 1\nbegin\nw x 1\ncommit\n', 'left out: 4'),
]


class Checks:
    def __init__(self, program, folder):
        self.program, self.folder, self.passed, self.failed = program, folder, 0, 0

    def path(self, name):
        return os.path.join(self.folder, name)

    def expect(self, holds, name):
        self.passed, self.failed = self.passed + bool(holds), self.failed + (not holds)
        if not holds:
            print('FAILED', name, flush=True)

    def call(self, *words):
        ran = subprocess.run(words, stdin=subprocess.DEVNULL, stdout=subprocess.PIPE, stderr=subprocess.PIPE, universal_newlines=True, timeout=600)
        return ran.returncode, ran.stdout, ran.stderr

    def mend(self, log):
        """What mend.py says, and the path of what it made."""
        out = self.path('mended')
        return self.call(sys.executable, MEND, log, '-o', out, '--overwrite'), out

    def audit(self, path, *words):
        return self.call(self.program, 'audit', '--quiet', '--workers', '1', *words, path)


def by_hand(checks):
    for name, log, wanted, said in BY_HAND:
        path = checks.path('hand.log')
        with open(path, 'w') as out:
            out.write(log)
        (status, told, error), out = checks.mend(path)
        checks.expect(status == 0 and said in told and open(out).read() == wanted, '%s: %d %s%s%s' % (name, status, told, error, open(out).read()))
        checks.expect(checks.audit(out)[0] in (0, 1, 3), '%s: it is a log' % name)
    status, told, error = checks.call(sys.executable, MEND, path)
    checks.expect(status == 0 and os.path.exists(checks.path('hand.mended.log')), 'its own name: %d %s' % (status, error))
    status, told, error = checks.call(sys.executable, MEND, path)
    checks.expect(status == 70 and 'is there already' in error, 'a mended log that is there: %d %s' % (status, error))
    for log, words in (('', 'no log'), ('log 3\nsession 1\nbegin\nw x 1\ncommit\nsession 1\n', 'stands in'), ('rubbish\n', 'begins with')):
        with open(path, 'w') as out:
            out.write(log)
        (status, told, error), _ = checks.mend(path)
        checks.expect(status == 65 and words in error, '%r: %d %s' % (log, status, error))
    os.makedirs(checks.path('nothing'))
    (status, told, error), _ = checks.mend(checks.path('nothing'))
    checks.expect(status == 65 and 'nothing had been written yet' in error, 'an empty folder: %d %s' % (status, error))
    # the name that docs/COLLECTING.md has
    left = checks.path('run.log.x8k2f1ab')
    os.makedirs(left)
    with open(os.path.join(left, '1'), 'w') as out:
        out.write('session 1\nbegin\nw x 1001\n')
    status, told, error = checks.call(sys.executable, MEND, left)
    checks.expect(status == 0 and told.startswith(left + '.mended.log: ') and os.path.exists(left + '.mended.log'), "a folder's own name: %d %s%s" % (status, told, error))
    for path in left + '.mended.log', left + '/1':
        os.remove(path)
    os.rmdir(left)


def cut(dice, text):
    """A log of which each session's lines end at a random byte."""
    head, *sessions = re.split(rb'(?m)^(?=session )', text)
    return head + b''.join(its[:dice.randint(0, len(its))] if dice.random() < 0.8 else its for its in sessions)


def died(logs, out):
    """What join.py says of logs of which some are not complete."""
    return list(join.joined(argparse.Namespace(logs=logs, out=out, slack=0, died=True, overwrite=True)))


def cuts(checks, count, seed):
    """Cut logs of a sound store are kept at each level; so are joined ones."""
    met = 0
    for n in range(count):
        dice = random.Random(seed + n)
        *_, text = stores.run_once(checks.path('made.log'), seed + n, clients=4, transactions=12, keys=['x', 'y', 'z'], moments=dice.choice(('all', None)))
        shorter = cut(dice, text)
        if not re.match(rb'log 3\n', shorter):
            continue
        with open(checks.path('cut.log'), 'wb') as out:
            out.write(shorter)
        out, joined = checks.path('mended'), checks.path('joined.log')
        told = ' '.join(died([checks.path('cut.log')], out))
        met += 'given to' in told
        checks.expect(checks.audit(out)[0] in (0, 3), 'cut %d: %s %s' % (n, told, checks.audit(out)))
        # two processes: each has every second of the sessions, and the first died
        head, *sessions = re.split(rb'(?m)^(?=session )', text)
        paths = [checks.path('%d.log' % k) for k in (1, 2)]
        for k, path in enumerate(paths):
            its = head + b''.join(sessions[k::2])
            with open(path, 'wb') as file:
                file.write(its if k else its[:dice.randint(len(head), len(its))])
        told = ' '.join(died(paths, joined))
        checks.expect(checks.audit(joined)[0] in (0, 3), 'joined %d: %s %s' % (n, told, checks.audit(joined)))
    status, told, error = checks.call(sys.executable, JOIN, '--died', '--overwrite', *paths, '-o', joined)
    checks.expect(status == 0 and error, 'joined: %d %s' % (status, error))
    checks.expect(met > count / 20, 'only %d of %d cut logs had a read without a write' % (met, count))


def killed(checks, dice, words, longest):
    """What a collector left that was killed, and how much of it: the paths."""
    for path in glob.glob(checks.path('run*')):
        shutil.rmtree(path) if os.path.isdir(path) else os.remove(path)
    name, *more = words
    run = checks.path('run.log')
    collector = subprocess.Popen([sys.executable, '-c', SMALL, os.path.join(COLLECT, name), '--transactions', '100000', '--keys', '10', '--pause', '1', *more, run],
                                 stdout=subprocess.DEVNULL, stderr=subprocess.PIPE, cwd=checks.folder, env=dict(os.environ, TMPDIR=checks.folder))
    late = time.monotonic() + 30
    while not glob.glob(checks.path('run.log*')) and time.monotonic() < late and collector.poll() is None:
        time.sleep(0.01)
    time.sleep(dice.uniform(0, longest))
    collector.send_signal(signal.SIGKILL)
    error = collector.communicate()[1]
    checks.expect(collector.returncode == -signal.SIGKILL, '%s ended before it was killed: %d %s' % (words, collector.returncode, error))
    return sorted(glob.glob(checks.path('run.log/*.part')) or glob.glob(checks.path('run.log.*')))


def kills(checks, count, seed, collector, weak):
    """Killed collectors: what they left, mended."""
    met, longest = {}, 1.5
    ways = [[*form, *durable] for form in ([], ['--rounds', '60'], ['--moments', 'all']) for durable in ([], ['--durable'])]
    for n in range(count):
        dice, way = random.Random(seed + n), ways[n % len(ways)]
        if collector[0] != 'redis.py':
            way = [word for word in way if word not in ('--moments', 'all')]
        left = killed(checks, dice, [collector[0], *way, *collector[1:]], longest)
        for path in left:
            if not any(os.path.getsize(it) for it in glob.glob(os.path.join(path, '[0-9]*')) if os.path.basename(it) != '0'):
                met['empty'] = met.get('empty', 0) + 1
                continue
            (status, told, error), out = checks.mend(path)
            is_given = 'given to' in told
            met['given' if is_given else 'whole'] = met.get('given' if is_given else 'whole', 0) + 1
            name = 'kill %d, %s: %s' % (n, ' '.join(way), told)
            checks.expect(status == 0, '%s: %d %s' % (name, status, error))
            checks.expect(checks.audit(out)[0] in (0, 3), '%s: %s' % (name, checks.call(checks.program, 'audit', '--explain', out)[1]))
            # rounds read what earlier ones wrote
            checks.expect(not is_given or '--durable' not in way or '--rounds' in way, name)
        if os.path.isdir(checks.path('run.log')):
            names = [it for it in sorted(os.listdir(checks.path('run.log'))) if it.endswith('.log')]
            checks.expect(names == ['%06d.log' % it for it in range(1, len(names) + 1)], 'kill %d: the rounds before are there: %s' % (n, names))
            for it in names:
                checks.expect(checks.audit(checks.path('run.log/' + it), '--level', 'serializable')[0] == 0, 'kill %d: %s' % (n, it))
            met['rounds'] = met.get('rounds', 0) + len(names)
    refused = 0
    for n in range(weak):
        for path in killed(checks, random.Random(seed + n), ['sqlite.py', '--level', 'weak', '--durable'], 1.5):
            if any(os.path.getsize(it) for it in glob.glob(os.path.join(path, '*'))):
                _, out = checks.mend(path)
                refused += checks.audit(out)[0] == 1
    checks.expect(refused or not weak, 'no log of the broken store was refused')
    print('mending: %s: %s; %d of %d logs of a broken store refused' % (' '.join(collector), ', '.join('%s %d' % it for it in sorted(met.items())), refused, weak), flush=True)


UNKNOWN_LAST = """
import os, signal, sys
sys.path.insert(0, %r)
from recorder import Recorder
class Lost(Exception): pass
store = {}
def transact(reads, writes):
    seen = [store.get(key) for key in reads]
    store.update(writes)
    return seen
def lost():
    raise Lost
session = Recorder(sys.argv[1], rounds=1000, transact=transact, unknown=(Lost,), durable=True).session()
with session.transaction(commit=lost) as txn:
    store['x'] = txn.write('x')
if sys.argv[2] != 'nothing':
    with session.transaction(commit=lambda: True) as txn:
        txn.read('x', store['x']) if sys.argv[2] == 'read' else store.update(y=txn.write('y'))
os.kill(os.getpid(), signal.SIGKILL)
"""


def unknown_last(checks):
    """A durable run in rounds is killed behind a transaction of unknown outcome, which its recorder keeps apart."""
    for what in 'nothing', 'read', 'write':
        run = checks.path('unknown_%s' % what)
        subprocess.run([sys.executable, '-c', UNKNOWN_LAST % os.path.join(TOP, 'collect'), run, what], stdin=subprocess.DEVNULL)
        (status, _, error), out = checks.mend(os.path.join(run, '000001.part'))
        checks.expect(status == 0 and checks.audit(out)[0] in (0, 3), 'an unknown outcome, then %s: %d %s' % (what, status, error))


def main():
    words = argparse.ArgumentParser(description=__doc__, formatter_class=argparse.RawDescriptionHelpFormatter)
    words.add_argument('program')
    words.add_argument('--kills', type=int, default=12, help='how often a collector is killed (12)')
    words.add_argument('--cuts', type=int, default=60, help='how many logs are cut (60)')
    words.add_argument('--collector', default='sqlite.py', help='which one, and its words (sqlite.py)')
    words.add_argument('--seed', type=int, default=1)
    words = words.parse_args()
    with tempfile.TemporaryDirectory() as folder:
        checks = Checks(os.path.abspath(words.program), folder)
        by_hand(checks)
        unknown_last(checks)
        cuts(checks, words.cuts, words.seed)
        kills(checks, words.kills, words.seed, shlex.split(words.collector), 5)
    print('mending: %d passed, %d failed' % (checks.passed, checks.failed))
    return 1 if checks.failed else 0


if __name__ == '__main__':
    sys.exit(main())
