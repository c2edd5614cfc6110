#!/usr/bin/env python3
"""quickstart.py PROGRAM: examples/quickstart.sh, with SQLite and with PostgreSQL, and its page in a real browser.

Each run must leave a log that is refused, a small one that is too, and a page that shows in the browser what `audit --explain` says of the log,
as tests/picture.py has it; no process and no temporary folder may be left. A folder that is not empty stays as it is. PostgreSQL is passed
over where it is not installed, and the browser where it cannot be had, with a line that says so. Last line: 'quickstart: N passed, M failed'."""
import importlib.util, os, shutil, subprocess, sys, tempfile

HERE = os.path.dirname(os.path.abspath(__file__))
SCRIPT = os.path.join(os.path.dirname(HERE), 'examples', 'quickstart.sh')
LEFT = ['run.log', 'small.log', 'small.log.map', 'why.html', 'why.txt']
AROUND, LATE = 70, 300
# the test of pages, which has the name of what it tests
spec = importlib.util.spec_from_file_location('test_of_pictures', os.path.join(HERE, 'picture.py'))
pictures = importlib.util.module_from_spec(spec)
spec.loader.exec_module(pictures)


def content(path):
    with open(path, encoding='utf-8') as file:
        return file.read()


def processes(word):
    """The processes of which a word of the command holds this."""
    found = []
    for pid in filter(str.isdigit, os.listdir('/proc')):
        try:
            with open('/proc/%s/cmdline' % pid, 'rb') as file:
                found += [pid] * (word.encode() in file.read())
        except OSError:
            pass
    return found


class Checks:
    def __init__(self, program, folder):
        self.program, self.folder, self.passed, self.failed = program, folder, 0, 0
        self.browser = pictures.browser()
        if not self.browser:
            print('quickstart: note: no page is looked at in a browser, since Chromium cannot be had here')

    def expect(self, holds, what):
        self.passed, self.failed = self.passed + bool(holds), self.failed + (not holds)
        if not holds:
            print('FAILED', what)

    def call(self, *words):
        ran = subprocess.run([SCRIPT, '--program', self.program, *words], cwd=self.folder, stdin=subprocess.DEVNULL, stdout=subprocess.PIPE,
                             stderr=subprocess.PIPE, universal_newlines=True, timeout=LATE)
        return ran.returncode, ran.stdout, ran.stderr

    def judged(self, *words):
        ran = subprocess.run([self.program, *words], stdout=subprocess.PIPE, stderr=subprocess.PIPE, universal_newlines=True, timeout=LATE)
        return ran.returncode, ran.stdout

    def quickstart(self, store):
        """One store from its start to its page."""
        out, before = os.path.join(self.folder, 'a new', store), set(os.listdir('/tmp'))
        got = self.call('--store', store, out)
        if got[0] == AROUND and ('not installed' in got[2] or 'no Python here' in got[2]):
            print('quickstart: note: %s is passed over: %s' % (store, got[2].strip()))
            return
        self.expect(got[0] == 0 and 'the page is' in got[1], '%s: %s' % (store, got))
        self.expect(sorted(os.listdir(out)) == LEFT, '%s: it leaves %s' % (store, os.listdir(out)))
        left = [name for name in set(os.listdir('/tmp')) - before if name.startswith('qs.')]
        self.expect(not left and not processes('/tmp/qs.'), '%s: a store is left: %s' % (store, left))
        run, small = os.path.join(out, 'run.log'), os.path.join(out, 'small.log')
        self.expect(self.judged('audit', '--quiet', run) == (1, 'not serializable\n'), store + ': the log is not refused')
        promised = self.judged('audit', '--quiet', '--level', 'monotonic-atomic-view', run)[0]
        self.expect(store == 'sqlite' or promised == 0 and 'did nothing wrong' in got[1], '%s: what it promises: %d %s' % (store, promised, got[1]))
        self.expect(content(os.path.join(out, 'why.txt')).startswith('not serializable\n'), store + ': why.txt')
        status, said = self.judged('check', small)
        self.expect(status == 1 and content(small).count('\nbegin') <= 20, '%s: the small log: %d %s' % (store, status, said[:100]))
        page = content(os.path.join(out, 'why.html'))
        (faults, stands), = self.shown(page)
        fault = pictures.fault(pictures.Tags(stands), content(run), pictures.explained_by_audit(self.program, run))
        self.expect(not faults and not fault, '%s: the page: %s %s' % (store, faults, fault))

    def shown(self, page):
        """What is wrong with the page in a browser, and how it stands there."""
        if not self.browser:
            return [([], page)]
        seen, console = pictures.loaded(self.browser, self.folder, [page])
        self.expect(not console, 'the console has %s' % console)
        return seen

    def words(self):
        full = os.path.join(self.folder, 'full')
        os.mkdir(full)
        open(os.path.join(full, 'mine'), 'w').close()
        for words, status, said in (([full], AROUND, 'not empty'), (['--store', 'x', 'none'], 2, 'sqlite or postgresql'), (['--store'], 2, 'takes'),
                                    (['--what'], 2, '--what'), (['one', 'two'], 2, 'one folder'), (['--program', shutil.which('true'), 'none'], AROUND, 'no run showed a fault')):
            got = self.call(*words)
            self.expect(got[0] == status and said in got[2], '%s: %s' % (words, got))
        self.expect(os.listdir(full) == ['mine'], 'a full folder')
        got = self.call('--help')
        self.expect(got[0] == 0 and '--store sqlite|postgresql' in got[1], '--help: %s' % (got,))


def main():
    if len(sys.argv) != 2 or sys.argv[1].startswith('-'):
        print(__doc__)
        return 0 if '--help' in sys.argv else 2
    with tempfile.TemporaryDirectory() as folder:
        checks = Checks(os.path.abspath(sys.argv[1]), folder)
        for store in ('sqlite', 'postgresql'):
            checks.quickstart(store)
        checks.words()
    print('quickstart: %d passed, %d failed' % (checks.passed, checks.failed))
    return 1 if checks.failed else 0


if __name__ == '__main__':
    sys.exit(main())
