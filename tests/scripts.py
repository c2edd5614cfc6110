#!/usr/bin/env python3
"""scripts.py PROGRAM: the scripts around the program, and what `--version` and the manual page tell.

In a copy of the repository PROGRAM stands as what was proved there. ./run, ./solve, ./prove, ./install, ./check and ./package are called from elsewhere,
by a symbolic link to a link to them, and as single files; ./solve is ended by signals, while it reads, and while a solver runs that starts
a process of its own; ./install is asked for what stands and for what does not; stamps are written, and refused; docs/cobra_poly.1 must be what
tools/manual.py makes of `--help`; tools/proof_times.txt must have each crate that the program stands on; and each script in Python that is
called by its name says by `--help` what it is for. Last line: 'scripts: N passed, M failed'."""
import glob, os, re, shutil, signal, subprocess, sys, tarfile, tempfile, time

HERE = os.path.dirname(os.path.abspath(__file__))
TOP = os.path.dirname(HERE)
sys.path.insert(0, os.path.join(TOP, 'tools'))
import manual, prove_program

AROUND, LATE = 70, 120
SCRIPTS = ('run', 'solve', 'prove', 'install', 'check', 'package')
UNSTAMPED = b'(commit unknown, not stamped)'
# A solver that starts a process of its own, names both in a file, and ends by a signal alone.
ENDLESS = '''#!/bin/sh
sleep 600 &
echo $$ $! > '%s'
wait
'''


class Copy:
    """A copy of the repository in which a program stands as the one that was proved."""

    def __init__(self, program, folder):
        self.folder, self.top = folder, os.path.join(folder, 'cobra poly')
        self.passed = self.failed = 0
        shutil.copytree(TOP, self.top, symlinks=True, ignore=shutil.ignore_patterns('out', '__pycache__'))
        built = os.path.join(self.top, 'crates', 'cobra_poly', 'out')
        os.makedirs(built)
        shutil.copy(program, os.path.join(built, 'cobra_poly'))
        self.sum = self.shell('sum_of_sources')
        self.shell('keep_proved %s' % self.sum)
        self.proved = os.path.join(self.top, 'out', 'proved', self.sum, 'cobra_poly')
        self.log = os.path.join(self.top, 'examples', 'chain.log')

    def shell(self, command):
        """What a function of .ci/sources.sh writes."""
        words = ['bash', '-euc', 'top=$1; . "$top/.ci/sources.sh"; ' + command, 'scripts.py', self.top]
        return subprocess.run(words, stdin=subprocess.DEVNULL, stdout=subprocess.PIPE, check=True).stdout.decode().strip()

    def linked(self, name):
        """A link to a link to a script."""
        far, near = os.path.join(self.folder, name + ' far'), os.path.join(self.folder, name + ' near')
        if not os.path.islink(near):
            os.symlink(os.path.join('cobra poly', name), far)
            os.symlink(far, near)
        return near

    def call(self, name, *words, **means):
        """How a script ends that is called by a link, from another folder: its status, and what it wrote."""
        means.setdefault('stdin', subprocess.DEVNULL)
        ran = subprocess.run([self.linked(name), *words], cwd='/', stdout=subprocess.PIPE, stderr=subprocess.PIPE, timeout=LATE, **means)
        return ran.returncode, ran.stdout.decode(), ran.stderr.decode()

    def expect(self, what, holds, told=''):
        self.passed, self.failed = self.passed + bool(holds), self.failed + (not holds)
        if not holds:
            print('FAILED %s: %s' % (what, told), flush=True)

    def refused(self, name, part, *words):
        """A script ends as where something is wrong around the program, and says so."""
        got = self.call(name, *words)
        self.expect(' '.join([name, *words]), got[0] == AROUND and not got[1] and part in got[2], got)

    # ---- links

    def links(self):
        order = ''.join('1 %d\n' % place for place in range(1, 6))
        for name, words in (('run', ['check', self.log]), ('solve', [self.log, '--solver', 'cat "%s"; true' % self.file('answer', 's SATISFIABLE\n')])):
            got = self.call(name, *words)
            self.expect('%s by a link' % name, got[:2] == (0, 'serializable\n' + order), got)
        got = self.call('prove')
        self.expect('prove by a link', got[:2] == (0, '') and 'these sources are proved' in got[2], got)
        self.refused('check', './run check good.log', 'good.log')
        self.refused('prove', '--jobs', '--what')
        for name in ('solve', 'prove', 'check', 'package'):
            got = self.call(name, '--help')
            self.expect('%s --help' % name, got[0] == 0 and './' + name in got[1] and not got[2], got)
        for word, status, said in (('--help', 0, b"Graphviz's dot"), ('five_reasons', 2, b'has drawn nothing')):
            ran = subprocess.run([os.path.join(self.top, 'tools', 'pictures.sh'), word], stdout=subprocess.PIPE, stderr=subprocess.STDOUT)
            self.expect('pictures.sh %s' % word, ran.returncode == status and said in ran.stdout, ran)
        self.refused('install', 'no \'good.log\'', 'good.log')
        for name in SCRIPTS:
            alone = self.file(name, '')
            shutil.copy(os.path.join(self.top, name), alone)
            ran = subprocess.run([alone, self.log], stdin=subprocess.DEVNULL, stdout=subprocess.PIPE, stderr=subprocess.PIPE, timeout=LATE)
            self.expect('%s without its repository' % name, (ran.returncode, ran.stdout) == (AROUND, b''), ran)

    def file(self, name, text):
        path = os.path.join(self.folder, name)
        with open(path, 'w') as out:
            out.write(text)
        return path

    # ---- the words of a solver

    def solvers(self):
        """Where the files of the formula and of the proof stand among the words of a solver."""
        solver = self.file('a solver', '#!/bin/sh\nshift $(($1 - 1))\nhead -n 1 "$2" | grep -q "^p cnf" && echo s SATISFIABLE\n')
        os.chmod(solver, 0o755)
        for words in ("'%s' 1", "'%s' 1 {formula} {proof}", "'%s' 2 {proof} {formula}", "'%s' 2 {proof}", "'%s' 1 {formula} | cat", "'%s' 2 x '{formula}'"):
            got = self.call('solve', self.log, '--solver', words % solver)
            # a word in quotes is no file
            wanted = AROUND if words.endswith("'{formula}'") else 0
            self.expect('solve --solver "%s"' % words, got[0] == wanted and ('serializable\n' in got[1]) == (wanted == 0), got)
        # a name that a shell would take apart, and run
        strange = os.path.join(self.folder, "it's $(touch ran) \"x\".log")
        shutil.copy(self.log, strange)
        for words in (['solve', strange], ['solve', strange, '--solver', "'%s' 2 x {formula}" % solver], ['run', 'audit', strange]):
            got = self.call(*words)
            self.expect(' '.join(words), got[0] == 0 and got[1].startswith('serializable\n') and not os.path.exists('/ran'), got)
        unproved = self.shell('echo "$(unproved_program "$(sum_of_sources)")"')
        hidden = self.proved + ' hidden'
        os.makedirs(os.path.dirname(unproved))
        shutil.copy(self.proved, unproved)
        os.rename(self.proved, hidden)
        got = self.call('run', 'check', self.log)
        self.expect('an unproved program is named once', got[0] == 0 and not got[2], got)
        os.rename(hidden, self.proved)
        shutil.rmtree(os.path.dirname(unproved))

    # ---- signals

    def signals(self):
        named = os.path.join(self.folder, 'named')
        solver = self.file('endless', ENDLESS % named)
        os.chmod(solver, 0o755)
        for number in (signal.SIGTERM, signal.SIGINT, signal.SIGHUP):
            for log in (self.log, '-'):
                self.ends(number, log, "'%s'" % solver, named)

    def ends(self, number, log, solver, named):
        """./solve is ended by a signal, and so is what it started; no temporary file is left."""
        temporary = tempfile.mkdtemp(dir=self.folder)
        words = ['bash', '-c', 'trap - INT; exec "$@"', 'scripts.py', self.linked('solve'), log, '--solver', solver]
        means = {'stdin': subprocess.PIPE, 'stdout': subprocess.DEVNULL, 'stderr': subprocess.DEVNULL}
        ran = subprocess.Popen(words, env={**os.environ, 'TMPDIR': temporary}, start_new_session=True, **means)
        began = time.monotonic()
        # At work is the solver, which has named its processes, or what reads the log.
        ready = (lambda: len(self.text(named).split()) == 2) if log != '-' else (lambda: any(files for _, _, files in os.walk(temporary)))
        while not ready() and time.monotonic() < began + LATE:
            time.sleep(0.05)
        started = [int(word) for word in self.text(named).split()]
        ran.send_signal(number)
        try:
            status = ran.wait(timeout=LATE)
        except subprocess.TimeoutExpired:
            status = 'none'
        while any(map(is_running, [*session(ran.pid), *started])) and time.monotonic() < began + LATE:
            time.sleep(0.05)
        left = [pid for pid in {*session(ran.pid), *started} if is_running(pid)]
        what = './solve %s ended by %s' % (log, signal.Signals(number).name)
        self.expect(what, status == -number and not left and not os.listdir(temporary), (status, left, os.listdir(temporary)))
        for pid in left:
            os.kill(pid, signal.SIGKILL)
        ran.stdin.close()
        if os.path.exists(named):
            os.remove(named)

    def text(self, path):
        try:
            with open(path) as file:
                return file.read()
        except OSError:
            return ''

    # ---- what is installed, and what it tells

    def version(self, program):
        return subprocess.run([program, '--version'], stdout=subprocess.PIPE, env={}, cwd='/', timeout=LATE).stdout.decode()

    def install(self):
        head = subprocess.run(['git', '-C', self.top, 'rev-parse', 'HEAD'], stdout=subprocess.PIPE).stdout.decode().strip()
        changed = subprocess.run(['git', '-C', self.top, 'status', '--porcelain', 'crates', 'crates.txt', 'HANDLES'], stdout=subprocess.PIPE).stdout
        wanted = {state: 'cobra_poly 1.0.0 (commit %s, %s)\n' % (text, state) for state, text in self.commits(head, changed).items()}
        self.expect('what was proved tells so', self.version(self.proved) == wanted['proved'], self.version(self.proved))
        prefix = os.path.join(self.folder, 'a new', 'prefix')
        program, page = os.path.join(prefix, 'bin', 'cobra_poly'), os.path.join(prefix, 'share', 'man', 'man1', 'cobra_poly.1')
        got = self.call('install', '--prefix', prefix)
        self.expect('install', got[:2] == (0, '') and self.version(program) == wanted['proved'], got)
        with open(page) as copy, open(os.path.join(self.top, 'docs', 'cobra_poly.1')) as text:
            self.expect('the manual page is installed', copy.read() == text.read())
        self.expect('who may use what', [os.stat(it).st_mode & 0o777 for it in (program, page)] == [0o755, 0o644])
        ran = subprocess.run([program, 'check', self.log], stdout=subprocess.PIPE, env={}, cwd='/', timeout=LATE)
        self.expect('the program runs elsewhere', ran.returncode == 0 and ran.stdout.startswith(b'serializable\n'), ran)
        into, kit = os.path.join(self.folder, 'packages'), subprocess.run(['rt', 'version'], stdout=subprocess.PIPE).stdout.decode().strip()
        got = self.call('package', '--into', into)
        made = sorted(os.listdir(into)) if os.path.isdir(into) else []
        self.expect('package', got[0] == 0 and made == ['SHA256SUMS', 'cobra-poly-1.0.0-linux-x86_64.tar.gz', 'cobra-poly_1.0.0_amd64.deb'], (got, made))
        with tarfile.open(os.path.join(into, made[1])) as tar:
            text = tar.extractfile('cobra-poly-1.0.0/share/cobra-poly/PROVED').read().decode()
        self.expect('PROVED', wanted['proved'] in text and 'kit that proved it: %s\n' % kit in text, text)
        # Where nothing is proved: a refusal, and what was installed stays.
        unproved = self.proved.replace(os.sep + 'proved' + os.sep, os.sep + 'unproved' + os.sep)
        os.makedirs(os.path.dirname(unproved))
        os.rename(self.proved, unproved)
        self.refused('install', './prove first', '--prefix', prefix)
        self.expect('what was installed stays', self.version(program) == wanted['proved'])
        got = self.call('install', '--unproved', '--prefix', prefix)
        self.expect('install --unproved', got[:2] == (0, '') and self.version(program) == wanted['unproved'], got)
        # With something new among the sources, and without a repository of git.
        self.file(os.path.join(self.top, 'crates', 'new'), '')
        shutil.rmtree(os.path.join(self.top, 'out', 'unproved'))
        self.shell('keep_proved "$(sum_of_sources)"')
        self.call('install', '--prefix', prefix)
        text = 'cobra_poly 1.0.0 (commit %s+, proved)\n' % head[:11]
        self.expect('a + for what was changed', self.version(program) == text, self.version(program))
        shutil.rmtree(os.path.join(self.top, '.git'))
        self.call('install', '--prefix', prefix)
        text = 'cobra_poly 1.0.0 (commit is not known, proved)\n'
        self.expect('no commit is known', self.version(program) == text, self.version(program))
        for words in (['--prefix', '/dev/null/x'], ['--prefix', '/proc'], ['--prefix', self.file('a file', '')]):
            self.refused('install', 'cannot be written', *words)
        self.refused('install', 'takes a folder', '--prefix')
        got = self.call('install', '--help')
        self.expect('install --help', got[0] == 0 and '--prefix DIR' in got[1] and '--unproved' in got[1], got)
        left = [name for at, _, names in os.walk(prefix) for name in names if not name.startswith('cobra_poly')]
        self.expect('nothing else is left', not left, left)

    def commits(self, head, changed):
        widths = {'proved': 12, 'unproved': 10}
        return {state: head[:width - 1] + '+' if changed else head[:width] for state, width in widths.items()}

    def stamps(self, program):
        with open(program, 'rb') as file:
            built = file.read()
        self.expect('the built program has one place for its stamp', built.count(UNSTAMPED) == 1, built.count(UNSTAMPED))
        told = self.version(program)
        self.expect('an unstamped program', told == 'cobra_poly 1.0.0 %s\n' % UNSTAMPED.decode(), told)
        for name, text in (('twice', built + UNSTAMPED), ('never', built.replace(UNSTAMPED, UNSTAMPED.upper()))):
            path = os.path.join(self.folder, name)
            with open(path, 'wb') as out:
                out.write(text)
            os.chmod(path, 0o755)
            ran = subprocess.run([sys.executable, '-B', os.path.join(self.top, 'tools', 'stamp.py'), path, 'proved'], stderr=subprocess.PIPE)
            with open(path, 'rb') as file:
                self.expect('a stamp that stands %s' % name, ran.returncode == 1 and file.read() == text and b'times' in ran.stderr, ran)


def session(leader):
    """The processes of a session."""
    found = []
    for pid in filter(str.isdigit, os.listdir('/proc')):
        fields = fields_of(int(pid))
        if fields and int(fields[3]) == leader:
            found.append(int(pid))
    return found


def fields_of(pid):
    """What the system says of a process, from its state on; nothing where there is none."""
    try:
        with open('/proc/%d/stat' % pid) as stat:
            return stat.read().rpartition(')')[2].split()
    except OSError:
        return []


def is_running(pid):
    return fields_of(pid)[:1] not in ([], ['Z'])


# ---- the manual page

def manual_page(copy, program):
    with open(manual.PAGE, encoding='utf-8') as file:
        page = file.read()
    copy.expect('the manual page is what tools/manual.py makes of --help', manual.page_of(page, program) == page)
    about = manual.help_of(program).split('\n')[0]
    copy.expect('the manual says what the program does', about in page, about)
    told = re.search(r'^\.TH .* "cobra_poly ([0-9.]+)"', page, re.M)
    copy.expect('the manual names the version', told and 'cobra_poly %s (' % told[1] in copy.version(program))


# ---- how long proofs take

def estimates(copy):
    times = prove_program.times()
    with open(os.path.join(TOP, 'crates.txt')) as listed:
        below = {line.split(':')[0].split()[0]: line.split('#')[0].partition(':')[2].split() for line in listed if ':' in line.split('#')[0]}
    wanted, waiting = set(), ['cobra_poly']
    while waiting:
        name = waiting.pop()
        if name in below and name not in wanted:
            wanted.add(name)
            waiting += below[name]
    copy.expect('each crate of the program has its time', wanted <= set(times), sorted(wanted - set(times)))
    below = {name: [it for it in below[name] if it in wanted] for name in below if name in wanted}
    for speed in (2, 1, 1 / 3):
        said, truth = proving(below, times, speed)
        for part in (0.5, 0.8):
            at = next(at for at in sorted(said) if at >= part * truth)
            left = truth - at
            copy.expect('what is left at speed %.1f after %.0f of %.0f s' % (speed, at, truth), 0.6 * left < said[at] < 1.6 * left, said[at])


def proving(below, times, speed, processors=4):
    """What is said to be left at each moment at which a crate ends, on a machine of this speed, and how long all of it takes. The crate with
    the longest way up takes two processors, and the others one each."""
    now, running, said, way = 0, {}, {}, {}
    for name in reversed(list(below)):
        way[name] = times[name] + max((way[it] for it in way if name in below[it]), default=0)
    progress = prove_program.Progress(below, times, processors, lambda: now)
    while len(progress.done) < len(below):
        waiting = sorted(set(below) - progress.done - set(running), key=way.get, reverse=True)
        longest = max([*waiting, *running], key=way.get)
        for name in waiting:
            jobs = 2 if name == longest else 1
            if len(running) + jobs <= processors and progress.done.issuperset(below[name]):
                running[name] = now + times[name] / (speed * jobs)
                progress.begin(name, jobs)
        name = min(running, key=running.get)
        now = running.pop(name)
        progress.end(name)
        said[now] = progress.left()
    return said, now


def helps(copy):
    """What scripts in Python say by --help: a text with their name; one whose store's driver is not installed may say that."""
    for path in sorted(glob.glob(os.path.join(TOP, '*', '*.py'))):
        with open(path, 'rb') as file:
            if file.read(2) != b'#!':
                continue
        ran = subprocess.run([sys.executable, path, '--help'], stdin=subprocess.DEVNULL, stdout=subprocess.PIPE, stderr=subprocess.STDOUT, timeout=LATE)
        said = ran.stdout.decode()
        copy.expect('%s --help' % path, (ran.returncode == 0 or ': this Python has n' in said) and os.path.basename(path) in said, said)


def main():
    if len(sys.argv) != 2 or sys.argv[1].startswith('-'):
        print(__doc__)
        return 0 if '--help' in sys.argv else 2
    # A shell has what it starts in the background ignore this signal, and bash cannot trap one that it was started to ignore.
    signal.signal(signal.SIGINT, signal.default_int_handler)
    program = os.path.abspath(sys.argv[1])
    with tempfile.TemporaryDirectory() as folder:
        copy = Copy(program, folder)
        copy.links()
        copy.solvers()
        copy.signals()
        copy.stamps(program)
        manual_page(copy, copy.proved)
        estimates(copy)
        helps(copy)
        copy.install()
    print('scripts: %d passed, %d failed' % (copy.passed, copy.failed))
    return 1 if copy.failed else 0


if __name__ == '__main__':
    sys.exit(main())
