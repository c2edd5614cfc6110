#!/usr/bin/env python3
"""package.py PROGRAM: the packages that ./package makes of a program, installed in a folder of their own and used there without the toolchain.

Made twice, in other places, of files of other times, the packages must have the same bytes, and SHA256SUMS those sums. The Debian package is
unpacked by dpkg-deb, and installed and removed by dpkg in a folder; the tarball is unpacked by Python; all must have the same files. There the
program judges, and the scripts import, join, draw and collect logs, with nothing on the path but the system's commands. The commands of the
package's README.md do what it says, and no page for its users speaks of what only the repository has. PROVED names the kit
where the program was proved, and no kit otherwise. Where there is no dpkg, a line says so. Last line: 'package: N passed, M failed'."""
import gzip, hashlib, os, re, shutil, subprocess, sys, tarfile, tempfile

import readme

TOP = os.path.dirname(os.path.dirname(os.path.abspath(__file__)))
AROUND, LATE = 70, 300
STAMP = re.compile(rb'(?<=\(commit )[^()\0]{20}(?=\))')
KIT = 'rattle-kit-0 logic 0123456789abcdef'
SCRIPTS = 'import', 'picture', 'told', 'follow', 'mend', 'join'


class Checks:
    def __init__(self, program, folder):
        self.folder, self.passed, self.failed = folder, 0, 0
        self.program = self.stamped(program, b'unknown, not stamped')
        self.proved = self.stamped(program, b'0123456789ab, proved')

    def path(self, *names):
        return os.path.join(self.folder, *names)

    def expect(self, holds, name):
        self.passed, self.failed = self.passed + bool(holds), self.failed + (not holds)
        if not holds:
            print('FAILED', name)

    def stamped(self, program, text):
        """The same program with another stamp, of as many bytes."""
        path = self.path(text.decode().split(' ')[-1])
        with open(program, 'rb') as file, open(path, 'wb') as out:
            out.write(STAMP.sub(text, file.read()))
        os.chmod(path, 0o755)
        return path

    def run(self, *words, cwd='/', **environment):
        how = {'stdin': subprocess.DEVNULL, 'stdout': subprocess.PIPE, 'stderr': subprocess.PIPE, 'timeout': LATE, 'universal_newlines': True}
        ran = subprocess.run(words, cwd=cwd, env=environment or None, **how)
        return ran.returncode, ran.stdout, ran.stderr

    # ---- made

    def copy(self, name, umask):
        """A copy of the repository, whose files are of other times."""
        top, before = self.path(name), os.umask(umask)
        shutil.copytree(TOP, top, symlinks=True, ignore=shutil.ignore_patterns('out', '__pycache__', 'crates', 'edits'), copy_function=shutil.copy)
        shutil.copy(os.path.join(TOP, 'crates.txt'), top)
        os.umask(before)
        return top

    def made(self):
        """The folder of the packages, which are made twice."""
        first, second = self.path('first'), self.path('second')
        tops = self.copy('a copy', 0o022), self.copy('another', 0o002)
        got = self.run(os.path.join(tops[0], 'package'), '--program', self.program, '--into', first)
        self.expect(got[0] == 0 and len(got[1].splitlines()) == 2, './package: %s' % (got,))
        again = self.run(os.path.join(tops[1], 'package'), '--program', self.program, '--into', second, cwd=self.folder, TZ='Asia/Tokyo', LANG='C',
                         PATH=os.environ['PATH'], HOME=self.folder)
        self.expect(again[0] == 0, './package again: %s' % (again,))
        names = sorted(os.listdir(first))
        self.expect(names == sorted(os.listdir(second)) and len(names) == 3, 'files: %s' % names)
        for name in names:
            self.expect(content(os.path.join(first, name)) == content(os.path.join(second, name)), '%s has other bytes each time' % name)
        for line in content(os.path.join(first, 'SHA256SUMS')).decode().splitlines():
            its, name = line.split('  ')
            self.expect(hashlib.sha256(content(os.path.join(first, name))).hexdigest() == its, 'the sum of %s' % name)
        for words, said in (([], './prove first'), (['--program', '/there/is/none'], 'no program'), (['--program', shutil.which('true')], 'version'), (['x'], "no 'x'")):
            if words or shutil.which('rt'):
                got = self.run(os.path.join(self.bare(tops[0]), 'package'), *words, '--into', self.path('none'))
                self.expect(got[0] == AROUND and said in got[2] and not os.path.exists(self.path('none')), './package %s: %s' % (words, got))
        got = self.run(os.path.join(tops[0], 'package'), '--help')
        self.expect(got[0] == 0 and '--into DIR' in got[1], './package --help: %s' % (got,))
        return first

    def bare(self, top):
        """A copy with crates of which nothing is proved."""
        os.makedirs(os.path.join(top, 'crates', 'none'), exist_ok=True)
        return top

    # ---- installed

    def unpacked(self, made):
        """Each way of installing, and the folder that has bin/ and share/ then."""
        deb, tarball = (os.path.join(made, next(it for it in os.listdir(made) if it.endswith(end))) for end in ('.deb', '.tar.gz'))
        with tarfile.open(tarball) as tar:
            tar.extractall(self.path('tarball'))
        yield 'the tarball', self.path('tarball', os.listdir(self.path('tarball'))[0])
        if not shutil.which('dpkg-deb'):
            print('package: note: there is no dpkg-deb here, and the Debian package is not unpacked')
            return
        got = self.run('dpkg-deb', '-x', deb, self.path('unpacked'))
        self.expect(got[0] == 0, 'dpkg-deb -x: %s' % (got,))
        yield 'what dpkg-deb unpacks', self.path('unpacked', 'usr')
        root = self.path('root')
        os.makedirs(os.path.join(root, 'dpkg', 'updates'))
        open(os.path.join(root, 'dpkg', 'status'), 'w').close()
        dpkg = ['dpkg', '--instdir=' + root, '--admindir=' + os.path.join(root, 'dpkg'), '--force-not-root', '--force-depends', '--force-script-chrootless', '--log=' + os.devnull]
        got = self.run(*dpkg, '-i', deb)
        self.expect(got[0] == 0, 'dpkg -i: %s' % (got,))
        yield 'what dpkg installs', os.path.join(root, 'usr')
        got = self.run(*dpkg, '--verify', 'cobra-poly')
        self.expect(got[:2] == (0, ''), 'dpkg --verify: %s' % (got,))
        got = self.run(*dpkg, '-r', 'cobra-poly')
        self.expect(got[0] == 0 and not os.path.exists(os.path.join(root, 'usr')), 'dpkg -r: %s, %s' % (got, tree(os.path.join(root, 'usr'))))

    def used(self, what, at):
        """The program and its scripts, without the toolchain."""
        home, work = os.path.join(at, 'share', 'cobra-poly'), tempfile.mkdtemp(dir=self.folder)
        example = lambda name: os.path.join(home, 'examples', name)
        environment = {'PATH': os.path.join(at, 'bin') + ':/usr/bin:/bin', 'LANG': 'C.UTF-8'}
        def call(*words, status=0, says=''):
            got = self.run(*words, cwd=work, **environment)
            self.expect(got[0] == status and says in got[1] + got[2], '%s: %s: %s' % (what, words, got))
            return got

        self.expect(not shutil.which('rt', path=environment['PATH']), 'the toolchain is on the path')
        call('cobra_poly', '--version', says='not stamped')
        call('cobra_poly', 'check', example('chain.log'), says='serializable\n1 1')
        call('cobra_poly', 'audit', '--quiet', example('shop.log'), status=1, says='not serializable')
        with gzip.open(os.path.join(at, 'share', 'man', 'man1', 'cobra_poly.1.gz')) as page:
            self.expect(page.read() == content(os.path.join(TOP, 'docs', 'cobra_poly.1')), '%s: the manual page' % what)
        got = call('cobra_poly-import', '--from', 'jepsen', example('list_append.edn'), says='log 3')
        self.expect(got[2].startswith('cobra_poly-import: 4 transactions'), '%s: what import says: %r' % (what, got[2]))
        with open(os.path.join(work, 'imported.log'), 'w') as out:
            out.write(got[1])
        call('cobra_poly', 'check', 'imported.log', status=1, says='A8')
        call('cobra_poly-picture', example('five_reasons.log'), '-o', 'page.html', says='page.html')
        self.expect(b'<svg' in content(os.path.join(work, 'page.html')), '%s: the page' % what)
        call(os.path.join(home, 'collect', 'sqlite.py'), '--transactions', '50', '--keys', '5', 'honest.log')
        call('cobra_poly', 'audit', '--quiet', 'honest.log', says='serializable')
        call(example('quickstart.sh'), 'quick', says='the page is quick/why.html')
        call('cobra_poly-join', 'honest.log', '-o', 'joined.log')
        self.expect(content(os.path.join(work, 'joined.log')) == content(os.path.join(work, 'honest.log')), '%s: join' % what)
        for name in ('recorder.go', 'Recorder.java'):
            self.expect(os.path.isfile(os.path.join(home, 'collect', name)), '%s: %s' % (what, name))
        with open(os.path.join(work, 'cut.log'), 'wb') as out:
            out.write(content(os.path.join(work, 'honest.log'))[:-20])
        call('cobra_poly-mend', 'cut.log', says='cut.mended.log: ')
        call(os.path.join(home, 'collect', 'sqlite.py'), '--transactions', '50', '--rounds', '20', 'rounds')
        call('cobra_poly-follow', 'rounds', '--level', 'serializable', says='000001: serializable')
        for script in SCRIPTS:
            got = call('cobra_poly-' + script, '--help', says='usage: cobra_poly-%s ' % script)
            self.expect('.py' not in got[1], '%s: %s --help: %s' % (what, script, got[1]))
        for words in (['join', 'none', '-o', 'out.log'], ['mend', 'none'], ['told', 'none'], ['picture', 'none'], ['import', '--from', 'plume', 'none']):
            script = 'cobra_poly-' + words[0]
            got = call(script, *words[1:], status=AROUND)
            self.expect(got[2].startswith(script + ': '), '%s: what %s says: %r' % (what, script, got[2]))

    def page(self, at):
        """Pages for those who have a package speak of what it has, and the commands of README.md do what it says."""
        work, tools = self.path('page'), self.path('solvers')
        shutil.copytree(os.path.join(at, 'share', 'cobra-poly'), work)
        os.mkdir(tools)
        readme.stand_ins(tools)
        text = content(os.path.join(work, 'README.md')).decode()
        of_repository = './run', './check', './prove', './install', './solve', './package', 'toolchain', 'clone', '<!--', 'tools/'
        of_repository += tuple(it + '.py' for it in SCRIPTS)
        for name in ('README.md', 'examples/README.md', 'examples/EXPLAINED.md', *('docs/%s.md' % it for it in 'COLLECTING FORMATS SCALE CI IMPORTING JEPSEN STORES SOLVERS'.split())):
            strange = [word for word in of_repository if word in content(os.path.join(work, name)).decode()]
            self.expect(not strange, '%s speaks of %s' % (name, strange))
        links = re.findall(r'\]\(([^)#:]+)', text)
        self.expect('PROVED' in links and all(os.path.exists(os.path.join(work, it)) for it in links), 'README.md links to %s' % links)
        page, commands = readme.Page(work, os.path.join(at, 'bin') + os.pathsep + tools), readme.transcripts(text)
        solvers = content(os.path.join(work, 'docs', 'SOLVERS.md')).decode()
        for command, status, said in commands + [(block, 0, said) for block, said in (*readme.scripts(text), *readme.scripts(solvers))]:
            page.told(page.start(command), command, status, said)
        self.passed, self.failed = self.passed + page.passed, self.failed + page.failed
        self.expect(len(commands) > 20, 'README.md has %d commands' % len(commands))

    def told(self):
        """PROVED of a program that was proved, and of one of which nothing says so."""
        for program, kit, names_kit in ((self.proved, KIT, True), (self.proved, '', False), (self.program, KIT, False)):
            into = tempfile.mkdtemp(dir=self.folder)
            got = self.run(sys.executable, '-B', os.path.join(TOP, 'tools', 'package.py'), program, kit, into)
            self.expect(got[0] == 0, 'package.py: %s' % (got,))
            tarball = next(it for it in os.listdir(into) if it.endswith('.tar.gz'))
            with tarfile.open(os.path.join(into, tarball)) as tar:
                text = tar.extractfile(next(it for it in tar if it.name.endswith('/PROVED'))).read().decode()
            self.expect((KIT in text) == names_kit and ('Nothing says' in text) != names_kit, 'PROVED: %s' % text)
            self.expect(('audit_command' in text) == names_kit and hashlib.sha256(content(program)).hexdigest() in text, 'PROVED: %s' % text)
            self.expect(('~unproved' in tarball) == (program == self.program), 'the name %s' % tarball)


def content(path):
    with open(path, 'rb') as file:
        return file.read()


def tree(at):
    """Each file below a folder with its bytes, or where it leads."""
    found = {}
    for folder, _, names in os.walk(at):
        for path in (os.path.join(folder, name) for name in names if not name.endswith('.pyc')):
            found[os.path.relpath(path, at)] = os.readlink(path) if os.path.islink(path) else content(path)
    return found


def main():
    if len(sys.argv) != 2 or sys.argv[1].startswith('-'):
        print(__doc__)
        return 0 if '--help' in sys.argv else 2
    with tempfile.TemporaryDirectory() as folder:
        checks, trees = Checks(os.path.abspath(sys.argv[1]), folder), {}
        for what, at in checks.unpacked(checks.made()):
            trees[what] = tree(at)
            checks.expect(trees[what] == trees['the tarball'], '%s has other files than the tarball' % what)
            checks.used(what, at)
            if what == 'the tarball':
                checks.page(at)
        checks.told()
    print('package: %d passed, %d failed' % (checks.passed, checks.failed))
    return 1 if checks.failed else 0


if __name__ == '__main__':
    sys.exit(main())
