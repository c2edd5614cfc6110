#!/usr/bin/env python3
"""jdbc.py PROGRAM: collect/Jdbc.java, over collect/Recorder.java.

By a driver that is made here it is asked what becomes of a transaction where a statement, commit or rollback fails, for each code that it tells
apart. Then the whole test that docs/COLLECTING.md has is compiled and run as it stands there. Then clients of H2, HSQLDB, Derby and SQLite, embedded, run a small load at once, of which some break their connection off; PROGRAM must find that
its log keeps what the store promises. A compiler or a store that is not installed is passed over, with a line that says so. Last line: 'jdbc: N
passed, M failed'."""
import os, re, shutil, signal, subprocess, sys, tempfile

HERE = os.path.dirname(os.path.abspath(__file__))
TOP = os.path.dirname(HERE)
JARS = '/usr/share/java'
# What each store is started by, and its jar.
STORES = {'H2': ('h2.jar', 'jdbc:h2:mem:load;DB_CLOSE_DELAY=-1'), 'HSQLDB': ('hsqldb.jar', 'jdbc:hsqldb:mem:load'),
          'Derby': ('derby.jar', 'jdbc:derby:memory:load;create=true'), 'SQLite': ('xerial-sqlite-jdbc.jar', 'jdbc:sqlite:load.db')}
# A way of each, and what its log must keep.
WAYS = [('H2', '', 'serializable', 'snapshot'), ('HSQLDB', ';hsqldb.tx=mvcc', 'serializable', 'snapshot'),
        ('HSQLDB', ';hsqldb.tx=locks', 'serializable', 'serializable'), ('Derby', '', 'serializable', 'serializable'),
        ('SQLite', '', 'serializable', 'serializable')]
LATE = 600
# What comes of each: the outcome, how many connections there were for two transactions, and whether the first was broken off.
ANSWERS = """none null: commit, 1 connected
commit 40001: abort, 1 connected
commit 40P01: abort, 1 connected
commit 40XL1: abort, 1 connected
commit 40003: unknown, 2 connected, broken off
commit 23505: abort, 1 connected
commit 25P02: abort, 1 connected
commit 08003: abort, 2 connected, broken off
commit 08006: unknown, 2 connected, broken off
commit 08007: unknown, 2 connected, broken off
commit 57P01: unknown, 2 connected, broken off
commit HYT00: unknown, 2 connected, broken off
commit 90121: unknown, 2 connected, broken off
commit XX000: thrown as it was, 2 connected, broken off
commit null: thrown as it was, 2 connected, broken off
commit HY000: unknown, 2 connected, broken off
commit null: unknown, 2 connected, broken off
commit null: abort, 1 connected
commit java.lang.IllegalStateException: made: thrown as it was, 2 connected, broken off
commit java.lang.IllegalStateException: made: unknown, 2 connected, broken off
prepareStatement 40001: abort, 1 connected
createStatement 40001: abort, 1 connected
prepareStatement XCL16: abort, 1 connected
createStatement XCL16: abort, 1 connected
prepareStatement 90131: abort, 1 connected
createStatement 90131: abort, 1 connected
prepareStatement HY000: abort, 1 connected
createStatement HY000: abort, 1 connected
prepareStatement HY000: thrown as it was, 1 connected
createStatement HY000: abort, 1 connected
prepareStatement HY000: abort, 1 connected
createStatement HY000: abort, 1 connected
prepareStatement HY000: abort, 1 connected
createStatement HY000: abort, 1 connected
prepareStatement HY000: thrown as it was, 1 connected
createStatement HY000: abort, 1 connected
prepareStatement 42S02: thrown as it was, 1 connected
createStatement 42S02: abort, 1 connected
prepareStatement 08006: abort, 2 connected, broken off
createStatement 08006: abort, 2 connected, broken off
prepareStatement 57014: abort, 1 connected
createStatement 57014: abort, 1 connected
prepareStatement null: abort, 1 connected
createStatement null: abort, 1 connected
prepareStatement null: abort, 2 connected, broken off
prepareStatement java.lang.NullPointerException: closed: abort, 2 connected, broken off
prepareStatement java.lang.NullPointerException: made: thrown as it was, 1 connected
createStatement 23505: commit, 1 connected
closed null: abort, 2 connected, broken off
body java.lang.IllegalStateException: made: thrown IllegalStateException, 1 connected
prepareStatement null: thrown IllegalStateException, 2 connected, broken off
aborts null: abort, 1 connected
commits null: thrown Misuse, 1 connected
closes null: thrown Misuse, 1 connected
connect 08006: abort, 2 connected
connect 08000: abort, 2 connected
connect 57P03: abort, 2 connected
connect 28000: thrown as it was, 2 connected
rollback 08006: abort, 2 connected, broken off
setAutoCommit null: abort, 2 connected
setAutoCommit 42000: thrown as it was, 2 connected
"""
# How the log has them, each with a second transaction: those that are thrown have their outcome too, and a commit that is rolled back is so again.
OUTCOMES = {'commit': 57, 'abort': 53, 'unknown': 12}


def compiled(folder):
    """Where the classes stand of the recorder, of what it does for JDBC, and of this test."""
    sources = [os.path.join(TOP, 'collect', name) for name in ('Recorder.java', 'Jdbc.java')]
    sources += [os.path.join(HERE, 'jdbc', name) for name in ('Answers.java', 'Load.java')]
    subprocess.run(['javac', '-Xlint:-options', '--release', '8', '-encoding', 'UTF-8', '-d', folder, *sources], stdin=subprocess.DEVNULL, check=True, timeout=LATE)
    return folder


def java(folder, *words, jar=None, cwd=None, late=LATE):
    """What a class of the test writes, with a store's jar. Of one that does not end the status is not 0, and its threads stand in what it says."""
    path = folder + (os.pathsep + os.path.join(JARS, jar) if jar else '')
    how = ['-XX:+UseSerialGC', '-XX:TieredStopAtLevel=1', '-Dderby.locks.waitTimeout=5', '-Dderby.locks.deadlockTimeout=1', '-Dderby.stream.error.file=/dev/null']
    with subprocess.Popen(['java', *how, '-cp', path, *words], cwd=cwd or folder, stdin=subprocess.DEVNULL, stdout=subprocess.PIPE,
                          stderr=subprocess.PIPE, universal_newlines=True) as process:
        try:
            said, error = process.communicate(timeout=late)
        except subprocess.TimeoutExpired:
            process.send_signal(signal.SIGQUIT)
            try:
                process.communicate(timeout=5)
            except subprocess.TimeoutExpired:
                process.kill()
            said, error = process.communicate()
            error += 'it did not end in %d s:\n%s' % (late, said)
    return subprocess.CompletedProcess(process.args, process.returncode, said, error)


def jar_of(command):
    found = re.search(r'[^: ]+\.jar', command)
    return found and found[0]


class Checks:
    def __init__(self, program, folder):
        self.program, self.folder, self.log = program, folder, os.path.join(folder, 'run.log')
        self.passed = self.failed = 0

    def expect(self, holds, what):
        self.passed, self.failed = self.passed + bool(holds), self.failed + (not holds)
        if not holds:
            print('FAILED', what)

    def text(self):
        with open(self.log) as file:
            return file.read()

    def answers(self):
        ran = java(self.folder, 'Answers', self.log)
        found, wanted = ran.stdout.splitlines(), ANSWERS.splitlines()
        self.expect(ran.returncode == 0 and len(found) == len(wanted), 'answers: %d of %d: %s' % (len(found), len(wanted), ran.stderr))
        for got, right in zip(found, wanted):
            self.expect(got == right, 'answers: %s, wanted %s' % (got, right))
        counts = {name: len(re.findall('^%s$' % name, self.text(), re.M)) for name in ('commit', 'abort', 'unknown')}
        self.expect(counts == OUTCOMES, 'outcomes: %s' % counts)

    def page(self):
        """The whole test that docs/COLLECTING.md has, by its own lines."""
        with open(os.path.join(TOP, 'docs', 'COLLECTING.md'), encoding='utf-8') as file:
            section = re.search('^### A whole test by JDBC\n(.*?)^##', file.read(), re.M | re.S)[1]
        text, at = re.search('^```java\n(.*?)^```', section, re.M | re.S)[1], os.path.join(self.folder, 'page')
        os.mkdir(at)
        for name in ('Recorder.java', 'Jdbc.java'):
            shutil.copy(os.path.join(TOP, 'collect', name), at)
        with open(os.path.join(at, re.search('class ([A-Za-z]+)', text)[1] + '.java'), 'w') as out:
            out.write(text)
        commands = re.findall(r'^    \$ (.*)\n((?:    [^$].*\n)*)', section, re.M)
        self.expect([command.split()[0] for command, _ in commands] == ['javac', 'java', './run'], 'the page: %s' % commands)
        for command, wanted in commands:
            if jar_of(command) and not os.path.exists(jar_of(command)):
                print('jdbc: note: the page is passed over, since %s is not installed' % jar_of(command))
                return
            ran = subprocess.run(command.replace('./run', self.program), shell=True, cwd=at, stdin=subprocess.DEVNULL, stdout=subprocess.PIPE, stderr=subprocess.PIPE,
                                 universal_newlines=True, timeout=LATE)
            self.expect(ran.returncode == 0 and ran.stdout == wanted.replace('    ', '') and not ran.stderr, 'the page: %s: %s' % (command, ran))

    def way(self, store, more, level, kept):
        jar, url = STORES[store]
        name = '%s%s at %s' % (store, more, level)
        if not os.path.exists(os.path.join(JARS, jar)):
            print('jdbc: note: %s is passed over, since %s is not installed' % (name, jar))
            return
        ran = java(self.folder, 'Load', url + more, level, self.log, 'kill=10', 'transactions=200', jar=jar)
        text = self.text() if os.path.exists(self.log) else ''
        self.expect(ran.returncode == 0 and '\ncommit' in text and '\nabort' in text, '%s: %s' % (name, ran.stderr[-500:]))
        with open(self.log + '.labels') as file:
            labels = file.readlines()
        self.expect(len(labels) == 200 and all(re.fullmatch('[0-9]+ [0-9]+ random\n', line) for line in labels), '%s: labels: %s' % (name, labels[:3]))
        judged = subprocess.run([self.program, 'audit', '--quiet', '--level', kept, self.log], stdout=subprocess.PIPE)
        self.expect(judged.returncode == 0, '%s: %s' % (name, judged.stdout))


def main():
    if len(sys.argv) != 2 or sys.argv[1].startswith('-'):
        print(__doc__)
        return 0 if '--help' in sys.argv else 2
    with tempfile.TemporaryDirectory() as folder:
        checks = Checks(os.path.abspath(sys.argv[1]), folder)
        if shutil.which('javac') and shutil.which('java'):
            compiled(folder)
            checks.answers()
            checks.page()
            for way in WAYS:
                checks.way(*way)
        else:
            print('jdbc: note: passed over, since its compiler (default-jdk-headless) is not installed')
    print('jdbc: %d passed, %d failed' % (checks.passed, checks.failed))
    return 1 if checks.failed else 0


if __name__ == '__main__':
    sys.exit(main())
