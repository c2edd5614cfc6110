#!/usr/bin/env python3
"""readme.py [FOLDER]: the commands of README.md, docs/SOLVERS.md and docs/IMPORTING.md, word by word, on a fresh clone of the repository.

A line `    $ COMMAND` is run by bash at the top of the clone, and must write the lines that stand below it, and end with the status that a
comment `# status N` behind it names, or 0. A block ```sh is run whole, must end with status 0 and write what its comments `# prints TEXT`
say. With several workers `check` may find another serial order than the page has: one with the same lines passes where `./run verify` accepts it.
Left out are blocks that prove. The first command is run by two shells at once, as on a first day they may be. Where a solver is not
installed, a small one of tests/solvers.py takes its place, and a note says so. Of IMPORTING.md standard error is shown too. FOLDER is a
clone that stands already, in place of one of the last commit. Last line: 'readme: N passed, M failed'."""
import os, re, shutil, subprocess, sys, tempfile, time

HERE = os.path.dirname(os.path.abspath(__file__))
TOP = os.path.dirname(HERE)
PROVING = re.compile(r'^\./(prove|check)\b', re.M)
# A command of the page may build the program first, in one to five minutes, or in many on a slow and busy machine.
AROUND, LATE = 70, 3600
STAND_IN = '''#!%s
import sys
sys.path.insert(0, %r)
import refuting, solvers
files = [word for word in sys.argv[1:] if not word.startswith('-')]
with open(files[0], 'rb') if files else sys.stdin.buffer as formula:
    text = formula.read()
answer = solvers.own_answer(text).decode()
if len(files) == 2 and sys.argv[0].endswith('cadical'):
    with open(files[1], 'wb') as proof:
        proof.write(refuting.own_proof(refuting.read_formula(text)[1]) or b'')
    sys.stdout.write(answer)
elif len(files) == 2:
    # as MiniSat
    with open(files[1], 'w') as result:
        result.write(answer.replace('s UNSATISFIABLE', 'UNSAT').replace('s SATISFIABLE', 'SAT').replace('v ', ''))
else:
    sys.stdout.write(answer)
sys.exit(20 if 'UNSAT' in answer else 10)
'''


def transcripts(page):
    """Each command with the status and the text that the page has for it."""
    found = []
    for line in page.split('\n'):
        if line.startswith('    $ '):
            command, _, comment = line[6:].partition(' # ')
            status = re.match(r'status (\d+)', comment)
            found.append([command.strip(), int(status[1]) if status else 0, ''])
        elif line.startswith('    ') and found and found[-1] is not None:
            found[-1][2] += line[4:] + '\n'
        else:
            found.append(None)
    return [it for it in found if it]


def scripts(page):
    """Each block of commands with the text that its comments have for it, but for those that prove."""
    for block in re.findall(r'^```sh\n(.*?)^```', page, re.M | re.S):
        if not PROVING.search(block):
            yield block, ''.join(text + '\n' for text in re.findall(r'# prints (.*)$', block, re.M))


class Page:
    def __init__(self, clone, tools):
        self.clone, self.passed, self.failed = clone, 0, 0
        self.environment = {**os.environ, 'PATH': tools + os.pathsep + os.environ['PATH']}

    def start(self, command, **environment):
        words = ['bash', '-c', command]
        how = {'stdin': subprocess.DEVNULL, 'stdout': subprocess.PIPE, 'stderr': subprocess.PIPE}
        return subprocess.Popen(words, cwd=self.clone, env={**self.environment, **environment}, **how)

    def expect(self, holds, what):
        self.passed, self.failed = self.passed + bool(holds), self.failed + (not holds)
        if not holds:
            print('FAILED %s' % what)

    def told(self, ran, command, status, text):
        """What a command wrote, and how it ended, against the page."""
        out, error = ran.communicate(timeout=LATE)
        got = (ran.returncode, out.decode())
        agrees = got == (status, text) or ran.returncode == status and self.is_another_order(command, got[1], text)
        self.expect(agrees, '%s: %r, and the page has %r\n%s' % (command, got, (status, text), error.decode()))
        return error.decode()

    def is_another_order(self, command, got, text):
        """Whether both are serial orders of the command's log, with the same lines, of which `verify` accepts the one that came."""
        words, told, wanted = command.split(), got.splitlines(), text.splitlines()
        if words[1:2] != ['check'] or told[:1] != wanted[:1] or told[:1] != ['serializable'] or sorted(told) != sorted(wanted):
            return False
        with tempfile.NamedTemporaryFile('w') as order:
            order.write(''.join(line + '\n' for line in told[1:]))
            order.flush()
            ran = self.start('%s verify --order %s %s' % (words[0], order.name, words[-1]))
            return ran.communicate(timeout=LATE)[0] == b'accepted\n' and ran.returncode == 0


def stand_ins(folder):
    """Scripts for the solvers that docs/SOLVERS.md names and that are not installed."""
    for name in ('cadical', 'minisat'):
        if shutil.which(name):
            continue
        print('note: the solver %s is not installed; a small one takes its place' % name)
        with open(os.path.join(folder, name), 'w') as script:
            script.write(STAND_IN % (sys.executable, HERE))
        os.chmod(os.path.join(folder, name), 0o755)


def without_toolchain(folder):
    """A folder of the commands that scripts need, but for rt."""
    for name in ('bash', 'env', 'dirname', 'readlink', 'uname', 'python3', 'cat', 'sha256sum', 'find', 'stat', 'mktemp', 'rm', 'mkdir', 'mv'):
        os.symlink(shutil.which(name), os.path.join(folder, name))


def main():
    if '--help' in sys.argv:
        return print(__doc__)
    with tempfile.TemporaryDirectory() as folder, tempfile.TemporaryDirectory() as tools, tempfile.TemporaryDirectory() as bare:
        clone = os.path.abspath(sys.argv[1]) if sys.argv[1:] else os.path.join(folder, 'cobra_poly')
        if not sys.argv[1:]:
            subprocess.run(['git', 'clone', '-q', TOP, clone], check=True, stdin=subprocess.DEVNULL)
        with open(os.path.join(clone, 'README.md'), encoding='utf-8') as file:
            page_text = file.read()
        stand_ins(tools)
        page, commands = Page(clone, tools), transcripts(page_text)
        first = next(it for it in commands if it[0].startswith('./run '))
        began = time.time()
        both = [page.start(first[0]) for _ in range(2)]
        for ran in both:
            error = page.told(ran, 'at once: ' + first[0], first[1], first[2])
            page.expect('./prove' in error.split('\n')[0], 'the first line of standard error names ./prove: %s' % error)
        took = time.time() - began
        for command, status, text in commands:
            page.told(page.start(command), command, status, text)
        with open(os.path.join(clone, 'docs', 'IMPORTING.md'), encoding='utf-8') as file:
            for command, status, text in transcripts(file.read()):
                page.told(page.start('exec 2>&1; ' + command), command, status, text)
        with open(os.path.join(clone, 'docs', 'SOLVERS.md'), encoding='utf-8') as file:
            solvers_text = file.read()
        for block, text in (*scripts(page_text), *scripts(solvers_text)):
            page.told(page.start(block), block, 0, text)
        without_toolchain(bare)
        for command, wanted, more in (
            ('./check examples/chain.log', './run check examples/chain.log', {}),
            ('./run check examples/chain.log', 'toolchain', {'PATH': bare}),
            ("./solve examples/chain.log --solver 'false'", 'the solver failed', {}),
        ):
            ran = page.start(command, **more)
            error = ran.communicate(timeout=LATE)[1].decode()
            page.expect(ran.returncode == AROUND and wanted in error, '%s: status %d, %s' % (command, ran.returncode, error))
        left = [name for name in os.listdir(os.path.join(clone, 'out', 'unproved')) if name.startswith('new.')]
        page.expect(not left, 'folders are left in out/unproved: %s' % left)
    print('readme: the first verdict of a fresh clone came after %d s' % took)
    print('readme: %d passed, %d failed' % (page.passed, page.failed))
    sys.exit(1 if page.failed else 0)


if __name__ == '__main__':
    main()
