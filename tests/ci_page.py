#!/usr/bin/env python3
"""ci_page.py PROGRAM: the steps of docs/CI.md, word by word, run by bash with the program on the path.

The commands are those of the page's shell block, at two levels, of the `run:` of its workflow for GitHub and of the `script:` of its pipeline for GitLab. Each
runs in a folder of its own, with a log that is serializable, refuted, short, not well-formed, or missing, as the shell of its runner would run it;
its status, what it prints, and the files that it leaves must be as the page says, and be the files that the page uploads. Each status and verdict
of the page's table is met, but want of memory. Last line: 'ci_page: N passed, M failed'."""
import json, os, re, subprocess, sys, tempfile

TOP = os.path.dirname(os.path.dirname(os.path.abspath(__file__)))
LATE = 120
GOOD = ''.join(['session 1\n', *('begin\nr x %d\nw x %d\ncommit\n' % (number, number + 1) for number in range(1000))])
LOST = GOOD + 'session 2\nbegin\nr x 5\nw x 2000\ncommit\n'
SHORT = 'session 1\nbegin\nw x 1\ncommit\n'
TWICE = 'session 1\nbegin\nw x 1\nw y 1\ncommit\n'
SKEW = GOOD + ''.join('session %d\nbegin\nr %s 0\nw %s %d\ncommit\n' % it for it in ((2, 'y', 'z', 2000), (3, 'z', 'y', 2001)))
LEVELS = {'serializable': 'serializability', 'snapshot': 'snapshot isolation'}
# For each log: its text, or None where there is none, the status, the verdict of JSON, and what a person reads; and where it is another status
# and verdict, those at snapshot isolation.
LOGS = {
    'serializable': (GOOD, 0, 'kept', ': kept\n'),
    'refuted': (LOST, 1, 'not kept', 'lost update'),
    'a write skew': (SKEW, 1, 'not kept', 'write skew (G2-item), A8', 0, 'kept', ': kept\n'),
    'short and refuted': (SHORT + 'session 2\nbegin\nr y 7\ncommit\n', 1, 'not kept', 'A1 unknown read'),
    'short': (SHORT, 3, 'unknown', '1 committed, 1000 asked for'),
    'empty': ('', 3, 'unknown', '0 committed, 1000 asked for'),
    'not well-formed': (TWICE, 2, 'refused', 'run.log:4: '),
    'missing': (None, 5, 'failed', 'run.log: No such file'),
}


def logs_at(level):
    """Each log as above, at a level."""
    for kind, (text, *told) in LOGS.items():
        yield kind, (text, *(told[3:] if level == 'snapshot' and told[3:] else told[:3]))


def blocks(page, language):
    """The texts of the fenced blocks of a language."""
    return re.findall(r'^```%s\n(.*?)^```' % language, page, re.M | re.S)


def depth(line):
    return len(line) - len(line.lstrip(' '))


def below(lines, name):
    """For each line `name:`, the lines that stand deeper below it, without their common indentation."""
    for number, line in enumerate(lines):
        if re.fullmatch(r' *(- )?%s:( \|)?' % name, line):
            found = []
            for it in lines[number + 1:]:
                if it.strip() and depth(it) <= depth(line):
                    break
                found.append(it)
            yield [it[depth(found[0]):] for it in found]


def items(lists):
    return [line[2:] if line.startswith('- ') else line for lines in lists for line in lines]


class Checks:
    def __init__(self, program, folder):
        self.folder, self.passed, self.failed = folder, 0, 0
        tools = os.path.join(folder, 'bin')
        os.mkdir(tools)
        os.symlink(program, os.path.join(tools, 'cobra_poly'))
        self.around = {**os.environ, 'PATH': tools + os.pathsep + os.environ['PATH'], 'LC_ALL': 'C.UTF-8'}
        self.runs = 0

    def expect(self, holds, name):
        self.passed, self.failed = self.passed + bool(holds), self.failed + (not holds)
        if not holds:
            print('FAILED', name)

    def bash(self, words, text, log, **older):
        """Runs a text in a folder of its own, with these older files: its status, what it printed, and the files but the log."""
        self.runs += 1
        place = os.path.join(self.folder, 'run%d' % self.runs)
        os.mkdir(place)
        for name, content in [('run.log', log), *((name + '.log', it) for name, it in older.items())]:
            if content is not None:
                with open(os.path.join(place, name), 'w', encoding='ascii') as out:
                    out.write(content)
        ran = subprocess.run(['bash', *words, '-c', text], cwd=place, env=self.around, stdin=subprocess.DEVNULL, stdout=subprocess.PIPE,
                             stderr=subprocess.STDOUT, timeout=LATE)
        files = {}
        for it in set(os.listdir(place)) - {'run.log'}:
            with open(os.path.join(place, it), encoding='utf-8') as file:
                files[it] = file.read()
        return ran.returncode, ran.stdout.decode(), files

    def part(self, name, log, files):
        """The part, with the lines of the log that its map names."""
        lines, whole = files.get('part.log', '').splitlines(), log.splitlines()
        places = [int(it) for it in files.get('part.log.map', '').split()]
        self.expect(lines and lines == [whole[it - 1] for it in places], '%s: part and map: %s' % (name, files))

    def right(self, level, said):
        """Whether the first line names no other level."""
        return ('serializab' if level == 'snapshot' else 'snapshot') not in said.split('\n')[0].lower()

    def step(self, name, words, text, kept, level):
        """A step that prints text, for people, and keeps files."""
        for kind, (log, status, _, told) in logs_at(level):
            name_here = '%s at %s, %s' % (name, level, kind)
            got, said, files = self.bash(words, text.replace('serializable', level), log)
            self.expect(got == status and told in said and self.right(level, said), '%s: status %d: %s' % (name_here, got, said))
            self.expect(status > 1 or said.startswith(LEVELS[level] + ': '), '%s: %s' % (name_here, said))
            self.expect(set(files) == ({'part.log', 'part.log.map'} if status == 1 else set()), '%s: files %s' % (name_here, set(files)))
            self.expect(set(files) | {'run.log'} <= set(kept), '%s: kept are %s' % (name_here, kept))
            if status == 1:
                self.part(name_here, log, files)

    def shell(self, text, level):
        """The shell's step, which leaves JSON."""
        text = text.replace('level=serializable', 'level=' + level)
        for words in ([], ['-eo', 'pipefail']):
            for kind, (log, status, verdict, told) in logs_at(level):
                name = 'shell %s at %s, %s' % (' '.join(words), level, kind)
                got, said, files = self.bash(words, text, log)
                found = json.loads(files['verdict.json'])
                self.expect(got == status and found['verdict'] == verdict and self.right(level, said), '%s: status %d, %s, %s' % (name, got, said, found))
                self.expect(status > 1 or said.startswith(level + (': NOT KEPT, ' if status else ': kept\n')), '%s: %s' % (name, said))
                self.expect(told.strip() in said + files['verdict.json'] or found['code'] in (told[:2], told[-2:]), '%s: %s %s' % (name, said, found))
                self.expect(set(files) == {'verdict.json', *(['part.log', 'part.log.map'] if status == 1 else [])}, '%s: %s' % (name, set(files)))
                if status == 1:
                    self.part(name, log, files)
                    self.expect(found.get('explanation') and found['part'], '%s: %s' % (name, found))
        got, said, files = self.bash([], text.replace('--at-least', '--at-lest'), GOOD)
        self.expect((got, files) == (2, {'verdict.json': ''}) and 'wrong words' in said, 'usage: status %d: %s %s' % (got, said, files))
        got, said, files = self.bash([], text.replace('--part part.log', '--part nowhere/part.log'), LOST)
        self.expect(got == 5 and json.loads(files['verdict.json'])['verdict'] == 'not kept', 'no folder: status %d: %s' % (got, said))
        got, said, files = self.bash([], text, GOOD, part='older')
        self.expect(got == 0 and files['part.log'] == 'older', 'an older part: status %d: %s' % (got, files))


def main():
    if len(sys.argv) != 2 or sys.argv[1].startswith('-'):
        print(__doc__)
        return 0 if '--help' in sys.argv else 2
    with open(os.path.join(TOP, 'docs', 'CI.md'), encoding='utf-8') as file:
        page = file.read()
    [shell], [github, gitlab] = blocks(page, 'sh'), [it.splitlines() for it in blocks(page, 'yaml')]
    with tempfile.TemporaryDirectory() as folder:
        checks = Checks(os.path.abspath(sys.argv[1]), folder)
        for level in LEVELS:
            checks.shell(shell, level)
            # As the runners call their shells, where the step names none.
            checks.step('GitHub', ['-e'], '\n'.join(items(below(github, 'run'))), items(below(github, 'path')), level)
            checks.step('GitLab', ['-eo', 'pipefail'], '\n'.join(items(below(gitlab, 'script'))), items(below(gitlab, 'paths')), level)
        piped = checks.bash(['-e'], '\n'.join(items(below(github, 'run'))) + ' | tee said.txt', LOST)
        checks.expect(piped[0] == 0 and piped[1].startswith('serializability: not kept'), 'a pipe: status %d: %s' % piped[:2])
    print('ci_page: %d passed, %d failed' % (checks.passed, checks.failed))
    return 1 if checks.failed else 0


if __name__ == '__main__':
    sys.exit(main())
