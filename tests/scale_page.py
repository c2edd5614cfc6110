#!/usr/bin/env python3
"""scale_page.py PROGRAM: the scripts of docs/SCALE.md that judge the rounds of a run, word by word, run by bash with the program on the path.

Rounds of SQLite are judged by GNU parallel (where it is installed), by each task of the array, by each pod of the Job, whose YAML is read (where
a Python has yaml), and by each share of the matrix. Each round has an answer then, and the greatest status is 0; with one round spoilt it is 1,
and the page's line for what is not kept names that round. Last line: 'scale_page: N passed, M failed'."""
import os, re, shutil, subprocess, sys, tempfile, textwrap
from ci_page import TOP, Checks, blocks

SPOILT = 'rounds/000004.log'


class Pages(Checks):
    def __init__(self, program, folder):
        super().__init__(program, folder)
        self.made, self.rounds = os.path.join(folder, 'made'), os.path.join(folder, 'rounds')
        subprocess.run([sys.executable, os.path.join(TOP, 'collect', 'sqlite.py'), self.made, '--transactions', '400', '--rounds', '50', '--pause', '0'],
                       check=True, stderr=subprocess.DEVNULL)

    def bash(self, text, **more):
        return subprocess.run(['bash', '-e', '-c', text], cwd=self.folder, env={**self.around, **more}, stdin=subprocess.DEVNULL,
                              stdout=subprocess.PIPE, stderr=subprocess.PIPE, universal_newlines=True)

    def judges(self, name, texts, is_whole=True):
        """These texts and their variables judge the run, and then with a round of which a read names what nobody wrote."""
        for is_spoilt in (False, True):
            shutil.rmtree(self.rounds, ignore_errors=True)
            shutil.copytree(self.made, self.rounds)
            if is_spoilt:
                path = os.path.join(self.folder, SPOILT)
                with open(path) as log:
                    text = log.read()
                with open(path, 'w') as log:
                    log.write(re.sub(r'\nr (k[0-9]+) [0-9]+\n', r'\nr \1 999\n', text, count=1))
            status = max(self.bash(text, **more).returncode for text, more in texts)
            names = os.listdir(self.rounds)
            logs, answers = ({it[:6] for it in names if it.endswith(end)} for end in ('.log', '.answer'))
            self.expect(status == is_spoilt and (answers == logs or is_spoilt and not is_whole), '%s: status %d, %s' % (name, status, sorted(names)))
            told = self.bash(self.refused).stdout
            self.expect(told == SPOILT.replace('.log', '.answer\n') * is_spoilt, '%s: %s' % (name, told))


def main():
    if len(sys.argv) != 2 or sys.argv[1].startswith('-'):
        print(__doc__)
        return 0 if sys.argv[1:] == ['--help'] else 2
    with open(os.path.join(TOP, 'docs', 'SCALE.md')) as file:
        page = file.read()
    shells, (yaml,) = blocks(page, 'sh'), blocks(page, 'yaml')
    with tempfile.TemporaryDirectory() as folder:
        checks = Pages(os.path.abspath(sys.argv[1]), folder)
        checks.refused = next(it for it in shells if it.startswith('grep')).partition('\n')[0]
        if shutil.which('parallel'):
            on_one = next(it for it in shells if it.startswith('parallel --halt')).replace('./run', 'cobra_poly')
            checks.judges('parallel', [(on_one, {'HOME': folder})], is_whole=False)
        else:
            print('scale_page: note: GNU parallel is not installed, and passed over')
        array = next(it for it in shells if '#SBATCH' in it)
        count = int(re.search('--array=0-([0-9]+)', array)[1]) + 1
        checks.judges('array', [(array, {'SLURM_ARRAY_TASK_ID': str(n), 'SLURM_ARRAY_TASK_COUNT': str(count)}) for n in range(count)])
        pod = textwrap.dedent(yaml.partition('- |\n')[2])
        count = int(re.search('completions: ([0-9]+)', yaml)[1])
        checks.judges('pods', [(pod.replace('/rounds/', 'rounds/'), {'JOB_COMPLETION_INDEX': str(n)}) for n in range(count)])
        for python in (sys.executable, '/usr/bin/python3'):
            read = "import sys, yaml; job = yaml.safe_load(sys.stdin); print(job['spec']['template']['spec']['containers'][0]['args'][0])"
            ran = subprocess.run([python, '-c', read], input=yaml, stdout=subprocess.PIPE, stderr=subprocess.DEVNULL, universal_newlines=True)
            if ran.returncode == 0:
                checks.expect(ran.stdout.strip() == pod.strip(), 'YAML: %s' % ran.stdout)
                break
        share = next(it for it in shells if 'matrix.share' in it)
        checks.judges('matrix', [(share.replace('${{ matrix.share }}', str(n)), {}) for n in range(8)])
        print('scale_page: %d passed, %d failed' % (checks.passed, checks.failed))
        return 1 if checks.failed else 0


if __name__ == '__main__':
    sys.exit(main())
