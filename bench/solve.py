#!/usr/bin/env python3
"""solve.py PROGRAM CLAUSES [--logs]: the search of `solve` beside cadical, cryptominisat5, picosat and minisat.

CLAUSES is the program that searches a formula's clauses. It and each solver that is installed get the same formulas, and a line for each says the
processor seconds, the best of three: the formulas of logs in which 8 or 15 transactions that no order explains hide among others, and random
formulas of three literals a clause, 4.26 clauses a variable, at 150 to 250 variables, the sum of ten each. Each answer must be the others'.
Then the command `solve` gets the same logs, beside `check` with the strategy `forced` and a budget of 100,000 cubes. With --logs only that."""
import argparse, os, random, shutil, subprocess, sys, tempfile

from make_noise import EIGHT, FIFTEEN, noisy_log

LOGS = ((20, 4), (50, 8), (80, 12), (120, 20), (160, 30), (200, 30), (220, 60))
VARIABLES, RATIO, SEEDS = (150, 200, 250), 4.26, range(10)
SOLVERS = {'cadical': ['cadical', '-q'], 'cryptominisat5': ['cryptominisat5', '--verb', '0'], 'picosat': ['picosat'],
           'minisat': ['minisat', '-verb=0']}
BUDGET = '10000000'


def timed(words, turns=3):
    """The best time of some turns, and the first line of the answer, or what the exit status says."""
    times = []
    for _ in range(turns):
        ran = subprocess.Popen(words, stdin=subprocess.DEVNULL, stdout=subprocess.PIPE, stderr=subprocess.DEVNULL)
        said = ran.stdout.read().decode().split('\n')[0]
        status, used = os.wait4(ran.pid, 0)[1:]
        times.append(used.ru_utime + used.ru_stime)
    known = {10: 's SATISFIABLE', 20: 's UNSATISFIABLE'}
    return min(times), known.get(os.waitstatus_to_exitcode(status), said)


def random_formula(variables, seed):
    r, count = random.Random(seed), int(variables * RATIO)
    lines = [' '.join(str(v * r.choice((1, -1))) for v in r.sample(range(1, variables + 1), 3)) + ' 0\n' for _ in range(count)]
    return ''.join(['p cnf %d %d\n' % (variables, count), *lines])


def beside(clauses, paths):
    """The times of the search and of each solver over these formulas, and whether all had the same answers."""
    programs = {'clause_search': lambda path: [clauses, path, BUDGET],
                **{name: lambda path, words=words: [*words, path] for name, words in SOLVERS.items() if shutil.which(name)}}
    times, answers = {}, {}
    for name, words in programs.items():
        found = [timed(words(path), 3 if len(paths) == 1 else 1) for path in paths]
        times[name], answers[name] = sum(seconds for seconds, _ in found), [said for _, said in found]
    same = len({tuple(said) for said in answers.values()}) == 1
    return ', '.join('%s %.2f s' % one for one in times.items()) + ('' if same else ': DIFFERENT ANSWERS %r' % answers)


def main():
    parser = argparse.ArgumentParser(description=__doc__, formatter_class=argparse.RawDescriptionHelpFormatter)
    parser.add_argument('program')
    parser.add_argument('clauses')
    parser.add_argument('--logs', action='store_true')
    asked = parser.parse_args()
    program, clauses = os.path.abspath(asked.program), os.path.abspath(asked.clauses)
    with tempfile.TemporaryDirectory() as folder:
        log, formula = os.path.join(folder, 'log'), os.path.join(folder, 'formula')
        for hidden, size in [(hidden, size) for hidden in (EIGHT, FIFTEEN) for size in LOGS]:
            with open(log, 'w') as out:
                out.write(noisy_log(*size, hidden=hidden))
            with open(formula, 'wb') as out:
                subprocess.run([program, 'encode', log], stdout=out, check=True)
            with open(formula) as text:
                count = int(text.readline().split()[3])
            if not asked.logs:
                print('%d and %d transactions, %d clauses: %s' % (size[0], len(hidden), count, beside(clauses, [formula])), flush=True)
            solved = timed([program, 'solve', log])
            checked = timed([program, 'check', '--strategy', 'forced', '--workers', '1', '--budget', '100000', log], 1)
            print('%d and %d transactions: solve %.2f s, %s; check %.2f s, %s' % (size[0], len(hidden), *solved, *checked), flush=True)
        for variables in () if asked.logs else VARIABLES:
            paths = []
            for seed in SEEDS:
                paths.append(os.path.join(folder, 'random %d' % seed))
                with open(paths[-1], 'w') as out:
                    out.write(random_formula(variables, seed))
            print('ten formulas of %d variables: %s' % (variables, beside(clauses, paths)), flush=True)


if __name__ == '__main__':
    main()
