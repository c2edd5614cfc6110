#!/usr/bin/env python3
"""solving.py PROGRAM CLAUSES [--count N] [--seed N]: the search over formulas, by itself and as the command `solve`, against all assignments,
all orders, and real solvers.

CLAUSES is the program that searches a formula's clauses. Of N random formulas (2,000 where it is not said) those of up to nine variables are
tried with all assignments; the larger ones with the solvers that are installed. An assignment must satisfy each clause, `s UNSATISFIABLE` may be
said only where none does, and with a budget of one conflict the answer must be right or `s UNKNOWN`.

Then PROGRAM gets the logs of examples/ and a third as many made ones, of all versions: what `solve` says, with the reduced formula and with
`--plain`, must be what the plain, slow reference beside this file finds. With one worker and with four, and again, it must be the same text. Logs in
which 8 or 15 transactions that no order explains stand among up to 200 others must be decided too. Last line: 'solving: N passed, M failed'."""
import argparse, concurrent.futures, os, random, shutil, subprocess, sys, tempfile

HERE = os.path.dirname(os.path.abspath(__file__))
sys.path[:0] = [HERE, os.path.join(HERE, '..', 'bench')]
import generate, reference
from make_noise import EIGHT, FIFTEEN, noisy_log

REFUTED = (1, 'not serializable: the formula is refuted\n', '')
FEW_VARIABLES = 9
SOLVERS = [words for words in (('cadical', '-q'), ('picosat',), ('cryptominisat5', '--verb', '0'), ('minisat', '-verb=0')) if shutil.which(words[0])]


def random_formula(seed):
    """The number of variables and the clauses of a formula: some have clauses of all lengths, literals twice, and a literal and its negation."""
    r = random.Random(seed)
    variables = r.choice((r.randint(1, FEW_VARIABLES), r.randint(1, FEW_VARIABLES), r.randint(10, 60)))
    lengths = r.choice(((3,), (2, 3), (1, 2, 3), (1, 2, 3, 4, 9), (2,), (0, 1, 3, 3, 3, 3)))
    count = r.randint(0, int(variables * r.choice((1, 3, 4.3, 5, 8))))
    return variables, [[r.choice((1, -1)) * r.randint(1, variables) for _ in range(r.choice(lengths))] for _ in range(count)]


def is_satisfiable(variables, clauses):
    """By all assignments at once: a number has a bit for each of them."""
    all_of_them = (1 << (1 << variables)) - 1
    where = {}
    for variable in range(1, variables + 1):
        half = 1 << (variable - 1)
        where[-variable] = sum(((1 << half) - 1) << start for start in range(0, 1 << variables, 2 * half))
        where[variable] = all_of_them & ~where[-variable]
    left = all_of_them
    for clause in clauses:
        some = 0
        for literal in clause:
            some |= where[literal]
        left &= some
    return left != 0


def said_by_solver(path, seed):
    """Whether an installed solver finds the formula satisfiable, each in its turn; None where none is installed."""
    if not SOLVERS:
        return None
    ran = subprocess.run([*SOLVERS[seed % len(SOLVERS)], path], stdout=subprocess.PIPE, stderr=subprocess.PIPE, stdin=subprocess.DEVNULL, timeout=120)
    return {10: True, 20: False}[ran.returncode]


def fault_in_answer(said, satisfiable, variables, clauses):
    """What is wrong with what CLAUSES says of a formula, or None."""
    lines = said.split('\n')
    if lines[0] == 's UNSATISFIABLE':
        return 'it is satisfiable' if satisfiable else None
    if lines[0] != 's SATISFIABLE':
        return 'no answer: %r' % lines[0]
    values = [int(word) for word in lines[1].split()[1:-1]]
    if [abs(value) for value in values] != list(range(1, variables + 1)):
        return 'not a value for each variable'
    return None if all(any(literal in values for literal in map(int, clause)) for clause in clauses) else 'a clause is false'


def judged_formula(clauses_program, seed, folder):
    variables, clauses = random_formula(seed)
    path = os.path.join(folder, 'formula %d' % seed)
    with open(path, 'w') as out:
        out.write('p cnf %d %d\n' % (variables, len(clauses)) + ''.join(' '.join(map(str, clause + [0])) + '\n' for clause in clauses))
    said = {budget: subprocess.run([clauses_program, path, budget], stdout=subprocess.PIPE, timeout=120).stdout.decode() for budget in ('1000000', '1')}
    satisfiable = is_satisfiable(variables, clauses) if variables <= FEW_VARIABLES else said_by_solver(path, seed)
    os.remove(path)
    found = []
    for budget, text in said.items():
        fault = None if (budget, text[:9]) == ('1', 's UNKNOWN') else fault_in_answer(text, satisfiable, variables, clauses)
        found.append(fault and 'formula %d, budget %s: %s' % (seed, budget, fault))
    return 'satisfiable' if satisfiable else 'unsatisfiable', found


def call(program, text, *words):
    ran = subprocess.run([program, 'solve', *words], input=text, stdout=subprocess.PIPE, stderr=subprocess.PIPE, timeout=120)
    return ran.returncode, ran.stdout.decode(), ran.stderr.decode()


def fault_in_order(history, answer):
    """What is wrong with an answer that is to be a serial order, or None."""
    status, said, error = answer
    first, *lines = said.split('\n')
    if (status, first, error) != (0, 'serializable', '') or lines[-1:] != ['']:
        return 'there is an order'
    names = [tuple(map(int, line.split())) for line in lines[:-1]]
    if any(name not in history.names for name in names):
        return 'no such transaction'
    return None if history.is_serial([history.names.index(name) for name in names]) else 'the order is not serial'


def judged_log(program, name, text):
    try:
        history = reference.History(reference.read_log(text))
    except reference.Refused as refused:
        wanted = (2, '', 'refused: %s\n' % refused)
        return 'refused', [None if call(program, text, *words) == wanted else '%s: not %r' % (name, wanted) for words in ([], ['--plain'])]
    explained, found = history.has_serial_order(), []
    for words in ([], ['--plain']):
        answer, again = call(program, text, '--workers', '1', *words), call(program, text, '--workers', '4', *words)
        fault = fault_in_order(history, answer) if explained else None if answer == REFUTED else 'there is no order'
        found.append(fault and '%s %s: %s: %r' % (name, words, fault, answer))
        found.append(None if answer == again else '%s %s: %r, and again %r' % (name, words, answer, again))
        short = call(program, text, '--budget', '1', *words)
        found.append(None if short in (answer, (3, 'unknown: 1 conflicts\n', '')) else '%s %s, budget 1: %r' % (name, words, short))
    return 'explained' if explained else 'not explained', found


def judged_noise(program, hidden, count, keys):
    answer = call(program, noisy_log(count, keys, hidden=hidden).encode())
    return 'noise', [None if answer == REFUTED else '%d transactions among %d: %r' % (len(hidden), count, answer)]


def main():
    parser = argparse.ArgumentParser(description=__doc__, formatter_class=argparse.RawDescriptionHelpFormatter)
    parser.add_argument('program')
    parser.add_argument('clauses')
    parser.add_argument('--count', type=int, default=2000)
    parser.add_argument('--seed', type=int, default=0)
    asked = parser.parse_args()
    program, clauses = os.path.abspath(asked.program), os.path.abspath(asked.clauses)
    passed, failed, kinds = 0, 0, {}
    with tempfile.TemporaryDirectory() as folder, concurrent.futures.ThreadPoolExecutor() as pool:
        jobs = [(judged_formula, clauses, asked.seed + turn, folder) for turn in range(asked.count)]
        jobs += [(judged_log, program, name, text) for name, text in generate.examples((1, 2, 3)) if text.count(b'commit') <= 9]
        jobs += [(judged_log, program, 'made log %d' % seed, generate.small_log(seed, 1 + turn % 3))
                 for turn in range(asked.count // 3) for seed in (asked.seed + turn,)]
        jobs += [(judged_noise, program, hidden, *size) for hidden in (EIGHT, FIFTEEN) for size in ((20, 4), (50, 8), (100, 16), (200, 30))]
        for kind, found in pool.map(lambda job: job[0](*job[1:]), jobs):
            kinds[kind] = kinds.get(kind, 0) + 1
            for fault in found:
                if fault:
                    failed += 1
                    print('FAILED', fault)
                else:
                    passed += 1
    print('solving: %s' % ', '.join('%s %d' % kind for kind in sorted(kinds.items())))
    print('solving: %d passed, %d failed' % (passed, failed))
    sys.exit(1 if failed else 0)


main()
