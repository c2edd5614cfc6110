#!/usr/bin/env python3
"""solvers.py PROGRAM [--version-1]: the built program against real SAT solvers, against the plain, slow reference beside this file, and
against all orders of small logs.

For each log of examples/ and a few hundred made ones, and for its reduced and its plain formula: the formula's text must be the
reference's, byte for byte; each solver's answer goes back into `decode`; each order that comes out must be accepted by `verify`;
where a solver says UNSATISFIABLE, no order of the at most seven transactions may be serial. Thousands of small logs, most of them
damaged, go through `stats` of both, whose refusals and counts must be the reference's. With --version-1 all logs are of version 1.

The solvers are those that are installed, which .ci/install_solvers sees to. Where there is none, a small solver of this file's own
takes their place, and the output says so. Last line: 'solvers: N passed, M failed'."""
import os, shutil, subprocess, sys, tempfile, concurrent.futures

HERE = os.path.dirname(os.path.abspath(__file__))
sys.path.insert(0, HERE)
import generate, reference

SOLVERS = {'cadical': ['cadical', '-q'], 'picosat': ['picosat'], 'cryptominisat': ['cryptominisat5', '--verb', '0']}
MADE, DAMAGED = {1: 200, 2: 130, 3: 170}, {1: 6000, 2: 4000, 3: 6000}


def installed():
    """The solvers that can be run here."""
    return {package: words for package, words in SOLVERS.items() if shutil.which(words[0])}


def own_answer(text):
    """The answer of a small backtracking solver, in the format of the competitions."""
    lines = text.decode().split('\n')
    variables = int(lines[0].split()[2])
    clauses = [[int(word) for word in line.split()[:-1]] for line in lines[1:] if line]

    def solve(clauses, values):
        while True:
            units = [c[0] for c in clauses if len(c) == 1]
            if not units:
                break
            values = values | {units[0]}
            clauses = [[l for l in c if l != -units[0]] for c in clauses if units[0] not in c]
        if any(not c for c in clauses):
            return None
        if not clauses:
            return values
        for choice in (clauses[0][0], -clauses[0][0]):
            found = solve(clauses + [[choice]], values)
            if found is not None:
                return found
        return None

    values = solve(clauses, frozenset())
    if values is None:
        return b's UNSATISFIABLE\n'
    return ('s SATISFIABLE\nv %s 0\n' % ' '.join(str(v if v in values else -v) for v in range(1, variables + 1))).encode()


class Runs:
    def __init__(self, program, solvers, folder):
        self.program, self.solvers, self.folder = program, solvers, folder
        self.passed, self.failed = 0, []

    def call(self, *words, stdin=b''):
        ran = subprocess.run([self.program, *words], input=stdin, stdout=subprocess.PIPE, stderr=subprocess.PIPE, timeout=120)
        return ran.returncode, ran.stdout, ran.stderr

    def expect(self, holds, what):
        if holds:
            self.passed += 1
        else:
            self.failed.append(what)
            print('FAILED', what)

    def answers(self, formula):
        path = os.path.join(self.folder, 'formula.cnf')
        with open(path, 'wb') as out:
            out.write(formula)
        for name, words in self.solvers.items():
            yield name, subprocess.run(words + [path], stdin=subprocess.DEVNULL, stdout=subprocess.PIPE, timeout=120).stdout
        if not self.solvers:
            yield 'own', own_answer(formula)

    def whole_way(self, name, text):
        """From a log to orders, by each solver, with both formulas."""
        for plain in (False, True):
            self.by_formula('%s%s' % (name, ', plain' if plain else ''), text, plain)

    def by_formula(self, name, text, plain):
        asked = ['--plain'] if plain else []
        log, model, order = (os.path.join(self.folder, n) for n in ('log', 'model', 'order'))
        with open(log, 'wb') as out:
            out.write(text)
        status, formula, error = self.call('encode', *asked, log)
        try:
            wanted, refusal = reference.formula_text(text, plain), b''
        except reference.Refused as refused:
            wanted, refusal = b'', ('refused: %s\n' % refused).encode()
        self.expect((status, formula, error) == (2 if refusal else 0, wanted, refusal), '%s: encode' % name)
        if refusal:
            return
        history = reference.History(reference.read_log(text))
        orders = history.serial_orders() if history.n <= 7 else None
        for solver, answer in self.answers(formula):
            with open(model, 'wb') as out:
                out.write(answer)
            status, listed, error = self.call('decode', *asked, '--model', model, log)
            if b's UNSATISFIABLE' in answer:
                self.expect((status, listed) == (3, b'unsatisfiable claimed, not checked\n'), '%s: decode of %s' % (name, solver))
                self.expect(not orders, '%s: %s finds no order, and there is one' % (name, solver))
                continue
            self.expect(status == 0 and error == b'', '%s: decode of %s: %r' % (name, solver, error))
            with open(order, 'wb') as out:
                out.write(listed)
            self.expect(self.call('verify', '--order', order, log) == (0, b'accepted\n', b''), '%s: verify of %s' % (name, solver))
            names = [tuple(map(int, line.split())) for line in listed.decode().split('\n') if line]
            self.expect(history.is_serial([history.names.index(n) for n in names]), '%s: order of %s' % (name, solver))

    def counts(self, made):
        """The refusal or the counts of a damaged log, as the reference has them, with both formulas."""
        text, told = generate.damaged(*made), []
        for plain in (False, True):
            try:
                wanted = (0, reference.stats_text(text, plain), b'')
            except reference.Refused as refused:
                wanted = (2, b'', ('refused: %s\n' % refused).encode())
            got = self.call('stats', *(['--plain'] if plain else []), stdin=text)
            told.append((got == wanted, 'damaged log %d, version %d%s: %r, wanted %r' % (*made, ', plain' if plain else '', got, wanted)))
        return told


def main():
    if '--help' in sys.argv:
        return print(__doc__)
    program, versions = os.path.abspath(sys.argv[1]), generate.versions(sys.argv)
    solvers = installed()
    with tempfile.TemporaryDirectory() as folder:
        runs = Runs(program, solvers, folder)
        for name, text in generate.examples(versions):
            runs.whole_way(name, text)
        for version in versions:
            for seed in range(MADE[version]):
                runs.whole_way('made log %d, version %d' % (seed, version), generate.small_log(seed, version))
        with concurrent.futures.ThreadPoolExecutor() as pool:
            for told in pool.map(runs.counts, [(seed, version) for version in versions for seed in range(DAMAGED[version])]):
                for holds, what in told:
                    runs.expect(holds, what)
    print('solvers: %s' % (', '.join(solvers) or 'none but the one of tests/solvers.py'))
    print('solvers: %d passed, %d failed' % (runs.passed, len(runs.failed)))
    sys.exit(1 if runs.failed else 0)


if __name__ == '__main__':
    main()
