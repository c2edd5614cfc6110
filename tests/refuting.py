#!/usr/bin/env python3
"""refuting.py PROGRAM: `refute` of the built program against real solvers' proofs and against a plain, slow checker in this file.

For each log of examples/ and some hundred made ones, and for its reduced and its plain formula: where the formula cannot be satisfied, each
proof that a solver writes must be accepted, and so must the LRAT that this file makes of it. Then the proofs are damaged in every way:
cut after each byte, literals and numbers changed, lines exchanged, left out, and told twice, and given with a neighbour's log, among
these many that an order explains; and clauses that they need are deleted first, which DRAT forgives. What the program says of each must be what the plain checker says, line and all; and it must never be
yes where an assignment satisfies the formula. R1 to R4 are the program's own refusals of a proof: docs/FORMATS.md has them in words.

The solvers are those that are installed: cadical, which writes DRAT in both forms, and cryptominisat5, whose FRAT becomes DRAT here.
Proofs of a small solver of this file are always among them. Last line: 'refuting: N passed, M failed'."""
import concurrent.futures, os, random, re, shutil, subprocess, sys, tempfile

HERE = os.path.dirname(os.path.abspath(__file__))
sys.path.insert(0, HERE)
import generate

REFUTED = (1, b'not serializable: the formula is refuted\n', b'')
MADE = 60
SMALL = 400
DAMAGES = 12
LONGEST_JUDGED = 6000


# ---- the plain checker

class Bad(Exception):
    """A proof is refused."""


def propagated(clauses, values):
    """The literals that unit propagation makes true, or None where a clause becomes false."""
    values, grew = set(values), True
    while grew:
        grew = False
        for clause in clauses:
            if not any(literal in values for literal in clause):
                left = [literal for literal in clause if -literal not in values]
                if not left:
                    return None
                if len(left) == 1:
                    values.add(left[0])
                    grew = True
    return values


def number(word, line):
    if not re.fullmatch(rb'-?[0-9]{1,18}', word) or (word[:1] == b'-' and int(word) == 0):
        raise Bad('R1 line %d' % line)
    return int(word)


def numbers(words, line):
    """The numbers up to the first 0, and the words behind it."""
    found = []
    for place, word in enumerate(words):
        value = number(word, line)
        if value == 0:
            return found, words[place + 1:]
        found.append(value)
    raise Bad('R1 line %d' % line)


def literals(found, variables, line):
    if any(abs(literal) > variables for literal in found):
        raise Bad('R1 line %d' % line)
    return found


def text_lines(proof):
    """The number and the words of each line that says something."""
    for line, text in enumerate(proof.split(b'\n'), 1):
        words = re.split(rb'[ \t\r]+', text.strip(b' \t\r'))
        if words != [b''] and words[0][:1] not in (b'c', b'%'):
            yield line, words


def form_of(proof):
    if proof[:1] == b'a':
        return 'binary'
    if proof[:1] == b'd' and not re.match(rb'd([ \t\r]+-?[0-9]{1,18})*?[ \t\r]+0+[ \t\r]*(\n|$)', proof):
        return 'binary'
    for line, words in text_lines(proof):
        try:
            if words[0] != b'd' and number(words[0], line) > 0 and (words[1:2] == [b'd'] or numbers(words[1:], line)[1]):
                return 'lrat'
        except Bad:
            pass
        return 'drat'
    return 'drat'


def drat_steps(proof, variables):
    for line, words in text_lines(proof):
        deletes = words[0][:1] == b'd'
        if deletes and words[0] != b'd':
            raise Bad('R1 line %d' % line)
        found, behind = numbers(words[1:] if deletes else words, line)
        if behind:
            raise Bad('R1 line %d' % line)
        yield line, deletes, literals(found, variables, line)


def binary_steps(proof, variables):
    place, line = 0, 0
    while place < len(proof):
        line += 1
        if proof[place] not in b'ad':
            raise Bad('R1 line %d' % line)
        deletes, found, place = proof[place] == ord('d'), [], place + 1
        while True:
            code = 0
            for turn in range(5):
                if place == len(proof):
                    raise Bad('R1 line %d' % line)
                code += (proof[place] & 127) << 7 * turn
                place += 1
                if proof[place - 1] < 128:
                    break
            else:
                raise Bad('R1 line %d' % line)
            if code == 0:
                break
            if not 0 < code >> 1 <= variables:
                raise Bad('R1 line %d' % line)
            found.append(-(code >> 1) if code & 1 else code >> 1)
        yield line, deletes, found


def judge_drat(clauses, steps):
    """The first fault: a clause is to follow from those of the formula and all that were added before it. Deletions ask for nothing."""
    standing = [frozenset(clause) for clause in clauses]
    roots = propagated(standing, ())
    for line, deletes, found in steps:
        clause = frozenset(found)
        if not deletes and not any(-literal in clause for literal in clause):
            if roots is not None and not roots & clause and propagated(standing, roots | {-literal for literal in clause}) is not None:
                raise Bad('R2 line %d' % line)
            if not clause:
                return
            standing.append(clause)
            roots = roots if roots is None else propagated(standing, roots)
    raise Bad('R3')


def judge_lrat(clauses, proof, variables):
    standing, last = {number: clause for number, clause in enumerate(clauses, 1)}, len(clauses)
    for line, words in text_lines(proof):
        own = number(words[0], line)
        if own <= 0:
            raise Bad('R1 line %d' % line)
        deletes = words[1:2] == [b'd']
        found, behind = ([], words[2:]) if deletes else numbers(words[1:], line)
        found = literals(found, variables, line)
        named, behind = numbers(behind, line)
        if behind or any(name not in standing and (name > 0 or deletes) for name in named):
            raise Bad('R1 line %d' % line)
        if deletes:
            for name in named:
                standing.pop(name, None)
            continue
        if own <= last:
            raise Bad('R1 line %d' % line)
        values, closed = {}, False
        for literal in found:
            values.setdefault(abs(literal), literal < 0)
        for name in named:
            left = {literal for literal in standing.get(name, (1, -1)) if values.get(abs(literal), literal > 0) == (literal > 0)}
            closed = not left
            if closed or len(left) > 1 or name < 0:
                break
            literal = left.pop()
            values[abs(literal)] = literal > 0
        if not closed:
            raise Bad('R2 line %d' % line)
        if not found:
            return
        standing[own], last = found, own
    raise Bad('R3')


def judged(formula, proof):
    """What the program is to say."""
    variables, clauses = formula
    try:
        form = form_of(proof)
        if form == 'lrat':
            judge_lrat(clauses, proof, variables)
        else:
            judge_drat(clauses, (binary_steps if form == 'binary' else drat_steps)(proof, variables))
        return REFUTED
    except Bad as bad:
        return 2, b'', ('refused: %s\n' % bad).encode()


# ---- proofs

def own_proof(clauses):
    """A DRAT proof of a small solver that splits: the clause of each closed branch. None where an assignment satisfies the clauses."""
    told = []

    def close(decided):
        values = propagated(clauses, decided)
        if values is not None:
            open_ones = [clause for clause in clauses if not values & set(clause)]
            if not open_ones:
                return False
            choice = next(literal for literal in min(open_ones, key=len) if -literal not in values)
            if not (close(decided + [choice]) and close(decided + [-choice])):
                return False
        told.append([-literal for literal in decided])
        return True

    return text_of(told) if close([]) else None


def text_of(clauses):
    return b''.join(' '.join(map(str, [*clause, 0])).encode() + b'\n' for clause in clauses)


def binary_of(proof, variables):
    """The binary form of a DRAT text."""
    out = bytearray()
    for _, deletes, found in drat_steps(proof, variables):
        out += b'd' if deletes else b'a'
        for literal in [*found, 0]:
            code = 2 * abs(literal) + (literal < 0)
            while code > 127:
                out.append(code & 127 | 128)
                code >>= 7
            out.append(code)
    return bytes(out)


def lrat_of(clauses, proof, variables):
    """The LRAT of a DRAT text: of each step the clauses that unit propagation uses, the first first. Deletions are as the text has them."""
    standing, last, out = dict(enumerate(map(frozenset, clauses), 1)), len(clauses), []
    for _, deletes, found in drat_steps(proof, variables):
        clause = frozenset(found)
        if deletes:
            names = [name for name, other in standing.items() if other == clause and len(other) > 1][:1]
            for name in names:
                del standing[name]
                out.append('%d d %d 0' % (last, name))
            continue
        values, hints, used = {-literal for literal in clause}, [], None
        while used is None or used[1]:
            used = next(((name, left) for name, other in standing.items() if not values & other
                         for left in [[literal for literal in other if -literal not in values]] if len(left) < 2), None)
            if used is None:
                break
            hints.append(used[0])
            values.update(used[1])
        last += 1
        standing[last] = clause
        out.append(' '.join(map(str, [last, *found, 0, *hints, 0])))
        if not clause:
            break
    return ('\n'.join(out) + '\n').encode()


def drat_of_frat(proof):
    """The steps of cryptominisat5's proof as DRAT."""
    out = []
    for line in proof.decode().split('\n'):
        words = line.split()
        if words[:1] in (['a'], ['d']):
            words = words[:words.index('l')] if 'l' in words else words
            out.append(' '.join((['d'] if words[0] == 'd' else []) + words[2:]))
    return ('\n'.join(out) + '\n').encode()


def read_formula(text):
    """The number of variables of a formula, and its clauses."""
    lines = text.decode().split('\n')
    return int(lines[0].split()[2]), [[int(word) for word in line.split()[:-1]] for line in lines[1:] if line]


def solvers_proofs(path, folder):
    """Of each solver that is installed its name and its proof."""
    made = os.path.join(folder, 'made')
    for name, words in (('cadical', ['cadical', '-q', path, made]), ('cadical text', ['cadical', '-q', '--no-binary', path, made]),
                        ('cryptominisat5', ['cryptominisat5', '--verb', '0', path, made])):
        if shutil.which(words[0]):
            subprocess.run(words, stdin=subprocess.DEVNULL, stdout=subprocess.PIPE, timeout=120)
            with open(made, 'rb') as proof:
                text = proof.read()
            yield name, drat_of_frat(text) if name == 'cryptominisat5' else text


# ---- damage

def damaged(r, proof):
    """A proof with a fault somewhere."""
    way = r.randrange(8)
    if way == 0:
        return proof[:r.randrange(len(proof) + 1)]
    if way == 1:
        at = r.randrange(len(proof) + 1)
        return proof[:at] + bytes([r.choice(b'0123456789-d ac\n\x00\x01\x80\xff')]) + proof[at + r.randrange(2):]
    lines = proof.split(b'\n')
    at, to = r.randrange(len(lines)), r.randrange(len(lines))
    if way == 2:
        lines[at], lines[to] = lines[to], lines[at]
    elif way == 3:
        del lines[at]
    elif way == 4:
        lines.insert(to, lines[at])
    elif way == 5:
        lines[at] = b'd ' + lines[at]
    else:
        words = lines[at].split(b' ')
        place = r.randrange(len(words))
        if re.fullmatch(rb'-?[0-9]+', words[place]):
            words[place] = str(r.choice((-int(words[place]), int(words[place]) + r.choice((-1, 1)), 0, 10 ** r.randrange(21)))).encode()
        else:
            del words[place]
        lines[at] = b' '.join(words)
    return b'\n'.join(lines)


class Runs:
    def __init__(self, program, folder):
        self.program, self.folder = program, folder
        self.passed, self.failed = 0, []

    def expect(self, holds, what):
        if holds:
            self.passed += 1
        else:
            self.failed.append(what)
            print('FAILED', what)

    def call(self, *words):
        ran = subprocess.run([self.program, *words], stdin=subprocess.DEVNULL, stdout=subprocess.PIPE, stderr=subprocess.PIPE, timeout=120)
        return ran.returncode, ran.stdout, ran.stderr

    def kept(self, name, text):
        path = os.path.join(self.folder, name)
        with open(path, 'wb') as out:
            out.write(text)
        return path

    def refute(self, name, log, plain, proof):
        path = self.kept(name, proof)
        return self.call('refute', *plain, '--proof', path, log)

    def case(self, made):
        """A log with one formula: what is told of it, and a list of proofs."""
        name, text, plain, seed = made
        r, told = random.Random(seed), []
        with tempfile.TemporaryDirectory(dir=self.folder) as folder:
            runs = Runs(self.program, folder)
            log = runs.kept('log', text)
            status, formula, error = runs.call('encode', *plain, log)
            if status:
                got = runs.refute('proof', log, plain, b'0\n')
                return [(got == (status, b'', error), '%s: %r' % (name, got))]
            variables, clauses = read_formula(formula)
            small = len(clauses) <= SMALL
            path = runs.kept('formula', formula)
            own = own_proof(clauses) if small else None
            proofs = list(solvers_proofs(path, folder))
            unsatisfiable = own is not None if small else b'UNSAT' in runs_solver(path)
            if own is not None:
                proofs += [('own', own), ('own, binary', binary_of(own, variables)), ('own, LRAT', lrat_of(clauses, own, variables))]
                proofs += [(solver + ', LRAT', lrat_of(clauses, proof, variables)) for solver, proof in proofs if solver in ('cadical text',)]
            for solver, proof in proofs:
                got = runs.refute('proof', log, plain, proof)
                if unsatisfiable:
                    told.append((got == REFUTED, '%s, %s: %r' % (name, solver, got)))
                else:
                    told.append((got[0] == 2 and not got[1], '%s, %s: %r of a formula that is satisfied' % (name, solver, got)))
            if not small:
                return told
            among = [proof for _, proof in proofs if len(proof) < LONGEST_JUDGED] + [b'0\n', b'a\x00', b'', b'%d 0 1 0\n' % (len(clauses) + 1)]
            spoilt = [damaged(r, r.choice(among)) for _ in range(DAMAGES)]
            if seed % 10 == 0:
                shortest = min(among, key=len, default=b'') if seed % 20 else own or b'1 0\n'
                spoilt += [shortest[:end] for end in range(min(len(shortest), 60))]
            for proof in among + spoilt:
                got, wanted = runs.refute('proof', log, plain, proof), judged((variables, clauses), proof)
                told.append((got == wanted, '%s: %r is told as %r, wanted %r' % (name, proof[:300], got, wanted)))
                told.append((unsatisfiable or got[0] != 1, '%s: yes of a formula that is satisfied' % name))
        return told

    def neighbours(self, logs):
        """Each proof of a log's formula with the formulas of others."""
        for (name, text), (_, other) in zip(logs, logs[1:] + logs[:1]):
            log, neighbour = self.kept('log', text), self.kept('neighbour', other)
            formulas = []
            for path in (log, neighbour):
                status, formula, _ = self.call('encode', path)
                formulas.append(None if status else read_formula(formula))
            if None in formulas or max(len(clauses) for _, clauses in formulas) > SMALL:
                continue
            proof = own_proof(formulas[0][1])
            if proof is not None:
                got, wanted = self.refute('proof', neighbour, [], proof), judged(formulas[1], proof)
                self.expect(got == wanted, 'the proof of %s for another log: %r, wanted %r' % (name, got, wanted))
                self.expect(got[0] != 1 or own_proof(formulas[1][1]) is not None, 'the proof of %s refutes a log that has an order' % name)


    def deletions(self):
        """Clauses that a proof needs, and deletes before, and all that it adds: DRAT is accepted in each form; where a clause then does not follow, it
        is refused at the line that the plain checker has. LRAT is refused."""
        log = os.path.join(generate.EXAMPLES, 'crossed_readers.log')
        variables, clauses = read_formula(self.call('encode', log)[1])
        own = own_proof(clauses)
        deleted = lambda some: b''.join(b'd %s 0\n' % b' '.join(b'%d' % literal for literal in clause) for clause in some)
        added = [line + b'\n' for line in own.split(b'\n')[:-1]]
        eager = b''.join(b''.join(added[:place]) + b''.join(b'd ' + line for line in added[:place]) for place in range(1, len(added))) + added[-1]
        for proof in [deleted([clause]) + own for clause in clauses] + [deleted(clauses) + own, own, deleted(clauses) + eager]:
            for form in (proof, binary_of(proof, variables)):
                self.expect(self.refute('proof', log, [], form) == REFUTED == judged((variables, clauses), form), 'deletions are not passed over: %r' % form)
        for proof in [deleted(some) + b''.join(added[place:]) for some in ([], clauses) for place in range(1, len(added))]:
            got, wanted = self.refute('proof', log, [], proof), judged((variables, clauses), proof)
            self.expect(got == wanted, 'clauses are deleted, and some not added: %r, wanted %r' % (got, wanted))
        first = lrat_of(clauses, own, variables).split(b'\n')[0]
        used = first.split(b' 0 ')[1].split(b' ')[0]
        proof = b'%d d %s 0\n' % (len(clauses), used) + lrat_of(clauses, own, variables)
        got, wanted = self.refute('proof', log, [], proof), judged((variables, clauses), proof)
        self.expect(got == wanted != REFUTED, 'LRAT deletes clause %s: %r, wanted %r' % (used, got, wanted))


def runs_solver(path):
    """The answer of a solver, where one is installed."""
    if not shutil.which('cadical'):
        return b''
    return subprocess.run(['cadical', '-q', path], stdin=subprocess.DEVNULL, stdout=subprocess.PIPE, timeout=120).stdout


def main():
    if '--help' in sys.argv:
        return print(__doc__)
    program = os.path.abspath(sys.argv[1])
    logs = list(generate.examples((1, 2, 3)))
    logs += [('made log %d, version %d' % (seed, version), generate.small_log(seed, version)) for version in (1, 2, 3) for seed in range(MADE)]
    with tempfile.TemporaryDirectory() as folder:
        runs = Runs(program, folder)
        made = [(name + ', plain' * bool(plain), text, plain, seed) for seed, (name, text) in enumerate(logs) for plain in ([], ['--plain'])]
        with concurrent.futures.ThreadPoolExecutor() as pool:
            for told in pool.map(runs.case, made):
                for holds, what in told:
                    runs.expect(holds, what)
        runs.neighbours(logs)
        runs.deletions()
    print('refuting: %d passed, %d failed' % (runs.passed, len(runs.failed)))
    sys.exit(1 if runs.failed else 0)


if __name__ == '__main__':
    main()
