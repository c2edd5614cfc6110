#!/usr/bin/env python3
"""lrat.py PROGRAM: how fast `refute` checks an LRAT proof of some 20 MB.

No solver here writes LRAT, so cadical's DRAT proof of a small log's formula is turned into LRAT as tests/refuting.py does it, and its
steps are told again and again under further IDs, each time deleted, until they are 20 MB. Prints the bytes of the proof, and of three
runs the processor seconds, megabytes a second and the greatest memory. Needs cadical."""
import importlib.util, os, subprocess, sys, tempfile

sys.dont_write_bytecode = True
HERE = os.path.dirname(os.path.abspath(__file__))
BYTES = 20_000_000


def script(*path):
    spec = importlib.util.spec_from_file_location(path[-1], os.path.join(HERE, *path) + '.py')
    module = importlib.util.module_from_spec(spec)
    spec.loader.exec_module(module)
    return module


def steps_of(lrat):
    """The ID, the literals and the hints of each step that adds a clause."""
    steps = []
    for line in lrat.decode().splitlines():
        words = line.split()
        if words[1] != 'd':
            numbers = list(map(int, words))
            zero = numbers.index(0, 1)
            steps.append((numbers[0], numbers[1:zero], numbers[zero + 1:-1]))
    return steps


def moved(steps, count, by):
    """The steps under IDs that are greater by so much; the formula's clauses keep theirs."""
    return ''.join(' '.join(map(str, [own + by, *literals, 0, *(hint + by if hint > count else hint for hint in hints), 0])) + '\n'
                   for own, literals, hints in steps)


def repeated(steps, count):
    """The steps again and again, up to the empty clause."""
    body, told, size, by = [step for step in steps if step[1]], [], 0, 0
    while size < BYTES:
        told.append(moved(body, count, by) + '%d d %s 0\n' % (body[-1][0] + by, ' '.join(str(own + by) for own, _, _ in body)))
        size, by = size + len(told[-1]), by + len(steps)
    return ''.join([*told, moved(steps, count, by)]).encode()


def main():
    if len(sys.argv) != 2 or sys.argv[1].startswith('-'):
        print(__doc__)
        sys.exit(0 if sys.argv[1:] in (['--help'], ['-h']) else 2)
    program, log_text, lrat_of = os.path.abspath(sys.argv[1]), script('make_noise').noisy_log, script('..', 'tests', 'refuting').lrat_of
    with tempfile.TemporaryDirectory() as folder:
        log, formula, proof = (os.path.join(folder, name) for name in ('log', 'formula', 'proof'))
        with open(log, 'w') as out:
            out.write(log_text(16, 3))
        with open(formula, 'wb') as out:
            subprocess.run([program, 'encode', log], stdout=out, check=True)
        with open(formula) as text:
            head, *lines = text.read().splitlines()
        clauses = [[int(word) for word in line.split()[:-1]] for line in lines]
        subprocess.run(['cadical', '-q', '--no-binary', formula, proof], stdout=subprocess.DEVNULL)
        with open(proof, 'rb') as text:
            lrat = lrat_of(clauses, text.read(), int(head.split()[2]))
        with open(proof, 'wb') as out:
            size = out.write(repeated(steps_of(lrat), len(clauses)))
        for _ in range(3):
            ran = subprocess.Popen([program, 'refute', '--proof', proof, log], stdin=subprocess.DEVNULL, stdout=subprocess.DEVNULL)
            status, used = os.wait4(ran.pid, 0)[1:]
            seconds = used.ru_utime + used.ru_stime
            print('%d bytes: %.2f s, %.0f MB a second, %d MiB; status %d' % (
                size, seconds, size / seconds / 1e6, used.ru_maxrss // 1024, os.waitstatus_to_exitcode(status)), flush=True)


if __name__ == '__main__':
    main()
