#!/usr/bin/env python3
"""refused_in_library.py KIT [--version-1]: each allocation of calls of the library is refused in turn.

A small program, tests/library_calls.txt, calls `encode`, `stats`, `check`, `explain` and `decode` over bytes in memory, and a desk. It is built
unproved by the toolchain in KIT, in about a minute, and then run with the Nth request for memory refused, for N = 1, 2, .. until runs
make fewer, by 1 and by 4 workers, on example logs, with --version-1 of version 1 alone. Each call must end in its answer, which
tests/answers.py works out, or in the refusal `Memory`; its sink must not have counted a failure, and holds the text, after a refused call
a prefix of it. A desk must close with a history that is legal and has each call of each seat once, in order, and in some run an event must
have come back. Needs a C compiler.

Last line: 'refused in library: N passed, M failed'."""
import concurrent.futures, os, shutil, subprocess, sys, tempfile, time

HERE = os.path.dirname(os.path.abspath(__file__))
TOP = os.path.dirname(HERE)
sys.path[:0] = [HERE, os.path.join(TOP, 'tools')]
import answers, build_unproved, explained, generate, reference
from refused_memory import REFUSES, c_compiler

# Stands before the allocator that the program is linked with.
LINKED = REFUSES + r'''
void *__real_malloc(size_t); void *__wrap_malloc(size_t n) { return refuses() ? refused() : __real_malloc(n); }
void *__real_realloc(void *, size_t); void *__wrap_realloc(void *p, size_t n) { return refuses() ? refused() : __real_realloc(p, n); }
'''
NAME = 'library_calls'
BELOW = 'branch_search cobra_cli desk dimacs output session_log'
LOGS = ('lost_update', 'crossed_readers', 'chain', 'two_writers', 'forced_choices', 'unknown_read', 'unknown_chain', 'overlap_in_time', 'stale_in_time',
        'five_reasons')
MODELS = {'chain': b's SATISFIABLE\n', 'forced_choices': b's SATISFIABLE\n', 'two_writers': b's SATISFIABLE\nv 1 -2 3 0\n',
          'unknown_read': b's SATISFIABLE\nv 1 -2 3 0\n', 'unknown_chain': b's SATISFIABLE\n', 'overlap_in_time': b's SATISFIABLE\n'}
# The graph of `five_reasons` has an edge of each kind for which a log gives a reason.
EXPLAINED = {'crossed_readers': 'explain', 'five_reasons': 'graph', 'lost_update': 'graph', 'stale_in_time': 'explain'}
WORKERS = ('1', '4')
MEMORY = ('Memory', 'Log(Memory)', 'Formula(Memory)', 'Answer(Memory)', 'Order(Memory)')
# Runs side by side, of which none may meet a refusal any more at the end of a sweep.
STRIDE, MOST, LATE = 12, 3000, 60


class Sweeps:
    def __init__(self, program, folder, pool):
        self.program, self.folder, self.pool = program, folder, pool
        self.passed, self.failed, self.in_spite, self.came_back, self.unbegun = 0, 0, 0, 0, 0

    def run(self, words, n):
        """What the program says where its Nth request for memory is refused, and whether it made so many."""
        told = os.path.join(self.folder, 'told %d' % n)
        place = dict(os.environ, REFUSED=str(n), TOLD=told)
        try:
            ran = subprocess.run([self.program, *words], stdin=subprocess.DEVNULL, stdout=subprocess.PIPE, stderr=subprocess.PIPE, env=place, timeout=LATE)
        except subprocess.TimeoutExpired:
            return None, False
        met = os.path.exists(told)
        if met:
            os.remove(told)
        return (ran.returncode, ran.stdout, ran.stderr), met

    def sweep(self, name, words, fault):
        """Judges the runs with each request refused; `fault` finds what is wrong with what was said, and None where nothing is."""
        ample, _ = self.run(words, 0)
        self.judge(name, 0, ample, False, fault)
        last = 0
        for first in range(1, MOST, STRIDE):
            turns = range(first, first + STRIDE)
            met_one = False
            for n, (got, met) in zip(turns, self.pool.map(lambda n: self.run(words, n), turns)):
                self.judge(name, n, got, met, fault)
                last, met_one = (n, True) if met else (last, met_one)
            if not met_one:
                break
        else:
            self.failed += 1
            print('FAILED %s: %d runs, and each met a refusal' % (name, MOST))
        if last == 0:
            self.failed += 1
            print('FAILED %s: no request was refused' % name)
        return last

    def judge(self, name, n, got, met, fault):
        if got is None:
            wrong = 'no end after %d s' % LATE
        elif met and got[:2] == (1, b'') and b'OutOfMemory' in got[2]:
            self.unbegun, wrong = self.unbegun + 1, None
        elif got[0] != 0 or got[2]:
            wrong = 'ended with %r' % (got,)
        else:
            wrong = fault(got[1].decode(), met)
        if wrong is None:
            self.passed += 1
        else:
            self.failed += 1
            print('FAILED %s with request %d refused: %s' % (name, n, wrong), flush=True)

    def call_fault(self, text, met, answer):
        """What is wrong with what a call left: it answers, or is refused for want of memory."""
        if text.count('\n') < 2:
            return repr(text)
        ended, failures, told = text.split('\n', 2)
        kind, _, what = ended.partition(': ')
        if failures != 'failures of the sink: 0':
            return failures
        if kind == 'answered':
            self.in_spite += met
            return answer.fault(what, told)
        if not met or kind != 'refused' or what not in MEMORY:
            return ended
        return None if answer.text.startswith(told) else 'refused, and the sink holds %r' % told

    def desk_fault(self, text, workers):
        """What is wrong with the history of a desk."""
        counts = dict(line.split(': ') for line in text.splitlines())
        self.came_back += int(counts.get('came back', 0))
        wanted = {'calls': str(41 * workers), 'legal': 'true', 'whole': 'true'}
        return None if all(counts.get(name) == value for name, value in wanted.items()) else repr(text)


class Text:
    """An answer that is one text."""

    def __init__(self, status, text):
        self.status, self.text = status, text

    def fault(self, status, told):
        return None if (status, told) == (self.status, self.text) else 'answered: %s, %r' % (status, told)


class Verdict:
    """The answer of a check: any order that replays, or that none does. `text` is what each such answer begins with."""

    def __init__(self, log):
        self.log, self.text = log, 'serializable\n'
        self.serializable = reference.History(reference.read_log(log)).has_serial_order()

    def fault(self, status, told):
        right = status == ('Done' if self.serializable else 'NotSerializable')
        if self.serializable:
            order = told[len(self.text):].encode()
            right = right and told.startswith(self.text) and answers.verify(self.log, order)[0] == 0
        return None if right and (self.serializable or told.startswith('not serializable: ')) else 'answered: %s, %r' % (status, told)


class Explanation:
    """The explanation of a log, of which `check` says `text`: any that tests/explained.py finds right."""

    def __init__(self, log, text):
        self.log, self.text = log, text

    def fault(self, status, told):
        return explained.fault(self.log, self.text, told) if status == 'NotSerializable' else 'answered: %s, %r' % (status, told)


def explanation(log, drawn):
    """What `explain` answers as text, or as a graph, which an anomaly has one of."""
    checked = reference.History(reference.read_log(log)).known_verdict() or explained.EVERY_CUBE + '\n'
    if not drawn:
        return Explanation(log, checked)
    read = explained.Log(log)
    return Text('NotSerializable', explained.drawn_of(read, checked, read.said_behind(checked)))


def calls(folder):
    """Each call on each log: its words without the workers, and what it answers."""
    logs = dict(generate.examples(generate.versions(sys.argv)))
    for name in LOGS:
        if name + '.log' not in logs:
            continue
        path, log = os.path.join(TOP, 'examples', name + '.log'), logs[name + '.log']
        yield 'encode', name, [path], Text('Done', answers.encode(log, False)[1].decode())
        yield 'stats', name, [path], Text('Done', answers.stats(log, False)[1].decode())
        yield 'check', name, [path], Verdict(log)
        if name in EXPLAINED:
            yield EXPLAINED[name], name, [path], explanation(log, EXPLAINED[name] == 'graph')
        if name in MODELS:
            model = os.path.join(folder, name)
            with open(model, 'wb') as file:
                file.write(MODELS[name])
            yield 'decode', name, [path, model], Text('Done', answers.decode(log, MODELS[name], False)[1].decode())


def built(kit, compiler, folder):
    """The program, built in a folder as one more crate of the repository; None where it is not built."""
    crates = os.path.join(folder, 'top', 'crates')
    shutil.copytree(os.path.join(TOP, 'crates'), crates, ignore=shutil.ignore_patterns('out', 'proofs', 'must-fail'))
    os.makedirs(os.path.join(crates, NAME, 'src'))
    shutil.copy(os.path.join(HERE, NAME + '.txt'), os.path.join(crates, NAME, 'src', 'main.rt'))
    with open(os.path.join(TOP, 'crates.txt')) as listed, open(os.path.join(folder, 'top', 'crates.txt'), 'w') as out:
        out.write(listed.read() + '%s: %s\n' % (NAME, BELOW))
    source, linked = os.path.join(folder, 'linked.c'), os.path.join(folder, 'linked.o')
    with open(source, 'w') as out:
        out.write(LINKED)
    subprocess.run([compiler, '-fPIC', '-c', '-o', linked, source], check=True)
    words = "--wrap=malloc --wrap=realloc '%s'" % linked
    return build_unproved.build(kit, folder, os.path.join(folder, 'top'), NAME, words, fast=True)


def main():
    if '--help' in sys.argv:
        return print(__doc__)
    kit, compiler, began = sys.argv[1], c_compiler(), time.monotonic()
    if not compiler:
        print('refused in library: cannot be tried, there is no C compiler here')
        return
    with tempfile.TemporaryDirectory() as folder, concurrent.futures.ThreadPoolExecutor(os.cpu_count()) as pool:
        program = built(kit, compiler, folder)
        if not program:
            sys.exit('refused in library: the program was not built')
        print('built after %.0f s' % (time.monotonic() - began), flush=True)
        sweeps = Sweeps(program, folder, pool)
        for command, name, files, answer in calls(folder):
            lasts = [sweeps.sweep('%s %s by %s' % (command, name, workers), [command, workers, *files],
                                  lambda text, met: sweeps.call_fault(text, met, answer)) for workers in WORKERS]
            print('%s %s: the last request is number %s' % (command, name, ' and '.join(map(str, lasts))), flush=True)
        lasts = [sweeps.sweep('desk by %s' % workers, ['desk', workers], lambda text, _: sweeps.desk_fault(text, int(workers))) for workers in WORKERS]
        print('desk: the last request is number %s; %d events came back' % (' and '.join(map(str, lasts)), sweeps.came_back))
        for what, count in (('event came back', sweeps.came_back), ('call answered in spite of a refusal to one worker', sweeps.in_spite)):
            if not count:
                sweeps.failed += 1
                print('FAILED: no %s' % what)
        print('%d runs were refused before the call, or before the desk had all its threads' % sweeps.unbegun)
        print('not tried: `verify`, the plain formula (tests/refused_memory.py), and threads that cannot be started (tests/operating.py)')
        print('refused in library: %d passed, %d failed' % (sweeps.passed, sweeps.failed))
        sys.exit(1 if sweeps.failed else 0)


if __name__ == '__main__':
    main()
