#!/usr/bin/env python3
"""workers.py PROGRAM [--version-1]: what a command prints does not depend on the number of workers.

Logs at the limits, and logs that are refused, of all versions or with --version-1 of the first alone, go through `encode` and `stats`,
with `--plain` and without it, with 1, 3, 4 and 16 workers; the answers must be equal, byte for byte. Where the formula takes long, `check`
takes its place, if one order alone is serial. So must be what `explain` says of small logs that are refused, or that have an anomaly or a
cycle of known edges, of these as text and as a graph.

Logs of a hundred examples one behind the other, of which none, one or several are refuted, go through `audit`, with each number of workers
from 1 to 16: the first line, the status and what the part is refuted by must be those that the log was made for, and the answers equal. Then a
small library that stands before the C library's allocator holds each worker back, once it has asked for memory often enough in a round,
until four have: so it is seen that four judge at once in `audit`, and search at once in `check`, and that three never pass for four. That
needs a C compiler; what was seen is said. With --version-1 none of that is tried. Last line: 'workers: N passed, M failed'."""
import glob, os, random, subprocess, sys, tempfile

HERE = os.path.dirname(os.path.abspath(__file__))
sys.path[:0] = [HERE, os.path.join(HERE, '..', 'bench')]
import generate, long_logs, reference
from auditing import WRONG_GUESS
from make_noise import noisy_log
from refused_memory import c_compiler

WORKERS = ['1', '3', '4', '16']
PLAIN, REDUCED = [['encode', '--plain'], ['stats', '--plain']], [['encode'], ['stats']]
# Logs of 1,000 transactions of which almost every pair has its order.
LONG = {'one_session_1000': [['check']], 'in_time_1000': [['check']], 'reads_1000': [['check']], 'beside_1000': []}
SMALL = 1000
REFUSED = {
    'open': b'session 1\nbegin\nw x 1\n',
    'identity twice': b'session 1\nbegin\nw x 1\ncommit\nsession 2\nbegin\nw x 1\ncommit\n',
    'leading zero': b'session 1\nbegin\nw x 01\ncommit\n',
    'zero': b'session 1\nbegin\nw x 0\ncommit\n',
    'outside': b'session 1\nr x 0\n',
    'session twice': b'session 1\nsession 1\n',
    'no line feed': b'session 1\nbegin\nw x 1\ncommit',
    'two faults': b'session 1\nbegin\nsession 2\nbegin\nw x 0\ncommit\nsession 3\nrubbish\n',
    'many transactions': b'session 1\n' + b'begin\ncommit\n' * 1001,
    'many sessions': b''.join(b'session %d\n' % n for n in range(1, 66)),
    'header alone': b'log 2\n',
    'header twice': b'log 2\nlog 2\n',
    'unknown not last': b'log 2\nsession 1\nbegin\nw x 1\nunknown\nbegin\nw x 1\ncommit\n',
    'unknown outside': b'log 2\nsession 1\nunknown\n',
    'unknown not last, and a fault before it': b'log 2\nsession 1\nbegin\nw x 0\nunknown\nsession 2\nbegin\nunknown\nbegin\n',
    'unknown, identity twice': b'log 2\nsession 1\nbegin\nw x 1\nunknown\nsession 2\nbegin\nw x 1\nunknown\n',
    'unknown, session twice': b'log 2\nsession 1\nbegin\nunknown\nsession 1\n',
    'many unknown transactions': b'log 2\n' + b''.join(b'session %d\n' % n + b'begin\ncommit\n' * 15 + b'begin\nunknown\n' for n in range(1, 64)),
    'ends before it begins': b'log 3\nsession 1\nbegin 7\nw x 0\nsession 2\nbegin 2\ncommit 1\n',
    'ends before it begins, and a fault behind it': b'log 3\nsession 1\nbegin 2\ncommit 1\nsession 2\nbegin 01\ncommit\n',
    'ends before it begins, identity twice': b'log 3\nsession 1\nbegin 1\nw x 1\nw x 1\ncommit 2\nsession 2\nbegin 2\ncommit 1\n',
    'moment that is none': b'log 3\nsession 1\nbegin 1\ncommit 18446744073709551616\n',
    'moment of an abort': b'log 3\nsession 1\nbegin 1\nabort 2\n',
    'moment in version 2': b'log 2\nsession 1\nbegin\ncommit 1\n',
    'many transactions with moments': b'log 3\nsession 1\n' + b''.join(b'begin %d\ncommit %d\n' % (n, n) for n in range(1001)),
}

# Of logs of a hundred examples: which are others than FINE, counted from 1, the first line and the status.
FINE, COUNT, LATE = 'forced_choices', 100, 600
MANY = {n: name for n, name in zip((19, 36, 37, 66, 100), ('write_skew', 'forced_cycle', 'lost_update') * 2)}
AUDITED = {
    'none refuted': ({}, [], 'serializable', 0), 'one refuted': ({71: 'lost_update'}, [], 'not serializable', 1),
    'one refuted, the last': ({COUNT: 'crossed_readers'}, [], 'not serializable', 1), 'several refuted': (MANY, [], 'not serializable', 1),
    'several refuted, the least budget': (MANY, ['--budget', '1'], 'not serializable', 1)}
EACH_FORM = ['1', '4', '16']
# Counts the rounds in which threads were started, in a file, and in another one those in which so many were at work at once, from a round on.
GATE = r'''
#define _GNU_SOURCE
#include <dlfcn.h>
#include <fcntl.h>
#include <pthread.h>
#include <stdlib.h>
#include <unistd.h>
static _Atomic int alive, turn, came, left;
static __thread int mine;
static __thread long asked;
static long number(const char *name) { char *n = getenv(name); return n ? atol(n) : 0; }
static void mark(const char *name) {
    int file = open(getenv(name), O_CREAT | O_WRONLY | O_APPEND, 0600);
    if (file >= 0) { (void) !write(file, "x", 1); close(file); }
}
static void ask(void) {
    int now = turn;
    if (!number("AT_ONCE") || !alive || now <= number("BEFORE")) return;
    if (mine != now) { mine = now; asked = 0; }
    if (++asked != number("ASKED")) return;
    if (++came == number("AT_ONCE")) mark("MET");
    for (long n = 0; came < number("AT_ONCE") && !left && n < number("PATIENCE"); n++) usleep(1000);
}
static void leave(void) { if (mine != turn || asked < number("ASKED")) left = 1; }
struct work { void *(*start)(void *); void *given; };
static void *run(void *given) {
    struct work *work = given;
    void *result = work->start(work->given);
    leave();
    return result;
}
int pthread_create(pthread_t *thread, const pthread_attr_t *about, void *(*start)(void *), void *given) {
    static int (*real)(pthread_t *, const pthread_attr_t *, void *(*)(void *), void *);
    if (!real) real = dlsym(RTLD_NEXT, "pthread_create");
    struct work *work = calloc(1, sizeof *work);
    work->start = start, work->given = given;
    if (alive++ == 0) { came = 0, left = 0, turn++; mark("ROUNDS"); }
    return real(thread, about, run, work);
}
int pthread_join(pthread_t thread, void **result) {
    static int (*real)(pthread_t, void **);
    if (!real) real = dlsym(RTLD_NEXT, "pthread_join");
    leave();
    int status = real(thread, result);
    alive--;
    return status;
}
void *malloc(size_t n) { static void *(*real)(size_t); if (!real) real = dlsym(RTLD_NEXT, "malloc"); ask(); return real(n); }
void *realloc(void *p, size_t n) { static void *(*real)(void *, size_t); if (!real) real = dlsym(RTLD_NEXT, "realloc"); ask(); return real(p, n); }
'''


def explained(text):
    """The calls of `explain` of which each schedule gives one text."""
    try:
        known = reference.History(reference.read_log(text)).known_verdict() if len(text) < SMALL else None
    except reference.Refused:
        return [['explain']]
    return [['explain'], ['explain', '--format', 'dot']] if known and ': A9 ' not in known else []


def answers(program, words, text, workers=WORKERS):
    for count in workers:
        ran = subprocess.run([program, *words, '--workers', count], input=text, stdout=subprocess.PIPE, stderr=subprocess.PIPE, timeout=LATE)
        yield ran.returncode, ran.stdout, ran.stderr


def log_of_examples(names):
    """A log of these examples, one behind the other, each with keys, identities and moments of its own."""
    logs, sessions = dict(generate.examples((1, 2, 3))), {}
    for place, name in enumerate(names):
        for number, transactions in reference.read_log(logs[name + '.log']):
            for it in transactions:
                ops = [(kind, '%s.%d' % (key, place), wid and wid + 1000 * place) for kind, key, wid in it.ops]
                ended = 10 * place + 9 if it.outcome == 'commit' else None
                sessions.setdefault(number, []).append(it._replace(ops=ops, begun=10 * place, ended=ended))
    return generate.text_of(sorted(sessions.items()), 3)


def audit_fault(program, others, words, first, status):
    """What is wrong with what is said of a log of these examples, or nothing."""
    text = log_of_examples([others.get(n, FINE) for n in range(1, COUNT + 1)])
    for form, workers in (('text', map(str, range(1, 17))), ('json', EACH_FORM)):
        got, *rest = answers(program, ['audit', '--format', form, *words], text, workers)
        if any(other != got for other in rest):
            return 'its %s depends on the number of workers' % form
        said = got[1].decode()
        if form == 'text':
            wanted = [first + '\n'] + ['\nshown by '] * bool(others)
            if got[0] != status or got[2] or not said.startswith(wanted[0]) or not all(it in said for it in wanted):
                return 'it says %r, wanted %r' % (got, wanted)
    return None


def marks(path):
    """How many marks a file has, which is removed."""
    if not os.path.exists(path):
        return 0
    size = os.path.getsize(path)
    os.remove(path)
    return size


def at_once(program, folder, compiler):
    """Whether four workers are at work at once: in some round of `audit` behind that in which the log is read, and in the search of `check`,
    which alone asks for memory so often; and three in none."""
    source, library, many, hard = (os.path.join(folder, name) for name in ('gate.c', 'gate.so', 'many.log', 'hard.log'))
    sessions, _ = long_logs.sessions_of(long_logs.served(random.Random(5), 20000), random.Random(5), 0)
    # what is tried before the clocks is stuck there, so that they begin
    stuck = generate.text_of(sessions, 3) + WRONG_GUESS
    for path, data in ((source, GATE.encode()), (many, stuck), (hard, noisy_log(80, 12).encode())):
        with open(path, 'wb') as out:
            out.write(data)
    subprocess.run([compiler, '-shared', '-fPIC', '-o', library, source, '-ldl'], check=True)
    place = dict(os.environ, LD_PRELOAD=library, MET=os.path.join(folder, 'met'), ROUNDS=os.path.join(folder, 'rounds'), AT_ONCE='4')
    passed, wanted = 0, [(words, *count) for words in ((['audit', many], '5', 1, 0), (['check', '--strategy', 'forced', '--budget', '3000', hard], '1000', 0, 3))
                         for count in (('4', '20000'), ('3', '20'))]
    for (words, asked, before, status), workers, patience in wanted:
        ran = subprocess.run([program, *words, '--workers', workers], stdin=subprocess.DEVNULL, stdout=subprocess.PIPE, stderr=subprocess.PIPE,
                             env=dict(place, PATIENCE=patience, ASKED=asked, BEFORE=str(before)), timeout=LATE)
        rounds, met = marks(place['ROUNDS']), marks(place['MET'])
        right = ran.returncode == status and rounds > before and (met > 0) == (workers == '4')
        passed += right
        print('%sworkers: %s: of %s, 4 were at work at once in %d of %d rounds' % ('' if right else 'FAILED ', words[0], workers, met, rounds - before))
    return passed, len(wanted) - passed


def main():
    if '--help' in sys.argv:
        return print(__doc__)
    program, versions = os.path.abspath(sys.argv[1]), generate.versions(sys.argv)
    passed, failed = 0, 0
    compiler = c_compiler()
    with tempfile.TemporaryDirectory() as folder:
        subprocess.run([sys.executable, os.path.join(HERE, '..', 'bench', 'make_logs.py'), folder], check=True)
        logs = {**REFUSED, **dict(generate.examples(versions))}
        for path in sorted(glob.glob(os.path.join(folder, '*.log'))):
            with open(path, 'rb') as log:
                logs[os.path.basename(path)[:-4]] = log.read()
        for name, text in logs.items():
            if reference.version_of(text) not in versions:
                continue
            for words in LONG.get(name, REDUCED) + PLAIN + explained(text):
                first, *others = answers(program, words, text)
                if all(other == first for other in others):
                    passed += 1
                else:
                    failed += 1
                    print('FAILED %s of %s depends on the number of workers' % (' '.join(words), name))
        for name, made in AUDITED.items() if 3 in versions else ():
            fault = audit_fault(program, *made)
            passed, failed = passed + (fault is None), failed + (fault is not None)
            if fault:
                print('FAILED audit of a log with %s: %s' % (name, fault))
        if compiler and 3 in versions:
            seen, unseen = at_once(program, folder, compiler)
            passed, failed = passed + seen, failed + unseen
        else:
            print('workers: that four judge at once cannot be tried, ' + ('no log of version 3 is wanted' if compiler else 'there is no C compiler here'))
    print('workers: %d passed, %d failed' % (passed, failed))
    sys.exit(1 if failed else 0)


if __name__ == '__main__':
    main()
