#!/usr/bin/env python3
"""refused_memory.py PROGRAM GRAPHS [--version-1]: each allocation of each command is refused in turn.

The program runs with the Nth request for memory refused, for N = 1, 2, .. until it makes fewer. Each such run must either
say `out of memory` with status 4 and write nothing, or do what it does with ample memory. Where two workers search a log of which
each cube is refuted, a refusal to one of them must at least once leave the answer to the other. Where several workers explain a log, the
explanation may then be another one, that tests/explained.py finds right. Needs a C compiler, for a small library that stands before the
allocator of the C library.

Of `audit --part` and `--order`, what a refused run leaves must be the first of the files that it writes with ample
memory, each of them whole. The object of a log that is refused, and the report of `audit`, go out first.

Once the first part of a formula went out, a run in which every further request is refused must write the same text, and make none.

GRAPHS is the program that times the crates of graphs. Of it each run must end by itself, and must not count other choices
than it does with ample memory. With --version-1 all logs are of version 1. Last line: 'refused memory: N passed, M failed'."""
import os, shutil, subprocess, sys, tempfile

HERE = os.path.dirname(os.path.abspath(__file__))
sys.path.insert(0, HERE)
import explained, generate, refuting

# Whether a request for memory is the one that is to be refused.
REFUSES = r'''
#define _GNU_SOURCE
#include <dlfcn.h>
#include <errno.h>
#include <fcntl.h>
#include <stdlib.h>
#include <unistd.h>
static _Atomic long asked;
static _Atomic int written;
static void *refused(void) { errno = ENOMEM; return 0; }
static int refuses(void) {
    char *which = getenv("REFUSED");
    int after_write = written && getenv("AFTER_WRITE");
    if (++asked != (which ? atol(which) : 0) && !after_write) return 0;
    int told = open(getenv("TOLD"), O_CREAT | O_WRONLY, 0600);
    if (told >= 0) close(told);
    return 1;
}
'''

# Stands before the allocator of the C library.
SHIM = REFUSES + r'''
ssize_t write(int fd, const void *p, size_t n) { static ssize_t (*real)(int, const void *, size_t); if (!real) real = dlsym(RTLD_NEXT, "write"); if (fd == 1) written = 1; return real(fd, p, n); }
void *malloc(size_t n) { static void *(*real)(size_t); if (!real) real = dlsym(RTLD_NEXT, "malloc"); return refuses() ? refused() : real(n); }
void *realloc(void *p, size_t n) { static void *(*real)(void *, size_t); if (!real) real = dlsym(RTLD_NEXT, "realloc"); return refuses() ? refused() : real(p, n); }
void *aligned_alloc(size_t a, size_t n) { static void *(*real)(size_t, size_t); if (!real) real = dlsym(RTLD_NEXT, "aligned_alloc"); return refuses() ? refused() : real(a, n); }
int posix_memalign(void **p, size_t a, size_t n) { static int (*real)(void **, size_t, size_t); if (!real) real = dlsym(RTLD_NEXT, "posix_memalign"); return refuses() ? ENOMEM : real(p, a, n); }
'''

LOG = b'session 1\nbegin\nw x 1\ncommit\nsession 2\nbegin\nw x 2\ncommit\nsession 3\nbegin\nr x 1\ncommit\n'
ANSWER = b's SATISFIABLE\nv 1 -2 3 0\n'
PLAIN_ANSWER = b's SATISFIABLE\nv 1 2 3 4 5 -6 0\n'
ORDER = b'1 1\n3 1\n2 1\n'
MOST = 2000
# `check` may print either of the two serial orders of LOG where several workers search.
BOTH = [(0, b'serializable\n' + order, b'') for order in (b'1 1\n3 1\n2 1\n', b'2 1\n1 1\n3 1\n')]
NO_MEMORY = (4, b'', b'out of memory\n')


def c_compiler():
    """A C compiler, or nothing where there is none."""
    return shutil.which('cc') or shutil.which('clang') or shutil.which('gcc')


def files_in(folder):
    """The files of a folder, in the order in which they are written."""
    found = {}
    for name in sorted(os.listdir(folder)) if os.path.isdir(folder) else ():
        with open(os.path.join(folder, name), 'rb') as file:
            found[os.path.join(folder, name)] = file.read()
    return found


def is_right(words, wanted, got):
    """Whether this is what a command may say with ample memory too."""
    if words[0] == 'explain' and 'dot' not in words and got[::2] == wanted[::2] == (1, b''):
        with open(words[-1], 'rb') as log:
            text, checked = log.read(), wanted[1].decode().split('\n')[0] + '\n'
        return explained.fault(text, checked, got[1].decode()) is None
    return got == wanted or words[0] == 'check' and got in BOTH


def ends_without_memory(words, wanted, got):
    """Whether this says that memory was refused, and nothing else but the object of a log that is refused, or the report behind which a
    file is written."""
    first = [wanted[1]] if 'json' in words and wanted[0] == 2 or '--part' in words or '--order' in words and words[0] == 'audit' else []
    return got[::2] == NO_MEMORY[::2] and got[1] in [b'', *first]


def main():
    if '--help' in sys.argv:
        return print(__doc__)
    program, graphs = map(os.path.abspath, [word for word in sys.argv[1:] if not word.startswith('--')][:2])
    compiler = c_compiler()
    if not compiler:
        print('refused memory: cannot be tried, there is no C compiler here')
        return
    passed, failed = 0, 0
    with tempfile.TemporaryDirectory() as folder:
        paths = {name: os.path.join(folder, name) for name in ('log', 'answer', 'plain_answer', 'order', 'drat', 'lrat', 'shim.c', 'shim.so', 'told')}
        for name, data in (('log', LOG), ('answer', ANSWER), ('plain_answer', PLAIN_ANSWER), ('order', ORDER), ('shim.c', SHIM.encode())):
            with open(paths[name], 'wb') as out:
                out.write(data)
        subprocess.run([compiler, '-shared', '-fPIC', '-o', paths['shim.so'], paths['shim.c'], '-ldl'], check=True)
        known = dict(generate.examples(generate.versions(sys.argv)))
        examples = lambda *names: [os.path.join(generate.EXAMPLES, name + '.log') for name in names if name + '.log' in known]
        calls = [['encode', '--plain', paths['log']], ['stats', '--plain', paths['log']],
                 ['decode', '--plain', '--model', paths['plain_answer'], paths['log']], ['verify', '--order', paths['order'], paths['log']]]
        calls += [['decode', '--workers', count, '--model', paths['answer'], paths['log']] for count in ('1', '4')]
        logs = [paths['log'], *examples('two_chains', 'forced_choices', 'crossed_readers', 'unknown_chain', 'overlap_in_time')]
        calls += [[command, '--workers', count, log] for command in ('encode', 'stats') for count in ('1', '4') for log in logs]
        logs = [paths['log'], *examples('crossed_readers', 'forced_choices', 'forced_cycle', 'write_skew', 'lost_update', 'unknown_read', 'stale_in_time')]
        calls += [['check', '--workers', count, log] for count in ('1', '2', '4') for log in logs]
        for log in examples('unknown_read', 'overlap_in_time'):
            calls += [['encode', '--plain', log], ['stats', '--plain', log], ['verify', '--order', paths['order'], log],
                      ['decode', '--workers', '4', '--model', paths['answer'], log], ['decode', '--plain', '--model', paths['plain_answer'], log]]
        calls += [['explain', '--workers', count, log] for count, name in (('1', 'forced_cycle'), ('4', 'crossed_readers'), ('4', 'lost_update')) for log in examples(name)]
        calls += [['explain', '--workers', '1', '--format', 'dot', log] for log in examples('crossed_readers', 'stale_in_time', 'intermediate_read')]
        calls += [['explain', '--workers', '1', '--format', 'dot', '--level', level, log] for level, name in (('snapshot', 'shop'), ('causal', 'shop')) for log in examples(name)]
        for log in examples('crossed_readers'):
            formula = refuting.read_formula(subprocess.run([program, 'encode', log], stdout=subprocess.PIPE, check=True).stdout)
            drat = refuting.own_proof(formula[1])
            for form, proof in (('drat', drat), ('lrat', refuting.lrat_of(formula[1], drat, formula[0]))):
                with open(paths[form], 'wb') as out:
                    out.write(proof)
                calls += [['refute', '--workers', count, '--proof', paths[form], log] for count in ('1', '4')]
        calls += [['solve', *words, log] for words in (['--workers', '1'], ['--workers', '4']) for log in [paths['log'], *examples('crossed_readers', 'lost_update')]]
        calls += [['solve', '--plain', '--budget', '1', log] for log in examples('crossed_readers')]
        # `audit` and `split`
        into = os.path.join(folder, 'files')
        calls += [[command, '--workers', '4', paths['log']] for command in ('audit', 'split')]
        for log in examples('shop'):
            calls += [['audit', *words, log] for words in (['--workers', '1'], ['--workers', '4', '--explain'], ['--workers', '4', '--format', 'json'])]
            calls += [['split', '--workers', count, log] for count in ('1', '4')]
        calls += [['audit', '--workers', '1', *words, log] for words in (['--explain'], ['--budget', '1']) for log in examples('crossed_readers')]
        calls += [['audit', '--workers', '4', '--format', 'json', log] for log in examples('ends_before_it_begins')]
        part, order = os.path.join(into, 'part'), os.path.join(into, 'order')
        calls += [['audit', '--workers', '1', '--part', part, '--faults', '2', log] for log in examples('shop')]
        calls += [['audit', '--workers', '1', '--order', order, log] for log in examples('chain')]
        calls += [['audit', '--workers', '1', '--level', 'snapshot', '--order', order, log] for log in examples('write_skew')]
        for words in calls:
            wanted, refusals, left_to_another = None, 0, 0
            for n in range(MOST):
                shutil.rmtree(into, ignore_errors=True)
                if words[0] == 'audit':
                    os.mkdir(into)
                place = dict(os.environ, LD_PRELOAD=paths['shim.so'], REFUSED=str(n), TOLD=paths['told'])
                ran = subprocess.run([program, *words], stdin=subprocess.DEVNULL, stdout=subprocess.PIPE, stderr=subprocess.PIPE, env=place, timeout=60)
                got = (ran.returncode, ran.stdout, ran.stderr)
                refused = os.path.exists(paths['told'])
                if refused:
                    os.remove(paths['told'])
                files = files_in(into)
                if n == 0:
                    wanted, whole = got, files
                    continue
                if is_right(words, wanted, got) and files == whole:
                    passed += 1
                    left_to_another += refused
                    if n > refusals + 50:
                        break
                elif ends_without_memory(words, wanted, got) and list(files.items()) == list(whole.items())[:len(files)]:
                    passed, refusals = passed + 1, n
                else:
                    failed += 1
                    print('FAILED %s with request %d refused: %r' % (words[0], n, got))
                    refusals = n
            print('%s: the last refused request that is told is number %d' % (' '.join([words[0], os.path.basename(words[-1])]), refusals))
            if refusals == 0:
                failed += 1
                print('FAILED %s: no refusal was told' % words[0])
            if words[:3] == ['check', '--workers', '2'] and words[-1].endswith('crossed_readers.log') and not left_to_another:
                failed += 1
                print('FAILED check: no refusal to one worker left the answer to the other')
        # A formula that goes out in several parts: 40 writers of a key each.
        with open(paths['log'], 'wb') as out:
            out.write(b''.join(b'session %d\nbegin\nw k%d %d\ncommit\n' % (k, k, k) for k in range(1, 41)))
        for words in (['encode', paths['log']], ['encode', '--plain', paths['log']]):
            runs = [subprocess.run([program, *words], stdin=subprocess.DEVNULL, stdout=subprocess.PIPE, stderr=subprocess.PIPE, env=dict(os.environ, LD_PRELOAD=paths['shim.so'], TOLD=paths['told'], **more), timeout=60)
                    for more in ({}, {'AFTER_WRITE': '1'})]
            same = runs[0].returncode == 0 and all((ran.returncode, ran.stdout, ran.stderr) == (0, runs[0].stdout, b'') for ran in runs)
            if same and len(runs[0].stdout) > 100000 and not os.path.exists(paths['told']):
                passed += 1
            else:
                failed += 1
                print('FAILED %s: memory was asked for once the text was going out' % ' '.join(words[:-1]))
        with open(paths['log'], 'wb') as out:
            out.write(LOG)
        for words in (['log', paths['log']], ['made']):
            counts, ended = None, 0
            for n in range(MOST):
                place = dict(os.environ, LD_PRELOAD=paths['shim.so'], REFUSED=str(n), TOLD=paths['told'])
                ran = subprocess.run([graphs, *words], stdin=subprocess.DEVNULL, stdout=subprocess.PIPE, stderr=subprocess.PIPE, env=place, timeout=60)
                got = [line for line in ran.stdout.decode().split('\n') if line.startswith('choices') or line.startswith('workers')]
                if n == 0:
                    counts = got
                elif ran.returncode in (0, 1) and all(line in counts for line in got):
                    passed += 1
                    ended = 0 if (ran.returncode, got) != (0, counts) else ended + 1
                    if ended > 50:
                        break
                else:
                    failed += 1
                    print('FAILED graphs %s with request %d refused: %r' % (words[0], n, (ran.returncode, got)))
    print('refused memory: %d passed, %d failed' % (passed, failed))
    sys.exit(1 if failed else 0)


if __name__ == '__main__':
    main()
