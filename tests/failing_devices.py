#!/usr/bin/env python3
"""failing_devices.py PROGRAM [--version-1]: each read and each write of each command fails in turn.

The program runs with its Nth read failed, for N = 1, 2, .. until a run makes fewer: each such run must say `device failed: input`
with status 5 and write nothing. Then its Nth write to standard output fails, or takes no byte, until a run makes fewer: what went out
before must be the beginning of the whole text, and `device failed: output` is said with status 5. Reads and writes of one byte at
a time must leave the whole text. Of `audit` and `split` the log is told by name, with the reason, also where it cannot be opened.
Where a text is written byte by byte, some of these positions are tried, and always the first and the last ones.

Needs a C compiler, for a small library that stands before the C library's `read`, `write` and what opens files. With --version-1 all logs
are of version 1. Last line: 'failing devices: N passed, M failed'."""
import json, os, shutil, subprocess, sys, tempfile

HERE = os.path.dirname(os.path.abspath(__file__))
sys.path.insert(0, HERE)
import generate

SHIM = r'''
#define _GNU_SOURCE
#include <dlfcn.h>
#include <errno.h>
#include <stdarg.h>
#include <stdlib.h>
#include <string.h>
#include <sys/types.h>
#include <unistd.h>
enum { CREATES = 0100 };
int creat(const char *, mode_t);
static _Atomic long reads, writes, opens;
static long number(const char *name) { char *n = getenv(name); return n ? atol(n) : 0; }
static void tell(void) { int told = creat(getenv("TOLD"), 0600); if (told >= 0) close(told); }
static int open_fails(void) {
    if (++opens != number("OPEN_FAILS")) return 0;
    tell();
    errno = EIO;
    return 1;
}
static mode_t mode_of(int flags, va_list more) { return flags & CREATES ? va_arg(more, mode_t) : 0; }
int open(const char *path, int flags, ...) {
    static int (*real)(const char *, int, mode_t);
    if (!real) real = dlsym(RTLD_NEXT, "open");
    va_list more;
    va_start(more, flags);
    mode_t mode = mode_of(flags, more);
    va_end(more);
    return open_fails() ? -1 : real(path, flags, mode);
}
int openat(int at, const char *path, int flags, ...) {
    static int (*real)(int, const char *, int, mode_t);
    if (!real) real = dlsym(RTLD_NEXT, "openat");
    va_list more;
    va_start(more, flags);
    mode_t mode = mode_of(flags, more);
    va_end(more);
    return open_fails() ? -1 : real(at, path, flags, mode);
}
ssize_t read(int fd, void *p, size_t n) {
    static ssize_t (*real)(int, void *, size_t);
    if (!real) real = dlsym(RTLD_NEXT, "read");
    if (++reads == number("READ_FAILS")) { tell(); errno = EIO; return -1; }
    return real(fd, p, getenv("ONE_BYTE") && n ? 1 : n);
}
ssize_t write(int fd, const void *p, size_t n) {
    static ssize_t (*real)(int, const void *, size_t);
    if (!real) real = dlsym(RTLD_NEXT, "write");
    if (fd != 1) return real(fd, p, n);
    long count = ++writes;
    if (count == number("WRITE_FAILS")) { tell(); errno = ENOSPC; return -1; }
    if (count == number("WRITE_TAKES_NONE")) { tell(); return 0; }
    return real(fd, p, getenv("ONE_BYTE") && n ? 1 : n);
}
'''

INPUT, OUTPUT = (5, b'', b'device failed: input\n'), (5, b'device failed: output\n')
MODELS = {'two_writers.log': b's SATISFIABLE\nv 1 -2 3 0\n', 'two_chains.log': b's UNSATISFIABLE\nv 0\n',
          'forced_choices.log': b's SATISFIABLE\nc none is needed\n', 'unknown_read.log': b's SATISFIABLE\nv 1 -2 3 0\n',
          'overlap_in_time.log': b's SATISFIABLE\n'}
CHECKED = ('forced_choices.log', 'forced_cycle.log', 'crossed_readers.log', 'lost_update.log', 'unknown_chain.log', 'stale_in_time.log')
REFUTED, PROOF = 'forced_cycle.log', b'0\n'
DRAWN = {'shop.log': 'snapshot', 'stale_in_time.log': 'strict-serializable'}
EXPLAINED = {'crossed_readers.log': 'text', 'forced_cycle.log': 'dot', 'unknown_read.log': 'text'}
# Commands that tell by name what cannot be read or written, and of each fault the words behind that name.
LONG = 'audit', 'split'
FAULTS = {'READ_FAILS': 'Input/output error (os error 5)', 'OPEN_FAILS': 'Input/output error (os error 5)',
          'WRITE_FAILS': 'No space left on device (os error 28)', 'WRITE_TAKES_NONE': 'failed to write whole buffer'}
AUDITED = {
    'shop.log': ([], ['--no-moments', '--explain'], ['--faults', '9', '--format', 'json']),
    'overlap_in_time.log': ([], ['--at-least', '9', '--format', 'json']), 'empty.log': ([], ['--quiet']),
    'crossed_readers.log': (['--explain'], ['--budget', '1']), 'unwritten_read.log': (['--explain', '--quiet'],),
    'own_write_missed.log': (['--format', 'json'],), 'ends_before_it_begins.log': (['--format', 'json'],)}
SPLIT = {'shop.log': ([],), 'unknown_chain.log': ([],), 'empty.log': ([],)}
# What stands on standard input where that is named.
GIVEN = 'lost_update.log'
MOST = 5000


def sampled(count):
    """Some of so many positions: the first and the last ones, and a few between."""
    return sorted({1, 2, count - 1, count, *range(1, count, max(1, count // 8))} & set(range(1, count + 1)))


class Sweeps:
    def __init__(self, program, folder, shim):
        self.program, self.folder, self.shim, self.told = program, folder, shim, os.path.join(folder, 'told')
        self.passed, self.failed = 0, 0
        told = subprocess.run([program, '--version'], stdout=subprocess.PIPE).stdout.decode()
        self.version = told.rstrip('\n').partition(' ')[2]

    def run(self, words, **means):
        """The answer of a run, and whether what was to fail did."""
        if os.path.exists(self.told):
            os.remove(self.told)
        place = dict(os.environ, LD_PRELOAD=self.shim, TOLD=self.told, **{name: str(value) for name, value in means.items()})
        with open(os.path.join(generate.EXAMPLES, GIVEN) if words[-1] == '-' else words[-1], 'rb') as log:
            ran = subprocess.run([self.program, *words], stdin=log, stdout=subprocess.PIPE, stderr=subprocess.PIPE, env=place, timeout=60)
        return (ran.returncode, ran.stdout, ran.stderr), os.path.exists(self.told)

    def count(self, right, words, what, got):
        self.passed, self.failed = self.passed + right, self.failed + (not right)
        if not right:
            print('FAILED %s, %s: %r' % (' '.join(words), what, (got[0], got[1][-80:], got[2])), flush=True)

    def unread(self, words, reason):
        """What is said of a long log that cannot be read: its name and the reason, and in an object too, where one is asked for."""
        line = '%s: %s' % (words[-1], reason)
        told = {'verdict': 'failed'} if '--quiet' in words else {'verdict': 'failed', 'reason': line, 'version': self.version}
        written = json.dumps(told, separators=(',', ':')) + '\n' if 'json' in words else ''
        return 5, written.encode(), (line + '\n').encode()

    def failing_reads(self, words, whole, means='READ_FAILS'):
        # `explain --level` reads a log as `audit` does
        fault = self.unread(words, FAULTS[means]) if words[0] in LONG or '--level' in words else INPUT
        for n in range(1, MOST):
            got, met = self.run(words, **{means: n})
            self.count(got == (fault if met else whole), words, '%s %d' % (means, n), got)
            if not met:
                return n
        return self.count(False, words, 'no end of reads', got)

    def failing_writes(self, words, whole, means, **more):
        """Each write fails, until a run makes fewer: what went out before grows with each."""
        before = -1
        for n in range(1, MOST):
            got, met = self.run(words, **{means: n}, **more)
            if not met:
                self.count(got == whole, words, 'no write fails', got)
                return n
            out = got[1]
            self.count((got[0], got[2]) == OUTPUT and whole[1].startswith(out) and before < len(out) < len(whole[1]), words, '%s %d' % (means, n), got)
            before = len(out)
        return self.count(False, words, 'no end of writes', got)

    def failing_bytes(self, words, whole, means):
        """Some of the writes of one byte each fail: what stood before it went out."""
        for n in sampled(len(whole[1])):
            got, met = self.run(words, ONE_BYTE=1, **{means: n})
            self.count(met and got == (5, whole[1][:n - 1], OUTPUT[1]), words, 'one byte at a time, %s %d' % (means, n), got)
        return len(whole[1]) + 1

    def sweep(self, words):
        whole, met = self.run(words)
        refused = words[0] in LONG and whole[0] == 2 and whole[1] and whole[2].startswith(words[-1].encode() + b':')
        self.count((refused or whole[0] in (0, 1, 3) and not whole[2]) and not met, words, 'nothing fails', whole)
        reads = self.failing_reads(words, whole)
        if words[0] in LONG and words[-1] != '-':
            self.failing_reads(words, whole, 'OPEN_FAILS')
        writes = [self.failing_writes(words, whole, means) for means in ('WRITE_FAILS', 'WRITE_TAKES_NONE')]
        got, _ = self.run(words, ONE_BYTE=1)
        self.count(got == whole, words, 'one byte at a time', got)
        if words[0] in LONG:
            writes += [self.failing_bytes(words, whole, means) for means in ('WRITE_FAILS', 'WRITE_TAKES_NONE')]
        elif len(whole[1]) < 500:
            writes += [self.failing_writes(words, whole, means, ONE_BYTE=1) for means in ('WRITE_FAILS', 'WRITE_TAKES_NONE')]
        print('failing devices: %s: the runs that met no fault were number %d of reads, %s of writes' % (' '.join(map(os.path.basename, words)), reads or 0, ', '.join(str(n) for n in writes)), flush=True)


def calls(folder, names):
    """Each command, with 1 and with 4 workers, but `explain` with 1, since its text depends on the schedule with more."""
    for name, model in MODELS.items():
        if name not in names:
            continue
        log = os.path.join(generate.EXAMPLES, name)
        answer, order = os.path.join(folder, 'answer of ' + name), os.path.join(folder, 'order of ' + name)
        with open(answer, 'wb') as out:
            out.write(model)
        for workers in ('1', '4'):
            for words in (['encode'], ['encode', '--plain'], ['stats'], ['decode', '--model', answer]):
                yield [*words, '--workers', workers, log]
        yield ['verify', '--order', order, log]
    if REFUTED in names:
        log, proof = os.path.join(generate.EXAMPLES, REFUTED), os.path.join(folder, 'proof')
        with open(proof, 'wb') as out:
            out.write(PROOF)
        yield ['refute', '--workers', '1', '--proof', proof, log]
        for words in ([], ['--plain', '--budget', '1']):
            yield ['solve', '--workers', '1', *words, log]
    for name in CHECKED:
        for words in (['check', '--workers', '1'], ['check', '--workers', '4']) if name in names else ():
            yield [*words, os.path.join(generate.EXAMPLES, name)]
    for name in EXPLAINED:
        if name in names:
            yield ['explain', '--workers', '1', '--format', EXPLAINED[name], os.path.join(generate.EXAMPLES, name)]
    for name, level in DRAWN.items():
        if name in names:
            yield ['explain', '--workers', '1', '--format', 'dot', '--level', level, os.path.join(generate.EXAMPLES, name)]
    large = os.path.join(folder, 'large.log')
    with open(large, 'wb') as out:
        out.write(b''.join(b'session %d\nbegin\nw k%d %d\ncommit\n' % (k, k, k) for k in range(1, 41)))
    yield ['encode', large]


def long_calls(names):
    """Each call of `audit` and of `split` that writes on standard output."""
    for command, logs in (('audit', AUDITED), ('split', SPLIT)):
        for name in logs:
            for words in logs[name] if name in names else ():
                for workers in ('1', '4'):
                    yield [command, *words, '--workers', workers, os.path.join(generate.EXAMPLES, name)]
        yield [command, '--workers', '1', '-']


def main():
    if '--help' in sys.argv:
        return print(__doc__)
    program, names = os.path.abspath(sys.argv[1]), dict(generate.examples(generate.versions(sys.argv)))
    compiler = shutil.which('cc') or shutil.which('clang') or shutil.which('gcc')
    if not compiler:
        print('failing devices: cannot be tried, there is no C compiler here')
        return
    with tempfile.TemporaryDirectory() as folder:
        source, shim = os.path.join(folder, 'shim.c'), os.path.join(folder, 'shim.so')
        with open(source, 'w') as out:
            out.write(SHIM)
        subprocess.run([compiler, '-shared', '-fPIC', '-o', shim, source, '-ldl'], check=True)
        sweeps = Sweeps(program, folder, shim)
        for words in calls(folder, names):
            if words[0] == 'verify':
                found = subprocess.run([program, 'check', '--workers', '1', words[-1]], stdout=subprocess.PIPE).stdout
                with open(words[2], 'wb') as out:
                    out.write(found.partition(b'\n')[2])
            sweeps.sweep(words)
        for words in long_calls(names):
            sweeps.sweep(words)
        print('failing devices: %d passed, %d failed' % (sweeps.passed, sweeps.failed))
        sys.exit(1 if sweeps.failed or not sweeps.passed else 0)


if __name__ == '__main__':
    main()
