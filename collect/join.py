#!/usr/bin/env python3
"""join.py: one log of the logs that several processes wrote, each by a recorder of its own with share=(K, N), or by hand.

It refuses what does not fit together: logs of different versions, a session that stands twice, an identity that was written twice, a log
that is not complete. With --died such logs are taken, as killed runs leave them, and the folders of recorders that were not closed: what
cannot be read is left out, a transaction without an end is unknown, and an identity that was read and that no log has is written by a new
transaction of unknown outcome. Labels that stand beside logs are joined too. With --slack D each transaction begins D microseconds earlier
and ends D later than its log says: where no clock was wrong by more than D, the log then claims no order that did not hold.
docs/COLLECTING.md says what a clock's error does.

Statuses: 0, the log was written; 65, the logs do not fit together; 70, a file cannot be read or written, or may not be replaced."""
import argparse, os, re, sys, tempfile
from recorder import holds_something

# How files begin that were compressed, by what, and what writes them as they were.
COMPRESSED = {b'\xfd7zXZ\0': ('xz', 'xz -dc'), b'\x1f\x8b': ('gzip', 'gzip -dc'), b'\x28\xb5\x2f\xfd': ('zstd', 'zstd -dc'), b'BZh': ('bzip2', 'bzip2 -dc'),
              b'PK\x03\x04': ('zip', 'unzip -p')}
DOES_NOT_FIT, AROUND, MOST = 65, 70, 2 ** 64 - 1
ENDS = re.compile(rb'(commit|abort|unknown)\b')
TWICE = {b'w': ('the identity', 'have all processes the same N, and each a K of its own?'),
         b's': ('the session', 'is a log named twice, or had two processes one share?')}
MOMENT = re.compile(rb'(begin|commit) ([0-9]+)\n')
LINE = re.compile(rb'(?:log [23]|session [0-9]+|begin(?: [0-9]+)?|commit(?: [0-9]+)?|abort|unknown|[rw] [A-Za-z0-9_.:/-]+ [0-9]+)\n')
# Where files were put together of which one ends within a line.
GLUED = re.compile(rb'.*?(session [0-9]+\n)')
MOST_SESSIONS = 65535


class Stop(Exception):
    """Ends the script with these words and this status."""

    def __init__(self, words, status=DOES_NOT_FIT):
        super().__init__(words)
        self.status = status


def parts_of(path):
    """The files of a log: those of its clients, where it is the folder of a recorder."""
    if not os.path.isdir(path):
        return [path]
    names = sorted(name for name in os.listdir(path) if re.fullmatch(r'[0-9.]+|unknown(\.[0-9]+)?', name))
    if not names:
        raise Stop('%s: it has no files of a recorder; if a recorder left it, nothing had been written yet: a durable one writes at once' % path)
    return [os.path.join(path, name) for name in names]


def kept_apart(path):
    """The identities of transactions of unknown outcome that a recorder wrote into a file of their own, beside this one of a client."""
    folder, name = os.path.split(path)
    names = os.listdir(folder or '.') if re.fullmatch(r'[0-9.]+', name) else ()
    wids = set()
    for other in (os.path.join(folder, it) for it in names if re.fullmatch(r'unknown(\.[0-9]+)?', it)):
        with open(other, 'rb') as file:
            wids.update(line.split()[2] for line in file if line.startswith(b'w ') and LINE.fullmatch(line))
    return wids


def compressed_by(line):
    """The program that compressed what begins with this line, and what writes that as it was; None where it is not compressed."""
    return next((by for first, by in COMPRESSED.items() if line.startswith(first)), None)


def version_of(path):
    """The first line of a log where it says the version, else nothing."""
    if os.path.isdir(path):
        return b'log 3\n'
    with open(path, 'rb') as log:
        line = log.readline()
    if not line:
        raise Stop('%s: it is empty, and no log' % path)
    if compressed_by(line):
        raise Stop('%s: it is compressed by %s: %s %s writes it as it was' % (path, *compressed_by(line), path))
    if not re.match(rb'log [23]\n|session [0-9]+\n', line):
        raise Stop('%s:1: a log begins with a version, or with a session, and not with %r' % (path, line[:40]))
    return line if line.startswith(b'log ') else b''


def first_place(paths, kind, last):
    """Where a line with this first and this last word stands first."""
    for path in paths:
        with open(path, 'rb') as log:
            for number, line in enumerate(log, 1):
                if line.startswith(kind) and line.endswith(b' ' + last):
                    return '%s:%d' % (path, number)


class Joined:
    """What was joined so far: which sessions and identities stand there, and what was read of which no write has come."""

    def __init__(self, paths, slack, died):
        self.paths, self.slack, self.sessions, self.written, self.wanted, self.times = paths, slack, set(), set(), set(), []
        # of runs that died: keys of what was read, transactions without an end, and how many lines are left out
        self.died, self.keys, self.ended, self.left_out, self.given = died, {}, [], 0, []

    def take(self, path, out):
        """Writes the lines of a log behind its version to a file."""
        is_open, number, times, line = False, 0, [], b'\n'
        with open(path, 'rb') as log:
            for number, line in enumerate(self.mended(log, kept_apart(path)) if self.died else log, 1):
                word = line[:2]
                if word == b'w ':
                    self.stands_once(self.written, line, path, number)
                elif word == b'r ':
                    key, _, wid = line[2:].rpartition(b' ')
                    self.wanted.add(wid)
                    if self.died:
                        self.keys.setdefault(wid, key)
                elif word == b'se':
                    self.stands_once(self.sessions, line, path, number)
                elif number == 1 and word == b'lo':
                    continue
                else:
                    is_open = not ENDS.match(line)
                    line = self.widened(line, times)
                out.write(line)
        if not line.endswith(b'\n'):
            raise Stop('%s:%d: the log is not complete, this line has no end: its run goes on, or died: then take --died' % (path, number))
        if is_open:
            raise Stop('%s: the log is not complete, its last transaction has no end: its run goes on, or died: then take --died' % path)
        if times:
            self.times.append((min(times), max(times), path))

    def mended(self, log, apart):
        """The lines of a log that was cut off, each session up to what cannot be read, and an end for each transaction without one."""
        session, place, is_open, is_whole, held = b'', 0, False, True, []
        for line in log:
            fits = LINE.fullmatch(line)
            if not fits:
                glued = GLUED.fullmatch(line)
                self.left_out, line = self.left_out + 1, glued[1] if glued else b''
            word = line[:2]
            if word == b'se':
                if is_open:
                    yield from self.end(session, place, held, apart)
                session, place, is_open, is_whole = line.split()[1], 0, False, True
                yield line
            elif not is_whole:
                self.left_out += bool(fits)
            elif word == b'lo':
                yield line
            elif not line or not session or is_open == (word == b'be'):
                self.left_out += bool(fits)
                is_whole = False
            else:
                place += word == b'be'
                is_open = word in (b'be', b'r ', b'w ')
                held = held if word != b'be' else []
                held.append(line)
                if not is_open:
                    yield from held
        if is_open:
            yield from self.end(session, place, held, apart)

    def end(self, session, place, held, apart):
        """A transaction without an end is unknown. Its recorder knew that already, if its identities are kept apart: then it stands there."""
        if any(line.startswith(b'w ') and line.split()[2] in apart for line in held):
            self.left_out += len(held)
            return
        self.ended.append('%s.%d' % (session.decode(), place))
        yield from held
        yield b'unknown\n'

    def give(self, out):
        """Writes a transaction of unknown outcome for each identity that was read and that nobody wrote, in a session of its own."""
        numbers = (number for number in range(1, MOST_SESSIONS + 1) if b'%d\n' % number not in self.sessions)
        for wid in sorted(self.wanted - self.written - {b'0\n'}, key=int):
            number = next(numbers, None)
            if number is None:
                raise Stop('more identities were read that nobody wrote than there are sessions: is a log missing?')
            out.write(b'session %d\nbegin\nw %s %sunknown\n' % (number, self.keys[wid], wid))
            self.given.append((b'%s %s' % (self.keys[wid], wid)).decode().strip())

    def done(self):
        """What was done to logs of runs that died."""
        some = lambda its: ', '.join(its[:10]) + (', ..' if len(its) > 10 else '')
        if self.left_out:
            yield 'lines that were cut off or cannot be read, left out: %d' % self.left_out
        if self.ended:
            yield 'transactions without an end, unknown now: %d: %s' % (len(self.ended), some(self.ended))
        if self.given:
            yield 'identities that were read and that nobody wrote, given to unknown transactions: %d: %s' % (len(self.given), some(self.given))
        if not (self.left_out or self.ended or self.given):
            yield 'nothing is seen to be missing'

    def stands_once(self, seen, line, path, number):
        word = line.rpartition(b' ')[2]
        if word in seen:
            what, why = TWICE[line[:1]]
            raise Stop('%s:%d: %s %s stands in %s already: %s' % (path, number, what, word.decode().strip(), first_place(self.paths, line[:1], word), why))
        seen.add(word)

    def widened(self, line, times):
        found = MOMENT.fullmatch(line)
        if not found:
            return line
        moment = int(found[2])
        times.append(moment)
        moved = max(0, moment - self.slack) if found[1] == b'begin' else min(MOST, moment + self.slack)
        return b'%s %d\n' % (found[1], moved)

    def doubts(self):
        """What fits, and may still be wrong; or what was done."""
        if self.died:
            yield from self.done()
        strange = self.wanted - self.written - {b'0\n'}
        if strange and not self.died:
            wid = min(strange)
            place = first_place(self.paths, b'r', wid)
            yield '%s reads identity %s, which none of these logs wrote: is a log missing?' % (place, wid.decode().strip())
        times = sorted(self.times)
        for (*_, end, path), (begin, _, other) in zip(times, times[1:]):
            if end + 2 * self.slack < begin:
                yield 'all moments of %s are before those of %s: had both one clock?' % (path, other)


def joined(arguments):
    """Writes the log, and gives what may still be wrong."""
    if holds_something(arguments.out) and not arguments.overwrite:
        raise Stop('%s is there already, and may be a log that is still needed: take another name, or --overwrite' % arguments.out, AROUND)
    versions = {path: version_of(path) for path in arguments.logs}
    first = versions[arguments.logs[0]]
    for path, version in versions.items():
        if version != first:
            named = [it.decode().strip() or 'version 1, without a first line that says so' for it in (first, version)]
            raise Stop('%s is of %s, and %s of %s' % (arguments.logs[0], named[0], path, named[1]))
    if any(map(os.path.isdir, arguments.logs)) and not arguments.died:
        raise Stop('a folder is what a recorder left that was not closed: take --died')
    # of several, one may have died before it wrote anything
    logs = [path for path in arguments.logs if not os.path.isdir(path) or os.listdir(path)] or arguments.logs
    paths = [part for path in logs for part in parts_of(path)]
    whole = Joined(paths, arguments.slack, arguments.died)
    with tempfile.NamedTemporaryFile(dir=os.path.dirname(os.path.abspath(arguments.out)), delete=False) as out:
        try:
            # an unknown outcome is of no log of version 1
            out.write(first or b'log 2\n' * arguments.died)
            for path in paths:
                whole.take(path, out)
            if arguments.died:
                whole.give(out)
            out.flush()
            os.chmod(out.name, 0o644)
            os.replace(out.name, arguments.out)
        except BaseException:
            os.remove(out.name)
            raise
    join_labels([path + '.labels' for path in arguments.logs], arguments.out + '.labels')
    return whole.doubts()


def join_labels(paths, out):
    """Writes what stands in these files, where they are there, to one; what stood there is of another log."""
    lines = []
    for path in filter(os.path.exists, paths):
        with open(path, 'rb') as file:
            lines += [line.rstrip(b'\n') + b'\n' for line in file]
    if lines:
        with open(out, 'wb') as file:
            file.writelines(lines)
    elif os.path.exists(out):
        os.remove(out)


def microseconds(text):
    if not re.fullmatch('[0-9]{1,18}', text):
        raise ValueError
    return int(text)


def main():
    about, _, more = __doc__.partition('\n')
    parser = argparse.ArgumentParser(description=about.partition(': ')[2] + '\n' + more,
                                     formatter_class=argparse.RawDescriptionHelpFormatter)
    parser.add_argument('logs', metavar='LOG', nargs='+', help='the log of a process')
    parser.add_argument('-o', dest='out', metavar='OUT', required=True, help='the log of all of them')
    parser.add_argument('--slack', metavar='MICROSECONDS', type=microseconds, default=0, help='how wrong a clock may be: %(default)s')
    parser.add_argument('--died', action='store_true', help='take logs that are not complete')
    parser.add_argument('--overwrite', action='store_true', help='replace OUT where it is there already')
    try:
        for doubt in joined(parser.parse_args()):
            print('%s: %s' % (os.path.basename(sys.argv[0]), doubt), file=sys.stderr)
    except (Stop, OSError) as fault:
        print('%s: %s' % (os.path.basename(sys.argv[0]), fault), file=sys.stderr)
        return getattr(fault, 'status', AROUND)
    return 0


if __name__ == '__main__':
    sys.exit(main())
