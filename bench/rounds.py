#!/usr/bin/env python3
"""rounds.py PROGRAM [--store NAME] [--fault SECONDS] [-- WORDS]: a run in rounds that is followed while it is made, and what that takes.

A collector makes the run, with WORDS, and `tools/follow.py --forget` judges it. The stores are `memory` (bench/memory.py), `sqlite`, and
`postgresql`, whose server is started here as tests/stores.py does. After so many seconds --fault sets three rows of PostgreSQL back to what
they held two seconds before; the run goes on until that is told. Each line of follow.py is printed with the seconds since the beginning;
the last lines have the seconds, the most memory of each process and of what it called, and the most that the folder held."""
import argparse, contextlib, glob, os, re, subprocess, sys, tempfile, threading, time

TOP = os.path.dirname(os.path.dirname(os.path.abspath(__file__)))
sys.path.insert(0, os.path.join(TOP, 'tests'))
import stores

STORES = {'memory': lambda: contextlib.nullcontext([sys.executable, '../bench/memory.py']), 'sqlite': stores.sqlite, 'postgresql': stores.postgresql}
PAUSE, BACK = 0.2, 2


def text_of(path):
    with contextlib.suppress(OSError):
        with open(path) as file:
            return file.read()
    return ''


def peak_of(pid):
    """The most memory that a process had, in MiB; 0 where it has ended."""
    found = re.search(r'VmHWM:\s*([0-9]+)', text_of('/proc/%s/status' % pid))
    return int(found[1]) / 1024 if found else 0


def children_of(pid):
    found, comm = ' '.join(map(text_of, glob.glob('/proc/%d/task/*/children' % pid))).split(), '/proc/%s/comm'
    # one that is not yet another program has its caller's memory
    return [it for it in found if text_of(comm % it) != text_of(comm % pid)]


def size_of(folder):
    total = 0
    for path, _, names in os.walk(folder):
        for name in names:
            # a round may be removed meanwhile
            with contextlib.suppress(OSError):
                total += os.path.getsize(os.path.join(path, name))
    return total / 1e6


class Process:
    """One that was started here, and what it takes."""

    def __init__(self, words, **how):
        self.process, self.peak, self.called, self.ended = subprocess.Popen(words, stdin=subprocess.DEVNULL, **how), 0, 0, None

    def look(self):
        """Whether it runs."""
        if self.ended is None:
            self.peak = max(self.peak, peak_of(self.process.pid))
            self.called = max([self.called, *map(peak_of, children_of(self.process.pid))])
            pid, status, self.usage = os.wait4(self.process.pid, os.WNOHANG)
            if pid:
                self.ended, self.status = time.monotonic(), os.waitstatus_to_exitcode(status)
                # it is not waited for again
                self.process.returncode = self.status
        return self.ended is None

    def end(self):
        if self.look():
            self.process.kill()
            self.process.wait()

    def told(self, began):
        """When it ended and how, the most memory, and that of what it called, and the seconds of processors of both."""
        if self.look():
            return 'it goes on: %.0f MiB' % self.peak
        return 'status %d at %.1f s: %.0f MiB, what it called %.0f MiB, %.1f s of processors' % (
            self.status, self.ended - began, self.peak, self.called, self.usage.ru_utime + self.usage.ru_stime)


def set_back(address):
    """Three rows hold again what they held before, and nobody wrote that."""
    def ask(words):
        return subprocess.run(['psql', address, '-qAtc', words], check=True, stdout=subprocess.PIPE, universal_newlines=True).stdout.strip()

    table = ask("SELECT tablename FROM pg_tables WHERE tablename LIKE 'cobra%'")
    ask("CREATE TABLE before AS SELECT * FROM %s WHERE key IN ('k0', 'k1', 'k2')" % table)
    time.sleep(BACK)
    ask('UPDATE %s AS now SET value = before.value FROM before WHERE now.key = before.key' % table)


def main():
    words = argparse.ArgumentParser(description=__doc__, formatter_class=argparse.RawDescriptionHelpFormatter,
                                    usage='%(prog)s PROGRAM [OPTIONS] [-- WORDS]')
    words.add_argument('program')
    words.add_argument('--store', choices=STORES, default='memory')
    words.add_argument('--level', default='serializable', help='for follow.py: %(default)s')
    words.add_argument('--transactions', default='1000000', help='of the whole run: %(default)s')
    words.add_argument('--rounds', default='100000', help='of each round: %(default)s')
    words.add_argument('--fault', type=float, metavar='SECONDS', help='when rows of PostgreSQL are set back')
    cut = sys.argv.index('--') if '--' in sys.argv else len(sys.argv)
    given = words.parse_args(sys.argv[1:cut])
    if given.fault and given.store != 'postgresql':
        words.error('--fault is for --store postgresql')
    with tempfile.TemporaryDirectory() as folder, STORES[given.store]() as (python, name, *address):
        run, began, most, is_set_back = os.path.join(folder, 'run'), time.monotonic(), 0, not given.fault
        os.mkdir(run)
        since = lambda: time.monotonic() - began
        maker = Process([python, os.path.join(TOP, 'collect', name), *address, run, '--transactions', given.transactions, '--rounds', given.rounds,
                         *sys.argv[cut + 1:]])
        follower = Process([sys.executable, os.path.join(TOP, 'tools', 'follow.py'), run, '--level', given.level, '--forget', '--program',
                            given.program], stdout=subprocess.PIPE, universal_newlines=True)

        def tell():
            for line in follower.process.stdout:
                print('%7.1f s  %s' % (since(), line), end='', flush=True)
        teller = threading.Thread(target=tell)
        teller.start()
        try:
            # what was made behind a fault is judged by nobody
            while follower.look():
                if not maker.look() and maker.status:
                    raise SystemExit('rounds.py: the collector ended with status %d' % maker.status)
                if not is_set_back and since() > given.fault:
                    set_back(address[0])
                    is_set_back = True
                    print('%7.1f s  three rows are set back' % since(), flush=True)
                most = max(most, size_of(run))
                time.sleep(PAUSE)
            teller.join()
            print('the collector: %s\nfollow.py: %s\nthe folder: at most %.1f MB' % (maker.told(began), follower.told(began), most))
        finally:
            maker.end()
            follower.end()
            teller.join()


if __name__ == '__main__':
    main()
