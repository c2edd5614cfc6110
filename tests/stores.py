#!/usr/bin/env python3
"""stores.py PROGRAM [LARGE]: logs of real stores, by the collectors in collect/, against what the stores promise.

H2, HSQLDB and Derby run in the process of their clients, by JDBC, and so do Firebird and Tarantool, by loads/; loads/counters.py has updates that
read what they do not show. PostgreSQL, MariaDB, Redis and
etcd are started here, as a user that is not root, with all that they have in a temporary folder and on sockets in it, etcd on ports of this
machine; where a package of Debian's is missing it is installed, and what cannot be had is passed over, with a note. Each way of a store
promises a level, or none: each of its logs must keep that level, also where connections are cut, and some log must break a level above it, or
where nothing is promised one of the weaker levels. Logs are judged by `audit --level`, and a long one of each sound way is too, of LARGE
transactions; each must be decided. For each way a line says how many transactions and seconds there were. Last line: 'stores: N passed, M
failed'."""
import argparse, contextlib, functools, glob, http.client, os, pwd, re, shutil, socket, subprocess, sys, tempfile, time
import jdbc
from levels import LEVELS

TOP = os.path.dirname(os.path.dirname(os.path.abspath(__file__)))
LOADS = os.path.join(TOP, 'tests', 'loads')
PACKAGES = {'initdb': 'postgresql-15', 'psycopg2': 'python3-psycopg2', 'mariadbd': 'mariadb-server', 'pymysql': 'python3-pymysql',
            'redis-server': 'redis-server', 'etcd': 'etcd-server', 'javac': 'default-jdk-headless', 'h2.jar': 'libh2-java',
            'hsqldb.jar': 'libhsqldb-java', 'derby.jar': 'libderby-java', 'libEngine12.so': 'firebird3.0-server-core', 'tarantool': 'tarantool'}
# Another test installs what it needs meanwhile, and of two that read the lists of packages at once one would fail.
ALONE = 'flock', '--no-fork', '/var/lib/apt'
# PostgreSQL starts for no root; nobody is somebody everywhere.
USER = 'nobody'
SMALL, LARGE = 500, 2500
# How many small runs of one way there are, but only one when a busy machine has spent so many seconds and no LARGE was named; and how many
# runs a way may take until one breaks a level that it does not promise.
RUNS, SECONDS, TRIES = 2, 60, 12
# What a store says that fails by itself. HSQLDB looks for deadlocks by a call for each transaction that waits, and where others wait in a
# ring these calls do not end. A run in Java in which clients wait in the store for good is such a fault too, and so many of them are none.
OWN_FAULTS = {store: r'it did not end in [\s\S]*\tat %s\.' % package for store, package in
              (('H2', 'org.h2'), ('HSQLDB', 'org.hsqldb'), ('Derby', 'org.apache.derby'))}
OWN_FAULTS['HSQLDB'] += r'|org.hsqldb.TransactionManagerCommon.checkDeadlock'
MOST_OWN = 2
# In so many seconds a run of a store in Java ends.
LATE = 200
# What the members of etcd take for a dead leader, in milliseconds: a busy machine is slow to answer.
HEARTBEAT, ELECTION = 300, 3000


class Wanting(Exception):
    """What cannot be had here."""


def run(words, **how):
    return subprocess.run(words, stdin=subprocess.DEVNULL, stdout=subprocess.PIPE, stderr=subprocess.STDOUT, universal_newlines=True, **how)


def installed(find, name):
    """What `find` finds; where that is nothing, once the package was installed."""
    found = find()
    if found is None and shutil.which('apt-get') and os.getuid() == 0:
        print('stores: %s is installed' % PACKAGES[name])
        listed()
        apt('install', '-y', '--no-install-recommends', PACKAGES[name])
        found = find()
    if found is None:
        raise Wanting('%s (%s) cannot be had here' % (name, PACKAGES[name]))
    return found


def apt(*words):
    # no service is started
    environment = dict(os.environ, DEBIAN_FRONTEND='noninteractive', RUNLEVEL='1')
    with contextlib.suppress(subprocess.TimeoutExpired):
        run([*ALONE, 'apt-get', '-o', 'DPkg::Lock::Timeout=300', *words], env=environment, timeout=600)


@functools.lru_cache(None)
def listed():
    """Reads the lists of packages, once."""
    apt('update')


def server(name):
    """The path of a server's program, which Debian may keep beside PATH."""
    folders = ['/usr/sbin', *('/usr/lib/postgresql/%d/bin' % version for version in range(30, 9, -1))]
    return installed(lambda: shutil.which(name, path=os.pathsep.join([os.environ['PATH'], *folders])), name)


def python_with(*drivers):
    """A Python that has one of these drivers: this one, or Debian's."""
    def find():
        for python in (sys.executable, '/usr/bin/python3'):
            if os.path.exists(python) and any(run([python, '-c', 'import ' + driver]).returncode == 0 for driver in drivers):
                return python
        return None

    return installed(find, drivers[0])


def as_user():
    """Makes this process the user's, where it is root's."""
    if os.getuid() == 0:
        user = pwd.getpwnam(USER)
        os.setgroups([])
        os.setgid(user.pw_gid)
        os.setuid(user.pw_uid)


@contextlib.contextmanager
def folder_of_user():
    """A new folder with a short name, since those of sockets must be short, which the user may write."""
    with tempfile.TemporaryDirectory(prefix='st', dir='/tmp') as folder:
        os.chmod(folder, 0o755)
        if os.getuid() == 0:
            os.chown(folder, pwd.getpwnam(USER).pw_uid, pwd.getpwnam(USER).pw_gid)
        yield folder


@contextlib.contextmanager
def postgresql():
    """A server, and the words that start its collector."""
    initdb, python = server('initdb'), python_with('psycopg2', 'psycopg')
    with folder_of_user() as folder:
        data, control = os.path.join(folder, 'data'), os.path.join(os.path.dirname(initdb), 'pg_ctl')
        how = dict(preexec_fn=as_user, cwd=folder, timeout=300)
        run([initdb, '-D', data, '-U', 'cobra', '-A', 'trust', '-E', 'UTF8', '--no-sync'], check=True, **how)
        options = "-c listen_addresses= -c unix_socket_directories=%s -c fsync=off -c shared_buffers=32MB -c deadlock_timeout=100" % folder
        # pg_ctl and its server's file of its process number; nothing else is stopped
        run([control, '-D', data, '-w', '-t', '120', '-l', os.path.join(folder, 'server.log'), '-o', options, 'start'], check=True, **how)
        try:
            yield [python, 'postgresql.py', 'host=%s user=cobra dbname=postgres' % folder]
        finally:
            run([control, '-D', data, '-w', '-m', 'immediate', 'stop'], **how)


@contextlib.contextmanager
def running(programs, is_ready):
    """Servers of these words, until all of them are ready, and then until they are no longer needed."""
    how = dict(stdin=subprocess.DEVNULL, stdout=subprocess.DEVNULL, stderr=subprocess.DEVNULL)
    processes = [subprocess.Popen(words, preexec_fn=as_user, **how) for words in programs]
    try:
        late = time.monotonic() + 60
        while not is_ready() and time.monotonic() < late:
            time.sleep(0.05)
        yield
    finally:
        for process in processes:
            process.kill()
            process.wait()


@contextlib.contextmanager
def mariadb():
    path, python = server('mariadbd'), python_with('pymysql')
    with folder_of_user() as folder:
        data, wire = os.path.join(folder, 'data'), os.path.join(folder, 'socket')
        words = ['mariadb-install-db', '--no-defaults', '--datadir=' + data, '--auth-root-authentication-method=normal', '--skip-name-resolve']
        run(words, check=True, preexec_fn=as_user, cwd=folder, timeout=300)
        words = [path, '--no-defaults', '--datadir=' + data, '--socket=' + wire, '--skip-networking', '--pid-file=' + os.path.join(folder, 'pid'),
                 '--innodb-buffer-pool-size=32M', '--innodb-flush-log-at-trx-commit=0', '--innodb-use-native-aio=0']
        with running([words], lambda: os.path.exists(wire)):
            yield [python, 'mariadb.py', 'unix_socket=%s user=root database=test' % wire]


@contextlib.contextmanager
def redis():
    path = server('redis-server')
    with folder_of_user() as folder:
        wire = os.path.join(folder, 'redis')
        words = [path, '--port', '0', '--unixsocket', wire, '--unixsocketperm', '777', '--dir', folder, '--save', '']
        with running([words], lambda: os.path.exists(wire)):
            yield [sys.executable, 'redis.py', wire]


@contextlib.contextmanager
def etcd():
    """Three members, of which each client is connected to one."""
    path = server('etcd')
    with folder_of_user() as folder, contextlib.ExitStack() as taken:
        wires = [taken.enter_context(socket.socket()) for _ in range(6)]
        for wire in wires:
            wire.bind(('127.0.0.1', 0))
        places = ['127.0.0.1:%d' % wire.getsockname()[1] for wire in wires]
        taken.close()
        clients, peers = places[:3], places[3:]
        cluster = ','.join('m%d=http://%s' % (number, peer) for number, peer in enumerate(peers))
        programs = []
        for number, (client, peer) in enumerate(zip(clients, peers)):
            words = [path, '--name', 'm%d' % number, '--data-dir', os.path.join(folder, 'm%d' % number), '--initial-cluster', cluster,
                     '--heartbeat-interval', str(HEARTBEAT), '--election-timeout', str(ELECTION)]
            for kind in ('listen-client', 'advertise-client'):
                words += ['--%s-urls' % kind, 'http://' + client]
            for kind in ('listen-peer', 'initial-advertise-peer'):
                words += ['--%s-urls' % kind, 'http://' + peer]
            programs.append(words)
        with running(programs, lambda: all(is_healthy(client) for client in clients)):
            yield [sys.executable, 'etcd.py', ','.join(clients)]


def is_healthy(member):
    with contextlib.closing(http.client.HTTPConnection(member, timeout=5)) as wire:
        try:
            wire.request('GET', '/health')
            return b'true' in wire.getresponse().read()
        except (OSError, http.client.HTTPException):
            return False


@contextlib.contextmanager
def sqlite():
    yield [sys.executable, 'sqlite.py']


@contextlib.contextmanager
def embedded(jar, url):
    """What calls the load of tests/jdbc, with the words of a way: a level, and what else that load knows."""
    server('javac')
    installed(lambda: os.path.exists(os.path.join(jdbc.JARS, jar)) or None, jar)
    with tempfile.TemporaryDirectory() as folder:
        jdbc.compiled(folder)

        def collector(words, seed, transactions, keys, log):
            size = ['transactions=%d' % transactions, 'keys=%d' % keys, 'pause=%d' % (transactions < 1000), 'seed=%d' % seed]
            ran = jdbc.java(folder, 'Load', url + ''.join(it for it in words if it[0] == ';'), words[0], log, *size, *(it for it in words[1:] if it[0] != ';'), jar=jar, late=LATE)
            ran.stdout = ran.stderr
            return ran
        yield collector


@contextlib.contextmanager
def firebird():
    installed(lambda: glob.glob('/usr/lib/*/firebird/*/plugins/libEngine12.so') or None, 'libEngine12.so')
    with tempfile.TemporaryDirectory() as folder:
        yield [sys.executable, os.path.join(LOADS, 'firebird.py'), folder]


@contextlib.contextmanager
def tarantool():
    path = server('tarantool')

    def collector(words, seed, transactions, keys, log):
        with tempfile.TemporaryDirectory() as folder:
            return run([path, os.path.join(LOADS, 'tarantool.lua'), *words, str(transactions), str(keys), str(seed), folder, log], timeout=600)
    yield collector


@contextlib.contextmanager
def counters(store, start):
    """What calls the load of loads/counters.py over the server that this starts."""
    with start() as (python, _, address):
        yield lambda words, seed, transactions, keys, log: run(
            [python, os.path.join(LOADS, 'counters.py'), store, *words, str(transactions), str(keys), str(seed), address, log], timeout=600)


class Way:
    """Words for a collector; the level that each log must keep, or None; and the level that some log must break, or None."""

    def __init__(self, words, kept, broken=None, part=1):
        # a large run of it has LARGE transactions divided by this
        self.words, self.kept, self.broken, self.part = words.split(), kept, broken, part


# What each way of a store promises.
STORES = {
    'SQLite': (sqlite, [
        Way('', 'serializable'), Way('--level weak', None, 'snapshot')]),
    'H2': (lambda: embedded('h2.jar', 'jdbc:h2:mem:stores;DB_CLOSE_DELAY=-1;LOCK_TIMEOUT=5000'), [
        Way('serializable', 'snapshot', 'serializable'), Way('serializable kill=20', 'snapshot'), Way('serializable moments=1', 'strict-snapshot'),
        Way('snapshot', 'snapshot', 'serializable'), Way('repeatable-read', 'snapshot', 'serializable'),
        # it has a snapshot of each table, from when the transaction first uses it; the ways above have one table
        Way('repeatable-read tables=2 keys=10', 'read-committed', 'monotonic-atomic-view'), Way('snapshot tables=2', 'snapshot', 'serializable'),
        Way('read-committed', 'monotonic-atomic-view', 'read-atomic'), Way('read-uncommitted', None, 'read-committed')]),
    'HSQLDB': (lambda: embedded('hsqldb.jar', 'jdbc:hsqldb:mem:stores'), [
        Way('serializable ;hsqldb.tx=locks', 'serializable', part=5), Way('serializable ;hsqldb.tx=mvlocks kill=20', 'serializable', part=5),
        Way('serializable ;hsqldb.tx=locks moments=1', 'strict-serializable'), Way('repeatable-read ;hsqldb.tx=locks', 'serializable', part=5),
        Way('serializable ;hsqldb.tx=mvcc', 'snapshot', 'serializable'), Way('repeatable-read ;hsqldb.tx=mvcc', 'snapshot', 'serializable'),
        Way('read-committed ;hsqldb.tx=locks', 'monotonic-atomic-view', 'read-atomic', part=5),
        Way('read-committed ;hsqldb.tx=mvcc', 'monotonic-atomic-view', 'read-atomic'),
        Way('read-uncommitted ;hsqldb.tx=mvcc', 'monotonic-atomic-view', 'read-atomic')]),
    'Derby': (lambda: embedded('derby.jar', 'jdbc:derby:memory:stores;create=true'), [
        Way('serializable', 'serializable', part=5), Way('serializable kill=20', 'serializable', part=5),
        Way('serializable moments=1', 'strict-serializable'), Way('repeatable-read', 'serializable', part=5),
        Way('read-committed', 'read-committed', 'read-atomic', part=5), Way('read-uncommitted', None, 'read-committed')]),
    'PostgreSQL': (postgresql, [
        Way('', 'serializable'), Way('--kill 20', 'serializable'), Way('--moments all', 'strict-serializable'),
        Way('--level repeatable-read', 'snapshot', 'serializable'), Way('--level repeatable-read --moments all', 'strict-snapshot'),
        Way('--level read-committed', 'monotonic-atomic-view', 'read-atomic')]),
    'MariaDB': (mariadb, [
        Way('', 'serializable'), Way('--kill 20', 'serializable'), Way('--moments all', 'strict-serializable'),
        Way('--level repeatable-read --snapshot-isolation on', 'snapshot', 'serializable'),
        Way('--level repeatable-read --snapshot-isolation on --kill 20', 'snapshot'),
        Way('--level repeatable-read --snapshot-isolation on --moments all', 'strict-snapshot'),
        Way('--level repeatable-read --snapshot-isolation off', 'prefix', 'snapshot'),
        Way('--level repeatable-read --snapshot-isolation on --for-update', 'snapshot', 'serializable'),
        Way('--level repeatable-read --snapshot-isolation off --for-update', 'read-committed', 'monotonic-atomic-view'),
        Way('--level read-committed', 'monotonic-atomic-view', 'read-atomic'), Way('--level read-uncommitted', None, 'read-committed')]),
    'Redis': (redis, [
        Way('', 'serializable'), Way('--kill 20', 'serializable'), Way('--moments all', 'strict-serializable'),
        Way('--level multi', 'monotonic-atomic-view', 'read-atomic')]),
    'Redis, counters': (lambda: counters('redis', redis), [Way('shown', 'serializable'), Way('hidden', 'serializable')]),
    'PostgreSQL, counters': (lambda: counters('postgresql', postgresql), [Way('shown', 'serializable'), Way('hidden', 'serializable')]),
    'Firebird': (firebird, [
        Way('', 'snapshot', 'serializable'), Way('--moments all', 'strict-snapshot'),
        Way('--level table-stability --sessions 3 --keys 4 --pause 1', None, 'serializable'),
        Way('--level reserved', 'serializable', part=5), Way('--level reserved --moments all', 'strict-serializable'),
        Way('--level read-committed', 'monotonic-atomic-view', 'read-atomic'), Way('--level one-version', 'monotonic-atomic-view', 'read-atomic')]),
    'Tarantool': (tarantool, [
        Way('vinyl none', 'serializable'), Way('vinyl all', 'strict-serializable'), Way('memtx all', 'strict-serializable')]),
    'etcd': (etcd, [
        Way('', 'serializable', part=2), Way('--kill 20', 'serializable', part=2), Way('--moments all', 'strict-serializable'),
        Way('--level snapshot', 'snapshot', 'serializable', part=2), Way('--level snapshot --moments all', 'strict-snapshot'),
        # strict-serializable is not promised, but nothing makes a member be behind: no log must break it
        Way('--level local-reads --moments all --keys 5 --mix 8,1,1', 'serializable')]),
}


class Checks:
    def __init__(self, program, folder, large):
        self.program, self.log, self.large = program, os.path.join(folder, 'log'), large or LARGE
        self.late, self.passed, self.failed = None if large else time.monotonic() + SECONDS, 0, 0

    def expect(self, holds, name):
        self.passed, self.failed = self.passed + bool(holds), self.failed + (not holds)
        if not holds:
            print('FAILED', name)

    def collect(self, collector, words, seed, transactions):
        keys = 40 if transactions < 1000 else 300
        if callable(collector):
            return collector(words, seed, transactions, keys, self.log)
        python, name, *address = collector
        pause = '0.3' if transactions < 1000 else '0'
        size = ['--transactions', str(transactions), '--keys', str(keys), '--pause', pause, '--seed', str(seed), '--overwrite']
        return run([python, os.path.join(TOP, 'collect', name), *address, *size, *words, self.log], timeout=600)

    def judged(self, level):
        """The status and the first line of what the program says of the log at a level; whether they belong together; and its figures."""
        began = time.monotonic()
        ran = run([self.program, 'audit', '--level', level, self.log], timeout=600)
        figures = 'judged in %.1f s' % (time.monotonic() - began)
        said, _, rest = ran.stdout.partition('\n')
        right = {0: said == LEVELS[level] + ': kept', 1: said == LEVELS[level] + ': not kept', 3: said.startswith(LEVELS[level] + ': unknown')}
        counts = dict(re.findall(r'^(\w+) (\d+)$', rest, re.M))
        told = [counts.get(name, '?') for name in ('committed', 'taken', 'part')]
        figures = '%s, %s committed, %s taken, a part of %s, %s' % (said[:60], *told, figures)
        return ran.returncode, right.get(ran.returncode, False) and '?' not in told, figures

    def way(self, store, collector, way):
        """Runs of one way: where it promises a level small ones and a large one; then, until one breaks the level that some must break."""
        name, answers, is_broken, faults = ' '.join([store, *way.words]), [], False, 0
        sizes = [SMALL] * RUNS if way.kept else []
        if way.kept and not {'--moments', 'moments=1', 'all'} & {*way.words}:
            sizes.insert(1, max(SMALL, self.large // way.part))
        for seed in range(TRIES):
            is_late = answers and self.late and time.monotonic() > self.late
            if (not sizes or is_late) and (is_broken or way.broken is None):
                break
            count = sizes[0] if sizes and not is_late else SMALL
            began = time.monotonic()
            collected = self.collect(collector, way.words, seed, count)
            own = store in OWN_FAULTS and collected.returncode and re.search(OWN_FAULTS[store], collected.stdout)
            if own and faults < MOST_OWN:
                faults += 1
                print('stores: note: %s failed by itself, and is run again: %s' % (name, own[0].split('\n')[-1].strip()))
                continue
            del sizes[:1]
            if collected.returncode:
                self.expect(False, '%s: %s' % (name, collected.stdout[:2000]))
                continue
            took = time.monotonic() - began
            with open(self.log) as log:
                unknown = sum(line == 'unknown\n' for line in log)
            self.expect(unknown == 0 or '--kill' in way.words, '%s: %d unknown' % (name, unknown))
            answers.append('%d in %.1f s, %d unknown' % (count, took, unknown))
            for level in filter(None, [way.kept, None if is_broken else way.broken]):
                status, right, figures = self.judged(level)
                answers[-1] += ', ' + figures
                self.expect(right and status in (0, 1), '%s: status %d, %s' % (name, status, answers[-1]))
                if level == way.kept:
                    self.expect(status == 0, '%s: status %d, %s' % (name, status, answers[-1]))
                else:
                    is_broken = status == 1
        self.expect(answers and (is_broken or way.broken is None), '%s: %s' % (name, answers))
        print('stores: %s: %s' % (name, '; '.join(answers)))


def main():
    parser = argparse.ArgumentParser(description=__doc__, formatter_class=argparse.RawDescriptionHelpFormatter)
    parser.add_argument('program')
    parser.add_argument('large', nargs='?', type=int, help='how many transactions each log has, where figures are wanted')
    words = parser.parse_args()
    with tempfile.TemporaryDirectory() as folder:
        checks = Checks(os.path.abspath(words.program), folder, words.large)
        for store, (start, ways) in STORES.items():
            try:
                with start() as collector:
                    for way in ways:
                        checks.way(store, collector, way)
            except Wanting as fault:
                print('stores: note: %s is passed over: %s' % (store, fault))
    print('stores: %d passed, %d failed' % (checks.passed, checks.failed))
    return 1 if checks.failed else 0


if __name__ == '__main__':
    sys.exit(main())
