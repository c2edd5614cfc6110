#!/usr/bin/env python3
"""recorder.py PROGRAM: the logs that collect/recorder.py writes for threads of a small store in memory, and what it says to a harness that
misuses it.

A few thousand short runs of a store that is serializable, with commits that are lost, take effect late, or not at all, writes that are
refused, clients that come late, leave and die, odd keys, with and without moments: each log must be well-formed, hold what the store was
asked to write, and be serializable. Then runs of stores that are broken, each in the way
that one of the anomalies A1 to A9 names: some log of each must be refused for it; and of one that answers from the past, which is
refused where the log says all of real time. Last line: 'recorder: N passed, M failed'."""
import concurrent.futures, contextlib, io, itertools, os, random, re, subprocess, sys, tempfile, threading, time

HERE = os.path.dirname(os.path.abspath(__file__))
COLLECT = os.path.join(os.path.dirname(HERE), 'collect')
sys.path[:0] = [COLLECT, HERE]
import recorder, reference
from recorder import Misuse, Recorder, identity_of, name_of

# So many runs, or as many as a busy machine makes in so many seconds.
SOUND, SECONDS, BROKEN = 1500, 36, 500
KEYS = ['x', b'y\x00', 7, 'z' * 100]


class Aborted(Exception):
    """The store rolled the transaction back."""


class Lost(Exception):
    """The answer to a commit was lost."""


class Slow(Lost):
    """The same, of another class."""


class Died(Exception):
    """A fault of the harness, which it has no name for."""


class NotWritten(Exception):
    """The store refused a write, and goes on."""


class Store:
    """In memory. A transaction sees what is committed and its own writes; when it commits, all that it read must still be so."""

    def __init__(self, dice):
        self.lock, self.dice, self.values, self.asked, self.late = threading.RLock(), dice, {}, [], []

    def some_late(self):
        """What was sent long ago takes effect."""
        with self.lock:
            if self.late and self.dice.random() < 0.2:
                with contextlib.suppress(Aborted):
                    self.late.pop()()


class Connection:
    def __init__(self, store, number):
        self.store, self.place = store, number % 2

    def begin(self):
        self.seen, self.written = {}, {}

    def read(self, key):
        self.store.some_late()
        if key in self.written:
            return self.written[key]
        with self.store.lock:
            value = self.store.values.get(key)
        if self.seen.setdefault(key, value) != value:
            raise Aborted
        return value

    def write(self, key, text):
        self.store.asked.append((key, text))
        self.written[key] = text

    def replace(self, key, text):
        """Writes, and gives back what was there."""
        found = self.read(key)
        self.write(key, text)
        return found

    def commit(self):
        self.apply(self.seen, self.written)

    def apply(self, seen, written):
        with self.store.lock:
            if any(self.store.values.get(key) != value for key, value in seen.items()):
                raise Aborted
            self.store.values.update(written)

    def commit_and_lose(self):
        """The answer is lost: it may have taken effect, or may do so later, or never."""
        how, store, seen, written = self.store.dice.randrange(3), self.store, self.seen, self.written
        if how == 0:
            self.commit()
        if how == 1:
            with store.lock:
                store.late.append(lambda: self.apply(seen, written))
        raise random.choice((Lost, Slow))

    def abort(self):
        pass


class UnknownRead(Connection):
    code = 'A1'

    def read(self, key):
        return '998001' if self.store.dice.random() < 0.1 else super().read(key)


class AbortedRead(Connection):
    """Writes at once, in the sight of all, and undoes nothing."""
    code = 'A2'

    def write(self, key, text):
        super().write(key, text)
        with self.store.lock:
            self.store.values[key] = text

    def apply(self, seen, written):
        pass

    def read(self, key):
        return self.store.values.get(key)


class IntermediateRead(AbortedRead):
    code = 'A3'

    def abort(self):
        with self.store.lock:
            self.store.values.update(self.seen)

    def write(self, key, text):
        self.seen.setdefault(key, self.store.values.get(key))
        super().write(key, text)


class OwnWriteMissed(Connection):
    code = 'A4'

    def read(self, key):
        with self.store.lock:
            return self.seen.setdefault(key, self.store.values.get(key))


class FutureRead(Connection):
    """Gives back what is there behind the write, and not what was there before it."""
    code = 'A5'

    def replace(self, key, text):
        super().replace(key, text)
        return text


class SplitRead(Connection):
    """Each read sees what is committed by then."""
    code = 'A6'

    def read(self, key):
        return self.written.get(key) or self.store.values.get(key)

    def apply(self, seen, written):
        super().apply({}, written)


class LostUpdate(Connection):
    """A transaction has a copy of the store, and nobody looks whether what it overwrites is still that."""
    code = 'A7'

    def begin(self):
        super().begin()
        with self.store.lock:
            self.copy = dict(self.store.values)

    def read(self, key):
        return self.written.get(key) or self.copy.get(key)

    def apply(self, seen, written):
        super().apply({}, written)


class WriteSkew(LostUpdate):
    """Of what was read only that is looked at which it writes too."""
    code = 'A8'

    def apply(self, seen, written):
        Connection.apply(self, {key: self.copy.get(key) for key in written}, written)


class TwoCopies(Connection):
    """Each client has one of two copies of the store. What others write gets there late, and in an order of its own."""
    code = 'A9'

    def __init__(self, store, number):
        super().__init__(store, number)
        with store.lock:
            store.copies = getattr(store, 'copies', None) or [{}, {}]
            store.waiting = getattr(store, 'waiting', None) or [[], []]

    def read(self, key):
        copy, waiting = self.store.copies[self.place], self.store.waiting[self.place]
        with self.store.lock:
            if waiting and self.store.dice.random() < 0.5:
                copy.update(waiting.pop(self.store.dice.randrange(len(waiting))))
            return self.written.get(key) or copy.get(key)

    def apply(self, seen, written):
        with self.store.lock:
            self.store.copies[self.place].update(written)
            self.store.waiting[1 - self.place].append(written)


class FromThePast(Connection):
    """A transaction may see the store as it was, but no earlier than its client did: serializable, and not strictly so."""

    def __init__(self, store, number):
        super().__init__(store, number)
        self.least, store.past = 0, [{}]

    def begin(self):
        super().begin()
        with self.store.lock:
            self.place = self.store.dice.randrange(self.least, len(self.store.past))

    def read(self, key):
        return self.seen.setdefault(key, self.store.past[self.place].get(key)) if key not in self.written else self.written[key]

    def apply(self, seen, written):
        with self.store.lock:
            if written:
                super().apply(seen, written)
                self.store.past.append(dict(self.store.values))
                self.place = len(self.store.past) - 1
            self.least = self.place


class Client:
    """A thread's part of a run: transactions as its dice have them."""

    def __init__(self, run, connection, seed, way):
        self.run, self.connection, self.dice, self.way = run, connection, random.Random(seed), way

    def work(self):
        with contextlib.suppress(Died):
            for _ in range(self.dice.randint(1, 2)):
                # it leaves, and comes back under another number
                with self.run.session() as self.session:
                    for _ in range(self.dice.randint(0, self.way.transactions)):
                        self.transaction()

    def transaction(self):
        dice, connection = self.dice, self.connection
        commit = connection.commit_and_lose if dice.random() < self.way.losses else connection.commit
        with self.session.transaction(commit=commit if dice.random() < 0.5 else None) as txn:
            connection.begin()
            for _ in range(dice.randint(0, 4)):
                self.operation(txn)
            if dice.random() < self.way.deaths:
                raise Died
            if dice.random() < 0.1:
                connection.abort()
                txn.abort()
            elif txn._commit is None:
                try:
                    commit()
                except Lost:
                    if dice.random() < 0.5:
                        raise
                    txn.unknown()
                if dice.random() < 0.5 and txn.outcome is None:
                    txn.commit()
        if txn.outcome != 'commit':
            connection.abort()

    def operation(self, txn):
        dice, connection, key = self.dice, self.connection, self.dice.choice(self.way.keys)
        kind = dice.choice(self.way.kinds)
        if dice.random() < 0.3:
            time.sleep(0)
        if kind == 'read':
            txn.read(key, connection.read(key))
        elif kind == 'write':
            connection.write(key, '%d red' % txn.write(key))
        elif kind == 'update':
            txn.read(key, connection.read(key))
            connection.write(key, '%d red' % txn.write(key))
        elif kind == 'replace':
            wid = txn.write(key)
            txn.read(key, connection.replace(key, str(wid)), before=wid)
        elif kind == 'refused':
            txn.refused(txn.write(key))


class Way:
    """What a run is like."""

    def __init__(self, dice, **given):
        self.moments = dice.choice(('all', None))
        self.clients, self.transactions = dice.randint(1, 4), dice.randint(1, 6)
        self.losses, self.deaths = dice.choice((0, 0.1, 0.4)), dice.choice((0, 0, 0.1))
        self.keys = KEYS[:dice.randint(1, 4)]
        self.kinds = ('read', 'write', 'update', 'replace', 'refused')
        self.store, self.clock = Connection, dice.choice((None, None, time.monotonic_ns, lambda: 5))
        self.__dict__.update(given)


def run_once(path, seed, **given):
    """One run: the store, its recorder, the warnings, and the log."""
    dice = random.Random(seed)
    way = Way(dice, **given)
    store = Store(random.Random(seed))
    run = Recorder(path, way.moments, aborted=Aborted, unknown=(Lost,), clock=way.clock)
    clients = [Client(run, way.store(store, number), dice.random(), way) for number in range(way.clients)]
    threads = [threading.Thread(target=client.work) for client in clients]
    for thread in threads:
        thread.start()
    for thread in threads:
        thread.join()
    with quiet():
        warnings = run.close()
    with open(path, 'rb') as file:
        log = file.read()
    os.remove(path)
    return way, store, run, warnings, log


class Checks:
    def __init__(self, program, folder):
        self.program, self.folder, self.passed, self.failed = program, folder, 0, 0

    def expect(self, holds, name):
        self.passed, self.failed = self.passed + bool(holds), self.failed + (not holds)
        if not holds:
            print('FAILED', name)

    def path(self, name):
        return os.path.join(self.folder, str(name))

    def check(self, log, *words):
        ran = subprocess.run([self.program, 'check', '--strategy', 'forced', *words], input=log, stdout=subprocess.PIPE,
                             stderr=subprocess.PIPE, timeout=600)
        return ran.returncode, ran.stdout.decode() + ran.stderr.decode()

    def misused(self, call, words, name):
        """A call that the recorder must refuse, in these words."""
        try:
            call()
        except Misuse as fault:
            self.expect(words in str(fault), '%s: %s' % (name, fault))
        else:
            self.expect(False, name + ': nothing was said')


def seeds(count, seconds):
    """Numbers below this one, as long as there is time."""
    late = time.monotonic() + seconds
    return itertools.takewhile(lambda seed: time.monotonic() < late, range(count))


def sound_runs(checks):
    """Runs of the sound store: all that is asked of their logs."""
    with concurrent.futures.ThreadPoolExecutor(4) as pool:
        answers = []
        for seed in seeds(SOUND, SECONDS):
            way, store, run, _, log = run_once(checks.path('sound'), seed)
            sessions = reference.read_log(log)
            answers.append((seed, log, pool.submit(checks.check, log)))
            logged = {op[1:] for _, transactions in sessions for it in transactions for op in it.ops if op[0] == 'w'}
            asked = {(name_of(key), identity_of(text)) for key, text in store.asked}
            checks.expect(asked <= logged, 'sound run %d: %s were written, and are not in the log' % (seed, asked - logged))
            said = [it.begun for _, transactions in sessions for it in transactions]
            checks.expect(None not in said if way.moments else not any(said), 'sound run %d: what its begins state' % seed)
        for seed, log, answer in answers:
            status, said = answer.result()
            checks.expect(status == 0, 'sound run %d: %d %s\n%s' % (seed, status, said[:100], log.decode()))
    print('recorder: %d runs' % len(answers))


BROKEN_WAYS = {
    UnknownRead: {}, AbortedRead: {}, IntermediateRead: dict(kinds=('read', 'write')), OwnWriteMissed: {}, FutureRead: {},
    SplitRead: dict(kinds=('read',) * 3 + ('update',)), LostUpdate: {}, WriteSkew: dict(kinds=('read', 'update')),
    TwoCopies: dict(kinds=('read', 'read', 'write'), clients=4),
}


def broken_runs(checks):
    """For each anomaly some log of the store that has it is refused for it."""
    for store, given in BROKEN_WAYS.items():
        code, seed = None, 0
        how = dict(dict(clients=3, transactions=12, keys=['x', 'y'], losses=0, deaths=0), **given)
        while code != store.code and seed < BROKEN:
            *_, log = run_once(checks.path('broken'), seed, store=store, **how)
            status, said = checks.check(log)
            code, seed = said.split()[2] if status == 1 else None, seed + 1
        checks.expect(code == store.code, '%s: not refused by %s in %d runs' % (store.__name__, store.code, seed))


def real_time(checks):
    """A store that answers from the past is serializable where the log says nothing of real time, and refused where it says all."""
    how = dict(store=FromThePast, clients=3, transactions=12, keys=['x', 'y'], losses=0, deaths=0)
    how.update(kinds=('read', 'read', 'update'))
    refused = 0
    for seed in range(20):
        *_, log = run_once(checks.path('past'), seed, moments=None, **how)
        status, said = checks.check(log)
        checks.expect(status == 0, 'from the past, run %d: %d %s' % (seed, status, said[:80]))
        *_, log = run_once(checks.path('past'), seed, moments='all', **how)
        refused += checks.check(log)[0] == 1
    checks.expect(refused > 0, 'no store that answers from the past was refused')


def misuse(checks):
    """What a harness may do wrong, and what it hears."""
    given = [
        (dict(moments='some'), "'all' or None"),
        (dict(aborted='Lost'), 'no class of exceptions'), (dict(aborted=Lost, unknown=(Lost,)), 'named for both'),
        (dict(clock=time.time), 'whole numbers'),
    ] + [(dict(share=it, moments='all'), 'a pair of whole numbers') for it in (2, (0, 1), (3, 2), (1, 2, 3), ('1', '2'))]
    for words, said in given:
        checks.misused(lambda: Recorder(checks.path('misuse'), **words), said, 'Recorder(%s)' % words)
    with quiet() as told, Recorder(checks.path('misuse')) as run:
        session = run.session()
        txn = session.transaction()
        wid = txn.write('x')
        calls = [
            (lambda: txn.read(('x', 1), 0), 'a key is'), (lambda: txn.write(None), 'a key is'), (lambda: txn.write(True), 'a key is'),
            (lambda: txn.read('x', 0, before=wid + 1), 'did not write'), (lambda: txn.refused(wid + 1), 'did not write'),
            (session.transaction, 'still open'),
        ]
        for call, said in calls:
            checks.misused(call, said, 'a transaction')
        for seen in ('red 17', '', -1, 2 ** 64, True, 1.0):
            checks.misused(lambda: txn.read('x', seen), 'an identity', 'a read of %r' % (seen,))
        txn.commit()
        for call in (txn.commit, txn.abort, txn.unknown, lambda: txn.write('x'), lambda: txn.read('x', 0), lambda: txn.refused(wid)):
            checks.misused(call, 'has ended', 'behind its end')
        session.close()
        checks.misused(session.transaction, 'is closed', 'behind its leaving')
        many = [run.session() for _ in range(recorder.CLIENTS - 1)]
        checks.misused(run.session, 'at once', 'too many sessions')
        several_in_one_thread(checks)
    checks.expect(len(many) == 999 and 'one session' in told.getvalue(), 'the log of a misused recorder: %s' % told.getvalue())
    checks.misused(run.session, 'is closed', 'behind close')
    with open(checks.path('misuse'), 'rb') as log:
        checks.expect(log.read().split(b'\n')[:4] == [b'log 3', b'session 1', b'begin', b'w x 1001'], 'the log of a misused recorder')
    checks.expect(run.close() == run.close(), 'closed again')


def kept(checks):
    """No log is lost: neither one that was there before, nor one that another run has put there meanwhile."""
    path = checks.path('kept')
    def log():
        with open(path, 'rb') as file:
            return file.read()

    open(path, 'w').close()
    with quiet():
        first, second = Recorder(path), Recorder(path)
        first.session().transaction().write('x')
        second.session().transaction().write('y')
        first.close()
        text = log()
        checks.misused(lambda: Recorder(path), 'is there already', 'a log is there')
        checks.misused(second.close, 'this run is in ' + second._folder, 'a log has come meanwhile')
        with open(os.path.join(second._folder, 'log'), 'rb') as file:
            checks.expect(log() == text and b'w y 1001' in file.read(), 'both logs are kept')
        checks.misused(lambda: Recorder(checks.folder, overwrite=False), 'is there already', 'a folder')
        os.remove(path)
        checks.expect(second.close() and b'w y 1001' in log() and not os.path.exists(second._folder), 'closed once more')
        Recorder(path, overwrite=True).close()
    checks.expect(log() == b'log 3\n', 'a log that may be replaced')


def several_in_one_thread(checks):
    """One thread may have several clients."""
    with Recorder(checks.path('one')) as run:
        transactions = [run.session().transaction() for _ in range(3)]
        wid = transactions[0].write(b'k\xff')
        for txn in transactions:
            txn.read(b'k\xff', wid)
            txn.commit()
    checks.expect(checks.check(open(checks.path('one'), 'rb').read())[0] == 0, 'one thread, three clients')


def names(checks):
    """Keys have names of which no two are one, and identities come out of what stores give back."""
    keys = ['x', 'stock/7', '', ' ', b'\xff', 'hex:ff', 'hex:', 'sha:', 'ö', 'k' * 64, 'k' * 65, 'k' * 66, b'\x00' * 30, b'\x00' * 31,
            7, -7, '07', b'hex:00', '\ud800', 'X', 'sha:' + '0' * 60]
    found = {name_of(key): key for key in keys}
    checks.expect(len(found) == len(set(keys)), 'two keys have one name: %s' % found)
    checks.expect(all(reference.WRITE.match(b'w %s 1' % name.encode()) for name in found), 'a name is no key of a log')
    checks.expect((name_of('x'), name_of(b'x'), name_of(7)) == ('x', 'x', '7'), 'plain names')
    seen = [None, 0, '0', 17, '17', b'17', '17 red', bytearray(b'17 x'), '18446744073709551615']
    checks.expect([identity_of(it) for it in seen] == [0, 0, 0, 17, 17, 17, 17, 17, 2 ** 64 - 1], 'identities')


def outcomes(checks):
    """What each way to leave a transaction says, and what goes on behind it."""
    def leave(fault=None, call=None, commit=None):
        def client(session):
            with session.transaction(commit=commit) as txn:
                txn.write('x')
                if call:
                    getattr(txn, call)()
                if fault:
                    raise fault
            return txn.outcome
        return client

    class Near(Lost):
        pass

    def raising(fault):
        def commit():
            raise fault
        return commit

    cases = [
        (leave(), 'commit', None), (leave(call='commit'), 'commit', None), (leave(call='abort'), 'abort', None),
        (leave(call='unknown'), 'unknown', None), (leave(Aborted()), 'abort', None), (leave(Lost()), 'unknown', None),
        (leave(Near()), 'unknown', None), (leave(Slow()), 'abort', None), (leave(Died()), 'unknown', Died),
        (leave(KeyboardInterrupt()), 'unknown', KeyboardInterrupt), (leave(Lost(), 'commit'), 'commit', None),
        (leave(Died(), 'abort'), 'abort', Died), (leave(Lost(), 'abort'), 'abort', None), (leave(commit=lambda: None), 'commit', None),
        (leave(commit=lambda: False), 'abort', None), (leave(commit=lambda: 0), 'commit', None),
        (leave(commit=raising(Aborted())), 'abort', None), (leave(commit=raising(Lost())), 'unknown', None),
        (leave(commit=raising(Died())), 'unknown', Died), (leave(Lost(), commit=raising(Died())), 'abort', None),
        (leave(Died(), commit=raising(Died())), 'unknown', Died), (leave(call='abort', commit=raising(Died())), 'abort', None),
        (leave(call='commit', commit=lambda: False), 'abort', None),
    ]
    for place, (client, outcome, fault) in enumerate(cases):
        with quiet():
            run = Recorder(checks.path('outcome'), aborted=(Aborted, Slow), unknown=Lost, overwrite=True)
            with run.session() as session:
                raised = None
                try:
                    client(session)
                except BaseException as it:
                    raised = type(it)
                with session.transaction() as txn:
                    txn.read('x', 0)
            run.close()
        (_, found), *more = reference.read_log(open(run.path, 'rb').read())
        checks.expect(found[0].outcome == outcome and raised == fault, 'outcome %d: %s %s' % (place, found[0].outcome, raised))
        checks.expect(txn.name == ('2.1' if outcome == 'unknown' else '1.2'), 'outcome %d: the next one is %s' % (place, txn.name))


def stuck(checks):
    """A client that dies in a transaction, and one that hangs in one until the end."""
    for what in ('dies', 'hangs'):
        run, began, ends = Recorder(checks.path('stuck'), overwrite=True), threading.Event(), threading.Event()

        def work():
            run.session().transaction().write('x')
            began.set()
            if what == 'hangs':
                ends.wait(60)

        thread = threading.Thread(target=work)
        thread.start()
        began.wait(60)
        with run.session() as session, session.transaction() as txn:
            txn.write('y')
        with quiet():
            warnings = ' '.join(run.close())
        ends.set()
        thread.join()
        sessions = reference.read_log(open(run.path, 'rb').read())
        checks.expect('were open' in warnings, 'a client that %s: %s' % (what, warnings))
        lost = [it for _, transactions in sessions for it in transactions if it.outcome == 'unknown']
        checks.expect([it.ops for it in lost] == [[('w', 'x', 1001)]], 'a client that %s: %s' % (what, lost))


def memory(checks):
    """What stands in memory is a buffer a client; what is in files is there before the end, and identities and sessions stand once."""
    run, most = Recorder(checks.path('long')), 0
    folder = run._folder
    with run.session() as session:
        for _ in range(5000):
            with session.transaction() as txn:
                for _ in range(3):
                    txn.write('x')
            most = max(most, len(session._part.lines))
    checks.expect(most <= recorder.BUFFER and os.path.getsize(os.path.join(folder, '1')) > 200000, 'a buffer of %d lines' % most)
    # parts of those who left are taken again, and identities go on
    for _ in range(2000):
        with run.session() as session, session.transaction() as txn:
            txn.write('y')
    with quiet():
        run.close()
    text = open(run.path).read()
    checks.expect(len(run._parts) == 1 and not os.path.exists(folder), 'one part, and none is left')
    writes = [line for line in text.split('\n') if line[:2] == 'w ']
    checks.expect(text.count('session ') == 2001 and len(writes) == len(set(writes)) == 17000, 'all lines')


def worth(checks):
    """What `close` warns of."""
    def log(*sessions, **words):
        run = Recorder(checks.path('worth'), overwrite=True, **words)
        for operations in sessions:
            with run.session() as session:
                for kind, key, what in operations:
                    with session.transaction() as txn:
                        if kind == 'w':
                            txn.write(key)
                        elif kind == 'r':
                            txn.read(key, what)
                        else:
                            getattr(txn, kind)()
        with quiet() as told:
            warnings = run.close()
        checks.expect(told.getvalue() == ''.join('recorder: %s: %s\n' % (run.path, it) for it in warnings), 'what is told is what is given')
        return ' | '.join(warnings)

    write, own, others, nothing = ('w', 'x', None), ('r', 'x', 1001), ('r', 'x', 2001), ('r', 'x', None)
    for sessions, said in (
        ((), 'no transaction was committed'), (([('abort', 0, 0)],), 'no transaction was committed'), (([write],), 'one session'),
        (([write], [nothing]), 'no read names a write'), (([write, own], [write]), 'no client read what another'),
        (([write], [own]), 'no two transactions'),
        (([write, own], [write, ('r', 'x', 55001)]), 'nobody wrote in this run'),
        (([('abort', 0, 0)] * 20 + [write], [own]), 'aborted'),
        (([('unknown', 0, 0)] * 20 + [write], [own]), 'unknown outcome'),
    ):
        found = log(*sessions)
        checks.expect(said in found, '%s: %s' % (said, found))
    run = Recorder(checks.path('worth'), overwrite=True)
    with run.session() as first, run.session() as second:
        with first.transaction() as txn, second.transaction() as other:
            wid = txn.write('x')
            txn.commit()
            other.read('x', wid)
    with quiet() as told:
        checks.expect(run.close() == [] and told.getvalue() == '', 'a log that is worth something: %s' % told.getvalue())


SCRIPT = """
import os, resource, sys
sys.path[:0] = [%r]
from recorder import Recorder
run = Recorder(%r)
session = run.session()
%s
"""


def processes(checks):
    """A recorder that nobody closes, one in another process, and one whose device is full."""
    forked = """
if os.fork() == 0:
    for call in (run.session, session.transaction):
        try:
            call()
        except RuntimeError as fault:
            print(fault)
    run.close()
    sys.exit()
os.wait()
session.transaction().commit()
run.close()
"""
    full = """
resource.setrlimit(resource.RLIMIT_FSIZE, (20000, resource.RLIM_INFINITY))
faults = 0
for count in range(1500):
    try:
        with session.transaction() as txn:
            txn.write('x')
    except OSError:
        faults += 1
resource.setrlimit(resource.RLIMIT_FSIZE, (resource.RLIM_INFINITY, resource.RLIM_INFINITY))
print(faults > 0)
run.close()
"""
    for name, script, out, error, transactions in (
        ('not closed', "session.transaction().write('x')", '', 'close() was not called', 1),
        ('forked', forked, 'another one', 'one session', 1), ('full', full, 'True', 'one session', 1500),
    ):
        path = checks.path('process')
        words = [sys.executable, '-c', SCRIPT % (COLLECT, path, script)]
        ran = subprocess.run(words, stdout=subprocess.PIPE, stderr=subprocess.PIPE, timeout=60, universal_newlines=True)
        told = ran.returncode == 0 and out in ran.stdout and error in ran.stderr
        checks.expect(told, '%s: %d %s %s' % (name, ran.returncode, ran.stdout, ran.stderr))
        with open(path, 'rb') as log:
            found = log.read().count(b'begin')
        checks.expect(found == transactions, '%s: %d transactions' % (name, found))
        os.remove(path)
    checks.expect(not [it for it in os.listdir(checks.folder) if it.startswith('process')], 'a folder is left')


class Driver:
    """A connection as the page's own lines have one."""

    def __init__(self, connection):
        self.connection, self.put, self.rollback = connection, connection.write, connection.begin
        connection.begin()

    def get(self, key):
        time.sleep(0.001)
        return self.connection.read(key)

    def commit(self):
        self.connection.commit()
        self.connection.begin()


def page(checks):
    """The first lines of Python that docs/COLLECTING.md has, as they stand there."""
    with open(os.path.join(os.path.dirname(HERE), 'docs', 'COLLECTING.md'), encoding='utf-8') as file:
        blocks = re.findall(r'^```python\n(.*?)^```', file.read(), re.M | re.S)
    store = Store(random.Random(1))
    names = {'SerializationFailure': Aborted, 'ConnectionLost': Lost, 'connect': lambda: Driver(Connection(store, 4))}
    back = os.getcwd()
    os.chdir(checks.folder)
    exec(blocks[0], names)
    os.chdir(back)
    threads = [threading.Thread(target=names['client'], args=(Driver(Connection(store, number)),)) for number in range(4)]
    for thread in threads:
        thread.start()
    for thread in threads:
        thread.join()
    with quiet() as told:
        warnings = names['run'].close()
    with open(checks.path('run.log'), 'rb') as log:
        answer = checks.check(log.read())
    checks.expect(answer[0] == 0 and warnings == [], 'the page: %d %s' % (answer[0], told.getvalue()))


@contextlib.contextmanager
def quiet():
    """Standard error, for as long as this is open."""
    with contextlib.redirect_stderr(io.StringIO()) as told:
        yield told


def labels(checks):
    """Labels stand beside the log, and go with the log that they are of."""
    path = checks.path('labels.log')
    for number, wanted in enumerate(('1 1 transfer, thread 4\n2 1 ö\n', None)):
        run = Recorder(path, overwrite=True)
        for label in ('transfer, thread 4', 'ö'):
            with run.session() as session:
                with session.transaction(label=None if number else label) as txn:
                    txn.write('x')
                with session.transaction() as txn:
                    txn.read('x', None)
                for wrong in ('', ' ', 'a\nb', '\x1b[1m', 7, b'x'):
                    try:
                        session.transaction(label=wrong)
                    except Misuse:
                        continue
                    checks.expect(False, 'a label %r is taken' % wrong)
        with contextlib.redirect_stderr(io.StringIO()):
            run.close()
        there = os.path.exists(path + '.labels')
        checks.expect(there == bool(wanted), 'labels are there: %s' % there)
        if there:
            with open(path + '.labels', encoding='utf-8') as file:
                checks.expect(file.read() == wanted, 'other labels')


PARTS = (page, names, labels, misuse, kept, outcomes, stuck, memory, worth, processes, sound_runs, broken_runs, real_time)


def main():
    if '--help' in sys.argv:
        return print(__doc__)
    with tempfile.TemporaryDirectory() as folder:
        checks = Checks(os.path.abspath(sys.argv[1]), folder)
        for part in PARTS:
            began = time.monotonic()
            part(checks)
            print('recorder: %s in %.1f s' % (part.__name__, time.monotonic() - began))
    print('recorder: %d passed, %d failed' % (checks.passed, checks.failed))
    return 1 if checks.failed else 0


if __name__ == '__main__':
    sys.exit(main())
