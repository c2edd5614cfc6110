#!/usr/bin/env python3
"""rounds.py PROGRAM [--runs N] [--seed N]: the rounds that collect/recorder.py writes of a small store in memory, and what tools/follow.py says.

Runs of some twenty rounds, of a sound store and of broken ones, with commits that are lost, take effect rounds later, or never, clients that
die, leave and come back: each round must be one, as follow.py checks it, and at each level they are all kept exactly if the run as one log
is, which is made of them here; those of the sound store are kept. Labels stand beside each round, each at its transaction. Then faults
that are put into one round, at the seam before it and in it: that round and no other is refused for each. Fences that are shown late, a
client that hangs, outcomes that nobody learns; several processes that write rounds together, of which one leaves, dies or does not come; and
what follow.py refuses, removes and keeps. Last line: 'rounds: N passed, M failed'."""
import argparse, concurrent.futures, contextlib, gc, importlib.util, io, os, random, re, shutil, signal, subprocess, sys, tempfile, threading, time

HERE = os.path.dirname(os.path.abspath(__file__))
TOP = os.path.dirname(HERE)
sys.path[:0] = [os.path.join(TOP, 'collect'), os.path.join(TOP, 'tools'), HERE]
import clients, generate, recorder, reference, scripts, sqlite
from recorder import Misuse, Recorder

spec = importlib.util.spec_from_file_location('stores_of_recorder', os.path.join(HERE, 'recorder.py'))
stores = importlib.util.module_from_spec(spec)
spec.loader.exec_module(stores)
Aborted, Lost, Died = stores.Aborted, stores.Lost, stores.Died

LEVELS = 'strict-serializable', 'serializable', 'strict-snapshot', 'snapshot', 'prefix'
FOLLOW, MEND = (os.path.join(TOP, 'tools', name) for name in ('follow.py', 'mend.py'))
EVERY, ROUNDS = 25, 20


class Loses(stores.Connection):
    """Takes its writes and forgets some."""

    def apply(self, seen, written):
        kept = {key: text for key, text in written.items() if str(key).startswith('fence/') or self.store.dice.random() > 0.01}
        super().apply(seen, kept)


class Seldom:
    """A store that is broken in a few of its transactions, and in no fence."""

    def begin(self):
        self.is_broken = self.store.dice.random() < 0.1
        super().begin()


def seldom(kind):
    class Sometimes(Seldom, kind):
        def apply(self, seen, written):
            (kind if self.is_broken else stores.Connection).apply(self, seen, written)

        def read(self, key):
            return (kind if self.is_broken else stores.Connection).read(self, key)
    return Sometimes


class FromThePast(stores.FromThePast):
    def __init__(self, store, number):
        past = getattr(store, 'past', None)
        super().__init__(store, number)
        store.past = past or store.past


STORES = {'sound': stores.Connection, 'lost update': seldom(stores.LostUpdate), 'write skew': seldom(stores.WriteSkew),
          'split read': seldom(stores.SplitRead), 'from the past': FromThePast, 'loses writes': Loses}


def transact_by(connection):
    """What the recorder calls for its own transactions, by this connection."""
    def transact(reads, writes):
        connection.begin()
        seen = [connection.read(key) for key in reads]
        for key, wid in writes:
            connection.write(key, '%d fence' % wid)
        connection.commit()
        return seen
    return transact


class Client(stores.Client):
    def __init__(self, run, connection, seed, way, turns, labelled=None):
        super().__init__(run, connection, seed, way)
        self.turns, self.labelled = turns, {} if labelled is None else labelled

    def label(self, session):
        """Gives each transaction of a session a label, by which it is found."""
        def transaction(commit=None, begin=session.transaction):
            label = '%s, transaction %d' % (threading.current_thread().name, len(self.labelled))
            self.labelled[label] = begin(commit, label)
            return self.labelled[label]
        session.transaction = transaction

    def work(self):
        while self.turns:
            with contextlib.suppress(Died), self.run.session(transact_by(self.connection)) as self.session:
                self.label(self.session)
                for _ in range(self.dice.randint(1, 60)):
                    if self.turns:
                        self.turns.pop()
                        self.transaction()


class Way:
    """What a run is like, as stores.Client asks for it."""

    def __init__(self, dice, **given):
        self.losses, self.deaths, self.clients, self.keys = dice.choice((0, 0.05)), dice.choice((0, 0.01)), 4, ['x', 'y', 7, b'z\x00']
        self.kinds, self.moments = ('read', 'read', 'update', 'write', 'replace', 'refused'), 'all'
        self.__dict__.update(given)


def quiet():
    return contextlib.redirect_stderr(io.StringIO())


def made(folder, seed, kind=stores.Connection, count=EVERY * (ROUNDS + 4), hook=None, labelled=None, **given):
    """The warnings of a run, whose rounds are in the folder; `labelled` gets its transactions, each by its label."""
    shutil.rmtree(folder, ignore_errors=True)
    dice = random.Random(seed)
    way, store = Way(dice, **given), stores.Store(random.Random(seed))
    keeper = transact_by(kind(store, 0))
    if hook:
        keeper = hook(store, keeper)
    run = Recorder(folder, way.moments, aborted=Aborted, unknown=(Lost,), rounds=EVERY, transact=keeper, patience=5)
    turns = [None] * count
    threads = [threading.Thread(target=Client(run, kind(store, n), dice.random(), way, turns, labelled).work) for n in range(way.clients)]
    for thread in threads:
        thread.start()
    for thread in threads:
        thread.join()
    with quiet():
        return run.close()


def logs_of(folder):
    return sorted(os.path.join(folder, name) for name in os.listdir(folder) if re.fullmatch('[0-9]{6}[.]log', name))


def run_of(paths):
    """The run as one log: its rounds session by session, each later opening with its fence alone; what is unknown in them is committed."""
    whole = {}
    for place, path in enumerate(paths):
        with open(path, 'rb') as log:
            sessions = reference.read_log(log.read())
        for number, its in sessions:
            its = [it._replace(outcome='commit') if it.outcome == 'unknown' else it for it in its]
            if number == recorder.KEEPER and place:
                its[0] = its[0]._replace(ops=[op for op in its[0].ops if str(op[1]).startswith('fence/')])
            whole.setdefault(number, []).extend(its)
    return generate.text_of(sorted(whole.items()), 3)


class Checks:
    def __init__(self, program, folder):
        self.program, self.folder, self.passed, self.failed = program, folder, 0, 0

    def path(self, name):
        return os.path.join(self.folder, name)

    def expect(self, holds, name):
        self.passed, self.failed = self.passed + bool(holds), self.failed + (not holds)
        if not holds:
            print('FAILED', name, flush=True)

    def audit(self, level, text):
        ran = subprocess.run([self.program, 'audit', '--quiet', '--workers', '1', '--level', level], input=text, stdout=subprocess.PIPE,
                             stderr=subprocess.PIPE, timeout=600)
        return {0: True, 1: False}.get(ran.returncode)

    def follow(self, folder, *words, level='strict-serializable', ended=True):
        ran = subprocess.run([sys.executable, FOLLOW, folder, '--level', level, '--program', self.program, *words], stdin=subprocess.DEVNULL,
                             stdout=subprocess.PIPE, stderr=subprocess.PIPE, timeout=600, universal_newlines=True)
        return ran.returncode, ran.stdout, ran.stderr


def labels(checks, path, labelled):
    """Each transaction of a round has its label, but for those of its keeper and of fences; one that is carried has its writes alone."""
    found, strange = scripts.labels_of(path, is_needed=True), []
    with open(path, 'rb') as log:
        sessions = reference.read_log(log.read())
    for session, its in sessions:
        for place, txn in enumerate(its, 1):
            is_fence = session == recorder.KEEPER or len(txn.ops) == 1 and str(txn.ops[0][1]).startswith('fence/')
            label = found.pop('%d.%d' % (session, place), None)
            wrote = [op[2] for op in txn.ops if op[0] == 'w']
            wanted = label and [int(line.split()[2]) for line in labelled[label]._lines if line[0] == 'w']
            if wanted != (None if is_fence else wrote):
                strange.append((session, place, label))
    checks.expect(not found and not strange, '%s: labels of nothing %s, strange ones %s' % (path, found, strange[:3]))


def beside(checks, runs, seed):
    """Rounds and the run that they are have one verdict at each level, and those of the sound store are kept."""
    met = {}
    with concurrent.futures.ThreadPoolExecutor(2) as pool:
        for n in range(runs):
            name = list(STORES)[n % len(STORES)]
            folder = checks.path('run')
            labelled = {}
            told = made(folder, seed + n, STORES[name], labelled=labelled)
            paths = logs_of(folder)
            for path in paths:
                labels(checks, path, labelled)
            texts = [open(path, 'rb').read() for path in paths] + [run_of(paths)]
            for level in LEVELS:
                *rounds, whole = pool.map(lambda text: checks.audit(level, text), texts)
                if None in rounds or whole is None:
                    continue
                what = '%s, %s: %s' % (name, level, 'kept' if whole else 'not kept')
                met[what] = met.get(what, 0) + 1
                checks.expect(all(rounds) == whole, 'run %d, %s, %s: rounds %s, whole %s' % (n, name, level, rounds, whole))
                checks.expect(name != 'sound' or whole, 'run %d of the sound store: %s is not kept' % (n, level))
            # whatever the store did, the recorder's rounds are rounds
            status, said, error = checks.follow(folder, level='snapshot')
            checks.expect(status in (0, 1) and 'no round' not in error, 'run %d, %s: follow ends with %d: %s' % (n, name, status, error))
            checks.expect(len(paths) >= ROUNDS, 'run %d: %d rounds: %s' % (n, len(paths), told))
    print('rounds: met: ' + ', '.join('%s %d' % pair for pair in sorted(met.items())))
    checks.expect(any('snapshot: not' in what for what in met) and any('serializable: not' in what for what in met), 'no store was refused: %s' % met)


def faults(checks, seed):
    """A fault in one place is told of the round in which it shows, and of none before it."""
    archive = {}

    def hook(kind, place):
        def hooked(store, keeper):
            def transact(reads, writes):
                is_opening = writes and writes[0][0].startswith('fence/%d' % recorder.KEEPER)
                if is_opening:
                    hooked.opened += 1
                    archive[hooked.opened] = dict(store.values)
                    if hooked.opened == place and kind != 'stale read':
                        # the last write of each key is gone, or that of two rounds before it is back
                        store.values.update({key: text for key, text in archive[place - 1 if kind == 'crash' else place - 2].items()
                                             if not str(key).startswith('fence/')})
                return keeper(reads, writes)
            return transact
        hooked.opened = 0
        return hooked

    class Stale(stores.Connection):
        fault_in = None

        def read(self, key):
            found = super().read(key)
            old = archive.get(len(archive) - 3, {}).get(key)
            if len(archive) == self.fault_in and key not in self.written and not str(key).startswith('fence/') and self.store.dice.random() < 0.2:
                self.seen.pop(key, None)
                return old
            return found

    for place in (4, 7, 12, 19):
        for kind in ('crash', 'two rounds back', 'stale read'):
            archive.clear()
            folder = checks.path('fault')
            Stale.fault_in = place
            its = Stale if kind == 'stale read' else stores.Connection
            made(folder, seed + place, its, hook=hook(kind, place), losses=0, deaths=0, kinds=('read', 'update', 'update'), keys=['x', 'y', 'z'])
            for level in ('strict-serializable', 'snapshot'):
                on = checks.path('told')
                status, said, error = checks.follow(folder, '--workers', '2', '--on-fault', 'echo $ROUND > "%s"' % on, level=level)
                last = said[:said.find('not ' + level)].count('\n') + 1
                checks.expect(status == 1 and last == place, '%s in round %d at %s: status %d at %d: %s%s' % (kind, place, level, status, last, said, error))
                older = 'which was written in round' in said or 'A1' not in said
                checks.expect('shown by' in said and re.search(r'[0-9] [(]Thread-|^transactions 65535[^,]*$', said, re.M) and older and open(on).read().strip() == os.path.join(folder, '%06d.log' % place), '%s: it is told why' % kind)


def small(checks, name, store=None, **words):
    """A recorder of small rounds, the store and what a client calls."""
    folder = checks.path(name)
    shutil.rmtree(folder, ignore_errors=True)
    store = store or stores.Store(random.Random(1))
    words = dict(dict(rounds=4, transact=transact_by(stores.Connection(store, 0)), aborted=Aborted, unknown=Lost, patience=0.3), **words)
    return folder, store, Recorder(folder, 'all', **words)


def one(session, connection, key, is_written=True):
    """A transaction that updates a key."""
    with session.transaction(commit=connection.commit) as txn:
        connection.begin()
        txn.read(key, connection.read(key))
        if is_written:
            connection.write(key, '%d' % txn.write(key))
    return txn


def late(checks):
    """A store that shows fences late: rounds are rounds, and it is told."""
    class Late(stores.Connection):
        tries = 0

        def read(self, key):
            found = super().read(key)
            if str(key).startswith('fence/') and found != getattr(self.store, 'shown', {}).get(key):
                Late.tries += 1
                if Late.tries % 3:
                    self.seen.pop(key)
                    return None
                self.store.shown = dict(getattr(self.store, 'shown', {}), **{key: found})
            return found

    store = stores.Store(random.Random(1))
    folder, store, run = small(checks, 'late', store, transact=transact_by(Late(store, 0)))
    clients = [Late(store, n) for n in range(2)]
    sessions = [run.session(transact_by(it)) for it in clients]
    def work(n):
        with sessions[n]:
            for _ in range(10):
                one(sessions[n], clients[n], 'x')
    in_threads(work, 2)
    with quiet():
        told = ' '.join(run.close())
    checks.expect('not seen at once' in told, 'late fences: %s' % told)
    status, said, error = checks.follow(folder, level='serializable')
    checks.expect(status == 0 and said.count('\n') >= 4, 'late fences: %d %s %s' % (status, said, error))


def in_threads(work, count):
    threads = [threading.Thread(target=work, args=(n,)) for n in range(count)]
    for thread in threads:
        thread.start()
    for thread in threads:
        thread.join()


def stuck(checks):
    """Clients that hang in a transaction, idle or die: the others go on, and all rounds are kept."""
    for what in ('hangs', 'idles', 'dies'):
        folder, store, run = small(checks, what)
        began, goes_on, outcome = threading.Event(), threading.Event(), []

        def work():
            connection = stores.Connection(store, 1)
            session = run.session(transact_by(connection))
            one(session, connection, 'x')
            if what == 'idles':
                began.set()
                goes_on.wait(60)
                one(session, connection, 'x')
                return session.close()
            if what == 'dies':
                session.transaction().write('x')
                return began.set()
            with session.transaction(commit=connection.commit) as txn:
                connection.begin()
                txn.write('x')
                began.set()
                goes_on.wait(60)
                txn.write('x')
                outcome.append('it went on')
            outcome.append(txn.outcome)
            one(session, connection, 'x')
            session.close()

        thread = threading.Thread(target=work)
        thread.start()
        began.wait(60)
        connection, before = stores.Connection(store, 2), time.monotonic()
        with run.session(transact_by(connection)) as session:
            for _ in range(6):
                one(session, connection, 'y')
            goes_on.set()
            thread.join()
            for _ in range(6):
                one(session, connection, 'x')
        took = time.monotonic() - before
        with quiet():
            told = ' '.join(run.close())
        status, said, error = checks.follow(folder)
        checks.expect(status == 0 and said.count('\n') >= 3, 'a client that %s: %d %s %s' % (what, status, said, error))
        checks.expect(took < 10 and ('did not come' in told) == True, 'a client that %s: %.1f s, %s' % (what, took, told))
        checks.expect(outcome == (['unknown'] if what == 'hangs' else []), 'a client that %s: %s' % (what, outcome))


def forgets(checks):
    """A client that idles, while others come and go, keeps no round in memory but the one that it left."""
    folder, store, run = small(checks, 'forgets', rounds=20)
    idle, connection = run.session(), stores.Connection(store, 1)
    one(idle, stores.Connection(store, 2), 'x')

    def work(n):
        for _ in range(60):
            with run.session(transact_by(connection)) as session:
                for _ in range(10):
                    one(session, connection, 'y')
    in_threads(work, 1)
    gc.collect()
    known = [it.number for it in gc.get_objects() if isinstance(it, recorder._Round) and it is not run._round]
    checks.expect(run._round.number > 20 and len(known) <= 4, 'round %d, and these are known: %s' % (run._round.number, known))
    with quiet():
        run.close()


def unknown(checks):
    """Outcomes that nobody learns: of a transaction that takes effect two rounds later, in the same round, and never."""
    for lands in (0, 2, None):
        folder, store, run = small(checks, 'unknown')
        connection, kept = stores.Connection(store, 1), []

        class Loses(stores.Connection):
            def commit(self):
                kept.append((self.seen, self.written))
                raise Lost

        loser = Loses(store, 1)
        with run.session(transact_by(connection)) as session:
            one(session, connection, 'y')
            txn = one(session, loser, 'x')
            checks.expect((txn.outcome, txn.name) == ('unknown', '1.3'), 'unknown: %s %s' % (txn.outcome, txn.name))
            rounds = 0
            for count in range(60):
                if rounds == lands and kept:
                    with store.lock:
                        store.values.update(kept.pop()[1])
                    one(session, connection, 'x')
                before = run._round
                one(session, connection, 'y')
                rounds += run._round is not before
        with quiet():
            told = ' '.join(run.close())
        paths = logs_of(folder)
        found = [n for n, path in enumerate(paths) if b'\nunknown\n' in open(path, 'rb').read()]
        checks.expect(found == ([] if lands is None else [lands]), 'unknown that lands %s rounds later: in round %s' % (lands, found))
        checks.expect(('carried no more' in told) == (lands is None), 'unknown that lands %s: %s' % (lands, told))
        for level in LEVELS:
            status, said, error = checks.follow(folder, level=level)
            checks.expect(status == 0, 'unknown that lands %s: %d %s %s' % (lands, status, said, error))
        checks.expect(all(checks.audit(level, run_of(paths)) for level in LEVELS), 'unknown that lands %s: the run' % lands)


def bounded(checks):
    """Closings of several transactions, also where a transaction of unknown outcome takes effect between two of them."""
    folder, store, run = small(checks, 'bounded', bound=2)
    connection, lost = stores.Connection(store, 1), []
    real, asked = run._transact, []

    def transact(reads, writes):
        asked.append(len(reads))
        found = real(reads, writes)
        if lost and 'a' in reads:
            with store.lock:
                store.values.update(lost.pop())
        return found

    class Loses(stores.Connection):
        def commit(self):
            lost.append(self.written)
            raise Lost

    run._transact = transact
    loser = Loses(store, 1)
    with run.session(transact_by(connection)) as session:
        for _ in range(5):
            for key in 'abcde':
                one(session, connection, key)
            with session.transaction(commit=loser.commit) as txn:
                loser.begin()
                for key in 'ae':
                    loser.write(key, str(txn.write(key)))
    with quiet():
        run.close()
    status, said, error = checks.follow(folder)
    checks.expect(status == 0 and max(asked) == 2, 'bounded: %d %s %s' % (status, said, error))
    checks.expect(any(b'\nunknown\n' in open(path, 'rb').read() for path in logs_of(folder)), 'bounded: none took effect at a closing')


def misuse(checks):
    """What a harness may do wrong with rounds, and what it hears."""
    def refused(call, words):
        try:
            call()
        except Misuse as fault:
            checks.expect(words in str(fault), '%s: %s' % (words, fault))
        else:
            checks.expect(False, words + ': nothing was said')

    transact = transact_by(stores.Connection(stores.Store(random.Random(1)), 0))
    path = checks.path('misuse')
    refused(lambda: Recorder(path, rounds=5), 'goes with transact')
    refused(lambda: Recorder(path, transact=transact), 'goes with transact')
    refused(lambda: Recorder(path, rounds=0, transact=transact), 'from 1')
    refused(lambda: Recorder(path, rounds=5, transact=transact, bound=0), 'from 1')
    folder, store, run = small(checks, 'misuse')
    refused(lambda: Recorder(folder, rounds=5, transact=transact), 'is there already')
    session = run.session()
    with session.transaction() as txn:
        refused(lambda: txn.write('fence/3'), 'as the fences')
        refused(lambda: run.session().transaction(), 'one thread')
    session.close()
    with quiet():
        run.close()
        Recorder(folder, rounds=5, transact=transact, overwrite=True).close()
    checks.expect(os.listdir(folder) == ['end'], 'a folder that may be replaced: %s' % os.listdir(folder))
    # what a transact of the harness raises without a name goes to clients and to close
    shutil.rmtree(folder)
    with quiet():
        run = Recorder(folder, rounds=5, transact=lambda reads, writes: 1 / 0)
        for call in (lambda: run.session().transaction(), run.close):
            try:
                call()
                checks.expect(False, 'a fault of transact is not told')
            except ZeroDivisionError:
                checks.passed += 1


def followed(checks):
    """What follow.py refuses, and what it keeps and removes."""
    folder = checks.path('run')
    made(folder, 5, count=EVERY * 12, losses=0.05, deaths=0)
    copy, names = checks.path('copy'), [os.path.basename(path) for path in logs_of(folder)]

    def changed(number, change, wanted, level='serializable', status=2):
        shutil.rmtree(copy, ignore_errors=True)
        shutil.copytree(folder, copy)
        path = os.path.join(copy, '%06d.log' % number)
        text = open(path).read()
        with open(path, 'w') as out:
            out.write(change(text))
        found, said, error = checks.follow(copy, level=level)
        checks.expect(found == status and wanted in error, 'wanted %r: %d %s' % (wanted, found, error[-300:]))

    fence = re.compile(r'w fence/65535[^\n]*\n')
    ends = lambda text, to: re.sub(r'commit ([0-9]+)\n(?!.*commit)', to, text, flags=re.S)
    changed(5, lambda text: text.replace(re.search(r'\nw( x [0-9]+\n)', text)[1], ' x 999999001\n'), 'the closings before it read')
    changed(5, lambda text: re.sub(r'(\nsession [0-9]+\nbegin [0-9]*\n)r fence[^\n]*\n(?=commit)', r'\1', text.replace('session 65535', '\0'), count=1).replace('\0', 'session 65535'), "does not read the keeper's fence")
    changed(6, lambda text: re.sub(r'\nr (x|7) [0-9]+\n(?=(r|commit))', '\n', text, count=1), '', status=2)
    changed(6, lambda text: text.replace('session 65535', 'session 65534'), 'no committed opening')
    changed(6, lambda text: text.replace('log 3\n', 'log 3\nrubbish\n', 1), '(L')
    (_, first), (key, own) = (re.search(r'w (fence/[0-9]{1,2}) ([0-9]+)', open(os.path.join(folder, names[n])).read()).groups() for n in (2, 7))
    changed(8, lambda text: text.replace('%s %s\n' % (key, own), '%s %s\n' % (key, first)), 'an earlier round has')
    changed(9, lambda text: re.sub(r'(begin|commit) ([0-9]+)', lambda it: '%s %d' % (it[1], int(it[2]) // 4), text), 'had both one clock', level='strict-serializable')
    changed(9, lambda text: re.sub(r'(begin|commit) ([0-9]+)', lambda it: '%s %d' % (it[1], int(it[2]) // 4), text), '', status=0)
    for level in ('read-committed', 'read-atomic', 'causal', 'monotonic-atomic-view', 'rubbish'):
        found, said, error = checks.follow(folder, level=level)
        checks.expect(found == 2 and 'rounds are judged at' in error, 'level %s: %d %s' % (level, found, error))
    shutil.rmtree(copy)
    shutil.copytree(folder, copy)
    found, said, error = checks.follow(copy, '--', '--at-least', '20')
    unsaid = said.count(' unknown: ')
    checks.expect(found == (3 if unsaid else 0) and unsaid < 3, 'unknown rounds: %d %s' % (found, said))
    found, said, error = checks.follow(copy, '--workers', '3', '--', '--at-least', '1000')
    checks.expect(found == 3 and said.count(' unknown: ') == len(names) and 'not decided' in error, 'unknown rounds: %d %s' % (found, error))
    found, said, error = checks.follow(copy, '--forget')
    checks.expect(found == 0 and sorted(os.listdir(copy)) == [names[-1], names[-1] + '.labels', 'end'], 'what is forgotten: %s' % os.listdir(copy))
    found, said, error = checks.follow(copy)
    checks.expect(found == 70 and 'the first round here' in error, 'a folder without its first rounds: %d %s' % (found, error))
    shutil.rmtree(copy)
    shutil.copytree(folder, copy)
    os.remove(os.path.join(copy, names[4]))
    found, said, error = checks.follow(copy)
    checks.expect(found == 2 and '000005 is missing' in error, 'a round that is missing: %d %s' % (found, error))
    shutil.rmtree(copy)
    os.mkdir(copy)
    found, said, error = checks.follow(copy, '--once')
    checks.expect(found == 70 and 'there is no round' in error, 'no round: %d %s' % (found, error))
    os.rmdir(copy)
    found, said, error = checks.follow(copy, '--once')
    checks.expect(found == 2 and 'no such folder' in error, 'no folder: %d %s' % (found, error))
    words = [sys.executable, FOLLOW, copy, '--level', 'snapshot', '--program', checks.program]
    waits = subprocess.Popen(words, stdin=subprocess.DEVNULL, stdout=subprocess.DEVNULL, stderr=subprocess.PIPE, universal_newlines=True)
    checks.expect(waits.stderr.readline() == 'follow.py: %s is not there yet: it is waited for\n' % copy, 'a folder that is not there yet')
    shutil.copytree(folder, copy + '.new')
    os.rename(copy + '.new', copy)
    error = waits.communicate(timeout=600)[1]
    checks.expect(waits.returncode == 0 and not error, 'a folder that comes: %d %s' % (waits.returncode, error))


def alongside(checks):
    """Followed while they are made."""
    folder, found = checks.path('alongside'), []
    os.mkdir(folder)
    thread = threading.Thread(target=lambda: found.append(checks.follow(folder, '--forget', '--workers', '2')))
    thread.start()
    shutil.rmtree(checks.path('run'), ignore_errors=True)
    dice = random.Random(3)
    store = stores.Store(dice)
    run = Recorder(folder, 'all', aborted=Aborted, unknown=Lost, rounds=100, transact=transact_by(stores.Connection(store, 0)))
    way, turns = Way(dice, losses=0.01, deaths=0), [None] * 2000
    in_threads(lambda n: Client(run, stores.Connection(store, n), n, way, turns).work(), 4)
    with quiet():
        run.close()
    thread.join()
    status, said, error = found[0]
    checks.expect(status == 0 and said.count('\n') == run._last_round, 'alongside: %d %s %s' % (status, said, error))
    checks.expect(len(logs_of(folder)) == 1, 'alongside: %s' % os.listdir(folder))


class Unsure(sqlite.Store):
    """Gives no answer now and then, whether it has committed or not."""
    lost = (Lost,)

    def commit(self):
        if random.random() < 0.03:
            self.do(random.choice(('COMMIT', 'ROLLBACK')))
            raise Lost
        super().commit()


class Member(clients.Client):
    """A client whose keys are text, bytes and numbers."""

    def transaction(self, operations, *more):
        super().transaction([(kind, {'k1': 7, 'k2': b'z\x00'}.get(key, key)) for kind, key in operations], *more)


def process(folder, database, place, count, turns, end, patience):
    """One of several processes, which write the rounds of a run together."""
    store = sqlite.WeakStore if end == 'weak' else Unsure
    turns = map(lambda left: left or 'dies' not in end or os.kill(os.getpid(), signal.SIGKILL), range(int(turns), -1, -1))
    given = argparse.Namespace(database=database, run='t', keys=8, mix=(5, 1, 4), pause=0.5, kill=0, seed=int(place))
    run = Recorder(folder, 'all', aborted=store.aborted, unknown=Lost, rounds=45, transact=clients.Connection(Unsure, given).transact,
                   share=(int(place), int(count)), patience=float(patience), durable='durable' in end)
    members = [Member(run, store, given, number) for number in range(3)]
    with concurrent.futures.ThreadPoolExecutor(3) as pool:
        for it in [pool.submit(member.work, turns) for member in members]:
            it.result()
    run.close()


def several(checks):
    """Three processes write rounds together; one may leave early, die, be broken, or not come."""
    folder = checks.path('several')
    database = checks.path('several.db')
    count = 200

    def ran(*members):
        """The statuses of processes and what they told: each has a share, turns and an end."""
        shutil.rmtree(folder, ignore_errors=True)
        for name in os.listdir(checks.folder):
            if name.startswith('several.db'):
                os.remove(checks.path(name))
        sqlite.Store.prepare(argparse.Namespace(database=database, run='t'))
        started = [subprocess.Popen([sys.executable, os.path.abspath(__file__), '--process', folder, database, *map(str, it)], stdin=subprocess.DEVNULL,
                                    stdout=subprocess.PIPE, stderr=subprocess.STDOUT, universal_newlines=True) for it in members]
        told = [it.communicate(timeout=300)[0][-300:] for it in started]
        return [it.returncode for it in started], told

    def follow(*words):
        return checks.follow(folder, '--clients', '3000', *words)

    def of(place, turns=count, end='', patience=2):
        return place, 3, turns, end, patience

    for name, members in {'all': (of(1), of(2), of(3)), 'one leaves': (of(1), of(2, 60), of(3)), 'the first leaves': (of(1, 60), of(2), of(3)),
                          'durable': [of(n, count, 'durable') for n in (3, 2, 1)]}.items():
        statuses, told = ran(*members)
        status, said, error = follow()
        paths, names = logs_of(folder), sorted(os.listdir(folder))
        checks.expect(statuses == [0, 0, 0] and status == 0, 'several, %s: %s %s, follow: %d %s %s' % (name, statuses, told, status, said, error))
        checks.expect(len(paths) > 5 and names == [*map(os.path.basename, paths), 'end'], 'several, %s: %s' % (name, names))
        numbers = [int(it) for it in re.findall('session ([0-9]+)', ''.join(open(path).read() for path in paths))]
        checks.expect({it % 3 for it in numbers if it != recorder.KEEPER} == {0, 1, 2}, 'several, %s: sessions %s' % (name, set(numbers)))
        for level in ('strict-serializable', 'prefix'):
            checks.expect(checks.audit(level, run_of(paths)), 'several, %s: the run is not %s' % (name, level))
    statuses, told = ran(of(1), of(2, count, 'weak'), of(3))
    status, said, error = follow()
    checks.expect(status == 1, 'several, a broken store: %d %s %s' % (status, said, error))
    for place in (1, 2):
        for end in ('', 'durable'):
            name = 'number %d dies, %s' % (place, end)
            statuses, told = ran(*(of(n, 90 if n == place else 10 ** 6, end + ' dies' * (n == place)) for n in (1, 2, 3)))
            others = ' '.join(text for n, text in enumerate(told, 1) if n != place)
            checks.expect(statuses.pop(place - 1) == -signal.SIGKILL and statuses == [1, 1], 'several, %s: %s' % (name, statuses))
            checks.expect('of 3 processes number %d died or gave up' % place in others, 'several, %s: %s' % (name, others))
            status, said, error = follow('--once')
            checks.expect(status == 0, 'several, %s: follow: %d %s %s' % (name, status, said, error))
            status, said, error = follow()
            checks.expect(status == 70 and 'died or gave up' in error, 'several, %s: follow: %d %s %s' % (name, status, said, error))
            # of the one that ended, and of the one that had begun, which may have nothing yet
            parts, mended = [os.path.join(folder, it) for it in sorted(os.listdir(folder)) if it.endswith('.part')], checks.path('mended.log')
            done = [subprocess.run([sys.executable, MEND, it, '--overwrite', '-o', mended], stdout=subprocess.PIPE, stderr=subprocess.STDOUT,
                                   universal_newlines=True) for it in parts]
            checks.expect(done and all(it.returncode == 0 or 'has no files' in it.stdout for it in done), 'several, %s: mended: %s' % (name, done))
            if done[-1].returncode == 0:
                with open(mended, 'rb') as log:
                    checks.expect(checks.audit('serializable', log.read()) is not False, 'several, %s: mended, and refused: %s' % (name, done[-1].stdout))
    statuses, told = ran(of(1, patience=0.05), of(3, patience=0.05))
    checks.expect(statuses == [1, 1] and 'of 3 processes number 2 does not come' in told[0], 'several: one does not come: %s' % told)
    statuses, told = ran(of(1, patience=0.1), of(2, patience=0.1), of(2, patience=0.1))
    checks.expect(statuses == [1, 1, 1] and sum('is taken by another process' in it for it in told[1:]) == 1, 'several: one share twice: %s' % told)
    statuses, told = ran(of(1), (2, 4, count, '', 2), of(3))
    checks.expect('the share of the first process is (1, 3)' in told[1], 'several: shares of two runs: %s' % told)


def main():
    if sys.argv[1:2] == ['--process']:
        return process(*sys.argv[2:])
    words = argparse.ArgumentParser(description=__doc__, formatter_class=argparse.RawDescriptionHelpFormatter)
    words.add_argument('program')
    words.add_argument('--runs', type=int, default=12, help='how many runs of twenty rounds (12)')
    words.add_argument('--seed', type=int, default=1)
    words = words.parse_args()
    with tempfile.TemporaryDirectory() as folder:
        checks = Checks(os.path.abspath(words.program), folder)
        for part in (misuse, late, stuck, forgets, unknown, bounded, several, followed, alongside, lambda checks: faults(checks, words.seed),
                     lambda checks: beside(checks, words.runs, words.seed)):
            began = time.monotonic()
            part(checks)
            print('rounds: %s in %.1f s' % (part.__name__, time.monotonic() - began), flush=True)
    print('rounds: %d passed, %d failed' % (checks.passed, checks.failed))
    return 1 if checks.failed else 0


if __name__ == '__main__':
    sys.exit(main())
