"""recorder.py: a test harness imports this, and its clients get a log for cobra_poly. docs/COLLECTING.md says what must be in one and why.

    run = Recorder('run.log', aborted=(SerializationFailure,), unknown=(ConnectionLost,))
    with run.session() as session:                                # one for each client, which is a thread
        with session.transaction(commit=store.commit) as txn:     # leaving the block commits
            seen = store.get('stock/7')
            txn.read('stock/7', seen)                             # behind the answer: the identity in it, None where there was nothing
            wid = txn.write('stock/7')                            # before the statement: an identity to keep beside the value
            store.put('stock/7', '%d red' % wid)
    run.close()                                                   # writes run.log, and warns of what makes it worth little

It gives out sessions, identities and, where that is asked for, moments. A run that does not end is written in rounds, each a log by itself.
Nothing of it is proved; it needs Python's standard library alone, 3.8 or later."""
import atexit, collections, hashlib, itertools, json, operator, os, re, shutil, sys, tempfile, threading, time

# An identity is a count times CLIENTS plus its client's number: its last three digits are the client. Of N processes that write one log the
# K-th has every N-th count and every N-th session, from K on.
CLIENTS, MAX_SESSION, MAX_IDENTITY = 1000, 65535, 2 ** 64 - 1
# So many lines of a client may stand in memory before they go to its file, and for so many seconds, as long as transactions end; or for longer,
# where files are slow, so that this takes some hundredth of the time.
BUFFER, HELD, PAUSE = 4096, 1, 0.02
# The keeper opens and closes rounds, under this number of a session, by fences: keys that begin so.
KEEPER, FENCE = MAX_SESSION, 'fence/'
# So many rounds a transaction of unknown outcome is carried into, as long as nobody reads what it wrote.
CARRIED = 10
# What the store did not do at once is asked for again after so many seconds, and for so many times a client's patience; once the recorder is
# closed, for so many seconds at least.
AGAIN, PATIENCE, LATE = 0.02, 30, 10
PLAIN_KEY = re.compile(rb'(?!hex:|sha:)[A-Za-z0-9_.:/-]{1,64}\Z')


class Misuse(RuntimeError):
    """The harness does something of which no true log can be written."""


class CutOff(Misuse):
    """The transaction took longer than a round waits, or its recorder was closed meanwhile: its outcome is unknown."""


class Unseen(RuntimeError):
    """The store does not show what it said to be committed, so no round can begin or end."""


class Gone(RuntimeError):
    """Another process of the run died, gave up, or does not come, so no round can begin or end."""


def name_of(key):
    """The log's word for a key: its own bytes where a log has these, else 'hex:' and its bytes in hexadecimal, or 'sha:' and a part of
    their SHA-256. No two keys have one name, where text is its bytes in UTF-8 and a number its digits."""
    if isinstance(key, int) and not isinstance(key, bool):
        key = str(key)
    if isinstance(key, str):
        key = key.encode('utf-8', 'surrogatepass')
    if not isinstance(key, (bytes, bytearray)):
        raise Misuse("a key is text, bytes or a whole number, and not %r: make one of table and row, as 'stock/7'" % (key,))
    if PLAIN_KEY.match(key):
        return key.decode('ascii')
    return 'hex:' + key.hex() if len(key) <= 30 else 'sha:' + hashlib.sha256(key).hexdigest()[:60]


def identity_of(seen):
    """The identity in what a store gave back: a whole number, or the first word of a text; 0 where there was nothing."""
    found = 0 if seen is None else seen
    if isinstance(found, (bytes, bytearray)):
        found = found.decode('latin-1')
    if isinstance(found, str):
        word = re.match('[0-9]+(?= |$)', found)
        found = int(word[0]) if word else found
    try:
        wid = operator.index(found)
    except TypeError:
        wid = -1
    if isinstance(found, bool) or not 0 <= wid <= MAX_IDENTITY:
        raise Misuse('a read gives back an identity, or a text of which one is the first word, or None where there was nothing, and not %r'
                     % (seen,))
    return wid


def clock_of_day():
    """Microseconds since 1970, by this machine's clock."""
    return time.time_ns() // 1000


def clock_of_machine():
    """Microseconds of a clock that all processes of this machine share, no other machine has, and nobody sets."""
    return time.monotonic_ns() // 1000


def holds_something(path, rounds=None):
    """Whether a log, or a folder of rounds, that is written there would replace what somebody may need."""
    if rounds and os.path.isdir(path):
        return not all(name.endswith('.lock') for name in os.listdir(path))
    return os.path.exists(path) and (not os.path.isfile(path) or os.path.getsize(path) > 0)


def is_held(path):
    """Whether another process holds the lock of this file; so it may be, where no file has a lock."""
    import fcntl
    try:
        file = os.open(path, os.O_RDONLY)
    except FileNotFoundError:
        return False
    try:
        fcntl.flock(file, fcntl.LOCK_SH | fcntl.LOCK_NB)
    except OSError:
        return True
    finally:
        os.close(file)
    return False


class _Part:
    """One client's part of the log: a file, the lines that are not in it yet, and how many identities this client has given out."""

    def __init__(self, number, folder, share):
        self.number, self.writes, self.lines = number, 0, []
        self._first, self._step = share
        self.move(folder)

    def move(self, folder):
        """What comes goes to a file of this folder, which several processes may share."""
        name = str(self.number) if self._step == 1 else '%d.%d' % (self._first, self.number)
        self.path, self.size = os.path.join(folder, name), 0

    def identity(self):
        self.writes += 1
        return ((self.writes - 1) * self._step + self._first) * CLIENTS + self.number

    def count_of(self, wid):
        """The how manyth identity of this client it is, or 0 where it is none."""
        count, client = divmod(wid, CLIENTS)
        place, other = divmod(count - self._first, self._step)
        return 0 if client != self.number or other or place < 0 else place + 1

    def flush(self, open_lines=()):
        """Puts lines into the file, and behind them those of a transaction that is still open, which the next call writes anew."""
        data, more = ''.join(self.lines).encode('ascii'), ''.join(open_lines).encode('ascii')
        file = os.open(self.path, os.O_WRONLY | os.O_CREAT, 0o666)
        try:
            # where an earlier write failed midway, it is made again; what stands there is never gone in between
            whole, at = memoryview(data + more), self.size
            while whole:
                done = os.pwrite(file, whole, at)
                whole, at = whole[done:], at + done
            os.ftruncate(file, at)
        finally:
            os.close(file)
        self.size += len(data)
        self.lines.clear()


class _Unknown:
    """A transaction of unknown outcome, in rounds: its name, the round in which it began, its lines but for the last, its label and its keys."""

    def __init__(self, name, round, begin, lines, label, keys):
        self.name, self.round, self.begin, self.lines, self.label, self.keys = name, round, begin, lines, label, keys

    def text(self, session, fence, is_carried):
        """Its lines in a session of its own, where it has read the fence first; behind the round in which it began its writes alone."""
        begin = 'begin\n' if is_carried else self.begin
        return ''.join(['session %d\n' % session, begin, fence, *(line for line in self.lines if line[0] == 'w' or not is_carried), 'unknown\n'])


class _Round:
    """What is known of a round: whether clients may begin and whether they have to end it, the keeper's fence, the keys that were written
    in it and the names that were read, who has come into it under which numbers, the fences that its clients left, labels, and what ended
    unknown."""

    def __init__(self, number):
        self.number, self.is_open, self.is_due, self.ended, self.committed = number, False, False, 0, 0
        self.fence, self.keeper, self.keys, self.seen, self.come, self.fences, self.unknown = None, [], {}, set(), {}, {}, []
        self.numbers, self.labels = set(), []

    def line(self):
        return 'r %s %d\n' % self.fence

    def told(self):
        """What the keeper must know of it, where it is another process."""
        return dict(keys=self.keys, seen=sorted(self.seen), fences=self.fences, numbers=sorted(self.numbers), committed=self.committed,
                    labels=self.labels, unknown=[vars(it) for it in self.unknown])

    def add(self, keys, seen, fences, numbers, committed, labels, unknown):
        """Takes what another process told."""
        self.keys.update(keys)
        self.seen.update(seen)
        self.fences.update(fences)
        self.numbers.update(numbers)
        self.committed += committed
        self.labels += map(tuple, labels)
        self.unknown += [_Unknown(**it) for it in unknown]


class _Company:
    """The processes of one machine that write one run in rounds. Each holds the lock of a file of its own for as long as it takes part; what
    it tells the others of a round is a file in the folder of that round. The first is the keeper."""

    def __init__(self, folder, share, limit):
        # the keeper may wait itself for the others, and then for the store
        self.folder, (self.place, self.count), self.file = folder, share, None
        self.limit = limit if self.place == 1 else 3 * limit
        # of the keeper: those that it waits for at the end of a round
        self.others = set(range(2, self.count + 1)) if self.place == 1 else set()
        self.check_free(self.is_there(self.place))

    def check_free(self, is_taken):
        if is_taken:
            raise Misuse('%s: share %s is taken by another process' % (self.folder, (self.place, self.count)))

    def lock(self, place):
        return os.path.join(self.folder, '%d.lock' % place)

    def is_there(self, place):
        return is_held(self.lock(place))

    def take(self):
        """Takes part. The file is there when its lock is held: so that of the keeper says that it has cleaned the folder."""
        import fcntl
        new = os.path.join(self.folder, 'new-%d.lock' % self.place)
        self.file = os.open(new, os.O_RDWR | os.O_CREAT | os.O_TRUNC, 0o666)
        # the lock ends with this process, where no child keeps it; follow.py asks for it where it is on this machine
        os.register_at_fork(after_in_child=self.let_go)
        try:
            fcntl.flock(self.file, fcntl.LOCK_EX | fcntl.LOCK_NB)
        except OSError as fault:
            # one process alone can do without
            self.check_free(self.count > 1 or isinstance(fault, BlockingIOError))
        self.check_free(self.is_there(self.place))
        os.write(self.file, os.uname().nodename.encode())
        os.replace(new, self.lock(self.place))

    def let_go(self):
        if self.file is not None:
            os.close(self.file)
            self.file = None

    def leave(self):
        os.remove(self.lock(self.place))
        self.let_go()

    def tell(self, path, what):
        with open(path + '.new', 'w') as file:
            # JSON has no bytes, which keys may be
            json.dump(what, file, default=lambda key: {' ': bytes(key).hex()})
        os.replace(path + '.new', path)

    def told(self, path):
        with open(path) as file:
            return json.load(file, object_hook=lambda it: bytes.fromhex(it[' ']) if ' ' in it else it)

    def await_all(self, what, is_here, may_come=False, is_late=lambda: True):
        """Waits until this is so of all others, or of the keeper, and names those that do not come. At first they may come still."""
        began, missing = None, set(self.others) if self.place == 1 else {1}
        came = set() if may_come else missing
        while missing:
            there = {it for it in missing if self.is_there(it)}
            missing = {it for it in missing if not is_here(it)}
            gone, came, began = missing & came - there, came | there, began or is_late() and time.monotonic()
            if gone or missing and began and time.monotonic() > began + self.limit:
                raise Gone('%s: of %d processes number %s %s' % (
                    what, self.count, ', '.join(map(str, sorted(gone or missing))), 'died or gave up' if gone else 'does not come'))
            if missing:
                time.sleep(AGAIN / 4)


class Recorder:
    """The log of one run, which `close` writes to `path`. It may be used by any number of threads.

    overwrite      whether a file that stands there may be replaced: else a recorder for it is refused
    share          (K, N) for the K-th of N processes that write one log, each to a path of its own; join.py joins them. In rounds they are
                   of one machine, and have one path; the first keeps the rounds, and its `close` waits until the others are closed
    moments        'all': when each transaction began and was committed, for a store that promises strict serializability; None: no moments
    aborted        exceptions that say that a transaction was rolled back; where one leaves a transaction's block, it goes no further
    unknown        the same of those behind which nobody knows whether it was committed
    clock          whole numbers that never fall, one clock for all clients; microseconds since now where it is not given, and of a share
                   `clock_of_day`, in rounds `clock_of_machine`. Where the first may be set during a run, processes of one machine take the other
    durable        what a client writes is in its file before the store hears of it: a harness that is killed loses nothing that another
                   client could have read
    rounds         for a run of any length: behind so many transactions of all clients together they pause, and go on in a new round, which
                   is a log by itself; `path` is the folder of these logs
    transact       of rounds: transact(reads, writes) runs one transaction, which reads these keys, writes these pairs of a key and an
                   identity, and is committed. It gives back what it read, in this order, as `read` takes it. It is called in the thread of
                   a client, and in one of the recorder's own; where a connection is another one's no more, it connects anew
    patience       of rounds: seconds that they wait for a client, whose transaction is unknown then
    bound          of rounds: how many keys the recorder reads in one transaction"""

    def __init__(self, path, moments=None, aborted=(), unknown=(), clock=None, overwrite=False, share=None, durable=False, rounds=None,
                 transact=None, patience=10, bound=1000):
        if moments not in ('all', None):
            raise Misuse("moments are 'all' or None, and not %r" % (moments,))
        if share is not None and not (isinstance(share, tuple) and len(share) == 2 and all(isinstance(it, int) for it in share)
                                      and 1 <= share[0] <= share[1] <= MAX_SESSION):
            raise Misuse('a share is a pair of whole numbers, (K, N) for the K-th of N processes, and not %r' % (share,))
        if (rounds is None) != (transact is None):
            raise Misuse('rounds are made by transactions of the recorder: rounds=N goes with transact=F')
        for name, value in dict(rounds=rounds, bound=bound).items():
            if value is not None and not (isinstance(value, int) and value >= 1):
                raise Misuse('%s is a whole number from 1, and not %r' % (name, value))
        began = time.monotonic_ns()
        self.path, self._may_replace = os.path.abspath(os.fspath(path)), overwrite
        if not rounds or not share or share[0] == 1:
            self._check_free_path(rounds=rounds)
        alone = lambda: (time.monotonic_ns() - began) // 1000
        self._clock, self._last = clock or (alone if not share else clock_of_machine if rounds else clock_of_day), 0
        self._is_shared, self._share = share is not None, share or (1, 1)
        if not isinstance(self._clock(), int) or self._clock() < 0:
            raise Misuse('a clock gives whole numbers from 0, as time.monotonic_ns does, and not %r' % (self._clock(),))
        self._moments = moments
        self._named = self._outcomes(abort=aborted, unknown=unknown)
        if rounds:
            self._named[CutOff] = 'unknown'
        # All that follows is read and changed with this lock held.
        self._turn = threading.Condition()
        self._numbers, self._parts, self._idle = itertools.count(*self._share), [], []
        self._open, self._taken = {}, set()
        self._counts, self._strange, self._left_open, self._warnings = collections.Counter(), None, [], None
        self._carried, self._dropped, self._sessions, self._late, self._last_round, self._labels = [], [], [], [], 0, []
        self._closed, self._process, self._due, self._turns = False, os.getpid(), time.monotonic() + HELD, 0
        self._durable, self._rounds, self._transact, self._patience, self._bound = durable, rounds, transact, patience, bound
        if rounds:
            self._begin_rounds()
        else:
            self._folder = tempfile.mkdtemp(prefix=os.path.basename(self.path) + '.', dir=os.path.dirname(self.path))
        atexit.register(self._at_exit)

    @staticmethod
    def _outcomes(**classes):
        named = {}
        for outcome, kinds in classes.items():
            for kind in kinds if isinstance(kinds, (tuple, list, set, frozenset)) else (kinds,):
                if not (isinstance(kind, type) and issubclass(kind, BaseException)):
                    raise Misuse('%r is no class of exceptions' % (kind,))
                if named.setdefault(kind, outcome) != outcome:
                    raise Misuse('%s is named for both outcomes' % kind.__name__)
        return named

    def outcome_of(self, kind):
        """What an exception of this class says of its transaction; of several classes that are named, the closest decides."""
        return next((self._named[it] for it in kind.__mro__ if it in self._named), None)

    def session(self, transact=None):
        """One client. Of rounds, its own `transact` is called in place of the recorder's for it, in its thread: on its connection."""
        with self._turn:
            self._check_open()
            if not self._idle:
                if len(self._parts) == CLIENTS - 1:
                    raise Misuse('more than %d sessions at once: leave a session when its client ends' % len(self._parts))
                self._parts.append(_Part(len(self._parts) + 1, self._folder, self._share))
                self._idle.append(self._parts[-1])
            return Session(self, self._idle.pop(), transact or self._transact)

    def close(self):
        """Writes the log, and gives a list of what makes it worth little, which is also told on standard error. A transaction that is
        still open ends as unknown."""
        with self._turn:
            if self._warnings is None and os.getpid() == self._process:
                self._closed = True
                self._left_open += [it.name for it in self._open]
                for txn in list(self._open):
                    self._cut_off(txn)
                if self._rounds:
                    self._end_rounds()
                else:
                    self._join()
                self._warnings = list(self._worth_little())
                for text in self._warnings:
                    print('recorder: %s: %s' % (self.path, text), file=sys.stderr)
            return self._warnings

    def __enter__(self):
        return self

    def __exit__(self, *fault):
        self.close()

    def _at_exit(self):
        if not self._closed and os.getpid() == self._process:
            print('recorder: %s: close() was not called, and is called now' % self.path, file=sys.stderr)
            self.close()

    def _check_free_path(self, told='', rounds=None):
        if not self._may_replace and holds_something(self.path, rounds):
            raise Misuse('%s is there already, and may be a log that is still needed: take another name, or overwrite=True%s' % (
                self.path, told))

    def _check_open(self):
        if os.getpid() != self._process:
            raise Misuse('this recorder belongs to process %d, and this is another one: give each process one of its own, with share=(K, N)'
                         % self._process)
        if self._closed:
            raise Misuse('the recorder is closed: let all clients end before close()')

    def _join(self):
        for part in self._parts:
            part.flush()
        new = os.path.join(self._folder, 'log')
        with open(new, 'wb') as log:
            log.write(b'log 3\n')
            for part in self._parts:
                with open(part.path, 'rb') as file:
                    shutil.copyfileobj(file, log)
        atexit.unregister(self._at_exit)
        self._check_free_path('; this run is in ' + new)
        os.replace(new, self.path)
        if self._labels:
            self._write_labels(self.path, self._labels)
        elif self._may_replace and os.path.exists(self.path + '.labels'):
            os.remove(self.path + '.labels')  # of the log that stood there
        shutil.rmtree(self._folder, ignore_errors=True)

    @staticmethod
    def _write_labels(path, labels):
        """Labels, pairs of a transaction's name and its text, beside a log."""
        with open(path + '.labels', 'w', encoding='utf-8', newline='\n') as out:
            out.writelines('%s %s\n' % (name.replace('.', ' '), label) for name, label in labels)

    def _worth_little(self):
        counts = self._counts
        ended = counts['commit'] + counts['abort'] + counts['unknown']
        if not counts['commit']:
            yield 'no transaction was committed, so there is nothing to judge'
        elif self._is_shared:
            pass  # where clients meet, the other processes may tell
        elif counts['sessions'] < 2:
            yield 'there is one session alone: a fault shows where clients meet'
        elif not counts['reads']:
            yield 'no read names a write, so few faults can be seen: read keys that others write'
        elif not counts['reads of others']:
            yield 'no client read what another one wrote: let them use the same keys, fewer of them'
        elif not counts['overlaps']:
            yield 'no two transactions were open at once, so nothing was at risk: let the clients run side by side, with pauses'
        if ended > 10 and counts['abort'] > ended * 0.9:
            yield '%d of %d transactions were aborted' % (counts['abort'], ended)
        if counts['unknown'] > 10 and counts['unknown'] > ended * 0.1:
            yield 'of %d transactions %d have an unknown outcome: faults that need a true one go unseen' % (ended, counts['unknown'])
        if self._strange:
            yield ('%s read %s as %d, which nobody wrote in this run: the keys must be empty before it, and each value keep its identity'
                   % self._strange)
        if counts['late']:
            yield '%d times a fence of a round was not seen at once: the store shows late what it committed, and keeps no strict level' % counts['late']
        if counts['waited for']:
            yield '%d times a client did not come to the end of a round within %g seconds, and the recorder wrote its fence' % (
                counts['waited for'], self._patience)
        for count, names, more in (counts['dropped'], self._dropped, ' in %d rounds, so they are carried no more' % CARRIED), (
                len(self._carried), [it.name for it in self._carried[:10]], ''):
            if count:
                yield 'what %d transactions of unknown outcome wrote was read by nobody%s: %s' % (count, more, ', '.join(names))
        if self._left_open:
            yield 'transactions were open when their thread or the run ended, and are unknown: ' + ', '.join(self._left_open[:10])

    # What follows is called with the lock held.

    def _moment(self, is_end=False):
        """A reading of the clock, greater than each one before: so what is read first is the lesser, on any clock. Where other processes
        read it too, a beginning is not said to be later than it was, and an end not to be earlier."""
        if self._is_shared:
            now = self._clock()
            self._last = max(self._last, now + 1)
            return self._last if is_end else now
        self._last = max(self._clock(), self._last + 1)
        return self._last

    def _line_of_begin(self):
        return 'begin %d\n' % self._moment() if self._moments else 'begin\n'

    def _line_of_end(self, outcome):
        return 'commit %d\n' % self._moment(is_end=True) if outcome == 'commit' and self._moments else outcome + '\n'

    def _free(self, session):
        """Another client may have its part; in rounds not before its fence stands there."""
        waits = self._rounds and session._come is self._round and session._left is not self._round
        (self._late if waits else self._idle).append(session._part)

    def _number(self):
        """A session's number that nobody has; in rounds nobody of this one."""
        number = next(it for it in self._numbers if it not in self._taken)
        if number > MAX_SESSION - bool(self._rounds):
            raise Misuse('a log has at most %d sessions, those of all processes together' % MAX_SESSION)
        self._counts['sessions'] += 1
        return number

    def _cut_off(self, txn):
        """Nobody waits for this one any longer."""
        txn._is_cut_off = bool(self._rounds)
        self._end(txn, 'unknown')

    def _begin(self, txn):
        session = txn.session
        session._check_free()
        if session.number is None:
            session.number, session._place = self._number(), 0
            txn._lines.append('session %d\n' % session.number)
        session._place += 1
        txn.name = '%d.%d' % (session.number, session._place)
        txn._lines.append(self._line_of_begin())
        session._txn = txn
        self._counts['overlaps'] += bool(self._open)
        self._open[txn] = threading.current_thread()

    def _end(self, txn, outcome):
        session, part = txn.session, txn.session._part
        txn.outcome, session._txn = outcome, None
        del self._open[txn]
        if self._rounds:
            self._end_in_round(txn)
        else:
            part.lines += txn._lines + [self._line_of_end(outcome)]
            self._labels += [(txn.name, txn.label)] if txn.label is not None else []
        self._counts[outcome] += 1
        if outcome == 'commit':
            self._counts['reads'] += len(txn._reads)
            self._counts['reads of others'] += sum(not session._is_own(wid) for wid in txn._reads.values())
        elif outcome == 'unknown':
            session.number = session.number if self._rounds else None
        if len(part.lines) > BUFFER:
            part.flush()
        now = time.monotonic()
        if now > self._due:
            self._due = now + HELD
            for _ in self._parts:
                its = self._parts[self._turns % len(self._parts)]
                self._turns += 1
                # of one without lines an open transaction may stand in the file, where it is durable
                if its.lines:
                    its.flush()
                if time.monotonic() > now + PAUSE:
                    break

    # What follows is of rounds. The keeper is a thread of its own, which opens and closes them; clients read and write fences in theirs.

    def _begin_rounds(self):
        os.makedirs(self.path, exist_ok=True)
        self._company = _Company(self.path, self._share, self._patience * PATIENCE)
        for name in os.listdir(self.path) if self._share[0] == 1 else ():
            if re.fullmatch(r'[0-9]{6,}\.(log(\.labels)?|part)|end', name):
                its = os.path.join(self.path, name)
                shutil.rmtree(its) if os.path.isdir(its) else os.remove(its)
        self._company.take()
        # what keys hold behind the last closing; transactions of unknown outcome that nobody read yet; by how much fences have other keys
        self._held, self._worn, self._fault, self._fences = {}, {}, None, _Part(0, self.path, self._share)
        self._begin_round(1)
        self._keeper = threading.Thread(target=self._keep, name='keeper of rounds', daemon=True)
        self._keeper.start()

    def _begin_round(self, number):
        self._round, self._folder = _Round(number), os.path.join(self.path, '%06d.part' % number)
        if self._share[0] == 1:
            os.mkdir(self._folder)
        for part in [*self._parts, self._fences]:
            part.move(self._folder)
        self._numbers, self._taken = itertools.count(*self._share), {it.number for it in self._sessions}
        self._idle, self._late = self._idle + self._late, []

    def _keep(self):
        try:
            self._open_round()
            while True:
                with self._turn:
                    while not self._round.is_due and not self._closed:
                        self._turn.wait(AGAIN if self._is_shared else None)
                        self._round.is_due |= self._is_shared and os.path.exists(os.path.join(self._folder, 'due'))
                    round, folder = self._round, self._folder
                    if round.is_due and self._is_shared:
                        open(os.path.join(folder, 'due'), 'w').close()
                    round.is_due = True
                self._gather(round)
                if self._share[0] > 1:
                    if self._hand_in(round, folder):
                        return
                    self._open_round()
                    continue
                self._take_in(round, folder)
                unknown = self._carried + round.unknown
                closings = self._read_closing(round, unknown) if round.committed or not self._is_ending() else []
                with self._turn:
                    for part in self._parts:
                        part.flush()
                    is_last = self._is_ending()
                    if not is_last:
                        self._begin_round(round.number + 1)
                if not is_last:
                    self._open_round()
                # what became known of the round is written while the next one goes on
                self._write_round(round, folder, closings, unknown)
                if is_last:
                    return
        except BaseException as fault:
            with self._turn:
                self._fault = fault
                self._turn.notify_all()
            # nobody waits for this one any longer
            self._company.let_go()

    def _is_ending(self):
        """Whether the round that goes on is the last one."""
        return self._closed and not self._company.others

    def _hand_in(self, round, folder):
        """Tells the keeper, which is another process, what became of the round here; and whether this process takes part no more."""
        with self._turn:
            for part in self._parts:
                part.flush()
            is_over = self._closed
            self._begin_round(round.number + 1)
        self._company.tell(os.path.join(folder, '%d.part' % self._share[0]), dict(is_over=is_over, **round.told()))
        round.come.clear()
        return is_over

    def _take_in(self, round, folder):
        """What the other processes tell of the round: the keeper waits for them."""
        path_of, due = lambda it: os.path.join(folder, '%d.part' % it), os.path.join(folder, 'due')
        self._company.await_all('round %d does not end' % round.number, lambda it: os.path.exists(path_of(it)), is_late=lambda: os.path.exists(due))
        for it in sorted(self._company.others):
            told = self._company.told(path_of(it))
            if told.pop('is_over'):
                self._company.others.remove(it)
            round.add(**told)

    def _end_rounds(self):
        self._turn.notify_all()
        self._turn.release()
        try:
            self._keeper.join()
        finally:
            self._turn.acquire()
        atexit.unregister(self._at_exit)
        if self._fault:
            raise self._fault
        if self._share[0] == 1:
            with open(os.path.join(self.path, 'end'), 'w') as file:
                file.write('%d\n' % self._last_round)
        self._company.leave()

    def _enter(self, txn):
        """Begins a transaction; in rounds when its client has come into one that is open."""
        while True:
            with self._turn:
                act = self._next_act(txn.session) if self._rounds else None
                if act is None:
                    return self._begin(txn)
            act(txn.session)

    def _next_act(self, session):
        """What a client has to do before it may begin; waits for a round."""
        if threading.current_thread() in self._open.values():
            raise Misuse('one thread has transactions of two sessions open, and would wait for itself at the end of a round: give each client '
                         'a thread of its own')
        while True:
            session._check_free()
            if self._fault:
                raise self._fault
            if self._round.is_open and not self._round.is_due:
                return None if session._come is self._round else self._come_in
            if session._come is self._round and session._left is not self._round:
                return self._leave_round
            self._turn.wait(1)

    def _ask(self, transact, reads, writes):
        """What a transaction of the recorder's read; None where it was rolled back, and the exception where nobody knows."""
        try:
            found = transact(reads, writes)
        except BaseException as fault:
            outcome = self.outcome_of(type(fault))
            if outcome is None:
                raise
            return None if outcome == 'abort' else fault
        if found is False:
            return None
        seen = [identity_of(it) for it in found or ()]
        if len(seen) != len(reads):
            raise Misuse('transact(reads, writes) gives back what it read, one for each of %d keys, and not %r' % (len(reads), found))
        return seen

    def _tries(self, what):
        """Goes on for as long as the store may need."""
        began, pause, is_late = time.monotonic(), AGAIN, False
        while not is_late:
            yield
            time.sleep(pause)
            pause, is_late = min(2 * pause, 1), time.monotonic() - began > (max(self._patience, LATE) if self._is_ending() else self._patience * PATIENCE)
        raise Unseen('%s, for %d seconds' % (what, time.monotonic() - began))

    def _put_fence(self, number, part, transact, is_over=lambda: False):
        """Writes the fence of a session, and gives its lines, its key and its identity. A fence of which nobody knows whether it was written
        is written no more: it has another key from then on. Called without the lock."""
        for _ in self._tries('the store commits no fence of session %s' % number):
            with self._turn:
                if is_over():
                    return None
                key = FENCE + '.'.join(str(it) for it in (number, self._worn.get(number)) if it)
                wid, begin = part.identity(), self._line_of_begin()
            answer = None
            try:
                answer = self._ask(transact, [], [(key, wid)])
            finally:
                with self._turn:
                    if answer == []:
                        return [begin, 'w %s %d\n' % (key, wid), self._line_of_end('commit')], key, wid
                    if answer is not None or sys.exc_info()[0]:
                        self._worn[number] = self._worn.get(number, 1) + 1

    def _open_round(self):
        """Writes the keeper's fence, or waits until the keeper has, which is another process."""
        opening, is_first, company = os.path.join(self._folder, 'opening'), self._round.number == 1, self._company
        if self._share[0] > 1:
            company.await_all('round %d does not begin' % self._round.number, lambda it: company.is_there(it) and os.path.exists(opening), is_first)
            lines, (key, wid, count) = [], company.told(opening)
            if count != self._share[1]:
                raise Misuse('the share of the first process is (1, %d), and this one is %s' % (count, self._share))
        else:
            if is_first:
                company.await_all('no round begins', company.is_there, True)
            lines, key, wid = self._put_fence(KEEPER, self._fences, self._transact)
        with self._turn:
            self._round.fence, self._round.keeper, self._round.is_open = (key, wid), lines, True
            if self._durable and lines:
                self._fences.flush(['session %d\n' % KEEPER, *lines])
            self._turn.notify_all()
        if lines and self._is_shared:
            company.tell(opening, [key, wid, self._share[1]])

    def _come_in(self, session):
        """A client reads the keeper's fence, until it sees it, and is in the round."""
        round = self._round
        if not round.is_open:
            return
        key, wid = round.fence
        for _ in self._tries('session %s does not see the fence of round %d' % (session.number or '', round.number)):
            with self._turn:
                begin = self._line_of_begin()
            answer = self._ask(session._transact, [key], [])
            with self._turn:
                if self._round is not round or round.is_due or self._fault:
                    return
                if answer == [wid]:
                    end = self._line_of_end('commit')
                    if session.number is None:
                        session.number = self._number()
                        self._sessions.append(session)
                        self._taken.add(session.number)
                    session._come, session._place = round, 1
                    session._part.lines += ['session %d\n' % session.number, begin, round.line(), end]
                    round.come[session] = session.number, session._part
                    round.numbers.add(session.number)
                    return
                self._counts['late'] += isinstance(answer, list)

    def _leave_round(self, session):
        """A client writes its fence, as its last transaction of the round, if it came into it."""
        round = session._come
        is_over = lambda: round is None or session._left is round or self._round is not round or bool(self._closed or self._fault)
        fence = self._put_fence(session.number, session._part, session._transact, is_over)
        if fence:
            with self._turn:
                if not is_over():
                    self._has_left(session, round, fence)

    def _has_left(self, session, round, fence):
        lines, key, wid = fence
        round.come[session][1].lines += lines
        round.fences[key], session._left = wid, round
        self._turn.notify_all()

    def _gather(self, round):
        """Waits until each client has left the round; for one that does not come the keeper writes its fence."""
        late = time.monotonic() + self._patience
        with self._turn:
            while True:
                for txn, thread in list(self._open.items()):
                    if not thread.is_alive():
                        self._left_open.append(txn.name)
                        self._cut_off(txn)
                waiting = [it for it in round.come if it._left is not round]
                if not waiting or self._closed or time.monotonic() > late:
                    break
                self._turn.wait(0.05)
            for session in waiting:
                self._counts['waited for'] += not self._closed
                if session._txn is not None:
                    self._left_open.append(session._txn.name)
                    self._cut_off(session._txn)
                # its own try may still be under way
                session._left = round
                number = round.come[session][0]
                self._worn[number] = self._worn.get(number, 1) + 1
        for session in waiting:
            fence = self._put_fence(round.come[session][0], self._fences, self._transact)
            with self._turn:
                self._has_left(session, round, fence)

    def _end_in_round(self, txn):
        round, part = self._round, txn.session._part
        if txn.outcome == 'unknown':
            # it stands in a session of its own, and its client goes on in the old one
            name, (begin, *lines) = '%06d: %s' % (round.number, txn.name), txn._lines
            round.unknown.append(_Unknown(name, round.number, begin, lines, txn.label, dict(txn._written.values())))
            txn.session._place -= 1
            if self._durable:
                self._keep_unknown(round, round.unknown[-1], False)
        else:
            part.lines += txn._lines + [self._line_of_end(txn.outcome)]
            round.labels += [(txn.name, txn.label)] if txn.label is not None else []
        if txn.outcome == 'commit':
            round.seen |= txn._looked
            round.committed += 1
        round.keys.update(txn._written.values())
        round.ended += 1
        if round.ended * self._share[1] >= self._rounds and not round.is_due:
            round.is_due = True
            self._turn.notify_all()

    def _keep_unknown(self, round, it, is_carried):
        with open(os.path.join(self._folder, 'unknown.%d' % self._share[0] if self._is_shared else 'unknown'), 'a') as file:
            file.write(it.text(self._number(), round.line(), is_carried))

    def _read_closing(self, round, unknown):
        """Reads the fences that clients left, and what the keys of the round hold: the closing's transactions, each with its lines and its
        reads. Where one shows a transaction of unknown outcome, what that wrote is read behind it."""
        keys = dict(round.keys)
        for it in unknown:
            keys.update(it.keys)
        asked, closings, behind = [*round.fences.items(), *sorted(keys.items())], [], {}
        writes = {line[2:]: it for it in unknown for line in it.lines if line[0] == 'w'}
        place = 0
        while place < len(asked) or not closings:
            some = asked[place:place + self._bound]
            place += len(some)
            lines, reads = self._read_once(round, some)
            closings.append((lines, reads))
            for name, wid in reads.items():
                it = writes.get('%s %d\n' % (name, wid))
                if it and it not in behind:
                    behind[it] = place
                    asked += [pair for pair in it.keys.items() if pair in asked[:place - len(some)]]
        return closings

    def _read_once(self, round, some):
        for _ in self._tries('the fences of round %d are not seen' % round.number):
            with self._turn:
                begin = self._line_of_begin()
            names = [pair[0] for pair in some]
            answer = some and self._ask(self._transact, [name if name in round.fences else key for name, key in some], [])
            with self._turn:
                if isinstance(answer, list):
                    if all(round.fences.get(name, wid) == wid for name, wid in zip(names, answer)):
                        lines = ['r %s %d\n' % pair for pair in zip(names, answer)]
                        return [begin, *lines, self._line_of_end('commit')], dict(zip(names, answer))
                    self._counts['late'] += 1

    def _write_round(self, round, folder, closings, unknown):
        """Writes the log of a round that has ended, and finds which transactions of unknown outcome took part in it."""
        names = [name for name in os.listdir(folder) if re.fullmatch(r'([0-9]+\.)?[1-9][0-9]*', name)]
        paths = [os.path.join(folder, name) for name in sorted(names, key=lambda name: [int(it) for it in name.split('.')])]
        reads = {name: wid for _, its in closings for name, wid in its.items() if name not in round.fences}
        taken = self._taken_in(paths, [line for lines, _ in closings for line in lines], round, unknown)
        self._carried = [it for it in unknown if it not in taken]
        for it in [it for it in self._carried if it.round <= round.number - CARRIED]:
            self._counts['dropped'] += 1
            self._dropped = (self._dropped + [it.name])[:10]
            self._carried.remove(it)
        if closings:
            seen = round.seen.union(reads, *({line.split(' ')[1] for line in it.lines if line[0] == 'r'} for it in taken if it.round == round.number))
            held = ['w %s %d\n' % (name, self._held[name]) for name in sorted(seen) if self._held.get(name)]
            new = os.path.join(folder, 'log')
            with open(new, 'wb') as log:
                begin, *rest = round.keeper
                text = ['log 3\n', 'session %d\n' % KEEPER, begin, *held, *rest]
                text += [line for lines, _ in closings for line in lines]
                log.write(''.join(text).encode('ascii'))
                for path in paths:
                    with open(path, 'rb') as file:
                        shutil.copyfileobj(file, log)
                numbers = (number for number in itertools.count(1) if number not in round.numbers)
                for number, it in zip(numbers, taken):
                    log.write(it.text(number, round.line(), it.round < round.number).encode('ascii'))
                    round.labels += [('%d.1' % number, it.label)] if it.label is not None else []
            path = os.path.join(self.path, '%06d.log' % round.number)
            if round.labels:
                self._write_labels(path, round.labels)
            os.replace(new, path)
            self._last_round = round.number
        self._held.update(reads)
        # a client that idles knows the round that it left, which must not know those who go on
        round.come.clear()
        shutil.rmtree(folder)
        if self._durable and self._round is not round:
            with self._turn:
                for it in self._carried:
                    self._keep_unknown(self._round, it, True)

    def _taken_in(self, paths, closing, round, unknown):
        """Those of these transactions of which a committed one of the round read a write, or one that is taken itself."""
        wanted = {b'r' + line[1:].encode('ascii'): it for it in unknown for line in it.lines if line[0] == 'w'}
        found, pending = [], []
        if wanted:
            pending = [line.encode('ascii') for line in closing]
            found = [wanted[line] for line in pending if line in wanted]
        for path in paths if wanted else ():
            with open(path, 'rb') as file:
                some = []
                for line in file:
                    if line in wanted:
                        some.append(wanted[line])
                    elif some and line[0] in b'ac':
                        found += some if line[:1] == b'c' else []
                        some = []
        taken = []
        while found:
            it = found.pop()
            if it not in taken:
                taken.append(it)
                if it.round == round.number:
                    found += [wanted[line] for line in (line.encode('ascii') for line in it.lines if line[0] == 'r') if line in wanted]
        return taken


class Session:
    """One client, which does one thing after the other. Its number in the log is None until it begins a transaction, and behind one of an
    unknown outcome, where it goes on under a new one."""

    def __init__(self, run, part, transact):
        self.number, self._run, self._part, self._transact, self._txn, self._place = None, run, part, transact, None, 0
        # of rounds: the last one that it came into, and the last one that it left
        self._come, self._left = None, None
        # another client may have had this part before
        self._first_write = part.writes + 1

    def transaction(self, commit=None, label=None):
        """Begins a transaction: before its first statement is sent. Where `commit` is given, leaving its block calls it, and where it gives
        back False the transaction was aborted; without it the block itself commits in the store, as its last statement. `label` says on a
        line what it is for, beside the log in a file of its own."""
        if label is not None and not (isinstance(label, str) and label.strip() and label.isprintable()):
            raise Misuse('a label is a printable text on one line, and not %r' % (label,))
        return Transaction(self, commit, label)

    def close(self):
        """Leaves; a transaction that is open ends as unknown."""
        with self._run._turn:
            if self._txn is not None:
                self._run._left_open.append(self._txn.name)
                self._run._cut_off(self._txn)
        try:
            if self._run._rounds:
                self._run._leave_round(self)
        finally:
            self._is_left()

    def _is_left(self):
        with self._run._turn:
            if self in self._run._sessions:
                self._run._sessions.remove(self)
            if self._part is not None:
                self._run._free(self)
                self._part = None

    def __enter__(self):
        return self

    def __exit__(self, *fault):
        self.close()

    def _is_own(self, wid):
        return self._part.count_of(wid) >= self._first_write

    def _check_free(self):
        self._run._check_open()
        if self._part is None:
            raise Misuse('this session is closed: each client opens one of its own')
        if self._txn is not None:
            raise Misuse('%s is still open: end it first; clients that run at once have a session each' % self._txn.name)


class Transaction:
    """What one transaction did. `name` is its name in the log, SESSION.PLACE, and `outcome` is None while it is open, then 'commit',
    'abort' or 'unknown'.

    Leaving its block ends it: without an exception as committed, with one that the recorder's harness named as that says, and it goes no
    further, with any other one as unknown. Where the session has a `commit` that was not called yet, a named exception says abort."""

    def __init__(self, session, commit, label):
        self.session, self.name, self.outcome, self.label, self._commit = session, None, None, label, commit
        self._lines, self._written, self._reads, self._looked, self._is_cut_off = [], {}, {}, set(), False
        self._run = session._run
        self._run._enter(self)

    def read(self, key, seen, before=None):
        """It read the key. `seen` is what the store gave back: the identity, or a text of which it is the first word; None where there was
        nothing. A statement that reads and writes at once has read before its write of the identity `before`."""
        name, wid = name_of(key), identity_of(seen)
        self._check_open()
        place = len(self._lines) if before is None else self._lines.index(self._line_of(before))
        self._lines.insert(place, 'r %s %d\n' % (name, wid))
        self._looked.add(name)
        if wid:
            self._reads[name] = wid
            parts, client = self._run._parts, wid % CLIENTS
            # of several processes join.py sees what nobody wrote
            if not (0 < client <= len(parts) and 0 < parts[client - 1].count_of(wid) <= parts[client - 1].writes or self._run._is_shared):
                self._run._strange = self._run._strange or (self.name, name, wid)

    def write(self, key):
        """An identity for a write of the key, to be kept with the value: it is asked for directly before the statement is sent."""
        name, part = name_of(key), self.session._part
        with self._run._turn:
            self._check_open()
            if self._run._rounds and name.startswith(FENCE):
                raise Misuse("'%s' begins as the fences of rounds do" % name)
            wid = part.identity()
            self._written[wid] = name, key
            self._lines.append('w %s %d\n' % (name, wid))
            if self._run._durable:
                part.flush(self._lines)
        return wid

    def refused(self, wid):
        """The write of this identity was not done: the store said so, or it was never sent; and the transaction goes on."""
        self._check_open()
        self._lines.remove(self._line_of(wid))
        del self._written[wid]

    def commit(self):
        """It is committed: by `commit` of the session's call where that was given; else the store has said so."""
        self._check_open()
        if self._commit is None:
            self._end('commit')
            return
        try:
            answer = self._commit()
        except BaseException as fault:
            outcome = self._run.outcome_of(type(fault))
            self._end(outcome or 'unknown')
            if outcome is None:
                raise
        else:
            self._end('abort' if answer is False else 'commit')

    def abort(self):
        """It was rolled back, by the client or by the store."""
        self._check_open()
        self._end('abort')

    def unknown(self):
        """Nobody learnt whether it was committed. The session goes on under another number, and should do so on a new connection."""
        self._check_open()
        self._end('unknown')

    def __enter__(self):
        return self

    def __exit__(self, kind, fault, trace):
        if kind is None:
            if self.outcome is None:
                self.commit()
            return False
        outcome = self._run.outcome_of(kind)
        if self.outcome is None:
            self._end('abort' if outcome and self._commit is not None else outcome or 'unknown')
        return outcome is not None

    def _end(self, outcome):
        with self._run._turn:
            # it may have been ended by `close` meanwhile
            if self.outcome is None:
                self._run._end(self, outcome)

    def _line_of(self, wid):
        if wid not in self._written:
            raise Misuse('%s did not write with identity %r' % (self.name, wid))
        return 'w %s %d\n' % (self._written[wid][0], wid)

    def _check_open(self):
        if self._is_cut_off:
            raise CutOff('%s took too long, and its outcome is unknown' % self.name)
        if self.outcome is not None:
            raise Misuse('%s has ended (%s): begin another transaction' % (self.name, self.outcome))


if __name__ == '__main__':
    print(__doc__)
