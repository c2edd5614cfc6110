"""clients.py: a load of random transactions for a store, by clients that run at once, and its log by recorder.py.

What a store can do is a class, as in sqlite.py, postgresql.py and redis.py beside this file. For another store copy one of them, write
the methods of its class Store anew, and end with

    clients.main(__doc__, {'serializable': Store}, address='where the store is')

Nothing of this is proved."""
import argparse, concurrent.futures, os, random, socket, sys, time
from recorder import Recorder, holds_something

COLOURS = ('red', 'green', 'deleted')
# A new connection is tried for so many seconds.
PATIENCE = 20
# What goes wrong around a collector has this status.
AROUND = 70


def stop(words):
    print('%s: %s' % (os.path.basename(sys.argv[0]), words), file=sys.stderr)
    sys.exit(AROUND)


class Store:
    """A client's connection to a store. Each method but `cut` and `close` may raise the exceptions of `aborted` and `lost`. A method
    `cut(self, way)`, which shuts the connection's socket down in this way, is only asked for by --kill."""
    # Exceptions that say that the transaction was rolled back; and others that say that the connection is gone.
    aborted, lost = (), ()

    def __init__(self, arguments):
        """Connects, with what the command line has: `arguments.address`, and `arguments.run`, a name that no other run has."""

    def begin(self):
        """Begins a transaction, where the first operation does not."""

    def read(self, key):
        """The text that was written to the key; None where it never was."""
        raise NotImplementedError

    def write(self, key, text):
        raise NotImplementedError

    def commit(self):
        """Commits; gives back False where the store did not."""
        raise NotImplementedError

    def abort(self):
        """Rolls back what may be open."""

    def close(self):
        """Ends the connection, which may be gone."""

    @classmethod
    def prepare(cls, arguments):
        """Makes room for new keys, before the run: nobody used them before."""

    @classmethod
    def clear(cls, arguments):
        """Removes them behind the run."""


class Connection:
    """A connection to the store, which is made anew where it is gone."""

    def __init__(self, store_class, arguments):
        self.store_class, self.arguments, self.store = store_class, arguments, store_class(arguments)

    def transact(self, reads, writes):
        """One transaction of the recorder's own, for its rounds."""
        try:
            self.store.begin()
            seen = [self.store.read(key) for key in reads]
            for key, wid in writes:
                self.store.write(key, '%d fence' % wid)
            if self.store.commit() is not False:
                return seen
            self.roll_back()
        except self.store_class.aborted:
            self.roll_back()
        except self.store_class.lost:
            self.connect()
            raise
        return False

    def roll_back(self):
        try:
            self.store.abort()
        except self.store_class.lost:
            self.connect()

    def connect(self):
        self.store.close()
        late = time.monotonic() + PATIENCE
        while True:
            try:
                self.store = self.store_class(self.arguments)
                return
            except self.store_class.lost:
                if time.monotonic() > late:
                    raise
                time.sleep(0.1)


class Client(Connection):
    def __init__(self, run, store_class, arguments, number):
        super().__init__(store_class, arguments)
        self.dice = random.Random('%d %d' % (arguments.seed, number))
        self.session = run.session(self.transact)

    def transaction(self, operations, is_kept=True, cut_at=None):
        """Makes these operations in a transaction; at operation `cut_at`, or as it commits, the connection is cut."""
        with self.session.transaction(commit=lambda: self.commit(cut_at)) as txn:
            self.store.begin()
            for place, (kind, key) in enumerate(operations):
                time.sleep(self.dice.uniform(0, self.arguments.pause / 1000))
                if place == cut_at:
                    self.store.cut(socket.SHUT_RDWR)
                if kind != 'write':
                    txn.read(key, self.store.read(key))
                if kind != 'read':
                    # a delete is a write too: of a value that says so
                    self.store.write(key, '%d %s' % (txn.write(key), self.dice.choice(COLOURS)))
            if not is_kept:
                txn.abort()
        if cut_at is not None or txn.outcome == 'unknown':
            # a connection that was cut may still get an answer, which would be taken for that of the next question
            self.connect()
        elif txn.outcome == 'abort':
            self.roll_back()

    def commit(self, cut_at):
        if cut_at == 'commit':
            # COMMIT is sent, and the answer does not come
            self.store.cut(socket.SHUT_RD)
        return self.store.commit()

    def look(self, keys):
        """Reads these keys in one transaction."""
        self.transaction([('read', key) for key in keys])

    def random_transaction(self):
        arguments, dice = self.arguments, self.dice
        kinds = dice.choices(('read', 'write', 'update'), arguments.mix, k=dice.randint(1, 5))
        operations = [(kind, 'k%d' % dice.randrange(arguments.keys)) for kind in kinds]
        cut_at = None
        if arguments.kill and dice.randrange(arguments.kill) == 0:
            cut_at = dice.choice(('commit', dice.randrange(len(operations))))
        self.transaction(operations, dice.random() < 0.95, cut_at)

    def work(self, turns):
        """Makes a transaction for each turn that it gets."""
        try:
            with self.session:
                for _ in turns:
                    self.random_transaction()
        finally:
            self.store.close()


def parse(document, levels, address, options):
    _, _, about = document.partition('\n')[0].partition(': ')
    parser = argparse.ArgumentParser(description=about, prog=os.path.basename(sys.argv[0]))
    if address:
        parser.add_argument('address', metavar='ADDRESS', help=address)
    parser.add_argument('out', metavar='OUT', help='the log; with --rounds the folder of the logs')
    parser.add_argument('--level', choices=sorted(levels), default=next(iter(levels)), help='what the store is asked for: %(default)s')
    parser.add_argument('--sessions', type=int, default=8, metavar='N', help='how many clients run at once: %(default)s; one more reads all keys in the end')
    parser.add_argument('--transactions', type=int, default=800, metavar='N', help='how many all of them together try: %(default)s')
    parser.add_argument('--keys', type=int, default=50, metavar='N', help='how many keys there are: %(default)s')
    parser.add_argument('--mix', type=mix, default='5,1,4', metavar='R,W,U',
                        help='of R + W + U operations so many are reads, writes, and writes behind a read of the key: %(default)s')
    parser.add_argument('--pause', type=float, default=1, metavar='MS', help='at most so many milliseconds between operations: %(default)s')
    parser.add_argument('--seed', type=int, default=random.randrange(10 ** 9), metavar='N', help='of what the clients try: a random one')
    parser.add_argument('--moments', choices=('all', 'none'), default='none',
                        help="'all' for a store that promises strict serializability: %(default)s")
    parser.add_argument('--rounds', type=int, default=0, metavar='N', help='for a run of any length: a log for each N transactions, in a folder')
    parser.add_argument('--durable', action='store_true', help='what a client wrote is in its file before the store hears of it')
    parser.add_argument('--overwrite', action='store_true', help='replace OUT where it is there already')
    for option, how in options.items():
        parser.add_argument(option, **how)
    parser.set_defaults(kill=0)
    if all(hasattr(store, 'cut') for store in levels.values()):
        parser.add_argument('--kill', type=int, default=0, metavar='N', help='cut the connection in one of N transactions')
    arguments = parser.parse_args()
    if min(arguments.sessions, arguments.keys) < 1 or min(arguments.transactions, arguments.pause, arguments.rounds, arguments.kill) < 0:
        parser.error('a number is too small')
    if holds_something(arguments.out, arguments.rounds) and not arguments.overwrite:
        parser.error('%s is there already, and may be a log that is still needed: take another name, or --overwrite' % arguments.out)
    if not os.path.isdir(os.path.dirname(os.path.abspath(arguments.out))):
        parser.error('%s: there is no such folder' % arguments.out)
    arguments.run = 'cobra_%x_%x' % (int(time.time()), os.getpid())
    return arguments


def mix(text):
    parts = [int(part) for part in text.split(',')]
    if len(parts) != 3 or min(parts) < 0 or not sum(parts):
        raise ValueError
    return parts


def main(document, levels, address=None, options={}):
    """Runs the clients that the command line asks for. `levels` has a class of stores for each name that --level may have, `options` what
    else the command line takes."""
    arguments = parse(document, levels, address, options)
    store_class = levels[arguments.level]
    moments = None if arguments.moments == 'none' else arguments.moments
    try:
        store_class.prepare(arguments)
        store_class(arguments).close()
    except store_class.lost as fault:
        stop('the store cannot be used: %s' % str(fault).strip())
    try:
        rounds = dict(rounds=arguments.rounds, transact=Connection(store_class, arguments).transact) if arguments.rounds else {}
        run = Recorder(arguments.out, moments=moments, aborted=store_class.aborted, unknown=store_class.lost,
                       overwrite=arguments.overwrite, durable=arguments.durable, **rounds)
        with run, concurrent.futures.ThreadPoolExecutor(arguments.sessions) as pool:
            clients = [Client(run, store_class, arguments, number) for number in range(arguments.sessions)]
            # a counter that threads share: each next() of it is one step
            turns = iter(range(arguments.transactions))
            for ended in [pool.submit(client.work, turns) for client in clients]:
                ended.result()
            # a write that was lost may be seen by one who reads all keys when the others have ended
            last = Client(run, store_class, arguments, arguments.sessions)
            with last.session:
                last.look(['k%d' % number for number in range(arguments.keys)])
            last.store.close()
    finally:
        store_class.clear(arguments)
