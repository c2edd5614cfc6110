#!/usr/bin/env python3
"""counters.py STORE [WAY ..] TRANSACTIONS KEYS SEED ADDRESS LOG: a log of clients that count by statements which read what they do not show.

STORE is redis, by INCR, or postgresql, by UPDATE .. SET v = v + 1 at READ COMMITTED, each statement a transaction of its own; both as
docs/COLLECTING.md says. WAY is shown, where the identity that was overwritten comes back, or hidden, where the read is left out."""
import concurrent.futures, os, random, socket, sys
sys.path.insert(0, os.path.join(os.path.dirname(os.path.dirname(os.path.dirname(os.path.abspath(__file__)))), 'collect'))
from recorder import Recorder

CLIENTS = 8


class Redis:
    """A connection, as a client of few words has it."""

    def __init__(self, address):
        self.wire = socket.socket(socket.AF_UNIX)
        self.wire.connect(address)
        self.answers = self.wire.makefile('rb')

    def answer(self):
        line = self.answers.readline()
        kind, rest = line[:1], line[1:-2]
        if kind not in (b'+', b':', b'$', b'*'):
            raise ConnectionError(line)
        if kind == b'*':
            return [self.answer() for _ in range(int(rest))]
        if kind == b'$':
            return self.answers.read(int(rest) + 2)[:-2] if int(rest) >= 0 else None
        return rest

    def multi(self, *commands):
        """The answers to these commands, which are done as one."""
        text = b''
        for words in (('MULTI',), *commands, ('EXEC',)):
            text += b'*%d\r\n' % len(words) + b''.join(b'$%d\r\n%s\r\n' % (len(word), word.encode()) for word in words)
        self.wire.sendall(text)
        return [self.answer() for _ in range(2 + len(commands))][-1]

    def prepare(self, keys):
        self.multi(*(('DEL', name) for key in keys for name in (key, key + ':wid')))

    def count(self, key, wid, is_shown):
        """Counts one up; gives back the identity that stood there."""
        _, was = self.multi(('INCR', key), ('GETSET' if is_shown else 'SET', key + ':wid', str(wid)))
        return was

    def look(self, keys):
        """The identities of these keys."""
        found = self.multi(*(('GET', name) for key in keys for name in (key, key + ':wid')))
        return found[1::2]


class PostgreSQL:
    def __init__(self, address):
        import psycopg2
        self.connection = psycopg2.connect(address)
        self.connection.autocommit = True
        self.cursor = self.connection.cursor()

    def prepare(self, keys):
        self.cursor.execute('DROP TABLE IF EXISTS counters')
        self.cursor.execute('CREATE TABLE counters (item text PRIMARY KEY, v int, was bigint, wid bigint)')
        for key in keys:
            self.cursor.execute('INSERT INTO counters VALUES (%s, 0, 0, 0)', (key,))

    def count(self, key, wid, is_shown):
        behind = ' RETURNING was' if is_shown else ''
        self.cursor.execute('UPDATE counters SET v = v + 1, was = wid, wid = %s WHERE item = %s' + behind, (wid, key))
        return self.cursor.fetchone()[0] if is_shown else None

    def look(self, keys):
        self.cursor.execute('SELECT item, wid FROM counters WHERE item IN %s', (tuple(keys),))
        found = dict(self.cursor.fetchall())
        return [found[key] for key in keys]


def work(client, session, turns, keys, dice, is_shown):
    with session:
        for _ in turns:
            with session.transaction() as txn:
                if dice.random() < 0.3:
                    looked = dice.sample(keys, min(3, len(keys)))
                    for key, seen in zip(looked, client.look(looked)):
                        txn.read(key, seen)
                else:
                    key = dice.choice(keys)
                    wid = txn.write(key)
                    was = client.count(key, wid, is_shown)
                    if is_shown:
                        txn.read(key, was, before=wid)


def main():
    store, *ways, transactions, count, seed, address, log = sys.argv[1:]
    kind, is_shown = {'redis': Redis, 'postgresql': PostgreSQL}[store], 'hidden' not in ways
    keys, turns = ['k%d' % number for number in range(int(count))], iter(range(int(transactions)))
    kind(address).prepare(keys)
    with Recorder(log, overwrite=True) as run, concurrent.futures.ThreadPoolExecutor(CLIENTS) as pool:
        works = [(kind(address), run.session(), turns, keys, random.Random('%s %d' % (seed, number)), is_shown) for number in range(CLIENTS)]
        for ended in [pool.submit(work, *it) for it in works]:
            ended.result()


if __name__ == '__main__':
    main()
