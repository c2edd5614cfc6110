#!/usr/bin/env python3
"""sqlite.py: a log of clients of an SQLite database, which is a new one where --database names none.

The database is in WAL mode, where SQLite is serializable. With --level weak the store is broken on purpose, and `audit` should refuse
most logs. docs/COLLECTING.md says how a log is collected."""
import os, random, sqlite3, tempfile
import clients


class Locked(Exception):
    """SQLite refused a statement since another connection writes, or wrote what this one has read: the transaction is rolled back."""


class Store(clients.Store):
    aborted = (Locked,)

    def __init__(self, arguments):
        # autocommit: BEGIN and COMMIT are ours alone
        self.connection = sqlite3.connect(arguments.database, timeout=10, isolation_level=None, check_same_thread=False)
        self.connection.execute('PRAGMA synchronous = OFF')
        self.table = arguments.run

    def do(self, statement, *values):
        try:
            return self.connection.execute(statement.replace('TABLE', self.table), values)
        except sqlite3.OperationalError as fault:
            if 'locked' not in str(fault):
                raise
            raise Locked from fault

    def begin(self):
        self.do(random.choice(('BEGIN', 'BEGIN IMMEDIATE')))

    def read(self, key):
        row = self.do('SELECT value FROM TABLE WHERE key = ?', key).fetchone()
        return row and row[0]

    def write(self, key, text):
        self.do('REPLACE INTO TABLE VALUES (?, ?)', key, text)

    def commit(self):
        self.do('COMMIT')

    def abort(self):
        if self.connection.in_transaction:
            self.do('ROLLBACK')

    def close(self):
        self.connection.close()

    @classmethod
    def prepare(cls, arguments):
        try:
            connection = sqlite3.connect(arguments.database)
            connection.executescript('PRAGMA journal_mode = WAL; CREATE TABLE %s (key TEXT PRIMARY KEY, value TEXT)' % arguments.run)
        except sqlite3.Error as fault:
            clients.stop('the store cannot be used: %s: %s' % (arguments.database, fault))
        connection.close()

    @classmethod
    def clear(cls, arguments):
        connection = sqlite3.connect(arguments.database)
        connection.execute('DROP TABLE %s' % arguments.run)
        connection.close()


class WeakStore(Store):
    """Broken on purpose: a transaction works on a copy of the store, and writes back without a look at what others wrote meanwhile."""

    def begin(self):
        self.copy, self.written = dict(self.do('SELECT key, value FROM TABLE').fetchall()), {}

    def read(self, key):
        return self.copy.get(key)

    def write(self, key, text):
        self.copy[key] = self.written[key] = text

    def commit(self):
        self.do('BEGIN IMMEDIATE')
        for key, text in self.written.items():
            super().write(key, text)
        self.do('COMMIT')


def main():
    with tempfile.TemporaryDirectory() as folder:
        clients.main(__doc__, {'serializable': Store, 'weak': WeakStore},
                     options={'--database': dict(metavar='FILE', default=os.path.join(folder, 'store.db'), help='a database: a new one')})


if __name__ == '__main__':
    main()
