#!/usr/bin/env python3
"""postgresql.py: a log of clients of a PostgreSQL database.

It needs psycopg2 or psycopg. It makes a table of its own, and drops it in the end. At the levels repeatable-read and read-committed the
store does not promise to be serializable, and `audit` should refuse most logs. docs/COLLECTING.md says how a log is collected."""
import contextlib, os, socket
import clients
try:
    import psycopg2 as driver
    import psycopg2.errors
except ImportError:
    try:
        import psycopg as driver
    except ImportError:
        clients.stop('this Python has neither psycopg2 nor psycopg; Debian has psycopg2 as python3-psycopg2, for /usr/bin/python3')


class Store(clients.Store):
    level = 'SERIALIZABLE'
    # of the classes of an exception the closest one decides: both of `aborted` are OperationalErrors too
    aborted = (driver.errors.SerializationFailure, driver.errors.DeadlockDetected)
    lost = (driver.OperationalError, driver.InterfaceError)

    def __init__(self, arguments):
        self.connection = driver.connect(arguments.address)
        # BEGIN and COMMIT are ours alone
        self.connection.autocommit = True
        self.cursor, self.table = self.connection.cursor(), arguments.run
        self.wire = socket.socket(fileno=os.dup(self.connection.fileno()))

    def begin(self):
        self.cursor.execute('BEGIN ISOLATION LEVEL ' + self.level)

    def read(self, key):
        self.cursor.execute('SELECT value FROM %s WHERE key = %%s' % self.table, (key,))
        row = self.cursor.fetchone()
        return row and row[0]

    def write(self, key, text):
        statement = 'INSERT INTO %s VALUES (%%s, %%s) ON CONFLICT (key) DO UPDATE SET value = excluded.value'
        self.cursor.execute(statement % self.table, (key, text))

    def commit(self):
        self.cursor.execute('COMMIT')
        # a COMMIT behind an error is no error: it is answered by ROLLBACK
        return self.cursor.statusmessage == 'COMMIT'

    def abort(self):
        self.cursor.execute('ROLLBACK')

    def cut(self, way):
        with contextlib.suppress(OSError):
            self.wire.shutdown(way)

    def close(self):
        self.connection.close()
        self.wire.close()

    @classmethod
    def prepare(cls, arguments):
        cls.do(arguments, 'CREATE TABLE %s (key text PRIMARY KEY, value text)')

    @classmethod
    def clear(cls, arguments):
        cls.do(arguments, 'DROP TABLE %s')

    @classmethod
    def do(cls, arguments, statement):
        store = cls(arguments)
        store.cursor.execute(statement % arguments.run)
        store.close()


class RepeatableRead(Store):
    level = 'REPEATABLE READ'


class ReadCommitted(Store):
    level = 'READ COMMITTED'


if __name__ == '__main__':
    clients.main(__doc__, {'serializable': Store, 'repeatable-read': RepeatableRead, 'read-committed': ReadCommitted},
                 address="the database, in libpq's words: 'host=/run/postgresql dbname=test'")
