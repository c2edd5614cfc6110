#!/usr/bin/env python3
"""mariadb.py: a log of clients of a MariaDB database.

It needs PyMySQL. It makes a table of its own, of InnoDB's, and drops it in the end. Only at the level serializable does the store promise to
be that. At repeatable-read it promises snapshot isolation where `--snapshot-isolation on` sets innodb_snapshot_isolation, and without that
not even that no update is lost. docs/COLLECTING.md says how a log is collected."""
import contextlib, os, random, socket
import clients
try:
    import pymysql as driver
except ImportError:
    clients.stop('this Python has no pymysql; Debian has it as python3-pymysql, for /usr/bin/python3')

# What the server answers where it rolled a transaction back, or wants it to be: a record that others wrote since the transaction's
# snapshot, a lock that was waited for too long, a deadlock.
CHANGED, WAITED, DEADLOCK = 1020, 1205, 1213
UNKNOWN_VARIABLE = 1193
# The words that an address may have, with what makes PyMySQL's value of each.
WORDS = {'unix_socket': str, 'host': str, 'port': int, 'user': str, 'password': str, 'database': str}


class RolledBack(Exception):
    """The transaction was rolled back, or has to be."""


class Store(clients.Store):
    level = 'SERIALIZABLE'
    aborted, lost = (RolledBack,), (driver.OperationalError, driver.InterfaceError)

    def __init__(self, arguments):
        # BEGIN and COMMIT are ours alone
        self.connection = driver.connect(autocommit=True, **arguments.address)
        self.cursor, self.table, self.ways = self.connection.cursor(), arguments.run, ('', ' FOR UPDATE')[:1 + arguments.for_update]
        # PyMySQL has no other name for its socket
        self.wire = socket.socket(fileno=os.dup(self.connection._sock.fileno()))
        self.cursor.execute('SET SESSION TRANSACTION ISOLATION LEVEL ' + self.level)
        if arguments.snapshot_isolation:
            self.cursor.execute('SET SESSION innodb_snapshot_isolation = ' + arguments.snapshot_isolation)

    def do(self, statement, *values):
        try:
            self.cursor.execute(statement.replace('TABLE', self.table), values)
        except driver.OperationalError as fault:
            if fault.args[0] not in (CHANGED, WAITED, DEADLOCK):
                raise
            raise RolledBack from fault

    def begin(self):
        self.do('BEGIN')

    def read(self, key):
        self.do('SELECT value FROM TABLE WHERE name = %s' + random.choice(self.ways), key)
        row = self.cursor.fetchone()
        return row and row[0]

    def write(self, key, text):
        self.do('INSERT INTO TABLE VALUES (%s, %s) ON DUPLICATE KEY UPDATE value = VALUES(value)', key, text)

    def commit(self):
        self.do('COMMIT')

    def abort(self):
        self.do('ROLLBACK')

    def cut(self, way):
        with contextlib.suppress(OSError):
            self.wire.shutdown(way)

    def close(self):
        with contextlib.suppress(driver.Error):
            self.connection.close()
        self.wire.close()

    @classmethod
    def prepare(cls, arguments):
        arguments.address = dict(cls.words(arguments.address))
        try:
            # names of keys are told apart by each byte
            cls.once(arguments, 'CREATE TABLE %s (name VARBINARY(64) PRIMARY KEY, value VARCHAR(64)) ENGINE = InnoDB')
        except driver.OperationalError as fault:
            if fault.args[0] != UNKNOWN_VARIABLE:
                raise
            clients.stop('this server knows no innodb_snapshot_isolation, which came with MariaDB 10.6.18, 10.11.8 and 11.4.2')

    @classmethod
    def words(cls, address):
        for word in address.split():
            name, _, value = word.partition('=')
            if name not in WORDS or name == 'port' and not value.isdecimal():
                clients.stop("'%s' says nothing of a database: that is told by %s=" % (word, '=, '.join(WORDS)))
            yield name, WORDS[name](value)

    @classmethod
    def clear(cls, arguments):
        cls.once(arguments, 'DROP TABLE %s')

    @classmethod
    def once(cls, arguments, statement):
        store = cls(arguments)
        store.cursor.execute(statement % arguments.run)
        store.close()


class RepeatableRead(Store):
    level = 'REPEATABLE READ'


class ReadCommitted(Store):
    level = 'READ COMMITTED'


class ReadUncommitted(Store):
    level = 'READ UNCOMMITTED'


if __name__ == '__main__':
    levels = {'serializable': Store, 'repeatable-read': RepeatableRead, 'read-committed': ReadCommitted,
              'read-uncommitted': ReadUncommitted}
    how = {'choices': ('on', 'off'), 'help': 'innodb_snapshot_isolation for these clients: what the server has'}
    lock = {'action': 'store_true', 'help': 'half of the reads lock their row'}
    clients.main(__doc__, levels, options={'--snapshot-isolation': how, '--for-update': lock},
                 address="the database, in PyMySQL's words: 'unix_socket=/run/mysqld/mysqld.sock user=test database=test'")
