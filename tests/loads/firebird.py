#!/usr/bin/env python3
"""firebird.py: a log of clients of Firebird, embedded, in a new database FOLDER/store.fdb.

It needs libfbclient2 and firebird3.0-server-core alone, which it calls by ctypes. Each key is a row with its identity, which is there before
the run."""
import ctypes, os, sys
sys.path.insert(0, os.path.join(os.path.dirname(os.path.dirname(os.path.dirname(os.path.abspath(__file__)))), 'collect'))
import clients

try:
    LIBRARY = ctypes.CDLL('libfbclient.so.2')
except OSError:
    clients.stop('there is no libfbclient.so.2; Debian has it as libfbclient2')
# Of the words by which a database is attached: version 1, user SYSDBA, dialect 3.
ATTACH = b'\x01\x1c\x06SYSDBA\x3f\x01\x03\x41\x01\x03'
INT64, DIALECT = 581, 3
# Errors that say that another transaction was in the way: deadlock, lock conflict, update conflict, waited too long.
IN_THE_WAY, NO_ROW = {335544336, 335544345, 335544451, 335544510}, 335544374


class Value(ctypes.Structure):
    _fields_ = [(name, ctypes.c_short) for name in ('type', 'scale', 'subtype', 'length')] + [('data', ctypes.c_void_p), ('null', ctypes.c_void_p)] + [
        field for number in range(4) for field in (('length%d' % number, ctypes.c_short), ('name%d' % number, ctypes.c_char * 32))]


class Row(ctypes.Structure):
    """A row of one value."""
    _fields_ = [('version', ctypes.c_short), ('name', ctypes.c_char * 8), ('bytes', ctypes.c_int), ('room', ctypes.c_short), ('count', ctypes.c_short), ('value', Value)]


class RolledBack(Exception):
    """Another transaction was in the way: this one has to be rolled back."""


class Missing(Exception):
    """No row was found."""


def call(name, *words):
    status = (ctypes.c_ssize_t * 20)()
    if getattr(LIBRARY, name)(status, *words):
        codes = [code for kind, code in zip(status[::2], status[1::2]) if kind == 1]
        raise RolledBack if IN_THE_WAY & {*codes} else Missing if NO_ROW in codes else RuntimeError('%s: %s' % (name, codes))


class Store(clients.Store):
    level, wait, more = 'SNAPSHOT', 'WAIT LOCK TIMEOUT 1', ''
    aborted = (RolledBack,)

    def __init__(self, arguments, how='isc_attach_database'):
        self.database, self.transaction = ctypes.c_uint(0), ctypes.c_uint(0)
        last = [ctypes.c_short(0)] * (how == 'isc_create_database')
        path = os.path.join(arguments.address, 'store.fdb').encode()
        call(how, ctypes.c_short(0), path, ctypes.byref(self.database), ctypes.c_short(len(ATTACH)), ATTACH, *last)

    def do(self, statement, row=None):
        handles = ctypes.byref(self.database), ctypes.byref(self.transaction)
        call('isc_dsql_exec_immed2', *handles, ctypes.c_ushort(0), statement.encode(), ctypes.c_ushort(DIALECT), None, row and ctypes.byref(row))

    def begin(self):
        self.do('SET TRANSACTION READ WRITE %s ISOLATION LEVEL %s %s' % (self.wait, self.level, self.more))

    def found(self, statement, *values):
        """The number that a statement gives back; None where it finds no row."""
        number, null = ctypes.c_int64(0), ctypes.c_short(0)
        value = Value(INT64, length=8, data=ctypes.addressof(number), null=ctypes.addressof(null))
        try:
            self.do(statement % values, Row(version=1, room=1, count=1, value=value))
        except Missing:
            # at table stability a row may be gone for the rest of the transaction
            return None
        return number.value

    def read(self, key):
        return self.found('SELECT wid FROM stock WHERE item = %s', key[1:])

    def write(self, key, text):
        if self.found('UPDATE stock SET wid = %s WHERE item = %s RETURNING wid', text.split()[0], key[1:]) is None:
            raise RolledBack

    def commit(self):
        call('isc_commit_transaction', ctypes.byref(self.transaction))

    def abort(self):
        if self.transaction.value:
            call('isc_rollback_transaction', ctypes.byref(self.transaction))

    def close(self):
        self.abort()
        call('isc_detach_database', ctypes.byref(self.database))

    @classmethod
    def prepare(cls, arguments):
        os.environ.update(FIREBIRD_LOCK=arguments.address, FIREBIRD_TMP=arguments.address)
        path = os.path.join(arguments.address, 'store.fdb')
        if os.path.exists(path):
            os.remove(path)
        store = Store(arguments, 'isc_create_database')
        for statement in ('CREATE TABLE stock (item INT NOT NULL PRIMARY KEY, wid BIGINT)',
                          *('INSERT INTO stock VALUES (%d, 0)' % item for item in range(arguments.keys))):
            store.begin()
            store.do(statement)
            store.commit()
        store.close()


class ReadCommitted(Store):
    level = 'READ COMMITTED RECORD_VERSION'


class OneVersion(Store):
    level = 'READ COMMITTED NO RECORD_VERSION'


class TableStability(Store):
    level, wait = 'SNAPSHOT TABLE STABILITY', 'NO WAIT'


class Reserved(TableStability):
    wait, more = Store.wait, 'RESERVING stock FOR PROTECTED WRITE'


if __name__ == '__main__':
    clients.main(__doc__, {'snapshot': Store, 'read-committed': ReadCommitted, 'one-version': OneVersion, 'table-stability': TableStability, 'reserved': Reserved}, address='an empty folder')
