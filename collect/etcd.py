#!/usr/bin/env python3
"""etcd.py: a log of clients of etcd, by its JSON gateway, with Python's standard library alone.

etcd has no transactions that read first and write later, so the clients make them: all reads of one are at the revision of its first read,
and its writes are sent together at its end, if the keys that it read are still as it saw them. With --level snapshot only the keys that it
writes are looked at: that is snapshot isolation. With --level local-reads a transaction reads from the member that its client is connected
to, which may be behind the others; etcd calls such reads serializable. The store does not promise real time then, and where there are
several members `audit` should refuse most logs with --moments all. The keys are new ones, and are removed in the end.
docs/COLLECTING.md says how a log is collected."""
import base64, contextlib, http.client, itertools, json
import clients


class Unanswered(Exception):
    """The server could not do it, or does not know whether it did, as where its members choose a leader."""


class Refused(Exception):
    """The server found a fault in what it was asked for."""


def coded(text):
    return base64.b64encode(text.encode()).decode()


class Store(clients.Store):
    lost = (OSError, http.client.HTTPException, Unanswered)
    # which keys must be as they were at the transaction's revision: those that it read, or else those that it writes
    looks_at_reads, is_local = True, False
    turns = itertools.count()

    def __init__(self, arguments):
        members = arguments.address.split(',')
        member = members[next(Store.turns) % len(members)]
        self.wire = http.client.HTTPConnection(member if ':' in member else member + ':2379', timeout=clients.PATIENCE)
        self.wire.connect()
        self.prefix = arguments.run + '/'

    def ask(self, what, request):
        try:
            self.wire.request('POST', '/v3/kv/' + what, json.dumps(request).encode(), {'Content-Type': 'application/json'})
            answer = self.wire.getresponse()
            told = answer.read()
        except self.lost:
            # the next request connects anew
            self.wire.close()
            raise
        if answer.status >= 500:
            raise Unanswered(told.decode())
        if answer.status != 200:
            raise Refused(told.decode())
        return json.loads(told)

    def begin(self):
        # no revision is 0, at which etcd reads what is newest
        self.revision, self.seen, self.written = 0, set(), {}

    def read(self, key):
        if key in self.written:
            return self.written[key]
        answer = self.ask('range', {'key': coded(self.prefix + key), 'revision': str(self.revision), 'serializable': self.is_local})
        self.revision = self.revision or int(answer['header']['revision'])
        self.seen.add(key)
        found = answer.get('kvs')
        return base64.b64decode(found[0]['value']).decode() if found else None

    def write(self, key, text):
        self.written[key] = text

    def commit(self):
        if not self.written:
            # what it read stood in the store at once
            return True
        looked = (self.seen if self.looks_at_reads else self.written) if self.revision else ()
        compares = [{'key': coded(self.prefix + key), 'target': 'MOD', 'result': 'LESS', 'mod_revision': str(self.revision + 1)} for key in looked]
        puts = [{'request_put': {'key': coded(self.prefix + key), 'value': coded(text)}} for key, text in self.written.items()]
        return self.ask('txn', {'compare': compares, 'success': puts}).get('succeeded', False)

    def abort(self):
        """Nothing is open in the store."""

    def cut(self, way):
        if self.wire.sock:
            with contextlib.suppress(OSError):
                self.wire.sock.shutdown(way)

    def close(self):
        self.wire.close()

    @classmethod
    def clear(cls, arguments):
        store = cls(arguments)
        # the keys from 'RUN/' up to the first text behind all that begin so
        store.ask('deleterange', {'key': coded(store.prefix), 'range_end': coded(arguments.run + chr(ord('/') + 1))})
        store.close()


class Snapshot(Store):
    looks_at_reads = False


class LocalReads(Store):
    is_local = True


if __name__ == '__main__':
    clients.main(__doc__, {'serializable': Store, 'snapshot': Snapshot, 'local-reads': LocalReads},
                 address='where the server is: HOST:PORT; of several members HOST:PORT,HOST:PORT, and each client takes the next one')
