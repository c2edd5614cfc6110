#!/usr/bin/env python3
"""redis.py: a log of clients of a Redis server.

A transaction watches each key before it reads it, and sends its writes at its end, between MULTI and EXEC. With --level multi it watches
none, and `audit` should refuse most logs. The keys are new ones, and are removed in the end.

This speaks Redis's own protocol, so that nothing is sent but what stands here. Drivers try again by themselves, and some call a cut
connection a failed watch, behind which EXEC may have been done. docs/COLLECTING.md says how a log is collected."""
import contextlib, socket
import clients

if __name__ != '__main__':
    raise ImportError('this is the collector collect/redis.py, and not the driver of that name: keep your own script in another folder')


class Refused(Exception):
    """The server answered by an error."""


class Store(clients.Store):
    lost, watches = (OSError,), True

    def __init__(self, arguments):
        if '/' in arguments.address:
            self.wire = socket.socket(socket.AF_UNIX)
            self.wire.connect(arguments.address)
        else:
            host, _, port = arguments.address.partition(':')
            self.wire = socket.create_connection((host, int(port or 6379)))
            self.wire.setsockopt(socket.IPPROTO_TCP, socket.TCP_NODELAY, 1)
        self.answers, self.prefix = self.wire.makefile('rb'), arguments.run + '/'

    def send(self, commands):
        """Sends these commands at once."""
        text = b''
        for words in commands:
            parts = [word.encode() for word in words]
            text += b'*%d\r\n' % len(parts) + b''.join(b'$%d\r\n%s\r\n' % (len(part), part) for part in parts)
        self.wire.sendall(text)

    def ask(self, *words):
        self.send([words])
        return self.answer()

    def answer(self):
        line = self.answers.readline()
        if not line.endswith(b'\r\n'):
            raise ConnectionError('the connection is cut')
        kind, rest = line[:1], line[1:-2].decode()
        if kind == b'-':
            raise Refused(rest)
        if kind == b'+':
            return rest
        count = int(rest)
        if kind == b':':
            return count
        if count < 0:
            return None
        if kind == b'*':
            return [self.answer() for _ in range(count)]
        text = self.answers.read(count + 2)
        if len(text) < count + 2:
            raise ConnectionError('the connection is cut')
        return text[:-2].decode()

    def begin(self):
        self.written = {}

    def read(self, key):
        if key in self.written:
            return self.written[key]
        if self.watches:
            self.ask('WATCH', self.prefix + key)
        return self.ask('GET', self.prefix + key)

    def write(self, key, text):
        self.written[key] = text

    def commit(self):
        writes = [('SET', self.prefix + key, text) for key, text in self.written.items()]
        self.send([('MULTI',), *writes, ('EXEC',)])
        for _ in range(1 + len(writes)):
            self.answer()
        # nothing comes back where a watched key was written by another client
        return self.answer() is not None

    def abort(self):
        self.ask('UNWATCH')

    def cut(self, way):
        with contextlib.suppress(OSError):
            self.wire.shutdown(way)

    def close(self):
        self.answers.close()
        self.wire.close()

    @classmethod
    def clear(cls, arguments):
        store = cls(arguments)
        for key in store.ask('KEYS', store.prefix + '*'):
            store.ask('DEL', key)
        store.close()


class Unwatched(Store):
    watches = False


if __name__ == '__main__':
    clients.main(__doc__, {'watch': Store, 'multi': Unwatched}, address='where the server is: HOST:PORT, or the path of its socket')
