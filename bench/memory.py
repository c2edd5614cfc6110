#!/usr/bin/env python3
"""memory.py: a log of clients of a store in this process's memory, which is serializable and quick.

It shows what a recorder costs, and no fault of any store: bench/rounds.py runs it."""
import os, sys, threading

sys.path.insert(0, os.path.join(os.path.dirname(os.path.dirname(os.path.abspath(__file__))), 'collect'))
import clients


class Changed(Exception):
    """Another transaction wrote meanwhile what this one has read."""


class Store(clients.Store):
    aborted, values, turn = (Changed,), {}, threading.Lock()

    def begin(self):
        self.seen, self.written = {}, {}

    def read(self, key):
        if key in self.written:
            return self.written[key]
        return self.seen.setdefault(key, self.values.get(key))

    def write(self, key, text):
        self.written[key] = text

    def commit(self):
        with self.turn:
            if any(self.values.get(key) is not text for key, text in self.seen.items()):
                raise Changed
            self.values.update(self.written)


if __name__ == '__main__':
    clients.main(__doc__, {'serializable': Store})
