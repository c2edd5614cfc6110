#!/usr/bin/env python3
"""make_keys.py FOLDER: logs of 200,000 operations whose keys were chosen to be slow to number, beside a harmless one. Takes about 10 s.

`indexmap` hashes a key by its length and then byte by byte, each by a folded multiplication; 11 bits of the hash say where the
search of 10,000 keys begins, and 8 bits are the tag by which a key is compared at all. `session_history` marks a key by the same hasher,
fed with all bytes at once: there a state that is written out again as the next 8 bytes makes the hash 0, whatever 8 bytes follow."""
import itertools, os, sys

if '--help' in sys.argv:
    sys.exit(print(__doc__))
folder = sys.argv[1]
os.makedirs(folder, exist_ok=True)

SEED, MULTIPLIER, WORD = 0x243F6A8885A308D3, 0x9E3779B97F4A7C15, 2 ** 64 - 1
LEGAL = b'ABCDEFGHIJKLMNOPQRSTUVWXYZabcdefghijklmnopqrstuvwxyz0123456789_.:/-'
LENGTH, KEYS, OPERATIONS, SESSIONS = 64, 10000, 200000, 60


def fold(a, b):
    product = a * b
    return (product & WORD) ^ (product >> 64)


def word(data, at):
    return int.from_bytes(data[at:at + 8], 'little')


def one_mark():
    """56 bytes that give each key of 64 bytes which begins with them one mark."""
    for tail in itertools.product(LEGAL, repeat=4):
        front = b'k' * 44 + bytes(tail)
        state = SEED + LENGTH
        for at in range(0, 48, 16):
            state = fold(word(front, at) ^ state, word(front, at + 8) ^ MULTIPLIER)
        last = state.to_bytes(8, 'little')
        if all(byte in LEGAL for byte in last):
            return front + last


def colliding(front, count):
    """Keys that begin so, of one tag, whose search begins in the first eighth of the table."""
    state = fold(SEED ^ LENGTH, MULTIPLIER ^ 16)
    factor = MULTIPLIER ^ 2
    front = front + b'k' * (LENGTH - 5 - len(front))
    for byte in front:
        state = fold(state ^ byte * 0x10101, factor)
    keys = []
    for middle in itertools.product(LEGAL, repeat=4):
        inner = state
        for byte in middle:
            inner = fold(inner ^ byte * 0x10101, factor)
        for byte in LEGAL:
            product = (inner ^ byte * 0x10101) * factor
            hashed = (product & WORD) ^ (product >> 64)
            hashed = (hashed ^ hashed >> 32) & 0xFFFFFFFF
            if hashed >> 24 == 7 and hashed & 2047 < 256:
                keys.append(front + bytes(middle) + bytes([byte]))
                if len(keys) == count:
                    return keys


def numbered(front, count):
    return [front + b'%0*d' % (LENGTH - len(front), i) for i in range(count)]


def write(name, keys, txns=400):
    """The keys in turn, each as often as the others, in so many transactions of 60 sessions."""
    with open(os.path.join(folder, name), 'wb') as out:
        count = 0
        for t in range(txns):
            if t < SESSIONS:
                out.write(b'session %d\n' % (t + 1))
                for place in range(t, txns, SESSIONS):
                    out.write(b'begin\n')
                    for _ in range(OPERATIONS // txns):
                        count += 1
                        out.write(b'w %s %d\n' % (keys[count * 7919 % len(keys)], count * 104729 % 2 ** 30))
                    out.write(b'commit\n')


front = one_mark()
harmless, slow = numbered(b'k', KEYS), colliding(front, KEYS)
write('harmless.log', harmless)
write('one_mark.log', numbered(front, KEYS))
write('one_mark_and_colliding.log', slow)
write('harmless_1000.log', harmless, 1000)
write('one_mark_and_colliding_1000.log', slow, 1000)
write('one_mark_all_distinct.log', numbered(front, OPERATIONS))
