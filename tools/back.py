"""What `explain` or `audit --explain` said of an imported log, in the words of its history; for import.py --back."""
import json, re

NAME, KEY = r'[1-9][0-9]*\.[1-9][0-9]*', r'[A-Za-z0-9_.:/-]+'
# What a told line is made of; all else stays as it is. A key may look like a name, so what has a key comes before the names.
PARTS = re.compile(r'''
    (?P<verb>\b(?:reads|writes|wrote|overwrites\ it\ with|and)\ (?:%(key)s\ )??)(?P<id>[0-9]+)\ \(line\ (?P<at>[0-9]+)\)(?:\ of\ (?P<whose>%(name)s))?
        (?P<initial>,\ the\ initial\ value)?(?:,\ which\ (?P<writer>%(name)s|no\ transaction)\ wrote(?:\ \(line\ [0-9]+\)|\b(?!\ to)))?
    | \ \ (?P<row>[rw])\ %(key)s\ (?P<row_id>[0-9]+)\ \(line\ (?P<row_at>[0-9]+)\)
    | (?P<own>(?:and\ overwrote\ with\ [0-9]+|writes\ itself\ only\ later)\ \(line\ (?P<own_at>[0-9]+)\))
    | (?P<head>(?:^\[[0-9]+\]|\bsuppose)\ )%(key)s:\ (?P<head_id>[0-9]+),\ which\ (?P<head_writer>%(name)s)\ wrote\ \(line\ (?P<head_at>[0-9]+)\)
    | (?P<before>comes\ before\ )(?P<before_id>[0-9]+),\ which\ (?P<before_writer>%(name)s)\ wrote\ \(line\ (?P<before_at>[0-9]+)\)
    | (?P<version>(?:,\ so|\bover|an\ update\ of)\ )(?P<version_id>[0-9]+)\b
    | (?P<of_key>(?:which\ no\ transaction\ wrote|A7\ lost\ update)(?:\ (?:to|of)\ %(key)s)?)(?:\ from\ [0-9.]+)?
    | (?P<sight>\ saw|\bdid\ not\ see)\ (?P<seen>%(name)s)'s(?:\ (?P<seen_key>%(key)s))?
    | (?P<later>\ wrote\ %(key)s\ after\ )(?P<after>%(name)s)
    | (?P<session>:\ session\ [0-9]+$)
    | (?P<its>\ in\ its\ session\b)
    | \ op\ [0-9]+$ | \ \(lines?\ [0-9]+(?:\ to\ [0-9]+)?\)
    | (?<![\w.:/-])(?P<name>%(name)s)(?![\w./-])''' % {'key': KEY, 'name': NAME}, re.VERBOSE | re.M)
# Of a list so many elements are told, its last ones.
MOST = 8


class Strange(Exception):
    """The explanation is of another log."""


class Retold:
    """The words of a history for the lines, the identities and the transactions that an explanation names."""

    def __init__(self, text, records):
        numbers, names = {int(word) for word in re.findall('[0-9]+', text)}, set(re.findall(NAME, text))
        self.lines, self.writes, self.names = {}, {}, {}
        try:
            for record in map(json.loads, records):
                if record['line'] in numbers:
                    self.lines[record['line']] = record
                if record.get('id') in numbers and record['op'] != 'r' and 'behind' not in record:
                    self.writes[record['id']] = record
                if record.get('transaction') in names:
                    self.names[record['transaction']] = record
        except (ValueError, KeyError, TypeError, AttributeError):
            raise Strange('this file has lines that --operations does not write')

    def find(self, among, what):
        if what not in among:
            raise Strange('the explanation is of another log: it names %s, which this file does not have' % what)
        return among[what]

    def name(self, name):
        record = self.find(self.names, name)
        return "process %s's transaction (index %d)" % (record['process'], record['index'])

    def operation(self, number, wid=None):
        """The operation of this line of the log, which has this identity."""
        record = self.find(self.lines, int(number))
        if 'op' not in record or wid is not None and record['id'] != int(wid):
            raise Strange('the explanation is of another log: line %s has another operation' % number)
        return record

    def value(self, wid):
        """What was written with an identity."""
        return self.find(self.writes, int(wid))['value'] if int(wid) else 'nothing'

    @staticmethod
    def done(record):
        """What was done to what a write or an append wrote."""
        return 'appended' if record['op'] == 'append' else 'wrote'

    def words(self, record):
        """What a transaction did in words, and how those go on that tell who wrote what it saw."""
        key, value = record['key'], record['value']
        if 'behind' in record:
            behind = 'nothing' if record['behind'] == 'nil' else record['behind']
            return 'appended %s to list %s behind %s (as operation %d read it)' % (value, key, behind, record['shown']), 'which %s appended'
        if isinstance(value, list):
            shown = ['..', *value[-MOST:]] if value[MOST:] else value
            return 'reads [%s] of list %s' % (' '.join(shown), key), 'whose last element %s appended'
        if record['op'] == 'r':
            return 'reads %s of %s' % (value, key), 'which %s wrote'
        return '%s %s to %s%s' % (self.done(record), value, 'list ' * (record['op'] == 'append'), key), ''

    def part(self, found):
        """A part of a line in the words of the history."""
        if found['at']:
            verb = found['verb'].split(' ')[0]
            words, writer = self.words(self.operation(found['at'], found['id']))
            words = 'and ' * (verb == 'and') + words
            name = found['writer'] if found['writer'] in (None, 'no transaction') else self.name(found['writer'])
            whose = ' ' + writer % self.name(found['whose']) if found['whose'] else ''
            return words + whose + (', ' + writer % name if name else '')
        if found['row']:
            return '  ' + self.words(self.operation(found['row_at'], found['row_id']))[0]
        if found['own']:
            record = self.operation(found['own_at'])
            done = self.done(record)
            return 'and then %s %s' % (done, record['value']) if found['own'].startswith('and') else '%s itself only later' % done
        if found['head']:
            record = self.operation(found['head_at'], found['head_id'])
            return '%s%s%s: %s, which %s %s' % (found['head'], 'list ' * (record['op'] == 'append'), record['key'], record['value'],
                                                self.name(found['head_writer']), self.done(record))
        if found['before']:
            record = self.operation(found['before_at'], found['before_id'])
            return '%s%s, which %s %s' % (found['before'], record['value'], self.name(found['before_writer']), self.done(record))
        if found['version']:
            return found['version'] + self.value(found['version_id'])
        if found['of_key']:
            return 'A7 lost update' if found['of_key'].startswith('A7') else 'which no transaction wrote'
        if found['sight']:
            return '%s what %s wrote' % (found['sight'], self.name(found['seen'])) + (' to ' + found['seen_key'] if found['seen_key'] else '')
        if found['later']:
            return found['later'] + self.name(found['after'])
        if found['session']:
            return ': both are of one process'
        if found['its']:
            return ' in its process'
        return self.name(found['name']) if found['name'] else ''


def retold(text, records):
    """What this text says, by the lines that import.py --operations wrote."""
    return PARTS.sub(Retold(text, records).part, text)
