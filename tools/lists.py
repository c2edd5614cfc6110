"""What the lists of an imported history say by themselves, before there is a log; for import.py --lists. Each fault that is found rules out
every serial order of the history."""

READ, APPEND, COMMITTED, ABORTED = 'r', 'append', 'commit', 'abort'
# Of a list so many elements are shown on each side of what matters.
NEAR = 4


class Version:
    """A list that a transaction shows: what it read, of which the first `read` elements are left, and what it appended to that."""

    def __init__(self, it, elements, read):
        self.it, self.elements, self.read = it, elements, read

    def differs(self, other):
        """The first place where one of the two is not the beginning of the other, or None."""
        return next((place for place, (a, b) in enumerate(zip(self.elements, other.elements)) if a != b), None)

    def has_appended(self, place):
        return place >= self.read


def operation(it):
    return 'operation %d (process %d)' % (it.index, it.process)


class Lists:
    """Finds the faults of a history's lists. `counted` are the transactions of which an order has to explain the reads, and `edn` is the
    text of a value."""

    def __init__(self, history, counted, edn):
        self.edn, self.found, self.keys, self.writers = edn, {}, {}, {}
        self.place = {it: (number, place) for number, (_, its) in enumerate(history.sessions) for place, it in enumerate(its)}
        for it in self.place:
            for kind, key, value, _ in it.operations:
                if kind == APPEND:
                    self.writers.setdefault(key, {})[value] = it
        for it in counted:
            self.take(history, it)
        for key, versions in self.keys.items():
            self.compare(key, versions)
            self.seek_lost(key, max(versions, key=lambda it: it.read))

    def add(self, name, about, words):
        """Takes note of a fault, once for what it is about."""
        self.found.setdefault((name, *about), '%s: %s' % (name, words))

    def shown(self, elements, at):
        """A list, or what stands around this place of a long one."""
        start, end = max(at - NEAR, 0), at + NEAR
        cut = map(self.edn, elements[start:end])
        return '[%s]' % ' '.join(['..'] * (start > 0) + [*cut] + ['..'] * (end < len(elements)))

    def take(self, history, it):
        """Takes the lists that a transaction shows."""
        held = {}
        for kind, key, value, line in it.operations:
            if kind == APPEND and key in held:
                held[key] = Version(it, held[key].elements + (value,), held[key].read)
            elif kind == READ and history.list_read(key, value, line) is not None:
                elements = value or ()
                if key in held and held[key].elements != elements:
                    own, at = held[key].elements, min(len(held[key].elements), len(elements))
                    self.add('internal', (it, key), 'list %s is %s by %s, which had %s itself' % (
                        self.edn(key), self.shown(elements, at), operation(it), self.shown(own, at)))
                held[key] = Version(it, elements, len(elements))
                self.look(key, held[key])
            else:
                continue
            self.keys.setdefault(key, []).append(held[key])

    def look(self, key, version):
        """What a list that was read says alone."""
        before, writers = set(), self.writers.get(key, {})
        for place, element in enumerate(version.elements):
            writer = writers.get(element)
            if element in before:
                self.tell_element('duplicate-elements', key, version, place, often='twice ')
            elif writer is None:
                self.tell_element('garbage read', key, version, place, writer=', which nobody appended')
            elif writer.outcome == ABORTED:
                self.tell_element('G1a', key, version, place, writer=', which %s appended, and failed' % operation(writer))
            before.add(element)

    def tell_element(self, name, key, version, place, often='', writer=''):
        element = version.elements[place]
        self.add(name, (key, element), 'list %s has %s %sby %s%s: %s' % (
            self.edn(key), self.edn(element), often, operation(version.it), writer, self.shown(version.elements, place)))

    def compare(self, key, versions):
        """Each list beside the longest one."""
        longest = max(versions, key=lambda it: len(it.elements))
        for version in versions:
            at = version.differs(longest)
            if at is not None:
                self.tell_difference(key, version, longest, at)

    def tell_difference(self, key, one, other, at):
        both, name = (one, other), self.edn(key)
        appended = [it for it in both if it.has_appended(at)]
        if len(appended) == 2:
            one, other = sorted(both, key=lambda it: it.it.index)
            self.add('lost-update', (key, one.it, other.it), '%s and %s both read %s of list %s, and appended %s and %s' % (
                operation(one.it), operation(other.it), self.shown(one.elements[:at], at), name, self.edn(one.elements[at]), self.edn(other.elements[at])))
            return
        for version in appended:
            reader = other if version is one else one
            if version.elements[at] not in reader.elements:
                self.add('lost append', (key, version.elements[at]), '%s read %s of list %s and appended %s, and by %s the list is %s' % (
                    operation(version.it), self.shown(version.elements[:at], at), name, self.edn(version.elements[at]), operation(reader.it),
                    self.shown(reader.elements, at)))
                return
        both = sorted(both, key=lambda it: it.it.index)
        words = ['%s by %s' % (self.shown(it.elements[:max(it.read, at + 1)], at), operation(it.it)) for it in both]
        self.add('incompatible-order', (key, one.elements[:at + 1]), 'list %s is %s, and %s' % (name, *words))

    def seek_lost(self, key, longest):
        """Appends that are not in this list, though the order that is kept has them before an append that is."""
        elements, writers, latest, last_of = longest.elements[:longest.read], self.writers.get(key, {}), None, {}
        for element in filter(writers.__contains__, elements):
            it = writers[element]
            if it.begun is not None and (latest is None or it.begun > latest[0]):
                latest = it.begun, element
            session, place = self.place[it]
            last_of[session] = max(last_of.get(session, (-1, None)), (place, element), key=lambda at: at[0])
        inside = set(elements)
        for value, it in writers.items():
            if value in inside or it.outcome != COMMITTED:
                continue
            session, place = self.place[it]
            behind = last_of[session][1] if last_of.get(session, (-1,))[0] > place else None
            if behind is None and latest and it.ended is not None and it.ended < latest[0]:
                behind = latest[1]
            if behind is not None:
                self.add('lost append', (key, value), '%s appended %s to list %s before %s appended %s, and by %s the list is %s' % (
                    operation(it), self.edn(value), self.edn(key), operation(writers[behind]), self.edn(behind), operation(longest.it),
                    self.shown(elements, elements.index(behind))))
