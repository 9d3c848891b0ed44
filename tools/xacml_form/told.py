"""What is told of a file, each thing with its place, and objects of documents that know where they stood."""
import collections

# What is told is one of these; of a file with one behind the first line no document is written.
REWRITTEN, TIMES, WARNING = 'rewritten', 'times', 'warning'
BY_HAND, IMPOSSIBLE, UNREAD, FAULT = 'by hand', 'impossible', 'not read', 'fault'
# A violation of the schema, by the version of the file.
INVALIDS = {'3.0': 'not XACML 3.0', '2.0': 'not XACML 2.0', '1.x': 'not XACML 1.x'}
INVALID = INVALIDS['3.0']


class Told:
    """What is told of one file: each thing once, with how often and where it stands; and the places of the dates and
    times that aren't only given back, each with its text."""

    def __init__(self, file):
        self.file = file
        self.things = collections.OrderedDict()
        self.times = []

    def tell(self, weight, place, what, how=''):
        """Notes a thing at a place, and what can be done. The same thing at another place is counted."""
        self.things.setdefault((weight, what, how), {})[place] = None

    def holds(self, *weights):
        """Whether something of one of these weights was told."""
        return any(weight in weights for weight, _, _ in self.things)

    def stops(self):
        """Whether something stands there that isn't here, so that no document is written."""
        return self.holds(BY_HAND, IMPOSSIBLE, UNREAD, FAULT, *INVALIDS.values())

    def lines(self):
        """A line for each thing, by the place where it stands first: the file, that place, what it is, how often, and
        what can be done."""
        told = []
        for (weight, what, how), found in self.things.items():
            places = list(found)
            line, column = places[0]
            most = 6 if weight in (REWRITTEN, BY_HAND, IMPOSSIBLE) else len(places)
            also = ', '.join(f'{a}:{b}' for a, b in places[1:most]) + (' ..' if len(places) > most else '')
            often = f' ({len(places)} times: also {also})' if len(places) > 1 else ''
            said = f'{self.file}:{line}:{column}: {weight}: {what}{often}' + (f': {how}' if how else '')
            told.append((places[0], said))
        return [line for _, line in sorted(told, key=lambda each: each[0])]


class Placed(dict):
    """An object of a document, which knows the place of the element that it was made of, and of its attributes."""

    def __init__(self, place, place_of, parts):
        super().__init__(parts)
        self.place, self.place_of = place, place_of

    def with_parts(self, parts):
        """The same with other parts in place of some of its own."""
        return Placed(self.place, self.place_of, {**self, **parts})
