"""What is told of files of ALFA: each thing with its file, line and column, in the form that editors follow."""
import collections
import typing

ERROR, WARNING, NOTE = 'error', 'warning', 'note'
MOST_PLACES = 6


class Place(typing.NamedTuple):
    """Where something stands: the number of its file among those given, its line and its column, from 1."""

    file: int
    line: int
    column: int


class Told:
    """What is told of all files. A note says once a file how something unsure was taken, and how often it stands
    there."""

    def __init__(self):
        self.files = []
        self.things = collections.OrderedDict()

    def file(self, name):
        """A new file, as its number."""
        self.files.append(name)
        return len(self.files) - 1

    def tell(self, weight, place, what):
        """Notes a thing at a place."""
        key = (weight, place.file if weight == NOTE else place, what)
        self.things.setdefault(key, {})[place] = None

    def error(self, place, what):
        """Notes what is wrong: no document is written then."""
        self.tell(ERROR, place, what)

    def note(self, place, what):
        """Notes how something was taken that could be meant in another way."""
        self.tell(NOTE, place, what)

    def holds(self, *weights):
        """Whether something of one of these weights was told."""
        return any(weight in weights for weight, _, _ in self.things)

    def at(self, place):
        """A place as words."""
        return f'{self.files[place.file]}:{place.line}:{place.column}'

    def lines(self):
        """A line for each thing, in the order of files and places."""
        said = []
        for (weight, _, what), found in self.things.items():
            places = sorted(found)
            also = ', '.join(f'{line}:{column}' for _, line, column in places[1:MOST_PLACES])
            also += ' ..' if len(places) > MOST_PLACES else ''
            often = f' ({len(places)} times: also {also})' if len(places) > 1 else ''
            said.append((places[0], f'{self.at(places[0])}: {weight}: {what}{often}'))
        return [line for _, line in sorted(said, key=lambda each: each[0])]
