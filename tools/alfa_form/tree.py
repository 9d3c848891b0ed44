"""What a file of ALFA says, as it stands there."""
import dataclasses
import typing

from .told import Place


@dataclasses.dataclass
class Word:
    """A name, as it was written: parts with dots between them; or a text."""

    text: str
    place: Place


@dataclasses.dataclass
class Import:
    """A line `import a.b` or `import a.b.*`."""

    name: Word
    is_all: bool


@dataclasses.dataclass
class Block:
    """A namespace where it stands, or a file (without a name): what is looked up in it, and outside of it."""

    name: str
    outer: typing.Optional['Block']
    imports: list = dataclasses.field(default_factory=list)
    parts: list = dataclasses.field(default_factory=list)

    def within(self, name):
        """The whole name of something that stands directly in this namespace."""
        return f'{self.name}.{name}' if self.name else name


@dataclasses.dataclass
class Declaration:
    """A category, a type, an obligation, an advice, a function or an algorithm: a name for a URI."""

    kind: str
    name: Word
    uri: Word
    block: Block


@dataclasses.dataclass
class Attribute:
    """A declared attribute; what wasn't said is None."""

    name: Word
    block: Block
    id: typing.Optional[Word] = None
    type: typing.Optional[Word] = None
    category: typing.Optional[Word] = None
    kind: str = 'attribute'


@dataclasses.dataclass
class Policy:
    """A policy or a set (`kind`). One without a body only says that it stands elsewhere."""

    kind: str
    place: Place
    block: Block
    name: typing.Optional[Word] = None
    id: typing.Optional[Word] = None
    doc: typing.Optional[tuple] = None
    targets: list = dataclasses.field(default_factory=list)
    applies: list = dataclasses.field(default_factory=list)
    members: list = dataclasses.field(default_factory=list)
    ons: list = dataclasses.field(default_factory=list)
    is_elsewhere: bool = False


@dataclasses.dataclass
class Rule:
    """A rule, of a policy or of a namespace."""

    place: Place
    block: Block
    name: typing.Optional[Word] = None
    id: typing.Optional[Word] = None
    doc: typing.Optional[tuple] = None
    targets: list = dataclasses.field(default_factory=list)
    effects: list = dataclasses.field(default_factory=list)
    conditions: list = dataclasses.field(default_factory=list)
    ons: list = dataclasses.field(default_factory=list)
    kind: str = 'rule'


@dataclasses.dataclass
class Reference:
    """A name among the members of a policy or a set."""

    name: Word
    doc: typing.Optional[tuple]


@dataclasses.dataclass
class Clause:
    """A clause of a target: alternatives, each a list of matches."""

    place: Place
    alternatives: list


@dataclasses.dataclass
class On:
    """`on permit` or `on deny`, with what is given then."""

    effect: Word
    given: list


@dataclasses.dataclass
class Given:
    """An obligation or an advice that is given, with what it assigns: names, each with an expression."""

    kind: str
    name: Word
    assignments: list


# ---- expressions


@dataclasses.dataclass
class Literal:
    """A text, perhaps with its type, a number, or true or false."""

    place: Place
    kind: str
    text: str
    type: typing.Optional[Word] = None


@dataclasses.dataclass
class Designator:
    """A name of an attribute, with what stands in brackets behind it."""

    name: Word
    must: bool = False
    issuer: typing.Optional[Word] = None

    @property
    def place(self):
        return self.name.place


@dataclasses.dataclass
class Call:
    """A function with its arguments."""

    name: Word
    arguments: list

    @property
    def place(self):
        return self.name.place


@dataclasses.dataclass
class FunctionName:
    """`function[name]`."""

    place: Place
    name: Word


@dataclasses.dataclass
class Operation:
    """Two expressions with a sign between them, or a chain of some with `&&` or `||` between them."""

    sign: Word
    parts: list

    @property
    def place(self):
        return self.sign.place


@dataclasses.dataclass
class Unread:
    """An expression that couldn't be read, which was told."""

    place: Place
