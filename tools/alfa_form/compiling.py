"""Files of ALFA, all of one world, and the documents that they make."""
import sys
import typing

from xacml_form import checked
from xacml_form.told import FAULT

from . import tree
from .documents import Documents
from .naming import World
from .parsing import Files
from .told import ERROR, WARNING, Place, Told
from .tokens import Tokens

MOST_BYTES = 16 * 1024 * 1024
# Enough for as many levels of parentheses and braces as are read.
MOST_CALLS = 20000
WEIGHTS = {FAULT: ERROR, 'warning': WARNING}


class Made(typing.NamedTuple):
    """A document: its name, the file that it stands in, and what tells of it at its places."""

    name: str
    file: str
    told: 'Telling'
    document: dict


class Telling:
    """Tells what the program says of one document, at its places in the ALFA."""

    def __init__(self, told):
        self.told, self.has_fault = told, False

    def tell(self, weight, place, what):
        """Notes a thing at a place."""
        self.has_fault = self.has_fault or weight == FAULT
        self.told.tell(WEIGHTS[weight], place, what)

    def holds(self, _weight):
        """Whether a fault was told."""
        return self.has_fault


def read(name, data, told):
    """The block that a file is."""
    file = told.file(name)
    if len(data) > MOST_BYTES:
        told.error(Place(file, 1, 1), f'more than {MOST_BYTES} bytes')
        return tree.Block('', None)
    try:
        text = data.decode('utf-8')
    except UnicodeDecodeError as fault:
        before = data[:fault.start].decode('utf-8').replace('\r\n', '\n').split('\n')
        told.error(Place(file, len(before), len(before[-1]) + 1), 'this isn\'t UTF-8')
        return tree.Block('', None)
    return Files(Tokens(text, file, told).all(), told).whole()


def blocks(block):
    """A block and all within it."""
    yield block
    for part in block.parts:
        if isinstance(part, tree.Block):
            yield from blocks(part)


class Compiler:
    """The world of some files."""

    def __init__(self, files, prefix='', has_categories=True):
        sys.setrecursionlimit(max(sys.getrecursionlimit(), MOST_CALLS))
        self.told = Told()
        self.blocks = [inner for name, data in files for inner in blocks(read(name, data, self.told))]
        self.world = World(self.told)
        for block in self.blocks:
            self.world.gather(block)
        self.documents = Documents(self.world, prefix, has_categories)

    def made(self):
        """The documents of all files; where something is wrong that was told, and what is made isn't whole."""
        self.declarations()
        nodes = self.policies()
        self.documents.wholes = {id(node): whole for node, whole in nodes}
        found = []
        for node, whole in nodes:
            if not node.is_elsewhere:
                self.documents.block = node.block
                document = self.documents.document(node, whole)
                found.append(Made(whole, self.told.files[node.place.file], Telling(self.told), document))
        return found

    def policies(self):
        """The policies and sets that stand in namespaces, with their whole names: one without a name has its number
        among those of its namespace."""
        counts, found = {}, []
        for block in self.blocks:
            for node in block.parts:
                if isinstance(node, tree.Policy):
                    counts[block.name] = counts.get(block.name, 0) + 1
                    found.append((node, block.within(node.name.text if node.name else str(counts[block.name]))))
        return found

    def declarations(self):
        """Tells what declared attributes lack, types and categories that aren't there, and imports of nothing."""
        for block in self.blocks:
            for part in block.parts:
                if isinstance(part, tree.Attribute):
                    self.attribute(part)
                elif isinstance(part, tree.Declaration) and part.kind == 'category' and not part.uri.text:
                    self.told.note(part.name.place, 'a category without a URI is taken so that what is assigned has'
                                   ' none: a form of this tool alone')
            for each in block.imports:
                self.imported(each)

    def attribute(self, found):
        """Tells what an attribute lacks."""
        lacks = [f'`{key}`' for key in ('id', 'type', 'category') if getattr(found, key) is None]
        if lacks:
            self.told.error(found.name.place, f'the attribute `{found.name.text}` has no {" and no ".join(lacks)}')
        for key in ('type', 'category'):
            if getattr(found, key) is not None:
                self.world.need(key, getattr(found, key), found.block)

    def imported(self, found):
        """Tells an import of which nothing is there."""
        name = found.name.text
        known = [whole for kind in self.world.kinds.values() for whole in kind]
        if not any(whole == name or whole.startswith(name + '.') for whole in known):
            self.told.tell(WARNING, found.name.place, f'nothing is declared in `{name}` in the files that were given')


def check(program, stored, made, text_of):
    """Tells what a program says of documents; what it says of the state beside them is given back."""
    return checked.check(program, stored, made, text_of)
