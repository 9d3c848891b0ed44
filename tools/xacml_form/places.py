"""XML read safely, and where each of its elements begins."""
import pyexpat
import re

from lxml import etree

from .told import BY_HAND, FAULT, IMPOSSIBLE, INVALID, INVALIDS, REWRITTEN, TIMES, UNREAD, WARNING, Told  # noqa: F401

MOST_BYTES = 16 * 1024 * 1024
MOST_LEVELS = 200
MOST_TEXT = 32 * 1024 * 1024
# The name of a tag, and an attribute behind it.
TAG = re.compile(rb'<[^\s/>]+')
ATTRIBUTE = re.compile(rb'\s+([^\s=>/]+)\s*=\s*(?:"[^"]*"|\'[^\']*\')')


class NotRead(Exception):
    """A file that can't be read as XML, with the place where that shows."""

    def __init__(self, why, line=1, column=1):
        super().__init__(why)
        self.why, self.line, self.column = why, line, column


class Places(dict):
    """The line and column, from 1, of each element of a file."""

    def __init__(self, elements, places, starts, data):
        super().__init__(zip(elements, places))
        self.starts, self.data = dict(zip(elements, starts)), data

    def attribute(self, element, key):
        """Those of an attribute of an element; those of the element where its tag isn't found in the bytes, as in
        another encoding."""
        line, column = self[element]
        start = self.starts[element]
        found, local = TAG.match(self.data, start), key.rpartition('}')[2].encode()
        while found := found and ATTRIBUTE.match(self.data, found.end()):
            if found[1].rpartition(b':')[2] == local and not found[1].startswith(b'xmlns'):
                rows = self.data[start : found.start(1)].decode('utf-8', 'replace').replace('\r\n', '\n').split('\n')
                return line + len(rows) - 1, len(rows[-1]) + (column if len(rows) == 1 else 1)
        return line, column


def read(data):
    """The root element of XML, and its places. Nothing outside the bytes is read."""
    if len(data) > MOST_BYTES:
        raise NotRead(f'more than {MOST_BYTES} bytes')
    places, starts = _places(data)
    parser = etree.XMLParser(
        resolve_entities=True, no_network=True, load_dtd=False, dtd_validation=False, huge_tree=False, remove_pis=True
    )
    try:
        root = etree.fromstring(data, parser)
    except etree.XMLSyntaxError as error:
        line, column = error.position
        raise NotRead(f'no XML: {error.msg}', line or 1, column or 1) from None
    elements = [each for each in root.iter() if isinstance(each.tag, str)]
    if len(elements) != len(places):
        raise NotRead('its elements are read in two ways')
    return root, Places(elements, places, starts, data)


def _places(data):
    """Where each element begins, as line and column and as a number of bytes. It refuses what the tool doesn't read:
    entities from outside, attributes by default, too many levels, too much text."""
    found, starts, levels, text = [], [], 0, 0
    parser = pyexpat.ParserCreate()

    def fail(why):
        raise NotRead(why, parser.CurrentLineNumber, parser.CurrentColumnNumber + 1)

    def start(_name, _attributes):
        nonlocal levels
        levels += 1
        if levels > MOST_LEVELS:
            fail(f'more than {MOST_LEVELS} levels')
        found.append((parser.CurrentLineNumber, parser.CurrentColumnNumber + 1))
        starts.append(parser.CurrentByteIndex)

    def end(_name):
        nonlocal levels
        levels -= 1

    def characters(piece):
        nonlocal text
        text += len(piece)
        if text > MOST_TEXT:
            fail('more text than is read, by its entities')

    def entity(name, _is_parameter, _value, _base, system, public, _notation):
        if system is not None or public is not None:
            fail(f'the entity {name} is outside the file')

    def attribute(element, name, _kind, default, _is_required):
        if default is not None:
            fail(f'{name} of {element} by default: write it where it stands')

    def outside(_context, _base, _system, _public):
        fail('an entity outside the file')

    parser.StartElementHandler, parser.EndElementHandler, parser.AttlistDeclHandler = start, end, attribute
    parser.CharacterDataHandler, parser.EntityDeclHandler, parser.ExternalEntityRefHandler = characters, entity, outside
    parser.SetParamEntityParsing(pyexpat.XML_PARAM_ENTITY_PARSING_NEVER)
    try:
        parser.Parse(data, True)
    except pyexpat.ExpatError as error:
        raise NotRead('no XML: ' + pyexpat.ErrorString(error.code), error.lineno, error.offset + 1) from None
    return found, starts
