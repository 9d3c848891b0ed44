"""Whether a file is XACML 3.0: it is walked whole, and each violation of the schema is told, before anything of it is
converted."""
import typing

from lxml import etree

from . import names, schema
from .places import INVALID

XML = '{http://www.w3.org/XML/1998/namespace}'
INSTANCE = '{http://www.w3.org/2001/XMLSchema-instance}'
# Where a schema lies may be said at any element; the other attributes of that namespace change what an element is.
SILENT = {INSTANCE + 'schemaLocation', INSTANCE + 'noNamespaceSchemaLocation'}

# What stands in the older versions alone: in 2.0 and before it, and in 1.x alone.
_CATEGORIES = ('Subject', 'Resource', 'Action', 'Environment')
OLDER = {
    *(f'{one}s' for one in _CATEGORIES),
    *(f'{one}Match' for one in _CATEGORIES),
    *(f'{one}AttributeDesignator' for one in _CATEGORIES),
    *_CATEGORIES,
    'Obligations',
    'ResourceContent',
}
OLDEST = {'AnySubject', 'AnyResource', 'AnyAction'}
BRING = f'bring it to 3.0 first, whose namespace is {names.NAMESPACE}'
CHANGED = 'give it back the namespace of its version, by which it is brought to 3.0'


class Language(typing.NamedTuple):
    """A version of XACML: its namespace, its number, the table of its elements, and how a violation of it is told."""

    namespace: str
    version: str
    elements: dict
    weight: str


THREE = Language(names.NAMESPACE, '3.0', schema.ELEMENTS, INVALID)


class Grammar:
    """Walks the elements of one file."""

    def __init__(self, told, places, language=THREE):
        self.told, self.places, self.language = told, places, language

    def tell(self, element, what, how, key=None):
        """Tells a violation at an element, or at an attribute of it."""
        place = self.places[element] if key is None else self.places.attribute(element, key)
        self.told.tell(self.language.weight, place, what, how)

    def check(self, root, allowed):
        """Whether a root is one of these elements, and all below it is as the schema has it."""
        name = etree.QName(root).localname
        if self.is_known(root, 'at the root'):
            if name in allowed:
                if self.language is THREE:
                    self.tell_older(root)
                self.walk(root)
            else:
                stands = ' or '.join(f'a {each}' for each in allowed)
                self.tell(root, f'{name} at the root', f'{stands} stands there')
        return not self.told.holds(self.language.weight)

    def tell_older(self, root):
        """Tells a file of an older version whose namespace was changed, by the first element that is of that
        version."""
        for version, is_of in [('1.x', _is_oldest), ('2.0', _is_older)]:
            for element in root.iter(f'{{{names.NAMESPACE}}}*'):
                if is_of(element, etree.QName(element).localname):
                    line, column = self.places[element]
                    where = f'{etree.QName(element).localname} at {line}:{column}'
                    self.tell(root, f'as a file of XACML {version} whose namespace was changed ({where})', CHANGED)
                    return

    def is_known(self, element, where):
        """Whether an element has the namespace of the version; else it is told."""
        tag = etree.QName(element)
        if tag.namespace == self.language.namespace:
            return True
        older = names.OLDER.get(tag.namespace)
        if older:
            how = BRING if self.language is THREE else 'one version stands in one file'
            self.tell(element, f'{tag.localname} of XACML {older} {where}', how)
        else:
            space, how = tag.namespace or '(none)', f'it belongs to no XACML {self.language.version}'
            self.tell(element, f'{tag.localname} of the namespace {space} {where}', how)
        return False

    def walk(self, element):
        """An element that the table has, and all below it."""
        name = etree.QName(element).localname
        kind = self.language.elements[name]
        self.attributes(element, name, kind)
        if kind.holds == schema.ANY:
            return
        children = [each for each in element if isinstance(each.tag, str)]
        if kind.holds == schema.TEXT:
            for child in children:
                self.tell(child, f'{etree.QName(child).localname} in {name}', 'only a text stands there')
            return
        self.texts(element, name, kind)
        self.children(element, name, kind, children)

    def attributes(self, element, name, kind):
        """The attributes of an element: those that the table hasn't, those of another form, and those that are
        missing."""
        has = f'{name} has {", ".join(kind.attributes)}' if kind.attributes else f'{name} has no attributes'
        for key, text in element.attrib.items():
            if key in kind.attributes:
                if not schema.fits(kind.attributes[key], text):
                    words = schema.FORMS[kind.attributes[key].form].words
                    self.tell(element, f'{_attribute(key)}="{text[:60]}" of {name}', f'{words} stands there', key)
            elif key not in SILENT and kind.holds != schema.ANY:
                self.tell(element, f'the attribute {_attribute(key)} of {name}', has, key)
        for key, attribute in kind.attributes.items():
            if attribute.is_required and key not in element.attrib:
                self.tell(element, f'{name} without {key}', 'the schema asks for it')

    def texts(self, element, name, kind):
        """Text where only elements stand, or nothing."""
        stands = 'only elements stand there' if kind.holds else 'nothing stands there'
        before = element
        for text, behind in [(element.text, element), *((each.tail, each) for each in element)]:
            before = behind if behind in self.places else before
            if text and text.strip(schema.SPACE):
                self.tell(before, f'the text "{schema.collapsed(text)[:40]}" in {name}', stands)

    def children(self, element, name, kind, children):
        """The children of an element: those without a place there, those behind their place, too many and too few."""
        found = [[] for _ in kind.holds]
        furthest, last = 0, None
        for child in children:
            own = etree.QName(child).localname
            if not self.is_known(child, f'in {name}'):
                continue
            if own not in kind.place_of:
                self.tell(child, f'{own} in {name}', f'what stands there: {_listed(kind.holds)}')
                continue
            place = kind.place_of[own]
            if place < furthest:
                self.tell(child, f'{own} behind {last} in {name}', f'the order is {_listed(kind.holds)}')
            else:
                furthest, last = place, own
            found[place].append(child)
            self.walk(child)
        for particle, there in zip(kind.holds, found):
            self.counts(element, name, particle, there)

    def counts(self, element, name, particle, there):
        """Whether as many stand at a place as may."""
        for child in there[1:] if particle.most == 1 else []:
            first = there[0]
            line, _ = self.places[first]
            how = f'one stands there, and that is {etree.QName(first).localname} in line {line}'
            self.tell(child, f'one more {etree.QName(child).localname} in {name}', how)
        if len(there) < particle.least:
            self.tell(element, f'{name} without {_one_of(particle)}', 'the schema asks for it')


def _is_oldest(element, name):
    """Whether an element is of XACML 1.x alone."""
    return name in OLDEST or name == 'Condition' and 'FunctionId' in element.attrib


def _is_older(element, name):
    """Whether an element is of XACML 2.0 or before it."""
    return name in OLDER or name == 'AttributeSelector' and 'RequestContextPath' in element.attrib


def _one_of(particle):
    """What is missing at a place, in words."""
    return 'an expression' if 'Apply' in particle.names else ' or '.join(particle.names)


def _listed(particles):
    """The children that an element may have, in their order."""
    if not particles:
        return 'nothing'
    return ', '.join('expressions' if 'Apply' in each.names else ' | '.join(each.names) for each in particles)


def _attribute(key):
    """The name of an attribute as it stands in a file, as far as that is known."""
    if key.startswith(XML):
        return 'xml:' + key.removeprefix(XML)
    return 'xsi:' + key.removeprefix(INSTANCE) if key.startswith(INSTANCE) else key
