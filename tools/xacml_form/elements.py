"""What the readers of policies and requests share: elements that the grammar has passed."""
from lxml import etree

from . import schema
from .grammar import SILENT, XML
from .names import XPATH_TYPE
from .told import BY_HAND, IMPOSSIBLE, REWRITTEN, Placed


class Elements:
    """The elements of one file."""

    def __init__(self, told, places):
        self.told, self.places = told, places

    def place(self, element):
        return self.places[element]

    def placed(self, element, parts):
        """An object that was made of an element."""
        return Placed(self.places[element], lambda key: self.places.attribute(element, key), parts)

    def name(self, element):
        """The name of an element, without its namespace."""
        return etree.QName(element).localname

    def attributes(self, element):
        """The attributes of an element by name, as the table has them; others, which it allows, are told."""
        known, found = schema.ELEMENTS[self.name(element)].attributes, {}
        for key, text in element.attrib.items():
            if key.startswith(XML):
                what = f'the attribute xml:{etree.QName(key).localname}'
                self.told.tell(REWRITTEN, self.place(element), what, 'left out: it means nothing for a decision')
            elif key in known:
                found[key] = schema.value(known[key], text)
                if known[key].form == 'uri' and found[key] != text:
                    what, how = f'the white space in {key}', 'left out: by the schema it is no part of a URI'
                    self.told.tell(REWRITTEN, self.place(element), what, how)
            elif key not in SILENT and (key != 'XPathCategory' or element.get('DataType') != XPATH_TYPE):
                what = f'the attribute {key} of {self.name(element)}'
                self.told.tell(BY_HAND, self.place(element), what, 'leave it out: it has no place here')
        return found

    def children(self, element):
        """The children of an element, each with its name."""
        return [(self.name(child), child) for child in element if isinstance(child.tag, str)]

    def text(self, element):
        """The text of an element; elements in it are told."""
        inside = [each for each in element if isinstance(each.tag, str)]
        if inside:
            what = f'an element in {self.name(element)}'
            how = 'only a text stands there in this service; store what it finds as an attribute'
            self.told.tell(IMPOSSIBLE, self.place(inside[0]), what, how)
        return (element.text or '') + ''.join(each.tail or '' for each in element)
