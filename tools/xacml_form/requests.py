"""Requests (5.42 to 5.46) from XML to the JSON that `ask` takes, and responses (5.47 to 5.57) from JSON to XML."""
from lxml import etree

from . import literals, names
from .elements import Elements
from .grammar import Grammar
from .places import BY_HAND, IMPOSSIBLE, REWRITTEN

NO_CONTENT = 'attributes are values of types, not parts of documents; leave it out, or store what policies ask of it'


class Requests:
    """Reads the request of one file."""

    def __init__(self, told, places):
        self.elements, self.told = Elements(told, places), told
        self.grammar = Grammar(told, places)
        self.place = self.elements.place

    def request(self, root):
        """The request whose root element is given, as `{"Request":..}`; None where it is none of 3.0."""
        if not self.grammar.check(root, ['Request']):
            return None
        found = self.elements.attributes(root)
        for key, how in [
            ('ReturnPolicyIdList', 'false: a cell of the table says which rules decided'),
            ('CombinedDecision', 'false: each request by itself'),
        ]:
            if found[key]:
                self.told.tell(BY_HAND, self.place(root), f'{key} true', how)
        categories, seen = [], set()
        for name, child in self.elements.children(root):
            if name == 'RequestDefaults':
                self.told.tell(REWRITTEN, self.place(child), name, 'left out: there is no XPath')
            elif name == 'MultiRequests':
                self.told.tell(BY_HAND, self.place(child), name, 'ask each request by itself')
            else:
                category = self.category(child)
                if category['CategoryId'] in seen:
                    what = f'the category {category["CategoryId"]} twice'
                    how = 'several decisions in one request: ask each by itself'
                    self.told.tell(BY_HAND, self.place(child), what, how)
                seen.add(category['CategoryId'])
                categories.append(category)
        return {'Request': {'Category': categories}}

    def category(self, element):
        found = {'CategoryId': self.elements.attributes(element)['Category']}
        for name, child in self.elements.children(element):
            if name == 'Content':
                self.told.tell(IMPOSSIBLE, self.place(child), name, NO_CONTENT)
            else:
                found.setdefault('Attribute', []).extend(self.attribute(child))
        return found

    def attribute(self, element):
        """One attribute, or more where its values are of several types: those that follow each other with one type are
        one."""
        head = self.elements.attributes(element)
        if not head['IncludeInResult']:
            del head['IncludeInResult']
        parts = []
        for _, child in self.elements.children(element):
            place = self.place(child)
            uri = literals.data_type(self.elements.attributes(child)['DataType'], place, self.told)
            value = literals.value(uri, self.elements.text(child), place, self.told, literals.GIVEN)
            if parts and parts[-1]['DataType'] == uri:
                parts[-1]['Value'].append(value)
            else:
                parts.append({**head, 'DataType': uri, 'Value': [value]})
        return parts


# ---- responses


class Unwritten(Exception):
    """What has no place in XML, with where it stands."""


def element(parent, name, text=None, **attributes):
    """A new element of the namespace of 3.0; attributes that are None are left out."""
    try:
        made = (
            etree.SubElement(parent, f'{{{names.NAMESPACE}}}{name}')
            if parent is not None
            else etree.Element(f'{{{names.NAMESPACE}}}{name}', nsmap={None: names.NAMESPACE})
        )
        for key, value in attributes.items():
            if value is not None:
                made.set(key, value)
        if text is not None:
            made.text = text
        return made
    except ValueError:
        shown = next(value for value in [text, *attributes.values()] if value is not None and not _is_written(value))
        raise Unwritten(f'{name}: a character of {shown[:40]!r} stands in no XML') from None


def _is_written(text):
    try:
        etree.Element('a').text = text
        return True
    except ValueError:
        return False


def response(answer):
    """The Response element of the response of `ask`."""
    root = element(None, 'Response')
    for result in answer['Response']:
        made = element(root, 'Result')
        element(made, 'Decision', result['Decision'])
        element(element(made, 'Status'), 'StatusCode', Value=result['Status']['StatusCode']['Value'])
        _given(made, 'Obligations', 'Obligation', 'ObligationId', result.get('Obligations'))
        _given(made, 'AssociatedAdvice', 'Advice', 'AdviceId', result.get('AssociatedAdvice'))
        for category in result.get('Category', []):
            attributes = element(made, 'Attributes', Category=category['CategoryId'])
            for one in category['Attribute']:
                attribute = element(
                    attributes,
                    'Attribute',
                    AttributeId=one['AttributeId'],
                    IncludeInResult='true',
                    Issuer=one.get('Issuer'),
                )
                for value in one['Value'] if isinstance(one['Value'], list) else [one['Value']]:
                    element(
                        attribute, 'AttributeValue', literals.text_of(one['DataType'], value), DataType=one['DataType']
                    )
    return root


def _given(parent, name, one, key, given):
    if given:
        made = element(parent, name)
        for each in given:
            inner = element(made, one, **{key: each['Id']})
            for part in each['AttributeAssignment']:
                element(
                    inner,
                    'AttributeAssignment',
                    literals.text_of(part['DataType'], part['Value']),
                    AttributeId=part['AttributeId'],
                    DataType=part['DataType'],
                    Category=part.get('Category'),
                    Issuer=part.get('Issuer'),
                )
