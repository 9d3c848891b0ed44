"""Policies of XACML 1.0, 1.1 and 2.0 as elements of 3.0, each of which knows where the older one stood: targets by
lists of subjects, resources, actions and environments, designators by category, conditions that are a function,
obligations of values. What is written in 3.0 then goes the way of every file of 3.0."""
from lxml import etree

from . import names, schema_older
from .grammar import Grammar, Language
from .places import INVALIDS, REWRITTEN, Places

CATEGORIES = ('Subject', 'Resource', 'Action', 'Environment')
URIS = {one: names.CATEGORIES['AccessSubject' if one == 'Subject' else one] for one in CATEGORIES}
# The names that attributes have in 3.0, and had before.
RENAMED = {'Category': 'SubjectCategory', 'Path': 'RequestContextPath', 'MustBePresent': 'MustBePresent'}
HOW = 'brought to 3.0: its targets, designators, conditions and obligations as 3.0 has them'


def version_of(root):
    """The version of a root of policies that is older than 3.0, by its namespace; else None."""
    return names.OLDER_POLICIES.get(etree.QName(root).namespace)


def modern(root, places, told):
    """A root of an older version as one of 3.0, with its places; None for both, and told, where it is none of that
    version."""
    version = version_of(root)
    language = Language(etree.QName(root).namespace, version, schema_older.ELEMENTS, INVALIDS[version])
    if not Grammar(told, places, language).check(root, ['Policy', 'PolicySet']):
        return None, None
    made = Modern(told, places, INVALIDS[version])
    new = made.member(root)
    told.tell(REWRITTEN, places[root], f'XACML {version}', HOW)
    return (None, None) if told.holds(INVALIDS[version]) else (new, Brought(made.origins, places))


class Brought(Places):
    """The places of elements that were made of others: those of these."""

    def __init__(self, origins, places):
        dict.__init__(self, {element: places[origin] for element, origin in origins.items()})
        self.origins, self.older = origins, places

    def attribute(self, element, key):
        """Those of an attribute, under the name that it had."""
        origin = self.origins[element]
        return self.older.attribute(origin, key if key in origin.attrib else RENAMED.get(key, key))


class Modern:
    """Makes elements of 3.0 of those of one file."""

    def __init__(self, told, places, invalid):
        self.told, self.places, self.invalid, self.origins = told, places, invalid, {}

    def make(self, origin, name, attributes=(), children=()):
        """An element that was made of another one."""
        made = etree.Element(f'{{{names.NAMESPACE}}}{name}', nsmap={None: names.NAMESPACE})
        for key, text in dict(attributes).items():
            made.set(key, text)
        made.extend(children)
        self.origins[made] = origin
        return made

    def copied(self, origin, name=None, attributes=None):
        """An element as it stands, under its name or another one, with all that it holds."""
        attributes = origin.attrib if attributes is None else attributes
        made = self.make(origin, name or etree.QName(origin).localname, attributes)
        made.text = origin.text
        for each in origin:
            if isinstance(each.tag, str):
                inner = self.copied(each)
                inner.tail = each.tail
                made.append(inner)
            else:
                self.add_text(made, each.tail)
        return made

    @staticmethod
    def add_text(made, text):
        """Text that stood behind a comment."""
        if len(made):
            made[-1].tail = (made[-1].tail or '') + (text or '')
        else:
            made.text = (made.text or '') + (text or '')

    def children(self, element):
        """The children of an element, each with its name."""
        return [(etree.QName(each).localname, each) for each in element if isinstance(each.tag, str)]

    # ---- policies and sets

    def member(self, element):
        """A policy, a set, a reference or a part of one of these."""
        name = etree.QName(element).localname
        if name not in ('Policy', 'PolicySet'):
            return self.copied(element)
        read = {
            'Target': self.target,
            'VariableDefinition': self.variable,
            'Rule': self.rule,
            'Obligations': self.obligations,
            **dict.fromkeys(('Policy', 'PolicySet'), self.member),
        }
        attributes = {**element.attrib, 'Version': element.get('Version', '1.0')}
        inside = [read.get(own, self.copied)(child) for own, child in self.children(element)]
        # In 2.0 parameters of a policy may stand before its target.
        place = next(at for at, each in enumerate(inside) if etree.QName(each).localname == 'Target')
        before = [each for each in inside[:place] if etree.QName(each).localname != 'CombinerParameters']
        moved = [each for each in inside[:place] if etree.QName(each).localname == 'CombinerParameters']
        return self.make(element, name, attributes, [*before, inside[place], *moved, *inside[place + 1 :]])

    def variable(self, element):
        return self.make(element, 'VariableDefinition', element.attrib, self.expressions(element))

    def rule(self, element):
        read = {'Target': self.target, 'Condition': self.condition}
        inside = [read.get(name, self.copied)(child) for name, child in self.children(element)]
        return self.make(element, 'Rule', element.attrib, inside)

    # ---- targets

    def target(self, element):
        """A target: each of its lists is an AnyOf; what may be any of its kind asks nothing."""
        lists = [self.any_of(child, name.removesuffix('s')) for name, child in self.children(element)]
        return self.make(element, 'Target', {}, [each for each in lists if len(each)])

    def any_of(self, element, category):
        found = [self.all_of(child, category) for name, child in self.children(element) if name == category]
        return self.make(element, 'AnyOf', {}, found)

    def all_of(self, element, category):
        return self.make(element, 'AllOf', {}, [self.match(child, category) for _, child in self.children(element)])

    def match(self, element, category):
        inside = [self.expression(child, category) for _, child in self.children(element)]
        return self.make(element, 'Match', element.attrib, inside)

    # ---- expressions

    def condition(self, element):
        """A condition: in 1.x a function with its arguments, later one expression."""
        inside = self.expressions(element)
        if 'FunctionId' in element.attrib:
            inside = [self.make(element, 'Apply', {'FunctionId': element.get('FunctionId')}, inside)]
        if len(inside) != 1:
            self.told.tell(
                self.invalid, self.places[element], f'a Condition of {len(inside)} expressions', 'one stands there'
            )
        return self.make(element, 'Condition', {}, inside)

    def expressions(self, element):
        return [self.expression(child) for _, child in self.children(element)]

    def expression(self, element, category='Resource'):
        name = etree.QName(element).localname
        if name == 'Apply':
            return self.make(element, name, element.attrib, self.expressions(element))
        if name.endswith('AttributeDesignator'):
            return self.designator(element, name.removesuffix('AttributeDesignator'))
        if name == 'AttributeSelector':
            attributes = {'Category': URIS[category], 'Path': element.get('RequestContextPath'), **self.named(element)}
            del attributes['RequestContextPath']
            return self.make(element, name, attributes)
        return self.copied(element)

    def designator(self, element, category):
        """A designator: its category, and that it need not be there unless it says so."""
        attributes = {'Category': URIS[category], **self.named(element)}
        given = attributes.pop('SubjectCategory', None)
        return self.make(element, 'AttributeDesignator', {**attributes, **({'Category': given} if given else {})})

    @staticmethod
    def named(element):
        return {'MustBePresent': 'false', **element.attrib}

    # ---- obligations

    def obligations(self, element):
        found = [self.obligation(child) for _, child in self.children(element)]
        return self.make(element, 'ObligationExpressions', {}, found)

    def obligation(self, element):
        found = [self.assignment(child) for _, child in self.children(element)]
        return self.make(element, 'ObligationExpression', element.attrib, found)

    def assignment(self, element):
        """An assignment: its value, as a literal."""
        attributes = {key: text for key, text in element.attrib.items() if key != 'AttributeId'}
        value = self.copied(element, 'AttributeValue', attributes)
        return self.make(element, 'AttributeAssignmentExpression', {'AttributeId': element.get('AttributeId')}, [value])
