"""Names for what documents name by ids: attributes, obligations, advice, policies and rules."""
import re

from . import library
from .preparing import kind_of
from .tokens import KEYWORDS

NAME = re.compile(r'[A-Za-z_][A-Za-z0-9_]*')
MOST = 60
SHORT = {uri: name.removesuffix('Cat') for name, uri in library.CATEGORIES.items()} | {'': 'given'}


def is_name(text):
    """Whether a text can be a name as it stands."""
    return NAME.fullmatch(text) is not None and text not in KEYWORDS


def name_of(identifier, otherwise):
    """A name like an id: of its last part the words, joined as in ALFA."""
    parts = [part for part in re.split('[:/#]', identifier) if re.search('[A-Za-z0-9]', part)]
    words = re.findall('[A-Za-z0-9]+', parts[-1] if parts else '')
    made = ''.join(word if number == 0 else capital(word) for number, word in enumerate(words))[:MOST]
    if not made or made[0].isdigit():
        made = otherwise + made
    return made + '_' if made in KEYWORDS else made


def capital(word):
    """A word with a capital."""
    return word[:1].upper() + word[1:]


def unique(name, taken):
    """A name that isn't taken, which is taken then."""
    made, number = name, 2
    while made in taken:
        made, number = f'{name}{number}', number + 1
    taken.add(made)
    return made


def type_of(expression):
    """The type of the value, or of the values, that an expression gives."""
    (key, inner), = expression.items()
    if key == 'AttributeValue':
        value = inner['Value']
        kind = 'boolean' if isinstance(value, bool) else 'integer' if isinstance(value, int) else 'string'
        return kind_of(inner.get('DataType', kind))
    if key == 'AttributeDesignator':
        return kind_of(inner['DataType'])
    found = library.BY_URI.get(inner['FunctionId'])
    return found.gives[0] if found else 'boolean'


class Walk:
    """What documents name: categories, attributes (category, id and type), obligations and advice, each once, in the
    order in which they stand."""

    def __init__(self, documents):
        self.attributes, self.obligation, self.advice = {}, {}, {}
        for document in documents:
            self.document(document)

    def document(self, json):
        """A document, or a reference."""
        for kind, body in json.items():
            if kind in ('Policy', 'PolicySet'):
                self.target(body)
                for rule in body.get('Rule', []):
                    self.target(rule)
                    self.expression(rule.get('Condition', {}))
                    self.given(rule)
                for child in body.get('Children', []):
                    self.document(child)
                self.given(body)

    def target(self, body):
        """The attributes of a target."""
        for any_of in body.get('Target', {}).get('AnyOf', []):
            for all_of in any_of['AllOf']:
                for match in all_of['Match']:
                    self.designator(match['AttributeDesignator'])

    def designator(self, found):
        """An attribute."""
        self.attributes[found['Category'], found['AttributeId'], kind_of(found['DataType'])] = None

    def expression(self, expression):
        """The attributes of an expression."""
        if 'AttributeDesignator' in expression:
            self.designator(expression['AttributeDesignator'])
        for argument in expression.get('Apply', {}).get('Arguments', []):
            self.expression(argument)

    def given(self, body):
        """Obligations and advice, and what they assign."""
        for key, ids, name in [('ObligationExpressions', self.obligation, 'ObligationId'),
                               ('AdviceExpressions', self.advice, 'AdviceId')]:
            for each in body.get(key, []):
                ids[each[name]] = None
                for one in each.get('AttributeAssignmentExpression', []):
                    kind = type_of(one['Expression'])
                    self.attributes[one.get('Category', ''), one['AttributeId'], kind] = None
                    self.expression(one['Expression'])


class Names:
    """The names of what documents name."""

    def __init__(self, documents):
        found = Walk(documents)
        taken = set()
        self.categories = {}
        for category, _, _ in found.attributes:
            if category not in self.categories:
                known = [name for name, uri in library.CATEGORIES.items() if uri == category]
                name = 'noCat' if category == '' else name_of(category, 'category') + 'Cat'
                self.categories[category] = known[0] if known else unique(name, taken)
        self.attributes = self.of_attributes(list(found.attributes))
        self.obligation, self.advice = self.of(found.obligation, 'obligation'), self.of(found.advice, 'advice')

    def of(self, ids, otherwise):
        """Names of obligations, or of advice."""
        taken = set()
        return {each: unique(name_of(each, otherwise), taken) for each in ids}

    def of_attributes(self, keys):
        """Names of attributes: that of the id; where several have one, with the category, and with the type."""
        short = [name_of(identifier, 'attribute') for _, identifier, _ in keys]
        longer = [self.category(key[0]) + capital(name) for key, name in zip(keys, short)]
        longest = [name + capital(key[2]) for key, name in zip(keys, longer)]
        taken, found = set(), {}
        for number, key in enumerate(keys):
            one = next((names[number] for names in (short, longer) if names.count(names[number]) == 1), longest[number])
            found[key] = unique(one, taken)
        return found

    def category(self, uri):
        """A short name of a category."""
        return SHORT.get(uri) or name_of(uri, 'category')

    def assigned(self, assignment):
        """The name of what is assigned."""
        category = assignment.get('Category', '')
        return self.attributes[category, assignment['AttributeId'], type_of(assignment['Expression'])]
