"""Documents as ALFA can say them: variables written out, what never comes left out. Each change is told; the rest is
said as it stands."""
import re

from xacml_form import names

from .documents import TAGS

# What changes a document and not what it means, and what ALFA can't say.
OTHERWISE, UNSAID = 'otherwise', 'not in ALFA'
MOST_NODES = 65536
GIVEN = {'ObligationExpressions': 'FulfillOn', 'AdviceExpressions': 'AppliesTo'}


class Unsayable(Exception):
    """A document that can't be written at all."""


class Preparing:
    """Prepares one document, and notes what it changes: a weight, the pointer of the part, and what."""

    def __init__(self):
        self.told = []

    def tell(self, weight, pointer, what):
        """Notes a change once."""
        if (weight, pointer, what) not in self.told:
            self.told.append((weight, pointer, what))

    def document(self, json, pointer=''):
        """A document."""
        (kind, body), = json.items()
        pointer = f'{pointer}/{kind}'
        made = {key: value for key, value in body.items() if key != 'VariableDefinition'}
        self.described(made, pointer)
        variables = Variables(body.get('VariableDefinition', []))
        for name in variables.definitions:
            self.tell(OTHERWISE, pointer, f'the variable `{name}` is written out where it is used')
        if 'Rule' in body:
            made['Rule'] = [self.rule(rule, variables, f'{pointer}/Rule/{number}')
                            for number, rule in enumerate(body['Rule'])]
        if 'Children' in body:
            made['Children'] = [self.child(child, f'{pointer}/Children/{number}')
                                for number, child in enumerate(body['Children'])]
        self.given(made, variables, pointer, None)
        return {kind: made}

    def child(self, json, pointer):
        """A member of a set."""
        return self.document(json, pointer) if set(json) & {'Policy', 'PolicySet'} else json

    def rule(self, rule, variables, pointer):
        """A rule."""
        made = dict(rule)
        self.described(made, pointer)
        if 'Condition' in made:
            made['Condition'] = variables.out(made['Condition'])
        self.given(made, variables, pointer, made['Effect'])
        return made

    def described(self, made, pointer):
        """A Description that a comment can hold."""
        text = made.get('Description')
        if text is not None and (sayable(text) != text or not text):
            made['Description'] = sayable(text)
            self.tell(OTHERWISE, pointer, 'the Description comes back otherwise: a comment isn\'t empty, and has no'
                      ' `*/`, no white space around its lines and no line that begins with @version')
        if made.get('Description') == '':
            del made['Description']

    def given(self, made, variables, pointer, effect):
        """Obligations and advice: of a rule those that come."""
        for key, on in GIVEN.items():
            kept = []
            for number, each in enumerate(made.get(key, [])):
                if effect and each[on] != effect:
                    self.tell(OTHERWISE, f'{pointer}/{key}/{number}', 'it is left out, since the rule never gives'
                              f' {each[on]}')
                else:
                    kept.append(self.one(each, variables, f'{pointer}/{key}/{number}'))
            if key in made:
                made[key] = kept

    def one(self, given, variables, pointer):
        """An obligation or an advice."""
        made, key = dict(given), 'AttributeAssignmentExpression'
        for each in given.get(key, []):
            if 'Issuer' in each:
                what = f'the issuer of `{each["AttributeId"]}`: ALFA assigns attributes without one'
                self.tell(UNSAID, pointer, what)
        if key in given:
            made[key] = [{name: variables.out(value) if name == 'Expression' else value for name, value in each.items()
                          if name != 'Issuer'} for each in given[key]]
        return made


class Variables:
    """The variables of a policy, which are written out."""

    def __init__(self, definitions):
        self.definitions = {each['VariableId']: each['Expression'] for each in definitions}
        self.sizes, self.left = {}, MOST_NODES

    def size(self, expression):
        """How many nodes an expression has once it is written out."""
        name = expression.get('VariableReference', {}).get('VariableId')
        if name is None:
            return 1 + sum(map(self.size, expression.get('Apply', {}).get('Arguments', [])))
        if name not in self.definitions:
            raise Unsayable(f'the variable `{name}` isn\'t defined')
        if name not in self.sizes:
            self.sizes[name] = MOST_NODES
            self.sizes[name] = self.size(self.definitions[name])
        return self.sizes[name]

    def out(self, expression):
        """An expression without variables."""
        self.left -= self.size(expression)
        if self.left < 0:
            raise Unsayable(f'with its variables written out it has more than {MOST_NODES} nodes')
        return self.whole(expression)

    def whole(self, expression):
        """The same, of which it is known that it isn't too long."""
        if 'VariableReference' in expression:
            return self.whole(self.definitions[expression['VariableReference']['VariableId']])
        if 'Arguments' not in expression.get('Apply', {}):
            return expression
        inner = expression['Apply']
        return {'Apply': inner | {'Arguments': [self.whole(each) for each in inner['Arguments']]}}


def sayable(text):
    """A Description as a comment can hold it."""
    lines = [line.strip(' \t') for line in re.split(r'\r\n|\r|\n', text.replace('*/', '* /'))]
    return '\n'.join(line for line in lines if not TAGS.fullmatch(line)).strip(' \t\n')


def kind_of(uri):
    """The short name of a data type."""
    return names.HERE_TYPES.get(uri, uri)
