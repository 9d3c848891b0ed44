"""Documents as ALFA."""
import re

from . import library
from .documents import GIVEN, TURNED
from .preparing import Unsayable
from .writing_expressions import COMPARED, Expressions, literal, quoted
from .writing_names import Names, is_name, name_of, unique

WIDTH, STEP = 110, '    '
ALGORITHMS = {uri: name for listed in library.ALGORITHMS.values() for name, uri in listed.items()}
DECLARED = 'attributes'
TAGS = {'Version': 'version', 'EarliestVersion': 'earliest', 'LatestVersion': 'latest'}


def key_of(json):
    """The kind and the id of a document."""
    (kind, body), = json.items()
    return kind, body[f'{kind}Id']


class Writer(Expressions):
    """Writes some documents, which can be prepared, as one file."""

    def __init__(self, documents, namespace='policies'):
        super().__init__(Names(documents))
        self.documents, self.namespace = documents, namespace
        self.places, self.elsewhere, self.taken = {}, {}, {}
        self.named = [self.place(each) for each in documents]
        for each in documents:
            self.refer(each)

    # ---- where each document stands

    def place(self, document):
        """The namespace and the name of a document, and whether its id has to be said: an id that is names with dots
        is one of a namespace."""
        _, identifier = key_of(document)
        words = identifier.split('.')
        space, name, is_said = '.'.join(words[:-1]), words[-1], False
        if len(words) < 2 or not all(map(is_name, words)) or name in self.taken.get(space, ()):
            space, name, is_said = self.namespace, name_of(identifier, 'policy'), True
        name = unique(name, self.taken.setdefault(space, set()))
        self.places.setdefault(key_of(document), (space, name))
        return space, name, is_said

    def refer(self, json):
        """Notes documents that are referred to and stand elsewhere, each with a name of its own."""
        for kind, body in json.items():
            if kind.endswith('Reference'):
                key = kind.removesuffix('IdReference'), body['Id']
                if key not in self.places:
                    taken = self.taken.setdefault(self.namespace, set())
                    self.places[key] = self.namespace, unique(name_of(body['Id'], 'policy'), taken)
                    self.elsewhere[key] = self.places[key][1]
            for child in body.get('Children', []) if kind == 'PolicySet' else []:
                self.refer(child)

    # ---- the file

    def text(self):
        """The whole file."""
        lines = self.declarations()
        spaces = list(dict.fromkeys([space for space, _, _ in self.named] + [self.namespace] * bool(self.elsewhere)))
        for space in spaces:
            lines += ['', f'namespace {space} {{', f'{STEP}import {DECLARED}.*']
            for (kind, identifier), name in self.elsewhere.items() if space == self.namespace else []:
                lines += ['', f'{STEP}{kind.lower()} {name} = {quoted(identifier)}']
            for document, (own, name, is_said) in zip(self.documents, self.named):
                if own == space:
                    lines += ['', *self.document(document, space, f'{space}.{name}', name, is_said, STEP)]
            lines.append('}')
        return '\n'.join(lines) + '\n'

    def declarations(self):
        """The namespace of attributes, obligations and advice."""
        lines, names = [f'namespace {DECLARED} {{', f'{STEP}import System.*'], self.names
        for uri, name in names.categories.items():
            if library.CATEGORIES.get(name) != uri:
                lines.append(f'{STEP}category {name} = {quoted(uri)}')
        for (category, identifier, kind), name in names.attributes.items():
            inner = f'category = {names.categories[category]}  id = {quoted(identifier)}  type = {kind}'
            lines.append(f'{STEP}attribute {name} {{ {inner} }}')
        for kind in ('obligation', 'advice'):
            lines += [f'{STEP}{kind} {name} = {quoted(uri)}' for uri, name in getattr(names, kind).items()]
        return [*lines, '}']

    def document(self, json, space, whole, name, is_said, indent):
        """A policy or a set; a whole name stands for what its members' ids begin with."""
        (kind, body), = json.items()
        inner = indent + STEP
        head = ' '.join([kind.lower(), *([name] if name else [])])
        head += f' = {quoted(body[f"{kind}Id"])}' if is_said else ''
        version = body['Version'] if body['Version'] != '1.0' else None
        lines = [*self.comment(body.get('Description'), [('version', version)], indent), f'{indent}{head} {{']
        lines += self.target(body, inner)
        uri = body['PolicyCombiningAlgId' if kind == 'PolicySet' else 'RuleCombiningAlgId']
        if uri not in ALGORITHMS:
            raise Unsayable(f'no algorithm of ALFA is `{uri}`')
        lines.append(f'{inner}apply {ALGORITHMS[uri]}')
        names = set()
        for number, rule in enumerate(body.get('Rule', []), 1):
            lines += self.rule(rule, self.inner_name(rule['RuleId'], whole, number, names, 'rule'), inner)
        for number, child in enumerate(body.get('Children', []), 1):
            lines += self.child(child, space, whole, number, names, inner)
        return [*lines, *self.given(body, inner), f'{indent}}}']

    def inner_name(self, identifier, whole, number, taken, otherwise):
        """The name of something inside, and whether its id has to be said: one that is made of its name or its number
        needs not."""
        last = identifier.removeprefix(whole + '.')
        if last != identifier and is_name(last) and last not in taken:
            return unique(last, taken), False
        if identifier == f'{whole}.{number}':
            return '', False
        return unique(name_of(identifier, otherwise), taken), True

    def child(self, json, space, whole, number, taken, indent):
        """A member of a set."""
        (kind, body), = json.items()
        if kind in ('Policy', 'PolicySet'):
            name, is_said = self.inner_name(body[f'{kind}Id'], whole, number, taken, 'policy')
            return self.document(json, space, f'{whole}.{name or number}', name, is_said, indent)
        own, name = self.places[kind.removesuffix('IdReference'), body['Id']]
        tags = [(tag, body.get(key)) for key, tag in TAGS.items()]
        return [*self.comment(None, tags, indent), f'{indent}{name if own == space else f"{own}.{name}"}']

    def comment(self, text, tags, indent):
        """A description, and what is said by tags."""
        lines = text.split('\n') if text else []
        lines += [f'@{tag} {value}' for tag, value in tags if value is not None]
        if not lines:
            return []
        if len(lines) == 1 and not re.match(r'[*@]', text or ''):
            return [f'{indent}/** {lines[0]} */']
        return [f'{indent}/**', *(f'{indent} * {line}'.rstrip() for line in lines), f'{indent} */']

    # ---- rules

    def rule(self, rule, named, indent):
        """A rule."""
        name, is_said = named
        head = ' '.join(['rule', *([name] if name else [])]) + (f' = {quoted(rule["RuleId"])}' if is_said else '')
        inner = indent + STEP
        body = [f'{inner}{rule["Effect"].lower()}', *self.target(rule, inner), *self.condition(rule, inner),
                *self.given(rule, inner)]
        comment = self.comment(rule.get('Description'), [], indent)
        if len(body) == 1:
            return [*comment, f'{indent}{head} {{ {body[0].strip()} }}']
        return [*comment, f'{indent}{head} {{', *body, f'{indent}}}']

    def condition(self, rule, indent):
        """A condition, a long one in several lines."""
        if 'Condition' not in rule:
            return []
        line = f'{indent}condition {self.expression(rule["Condition"])}'
        sign, parts = self.parts(rule['Condition'])
        if len(line) <= WIDTH or len(parts) == 1:
            return [line]
        return [f'{indent}condition {parts[0]}', *(f'{indent}{STEP}{sign} {part}' for part in parts[1:])]

    def target(self, body, indent):
        """A target, each clause in a line, a long one in several."""
        lines = []
        for any_of in body.get('Target', {}).get('AnyOf', []):
            parts = [' and '.join(map(self.match, all_of['Match'])) for all_of in any_of['AllOf']]
            head = f'{indent}{"       " if lines else "target "}clause '
            if len(head + ' or '.join(parts)) <= WIDTH:
                lines.append(head + ' or '.join(parts))
            else:
                lines += [head + parts[0], *(f'{indent}{STEP * 2}or {part}' for part in parts[1:])]
        return lines

    def match(self, match):
        """A match: the attribute stands at the left, so the sign is turned."""
        attribute, value = self.designator(match['AttributeDesignator']), literal(match['AttributeValue'])
        sign = COMPARED.get(match['MatchId'])
        if sign:
            return f'{attribute} {TURNED[sign]} {value}'
        return f'{self.function(match["MatchId"])}({value}, {attribute})'

    def given(self, body, indent):
        """Obligations, then advice, those that stand behind each other and are for one effect together."""
        lines, last = [], None
        for kind, (key, name, on) in GIVEN.items():
            for each in body.get(key, []):
                if each[on] != last:
                    lines += [f'{indent}}}'] * (last is not None) + [f'{indent}on {each[on].lower()} {{']
                    last = each[on]
                lines += self.one(kind, getattr(self.names, kind)[each[name]], each, indent + STEP)
        return [*lines, f'{indent}}}'] if lines else []

    def one(self, kind, name, given, indent):
        """An obligation or an advice."""
        assigned = []
        for each in given.get('AttributeAssignmentExpression', []):
            attribute = self.names.assigned(each)
            assigned.append(f'{attribute} = {self.expression(each["Expression"])}')
        if not assigned:
            return [f'{indent}{kind} {name}']
        line = f'{indent}{kind} {name} {{ {"  ".join(assigned)} }}'
        if len(line) <= WIDTH:
            return [line]
        return [f'{indent}{kind} {name} {{', *(f'{indent}{STEP}{each}' for each in assigned), f'{indent}}}']
