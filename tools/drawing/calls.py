"""Which function calls which, as the texts of the sources have it."""
import collections
import dataclasses
import re

HEAD = re.compile(r'^((?: {4})?)(?:pub(?:\([a-z]+\))? )?(?:const |unsafe )*fn (?:r#)?([A-Za-z0-9_]+)')
BLOCK = re.compile(r'^(?:unsafe )?(impl|trait)\b(.*)')
STRUCT = re.compile(r'^(?:pub(?:\([a-z]+\))? )?struct (\w+)[^;{(]*\{\n(.*?)^\}', re.M | re.S)
FIELD = re.compile(r'^ {4}(?:pub(?:\([a-z]+\))? )?(\w+): (.*?),?$', re.M)
USE = re.compile(r'^(?:pub )?use ((?:crate|super|\w+)(?:::\w+)*)::(\{[^}]*\}|\w+);', re.M)
CALL = re.compile(r'(?<![\w!])((?:[A-Za-z_]\w*(?:::<[^>]*>)?::)*)([a-z_]\w*)(?:::<[^>]*>)?\(')
CLAUSE = re.compile(r' *(requires|ensures|ghost|where|measure|decreases)\b')
BOUND = re.compile(r'(\w+): ([\w+ ]+)')


@dataclasses.dataclass(eq=False)
class Function:
    crate: str
    module: str
    line: int
    name: str
    owner: str = ''
    trait: str = ''
    params: dict = dataclasses.field(default_factory=dict)
    bounds: dict = dataclasses.field(default_factory=dict)
    gives: str = ''
    body: str = ''
    doc: str = ''

    @property
    def path(self):
        return '.'.join(part for part in (self.crate, self.owner or self.module, self.name) if part)


def plain(kind):
    """The name of a type without references, owners and arguments."""
    kind = re.sub(r"&(?:'\w+ )?(?:mut )?", '', kind.strip())
    inner = re.match(r'(?:Option|Result|Items|Vec|Shared|Rc|Box)<(.*)>$', kind)
    if inner:
        return plain(re.split(r',(?![^<]*>)', inner[1])[0])
    return re.match(r'[\w:]*', kind)[0].split('::')[-1]


def head_of(block, text):
    """The type of an impl block, the trait that it implements, and the bounds of its parameters."""
    bounds = dict(BOUND.findall(text.split('{')[0]))
    text = text.strip()
    if text.startswith('<'):
        depth = 0
        for at, char in enumerate(text):
            depth += (char == '<') - (char == '>')
            if depth == 0:
                text = text[at + 1:]
                break
    text = text.rstrip('{').strip()
    if block == 'trait':
        return '', plain(text), bounds
    if ' for ' in text:
        trait, owner = text.split(' for ', 1)
        return plain(owner), plain(trait), bounds
    return plain(text), '', bounds


def doc_above(lines, at):
    """The doc comment that stands above a line."""
    found = []
    while at and re.match(r'\s*(///|#\[)', lines[at - 1]):
        at -= 1
        if '///' in lines[at]:
            found.insert(0, lines[at].split('///', 1)[1].strip())
    return ' '.join(found)


class Sources:
    def __init__(self, top):
        lines = [line.split(':') for line in (top / 'crates.txt').read_text().splitlines()
                 if line and not line.startswith('#')]
        self.order = [name for name, _ in lines]
        self.stands_on = {name: rest.split() for name, rest in lines}
        self.functions, self.fields, self.uses = [], collections.defaultdict(dict), {}
        for crate in self.order:
            for path in sorted((top / 'crates' / crate / 'src').rglob('*.rt')):
                self.read(crate, path, '.'.join(path.relative_to(top / 'crates' / crate / 'src').with_suffix('').parts))
        self.by_name = collections.defaultdict(list)
        for function in self.functions:
            self.by_name[function.name].append(function)

    def read(self, crate, path, module):
        text = path.read_text(encoding='utf-8')
        for name, fields in STRUCT.findall(text):
            self.fields[crate, name] = {field: kind for field, kind in FIELD.findall(fields)}
        uses = {}
        for place, names in USE.findall(text):
            for name in re.findall(r'(\w+)(?: as (\w+))?', names):
                uses[name[1] or name[0]] = (place, name[0])
        self.uses[crate, module] = uses
        lines = text.split('\n')
        owner, trait, around = '', '', {}
        at = 0
        while at < len(lines):
            line = lines[at]
            if block := BLOCK.match(line):
                whole = line
                while '{' not in whole and not whole.rstrip().endswith(';'):
                    at += 1
                    whole += ' ' + lines[at].strip()
                owner, trait, around = head_of(block[1], re.sub(r'^(unsafe )?(impl|trait)', '', whole))
            elif line.startswith('}'):
                owner, trait, around = '', '', {}
            if head := HEAD.match(line):
                at = self.function(crate, module, lines, at, head, owner, trait, around)
            at += 1

    def function(self, crate, module, lines, at, head, owner, trait, around):
        indent, start = head[1], at
        signature, in_clauses, open_braces = [], False, 0
        while True:
            line = lines[at]
            in_clauses |= bool(CLAUSE.match(line))
            open_braces += line.count('{') - line.count('}') if in_clauses else 0
            signature.append(line.strip())
            if line in (indent + '{', indent + '{}') or line.endswith(';') and open_braces == 0:
                break
            if not in_clauses and line.endswith((' {', ' {}')):
                break
            at += 1
        sign = re.split(r' (?:requires|ensures|where|ghost)\b', ' '.join(signature))[0]
        sign = re.sub(r'^pub\([a-z]+\) ', '', sign)
        body = []
        if not lines[at].endswith((';', '{}')):
            while lines[at] != indent + '}':
                at += 1
                body.append(re.sub(r'//.*', '', lines[at]))
        inner = re.search(r'\((.*)\)(?: -> (.*?))?[ {;]*$', sign)
        params = {}
        if inner:
            for part in re.split(r',(?![^<(]*[>)])', inner[1]):
                name, _, kind = part.strip().partition(': ')
                params[name.replace('mut ', '')] = kind
        bounds = around | dict(BOUND.findall(sign.split('(')[0]))
        self.functions.append(Function(crate, module, start + 1, head[2], owner, trait, params, bounds,
                                       (inner[2] or '') if inner else '', '\n'.join(body), doc_above(lines, start)))
        return at

    def below(self, crate):
        """A crate with all that it stands on."""
        found = {crate}
        for name in self.stands_on[crate]:
            if name in self.order:
                found |= self.below(name)
        return found

    # which type an expression has, as far as names tell
    def field_of(self, crate, kind, field):
        for place in [crate, *self.stands_on.get(crate, ())]:
            if field in self.fields.get((place, kind), {}):
                return plain(self.fields[place, kind][field])
        for (place, name), fields in self.fields.items():
            if name == kind and field in fields:
                return plain(fields[field])
        return ''

    def kind_of(self, function, chain, local):
        parts = re.findall(r'\w+(?:\(\))?', chain)
        if not parts:
            return ''
        first = parts[0]
        kind = function.owner if first == 'self' else local.get(first) or plain(function.params.get(first, ''))
        for part in parts[1:]:
            if not kind:
                return ''
            if part.endswith('()'):
                found = self.methods(function, kind, part[:-2])
                kind = plain(found[0].gives) if len(found) == 1 else ''
            else:
                kind = self.field_of(function.crate, kind, part)
        return kind

    def sees(self, function, other):
        return other.crate == function.crate or other.crate in self.stands_on[function.crate]

    def methods(self, function, kind, name):
        bound = function.bounds.get(kind)
        if bound:
            traits = [word.strip() for word in bound.split('+')]
            return [other for other in self.by_name[name] if other.trait in traits and other.body]
        found = [other for other in self.by_name[name] if other.owner == kind]
        near = [other for other in found if self.sees(function, other)]
        return near or found

    def calls(self, function):
        """The functions that a body calls, in the order of its text."""
        local = {}
        for name, value in re.findall(r'let (?:mut )?(\w+) = &?(?:mut )?([\w.]+(?:\(\))?)[;?]', function.body):
            local[name] = self.kind_of(function, value, local)
        for name, kind in re.findall(r'let (?:mut )?(\w+) = (\w+)(?:::\w+\(| \{)', function.body):
            if kind[0].isupper():
                local[name] = kind
        uses = self.uses[function.crate, function.module]
        for match in CALL.finditer(function.body):
            path, name = match[1], match[2]
            before = function.body[:match.start()].rstrip()
            if before.endswith('.'):
                chain = re.search(r'((?:\w+(?:\(\))?\??\s*\.\s*)+)$', function.body[:match.start()])
                chain = re.sub(r'[\s?]', '', chain[1]).rstrip('.') if chain else ''
                kind = self.kind_of(function, chain, local)
                found = self.methods(function, kind, name) if kind else []
                if not found:
                    seen = [other for other in self.by_name[name] if other.owner and other.body
                            and self.sees(function, other)]
                    found = seen if len(seen) == 1 else []
            elif path:
                last = re.findall(r'(\w+)(?:::<[^>]*>)?::', path)[-1]
                last = uses.get(last, ('', last))[1]
                if last == 'Self':
                    last = function.owner
                found = self.methods(function, last, name)
                if not found:
                    found = [other for other in self.by_name[name] if not other.owner
                             and (other.module.split('.')[-1] == last or other.crate == last)]
            else:
                place = uses.get(name)
                real = place[1] if place else name
                found = [other for other in self.by_name[real] if not other.owner
                         and (other.crate == (place[0].split('::')[0] if place and not place[0].startswith('crate')
                                              else function.crate))]
                if place and place[0].startswith('crate::'):
                    near = [o for o in found if o.module == place[0][7:].replace('::', '.')]
                    found = near or found
                elif not place:
                    found = [o for o in found if o.module == function.module]
            yield from found
