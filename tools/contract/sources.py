"""Functions and types as the texts of crates have them."""
import dataclasses
import re

HEAD = re.compile(r'^((?: {4})?)(pub(?:\([a-z]+\))? )?(?:const |unsafe )*fn (?:r#)?([A-Za-z0-9_]+)')
BLOCK = re.compile(r'^(?:unsafe )?(impl|trait)\b(.*)')
CLAUSE = re.compile(r'^ *(requires|ensures|ghost|where)\b')
STRUCT = re.compile(r'^(?:pub(?:\([a-z]+\))? )?struct (\w+)[^;{(]*\{\n(.*?)^\}', re.M | re.S)
FIELD = re.compile(r'^ {4}(?:pub(?:\([a-z]+\))? )?(\w+): (.*?),?$', re.M)
MODEL = re.compile(r'^impl\b[^\n]*?\bModel for (\w+)[^\n]*\{\n(.*?)^\}', re.M | re.S)
VALUE = re.compile(r'ghost Value = \{ (\w+)')
RECORD = re.compile(r'^pub record (\w+)[^\n]*where\n((?:  [^\n]*\n|\n)+)', re.M)
USE = re.compile(r'^(?:pub )?use ((?:ent|memo|lint|script|law|cli)_\w+)::([^;]+);', re.M)
SPEC_FIELD = re.compile(r'^  (?:pub )?(\w+) : (.*)', re.M)


@dataclasses.dataclass
class Function:
    """A function with its clauses: where it stands, what its head says, and what the reading of it adds."""
    crate: str
    file: str
    line: int
    name: str
    is_public: bool
    around: str
    signature: str
    clauses: list
    uses: dict = dataclasses.field(default_factory=dict)
    given: dict = dataclasses.field(default_factory=dict)
    sort: str = ''


def functions_of(crate):
    """The functions of a crate that stand in its sources; those of traits and of their impls aren't public."""
    for path in sorted((crate / 'src').rglob('*.rt')):
        text = path.read_text(encoding='utf-8')
        lines = text.split('\n')
        uses = {name: of for of, names in USE.findall(text) for name in re.findall(r'\w+', names)}
        around, in_trait = '', False
        for at, line in enumerate(lines):
            if block := BLOCK.match(line):
                around = block[2].strip().rstrip('{').strip()
                in_trait = block[1] == 'trait' or ' for ' in around
            elif line.startswith('}'):
                around, in_trait = '', False
            if head := HEAD.match(line):
                signature, clauses = read_head(lines, at, head[1])
                is_public = (head[2] or '') == 'pub ' and not in_trait
                yield Function(crate.name, str(path.relative_to(crate)), at + 1, head[3], is_public,
                               around if head[1] else '', signature, clauses, uses)


def read_head(lines, at, indent):
    """What stands between `fn` and the body: the signature, and each clause on one line."""
    signature, clauses = [], []
    for line in lines[at:]:
        if line in (indent + '{', indent + '{}'):
            break
        if CLAUSE.match(line):
            clauses.append(line.strip())
        elif clauses:
            clauses[-1] += ' ' + line.strip()
        else:
            signature.append(line.strip())
            if line.endswith((' {', ' {}', ';')):
                break
    return ' '.join(signature), clauses


def types_of(top):
    """The fields of each type, by crate and name, each with its own type: those of its value in clauses, where it has a
    model, else its own. A model that is no record has none, and one that shows nothing has `()`."""
    records, found = {}, {}
    for path in sorted(top.glob('crates/*/specs/**/*.antt')):
        crate = path.relative_to(top / 'crates').parts[0]
        for name, fields in RECORD.findall(path.read_text(encoding='utf-8')):
            records[crate, name] = dict(SPEC_FIELD.findall(fields))
    for path in sorted(top.glob('crates/*/src/**/*.rt')):
        crate = path.relative_to(top / 'crates').parts[0]
        text = path.read_text(encoding='utf-8')
        for name, fields in STRUCT.findall(text):
            found[crate, name] = {field: kind for field, kind in FIELD.findall(fields) if kind != 'Global'}
        for name, body in MODEL.findall(text):
            value = VALUE.search(body)
            shown = value[1] if value else ''
            near = records.get((crate, shown)) or next((records[key] for key in records if key[1] == shown), None)
            found[crate, name] = {'()': ''} if shown == 'Unit' else near or {}
    return records | found
