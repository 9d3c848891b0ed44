"""The modules of definitions, which stand in crates/*/specs, and what is reached from some: by imports of whole modules
(`closure`), or definition by definition (`Followed`)."""
import pathlib
import re

ROOT = pathlib.Path(__file__).resolve().parents[2]
CRATES = ROOT / 'crates'
USE = re.compile(r'^\s*(pub )?use ([^\s{}]+?)(?:\.\{([^}]*)\})?(?: as (\w+))?$', re.M)
IMPORT = re.compile(r'^\s*ghost use ([^\s{};]+?)(?:\.\{([^}]*)\})?(?: as (\w+))?;$', re.M)
TOP = re.compile(r'^(?:(?:pub|abbrev|unfoldable) )*(?:(?:record|data) (\w+)|([\w◌>=]+) :)', re.M)
MEMBER = re.compile(r'^  (?:pub )?(\w+) :', re.M)
TOKEN = re.compile(r'[A-Za-z_]\w*(?:\.\w+)*|[^\s\w(){},:=.;\[\]]+')


# ---- modules

def is_node(path):
    """Whether a file only names the modules below it."""
    return all(line.startswith('pub mod ') for line in path.read_text().split('\n') if line)


def modules():
    """The name of each module of definitions, with its file."""
    found = {}
    for specs in sorted(CRATES.glob('*/specs')):
        for path in sorted(specs.rglob('*.antt')):
            if not is_node(path):
                name = '.'.join(path.relative_to(specs).with_suffix('').parts)
                found[f'Rattle.{specs.parent.name}.specs.{name}'] = path
    return found


def without_comments(text):
    return re.sub(r'(?m)^\s*--.*\n', '', text)


def lines(path):
    """How many lines a file has without imports, comments and blanks."""
    return sum(1 for line in USE.sub('', without_comments(path.read_text())).split('\n') if line.strip())


def imports(path):
    """What a file imports: of each line the module, its words, and the name that it is given, if it is given one."""
    found = []
    for line in USE.finditer(without_comments(path.read_text())):
        words = [word.strip() for word in (line[3] or '').split(',') if word.strip()]
        found.append((line[2], words, line[4]))
    return found


def split(name):
    """The crate of a module, and its name in the crate."""
    crate, _, module = name.removeprefix('Rattle.').partition('.specs.')
    return crate, module


def closure(starts, known):
    """The modules that are reached from some, and what is imported of other files on the way: each with its words."""
    reached, others, left = set(), {}, list(starts)
    while left:
        name = left.pop()
        if name in reached:
            continue
        reached.add(name)
        for module, words, _ in imports(known[name]):
            if module in known:
                left.append(module)
            else:
                others.setdefault(module, set()).update(words)
    return reached, others


def by_crate(names):
    """The modules of each crate."""
    found = {}
    for name in sorted(names):
        crate, module = split(name)
        found.setdefault(crate, []).append(module)
    return found


def type_lines(crate, name):
    """How many lines a type of the code has, without comments and attributes."""
    for path in sorted((CRATES / crate / 'src').rglob('*.rt')):
        of_type = rf'^(?:pub(?:\([a-z]+\))? )?(?:struct|enum) {name}\b[^;{{]*(?:;|\{{\n.*?^\}})'
        found = re.search(of_type, path.read_text(), re.M | re.S)
        if found:
            return sum(1 for line in found[0].split('\n') if line.strip() and not re.match(r'\s*(//|#\[)', line))
    return 0


def is_apart(name):
    """Whether a module has words of private contracts and of proofs alone."""
    return '.specs.proofs_only.' in name


# ---- definitions

def without_imports(path):
    """The text of a file without imports and comments."""
    return USE.sub('', without_comments(path.read_text()))


def defined_in(text):
    """The words that a text defines, fields and constructors among them."""
    return {a or b for a, b in TOP.findall(text)} | set(MEMBER.findall(text))


def definitions_of(path):
    """The definitions of a file: of each the words that it defines, and its text."""
    found = []
    for line in without_imports(path).split('\n'):
        if TOP.match(line):
            found.append([])
        if found:
            found[-1].append(line)
    texts = ['\n'.join(lines_of) for lines_of in found]
    return [({word.strip('◌') for word in defined_in(text)}, text) for text in texts]


def scope(path):
    """The words that a file imports, each with its module and its name there; and the modules that it gives a name."""
    words_of, modules_of = {}, {}
    for module, words, alias in imports(path):
        if alias:
            modules_of[alias] = module
        for word in words:
            there, _, here = word.partition(' as ')
            words_of[(here or there).strip('◌')] = (module, there.strip('◌'))
    return words_of, modules_of


class Followed:
    """Which definitions those of a module rest on, one after the other."""

    def __init__(self, known):
        self.known = known
        self.parts = {name: definitions_of(path) for name, path in known.items()}
        self.scopes = {name: scope(path) for name, path in known.items()}

    def place(self, module, word):
        """Where a word of a module is defined, there or where it is passed on from, if in a module of definitions."""
        while module in self.parts:
            for number, (words, _) in enumerate(self.parts[module]):
                if word in words:
                    return module, number
            if word not in self.scopes[module][0]:
                return None
            module, word = self.scopes[module][0][word]
        return None

    def named(self, module, token):
        """Where the definition stands that a token in a module names."""
        words_of, modules_of = self.scopes[module]
        first, *rest = token.split('.')
        if first in modules_of and rest:
            return self.place(modules_of[first], rest[0])
        return self.place(*words_of.get(first, (module, first)))

    def named_by(self, at):
        """Where the definitions stand that one of a module names, each with the token by which it does."""
        tokens = sorted(set(TOKEN.findall(self.parts[at[0]][at[1]][1])))
        return [(place, token) for token in tokens if (place := self.named(at[0], token))]

    def reached(self, starts, goes_on=lambda place: True):
        """The definitions on which some rest, as far as it goes on; and the others that these name, each with the
        tokens by which they do."""
        found, beyond, left = set(), {}, list(starts)
        while left:
            at = left.pop()
            if at in found:
                continue
            found.add(at)
            for place, token in self.named_by(at):
                if goes_on(place):
                    left.append(place)
                else:
                    beyond.setdefault(place, set()).add(token)
        return found, beyond

    def clause(self, path, name):
        """Where the definitions stand that the contract of a public function names."""
        text = path.read_text()
        words_of, modules_of = {}, {}
        for module, words, alias in IMPORT.findall(text):
            if alias:
                modules_of[alias] = module
            for word in filter(None, (word.strip() for word in words.split(','))):
                words_of[word.strip('◌')] = module
        contract = text.split(f'pub fn {name}')[1].split('\n{\n')[0]
        places = set()
        for token in TOKEN.findall(contract):
            first, *rest = token.split('.')
            if first in modules_of and rest:
                places.add(self.place(modules_of[first], rest[0]))
            elif first in words_of:
                places.add(self.place(words_of[first], first))
        return places - {None}

    def count(self, at):
        """How many lines a definition has."""
        return sum(1 for line in self.parts[at[0]][at[1]][1].split('\n') if line.strip())

    def types_of(self, places):
        """The types of the code that some definitions name: of each its crate and its name."""
        found = set()
        for module, number in places:
            text = self.parts[module][number][1]
            for other, words, _ in imports(self.known[module]):
                crate, name = split(other)
                if not name.startswith('declared.') or not (CRATES / crate).is_dir():
                    continue
                parts_of = name.split('.')
                if parts_of[-1] == 'TheVariants':
                    parts_of.pop()
                if any(re.search(rf'\b{re.escape(word.split(" as ")[-1])}\b', text) for word in words) or not words:
                    found.add((crate, parts_of[-1]))
        return found
