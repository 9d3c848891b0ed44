"""Names: what is declared in all files together, and what a name means where it stands."""
import difflib

from xacml_form import names

from . import library, tree

WHAT = {
    'policyCombinator': 'combining algorithm', 'ruleCombinator': 'combining algorithm', 'embedded': 'policy',
    'policyset': 'policy or set',
}
UNSURE = 'the URI of `{}` is taken as the one whose last word it has'


def an(word):
    """A word with its article."""
    return ('an ' if word[0] in 'aeiou' else 'a ') + word


class World:
    """All that is declared, by its kind and its whole name."""

    def __init__(self, told):
        self.told, self.kinds = told, {}
        for kind, listed in [('type', library.TYPES), ('category', library.CATEGORIES)]:
            self.kinds[kind] = {f'{library.SYSTEM}.{name}': uri for name, uri in listed.items()}
        for kind, rules in [('ruleCombinator', names.RULES), ('policyCombinator', names.POLICIES)]:
            listed = library.ALGORITHMS[rules]
            self.kinds[kind] = {f'{library.SYSTEM}.{name}': uri for name, uri in listed.items()}
        listed = {**library.FUNCTIONS, **library.REWRITTEN, **library.MISSING, **library.SPELLED}
        self.kinds['function'] = {f'{library.SYSTEM}.{name}': name for name in listed}

    def known(self, kind):
        """What is declared of a kind."""
        return self.kinds.setdefault(kind, {})

    def declare(self, kind, whole, found, place):
        """Notes something by its whole name; a second one is told, with where the first stands. What the library has may
        be declared by a file of the library, whose URIs are taken then."""
        first = self.known(kind).get(whole)
        if first is None or isinstance(first, str):
            self.known(kind)[whole] = found
        else:
            self.told.error(place, f'`{whole}` is declared a second time; first at {self.told.at(first.name.place)}')

    def gather(self, block):
        """Notes all that stands in a block itself."""
        for part in block.parts:
            if isinstance(part, tree.Block):
                continue
            if part.name is not None:
                kind = 'policy' if isinstance(part, tree.Policy) else part.kind
                self.declare(kind, block.within(part.name.text), part, part.name.place)
            elif isinstance(part, tree.Rule):
                self.told.error(part.place, 'a rule in a namespace has a name, by which a policy takes it')
            if isinstance(part, tree.Policy):
                self.gather_members(part, block.within(part.name.text) if part.name else block.name)

    def gather_members(self, policy, whole):
        """Notes the policies that stand inside of a set, which no reference finds."""
        for member in policy.members:
            if isinstance(member, tree.Policy) and member.name:
                inner = f'{whole}.{member.name.text}'
                self.declare('embedded', inner, member, member.name.place)
                self.gather_members(member, inner)

    # ---- looking up

    def find(self, kind, name, block):
        """What a name means in a block, or None; two imports that give different things are told, as None too."""
        known = self.known(kind)
        for outer in outwards(block.name):
            found = f'{outer}.{name.text}' if outer else name.text
            if found in known:
                return known[found]
        around = block
        while around is not None:
            given = self.imported(known, name, around)
            if given:
                return self.one_of(given, known, name)
            around = around.outer
        return known.get(f'{library.SYSTEM}.{name.text}')

    def imported(self, known, name, block):
        """The whole names that the imports of a block make of a name, of what is declared."""
        given = {}
        for each in block.imports:
            first = name.text.split('.')[0]
            if each.is_all:
                whole = f'{each.name.text}.{name.text}'
            elif each.name.text.rpartition('.')[2] == first:
                whole = each.name.text + name.text[len(first):]
            else:
                continue
            if whole in known:
                given.setdefault(whole, each)
        return given

    def one_of(self, given, known, name):
        """What imports give: one thing."""
        if len(given) > 1:
            ways = [f'{whole} by the import at {self.told.at(each.name.place)}' for whole, each in given.items()]
            self.told.error(name.place, f'`{name.text}` is {" and ".join(ways)}: write the whole name')
            return AMBIGUOUS
        return known[next(iter(given))]

    def near(self, kind, name, block):
        """A name that was perhaps meant, as a question."""
        short = {}
        for whole in self.known(kind):
            short.setdefault(whole.rpartition('.')[2], whole)
            short[whole] = whole
        same = [each for each in short if each.lower() == name.text.lower()]
        close = same or difflib.get_close_matches(name.text, short, 1)
        if not close:
            return ''
        found = close[0]
        if self.find(kind, tree.Word(found, name.place), block) in (None, AMBIGUOUS):
            found = short[found]
        return f'; did you mean `{found}`?'

    def need(self, kind, name, block, what=None):
        """What a name means; where it means nothing that is told, and None is given."""
        found = self.find(kind, name, block)
        if found is None:
            what = what or WHAT.get(kind, kind)
            self.told.error(name.place, f'no {what} is called `{name.text}`' + self.near(kind, name, block))
        return None if found is AMBIGUOUS else found

    def uri(self, kind, name, block):
        """The URI that a name of a type, a category and so on stands for, or None."""
        found = self.need(kind, name, block)
        if found is not None and not isinstance(found, str):
            return found.uri.text
        short = name.text.rpartition('.')[2]
        if found and kind == 'category' and short in library.UNSURE_CATEGORIES:
            self.told.note(name.place, UNSURE.format(short))
        return found


AMBIGUOUS = object()


def outwards(name):
    """A namespace, and those around it."""
    while name:
        yield name
        name = name.rpartition('.')[0]
    yield ''
