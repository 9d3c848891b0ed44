"""Makes files that are nearly as valid ones: an element or an attribute is dropped, doubled, moved, renamed or takes
what another one has."""
import copy
import random

from . import names, schema


class Mutator:
    """Changes one thing of a tree, or two; which is by chance."""

    def __init__(self, seed):
        self.random = random.Random(seed)
        self.ways = [
            self.drop_element,
            self.double_element,
            self.move_element,
            self.copy_element,
            self.swap_elements,
            self.rename_element,
            self.lift_element,
            self.drop_attribute,
            self.move_attribute,
            self.copy_attribute,
            self.rename_attribute,
            self.take_value,
            self.move_text,
            self.drop_text,
        ]

    def mutant(self, root):
        """Another tree, and how it was made."""
        made = copy.deepcopy(root)
        ways = [self.random.choice(self.ways) for _ in range(1 + (self.random.random() < 0.2))]
        for way in ways:
            way(made)
        return made, ' and '.join(way.__name__ for way in ways)

    def of_each_kind(self, root, seen):
        """Mutants in which the first element of each kind that wasn't seen, and its attributes, are dropped, doubled
        and moved."""
        for number, element in enumerate(root.iter()):
            kinds = [None, *element.attrib] if isinstance(element.tag, str) and element is not root else []
            for key in kinds:
                if (element.tag, key) not in seen:
                    seen.add((element.tag, key))
                    for way in ('drop', 'double', 'move'):
                        made = copy.deepcopy(root)
                        self.one_of_kind(made, list(made.iter())[number], key, way)
                        yield made, f'{way} {element.tag.rpartition("}")[2]} {key or ""}'

    def one_of_kind(self, root, each, key, way):
        """Drops, doubles or moves an element, or one attribute of it."""
        other = self.one(root, below=False)
        if key is not None:
            text = each.get(key)
            if way != 'double':
                del each.attrib[key]
            if way != 'drop':
                other.set(key, text)
        elif way == 'double':
            each.addnext(copy.deepcopy(each))
        else:
            parent = root if each is other or each in other.iterancestors() else other
            each.getparent().remove(each)
            if way == 'move':
                self.place(parent, each)

    def elements(self, root):
        """The elements of a tree, in their order."""
        return [each for each in root.iter() if isinstance(each.tag, str)]

    def one(self, root, below=True):
        """An element of a tree, its root only where that is asked for."""
        found = self.elements(root)
        return self.random.choice(found[1:] if below and len(found) > 1 else found)

    def place(self, parent, child):
        """Puts an element somewhere among the children of another."""
        parent.insert(self.random.randint(0, len(parent)), child)

    def drop_element(self, root):
        """An element is left out."""
        each = self.one(root)
        if each is not root:
            each.getparent().remove(each)

    def double_element(self, root):
        """An element stands twice among its siblings."""
        each = self.one(root)
        if each is not root:
            self.place(each.getparent(), copy.deepcopy(each))

    def move_element(self, root):
        """An element stands in another one."""
        each, parent = self.one(root), self.one(root, below=False)
        if each is not root and each not in parent.iterancestors() and each is not parent:
            self.place(parent, each)

    def copy_element(self, root):
        """An element stands in another one too."""
        each, parent = copy.deepcopy(self.one(root)), self.one(root, below=False)
        self.place(parent, each)

    def swap_elements(self, root):
        """The children of an element stand in another order."""
        parent = self.random.choice([each for each in self.elements(root) if len(each) > 1] or [root])
        children = list(parent)
        self.random.shuffle(children)
        parent[:] = children

    def rename_element(self, root):
        """An element has another name."""
        self.one(root).tag = f'{{{names.NAMESPACE}}}{self.random.choice(list(schema.ELEMENTS))}'

    def lift_element(self, root):
        """An element's children stand in its place."""
        each = self.one(root)
        if each is not root:
            parent, at = each.getparent(), each.getparent().index(each)
            parent[at : at + 1] = list(each)

    def with_attributes(self, root):
        """An element that has attributes, if there is one."""
        return self.random.choice([each for each in self.elements(root) if each.attrib] or [root])

    def attribute(self, element):
        """The name of one attribute of an element."""
        return self.random.choice(list(element.attrib) or ['Version'])

    def drop_attribute(self, root):
        """An attribute is left out."""
        each = self.with_attributes(root)
        each.attrib.pop(self.attribute(each), None)

    def move_attribute(self, root):
        """An attribute stands in another element."""
        each, other = self.with_attributes(root), self.one(root, below=False)
        key = self.attribute(each)
        other.set(key, each.attrib.pop(key, ''))

    def copy_attribute(self, root):
        """An attribute stands in another element too."""
        each, other = self.with_attributes(root), self.one(root, below=False)
        key = self.attribute(each)
        other.set(key, each.get(key, ''))

    def rename_attribute(self, root):
        """An attribute has the name of another one."""
        each, other = self.with_attributes(root), self.with_attributes(root)
        key = self.attribute(each)
        each.set(self.attribute(other), each.attrib.pop(key, ''))

    def take_value(self, root):
        """An attribute has the value of another one, of the same name or of any."""
        each = self.with_attributes(root)
        key = self.attribute(each)
        same = [other for other in self.elements(root) if key in other.attrib]
        other = self.random.choice(same) if same and self.random.random() < 0.7 else self.with_attributes(root)
        each.set(key, other.get(key) or other.get(self.attribute(other), ''))

    def texts(self, root):
        """The elements that have a text, if there is one."""
        return [each for each in self.elements(root) if each.text and each.text.strip()] or [root]

    def move_text(self, root):
        """Two elements have each other's text."""
        each, other = self.random.choice(self.texts(root)), self.one(root, below=False)
        if self.random.random() < 0.5:
            other = self.random.choice(self.texts(root))
        each.text, other.text = other.text, each.text

    def drop_text(self, root):
        """A text is left out."""
        self.random.choice(self.texts(root)).text = None
