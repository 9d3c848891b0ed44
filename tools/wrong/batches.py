"""Which bodies stand in one check: any number beside their functions, and of those within them at most one to a
function, and none whose function calls an edited one."""
import dataclasses
import pathlib

from . import beside
from .edits import Edit, Fault, changed_lines, texts_of

# So many bodies stand in one check at most: each adds to the memory that it takes.
MOST = 20


@dataclasses.dataclass
class Body:
    """A wrong body, or the right one of its shape: the function that it is put into, and the name under which it is
    checked, which is that of a copy where it stands beside its function."""
    edit: Edit
    as_control: bool
    function: str
    is_beside: bool = False
    number: int = 0

    @property
    def label(self):
        return self.edit.label + (' (control)' if self.as_control else '')

    @property
    def tried(self):
        return f'{self.function}_tried_{self.number}' if self.is_beside else self.function


def body_of(edit, functions, as_control=False):
    """The body that an edit makes; its places all have to be in one function, or in one cycle of calls."""
    texts = texts_of(edit.crate)
    found = set()
    for path, made in edit.applied(texts, as_control).items():
        if path.startswith('src/'):
            lines = texts(path).split('\n')
            found |= {functions.at(pathlib.Path(path), lines, at) for at in changed_lines(texts(path), made)}
    if len({functions.proof_of(name) for name in found}) != 1:
        raise Fault(f'it changes {" and ".join(sorted(found)) or "no function"}, and not one function')
    name = min(found)
    return Body(edit, as_control, name, len(found) == 1 and beside.can_stand(functions, name, edit))


def apart(one, other, functions):
    """Whether two bodies can't be seen in one check."""
    if one.is_beside and other.is_beside:
        return False
    return (functions.proof_of(one.function) == functions.proof_of(other.function)
            or functions.calls(one.function, other.function) or functions.calls(other.function, one.function))


class Batch:
    """Bodies that stand in one copy of their crate, and the texts of it that those within their functions make."""

    def __init__(self, crate):
        self.crate, self.bodies, self.made = crate, [], {}

    def text(self, path):
        return self.made[path] if path in self.made else texts_of(self.crate)(path)

    def takes(self, body, functions):
        """Puts a body in, if it can be seen beside those that are here."""
        if len(self.bodies) >= MOST or any(apart(body, other, functions) for other in self.bodies):
            return False
        if body.is_beside:
            body.number = sum(other.function == body.function for other in self.bodies)
        else:
            try:
                self.made |= body.edit.applied(self.text, body.as_control)
            except Fault:
                return False
        self.bodies.append(body)
        return True

    def beside(self):
        """The bodies that stand beside their functions."""
        return [body for body in self.bodies if body.is_beside]


def alone(body):
    """The batch of one body."""
    batch = Batch(body.edit.crate)
    body = dataclasses.replace(body, number=0)
    if not body.is_beside:
        batch.made = body.edit.applied(batch.text, body.as_control)
    batch.bodies = [body]
    return batch


def in_batches(crate, bodies, functions):
    """The bodies in as few checks as a look at one after another gives."""
    batches = []
    for body in bodies:
        if not any(batch.takes(body, functions) for batch in batches):
            batches.append(Batch(crate))
            batches[-1].takes(body, functions)
    return batches
