"""Decisions of policies that were rewritten beside what a reading of the standard says of them."""
from . import places, policies
from .driver import SUBJECT, literal, policy

FAILS = 'Indeterminate'
DECISION = {True: 'Permit', False: 'NotApplicable', FAILS: 'Indeterminate'}


def rewritten(xml, function_name):
    """The document that the tool makes of a policy; it has to say that it rewrote the function, and nothing else."""
    root, where = places.read(xml)
    told = places.Told('trial')
    document = policies.Policies(told, where).document(root)
    weights = {weight for weight, _, _ in told.things}
    is_told = any(function_name in what for _, what, _ in told.things)
    assert weights <= {places.REWRITTEN, places.WARNING} and is_told, told.lines()
    return document


class Grid:
    """Compares decisions of rewritten policies with what a reading says, and counts."""

    def __init__(self, service):
        self.service, self.count, self.wrong, self.version = service, 0, [], 0

    def compare(self, name, condition, cases, is_target=False):
        """Cases are pairs of attributes and what the reading says of a condition, or of a Match."""
        self.version += 1
        xml = policy(literal('boolean', 'true') if is_target else condition, version=str(self.version))
        if is_target:
            xml = xml.replace(b'<Target/>', f'<Target><AnyOf><AllOf>{condition}</AllOf></AnyOf></Target>'.encode())
        refused = self.service.root(rewritten(xml, name))
        if refused:
            self.wrong.append(f'{name}: the document is refused: {refused}')
            return
        for (attributes, expected), decision in zip(cases, self.service.decisions([each for each, _ in cases])):
            self.count += 1
            if decision != DECISION[expected]:
                self.wrong.append(
                    f'{name}: {condition[:300]} of {attributes}: {decision}, and not {DECISION[expected]}'
                )


def attributes(**bags):
    """Attributes of the subject by id: the type and the values; an empty bag is left out."""
    return [(SUBJECT, one, kind, values) for one, (kind, values) in bags.items() if values]
