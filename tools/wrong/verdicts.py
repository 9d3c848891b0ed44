"""What a check says of an edited function: which of its goals aren't proved, and so by what a wrong body is refused."""
import dataclasses
import re

# An answer that names what the edit took away shows nothing of the contract.
NAMES_WHAT_IS_GONE = re.compile(r'is not in scope|has no field|has no `|has no constructor|is no name')
ERROR = re.compile(r'(?:\./)?((?:src|specs|proofs)/\S+?):\d+:\d+: error(?:\[[\w-]+\])?: (?:`([^`]*)`: )?(.*)')
LEFT_OPEN = ('depends on a hole', 'no holes')
QUOTED = re.compile(r'`([^`]+)`')

REFUSED = ['refused by its clause', 'refused by an invariant', "refused by a callee's requires", 'refused by the language']
NOT_REFUSED, BY_A_PROOF, NOT_TRIED, BAD = 'NOT REFUSED', 'REFUSED BY A PROOF FILE ALONE', 'NOT TRIED', 'BAD EDIT'


@dataclasses.dataclass
class Verdict:
    """What became of a wrong body, and the goals that weren't proved, each in one word or two."""
    kind: str
    by: list
    said: str = ''


def goal_of(name):
    """What a goal asks for: `returns-clause-NAME`, `invariant NAME`, `requires FUNCTION`, `rule GOAL` of the language.

    A goal's name says where in the body it stands; left of it is what of the contract it is."""
    if re.search(r'(^|-)returns(-|$)', name):
        clause = re.search(r'-clause-([A-Za-z0-9_]+?)(-\d+)?$', name)
        return f'returns-clause-{clause[1]}' if clause else 'returns'
    if loop := re.search(r'(?:^|-)(loop(?:-[a-z_0-9]+?)?)-(?:init|preserved)', name):
        return f'invariant {loop[1]}'
    if name.startswith('invariant_of'):
        clause = re.search(r'-clause-([A-Za-z0-9_]+?)(-\d+)?$', name)
        return f'invariant {clause[1] if clause else name.removeprefix("invariant_of-")}'
    if name.endswith('-requires') or '-requires-' in name:
        return f'requires {name.partition("-requires")[0]}'
    return f'rule {name}'


def kind_of(goals):
    """The strongest that any of these goals says of a refusal."""
    words = [goal.split(' ')[0].split('-')[0] for goal in goals]
    return REFUSED[min({'returns': 0, 'invariant': 1, 'requires': 2}.get(word, 3) for word in words)]


def of(lines, crate, proof, members, status):
    """The verdict on the function, or the cycle of calls, of that name. members: the functions that it is."""
    told = [line for line in lines if any(line.startswith(f'fn {crate}::{name}: ') for name in members)]
    folder = f'proofs/{proof.replace("::", "/")}/'
    errors = [found for line in lines if (found := ERROR.match(line)) and found[1].startswith(folder)]
    if not told:
        front = next((line for line in lines if ERROR.match(line) or line.startswith('rattle: error')), '')
        return Verdict(BAD if status in (1, 2) and front else NOT_TRIED, [], front or f'no verdict, status {status}')
    said = next((line for line in told if not any(word in line for word in LEFT_OPEN)), told[0])
    state = said.split(': ', 1)[1]
    if state.startswith(LEFT_OPEN):
        return Verdict(NOT_REFUSED, [], state)
    if 'could not tell' in state:
        return Verdict(NOT_TRIED, [], state)
    gone = {found[2] for found in errors if NAMES_WHAT_IS_GONE.search(found[3])}
    false = {found[2] for found in errors if found[2]} - gone
    sought = re.search(r'`search` did not prove ((?:`[^`]+`(?:, )?)+)', state)
    false |= set(QUOTED.findall(sought[1])) if sought else set()
    stands = re.search(r'it stands on (.*?), which antt refuses', state)
    cited = {name.split('.')[-1] for name in QUOTED.findall(stands[1])} if stands else set()
    false |= {name for name in cited if name not in gone} if not errors else set()
    if not false:
        if gone:
            return Verdict(BY_A_PROOF, [], next(found[0] for found in errors)[:200])
        return Verdict(NOT_TRIED, [], state[:200])
    goals = sorted({goal_of(name) for name in false})
    return Verdict(kind_of(goals), goals)
