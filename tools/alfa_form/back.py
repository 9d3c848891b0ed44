"""Documents as ALFA, compiled again and compared."""
import json
import typing

from xacml_form.normal import normal
from xacml_form.shown import shown

from .compiling import Compiler
from .preparing import UNSAID, Preparing, Unsayable
from .told import ERROR
from .writing import Writer


class Written(typing.NamedTuple):
    """What came of some documents: the file of ALFA, or None, and what was told of which: a weight, the number of the
    document, the pointer of a part and what."""

    text: typing.Optional[str]
    told: list


def stored(lines):
    """The documents that lines store, as those of a dump: of each module, kind, id and version the last."""
    found = {}
    for line in lines:
        command = json.loads(line) if line.strip() else {}
        if command.get('do') in ('policy.add', 'policy.replace'):
            (kind, body), = command['document'].items()
            found[command.get('module', 0), kind, body[f'{kind}Id'], body['Version']] = command['document']
        elif command.get('do') == 'policy.withdraw':
            found.pop((command.get('module', 0), command['kind'], command['id'], command['version']), None)
    return list(found.values())


def written(documents, namespace, is_kept=False):
    """The documents as one file, if all can be said, or if what can't is left out."""
    told, prepared = [], []
    for number, document in enumerate(documents):
        preparing = Preparing()
        try:
            made = preparing.document(document)
            Writer([made], namespace).text()
            prepared.append(made)
        except Unsayable as fault:
            preparing.tell(UNSAID, '/', str(fault))
        except (KeyError, TypeError, ValueError, AttributeError):
            preparing.tell(UNSAID, '/', 'this is no document that can be used: see `review check`')
        told += [(weight, number, pointer, what) for weight, pointer, what in preparing.told]
    stops = any(weight == UNSAID for weight, *_ in told)
    if stops and not is_kept or not prepared:
        return Written(None, told)
    text = Writer(prepared, namespace).text()
    fault = differs(text, prepared)
    return Written(text, told) if fault is None else Written(None, [*told, (UNSAID, None, '', fault)])


def differs(text, documents):
    """What a file that was written compiles to otherwise than to these documents; None where it is the same."""
    compiler = Compiler([('the ALFA that was written', text.encode())])
    found = [each.document for each in compiler.made()]
    if compiler.told.holds(ERROR):
        return next(line for line in compiler.told.lines() if f': {ERROR}: ' in line)
    wanted = sorted(shown(sortable(each)) for each in documents)
    others = sorted(shown(sortable(each)) for each in found)
    for one, other in zip(wanted, others):
        if one != other:
            return f'it comes back otherwise: {one[:200]} as {other[:200]}'
    return None if len(wanted) == len(others) else f'{len(others)} of {len(wanted)} documents come back'


def sortable(document):
    """A document in the form in which the service writes it, with keys in order."""
    return json.loads(json.dumps(normal(document), sort_keys=True))


