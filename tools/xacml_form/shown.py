"""Documents as they are written: in files, and as lines that store them."""
import json

MOST_OF_A_LINE = 1048576


def shown(value):
    """JSON on one line, as short as it can be."""
    return json.dumps(value, ensure_ascii=False, separators=(',', ':'))


def indented(document):
    """A document as it stands in a file."""
    return json.dumps(document, ensure_ascii=False, indent=2) + '\n'


def reference_to(found, documents):
    """The reference to the document of an id, by the kind of the one that has it."""
    kinds = [kind for document in documents for kind, body in document.items() if body.get(f'{kind}Id') == found]
    return {f'{kinds[-1]}IdReference': {'Id': found}} if kinds else None


def write_lines(documents, root, say):
    """Writes the lines that store documents, and the one that makes a reference the root."""
    lines = [{'do': 'policy.add', 'document': document} for document in documents]
    lines += [{'do': 'root.set', 'reference': root}] if root else []
    for line in lines:
        print(shown(line))
        if len(shown(line).encode()) > MOST_OF_A_LINE:
            say(f'a line of more than {MOST_OF_A_LINE} bytes, which the service refuses')
