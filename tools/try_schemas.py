#!/usr/bin/python3
"""Tries the schemas of tools/schemas with what the sessions of the repository have, whose replies the gate sees to.

    try_schemas.py

What the program took each schema has to accept. What it refused for its form each schema has to refuse; where one
accepts it all the same, the reason stands in tools/pages/schemas.py. The status is 0 where all is so, 1 where
it isn't, and 3 where jsonschema (python3-jsonschema of Debian) isn't there."""
import collections
import json
import pathlib
import sys

sys.dont_write_bytecode = True
ROOT = pathlib.Path(__file__).resolve().parents[1]
sys.path.insert(0, str(ROOT / 'tools' / 'pages'))
import schemas  # noqa: E402

try:
    from jsonschema import Draft202012Validator
except ImportError:
    print('tools/try_schemas.py was not run: jsonschema isn\'t here (python3-jsonschema)')
    sys.exit(3)

# Refusals of a line's form: its shape, its command, its session.
SHAPE, COMMAND, SESSION, DOCUMENT, REQUEST = 3, 4, 5, 6, 14
# The first bytes of signs by which a stored line says how often a part of it comes.
STAND_FOR_OTHERS = {0xC2, 0xE2}


def validators():
    """A validator of each schema, each of which is itself one."""
    found = {}
    for path in sorted((ROOT / 'tools' / 'schemas').glob('*.json')):
        schema = json.loads(path.read_text())
        Draft202012Validator.check_schema(schema)
        found[path.stem] = Draft202012Validator(schema)
    return found


def exchanges():
    """Each line of the stored sessions, as bytes, with its reply, which is `None` where it is accepted untold."""
    line = None
    for text in (ROOT / 'crates' / 'conformance' / 'stdin').read_bytes().split(b'\n'):
        if text.startswith(b'-- '):
            continue
        if line is not None:
            yield line, read(text[2:]) if text.startswith(b'< ') else None
        line = text[2:] if text.startswith(b'> ') else None


class Written(float):
    """A number that isn't written as a whole one is, though to a schema it may be one."""


def number(text):
    return Written(text) if text == '-0' else int(text)


def refused_word(word):
    raise ValueError(word)


def read(line):
    """What a line is as JSON, or `None`."""
    try:
        return json.loads(line.decode(), parse_float=Written, parse_int=number, parse_constant=refused_word)
    except (ValueError, RecursionError):
        return None


def judged(of, counts):
    """What is wrong with the schemas, by each line and its reply."""
    for line, reply in exchanges():
        value = read(line)
        refused = (reply or {}).get('refused')
        if reply is not None and not of['reply'].is_valid(reply):
            yield f'reply.json refuses {json.dumps(reply)[:200]}'
        if not isinstance(value, dict) or refused in (1, 2) or STAND_FOR_OTHERS & set(line):
            continue
        accepted = of['line'].is_valid(value)
        counts['lines accepted' if accepted else 'lines refused'] += 1
        shown = line[:300].decode(errors='replace')
        if refused == DOCUMENT and 'document' in value:
            sub = reply['sub']
            if of['document'].is_valid(value['document']):
                counts[f'not told, sub-code {sub}'] += 1
                if sub not in schemas.REASONS and not has_written(value):
                    yield f'document.json accepts what is refused with {sub}: {shown}'
        elif refused == REQUEST:
            if of['request'].is_valid(value['request']):
                counts['not told, request'] += 1
        elif refused in (SHAPE, COMMAND, SESSION):
            if accepted and not has_written(value):
                yield f'line.json accepts what is refused with {refused}: {shown}'
        elif not accepted and refused is None:
            error = next(of['line'].iter_errors(value)).message
            yield f'line.json refuses what the program takes: {shown}: {error[:200]}'


def has_written(value):
    """Whether a number stands somewhere that isn't written as a whole one is."""
    if isinstance(value, dict):
        return any(map(has_written, value.values()))
    return isinstance(value, Written) or isinstance(value, list) and any(map(has_written, value))


def examples(of, counts):
    """What is wrong with the schemas, by the example."""
    for path in sorted((ROOT / 'examples').glob('*/policies/*.json')):
        counts['documents of examples'] += 1
        for error in of['document'].iter_errors(json.loads(path.read_text())):
            yield f'document.json refuses {path.name}: {error.message[:200]}'
    for path in sorted((ROOT / 'examples').glob('*/*.jsonl')):
        for line in path.read_text().splitlines():
            counts['lines of examples'] += 1
            if not of['line'].is_valid(json.loads(line)):
                yield f'line.json refuses a line of {path.name}: {line[:200]}'


def main():
    counts = collections.Counter()
    of = validators()
    wrong = list(judged(of, counts)) + list(examples(of, counts))
    told = ', '.join(f'{number} {what}' for what, number in sorted(counts.items()))
    print('\n'.join(wrong + [f'tools/schemas: {told}: {len(wrong)} wrong']))
    return 1 if wrong else 0


if __name__ == '__main__':
    sys.exit(main())
