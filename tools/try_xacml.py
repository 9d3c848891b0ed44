#!/usr/bin/python3
"""Tries xacml.py with the review program.

    try_xacml.py PROGRAM [--documents N] [--mutants N] [--older N] [--wrong]

It brings in the three policies of xacml_form/examples and asks them what was reckoned, the forty, of which the page
says what becomes, and forty ordinary ones, which have to decide as meant, without a warning of `review check`; gives it
files that are no XACML 3.0, and N that are nearly as these, the forty and random policies (3,000; no more than in a
minute), where what isn't told has to decide as an evaluator of the XML does; compares each rewriting with a direct
reading of the standard's function; asks forty policies of XACML 1.0 to 2.0 N requests each (25), which have to decide
as an evaluator of these versions does; takes documents with each function, those of the repository's sessions and N
random ones (1,000) to XML and back; takes requests and responses over; and gives it files that are made to hurt. With
--wrong it tries alone whether wrong forms of what is rewritten are seen (a minute). The status is 0 where all is as it
should be, 1 where something isn't, and 3 where lxml (python3-lxml of Debian) isn't there."""
import argparse
import json
import os
import pathlib
import subprocess
import sys
import tempfile

try:
    from lxml import etree
except ImportError:
    print('tools/xacml.py was not tried: there is no lxml (python3-lxml of Debian)')
    sys.exit(3)
from xacml_form import (
    driver,
    names,
    try_documents,
    try_forty,
    try_grammar,
    try_hostile,
    try_mutants,
    try_older,
    try_ordinary,
    try_rewriting,
    try_told,
    try_words,
    try_wrong,
)

HERE = pathlib.Path(__file__).resolve().parent
TOOL, SCHEMA, EXAMPLES = HERE / 'xacml.py', HERE / 'xacml_form' / 'xacml.rng', HERE / 'xacml_form' / 'examples'
SUBJECT, RESOURCE, ENVIRONMENT = (names.CATEGORIES[key] for key in ('AccessSubject', 'Resource', 'Environment'))
NOW = 'urn:oasis:names:tc:xacml:1.0:environment:current-'
MOST_SECONDS = 60
RESOURCE_ID = 'urn:oasis:names:tc:xacml:1.0:resource:resource-id'

# What is told of each policy: how often each weight; and what its mended form answers: attributes and the decision.
RECORD = (RESOURCE, 'kind', 'string', ['record'])
TOLD = {
    'records': {'rewritten': 5, 'times': 1, 'not looked at': 1},
    'market': {'by hand': 3, 'warning': 1, 'not looked at': 1},
    'night': {'rewritten': 3, 'by hand': 2, 'times': 1, 'not looked at': 1},
}
ANSWERS = {
    'records': [
        ([], 'NotApplicable'),
        ([RECORD], 'Deny'),
        (
            [
                RECORD,
                (SUBJECT, 'department', 'string', ['surgery', 'heart']),
                (RESOURCE, 'department', 'string', ['eyes', 'heart']),
            ],
            'Permit',
        ),
        (
            [RECORD, (SUBJECT, 'department', 'string', ['surgery']), (RESOURCE, 'department', 'string', ['eyes'])],
            'Deny',
        ),
        ([RECORD, (SUBJECT, 'role', 'string', ['desk']), (ENVIRONMENT, NOW + 'time', 'time', ['08:00:00'])], 'Permit'),
        ([RECORD, (SUBJECT, 'role', 'string', ['desk']), (ENVIRONMENT, NOW + 'time', 'time', ['18:00:01'])], 'Deny'),
        ([RECORD, (SUBJECT, 'role', 'string', ['desk'])], 'Deny'),
    ],
    'market': [
        (
            [
                (SUBJECT, 'mail', 'string', ['ann@example.org']),
                (RESOURCE, 'amount', 'integer', [100]),
                (RESOURCE, RESOURCE_ID, 'string', ['food/bread']),
            ],
            'Permit',
        ),
        (
            [
                (SUBJECT, 'mail', 'string', ['ann@example.org']),
                (RESOURCE, 'amount', 'integer', [101]),
                (RESOURCE, RESOURCE_ID, 'string', ['food/bread']),
            ],
            'Deny',
        ),
        (
            [
                (SUBJECT, 'mail', 'string', ['ann@example.org']),
                (RESOURCE, 'amount', 'integer', [5]),
                (RESOURCE, RESOURCE_ID, 'string', ['cars']),
            ],
            'NotApplicable',
        ),
        ([(SUBJECT, 'mail', 'string', ['ann@example.org'])], 'Indeterminate'),
        ([(SUBJECT, 'mail', 'string', ['bob@example.com']), (RESOURCE, 'amount', 'integer', [101])], 'NotApplicable'),
    ],
    'night': [
        (
            [
                (ENVIRONMENT, NOW + 'dateTime', 'dateTime', ['2025-12-31T23:29:59']),
                (ENVIRONMENT, NOW + 'time', 'time', ['23:29:59']),
            ],
            'Deny',
        ),
        (
            [
                (ENVIRONMENT, NOW + 'dateTime', 'dateTime', ['2025-12-31T23:30:00']),
                (ENVIRONMENT, NOW + 'time', 'time', ['23:30:00']),
                (SUBJECT, 'role', 'string', ['guard']),
            ],
            'Permit',
        ),
        (
            [
                (ENVIRONMENT, NOW + 'dateTime', 'dateTime', ['2026-06-01T12:00:00']),
                (ENVIRONMENT, NOW + 'time', 'time', ['12:00:00']),
                (SUBJECT, 'role', 'string', ['guard']),
            ],
            'NotApplicable',
        ),
        (
            [
                (ENVIRONMENT, NOW + 'dateTime', 'dateTime', ['2026-06-01T12:00:00']),
                (ENVIRONMENT, NOW + 'time', 'time', ['12:00:00']),
                (SUBJECT, 'role', 'string', ['guard']),
                (SUBJECT, 'carries', 'string', ['badge']),
            ],
            'Permit',
        ),
        ([], 'Indeterminate'),
    ],
}


def ran(*words, given=None):
    return subprocess.run([sys.executable, str(TOOL), *words], capture_output=True, text=True, input=given)


def examples(program):
    """The three policies: what is told of them, and what they answer once they are mended."""
    wrong, count = [], 0
    for stem, answers in ANSWERS.items():
        first = ran('policy', str(EXAMPLES / f'{stem}.xml'))
        told = {}
        for line in first.stderr.splitlines():
            weight = line.split(': ')[1] if not line.startswith('xacml.py: ') else 'not looked at'
            told[weight] = told.get(weight, 0) + 1
        page = (HERE.parent / 'docs' / 'MIGRATING.md').read_text()
        told_here = {line.rpartition('/examples/')[2] for line in first.stderr.splitlines()}
        of_page = {line for line in page.splitlines() if line.startswith(f'{stem}.xml:')}
        wrong += [f'MIGRATING.md tells: {line}' for line in of_page - told_here]
        if told != TOLD[stem] or first.returncode != ('by hand' in told) or bool(first.stdout) == ('by hand' in told):
            wrong.append(f'{stem}: told {told}, status {first.returncode}')
        mended = EXAMPLES / f'{stem}-mended.xml'
        brought = ran('policy', '--lines', '--root', stem, str(mended if mended.exists() else EXAMPLES / f'{stem}.xml'))
        service = driver.Service(program)
        replies = service.answers([json.loads(line) for line in brought.stdout.splitlines()])
        found = service.decisions([attributes for attributes, _ in answers])
        service.close()
        count += len(answers)
        if (
            brought.returncode
            or any('refused' in reply for reply in replies)
            or found != [decision for _, decision in answers]
        ):
            wrong.append(f'{stem}: {brought.stderr} {replies} {found}')
    return count, wrong


STRING, INTEGER = (f'<AttributeValue DataType="{names.XML_SCHEMA}{kind}">' for kind in ('string', 'integer'))
REQUEST = f'''<Request xmlns="{names.NAMESPACE}" ReturnPolicyIdList="false" CombinedDecision="false">
  <Attributes Category="{SUBJECT}">
    <Attribute AttributeId="urn:oasis:names:tc:xacml:1.0:subject:subject-id" IncludeInResult="true">
      {STRING}ann</AttributeValue></Attribute>
    <Attribute AttributeId="mixed" Issuer="i &amp; j" IncludeInResult="true">{INTEGER} 1 </AttributeValue>
      {INTEGER}2</AttributeValue>{STRING} 3 </AttributeValue></Attribute>
  </Attributes>
  <Attributes Category="{RESOURCE}"><Attribute AttributeId="kind" IncludeInResult="false">
      {STRING}record</AttributeValue></Attribute></Attributes>
</Request>'''
REFUSED = [
    ('<MultiRequests/></Request>', '</Request>'),
    ('CombinedDecision="true"', 'CombinedDecision="false"'),
    ('<Attributes Category="x"><Content><a xmlns=""/></Content></Attributes></Request>', '</Request>'),
    (f'<Attributes Category="{SUBJECT}"/></Request>', '</Request>'),
    (f'{names.XML_SCHEMA}double', f'{names.XML_SCHEMA}integer'),
]


def migrated(program):
    """The way of MIGRATING.md: from XML to a cell of the table, whose reply stands there."""
    lines = (
        ran('policy', '--lines', '--root', 'records', str(EXAMPLES / 'records.xml')).stdout
        + (EXAMPLES / 'records-people.jsonl').read_text()
    )
    cell = subprocess.run([program, 'serve'], input=lines, capture_output=True, text=True).stdout.splitlines()[-1]
    return [] if cell in (HERE.parent / 'docs' / 'MIGRATING.md').read_text() else [f'MIGRATING.md does not have {cell}']


def asked(program):
    """A request from XML, its response to XML; and requests with what isn't here."""
    wrong = []
    with tempfile.TemporaryDirectory() as folder:
        file = pathlib.Path(folder) / 'request.xml'
        file.write_text(REQUEST)
        line = ran('request', '--line', str(file))
        service = driver.Service(program)
        service.root(json.loads(ran('policy', str(EXAMPLES / 'records.xml')).stdout))
        answer = service.answer(**json.loads(line.stdout))
        service.close()
        made = ran('response', given=json.dumps(answer))
        root = etree.fromstring(made.stdout.encode()) if made.stdout else None
        if (
            root is None
            or not etree.RelaxNG(file=str(SCHEMA)).validate(root)
            or [each.text for each in root.iter('{*}AttributeValue')] != ['ann', '1', '2', ' 3 ']
        ):
            wrong.append(f'the response {answer} became {made.stdout} {made.stderr}')
        for new, old in REFUSED:
            file.write_text(REQUEST.replace(old, new))
            again = ran('request', str(file))
            if again.returncode != 1 or not again.stderr or again.stdout:
                wrong.append(f'a request with {new} had status {again.returncode} {again.stderr}')
    return 1 + len(REFUSED), wrong


def main():
    parser = argparse.ArgumentParser(description=__doc__, formatter_class=argparse.RawDescriptionHelpFormatter)
    # Some parts run it in a folder of their own.
    parser.add_argument('program', metavar='PROGRAM', type=os.path.abspath)
    parser.add_argument('--documents', type=int, default=1000, metavar='N')
    parser.add_argument('--mutants', type=int, default=3000, metavar='N')
    parser.add_argument('--older', type=int, default=25, metavar='N')
    parser.add_argument('--wrong', action='store_true')
    options = parser.parse_args()
    if options.wrong:
        number, unseen = try_wrong.run(options.program)
        print(*unseen, f'tools/xacml.py: {number} wrong forms tried: {len(unseen)} unseen', sep='\n')
        return 1 if unseen else 0
    files = sorted((HERE.parent / 'crates' / 'conformance' / 'sessions').glob('*')) + sorted(
        (HERE.parent / 'examples').glob('*/*.jsonl')
    )
    files += [HERE.parent / 'crates' / 'conformance' / 'stdin']
    number, wrong = examples(options.program)
    wrong += migrated(options.program)
    violations, told = try_grammar.run(SCHEMA)
    wrong += told
    warned, told = try_told.run(TOOL, options.program)
    wrong += told
    worded, told = try_words.run(TOOL, options.program, HERE.parent / 'docs' / 'MIGRATING.md')
    wrong += told
    over, told = try_forty.run(TOOL, options.program, EXAMPLES / 'forty', HERE.parent / 'docs' / 'MIGRATING.md')
    wrong += told
    valid = [EXAMPLES / f'{stem}.xml' for stem in ('records', 'market-mended', 'night-mended')] + over
    meant, told = try_ordinary.run(TOOL, options.program, valid)
    wrong += told
    seconds = MOST_SECONDS if options.mutants <= 3000 else float('inf')
    request = EXAMPLES / 'records-request.xml'
    mutants, told = try_mutants.run(options.program, SCHEMA, valid, request, options.mutants, seconds)
    wrong += told
    service = driver.Service(options.program)
    compared, told = try_rewriting.run(service)
    service.close()
    wrong += told
    older, told = try_older.run(options.program, options.older)
    wrong += told
    counts, told = try_documents.run(options.program, files, SCHEMA, options.documents)
    wrong += told
    taken, told = asked(options.program)
    wrong += told
    tried, told = try_hostile.run(TOOL)
    wrong += told
    print('\n'.join(wrong[:20]))
    print(
        f'tools/xacml.py: 3 policies brought in and asked {number} requests, {len(over)} of forty came over,'
        f' {meant} requests of forty ordinary ones answered as meant and nothing told of any by `check`,'
        f' {violations} files and elements beside the schema, {warned + worded} with faults and warnings,'
        f' {try_mutants.said(mutants)},'
        f' {compared} decisions of what is rewritten compared, {try_older.said(older)},'
        f' to XML and back {", ".join(counts)}, {taken} requests,'
        f' {tried} hostile files: {len(wrong)} wrong'
    )
    return 1 if wrong else 0


if __name__ == '__main__':
    sys.exit(main())
