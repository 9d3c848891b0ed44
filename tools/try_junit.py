#!/usr/bin/env python3
"""Tries what `review test --junit FILE` writes by another reader of XML.

    tools/try_junit.py PROGRAM

The tests are the clinic's, and those of two files that are written here: one with a test that fails, whose name and
expected reply XML can't hold as they are, and one that hasn't the form of tests; and a file isn't there. The reader has
to find each test with its line, and what the program told of it.
"""
import os
import subprocess
import sys
import tempfile
import xml.etree.ElementTree as xml

STATE, CLINIC = 'examples/clinic/clinic.jsonl', 'examples/clinic/expected.txt'

# A test that fails and one that passes, as the bytes of a file: a name with marks of XML, a control character and a byte
# that isn't UTF-8, and a reply with what XML 1.0 hasn't.
FAILING = (b'# <"&\'> \x01 \xff \xc3\xa9\n> {"do":"counts"}\n~ {"of":"\xef\xbf\xbf"}\n'
           b'# passes\n> {"do":"counts"}\n~ {}\n')
NAMES = ['<"&\'> \ufffd \ufffd \u00e9', 'passes']
NO_TESTS = b'{"do":"table"}\n'


def run(program, folder, *words):
    """The suites by what their files are called, what was told, and the status."""
    out = os.path.join(folder, 'out.xml')
    ran = subprocess.run([program, 'test', '--junit', out, *words], capture_output=True)
    return {suite.get('name'): suite for suite in xml.parse(out).getroot()}, ran.stdout, ran.returncode


def counts(suite):
    return tuple(int(suite.get(word)) for word in ('tests', 'failures', 'errors'))


def written(folder, name, text):
    path = os.path.join(folder, name)
    with open(path, 'wb') as file:
        file.write(text)
    return path


def held(told):
    """What XML has of bytes that were told."""
    return told.decode('utf-8', 'replace').replace('\x01', '\ufffd').replace('\uffff', '\ufffd')


def faults(program, folder):
    suites, told, status = run(program, folder, '--state', STATE, CLINIC)
    with open(CLINIC, encoding='utf-8') as file:
        headings = [(number, line[2:]) for number, line in enumerate(file.read().split('\n'), 1) if line.startswith('# ')]
    found = [(int(case.get('line')), case.get('name')) for case in suites[CLINIC]]
    if status or found != headings or counts(suites[CLINIC]) != (len(headings), 0, 0):
        yield f'the clinic: status {status}, {counts(suites[CLINIC])}, {found}'
    failing, none = written(folder, 'failing.txt', FAILING), written(folder, 'none.txt', NO_TESTS)
    suites, told, status = run(program, folder, failing, none)
    lines = told.split(b'\n')
    of_first = b''.join(line + b'\n' for line in lines if line.startswith(failing.encode()))
    of_second = b''.join(line + b'\n' for line in lines if line.startswith(none.encode()))
    if status != 1 or counts(suites[failing]) != (2, 1, 0) or counts(suites[none]) != (1, 0, 1):
        yield f'status {status}, {counts(suites[failing])}, {counts(suites[none])}'
    if [case.get('name') for case in suites[failing]] != NAMES or [case.get('line') for case in suites[failing]] != ['1', '4']:
        yield f'names {[case.get("name") for case in suites[failing]]}'
    if [failure.text for failure in suites[failing].iter('failure')] != [held(of_first)]:
        yield f'told {[failure.text for failure in suites[failing].iter("failure")]}, and not {held(of_first)!r}'
    if [error.get('message') for error in suites[none].iter('error')] != [held(of_second)]:
        yield f'error {[error.get("message") for error in suites[none].iter("error")]}, and not {held(of_second)!r}'
    missing = os.path.join(folder, 'missing.txt')
    suites, told, status = run(program, folder, missing)
    if status != 2 or counts(suites[missing]) != (1, 0, 1):
        yield f'a file that is not there: status {status}, {counts(suites[missing])}'


def main():
    with tempfile.TemporaryDirectory() as folder:
        found = list(faults(os.path.abspath(sys.argv[1]), folder))
    for fault in found:
        print(f'tools/try_junit.py: {fault}')
    if not found:
        print('tools/try_junit.py: each test was read back')
    return 1 if found else 0


if __name__ == '__main__':
    if len(sys.argv) != 2:
        print(__doc__.strip(), file=sys.stderr)
        sys.exit(2)
    sys.exit(main())
