#!/usr/bin/env python3
"""leave.py [--front ADDRESS [--token FILE]] NAME: a person leaves. Her name goes, and what modules hold for her.

It asks for her `attributes`, sends `person.drop`, then `attr.set` with no values for each row, and asks whether any is
left. Lines go to standard output and replies come from standard input, as for a pipe of `review serve`; or to the
front at ADDRESS, as http://127.0.0.1:8080, by the token that stands in FILE. What was done is told on standard error.
What others' values and documents say of her stays. The status is 0 when nothing is left, 1 where there was nothing of
that name or a line was refused, and 2 where no reply came: run it again then, it goes on where it was."""
import argparse
import http.client
import json
import pathlib
import sys
import urllib.error
import urllib.request

NOT_LISTED = 7


class Refused(Exception):
    """A line that should have been taken was refused."""


class NoReply(Exception):
    """No reply came."""


class Pipe:
    """Both ends of a pipe of `review serve`."""

    def sent(self, text):
        sys.stdout.write(text + '\n')
        sys.stdout.flush()
        return sys.stdin.readline()


class Front:
    """A front, at its address."""

    def __init__(self, address, token):
        self.address = address.rstrip('/') + '/lines'
        self.headers = {'Authorization': f'Bearer {token}'} if token else {}

    def sent(self, text):
        request = urllib.request.Request(self.address, text.encode() + b'\n', self.headers, method='POST')
        try:
            with urllib.request.urlopen(request) as answer:
                return answer.read().decode()
        except urllib.error.HTTPError as problem:
            return problem.read().decode()


def asked(way, line):
    """The reply to a line, which may be a refusal by the program."""
    text = way.sent(json.dumps(line)).strip()
    try:
        reply = json.loads(text)
    except ValueError:
        raise NoReply(f'no reply to {line["do"]}: {text}') from None
    if 'status' in reply:
        raise (NoReply if reply['status'] >= 500 else Refused)(f'{line["do"]}: {text}')
    return reply


def taken(way, line):
    """The reply to a line that has to be taken."""
    reply = asked(way, line)
    if 'refused' in reply:
        raise Refused(f'{line["do"]}: {json.dumps(reply)}')
    return reply


def rows(way, name):
    """What modules hold for a person."""
    return taken(way, {'do': 'attributes', 'category': 'AccessSubject', 'entity': name})['attributes']


def emptied(name, row):
    """The line that takes the values of a row."""
    line = {'do': 'attr.set', 'module': row['module'], 'category': 'AccessSubject', 'entity': name}
    line |= {'attribute': row['attribute'], 'type': row['datatype'], 'values': []}
    return line | ({'issuer': row['issuer']} if row['issuer'] is not None else {})


def leave(way, name, tell):
    """Takes a person away, and gives whether there was anything of her."""
    held = rows(way, name)
    dropped = asked(way, {'do': 'person.drop', 'name': name})
    if dropped.get('refused', NOT_LISTED) != NOT_LISTED:
        raise Refused(f'person.drop: {json.dumps(dropped)}')
    listed = 'refused' not in dropped
    tell(f'dropped: {dropped["changes"]} answers went, serial {dropped["serial"]}' if listed else 'was not listed')
    for row in held:
        reply = taken(way, emptied(name, row))
        issued = '' if row['issuer'] is None else f' of {row["issuer"]}'
        tell(f'{row["attribute"]}{issued} in module {row["module"]}: {json.dumps(row["values"])} taken, '
             f'serial {reply["serial"]}')
    if rows(way, name):
        raise Refused('others gave values meanwhile: run it again')
    return listed or bool(held)


def main():
    parser = argparse.ArgumentParser(description=__doc__, formatter_class=argparse.RawDescriptionHelpFormatter)
    parser.add_argument('--front', metavar='ADDRESS')
    parser.add_argument('--token', metavar='FILE', type=pathlib.Path)
    parser.add_argument('name', metavar='NAME')
    words = parser.parse_args()

    def tell(what):
        print(f'{words.name}: {what}', file=sys.stderr)

    try:
        token = words.token.read_text(encoding='utf-8').strip() if words.token else None
        way = Front(words.front, token) if words.front else Pipe()
        if leave(way, words.name, tell):
            return 0
        tell('nothing is known of that name')
    except Refused as fault:
        tell(fault)
    except (NoReply, OSError, http.client.HTTPException) as fault:
        tell(fault)
        return 2
    return 1


if __name__ == '__main__':
    sys.exit(main())
