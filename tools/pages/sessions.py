#!/usr/bin/env python3
"""Makes the stdin and the stdout of crates/conformance, which the gate runs, from the sessions that people read.

    sessions.py             writes them
    sessions.py --check     says whether they are up to date

stdin holds the files crates/conformance/sessions/SUBJECT.txt as they stand, one behind the other, and behind them the
sessions of the pages; CONTRIBUTING.md says what form they have, and `script_files` reads it. stdout says how many there
are, and that all of them pass.

PAGES have sessions in their blocks of the kind `session`. One more, policies_page, is made from docs/POLICIES.md: each
example there is added, with the reply that follows from what the page says below it. After `ok KIND ID VERSION` a
document of that kind, id and version is there already, and after an example below which its written form stands, so is
that form. A block `session` below an example has lines and replies as above, of a service to which the example was
added first: a session of its own, policies_page_ID with the id of that document. The example of docs/OPERATING.md
at a shell, whose lines stand before all replies, is the session operating_page_at_a_shell.
"""
import json, os, re, sys

ROOT = os.path.join(os.path.dirname(os.path.abspath(__file__)), '..', '..')
HERE = os.path.join(ROOT, 'crates', 'conformance')
DOCS = os.path.join(ROOT, 'docs')
PAGE = os.path.join(DOCS, 'POLICIES.md')
SHELL = os.path.join(DOCS, 'OPERATING.md')
PAGES = ['CELL.md', 'COMMANDS.md', 'LIMITS.md', 'MIGRATING.md', 'NOT_HERE.md', 'OPERATING.md', 'REFUSALS.md',
         'REQUESTS.md', 'TUTORIAL.md']


def read(path):
    with open(path, encoding='utf-8', newline='') as file:
        return file.read()


def verbatim(text):
    """A text that stands for this one: no « in it begins what is written out."""
    return text.replace('«', '«C2»«AB»')


def session(name, pairs):
    """The session of that name, of lines and the replies to them."""
    return f'# {name}\n' + ''.join(f'> {verbatim(line)}\n< {verbatim(reply)}\n' for line, reply in pairs)


def blocks_of(path):
    """The blocks of a page: of each its kind and its text."""
    return re.findall(r'^```(\w*)\n(.*?)^```$', read(path), re.M | re.S)


def page_sessions(name):
    """The sessions of a page: what stands in its blocks of the kind `session`, one block after the other."""
    return ''.join(text for kind, text in blocks_of(os.path.join(DOCS, name)) if kind == 'session')


def added(document):
    """The line that adds a document, given as the object that its JSON spells."""
    return json.dumps({'do': 'policy.add', 'document': document}, separators=(',', ':'), ensure_ascii=False)


def page_session():
    """The examples of the page on policies, each with the reply that follows from what stands below it."""
    blocks = blocks_of(PAGE)
    pairs_of = zip(blocks, blocks[1:] + [('', '')])
    examples = [(json.loads(text), then) for (kind, text), (_, then) in pairs_of if kind == 'json']
    pairs, held = [], []
    for document, then in examples:
        (kind, body), line = *document.items(), added(document)
        verdict = re.fullmatch('(ok|refused) (.*) (.*)\n', then)
        written = json.loads(then) if then.startswith('{') else document
        named = f'{kind} {body.get(f"{kind}Id")}'
        is_other = written[kind].get(f'{kind}Id') != body.get(f'{kind}Id')
        is_named = not verdict or verdict[1] != 'ok' or verdict[2] == named
        if not (verdict or then.startswith('{')) or not is_named or is_other:
            sys.exit(f'{PAGE}: no verdict on {named} stands below it')
        if verdict and verdict[1] == 'refused':
            pairs.append((line, f'{{"refused":{verdict[2]},"sub":{verdict[3]}}}'))
            continue
        if document in held:
            pairs.append((line, '{"refused":8}'))
        else:
            held.append(written)
            pairs.append((line, f'{{"changes":0,"serial":{len(held)}}}'))
        if verdict:
            key = {kind: {key: value for key, value in body.items() if key.endswith('Id')} | {'Version': verdict[3]}}
            pairs.append((added(key), '{"refused":8}'))
    return session('policies_page', pairs)


def shown_sessions():
    """The sessions that the page on policies shows, each below the example that it is about."""
    shown, document = [], None
    for kind, text in blocks_of(PAGE):
        if kind == 'json':
            document = json.loads(text)
        elif kind == 'session':
            (body,) = document.values()
            name = re.sub('[^a-z0-9]+', '_', (body.get('PolicyId') or body['PolicySetId']).lower())
            shown.append(session(f'policies_page_{name}', [(added(document), '{"changes":0,"serial":1}')]) + text)
    return shown


def shell_session():
    """The example at a shell: its lines, and behind them its replies."""
    found = re.search("<<'LINES'\n((?:    .*\n)*?)    LINES\n((?:    .*\n)*)", read(SHELL))
    lines, replies = ([text[4:] for text in part.splitlines()] for part in found.groups())
    if len(lines) != len(replies):
        sys.exit(f'{SHELL}: {len(lines)} lines, {len(replies)} replies')
    return session('operating_page_at_a_shell', zip(lines, replies))


def main():
    folder = os.path.join(HERE, 'sessions')
    files = sorted((name for name in os.listdir(folder) if name.endswith('.txt')), key=str.encode)
    texts = [read(os.path.join(folder, name)) for name in files]
    texts += [shell_session(), page_session()] + shown_sessions() + [page_sessions(name) for name in PAGES]
    lines = '\n'.join(texts)
    names = re.findall('^# ([^ \n]+)', lines, re.M)
    doubled = len(names) - len(set(names))
    stale = doubled > 0
    for name, made in (('stdin', lines), ('stdout', f'{len(names)} passed, 0 failed\n')):
        path = os.path.join(HERE, name)
        if sys.argv[1:] != ['--check']:
            with open(path, 'w', encoding='utf-8', newline='') as file:
                file.write(made)
        elif not os.path.exists(path) or read(path) != made:
            print(f'{name} is not what the sessions make')
            stale = True
    print(f'{len(names)} sessions ({doubled} with a name that stands twice)')
    return 1 if stale else 0


if __name__ == '__main__':
    sys.exit(main())
