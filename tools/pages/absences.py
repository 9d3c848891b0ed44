#!/usr/bin/env python3
"""What no crate knows: looks for each absence of the table in docs/ARCHITECTURE.md, and says what is there that
shouldn't be; fails if anything is.

    absences.py

The first column of the table has the names of the checks below, in their order. Comments aren't looked at."""
import pathlib
import re
import sys

ROOT = pathlib.Path(__file__).resolve().parents[2]
CRATES = ROOT / 'crates'
PAGE = ROOT / 'docs' / 'ARCHITECTURE.md'
COMMANDS = (r'"(?:(?:person|action|resource)\.(?:add|drop)|(?:attr|day|moment|root)\.set'
            r'|policy\.(?:add|replace|withdraw))')
PROGRAMS = ['conformance', 'lint_told', 'review', 'review_with_options']
EVALUATING = ['ent_request', 'ent_trace', 'ent_walk', 'memo_plan', 'memo_bags', 'memo_tests', 'memo_answers',
              'memo_replay', 'ent_eval', 'ent_evaluator']
PARTS_OF_AN_EVALUATOR = [f'ent_evaluator/src/{name}.rt'
                         for name in ('parts', 'listed', 'asking', 'exchange', 'evaluator')]
BELOW_LINES = ['ent_values', 'ent_functions', 'ent_combine', 'ent_policy', 'ent_clone', 'lint_meaning', 'ent_finder',
               *EVALUATING, 'memo_trie', 'lint_reach', 'ent_index', 'ent_log', 'ent_cells', 'ent_table', 'law_rebuild']


def lines_of_crates():
    """The libraries of each crate, as its line has them."""
    text = (ROOT / 'crates.txt').read_text()
    lines = [line.split(':') for line in text.splitlines() if line and not line.startswith('#')]
    return {name: rest.split() for name, rest in lines}


LINES = lines_of_crates()
TRIALS = [name for name in LINES if name.startswith('trials')]


def code(path):
    """What a file says, without comments."""
    return re.sub(r'(?m)//.*$|^\s*--.*$', '', path.read_text())


def files(crates=None, folders=('src',)):
    """The files of some crates, or of all."""
    for crate in crates or LINES:
        for folder in folders:
            yield from sorted((CRATES / crate / folder).rglob('*.*t'))


def where(path):
    return '/'.join(path.relative_to(CRATES).parts)


def found(pattern, crates=None, folders=('src',), but=()):
    """The files in which something stands, but for those whose place begins with one of some words."""
    for path in files(crates, folders):
        if re.search(pattern, code(path)) and not where(path).startswith(tuple(but)):
            yield f'{where(path)} has {pattern}'


def named(libraries, but=()):
    """The crates whose line names one of some libraries, but for some crates."""
    for name, line in LINES.items():
        if name not in but:
            yield from (f'the line of {name} names {library}' for library in line if library in libraries)


def stands_on(crate, allowed):
    """The crates of this repository in a crate's line, but for those that are allowed."""
    ours = [library for library in LINES[crate] if library in LINES and library not in allowed]
    yield from (f'the line of {crate} names {library}' for library in ours)


def refusable(names, crates):
    """The functions of these names that give a `Result`, or that aren't there."""
    for name in names:
        heads = [re.search(rf'\bfn {name}\b[^{{;]*?\)\s*(->[^\n]*)?', code(path)) for path in files(crates)]
        heads = [head for head in heads if head]
        if not heads:
            yield f'no function {name}'
        yield from (f'{name} gives {head[1]}' for head in heads if head[1] and 'Result' in head[1])


def json_between():
    for crate in BELOW_LINES + ['ent_report']:
        json = [library for library in LINES[crate] if library in ('ent_json', 'serde_json', 'json')]
        yield from (f'the line of {crate} names {library}' for library in json)


def in_sessions_files():
    yield from stands_on('script_files', ['ent_values'])
    json = [library for library in LINES['script_files'] if library in ('serde_json', 'json')]
    yield from (f'the line of script_files names {library}' for library in json)


def places_in_the_service():
    words = ['lint_meaning', 'lint_places', 'lint_messages', 'lint_declared', 'lint_links']
    yield from named(words, but=words + ['cli_check', 'lint_told'] + TRIALS)


def service_in_the_check():
    words = ['lint_meaning', 'lint_places', 'lint_messages', 'lint_declared', 'lint_links']
    read = ['ent_polform', 'ent_json', 'ent_policy', 'ent_values']
    yield from stands_on('cli_check', [*words, *read, 'ent_wire', 'cli_words'])
    yield from stands_on('cli_words', ['ent_wire'])


def around_combining():
    yield from (f'the line of ent_combine names {library}' for library in LINES['ent_combine'])
    yield from found(r'\b(?:alloc|Global|AllocError|Vec|Box|String)\b', ['ent_combine'])


def table_in_the_log():
    yield from stands_on('ent_log', ['ent_values'])
    yield from found(r'\bAnswer', ['ent_log', 'ent_index'], ('src', 'specs'), but=['ent_log/specs/'])


def evaluations():
    cells = [f'ent_cells/src/{name}.rt' for name in ('evaluate', 'store')]
    yield from found(r'\.evaluate(?:_listed)?\(|Pdp::evaluate', but=['ent_eval/', 'ent_evaluator/', *cells] + TRIALS)
    yield from found(r'pdp\.explain\(|Pdp::explain', but=['ent_eval/', 'ent_evaluator/'] + TRIALS)
    yield from found(r'pdp\.answer\(|Pdp::answer', but=['ent_eval/', 'ent_evaluator/'] + TRIALS)
    walks = ['ent_eval/src/pdp.rt', 'memo_answers/src/signing.rt']
    yield from found(r'Walk::over\(', but=['ent_walk/', *walks] + TRIALS)


def remembering():
    yield from named(['ent_evaluator'], but=['cli_serve'] + TRIALS)
    memory = ['memo_bags', 'memo_tests', 'memo_answers', 'memo_replay', 'memo_plan', 'memo_trie']
    yield from named(memory, but=memory + ['ent_evaluator'])


def unchecked_documents():
    if 'pub(crate) fn new(' not in code(CRATES / 'ent_policy/src/document.rt'):
        yield 'Document::new is not pub(crate)'
    yield from found(r'\bDocument::new\(', ['ent_policy'], but=['ent_policy/src/checker.rt'])


def boxed_modules():
    makers = ['cli_serve/src/running.rt', 'lint_links/src/root.rt']
    yield from found(r'\bBox::new\b', but=makers + TRIALS)
    yield from found(r'\bdyn\b', but=makers + ['ent_finder/'] + TRIALS)


def files_and_streams():
    above = ['cli_', 'ent_program/'] + [f'{name}/' for name in PROGRAMS + TRIALS]
    yield from found(r'[:+]\s*(?:Files|Env|Input|Print|Eprint)\b', but=above)
    yield from named(['clap'], but=['cli_words', 'cli_serve', 'ent_program'] + TRIALS)


def clocks():
    yield from found(r'\bstd::(?:time|thread|net)\b')
    if (ROOT / 'HANDLES').read_text().strip() != 'Handles allowed: none.':
        yield 'HANDLES allows some'


def memory_at_commit():
    yield from refusable(['commit_all', 'give_up_all', 'narrow'], ['ent_cells'])
    yield from refusable(['put', 'close', 'push', 'forget_before'], ['ent_log'])
    yield from refusable(['log_edit', 'take_back'], ['ent_table'])


def unseen():
    known = ['ent_finder/src/hints.rt', 'ent_trace/src/paths.rt', 'ent_trace/src/notes.rt', 'memo_replay/src/state.rt']
    units = [where(path) for path in files() if re.search(r'ghost Value = \{ Unit\b', code(path))]
    yield from (f'{place} has a model that says nothing' for place in units if place not in known)
    yield from found(r'\bCell(?:<|::)', but=['ent_finder/src/hints.rt'])
    yield from found(r'\bRefCell\b', but=TRIALS)
    yield from found(r'(?m)^\s*(?:pub(?:\(crate\))? )?static ')


# Calls that are asked for by name, or stay for now, and that no part of the program makes.
UNCALLED = ['ent_polform write_document', 'ent_polform write_value', 'ent_profile write_given',
            'ent_profile write_response', 'ent_index Index::cells_of', 'ent_index Index::forget',
            'ent_dump dump_lines_within', 'ent_line serve', 'ent_line serve_within', 'cli_check check_from',
            'law_split merge_who', 'law_split merge_by_rule', 'law_split sum_counts', 'law_split sum_changes',
            # What is written, and when, is promised of these: above them stand only files and streams, of which no
            # contract knows.
            'cli_serve serve_from', 'cli_test list_tests', 'cli_test send_junit', 'cli_compare compare_from',
            # The trials alone call these.
            'cli_check file_sentence', 'cli_serve lines_status']


def given_out(crate):
    """The names that a crate gives out, each with what it is inside."""
    library = CRATES / crate / 'src' / 'lib.rt'
    uses = re.findall(r'pub use [\w:]+::(?:\{([^}]*)\}|([\w ]+));', code(library)) if library.exists() else []
    items = [item.split() for many, one in uses for item in (many or one).split(',') if item.strip()]
    return {item[0]: item[-1] for item in items}


def public_calls(crate):
    """The public functions of a crate that aren't laws, which have nothing to run: the type of each, if it has one."""
    names = given_out(crate)
    for path in files([crate]):
        text = code(path)
        owned = re.findall(r'(?ms)^impl(?:<[^{]*?>)? (\w+)[^{\n]*\{\n(.*?)^\}', text)
        for owner, body in [('', text), *owned]:
            deep = '    ' if owner else ''
            for name, law in re.findall(rf'(?ms)^{deep}pub fn (\w+).*?^{deep}\{{(\}}?)$', body):
                if (owner or name) in names and not law:
                    yield (names[owner], name) if owner else ('', names[name])


def is_called(crate, owner, name, texts):
    """Whether a call of that name stands in a crate that stands on this one; of a function only where it is
    imported."""
    call = re.compile(rf'(?<!fn )\b{name}\b(?=\s*(?:::<[^>]*>)?\(|[,)])')
    for path, (uses, text) in texts.items():
        other = where(path).split('/')[0]
        if crate in LINES[other] and name in text:
            if (owner or name in uses) and call.search(text) or f'{crate}::{name}(' in text:
                return True
    return False


def uncalled():
    texts = {}
    for path in files():
        if where(path).split('/')[0] not in TRIALS and path.name != 'lib.rt':
            text = code(path)
            imports = re.findall(r'\buse (?!crate\b)[^;]*;', text)
            texts[path] = set(re.findall(r'\w+', ' '.join(imports))), re.sub(r'\buse [^;]*;', '', text)
    there = [f'{crate} {owner}::{name}' if owner else f'{crate} {name}' for crate in LINES
             for owner, name in public_calls(crate) if not is_called(crate, owner, name, texts)]
    yield from (f'nothing calls {call}' for call in there if call not in UNCALLED)
    yield from (f'{call} is called' for call in UNCALLED if call not in there)


def unsafe():
    yield from found(r'\bunsafe\b', but=['ent_json/src/text.rt'])
    if len(re.findall(r'\bunsafe\b', code(CRATES / 'ent_json/src/text.rt'))) > 1:
        yield 'ent_json/src/text.rt has more than one unsafe'


def libraries():
    yield from named(['jiff', 'jiff_core'], but=['ent_values'])
    yield from named(['slab'], but=['ent_index', 'ent_cells'])
    yield from named(['indexmap'], but=['ent_table', 'ent_request', 'ent_trace', 'memo_bags', 'memo_replay'])


CHECKS = {
    'JSON between the edges': json_between,
    'JSON and commands in files of sessions': in_sessions_files,
    'places of faults in the service': places_in_the_service,
    'the service in what checks documents': service_in_the_check,
    'any other crate, and memory, in `ent_combine`': around_combining,
    'commands below `ent_dump` and `ent_command`':
        lambda: found(COMMANDS, but=['ent_dump/', 'ent_command/', 'lint_links/src/state.rt',
                                     'lint_declared/src/claim.rt', 'lint_declared/src/listed.rt',
                                     'lint_declared/src/setting.rt', 'lint_told/'] + TRIALS),
    'sessions and marks in a review': lambda: found(r'(?i)session', BELOW_LINES, ('src', 'specs')),
    'the table in the log and in the index': table_in_the_log,
    'finders and modules in the evaluator':
        lambda: found(r'\b(?:Attributes|Policies)\b', EVALUATING,
                      but=['ent_eval/src/pdp.rt', 'ent_eval/src/evaluates.rt', *PARTS_OF_AN_EVALUATOR]),
    'keys of look-ups above the table':
        lambda: found(r'\bReadKey\b', ['ent_command', 'ent_report', 'ent_dump', 'ent_line', 'cli_serve', 'cli_test',
                                       'cli_compare'], ('src', 'specs')),
    'evaluations made elsewhere': evaluations,
    'what is remembered above the evaluator': remembering,
    "documents that weren't checked": unchecked_documents,
    'boxed modules that a library makes': boxed_modules,
    'files, streams, the command line below the program\'s crates': files_and_streams,
    'clocks, threads, sockets': clocks,
    'memory at a commit, a way back, a drop': memory_at_commit,
    "what a clause doesn't see": unseen,
    'public calls that nobody makes': uncalled,
    '`unsafe`, but once': unsafe,
    'tests beside the code': lambda: found(r'#\[test\]', but=TRIALS),
    '`jiff`, `slab`, `indexmap` elsewhere': libraries,
}


def main():
    there = [f'{name}: {what}' for name, check in CHECKS.items() for what in check()]
    table = PAGE.read_text().split('## What no crate knows\n')[1].split('\n## ')[0]
    rows = re.findall(r'(?m)^\| (.*?) \|', table)[1:]
    if rows != list(CHECKS):
        there.append(f'{PAGE.name} has other rows than these checks: ' + '; '.join(sorted(set(rows) ^ set(CHECKS))))
    print('\n'.join(there) if there else f'{len(CHECKS)} absences')
    return 1 if there else 0


if __name__ == '__main__':
    sys.exit(main())
