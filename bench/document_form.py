#!/usr/bin/env python3
"""Times the document form: MB per second of a policy of 1 MB that is only parsed as JSON, read, and written, with ratios in one run.

    bench/document_form.py [FOLDER]

    PROGRAM=/path/of/form_speed       the program, where it is built already
    COUNT=20                          documents in each run
    RUNS=5                            runs of each step, of which the fastest counts: others on the machine only add to a run

No command of the program writes documents, so the steps are those of a program of its own, form_speed.rt.txt. It is proved and built
here in FOLDER (default: a temporary one, removed afterwards), beside a copy of the crates that it stands on, with what their checks
kept: check ent_polform before, or it takes as long as that. A step's time is that of a run of COUNT documents less that of a
run of none, and less that of the steps before it where the line says `alone`. The C library keeps freed memory, so that no step
pays for pages that another gave back.
"""
import json, os, shutil, subprocess, sys, tempfile
import workloads
from workloads import ACTIONS, PEOPLE, RESOURCE, RESOURCES, RESOURCE_ID, SUBJECT, SUBJECT_ID

HERE = os.path.dirname(os.path.abspath(__file__))
TOP = os.path.join(HERE, '..')
COUNT = int(os.environ.get('COUNT', '20'))
RUNS = int(os.environ.get('RUNS', '5'))
BYTES = 1_000_000
TYPE = 'http://www.w3.org/2001/XMLSchema#'
MEMORY = {'MALLOC_TRIM_THRESHOLD_': '1073741824', 'MALLOC_MMAP_THRESHOLD_': '1073741824'}
STEPS = ['parse', 'text', 'read', 'write', 'whole']


def built(folder):
    """The path of the program, made in that folder."""
    with open(os.path.join(TOP, 'crates.txt'), encoding='utf-8') as file:
        lines = [line.strip() for line in file if line.startswith('ent_')]
    names = dict(line.split(':', 1) for line in lines)
    wanted = {'ent_polform'} | {word for word in names['ent_polform'].split() if word in names}
    for name in wanted:
        shutil.copytree(os.path.join(TOP, 'crates', name), os.path.join(folder, 'crates', name))
    with open(os.path.join(folder, 'crates.txt'), 'w', encoding='utf-8') as file:
        file.write(''.join(f'{name}:{names[name]}\n' for name in sorted(wanted)) + 'form_speed: ent_polform serde_json\n')
    crate = os.path.join(folder, 'crates', 'form_speed')
    os.makedirs(os.path.join(crate, 'src'))
    shutil.copy(os.path.join(HERE, 'form_speed.rt.txt'), os.path.join(crate, 'src', 'main.rt'))
    subprocess.run(['rt', 'run', '--', 'parse', '0'], cwd=crate, stdin=subprocess.DEVNULL, stdout=sys.stderr, check=True)
    return os.path.join(crate, 'out', 'form_speed')


def full(part):
    """The same with full names of types and MustBePresent, as it is written."""
    if isinstance(part, list):
        return [full(one) for one in part]
    if not isinstance(part, dict):
        return part
    part = {key: full(one) for key, one in part.items()}
    if 'Value' in part:
        part.setdefault('DataType', 'boolean' if part['Value'] is True else 'string')
    if 'Category' in part:
        part.setdefault('MustBePresent', False)
    if 'DataType' in part:
        part['DataType'] = TYPE + part['DataType']
    return part


def text_of(rules, **parts):
    """The written text of a policy of those rules."""
    return json.dumps(full(workloads.policy('p', rules, **parts)), separators=(',', ':'), sort_keys=True)


def conditions():
    """Rules with a target and a condition of functions, literals and designators, as policies have them."""
    def test(i):
        somebody = workloads.apply('string-equal', workloads.apply('string-one-and-only', workloads.bag(SUBJECT, SUBJECT_ID)),
                                   workloads.value(PEOPLE[i % 256]))
        listed = workloads.apply('string-is-in', workloads.value(RESOURCES[i % 64]), workloads.bag(RESOURCE, RESOURCE_ID))
        return workloads.apply('and', listed, workloads.apply('not', somebody))
    rules = [{'RuleId': f'r{i}', 'Effect': 'Permit', 'Target': workloads.action_is(ACTIONS[i % 4]),
              'Condition': workloads.apply('or', *[test(i + k) for k in range(4)])} for i in range(256)]
    return text_of(rules[:len(rules) * BYTES // len(text_of(rules))])


def literals():
    """256 rules whose conditions are lists of literals, the shortest nodes that there are."""
    each = BYTES // 256 // 91
    rules = [{'RuleId': f'r{i}', 'Effect': 'Permit', 'Condition': workloads.apply('or', *[workloads.value(True)] * each)}
             for i in range(256)]
    return text_of(rules)


def once(program, step, count, path):
    """Seconds of CPU and MiB of one run."""
    with open(path, 'rb') as read:
        child = subprocess.Popen([program, step, str(count)], stdin=read, env=os.environ | MEMORY)
        _, status, usage = os.wait4(child.pid, 0)
    if status:
        sys.exit(f'{program} {step} {count}: status {status}')
    return usage.ru_utime + usage.ru_stime, usage.ru_maxrss / 1024


def measured(program, path):
    """Seconds for one document and MiB, by step. The steps take turns, so that a slow minute meets all of them."""
    runs = [{step: once(program, step, count, path) for step, count in [('none', 0)] + [(s, COUNT) for s in STEPS]}
            for _ in range(RUNS)]
    fastest = {step: min(run[step][0] for run in runs) for step in ['none'] + STEPS}
    seconds = {step: (fastest[step] - fastest['none']) / COUNT for step in STEPS}
    return seconds, {step: max(run[step][1] for run in runs) for step in STEPS}


def show(name, text, program, folder):
    path = os.path.join(folder, 'document.json')
    with open(path, 'w', encoding='utf-8') as file:
        file.write(text)
    s, memory = measured(program, path)
    rows = [('only parsed', s['parse'], 'parse'), ('text of the JSON, alone', s['text'] - s['parse'], 'text'),
            ('parsed and read', s['read'], 'read'), ('read, alone', s['read'] - s['parse'], 'read'),
            ('written as JSON, alone', s['write'] - s['read'], 'write'),
            ('written as text, alone', s['whole'] - s['read'], 'whole'),
            ('parsed, read and written', s['whole'], 'whole')]
    for what, seconds, step in rows:
        print(f'{name:12} {what:26} {seconds * 1000:9.2f} {len(text) / seconds / 1e6:8.1f} {seconds / s["parse"]:9.2f}'
              f' {memory[step]:7.1f}', flush=True)


def main():
    folder = sys.argv[1] if len(sys.argv) > 1 else tempfile.mkdtemp()
    try:
        program = os.environ.get('PROGRAM') or built(folder)
        print(f'{"document":12} {"what":26} {"CPU ms":>9} {"MB/s":>8} {"to parse":>9} {"MiB":>7}')
        for name, text in [('conditions', conditions()), ('literals', literals())]:
            show(name, text, program, folder)
    finally:
        if len(sys.argv) == 1:
            shutil.rmtree(folder)


if __name__ == '__main__':
    main()
