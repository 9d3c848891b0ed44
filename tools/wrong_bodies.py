#!/usr/bin/env python3
"""Tries wrong bodies: edits of one function that the prover has to refuse, each by the goal that its head names.

    wrong_bodies.py [CRATE ..]          tries those of these crates, or of all; over libraries that stand built
    wrong_bodies.py --only NAME ..      tries these alone
    wrong_bodies.py --changed [BASE]    those of crates that differ from a commit (main), and of those they stand on
    wrong_bodies.py --sample            those that the gate tries at this commit (tools/wrong/chosen.py)
    wrong_bodies.py --controls          seeks a control for those that have none, and writes it where it is proved
    wrong_bodies.py --check             tries none: each can be applied, says by what it is refused, and is on the pages
    wrong_bodies.py --pages             writes WRONG_BODIES.md and the goals in the pages of crates

    --jobs N      so many checks side by side, else as many as RT_JOBS says or as fit    --anew   takes nothing kept
    --json FILE   the verdicts as JSON                                           --heads  writes `by:` where none stands
    --behind COMMAND ..   runs a command that proves crates (rt ci), and tries the wrong bodies of each as soon as it
                          says that the crate is proved; where the command fails, so does this, with its status

crates/NAME/wrong/PLAIN-NAME.edit has lines `by: GOAL`, `file: PATH`, `old: TEXT`, `new: TEXT`, and may have a
`control: TEXT`: what stands there in a right body of another text, which must not be refused. `by hand: GOAL` in place
of `by` says that the goal is answered in proofs/, where other texts are refused too. The last line is `wrong bodies: N
passed, M failed`; the status is 1 where one isn't refused, or by another goal than its head says, or wasn't tried."""
import argparse
import concurrent.futures
import contextlib
import json
import os
import pathlib
import subprocess
import sys

from wrong import behind, chosen, controls, edits, pages, trial, trying

TOP = pathlib.Path(__file__).resolve().parents[1]


def all_edits():
    """Each edit of each crate, or what is wrong with it, by its path."""
    found = {}
    for path in sorted(TOP.glob('crates/*/wrong/*')):
        try:
            found[path] = edits.read(path)
        except edits.Fault as fault:
            found[path] = fault
    return found


def changed_crates(base, libraries):
    """Crates whose files differ from a commit, with those that they stand on directly: whose contracts they show."""
    words = ['git', 'diff', '--name-only', base, '--', 'crates']
    said = subprocess.run(words, cwd=TOP, capture_output=True, text=True, check=True).stdout
    changed = {line.split('/')[1] for line in said.split()}
    return changed | {below for name in changed if name in libraries.named for below in libraries.named[name]}


def as_rows(told):
    """The verdicts as JSON has them."""
    return [{'crate': body.edit.crate.name, 'name': body.edit.name, 'control': body.as_control, 'by': verdict.by,
             'function': body.function, 'verdict': verdict.kind, 'said': verdict.said, 'head': body.edit.by,
             'passed': trial.is_right(body, verdict)}
            for body, verdict in told]


def try_all(found, options):
    """Tries these edits, the longest batches first, and counts; the status of the program."""
    by_crate = {}
    for edit in found:
        by_crate.setdefault(edit.crate.name, []).append(edit)
    libraries = trying.Libraries(TOP)
    jobs = options.jobs or int(os.environ.get('RT_JOBS') or behind.fitting_jobs())
    waiting = behind.Waiting()
    with contextlib.ExitStack() as stack:
        proving = stack.enter_context(behind.Proving(options.behind, libraries)) if options.behind else None
        run = trial.Trial(libraries, behind.Lanes(jobs, proving), waiting, options.anew, bodies_in(found))
        pool = stack.enter_context(concurrent.futures.ThreadPoolExecutor(jobs))
        workers = [pool.submit(waiting.work) for _ in range(jobs)]
        try:
            for name in proving.proved() if proving else by_crate:
                if name is None:
                    waiting.drop()
                elif waiting.is_open and name in by_crate:
                    run.of_crate(TOP / 'crates' / name, by_crate[name])
        finally:
            waiting.close()
        for worker in workers:
            worker.result()
    if proving and proving.process.returncode:
        print(proving.last.decode(errors='replace'), end='', flush=True)
        return proving.process.returncode
    return counted(run.told, found, options)


def bodies_in(found):
    """How many bodies there are in edits, controls among them."""
    return sum(1 for _ in trial.asked_of(found))


def counted(told, found, options):
    """Writes what was asked for, and counts; the status of the program."""
    if options.heads:
        for body, verdict in told:
            if not body.edit.by and not body.as_control and verdict.by:
                pages.write_head(body.edit, verdict)
    if options.controls:
        return controls_found(told, found)
    if options.json:
        pathlib.Path(options.json).write_text(json.dumps(as_rows(told), indent=1), encoding='utf-8')
    passed = sum(trial.is_right(*one) for one in told)
    failed = bodies_in(found) - passed
    print(f'wrong bodies: {passed} passed, {failed} failed')
    return 1 if failed else 0


def controls_found(told, found):
    """Writes the first control of each edit that was proved, and counts; the status of the program."""
    proved = {}
    for body, verdict in sorted(told, key=lambda one: found.index(one[0].edit)):
        if trial.is_right(body, verdict):
            proved.setdefault(body.edit.label, body.edit)
    for edit in proved.values():
        controls.write(edit)
    names = sorted({edit.label for edit in found} - proved.keys())
    print('\n'.join([*(f'no control is proved of {name}' for name in names), f'{len(proved)} controls written']))
    return 0


def main():
    parser = argparse.ArgumentParser(usage=__doc__)
    parser.add_argument('crates', nargs='*')
    parser.add_argument('--only', nargs='+', default=[])
    parser.add_argument('--changed', nargs='?', const='main')
    parser.add_argument('--jobs', type=int)
    parser.add_argument('--json')
    parser.add_argument('--behind', nargs=argparse.REMAINDER)
    for name in ['--check', '--pages', '--anew', '--heads', '--sample', '--controls']:
        parser.add_argument(name, action='store_true')
    options = parser.parse_args()
    there = all_edits()
    if options.check or options.pages:
        return pages.check(TOP, there) if options.check else pages.write(TOP, there)
    found = [edit for edit in there.values() if not isinstance(edit, edits.Fault)]
    names = changed_crates(options.changed, trying.Libraries(TOP)) if options.changed else set(options.crates)
    found = [edit for edit in found if not (names or options.changed) or edit.crate.name in names]
    found = [edit for edit in found if not options.only or edit.name in options.only]
    told = [f'{path.relative_to(TOP)}: {fault}' for path, fault in there.items() if isinstance(fault, edits.Fault)]
    told += [f'there is no wrong body {name}' for name in sorted(set(options.only) - {edit.name for edit in found})]
    lost = set(options.crates) - {edit.crate.name for edit in found}
    told += [f'there is no wrong body of {name}' for name in sorted(lost)]
    if told:
        print('\n'.join(told))
        return 2
    if options.sample:
        found = chosen.chosen(found, TOP)
    if options.controls:
        found = [sought for edit in found if not edit.has_control for sought in controls.of(edit)]
    untried = [edit for edit in found if not edit.by]
    if untried and not options.only and not options.heads:
        print(f'{len(untried)} wrong bodies name no goal yet and are not tried: --heads tries them')
        found = [edit for edit in found if edit.by]
    return try_all(found, options)


if __name__ == '__main__':
    sys.exit(main())
