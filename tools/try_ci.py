#!/usr/bin/env python3
"""Tries the example of checks before a change of policies is made (examples/ci), in a repository with the clinic.

    tools/try_ci.py PROGRAM

The hook has to let a commit pass, and tell what it does to the table. It has to refuse a policy that may not be stored,
a test that fails, and what FAIL_ON says, and look at nothing that isn't about to be committed. The workflow's last step
has to tell what a branch does to the table of another. Ends with status 3 where git or jq isn't there."""
import json
import os
import pathlib
import re
import shutil
import subprocess
import sys
import tempfile

TOP = pathlib.Path(__file__).resolve().parents[1]
CI, CLINIC = TOP / 'examples' / 'ci', TOP / 'examples' / 'clinic'


class Repository:
    """A repository of the clinic's policies, with the hook."""

    def __init__(self, folder, program):
        self.folder = pathlib.Path(folder)
        author = {f'GIT_{who}_{what}': 'a@example.org' for who in ['AUTHOR', 'COMMITTER'] for what in ['NAME', 'EMAIL']}
        self.around = os.environ | author | {'REVIEW': program}
        self.run('git', 'init', '-q', '-b', 'main', '.')
        (self.folder / 'policies').mkdir()
        lines = (CLINIC / 'clinic.jsonl').read_text(encoding='utf-8').splitlines()
        added = [json.loads(line)['document'] for line in lines if json.loads(line)['do'] == 'policy.add']
        for number, document in enumerate(added):
            self.write(f'policies/{number}.json', json.dumps(document))
        others = [line for line in lines if json.loads(line)['do'] not in ('policy.add', 'counts')]
        self.write('state.jsonl', '\n'.join(others) + '\n')
        shutil.copy(CLINIC / 'attributes.json', self.folder)
        shutil.copy(CLINIC / 'expected.txt', self.folder / 'tests.txt')
        (self.folder / 'ci').mkdir()
        shutil.copy(CI / 'policies.sh', self.folder / 'ci')
        shutil.copy(CI / 'pre-commit', self.folder / '.git' / 'hooks')

    def write(self, path, text):
        (self.folder / path).write_text(text, encoding='utf-8')

    def run(self, *words, **more):
        return subprocess.run(words, cwd=self.folder, env=self.around | more, capture_output=True, text=True)

    def commit(self, **more):
        """Commits all that stands there: the status, and what was told."""
        self.run('git', 'add', '-A')
        ran = self.run('git', 'commit', '-qm', 'policies', **more)
        return ran.returncode, ran.stdout + ran.stderr


def faults(repository, program):
    status, told = repository.commit()
    if status or '3 passed, 0 failed' not in told:
        yield f'the first commit: status {status}: {told}'
    repository.write('policies/0.json', '{"Policy": {}}')
    if repository.run('git', 'commit', '-q', '--allow-empty', '-m', 'none').returncode:
        yield 'a file that is not about to be committed was looked at'
    status, told = repository.commit()
    if not status or 'policies/0.json: /Policy' not in told:
        yield f'a policy that may not be stored: status {status}: {told}'
    repository.run('git', 'reset', '-q', '--hard')
    moved = (CLINIC / 'moved.jsonl').read_text(encoding='utf-8')
    stands = (repository.folder / 'state.jsonl').read_text(encoding='utf-8')
    repository.write('state.jsonl', stands + '{"do":"root.clear"}\n')
    status, told = repository.commit()
    if not status or 'failed' not in told:
        yield f'a test that fails: status {status}: {told}'
    repository.run('git', 'checkout', '-q', '-b', 'moves', '--force')
    repository.write('state.jsonl', stands + moved)
    table = (CLINIC / 'moved.md').read_text(encoding='utf-8')
    status, told = repository.commit(FAIL_ON='loss')
    if not status or table not in told:
        yield f'a change by which Permit is lost, which may not be: status {status}: {told}'
    status, told = repository.commit()
    if status or table not in told:
        yield f'a change: status {status}: {told}'
    step = re.findall(r'run: (ci/.*)', (CI / 'policies.yml').read_text(encoding='utf-8'))[-1]
    step = step.replace('origin/${{ github.base_ref }}', 'main').replace(' review ', f' {program} ')
    summary = repository.folder / 'summary'
    ran = repository.run('bash', '-eo', 'pipefail', '-c', step, GITHUB_STEP_SUMMARY=str(summary))
    if ran.returncode or table not in summary.read_text(encoding='utf-8'):
        yield f'the workflow: status {ran.returncode}: {ran.stdout}{ran.stderr}'


def main():
    absent = [word for word in ['git', 'jq'] if not shutil.which(word)]
    if absent:
        print(f'tools/try_ci.py: there is no {absent[0]}')
        return 3
    program = str(pathlib.Path(sys.argv[1]).resolve())
    with tempfile.TemporaryDirectory() as folder:
        found = list(faults(Repository(folder, program), program))
    print('\n'.join(found) or 'tools/try_ci.py: the hook and the workflow are as they should be')
    return 1 if found else 0


if __name__ == '__main__':
    sys.exit(main())
