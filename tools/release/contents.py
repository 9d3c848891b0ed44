"""What a package has: which files, who made them, and what was proved of them."""
import datetime
import hashlib
import json
import os
import pathlib
import re
import shutil
import subprocess

import helped

ROOT = pathlib.Path(__file__).resolve().parents[2]
HERE = ROOT / 'tools' / 'release'
# The tools that users run, with the folders that they need.
TOOLS = ['alfa.py', 'alfa_form', 'declared.py', 'leave.py', 'lines.py', 'page.py', 'page', 'schemas', 'xacml.py']
TOOLS += ['xacml_form']
# Of a tool's folder: what only tests of the repository need.
TESTS = shutil.ignore_patterns('try_*', 'mutating.py', 'examples', '__pycache__')
# The sums of each file: SPDX wants the older too.
KINDS = ['sha1', 'sha256']


class Fault(Exception):
    """Why no package can be made."""


def output(*words, **more):
    return subprocess.run(words, cwd=ROOT, check=True, capture_output=True, text=True, **more).stdout


def digest(path, kind='sha256'):
    return hashlib.new(kind, path.read_bytes()).hexdigest()


def date_of(epoch):
    return datetime.datetime.fromtimestamp(epoch, datetime.timezone.utc)


def gate():
    """What the gate left when it passed: the commit, its own lines, the prover's logic, the program's digest."""
    path = ROOT / 'out' / 'gate.json'
    if not path.exists():
        raise Fault('no gate has passed here: bash .ci/run leaves out/gate.json')
    passed = json.loads(path.read_text())
    commit = output('git', 'rev-parse', 'HEAD').strip()
    if passed['commit'] != commit:
        raise Fault(f'the gate passed over {passed["commit"]}, and this is {commit}')
    if output('git', 'status', '--porcelain', '--untracked-files=no').strip():
        raise Fault('files differ from those that were committed')
    return passed


def proved(passed, program):
    """The text of PROVED."""
    crates = sorted(path.parent for path in (ROOT / 'crates').glob('*/src'))
    lines = [
        'What was proved of the program in this package, and by what.',
        '',
        *(f'The gate ended with: {line}' for line in passed['lines']),
        f'Prover: {passed["prover"]}',
        f'Commit: {passed["commit"]}',
        f'Source: {output("git", "rev-parse", "HEAD^{tree}").strip()} (the tree of that commit)',
        f'Program: sha256 {digest(program)}',
        '',
        'Each crate with the tree of its folder in that commit:',
        *(f'  {path.name} {output("git", "rev-parse", f"HEAD:crates/{path.name}").strip()}' for path in crates),
        '',
        'The front, review-front, review-source and the tools are tested, and not proved.',
    ]
    return '\n'.join(lines) + '\n'


def packages_of_go():
    """The packages of Debian that the front was built of, with their versions."""
    names = ['golang-go', 'golang-github-prometheus-client-golang-dev', 'golang-golang-x-net-dev']
    names += ['golang-github-google-renameio-dev', 'golang-github-nats-io-go-nats-dev']
    names += ['golang-github-go-ldap-ldap-dev', 'golang-github-go-asn1-ber-asn1-ber-dev', 'golang-github-lib-pq-dev']
    listed = subprocess.run(
        ['dpkg-query', '-W', '-f', '${db:Status-Abbrev} ${Package} ${Version}\n', *names],
        capture_output=True,
        text=True,
        check=False,
    ).stdout
    return [tuple(line.split()[1:]) for line in listed.splitlines() if line.startswith('ii')]


def bill(version, epoch, passed, files):
    """What the package is made of, by SPDX 2.3."""
    created = date_of(epoch).strftime('%Y-%m-%dT%H:%M:%SZ')

    def package(name, number, what):
        return {
            'SPDXID': 'SPDXRef-' + re.sub(r'[^A-Za-z0-9.-]', '-', name),
            'name': name,
            'versionInfo': number,
            'downloadLocation': 'NOASSERTION',
            'licenseConcluded': 'NOASSERTION',
            'licenseDeclared': 'NOASSERTION',
            'copyrightText': 'NOASSERTION',
            'filesAnalyzed': False,
            'comment': what,
        }

    own = {path.parent.name for path in (ROOT / 'crates').glob('*/src')}
    words = re.sub(r'(?m)^#.*$', '', (ROOT / 'crates.txt').read_text()).replace(':', ' ').split()
    parts = [package('review', version, 'the proved program')]
    parts += [package('review-front', version, 'the front, not proved')]
    parts += [package('review-source', version, 'what brings people and things to the front, not proved')]
    parts += [package(name, passed['prover'], 'a crate of the kit') for name in sorted(set(words) - own)]
    parts += [package(name, number, 'a package of Debian, in the front') for name, number in packages_of_go()]
    inside = [
        {'spdxElementId': 'SPDXRef-review', 'relationshipType': 'DEPENDS_ON', 'relatedSpdxElement': part['SPDXID']}
        for part in parts[1:]
    ]
    whole = {'spdxElementId': 'SPDXRef-DOCUMENT', 'relationshipType': 'DESCRIBES'}
    whole['relatedSpdxElement'] = 'SPDXRef-review'
    listed = [
        {
            'SPDXID': f'SPDXRef-File-{number}',
            'fileName': './' + name,
            'checksums': [{'algorithm': kind.upper(), 'checksumValue': sums[kind]} for kind in sorted(sums)],
            'licenseConcluded': 'NOASSERTION',
            'copyrightText': 'NOASSERTION',
        }
        for number, (name, sums) in enumerate(files)
    ]
    return {
        'spdxVersion': 'SPDX-2.3',
        'dataLicense': 'CC0-1.0',
        'SPDXID': 'SPDXRef-DOCUMENT',
        'name': f'review-{version}',
        'documentNamespace': f'urn:review:{version}:{passed["commit"]}',
        'creationInfo': {'created': created, 'creators': ['Tool: tools/release.sh']},
        'packages': parts,
        'files': listed,
        'relationships': [whole] + inside,
    }


def copied(source, to, mode=0o644):
    to.parent.mkdir(parents=True, exist_ok=True)
    shutil.copyfile(source, to)
    to.chmod(mode)


def written(to, text, mode=0o644):
    to.parent.mkdir(parents=True, exist_ok=True)
    to.write_text(text)
    to.chmod(mode)


def programs(root, version, epoch, built):
    """The programs, what calls them, and what they say of themselves."""
    date = date_of(epoch).strftime('%Y-%m-%d')
    of = {'review': helped.of_review, 'review-front': helped.of_front, 'review-source': helped.of_source}
    for name, told_of in of.items():
        place = root / 'usr/lib/review' / name
        copied(built[name], place, 0o755)
        link = root / 'usr/bin' / name
        link.parent.mkdir(parents=True, exist_ok=True)
        link.symlink_to(f'../lib/review/{name}')
        told = told_of(str(place))
        for command in told:
            written(root / f'usr/share/man/man1/{command.name}.1', helped.manual(command, version, date))
        written(root / f'usr/share/bash-completion/completions/{name}', helped.bash(told))
        written(root / f'usr/share/zsh/vendor-completions/_{name}', helped.zsh(told))


def pages(root):
    """The pages, the examples, and the tools that users run."""
    docs = root / 'usr/share/doc/review'
    listed = output('git', 'ls-files', '*.md', 'docs', 'examples', 'clients').split('\n')[:-1]
    for name in listed:
        copied(ROOT / name, docs / name)
    for name in TOOLS:
        source, to = ROOT / 'tools' / name, root / 'usr/share/review/tools' / name
        if source.is_dir():
            shutil.copytree(source, to, ignore=TESTS)
        else:
            copied(source, to, 0o755)


def laid_out(root, version, epoch, passed):
    """All that is in a package, below that folder."""
    built = {'review': ROOT / 'crates/review/out/review'}
    built |= {name: ROOT / 'front/out' / name for name in ('review-front', 'review-source')}
    if digest(built['review']) != passed['program']:
        raise Fault('crates/review/out/review is another program than the gate left')
    programs(root, version, epoch, built)
    pages(root)
    for name in ('review.service', 'review-source.service', 'review-source.timer'):
        copied(HERE / name, root / 'lib/systemd/system' / name)
    copied(HERE / 'default', root / 'etc/default/review')
    copied(HERE / 'default-source', root / 'etc/default/review-source')
    (root / 'etc/review/sources').mkdir(parents=True)
    written(root / 'usr/share/doc/review/PROVED', proved(passed, built['review']))
    files = sorted(path for path in root.rglob('*') if path.is_file() and not path.is_symlink())
    sums = [(str(path.relative_to(root)), {kind: digest(path, kind) for kind in KINDS}) for path in files]
    text = json.dumps(bill(version, epoch, passed, sums), indent=1) + '\n'
    written(root / 'usr/share/doc/review/review.spdx.json', text)
    written(root / 'usr/share/doc/review/SHA256SUMS', ''.join(f'{of["sha256"]}  {name}\n' for name, of in sums))
    for path in [root, *root.rglob('*')]:
        if path.is_dir():
            path.chmod(0o755)
        os.utime(path, (epoch, epoch), follow_symlinks=False)
