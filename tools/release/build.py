"""Makes an archive and a package for Debian of what the gate left."""
import os
import pathlib
import shutil
import subprocess
import sys
import tempfile

sys.dont_write_bytecode = True
import contents  # noqa: E402

CONTROL = """Package: review
Version: {version}
Section: admin
Priority: optional
Architecture: amd64
Maintainer: The maintainers of review <maintainers@users.noreply.zolgamre.example>
Depends: libc6, passwd
Recommends: python3, python3-lxml, python3-jinja2, curl
Installed-Size: {size}
Description: policy decisions of XACML 3.0, and a table of them kept live
 A decision point for OASIS XACML 3.0 core with a review table above it: for each
 listed person, action and resource the decision and the rules that decided it,
 right after every edit. The program is proved (PROVED says of what); a front
 serves it over HTTP and keeps what is edited, review-source brings people and
 things from directories, databases and files, and tools bring policies over.
"""


def archive(root, name, out, epoch):
    """The archive: a folder of its name with all that the package has."""
    words = ['tar', '--sort=name', f'--mtime=@{epoch}', '--owner=0', '--group=0', '--numeric-owner', '--format=gnu']
    words += [f'--transform=s,^[.],{name},', '-cf', '-', '-C', str(root), '.']
    with (out / f'{name}.tar.gz').open('wb') as to:
        tar = subprocess.Popen(words, stdout=subprocess.PIPE)
        subprocess.run(['gzip', '-9n'], stdin=tar.stdout, stdout=to, check=True)
        if tar.wait():
            raise contents.Fault('tar failed')


def package(root, version, out, epoch):
    """The package for Debian."""
    debian = root / 'DEBIAN'
    debian.mkdir()
    size = sum(path.lstat().st_size for path in root.rglob('*') if path.is_file()) // 1024
    (debian / 'control').write_text(CONTROL.format(version=version, size=size))
    (debian / 'conffiles').write_text('/etc/default/review\n/etc/default/review-source\n')
    for name in ('postinst', 'prerm', 'postrm'):
        contents.copied(contents.HERE / name, debian / name, 0o755)
    for path in [root, debian, *debian.iterdir()]:
        os.utime(path, (epoch, epoch))
    debian.chmod(0o755)
    to = out / f'review_{version}_amd64.deb'
    environment = os.environ | {'SOURCE_DATE_EPOCH': str(epoch)}
    words = ['dpkg-deb', '-Zxz', '--root-owner-group', '--build', str(root), str(to)]
    subprocess.run(words, check=True, env=environment, stdout=subprocess.DEVNULL)
    shutil.rmtree(debian)


def main():
    if len(sys.argv) != 2:
        print('release.sh OUT', file=sys.stderr)
        return 2
    out = pathlib.Path(sys.argv[1])
    try:
        passed = contents.gate()
        epoch = int(os.environ.get('SOURCE_DATE_EPOCH') or contents.output('git', 'log', '-1', '--format=%ct'))
        version = contents.output(str(contents.ROOT / 'crates/review/out/review'), '--version').split()[1]
        out.mkdir(parents=True, exist_ok=True)
        with tempfile.TemporaryDirectory() as folder:
            root = pathlib.Path(folder) / 'root'
            root.mkdir()
            contents.laid_out(root, version, epoch, passed)
            archive(root, f'review-{version}', out, epoch)
            package(root, version, out, epoch)
    except (contents.Fault, OSError, subprocess.CalledProcessError) as fault:
        print(f'release.sh: {fault}', file=sys.stderr)
        return 1
    for path in sorted(out.iterdir()):
        print(f'{contents.digest(path)}  {path.stat().st_size:>9}  {path.name}')
    return 0


if __name__ == '__main__':
    sys.exit(main())
