#!/usr/bin/env python3
"""Tries a package: installs it in a root of its own, serves with it, upgrades to it, removes and purges it.

    try_release.py PACKAGE.deb
    try_release.py --booted PACKAGE.deb    begins systemd in that root, which starts the unit as the README says

The root is this machine's, with a layer over it that is thrown away, and a network of its own: it needs the right to
mount (root). What each step printed that is to be seen stands in what is printed. The status is 0 where all is as it
should be, 1 where it isn't, and 3 where no layer can be mounted, or systemd can't be begun."""
import os
import pathlib
import subprocess
import sys
import tempfile
import time

HERE = pathlib.Path(__file__).resolve().parent / 'release'
DUMP = HERE / 'dump-1.0.0.jsonl'
# A layer over the root of $1, below which nothing is changed, with a network that has this machine alone.
LAYER = r'''
set -e
cd "$1"; mount -t tmpfs none .; cd "$1"; mkdir up work root
mount -t overlay overlay -o lowerdir=/,upperdir=up,workdir=work root; cd root
mount -t proc proc proc
rm -f var/lib/man-db/auto-update
python3 -c 'import fcntl, socket, struct
fcntl.ioctl(socket.socket(), 0x8914, struct.pack("16sH14s", b"lo", 1, b""))'
'''
# The steps of $2 are run there, over the other files.
STEPS = r'''
mount --rbind /dev dev; mount -t tmpfs none tmp; chmod 1777 tmp
shift; cp "$@" tmp/
for file; do set -- "$@" "/tmp/${file##*/}"; shift; done
exec chroot . bash "$@"
'''
# Systemd runs them there, as the one thing behind basic.target, and ends. What they say, and their status, is left in
# the folder $2.
BOOTED = r'''
mount -t sysfs -o ro sysfs sys; mount -t cgroup2 cgroup2 sys/fs/cgroup
mount --bind proc/sys proc/sys; mount -o remount,bind,ro proc/sys
mount -t tmpfs -o mode=755 none dev; mkdir dev/pts dev/shm dev/mqueue dev/hugepages
mount -t devpts -o newinstance,ptmxmode=0666 devpts dev/pts; ln -s pts/ptmx dev/ptmx; ln -s /proc/self/fd dev/fd
number=3; for name in null . zero . full random urandom; do
    if [ $name != . ]; then mknod -m 666 dev/$name c 1 $number; fi; number=$((number + 1))
done
mknod -m 666 dev/tty c 5 0; mknod -m 600 dev/console c 5 1
mount -t tmpfs -o mode=755 none run
mkdir -p srv/out; mount --bind "$2" srv/out; shift 2; cp "$@" srv/
rm -rf etc/systemd/system; mkdir etc/systemd/system
printf '[Unit]\nRequires=basic.target\nWants=trial.service\nAfter=basic.target\n' >etc/systemd/system/trial.target
cat >etc/systemd/system/trial.service <<UNIT
[Unit]
After=basic.target
[Service]
Type=oneshot
StandardOutput=append:/srv/out/told
StandardError=inherit
ExecStart=/bin/sh -c 'bash /srv/${1##*/} /srv/${2##*/}; echo $? >/srv/out/status'
ExecStopPost=/bin/systemctl --force --force poweroff
UNIT
pivot_root . mnt
exec setpriv --bounding-set=-sys_module,-sys_time chroot . sh -c 'umount -l /mnt; container=other exec \
    /lib/systemd/systemd --system --unit=trial.target --show-status=no --log-target=console' >/srv/out/systemd 2>&1
'''
# What is the layer's own.
KINDS = ['--mount', '--pid', '--net']
# How long systemd may take with all of them.
BOOTED_SECONDS = 600


def older(package, folder):
    """The same package as of an older version."""
    root = folder / 'older'
    subprocess.run(['dpkg-deb', '-R', str(package), str(root)], check=True)
    control = root / 'DEBIAN' / 'control'
    lines = control.read_text().split('\n')
    control.write_text('\n'.join('Version: 0.9' if line.startswith('Version: ') else line for line in lines))
    to = folder / 'older.deb'
    words = ['dpkg-deb', '-Znone', '--root-owner-group', '-b', str(root), str(to)]
    subprocess.run(words, check=True, capture_output=True)
    return to


def unshared(kinds, script, *words):
    """The words that run a script by itself with those words."""
    return ['unshare', *kinds, '--fork', '--kill-child', 'sh', '-c', script, 'sh', *map(str, words)]


def tried(package, folder):
    """Whether all steps went well in the layer."""
    files = [HERE / 'steps.sh', package, older(package, folder), DUMP]
    return subprocess.run(unshared(KINDS, LAYER + STEPS, folder / 'layer', *files), check=False).returncode == 0


class Group:
    """A group of processes for a systemd, of which it takes this one to be the first."""

    def __init__(self):
        mounts = [line.split() for line in pathlib.Path('/proc/mounts').read_text().splitlines()]
        self.path = pathlib.Path(next(mount[1] for mount in mounts if mount[2] == 'cgroup2')) / f'review-{os.getpid()}'

    def __enter__(self):
        self.path.mkdir()
        return self

    def joined(self):
        (self.path / 'cgroup.procs').write_text('0')

    def __exit__(self, *_):
        # What was killed stays in it for a moment.
        for path in sorted(self.path.glob('**/'), reverse=True):
            for _ in range(100):
                try:
                    path.rmdir()
                    break
                except OSError:
                    time.sleep(0.1)


def booted(package, folder):
    """Whether all steps went well under a systemd; None where there was none."""
    out = folder / 'out'
    out.mkdir()
    kinds = [*KINDS, '--ipc', '--uts', '--cgroup']
    words = unshared(kinds, LAYER + BOOTED, folder / 'layer', out, HERE / 'booted.sh', package)
    with Group() as group:
        try:
            subprocess.run(words, check=False, preexec_fn=group.joined, timeout=BOOTED_SECONDS)
        except subprocess.TimeoutExpired:
            pass
    told, status = out / 'told', out / 'status'
    if not told.exists():
        print((out / 'systemd').read_text() if (out / 'systemd').exists() else 'systemd was not begun')
        return None
    print(told.read_text(), end='')
    return status.exists() and status.read_text().strip() == '0'


def main():
    words = [word for word in sys.argv[1:] if word != '--booted']
    if len(words) != 1:
        print('try_release.py [--booted] PACKAGE.deb', file=sys.stderr)
        return 2
    package = pathlib.Path(words[0]).resolve()
    if subprocess.run(unshared(KINDS, 'mount -t tmpfs none /mnt'), check=False).returncode:
        print('tools/try_release.py was not run: no layer can be mounted here')
        return 3
    with tempfile.TemporaryDirectory() as name:
        folder = pathlib.Path(name)
        (folder / 'layer').mkdir()
        went = (booted if '--booted' in sys.argv else tried)(package, folder)
    if went is None:
        print('tools/try_release.py --booted was not run: systemd does not begin here')
        return 3
    print('the package is as it should be' if went else 'the package is not as it should be')
    return 0 if went else 1


if __name__ == '__main__':
    sys.exit(main())
