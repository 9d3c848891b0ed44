#!/bin/bash
# What tools/try_release.py --booted does where systemd was begun: $1 is the package.
set -eu
say() { echo "== $*"; }
fail() { echo "try_release.py: $*"; exit 1; }
docs=/usr/share/doc/review counts='{"counts":{"Deny":37,"Indeterminate":2,"NotApplicable":349,"Permit":92}}'
told() { curl -s http://127.0.0.1:8080/counts; }
say "installed, begun and sent the clinic by the README's commands"
mkdir -p /srv/here && cd /srv/here && cp "$1" .
dpkg-deb --fsys-tarfile "$1" | tar -xO ./usr/share/doc/review/README.md | sed -n 's/^    \(sudo dpkg\|curl\)/\1/p' |
    sed 's/sudo //g' >commands
cat commands
sent=$(bash commands 2>&1 | tail -n 1)
echo "$sent"
[ "$sent" = "$counts" ] || { systemctl --no-pager status review; fail "other counts"; }
say "as the unit says"
served=$(systemctl show -P MainPID review)
grep -e NoNewPrivs -e CapEff -e '^Seccomp:' "/proc/$served/status"
stat -c '%U' "/proc/$served"
say "killed, and begun again by systemd"
kill -KILL "$served"
until [ "$(systemctl is-active review)" = active ] && [ "$(systemctl show -P MainPID review)" != "$served" ]; do
    sleep 0.1
done
[ "$(told)" = "$counts" ] || fail "another state"
say "certificates read again, and begun anew"
systemctl reload review
systemctl restart review
[ "$(told)" = "$counts" ] || fail "another state"
say "removed, and purged"
dpkg -r review >/dev/null
if systemctl is-active review; then fail "it still runs"; fi
dpkg -P review >/dev/null
[ ! -d /var/lib/review ] || fail "something is left"
