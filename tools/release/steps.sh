#!/bin/bash
# What tools/try_release.py does in a root of its own: $1 is the package, $2 one of an older version, $3 what 1.0.0
# wrote as a dump.
set -eu
say() { echo "== $*"; }
fail() { echo "try_release.py: $*"; exit 1; }
docs=/usr/share/doc/review counts='{"counts":{"Deny":37,"Indeterminate":2,"NotApplicable":349,"Permit":92}}'
ask() { curl -sf --data-binary "$1" http://127.0.0.1:8080/lines; }
front() {
    /usr/sbin/runuser -u review -- /usr/bin/review-front --program /usr/lib/review/review --journal /var/lib/review "$@" \
        >/tmp/front.log 2>&1 &
    served=$!
    for _ in $(seq 200); do curl -sf http://127.0.0.1:8080/readyz >/dev/null && return; sleep 0.1; done
    cat /tmp/front.log; fail "the front isn't ready"
}
ended() { kill "$(pgrep -u review -x review-front | head -n 1)"; wait "$served" || fail "the front ended with $?"; }

say "installed: an older version"
dpkg -i "$2" >/tmp/dpkg.log 2>&1 || { cat /tmp/dpkg.log; fail "dpkg -i"; }
id review; stat -c '%U %a %n' /var/lib/review
if command -v systemd-analyze >/dev/null; then
    say "the units"; systemd-analyze verify /lib/systemd/system/review.service /lib/systemd/system/review-source.timer
fi
say "the clinic over the installed program"
cd $docs/examples/clinic
told=$(review serve <clinic.jsonl | tail -n 1)
echo "$told"
[ "$told" = "$counts" ] || fail "other counts"
review test --state clinic.jsonl expected.txt
if /usr/bin/python3 -c 'import jinja2' 2>/dev/null; then
    cat clinic.jsonl changes.jsonl | review serve |
        /usr/share/review/tools/page.py --title 'The clinic' >/tmp/clinic.html
    grep -o '<title>.*</title>' /tmp/clinic.html
fi
say "what 1.0.0 dumped of the clinic"
(cat "$3"; echo '{"do":"dump"}') | review serve | tail -n 1 | review lines | cmp - "$3" || fail "another dump"
cd /
say "served as the README says, and edited"
front
told=$(sh -c "$(grep '^    curl ' $docs/README.md)")
echo "$told"
[ "$told" = "$counts" ] || fail "other counts"
/usr/share/review/tools/leave.py --front http://127.0.0.1:8080 gus
say "people of a file, as the page of sources says"
(
    mkdir /tmp/sources && cd /tmp/sources
    sed -n '/^### CSV/,/^### JSON/s/^    //p' $docs/docs/SOURCES.md >block && sh -eu block | tail -n 1
)
curl -sf http://127.0.0.1:8080/can/ann >/dev/null || fail "ann isn't listed"
say "a user by SCIM, as the example's file says"
ended
front --scim $docs/examples/clinic/scim.json
curl -sf -d '{"userName":"ivana"}' http://127.0.0.1:8080/scim/v2/Users >/dev/null || fail "no user is made"
curl -sf http://127.0.0.1:8080/can/ivana >/dev/null || fail "ivana isn't listed"
before=$(ask '{"do":"dump"}' | sha256sum)
ended
say "upgraded, with the journal that stands"
dpkg -i "$1" >/tmp/dpkg.log 2>&1 || { cat /tmp/dpkg.log; fail "dpkg -i over the older version"; }
dpkg-query -W review
front
[ "$(ask '{"do":"dump"}' | sha256sum)" = "$before" ] || fail "another state behind the upgrade"
ended
say "manual pages, completions, sums"
for page in review review-serve review-check review-test review-compare review-front review-source; do
    [ -e /usr/share/man/man1/$page.1 ] || fail "no manual page of $page"
done
if command -v man >/dev/null; then man -l --warnings /usr/share/man/man1/review-serve.1 | head -n 4; fi
bash -c '. /usr/share/bash-completion/completions/review
    COMP_WORDS=(review ch); COMP_CWORD=1; _review; echo "${COMPREPLY[*]}"'
if command -v zsh >/dev/null; then
    for file in /usr/share/zsh/vendor-completions/_review*; do
        zsh -fc 'compadd() { print -- "$@" }; _files() {}; words=(review ch); . "$1"' zsh $file | cut -c1-72
    done
fi
sha256sum --quiet -c $docs/SHA256SUMS
head -n 6 $docs/PROVED
python3 -m json.tool $docs/review.spdx.json >/dev/null
say "removed"
dpkg -r review >/tmp/dpkg.log 2>&1 || { cat /tmp/dpkg.log; fail "dpkg -r"; }
[ -d /var/lib/review ] || fail "what was edited is gone"
[ ! -e /usr/bin/review ] || fail "the program is still there"
say "purged"
dpkg -P review >/tmp/dpkg.log 2>&1 || { cat /tmp/dpkg.log; fail "dpkg -P"; }
[ ! -d /var/lib/review ] && [ ! -d /etc/review ] && ! id review 2>/dev/null && ! id review-source 2>/dev/null || fail "something is left"
