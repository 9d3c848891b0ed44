#!/bin/sh
# Makes the package twice of what the gate left, compares the two byte by byte, and tries one (tools/try_release.py),
# and where buildah is an image of it.
# Where no gate has passed over what is committed, or something is missing, it says so and ends with status 3.
set -eu
top=$(cd "$(dirname "$0")/../.." && pwd)
missing() { echo "tools/release/try.sh was not run: $1"; exit 3; }
[ -e "$top/out/gate.json" ] || missing 'no gate has passed over what is committed'
for word in dpkg-deb go unshare curl python3; do command -v "$word" >/dev/null || missing "there is no $word"; done
[ -d /usr/share/gocode/src/github.com/prometheus/client_golang ] || missing 'there is no client of Prometheus for Go'
out=$(mktemp -d)
trap 'rm -rf "$out"' EXIT
"$top/tools/release.sh" "$out/one"
"$top/tools/release.sh" "$out/other" >/dev/null
for file in "$out"/one/*; do
    cmp "$file" "$out/other/${file##*/}" || { echo 'two packages of one program differ'; exit 1; }
done
"$top/tools/try_release.py" "$out"/one/*.deb
if command -v buildah >/dev/null; then
    "$top/tools/release/container.sh" --try "$out"/one/*.deb review-tried
    buildah rmi review-tried >/dev/null
else
    echo 'tools/release/container.sh was not run: there is no buildah'
fi
