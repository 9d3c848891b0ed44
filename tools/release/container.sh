#!/bin/sh
# Builds an image for containers of a package (tools/release.sh), by buildah: two programs and the C library.
#   tools/release/container.sh PACKAGE.deb NAME        builds the image NAME
#   tools/release/container.sh --try PACKAGE.deb NAME  builds it, starts it with nothing it doesn't need, and asks it
set -eu
tries=
if [ "$1" = --try ]; then tries=1; shift; fi
package=$(realpath "$1")
image=$2
here=$(cd "$(dirname "$0")" && pwd)
recipe=$here/Containerfile clinic=$here/../../examples/clinic/clinic.jsonl
context=$(mktemp -d)
trap 'rm -rf "$context"' EXIT
mkdir -p "$context/lib64" "$context/lib/x86_64-linux-gnu" "$context/state"
dpkg-deb --fsys-tarfile "$package" | tar -xC "$context" --strip-components=4 ./usr/lib/review
cp /lib64/ld-linux-x86-64.so.2 "$context/lib64/"
cp /lib/x86_64-linux-gnu/libc.so.6 "$context/lib/x86_64-linux-gnu/"
chmod 0700 "$context/state"
buildah build --isolation chroot --quiet --timestamp "${SOURCE_DATE_EPOCH:-0}" -t "$image" -f "$recipe" "$context"
if [ -z "$tries" ]; then exit 0; fi
made=$(buildah from "$image")
trap 'buildah rm "$made" >/dev/null; rm -rf "$context"' EXIT
: >"$context/log"
# At a port that nothing listens at, which the front says.
buildah run --isolation chroot --cap-drop all --user 65532:65532 "$made" -- /usr/lib/review/review-front \
    --program /usr/lib/review/review --journal /var/lib/review --listen 127.0.0.1:0 >"$context/log" 2>&1 &
started=$!
port=
for _ in $(seq 200); do
    port=$(sed -n 's/.*"address":"127.0.0.1:\([0-9]*\)".*/\1/p' "$context/log")
    if [ -n "$port" ] && curl -sf "http://127.0.0.1:$port/readyz" >/dev/null; then break; fi
    sleep 0.1
done
told=$(curl -sX POST -T "$clinic" "http://127.0.0.1:$port/lines" | tail -n 1)
echo "$told"
case $told in *'"Permit":92}}') ;; *) cat "$context/log"; exit 1 ;; esac
# Its own process stands below those of buildah.
served=$started
until [ "$(cat "/proc/$served/comm")" = review-front ]; do served=$(pgrep -P "$served" | head -n 1); done
grep -e CapEff -e '^Uid' "/proc/$served/status"
kill -TERM "$served"
wait "$started"
buildah images "$image"
