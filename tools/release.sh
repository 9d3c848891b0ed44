#!/bin/sh
# Makes of a clean clone whose gate has passed (bash .ci/run) an archive and a package for Debian in the folder OUT:
# the proved program, the front, the tools that users run, pages, manual pages, completions, the unit of systemd, what
# it is made of, and what was proved. Two packages of one program and one SOURCE_DATE_EPOCH (else the commit's time)
# are equal by bytes.
#   tools/release.sh OUT
set -eu
top=$(cd "$(dirname "$0")/.." && pwd)
CGO_ENABLED=0 GOFLAGS='-trimpath -buildvcs=false' "$top/front/build.sh"
exec python3 "$top/tools/release/build.py" "$@"
