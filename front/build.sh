#!/bin/sh
# Builds the front, front/out/review-front, and what brings sources to it, front/out/review-source. Needs Debian's
# golang-go and golang-github-prometheus-client-golang-dev.
#   front/build.sh            builds
#   front/build.sh go ..      runs a command of Go on the front's packages instead
# Packages are found by a GOPATH of its own, front/out/go, in which a link leads back here; nothing is fetched.
set -eu
cd "$(dirname "$0")"
mkdir -p out/go/src
ln -sfn ../../.. out/go/src/review-front
GOPATH="$PWD/out/go:/usr/share/gocode"
GO111MODULE=off
GOFLAGS=${GOFLAGS:-}
# The client of NATS is Debian's golang-github-nats-io-go-nats-dev; without it the front is built without --log.
# Without golang-github-go-ldap-ldap-dev, and golang-github-lib-pq-dev, review-source is built without directories, and
# without databases.
code=/usr/share/gocode/src/github.com tags=
if [ -d $code/nats-io/nats.go ]; then tags="$tags,nats"; fi
if [ -d $code/go-ldap/ldap/v3 ]; then tags="$tags,ldap"; fi
if [ -d $code/lib/pq ]; then tags="$tags,postgres"; fi
if [ -n "$tags" ]; then GOFLAGS="$GOFLAGS -tags=${tags#,}"; fi
export GOPATH GO111MODULE GOFLAGS
cd out/go/src/review-front
if [ $# -gt 0 ]; then exec "$@"; fi
go build -o out/review-front review-front
go build -o out/review-source review-front/review-source
