#!/bin/sh
# Tests the front over a program: front/test.sh [PROGRAM [all]]; PROGRAM is crates/review/out/review unless it is named.
# With `all` it kills the front and the program 200 times each, stops the front 30 times, opens 100,000 sessions, sends all
# of the gate's sessions, ends servers of NATS 9 times under 8 fronts, empties such as were halted, and kills 120 times
# midway in a body with a key; without it 8 times, 4 times, 3,000, each eighth session, once under 3, and 4 times. Where
# nats-server or its client isn't there, tests of a log are skipped with a word. Where Go, its client of Prometheus or a C
# compiler (for the race detector) isn't there, it says so and ends with status 3; where strace isn't there, or may not look
# at processes, it does so when all tests but that of system calls have passed.
set -eu
program=$(realpath "${1:-$(dirname "$0")/../crates/review/out/review}")
cd "$(dirname "$0")"
[ -x "$program" ] || { echo "front/test.sh: there is no program at $program"; exit 1; }
for needed in go cc; do
    command -v "$needed" >/dev/null || { echo "front/test.sh: there is no $needed"; exit 3; }
done
[ -d /usr/share/gocode/src/github.com/prometheus/client_golang ] ||
    { echo 'front/test.sh: there is no golang-github-prometheus-client-golang-dev'; exit 3; }
unformed=$(find . ../bench/front ../clients/go -path ./out -prune -o -name '*.go' -print | xargs gofmt -l)
if [ -n "$unformed" ]; then
    echo "gofmt would change $unformed"
    exit 1
fi
if ! strace -o /dev/null true 2>/dev/null; then
    echo "front/test.sh: there is no strace that may look at processes"
    FRONT_UNTRACED=1
    export FRONT_UNTRACED
fi
command -v nats-server >/dev/null && [ -d /usr/share/gocode/src/github.com/nats-io/nats.go ] ||
    echo "front/test.sh: there is no nats-server, or no client of it: tests of a log are passed over"
[ -x /usr/sbin/slapd ] && [ -d /usr/share/gocode/src/github.com/go-ldap/ldap/v3 ] ||
    echo "front/test.sh: there is no slapd, or no client of LDAP: tests of directories are passed over"
ls /usr/lib/postgresql/*/bin/postgres >/dev/null 2>&1 && [ -d /usr/share/gocode/src/github.com/lib/pq ] ||
    echo "front/test.sh: there is no postgresql, or no client of it: tests of databases are passed over"
for proxy in nginx caddy haproxy; do
    [ -x "/usr/sbin/$proxy" ] || [ -x "/usr/bin/$proxy" ] || echo "front/test.sh: there is no $proxy: its test is passed over"
done
./build.sh
./build.sh go vet ./...
(cd .. && GO111MODULE=off go vet ./bench/front)
if [ "${2:-}" = all ]; then
    export FRONT_EDITS=2000 FRONT_PAST=1000
    FRONT_KILLS=200 FRONT_STOPS=30 FRONT_SESSIONS=1 FRONT_TABLES=200 FRONT_SERVERS=9 FRONT_REPLICAS=8 FRONT_ALL=1
    FRONT_LINES=200000 FRONT_LISTENERS=500 FRONT_RETURNS=100 FRONT_OPENED=100000 FRONT_KEYED=120
    export FRONT_KILLS FRONT_STOPS FRONT_SESSIONS FRONT_TABLES FRONT_SERVERS FRONT_REPLICAS FRONT_ALL
    FRONT_CHANGES=10000 FRONT_ENTRIES=5000
    export FRONT_SCIM_REQUESTS=20000 FRONT_SCIM_MANY=50000
    export FRONT_LINES FRONT_LISTENERS FRONT_RETURNS FRONT_OPENED FRONT_KEYED FRONT_CHANGES FRONT_ENTRIES
fi
tested() { REVIEW_PROGRAM=$program ./build.sh go test -race -count=1 -timeout 60m "$@"; }
mkdir -p out
if tested ./... >out/tested 2>&1; then
    cat out/tested
else
    cat out/tested
    # Servers of NATS are programs of others, and a busy machine halts them for longer than they bear: where nothing but
    # tests over them failed, these are tried once more by themselves.
    failed=$(sed -n 's/^--- FAIL: \(Test[A-Za-z0-9]*\) .*/\1/p' out/tested)
    [ -n "$failed" ] && ! echo "$failed" | grep -qv '^TestLog' && ! grep -q '^FAIL.review-front/' out/tested || exit 1
    echo "front/test.sh: once more:" $failed
    tested -v -run "^($(echo "$failed" | paste -sd '|'))\$" .
fi
[ -z "${FRONT_UNTRACED:-}" ] || exit 3
