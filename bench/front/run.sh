#!/bin/sh
# Builds the front and its measurement, and measures: bench/front/run.sh [PROGRAM [OPTION ..]]
set -eu
cd "$(dirname "$0")/../.."
program=${1:-crates/review/out/review}
[ $# -eq 0 ] || shift
front/build.sh
GO111MODULE=off go build -o front/out/bench ./bench/front
exec front/out/bench --program "$program" "$@"
