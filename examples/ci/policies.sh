#!/bin/sh
# What a change of policies has to pass: policies.sh PROGRAM [BASE]
# In a folder with policies/*.json, attributes.json (what they may ask for), state.jsonl (names, values, the root) and
# tests.txt: the policies are checked together and the tests run. Where a commit BASE is named, it writes behind them, as
# Markdown, what the change does to the table. Somebody has to look at it: it fails only where FAIL_ON names what may not
# happen, gain, loss or any.
set -eu
program=$1
base=${2:-}
work=$(mktemp -d)
trap 'rm -rf "$work"' EXIT

# The lines of the state that the files of a folder make.
state() {
    echo '{"do":"format","version":2}'
    jq -c '{do: "policy.add", document: .}' "$1"/policies/*.json
    cat "$1/state.jsonl"
}

"$program" check --strict --attributes attributes.json policies/*.json
state . >"$work/after.jsonl"
"$program" test --state "$work/after.jsonl" tests.txt
[ -n "$base" ] || exit 0
mkdir "$work/before"
git archive "$base" policies state.jsonl | tar -x -C "$work/before"
state "$work/before" >"$work/before.jsonl"
status=0
"$program" compare --markdown ${FAIL_ON:+--fail-on "$FAIL_ON"} "$work/before.jsonl" "$work/after.jsonl" || status=$?
[ "$status" -le 1 ] || exit "$status"
