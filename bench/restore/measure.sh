#!/usr/bin/env bash
# Measures what a snapshot and a restore of a namespace of 60 tablets cost, with 10,000 and with 100,000 versions.
#
# usage: bench/restore/measure.sh [PROGRAM [RUNS]]
#
# PROGRAM is the proved yb_script, by default that of this repository. Each cost is the least processor time of RUNS runs, 25
# by default, of the script with it, less that of the script without it. The line `ratio` says how many times as long the
# larger takes: 12 is the most that it should be. The smaller restore is some 10 ms, so on a machine with other work the
# ratio moves by a third either way.
set -eu
here=$(cd "$(dirname "$0")" && pwd)
program=${1:-$here/../../crates/yb_script/out/yb_script}
runs=${2:-25}
work=$(mktemp -d)
trap 'rm -rf "$work"' EXIT

scripts=()
for versions in 10000 100000; do
    for what in nothing snapshot restore; do
        sh "$here/script.sh" "$versions" "$what" >"$work/$versions.$what"
        scripts+=("$work/$versions.$what")
    done
done
"$here/../least" "$program" "$runs" "${scripts[@]}" | awk '{
    printf "10000 versions: %d ms without; a snapshot %d ms; a restore %d ms\n", $1, $2 - $1, $3 - $1
    printf "100000 versions: %d ms without; a snapshot %d ms; a restore %d ms\n", $4, $5 - $4, $6 - $4
    if ($2 > $1 && $3 > $1) printf "ratio: a snapshot %.1f, a restore %.1f\n", ($5 - $4) / ($2 - $1), ($6 - $4) / ($3 - $1)
}'
