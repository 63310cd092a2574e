#!/usr/bin/env bash
# Measures what a put, a get and a coordinate that finds nothing to do cost, early and late in the life of a cluster.
#
# usage: bench/events/measure.sh [PROGRAM [RUNS]]
#
# PROGRAM is the proved yb_script, by default that of this repository. Each cost is the least processor time of RUNS runs, 7
# by default, of a script with 20,000 of the command (40,000 of coordinate), less that of the script without them. All of
# it is half a minute of processor time or less.
set -eu
here=$(cd "$(dirname "$0")" && pwd)
program=${1:-$here/../../crates/yb_script/out/yb_script}
runs=${2:-7}
count=20000
work=$(mktemp -d)
trap 'rm -rf "$work"' EXIT

for kind in early snapshots tables columns; do
    for what in nothing put get; do
        sh "$here/script.sh" "$kind" "$what" "$count" >"$work/$what"
    done
    sh "$here/script.sh" "$kind" coordinate $((2 * count)) >"$work/coordinate"
    read -r nothing put get coordinate \
        < <("$here/../least" "$program" "$runs" "$work/nothing" "$work/put" "$work/get" "$work/coordinate")
    echo "$kind: $nothing ms without"
    awk -v a="$((put - nothing))" -v b="$((get - nothing))" -v c="$((coordinate - nothing))" -v n="$count" 'BEGIN {
        printf "    microseconds: a put %.2f, a get %.2f, a coordinate %.2f\n", a * 1000 / n, b * 1000 / n, c * 1000 / (2 * n) }'
done
