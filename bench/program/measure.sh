#!/usr/bin/env bash
# Measures the program on the three scripts: processor time and memory.
#
# usage: bench/program/measure.sh [PROGRAM [RUNS]]
#
# PROGRAM is the proved yb_script, by default that of this repository. Times are the least of RUNS runs, 5 by default,
# of user and system time together. It wants bash, awk and GNU time as /usr/bin/time.
set -eu
here=$(cd "$(dirname "$0")" && pwd)
program=${1:-$here/../../crates/yb_script/out/yb_script}
runs=${2:-5}
puts=30000
work=$(mktemp -d)
trap 'rm -rf "$work"' EXIT

# the least processor time of the runs of a script in milliseconds, the greatest size in KiB, and the status
measure() {
    local least=999999999 size=0 status=0 i user system kib
    for ((i = 0; i < runs; i++)); do
        status=0
        /usr/bin/time -q -f '%U %S %M' -o "$work/time" "$program" run <"$1" >"$work/out" 2>/dev/null || status=$?
        read -r user system kib <"$work/time"
        ms=$(awk -v u="$user" -v s="$system" 'BEGIN { printf "%d", (u + s) * 1000 + 0.5 }')
        if ((ms < least)); then least=$ms; fi
        size=$kib
    done
    echo "$least $size $status"
}

for kind in early late; do
    sh "$here/$kind.sh" >"$work/without"
    sh "$here/$kind.sh" "$puts" >"$work/with"
    read -r before size_before status_before < <(measure "$work/without")
    read -r after size_after status_after < <(measure "$work/with")
    echo "$kind: without puts $before ms, $size_before KiB, status $status_before;" \
        "with $puts puts $after ms, $size_after KiB, status $status_after"
    awk -v a="$after" -v b="$before" -v n="$puts" -v k="$((size_after - size_before))" 'BEGIN {
        printf "    %.2f microseconds a put; %.0f bytes an entry\n", (a - b) * 1000 / n, k * 1024 / (2 * n) }'
done
sh "$here/full.sh" >"$work/full"
read -r ms size status < <(measure "$work/full")
echo "full: $ms ms, $size KiB, status $status, $(wc -l <"$work/out") lines written"
awk -v m="$ms" -v k="$size" 'BEGIN { printf "    %.2f microseconds and %.0f bytes an entry\n", m / 1000, k * 1024 / 1000000 }'
