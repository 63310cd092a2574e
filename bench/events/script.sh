#!/bin/sh
# Writes a script over 64 tablets under a schedule, and then a command so many times.
#
# usage: bench/events/script.sh KIND [nothing | put | get | coordinate [COUNT]]
#
# KIND is the past that the cluster has by then:
#   early      100 entries
#   snapshots  50 snapshots and 200,000 entries
#   tables     10,000 tables of the table's name, made and dropped before it was made
#   columns    5,000 columns that came and went, which are 10,000 records of the table
# `coordinate 1` finds nothing to do. Puts and gets go over 1,000 keys.
awk -v kind="${1:-early}" -v work="${2:-nothing}" -v count="${3:-20000}" '
function begin() {
    print "create_table a t tablets 64 v:int\ncreate_snapshot_schedule 1 60 a"
    for (i = 0; i < 48; i++) print "put a t k" i " v=1"
}
BEGIN {
    print "tick 1000000\ncreate_namespace a"
    # 60 tables are dropped, and then their slots are freed: 60 * 4 + 62 entries.
    if (kind == "tables") for (i = 1; i <= 10000; i++) {
        print "create_table a t tablets 1 v:int\ndrop_table a t"
        if (i % 60 == 0 || i == 10000) print "cleanup"
    }
    begin()
    if (kind == "columns") for (i = 0; i < 5000; i++) print "add_column a t w:int\ndrop_column a t w"
    # A snapshot is 194 entries, a cutoff of all tablets 65.
    if (kind == "snapshots") {
        for (i = 1; i <= 50; i++)
            printf "tick %d000000\ntake_snapshot 00000004-0000-4000-8000-000000000001\nsettle\n", 1 + i * 60
        for (i = 0; i < 2926; i++) print "cutoff"
    }
    for (i = 0; i < count; i++) {
        if (work == "put") print "put a t k" (i * 7 % 1000) " v=" i
        if (work == "get") print "get a t k" (i * 7 % 1000)
        if (work == "coordinate") print "coordinate 1"
    }
}'
