#!/bin/sh
# Writes a script of cutoffs over 64 tablets, until the master's log has its 1,000,000 entries: status 8.
awk 'BEGIN {
    print "tick 1000000\ncreate_namespace a\ncreate_table a t tablets 64 v:int";
    for (i = 0; i < 15400; i++) print "cutoff";
}'
