#!/bin/sh
# Writes a script: a table of 64 tablets, 100 entries, and then this many puts (none by default) over 1,000 keys.
puts=${1:-0}
awk -v puts="$puts" 'BEGIN {
    print "tick 1000000\ncreate_namespace a\ncreate_table a t tablets 64 v:int";
    for (i = 0; i < 49; i++) print "put a t k" i " v=1";
    for (i = 0; i < puts; i++) print "put a t k" (i * 7 % 1000) " v=" i;
}'
