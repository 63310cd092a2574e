#!/bin/sh
# Writes a script: a namespace of one table with 60 tablets, under a schedule, and this many versions of rows (10,000 by
# default), spread over all tablets. Half of them are put before a first snapshot, the other half behind it, over the same
# keys. Then comes nothing, a snapshot, or a restore to a time between the two halves.
#
# usage: bench/restore/script.sh [VERSIONS [nothing | snapshot | restore]]
#
# A script of 100,000 versions fits into its 1,048,576 bytes only with batches, and keys of three letters, or of four
# where a tablet has none of three.
awk -v versions="${1:-10000}" -v work="${2:-nothing}" '
# Fills keys[i, j], key j of tablet i, with wanted[i] keys for each tablet: all together half as many as the versions.
function make_keys(    i, code, letters, missing) {
    for (i = 0; i < 60; i++) {
        wanted[i] = int((i + 1) * versions / 120) - int(i * versions / 120)
        missing += wanted[i]
        for (code = int(i * 65536 / 60); code < int((i + 1) * 65536 / 60); code++) tablet_of[code] = i
    }
    letters = split("0 1 2 3 4 5 6 7 8 9 a b c d e f g h i j k l m n o p q r s t u v w x y z " \
        "A B C D E F G H I J K L M N O P Q R S T U V W X Y Z", letter, " ")
    for (i = 32; i < 127; i++) byte[sprintf("%c", i)] = i
    for (i = 0; i <= letters && missing > 0; i++) missing -= take_keys(letter[i], letters)
    if (missing > 0) { print "there are not so many keys" >"/dev/stderr"; exit 1 }
}
# Takes the keys of three letters behind a prefix, as long as their tablet wants some. Returns how many it took.
function take_keys(prefix, letters,    a, b, c, code, tablet, taken) {
    for (a = 1; a <= letters; a++) for (b = 1; b <= letters; b++) for (c = 1; c <= letters; c++) {
        code = (((byte[prefix] * 31 + byte[letter[a]]) * 31 + byte[letter[b]]) * 31 + byte[letter[c]]) % 65536
        tablet = tablet_of[code]
        if (made[tablet] < wanted[tablet]) {
            keys[tablet, made[tablet]++ + 0] = prefix letter[a] letter[b] letter[c]
            taken++
        }
    }
    return taken
}
# Puts every key once, in batches of up to 64 keys of one tablet.
function put_all(value,    i, j) {
    for (i = 0; i < 60; i++) for (j = 0; j < wanted[i]; j++) {
        printf "%s%s v=%d", j % 64 ? " / " : "batch a t ", keys[i, j], value
        if (j % 64 == 63 || j == wanted[i] - 1) printf "\n"
    }
}
BEGIN {
    schedule = "00000004-0000-4000-8000-000000000001"
    make_keys()
    print "tick 1000000\ncreate_namespace a\ncreate_table a t tablets 60 v:int\ncreate_snapshot_schedule 1 10 a"
    put_all(1)
    print "tick 62000000\ntake_snapshot " schedule "\nsettle\ntick 120000000"
    put_all(2)
    print "tick 180000000"
    if (work == "snapshot") print "take_snapshot " schedule "\nsettle"
    if (work == "restore") print "restore_snapshot_schedule " schedule " 100000000\nsettle"
}'
