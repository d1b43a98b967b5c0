#!/bin/sh
# Prints a script of a batch on one lane, from its opening to its verdict, for packs of given nets:
# what would the book say of such a batch? The packs weigh 10 g more on the scale. All are measured
# as they were weighed; those that weren't drawn are refused that (25), and a second sample that
# isn't needed is refused (31).
#
# usage: examples/batch_of.sh COUNTxNET.. | ./hall run | grep -E 'reject |released|withheld'
#        as 117x252 3x240: 117 packs of 252 g and then 3 of 240 g
#        NOMINAL is another nominal quantity than 250 g, as '500 ml'; DENSITY is in grams a litre;
#        TARE is another tare in the book than 10 g; WORD draws another sample than 7
set -eu
printf '%s\n' "$@" | awk -F x -v nominal="${NOMINAL:-250}" -v density="${DENSITY:-}" \
    -v tare="${TARE:-10}" -v word="${WORD:-7}" '
    function measure_all(    pack) {
        for (pack = 1; pack <= packs; pack++) print "measure", pack + 5, gross[pack]
    }
    !/^[0-9]+x[0-9.]+$/ { print "batch_of: no COUNTxNET: " $0 > "/dev/stderr"; failed = 1; exit }
    { for (one = 1; one <= $1; one++) gross[++packs] = $2 + 10 }
    END {
        if (failed) exit 1
        print "day 2025-03-03\nproduct goods", nominal
        print "tare goods 2025-03-03", tare
        print "open BATCH goods", density
        print "start 1 BATCH"
        for (pack = 1; pack <= packs; pack++) print "weigh 1", gross[pack]
        print "stop 1\nend BATCH\ndraw BATCH keep", word
        measure_all()
        print "second BATCH", word
        measure_all()
        print "close BATCH"
    }'
