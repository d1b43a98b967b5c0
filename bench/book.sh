#!/bin/sh
# Measures a book in a file, in one run on one folder:
#
# Weighings a second through `hall run --book`, a fresh book each time, beside two bare loops in
# Python that make the same two writes and two data syncs a row (96 bytes and then the one before
# them, as the journal does), over zeros that were written before, and in a file that each row makes
# longer; and beside SQLite with a write-ahead log and synchronous=FULL, one row of 96 bytes a
# transaction. Best of three, in turn. A sync takes so long that Python's own time is small beside
# it. Where hall takes less than half of the time of the loop over zeros the run ends with status 1:
# so rows that are never synced are seen, which no test and no kill can see.
#
# BEFORE names a program whose rows and opening are to be compared, in the same sitting; OPENER the
# program that opens a journal alone, where it was built before, or `none`, where it is left out.
#
# Then a book of 1 000 000 rows, made in a folder whose syncs are quick: `hall check` by the
# snapshot that the run kept, by the slots alone (the same file cut behind its rows), opening the
# same journal without replaying its rows, and `cat` of the file. Best of five, each process whole.
# What a check takes more than the opening alone is the replay. The peak memory is that of the
# check.
#
# usage: bench/book.sh FOLDER [QUICK [WEIGHINGS [ROWS]]]      QUICK is /dev/shm if it isn't named
set -eu
here=$(dirname "$(readlink -f "$0")")
work=$(mktemp -d "$1/hall_book.XXXXXX")
quick=$(mktemp -d "${2:-/dev/shm}/hall_book.XXXXXX")
trap 'rm -rf "$work" "$quick"' EXIT

opener=${OPENER:-}
if [ -z "$opener" ]; then
    . "$here/program.sh"
    build_program journal_opening book_journal book_snapshot disk_core file_disk hall_limits
    opener=$program
fi

# HALL names another program to try.
if [ -z "${HALL:-}" ]; then "$here/../hall" run </dev/null >/dev/null; fi
program=${HALL:-$here/../crates/hall_cli/out/hall_cli}

# A script of so many rows: one product, and batches of 9 990 weighings one after another.
script() {
    awk -v most="$1" 'function say(text) { if (rows++ < most) print text }
    BEGIN {
        say("day 2025-03-03")
        say("product P 250")
        say("tare P 2025-03-03 10")
        s = 1
        for (b = 1; rows < most; b++) {
            say("open B" b " P")
            say("start 1 B" b)
            for (i = 1; i <= 9990; i++) {
                s = (s * 16807) % 2147483647
                say(sprintf("weigh 1 %d.%03d", 256 + s % 10, s % 1000))
            }
            say("stop 1")
            say("end B" b)
        }
    }'
}


weighings=${3:-2000}
rows=${4:-1000000}
# five rows before the weighings, of which no more than one batch
if [ "$weighings" -gt 9990 ]; then
    echo "book: at most 9990 weighings" >&2
    exit 2
fi
script "$((weighings + 5))" >"$work/few"
script "$rows" >"$quick/many"
python3 -B "$here/book.py" "$program" "$opener" "$work" "$quick" "$weighings" "$rows"
