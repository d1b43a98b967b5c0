#!/bin/sh
# Appends 250 000, 500 000 and 1 000 000 rows to a journal in memory. Opens the greatest by its
# slots and by its snapshot (with all of its content), beside reading the bytes of the disk once. A
# disk in memory has no syncs, so this shows what the journal's own work costs and how it grows. The
# program times each thing by itself, by a clock of nanoseconds; what is printed is the least of
# five runs.
set -eu
here=$(dirname "$(readlink -f "$0")")
work=$(mktemp -d)
trap 'rm -rf "$work"' EXIT
. "$here/program.sh"
build_program journal_bench book_journal book_snapshot disk_core hall_limits hall_units

# Five runs of the program, each of which prints the microseconds of each thing by its name.
for rows in 250000 500000 1000000; do
    for _ in 1 2 3 4 5; do
        "$program" "$rows" >>"$work/times$rows"
    done
done

# the least microseconds of a thing
least() {
    awk -v name="$2" '$1 == name && (!seen++ || $2 < best) { best = $2 } END { print best }' \
        "$work/times$1"
}

# microseconds as milliseconds, and one time to another
told() { awk -v us="$1" 'BEGIN { printf "%.1f ms", us / 1000 }'; }
ratio() { awk -v a="$1" -v b="$2" 'BEGIN { printf "%.2f", a / b }'; }

for rows in 250000 500000 1000000; do
    echo "$rows appends: $(told "$(least "$rows" append)")"
done
slots=$(least 1000000 slots)
snapshot=$(least 1000000 snapshot)
bytes=$(least 1000000 read)
echo "keeping a snapshot of 1000000 rows: $(told "$(least 1000000 keep)")"
echo "opening 1000000 rows by their slots: $(told "$slots")"
echo "opening 1000000 rows by a snapshot: $(told "$snapshot")"
echo "reading the bytes of these slots once: $(told "$bytes")"
echo "opening to reading: $(ratio "$slots" "$bytes") by slots," \
    "$(ratio "$snapshot" "$bytes") by a snapshot"
