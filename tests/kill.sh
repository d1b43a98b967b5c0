#!/bin/sh
# Kills `hall run` on a book in a file at drawn moments, a hundred times or for two minutes. The
# book goes on from run to run. A kill leaves what the system holds of the file, so this shows that
# the program writes, syncs and answers in the right order; it doesn't cut the power.
#
# After each kill `hall check` has to find the book whole, with every acknowledged row and at most
# one more. At the end each acknowledged weighing is asked for by its number: its gross and its
# signal have to be those that were sent and answered. Status 1 at any difference; the folder then
# stays.
#
# Then `hall serve` in the same way, on a book of its own: three lanes over named pipes weigh, a
# desk asks at each of two doors, one by connections that stay and one by curl, and the hall is
# killed fifty times. After each kill every line of a gate has to be a passed row of its lane, in
# order, and every act that was answered 200 the row that it was told; a gate or a desk may lack the
# answer to its last row alone; the weighings of a lane are the first of those that were sent; no
# row stands twice, and no other row is there. The packs are asked for by `hall run`, and read in
# the register.
#
# usage: tests/kill.sh [FOLDER [SEED [SERVES]]]     the books lie in a new folder below this one
set -eu
here=$(dirname "$(readlink -f "$0")")/..
most_kills=100
most_seconds=120
seed=${2:-$(date +%s)}
serves=${3:-50}
work=$(mktemp -d "${1:-/tmp}/hall_kill.XXXXXX")
book=$work/book

# HALL names another program to try.
if [ -z "${HALL:-}" ]; then "$here/hall" run </dev/null >/dev/null; fi
program=${HALL:-$here/crates/hall_cli/out/hall_cli}

fail() {
    echo "kill: $*; see $work" >&2
    exit 1
}

milliseconds() { echo $(($(date +%s%N) / 1000000)); }

# The script of a run: a batch of its own and so many weighings. The first makes day and product.
script() {
    awk -v run="$1" -v packs="$2" 'BEGIN {
        if (run == 0) print "day 2025-03-03\nproduct P 250\ntare P 2025-03-03 10"
        else printf "stop 1\nend B%d\n", run - 1
        printf "open B%d P\nstart 1 B%d\n", run, run
        s = run + 1
        for (i = 1; i <= packs; i++) {
            s = (s * 16807) % 2147483647
            printf "weigh 1 %d.%03d\n", 256 + s % 10, s % 1000
        }
    }' >"$work/script"
}

# The rows of the book, which has to be whole.
rows() {
    said=$("$program" check --book "$book") || fail "check ended with status $?: $said"
    echo "$said" | grep -qxE 'rows [0-9]+ whole' || fail "check said: $said"
    echo "$said" | cut -d ' ' -f 2
}

# The last row that a run acknowledged after so many that the book held: each line of the script has
# one line of answer, and rows are numbered on. Weighings are noted for the end. What a kill left of
# a line is none.
acknowledged() {
    if [ -n "$(tail -c 1 "$work/answers")" ]; then sed -i '$d' "$work/answers"; fi
    awk -v row="$1" -v answers="$work/answers" -v noted="$work/weighings" '
        (getline line < answers) <= 0 { exit }
        { split(line, word, " ") }
        word[1] == "refused" { next }
        word[1] != row + 1 { print "answered \"" line "\" after row " row; bad = 1; exit }
        { row++ }
        $1 == "weigh" { print row, $3, word[2] >> noted }
        END { if (!bad) print row; exit bad }
    ' "$work/script"
}

# Compares what was acknowledged with the rows that the book holds, and tells how many these are.
compare() {
    last=$(acknowledged "$1") || fail "$last"
    held=$(rows)
    [ "$last" -le "$held" ] || fail "row $last was acknowledged, the book holds $held"
    [ "$held" -le $((last + 1)) ] || fail "row $last was the last acknowledged, of $held"
    echo "$last $held"
}

# A run to its end; tells how many milliseconds it took.
whole_run() {
    before=$(milliseconds)
    "$program" run --book "$book" <"$work/script" >"$work/answers" || fail "a run ended with $?"
    echo $(($(milliseconds) - before))
}

# Two runs to their ends tell how long one takes, so that most kills fall within one.
script 0 200
took=$(whole_run)
found=$(compare 0)
packs=$((120000 / (took + 1) + 1))
if [ "$packs" -gt 9000 ]; then packs=9000; fi
script 1 "$packs"
took=$(whole_run)
found=$(compare "${found#* }")

# A run whose output is closed answers nothing, and what it would answer must not land in the book.
script 2 9
"$program" run --book "$book" <"$work/script" >&- 2>/dev/null || true
: >"$work/answers"
found=$(compare "${found#* }")

began=$(milliseconds)
run=3 kills=0 early=0 late=0 offered=0
for part in $(awk -v seed="$seed" -v kills="$most_kills" 'BEGIN {
    srand(seed)
    for (i = 0; i < kills; i++) print int(1000 * rand())
}'); do
    [ $(($(milliseconds) - began)) -lt $((1000 * most_seconds)) ] || break
    script "$run" "$packs"
    "$program" run --book "$book" <"$work/script" >"$work/answers" &
    hall=$!
    sleep "$(awk -v took="$took" -v part="$part" 'BEGIN { printf "%.6f", took * part / 1000000 }')"
    kill -9 "$hall" 2>/dev/null || true
    status=0
    wait "$hall" 2>/dev/null || status=$?
    case $status in
        0) late=$((late + 1)) ;;
        137) kills=$((kills + 1)) ;;
        *) fail "run $run ended with status $status" ;;
    esac
    before=${found#* }
    found=$(compare "$before")
    last=${found% *} held=${found#* }
    if [ "$status" -eq 137 ] && [ "$last" -eq "$before" ]; then early=$((early + 1)); fi
    offered=$((offered + held - last))
    run=$((run + 1))
done
[ "$kills" -gt 0 ] || fail "no kill fell within a run"

# What the book holds of each acknowledged weighing, and how many rows it says that it has.
awk '{ print "pack " $1 }' "$work/weighings" >"$work/questions"
"$program" run --book "$book" <"$work/questions" >"$work/packs" ||
    fail "the questions ended with $?"
grep -qx "rows ${found#* }" "$work/packs" || fail "the summary doesn't say rows ${found#* }"
awk -v packs="$work/packs" '
    (getline line < packs) <= 0 { print "no answer to pack " $1; bad = 1; exit }
    { split(line, word, " ") }
    word[2] != $1 || word[8] != $2 || word[12] != $3 {
        print "sent " $2 " and answered " $3 " as row " $1 ", the book says: " line
        bad = 1
        exit
    }
    END { exit bad }
' "$work/weighings" || fail "an acknowledged weighing is not in the book as it was sent"

echo "seed $seed: $((kills + late)) runs of up to $((packs + 4)) rows, some $took ms each"
echo "$kills kills fell within a run, $early of them before its first answer; $late runs had ended"
echo "$offered times the book held a row more than was acknowledged"
noted=$(wc -l <"$work/weighings")
echo "the book holds ${found#* } rows; all $noted acknowledged weighings are in it"

mkdir "$work/serve"
timeout 900 python3 -B "$here/tests/kill_serve.py" "$program" "$work/serve" "$seed" "$serves" ||
    fail "serve, with the seed $seed"
rm -rf "$work"
