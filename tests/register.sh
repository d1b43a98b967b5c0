#!/bin/sh
# Other programs read the register: the packs of each pile and the sum of their grosses, by sqlite3
# and by csvkit without a flag, are those of the summary. And a reader that goes early stops `hall
# export` quietly, with status 5.
#
# The book has ten thousand packs in four batches, some too light, some taken back, one batch drawn.
#
# usage: tests/register.sh     (packages sqlite3, csvkit; behind a build of the program)
set -eu
here=$(dirname "$(readlink -f "$0")")/..
work=$(mktemp -d)
trap 'rm -rf "$work"' EXIT

# HALL names another program to try.
if [ -z "${HALL:-}" ]; then "$here/hall" run </dev/null >/dev/null; fi
program=${HALL:-$here/crates/hall_cli/out/hall_cli}
PACKS=10000

fail() {
    echo "register: $*" >&2
    exit 1
}

# Four batches of so many packs each, in which one in a hundred is too light and one taken back.
awk -v packs=$((PACKS / 4)) 'BEGIN {
    print "day 2025-03-03\nproduct rice-250 250\ntare rice-250 2025-03-03 10"
    row = 3
    s = 1
    for (b = 1; b <= 4; b++) {
        printf "open B%d rice-250\nstart %d B%d\n", b, b, b
        row += 2
        for (i = 1; i <= packs; i++) {
            s = (s * 16807) % 2147483647
            printf "weigh %d %d.%03d\n", b, i % 100 ? 256 + s % 10 : 231, s % 1000
            row++
            if (i % 100 == 51) back[++voids] = row
        }
        printf "stop %d\n", b
        row++
    }
    for (v = 1; v <= voids; v++) print "void " back[v]
    print "end B4\ndraw B4 keep 7"
}' >"$work/script"
"$program" run --book "$work/day.book" <"$work/script" >"$work/answers"
! grep refused "$work/answers" || fail "the script was refused"

"$program" export --book "$work/day.book" >"$work/register.csv"
[ "$(wc -l <"$work/register.csv")" -eq $((PACKS + 1)) ] || fail "not a record a pack"

# What the summary says of each pile that has packs, as PILE,PACKS,GRAMS.
"$program" report --book "$work/day.book" | tail -7 |
    awk '/^(passed|rejected|sampled|voided) / { print $1 "," $2 "," $4 }' | sort >"$work/summary"
[ "$(grep -cv ',0,' "$work/summary")" -eq 4 ] || fail "a pile without packs"

# sqlite3: the first line names the columns.
sqlite3 :memory: '.mode csv' ".import $work/register.csv register" \
    "select pile, count(*), printf('%.3f', sum(gross)) from register group by pile" |
    tr -d '\r' | sort | cmp - "$work/summary" || fail "sqlite3 sums up otherwise"

# csvkit
SQLALCHEMY_SILENCE_UBER_WARNING=1 csvsql --query \
    'select pile, count(*), printf("%.3f", sum(gross)) from register group by pile' \
    "$work/register.csv" | tail -n +2 | sort | cmp - "$work/summary" ||
    fail "csvkit sums up otherwise"

# A reader that goes.
{
    status=0
    "$program" export --book "$work/day.book" 2>"$work/errors" || status=$?
    echo "$status" >"$work/status"
} | head -3 >"$work/head"
head -3 "$work/register.csv" | cmp - "$work/head" || fail "another beginning"
[ "$(cat "$work/status")" -eq 5 ] || fail "status $(cat "$work/status") where the reader goes"
[ ! -s "$work/errors" ] || fail "said: $(cat "$work/errors")"

echo "register: $PACKS packs, read by sqlite3 and csvkit; a reader that goes is status 5"
