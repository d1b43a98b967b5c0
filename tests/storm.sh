#!/bin/sh
# A storm over `hall serve`: four lanes over named pipes and four doors on a book in a file, for two
# minutes. Two clients at each of three doors send 100 000 requests in all, or what they can in
# twice that time: acts of a desk each, whole, under drawn headers, several at once, sent again,
# under used numbers and such that leave a gap, cut at a drawn byte, or left without hearing the
# answer; questions; each fault of form; noise. The fourth door has a reader of the summary. The
# lanes weigh in bursts; one gets a unit behind a weight at a drawn moment, and one is cut in
# mid-weight.
#
# Compared: each answer to a fault, a question and a repeat with what docs/FORMATS.md says; each
# summary with the rows that stand up to its Book-Row, whose piles are counted anew here; at the
# end, of the book that `check` finds whole: every row is a weight that was sent, the next of its
# lane, or an act that was sent whole under the next number of its desk, or of the setup; every act
# that was answered 200 is at the row that it was told; the gates opened for just the packs that
# passed; the register has each. Peak memory is printed, and how it grew.
#
# usage: tests/storm.sh [FOLDER [SECONDS [REQUESTS [SEED]]]]    the book lies in a folder below it
set -eu
here=$(dirname "$(readlink -f "$0")")/..
seconds=${2:-120}
requests=${3:-100000}
seed=${4:-$(date +%s)}
work=$(mktemp -d "${1:-/tmp}/hall_storm.XXXXXX")

# HALL names another program to try.
if [ -z "${HALL:-}" ]; then "$here/hall" run </dev/null >/dev/null; fi
program=${HALL:-$here/crates/hall_cli/out/hall_cli}

PYTHONPATH=$here/tests timeout $((3 * seconds + 300)) \
    python3 -B "$here/tests/storm.py" "$program" "$work" "$seconds" "$requests" "$seed" || {
    echo "storm: failed, with the seed $seed; see $work" >&2
    exit 1
}
rm -rf "$work"
