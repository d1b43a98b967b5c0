#!/bin/sh
# Runs each command of docs/INSPECTOR.md (tests/page.sh says how), whose German page has the same
# ones, and tries the count of openings, the test of one's own, and appendices that were spoiled or
# exchanged, beside books that were changed. With the word --write both pages are brought up to date.
set -eu
here=$(dirname "$0")
"$here/page.sh" docs/INSPECTOR.md "$@"
"$here/../tools/translations" "$@"
"$here/openings.py"
"$here/own_test.py" "${TESTS:-100}"
"$here/appendix_spoiled.py"
