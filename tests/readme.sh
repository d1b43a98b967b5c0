#!/bin/sh
# Runs each command of README.md, docs/USING.md and docs/RULES.md (tests/page.sh says how, and what
# HALL names).
# With the word --write the pages are brought up to date.
set -eu
here=$(dirname "$0")
for page in README.md docs/USING.md docs/RULES.md; do
    "$here/page.sh" "$page" "$@"
done
