#!/bin/sh
# Runs each command of a page and compares what it prints with what stands below it there.
#
# usage: tests/page.sh PAGE [--write]
#
# A command is a line that begins with "$ " in a block marked `console`; the lines up to the next
# command or the end of the block are what it prints, on both outputs. Commands run in their order,
# at the top of the repository, with a folder of their own in the place of /tmp. A page that isn't
# done after 10 minutes fails: a command waits for what doesn't come. A hall over that folder that
# still runs at the end is killed. With the word --write the page gets what they print, so that a
# changed text is seen in a diff. HALL names another program to try.
cd "$(dirname "$0")/.." || exit 1
page=$1
room=$(mktemp -d) || exit 1
trap 'pkill -KILL -f "$room/"; rm -rf "$room"' EXIT

# builds where a source is newer, so that no command below prints how far it is
if [ -z "${HALL:-}" ]; then tools/build || exit 1; fi

timeout 600 awk -v room="$room" -v hall="${HALL:-./hall}" '
    function said(command,    line, status) {
        gsub("/tmp", room, command)
        gsub("[.]/hall ", hall " ", command)
        command = "{ " command "\n} 2>&1"
        while ((command | getline line) > 0) {
            gsub(room, "/tmp", line)
            print line
        }
        close(command)
    }
    /^```/ { inside = ($0 == "```console"); print; next }
    !inside { print; next }
    /^\$ / { print; said(substr($0, 3)) }
' "$page" >"$room/page"

if [ "${2:-}" = --write ]; then
    cp "$room/page" "$page"
elif diff "$page" "$room/page"; then
    echo "$page: commands that print what the page says: $(grep -c '^\$ ' "$page")"
else
    echo "$page: a command prints something else (above, after >)" >&2
    exit 1
fi
