#!/bin/sh
# Frames a POST of an act, a GET and a request at fault (the path is unknown), each many times, and
# tells the nanoseconds of processor time and the calls of malloc that one takes: the difference
# between 2 000 000 and none, so the start of the program isn't counted. Best of five.
# Its only word is another number of times.
set -eu
here=$(dirname "$(readlink -f "$0")")
times=${1:-2000000}
work=$(mktemp -d)
trap 'rm -rf "$work"' EXIT
. "$here/program.sh"

# The crates without their tests, as tools/build makes them, so that what was proved for the program
# is proved here too.
python3 -B "$here/copy_crates.py" "$here/.." "$work"
put_program frame_bench
echo 'frame_bench: office_wire' >>"$work/crates.txt"
program=$work/crates/frame_bench/out/frame_bench
# Without words it ends with status 2.
echo 2 >"$work/crates/frame_bench/status"
git init -q "$work"
(cd "$work" && rt ci) >"$work/log" 2>&1 || true
[ -x "$program" ] || { cat "$work/log" >&2; exit 70; }

# counts calls that get memory
cc -O2 -shared -fPIC -o "$work/count.so" "$here/count_memory.c"

# hundredths of a second of processor time, best of five
best() {
    least=1000000
    for _ in 1 2 3 4 5; do
        took=$(/usr/bin/time -f '%U %S' "$program" "$1" "$2" 2>&1 |
            awk '{print int(100 * ($1 + $2) + 0.5)}')
        if [ "$took" -lt "$least" ]; then least=$took; fi
    done
    echo "$least"
}
for which in 0 1 2; do
    case $which in 0) name="a POST" ;; 1) name="a GET" ;; *) name="an unknown path" ;; esac
    spent=$(($(best "$which" "$times") - $(best "$which" 0)))
    many=$(LD_PRELOAD="$work/count.so" "$program" "$which" 1000 2>&1)
    none=$(LD_PRELOAD="$work/count.so" "$program" "$which" 0 2>&1)
    echo "$name: $((spent * 10000000 / times)) ns, $(((many - none) / 1000)) allocations"
done
