#!/bin/sh
# Measures a door of the office over TCP, by wrk with one keep-alive connection.
#
# A sheet of a book of 100 000 rows in a file, beside nginx with a static file of the same size;
# then acts over a book in memory, each with the next request number of desk 101 (a day set again,
# which adds a row). Best of three runs of 4 seconds, in turn. Printed are requests a second and the
# ratios to nginx.
#
# usage: bench/office.sh     (HALL names another program than that of `.ci/run`; packages
#                            nginx-light, wrk)
set -eu
cd "$(dirname "$0")/.."
hall=${HALL:-$PWD/crates/hall_cli/out/hall_cli}
room=$(mktemp -d)
begun=
trap 'kill $begun 2>/dev/null || true; rm -rf "$room"' EXIT
port=$((20000 + $$ % 20000))

# a book of ten batches with 9 998 packs each
awk 'BEGIN {
    print "day 2025-03-03\nproduct P 250\ntare P 2025-03-03 10"
    for (b = 1; b <= 10; b++) {
        printf "open B%d P\nstart 1 B%d\n", b, b
        for (p = 0; p < 9998; p++) print "weigh 1 262.000"
        print "stop 1"
    }
}' | "$hall" run --book "$room/day.book" >/dev/null

# the sheet as a static file
echo sheet B10 | "$hall" run --book "$room/day.book" | head -9 >"$room/sheet"
cat >"$room/nginx.conf" <<CONF
worker_processes 1;
daemon off;
user root;
pid $room/pid;
error_log $room/errors;
events { worker_connections 64; }
http {
    access_log off;
    default_type text/plain;
    server { listen 127.0.0.1:$((port + 1)); root $room; }
}
CONF
nginx -c "$room/nginx.conf" -e "$room/errors" &
begun=$!


# requests a second of one connection
rate() {
    wrk -t1 -c1 -d4s "$@" | awk '/Requests\/sec/ { print $2 } /Non-2xx/ { print > "/dev/stderr" }'
}

best() { sort -n | tail -1; }

"$hall" serve --book "$room/day.book" --doors 1 --port $port --connections 999999 \
    </dev/null >/dev/null &
begun="$begun $!"
sleep 2
: >"$room/door"; : >"$room/nginx"; : >"$room/acts"
for _ in 1 2 3; do
    rate http://127.0.0.1:$port/batches/B10 >>"$room/door"
    rate http://127.0.0.1:$((port + 1))/sheet >>"$room/nginx"
done
for run in 1 2 3; do
    "$hall" serve --doors 1 --port $((port + 1 + run)) --connections 999999 </dev/null >/dev/null &
    begun="$begun $!"
    sleep 1
    rate -s "$PWD/bench/acts.lua" http://127.0.0.1:$((port + 1 + run)) >>"$room/acts"
done
door=$(best <"$room/door") nginx=$(best <"$room/nginx") acts=$(best <"$room/acts")
awk -v door="$door" -v nginx="$nginx" -v acts="$acts" 'BEGIN {
    printf "a sheet: %d a second, nginx %d: %.2f\n", door, nginx, door / nginx
    printf "acts in memory: %d a second: %.2f of nginx\n", acts, acts / nginx
}'
