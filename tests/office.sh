#!/bin/sh
# A day of desk work over HTTP by curl, beside the same day as a script: the same answers, the same
# sheet, the same summary.
#
# Desk 101 sets the day, a product, its tare and a batch; lane 1 weighs 101 packs by a script; the
# desk voids a pack and loses the answer, asks again, ends the batch, draws it, measures what was
# drawn, is refused a second sample, closes it and reads its sheet, its packs and its lane. Then it
# enters juice, which is sold by volume: a batch of it without its density and one too light are
# refused, the next is weighed on lane 1, measured whole and closed. At the end its rows are read by
# the page, as lines and as a shipment. Each request is a connection of its own.
#
# usage: tests/office.sh     (HALL names another program than the one that `./hall` builds)
set -eu
cd "$(dirname "$0")/.."
hall=${HALL:-$PWD/crates/hall_cli/out/hall_cli}
room=$(mktemp -d)
begun=
trap 'kill $begun 2>/dev/null || true; rm -rf "$room"' EXIT
port=$((20000 + $$ % 20000))
url=http://127.0.0.1:$port
PACKS=101 VOIDED=30 DRAWN=30 BOTTLES=5

# serves so many connections over the book of the office
serve() {
    timeout 120 "$hall" serve --book "$room/office.book" --doors 1 --port $port \
        --connections "$1" </dev/null >>"$room/doors" &
    begun="$begun $!"
}

# sends an act of desk 101, and says the answer as a script's is said
act() {
    curl -sS --retry 100 --retry-connrefused --retry-delay 0 \
        --data "{\"desk\":101,\"request\":$1,\"act\":$2}" $url/acts | as_script
}

# what the office says of an act or a refusal, as a script says it
as_script() {
    sed -E 's/^\{"row":([0-9]+)\}$/\1 ok\n/; s/^\{"row":([0-9]+),"verdict":"(.*)"\}$/\1 \2\n/
            s/^\{"at":(.*),"kept":"(.*)","name":"(.*)","refused":(.*)\}$/refused \4 \3 \2 at \1\n/
            s/  at/ at/'
}

# reads a page
page() {
    curl -sS --retry 100 --retry-connrefused --retry-delay 0 "$url$1"
}

# sends a voiding and hangs up without reading the answer
lose() {
    body="{\"desk\":101,\"request\":$1,\"act\":\"void\",\"pack\":$VOIDED}"
    python3 tests/lost_request.py $port "$body"
}

# measures the packs of a sample from a request on, each with this gross in mg, asks for a second
# sample in vain, and closes the batch
measure() {
    request=$3
    for pack in $(sed "s/^sample $1 first //" "$room/sample.$1"); do
        act "$request" "\"measure\",\"pack\":$pack,\"gross\":$2"
        request=$((request + 1))
    done
    act "$request" "\"second\",\"batch\":\"$1\",\"word\":7"
    act "$request" "\"close\",\"batch\":\"$1\""
}

# what lane 1 weighs of a batch: so many packs of so many grams
weighings() {
    echo "start 1 $1"
    for _ in $(seq "$2"); do echo "weigh 1 $3"; done
    echo stop 1
}

# ---- the day over HTTP
serve 4
act 1 '"day","day":"2025-03-03"' >"$room/http"
act 2 '"product","name":"rice250","nominal":250000' >>"$room/http"
act 3 '"tare","product":"rice250","day":"2025-03-03","tare":10000' >>"$room/http"
act 4 '"open","batch":"A","product":"rice250"' >>"$room/http"
wait
weighings A $PACKS 262.000 | "$hall" run --book "$room/office.book" >/dev/null
serve $((2 + 3 + DRAWN + 2 + 1 + 4 + 2 + 5))
until lose 5 2>/dev/null; do :; done
act 5 "\"void\",\"pack\":$VOIDED" >>"$room/http"
act 6 '"end","batch":"A"' >>"$room/http"
act 7 '"draw","batch":"A","mode":"keep","word":7' >>"$room/http"
page /batches/A/sample >"$room/sample.A"
measure A 262000 8 >>"$room/http"
page /batches/A >>"$room/http"
for pack in 0 50 $((PACKS + 5)) 4294967295; do page /batches/A/packs/$pack >>"$room/http"; done
page /packs/$VOIDED >>"$room/http"
page /lanes/1 >>"$room/http"
next=$((8 + DRAWN + 1))
opening=$((next + 2))
act $next '"product_ml","name":"juice","nominal":1000000' >>"$room/http"
act $((next + 1)) '"tare","product":"juice","day":"2025-03-03","tare":30000' >>"$room/http"
act $opening '"open","batch":"J","product":"juice"' >>"$room/http"
act $opening '"open_at","batch":"J","product":"juice","density":499999' >>"$room/http"
act $opening '"open_at","batch":"J","product":"juice","density":1040500' >>"$room/http"
wait
weighings J $BOTTLES 1078.250 | "$hall" run --book "$room/office.book" >/dev/null
serve $((3 + BOTTLES + 2 + 2 + 2 + 5))
act $((next + 3)) '"end","batch":"J"' >>"$room/http"
act $((next + 4)) '"draw","batch":"J","mode":"keep","word":5' >>"$room/http"
page /batches/J/sample >"$room/sample.J"
measure J 1078250 $((next + 5)) >>"$room/http"
page /batches/J >>"$room/http"
for batch in J N; do page /batches/$batch/packs/0; done | as_script >>"$room/http"
page /summary >>"$room/http"
for after in 0 128 1000000; do page /acts/$after >>"$room/acts"; done
for after in 0 128; do page /rows/$after >"$room/rows.$after"; done
wait

# ---- the same day as scripts
run() { "$hall" run --book "$room/script.book"; }

# what a run answers to its lines, without its summary
answers() { run | head -n -7; }

# the lines of `measure` above
measurings() {
    request=$3
    for pack in $(sed "s/^sample $1 first //" "$room/sample.$1"); do
        echo "@101 $request measure $pack $2"
        request=$((request + 1))
    done
    echo "@101 $request second $1 7"
    echo "@101 $request close $1"
}

printf '%s\n' '@101 1 day 2025-03-03' '@101 2 product rice250 250' \
    '@101 3 tare rice250 2025-03-03 10' '@101 4 open A rice250' | answers >"$room/script"
weighings A $PACKS 262.000 | run >/dev/null
{
    printf '%s\n' "@101 5 void $VOIDED" '@101 6 end A' '@101 7 draw A keep 7'
    measurings A 262 8
    echo sheet A
    printf '%s\n' 'packs A 0' 'packs A 50' "packs A $((PACKS + 5))" 'packs A 4294967295'
    printf '%s\n' "pack $VOIDED" 'lane 1'
    printf '%s\n' "@101 $next product juice 1000 ml" "@101 $((next + 1)) tare juice 2025-03-03 30" \
        "@101 $opening open J juice" "@101 $opening open J juice 499.999" \
        "@101 $opening open J juice 1040.5"
} | answers >>"$room/script"
weighings J $BOTTLES 1078.250 | run >/dev/null
{
    printf '%s\n' "@101 $((next + 3)) end J" "@101 $((next + 4)) draw J keep 5"
    measurings J 1078.25 $((next + 5))
    printf '%s\n' 'sheet J' 'packs J 0' 'packs N 0'
} | run >>"$room/script"

diff "$room/script" "$room/http"

# ---- its rows by the page, beside the commands
"$hall" acts --book "$room/office.book" | diff - "$room/acts"
"$hall" ship --book "$room/office.book" --after 128 | cmp - "$room/rows.128"
test "$(head -c 16 "$room/rows.0" | od -An -tx1 | tr -d ' ')" = 41514853484950328000000000000000
"$hall" ship --book "$room/office.book" | tail -c +17 | head -c $((96 * 128)) >"$room/first"
tail -c +17 "$room/rows.0" | cmp - "$room/first"
grep -q "nominal 1000.000 ml .* density 1040.500" "$room/http"
test "$(grep -c 'refused 35 DensityRange at' "$room/http")" = 2
grep -c . "$room/http" | sed 's/^/office: the same day by curl and by script, lines: /'
grep ^door "$room/doors"
