#!/bin/sh
# The package: made of the built program, looked over by lintian, and installed into a booted Debian
# that has no toolchain, where the commands of docs/OPERATING.md are run as they stand: a served day,
# the next book, two halls at one front and one with its own. USING's first day is run there, and
# the service judged by systemd; the package is purged, the books stay, and it is installed by hand.
#
# usage: tests/package.sh        HALL names the program, and PROVE the check of papers
# needs: root, and of Debian: lintian debootstrap binutils systemd-container mandoc; what is missing
#        is installed, and debootstrap fetches a small Debian. Done in 5 minutes, at most 60.
set -eu
cd "$(dirname "$0")/.."
. tests/need.sh
need lintian debootstrap binutils systemd systemd-container mandoc util-linux python3
if [ -z "${HALL:-}" ]; then
    tools/build
    tools/build prove_cli
    PROVE=${PROVE:-crates/prove_cli/out/prove_cli}
fi
HALL=$(realpath "${HALL:-crates/hall_cli/out/hall_cli}")
export HALL
if [ -n "${PROVE:-}" ]; then
    PROVE=$(realpath "$PROVE")
    export PROVE
fi
room=$(mktemp -d)
debian=$room/debian
trap 'rm -rf --one-file-system "$room"' EXIT

fail() {
    echo "package: $*" >&2
    exit 1
}

# ---- the package
package=$(tools/package "$room")
lintian --allow-root --fail-on error "$package" || fail "lintian finds an error"
cp "$package" "$room/first.deb"
tools/package "$room" >/dev/null
cmp -s "$package" "$room/first.deb" || fail "made twice, the package differs"
mandoc -T lint -W warning deploy/*.1 deploy/*.8 | grep -v 'referenced manual not found' &&
    fail "a man page isn't well made"
mkdir "$room/other"
for maintainer in 'A/B & Sons <a@b.c>' 'C\D, | E <c@d.e>'; do
    other=$(MAINTAINER=$maintainer VERSION=1.0 tools/package "$room/other" 2>"$room/log") ||
        { cat "$room/log" >&2; fail "isn't made by $maintainer"; }
    [ "$(dpkg-deb -f "$other" Maintainer)" = "$maintainer" ] || fail "isn't made by $maintainer"
done
echo "package: $(basename "$package"), $(wc -c <"$package") bytes"

# ---- a Debian without the toolchain, with what the commands there fetch
timeout 1200 debootstrap --variant=minbase --include=systemd-sysv,libgcc-s1,curl,python3 bookworm \
    "$debian" >"$room/log" 2>&1 || { tail "$room/log" >&2; fail "no Debian was made"; }
inside() { chroot "$debian" env -i PATH=/usr/sbin:/usr/bin:/sbin:/bin HOME=/root "$@"; }
cp /etc/resolv.conf "$debian/etc/resolv.conf"
inside sh -c 'apt-get update && apt-get install -y --no-install-recommends --download-only nginx \
    libnginx-mod-http-js nftables adduser openssl binutils' >"$room/log" 2>&1 ||
    { tail "$room/log" >&2; fail "nothing is fetched"; }
inside sh -c 'command -v rt rustc cargo clang nginx nft' && fail "the Debian isn't empty"
echo 'APT::Install-Recommends "false";' >"$debian/etc/apt/apt.conf.d/50recommends"
cp "$package" "$debian/root/"
cp "$HALL" "$debian/root/program"
if [ -n "${PROVE:-}" ]; then cp "$PROVE" "$debian/root/prove"; fi
mkdir "$debian/root/checkout"
git ls-files -z README.md adapters deploy docs examples inspector tools www |
    xargs -0 cp --parents -t "$debian/root/checkout"

# ---- the commands of OPERATING
timeout 3000 python3 tests/installed.py "$debian"

# ---- USING's first day, with the examples that were installed, says what USING says
awk '/^\$ / { on = /examples\/first_day.txt/; next } /^```/ { on = 0 } on' docs/USING.md >"$room/said"
as_hall() { inside setpriv --reuid=hall --regid=hall --init-groups sh -c "$1"; }
as_hall 'hall run --book /var/lib/hall/day.book </usr/share/doc/hall/examples/first_day.txt' |
    grep -E 'reject |refused' >"$room/says"
[ -s "$room/said" ] || fail "USING has no first day"
diff "$room/said" "$room/says" || fail "the day there isn't that of USING"

# ---- the check of papers, and a sample that is drawn again
papers=/usr/share/doc/hall/examples/papers
for paper in released by_volume withheld second_sample; do
    for check in "hall prove" ${PROVE:+hall-prove}; do
        as_hall "$check <$papers/$paper.txt" >"$room/says" || fail "$check: $paper isn't true"
        grep -q '^true ' "$room/says" || fail "$check says $(cat "$room/says") of $paper"
        as_hall "$check <$papers/${paper}_spoiled.txt" >"$room/says" && fail "$check: spoiled"
        grep -q '^bad line ' "$room/says" || fail "$check says $(cat "$room/says") of a spoiled one"
    done
done
draw=/usr/share/doc/hall/examples/draw_again.sh
# word 1, four packs: 1 * 6364136223846793005 + 1442695040888963407 = 7806831264735756412, whose
# upper 31 bits are 908834774; of four packs that leaves 2, the third
[ "$(printf '%s\n' 5 6 9 12 | as_hall "$draw 1 1")" = 9 ] || fail "another pack is drawn"
for word in "'a[\$(touch /tmp/drawn)]'" -1 '' 1.5 18446744073709551616; do
    printf '%s\n' 5 6 | as_hall "$draw $word 1" >/dev/null 2>&1 && fail "drawn by $word"
done
[ ! -e "$debian/tmp/drawn" ] || fail "a word was run as a command"

# ---- the service, as systemd judges it
inside systemd-analyze verify --man=no /lib/systemd/system/hall@.service \
    /lib/systemd/system/hall-list@.service >"$room/log" 2>&1 ||
    { cat "$room/log" >&2; fail "the service isn't well made"; }
[ ! -s "$room/log" ] || { cat "$room/log" >&2; fail "systemd has a word on the service"; }
cp "$debian/lib/systemd/system/hall@.service" "$room/hall@day.service"
exposed=$(systemd-analyze security --offline=true "$room/hall@day.service" |
    sed -n 's/.*exposure level for hall@day.service: \([0-9.]*\) .*/\1/p')
awk -v level="$exposed" 'BEGIN { exit !(level != "" && level <= 2.0) }' ||
    fail "the service is exposed at $exposed"
echo "package: as USING and OPERATING say; papers are checked, the service exposed at $exposed"
