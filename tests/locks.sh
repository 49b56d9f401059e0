#!/bin/sh
# Several programs at one bundle at once, with FUTSKHERI_LOCK=1, which has the scripts in front of them take turns: over
# real bundles, by the programs of bin/, or of the folder that it is given, where bin/install put them. How the scripts do
# that is tests/front.sh. It needs sh, the core utilities and flock. Its last line is 'N passed, M failed'.
set -u
here=$(cd "$(dirname "$0")/.." && pwd) || exit 1
. "$here/tests/lib.sh"
if ! command -v flock >/dev/null 2>&1; then
    echo 'locks: skipped, flock is not here'
    exit 0
fi
bin=$(cd "${1:-$here/bin}" && pwd) || exit 1
# Built once, so that no two runs build it: each says with no words how it is called.
for name in lerc_cli bundle_pack bundle_tiles level_cache overview_tiles; do "$bin/$name" >/dev/null 2>&1; done
begin
FUTSKHERI_LOCK=1
export FUTSKHERI_LOCK

# No run waits for ever: one that does is ended, and its case fails.
run() {
    called=$bin/$1
    shift
    timeout 120 "$called" "$@"
}

# Whether all processes with these numbers end well.
all_well() {
    well=yes
    for number; do wait "$number" || well=no; done
    [ "$well" = yes ]
}

# The bundle has so many tiles, and each is whole.
is_whole() { [ "$(run lerc_cli "$1" check 2>err | sed '/^bytes/d' | tr '\n' ' ')" = "tiles $2 bad 0 " ]; }

holds() {
    name=$1
    shift
    if "$@"; then count "$name" yes; else count "$name" no; cat err >&2 2>/dev/null; fi
}

# A grid of one pixel, and for each of sixteen rows the stream of its first 64 tiles.
{ printf 'LGR1\1'; numbers 4 1 1 1; bytes 01 07; } >pixel
: >nothing
row=0
while [ "$row" -lt 16 ]; do
    column=0
    while [ "$column" -lt 64 ]; do
        tile "$row" "$column" pixel
        column=$((column + 1))
    done >"stream_$row"
    row=$((row + 1))
done

# ---- Sixteen puts at once, and lists meanwhile

numbers_=''
row=0
while [ "$row" -lt 16 ]; do
    run lerc_cli tiles put 4 0 1 <"stream_$row" >"lines_$row" 2>"err_$row" &
    numbers_="$numbers_ $!"
    row=$((row + 1))
done
: >counts
lists=0
while [ "$lists" -lt 10 ]; do
    run lerc_cli tiles list >rows 2>err || echo "status $?" >>counts
    wc -l <rows >>counts
    lists=$((lists + 1))
done
# shellcheck disable=SC2086
holds 'sixteen puts at once end well' all_well $numbers_
holds 'and say nothing' [ -z "$(cat err_*)" ]
holds 'each tile has its line' [ "$(cat lines_* | sort -u | wc -l)" -eq 1024 ]
holds 'and is there' is_whole tiles 1024
holds 'a list meanwhile has whole puts' awk '$1 !~ /^[0-9]+$/ || $1 % 64 { wrong = 1 } END { exit wrong }' counts

# ---- A put and a packing at once

run lerc_cli two put 4 0 1 <stream_0 >out 2>err
run lerc_cli two put 4 0 1 <stream_1 >out 2>err &
put=$!
run bundle_pack packed two >packed_line 2>err
holds 'a packing beside a put ends well' [ $? -eq 0 ]
holds 'and so does the put' all_well $put
tiles=$(sed 's/packed \([0-9]*\) .*/\1/' packed_line)
holds 'it has the tiles of before or of after' sh -c 'case $1 in 64 | 128) ;; *) exit 1 ;; esac' sh "$tiles"
holds 'each whole' is_whole packed "$tiles"
holds 'the source has both puts' is_whole two 128

# ---- Overviews that read what another one writes

run overview_tiles two half overview 0 4 0 1 >out_1 2>err_1 &
first=$!
run overview_tiles half two overview 3 4 0 1 >out_2 2>err_2 &
holds 'two overviews, each of which writes what the other reads, end well' all_well $first $!
run lerc_cli half check >out 2>err
holds 'the one is whole' grep -qx 'bad 0' out
run lerc_cli two check >out 2>err
holds 'and so is the other' grep -qx 'bad 0' out

# ---- Tiles of one bundle of a level

mkdir level
numbers_=''
column=0
while [ "$column" -lt 12 ]; do
    run level_cache level put 4 0 300 "$column" <pixel >"lines_$column" 2>"err_$column" &
    numbers_="$numbers_ $!"
    column=$((column + 1))
done
# shellcheck disable=SC2086
holds 'twelve puts into one bundle of a level end well' all_well $numbers_
holds 'and all tiles are there' is_whole level/R0100C0000.bundle 12
holds 'whose lock stands beside it' [ -e level/R0100C0000.bundle.lock ]

# ---- A run that is killed, and one that waits for another lock

# The put waits for an input that does not come, and is killed.
run lerc_cli killed put 4 0 1 <stream_0 >out 2>err
mkfifo never
exec 8<>never
"$bin/lerc_cli" killed put 4 0 1 <&8 >out 2>err &
for tenth in $(seq 100); do
    flock -n killed.lock true || break
    sleep 0.1
done
holds 'a run that waits for its input has the lock' sh -c '! flock -n killed.lock true'
kill -9 $!
wait $! 2>/dev/null
exec 8>&-
holds 'once it is killed the next one goes on' is_whole killed 64
flock tiles.lock sleep 1 &
sleep 0.2
run lerc_cli tiles list >rows 2>err
holds 'a run waits for the lock of flock' [ $? -eq 0 ] && wait $!
holds 'and then does its work' [ "$(wc -l <rows)" -eq 1024 ]

tell
