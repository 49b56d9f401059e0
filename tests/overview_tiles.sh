#!/bin/sh
# Runs the program that makes the next coarser level of a bundle through bin/overview_tiles, or the program that it is
# given, and compares what it ends with, what it gives to standard output and to standard error, and the files that it
# leaves. The bundles that it reads are made by bin/lerc_cli or the second program, and so are those that it has to leave:
# by a put of the halves, which are worked by hand. It needs sh, the core utilities, cmp, od and awk. Its last line is
# 'N passed, M failed'.
set -u

here=$(cd "$(dirname "$0")/.." && pwd) || exit 1
. "$here/tests/lib.sh"
program=$(readlink -f "${1:-$here/bin/overview_tiles}")
codec=$(readlink -f "${2:-$here/bin/lerc_cli}")
begin

usage='usage: FROM TO overview Q V E N'
no_volume='volume failed'
: >nothing

# ---- What is given

# The grid of one pixel: the number of its type, and the bytes of its value; and that of one that is not valid.
pixel() {
    printf 'LGR1'
    numbers 1 "$1"
    numbers 4 1 1 1
    bytes 01
    shift
    bytes "$@"
}
no_pixel() {
    printf 'LGR1'
    numbers 1 1
    numbers 4 1 1 1
    bytes 00
}
pixel 1 07 >seven
pixel 1 08 >eight
pixel 2 fd ff >minus_three
pixel 2 fe ff >minus_two
{ printf 'LGR1'; numbers 1 1; numbers 4 1 2 1; bytes 01 01 07 09; } >two_wide
{ printf 'LGR1'; numbers 1 1; numbers 4 1 1 2; bytes 01 07 09; } >two_deep
{ printf 'LGR2'; numbers 1 1; numbers 4 1 1 1 2; bytes 01 07 01 09; } >two_bands
no_pixel >none_valid

# Makes the bundle `from` by puts of the tiles of a stream.
from_is() {
    rm -rf from from.jnl
    "$codec" from put 4 0 1 <"$1" >made 2>err || echo "    making $1: $(cat err)" >&2
    cp from from_before
}

# The lines `put ROW COL SIZE` that the next case is to give.
puts_are() {
    : >wanted
    while [ $# -gt 0 ]; do
        echo "put $1 $2 $3" >>wanted
        shift 3
    done
}

# The store `disk` is, with its journal, what a put of this stream in this version leaves of an empty one.
is_put() {
    rm -f wished wished.jnl
    "$codec" wished put "$3" 0 1 <"$2" >made 2>err
    if is_like disk wished && is_like disk.jnl wished.jnl; then count "$1" yes; else count "$1" no; fi
}

# The bundle `from` is byte by byte as it was.
from_stands() { if is_like from from_before; then count "$1" yes; else count "$1" no; fi; }

# A case that is refused and leaves no second bundle: its name, the status, the line, and how it is asked for.
refused() {
    case_=$1 status_=$2 line_=$3
    shift 3
    begins_as none none
    expect "$case_" "$status_" nothing "$line_" plainly from disk "$@"
    leaves "$case_, and no bundle is made" none none
}

# ---- Halves

{ tile 0 0 seven; tile 0 1 eight; } >stream
from_is stream
begins_as none none
puts_are 0 0 66
expect 'the mean of 7 and 8' 0 wanted '' plainly from disk overview 0 3 0 1
tile 0 0 eight >halves
is_put 'is 8, in the first slot' halves 3
from_stands 'the bundle that is read is as it was'

for quarter in 0 1 2 3; do
    begins_as none none
    row=$((64 * (quarter / 2))) column=$((64 * (quarter % 2)))
    puts_are $row $column 70
    expect "quarter $quarter" 0 wanted '' plainly from disk overview $quarter 4 0 2
    tile $row $column eight >halves
    is_put "its slot is $row $column" halves 4
done

{ tile 0 0 minus_three; tile 0 1 minus_two; } >stream
from_is stream
begins_as none none
puts_are 0 0 66
expect 'the mean of -3 and -2' 0 wanted '' plainly from disk overview 0 3 0 1
tile 0 0 minus_two >halves
is_put 'is -2' halves 3
{ tile 0 0 minus_two; tile 0 1 minus_two; tile 2 0 minus_three; } >stream
from_is stream
begins_as none none
puts_are 0 0 66 1 0 66
expect 'the mean of -2 and -2, and of -3 alone' 0 wanted '' plainly from disk overview 0 3 0 1
{ tile 0 0 minus_two; tile 1 0 minus_three; } >halves
is_put 'is each' halves 3

# Four quarters, in each of which the one pixel has another value; three of them, and one without a valid pixel.
for value in 01 02 03 05; do pixel 1 "$value" >"pixel_$value"; done
{ tile 4 6 pixel_01; tile 4 7 pixel_02; tile 5 6 pixel_03; tile 5 7 pixel_05; } >stream
from_is stream
begins_as none none
puts_are 2 3 66
expect 'the mean of 1, 2, 3 and 5' 0 wanted '' plainly from disk overview 0 3 0 1
tile 2 3 pixel_03 >halves
is_put 'is 3' halves 3
{ tile 4 6 pixel_01; tile 4 7 none_valid; tile 5 7 pixel_05; } >stream
from_is stream
begins_as none none
expect 'the mean of 1 and 5, and of nothing' 0 wanted '' plainly from disk overview 0 3 0 1
is_put 'is 3' halves 3
tile 5 6 none_valid >stream
from_is stream
begins_as none none
expect 'no pixel is valid' 0 wanted '' plainly from disk overview 0 3 0 1
tile 2 3 none_valid >halves
is_put 'nor is one of the half' halves 3

# One row of two pixels in each of four quarters. The half's first pixel has the two of the upper left and those of
# the lower left one, its second those of the right ones.
row_of() { printf 'LGR1'; numbers 1 1; numbers 4 1 2 1; bytes "$@"; }
row_of 01 01 0a 0c >upper_left
row_of 01 00 14 >upper_right
row_of 00 01 10 >lower_left
row_of 01 01 ff fe >lower_right
{ tile 0 0 upper_left; tile 0 1 upper_right; tile 1 0 lower_left; tile 1 1 lower_right; } >stream
from_is stream
begins_as none none
row_of 01 01 0d b0 >half
tile 0 0 half >halves
"$codec" - encode 3 0 <half >blob
puts_are 0 0 "$(wc -c <blob)"
expect 'rows of an odd number' 0 wanted '' plainly from disk overview 0 3 0 1
is_put 'have the means of both' halves 3

{ tile 0 0 two_bands; tile 0 1 two_bands; } >stream
from_is stream
begins_as none none
puts_are 0 0 132
expect 'two bands' 0 wanted '' plainly from disk overview 0 3 0 1
tile 0 0 two_bands >halves
is_put 'each has its mean' halves 3
tile 1 0 two_deep >stream
from_is stream
begins_as none none
"$codec" - encode 4 0 <two_deep >blob
puts_are 0 0 "$(wc -c <blob)"
expect 'two depths' 0 wanted '' plainly from disk overview 0 4 0 1
tile 0 0 two_deep >halves
is_put 'each has its mean' halves 4

tile 127 127 seven >stream
from_is stream
begins_as none none
puts_are 127 127 66
expect 'the last tile, in the last quarter' 0 wanted '' plainly from disk overview 3 3 0 64
is_put 'is in the last slot' stream 3

# ---- The second bundle

{ tile 0 0 seven; tile 0 1 eight; } >stream
from_is stream
tile 127 127 seven >before
rm -f old old.jnl
"$codec" old put 3 0 1 <before >made 2>err
begins_as old old.jnl
puts_are 0 0 66
expect 'into a bundle with a tile' 0 wanted '' plainly from disk overview 0 3 0 1
"$codec" disk get 127 127 >tile_left 2>err
if cmp -s tile_left seven; then count 'the tile stands' yes; else count 'the tile stands' no; fi
"$codec" disk get 0 0 >tile_made 2>err
if cmp -s tile_made eight; then count 'and the half is there' yes; else count 'and the half is there' no; fi
expect 'once more' 0 wanted '' plainly from disk overview 0 3 0 1
"$codec" disk list >listed 2>err
if [ "$(wc -l <listed)" -eq 2 ]; then count 'replaces it' yes; else count 'replaces it' no; fi

# What a crash leaves of a put in each of the two bundles: the record, and the journal that is open.
printf 'A tile of sixty-six bytes, as long as a coded picture of one pixel' >small
"$codec" - encode 3 0 <seven >blob_7
"$codec" - encode 3 0 <eight >blob_8
{ header 66 0 131206; index 64 131140 66; record blob_7; } >with_seven
{ header 66 70 131276; index 64 131210 66; record blob_7; record blob_8; } >with_eight
journal 131210 66 with_eight >journal_8
printf '\000\000' | dd of=journal_8 bs=1 seek=88 conv=notrunc 2>made
opened journal_8 >open_8
{ cat with_seven; record blob_8; } >torn
cp torn from
cp open_8 from.jnl
begins_as none none
expect 'a first bundle that a crash had left' 0 wanted '' plainly from disk overview 0 3 0 1
tile 0 0 eight >halves
is_put 'is recovered first' halves 3
if is_like from with_eight; then count 'and stands so' yes; else count 'and stands so' no; fi
from_is stream
begins_as torn open_8
expect 'a second bundle that a crash had left' 0 wanted '' plainly from disk overview 0 3 0 1
"$codec" disk get 0 0 >tile_made 2>err
if cmp -s tile_made eight; then count 'is recovered, too' yes; else count 'is recovered, too' no; fi

begins_as none none
expect 'a first bundle that is not there' 0 nothing '' plainly nowhere disk overview 0 3 0 1
leaves 'makes none' none none
if [ -e nowhere ] || [ -e nowhere.jnl ]; then count 'nor itself' no; else count 'nor itself' yes; fi

# ---- Refused

begins_as none none
expect 'no words' 1 nothing "$usage" plainly
expect 'one path' 1 nothing "$usage" plainly from
expect 'two paths' 1 nothing "$usage" plainly from disk
for words in 'overview 4 3 0 1' 'overview 0 5 0 1' 'overview 0 3 4294967296 1' 'overview 0 3 0 0' 'overview 0 3 0 65' \
    'overview 0 3 0' 'overview 0 3 0 1 1' 'Overview 0 3 0 1' 'overview -1 3 0 1'; do
    # shellcheck disable=SC2086
    expect "the words $words" 1 nothing "$usage" plainly from disk $words
done
leaves 'no bundle is made' none none

# Bundles that are none, and which is told first.
head -c 100 from >hundred
cp hundred from
rm -f from.jnl
refused 'a first bundle that is none' 7 'store: BadBundle at 100 found 100' overview 0 3 0 1
begins_as hundred none
expect 'both are none: the first is told' 7 nothing 'store: BadBundle at 100 found 100' plainly from disk overview 0 3 0 1
tells_behind 'by its path' 'in from'
cp with_seven from
{ head -c 8 open_8; bytes 03; tail -c +10 open_8; } >from.jnl
refused 'a first bundle beside a bad journal' 7 'store: BadJournal at 8 found 3' overview 0 3 0 1
from_is stream
expect 'a second bundle that is none' 7 nothing 'store: BadBundle at 100 found 100' plainly from hundred overview 0 3 0 1
tells_behind 'is told by its path' 'in hundred'
if [ "$(wc -c <hundred)" -eq 100 ]; then count 'it is as it was' yes; else count 'it is as it was' no; fi

# Tiles that are no blobs, that are cut, and that are unlike: the first coarse tile with a refusal decides, and in it the
# first of the four.
{ header 66 0 131206; index 131128 131140 66; record small; } >from
rm -f from.jnl
refused 'a tile that is no blob' 2 'refused: BadTile 127 127 BadKey at 0' overview 0 3 0 1
head -c 131205 with_seven >from
refused 'a tile that is cut off' 7 'store: Beyond 0 0 offset 131140 size 66 got 65' overview 0 3 0 1
{ head -c 10 blob_7; bytes 00; tail -c +12 blob_7; } >blob_bad
{ header 66 0 131206; index 64 131140 66; record blob_bad; } >from
"$codec" - decode <blob_bad >out 2>err
line=$(sed 's/refused: /refused: BadTile 0 0 /; s/ stored.*//' err)
case $line in
    *BadChecksum*) count 'the tile has a bad checksum' yes ;;
    *) count 'the tile has a bad checksum' no ;;
esac
refused 'whose numbers are not told' 2 "$line" overview 0 3 0 1

{ tile 0 0 seven; tile 1 1 two_wide; } >stream
from_is stream
refused 'two widths' 2 'refused: Unlike 1 1' overview 0 3 0 1
from_stands 'and the first bundle is as it was'
{ tile 0 0 seven; tile 0 1 two_wide; tile 1 0 minus_two; tile 1 1 two_bands; } >stream
from_is stream
refused 'the first that is unlike is told' 2 'refused: Unlike 0 1' overview 0 3 0 1
{ tile 0 1 seven; tile 1 0 minus_two; } >stream
from_is stream
refused 'two types' 2 'refused: Unlike 1 0' overview 0 3 0 1
{ tile 0 1 seven; tile 1 1 two_bands; } >stream
from_is stream
refused 'two numbers of bands' 2 'refused: Unlike 1 1' overview 0 3 0 1
{ tile 0 1 seven; tile 1 1 two_deep; } >stream
from_is stream
refused 'two numbers of depths come before a depth' 2 'refused: Unlike 1 1' overview 0 3 0 1
{ tile 7 8 two_deep; tile 7 9 two_deep; } >stream
from_is stream
refused 'a depth that version 3 has no place for' 2 'refused: DepthNeedsV4 7 8' overview 0 3 0 1

# Which of several coarse tiles is told does not depend on the workers: a tile that is no blob stands behind forty coarse
# tiles, the twentieth of which has two depths.
k=0
while [ "$k" -lt 40 ]; do
    if [ "$k" -eq 19 ]; then tile 2 $((2 * k)) two_deep; else tile 2 $((2 * k)) seven; fi
    k=$((k + 1))
done >stream
tile 2 90 seven >>stream
tile 2 91 two_wide >>stream
from_is stream
for workers in 1 2 7 64; do
    refused "the twentieth coarse tile, $workers workers" 2 'refused: DepthNeedsV4 2 38' overview 0 3 0 "$workers"
    refused "the last coarse tile, $workers workers" 2 'refused: Unlike 2 91' overview 0 4 0 "$workers"
done

# ---- Objects that fail

{ tile 0 0 seven; tile 0 1 eight; } >stream
from_is stream
begins_as none none
mkdir folder
puts_are 0 0 66
expect 'a folder in the place of the first bundle' 5 nothing "$no_volume" plainly folder disk overview 0 3 0 1
leaves 'no bundle is made' none none
expect 'a folder in the place of the second' 5 nothing "$no_volume" plainly from folder overview 0 3 0 1
expect 'no path of the first' 5 nothing "$no_volume" plainly - disk overview 0 3 0 1
expect 'no path of the second' 5 nothing "$no_volume" plainly from - overview 0 3 0 1
expect 'a path that is no text' 5 nothing "$no_volume" plainly from "$(printf 'a\377')" overview 0 3 0 1
expect 'a first path of no bytes' 5 nothing "$no_volume" plainly '' disk overview 0 3 0 1
expect 'a second path of no bytes' 5 nothing "$no_volume" plainly from '' overview 0 3 0 1
if [ -e .jnl ]; then holds=no; else holds=yes; fi
count 'a path of no bytes, and no journal is made' "$holds"
leaves 'no bundle is made' none none
cp from fine
expect 'one path for both' 5 nothing "$no_volume" plainly from from overview 0 3 0 1
if cmp -s from fine; then holds=yes; else holds=no; fi
count 'one path for both, and its bundle is as it was' "$holds"
tile 0 0 eight >halves
for way in output_full output_closed; do
    begins_as none none
    : >out
    expect "$way" 4 nothing 'output failed' "$way" from disk overview 0 3 0 1
    is_put "$way: the half stands" halves 3
done
begins_as none none
all_closed from disk overview 0 3 0 1
count 'all streams closed' "$([ $? -eq 4 ] && echo yes || echo no)"
is_put 'and no byte of a line is in it' halves 3
begins_as none none
expect 'an error output that is closed' 0 wanted '' error_closed from disk overview 0 3 0 1

# ---- Tiles of a real size, by any number of workers

sixteen_tiles
rm -f from from.jnl
"$codec" from build 4 1 2 <big_stream >made 2>err
cp from from_before
puts_are 0 0 73823 0 1 73802 1 0 73938 1 1 74082
for workers in 1 2 7 64; do
    begins_as none none
    expect "sixteen tiles, $workers workers" 0 wanted '' plainly from disk overview 0 4 1 "$workers"
    sum=$(sha256sum <disk)
    if [ "${sum%% *}" = 12af65070c7529134bb061dc2d5d85e42c966238ac63bf48b2cd9d720b5a580c ]; then holds=yes; else holds=no; fi
    count "the bundle of the four, $workers workers" "$holds"
done
from_stands 'the sixteen are as they were'

# ---- Large cases, each of which is to end well

# Sixteen bands of one pixel.
{ printf 'LGR2'; head -c 17 seven | tail -c 13; numbers 4 16; } >sixteen_bands
k=0
while [ "$k" -lt 16 ]; do
    tail -c 2 seven >>sixteen_bands
    k=$((k + 1))
done
tile 0 0 sixteen_bands >stream
from_is stream
begins_as none none
puts_are 0 0 1056
expect 'large: 16 bands' 0 wanted '' plainly from disk overview 0 3 0 1
is_put 'large: each has its mean' stream 3

# A row of a million numbers, any two neighbours alike, whose blob has more than 2^20 bytes; its half has each number once.
quads() {
    k=0
    while [ "$k" -lt 56 ]; do
        seq 1000 9999
        k=$((k + 1))
    done | head -n 500000
}
long_head() { printf 'LGR1'; numbers 1 5; numbers 4 1 1000000 1; }
{ long_head; ones 1000000; quads | sed 's/.*/&&/' | tr -d '\n'; } >long_grid
{ long_head; ones 500000; zeros 500000; quads | tr -d '\n'; } >long_half
tile 0 0 long_grid >stream
from_is stream
if [ "$(wc -c <from)" -gt $((131140 + 1048576)) ]; then holds=yes; else holds=no; fi
count 'large: a tile of more than 2^20 bytes' "$holds"
"$codec" - encode 3 0 <long_half >blob
begins_as none none
puts_are 0 0 "$(wc -c <blob)"
expect 'large: its half' 0 wanted '' plainly from disk overview 0 3 0 1
tile 0 0 long_half >halves
is_put 'large: has each number once' halves 3

# A bundle with all slack that can be said.
tile 0 0 seven >stream
from_is stream
with_slack from >slack
rm -f slack.jnl
begins_as none none
puts_are 0 0 66
expect 'large: all slack that can be said' 0 wanted '' plainly slack disk overview 0 3 0 1
is_put 'large: is nothing to the half' stream 3
# shellcheck disable=SC2046
expect 'forty words' 1 nothing "$usage" plainly from disk $(seq 40)

# A tile in each slot: all coarse tiles that there may be, up to 1,024 of them encoded at once.
all_tiles >stream
rm -f from from.jnl
"$codec" from build 3 0 2 <stream >made 2>err
awk 'BEGIN { for (k = 0; k < 4096; k++) print "put", int(k / 64), k % 64, 66 }' >wanted
for workers in 1 64; do
    begins_as none none
    expect "large: a tile in each slot, $workers workers" 0 wanted '' plainly from disk overview 0 3 0 "$workers"
done

# ---- No number can be held

# Where no number of a closed stream can be held no bundle is opened.
if make_closed_root "$(built_of overview_tiles_main)"; then
    tile 0 0 seven >stream
    from_is stream
    cp from "$closed_root/from"
    mkdir "$closed_root/free"
    chmod 777 "$closed_root/free"
    expect 'no folder opens' 5 nothing "$no_volume" in_closed_root from free/disk overview 0 3 0 1
    if [ -e "$closed_root/free/disk" ]; then count 'and no bundle is made' no; else count 'and no bundle is made' yes; fi
    mkdir "$closed_root/tmp"
    chmod 755 "$closed_root/tmp"
    puts_are 0 0 66
    expect 'another folder than the root opens' 0 wanted '' in_closed_root from free/disk overview 0 3 0 1
fi

# ---- Killed

# Tiles of one pixel in the first 32 rows of slots: a thousand and twenty-four coarse tiles.
many_tiles 4096 >many
rm -f from from.jnl
"$codec" from build 3 0 2 <many >made 2>err
cp from from_before
k=0
while [ "$k" -lt 1024 ]; do
    echo "put $((k / 64)) $((k % 64)) 66"
    k=$((k + 1))
done >all_puts

# Starts the overview, and kills the program once it has given this many lines.
killed_after() {
    : >out
    "$program" from disk overview 0 3 0 4 >out 2>err &
    child=$!
    while kill -0 "$child" 2>/dev/null && [ "$(wc -l <out)" -lt "$1" ]; do
        sleep 0.01
    done
    kill -9 "$child" 2>/dev/null
    wait "$child" 2>/dev/null
}

# Whether the bundle, recovered, has the first coarse tiles and no other: whole groups of 64, those of which a line was
# given, and at most one more.
has_first_tiles() {
    whole=$((($(wc -l <out) + 63) / 64 * 64))
    cmp -s -n "$(wc -c <out)" out all_puts || return
    "$codec" disk recover >word 2>err || return
    "$codec" disk list >rows 2>err || return
    listed=$(wc -l <rows)
    [ "$listed" -eq "$whole" ] || [ "$listed" -eq $((whole + 64)) ] || return
    awk '{ print "put", $1, $2, $4 }' rows | cmp -s - "all_puts_$listed"
}
k=0
while [ "$k" -le 1024 ]; do
    head -n "$k" all_puts >"all_puts_$k"
    k=$((k + 64))
done
for lines in 0 1 64 65 500; do
    begins_as none none
    killed_after "$lines"
    printed=$(wc -l <out)
    if [ "$printed" -ge 1024 ]; then
        echo "skipped: killed after $lines lines, which came too late"
    else
        has_first_tiles
        count "killed after $printed lines, and recovered" "$([ $? -eq 0 ] && echo yes || echo no)"
    fi
    expect 'after that all are put' 0 all_puts '' plainly from disk overview 0 3 0 4
    from_stands 'and the first bundle is as it was'
done

tell
