#!/bin/sh
# Runs the program for ASCII grids through bin/ascii_grid, or the program that it is given, and compares
# what it ends with, and what it gives to standard output and to standard error; and takes heights from a
# GeoTIFF through a blob and back, by bin/lerc_cli or the second program, where GDAL is here. It needs sh,
# the core utilities, awk, od and cmp. Its last line is 'N passed, M failed'.
set -u

here=$(cd "$(dirname "$0")/.." && pwd) || exit 1
. "$here/tests/lib.sh"
program=$(readlink -f "${1:-$here/bin/ascii_grid}")
codec=$(readlink -f "${2:-$here/bin/lerc_cli}")
begin

# The worked example of the gate, both ways, also in pieces.
row=$here/crates/ascii_grid_main/stdin
file=$here/crates/ascii_grid_main/stdout
: >nothing
expect 'a text becomes its file' 0 "$file" '' plainly split i16 <"$row"
expect 'a file becomes its text' 0 "$row" '' plainly join <"$file"
expect 'no words' 1 nothing 'usage: split TYPE, join' plainly <"$row"
expect 'a type that there is not' 1 nothing 'usage: split TYPE, join' plainly split f4 <"$row"
# shellcheck disable=SC2046
expect 'forty words' 1 nothing 'usage: split TYPE, join' plainly $(seq 40) <"$row"
expect 'a word too many' 1 nothing 'usage: split TYPE, join' plainly join i16 <"$file"
printf 'ncols 1\nnrows 1\nxllcenter 0\nyllcenter 0\ncellsize 1\n300\n' >wide
expect 'a number out of range' 2 nothing 'refused: OutOfRange at 51' plainly split u8 <wide
head -c 20 "$file" >cut
expect 'a file cut off' 2 nothing 'refused: Truncated at 20' plainly join <cut
expect 'a closed input' 3 nothing 'source failed' input_closed join
expect 'a closed output' 4 nothing 'output failed' output_closed join <"$file"
expect 'a full output' 4 nothing 'output failed' output_full split i16 <"$row"

# A text as two files, by examples/ascii2lgr.
mkdir programs
ln -s "$program" programs/ascii_grid
two_files() { FUTSKHERI_BIN=$room/programs "$here/examples/ascii2lgr" "$@" >out 2>err; }
two_files i16 place grid <"$row"
if [ $? -eq 0 ] && cat place grid | cmp -s - "$file"; then holds=yes; else holds=no; fi
count 'two files, which are those bytes together' "$holds"
if [ "$(head -c 4 grid)" = LGR1 ] && [ ! -e grid.both ]; then holds=yes; else holds=no; fi
count 'of which the second is a grid, and no third is left' "$holds"
two_files u8 no_place no_grid <wide
if [ $? -eq 2 ] && [ ! -e no_place ] && [ ! -e no_grid ] && [ ! -e no_grid.both ]; then holds=yes; else holds=no; fi
count 'none of a text that is refused' "$holds"
rm place

# Large cases, each of which is to end well: a text of more than 65,535 rows, and one of as many columns.
then_joined() { "$program" "$@" 2>err | "$program" join >out; }
head_of() { printf 'ncols %s\nnrows %s\nxllcorner 0\nyllcorner 0\ncellsize 1\nNODATA_value -9999\n' "$1" "$2"; }
{ head_of 1 70000; seq 70000; } >tall
{ head_of 70000 1; seq -s ' ' 70000; } >wide_row
for text in tall wide_row; do
    expect "large: $text comes back" 0 "$text" '' then_joined split i32 <"$text"
    "$program" split i32 <"$text" >split_text 2>err
    if [ "$(wc -c <split_text)" -eq 350036 ]; then holds=yes; else holds=no; fi
    count "large: $text has 70,000 values" "$holds"
done

# A text of blanks alone: of 2^30, and of one more, which is too long.
of_blanks() {
    blanks_=$1
    shift
    zeros "$blanks_" | tr '\0' ' ' | "$program" "$@" >out 2>err
}
expect '2^30 blanks' 2 nothing 'refused: Truncated at 1073741824' of_blanks 1073741824 split i16
expect '2^30 blanks and one more' 2 nothing 'refused: TooLong at 1073741824' of_blanks 1073741825 split i16

# From a GeoTIFF to a blob and back.
if ! command -v gdal_translate >/dev/null; then
    echo 'skipped: gdal_translate is not here'
else
    awk 'BEGIN {
        print "ncols 64\nnrows 48\nxllcorner 440720\nyllcorner 3751320\ncellsize 60\nNODATA_value -9999"
        for (row = 0; row < 48; row++) {
            line = ""
            for (col = 0; col < 64; col++) {
                height = int(800 + 20 * row - 7 * col + (row * col) % 13)
                if ((row + col) % 11 == 0) height = -9999
                line = line height " "
            }
            print line
        }
    }' >hill.txt
    gdal_translate -q -ot Int16 -of GTiff hill.txt hill.tif 2>err
    gdal_translate -q -of AAIGrid hill.tif hill.asc 2>err

    "$program" split i16 <hill.asc >hill.lga 2>err
    # The grid stands behind the flags, three texts, each behind its length, and the nodata value.
    at=5
    for text in x y cell; do
        size=$(od -An -tu1 -j "$at" -N 1 hill.lga | tr -d ' ')
        at=$((at + 1 + size))
    done
    at=$((at + 8))
    tail -c +$((at + 1)) hill.lga >hill.lgr1
    "$codec" - encode 4 0 <hill.lgr1 >hill.lerc2 2>err
    "$codec" - decode <hill.lerc2 >back.lgr1 2>err
    if [ -s hill.lerc2 ] && cmp -s hill.lgr1 back.lgr1; then holds=yes; else holds=no; fi
    count 'GDAL: the grid goes through a blob' "$holds"
    { head -c "$at" hill.lga && cat back.lgr1; } | "$program" join >back.asc 2>err
    gdal_translate -q -ot Int16 -of ENVI hill.tif heights 2>err
    gdal_translate -q -ot Int16 -of ENVI back.asc again 2>err
    if [ -s heights ] && cmp -s heights again; then holds=yes; else holds=no; fi
    count 'GDAL: the heights come back' "$holds"
    gdalinfo hill.tif 2>err | grep -e '^Origin' -e '^Pixel Size' >place
    gdalinfo back.asc 2>err | grep -e '^Origin' -e '^Pixel Size' >place_again
    if [ -s place ] && cmp -s place place_again; then holds=yes; else holds=no; fi
    count 'GDAL: where they lie comes back' "$holds"
fi

tell
