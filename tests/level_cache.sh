#!/bin/sh
# Runs the program for one level of many bundles through bin/level_cache, or the program that it is given, and compares
# what it ends with, what it gives to standard output and to standard error, and the files of the folder; and has GDAL's
# driver for such caches read a level of four bundles, where it is here. The blob of a large grid is made by bin/lerc_cli or
# the second program. It needs sh, the core utilities, od and cmp. Its last line is 'N passed, M failed'.
set -u

here=$(cd "$(dirname "$0")/.." && pwd) || exit 1
. "$here/tests/lib.sh"
program=$(readlink -f "${1:-$here/bin/level_cache}")
codec=$(readlink -f "${2:-$here/bin/lerc_cli}")
begin

# A blob, and the grid of which it is.
blob=$here/crates/lerc_main/stdin
grid=$here/crates/lerc_main/stdout
usage='usage: FOLDER put V E ROW COL, get ROW COL raw, name ROW COL'
: >nothing

# The files of a folder, by their names, are these.
has_files() {
    name=$1
    folder=$2
    shift 2
    if [ "$(cd "$folder" && echo *)" = "$*" ]; then count "$name" yes; else count "$name" no; ls "$folder" >&2; fi
}

# ---- Names

echo R0000C0000.bundle >first
echo R0080C11100.bundle >far
echo R7fffff80C7fffff80.bundle >last
expect 'the name of the first bundle' 0 first '' plainly level name 0 0
expect 'a name of five digits' 0 far '' plainly level name 128 70000
expect 'the name of the last bundle' 0 last '' plainly level name 2147483647 2147483647

# ---- Words that are no command

expect 'no words at all' 1 nothing "$usage" plainly
expect 'a folder alone' 1 nothing "$usage" plainly level
expect 'a row that there is not' 1 nothing "$usage" plainly level name 2147483648 0
expect 'a row with a zero in front' 1 nothing "$usage" plainly level get 00 0 raw
expect 'a get of a grid' 1 nothing "$usage" plainly level get 0 0
expect 'another version' 1 nothing "$usage" plainly level put 5 0 0 0 <"$grid"

# ---- A tile is put and given

mkdir level
echo 'put 128 127 66' >put_128
has_files 'nothing was made so far' level '*'
expect 'a tile is put' 0 put_128 '' plainly level put 3 0 128 127 <"$grid"
has_files 'one bundle and its journal are made' level R0080C0000.bundle R0080C0000.bundle.jnl
bytes 44 00 02 00 00 42 00 00 >entry
tail -c +1081 level/R0080C0000.bundle | head -c 8 >found
if cmp -s entry found; then holds=yes; else holds=no; fi
count 'its entry stands at byte 1,080' "$holds"
expect 'the tile is given' 0 "$blob" '' plainly level get 128 127 raw
expect 'a tile of another bundle is not there' 7 nothing 'store: NoTile 0 127' plainly level get 0 127 raw
has_files 'and no file is made for it' level R0080C0000.bundle R0080C0000.bundle.jnl
expect 'a tile beside it is not there' 7 nothing 'store: NoTile 255 0' plainly level get 255 0 raw
echo 'put 127 127 66' >put_127
expect 'a tile of another bundle is put' 0 put_127 '' plainly level put 3 0 127 127 <"$grid"
has_files 'two bundles stand beside each other' level \
    R0000C0000.bundle R0000C0000.bundle.jnl R0080C0000.bundle R0080C0000.bundle.jnl
expect 'the first tile is still given' 0 "$blob" '' plainly level get 128 127 raw

# ---- Inputs and bundles that are refused

cp -r level kept
head -c 18 "$grid" >cut
cat "$grid" nothing >longer
echo >>longer
expect 'a grid that is cut off' 2 nothing 'refused: Truncated at 18' plainly level put 3 0 128 127 <cut
expect 'a byte behind the grid' 2 nothing 'refused: Leftover at 19' plainly level put 3 0 128 127 <longer
expect 'a closed input' 3 nothing 'source failed' input_closed level put 3 0 128 127
diff -r level kept >/dev/null && holds=yes || holds=no
count 'a refused input changes no file' "$holds"
expect 'a closed output' 4 nothing 'output failed' output_closed level get 128 127 raw
expect 'a full output' 4 nothing 'output failed' output_full level put 3 0 1 1 <"$grid"
expect 'what was put then stands' 0 "$blob" '' plainly level get 1 1 raw
head -c 100 /dev/zero >level/R0000C0080.bundle
expect 'a file that is no bundle' 7 nothing 'store: BadBundle at 100 found 100' plainly level get 0 128 raw
tells_behind 'is told by its path' 'in level/R0000C0080.bundle'

# ---- Folders

expect 'a folder that is not there has no tile' 7 nothing 'store: NoTile 0 0' plainly nowhere get 0 0 raw
expect 'and none is made' 5 nothing 'volume failed' plainly nowhere put 3 0 0 0 <"$grid"
tells_behind 'which is told' 'in nowhere/R0000C0000.bundle.jnl: No such file or directory (os error 2)'
expect 'a folder whose name is no UTF-8' 8 nothing 'shelf failed' plainly "$(printf 'a\377')" get 0 0 raw
expect 'a put into a folder without a name' 8 nothing 'shelf failed' plainly '' put 3 0 0 0 <"$grid"
expect 'a get from a folder without a name' 8 nothing 'shelf failed' plainly '' get 0 0 raw
if [ -e R0000C0000.bundle ] || [ -e /R0000C0000.bundle ]; then holds=no; else holds=yes; fi
count 'and no bundle is made for it' "$holds"
expect 'a name needs no folder' 0 first '' plainly "$(printf 'a\377')" name 0 0

# ---- What a stopped put left is made whole

# A bundle with a tile behind its end, and the journal that puts it, whose gate is open: as a put leaves them that is
# stopped once the gate is on the disk.
mkdir stopped
cp kept/R0080C0000.bundle stopped/R0000C0000.bundle
"$program" stopped put 3 0 1 127 <"$grid" >out 2>err
cp stopped/R0000C0000.bundle after
cp stopped/R0000C0000.bundle.jnl journal
{ head -c 131206 kept/R0080C0000.bundle && tail -c +131207 after; } >stopped/R0000C0000.bundle
{ bytes 01 && tail -c +2 journal; } >stopped/R0000C0000.bundle.jnl
expect 'the tile of a put that was stopped is given' 0 "$blob" '' plainly stopped get 1 127 raw
if cmp -s after stopped/R0000C0000.bundle && cmp -s journal stopped/R0000C0000.bundle.jnl; then holds=yes; else holds=no; fi
count 'and its bundle is whole' "$holds"

# ---- Large cases, each of which is to end well

# The last place of a level.
echo 'put 2147483647 2147483647 66' >put_last
expect 'large: the last place' 0 put_last '' plainly level put 3 0 2147483647 2147483647 <"$grid"
expect 'large: the tile of the last place' 0 "$blob" '' plainly level get 2147483647 2147483647 raw
if [ -e level/R7fffff80C7fffff80.bundle ]; then holds=yes; else holds=no; fi
count 'large: and its bundle' "$holds"

# Sixteen bands of one pixel.
{ printf 'LGR2'; head -c 17 "$grid" | tail -c 13; numbers 4 16; } >sixteen_bands
: >sixteen_blobs
k=0
while [ "$k" -lt 16 ]; do
    tail -c 2 "$grid" >>sixteen_bands
    cat "$blob" >>sixteen_blobs
    k=$((k + 1))
done
echo 'put 128 126 1056' >put_sixteen
expect 'large: 16 bands' 0 put_sixteen '' plainly level put 3 0 128 126 <sixteen_bands
expect 'large: the tile of 16 bands' 0 sixteen_blobs '' plainly level get 128 126 raw

# A tile of more than 2^20 bytes.
{ printf 'LGR1'; numbers 1 5; numbers 4 1 1000000 1; ones 1000000; digits 4000000; } >long_grid
"$codec" - encode 3 0 <long_grid >long_blob 2>err
size=$(wc -c <long_blob)
if [ "$size" -gt 1048576 ]; then holds=yes; else holds=no; fi
count 'large: a blob of more than 2^20 bytes' "$holds"
echo "put 300 5 $size" >put_long
expect 'large: a tile of more than 2^20 bytes' 0 put_long '' plainly level put 3 0 300 5 <long_grid
expect 'large: which stands whole' 0 long_blob '' plainly level get 300 5 raw

# A bundle with all slack that can be said.
mkdir slack
with_slack kept/R0080C0000.bundle >slack/R0080C0000.bundle
expect 'large: a tile beside all slack that can be said' 0 "$blob" '' plainly slack get 128 127 raw
expect 'large: another one is put' 0 put_128 '' plainly slack put 3 0 128 127 <"$grid"
expect 'large: and is given' 0 "$blob" '' plainly slack get 128 127 raw

# A folder's path of 405 bytes, and forty words.
# shellcheck disable=SC2046
far_level=$(printf './%.0s' $(seq 200))level
expect 'large: a path of 405 bytes' 0 "$blob" '' plainly "$far_level" get 128 127 raw
# shellcheck disable=SC2046
expect 'forty words' 1 nothing "$usage" plainly level $(seq 40)

# ---- No number can be held

# Where no number of a closed stream can be held no bundle is opened, and each take from the shelf fails.
if make_closed_root "$(built_of level_cache_main)"; then
    cp -r kept "$closed_root/level"
    chmod 755 "$closed_root/level"
    expect 'no folder opens' 8 nothing 'shelf failed' in_closed_root level get 128 127 raw
    expect 'no folder opens, and a name needs none' 0 first '' in_closed_root level name 0 0
    mkdir "$closed_root/tmp"
    chmod 755 "$closed_root/tmp"
    expect 'another folder than the root opens' 0 "$blob" '' in_closed_root level get 128 127 raw
fi

# ---- A level of four bundles, read by GDAL

if has_gdal; then
    # A grid of 256 by 256 bytes that are all this one, in octal digits.
    plain() {
        bytes 4c 47 52 31 01 00 01 00 00 00 01 00 00 01 00 00 00
        zeros 65536 | tr '\0' '\1'
        zeros 65536 | tr '\0' "\\$1"
    }
    # 256 by 256 tiles; the four in the middle are there, each in a bundle of its own.
    mkdir -p cache/_alllayers/L00
    sed -e 's|<X>-256</X><Y>256</Y>|<X>-32768</X><Y>32768</Y>|' "$here/docs/conf.xml" >cache/conf.xml
    for tile in '127 127 1' '127 128 2' '128 127 3' '128 128 4'; do
        # shellcheck disable=SC2086
        set -- $tile
        plain "$3" | "$program" cache/_alllayers/L00 put 3 0 "$1" "$2" >out 2>err
    done
    has_files 'GDAL: four bundles' cache/_alllayers/L00 R0000C0000.bundle R0000C0000.bundle.jnl \
        R0000C0080.bundle R0000C0080.bundle.jnl R0080C0000.bundle R0080C0000.bundle.jnl \
        R0080C0080.bundle R0080C0080.bundle.jnl
    if [ "$(gdalinfo cache/conf.xml 2>err | sed -n 's/^Size is //p')" = '65536, 65536' ]; then holds=yes; else holds=no; fi
    count 'GDAL: the size of a level' "$holds"
    gdal_translate -q -b 1 -srcwin 32766 32766 4 4 -of ENVI cache/conf.xml pixels 2>err
    bytes 1 1 2 2 1 1 2 2 3 3 4 4 3 3 4 4 >middle
    if cmp -s pixels middle; then holds=yes; else holds=no; fi
    count 'GDAL: where four bundles meet' "$holds"
fi

tell
