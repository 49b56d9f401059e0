#!/bin/sh
# Runs each built program once for each growth of memory that a row of it asks for, with that one refused: tests/refuse.c is
# put before the C library. A run is right that gives the row, and one that ends with status 6, the one line of that, no
# output, and its files as they were, or as a recovery leaves them; anything else is wrong. What the rows give is compared
# in the other scripts; here it is what a run with all memory gives. It takes the programs that bin/ builds, or those of
# the same names in the folder that it is given. It needs sh, the core utilities, diff and cc; where there is no cc, or the
# C library has no such names, it says so and passes. Its last line is 'N passed, M failed'.
set -u

here=$(cd "$(dirname "$0")/.." && pwd) || exit 1
. "$here/tests/lib.sh"
folder=$(readlink -f "${1:-$here/bin}")
begin
if ! cc -std=c99 -shared -fPIC -O1 -o refuse.so "$here/tests/refuse.c" 2>why; then
    echo "no growth is refused: there is no cc, or it cannot build tests/refuse.c"
    exit 0
fi

# A program by its name, as it is built: a script in bin/ would be refused memory itself.
program_of() {
    program=$folder/$1
    "$program" >made 2>err
    built_of "$2"
}

# ---- What is given

bytes 4c 47 52 31 01 01 00 00 00 01 00 00 00 01 00 00 00 01 07 >grid
bytes 4c 47 52 31 01 01 00 00 00 01 00 00 00 02 00 00 00 01 07 09 >deep_grid
bytes 4c 47 52 32 01 01 00 00 00 09 00 00 00 01 00 00 00 02 00 00 00 >bands_grid
bytes 01 01 01 00 01 01 01 01 01 01 02 03 05 08 0d 15 22 >band
cat band band >>bands_grid
printf 'ncols 2\nnrows 1\nxllcorner 0.5\nyllcorner -10\ncellsize 30\nNODATA_value -9999\n7 -9999\n' >text
{ tile 0 0 grid; tile 0 1 grid; tile 127 127 grid; } >stream
{ bytes 52 00 00 11 00 00 00; cat band; } >raw_one
{ cat raw_one; bytes 52 7f 7f 11 00 00 00; cat band; } >raw
echo '127 127' >one_slot
: >nothing

lerc_cli=$(program_of lerc_cli lerc_main)
ascii_grid=$(program_of ascii_grid ascii_grid_main)
bundle_pack=$(program_of bundle_pack bundle_pack_main)
bundle_tiles=$(program_of bundle_tiles bundle_tiles_main)
level_cache=$(program_of level_cache level_cache_main)
overview_tiles=$(program_of overview_tiles overview_tiles_main)
tile_audit=$(program_of tile_audit tile_audit_main)

"$lerc_cli" - encode 4 0 <bands_grid >blobs
"$ascii_grid" split i16 <text >file
# Folders that rows begin with: an empty one; a bundle of three tiles, its journal beside it; a put of it that a crash cut
# off behind its gate, and what a recovery makes of that; a level; two bundles; one of one tile.
mkdir none three torn level two one
(cd three && "$lerc_cli" disk put 4 0 1) <stream >made
cp three/* torn
(cd torn && "$lerc_cli" disk put 4 0 1) <stream >made
cp -r torn whole
{ bytes 01; tail -c +2 whole/disk.jnl; } >torn/disk.jnl
{ head -c 131136 three/disk; tail -c +131137 whole/disk; } >torn/disk
(cd level && mkdir folder && "$level_cache" folder put 3 0 5 300) <grid >made
cp three/disk two/from
cp three/disk two/other
(cd one && "$bundle_tiles" disk import) <raw_one >made

# ---- The runs

echo 'out of memory' >no_memory

# Whether a run gave this status and these two files, and left a folder like one. Of its error output the second line, which
# names a bundle, may be missing: memory for it may be refused, too.
has_given() {
    [ "$got" -eq "$1" ] && cmp -s out "$2" && diff -r state "$4" >/dev/null && { cmp -s err "$3" || head -n 1 "$3" | cmp -s err -; }
}

# Runs the row with growth number $number refused; whether there was one.
refused() {
    rm -rf state hit
    cp -r "$start" state
    (cd state && REFUSE=$number REFUSED=$room/hit LD_PRELOAD=$room/refuse.so "$@") <"$input" >out 2>err
    got=$?
    [ -e hit ] || return 1
    if has_given "$wants" row_out row_err after; then
        given=$((given + 1))
    elif has_given 6 nothing no_memory "$start" || has_given 6 nothing no_memory "$rests"; then
        told=$((told + 1))
    elif [ -n "$other" ] && has_given "$other" nothing other_line "$start"; then
        others=$((others + 1))
    else
        wrong=$((wrong + 1))
        echo "    growth $number: status $got" >&2
        show 'standard output' out
        show 'standard error' err
    fi
}

# A row: its name, the folder that it begins with, its input, and the program with its words. It is right where each run is,
# and where some end with status 6. `wants` is the row's status, `rests` what a recovery makes of the folder; `other` is a
# status that may come, too.
row() {
    name=$1 start=$2 input=$3
    shift 3
    rm -rf after
    cp -r "$start" after
    (cd after && "$@") <"$input" >row_out 2>row_err
    ended=$?
    given=0 told=0 others=0 wrong=0 number=1
    while refused "$@"; do
        number=$((number + 1))
    done
    echo "    growths 1 to $((number - 1)): the row $given, status 6 $told${other:+, status $other $others}"
    if [ "$ended" -eq "$wants" ] && [ "$told" -gt 0 ] && [ "$wrong" -eq 0 ]; then
        count "$name" yes
    else
        count "$name" no
    fi
}

# A row by two workers is run three times: which growth has which number depends on them.
rows_by_two() {
    name_=$1
    shift
    for turn in 1 2 3; do
        row "$name_, by two workers, $turn" "$@"
    done
}

wants=0
rests=none
other=
row 'encode' none grid "$lerc_cli" - encode 3 0
row 'encode, two bands' none bands_grid "$lerc_cli" - encode 4 0
row 'encode, two depths' none deep_grid "$lerc_cli" - encode 4 0
row 'decode' none blobs "$lerc_cli" - decode
row 'info' none blobs "$lerc_cli" - info
row 'sample' none nothing "$lerc_cli" - sample 7 3
row 'build' none stream "$lerc_cli" disk build 3 0 1
row 'put into nothing' none stream "$lerc_cli" disk put 3 0 1
rows_by_two 'build' none stream "$lerc_cli" disk build 3 0 2
rows_by_two 'put into nothing' none stream "$lerc_cli" disk put 3 0 2
rests=three
for store in three torn; do
    if [ "$store" = torn ]; then rests=whole; fi
    row "get, $store" "$store" nothing "$lerc_cli" disk get 127 127
    row "get raw, $store" "$store" nothing "$lerc_cli" disk get 127 127 raw
    row "list, $store" "$store" nothing "$lerc_cli" disk list
    row "check, $store" "$store" nothing "$lerc_cli" disk check
    row "recover, $store" "$store" nothing "$lerc_cli" disk recover
    row "put, $store" "$store" stream "$lerc_cli" disk put 3 0 1
    row "export listed, $store" "$store" one_slot "$bundle_tiles" disk export listed
    row "import, $store" "$store" raw "$bundle_tiles" disk import
done

rests=three
wants=7
row 'build over tiles' three stream "$lerc_cli" disk build 3 0 1
row 'get of no tile' three nothing "$lerc_cli" disk get 5 5
rests=none
wants=2
row 'encode a text' none text "$lerc_cli" - encode 3 0
row 'put a text' none text "$lerc_cli" disk put 3 0 1
wants=1
row 'no command' none nothing "$lerc_cli" disk nothing
wants=0

rests=none
row 'split' none text "$ascii_grid" split i16
row 'join' none file "$ascii_grid" join

row 'import into nothing' none raw "$bundle_tiles" disk import
rests=one
row 'export' one nothing "$bundle_tiles" disk export
rests=two
row 'pack' two nothing "$bundle_pack" disk from
row 'pack two' two nothing "$bundle_pack" disk from other
row 'overview' two nothing "$overview_tiles" from disk overview 0 3 0 1
rows_by_two 'overview' two nothing "$overview_tiles" from disk overview 0 3 0 2

# An audit gives its lines batch by batch: of so few tiles all or none.
rests=three
row 'audit' three nothing "$tile_audit" disk audit 1
row 'audit, each line' three nothing "$tile_audit" disk audit 1 all strict
rows_by_two 'audit' three nothing "$tile_audit" disk audit 2 all

# Memory that is refused for a path is a failure of the shelf: status 8.
echo 'shelf failed' >other_line
rests=level
row 'name' level nothing "$level_cache" folder name 5 300
other=8
row 'level: put' level grid "$level_cache" folder put 3 0 7 9
row 'level: put over a tile' level grid "$level_cache" folder put 3 0 5 300
row 'level: get' level nothing "$level_cache" folder get 5 300 raw

tell
