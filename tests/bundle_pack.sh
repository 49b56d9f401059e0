#!/bin/sh
# Runs the program that packs bundles through bin/bundle_pack, or the program that it is given, and compares what it ends
# with, what it gives to standard output and to standard error, and the files that it leaves; what it packed is read by
# bin/lerc_cli or the second program. It needs sh, the core utilities, cmp and od. Its last line is 'N passed, M failed'.
set -u

here=$(cd "$(dirname "$0")/.." && pwd) || exit 1
. "$here/tests/lib.sh"
program=$(readlink -f "${1:-$here/bin/bundle_pack}")
codec=$(readlink -f "${2:-$here/bin/lerc_cli}")
begin

# ---- What is given

printf 'A tile of sixty-six bytes, as long as a coded picture of one pixel' >small
printf 'A tile of seventy-two bytes, which takes the place of the tile of 66 now' >large

# A bundle of no tiles; one of the small tile in the last slot, which is (127, 127); the same after a put of the large
# one into that slot; and one of the large one in slot (3, 4).
{ header 0 0 131136; zeros 131072; } >bundle_0
{ header 66 0 131206; index 131128 131140 66; record small; } >bundle_1
{ header 72 70 131282; index 131128 131210 72; record small; record large; } >bundle_2
{ header 72 0 131212; index 3168 131140 72; record large; } >bundle_3
journal 131210 72 bundle_2 >journal_2
opened journal_2 >open_2
# What a crash leaves of that put: the record, and the journal that is open.
{ cat bundle_1; record large; } >appended

# What they are packed to.
{ header 72 0 131212; index 131128 131140 72; record large; } >packed_2
{
    header 72 0 131282
    zeros 3104
    numbers 5 131140
    numbers 3 72
    zeros $((131128 - 64 - 3104 - 8))
    numbers 5 131216
    numbers 3 66
    record large
    record small
} >packed_3_1

# A bundle that has more bytes than `files_are_short` lets a file have.
head -c 6000 /dev/zero | tr '\0' x >wide
{ header 6000 0 137140; index 64 131140 6000; record wide; } >big

usage='usage: TARGET SOURCE, with 1 to 8 sources'
: >nothing

# A case is as `expect` has it, with the line of standard output in the place of its file.
gives() {
    case_=$1 status_=$2 output_=$3
    shift 3
    if [ -n "$output_" ]; then printf '%s\n' "$output_" >wanted; else : >wanted; fi
    expect "$case_" "$status_" wanted "$@"
}

# The target `disk` is this bundle. The journal beside it, where it is, is not open.
target_is() {
    gate=$(od -An -tx1 -N1 disk.jnl 2>/dev/null | tr -d ' ')
    if is_like disk "$2" && [ "${gate:-00}" = 00 ]; then count "$1" yes; else count "$1" no; fi
}

# A file is like another one.
same() { if is_like "$2" "$3"; then count "$1" yes; else count "$1" no; fi; }

# ---- Packed and merged

begins_as none none
cp bundle_2 source
gives 'a bundle is packed' 0 'packed 1 131212' '' plainly disk source
target_is 'without slack' packed_2
same 'its source is as it was' source bundle_2
"$codec" disk list >listed 2>err
echo '127 127 131140 72' >wanted
same 'the tile is listed' listed wanted
"$codec" disk get 127 127 raw >tile 2>err
same 'the tile is read' tile large
gives 'a target that is not empty' 7 '' 'store: NotEmpty 131212' plainly disk source
target_is 'it is as it was' packed_2

begins_as none none
gives 'two bundles are merged' 0 'packed 2 131282' '' plainly disk bundle_1 bundle_3
target_is 'by slot' packed_3_1
begins_as none none
gives 'of a slot the last source counts' 0 'packed 1 131212' '' plainly disk bundle_1 bundle_2
target_is 'the later tile' packed_2
begins_as none none
gives 'one without tiles hides none' 0 'packed 1 131212' '' plainly disk bundle_2 bundle_0 nowhere
target_is 'the tile is there' packed_2
begins_as none none
gives 'eight sources' 0 'packed 2 131282' '' plainly disk bundle_3 bundle_1 bundle_1 bundle_1 bundle_1 bundle_1 bundle_1 bundle_1
target_is 'the two tiles' packed_3_1
begins_as none none
gives 'eight sources, of which the last has the tile' 0 'packed 2 131282' '' plainly disk bundle_1 bundle_1 bundle_1 bundle_1 bundle_1 bundle_1 bundle_1 bundle_3
target_is 'and the last is packed' packed_3_1
begins_as none none
gives 'sources that are not there' 0 'packed 0 131136' '' plainly disk nowhere nowhere_else
target_is 'a bundle of no tiles' bundle_0
if [ -e nowhere ] || [ -e nowhere.jnl ]; then holds=no; else holds=yes; fi
count 'no source is made' "$holds"
: >disk
printf '\377' >disk.jnl
gives 'an empty target beside a journal that does not count' 0 'packed 1 131212' '' plainly disk bundle_2
target_is 'is packed' packed_2

begins_as none none
cp appended source
cp open_2 source.jnl
gives 'a source is recovered first' 0 'packed 1 131212' '' plainly disk source
target_is 'and its new tile packed' packed_2
same 'the source stands as the recovery leaves it' source bundle_2
rm -f source.jnl

# ---- Large cases, each of which is to end well

with_slack bundle_1 >source
begins_as none none
gives 'large: all slack that can be said' 0 'packed 1 131206' '' plainly disk source
target_is 'large: the tile without slack' bundle_1
digits 3000000 >far_tile
{ header 3000000 0 3131140; index 64 131140 3000000; record far_tile; } >bundle_far
begins_as none none
gives 'large: a tile of more than 2^20 bytes' 0 'packed 1 3131140' '' plainly disk bundle_far
target_is 'large: which stands whole' bundle_far
all_tiles >stream
rm -f source source.jnl
"$codec" source build 3 0 2 <stream >made 2>err
begins_as none none
gives 'large: a tile in each slot' 0 'packed 16384 1278016' '' plainly disk source
target_is 'large: each is there' source
rm -f source source.jnl

# ---- Refused

begins_as none none
# shellcheck disable=SC2046
expect 'forty words' 1 nothing "$usage" plainly disk $(seq 40)
expect 'no words' 1 nothing "$usage" plainly
expect 'a target alone' 1 nothing "$usage" plainly disk
expect 'nine sources' 1 nothing "$usage" plainly disk bundle_1 bundle_1 bundle_1 bundle_1 bundle_1 bundle_1 bundle_1 bundle_1 bundle_1
head -c 100 bundle_2 >short
expect 'a source that is no bundle' 7 nothing 'store: BadBundle at 100 found 100' plainly disk bundle_1 short
tells_behind 'it is the last that is told of' 'in bundle_1 or short'
cp bundle_1 odd
{ head -c 8 open_2; bytes 03; tail -c +10 open_2; } >odd.jnl
expect 'the first such source is told' 7 nothing 'store: BadJournal at 8 found 3' plainly disk bundle_1 odd short
tells_behind 'and none behind it' 'in bundle_1 or odd'
head -c 131206 packed_2 >cut
expect 'a tile that is cut off' 7 nothing 'store: Beyond 127 127 offset 131140 size 72 got 66' plainly disk cut
leaves 'no target is made' none none
gives 'a tile that is cut off and does not count' 0 'packed 1 131206' '' plainly disk cut bundle_1
target_is 'the other tile is packed' bundle_1
begins_as short none
expect 'a target that is no bundle' 7 nothing 'store: BadBundle at 100 found 100' plainly disk bundle_1
tells_behind 'is told alone' 'in disk'
leaves 'it is as it was' short none
begins_as bundle_1 none
expect 'a source is refused before a target' 7 nothing 'store: BadBundle at 100 found 100' plainly disk short

# ---- Objects that fail

begins_as none none
mkdir folder
expect 'a folder in the place of a source' 5 nothing 'volume failed' plainly disk bundle_1 folder
tells_behind 'is told' 'in folder: Is a directory (os error 21)'
expect 'a source without a path' 5 nothing 'volume failed' plainly disk -
expect 'a source whose path has no bytes' 5 nothing 'volume failed' plainly disk ''
expect 'one behind a source that is there' 5 nothing 'volume failed' plainly disk bundle_1 ''
leaves 'no target is made for them' none none
if [ -e .jnl ] || [ -e bundle_1.jnl ]; then holds=no; else holds=yes; fi
count 'and no journal of a source' "$holds"
expect 'a target whose path has no bytes' 5 nothing 'volume failed' plainly '' bundle_1
if [ -e .jnl ]; then holds=no; else holds=yes; fi
count 'and no journal is made for it' "$holds"
expect 'a path that is no text' 5 nothing 'volume failed' plainly disk "$(printf 'a\377')"
leaves 'no target is made' none none
expect 'a folder in the place of the target' 5 nothing 'volume failed' plainly folder bundle_1
tells_behind 'is told, too' 'in folder: Is a directory (os error 21)'
expect 'a target without a path' 5 nothing 'volume failed' plainly - bundle_1
begins_as none none
: >out
expect 'a full output' 4 nothing 'output failed' output_full disk bundle_2
target_is 'the target stands packed' packed_2
begins_as none none
: >out
expect 'a closed output' 4 nothing 'output failed' output_closed disk bundle_2
target_is 'and holds no byte of the output' packed_2
begins_as none none
all_closed disk bundle_2
count 'all streams closed' "$([ $? -eq 4 ] && echo yes || echo no)"
target_is 'and no byte of a line' packed_2
begins_as none none
expect 'a target that may not grow so far' 5 nothing 'volume failed' files_are_short disk bundle_2 big
gives 'is packed once it may' 0 'packed 1 131212' '' plainly disk bundle_2
target_is 'whole' packed_2

# A source that may only be read is packed, by another user than root.
if [ "$(id -u)" -eq 0 ] && command -v setpriv >/dev/null 2>&1; then
    mkdir shared
    cp "$(built_of bundle_pack_main)" shared/program
    cp bundle_2 shared/source
    chmod 755 "$room" shared/program
    chmod 444 shared/source
    chmod 777 shared
    as_reader() { (cd shared && exec setpriv --reuid 65534 --regid 65534 --clear-groups ./program "$@") >out 2>err; }
    gives 'a source that may only be read' 0 'packed 1 131212' '' as_reader disk source
    same 'is packed' shared/disk packed_2
else
    echo 'skipped: there is no other user than this one'
fi

# No number of a closed stream can be held, so no bundle is opened.
if make_closed_root "$(built_of bundle_pack_main)"; then
    cp bundle_2 "$closed_root/source"
    mkdir "$closed_root/free"
    chmod 777 "$closed_root/free"
    expect 'no folder opens' 5 nothing 'volume failed' in_closed_root free/disk source
    if [ -e "$closed_root/free/disk" ]; then holds=no; else holds=yes; fi
    count 'and no target is made' "$holds"
    mkdir "$closed_root/tmp"
    chmod 755 "$closed_root/tmp"
    gives 'another folder than the root opens' 0 'packed 1 131212' '' in_closed_root free/disk source
fi

tell
