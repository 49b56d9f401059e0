#!/bin/sh
# Runs the program that gives and takes a bundle's tiles through bin/bundle_tiles, or the program that it is given, and
# compares what it ends with, what it gives to standard output and to standard error, and the files that it leaves. What is
# wanted is made byte by byte from docs/FORMATS.md. bin/lerc_cli and bin/bundle_pack, or the second and third program, read
# what it left. It needs sh, the core utilities, cmp and od. Its last line is 'N passed, M failed'.
set -u

here=$(cd "$(dirname "$0")/.." && pwd) || exit 1
. "$here/tests/lib.sh"
program=$(readlink -f "${1:-$here/bin/bundle_tiles}")
codec=$(readlink -f "${2:-$here/bin/lerc_cli}")
packer=$(readlink -f "${3:-$here/bin/bundle_pack}")
begin

# ---- What is given

printf 'A tile of sixty-six bytes, as long as a coded picture of one pixel' >small
printf 'A tile of seventy-two bytes, which takes the place of the tile of 66 now' >large
printf '\377\330\377\340 a picture \377\331' >picture
: >nothing

# A tile of a stream: row and column of its slot, and its bytes.
raw() {
    bytes 52
    numbers 1 "$1" "$2"
    numbers 4 "$(wc -c <"$3")"
    cat "$3"
}

# The place of a slot's entry.
entry_of() { echo $((64 + 8 * (128 * $1 + $2))); }

# A bundle of no tiles; one of the small tile in the last slot; the same after the large one took its place; one of the
# large one in slot (3, 4) and the small one in the last, by slot; and one of both, the last one first.
{ header 0 0 131136; zeros 131072; } >bundle_0
{ header 66 0 131206; index 131128 131140 66; record small; } >bundle_1
{ header 72 70 131282; index 131128 131210 72; record small; record large; } >bundle_2
{
    header 72 0 131282
    zeros $(($(entry_of 3 4) - 64))
    numbers 5 131140
    numbers 3 72
    zeros $((131128 - $(entry_of 3 4) - 8))
    numbers 5 131216
    numbers 3 66
    record large
    record small
} >both
{
    header 72 0 131282
    zeros $(($(entry_of 3 4) - 64))
    numbers 5 131210
    numbers 3 72
    zeros $((131128 - $(entry_of 3 4) - 8))
    numbers 5 131140
    numbers 3 66
    record small
    record large
} >backwards
journal 131140 66 bundle_1 >journal_1
journal 131210 72 bundle_2 >journal_2
opened journal_2 >open_2
# What a crash leaves of the put of the large tile: the record, and the journal that is open.
{ cat bundle_1; record large; } >appended

raw 127 127 small >stream_1
raw 127 127 large >stream_2
{ raw 3 4 large; raw 127 127 small; } >stream_both
{ raw 127 127 small; raw 3 4 large; } >stream_backwards
echo 'put 127 127 66' >put_1
echo 'put 127 127 72' >put_2
{ echo 'put 3 4 72'; echo 'put 127 127 66'; } >put_both
{ echo 'put 127 127 66'; echo 'put 3 4 72'; } >put_backwards

usage='usage: PATH export, export listed, import'

# A file is like another one.
same() { if is_like "$2" "$3"; then count "$1" yes; else count "$1" no; fi; }

# The bundle `disk` is this one, and the journal beside it is not open.
disk_is() {
    gate=$(od -An -tx1 -N1 disk.jnl 2>/dev/null | tr -d ' ')
    if is_like disk "$2" && [ "${gate:-00}" = 00 ]; then count "$1" yes; else count "$1" no; fi
}

# ---- Out

begins_as bundle_2 none
expect 'export: the tile of the slot' 0 stream_2 '' plainly disk export <nothing
disk_is 'export: the bundle is as it was' bundle_2
begins_as both none
expect 'export: by slot' 0 stream_both '' plainly disk export <nothing
begins_as backwards none
expect 'export: by slot, and not by place' 0 stream_both '' plainly disk export <nothing
begins_as bundle_0 none
expect 'export: of a bundle without tiles' 0 nothing '' plainly disk export <nothing
begins_as none none
expect 'export: of a bundle that is not there' 0 nothing '' plainly disk export <nothing
leaves 'export: which is not made' none none
begins_as appended open_2
expect 'export: what a crash left is made whole first' 0 stream_2 '' plainly disk export <nothing
disk_is 'export: and stays so' bundle_2
begins_as bundle_1 none
expect 'export: standard input is not read' 0 stream_1 '' input_closed disk export

# ---- Out, by a list

begins_as both none
printf '127 127\n3 4\n' >list
expect 'listed: in the order of the lines' 0 stream_backwards '' plainly disk export listed <list
"$codec" disk list >list 2>err
expect 'listed: the lines of list' 0 stream_both '' plainly disk export listed <list
printf '3\t4\t131140\t72\t-\tdamaged\n' >list
raw 3 4 large >wanted
expect 'listed: tabs, and further fields' 0 wanted '' plainly disk export listed <list
printf '3 4 \n3 4\n' >list
{ raw 3 4 large; raw 3 4 large; } >wanted
expect 'listed: twice is twice' 0 wanted '' plainly disk export listed <list
expect 'listed: nothing' 0 nothing '' plainly disk export listed <nothing
printf '3 4\n5 5\n127 127\n' >list
raw 3 4 large >wanted
expect 'listed: a slot without a tile ends it' 7 wanted 'store: NoTile 5 5' plainly disk export listed <list
# Each list, and the place of its first fault.
while IFS='|' read -r text place; do
    # shellcheck disable=SC2059
    printf "$text" >list
    expect "listed: refused: $text" 2 nothing "refused: $place" plainly disk export listed <list
done <<'END_OF_LISTS'
128 0\n|BadLine at 0
3 128\n|BadLine at 0
3 4\n03 4\n|BadLine at 4
3 4\n3\n|BadLine at 4
3 4\n\n|BadLine at 4
3  4\n|BadLine at 0
 3 4\n|BadLine at 0
3,4\n|BadLine at 0
3 4x\n|BadLine at 0
3 4\r\n|BadLine at 0
tiles 2\n|BadLine at 0
3 4|Truncated at 3
3 4\n12|Truncated at 6
3 4\nx\n3 4|BadLine at 4
END_OF_LISTS
begins_as appended open_2
printf 'x\n' >list
expect 'listed: a list that is refused' 2 nothing 'refused: BadLine at 0' plainly disk export listed <list
leaves 'listed: touches no file' appended open_2

# ---- In

begins_as none none
expect 'import: a first tile' 0 put_1 '' plainly disk import <stream_1
leaves 'import: the bundle and its journal' bundle_1 journal_1
expect 'import: another tile in its slot' 0 put_2 '' plainly disk import <stream_2
leaves 'import: leaves slack' bundle_2 journal_2
begins_as none none
expect 'import: no tiles' 0 nothing '' plainly disk import <nothing
leaves 'import: leave no file' none none
begins_as none none
expect 'import: two tiles' 0 put_both '' plainly disk import <stream_both
disk_is 'import: one behind the other' both
begins_as none none
expect 'import: in the order of the stream' 0 put_backwards '' plainly disk import <stream_backwards
disk_is 'import: whose records they are' backwards
begins_as none none
raw 0 1 picture >stream
echo 'put 0 1 17' >wanted
expect 'import: a picture' 0 wanted '' plainly disk import <stream
"$codec" disk get 0 1 raw >tile 2>err
same 'import: as it is' tile picture
begins_as appended open_2
expect 'import: what a crash left is made whole first' 0 put_1 '' plainly disk import <stream_1
"$codec" disk get 127 127 raw >tile 2>err
same 'import: and then put over' tile small

# ---- Out and in

begins_as none none
cp bundle_2 source
"$program" source export 2>err | "$program" disk import >out 2>err
"$packer" packed_by source >line 2>err
same 'out and in: what is packed, byte by byte' disk packed_by
begins_as none none
"$program" backwards export 2>err | "$program" disk import >out 2>err
disk_is 'out and in: by slot, without slack' both

# ---- Streams that are none

printf hello >hello
printf x >x
printf abc >abc
{ raw 0 0 hello; raw 1 2 x; raw 127 127 abc; } >three
{ echo 'put 0 0 5'; echo 'put 1 2 1'; echo 'put 127 127 3'; } >put_three
begins_as none none
expect 'three: whole' 0 put_three '' plainly disk import <three
# Cut at each of its bytes: refused at the end, but where a tile ends. Of a group that is not whole nothing is put.
length=0
while [ "$length" -lt 30 ]; do
    begins_as none none
    head -c "$length" three >cut
    case $length in
    0) expect 'three: cut at 0' 0 nothing '' plainly disk import <cut ;;
    12 | 20)
        head -n $((length / 10)) put_three >wanted
        expect "three: cut at $length" 0 wanted '' plainly disk import <cut
        ;;
    *)
        expect "three: cut at $length" 2 nothing "refused: Truncated at $length" plainly disk import <cut
        leaves "three: cut at $length: nothing is put" none none
        ;;
    esac
    length=$((length + 1))
done
# Each byte changed to 255: what the field is says what is refused. The size, in its lowest three bytes, then says more than
# there is; in its highest it is too large.
at=0
for field in m r c 0 1 2 3 b b b b b m r c 0 1 2 3 b m r c 0 1 2 3 b b b; do
    { head -c "$at" three; bytes ff; tail -c +$((at + 2)) three; } >changed
    case $field in
    m) line="BadTileMark at $at" ;;
    r) line="BadRow at $at" ;;
    c) line="BadCol at $at" ;;
    [012]) line='Truncated at 30' ;;
    3) line="BadSize at $((at - 3))" ;;
    b) line='' ;;
    esac
    begins_as none none
    if [ -n "$line" ]; then
        expect "three: byte $at changed" 2 nothing "refused: $line" plainly disk import <changed
        leaves "three: byte $at changed: nothing is put" none none
    else
        expect "three: byte $at changed, which is a tile's own" 0 put_three '' plainly disk import <changed
    fi
    at=$((at + 1))
done
# Each byte of the sizes changed to 0.
{ bytes 52 00 00 00 00 00 00; } >cut
begins_as none none
expect 'a size of 0' 2 nothing 'refused: BadSize at 3' plainly disk import <cut
{ bytes 52 00 00 00 00 00 01; zeros 16777216; } >cut
expect 'a size of 2^24' 2 nothing 'refused: BadSize at 3' plainly disk import <cut
{ bytes 52 80 80 00 00 00 00; } >cut
expect 'the first fault of several' 2 nothing 'refused: BadRow at 1' plainly disk import <cut
tile 0 0 hello >cut
expect 'a stream of another kind' 2 nothing 'refused: BadTileMark at 0' plainly disk import <cut

# ---- Groups

# Seventy tiles of one byte, whose stream then has a fault: the first 64 are put, and have their lines.
tiles=0
: >seventy
: >put_seventy
while [ "$tiles" -lt 70 ]; do
    raw 0 "$tiles" x >>seventy
    echo "put 0 $tiles 1" >>put_seventy
    tiles=$((tiles + 1))
done
head -n 64 put_seventy >put_64
{ cat seventy; bytes 53; } >stream
begins_as none none
expect 'seventy: a fault behind them' 2 put_64 'refused: BadTileMark at 560' plainly disk import <stream
"$codec" disk check >out 2>err
printf 'tiles 64\nbytes 64\nbad 0\n' >wanted
same 'seventy: the first group is there' out wanted
expect 'seventy: sent again whole' 0 put_seventy '' plainly disk import <seventy
"$codec" disk check >out 2>err
printf 'tiles 70\nbytes 70\nbad 0\n' >wanted
same 'seventy: all are there' out wanted
begins_as none none
head -c 512 seventy >stream
expect 'seventy: just a group' 0 put_64 '' plainly disk import <stream
begins_as none none
head -c 519 seventy >stream
expect 'seventy: cut within the first tile of the next' 2 put_64 'refused: Truncated at 519' plainly disk import <stream

# ---- Refused

# shellcheck disable=SC2086
for words in '' 'list' 'export all' 'import listed' 'export listed more' 'imports' 'listed'; do
    begins_as bundle_1 none
    expect "words: $words" 1 nothing "$usage" plainly disk $words <stream_2
    leaves "words: $words: nothing is touched" bundle_1 none
done
expect 'no words' 1 nothing "$usage" plainly <nothing
head -c 100 bundle_1 >short
for words in export 'export listed' import; do
    begins_as short none
    # shellcheck disable=SC2086
    expect "$words: no bundle" 7 nothing 'store: BadBundle at 100 found 100' plainly disk $words <nothing
    leaves "$words: it is as it was" short none
    cp bundle_1 odd
    { head -c 8 open_2; bytes 03; tail -c +10 open_2; } >odd.jnl
    # shellcheck disable=SC2086
    expect "$words: a journal that is none" 7 nothing 'store: BadJournal at 8 found 3' plainly odd $words <nothing
done
head -c 131276 bundle_2 >cut_off
begins_as cut_off none
expect 'export: a tile that is cut off' 7 nothing 'store: Beyond 127 127 offset 131210 size 72 got 66' plainly disk export <nothing
{ head -c 131270 both; } >cut_off
begins_as cut_off none
raw 3 4 large >wanted
expect 'export: the tiles before it are given whole' 7 wanted 'store: Beyond 127 127 offset 131216 size 66 got 54' plainly disk export <nothing

# ---- Objects that fail

begins_as none none
mkdir folder
expect 'a folder in the place of the bundle' 5 nothing 'volume failed' plainly folder import <stream_1
tells_behind 'is told' 'in folder: Is a directory (os error 21)'
expect 'no path' 5 nothing 'volume failed' plainly - export <nothing
tells_behind 'and no file is named' ''
expect 'a path that is no text' 5 nothing 'volume failed' plainly "$(printf 'a\377')" import <stream_1
begins_as bundle_1 none
: >out
expect 'export: a full output' 4 nothing 'output failed' output_full disk export <nothing
begins_as none none
: >out
expect 'import: a full output' 4 nothing 'output failed' output_full disk import <stream_1
disk_is 'import: the group is there' bundle_1
begins_as none none
expect 'import: a closed input' 3 nothing 'source failed' input_closed disk import
leaves 'import: nothing is put' none none
expect 'listed: a closed input' 3 nothing 'source failed' input_closed disk export listed
begins_as none none
head -c 6000 /dev/zero | tr '\0' y >wide
{ raw 0 0 x; raw 0 1 wide; } >stream
expect 'import: a bundle that may not grow so far' 5 nothing 'volume failed' files_are_short disk import <stream
expect 'import: once it may' 0 put_1 '' plainly disk import <stream_1
begins_as none none
all_closed disk export
count 'all streams closed' "$([ $? -eq 0 ] && echo yes || echo no)"

# ---- The recipes of GUIDE that are not run with it, as they stand there

# The lines of GUIDE from the one that begins so to the one that begins so.
lines_of() { sed -n "/^    $1/,/^    $2/s/^    //p" "$here/docs/GUIDE.md"; }
mkdir bin
ln -s "$program" bin/bundle_tiles
ln -s "$here/python" python

mkdir level
cp bundle_2 level/R0000C0000.bundle
cp backwards level/R0000C0080.bundle
lines_of 'mkdir -p packed' '    bin.bundle_tiles "$1" export' >recipe
sh recipe >out 2>err
same 'a level: no command tells anything' err nothing
same 'a level: a bundle is packed' packed/R0000C0080.bundle both
same 'a level: with its lines' packed/R0000C0080.bundle.lines put_both
same 'a level: and the other one' packed/R0000C0000.bundle.lines put_2

# No machine is here to which anyone could log in: `ssh` is a command that does what it is to do in another folder.
mkdir other
printf '#!/bin/sh\nshift\ncd other && exec sh -c "$*"\n' >bin/ssh
chmod +x bin/ssh
cp backwards tiles.bundle
lines_of 'bin.bundle_tiles tiles.bundle export | ssh' '' | head -n 1 >recipe
PATH=$room/bin:$PATH sh recipe >out 2>err
same 'to another machine: the lines are here' lines put_both
same 'to another machine: the tiles are there' other/tiles.bundle both

# The lines in C and in Python, as they stand there.
if command -v cc >/dev/null 2>&1; then
    begins_as none none
    {
        echo '#include <stdio.h>'
        echo 'int main(void) {'
        echo 'unsigned char blob[100]; size_t size = fread(blob, 1, 100, stdin); int row = 3, column = 4; FILE *stream = stdout;'
        lines_of 'unsigned char head' 'fwrite(blob'
        echo 'return 0; }'
    } >writer.c
    cc -std=c99 -Wall -Wextra -Werror -o writer writer.c && ./writer <large >stream
    raw 3 4 large >wanted
    same 'from C: a tile of a stream' stream wanted
    echo 'put 3 4 72' >wanted
    expect 'from C: it is put' 0 wanted '' plainly disk import <stream
    "$codec" disk get 3 4 raw >tile 2>err
    same 'from C: as it is' tile large
else
    echo 'skipped: cc is not here'
fi
python=$(python_with_numpy)
if [ -n "$python" ]; then
    begins_as none none
    "$codec" - encode 3 1 <"$here/docs/hill.lgr1" >hill.lerc2
    lines_of 'PYTHONPATH=python python3 .* import' END | sed "s|python3|'$python'|;s|repacked.bundle|disk|" >recipe
    PYTHONDONTWRITEBYTECODE=1 sh recipe >out 2>err
    echo 'put 3 4 126' >wanted
    same 'from Python: a blob is put' out wanted
    "$codec" disk get 3 4 raw >tile 2>err
    same 'from Python: as it is' tile hill.lerc2
else
    echo 'skipped: no Python with numpy is here'
fi

# ---- Large cases

head -c 16777215 /dev/zero | tr '\0' z >greatest
raw 5 6 greatest >stream
echo 'put 5 6 16777215' >wanted
begins_as none none
expect 'large: the greatest tile' 0 wanted '' plainly disk import <stream
expect 'large: and out again' 0 stream '' plainly disk export <nothing
if command -v strace >/dev/null 2>&1 && strace -o calls true 2>err; then
    tiles=0
    while [ "$tiles" -lt 1000 ]; do
        raw $((tiles / 128)) $((tiles % 128)) wide
        tiles=$((tiles + 1))
    done >stream
    begins_as none none
    strace -f -y -o calls -e trace=fsync,fdatasync "$(built_of bundle_tiles_main)" disk import <stream >out 2>err
    syncs=$(grep -c 'sync([0-9]*<[^>]*/disk[^>]*>' calls)
    count "large: 1,000 tiles in $syncs syncs of both files" "$([ "$(wc -l <out)" -eq 1000 ] && [ "$syncs" -le 87 ] && echo yes || echo no)"
else
    echo 'skipped: strace is not here'
fi

tell
