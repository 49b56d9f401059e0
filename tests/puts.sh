# The command `put`, and the program killed within it.

# ---- What is given

# A tile for the last slot, another one for it, and one that version 3 has no place for; two tiles for the first
# slot; a stream whose second tile has a mark that is none.
tile 127 127 grid >one_tile
tile 127 127 tens >tile_of_tens
tile 127 127 tens_deep >deep_tile
{ tile 0 0 grid; tile 0 0 none_valid_grid; } >two_tiles
{ cat one_tile; tile 127 127 bad_mark_grid; } >bad_mark_stream
{ cat one_tile; bytes 55; } >bad_stream
{ bytes 54 80; } >bad_row_stream
{ bytes 54 00 80; } >bad_column_stream
head -c 21 one_tile >short_stream

# What these make: of the two tiles, which are one group, whose journal names both; of the one tile, behind
# another one in its slot.
{ header 66 70 131276; index 64 131210 66; record blob; record none_valid; } >put_twice
{
    bytes 00 4c 42 4a 52 4e 4c 32 01 02 00 00 00 00 00 00
    numbers 8 131276
    head -c 64 put_twice
    for place in 131140 131210; do
        bytes 00 00 00 00 00 00 00 00
        numbers 5 "$place"
        numbers 3 66
    done
    zeros 992
} >put_twice_journal
{ header 72 146 131352; index 131128 131286 66; record blob; record steps; record blob; } >bundle_3
journal 131286 66 bundle_3 >journal_3
{ header 89 0 131229; index 131128 131140 89; record steps_deep; } >bundle_deep
journal 131140 89 bundle_deep >journal_deep

# Lines.
echo 'put 127 127 66' >put_1
echo 'put 127 127 72' >put_2
echo 'put 127 127 89' >put_deep
{ echo 'put 0 0 66'; echo 'put 0 0 66'; } >put_both

# ---- What it writes

for workers in 1 2 64; do
    begins_as none none
    expect "put: no tiles, $workers workers" 0 nothing '' plainly disk put 3 0 "$workers" <nothing
    leaves 'put: no tiles leave no file' none none
    expect "put: a first tile, $workers workers" 0 put_1 '' plainly disk put 3 0 "$workers" <one_tile
    leaves 'put: a first tile' bundle_1 journal_1
    expect "put: another tile in its slot, $workers workers" 0 put_2 '' plainly disk put 3 1 "$workers" <tile_of_tens
    leaves 'put: another tile in its slot' bundle_2 journal_2
    begins_as none none
    expect "put: two tiles of one slot, $workers workers" 0 put_both '' plainly disk put 3 0 "$workers" <two_tiles
    leaves 'put: two tiles of one slot' put_twice put_twice_journal
done
begins_as bundle_0 journal_of_build
expect 'put: into a bundle without tiles' 0 put_1 '' plainly disk put 3 0 1 <one_tile
leaves 'put: into a bundle without tiles' bundle_1 journal_1
begins_as none none
expect 'put: two depths' 0 put_deep '' plainly disk put 4 1 1 <deep_tile
leaves 'put: two depths' bundle_deep journal_deep

begins_as torn open_2
expect 'put: beside an open journal' 0 put_1 '' plainly disk put 3 0 1 <one_tile
leaves 'put: beside an open journal' bundle_3 journal_3
begins_as bundle_1 first_2
expect 'put: beside a closed journal of the first form' 0 put_2 '' plainly disk put 3 1 1 <tile_of_tens
leaves 'put: beside a closed journal of the first form' bundle_2 journal_2
begins_as torn "$first_open"
expect 'put: beside an open journal of the first form' 0 put_1 '' plainly disk put 3 0 1 <one_tile
leaves 'put: beside an open journal of the first form' bundle_3 journal_3
begins_as bundle_1 byte_journal
expect 'put: beside a journal of one byte' 0 put_2 '' plainly disk put 3 1 1 <tile_of_tens
leaves 'put: beside a journal of one byte' bundle_2 journal_2

# ---- What it refuses

# Refuses a stream, with this status and line, and leaves this bundle and this journal.
stream_refused() {
    begins_as "$5" "$6"
    expect "$1: $2" "$3" nothing "$4" plainly disk "$1" 3 0 1 <"$2"
    leaves "$1: $2, and the store is as it was" "$5" "$6"
}

# What both of the commands that write refuse.
refusals_of() {
    stream_refused "$1" bad_mark_stream 2 'refused: BadMark at 42' none none
    stream_refused "$1" bad_stream 2 'refused: BadTileMark at 22' none none
    stream_refused "$1" bad_row_stream 2 'refused: BadSlot at 1' none none
    stream_refused "$1" bad_column_stream 2 'refused: BadSlot at 2' none none
    stream_refused "$1" short_stream 2 'refused: Truncated at 21' none none
    stream_refused "$1" deep_tile 2 'refused: DepthNeedsV4 at 16' none none
    stream_refused "$1" one_tile 7 'store: BadBundle at 100 found 100' hundred none
    stream_refused "$1" one_tile 7 'store: BadJournal at 8 found 3' appended bad_kind_journal
    stream_refused "$1" bad_stream 2 'refused: BadTileMark at 22' hundred bad_kind_journal
}

refusals_of put

# Files of nearly 2^40 bytes, almost all of them a hole.
begins_as bundle_0 none
if truncate -s 1099511627707 disk 2>/dev/null; then
    expect 'put: no room' 7 nothing 'store: Full 1099511627707' plainly disk put 3 0 1 <one_tile
    truncate -s 1099511627706 disk
    expect 'put: just room' 0 put_1 '' plainly disk put 3 0 1 <one_tile
    echo '127 127 1099511627710 66' >list_full
    expect 'list: a bundle of 2^40 bytes' 0 list_full '' plainly disk list
    expect 'get raw: a bundle of 2^40 bytes' 0 blob '' plainly disk get 127 127 raw
else
    echo 'skipped: files of 2^40 bytes, which this disk does not have'
fi

# ---- Failures

# How both of them fail where an object fails.
failures_of() {
    expect "$1: no bundle's path" 5 nothing "$no_volume" plainly - "$1" 3 0 1 <one_tile
    expect "$1: no bundle's path, and a bad stream" 2 nothing 'refused: BadSlot at 1' \
        plainly - "$1" 3 0 1 <bad_row_stream
    expect "$1: a path of no bytes" 5 nothing "$no_volume" plainly '' "$1" 3 0 1 <one_tile
    if [ -e .jnl ]; then holds=no; else holds=yes; fi
    count "$1: a path of no bytes, and no journal is made" "$holds"
    expect "$1: a folder that is not there" 5 nothing "$no_volume" plainly nowhere/disk "$1" 3 0 1 <one_tile
    tells_behind "$1: a folder that is not there is told" 'in nowhere/disk.jnl: No such file or directory (os error 2)'
    rm -rf disk disk.jnl
    mkdir disk
    expect "$1: a folder in the bundle's place" 5 nothing "$no_volume" plainly disk "$1" 3 0 1 <one_tile
    tells_behind "$1: a folder in the bundle's place is told" 'in disk: Is a directory (os error 21)'
    rm -rf disk
    mkdir disk.jnl
    expect "$1: a folder in the journal's place" 5 nothing "$no_volume" plainly disk "$1" 3 0 1 <one_tile
    begins_as none none
    ln -s /proc/version disk
    expect "$1: a bundle that cannot be written" 5 nothing "$no_volume" plainly disk "$1" 3 0 1 <one_tile
    begins_as none none
    ln -s /proc/version disk.jnl
    expect "$1: a journal that cannot be written" 5 nothing "$no_volume" plainly disk "$1" 3 0 1 <one_tile
    begins_as none none
    expect "$1: a closed input" 3 nothing "$no_source" input_closed disk "$1" 3 0 1
    expect "$1: a folder as the input" 3 nothing "$no_source" plainly disk "$1" 3 0 1 </
    leaves "$1: after a failed input there is no file" none none
}

failures_of put

# An output that fails after a group leaves the group done, and takes no more.
for way in output_closed output_full all_but_input; do
    begins_as none none
    case $way in
        all_but_input) line='' ;;
        *) line=$no_output ;;
    esac
    expect "put: $way" 4 nothing "$line" "$way" disk put 3 0 1 <two_tiles
    leaves "put: $way, and the group is put" put_twice put_twice_journal
done

# ---- Tiles of a real size

sixteen_tiles

# Whether two files of numbers of two bytes differ by at most 1 at each place.
is_near() {
    od -An -v -td2 -w2 "$1" >numbers_1
    od -An -v -td2 -w2 "$2" >numbers_2
    paste numbers_1 numbers_2 | awk '{ d = $1 - $2; if (NF != 2 || d > 1 || d < -1) exit 1 }'
}

# That the store has these tiles, each pixel with its mark, and each valid one within 1 of its height.
has_sixteen_tiles() {
    "$program" disk list >rows 2>err
    if [ "$(wc -l <rows)" -eq 16 ]; then holds=yes; else holds=no; fi
    count "$1: sixteen tiles are listed" "$holds"
    for t in 0 1 2 3 4 5 6 7 8 9 10 11 12 13 14 15; do
        "$program" disk get $((t / 4)) $((t % 4)) >out 2>err
        head -c 66066 out >marks_given
        tail -c +66067 out >values_given
        if cat big_head big_marks | cmp -s - marks_given && is_near values_given "big_values_$t"; then
            holds=yes
        else
            holds=no
        fi
        count "$1: one of sixteen tiles, $((t / 4)) $((t % 4))" "$holds"
    done
}

begins_as none none
"$program" disk put 4 1 2 <big_stream >out 2>err
if [ "$(wc -c <big_stream)" -eq 3104112 ] && [ "$(wc -l <out)" -eq 16 ]; then holds=yes; else holds=no; fi
count 'put: sixteen tiles' "$holds"
has_sixteen_tiles put
mv disk put_by_two
for workers in 1 7 64; do
    begins_as none none
    "$program" disk put 4 1 "$workers" <big_stream >out 2>err
    if [ "$(wc -l <out)" -eq 16 ] && cmp -s disk put_by_two; then holds=yes; else holds=no; fi
    count "put: sixteen tiles, $workers workers" "$holds"
done

# ---- Many tiles

many_tiles 4000 >many

# Forty tiles, of which one worker encodes sixteen at a time, and behind them one that is refused for its depths, or
# a byte that begins no tile: the place does not depend on the workers.
{ head -c 880 many; cat deep_tile; bytes 55; } >deep_behind
{ head -c 880 many; bytes 55; } >bad_behind
for workers in 1 2 7 64; do
    begins_as none none
    for command in put build; do
        expect "$command: two depths behind forty tiles, $workers workers" 2 nothing 'refused: DepthNeedsV4 at 896' \
            plainly disk "$command" 3 0 "$workers" <deep_behind
        expect "$command: no tile behind forty tiles, $workers workers" 2 nothing 'refused: BadTileMark at 880' \
            plainly disk "$command" 3 0 "$workers" <bad_behind
    done
    leaves "put, build: a stream that is refused behind forty tiles, $workers workers" none none
done

# The volume fails: the file may have 136,192 bytes. The first 64 tiles end at 135,616, and the records of the next
# 64 would pass that.
begins_as none none
head -n 64 many_puts >some_puts
head -n 64 many_rows >some_rows
check_lines 64 4224 0 >some_check
expect 'put: a file that may not grow' 5 some_puts "$no_volume" files_are_short disk put 3 0 4 <many
expect 'recover: after that' 0 closed '' plainly disk recover
expect 'list: after that' 0 some_rows '' plainly disk list
expect 'check: after that' 0 some_check '' plainly disk check

# Starts a `put` of all these tiles, and kills the program once it has given this many lines.
killed_after() {
    : >out
    "$program" disk put 3 0 4 <many >out 2>err &
    child=$!
    while kill -0 "$child" 2>/dev/null && [ "$(wc -l <out)" -lt "$1" ]; do
        sleep 0.01
    done
    kill -9 "$child" 2>/dev/null
    wait "$child" 2>/dev/null
}

# Whether the bundle, recovered, has the first tiles of the stream and no other: whole groups of 64 and the rest,
# those of which a line was given, and at most one more. `printed` is the number of the lines.
has_first_tiles() {
    whole=$(((printed + 63) / 64 * 64))
    [ "$whole" -le 4000 ] || whole=4000
    more=$((whole + 64))
    [ "$more" -le 4000 ] || more=4000
    cmp -s -n "$(wc -c <out)" out many_puts || return
    "$program" disk recover >word 2>err || return
    cmp -s word closed || cmp -s word applied || return
    "$program" disk list >rows 2>err || return
    listed=$(wc -l <rows)
    head -n "$listed" many_rows | cmp -s - rows || return
    [ "$listed" -eq "$whole" ] || [ "$listed" -eq "$more" ] || return
    check_lines "$listed" $((66 * listed)) 0 >lines_wanted
    "$program" disk check >lines_given 2>err || return
    cmp -s lines_given lines_wanted || return
    [ "$listed" -gt 0 ] || return 0
    last=$((listed - 1))
    "$program" disk get $((last / 128)) $((last % 128)) >tile_given 2>err || return
    { head -c 18 grid; numbers 1 $((last % 256)); } | cmp -s - tile_given
}

for lines in 1 2 3 10 100 1000; do
    begins_as none none
    killed_after "$lines"
    printed=$(wc -l <out)
    if [ "$printed" -ge 4000 ]; then
        echo "skipped: put: killed after $lines lines, which came too late"
    elif has_first_tiles; then
        count "put: killed after $printed lines, and recovered" yes
    else
        count "put: killed after $printed lines, and recovered" no
        echo "    $(cat word), $listed tiles" >&2
        show 'standard error' err
    fi
    expect 'put: after that' 0 put_1 '' plainly disk put 3 0 1 <one_tile
done
