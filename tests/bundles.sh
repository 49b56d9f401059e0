# The commands that ask a store: `get`, `list`, `check`, `recover`, over bundles and journals that are made
# here byte by byte.

# ---- What is given

# The bundle of no tiles; one of a blob in the last slot, which is (127, 127); the same after the put of
# another blob into that slot.
{ header 0 0 131136; zeros 131072; } >bundle_0
{ header 66 0 131206; index 131128 131140 66; record blob; } >bundle_1
{ header 72 70 131282; index 131128 131210 72; record blob; record steps; } >bundle_2
journal 131140 66 bundle_1 >journal_1
journal 131210 72 bundle_2 >journal_2
{ bytes 00 4c 42 4a 52 4e 4c 32 02; zeros 1103; } >journal_of_build

# What a program that knew the first form alone left: the journal of that second put, its gate open, and that of a build.
first_open=$here/tests/first_form.jnl
{ bytes 00; tail -c +2 "$first_open"; } >first_2
{ bytes 01 4c 42 4a 52 4e 4c 31 02; zeros 87; } >first_open_build
{ bytes 00; tail -c +2 first_open_build; } >first_build

# What a crash leaves of that second put: the record alone; the journal open as well; header and entry torn.
{ cat bundle_1; record steps; } >appended
{
    yes | head -c 64 | tr 'y\n' '\377\377'
    head -c 131128 bundle_2 | tail -c +65
    yes | head -c 8 | tr 'y\n' '\377\377'
    tail -c +131137 appended
} >torn
opened journal_2 >open_2
opened journal_of_build >open_build
head -c 70000 bundle_1 >part_of_build

# Open journals that are none: of another text, kind, count, slot and length; and the same of the first form.
{ head -c 7 open_2; bytes 31; tail -c +9 open_2; } >bad_text_journal
{ head -c 8 open_2; bytes 03; tail -c +10 open_2; } >bad_kind_journal
{ head -c 9 open_2; bytes 00; tail -c +11 open_2; } >no_count_journal
{ head -c 9 open_2; bytes 41; tail -c +11 open_2; } >bad_count_journal
{ head -c 88 open_2; bytes 00 40; tail -c +91 open_2; } >bad_slot_journal
{ head -c 16 open_2; bytes 3f 00 02; tail -c +20 open_2; } >bad_length_journal
{ head -c 7 "$first_open"; bytes 32; tail -c +9 "$first_open"; } >bad_text_first
{ head -c 8 "$first_open"; bytes 03; tail -c +10 "$first_open"; } >bad_kind_first
{ head -c 10 "$first_open"; bytes 00 40; tail -c +13 "$first_open"; } >bad_slot_first
{ head -c 24 "$first_open"; bytes 3f 00 02; tail -c +28 "$first_open"; } >bad_length_first

# Journals that are not open, whatever they hold.
bytes ff >byte_journal
head -c 95 "$first_open" >short_first
{ cat "$first_open"; bytes 00; } >longer_first
head -c 1111 open_2 >short_journal
{ cat open_2; bytes 00; } >longer_journal
{ bytes 00; tail -c +2 bad_kind_journal; } >closed_journal

# Files that are no bundle: of 100 bytes, and with another version, number of entries and size of an offset.
zeros 100 >hundred
{ numbers 4 4; tail -c +5 bundle_1; } >bad_version_bundle
{ head -c 4 bundle_1; numbers 4 16383; tail -c +9 bundle_1; } >bad_count_bundle
{ head -c 12 bundle_1; numbers 4 4; tail -c +17 bundle_1; } >bad_width_bundle

# Bundles with an entry of the first slot, (0, 0): of no tile, though it has an offset; of five bytes behind the
# end; of a tile whose last six bytes are cut off; of one that lies too near the index; of one whose record has
# another size.
{ header 0 0 131136; index 64 131140 0; } >no_tile
{ header 5 0 131136; index 64 131136 5; } >beyond
{ header 66 0 131206; index 64 131140 66; record blob | head -c 64; } >cut_tile
{ header 66 0 131202; index 64 131136 66; cat blob; } >near_tile
{ header 66 0 131206; index 64 131140 66; numbers 4 65; cat blob; } >other_size

# A bundle with this file as the tile of the first slot.
bundle_of() {
    size=$(wc -c <"$1")
    header "$size" 0 $((131140 + size))
    index 64 131140 "$size"
    record "$1"
}

# Lines.
echo '127 127 131140 66' >list_1
echo '127 127 131210 72' >list_2
echo '0 0 131136 5' >list_beyond
check_lines() { printf '%s\n' "tiles $1" "bytes $2" "bad $3"; }
check_lines 0 0 0 >check_0
check_lines 1 66 0 >check_1
check_lines 1 72 0 >check_2
{ check_lines 1 5 1; echo 'first 0 0'; } >check_beyond
{ check_lines 1 66 1; echo 'first 0 0'; } >check_bad
for word in closed applied emptied; do echo "$word" >"$word"; done

no_volume='volume failed'

# ---- Bundles without tiles

for given in none nothing bundle_0; do
    begins_as "$given" none
    expect "recover: $given" 0 closed '' plainly disk recover
    expect "list: $given" 0 nothing '' plainly disk list
    expect "check: $given" 0 check_0 '' plainly disk check
    expect "get: $given" 7 nothing 'store: NoTile 0 0' plainly disk get 0 0
    expect "get raw: $given" 7 nothing 'store: NoTile 127 5' plainly disk get 127 5 raw
    leaves "$given is left as it was" "$given" none
done
expect 'list: in a folder that is not there' 0 nothing '' plainly nowhere/disk list

# ---- One tile

begins_as bundle_2 journal_2
expect 'list: one tile' 0 list_2 '' plainly disk list
expect 'check: one tile' 0 check_2 '' plainly disk check
expect 'get: one tile' 0 steps_grid '' plainly disk get 127 127
expect 'get raw: one tile' 0 steps '' plainly disk get 127 127 raw
expect 'get: another slot' 7 nothing 'store: NoTile 0 0' plainly disk get 0 0
tells_behind 'get: another slot of a bundle whose path is told' 'in disk'
expect 'list: with a closed input' 0 list_2 '' input_closed disk list
expect 'list: a second word is no command' 1 nothing "$usage" plainly disk list x
leaves 'asking leaves a store as it was' bundle_2 journal_2

for input in runs ranges sweep steps_deep differences plain; do
    bundle_of "$input" >disk
    expect "get: a tile, $input" 0 "${input}_grid" '' plainly disk get 0 0
done

begins_as no_tile none
expect 'get: an entry of no tile with an offset' 7 nothing 'store: NoTile 0 0' plainly disk get 0 0
expect 'check: an entry of no tile with an offset' 0 check_0 '' plainly disk check
begins_as beyond none
expect 'get: an entry behind the end' 7 nothing 'store: Beyond 0 0 offset 131136 size 5 got 0' plainly disk get 0 0
expect 'list: an entry behind the end' 0 list_beyond '' plainly disk list
expect 'check: an entry behind the end' 0 check_beyond '' plainly disk check
begins_as cut_tile none
expect 'get raw: a tile that is cut' 7 nothing 'store: Beyond 0 0 offset 131140 size 66 got 60' plainly disk get 0 0 raw
for given in cut_tile near_tile other_size; do
    begins_as "$given" none
    expect "check: $given" 0 check_bad '' plainly disk check
done
expect 'get: the size in front of a tile is not looked at' 0 grid '' plainly disk get 0 0

# Refuses a file as a tile; its first fault is told by this line. Unread it is given.
tile_refused() {
    bundle_of "$1" >disk
    expect "get: a tile that is no blob, $1" 2 nothing "refused: $2" plainly disk get 0 0
    expect "get raw: a tile that is no blob, $1" 0 "$1" '' plainly disk get 0 0 raw
}

tile_refused grid 'BadKey at 0'
tile_refused short 'Truncated at 65'
tile_refused longer 'Leftover at 66'
tile_refused changed 'BadChecksum at 10 stored 1497720512 computed 1497786049'
tile_refused miscounted 'BadMaskCount at 66 header 7 counted 8'
bytes ff d8 ff >three_bytes
tile_refused three_bytes 'Truncated at 3'

# ---- Files that are no bundle

# Refuses a bundle beside this journal, with this line.
no_bundle() {
    for words in list check 'get 0 0' 'get 0 0 raw'; do
        begins_as "$1" "$2"
        # shellcheck disable=SC2086
        expect "$words: $1" 7 nothing "store: $3" plainly disk $words
        tells_behind "$words: $1, whose path is told" 'in disk'
    done
    leaves "$1 is left as it was" "$1" "$2"
}

no_bundle hundred none 'BadBundle at 100 found 100'
no_bundle bad_version_bundle none 'BadBundle at 0 found 4'
no_bundle bad_count_bundle none 'BadBundle at 4 found 16383'
no_bundle bad_width_bundle none 'BadBundle at 12 found 4'
no_bundle hundred bad_kind_journal 'BadJournal at 8 found 3'
begins_as hundred none
expect 'recover: a file of 100 bytes' 0 closed '' plainly disk recover

# ---- Open journals

# Recovers a bundle beside a journal: the word, and both files after it.
recovers() {
    for words in recover list; do
        begins_as "$1" "$2"
        case $words in
            recover) output=$3 ;;
            *) output=$6 ;;
        esac
        expect "$words: $1 beside $2" 0 "$output" '' plainly disk "$words"
        leaves "$words leaves $4 and $5" "$4" "$5"
    done
    expect "recover: again, $1 beside $2" 0 closed '' plainly disk recover
}

recovers bundle_1 journal_1 closed bundle_1 journal_1 list_1
recovers appended journal_1 closed appended journal_1 list_1
recovers appended journal_2 closed appended journal_2 list_1
recovers appended open_2 applied bundle_2 journal_2 list_2
recovers torn open_2 applied bundle_2 journal_2 list_2
recovers bundle_2 open_2 applied bundle_2 journal_2 list_2
recovers part_of_build open_build emptied nothing journal_of_build nothing
recovers none open_build emptied none journal_of_build nothing
recovers appended "$first_open" applied bundle_2 first_2 list_2
recovers torn "$first_open" applied bundle_2 first_2 list_2
recovers part_of_build first_open_build emptied nothing first_build nothing
for given in byte_journal short_journal longer_journal short_first longer_first closed_journal; do
    recovers bundle_1 "$given" closed bundle_1 "$given" list_1
done
begins_as torn open_2
expect 'get: beside an open journal' 0 steps_grid '' plainly disk get 127 127
begins_as torn open_2
expect 'check: beside an open journal' 0 check_2 '' plainly disk check

# Refuses an open journal beside a bundle, with this line.
no_journal() {
    for words in recover list check 'get 0 0'; do
        begins_as "$1" "$2"
        # shellcheck disable=SC2086
        expect "$words: $2" 7 nothing "store: BadJournal $3" plainly disk $words
    done
    leaves "$2 is left as it was" "$1" "$2"
}

no_journal appended bad_text_journal 'at 1 found 13876173130580556'
no_journal appended bad_kind_journal 'at 8 found 3'
no_journal appended no_count_journal 'at 9 found 0'
no_journal appended bad_count_journal 'at 9 found 65'
no_journal appended bad_slot_journal 'at 88 found 16384'
no_journal appended bad_length_journal 'at 16 found 131135'
no_journal bundle_1 open_2 'at 16 found 131282'
no_journal appended bad_text_first 'at 1 found 14157648107291212'
no_journal appended bad_kind_first 'at 8 found 3'
no_journal appended bad_slot_first 'at 10 found 16384'
no_journal appended bad_length_first 'at 24 found 131135'
no_journal bundle_1 "$first_open" 'at 24 found 131282'

# ---- Failures

for words in recover list check 'get 0 0' 'get 0 0 raw'; do
    # shellcheck disable=SC2086
    {
        expect "$words: no bundle's path" 5 nothing "$no_volume" plainly - $words
        tells_behind "$words: no bundle's path, and no file is named" ''
        expect "$words: a path of no bytes" 5 nothing "$no_volume" plainly '' $words
        expect "$words: a path that is no UTF-8" 5 nothing "$no_volume" plainly "$bad_text" $words
        expect "$words: a file in a folder's place" 5 nothing "$no_volume" plainly blob/disk $words
        tells_behind "$words: a file in a folder's place is told" 'in blob/disk.jnl: Not a directory (os error 20)'
        rm -rf disk disk.jnl
        mkdir disk
        expect "$words: a folder in the bundle's place" 5 nothing "$no_volume" plainly disk $words
        tells_behind "$words: a folder in the bundle's place is told" 'in disk: Is a directory (os error 21)'
        rm -rf disk
        mkdir disk.jnl
        expect "$words: a folder in the journal's place" 5 nothing "$no_volume" plainly disk $words
        tells_behind "$words: a folder in the journal's place is told" 'in disk.jnl: Is a directory (os error 21)'
        rmdir disk.jnl
        ln -s /proc/version disk
        expect "$words: a bundle that cannot be written" 5 nothing "$no_volume" plainly disk $words
    }
done

for way in output_closed output_full; do
    begins_as bundle_2 journal_2
    for words in list check 'get 127 127' 'get 127 127 raw'; do
        # shellcheck disable=SC2086
        expect "$words: $way" 4 nothing "$no_output" "$way" disk $words
    done
    expect "get: no tile, $way" 7 nothing 'store: NoTile 0 0' "$way" disk get 0 0
    begins_as torn open_2
    expect "recover: $way" 4 nothing "$no_output" "$way" disk recover
    leaves "recover: $way, and it is recovered" bundle_2 journal_2
done

# What a closed stream was to have does not go into a file of the store.
for way in error_full error_closed all_closed; do
    begins_as bundle_2 journal_2
    expect "get: no tile, $way" 7 nothing '' "$way" disk get 0 0
    leaves "get: no tile, $way, and the store is as it was" bundle_2 journal_2
    begins_as hundred none
    expect "list: no bundle, $way" 7 nothing '' "$way" disk list
    leaves "list: no bundle, $way, and the file is as it was" hundred none
    begins_as bundle_2 bad_kind_journal
    expect "recover: no journal, $way" 7 nothing '' "$way" disk recover
    leaves "recover: no journal, $way, and the store is as it was" bundle_2 bad_kind_journal
done
begins_as torn open_2
expect 'list: all_closed' 4 nothing '' all_closed disk list
leaves 'list: all_closed, and it is recovered' bundle_2 journal_2
