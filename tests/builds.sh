# The command `build`, and the program killed within it.

# ---- What is given

# Two tiles out of the order of the slots.
{ tile 127 127 grid; tile 0 0 none_valid_grid; } >tiles_backwards

# What the streams make: of the two tiles for the first slot the last one; of those two both, by slot.
{ header 66 0 131206; index 64 131140 66; record none_valid; } >built_last
{
    header 66 0 131276
    numbers 5 131140
    numbers 3 66
    zeros 131056
    numbers 5 131210
    numbers 3 66
    record none_valid
    record blob
} >built_by_slot

# Lines.
echo 'built 0 131136' >built_0
echo 'built 1 131206' >built_1
echo 'built 2 131276' >built_2
echo 'built 1 131229' >built_deep
echo '0 0 131140 66' >list_first

# ---- What it writes

for workers in 1 2 64; do
    begins_as none none
    expect "build: no tiles, $workers workers" 0 built_0 '' plainly disk build 3 0 "$workers" <nothing
    leaves 'build: no tiles' bundle_0 journal_of_build
    begins_as none none
    expect "build: two tiles of one slot, $workers workers" 0 built_1 '' plainly disk build 3 0 "$workers" <two_tiles
    leaves 'build: two tiles of one slot' built_last journal_of_build
    begins_as none none
    expect "build: by slot, $workers workers" 0 built_2 '' plainly disk build 3 0 "$workers" <tiles_backwards
    leaves 'build: by slot' built_by_slot journal_of_build
done
begins_as none none
expect 'build: two depths' 0 built_deep '' plainly disk build 4 1 1 <deep_tile
leaves 'build: two depths' bundle_deep journal_of_build

for given in none byte_journal closed_journal journal_2; do
    begins_as nothing "$given"
    expect "build: an empty file beside $given" 0 built_1 '' plainly disk build 3 0 1 <two_tiles
    leaves "build: an empty file beside $given" built_last journal_of_build
done
begins_as part_of_build open_build
expect 'build: over a part of one' 0 built_1 '' plainly disk build 3 0 1 <two_tiles
leaves 'build: over a part of one' built_last journal_of_build

expect 'build: and list' 0 list_first '' plainly disk list
expect 'build: and check' 0 check_1 '' plainly disk check
expect 'build: and get' 0 none_valid_grid '' plainly disk get 0 0
expect 'build: and get raw' 0 none_valid '' plainly disk get 0 0 raw
expect 'build: and get of another slot' 7 nothing 'store: NoTile 127 127' plainly disk get 127 127
expect 'build: and put' 0 put_1 '' plainly disk put 3 0 1 <one_tile
expect 'build: and get of the tile put' 0 grid '' plainly disk get 127 127

# ---- What it refuses

# Refuses a bundle of so many bytes beside this journal, and leaves these two.
not_empty() {
    begins_as "$1" "$2"
    expect "build: $1 beside $2" 7 nothing "store: NotEmpty $3" plainly disk build 3 0 1 <one_tile
    leaves "build: $1 beside $2 is left" "$4" "$5"
}

not_empty built_last journal_of_build 131206 built_last journal_of_build
not_empty bundle_0 none 131136 bundle_0 none
not_empty torn open_2 131282 bundle_2 journal_2
begins_as bundle_0 none
expect 'build: a bad stream beside a bundle' 2 nothing 'refused: BadTileMark at 22' plainly disk build 3 0 1 <bad_stream

refusals_of build

# ---- Failures

failures_of build

# An output that fails leaves the bundle built.
for way in output_closed output_full all_but_input; do
    begins_as none none
    case $way in
        all_but_input) line='' ;;
        *) line=$no_output ;;
    esac
    expect "build: $way" 4 nothing "$line" "$way" disk build 3 0 1 <two_tiles
    leaves "build: $way, and the bundle is built" built_last journal_of_build
done

# ---- Tiles of a real size

for workers in 1 2 7 64; do
    begins_as none none
    "$program" disk build 4 1 "$workers" <big_stream >out 2>err
    [ "$workers" -ne 1 ] || cp disk built_by_one
    if [ "$(cat out)" = "built 16 $(wc -c <disk)" ] && cmp -s disk built_by_one; then holds=yes; else holds=no; fi
    count "build: sixteen tiles, $workers workers" "$holds"
done
has_sixteen_tiles build

# ---- Many tiles

# The volume fails: the file may have 136,192 bytes, and the records would pass that.
begins_as none none
expect 'build: a file that may not grow' 5 nothing "$no_volume" files_are_short disk build 3 0 4 <many
expect 'recover: after that' 0 emptied '' plainly disk recover
expect 'list: after that' 0 nothing '' plainly disk list

# Whether the bundle, recovered, has all tiles of the stream, or none where no line was given.
has_all_or_none() {
    "$program" disk recover >word 2>err || return
    cmp -s word closed || cmp -s word emptied || return
    "$program" disk list >rows 2>err || return
    cmp -s rows many_rows || { [ ! -s rows ] && [ ! -s out ]; }
}

# The program is killed after so many hundredths of a second.
for hundredths in 1 5 10 20 40 80; do
    begins_as none none
    : >out
    "$program" disk build 3 0 4 <many >out 2>err &
    child=$!
    sleep "0.$(printf %02d "$hundredths")"
    kill -9 "$child" 2>/dev/null
    wait "$child" 2>/dev/null
    if has_all_or_none; then holds=yes; else holds=no; fi
    count "build: killed after $hundredths hundredths of a second, and recovered" "$holds"
done
