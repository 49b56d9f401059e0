# Words, and the commands `encode`, `decode` and `info`.

# ---- What is given and wanted

# A blob of one unsigned byte, 7, and its grid.
{
    bytes 4c 65 72 63 32 20 03 00 00 00 c0 66 45 59 01 00 00 00 01 00 00 00 01 00 00 00 08 00 00 00
    bytes 42 00 00 00 01 00 00 00 00 00 00 00 00 00 e0 3f 00 00 00 00 00 00 1c 40
    bytes 00 00 00 00 00 00 1c 40 00 00 00 00
} >blob
bytes 4c 47 52 31 01 01 00 00 00 01 00 00 00 01 00 00 00 01 07 >grid

# The same with another last byte, without its last byte, and with a byte behind it.
{ head -c 65 blob; bytes 01; } >changed
head -c 65 blob >short
{ cat blob; bytes 00; } >longer

# One pixel that is not valid; nine pixels of which the fourth is not valid, whose mask is runs; two
# pixels of two values each, which are the same in both; the least and the greatest number of four
# bytes, as a sweep. Their grids stand behind them.
{
    bytes 4c 65 72 63 32 20 03 00 00 00 40 2d c4 28 01 00 00 00 01 00 00 00 00 00 00 00 08 00 00 00
    bytes 42 00 00 00 01 00 00 00 00 00 00 00 00 00 e0 3f 00 00 00 00 00 00 00 00 00 00 00 00 00 00
    bytes 00 00 00 00 00 00
} >none_valid
bytes 4c 47 52 31 01 01 00 00 00 01 00 00 00 01 00 00 00 00 >none_valid_grid
{
    bytes 4c 65 72 63 32 20 03 00 00 00 c1 73 0a 96 01 00 00 00 09 00 00 00 08 00 00 00 08 00 00 00
    bytes 48 00 00 00 01 00 00 00 00 00 00 00 00 00 e0 3f 00 00 00 00 00 00 1c 40 00 00 00 00 00 00
    bytes 1c 40 06 00 00 00 02 00 ef 80 00 80
} >runs
{
    bytes 4c 47 52 31 01 01 00 00 00 09 00 00 00 01 00 00 00 01 01 01 00 01 01 01 01 01 07 07 07 07
    bytes 07 07 07 07
} >runs_grid
{
    bytes 4c 65 72 63 32 20 04 00 00 00 d2 7a e2 17 01 00 00 00 02 00 00 00 02 00 00 00 02 00 00 00
    bytes 08 00 00 00 4a 00 00 00 01 00 00 00 00 00 00 00 00 00 e0 3f 00 00 00 00 00 00 14 40 00 00
    bytes 00 00 00 00 22 40 00 00 00 00 05 09 05 09
} >ranges
bytes 4c 47 52 31 01 01 00 00 00 02 00 00 00 02 00 00 00 01 01 05 09 05 09 >ranges_grid
{
    bytes 4c 65 72 63 32 20 03 00 00 00 43 be 28 80 01 00 00 00 02 00 00 00 02 00 00 00 08 00 00 00
    bytes 4b 00 00 00 04 00 00 00 00 00 00 00 00 00 e0 3f 00 00 00 00 00 00 e0 c1 00 00 c0 ff ff ff
    bytes df 41 00 00 00 00 01 00 00 00 80 ff ff ff 7f
} >sweep
bytes 4c 47 52 31 04 01 00 00 00 02 00 00 00 01 00 00 00 01 01 00 00 00 80 ff ff ff 7f >sweep_grid

# What `info` tells of three of them.
lines_of() {
    printf '%s\n' "version 3" "type $1" "rows 1" "cols $2" "depth 1" "valid $3" "side 8" "size $4" "step 1" \
        "least $5" "greatest $6" "checksum $7" "mask $8" "image $9"
}
lines_of u8 1 1 66 7 7 c0664559 full constant >lines
lines_of u8 9 8 72 7 7 c1730a96 'runs 6' constant >runs_lines
lines_of i32 2 2 75 -2147483648 2147483647 43be2880 full sweep >sweep_lines

# Those with runs and with lists, changed: a run of no byte, one valid pixel fewer in the header, and no
# mask; lists that differ, behind which nothing stands. The checksums are right.
{
    bytes 4c 65 72 63 32 20 03 00 00 00 c1 71 0a 90 01 00 00 00 09 00 00 00 08 00 00 00 08 00 00 00
    bytes 48 00 00 00 01 00 00 00 00 00 00 00 00 00 e0 3f 00 00 00 00 00 00 1c 40 00 00 00 00 00 00
    bytes 1c 40 06 00 00 00 00 00 ef 80 00 80
} >bad_run
{
    bytes 4c 65 72 63 32 20 03 00 00 00 c1 72 0a 7d 01 00 00 00 09 00 00 00 07 00 00 00 08 00 00 00
    bytes 48 00 00 00 01 00 00 00 00 00 00 00 00 00 e0 3f 00 00 00 00 00 00 1c 40 00 00 00 00 00 00
    bytes 1c 40 06 00 00 00 02 00 ef 80 00 80
} >miscounted
{
    bytes 4c 65 72 63 32 20 03 00 00 00 c0 75 46 b3 01 00 00 00 09 00 00 00 08 00 00 00 08 00 00 00
    bytes 42 00 00 00 01 00 00 00 00 00 00 00 00 00 e0 3f 00 00 00 00 00 00 1c 40 00 00 00 00 00 00
    bytes 1c 40 00 00 00 00
} >no_mask
{
    bytes 4c 65 72 63 32 20 04 00 00 00 d2 7b e2 18 01 00 00 00 02 00 00 00 02 00 00 00 02 00 00 00
    bytes 08 00 00 00 4a 00 00 00 01 00 00 00 00 00 00 00 00 00 e0 3f 00 00 00 00 00 00 14 40 00 00
    bytes 00 00 00 00 22 40 00 00 00 00 05 09 06 09
} >no_sweep

# Blocks of one depth and of two, differences, and values coded as they are, with their grids; differences
# with a mode byte that version 3 does not have, and blocks of a side of 33.
{
    bytes 4c 65 72 63 32 20 03 00 00 00 57 a9 a4 59 01 00 00 00 04 00 00 00 04 00 00 00 08 00 00 00
    bytes 48 00 00 00 02 00 00 00 00 00 00 00 00 00 f0 3f 00 00 00 00 00 00 24 40 00 00 00 00 00 00
    bytes 2a 40 00 00 00 00 00 81 0a 82 04 94
} >steps
bytes 4c 47 52 31 02 01 00 00 00 04 00 00 00 01 00 00 00 01 01 01 01 0a 00 0c 00 0c 00 0d 00 >steps_grid
{
    bytes 4c 65 72 63 32 20 04 00 00 00 82 51 70 7d 01 00 00 00 04 00 00 00 02 00 00 00 04 00 00 00
    bytes 08 00 00 00 59 00 00 00 02 00 00 00 00 00 00 00 00 00 f0 3f 00 00 00 00 00 00 24 40 00 00
    bytes 00 00 00 c0 59 40 00 00 00 00 0a 00 64 00 0d 00 67 00 00 81 0a 82 04 94 81 64 82 04 80
} >steps_deep
{
    bytes 4c 47 52 31 02 01 00 00 00 04 00 00 00 02 00 00 00 01 01 01 01 0a 00 64 00 0c 00 64 00 0c
    bytes 00 64 00 0d 00 67 00
} >steps_deep_grid
{
    bytes 4c 65 72 63 32 20 03 00 00 00 89 36 63 47 01 00 00 00 04 00 00 00 04 00 00 00 08 00 00 00
    bytes 63 00 00 00 01 00 00 00 00 00 00 00 00 00 e0 3f 00 00 00 00 00 00 00 00 00 00 00 00 00 00
    bytes f0 3f 00 00 00 00 00 01 04 00 00 00 00 01 00 00 ff 00 00 00 02 01 00 00 82 03 1a 00 00 00
    bytes e0 00 00 00 70 00 00 00 00
} >differences
bytes 4c 47 52 31 01 01 00 00 00 04 00 00 00 01 00 00 00 01 01 01 01 01 00 00 01 >differences_grid
{
    bytes 4c 65 72 63 32 20 04 00 00 00 0d 1e 4e 36 01 00 00 00 03 00 00 00 02 00 00 00 03 00 00 00
    bytes 08 00 00 00 6c 00 00 00 01 00 00 00 00 00 00 00 00 00 e0 3f 00 00 00 00 00 00 14 40 00 00
    bytes 00 00 00 00 24 40 00 00 00 00 05 09 08 0a 00 02 04 00 00 00 00 01 00 00 05 00 00 00 0b 00
    bytes 00 00 82 06 cf 0d 00 00 38 97 00 00 dc 8a 00 00 00 00
} >plain
bytes 4c 47 52 31 01 01 00 00 00 03 00 00 00 02 00 00 00 01 01 01 05 09 06 09 08 0a >plain_grid
{
    bytes 4c 65 72 63 32 20 03 00 00 00 8a 36 74 47 01 00 00 00 04 00 00 00 04 00 00 00 08 00 00 00
    bytes 63 00 00 00 01 00 00 00 00 00 00 00 00 00 e0 3f 00 00 00 00 00 00 00 00 00 00 00 00 00 00
    bytes f0 3f 00 00 00 00 00 02 04 00 00 00 00 01 00 00 ff 00 00 00 02 01 00 00 82 03 1a 00 00 00
    bytes e0 00 00 00 70 00 00 00 00
} >bad_mode
{
    bytes 4c 65 72 63 32 20 03 00 00 00 57 c2 a6 98 01 00 00 00 04 00 00 00 04 00 00 00 21 00 00 00
    bytes 48 00 00 00 02 00 00 00 00 00 00 00 00 00 f0 3f 00 00 00 00 00 00 24 40 00 00 00 00 00 00
    bytes 2a 40 00 00 00 00 00 81 0a 82 04 94
} >bad_side

# A blob that Esri's library wrote: 100 rows and 257 columns of -32768 in two bytes. Its grid has 77,117
# bytes, more than a pipe holds.
{
    bytes 4c 65 72 63 32 20 03 00 00 00 27 b7 0f af 64 00 00 00 01 01 00 00 64 64 00 00 08 00 00 00
    bytes 42 00 00 00 02 00 00 00 00 00 00 00 00 00 e0 3f 00 00 00 00 00 00 e0 c0
    bytes 00 00 00 00 00 00 e0 c0 00 00 00 00
} >wide
{
    bytes 4c 47 52 31 02 64 00 00 00 01 01 00 00 01 00 00 00
    yes | head -c 25700 | tr 'y\n' '\001\001'
    yes | head -c 51400 | tr 'y\n' '\000\200'
} >wide_grid

# A row of 10 11 12 13 in two bytes each; the same with a second depth, 100 100 100 103. Coded with the
# error 1 these are the blocks above.
bytes 4c 47 52 31 02 01 00 00 00 04 00 00 00 01 00 00 00 01 01 01 01 0a 00 0b 00 0c 00 0d 00 >tens
{
    bytes 4c 47 52 31 02 01 00 00 00 04 00 00 00 02 00 00 00 01 01 01 01 0a 00 64 00 0b 00 64 00 0c
    bytes 00 64 00 0d 00 67 00
} >tens_deep

# A grid with an unknown type, with a mark that is none, without its last byte, and with a byte behind it.
{ head -c 4 grid; bytes 06; tail -c +6 grid; } >bad_type_grid
{ head -c 17 grid; bytes 02 07; } >bad_mark_grid
head -c 18 grid >short_grid
{ cat grid; bytes 00; } >longer_grid

: >nothing
bad_text=$(printf '\377\376')
long=$(printf '%5000s' '' | tr ' ' 'x')

usage='usage: PATH encode V E, decode, info, build V E N, put V E N, get R C, get R C raw, list, check, recover, sample START COUNT'
truncated='refused: Truncated at 65'
no_source='source failed'
no_output='output failed'

# ---- Words

# Builds the program where it is not current.
"$program" - decode <blob >/dev/null

expect 'no word at all is no command' 1 nothing "$usage" plainly <blob
expect 'a path alone is no command' 1 nothing "$usage" plainly - <blob
expect 'the path comes first' 1 nothing "$usage" plainly decode - <blob
expect 'an unknown word' 1 nothing "$usage" plainly - unknown <blob
expect 'an empty word' 1 nothing "$usage" plainly - '' <blob
expect 'a word with a blank behind it' 1 nothing "$usage" plainly - 'decode ' <blob
expect 'a word in capitals' 1 nothing "$usage" plainly - DECODE <blob
expect 'a word that is no UTF-8' 1 nothing "$usage" plainly - "$bad_text" <blob
expect 'a word of 5,000 bytes' 1 nothing "$usage" plainly - "$long" <blob
expect 'a second word' 1 nothing "$usage" plainly - decode x <blob
expect 'a second word that is empty' 1 nothing "$usage" plainly - decode '' <blob
expect 'a second word that is no UTF-8' 1 nothing "$usage" plainly - decode "$bad_text" <blob
for words in 'sample 7' 'build 3 0' 'build 3 0 0' 'build 3 0 65' 'build 5 0 1' 'put' 'put 3 4294967296 1' \
    'put 3 0 01' 'put 3 0 1 1' 'get 0' 'get 128 0' 'get 0 128' 'get 01 0' 'get 0 0 RAW' 'get 0 0 raw raw' 'list x' \
    'check x' 'recover x'; do
    # shellcheck disable=SC2086
    expect "no command: $words" 1 nothing "$usage" plainly - $words <blob
done
expect 'words come before a failing source' 1 nothing "$usage" input_closed - x

# ---- encode

expect 'encode: a grid' 0 blob '' plainly - encode 3 0 <grid
expect 'encode: a grid of 77,117 bytes' 0 wide '' plainly - encode 3 0 <wide_grid
for input in none_valid runs sweep; do
    expect "encode: a grid, $input" 0 "$input" '' plainly - encode 3 0 <"${input}_grid"
done
expect 'encode: lists that are equal' 0 ranges '' plainly - encode 4 0 <ranges_grid
expect 'encode: blocks' 0 steps '' plainly - encode 3 1 <tens
expect 'encode: blocks of two depths' 0 steps_deep '' plainly - encode 4 1 <tens_deep
for version in 3 4; do
    expect "encode, decode: without an error, version $version" 0 tens '' then_decoded - encode "$version" 0 <tens
    expect "encode, decode: with the error 1, version $version" 0 steps_grid '' then_decoded - encode "$version" 1 <tens
done
expect 'encode, decode: two depths without an error' 0 tens_deep '' then_decoded - encode 4 0 <tens_deep
expect 'encode, decode: two depths with the error 1' 0 steps_deep_grid '' then_decoded - encode 4 1 <tens_deep
expect 'encode, decode: a grid of 77,117 bytes' 0 wide_grid '' then_decoded - encode 4 0 <wide_grid

# Refuses a file, whose first fault is told by this line.
encode_refuses() {
    expect "encode: no grid, $1" 2 nothing "refused: $2" plainly - encode 3 0 <"$1"
}

encode_refuses nothing 'Truncated at 0'
encode_refuses blob 'BadMagic at 0'
encode_refuses bad_type_grid 'BadType at 4'
encode_refuses bad_mark_grid 'BadMark at 17'
encode_refuses short_grid 'Truncated at 18'
encode_refuses longer_grid 'Leftover at 19'
encode_refuses tens_deep 'DepthNeedsV4 at 13'

for words in '' 3 '3 0 0' '5 0' '03 0' '3 00' '3 -1' '3 4294967296'; do
    # shellcheck disable=SC2086
    expect "encode: no command, '$words'" 1 nothing "$usage" plainly - encode $words <grid
done
expect 'encode: a folder as the input' 3 nothing "$no_source" plainly - encode 3 0 </
expect 'encode: a closed input' 3 nothing "$no_source" input_closed - encode 3 0
expect 'encode: a closed output' 4 nothing "$no_output" output_closed - encode 3 0 <grid
expect 'encode: a full output' 4 nothing "$no_output" output_full - encode 3 0 <grid
expect 'encode: no grid and a closed output' 2 nothing 'refused: Truncated at 18' output_closed - encode 3 0 <short_grid

# ---- decode

expect 'decode: a blob' 0 grid '' plainly - decode <blob
expect 'decode: a blob with a grid of 77,117 bytes' 0 wide_grid '' plainly - decode <wide
for input in none_valid runs ranges sweep steps steps_deep differences plain; do
    expect "decode: a blob, $input" 0 "${input}_grid" '' plainly - decode <"$input"
done
expect 'decode: from a pipe in two pieces' 0 grid '' in_pieces - decode
expect 'decode: through a link, from another folder' 0 grid '' through_a_link - decode <blob
for path in '' 'a b' "$bad_text" "$long"; do
    expect "decode: a path of ${#path} bytes is not looked at" 0 grid '' plainly "$path" decode <blob
done

# Refuses a file, whose first fault is told by this line.
refuses() {
    expect "decode: no blob, $1" 2 nothing "refused: $2" plainly - decode <"$1"
}

refuses nothing 'Truncated at 0'
refuses short 'Truncated at 65'
refuses longer 'Leftover at 66'
refuses grid 'BadKey at 0'
refuses changed 'BadChecksum at 10 stored 1497720512 computed 1497786049'
refuses bad_run 'BadRun at 66'
refuses miscounted 'BadMaskCount at 66 header 7 counted 8'
refuses no_mask 'MaskMissing at 62'
refuses no_sweep 'PastEnd at 74'
refuses bad_mode 'BadMode at 67'
refuses bad_side 'BadBlockSize at 67'

expect 'decode: a folder as the input' 3 nothing "$no_source" plainly - decode </
expect 'decode: a closed input' 3 nothing "$no_source" input_closed - decode
expect 'decode: a closed output' 4 nothing "$no_output" output_closed - decode <blob
expect 'decode: a full output' 4 nothing "$no_output" output_full - decode <blob
expect 'decode: an output that nobody reads' 4 nothing "$no_output" output_unread - decode <wide
expect 'decode: no blob and a closed output' 2 nothing "$truncated" output_closed - decode <short

# ---- info

expect 'info: a blob' 0 lines '' plainly - info <blob
expect 'info: a blob, from a pipe in two pieces' 0 lines '' in_pieces - info
expect 'info: a sweep' 0 sweep_lines '' plainly - info <sweep
expect 'info: runs' 0 runs_lines '' plainly - info <runs
expect 'info: a second word is no command' 1 nothing "$usage" plainly - info x <blob
expect 'info: a byte behind the blob' 2 nothing 'refused: Leftover at 66' plainly - info <longer
expect 'info: a blob without its last byte' 2 nothing "$truncated" plainly - info <short
expect 'info: a good header and a bad run' 2 nothing 'refused: BadRun at 66' plainly - info <bad_run
expect 'info: a closed input' 3 nothing "$no_source" input_closed - info
expect 'info: a full output' 4 nothing "$no_output" output_full - info <blob

# ---- A failing error output changes nothing

for way in error_closed error_full; do
    expect "$way: a blob" 0 grid '' "$way" - decode <blob
    expect "$way: no blob" 2 nothing '' "$way" - decode <short
    expect "$way: no command" 1 nothing '' "$way" - x <blob
    expect "$way: a folder as the input" 3 nothing '' "$way" - decode </
done
