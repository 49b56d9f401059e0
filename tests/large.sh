# Large cases, each of which is to end well: sizes above those of all other cases, since a program may answer at any size
# that memory was refused.

# Encodes and decodes a grid, which comes back; the words behind it are those of `encode`.
comes_back() {
    grid_=$1
    shift
    expect "large: $grid_ comes back, encode $*" 0 "$grid_" '' then_decoded - encode "$@" <"$grid_"
}

# ---- Blobs

# Sixteen bands, as before; and with 300 values at each of 400 pixels, which are at random.
expect 'large: encode 16 bands' 0 most '' plainly - encode 3 0 <most_grid
k=0
while [ "$k" -lt 16 ]; do
    cat lines
    k=$((k + 1))
done >most_lines
expect 'large: info of 16 blobs' 0 most_lines '' plainly - info <most
noise 7 120000 >noise_of_band
{
    printf 'LGR2'
    numbers 1 1
    numbers 4 20 20 300 16
    k=0
    while [ "$k" -lt 16 ]; do
        ones 400
        tail -c +$((5000 * k + 1)) noise_of_band
        head -c $((5000 * k)) noise_of_band
        k=$((k + 1))
    done
} >sixteen_deep
comes_back sixteen_deep 4 0
# One pixel with as many values as there may be; one row with as many pixels, all alike; many rows.
{ printf 'LGR1'; numbers 1 1; numbers 4 1 1 65536; bytes 01; digits 65536; } >deepest
comes_back deepest 4 0
{ printf 'LGR1'; numbers 1 1; numbers 4 1 16777216 1; ones 16777216; zeros 16777216; } >longest
comes_back longest 3 0
{ printf 'LGR1'; numbers 1 2; numbers 4 70000 1 1; ones 70000; digits 140000; } >tall
comes_back tall 3 0
comes_back tall 4 0
# One row of more than 2^25 bytes, and of more than 2^20 blocks, in which three pixels are not valid.
{
    printf 'LGR1'
    numbers 1 5
    numbers 4 1 8400000 1
    bytes 00
    ones 4199999
    bytes 00
    ones 4199998
    bytes 00
    digits 33599988
} >wide_row
comes_back wide_row 3 0
comes_back wide_row 4 0
rm -f longest wide_row

# ---- Words

# shellcheck disable=SC2046
expect 'large: 40 words' 1 nothing "$usage" plainly - $(seq 40)
# shellcheck disable=SC2046
far_path=$(printf './%.0s' $(seq 200))disk
begins_as bundle_2 journal_2
expect 'large: a path of 404 bytes' 0 list_2 '' plainly "$far_path" list

# ---- Bundles

# A tile of more than 2^20 bytes, put and built; its bytes stand whole.
{ printf 'LGR1'; numbers 1 5; numbers 4 1 1000000 1; ones 1000000; digits 4000000; } >long_grid
"$program" - encode 3 0 <long_grid >long_blob 2>err
size=$(wc -c <long_blob)
if [ "$size" -gt 1048576 ]; then holds=yes; else holds=no; fi
count 'large: a blob of more than 2^20 bytes' "$holds"
tile 5 6 long_grid >long_tile
{ header "$size" 0 $((131140 + size)); index 5232 131140 "$size"; record long_blob; } >long_bundle
echo "put 5 6 $size" >put_long
echo "built 1 $((131140 + size))" >built_long
for command in put build; do
    begins_as none none
    if [ "$command" = put ]; then given=put_long; else given=built_long; fi
    expect "large: $command, a tile of more than 2^20 bytes" 0 "$given" '' plainly disk "$command" 3 0 1 <long_tile
    if cmp -s disk long_bundle; then holds=yes; else holds=no; fi
    count "large: $command, and it stands whole" "$holds"
    expect "large: $command, and get" 0 long_grid '' plainly disk get 5 6
    expect "large: $command, and get raw" 0 long_blob '' plainly disk get 5 6 raw
done

# More than 2^32 bytes of slack: as many as the field can say, which a put leaves.
with_slack bundle_1 >slack
{ header 66 0 131276; index 131128 131210 66; record blob; record blob; } >put_again
with_slack put_again >slack_put
journal 131210 66 slack_put >slack_journal
begins_as slack none
expect 'large: list, all slack that can be said' 0 list_1 '' plainly disk list
expect 'large: get, all slack that can be said' 0 blob '' plainly disk get 127 127 raw
expect 'large: put, all slack that can be said' 0 put_1 '' plainly disk put 3 0 1 <one_tile
leaves 'large: put, and the slack is as it was' slack_put slack_journal

# Six hundred tiles at once, by 64 workers.
head -c $((600 * 22)) many >six_hundred
head -n 600 many_puts >six_hundred_puts
head -n 600 many_rows >six_hundred_rows
echo 'built 600 173136' >built_six_hundred
begins_as none none
expect 'large: put 600 tiles, 64 workers' 0 six_hundred_puts '' plainly disk put 3 0 64 <six_hundred
expect 'large: list 600 tiles' 0 six_hundred_rows '' plainly disk list
begins_as none none
expect 'large: build 600 tiles, 64 workers' 0 built_six_hundred '' plainly disk build 3 0 64 <six_hundred
expect 'large: list 600 tiles that were built' 0 six_hundred_rows '' plainly disk list

# A tile in each slot, and one more in the first.
{ all_tiles; tile 0 0 none_valid_grid; } >all_and_one
echo 'built 16384 1278016' >built_all
awk 'BEGIN { for (k = 0; k < 16384; k++) print int(k / 128), k % 128, 131140 + 70 * k, 66 }' >all_rows
check_lines 16384 1081344 0 >check_all
{ head -c 18 grid; numbers 1 255; } >last_grid
for workers in 4 64; do
    begins_as none none
    expect "large: build 16,385 tiles, $workers workers" 0 built_all '' plainly disk build 3 0 "$workers" <all_and_one
    expect "large: list 16,384 tiles, $workers workers" 0 all_rows '' plainly disk list
    expect "large: check 16,384 tiles, $workers workers" 0 check_all '' plainly disk check
    expect "large: get the first of 16,384 tiles, $workers workers" 0 none_valid_grid '' plainly disk get 0 0
    expect "large: get the last of 16,384 tiles, $workers workers" 0 last_grid '' plainly disk get 127 127
done
