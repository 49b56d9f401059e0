# Grids and tiles of several bands, in the commands on blobs and on bundles.

# ---- What is given and wanted

# Two bands of one unsigned byte, 7, and their blobs; 16 such bands; two bands of nine pixels with one mask,
# the second of which has it of the first.
{ bytes 4c 47 52 32 01 01 00 00 00 01 00 00 00 01 00 00 00 02 00 00 00 01 07 01 07; } >sevens_grid
cat blob blob >sevens
cat sevens sevens sevens sevens sevens sevens sevens sevens >most
{
    bytes 4c 47 52 32 01 01 00 00 00 01 00 00 00 01 00 00 00 10 00 00 00
    bytes 01 07 01 07 01 07 01 07 01 07 01 07 01 07 01 07 01 07 01 07 01 07 01 07 01 07 01 07 01 07 01 07
} >most_grid
{ bytes 4c 47 52 32; head -c 17 runs_grid | tail -c 13; bytes 02 00 00 00; tail -c 17 runs_grid; tail -c 17 runs_grid; } >eights_grid
cat runs no_mask >eights
lines_of u8 9 8 66 7 7 c07546b3 previous constant | cat runs_lines - >eights_lines

# The same with another number of valid pixels in the second's header; blobs of unlike rasters; a cut blob and a
# cut key behind a blob; 17 blobs.
{
    cat runs
    bytes 4c 65 72 63 32 20 03 00 00 00 c0 74 46 9d 01 00 00 00 09 00 00 00 07 00 00 00 08 00 00 00
    bytes 42 00 00 00 01 00 00 00 00 00 00 00 00 00 e0 3f 00 00 00 00 00 00 1c 40 00 00 00 00 00 00
    bytes 1c 40 00 00 00 00
} >other_count
cat blob runs >unlike
cat blob short >cut_band
{ cat blob; head -c 5 blob; } >cut_key
cat most blob >too_many

# Grids of one band, of 17 and of too many values; of two bands of two depths.
{ head -c 17 sevens_grid; bytes 01 00 00 00 01 07; } >one_band_grid
{ head -c 17 sevens_grid; bytes 11 00 00 00; } >many_bands_grid
{ bytes 4c 47 52 32 01 01 00 00 00 01 00 80 00 01 00 00 00 02 00 00 00; } >large_bands_grid
{ bytes 4c 47 52 32 01 01 00 00 00 01 00 00 00 02 00 00 00 02 00 00 00 00 00; } >deep_bands_grid

# ---- encode, decode, info

for input in sevens eights; do
    expect "bands: encode, $input" 0 "$input" '' plainly - encode 3 0 <"${input}_grid"
    expect "bands: decode, $input" 0 "${input}_grid" '' plainly - decode <"$input"
done
expect 'bands: decode 16' 0 most_grid '' plainly - decode <most
expect 'bands: info of two blobs' 0 eights_lines '' plainly - info <eights
expect 'bands: encode, decode with an error' 0 eights_grid '' then_decoded - encode 4 5 <eights_grid

for command in decode info; do
    expect "bands: $command, the second mask has another count" 2 nothing 'refused: BadMaskCount at 134 header 7 counted 8' plainly - "$command" <other_count
    expect "bands: $command, unlike the first" 2 nothing 'refused: BadBand at 84' plainly - "$command" <unlike
    expect "bands: $command, a cut blob behind a blob" 2 nothing 'refused: Truncated at 131' plainly - "$command" <cut_band
    expect "bands: $command, a cut key behind a blob" 2 nothing 'refused: Leftover at 66' plainly - "$command" <cut_key
    expect "bands: $command, 17 blobs" 2 nothing 'refused: Leftover at 1056' plainly - "$command" <too_many
done
encode_refuses one_band_grid 'BadSize at 17'
encode_refuses many_bands_grid 'BadSize at 17'
encode_refuses large_bands_grid 'TooLarge at 17'
encode_refuses deep_bands_grid 'DepthNeedsV4 at 13'
expect 'bands: a closed output' 4 nothing "$no_output" output_closed - decode <sevens

# ---- A bundle

rm -f bands.bundle bands.bundle.jnl
printf 'put 127 127 132\n' >put_bands
printf '127 127 131140 132\n' >list_bands
{ bytes 54 7f 7f; cat sevens_grid; } >bands_tile
expect 'bands: put a tile' 0 put_bands '' plainly bands.bundle put 3 0 1 <bands_tile
expect 'bands: list it' 0 list_bands '' plainly bands.bundle list
expect 'bands: get it' 0 sevens_grid '' plainly bands.bundle get 127 127
expect 'bands: get its bytes' 0 sevens '' plainly bands.bundle get 127 127 raw
# The second blob's number of columns becomes 9, and its checksum no longer is one: its header is told first.
head -c 131224 bands.bundle >unlike.bundle
bytes 09 >>unlike.bundle
tail -c +131226 bands.bundle >>unlike.bundle
expect 'bands: get a tile of unlike bands' 2 nothing 'refused: BadBand at 84' plainly unlike.bundle get 127 127
