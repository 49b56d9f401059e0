# The command `sample`. The lines are those that an independent reading of the formats gives.

# What a sample of so many tiles comes to: the bytes of its blobs, and the sum of their checksums.
sums_of() { printf '%s\n' "tiles $1" "bytes $2" "worst $3" "sum $4"; }
sums_of 0 0 0 0 >no_sums
sums_of 1 3271 1 3921396886 >one_sums
sums_of 4096 13380887 1 664589101 >all_sums

expect 'sample: no tiles' 0 no_sums '' plainly - sample 7 0
expect 'sample: one tile' 0 one_sums '' plainly - sample 7 1
expect 'sample: the greatest number of tiles' 0 all_sums '' plainly - sample 7 4096
expect 'sample: an input that is not read' 0 one_sums '' input_closed - sample 7 1
expect 'sample: one tile too many' 1 nothing "$usage" plainly - sample 7 4097
expect 'sample: a start too great' 1 nothing "$usage" plainly - sample 4294967296 1
expect 'sample: a full output' 4 nothing "$no_output" output_full - sample 7 1

begins_as none none
expect 'sample: a bundle that is not called' 0 one_sums '' plainly disk sample 7 1
leaves 'sample: no bundle is made' none none
