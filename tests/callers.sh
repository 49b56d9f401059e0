#!/bin/sh
# Says of each crate whether each call that it hands on has a caller: that its name stands in the sources of another
# crate. Laws, which have no bodies, are no such calls, nor are those of programs and of the library for C, which are called
# from outside. A name that several calls have, as `new`, is not told apart. It needs sh, sed and awk. Its last line is
# 'N passed, M failed'.
set -u

here=$(cd "$(dirname "$0")/.." && pwd) || exit 1
. "$here/tests/lib.sh"
begin

# Those that have none, and why they are there: docs/DECISIONS.md, 'Who calls what'.
cat >alone <<'NAMES'
bundle_tiles next_raw
delta_mode deltas_of
delta_mode undelta
delta_mode unplain
huff_codes canonical
lerc_decode feed_from
volume_rows keep_moment
micro_block block_len
micro_block named_size
micro_block quantise
micro_block read_block
micro_block read_values
micro_block write_block
micro_block write_distances
tile_audit judge
tiles_cli read_slots
NAMES

# The words of a crate's sources, each once: those of no comment.
words_of() {
    find "$here/crates/$1/src" -name '*.rt' -exec sed 's|//.*||' {} + | tr -cs 'A-Za-z0-9_' '\n' | sort -u
}

# The calls that a crate hands on: functions, and those of its types and traits.
calls_of() {
    # shellcheck disable=SC2046
    awk '
        function name_at(line) { sub(/^ *(pub )?fn /, "", line); sub(/[^A-Za-z0-9_].*/, "", line); return line }
        # What lib.rt hands on, but for laws.
        FILENAME ~ /\/src\/lib\.rt$/ {
            if (/^pub use /) { using = 1; text = "" }
            if (using) text = text " " $0
            if (using && /;/) {
                using = 0
                if (text !~ /^ pub use laws::/) {
                    gsub(/[^A-Za-z0-9_]+/, " ", text)
                    for (n = split(text, found, " "); n > 0; n--) handed[found[n]] = 1
                }
            }
        }
        /^pub fn / && (FILENAME ~ /\/src\/lib\.rt$/ || name_at($0) in handed) { print name_at($0) }
        /^(pub trait|impl)/ {
            head = $0
            in_trait = head ~ /^pub trait/
            sub(/^(pub trait|impl(<[^>]*>)?) */, "", head)
            of = head ~ / for / ? "" : head
            sub(/[^A-Za-z0-9_].*/, "", of)
        }
        /^}/ { of = "" }
        of in handed && (in_trait ? /^    fn / : /^    pub fn /) { print name_at($0) }
    ' "$here/crates/$1/src/lib.rt" $(find "$here/crates/$1/src" -name '*.rt' ! -name lib.rt) | sort -u
}

sed '/^#/d; s/[: ].*//' "$here/crates.txt" >crates
while read -r crate; do words_of "$crate" | sed "s/^/$crate /"; done <crates >words
while read -r crate; do
    [ "$crate" != lerc_c ] && [ -e "$here/crates/$crate/src/lib.rt" ] || continue
    calls_of "$crate" >calls
    awk -v own="$crate" '
        FILENAME == "words" { if ($1 != own) used[$2] = 1 }
        FILENAME == "alone" { if ($1 == own) used[$2] = 1 }
        FILENAME == "calls" && !($1 in used)
    ' words alone calls >unused
    if [ -s unused ]; then
        count "$crate: no other crate calls $(tr '\n' ' ' <unused)" no
    else
        count "$crate: $(wc -l <calls) calls" yes
    fi
done <crates

tell
