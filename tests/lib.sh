# The functions that the scripts beside this one, and the cases of tests/program.sh, are made of. A script begins
#
#     here=$(cd "$(dirname "$0")/.." && pwd) || exit 1
#     . "$here/tests/lib.sh"
#     program=$(readlink -f "${1:-$here/bin/lerc_cli}")
#     begin
#
# and ends with `tell`. Its cases run in a folder of their own, `room`; `program` is the program.
#
# A case is one call of `expect`, with standard input as it is redirected there:
#
#     expect NAME STATUS OUTPUT LINE HOW WORD..  <INPUT
#
# OUTPUT is the file that standard output has to be like, LINE the line of standard error (empty: none), and
# HOW one of the functions of 'Ways to run it'. Behind the line of a volume that failed and of a store that
# refuses one more may stand, which begins with 'in '; `tells_behind` is the case that says which. `leaves` is
# a case, too: that the two files of the store are then like these.

# ---- From the beginning to the end

# Makes the folder, which is gone at the end, and enters it. No case was counted yet. Nothing is asked of the scripts in
# front of the programs.
begin() {
    unset FUTSKHERI_LOCK FUTSKHERI_PROGRESS
    room=$(mktemp -d) || exit 1
    trap 'rm -rf "$room"' EXIT
    cd "$room" || exit 1
    passed=0
    failed=0
}

# Tells the counts. Its status is the script's: whether no case has failed.
tell() {
    echo "$passed passed, $failed failed"
    [ "$failed" -eq 0 ]
}

# ---- What may not be here

# Whether GDAL's programs and its driver for caches of bundles are here; where one is not, that is said.
has_gdal() {
    for tool in gdalinfo gdal_translate gdalsrsinfo; do
        command -v "$tool" >/dev/null || { echo "skipped: $tool is not here"; return 1; }
    done
    gdalinfo --formats | grep -q ESRIC || { echo 'skipped: this GDAL has no driver ESRIC'; return 1; }
}

# A Python that has numpy, the one that $PYTHON names where it has; nothing where there is none.
python_with_numpy() {
    for python in ${PYTHON:+"$PYTHON"} python3 /usr/bin/python3; do
        if "$python" -c 'import numpy' >/dev/null 2>&1; then
            echo "$python"
            return
        fi
    done
}

# ---- Comparing

# Shows a file's first bytes, where a case has failed.
show() {
    echo "    $1:" >&2
    od -A d -t x1z "$2" | head -n 20 >&2
}

# Counts a case: its name, and whether it holds.
count() {
    if [ "$2" = yes ]; then
        passed=$((passed + 1))
        echo "ok: $1"
    else
        failed=$((failed + 1))
        echo "FAILED: $1"
    fi
}

expect() {
    name=$1 status=$2 output=$3 line=$4 how=$5
    shift 5
    : >out
    : >err
    "$how" "$@"
    got=$?
    if [ -n "$line" ]; then printf '%s\n' "$line" >line; else : >line; fi
    case $line in
    'volume failed' | 'store: '*) sed '2{/^in /d;}' err >err_lines ;;
    *) cat err >err_lines ;;
    esac
    if [ "$got" -eq "$status" ] && cmp -s out "$output" && cmp -s err_lines line; then
        count "$name" yes
    else
        count "$name" no
        echo "    status $got, wanted $status" >&2
        show 'standard output' out
        show 'standard error' err
    fi
}

# Behind the line of the case before stands this one (empty: none).
tells_behind() {
    if [ "$(sed 1d err)" = "$2" ]; then
        count "$1" yes
    else
        count "$1" no
        show 'standard error' err
    fi
}

# Whether a file is like another; 'none' is like no file at all.
is_like() {
    if [ "$2" = none ]; then
        [ ! -e "$1" ]
    else
        cmp -s "$1" "$2"
    fi
}

# The store `disk` is this bundle and this journal.
leaves() {
    if is_like disk "$2" && is_like disk.jnl "$3"; then
        count "$1" yes
    else
        count "$1" no
        for file in disk disk.jnl; do
            [ ! -f "$file" ] || show "$file" "$file"
        done
    fi
}

# Makes this bundle and this journal the store `disk`.
begins_as() {
    rm -rf disk disk.jnl
    [ "$1" = none ] || cp "$1" disk
    [ "$2" = none ] || cp "$2" disk.jnl
}

# ---- Ways to run it

plainly() { "$program" "$@" >out 2>err; }

# Its output is decoded by the program once more.
then_decoded() { "$program" "$@" 2>err | "$program" - decode >out; }

# Its output is closed, or takes no byte, or is a pipe of which nobody reads more than a byte.
output_closed() { "$program" "$@" >&- 2>err; }
output_full() { "$program" "$@" >/dev/full 2>err; }
output_unread() {
    { "$program" "$@" 2>err; echo $? >ended; } | head -c 1 >/dev/null
    read -r ended <ended
    return "$ended"
}

# Its error output is closed, or takes no byte.
error_closed() { "$program" "$@" >out 2>&-; }
error_full() { "$program" "$@" >out 2>/dev/full; }

# Its output and its error output are closed.
all_but_input() { "$program" "$@" >&- 2>&-; }

# Its three streams are closed.
all_closed() { "$program" "$@" <&- >&- 2>&-; }

# Its input is closed.
input_closed() { "$program" "$@" >out 2>err <&-; }

# Its input comes through a pipe, in two pieces.
in_pieces() {
    { head -c 10 blob; sleep 0.2; tail -c +11 blob; } | "$program" "$@" >out 2>err
}

# It is called from another folder through a link.
through_a_link() {
    ln -sf "$program" linked
    (cd / && "$room/linked" "$@") >out 2>err
}

# No file of it grows past 136,192 bytes; a write behind that fails.
files_are_short() { (trap '' XFSZ && ulimit -f 266 && exec "$program" "$@") >out 2>err; }

# ---- A root below which nothing opens

# The program as it was built of its crate, where `program` is the script that builds it.
built_of() {
    case $program in
    */bin/*) echo "$here/crates/$1/out/$1" ;;
    *) echo "$program" ;;
    esac
}

# Makes the folder `closed_root`, which may not be listed, with this program and the shared libraries that it needs, if any;
# whether there can be one here. A program in it can hold the numbers of no closed streams.
make_closed_root() {
    if [ "$(id -u)" -ne 0 ] || ! command -v chroot >/dev/null; then
        echo 'skipped: a root that may not be listed, which wants root and chroot'
        return 1
    fi
    closed_root=$room/closed_root
    mkdir "$closed_root"
    cp "$1" "$closed_root/program"
    ldd "$1" 2>/dev/null | tr ' \t' '\n\n' | grep '^/' | while read -r library; do
        mkdir -p "$closed_root$(dirname "$library")"
        cp -L "$library" "$closed_root$library"
    done
    chmod 711 "$closed_root"
}

in_closed_root() { chroot --userspec=65534:65534 --groups= "$closed_root" /program "$@" >out 2>err; }
in_closed_root_unheard() { chroot --userspec=65534:65534 --groups= "$closed_root" /program "$@" >&- 2>err; }

# ---- Making files

# Writes bytes that are given in hexadecimal.
bytes() {
    for byte; do
        byte=$((0x$byte))
        # shellcheck disable=SC2059
        printf "\\$((byte / 64))$((byte / 8 % 8))$((byte % 8))"
    done
}

# Writes numbers, each in so many bytes, the lowest first.
numbers() {
    width=$1
    shift
    for number; do
        place=0
        while [ "$place" -lt "$width" ]; do
            # shellcheck disable=SC2059
            printf "\\$((number / 64 % 4))$((number / 8 % 8))$((number % 8))"
            number=$((number / 256))
            place=$((place + 1))
        done
    done
}

zeros() { head -c "$1" /dev/zero; }
ones() { zeros "$1" | tr '\0' '\1'; }

# Writes so many bytes of decimal digits, of which any four in turn are another number than the four behind them.
digits() { seq 10000000 $((10000000 + $1 / 8)) | tr -d '\n' | head -c "$1"; }

# Writes so many bytes at random, which the first number determines: it is multiplied by 16,807, modulo 2^31 - 1, for each.
noise() {
    awk -v x="$1" -v left="$2" 'BEGIN {
        while (left > 0) {
            line = ""
            for (k = 0; k < 256 && left > 0; k++) {
                x = x * 16807 % 2147483647
                line = line sprintf("\\0%o", int(x / 8388608))
                left--
            }
            print line
        }
    }' | while read -r line; do printf '%b' "$line"; done
}

# ---- Making bundles

# A new header with these three numbers: the greatest size, the slack and the length of the file.
header() {
    numbers 4 3 16384 "$1" 5
    numbers 8 "$2" "$3" 40
    numbers 4 131092 3 16 16384 5 131072
}

# An index of one entry: its place in the bundle, the offset and the size.
index() {
    zeros $(($1 - 64))
    numbers 5 "$2"
    numbers 3 "$3"
    zeros $((131136 - 8 - $1))
}

# A bundle as this one, with as much slack as can be said: 2^64 - 1 bytes.
with_slack() { head -c 16 "$1"; bytes ff ff ff ff ff ff ff ff; tail -c +25 "$1"; }

# A record of this file.
record() {
    numbers 4 "$(wc -c <"$1")"
    cat "$1"
}

# The journal, its gate closed, of a tile in the last slot: its offset and its size, and the bundle that has it.
journal() {
    bytes 00 4c 42 4a 52 4e 4c 32 01 01 00 00 00 00 00 00
    numbers 8 "$(wc -c <"$3")"
    head -c 64 "$3"
    bytes ff 3f 00 00 00 00 00 00
    numbers 5 "$1"
    numbers 3 "$2"
    zeros 1008
}

# The same with the gate open.
opened() {
    bytes 01
    tail -c +2 "$1"
}

# ---- Making streams of tiles

# A tile of a stream: row and column of its slot, and its grid.
tile() {
    bytes 54
    numbers 1 "$1" "$2"
    cat "$3"
}

# Sixteen tiles of 257 by 257 heights, tile t in the slot (t div 4, t mod 4). The pixel in row r and column c is
# (r * r + 3 * c + 17 * t) mod 1000 - 100, and it is not valid where r + c is below 64.
pixels() {
    awk -v t="$1" -v show="$2" 'BEGIN {
        for (r = 0; r < 257; r++) {
            for (c = 0; c < 257; c++) {
                value = (r * r + 3 * c + 17 * t) % 1000 - 100 + 65536
                if (show == "marks") printf("\\0%d", r + c < 64 ? 0 : 1)
                else if (r + c >= 64) printf("\\0%o\\0%o", value % 256, int(value / 256) % 256)
            }
            print ""
        }
    }' | while read -r row; do printf '%b' "$row"; done
}

# Makes the stream of them, big_stream, and the parts of each grid: its head, its marks and its values.
sixteen_tiles() {
    { printf 'LGR1'; numbers 1 2; numbers 4 257 257 1; } >big_head
    pixels 0 marks >big_marks
    for t in 0 1 2 3 4 5 6 7 8 9 10 11 12 13 14 15; do
        pixels "$t" values >"big_values_$t"
        cat big_head big_marks "big_values_$t" >"big_grid_$t"
        tile $((t / 4)) $((t % 4)) "big_grid_$t"
    done >big_stream
}

# A stream of a tile of one pixel for each slot, in their order: 16,384 tiles.
all_tiles() {
    awk 'BEGIN {
        for (row = 0; row < 128; row++) {
            line = ""
            for (col = 0; col < 128; col++) {
                line = line sprintf("T\\0%o\\0%oLGR1\\01\\01\\0\\0\\0\\01\\0\\0\\0\\01\\0\\0\\0\\01\\0%o", row, col, (128 * row + col) % 256)
            }
            print line
        }
    }' | while read -r line; do printf '%b' "$line"; done
}

# A stream of this many tiles of one pixel, in the order of the slots, and the lines of its updates and of its
# tiles. A blob of one pixel has 66 bytes.
many_tiles() {
    slot=0
    : >many_puts
    : >many_rows
    while [ "$slot" -lt "$1" ]; do
        row=$((slot / 128))
        col=$((slot % 128))
        bytes 54
        numbers 1 "$row" "$col"
        printf 'LGR1\1\1\0\0\0\1\0\0\0\1\0\0\0\1'
        numbers 1 $((slot % 256))
        echo "put $row $col 66" >>many_puts
        echo "$row $col $((131140 + 70 * slot)) 66" >>many_rows
        slot=$((slot + 1))
    done
}
