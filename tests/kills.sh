#!/bin/sh
# The built programs killed, and run again on what was left. Its parts:
#
#     put, build    three tiles put or built, killed at calls of the machine, by strace
#     puts          the same of a put of 65 tiles, and of one that another put goes on behind
#     recover       a recovery, killed so
#     packing       bundle_pack, killed so
#     overview      overview_tiles, killed so
#     syncs         each sync of a put fails once, and would be Ok later, by strace
#     chance        put of ten groups of 64 tiles by four workers, killed at moments that a number decides, each run on
#                   what the one before left
#
#     tests/kills.sh [PROGRAMS [KILLS [PART..]]]
#
# PROGRAMS is the folder of the programs, bin/ where none is given; KILLS how often `chance` runs, 30 where it is not said;
# and without a PART all of them are tried. Of each call of the machine up to six are killed, from a work's first to its
# last; with FUTSKHERI_KILLS=all each is, and `chance` runs 100 times. It needs sh, the core utilities and od, and strace
# for all parts but `chance`: where it is not here they are skipped, and that is said. Its last line is
# 'N passed, M failed'.
set -u
here=$(cd "$(dirname "$0")/.." && pwd) || exit 1
. "$here/tests/lib.sh"
bin=$(cd "${1:-$here/bin}" && pwd) || exit 1
case ${FUTSKHERI_KILLS:-} in
all) most=100000 kills=${2:-100} ;;
*) most=6 kills=${2:-30} ;;
esac
[ $# -lt 2 ] || shift
[ $# -lt 1 ] || shift
for part; do
    case $part in
    put | build | puts | recover | packing | overview | syncs | chance) ;;
    *) echo "there is no part $part" >&2; exit 1 ;;
    esac
done
parts=" $* "
for name in lerc_cli bundle_pack overview_tiles; do "$bin/$name" >/dev/null 2>&1; done
begin

# Whether this part is to be tried.
is_asked() { case $parts in '  ' | *" $1 "*) ;; *) return 1 ;; esac; }

# A program itself, without the script in front of it.
itself() {
    case $bin in
    "$here/bin") case $1 in lerc_cli) echo "$here/crates/lerc_main/out/lerc_main" ;; *) echo "$here/crates/$1_main/out/$1_main" ;; esac ;;
    *) if [ -x "$bin/../libexec/futskheri/$1" ]; then echo "$bin/../libexec/futskheri/$1"; else echo "$bin/$1"; fi ;;
    esac
}
lerc=$(itself lerc_cli)
pack=$(itself bundle_pack)
overview=$(itself overview_tiles)

# ---- What is put

# The stream of the tiles of the first so many slots, each of one pixel: 22 bytes each. The value is the slot's number and
# another one.
tiles_from() {
    awk -v count="$1" -v more="$2" 'BEGIN {
        for (slot = 0; slot < count; slot++) {
            printf "T\\0%o\\0%oLGR1\\01\\01\\0\\0\\0\\01\\0\\0\\0\\01\\0\\0\\0\\01\\0%o", int(slot / 128), slot % 128, (slot + more) % 256
            if (slot % 64 == 63) print ""
        }
        print ""
    }' | while read -r row; do printf '%b' "$row"; done
}
tiles_from 65 0 >stream_65
tiles_from 3 0 >stream_3
tiles_from 1 7 | tail -c +4 >pixel
tile 127 127 pixel >last_tile
: >nothing

# The bundle of the first so many tiles of a stream, as building it lays it out.
bundle_of() {
    rm -f "$3" "$3.jnl"
    head -c $((22 * $2)) "$1" | "$lerc" "$3" build 3 0 1 >/dev/null 2>err
}

# Whether the bundle has exactly the tiles of that other one, which has no room that is not used: packed, it is the same.
has_tiles_of() {
    rm -f packed packed.jnl
    "$pack" packed "$1" >/dev/null 2>err && cmp -s packed "$2"
}

# ---- Calls of the machine

# Runs a program, killed as it begins call number $2 of the name $1. Whether it was killed.
killed_at() {
    call=$1
    number=$2
    shift 2
    strace -f -qq -o calls -e trace="$call" -e inject="$call:signal=KILL:when=$number" "$@" >out 2>err
    [ $? -eq 137 ]
}

calls_of_machine='openat read lseek write ftruncate fdatasync fsync close'

# How often a program makes this call; of several threads that which makes it most often.
times_of() {
    call=$1
    shift
    strace -f -qq -o calls -e trace="$call" "$@" <input >out 2>err
    awk -v call="$call(" 'index($2, call) == 1 && ++times[$1] > most { most = times[$1] } END { print most + 0 }' calls
}

# The numbers up to this one; or so many of them, the first and the last among them.
numbers_to() {
    awk -v last="$1" -v most="$most" 'BEGIN {
        for (n = 1; n <= last && last <= most; n++) print n
        for (n = 0; n < most && last > most; n++) print 1 + int(n * (last - 1) / (most - 1))
    }'
}

# Kills a work at calls of each name: `$2` makes the files that it begins with, and `$3` looks at what is left; what is
# behind them are the program and its words. Its input is the file `input`.
kill_at_calls() {
    what=$1
    make=$2
    look=$3
    shift 3
    tried=0
    for call_name in $calls_of_machine; do
        "$make"
        times=$(times_of "$call_name" "$@")
        well=yes
        for at in $(numbers_to "$times"); do
            "$make"
            if killed_at "$call_name" "$at" "$@" <input && "$look"; then tried=$((tried + 1)); else well=no; break; fi
        done
        "$make"
        ! killed_at "$call_name" $((times + 1)) "$@" <input || well=no
        count "$what: killed at $call_name, of which there are $times" "$well"
    done
    if [ "$tried" -ge 20 ]; then well=yes; else well=no; fi
    count "$what: killed $tried times" "$well"
}

no_bundle() { rm -f disk disk.jnl; }

# What a killed put of these tiles has left: those of which a line was given and no other one but those of their group and
# of the next. Then another tile is put, and a recovery has nothing to do.
first_tiles_are_left() {
    given=$(wc -l <out)
    "$lerc" disk recover >word 2>err || return
    "$lerc" disk list >rows 2>err || return
    listed=$(wc -l <rows)
    [ "$listed" -ge "$given" ] || return
    case $listed in 0 | "$total" | 64) ;; *) return 1 ;; esac
    bundle_of input "$listed" wanted
    has_tiles_of disk wanted || return
    "$lerc" disk put 3 0 1 <last_tile >lines 2>err || return
    [ "$("$lerc" disk recover 2>err)" = closed ] || return
    "$lerc" disk get 127 127 >tile_given 2>err || return
    cmp -s tile_given pixel
}

# The same where the next run is a put, and not a recovery.
put_goes_on() {
    given=$(wc -l <out)
    "$lerc" disk put 3 0 1 <last_tile >lines 2>err || return
    "$lerc" disk list >rows 2>err || return
    listed=$(($(wc -l <rows) - 1))
    [ "$listed" -ge "$given" ] || return
    case $listed in 0 | "$total" | 64) ;; *) return 1 ;; esac
    { head -c $((22 * listed)) input; cat last_tile; } >wanted_stream
    bundle_of wanted_stream $((listed + 1)) wanted
    has_tiles_of disk wanted
}

# What a killed build has left: all or none, and all where its line was given.
all_or_none_are_left() {
    given=$(wc -l <out)
    "$lerc" disk list >rows 2>err || return
    listed=$(wc -l <rows)
    case $listed in 0) [ "$given" -eq 0 ] || return ;; "$total") ;; *) return 1 ;; esac
    bundle_of input "$listed" wanted
    has_tiles_of disk wanted || return
    [ "$listed" -ne 0 ] || "$lerc" disk build 3 0 1 <input >lines 2>err
}

# A bundle whose put was killed while its journal was open, `open` and `open.jnl`, and all its tiles.
torn_bundle() { cp open disk; cp open.jnl disk.jnl; }
all_are_left() {
    "$lerc" disk recover >word 2>err || return
    bundle_of input "$total" wanted
    has_tiles_of disk wanted
}

# Two sources of a packing, and what is left of them and of the target.
two_sources() {
    rm -f target target.jnl
    for source in one two; do cp "kept_$source" "$source"; rm -f "$source.jnl"; done
}
sources_are_left() {
    has_tiles_of one kept_one && has_tiles_of two kept_two || return
    "$lerc" target list >rows 2>err || return
    if [ "$(wc -l <rows)" -eq 0 ]; then
        "$pack" target one two >lines 2>err || return
    fi
    cmp -s target kept_both
}

# A bundle and its overview.
no_overview() { rm -f coarse coarse.jnl; cp kept_one one; rm -f one.jnl; }
overview_is_left() {
    has_tiles_of one kept_one || return
    "$overview" one coarse overview 0 3 0 1 >lines 2>err || return
    has_tiles_of coarse kept_coarse
}

# Whether behind a call that failed by our doing no file of the bundle was written, cut or synced.
nothing_behind() { ! sed '1,/INJECTED/d' calls | grep -E '^[0-9]+ +(write|pwrite64|ftruncate|fdatasync)\([0-9]+<[^>]*/disk(\.jnl)?>' >/dev/null; }

# One sync fails, and each later one is Ok: the run says so, and does no more; the next one has what stands there.
fail_each_sync() {
    for call_name in fdatasync fsync; do
        at=0
        well=yes
        while at=$((at + 1)); do
            no_bundle
            bundle_of stream_3 3 disk
            strace -f -y -qq -o calls -e trace=write,pwrite64,ftruncate,fdatasync,fsync -e inject="$call_name:error=EIO:when=$at" \
                "$lerc" disk put 3 0 1 <last_tile >out 2>err
            status=$?
            grep -q INJECTED calls || break
            { [ "$status" -eq 5 ] && [ "$(head -n 1 err)" = 'volume failed' ] && grep -q '^in disk.* (os error 5)$' err && nothing_behind; } || { well=no; break; }
            "$lerc" disk list >rows 2>err || { well=no; break; }
            case $(wc -l <rows) in 3 | 4) ;; *) well=no; break ;; esac
            "$lerc" disk put 3 0 1 <last_tile >lines 2>err || { well=no; break; }
        done
        { [ "$status" -eq 0 ] && [ "$at" -gt 1 ]; } || well=no
        count "put: each $call_name fails once, of which there are $((at - 1))" "$well"
    done
}

# ---- The parts

kill_puts_of_three() {
    cp stream_3 input
    total=3
    kill_at_calls 'put of three tiles' no_bundle first_tiles_are_left "$lerc" disk put 3 0 1
}

kill_builds() {
    cp stream_3 input
    total=3
    kill_at_calls 'build of three tiles' no_bundle all_or_none_are_left "$lerc" disk build 3 0 1
}

kill_puts_of_65() {
    cp stream_65 input
    total=65
    kill_at_calls 'put of 65 tiles' no_bundle first_tiles_are_left "$lerc" disk put 3 0 1
    kill_at_calls 'put of 65 tiles, and a put behind it' no_bundle put_goes_on "$lerc" disk put 3 0 1
}

# Whether the journal is open and says tiles.
is_open_of_tiles() { [ -s disk.jnl ] && [ "$(od -An -tu1 -N1 disk.jnl | tr -d ' ')" -ne 0 ] && [ "$(od -An -tu1 -j8 -N1 disk.jnl | tr -d ' ')" -eq 1 ]; }

# The first open journal of tiles that a kill leaves, made whole.
kill_recoveries() {
    cp stream_3 input
    total=3
    at=0
    while at=$((at + 1)); do
        no_bundle
        killed_at fdatasync "$at" "$lerc" disk put 3 0 1 <input || break
        ! is_open_of_tiles || break
    done
    if ! is_open_of_tiles; then
        count 'a put that was killed while its journal was open' no
        return
    fi
    mv disk open
    mv disk.jnl open.jnl
    kill_at_calls 'recover' torn_bundle all_are_left "$lerc" disk recover
}

# The bundle of 65 tiles, whose overview and whose packing is killed.
make_one() {
    bundle_of stream_65 65 kept_one
    : >input
}

kill_packings() {
    make_one
    tiles_from 65 3 >stream_other
    bundle_of stream_other 40 kept_two
    { head -c $((22 * 40)) stream_other; tail -c $((22 * 25)) stream_65; } >stream_both
    bundle_of stream_both 65 kept_both
    kill_at_calls 'packing' two_sources sources_are_left "$pack" target one two
}

kill_overviews() {
    make_one
    no_overview
    "$overview" one coarse overview 0 3 0 1 >lines 2>err
    rm -f kept_coarse kept_coarse.jnl
    "$pack" kept_coarse coarse >lines 2>err
    kill_at_calls 'overview' no_overview overview_is_left "$overview" one coarse overview 0 3 0 1
}

if ! command -v strace >/dev/null; then
    echo 'skipped: kills at calls of the machine and syncs that fail, since there is no strace'
elif ! strace -o calls true 2>err; then
    echo 'skipped: kills at calls of the machine and syncs that fail, since strace may trace nothing here'
else
    ! is_asked put || kill_puts_of_three
    ! is_asked build || kill_builds
    ! is_asked puts || kill_puts_of_65
    ! is_asked recover || kill_recoveries
    ! is_asked packing || kill_packings
    ! is_asked overview || kill_overviews
    ! is_asked syncs || fail_each_sync
fi

# ---- Many kills

is_asked chance || { tell; exit; }

# Four streams of the same 640 slots, with other values each; `now` is the stream of what the bundle has.
for turn in 0 1 2 3; do tiles_from 640 $((50 * turn)) >"many_$turn"; done
no_bundle
"$lerc" disk put 3 0 4 <many_3 >lines 2>err
cp many_3 now

# How long a put takes, in milliseconds: a kill comes within that. It is less behind a put that ended, and more behind one that was killed.
began=$(date +%s%N)
"$lerc" disk put 3 0 4 <many_3 >lines 2>err
whole=$((($(date +%s%N) - began) / 1000000 + 1))

# The tiles that are there after so many of the stream were put: whether the bundle has them.
has_after() {
    { head -c $((22 * $1)) "$2"; tail -c +$((22 * $1 + 1)) now; } >later
    bundle_of later 640 wanted
    has_tiles_of disk wanted
}

number=1
killed=0
ended=0
lost=0
while [ $((killed + ended)) -lt "$kills" ] && [ "$lost" -eq 0 ]; do
    number=$((number * 16807 % 2147483647))
    stream=many_$(((killed + ended) % 4))
    after=$((number % whole + 1))
    timeout -s KILL "$((after / 1000)).$(printf '%03d' $((after % 1000)))" "$lerc" disk put 3 0 4 <"$stream" >out 2>err
    case $? in
    137) killed=$((killed + 1)) whole=$((whole * 9 / 8 + 1)) ;;
    0) ended=$((ended + 1)) whole=$((whole * 3 / 4 + 1)) ;;
    *) lost=1; break ;;
    esac
    given=$(wc -l <out)
    least=$(((given + 63) / 64 * 64))
    if has_after "$least" "$stream"; then
        cp later now
    elif [ "$least" -lt 640 ] && has_after $((least + 64)) "$stream"; then
        cp later now
    else
        lost=1
    fi
    # As the guide packs a bundle in its place.
    if [ $(((killed + ended) % 25)) -eq 0 ] && [ "$lost" -eq 0 ]; then mv packed disk; rm -f packed.jnl; fi
done
if [ "$lost" -eq 0 ]; then holds=yes; else holds=no; show 'standard error' err; fi
count "put: $((killed + ended)) runs, $killed of them killed, each on what the one before left" "$holds"
if [ "$killed" -ge $((kills / 5)) ]; then holds=yes; else holds=no; fi
count 'put: a fifth of them at least were killed' "$holds"
"$lerc" disk recover >word 2>err
if "$lerc" disk check 2>err | grep -qx 'bad 0'; then holds=yes; else holds=no; fi
count 'check: after all of them no entry is bad' "$holds"

tell
