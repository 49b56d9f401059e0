#!/bin/sh
# How bin/lerc_cli is built, and what it tells meanwhile: a copy of the scripts of bin/ builds programs by an `rt` that
# proves nothing, and notes what it is asked for. It needs sh, bash, the core utilities, awk, find and flock; with
# `script` a terminal is tried, too. Its last line is 'N passed, M failed'.
set -u
here=$(cd "$(dirname "$0")/.." && pwd) || exit 1
. "$here/tests/lib.sh"
begin

# A repository of five crates, of which two are programs that give their input. Of the two that name no other the second
# has more text.
mkdir tools tmp
for crate in first_fault outside_io raster_values lerc_main ascii_grid_main; do
    mkdir -p "copy/crates/$crate/src" "copy/crates/$crate/specs" "copy/crates/$crate/proofs"
    echo "// $crate" >"copy/crates/$crate/src/lib.rt"
done
echo '// the second' >>copy/crates/outside_io/src/lib.rt
cp -r "$here/bin" "$here/VERSION" copy/
cat >copy/crates.txt <<'END_OF_LIST'
# The lowest first.
first_fault:
outside_io: itoa
raster_values: first_fault outside_io byteorder
lerc_main: raster_values outside_io
ascii_grid_main: raster_values
END_OF_LIST
printf -- '-\ndecode\n' >copy/crates/lerc_main/args
printf 'join\n' >copy/crates/ascii_grid_main/args

# As rt does, it keeps the folders of a crate and of those below for itself, and builds a library once for its text.
# Each line of `events` is a word and a crate: `begins`, `ends`; `early`, where one below is not built; `waits`, where a
# folder is not free. Files beside it say what else it does: `meet` has the two lowest crates wait for each other, `slow`
# has each proof take a second, refuses_CRATE has that crate refused, and stays_CRATE has its proof go on until it is
# killed.
cat >tools/rt <<'END_OF_RT'
#!/usr/bin/env bash
crate=${PWD##*/}
note() { echo "$1 $crate" >>"$room/events"; }
crates=$(sed -n 's/:.*//; /^[a-z]/p' ../../crates.txt)
for each in $crates; do
    exec {folder}<"../$each"
    flock -n "$folder" || { [ "$1" = run ] || note waits; flock "$folder"; }
done
text=$(cat ../*/src/lib.rt | cksum)
[ "$1" = run ] || [ "$text" != "$(cat out/rlib/stamp 2>/dev/null)" ] || exit 0
note begins
for each in $crates; do
    case $each in "$crate" | *_main) continue ;; esac
    [ -e "../$each/out/rlib/stamp" ] || note early
done
mkdir -p out/rlib out/incremental
echo part >>out/incremental/work
[ ! -e "$room/refuses_$crate" ] || { echo "fn $crate::main: not proved"; exit 1; }
if [ -e "$room/stays_$crate" ]; then
    echo $$ >"$room/staying"
    for ((at = 0; at < 600; at++)); do sleep 0.1; done
fi
[ ! -e "$room/slow" ] || sleep 1
case $crate in
first_fault | outside_io)
    for ((at = 0; at < 100; at++)); do
        [ ! -e "$room/meet" ] || [ "$(grep -c begins "$room/events")" -ge 2 ] || sleep 0.1
    done
    [ ! -e "$room/meet" ] || [ "$(grep -c begins "$room/events")" -ge 2 ] || note alone
    ;;
esac
if [ "$1" = run ]; then
    printf '#!/bin/sh\ncat\n' >"out/$crate"
    chmod +x "out/$crate"
else
    echo "$text" >out/rlib/stamp
fi
note ends
END_OF_RT
chmod +x tools/rt
PATH=$room/tools:$PATH
TMPDIR=$room/tmp
RT_JOBS=3
export PATH TMPDIR RT_JOBS room
program=$room/copy/bin/lerc_cli
other=$room/copy/bin/ascii_grid
: >nothing
echo 'some bytes' >given

# Counts a case by a command's status.
holds() {
    name=$1
    shift
    if "$@"; then
        count "$name" yes
    else
        count "$name" no
        cat err events >&2
    fi
}

# Runs a program over the bytes, from no work on.
runs() {
    : >events
    "$1" <given >out 2>err
}
no_event() { ! grep -q "$1" events; }
# Whether the first event comes before the second one, and both once.
in_turn() { [ "$(grep -nx -e "$1" -e "$2" events | sed 's/^[0-9]*://' | tr '\n' ,)" = "$1,$2," ]; }
# Whether proofs were begun for these crates and no others.
begun() {
    grep '^begins' events | sed 's/begins //' | sort >got
    printf '%s\n' "$@" | sort | cmp -s - got
}
# What is told, with no minutes of the estimate, and no order of the two lowest crates.
told() { sed -e 's/about [0-9]* min/about N min/' -e 's/: [12] of 4/: 1 or 2 of 4/' err | sort | cmp -s - wanted; }
minutes_told() { sed -n 's/.* about \([0-9]*\) min$/\1/p' "$1"; }

# ---- No terminal

sort >wanted <<'END_OF_LINES'
lerc_cli: building; crates to prove: 4, processors: 3, about N min
proved first_fault: 1 or 2 of 4 crates; 0 min
proved outside_io: 1 or 2 of 4 crates; 0 min
proved raster_values: 3 of 4 crates; 0 min
proved lerc_main: 4 of 4 crates; 0 min
END_OF_LINES
: >meet
holds 'a program is built and runs' runs "$program"
rm meet
holds 'the output is that of the program alone' cmp -s out given
holds 'how much there is to do, and a line for each crate that is proved' told
cp err first_err
holds 'two crates that do not stand on each other are proved side by side' no_event alone
holds 'a crate waits for the one below' in_turn 'ends first_fault' 'begins raster_values'
holds 'and for the other' in_turn 'ends outside_io' 'begins raster_values'
holds 'and the program for all' in_turn 'ends raster_values' 'begins lerc_main'
holds 'what is below stands where a proof begins' no_event early
holds 'and no proof waits for the folders of another' no_event waits
holds 'each crate is proved once' begun first_fault outside_io raster_values lerc_main
expect 'what stands is not built again' 0 given '' plainly <given
holds 'another program runs' runs "$other"
holds 'and has its own crate proved alone' begun ascii_grid_main
echo '// more' >>copy/crates/lerc_main/src/lib.rt
holds 'so has the first where that one is changed' runs "$program"
holds 'and no other crate is looked at' begun lerc_main
holds 'which is said to take less' [ "$(minutes_told err)" -lt "$(minutes_told first_err)" ]
holds 'and nothing is left of the builds' [ -z "$(ls tmp)" ]

# ---- A build that fails, once a source is changed

echo '// more' >>copy/crates/first_fault/src/lib.rt
: >refuses_raster_values
runs "$program"
holds 'what is not proved is not run' [ $? -eq 70 ] && holds 'and gives nothing' cmp -s out nothing
holds 'and its log is shown' grep -q '^fn raster_values::main: not proved' err
holds 'the program is not tried, nor what has not changed' begun first_fault raster_values
rm refuses_raster_values
holds 'once that is mended the program runs' runs "$program"
holds 'and what was proved before the fault stands' begun raster_values lerc_main
holds 'the work that the refused proof had kept is there' [ "$(wc -l <copy/crates/raster_values/out/incremental/work)" -eq 3 ]

# ---- A build that is interrupted

echo '// more' >>copy/crates/outside_io/src/lib.rt
: >stays_outside_io
: >events
"$program" <given >out 2>err &
wrapper=$!
for wait in 1 2 3 4 5 6 7 8 9 10; do [ -s staying ] || sleep 1; done
kill -TERM "$wrapper"
wait "$wrapper" 2>/dev/null
holds 'a build that is ended has a status of its own' [ $? -eq 143 ]
sleep 0.3
holds 'it leaves no proof at work' sh -c '! kill -0 "$(cat staying)" 2>/dev/null'
holds 'and nothing among the temporary files' [ -z "$(ls tmp)" ]
holds 'and the work that was kept' [ "$(wc -l <copy/crates/outside_io/out/incremental/work)" -eq 2 ]
rm stays_outside_io staying
: >events
"$program" <given 2>err | "$other" >out 2>other_err
holds 'two programs at once give their output' cmp -s out given
holds 'and have nothing proved twice' begun outside_io raster_values lerc_main ascii_grid_main

# ---- No links

printf '#!/bin/sh\nexit 1\n' >tools/ln
chmod +x tools/ln
echo '// more' >>copy/crates/raster_values/src/lib.rt
holds 'where no file can have a link the program is built all the same' runs "$program"
holds 'by one command, which proves what is below' begun lerc_main
rm tools/ln

# ---- A terminal

if ! script -qec true /dev/null >/dev/null 2>&1; then
    echo 'skipped: script is not here, or makes no terminal'
else
    rm -r copy/crates/*/out
    : >slow
    : >events
    script -qec "'$program' <given >out" typescript >screen 2>&1
    holds 'a terminal: the output is that of the program alone' cmp -s out given
    # One line that is written over: it begins with a carriage return, and no line feed stands behind it.
    tr '\r' '\n' <screen | sed 's/\x1b\[K//' >parts
    holds 'a terminal: what is at work side by side' grep -qx 'proving outside_io, first_fault: 0 of 4 crates; 0 min' parts
    holds 'a terminal: and what is at work after it' grep -qx 'proving raster_values: 2 of 4 crates; 0 min' parts
    holds 'a terminal: and what comes last' grep -qx 'proving lerc_main: 3 of 4 crates; 0 min' parts
    holds 'a terminal: all in one line' [ "$(tr -d '\r' <screen | grep -c proving)" -le 1 ]
    holds 'a terminal: and it is told at the start' grep -q '^lerc_cli: building; crates to prove: 4' parts
fi

tell
