#!/bin/sh
# What stands in front of the programs, in bin/ and where they are installed: help, words that are no command, locks,
# progress, a kit that is not there, and completions for bash. The programs are stand-ins, so nothing is built, and no kit
# is needed: it needs sh, bash, flock and the core utilities; with `script` a terminal is tried, too. What locks do for
# real bundles is tests/locks.sh. Its last line is 'N passed, M failed'.
set -u
here=$(cd "$(dirname "$0")/.." && pwd) || exit 1
. "$here/tests/lib.sh"
if ! command -v flock >/dev/null 2>&1; then
    echo 'front: skipped, flock is not here'
    exit 0
fi
begin

# A repository with the scripts of bin/, in which each program is a stand-in, and as new as its sources; and the same
# stand-ins as bin/install would put them.
mkdir -p copy/man place/bin place/libexec/futskheri place/share/man/man1
cp -r "$here/bin" "$here/VERSION" "$here/README.md" copy/
cp "$here"/man/*.1 copy/man/
cp "$here"/man/*.1 place/share/man/man1/
cp "$here/bin/front.sh" place/libexec/futskheri/
echo '# None.' >copy/crates.txt

# It notes its words, and when it begins and ends; reads its input where its second word is `put`; waits as many seconds as
# `wait` says, and has the status that `status` says. Words with an x are no command.
mkfifo never
cat >stand_in <<'END_OF_PROGRAM'
#!/usr/bin/env bash
echo "begins $*" >>"$room/events"
sed -n 's/^SigIgn:[^0-9a-f]*//p' "/proc/$$/status" >"$room/ignored"
case $#:$* in 0:* | *x*) echo 'usage: WORDS' >&2; exit 1 ;; esac
[ "${2-}" != put ] || cksum >/dev/null
read -r -t "$(cat "$room/wait")" -u 9 none 9<>"$room/never"
echo "ends $*" >>"$room/events"
echo given
exit "$(cat "$room/status")"
END_OF_PROGRAM
chmod +x stand_in
for name in lerc_cli ascii_grid bundle_pack bundle_tiles level_cache overview_tiles tile_audit; do
    crate=${name}_main
    [ "$name" != lerc_cli ] || crate=lerc_main
    mkdir -p copy/crates/"$crate"/src copy/crates/"$crate"/specs copy/crates/"$crate"/proofs copy/crates/"$crate"/out
    cp stand_in "copy/crates/$crate/out/$crate"
    cp stand_in "place/libexec/futskheri/$name"
    sed -e "s|@PREFIX@|$room/place|g" -e "s|@NAME@|$name|g" -e 's|@VERSION@|0.0|g' -e 's|@KIT@|a kit|g' \
        "$here/bin/templates/program" >"place/bin/$name"
    chmod +x "place/bin/$name"
done
touch copy/crates/*/out/*_main
echo 0 >wait
echo 0 >status
echo given >given
: >nothing
export room

holds() {
    name=$1
    shift
    if "$@"; then count "$name" yes; else count "$name" no; cat err events >&2 2>/dev/null; fi
}
runs() { : >events; "$@" >out 2>err; }
# Whether the last stand-in had the 25th signal ignored, which is the lowest bit of the seventh digit from behind.
ignores_25() {
    case $(cat ignored) in
    *[13579bdf]??????) return 0 ;;
    *) return 1 ;;
    esac
}
# Waits until a stand-in has begun, some ten seconds at most.
await_events() {
    for tenth in $(seq 100); do
        [ ! -s events ] || return 0
        sleep 0.1
    done
}

# A path without the kit.
without=$(echo "$PATH" | tr : '\n' | while read -r folder; do [ -x "$folder/rt" ] || printf '%s:' "$folder"; done)

for folder in copy place; do
    bin=$room/$folder/bin
    program=$bin/lerc_cli

    # ---- Help, the version, and words that are no command

    for word in --help -h; do
        holds "$folder: $word shows the manual page" runs "$program" $word
        holds "$folder: and nothing is run" [ ! -s events ]
        holds "$folder: it is that of the program" grep -qi 'lerc_cli.*blobs of whole numbers' out
    done
    holds "$folder: --version tells a version" runs "$program" --version
    holds "$folder: of the program" grep -q '^lerc_cli [0-9.]*, ' out
    expect "$folder: its words, status and output are the program's" 0 given '' plainly - decode <nothing
    holds "$folder: and so are its words" [ "$(tail -n 1 events)" = 'ends - decode' ]
    echo 7 >status
    expect "$folder: its status, too" 7 given '' plainly - decode <nothing
    echo 0 >status
    holds "$folder: a file that may not grow ends it by no signal, of which the 25th is that" ignores_25
    expect "$folder: no words, nobody looks on" 1 nothing 'usage: WORDS' plainly
    expect "$folder: a word that is no command, nobody looks on" 1 nothing 'usage: WORDS' plainly - xdecode
    FUTSKHERI_PROGRESS=1
    export FUTSKHERI_PROGRESS
    expect "$folder: no words" 1 nothing "usage: WORDS
lerc_cli: no words were given; its manual page, lerc_cli(1), is shown by $program --help" plainly
    expect "$folder: a path alone" 1 nothing "usage: WORDS
lerc_cli: the command is missing; its manual page, lerc_cli(1), is shown by $program --help" plainly x
    expect "$folder: a word that is no command" 1 nothing "usage: WORDS
lerc_cli: xdecode is no command; its manual page, lerc_cli(1), is shown by $program --help" plainly - xdecode
    expect "$folder: a word that has other bytes than a terminal's" 1 nothing "usage: WORDS
lerc_cli: \$'x\\E[1m' is no command; its manual page, lerc_cli(1), is shown by $program --help" plainly - "$(printf 'x\033[1m')"
    expect "$folder: other words of a command are the program's" 1 nothing 'usage: WORDS' plainly - decode x
    program=$bin/ascii_grid
    expect "$folder: the command is the first word there" 1 nothing "usage: WORDS
ascii_grid: xsplit is no command; its manual page, ascii_grid(1), is shown by $program --help" plainly xsplit
    program=$bin/bundle_pack
    expect "$folder: and here there is none" 1 nothing 'usage: WORDS' plainly x
    unset FUTSKHERI_PROGRESS

    # ---- Locks

    program=$bin/lerc_cli
    # Whether two runs were one after the other, and not at once: what they note, without their words.
    two() {
        : >events
        "$1" >out 2>err &
        "$2" >other_out 2>other_err
        wait $!
    }
    in_turn() { [ "$(sed 's/ .*//' events | tr '\n' ' ')" = 'begins ends begins ends ' ]; }
    at_once() { [ "$(sed 's/ .*//' events | tr '\n' ' ')" = 'begins begins ends ends ' ]; }
    list_one() { "$bin/lerc_cli" one list; }
    put_one() { "$bin/lerc_cli" one put 4 0 1 <nothing; }
    list_other() { "$bin/lerc_cli" other list; }
    pack_one() { "$bin/bundle_pack" fresh one other; }
    halve_one() { "$bin/overview_tiles" other one overview 0 4 0 1; }
    level_put() { "$bin/level_cache" level put 4 0 300 5 <nothing; }
    level_get() { "$bin/level_cache" level get 256 0 raw; }
    level_far() { "$bin/level_cache" level get 256 128 raw; }
    outside_lock() { flock one.lock cp stand_in program_of_mine && flock one.lock ./program_of_mine one list; }
    mkdir -p level
    echo 1.5 >wait
    rm -f one.lock
    two list_one put_one
    holds "$folder: two runs at one bundle are at once where no lock is asked for" at_once
    holds "$folder: and no file is made" [ ! -e one.lock ]
    FUTSKHERI_LOCK=1
    export FUTSKHERI_LOCK
    two list_one list_other
    holds "$folder: FUTSKHERI_LOCK=1: at two bundles at once" at_once
    two level_put level_far
    holds "$folder: and at two bundles of a level" at_once
    echo 0.3 >wait
    two list_one put_one
    holds "$folder: at one bundle one after the other" in_turn
    holds "$folder: the file stands beside the bundle" [ -e one.lock ]
    two list_one pack_one
    holds "$folder: packing takes the lock of its source" in_turn
    two pack_one halve_one
    holds "$folder: two programs that take two locks in either order" in_turn
    two level_put level_get
    holds "$folder: two tiles of one bundle of a level" in_turn
    holds "$folder: whose lock is named like the bundle" [ -e level/R0100C0000.bundle.lock ]
    two outside_lock list_one
    holds "$folder: it is the lock that flock takes" in_turn
    echo 0 >wait
    holds "$folder: a run below flock goes on" runs timeout 10 flock one.lock "$program" one list
    holds "$folder: two names of one lock are one" runs timeout 10 "$bin/bundle_pack" ./fresh one ././one
    expect "$folder: encode takes no lock" 0 given '' plainly - encode 4 0 <nothing
    holds "$folder: there is none for -" [ ! -e ./-.lock ]
    expect "$folder: a folder that is not there is the program's" 0 given '' plainly nowhere/one list
    mkdir -p shut
    ln -sf nowhere/lock shut/one.lock
    expect "$folder: a lock that cannot be made" 73 nothing \
        'lerc_cli: shut/one.lock cannot be made or opened, so nothing was run (FUTSKHERI_LOCK is 1)' plainly shut/one list
    holds "$folder: and nothing was run" [ "$(tail -n 1 events)" = 'ends nowhere/one list' ]
    echo 30 >wait
    : >events
    "$program" one list >out 2>err &
    await_events
    kill -9 $!
    wait $! 2>/dev/null
    echo 0 >wait
    holds "$folder: a run that was killed has let its lock go" runs timeout 10 "$program" one list
    unset FUTSKHERI_LOCK

    # ---- Progress

    head -c 3000000 /dev/zero >three
    echo 4 >wait
    expect "$folder: nobody looks on" 0 given '' plainly one put 4 0 1 <three
    FUTSKHERI_PROGRESS=1
    export FUTSKHERI_PROGRESS
    holds "$folder: FUTSKHERI_PROGRESS=1: a put runs" runs "$program" one put 4 0 1 <three
    holds "$folder: and tells what it has read, by the place in the file" \
        grep -Eqx 'lerc_cli put: [0-9]+ s, read 3.0 of 3.0 MB, written 0.0 MB' err
    holds "$folder: once" [ "$(wc -l <err)" -eq 1 ]
    holds "$folder: its output is its own" cmp -s out given
    holds "$folder: what tells it ends with the program" sh -c 'sleep 0.5; ! ps -eo args | grep -F "$1 one put" | grep -qv grep' sh "$program"
    holds "$folder: packing tells of all that it reads" runs "$bin/bundle_pack" fresh one
    holds "$folder: a line after two seconds" grep -Eqx 'bundle_pack: [0-9]+ s, read [0-9.]+ MB, written [0-9.]+ MB' err
    expect "$folder: a list tells nothing" 0 given '' plainly one list <three
    echo 0 >wait
    expect "$folder: nor does what is short" 0 given '' plainly one put 4 0 1 <three
    echo 9 >status
    expect "$folder: the status is the program's" 9 given '' plainly one put 4 0 1 <three
    echo 0 >status
    : >events
    echo 30 >wait
    "$program" one put 4 0 1 <nothing >out 2>err &
    await_events
    kill -TERM $!
    wait $! 2>/dev/null
    holds "$folder: a signal ends the program itself" [ $? -eq 143 ]
    holds "$folder: which was at work" [ "$(cat events)" = 'begins one put 4 0 1' ]
    echo 0 >wait
    unset FUTSKHERI_PROGRESS
done

# ---- No kit

program=$room/copy/bin/lerc_cli
without_kit() { PATH=$without "$program" "$@" >out 2>err; }
touch copy/crates/lerc_main/src/lib.rt
: >events
without_kit - decode <nothing
holds 'no kit: a status of its own' [ $? -eq 69 ]
holds 'no kit: nothing is run' [ ! -s events ]
holds 'no kit: it says what is missing' grep -q '^lerc_cli: to build it takes rt, which is not on the path' err
holds 'no kit: and which kit that is' grep -q "the Rattle kit, $(grep -om1 'rattle-kit-[0-9a-z]*' "$here/README.md")," err
holds 'no kit: and that the empty file is no result' grep -qx "lerc_cli: nothing was run, so $room/out is no result" err
PATH=$without "$program" - decode 2>err </dev/null | cat >out
holds 'no kit: a pipe is no file' sh -c '! grep -q "no result" err'
holds 'no kit: --help needs none' without_kit --help
holds 'no kit: nor does --version' without_kit --version
holds 'no kit: which says so' grep -q "^lerc_cli $(cat "$here/VERSION"), no kit" out
program=$room/place/bin/lerc_cli
holds 'no kit: what is installed needs none' without_kit - decode

# ---- To take away what is not there

"$room/copy/bin/uninstall" "$room/nowhere" >out 2>err
holds 'uninstall: a folder that is none' [ $? -eq 1 ]
holds 'uninstall: is told as one' grep -qx "bin/uninstall: $room/nowhere is no folder, so nothing was taken away" err
mkdir -p kept/bin && : >kept/bin/lerc_cli
holds 'uninstall: one with a file of an install' runs "$room/copy/bin/uninstall" "$room/kept"
holds 'uninstall: tells how many' grep -qx "taken away from $room/kept: 1 files" out
holds 'uninstall: and of one without' runs "$room/copy/bin/uninstall" "$room/kept"
holds 'uninstall: that there were none' grep -qx "taken away from $room/kept: 0 files" out

# ---- Completions

# What bash offers for the last of these words, one behind the other.
cat >complete <<'END_OF_SCRIPT'
. "$1"
shift
COMP_WORDS=("$@")
COMP_CWORD=$(($# - 1))
_futskheri 2>/dev/null
echo "${COMPREPLY[*]}"
END_OF_SCRIPT
offers() {
    wanted=$1
    shift
    offered=$(cd "$room/kept" && bash "$room/complete" "$here/bin/templates/completion.bash" "$@")
    [ "$offered" = "$wanted" ] || { echo "    offered: $offered" >&2; false; }
}
holds 'completion: the commands without a bundle' offers 'encode decode info sample' lerc_cli - ''
holds 'completion: those on a bundle' offers 'build put get list check recover' bin/lerc_cli tiles ''
holds 'completion: of which one is begun' offers recover lerc_cli tiles r
holds 'completion: a path, or a word of help' offers '- --help --version bin' lerc_cli ''
holds 'completion: the version of a put' offers '3 4' lerc_cli tiles put ''
holds 'completion: raw behind a slot' offers raw lerc_cli tiles get 0 1 ''
holds 'completion: a type' offers 'i8 i16 i32' ascii_grid split i
holds 'completion: a command of a level' offers 'put get name' level_cache level ''
holds 'completion: the quarter of an overview' offers '0 1 2 3' overview_tiles from to overview ''
holds 'completion: the commands over streams' offers 'export import' bundle_tiles tiles ''
holds 'completion: which tiles' offers listed bundle_tiles tiles export ''
holds 'completion: the options of an audit' offers 'all strict' tile_audit bundle audit 4 ''
holds 'completion: sources are paths' offers bin bundle_pack target source b
holds 'completion: each program has one' sh -c '[ "$(bash -c ". \"\$1\" && complete -p" bash "$1/bin/templates/completion.bash" | wc -l)" -eq 7 ]' sh "$here"

# ---- A terminal

if ! script -qec true /dev/null >/dev/null 2>&1; then
    echo 'skipped: script is not here, or makes no terminal'
else
    script -qec "'$program' - xdecode" typescript >screen 2>&1
    holds 'a terminal: the word that is none' grep -q '^lerc_cli: xdecode is no command' screen
    echo 4 >wait
    script -qec "'$program' one put 4 0 1 <three >out" typescript >screen 2>&1
    holds 'a terminal: progress' grep -q '^lerc_cli put: [0-9]* s, read 3.0 of 3.0 MB' screen
fi

tell
