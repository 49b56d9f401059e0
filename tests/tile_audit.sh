#!/bin/sh
# Runs the program that looks at every tile of a bundle through bin/tile_audit, or the program that it is given, and compares
# what it ends with and what it gives with the lines that tests/audit_cases.py has, and with an audit that tests/audit_reading.py
# makes of the same files; and how it ends where an output takes nothing. By strace, where that is here, it is seen that it
# writes no file, and what it tells of a tile that the machine does not read. It needs sh, the core utilities, cmp, od and
# Python 3. Its last line is 'N passed, M failed'.
set -u

here=$(cd "$(dirname "$0")/.." && pwd) || exit 1
. "$here/tests/lib.sh"
program=$(readlink -f "${1:-$here/bin/tile_audit}")
if ! command -v python3 >/dev/null; then
    echo 'tile_audit: skipped, no Python is here'
    exit 0
fi
PYTHONDONTWRITEBYTECODE=1
export PYTHONDONTWRITEBYTECODE
begin

: >nothing
printf '\377\330\377' >picture
{ header 3 0 131143; index 64 131140 3; record picture; } >bundle
{ header 3 0 131148; numbers 5 131140; numbers 3 3; numbers 5 131145; numbers 3 3; zeros 131056; record picture; numbers 4 3; printf GIF; } >two

lines() {
    printf '0\t0\t131140\t3\tffffffff\tforeign\t-\t-\t-\t-\t-\t-\t-\t-\n' >wanted
    printf 'tiles 1\nbytes 3\nwhole 0\nsummed 0\nforeign 1\nunread 0\ndamaged 0\npixels 0\n' >>wanted
}
lines
expect 'a bundle of one picture' 0 wanted '' plainly bundle audit 1
expect 'and strictly' 9 wanted 'damaged: 1 of 1 tiles' plainly bundle audit 1 strict
expect 'through a link' 0 wanted '' through_a_link "$room/bundle" audit 1
expect 'no error output' 9 wanted '' error_closed bundle audit 1 strict
expect 'an error output that takes nothing' 9 wanted '' error_full bundle audit 1 strict
expect 'no output' 4 nothing 'output failed' output_closed bundle audit 1
expect 'an output that takes nothing' 4 nothing 'output failed' output_full bundle audit 1
expect 'no output, where the words are wrong' 1 nothing 'usage: PATH audit N [all] [strict]' output_closed bundle audit
expect 'no output, where the bundle is refused' 7 nothing 'store: NoBundle' output_closed nothing audit 1
tells_behind 'which is told by its path' 'in nothing'
expect 'a folder that is not there' 7 nothing 'store: NoBundle' plainly nowhere/bundle audit 1
tells_behind 'which is told' 'in nowhere/bundle'
mkdir folder
expect 'a folder in its place' 5 nothing 'volume failed' plainly folder audit 1
tells_behind 'which is told, too' 'in folder: Is a directory (os error 21)'

if strace -o /dev/null true 2>/dev/null; then
    built=$(built_of tile_audit_main)
    strace -f -o calls "$built" two audit 2 all >out 2>err
    count 'it makes no file, and writes, cuts and syncs none' \
        "$(grep -E 'O_CREAT|O_TRUNC|pwrite|ftruncate|sync|unlink|rename' calls | grep -qv ENOENT && echo no || echo yes)"
    # Each read of the bundle fails in turn: before the index is read the volume fails, and behind that one tile is not read.
    reads=$(grep -cE '^[0-9 ]*(read|pread64)\(' calls)
    told=0
    call=1
    while [ "$call" -le "$reads" ]; do
        strace -f -o /dev/null -P "$room/two" -e "inject=read,pread64:error=EIO:when=$call" "$built" two audit 2 all >out 2>err
        case $? in
        5) [ ! -s out ] && [ "$(head -n 1 err)" = 'volume failed' ] || told=wrong ;;
        9) [ "$(grep -c Failed out)" -eq 1 ] && [ "$(wc -l <out)" -eq 10 ] && told=$((told + 1)) ;;
        0) ;;
        *) told=wrong ;;
        esac
        call=$((call + 1))
    done
    count 'a read that fails is told of its tile' "$([ "$told" != wrong ] && [ "$told" -ge 2 ] && echo yes || echo no)"
else
    echo 'tile_audit: no strace is here, the calls of the machine are not looked at'
fi

python3 "$here/tests/audit_cases.py" "$program" >cases
grep -v '^ok: ' cases | sed '$d'
tail -n 1 cases | { read -r more _ less _; echo "$((passed + more)) passed, $((failed + less)) failed"; [ $((failed + less)) -eq 0 ]; }
