#!/bin/sh
# Tests examples/audit: a cache of bundles audited by several tasks, stopped, gone on with and compared with earlier results,
# with bin/tile_audit, or the program of the folder that it is given. Skipped with a word where Python is not here. Its last line is 'N passed, M
# failed'.
set -u
here=$(cd "$(dirname "$0")/.." && pwd) || exit 1
. "$here/tests/lib.sh"
if ! command -v python3 >/dev/null; then
    echo 'audit_cache: skipped, no Python is here'
    exit 0
fi
FUTSKHERI_BIN=$(cd "${1:-$here/bin}" && pwd) || exit 1
PYTHONDONTWRITEBYTECODE=1
PYTHONPATH=$here/tests
export FUTSKHERI_BIN PYTHONDONTWRITEBYTECODE PYTHONPATH
begin

# Makes the bundle of this path, of these tiles of tests/audit_cases.py.
bundle() { python3 -c 'import sys; path, tiles = sys.argv[1:]; sys.argv[1:] = []; import audit_cases as c; open(path, "wb").write(c.bundle_of(eval(tiles, vars(c))))' "$1" "$2"; }

# A case: the script, with these words, ends with this status and gives what is in the file `wanted`.
audits() {
    name=$1 status=$2
    shift 2
    "$here/examples/audit/audit_cache" "$@" >out 2>err
    got=$?
    if [ "$got" -eq "$status" ] && cmp -s out wanted; then count "$name" yes; else
        count "$name" no
        echo "    status $got" >&2
        diff wanted out >&2
        cat err >&2
    fi
}
totals() { printf 'tiles %s\nbytes %s\nwhole %s\nsummed %s\nforeign %s\nunread %s\ndamaged %s\npixels %s\n' "$@" >wanted; }
told() { if [ "$(tail -n 1 err)" = "$2" ]; then count "$1" yes; else count "$1" no; cat err >&2; fi; }

mkdir -p cache/L05 "cache/L 06"
bundle cache/L05/R0000C0000.bundle '{0: STEPS, 7: FLOATS}'
bundle cache/L05/R0080C0000.bundle '{1: STEPS, 9: b"GIF"}'
bundle "cache/L 06/it's.bundle" '{3: DEPTHS}'
totals 5 319 3 1 1 0 0 12
audits 'three bundles' 0 cache results 2
told 'are told as they end' '3 of 3 bundles, 0 damaged'
audits 'nothing is owed' 0 cache results
count 'so no bundle is told' "$([ -s err ] && echo no || echo yes)"
printf 'L05/R0080C0000\t0\t9\t131216\t3\tffffffff\tforeign\t-\t-\t-\t-\t-\t-\t-\t-\n' >>wanted
audits 'strictly' 9 --strict cache results
rm "results/L 06/it's.tsv"
echo half >"results/L05/R0000C0000.tsv.part"
totals 5 319 3 1 1 0 0 12
audits 'what was stopped goes on' 0 cache results
told 'with what is owed' '1 of 1 bundles, 0 damaged'
cp -r results old

# A tile is damaged while nobody writes, one is put, and one is gone.
touch -r cache/L05/R0000C0000.bundle kept
bundle cache/L05/R0000C0000.bundle '{0: turned(STEPS, 570), 7: FLOATS}'
touch -r kept cache/L05/R0000C0000.bundle
sleep 1
bundle "cache/L 06/it's.bundle" '{3: STEPS, 4: STEPS}'
bundle cache/L05/R0080C0000.bundle '{9: b"GIF"}'
rm results/L05/R0000C0000.tsv
totals 5 302 2 1 1 0 1 8
{
    printf 'L05/R0000C0000\t0\t0\t131140\t72\t53a9a059\tdamaged\tBadChecksum\t10\t-\t-\t-\t-\t-\t-\n'
    printf 'changed L05/R0000C0000 0 0\ngone L05/R0080C0000 0 1\n'
} >>wanted
audits 'what is damaged, changed and gone' 9 --against old cache results 3
told 'of three that were owed' '3 of 3 bundles, 1 damaged'
rm cache/L05/R0000C0000.bundle
printf 'no bundle' >cache/L05/R0100C0000.bundle
totals 3 147 2 0 1 0 0 8
printf 'gone L05/R0000C0000 0 0\ngone L05/R0000C0000 0 7\ngone L05/R0080C0000 0 1\n' >>wanted
audits 'a bundle that is gone, and one that is none' 7 --against old cache results 3
count 'which is told' "$(grep -qx 'L05/R0100C0000: store: BadBundle at 9 found 9, in cache/L05/R0100C0000.bundle (status 7)' err && echo yes || echo no)"
: >wanted
audits 'no folder' 1 nowhere results
totals 3 147 2 0 1 0 0 8
rm cache/L05/R0100C0000.bundle
audits 'all again' 0 --days 0 cache results 1

# The same as tasks of a cluster of Dask's, of this machine.
python=
for one in ${PYTHON:-python3} /usr/bin/python3; do
    if "$one" -c 'import distributed' 2>/dev/null; then
        python=$one
        break
    fi
done
if [ -n "$python" ]; then
    DASK_TEMPORARY_DIRECTORY=$room
    export DASK_TEMPORARY_DIRECTORY
    bundle cache/L05/R0000C0000.bundle '{0: turned(STEPS, 570)}'
    totals 4 219 2 0 1 0 1 8
    printf 'L05/R0000C0000\t0\t0\t131140\t72\t53a9a059\tdamaged\tBadChecksum\t10\t-\t-\t-\t-\t-\t-\n' >>wanted
    "$python" "$here/examples/audit/with_dask.py" --days 30 cache results local >out 2>err
    count 'a bundle that is owed, by Dask' "$([ $? -eq 9 ] && cmp -s out wanted && grep -qx '1 of 1 bundles' err && echo yes || { cat out err >&2; echo no; })"
    "$python" "$here/examples/audit/with_dask.py" cache results >out 2>err
    count 'and then none' "$([ $? -eq 9 ] && cmp -s out wanted && ! [ -s err ] && echo yes || echo no)"
    rm -r results
    "$python" "$here/examples/audit/with_dask.py" --strict cache results >out 2>err
    count 'all, strictly, by Dask' "$([ $? -eq 9 ] && grep -q 'foreign' out && grep -qx '3 of 3 bundles' err && echo yes || { cat out err >&2; echo no; })"
else
    echo 'audit_cache: no Dask is here, examples/audit/with_dask.py is not tried'
fi
tell
