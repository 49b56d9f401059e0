#!/bin/sh
# Tests examples/level: a GeoTIFF to levels of bundles that GDAL's driver ESRIC opens, and back, with errors, with several
# bands, in metres, feet and degrees, and as GUIDE.md does it with floats; by several tasks, some of
# them killed and run again; and the same tasks on a cluster of Dask's. It takes the programs of bin/, or of the folder
# that it is given. Skipped with a word where what it needs is not there. Its last line is 'N passed, M failed'.
set -u
here=$(cd "$(dirname "$0")/.." && pwd) || exit 1
. "$here/tests/lib.sh"
PYTHON=$(python_with_numpy)
if [ -z "$PYTHON" ] || ! command -v cc >/dev/null 2>&1; then
    echo 'level: skipped, no Python with numpy or no C compiler is there'
    exit 0
fi
has_gdal || exit 0
FUTSKHERI_BIN=$(cd "${1:-$here/bin}" && pwd) || exit 1
FUTSKHERI_LIBRARY=${FUTSKHERI_LIBRARY:-$("$here/bin/build_c" shared)} || exit 1
PYTHONPATH=$here/examples/level:$here/python
PYTHONDONTWRITEBYTECODE=1
export PYTHON FUTSKHERI_BIN FUTSKHERI_LIBRARY PYTHONPATH PYTHONDONTWRITEBYTECODE
begin
DASK_TEMPORARY_DIRECTORY=$room
export DASK_TEMPORARY_DIRECTORY
"$PYTHON" "$here/tests/level_cases.py"
