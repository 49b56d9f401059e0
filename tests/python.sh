#!/bin/sh
# Tests python/futskheri over out/libfutskheri.so, or the library that FUTSKHERI_LIBRARY names, beside Esri's library where
# that is installed, and what pip installs into a virtual environment; skipped with a word where no Python with numpy, or no
# C compiler, is there. Its last line is 'N passed, M failed'.
set -u
here=$(cd "$(dirname "$0")/.." && pwd) || exit 1
. "$here/tests/lib.sh"
python=$(python_with_numpy)
if [ -z "$python" ] || ! command -v cc >/dev/null 2>&1; then
    echo "python: skipped, no Python with numpy or no C compiler is there"
    exit 0
fi
FUTSKHERI_LIBRARY=${FUTSKHERI_LIBRARY:-$("$here/bin/build_c" shared)} || exit 1
FUTSKHERI_PROGRAM=${1:-$here/bin/lerc_cli}
PYTHONPATH=$here/python
PYTHONDONTWRITEBYTECODE=1
export FUTSKHERI_LIBRARY FUTSKHERI_PROGRAM PYTHONPATH PYTHONDONTWRITEBYTECODE
exec "$python" "$here/tests/python_cases.py"
