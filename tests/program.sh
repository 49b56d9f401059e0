#!/bin/sh
# Runs the built program through bin/lerc_cli, or the program that it is given, and compares what it
# ends with, what it gives to standard output and to standard error, and what it leaves of a bundle and
# its journal. It needs sh, the core utilities, od and cmp. Its last line is 'N passed, M failed'.
set -u

here=$(cd "$(dirname "$0")/.." && pwd) || exit 1
. "$here/tests/lib.sh"
program=$(readlink -f "${1:-$here/bin/lerc_cli}")
begin

. "$here/tests/codec.sh"
. "$here/tests/bands.sh"
. "$here/tests/bundles.sh"
. "$here/tests/puts.sh"
. "$here/tests/builds.sh"
. "$here/tests/large.sh"
. "$here/tests/samples.sh"
. "$here/tests/edges.sh"
. "$here/tests/links.sh"
. "$here/tests/gdal.sh"
. "$here/tests/liblerc.sh"

tell
