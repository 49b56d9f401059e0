#!/bin/sh
# Builds the examples in C over libfutskheri.a and runs them, and then the cases of tests/c_cases.c, whose last line is
# 'N passed, M failed'. Where there is no C compiler it says so and passes.
set -u
here=$(cd "$(dirname "$0")/.." && pwd) || exit 1
. "$here/tests/lib.sh"
if ! command -v cc >/dev/null 2>&1; then
    echo "c_example: skipped, no C compiler is there"
    exit 0
fi
begin
library=$("$here/bin/build_c") || exit 1
over() {
    cc -std=c99 -Wall -Wextra -Werror -DVERSION="\"$(cat "$here/VERSION")\"" -I "$here/include" -o "$room/$1" "$2" "$library"
}
for example in tile from_liblerc; do
    over "$example" "$here/examples/c/$example.c" || exit 1
    "$room/$example" >"$room/given" || exit 1
    if ! cmp -s "$room/given" "$here/examples/c/$example.stdout"; then
        echo "c_example: $example FAILED; it gave" >&2
        cat "$room/given" >&2
        exit 1
    fi
done
echo "c_example: passed"
over cases "$here/tests/c_cases.c" || exit 1
"$room/cases"
