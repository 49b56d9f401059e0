#!/bin/sh
# Runs each test of the crate refusal_tests once for each growth of memory that it asks for, with that
# one refused: tests/refuse.c is put before the C library. A run is right that passes, and one whose own
# objects were refused their memory and that says so; anything else is wrong. It builds the tests by
# 'rt test', or takes the built ones that it is given. Each is run three times over: by which workers a growth is asked for,
# and so which has which number, differs from run to run. It needs sh, the core utilities and cc; where
# there is no cc, or the C library has no such names, it says so and passes. Its last line is
# 'N passed, M failed'.
set -u

here=$(cd "$(dirname "$0")/.." && pwd) || exit 1
. "$here/tests/lib.sh"
tests=$(readlink -f "${1:-$here/crates/refusal_tests/out/refusal_tests_tests}")
begin
if ! cc -std=c99 -shared -fPIC -O1 -o refuse.so "$here/tests/refuse.c" 2>why; then
    echo "no growth is refused: there is no cc, or it cannot build tests/refuse.c"
    exit 0
fi
if [ $# -eq 0 ]; then
    (cd "$here/crates/refusal_tests" && rt test) || exit 1
fi

# one test with growth number $2 refused; whether there was one
refused() {
    rm -f hit
    REFUSE=$2 REFUSED=hit LD_PRELOAD="$room/refuse.so" "$tests" "$1" >told 2>&1
    status=$?
    if [ ! -e hit ]; then
        return 1
    fi
    if [ "$status" -eq 0 ] || grep -q AllocError told; then
        passed=$((passed + 1))
    else
        failed=$((failed + 1))
        echo "$1: growth $2: status $status"
    fi
}

"$tests" --list >all || exit 1
sed -n 's/: test$//p' all >names
while read -r name; do
    for turn in 1 2 3; do
        number=1
        while refused "$name" "$number"; do
            number=$((number + 1))
        done
        echo "$name, turn $turn: growths 1 to $((number - 1))"
    done
done <names

tell && [ "$passed" -gt 0 ]
