#!/bin/sh
# Runs the examples of the manual pages, of docs/GUIDE.md and of README, with the built programs or those that stand in the
# folder that it is given, and compares what each gives; and has man read each page, where it is there. Its last line is
# 'N passed, M failed'.
set -u
here=$(cd "$(dirname "$0")/.." && pwd) || exit 1
. "$here/tests/lib.sh"
programs=$(cd "${1:-$here/bin}" && pwd) || exit 1
PATH=$programs:$PATH
export PATH
begin

# The examples of a page: the lines between .EX and .EE, as a reader sees them.
examples_of() { sed -n '/^\.EX$/,/^\.EE$/{/^\.E[XE]$/d;s/^\\&//;s/\\-/-/g;s/\\e/\\/g;p}' "$1"; }

# Runs the commands, which are the lines that begin with '$ ', and gives them with what each gives.
run_examples() {
    while IFS= read -r line; do
        case $line in
        '$ '*)
            printf '%s\n' "$line"
            sh -c "${line#??}" 2>&1 </dev/null
            ;;
        esac
    done
}

for page in "$here"/man/*.1; do
    name=$(basename "$page" .1)
    mkdir "$room/$name"
    cd "$room/$name" || exit 1
    examples_of "$page" >"$room/wanted"
    run_examples <"$room/wanted" >"$room/given"
    if [ -s "$room/wanted" ] && cmp -s "$room/wanted" "$room/given"; then
        count "the examples of $name" yes
    else
        count "the examples of $name" no
        diff "$room/wanted" "$room/given" >&2
    fi
    if command -v man >/dev/null 2>&1 && [ -z "$(LC_ALL=C.UTF-8 MANROFFSEQ='' MANWIDTH=80 man --warnings -E UTF-8 -l -Tutf8 -Z "$page" 2>&1 >/dev/null)" ]; then
        count "man reads the page of $name" yes
    elif command -v man >/dev/null 2>&1; then
        count "man reads the page of $name" no
    fi
    if [ -n "${1:-}" ]; then continue; fi
    for word in --help -h; do
        "$here/bin/$name" $word >"$room/help" && grep -q "$name" "$room/help"
        count "$name $word shows its page" "$([ $? -eq 0 ] && echo yes || echo no)"
    done
    "$here/bin/$name" --version >"$room/version" && grep -q "^$name $(cat "$here/VERSION"), rattle-kit" "$room/version"
    count "$name --version tells both" "$([ $? -eq 0 ] && echo yes || echo no)"
done

# ---- CHANGELOG

count 'CHANGELOG begins with the version' "$([ "$(sed -n 's/^## //p' "$here/CHANGELOG.md" | head -n 1)" = "$(cat "$here/VERSION")" ] && echo yes || echo no)"

# ---- docs/GUIDE.md

# Its commands that are followed by what they give: each pair of blocks between which stands 'gives', or 'gives these
# lines:', becomes the files N.sh and N.wanted, N being the line in which the commands begin.
pairs_of() {
    awk -v into="$2" '
        /^    / {
            if (!inside) { before = block; from = start; block = ""; start = NR; inside = 1 }
            block = block substr($0, 5) "\n"
            next
        }
        inside && /^$/ { blank = 1; inside = 0; tell_pair(); text = ""; next }
        { inside = 0; if ($0 != "") text = text (text == "" ? "" : " ") $0 }
        END { tell_pair() }
        function tell_pair() {
            if (text == "gives" || text == "gives these lines:") {
                printf "%s", before >(into "/" from ".sh")
                printf "%s", block >(into "/" from ".wanted")
            }
        }' "$1"
}
mkdir "$room/pairs" "$room/guide"
pairs_of "$here/docs/GUIDE.md" "$room/pairs"
cd "$room/guide" || exit 1
ln -s "$programs" bin
ln -s "$here/docs" "$here/examples" .
gdal=no
if has_gdal; then gdal=yes; fi
for commands in $(cd "$room/pairs" && ls -- *.sh | sort -n); do
    wanted=$room/pairs/${commands%.sh}.wanted
    # Levels of bundles, which take minutes, are tests/level.sh, and what is Python's is tests/python.sh.
    if grep -q -e make_levels -e python "$room/pairs/$commands"; then continue; fi
    if [ "$gdal" = no ] && grep -q 'gdal' "$room/pairs/$commands"; then continue; fi
    if [ "$(head -c 2 bin/lerc_cli)" != '#!' ] && grep -q FUTSKHERI "$room/pairs/$commands"; then continue; fi
    sh "$room/pairs/$commands" >"$room/given" 2>&1 </dev/null
    if cmp -s "$wanted" "$room/given"; then
        count "GUIDE, line ${commands%.sh}" yes
    else
        count "GUIDE, line ${commands%.sh}" no
        diff "$wanted" "$room/given" >&2
    fi
done
count 'GUIDE has examples' "$([ "$(ls "$room/pairs" | wc -l)" -ge 16 ] && echo yes || echo no)"

# ---- README

# Whether README has these lines as what a command gives.
in_readme() { sed 's/^/    /' "$room/given" | while IFS= read -r line; do grep -Fqx -- "$line" "$here/README.md" || exit 1; done; }
lerc_cli - encode 3 1 <docs/hill.lgr1 >hill.lerc2
lerc_cli - info <hill.lerc2 | paste -sd , >"$room/given"
count 'README: the hill' "$([ -s "$room/given" ] && in_readme && echo yes || echo no)"
lerc_cli - decode <hill.lerc2 | od -An -td2 -j81 -N16 >"$room/given"
count 'README: its first heights' "$([ -s "$room/given" ] && in_readme && echo yes || echo no)"
{ lerc_cli tiles.bundle check && lerc_cli tiles.bundle list | sed -n 1,3p && lerc_cli tiles.bundle get 0 1 raw | lerc_cli - info; } >"$room/given" 2>&1
count 'README: a bundle of your own' "$(grep -qx 'bad 0' "$room/given" && grep -qx 'image .*' "$room/given" && echo yes || echo no)"

tell
