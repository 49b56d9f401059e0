# What the scripts beside this one share: whether something built is younger than its sources, and what is built and
# run then. It sets `root` and the functions.

root=$(cd "$(dirname "$(readlink -f "${BASH_SOURCE[0]}")")/.." && pwd)
. "$root/bin/proving.sh"
. "$root/bin/front.sh"

# The programs: the name of each, and the crate that it is made of.
programs() {
    echo lerc_cli lerc_main
    echo ascii_grid ascii_grid_main
    echo bundle_pack bundle_pack_main
    echo bundle_tiles bundle_tiles_main
    echo level_cache level_cache_main
    echo overview_tiles overview_tiles_main
    echo tile_audit tile_audit_main
}

# How many of the first words of a program's worked example are paths of files that it makes.
made_by() {
    case $1 in
    bundle_pack_main | overview_tiles_main) echo 2 ;;
    bundle_tiles_main) echo 1 ;;
    *) echo 0 ;;
    esac
}

crate_of() { programs | awk -v name="$1" '$1 == name { print $2 }'; }

# Whether a file is there and no source, or folder of sources, is younger: of these crates, or of all.
is_current() {
    local made=$1 crate folders=()
    shift
    [ -e "$made" ] || return
    [ $# -gt 0 ] || folders=("$root"/crates/*/{src,specs,proofs})
    for crate; do folders+=("$root/crates/$crate"/{src,specs,proofs}); done
    [ -z "$(find "$root/crates.txt" "${folders[@]}" -newer "$made" -print -quit 2>/dev/null)" ]
}

# Builds a program where it is missing or older than its sources, which runs it once on its worked example, which may
# have no input, and whose first word may be a file of the example. The files that it makes then stand in a folder of
# their own, which is thrown away.
build_program() {
    local crate=$1 program=$root/crates/$1/out/$1 input=$root/crates/$1/stdin words at
    if ! is_current "$program"; then
        mapfile -t words <"$root/crates/$crate/args"
        scratch=$(mktemp -d)
        for ((at = 0; at < $(made_by "$crate"); at++)); do words[at]=$scratch/${words[at]}; done
        if [ -f "$root/crates/$crate/data/${words[0]-}" ]; then words[0]=$root/crates/$crate/data/${words[0]}; fi
        [ -e "$input" ] || input=/dev/null
        need_kit
        build_by "${0##*/}" "$program" "$crate" "$input" rt run -- "${words[@]}"
    fi
}

# Ends with 69 where the kit is not there, and says what is missing.
need_kit() {
    ! command -v rt >/dev/null 2>&1 || return 0
    cat >&2 <<END_OF_TEXT
${0##*/}: to build it takes rt, which is not on the path.
rt is the command of the Rattle kit, $(kit_wanted), with which this repository is proved and built. The kit is no part of
it: get it from whoever gave you the repository, and put the kit's folder bin on the path. What is installed needs none.
END_OF_TEXT
    tell_empty
    exit 69
}

# The kit that README names.
kit_wanted() { grep -som1 'rattle-kit-[0-9a-z]*' "$root/README.md"; }

# Says of an empty file that standard output goes to that it is no result.
tell_empty() {
    if [ -f "/proc/$$/fd/1" ] && ! [ -s "/proc/$$/fd/1" ]; then
        echo "${0##*/}: nothing was run, so $(readlink "/proc/$$/fd/1") is no result" >&2
    fi
}

# Builds a program, and becomes it, unless --help, -h or --version, alone, asks for something else.
run_program() {
    name=$1
    shift
    answer_help "$root/man/$name.1" "$@"
    local crate
    crate=$(crate_of "$name")
    build_program "$crate"
    become "$name" "$root/crates/$crate/out/$crate" "$@"
}

tell_version() { echo "$name $(version), $(kit_version)"; }

# The kit that is on the path.
kit_version() { rt version 2>/dev/null || echo "no kit on the path"; }

# What a script that is no program says of itself: to --help or -h its first comment, to --version the repository's and the
# kit's.
answer_words() {
    case $#:${1-} in
    1:--help | 1:-h) sed -n '2,/^[^#]/s/^# \{0,1\}//p' "$0" ;;
    1:--version) echo "futskheri $(version), $(kit_version)" ;;
    *) return ;;
    esac
    exit 0
}

version() { cat "$root/VERSION"; }

# The name by which programs ask for the shared library: with the first number of the version.
soname() { echo "libfutskheri.so.$(cut -d. -f1 "$root/VERSION")"; }
