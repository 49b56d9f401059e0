# How building.sh has a crate and all that it stands on proved, several crates side by side: `build_by`.
#
# A crate below is proved by `rt lib`, once those that it names are, and the crate itself at the end, by the command
# that is given. While rt works it keeps a crate's folder and those of all below it for itself, so of two proofs over
# one crate the second would wait. Each is made in a small repository of its own for that reason, with links to the
# files of what the crate stands on. What it makes then goes into the crate's own folder, which this build keeps
# meanwhile.

# What the crates of bin/lerc_cli take, proved from nothing: minutes of a processor for all of them; and minutes by the
# clock for the longest chain, in which each crate stands on the one before, so that more processors do not help.
whole_minutes=44
chain_minutes=18

# The build that is under way: the crate that it ends with, and those below, the ones with the longest chain above them
# first. Of each crate: those that it names; whether it is to be proved, as far as times of files tell; its process, and
# how many processors that has; whether it has ended.
last_crate=''
order=()
declare -A uses stale process share ended

# How many processors the build has, when it began, and how many crates were proved since; the folders that it keeps for
# itself, and those of its logs, of the small repositories, and of the files that the last command makes.
processors=1 begun=0 proved=0 held=() logs='' small='' scratch=''

# The lines of crates.txt of a crate and of those below it, the highest first. The file has the lowest first.
lines_for() {
    tac "$root/crates.txt" | awk -v top="$1" '/^[^#]/ {
        split($0, half, ":")
        split(half[1], word, " ")
        if (word[1] != top && !(word[1] in below)) next
        print
        n = split(half[2], list, " ")
        for (i = 1; i <= n; i++) below[list[i]]
    }'
}

# The names of these crates.
names_for() { lines_for "$1" | sed 's/[ :].*//'; }

# How many bytes each source has, and its path from crates/ on.
sizes() {
    (cd "$root/crates" && find . -name out -prune -o \( -name '*.rt' -o -name '*.antt' \) -printf '%s %P\n')
}

# A crate and those below it, a line each, the longest chain first: how many bytes of sources the chain from it upwards
# has, how many it has itself, its name, and the names of those that it uses.
chains_for() {
    { sizes && lines_for "$1"; } | awk '
        /^[0-9]/ { split($2, path, "/"); size[path[1]] += $1; next }
        { split($0, half, ":"); split(half[1], word, " "); name[++count] = word[1]; uses[word[1]] = half[2] }
        END {
            for (at = 1; at <= count; at++) {
                chain = size[name[at]] + above[name[at]]
                text = chain " " (size[name[at]] + 0) " " name[at]
                n = split(uses[name[at]], list, " ")
                for (i = 1; i <= n; i++) {
                    if (!(list[i] in uses)) continue
                    if (chain > above[list[i]]) above[list[i]] = chain
                    text = text " " list[i]
                }
                print text
            }
        }' | sort -k 1,1nr
}

# How many processors the proofs get: as many as there are, and one for each three gigabytes of memory; or as many as
# RT_JOBS says, which `rt ci` goes by, too.
count_processors() {
    if [[ ${RT_JOBS-} =~ ^[1-9][0-9]*$ ]]; then
        echo "$RT_JOBS"
        return
    fi
    awk -v most="$(nproc)" '/^MemAvailable/ {
        n = int($2 / 3000000)
        print n < 1 ? 1 : n < most ? n : most
    }' /proc/meminfo
}

# About how many minutes by the clock the crates take that are to be proved, by their part of what was measured.
count_minutes() {
    {
        chains_for lerc_main | sed 's/^/measured /'
        chains_for "$last_crate"
        printf 'stale %s\n' "${!stale[@]}"
    } | awk -v whole="$whole_minutes" -v longest="$chain_minutes" -v processors="$processors" '
        $1 == "measured" { all += $3; if ($2 > most) most = $2; next }
        $1 == "stale" { sum += size[$2]; if (chain[$2] > high) high = chain[$2]; next }
        { chain[$3] = $1; size[$3] = $2 }
        END {
            minutes = all ? whole * sum / all / processors : 0
            least = most ? longest * high / most : 0
            print 1 + int(minutes > least ? minutes : least)
        }'
}

# Keeps the crates' folders for this build, in the order in which rt does, once no one else works in them.
hold_folders() {
    local crate folder
    for crate in $(names_for "$last_crate" | LC_ALL=C sort); do
        exec {folder}<"$root/crates/$crate"
        held+=("$folder")
        flock -n "$folder" || { echo "waiting for another build in crates/$crate" >&2 && flock "$folder"; }
    done
}

release_folders() {
    local folder
    for folder in "${held[@]}"; do exec {folder}<&-; done
    held=()
}

# Makes a folder in which the repository's files can have links, outside of the repository if there is one, and prints
# its path; or prints nothing, and the last command then proves all crates, one after the other.
make_small() {
    local folder made
    mkdir -p "$root/out"
    for folder in "${TMPDIR:-/tmp}" /var/tmp "$root/out"; do
        made=$(mktemp -d "$folder/futskheri-XXXXXX" 2>/dev/null) || continue
        if ln "$root/crates.txt" "$made/link" 2>/dev/null; then
            echo "$made"
            return
        fi
        rmdir "$made"
    done
}

# Proves a crate in a small repository, on so many processors, and becomes that proof. What earlier proofs of the crate
# left comes along.
prove_crate() {
    local crate=$1 own=$small/$1 each path paths=()
    mkdir -p "$own/crates/$crate" || exit
    [ ! -e "$root/crates/$crate/out" ] || mv "$root/crates/$crate/out" "$own/crates/$crate/" || exit
    lines_for "$crate" >"$own/crates.txt"
    cd "$root/crates" || exit
    for each in $(names_for "$crate"); do
        for path in "$each"/{src,specs,proofs,out/rlib}; do [ ! -e "$path" ] || paths+=("$path"); done
    done
    cp -al --parents "${paths[@]}" "$own/crates/" && cd "$own/crates/$crate" && exec rt lib --jobs "$2"
}

# Brings what a proof made, whole or not, into the crate's own folder.
bring_back() {
    local made=$small/$1/crates/$1/out
    [ -n "$small" ] || return 0
    [ ! -e "$made" ] || { rm -rf "$root/crates/$1/out" && mv "$made" "$root/crates/$1/out"; }
    rm -rf "${small:?}/$1"
}

# Whether a crate waits for nothing but a processor.
is_ready() {
    local below
    [ -z "${process[$1]-}${ended[$1]-}" ] || return
    for below in ${uses[$1]}; do [ -n "${ended[$below]-}" ] || return; done
}

# Begins proofs while there are processors. Each gets one, or those that no other waits for, four at most.
begin_proofs() {
    local ready=() idle=$processors crate
    for crate in "${!share[@]}"; do idle=$((idle - share[$crate])); done
    for crate in "${order[@]}"; do
        if is_ready "$crate"; then ready+=("$crate"); fi
    done
    while [ "$idle" -gt 0 ] && [ ${#ready[@]} -gt 0 ]; do
        crate=${ready[0]}
        share[$crate]=$((idle / ${#ready[@]}))
        [ "${share[$crate]}" -ge 1 ] || share[$crate]=1
        [ "${share[$crate]}" -le 4 ] || share[$crate]=4
        prove_crate "$crate" "${share[$crate]}" >"$logs/$crate" 2>&1 </dev/null &
        process[$crate]=$!
        idle=$((idle - share[$crate]))
        ready=("${ready[@]:1}")
    done
}

# Shows at a terminal what is being proved, and how far the build is, in one line that is written over.
show_line() {
    local crate names=() more=''
    [ -t 2 ] || return 0
    for crate in "${order[@]}" "$last_crate"; do
        if [ -n "${process[$crate]-}" ]; then names+=("$crate"); fi
    done
    [ ${#names[@]} -le 2 ] || more=" and $((${#names[@]} - 2)) more"
    [ ${#names[@]} -eq 0 ] ||
        printf '\r\033[Kproving %s%s%s: %s' "${names[0]}" "${names[1]+, ${names[1]}}" "$more" "$(how_far)" >&2
}

clear_line() { [ ! -t 2 ] || printf '\r\033[K' >&2; }

how_far() { echo "$proved of ${#stale[@]} crates; $((($(date +%s) - begun) / 60)) min"; }

# Notes what has ended. Where that failed its log is shown, and the script ends with 70. Where there is no terminal,
# each crate that was to be proved is told.
note_ends() {
    local crate
    for crate in "${order[@]}" "$last_crate"; do
        if [ -z "${process[$crate]-}" ] || kill -0 "${process[$crate]}" 2>/dev/null; then continue; fi
        if ! wait "${process[$crate]}"; then
            clear_line
            cat "$logs/$crate" >&2
            tell_empty
            exit 70
        fi
        unset "process[$crate]" "share[$crate]"
        ended[$crate]=yes
        bring_back "$crate"
        [ -n "${stale[$crate]-}" ] || continue
        proved=$((proved + 1))
        [ -t 2 ] || echo "proved $crate: $(how_far)" >&2
    done
}

# Waits until something may have ended.
wait_a_while() {
    show_line
    sleep 0.3 &
    wait $! || true
    note_ends
}

# Ends what is at work, and brings what it made where it belongs, however the script ends: by a signal, too.
end_build() {
    local crate
    clear_line
    for crate in "${!process[@]}"; do kill "${process[$crate]}" 2>/dev/null || true; done
    for crate in "${!process[@]}"; do
        wait "${process[$crate]}" 2>/dev/null || true
        bring_back "$crate"
    done
    rm -rf "$logs" ${small:+"$small"} ${scratch:+"$scratch"}
    scratch=''
}

# Finds what there is below the crate to be built, and what of all is to be proved, and says so under this name.
plan_build() {
    local crate below
    order=() uses=() stale=() process=() share=() ended=() held=() proved=0 small=''
    while read -r _ _ crate below; do
        uses[$crate]=$below
        if [ "$crate" != "$last_crate" ]; then order+=("$crate"); fi
    done < <(chains_for "$last_crate")
    hold_folders
    for crate in "${order[@]}"; do
        # shellcheck disable=SC2046 # (a name is one word)
        is_current "$root/crates/$crate/out/rlib/stamp" $(names_for "$crate") || stale[$crate]=yes
    done
    stale[$last_crate]=yes
    processors=$(count_processors)
    printf '%s: building; crates to prove: %d, processors: %d, about %d min\n' \
        "$1" ${#stale[@]} "$processors" "$(count_minutes)" >&2
}

# Has a crate proved with all that it stands on, at the end by a command in its folder over this file as its input, and
# tells how far it is. Where that fails its log is shown, and the script ends with 70. What was built is made as old as
# the build's start, so that what was changed meanwhile is younger.
build_by() {
    local name=$1 made=$2 input=$4
    last_crate=$3
    shift 4
    begun=$(date +%s)
    logs=$(mktemp -d)
    : >"$logs/started"
    trap end_build EXIT
    plan_build "$name"
    [ ${#stale[@]} -eq 1 ] || small=$(make_small)
    while [ -n "$small" ] && [ ${#ended[@]} -lt ${#order[@]} ]; do
        begin_proofs
        wait_a_while
    done
    release_folders
    (cd "$root/crates/$last_crate" && exec "$@") >"$logs/$last_crate" 2>&1 <"$input" &
    process[$last_crate]=$!
    while [ -n "${process[$last_crate]-}" ]; do wait_a_while; done
    touch -r "$logs/started" "$made"
    end_build
    trap - EXIT
}
