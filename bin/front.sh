# What stands in front of a program, in bin/ and where it is installed: its help, and where these are asked for locks and
# progress. Nothing of it is proved. The program takes the place of the script by `exec`, so its number, its status and
# its signals are its own. Locks and progress want Linux' /proc, locks the command flock of util-linux, too.

# Whether somebody looks on: FUTSKHERI_PROGRESS is 1, or standard error is a terminal and it is not 0.
is_watched() { [ "${FUTSKHERI_PROGRESS-}" = 1 ] || { [ -t 2 ] && [ "${FUTSKHERI_PROGRESS-}" != 0 ]; }; }

# Answers --help, -h and --version, alone: by a manual page, and by the function `tell_version` of the script that takes
# these. Else it does nothing.
answer_help() {
    local page=$1
    shift
    case $#:${1-} in
    1:--help | 1:-h) show_page "$page" ;;
    1:--version) tell_version ;;
    *) return 0 ;;
    esac
    exit
}

# Shows a manual page: by man where it is there, else as it stands.
show_page() {
    if command -v man >/dev/null 2>&1; then
        MANPAGER=cat MANWIDTH=${MANWIDTH:-80} man -l "$1"
    else
        cat "$1"
    fi
}

# Becomes a program: its name, its file, and its words. Where files may not grow so far (ulimit -f) a write of it fails, as
# one to a pipe that nobody reads does, and no signal ends it before it has said so.
become() {
    local name=$1 file=$2
    shift 2
    trap '' XFSZ
    if is_watched && lacks_command "$name" "$@"; then
        "$file" "$@"
        end_with_hint $? "$name"
    fi
    find_bundles "$name" "$@"
    if [ "${FUTSKHERI_LOCK-}" = 1 ] && [ ${#bundles[@]} -gt 0 ]; then lock_bundles "$name"; fi
    if is_watched && takes_long "$name" "$@"; then begin_progress "$name${taking:+ $taking}"; fi
    exec "$file" "$@"
}

# ---- Words that are no command

# The word that is to be a program's command: its place among the words, and the words that there are. Nothing of a
# program that has none.
commands_of() {
    case $1 in
    lerc_cli) echo 2 encode decode info build put get list check recover sample ;;
    ascii_grid) echo 1 split join ;;
    bundle_tiles) echo 2 export import ;;
    level_cache) echo 2 put get name ;;
    overview_tiles) echo 3 overview ;;
    tile_audit) echo 2 audit ;;
    esac
}

# Whether there are no words, or the one that is to be the command is none; `hint` says so then.
lacks_command() {
    local name=$1 place known word
    shift
    hint='no words were given'
    [ $# -gt 0 ] || return 0
    read -r place known < <(commands_of "$name") || return 1
    if [ $# -lt "$place" ]; then
        hint='the command is missing'
        return 0
    fi
    word=${!place}
    case " $known " in *" $word "*) return 1 ;; esac
    printf -v hint '%q is no command' "$word"
}

# Behind the line of a program that found no command, names the word that is none, and the manual page.
end_with_hint() {
    [ "$1" -ne 1 ] || echo "$2: $hint; its manual page, $2(1), is shown by $0 --help" >&2
    exit "$1"
}

# ---- Locks

# The bundles that a program with these words works at, into `bundles`. Each command on a bundle recovers it, which
# writes, so each is among them; an audit reads alone, and waits here for those that write.
find_bundles() {
    local name=$1
    shift
    bundles=()
    case $name:${2-} in
    lerc_cli:build | lerc_cli:put | lerc_cli:get | lerc_cli:list | lerc_cli:check | lerc_cli:recover) bundles=("$1") ;;
    bundle_tiles:export | bundle_tiles:import) bundles=("$1") ;;
    level_cache:put) add_bundle_at "$1" "${5-}" "${6-}" ;;
    level_cache:get) add_bundle_at "$1" "${3-}" "${4-}" ;;
    bundle_pack:?*) bundles=("$@") ;;
    overview_tiles:?*) bundles=("$1" "$2") ;;
    tile_audit:audit) bundles=("$1") ;;
    esac
}

# The bundle of a level's folder that has the tile in this row and column, if these are numbers.
add_bundle_at() {
    local name
    [[ $2 =~ ^(0|[1-9][0-9]{0,9})$ && $3 =~ ^(0|[1-9][0-9]{0,9})$ ]] || return 0
    printf -v name 'R%04xC%04x.bundle' $(($2 / 128 * 128)) $(($3 / 128 * 128))
    bundles=("$1/$name")
}

# Takes the lock on the file BUNDLE.lock of each bundle, which it makes. The program has the locks with the open files, and they
# are free when it has ended, however it ends. Of several files the one with the least number comes first, so that no two
# programs wait for each other. A file that was open before, as one that `flock BUNDLE.lock` hands on, is taken as it is.
lock_bundles() {
    local name=$1 path file key lock
    local -A files=() paths=()
    command -v flock >/dev/null 2>&1 || end_unlocked "$name" 'the command flock is not here'
    for path in "${bundles[@]}"; do
        file=$path.lock
        # Where there is no folder there is no bundle, which the program says.
        case $path in '' | -) continue ;; */*) [ -d "${path%/*}/" ] || continue ;; esac
        { exec {lock}>>"$file"; } 2>/dev/null || end_unlocked "$name" "$file cannot be made or opened"
        key=$(stat -L -c %d:%i "/proc/$$/fd/$lock") || end_unlocked "$name" "$file cannot be looked at"
        if [ -n "${files[$key]-}" ]; then
            exec {lock}>&-
            continue
        fi
        files[$key]=$(open_before "$file" "$lock")
        paths[$key]=$file
        [ "${files[$key]}" = "$lock" ] || exec {lock}>&-
    done
    for key in $(printf '%s\n' "${!files[@]}" | LC_ALL=C sort); do
        lock=${files[$key]}
        flock -n "$lock" && continue
        ! is_watched || echo "$name: waiting for ${paths[$key]}" >&2
        flock "$lock" || end_unlocked "$name" "${paths[$key]} cannot be locked"
    done
}

# The number by which a file was open before this script opened it, or else this number.
open_before() {
    local each
    for each in "/proc/$$/fd"/*; do
        if [ "${each##*/}" != "$2" ] && [ "$each" -ef "$1" ]; then
            echo "${each##*/}"
            return
        fi
    done
    echo "$2"
}

end_unlocked() {
    echo "$1: $2, so nothing was run (FUTSKHERI_LOCK is 1)" >&2
    exit 73
}

# ---- Progress

# Whether a program with these words may take long and tell nothing meanwhile; `taking` is its command then.
takes_long() {
    taking=''
    case $1:${3-} in
    lerc_cli:build | lerc_cli:put | bundle_tiles:export | bundle_tiles:import) taking=$3 ;;
    bundle_pack:?*) ;;
    overview_tiles:?*) [ "${4-}" = overview ] ;;
    tile_audit:audit) taking=$3 ;;
    *) return 1 ;;
    esac
}

# Begins to tell on standard error how far this process is, under a name, for as long as it lasts. What tells it reads a
# pipe whose other end this process holds, and the program that it becomes: so it ends with that, however it ends.
begin_progress() {
    local alive size=''
    [ -r /proc/$$/io ] && [ -e /proc/$$/fd/0 ] && [ -e /proc/$$/fd/1 ] || return 0
    [ ! -f /proc/$$/fd/0 ] || size=$(stat -L -c %s /proc/$$/fd/0)
    exec {alive}> >(tell_progress "$1" $$ "$size" >/dev/null)
}

# A line after 2, 6, 14 and 30 seconds, and then each half minute: what the program has read of its input, by the place in
# it where that is a file of so many bytes, and else what it has read in all; and what it has written in all.
tell_progress() {
    local name=$1 process=$2 size=$3 wait=2 began=$SECONDS at none
    local read_at=0 written_at=0 read_now written_now
    look_at_io "$process" || return
    read_at=$read_now written_at=$written_now
    while :; do
        read -r -t "$wait" none
        [ $? -gt 128 ] && look_at_io "$process" || return
        at=$((read_now - read_at))
        if [ -n "$size" ]; then
            read -r _ at <"/proc/$process/fdinfo/0" || return
        fi
        echo "$name: $((SECONDS - began)) s, read $(megabytes "$at")${size:+ of $(megabytes "$size")} MB, written $(megabytes $((written_now - written_at))) MB" >&2
        wait=$((wait * 2 < 30 ? wait * 2 : 30))
    done
}

# What a process has read and written so far, in bytes.
look_at_io() {
    local word number
    read_now='' written_now=''
    while read -r word number; do
        case $word in rchar:) read_now=$number ;; wchar:) written_now=$number ;; esac
    done 2>/dev/null <"/proc/$1/io"
    [ -n "$written_now" ]
}

# A number of bytes in millions, with one digit behind the point.
megabytes() { echo "$(($1 / 1000000)).$(($1 / 100000 % 10))"; }
