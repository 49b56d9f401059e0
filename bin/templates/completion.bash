# Completions for bash of the programs of Futskheri. Where they are not installed: . bin/templates/completion.bash

# Offers these words, or with `files` paths.
_futskheri_words() { mapfile -t COMPREPLY < <(compgen -W "$*" -- "${COMP_WORDS[COMP_CWORD]}"); }
_futskheri_files() {
    compopt -o filenames 2>/dev/null
    mapfile -t COMPREPLY < <(compgen -f -- "${COMP_WORDS[COMP_CWORD]}")
}

# Adds these words to those that are offered.
_futskheri_more() {
    local files=("${COMPREPLY[@]}")
    _futskheri_words "$@"
    COMPREPLY+=("${files[@]}")
}

_futskheri() {
    local name=${COMP_WORDS[0]##*/} at=$COMP_CWORD first=${COMP_WORDS[1]-} command=${COMP_WORDS[2]-}
    COMPREPLY=()
    case $name:$at:$command in
    ascii_grid:1:*) _futskheri_words split join --help --version ;;
    ascii_grid:2:*) [ "$first" != split ] || _futskheri_words i8 u8 i16 u16 i32 u32 ;;
    lerc_cli:1:*)
        _futskheri_files
        _futskheri_more - --help --version
        ;;
    lerc_cli:2:*)
        if [ "$first" = - ]; then
            _futskheri_words encode decode info sample
        else
            _futskheri_words build put get list check recover
        fi
        ;;
    lerc_cli:3:encode | lerc_cli:3:build | lerc_cli:3:put | level_cache:3:put) _futskheri_words 3 4 ;;
    lerc_cli:5:get | level_cache:5:get) _futskheri_words raw ;;
    level_cache:2:*) _futskheri_words put get name ;;
    bundle_tiles:2:*) _futskheri_words export import ;;
    bundle_tiles:3:export) _futskheri_words listed ;;
    overview_tiles:3:*) _futskheri_words overview ;;
    overview_tiles:4:*) _futskheri_words 0 1 2 3 ;;
    overview_tiles:5:*) _futskheri_words 3 4 ;;
    tile_audit:2:*) _futskheri_words audit ;;
    tile_audit:4:audit) _futskheri_words all strict ;;
    tile_audit:5:audit) _futskheri_words strict ;;
    level_cache:1:* | overview_tiles:1:* | tile_audit:1:* | bundle_pack:1:* | bundle_tiles:1:*)
        _futskheri_files
        _futskheri_more --help --version
        ;;
    overview_tiles:2:* | bundle_pack:*) _futskheri_files ;;
    esac
}

complete -F _futskheri lerc_cli ascii_grid bundle_pack bundle_tiles level_cache overview_tiles tile_audit
