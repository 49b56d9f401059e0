#!/bin/sh
# Installs everything into an empty folder, builds the example in C over what is there in each way that is offered, and
# takes it away again. What has no tool on this machine is skipped with a word. Its last line is 'N passed, M failed'.
set -u
here=$(cd "$(dirname "$0")/.." && pwd) || exit 1
. "$here/tests/lib.sh"
begin

if ! command -v cc >/dev/null 2>&1; then
    echo "install: skipped, no C compiler is there"
    exit 0
fi
has() { command -v "$1" >/dev/null 2>&1 || { echo "install: $1 is not there, its case is skipped"; false; }; }

# Counts a case by a command's status.
holds() {
    name=$1
    shift
    if "$@" >said 2>&1; then count "$name" yes; else count "$name" no; cat said >&2; fi
}

# The example, run with these libraries in reach, gives what it is to give.
runs() { LD_LIBRARY_PATH=$2 "$1" | cmp - "$here/examples/c/tile.stdout"; }

# A script's --help has this word and nothing of a comment's form, and its --version is the repository's and the kit's.
explains() { "$here/bin/$1" --help >told && grep -q "$2" told && ! grep -q '^#' told && [ "$(wc -l <told)" -gt 1 ]; }
names_version() { "$here/bin/$1" --version | grep -q "^futskheri $(cat "$here/VERSION"), rattle"; }
# It refuses two words with its usage alone.
refuses_two() {
    "$here/bin/$1" /one /two >told 2>line
    [ $? -eq 1 ] && [ ! -s told ] && [ "$(wc -l <line)" -eq 1 ] && grep -q "^usage: bin/$1 " line
}
for script in install uninstall build_c; do
    word=PREFIX
    [ "$script" != build_c ] || word=libfutskheri.so
    holds "bin/$script says what it does" explains "$script" "$word"
    holds "and its version" names_version "$script"
    holds "and refuses two words" refuses_two "$script"
done
for script in install uninstall; do
    holds "bin/$script takes no path that begins elsewhere" sh -c '! "$1/bin/$2" place && [ ! -e place ]' sh "$here" "$script"
done
mkdir -p kept/bin
: >kept/bin/lerc_cli
: >kept/bin/other
holds "bin/uninstall takes away what is there of an install, and says how much that was" \
    sh -c '"$1/bin/uninstall" "$2/kept" | grep -qx "taken away from $2/kept: 1 files"' sh "$here" "$room"
holds "and leaves the rest" sh -c '[ -e kept/bin/other ] && [ ! -e kept/bin/lerc_cli ]'
holds "bin/uninstall of a folder that is none says so" sh -c '! "$1/bin/uninstall" "$2/nowhere" 2>line && grep -q "nowhere is no folder" line' sh "$here" "$room"

prefix=$room/place
holds "everything is installed" "$here/bin/install" "$prefix"
holds "and a second time over it" "$here/bin/install" "$prefix"
cp said put
sed '$d' put >paths
# Whether its paths are those of all files that are there, each once, and its last line says what is left to do.
names_files() {
    find "$prefix" ! -type d | sort >there
    sort paths | cmp - there && tail -n 1 put | grep -q "^installed in $prefix; .* ldconfig, or name $prefix/lib in LD_LIBRARY_PATH\$"
}
holds "it ends with the path of each file that it put there" names_files
for file in bin/lerc_cli share/man/man1/lerc_cli.1 lib/libfutskheri.a lib/libfutskheri.so include/futskheri.h \
    lib/pkgconfig/futskheri.pc lib/cmake/futskheri/futskheri-config.cmake libexec/futskheri/lerc_cli libexec/futskheri/front.sh \
    share/bash-completion/completions/lerc_cli; do
    echo "$prefix/$file"
done >some
holds "what is called first, then manual pages, libraries, the header, what pkg-config and CMake ask for, programs and completions" \
    sh -c 'grep -Fx -f some paths | cmp - some'

holds "the program is there" sh -c '"$1/bin/lerc_cli" - encode 4 0 <"$2/docs/hill.lgr1" | "$1/bin/lerc_cli" - decode | cmp - "$2/docs/hill.lgr1"' sh "$prefix" "$here"

# What stands in front of the programs (tests/front.sh has more, over stand-ins).
kit=$("$here/bin/install" --version | sed 's/^[^,]*, //')
for called in lerc_cli ascii_grid bundle_pack bundle_tiles level_cache overview_tiles tile_audit; do
    for word in --help -h; do
        holds "$called $word shows its manual page" sh -c '"$1" "$2" | grep -qi "$3"' sh "$prefix/bin/$called" "$word" "$called"
    done
    holds "$called --version tells version and kit" test "$("$prefix/bin/$called" --version)" = "$called $(cat "$here/VERSION"), $kit"
    holds "$called itself is beside them" test -x "$prefix/libexec/futskheri/$called"
    holds "$called has completions" bash -c '. "$1/share/bash-completion/completions/$2" && complete -p "$2"' bash "$prefix" "$called"
done
refuses_none() {
    "$@" >told 2>line </dev/null
    [ $? -eq 1 ] && [ ! -s told ]
}
holds "no words: the program's line alone where nobody looks on" refuses_none "$prefix/bin/lerc_cli"
holds "which is its usage" sh -c '[ "$(wc -l <line)" -eq 1 ] && grep -q "^usage: " line'
holds "a word that is no command, where somebody does" refuses_none env FUTSKHERI_PROGRESS=1 "$prefix/bin/lerc_cli" - xdecode
holds "is named behind the usage, with the manual page" \
    sh -c 'head -n 1 line | grep -q "^usage: " && sed 1d line | grep -qx "lerc_cli: xdecode is no command; its manual page, lerc_cli(1), is shown by $1/bin/lerc_cli --help"' sh "$prefix"
if has flock; then
    holds "a lock is taken where it is asked for" \
        sh -c 'FUTSKHERI_LOCK=1 "$1/bin/lerc_cli" locked list && [ -e locked.lock ] && [ ! -e locked ]' sh "$prefix"
fi

compile() { cc -std=c99 -Wall -Wextra -Werror -o "$1" "$here/examples/c/tile.c" $2; }
if has pkg-config; then
    PKG_CONFIG_PATH=$prefix/lib/pkgconfig
    export PKG_CONFIG_PATH
    holds "C by pkg-config" compile by_config "$(pkg-config --cflags --libs futskheri)"
    holds "and it runs over the shared library" runs ./by_config "$prefix/lib"
    holds "the version is told" test "$(pkg-config --modversion futskheri)" = "$(cat "$here/VERSION")"
fi
holds "C over the archive" compile by_archive "-I $prefix/include $prefix/lib/libfutskheri.a"
holds "and it runs with no library beside it" runs ./by_archive /nowhere
if has cmake; then
    mkdir by_cmake
    cp "$here/examples/c/tile.c" by_cmake/
    cat >by_cmake/CMakeLists.txt <<'END'
cmake_minimum_required(VERSION 3.13)
project(tile C)
find_package(futskheri 0.1 REQUIRED)
foreach(kind shared static)
  add_executable(tile_${kind} tile.c)
  target_link_libraries(tile_${kind} futskheri::${kind})
endforeach()
END
    holds "C by CMake" sh -c 'cmake -S by_cmake -B by_cmake/out -DCMAKE_PREFIX_PATH="$1" && cmake --build by_cmake/out' sh "$prefix"
    holds "and it runs over the shared library it found" runs by_cmake/out/tile_shared ""
    holds "and over the archive" runs by_cmake/out/tile_static /nowhere
fi
if has nm; then
    nm -D --defined-only "$prefix/lib/libfutskheri.so" | awk '{ print $3 }' | sort >names
    grep -o '^[a-z].*futskheri_[a-z_]*(' "$here/include/futskheri.h" | grep -v '^static' | grep -o 'futskheri_[a-z_]*' | sort >wanted
    holds "the shared library has the header's names and no others" cmp names wanted
fi
if has readelf; then
    holds "its soname is the link's" sh -c 'readelf -d "$1/lib/libfutskheri.so" | grep -q "soname: \[$(readlink "$1/lib/libfutskheri.so")\]"' sh "$prefix"
fi

# The shared library for x86-64-v3, beside the other: the loader takes it where the processor has that.
v3=lib/glibc-hwcaps/x86-64-v3/$(readlink "$prefix/lib/libfutskheri.so")
[ -e "$here/out/glibc-hwcaps" ] ||
    holds "none for x86-64-v3 is installed before it is built" test ! -e "$prefix/$v3"
holds "bin/build_c v3 builds it" sh -c '"$1/bin/build_c" v3 | grep -qx "$1/out/glibc-hwcaps/x86-64-v3/libfutskheri.so"' sh "$here"
holds "and everything is installed once more" "$here/bin/install" "$prefix"
cp said put
sed '$d' put >paths
holds "with it among the files" sh -c 'grep -Fqx "$1/$2" paths && [ -e "$1/$2" ]' sh "$prefix" "$v3"
holds "which are all that are there" names_files
if has nm; then
    nm -D --defined-only "$prefix/$v3" | awk '{ print $3 }' | sort >names
    holds "it has the names of the other" sh -c 'nm -D --defined-only "$1/lib/libfutskheri.so" | awk "{ print \$3 }" | sort | cmp - names' sh "$prefix"
fi
if /lib64/ld-linux-x86-64.so.2 --help 2>/dev/null | grep -q 'x86-64-v3 (supported'; then
    cc -std=c99 -o by_loader "$here/examples/c/tile.c" -I "$prefix/include" -L "$prefix/lib" -lfutskheri
    holds "the loader takes it, and the example gives the same" runs ./by_loader "$prefix/lib"
    holds "from its folder" sh -c 'LD_DEBUG=libs LD_LIBRARY_PATH="$1/lib" ./by_loader 2>&1 >told | grep -Fq "init: $1/$2"' sh "$prefix" "$v3"
fi

holds "everything is taken away" "$here/bin/uninstall" "$prefix"
holds "and no file is left" sh -c '[ -z "$(find "$1" ! -type d)" ]' sh "$prefix"
holds "it goes below DESTDIR" env DESTDIR="$room/root" "$here/bin/install" /usr
holds "where the texts say the prefix" grep -q '^prefix=/usr$' root/usr/lib/pkgconfig/futskheri.pc
holds "and is taken away from there" sh -c 'DESTDIR="$1/root" "$2/bin/uninstall" /usr && [ -z "$(find "$1/root" ! -type d)" ]' sh "$room" "$here"

tell
