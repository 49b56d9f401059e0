# What bin/install puts below `prefix`, which is their word, and bin/uninstall takes away; behind building.sh.

answer_words "$@"
prefix=${1-/usr/local}
case $#:$prefix in
[01]:/*) ;;
*)
    echo "usage: bin/${0##*/} [PREFIX], a path that begins with /" >&2
    exit 1
    ;;
esac
target=${DESTDIR-}$prefix

# The shared library's own file, to which its other two names lead.
library_file() { echo "libfutskheri.so.$(version)"; }

# The shared library for processors that have x86-64-v3, by its path below the prefix: there the loader looks first.
v3_library=lib/glibc-hwcaps/x86-64-v3/$(soname)

# Each file, by its path below the prefix: what is called as a program, manual pages, libraries, the header, what pkg-config
# and CMake ask for, the programs themselves with the script that stands in front of each, and completions for bash.
installed() {
    programs | while read -r name crate; do echo "bin/$name"; done
    programs | while read -r name crate; do echo "share/man/man1/$name.1"; done
    printf 'lib/%s\n' libfutskheri.a "$(library_file)" "$(soname)" libfutskheri.so
    [ ! -e "$target/$v3_library" ] || echo "$v3_library"
    echo include/futskheri.h
    printf 'lib/%s\n' pkgconfig/futskheri.pc cmake/futskheri/futskheri-config.cmake \
        cmake/futskheri/futskheri-config-version.cmake
    programs | while read -r name crate; do echo "libexec/futskheri/$name"; done
    echo libexec/futskheri/front.sh
    programs | while read -r name crate; do echo "share/bash-completion/completions/$name"; done
}
