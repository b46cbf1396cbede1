#!/bin/sh
# Builds the C library. See --help.
set -eu
umask 022
unset CDPATH

usage() {
    cat << END
usage: $0 [--archive FILE] FOLDER

Builds libbufr.so, libbufr.a and bufr.pc in FOLDER from the proved crate bufr_c, and copies bufr.h to FOLDER. Run rt ci
first: the crates that bufr_c depends on must already be proved in this clone. This script then proves bufr_c again,
which takes a few minutes. It needs the toolchain, a C compiler (\$CC; default: cc) and the programs ar, ld and objcopy from
GNU binutils.

options:
  --archive FILE  use this libbufr_c.a instead of proving bufr_c
END
}

die() {
    echo "$0: $1" >&2
    exit "${2:-1}"
}

archive=''
while [ $# -gt 0 ]; do
    case $1 in
        -h | --help) usage && exit ;;
        --archive)
            [ $# -gt 1 ] || die '--archive needs a FILE' 2
            [ -f "$2" ] || die "the archive '$2' does not exist or is not a regular file"
            archive=$(realpath -- "$2")
            shift
            ;;
        -*) die "unknown option $1; see $0 --help" 2 ;;
        *) break ;;
    esac
    shift
done
[ $# -eq 1 ] && [ -n "$1" ] || die "expected one FOLDER; see $0 --help" 2
here=$(cd "$(dirname "$0")" && pwd)
top=$(dirname "$here")
mkdir -p "$1"
folder=$(cd "$1" && pwd)
command -v rt > /dev/null || die 'the toolchain (rt) is not on PATH'
kit=$(dirname "$(rt doc)")
work=$(mktemp -d)
trap 'rm -r "$work"' EXIT
trap 'exit 1' HUP INT TERM

# deps CRATE: prints the libraries that crates.txt lists for this crate.
deps() { sed -n "s/^$1\( staticlib\)\{0,1\}: *//p" "$top/crates.txt"; }

# build: proves bufr_c from the proved crates that it depends on, and compiles it.
build() {
    set -- --crate-name bufr_c src/lib.rt --crate-type staticlib --extern "std=$kit/rlibs/std.rlib" -L "dependency=$kit/rlibs"
    for name in $(deps bufr_c); do
        rlib=$top/crates/$name/out/rlib
        [ -d "$top/crates/$name" ] || rlib=$kit/rlibs
        [ -d "$rlib/$name.rlib" ] || die "the crate $name is not proved; run rt ci at the top of the repository first"
        set -- "$@" --extern "$name=$rlib/$name.rlib"
    done
    for rlib in "$top"/crates/*/out/rlib; do
        set -- "$@" -L "dependency=$rlib"
    done
    (cd "$top/crates/bufr_c" && "$kit/bin/rattle" build "$@" --antt-project "$kit/rattle/logic/antt-project.json" \
        --logic-built "$kit/logic_built" --toolchain "$kit/toolchain" -o "$work/libbufr_c.a") >&2
}

if [ -n "$archive" ]; then
    cp "$archive" "$work/libbufr_c.a"
else
    build || die 'bufr_c was not built; see the output above'
fi
cd "$work"
# A single object contains the library and the toolchain's allocator, which calls malloc, realloc and free. Only the library's
# functions are global symbols, so that no other symbol can clash with one in the user's program.
ld -r -o bufr.o --whole-archive libbufr_c.a --no-whole-archive "$kit/c/liblibc_c.a"
objcopy --wildcard --keep-global-symbol='bufr_*' bufr.o
ar rcD libbufr.a bufr.o
"${CC:-cc}" -shared -o libbufr.so.0 -Wl,-soname,libbufr.so.0 -Wl,-z,defs -Wl,--build-id=none bufr.o
ln -s libbufr.so.0 libbufr.so
cat > bufr.pc << 'END'
prefix=${pcfiledir}/../..
libdir=${prefix}/lib
includedir=${prefix}/include

Name: bufr
Description: Lists, dumps, encodes and reads FM 94 BUFR messages
Version: 0.1.0
Libs: -L${libdir} -lbufr
Cflags: -I${includedir}
END
cp "$here/bufr.h" .
cp -P libbufr.a libbufr.so libbufr.so.0 bufr.pc bufr.h "$folder"
