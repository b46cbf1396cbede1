#!/usr/bin/env bash
# Tests the C library after install.sh has installed it from a clone: pkg-config must find it in PREFIX and in DESTDIR, a C
# program must run with it, and --uninstall must remove it. Building the real library takes minutes, so this test uses one
# that has a single function. release.sh and install_proved_program.sh test that a release contains the library.
. "$(dirname "$0")/lib.sh"
for needed in rt pkg-config "${CC:-cc}"; do
    command -v "$needed" > "$work/told" || { echo "$0: skipped, because $needed is not on PATH" && exit; }
done
clone=$work/clone prefix=$work/prefix
copy_tree "$clone"
echo 'unsigned bufr_version(void) { return 1000; }' > "$work/version.c"
"${CC:-cc}" -fPIC -c "$work/version.c" -o "$work/version.o"
ar rc "$work/libbufr_c.a" "$work/version.o"
builds() { # builds COMMANDS: from now on, library/build.sh runs these commands
    printf '#!/bin/sh\n%s\n' "$1" > "$clone/library/build.sh"
}
installs() { "$clone/install.sh" --program "$bufr" --unproved "$@" > "$work/told" 2>&1 || fail "install.sh $*: $(< "$work/told")"; }
refuses() { # refuses TEXT: install.sh says TEXT, and installs nothing in $work/none
    ! "$clone/install.sh" --program "$bufr" --unproved --library "$work/none" > "$work/told" 2>&1 && grep -q "$1" "$work/told" &&
        [ ! -e "$work/none" ] || fail "install.sh --library: $(< "$work/told")"
}

builds 'echo no proof; exit 1'
refuses 'no proof'
CC=$work/none refuses 'requires a C compiler'
builds "exec '$PWD/library/build.sh' --archive '$work/libbufr_c.a' \"\$@\""

# This program is linked once with the shared library and once with the static one, using the flags that pkg-config prints.
cat > "$work/main.c" << 'END_OF_C'
#include <bufr.h>
#include <stdio.h>

int main(void) {
    printf("%u\n", (unsigned)bufr_version());
    return 0;
}
END_OF_C
# runs ROOT: a C program must compile and run with the library in ROOT/lib. The caller sets the variables that tell pkg-config
# where to look.
runs() {
    pkg-config --print-errors --cflags --libs bufr > "$work/flags" || fail 'pkg-config does not find bufr'
    # pkg-config puts backslashes before spaces in the flags, so the shell must evaluate them.
    eval "'${CC:-cc}' -Werror '$work/main.c' $(< "$work/flags") -o '$work/shared'"
    eval "'${CC:-cc}' -Werror '$work/main.c' $(pkg-config --cflags bufr) '$1/lib/libbufr.a' -o '$work/static'"
    [ "$(LD_LIBRARY_PATH=$1/lib "$work/shared")" = 1000 ] && [ "$("$work/static")" = 1000 ] || fail "a C program prints something else"
    ! (unset LD_LIBRARY_PATH && "$work/shared") > "$work/told" 2>&1 || fail "the program does not use the shared library"
}
installs --library "$prefix"
grep -q ', with the C library$' "$work/told" || fail "install.sh does not say that it installed the library: $(< "$work/told")"
grep -qx "library: $(sha256sum < "$prefix/lib/libbufr.a" | cut -c 1-64)" "$prefix/share/doc/bufr/BUILD" || fail 'BUILD has no checksum of the library'
grep -qx "shared library: $(sha256sum < "$prefix/lib/libbufr.so.0" | cut -c 1-64)" "$prefix/share/doc/bufr/BUILD" || fail 'BUILD has no checksum of the shared library'
(
    unset PKG_CONFIG_PATH
    eval "$(sed -n 's/^To find the library with pkg-config.*: export/export/p' "$work/told")"
    runs "$prefix"
    [ "$(pkg-config --modversion bufr)" = "$("$bufr" --version | cut -d ' ' -f 2)" ] || fail 'pkg-config knows another version'
)
# Installing again without --library must remove the library.
installs "$prefix"
! grep -q 'the library' "$work/told" || fail "install.sh without --library says: $(< "$work/told")"
grep -qx 'library: none' "$prefix/share/doc/bufr/BUILD" && grep -qx 'shared library: none' "$prefix/share/doc/bufr/BUILD" || fail 'BUILD names a library that is not installed'
[ ! -e "$prefix/lib" ] && [ ! -e "$prefix/include" ] || fail "install.sh without --library leaves $(find "$prefix/lib" "$prefix/include")"
# install.sh must not overwrite a library that it did not install.
mkdir "$prefix/lib"
echo other > "$prefix/lib/libbufr.a"
! "$clone/install.sh" --program "$bufr" --unproved --library "$prefix" > "$work/told" 2>&1 &&
    grep -qxF "  $prefix/lib/libbufr.a" "$work/told" || fail "install.sh overwrites a library: $(< "$work/told")"
rm -r "${prefix:?}/lib"
installs --library "$prefix"
"$clone/install.sh" --uninstall "$prefix" > "$work/told"
[ ! -e "$prefix" ] || fail "--uninstall leaves $(find "$prefix")"

# With DESTDIR, bufr.pc must name the final location.
export DESTDIR=$work/stage
installs --library '/a place'
(
    export PKG_CONFIG_LIBDIR="$DESTDIR/a place/lib/pkgconfig"
    [ "$(pkg-config --variable=libdir bufr)" = '/a\ place/lib' ] || fail "pkg-config finds the library in $(pkg-config --variable=libdir bufr)"
    PKG_CONFIG_SYSROOT_DIR=$DESTDIR runs "$DESTDIR/a place"
)
"$clone/install.sh" --uninstall '/a place' > "$work/told"
[ -z "$(ls -A "$DESTDIR")" ] || fail "--uninstall leaves $(find "$DESTDIR")"
