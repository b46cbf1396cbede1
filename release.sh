#!/usr/bin/env bash
# Makes a release of the current commit: an archive that can be installed without the toolchain, a wheel, and checksums.
# If the program is proved, the archive and the wheel contain the C library.
#
#     ./release.sh [DIST]                         proves everything from scratch, which takes one to two hours
#     ./release.sh --unproved PROGRAM [DIST]      packs this program, without the C library, and records in BUILD that
#                                                 it is unproved
#
# The files are written to the directory DIST (default: dist). If a step fails or is interrupted, any files there remain
# unchanged. With the same commit, program and linker, every run makes identical files, in any directory and for any user.
# Uncommitted changes are left out. The proof needs a few GB in TMPDIR (default: /tmp), and the library needs a C compiler.
set -eu -o pipefail
unset CDPATH  # with CDPATH, `cd` could enter another clone
export LC_ALL=C

die() {
    echo "$0: $1" >&2
    exit "${2:-1}"
}
usage() { die 'usage: release.sh [--unproved PROGRAM] [DIST]' 2; }
sum_of() { sha256sum < "$1" | cut -c 1-64; }

case ${1-} in
    -h | --help) sed -n '2,/^set /s/^# \{0,1\}//p' "$0" && exit ;;
esac
program='' proof=proved
if [ "${1-}" = --unproved ]; then
    [ $# -gt 1 ] || usage
    program=$(realpath -e "$2") proof=unproved
    shift 2
fi
case $#${1-} in 0 | 1[!-]*) ;; *) usage ;; esac
dist=$(realpath -m "${1:-$(dirname "$0")/dist}")
cd "$(dirname "$0")"
commit=$(git rev-parse HEAD) || die 'this directory is not a clone of the repository; a release can be made only in a clone'
[ -z "$(git status --porcelain)" ] || echo "$0: the release does not contain the uncommitted changes in this directory" >&2

# leave: stops any command that is still running, and removes the temporary files. A process that rt started may exit a
# moment later than rt and create a file in a directory that the first rm is removing. In that case, the second rm succeeds.
leave() {
    trap '' HUP INT TERM
    kill -- "-$running" 2> /dev/null && wait || true
    rm -rf "$clone" "$work" 2> /dev/null || rm -rf "$clone" "$work"
    [ -n "$is_made" ] || echo "$0: no release was made" >&2
}
# The files are made in a directory inside DIST, so that the last step only renames them. The clone is elsewhere, because
# `rt ci` fails in a repository that contains another repository.
mkdir -p "$dist"
running='' is_made='' work='' clone=''
trap leave EXIT
work=$(mktemp -d "$dist/.unfinished.XXXXXX")
clone=$(mktemp -d -t bufr-release.XXXXXX)
git clone -q --no-checkout . "$clone"
cd "$clone"
# Ignore the user's Git settings, which could change line endings and file modes.
export GIT_CONFIG_GLOBAL=/dev/null GIT_CONFIG_SYSTEM=/dev/null
git checkout -q --detach "$commit"

# prove WORD..: runs a toolchain command, and prints and logs its output. A signal that ends this script also ends the
# command: `wait` returns immediately, whereas the shell would first wait for a command in the foreground. `set -m` gives
# the command its own process group, so that any processes that the command started end with it.
prove() {
    : > "$work/log"
    set -m
    setpriv --pdeathsig TERM "$@" < /dev/null >> "$work/log" 2>&1 &
    running=$!
    set +m
    tail -s 0.1 -n +1 -f --pid=$running "$work/log" &
    wait $running && status=0 || status=$?
    running=''
    wait
    return "$status"
}

logic=$(sed -n 's/.*`logic \([0-9a-f]\{16\}\)`.*/\1/p' README.md | head -n 1)
gate='not run' sources=unknown kit=unknown lib='' library=none shared_library=none
if [ $proof = proved ]; then
    program=crates/bufr/out/bufr
    kit=$(rt version) || die 'the toolchain (rt) is not on PATH; use --unproved PROGRAM to release an unproved program'
    [ "${kit##* }" = "$logic" ] || die "the toolchain is $kit, but README.md names logic $logic"
    command -v "${CC:-cc}" > /dev/null || die "building the C library requires a C compiler, but ${CC:-cc} is not on PATH"
    shopt -s nullglob
    proved=(crates/*/src crates/*/must-fail/*.edit)
    [ -z "$(git ls-files 'crates/*/out/*')" ] || die 'the commit contains files in crates/*/out, which only the toolchain may create; remove them from the repository'
    prove rt ci --anew || die 'the proofs or the tests failed (rt ci); see the output above'
    gate=$(tail -n 1 "$work/log")
    # `rt ci` succeeds even if a must-fail edit is invalid, but does not count that edit.
    [ "$gate" = "${#proved[@]} passed, 0 failed" ] || die "there are ${#proved[@]} crates and must-fail edits, but rt ci reports: $gate"
    sources=$(find HANDLES crates.txt crates -name out -prune -o -type f -print0 | sort -z | xargs -0 sha256sum | sha256sum | cut -c 1-64)
fi
mark=$(grep -aom 1 'rattle logic=[0-9a-f]\{16\}' "$program" | cut -d = -f 2) || mark=none
[ $proof = unproved ] || [ "$mark" = "$logic" ] || die "the program was built with logic $mark, but README.md names logic $logic"
version=$("$program" --version) || die "$program does not run on this machine"
version=${version#bufr }

# The archive contains the whole repository, so that the links in the documentation work.
name=bufr-$version-linux-x86_64
mkdir "$work/$name"
git archive HEAD | tar -x -C "$work/$name"
install -D -m 755 "$program" "$work/$name/bin/bufr"
if [ $proof = proved ]; then
    lib=$work/$name/lib include=$work/$name/include
    prove env TMPDIR="$work" library/build.sh "$lib" || die 'the C library was not built; see the output above'
    mkdir "$include" "$lib/pkgconfig"
    mv "$lib/bufr.h" "$include"
    mv "$lib/bufr.pc" "$lib/pkgconfig"
    library=$(sum_of "$lib/libbufr.a") shared_library=$(sum_of "$lib/libbufr.so.0")
fi
wheel=$(python3 -c 'import build_wheel, sys; print(build_wheel.build_wheel(sys.argv[1], {"library": sys.argv[2]}))' \
    "$work" "${lib:+$lib/libbufr.so.0}")
case $wheel in bufr_text-"$version"-*) ;; *) die "the program has version $version, but the wheel is $wheel" ;; esac
cat > "$work/$name/BUILD" << END
version: $version
commit: $commit
tree: clean
proof: $proof
kit: $kit
logic: $mark
program: $(sum_of "$program")
library: $library
shared library: $shared_library
sources: $sources
gate: $gate
END
(cd "$work/$name" && find . ! -type d ! -name SHA256SUMS -print0 | sort -z | xargs -0 sha256sum > SHA256SUMS)
tar -c -C "$work" --sort=name --format=ustar --owner=0 --group=0 --numeric-owner --mode=u=rwX,go=rX \
    --mtime="@$(git log -1 --format=%ct)" "$name" | gzip -n -9 > "$work/$name.tar.gz"
cd "$work"
sha256sum "$name.tar.gz" "$wheel" > SHA256SUMS
mv -f "$name.tar.gz" "$wheel" SHA256SUMS "$dist"
is_made=yes
echo "$dist/$name.tar.gz ($proof, commit $commit)"
