#!/usr/bin/env bash
# Tests install.sh: the installation must work without the repository, and the links in the documentation must lead to
# installed files.
set -eu
. "$(dirname "$0")/lib.sh"
# The caller's umask and CDPATH must not affect the installation. Here, CDPATH names a directory with another `prefix` and
# another `source`.
top=$PWD prefix=$work/here/prefix
mkdir -p "$work/here" "$work/other"/{prefix,source}
ln -s "$top" "$work/here/source"
ln -s "$bufr" "$work/here/program"
# These table sets, links and bytecode are what a version without a MANIFEST left behind. The set `own` belongs to the user.
older=$prefix/share/bufr/tables doc=$prefix/share/doc/bufr
mkdir -p "$older"/{wmo-38,wmo-39,own} "$doc/tables" "$prefix/share/bufr/__pycache__"
cp tables/wmo-39/*.csv "$older/wmo-38"
cp tables/wmo-39/*.csv "$older/own"
touch "$prefix/share/bufr/__pycache__/bufr_text.pyc"
for set in wmo-38 wmo-39; do ln -s "../../../bufr/tables/$set" "$doc/tables"; done
(
    cd "$work/here"
    umask 077
    CDPATH=$work/other source/install.sh --program program --unproved prefix
) > "$work/told" 2> "$work/errors" || fail "install.sh fails: $(< "$work/errors")"
[ ! -s "$work/errors" ] || fail "install.sh prints $(< "$work/errors")"
grep -q "^installed $("$bufr" --version) (unproved; " "$work/told" || fail "install.sh says: $(< "$work/told")"
[ ! -e "$older/wmo-38" ] && [ ! -e "$prefix/share/bufr/__pycache__" ] || fail "install.sh leaves files of an older version"
[ -s "$older/own/B.csv" ] || fail "install.sh removes a set of the user's own"
[ ! -L "$older/wmo-39/B.csv" ] && cmp "$older/wmo-39/B.csv" tables/wmo-39/B.csv || fail "another set wmo-39"
rm -r "$older/own"
# A second installation must replace the first one, even while the installed program is running, and must not add files.
(cd "$prefix" && find . | sort) > "$work/once"
mkfifo "$work/feed"
"$prefix/bin/bufr" ls < "$work/feed" &
exec 3> "$work/feed"
(
    umask 077
    PATH=$prefix/bin:$PATH PYTHONPATH=$prefix/share/bufr:$work "$top/install.sh" --program "$bufr" --unproved "$prefix"
) > "$work/again" || fail "install.sh fails where it installed before"
[ "$(grep -c 'to your shell profile: ' "$work/told")" -eq 2 ] && ! grep 'to your shell profile: ' "$work/again" || fail "install.sh prints other lines for a shell profile"
exec 3>&-
wait $!
(cd "$prefix" && find . | sort) | diff "$work/once" - || fail "a second installation has other files"
find "$prefix" -type d ! -perm 755 -o -type f ! -perm 644 ! -perm 755 > "$work/modes"
test ! -s "$work/modes" || fail "who did not install them cannot read: $(< "$work/modes")"
for program in "$prefix"/bin/*; do test -x "$program" || fail "$program is no program"; done
find "$prefix" -xtype l > "$work/links"
test ! -s "$work/links" || fail "links to nothing: $(< "$work/links")"
grep -q "^To enable completions in zsh.*fpath=($prefix/share/zsh/site-functions" "$work/told" || fail "install.sh names no fpath"

# The installed documentation must contain every file that its pages may refer to. Each shell must find its completions.
for file in NOTICE *.md docs/*.md {docs/pictures,examples,library/examples}/*.* library/b* scripts/{b*,*.awk} \
    tables/*.{md,py} tables/wmo-*/*.csv; do
    cmp "$file" "$doc/$file" || fail "the documentation has no $file"
done
[ -x "$doc/library/build.sh" ] || fail "library/build.sh is no program"
for place in bash-completion/completions/bufr:bufr.bash zsh/site-functions/_bufr:_bufr; do
    cmp "completions/${place#*:}" "$prefix/share/${place%:*}" || fail "other completions in ${place%:*}"
done

# MANIFEST must list exactly the installed files. With DESTDIR, install.sh must install the same files in that directory, and
# its output must name only the final location.
(cd "$prefix" && find . ! -type d | cut -c 3-) | sort > "$work/installed"
grep -v '/$' "$doc/MANIFEST" | diff - "$work/installed" || fail "MANIFEST lists other files"
ln -s "$top/install.sh" "$work/installer"
(cd "$work" && DESTDIR=stage ./installer --program "$bufr" --unproved /usr) > "$work/staged"
! grep -q stage "$work/staged" || fail "install.sh speaks of DESTDIR: $(< "$work/staged")"
diff -r -x MANIFEST "$prefix" "$work/stage/usr" || fail "DESTDIR gives other files"
mkdir "$work/temporary" "$work/stage/usr/share/bufr/__pycache__"
touch "$work/stage/usr/share/bufr/__pycache__/bufr_text.pyc"
# A removed file does not count as changed: installing again must restore it, and --uninstall must not report it.
rm "$work/stage/usr/share/doc/bufr/README.md"
DESTDIR=$work/stage "$top/install.sh" --program "$bufr" --unproved /usr > "$work/output" 2>&1 || fail "after a file was removed: $(< "$work/output")"
cmp README.md "$work/stage/usr/share/doc/bufr/README.md"
rm "$work/stage/usr/share/doc/bufr/README.md"
TMPDIR=$work/temporary DESTDIR=$work/stage "$top/install.sh" --uninstall /usr > "$work/output" 2>&1
echo 'uninstalled bufr from /usr' | cmp - "$work/output" || fail "--uninstall prints $(< "$work/output")"
[ -z "$(ls -A "$work/temporary")" ] || fail "install.sh leaves temporary files"
[ ! -e "$work/stage/usr" ] || fail "--uninstall with DESTDIR leaves $(find "$work/stage/usr")"
(cd "$prefix" && sha256sum --quiet -c share/doc/bufr/SHA256SUMS) || fail "SHA256SUMS has other sums"
grep -qx 'commit: unknown' "$doc/BUILD" || fail "BUILD ties a program of --program to a commit: $(< "$doc/BUILD")"

# install.sh must reject invalid arguments.
for words in '' '--wrong p' 'p --wrong' 'p q' '--program' '--uninstall'; do
    # shellcheck disable=SC2086
    "$top/install.sh" $words > "$work/output" 2> "$work/errors" && status=0 || status=$?
    [ "$status" -eq 2 ] && [ -s "$work/errors" ] || fail "install.sh $words: status $status"
done
! (cd "$work/other" && "$top/install.sh" --program "$bufr" --unproved '') > "$work/output" 2> "$work/errors" &&
    grep -q 'the installation PREFIX' "$work/errors" || fail "install.sh installs to '': $(< "$work/errors")"
for word in -h --help; do "$top/install.sh" $word | grep -q '^usage: ' || fail "install.sh $word"; done
! "$top/install.sh" --uninstall "$work/nothing" 2> "$work/errors" && grep -q MANIFEST "$work/errors" ||
    fail "install.sh uninstalls what is not installed: $(< "$work/errors")"
! "$top/install.sh" --program "$bufr" --unproved /dev/null/prefix > "$work/output" 2>&1 &&
    grep -q 'if /dev/null/prefix is full, free some space there; if ' "$work/output" || fail "below a file: $(< "$work/output")"
! "$top/install.sh" --program '' --unproved "$work/none" 2> "$work/errors" && grep -qF "the program '' does not exist" "$work/errors" ||
    fail "install.sh accepts an empty FILE: $(< "$work/errors")"

# install.sh must neither overwrite nor remove files that it did not install, files that were edited, or files that are
# reached through a symbolic link in place of a directory.
own=$work/own-files sets=$work/own-files/share/bufr/tables
refuses() { # refuses PLACE: installs nothing, and names what is in the way
    find "$own" "$work/mine" -exec stat -c '%n %s %Y' {} + | sort > "$work/before"
    ! "$top/install.sh" --program "$bufr" --unproved "$own" > "$work/output" 2> "$work/errors" || fail "install.sh overwrites $1"
    grep -qxF "  $own/$1" "$work/errors" && grep -q 'nothing was installed' "$work/errors" || fail "$1: $(< "$work/errors")"
    find "$own" "$work/mine" -exec stat -c '%n %s %Y' {} + | sort | cmp - "$work/before" || fail "a refused installation changes files"
}
mkdir -p "$work/mine" "$sets/wmo-39" "$own/bin"
echo mine > "$sets/wmo-39/B.csv"
refuses share/bufr/tables/wmo-39/B.csv
mv "$sets/wmo-39/B.csv" "$own/bin/bufr"
refuses bin/bufr
rm "$own/bin/bufr"
mkdir "$own/bin/bufr"
refuses bin/bufr/
rmdir "$own/bin/bufr" "$sets/wmo-39"
ln -s "$work/mine" "$sets/wmo-39"
refuses share/bufr/tables/wmo-39/D.csv
rm "$sets/wmo-39"
"$top/install.sh" "$own" --program "$bufr" --unproved > "$work/output"
mv "$sets"/wmo-37/* "$work/mine"
rmdir "$sets/wmo-37"
ln -s "$work/mine" "$sets/wmo-37"
refuses share/bufr/tables/wmo-37/B.csv
echo '# edited' >> "$own/bin/bufr-csv"
refuses bin/bufr-csv
# --uninstall must fail if MANIFEST is missing or damaged, or lists a file outside PREFIX. Unless MANIFEST is missing,
# installing again must fail too. Copying MANIFEST from another installation must solve the problem.
for bad in 'rm -f' 'truncate -s 0' 'truncate -s 3000' 'sed -i 1i../mine/D.csv' 'sed -i 1i/mine/D.csv' 'sed -i 1ibin/../../mine/D.csv'; do
    cp "$doc/MANIFEST" "$own/share/doc/bufr"
    $bad "$own/share/doc/bufr/MANIFEST"
    find "$own" "$work/mine" | sort > "$work/before"
    ! "$top/install.sh" --uninstall "$own" 2> "$work/errors" && grep -qE 'MANIFEST is (missing|damaged); to replace it' "$work/errors" ||
        fail "--uninstall after $bad: $(< "$work/errors")"
    find "$own" "$work/mine" | sort | cmp - "$work/before" || fail "--uninstall after $bad removes files"
    [ "$bad" != 'rm -f' ] || continue
    ! "$top/install.sh" --program "$bufr" --unproved "$own" 2> "$work/errors" && grep -q damaged "$work/errors" ||
        fail "an installation after $bad: $(< "$work/errors")"
done
cp "$doc/MANIFEST" "$own/share/doc/bufr"
"$top/install.sh" --uninstall "$own" > "$work/output"
for place in bin/bufr-csv share/bufr/tables/wmo-37/B.csv; do
    [ -s "$own/$place" ] && grep -qxF "  $own/$place" "$work/output" || fail "--uninstall removes $place, or is silent: $(< "$work/output")"
done
[ "$(find "$own" ! -type d | wc -l)" -eq 2 ] && [ -s "$work/mine/D.csv" ] || fail "after --uninstall: $(find "$own" "$work/mine")"

# An interrupted installation must leave no temporary files.
printf '#!/bin/sh\nexec sleep 60\n' > "$work/slow"
chmod +x "$work/slow"
! TMPDIR=$work/temporary timeout 1 "$top/install.sh" --program "$work/slow" --unproved "$work/interrupted" > "$work/output" 2>&1 ||
    fail "install.sh was not interrupted"
[ -z "$(ls -A "$work/temporary")" ] || fail "an interrupted install.sh leaves temporary files"
grep -q interrupted "$work/output" || fail "an interrupted install.sh says: $(< "$work/output")"

# If an installation stops in the middle, for example because the disk is full, install.sh must say that the user can install
# again or uninstall. The incomplete installation must not contain any programs.
printf '#!/bin/sh\necho bufr 0.1.0\n' > "$work/tiny"
chmod +x "$work/tiny"
stops_in_the_middle() {
    ! (ulimit -f 60 && "$top/install.sh" --program "$work/tiny" --unproved "$work/full") > "$work/output" 2>&1 || fail "no limit"
    [ -s "$work/full/share/bufr/bufr_text.py" ] && [ ! -e "$work/full/share/man" ] || fail "the trial did not end in the middle"
    [ ! -e "$work/full/bin" ] || fail "a part of an installation has $(ls "$work/full/bin")"
    grep -q 'did not finish; install again' "$work/output" || fail "a part of an installation: $(< "$work/output")"
}
stops_in_the_middle
ln -s full "$work/link"
"$top/install.sh" --uninstall "$work/link" > "$work/output" || fail "a part of an installation is not removed"
[ ! -e "$work/full" ] || fail "of a part of an installation remains $(find "$work/full")"
stops_in_the_middle
"$top/install.sh" --program "$bufr" --unproved "$work/full" > "$work/output" || fail "a part of an installation is not repaired"
cmp "$bufr" "$work/full/bin/bufr"
# Installing again must also repair an upgrade that stopped in the middle.
! (ulimit -f 60 && "$top/install.sh" --program "$work/tiny" --unproved "$work/full") > "$work/output" 2>&1 || fail "no limit"
"$top/install.sh" --program "$bufr" --unproved "$work/full" > "$work/output" 2>&1 ||
    fail "an upgrade that ended in the middle is not repaired: $(< "$work/output")"
cmp "$bufr" "$work/full/bin/bufr"
# If the disk is full before install.sh has changed anything, the existing installation must remain intact.
ln -s /dev/full "$work/full/share/doc/bufr/MANIFEST.new"
! "$top/install.sh" --program "$work/tiny" --unproved "$work/full" > "$work/output" 2>&1 || fail "install.sh writes to a full disk"
grep -q 'cannot write .*/MANIFEST (see above)' "$work/output" && ! grep -q 'did not finish' "$work/output" && cmp "$bufr" "$work/full/bin/bufr" ||
    fail "on a full disk: $(< "$work/output")"
if unshare -m true 2> "$work/errors"; then
    # shellcheck disable=SC2016
    ! unshare -m bash -c 'mount -t tmpfs -o size=16k none "$1" && TMPDIR=$1 "$2" --program "$3" --unproved "$4"' - \
        "$work/temporary" "$top/install.sh" "$work/tiny" "$work/none" > "$work/output" 2>&1 &&
        grep -q "if $work/temporary is full, set TMPDIR" "$work/output" || fail "without temporary files: $(< "$work/output")"
fi
# install.sh must remove its temporary files even if the reader of its output has exited.
{ TMPDIR=$work/temporary "$top/install.sh" --uninstall "$work/full" || true; } 2> "$work/errors" | true
[ -z "$(ls -A "$work/temporary")" ] || fail "install.sh without a reader leaves temporary files"
{ sleep 1 && TMPDIR=$work/temporary "$top/install.sh" --program "$bufr" --unproved /dev/null/prefix || true; } 2>&1 | true
[ -z "$(ls -A "$work/temporary")" ] || fail "install.sh without a reader of its errors leaves temporary files"
printf '#!/bin/sh\necho bufr one\n' > "$work/tiny"
for program in /bin/true "$work/tiny"; do
    ! "$top/install.sh" --program "$program" --unproved "$work/full" 2> "$work/errors" && grep -q 'not bufr' "$work/errors" ||
        fail "install.sh installs $program: $(< "$work/errors")"
done
unset BUFR BUFR_TABLES
PATH=$prefix/bin:/usr/bin:/bin:$(dirname "$(command -v python3)"):$PATH
examples=$prefix/share/doc/bufr/examples
cd "$work"

bufr-auto "$examples/synop.bufr" | cmp - "$examples/synop.txt" || fail "bufr-auto: another dump of examples/synop.bufr"
bufr-lacks "$examples/synop.bufr" > lacks || fail "bufr-lacks: $(< lacks)"
bufr dump -B "$prefix/share/bufr/tables/wmo-37/B.csv" -D "$prefix/share/bufr/tables/wmo-37/D.csv" "$examples/buoys.bufr" |
    awk -f "$prefix/share/bufr/table.awk" | grep -c '"TEMPERATURE/AIR TEMPERATURE"' > /dev/null || fail "table.awk: no temperature"
# The commands that bufr-lacks and bufr-auto print for missing tables must use the installed convert.py.
python3 -c "import sys; sys.path.insert(0, '$top/tests'); import lib
sys.stdout.buffer.write(lib.asking(lib.message(b'', lib.words('048001')), 39, 1))" > local
! bufr-lacks local > output 2> errors && grep -q "run: $prefix/share/bufr/tables/convert.py " errors ||
    fail "bufr-lacks on a centre's tables: $(< errors)"
python3 -c "import sys; sys.path.insert(0, '$top/tests'); import lib
sys.stdout.buffer.write(lib.asking(lib.message(b'', lib.words('063255')), 45))" > later
! bufr-auto later > output 2> errors && grep -q "convert them with $prefix/share/bufr/tables/convert.py$" errors ||
    fail "bufr-auto on later tables: $(< errors)"
"$prefix/share/bufr/tables/convert.py" copy "$prefix/share/bufr/tables/wmo-39" &&
    cmp copy/D.csv "$prefix/share/bufr/tables/wmo-39/D.csv" || fail "convert.py: another set"
# The installed scripts must run only the installed program, even if another one is on PATH.
mv "$prefix/bin/bufr" other
! PATH=$work/other:$PATH bufr-auto "$examples/synop.bufr" > output 2> errors && grep -q "cannot run $prefix/bin/bufr: No such" errors ||
    fail "without its program, bufr-auto says: $(< errors)"
mv other/bufr "$prefix/bin"
set=$prefix/share/bufr/tables/wmo-39
bufr-extract category=0 "$examples/synop.bufr" | cmp - "$examples/synop.bufr" || fail "bufr-extract: not the message"
bufr-parallel dump -B "$set/B.csv" -D "$set/D.csv" "$examples/synop.bufr" | cmp - "$examples/synop.txt" ||
    fail "bufr-parallel: another dump of examples/synop.bufr"
count='import bufr_text, sys; print(len(list(bufr_text.dump(sys.argv[1]))))'
named='import bufr_text; bufr_text.rows([], ["AIR TEMPERATURE"])'
(
    unset PYTHONPATH
    eval "$(sed -n 's/^To import bufr_text in Python.*: export/export/p' told)"
    python3 -c "$count" "$examples/synop.bufr" | grep -qx 1
    ! python3 -c "$named" 2> errors && grep -q ' 012001, 012101,' errors
) || fail "bufr_text.py: no message of examples/synop.bufr, or no names, by what install.sh prints"
for script in "$prefix"/bin/bufr-* "$prefix/share/bufr/tables/convert.py" "$prefix/share/bufr/tables/changes.py"; do
    "$script" --help > help 2> errors && test -s help && test ! -s errors || fail "$script --help"
    name=${script##*/}
    case $name in *.py) continue ;; esac
    test -s "$prefix/share/man/man1/$name.1" || fail "$name has no man page"
    bash -c '. "$1/share/bash-completion/completions/$2" && complete -p "$2"' - "$prefix" "$name" > help ||
        fail "$name has no completions"
done

# The commands in the guide must work in an installation.
mkdir own
ln -s "$prefix"/share/doc/bufr/* own
"$top/tests/docs_commands.py" "$prefix/bin/bufr" "$work/own/docs/guide.md" || fail "the guide's commands in an installation"

# The links on the installed pages must lead to installed files.
find "$prefix/share" -name '*.md' | while read -r page; do
    { grep -o '](\([^)#]*\)' "$page" || true; } | cut -c 3- | while read -r link; do
        case $link in '' | http*) continue ;; esac
        test -e "$(dirname "$page")/$link" || echo "$page: $link"
    done
done > missing
test ! -s missing || fail "links that lead nowhere: $(< missing)"
for section in 'SEE ALSO' ENVIRONMENT; do
    grep -q "^\.Sh $section\$" "$prefix/share/man/man1/bufr.1" || fail "the man page has no $section"
done

# The Python package must contain everything that the scripts need, except `bufr` itself.
if python3 -c 'import pip, venv' 2> errors; then
    mkdir source
    cp -r "$top/pyproject.toml" "$top/build_wheel.py" "$top/scripts" "$top/man" "$top/tables" source
    python3 -m venv environment
    (umask 022 && environment/bin/pip install -q --no-index --no-build-isolation ./source) 2> errors || fail "pip: $(< errors)"
    (
        unset PYTHONPATH
        PATH=$prefix/bin:/usr/bin:/bin
        bufr-csv -c 001015 "$examples/synop.bufr" > "$work/csv"
        rm -r "$prefix"/bin/bufr-* "$prefix/share/bufr"
        environment/bin/bufr-auto "$examples/synop.bufr" | cmp - "$examples/synop.txt" || fail "bufr-auto of the package"
        environment/bin/bufr-csv -c 001015 "$examples/synop.bufr" | cmp - "$work/csv" || fail "bufr-csv of the package"
        environment/bin/python -c "$count" "$examples/synop.bufr" | grep -qx 1 || fail "bufr_text of the package"
        ! environment/bin/python -c "$named" 2> errors && grep -q ' 012001, 012101,' errors || fail "bufr_text of the package finds no tables: $(< errors)"
        for script in "$top"/scripts/bufr-*; do
            "environment/bin/${script##*/}" --help > help || fail "${script##*/} of the package"
        done
        environment/bin/pip uninstall -q -y bufr-text
        (umask 022 && environment/bin/pip install -q --no-index --no-build-isolation -e ./source) 2> errors ||
            fail "pip install -e: $(< errors)"
        environment/bin/bufr-auto "$examples/synop.bufr" | cmp - "$examples/synop.txt" || fail "bufr-auto of the checkout"
        environment/bin/python -c "$count" "$examples/synop.bufr" | grep -qx 1 || fail "bufr_text of the checkout"
        version=$(environment/bin/pip list --format freeze | sed -n 's/^bufr-text==/bufr /p')
        [ "$version" = "$(bufr --version)" ] || fail "the package is $version"
    )
else
    echo "$0: pip or venv is not there, the package is not tried"
fi
