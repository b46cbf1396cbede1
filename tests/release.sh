#!/usr/bin/env bash
# Tests release.sh. From the same commit, it must make identical files in two directories. The archive must install, run and
# uninstall on a clean machine without compilers, toolchain or network. The release contains the program under test, so it is
# made with --unproved. Without this option, release.sh does the same after proving everything.
. "$(dirname "$0")/lib.sh"

# clone FOLDER: makes a repository whose only commit contains the current files, including uncommitted changes.
clone() {
    copy_tree "$1"
    git -C "$1" init -q -b main
    git -C "$1" add -A
    git -C "$1" -c user.name=test -c user.email=test@localhost commit -q -m 'A commit' --date 2020-02-02T02:02:02Z
}
export GIT_COMMITTER_DATE=2020-02-02T02:02:02Z
clone "$work/one"
clone "$work/another/folder"
"$work/one/release.sh" --unproved "$bufr" "$work/first" > "$work/told"
# The second run has different settings. If possible, it is made by the user nobody, and writes to /dev/shm, where directories
# list their files in a different order.
second=$(mktemp -d -p /dev/shm 2> "$work/errors" || mktemp -d)
trap 'rm -r "$work" "$second"' EXIT
mkdir "$work/home" "$work/program"
printf '[core]\nautocrlf = true\n[tar]\numask = 077\n' > "$work/home/.gitconfig"
cp "$bufr" "$work/program/bufr"
as=()
if [ "$(id -u)" -eq 0 ] && [ -x /usr/bin/python3 ]; then
    chmod 755 "$work"
    chown -R nobody "$work"/{another,home} "$second"
    as=(setpriv --reuid nobody --regid nogroup --clear-groups)
fi
(umask 077 && cd / && "${as[@]}" env TZ=Asia/Tokyo LC_ALL="$(locale -a | grep -iE '_.*utf-?8' | head -n 1)" HOME="$work/home" \
    PATH="/usr/bin:/bin:$PATH" "$work/another/folder/release.sh" --unproved "$work/program/bufr" "$second") > "$work/told"
for file in "$work"/first/*; do
    cmp "$file" "$second/${file##*/}" || fail "two clones of one commit give different releases"
done
(cd "$work/first" && sha256sum --quiet -c SHA256SUMS) || fail "the sums are not those of the files"
archive=$(echo "$work"/first/*.tar.gz)
[ -e "$work"/first/bufr_text-*-py3-none-any.whl ] || fail "the wheel of an unproved release: $(ls "$work/first")"
# The wheel must contain the modules, scripts, man pages and tables. RECORD must contain the length and the checksum of each
# file, in the form that installers check.
python3 - "$work"/first/*.whl "$work/one" > "$work/told" 2>&1 << 'END' || fail "the wheel: $(< "$work/told")"
import base64, csv, hashlib, io, pathlib, sys, zipfile

wheel, top = zipfile.ZipFile(sys.argv[1]), pathlib.Path(sys.argv[2])
files = {path.name: path.read_bytes() for path in top.glob("scripts/*.py")}
files["table.awk"] = (top / "scripts/table.awk").read_bytes()
data = "bufr_text-0.1.0.data"
files.update({f"{data}/scripts/{path.name}": path.read_bytes() for path in top.glob("scripts/bufr-*")})
files.update({f"{data}/data/share/man/man1/{path.name}": path.read_bytes() for path in top.glob("man/*.1")})
files.update({f"{data}/data/share/bufr/{path.relative_to(top)}": path.read_bytes() for path in top.glob("tables/*/*.csv")})
about = {f"bufr_text-0.1.0.dist-info/{name}" for name in ("METADATA", "RECORD", "WHEEL")}
assert set(wheel.namelist()) == {*files, *about}, f"it has other files: {set(wheel.namelist()) ^ {*files, *about}}"
for name, octets in files.items():
    found, is_script = wheel.read(name), name.startswith(f"{data}/scripts/")
    if is_script:
        first, _, found = found.partition(b"\n")
        assert first == b"#!python", f"{name} begins with {first}"
        octets = octets.partition(b"\n")[2]
    assert found == octets, f"{name} is another file"
    assert wheel.getinfo(name).external_attr >> 16 == (0o100755 if is_script else 0o100644), f"the mode of {name}"
[record] = [name for name in wheel.namelist() if name.endswith(".dist-info/RECORD")]
rows = {name: tuple(more) for name, *more in csv.reader(io.StringIO(wheel.read(record).decode()))}
for name in wheel.namelist():
    octets = wheel.read(name)
    digest = base64.urlsafe_b64encode(hashlib.sha256(octets).digest()).decode().rstrip("=")
    wanted = ("", "") if name == record else (f"sha256={digest}", str(len(octets)))
    assert rows.pop(name) == wanted, f"RECORD of {name}: not {wanted}"
assert not rows, f"RECORD has {rows}"
END

# The links on a release's pages must work. The release must contain every file in the repository, and must pass its own
# tests/docs_consistency.py, which follows the links.
mkdir "$work/read"
tar -xzf "$archive" -C "$work/read" --strip-components 1
git -C "$work/one" ls-files | (cd "$work/read" && xargs ls -d) > "$work/told" || fail "files of the repository are not in the release"
"$work/read/tests/docs_consistency.py" "$work/read/bin/bufr" > "$work/told" || fail "the pages of the release: $(< "$work/told")"

# refuses STATUS TEXT WORD..: this command must fail with STATUS, print TEXT, and leave the first release unchanged.
refuses() {
    local wanted=$1 text=$2
    shift 2
    find "$work/first" -type f -exec sha256sum {} + | sort > "$work/before"
    status=0
    "$@" > "$work/told" 2>&1 || status=$?
    [ $status -eq "$wanted" ] && grep -q -- "$text" "$work/told" || fail "release.sh: status $status, $(< "$work/told")"
    find "$work/first" -type f -exec sha256sum {} + | sort | cmp - "$work/before" && [ "$(ls -A "$work/first" | wc -l)" -eq 3 ] ||
        fail "release.sh leaves $(ls -A "$work/first") after: $(< "$work/told")"
}
make=$work/one/release.sh
"$make" --help | grep -q '^    ./release.sh --unproved PROGRAM ' || fail 'release.sh --help'
for words in --unproved --wrong 'one two'; do
    # shellcheck disable=SC2086
    refuses 2 usage "$make" $words
done
printf '#!/bin/sh\necho bufr 0.0.9\n' > "$work/older"
chmod +x "$work/older"
refuses 1 'the program has version 0.0.9, but the wheel is' "$make" --unproved "$work/older" "$work/first"
refuses 1 'does not run' "$make" --unproved /bin/false "$work/first"
mkdir "$work/alone" "$work/fake"
cp "$make" "$work/alone"
refuses 1 'not a clone of the repository' "$work/alone/release.sh" --unproved "$bufr" "$work/first"
# In this stand-in for the toolchain, `rt ci` creates a program, and a build.sh that makes a stand-in for the library.
logic=$(sed -n 's/.*`logic \([0-9a-f]\{16\}\)`.*/\1/p' README.md | head -n 1)
printf '#!/bin/sh\n# rattle logic=%s\necho bufr 0.1.0\n' "$logic" > "$work/marked"
printf '#!/bin/sh\necho bufr 0.1.0\n' > "$work/unmarked"
cat > "$work/build.sh" << 'END'
#!/bin/sh
mkdir "$1" && cp library/bufr.h "$1" && cd "$1" && echo archive > libbufr.a && echo shared > libbufr.so.0 &&
    ln -s libbufr.so.0 libbufr.so && printf 'prefix=nowhere\nName: bufr\n' > bufr.pc
END
chmod +x "$work/marked" "$work/unmarked" "$work/build.sh"
count=$(ls -d crates/*/src crates/*/must-fail/*.edit | wc -l)
# fake LOGIC [COMMANDS]: creates a stand-in with this logic. Its `rt ci` runs COMMANDS before it prints its last line.
fake() {
    cat > "$work/fake/rt" << END
#!/bin/sh
case \$* in
    version) echo kit logic $1 ;;
    'ci --anew')
        mkdir crates/bufr/out && cp '$work/marked' crates/bufr/out/bufr && cp '$work/build.sh' library || exit
        count=$count
        ${2-}
        echo "\$count passed, 0 failed"
        ;;
    *) exit 3 ;;
esac
END
    chmod +x "$work/fake/rt"
}
PATH=$work/fake:$PATH
export CC=true # it only has to be there
refuses 1 '(rt) is not on PATH' env PATH=/usr/bin:/bin "$make" "$work/first"
fake 0123456789abcdef
refuses 1 "README.md names logic $logic" "$make" "$work/first"
fake "$logic"
refuses 1 'requires a C compiler' env CC="$work/none" "$make" "$work/first"
fake "$logic" 'echo low: not proved; exit 1'
mkdir "$work/one/crates/bufr/out"
touch "$work/one/crates/bufr/out/bufr"
git -C "$work/one" add -f crates/bufr/out/bufr
git -C "$work/one" -c user.name=test -c user.email=test@localhost commit -q -m 'A commit with a program'
refuses 1 'the commit contains files in crates/\*/out' "$make" "$work/first"
git -C "$work/one" reset -q --hard HEAD^
refuses 1 'the proofs or the tests failed' "$make" "$work/first"
grep -q 'low: not proved' "$work/told" || fail "release.sh hides what the gate said: $(< "$work/told")"
fake "$logic" 'echo BAD EDIT; count=$((count - 1))'
refuses 1 "there are $count crates and must-fail edits, but rt ci reports: $((count - 1)) passed" "$make" "$work/first"
fake "$logic" "cp '$work/unmarked' crates/bufr/out/bufr"
refuses 1 'built with logic none' "$make" "$work/first"
fake "$logic" "printf '#!/bin/sh\necho no proof of bufr_c; exit 1\n' > library/build.sh"
refuses 1 'the C library was not built' "$make" "$work/first"
grep -q 'no proof of bufr_c' "$work/told" || fail "release.sh hides what library/build.sh said: $(< "$work/told")"
# release.sh is interrupted while `rt ci` is running. Until the stand-in for `rt ci` is stopped, it keeps creating the
# directories that release.sh removes.
slow="at=\$PWD; while mkdir -p \"\$at/crates/bufr/out\"; do :; done"
ends_it() { # ends_it SIGNAL: the script ended by this signal leaves nothing
    refuses $((128 + $(kill -l "$1"))) 'no release was made' env TMPDIR="$work/temporary" "$make" "$work/first"
    [ -z "$(ls -A "$work/temporary")" ] || fail "after $1 remains $(ls -A "$work/temporary")"
}
is_over() { # is_over: the toolchain ended with the script
    sleep 0.2
    ! grep -qs '^State:.[^Z]' "/proc/$(< "$work/pid")/status" || fail "the toolchain goes on after the script"
}
mkdir "$work/temporary"
for number in TERM INT HUP; do
    fake "$logic" "echo \$\$ > '$work/pid'; kill -$number \$PPID; $slow"
    ends_it $number
    is_over
done
# Here, the library is built by a script. The processes that this script has started must also end.
cat > "$work/slow" << END
#!/bin/sh
sh -c "echo \\\$\\\$ > '$work/pid'; kill -TERM \$PPID; exec sleep 60"
exit
END
fake "$logic" "cat '$work/slow' > library/build.sh"
ends_it TERM
is_over
fake "$logic" "echo \$\$ > '$work/pid'; kill -KILL \$PPID; exec sleep 60"
! TMPDIR=$work/temporary "$make" "$work/fourth" > "$work/told" 2>&1 || fail "a killed script succeeds"
is_over
# In this run, every proof succeeds.
fake "$logic"
"$make" "$work/proved" > "$work/told" || fail "release.sh: $(< "$work/told")"
grep -q "^$count passed, 0 failed$" "$work/told" || fail "release.sh hides what the gate said: $(< "$work/told")"
mkdir "$work/unpacked"
tar -xzf "$work"/proved/*.tar.gz -C "$work/unpacked" --strip-components 1
for line in 'proof: proved' "kit: kit logic $logic" "gate: $count passed, 0 failed" "sources: $(sources_of .)" \
    "program: $(sha256sum < "$work/marked" | cut -c 1-64)" "library: $(sha256sum < "$work/unpacked/lib/libbufr.a" | cut -c 1-64)" \
    "shared library: $(sha256sum < "$work/unpacked/lib/libbufr.so.0" | cut -c 1-64)"; do
    grep -qx "$line" "$work/unpacked/BUILD" || fail "BUILD: no line $line"
done
# The wheel must also contain the library, and its tags must name the systems on which it runs.
(cd "$work/proved" && python3 -m zipfile -e bufr_text-*-py3-none-manylinux_2_34_x86_64.whl "$work/wheel") && cmp "$work/wheel/libbufr.so.0" "$work/unpacked/lib/libbufr.so.0" ||
    fail "the wheel of a proved release has no library: $(ls "$work/proved")"
printf '%s\n' 'Wheel-Version: 1.0' 'Generator: build_wheel' 'Root-Is-Purelib: false' 'Tag: py3-none-manylinux_2_34_x86_64' |
    diff - "$work"/wheel/*.dist-info/WHEEL || fail 'the wheel has other tags'
"$work/unpacked/install.sh" "$work/installed" > "$work/told" || fail "a proved release: $(< "$work/told")"
grep -q ', with the C library$' "$work/told" || fail "install.sh does not say that it installed the library: $(< "$work/told")"
for place in lib/libbufr.{a,so,so.0} include/bufr.h; do
    cmp "$work/unpacked/$place" "$work/installed/$place" || fail "another $place is installed"
done
[ "$(readlink "$work/unpacked/lib/libbufr.so")" = libbufr.so.0 ] || fail 'libbufr.so is no link to libbufr.so.0'
printf 'prefix=%s\nName: bufr\n' "$work/installed" | diff - "$work/installed/lib/pkgconfig/bufr.pc" || fail 'another bufr.pc is installed'
"$work/unpacked/install.sh" --uninstall "$work/installed" > "$work/told"
for file in libbufr.a libbufr.so.0; do # each file of the library is the one in BUILD
    cp "$work/unpacked/lib/$file" "$work/kept"
    echo x >> "$work/unpacked/lib/$file"
    # SHA256SUMS also lists the link to the shared library
    (cd "$work/unpacked" && cp SHA256SUMS "$work/sums" && sed -i "\|/${file%.0}|d" SHA256SUMS && sha256sum "./lib/${file%.0}"* >> SHA256SUMS)
    ! "$work/unpacked/install.sh" "$work/installed" > "$work/told" 2>&1 && grep -qF 'not the one that BUILD describes' "$work/told" &&
        [ ! -e "$work/installed" ] || fail "another $file is installed: $(< "$work/told")"
    cp "$work/kept" "$work/unpacked/lib/$file"
    cp "$work/sums" "$work/unpacked/SHA256SUMS"
done
[ ! -e "$work/installed" ] || fail "--uninstall leaves $(find "$work/installed")"
PATH=${PATH#*:}
# The disk becomes full while release.sh writes the archive (its largest file), or right at the start.
refuses $((128 + $(kill -l XFSZ))) 'no release was made' bash -c 'ulimit -f "$0" && exec "$@"' \
    $(($(stat -c %s "$archive") / 1024)) "$make" --unproved "$bufr" "$work/first"
if unshare -m true 2> "$work/errors"; then
    mkdir "$work/small"
    # shellcheck disable=SC2016
    unshare -m bash -c 'mount -t tmpfs -o size=1m none "$1" && ! "$2" --unproved "$3" "$1" 2> "$4" && [ -z "$(ls -A "$1")" ]' - \
        "$work/small" "$make" "$bufr" "$work/told" && grep -q 'No space left' "$work/told" || fail "on a full disk: $(< "$work/told")"
fi

# A release must not contain uncommitted changes.
echo '# changed' | tee -a "$work/one/README.md" >> "$work/one/scripts/bufr_text.py"
"$work/one/release.sh" --unproved "$bufr" "$work/third" > "$work/told" 2> "$work/errors"
grep -q 'uncommitted changes' "$work/errors" || fail "release.sh does not say that it leaves changes out"
diff "$work/first" "$work/third" || fail "an uncommitted change is in the release"

# install.sh must reject a release if a file in it has been changed, added or removed, or is missing from SHA256SUMS.
mkdir "$work/damaged"
refuses_damaged() { # refuses_damaged TEXT COMMAND: in a release after this command, install.sh fails and says TEXT
    tar -xzf "$archive" -C "$work/damaged" --strip-components 1
    (cd "$work/damaged" && eval "$2")
    ! "$work/damaged/install.sh" --unproved "$work/prefix" > "$work/told" 2>&1 && grep -qF -- "$1" "$work/told" &&
        [ ! -e "$work/prefix" ] || fail "after $2 a release was installed: $(< "$work/told")"
    rm -r "${work:?}/damaged/"*
}
refuses_damaged './tables/wmo-39/B.csv: FAILED' 'echo x >> tables/wmo-39/B.csv'
refuses_damaged './scripts/bufr-zzz,' 'cp scripts/bufr-csv scripts/bufr-zzz'
refuses_damaged './tables/wmo-99,' 'ln -s wmo-39 tables/wmo-99'
refuses_damaged './tables/wmo-99,' 'mkdir tables/wmo-99'
refuses_damaged './man/bufr.1,' 'echo x >> man/bufr.1; sed -i /man.bufr.1/d SHA256SUMS'
refuses_damaged './docs/guide.md: ' 'rm docs/guide.md'
# install.sh must reject a library that BUILD does not describe.
refuses_damaged 'the C library in this release is not the one that BUILD describes' \
    'mkdir lib; touch lib/libbufr.a lib/libbufr.so.0; sha256sum ./lib/* >> SHA256SUMS'
# install.sh must ignore files that Python has cached next to the scripts or that the toolchain has built.
mkdir -p "$work/damaged/crates/bufr/out"
touch "$work/damaged/crates/bufr/out/bufr"
tar -xzf "$archive" -C "$work/damaged" --strip-components 1
BUFR=$bufr "$work/damaged/scripts/bufr-auto" --version > "$work/told"
[ -d "$work/damaged/scripts/__pycache__" ] || mkdir "$work/damaged/scripts/__pycache__"
"$work/damaged/install.sh" --unproved "$work/prefix" > "$work/told" || fail "what was cached or built: $(< "$work/told")"

# From here on, the archive is tested on a clean machine.
unshare -mnpf true 2> "$work/errors" || { echo "$0: unshare is not allowed here, so no clean machine was tried" && exit; }
[ -x /usr/bin/python3 ] || { echo "$0: /usr/bin/python3 is not there, so no clean machine was tried" && exit; }
mkdir "$work/root"
cat > "$work/machine" << 'END'
#!/bin/bash
# machine ROOT ARCHIVE TESTS OPERATOR: makes a root directory without compilers or toolchain, and runs OPERATOR there.
set -eu
root=$1
mount --make-rprivate /
mount -t tmpfs none "$root"
mkdir "$root"/{usr,tmp,dev,etc,proc,home,old,tests}
cp -a /etc/alternatives "$root/etc" # awk
mount --bind /usr "$root/usr"
mount -o remount,bind,ro "$root/usr"
for name in bin lib lib64 sbin; do [ ! -e /usr/$name ] || ln -s usr/$name "$root/$name"; done
touch "$root/dev/null"
mount --bind /dev/null "$root/dev/null"
mount -t proc none "$root/proc"
mount -t tmpfs none "$root/usr/local"
for folder in /usr/lib/gcc /usr/lib/llvm*; do [ ! -d "$folder" ] || mount -t tmpfs none "$root$folder"; done
for file in /usr/bin/{,*-}{cc,c++,gcc,g++,cpp,clang,tcc,as,ld,ld.bfd,ld.gold,ld.lld,rustc,cargo}{,-[0-9]*}; do
    [ ! -f "$file" ] || mount --bind /dev/null "$root$(realpath "$file")" 2> /dev/null || true
done
cp "${2%/*}"/* "$3/docs_commands.py" "$3/lib.py" "$root/tests"
cp "$4" "$root/operator"
cd "$root"
pivot_root . old
umount -l /old
exec env -i PATH=/usr/bin:/bin HOME=/home LC_ALL=C.UTF-8 /bin/bash /operator "/tests/${2##*/}"
END
cat > "$work/operator" << 'END'
set -eu
fail() { echo "on a clean machine: $1" >&2; exit 1; }
cd /tmp
for name in cc gcc g++ clang ld rustc cargo rt rattle; do
    ! $name --version > told 2>&1 || fail "$name is not hidden"
done
[ ! -e /opt ] && [ ! -e /work ] || fail 'the folders of this machine are not hidden'
[ "$(tail -n +3 /proc/net/dev | grep -cv ' lo:')" -eq 0 ] || fail 'there is a network'
tar -xzf "$1"
cd bufr-*
prefix=/home/bufr
! ./install.sh $prefix 2> ../told || fail 'an unproved release was installed without a word'
grep -q unproved ../told || fail "install.sh says: $(cat ../told)"
./install.sh --unproved $prefix > ../told || fail "install.sh: $(cat ../told)"
cmp bin/bufr $prefix/bin/bufr
PATH=$prefix/bin:$PATH
cd /home
bufr-auto bufr/share/doc/bufr/examples/synop.bufr | cmp - bufr/share/doc/bufr/examples/synop.txt
# Runs the commands in README.md and operations.md.
mkdir own
ln -s $prefix/share/doc/bufr/* own
ln -s /tests own/tests
/usr/bin/python3 own/tests/docs_commands.py $prefix/bin/bufr own/README.md own/docs/operations.md || fail "the commands of README and operations.md"
rm -r own
# The operator adds two table sets: one for messages from a particular centre, and one for another table version.
set=$prefix/share/bufr/tables
cp -r $set/wmo-39 $set/wmo-39+78-0
sed -i 's/^"\?012101"\?,.*/012101,OWN NAME,K,2,0,16/' $set/wmo-39+78-0/B.csv
cp -r $set/wmo-39 $set/wmo-99
bufr-auto bufr/share/doc/bufr/examples/buoys.bufr > told || fail "bufr-auto with another set"
# Neither a second installation in the same place nor --uninstall may remove these sets.
/tmp/bufr-*/install.sh --unproved $prefix > told
[ -d $set/wmo-99 ] || fail 'an installation removed a set that it did not install'
/tmp/bufr-*/install.sh --uninstall $prefix > told
grep -q 'share/bufr/tables/wmo-99/B.csv' told || fail "--uninstall does not say what remains: $(cat told)"
find $prefix ! -type d ! -path "$set/wmo-99/*" ! -path "$set/wmo-39+78-0/*" > left
[ ! -s left ] || fail "--uninstall leaves $(cat left)"
rm -r $prefix
# If there are no such sets, --uninstall must leave nothing, not even directories or files that Python has cached.
/tmp/bufr-*/install.sh --unproved $prefix > told
bufr-auto --version > told
/tmp/bufr-*/install.sh --uninstall $prefix > told
[ ! -e $prefix ] || fail "--uninstall leaves $(find $prefix)"
# Tests operations.md: each block of commands, the commands in the units, and the steps in the Dockerfile.
page=$(echo /tmp/bufr-*/docs/operations.md) examples=$(echo /tmp/bufr-*/examples)
mkdir /home/page
cd /home/page
cp /tests/*.tar.gz /tests/SHA256SUMS .
cp -r /tmp/bufr-*/tables/wmo-39 /home/wmo-csv
sed -i 's/^"\?012101"\?,.*/012101,OWN NAME,K,2,0,16/' /home/wmo-csv/B.csv
cp $examples/buoys.bufr /home/day.bufr
awk '/^```$/ { name = "" } name { print > name } /^```sh$/ { name = "block" ++blocks } /^```ini$/ { name = "unit" ++units }
    /^```crontab$/ { name = "crontab" } /^```dockerfile$/ { name = "steps" }' $page
sed -i 's,install.sh /,install.sh --unproved /,' block* steps
[ "$(ls block* | wc -w)" -eq 9 ] || fail "$page has other blocks"
# These stand-ins replace systemd's commands.
mkdir /home/stubs
printf '#!/bin/sh\necho "systemctl $*"\n' > /home/stubs/systemctl
printf '#!/bin/sh\ncat /home/page/log\n' > /home/stubs/journalctl
chmod +x /home/stubs/*
types() { PATH=/home/stubs:/opt/bufr/bin:$PATH bash -eu "$1" > told 2>&1 || fail "$1 of $page: $(cat "$1" told)"; }
types block1
types block2
types block3
printf '%s\n' 'systemctl restart bufr-feed' "$(/opt/bufr/bin/bufr-auto --version)" | cmp - told || fail "after an upgrade: $(cat told)"
types block4
# The commands in the fourth block must report a changed link and an added file.
bash=/opt/bufr-0.1.0/share/bash-completion/completions/bufr-auto
ln -sfT bufr $bash
touch /opt/bufr-0.1.0/bin/added
bash -u block4 > told 2>&1
[ "$(grep -cE 'bin: added|completions/bufr-auto' told)" -eq 2 ] && [ "$(wc -l < told)" -eq 2 ] || fail "$page finds: $(cat told)"
rm /opt/bufr-0.1.0/bin/added
ln -sfT bufr-scripts.bash $bash
# The hourly commands must report rejected and skipped messages, notes, a failed run, and an hour without a dump.
mkdir -p /var/lib/feed /usr/local/lib/feed
(cd /usr/local/lib/feed && sed -n '/cat > check/,/^> END/s/^[$>] //p' $page | bash && cp /home/page/block5 hourly-feed)
# cron COMMAND: runs the crontab line that contains this command.
cron() {
    sed -n "s/^[0-9*]* [0-9*]* \* \* \* root \(.*$1\)/\1/p" crontab > line
    [ "$(wc -l < line)" -eq 1 ] && PATH=/home/stubs:$(sed -n 's/^PATH=//p' crontab) bash -eu line > told 2>&1 || fail "$1 of the crontab: $(cat line told)"
}
note='bufr-auto: 1 message, at offset 0: the table set wmo-99+254-9 (local version 9 of centre 254) is missing; to make it, run: true'
{
    yes 'offset 1: 1 cut' | head -n 20
    echo 'bufr-auto: offset 9: skipped a message that declares a length of 900000 bytes'
    echo "$note"
    echo 'bufr-feed failed: exit-code'
} > log
cron hourly-feed
printf '%s\n' 'messages rejected or skipped: 21' "$note" 'bufr-feed failed: exit-code' 'nothing was dumped for an hour' | cmp - told ||
    fail "the hourly commands print $(cat told)"
# The script `hourly` must report the exit status of a run that was killed.
(
    cd /usr/local/lib/feed
    printf '#!/bin/sh\nkill -KILL $$\n' > bufr-auto
    chmod +x bufr-auto
    sed -n '/cat > hourly/,/^> END/s/^[$>] //p' $page | bash
    PATH=$PWD:$PATH sh hourly one 0 2> told | grep -q '^bufr-auto failed with status 137:'
) || fail 'hourly does not print the status of a killed run'
cron 'systemctl.*'
[ "$(cat told)" = 'systemctl restart bufr-feed' ] || fail "the crontab runs $(cat line)"
exec_of() { sed -n "s/^$2=//p" "/home/page/unit$1" | sed 's/%%/%/g'; }
# becomes COUNT: waits until there are COUNT dumps that together contain the expected text. Fails after about ten seconds.
becomes() {
    for _ in $(seq 100); do
        [ "$(ls dump.* 2> /dev/null | wc -l)" -eq "$1" ] && cat dump.* | cmp -s - expected && return
        sleep 0.1
    done
    fail "the commands of the units: $1 dumps, $(ls -l)"
}
# The feed stops and restarts while a writer has the FIFO open.
(
    cd /var/lib/feed
    exec_of 1 ExecStartPre | bash
    exec_of 1 ExecStart > hold
    bash hold &
    holder=$!
    exec_of 2 ExecStart > feed
    bash feed &
    cp $examples/synop.txt expected
    exec 3> bufr.fifo
    cat $examples/synop.bufr >&3
    becomes 1
    kill $!
    ! wait $!
    sleep 1
    cat $examples/synop.bufr >&3
    bash feed &
    cat $examples/synop.txt >> expected
    becomes 2
    exec 3>&-
    kill $! $holder
    [ -z "$(exec_of 2 ExecStopPost | SERVICE_RESULT=success bash)" ]
    [ "$(exec_of 2 ExecStopPost | SERVICE_RESULT=exit-code bash)" = 'bufr-feed failed: exit-code' ]
) || fail 'the commands of the units'
echo 'offset 1: 1 cut' > log
cron hourly-feed
[ ! -s told ] || fail "the hourly commands print $(cat told)"
touch -d '40 days ago' /var/lib/feed/dump.old
cron '-delete'
[ ! -e /var/lib/feed/dump.old ] && [ "$(ls /var/lib/feed/dump.* | wc -l)" -eq 2 ] || fail "the crontab leaves $(ls /var/lib/feed)"
sets=/opt/bufr-0.1.0/share/bufr/tables
cp -r $sets/wmo-39 $sets/wmo-39+254-9
types block6
grep -q 'elements added: 0' told && grep -q '^> .*OWN NAME' told || fail "the trial shows $(cat told)"
types block7
[ -s $sets/wmo-99/B.csv ] && [ "$(cat told)" = 'systemctl restart bufr-feed' ] || fail "a new set: $(cat told)"
[ -s $sets/wmo-99+254-9/B.csv ] && [ ! -e $sets/new ] && [ ! -e /home/trial ] || fail "with a new set: $(ls $sets /home)"
types block8
[ ! -e $sets/wmo-99 ] && [ ! -e $sets/wmo-99+254-9 ] && [ "$(cat told)" = "$(printf 'systemctl %s bufr-feed\n' stop start)" ] ||
    fail "without the new set: $(cat told)"
rm -r $sets/wmo-39+254-9
types block6
types block7
tar -xzf *.tar.gz
types block9
[ ! -L /opt/bufr ] || fail "$page leaves its link"
find /opt ! -type d ! -path "$sets/wmo-99/*" > left
[ ! -s left ] && [ -s $sets/wmo-99/B.csv ] || fail "--uninstall of $page leaves $(cat left)"
sed -n 's/^RUN \(.*install.sh\)/\1/p' steps > install
[ -s install ] || fail "$page has no Dockerfile that installs"
cp $examples/synop.* /home
types install
cd /
setpriv --reuid 65534 --regid 65534 --clear-groups env -i PATH=/usr/local/bin:/usr/bin:/bin bufr-auto < /home/synop.bufr |
    cmp - /home/synop.txt || fail 'the program of the Dockerfile'
echo clean
END
# systemd must know every setting in the units. systemd-analyze reports unknown settings, but still exits with status 0.
awk -v folder="$work" '/^```$/ { unit = "" } unit { print > unit }
    /^```ini$/ { unit = folder "/" (++units == 1 ? "bufr-fifo" : "bufr-feed") ".service" }' docs/operations.md
! command -v systemd-analyze > "$work/told" || systemd-analyze verify "$work"/bufr-*.service > "$work/told" 2>&1 && [ ! -s "$work/told" ] ||
    fail "the units of operations.md: $(< "$work/told")"
unshare -mnpf bash "$work/machine" "$work/root" "$archive" "$PWD/tests" "$work/operator" > "$work/told" 2> "$work/errors" ||
    fail "$(cat "$work/told" "$work/errors")"
grep -qx clean "$work/told" || fail "the clean machine did not get to its end: $(cat "$work/told" "$work/errors")"
