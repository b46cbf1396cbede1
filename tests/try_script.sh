#!/usr/bin/env bash
# Tests try.sh with a stand-in for the toolchain, which only runs the program under test. try.sh must dump a file with any name
# from any directory, and must say what it needs if something is missing.
. "$(dirname "$0")/lib.sh"
top=$PWD
mkdir "$work/bin" "$work/empty"
# Like `rt try`, this stand-in runs a program in a directory that contains the files named by --data.
cat > "$work/bin/rt" << END
#!/usr/bin/env bash
set -eu
[ "\$1" = try ] && [ "\$PWD" = "$top/crates/bufr" ]
shift
folder=\$(mktemp -d -p "$work")
while [ "\$1" = --data ]; do
    cp -- "\${2#*=}" "\$folder/\${2%%=*}"
    shift 2
done
[ "\$1" = -- ]
shift
cd "\$folder"
exec "$bufr" "\$@"
END
chmod +x "$work/bin/rt"

# tried PATH STATUS ERRORS WORD..: with this PATH and these arguments, try.sh must exit with STATUS and print exactly ERRORS on
# standard error. Writes the output to $work/output.
tried() {
    local path=$1 wanted=$2 errors=$3 status=0
    shift 3
    LC_ALL=C PATH=$path "$top/try.sh" "$@" > "$work/output" 2> "$work/errors" || status=$?
    [ "$status" -eq "$wanted" ] || fail "try.sh $*: status $status, not $wanted: $(< "$work/errors")"
    printf %s "$errors" | diff - "$work/errors" || fail "try.sh $*: other errors"
}

usage="usage: $top/try.sh FILE"$'\n'
(
    cd "$work"
    tried "$work/empty" 1 "$top/try.sh: the toolchain (rt) is not on PATH; README.md says which toolchain you need"$'\n' a
    path=$work/bin:$PATH
    for name in 'a name=with.bufr' -x.bufr; do
        cp -- "$top/examples/synop.bufr" "./$name"
        tried "$path" 0 '' "$name"
        diff "$work/output" "$top/examples/synop.txt" || fail "try.sh $name: another dump"
    done
    head -c 100 "$top/examples/synop.bufr" > cut.bufr
    tried "$path" 1 $'offset 0: 1 cut\n' cut.bufr
    tried "$path" 2 "$usage"
    tried "$path" 2 "$usage" -x.bufr -x.bufr
    tried "$path" 1 $'realpath: nosuch: No such file or directory\n' nosuch
)
