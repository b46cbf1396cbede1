#!/usr/bin/env bash
# Tests the command line: the exact help and usage messages, the effect of every argument, and the errors for files that are
# missing or are not what an option requires.
# rule: argument-not-utf-8
set -eu
. "$(dirname "$0")/lib.sh"

# helps FILE WORD..: with these arguments, the program must print the text in tests/help/FILE.txt and nothing else.
helps() {
    local file=$1
    shift
    gives 0 "$(cat "tests/help/$file.txt")"$'\n' '' "$@"
}

# misuses TEXT USAGE WORD..: with these arguments, the program must exit with status 2 and print only the error TEXT and USAGE.
misuses() {
    local text=$1 usage=$2
    shift 2
    gives 2 '' "error: $text"$'\n\n'"Usage: bufr $usage"$'\n\nFor more information, try \'--help\'.\n' "$@"
}

helps bufr --help
helps bufr help
for command in ls dump encode; do
    helps "$command" "$command" --help
    helps "$command" help "$command"
done
gives 0 $'bufr 0.1.0\n' '' --version

usage='-B <FILE> -D <FILE> [FILE]'
lacks=$'the following required arguments were not provided:\n  '
misuses $'\'bufr\' requires a subcommand but one was not provided\n  [subcommands: ls, dump, encode, help]' '<COMMAND>'
misuses $'unrecognized subcommand \'lst\'\n\n  tip: a similar subcommand exists: \'ls\'' '<COMMAND>' lst
misuses "unexpected argument 'two' found" 'ls [FILE]' ls one two
misuses "${lacks}-D <FILE>" "dump $usage" dump -B "${tables[1]}"
misuses "${lacks}-B <FILE>" "encode $usage" encode -D "${tables[3]}"
gives 2 '' "\
error: invalid value for '--form <WORD>'
  [possible values: plain, compressed]

For more information, try '--help'.
" encode "${tables[@]}" --form other examples/synop.txt
gives 2 '' $'error: an argument is not UTF-8\n' ls $'\xff'

# If any one word is left out of this command, its output must change.
line=(encode "${tables[@]}" --form compressed examples/buoys.txt)
run "${line[@]}"
[ "$status" -eq 0 ] || fail "bufr ${line[*]}: status $status"
mv "$work/output" "$work/whole"
for place in "${!line[@]}"; do
    run "${line[@]:0:place}" "${line[@]:place+1}" < /dev/null
    ! cmp -s "$work/output" "$work/whole" || fail "bufr ${line[*]}: the same without ${line[place]}"
done

for name in nosuch 'no such' ñ '' -; do
    gives 2 '' "bufr: cannot open $name"$'\n' ls "$name"
done
gives 2 '' $'table B: 40 header\n' dump -B "${tables[3]}" -D "${tables[3]}" examples/bulletins.bufr
gives 2 '' $'table D: 40 header\n' dump -B "${tables[1]}" -D "${tables[1]}" examples/bulletins.bufr
