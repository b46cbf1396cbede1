#!/usr/bin/env bash
# Tests that each example round-trips: encoding its dump must restore the messages, and dumping these must give the same text.
# Converting a dump to the other form (plain or compressed) must change only its `compressed` lines, and converting the result
# back must restore the dump.
set -eu
. "$(dirname "$0")/lib.sh"

# messages FILE: prints the messages in a file, without anything between them.
messages() {
    { "$bufr" ls "$1" 2> /dev/null || true; } | while read -r offset length _; do
        dd if="$1" bs=1 skip="${offset#offset=}" count="${length#length=}" status=none
    done
}

# in_form FORM TEXT: encodes the dump TEXT in this form, and prints the dump of the result.
in_form() {
    "$bufr" encode "${tables[@]}" --form "$1" "$2" > "$work/in_form" && "$bufr" dump "${tables[@]}" "$work/in_form"
}

# comes_in FORM TEXT WANTED: converting the dump TEXT to this form must give the dump WANTED.
comes_in() {
    in_form "$1" "$2" | cmp - "$3" || fail "$file: its $1 form is another"
}

# comes_in_both: converts $work/text to both forms, and each form to the other. Only the `compressed` lines may change.
comes_in_both() {
    sed 's/^compressed [01]$/compressed 0/' "$work/text" > "$work/plain"
    sed 's/^compressed [01]$/compressed 1/' "$work/text" > "$work/compressed"
    comes_in plain "$work/text" "$work/plain"
    comes_in compressed "$work/text" "$work/compressed"
    comes_in compressed "$work/plain" "$work/compressed"
    comes_in plain "$work/compressed" "$work/plain"
}

# comes_in_plain: the subsets in $work/text have different replication factors. Converting the text to plain form must leave it
# unchanged, and compressing it must fail.
comes_in_plain() {
    comes_in plain "$work/text" "$work/text"
    run encode "${tables[@]}" --form compressed "$work/text"
    [ "$status" -eq 1 ] && grep -qx 'line [0-9]*: 58 unequal factor' "$work/errors" || fail "$file: is compressed"
}

for file in examples/*.bufr; do
    messages "$file" > "$work/messages"
    [ -s "$work/messages" ] || fail "$file: no message"
    run dump "${tables[@]}" "$file"
    [ "$status" -lt 2 ] || fail "$file: status $status of its dump" # 1 where more than messages is in it
    mv "$work/output" "$work/text"
    "$bufr" encode "${tables[@]}" "$work/text" | cmp - "$work/messages" || fail "$file: other octets come back"
    "$bufr" dump "${tables[@]}" "$work/messages" | cmp - "$work/text" || fail "$file: another text comes back"
    case $file in
        examples/synop.bufr) comes_in_plain ;;
        *) comes_in_both ;;
    esac
done
for text in examples/*.txt; do
    "$bufr" dump "${tables[@]}" "${text%.txt}.bufr" | cmp - "$text" || fail "$text: not the dump of its messages"
done
