# Converts a dump to CSV, with a row for each item, each subset, or each level of a sounding.
#
#     bufr dump -B B.csv -D D.csv FILE | awk -f scripts/table.awk
#     bufr dump -B B.csv -D D.csv FILE | awk -v columns=centre,year,001001,012101 -f scripts/table.awk
#     bufr dump -B B.csv -D D.csv FILE |
#       awk -v levels=1 -v keep=year,001001,001002 -v columns=007004,012101,012103 -f scripts/table.awk
#
# Without `columns`, each item has a row: message, subset, item, descriptor, value, name, unit. Messages, subsets and items
# are numbered from 1. An item that `bufr` read without a row in Table B has no name or unit. A new reference value that is
# defined in the data has the name REFERENCE. The columns in `keep`, which must be header keys, come after the subset.
#
# With `columns`, each subset has a row. A column is a descriptor or a header key (the first word of a header line). The
# column 012101 contains the value of the first item with this descriptor in the subset, and 012101:2 contains the value of
# the second such item. If a subset does not contain the item, the field is empty.
#
# With levels=1, the rows are for levels instead of subsets. A level is one repetition (pass) of a delayed replication, whose
# factor (031000 to 031002) is in the data. A level has a row only if it contains an item for the first column. If there
# are other columns, the level must also contain an item for at least one of them. If a subset contains several delayed
# replications, choose a first column whose descriptor occurs only in the replication that you want. The columns in `keep`
# apply to the whole subset and come before the other columns.
#
# A dump does not mark where passes begin and end. The first pass begins right after the factor. Each later pass begins at the
# next item with the descriptor that began the first pass, so a pass with two equal halves counts as two passes, and later passes
# are lost. The last pass is as long as the one before it. If there is only one pass, or if passes contain replications, the last
# pass extends to the next factor or to the end of the subset. A replication inside a pass belongs to that pass. A subset is
# skipped if it has no levels, or if its levels are ambiguous because the descriptor that begins a pass also occurs inside one.
#
# Strings are quoted, and trailing spaces are dropped. Strings contain the same escapes as in a dump (\", \\, \xHH). A
# missing value is an empty field. With json=1, each row is a JSON object, a missing value is null, and \xHH becomes the
# character with that code point.
#
# A dump contains no offsets, so the columns `offset` and `length` also need a listing. The fault lines of the dump show
# which messages in the listing are missing from the dump:
#
#     bufr ls FILE > listing
#     bufr dump -B B.csv -D D.csv FILE 2> faults |
#       awk -v columns=offset,012101 -v listing=listing -v faults=faults -f scripts/table.awk
#
# Notes on standard error report columns for which there are no items, columns of levels whose items occur only outside the
# levels, and the number of skipped subsets. The exit status is 1 if a subset was skipped because its levels were ambiguous.
# It is 2 if the input is not a dump, if a column is neither a header key nor the descriptor of an element, if the dump ends
# inside a message, or if the listing and the fault lines do not match the dump. The script works with any awk.
#
# bufr-csv also sets the variables `name`, `placed` and `feed`. Each note begins with the value of `name`. With placed=1, a
# comment before each message gives the message's offset, length and file, which can then be used as columns. With feed=0,
# rows are not flushed after each message. In addition, bufr-csv sets the BUFR_CSV_LABELS environment variable to the column
# headings, one per line.

function fail(text) {
    print name ": " text | "cat >&2"
    exit failed = 2
}

# Prints a note about skipped subsets. In a feed, only the first skipped subset of each kind is reported, with the count 0.
function tell_skipped(count, kind, where) {
    if (kind ~ /ambiguous/)
        where = where "; to get " (count > 1 ? "their" : "its") " items, run " all_items
    if (!count)
        where = where "; further subsets " kind " will not be reported"
    kind = count > 1 ? count " subsets " kind "; the first is" : "a subset " kind ":"
    print name ": skipped " kind " message " where | "cat >&2"
    close("cat >&2")
}

function tell_empty(column, why) {
    print name ": column " column " is empty because " why | "cat >&2"
}

# Quotes a string. A string from an item contains escapes. JSON uses the same escapes \" and \\, but \u00HH instead of \xHH. A
# plain string (`is_plain`) contains no escapes.
function quoted(text, is_plain,   parts, count, part) {
    if (!json)
        gsub(/"/, "\"\"", text)
    else if (is_plain || index(text, "\\")) {
        count = split(text, parts, is_plain ? "\\\\" : "\\\\\\\\")
        text = ""
        for (part = 1; part <= count; part++) {
            if (is_plain)
                gsub(/"/, "\\\"", parts[part])
            else
                gsub(/\\x/, "\\u00", parts[part])
            text = text (part > 1 ? "\\\\" : "") parts[part]
        }
    }
    return "\"" text "\""
}

# Returns the value of an item. It never examines the comment, whose bytes may be invalid in the locale.
function field(   parts, part, value) {
    if ($2 !~ /^"/)
        return $2 == "MISSING" ? "" : $2
    split($0, parts, "\"")
    value = parts[2]
    for (part = 3; match(value, /\\+$/) && RLENGTH % 2; part++)
        value = value "\"" parts[part]
    sub(/ +$/, "", value)
    return quoted(value)
}

# Returns a separator and a field, which may be empty.
function cell(begin, value) {
    return begin (json && value == "" ? "null" : value)
}

# Reads the offset, length and file of the next message from the comment before it.
function take_place(   words) {
    split($0, words, /[= ]/)
    header["offset"] = words[3]
    header["length"] = words[5]
    header["file"] = quoted(substr($0, index($0, " file=") + 6), 1)
}

# Finds the offset and length of the next message in the listing that has no fault line. Returns whether there is such a
# message.
function next_listed(   line, words, is_read) {
    do {
        if ((is_read = (getline line < listing)) <= 0)
            return is_read < 0 ? fail("cannot read " listing) : 0
        if (line !~ /^offset=/)
            fail(listing " is not the output of bufr ls")
        split(line, words, /[= ]/)
        header["offset"] = words[2]
        header["length"] = words[4]
        while (fault < header["offset"] && (is_read = (getline line < faults)) > 0)
            if (line ~ /^offset [0-9]+: /) {
                split(line, words, /[ :]/)
                fault = words[2]
            }
        if (is_read < 0)
            fail("cannot read " faults)
    } while (fault == header["offset"])
    return 1
}

# Returns whether a word is a six-digit descriptor. With `of_subset`, a colon and a count can follow.
function is_descriptor(word, of_subset) {
    if (of_subset)
        sub(/:[1-9][0-9]*$/, "", word)
    return word ~ /^[0-3][0-9][0-9][0-9][0-9][0-9]$/ && substr(word, 2, 2) < 64 && substr(word, 4, 3) < 256
}

# Splits a list of columns and returns their number. `keys` lists the words that are allowed in addition to descriptors.
function split_columns(words, list, keys,   count, column, word) {
    count = split(words, list, /[ ,]+/)
    for (column = 1; column <= count; column++) {
        word = list[column]
        if (index(keys, " " word " "))
            is_key[word] = wanted[word] = 1
        else if (by_item)
            fail("without columns=, keep= can contain only header keys, but it contains '" word "'")
        else if (is_descriptor(word, keys != "")) {
            # The characters that 2 05 Y inserts are the only items whose descriptor is not that of an element.
            if (word !~ /^(0|205)/)
                fail("'" word "' is not an element, so no item has this descriptor")
            wanted[substr(word, 1, 6)] = 1
        }
        else
            fail("expected a six-digit descriptor" (keys == "" ? "" : " or a header key") ", found '" word "'")
        if (!(++total in label))
            label[total] = json ? "\"" word "\"" : word
        before[total] = json ? "," label[total] ":" : ","
        heading = heading "," label[total]
    }
    return count
}

# Returns the end of an item's row: the name and unit from its comment. The unit follows the last ` [`.
function name_and_unit(comment,   parts, part, count, title, unit) {
    sub(/^ *# ?/, "", comment)
    count = split(comment, parts, / \[/)
    title = count > 1 ? parts[1] : ""
    for (part = 2; part < count; part++)
        title = title " [" parts[part]
    unit = count > 1 ? parts[count] : ""
    sub(/]$/, "", unit)
    return cell(name_begin, title == "" ? "" : quoted(title, 1)) cell(unit_begin, unit == "" ? "" : quoted(unit, 1)) row_end
}

# Writes the row for an item. Names and units are cached by comment.
function write_item(   is_reference, comment) {
    is_reference = sub(/^R /, "")
    comment = $0
    if ($2 ~ /^"/)
        sub(/^[0-9]+ "([^"\\]|\\.)*"/, "", comment)
    else
        sub(/^[0-9]+ [^ ]*/, "", comment)
    if (!(comment in names)) {
        if (++name_count % 10000 == 0)
            split("", names)
        names[comment] = name_and_unit(comment)
    }
    items++
    print subset_begin items fxy_begin $1 cell(value_begin, field()) (is_reference ? reference : names[comment])
}

# Ends the open pass. If the pass has a row, the row is buffered until the end of the subset.
function end_pass(   column, line, others, value) {
    if (!open)
        return
    for (column = 1; column <= level_count; column++) {
        value = ""
        if (level[column] in values) {
            value = values[level[column]]
            others += column > 1
        }
        line = line cell(before[kept_count + column], value)
    }
    if (level[1] in values && (others || level_count == 1)) {
        rows[++row_count] = line
        for (column in values)
            place[column] = 3
    } else
        for (column in values)
            if (place[column] < 2)
                place[column] = 2
    open = 0
    split("", values)
}

# Writes the rows of the last subset, if there is one.
function end_subset(   row, column, line) {
    if (subset && !by_item) {
        end_pass()
        if (levels) {
            # 1: the column has occurred only outside the levels; 2: in a level without a row; 3: in a level with a row
            for (column in place)
                if (!twice && place_of[column] < place[column])
                    place_of[column] = place[column]
            split("", place)
        }
        if (levels && !row_count && !twice && !bare++) {
            first_bare = message ", subset " subset
            if (feed == 1)
                tell_skipped(0, "without levels", first_bare)
        }
        if (!levels || row_count)
            line = begin_row()
        if (!levels)
            print line row_end
        for (row = 1; row <= row_count; row++)
            print line rows[row] row_end
    }
    row_count = subset = left = twice = 0
}

# Returns the beginning of a row: message, subset, and the columns for the whole subset.
function begin_row(   line, column) {
    has_rows = 1
    line = message_begin message subset_middle subset
    for (column = 1; column <= kept_count; column++) {
        if (item_of[column] in first)
            had[item_of[column]] = 1
        line = line cell(before[column], first[item_of[column]])
    }
    return line
}

# Skips a subset in which the descriptor that begins a pass also occurs inside a pass.
function skip_subset(fxy) {
    if (!unclear++) {
        first_unclear = message ", subset " subset " (" fxy " begins a level and occurs again in it)"
        if (feed == 1)
            tell_skipped(0, "with ambiguous levels", first_unclear)
    }
    twice = 1
    open = left = row_count = 0
    split("", values)
}

# Processes an item in or before the passes of a replication. `left` passes have yet to begin. Each pass begins with the
# descriptor `opener`. So far, the open pass has `items` items and `inner` factors; the previous pass had `pass_items` and
# `pass_inner`.
function item(fxy) {
    if (left && (opener == "" || fxy == opener)) {
        if (opened > 1 && !pass_inner && items != pass_items) {
            skip_subset(opener)
            return
        }
        end_pass()
        opened++
        open = 1
        left--
        opener = fxy
        pass_items = items
        pass_inner = inner
        items = inner = 0
    } else if (open && !left && opened > 1 && !pass_inner) {
        if (items == pass_items)
            end_pass()
        else if (fxy == opener) {
            skip_subset(opener)
            return
        }
    }
    if (fxy in factors) {
        if (open && (left || inner < pass_inner))
            inner++
        else {
            end_pass()
            left = field() + 0
            opener = ""
            opened = inner = 0
            if (fxy in in_levels && !(fxy in place))
                place[fxy] = 1
            return
        }
    }
    items++
    if (fxy in in_levels) {
        if (open && !(fxy in values))
            values[fxy] = field()
        if (!open && fxy in place)
            several[fxy] = 1
        else if (!open)
            place[fxy] = 1
    }
}

BEGIN {
    kept_by = name == "" ? "-v keep=" : "--keep "
    all_items = name == "" ? "table.awk without levels= or columns=" : name " without --levels or -c"
    if (name == "")
        name = "table.awk"
    by_item = columns == ""
    if (levels && by_item)
        fail("levels=1 requires columns=, such as columns=007004,012101")
    if (keep != "" && !levels && !by_item)
        fail("keep= can be used only with levels=1 or without columns=")
    keys = " offset length edition master centre subcentre update category subcategory localsubcategory masterversion" \
        " localversion year month day hour minute second observed compressed optional subsets "
    if (placed)
        keys = keys "file "
    split(ENVIRON["BUFR_CSV_LABELS"], label, "\n")
    kept_count = split_columns(levels || by_item ? keep : columns, kept, keys)
    if (levels)
        level_count = split_columns(columns, level, "")
    is_joined = !placed && ("offset" in is_key || "length" in is_key)
    if (is_joined && (listing == "" || faults == ""))
        fail("the columns 'offset' and 'length' require listing=FILE (the output of bufr ls)" \
            " and faults=FILE (the standard error output of bufr dump)")
    fault = -1
    for (column = 1; column <= kept_count; column++) {
        word = kept[column]
        item_of[column] = word in is_key || word ~ /:/ ? word : word ":1"
        is_kept[item_of[column]] = 1
        in_keep[substr(word, 1, 6)] = 1
    }
    for (column = 1; column <= level_count; column++)
        in_levels[level[column]] = 1
    if (levels)
        for (column = 31000; column <= 31002; column++)
            factors["0" column] = wanted["0" column] = 1
    wanted["message"] = wanted["subset"] = wanted["end"] = 1
    if (placed)
        wanted["#"] = 1
    message_begin = json ? "{\"message\":" : ""
    subset_middle = json ? ",\"subset\":" : ","
    item_begin = json ? ",\"item\":" : ","
    fxy_begin = json ? ",\"descriptor\":\"" : ","
    value_begin = json ? "\",\"value\":" : ","
    name_begin = json ? ",\"name\":" : ","
    unit_begin = json ? ",\"unit\":" : ","
    row_end = json ? "}" : ""
    reference = name_begin "\"REFERENCE\"" cell(unit_begin, "") row_end
    if (!json)
        print "message,subset" heading (by_item ? ",item,descriptor,value,name,unit" : "")
}

# Most items are not in any column. They are skipped outside passes, and counted inside passes.
!($1 in wanted) {
    if (by_item) {
        if (subset && /^[0-3R]/)
            write_item()
    } else if (left || open)
        if (open && opener != "" && $1 != opener && (left || opened < 2 || pass_inner || items != pass_items))
            items += /^[0-3]/
        else if (/^[0-3]/)
            item($1)
    next
}
/^[0-3]/ {
    if (twice)
        next
    if ($1 in in_keep) {
        word = $1 ":" ++seen[$1]
        if (word in is_kept)
            first[word] = field()
    }
    item($1)
    next
}
$1 == "message" {
    message++
    is_open = 1
    if (is_joined && !next_listed())
        fail("the dump has more messages than the listing; make both from the same file")
    next
}
$1 == "end" {
    end_subset()
    is_open = 0
    if (feed != "0")
        fflush()
    next
}
$1 == "subset" {
    end_subset()
    subset = $2
    split("", first)
    split("", seen)
    for (key in is_key)
        first[key] = header[key]
    if (by_item) {
        items = 0
        subset_begin = begin_row() item_begin
    }
    next
}
$1 == "#" {
    take_place()
    next
}
{ header[$1] = $2 }

END {
    if (failed)
        exit failed
    if (is_open)
        fail("the dump is incomplete: it ends in the middle of a message")
    if (is_joined && next_listed())
        fail("the listing has more messages than the dump and the fault lines combined; make all three from the same file")
    if (!message && NR)
        fail("the input is not a dump; pass the output of bufr dump or bufr-auto")
    if (!message)
        exit
    for (column = 1; column <= kept_count; column++)
        if (!(item_of[column] in had) && (has_rows || !levels))
            tell_empty(kept[column], "no row contains this item")
    # If there are no rows, columns that occur in levels are not reported.
    for (column = 1; column <= level_count; column++) {
        word = level[column]
        if (place_of[word] == 1)
            tell_empty(word, word " occurs only outside the levels; " (word in several ? \
                "to get its first two values, pass " kept_by word "," word ":2" : "pass " kept_by word " instead"))
        else if (place_of[word] < 3 && (has_rows || !place_of[word]))
            tell_empty(word, "no row contains this item")
    }
    if (bare && feed != 1)
        tell_skipped(bare, "without levels", first_bare)
    if (unclear && feed != 1)
        tell_skipped(unclear, "with ambiguous levels", first_unclear)
    if (unclear)
        exit 1
}
