# A table with commas between its columns and a heading, to webcache. The columns of time, key and size are found by their
# names, in any order, among others, in letters of either case: those in BEGIN below. Where they are called otherwise, give
# their numbers: awk -v time=1 -v key=2 -v size=3 -f key_table.awk; time=0 takes the number of the line as the time. With all
# three given the heading may be missing. A key is any text without a comma. Blanks around a comma don't count. With -v op=4
# that column has the operation, for count=reads: a get or a read is a line with r, a delete is left out and counted, and each
# other operation is one with w, which fills the cache and scores nothing. A get of size 0 missed: it has the last size of its
# key. As a set gives its key another value, replace=yes beside count=reads is for such a table.
# The time is the word that stands there, in the unit of the table; idle=T needs whole numbers. With -v unit=ms it is a number
# of seconds, with a fraction or without, and is cut to whole milliseconds; a line with another is left out.
function refuse(why) { print "key_table.awk: " why > "/dev/stderr"; exit 1 }
function is_right() {
    return NF == columns && (!at["time"] || is_time($at["time"])) && $at["key"] != "" && $at["size"] ~ /^[0-9]+$/ &&
        (!at["op"] || $at["op"] ~ /^[A-Za-z_]+$/)
}
function is_time(word) { return unit == "ms" ? word ~ /^[0-9]+(\.[0-9]*)?$/ : word ~ /^[^ \t]+$/ }
# The time as it is printed. It is cut as a text, so no digit is lost.
function time_of(word,  dot) {
    if (unit != "ms") return word
    dot = index(word, ".")
    return dot ? substr(word, 1, dot - 1) substr(substr(word, dot + 1) "000", 1, 3) : word "000"
}
# A word with the small letters of A to Z, whatever the locale.
function lower(word,  i, at, small) {
    for (i = 1; i <= length(word); i++) {
        at = index("ABCDEFGHIJKLMNOPQRSTUVWXYZ", substr(word, i, 1))
        small = small (at ? substr("abcdefghijklmnopqrstuvwxyz", at, 1) : substr(word, i, 1))
    }
    return small
}
# The number of the column of a role: the one that is given, or the only one that has a name of it.
function column_of(role, given,  i, found) {
    if (given != "") {
        if (given !~ /^[0-9]+$/ || given > NF || given < (role != "time")) refuse(role "=" given ": line 1 has no such column")
        return given + 0
    }
    for (i = 1; i <= NF; i++) {
        if ($i !~ /^[A-Za-z_]+$/ || !index(names[role], " " lower($i) " ")) continue
        if (found) refuse("line 1 has two columns of a " role "; give the number of one, as -v " role "=" i)
        found = i
    }
    if (!found) refuse("line 1 has no column of a " role "; it must be a heading with time, key and size, or give their numbers: " \
        "-v time=1 -v key=2 -v size=3" (role == "time" ? "; -v time=0 if there is no time" : ""))
    return found
}
BEGIN {
    if (length("a\0b") != 3) refuse("this awk ends a line at a NUL byte; take mawk or gawk")
    FS = "[ \t]*,[ \t]*"
    if (unit != "" && unit != "ms") refuse("unit must be ms, if it is given")
    if (unit != "" && time == "0") refuse("unit=ms needs a column of times, and time=0 takes the number of the line")
    names["time"] = " time timestamp ts date datetime epoch "
    names["key"] = " key id url uri path object object_id obj_id name "
    names["size"] = " size bytes length value_size size_bytes object_size obj_size content_length "
}
{ sub(/^[ \t]+/, ""); sub(/[ \t]*\r?$/, "") }
FNR == 1 {
    columns = NF
    at["time"] = column_of("time", time)
    at["key"] = column_of("key", key)
    at["size"] = column_of("size", size)
    at["op"] = op == "" ? 0 : column_of("op", op)
    has_heading = time == "" || key == "" || size == "" || !is_right()
    headings += has_heading
    if (has_heading) next
}
FNR == 2 && has_heading && !is_right() {
    refuse("line 2 must have the columns of line 1, " (at["time"] ? (unit == "ms" ? "seconds" : "a word") " as time and " : "") "a number as size" \
        (at["op"] ? " and a word as operation" : ""))
}
is_right() {
    reads = at["op"] && $at["op"] ~ /^([Gg][Ee][Tt][Ss]?|[Rr][Ee][Aa][Dd]|[Gg][Ee][Tt]_[Ll][Ee][Aa][Ss][Ee])$/
    if (at["op"] && $at["op"] ~ /^[Dd][Ee][Ll]([Ee][Tt][Ee])?$/) { deletes++; next }
    word = $at["key"]
    if (!(word in number)) number[word] = ++keys
    bytes = reads && $at["size"] + 0 == 0 && (word in last) ? last[word] : $at["size"]
    if (bytes + 0 > 0) last[word] = bytes
    print (at["time"] ? time_of($at["time"]) : NR), number[word], bytes (at["op"] ? (reads ? " r" : " w") : "")
    kept++
}
END {
    fflush()
    others = NR - headings - kept - deletes
    if (deletes) print "left out: " deletes " with a delete" (others ? ", " others " of another form" : "") > "/dev/stderr"
    printf "kept %d of %d lines\n", kept, NR - headings > "/dev/stderr"
    if (!kept) exit 1
}
