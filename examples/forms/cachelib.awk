# CacheLib's kvcache traces to webcache, for count=reads. They have a heading that names the columns, with commas between
# them: key, op, size, op_count and key_size, in any order and among others. A line stands for op_count requests: of GET
# and GET_LEASE each is a line with r; of SET and SET_LEASE each is one with w, which fills the cache and scores nothing.
# A DELETE is left out, which loosens the bound at most. An object is a key, of both sizes together. A missed get is
# logged with size 0: it has the last size of its key. The time is the number of the line, so idle=T counts lines. As a
# set gives its key another value, replace=yes beside count=reads is for these traces. A line of more than 2^25 requests,
# the most that the program keeps, is refused.
function refuse(why) { print "cachelib.awk: " why > "/dev/stderr"; exit 1 }
function is_number(word) { return word ~ /^[0-9]+$/ }
function is_right() {
    return NF == columns && $at["key"] != "" && $at["op"] ~ /^[A-Z_]+$/ && is_number($at["size"]) &&
        is_number($at["op_count"]) && is_number($at["key_size"])
}
BEGIN { FS = "," }
{ sub(/\r$/, "") }
FNR == 1 {
    split("", at)
    for (i = 1; i <= NF; i++) at[$i] = i
    columns = NF
    if (!("key" in at && "op" in at && "size" in at && "op_count" in at && "key_size" in at)) {
        refuse("line 1 must be a heading with key, op, size, op_count and key_size")
    }
    headings++
    next
}
FNR == 2 && !is_right() { refuse("line 2 must have the columns of the heading, and numbers as sizes and op_count") }
is_right() && $at["op"] ~ /^[GS]ET(_LEASE)?$/ && $at["op_count"] > 0 {
    if ($at["op_count"] > 2 ^ 25) refuse("line " NR " stands for more than 2^25 requests, the most that the program keeps")
    key = $at["key"]
    if (!(key in number)) number[key] = ++keys
    reads = $at["op"] ~ /^G/
    size = reads && $at["size"] == 0 && (key in last) ? last[key] : $at["key_size"] + $at["size"]
    if ($at["size"] > 0) last[key] = size
    for (i = 0; i < $at["op_count"]; i++) printf "%d %d %.0f %s\n", NR, number[key], size, reads ? "r" : "w"
    kept++
}
END { fflush(); printf "kept %d of %d lines\n", kept, NR - headings > "/dev/stderr"; if (!kept) exit 1 }
