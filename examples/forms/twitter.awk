# Twitter's cache traces to webcache, for count=reads. Their columns, with commas between them: timestamp, anonymized key,
# key size, value size, client id, operation and TTL. An object is a key, of both sizes together. Each get and gets is a
# line with r; each operation that stores a value is one with w, which fills the cache and scores nothing. A delete is
# left out, which loosens the bound at most. A missed get is logged with a value of size 0: it has the last size of its
# key. A line whose key has a comma is left out. The time is in seconds, as published. As a set gives its key another
# value, replace=yes beside count=reads is for these traces. The TTL is left out; if each value has one, idle=T with the
# greatest of them bounds the hits.
function is_number(word) { return word ~ /^[0-9]+$/ }
function is_right() { return NF == 7 && is_number($1) && $2 != "" && is_number($3) && is_number($4) && $6 ~ /^[a-z]+$/ }
function refuse(why) { print "twitter.awk: " why > "/dev/stderr"; exit 1 }
BEGIN {
    if (length("a\0b") != 3) refuse("this awk ends a line at a NUL byte; take mawk or gawk")
    FS = ","
}
{ sub(/\r$/, "") }
FNR == 1 && !is_right() { refuse("line 1 must be: timestamp,key,key size,value size,client id,operation,TTL") }
is_right() && $6 ~ /^(gets?|set|add|replace|cas|append|prepend|incr|decr)$/ {
    if (!($2 in number)) number[$2] = ++keys
    reads = $6 ~ /^get/
    size = reads && $4 == 0 && ($2 in last) ? last[$2] : $3 + $4
    if ($4 > 0) last[$2] = size
    printf "%s %d %.0f %s\n", $1, number[$2], size, reads ? "r" : "w"
    kept++
}
END { fflush(); printf "kept %d of %d lines\n", kept, NR > "/dev/stderr"; if (!kept) exit 1 }
