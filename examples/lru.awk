# Replays least recently used on a webcache trace, by the rules of play of the bounds: awk -v capacity=BYTES -f lru.awk <TRACE.
# An object is an id and a size. One that is larger than the capacity is never kept. With -v flags=1 it writes a line for
# each request, 1 for a hit and 0 for a miss, as `bound_cli judge` takes them. It reads lines as the program does, and ends
# with 1 at one that the program refuses. Awk computes with 53 bits: the capacity is at most 2^53 - 2^48, and the bytes of all
# hits below 2^53. It takes mawk or gawk; an awk that ends a line at a NUL byte is refused.
function refuse(why) { print "lru.awk: " why > "/dev/stderr"; failed = 1; exit 1 }
function plain(number) { sub(/^0+/, "", number); return number == "" ? "0" : number }
function is_number(word) { return word ~ /^[0-9]+$/ }
# Whether a number of digits without leading zeros is at most another one.
function is_within(number, most) { return length(number) < length(most) || length(number) == length(most) && number "" <= most "" }
BEGIN {
    FS = "[ \t]+"
    if (length("a\0b") != 3) refuse("this awk ends a line at a NUL byte; take mawk or gawk")
    if (!is_number(capacity) || plain(capacity) == "0" || !is_within(plain(capacity), "8725724278030336")) {
        refuse("capacity must be a number of bytes, from 1 to 2^53 - 2^48: awk -v capacity=8388608 -f lru.awk")
    }
    capacity = plain(capacity) + 0
    oldest = 1
}
{ sub(/\r$/, ""); sub(/^[ \t]+/, "") }
$0 == "" { next }
!is_number($2) || !is_number($3) { refuse("line " NR " must be: time id size") }
{ id = plain($2); digits = plain($3); size = digits + 0 }
!is_within(id, "18446744073709551615") || !is_within(digits, "281474976710656") { refuse("line " NR " has a number that is too large") }
size == 0 { next }
{ object = id " " digits }
flags { print (object in latest ? 1 : 0) }
size > capacity { next }
{
    if (object in latest) { hits++; bytes += size } else held += size
    if (bytes >= 2 ^ 53) refuse("line " NR ": the bytes of the hits pass 2^53, to which awk computes")
    latest[object] = ++uses
    used[uses] = object
    for (; held > capacity; oldest++) {
        if (latest[used[oldest]] == oldest) {
            split(used[oldest], words)
            held -= words[2]
            delete latest[used[oldest]]
        }
        delete used[oldest]
    }
}
END { if (failed) exit 1; if (!flags) printf "hits %d bytes %.0f\n", hits, bytes }
