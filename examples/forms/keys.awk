# Keys, one a line, of any text, to webcache. Each object has size 1, so a capacity counts objects. An awk that ends a line at
# a NUL byte would take different keys for one, and is refused.
function refuse(why) { print "keys.awk: " why > "/dev/stderr"; exit 1 }
BEGIN { if (length("a\0b") != 3) refuse("this awk ends a line at a NUL byte; take mawk or gawk") }
{ sub(/\r$/, "") }
FNR == 1 && $0 == "" { refuse("line 1 must be a key, and is empty") }
$0 != "" {
    if (!($0 in number)) number[$0] = ++keys
    print NR, number[$0], 1
    kept++
}
END { fflush(); printf "kept %d of %d lines\n", kept, NR > "/dev/stderr"; if (!kept) exit 1 }
