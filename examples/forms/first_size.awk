# A webcache trace in which the sizes of an id differ, to one in which each id keeps its first size above 0, and a
# line its fourth word, if it has one.
function is_right() { return $2 ~ /^[0-9]+$/ && $3 ~ /^[0-9]+$/ }
function plain(number) { sub(/^0+/, "", number); return number == "" ? "0" : number }
{ sub(/\r$/, "") }
FNR == 1 && !is_right() {
    print "first_size.awk: line 1 must be: time id size" > "/dev/stderr"
    exit 1
}
!is_right() { next }
{ id = plain($2) }
$3 > 0 && !(id in size) { size[id] = $3 }
id in size { print $1, $2, size[id] (NF > 3 ? " " $4 : ""); kept++ }
END { fflush(); printf "kept %d of %d lines\n", kept, NR > "/dev/stderr"; if (!kept) exit 1 }
