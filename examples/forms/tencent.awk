# Tencent's block traces to msr. Their columns, with commas between them: Timestamp, Offset, Size, IOType (0 is a read,
# 1 a write) and VolumeID. Offset and Size count sectors of 512 bytes; one of 2^44 or more is left out: awk computes
# with 53 bits.
function is_sectors(word) { return word ~ /^[0-9]+$/ && word < 2 ^ 44 }
function is_right() {
    return NF == 5 && $1 ~ /^[0-9]+$/ && is_sectors($2) && is_sectors($3) && $4 ~ /^[01]$/ && $5 ~ /^[0-9]+$/
}
BEGIN { FS = "," }
{ sub(/\r$/, "") }
FNR == 1 && !is_right() {
    print "tencent.awk: line 1 must be: Timestamp,Offset,Size,IOType (0 or 1),VolumeID, all numbers" > "/dev/stderr"
    exit 1
}
is_right() {
    printf "%s,tencent,%s,%s,%.0f,%.0f\n", $1, $5, ($4 == 0 ? "Read" : "Write"), 512 * $2, 512 * $3
    kept++
}
END { fflush(); printf "kept %d of %d lines\n", kept, NR > "/dev/stderr"; if (!kept) exit 1 }
