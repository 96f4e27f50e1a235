# The text of blkparse to arc: each queued read or write of one device. Both count blocks of 512 bytes.
# The device is that of the first line, or another: awk -v device=8,16 -f blkparse.awk.
function is_right() { return NF >= 7 && $1 ~ /^[0-9]+,[0-9]+$/ && $4 ~ /^[0-9]+\.[0-9]+$/ }
{ sub(/\r$/, "") }
FNR == 1 && !is_right() {
    print "blkparse.awk: line 1 must be: device (as 8,0) cpu sequence time process action kind .." > "/dev/stderr"
    exit 1
}
device == "" { device = $1 }
is_right() && $1 == device && $6 == "Q" && $7 ~ /[RW]/ && $8 ~ /^[0-9]+$/ && $9 == "+" && $10 ~ /^[0-9]+$/ {
    print $8, $10
    kept++
}
END { fflush(); printf "kept %d of %d lines\n", kept, NR > "/dev/stderr"; if (!kept) exit 1 }
