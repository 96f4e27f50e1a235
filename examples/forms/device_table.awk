# Lines of device, opcode (R or W), offset, length and time with commas between them, in bytes, to msr.
function is_number(word) { return word ~ /^[0-9]+$/ }
function is_right() { return NF == 5 && is_number($1) && $2 ~ /^[RW]$/ && is_number($3) && is_number($4) }
BEGIN { FS = ","; OFS = "," }
{ sub(/\r$/, "") }
FNR == 1 && !is_right() {
    print "device_table.awk: line 1 must be: device,opcode (R or W),offset,length,time" > "/dev/stderr"
    exit 1
}
is_right() { print $5, "disks", $1, ($2 == "R" ? "Read" : "Write"), $3, $4; kept++ }
END { fflush(); printf "kept %d of %d lines\n", kept, NR > "/dev/stderr"; if (!kept) exit 1 }
