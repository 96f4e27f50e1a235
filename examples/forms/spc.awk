# SPC lines of unit, address, size in bytes, opcode (r or w) and time, to msr. An address counts blocks of 512 bytes.
# One of 2^44 or more is left out: awk computes with 53 bits.
function is_number(word) { return word ~ /^[0-9]+$/ }
function is_right() {
    return NF >= 5 && is_number($1) && is_number($2) && $2 < 2 ^ 44 && is_number($3) && $4 ~ /^[RrWw]$/
}
BEGIN { FS = ","; OFS = "," }
{ sub(/\r$/, "") }
FNR == 1 && !is_right() {
    print "spc.awk: line 1 must be: unit,address,size,opcode (r or w),time" > "/dev/stderr"
    exit 1
}
is_right() { print $5, "spc", $1, ($4 ~ /^[Rr]$/ ? "Read" : "Write"), sprintf("%.0f", 512 * $2), $3; kept++ }
END { fflush(); printf "kept %d of %d lines\n", kept, NR > "/dev/stderr"; if (!kept) exit 1 }
