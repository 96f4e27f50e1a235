# arc or msr lines to webcache, a line for each block that one asks for: awk -v form=msr -v block=4096 -f blocks.awk.
# A block of msr has 4096 bytes if block isn't given, and one of arc has 512. A line that goes to block or byte 2^53 or
# beyond is left out: awk computes with 53 bits. A line of more than 2^25 blocks, the most that the program keeps, is
# refused. The time is the number of the line.
function refuse(why) { print "blocks.awk: " why > "/dev/stderr"; exit 1 }
function is_number(word) { return word ~ /^[0-9]+$/ }
function plain(number) { sub(/^0+/, "", number); return number == "" ? "0" : number }
function is_right() {
    if (form == "arc") return is_number($1) && is_number($2) && $1 + $2 < 2 ^ 53
    return NF >= 6 && is_number($3) && $4 ~ /^([Rr][Ee][Aa][Dd]|[Ww][Rr][Ii][Tt][Ee])$/ && is_number($5) && is_number($6) &&
        $5 + $6 < 2 ^ 53
}
BEGIN {
    if (form != "arc" && form != "msr") refuse("form must be arc or msr: awk -v form=msr -f blocks.awk")
    if (block == "") block = form == "arc" ? 512 : 4096
    if (!is_number(block) || block < 1 || block > 2 ^ 48) refuse("block must be a number of bytes, from 1 to 2^48")
    if (form == "arc" && block != 512) refuse("a block of arc has 512 bytes")
    if (form == "msr") FS = ","
}
{ sub(/\r$/, "") }
FNR == 1 && !is_right() && form == "arc" { refuse("line 1 must be: first block, number of blocks") }
FNR == 1 && !is_right() { refuse("line 1 must be: time,host,disk,Read or Write,offset,size") }
is_right() && (form == "arc" ? $2 : $6) > 0 {
    volume = form == "arc" ? "" : $2 "," plain($3)
    first = form == "arc" ? $1 : int($5 / block)
    last = form == "arc" ? $1 + $2 - 1 : int(($5 + $6 - 1) / block)
    if (last - first >= 2 ^ 25) refuse("line " NR " asks for more than 2^25 blocks, the most that the program keeps")
    for (i = first; i <= last; i++) {
        name = volume sprintf(",%.0f", i)
        if (!(name in number)) number[name] = ++blocks
        print NR, number[name], block
    }
    kept++
}
END { fflush(); printf "kept %d of %d lines\n", kept, NR > "/dev/stderr"; if (!kept) exit 1 }
