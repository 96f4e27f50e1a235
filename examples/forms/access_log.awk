# The log of a web server, in the common or the combined form, to webcache: each GET that was answered with status 200, or
# with one of others, as in awk -v status=200,206,304 -f access_log.awk. An object is a path; -v query=drop leaves out its
# query. It has the size of its first answer, but the bytes of 206 and 304 are not those of the object: such an answer is
# kept once another has told the size. If the first line has a virtual host in front, so must all; it is part of the object.
# The time is that of the line, in seconds since 1970 (UTC).
function refuse(why) { print "access_log.awk: " why > "/dev/stderr"; exit 1 }
function has_head(front) {
    return $1 ~ "^" front "[^ ]+ - .+ \\[" two "/[A-Z][a-z][a-z]/" two two ":" two ":" two ":" two " [-+]" two two "\\] $"
}
function is_right() {
    return NF >= 3 && has_head(hosts) && seconds_of(substr($1, length($1) - 27, 26)) >= 0 && $3 ~ /^ [0-9][0-9][0-9] ([0-9]+|-)( |$)/
}
# The seconds from 1970 to a time as 27/Nov/2026:10:00:00 +0100, or -1 if it has no such month or is before 1970.
function seconds_of(text,  day, zone) {
    day = substr(text, 1, 11)
    if (!(day in days)) days[day] = days_to(substr(day, 8), (index(months, substr(day, 4, 3)) + 2) / 3, substr(day, 1, 2))
    zone = 3600 * substr(text, 23, 2) + 60 * substr(text, 25, 2)
    seconds = 86400 * days[day] + 3600 * substr(text, 13, 2) + 60 * substr(text, 16, 2) + substr(text, 19, 2)
    seconds -= substr(text, 22, 1) == "-" ? -zone : zone
    return days[day] < 0 ? -1 : seconds
}
function days_to(year, month, day,  leap) {
    if (year < 1970 || month != int(month) || month < 1) return -1
    leap = month > 2 && year % 4 == 0 && (year % 100 || year % 400 == 0)
    return 365 * (year - 1970) + int((year - 1969) / 4) - int((year - 1901) / 100) + int((year - 1601) / 400) + before[month] + leap + day - 1
}
function leave(why) { left[why]++; left_out++ }
# The ten most frequent reasons, each with the number of its lines, and then all others.
function reasons_text(  text, why, most, n) {
    for (n = 0; n < 10 && left_out > 0; n++) {
        most = ""
        for (why in left) if (most == "" || left[why] > left[most] || left[why] == left[most] && why < most) most = why
        text = text (n ? ", " : "") left[most] " " most
        left_out -= left[most]
        delete left[most]
    }
    return text (left_out > 0 ? ", " left_out " for other reasons" : "")
}
BEGIN {
    if (length("a\0b") != 3) refuse("this awk ends a line at a NUL byte; take mawk or gawk")
    FS = "\""
    two = "[0-9][0-9]"
    if (status == "") status = "200"
    if (status !~ /^[0-9][0-9][0-9](,[0-9][0-9][0-9])*$/) refuse("status must be numbers of three digits, with commas between them")
    if (query != "" && query != "drop") refuse("query must be drop, if it is given")
    for (i = split(status, words, ","); i > 0; i--) wanted[words[i]]
    months = "JanFebMarAprMayJunJulAugSepOctNovDec"
    split("0 31 59 90 120 151 181 212 243 273 304 334", before, " ")
}
{ sub(/\r$/, "") }
FNR == 1 {
    hosts = has_head("") ? "" : "[^ ]+ "
    if (!is_right()) refuse("line 1 must be: host - user [time] \"request\" status bytes")
}
!is_right() { leave("of another form"); next }
{ split($1, head, " "); split($2, request, " "); split($3, answer, " ") }
request[1] != "GET" { leave(request[1] ~ /^[A-Z]+$/ ? "method " request[1] : "no method"); next }
!(answer[1] in wanted) { leave("status " answer[1]); next }
{
    path = request[2]
    if (query == "drop" && index(path, "?")) path = substr(path, 1, index(path, "?") - 1)
    object = (hosts == "" ? "" : head[1] " ") path
    tells = answer[1] != 206 && answer[1] != 304
}
tells ? answer[2] !~ /^[1-9][0-9]*$/ : !(object in size) { leave("status " answer[1] " without a size"); next }
{
    if (!(object in size)) { number[object] = ++objects; size[object] = answer[2] }
    printf "%.0f %s %s\n", seconds, number[object], size[object]
    kept++
}
END {
    fflush()
    if (left_out > 0) print "left out: " reasons_text() > "/dev/stderr"
    printf "kept %d of %d lines\n", kept, NR > "/dev/stderr"
    if (!kept) exit 1
}
