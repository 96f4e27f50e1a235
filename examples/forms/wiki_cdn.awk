# Wikipedia's CDN traces of uploads to webcache. Their columns, with tabs between them and a heading: relative_unix,
# hashed_path_query, image_type, response_size and time_firstbyte. An object is a hash, of the size of its response. The
# time is in seconds, as published.
function is_right() { return NF == 5 && $1 ~ /^[0-9]+$/ && $2 != "" && $4 ~ /^[0-9]+$/ }
BEGIN { FS = "\t" }
{ sub(/\r$/, "") }
FNR == 1 && !(NF == 5 && $1 == "relative_unix" && $2 == "hashed_path_query" && $4 == "response_size") {
    print "wiki_cdn.awk: line 1 must be the heading: relative_unix, hashed_path_query, image_type, response_size," \
        " time_firstbyte, with tabs between them" > "/dev/stderr"
    exit 1
}
FNR == 1 { headings++; next }
FNR == 2 && !is_right() {
    print "wiki_cdn.awk: line 2 must have five columns, and numbers in the first and the fourth" > "/dev/stderr"
    exit 1
}
is_right() {
    if (!($2 in number)) number[$2] = ++paths
    print $1, number[$2], $4
    kept++
}
END { fflush(); printf "kept %d of %d lines\n", kept, NR - headings > "/dev/stderr"; if (!kept) exit 1 }
