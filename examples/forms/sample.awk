# Keeps about one id in n of a webcache trace, from 2 to 100000: awk -v n=100 -f sample.awk. All requests of an id stay or go,
# by a hash of it, and lines stay as they are. This is spatial sampling (Waldspurger, Park, Garthwaite and Ahmad 2015): a cache
# of an n-th of the capacity has about the same hit ratio on what is kept. An object above an n-th of the capacity never fits
# there. A line of another form is refused. The hash is the same in each awk: its products stay below 2^53.
function refuse(why, status) { print "sample.awk: " why > "/dev/stderr"; failed = status; exit status }
function is_right() { return $2 ~ /^[0-9]+$/ && $3 ~ /^[0-9]+\r?$/ }
function plain(number) { sub(/^0+/, "", number); return number == "" ? "0" : number }
# Cubes are a permutation below this prime, since it is 2 more than a multiple of 3.
function cube(number) { number %= prime; return number * number % prime * number % prime }
# A number below the prime, of seven digits of the id at a time; two more turns spread ids of few digits.
function hash(id,  at, sum) {
    sum = length(id)
    for (at = 1; at <= length(id); at += 7) sum = cube(sum * 24691 + substr(id, at, 7))
    return cube(cube(sum * 48271 + 1) * 69621 + 2)
}
BEGIN {
    if (n !~ /^[0-9]+$/ || n < 2 || n > 100000) refuse("n must be a number, from 2 to 100000: awk -v n=100 -f sample.awk", 2)
    prime = 2 ^ 26 - 5
}
/^[ \t]*\r?$/ { next }
!is_right() { refuse("line " NR " must be: time id size", 1) }
hash(plain($2)) * n < prime { print; kept++ }
END { fflush(); printf "kept %d of %d lines\n", kept, NR > "/dev/stderr"; if (failed || !kept) exit failed ? failed : 1 }
