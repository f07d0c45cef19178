#!/bin/sh
# Builds the collection program against a given library and compares what it prints with the stored examples.
#
#   LIB=path/of/libbantameasel.a collection/test.sh
#
# CC, VALGRIND, INCLUDE, EXAMPLES and PAGE may name another compiler, valgrind, header folder, examples folder and
# page about books.
# It prints what it did and ends with status 1 at the first difference.
set -eu

here=$(CDPATH='' cd -- "$(dirname -- "$0")" && pwd)
: "${LIB:?LIB is to name libbantameasel.a}"
CC=${CC:-gcc}
VALGRIND=${VALGRIND:-valgrind}
INCLUDE=${INCLUDE:-$here/../include}
EXAMPLES=${EXAMPLES:-$here/../examples}
PAGE=${PAGE:-$here/../docs/BOOKS.md}
work=$(mktemp -d)
trap 'rm -rf "$work"' EXIT
trap 'exit 1' HUP INT TERM
program=$work/collection
checks=0
steps=30 # how often `next 1` is run on one listing, at most

fail() {
    printf 'FAILED: %s\n' "$1" >&2
    for shown in "$work/out" "$work/err"; do
        if [ -s "$shown" ]; then sed 's/^/    /' "$shown" >&2; fi
    done
    exit 1
}

passed() {
    checks=$((checks + 1))
}

# ends STATUS COMMAND..: the command's exit status is STATUS; what it writes is in out and err.
ends() {
    want=$1
    shift
    status=0
    "$@" >"$work/out" 2>"$work/err" || status=$?
    [ "$status" -eq "$want" ] || fail "exit status $status, not $want: $*"
    if [ "$want" -eq 0 ]; then
        [ ! -s "$work/err" ] || fail "a message where all went well: $*"
    else
        [ -s "$work/err" ] || fail "no message where something went wrong: $*"
    fi
    passed
}

# run STATUS WORD..: the program ends so; watched STATUS WORD..: it does so under valgrind, which finds nothing.
run() {
    wanted=$1
    shift
    ends "$wanted" "$program" "$@"
}
watched() {
    wanted=$1
    shift
    ends "$wanted" "$VALGRIND" -q --leak-check=full --error-exitcode=99 "$program" "$@"
}

# said WORDS: the message of the last run has these words.
said() {
    grep -q -F -- "$1" "$work/err" || fail "the message lacks: $1"
    passed
}

# printed WORDS: the output of the last run has these words.
printed() {
    grep -q -F -- "$1" "$work/out" || fail "the output lacks: $1"
    passed
}

# same FILE FILE WHAT
same() {
    cmp -s "$1" "$2" || { diff "$1" "$2" >"$work/out" || true; fail "$3"; }
    passed
}

# The A lines of a stored output; the A lines that a page shows, without their places; the places alone.
a_lines() { sed -n '/^A/p' "$1"; }
page_lines() { sed -n 's/^ *[0-9][0-9]*  A/A/p' "$1"; }
page_places() { sed -n 's/^ *\([0-9][0-9]*\)  A.*/\1/p' "$1"; }

# list BOOK SIZE [-p POINT]: the whole listing, a page in each run, into listed and places; right has the stored lines.
list() {
    listed_book=$1
    size=$2
    shift 2
    : >"$work/listed"
    : >"$work/places"
    while :; do
        run 0 "$@" "$listed_book" next "$size"
        page_lines "$work/out" >"$work/page"
        [ -s "$work/page" ] || break
        [ "$(wc -l <"$work/page")" -le "$size" ] || fail "a page of more than $size lines"
        cat "$work/page" >>"$work/listed"
        page_places "$work/out" >>"$work/places"
        [ "$(wc -l <"$work/listed")" -le "$(wc -l <"$work/right")" ] || fail "more lines than are stored: pages of $size"
    done
    printed resolution
}

# The pages of every size, in separate runs, are the lines of the stored output, and their places count up from 1.
check_pages() {
    book=$work/$1.book
    a_lines "$EXAMPLES/$1.out" >"$work/right"
    awk '{ print NR }' "$work/right" >"$work/numbers"
    for size in 1 2 3 1000; do
        rm -f "$work/point"
        list "$book" "$size" -p "$work/point"
        same "$work/right" "$work/listed" "$1: pages of $size differ from the stored listing"
        same "$work/numbers" "$work/places" "$1: the places in pages of $size"
    done
    list "$book" 2
    same "$work/right" "$work/listed" "$1: the listing with the point beside the book"
    run 0 "$book" from-start
    list "$book" 2
    same "$work/right" "$work/listed" "$1: the listing after from-start"
}

# step_on NAME: runs `next 1` while more remain, at most as often as steps says; what it prints is in stepped.
step_on() {
    : >"$work/stepped"
    k=0
    while [ "$k" -lt "$steps" ]; do
        k=$((k + 1))
        run 0 -p "$work/point" "$work/$1.book" next 1
        cat "$work/out" >>"$work/stepped"
        [ "$(tail -n 1 "$work/out")" = 'More remain.' ] || break
    done
}

# after NAME COUNT: begins the listing anew and shows COUNT resolutions; the point reached is in point.
after() {
    run 0 -p "$work/point" "$work/$1.book" from-start
    [ "$2" -eq 0 ] || run 0 -p "$work/point" "$work/$1.book" next "$2"
}

# check_steps NAME COUNT: past COUNT resolutions, `next 1` again and again prints what one `next 9999` does, with the
# words that more remain between two resolutions, and reaches the point that one page of as many does.
check_steps() {
    after "$1" "$2"
    step_on "$1"
    cp "$work/point" "$work/reached"
    after "$1" "$2"
    run 0 -p "$work/point" "$work/$1.book" next "$steps"
    same "$work/point" "$work/reached" "$1: the point reached by next 1 past $2"
    after "$1" "$2"
    run 0 -p "$work/point" "$work/$1.book" next 9999
    awk 'NR > 1 && /  A/ { print "More remain." } { print }' "$work/out" >"$work/whole"
    sed -n "1,$((2 * steps))p" "$work/whole" >"$work/begun"
    same "$work/begun" "$work/stepped" "$1: next 1 again and again past $2 differs from next 9999"
}

# check_all_steps NAME: the listing is stepped through from its start, from each of its resolutions, and at its end.
check_all_steps() {
    count=0
    while [ "$count" -le "$(a_lines "$EXAMPLES/$1.out" | wc -l)" ]; do
        check_steps "$1" "$count"
        count=$((count + 1))
    done
}

# Every resolution can be picked by its place, one past the last cannot, and each has verdict 0.
check_picks() {
    book=$work/$1.book
    k=0
    while IFS= read -r line; do
        k=$((k + 1))
        run 0 "$book" pick "$k"
        sed -n 2p "$work/out" >"$work/picked"
        printf '%s\n' "$line" >"$work/line"
        same "$work/line" "$work/picked" "$1: pick $k"
        run 0 "$book" judge "$line"
        printed 'Verdict 0: '
    done <"$work/right"
    run 1 "$book" pick "$((k + 1))"
    said "the book has $k."
}

# A stored F line: every command is refused by that number and line.
check_refused() {
    number=$(sed -n 's/^F *\([0-9]*\) .*/\1/p' "$EXAMPLES/$1.out")
    at=$(sed -n 's/^F.* \([0-9]*\)$/\1/p' "$EXAMPLES/$1.out")
    for what in next from-start 'pick 1' 'judge A' 'name A 1' 'go A' names 'drop A'; do
        # shellcheck disable=SC2086
        run 1 "$work/$1.book" $what
        said "refusal $number at line $at: "
    done
    [ ! -e "$work/$1.book.point" ] || fail "$1: a point was written for a refused book"
    [ ! -e "$work/$1.book.names" ] || fail "$1: a store was written for a refused book"
}

# bytes_of NUMBER: its 8 bytes in a store, the least first.
bytes_of() {
    shift_by=0
    while [ "$shift_by" -lt 64 ]; do
        # shellcheck disable=SC2059
        printf "\\$(printf %03o $(($1 >> shift_by & 255)))"
        shift_by=$((shift_by + 8))
    done
}

# entry NAME TAKEN HELD DENIED: the 32 bytes of an entry; filled: the entries given, with zeros behind, are a store.
entry() {
    printf '%-8s' "$1"
    bytes_of "$2"
    bytes_of "$3"
    bytes_of "$4"
}
filled() { cat - /dev/zero | head -c 1024; }

# holds WHAT: the store in names has the bytes of right.
holds() { same "$work/right" "$work/names" "the bytes of the store: $1"; }

# named BOOK WORD..: the words are done with the store in names and the point in point.
named() {
    book=$work/$1.book
    shift
    run 0 -s "$work/names" -p "$work/point" "$book" "$@"
}

# not_named BOOK NUMBER WORD..: the words are refused by this number, and neither file is changed.
not_named() {
    book=$work/$1.book
    number=$2
    shift 2
    cp "$work/names" "$work/names-before"
    cp "$work/point" "$work/point-before"
    run 1 -s "$work/names" -p "$work/point" "$book" "$@"
    [ ! -s "$work/out" ] || fail "something was printed, though it was refused: $*"
    said "refusal $number: "
    same "$work/names-before" "$work/names" "a store was changed, though it was refused: $*"
    same "$work/point-before" "$work/point" "a point was changed, though it was refused: $*"
    no_new_file
}

# No new file is left beside the store.
no_new_file() {
    set -- "$work"/names.new*
    [ ! -e "$1" ] || fail "a new file was left behind: $1"
    passed
}

# check_names NAME: every resolution of the book can be named by its place and, once shown, without it; the names are
# listed with their lines; going to each shows it, and the next page has what follows it; each is dropped.
check_names() {
    a_lines "$EXAMPLES/$1.out" >"$work/all"
    all=$(wc -l <"$work/all")
    rm -f "$work/names" "$work/point"
    k=0
    while [ "$k" -lt "$all" ]; do
        k=$((k + 1))
        named "$1" next 1
        if [ $((k % 2)) -eq 0 ]; then named "$1" name "$(printf 'n%02d' "$k")"
        else named "$1" name "$(printf 'n%02d' "$k")" "$k"; fi
        printed "$(printf 'N%02d is resolution %d of ' "$k" "$k")"
    done
    named "$1" names
    sed -n 's/^N[0-9]* *A/A/p' "$work/out" >"$work/listed"
    same "$work/all" "$work/listed" "$1: the lines of the names"
    sed -n 's/^N0*\([0-9]*\) .*/\1/p' "$work/out" >"$work/places"
    awk '{ print NR }' "$work/all" >"$work/numbers"
    same "$work/numbers" "$work/places" "$1: the names in order"
    printed "there is room for $((32 - all)) more."
    while [ "$k" -gt 0 ]; do
        check_return "$1" "$(printf 'N%02d' "$k")" "$k"
        k=$((k - 1))
    done
    : | filled >"$work/right"
    [ "$all" -eq 0 ] || holds "$1, when all names are dropped"
}

# check_return NAME WORD PLACE: going to the name shows the resolution at this place, and the next page what follows it;
# then the name is dropped.
check_return() {
    named "$1" go "$2"
    page_lines "$work/out" >"$work/page"
    sed -n "$3p" "$work/all" >"$work/line"
    same "$work/line" "$work/page" "$1: going to $2"
    printed 'The next page begins after it.'
    named "$1" next 9999
    page_lines "$work/out" >"$work/page"
    sed "1,$3d" "$work/all" >"$work/line"
    same "$work/line" "$work/page" "$1: going on from $2"
    printed 'End of the listing'
    named "$1" drop "$2"
    printed "$2 is dropped."
    grep -q -F -- "$(sed -n "$3p" "$work/all")" "$work/out" || fail "$1: dropping $2 does not show its line"
}

# judged BOOK LINE VERDICT
judged() {
    run 0 "$work/$1.book" judge "$2"
    printed "Verdict $3: "
}

# misplaced POINT NUMBER: each page of k7 refuses the point of another book by this number, in the same words, and
# leaves it as it was.
misplaced() {
    printf '%s\n' "$1" >"$work/before"
    cp "$work/before" "$work/point"
    for what in 'next 2' 'next 1' next; do
        # shellcheck disable=SC2086
        run 1 -p "$work/point" "$work/k7.book" $what
        [ ! -s "$work/out" ] || fail "a page was shown from a point of another book: $what"
        said "refusal $2: "
        said 'the point was written down for another book'
        same "$work/before" "$work/point" "a point that does not fit the book was changed: $what"
        [ "$what" != 'next 2' ] || cp "$work/err" "$work/words"
        same "$work/words" "$work/err" "another message than that of next 2: $what"
    done
}

# damaged NAME REFUSAL CAUSE: under valgrind the program refuses the damaged book with these words, and valgrind finds
# nothing.
damaged() {
    name=$1
    watched 1 "$work/$name" next
    said "$2"
    said "$3"
    refusals=$((refusals + 1))
}

# pointed LINE FIRST WIDTH: the last message shows this line of the book, and points at so many columns from the first.
pointed() {
    LC_ALL=C tr -c ' -~\n' '?' <"$work/$name" | awk -v line="$1" 'NR == line { print "    " $0 }' >"$work/right"
    awk -v first="$2" -v width="$3" 'BEGIN {
        printf "    %" first - 1 "s", ""
        for (c = 0; c < width; c++) printf "^"
        print "" }' >>"$work/right"
    sed -n 2,3p "$work/err" >"$work/shown"
    same "$work/right" "$work/shown" "$name: the columns that are pointed at"
}

# wrong_field BOOK LINE K WRONG FROM WIDTH: field K of this line, from 0 on, is replaced by what is wrong; so many of its
# columns are pointed at, from one on, counted from 1.
wrong_field() {
    name=field
    sed "$2s/^\(.\{$((1 + 4 * $3))\}\)..../\1$4/" "$EXAMPLES/$1.book" >"$work/field"
    run 1 "$work/field" next
    said " at line $2: "
    pointed "$2" "$((1 + 4 * $3 + $5))" "$6"
}

# each_field BOOK LINE COUNT: in each of the fields of this line, what is misspelt and what is out of range is pointed
# at.
each_field() {
    k=0
    while [ "$k" -lt "$3" ]; do
        wrong_field "$1" "$2" "$k" '   x' 4 1
        wrong_field "$1" "$2" "$k" '  1-' 4 1
        wrong_field "$1" "$2" "$k" '    ' 1 4
        wrong_field "$1" "$2" "$k" '0  0' 2 2
        wrong_field "$1" "$2" "$k" '0001' 1 3
        wrong_field "$1" "$2" "$k" ' 999' 1 4
        wrong_field "$1" "$2" "$k" '-999' 1 4
        k=$((k + 1))
    done
}

command -v "$VALGRIND" >/dev/null || fail "valgrind is not installed"
"$CC" -std=c11 -O2 -g -Wall -Wextra -Werror -pedantic -I"$INCLUDE" "$here"/*.c "$LIB" -o "$program"
echo "built collection with warnings as errors"

books=0
for stored in "$EXAMPLES"/*.out; do
    name=$(basename "$stored" .out)
    cp "$EXAMPLES/$name.book" "$work/$name.book"
    case $(head -n 1 "$stored") in
    F*)
        check_refused "$name"
        echo "$name: refused as stored" ;;
    *)
        check_pages "$name"
        check_picks "$name"
        check_all_steps "$name"
        check_names "$name"
        echo "$name: listed by pages and by next 1, picked, judged and named; resolutions: $all" ;;
    esac
    books=$((books + 1))
done
[ "$books" -ge 6 ] || fail "only $books examples were found"

# The one resolution of bare is the pair 0, 0, 0, which After never answers.
printf 'B   1   1\nZ   0\n' >"$work/bare.book"
check_steps bare 0
check_steps bare 1
cp "$EXAMPLES/many.book" "$work/many.book"
for count in 0 1 255 256 5000; do
    check_steps many "$count"
done
echo "bare, many: next 1 again and again, $steps times at most, prints what one next 9999 does"

z8='   0   0   0   0   0   0   0   0'
judged gown "A   0   0   0   0   0$z8+++++" 1
judged gown-ranked "A   2   4   5   0   0$z8.+..++" 2
judged chasuble "A   2   1   2   0   0$z8++-+.+.+" 3
judged gown-ranked "A   1   4   0   0   0$z8.+...+" 4
judged k7 "A   2   1   2   0   0$z8+++" 5
judged vestments "A   0   0   0   0   0   0   0   0   0$z8++++++++++++++" 1
echo "judged a line for each verdict 1 to 5"

# Preferences under a condition. Each exception of worn gives its statement; 1 outranks 2 unless statement 3 is held, and
# 3 outranks 4 always.
cat >"$work/worn.book" <<'BOOK'
B   1   4
R   0   0   0   0   0   1   2   0   0
X   1   0   0   0   0   0   0   0   0
X   2   0   0   0   0   0   0   0   0
X   3   0   0   0   0   0   0   0   0
X   4   0   0   0   0   0   0   0   0
P   3   4
Q   1   2   0   0   0   0   3   0   0   0
Z   7
BOOK
judged worn "A   1   1   0   0   0$z8+..." 0
judged worn "A   2   2   3   0   0$z8.++." 0
judged worn "A   1   3   0   0   0$z8..+." 1
judged worn "A   2   1   2   0   0$z8++.." 2
judged worn "A   3   1   3   4   0$z8+.++" 2
judged worn "A   1   2   0   0   0$z8.+.." 4
printed 'some view takes an exception that outranks one taken here, by preferences that hold in both.'
judged worn "A   2   1   4   0   0$z8+..+" 4
judged worn "A   2   1   3   0   0$z8+.+." 5
printed 'some undominated view takes only a part of the exceptions taken here.'
judged worn "A   3   1   2   3   0$z8+++." 5
judged lined "A   1   2   0   0   0$z8++++.++...+.+" 4
judged lined "A   2   1   5   0   0$z8+++++-..+.+++" 4
judged lined "A   2   3   5   0   0$z8+++++-...+++." 4
run 0 "$work/worn.book" next
page_lines "$work/out" >"$work/page"
printf 'A   1   1   0   0   0%s+...\nA   2   2   3   0   0%s.++.\n' "$z8" "$z8" >"$work/line"
same "$work/line" "$work/page" "the listing of a book with a preference under a condition"
echo "judged and listed books with preferences under a condition"

# Rules with alternatives. The shawl of either is of silk (1) or of a mixture (2), at least one of them; both of both
# bring each other about.
cat >"$work/either.book" <<'BOOK'
B   1   2
O   0   1   2   0   0   0   0   0   0   0   0
Z   1
BOOK
sed '2{h;s/.*/R   2   1   0   0   0   0   0   0   0\nR   1   2   0   0   0   0   0   0   0/;G;};$s/1/3/' \
    "$work/either.book" >"$work/both.book"
judged either "A   0   0   0   0   0$z8+." 0
judged either "A   0   0   0   0   0$z8.+" 0
judged either "A   0   0   0   0   0$z8++" 1
judged either "A   0   0   0   0   0$z8.." 1
judged both "A   0   0   0   0   0$z8++" 0
judged both "A   0   0   0   0   0$z8+." 1
judged silk "A   1   2   0   0   0$z8+.-+..++++" 0
judged silk "A   1   2   0   0   0$z8++-++.++++" 1
judged silk "A   1   1   0   0   0$z8++-.....+." 1
judged silk "A   2   1   2   0   0$z8++-....-++" 5
run 0 "$work/either.book" next
page_lines "$work/out" >"$work/page"
printf 'A   0   0   0   0   0%s.+\nA   0   0   0   0   0%s+.\n' "$z8" "$z8" >"$work/line"
same "$work/line" "$work/page" "the listing of a rule with alternatives"
run 0 "$work/both.book" next
page_lines "$work/out" >"$work/page"
printf 'A   0   0   0   0   0%s++\n' "$z8" >"$work/line"
same "$work/line" "$work/page" "the listing of alternatives that bring each other about"
echo "judged and listed books with alternatives"

run 1 "$work/k7.book" judge "A   1   3   0   0   0$z8+.+"
said 'refusal 12: '
run 1 "$work/k7.book" judge "A   2   1   0   0   0$z8+.+"
said 'the engine writes it otherwise'
run 1 "$work/k7.book" judge "A   2   2   1   0   0$z8+++"
said 'the engine writes it otherwise'
run 1 "$work/k7.book" judge "A   1   1   0   0   0$z8+.+."
said 'has 57 bytes; an A line of this book has 56'
run 1 "$work/k7.book" judge "A   1   1   0   0   0$z8+.x"
said "mark is"
run 1 "$work/k7.book" judge "B   1   1   0   0   0$z8+.+"
said 'the letter A'
run 1 "$work/k7.book" judge "A   1   a   0   0   0$z8+.+"
said '13 fields'
run 1 "$work/vestments.book" judge "A   1  15   0   0   0   0   0   0   0$z8++++++++++++++"
said 'refusal 12: '
run 1 "$work/vestments.book" judge "A   a   0   0   0   0   0   0   0   0$z8++++++++++++++"
said '17 fields'
run 1 "$work/vestments.book" judge "A   0   0   0   0   0$z8++++++++++++++"
said 'has 67 bytes; an A line of this book has 83'
said 'It has 12 fields for exceptions; the lines of a book with 14 X lines have 16.'
run 1 "$work/k7.book" judge "A   1   1   0   0   0   0   0   0   0$z8+.+"
said 'It has 16 fields for exceptions; the lines of a book with 2 X lines have 12.'
run 1 "$work/k7.book" judge ''
run 2 "$work/k7.book" next 0
run 2 "$work/k7.book" next 2x
run 2 "$work/k7.book" pick 99999999999999999999
run 2 "$work/k7.book" show
run 2 "$work/k7.book" name
run 2 "$work/k7.book" name a 0
run 2 "$work/k7.book" name a x
run 2 "$work/k7.book" name a 1 2
run 2 "$work/k7.book" go
run 2 "$work/k7.book" go a b
run 2 "$work/k7.book" names a
run 2 "$work/k7.book" drop
run 2 "$work/k7.book"
run 2 -s "$work/k7.book" names
run 2 -s
run 2
[ ! -e "$work/k7.book.names" ] || fail "a store was written though the command line is wrong"
run 1 "$work/no-such.book" next
run 1 "$work" next
run 0 --help
echo "refused pasted lines and command lines that are wrong"

for point in '' 'start' '1 2
' '1 2 3 4
' '1 2 -3
' '1 2 3
4
' '1 2 99999999999999999999
'; do
    printf '%s' "$point" >"$work/point"
    printf '%s' "$point" >"$work/before"
    for what in next from-start; do
        run 1 -p "$work/point" "$work/k7.book" $what
        said 'this is not a point'
        same "$work/before" "$work/point" "a file that is no point was changed"
    done
done
for point in '4 0 0|12' '0 8 0|13' '0 0 8|13' '0 2 2|14'; do
    misplaced "${point%|*}" "${point#*|}"
done
printf '1 0 0\n' >"$work/point"
run 0 -p "$work/point" "$work/k7.book" next 1
page_lines "$work/out" >"$work/page"
a_lines "$EXAMPLES/k7.out" | head -n 1 >"$work/line"
same "$work/line" "$work/page" "the page after a point that is no resolution"
echo "refused files that hold no point, and points of another book; went on from a pair that is no resolution"

# ---- names ----

# The calls of the worked examples that commands can make: the one resolution of first is 1, 5, 2, that of second 2, 4, 8.
cat >"$work/first.book" <<'BOOK'
B   1   3
R   0   0   0   0   0   1   0   0   0
R   3   1   0   0   0   0   0   0   0
R  -2   1   0   0   0   0   0   0   0
X   1   0   0   0   0   0   0   0   0
Z   4
BOOK
cat >"$work/second.book" <<'BOOK'
B   1   4
R   0   0   0   0   0   3   0   0   0
R  -4   3   0   0   0   0   0   0   0
X   1   0   0   0   0   0   0   0   0
X   3   0   0   0   0   0   0   0   0
Z   4
BOOK
rm -f "$work/names"
printf 'start\n' >"$work/point"
named first names
printed '0 names; there is room for 32 more.'
[ ! -e "$work/names" ] || fail "names wrote a store"
named first name b 1
entry B 1 5 2 | filled >"$work/right"
holds 'B is set'
{ entry A1 65535 3 3; entry B 1 5 2; } | filled >"$work/names"
not_named first 25 go c
said 'There is no name C. The names are: A1 B'
named second name A1 1
printed 'Before, it was this one:'
printed 'taken 65535, held 3, denied 3: refusal 12: '
{ entry A1 2 4 8; entry B 1 5 2; } | filled >"$work/right"
holds 'A1 is set again'
{ entry A 0 0 281474976710656; entry A1 2 4 8; entry B 1 5 2; } | filled >"$work/names"
named second names
printed 'A         taken 0, held 0, denied 281474976710656: refusal 13: '
printed "A1        A   1   2   0   0   0$z8..+-"
printed 'B         A   1   1   0   0   0'
printed '3 names; there is room for 29 more.'
named second drop a
printed 'A is dropped. It was this one:'
{ entry A1 2 4 8; entry B 1 5 2; } | filled >"$work/right"
holds 'A is dropped'
not_named second 25 drop a
not_named second 25 name 'A B' 1
not_named second 25 name '        ' 1
named first drop b
entry A1 2 4 8 | filled >"$work/right"
holds 'B is dropped'
named first drop A1
: | filled >"$work/right"
holds 'all are dropped'
named second names
printed '0 names; there is room for 32 more.'
not_named second 25 go a1
said 'There are no names yet.'
for place in 'b 2' 'aa 1' 'a 1' 'a0 2' 'A 1' 'Aa 1'; do
    # shellcheck disable=SC2086
    named k7 name $place
done
{ entry A 1 5 0; entry A0 2 2 0; entry AA 1 5 0; entry B 2 2 0; } | filled >"$work/right"
holds 'names in the order of their bytes'
echo "the store has the bytes of the worked examples"

# The most names, one more, and one that is there already.
rm -f "$work/names"
k=0
while [ "$k" -lt 32 ]; do
    named gown name "$(printf 'x%d' $((k + 10)))" $((1 + k % 5))
    k=$((k + 1))
done
not_named gown 26 name y 1
said 'It has 32 names. Drop one that is no longer needed'
not_named gown 25 name y- 1
named gown names
printed '32 names; there is room for 0 more.'
named gown name x20 3
printed 'X20 is resolution 3 of '
printed 'Before, it was this one:'
named gown name x20 3
grep -q Before "$work/out" && fail "a name that was the same before is said to have been another"
named gown drop x11
named gown name y 1
not_named gown 26 name x11 1
echo "refused a 33rd name, and took it once another was dropped"

# Names that are misspelt, and such as fill their 8 characters.
rm -f "$work/names"
named gown name abcdefgh 1
named gown name 01234567 2
printed '01234567 is resolution 2 of '
named gown name 'a  ' 3
named gown go a
for word in '' ' ' 'a b' ' a' 'a-b' 'a_' 'a.' 'abcdefghi' 'a        ' 'é' 'A/B' '['; do
    for what in name go drop; do
        not_named gown 25 "$what" "$word"
        said 'is no name. A name has 1 to 8 characters: letters A to Z and digits 0 to 9.'
    done
done
echo "refused names that are misspelt"

# The point: what was shown last, what is none, and a file that is no point.
rm -f "$work/names"
printf 'start\n' >"$work/point"
run 1 -s "$work/names" -p "$work/point" "$work/gown.book" name a
said 'the listing stands at its start'
printf '1 0 0\n' >"$work/point"
run 1 -s "$work/names" -p "$work/point" "$work/gown.book" name a
said 'the point is no resolution of the book'
printf '32 0 0\n' >"$work/point"
run 1 -s "$work/names" -p "$work/point" "$work/gown.book" name a
said 'refusal 12: '
said 'the point was written down for another book'
[ ! -e "$work/names" ] || fail "a store was written though nothing was named"
named gown name a 2
printf 'no point' >"$work/point"
cp "$work/point" "$work/before"
for what in 'name b' 'go a'; do
    # shellcheck disable=SC2086
    run 1 -p "$work/point" -s "$work/names" "$work/gown.book" $what
    said 'this is not a point'
    same "$work/before" "$work/point" "a file that is no point was changed: $what"
done
rm "$work/point"
named gown go a
named gown name b
printed 'B is resolution 2 of '
run 0 "$work/gown.book" name beside 4
run 0 "$work/gown.book" go beside
run 0 "$work/gown.book" next
printed '     5  A'
[ "$(wc -c <"$work/gown.book.names")" -eq 1024 ] || fail "the store beside the book"
run 0 "$work/gown.book" drop beside
echo "named what was shown last, and kept names beside the book"

# A store of another book: each of 12 to 14 in words, and the point stays. A lawful pair that is no resolution: its
# verdict, and the next page has what follows it.
{ entry BOTH 0 2 2; entry DENIED 0 0 8; entry HELD 0 8 0; entry NONE 0 0 0; entry OTHER 3 7 0; entry TAKEN 4 0 0; } |
    filled >"$work/names"
printf 'start\n' >"$work/point"
for case in 'both|14' 'denied|13' 'held|13' 'taken|12'; do
    not_named k7 "${case#*|}" go "${case%|*}"
    said 'it was named for another book, or for this one as it was before'
done
named k7 names
printed 'BOTH      taken 0, held 2, denied 2: refusal 14: the pair both holds and denies a statement.'
printed 'DENIED    taken 0, held 0, denied 8: refusal 13: '
printed 'HELD      taken 0, held 8, denied 0: refusal 13: '
printed 'TAKEN     taken 4, held 0, denied 0: refusal 12: '
printed "OTHER     A   2   1   2   0   0$z8+++"
named k7 go none
printed 'NONE is no resolution of '
printed 'Verdict 1: '
named k7 next
page_lines "$work/out" >"$work/page"
a_lines "$EXAMPLES/k7.out" >"$work/line"
same "$work/line" "$work/page" "the page after a named pair that is no resolution"
named k7 go other
printed 'OTHER is no resolution of '
printed "        A   2   1   2   0   0$z8+++"
printed 'Verdict 5: '
named k7 next
printed 'End of the listing: no resolution is later than the point.'
named k7 drop both
printed 'taken 0, held 2, denied 2: refusal 14: '

# The book is changed after its resolutions were named: one stands elsewhere in the listing, one is none any more, one
# takes an exception that is gone.
rm -f "$work/names" "$work/point"
named gown name lace 4
named gown name label 3
cp "$work/names" "$work/names-before"
sed 's/^Z  20$/P   1   2\nZ  21/' "$EXAMPLES/gown.book" >"$work/changed.book"
named changed go lace
printed 'LACE is resolution 1 of '
named changed next
printed 'End of the listing: no resolution is later than the point.'
named changed go label
printed 'LABEL is no resolution of '
printed 'Verdict 2: '
named changed next
printed "     1  A   4   1   3   4   5$z8-+---"
sed '21d; s/^Z  20$/Z  19/' "$EXAMPLES/gown.book" >"$work/changed.book"
not_named changed 12 go lace
not_named changed 12 go label
same "$work/names-before" "$work/names" "the names of a book that was changed"
echo "said of names of another or a changed book, and of pairs that are no resolution, what they are"

# Files that are no store: whatever is asked, they stay as they are.
no_store() {
    cp "$work/names" "$work/damaged"
    for what in 'name a 1' 'name a' 'go a' 'drop a' names; do
        # shellcheck disable=SC2086
        not_named k7 24 $what
        said "$1"
        said 'It was left as it is. Put back a copy from before'
    done
    watched 1 -s "$work/names" "$work/k7.book" go a
    same "$work/damaged" "$work/names" "a file that is no store was changed"
    refusals=$((refusals + 1))
}
refusals=0
: >"$work/names"
no_store 'It has 0 bytes; a store has 1024.'
{ entry A 1 5 0; entry B 2 2 0; } | filled >"$work/good"
head -c 1023 "$work/good" >"$work/names"
no_store 'It has 1023 bytes; a store has 1024.'
{ cat "$work/good"; printf '\n'; } >"$work/names"
no_store 'It has more than 1024 bytes; a store has 1024.'
head -c 70000 /dev/zero >"$work/names"
no_store 'It has more than 1024 bytes; a store has 1024.'
cp "$EXAMPLES/gown.book" "$work/names"
no_store 'It has 776 bytes; a store has 1024.'
head -c 1024 "$EXAMPLES/many.book" >"$work/names"
no_store 'Its name number 1 is misspelt.'
for word in 'A B' ' A' '' a A- 'A\0'; do
    { entry 0 1 5 0; printf '%b' "$word"; entry '' 1 5 0 | tail -c +$((1 + $(printf '%b' "$word" | wc -c))); } |
        filled >"$work/names"
    no_store 'Its name number 2 is misspelt.'
done
{ entry A 1 5 0; entry A 2 2 0; } | filled >"$work/names"
no_store 'Its names do not ascend: number 2 does not come after number 1.'
{ entry A 1 5 0; entry C 1 5 0; entry B 2 2 0; } | filled >"$work/names"
no_store 'Its names do not ascend: number 3 does not come after number 2.'
{ head -c 32 /dev/zero; entry B 2 2 0; } | filled >"$work/names"
no_store 'Bytes other than 0 stand where its names have ended.'
{ entry A 1 5 0; head -c 991 /dev/zero; printf x; } >"$work/names"
no_store 'Bytes other than 0 stand where its names have ended.'
k=0
while [ "$k" -lt 31 ]; do
    entry "$(printf 'X%d' $((k + 10)))" 1 5 0
    k=$((k + 1))
done >"$work/most"
{ cat "$work/most"; entry A 1 5 0; } >"$work/names"
no_store 'Its names do not ascend: number 32 does not come after number 31.'
{ cat "$work/most"; entry Y 1 5 0; } >"$work/names"
named k7 names
printed '32 names; there is room for 0 more.'
rm "$work/names"
mkdir "$work/names"
for what in 'name a 1' 'go a' 'drop a' names; do
    # shellcheck disable=SC2086
    run 1 -s "$work/names" "$work/k7.book" $what
    said 'it could not be read'
done
rmdir "$work/names"
echo "refused $refusals files that are no store, and left them as they were"

# Writing fails: the old store stays whole, and nothing is left beside it.
cp "$work/good" "$work/names"
run 1 -s "$work/none/names" "$work/k7.book" name c 1
said 'No such file or directory'
said 'the names are as they were before'
if [ "$(id -u)" -ne 0 ]; then
    mkdir "$work/closed"
    cp "$work/good" "$work/closed/names"
    chmod 555 "$work/closed"
    run 1 -s "$work/closed/names" "$work/k7.book" name c 1
    same "$work/good" "$work/closed/names" "a store in a folder that may not be written to"
    chmod 755 "$work/closed"
fi
# A file may have 512 bytes here: half of a store is written before the failure, or before the run is killed.
failing() { (trap '' XFSZ; ulimit -f 1; exec "$program" "$@"); }
killed() { (ulimit -f 1; exec "$program" "$@"); }
for what in 'name c 1' 'name a 2' 'drop b'; do
    # shellcheck disable=SC2086
    ends 1 failing -s "$work/names" "$work/k7.book" $what
    said 'File too large'
    said 'the names are as they were before'
    same "$work/good" "$work/names" "a store that could not be written: $what"
    no_new_file
done
for what in 'name c 1' 'drop b'; do
    status=0
    # shellcheck disable=SC2086
    killed -s "$work/names" "$work/k7.book" $what >"$work/out" 2>"$work/err" || status=$?
    [ "$status" -gt 128 ] || fail "a run that was to be killed midway ended with $status: $what"
    same "$work/good" "$work/names" "a store whose writing was killed: $what"
done
set -- "$work"/names.new*
[ "$(wc -c <"$1")" -eq 512 ] || fail "no half file was left by a run that was killed: $1"
echo "a store that could not be written, or whose writing was killed, is as it was"

# The program with a rename of its own, which ends the run as a crash would, or fails. The new file is on the disk by then.
cat >"$work/crash.c" <<'CODE'
#include <errno.h>
#include <stdio.h>
#include <stdlib.h>
#include <unistd.h>
static int flushed;
int fsync(int file) { (void)file; flushed = 1; return 0; }
int rename(const char *old, const char *new) {
    (void)old, (void)new;
    if (!flushed) _exit(8);
    if (getenv("RENAME_FAILS") == NULL) _exit(9);
    errno = EACCES;
    return -1;
}
CODE
"$CC" -std=c11 -O2 -D_POSIX_C_SOURCE=200809L -I"$INCLUDE" "$here"/*.c "$work/crash.c" "$LIB" -o "$work/crashing"
for what in 'name c 1' 'drop b'; do
    rm -f "$work"/names.new*
    # shellcheck disable=SC2086
    RENAME_FAILS=yes ends 1 "$work/crashing" -s "$work/names" "$work/k7.book" $what
    said 'Permission denied'
    said 'the names are as they were before'
    same "$work/good" "$work/names" "a store whose new file could not take its place: $what"
    no_new_file
    status=0
    # shellcheck disable=SC2086
    "$work/crashing" -s "$work/names" "$work/k7.book" $what >"$work/out" 2>"$work/err" || status=$?
    [ "$status" -eq 9 ] || fail "a crash between the new file and the rename ended with $status: $what"
    same "$work/good" "$work/names" "a store after a crash: $what"
    set -- "$work"/names.new*
    [ "$(wc -c <"$1")" -eq 1024 ] || fail "no new file was left by a crash: $1"
    cp "$1" "$work/left"
    printf 'whatever' >"$work/names.new"
    named k7 names
    printed '2 names; there is room for 30 more.'
    named k7 name d 1
    named k7 drop d
    same "$work/good" "$work/names" "a store that was used after a crash: $what"
    same "$work/left" "$1" "the file that a crash left behind: $what"
done
rm -f "$work"/names.new*
echo "a crash between the new file and the rename loses nothing, and what it leaves does no harm"

# Many runs at once: each is done, and the store is whole, though the change of one may be lost to another.
for round in 1 2 3 4 5; do
    rm -f "$work/names"
    runs=
    for k in 1 2 3 4 5 6 7 8; do
        "$program" -s "$work/names" "$work/gown.book" name "p$k" "$((1 + k % 5))" >"$work/out" 2>"$work/err" &
        runs="$runs $!"
    done
    for one in $runs; do
        wait "$one" || fail "one of many runs at once, round $round"
    done
    named gown names
    no_new_file
done
echo "many runs at once leave a whole store"

gown=$EXAMPLES/gown.book
ranked=$EXAMPLES/gown-ranked.book
lined=$EXAMPLES/lined.book
silk=$EXAMPLES/silk.book
refusals=0

# The text as a whole: 1 and 2.
dd if=/dev/zero of="$work/zeros" bs=1000 count=70 2>/dev/null
damaged zeros 'refusal 1: ' 'A book has at most 11728 bytes.'
printf 'PK\003\004' | cat - "$work/zeros" >"$work/archive"
damaged archive 'refusal 1: ' "a spreadsheet's or a word processor's own"
: >"$work/empty"
damaged empty 'refusal 2: ' 'The file is empty.'
dd if="$gown" of="$work/cut" bs=1 count=100 2>/dev/null
damaged cut 'refusal 2: ' 'Near column 15 of the last line: the file ends here without a line feed.'
pointed 4 15 1
tr '\n' '\r' <"$gown" >"$work/returns"
damaged returns 'refusal 2: ' 'The file ends with a carriage return.'
{ printf '\377\376'; iconv -f ASCII -t UTF-16LE "$gown"; } >"$work/low"
damaged low 'refusal 2: ' 'The file is saved as UTF-16'
iconv -f ASCII -t UTF-16BE "$gown" >"$work/high"
damaged high 'refusal 3 at line 1: ' 'The file is saved as UTF-16'

# A line's letter and place: 3.
{ printf '\357\273\277'; cat "$gown"; } >"$work/mark"
damaged mark 'refusal 3 at line 1: ' 'The file begins with a byte order mark.'
sed '$d' "$gown" >"$work/no-z"
damaged no-z 'refusal 3 at line 22: ' 'The file ends after line 21 without a Z line.'
sed 1d "$gown" >"$work/no-b"
damaged no-b 'refusal 3 at line 1: ' 'Near column 1: the first line has to be a B line.'
pointed 1 1 1
sed '5s/.*//' "$gown" >"$work/gap"
damaged gap 'refusal 3 at line 5: ' 'Line 5 is empty.'
sed '5s/R/r/' "$gown" >"$work/letter"
damaged letter 'refusal 3 at line 5: ' 'Near column 1: the letter is small; write a capital.'
pointed 5 1 1
sed '5s/^/ /' "$gown" >"$work/indented"
damaged indented 'refusal 3 at line 5: ' 'Near column 1: a space stands before the letter.'
sed 's/^/"/' "$gown" >"$work/quoted"
damaged quoted 'refusal 3 at line 1: ' 'Near column 1: a quotation mark'
sed '5s/.*/\r/' "$gown" >"$work/return"
damaged return 'refusal 3 at line 5: ' 'the line is empty but for a carriage return.'
sed '18s/X/R/' "$gown" >"$work/order"
damaged order 'refusal 3 at line 18: ' 'Near column 1: R may not follow X. The order is B, R, O, X, P, Q, Z.'
sed '29s/.*/P   2   1/' "$lined" >"$work/p-after-q"
damaged p-after-q 'refusal 3 at line 29: ' 'Near column 1: P may not follow Q.'
pointed 29 1 1
sed '26{h;d;};28G' "$lined" >"$work/q-before-p"
damaged q-before-p 'refusal 3 at line 28: ' 'Near column 1: P may not follow Q.'
sed '10{h;d;};11G' "$silk" >"$work/r-after-o"
damaged r-after-o 'refusal 3 at line 11: ' 'Near column 1: R may not follow O.'
pointed 11 1 1
sed '11{h;d;};12G' "$silk" >"$work/o-after-x"
damaged o-after-x 'refusal 3 at line 12: ' 'Near column 1: O may not follow X.'
sed '11s/O/o/' "$silk" >"$work/small-o"
damaged small-o 'refusal 3 at line 11: ' 'Near column 1: the letter is small; write a capital.'
sed '11s/O/0/' "$silk" >"$work/zero-o"
damaged zero-o 'refusal 3 at line 11: ' 'Near column 1: this is the digit 0; a rule with alternatives begins with the letter O.'
pointed 11 1 1
sed '28s/Q/q/' "$lined" >"$work/small-q"
damaged small-q 'refusal 3 at line 28: ' 'Near column 1: the letter is small; write a capital.'
cat "$gown" "$gown" >"$work/twice"
damaged twice 'refusal 3 at line 23: ' 'Near column 1: nothing may follow the Z line.'
printf 'B   1   1\n\377\000\n' >"$work/bytes"
damaged bytes 'refusal 3 at line 2: ' 'Near column 1: no line begins so'
pointed 2 1 1

# A line's length: 4.
sed '5s/ 0$/0/' "$gown" >"$work/short"
damaged short 'refusal 4 at line 5: ' 'The line has 36 columns; a line with the letter R has 37.'
sed '5s/$/  /' "$gown" >"$work/spaces"
damaged spaces 'refusal 4 at line 5: ' 'Near column 38: spaces stand after the last field.'
pointed 5 38 2
sed 's/$/\r/' "$gown" >"$work/crlf"
damaged crlf 'refusal 4 at line 1: ' 'Near column 10: this is a carriage return'
pointed 1 10 1
sed '5s/   4/\t4/' "$gown" >"$work/tab"
damaged tab 'refusal 4 at line 5: ' 'Near column 2: this is a tab'
pointed 5 2 1
sed 's/  */,/g' "$gown" >"$work/commas"
damaged commas 'refusal 4 at line 1: ' 'Near column 2: this is a separator'
sed '5s/-/\xe2\x88\x92/' "$gown" >"$work/minus"
damaged minus 'refusal 4 at line 5: ' 'Near column 24: this is no ASCII character'
pointed 5 24 1
sed '5s/  -4/-1000/' "$gown" >"$work/wide"
damaged wide 'refusal 4 at line 5: ' 'Near column 26: from here on the numbers do not end'
pointed 5 26 4
sed '5s/$/   0/' "$gown" >"$work/long"
damaged long 'refusal 4 at line 5: ' 'The line has 41 columns; a line with the letter R has 37.'

sed '28s/   0$//' "$lined" >"$work/nine"
damaged nine 'refusal 4 at line 28: ' 'The line has 37 columns; a line with the letter Q has 41.'
sed '28s/Q/P/' "$lined" >"$work/conditioned"
damaged conditioned 'refusal 4 at line 28: ' 'A preference under a condition is a Q line.'
sed '28s/.*/Q   1   2/' "$lined" >"$work/unconditioned"
damaged unconditioned 'refusal 4 at line 28: ' 'A preference without a condition is a P line.'
sed '11s/   0$//' "$silk" >"$work/ten"
damaged ten 'refusal 4 at line 11: ' 'The line has 41 columns; a line with the letter O has 45.'
sed '11s/O/R/' "$silk" >"$work/three-heads"
damaged three-heads 'refusal 4 at line 11: ' 'A rule with alternatives, three fields for heads, is an O line.'
sed '11s/   0   0$//' "$silk" >"$work/nine-o"
damaged nine-o 'refusal 4 at line 11: ' 'An O line has three fields for heads; a rule with one head is an R line.'
sed '28s/Q/R/' "$lined" >"$work/ruled"
damaged ruled 'refusal 3 at line 28: ' 'Near column 1: R may not follow P.'
sed '27s/.*/P   3/' "$lined" >"$work/single"
damaged single 'refusal 4 at line 27: ' 'The line has 5 columns; a line with the letter P has 9.'
! grep -q 'condition' "$work/err" || fail 'a condition is spoken of where a P line is too short'

# A field's spelling: 5, 17, 18. Columns 34 to 37 of the line are refused by this number, so many columns are pointed at
# from the first on, and this is the cause.
spelt() {
    sed "5s/   0\$/$1/" "$gown" >"$work/spelt"
    damaged spelt "refusal $2 at line 5: " "Near column $3, in the fourth barred entry: $5"
    pointed 5 "$3" "$4"
}
spelt '   x' 5 37 1 'this is no space, minus or digit.'
spelt '1 1x' 5 37 1 'this is no space, minus or digit.'
spelt '01 x' 5 37 1 'this is no space, minus or digit.'
spelt '  +1' 5 36 1 'this is a plus sign; write none.'
spelt ' 1.0' 5 36 1 'this is a point; write a whole number.'
spelt ' (1)' 5 35 1 'this is a bracket'
spelt '   O' 5 37 1 'this is the letter O; write 0.'
spelt '  \x961' 5 36 1 'this is no ASCII character'
spelt '-\xa0 1' 5 35 1 'this is no ASCII character'
spelt '  1-' 5 37 1 'this is a minus behind its number; write it directly in front.'
spelt '01 -' 5 37 1 'this is a minus behind its number; write it directly in front.'
spelt '-  1' 5 34 1 'this is a minus apart from its number; write it directly in front.'
spelt ' --1' 5 35 1 'this is one minus too many.'
spelt '-1-1' 5 36 1 'this is one minus too many.'
spelt ' 1-1' 5 36 1 'this is a minus between digits; a field holds one number.'
spelt '-   ' 5 34 1 'this is a minus with no digit in its field; an unused field is 0.'
spelt '   -' 5 37 1 'this is a minus with no digit in its field; an unused field is 0.'
spelt '    ' 17 34 4 'the field is blank; write 0.'
spelt '0   ' 17 34 4 'the number does not stand at the right of its field.'
spelt ' -1 ' 17 34 4 'the number does not stand at the right of its field.'
spelt '00  ' 17 34 4 'the number does not stand at the right of its field.'
spelt ' 1 0' 17 36 1 'a space stands after a digit, and more follows; a field holds one number.'
spelt '01 1' 17 36 1 'a space stands after a digit, and more follows; a field holds one number.'
spelt '0  0' 17 35 2 'a space stands after a digit, and more follows; a field holds one number.'
spelt '1 -1' 17 35 1 'a space stands after a digit, and more follows; a field holds one number.'
spelt '1 1 ' 17 35 1 'a space stands after a digit, and more follows; a field holds one number.'
spelt '  00' 18 36 1 'the number has a leading zero; fill up with spaces, at the left.'
spelt '0001' 18 34 3 'the number has a leading zero; fill up with spaces, at the left.'
spelt ' -01' 18 36 1 'the number has a leading zero; fill up with spaces, at the left.'
spelt ' -00' 18 36 1 'the number has a leading zero; fill up with spaces, at the left.'
spelt '  -0' 18 36 1 'zero has no sign; write 0.'

# A field's number: 6, 7, 9, 10, 11; the lines of a kind: 8. The limits are the engine's.
sed '5s/ 0$/ 6/' "$gown" >"$work/range"
damaged range 'refusal 6 at line 5: ' 'Near column 34: the fourth barred entry is 6; it has to be from -5 to 5.'
said 'The number of statements in line 1 is 5.'
pointed 5 34 4
sed '1s/ 5/49/' "$gown" >"$work/statements"
damaged statements 'refusal 6 at line 1: ' 'Near column 6: the number of statements is 49; it has to be from 1 to 48.'
sed '15s/ 1/13/' "$ranked" >"$work/thirteen"
damaged thirteen 'refusal 10 at line 15: ' 'the exception that outranks is 13; the number of X lines is 5.'
sed '15s/ 1/17/' "$ranked" >"$work/seventeen"
damaged seventeen 'refusal 6 at line 15: ' 'the exception that outranks is 17; it has to be from 1 to 16.'
sed '28s/ 1/13/' "$lined" >"$work/thirteen-q"
damaged thirteen-q 'refusal 10 at line 28: ' 'the exception that outranks is 13; the number of X lines is 5.'
pointed 28 2 4
sed '28s/   2/  17/' "$lined" >"$work/seventeen-q"
damaged seventeen-q 'refusal 6 at line 28: ' 'the exception that is outranked is 17; it has to be from 1 to 16.'
pointed 28 6 4
sed '28s/.*/Q   1   9  13 -13   0   0   0   0   0   0/' "$lined" >"$work/missing-q"
damaged missing-q 'refusal 10 at line 28: ' 'Near column 6: the exception that is outranked is 9; the number of X lines is 5.'
pointed 28 6 4
sed '28s/.*/Q   1   9  14   0   0   0   0   0   0   0/' "$lined" >"$work/entry-q"
damaged entry-q 'refusal 6 at line 28: ' 'Near column 10: the first needed entry is 14; it has to be from -13 to 13.'
said 'The number of statements in line 1 is 13.'
pointed 28 10 4
sed '11s/   4/  11/' "$silk" >"$work/head-o"
damaged head-o 'refusal 6 at line 11: ' 'Near column 10: the third head is 11; it has to be from -10 to 10.'
said 'The number of statements in line 1 is 10.'
pointed 11 10 4
sed '11s/   3   4   1/   0   0  11/' "$silk" >"$work/entry-o"
damaged entry-o 'refusal 6 at line 11: ' 'Near column 14: the first needed entry is 11; it has to be from -10 to 10.'
sed '$s/ 20/321/' "$gown" >"$work/total"
damaged total 'refusal 6 at line 22: ' 'Near column 2: the number of R, O, X, P and Q lines is 321; it has to be from 0 to 320.'
sed '$s/ 20/320/' "$gown" >"$work/total-320"
damaged total-320 'refusal 11 at line 22: ' 'Near column 2: the number of R, O, X, P and Q lines is given as 320; there are 20.'
sed '$s/12/11/' "$silk" >"$work/o-not-counted"
damaged o-not-counted 'refusal 11 at line 14: ' 'the number of R, O, X, P and Q lines is given as 11; there are 12.'
pointed 14 2 4
sed '$s/28/26/' "$lined" >"$work/q-not-counted"
damaged q-not-counted 'refusal 11 at line 30: ' 'the number of R, O, X, P and Q lines is given as 26; there are 28.'
pointed 30 2 4
sed '1s/1/2/' "$gown" >"$work/edition"
damaged edition 'refusal 7 at line 1: ' 'Near column 2: the edition is 2; it has to be 1.'
pointed 1 2 4
sed '18s/-2/ 0/' "$gown" >"$work/headless"
damaged headless 'refusal 9 at line 18: ' 'Near column 2: the head is 0.'
pointed 18 2 4
sed '18s/5$/6/' "$ranked" >"$work/missing"
damaged missing 'refusal 10 at line 18: ' 'Near column 6: the exception that is outranked is 6; the number of X lines is 5.'
pointed 18 6 4
sed '$s/20/21/' "$gown" >"$work/count"
damaged count 'refusal 11 at line 22: ' 'Near column 2: the number of R, O, X, P and Q lines is given as 21; there are 20.'
pointed 22 2 4
awk 'NR == 16 { for (k = 0; k < 186; k++) print } { print }' "$gown" >"$work/rules"
damaged rules 'refusal 8 at line 202: ' 'This is R line 201; a book has at most 200.'
sed '21{p;p;p;p;p;p;p;p;p;p;p;p;}' "$gown" >"$work/many"
damaged many 'refusal 8 at line 33: ' 'This is X line 17; a book has at most 16.'
awk 'NR == 15 { for (k = 0; k < 29; k++) print } { print }' "$ranked" >"$work/preferences"
damaged preferences 'refusal 8 at line 47: ' 'This is P line 33; a book has at most 32.'
sed '11s/   3   4/   0   0/' "$silk" >"$work/one-head"
damaged one-head 'refusal 23 at line 11: ' 'Near column 2: only one of the three heads is not 0; an O line needs two.'
pointed 11 2 12
sed '11s/   2   3   4/   0   0  -4/' "$silk" >"$work/last-head"
damaged last-head 'refusal 23 at line 11: ' 'A rule with one head is an R line.'
sed '11s/   2   3   4/   0   0   0/' "$silk" >"$work/no-heads"
damaged no-heads 'refusal 23 at line 11: ' 'Near column 2: all three heads are 0; an O line needs two. A constraint is an R line.'
pointed 11 2 12
awk 'NR == 11 { for (k = 0; k < 40; k++) print } { print }' "$silk" >"$work/alternatives"
damaged alternatives 'refusal 22 at line 51: ' 'This is O line 41; a book has at most 40.'
sed '51s/   2   3   4/   2   0   0/' "$work/alternatives" >"$work/alternatives-23"
damaged alternatives-23 'refusal 22 at line 51: ' 'This is O line 41; a book has at most 40.'
sed '51s/   2/  11/' "$work/alternatives" >"$work/alternatives-6"
damaged alternatives-6 'refusal 6 at line 51: ' 'the first head is 11; it has to be from -10 to 10.'
sed '51d; $s/12/51/' "$work/alternatives" >"$work/forty.book"
run 0 "$work/forty.book" next
page_lines "$work/out" >"$work/page"
a_lines "$EXAMPLES/silk.out" >"$work/line"
same "$work/line" "$work/page" "a book with as many O lines as there may be"
awk 'NR == 29 { for (k = 0; k < 31; k++) print } { print }' "$lined" >"$work/conditionals"
damaged conditionals 'refusal 19 at line 60: ' 'This is Q line 33; a book has at most 32.'
sed '60s/   2   1/   2   9/' "$work/conditionals" >"$work/conditionals-10"
damaged conditionals-10 'refusal 19 at line 60: ' 'This is Q line 33; a book has at most 32.'
sed '60s/   2   1/  17   1/' "$work/conditionals" >"$work/conditionals-6"
damaged conditionals-6 'refusal 6 at line 60: ' 'the exception that outranks is 17; it has to be from 1 to 16.'
sed '29d; $s/28/58/' "$work/conditionals" >"$work/full.book"
run 0 "$work/full.book" next
page_lines "$work/out" >"$work/page"
a_lines "$EXAMPLES/lined.out" >"$work/line"
same "$work/line" "$work/page" "a book with as many Q lines as there may be"
echo "refused $refusals damaged books under valgrind, showed the line, pointed at the column and said the cause"

each_field gown-ranked 1 2
each_field gown-ranked 2 9
each_field gown-ranked 10 9
each_field gown-ranked 15 2
each_field silk 11 11
each_field lined 28 10
each_field gown-ranked 19 1
echo "pointed at each field of a line of each kind"

(cd "$EXAMPLES" && "$program" faulty.book next) >"$work/out" 2>"$work/err" || true
awk '/^```/ { first = NR + 1; inside = 0 } NR == first && /^collection: / { inside = 1 } inside' "$PAGE" >"$work/page"
same "$work/err" "$work/page" "$PAGE shows another message than the program"
echo "the page about books shows the program's message"

# The sessions of the page, blocks with a line that begins with a dollar sign, are run from the first to the last beside
# copies of the examples.
mkdir "$work/session"
cp "$EXAMPLES"/*.book "$work/session"
awk '/^```/ { inside = !inside; session = 0; next } inside && /^[$] / { session = 1 } session' "$PAGE" >"$work/page"
sessions=0
: >"$work/shown"
while IFS= read -r line; do
    case $line in
    '$ '*)
        printf '%s\n' "$line" >>"$work/shown"
        (cd "$work/session" && PATH=$work:$PATH sh -c "${line#??}") >>"$work/shown" 2>&1 </dev/null || true
        sessions=$((sessions + 1)) ;;
    esac
done <"$work/page"
same "$work/shown" "$work/page" "$PAGE shows another session than the program"
[ "$sessions" -ge 8 ] || fail "only $sessions commands were found on $PAGE"
echo "the page about books shows $sessions commands and what they print"

for words in 'next 1' 'next 1' 'next 2' 'next' 'next 1' 'pick 2' 'from-start' 'next 1'; do
    # shellcheck disable=SC2086
    watched 0 -p "$work/vpoint" "$work/gown.book" $words
done
watched 0 "$work/gloves.book" next 1
watched 0 -p "$work/wpoint" "$work/vestments.book" next 2
watched 0 "$work/vestments.book" pick 12
printed 'Exceptions taken: 2 3 5 6 8 9 10 12 14'
watched 1 -p "$work/vpoint" "$work/k7.book" next 1
said 'the point was written down for another book'
watched 0 "$work/k7.book" judge "A   2   1   2   0   0$z8+++"
printed 'Verdict 5: '
watched 0 -p "$work/lpoint" "$work/lined.book" next
watched 0 -p "$work/spoint" "$work/silk.book" next
watched 0 "$work/both.book" judge "A   0   0   0   0   0$z8++"
printed 'Verdict 0: '
watched 0 "$work/worn.book" judge "A   2   2   3   0   0$z8.++."
printed 'Verdict 0: '
rm -f "$work/vpoint"
for words in 'names' 'next 2' 'name lace' 'name lining 5' 'name lace 4' 'go lining' 'next' 'names' 'drop lining' 'go lace'; do
    # shellcheck disable=SC2086
    watched 0 -p "$work/vpoint" -s "$work/vnames" "$work/gown.book" $words
done
watched 1 -p "$work/vpoint" -s "$work/vnames" "$work/gown.book" go lining
said 'refusal 25: '
watched 1 -p "$work/vpoint" -s "$work/vnames" "$work/k7.book" go lace
said 'refusal 12: '
echo "ran next, pick, from-start, judge, name, go, names and drop under valgrind"

printf 'collection: %s examples, %s checks passed\n' "$books" "$checks"
