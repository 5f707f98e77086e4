#!/bin/sh
# Writes the input of the program enter: the sheet, then book and edit, each with its length before it; or that of replay: the
# sheet, the book with its length before it, then a log. The command zamiathen needs none of this.
#
#   examples/pack.sh SHEET BOOK EDIT | target/bin/enter | head -n 1
#   examples/pack.sh SHEET BOOK --log LOG | target/bin/replay | head -n 1
#
# Book and edit are codes (zamiathen codes makes them from words). A log that is - comes from standard input. A fault is one line on
# standard error, and nothing is written.
set -u

fault() {
    echo "$1" >&2
    exit 2
}

# the length of a file, which can be read
length_of() {
    [ -f "$1" ] && [ -r "$1" ] || fault "$1: it cannot be read"
    echo $(($(wc -c <"$1")))
}

fits() {
    length=$(length_of "$1") || exit
    [ "$length" -le 65535 ] || fault "$1: it has $length bytes, and its length must fit in two"
}

# a text with its length before it, in two bytes, low byte first
text() {
    length=$(length_of "$1")
    printf "$(printf '\\%03o\\%03o' $((length % 256)) $((length / 256)))"
    cat "$1"
}

log=
case $#-${3-} in
    4---log) log=$4 ;;
    3-*) [ "$3" != --log ] ;;
    *) false ;;
esac || fault "usage: pack.sh SHEET BOOK EDIT, or pack.sh SHEET BOOK --log LOG"
length=$(length_of "$1") || exit
[ "$length" -eq 8704 ] || fault "$1: it has $length bytes, and a sheet has 8704"
fits "$2"
if [ -z "$log" ]; then
    fits "$3"
    cat "$1" && text "$2" && text "$3"
else
    [ "$log" = - ] || length_of "$log" >/dev/null || exit
    cat "$1" && text "$2" && cat "$log"
fi
