#!/bin/sh
# Installs what is next to this script; needs no kit and no compiler.
#
#   ./install.sh PREFIX             under PREFIX; the variable DESTDIR is put before it
#   ./install.sh --remove PREFIX    removes what it installed there
set -eu
here=$(cd "$(dirname "$0")" && pwd)

usage() {
    echo "usage: install.sh [--remove] PREFIX" >&2
    exit 2
}

# Each file: its mode, where it is and where it goes. `enter` and `replay` are common words, so they get a longer name.
files() {
    echo "644 lib/libzamiathen.a lib/libzamiathen.a"
    echo "755 $shared $shared"
    [ ! -f lib/zamiathen_sqlite.so ] || echo "755 lib/zamiathen_sqlite.so lib/zamiathen_sqlite.so"
    echo "644 include/zamiathen.h include/zamiathen.h"
    for program in enter replay; do
        [ ! -f "bin/$program" ] || echo "755 bin/$program bin/zamiathen-$program"
    done
    [ ! -f bin/zamiathen ] || echo "755 bin/zamiathen bin/zamiathen"
    [ ! -f man/zamiathen.1 ] || echo "644 man/zamiathen.1 share/man/man1/zamiathen.1"
    [ ! -f PROVED ] || echo "644 PROVED share/zamiathen/PROVED"
    find bindings doc examples sql -type f | sort | while read -r file; do
        echo "644 $file share/zamiathen/$file"
    done
}

# Under another name first, so that a copy that fails leaves no half-made file.
put() {
    mkdir -p "$(dirname "$3")"
    install -m "$1" "$2" "$3.new"
    mv -f "$3.new" "$3"
}

# The pkg-config file, in which a blank of the prefix follows a backslash.
configured() {
    while IFS= read -r line; do
        case $line in
            prefix=*) printf 'prefix=%s\n' "$(printf '%s' "$prefix" | sed 's/ /\\ /g')" ;;
            *) printf '%s\n' "$line" ;;
        esac
    done <lib/pkgconfig/zamiathen.pc
}

add() {
    cd "$here"
    shared=$(echo lib/libzamiathen.so.*)
    beside=share/zamiathen/bindings/python/${shared#lib/} # where the Python module looks first
    list=$(mktemp)
    trap 'rm -f "$list" "$list.pc"' EXIT
    files >"$list"
    while read -r mode from to; do
        put "$mode" "$from" "$root/$to"
    done <"$list"
    configured >"$list.pc"
    put 644 "$list.pc" "$root/lib/pkgconfig/zamiathen.pc"
    ln -sf "../../../../$shared" "$root/$beside"
    { cut -d ' ' -f 3 "$list" && echo lib/pkgconfig/zamiathen.pc && echo "$beside" && echo "$kept"; } >"$list.pc"
    put 644 "$list.pc" "$root/$kept"
    echo "Installed under $root."
}

remove() {
    [ -f "$root/$kept" ] || { echo "Nothing is installed under $prefix: $root/$kept is missing." >&2; exit 1; }
    while read -r file; do
        rm -f "$root/$file"
    done <"$root/$kept"
    [ ! -d "$root/share/zamiathen" ] || find "$root/share/zamiathen" -depth -type d -empty -delete
}

task=add
[ "${1:-}" != --remove ] || { task=remove; shift; }
[ $# -eq 1 ] && [ -n "$1" ] || usage
case $1 in
    -*) usage ;;
    /*) prefix=${1%/} ;;
    *) prefix=$PWD/${1%/} ;;
esac
root=${DESTDIR:-}$prefix
kept=share/zamiathen/FILES
$task
