#!/bin/sh
# The station of examples/station through the command zamiathen, in a copy of the folder: each command, and what it prints.
# `make demo` builds the command and runs this; examples/station/demo.txt is what it prints. The last line is the path of a picture.
#
#   examples/demo.sh [PICTURE]      PICTURE is demo.svg if it is not given
set -u
here=$(cd "$(dirname "$0")" && pwd) || exit 2
picture=${1:-demo.svg}
PATH=$here/../target/bin:$PATH
work=$(mktemp -d) || exit 2
trap 'rm -rf "$work"' EXIT
cp -R "$here/station/." "$work" || exit 2

title() {
    printf '\n# %s\n' "$1"
}

# shows a command and runs it in the copy; a refusal, status 1, is part of the story
zamiathen() {
    printf '$ zamiathen %s\n' "$*"
    (cd "$work" && command zamiathen "$@") || [ $? -eq 1 ] || exit 2
}

echo '# A station: P1 is a platform, S1 a time slot, P1-S1 the berth that is P1 in S1, T34 a train. Who stands where?'
zamiathen table sheet.bin berth has-platform has-slot stands-at

title 'Its sheet keeps the ten rules of its book. It is kept as plan 1.'
zamiathen judge sheet.bin book.words
zamiathen keep sheet.bin plans.bin 1

title 'T34 moves to an empty berth: the edit is entered. Then back to plan 1.'
zamiathen enter sheet.bin book.words move.words
zamiathen return sheet.bin plans.bin 1 book.words

title 'T34 moves to a berth that is taken: refused, with the rule. The sheet stays as it was.'
zamiathen enter sheet.bin book.words crowd.words

title 'Why? Carried back through the edit, the rule is a condition on the sheet as it is.'
zamiathen why sheet.bin book.words crowd.words

title 'A game of three moves: can T34 be kept at an open berth, when one of two berths is closed in between?'
zamiathen play sheet.bin book.words goal.words 3 move_back.words move.words --against fault_s1.words fault_s2.words

title 'T34 and T35 change places. In between both stand at P1-S3, but an edit is judged as a whole.'
zamiathen enter sheet.bin book.words swap.words

title 'A sheet that breaks a rule, and the edit that repairs it.'
zamiathen judge clash.bin book.words
zamiathen enter clash.bin book.words repair.words

title 'Platform P5 has no berths any more. It is closed for good, when an edit has taken its label off.'
zamiathen enter sheet.bin book.words retire.words
zamiathen close sheet.bin book.words P5

title 'Berth P1-S1 has to be closed: who is in the way? Tried, on the table of the station as it is now.'
zamiathen table sheet.bin berth has-platform has-slot stands-at --try fault_s1.words --book book.words --svg demo.svg

cp "$work/demo.svg" "$picture" || exit 2
title 'The same as a picture:'
echo "$picture"
