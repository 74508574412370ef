#!/usr/bin/env bash
# How long it takes to test the rules of a unit with many names, in units of five sizes.
#
#     bench/names.sh
#
# It prints one line for each file, as sources.sh does: its bytes, its lines, and the milliseconds of
# `fullbasic go FILE --lines 0`. Such a run reads the file, looks up what each name of it stands for,
# tests the rules at each line, makes the program's body and ends at the first line. The first row is a
# file of two lines. Every third line is a LET of 6 instructions with three names, of 4,000 in all where
# there are enough lines; the others are remarks.
. "$(dirname "$0")/runs"

# A file of so many lines, the last of which is END.
make_file() { # lines
    awk -v lines="$1" 'BEGIN {
        for (line = 1; line < lines; line++) {
            name = line % 4000
            statement = line % 3 ? "REM a line of a ledger" : "LET V" name " = V" (name * 7 % 4000) " + V" (name * 11 % 4000)
            printf "%05d %s\n", line, statement
        }
        printf "%05d END\n", lines
    }' >a.bas
}

make_file 2
one_run >/dev/null || exit 1 # makes the program where it is missing
for lines in 2 1000 5000 10000 20000; do
    make_file "$lines"
    print_run
done
