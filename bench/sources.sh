#!/usr/bin/env bash
# How long it takes to read and compile source files of four sizes.
#
#     bench/sources.sh
#
# It prints one line for each file: its bytes, its lines, and the milliseconds of
# `fullbasic go FILE --lines 0`, the least of five runs. Such a run reads the file, makes the program's
# body, reaches the first line and ends there, with status 6. The first row is a file of two lines: what
# it takes is the start of the script and the program, and can be taken off the other rows. Where reading
# takes a time in proportion to the size, the rest doubles from 256 to 512 KiB, and again to 1 MiB.
#
# Each line has 32 bytes. One in eight is a LET of 6 instructions, the others are remarks of one
# instruction, so that the largest body has 53,243 of the 65,535 instructions that it may have.
. "$(dirname "$0")/runs"

# A file of so many lines, the last of which is END.
make_file() { # lines
    awk -v lines="$1" 'BEGIN {
        for (line = 1; line < lines; line++) {
            statement = line % 8 == 0 ? "LET TOTAL = TOTAL + 1" : "REM a line of a ledger"
            printf "%-31s\n", sprintf("%05d %s", line, statement)
        }
        printf "%05d END\n", lines
    }' >a.bas
}

make_file 2
one_run >/dev/null || exit 1 # makes the program where it is missing
for lines in 2 2047 8191 16383 32767; do
    make_file "$lines"
    print_run
done
