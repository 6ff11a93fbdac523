#!/bin/sh
# Writes the title's label file, as a publisher does: for each text a byte with its tag, a byte with its length, and its bytes
# (001, "Metadata Tags"). Nothing stands before them, between them or behind them.
#     examples/label.sh >examples/four_in_one.label
set -eu

byte() { printf "\\$(printf '%03o' "$1")"; } # NUMBER

text() { # TAG TEXT
    byte "$1"
    byte "$(printf %s "$2" | wc -c)"
    printf %s "$2"
}

# A release date is one to eight numbers: the year less 1900, month, day, hour, minute, second, and the zone's hours and minutes.
released() { # NUMBER..
    byte 4
    byte $#
    for field; do byte "$field"; done
}

text 0 'Four in One'
text 1 '4 in 1'
text 2 'A. Writer'
text 2 'B. Writer'
text 3 'Gurzhapi'
released 82 3 15
released 124
text 6 'Basketball, Skiing, Hockey and Boxing on one cartridge.'
text 7 'players=2'
text 8 'Zoë Painter'
text 15 'luigi.example/four-in-one'
