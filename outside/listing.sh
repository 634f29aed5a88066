#!/bin/sh
# listing.sh INSPECT WORD: what the program inspect prints under --WORD (read, unfold, edges, report) of the text on standard input, without the line
# that names the file: as `outside read`, `outside unfoldings`, `outside edges` and `outside report` print it.
"${1:?usage: listing.sh INSPECT WORD}" "--${2:?usage: listing.sh INSPECT WORD}" /dev/stdin | tail -n +2
