#!/bin/sh
# Writes the records of this folder, byte by byte as document 01 and change request 2026-05 lay them down, and the expected output of the
# largest one. The folder's README says what each record holds and why its output is what it is.
set -eu
cd "$(dirname "$0")"

# The bytes so far, as octal escapes for printf.
bytes=
put() { for byte; do bytes="$bytes\\$((byte / 64))$((byte / 8 % 8))$((byte % 8))"; done; }
put2() { put $(($1 / 256)) $(($1 % 256)); }
put4() { put $(($1 / 16777216)) $(($1 / 65536 % 256)) $(($1 / 256 % 256)) $(($1 % 256)); }
write() { printf "$bytes" >>"$record"; bytes=; }

# cluster NAME BITS REPLICATION REDUNDANCY begins a record; node ID ZONE CAPACITY [CEILING] and row PARTITION ID.. add a field.
cluster() { record=$1.record; : >"$record"; put 1 0 1 "$2" 2 0 1 "$3" 3 0 1 "$4"; write; }
node() { put 4 0 12; put4 "$1"; put2 "$2"; put4 "$3"; put2 "${4-256}"; write; }
row() { put 5 0 $((2 + 4 * ($# - 1))); put2 "$1"; shift; for id; do put4 "$id"; done; write; }

cluster A 1 3 2
node 1 1 100; node 2 1 70; node 3 2 50

cluster B 1 3 3
node 1 1 100; node 2 1 70; node 3 2 50

cluster D 0 1 1

cluster E 1 1 1
node 1 1 10; node 2 1 4
row 0 2; row 1 2

cluster K 0 3 2
node 1 1 9; node 2 1 9; node 3 1 9; node 4 2 1
row 0 1 2 3

cluster ceiling 1 1 1
node 1 1 100 1; node 2 2 10
row 0 1; row 1 1

# Example A with nodes of ten bytes, as it was before they had ceilings.
cluster ten-bytes 1 3 2
for node in '1 1 100' '2 1 70' '3 2 50'; do
    set -- $node
    put 4 0 10; put4 "$1"; put2 "$2"; put4 "$3"; write
done

: >empty.record
printf '\001' >lone-byte.record

# 32 nodes of the largest ids, zones and capacity: four to a zone, node b (0 to 31) in zone b / 4. Row p names one node of each zone j, the one
# numbered (p + j (p / 4)) mod 4 there.
first=4294967264
id() { chosen=$((first + 4 * $2 + ($1 + $2 * ($1 / 4)) % 4)); }
cluster largest 8 8 8
b=0
while [ $b -lt 32 ]; do
    node $((first + b)) $((65528 + b / 4)) 4294967295
    b=$((b + 1))
done
printf 'size 62914560\nsent 0\nimprovements N\nfinished\n' >largest.out
p=0
while [ $p -lt 256 ]; do
    ids=
    for j in 0 1 2 3 4 5 6 7; do
        id $p $j
        ids="$ids $chosen"
    done
    row $p $ids
    printf '%d:%s\n' $p "$ids" >>largest.out
    p=$((p + 1))
done

# The largest record, and its last row 30 times more.
cp largest.record too-long.record
record=too-long.record
again=0
while [ $again -lt 30 ]; do
    row 255 $ids
    again=$((again + 1))
done
