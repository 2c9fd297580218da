#!/bin/sh
# Runs the built program `plan` on each record of samples/plan and compares what it prints with what is expected there, byte for byte. Of an
# expected line 3 `improvements N` the number is free, up to 2,048. A's record is run once more in two parts, for a read that is short. The
# command's `plan --record` must print the very same, and end with status 1 where the record is refused.
set -u
cd "$(dirname "$0")/.." || exit 2
program=build/plan
command=console/target/release/dezghuri
samples=samples/plan

fail() { printf 'run-samples: %s\n' "$*" >&2; exit 1; }

[ -x "$program" ] || fail "$program is missing"
[ -x "$command" ] || fail "$command is missing"
work=$(mktemp -d) || exit 2
trap 'rm -rf "$work"' EXIT

# as_expected FILE: whether what was printed is what the file says.
as_expected() {
    if [ "$(sed -n 3p "$1")" != 'improvements N' ]; then
        cmp -s "$work/printed" "$1"
        return
    fi
    number=$(sed -n '3s/^improvements //p' "$work/printed")
    case $number in '' | *[!0-9]* | 0?* | ?????*) return 1 ;; esac
    [ "$number" -le 2048 ] || return 1
    sed "3s/ $number\$/ N/" "$work/printed" | cmp -s - "$1"
}

# compare NAME: fails unless the output expected of the record was printed.
compare() {
    as_expected "$samples/$1.out" && return
    cat "$work/printed" >&2
    fail "$1: the above was printed, which is not what is expected"
}

# compare_command NAME: fails unless the command prints what the program printed, from a file and from standard input.
compare_command() {
    case $(sed -n 1p "$work/printed") in 'refused '*) status=1 ;; *) status=0 ;; esac
    "$command" plan --record "$samples/$1.record" >"$work/again"
    [ $? -eq $status ] && cmp -s "$work/printed" "$work/again" || fail "$1: the command and the program differ"
    "$command" plan --record - <"$samples/$1.record" >"$work/again"
    [ $? -eq $status ] && cmp -s "$work/printed" "$work/again" || fail "$1: the command and the program differ on standard input"
}

count=0
for name in A B D E K ceiling ten-bytes empty lone-byte too-long largest; do
    [ -f "$samples/$name.record" ] || fail "$samples/$name.record is missing"
    "$program" <"$samples/$name.record" >"$work/printed" || fail "$name: the program ended with status $?"
    compare "$name"
    compare_command "$name"
    count=$((count + 1))
done
{ dd bs=20 count=1 2>/dev/null; sleep 1; cat; } <"$samples/A.record" | "$program" >"$work/printed"
compare A
printf 'run-samples: %d records, of each the program and the command printed what is expected\n' "$count"
