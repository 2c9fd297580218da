#!/bin/sh
# Prints rows of the table of docs/CHECK-TIMES.md: sh tools/check-times.sh [NAME..], and with no name a row for each crate that is listed.
#
# `rt ci` prints no times, so each crate has a call of its own, `rt ci NAME`. All that is below was passed by then and is kept, so that call takes the
# time of the crate's proof, of the proof of its tests and of its edits, on all processors, and some seconds for the programs and tests below. A crate
# that this machine has passed as it now stands is not proved again, and has a dash.
set -u
cd "$(dirname "$0")/.." || exit 2
work=$(mktemp -d) || exit 2
trap 'rm -rf "$work"' EXIT

# The crates in an order in which each comes after those below it.
in_order() {
    awk '/^[a-z]/ {
        name = $1; sub(/:.*/, "", name); names[++count] = name; listed[name] = 1
        line = $0; sub(/^[^:]*:/, "", line); needs[name] = line
    }
    END {
        for (left = count; left > 0; left = rest) {
            rest = 0
            for (i = 1; i <= left; i++) {
                some = split(needs[names[i]], of, " "); waits = 0
                for (j = 1; j <= some; j++) if (of[j] in listed) waits = 1
                if (waits) { names[++rest] = names[i]; continue }
                print names[i]; done[names[i]] = 1
            }
            if (rest == left) exit 1
            for (name in done) delete listed[name]
        }
    }' crates.txt
}

[ $# -gt 0 ] || set -- $(in_order)
printf '| Crate | Check and edits, s | Edits |\n|---|---|---|\n'
all=0
for crate in "$@"; do
    start=$(date +%s)
    rt ci "$crate" >"$work/log" 2>&1 || { cat "$work/log" >&2; printf 'check-times: %s does not pass\n' "$crate" >&2; exit 1; }
    seconds=$(($(date +%s) - start))
    edits=$(grep -c "^rt: must-fail $crate/[^ ]*: refused" "$work/log")
    if grep -q "^rt: $crate is kept: " "$work/log"; then seconds=-; else all=$((all + seconds)); fi
    printf '| %s | %s | %s |\n' "$crate" "$seconds" "$edits"
done
printf '| all | %s | |\n' "$all"
