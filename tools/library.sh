#!/bin/sh
# Proves the C functions, compiles them and puts them together as one static library into build/: `rt ci` empties what is in the out/ of the crates, and
# what programs link must not vanish meanwhile. It takes its name there in one step, so that who links it finds the one before or the new one, whole.
#
# `rt lib` proves what its crate needs one crate after the other, so all crates are proved by `rt all check` first, several at a time. What that has
# proved `rt lib` does not prove again, and what `rt ci` has proved counts for neither. An object of a crate exports its C functions alone; what
# two of them share is in both, under local names, so the objects go into one archive as they are.
#
# A line for each crate goes to standard output; all that rt says goes to build/library.log.
set -u
cd "$(dirname "$0")/.." || exit 2
crates=$(sed -n 's/^\(console_[a-z]*\) staticlib:.*/\1/p' crates.txt)
[ -n "$crates" ] || { echo 'crates.txt has no crate of C functions' >&2; exit 2; }
work=$(mktemp -d) || exit 2
trap 'rm -rf "$work"' EXIT
mkdir -p build || exit 2
log=$PWD/build/library.log
: >"$log" || exit 2

fail() { cat "$log" >&2; printf 'library: %s\n' "$*" >&2; exit 1; }

# Writes what rt says into the log, and a line for each crate that is proved now: those that were proved before are only counted.
tell() {
    awk -v log_file="$log" -v left="$(grep -c '^[a-z]' crates.txt)" '
        { print >>log_file }
        /^== / { name = $2; left-- }
        /^logic=proved / { printf "%s proved; %d left\n", name, left; fflush() }'
}

# As many crates at a time as there are processors, but no more than memory holds: a check has been seen to take 4 GB.
at_once=$(awk -v most="$(getconf _NPROCESSORS_ONLN)" '
    /^MemAvailable:/ { held = int($2 / 4000000) }
    END { if (held > most) held = most; print held < 1 ? 1 : held }' /proc/meminfo)
# A pipe's status is that of its last command, so rt's own goes through a file.
{ rt all check --jobs "$at_once" 2>&1; printf '%s\n' "$?" >"$work/status"; } | tell
[ "$(cat "$work/status")" = 0 ] || fail 'a crate is not proved'

left=$(echo "$crates" | wc -w)
for crate in $crates; do
    (cd "crates/$crate" && rt lib) >>"$log" 2>&1 || fail "$crate was not compiled"
    library=$PWD/crates/$crate/out/lib$crate.a
    (cd "$work" && ar x "$library") || fail "$crate has no library"
    left=$((left - 1))
    printf '%s compiled; %d left\n' "$crate" "$left"
done
rm -f build/libconsole.a.new
ar rcD build/libconsole.a.new "$work"/*.o && mv build/libconsole.a.new build/libconsole.a
