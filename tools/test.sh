#!/bin/sh
# The gate: proves every listed crate with `rt ci`, builds the static library of the C functions, runs the Rust tests, runs the program `plan`
# on the stored records, and installs all into a folder of its own. A part that is missing is a failure, and so is an edit that must fail but cannot
# be tried, which rt alone would let pass. The last line is rt's own 'N passed, 0 failed', and is printed only where all passed.
set -u
cd "$(dirname "$0")/.." || exit 2

fail() { printf 'test: %s\n' "$*" >&2; exit 1; }

for tool in rt cargo rustc cc ar nm python3; do
    command -v "$tool" >/dev/null 2>&1 || fail "$tool is missing"
done

work=$(mktemp -d) || exit 2
trap 'rm -rf "$work"' EXIT

# Passes each line on as it comes, but holds back one that reads as a pass until another follows; the one still held at the end goes into a file, and
# so does the line 'rt: ok', which has how many edits were refused, and how many are bad.
hold_back() {
    held=
    : >"$work/ok"
    while IFS= read -r line || [ -n "$line" ]; do
        [ -z "$held" ] || printf '%s\n' "$held"
        held=
        case $line in 'rt: ok; '*) printf '%s\n' "$line" >>"$work/ok" ;; esac
        case $line in
            *' passed, 0 failed') held=$line ;;
            *) printf '%s\n' "$line" ;;
        esac
    done
    printf '%s\n' "$held" >"$work/last"
}

# A pipe's status is that of its last command, so rt's own goes through a file.
{ rt ci 2>&1; printf '%s\n' "$?" >"$work/status"; } | hold_back
status=$(cat "$work/status") || fail "rt ci did not end"
last=$(cat "$work/last") || exit 2
[ "$status" -eq 0 ] || fail "rt ci ended with status $status"
[ -n "$last" ] || fail "rt ci's last line is not 'N passed, 0 failed'"
[ "$(wc -l <"$work/ok")" -eq 1 ] || fail "rt ci has not one line 'rt: ok'"
! grep -q ', [0-9][0-9]* bad' "$work/ok" || fail "an edit that must fail is bad: $(cat "$work/ok")"

sh tools/library.sh || fail "the static library of the C functions was not built"
# The library asks for these two names and no other, so a program with no C library can lend them.
nm -u build/libconsole.a >"$work/asked" 2>/dev/null || fail "the names that the static library asks for cannot be read"
asked=$(sed -n 's/^ *U //p' "$work/asked" | grep -v -x -e memcpy -e memset | sort -u | tr '\n' ' ')
[ -z "$asked" ] || fail "the static library of the C functions asks for $asked"
for manifest in console/reference/Cargo.toml console/Cargo.toml; do
    cargo test --release --offline --manifest-path "$manifest" || fail "a Rust test failed"
done
cargo build --release --quiet --offline --manifest-path console/Cargo.toml || fail "the command was not built"
sh tools/program.sh || fail "the program plan was not put into build/"
sh tools/run-samples.sh || fail "the program plan, or the command, printed something else than is stored"
sh tools/try-install.sh || fail "what is installed does not serve"

printf '%s\n' "$last"
