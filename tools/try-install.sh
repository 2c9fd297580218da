#!/bin/sh
# Installs into a folder of its own, uses what is there as an owner and a C programmer would, removes it, and looks that nothing is left. `make
# install` needs build/plan and the library; both are there after the parts of the gate before this one.
set -u
cd "$(dirname "$0")/.." || exit 2
work=$(mktemp -d) || exit 2
trap 'rm -rf "$work"' EXIT
root=$work/root/opt/dezghuri

fail() { printf 'try-install: %s\n' "$*" >&2; exit 1; }

make --no-print-directory install PREFIX=/opt/dezghuri DESTDIR="$work/root" >"$work/log" 2>&1 || { cat "$work/log"; fail 'make install failed'; }

version=$("$root/bin/dezghuri" --version) || fail 'the command does not run'
[ "$version" = "dezghuri $(sed -n 's/^Version: //p' "$root/lib/pkgconfig/dezghuri.pc")" ] || fail 'dezghuri.pc has another version'
"$root/bin/dezghuri" record samples/home.txt >"$work/record" || fail 'the command writes no record'
"$root/bin/dezghuri" plan --record "$work/record" >"$work/command" || fail 'the command plans no record'
"$root/bin/dezghuri-plan" <"$work/record" >"$work/program" || fail 'dezghuri-plan does not run'
cmp -s "$work/command" "$work/program" || fail 'dezghuri and dezghuri-plan differ'
# In a folder of its own: the history of a text stands beside it.
cp samples/home.txt "$work/home.txt"
"$root/bin/dezghuri" plan "$work/home.txt" --out "$work/layout" >/dev/null || fail 'the command writes no layout'
"$root/bin/dezghuri" certify "$work/home.txt" "$work/layout" --out "$work/prices" >/dev/null || fail 'the command certifies no layout'
python3 "$root/share/dezghuri/certificate.py" "$work/home.txt" - "$work/layout" "$work/prices" >/dev/null || fail 'certificate.py passes no certificate'

cmp -s docs/FORMATS.md "$root/share/doc/dezghuri/FORMATS.md" || fail 'the formats are not installed'

# The flags that pkg-config prints, or would print: it need not be there.
if command -v pkg-config >/dev/null 2>&1; then
    flags=$(PKG_CONFIG_PATH=$root/lib/pkgconfig PKG_CONFIG_SYSROOT_DIR=$work/root pkg-config --cflags --libs dezghuri) || fail 'pkg-config fails'
else
    flags="-I$root/include -L$root/lib -ldezghuri"
fi
# shellcheck disable=SC2086
cc console/tests/c/calls.c $flags -o "$work/calls" || fail 'a C program does not link'
"$work/calls" || fail 'a C program finds wrong answers'
# A Rust program of one's own with the package beside it, and no build/: the library is that of a variable or of pkg-config, else all three are told.
mkdir -p "$work/mine/src" "$work/console"
cp -R console/Cargo.toml console/build.rs console/src console/streams console/examples console/benches "$work/console"
cp console/examples/certify.rs "$work/mine/src/main.rs"
printf '[package]\nname = "mine"\nedition = "2021"\n[dependencies]\ndezghuri = { path = "../console" }\n' >"$work/mine/Cargo.toml"
unset DEZGHURI_LIB_DIR
mine() { env "$@" CARGO_TARGET_DIR="$work/target" cargo run --quiet --offline --manifest-path "$work/mine/Cargo.toml" >"$work/out" 2>"$work/err"; }
linked() { mine "$@" && grep -q '^4 - 2 = 2: this layout sends 2$' "$work/out" || { cat "$work/err"; fail "a Rust program does not link with $1"; }; }

mine PKG_CONFIG_LIBDIR=/nowhere PKG_CONFIG_PATH= && fail 'a Rust program links without a library'
for way in 'make library' DEZGHURI_LIB_DIR PKG_CONFIG_PATH; do grep -q "$way" "$work/err" || { cat "$work/err"; fail "a missing library is told without $way"; }; done
mine DEZGHURI_LIB_DIR=/nowhere && fail 'a Rust program links with no library in the folder of the variable'
grep -q 'DEZGHURI_LIB_DIR is /nowhere' "$work/err" || { cat "$work/err"; fail 'the folder of the variable is not told'; }
linked DEZGHURI_LIB_DIR="$root/lib"
if command -v pkg-config >/dev/null 2>&1; then
    linked PKG_CONFIG_PATH="$root/lib/pkgconfig" PKG_CONFIG_SYSROOT_DIR="$work/root"
    mkdir "$work/older"
    sed 's/^Version: .*/Version: 0.0.1/' "$root/lib/pkgconfig/dezghuri.pc" >"$work/older/dezghuri.pc"
    mine PKG_CONFIG_PATH="$work/older" PKG_CONFIG_SYSROOT_DIR="$work/root" && fail 'a Rust program links with a library of another version'
fi
bash -n "$root/share/bash-completion/completions/dezghuri" 2>/dev/null || ! command -v bash >/dev/null 2>&1 || fail 'the completion for bash is at fault'

make --no-print-directory uninstall PREFIX=/opt/dezghuri DESTDIR="$work/root" >"$work/log" || fail 'make uninstall failed'
left=$(find "$work/root" ! -type d)
[ -z "$left" ] || fail "this is left: $left"
printf 'try-install: installed, used and removed\n'
