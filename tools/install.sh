#!/bin/sh
# Installs what `make install` has built, or removes it: sh tools/install.sh install|uninstall, with PREFIX (/usr/local where it is not set) and
# DESTDIR, a folder that stands for the root of the system. The program `plan` is installed as dezghuri-plan: `plan` alone is anybody's name.
set -eu
cd "$(dirname "$0")/.."
prefix=${PREFIX:-/usr/local}
root=${DESTDIR-}$prefix

fail() { printf 'install: %s\n' "$*" >&2; exit 1; }

case $prefix in /*) ;; *) fail "PREFIX is a path from the root, and not '$prefix'" ;; esac
case ${DESTDIR-}$prefix in *[\ \	]*) fail "a path without spaces is wanted: pkg-config cannot tell others" ;; esac

version=$(sed -n 's/^version = "\(.*\)"$/\1/p' console/Cargo.toml)

# Each file: its mode, where it comes from, where it goes below the prefix.
files() {
    cat <<'END'
755 console/target/release/dezghuri bin/dezghuri
755 build/plan bin/dezghuri-plan
644 console/include/dezghuri.h include/dezghuri.h
644 build/libconsole.a lib/libdezghuri.a
644 build/dezghuri.pc lib/pkgconfig/dezghuri.pc
644 checker/certificate.py share/dezghuri/certificate.py
644 console/man/dezghuri.1 share/man/man1/dezghuri.1
644 console/man/dezghuri-plan.1 share/man/man1/dezghuri-plan.1
644 docs/FORMATS.md share/doc/dezghuri/FORMATS.md
644 console/completions/dezghuri.bash share/bash-completion/completions/dezghuri
644 console/completions/_dezghuri share/zsh/site-functions/_dezghuri
644 console/completions/dezghuri.fish share/fish/vendor_completions.d/dezghuri.fish
644 docs/dezghuri.schema.json share/doc/dezghuri/dezghuri.schema.json
END
}

case ${1-} in
install)
    sed "s|@PREFIX@|$prefix|; s|@VERSION@|$version|" console/dezghuri.pc.in >build/dezghuri.pc
    files | while read -r mode from to; do
        [ -f "$from" ] || fail "$from is missing: make install builds it"
        mkdir -p "$root/$(dirname "$to")"
        # Beside its place first: a program that runs is not written over.
        cp "$from" "$root/$to.new"
        chmod "$mode" "$root/$to.new"
        mv "$root/$to.new" "$root/$to"
        printf '%s\n' "$root/$to"
    done
    ;;
uninstall)
    files | while read -r mode from to; do
        rm -f "$root/$to"
        printf 'removed %s\n' "$root/$to"
    done
    ;;
*) fail 'say install or uninstall' ;;
esac
