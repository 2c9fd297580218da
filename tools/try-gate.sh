#!/bin/sh
# Shows that the gate can fail: runs it on a small stand-in for this repository, with a part of each kind, once as it is and once with each fault
# that it must refuse. The gate's own scripts are those of this repository; only the run of the stored records, the program `plan` and its
# installation are stood in for.
set -u
cd "$(dirname "$0")/.." || exit 2
copy=$(mktemp -d) || exit 2
trap 'rm -rf "$copy"' EXIT
cp -r Makefile tools .ci "$copy"
cd "$copy" || exit 2
bad=0

last_parts='tools/run-samples.sh tools/program.sh tools/try-install.sh'
for part in $last_parts; do printf 'exit 0\n' >"$part"; done
mkdir -p crates/console_one/src console/src console/reference/src
printf 'console_one staticlib:\n' >crates.txt
mkdir crates/console_one/must-fail
cat >crates/console_one/src/lib.rt <<'END'
// One function for C, so that there is a library to build.
#![tactic(auto)]

ghost use Rattle.std.specs.Prelude.{◌≡◌};

// A number.
#[unsafe(no_mangle)]
pub extern "C" fn one() -> u32
    ensures { result ≡ 1 }
{
    1
}
END
edit=crates/console_one/must-fail/two.edit
printf 'file: src/lib.rt\nold:     1\nnew:     2\n' >$edit
package() { printf '[package]\nname = "%s"\nversion = "0.1.0"\nedition = "2021"\n' "$1"; }
rust_test() { printf '#[test]\nfn holds() { assert!(%s); }\n' "$1"; }
package small >console/Cargo.toml; rust_test true >console/src/lib.rs
package reference >console/reference/Cargo.toml; rust_test true >console/reference/src/lib.rs

ok() { printf 'ok: %s\n' "$*"; }
wrong() { printf 'WRONG: %s\n' "$*"; bad=1; }

# try WHAT WORD: the gate must pass for 'pass' and fail, with no line that reads as a pass at the end, for 'fail'.
try() {
    what=$1; want=$2
    if .ci/run >log 2>&1; then got=pass; else got=fail; fi
    case $(sed -n '$p' log) in *' passed, 0 failed') line=pass ;; *) line=fail ;; esac
    if [ "$got" = "$want" ] && [ "$line" = "$want" ]; then ok "$what: $got"; else wrong "$what: $got"; fi
}

# without PART: the gate must fail where a part is missing.
without() { mv "$1" away; try "without $1" fail; mv away "$1"; }

mkdir -p build; : >build/home.layout
try 'the copy as it is' pass
if grep -q '^rt: ok; .*; must-fail edits: 1 refused; ' log; then ok 'the edit is refused'; else wrong 'the edit is not refused'; fi
if [ -f build/home.layout ] && [ -f build/libconsole.a ]; then ok 'build/ is kept'; else wrong 'build/ is not kept'; fi
cp -r crates/console_one crates/other; try 'an unlisted crate' fail; rm -r crates/other
printf 'fn f() {}\n' >stray.rt; try 'a stray .rt file' fail; rm stray.rt
printf -- '-- x\n' >crates/console_one/stray.antt; try 'a stray .antt file' fail; rm crates/console_one/stray.antt
cp $edit kept
printf 'file: src/lib.rt\nold:     3\nnew:     2\n' >$edit; try 'an edit whose text no longer stands' fail
printf 'file: src/lib.rt\nold:     1\nnew:     1 + 0\n' >$edit; try 'an edit that is proved' fail
cp kept $edit
for package in console console/reference; do
    rust_test false >$package/src/lib.rs; try "a Rust test of $package that fails" fail; rust_test true >$package/src/lib.rs
done
for part in $last_parts; do
    printf 'exit 1\n' >"$part"; try "$part that fails" fail; printf 'exit 0\n' >"$part"
done
for part in crates/console_one console/Cargo.toml console/reference/Cargo.toml tools/library.sh $last_parts; do
    without "$part"
done

# From here on a stand-in for rt, which does what the variables say.
mkdir bin
cat >bin/rt <<'END'
#!/bin/sh
case $1 in
    ci) ;;
    lib) mkdir -p out; printf '%s\n' "${CODE-}" | cc -x c -c -o out/one.o - && ar rc "out/lib$(basename "$PWD").a" out/one.o; exit ;;
    *) exit ;;
esac
: >called
printf 'rt: a line\n'
while [ -n "${WAIT-}" ] && [ ! -e go ]; do sleep 1; done
printf '%s\n' "${OK-rt: ok; handles allowed: none; must-fail edits: 12 refused; every proof and must-fail edit was done in this run}"
printf '%s\n' "${LAST-3 passed, 0 failed}"
exit "${STATUS-0}"
END
chmod +x bin/rt
whole=$PATH
PATH=$copy/bin:$PATH; export PATH
try 'a stand-in for rt' pass
STATUS=1; export STATUS; try 'rt ends with status 1 and a line that reads as a pass' fail; unset STATUS
LAST='2 passed, 1 failed'; export LAST; try 'rt has another last line, and status 0' fail; unset LAST
CODE='void other(void); void one(void) { other(); }'; export CODE; try 'the library asks for another name' fail; unset CODE

OK='rt: ok; handles allowed: none; must-fail edits: 9 refused, 2 of them only by a limit; every proof and must-fail edit was done in this run'
export OK; try 'rt refuses two edits by a limit' pass
OK='rt: ok; handles allowed: none; must-fail edits: 9 refused, 3 bad; done in this run: 0 of the 3 proofs'; try 'rt has three bad edits' fail
OK='rt: ok; handles allowed: none; must-fail edits: 9 refused, 2 of them only by a limit, 11 bad; every proof'; try 'rt has a bad edit beside others' fail
OK='rt: a line'; try "rt has no line 'rt: ok'" fail; unset OK

# The gate's lines come while rt still runs.
rm -f go
WAIT=1 .ci/run >log 2>&1 &
gate=$!
tries=0
until grep -q '^rt: a line$' log || [ $tries -eq 20 ]; do sleep 1; tries=$((tries + 1)); done
if grep -q '^rt: a line$' log && kill -0 $gate; then ok 'lines come as rt prints them'; else wrong 'lines do not come as rt prints them'; fi
: >go
wait $gate || wrong 'the gate failed after it was held up'

rm -f called
make >log
if [ ! -e called ] && grep -q '^make test ' log; then ok 'a bare make prints the commands'; else wrong 'a bare make starts the gate'; fi

PATH=$whole
rm bin/rt
for tool in rt make sh sed mktemp rm dirname; do ln -s "$(command -v $tool)" "bin/$tool"; done
PATH=$copy/bin; try 'cargo is missing' fail
exit $bad
