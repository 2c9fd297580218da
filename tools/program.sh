#!/bin/sh
# Proves the program `plan`, compiles it and puts it into build/, as tools/library.sh does with the library. `rt run` also runs it: here on no input,
# of which it makes no plan.
set -u
cd "$(dirname "$0")/.." || exit 2
mkdir -p build || exit 2
(cd crates/plan && rt run </dev/null >/dev/null) || exit
cp crates/plan/out/plan build/plan.new && mv build/plan.new build/plan
