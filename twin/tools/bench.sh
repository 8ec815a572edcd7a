#!/bin/sh
# The benchmark: proves and links the library, builds the twin without checks, and runs them side by side.
#   twin/tools/bench.sh cases|growth [SEED [SECONDS A MEASUREMENT]]
# EXPORTS=FILE takes a libexports.a that is already built.
set -e
here=$(cd "$(dirname "$0")/.." && pwd)
root=$(dirname "$here")
kit=$(dirname "$(rt doc)")
if [ -z "$EXPORTS" ]; then
    mkdir -p "$here/target"
    (cd "$root/crates/exports" && rt lib) >"$here/target/exports.log" 2>&1 || { tail "$here/target/exports.log"; exit 1; }
    EXPORTS=$root/crates/exports/out/libexports.a
fi
mkdir -p "$here/target/linked"
cp "$EXPORTS" "$here/target/linked/libexports.a"
cp "$kit/c/liblibc_c.a" "$here/target/linked/"
cd "$here"
cargo rustc --quiet --offline --profile fast -j1 --features proved --bin benchmark -- -L "native=$here/target/linked" -l static=exports -l static=libc_c
exec target/fast/benchmark "$@"
