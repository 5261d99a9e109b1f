#!/bin/sh
# Builds the static library and the ordinary program, and times both on the same matrices. Everything goes into target/.
set -eu
cd "$(dirname "$0")/.."
(cd crates/timing && rt lib)
mkdir -p target/bench target/staticlib
cp crates/timing/out/libtiming.a target/staticlib/libtiming.a
rustc -O -o target/bench/main bench/main.rs -C link-arg=target/staticlib/libtiming.a
target/bench/main
