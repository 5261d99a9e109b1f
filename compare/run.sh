#!/bin/sh
# compare/run.sh [SECONDS]: compares the verified library with the solver in this folder, and fuzzes its text entry.
# SECONDS, 120 if not given, are shared by the two; builds and tests come on top. Run from anywhere; everything that is
# made goes into target/. The exit status is 0 only where all agrees.
set -eu
seconds=${1:-120}
seed=${SEED:-1}
cd "$(dirname "$0")/.."
out=$PWD/target/compare
mkdir -p "$out"

# isolate OBJECT LIBRARY FUNCTION...: one object made from the library, with no names to be seen from outside but the
# functions. So libraries that share parts can be linked into one program.
isolate() {
    object=$1 library=$2
    shift 2
    wanted= kept=
    for function in "$@"; do
        wanted="$wanted -u $function"
        kept="$kept --keep-global-symbol=$function"
    done
    ld -r --force-group-allocation $wanted -o "$object" "$library"
    objcopy $kept "$object"
}

(cd crates/plan_c && rt lib)
(cd crates/scripts && rt lib)
mkdir -p target/staticlib
cp crates/plan_c/out/libplan_c.a target/staticlib/libplan.a
cp crates/scripts/out/libscripts.a target/staticlib/libscripts.a
isolate "$out/plan.o" target/staticlib/libplan.a tracks_plan
isolate "$out/scripts.o" target/staticlib/libscripts.a nulla_script

export CARGO_TARGET_DIR="$out/cargo"
cargo test --release --offline --quiet --manifest-path compare/Cargo.toml
COMPARE_OBJECTS="$out/plan.o $out/scripts.o" \
    cargo build --release --offline --quiet --manifest-path compare/Cargo.toml --features linked
cp "$CARGO_TARGET_DIR/release/compare" "$out/compare"
"${CC:-gcc}" -O1 -g -Wall -Wextra -fsanitize=address,undefined -fno-sanitize-recover=all \
    -o "$out/fuzz" compare/fuzz.c "$out/plan.o"

fuzzing=$(((seconds + 3) / 4))
"$out/compare" --seed "$seed" --seconds $((seconds - fuzzing))
"$out/fuzz" "$fuzzing" "$seed"
