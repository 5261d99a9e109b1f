#!/bin/sh
# Builds the library and the C client, and runs the client. Run from anywhere; everything that is made goes into target/.
set -eu
cd "$(dirname "$0")/.."
(cd crates/plan_c && rt lib)
mkdir -p target/c target/staticlib
cp crates/plan_c/out/libplan_c.a target/staticlib/libplan.a
gcc -O2 -Wall -Wextra -o target/c/client c/client.c target/staticlib/libplan.a
target/c/client
