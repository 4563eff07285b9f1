#!/bin/sh
# Proves the crates export and export_c, makes the static library of the second as libexport.a, and builds and runs the examples in C and in Rust, which print the same.
set -eu
cd "$(dirname "$0")/.."
(cd crates/export_c && rt lib >/dev/null)
out=target/examples
mkdir -p "$out"
cp crates/export_c/out/libexport_c.a "$out/libexport.a"
gcc -std=c11 -O2 -Wall -Wextra -o "$out/plan_c" examples/plan.c "$out/libexport.a"
rustc --edition 2024 -O -o "$out/plan_rs" -L "$out" -l static=export examples/plan.rs
"$out/plan_c" | tee "$out/plan_c.txt"
"$out/plan_rs" | cmp - "$out/plan_c.txt"
echo "C and Rust print the same"
