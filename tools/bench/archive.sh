#!/bin/sh
# archive.sh: target/bench/libbench.a, libbench_pack.a, libbench_render.a, libbench_score.a and libbench_tail.a, the
# crates of that name, which crates.txt lists as static libraries.
# From the repository's root. Each is a program of its own to the compiler, as one with a single engine would be.
# On x86-64 alone, for which the toolchain compiles. For the benchmark only.
set -eu
mkdir -p target/bench
case $(uname -m) in
x86_64) ;;
*) echo "archive.sh: the toolchain compiles for x86-64 alone" >&2; exit 2 ;;
esac
for crate in bench bench_pack bench_render bench_score bench_tail; do
    (cd "crates/$crate" && rt lib)
    cp "crates/$crate/out/lib$crate.a" target/bench/
done
