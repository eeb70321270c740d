#!/usr/bin/env bash
# Times calls, the desk, texts and the normal form in two builds of our library, in one run and in turn.
# usage: versions.sh BEFORE AFTER [ROUNDS]     two folders with a libexports.a each; 2,000 rounds unless said
set -euo pipefail
root=$(cd "$(dirname "${BASH_SOURCE[0]}")/../.." && pwd)
before=$(cd "$1" && pwd)/libexports.a
after=$(cd "$2" && pwd)/libexports.a
cd "$root"
built=target/bench
mkdir -p "$built"
# Both in one program: each function gets its build's name in front.
for build in before after; do
  nm --defined-only --extern-only "${!build}" 2>/dev/null | awk -v build=$build '$2 == "T" { print $3, build "_" $3 }' >"$built/$build.syms"
  objcopy --redefine-syms="$built/$build.syms" "${!build}" "$built/lib$build.a"
done
rustc --edition 2024 -O -o "$built/versions" tools/bench/versions.rs -L "native=$built" -l static=before -l static=after
exec "$built/versions" "${3:-2000}"
