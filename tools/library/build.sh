#!/usr/bin/env bash
# Proves the C functions (crates/exports_c, and all below it) and builds them: target/staticlib/libexports.a, for C and Rust.
# usage: build.sh [BACKEND]     rattle unless said, or llvm
# Rattle's own compiler makes an archive that needs no name from outside. LLVM's needs memcpy, memmove and memset; and this kit's LLVM probes
# large frames with r11 and does not keep what stands in it, so where that register is in use then, a function goes wrong (lf_normal did
# once): tools/header/run.sh looks for it by probes.py. docs/BENCHMARK.md has times and stack of both.
set -euo pipefail
root=$(cd "$(dirname "${BASH_SOURCE[0]}")/../.." && pwd)
cd "$root/crates/exports_c"
rt lib --backend "${1:-rattle}"
mkdir -p "$root/target/staticlib"
# An archive that is the same stays, so that nothing that is linked with it is built again.
if ! cmp -s out/libexports_c.a "$root/target/staticlib/libexports.a"; then
  cp out/libexports_c.a "$root/target/staticlib/libexports.a"
fi
echo 'target/staticlib/libexports.a has the functions of crates/exports_c'
