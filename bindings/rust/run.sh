#!/usr/bin/env bash
# Layout, warnings, documentation and tests of the crate linefeijoa, without a network; everything is built below target/.
# usage: run.sh
# LF_LIBRARY is a folder with another libexports.a; else the proved one is built.
set -euo pipefail
here=$(cd "$(dirname "${BASH_SOURCE[0]}")" && pwd)
root=$(cd "$here/../.." && pwd)
if [ -z "${LF_LIBRARY:-}" ]; then
  bash "$root/tools/library/build.sh"
fi
LF_LIBRARY=$(cd "${LF_LIBRARY:-$root/target/staticlib}" && pwd)
export LF_LIBRARY
export CARGO_TARGET_DIR=${CARGO_TARGET_DIR:-$root/target/bindings}
cd "$here"
cargo fmt --check
if cargo clippy --version >/dev/null 2>&1; then
  cargo clippy --quiet --offline -j1 --all-targets -- -D warnings
fi
RUSTDOCFLAGS='-D warnings' cargo doc --quiet --offline -j1 --no-deps
cargo test --quiet --offline -j1

[ "$(cargo run --quiet --offline -j1 --example first | tail -1)" = 'yes 5, passed 6' ]
# The other example prints document 01's listing and what the desk says.
cargo run --quiet --offline -j1 --example claim -- 'entails (s z) (at0 z) ft' | diff - <(cat <<'END'
0 lt.z [] (lt z (s z))
1 interval.dim [0] (interval (s z) (dim z))
2 face.0 [1] (face (s z) (at0 z))
3 face.ft [] (face (s z) ft)
4 cover.top [] (cover (fc (at0 z) fnil) ft)
5 entails.checked [2,3,4] (entails (s z) (at0 z) ft)
yes 5
passed 6
END
)

status=0
said=$(cargo run --quiet --offline -j1 --example claim -- 'entails (s (s z)) (for (at0 z) (at1 (s z))) (at0 z)') || status=$?
[[ $status = 1 && $said = *$'refused 9: the implication does not hold\nit does not hold at _1\npassed '* ]] || { echo "$said"; exit 1; }

# Without the library the build says what to do.
mkdir -p "$CARGO_TARGET_DIR/none"
if said=$(LF_LIBRARY=$CARGO_TARGET_DIR/none CARGO_TARGET_DIR=$CARGO_TARGET_DIR/none cargo build --offline -j1 2>&1); then
  echo 'a build without the library passed'
  exit 1
fi
[[ $said = *'no libexports.a in '*'tools/library/build.sh'* ]] || { echo "$said"; exit 1; }
echo 'bindings/rust: layout, documentation, tests and example are in order'
