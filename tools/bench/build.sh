# Builds one program of this folder over bindings/rust, with rustc alone; read by run.sh and desk.sh. Sets $built.
root=$(cd "$(dirname "${BASH_SOURCE[0]}")/../.." && pwd)
if [ -z "${LF_LIBRARY:-}" ]; then
  bash "$root/tools/library/build.sh"
fi
library=$(cd "${LF_LIBRARY:-$root/target/staticlib}" && pwd)
cd "$root"
built=target/bench
mkdir -p "$built"
rustc --edition 2024 -O --crate-type rlib --crate-name linefeijoa -o "$built/liblinefeijoa.rlib" bindings/rust/src/lib.rs -L "native=$library" -l static=exports
rustc --edition 2024 -O -o "$built/$1" "tools/bench/$1.rs" --extern "linefeijoa=$built/liblinefeijoa.rlib"
