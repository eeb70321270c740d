# Builds the programs that it is given, which ask both sides; read by the scripts here and in tools/bench. Sets $built.
root=$(cd "$(dirname "${BASH_SOURCE[0]}")/../.." && pwd)
if [ -z "${ORACLE_SOURCE:-}" ] || ! ORACLE_SOURCE=$(cd "$ORACLE_SOURCE" 2>/dev/null && pwd); then
  echo 'no published source: name its folder src in ORACLE_SOURCE' >&2
  exit 2
fi
export ORACLE_SOURCE
if [ -z "${LF_LIBRARY:-}" ]; then
  bash "$root/tools/library/build.sh"
fi
LF_LIBRARY=$(cd "${LF_LIBRARY:-$root/target/staticlib}" && pwd)
export LF_LIBRARY
export CARGO_TARGET_DIR=${CARGO_TARGET_DIR:-$root/target/compare}
cargo build --quiet --release --offline -j1 --manifest-path "$root/tools/compare/Cargo.toml" "${@/#/--bin=}"
built=$CARGO_TARGET_DIR/release
