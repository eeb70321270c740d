#!/usr/bin/env bash
# Builds the published Rust with the harness and runs one command of it.
# usage: run.sh [--source FOLDER] [run | quick | sample | check FILE | answer FILE | show FILE LIST | bench | worst]
# FOLDER is the folder src of the published source; else ORACLE_SOURCE names it.
set -euo pipefail
here=$(cd "$(dirname "${BASH_SOURCE[0]}")" && pwd)
source=${ORACLE_SOURCE:-}
if [ "${1:-}" = --source ]; then
  source=${2:?a folder}
  shift 2
fi
if [ -z "$source" ] || ! ORACLE_SOURCE=$(cd "$source" 2>/dev/null && pwd); then
  echo 'no published source: give --source FOLDER, or name its folder src in ORACLE_SOURCE' >&2
  exit 2
fi
export ORACLE_SOURCE
cargo build --quiet --release --offline -j1 --manifest-path "$here/Cargo.toml"
built=${CARGO_TARGET_DIR:-$here/target}/release
if [ "${1:-}" = worst ]; then
  exec "$built/worst"
fi
exec "$built/judge" "$@"
