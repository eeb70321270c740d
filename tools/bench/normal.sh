#!/usr/bin/env bash
# Times of the normal form on the slowest faces that were found and on ordinary ones, ours beside the published Rust's.
# usage: normal.sh [ROUNDS]
# LF_LIBRARY and ORACLE_SOURCE as in tools/compare/run.sh.
set -euo pipefail
here=$(cd "$(dirname "${BASH_SOURCE[0]}")" && pwd)
. "$here/../compare/build.sh" normal_times
exec "$built/normal_times" "$@"
