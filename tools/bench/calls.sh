#!/usr/bin/env bash
# Times every call of our library beside the published Rust's, on the same inputs, in turn; prints tables for docs/BENCHMARK.md.
# usage: calls.sh
# LF_LIBRARY and ORACLE_SOURCE as in tools/compare/run.sh.
set -euo pipefail
here=$(cd "$(dirname "${BASH_SOURCE[0]}")" && pwd)
. "$here/../compare/build.sh" calls
exec "$built/calls"
