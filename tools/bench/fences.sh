#!/usr/bin/env bash
# Times of the producer's limits, ours beside the published functions of its syntax.
# usage: fences.sh [ROUNDS]
# LF_LIBRARY and ORACLE_SOURCE as in tools/compare/run.sh.
set -euo pipefail
here=$(cd "$(dirname "${BASH_SOURCE[0]}")" && pwd)
. "$here/../compare/build.sh" fence_times
exec "$built/fence_times" "$@"
