#!/usr/bin/env bash
# Times the step desk on full ledgers whose steps all follow.
# usage: desk.sh [ROUNDS]
# LF_LIBRARY as in tools/compare/run.sh.
set -euo pipefail
here=$(cd "$(dirname "${BASH_SOURCE[0]}")" && pwd)
. "$here/build.sh" desk
exec "$built/desk" "${1:-100}" tools/oracle/sample/small.txt tools/oracle/sample/lists.txt
