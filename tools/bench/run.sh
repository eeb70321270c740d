#!/usr/bin/env bash
# Times the check of full ledgers.
# usage: run.sh [ROUNDS]
# LF_LIBRARY as in tools/compare/run.sh.
set -euo pipefail
here=$(cd "$(dirname "${BASH_SOURCE[0]}")" && pwd)
. "$here/build.sh" well_formed
exec "$built/well_formed" tools/oracle/sample/small.txt "${1:-500}"
