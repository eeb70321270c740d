#!/usr/bin/env bash
# The producer's limits, ours beside the published functions of its syntax.
# usage: fences.sh [FORMULAS] [SEED]     300,000 random formulas and a fixed seed unless said, after every small one
# LF_LIBRARY and ORACLE_SOURCE as in run.sh.
set -euo pipefail
here=$(cd "$(dirname "${BASH_SOURCE[0]}")" && pwd)
. "$here/build.sh" fences
exec "$built/fences" "$@"
