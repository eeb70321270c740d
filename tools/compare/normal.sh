#!/usr/bin/env bash
# The normal form of faces, ours beside the published Face::normal, compared byte for byte.
# usage: normal.sh [FACES] [SEED]     500,000 random faces and a fixed seed unless said, after every small one
# LF_LIBRARY and ORACLE_SOURCE as in run.sh.
set -euo pipefail
here=$(cd "$(dirname "${BASH_SOURCE[0]}")" && pwd)
. "$here/build.sh" normal rust_normal
exec "$built/normal" "$@"
