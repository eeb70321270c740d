#!/usr/bin/env bash
# A search for questions on which our library takes long; fails if one takes over two seconds.
# usage: worst.sh [FACES] [SEED] [NODES] [SECONDS]     20,000 faces, a fixed seed, 511 nodes, 560 seconds unless said
# LF_LIBRARY and ORACLE_SOURCE as in tools/compare/run.sh.
set -euo pipefail
here=$(cd "$(dirname "${BASH_SOURCE[0]}")" && pwd)
. "$here/../compare/build.sh" worst_faces
exec "$built/worst_faces" "$@"
