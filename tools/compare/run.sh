#!/usr/bin/env bash
# Random lists of calls through the published Rust and through our library, compared byte for byte.
# usage: run.sh [CALLS] [SEED]     1,000,000 calls and a fixed seed unless said
# LF_LIBRARY is a folder with another libexports.a; else the proved one is built.
# ORACLE_SOURCE is the folder src of the published source.
set -euo pipefail
here=$(cd "$(dirname "${BASH_SOURCE[0]}")" && pwd)
. "$here/build.sh" compare
exec "$built/compare" "$@"
