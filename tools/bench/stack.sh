#!/usr/bin/env bash
# How much stack our library's calls touch at the limits; a row for each call.
# usage: stack.sh
# LF_LIBRARY and ORACLE_SOURCE as in tools/compare/run.sh.
set -euo pipefail
here=$(cd "$(dirname "${BASH_SOURCE[0]}")" && pwd)
. "$here/../compare/build.sh" stack_use
exec "$built/stack_use"
