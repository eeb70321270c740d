#!/usr/bin/env bash
# Times of reading and writing faces of 511 nodes and of listings, ours beside plain Rust for the same.
# usage: texts.sh [ROUNDS]
set -euo pipefail
here=$(cd "$(dirname "${BASH_SOURCE[0]}")" && pwd)
. "$here/../compare/build.sh" text_times
exec "$built/text_times" "$@"
