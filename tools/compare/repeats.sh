#!/usr/bin/env bash
# Pairs of ledgers through our repeat test and through a model of document 01's sentence.
# usage: repeats.sh [PAIRS] [SEED]     500,000 pairs and a fixed seed unless said
set -euo pipefail
here=$(cd "$(dirname "${BASH_SOURCE[0]}")" && pwd)
. "$here/build.sh" repeats
exec "$built/repeats" "$@"
