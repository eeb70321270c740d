#!/usr/bin/env bash
# Texts through our readers and through a model of document 01's reader, compared byte for byte.
# usage: texts.sh [TEXTS] [SEED]     400,000 texts and a fixed seed unless said, each read as a face, an interval and a claim
set -euo pipefail
here=$(cd "$(dirname "${BASH_SOURCE[0]}")" && pwd)
. "$here/build.sh" texts
exec "$built/texts" "$@"
