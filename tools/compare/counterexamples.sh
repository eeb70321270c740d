#!/usr/bin/env bash
# Counterexamples through our library, beside every assignment on small faces and beside entails on large ones.
# usage: counterexamples.sh [TRIPLES] [LARGE] [SEED]     200,000 triples, 10,000 large questions, and a fixed seed unless said
# LF_LIBRARY and ORACLE_SOURCE as in run.sh.
set -euo pipefail
here=$(cd "$(dirname "${BASH_SOURCE[0]}")" && pwd)
. "$here/build.sh" counterexamples
exec "$built/counterexamples" "$@"
