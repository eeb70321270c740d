#!/usr/bin/env bash
# Steps looked up through our library and by the oracle's own reader of ledgers, and the names of rules.
# usage: lookups.sh [QUESTIONS] [SEED]     1,000,000 questions and a fixed seed unless said
set -euo pipefail
here=$(cd "$(dirname "${BASH_SOURCE[0]}")" && pwd)
. "$here/build.sh" lookups
exec "$built/lookups" "$@"
