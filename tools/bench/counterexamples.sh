#!/usr/bin/env bash
# Times of counterexamples: loads, families, and the worst of many questions by chance and changed ones. Reports, and fails on no time.
# usage: counterexamples.sh [FACES] [SEED] [SECONDS] [MILLISECONDS]     20,000 questions, a fixed seed, 900 seconds, and 20,000 milliseconds for one question unless said
# LF_LIBRARY and ORACLE_SOURCE as in tools/compare/run.sh.
set -euo pipefail
here=$(cd "$(dirname "${BASH_SOURCE[0]}")" && pwd)
. "$here/../compare/build.sh" counterexample_times
exec "$built/counterexample_times" "$@"
