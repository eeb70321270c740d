#!/usr/bin/env bash
# Listings, printed steps and printed formulas: ours beside the published Rust's steps printed in document 01's form.
# usage: listings.sh [CLAIMS] [TEXTS] [SEED]     200,000 claims, 200,000 damaged lines, and a fixed seed unless said
set -euo pipefail
here=$(cd "$(dirname "${BASH_SOURCE[0]}")" && pwd)
. "$here/build.sh" listings rust_facesteps
exec "$built/listings" "$@"
